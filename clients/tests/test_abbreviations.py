"""Abbreviations: what is read in their place, with places both ways, and where what is wrong with one is told."""

import time
import unittest

from holls import spelling
from holls.files import File
from holls.graph import share_notation
from tests.test_packages import library, read, told

BELOW = "abbreviate `below x y = x < y /\\ ~(x = 0)`;;\n"


class Abbreviations(unittest.TestCase):
    def sent(self, text):
        """What is sent of a file's last command."""
        return read(text).commands[-1].text

    def test_a_term_stands_for_the_name_and_its_arguments(self):
        for written, wanted in (
                ("below a (b + 1)", "lt a (add b _1) /\\ ~(a = _0)"), ("!x. below x 1", "!x. lt x _1 /\\ ~(x = _0)"),
                ("f below", "f (\\x y. lt x y /\\ ~(x = _0))"), ("ALL (below y) l", "ALL (\\y'. lt y y' /\\ ~(y = _0)) l"),
                ("!below. below x", "!below. below x"), ("below (below p q) q", "lt (lt p q /\\ ~(p = _0)) q /\\ ~((lt p q /\\ ~(p = _0)) = _0)")):
            self.assertEqual(self.sent(BELOW + "g A `%s`;;" % written), "g A `%s`" % wanted)

    def test_nothing_is_captured(self):
        text = "abbreviate `some x = ?y. x < y`;;\n"
        self.assertEqual(self.sent(text + "g A `!y. some (y + 1)`;;"), "g A `!y. ?y'. lt (add y _1) y'`")
        self.assertEqual(self.sent(text + "g A `!lt. some lt`;;"), "")
        self.assertEqual(told(text + "g A `!lt. some lt`;;\n")[0],
                         ("some", "the bound variable `lt` hides the constant in what `some` stands for: rename the variable"))

    def test_one_stands_in_another_and_may_be_taken_back(self):
        text = "abbreviate `twice f x = f (f x)`;;\nabbreviate `four x = twice (twice SUC) x`;;\n"
        self.assertEqual(self.sent(text + "g A `four 0 = n`;;"), "g A `(\\x. SUC (SUC x)) ((\\x. SUC (SUC x)) _0) = n`")
        self.assertEqual(self.sent(text + "no_notation four;;\ng A `four 0 = n`;;"), "g A `four _0 = n`")

    def test_an_operator_and_importing_files(self):
        first, second, third = File("first.hol"), File("second.hol"), File("third.hol")
        first.take("import packages;;\ninfixr 12 << below;;\n" + BELOW.replace("below x y", "x << y") + "local abbreviate `own x = x + 1`;;")
        second.take("import first;;\ng A `a << b`;;")
        third.take("import first;;\ng A `own b`;;")
        share_notation([*library(), first, second, third])
        self.assertEqual(second.commands[-1].text, "g A `lt a b /\\ ~(a = _0)`")
        self.assertEqual(third.commands[-1].text, "g A `own b`")
        self.assertEqual([one.text for one in first.notation.blemishes], [])

    def test_places_lead_both_ways(self):
        file = read(BELOW + "g A `p ==> below a (b + 1) ==> q`;;")
        command, whole = file.commands[-1], file.lines.text
        self.assertEqual(whole[slice(*command.range(command.text.index("lt"), command.text.index("lt") + 2))], "below a (b + 1)")
        at = command.text.index("q`")
        self.assertEqual(whole[slice(*command.range(at, at + 1))], "q")
        self.assertEqual(command.text[command.offset(whole.index("b + 1")):][:1], "b")

    def test_the_plain_file_has_terms_in_their_place(self):
        text, troubles = spelling.expanded(read(BELOW + "g A `below a b`;;\n"))
        self.assertEqual(troubles, [])
        self.assertIn("(* abbreviate `below x y = x < y /\\ ~(x = 0)`;; *)", text)
        self.assertIn("g A `lt a b /\\ ~(a = _0)`;;", text)

    def test_what_is_wrong_is_told_at_its_word(self):
        for text, where, words in (
                ("abbreviate `a x = k`;;", "k", "no argument and no constant"), ("abbreviate `a x = a x`;;", "a x", "can't stand in itself"),
                ("abbreviate `SUC x = x`;;", "SUC", "stands already"), ("abbreviate `a (x:num) = x`;;", "(x:num)", "has no type"),
                ("abbreviate `a x x = x`;;", "x", "stands twice"), ("abbreviate;;", "abbreviate", "of the form"), ("abbreviate `a x`;;", "x", "is missing"),
                (BELOW + "abbreviate `below = T`;;", "abbreviate `below = T`", "another term already"), ("abbreviate `a x = x +`;;", "+", "ends too soon"),
                ("no_notation below;;", "below", "no abbreviation")):
            with self.subTest(text):
                found = told(text)
                self.assertEqual(len(found), 1, found)
                self.assertIn(words, found[0][1])
                self.assertIn(where, found[0][0])

    def test_hostile_texts_end_soon(self):
        begun = time.process_time()
        growing = "abbreviate `d0 x = x,x`;;\n" + "".join("abbreviate `d%d x = d%d (d%d x)`;;\n" % (at + 1, at, at) for at in range(40))
        self.assertIn("over 20000 nodes", told(growing)[0][1])
        deep = "abbreviate `d x = %sx%s`;;" % ("SUC (" * 5000, ")" * 5000)
        self.assertIn("too deeply", told(deep)[0][1])
        many = BELOW + "g A `%s`;;\noops;;" % " /\\ ".join("below a b" for _ in range(2000))
        self.assertEqual(told(many), [])
        self.assertLess(time.process_time() - begun, 10)


if __name__ == "__main__":
    unittest.main()
