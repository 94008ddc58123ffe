"""A type that a quotation leaves open: it is told as the cause of a refusal, and the goal says what it is."""

import unittest

from holls import protocol, words
from holls.bound import bound_type
from holls.findings import findings
from holls.fixes import fixes
from holls.protocol import Goal, Goals, Refusal
from tests.test_findings import taken


class Types(unittest.TestCase):
    def of(self, conclusion, *free, binder="?"):
        return bound_type(Goal((), free, conclusion), binder)

    def test_what_a_goal_tells_of_its_bound_variable(self):
        self.assertEqual(self.of("?x. Q x", "Q:A->bool"), "A")
        self.assertEqual(self.of("?x y. R a y x", "R:num->B->(A->B)->bool", "a:num"), "(A->B)")
        self.assertEqual(self.of("?x. !y. P y ==> x = a", "P:A->bool", "a:list A"), "list A")
        self.assertEqual(self.of("!n. Q n /\\ T", "Q:num->bool", binder="!"), "num")
        for conclusion, free in (("?x. x = x", ()), ("?x. f (g x)", ("f:A->bool",)), ("!x. Q x", ("Q:A->bool",)), ("Q x", ("Q:A->bool",)), ("?x. (", ()),
                                 ("?x. Q (x", ("Q:A->bool",)), ("?x. (\\x. Q x) a", ("Q:B->bool", "a:B"))):
            self.assertIsNone(self.of(conclusion, *free), conclusion)

    def test_the_cause_is_said_and_a_fix_writes_the_type(self):
        file = taken("g A `?x:A. Q x`;;\ne (EXISTS_TAC `y`);;\n")
        file.entry(0).report = Goals((Goal((), ("Q:A->bool",), "?x. Q x"),))
        file.entry(1).report = Refusal(protocol.REFUSED, "EXISTS_TAC", "refused")
        found = next(finding for finding in findings(file) if finding.refusal)
        self.assertTrue(found.text.startswith("EXISTS_TAC doesn't fit the first goal: it wants ?x. p, with a term of x's type; a variable y has its type left open"))
        fix, = fixes(found, file, [file], [file])
        text = file.lines.text
        self.assertEqual((fix.title, text[:fix.start] + fix.text + text[fix.end:]), ("Write its type: y:A", "g A `?x:A. Q x`;;\ne (EXISTS_TAC `y:A`);;\n"))

    def test_where_a_type_is_written_or_the_step_is_not_alone_nothing_is_guessed(self):
        for text in ("e (EXISTS_TAC `y:A`)", "e (EXISTS_TAC `f y`)", "e (EXISTS_TAC `T`)", "e (ACCEPT_TAC (ASSUME `y`))"):
            self.assertNotIn("left open", words.explain(text, Refusal(protocol.REFUSED, text.split("(")[1].split(" ")[0], "refused"))[2], text)
        self.assertFalse(words.is_alone("e ALL_TAC THEN EXISTS_TAC `y`", "EXISTS_TAC"))


if __name__ == "__main__":
    unittest.main()
