"""Cutting, places and differences."""

import random
import time
import unittest

from holls import places
from holls.difference import REMOVE, REPLACE, difference
from holls.text import cut
from tests.helpers import proofs


def texts(source):
    return [command.text for command in cut(source).commands]


class Cutting(unittest.TestCase):
    def test_ends_each_command_at_two_semicolons(self):
        self.assertEqual(texts("g A `x = x`;;\n e REFL_TAC;;qed;; "), ["g A `x = x`", "e REFL_TAC", "qed"])

    def test_leaves_out_nested_comments_and_what_they_hold(self):
        self.assertEqual(texts("(* a (* ;; *) b *) e (* in it ;; *) X;; (* behind *)"), ["e   X"])
        self.assertEqual(texts("g A `x (* here too ;; *) = x`;;"), ["g A `x   = x`"])

    def test_sends_ascii_for_symbols(self):
        self.assertEqual(texts("g A `∀x. ∃!y. ¬¬p ∧ q ∨ (λz. z) ⇒ r ⇔ s`;;"), ["g A `!x. ?!y. ~  ~p /\\ q \\/ (\\z. z) ==> r <=> s`"])
        self.assertEqual(texts("g A `∃∀x. p`;;"), ["g A `?  !x. p`"])

    def test_a_last_line_without_an_end_costs_what_it_is_long(self):
        begun = time.process_time()
        self.assertEqual(places.Lines("a\n" + "x" * 200_000).starts, [0, 2])
        self.assertEqual(places.Lines("x" * 200_000).starts, [0])
        self.assertLess(time.process_time() - begun, 1)

    def test_tells_of_an_unclosed_comment_and_keeps_what_is_above(self):
        found = cut("qed;; (* a (* b *) ;; qed;;")
        self.assertEqual([command.text for command in found.commands], ["qed"])
        self.assertEqual([(blemish.start, blemish.is_error) for blemish in found.blemishes], [(6, True)])

    def test_warns_of_a_missing_end_and_of_an_empty_command(self):
        found = cut("qed;; ;; e X")
        self.assertEqual([(blemish.start, blemish.is_error) for blemish in found.blemishes], [(6, False), (11, False)])
        self.assertEqual(texts("qed;; ;; e X"), ["qed", "e X"])

    def test_strips_the_white_space_of_the_notation_alone(self):
        self.assertEqual(texts("\ufeff\r\n\t qed \u00a0;;"), ["qed \u00a0"])

    def test_replaces_half_a_character(self):
        self.assertEqual(texts("g A `\ud800`;;"), ["g A `\ufffd`"])

    def test_leads_back_to_the_file(self):
        source = "(* é 😀 *) g (* x *) A `∀x. p ∧ q` ;;"
        command = cut(source).commands[0]
        for at, character in enumerate(command.text):
            if character.isalnum() or character in ".`":
                self.assertEqual(source[command.place(at)], character)
        self.assertEqual(source[command.place(command.text.index("!"))], "∀")
        self.assertEqual(source[command.place(command.text.index("\\"))], "∧")
        self.assertEqual(source[command.start:command.end], "g (* x *) A `∀x. p ∧ q`")

    def test_random_files_keep_their_offsets(self):
        source = random.Random(7)
        for _ in range(300):
            parts = [source.choice(["(* c ;; *)", "(* (* *) é *)", " ", "\n", "é", "∀", "ab", "c`", ";;", "\r\n"]) for _ in range(30)]
            text = "".join(parts)
            ends = -1
            for command in cut(text).commands:
                self.assertLess(ends, command.start)
                ends = command.end
                shown = [(at, character) for at, character in enumerate(command.text) if character in "abcé`"]
                self.assertTrue(all(text[command.place(at)] == character for at, character in shown), (text, command))

    def test_what_stays_of_an_edited_file_is_cut_as_it_is_afresh(self):
        source = random.Random(5)
        pieces = ["g A `p`;;\n", "e X;;", ";;", ";", "(*", "*)", "(* c *)", " ", "\n", "∀x. ∃!", "é", "\ufeff", "e ", "`", "\ud800", "qed;;\n"]
        text, before = "", cut("")
        for _ in range(2500):
            start = source.randrange(len(text) + 1)
            end = min(len(text), start + source.choice((0, 0, 1, 3, 9)))
            old, text = text, text[:start] + "".join(source.choices(pieces, k=source.randrange(4))) + text[end:]
            text = text[:400] if source.random() < 0.99 else ""
            before = cut(text, old, before)
            self.assertEqual(parts(before), parts(cut(text)), (old, text))

    def test_takes_below_20_ms_for_1000_commands(self):
        source = proofs(250)
        best = min(_seconds(lambda: difference(texts(source), texts(source) + ["qed"])) for _ in range(9))
        self.assertLess(best / 2, 0.020)


def parts(found):
    """What a cut file consists of."""
    commands = [(command.text, command.start, command.end, command.marks, command.word, command.name) for command in found.commands]
    return commands, found.comments, sorted(found.blemishes, key=lambda one: (one.start, one.text)), found.pieces


def _seconds(work):
    start = time.process_time()
    work()
    return time.process_time() - start


class Places(unittest.TestCase):
    def test_counts_utf16_units(self):
        lines = places.Lines("ab\r\n😀x\né")
        self.assertEqual(lines.utf16(5), (1, 2))
        self.assertEqual(lines.place(1, 2), 5)
        self.assertEqual(lines.place(1, 3), 6)
        self.assertEqual((lines.place(0, 99), lines.place(9, 0), lines.place(2, 1)), (2, 8, 8))

    def test_changes_a_range(self):
        self.assertEqual(places.changed(places.Lines("ab\ncd"), (0, 1), (1, 1), "X\n"), ("aX\nd", 3))
        self.assertEqual(places.changed(places.Lines("a😀b"), (0, 3), (0, 4), ""), ("a😀", 2))


class Differences(unittest.TestCase):
    def test_one_changed_command_is_one_edit(self):
        old = texts(proofs(250))
        new = old[:500] + ["e OTHER"] + old[501:]
        self.assertEqual([(edit.op, edit.at) for edit in difference(old, new)], [("replace", 500)])

    def test_random_edits_give_the_new_list(self):
        source = random.Random(3)
        for _ in range(2000):
            old = [source.choice("abc") for _ in range(source.randrange(8))]
            new = [source.choice("abc") for _ in range(source.randrange(8))]
            for served in ((REPLACE, REMOVE), (REMOVE,), (REPLACE,), ()):
                edits = difference(old, new, served)
                if edits is None:
                    self.assertNotIn(REMOVE, served)
                    continue
                standing = list(old)
                for edit in edits:
                    self.assertIn(edit.op, served + ("insert",))
                    edit.apply(standing)
                self.assertEqual(standing, new)

    def test_changes_apart_are_edits_of_their_own_where_there_is_room(self):
        old = texts(proofs(240))
        new = ["qed", *old[:500], "e OTHER", *old[501:-2]]
        wanted = [("insert", 0), ("replace", 501), ("remove", 960), ("remove", 959)]
        self.assertEqual([(edit.op, edit.at) for edit in difference(old, new)], wanted)
        old = texts(proofs(250))
        edits, most = difference(old, ["qed", *old[:500], *old[501:]]), [1000]
        for edit in edits:
            most.append(most[-1] + (edit.op == "insert") - (edit.op == "remove"))
        self.assertEqual(max(most), 1000)

    def test_an_insertion_needs_nothing_but_insert(self):
        self.assertEqual([(edit.op, edit.at) for edit in difference(["a", "b"], ["a", "c", "b"], ())], [("insert", 1)])
        self.assertIsNone(difference(["a", "b"], ["a", "c"], ()))


if __name__ == "__main__":
    unittest.main()
