"""The part of a step at a place, and what leads to the goals before it."""

import random
import unittest

from holls.lsp.beginnings import part_at


class Parts(unittest.TestCase):
    def at(self, text, mark):
        """The part at the first place of a mark."""
        return part_at(text, text.index(mark))

    def test_what_leads_to_the_goals_before_a_part(self):
        for text, mark, wanted in (
                ("A THEN B THEN C", "A", None), ("A THEN B THEN C", "B", "A"), ("A THEN B THEN C", "C", "A THEN B"),
                ("A THENL [B; C THEN D; E]", "B", "A THENL [ALL_TAC; ALL_TAC; ALL_TAC]"), ("A THENL [B; C THEN D; E]", "D", "A THENL [ALL_TAC; C; ALL_TAC]"),
                ("A THEN (B THENL [C; D THEN X])", "X", "A THEN B THENL [ALL_TAC; D]"), ("(A THEN B) THEN C", "B", "A"), ("(A THEN B) THEN C", "C", "(A THEN B)"),
                ("A THEN TRY (B THEN C)", "C", "A THEN B"), ("A THEN REPEAT (B THEN C)", "B", "A THEN ALL_TAC"), ("A ORELSE B THEN C", "C", "B"),
                ("A ORELSE B THEN C", "B", None), ("A THEN (B ORELSE C)", "C", "A THEN ALL_TAC"), ("A THEN EVERY [B; C; D]", "D", "A THEN (B) THEN (C) THEN ALL_TAC"),
                ("A THEN FIRST [B; C THEN D]", "D", "A THEN C"), ("A THEN B (SPEC `x; THEN [` T)", "T)", "A"), ("TRY (A THEN B)", "B", "A")):
            with self.subTest(text=text, mark=mark):
                self.assertEqual(self.at(text, mark).beginning, wanted)

    def test_which_of_the_goals_are_the_parts_own(self):
        part = self.at("A THENL [B; C THENL [D; X; F]; G]", "X")
        self.assertEqual((part.first, part.last, part.beginning), (2, 2, "A THENL [ALL_TAC; C THENL [ALL_TAC; ALL_TAC; ALL_TAC]; ALL_TAC]"))
        self.assertEqual(part.whole, "A THENL [ALL_TAC; C THENL [ALL_TAC; X; ALL_TAC]; ALL_TAC]")

    def test_a_part_on_one_goal_alone(self):
        self.assertEqual(self.at("A THEN (B THEN C)", "C").on(1, 3), "A THEN B THENL [ALL_TAC; C; ALL_TAC]")
        self.assertTrue(self.at("A ORELSE B", "B").is_alternative)
        self.assertFalse(self.at("A THEN B", "B").is_alternative)

    def test_no_text_is_too_wild(self):
        source = random.Random(5)
        pieces = ["A", " THEN ", " THENL ", " ORELSE ", "(", ")", "[", "]", ";", "`", " TRY (", " EVERY [", " "]
        for _ in range(2000):
            text = "".join(source.choice(pieces) for _ in range(source.randrange(1, 14)))
            for place in range(len(text) + 1):
                part = part_at(text, place)
                if part is not None:
                    self.assertIsInstance(part.whole, str)
                    self.assertIsInstance(part.on(0, 2), str)
        self.assertIsNone(part_at("(" * 5000, 4999))


if __name__ == "__main__":
    unittest.main()
