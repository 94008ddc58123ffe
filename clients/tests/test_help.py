"""What could be done about findings, and the arguments of what one writes."""

import unittest

from holls.files import File
from holls.lsp import helping
from holls.protocol import Goal, Goals, Lost, Made, Refusal
from tests.test_findings import reports, taken


def fixed(text, number=0, files=None):
    """The titles of what could be done about all that is said of a file, and its text after one of them."""
    file = taken(text)
    for entry, report in zip(file.theory.entries, reports(file)):
        entry.report = report
    return _fixed(file, [file] + (files or []), number)


def _fixed(file, every, number):
    found = helping.actions(file, "file:///A.hol", [file], every, 0, len(file.lines.text))
    if not found:
        return [], file.lines.text
    edit = found[number]["edit"]["changes"]["file:///A.hol"][0]
    start, end = (file.lines.place(edit["range"][side]["line"], edit["range"][side]["character"]) for side in ("start", "end"))
    return [one["title"] for one in found], file.lines.text[:start] + edit["newText"] + file.lines.text[end:]


def refused(text, at, refusal, every=()):
    """As `fixed`, where one command is refused and the others are accepted."""
    file = taken(text)
    for entry in file.theory.entries:
        entry.report = Made(()) if entry.text.startswith(("qed", "import")) else Goals(())
    file.entry(at).report = refusal
    return _fixed(file, [file] + list(every), 0)


class Actions(unittest.TestCase):
    def test_a_missing_end(self):
        self.assertEqual(fixed("g A `x = x`;; e REFL_TAC;; qed"), (["Add ;;"], "g A `x = x`;; e REFL_TAC;; qed;;"))
        titles, text = refused("g A `p`;;\ne REFL_TAC (* c *)\nqed;;", 1, Refusal(5, "qed", ""))
        self.assertEqual((titles[0], text), ("Add ;;", "g A `p`;;\ne REFL_TAC;; (* c *)\nqed;;"))

    def test_a_proof_that_is_not_ended(self):
        self.assertEqual(fixed("g A `x = x`;;\ne REFL_TAC;;\n\n"), (
            ["End the proof by qed", "Give the proof up by oops"], "g A `x = x`;;\ne REFL_TAC;;\nqed;;\n\n"))
        file = taken("g A `x = x`;;\ne ALL_TAC;;\n")
        for entry in file.theory.entries:
            entry.report = Goals((Goal((), (), "x = x"),))
        self.assertEqual(_fixed(file, [file], 0)[0], ["Give the proof up by oops"])  # A qed would be refused.
        titles, text = fixed("g A `x = x`;;\ne REFL_TAC;;\ng B `x = x`;; oops;;", 1)
        self.assertEqual(titles, ["End the proof before by qed", "End the proof before by oops"])
        self.assertEqual(text, "g A `x = x`;;\ne REFL_TAC;;\noops;;\ng B `x = x`;; oops;;")
        titles, text = fixed("g A `x = x`;; qed;;")
        self.assertEqual((titles, text), (["Give the proof up by oops"], "g A `x = x`;; oops;;"))

    def test_nothing_is_offered_where_nothing_is_known(self):
        self.assertEqual(refused("g A `p`;; e ALL_TAC;; oops;;", 1, Lost("hol_serve ended"))[0], [])
        self.assertEqual(fixed("g A `p`;; e SUBST_TAC [];; oops;;")[0], [])

    def test_the_name_that_was_meant(self):
        self.assertEqual(fixed("g A `x = x`;; e RELF_TAC;; oops;;"), (["Replace by REFL_TAC"], "g A `x = x`;; e REFL_TAC;; oops;;"))
        self.assertEqual(fixed("qedd;;"), (["Replace by qed"], "qed;;"))
        self.assertEqual(fixed("REFL_TAC;;")[1], "e REFL_TAC;;")
        titles, text = refused("g A `p`;; e ACCEPT_TAC TRUHT;; oops;;", 1, Refusal(5, "TRUHT", ""))
        self.assertEqual((titles[0], text), ("Replace by TRUTH", "g A `p`;; e ACCEPT_TAC TRUTH;; oops;;"))

    def test_a_cursor_asks_of_its_line(self):
        file = taken("g A `p`;;\ne RELF_TAC;;\noops;;")
        for entry, report in zip(file.theory.entries, reports(file)):
            entry.report = report
        for place in (10, 14, 21):
            titles = [it["title"] for it in helping.actions(file, "file:///A.hol", [file], [file], place, place)]
            self.assertEqual(titles, ["Replace by REFL_TAC"], place)
        for place in (0, 9, 23):
            self.assertEqual(helping.actions(file, "file:///A.hol", [file], [file], place, place), [], place)

    def test_the_theory_that_has_a_theorem_is_imported(self):
        other = File("B.hol")
        other.take("(* none *)")
        text = "(* c *)\nimport C;;\n\ng A `p`;; e ACCEPT_TAC WANTED;; oops;;"
        self.assertEqual(refused(text, 2, Refusal(5, "WANTED", ""), [other])[0], [])
        other.take("g WANTED `p`;; qed;;")
        titles, text = refused(text, 2, Refusal(5, "WANTED", ""), [other])
        self.assertEqual((titles, text.splitlines()[1:3]), (["Import B, which makes WANTED"], ["import C;;", "import B;;"]))


    def test_the_theory_that_names_a_function_is_imported_and_its_name_mended(self):
        other = File("B.hol")
        other.take("deftac BY_PARTS CONJ_TAC;;")
        titles, text = refused("g A `p`;;\ne BY_PARTS;;\noops;;", 1, Refusal(6, "BY_PARTS", ""), [other])
        self.assertEqual((titles, text.splitlines()[0]), (["Import B, which makes BY_PARTS"], "import B;;"))
        titles, text = refused("deftac CLOSE_TAC REFL_TAC;;\ng A `p`;;\ne CLSE_TAC;;\noops;;", 2, Refusal(6, "CLSE_TAC", ""))
        self.assertEqual((titles, text.splitlines()[2]), (["Replace by CLOSE_TAC"], "e CLOSE_TAC;;"))


class Signatures(unittest.TestCase):
    def at_end(self, text):
        file = taken("g A `p`;;\n" + text)
        found = helping.signature(file, len(file.lines.text))
        return found and (found["signatures"][0]["label"], found["activeParameter"])

    def test_the_function_whose_arguments_are_written(self):
        self.assertEqual(self.at_end("e X_CHOOSE_TAC "), ("X_CHOOSE_TAC `v` th", 0))
        self.assertEqual(self.at_end("e X_CHOOSE_TAC `x:A` "), ("X_CHOOSE_TAC `v` th", 1))
        self.assertEqual(self.at_end("e X_CHOOSE_TAC `x"), ("X_CHOOSE_TAC `v` th", 0))
        self.assertEqual(self.at_end("e CONJ_TAC THEN MATCH_MP_TAC (SPEC `x` "), ("SPEC `t` th", 1))
        self.assertEqual(self.at_end("e MATCH_MP_TAC (SPEC `x` TH) THEN REWRITE_TAC [A; "), ("REWRITE_TAC [th; ..]", 0))
        self.assertEqual(self.at_end("deftac CLOSE_TAC CONJ_TAC THEN ACCEPT_TAC "), ("ACCEPT_TAC th", 0))
        self.assertIsNone(self.at_end("e CONJ_TAC "))
        self.assertIsNone(self.at_end("qed "))


if __name__ == "__main__":
    unittest.main()
