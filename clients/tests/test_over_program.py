"""`holls lsp` over the built program, where it is."""

import pathlib
import shutil
import tempfile
import time
import unittest

from tests.helpers import BUILT, ROOT
from tests.test_lsp import Editor


@unittest.skipUnless(BUILT.is_file(), "hol_serve isn't built")
class OverTheProgram(unittest.TestCase):
    def test_an_example_is_proved_broken_and_mended(self):
        editor = Editor(str(BUILT))
        self.addCleanup(editor.kill)
        editor.begin()
        uri, text = "file:///first.hol", (ROOT / "examples" / "theories" / "first.hol").read_text()
        editor.open(uri, text)
        line = text[:text.index("e CONJ_TAC")].count("\n")
        goals = editor.goals(uri, line, 3)["goals"]["goals"]
        self.assertEqual([goal["ty"] for goal in goals], ["x = x", "(?y. R x y) <=> (?z. R x z)"])
        editor.until(lambda: uri in editor.published)
        self.assertEqual(editor.said(uri), [])
        editor.change(uri, 2, "DISJ1_TAC", ((line, 2), (line, 10)))
        editor.until(lambda: (line, 1) in [found[:2] for found in editor.said(uri)])
        editor.change(uri, 3, "CONJ_TAC", ((line, 2), (line, 11)))
        editor.until(lambda: editor.said(uri) == [] and editor.versions[uri] == 3)
        last = text[:text.rindex("qed")].count("\n")
        hover = editor.hover(uri, last, 1, "rests on")
        self.assertIn("thm EITHER |- (p <=> q) \\/ (r <=> r)\nrests on no axioms", hover["contents"]["value"])
        line = text[:text.index("R x y")].count("\n")
        hover = editor.hover(uri, line, text.split("\n")[line].index("R x y") + 4, "y : B")
        self.assertIn("y : B", hover["contents"]["value"])
        self.assertEqual(editor.end(), 0)

    def test_a_found_proof_is_put_behind_its_command(self):
        editor = Editor(str(BUILT))
        self.addCleanup(editor.kill)
        editor.begin()
        uri, text = "file:///found.hol", "import nothing;;\ng A `(!x:A. P x ==> Q x) /\\ P a ==> ?x. Q x`;;\n"
        editor.open(uri, text)
        editor.goals(uri, 1, 3)
        span = {side: {"line": 1, "character": 3} for side in ("start", "end")}
        found = editor.ask("textDocument/codeAction", {"textDocument": {"uri": uri}, "range": span, "context": {"diagnostics": []}})
        action = next(one for one in found if one["title"] == "Find a proof")
        edit = editor.ask("codeAction/resolve", action)["edit"]["changes"][uri][0]
        at = edit["range"]["start"]
        self.assertEqual((at, edit["range"]["end"]), ({"line": 1, "character": text.split("\n")[1].index(";;") + 2}, at))
        editor.change(uri, 2, edit["newText"] + "\nqed;;", ((1, at["character"]), (1, at["character"])))
        editor.until(lambda: editor.versions.get(uri) == 2 and [one[:2] for one in editor.said(uri)] == [(0, 1)])
        self.assertEqual(editor.end(), 0)

    def offered(self, editor, uri, line):
        """The actions at a line."""
        span = {side: {"line": line, "character": 3} for side in ("start", "end")}
        return editor.ask("textDocument/codeAction", {"textDocument": {"uri": uri}, "range": span, "context": {"diagnostics": []}})

    def test_other_proofs_are_offered_in_the_place_of_the_one_that_was_found(self):
        editor = Editor(str(BUILT))
        self.addCleanup(editor.kill)
        editor.begin()
        uri, text = "file:///others.hol", "g A `(!x:A. P x ==> Q x) /\\ P a ==> ?x. Q x`;;\n"
        editor.open(uri, text)
        editor.goals(uri, 0, 3)
        offered = self.offered(editor, uri, 0)
        self.assertFalse([one for one in offered if one["title"].startswith("Instead")])
        action = next(one for one in offered if one["title"] == "Find a proof")
        edit = editor.ask("codeAction/resolve", action)["edit"]["changes"][uri][0]
        at = edit["range"]["start"]["character"]
        editor.change(uri, 2, edit["newText"], ((0, at), (0, at)))
        found = []
        while not found:
            time.sleep(0.2)
            found = [one for one in self.offered(editor, uri, 0) if one["title"].startswith("Instead: ")]
        other = found[0]["edit"]["changes"][uri][0]
        self.assertTrue(other["newText"].startswith("\ne STRIP_TAC THEN EXISTS_TAC `a:A` THEN ACCEPT_TAC"), other)
        self.assertEqual(other["newText"].count(";;"), 1)
        last = edit["newText"].split("\n")[-1]
        self.assertEqual(other["range"], {"start": {"line": 0, "character": at}, "end": {"line": 2, "character": len(last)}})
        editor.change(uri, 3, other["newText"] + "\nqed;;", ((0, at), (2, len(last))))
        editor.until(lambda: editor.versions.get(uri) == 3 and not editor.said(uri))
        self.assertIn("Instead: e STRIP_TAC THEN EXISTS_TAC `a:A`;; e ACCEPT_TAC",
                      "".join(one["title"] for one in self.offered(editor, uri, 0) if one["title"].startswith("Instead: ")))
        self.assertEqual(editor.end(), 0)

    def test_a_step_that_names_a_search_is_replaced_by_what_it_finds(self):
        editor = Editor(str(BUILT))
        self.addCleanup(editor.kill)
        editor.begin()
        uri = "file:///wanted.hol"
        editor.open(uri, "new_constant P `:A->bool`;; new_constant Q `:A->bool`;; new_axiom TURNED `!x:A. P x ==> Q x`;;\n"
                         "g A `P (a:A) ==> Q a`;;\ne MESON_TAC [TURNED];;\nqed;;\ng B `p:bool`;;\ne FOO_TAC;;\n")
        editor.goals(uri, 2, 3)
        editor.until(lambda: editor.said(uri))
        found = [one for one in self.offered(editor, uri, 2) if one["title"] == "Replace MESON_TAC by the steps of a proof"]
        answer = editor.ask("codeAction/resolve", found[0])
        edit = answer.get("edit", answer)["changes"][uri][0]
        self.assertEqual(edit["range"], {"start": {"line": 2, "character": 0}, "end": {"line": 2, "character": 20}})
        self.assertIn("TURNED", edit["newText"])
        self.assertEqual([one["title"] for one in self.offered(editor, uri, 5) if one["title"].startswith("Replace")], [])
        self.assertEqual(editor.end(), 0)

    def test_arithmetic_is_offered_with_the_import_that_it_needs(self):
        editor = Editor(str(BUILT))
        self.addCleanup(editor.kill)
        editor.begin()
        with tempfile.TemporaryDirectory() as folder:
            for name in ("logic", "numbers", "arithmetic", "linear"):
                shutil.copy(str(ROOT / "theories" / (name + ".hol")), folder)
            path = pathlib.Path(folder) / "mine.hol"
            path.write_text("import arithmetic;;\n\ng A `le m n ==> lt m (SUC n)`;;\n")
            uri = path.as_uri()
            editor.open(uri, path.read_text())
            editor.goals(uri, 2, 3)
            span = {side: {"line": 2, "character": 3} for side in ("start", "end")}
            every = editor.ask("textDocument/codeAction", {"textDocument": {"uri": uri}, "range": span, "context": {"diagnostics": []}})
            action = next(one for one in every if one["title"] == "Find a proof by arithmetic")
            edits = editor.ask("codeAction/resolve", action)["edit"]["changes"][uri]
            self.assertEqual(sorted(one["range"]["start"]["line"] for one in edits), [0, 2])
            self.assertIn("\nimport linear;;", [one["newText"] for one in edits])
            self.assertEqual(editor.end(), 0)

    def test_the_goals_within_a_step_and_the_part_that_is_refused(self):
        editor = Editor(str(BUILT))
        self.addCleanup(editor.kill)
        editor.begin()
        uri = "file:///inside.hol"
        text = "g A `p /\\ q ==> q /\\ p`;;\ne STRIP_TAC;;\ne CONJ_TAC THEN ASM_REWRITE_TAC [] THEN ALL_TAC;;\nqed;;\n"
        text += "g B `!x:A. x = x /\\ (p ==> p)`;;\ne GEN_TAC THEN CONJ_TAC THEN REFL_TAC;;\noops;;\n"
        text += "g C `(p ==> p) /\\ (q ==> r ==> q)`;;\ne CONJ_TAC THENL [DISCH_TAC THEN ASM_REWRITE_TAC []; DISCH_TAC THEN (REFL_TAC ORELSE DISCH_TAC)];;\n"
        editor.open(uri, text)
        editor.until(lambda: uri in editor.published)
        second = editor.hover(uri, 2, text.split("\n")[2].index("ASM_REW") + 1, "before this part")["contents"]["value"]
        self.assertIn("before this part:\ngoal 1 of 2\n  p : bool\n  q : bool\n  0  p\n  1  q\n  " + "-" * 40 + "\n  q\n", second)
        first = editor.hover(uri, 2, 3, "before this part")["contents"]["value"]
        self.assertIn("before this part:\n1 goal\n", first)
        broken = editor.hover(uri, 5, text.split("\n")[5].index("REFL_TAC") + 1, "refused in this part")["contents"]["value"]
        self.assertIn("refused in this part, on goal 2 of 2: ", broken)
        last = text.split("\n")[8]
        branch = editor.hover(uri, 8, last.index("REFL_TAC") + 1, "before this part")["contents"]["value"]
        self.assertIn("before this part:\n1 goal\n  q : bool\n  r : bool\n  0  q\n  " + "-" * 40 + "\n  r ==> q\n", branch)
        other = editor.hover(uri, 8, last.index("ASM_REW") + 1, "before this part")["contents"]["value"]
        self.assertIn("before this part:\n1 goal\n  p : bool\n  0  p\n", other)
        either = editor.hover(uri, 8, last.rindex("DISCH_TAC") + 1, "before this part")["contents"]["value"]
        self.assertIn("  r ==> q\n", either)
        whole = editor.hover(uri, 1, 3, "STRIP_TAC")["contents"]["value"]
        self.assertNotIn("before this part", whole)
        self.assertEqual(editor.end(), 0)
