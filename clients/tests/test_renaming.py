"""Other names for what files make: where they are changed, and where they aren't given."""

import pathlib
import tempfile
import unittest

from holls.findings import Severity, findings
from holls.lsp.navigation import Navigation
from holls.lsp.renaming import CannotRename, Renaming
from holls.lsp.workspace import Workspace
from tests import test_lsp
from tests.helpers import fake

A = ("import packages;;\ndefine_type exp = Numb num | Plus exp exp;;\ndefine VALUE `VALUE (Numb n) = n /\\ VALUE (Plus a b) = VALUE a + VALUE b`;;\n"
     "inductive STAR `(!x. STAR R x x) /\\ (!x y z. R x y /\\ STAR R y z ==> STAR R x z)`;;\nrecord point = Point across:num;;\n"
     "new_definition JOIN_DEF `JOIN (m:num) n = m + n`;;\ninfixr 16 >< JOIN;;\ntheorems BASIC = [VALUE; exp_CASES];;\n")
B = ("import A;;\ng APART `!n a b. ~(Numb n = Plus a b)`;;\ne REWRITE_TAC [distinctness \"exp\"; FORALL_SIMP];;\nqed;;\n"
     "g SOME `!x:exp. VALUE x = VALUE x`;;\ne INDUCT_ON `x` THEN REWRITE_TAC [BASIC; FORALL_SIMP];;\nqed;;\n"
     "g STAYS `!(R:num->num->bool) x y. STAR R x y ==> T`;;\ne RULE_INDUCT STAR THEN REWRITE_TAC [GSYM VALUE; exp_INJECTIVE; STAR_RULES; point_EXT];;\n"
     "g SUM `!exp:num. m >< exp = JOIN m exp`;;\ne MATCH_MP_TAC exp_SPLIT;;\noops;;\ng LAST `point_across (Point n) = n`;;\ne REWRITE_TAC [point_FIELDS];;\nqed;;\n")


class InAProject(unittest.TestCase):
    def setUp(self):
        folder = tempfile.TemporaryDirectory()
        self.addCleanup(folder.cleanup)
        self.folder = pathlib.Path(folder.name).resolve()
        (self.folder / "A.hol").write_text(A)
        self.workspace = Workspace()
        self.document = self.workspace.open((self.folder / "B.hol").as_uri(), 1, B)
        self.navigation = Navigation(self.workspace)

    def renaming(self):
        return Renaming(self.navigation, self.document, self.workspace.groups()[str(self.folder)])

    def renamed(self, before, new):
        """The texts of the two files after what stands behind a text in the second one has another name."""
        edits = self.renaming().edits(B.index(before) + len(before), new)
        return [_changed(text, edits.get((self.folder / name).as_uri(), [])) for name, text in (("A.hol", A), ("B.hol", B))]

    def refused(self, before, new="fresh"):
        with self.assertRaises(CannotRename) as told:
            self.renaming().edits(B.index(before) + len(before), new)
        return str(told.exception)

    def test_what_a_package_makes_of_a_name_changes_with_it(self):
        first, second = self.renamed("!x:", "term")
        self.assertEqual(first, A.replace("exp_", "term_").replace("type exp", "type term").replace("exp exp;;", "term term;;"))
        self.assertEqual(second, B.replace('"exp"', '"term"').replace("x:exp", "x:term").replace("exp_", "term_"))
        first, second = self.renamed("RULE_INDUCT ", "CHAIN")
        self.assertEqual((first, second), (A.replace("STAR", "CHAIN"), B.replace("STAR", "CHAIN")))
        first, second = self.renamed("GSYM ", "WORTH")
        self.assertEqual((first, second), (A.replace("VALUE", "WORTH"), B.replace("VALUE", "WORTH")))
        self.assertEqual(self.renamed("~(", "Num")[1], B.replace("Numb", "Num"))

    def test_what_is_written_anew_says_the_same(self):
        for before, new in (("!x:", "term"), ("RULE_INDUCT ", "CHAIN"), ("GSYM ", "WORTH"), ("~(", "Num"), ("exp = ", "GLUE")):
            with self.subTest(new):
                first, second = self.renamed(before, new)
                with tempfile.TemporaryDirectory() as folder:
                    (pathlib.Path(folder) / "A.hol").write_text(first)
                    workspace = Workspace()
                    document = workspace.open((pathlib.Path(folder).resolve() / "B.hol").as_uri(), 1, second)
                    files = [file for group in workspace.groups().values() for file in group]
                    told = [one.text for file in files if file.name in "AB" for one in findings(file) if one.severity <= Severity.ERROR]
                    self.assertEqual(told, [])
                    self.assertEqual(len(document.file.commands), len(self.document.file.commands))

    def test_an_operator_and_a_bound_variable_stay(self):
        first, second = self.renamed("exp = ", "GLUE")
        self.assertEqual((first, second), (A.replace("`JOIN", "`GLUE").replace(">< JOIN", ">< GLUE"), B.replace("= JOIN", "= GLUE")))
        self.assertIn("this stands for `JOIN`", self.refused("m "))

    def test_what_can_have_no_other_name_is_told(self):
        for before, words in (("~", "no theorem, constant"), ("SOME `!", "no theorem, constant"), ("BASIC; ", "`FORALL_SIMP` is of the theory"),
                              ("GSYM VALUE; ", "`exp_INJECTIVE` is made of `exp` by this define_type: rename that"),
                              ("`", "`point_across` is made of `point` by this record")):
            with self.subTest(before):
                self.assertIn(words, self.refused(before) if before != "`" else self.refused("g LAST `"))

    def test_a_name_that_has_a_meaning_is_refused(self):
        for new, words in (("1x", "is no name"), ("", "is no name"), ("THEN", "word of the language"), ("REWRITE_TAC", "word of the language"), ("bool", "the prelude's"),
                           ("pk_x", "those of packages"), ("num", "stands already, in the theory numbers"), ("point", "stands already, in the theory A"),
                           ("m", "stands already, on line 6 of")):
            with self.subTest(new):
                self.assertIn(words, self.refused("!x:", new))
        self.assertIn("`STAYS` stands already", self.refused("GSYM ", "STAYS"))
        self.assertIn("term_CASES", self.renamed("!x:", "term")[0])
        self.assertEqual(self.renaming().edits(B.index("x:exp") + 3, "exp"), {})


class OverTheBridge(unittest.TestCase):
    def test_a_name_is_changed_by_the_editors_own_command(self):
        folder = tempfile.TemporaryDirectory()
        self.addCleanup(folder.cleanup)
        uri = (pathlib.Path(folder.name) / "A.hol").as_uri()
        editor = test_lsp.Editor(fake(folder.name))
        self.addCleanup(editor.kill)
        editor.begin(None)
        editor.open(uri, "g ONCE `x = x`;;\ne REFL_TAC;;\nqed;;\ng B `x = x`;;\ne ACCEPT_TAC ONCE;;\nqed;;\n")
        at = {"textDocument": {"uri": uri}, "position": {"line": 4, "character": 15}}
        self.assertEqual(editor.ask("textDocument/prepareRename", at), {"start": {"line": 4, "character": 13}, "end": {"line": 4, "character": 17}})
        edits = editor.ask("textDocument/rename", dict(at, newName="TWICE"))["changes"][uri]
        self.assertEqual([(one["range"]["start"], one["newText"]) for one in edits], [({"line": 0, "character": 2}, "TWICE"), ({"line": 4, "character": 13}, "TWICE")])
        self.assertIn("stands already", editor.ask("textDocument/rename", dict(at, newName="B"))["message"])
        self.assertEqual(editor.end(), 0)


def _changed(text, edits):
    """A text of ASCII after edits of it."""
    lines = text.split("\n")
    for edit in sorted(edits, key=lambda one: (one["range"]["start"]["line"], one["range"]["start"]["character"]), reverse=True):
        start, end = edit["range"]["start"], edit["range"]["end"]
        line = lines[start["line"]]
        lines[start["line"]] = line[:start["character"]] + edit["newText"] + line[end["character"]:]
    return "\n".join(lines)
