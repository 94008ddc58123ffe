"""What a project's files know: completion, hovers, definitions, references, symbols, links; and that the manual is that of the pages."""

import json
import pathlib
import re
import tempfile
import unittest

import colours
from holls import binders, manual, names, notation, protocol
from holls.lsp import completion, features, hovering, lookup
from holls.lsp.navigation import Navigation
from holls.lsp.workspace import Workspace
from holls.surface import declarations
from tests.fake_server import Documents
from tests.helpers import ROOT

A = "new_constant c `:A->bool`;;\ng ONCE `x = x /\\ y = y`;;\ne CONJ_TAC;;\ne REFL_TAC;; e REFL_TAC;;\nqed;;\ng GONE `x = x`;; oops;;\ndeftac HALVES CONJ_TAC;;\n"
B = "import A;;\nnew_definition D_DEF `d x = c x`;;\nnew_basic_type_definition ty abs rep ABS_REP REP_ABS ONCE;;\n"
C = "import B;;\n(* ONCE *)\ng LAST `c x = d (abs x)`;;\ne ACCEPT_TAC ONCE;;\ne REWRITE_TAC [D_DEF; ABS_REP];;\nqed;;\ne \n"


class InAProject(unittest.TestCase):
    def setUp(self):
        folder = tempfile.TemporaryDirectory()
        self.addCleanup(folder.cleanup)
        self.folder = pathlib.Path(folder.name).resolve()
        for name, text in (("A", A), ("B", B), ("OTHER", "import C;;\nnew_axiom ELSE `c`;;\n")):
            (self.folder / (name + ".hol")).write_text(text)
        self.workspace = Workspace()
        self.document = self.workspace.open((self.folder / "C.hol").as_uri(), 1, C)
        self.files = self.workspace.groups()[str(self.folder)]
        self.navigation = Navigation(self.workspace)
        self.run_all()

    def run_all(self):
        """Takes the fake server's reports, as far as it runs the commands."""
        documents = Documents()
        for place, file in enumerate(self.files):
            documents.new_theory({"name": file.name, "at": place})
            for at, entry in enumerate(file.theory.entries):
                documents.insert({"theory": file.name, "at": at, "text": entry.text})
                entry.report = protocol.reply(json.dumps(documents.report({"theory": file.name, "at": at})).encode())

    def labels(self, before):
        """The likeliest labels behind a text in the document, and all of them with their details."""
        place = C.index(before) + len(before)
        found = completion.at(self.files, self.document.project.names(), self.document.file, place)
        found.sort(key=lambda one: one["sortText"])
        return [one["label"] for one in found], {one["label"]: one["detail"] for one in found}

    def test_completion_knows_what_may_stand_where(self):
        self.assertEqual(set(self.labels("qed;;\n")[0]), {*notation.COMMANDS, *manual.PACKAGES, *manual.DECLARATIONS})
        self.assertEqual(self.labels("import ")[0], ["A", "B", "OTHER"])
        theorems, details = self.labels("ACCEPT_TAC ")
        self.assertLess({"ONCE", "D_DEF", "ABS_REP", "TRUTH", "SPEC", "THEN", "CONJ_TAC"}, set(theorems))
        self.assertFalse({"GONE", "LAST", "c", "ELSE"} & set(theorems))
        self.assertLess(theorems.index("ONCE"), theorems.index("ALL_TAC"))
        self.assertEqual((details["ONCE"], details["D_DEF"]), ("|- x = x /\\ y = y", "|- d x = c x"))
        self.assertEqual(details["MATCH_MP_TAC"], "MATCH_MP_TAC th")
        functions, _ = self.labels("e ")
        self.assertLess(functions.index("CONJ_TAC"), functions.index("ONCE"))
        in_list, _ = self.labels("REWRITE_TAC [D_DEF; ")
        self.assertLess(in_list.index("ABS_REP"), in_list.index("CONJ_TAC"))
        quoted, details = self.labels("LAST `")
        self.assertLess({"c", "d", "abs", "rep", "ty", "T", "ONE_ONE", "bool"}, set(quoted))
        self.assertFalse({"ONCE", "CONJ_TAC"} & set(quoted))
        self.assertEqual(details["c"], "A->bool")

    def test_a_symbol_stands_behind_a_backslash(self):
        document = self.workspace.open((self.folder / "S.hol").as_uri(), 1, "g A `\\for")
        found = completion.at([document.file], [], document.file, 9)
        self.assertEqual(found[0]["textEdit"], {"range": {"start": {"line": 0, "character": 5}, "end": {"line": 0, "character": 9}}, "newText": "∀"})
        document = self.workspace.open((self.folder / "S.hol").as_uri(), 1, "g A `p /\\ q")
        self.assertNotIn("\\forall", [one["label"] for one in completion.at([document.file], [], document.file, 10)])

    def hover(self, text, more=1):
        word = lookup.word(self.files, self.document.file, C.index(text) + more)
        return hovering.of_word(word, None)

    def test_a_hover_gives_statement_and_type_and_what_a_function_does(self):
        self.assertEqual(self.hover("ONCE;;"), "```hol\nONCE: |- x = x /\\ y = y\n```\n\ntheorem of A")
        self.assertIn("D_DEF: |- d x = c x", self.hover("D_DEF"))
        self.assertIn("not proved or checked yet", self.hover("D_DEF"))
        self.assertIn("c : A->bool", self.hover("c x", 0))
        self.assertIn("Closes the goal that the theorem concludes.", self.hover("ACCEPT_TAC"))
        word = lookup.word(self.files, self.document.file, C.index("B;;"))
        self.assertEqual(hovering.of_word(word, None), "the theory B")

    def test_a_prelude_theorem_has_its_statement(self):
        document = self.workspace.open((self.folder / "P.hol").as_uri(), 1, "g A `T`;; e ACCEPT_TAC TRUTH;; e REWRITE_TAC [ETA_AX];;")
        word = lookup.word([document.file], document.file, document.file.lines.text.index("ETA_AX"))
        self.assertIn("ETA_AX: |- !t:A->B. (\\x. t x) = t\n```\n\nan axiom of the prelude", hovering.of_word(word, None))

    def test_a_variables_type_is_not_asked_where_the_theorys_end_reads_it_otherwise(self):
        text = "g A `!x:A. x = y`;; oops;;\n"
        for more, asks in (("new_constant z `:A`;;", True), ("new_constant y `:A`;;", False), ("new_axiom y `p`;;", True)):
            document = self.workspace.open((self.folder / "Q.hol").as_uri(), 1, text + more)
            word = lookup.word([document.file], document.file, text.index("x = y"))
            self.assertEqual(hovering.question(document.file, word) is not None, asks)

    def test_a_bound_name_is_no_constant_and_a_types_name_is_a_types(self):
        text = "import B;;\nnew_constant ty `:ty`;;\ng X `c x /\\ (!c:ty->bool. c = c) /\\ ty = x`;;\n"
        document = self.workspace.open((self.folder / "D.hol").as_uri(), 1, text)
        files = self.workspace.groups()[str(self.folder)]

        def meant(before):
            word = lookup.word(files, document.file, text.index(before) + len(before))
            return word.known and (word.known.kind, word.known.origin)

        self.assertEqual(meant("g X `"), ("constant", "A"))
        self.assertEqual([meant(before) for before in ("!", "bool. ", "bool. c = ")], [None, None, None])
        self.assertEqual([meant(before) for before in ("!c:", "new_constant ty `:")], [("type", "B"), ("type", "B")])
        self.assertEqual([meant(before) for before in ("new_constant ", "c) /\\ ")], [("constant", "D"), ("constant", "D")])

        def used(before):
            found = self.navigation.references(document, files, text.index(before) + len(before), True)
            places = [(pathlib.PurePosixPath(one["uri"]).name, one["range"]["start"]) for one in found]
            return [(place["line"], place["character"]) for name, place in places if name == "D.hol"]

        self.assertEqual(used("g X `"), [(2, 5)])
        self.assertEqual(used("!c:"), [(1, 18), (2, 16)])
        self.assertEqual(used("c) /\\ "), [(1, 13), (2, 36)])

    def test_a_named_function_is_completed_shown_and_found_and_no_theorem_of_its_name(self):
        text = ("import B;;\ndeftac ONCE REPEAT\n  HALVES;;\ndeftac ABS_REP ONCE;;\ng N `HALVES /\\ p`;;\n"
                "e ONCE THENL [HALVES; TRY (ACCEPT_TAC ONCE); SUBGOAL_THEN `p` ABS_REP];;\ne H")
        document = self.workspace.open((self.folder / "N.hol").as_uri(), 1, text)
        files = self.workspace.groups()[str(self.folder)]

        def word(before):
            return lookup.word(files, document.file, text.index(before) + len(before))

        self.assertEqual(hovering.of_word(word("REPEAT\n  "), None), "```hol\ndeftac HALVES CONJ_TAC\n```\n\ntactic of A")
        shown = "```hol\ndeftac ONCE REPEAT HALVES\n```\n\ntactic of N, not proved or checked yet"
        self.assertEqual([hovering.of_word(word(before), None) for before in ("deftac ", "ABS_REP ", "\ne ")], [shown] * 3)
        self.assertEqual(word("ACCEPT_TAC ").known.kind, names.THEOREM)
        self.assertEqual(word("`p` ").known.kind, names.TACTIC)
        self.assertIsNone(word("g N `").known)

        def used(before):
            found = self.navigation.references(document, files, text.index(before) + len(before), True)
            return sorted((pathlib.PurePosixPath(one["uri"]).name, one["range"]["start"]["line"]) for one in found)

        self.assertEqual(used("REPEAT\n  "), [("A.hol", 6), ("N.hol", 2), ("N.hol", 5)])
        self.assertEqual(used("deftac "), [("N.hol", 1), ("N.hol", 3), ("N.hol", 5)])
        self.assertEqual(used("ACCEPT_TAC "), [("A.hol", 1), ("B.hol", 2), ("C.hol", 3), ("N.hol", 5)])
        found = self.navigation.definition(document, files, text.index("HALVES"))
        self.assertEqual((pathlib.PurePosixPath(found["uri"]).name, found["range"]["start"]), ("A.hol", {"line": 6, "character": 7}))

        def completed(before):
            found = completion.at(files, [], document.file, text.rindex(before) + len(before))
            return {one["label"]: (one["detail"], one["sortText"]) for one in found if one["kind"] == completion.METHOD}

        self.assertEqual(completed("\ne ")["HALVES"], ("CONJ_TAC", "0HALVES"))
        self.assertEqual(completed("ABS_REP ")["ONCE"], ("REPEAT HALVES", "0ONCE"))
        self.assertEqual(completed("ACCEPT_TAC ")["HALVES"][1], "3HALVES")
        self.assertEqual((completed("g N `"), completed("deftac ")), ({}, {}))
        outline = [(one["name"], one["kind"], one["detail"]) for one in features.symbols(document.file)]
        self.assertEqual(outline[:2], [("ONCE", 6, "REPEAT HALVES"), ("ABS_REP", 6, "ONCE")])

    def target(self, text, more=0):
        found = self.navigation.definition(self.document, self.files, C.index(text) + more)
        return found and (pathlib.PurePosixPath(found["uri"]).name, found["range"]["start"]["line"], found["range"]["start"]["character"])

    def test_definitions_through_imports(self):
        self.assertEqual(self.target("ONCE;;"), ("A.hol", 1, 2))
        self.assertEqual(self.target("ABS_REP"), ("B.hol", 2, 37))
        self.assertEqual(self.target("c x"), ("A.hol", 0, 13))
        self.assertEqual(self.target("d (abs"), ("B.hol", 1, 22))
        self.assertEqual(self.target("B;;"), ("B.hol", 0, 0))
        self.assertEqual(self.target("LAST"), ("C.hol", 2, 2))
        self.assertIsNone(self.target("ACCEPT_TAC"))

    def test_references_symbols_and_links(self):
        found = self.navigation.references(self.document, self.files, C.index("ONCE;;"), True)
        places = [(pathlib.PurePosixPath(one["uri"]).name, one["range"]["start"]["line"]) for one in found]
        self.assertEqual(sorted(places), [("A.hol", 1), ("B.hol", 2), ("C.hol", 3)])
        self.assertEqual(len(self.navigation.references(self.document, self.files, C.index("ONCE;;"), False)), 2)
        found = self.navigation.references(self.document, self.files, C.index("c x"), True)
        self.assertEqual(sorted(pathlib.PurePosixPath(one["uri"]).name for one in found), ["A.hol", "B.hol", "C.hol", "OTHER.hol"])
        symbols = [one["name"] for one in self.navigation.symbols("abs", {self.document.project.key: self.files})]
        self.assertEqual(set(symbols[:2]), {"abs", "ABS_REP"})
        self.assertIn("ELSE", [one["name"] for one in self.navigation.symbols("els", {self.document.project.key: self.files})])
        links = self.navigation.links(self.document, self.files)
        self.assertEqual([(one["range"]["start"], one["target"][-5:]) for one in links], [({"line": 0, "character": 7}, "B.hol")])

    def test_searching_finds_what_stands_in_all_files_and_its_statements_are_read_ahead(self):
        self.assertEqual(len(list(self.navigation.reading({self.document.project.key: self.files}))), 7)  # Of A two, of B three, of C and OTHER one each.
        found = self.searched("x = x /\\ _")
        self.assertEqual([(one["name"], one["theory"], one["isMade"]) for one in found], [("ONCE", "A", True)])
        self.assertEqual(found[0]["location"]["range"]["start"], {"line": 1, "character": 2})
        found = self.searched("d x = c x")
        self.assertEqual([(one["name"], one["isMade"]) for one in found], [("D_DEF", False)])
        found = self.searched("else")
        self.assertEqual([(one["name"], one["isMade"]) for one in found], [("ELSE", False)])

    def searched(self, query):
        """What a query finds in the project's files."""
        found = self.navigation.search(query, False, {self.document.project.key: self.files})
        return [one for one in found if not one["theory"].endswith(", not imported")]

    def test_theories_of_the_library_are_searched_though_nothing_imports_them(self):
        found = self.navigation.search("add_sym", False, {self.document.project.key: self.files})
        self.assertEqual([(one["name"], one["statement"], one["theory"], one["isMade"]) for one in found][0],
                         ("ADD_SYM", "!m n. m + n = n + m", "arithmetic, not imported", True))
        self.assertTrue(found[0]["location"]["uri"].endswith("/theories/arithmetic.hol"))
        found = self.navigation.search("m + n = n + m", False, {self.document.project.key: self.files})
        self.assertIn("ADD_SYM", [one["name"] for one in found])

    def test_theorems_of_theories_that_are_not_imported_are_offered_with_the_import(self):
        text = C.replace("ACCEPT_TAC ONCE", "ACCEPT_TAC ADD_SY")
        document = self.workspace.open((self.folder / "C.hol").as_uri(), 2, text)
        files = self.workspace.groups()[str(self.folder)]
        found = completion.at(files, [], document.file, text.index("ADD_SY") + len("ADD_SY"))
        offered = {one["label"]: one for one in found if "additionalTextEdits" in one}
        self.assertEqual(offered["ADD_SYM"]["detail"], "of arithmetic, which isn't imported")
        self.assertEqual(offered["ADD_SYM"]["additionalTextEdits"], [
            {"range": {"start": {"line": 1, "character": 0}, "end": {"line": 1, "character": 0}}, "newText": "import arithmetic;;\n"}])
        self.assertTrue(all(label.startswith("ADD_SY") for label in offered))
        at_once = text.replace("ADD_SY", "ELS")
        document = self.workspace.open((self.folder / "C.hol").as_uri(), 3, at_once)
        found = completion.at(self.workspace.groups()[str(self.folder)], [], document.file, at_once.index("ELS") + 3)
        self.assertNotIn("ELSE", [one["label"] for one in found])  # Its theory imports this one.


class TypesOfVariables(unittest.TestCase):
    def asked(self, text, at):
        found = binders.question(text, text.index(at))
        return found and found[len("g holls_whole `(\\holls_whole. T) ("):-len(")`")].replace("holls_", "")

    def test_the_variable_is_marked_where_it_is_bound(self):
        text = "g A `!x:A. P x ==> (?y. R x y) /\\ Q`"
        self.assertEqual(self.asked(text, "x y"), "!x:A. (\\unused:bool.  P x ==> (?y. R x y) /\\ Q) (mark x)")
        self.assertEqual(self.asked(text, "y)"), "!x:A. P x ==> (?y. (\\unused:bool.  R x y) (mark y)) /\\ Q")
        self.assertEqual(self.asked(text, "Q"), "(\\unused:bool. !x:A. P x ==> (?y. R x y) /\\ Q) (mark Q)")
        self.assertEqual(self.asked("g A `!(x:A->B) y z. x y = z`", "z."), "!(x:A->B) y z. (\\unused:bool.  x y = z) (mark z)")
        self.assertEqual(self.asked("g A `(!x. P x) ==> x`", "x`"), "(\\unused:bool. (!x. P x) ==> x) (mark x)")
        self.assertIsNone(self.asked("g A `!x:A->B. T`", "A->"))
        self.assertIsNone(self.asked("g A `x`", "A"))

    def test_the_type_is_that_of_the_marks_argument(self):
        for free, said in (("A->bool", "A"), ("(A->B)->bool", "A->B"), ("(A->B) list->bool", "(A->B) list"), ("A", None)):
            self.assertEqual(binders.answer(("P:bool", "holls_mark:" + free)), said)


class Manual(unittest.TestCase):
    def test_it_has_the_names_of_the_pages(self):
        page = (ROOT / "docs" / "TACTICS.md").read_text(encoding="utf-8")
        names = [name for row in re.findall(r"^\| ([A-Z][A-Z0-9_, ]*_TAC) \|", page, re.M) for name in row.split(", ")]
        self.assertEqual(set(names), set(manual.FUNCTIONS))
        grammar = (ROOT / "docs" / "NOTATION.md").read_text(encoding="utf-8")
        reserved = re.search(r"^Reserved: (.*?)\. Command words", grammar, re.M | re.S).group(1)
        self.assertEqual(set(re.findall(r"`(\w+)`", reserved)), set(protocol.RESERVED))
        commands = re.search(r"^command := (.*?)^```", grammar, re.M | re.S).group(1)
        self.assertEqual(set(re.findall(r"(?:^|\| )([a-z_]+)\b", commands)), set(manual.COMMANDS))

    def test_it_has_the_tactics_of_the_program_with_what_they_take(self):
        source = (ROOT / "crates" / "hol_goal" / "src" / "tac_code.rt").read_text(encoding="utf-8")
        kinds = dict(re.findall(r"TacCode::(\w+) => ArgumentKind::(\w+)", source))
        words = {"Nothing": "", "Term": "a term", "Pair": "a pair of terms", "Theorem": "a theorem", "TermAndTheorem": "a term and a theorem",
                 "Theorems": "a list of theorems"}
        self.assertEqual({name: words[kinds[code]] for code, name in re.findall(r'TacCode::(\w+) => "(\w+)"', source)}, notation.TACS)

    def test_the_editors_colour_its_words(self):
        self.assertEqual(colours.stale(), [], "python3 clients/colours.py --write")
        for place in colours.PLACES:
            text = place.file.read_text(encoding="utf-8")
            less = colours.made(place._replace(words=place.words[1:]), text)
            self.assertNotEqual(less, text)
            self.assertEqual(colours.made(place, less), text)
            with self.assertRaises(ValueError):
                colours.made(place, "no words")
        self.assertEqual(set(manual.DECLARATIONS), set(declarations.WORDS))
        self.assertLessEqual(set(declarations.WORDS) - {"local"}, set(colours.DECLARATIONS))

    def test_the_preludes_statements_are_those_of_the_page(self):
        page = (ROOT / "docs" / "NOTATION.md").read_text(encoding="utf-8")
        self.assertEqual(dict(re.findall(r"^\| ([A-Z0-9_]+) \| `([^`]*)` \|$", page, re.M)), manual.PRELUDE)


if __name__ == "__main__":
    unittest.main()
