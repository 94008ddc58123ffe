"""Notation in files: what is sent of them, what is said and shown of them, and files put into notation and out of it."""

import argparse
import contextlib
import io
import json
import pathlib
import random
import tempfile
import unittest

from holls import check, fixes, graph, names, protocol, search, spelling
from holls.files import File
from holls.findings import Severity, findings
from holls.lsp import completion, goals, hovering, lookup, numerals
from holls.lsp.workspace import Workspace
from holls.prover.command import in_notation_at
from holls.protocol import Goal, Goals, Made, Refusal
from holls.text import cut
from holls.view import PLAIN, View
from tests import forked
from tests.helpers import BUILT, ROOT
from tests.test_lsp import Editor

NUMBERS = """new_type num 0;;
new_constant add `:num->num->num`;; new_constant lt `:num->num->bool`;;
new_constant _0 `:num`;; new_constant _1 `:num`;; new_constant BIT0 `:num->num`;; new_constant BIT1 `:num->num`;;
infixr 16 + add;;
infixr 12 < lt;;
notation num _0 _1 BIT0 BIT1;;
local infixl 18 ++ add2;;
new_constant prod2 `:num->num`;;
"""


def loaded(**texts):
    """Files by their names, each knowing what it imports."""
    made = {name: File(name + ".hol") for name in texts}
    for name, file in made.items():
        file.take(texts[name])
    graph.with_imports(list(made.values()), lambda _, name: "no " + name)
    return made


def sent(file):
    """What is sent of a file."""
    return [entry.text for entry in file.theory.entries]


def read(file):
    """What a file's commands are in notation, with the places that they lead to, and what is declared and shown behind each."""
    notation = file.notation
    commands = [(command.text, command.start, command.end, command.range(0, len(command.text)), command.word, command.name, str(command.error), command.package and
                 command.package.text) for command in notation.commands]
    shown = [View.of(file, number).term("lt (add _1 y) (prod2 z)") for number in range(len(commands))]
    return (commands, shown, {number: str(one) for number, one in notation.declared.items()}, notation.blemishes, notation.misread, notation.names.constants,
            notation.names.constructors, notation.has_packages, notation.lists, notation.simple, sent(file), file.starts, file.blemishes)


def said(file):
    """The findings as what they mark, their severity and their words."""
    return [(file.lines.text[one.start:one.end], one.severity, one.text) for one in findings(file)]


class InFiles(unittest.TestCase):
    def test_declarations_take_no_slot_and_importers_have_them(self):
        files = loaded(A=NUMBERS, B="import A;;\ng X `x + 2 < 3`;;\ne ALL_TAC;;", C="import B;;\ng Y `1 < x`;;")
        self.assertEqual(sent(files["A"])[-2:], ["new_constant BIT1 `:num->num`", "new_constant prod2 `:num->num`"])
        self.assertEqual(sent(files["B"]), ["import A", "g X `lt (add x (BIT0 _1)) (BIT1 _1)`", "e ALL_TAC"])
        self.assertEqual(sent(files["C"]), ["import B", "g Y `lt _1 x`"])
        self.assertEqual([files["A"].slot(number) for number in (6, 7, 8, 9, 10, 11)], [6, None, None, None, None, 7])
        self.assertEqual([words for _, _, words in said(files["A"])], ["nothing makes the constant add2 in this file or in those that it imports"])

    def test_a_file_without_declarations_is_sent_as_it_is(self):
        for path in sorted((ROOT / "examples" / "theories").glob("*.hol")):
            file = File(str(path))
            file.take(path.read_text())
            if not any(command.word in ("infixr", "infixl", "notation", "type_infixr", "import") for command in file.cut.commands):
                self.assertEqual([command.text for command in file.commands], [command.text for command in file.cut.commands])
                self.assertIs(file.commands[0], file.cut.commands[0])

    def test_whichever_file_is_asked_for_first_those_that_it_imports_are_read_before_it(self):
        for seed in range(40):
            source, texts = random.Random(seed), {}
            for at, name in enumerate("ABCDEFG"):
                imports = source.sample("ABCDEFG"[:at], source.randrange(at + 1))
                texts[name] = "".join("import %s;;\n" % other for other in imports) + "infixr 16 op%s c%s;;\n" % (name, name) + "".join(
                    "g X%s `x op%s y`;;\n" % (other, other) for other in "ABCDEFG"[:at])
            in_order, at_last = loaded(**texts), loaded(**texts)
            wanted = {name: [command.text for command in in_order[name].commands] for name in "ABCDEFG"}
            self.assertEqual({name: [command.text for command in at_last[name].commands] for name in "GFEDCBA"}, wanted, seed)

    def test_what_stays_of_an_edited_file_is_read_as_it_is_afresh(self):
        """Random edits of a file with names, declarations, proofs with rules, packages and names for terms, and of what it imports."""
        source = random.Random(11)
        pieces = ["g X%d `x + 1 < n`;;\n", "e REWRITE_TAC [GSYM X%d];;\n", "e EXISTS_TAC `2 + x`;;\n", "qed;;\n", "qed;;\n", "oops;;\n", "new_constant c%d `:num`;;\n",
                  "infixl 18 ** prod2;;\n", "no_notation +;;\n", "new_definition D%d `f x = x + 1`;;\n", "new_type t%d 1;;\n", "(* c *)", "import A;;\n"]
        seldom = ["let k = `3 + x`;;\n", "theorems all = [X1; X2];;\n", "sorry;;\n", "define f%d `f n = n + 1`;;\n", "simp [X1];;\n"]
        texts, kept = {"A": NUMBERS, "B": "import A;;\n"}, 0
        files = loaded(**texts)
        for number in range(300):
            name = "A" if source.random() < 0.05 else "B"
            parts = texts[name].splitlines(True)
            at = source.randrange(1, len(parts) + 1)
            piece = "".join(source.choice(seldom if source.random() < 0.03 else pieces).replace("%d", str(source.randrange(4))) for _ in range(source.randrange(3)))
            texts[name] = "".join(parts[:at]) + piece + "".join(parts[at + source.choice((0, 0, 1, 2)):][:40])
            files[name].take(texts[name])
            graph.with_imports(list(files.values()), lambda _, name: "no " + name)
            afresh = loaded(**texts)
            for one in "AB":
                self.assertEqual(read(files[one]), read(afresh[one]), (number, one, texts))
            kept += len(files["B"].cut.commands) - files["B"].notation.number_read
        self.assertGreater(kept, 1000)

    def test_behind_an_edited_step_nothing_is_read_anew(self):
        """Random edits of steps, also into what is no step, can't be read, has rules, or is a package's."""
        source, proof = random.Random(5), "g X%d `x + %d < n`;;\ne EXISTS_TAC `2 + x`;;\n  e ALL_TAC THEN REWRITE_TAC [X0];;\ne EXISTS_TAC `y + 1` (* c *);;\nqed;;\n"
        steps = ["e EXISTS_TAC `%d + z`", "e ALL_TAC", "e EXISTS_TAC `1 +`", "e (* d *) EXISTS_TAC `x:num`", "e REWRITE_TAC [GSYM X0]", "e INDUCT_ON `x`", "qed", "e",
                 "new_constant k `:num`", "e X `let y = 1 in y`", "", "let k = `1 + x`"]
        begun = NUMBERS.replace("local infixl 18 ++ add2;;\n", "") + "".join(proof % (at, at) for at in range(8))
        text, few = begun, 0
        files = loaded(A=text, B="import A;;\n")
        for number in range(120):
            parts = text.split(";;")
            at = source.choice([at for at, part in enumerate(parts) if part.lstrip().startswith("e")] or [len(parts) - 3])
            step = source.choice(steps[:4] if source.random() < 0.8 else steps).replace("%d", str(source.randrange(9)))
            text = ";;".join([*parts[:at], "\n" * source.randrange(3) + step, *parts[at + 1:]])
            files["A"].take(text)
            self.assertEqual(read(files["A"]), read(loaded(A=text, B="import A;;\n")["A"]), (number, text))
            few += files["A"].notation.number_read <= 1
            text = begun if number % 10 == 9 else text
        self.assertGreater(few, 60)

    def test_what_the_library_declares_is_not_forgotten_by_a_look_at_all_files(self):
        """As a search of theorems, and what can be done about an error, look at them, and the bridge does by itself when all is known."""
        with tempfile.TemporaryDirectory() as folder:
            pathlib.Path(folder, "B.hol").write_text("import pairs;;\ng X `(x,y) = z`;;\n")
            workspace = Workspace()
            document = workspace.open(pathlib.Path(folder, "A.hol").as_uri(), 1, "import functions;;\ng X `f o g = f`;;\n")
            files = next(iter(workspace.groups().values()))
            before = document.file.notation
            self.assertEqual(sent(document.file)[1], "g X `o f g = f`")
            every = workspace.every_file(document.project, files)
            self.assertIs(document.file.notation, before)
            self.assertEqual({file.name for file in every}, {"A", "B"} | {file.name for file in files})
            self.assertEqual(sent(next(file for file in every if file.name == "B"))[1], "g X `pair x y = z`")

    def test_an_edited_declaration_changes_what_is_below_and_what_imports_it(self):
        files = loaded(A=NUMBERS, B="import A;;\ng X `x + 1 < 2`;;\ne ALL_TAC;;")
        before = files["B"].theory.entries[:]
        files["A"].take(NUMBERS + "g Z `T`;;")
        graph.with_imports(list(files.values()), lambda _, name: "no " + name)
        self.assertEqual([old is new for old, new in zip(before, files["B"].theory.entries)], [True, True, True])
        files["A"].take(NUMBERS.replace("infixr 16 + add", "infixr 16 + plus"))
        graph.with_imports(list(files.values()), lambda _, name: "no " + name)
        self.assertEqual(sent(files["B"])[1], "g X `lt (plus x _1) (BIT0 _1)`")
        self.assertEqual([old is new for old, new in zip(before, files["B"].theory.entries)], [True, False, False])

    def test_errors_stand_where_they_are_and_nothing_else_is_lost(self):
        text = "import A;;\ng X (* c *) `x + `;;\ne ALL_TAC;;\nqed;;\ng Y `x << y`;;\noops;;\ng Z `!add. 1 + 2 = add`;;\noops;;\ninfixr 16 + other;;\ng W `1 < 2`;;"
        file = loaded(A=NUMBERS, B=text)["B"]
        self.assertEqual(sent(file), ["import A", "", "e ALL_TAC", "qed", "oops", "", "oops", "", "oops", "g W `lt _1 (BIT0 _1)`"])
        for entry in file.theory.entries:
            is_import = entry.text.startswith("import")
            entry.report = Refusal(protocol.SYNTAX, "0", "syntax") if not entry.text else Made(()) if is_import else Refusal(protocol.NO_PROOF, "", "no")
        file.theory.entries[-1].report = Goals((Goal((), (), "T"),))
        found = said(file)
        self.assertIn(("+", Severity.ERROR, "the quotation ends too soon"), found)
        self.assertIn(("<<", Severity.ERROR, "`<<` is no operator here"), found)
        self.assertIn(("+", Severity.ERROR, "the bound variable `add` hides the constant that `+` stands for here: rename the variable"), found)
        self.assertIn(("+", Severity.ERROR, "`+` stands for add already, as infixr 16: take it back by no_notation +"), found)
        self.assertEqual(len([one for one in found if one[1] == Severity.ERROR]), 4)
        self.assertEqual([words[-27:] for _, severity, words in found if severity == Severity.NOTE and "ended yet" not in words], [
            "(after the error on line %d)" % line for line in (2, 2, 5, 7)])

    def test_what_is_too_long_for_the_program_is_told_at_its_place(self):
        long_list, sum_ = "[%s]" % "; ".join(["x"] * 202), " + ".join(["x"] * 1000)
        lists = "new_constant NIL `:A`;; new_constant CONS `:A`;; notation list NIL CONS;;\n"
        text = lists + "g X `y = %s`;;\ng Y `%s = y`;;\ng Z `[1] = y`;;" % (long_list, sum_)
        file = loaded(A=NUMBERS, B="import A;;\n" + text)["B"]
        marks = {mark: words.split(",")[0] for mark, severity, words in said(file) if severity == Severity.ERROR}
        self.assertEqual(marks, {long_list: "this list has 202 members", sum_: "`+` joins 1000 terms here"})
        self.assertEqual(sent(file)[-1], "g Z `CONS _1 NIL = y`")

    def test_refusals_stand_where_they_are_written(self):
        file = loaded(A=NUMBERS, B="import A;;\ng X `x + 1 < 2` ;;\ng Y `x + T`;;\ne FOO [A; `x + 2`];;")["B"]
        entries = file.theory.entries
        entries[0].report = Made(())
        entries[1].report = Goals(())
        entries[2].is_hidden or self.fail("no hidden oops")
        entries[3].report = Refusal(protocol.UNTYPABLE, str(entries[3].text.index("`")), "untypable")
        entries[4].report = Refusal(protocol.UNKNOWN_TAC, "FOO", "unknown tactic")
        marks = [mark for mark, severity, _ in said(file) if severity == Severity.ERROR]
        self.assertIn("`x + T`", marks)
        self.assertIn("FOO", marks)

    def test_clashes_of_imports_are_told_at_the_second(self):
        files = loaded(A=NUMBERS, D="new_constant plus `:A->A->A`;; infixl 18 + plus;;", B="import A;;\nimport D;;\ng X `x + 1`;;")
        found = said(files["B"])
        self.assertEqual(found[0][0], "import D")
        self.assertIn("of what D declares this can't be had: `+` stands for add already", found[0][2])
        self.assertEqual(sent(files["B"])[2], "g X `add x _1`")

    def test_imports_in_a_circle_have_no_notation_of_each_other(self):
        files = loaded(A="import B;;\n" + NUMBERS, B="import A;;\ng X `x + 1`;;")
        self.assertEqual(sent(files["B"]), ["import B", "g X `x + 1`"])

    def test_a_file_that_is_no_text_to_its_end_says_so_whatever_it_knows(self):
        from holls import files as reading
        file = reading.read("B.hol", b"import A;;\ng X `1 + 1 < 2`;; \xff")
        other = loaded(A=NUMBERS)["A"]
        graph.share_notation([file, other])
        self.assertEqual(sent(file)[1], "g X `lt (add _1 _1) (BIT0 _1)`")
        self.assertEqual([one.text[:25] for one in file.blemishes if one.is_error], ["the file is no UTF-8 from"])


class Shown(unittest.TestCase):
    def setUp(self):
        self.files = loaded(A=NUMBERS, B="import A;;\ng X `x + 2 < 3`;;\ne ALL_TAC;;\nqed;;\nnew_definition D `double n = n + n`;;\ng Y `double 2 < x`;;")
        self.file = self.files["B"]
        self.place = self.file.lines.text.index

    def state(self, number, report):
        self.file.entry(number).report = report
        return goals.state(self.file, number)

    def test_goals_are_shown_in_notation_and_plain_beside(self):
        goal = Goal(("lt x (BIT0 _1)",), ("f:num->num", "x:num"), "!y. lt (add x (BIT0 _1)) (f y)")
        found = goals.answer(self.state(1, Goals((goal,))))
        self.assertEqual(found["goals"]["goals"][0]["ty"], "!y. x + 2 < f y")
        self.assertIn("  0  x < 2\n", found["text"])
        self.assertIn("!y. lt (add x (BIT0 _1)) (f y)", found["plain"])

    def test_a_goal_with_a_variable_of_a_constant_s_name_shows_it_as_it_is_and_says_so(self):
        goal = Goal((), ("add:num->num->num", "x:num"), "lt (add x _1) x")
        found = goals.answer(self.state(1, Goals((goal,))))
        self.assertIn("add x 1 < x", found["text"])
        self.assertIn("add is a variable here", found["text"])

    def test_what_was_made_and_what_remains(self):
        self.file.entry(0).report = Made(())
        known = self.state(3, Made(("thm X |- lt (add x (BIT0 _1)) (BIT1 _1)",)))
        self.assertIn("thm X |- x + 2 < 3", goals.text(known))
        self.file.entry(1).report = self.file.entry(2).report = Goals((Goal((), ("x:num",), "lt x (BIT1 _1)"),))
        self.file.entry(3).report = Refusal(protocol.GOALS_REMAIN, "", "goals remain")
        self.assertIn("(1, the first one: x < 3)", said(self.file)[0][2])

    def test_hovering_over_a_theorem_shows_the_notation_and_the_plain_text(self):
        self.file.entry(3).report = Made(("thm X |- lt (add x (BIT0 _1)) (BIT1 _1)",))
        word = lookup.word(list(self.files.values()), self.file, self.place("X `") + 1)
        text = hovering.of_word(word, None)
        self.assertIn("X: |- x + 2 < 3", text)
        self.assertIn("in plain:\n```hol\nX: |- lt (add x (BIT0 _1)) (BIT1 _1)", text)

    def test_an_operator_is_a_word_whose_name_is_the_constant(self):
        def at(place):
            word = lookup.word(list(self.files.values()), self.file, place)
            return word and (word.name, self.file.lines.text[word.start:word.end], word.known and word.known.origin)

        self.assertEqual(at(self.place("+ 2")), ("add", "+", "A"))
        word = lookup.word(list(self.files.values()), self.file, self.place("+ 2"))
        self.assertIn("written `+`: infixr 16", hovering.of_word(word, None))
        self.assertEqual(at(self.place("< 3")), ("lt", "<", "A"))
        self.assertEqual(at(self.place("x + 2"))[:2], ("x", "x"))
        self.assertEqual(at(self.place("double 2")), ("double", "double", "B"))
        uses = [(file.name, file.lines.text[start:end]) for file, start, end in names.uses(
            list(self.files.values()), names.find(list(self.files.values()), self.file, self.place("g Y"), "add", (names.CONSTANT,)))]
        self.assertEqual(uses, [("A", "add"), ("B", "+"), ("B", "+")])
        question = hovering.question(self.file, lookup.word(list(self.files.values()), self.file, self.place("x + 2")))
        self.assertIn("lt (add x (BIT0 _1)) (BIT1 _1)) (holls_mark x)", question)

    def test_completion_offers_operators_and_words_of_the_notation(self):
        found = completion.at(list(self.files.values()), ["A"], self.file, self.place("2 < x"))
        self.assertIn(("+", "add : num->num->num"), [(one["label"], one["detail"]) for one in found])

    def test_patterns_are_read_in_notation(self):
        view = View.of_all(self.files.values())
        asked = search.query("_ + 2 < _", False, view)
        known = names.Known(names.THEOREM, "X", "lt (add x (BIT0 _1)) (BIT1 _1)")
        known_names = [known] + [names.Known(names.CONSTANT, name, "") for name in ("add", "lt", "_1", "BIT0", "BIT1")]
        self.assertEqual(search.Index().find(asked, known_names), [known])
        self.assertEqual(known.shown_in(view), "x + 2 < 3")
        with self.assertRaisesRegex(search.BadQuery, "the quotation ends too soon"):
            search.query("_ + ", False, view)

    def test_found_steps_are_written_in_notation(self):
        self.assertEqual(in_notation_at(self.file, 1, "EXISTS_TAC `add x (BIT0 _1)` THEN MATCH_MP_TAC X"), "EXISTS_TAC `x + 2` THEN MATCH_MP_TAC X")

    def test_a_text_that_can_t_be_read_is_shown_as_it_is(self):
        view = View.of(self.file, 1)
        self.assertEqual(view.term("add x ("), "add x (")
        self.assertEqual(view.term("add " * 30_000), "add " * 30_000)
        self.assertEqual(PLAIN.term("add x y"), "add x y")


class Helped(unittest.TestCase):
    def test_what_is_not_declared_names_the_theories_that_declare_it(self):
        with tempfile.TemporaryDirectory() as folder:
            path = pathlib.Path(folder)
            (path / "A.hol").write_text(NUMBERS)
            (path / "C.hol").write_text("notation if COND;;\n")
            (path / "B.hol").write_text("import C;;\ng X `x + 1 < 2`;;\noops;;\ng Y `let x = y in x`;;\n")
            every = [file for files in check.ordered([str(path / name) for name in ("A.hol", "B.hol", "C.hol")]).values() for file in files]
            file = next(one for one in every if one.theory.name == "B")
            found = next(one for one in findings(file) if one.undeclared == "+")
            self.assertEqual(found.text, "`+` is no operator here; A or arithmetic declares it: import it")
            self.assertEqual([(fix.title, fix.text) for fix in fixes.fixes(found, file, every, every)], [("Import A, which declares +", "import A;;\n")])
            (path / "D.hol").write_text("notation let LET;;\n")
            file = next(one for one in (file for files in check.ordered([str(path)]).values() for file in files) if one.theory.name == "B")
            told = [one.text for one in findings(file) if one.undeclared == "let"]
            self.assertTrue(told and all("; D or " in text and text.endswith(" declares it: import it") for text in told), told)

    def test_a_numeral_of_the_goal_is_written_as_a_successor(self):
        text = "import A;;\ndeftac NUM_REDUCE_TAC ALL_TAC;;\ng X `T`;;\n  e FOO;;"
        file = loaded(A=NUMBERS, B=text)["B"]
        file.entry(3).report = Goals((Goal((), ("x:num",), "lt (BIT0 _1) (add (BIT1 (BIT0 _1)) _0)"),))
        found = numerals.offers(file, [file], "file:///B.hol", len(text) - 3)
        self.assertEqual([one["title"] for one in found], ["Write 2 as SUC 1", "Write 5 as SUC 4"])
        self.assertEqual(found[1]["edit"]["changes"]["file:///B.hol"][0]["newText"],
                         "\n  e SUBGOAL_THEN `5 = SUC 4` SUBST1_TAC THENL [NUM_REDUCE_TAC; ALL_TAC];;")
        self.assertEqual(numerals.offers(file, [file], "file:///B.hol", 3), [])

    def test_a_variable_that_hides_a_constant_is_renamed_where_it_stands(self):
        file = loaded(A=NUMBERS, B="import A;;\ng X `T` ;;\noops;;\ne FOO `!add add'. 1 + 2 = add` `add`;;")["B"]
        found = next(one for one in findings(file) if one.hiding)
        fix = fixes.fixes(found, file, [file], [file])[0]
        self.assertEqual((fix.title, fix.text), ("Rename add to add'' in this quotation", "!add'' add'. 1 + 2 = add''"))
        self.assertEqual(file.lines.text[fix.start:fix.end], "!add add'. 1 + 2 = add")


class Spelling(unittest.TestCase):
    def test_expand_and_write_undo_each_other(self):
        text = NUMBERS + ("(* A comment with `x + 1` *)\ng X\n  `!x y. x + y (* inside *) < 3 ==>\n     T`;; (* behind *)\ne EXISTS_TAC `x:num` THEN EXISTS_TAC `x + 1`;;\n"
                          "oops;;\nnew_definition D `double n = n + n`;;\n")
        with tempfile.TemporaryDirectory() as folder:
            path = pathlib.Path(folder) / "A.hol"
            path.write_text(text)
            plain = self.spelled("expand", path)
            self.assertIn("(* infixr 16 + add;; *)", plain)
            self.assertIn("(* inside *) `!x y. lt (add x y) (BIT1 _1) ==> T`;; (* behind *)", plain)
            self.assertIn("EXISTS_TAC `x:num` THEN EXISTS_TAC `add x _1`", plain)
            self.assertIn("(* A comment with `x + 1` *)", plain)
            file = loaded(A=text)["A"]
            self.assertEqual([" ".join(command.text.split()) for command in cut(plain).commands], [" ".join(one.split()) for one in sent(file)])
            path.write_text(plain)
            back = self.spelled("write", path)
            self.assertEqual([" ".join(one.split()) for one in sent(loaded(A=back)["A"])], [" ".join(one.split()) for one in sent(file)])
            self.assertIn("`!x y. x + y < 3 ==> T`", back)
            path.write_text(back)
            self.assertEqual(self.spelled("write", path), back)

    def test_a_file_in_notation_stays_also_where_an_operator_is_a_word(self):
        with tempfile.TemporaryDirectory() as folder:
            path = pathlib.Path(folder) / "A.hol"
            text = NUMBERS + "new_constant divides `:num->num->bool`;;\ninfixr 12 divides;;\ng X `!x. x divides x`;;\ng Y `(divides) x`;;\n"
            path.write_text(text)
            self.assertEqual(self.spelled("write", path), text)

    def test_what_can_t_be_read_stays_and_is_told(self):
        with tempfile.TemporaryDirectory() as folder:
            path = pathlib.Path(folder) / "A.hol"
            path.write_text(NUMBERS + "g X `x + `;;\ng Y `x + 1 < 2`;;\n")
            errors = io.StringIO()
            with contextlib.redirect_stderr(errors):
                plain = self.spelled("expand", path, 1)
            self.assertIn("g X `x + `;;\ng Y `lt (add x _1) (BIT0 _1)`;;", plain)
            self.assertIn(":9: left as it is: the quotation ends too soon", errors.getvalue())

    def spelled(self, kind, path, status=0):
        written = io.StringIO()
        with contextlib.redirect_stdout(written):
            self.assertEqual(spelling.main(argparse.Namespace(kind=kind, files=[str(path)], in_place=False)), status)
        return written.getvalue()

    def test_a_quotation_that_gets_shorter_stays_in_its_line_however_long_that_is(self):
        with tempfile.TemporaryDirectory() as folder:
            path = pathlib.Path(folder) / "A.hol"
            steps = " THEN ".join("EXISTS_TAC `%s`" % "add x y" for _ in range(12))
            path.write_text(NUMBERS + "g X `T`;;\ne %s;;\n" % steps)
            self.assertIn("\ne %s;;\n" % steps.replace("add x y", "x + y"), self.spelled("write", path))

    def test_long_lines_are_broken(self):
        with tempfile.TemporaryDirectory() as folder:
            path = pathlib.Path(folder) / "A.hol"
            path.write_text(NUMBERS + "g X `%s`;;\n" % " /\\ ".join("x + %d < y" % number for number in range(20)))
            plain = self.spelled("expand", path)
            self.assertLessEqual(max(map(len, plain.splitlines())), 160)


@unittest.skipUnless(BUILT.is_file(), "hol_serve isn't built")
class OverTheProgram(unittest.TestCase):
    TEXT = NUMBERS.replace("local infixl 18 ++ add2;;\n", "") + (
        "new_axiom ADD_SYM `!m n. m + n = n + m`;;\ng X `!x. x + 2 < 3 ==> 2 + x < 3`;;\ne GEN_TAC;;\ne SUBST1_TAC (SPEC `x:num` (SPEC `2` ADD_SYM));;\n"
        "e DISCH_TAC THEN FIRST_ASSUM ACCEPT_TAC;;\nqed;;\n")

    def test_check_judges_notation_and_json_has_the_plain_text(self):
        with tempfile.TemporaryDirectory() as folder:
            path = pathlib.Path(folder) / "A.hol"
            path.write_text(self.TEXT)
            found = forked.run("check", "--server", BUILT, path, text=True)
            self.assertEqual((found.returncode, found.stdout.splitlines()[-1].split(": ")[1]), (0, "17 commands, 1 theorem, 1 axiom, all accepted"))
            path.write_text(self.TEXT.replace("e DISCH_TAC THEN", "e CONJ_TAC THEN") + "g Y `x + T`;;")
            found = forked.run("check", "--server", BUILT, "--json", path, text=True)
            told = [json.loads(line) for line in found.stdout.splitlines()]
            self.assertEqual(found.returncode, 1)
            self.assertEqual([one["plain"] for one in told if "no typing" in one.get("text", "")], ["g Y `add x T`"])

    def test_an_editor_shows_notation(self):
        editor = Editor(str(BUILT))
        self.addCleanup(editor.kill)
        editor.begin()
        uri = "file:///A.hol"
        editor.open(uri, self.TEXT)
        lines = self.TEXT.split("\n")
        line = next(at for at, text in enumerate(lines) if text.startswith("e GEN_TAC"))
        found = editor.goals(uri, line, 3)
        self.assertEqual(found["goals"]["goals"][0]["ty"], "x + 2 < 3 ==> 2 + x < 3")
        self.assertIn("lt (add x (BIT0 _1)) (BIT1 _1) ==> lt (add (BIT0 _1) x) (BIT1 _1)", found["plain"])
        hover = editor.hover(uri, line - 1, lines[line - 1].index("+"), "add")
        self.assertIn("add : num->num->num", hover["contents"]["value"])
        found = editor.ask("hol/search", {"query": "_ + _ = _"})
        self.assertEqual([(one["name"], one["statement"], one["plain"]) for one in found if not one["theory"].endswith(", not imported")],
                         [("ADD_SYM", "!m n. m + n = n + m", "!m n. add m n = add n m")])
        self.assertEqual(editor.end(), 0)


if __name__ == "__main__":
    unittest.main()
