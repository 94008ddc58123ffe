"""Packages: what they stand for, where what is wrong is told, and what editors and the checker make of them."""

import io
import os
import pathlib
import re
import tempfile
import time
import unittest
from contextlib import redirect_stdout
from unittest import mock

from holls import check, fixes, manual, names, spelling
from holls.files import File
from holls.findings import Severity, findings
from holls.graph import share_notation
from holls.lsp import features, hovering, lookup
from holls.packages import forward, scope
from holls.packages.parts import Part
from holls.protocol import Goals, Made, Refusal
from holls.prover.asking import Asker
from tests.helpers import BUILT, ROOT, slowness
from tests.random_declarations import Declarations, corrected, text

IMPORT = "import packages;;\n"
LIBRARY = {}


def library():
    """The theory on which packages rest, with those that it imports."""
    if not LIBRARY:
        for file in next(iter(check.ordered([str(ROOT / "theories" / "packages.hol")]).values())):
            LIBRARY[file.theory.name] = file
    return list(LIBRARY.values())


def read(text, is_imported=True):
    """A file that imports the theory of packages."""
    file = File("own.hol")
    file.take((IMPORT if is_imported else "") + text)
    share_notation([*library(), file])
    return file


def told(text):
    """What is told of a file's text: each with the text that it is told of."""
    file = read(text)
    return [(file.lines.text[one.start:one.end], one.text) for one in findings(file) if one.severity <= Severity.WARNING]


def made(text):
    """The public names of a file's text."""
    return [one.name for one in names.written(read(text))]


class Types(unittest.TestCase):
    def test_a_type_has_the_theorems_of_hol_light_under_their_names(self):
        found = made("define_type exp = Numb num | Plus exp exp;;")
        for name in ("exp", "Numb", "Plus", "exp_INDUCTION", "exp_RECURSION", "exp_CASES", "exp_DISTINCT", "exp_INJECTIVE"):
            self.assertIn(name, found)
        file = read("define_type exp = Numb num | Plus exp exp;;")
        statements = {one.name: one.text for one in names.written(file)}
        self.assertEqual(statements["exp_INDUCTION"],
                         "!P. (!(a:num). P (Numb a)) /\\ (!(a0:exp) (a1:exp). P a0 /\\ P a1 ==> P (Plus a0 a1)) ==> !x. P x")
        self.assertEqual(statements["exp_RECURSION"],
                         "!(f0:num->Z) (f1:exp->exp->Z->Z->Z). ?fn:exp->Z. (!(a:num). fn (Numb a) = f0 a) /\\ "
                         "(!(a0:exp) (a1:exp). fn (Plus a0 a1) = f1 a0 a1 (fn a0) (fn a1))")

    def test_a_named_theorem_takes_three_commands_and_the_type_few_more(self):
        for text, number in (("C", 14), ("C | D", 18), ("Numb num | Plus exp exp | Neg exp", 22), ("Numb num | Sum (exp list) (exp list) | Neg exp", 22),
                             ("A1 | A2 | A3 num | A4 exp | A5 | A6 exp exp", 25)):
            file = read("define_type exp = %s;;" % text)
            self.assertEqual(len(file.commands), 1 + number, [one.text[:60] for one in file.commands])

    def test_parameters_are_the_type_variables(self):
        statements = {one.name: one.text for one in names.written(read("define_type tree = Leaf | Node A tree tree;;"))}
        self.assertIn("Node a0 a1 a2", statements["tree_INDUCTION"])
        self.assertIn("(a1:A tree)", statements["tree_INDUCTION"])

    def test_what_is_wrong_is_told_at_its_word(self):
        for text, where, words in (
                ("define_type t = C t;;", "t", "no element"),
                ("define_type t = C | C;;", "C", "twice"),
                ("define_type t = SUC num;;", "SUC", "stands already"),
                ("define_type num = C;;", "num", "stands already"),
                ("define_type t = C (t option) | D;;", "(t option)", "under `option`"),
                ("define_type t = C (t->bool) | D;;", "(t->bool)", "to the left of ->"),
                ("define_type t = C (num list list) (q foo);;", "(q foo)", "no type"),
                ("define_type t = C num list;;", "list", "takes 1 arguments"),
                ("define_type t C;;", "", "has to be of the form"),
                ("define_type t = C | ;;", "", "constructor's name is missing"),
                ("define_type t = C u | D; u = E t;;", ";", "defined by one another aren't given"),
                ("define_type t = C u | D and u = E t;;", "and", "defined by one another aren't given"),
                ("define_type THEN = C;;", "THEN", "reserved")):
            with self.subTest(text):
                found = [one for one in told(text + "\ng A `x = x`;;\n") if one[1]]
                self.assertEqual(len(found), 1, found)
                self.assertIn(words, found[0][1])
                self.assertTrue(found[0][0].startswith(where) if where else True, found)

    def test_what_stands_already_is_told_with_its_theory(self):
        for text, words in (
                ("define_type t = SUC num;;", "the constant `SUC` stands already: another name for the constructor (it is numbers's)"),
                ("define_type num = C;;", "the type `num` stands already: another name for this one (it is numbers's)"),
                ("define LENGTH `LENGTH n = n`;;", "the constant `LENGTH` stands already: another name for what is defined (it is lists's)"),
                ("inductive EVEN `EVEN 0`;;", "the constant `EVEN` stands already: another name for the relation (it is arithmetic's)"),
                ("new_constant c `:num`;;\ndefine c `c n = n`;;", "the constant `c` stands already: another name for what is defined (it is named on line 2)"),
                ("abbreviate `SUC x = x`;;", "the constant `SUC` stands already: another name for the abbreviation")):
            with self.subTest(text):
                self.assertEqual([one for _, one in told(text)], [words])

    def test_what_the_theorems_bind_is_called_otherwise_than_constructors(self):
        statements = {one.name: one.text for one in names.written(read("define_type t = P num | fn t | a t | f1;;"))}
        self.assertEqual(statements["t_INDUCTION"], "!P'. (!(a':num). P' (P a')) /\\ (!(a':t). P' a' ==> P' (fn a')) /\\ "
                         "(!(a':t). P' a' ==> P' (a a')) /\\ (P' (f1:t)) ==> !x. P' x")
        self.assertIn("?fn':t->Z. (!(a':num). fn' (P a') = f'0 a')", statements["t_RECURSION"])
        statements = {one.name: one.text for one in names.written(read("define_type Z = C | D Z;;\ndefine_type u = E Z;;"))}
        self.assertEqual(statements["Z_RECURSION"], "!(f0:Z') (f1:Z->Z'->Z'). ?fn:Z->Z'. (fn (C:Z) = f0) /\\ (!(a:Z). fn (D a) = f1 a (fn a))")
        self.assertEqual(statements["u_RECURSION"], "!(f0:Z->Z'). ?fn:u->Z'. (!(a:Z). fn (E a) = f0 a)")

    def test_the_types_of_the_librarys_constants_are_found_once(self):
        text = "define FN%d `FN%d l m = LENGTH (APPEND l m) + 1`;;"
        read(text % (1, 1)).commands
        with mock.patch.object(scope, "_defined_type", side_effect=scope._defined_type) as found:
            self.assertIsNone(read(text % (2, 2)).notation.commands[-1].error)
        self.assertEqual(found.call_count, 0)

    def test_without_the_theory_the_import_is_named(self):
        file = read("define_type t = C;;", False)
        self.assertIn("import packages;;", findings(file)[0].text)

    def test_the_library_takes_no_name_that_a_package_makes_of_a_name(self):
        for file in sorted((ROOT / "theories").glob("*.hol")):  # `define TAKE` makes pk_TAKE_DEF
            self.assertEqual(re.findall(r"^(?:g|new_definition) (pk_\w+_DEF)\b", file.read_text(encoding="utf-8"), re.M), [], file.name)

    def test_a_taken_name_of_a_theorem_is_told(self):
        found = told("new_axiom t_CASES `T`;;\ndefine_type t = C | D num;;")
        self.assertEqual(len(found), 1)
        self.assertIn("t_CASES", found[0][1])

    def test_nothing_else_in_the_file_is_lost(self):
        file = read("define_type t = C t;;\ndefine_type u = E | G u;;\n")
        self.assertIn("u_INDUCTION", [one.name for one in names.written(file)])

    def test_hostile_texts_are_told_and_end(self):
        deep = "(" * 5000 + "num" + ")" * 5000
        arrows = "(" + "num->" * 3000 + "num)"
        self.assertEqual(told("define_type t = C %s;;" % deep), [])
        for text in ("define_type t = C %s;;" % arrows, "define_type", "define_type t =", "define_type t = %s;;" % "C" * 300,
                     "define_type t = " + " | ".join("C%d" % at for at in range(500)) + ";;", "define_type `;;", "define_type t = C (num;;"):
            with self.subTest(text[:40]):
                self.assertTrue(told(text))


def statements(text):
    """The statements of a file's theorems by their names."""
    return {one.name: one.text for one in names.written(read(text)) if one.kind == names.THEOREM}


class Functions(unittest.TestCase):
    def test_the_theorem_is_the_clauses(self):
        found = statements("define LEN `LEN [] = 0 /\\ LEN (CONS h t) = SUC (LEN t)`;;")
        self.assertEqual(found["LEN"], "LEN (NIL:A list) = _0 /\\ (!(h:A) (t:A list). LEN (CONS h t) = SUC (LEN t))")
        self.assertEqual(list(found), ["LEN"])

    def test_clauses_that_overlap_are_taken_in_their_order(self):
        found = statements("define PLUS `PLUS (SOME a) (SOME b) = SOME (a + b) /\\ PLUS x y = NONE`;;")["PLUS"]
        self.assertIn("!(y:num option). PLUS (NONE:num option) y = (NONE:num option)", found)
        self.assertIn("PLUS (SOME a) (NONE:num option) = (NONE:num option)", found)

    def test_what_is_wrong_is_told_at_its_word(self):
        for text, where, words in (
                ("define FN `FN 0 = 1`;;", "FN 0", "`FN (n + 1)` is missing"),
                ("define FN `FN n = 1 /\\ FN 0 = 2`;;", "FN 0", "no argument reaches"),
                ("define FN `FN (SUC n) m = m /\\ FN 0 n = k`;;", "k", "stands on the right"),
                ("define FN `FN n n = 1`;;", "n", "stands twice"),
                ("define FN `FN 25 = 1 /\\ FN n = 2`;;", "25", "a numeral over 20"),
                ("define FN `FN (n * 2) = 1`;;", "(n * 2)", "is no pattern"),
                ("define SUC `SUC n = n`;;", "SUC", "stands already"),
                ("define FN `FN 0 = T /\\ FN (SUC n) = 1`;;", "", "doesn't fit"),
                ("define G `FN n = n`;;", "G", "no clause defines"),
                ("define FN `FN n = FN (n + 1)`;;", "FN n", "say what gets smaller"),
                ("define FN by_measure `\\n. T` `FN n = FN (n - 1)`;;", "\\n. T", "measure is of type"),
                ("define FN by_measure `\\n. n` with NOTHING `FN n = FN (n - 1)`;;", "NOTHING", "no theorem"),
                ("define FN by_measure `\\n. n` with EQ_REFL `FN n = FN (n - 1)`;;", "EQ_REFL", "isn't that each call is smaller"),
                ("define FN `FN (SUC n) = FN (FN n) /\\ FN 0 = 0`;;", "", "nested recursion"),
                ("define F;;", "", "of the form"),
                ("define FN `FN n`;;", "FN n", "a clause is an equation"),
                ("define FN `FN n <=> (@x:A. T) = (@x. T)`;;", "", "type variable")):
            with self.subTest(text):
                found = told(text)
                self.assertEqual(len(found), 1, found)
                self.assertIn(words, found[0][1])
                self.assertTrue(found[0][0].startswith(where), found)


class Relations(unittest.TestCase):
    def test_the_four_theorems_are_made(self):
        found = statements("inductive STAR `(!x. STAR R x x) /\\ (!x y z. R x y /\\ STAR R y z ==> STAR R x z)`;;")
        self.assertEqual(sorted(found), ["STAR_CASES", "STAR_INDUCT", "STAR_RULES", "STAR_STRONG_INDUCT"])
        self.assertTrue(found["STAR_RULES"].startswith("!(R:A->A->bool). (!(x:A). STAR R x x) /\\ "))
        self.assertIn("(a0:A) (a1:A). STAR R a0 a1 <=>", found["STAR_CASES"])
        self.assertIn("!(a:num). EV a <=> a = _0 \\/", statements("inductive EV `EV 0 /\\ (!n. EV n ==> EV (SUC (SUC n)))`;;")["EV_CASES"])

    def test_what_is_wrong_is_told_at_its_word(self):
        for text, where, words in (
                ("inductive R `~R x ==> R x`;;", "R", "under ~"),
                ("inductive R `(R x ==> F) ==> R x`;;", "R", "on the left of ==>"),
                ("inductive R `!x. (R x <=> T) ==> R x`;;", "R", "beside <=>"),
                ("inductive R `!x. (?!y. R y) ==> R x`;;", "R", "under ?!"),
                ("inductive R `!x. K (R x) T ==> R x`;;", "R", "name a theorem"),
                ("inductive R `(!x:num. R x) /\\ x = x`;;", "x = x", "a rule ends in the relation"),
                ("inductive SUC `!x. SUC x`;;", "SUC", "stands already"),
                ("inductive R `!x. K x x ==> S x`;;", "R", "no rule ends in `R`"),
                ("inductive R [NOTHING] `!x. R x`;;", "NOTHING", "no theorem"),
                ("inductive R;;", "", "of the form"),
                ("inductive R `!x. R (R x)`;;", "R", "in an argument of a rule's conclusion")):
            with self.subTest(text):
                found = told(text)
                self.assertEqual(len(found), 1, found)
                self.assertIn(words, found[0][1])
                self.assertTrue(found[0][0].startswith(where), found)


class Records(unittest.TestCase):
    def test_fields_are_read_and_replaced(self):
        found = statements("record point = Point x:num tag:A;;")
        self.assertEqual(found["point_FIELDS"], "(!(x:num) (tag:A). point_x (Point x tag) = x) /\\ (!(x:num) (tag:B). point_tag (Point x tag) = tag)")
        self.assertIn("set_point_x new (Point x tag) = Point new tag", found["point_SETS"])
        for name in ("point_ETA", "point_UPDATES", "point_EXT", "point_INDUCTION"):
            self.assertIn(name, found)

    def test_what_is_wrong_is_told_at_its_word(self):
        for text, where, words in (
                ("record t = C num;;", "num", "a field is written"), ("record t = C x:num x:num;;", "C", "stands twice"),
                ("record t = C x:num | D;;", "D", "one constructor"), ("record t = C;;", "C", "from 1 to"),
                ("specification A c EQ_REFL;;", "EQ_REFL", "says that 0 exist"), ("specification A c NOTHING;;", "NOTHING", "no theorem"),
                ("new_axiom SOME_ONE `?n. n = 1`;;\nspecification A SUC SOME_ONE;;", "SUC", "stands already"), ("specification A c;;", "", "of the form")):
            with self.subTest(text):
                found = told(text)
                self.assertEqual(len(found), 1, found)
                self.assertIn(words, found[0][1])
                self.assertTrue(found[0][0].startswith(where), found)

    def test_a_specification_says_of_constants_what_exists(self):
        found = statements("new_axiom SOME_LESS `?m n:num. m < n`;;\nspecification BOTH low high SOME_LESS;;")
        self.assertEqual(found["BOTH"], "lt low high")

    def test_a_package_that_a_theory_has_no_room_for_is_told(self):
        file = read("".join("new_axiom A%d `T`;;\n" % number for number in range(990)) + "define_type t = C | D;;\nnew_axiom B `T`;;\n")
        found = [one.text for one in findings(file) if "split the file" in one.text]
        self.assertEqual(len(found), 1)
        self.assertRegex(found[0], "this define_type takes [0-9]+ commands, and 9 are left of a theory's 1000")


class Steps(unittest.TestCase):
    def sent(self, text):
        """What is sent of a file's last command."""
        return read(text).commands[-1].text

    def test_induction_is_by_the_theorem_of_the_type(self):
        self.assertEqual(self.sent("g A `!n. n + 0 = n`;;\ne INDUCT_ON `n` THEN REWRITE_TAC [];;"),
                         "e (MATCH_MP_TAC NUM_INDUCT THEN BETA_TAC THEN CONJ_TAC THENL [ALL_TAC; ALL_TAC]) THEN REWRITE_TAC []")
        self.assertIn("SPEC_TAC (`(n:num)`,`(n:num)`) THEN MATCH_MP_TAC NUM_INDUCT", self.sent("g A `!m n. n + m = m`;;\ne INDUCT_ON `n`;;"))
        self.assertIn("SPEC_TAC (`(n:num)`,`(n:num)`) THEN MATCH_MP_TAC NUM_INDUCT", self.sent("g A `!n. n + 0 = n`;;\ne GEN_TAC;;\ne INDUCT_ON `n`;;"))
        for step in ("INDUCT_ON", "CASES_ON"):
            found = self.sent("define_type t = C | D num;;\ng A `!x. x = C`;;\ne %s `x`;;" % step)
            self.assertIn("MATCH_MP_TAC pk_EVERY THEN MATCH_MP_TAC t_INDUCTION THEN BETA_TAC THEN CONJ_TAC", found)
        found = self.sent("define_type t = C | D t;;\ng A `!x. x = C`;;\ne CASES_ON `x`;;")
        self.assertIn("(SUBGOAL_THEN `!P. (P (C:t)) /\\ (!(a:t). P (D a)) ==> (!) P` MATCH_MP_TAC", found)
        found = self.sent("define_type t = C | D t;;\ndefine LEVEL `LEVEL C n = 0 /\\ LEVEL x 0 = 0 /\\ LEVEL (D x) (SUC n) = n`;;\ng A `!x. x = C`;;\ne CASES_ON `x`;;")
        self.assertIn("e (MATCH_MP_TAC t_SPLIT THEN BETA_TAC", found)

    def test_a_theorem_of_a_type_about_predicates_is_made_in_front_of_a_proof_that_names_it(self):
        text = "define_type t = C | D t;;\ng A `!x. x = C`;;\ne %s;;\ne MATCH_MP_TAC t_SPLIT THEN MATCH_MP_TAC t_SPLIT;;\n"
        found = [one.text for one in read(text % "MP_TAC (SPEC `\\x. x = C` t_INDUCT)").commands]
        self.assertEqual([one for one in found if "pk_A_" in one or one.startswith("g A ")], [
            "g pk_A_1 `!(P:t->bool). P C /\\ (!(a:t). P a ==> P (D a)) ==> (!) P`", "g pk_A_2 `!(P:t->bool). P C /\\ (!(a:t). P (D a)) ==> (!) P`",
            "g A `!x. x = C`", "e MP_TAC (SPEC `\\x. x = C` pk_A_1)", "e MATCH_MP_TAC pk_A_2 THEN MATCH_MP_TAC pk_A_2"])
        found = [one.text for one in read(text % "REWRITE_TAC [GSYM t_SPLIT]").commands]  # What a step makes in front that can't be carried out is taken back.
        self.assertEqual(found[-1], "e MATCH_MP_TAC pk_A_2 THEN MATCH_MP_TAC pk_A_2")
        self.assertEqual(len([one for one in found if one.startswith("g pk_A_2")]), 1)
        self.assertEqual([one for one in found if one.startswith("g pk_A_1")], [])
        file = read(text % "ALL_TAC")
        found = lookup.word([*library(), file], file, file.lines.text.index("t_SPLIT") + 1)
        self.assertIn("t_SPLIT", hovering.of_word(found, None))
        self.assertIn("made in front of this proof. Here: `!P. P C", hovering.of_word(found, None).replace("(P:t->bool)", "P"))

    def test_induction_on_rules_keeps_what_else_is_quantified(self):
        found = self.sent("inductive EV `EV 0 /\\ (!n. EV n ==> EV (SUC (SUC n)))`;;\ng A `!n. EV n ==> ?m. n = m + m`;;\ne RULE_INDUCT EV;;")
        self.assertIn("(SPEC `\\(n:num). ?(m:num). n = add m m` EV_INDUCT)", found)

    def test_places_lead_back_to_what_is_written(self):
        text = "g A `!n. n + 0 = n`;;\ne INDUCT_ON `n` THEN REWRITE_TAC [FOO];;"
        file = read(text)
        command, whole = file.commands[-1], file.lines.text
        at = command.text.index("FOO")
        self.assertEqual(whole[slice(*command.range(at, at + 3))], "FOO")
        self.assertEqual(command.offset(whole.index("FOO")), at)
        self.assertEqual(whole[slice(*command.range(3, 15))], "INDUCT_ON `n`")

    def test_without_the_theory_on_which_they_rest_they_say_so_and_it_is_offered(self):
        for type_, argument in (("num", "x"), ("num list", "x")):
            file = read("import lists;;\ng A `!x:%s. x = x`;;\ne INDUCT_ON `%s`;;" % (type_, argument), False)
            file.neighbours = lambda: [str(ROOT / "theories" / "packages.hol")]
            for entry in file.theory.entries:
                entry.report = Refusal(1, "0", "syntax") if not entry.text else Made(()) if entry.text.startswith("import") else Goals(())
            found = [one for one in findings(file) if one.severity == Severity.ERROR]
            self.assertEqual([one.text for one in found], [
                "INDUCT_ON at a %s rests on the theory packages: write import packages;; above the proof" % type_.split()[-1]])
            self.assertEqual([one.title for one in fixes.fixes(found[0], file, [file], [file])], ["Import packages"])

    def test_what_is_wrong_is_told_at_its_word(self):
        for text, where, words in (
                ("g A `!n. n = 0`;;\ne REPEAT GEN_TAC THEN INDUCT_ON `n`;;", "INDUCT_ON", "first in a command"),
                ("e INDUCT_ON `n`;;", "INDUCT_ON", "no proof is open"),
                ("g A `!n. n = 0`;;\ne INDUCT_ON `k`;;", "k", "no variable `k`"),
                ("g A `!x:A. x = x`;;\ne INDUCT_ON `x`;;", "x", "no inductive type"),
                ("g A `!n. n = 0`;;\ne INDUCT_ON;;", "INDUCT_ON", "is written INDUCT_ON `x`"),
                ("g A `!n. n = 0`;;\ne RULE_INDUCT EV;;", "EV", "no inductive relation")):
            with self.subTest(text):
                found = [one for one in told(text) if "isn't ended" not in one[1]]
                self.assertEqual(len(found), 1, found)
                self.assertEqual(found[0][0], where)
                self.assertIn(words, found[0][1])


class Rules(unittest.TestCase):
    def test_a_rule_is_a_hidden_theorem_in_front_of_the_proof(self):
        file = read("new_definition TWICE_DEF `TWICE f (x:A) = f (f x)`;;\ng A `T`;;\ne REWRITE_TAC [GSYM TWICE_DEF; CONJ (SPEC `0` LE_REFL) TRUTH];;")
        self.assertEqual([one.text for one in file.commands[2:]], [
            "g pk_A_1 `!(f:A->A) (x:A). f (f x) = TWICE f x`",
            "e X_GEN_TAC `f:A->A` THEN X_GEN_TAC `x:A` THEN ACCEPT_TAC (SYM (SPEC `x:A` (SPEC `f:A->A` TWICE_DEF)))", "qed",
            "g pk_A_2 `le _0 _0 /\\ T`", "e CONJ_TAC THENL [ACCEPT_TAC (SPEC `_0` LE_REFL); ACCEPT_TAC TRUTH]", "qed",
            "g A `T`", "e REWRITE_TAC [pk_A_1; pk_A_2]"])
        self.assertEqual([one["name"] for one in features.symbols(file)], ["TWICE_DEF", "A"])
        self.assertEqual([one.name for one in names.written(file)], ["TWICE_DEF", "TWICE", "A"])
        self.assertEqual(made("g A `T`;;\ne REWRITE_TAC [GSYM ADD_SYM];;"), ["A"])

    def test_a_match_gives_terms_and_types(self):
        file = read("new_axiom FIRST_OF `!x y:A. P x y ==> !z:B. Q x z`;;\nnew_axiom GIVEN `P 0 T`;;\ng A `T`;;\ne MP_TAC (MATCH_MP EQ_SYM (SPEC `0` ADD_0));;")
        self.assertTrue(any(one.text.startswith("g pk_A_1 `_0 = ") for one in file.commands), [one.text for one in file.commands])

    def test_a_theorem_is_rewritten_by_others(self):
        file = read("theorems L = [ADD_CLAUSES; MULT_CLAUSES];;\ng A `T`;;\n"
                    "e REWRITE_TAC [REWRITE_RULE [L; GSYM ADD1] (SPEC `n + 1` ADD_SYM); PURE_REWRITE_RULE [ADD_0] (SPEC `m + 0` LE_REFL); L];;")
        self.assertEqual([one.text for one in file.commands[5:]], [
            "g pk_A_2 `!(n':num). SUC (add (n:num) n') = SUC (add n' n)`",
            "e MP_TAC (SPEC `add (n:num) _1` ADD_SYM) THEN REWRITE_TAC [ADD_CLAUSES; MULT_CLAUSES; pk_A_1]", "qed",
            "g pk_A_3 `le (m:num) m`", "e MP_TAC (SPEC `add (m:num) _0` LE_REFL) THEN PURE_REWRITE_TAC [ADD_0] THEN DISCH_THEN ACCEPT_TAC", "qed",
            "g A `T`", "e REWRITE_TAC [pk_A_2; pk_A_3; ADD_CLAUSES; MULT_CLAUSES]"])

    def test_terms_and_types_are_given_without_a_theorem_more(self):
        file = read("g A `T`;;\ne MP_TAC (ISPECL [`l:num list`] APPEND_NIL) THEN MP_TAC (SPECL [`x:num`; `1`] (ASSUME `!x y:num. x = y`)) THEN "
                    "MP_TAC (SPEC_ALL LE_REFL) THEN MP_TAC (ISPEC `0` EQ_REFL);;")
        self.assertEqual([one.text for one in file.commands[1:]], [
            "g A `T`", "e MP_TAC ((SPEC `(l:num list)` (INST_TYPE [`:num`,`:A`] APPEND_NIL))) THEN "
            "MP_TAC ((SPEC `_1` (SPEC `(x:num)` (ASSUME `!x y:num. x = y`)))) THEN MP_TAC ((SPEC `(n:num)` LE_REFL)) THEN "
            "MP_TAC ((SPEC `_0` (INST_TYPE [`:num`,`:A`] EQ_REFL)))"])

    def test_a_rule_tells_its_theorem(self):
        file = read("g A `T`;;\ne REWRITE_TAC [GSYM ADD_SYM; SPECL [`0`] LE_REFL];;\n")
        place = file.lines.text.index("GSYM")
        found = lookup.word([*library(), file], file, place + 1)
        self.assertIn("Here: `!m n. n + m = m + n`", hovering.of_word(found, None).replace(":num", "").replace("(", "").replace(")", ""))
        other = lookup.word([*library(), file], file, file.lines.text.index("SPECL") + 1)
        self.assertIn("makes `p` at the terms", hovering.of_word(other, None))
        self.assertEqual(set(manual.PACKAGE_RULES), set(forward.RULES))

    def test_the_plain_file_has_the_theorems_before_the_proof(self):
        file = read("g A `T`;;\ne REWRITE_TAC [GSYM ADD_SYM];;\nqed;;\n")
        again = File("own.hol")
        again.take(spelling.expanded(file)[0])
        share_notation([*library(), again])
        self.assertEqual([one.text for one in again.commands], [one.text for one in file.commands])

    def test_what_is_wrong_is_told_at_its_word(self):
        for step, where, words in (
                ("GSYM NOTHING", "NOTHING", "no theorem"), ("GSYM LT_REFL", "GSYM LT_REFL", "GSYM wants equations"),
                ("GSYM (ASSUME `T`)", "ASSUME", "isn't taken inside of GSYM"), ("MATCH_MP ADD_SYM TRUTH", "MATCH_MP ADD_SYM TRUTH", "wants a theorem"),
                ("REWRITE_RULE [ADD_SYM] TRUTH", "REWRITE_RULE [ADD_SYM] TRUTH", "changes nothing"), ("REWRITE_RULE ADD_0 LE_0", "ADD_0", "a list of theorems"), ("REWRITE_RULE [] (ISPEC `T` EQ_REFL)", "REWRITE_RULE [] (ISPEC `T` EQ_REFL)", "leaves T"),
                ("PURE_REWRITE_RULE [ADD_SYM] ADD_SYM", "PURE_REWRITE_RULE [ADD_SYM] ADD_SYM", "doesn't end"), ("REWRITE_RULE [NOTHING] LE_0", "NOTHING", "no theorem"),
                ("REWRITE_RULE [ASSUME `T`] LE_0", "ASSUME", "isn't taken inside of REWRITE_RULE"), ("SPECL [`T`] LE_REFL", "SPECL [`T`] LE_REFL", "wants one of type `num`"),
                ("SPECL [`0`; `0`] LE_REFL", "SPECL [`0`; `0`] LE_REFL", "this has 1"), ("SPECL `0` LE_REFL", "`0`", "a list of terms"),
                ("MATCH_MP EQ_SYM LE_0", "MATCH_MP EQ_SYM LE_0", "no instance"), ("GSYM", "]", "no theorem"), ("CONJ TRUTH", "]", "no theorem")):
            with self.subTest(step):
                found = [one for one in told("g A `T`;;\ne REWRITE_TAC [%s];;" % step) if "isn't ended" not in one[1]]
                self.assertEqual(len(found), 1, found)
                self.assertEqual(found[0][0].strip(), where)
                self.assertIn(words, found[0][1])


class Lists(unittest.TestCase):
    def test_a_list_stands_in_lists_and_in_files_that_import_it(self):
        first, second = File("first.hol"), File("second.hol")
        first.take(IMPORT + "theorems BASIC = [FORALL_SIMP; SPEC `0` ADD_0; AND_CLAUSES];;\ntheorems MORE = [BASIC; LE_REFL];;")
        second.take("import first;;\ng A `T`;;\ne REWRITE_TAC [MORE; LT_REFL];;")
        share_notation([*library(), first, second])
        self.assertEqual(second.commands[-1].text, "e REWRITE_TAC [FORALL_SIMP; SPEC `_0` ADD_0; AND_CLAUSES; LE_REFL; LT_REFL]")
        self.assertEqual([one.word for at, one in enumerate(first.commands) if not first.is_declaration(at)], ["import"])

    def test_what_is_wrong_is_told_at_its_word(self):
        for text, where, words in (
                ("theorems L = [NOTHING];;", "NOTHING", "no theorem"), ("theorems L;;", "theorems L", "of the form"),
                ("theorems TRUTH = [FORALL_SIMP];;", "TRUTH", "names a theorem"), ("theorems EQ_REFL = [FORALL_SIMP];;", "EQ_REFL", "names a theorem"),
                ("theorems L = [FORALL_SIMP];;\ng A `T`;;\ne ACCEPT_TAC L;;", "L", "stands among those of a list")):
            with self.subTest(text):
                found = [one for one in told(text) if words in one[1]]
                self.assertEqual([one[0] for one in found], [where], told(text))


    def test_what_tells_constructors_apart_has_hol_lights_words(self):
        file = read("define_type t = C | D num;;\ng A `T`;;\ne REWRITE_TAC [distinctness \"t\"; injectivity \"t\"; distinctness \"list\"];;")
        self.assertEqual(file.commands[-1].text, "e REWRITE_TAC [t_DISTINCT; t_INJECTIVE; NOT_CONS_NIL]")
        self.assertEqual([one for one in told("define_type t = C;;\ng A `T`;;\ne REWRITE_TAC [distinctness \"t\"];;\noops;;")][0],
                         ('distinctness "t"', "`distinctness` isn't known of `t`: its constructors have nothing to tell, or it isn't by define_type"))

    def test_rules_of_the_simplifier_are_had_by_files_that_import_them(self):
        first, second = File("first.hol"), File("second.hol")
        first.take(IMPORT + "theorems L = [ADD_0; SPEC `0` LE_0];;\nsimp L LE_REFL;;")
        second.take("import first;;\nsimp LT_REFL;;")
        share_notation([*library(), first, second])
        self.assertEqual(list(second.notation.standing.simple), ["ADD_0", "LE_REFL", "LT_REFL"])
        self.assertEqual(told("simp NOTHING;;\nsimp `T`;;\nsimp;;"), [
            ("NOTHING", "no theorem and no list `NOTHING` stands before this command"), ("T", "a theorem's name is wanted here: simp THEOREM THEOREM .."),
            ("simp", "this has to be of the form simp THEOREM THEOREM ..")])


class Names(unittest.TestCase):
    """Names for terms: `let`."""

    def sent(self, text):
        """What is sent of a file's last command."""
        return read(text).commands[-1].text

    def test_a_name_stands_for_its_term_in_steps(self):
        self.assertEqual(self.sent("g A `T`;;\nlet t = `x + 1`;;\ne MP_TAC (SPEC t LE_REFL) THEN EXISTS_TAC t;;"),
                         "e MP_TAC (SPEC `add x _1` LE_REFL) THEN EXISTS_TAC `add x _1`")
        self.assertEqual(self.sent("g A `T`;;\ne (let u = `x + 1` in let v = `u:num` in EXISTS_TAC u THEN EXISTS_TAC v) THEN EXISTS_TAC u;;"),
                         "e (EXISTS_TAC `add x _1` THEN EXISTS_TAC `u:num`) THEN EXISTS_TAC u")
        file = read("g A `T`;;\nlet t = `SUC x`;;\ne MP_TAC (GSYM (SPEC t ADD_0));;")
        self.assertEqual(file.commands[1].text, "g pk_A_1 `SUC (x:num) = add (SUC x) _0`")

    def test_places_lead_back_to_the_name(self):
        file = read("g A `T`;;\nlet t = `x + 1`;;\ne MP_TAC (SPEC t LE_REFL) THEN EXISTS_TAC FOO;;")
        command, whole = file.commands[-1], file.lines.text
        self.assertEqual(whole[slice(*command.range(command.text.index("add"), command.text.index("add") + 3))], "t")
        at = command.text.index("FOO")
        self.assertEqual(whole[slice(*command.range(at, at + 3))], "FOO")

    def test_what_is_wrong_is_told_at_its_word(self):
        for text, where, words in (
                ("let t = 4;;", "let t = 4", "of the form"), ("let CONJ_TAC = `T`;;", "CONJ_TAC", "a name in steps already"),
                ("let LE_REFL = `T`;;", "LE_REFL", "a name in steps already"), ("let t = `T` in e MP_TAC t;;", "let t = `T` in e MP_TAC t", "in one step"),
                ("g A `T`;;\ne let t = 4 in MP_TAC t;;\noops;;", "let", "in a step this is written"), ("let t = `x +`;;", "x +", "ends too soon")):
            with self.subTest(text):
                found = told(text)
                self.assertEqual(len(found), 1, found)
                self.assertIn(words, found[0][1])
                self.assertIn(found[0][0].strip("`"), where)


class Files(unittest.TestCase):
    def test_a_file_without_packages_is_sent_as_it_is(self):
        text = "import arithmetic;;\ng A `x = x`;;\ne REFL_TAC;;\nqed;;\n"
        file = read(text, False)
        self.assertEqual([one.text for one in file.commands], [part.strip() for part in text.split(";;")[:-1]])
        self.assertFalse(any(isinstance(one, Part) for one in file.commands))

    def test_a_package_is_one_thing_to_editors(self):
        file = read("define_type t = C | D num;;\ng A `x = x`;;\ne REFL_TAC;;\nqed;;\n")
        self.assertEqual([one["name"] for one in features.symbols(file)], ["t", "A"])
        self.assertEqual(len(features.foldings(file)), 1)
        self.assertEqual(len(features.foldings(read("define_type t =\n C\n | D num;;\n"))), 1)

    def test_an_edit_behind_a_package_changes_nothing_of_it(self):
        file, sent = File("own.hol"), []
        for proof in ("REFL_TAC", "REWRITE_TAC []"):
            file.take(IMPORT + "define_type t = C | D num;;\ndefine FN `FN C = 0 /\\ FN (D n) = n`;;\ng A `x = x`;;\ne %s;;\nqed;;\n" % proof)
            share_notation([*library(), file])
            sent.append([(entry.sent, entry) for entry in file.theory.entries])
        first, second = sent
        self.assertGreater(len(first), 30)
        changed = [at for at, (one, other) in enumerate(zip(first, second)) if one[0] != other[0] or one[1] is not other[1]]
        self.assertEqual(changed[:1], [len(first) - 2])

    def test_names_lead_to_the_package_and_are_used_in_it(self):
        file = read("define_type t = C | D num;;\ndefine NODES `NODES C = 0 /\\ NODES (D n) = n`;;\ng A `NODES C = 0`;;\ne REWRITE_TAC [GSYM NODES];;\nqed;;\n")
        text = file.lines.text
        for name, kind, number in (("NODES", names.CONSTANT, 3), ("C", names.CONSTANT, 3), ("NODES", names.THEOREM, 2)):
            found = next(one for one in names.known(file) if one.name == name and one.kind == kind)
            self.assertEqual(text[slice(*names.name_range(found))], name)
            used = [(start, end) for _, start, end in names.uses([file], found)]
            self.assertEqual({text[start:end] for start, end in used}, {name})
            self.assertEqual(len(used), len(set(used)))
            self.assertGreaterEqual(len(used), number, (name, kind))
        self.assertFalse([one.name for one in names.known(file) if one.name.startswith("pk_")])

    def test_expand_writes_an_ordinary_file_that_has_the_same_commands(self):
        file = read("define_type t = C | D num;;\ng A `x = C`;;\nsorry;;\n")
        text, troubles = spelling.expanded(file)
        self.assertEqual(troubles, [])
        again = File("own.hol")
        again.take(text)
        share_notation([*library(), again])
        self.assertEqual([one.text for one in again.commands], [one.text for one in file.commands])
        self.assertIn("(* define_type t = C | D num;; *)", text)

    def test_a_type_of_an_imported_file_is_read_anew_where_it_changes(self):
        first, second = File("first.hol"), File("second.hol")
        first.take(IMPORT + "define_type t = C;;")
        second.take("import first;;\ndefine_type u = E t;;")
        share_notation([*library(), first, second])
        self.assertFalse([one for one in findings(second) if one.severity == Severity.ERROR])
        first.take(IMPORT + "define_type t = C A;;")
        share_notation([*library(), first, second])
        self.assertIn("takes 1 arguments", "".join(one.text for one in findings(second)))


class Sorry(unittest.TestCase):
    def test_a_proof_that_sorry_ends_is_an_axiom_with_a_warning(self):
        text = "g HARD `!x:num. x = x`;;\ne GEN_TAC;;\nsorry;;\ng B `T`;;\n"
        self.assertEqual(told(text), [("sorry", "HARD isn't proved: it is an axiom by this sorry")])
        file = read(text)
        self.assertEqual([one.text for one in file.commands][-3:-1], ["oops", "new_axiom HARD `!x:num. x = x`"])
        self.assertIn("HARD", [one.name for one in names.written(file)])

    def test_where_no_proof_is_open_it_is_wrong(self):
        self.assertIn("no proof is open", told("sorry;;")[0][1])

    def test_the_outline_has_the_goal_once(self):
        self.assertEqual([one["name"] for one in features.symbols(read("g A `T`;;\nsorry;;\n"))], ["A"])


def checked(text, *words):
    """The status of a check of a file that imports the theory of packages, and what it says; or of several files."""
    with tempfile.TemporaryDirectory() as folder:
        for name in LIBRARY or [file.theory.name for file in library()]:
            os.symlink(str(ROOT / "theories" / (name + ".hol")), os.path.join(folder, name + ".hol"))
        texts = [text] if isinstance(text, str) else text
        paths = [pathlib.Path(folder) / ("own%s.hol" % (number or "")) for number in range(len(texts))]
        for path, one in zip(paths, texts):
            path.write_text(IMPORT + one)
        parser = check.argparse.ArgumentParser()
        check.add_words(parser)
        said = io.StringIO()
        with redirect_stdout(said):
            status = check.main(parser.parse_args(["--server", str(BUILT), "--jobs", "1", *words, *map(str, paths)]))
        return status, said.getvalue()


def _many(number):
    """So many constructors with arguments."""
    kinds = ("K%d num", "K%d num many", "K%d many many", "K%d A (many list)", "K%d")
    return " | ".join(kinds[at % 5] % at for at in range(number))


@unittest.skipUnless(BUILT.is_file(), "hol_serve isn't built")
class OverTheProgram(unittest.TestCase):
    def test_all_is_accepted_and_sorry_fails(self):
        text = "define_type colour = Red | Green | Blue;;\n" \
               "define_type exp = Numb num | Sum (exp list) | Two (exp list) num (exp list) exp;;\n" \
               "define_type tree = Leaf | Node A tree tree;;\n" \
               "define VAL `(VAL (Numb n) = n) /\\ (VAL (Sum l) = VALS l) /\\ (VAL (Two l n m e) = VAL e) /\\ " \
               "(VALS [] = 0) /\\ (VALS (CONS e l) = VAL e + VALS l)`;;\n" \
               "define GCD by_measure `\\(m,n). n` `!m n. GCD m n = if n = 0 then m else GCD n (m MOD n)`;;\n" \
               "define CHOOSE by_measure `\\(n,k). n` `CHOOSE (n,0) = 1 /\\ CHOOSE (0,SUC k) = 0 /\\ " \
               "CHOOSE (SUC n,SUC k) = CHOOSE (n,SUC k) + CHOOSE (n,k)`;;\n" \
               "define FIB `FIB 0 = 0 /\\ FIB 1 = 1 /\\ FIB (n + 2) = FIB n + FIB (n + 1)`;;\n" \
               "define MAJ `(MAJ T T c <=> T) /\\ (MAJ T b T <=> T) /\\ (MAJ a T T <=> T) /\\ (MAJ a b c <=> F)`;;\n" \
               "inductive STAR `(!x. STAR R x x) /\\ (!x y z. R x y /\\ STAR R y z ==> STAR R x z)`;;\n" \
               "record point = Point across:num tag:A;;\nrecord action = Action run:(num->bool);;\n" \
               "inductive EV `EV 0 /\\ (!n. OD n ==> EV (SUC n)) /\\ (!n. EV n ==> OD (SUC n))`;;\n" \
               "g TURNED `!m n. n + m = m + n`;;\ne ACCEPT_TAC (GSYM ADD_SYM);;\nqed;;\n" \
               "abbreviate `below x y = x < y /\\ ~(x = 0)`;;\nlet t = `!n. SUC n = n + 1`;;\n" \
               "g RULED `!x:num. below x x ==> Red = Green`;;\ne SUBGOAL_THEN t ASSUME_TAC THENL [ACCEPT_TAC ADD1; ALL_TAC];;\n" \
               "e REWRITE_TAC [LT_REFL; FORALL_SIMP; REWRITE_RULE [ADD_CLAUSES] (SPECL [`n:num`; `n + 0`] LT_SUC_LE); distinctness \"colour\"];;\nqed;;\n" \
               "define BAD by_measure `\\n. n` `BAD n = BAD (n + 1)`;;\ng COLOURS `!x. x = Red \\/ x = Green \\/ x = Blue`;;\ne ACCEPT_TAC colour_CASES;;\nqed;;\n" \
               "g HARD `!x:num. x = x`;;\nsorry;;\ng LATER `!x:num. x = x`;;\ne ACCEPT_TAC HARD;;\nqed;;\n"
        status, said = checked(text, "--axioms", "--alone")
        self.assertEqual(status, 1)
        errors = [line.split(": ", 1)[1] for line in said.split("\n") if " error: " in line]
        self.assertEqual(len(errors), 2, errors)
        self.assertIn("prove `!n. lt (add n _1) n` and name it", errors[0])
        self.assertEqual(errors[1], "error: HARD isn't proved: it is an axiom by this sorry")
        rests = {line.split(": ", 1)[1].split(" ")[0]: line for line in said.split("\n") if " rests on " in line}
        self.assertIn("axiom:HARD", rests["LATER"].split("rests on")[1])
        for name in ("COLOURS", "exp_RECURSION", "exp_INJECTIVE", "tree_DISTINCT", "VAL", "GCD", "CHOOSE", "FIB", "MAJ", "STAR_CASES", "EV_STRONG_INDUCT", "point_EXT", "TURNED", "RULED"):
            self.assertNotIn("axiom", rests[name])

    def test_types_are_made_soon(self):
        """Expanded and run, in the seconds of the processor that are wanted: the best one of some, since what else the processor does costs too."""
        program = Asker([str(BUILT)], 300.0)
        self.addCleanup(program.stop)
        for file in library():
            program.add(file.name, [entry.sent for entry in file.theory.entries])
        read("define_type first = First num;;").commands  # The library is read once.
        for text, seconds in (("many = Numb num | Plus many many | Sum (many list)", 0.1), ("many = " + _many(20), 0.5)):
            spent = []
            for name in ("once", "twice", "thrice"):
                begun, had = time.process_time(), program.processor_seconds()
                program.copy([one.text for one in read("define_type %s;;" % text.replace("many", name)).commands])
                spent.append(time.process_time() - begun + program.processor_seconds() - had)
                self.assertIn("%s_CASES" % name, program.theorems())
                program.forget()
            self.assertLess(min(spent), seconds * slowness(), text[:20])

    def test_steps_by_the_type_are_accepted_whatever_the_goal_assumes(self):
        text = "define_type t = P num | fn t | f0 | a (t list) t;;\ng EACH `!x:t. x = f0 ==> !y:t. x = y \\/ ~(y = x)`;;\ne GEN_TAC THEN DISCH_TAC;;\n" \
               "e CASES_ON `y:t` THEN REPEAT GEN_TAC THEN ASM_REWRITE_TAC [EXCLUDED_MIDDLE; FORALL_SIMP] THEN REWRITE_TAC [distinctness \"t\"; EXCLUDED_MIDDLE];;\nqed;;\n" \
               "define DEPTH `DEPTH f0 = 0 /\\ DEPTH (fn (P n)) = n /\\ DEPTH (a [] x) = 1 /\\ DEPTH x = 2`;;\nrecord q = Q P:num h:(q list);;\n" \
               "g SAME `!x:t. x = x`;;\ne MATCH_MP_TAC t_INDUCT THEN BETA_TAC THEN REWRITE_TAC [FORALL_SIMP];;\nqed;;\n" \
               "g AGAIN `!x:t. x = x`;;\ne INDUCT_ON `x` THEN REWRITE_TAC [FORALL_SIMP];;\nqed;;\n"
        status, said = checked(text, "--alone", "--no-axioms")
        self.assertEqual(status, 0, said)

    def test_many_constructors_are_accepted(self):
        rich = ("R%d", "R%d num", "R%d rich bool", "R%d A (rich list) num", "R%d (rich list) A rich (rich list)")
        text = "define_type rich = %s;;\n" % " | ".join(rich[number % 5] % number for number in range(32))
        text += "define_type plain = %s;;\n" % " | ".join("P%d" % number for number in range(64))
        text += "g MANY `!x y. ~((R1 x:A rich) = R31 y) /\\ ~(P63 = P0)`;;\ne REWRITE_TAC [distinctness \"rich\"; distinctness \"plain\"; FORALL_SIMP];;\nqed;;\n"
        status, said = checked(text, "--alone", "--no-axioms")
        self.assertEqual(status, 0, said)
        status, said = checked("define_type rich = %s;;\n" % " | ".join(rich[number % 4] % number for number in range(64)), "--alone")
        self.assertIn("the program refuses one of them, `e MP_TAC ..`: too large: fewer constructors, clauses or arguments\n", said)
        self.assertIn("at most 64 constructors", told("define_type q = %s;;" % " | ".join("Q%d" % number for number in range(65)))[0][1])

    def test_many_constructors_with_arguments_are_accepted(self):
        text = "define_type many = %s;;\n" % _many(20)
        text += "g APART `!x (y:A many). ~(K3 x [] = K18 x [y]) /\\ ~((K19:A many) = K4)`;;\n" \
                "e REWRITE_TAC [distinctness \"many\"; injectivity \"many\"; FORALL_SIMP];;\nqed;;\n"
        self.assertLess(len(read(text).commands), 60)
        status, said = checked(text, "--alone", "--no-axioms")
        self.assertEqual(status, 0, said)

    def test_the_name_of_a_constructor_may_end_like_that_of_a_function_in_a_proof(self):
        text = "define_type nest = Defn nest | Base;;\n" \
               "define HALVED `HALVED Base = 0 /\\ HALVED (Defn Base) = 0 /\\ HALVED (Defn (Defn x)) = SUC (HALVED x)`;;\n"
        status, said = checked(text, "--alone", "--no-axioms")
        self.assertEqual(status, 0, said)

    def test_random_declarations_are_accepted(self):
        """So many as HOLLS_DECLARATIONS says, by the seed HOLLS_SEED."""
        number, seed = int(os.environ.get("HOLLS_DECLARATIONS", "48")), int(os.environ.get("HOLLS_SEED", "1"))
        made = Declarations(seed).some(number)
        texts = [text(corrected(made[at:at + 12], read)[0]) for at in range(0, number, 12)]
        status, said = checked(texts, "--alone", "--no-axioms")
        self.assertEqual(status, 0, said)
