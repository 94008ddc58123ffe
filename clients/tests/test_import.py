"""Theorems from a recorded run of HOL Light: reading what was recorded, its terms and theorems here, and proofs over the program."""

import pathlib
import tempfile
import unittest

from holls.api import Project, Prover, ProverError
from holls.exchange import citing, importing, kernel, layout, likes, neutral, recording
from holls.exchange.neutral import Untranslatable
from holls.files import File
from holls.checking import Unit
from holls.prover import reading, typed
from holls.prover.scope import Scope
from holls.prover.writing import Quoter
from tests import forked
from tests.helpers import BUILT

BASE = """g BOTH `!p q. p ==> q ==> p /\\ q`;;
e REPEAT STRIP_TAC THEN FIRST_ASSUM ACCEPT_TAC;;
qed;;
"""


class Writer:
    """Writes lines of a neutral file from terms of ours, as the recorder writes HOL Light's."""

    def __init__(self):
        self.lines, self.numbers, self.count = [], {}, 0

    def put(self, kind, *words):
        self.count += 1
        self.lines.append(" ".join([kind, str(self.count), *map(str, words)]))
        return self.count

    def once(self, kind, *words):
        if (kind, words) not in self.numbers:
            self.numbers[kind, words] = self.put(kind, *words)
        return self.numbers[kind, words]

    def type(self, ty):
        if isinstance(ty, str):
            return self.once("Y", "v", ty)
        return self.once("Y", "c", ty[0], *map(self.type, ty[1:]))

    def term(self, term):
        if term[0] in "vc":
            return self.once("T", term[0], str(term[1]), self.type(term[2]))
        if term[0] == "a":
            return self.once("T", "a", self.term(term[1]), self.term(term[2]))
        name = str(term[1])
        while any(one[1] == name for one in typed.variables(term[3])):
            name += "'"
        variable = ("v", name, term[2])
        return self.once("T", "l", self.term(variable), self.term(typed.opened(term[3], variable)))

    def theorem(self, term, rule="-", arguments=(), hypotheses=()):
        return self.put("H", rule, self.term(term), len(hypotheses), *map(self.term, hypotheses), *arguments)

    def goal(self, conclusion, *assumptions):
        return self.put("G", self.term(conclusion), *map(self.term, assumptions))

    def node(self, tactic, goal, left=(), arguments=()):
        return self.put("K", tactic, goal, len(left), *left, *arguments)

    def proof(self, theorem, goal, nodes):
        self.lines.append(" ".join(map(str, ("P", theorem, goal, *nodes))))

    def name(self, name, theorem, file="test.ml"):
        self.lines.append("N %s %d %s" % (name, theorem, file))


def term(text):
    return reading.term(text, reading.Signature(), ty=typed.BOOL)


def swapped():
    """A record of `!p q. p /\\ q ==> q /\\ p` by GEN_TAC, GEN_TAC, STRIP_TAC, CONJ_TAC and FIRST_ASSUM ACCEPT_TAC, and of what can't be had."""
    made = Writer()
    statement = term("!p q. p /\\ q ==> q /\\ p")
    p, q = ("v", "p", typed.BOOL), ("v", "q", typed.BOOL)
    first = made.goal(statement)
    second = made.goal(term("!q. p /\\ q ==> q /\\ p"))
    third = made.goal(term("p /\\ q ==> q /\\ p"))
    fourth = made.goal(term("q /\\ p"), q, p)
    left, right = made.goal(q, q, p), made.goal(p, q, p)
    theorem = made.theorem(statement, "prove")
    nodes = [made.node("GEN_TAC", first, [second]), made.node("GEN_TAC", second, [third]), made.node("STRIP_TAC", third, [fourth]),
             made.node("CONJ_TAC", fourth, [left, right]), made.node("ASM_REWRITE_TAC", left), made.node("MESON_TAC", right)]
    made.proof(theorem, first, nodes)
    made.name("SWAPPED", theorem)
    false = made.theorem(term("!p q. p \\/ q ==> p"), "prove")
    made.name("FALSE", false)
    citing_false = made.theorem(term("!p. p \\/ ~T ==> p /\\ T /\\ F"), "prove")
    goal = made.goal(term("!p. p \\/ ~T ==> p /\\ T /\\ F"))
    made.proof(citing_false, goal, [made.node("MESON_TAC", goal, (), ["h%d" % false])])
    made.name("CITES", citing_false)
    unknown = made.theorem(("c", "elsewhere", typed.BOOL))
    made.name("UNKNOWN", unknown)
    return made


def derived():
    """A record of theorems without tactics of ours: derivations of the kernel's rules, one of them around a goal that a tactic left."""
    made = Writer()

    def rule(text, name, *arguments, under=()):
        return made.theorem(read(text), name, arguments, under)

    def read(text):
        return term(text.replace("P", "(P:A->bool)").replace("Q", "(Q:A->bool)"))

    both = read("(!x. P x ==> Q x) /\\ P a")
    a, r, s = ("v", "a", "A"), ("v", "r", "A"), ("v", "s", typed.BOOL)
    a, r, s, given = (made.term(one) for one in (a, r, s, both))
    assumed = rule("(!x. P x ==> Q x) /\\ P a", "ASSUME", "t%d" % given, under=[both])
    general = rule("!x. P x ==> Q x", "CONJUNCT1", "h%d" % assumed, under=[both])
    implied = rule("P a ==> Q a", "SPEC", "t%d" % a, "h%d" % general, under=[both])
    premise = rule("P a", "CONJUNCT2", "h%d" % assumed, under=[both])
    shown = rule("Q a", "MP", "h%d" % implied, "h%d" % premise, under=[both])
    closed = rule("(!x. P x ==> Q x) /\\ P a ==> Q a", "DISCH", "t%d" % given, "h%d" % shown)
    at = rule("(!x. P x ==> Q x) /\\ P r ==> Q r", "INST", "t%d" % r, "t%d" % a, "h%d" % closed)
    whole = rule("!r. (!x. P x ==> Q x) /\\ P r ==> Q r", "GEN", "t%d" % r, "h%d" % at)
    named = rule("!r. (!x. P x ==> Q x) /\\ P r ==> Q r", "-")
    made.name("WHOLE", named)
    made.lines.append("J 0 %d %d" % (named, whole))
    # A tactic that nothing here is like left Q a of .. ==> Q a \\/ s, and another one nothing.
    first, second = made.goal(read("(!x. P x ==> Q x) /\\ P a ==> Q a \\/ s")), made.goal(read("Q a"), both)
    hole = rule("Q a", "GOAL", under=[both])
    wider = rule("Q a \\/ s", "DISJ1", "t%d" % s, "h%d" % hole, under=[both])
    around = rule("(!x. P x ==> Q x) /\\ P a ==> Q a \\/ s", "DISCH", "t%d" % given, "h%d" % wider)
    odd, other = made.node("ODD_TAC", first, [second]), made.node("OTHER_TAC", second)
    made.lines += ["J %d %d %d" % (odd, around, hole), "J %d %d" % (other, shown)]
    theorem = rule("(!x. P x ==> Q x) /\\ P a ==> Q a \\/ s", "prove")
    made.proof(theorem, first, [odd, other])
    made.name("AROUND", theorem)
    strange = rule("!p. p \\/ s", "STRANGE")
    false = rule("!p. p \\/ s", "-")
    made.name("STRANGE", false)
    made.lines.append("J 0 %d %d" % (false, strange))
    return made


def unit(text, name="base"):
    file = File("%s.hol" % name)
    file.take(text)
    return Unit(file, "", [])


class Reading(unittest.TestCase):
    def translated(self, build):
        made = Writer()
        number = build(made)
        record = neutral.read(made.lines)
        return neutral.Translator(record).term(number)

    def test_what_a_line_says(self):
        record = neutral.read(swapped().lines)
        number, file = record.names["SWAPPED"]
        self.assertEqual((file, record.theorems[number].rule), ("test.ml", "prove"))
        translator = neutral.Translator(record)
        self.assertEqual(translator.term(record.theorems[number].conclusion), term("!p q. p /\\ q ==> q /\\ p"))
        proof = record.proofs[number]
        self.assertEqual([record.nodes[one].tactic for one in proof.nodes][:3], ["GEN_TAC", "GEN_TAC", "STRIP_TAC"])

    def test_a_line_that_is_none_is_named(self):
        for lines in (["Y 1 v A", "Z 1 2"], ["Y 1 v A", "H 2 prove"], ["T"]):
            with self.assertRaises(ValueError) as caught:
                neutral.read(lines)
            self.assertIn("line %d" % len(lines), str(caught.exception))

    def test_numerals_and_names(self):
        num = ("num",)

        def numeral(digits):
            body = ("c", "_0", num)
            for digit in digits:
                body = ("a", ("c", digit, typed.fun(num, num)), body)
            return ("a", ("c", "NUMERAL", typed.fun(num, num)), body)

        one = ("c", "_1", num)
        two = ("a", ("c", "BIT0", typed.fun(num, num)), one)
        for digits, wanted in (([], ("c", "_0", num)), (["BIT1"], one), (["BIT1", "BIT0"], two),
                               (["BIT1", "BIT0", "BIT1"], ("a", ("c", "BIT1", typed.fun(num, num)), two))):
            self.assertEqual(self.translated(lambda made: made.term(numeral(digits))), wanted)
        variable, tag = ("v", "n", num), ("c", "NUMERAL", typed.fun(num, num))
        for untagged in (variable, ("a", ("c", "BIT0", typed.fun(num, num)), variable)):  # As in HOL Light's BIT0_THM.
            self.assertEqual(self.translated(lambda made: made.term(("a", tag, untagged))), untagged)
        plus = self.translated(lambda made: made.term(("c", "+", typed.fun(num, typed.fun(num, num)))))
        self.assertEqual(plus[1], "add")
        self.assertEqual(neutral.variable_name("<<"), "R")

    def test_sets_are_predicates(self):
        num, is_set = ("num",), typed.fun(("num",), typed.BOOL)
        member, own = ("v", "GEN%PVAR%0", num), ("v", "m", num)
        property_of = ("a", ("v", "P", is_set), own)

        def comprehension(value):
            inside = typed.apply(("c", "SETSPEC", typed.fun(num, typed.fun(typed.BOOL, typed.fun(num, typed.BOOL)))), member, property_of, value)
            exists = ("a", ("c", "?", typed.fun(is_set, typed.BOOL)), typed.abstract(own, inside))
            return ("a", ("c", "GSPEC", typed.fun(is_set, is_set)), typed.abstract(member, exists))

        self.assertEqual(self.translated(lambda made: made.term(comprehension(own))), typed.abstract(own, property_of))
        value = ("a", ("c", "SUC", typed.fun(num, num)), own)
        found = self.translated(lambda made: made.term(comprehension(value)))
        other = ("v", "y", num)
        exists = typed.abstract(own, typed.apply(("c", "/\\", typed.fun(typed.BOOL, typed.fun(typed.BOOL, typed.BOOL))), property_of, typed.mk_eq(other, value)))
        self.assertEqual(found, typed.abstract(other, ("a", ("c", "?", typed.fun(is_set, typed.BOOL)), exists)))


class Citing(unittest.TestCase):
    def citations(self, made):
        record, scope = neutral.read(made.lines), Scope()
        for name, (number, _) in record.names.items():
            scope.theorems[name] = neutral.Translator(record).term(record.theorems[number].conclusion)
        return citing.Citations(record, neutral.Translator(record), scope, Quoter(scope.signature))

    def test_rules_in_place(self):
        made = Writer()
        symmetric = made.theorem(reading.term("!x y:A. x = y <=> y = x", reading.Signature()))
        made.name("EQ_SYM_EQ", symmetric)
        number = ("v", "n", ("num",))
        special = made.theorem(made_equation(number), "ISPEC", ["t%d" % made.term(number), "h%d" % symmetric])
        turned = made.theorem(reading.term("!x y:A. y = x <=> x = y", reading.Signature()), "GSYM", ["h%d" % symmetric])
        found = self.citations(made)
        found.scope.signature.constructors["num"] = 0
        self.assertEqual(found.text(special), "(SPEC `n:num` (INST_TYPE [`:num`,`:A`] EQ_SYM_EQ))")
        self.assertEqual(found.text(turned), "(SYM (SPEC `y:A` (SPEC `x:A` EQ_SYM_EQ)))")

    def test_matching_finds_functions(self):
        pattern = citing.opened(term("!P. (!x:A. P x) ==> P a"))[1]
        sides = typed.binary(pattern)
        goal = term("!x:A. x = x /\\ f x")
        terms, types = {}, {}
        self.assertTrue(citing.match(sides[1], goal, terms, types))
        self.assertEqual(terms["?0"], reading.term("\\x:A. x = x /\\ f x", reading.Signature()))
        self.assertFalse(citing.match(sides[1], term("p /\\ q"), {}, {}))

    def test_what_no_expression_is(self):
        made = Writer()
        number = made.theorem(term("p ==> p"), "REWRITE_RULE", [])
        with self.assertRaises(citing.Uncitable):
            self.citations(made).text(number)


def made_equation(number):
    """`!y. n = y <=> y = n` of a variable over num."""
    other = ("v", "y", number[2])
    both = typed.mk_eq(typed.mk_eq(number, other), typed.mk_eq(other, number))
    return ("a", ("c", "!", typed.fun(typed.fun(number[2], typed.BOOL), typed.BOOL)), typed.abstract(other, both))


class Shapes(unittest.TestCase):
    def test_lines_are_broken_and_indented(self):
        step = "e " + " THEN ".join(["REWRITE_TAC [%s]" % "; ".join("THEOREM_%d" % number for number in range(12))] * 3)
        text = layout.lines(step, 2)
        self.assertTrue(all(len(line) <= layout.WIDTH for line in text.split("\n")))
        self.assertEqual(" ".join(text.split()), " ".join((step + ";;").split()))
        proof = layout.proof(["g N `p`", "e A", "e B", "e C", "qed"], [1, 2, 1, 0])
        self.assertEqual(proof, "g N `p`;;\ne A;;\n  e B;;\ne C;;\nqed;;")

    def test_made_up_type_variables_get_letters(self):
        first = importing.Brought("ONE", "a.ml", ("g ONE `!x:T12. x = x`", "e REWRITE_TAC []", "qed"), (1, 0))
        second = importing.Brought("TWO", "a.ml", ("g TWO `!x:T99 y:A. x = x`", "e ACCEPT_TAC (INST_TYPE [`:T99`,`:T12`] ONE)", "qed"), (1, 0))
        one, two = importing.renamed([first, second])
        self.assertEqual(one.commands[0], "g ONE `!x:A. x = x`")
        self.assertEqual(two.commands[:2], ("g TWO `!x:B y:A. x = x`", "e ACCEPT_TAC (INST_TYPE [`:B`,`:A`] ONE)"))

    def test_rewriting_that_may_not_end_is_seen(self):
        self.assertTrue(likes.loops(term("!p q. p /\\ q <=> q /\\ p")))
        self.assertFalse(likes.loops(term("!p. p /\\ p <=> p")))

    def test_wrappers_stand_behind_definitions(self):
        text = "let ONE = 1;;\n\nlet (TWO : int) =\n  2;;\n\nlet THREE = 3;;\n"
        self.assertEqual(recording.wrapped(text, [("TWO", "let TWO = 2 * TWO;;"), ("NONE", "let NONE = 0;;")]),
                         "let ONE = 1;;\n\nlet (TWO : int) =\n  2;;\nlet TWO = 2 * TWO;;\n\nlet THREE = 3;;\n")
        self.assertEqual(list(recording.names("let A = 1;;\n(* let B = 2;; *)\nlet [C;D] = f;;\nlet rec E x = x;;\n  let F = 1;;\n")), ["A", "C", "D"])


class Recording(unittest.TestCase):
    def test_a_kernel_keeps_what_made_each_theorem(self):
        text = ("module type K = sig\n      type thm\nend\n  type thm = Sequent of (term list * term)\n"
                "  let dest_thm (Sequent(asl,c)) = (asl,c)\n\n  let REFL tm =\n    Sequent([],eq tm (f tm))\n\n"
                "  let TRANS (Sequent(asl1,c1)) (Sequent(asl2,c2)) =\n    Sequent(term_union asl1 asl2,Comb(c1,c2))\n")
        found = kernel.keeping(text)
        self.assertIn("val derivation : thm ->", found)
        self.assertIn("((Sequent(asl1,c1,_)) as of_c1)", found)
        self.assertIn("Sequent([],eq tm (f tm),made \"REFL\" [] [tm] [])", found)
        self.assertIn("Sequent(term_union asl1 asl2,Comb(c1,c2),made \"TRANS\" [of_c1; of_c2] [] [])", found)

    def test_names_are_told_behind_what_binds_them(self):
        text = "(* let NOT = 1;; *)\nlet ONE = prove\n (a,b);;\n\nlet TWO = c and THREE = d;;\n"
        self.assertEqual(recording.telling(text, "f.ml", frozenset(("TWO",))),
                         "(* let NOT = 1;; *)\nlet ONE = prove\n (a,b);;\nrec_name \"ONE\" ONE \"f.ml\";;\n\nrec_is_wanted := true;;\n"
                         "let TWO = c and THREE = d;;\nrec_name \"TWO\" TWO \"f.ml\";;\nrec_is_wanted := false;;\n")
        self.assertIn("rec_is_wanted := true;;", recording.telling(text, "f.ml", recording.Others(frozenset(("TWO",)))).split("let ONE")[0])


@unittest.skipUnless(BUILT.exists(), "hol_serve isn't built")
class OverTheProgram(unittest.TestCase):
    def brought(self, is_axioms=False):
        record = neutral.read(swapped().lines)
        return importing.Importer(record, [unit(BASE)], [str(BUILT)], 10.0, is_axioms).bring(frozenset(("test.ml",)), frozenset())

    def test_a_proof_and_what_is_missing(self):
        outcome = self.brought()
        self.assertEqual([one.name for one in outcome.brought], ["SWAPPED"])
        self.assertEqual(set(outcome.missing), {"FALSE", "CITES", "UNKNOWN"})
        self.assertIn("FALSE is missing, which it cites", outcome.missing["CITES"])
        self.assertIn("elsewhere", outcome.missing["UNKNOWN"])

    def test_recorded_derivations_come_where_nothing_else_does(self):
        record = neutral.read(derived().lines)
        found = importing.Importer(record, [unit(BASE)], [str(BUILT)], 0.0, False).bring(frozenset(("test.ml",)), frozenset())
        self.assertEqual(found.brought, [])  # No time at all.
        importer = importing.Importer(record, [unit(BASE)], [str(BUILT)], 20.0, False)
        importer.replaying = lambda *given: None
        found = importer.bring(frozenset(("test.ml",)), frozenset())
        self.assertEqual([(one.name, one.is_derived) for one in found.brought], [("WHOLE", True), ("AROUND", True)])
        self.assertEqual(set(found.missing), {"STRANGE"})
        self.assertIn("DISJ1_TAC", " ".join(found.brought[1].commands))
        importer = importing.Importer(record, [unit(BASE)], [str(BUILT)], 20.0, False, 0)
        importer.replaying = lambda *given: None
        self.assertEqual(importer.bring(frozenset(("test.ml",)), frozenset()).brought, [])

    def test_axioms_only_where_they_are_asked_for(self):
        outcome = self.brought(True)
        self.assertEqual([one.name for one in outcome.brought], ["SWAPPED", "FALSE", "CITES"])
        self.assertTrue(outcome.brought[1].commands[0].startswith("new_axiom FALSE "))

    def test_the_interface_brings_theories_that_are_accepted(self):
        with tempfile.TemporaryDirectory() as folder, Prover(str(BUILT)) as prover:
            room = pathlib.Path(folder)
            (room / "base.hol").write_text(BASE)
            (room / "run.rec").write_text("\n".join(swapped().lines) + "\n")
            project = Project(prover, str(room / "base.hol"))
            brought = project.bring(str(room / "run.rec"), sources=["test.ml"], seconds=10.0)
            self.assertEqual((list(brought.texts), brought.theorems, brought.derived), (["from_test"], ("SWAPPED",), ()))
            self.assertEqual(set(brought.missing), {"FALSE", "CITES", "UNKNOWN"})
            checked = project.text(brought.texts["from_test"], "from_test").check()
            self.assertEqual((checked.is_accepted, [one.name for one in checked.theorems], checked.axioms), (True, ["SWAPPED"], ()))
            self.assertIn("BOTH", project.to_ocaml())
            (room / "run.rec").write_text("nonsense\n")
            for record in ("run.rec", "nowhere.rec"):
                with self.assertRaises(ProverError):
                    project.bring(str(room / record), names=["SWAPPED"])

    def test_the_command_writes_files_that_are_accepted(self):
        with tempfile.TemporaryDirectory() as folder:
            room = pathlib.Path(folder)
            (room / "base.hol").write_text(BASE)
            (room / "run.rec").write_text("\n".join(swapped().lines) + "\n")
            done = forked.run("import", "run.rec", "--over", "base.hol", "--names", "SWAPPED", cwd=folder, universal_newlines=True)
            self.assertEqual((done.returncode, done.stderr), (0, ""))
            self.assertIn("1 theorems came over, 0 are missing", done.stdout)
            checked = forked.run("check", "from_test.hol", cwd=folder, universal_newlines=True)
            self.assertEqual(checked.returncode, 0, checked.stdout + checked.stderr)
            done = forked.run("import", "nowhere.rec", "--over", "base.hol", cwd=folder)
            self.assertEqual(done.returncode, 2)


if __name__ == "__main__":
    unittest.main()
