"""Finding proofs: terms with types, propositional search against truth tables, and over hol_serve proofs of stored goals, which it accepts."""

import functools
import pathlib
import random
import re
import tempfile
import time
import unittest

from holls import files, names, server
from holls.protocol import Error, Goal, Goals
from holls.prover import clauses, clock, equality, finding, ground, named, reading, retyping, scope, scripts, sequents, substituting, tables, trying
from holls.prover import typed, writing
from holls.prover.asking import THEORY, Asker
from holls.prover.finder import Finder
from holls.prover.scripts import Step
from tests import forked
from tests.helpers import BUILT, CLIENTS, ROOT, SECONDS, fake

GOALS = CLIENTS / "tests" / "goals"
THEORIES = ("connectives", "maps", "pair_type", "group_axioms")
SEARCH_SECONDS = 3.0
"""So long a goal is searched, by the processor's time: what else the machine does changes nothing of what is found."""
THEORY_SECONDS = 1.0
"""So long one of the theorems of examples/theories, of which not all are found: a user has five seconds for each."""


def stored(name):
    """The goals of a file: their names and texts."""
    lines = (GOALS / (name + ".txt")).read_text(encoding="utf-8").splitlines()
    return [tuple(line.split(" ", 1)) for line in lines if not line.startswith("#")]


@functools.lru_cache(len(THEORIES))
def theory(name):
    """A file of examples/theories, which no test changes."""
    path = ROOT / "examples" / "theories" / (name + ".hol")
    return files.read(str(path), path.read_bytes())


def standing(number=len(THEORIES)):
    """What stands at the end of the first theories."""
    found = scope.Scope()
    for name in THEORIES[:number]:
        found.add_file(theory(name))
    return found


class Terms(unittest.TestCase):
    def test_each_statement_is_written_as_what_reads_as_it(self):
        known = standing()
        quoter = writing.Quoter(known.signature)
        self.assertGreater(len(known.theorems), 80)
        for name, term in known.theorems.items():
            self.assertEqual(reading.term(quoter.quote(term)[1:-1], known.signature), term, name)
        for name, text in stored("pelletier") + stored("equations"):
            term = reading.term(text, known.signature, ty=typed.BOOL)
            self.assertEqual(reading.term(quoter.quote(term)[1:-1], known.signature), term, name)

    def test_types_are_written_where_they_are_needed(self):
        quoter = writing.Quoter(reading.Signature())
        for text in ("x:A", "(f:A->B) x", "?x:A. T", "!x:A. (P:A->bool) x", "p /\\ q ==> q", "(x:A) = y"):
            term = reading.term(text, reading.Signature())
            self.assertEqual(reading.term(quoter.quote(term)[1:-1], reading.Signature()), term)
        self.assertEqual(quoter.quote(reading.term("p /\\ ~(q <=> p)", reading.Signature())), "`p /\\ ~(q <=> p)`")
        self.assertEqual(quoter.quote(reading.term("!(P:A->bool) x. P x", reading.Signature())), "`!(P:A->bool) x. P x`")
        with self.assertRaises(writing.Unwritable):
            quoter.quote(reading.term("x = (y:A) /\\ (!z. z = u)", reading.Signature()))

    def test_what_is_no_term_is_refused(self):
        for text in ("x x", "!x:A y. p", "p /\\", "(p", "f !x. p", "1"):
            with self.assertRaises(reading.Unreadable, msg=text):
                reading.term(text, reading.Signature())

    def test_definitions_and_defined_types(self):
        known = standing(3)
        quoter = writing.Quoter(known.signature)
        self.assertEqual(quoter.quote(known.theorems["SWAP_DEF"]), "`!p:(A,B)prod. swap p = pair (snd p) (fst p)`")
        self.assertEqual(known.signature.constants["ABS_prod"], reading.type_text("(A->B->bool)->(A,B)prod", known.signature))

    def test_types_that_are_not_shown_are_those_of_the_statement(self):
        signature = reading.Signature()
        statement = reading.term("!P:A->bool. ~(?x. P x) <=> (!x. ~P x)", signature)
        shown = reading.term("!P. ~(?x. P x) <=> (!x. ~P x)", signature, begun=retyping.OPEN)
        self.assertNotEqual(shown, statement)
        self.assertEqual(retyping.resolved(shown, statement), statement)
        part = reading.term("?x. Q x", signature, {"Q": typed.fun("??0", typed.BOOL)}, begun=retyping.OPEN)
        self.assertEqual(retyping.resolved(part, statement), reading.term("?x:A. Q x", signature))
        other = reading.term("!P. (?x. P x) ==> T", signature, begun=retyping.OPEN)
        self.assertEqual(retyping.resolved(other, statement), other)

    def test_equations_in_an_order_that_makes_terms_one(self):
        signature = reading.Signature()
        equations = [reading.term(text, signature) for text in (
            "(p:C) = pair (x:A) (y:B)", "(fst:C->A) (pair (x:A) (y:B)) = x", "(snd:C->B) (pair (x:A) (y:B)) = y")]
        goal = reading.term("(pair:A->B->C) (fst (p:C)) (snd p) = p", signature)
        found = substituting.plan(equations, None, goal)
        for equation, is_turned in found.equations:
            _, old, new = typed.binary(equation)
            goal = typed.replaced(goal, *((new, old) if is_turned else (old, new)))
        self.assertEqual(found.is_joined, False)
        self.assertEqual(typed.binary(goal)[1], typed.binary(goal)[2])
        self.assertIsNone(substituting.plan(equations[1:], None, reading.term("(p:C) = q", signature)))

    def test_named_functions_and_the_variables_that_they_name(self):
        known = standing()
        known.add_file(theory("tactics"))
        found = named.Functions(known.functions)
        self.assertEqual(known.functions["TABLE_TAC"], frozenset("pqr"))
        self.assertEqual(found.at(Goal(("f q",), ("f:bool->bool", "q:bool"), "q")), [
            "EXT_TAC", "CASES_Q", "TABLE_TAC", "CLOSE_TAC", "STRIPS_TAC", "BOTH_WAYS_TAC"])
        self.assertEqual(found.at(Goal((), ("q':bool",), "q'")), ["EXT_TAC", "CLOSE_TAC", "STRIPS_TAC", "BOTH_WAYS_TAC"])

    def test_a_theorem_at_the_types_of_a_goal(self):
        known = standing(3)
        goal = known.theorems["SWAP_BIJECTIVE"]
        found = [types for types, _ in scope.instances(known.theorems["INVERSE_ONTO"], [goal])]
        self.assertEqual(found, [{"A": ("prod", "A", "B"), "B": ("prod", "B", "A")}])


def formula(random_numbers, depth):
    """A random formula of five atoms."""
    if depth == 0 or random_numbers.random() < 0.1:
        return ("v", random_numbers.choice("pqrst"), typed.BOOL)
    kind = random_numbers.choice(("~", "/\\", "\\/", "==>", "="))
    if kind == "~":
        return typed.mk_not(formula(random_numbers, depth - 1))
    connective = ("c", kind, typed.fun(typed.BOOL, typed.fun(typed.BOOL, typed.BOOL)))
    return typed.apply(connective, formula(random_numbers, depth - 1), formula(random_numbers, depth - 1))


class Copies(unittest.TestCase):
    def test_what_stands_before_a_copy_changes_none_of_its_places(self):
        with tempfile.TemporaryDirectory() as folder:
            asker = Asker([fake(pathlib.Path(folder))], SECONDS)
            self.addCleanup(asker.stop)
            asker.add("T", ["new_axiom A `p`"])
            goal = "g B `x = x`"
            for texts, idle in ([goal], 0), (["import T", goal], 31), (["import T"] * 40 + ["deftac D REFL_TAC", goal], 24), (["import T"] * 900 + [goal], 0):
                asker.copy(texts)
                self.assertEqual(asker.count, len(texts))
                self.assertIsInstance(asker.report(asker.count - 1), Goals)
                self.assertIsInstance(asker.report(asker.count), Error)
                self.assertEqual(asker.step("e REFL_TAC").goals, ())
                self.assertEqual(asker.count, len(texts) + 1)
                asker.back(len(texts))
                self.assertEqual(len(asker.report(len(texts) - 1).goals), 1)
                self.assertIsInstance(asker.ask({"op": "report", "theory": THEORY, "at": idle + len(texts) - 1}), Goals)
                asker.forget()


class Propositional(unittest.TestCase):
    def test_what_is_valid_has_a_proof_and_nothing_else(self):
        random_numbers, valid = random.Random(62), 0
        for _ in range(600):
            left = tuple(formula(random_numbers, 2) for _ in range(random_numbers.randrange(4)))
            items = [finding.Item(True, term, False) for term in left] + [finding.Item(False, formula(random_numbers, 3), True)]
            proof = finding.Search(frozenset(), time.monotonic() + SECONDS).prove(items)
            holds = tables.is_valid(items, tables.atoms(items))
            self.assertEqual(proof is not None, holds)
            valid += holds
            if proof:
                self.assertTrue(proof.used <= {(item.is_left, item.term) for item in items})
                scripts.Scribe(writing.Quoter(reading.Signature()), None).steps(proof, items[-1].term, {term: "(T)" for term in left})
        self.assertGreater(valid, 100)

    def test_what_a_proof_does_not_need_is_left_out(self):
        signature = reading.Signature()
        items = [finding.Item(True, reading.term(text, signature, ty=typed.BOOL), False) for text in ("a \\/ b", "p", "c <=> d", "p ==> q")]
        items.append(finding.Item(False, reading.term("r \\/ q", signature), True))
        proof = finding.Search(frozenset(), time.monotonic() + SECONDS).prove(items)
        self.assertEqual(proof.used, {items[1][:2], items[3][:2], items[4][:2]})

    def test_equations_close_a_sequent(self):
        signature = reading.Signature()
        left = [reading.term(text, signature) for text in ("(f:A->A) (f (f a)) = a", "(f:A->A) (f (f (f (f a)))) = a", "(b:A) = c")]
        right = reading.term("(f:A->A) a = a", signature)
        formulas = [sequents.Formula(True, term, (at,)) for at, term in enumerate(left)] + [sequents.Formula(False, right, (3,))]
        proof = ground.Ground({}, {}, frozenset(), time.monotonic() + SECONDS).prove(formulas, frozenset("abcf"))
        self.assertEqual(set(proof.equations), set(left[:2]))


class Clauses(unittest.TestCase):
    def test_a_name_for_a_formula_has_no_equations(self):
        big = " /\\ ".join("(p%d \\/ q%d)" % (at, at) for at in range(7))
        term = reading.term("!x:A. (?y:A. x = y /\\ P x y) \\/ (%s) \\/ (%s)" % (big, big.replace("p", "r")), reading.Signature(), ty=typed.BOOL)
        builder = clauses.Builder()
        builder.add(sequents.Formula(False, term, (0,)), True)
        builder.add(sequents.Formula(True, term, (1,)), False)
        self.assertTrue(any(label.atom[0].label.startswith("name") for clause in builder.clauses for label in clause.literals))
        self.assertTrue(equality.axioms(builder))
        named = [literal.atom for clause in builder.clauses for literal in clause.literals if literal.atom[0].label.startswith("name")]
        self.assertIn(typed.fun("A", typed.BOOL), [atom[0].type for atom in named if len(atom) == 2])


MODEL = ": the goal is false for A = {0, 1}, P = {0}, x = 0, y = 1"


class CommandLine(unittest.TestCase):
    """`holls prove` over a small server made for tests."""

    def prove(self, text, place, *words, server=None):
        with tempfile.TemporaryDirectory() as folder:
            path = pathlib.Path(folder) / "A.hol"
            path.write_text(text)
            done = forked.run("prove", "%s:%s" % (path, place), *words, "--server", server or fake(folder), text=True)
        return done.returncode, done.stdout + done.stderr

    def test_steps_are_written(self):
        text = "g A `x = x /\\ y = y`;;\n  e CONJ_TAC;;\n\n\ng B `p`;;\n"
        self.assertEqual(self.prove(text, 3), (0, "e REFL_TAC;;\n"))
        self.assertEqual(self.prove(text, 2, "--json"), (0, '{"steps": ["e REFL_TAC"]}\n'))
        self.assertEqual(self.prove(text, 5, "--seconds", "1"), (1, "none found: the goal is false for p = F\n"))
        self.assertEqual(self.prove(text, 5, "--seconds", "1", "--json"), (1, '{"steps": null, "why": "none found: the goal is false for p = F"}\n'))
        self.assertEqual(self.prove(text, 2, "with", "TRUTH"), (0, "e REFL_TAC;;\n"))

    def test_why_none_is_found(self):
        for goal, seconds, why in (
                ("p ==> q", "30", ": the goal is false for p = T, q = F"), ("F", "30", ": the goal is false"),
                ("(P:A->bool) (@x. Q x)", "30", ": all that this search tries was tried"), ("(P:A->bool) x ==> P y", "30", MODEL),
                ("~" * 190 + "(P:A->bool) x", "30", ": the goal is nested too deeply for this search"),
                ("(!x:A. P (f x) \\/ P x) ==> ?x. P (f (f x))", "0.0001", " within 0.0001 seconds")):
            self.assertEqual(self.prove("g A `%s`;;\n" % goal, 1, "--seconds", seconds), (1, "none found%s\n" % why))

    def test_variables_whose_types_are_left_open(self):
        for text, wanted in (
                ("!x:A. ?y. R x y", ["y"]), ("!x y. R x y (z:A)", ["x", "y"]), ("!f. ?g. (f:A->B) = g", []), ("!f. (P:(A->B)->bool) (\\x. f x)", []),
                ("?f. P (f (x:A))", ["f"]), ("!y. (y = z) ==> ?x. x = z", ["y"])):
            found = retyping.left_open([reading.term(text, reading.Signature(), ty=typed.BOOL)])
            self.assertEqual(found, wanted, text)

    def test_why_nothing_is_searched(self):
        for text, place, words in (
                ("g A `x = x`;; oops;;", 1, "no goal is open there"), ("\n\ng A `p`;;", 2, "no command stands there"),
                ("g A `x = x`;;", "x", "write FILE:LINE"), ("new_constant c `:A`;;", 1, "no goal is open there")):
            status, said = self.prove(text, place)
            self.assertEqual((status, words in said), (2, True), said)
        self.assertEqual(self.prove("g A `p`;;", 1, "with", "NOPE"), (2, "holls: no theorem NOPE stands here, or its statement can't be read\n"))
        self.assertEqual(self.prove("g A `p`;;", 1, "NOPE")[0], 2)

    def test_a_goal_behind_a_refused_step(self):
        self.assertEqual(self.prove("g A `x = x`;;\ne FOO_TAC;;\nqed;;\n", 3), (0, "e REFL_TAC;;\n"))

    def test_named_functions_on_goals(self):
        below = "g A `x = x`;;\noops;;\ndeftac LATER REFL_TAC;;"
        self.assertEqual(self.prove("deftac CLOSE REFL_TAC;;\ndeftac GONE FOO_TAC;;\n" + below, 3), (0, "e CLOSE;;\n"))
        self.assertEqual(self.prove(below, 1), (0, "e REFL_TAC;;\n"))

    def test_functions_that_end_the_program_or_give_no_answer(self):
        text = "deftac DIE DIE_TAC;;\ndeftac HANG HANG_TAC;;\ndeftac CLOSE REFL_TAC;;\ng A `%s`;;\n"
        self.assertEqual(self.prove(text % "big = big", 4, "--seconds", "20"), (0, "e CLOSE;;\n"))
        self.assertEqual(self.prove(text % "loop = loop", 4, "--seconds", "20"), (0, "e CLOSE;;\n"))
        self.assertEqual(self.prove(text % "big loop = big loop", 4, "--seconds", "20"), (0, "e REFL_TAC;;\n"))

    @unittest.skipUnless(BUILT.is_file(), "hol_serve isn't built")
    def test_a_proof_that_would_have_to_name_an_open_type(self):
        steps = "e REPEAT STRIP_TAC THEN EXISTS_TAC `x:A` THEN ASM_REWRITE_TAC [];;\n"
        for binder, said in (("y", (1, "none found: the type of y is left open: give it one\n")), ("y:B", (0, steps))):
            text = "g A `(?x:A. !%s. R x y) ==> (!y. ?x. R x y)`;;" % binder
            self.assertEqual(self.prove(text, 1, "--seconds", "30", server=str(BUILT)), said)


def proved(asker, known, text, seconds):
    """The steps that are found for a goal that nothing is assumed in, and how long the search took."""
    asker.copy(["g GOAL `%s`" % text])
    goals = asker.report(0)
    assert isinstance(goals, Goals), (text, goals)
    begun = clock.now()
    found = Finder(asker, known, goals, text, begun + seconds).find(None)
    took = clock.now() - begun
    asker.forget()
    return found, took


@unittest.skipUnless(BUILT.is_file(), "hol_serve isn't built")
class OverTheProgram(unittest.TestCase):
    def setUp(self):
        self.asker = Asker(server.find(str(BUILT)), SECONDS)
        self.addCleanup(self.asker.stop)
        clock.use(time.process_time)
        self.addCleanup(clock.use, time.monotonic)

    def accepted(self, text, *imports):
        """The program accepts a file."""
        with tempfile.TemporaryDirectory() as folder:
            for name in imports:
                (pathlib.Path(folder) / (name + ".hol")).write_text(theory(name).lines.text)
            path = pathlib.Path(folder) / "FOUND.hol"
            path.write_text(text)
            done = forked.run("check", "--server", BUILT, path)
        self.assertEqual(done.returncode, 0, done.stdout.decode() + done.stderr.decode())

    def find_all(self, name, least):
        """Proofs of so many goals of a file, at least, which the program accepts."""
        known, text, missing = scope.Scope(), "", []
        for number, goal in stored(name):
            steps, took = proved(self.asker, known, goal, SEARCH_SECONDS)
            self.assertLess(took, SEARCH_SECONDS + 5, number)
            if steps is None:
                missing.append(number)
                continue
            text += "g P_%s `%s`;;\n%s\nqed;;\n" % (number, goal, "\n".join(step + ";;" for step in steps))
        self.accepted(text)
        self.assertGreaterEqual(len(stored(name)) - len(missing), least, missing)

    def test_pelletiers_problems(self):
        self.find_all("pelletier", 40)

    def test_tautologies(self):
        self.find_all("tautologies", 10)

    def test_equations(self):
        self.find_all("equations", 10)

    def test_calls_that_nothing_needs_are_left_out(self):
        self.asker.copy(["g GOAL `(p /\\ q ==> q /\\ p) /\\ (r ==> r)`", "e CONJ_TAC"])
        goals, closing = self.asker.report(1), "CONJ_TAC THEN FIRST_ASSUM ACCEPT_TAC"
        long = ["e REPEAT GEN_TAC THEN STRIP_TAC", "e ASSUME_TAC (ASSUME `p:bool`) THEN " + closing]
        self.assertEqual(trying.fewer(self.asker, long, goals, clock.now() + SECONDS), ["e STRIP_TAC", "e " + closing])
        self.assertTrue(trying.check(self.asker, ["e STRIP_TAC THEN " + closing], goals))
        self.assertFalse(trying.check(self.asker, ["e STRIP_TAC THEN " + closing, "e DISCH_TAC"], goals))
        self.assertEqual(self.asker.count, 2)
        self.asker.forget()
        self.assertEqual(proved(self.asker, scope.Scope(), "p /\\ q ==> p", SEARCH_SECONDS)[0], ["e REPEAT STRIP_TAC"])

    def test_what_has_no_proof_gets_none_in_time(self):
        for name, goal in stored("unprovable"):
            steps, took = proved(self.asker, scope.Scope(), goal, 2.0)
            self.assertIsNone(steps, name)
            self.assertLess(took, 10, name)


class Naming(Asker):
    """Names stand for expressions in what is sent: so named tactics are tried without a file that names them."""

    functions = {"SPLIT_TAC": "EQ_TAC THEN STRIP_TAC", "TABLE_TAC": "REPEAT GEN_TAC THEN CASES_TAC THEN ASM_REWRITE_TAC []",
                 "CASES_TAC": "DISJ_CASES_TAC (SPEC `p:bool` MIDDLE)", "EXT_TAC": "MATCH_MP_TAC EXT THEN GEN_TAC", "HALVES": "CONJ_TAC"}

    def step(self, text, until=None):
        for name, expression in self.functions.items():
            text = re.sub(r"\b%s\b" % name, lambda _: "(%s)" % expression, text)
        return super().step(text, until)


@unittest.skipUnless(BUILT.is_file(), "hol_serve isn't built")
class NamedFunctions(unittest.TestCase):
    AXIOMS = ("new_axiom MIDDLE `!t. t \\/ ~t`", "new_axiom EXT `!(f:A->B) g. (!x. f x = g x) ==> f = g`")

    def setUp(self):
        self.asker = Naming(server.find(str(BUILT)), SECONDS)
        self.addCleanup(self.asker.stop)
        clock.use(time.process_time)  # A machine that does much else leaves as much time for shorter steps.
        self.addCleanup(clock.use, time.monotonic)
        self.known = scope.Scope()
        self.known.theorems["MIDDLE"] = scripts.MIDDLE

    def found(self, goal, *functions, theorems=None):
        """The steps that are found where some functions stand."""
        self.known.functions = dict.fromkeys(functions, frozenset())
        self.asker.copy([*self.AXIOMS, "g GOAL `%s`" % goal])
        goals = self.asker.report(len(self.AXIOMS))
        steps = Finder(self.asker, self.known, goals, goal, clock.now() + SEARCH_SECONDS).find(theorems)
        self.asker.forget()
        return steps

    def used(self, goal, step, *functions):
        """The commands of steps into which uses are put; None where there are none."""
        self.asker.copy([*self.AXIOMS, "g GOAL `%s`" % goal])
        goals = self.asker.report(len(self.AXIOMS))
        made = named.Uses(self.asker, named.Functions(dict.fromkeys(functions, frozenset())), goals, clock.now() + SECONDS).shortened(step)
        self.assertEqual(self.asker.count, len(self.AXIOMS) + 1)
        self.asker.forget()
        return made and scripts.commands(made)

    def test_a_use_closes_the_goal(self):
        goal = "!p q. (p ==> q) <=> (~p \\/ q)"
        self.assertEqual(self.found(goal, "HALVES", "TABLE_TAC"), ["e TABLE_TAC"])
        equal = "!(f:A->B) g. (!x. f x = g x) ==> f = g"
        self.assertEqual(self.found(equal, "EXT_TAC"), ["e REPEAT STRIP_TAC THEN EXT_TAC THEN ASM_REWRITE_TAC []"])
        self.known.theorems["EXT"] = reading.term(equal, self.known.signature)
        self.assertEqual(self.found(equal, "EXT_TAC", theorems=["EXT"]), ["e ACCEPT_TAC EXT"])
        self.assertNotIn("TABLE_TAC", " ".join(self.found(goal)))

    def test_a_use_comes_to_what_steps_come_to(self):
        goal = "((?x:A. P x) /\\ r) <=> (?x:A. P x /\\ r)"
        steps = self.found(goal, "SPLIT_TAC")
        self.assertEqual(steps[0], "e SPLIT_TAC")
        self.assertLess(sum(map(len, steps)), sum(map(len, self.found(goal))))

    def test_a_use_stands_where_it_saves_something(self):
        step = Step("EQ_TAC THEN STRIP_TAC THEN CONJ_TAC", (Step("FIRST_ASSUM ACCEPT_TAC"),) * 4)
        self.assertEqual(self.used("p /\\ q <=> q /\\ p", step, "HALVES", "SPLIT_TAC"), ["e SPLIT_TAC THEN CONJ_TAC THEN FIRST_ASSUM ACCEPT_TAC"])
        step = Step("EQ_TAC THEN STRIP_TAC THEN CONJ_TAC THEN FIRST_ASSUM ACCEPT_TAC")
        self.assertIsNone(self.used("p /\\ q <=> q /\\ p", step, "HALVES", "EXT_TAC", "NOWHERE_TAC"))
        self.assertIsNone(self.used("p /\\ q <=> q /\\ p", Step("CONJ_TAC"), "SPLIT_TAC"))
        self.assertIsNone(self.used("p <=> p", Step("REFL_TAC"), "TABLE_TAC"))

    def test_expressions_that_then_joins(self):
        self.assertEqual(trying.pieces("A THEN SUBGOAL_THEN `THEN` (B THEN C) THEN TRY [D; E THEN F] THEN G'"), [
            "A", "SUBGOAL_THEN `THEN` (B THEN C)", "TRY [D; E THEN F]", "G'"])
        self.assertEqual(trying.pieces("A THEN B ORELSE C"), ["A THEN B ORELSE C"])
        self.assertEqual(trying.pieces("A THEN B THENL [C; D]"), ["A THEN B THENL [C; D]"])

    def test_a_file_that_names_them(self):
        with tempfile.TemporaryDirectory() as folder:
            path = pathlib.Path(folder) / "A.hol"
            path.write_text("deftac SPLIT_UP EQ_TAC THEN STRIP_TAC;;\ng A `((?x:A. P x) /\\ r) <=> (?x:A. P x /\\ r)`;;\n")
            done = forked.run("prove", "%s:2" % path, "--server", BUILT, text=True)
            self.assertTrue(done.stdout.startswith("e SPLIT_UP;;\n"), done)
            path.write_text(path.read_text() + done.stdout + "qed;;\n")
            self.assertEqual(forked.run("check", "--server", BUILT, path).returncode, 0)


@unittest.skipUnless(BUILT.is_file(), "hol_serve isn't built")
class Theories(unittest.TestCase):
    """The theorems of examples/theories, their proofs taken out: of each file at least a part is found again, and accepted."""

    def setUp(self):
        clock.use(time.process_time)  # What else the machine does changes nothing of what is found.
        self.addCleanup(clock.use, time.monotonic)

    def found(self, name):
        """How many theorems there are, and the names of those that are found."""
        asker = Asker(server.find(str(BUILT)), SECONDS)
        self.addCleanup(asker.stop)
        known, place = scope.Scope(), THEORIES.index(name)
        for other in THEORIES[:place]:
            asker.add(other, [one.text for one in theory(other).commands])
            known.add_file(theory(other))
        file = theory(name)
        asker.copy([])
        found, text, at = [], "", 0
        for first, last in names.blocks(file):
            if file.commands[first].word == "g":
                asker.extend([one.text for one in file.commands[at:first + 1]])
                before = scope.Scope()
                for other in THEORIES[:place]:
                    before.add_file(theory(other))
                before.add_file(file, first)
                goals = asker.report(asker.count - 1)
                steps = Finder(asker, before, goals, names.quoted(file.commands[first]), clock.now() + THEORY_SECONDS).find(None)
                asker.extend([one.text for one in file.commands[first + 1:last + 1]])
                own = [one.text for one in file.commands[first:last + 1]] if steps is None else [file.commands[first].text, *steps, "qed"]
                found += [file.commands[first].name] if steps is not None else []
            else:
                own = [one.text for one in file.commands[first:last + 1]]
                asker.extend([one.text for one in file.commands[at:last + 1]])
            text += "".join(one.text + ";;\n" for one in file.commands[at:first]) + "".join(one + ";;\n" for one in own)
            at = last + 1
        OverTheProgram.accepted(self, text, *THEORIES[:place])
        return sum(one.word == "g" for one in file.commands), found

    def at_least(self, name, least):
        number, found = self.found(name)
        self.assertGreaterEqual(len(found), least, "%d of %d: %s" % (len(found), number, found))

    def test_connectives(self):
        self.at_least("connectives", 6)

    def test_maps(self):
        self.at_least("maps", 5)

    def test_pairs(self):
        self.at_least("pair_type", 6)

    def test_groups(self):
        self.at_least("group_axioms", 4)


if __name__ == "__main__":
    unittest.main()
