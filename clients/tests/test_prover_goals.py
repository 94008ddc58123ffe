"""Finding proofs over the library: shares of a list of goals, arithmetic, and goals that are false."""

import random
import time
import unittest
from unittest import mock

from holls.prover import clock, counterexamples, linear, models, polynomials, reading, typed
from holls.prover.asking import Silent
from holls.prover.finder import Finder
from holls.prover.polynomials import total
from holls.prover.shown import Shown
from tests import prover_goals, random_numbers
from tests.helpers import BUILT

SAMPLED = 4
"""Of goals that take long each so many-th is searched."""
MIDDLE, LATE = 2 * prover_goals.MIDDLE_SECONDS, 2 * prover_goals.LATE_SECONDS
"""In so many seconds of the processor half of what is found is found, and in so many 95 %, with its `qed`: twice what prover_goals.py asks for, since on a
machine that does much else a second has less in it."""


def chain(number):
    """That an order goes from the first of so many variables to the last."""
    return "%s ==> lt x0 x%d" % (" /\\ ".join("lt x%d x%d" % (at, at + 1) for at in range(number)), number)


class Linear(unittest.TestCase):
    def test_what_is_refuted_has_no_values(self):
        chance = random.Random(7)
        refuted = 0
        for _ in range(300):
            constraints = []
            for _ in range(chance.randrange(1, 5)):
                made = {(0,): chance.randrange(-3, 4), (1,): chance.randrange(-3, 4), (): chance.randrange(-6, 4)}
                constraints.append({monomial: value for monomial, value in made.items() if value})
            found = linear.refutation(constraints, [1] * len(constraints))
            holds = [all(one.get((0,), 0) * x + one.get((1,), 0) * y + one.get((), 0) >= 0 for one in constraints)
                     for x in range(25) for y in range(25)]
            if found is None:
                self.assertIsNotNone(linear.vertex(constraints))
                continue
            refuted += 1
            self.assertFalse(any(holds))
            summed = {}
            for at, factor in found.inequalities:
                summed = total(summed, constraints[at], factor)
            for monomial, factor in found.monomials:
                summed = total(summed, {monomial: factor})
            self.assertEqual([monomial for monomial in summed if monomial], [])
            self.assertLess(summed[()], 0)
        self.assertGreater(refuted, 50)

    def test_a_cut_leaves_out_no_whole_numbers(self):
        constraints = [{(0,): 2, (1,): -2, (): -1}, {(0,): -2, (1,): 2, (): 1}]
        self.assertIsNone(linear.refutation(constraints, [1, 1]))
        cuts = linear.cuts(constraints)
        self.assertIsNotNone(linear.refutation(constraints + cuts, [1] * (len(cuts) + 2)))
        self.assertEqual(polynomials.tightened({(0,): 4, (): -3}), {(0,): 1, (): -1})


class Shares(unittest.TestCase):
    def test_what_is_late_or_missed_is_told(self):
        def result(seconds, is_found):
            return prover_goals.Result(prover_goals.Stated("SET", [], "T"), ["e INT_TAC"] if is_found else None, seconds)

        some = [result(0.1, True)] * 12 + [result(0.4, True)] * 8
        self.assertEqual(prover_goals.times(some), (0.1, 0.4))
        self.assertEqual(prover_goals.of_share(prover_goals.Share("SET", False, 0.8), some + [result(5.0, False)] * 5),
                         "SET      unnamed  20 of  25,  80 % (80 wanted), median 0.10 s, 95 % within 0.40 s")

    def test_a_goal_at_which_the_program_falls_silent_is_not_found(self):
        library, goal = mock.Mock(seconds=1.0), prover_goals.Stated("SET", [], "T")
        library.prove.side_effect = Silent("hol_serve gave no answer in time")
        with mock.patch.object(prover_goals, "LIBRARY", [library]), mock.patch.object(prover_goals, "begin") as begin:
            at = [one.kind for one in prover_goals.SHARES].index("SET")
            self.assertEqual(prover_goals.search((at, goal)), (at, prover_goals.Result(goal, None, 1.0)))
            begin.assert_called_once_with(1.0)
        library.stop.assert_called_once_with()


class Models(unittest.TestCase):
    def stored(self, name):
        """The goals of a file, as terms."""
        lines = (prover_goals.CLIENTS / "tests" / "goals" / name).read_text(encoding="utf-8").splitlines()
        return [reading.term(line.split(" ", 1)[1], reading.Signature(), ty=typed.BOOL) for line in lines if not line.startswith("#")]

    def test_what_has_no_proof_has_a_small_model_and_what_has_one_has_none(self):
        for term in self.stored("unprovable.txt"):
            self.assertIsNotNone(models.countermodel(Shown((), term, {}), clock.now() + 60.0), term)
        for term in self.stored("pelletier.txt") + self.stored("equations.txt"):
            self.assertIsNone(models.countermodel(Shown((), term, {}), clock.now() + 0.2), term)

    def test_values_are_said_as_what_they_are(self):
        signature = reading.Signature()
        assumed = reading.term("!x:A. (R:A->A->bool) x (f x) /\\ ~(f x = x)", signature, ty=typed.BOOL)
        free = {"f": typed.fun("A", "A"), "R": typed.fun("A", typed.fun("A", typed.BOOL))}
        shown = Shown((assumed,), reading.term("?x:A. (R:A->A->bool) x x \\/ p", signature, free, typed.BOOL), {})
        found = dict(models.countermodel(shown, clock.now() + 60.0))
        self.assertEqual(found, {"A": "{0, 1}", "R": "{(0, 1), (1, 0)}", "f": "(0 -> 1, 1 -> 0)", "p": "F"})

    def test_other_constants_and_types_have_no_models_here(self):
        known = reading.Signature()
        known.constants["c"], known.constructors["num"] = "A", 0
        for text in ("c = (x:A)", "(x:num) = y", "(@x:A. P x) = y", "(P:((A->A)->A->A)->bool) = Q"):
            self.assertIsNone(models.countermodel(Shown((), reading.term(text, known, ty=typed.BOOL), {}), clock.now() + 5.0), text)


@unittest.skipUnless(BUILT.exists(), "hol_serve isn't built")
class OverTheLibrary(unittest.TestCase):
    shares = "the library in a program"

    def setUp(self):
        clock.use(prover_goals.spent)
        self.addCleanup(clock.use, time.monotonic)
        self.library = prover_goals.shared()

    def found(self, text, seconds=30.0):
        """The steps for a goal, which the program has accepted."""
        return self.library.prove(prover_goals.Stated("", [], text), False, seconds)

    def searched(self, kind, is_named=False, every=1, first=0):
        """That of a kind's goals, or of each so many-th, the share is found that is wanted, half of it soon, and nearly all of it."""
        share = next(one for one in prover_goals.SHARES if (one.kind, one.is_named) == (kind, is_named))
        goals = [goal for goal in prover_goals.stored([kind])[first::every] if not is_named or self.library.has_named(goal)]
        results = [self.library.prove(goal, is_named) for goal in goals]
        told = prover_goals.of_share(share, results) + "".join("\n" + one.goal.text for one in results if not one.steps)
        self.assertGreaterEqual(sum(bool(one.steps) for one in results), share.least * len(results), told)
        middle, late = prover_goals.times(results)
        self.assertLess(middle, MIDDLE, told)
        self.assertLess(late, LATE, told)

    def test_five_hundred_goals_are_searched(self):
        named = [goal for goal in prover_goals.stored(("MESON", "SIMP")) if self.library.has_named(goal)]
        self.assertGreaterEqual(len(prover_goals.stored(("ARITH", "TAUT", "SET")) + named), 500)

    def test_arithmetic(self):
        self.searched("ARITH")

    def test_tautologies(self):
        self.searched("TAUT")

    def test_logic_with_what_is_named(self):
        self.searched("MESON", True, 2)

    def test_more_logic_with_what_is_named(self):
        self.searched("MESON", True, 2, 1)

    def test_logic_with_nothing_named(self):
        self.searched("MESON", False, SAMPLED)

    def test_sets(self):
        self.searched("SET")

    def test_simplifying_with_what_is_named(self):
        self.searched("SIMP", True, 2)

    def test_more_simplifying_with_what_is_named(self):
        self.searched("SIMP", True, 2, 1)

    def test_rewriting_with_what_is_named(self):
        self.searched("REWRITE", True, SAMPLED)

    def test_sums_of_forty_parts_and_products(self):
        found = self.found(chain(40))
        self.assertTrue(found.steps)
        self.assertLess(found.seconds, 1.0)
        for text in ("le a b /\\ le c d ==> le (mult a c) (mult b d)", "~(m = _0) /\\ ~(n = _0) ==> lt _0 (mult m n)",
                     "le m n ==> le (EXP m (BIT0 _1)) (EXP n (BIT0 _1))",
                     "lt (mult a c) (mult b c) ==> lt a b",
                     "EXP (add a b) (BIT0 _1) = add (add (EXP a (BIT0 _1)) (mult (mult (BIT0 _1) a) b)) (EXP b (BIT0 _1))",
                     "lt ((f:A->num) n) (f m) /\\ le (f m) k ==> lt (f n) k"):
            self.assertTrue(self.found(text).steps, text)

    def test_least_and_greatest_numbers(self):
        for text in ("MIN _0 n = _0", "le (add k (MIN a b)) (add a b) ==> le k a \\/ le k b", "add (MAX m n) (MIN m n) = add m n",
                     "lt m (MAX m (SUC n)) ==> le m n", "le (MAX (MAX a b) c) d <=> le a d /\\ le b d /\\ le c d"):
            self.assertTrue(self.found(text).steps, text)

    def test_false_goals_end_with_numbers(self):
        for text, wanted in (
                ("lt a b ==> lt b a", {"a": 0, "b": 1}), ("le (mult m n) (add m n)", {"m": 2, "n": 3}), ("!n. EVEN n \\/ lt n (BIT0 _1)", {"n": 3}),
                ("p \\/ sub m n = sub n m", {"m": 0, "n": 1, "p": False}), ("MIN m n = m", {"m": 1, "n": 0}), ("DIV (add m n) (BIT0 _1) = add (DIV m (BIT0 _1)) (DIV n (BIT0 _1))", {"m": 1, "n": 1})):
            report = self.library.asker.step("g GOAL `%s`" % text)
            finder = Finder(self.library.asker, self.library.scope, report, text, clock.now() + 5.0)
            self.assertIsNone(finder.find(None), text)
            self.assertEqual(finder.counterexample, wanted)
            self.library.asker.back(self.library.count)

    def test_random_false_goals_end_soon_with_values(self):
        chance = random.Random(90)
        for _ in range(60):
            formula = random_numbers.false_formula(chance)
            text = random_numbers.text(formula)
            report = self.library.asker.step("g GOAL `%s`" % text)
            begun = clock.now()
            finder = Finder(self.library.asker, self.library.scope, report, text, clock.now() + 5.0, self.library.known)
            self.assertIsNone(finder.find(None), text)
            self.assertLess(clock.now() - begun, 2.0, text)
            self.assertIs(random_numbers.value(formula, finder.counterexample), False, text)
            self.library.asker.back(self.library.count)

    def test_values_are_only_of_what_can_be_evaluated(self):
        for text in ("f n = n", "!x. P x", "?n. lt n m", "x:A = y"):
            term = reading.term(text, self.library.scope.signature, ty=typed.BOOL)
            self.assertIsNone(counterexamples.counterexample(Shown((), term, {}), clock.now() + 5.0), text)
