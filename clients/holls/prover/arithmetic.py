"""Steps for goals of linear arithmetic over num, and for equations of polynomials, by theories/linear.hol."""

from __future__ import annotations

from typing import Callable, Collection, FrozenSet, List, Optional, Sequence, Tuple

from holls.protocol import Goal, Goals
from holls.prover import clock, numerals, polynomials, trying, typed
from holls.prover.asking import Asker
from holls.prover.inequalities import Case, Either, Inequality, Situation, Sum, Theorem, le
from holls.prover.polynomials import Atoms, TooLarge
from holls.prover.reading import Unreadable
from holls.prover.scripts import Step
from holls.prover.shown import Reader, Shown, stripped
from holls.prover.typed import Term
from holls.prover.writing import Quoter, Unwritable

NEEDED = "LE_NNF"
"""A theorem of the theory on which the steps rest."""
LAWS = ("MIN_SPLIT", "MAX_SPLIT")
"""Theorems of theories/naturals.hol by which least and greatest numbers are taken."""
_MOST_PARTS = 6
"""A longer sum is made of parts."""
_MOST_CASES = 6
"""Where a goal comes to more cases at once, its disjunctions are split one after the other."""
_MOST_NODES = 150
_DEEPEST = 14
_NAMED_VARIABLES = 8
RELATIONS = frozenset(("le", "lt", "GE", "GT", "EVEN", "ODD"))


Then = Callable[[Sequence[Goal]], Step]
"""What closes the first of some goals."""


class NotFound(Exception):
    """There is no proof of this kind, or no time for it."""


class Arithmetic:
    """Closes goals of a proof in a server, until a time, where some theorems stand."""

    def __init__(self, asker: Asker, reader: Reader, quoter: Quoter, until: float, theorems: Collection[str]) -> None:
        self.asker, self.reader, self.quoter, self.until = asker, reader, quoter, until
        self._named_laws = frozenset(name for name in LAWS if name in theorems)
        self._nodes = 0

    def prove(self, goals: Goals) -> Optional[Step]:
        """The steps that close the first goal; they are taken back. None where none are found."""
        mark = self.asker.count
        self._nodes = 0
        try:
            return self._prove(goals.goals)
        except (NotFound, TooLarge, Unreadable, Unwritable, RecursionError):
            return None
        finally:
            self.asker.back(mark)

    def _run(self, text: str) -> Tuple[Goal, ...]:
        """The goals behind a step."""
        if clock.now() > self.until:
            raise NotFound
        found = trying.goals_after(self.asker, text)
        if found is None:
            raise NotFound
        return found.goals

    def _closed(self, calls: Sequence[str], rest: int) -> Step:
        """Calls that close the first goal and leave so many."""
        if len(self._run(" THEN ".join(calls))) != rest:
            raise NotFound
        step: Optional[Step] = None
        for call in reversed(calls):
            step = Step(call, (step,) if step else ())
        return step

    def _split(self, text: str, goals: Sequence[Goal], then: Then, after: Optional[Sequence[Goal]] = None) -> Step:
        """A call, and what closes each goal that it leaves; `after` are these where it has been run."""
        after = self._run(text) if after is None else after
        subs = []
        for _ in range(len(after) - len(goals) + 1):
            subs.append(then(after))
            after = after[1:]
        return Step(text, tuple(subs))

    def _prove(self, goals: Sequence[Goal]) -> Step:
        """Closes the first goal, whatever its shape."""
        shown = self.reader.read(goals[0])
        body = stripped(shown.conclusion)
        if any(_is_binder(part) for part in typed.subterms(body)):
            return self._stripping(goals)
        if body != shown.conclusion:
            ring = self._as_ring(goals, body)
            if ring is not None:
                return ring
        elif self._is_ring(body):
            return self._ring(goals, shown, [])
        return self._refuting(goals, shown)

    def _stripping(self, goals: Sequence[Goal]) -> Step:
        """Strips a goal first, where what has quantifiers is stripped by that."""
        def then(after: Sequence[Goal]) -> Step:
            shown = self.reader.read(after[0])
            if any(_is_binder(part) for part in typed.subterms(shown.conclusion)):
                raise NotFound
            return self._prove(after)

        return self._split("REPEAT STRIP_TAC", goals, then)

    def _is_ring(self, body: Term) -> bool:
        """Whether a formula is an equation of one polynomial."""
        sides = numerals.parts(body, "=")
        if not sides or typed.type_of(sides[0]) != numerals.NUM:
            return False
        atoms = Atoms()
        return atoms.polynomial(sides[0]) == atoms.polynomial(sides[1])

    def _as_ring(self, goals: Sequence[Goal], body: Term) -> Optional[Step]:
        """Closes an equation of one polynomial under quantifiers."""
        if not self._is_ring(body):
            return None
        mark = self.asker.count
        shown = self.reader.read(self._run("REPEAT GEN_TAC")[0])
        self.asker.back(mark)
        return self._ring(goals, shown, ["REPEAT GEN_TAC"])

    def _ring(self, goals: Sequence[Goal], shown: Shown, before: List[str]) -> Step:
        atoms = polynomials.atoms_of(shown.conclusion)
        return self._closed(before + self._variables_for(atoms, frozenset(shown.free)) + ["REWRITE_TAC [RING]"], len(goals) - 1)

    def _refuting(self, goals: Sequence[Goal], shown: Shown) -> Step:
        """Takes what is assumed into the goal, denies it all, and refutes each case."""
        used = [term for term in shown.assumptions if is_arithmetical(term)]
        if not used and not is_arithmetical(stripped(shown.conclusion)):
            raise NotFound
        moved = ["MP_TAC (ASSUME %s)" % self.quoter.quote(term) for term in reversed(used)]
        mark = self.asker.count
        text = " THEN ".join(moved + ["LE_REFUTE_TAC"])
        after: Optional[Sequence[Goal]] = self._run(text)
        if len(after) - len(goals) >= _MOST_CASES:
            self.asker.back(mark)
            text, after = " THEN ".join(moved + ["LE_REFUTE_LATER_TAC"]), None
        return self._split(text, goals, lambda own: self._leaf(own, 0, frozenset()), after)

    # One case: what is assumed are inequalities, and F is to be shown

    def _leaf(self, goals: Sequence[Goal], depth: int, done: FrozenSet[Term]) -> Step:
        """Closes the first goal. `done` are the terms that were taken by cases on the way."""
        if clock.now() > self.until:
            raise NotFound
        shown = self.reader.read(goals[0])
        for term in shown.assumptions:
            if typed.mk_not(term) in shown.assumptions:
                return self._closed(["UNDISCH_TAC %s" % self.quoter.quote(typed.mk_not(term)), "ASM_REWRITE_TAC []"], len(goals) - 1)
        self._nodes += 1
        situation = situation_of(shown.assumptions, done, self._named_laws)
        outcome = situation.choose()
        if isinstance(outcome, Sum):
            return self._sum(goals, situation.atoms, outcome)
        if isinstance(outcome, Case) and depth < _DEEPEST and self._nodes < _MOST_NODES:
            more = done | frozenset(outcome.taken)
            return self._split(self._case(outcome), goals, lambda after: self._leaf(after, depth + 1, more))
        if any(typed.negated(term) for term in shown.assumptions):
            return self._closed(["REPEAT (POP_ASSUM MP_TAC)", "REWRITE_TAC []"], len(goals) - 1)
        raise NotFound

    def _case(self, case: Case) -> str:
        """The call that makes cases."""
        if not case.name:
            return "UNDISCH_TAC %s THEN LE_CASES_TAC" % self.quoter.quote(case.terms[0])
        return "%s %s" % ("DISJ_CASES_TAC" if case.name == "LE_SPLIT" else "STRIP_ASSUME_TAC", self._at(case.name, case.terms))

    def _at(self, theorem: str, terms: Sequence[Term]) -> str:
        """A theorem at some terms, in parentheses."""
        for term in terms:
            theorem = "(SPEC %s %s)" % (self.quoter.quote(term), theorem)
        return theorem

    def _expression(self, one: Inequality) -> str:
        """The theorem of an inequality."""
        if one.theorem.of:
            first, second = (self._expression(other) for other in one.theorem.of)
            return "(MP (MP %s %s) %s)" % (self._at(one.theorem.name, one.theorem.terms), first, second)
        if one.theorem.name:
            return self._at(one.theorem.name, one.theorem.terms)
        return "(ASSUME %s)" % self.quoter.quote(one.term)

    def _sum(self, goals: Sequence[Goal], atoms: Atoms, found: Sum) -> Step:
        """Closes a goal by a sum of inequalities that can't be."""
        parts = [(found.known[at], factor) for at, factor in found.certificate.inequalities]
        for monomial, factor in found.certificate.monomials:
            term = atoms.monomial(monomial)
            parts.append((Inequality(le(numerals.ZERO, term), Theorem("LE_0", (term,)), {monomial: 1}), factor))
        return self._added(goals, atoms, parts)

    def _added(self, goals: Sequence[Goal], atoms: Atoms, parts: Sequence[Tuple[Inequality, int]]) -> Step:
        """Closes a goal by inequalities, each so many times; many of them in parts, each of which is shown first."""
        if len(parts) <= _MOST_PARTS:
            return self._closed(self._calls(goals, parts), len(goals) - 1)
        ordered = _in_order(parts)
        some, others = ordered[:_MOST_PARTS - 1], ordered[_MOST_PARTS - 1:]
        polynomial = _summed(some)
        term = le(*atoms.sides(polynomial))
        text = "SUBGOAL_THEN %s ASSUME_TAC" % self.quoter.quote(term)
        after = self._run(text)
        inner = self._run("LE_REFUTE_TAC")
        shown = self.reader.read(inner[0])
        denied = next((one for one in shown.assumptions if numerals.parts(one, "le") and self._is_denial(atoms, one, polynomial)), None)
        if denied is None:
            raise NotFound
        own = [(Inequality(denied, Theorem(""), {}), 1)] + list(some)
        first = Step("LE_REFUTE_TAC", (self._closed(self._calls(inner, own), len(inner) - 1),))
        rest = self._added(after[1:], atoms, [(Inequality(term, Theorem(""), polynomial), 1)] + list(others))
        return Step(text, (first, rest))

    @staticmethod
    def _is_denial(atoms: Atoms, term: Term, polynomial) -> bool:
        left, right = numerals.parts(term, "le")
        own = polynomials.total(atoms.polynomial(right), atoms.polynomial(left), -1)
        return polynomials.total(own, polynomial) == polynomials.constant(-1)

    def _calls(self, goals: Sequence[Goal], parts: Sequence[Tuple[Inequality, int]]) -> List[str]:
        """The calls that sum inequalities up, and show that the sum can't be."""
        calls: List[str] = []
        every: List[Term] = []
        theorems = [self._expression(one) for one, _ in parts]
        for number, ((one, factor), theorem) in enumerate(zip(parts, theorems)):
            kind = "PLUS" if number else "FIRST"
            if one.theorem == Theorem("") and sum(theorem in other for other in theorems) == 1:
                calls.append("UNDISCH_TAC %s" % self.quoter.quote(one.term))
            else:
                calls.append("MP_TAC %s" % theorem)
            calls.append("LE_%s_TAC" % kind if factor == 1 else "MATCH_MP_TAC (SPEC %s LE_%s_MULT)" % (self._number(factor), kind))
            every += polynomials.atoms_of(one.term)
        names = frozenset(text.partition(":")[0] for text in goals[0].free)
        return calls + self._variables_for(every, names) + ["LE_SUM_TAC"]

    def _number(self, value: int) -> str:
        if value > numerals.MOST:
            raise TooLarge
        return self.quoter.quote(numerals.numeral(value))

    def _variables_for(self, atoms: Sequence[Term], taken: FrozenSet[str]) -> List[str]:
        """Calls that put variables for atoms, and give each variable its place."""
        distinct = list(dict.fromkeys(atoms))
        compound = sorted((atom for atom in distinct if atom[0] != "v"), key=lambda atom: -typed.size(atom))
        calls, names, number = [], [], 0
        for atom in compound:
            while "v%d" % number in taken or "v%d" % number in names or "v%d" % number in self.reader.signature.constants:
                number += 1
            names.append("v%d" % number)
            calls.append("SPEC_TAC (%s, `v%d:num`) THEN GEN_TAC" % (self.quoter.quote(atom), number))
        names += sorted(atom[1] for atom in distinct if atom[0] == "v")
        for place, name in enumerate(names):
            theorem = "VAR%d" % place if place < _NAMED_VARIABLES else "(SPEC %s VAR)" % self._number(place)
            calls.append("SUBST1_TAC (SPEC `%s:num` %s)" % (name, theorem))
        return calls


def situation_of(assumptions: Sequence[Term], done: FrozenSet[Term], names: FrozenSet[str]) -> Situation:
    """What is assumed of numbers."""
    disjunctions = []
    for term in assumptions:
        found = numerals.parts(term, "EITHER")
        if found:
            disjunctions.append(Either(term, tuple(_conjuncts(found[0])), tuple(_conjuncts(found[1]))))
    return Situation(Atoms(), [term for term in assumptions if numerals.parts(term, "le")], disjunctions, done, names)


def _conjuncts(term: Term) -> List[Term]:
    """The inequalities among what is joined by `/\\`."""
    found = typed.binary(term)
    if found and found[0] == "/\\":
        return _conjuncts(found[1]) + _conjuncts(found[2])
    return [term] if numerals.parts(term, "le") else []


def _summed(parts: Sequence[Tuple[Inequality, int]]) -> polynomials.Polynomial:
    found: polynomials.Polynomial = {}
    for one, factor in parts:
        found = polynomials.total(found, one.polynomial, factor)
    return found


def _in_order(parts: Sequence[Tuple[Inequality, int]]) -> List[Tuple[Inequality, int]]:
    """Inequalities in an order in which their sums stay short."""
    left, ordered = list(parts), []
    known: polynomials.Polynomial = {}
    while left:
        best = min(left, key=lambda part: len(polynomials.total(known, part[0].polynomial, part[1])))
        left.remove(best)
        ordered.append(best)
        known = polynomials.total(known, best[0].polynomial, best[1])
    return ordered


def _is_binder(part: Term) -> bool:
    return part[0] == "a" and part[1][0] == "c" and part[1][1] in ("!", "?", "?!") and part[2][0] == "l"


def is_arithmetical(term: Term) -> bool:
    """Whether a formula is one of numbers, without quantifiers."""
    found = typed.binary(term)
    if found and found[0] in ("/\\", "\\/", "==>", "<=>"):
        return is_arithmetical(found[1]) and is_arithmetical(found[2])
    inner = typed.negated(term)
    if inner is not None:
        return is_arithmetical(inner)
    if found:
        return typed.type_of(found[1]) == numerals.NUM if not typed.has_loose(term) else False
    return numerals.head(term) in RELATIONS


def concerns(terms: Sequence[Term]) -> bool:
    """Whether a goal may be one of numbers: what it shows, or what is assumed, is an order or an equation of numbers somewhere."""
    return any(part[0] == "c" and (part[1] in RELATIONS or part[1] == "=" and part[2][1] == numerals.NUM)
               for term in terms for part in typed.subterms(term))
