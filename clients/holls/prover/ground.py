"""Proofs in the sequent calculus, where it is known at which terms quantifiers are taken.

Each rule takes a formula of the sequent apart, as a step does. A proof knows which formulas of its sequent it needs: a rule whose parts nothing
needs is left out, and so is a case that doesn't need what it is a case of.
"""

from __future__ import annotations

from typing import Dict, FrozenSet, List, NamedTuple, Optional, Sequence, Set, Tuple

from holls.prover import clock, congruence, sequents, typed
from holls.prover.sequents import ALPHA, BETA, DELTA, GAMMA, LITERAL, Formula, Position, Shape, Signed
from holls.prover.typed import Term

CLOSE = "close"

Instances = Dict[Tuple[Position, Tuple[Term, ...]], List[Term]]
"""The terms at which a quantifier is taken, by its position and the terms outside of it."""


class Proof(NamedTuple):
    """A rule with the proofs of what it leaves.

    `parts` are the formulas that each of these has more. Of GAMMA `term` is what was taken, of DELTA the variable. CLOSE has the formulas that
    close, one on the left or one on the right or both, and the equations by which they are one. `used` are those of the sequent that are needed.
    """

    rule: str
    formula: Optional[Signed]
    term: Optional[Term]
    parts: Tuple[Tuple[Signed, ...], ...]
    subs: Tuple["Proof", ...]
    used: FrozenSet[Signed]
    equations: Tuple[Term, ...] = ()


NOT_HERE = object()
"""In place of a proof: the rule doesn't apply."""


class OutOfTime(Exception):
    """The search has had its time."""


class _Branch:
    """A sequent that is being proved."""

    def __init__(self) -> None:
        self.known: Dict[Signed, bool] = {}
        self.waiting: List[Formula] = []
        self.betas: List[Tuple[Formula, List[Formula]]] = []
        self.gammas: List[Tuple[Formula, Shape]] = []
        self.done: Set[Tuple[Position, Tuple[Term, ...], Term]] = set()
        self.witnesses: Dict[Term, Term] = {}
        self.names: Set[str] = set()
        self.is_checked = False
        self.known_equal: Optional[congruence.Congruence] = None

    def copy(self) -> "_Branch":
        """The same sequent, to go on in another way."""
        other = _Branch()
        other.known, other.waiting, other.betas = dict(self.known), list(self.waiting), list(self.betas)
        other.gammas, other.done = list(self.gammas), set(self.done)
        other.witnesses, other.names = dict(self.witnesses), set(self.names)
        other.known_equal = self.known_equal
        return other


class Ground:
    """Proves sequents. `kept` says at which position a witness depends on which of the terms; `taken` are the names of constants."""

    def __init__(self, instances: Instances, kept: Dict[Position, Tuple[int, ...]], taken: FrozenSet[str], until: float) -> None:
        self.instances, self.kept, self.taken, self.until = instances, kept, taken, until
        self.steps = 0

    def prove(self, formulas: Sequence[Formula], names: FrozenSet[str]) -> Optional[Proof]:
        """A proof of the sequent of some formulas; None where there is none at these terms."""
        branch = _Branch()
        branch.names = set(names)
        branch.waiting = list(reversed(formulas))
        return self._prove(branch)

    def _prove(self, branch: _Branch) -> Optional[Proof]:
        self.steps += 1
        if not self.steps & 63 and clock.now() > self.until:
            raise OutOfTime
        while branch.waiting:
            formula = branch.waiting.pop()
            closed = self._closed(branch, formula)
            if closed:
                return closed
            is_known = formula.signed in branch.known
            branch.known[formula.signed] = True
            found = sequents.shape(formula.is_left, formula.term)
            if found.kind == BETA:
                branch.betas.append((formula, sequents.parts(formula, found)))
            elif found.kind == GAMMA:
                branch.gammas.append((formula, found))
            elif found.kind == ALPHA:
                parts = sequents.parts(formula, found)
                branch.waiting += reversed(parts)
                return wrapped(ALPHA, formula, None, [parts], [self._prove(branch)])
            elif found.kind == DELTA:
                return self._delta(branch, formula, found)
            elif not is_known:
                branch.is_checked = False
        rules = (lambda: self._instance(branch, False), lambda: self._equal(branch), lambda: self._beta(branch), lambda: self._instance(branch, True))
        for rule in rules:
            proof = rule()
            if proof is not NOT_HERE:
                return proof
        return None

    @staticmethod
    def _closed(branch: _Branch, formula: Formula) -> Optional[Proof]:
        """The proof of a sequent that a formula closes, which is new in it."""
        if sequents.is_trivial(formula.is_left, formula.term):
            return Proof(CLOSE, None, None, ((formula.signed,),), (), frozenset((formula.signed,)))
        other = (not formula.is_left, formula.term)
        if other not in branch.known:
            return None
        both = (formula.signed, other) if formula.is_left else (other, formula.signed)
        return Proof(CLOSE, None, None, (both,), (), frozenset(both))

    def _delta(self, branch: _Branch, formula: Formula, found: Shape) -> Optional[Proof]:
        """Takes a quantifier at a variable of its own."""
        kept = self.kept.get(formula.position)
        terms = formula.terms if kept is None else tuple(formula.terms[number] for number in kept)
        witness = ("s", formula.position, terms, found.type)
        if witness in branch.witnesses:
            return self._prove(branch)
        variable = ("v", self._fresh(branch, found.name), found.type)
        branch.witnesses[witness] = variable
        part = Formula(formula.is_left, typed.opened(found.body, variable), formula.position + (0,), formula.terms)
        branch.waiting.append(part)
        return wrapped(DELTA, formula, variable, [[part]], [self._prove(branch)])

    def _fresh(self, branch: _Branch, name: str) -> str:
        """A variable's name by a bound one's, with the fewest primes."""
        name = str(name).rstrip("'") or "x"
        while name in branch.names or name in self.taken:
            name += "'"
        branch.names.add(name)
        return name

    def _instance(self, branch: _Branch, is_last: bool) -> object:
        """Takes a quantifier at a term whose witnesses have their variables, or where nothing else is left at any."""
        for formula, found in branch.gammas:
            for term in self.instances.get((formula.position, formula.terms), ()):
                key = formula.position, formula.terms, term
                if key in branch.done:
                    continue
                real = self._real(branch, term, is_last)
                if real is None:
                    continue
                branch.done.add(key)
                part = Formula(formula.is_left, typed.opened(found.body, real), formula.position + (0,), formula.terms + (term,))
                branch.waiting.append(part)
                return wrapped(GAMMA, formula, real, [[part]], [self._prove(branch)])
        return NOT_HERE

    def _real(self, branch: _Branch, term: Term, is_last: bool) -> Optional[Term]:
        """A term with the variables of its witnesses; None where one has none yet."""
        if term[0] == "s":
            if term not in branch.witnesses and is_last:
                branch.witnesses[term] = ("v", self._fresh(branch, "z"), term[3])
            return branch.witnesses.get(term)
        if term[0] == "a":
            function, argument = self._real(branch, term[1], is_last), self._real(branch, term[2], is_last)
            return None if function is None or argument is None else ("a", function, argument)
        if term[0] == "l":
            body = self._real(branch, term[3], is_last)
            return None if body is None else ("l", term[1], term[2], body)
        return term

    def _beta(self, branch: _Branch) -> object:
        """Takes a formula by its cases: one of which a case closes at once, where there is such a one."""
        branch.betas = [(formula, parts) for formula, parts in branch.betas if not any(part.signed in branch.known for part in parts)]
        if not branch.betas:
            return NOT_HERE
        chosen = min(branch.betas, key=lambda beta: self._cost(branch, *beta))
        branch.betas.remove(chosen)
        formula, parts = chosen
        subs: Dict[int, Optional[Proof]] = {}
        for at in sorted(range(len(parts)), key=lambda at: (not parts[at].is_left, parts[at].term) not in branch.known):
            own = branch.copy()
            own.waiting.append(parts[at])
            subs[at] = self._prove(own)
            if subs[at] is None or parts[at].signed not in subs[at].used:
                return subs[at]
        return wrapped(BETA, formula, None, [[part] for part in parts], [subs[at] for at in range(len(parts))])

    @staticmethod
    def _cost(branch: _Branch, formula: Formula, parts: Sequence[Formula]) -> Tuple[int, int, int]:
        closing = sum((not part.is_left, part.term) in branch.known or _is_equal(branch, part) for part in parts)
        return -closing, formula.is_left, len(formula.position)

    def _equal(self, branch: _Branch) -> object:
        """Closes a sequent by its equations."""
        if branch.is_checked:
            return NOT_HERE
        branch.is_checked = True
        literals = [signed for signed in branch.known if sequents.shape(*signed).kind == LITERAL]
        equations = [term for is_left, term in literals if is_left and typed.is_equation(term)]
        if not equations:
            return NOT_HERE
        known = branch.known_equal = congruence.Congruence(equations)
        for is_left, term in literals:
            if is_left:
                continue
            sides = typed.binary(term)
            if sides and sides[0] == "=" and known.are_equal(sides[1], sides[2]):
                return _closed_by(equations, None, term, sides[1], sides[2])
            for other in [one for on_left, one in literals if on_left]:
                if _is_like(term, other) and known.are_equal(term, other):
                    return _closed_by(equations, other, term, term, other)
        return NOT_HERE


def _is_equal(branch: _Branch, part: Formula) -> bool:
    """Whether equations close a sequent with a part of the right side that is an equation."""
    if part.is_left or branch.known_equal is None:
        return False
    sides = typed.binary(part.term)
    return sides is not None and sides[0] == "=" and branch.known_equal.are_equal(sides[1], sides[2])


def _is_like(one: Term, other: Term) -> bool:
    """Whether two atoms begin with the same symbol."""
    while one[0] == "a" and other[0] == "a":
        one, other = one[1], other[1]
    return one == other


def _closed_by(equations: Sequence[Term], left: Optional[Term], right: Term, one: Term, other: Term) -> Proof:
    needed = congruence.explanation(equations, one, other) or []
    both = ((True, left), (False, right)) if left is not None else ((False, right),)
    return Proof(CLOSE, None, None, (both,), (), frozenset(both) | {(True, equation) for equation in needed}, tuple(needed))


def wrapped(rule: str, formula: Formula, term: Optional[Term], parts: Sequence[Sequence[Formula]],
             subs: Sequence[Optional[Proof]]) -> Optional[Proof]:
    """A rule's proof, or that of what it leaves, where this needs none of the parts."""
    if any(sub is None for sub in subs):
        return None
    signed = [tuple(part.signed for part in own) for own in parts]
    if len(subs) == 1 and not any(one in subs[0].used for one in signed[0]):
        return subs[0]
    used = frozenset().union(*(sub.used.difference(own) for own, sub in zip(signed, subs)))
    return Proof(rule, formula.signed, term, tuple(signed), tuple(subs), used | {formula.signed})
