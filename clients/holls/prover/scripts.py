"""Steps of the language for a proof of the sequent calculus.

A goal shows one formula of a sequent's right; the negation of each other one that is needed is a theorem. What stands left is a theorem too: one
that is assumed, or written by the forward rules. Where a right side is kept beside the one that is shown, the excluded middle gives its two cases.
"""

from __future__ import annotations

from typing import Callable, Dict, FrozenSet, List, NamedTuple, Optional, Tuple

from holls.prover import substituting, typed
from holls.prover.ground import CLOSE, Proof
from holls.prover.sequents import ALPHA, BETA, DELTA, GAMMA
from holls.prover.typed import FALSITY, TRUTH, Term
from holls.prover.writing import Quoter, Unwritable

LONG = 60
"""A theorem's expression of more characters that is needed more than once is assumed."""

MIDDLE: Term = ("a", ("c", "!", typed.fun(typed.fun(typed.BOOL, typed.BOOL), typed.BOOL)), (
    "l", typed.Hint("t"), typed.BOOL, typed.mk_or(("b", 0), typed.mk_not(("b", 0)))))
"""The excluded middle."""

UNWRITTEN = "(ASSUME `?`)"
"""An assumption with a type that was left open: no step can name it, but for FIRST_ASSUM."""

MIDDLE_STEPS = (
    "GEN_TAC THEN MP_TAC (SPEC `F` (SPEC `\\x. (x <=> F) \\/ t` (INST_TYPE [`:bool`,`:A`] SELECT_AX)))",
    "MP_TAC (SPEC `T` (SPEC `\\x. (x <=> T) \\/ t` (INST_TYPE [`:bool`,`:A`] SELECT_AX)))",
    "BETA_TAC THEN REWRITE_TAC [] THEN STRIP_TAC THEN STRIP_TAC",
    "TRY (DISJ1_TAC THEN FIRST_ASSUM ACCEPT_TAC)",
    "DISJ2_TAC THEN DISCH_TAC",
    "MP_TAC (ASSUME `~(@x. ~x \\/ t)`) THEN MP_TAC (ASSUME `@x. x \\/ t`) THEN REWRITE_TAC [ASSUME `t:bool`]",
    "DISCH_TAC THEN REWRITE_TAC [ASSUME `@x:bool. T`]")
"""A proof of it from the prelude, by choice."""


class Step(NamedTuple):
    """A call, or several joined by THEN, and the steps of the goals that it leaves; with `is_each` the first of these for each of them."""

    text: str
    subs: Tuple["Step", ...] = ()
    is_each: bool = False


class Half(NamedTuple):
    """The implication from one side of an equivalence's theorem to the other, which is written where it is needed."""

    theorem: str
    is_forward: bool


class State(NamedTuple):
    """A goal: what it shows, and the theorems of what is on the left of its sequent, by what they say."""

    goal: Term
    theorems: Dict[Term, object]

    def knowing(self, term: Term, theorem: object) -> "State":
        """The same with one more theorem."""
        return self if term in self.theorems else State(self.goal, {**self.theorems, term: theorem})

    def showing(self, goal: Term) -> "State":
        """The same with another goal."""
        return State(goal, self.theorems)


Then = Callable[[State], Step]


class Scribe:
    """Writes steps. `middle` is the theorem of the excluded middle, if one stands."""

    def __init__(self, quoter: Quoter, middle: Optional[str]) -> None:
        self.quoter = quoter
        self._middle = middle
        self.needs_middle = False

    def steps(self, proof: Proof, goal: Term, theorems: Dict[Term, object]) -> Step:
        """The steps of a proof of a goal, where theorems of the left side are known."""
        return self.with_middle(self.step(proof, State(goal, theorems)))

    def with_middle(self, step: Step) -> Step:
        """Steps behind those that show the excluded middle, where they need it and no theorem has it."""
        if self.needs_middle and not self._middle:
            return Step("SUBGOAL_THEN %s ASSUME_TAC" % self.quoter.quote(MIDDLE), (Step(" THEN ".join(MIDDLE_STEPS)), step))
        return step

    # Theorems

    def assume(self, term: Term) -> str:
        """The theorem of an assumption."""
        try:
            return "(ASSUME %s)" % self.quoter.quote(term)
        except Unwritable:
            return UNWRITTEN

    def assuming(self, state: State, term: Term) -> State:
        """A goal that assumes a term."""
        return State(state.goal, {**state.theorems, term: self.assume(term)})

    def theorem(self, state: State, term: Term) -> Optional[str]:
        """The theorem of a formula; None where there is none that can be written in place."""
        found = state.theorems.get(term)
        return found if isinstance(found, str) else None

    def middle(self, term: Term) -> str:
        """The excluded middle of a term."""
        self.needs_middle = True
        return "(SPEC %s %s)" % (self.quoter.quote(term), self._middle or self.assume(MIDDLE))

    def cases(self, term: Term, state: State, yes: Then, no: Then) -> Step:
        """The two cases of a formula; one that is a negation is taken by what it denies."""
        inner = typed.negated(term)
        if inner is not None:
            return Step("DISJ_CASES_TAC " + self.middle(inner), (no(self.assuming(state, inner)), yes(self.assuming(state, term))))
        negation = typed.mk_not(term)
        return Step("DISJ_CASES_TAC " + self.middle(term), (yes(self.assuming(state, term)), no(self.assuming(state, negation))))

    def accept(self, state: State, term: Term) -> Step:
        """Closes a goal by a theorem."""
        theorem = self.theorem(state, term)
        if theorem is None:
            return self.with_written(state, term, lambda own: self.accept(own, term))
        is_assumed = theorem == self.assume(term)
        return Step("FIRST_ASSUM ACCEPT_TAC" if is_assumed else "ACCEPT_TAC " + theorem)

    def with_written(self, state: State, term: Term, then: Then) -> Step:
        """Makes an assumption of half an equivalence."""
        half = state.theorems[term]
        use = "SUBST1_TAC (SYM %s)" if half.is_forward else "SUBST1_TAC %s"
        own = Step("DISCH_TAC THEN %s THEN FIRST_ASSUM ACCEPT_TAC" % (use % half.theorem))
        return Step("SUBGOAL_THEN %s ASSUME_TAC" % self.quoter.quote(term), (own, then(self.assuming(state, term))))

    def absurd(self, state: State, term: Term) -> Step:
        """Closes a goal by a formula and its negation."""
        theorem, negation = self.theorem(state, term), self.theorem(state, typed.mk_not(term))
        if theorem is None:
            return self.with_written(state, term, lambda own: self.absurd(own, term))
        return Step("MP_TAC %s THEN REWRITE_TAC [%s]" % (theorem, _bare(negation)))

    # Which formula is shown

    def show(self, term: Term, proof: Proof, state: State, then: Then) -> Step:
        """Shows a formula of the right side, and keeps what is shown now where the proof needs it."""
        if state.goal == term:
            return then(state)
        goal = state.goal

        def shown(own: State) -> Step:
            negation = self.theorem(own, typed.mk_not(term))
            first = then(own.showing(term))
            return Step("SUBGOAL_THEN %s MP_TAC" % self.quoter.quote(term), (first, Step("REWRITE_TAC [%s]" % _bare(negation))))

        if (False, goal) in proof.used and not self.is_known_false(state, goal):
            return self.cases(goal, state, lambda own: self.accept(own, goal), shown)
        return shown(state)

    def is_known_false(self, state: State, term: Term) -> bool:
        """Whether a formula of the right side is known to be false, so that it needn't be shown."""
        return typed.mk_not(term) in state.theorems or self.is_denied(state, term)

    @staticmethod
    def is_denied(state: State, term: Term) -> bool:
        """Whether the negation of a negation is known by what it says."""
        inner = typed.negated(term)
        return inner is not None and inner in state.theorems

    # Rules

    def step(self, proof: Proof, state: State) -> Step:
        """The step of a rule, with those of what it leaves."""
        if proof.rule == CLOSE:
            return self.close(proof, state)
        is_left, term = proof.formula
        rule = {ALPHA: self.alpha, BETA: self.beta, GAMMA: self.gamma, DELTA: self.delta}[proof.rule]
        if is_left or self.is_denied(state, term) and proof.rule == ALPHA:
            return rule(proof, state)
        is_kept = any(proof.formula in sub.used.difference(parts) for sub, parts in zip(proof.subs, proof.parts))

        def shown(own: State) -> Step:
            if is_kept and not self.is_known_false(own, term):
                return self.cases(term, own, lambda other: self.accept(other, term), lambda other: rule(proof, other))
            return rule(proof, own)

        return self.show(term, proof, state, shown)

    def close(self, proof: Proof, state: State) -> Step:
        """Closes a goal."""
        if proof.equations:
            return self.close_by_equations(proof, state)
        formulas = proof.parts[0]
        is_left, term = formulas[0]
        if len(formulas) == 2:
            right = formulas[1][1]
            if state.goal == right:
                return self.accept(state, term)
            if self.is_denied(state, right) and typed.mk_not(right) not in state.theorems:
                return self.absurd(state, typed.negated(right))
            return self.absurd(state, term)
        if is_left:
            return Step("CONTR_TAC " + self.theorem(state, term))
        if state.goal == term:
            return Step("ACCEPT_TAC TRUTH" if term == TRUTH else "REFL_TAC")
        return Step("MP_TAC %s THEN REWRITE_TAC []" % self.theorem(state, typed.mk_not(term)))

    def close_by_equations(self, proof: Proof, state: State) -> Step:
        """Closes a goal by equations, each put into the goal and then into all that is left."""
        formulas = proof.parts[0]
        right = formulas[-1][1]
        left = formulas[0][1] if len(formulas) == 2 else None
        kept = [typed.mk_not(right)] if state.goal != right else []
        parts = ["MP_TAC " + self.theorem(state, term) for term in kept + ([left] if left is not None else [])]
        found = substituting.plan(proof.equations, left, right)
        if found is None:
            raise Unwritable("equations in no order")
        theorems = []
        for equation, is_turned in found.equations:
            theorem = self.theorem(state, equation)
            theorems.append("(SYM %s)" % theorem if is_turned else theorem)
        if found.is_joined:
            parts += ["MP_TAC " + theorem for theorem in reversed(theorems)] + ["DISCH_THEN SUBST1_TAC"] * len(theorems)
        else:
            parts += ["SUBST1_TAC " + theorem for theorem in theorems]
        if left is None:
            parts.append("REWRITE_TAC []" if kept else "REFL_TAC")
        elif kept:
            parts.append("DISCH_TAC THEN REWRITE_TAC [ASSUME %s]" % self.quoter.quote(found.left))
        else:
            parts.append("DISCH_THEN ACCEPT_TAC")
        return Step(" THEN ".join(parts))

    def alpha(self, proof: Proof, state: State) -> Step:
        """A rule whose parts come together."""
        (is_left, term), sub = proof.formula, proof.subs[0]
        inner = typed.negated(term)
        if inner is not None:
            if is_left or inner in state.theorems:
                return self.step(sub, state)
            return self.discharged(sub, inner, FALSITY, state)
        name, left, right = typed.binary(term)
        if name == "==>":
            return self.discharged(sub, left, right, state)
        if name == "\\/":
            return self.either(sub, left, right, state)
        theorem = self.theorem(state, term)
        if theorem is None:
            return self.with_written(state, term, lambda own: self.alpha(proof, own))
        if name == "<=>":
            forward, back = Half(theorem, True), Half(theorem, False)
            return self.step(sub, state.knowing(typed.mk_imp(left, right), forward).knowing(typed.mk_imp(right, left), back))
        return self.step(sub, state.knowing(left, "(CONJUNCT1 %s)" % theorem).knowing(right, "(CONJUNCT2 %s)" % theorem))

    def discharged(self, sub: Proof, premise: Term, goal: Term, state: State) -> Step:
        """Assumes a premise: its parts, where it is a conjunction or has a witness, and they are what is needed."""
        stripped = _stripped(sub, premise)
        if stripped is not None:
            pieces, rest = stripped
            if goal in pieces:
                return Step("STRIP_TAC")
            state = state.showing(goal)
            for piece in pieces:
                state = self.assuming(state, piece)
            return Step("STRIP_TAC", (self.step(rest, state),))
        if _is_accepted(sub, premise, goal):
            return Step("DISCH_THEN ACCEPT_TAC")
        return Step("DISCH_TAC", (self.step(sub, self.assuming(state.showing(goal), premise)),))

    def either(self, sub: Proof, left: Term, right: Term, state: State) -> Step:
        """A disjunction: one side is shown, and the other one denied where both are needed. Of a negation what it denies is assumed then."""
        if (False, right) not in sub.used or left == right:
            return Step("DISJ1_TAC", (self.step(sub, state.showing(left)),))
        if (False, left) not in sub.used:
            return Step("DISJ2_TAC", (self.step(sub, state.showing(right)),))

        first, second = ("DISJ2_TAC", "DISJ1_TAC") if typed.negated(left) is not None else ("DISJ1_TAC", "DISJ2_TAC")
        shown, other = (right, left) if first == "DISJ2_TAC" else (left, right)

        def yes(own: State) -> Step:
            return Step(second, (self.accept(own.showing(other), other),))

        return self.cases(other, state, yes, lambda own: Step(first, (self.step(sub, own.showing(shown)),)))

    def beta(self, proof: Proof, state: State) -> Step:
        """A rule of cases."""
        is_left, term = proof.formula
        name, left, right = typed.binary(term)
        if not is_left:
            goals = (left, right) if name == "/\\" else (typed.mk_imp(left, right), typed.mk_imp(right, left))
            subs = tuple(self.step(sub, state.showing(goal)) for sub, goal in zip(proof.subs, goals))
            return Step("CONJ_TAC" if name == "/\\" else "EQ_TAC", subs)
        if name == "==>":
            return self.implication(proof, left, right, state)
        theorem = self.theorem(state, term)
        subs = tuple(self.step(sub, self.assuming(state, side)) for sub, side in zip(proof.subs, (left, right)))
        return Step("DISJ_CASES_TAC " + theorem, subs)

    def implication(self, proof: Proof, left: Term, right: Term, state: State) -> Step:
        """An implication on the left: its premise is known, or shown, or taken by cases; then its conclusion is known."""
        first, second = proof.subs
        found = state.theorems[proof.formula[1]]

        def known(own: State) -> Step:
            return self.concluded(second, found, left, right, own)

        if self.theorem(state, left) is not None:
            return known(state)
        goal = state.goal
        is_kept = (False, goal) in first.used and goal != left
        if is_kept:
            return self.cases(left, state, known, lambda own: self.step(first, own))
        if second.rule == CLOSE and goal == right and not second.equations and (True, right) in second.used:
            use = "MATCH_MP_TAC %s" % found if isinstance(found, str) else "SUBST1_TAC (SYM %s)" if found.is_forward else "SUBST1_TAC %s"
            text = use if isinstance(found, str) else use % found.theorem
            return Step(text, (self.step(first, state.showing(left)),))
        return Step("SUBGOAL_THEN %s ASSUME_TAC" % self.quoter.quote(left), (
            self.step(first, state.showing(left)), known(self.assuming(state, left))))

    def concluded(self, sub: Proof, found: object, left: Term, right: Term, state: State) -> Step:
        """Goes on with the conclusion of an implication whose premise is known."""
        premise = self.theorem(state, left)
        if isinstance(found, str):
            return self.settled(sub, right, "(MP %s %s)" % (found, premise), state)
        text = ("SUBST1_TAC (SYM %s)" if found.is_forward else "SUBST1_TAC %s") % found.theorem
        own = Step(text, (self.accept(state.showing(left), left),))
        if sub.rule == CLOSE and state.goal == right and not sub.equations and (True, right) in sub.used:
            return own
        return Step("SUBGOAL_THEN %s ASSUME_TAC" % self.quoter.quote(right), (own, self.step(sub, self.assuming(state, right))))

    def settled(self, sub: Proof, term: Term, theorem: str, state: State) -> Step:
        """Goes on with a theorem, which becomes an assumption where it is long and needed often."""
        is_long = len(theorem) > max(LONG, len(self.assume(term)))
        stripped = _stripped(sub, term) if is_long else None
        if stripped is not None:
            return self.strip_assumed(theorem, stripped, state)
        if is_long and _uses(sub, term) > 1:
            return Step("ASSUME_TAC " + theorem, (self.step(sub, self.assuming(state, term)),))
        return self.step(sub, state.knowing(term, theorem))

    def strip_assumed(self, theorem: str, stripped: Tuple[List[Term], Proof], state: State) -> Step:
        """Goes on with the parts of a theorem."""
        pieces, rest = stripped
        if state.goal in pieces:
            return Step("STRIP_ASSUME_TAC " + theorem)
        for piece in pieces:
            state = self.assuming(state, piece)
        return Step("STRIP_ASSUME_TAC " + theorem, (self.step(rest, state),))

    def gamma(self, proof: Proof, state: State) -> Step:
        """A quantifier that is taken at a term."""
        (is_left, term), sub = proof.formula, proof.subs[0]
        body = proof.parts[0][0][1]
        quoted = self.quoter.quote(proof.term)
        if is_left:
            return self.settled(sub, body, "(SPEC %s %s)" % (quoted, self.theorem(state, term)), state)

        return Step("EXISTS_TAC " + quoted, (self.step(sub, state.showing(body)),))

    def delta(self, proof: Proof, state: State) -> Step:
        """A quantifier that is taken at a variable of its own."""
        (is_left, term), sub = proof.formula, proof.subs[0]
        body = proof.parts[0][0][1]
        variable = self.quoter.quote(proof.term)
        if is_left:
            stripped = _stripped(proof, term)
            if stripped is not None:
                return self.strip_assumed(self.theorem(state, term), stripped, state)
            text = "X_CHOOSE_TAC %s %s" % (variable, self.theorem(state, term))
            return Step(text, (self.step(sub, self.assuming(state, body)),))
        return Step("X_GEN_TAC " + variable, (self.step(sub, state.showing(body)),))


def _bare(theorem: str) -> str:
    """A theorem's expression as it stands in a list."""
    return theorem[1:-1] if theorem.startswith("(") else theorem


def _stripped(proof: Proof, premise: Term) -> Optional[Tuple[List[Term], Proof]]:
    """The parts of a premise as stripping has them, and the proof that has them; None where it needs another one, or isn't to be stripped."""
    wholes: List[Term] = []
    pieces = _pieces(proof, premise, wholes)
    if pieces is None or not wholes:
        return None
    if any((True, whole) in one.used for one in _nodes(proof) if one.rule == CLOSE for whole in wholes):
        return None
    rest = _without(proof, frozenset(wholes))
    gone = {one.term for one in _nodes(proof) if one.rule == DELTA and one.formula[0] and one.formula[1] in wholes}
    return None if any(one.rule == DELTA and one.term in gone for one in _nodes(rest)) else (pieces, rest)


def _pieces(proof: Proof, term: Term, wholes: List[Term]) -> Optional[List[Term]]:
    """The parts of a conjunction, and of what has a witness with the variable that the proof gives it; `wholes` takes what has these parts.

    The variable has to be the bound one without primes: that is the one that stripping takes, since it is free nowhere else.
    """
    found, bound = typed.binary(term), typed.quantified(term)
    if found and found[0] == "/\\":
        wholes.append(term)
        left, right = _pieces(proof, found[1], wholes), _pieces(proof, found[2], wholes)
        return None if left is None or right is None else left + right
    if bound and bound[0] == "?":
        variables = {one.term for one in _nodes(proof) if one.rule == DELTA and one.formula == (True, term)}
        if len(variables) != 1 or next(iter(variables))[1] != str(bound[1]).rstrip("'"):
            return None
        wholes.append(term)
        return _pieces(proof, typed.opened(bound[3], next(iter(variables))), wholes)
    is_split = found and found[0] == "\\/" or term in (TRUTH, FALSITY)
    return None if is_split else [term]


def _without(proof: Proof, wholes: FrozenSet[Term]) -> Proof:
    """A proof in which some formulas of the left are taken apart already."""
    if proof.rule in (ALPHA, DELTA) and proof.formula[0] and proof.formula[1] in wholes:
        return _without(proof.subs[0], wholes)
    return proof._replace(subs=tuple(_without(sub, wholes) for sub in proof.subs))


def _nodes(proof: Proof) -> List[Proof]:
    return [proof] + [node for sub in proof.subs for node in _nodes(sub)]


def _uses(proof: Proof, term: Term) -> int:
    """How many rules need a formula of the left."""
    return sum(one.formula == (True, term) or one.rule == CLOSE and (True, term) in one.used for one in _nodes(proof))


def _is_accepted(proof: Proof, premise: Term, goal: Term) -> bool:
    return proof.rule == CLOSE and premise == goal and (True, premise) in proof.used


WIDTH = 110
"""A command is hardly longer, in characters, where it can be cut."""


def commands(step: Step) -> List[str]:
    """The texts of `e` commands for steps: each does what leaves one goal at most, and one that leaves more stands last."""
    made: List[str] = []
    parts = [step.text]
    while True:
        while len(step.subs) == 1:
            step = step.subs[0]
            if sum(len(part) + 6 for part in parts) + len(step.text) > WIDTH:
                made.append("e " + " THEN ".join(parts))
                parts = []
            parts.append(step.text)
        made.append("e " + " THEN ".join(parts))
        if not step.subs:
            return made
        for sub in step.subs[:-1]:
            made += commands(sub)
        step = step.subs[-1]
        parts = [step.text]
