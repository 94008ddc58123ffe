"""A goal by the derivation that HOL Light's kernel recorded for it: its rules backwards from the goal, as steps of ours that the program checks.

Instances are pushed to the leaves. What a theorem expression says is accepted; what rewriting by the theorems of a part closes is closed so;
any other rule is its tactic, a cut, or a theorem of derived_rules.hol. Where a derivation comes to what a tactic left open, the
replay goes on.
"""

from __future__ import annotations

from typing import Callable, Dict, FrozenSet, Iterable, Iterator, List, NamedTuple, Optional, Sequence, Tuple

from holls.exchange import likes
from holls.exchange.instances import Instance, Leaf, NoInstance
from holls.exchange.neutral import Theorem, Untranslatable
from holls.protocol import Goals
from holls.prover import typed
from holls.prover.typed import Term
from holls.prover.writing import Unwritable

LEMMAS = "derived_rules"
"""The theory of the theorems that stand for rules which are no functions here."""
_EQUATIONAL = frozenset("REFL BETA TRANS MK_COMB AP_TERM AP_THM ABS SYM INST INST_TYPE".split())
_BY_LEMMA = {
    "SYM": "EQ_SYM", "EQ_IMP1": "DERIVED_EQ_IMP", "EQ_IMP2": "DERIVED_EQ_IMP_REVERSED", "EQT_INTRO": "DERIVED_EQT_INTRO",
    "EQT_ELIM": "DERIVED_EQT_ELIM", "EQF_INTRO": "DERIVED_EQF_INTRO", "EQF_ELIM": "DERIVED_EQF_ELIM", "NOT_INTRO": "DERIVED_NOT_INTRO",
    "NOT_ELIM": "DERIVED_NOT_ELIM",
}
_PLAIN = {"CONJ": "CONJ_TAC", "DISJ1": "DISJ1_TAC", "DISJ2": "DISJ2_TAC", "IMP_ANTISYM_RULE": "EQ_TAC", "AP_TERM": "AP_TERM_TAC", "AP_THM": "AP_THM_TAC"}
_RULES = _EQUATIONAL | frozenset(
    "ASSUME EQ_MP DEDUCT PROVE_HYP MP DISCH IMP_TRANS SPEC GEN EXISTS CHOOSE DISJ_CASES CONTR CONJUNCT1 CONJUNCT2".split()) | set(_BY_LEMMA) | set(_PLAIN)
"""The rules that have steps here."""
_MOST_LEAVES = 8
_MANY = frozenset(map(str, range(_MOST_LEAVES + 1)))
"""Stands for more theorems than are used at once."""
_SMALL = 40
_DEEPEST = 250


Hole = Callable[[Goals], object]
"""Closes the first goal, as the replay does: what it found, with steps and goals, or None."""


class Stuck(Exception):
    """A derivation that no steps are, or that is too large."""


class Under(NamedTuple):
    """What is below a node: the theorems that stand here, how many steps, whether these are all beta reductions, whether something is there that
    no step does, and whether a goal that a tactic left is."""

    names: FrozenSet[str]
    size: int
    is_pure: bool
    is_lacking: bool
    has_hole: bool


class Branch(NamedTuple):
    """A step and what closes the goals that it leaves; `hole` are the steps of the replay, which stand for it."""

    text: str
    parts: Tuple["Branch", ...] = ()
    hole: Tuple = ()


class Deriver:
    """Runs derivations in a replay's server, where a goal stands first that is like the recorded one."""

    def __init__(self, replay, most: int) -> None:
        self.replay, self.record, self.translator = replay, replay.record, replay.translator
        self.most = most
        self.spent = 0
        self.instance = Instance(replay.record, replay.translator, replay.citations, replay.quoter, replay.scope)
        self.holes: Dict[int, Hole] = {}
        self.goals = Goals(())
        self._found: Dict[int, Under] = {}

    def close(self, number: int, goals: Goals, assumptions: Sequence[Term], holes: Dict[int, Hole]) -> Branch:
        """The steps that close the first goal. Raises Stuck."""
        self.holes, self.spent, self.goals = holes, 0, goals
        self._found = {}
        try:
            return self.back(number, Leaf({}, {}), tuple(assumptions), 0)
        except (Untranslatable, Unwritable, NoInstance, KeyError, IndexError, RecursionError) as error:
            raise Stuck(str(error)) from None

    # One node

    def back(self, number: int, env: Leaf, assumed: Tuple[Term, ...], depth: int) -> Branch:
        if depth > _DEEPEST:
            raise Stuck("too deep")
        if number in self.holes:
            return self._hole(number, env)
        goal = self._conclusion(number, env)
        quick = self._quick(number, env, goal, assumed)
        if quick:
            return quick
        theorem = self.record.theorems[number]
        method = getattr(self, "_" + theorem.rule.lower(), None)
        if method:
            return method(number, theorem, env, goal, assumed, depth + 1)
        premises = _premises(theorem)
        if theorem.rule in _PLAIN:
            return self._run(_PLAIN[theorem.rule], premises, env, assumed, depth + 1)
        if theorem.rule in _BY_LEMMA:
            return self._run("MATCH_MP_TAC " + _BY_LEMMA[theorem.rule], premises, env, assumed, depth + 1)
        raise Stuck("the rule %s" % theorem.rule)

    def _quick(self, number: int, env: Leaf, goal: Term, assumed: Tuple[Term, ...]) -> Optional[Branch]:
        """A step that closes the goal, where there is a short one."""
        sides = typed.binary(goal)
        if sides and sides[0] in ("=", "<=>") and sides[1] == sides[2]:
            return self._closing("REFL_TAC")
        if goal in assumed:
            return self._closing("FIRST_ASSUM ACCEPT_TAC")
        under = self._under(number)
        if under.is_pure and sides:
            return self._closing("BETA_TAC THEN REFL_TAC")
        text = self.instance.text(number, env)
        if text:
            return self._closing("ACCEPT_TAC " + text)
        is_whole = sides is not None and sides[0] in ("=", "<=>")
        if not under.has_hole and len(under.names) <= _MOST_LEAVES and (under.size <= _SMALL or is_whole and under.is_lacking):
            for step in self._closers(goal, under, is_whole):
                if self._tried(step, 0):
                    return Branch(step)
        return None

    def _closers(self, goal: Term, under: Under, is_whole: bool) -> Iterator[str]:
        """Short steps that may close a goal by the theorems below it, and by those of the forms that are written otherwise here."""
        yield from self._rewriting(under.names)
        if not under.is_lacking:
            return
        constants = {one[1] for one in typed.constants(goal)}
        forms = [name for name in ("IN", "UNCURRY") if name in constants and name in self.replay.scope.theorems]
        if forms:
            names = "; ".join(dict.fromkeys([*forms, *self._fine(under.names)]))
            yield "REWRITE_TAC [%s] THEN BETA_TAC THEN REFL_TAC" % names
            yield "REWRITE_TAC [{0}] THEN BETA_TAC THEN ASM_REWRITE_TAC [{0}]".format(names)
        if is_whole and constants & {"_1", "BIT0", "BIT1"} and "NUM_REDUCE_TAC" in self.replay.scope.functions:
            yield "NUM_REDUCE_TAC"

    def _fine(self, names: Iterable[str]) -> List[str]:
        return [name for name in sorted(names) if not likes.loops(self.replay.scope.theorems[name])]

    def _rewriting(self, names: Iterable[str]) -> Iterator[str]:
        fine = self._fine(names)
        yield "REWRITE_TAC [%s]" % "; ".join(fine)
        yield "ASM_REWRITE_TAC [%s]" % "; ".join(fine)

    def _conclusion(self, number: int, env: Leaf) -> Term:
        return env.put(self.translator.term(self.record.theorems[number].conclusion))

    def _hole(self, number: int, env: Leaf) -> Branch:
        term = self.translator.term(self.record.theorems[number].conclusion)
        if env.put(term) != term:
            raise Stuck("an instance of a goal that was left")
        found = self.holes[number](self.goals)
        if found is None:
            raise Stuck("a goal that was left")
        self.goals = found.goals
        return Branch("", (), tuple(found.steps))

    # What is below a node

    def _under(self, number: int) -> Under:
        """What is below a node."""
        waiting = [number]
        while waiting:
            one = waiting[-1]
            theorem = self.record.theorems[one]
            parts = [] if self.instance.is_leaf(one) or one in self.holes else _premises(theorem)
            left = [part for part in parts if part not in self._found]
            if left:
                waiting += left
                continue
            waiting.pop()
            if one not in self._found:
                self._found[one] = self._joined(one, theorem, [self._found[part] for part in parts])
        return self._found[number]

    def _joined(self, number: int, theorem: Theorem, parts: Sequence[Under]) -> Under:
        name = self.instance.name(number)
        if name:
            return Under(frozenset((name,)), 1, False, False, False)
        if number in self.holes:
            return Under(frozenset(), 1, False, False, True)
        names: FrozenSet[str] = frozenset()
        for part in parts:
            names = names if part.names <= names else names | part.names
            if len(names) > _MOST_LEAVES:
                names = _MANY
                break
        size = min(10 ** 6, 1 + sum(part.size for part in parts))
        is_pure = theorem.rule in _EQUATIONAL and all(part.is_pure for part in parts)
        is_lacking = theorem.rule not in _RULES or any(part.is_lacking for part in parts)
        return Under(names, size, is_pure, is_lacking, any(part.has_hole for part in parts))

    # Steps

    def _quote(self, term: Term) -> str:
        return self.replay.quoter.quote(term)

    def _pay(self, text: str) -> None:
        self.spent += len(text)
        if self.spent > self.most:
            raise Stuck("too large")

    def _tried(self, text: str, left: int) -> bool:
        """Whether a step leaves so many goals; it is taken back if not."""
        place = self._place()
        after = self.replay.run(text)
        if after is not None and len(after.goals) == len(self.goals.goals) - 1 + left:
            self._pay(text)
            self.goals = after
            return True
        self._back(place)
        return False

    def _place(self) -> Tuple[int, Goals]:
        return self.replay.asker.count, self.goals

    def _back(self, place: Tuple[int, Goals]) -> None:
        self.replay.asker.back(place[0])
        self.goals = place[1]

    def _closing(self, text: str) -> Branch:
        if not self._tried(text, 0):
            raise Stuck("refused: " + text[:80])
        return Branch(text)

    def _run(self, text: str, premises: Sequence[int], env: Leaf, assumed: Tuple[Term, ...], depth: int) -> Branch:
        """A step that leaves the premises, under the same assumptions."""
        if not self._tried(text, len(premises)):
            raise Stuck("refused: " + text[:80])
        return Branch(text, tuple(self.back(part, env, assumed, depth) for part in premises))

    def _step(self, text: str, left: int) -> None:
        if not self._tried(text, left):
            raise Stuck("refused: " + text[:80])

    def _is_first(self, term: Term) -> bool:
        """Whether the first goal shows a term."""
        return self.replay.shows(self.goals.goals[0], term)

    # Rules

    def _inst(self, number, theorem: Theorem, env: Leaf, goal, assumed, depth) -> Branch:
        return self.back(_premises(theorem)[0], self.instance.under(theorem, env), assumed, depth)

    _inst_type = _inst

    def _trans(self, number, theorem, env, goal, assumed, depth) -> Branch:
        first, second = _premises(theorem)
        for one, other, form in ((first, second, "SUBST1_TAC %s"), (second, first, "SUBST1_TAC (SYM %s)")):
            text = self.instance.text(one, env)
            place = self._place()
            if text and self._tried(form % text, 1):
                if self._is_first(self._conclusion(other, env)):
                    return Branch(form % text, (self.back(other, env, assumed, depth),))
                self._back(place)
        middle = typed.binary(self._conclusion(first, env))
        if not middle:
            raise Stuck("no equation")
        return self._run("MATCH_MP_TAC EQ_TRANS THEN EXISTS_TAC %s THEN CONJ_TAC" % self._quote(middle[2]), (first, second), env, assumed, depth)

    def _mk_comb(self, number, theorem, env, goal, assumed, depth) -> Branch:
        first, second = _premises(theorem)
        if self._is_trivial(first, env):
            return self._run("AP_TERM_TAC", (second,), env, assumed, depth)
        if self._is_trivial(second, env):
            return self._run("AP_THM_TAC", (first,), env, assumed, depth)
        return self._run("MK_COMB_TAC", (first, second), env, assumed, depth)

    def _is_trivial(self, number: int, env: Leaf) -> bool:
        sides = typed.binary(self._conclusion(number, env))
        return bool(sides) and sides[1] == sides[2]

    def _abs(self, number, theorem, env, goal, assumed, depth) -> Branch:
        variable, inner = self._fresh(theorem, env, goal, assumed)
        part = _premises(theorem)[0]
        below = self._conclusion(part, inner)
        text = "MATCH_MP_TAC EQ_EXT THEN X_GEN_TAC %s THEN BETA_TAC" % self._quote(variable)
        place = self._place()
        if self._tried(text, 1):
            if self._is_first(below):
                return Branch(text, (self.back(part, inner, assumed, depth),))
            self._back(place)
        text = "MATCH_MP_TAC EQ_EXT THEN X_GEN_TAC %s THEN SUBGOAL_THEN %s MP_TAC" % (self._quote(variable), self._quote(below))
        self._step(text, 2)
        return Branch(text, (self.back(part, inner, assumed, depth), self._closing("BETA_TAC THEN DISCH_THEN ACCEPT_TAC")))

    def _eq_mp(self, number, theorem, env, goal, assumed, depth) -> Branch:
        first, second = _premises(theorem)
        if self._is_trivial(first, env):
            return self.back(second, env, assumed, depth)
        below = self._conclusion(second, env)
        for text in self._equal_steps(first, second, env):
            place = self._place()
            if self._tried(text, 1):
                if self._is_first(below):
                    return Branch(text, (self.back(second, env, assumed, depth),))
                self._back(place)
        given = self.instance.text(second, env)
        text = "MP_TAC " + given if given else "SUBGOAL_THEN %s MP_TAC" % self._quote(below)
        place = self._place()
        if self._under(first).is_pure and self._tried(text, 1 if given else 2):
            shown = () if given else (self.back(second, env, assumed, depth),)
            return Branch(text, (*shown, self._closing("BETA_TAC THEN DISCH_THEN ACCEPT_TAC")))
        text = "MATCH_MP_TAC DERIVED_EQ_MP THEN EXISTS_TAC %s THEN CONJ_TAC" % self._quote(below)
        return self._run(text, (first, second), env, assumed, depth)

    def _equal_steps(self, first: int, second: int, env: Leaf) -> Iterator[str]:
        """Steps that may turn a goal q into p, where p <=> q is a theorem."""
        theorem = self.record.theorems[first]
        if theorem.rule == "SYM":
            text = self.instance.text(_premises(theorem)[0], env)
            if text:
                yield "SUBST1_TAC " + text
        text = self.instance.text(first, env)
        if text:
            yield "SUBST1_TAC (SYM %s)" % text
        under = self._under(first)
        if under.is_pure:
            yield "BETA_TAC"
        if 0 < len(under.names) <= _MOST_LEAVES:
            yield from self._rewriting(under.names)

    def _deduct(self, number, theorem, env, goal, assumed, depth) -> Branch:
        first, second = _premises(theorem)
        one, other = self._conclusion(first, env), self._conclusion(second, env)
        self._step("EQ_TAC THEN DISCH_TAC", 2)
        return Branch("EQ_TAC THEN DISCH_TAC", (self.back(second, env, (one, *assumed), depth), self.back(first, env, (other, *assumed), depth)))

    def _prove_hyp(self, number, theorem, env, goal, assumed, depth) -> Branch:
        first, second = _premises(theorem)
        shown = self._conclusion(first, env)
        if shown in assumed:
            return self.back(second, env, assumed, depth)
        return self._cut(first, shown, "ASSUME_TAC", env, assumed, depth, lambda: self.back(second, env, (shown, *assumed), depth))

    def _cut(self, number: int, shown: Term, function: str, env: Leaf, assumed, depth: int, *rest: Callable[[], Branch]) -> Branch:
        """What a function makes of a theorem, which is an expression or is shown first."""
        given = self.instance.text(number, env)
        text = "%s %s" % (function, given) if given else "SUBGOAL_THEN %s %s" % (self._quote(shown), _handed(function))
        self._step(text, len(rest) + (0 if given else 1))
        first = () if given else (self.back(number, env, assumed, depth),)
        return Branch(text, (*first, *(one() for one in rest)))

    def _mp(self, number, theorem, env, goal, assumed, depth) -> Branch:
        first, second = _premises(theorem)
        inner = self.record.theorems[first]
        below = self._conclusion(second, env)
        if inner.rule == "DISCH":
            part = _premises(inner)[0]
            if below in assumed:
                return self.back(part, env, assumed, depth)
            return self._cut(second, below, "ASSUME_TAC", env, assumed, depth, lambda: self.back(part, env, (below, *assumed), depth))
        for text in self._matching(first, env):
            place = self._place()
            if self._tried("MATCH_MP_TAC " + text, 1):
                if self._is_first(below):
                    return Branch("MATCH_MP_TAC " + text, (self.back(second, env, assumed, depth),))
                self._back(place)
        return self._cut(second, below, "MP_TAC", env, assumed, depth, lambda: self.back(first, env, assumed, depth))

    def _matching(self, number: int, env: Leaf) -> Iterator[str]:
        """An implication: the theorem that it is an instance of, and itself."""
        name = self.instance.general(number)
        if name:
            yield name
        text = self.instance.text(number, env)
        if text:
            yield text

    def _disch(self, number, theorem, env, goal, assumed, depth) -> Branch:
        term = env.put(self.translator.term(_terms(theorem)[0]))
        self._step("DISCH_TAC", 1)
        return Branch("DISCH_TAC", (self.back(_premises(theorem)[0], env, (term, *assumed), depth),))

    def _imp_trans(self, number, theorem, env, goal, assumed, depth) -> Branch:
        first, second = _premises(theorem)
        sides = typed.binary(self._conclusion(first, env))
        text = "MATCH_MP_TAC DERIVED_IMP_TRANS THEN EXISTS_TAC %s THEN CONJ_TAC" % self._quote(sides[2])
        return self._run(text, (first, second), env, assumed, depth)

    def _gen(self, number, theorem, env, goal, assumed, depth) -> Branch:
        variable, inner = self._fresh(theorem, env, goal, assumed)
        text = "X_GEN_TAC %s" % self._quote(variable)
        self._step(text, 1)
        return Branch(text, (self.back(_premises(theorem)[0], inner, assumed, depth),))

    def _fresh(self, theorem: Theorem, env: Leaf, goal: Term, assumed: Sequence[Term]) -> Tuple[Term, Leaf]:
        """A rule's variable, by a name that nothing around it has."""
        variable = env.variable(self.translator.term(_terms(theorem)[0]))
        used = {one[1] for term in (goal, *assumed) for one in typed.variables(term)} | set(self.replay.scope.signature.constants)
        used |= {one[1] for term in env.terms.values() for one in typed.variables(term)}
        used |= {shown.split(":")[0] for shown in self.goals.goals[0].free}
        name = variable[1]
        while name in used:
            name += "'"
        fresh = ("v", name, variable[2])
        return fresh, env.binding(variable, fresh)

    def _exists(self, number, theorem, env, goal, assumed, depth) -> Branch:
        witness = env.put(self.translator.term(_terms(theorem)[1]))
        return self._run("EXISTS_TAC %s" % self._quote(witness), _premises(theorem), env, assumed, depth)

    def _choose(self, number, theorem, env, goal, assumed, depth) -> Branch:
        first, second = _premises(theorem)
        shown = self._conclusion(first, env)
        variable, inner = self._fresh(theorem, env, goal, (*assumed, shown))
        found = typed.quantified(shown)
        body = typed.opened(found[3], variable) if found else ("a", shown[2], variable)
        return self._cut(first, shown, "X_CHOOSE_TAC %s" % self._quote(variable), env, assumed, depth,
                         lambda: self.back(second, inner, (body, *assumed), depth))

    def _disj_cases(self, number, theorem, env, goal, assumed, depth) -> Branch:
        first, second, third = _premises(theorem)
        shown = self._conclusion(first, env)
        _, left, right = typed.binary(shown)
        return self._cut(first, shown, "DISJ_CASES_TAC", env, assumed, depth, lambda: self.back(second, env, (left, *assumed), depth),
                         lambda: self.back(third, env, (right, *assumed), depth))

    def _contr(self, number, theorem, env, goal, assumed, depth) -> Branch:
        self._step("SUBGOAL_THEN `F` CONTR_TAC", 1)
        return Branch("SUBGOAL_THEN `F` CONTR_TAC", (self.back(_premises(theorem)[0], env, assumed, depth),))

    def _spec(self, number, theorem, env, goal, assumed, depth) -> Branch:
        part = _premises(theorem)[0]
        given = env.put(self.translator.term(_terms(theorem)[0]))
        inner = self.record.theorems[part]
        if inner.rule == "GEN" and not self.instance.is_leaf(part):
            variable = env.variable(self.translator.term(_terms(inner)[0]))
            return self.back(_premises(inner)[0], env.binding(variable, given), assumed, depth)
        shown = self._conclusion(part, env)
        return self._cut(part, shown, "ASSUME_TAC", env, assumed, depth,
                         lambda: self._closing("ACCEPT_TAC (SPEC %s (ASSUME %s))" % (self._quote(given), self._quote(shown))))

    def _conjunct1(self, number, theorem, env, goal, assumed, depth) -> Branch:
        part = _premises(theorem)[0]
        inner = self.record.theorems[part]
        if inner.rule == "CONJ" and not self.instance.is_leaf(part):
            return self.back(_premises(inner)[0 if theorem.rule == "CONJUNCT1" else 1], env, assumed, depth)
        shown = self._conclusion(part, env)
        return self._cut(part, shown, "ASSUME_TAC", env, assumed, depth,
                         lambda: self._closing("ACCEPT_TAC (%s (ASSUME %s))" % (theorem.rule, self._quote(shown))))

    _conjunct2 = _conjunct1


def _premises(theorem: Theorem) -> List[int]:
    return [number for kind, number in theorem.arguments if kind == "h"]


def _terms(theorem: Theorem) -> List[int]:
    return [number for kind, number in theorem.arguments if kind == "t"]


def _handed(function: str) -> str:
    """A function whose theorem is handed over."""
    return "(%s)" % function if " " in function else function


MOST_IN_ONE = 3000
"""So many characters of an expression are one command at most, which has 4,096 tokens."""


def rendered(branch: Branch) -> str:
    """A branch without holes as one expression."""
    if not branch.parts:
        return branch.text
    if len(branch.parts) == 1:
        return "%s THEN %s" % (branch.text, rendered(branch.parts[0]))
    return "%s THENL [%s]" % (branch.text, "; ".join(map(rendered, branch.parts)))


def has_hole(branch: Branch) -> bool:
    return bool(branch.hole) or any(has_hole(part) for part in branch.parts)
