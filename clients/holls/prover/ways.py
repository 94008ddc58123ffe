"""Single ways to close a goal. Each answers commands that the program has run, or None; all is taken back."""

from __future__ import annotations

from typing import Callable, List, NamedTuple, Optional, Sequence

from holls.protocol import Goals
from holls.prover import arithmetic, clock, named, preparing, retyping, scripts, shaping, simplifying, tables, trying, typed
from holls.prover.arithmetic import Arithmetic
from holls.prover.finding import Item
from holls.prover.firstorder import FirstOrder
from holls.prover.induction import Beginnings
from holls.prover.place import Place, has
from holls.prover.reordering import Reordering
from holls.prover.scripts import Scribe, Step
from holls.prover.shown import stripped
from holls.prover.simplifying import Instance, Instances
from holls.prover.typed import Term
from holls.prover.writing import Unwritable

_TABLE_SECONDS = 0.15
"""Steps of a truth table that run longer are left as they are."""
_SHORTER_SECONDS = 0.2
"""So long shorter steps are searched than those of a truth table."""
_CLOSING = 0.1
"""The part of the time in which named functions are tried before a search."""
_EXACT_STEPS = 8
_NAMED = 8
"""Of no more theorems than these each is likely to be meant."""
_FEW_ATOMS = 6
"""So many atoms of a goal are taken by cases in one command."""
_FEW_NAMES = 14
"""So many theorems rewrite at once."""
_SEARCH_SECONDS = 0.25
"""So long a part of a proof is searched in first order logic."""
_MOMENT = 0.06
_ROUNDS = 4
"""So often a part of a goal is rewritten under conditions."""

Commands = Optional[List[str]]
Attempt = Callable[[], Commands]
Case = Callable[[Place, Sequence[str], float], Commands]


class Way(NamedTuple):
    """A way to close a goal, and what it is called while it is tried."""

    name: str
    run: Attempt


class Ways:
    """Ways to close a goal until a time. `is_cut` says that one had no more time; `refused`, how many proofs were found whose steps can't be
    written or are refused."""

    def __init__(self, until: float) -> None:
        self.until = until
        self.is_cut, self.refused = False, 0

    def part(self, share: float) -> float:
        """The moment when a part of the time that is left is over."""
        now = clock.now()
        return now + share * (self.until - now)

    # Without a search

    def exactly(self, place: Place, is_whole: bool = True) -> Commands:
        """A step by a theorem that says the goal, at once or once it is stripped; or by one of which assumptions have what it needs, by rewriting."""
        for strips in ("", "REPEAT GEN_TAC", "REPEAT STRIP_TAC"):
            mark = place.asker.count
            inner: Optional[Place] = place
            if strips:
                goals = place.after(strips)
                is_one = goals is not None and len(goals.goals) == place.count and goals.goals[0] != place.goals.goals[0]
                inner = place.at(goals) if is_one else None
            found = None if inner is None else self._exact_step(inner, is_whole)
            place.asker.back(mark)
            if found:
                return ["e " + (strips + " THEN " if strips else "") + found]
        return None

    @staticmethod
    def _exact_step(place: Place, is_whole: bool) -> Optional[str]:
        exact = place.known.exact
        steps = exact.whole(place.shown) if is_whole else [step + " THEN ASM_REWRITE_TAC []" for step in exact.leaving(place.shown)]
        return next((step for step in steps[:_EXACT_STEPS] if place.closes(step)), None)

    def by_arithmetic(self, place: Place) -> Commands:
        """Steps by linear arithmetic and by equations of polynomials, where the theory stands on which these rest."""
        if arithmetic.NEEDED not in place.known.scope.theorems or not arithmetic.concerns(place.terms):
            return None
        step = Arithmetic(place.asker, place.reader, place.known.quoter, self.part(0.5), place.known.scope.theorems).prove(place.goals)
        texts = scripts.commands(step) if step else []
        return texts if texts and trying.check(place.asker, texts, place.goals) else None

    def reordered(self, place: Place) -> Commands:
        """Steps by laws of commutation and association, at once or once the goal is stripped."""
        for strips in ("REPEAT GEN_TAC", "REPEAT STRIP_TAC"):
            found = self.behind(place, strips, self._reordered) or (self._reordered(place) if _is_stripped(place) else None)
            if found:
                return place.checked(found)
        return None

    @staticmethod
    def _reordered(place: Place) -> Commands:
        texts = Reordering(place.known, place.shown).steps()
        return texts if texts and trying.check(place.asker, texts, place.goals) else None

    def at_once(self, place: Place) -> Commands:
        """A step by what stands in the goal alone, or by a named tactic where that is shorter."""
        found = self.quick(place, [])
        below = sum(map(len, found)) - len("e ") if found else None
        until = self.part(_CLOSING)
        use = place.functions.closing(place.asker, place.goals, named.forms(place.is_growing), below, until)
        self.is_cut = self.is_cut or clock.now() > until
        return place.fewer(["e " + use]) if use else found

    def quick(self, place: Place, theorems: Sequence[str]) -> Commands:
        """A short step that needs no search, by rewriting with theorems that don't go on for ever."""
        fine = place.fine(theorems)
        if theorems and not fine:
            return None
        closers, until = trying.closers(fine, place.is_growing), self.part(0.3)
        found = trying.Trial(place.asker, closers, until).close(place.count)
        self.is_cut = self.is_cut or clock.now() > until
        return None if found is None else place.fewer(["e " + found])

    def table(self, place: Place, atoms: Sequence[Term]) -> Commands:
        """Steps by a truth table, or shorter ones, of a goal that has one."""
        scribe = Scribe(place.known.quoter, place.known.middle)
        try:
            step = tables.steps(place.items, atoms, scribe.middle, scribe.assume)
        except Unwritable:
            return None
        found = None if has(step, scripts.UNWRITTEN) else self._run_table(place, scribe.with_middle(step))
        other = self.search(place, [], min(self.until, clock.now() + _SHORTER_SECONDS))
        return min([one for one in (found, other) if one], key=trying.length, default=None)

    def _run_table(self, place: Place, step: Step) -> Commands:
        """Runs the steps of a truth table as they are, as long as there is time; where they take long, as they are to stand."""
        mark, begun = place.asker.count, clock.now()
        done = trying.run_each(place.asker, step, place.count, self.until)
        is_quick = clock.now() - begun < _TABLE_SECONDS
        place.asker.back(mark)
        if done is None:
            return None
        return place.checked(scripts.commands(done)) if is_quick else scripts.commands(done)

    # By a search

    def search(self, place: Place, names: Sequence[str], until: float) -> Commands:
        """Steps of a proof in first order logic that takes some theorems."""
        search = FirstOrder(place, until)
        found = search.search(names)
        self.is_cut = self.is_cut or search.is_cut
        self.refused += search.refused
        return found

    def prepared(self, place: Place, rules: Sequence[str], names: Sequence[str], until: float) -> Commands:
        """Steps that rewrite the goal first, to sets' elements and the like, and then search."""
        for text in preparing.preparations(place.shown, place.known, rules):
            found = place.checked(self.behind(place, text, lambda inner: self._prepared(inner, names, until)), 1)
            if found or clock.now() > until:
                return found
        return None

    def _prepared(self, place: Place, names: Sequence[str], until: float) -> Commands:
        """Closes a goal that was rewritten; where its variables' types aren't shown, behind what makes them free."""
        if retyping.left_open(place.terms):
            for strips in ("REPEAT GEN_TAC", "REPEAT STRIP_TAC"):
                found = self.behind(place, strips, lambda inner: self.at_once(inner) or self.search(inner, names, until))
                if found:
                    return found
        found = self.at_once(place) or self._by_cases(place) or self.search(place, names, until)
        if found or not place.known.is_inductive(place.terms):
            return found
        return self.by_induction(place, names, min(self.until, clock.now() + _SEARCH_SECONDS))

    def _by_cases(self, place: Place) -> Commands:
        """Steps that take the atoms of a goal by cases, behind its quantifiers, where it holds whatever these are."""
        items = place.items[:-1] + [Item(False, stripped(place.shown.conclusion), True)]
        atoms = tables.atoms(items)
        if not 0 < len(atoms) <= _FEW_ATOMS or not tables.is_valid(items, atoms):
            return None
        return self._cases(place) if _is_stripped(place) else self.behind(place, "REPEAT GEN_TAC", self._cases)

    @staticmethod
    def _cases(place: Place) -> Commands:
        scribe = Scribe(place.known.quoter, place.known.middle)
        try:
            step = tables.steps(place.items, tables.atoms(place.items), scribe.middle, scribe.assume)
        except Unwritable:
            return None
        return None if has(step, scripts.UNWRITTEN) else place.checked(scripts.commands(scribe.with_middle(step)))

    def behind(self, place: Place, text: str, close: Callable[[Place], Commands]) -> Commands:
        """Steps behind one that changes the goal: what closes each goal that it leaves."""
        mark = place.asker.count
        try:
            goals = place.after(text)
            if goals is None or goals.goals == place.goals.goals:
                return None
            texts = ["e " + text]
            while len(goals.goals) >= place.count:
                found = close(place.at(goals))
                if not found:
                    return None
                texts += found
                for step in found:
                    goals = place.after(step[len("e "):])
            return texts
        finally:
            place.asker.back(mark)

    def close(self, place: Place, names: Sequence[str], until: float, depth: int) -> Commands:
        """What closes a part of a proof, by simple means."""
        ways: List[Attempt] = [lambda: self.at_once(place), lambda: self.exactly(place), lambda: self.by_arithmetic(place)]
        simple = list(dict.fromkeys(place.known.simple(place.terms) + place.known.equations(names)))
        if simple:
            ways.append(lambda: self.quick(place, simple))
            ways.append(lambda: self.behind(place, "ASM_REWRITE_TAC [%s]" % "; ".join(simple), self._plain))
        if depth:
            ways.append(lambda: self.simplified(place, names, until, depth - 1))
        ways.append(lambda: self.search(place, names[:_FEW_NAMES], min(until, clock.now() + _SEARCH_SECONDS)))
        for way in ways:
            if clock.now() > until:
                return None
            found = way()
            if found:
                return found
        return None

    # By conditional rewriting

    def simplified(self, place: Place, names: Sequence[str], until: float, depth: int = 1) -> Commands:
        """Steps that strip a goal, rewrite by theorems whose conditions can be shown, and close what is left; at once, or behind rewriting by those
        without conditions."""
        found = self._simplified(place, names, until, depth)
        plain = [name for name in place.fine(names) if place.known.is_plain(name, len(names) <= _NAMED)][:_FEW_NAMES]
        if found or not plain or depth == 0 or clock.now() > until:
            return found
        return self.behind(place, "REWRITE_TAC [%s]" % "; ".join(plain), lambda inner: self._simplified(inner, names, until, depth))

    def _simplified(self, place: Place, names: Sequence[str], until: float, depth: int) -> Commands:
        instances = Instances(simplifying.rules(names, place.known), place.known)
        return (self._rewritten(place, instances, names, until, depth, _ROUNDS)
                or self.behind(place, "REPEAT STRIP_TAC", lambda inner: self._stripped(inner, instances, names, until, depth)))

    def _stripped(self, place: Place, instances: Instances, names: Sequence[str], until: float, depth: int) -> Commands:
        return self.close(place, names, until, 0) or self._rewritten(place, instances, names, until, depth, _ROUNDS)

    def _rewritten(self, place: Place, instances: Instances, names: Sequence[str], until: float, depth: int, rounds: int) -> Commands:
        """Puts one instance after the other into the goal."""
        for instance in instances.at(place.shown):
            if clock.now() > until:
                return None

            def then(inner: Place, instance: Instance = instance) -> Commands:
                return self._put(inner, instance, lambda other: self.close(other, names, until, 0) or (
                    self._rewritten(other, instances, names, until, depth, rounds - 1) if rounds else None))

            found = self._under_binders(place, instance, instances, names, until, depth, rounds) if instance.bound else self._with_conditions(
                place, instance.conditions, then, names, until, depth)
            if found:
                return found
        return None

    def _under_binders(self, place: Place, instance: Instance, instances: Instances, names: Sequence[str], until: float, depth: int, rounds: int) -> Commands:
        """Shows an instance for all values of what is bound outside of its part, and puts it into the goal."""
        try:
            said, taken = place.known.quoter.quote(instance.said), shaping.taken(instance.bound, place.known)
        except Unwritable:
            return None

        def shows(inner: Place) -> Commands:
            return self.behind(inner, taken[:-len(" THEN ")], lambda other: self._with_conditions(
                other, instance.conditions, lambda last: self._put(last, instance, lambda _: None), names, until, depth))

        def puts(inner: Place) -> Commands:
            return self.behind(inner, "ONCE_REWRITE_TAC [ASSUME %s]" % said, lambda other: self.close(other, names, until, 0) or (
                self._rewritten(other, instances, names, until, depth, rounds - 1) if rounds else None))

        turn = iter((shows, puts))
        return self.behind(place, "SUBGOAL_THEN %s ASSUME_TAC" % said, lambda inner: next(turn)(inner))

    def _with_conditions(self, place: Place, conditions: Sequence[Term], then: Callable[[Place], Commands], names: Sequence[str], until: float,
                         depth: int) -> Commands:
        """Shows conditions, which are assumed then."""
        if not conditions:
            return then(place)
        if place.shown.conclusion in conditions:
            return None
        turn = iter((lambda inner: self.close(inner, names, until, depth),
                     lambda inner: self._with_conditions(inner, conditions[1:], then, names, until, depth)))
        return self.behind(place, "SUBGOAL_THEN %s ASSUME_TAC" % place.known.quoter.quote(conditions[0]), lambda inner: next(turn)(inner))

    def _put(self, place: Place, instance: Instance, close: Callable[[Place], Commands]) -> Commands:
        return self.behind(place, "REWRITE_TAC [%s]" % _bare(instance.theorem), close)

    def simpler(self, place: Place, names: Sequence[str]) -> Commands:
        """Steps that make a goal simpler, or close it: by rules that end, by assumptions, and by rules whose conditions can be shown."""
        mark, texts, now = place.asker.count, [], place
        instances = Instances(simplifying.rules(names, place.known), place.known)
        try:
            for _ in range(_ROUNDS):
                found = self._rewriting(now, names) or self._conditional(now, instances, names)
                if not found or self.is_over():
                    break
                texts += found
                for step in found:
                    goals = now.after(step[len("e "):])
                if len(goals.goals) < place.count:
                    break
                now = place.at(goals)
        finally:
            place.asker.back(mark)
        return texts or None

    def is_over(self) -> bool:
        """Whether there is no time left."""
        return clock.now() > self.until

    def _rewriting(self, place: Place, names: Sequence[str]) -> Commands:
        """One step that rewrites a goal, by the rules alone that it needs for that."""
        rules = list(dict.fromkeys(place.known.simple(place.terms) + place.known.equations(names)))
        begun = "REWRITE_TAC [%s]" if place.is_growing or not place.shown.assumptions else "ASM_REWRITE_TAC [%s]"
        wanted = self._goals_behind(place, begun % "; ".join(rules))
        if wanted is None or wanted == place.goals:
            return None
        for name in list(rules):
            fewer = [other for other in rules if other != name]
            if not self.is_over() and self._goals_behind(place, begun % "; ".join(fewer)) == wanted:
                rules = fewer
        return ["e " + begun % "; ".join(rules)]

    @staticmethod
    def _goals_behind(place: Place, text: str) -> Optional[Goals]:
        """The goals behind a step, which is taken back."""
        mark = place.asker.count
        found = place.after(text)
        place.asker.back(mark)
        return found

    def _conditional(self, place: Place, instances: Instances, names: Sequence[str]) -> Commands:
        """Steps that put one instance of a rule into a goal, with those that show its conditions."""
        for instance in (one for one in instances.at(place.shown) if not one.bound):
            mark, texts, now = place.asker.count, [], place
            for condition in instance.conditions:
                text = "SUBGOAL_THEN %s ASSUME_TAC" % place.known.quoter.quote(condition)
                goals = now.after(text)
                shown = None if goals is None or condition == now.shown.conclusion else self.close(now.at(goals), names, self.part(0.2), 0)
                if not shown:
                    break
                texts += ["e " + text] + shown
                for step in shown:
                    goals = now.after(step[len("e "):])
                now = place.at(goals)
            else:
                step = "REWRITE_TAC [%s]" % _bare(instance.theorem)
                goals = now.after(step)
                if goals is not None and goals.goals[0:1] != now.goals.goals[0:1]:
                    place.asker.back(mark)
                    return texts + ["e " + step]
            place.asker.back(mark)
        return None

    # By the shape of equations

    def shaped(self, place: Place, names: Sequence[str], until: float) -> Commands:
        """Steps that rewrite by equations with variables for functions of what is bound, and close what is left; at once, or behind rewriting by the
        others."""
        every = shaping.shapes(names, place.known)
        if not every:
            return None
        plain = [name for name in place.fine(names) if place.known.is_plain(name, len(names) <= _NAMED)][:_FEW_NAMES]
        text = "REPEAT GEN_TAC" if not _is_stripped(place) else ""
        found = self._shaped(place, every, plain, until, _ROUNDS)
        for begun in [text] * bool(text) + ["REWRITE_TAC [%s] THEN BETA_TAC" % "; ".join(plain)] * bool(plain):
            if not found and clock.now() < until:
                found = self.behind(place, begun, lambda inner: self._shaped(inner, every, plain, until, _ROUNDS))
        return place.checked(found)

    def _shaped(self, place: Place, every: Sequence[shaping.Shape], plain: Sequence[str], until: float, rounds: int) -> Commands:
        """Puts one equation after the other into the goal."""
        for instance in shaping.instances(place.shown, every, place.known) if rounds else ():
            text = shaping.step(instance, place.known)
            found = text and clock.now() < until and self.behind(place, text, lambda inner: self.at_once(inner) or self.quick(
                inner, list(dict.fromkeys([*plain, *inner.known.simple(inner.terms)]))) or self._shaped(inner, every, plain, until, rounds - 1))
            if found:
                return found
        return None

    # By induction

    def by_induction(self, place: Place, names: Sequence[str], until: float) -> Commands:
        """Steps that begin an induction and close its cases: at first by simple means, then by more."""
        for case, share in ((self._simple_case, 0.5), (self._case, 1.0)):
            begun = clock.now()
            own = begun + share * (until - begun)
            for strips in ("REPEAT GEN_TAC", "", "REPEAT STRIP_TAC"):
                found = self.behind(place, strips, lambda inner: self._inductive(inner, case, names, own)) if strips else \
                    self._inductive(place, case, names, own) if _is_stripped(place) else None
                if found or clock.now() > until:
                    return found
        return None

    def _inductive(self, place: Place, case: Case, names: Sequence[str], until: float) -> Commands:
        """Begins each induction that may help."""
        beginnings = Beginnings(place.known.inductions, place.known.quoter, place.shown, place.known.recursion).all()
        for number, beginning in enumerate(beginnings):
            now = clock.now()
            own = now + (until - now) / (len(beginnings) - number)
            found = self.behind(place, beginning.step, lambda inner: case(inner, names, own))
            if found or clock.now() > until:
                return found
        return None

    def _simple_case(self, place: Place, names: Sequence[str], until: float) -> Commands:
        """Closes a case of an induction by rewriting, and what is left by a theorem or by arithmetic."""
        computing = place.known.simple(place.terms)
        every = list(dict.fromkeys(computing + place.known.equations(names)))
        found = self.at_once(place) or self.quick(place, computing) or self.quick(place, every)
        if found or clock.now() > until:
            return found
        text = "REPEAT STRIP_TAC THEN ASM_REWRITE_TAC [%s]" % "; ".join(computing)
        return self.behind(place, text, self._plain) or self._plain(place)

    def _plain(self, place: Place) -> Commands:
        """What closes a goal without a search in first order logic that is longer than a moment."""
        return self.exactly(place) or self.by_arithmetic(place) or self.search(place, [], min(self.until, clock.now() + _MOMENT))

    def _case(self, place: Place, names: Sequence[str], until: float) -> Commands:
        """Closes a case of an induction."""
        computing, equations = place.known.simple(place.terms), place.known.equations(names)
        found = self.at_once(place) or self.quick(place, list(dict.fromkeys(computing + equations)))
        every = list(dict.fromkeys(list(names) + computing))
        for rules in (computing, list(dict.fromkeys(computing + equations))):
            for begun in ("REPEAT STRIP_TAC THEN ASM_REWRITE_TAC [%s]", "REPEAT GEN_TAC THEN STRIP_TAC THEN ASM_REWRITE_TAC [%s]"):
                if found or clock.now() > until:
                    return found
                found = self.behind(place, begun % "; ".join(rules), lambda inner: self.close(inner, every, until, 1))
        return found or self.close(place, every, until, 1)


def _is_stripped(place: Place) -> bool:
    """Whether a goal begins with no `!`."""
    found = typed.quantified(place.shown.conclusion)
    return not found or found[0] != "!"


def _bare(theorem: str) -> str:
    """A theorem's expression as it stands in a list."""
    return theorem[1:-1] if theorem.startswith("(") else theorem
