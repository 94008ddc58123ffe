"""Steps for a goal by a search in first order logic, with some theorems."""

from __future__ import annotations

from typing import Callable, Dict, Iterator, List, NamedTuple, Optional, Sequence, Tuple

from holls.manual import PRELUDE
from holls.prover import clock, finding, named, preparing, reading, scope, scripts, trying, typed
from holls.prover.finding import Item
from holls.prover.place import Place, has
from holls.prover.scripts import Scribe, Step
from holls.prover.typed import Term, Type
from holls.prover.writing import Unwritable, type_text

_TRYING_SECONDS = 1.0
"""So long, at least, steps that were found are made fewer."""
_USING_SECONDS = 1.0
"""So long, at least, named functions are put into steps."""
_MEMBERSHIP_STEPS = "REWRITE_TAC [IN] THEN BETA_TAC THEN REWRITE_TAC [] THEN REPEAT GEN_TAC THEN REFL_TAC"
_CONDITIONAL_STEPS = "REPEAT STRIP_TAC THEN ASM_REWRITE_TAC [COND_CLAUSES]"


class _Given(NamedTuple):
    """A theorem at some types: what it says, and its expression; or what follows from it, with the steps that show it."""

    term: Term
    theorem: Optional[str]
    steps: str = ""


class FirstOrder:
    """A search at a goal. `is_cut` says that it had no more time; `refused`, how many proofs were found that can't be written or are refused."""

    def __init__(self, place: Place, until: float) -> None:
        self.place, self.until = place, until
        self.is_cut, self.refused = False, 0
        self._quoter = place.known.quoter

    def search(self, names: Sequence[str]) -> Optional[List[str]]:
        """The commands of a proof that takes some theorems."""
        items, first = _prepared(self.place.items, Scribe(self._quoter, None).assume)
        given = [one for name in names for one in self._given(items, name)] + self._of_terms(items)
        every = [Item(True, one.term, False) for one in given] + items
        search = finding.Search(self.place.known.constants, self.until)
        proof = search.prove(every)
        self.is_cut = self.is_cut or search.is_cut
        if proof is None:
            return None
        try:
            step = self._written(proof, items, given)
        except Unwritable:
            self.refused += 1
            return None
        step = Step(first, (step,)) if first else step
        self.refused += has(step, scripts.UNWRITTEN)
        return None if has(step, scripts.UNWRITTEN) else self._run(step, names)

    def _written(self, proof: finding.Proof, items: Sequence[Item], given: Sequence[_Given]) -> Step:
        """The steps of a proof."""
        scribe = Scribe(self._quoter, self.place.known.middle)
        theorems: Dict[Term, object] = {one.term: one.theorem or scribe.assume(one.term) for one in given}
        theorems.update({item.term: scribe.assume(item.term) for item in items if item.is_left})
        step = scribe.steps(proof, items[-1].term, theorems)
        for one in given:
            if one.theorem is None and (True, one.term) in proof.used:
                step = Step("SUBGOAL_THEN %s ASSUME_TAC" % self._quoter.quote(one.term), (Step(one.steps), step))
        return step

    def _of_terms(self, items: Sequence[Item]) -> List[_Given]:
        """What holds of the goal's conditionals, abstractions and choices."""
        return self._conditionals(items) + self._members(items) + self._choices(items)

    def _choices(self, items: Sequence[Item]) -> List[_Given]:
        """That what is chosen is as is wanted, where there is such a thing."""
        made = []
        names = {one[1] for item in items for one in typed.variables(item.term)}
        for said, outside, body in preparing.choices([item.term for item in items]):
            witness = ("v", "z", body[2])
            while witness[1] in names or witness in typed.variables(body):
                witness = ("v", witness[1] + "0", body[2])
            if names & {one[1] for one in outside}:
                continue
            try:
                calls = ["X_GEN_TAC %s" % self._quoter.quote(one) for one in outside]
                chosen = "(SPEC %s (SPEC %s (INST_TYPE [`:%s`,`:A`] SELECT_AX)))" % (
                    self._quoter.quote(witness), self._quoter.quote(body), type_text(body[2]))
                calls += ["DISCH_THEN (X_CHOOSE_TAC %s)" % self._quoter.quote(witness), "MP_TAC %s" % chosen, "BETA_TAC",
                          "DISCH_THEN MATCH_MP_TAC", "FIRST_ASSUM ACCEPT_TAC"]
            except Unwritable:
                continue
            made.append(_Given(said, None, " THEN ".join(calls)))
        return made

    def _conditionals(self, items: Sequence[Item]) -> List[_Given]:
        """What holds of the goal's conditionals."""
        if "COND_CLAUSES" not in self.place.known.scope.theorems:
            return []
        return [_Given(term, None, _CONDITIONAL_STEPS) for term in preparing.conditionals([item.term for item in items])]

    def _members(self, items: Sequence[Item]) -> List[_Given]:
        """What the elements of the goal's abstractions are, where it is about sets."""
        terms = [item.term for item in items]
        if not self.place.known.membership(terms):
            return []
        return [_Given(term, None, _MEMBERSHIP_STEPS) for term in preparing.members(terms)]

    def _given(self, items: Sequence[Item], name: str) -> Iterator[_Given]:
        """A theorem at the types at which the goal has its constants; a definition by an abstraction also at its arguments."""
        for types, statement in scope.instances(self.place.known.scope.theorems[name], [item.term for item in items]):
            pairs = "; ".join("`:%s`,`:%s`" % (type_text(ty), variable) for variable, ty in sorted(types.items()))
            applied = _applied(statement)
            if applied is not None:
                yield _Given(applied, None, "REPEAT GEN_TAC THEN PURE_REWRITE_TAC [%s] THEN BETA_TAC THEN REFL_TAC" % name)
            else:
                yield _Given(statement, "(INST_TYPE [%s] %s)" % (pairs, name) if pairs else name)

    def _run(self, step: Step, names: Sequence[str]) -> Optional[List[str]]:
        """Runs steps, and makes them fewer; those that are left are run once more."""
        place = self.place
        fine = place.fine(names)
        closers = trying.closers((), place.is_growing) + (trying.closers(fine, place.is_growing) if 0 < len(fine) <= 4 else [])
        mark = place.asker.count
        done = trying.Trial(place.asker, closers, clock.now() + _TRYING_SECONDS).run(step, place.count)
        place.asker.back(mark)
        if done is None:
            self.refused += 1
            return None
        return next((found for found in map(place.checked, map(scripts.commands, self._used(done) + self._variants(done))) if found), None)

    def _used(self, step: Step) -> List[Step]:
        """Shorter steps that do the same by named tactics."""
        if not self.place.functions.at(self.place.goals.goals[0]):
            return []
        until = clock.now() + _USING_SECONDS
        used = named.Uses(self.place.asker, self.place.functions, self.place.goals, until).shortened(step)
        return [] if used is None else self._variants(used)

    def _variants(self, step: Step) -> List[Step]:
        """Steps that do the same, perhaps: the excluded middle isn't shown where nothing is written by it."""
        assumed = Scribe(self._quoter, None).assume(scripts.MIDDLE)
        is_shown = step.text.startswith("SUBGOAL_THEN %s" % self._quoter.quote(scripts.MIDDLE)) and len(step.subs) == 2
        return [step.subs[1], step] if is_shown and not has(step.subs[1], assumed) else [step]


def _prepared(items: List[Item], assume: Callable[[Term], str]) -> Tuple[List[Item], str]:
    """A sequent that is reduced and has no `?!`, and the step that makes it so: what is assumed and isn't so goes into the goal first."""
    moved = [item for item in items[:-1] if _unfolded(item.term) != item.term]
    goal = items[-1].term
    for item in moved:
        goal = typed.mk_imp(item.term, goal)
    made = _unfolded(goal)
    parts = ["MP_TAC " + assume(item.term) for item in moved]
    if made != goal:
        has_unique = any(constant[1] == "?!" for constant in typed.constants(goal))
        parts.append("PURE_REWRITE_TAC [EXISTS_UNIQUE_DEF] THEN BETA_TAC" if has_unique else "BETA_TAC")
    return [item for item in items[:-1] if item not in moved] + [Item(False, made, True)], " THEN ".join(parts)


def _unfolded(term: Term) -> Term:
    """A term reduced, with its definition for `?!`."""
    unique = [constant for constant in typed.constants(term) if constant[1] == "?!"]
    for constant in unique:
        term = typed.replaced(term, constant, typed.inst_type(_UNIQUE, {"A": constant[2][1][1]}))
    return typed.reduced(term)


_UNIQUE: Term = typed.binary(reading.term(PRELUDE["EXISTS_UNIQUE_DEF"], reading.Signature()))[2]


def _applied(statement: Term) -> Optional[Term]:
    """Of a theorem `!x. c x = (\\y. t)` what it says at each y: `!x y. c x y = t`."""
    names: List[Tuple[str, Type]] = []
    while typed.quantified(statement) and typed.quantified(statement)[0] == "!":
        _, name, ty, statement = typed.quantified(statement)
        names.append((name, ty))
    sides = typed.binary(statement)
    if not sides or sides[0] != "=" or sides[2][0] != "l":
        return None
    _, left, right = sides
    while right[0] == "l":
        left, names = ("a", typed.lifted(left, 1), ("b", 0)), names + [(right[1], right[2])]
        right = right[3]
    types = tuple(ty for _, ty in reversed(names))
    ty = typed.type_of(right, types)
    made: Term = typed.apply(("c", "=", typed.fun(ty, typed.fun(ty, typed.BOOL))), left, right)
    for name, own in reversed(names):
        made = ("a", ("c", "!", typed.fun(typed.fun(own, typed.BOOL), typed.BOOL)), ("l", typed.Hint(name), own, made))
    return made
