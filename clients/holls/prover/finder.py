"""From an open goal to steps that close it: the ways to a proof, in the order in which they are tried, each for a part of the time."""

from __future__ import annotations

from typing import Any, Callable, Dict, Iterator, List, Optional, Sequence, Tuple

from holls.protocol import Goals
from holls.prover import arithmetic, clock, counterexamples, joining, models, named, reading, retyping, scope, tables, trying, typed
from holls.prover.asking import Asker
from holls.prover.knowledge import Knowledge
from holls.prover.place import Place
from holls.prover.reading import Unreadable
from holls.prover.scope import Scope
from holls.prover.shown import Reader, stripped
from holls.prover.typed import Term
from holls.prover.ways import Way, Ways

_MODEL_SECONDS = 0.03
"""So long small models are searched in which the goal is false."""
_FALSE = 0.1
"""The part of the time in which values are searched for which the goal is false."""
_PART = 0.4
"""The part of the time for each part of a conjunction."""
_ARITHMETIC = "arithmetic"
_USUAL_SECONDS = 5.0
_FEW = 24
_CHOSEN = (6, 14, 36)
"""So many theorems are chosen, one time after the other."""
_MOST_OTHERS = 3
"""So many proofs more are looked for beside the one that is found first."""


Tell = Callable[[str], None]
"""Is told what is tried next; may raise Cancelled."""


class Cancelled(Exception):
    """Nobody wants the search any more."""


class Unprovable(Exception):
    """What was to be taken for a proof can't be; the text says why."""


class Finder:
    """Finds steps for the first goal of a proof in a server, by what stands there. `written` is the text of the statement that is proved.

    `tell` is told each way before it is tried. What it comes to nothing by: `counterexample`, what variables may be so that the goal is false; `is_too_deep`, whether terms were nested too
    deeply for the search to read them or to come to its end; and what `ways` say.
    """

    def __init__(self, asker: Asker, standing: Scope, goals: Goals, written: str, until: float, known: Optional[Knowledge] = None) -> None:
        self.asker, self.scope, self.until, self.goals = asker, standing, until, goals
        self.known = known or Knowledge(standing)
        self.functions = named.Functions(standing.functions, standing.concerns)
        self.ways = Ways(until)
        self._scale = (until - clock.now()) / _USUAL_SECONDS
        self.is_too_deep = False
        self.tell: Tell = lambda name: None
        self.counterexample: Optional[Dict[str, Any]] = None
        self.open: List[str] = []
        self._left: Iterator[Way] = iter(())
        statement: Optional[Term] = None
        try:
            statement = reading.term(written, standing.signature, ty=typed.BOOL)
        except (Unreadable, RecursionError):
            pass
        self.reader = Reader(standing.signature, statement)

    def find(self, theorems: Optional[Sequence[str]]) -> Optional[List[str]]:
        """The texts of `e` commands that close the goal; None where none were found in time, or terms are too deep for that."""
        for name in theorems or ():
            if name not in self.scope.theorems:
                raise Unprovable("no theorem %s stands here, or its statement can't be read" % name)
        return self._first(lambda place: self._ways(place, list(theorems or ())))

    def find_numbers(self) -> Optional[List[str]]:
        """As `find`, by arithmetic alone. Unprovable where the theory isn't imported on which it rests."""
        if arithmetic.NEEDED not in self.scope.theorems:
            raise Unprovable("arithmetic rests on the theory %s: import it" % scope.ARITHMETIC)
        return self._first(lambda place: iter((Way(_ARITHMETIC, lambda: self.ways.by_arithmetic(place)),)))

    def simplify(self) -> Optional[List[str]]:
        """Commands that make the goal simpler, or close it; None where nothing does."""
        return self._first(lambda place: iter((Way("simplifying", lambda: self.ways.simpler(
            place, list(dict.fromkeys(self.known.declared(place.terms) + self.known.premises.chosen(place.terms, _CHOSEN[-1]))))),)))

    def _first(self, ways: Callable[[Place], Iterator[Way]]) -> Optional[List[str]]:
        """What the first way finds that finds anything, unless the goal is false."""
        try:
            place = Place(self.asker, self.known, self.functions, self.reader, self.goals)
            self.open = retyping.left_open(place.terms)
            if self._is_false(place):
                return None
            self._left = ways(place)
            return self._next()
        except (Unreadable, RecursionError):
            self.is_too_deep = True
        return None

    def _next(self) -> Optional[List[str]]:
        """What the next way finds that finds anything in time."""
        for way in self._left:
            self.tell(way.name)
            found = way.run()
            if found or clock.now() >= self.until:
                return found
        return None

    def others(self, found: List[str], seconds: float) -> List[List[str]]:
        """Other proofs than the one that was found, by the ways that weren't tried yet, as far as they come in so many seconds, the shortest first; and it
        as one step, where it has several."""
        self.until = self.ways.until = clock.now() + seconds
        every: Dict[Tuple[str, ...], None] = {tuple(found): None}
        try:
            while len(every) <= _MOST_OTHERS and clock.now() < self.until:
                more = self._next()
                if not more:
                    break
                every.setdefault(tuple(more))
        except (Unreadable, RecursionError):
            pass
        made = [list(one) for one in every][1:]
        one = joining.as_one(self.asker, found, self.goals)
        return sorted(made + ([[one]] if one else []), key=trying.length)

    def why_none(self, seconds: float) -> str:
        """Why none was found in so many seconds: words that go on after "none found"."""
        if self.counterexample is not None:
            values = ", ".join("%s = %s" % (name, ("T" if value else "F") if isinstance(value, bool) else value)
                               for name, value in self.counterexample.items())
            return ": the goal is false" + (" for " + values if values else "")
        if self.ways.refused and self.open:
            is_one = len(self.open) == 1
            return ": the type%s of %s %s left open: give %s" % (
                "" if is_one else "s", " and ".join(self.open), "is" if is_one else "are", "it one" if is_one else "them some")
        if clock.now() >= self.until:
            return " within %g seconds" % seconds
        if self.is_too_deep:
            return ": the goal is nested too deeply for this search"
        return ": each way to search had its part of the %g seconds" % seconds if self.ways.is_cut else ": all that this search tries was tried"

    def _ways(self, place: Place, names: List[str]) -> Iterator[Way]:
        """The ways to a proof, by theorems that are named where some are: short ones first, then each for longer."""
        ways, soon = self.ways, self._soon
        yield Way("a theorem that says it", lambda: ways.exactly(place))
        yield Way(_ARITHMETIC, lambda: ways.by_arithmetic(place))
        yield Way("a short step", lambda: ways.at_once(place))
        yield Way("the order of operands", lambda: ways.reordered(place))
        if names:
            yield Way("rewriting with what is named", lambda: ways.quick(place, names))
            yield Way("rewriting by shape", lambda: ways.shaped(place, names, soon(0.5)))
            yield Way("logic with what is named", lambda: ways.search(place, names, soon(0.5)))
            yield Way("elements and definitions", lambda: ways.prepared(place, names, names, soon(0.6)))
            yield Way("conditional rewriting", lambda: ways.simplified(place, names, soon(0.6)))
            yield Way("logic with what is named", lambda: ways.search(place, names, soon(1.5)))
        atoms = tables.atoms(place.items)
        if len(atoms) <= tables.MOST_ATOMS:
            yield Way("a truth table", lambda: ways.table(place, atoms) if tables.is_valid(place.items, atoms) else None)
        is_of_sets = not names and bool(place.known.membership(place.terms))
        if is_of_sets:
            yield Way("elements and definitions", lambda: ways.prepared(place, [], [], soon(0.5)))
        yield Way("logic alone", lambda: ways.search(place, [], soon(0.2)))
        if _is_conjunction(place.shown.conclusion):
            yield Way("each part by itself", lambda: self._by_parts(place, names))
        yield Way("a theorem that leaves less", lambda: ways.exactly(place, False))
        if not is_of_sets:
            yield Way("elements and definitions", lambda: ways.prepared(place, [], [], soon(0.5)))
        yield from self._by_premises(place, names)
        yield Way("logic alone", lambda: ways.search(place, names, self.until))

    def _by_parts(self, place: Place, names: List[str]) -> Optional[List[str]]:
        """Steps for each part of a conjunction, each by all ways."""
        def close(inner: Place) -> Optional[List[str]]:
            part = Finder(self.asker, self.scope, inner.goals, "", self.ways.part(_PART), self.known)
            part.reader, part.tell = self.reader, self.tell
            return part.find(names)

        return self.ways.behind(place, "CONJ_TAC" if typed.binary(place.shown.conclusion) else "REPEAT GEN_TAC THEN CONJ_TAC", close)

    def _by_premises(self, place: Place, names: List[str]) -> Iterator[Way]:
        """The ways by theorems that are chosen, and by induction."""
        ways, soon = self.ways, self._soon
        defining = [name for name in self.scope.defining(place.terms) if self.scope.fact(name).is_closed]
        chosen = list(dict.fromkeys(self.known.declared(place.terms) + self.known.premises.chosen(place.terms, _CHOSEN[-1])))
        if not chosen and not defining:
            return
        every = list(dict.fromkeys(names + chosen))
        simple = list(dict.fromkeys(self.known.simple(place.terms) + self.known.equations(every[:_FEW])))
        yield Way("rewriting with definitions", lambda: ways.quick(place, list(dict.fromkeys(names + defining))))
        yield Way("rewriting with equations", lambda: ways.quick(place, simple))
        for number in _CHOSEN:
            yield Way("logic with %d theorems" % number, lambda number=number: ways.search(place, every[:number], soon(0.15)))
        if self.known.is_inductive(place.terms):
            yield Way("induction", lambda: ways.by_induction(place, every[:_CHOSEN[1]], soon(0.8)))
        yield Way("conditional rewriting", lambda: ways.simplified(place, every, soon(0.4)))
        yield Way("rewriting by shape", lambda: ways.shaped(place, every[:_FEW], soon(0.2)))
        for number in _CHOSEN[1:]:
            yield Way("logic with %d theorems" % number, lambda number=number: ways.search(place, every[:number], soon(0.5)))
        yield Way("elements and definitions", lambda: ways.prepared(place, [], every[:_CHOSEN[1]], soon(0.5)))
        yield Way("induction", lambda: ways.by_induction(place, every[:_CHOSEN[1]], soon(1.0)))
        yield Way("logic with %d theorems" % len(every), lambda: ways.search(place, every, ways.part(0.5)))

    def _soon(self, seconds: float) -> float:
        """The moment after a part of the time, said in seconds of the time that is usual."""
        return min(self.until, clock.now() + seconds * self._scale)

    def _is_false(self, place: Place) -> bool:
        """Whether the goal is false: for small values, or for truth values of parts that don't hang together."""
        found = counterexamples.counterexample(place.shown, self.ways.part(_FALSE))
        if found is not None:
            self.counterexample = dict(found)
            return True
        atoms = tables.atoms(place.items)
        is_open = len(atoms) <= tables.MOST_ATOMS and not tables.is_valid(place.items, atoms)
        is_false = is_open and tables.are_independent(atoms)
        self.counterexample = tables.counterexample(place.items, atoms) if is_false else None
        if self.counterexample is not None or not is_open and len(atoms) <= tables.MOST_ATOMS:
            return is_false
        model = models.countermodel(place.shown, min(self.ways.part(_FALSE), clock.now() + _MODEL_SECONDS))
        self.counterexample = None if model is None else dict(model)
        return is_false or model is not None


def _is_conjunction(term: Term) -> bool:
    """Whether a formula is a conjunction behind its quantifiers."""
    sides = typed.binary(stripped(term))
    return sides is not None and sides[0] == "/\\"
