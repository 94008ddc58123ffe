"""Theories: the commands that are wanted with what is known of them, and the texts that stand in the server."""

from __future__ import annotations

from dataclasses import dataclass, field
from typing import Dict, Iterable, List, NamedTuple, Optional, Sequence, Set, Tuple, Union

from holls import protocol
from holls.difference import INSERT, REMOVE, carry_out, difference, middle
from holls.unchanged import Before, Walk, all_known

NEW, DROP = "new_theory", "drop_theory"


BEFORES = 4
"""So many of a theory's texts, with their reports, are kept, so that what is undone is known at once."""

LEFT_OUT = ""
"""What stands in the place of a command that is left out: no command, which changes nothing."""


class Entry:
    """A command that is wanted: its text, and what is known of it. After an edit above it, a new entry takes its place.

    One that no server could run is left out: `strikes` counts the servers that it cost, and how often it found no memory.
    """

    __slots__ = ("text", "is_hidden", "report", "is_asked", "is_slow", "is_left_out", "strikes")

    def __init__(self, text: str, is_hidden: bool = False) -> None:
        self.text = text
        self.is_hidden = is_hidden
        self.report: Optional[Union[protocol.Report, protocol.Lost]] = None
        self.is_asked = self.is_slow = self.is_left_out = False
        self.strikes = 0

    @property
    def sent(self) -> str:
        """The text that is to stand in the server."""
        return LEFT_OUT if self.is_left_out else self.text


@dataclass(eq=False)
class Theory:
    """A theory as it is wanted, with the names of the theories that it imports. `edits` counts what changed what is known of it."""

    name: str
    entries: List[Entry] = field(default_factory=list)
    imports: Tuple[str, ...] = ()
    edits: int = 0
    _befores: List[Before] = field(default_factory=list)
    _walk: Optional[Walk] = None
    _is_revealed: bool = False
    _seen: int = 0

    @property
    def frontier(self) -> int:
        """Up to which place reports have to be asked for. Those below may still turn out to be what they were before an edit."""
        return self._walk.frontier if self._walk else len(self.entries)

    @property
    def is_settled(self) -> bool:
        """Whether all is known, and nothing has changed since `settle` saw that."""
        return bool(self._befores) and self._walk is None and not self._is_revealed

    def settle(self) -> None:
        """Takes notice of reports that have come: of some others it is known now that an edit didn't change them."""
        if self._walk:
            self._walk.go()
        if self.is_settled or self.frontier < len(self.entries) or not self._is_all_known():
            return
        if self._walk or not self._befores:
            self._befores, self._walk = [Before(self.entries)] + self._befores[:BEFORES - 1], None
        self._is_revealed = False

    def _is_all_known(self) -> bool:
        """Whether all is known. From the first command on: those of which something is known needn't be looked at again."""
        entries, most = self.entries, len(self.entries)
        while self._seen < most and (entries[self._seen].report is not None or entries[self._seen].is_hidden):
            self._seen += 1
        return self._seen == most and all_known(entries)

    def want(self, texts: Sequence[Tuple[str, bool]]) -> None:
        """Takes new commands, each with whether it is hidden. What is known above the first change stays."""
        now = [text for text, _ in texts]
        start = middle([entry.text for entry in self.entries], now).start
        for entry, (_, is_hidden) in zip(self.entries[:start], texts):
            if entry.is_hidden and not is_hidden:
                self._is_revealed, self._seen = True, 0  # Of a hidden one nothing was asked.
            entry.is_hidden = is_hidden
        if start == max(len(self.entries), len(texts)):
            return
        self.edits += 1
        self.entries[start:] = [Entry(text, is_hidden) for text, is_hidden in texts[start:]]
        self._seen = min(self._seen, start)
        before = next((one for one in self._befores if one.texts == now), next(iter(self._befores), None))
        self._walk = Walk(before, self.entries) if before else None

    def forget(self, start: int) -> None:
        """Forgets what is known from a place on."""
        self.edits += 1
        self._befores, self._walk, self._seen = [], None, min(self._seen, start)
        self.entries[start:] = [Entry(entry.text, entry.is_hidden) for entry in self.entries[start:]]


Job = Tuple[Theory, int]
"""A command that is asked for: its theory, and its place there."""


class Change(NamedTuple):
    """A change of the theories that stand: an edit of one, or with an op of NEW or DROP the theory itself."""

    op: str
    theory: str
    at: int = 0
    text: str = ""

    def line(self) -> bytes:
        """The request's line."""
        if self.op in (NEW, DROP):
            return protocol.line({"op": self.op, "name": self.theory, "at": self.at})
        return protocol.edit(self.op, self.theory, self.at, self.text)


class Standing:
    """The theories that stand in a server, in order, as its replies tell. `seconds` is how long it took to run their commands."""

    def __init__(self) -> None:
        self.theories: List[Tuple[str, List[str]]] = []
        self.seconds = 0.0
        self._seconds: Dict[str, List[float]] = {}
        self._same: Dict[str, Tuple[Theory, int]] = {}
        self._by_name: Dict[str, List[str]] = {}

    def apply(self, change: Change, seconds: float = 0.0) -> None:
        """Takes a change that the server carried out in so many seconds. They count where they were spent on its own command alone."""
        self._same.pop(change.theory, None)
        if change.op == NEW:
            self._by_name[change.theory] = []
            self.theories.insert(change.at, (change.theory, self._by_name[change.theory]))
            self._seconds[change.theory] = []
        elif change.op == DROP:
            self.theories = [theory for theory in self.theories if theory[0] != change.theory]
            self.seconds -= sum(self._seconds.pop(change.theory))
            del self._by_name[change.theory]
        else:
            self._count(change, seconds)
            carry_out(self._texts(change.theory), change.op, change.at, change.text)

    def _count(self, change: Change, seconds: float) -> None:
        """Keeps what each command took when it was put at its theory's end."""
        took = self._seconds[change.theory]
        if change.op == INSERT:
            took.insert(change.at, seconds if change.at == len(took) else 0.0)
            self.seconds += took[change.at]
        elif change.op == REMOVE:
            self.seconds -= took.pop(change.at)

    def _texts(self, name: str) -> List[str]:
        return self._by_name.get(name, [])

    def look_again(self) -> None:
        """A command is left out from now on: what stood as it was wanted may not."""
        self._same.clear()

    def seconds_before(self, change: Change) -> float:
        """How long it took to run what stands before a change's command."""
        names = [name for name, _ in self.theories]
        before = names[:names.index(change.theory)] if change.theory in names else names
        own = self._seconds.get(change.theory, [])[:change.at]
        return sum(sum(self._seconds[name]) for name in before) + sum(own)

    def is_last(self, change: Change, wanted: Sequence[Theory]) -> bool:
        """Whether nothing stands that a change could affect but its own command: nothing behind it, and no theory that imports it."""
        names = [name for name, _ in self.theories]
        if change.op not in (NEW, DROP) and change.at < len(self._texts(change.theory)) - (change.op != INSERT):
            return False
        behind = self.theories[names.index(change.theory) + 1 if change.theory in names else change.at:]
        imports = {theory.name: theory.imports for theory in wanted}
        return not any(texts and change.theory in _imported(name, imports) for name, texts in behind)

    def changes(self, wanted: Sequence[Theory], served: Iterable[str]) -> Optional[List[Change]]:
        """What leads to the wanted theories by what is served; None where only a fresh server does.

        A theory is dropped after those behind it, and edited after those before it: so that little is run that isn't to stand.
        """
        served = list(served)
        names = [theory.name for theory in wanted]
        imports = {theory.name: theory.imports for theory in wanted}
        below = {name: _imported(name, imports) for name in names}
        early = _early([name for name, _ in self.theories], below)
        if early and DROP not in served:
            return None
        gone = early.union(name for name, _ in self.theories if name not in names) if DROP in served else early
        dropped = [Change(DROP, name) for name, _ in reversed(self.theories) if name in gone]
        kept = {name: texts for name, texts in self.theories if name not in gone}
        if len(set(kept) | set(names)) > protocol.THEORIES:
            return None
        made = _made(list(kept), wanted)
        edits: List[Change] = []
        for theory in wanted:
            if theory.name in kept and self._same.get(theory.name) == (theory, theory.edits):
                continue
            more = difference(kept.get(theory.name, []), [entry.sent for entry in theory.entries], served)
            if more is None:
                return None
            if not more and theory.name in kept:
                self._same[theory.name] = theory, theory.edits
            edits += [Change(edit.op, theory.name, edit.at, edit.text) for edit in more]
        return dropped + made + edits


def _imported(name: str, imports: Dict[str, Tuple[str, ...]]) -> Set[str]:
    """The names of the theories that one imports, also by way of others."""
    found: Set[str] = set()
    waiting = [name]
    while waiting:
        new = set(imports.get(waiting.pop(), ())) - found
        found |= new
        waiting += new
    return found


def _early(standing: List[str], below: Dict[str, Set[str]]) -> Set[str]:
    """The theories that stand before one that they import, perhaps by way of others that are still to be made: they are to be made anew."""
    places = {name: at for at, name in enumerate(standing)}
    return {
        name for at, name in enumerate(standing)
        if any(places.get(other, at) > at for other in below.get(name, ()))}


def _made(standing: List[str], wanted: Sequence[Theory]) -> List[Change]:
    """The theories that are still to be made, each behind all that it imports, and before those wanted behind it as far as that goes.

    Nothing that stands comes before what it imports, by way of others too; so what imports a theory stands behind all that this imports.
    """
    made: List[Change] = []
    for number, theory in enumerate(wanted):
        if theory.name in standing:
            continue
        later = [standing.index(other.name) for other in wanted[number + 1:] if other.name in standing]
        behind = [standing.index(name) + 1 for name in theory.imports if name in standing]
        at = max([min(later, default=len(standing))] + behind)
        standing.insert(at, theory.name)
        made.append(Change(NEW, theory.name, at))
    return made
