"""Checks files by several servers side by side: each takes one file after the other, with those that it imports before it."""

from __future__ import annotations

import os
import queue
import threading
from dataclasses import dataclass, field
from typing import Callable, Dict, List, Optional, Sequence, Set, Tuple, Union

from holls import graph, protocol
from holls.difference import REMOVE, REPLACE
from holls.files import File
from holls.found import Finding
from holls.protocol import Made
from holls.server import Ended, Lines
from holls.session import AHEAD, Session
from holls.sweep import Sweep, is_known
from holls.theory import DROP

SERVED = frozenset((REPLACE, REMOVE, DROP))
Event = Union[Lines, Ended]


@dataclass(frozen=True)
class Basis:
    """On what a theorem rests, with its line."""

    line: int
    theorem: str
    items: Tuple[str, ...]


@dataclass(eq=False)
class Unit:
    """A file that is to be checked, and those that it imports, in order. `failure` says why nothing can be said of it.

    Units of one `group` hang together by imports, and all fit into one server; a unit without one may be taken by any.
    `recalled` is what there was to say of it when all of it was accepted before, where it isn't run again; `made` is then how many commands of a
    kind made what they are for.
    """

    file: File
    root: str
    imports: List[File]
    bases: List[Basis] = field(default_factory=list)
    failure: Optional[str] = None
    group: Optional[int] = None
    recalled: Optional[List[Finding]] = None
    made: Dict[str, int] = field(default_factory=dict)
    done: threading.Event = field(default_factory=threading.Event)

    def __post_init__(self) -> None:
        self.files = set(self.imports + [self.file])
        self._commands = sum(file.outline.commands for file in self.files)

    def cost(self, standing: Set[File]) -> int:
        """How many commands a server has to run in which some files stand already."""
        return self._commands - sum(file.outline.commands for file in standing if file in self.files)


class Pool:
    """The units that wait, and the servers that take them. A group is checked by one server, so that what it imports is run once."""

    def __init__(self, units: Sequence[Unit], program: List[str], seconds: int, with_bases: bool, jobs: Optional[int] = None) -> None:
        self.waiting = list(units)
        self.program, self.seconds, self.with_bases = program, seconds, with_bases
        self._lock = threading.Lock()
        self._taken: Dict[int, object] = {}
        number = min(len({id(unit) if unit.group is None else unit.group for unit in units}), jobs or max(1, os.cpu_count() or 1))
        self._threads = [threading.Thread(target=_Worker(self).run, daemon=True) for _ in range(number)]

    def start(self) -> None:
        """Begins, where all files are read: no two workers read one at once."""
        for unit in self.waiting:
            unit.file.notation
        for thread in self._threads:
            thread.start()

    def take(self, worker: object, root: str, standing: Set[File]) -> Optional[Unit]:
        """The unit that costs a worker least, where some files of a project stand: of several the first one. None where others have all."""
        with self._lock:
            free = [unit for unit in self.waiting if unit.group is None or self._taken.get(unit.group, worker) is worker]
            own = [unit for unit in free if unit.group is not None and unit.group in self._taken]
            unit = min(own or free, key=lambda one: one.cost(standing if one.root == root else set()), default=None)
            if unit is not None:
                self.waiting.remove(unit)
                if unit.group is not None:
                    self._taken[unit.group] = worker
            return unit


class _Worker:
    """One server at a time, and the files that stand in it."""

    def __init__(self, pool: Pool) -> None:
        self.pool = pool
        self.root = ""
        self.standing: List[File] = []
        self.session: Optional[Session] = None
        self.sweep = Sweep()
        self.events: "queue.SimpleQueue[Event]" = queue.SimpleQueue()
        self.unanswered = 0

    def run(self) -> None:
        """Until no unit waits."""
        while True:
            unit = self.pool.take(self, self.root, set(self.standing))
            if unit is None:
                break
            if len(unit.files) > protocol.THEORIES:
                unit.failure = "%s hangs together with %d files by imports, and a server holds %d theories" % (
                    unit.file.path, len(unit.files), protocol.THEORIES)
                unit.done.set()
                continue
            try:
                unit.failure = self._check(unit)
            except Exception as error:  # noqa: BLE001: told as this file's failure, and the others go on
                unit.failure = "an error in holls: %s: %s" % (type(error).__name__, error)
            if unit.failure and self.session:
                self.session.stop()
                self.session, self.standing = None, []
            unit.done.set()
        if self.session:
            self.session.stop()

    def _check(self, unit: Unit) -> Optional[str]:
        """Asks for all of a file. Answers why nothing can be said of it, or None."""
        if self.session is None:
            self.session = Session(self.pool.program, self.events, SERVED, self.sweep, lambda: None, self.pool.seconds, AHEAD)
        self.standing = joined(self.standing if self.root == unit.root else [], unit.imports + [unit.file])
        self.root = unit.root
        self.sweep.begin([unit.file])
        self.session.want([file.theory for file in self.standing])
        self._wait(lambda: self.session.is_idle and is_known([unit.file]))
        unknown: List[str] = []
        if self.pool.with_bases and not self.session.failure:
            self._ask_bases(unit, unknown)
            self._wait(lambda: self.unanswered == 0)
        lost = [_lost(unit.file)] + unknown
        return self.session.failure or next(filter(None, lost), None)

    def _wait(self, is_done: Callable[[], bool]) -> None:
        while not self.session.failure and not is_done():
            try:
                self.session.hear(self.events.get(timeout=self.session.deadline()))
            except queue.Empty:
                self.session.tick()

    def _ask_bases(self, unit: Unit, unknown: List[str]) -> None:
        for entry, command in zip(unit.file.entries(), unit.file.commands):
            if entry and isinstance(entry.report, Made) and command.word != "import":
                line = unit.file.lines.line(command.start) + 1
                for name in [made.split()[1] for made in entry.report.entries if made.startswith("thm ")]:
                    self._ask_basis(unit, line, name, unknown)

    def _ask_basis(self, unit: Unit, line: int, name: str, unknown: List[str]) -> None:
        def answer(reply: object) -> None:
            self.unanswered -= 1
            if isinstance(reply, protocol.Items) and reply.items is not None:
                unit.bases.append(Basis(line, name, reply.items))
            else:
                where = "%s:%d: on what %s rests isn't known" % (unit.file.path, line, name)
                unknown.append(where + ": hol_serve ended, or had no memory")

        self.unanswered += 1
        self.session.ask(protocol.line({"op": "basis", "theory": unit.file.name, "name": name}), answer)


def joined(standing: List[File], files: List[File]) -> List[File]:
    """The files that are to stand in a server, in order: these, and those that do where all are few enough."""
    kept = [file for file in standing if file not in files]
    return graph.ordered(kept + files) if kept and len(kept) + len(files) <= protocol.THEORIES else files


def _lost(file: File) -> Optional[str]:
    """The first command of which the server said nothing, in words."""
    for entry, command in zip(file.entries(), file.commands):
        if entry and isinstance(entry.report, protocol.Lost):
            line = file.lines.line(command.start) + 1
            return "%s:%d: nothing is known of this command: %s" % (file.path, line, entry.report.reason)
    return None


def units(files: Dict[str, List[File]]) -> List[Unit]:
    """The files of each project, in order, with what each imports."""
    made: List[Unit] = []
    for root, own in files.items():
        by_name = {file.name: file for file in own}
        fresh = [Unit(file, root, graph.all_imports(file, by_name)) for file in own]
        _group(fresh, len(made))
        made += fresh
    return made


def _group(units: Sequence[Unit], first: int) -> None:
    """Numbers the groups of a project's units, from a number on. One that is too large for a server isn't one."""
    parts: Dict[File, File] = {}

    def top(file: File) -> File:
        while parts.get(file, file) is not file:
            parts[file] = parts.get(parts[file], parts[file])
            file = parts[file]
        return file

    for unit in units:
        for other in unit.imports:
            parts[top(other)] = top(unit.file)
    members: Dict[File, List[Unit]] = {}
    for unit in units:
        members.setdefault(top(unit.file), []).append(unit)
    for number, together in enumerate(members.values(), first):
        if len(set().union(*(unit.files for unit in together))) <= protocol.THEORIES:
            for unit in together:
                unit.group = number
