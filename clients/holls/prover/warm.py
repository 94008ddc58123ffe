"""A server for searches that stays: the theories stand in it from one search to the next, and what is known of their theorems is kept."""

from __future__ import annotations

import threading
from functools import cached_property
from typing import Callable, Dict, FrozenSet, List, NamedTuple, Optional, Sequence, Tuple

from holls import graph, protocol
from holls import names as names_of
from holls.files import File
from holls.protocol import Goals, Made, Refusal
from holls.prover import arithmetic, clock, reading, trying
from holls.prover.asking import Asker, Silent
from holls.prover.finder import Finder, Tell
from holls.prover.knowledge import Knowledge
from holls.prover.premises import Premises
from holls.prover.scope import ARITHMETIC, Scope
from holls.prover.shown import Reader
from holls.prover.typed import Term

_START_SECONDS = 120.0
MOST_THEORIES = protocol.THEORIES - 4
"""So many theories stand beside the copy in which steps are tried."""
_MOST_NEW = 3
"""So many theories more are imported for a proof at most."""
_CHOSEN = 16
_SHARE, _SHARE_WITHOUT_ARITHMETIC = 0.6, 0.25
"""The part of the time for the theories that are imported; and where the goal is about numbers, and the theory of arithmetic isn't."""
_LEAST_SECONDS = 1.0
_MOST_SCOPES = 200
_MOST_ASKED = 100
"""Of so many commands the reports are asked for; of more the list of all theorems is."""
_Imports = Tuple[Tuple[str, int], ...]
_STEPS = ("e", "b", "r")
"""The commands that make nothing that stands behind a proof."""
_MORE = 0.3
"""The part of a search's time in which other proofs are looked for beside the first one."""


class NoGoal(Exception):
    """No goal is open at the place; the text says why."""


class Answer(NamedTuple):
    """The steps that close a goal, None where none were found; the command behind which they belong; words on why there are none; the theories
    that have to be imported before the proof; and other steps that close it, the shortest first."""

    steps: Optional[List[str]]
    number: int
    why: str = ""
    imports: Tuple[str, ...] = ()
    others: Tuple[Tuple[str, ...], ...] = ()


class Others:
    """The theories that a file might import, by their names; and their files, each behind its imports, which are read where a search needs them."""

    def __init__(self, names: FrozenSet[str] = frozenset(), read: Callable[[], List[File]] = list) -> None:
        self.names, self._read = names, read

    @cached_property
    def files(self) -> List[File]:
        """The files."""
        return self._read() if self.names else []


class Request(NamedTuple):
    """A goal that is open behind a command of a file: the first one. `imports` are the files that the file imports, in order, `others` those that it
    might import. Of the theorems `names` alone are to be taken first, if any are given; by arithmetic alone is tried
    where that is said, and with `is_simplifying` what makes the goal simpler is answered, whether it closes it or not. With `first` other proofs are
    looked for too, and it is told the first one at once."""

    file: File
    number: int
    imports: Sequence[File]
    others: Others = Others()
    names: Optional[Sequence[str]] = None
    seconds: float = 5.0
    is_arithmetic: bool = False
    is_simplifying: bool = False
    tell: Tell = lambda name: None
    first: Optional[Callable[[Answer], None]] = None


class Warm:
    """Searches, one after the other. Silent where the program ends or doesn't answer; the next search begins another one."""

    def __init__(self, program: Sequence[str]) -> None:
        self.program = list(program)
        self._lock = threading.Lock()
        self._asker: Optional[Asker] = None
        self._standing: List[Tuple[str, List[str]]] = []
        self._scopes: Dict[_Imports, Scope] = {}
        self._known: Tuple[object, Optional[Knowledge]] = None, None
        self._theorems: Optional[_Accepted] = None
        self._above: Optional[_Above] = None
        self._copies: Dict[str, Tuple[object, File]] = {}

    def stop(self) -> None:
        """Ends the server."""
        with self._lock:
            self._forget()

    def _forget(self) -> None:
        if self._asker is not None:
            self._asker.stop()
        self._asker, self._standing = None, []

    def copy(self, file: File) -> File:
        """A file that is imported, as it is now: one and the same copy for all searches until it changes."""
        kept = self._copies.get(file.path)
        if kept is None or kept[0] is not file.notation:
            if len(self._copies) > _MOST_SCOPES:
                self._copies.clear()
            self._copies[file.path] = kept = file.notation, file.copy()
        return kept[1]

    def prepare(self, imports: Sequence[File]) -> None:
        """Has theories stand, so that a search begins at once, unless it has something to do already. Silent as for `search`."""
        if not self._lock.acquire(blocking=False):
            return
        try:
            self._ready(imports)
            if self._known[1] is None:
                self._known = None, Knowledge(self._imported(imports))
        except Silent:
            self._forget()
            raise
        finally:
            self._lock.release()

    def search(self, request: Request) -> Answer:
        """The answer to a request. Cancelled where `tell` raises it; NoGoal where no goal is open there; Unprovable where a theorem that is named
        doesn't stand."""
        with self._lock:
            try:
                return self._search(request)
            except Silent:
                self._forget()
                raise

    def _search(self, request: Request) -> Answer:
        asker = self._ready(request.imports)
        slots = [request.file.slot(at) for at in range(request.number + 1)]
        last = max((slot for slot in slots if slot is not None), default=-1)
        texts = [entry.sent for entry in request.file.theory.entries[:last + 1]]
        asker.copy(texts)
        try:
            goals, accepted = _open_goals(asker, request.file, request.number)
            written = names_of.quoted(request.file.commands[request.file.proof_begin(accepted)])
            first = request.file.proof_begin(accepted)
            begin = request.file.slot(first)
            known = self._knowledge(request, first, texts if begin is None else texts[:begin])
            standing = known.scope
            place = _Place(asker, standing, goals, written, texts, begin or 0)
            until = clock.now() + request.seconds
            finder = Finder(asker, standing, goals, written, clock.now() + self._share(request, place) * request.seconds, known)
            finder.tell = request.tell
            is_without = request.is_arithmetic and arithmetic.NEEDED not in standing.theorems and _has_arithmetic(request)
            found = finder.simplify() if request.is_simplifying else None if is_without else \
                finder.find_numbers() if request.is_arithmetic else finder.find(request.names)
            others = self._others(request, finder, found, accepted)
        finally:
            asker.forget()
        more = [] if found or request.is_simplifying or request.names or finder.counterexample is not None else self._further(request, place)
        imported: Tuple[str, ...] = ()
        if more:
            found, imported = self._with_more(place, more, request, until)
        return Answer(found, accepted, "" if found else finder.why_none(request.seconds), imported, others)

    @staticmethod
    def _others(request: Request, finder: Finder, found: Optional[List[str]], accepted: int) -> Tuple[Tuple[str, ...], ...]:
        """Other proofs than the first one, which is told."""
        if not found or request.first is None or request.is_simplifying:
            return ()
        request.first(Answer(found, accepted))
        return tuple(map(tuple, finder.others(found, _MORE * request.seconds)))

    def _knowledge(self, request: Request, first: int, above: Sequence[str]) -> Knowledge:
        """What is known of the theorems that stand at a request's place: those of the imports and of the commands above its proof. It is kept for those
        behind which nothing more is made."""
        imports = _key(request.imports)
        theorems = self._accepted(imports, above)
        made = [text for text in above if text.split(" ", 1)[0] not in _STEPS]
        key = imports, hash(tuple(made)), tuple(request.file.notation.simple), theorems
        if self._known[1] is None or self._known[0] != key:
            standing = self._read_above(request, first).copy()
            standing.keep(theorems)
            self._known = key, Knowledge(standing)
        return self._known[1]

    def _accepted(self, imports: _Imports, above: Sequence[str]) -> FrozenSet[str]:
        """The theorems that stand behind commands of the copy: of those behind which they were asked for the last time only the others are."""
        last = self._theorems
        number = len(last.texts) if last is not None and last.imports == imports and list(above[:len(last.texts)]) == last.texts else 0
        if not number or len(above) - number > _MOST_ASKED or any(text.startswith("import") for text in above[number:]):
            found = frozenset(self._asker.theorems())
        else:
            reports = [self._asker.report(at) for at in range(number, len(above))]
            entries = [entry.split(" ", 2) for report in reports if isinstance(report, Made) for entry in report.entries]
            found = last.names.union(words[1] for words in entries if words[0] == "thm")
        self._theorems = _Accepted(imports, list(above), found)
        return found

    def _read_above(self, request: Request, first: int) -> Scope:
        """What the imports and the commands above a proof make; what was read for a proof above it isn't read again."""
        imports, texts = _key(request.imports), [command.text for command in request.file.commands[:first]]
        last = self._above
        number = len(last.texts) if last is not None and last.imports == imports and texts[:len(last.texts)] == last.texts else 0
        made = (last.scope if last is not None and number else self._imported(request.imports)).copy()
        made.add_file(request.file, first, number)
        self._above = _Above(imports, texts, made)
        return made

    @staticmethod
    def _share(request: Request, place: "_Place") -> float:
        """The part of the time for what is imported."""
        if not request.others.names or request.names:
            return 1.0
        is_lacking = arithmetic.NEEDED not in place.standing.theorems and _has_arithmetic(request) and arithmetic.concerns(place.terms())
        return _SHARE_WITHOUT_ARITHMETIC if is_lacking else _SHARE

    def _ready(self, files: Sequence[File]) -> Asker:
        """A server in which theories stand; those that stood there before, and are the same still, aren't run again."""
        wanted = {file.name: [entry.sent for entry in file.theory.entries] for file in files[:MOST_THEORIES]}
        if self._asker is None:
            self._asker, self._standing = Asker(self.program, _START_SECONDS), []
        same = next((at for at, (name, texts) in enumerate(self._standing) if wanted.get(name, texts) != texts), len(self._standing))
        if len(self._standing[:same]) + sum(name not in dict(self._standing[:same]) for name in wanted) > MOST_THEORIES:
            same = 0
        while len(self._standing) > same:
            self._asker.forget()
            self._standing.pop()
        names = {name for name, _ in self._standing}
        for name, texts in wanted.items():
            if name not in names:
                self._asker.add(name, texts)
                self._standing.append((name, texts))
        return self._asker

    def _imported(self, files: Sequence[File]) -> Scope:
        """What some files make. Each is read once, as long as it and those before it are the same."""
        key = _key(files)
        if key not in self._scopes:
            made = self._imported(files[:-1]).copy() if files else Scope()
            if files:
                made.add_file(files[-1])
            if len(self._scopes) > _MOST_SCOPES:
                self._scopes.clear()
            self._scopes[key] = made
        return self._scopes[key]

    # Theories that aren't imported

    def _further(self, request: Request, place: "_Place") -> List[str]:
        """The theories that aren't imported and have theorems that are likely to help, the likeliest first."""
        if not request.others.files:
            return []
        terms, found = place.terms(), {}
        if arithmetic.concerns(terms) and any(file.name == ARITHMETIC for file in request.others.files):
            found[ARITHMETIC] = None
        if not request.is_arithmetic:
            every = self._imported(list(request.imports) + request.others.files)
            theory = {one.name: file.name for file in request.others.files for one in names_of.written(file) if one.name in every.theorems}
            premises = Premises([every.fact(name) for name in every.theorems], frozenset(reading.PRELUDE))
            found.update(dict.fromkeys(theory[name] for name in premises.chosen(terms, _CHOSEN) if name in theory))
        return list(found)[:_MOST_NEW]

    def _with_more(self, place: "_Place", more: Sequence[str], request: Request, until: float) -> Tuple[Optional[List[str]], Tuple[str, ...]]:
        """Steps behind more imports, and those of these that they need."""
        files = _behind_imports(more, request)
        asker = self._ready(list(request.imports) + [file for file in files if file not in request.imports])
        asker.copy(place.with_imports(more))
        try:
            report = asker.report(asker.count - 1)
            if not isinstance(report, Goals) or not report.goals:
                return None, ()
            standing = self._imported(list(request.imports) + [file for file in files if file not in request.imports]).copy()
            standing.add_file(request.file, request.number + 1)
            standing.keep(frozenset(asker.theorems()))
            finder = Finder(asker, standing, report, place.written, max(until, clock.now() + _LEAST_SECONDS))
            finder.tell = lambda name: request.tell("%s, importing %s" % (name, " ".join(more)))
            found = finder.find_numbers() if request.is_arithmetic else finder.find(None)
        finally:
            asker.forget()
        return (found, self._needed(place, more, found)) if found else (None, ())

    @staticmethod
    def _needed(place: "_Place", more: Sequence[str], steps: Sequence[str]) -> Tuple[str, ...]:
        """The imports without which steps don't close the goal."""
        needed = list(more)
        for name in list(more):
            fewer = [other for other in needed if other != name]
            place.asker.copy(place.with_imports(fewer))
            report = place.asker.report(place.asker.count - 1)
            if isinstance(report, Goals) and report.goals and trying.check(place.asker, steps, report):
                needed = fewer
            place.asker.forget()
        return tuple(needed)


class _Above(NamedTuple):
    """What some imports and the first commands of a file make."""

    imports: _Imports
    texts: List[str]
    scope: Scope


class _Accepted(NamedTuple):
    """The theorems that stand behind some imports and the first commands of a file, as they are sent."""

    imports: _Imports
    texts: List[str]
    names: FrozenSet[str]


class _Place(NamedTuple):
    """A goal in a copy: the commands up to it, and the place among them of the one that begins its proof."""

    asker: Asker
    standing: Scope
    goals: Goals
    written: str
    texts: List[str]
    begin: int

    def terms(self) -> List[Term]:
        """The goal's terms; none where they can't be read."""
        try:
            shown = Reader(self.standing.signature).read(self.goals.goals[0])
        except (reading.Unreadable, RecursionError):
            return []
        return list(shown.assumptions) + [shown.conclusion]

    def with_imports(self, names: Sequence[str]) -> List[str]:
        """The commands with more imports before the proof."""
        return self.texts[:self.begin] + ["import " + name for name in names] + self.texts[self.begin:]


def _key(files: Sequence[File]) -> _Imports:
    """What decides what some files make."""
    return tuple((file.name, hash(tuple(entry.sent for entry in file.theory.entries))) for file in files)


def _has_arithmetic(request: Request) -> bool:
    """Whether the theory of arithmetic could be imported."""
    return ARITHMETIC in request.others.names


def _behind_imports(names: Sequence[str], request: Request) -> List[File]:
    """The files of some theories and of those that they import, in order."""
    every = list(request.imports) + request.others.files
    by_name = {file.name: file for file in every}
    wanted = {file.name for name in names for file in graph.ordered_from(by_name[name], by_name)}
    return [file for file in every if file.name in wanted]


def _open_goals(asker: Asker, file: File, number: int) -> Tuple[Goals, int]:
    """The goals that are open behind a command, over refused ones, and the command that they stand behind."""
    for at in range(number, -1, -1):
        slot = file.slot(at)
        report = None if slot is None else asker.report(slot)
        if slot is None or isinstance(report, Refusal):
            continue
        if isinstance(report, Goals) and report.goals:
            return report, at
        break
    raise NoGoal("no goal is open there")
