"""The code actions that find proofs: offered where a goal is open, and searched for once one is chosen, in a thread, by a server for searches that
each project keeps."""

from __future__ import annotations

import re
import threading
import time
from dataclasses import dataclass, field
from typing import TYPE_CHECKING, Any, Dict, List, Optional, Tuple

from holls import graph
from holls.files import File
from holls.fixes import behind
from holls.lsp import features, goals
from holls.prover import command, serving
from holls.prover.asking import Silent
from holls.prover.finder import Cancelled, Unprovable
from holls.prover.warm import Answer, NoGoal, Request, Warm
from holls.protocol import Refusal
from holls.server import NoServer

if TYPE_CHECKING:
    from holls.lsp.bridge import Bridge
    from holls.lsp.workspace import Document

TITLE, ARITHMETIC_TITLE, SIMPLER_TITLE = "Find a proof", "Find a proof by arithmetic", "Simplify the goal"
_INSTEAD = "Instead: %s"
_REPLACE = "Replace %s by the steps of a proof"
_ARITHMETIC, _SIMPLER = "arithmetic", "simpler"
_LONGEST_TITLE = 90
_WANTED = re.compile(r"e\s*\(?\s*([A-Za-z_]+)\s*(?:\[([A-Za-z0-9_';\s]*)\])?\s*\)?\s*\Z")
_BY_NUMBERS = frozenset(("arith", "ARITH_TAC", "ASM_ARITH_TAC"))
_BY_SEARCH = frozenset(("prove", "MESON_TAC", "ASM_MESON_TAC", "METIS_TAC", "ASM_METIS_TAC", "SET_TAC", "ASM_SET_TAC", "SIMP_TAC", "ASM_SIMP_TAC",
                        "TAUT_TAC", "ITAUT_TAC"))
"""Words of steps in whose place a search puts its own: those of HOL Light's that search, and two short ones."""
_NUMBERS = re.compile(r"\b(le|lt|GE|GT|add|mult|sub|SUC|PRE|EVEN|ODD|DIV|MOD|EXP)\b")

Params = Dict[str, Any]


class NotFound(Exception):
    """A search that comes to nothing; the text says why."""


@dataclass(frozen=True)
class Tried:
    """What a search tries now."""

    search: "Search"
    name: str


@dataclass(eq=False)
class Search:
    """A search that is under way, of the goal behind a command. It ends with an answer or with words on why there is none."""

    uri: str
    file: File
    imports: List[File]
    paths: List[str]
    number: int
    wanted: Optional["Wanted"] = None
    is_arithmetic: bool = False
    is_simplifying: bool = False
    answer: Optional[Answer] = None
    failure: Optional[str] = None
    is_cancelled: bool = False
    done: threading.Event = field(default_factory=threading.Event)

    def run(self, warm: Warm, bridge: "Bridge") -> None:
        """Searches, and says what it tries."""
        def tell(name: str) -> None:
            if self.is_cancelled:
                raise Cancelled
            bridge.events.put(Tried(self, name))

        try:
            others = command.others(self.file, self.imports, self.paths)
            names = list(self.wanted.names) or None if self.wanted else None
            self.answer = warm.search(Request(self.file, self.number, self.imports, others, names, command.SECONDS, self.is_arithmetic,
                                              self.is_simplifying, tell, lambda answer: self._first(answer, bridge)))
        except Cancelled:
            self.failure = "the search was cancelled"
        except (NoServer, NoGoal, Silent, Unprovable) as error:
            self.failure = str(error)
        except Exception as error:  # noqa: BLE001: told as this search's failure
            self.failure = "an error in holls: %s: %s" % (type(error).__name__, error)
        self.done.set()


    def _first(self, answer: Answer, bridge: "Bridge") -> None:
        """Takes the first proof, while others are looked for."""
        self.answer = answer
        self.done.set()
        bridge.events.put(self)


@dataclass(frozen=True)
class Wanted:
    """A step that names a search, in whose place the steps that it finds belong: its range in the file, its word, and the theorems that it names."""

    start: int
    end: int
    word: str
    names: Tuple[str, ...]

    @staticmethod
    def of(file: File, number: int) -> Optional["Wanted"]:
        """The one that a refused command is."""
        given = file.commands[number]
        entry = file.entry(number)
        found = _WANTED.match(given.text) if entry and isinstance(entry.report, Refusal) and number else None
        if found is None or found.group(1) not in _BY_NUMBERS | _BY_SEARCH:
            return None
        names = tuple(name.strip() for name in (found.group(2) or "").split(";") if name.strip())
        return Wanted(given.start, given.end, found.group(1), names)


@dataclass(frozen=True)
class Placed:
    """What a search put into a file: where, and what stands before its steps there."""

    search: Search
    place: int
    before: str


class Searches:
    """The servers for searches, one for each project, which answer `holls prove` too."""

    def __init__(self) -> None:
        self.placed: Dict[str, Placed] = {}
        self._kept: Dict[str, Tuple[List[str], Warm, Optional[serving.Listener]]] = {}

    def of(self, project: str, program: List[str], is_shared: bool) -> Warm:
        """The server for a project. It answers `holls prove` where it is to be shared: not where the editor holds the files itself."""
        kept = self._kept.get(project)
        if kept is None or kept[0] != program:
            self._end(project)
            warm = Warm(program)
            self._kept[project] = kept = program, warm, _listener(project, program, warm) if is_shared else None
        return kept[1]

    def stop(self) -> None:
        """Ends them all."""
        for project in list(self._kept):
            self._end(project)

    def _end(self, project: str) -> None:
        _, warm, listener = self._kept.pop(project, (None, None, None))
        if listener is not None:
            listener.close()
        if warm is not None:
            threading.Thread(target=warm.stop, daemon=True).start()


def _listener(project: str, program: List[str], warm: Warm) -> Optional[serving.Listener]:
    """What answers `holls prove`; None where no socket can be had."""
    try:
        return serving.Listener(serving.address(project, program), command.answering(warm))
    except (OSError, serving.Unsafe):
        return None


class Progress:
    """Says what searches try, where the editor shows progress, and takes it that one is to end."""

    def __init__(self, bridge: "Bridge") -> None:
        self._bridge = bridge
        self._is_shown = False
        self._count = 0
        self._tokens: Dict[str, Tuple[Search, Any, float]] = {}

    def take_capabilities(self, capabilities: Params) -> None:
        """Whether the editor shows progress."""
        self._is_shown = bool((capabilities.get("window") or {}).get("workDoneProgress"))

    def begin(self, search: Search, number: Any) -> None:
        """A search has begun, for a request."""
        self._count += 1
        token = "holls/search/%d" % self._count
        self._tokens[token] = search, number, time.monotonic()
        if self._is_shown:
            self._bridge.send({"id": token, "method": "window/workDoneProgress/create", "params": {"token": token}})
            self._say(token, {"kind": "begin", "title": "Finding a proof", "cancellable": True})

    def take(self, event: object) -> None:
        """What a search tries, or that it has ended."""
        search = event.search if isinstance(event, Tried) else event
        for token, begun in [(token, begun) for token, (other, _, begun) in self._tokens.items() if other is search]:
            if isinstance(event, Tried):
                self._say(token, {"kind": "report", "message": "%s (%.1f s)" % (event.name, time.monotonic() - begun)})
            else:
                self._say(token, {"kind": "end"})
                del self._tokens[token]

    def _say(self, token: str, value: Params) -> None:
        if self._is_shown:
            self._bridge.notify("$/progress", {"token": token, "value": value})

    def cancel(self, params: Params) -> None:
        """The editor wants a search no more."""
        found = self._tokens.get(str(params.get("token")))
        if found is not None:
            found[0].is_cancelled = True

    def cancel_request(self, number: Any) -> None:
        """The editor wants the answer to a request no more."""
        for search, own, _ in self._tokens.values():
            search.is_cancelled = search.is_cancelled or own == number


def offers(bridge: "Bridge", document: "Document", files: List[File], start: int) -> List[Params]:
    """The actions, where a goal is open behind the command at a place. The server for searches gets ready."""
    file = document.file
    number = _open_at(file, start)
    if number is None:
        return []
    if bridge.program is not None:
        warm = bridge.searches.of(document.project.key, bridge.program.words, not bridge.limits.is_held)
        threading.Thread(target=_prepare, args=(warm, _imports(warm, document, files)), daemon=True).start()
    known = goals.state(file, number)
    first = (known.plain or known).goals.goals[0]
    is_number = _NUMBERS.search(" ".join((first.conclusion,) + first.assumptions))
    titles = [(TITLE, "")] + ([(ARITHMETIC_TITLE, _ARITHMETIC)] if is_number else []) + [(SIMPLER_TITLE, _SIMPLER)]
    wanted = Wanted.of(file, number)
    if wanted is not None:
        titles = [(_REPLACE % wanted.word, _ARITHMETIC if wanted.word in _BY_NUMBERS else "")]
    return [{"title": title, "kind": "quickfix", "data": {"uri": document.uri, "number": number, "kind": kind}} for title, kind in titles]


def instead(bridge: "Bridge", document: "Document", start: int) -> List[Params]:
    """The actions that put another proof in the place of one that was found, where it still stands."""
    placed = bridge.searches.placed.get(document.uri)
    if placed is None or placed.search.answer is None:
        return []
    search, text = placed.search, document.file.lines.text
    proofs = [search.answer.steps, *map(list, search.answer.others)]
    made = [placed.before + _steps(search.file, search.answer._replace(steps=steps)) for steps in proofs]
    above = search.file.lines.text[:placed.place]
    there = max((one for one in made if text.startswith(above + one)), key=len, default="")
    end = placed.place + len(there)
    if not there or not search.file.commands[search.answer.number].start <= start <= end:
        return []
    where = features.span(document.file, placed.place, end)
    return [{"title": _titled(one), "kind": "quickfix", "edit": {"changes": {document.uri: [{"range": where, "newText": one}]}}}
            for one in made if one != there]


def _titled(steps: str) -> str:
    """What an action is called that puts steps in."""
    title = _INSTEAD % " ".join(steps.strip("; \n").split())
    return title if len(title) <= _LONGEST_TITLE else title[:_LONGEST_TITLE - 3] + "..."


def _prepare(warm: Warm, imports: List[File]) -> None:
    try:
        warm.prepare(imports)
    except (Silent, NoServer):
        pass  # The search says so.


def _imports(warm: Warm, document: "Document", files: List[File]) -> List[File]:
    by_name = {file.name: file for file in files}
    return [warm.copy(other) for other in graph.all_imports(document.file, by_name)]


def _open_at(file: File, place: int) -> Optional[int]:
    number = file.number_at(place)
    if number is None or file.lines.line(place) > file.lines.line(file.commands[number].end):
        return None
    known = goals.state(file, number)
    is_open = isinstance(known, goals.State) and known.goals is not None and known.goals.goals
    return number if is_open else None


def begin(bridge: "Bridge", document: "Document", files: List[File], number: int, kind: str) -> Search:
    """Begins a search in a thread. The bridge gets what it tries as events, and itself when it has ended."""
    if bridge.program is None:
        raise NotFound("hol_serve isn't running: %s" % (bridge.failure or "it wasn't looked for yet"))
    if not 0 <= number < len(document.file.commands):
        raise NotFound("the text has changed")
    paths = command.paths_of(document.project)
    wanted = Wanted.of(document.file, number)
    warm = bridge.searches.of(document.project.key, bridge.program.words, not bridge.limits.is_held)
    imports = _imports(warm, document, files)
    search = Search(document.uri, document.file.copy(), imports, paths, number, wanted, kind == _ARITHMETIC, kind == _SIMPLER)

    def work() -> None:
        search.run(warm, bridge)
        bridge.events.put(search)

    threading.Thread(target=work, daemon=True).start()
    return search


def edit(bridge: "Bridge", search: Search, document: Optional["Document"]) -> Params:
    """The edit that puts what was found behind its command, or in the place of the step that asks for it."""
    if search.failure:
        raise NotFound(search.failure)
    if search.answer is None or search.answer.steps is None:
        raise NotFound("no proof was found" + (search.answer.why if search.answer else ""))
    wanted = search.wanted
    place, text = (wanted.start, _steps(search.file, search.answer).strip()[:-len(";;")]) if wanted else _insertion(search.file, search.answer)
    end = wanted.end if wanted else place
    if document is None or document.file.lines.text[:end] != search.file.lines.text[:end]:
        raise NotFound("the text above has changed; the proof was:\n" + text.strip())
    edits = [(place, end, text)]
    if search.answer.imports:
        at, added = _imported(search.file, search.answer)
        edits.append((at, at, added))
    elif not wanted:
        bridge.searches.placed[search.uri] = Placed(search, place, text[:len(text) - len(_steps(search.file, search.answer))])
    return {"changes": {search.uri: [{"range": features.span(document.file, start, until), "newText": added} for start, until, added in edits]}}


def _imported(file: File, answer: Answer) -> Tuple[int, str]:
    """Where missing imports belong, and their text: behind those that stand above the proof, else before it."""
    begin = file.proof_begin(answer.number)
    above = [command for command in file.commands[:begin] if command.word == "import"]
    lines = ["import %s;;" % name for name in answer.imports]
    if above:
        return behind(file, above[-1].end), "".join("\n" + line for line in lines)
    return file.commands[begin].start, "".join(line + "\n" for line in lines)


def _insertion(file: File, answer: Answer) -> Tuple[int, str]:
    """Where steps belong, and their text."""
    before = file.commands[answer.number]
    place = behind(file, before.end)
    missing = "" if file.lines.text[before.end:place].strip() else ";;"
    return place, missing + _steps(file, answer)


def _steps(file: File, answer: Answer) -> str:
    """The text of steps: a line each, as far to the right as their command."""
    before = file.commands[answer.number]
    start = file.lines.starts[file.lines.line(before.start)]
    margin = file.lines.text[start:before.start]
    margin = margin if not margin.strip() else ""
    steps = [command.in_notation_at(file, answer.number, step) for step in answer.steps]
    return "".join("\n%s%s;;" % (margin, step) for step in steps)
