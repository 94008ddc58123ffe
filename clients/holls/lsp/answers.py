"""The answers to an editor's requests. One that needs reports that aren't there yet waits for them, and nothing else does."""

from __future__ import annotations

import time
from dataclasses import dataclass, replace
from typing import TYPE_CHECKING, Any, Callable, Dict, List, Optional

from holls import binders, protocol, words
from holls.files import File
from holls.lsp import completion, features, goals, helping, hovering, lookup, numerals, proving
from holls.lsp.inside import Inside
from holls.lsp.navigation import Navigation
from holls.lsp.renaming import CannotRename, Renaming
from holls.lsp.workspace import Document
from holls.manual import COMMANDS
from holls.names import THEOREM
from holls.search import BadQuery

if TYPE_CHECKING:
    from holls.lsp.bridge import Bridge

INTERNAL, FAILED = -32603, -32803
"""The protocol's numbers of an error in the server itself, and of a request that comes to nothing."""

BASIS_SECONDS = 5.0
"""So long a hover waits for what a theorem rests on, or for a type; then it shows the rest."""

ACTION_SECONDS = 2.0
"""So long what could be done waits for what a command came to."""

Params = Dict[str, Any]


@dataclass(frozen=True)
class Answered:
    """The result of a request, which may be null."""

    result: Any


@dataclass
class Waiter:
    """A request that is answered once reports are there. `attempt` answers None as long as it isn't; after `until` it asks for less."""

    number: Any
    attempt: Callable[[], Optional[Answered]]
    until: Optional[float] = None


class BadParams(Exception):
    """A request whose parameters can't be served."""


class Answers:
    """The requests on documents."""

    def __init__(self, bridge: "Bridge") -> None:
        self.bridge = bridge
        self.waiters: List[Waiter] = []
        self.progress = proving.Progress(bridge)
        self.inside = Inside(bridge)
        self.navigation = Navigation(bridge.workspace)
        self.served: Dict[str, Callable[[Any, Params], Optional[Answered]]] = {
            "textDocument/hover": self._hover,
            "proof/goals": self._goals,
            "textDocument/definition": self._definition,
            "textDocument/references": self._references,
            "textDocument/prepareRename": self._may_rename,
            "textDocument/rename": self._rename,
            "textDocument/documentLink": self._links,
            "workspace/symbol": self._all_symbols,
            "hol/search": self._search,
            "textDocument/codeAction": self._actions,
            "codeAction/resolve": self._resolve_action,
            "textDocument/signatureHelp": self._signature,
            "textDocument/completion": self._completion,
            "textDocument/codeLens": self._lenses,
            "codeLens/resolve": self._resolve,
            "textDocument/documentSymbol": self._symbols,
            "textDocument/foldingRange": self._foldings,
            "hol/manual": lambda _, __: Answered(helping.manual_of_all()),
        }

    def document(self, params: Params) -> Document:
        """The document that parameters name."""
        document = self.bridge.workspace.documents.get(params["textDocument"]["uri"])
        if document is None:
            raise BadParams("the document isn't open")
        return document

    def cancel(self, params: Params) -> List[Any]:
        """Drops a request that waits. Answers its number, if there is one."""
        gone = [waiter for waiter in self.waiters if waiter.number == params.get("id")]
        for waiter in gone:
            self.progress.cancel_request(waiter.number)
        self.waiters = [waiter for waiter in self.waiters if waiter not in gone]
        return [waiter.number for waiter in gone]

    def answer_waiters(self) -> None:
        """Answers the requests that can be answered now."""
        waiting, self.waiters = self.waiters, []
        for waiter in waiting:
            try:
                done = waiter.attempt()
            except proving.NotFound as error:
                self.bridge.error(waiter.number, FAILED, str(error))
                continue
            except Exception as error:  # noqa: BLE001: one request's error must not touch the others
                self.bridge.error(waiter.number, INTERNAL, "%s: %s" % (type(error).__name__, error))
                continue
            if done is None:
                self.waiters.append(waiter)
            else:
                self.bridge.send({"id": waiter.number, "result": done.result})

    def _symbols(self, _: Any, params: Params) -> Answered:
        return Answered(features.symbols(self.document(params).file))

    def _foldings(self, _: Any, params: Params) -> Answered:
        return Answered(features.foldings(self.document(params).file))

    def _wait(self, number: Any, attempt: Callable[[], Optional[Answered]], until: Optional[float] = None) -> Optional[Answered]:
        done = attempt()
        if done is None:
            self.waiters.append(Waiter(number, attempt, until))
        return done

    def times(self) -> List[float]:
        """When a request that waits is to be tried again, whatever comes."""
        now = time.monotonic()
        return [waiter.until for waiter in self.waiters if waiter.until is not None and waiter.until > now]

    def _state(self, document: Document, number: Optional[int]) -> Optional[goals.State]:
        """The state after a command; None while a report is missing, which is then asked for before all others."""
        known = goals.state(document.file, number)
        if isinstance(known, goals.State):
            return known
        if self.bridge.workspace.documents.get(document.uri) is not document:
            return goals.State(number, None, None, ["the file was closed"], False)
        server = self.bridge.server_of(document)
        failure = server.failure if server else self.bridge.failure
        if failure:
            return goals.State(number, None, None, ["hol_serve isn't running: " + failure], False)
        if server is not None and server.session is not None:
            server.sweep.prefer([known])
            server.session.pump()
        return None

    def _goals(self, number: Any, params: Params) -> Optional[Answered]:
        document = self.document(params)
        place = document.place(params["position"])
        document.cursor = place
        mode = str(params.get("mode", "After"))

        def attempt() -> Optional[Answered]:
            file = document.file
            at = file.number_at(place)
            before = 1 if mode == "Prev" and at is not None and file.covers(at, place) else 0
            state = self._state(document, at - before if at is not None and at >= before else None)
            if state is None:
                return None
            state = replace(state, errors=[]) if before else state
            state = state.plain or state if params.get("plain") else state
            reply = {"textDocument": {"uri": document.uri, "version": document.version}, "position": params["position"]}
            if at is not None:
                reply["range"] = features.span(file, file.commands[at].start, file.commands[at].end)
            return Answered(dict(reply, **goals.answer(state)))

        return self._wait(number, attempt)

    def _hover(self, number: Any, params: Params) -> Optional[Answered]:
        """A name's meaning with what it rests on, if that is known soon; elsewhere the goals after the command."""
        document = self.document(params)
        place = document.place(params["position"])
        basis: List[Optional[str]] = []
        until = time.monotonic() + BASIS_SECONDS

        def attempt() -> Optional[Answered]:
            file = document.file
            word = lookup.word(self._files(document), file, place)
            is_command = word and word.entry and word.name in COMMANDS
            if word and not is_command and (word.entry or word.theory or word.known or word.is_quoted):
                if time.monotonic() < until and not self._has_more(document, word, basis):
                    return None
                text = hovering.of_word(word, basis[-1] if basis else None)
                there = self._goals_there(document, place) if word.entry and text else ""
                if there is None and time.monotonic() < until:
                    return None
                if text:
                    return _hover_of(file, text + (there or ""), word.start, word.end)
            return self._hover_goals(document, place, basis, until)

        return self._wait(number, attempt, until)

    def _has_more(self, document: Document, word: lookup.Word, more: List[Optional[str]]) -> bool:
        """Whether there is what can be asked of a name: on what a theorem rests, or the type of a variable."""
        known = word.known
        if known is not None:
            is_asked = known.kind == THEOREM and known.file is not None and known.is_made
            return not is_asked or self._has_basis(document, known.name, more)
        server = self.bridge.server_of(document)
        question = hovering.question(document.file, word)
        if question is None or server is None or server.session is None or server.failure:
            return True
        if not more:
            more.append(None)
            server.session.ask_beside(
                "holls_types", ["import " + document.file.name, question], lambda reply: more.append(_type(reply)))
        return len(more) > 1

    def _goals_there(self, document: Document, place: int) -> Optional[str]:
        """The goals before the part of a step at a place, or those after the command there, if they are known; None while they are asked for."""
        inside = self.inside.text(document, place)
        if inside:
            return "\n\n" + hovering.fenced(inside)
        known = goals.state(document.file, document.file.number_at(place))
        return None if inside is None else "\n\n" + hovering.fenced(goals.text(known)) if isinstance(known, goals.State) else ""

    def _hover_goals(self, document: Document, place: int, basis: List[Optional[str]], until: float) -> Optional[Answered]:
        """The goals after the command at a place, or the theorem that it made."""
        file = document.file
        at = file.number_at(place)
        if at is None or not file.covers(at, place):
            return Answered(None)
        state = self._state(document, at)
        name = features.theorem(file, at) if state else None
        if state is None or name and time.monotonic() < until and not self._has_basis(document, name, basis):
            return None
        rests = basis[-1] + "\n" if name and basis and basis[-1] else ""
        return _hover_of(file, hovering.fenced(goals.text(state) + rests), file.commands[at].start, file.commands[at].end)

    def _has_basis(self, document: Document, name: str, basis: List[Optional[str]], keep: Optional[List[str]] = None) -> bool:
        """Whether the words on a theorem's basis are there; they are asked for once."""
        server = self.bridge.server_of(document)
        if server is None or server.session is None or server.failure:
            return True
        if not basis:
            basis.append(None)
            self._ask_basis(document, name, basis.append, keep)
        return basis[-1] is not None

    def _ask_basis(self, document: Document, name: str, then: Callable[[str], None], keep: Optional[List[str]] = None) -> None:
        """Asks on what a theorem rests, and hands the words on; `keep` takes the items."""
        def answer(reply: object) -> None:
            items = reply.items if isinstance(reply, protocol.Items) else None
            then("(what it rests on isn't known)" if items is None else words.rests(items))
            if keep is not None:
                keep.extend(items or ["unknown"])

        self.bridge.server_of(document).session.ask(protocol.line({"op": "basis", "theory": document.file.name, "name": name}), answer)

    def _definition(self, _: Any, params: Params) -> Answered:
        document = self.document(params)
        return Answered(self.navigation.definition(document, self._files(document), document.place(params["position"])))

    def _references(self, _: Any, params: Params) -> Answered:
        document = self.document(params)
        with_definition = bool((params.get("context") or {}).get("includeDeclaration", True))
        place = document.place(params["position"])
        return Answered(self.navigation.references(document, self._files(document), place, with_definition))

    def _may_rename(self, _: Any, params: Params) -> Answered:
        document = self.document(params)
        try:
            start, end = Renaming(self.navigation, document, self._files(document)).range(document.place(params["position"]))
        except CannotRename as error:
            raise BadParams(str(error)) from None
        return Answered(features.span(document.file, start, end))

    def _rename(self, _: Any, params: Params) -> Answered:
        document, new = self.document(params), params["newName"]
        try:
            edits = Renaming(self.navigation, document, self._files(document)).edits(document.place(params["position"]), str(new))
        except CannotRename as error:
            raise BadParams(str(error)) from None
        return Answered({"changes": edits})

    def _links(self, _: Any, params: Params) -> Answered:
        document = self.document(params)
        return Answered(self.navigation.links(document, self._files(document)))

    def _actions(self, number: Any, params: Params) -> Optional[Answered]:
        """What could be done, once it is known what the command came to; of one that runs long, what can be said before."""
        document = self.document(params)
        until = time.monotonic() + ACTION_SECONDS

        def attempt() -> Optional[Answered]:
            if self.bridge.workspace.documents.get(document.uri) is not document:
                return Answered([])
            start, end = (document.place(params["range"][side]) for side in ("start", "end"))
            at = document.file.number_at(start)
            if at is not None and self._state(document, at) is None and time.monotonic() < until:
                return None
            files = self._files(document)
            every = self.bridge.workspace.every_file(document.project, files)
            found = helping.actions(document.file, document.uri, files, every, start, end)
            found += proving.instead(self.bridge, document, start) + proving.offers(self.bridge, document, files, start)
            return Answered(found + numerals.offers(document.file, files, document.uri, start))

        return self._wait(number, attempt, until)

    def _resolve_action(self, number: Any, params: Params) -> Optional[Answered]:
        """What the action 'find a proof' does, once a search in a thread has ended."""
        data = params["data"]
        document = self.document({"textDocument": data})
        try:
            search = proving.begin(self.bridge, document, self._files(document), int(data["number"]), str(data.get("kind")))
        except proving.NotFound as error:
            raise BadParams(str(error)) from None

        def attempt() -> Optional[Answered]:
            if not search.done.is_set():
                return None
            return Answered(dict(params, edit=proving.edit(self.bridge, search, self.bridge.workspace.documents.get(search.uri))))

        self.progress.begin(search, number)
        return self._wait(number, attempt)

    def _signature(self, _: Any, params: Params) -> Answered:
        document = self.document(params)
        return Answered(helping.signature(document.file, document.place(params["position"])))

    def _search(self, _: Any, params: Params) -> Answered:
        sent = self.bridge.sent()
        try:
            return Answered(self.navigation.search(str(params["query"]), bool(params.get("conclusion")), sent))
        except BadQuery as error:
            raise BadParams(str(error)) from None

    def _all_symbols(self, _: Any, params: Params) -> Answered:
        sent = self.bridge.sent()
        return Answered(self.navigation.symbols(str(params["query"]), sent))

    def _files(self, document: Document) -> List[File]:
        """The files of a document's project that are sent."""
        server = self.bridge.server_of(document)
        return server.files if server else [document.file]

    def _completion(self, _: Any, params: Params) -> Answered:
        document = self.document(params)
        files = self._files(document)
        theories = list(dict.fromkeys([file.name for file in files] + document.project.importable()))
        place = document.place(params["position"])
        known = goals.state(document.file, document.file.number_at(place))
        free = known.goals.goals[0].free if isinstance(known, goals.State) and known.goals and known.goals.goals else ()
        found = completion.at(files, theories, document.file, place, free)
        most = self.bridge.options.get("mostCompletions")
        return Answered(completion.likeliest(found, document.file, place, int(most)) if most else found)

    def _lenses(self, _: Any, params: Params) -> Answered:
        document = self.document(params)
        return Answered(features.lenses(document.file, document.uri))

    def _resolve(self, number: Any, params: Params) -> Optional[Answered]:
        document = self.document({"textDocument": {"uri": params["data"]["uri"]}})
        basis: List[Optional[str]] = []
        items: List[str] = []

        def attempt() -> Optional[Answered]:
            if not self._has_basis(document, params["data"]["name"], basis, items):
                return None
            title = basis[-1] if basis and basis[-1] else "proved"
            return Answered(dict(params, command={"title": title, "command": ""}, data=dict(params["data"], items=items)))

        return self._wait(number, attempt)


def _type(reply: object) -> Optional[str]:
    """The type that a question's report tells."""
    return binders.answer(reply.goals[0].free) if isinstance(reply, protocol.Goals) and reply.goals else None


def _hover_of(file: File, text: str, start: int, end: int) -> Answered:
    return Answered({"contents": {"kind": "markdown", "value": text}, "range": features.span(file, start, end)})
