"""`holls lsp`: between an editor that speaks the Language Server Protocol and one hol-serve."""

from __future__ import annotations

import argparse
import os
import queue
import sys
import threading
import time
from dataclasses import dataclass
from typing import Any, BinaryIO, Callable, Dict, FrozenSet, Iterator, List, NoReturn, Optional, Sequence, Tuple, Union

from holls import circles, server
from holls.files import File
from holls.lsp import wire
from holls.lsp.answers import Answered, Answers, BadParams
from holls.lsp.project_server import ProjectServer
from holls.lsp.proving import Search, Searches, Tried
from holls.lsp.publisher import Publisher
from holls.lsp.workspace import Document, Workspace
from holls.projects import OneProject
from holls.server import Ended, Lines, NoServer

LOOK_SECONDS = 1.0
"""So often files on disk are looked at."""
READ_SECONDS = 20.0
"""So often at most the statements are read ahead of a search."""
TOGETHER = 32
"""So often at most what the programs say is heard together."""
HELD_MESSAGES, HELD_LAST_SECONDS = 32, 2.0
"""So many messages of a page wait at most, and so long its bridge lasts behind it. An editor on this machine may have more under way."""
SPARE_SECONDS = 0.01
"""So long at a time what can wait is done while nothing comes."""

NOT_STARTED, BAD_JSON, BAD_REQUEST, NO_METHOD, BAD_PARAMS, INTERNAL, CANCELLED = -32002, -32700, -32600, -32601, -32602, -32603, -32800

CAPABILITIES = {
    "positionEncoding": "utf-16",
    "textDocumentSync": {"openClose": True, "change": 2, "save": True},
    "hoverProvider": True,
    "documentSymbolProvider": True,
    "foldingRangeProvider": True,
    "definitionProvider": True,
    "completionProvider": {"triggerCharacters": ["\\"]},
    "referencesProvider": True,
    "renameProvider": {"prepareProvider": True},
    "codeActionProvider": {"codeActionKinds": ["quickfix"], "resolveProvider": True},
    "signatureHelpProvider": {"triggerCharacters": [" ", "(", "[", "`"]},
    "workspaceSymbolProvider": True,
    "documentLinkProvider": {},
    "codeLensProvider": {"resolveProvider": True},
    "executeCommandProvider": {"commands": ["holls.restart", "holls.stop"]},
}

Params = Dict[str, Any]


@dataclass(frozen=True)
class Program:
    """The program's words, and which edits it serves."""

    words: List[str]
    served: FrozenSet[str]


@dataclass(frozen=True)
class Probed:
    """The program, or why there is none."""

    program: Optional[Program]
    failure: Optional[str]


@dataclass(frozen=True)
class Limits:
    """What an editor may have. With `is_held` it holds its files itself: none is read from disk but those of the library.

    So many of its messages wait at most, each of so many bytes; then nothing more of it is read. Behind its end what waits has `last_seconds`.
    `theories` are folders of theories that stand before the library. Where nothing was heard for `doze_seconds`, programs are ended until something is.
    So many `files` may be open.
    """

    is_held: bool = False
    library: Optional[str] = None
    messages: int = 1000
    message_bytes: int = wire.MESSAGE_BYTES
    last_seconds: float = 60.0
    theories: Tuple[str, ...] = ()
    doze_seconds: Optional[float] = None
    files: Optional[int] = None


class Bridge:
    """The state of one editor's session. Everything happens in the thread that calls `run`."""

    def __init__(self, output: BinaryIO, named: Optional[str], seconds: float, limits: Limits) -> None:
        self.events: "queue.SimpleQueue[object]" = queue.SimpleQueue()
        self.output, self.named, self.seconds, self.limits = output, named, seconds, limits
        self.room = threading.Semaphore(limits.messages)
        self.options: Dict[str, Any] = {}
        self.workspace = Workspace(OneProject(limits.library, limits.theories) if limits.is_held else None)
        self.publisher = Publisher(self)
        self.program: Optional[Program] = None
        self.probed: Optional[Probed] = None
        self.failure: Optional[str] = None
        self.servers: Dict[str, ProjectServer] = {}
        self.answers = Answers(self)
        self.searches = Searches()
        self.is_probing = self.is_begun = self.is_shut = False
        self.status: Optional[int] = None
        self._look_at = self._read_at = 0.0
        self._doze_at: Optional[float] = None
        self._spare: Iterator[None] = iter(())
        self._has_spare = False

    def run(self) -> int:
        """Until the editor ends."""
        while self.status is None:
            try:
                self._take_all(self.events.get(timeout=0.0 if self._has_spare else self._patience()))
            except queue.Empty:
                self._guard(self._spend)
            self._guard(self._settle)
        self.end_programs()
        return self.status

    def rehearse(self, messages: Sequence[Any]) -> None:
        """Takes messages as an editor sends them, without a program: what they load and make is there for the bridges that are forked afterwards."""
        self.probed = Probed(None, None)
        for message in messages:
            self._guard(lambda message=message: self._message(message))
            self._guard(self._settle)

    def stand(self, names: Sequence[str]) -> None:
        """Has theories of the library stand, with what they import, before anything is opened: what opens them finds them run. The program has to be
        known."""
        self.workspace.stand(names)
        self.program, self.failure = self.probed.program, self.probed.failure
        self._changed(None)

    def end_programs(self) -> None:
        """Ends the programs that run for this session."""
        for server in list(self.servers.values()):
            server.stop()
        self.searches.stop()

    def _patience(self) -> Optional[float]:
        """How long nothing has to be done."""
        now = time.monotonic()
        looks = [self._look_at] if self.workspace.documents and not self.limits.is_held else []
        times = self.publisher.times() + self.answers.times() + looks + [self._doze_at]
        waits = [max(0.0, moment - now) for moment in times if moment is not None]
        return min(waits + [wait for server in self.servers.values() for wait in server.patience()], default=None)

    def _take_all(self, event: object) -> None:
        """Takes an event, with those that wait already: what the programs say is heard together, up to the editor's next message."""
        heard: List[Union[Lines, Ended]] = []
        while True:
            if not isinstance(event, (Lines, Ended)):
                self._hear(heard)
                self._take(event)
                return
            heard.append(event)
            if len(heard) == TOGETHER or self.events.empty():
                self._hear(heard)
                return
            event = self.events.get_nowait()

    def _hear(self, heard: List[Union[Lines, Ended]]) -> None:
        for server in list(self.servers.values()) if heard else []:
            self._guard(lambda server=server: server.session.hear(*heard) if server.session else None)

    def _take(self, event: object) -> None:
        if isinstance(event, Probed):
            self._guard(lambda: self._begin(event))
        elif isinstance(event, int):
            self.status = event
        elif isinstance(event, (Search, Tried)):
            self._guard(lambda: self.answers.progress.take(event))  # The request that waits for it is answered after each event.
        else:
            self._guard(lambda: self._message(event))
            self.room.release()
            if self.limits.doze_seconds is not None and self.is_begun:
                self._doze_at = time.monotonic() + self.limits.doze_seconds

    def _guard(self, work: Callable[[], None]) -> None:
        """An error in here is told to the editor and ends nothing."""
        try:
            work()
        except BrokenPipeError:
            self.status = 1
        except Exception as error:  # noqa: BLE001: the session goes on, whatever went wrong with one message
            self.log("an error in the bridge: %s: %s" % (type(error).__name__, error))

    def _settle(self) -> None:
        """After each event: times, answers that can be given, diagnostics."""
        for server in self.servers.values():
            server.settle()
        if self.workspace.documents and not self.limits.is_held and time.monotonic() >= self._look_at:
            self._look_at = time.monotonic() + LOOK_SECONDS
            if self.workspace.is_stale():
                self._changed(None)
        self.answers.answer_waiters()
        self.publisher.publish()
        if self._doze_at is not None and time.monotonic() >= self._doze_at:
            self._doze()

    def _doze(self) -> None:
        """Ends the programs, whose answers are known, until the editor says something; those that are at work are looked at again later."""
        self.searches.stop()
        is_done = all([server.doze() for server in self.servers.values()])
        self._doze_at = None if is_done else time.monotonic() + self.limits.doze_seconds

    def all_known(self) -> None:
        """All that was asked for is known: there is time to read the statements for searches."""
        if time.monotonic() >= self._read_at and not self.limits.is_held:
            self._read_at = time.monotonic() + READ_SECONDS
            self._spare = self.answers.navigation.reading(self.sent())
            self._has_spare = True

    def sent(self) -> Dict[str, Sequence[File]]:
        """What the projects' servers were sent."""
        return {root: server.files for root, server in self.servers.items()}

    def _spend(self) -> None:
        """Does some of what can wait."""
        until = time.monotonic() + SPARE_SECONDS
        self._has_spare = False  # Also where an error ends it.
        for _ in self._spare:
            if time.monotonic() >= until:
                self._has_spare = True
                return

    # Messages of the editor

    def send(self, message: Dict[str, Any]) -> None:
        """Sends a message to the editor."""
        wire.write(self.output, message)

    def notify(self, method: str, params: Params) -> None:
        """Sends a notification."""
        self.send({"method": method, "params": params})

    def log(self, text: str) -> None:
        """A line for the editor's log."""
        self.notify("window/logMessage", {"type": 1, "message": "holls: " + text})

    def error(self, number: Any, code: int, text: str) -> None:
        """Refuses a request."""
        self.send({"id": number, "error": {"code": code, "message": text}})

    def _message(self, message: Any) -> None:
        if message is None:
            self.error(None, BAD_JSON, "not JSON")
            return
        if "method" not in message and ("result" in message or "error" in message):
            return  # A reply to a request of ours.
        method, number = message.get("method"), message.get("id")
        params = {} if message.get("params") is None else message["params"]
        is_named = isinstance(number, (str, int)) or "id" not in message
        if not isinstance(method, str) or not is_named:
            self.error(number if is_named else None, BAD_REQUEST, "no request: `method` has to be a text, and `id` a number or a text")
        elif "id" not in message:
            self._notification(method, params)
        elif not isinstance(params, dict):
            self.error(number, BAD_PARAMS, "bad parameters: they have to be an object")
        elif self.is_shut:
            self.error(number, BAD_REQUEST, "the session is over")
        elif not self.is_begun and method != "initialize":
            self.error(number, NOT_STARTED, "initialize comes first")
        else:
            self._request(method, number, params)

    def _initialize(self, _: Any, params: Params) -> Answered:
        if self.is_begun:
            raise BadParams("initialize comes once")
        given = params.get("initializationOptions")
        options = given if isinstance(given, dict) else {}
        seconds = min(self.seconds, max(1.0, float(options.get("seconds") or self.seconds)))
        capabilities = params.get("capabilities") or {}
        self.publisher.take_capabilities(capabilities, options)
        self.answers.progress.take_capabilities(capabilities)
        self.options, self.seconds, self.is_begun = options, seconds, True
        for server in self.servers.values():
            server.limit()
        self._probe()
        return Answered({"capabilities": CAPABILITIES, "serverInfo": {"name": "holls"}})

    def _request(self, method: str, number: Any, params: Params) -> None:
        """Answers a request, or refuses it: there is a reply to each."""
        served = dict(self.answers.served)
        served.update({"initialize": self._initialize, "shutdown": self._shutdown, "workspace/executeCommand": self._execute})
        if method not in served:
            self.error(number, NO_METHOD, "no method %s" % method)
            return
        try:
            done = served[method](number, params)
        except BadParams as error:
            self.error(number, BAD_PARAMS, str(error))
        except (LookupError, TypeError, ValueError, AttributeError, ArithmeticError) as error:
            self.error(number, BAD_PARAMS, "bad parameters: %s: %s" % (type(error).__name__, error))
        except BrokenPipeError:
            raise
        except Exception as error:  # noqa: BLE001: told as this request's failure
            self.error(number, INTERNAL, "an error in the bridge: %s: %s" % (type(error).__name__, error))
        else:
            if done is not None:
                self.send({"id": number, "result": done.result})

    def _notification(self, method: str, params: Params) -> None:
        served = {
            "textDocument/didOpen": self._open, "textDocument/didChange": self._change, "textDocument/didClose": self._close,
            "textDocument/didSave": self._save, "proof/viewRange": self._view, "$/cancelRequest": self._cancel,
            "window/workDoneProgress/cancel": self.answers.progress.cancel,
            "workspace/didChangeWatchedFiles": self._watched,
        }
        if method == "exit":
            self.status = 0 if self.is_shut else 1
        elif method in served and self.is_begun:
            served[method](params)

    # Documents

    def _open(self, params: Params) -> None:
        given = params["textDocument"]
        if self.limits.files is not None and len(self.workspace.documents) >= self.limits.files and given["uri"] not in self.workspace.documents:
            self.notify("window/showMessage", {"type": 2, "message": "%d files are open, and there may be no more: close one" % self.limits.files})
            return
        document = self.workspace.open(given["uri"], given.get("version"), given["text"])
        self._save(params)
        self._changed(document)

    def _change(self, params: Params) -> None:
        document = self.answers.document(params)
        self.workspace.change(document, params["textDocument"].get("version"), params["contentChanges"])
        self._changed(document)

    def _close(self, params: Params) -> None:
        uri = params["textDocument"]["uri"]
        if self.workspace.documents.pop(uri, None):
            self.notify("textDocument/publishDiagnostics", {"uri": uri, "diagnostics": []})
            self._changed(None)

    def _save(self, _: Params) -> None:
        """At a file that is opened or saved, a program that wasn't there is looked for again."""
        if self.failure and not self.program:
            self._probe()

    def _watched(self, _: Params) -> None:
        """Files have changed on disk, as the editor says."""
        self._look_at = 0.0

    def _view(self, params: Params) -> None:
        document = self.answers.document(params)
        seen = params["range"]
        document.seen = int(seen["start"]["line"]), int(seen["end"]["line"])
        document.cursor = document.place(params["position"]) if params.get("position") else document.cursor
        server = self.server_of(document)
        if server:
            server.work_on(document.file)
            server.sweep.prefer(document.view())
            if server.session:
                server.session.pump()

    def _changed(self, document: Optional[Document]) -> None:
        """The texts have changed: the servers are brought in step, and what is worked on and seen comes first."""
        groups = self.workspace.groups()
        for root in [root for root in self.servers if root not in groups]:
            self.servers.pop(root).stop()
        for root, files in groups.items():
            server = self.servers.setdefault(root, ProjectServer(self, root))
            is_here = document is not None and document.project.key == root
            is_changed = server.take(files, document.file if is_here else None)
            if is_here:
                server.sweep.prefer(document.view())
            if is_changed:
                server.bring_in_step()
        self.publisher.changed()

    # The servers

    def server_of(self, document: Document) -> Optional[ProjectServer]:
        """The server of a document's project, if the document is a theory there."""
        return self.servers.get(document.project.key)

    def _probe(self) -> None:
        """Looks for the program and asks what it serves, in a thread of its own."""
        if self.is_probing:
            return
        self.is_probing = True
        if self.probed is not None:
            self.events.put(self.probed)
            return
        threading.Thread(target=lambda: self.events.put(_probed(self.named)), daemon=True).start()

    def _begin(self, probed: Probed) -> None:
        self.is_probing = False
        self.program, self.failure = probed.program, probed.failure
        self._changed(next(iter(self.workspace.documents.values()), None))
        self.told()

    def told(self) -> None:
        """There is news of some command, or of a server."""
        self.publisher.news()

    def _stop(self) -> None:
        for server in self.servers.values():
            server.stop()
        self.program = None

    def _execute(self, _: Any, params: Params) -> Answered:
        if params["command"] == "holls.stop":
            for server in self.servers.values():
                if server.session:
                    server.session.stop_running()
        elif params["command"] == "holls.restart":
            self._stop()
            self._probe()
        else:
            raise BadParams("no command %s" % params["command"])
        return Answered(None)

    def _shutdown(self, _: Any, __: Params) -> Answered:
        self.is_shut = True
        self._stop()
        return Answered(None)

    def _cancel(self, params: Params) -> None:
        for number in self.answers.cancel(params):
            self.error(number, CANCELLED, "cancelled")


def _probed(named: Optional[str]) -> Probed:
    try:
        words = server.find(named)
        return Probed(Program(words, server.probe(words)), None)
    except NoServer as error:
        return Probed(None, str(error))


def _listen(stream: BinaryIO, events: "queue.SimpleQueue[object]", room: threading.Semaphore, most: int) -> None:
    """Hands the editor's messages on, as long as there is room; at the end, the status to end with."""
    try:
        while True:
            room.acquire()
            try:
                message = wire.read(stream, most)
            except wire.BadJson:
                events.put(None)
                continue
            if message is None:
                break
            events.put(message)
    except (wire.Malformed, OSError) as error:
        print("holls: %s" % error, file=sys.stderr)
    events.put(1)


def _serve(bridge: Bridge, stream: BinaryIO) -> None:
    """Hears the editor until it is gone. What it still wanted is of no use then: all ends in a while, whatever waits."""
    _listen(stream, bridge.events, bridge.room, bridge.limits.message_bytes)
    time.sleep(bridge.limits.last_seconds)
    try:
        bridge.end_programs()
    finally:
        os._exit(1)


def add_words(words: argparse.ArgumentParser) -> None:
    """The command line's words."""
    words.add_argument("--server", metavar="PROGRAM", help="the program hol_serve")
    words.add_argument("--seconds", type=int, default=120, help="how long one command may take (120)")
    words.add_argument("--held", action="store_true", help="the editor holds its files itself, as the page does: none is read from disk")
    words.add_argument("--library", metavar="DIR", help="with --held: a folder of theories that its files may import")


def main(given: argparse.Namespace) -> NoReturn:
    """Serves one editor on standard input and output. Ends the process itself, since a thread may still wait for input."""
    limits = Limits(True, given.library, HELD_MESSAGES, last_seconds=HELD_LAST_SECONDS) if given.held else Limits()
    serve(sys.stdin.buffer, Bridge(sys.stdout.buffer, given.server, given.seconds, limits))


def serve(stream: BinaryIO, bridge: Bridge) -> NoReturn:
    """Serves the editor whose messages a stream has, and ends the process."""
    circles.look_seldom()
    threading.Thread(target=_serve, args=(bridge, stream), daemon=True).start()
    status = 1
    try:
        status = bridge.run()
        bridge.output.flush()
    finally:
        os._exit(status)
