"""When diagnostics are sent: as soon as what is seen is known, and then a few times a second until all is."""

from __future__ import annotations

import time
from typing import TYPE_CHECKING, Any, Dict, List, Optional, Tuple

from holls import findings
from holls.lsp import features
from holls.lsp.workspace import Document

if TYPE_CHECKING:
    from holls.lsp.bridge import Bridge

EDIT_SECONDS = 0.15
"""So long after an edit at most nothing is published."""
NEWS_SECONDS = 0.25
"""So long after news at most."""
PROGRESS_SECONDS = 0.7
"""Work that takes longer is shown as progress."""
WAITING, RUNNING_LONG, REFUSED = 1, 2, 3
"""Why a range isn't known yet, or isn't accepted."""


class Publisher:
    """Sends diagnostics, what isn't known yet, progress and a failure of a server."""

    def __init__(self, bridge: "Bridge") -> None:
        self.bridge = bridge
        self._failures: List[str] = []
        self._shows_progress = self._refreshes_lenses = self._shows_refused = False
        self._busy_since: Optional[float] = None
        self._token: Optional[str] = None
        self._tokens = 0

    def take_capabilities(self, capabilities: Dict[str, Any], options: Dict[str, Any]) -> None:
        """What the editor can show."""
        self._shows_refused = bool(options.get("refused"))
        self._shows_progress = bool((capabilities.get("window") or {}).get("workDoneProgress"))
        self._refreshes_lenses = bool(((capabilities.get("workspace") or {}).get("codeLens") or {}).get("refreshSupport"))

    def changed(self) -> None:
        """Texts have changed."""
        self._busy_since = self._busy_since or time.monotonic()
        self._due_in(EDIT_SECONDS)

    def news(self) -> None:
        """Something is known that wasn't; or a server has failed."""
        failures = [server.failure for server in self.bridge.servers.values()] + [self.bridge.failure]
        now = list(dict.fromkeys(failure for failure in failures if failure))
        for failure in now:
            if failure not in self._failures:
                self.bridge.notify("window/showMessage", {"type": 1, "message": failure})
        self._failures = now
        self._due_in(NEWS_SECONDS)

    def times(self) -> List[Optional[float]]:
        """When there is something to do."""
        is_waiting = self._busy_since is not None and self._token is None and self._shows_progress
        begin = self._busy_since + PROGRESS_SECONDS if is_waiting else None
        return [document.due for document in self._documents()] + [begin]

    def publish(self) -> None:
        """Sends what is due."""
        now = time.monotonic()
        for document in self._documents():
            is_done = self._is_done(document)
            if document.due is not None and (is_done or document.due <= now or self._is_seen_news(document)):
                self._send(document)
                self._progress(self._is_all_done())
        is_all_done = self._is_all_done()
        if self._token is None:
            self._progress(is_all_done)
        if is_all_done and self._busy_since is not None:
            self._busy_since = None
            self._progress(True)
            self.bridge.all_known()
            if self._refreshes_lenses:
                self.bridge.send({"id": "holls-lenses", "method": "workspace/codeLens/refresh"})

    def _due_in(self, seconds: float) -> None:
        moment = time.monotonic() + seconds
        for document in self._documents():
            document.due = min(document.due or moment, moment)

    def _documents(self) -> List[Document]:
        return list(self.bridge.workspace.documents.values())

    def _is_done(self, document: Document) -> bool:
        """Whether nothing is under way in a document's project."""
        server = self.bridge.server_of(document)
        if server is not None:
            return server.is_done
        return self.bridge.failure is not None or not self.bridge.is_probing

    def _is_all_done(self) -> bool:
        return all(self._is_done(document) for document in self._documents())

    @staticmethod
    def _is_seen_news(document: Document) -> bool:
        """Whether what is seen is known and wasn't told of this version."""
        return document.told != document.version and document.is_seen_known()

    def _send(self, document: Document) -> None:
        document.due = None
        state = self._what_is_said(document)
        if state == document.state:
            return  # The news are of other documents.
        document.state = state
        if document.is_seen_known():
            document.told = document.version
        found = features.diagnostics(document.file)
        server = self.bridge.server_of(document)
        failure = server.failure if server else self.bridge.failure
        if failure:
            start = {"line": 0, "character": 0}
            found.insert(0, {"range": {"start": start, "end": start}, "severity": 1, "source": "hol", "message": failure})
        if (document.version, found) != document.published:
            document.published = document.version, found
            params = {"uri": document.uri, "diagnostics": found}
            if document.version is not None:
                params["version"] = document.version
            self.bridge.notify("textDocument/publishDiagnostics", params)
        self._send_unknown(document, failure)  # Behind what is known, so that who reads that nothing is unknown has read all.

    def _what_is_said(self, document: Document) -> Tuple[Any, ...]:
        """What tells whether there is something new to say of a document."""
        server, theory = self.bridge.server_of(document), document.file.theory
        failure = server.failure if server else self.bridge.failure
        unknown = [entry.report for entry in theory.entries].count(None)
        slow = [entry.is_slow for entry in theory.entries].count(True)
        context = [blemish.text for blemish in document.file.context]
        notation = document.file.notation  # Another one where what an import declares is, though all that is sent is as it was.
        return document.version, id(server), failure, context, theory.edits, notation, unknown, slow

    def _send_unknown(self, document: Document, failure: Optional[str]) -> None:
        """Shows which commands' outcomes aren't known yet, as Lean's editors show what is being processed."""
        ranges = [] if failure else findings.unknown(document.file)
        found = [
            {"range": features.span(document.file, start, end), "kind": RUNNING_LONG if is_slow else WAITING}
            for start, end, is_slow in ranges]
        if self._shows_refused and not failure:
            found += [{"range": features.span(document.file, *one), "kind": REFUSED} for one in findings.refused(document.file)]
        key = document.version if self._shows_refused else None, found
        if key != document.unknown:
            document.unknown = key
            about = {"uri": document.uri, "version": document.version}
            self.bridge.notify("$/hol/fileProgress", {"textDocument": about, "processing": found})

    def _progress(self, is_done: bool) -> None:
        """Shows how far the sweep is, where it takes long."""
        if self._token is None:
            is_long = self._busy_since is not None and time.monotonic() - self._busy_since >= PROGRESS_SECONDS
            if is_done or not is_long or not self._shows_progress:
                return
            self._tokens += 1
            self._token = "holls-%d" % self._tokens
            self.bridge.send({"id": self._token, "method": "window/workDoneProgress/create", "params": {"token": self._token}})
            self._tell({"kind": "begin", "title": "hol", "percentage": 0})
        if is_done:
            self._tell({"kind": "end"})
            self._token = None
            return
        files = [file for server in self.bridge.servers.values() for file in server.files]
        entries = [entry for file in files for entry in file.theory.entries if not entry.is_hidden]
        known = sum(entry.report is not None for entry in entries)
        message = "%d of %d commands" % (known, len(entries))
        slow = next((entry for entry in entries if entry.is_slow), None)
        if slow is not None:
            message += "; running for over 5 seconds: " + slow.text.split("\n")[0][:60]
        self._tell({"kind": "report", "percentage": 100 * known // max(1, len(entries)), "message": message})

    def _tell(self, value: Dict[str, Any]) -> None:
        self.bridge.notify("$/progress", {"token": self._token, "value": value})
