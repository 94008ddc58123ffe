"""A project's theories in a server of its own."""

from __future__ import annotations

import time
from typing import TYPE_CHECKING, Any, List, Optional

from holls import graph
from holls.files import File
from holls.session import Session
from holls.sweep import Sweep

if TYPE_CHECKING:
    from holls.lsp.bridge import Bridge

REST_SECONDS = 0.1
"""So long after an edit only what is seen is asked for."""


class ProjectServer:
    """The files of a project, and the session with their server, once the program is known."""

    def __init__(self, bridge: "Bridge", root: str) -> None:
        self.bridge, self.root = bridge, root
        self.sweep = Sweep()
        self.session: Optional[Session] = None
        self.resting_until: Optional[float] = None
        self.files: List[File] = []
        self._taken: Any = None
        self._first: Optional[File] = None

    def take(self, files: List[File], first: Optional[File]) -> bool:
        """Takes the files, each after those that it imports, and which one is worked on. Answers whether something has changed."""
        self._first = first or self._first
        taken = [(id(file.theory), file.theory.edits, tuple(file.theory.imports)) for file in files]
        if taken == self._taken and (self.session is not None or not self.bridge.program):
            return False
        self._taken, self.files = taken, files
        self.sweep.begin(self._in_order())
        self.sweep.is_resting = True
        self.resting_until = time.monotonic() + REST_SECONDS
        return True

    def _in_order(self) -> List[File]:
        """The files in the order in which they are run: what is worked on and its imports come first."""
        if self._first not in self.files:
            return self.files
        first = graph.ordered_from(self._first, {file.name: file for file in self.files})
        return first + [file for file in self.files if file not in first]

    def work_on(self, file: File) -> None:
        """Takes which file is worked on now: it comes first, with its imports, of what is still to be run."""
        if self._first is not file and file in self.files:
            self._first = file
            self.sweep.begin(self._in_order())
            if self.session and not self.session.is_idle:
                self.bring_in_step()

    def bring_in_step(self) -> None:
        """Brings the server in step with the files; it is started where the program is known."""
        if self.session is None and self.bridge.program:
            probed = self.bridge.program
            self.session = Session(
                probed.words, self.bridge.events, probed.served, self.sweep, self.bridge.told, self.bridge.seconds)
            self.limit()
        if self.session:
            self.session.want([file.theory for file in self._in_order()])

    def limit(self) -> None:
        """Takes how long a command may take, and when it is marked, as the editor wishes it."""
        if self.session:
            self.session.seconds = self.bridge.seconds
            self.session.slow_seconds = float(self.bridge.options.get("slow") or self.session.slow_seconds)

    def settle(self) -> None:
        """What is to be done at its time."""
        if self.resting_until is not None and time.monotonic() >= self.resting_until:
            self.resting_until, self.sweep.is_resting = None, False
            if self.session:
                self.session.pump()
        if self.session:
            self.session.tick()

    def patience(self) -> List[float]:
        """In how many seconds there is something to do."""
        rest = [] if self.resting_until is None else [max(0.0, self.resting_until - time.monotonic())]
        deadline = self.session.deadline() if self.session else None
        return rest + ([] if deadline is None else [deadline])

    def doze(self) -> bool:
        """Ends the server until something is wanted of it, if all is known. Answers whether that was so."""
        return self.session is None or self.is_done and self.session.doze()

    def stop(self) -> None:
        """Ends the server."""
        if self.session:
            self.session.stop()
            self.session = None

    @property
    def failure(self) -> Optional[str]:
        """Why nothing is answered, if that is so."""
        return self.session.failure if self.session else self.bridge.failure

    @property
    def is_done(self) -> bool:
        """Whether nothing is under way."""
        if self.session is None or self.session.failure:
            return self.failure is not None
        return self.session.is_idle and self.resting_until is None
