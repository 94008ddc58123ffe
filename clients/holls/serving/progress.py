"""A bridge that tells the server how far its page is with the exercises of a course: which are proved, and what goal stands of the first that isn't.

It tells it by a message of its own, between those for the page, which the server takes out. Only the goal is told, and the text where the server keeps it.
"""

from __future__ import annotations

import json
import time
from typing import Any, Dict, List, Mapping, Optional, Tuple

from holls.files import File
from holls.lsp.answers import Answered
from holls.lsp.bridge import Bridge
from holls.lsp.workspace import Document
from holls.notation import OUTSIDE
from holls.protocol import Goals, Made
from holls.view import View

METHOD = "$/hol/course"
MARK = b'{"method":"%s"' % METHOD.encode()
"""How such a message begins. Nothing that a page sends comes back as a message that begins so."""
EVERY_SECONDS = 2.0
"""So often at most it is told."""
GOAL = 300
"""So many characters of a goal are told."""
TEXT = 400_000
"""A text of more characters isn't told."""

Exercises = Mapping[str, Tuple[str, ...]]
"""The exercises of a course, by their files."""


class Watched(Bridge):
    """A bridge that tells how far its page is."""

    exercises: Exercises = {}
    tells_texts = False
    _told_at = 0.0
    _told_last: Optional[List[Dict[str, Any]]] = None
    _is_new = False

    def _initialize(self, number: Any, params: Dict[str, Any]) -> Answered:
        """Names the course's files to the page, which opens what it has of them: else all but the one that is shown would be lost with a server."""
        done = super()._initialize(number, params)
        capabilities = dict(done.result["capabilities"], experimental={"exercises": sorted(self.exercises)})
        return Answered(dict(done.result, capabilities=capabilities))

    def told(self) -> None:
        """There is news."""
        self._is_new = True
        super().told()

    def _changed(self, document: Optional[Document]) -> None:
        super()._changed(document)
        self._is_new = True

    def _settle(self) -> None:
        super()._settle()
        if self._is_new and time.monotonic() >= self._told_at + EVERY_SECONDS:
            self._is_new, self._told_at = False, time.monotonic()
            self._report()

    def _patience(self) -> Optional[float]:
        waits = super()._patience()
        if not self._is_new:
            return waits
        own = max(0.0, self._told_at + EVERY_SECONDS - time.monotonic())
        return own if waits is None else min(waits, own)

    def end_programs(self) -> None:
        """Before the end what was still to be told is."""
        if self._is_new:
            self._is_new = False
            self._guard(self._report)
        super().end_programs()

    def _report(self) -> None:
        files = [document.file for document in self.workspace.documents.values()]
        told = [progress(file, self.exercises[file.name]) for file in files if file.name in self.exercises]
        if self.tells_texts:
            texts = {file.name: file.lines.text for file in files if len(file.lines.text) <= TEXT}
            told = [dict(one, text=texts.get(one["file"])) for one in told]
        if told and told != self._told_last:
            self._told_last = told
            self.send({"method": METHOD, "params": {"files": told}})


def progress(file: File, names: Tuple[str, ...]) -> Dict[str, Any]:
    """How far a file is: the exercises that its proofs make, the first other one, and the first goal that stands of it."""
    made = _made(file)
    proved = [name for name in names if name in made]
    is_open = next((name for name in names if name not in made), None)
    return {"file": file.name, "proved": proved, "open": is_open, "goal": _goal(file, is_open) if is_open else None}


def _made(file: File) -> "set[str]":
    """The theorems that proofs of a file have made."""
    entries = [file.entry(number) for number, command in enumerate(file.commands) if command.word == "qed"]
    return {text.split(" ", 2)[1] for entry in entries if entry and isinstance(entry.report, Made) for text in entry.report.entries
            if text.startswith("thm ")}


def _goal(file: File, name: str) -> Optional[str]:
    """The first goal that stands of a theorem: behind the last command of its proof that was accepted."""
    at = next((number for number, command in enumerate(file.commands) if command.word == "g" and command.name == name), None)
    found = None
    while at is not None and at < len(file.commands) and (found is None or file.commands[at].word not in OUTSIDE):
        entry = file.entry(at)
        if entry and isinstance(entry.report, Goals):
            found = View.of(file, at).conclusion(entry.report.goals[0])[:GOAL] if entry.report.goals else "(all are closed: qed)"
        at += 1
        if found is None:
            break  # Its goal isn't accepted.
    return found


def params(body: bytes) -> List[Dict[str, Any]]:
    """What a message tells."""
    return list(json.loads(body)["params"]["files"])
