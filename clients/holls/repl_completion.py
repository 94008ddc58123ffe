"""Completion by Tab at the prompt: the words that may stand where the cursor is."""

from __future__ import annotations

import glob
from typing import Callable, List, Optional, Tuple

from holls import graph
from holls.files import File
from holls.lsp import completion
from holls.projects import SUFFIX, names_of_library
from holls.repl_session import Session

Buffer = Callable[[], Tuple[str, int]]
"""The line that is being written, and where the word begins that is completed."""


class Completer:
    """Answers readline's questions, one completion after the other."""

    def __init__(self, session: Session, buffer: Buffer) -> None:
        self._session, self._buffer = session, buffer
        self._found: List[str] = []

    def complete(self, word: str, number: int) -> Optional[str]:
        """The completion of this number, from 0; None behind the last one."""
        if number == 0:
            try:
                self._found = self.words(word)
            except Exception:  # noqa: BLE001: readline drops it without a word, and a key must never end the session
                self._found = []
        return self._found[number] if number < len(self._found) else None

    def words(self, word: str) -> List[str]:
        """All completions, the likeliest first."""
        line, begin = self._buffer()
        before = line[:begin].split()
        if not before:
            return [one + " " for one in self._session.own_words() if one.startswith(word)]
        if before[0] in ("save", "save!"):
            return sorted(glob.glob(glob.escape(word) + "*" + SUFFIX) + glob.glob(glob.escape(word) + "*/"))
        if before[0] == "import":
            own = (name for project in self._session.projects for name in project.names)
            return sorted({name for name in (*own, *names_of_library()) if name.startswith(word)})
        return list(dict.fromkeys(one for one in self._at(line, begin, word) if one.startswith(word)))

    def _at(self, line: str, begin: int, word: str) -> List[str]:
        """The words that may stand in a command, as the editors have them."""
        session = self._session
        command = "search" if line.split()[0] in ("search", "basis", "prove", "qed") else ""
        typed = "e ACCEPT_TAC " + word if command else line[:begin] + word
        file = File(session.theory.name + SUFFIX)
        text = session.text.rstrip() + "\n"
        file.take(text + typed + ("`" if typed.count("`") % 2 else ""))
        graph.know_imports(file, {**session.theory.project.files, file.name: file})
        files = list(session.theory.project.files.values()) + [file]
        found = completion.at(files, [], file, len(text) + len(typed))
        return [item["label"] for item in sorted(found, key=lambda item: item["sortText"])]
