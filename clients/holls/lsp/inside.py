"""What happens within a step: the goals before a part of it, and the part and the goal by which it is refused. Its beginnings are run beside all
theories, behind the proof's statement and the steps above."""

from __future__ import annotations

from typing import TYPE_CHECKING, Dict, List, Optional, Sequence, Tuple

from holls import words
from holls.files import File
from holls.lsp import beginnings, goals
from holls.lsp.beginnings import Part
from holls.protocol import Goal, Goals, Refusal
from holls.view import View

if TYPE_CHECKING:
    from holls.lsp.bridge import Bridge
    from holls.lsp.workspace import Document

_THEORY = "holls_inside"
_INFIXES = ("THEN", "ORELSE")
_MOST_KEPT = 400
_MOST_GOALS = 8
"""With more goals than these it isn't asked on which of them a part is refused."""


class Inside:
    """What is known of beginnings of steps, each asked once."""

    def __init__(self, bridge: "Bridge") -> None:
        self._bridge = bridge
        self._known: Dict[Tuple[str, ...], List[object]] = {}

    def text(self, document: "Document", place: int) -> Optional[str]:
        """Words on the part of a step at a place; empty where there is nothing to say, None as long as it isn't known."""
        file = document.file
        number = file.number_at(place)
        command = file.commands[number] if number is not None else None
        entry = file.entry(number) if command is not None and command.word == "e" else None
        text = entry.sent if entry and entry.sent == command.text else ""
        if not any(word in text for word in _INFIXES) or entry.report is None:
            return ""
        part = beginnings.part_at(text[len("e"):], command.offset(place) - len("e"))
        if part is None:
            return ""
        before = self._before(document, number, part)
        if before is None or not isinstance(before, Goals):
            return None if before is None else ""
        own = before.goals
        if part.beginning is not None:
            own = own[part.first:len(own) - part.last - self._others(document, number)]
        said = "before this part:\n" + goals.text(goals.in_notation(goals.State(number, Goals(tuple(own)), None, []), View.of(file, number)))
        if not isinstance(entry.report, Refusal):
            return said
        after = self._after(document, number, "e " + part.whole)
        if after is None:
            return None
        return self._refused(document, number, part, own, after, said) if isinstance(after, Refusal) else said

    def _before(self, document: "Document", number: int, part: Part) -> object:
        """The goals before a part, with those of other parts beside it; None as long as they aren't known."""
        return self._after(document, number, "" if part.beginning is None else "e " + part.beginning)

    @staticmethod
    def _others(document: "Document", number: int) -> int:
        """How many goals of the proof the step doesn't touch."""
        known = goals.state(document.file, number - 1)
        found = (known.plain or known).goals if isinstance(known, goals.State) else None
        return max(0, len(found.goals) - 1) if found else 0

    def _refused(self, document: "Document", number: int, part: Part, own: Sequence[Goal], after: Refusal, said: str) -> Optional[str]:
        """Words on a part that is refused, with the goal on which it is where there are several."""
        why = words.explain(document.file.commands[number].text, after)[2]
        kind = "this alternative is refused" if part.is_alternative else "refused in this part"
        if part.before and part.infix == "THEN" and 1 < len(own) <= _MOST_GOALS:
            for at in range(len(own)):
                report = self._after(document, number, "e " + part.on(at, len(own)))
                if report is None:
                    return None
                if isinstance(report, Refusal):
                    return "%s, on goal %d of %d: %s\n%s" % (kind, at + 1, len(own), why, said)
        return "%s: %s\n%s" % (kind, why, said)

    def _after(self, document: "Document", number: int, begin: str) -> object:
        """The report on the beginning of a step; None as long as there is none."""
        file = document.file
        if not begin.strip():
            known = goals.state(file, number - 1)
            return None if not isinstance(known, goals.State) else (known.plain or known).goals or ""
        texts = _commands(file, number, begin)
        server = self._bridge.server_of(document)
        if server is None or server.session is None or server.failure:
            return ""
        if tuple(texts) not in self._known:
            if len(self._known) > _MOST_KEPT:
                self._known.clear()
            answers = self._known[tuple(texts)] = []
            server.session.ask_beside(_THEORY, texts, answers.append)
        found = self._known[tuple(texts)]
        return found[0] if found else None


def _commands(file: File, number: int, begin: str) -> List[str]:
    """The commands that come to the beginning of a step."""
    first = file.proof_begin(number)
    statement = file.entry(first).sent
    made = ["import " + file.name, "g %s %s" % (_THEORY, statement[statement.index("`"):] if "`" in statement else "")]
    for at in range(first + 1, number):
        entry = file.entry(at)
        if entry and isinstance(entry.report, Goals):
            made.append(entry.sent)
    return made + [begin.strip()]
