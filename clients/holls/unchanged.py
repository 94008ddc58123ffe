"""Which reports an edit of a theory can't have changed, so that they needn't be asked for again.

A report depends on the texts above it and on what is imported. So what stands above an edit keeps its report; and what stands below it does
from the first place on at which all is as it was before the edit: the same entries, and no proof open, or the same one in the same state.
That is known by the reports up to there:

- a refused command changes nothing, so all is as it was behind commands that are refused, and were before;
- behind an `oops` no proof is open, whether it ended one or was refused;
- behind a `qed` that makes the theorem which it made before, where its `g` stands above the edit, no proof is open and the same theorem stands.
  It may rest on other items than before; this can only matter to an `import` of a named expression that cites it, so imports are asked for.

Where another command than these makes entries, now or before, nothing is concluded from texts alone: two theorems that are shown alike may
differ in types.
"""

from __future__ import annotations

import re
from enum import Enum
from typing import TYPE_CHECKING, List, Optional, Sequence, Union

from holls import protocol
from holls.difference import middle
from holls.protocol import Made, Refusal

if TYPE_CHECKING:
    from holls.theory import Entry

Known = Optional[Union[protocol.Report, protocol.Lost]]

OOPS, QED, GOAL, IMPORT = "oops", "qed", "g", "import"
_WORD = re.compile(r"[A-Za-z_]*")


class Before:
    """The commands of a theory and their reports, at a time when all of them were known. That of a hidden command is None."""

    def __init__(self, entries: Sequence["Entry"]) -> None:
        self.texts = [entry.text for entry in entries]
        self.reports: List[Known] = [entry.report for entry in entries]


class _Stage(Enum):
    """What the walk goes through: what differs, what is below it, what is known to be as before, what isn't."""

    MIDDLE = 1
    BELOW = 2
    SAME = 3
    OTHER = 4


class Walk:
    """Goes down from an edit, as reports come, and fills in those that are as they were before.

    `frontier` is the place up to which reports have to be asked for; what is below may still turn out to be known.
    """

    def __init__(self, before: Before, entries: Sequence["Entry"]) -> None:
        self._before, self._entries = before, entries
        part = middle(before.texts, [entry.text for entry in entries])
        self._at, self._end, self._shift = part.start, part.start + part.new, part.new - part.old
        self._stage = _Stage.MIDDLE
        self._all_refused, self._has_goal, self._asks_imports = True, False, False
        for at in range(part.start):
            self._fill_in(at, at)
        for at in range(part.start, part.start + part.old):
            self._pass(before.texts[at], before.reports[at])
        self.frontier = self._end
        self.go()

    def go(self) -> None:
        """Goes as far as the reports are known."""
        steps = {_Stage.MIDDLE: self._middle, _Stage.BELOW: self._below, _Stage.SAME: self._same}
        while self._stage != _Stage.OTHER and self._at < len(self._entries):
            if not steps[self._stage]():
                return
        self.frontier = len(self._entries)

    def _middle(self) -> bool:
        """Takes a command that differs. Answers whether it goes on."""
        if self._at == self._end:
            self._stage = _Stage.SAME if self._all_refused else _Stage.BELOW
            return True
        entry = self._entries[self._at]
        self.frontier = self._end
        if entry.report is None and not entry.is_hidden:
            return False
        self._pass(entry.text, entry.report)
        self._at += 1
        return True

    def _pass(self, text: str, report: Known) -> None:
        """Takes what stands only before, or only now."""
        if isinstance(report, Refusal):
            return
        self._all_refused = False
        self._has_goal = self._has_goal or _word(text) == GOAL
        if isinstance(report, (Made, protocol.Lost)) and text != OOPS:
            self._stage = _Stage.OTHER

    def _below(self) -> bool:
        """Takes a command that stood below what differs. Answers whether it goes on."""
        entry = self._entries[self._at]
        if entry.text == OOPS:
            self._stage = _Stage.SAME
            self._at += 1
            return True
        if entry.report is None:
            self.frontier = next(
                (at + 1 for at in range(self._at, len(self._entries)) if _word(self._entries[at].text) in (OOPS, QED)), len(self._entries))
            return False
        then, word = self._before.reports[self._at - self._shift], _word(entry.text)
        if isinstance(entry.report, Made) or isinstance(then, Made):
            is_same = word == QED and entry.report == then and not self._has_goal
            self._stage, self._asks_imports = (_Stage.SAME, True) if is_same else (_Stage.OTHER, False)
        elif word == GOAL and isinstance(entry.report, Refusal) is not isinstance(then, Refusal) or isinstance(entry.report, protocol.Lost):
            self._stage = _Stage.OTHER
        self._at += 1
        return True

    def _same(self) -> bool:
        """Fills in a report that is as it was. Answers whether it goes on."""
        entry, old = self._entries[self._at], self._at - self._shift
        if not self._asks_imports or _word(entry.text) != IMPORT:
            self._fill_in(self._at, old)
        elif entry.report is None:
            self.frontier = self._at + 1
            return False
        elif entry.report != self._before.reports[old]:
            self._stage = _Stage.OTHER
        self._at += 1
        return True

    def _fill_in(self, at: int, old: int) -> None:
        entry = self._entries[at]
        if entry.report is None and not entry.is_hidden:
            entry.report = self._before.reports[old]


def all_known(entries: Sequence["Entry"]) -> bool:
    """Whether there is a report on each command that isn't hidden, and none is lost."""
    return all(entry.is_hidden or entry.report is not None and not isinstance(entry.report, protocol.Lost) for entry in entries)


def _word(text: str) -> str:
    return _WORD.match(text).group()
