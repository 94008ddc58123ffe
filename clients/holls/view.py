"""What is shown at a place of a file: what the program says, in the notation that is declared there. It stays as it is where it can't be read."""

from __future__ import annotations

import re
from dataclasses import replace
from typing import Dict, FrozenSet, Iterable, List, NamedTuple, Optional, Pattern, Tuple

from holls.files import File
from holls.protocol import Goal, Made
from holls.surface.errors import Misread
from holls.surface.plain import PlainWriter
from holls.surface.reader import Reader
from holls.surface.shown import Printer, Unprintable
from holls.surface.table import EMPTY, Table
from holls.surface.vocabulary import Asked, Vocabulary, agrees

LONGEST = 100_000
"""So many characters at most are shown in notation; a longer text is shown as the program says it."""
_MOST_KEPT = 5_000
_ENTRY = re.compile(r"(thm \S+ \|- )(.*)\Z|(const [^\s:]+:)(.*)\Z", re.S)


class _Kept(NamedTuple):
    """A text in notation, and what was asked of the vocabulary."""

    text: str
    answers: Dict[Tuple[str, str], Optional[bool]]


class View:
    """The notation of a place. It changes no text that has nothing to be written otherwise."""

    def __init__(self, table: Table, vocabulary: Vocabulary) -> None:
        self.table, self.vocabulary = table, vocabulary

    @staticmethod
    def of(file: File, number: Optional[int]) -> "View":
        """The view behind a command of a file."""
        return View(file.notation.table(number), file.notation.vocabulary_at(number))

    @staticmethod
    def of_all(files: Iterable[File]) -> "View":
        """The view of one who has imported all files. Of what can't stand together the first stays."""
        table, constructors, constants = EMPTY, {}, {}
        for file in files:
            table, _ = table.joined(file.notation.exported)
            constructors.update(file.notation.vocabulary.constructors)
            constants.update(file.notation.vocabulary.constants)
        return View(table, Vocabulary(constructors, constants))

    def term(self, text: str, hidden: Iterable[str] = ()) -> str:
        """A term of the program's in notation. Free names that are `hidden` are variables."""
        names = frozenset(hidden) & self.table.constants
        return self._shown(text, names, False)

    def type(self, text: str) -> str:
        """A type of the program's in notation."""
        return self._shown(text, frozenset(), True)

    def typed(self, text: str) -> str:
        """A variable with its type, `name:type`."""
        name, colon, type_ = text.partition(":")
        return name + colon + self.type(type_)

    def goal(self, goal: Goal) -> Goal:
        """A goal."""
        if self.table.is_empty:
            return goal
        free = [name.partition(":")[0] for name in goal.free]
        return replace(goal, assumptions=tuple(self.term(text, free) for text in goal.assumptions),
                       free=tuple(self.typed(text) for text in goal.free), conclusion=self.term(goal.conclusion, free))

    def conclusion(self, goal: Goal) -> str:
        """What a goal concludes."""
        return self.term(goal.conclusion, [name.partition(":")[0] for name in goal.free])

    def made(self, made: Made) -> Made:
        """What a report has made."""
        return made if self.table.is_empty else Made(tuple(self.entry(text) for text in made.entries))

    def entry(self, text: str) -> str:
        """An entry of a report: a theorem or a constant."""
        found = _ENTRY.match(text)
        if not found:
            return text
        return found.group(1) + self.term(found.group(2)) if found.group(1) else found.group(3) + self.type(found.group(4))

    def hidden(self, goal: Goal) -> List[str]:
        """The names of a goal's free variables for which an operator or a form would stand, were they constants."""
        return [name for name in (text.partition(":")[0] for text in goal.free) if name in self.table.constants]

    def plain(self, text: str) -> str:
        """A term in notation as the program reads it. Raises `Misread`."""
        if self.table.is_empty:
            return text
        reader = Reader(text, self.table, self.vocabulary)
        writer = PlainWriter()
        writer.term(reader.ended(reader.term()))
        return writer.text if reader.is_notation else text

    def _shown(self, text: str, hidden: FrozenSet[str], is_type: bool) -> str:
        if len(text) > LONGEST or not self._concerns(text):
            return text
        kept: Dict[object, _Kept] = self.table.memory.setdefault("shown", {})
        key = text, hidden, is_type
        found = kept.get(key)
        if found is None or not agrees(self.vocabulary, found.answers):
            if len(kept) >= _MOST_KEPT:
                kept.clear()
            asked = Asked(self.vocabulary)
            found = kept[key] = _Kept(_printed(text, self.table, asked, hidden, is_type), asked.answers)
        return found.text

    def _concerns(self, text: str) -> bool:
        """Whether a text has a name that is written otherwise in notation."""
        if self.table.is_empty:
            return False
        names: Optional[Pattern[str]] = self.table.memory.get("names")
        if names is None:
            every = {*self.table.constants, *self.table.of_constructor, *self.table.words, *self.table.reserved, *self.table.sets}
            names = self.table.memory["names"] = re.compile(r"(?<![A-Za-z0-9_'])(?:%s)(?![A-Za-z0-9_'])" % "|".join(map(re.escape, sorted(every))))
        return names.search(text) is not None


PLAIN = View(EMPTY, Vocabulary())
"""Of the program's own language."""


def _printed(text: str, table: Table, vocabulary: Vocabulary, hidden: FrozenSet[str], is_type: bool) -> str:
    try:
        reader = Reader(text, EMPTY, None)
        printer = Printer(table, vocabulary, hidden)
        return printer.type(reader.ended(reader.read_type())) if is_type else printer.term(reader.ended(reader.term()))
    except (Misread, Unprintable):
        return text
