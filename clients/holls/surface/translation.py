"""Commands in notation: as the program gets them, with places both ways, and back into notation.

A command's quotations are read one by one. One with nothing of the notation is sent as it is written, and so is a command without any other.
"""

from __future__ import annotations

from bisect import bisect_right
from functools import partial
from typing import Callable, Dict, List, NamedTuple, Optional, Sequence, Set, Tuple, Union

from holls.surface import definition, direct
from holls.surface.errors import Misread
from holls.surface.plain import PlainWriter, Segment
from holls.surface.reader import Reader
from holls.surface.shown import Printer, Unprintable
from holls.surface.table import EMPTY, MOST_BRACKETS, MOST_TOKENS, PERHAPS, Table
from holls.surface.tree import Annotation, Application, Binder, Connective, Name, Negation, Term
from holls.surface.vocabulary import Answers, Answered, Asked, Vocabulary, agrees

_DEFINING = "new_definition"
_MOST_KEPT = 20_000
_EVERYWHERE = 1 << 60
_SPACE = " \t\r\n"
_BETWEEN = ("", " ", "(", ")")
"""What stands between the names and symbols of what is written."""


class Translation:
    """A command as it is sent. Without `segments` it is sent as it is written; with an error it isn't sent, and its text is empty.

    `answers` are what was asked of the vocabulary. Segments may be given by what makes them, where they are asked for.
    """

    __slots__ = ("text", "error", "answers", "_segments")

    def __init__(self, text: str, segments: Union[List[Segment], Callable[[], List[Segment]], None] = None, error: Optional[Misread] = None,
                 answers: Optional[Answers] = None) -> None:
        self.text, self.error, self.answers, self._segments = text, error, answers or {}, segments

    @property
    def is_changed(self) -> bool:
        """Whether what is sent isn't what is written."""
        return self._segments is not None or self.error is not None

    @property
    def segments(self) -> Optional[List[Segment]]:
        """What leads back from the places of what is sent."""
        if callable(self._segments):
            self._segments = self._segments()
        return self._segments

    def range(self, start: int, end: int) -> Tuple[int, int]:
        """The range in the command as it is written from which a range of what is sent comes: one character at least of what has any."""
        if self.segments is None:
            return start, end
        first, last = self._segment(start), self._segment(max(start, end - 1))
        begins, _, _ = self._written(first, start)
        _, _, ends = self._written(last, max(start, end - 1))
        return begins, max(ends if end > start else begins, begins)

    def place(self, offset: int) -> int:
        """The place in the command as it is written from which a place of what is sent comes."""
        if self.segments is None:
            return offset
        return self._written(self._segment(offset), offset)[0]

    def offset(self, place: int) -> int:
        """The place in what is sent of the innermost part that a place of the command as it is written belongs to."""
        if self.segments is None:
            return place
        fitting = [(self.text[offset:offset + 1] in _BETWEEN, end - start, offset, start, at)
                   for at, (offset, start, end) in enumerate(self.segments) if start <= place < max(end, start + 1)]
        if not fitting:
            return len(self.text) if place else 0
        _, width, offset, start, at = min(fitting)
        return offset + (place - start if width == self._length(at) else 0)

    def _segment(self, offset: int) -> int:
        return max(0, bisect_right(self.segments, (offset, _EVERYWHERE, 0)) - 1)

    def _length(self, at: int) -> int:
        following = self.segments[at + 1][0] if at + 1 < len(self.segments) else len(self.text)
        return following - self.segments[at][0]

    def _written(self, at: int, offset: int) -> Tuple[int, int, int]:
        """Of a character of what is sent: its place as it is written where the two run side by side, else its segment's; and where these end."""
        begin, start, end = self.segments[at]
        if end - start != self._length(at):
            return start, end, end
        place = start + min(offset - begin, end - start)
        return place, end, min(place + 1, end)


def translated(text: str, table: Table, vocabulary: Vocabulary) -> Translation:
    """A command's text as it is sent where a table and a vocabulary stand. It is kept, and found again while these say the same."""
    if table.is_empty or "`" not in text:
        return Translation(text)
    kept: Dict[str, Translation] = table.memory.setdefault("translations", {})
    found = kept.get(text)
    if found is None or not agrees(vocabulary, found.answers):
        if len(kept) >= _MOST_KEPT:
            kept.clear()
        found = kept[text] = _translated(text, table, vocabulary)
    return found


def _translated(text: str, table: Table, vocabulary: Vocabulary) -> Translation:
    parts = text.split("`")
    is_defining = text.startswith(_DEFINING) and text[len(_DEFINING):len(_DEFINING) + 1] in _SPACE
    asked = Asked(vocabulary)
    at, is_changed = 0, False
    for number in range(len(parts) - 1):
        part = parts[number]
        if number % 2:
            try:
                found = _sent(part, at, table, asked, is_defining)
            except Misread as error:
                return Translation("", None, error, asked.answers)
            if found is not None:
                parts[number], is_changed = found, True
        at += len(part) + 1
    if not is_changed:
        return Translation(text, None, None, asked.answers)
    return Translation("`".join(parts), partial(_segments, text, parts, table, asked.answers, is_defining), None, asked.answers)


def _segments(text: str, sent: Sequence[str], table: Table, answers: Answers, is_defining: bool) -> List[Segment]:
    """What leads back from the places of a command that is sent in parts, between which backquotes stand."""
    found: List[Segment] = []
    vocabulary = Answered(answers)
    length = at = 0
    for number, (written, part) in enumerate(zip(text.split("`"), sent)):
        if number:
            found.append((length, at, at + 1))
            length, at = length + 1, at + 1
        writer = _writer(written, at, table, vocabulary, is_defining) if part != written else None
        found += writer.segments(length) if writer is not None and writer.text == part else [(length, at, at + len(written))]
        length += len(part)
        at += len(written)
    return found


def _writer(text: str, base: int, table: Table, vocabulary: Vocabulary, is_defining: bool) -> Optional[PlainWriter]:
    """A quotation that is sent otherwise, with where its parts come from."""
    try:
        return _written(text, base, table, vocabulary, is_defining)
    except Misread:
        return None


def _sent(text: str, base: int, table: Table, vocabulary: Asked, is_defining: bool) -> Optional[str]:
    """A quotation as it is sent; None where that is as it is written. Raises `Misread` where it is in notation and can't be read.

    It is kept where it says the same whatever stands: many quotations stand in a file again and again.
    """
    if is_defining:
        return _sent_anew(text, base, table, vocabulary, True)
    kept: Dict[str, Optional[str]] = table.memory.setdefault("quotations", {})
    if text in kept:
        return kept[text]
    before = vocabulary.number
    found = _sent_anew(text, base, table, vocabulary, False)
    if vocabulary.number == before:
        if len(kept) >= _MOST_KEPT:
            kept.clear()
        kept[text] = found
    return found


def _sent_anew(text: str, base: int, table: Table, vocabulary: Vocabulary, is_defining: bool) -> Optional[str]:
    """A quotation as it is sent, read."""
    is_certain = bool(table.notation.search(text))
    if not is_certain and not PERHAPS.search(text):
        return None
    found = None if is_defining else direct.written(text, table, vocabulary)
    if found is not None:
        return None if found is text else found
    try:
        writer = _written(text, base, table, vocabulary, is_defining)
    except Misread:
        if is_certain:
            raise
        return None
    return None if writer is None else writer.text


def _written(text: str, base: int, table: Table, vocabulary: Vocabulary, is_defining: bool) -> Optional[PlainWriter]:
    writer = PlainWriter()
    body = text.lstrip(_SPACE)
    start = base + len(text) - len(body)
    if body.startswith(":"):
        reader = Reader(body[1:], table, vocabulary, start + 1)
        found = reader.ended(reader.read_type())
        writer.put(":", start, start + 1)
        writer.type(found)
        return writer if reader.is_notation else None
    reader = Reader(body, table, vocabulary, start)
    if len(reader.tokens) > MOST_TOKENS:
        raise Misread(start, start + 1, "this quotation has over %d tokens, and the program reads %d of a command: split it" % (
            MOST_TOKENS, MOST_TOKENS // 2))
    if is_defining:
        defined = definition.read(reader)
        term = defined.body
        if reader.is_notation:
            definition.write(defined, writer)
    else:
        term = reader.ended(reader.term())
        if reader.is_notation:
            writer.term(term)
    if writer.text.count("(") > MOST_BRACKETS and writer.deepest() > MOST_BRACKETS:
        raise _too_deep(term, table)
    return writer if reader.is_notation else None


def _too_deep(term: Term, table: Table) -> Misread:
    """The error of a term that takes too many brackets: it names its longest list, set or sum."""
    number, name, start, end = _longest(term, (table.part("even"), table.part("odd")))
    operator = table.of_constant.get(name)
    if name == table.part("cons"):
        what = "this list has %d members" % number
    elif name == table.part("insert"):
        what = "this set has %d members" % number
    elif name == table.part("even"):
        what = "this numeral has %d binary digits" % (number + 1)
    elif operator is not None:
        what = "`%s` joins %d terms here" % (operator.symbol, number + 1)
    else:
        what = "this term is nested too deeply"
    return Misread(start, end, "%s, and the program reads at most %d brackets open at once: split it" % (what, MOST_BRACKETS))


def _longest(term: Term, digits: Tuple[Optional[str], ...]) -> Tuple[int, str, int, int]:
    """The longest chain of applications of one constant in which each is the last, or the first, argument of the one before; and its range.

    Both digits of numerals count as one constant.
    """
    best = (0, "", term.start, term.end)
    seen: Set[Tuple[str, int]] = set()
    waiting = [term]
    while waiting:
        node = waiting.pop()
        for side in ("argument", "left"):
            number, name = _chain(node, side, seen, digits)
            if number > best[0]:
                best = (number, name, node.start, node.end)
        if isinstance(node, Application):
            waiting += (node.argument, node.function)
        elif isinstance(node, Connective):
            waiting += (node.right, node.left)
        elif isinstance(node, (Negation, Binder)):
            waiting.append(node.body)
        elif isinstance(node, Annotation):
            waiting.append(node.term)
    return best


def _chain(node: Term, side: str, seen: Set[Tuple[str, int]], digits: Tuple[Optional[str], ...]) -> Tuple[int, str]:
    name, number = _head(node, digits), 0
    while name and _head(node, digits) == name and (side, id(node)) not in seen:
        seen.add((side, id(node)))
        number += 1
        is_unary = isinstance(node.function, Name)
        node = node.argument if side == "argument" or is_unary else node.function.argument
    return number, name


def _head(node: Term, digits: Tuple[Optional[str], ...]) -> str:
    """The name that is applied to one argument or two."""
    if not isinstance(node, Application):
        return ""
    function = node.function.function if isinstance(node.function, Application) else node.function
    if not isinstance(function, Name):
        return ""
    return digits[0] or "" if function.text in digits else function.text


class Written(NamedTuple):
    """A command in notation, and how many of its quotations have no text in it."""

    text: str
    left: int


def in_notation(text: str, table: Table, vocabulary: Vocabulary) -> Written:
    """A command's plain text with its quotations in notation. One that reads otherwise then, or that can't be printed, is left as it is."""
    if table.is_empty:
        return Written(text, 0)
    parts = text.split("`")
    is_defining = text.startswith(_DEFINING)
    left = 0
    for number in range(1, len(parts) - 1, 2):
        try:
            parts[number] = quotation_in_notation(parts[number], table, vocabulary, is_defining)
        except (Misread, Unprintable):
            left += 1
    return Written("`".join(parts), left)


def quotation_in_notation(text: str, table: Table, vocabulary: Vocabulary, is_defining: bool = False) -> str:
    """A plain quotation in notation. Raises `Misread` or `Unprintable` where there is no such text."""
    body = text.strip(_SPACE)
    printer = Printer(table, vocabulary)
    if body.startswith(":"):
        reader = Reader(body[1:], EMPTY, None)
        return ":" + printer.type(reader.ended(reader.read_type()))
    reader = Reader(body, EMPTY, None)
    if is_defining:
        return definition.shown(definition.read(reader), printer)
    return printer.term(reader.ended(reader.term()))
