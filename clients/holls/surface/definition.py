"""A definition's quotation: the constant, its arguments, its type, and what it is."""

from __future__ import annotations

from typing import List, NamedTuple, Optional

from holls.surface.errors import Misread
from holls.surface.frames import Variable
from holls.surface.plain import PlainWriter
from holls.surface.reader import Reader
from holls.surface.shown import Printer
from holls.surface.tokens import WORD
from holls.surface.tree import PRECEDENCES, Annotation, Name, Term, Type, spine

_EQUALS = ("=", "<=>")
_ABOVE_AND = PRECEDENCES["/\\"] + 1
_LOOSE = "unexpected `%s`: the right side of a definition's = stands in parentheses, or has <=> before it"


class Definition(NamedTuple):
    """What a definition says; its range is that of the quotation."""

    name: Name
    arguments: List[Variable]
    type: Optional[Type]
    symbol: str
    at: int
    body: Term
    start: int
    end: int


def read(reader: Reader, is_loose: bool = False) -> Definition:
    """The definition that a reader's text is; a loose one has any term behind its `=`. Raises `Misread`."""
    start = reader.next.start
    found = _by_name(reader) or _by_operator(reader)
    name, arguments, type_ = found
    equals = reader.next
    if equals.text not in _EQUALS:
        raise reader.misread("`=` or `<=>` is missing here")
    reader.at += 1
    names = [argument.name for argument in arguments]
    reader.bind(names)
    body = reader.ended(reader.term(PRECEDENCES["="] if equals.text == "=" and not is_loose else 0, _LOOSE))
    reader.unbind(names)
    return Definition(name, arguments, type_, equals.text, equals.start, body, start, body.end)


def _by_name(reader: Reader):
    """`c x y : type`, the form of the plain language; None where an operator stands behind the first name."""
    first, second = reader.next, reader.tokens[min(1, len(reader.tokens) - 1)]
    if first.kind is not WORD or first.text in reader.table.reserved or second.text in reader.table.operators:
        return None
    reader.at += 1
    arguments: List[Variable] = []
    while not reader.next.text == ":" and reader.next.text not in _EQUALS:
        found = reader.pattern()
        if not isinstance(found, Variable):
            raise Misread(found.start, found.end, "an argument of a definition is a variable, and no pair")
        arguments.append(found)
    type_ = None
    if reader.is_next(":"):
        reader.at += 1
        type_ = reader.read_type()
    return Name(first.text, first.start, first.end), arguments, type_


def _by_operator(reader: Reader):
    """`x + y`, where the operator is declared already."""
    reader.is_notation = True
    left = reader.term(_ABOVE_AND, "`=` or `<=>` is missing before `%s`", _EQUALS)
    head, parts = spine(left)
    if not isinstance(head, Name):
        raise Misread(left.start, left.end, "a definition begins with the constant's name")
    arguments: List[Variable] = []
    for part in parts:
        term, type_ = (part.term, part.type) if isinstance(part, Annotation) else (part, None)
        if not isinstance(term, Name):
            raise Misread(part.start, part.end, "an argument of a definition is a variable")
        arguments.append(Variable(term.text, type_, term.start, part.end))
    return head, arguments, None


def write(definition: Definition, writer: PlainWriter) -> None:
    """Writes a definition as the program reads it."""
    start, end = definition.start, definition.end
    name, symbol = definition.name, definition.symbol
    writer.put(name.text, name.start, name.end)
    for argument in definition.arguments:
        writer.put(" ", start, end)
        writer.variable(argument.name, argument.type, argument.start, argument.end)
    if definition.type is not None:
        writer.put(":", start, end)
        writer.type(definition.type)
    writer.put(" ", start, end)
    writer.put(symbol, definition.at, definition.at + len(symbol))
    writer.put(" ", start, end)
    writer.term(definition.body, PRECEDENCES["="] if symbol == "=" else 0)


def shown(definition: Definition, printer: Printer) -> str:
    """The text of a definition in notation. Raises `Unprintable`."""
    parts = [definition.name.text]
    for argument in definition.arguments:
        parts.append(printer.variable(argument))
    head = " ".join(parts)
    if definition.type is not None:
        head += ":" + printer.type(definition.type)
    for argument in definition.arguments:
        printer.bound[argument.name] = printer.bound.get(argument.name, 0) + 1
    body = printer.term(definition.body, PRECEDENCES["="] if definition.symbol == "=" else 0)
    for argument in definition.arguments:
        printer.bound[argument.name] -= 1
    return "%s %s %s" % (head, definition.symbol, body)
