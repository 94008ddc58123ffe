"""What stands at a place of a file: a name with its meaning."""

from __future__ import annotations

from dataclasses import dataclass, replace
from typing import Optional, Sequence

from holls import binders, manual, names, notation
from holls.files import File
from holls.names import CONSTANT, IN_TERMS, TYPE, Known
from holls.packages.predicates import cites
from holls.text import Command
from holls.view import PLAIN, View


_OF_TERMS = ("RULE_INDUCT ", 'distinctness "', 'injectivity "')
"""Behind these words of steps stands a relation, or a type."""
_OF_TYPES = "A type's theorem of induction, or of cases, for MATCH_MP_TAC: it is made in front of this proof."


@dataclass(frozen=True)
class Word:
    """A name at a place: its range in the file, the command that it stands in, and whether in a quotation.

    It is one of the notation's own, with an entry; a name that is known; a theory that is imported; or none of these. In a quotation in notation it is the
    name for which an operator stands, with the operator's range. `view` is the notation there.
    """

    name: str
    start: int
    end: int
    command: Command
    is_quoted: bool
    entry: Optional[manual.Entry] = None
    known: Optional[Known] = None
    theory: Optional[str] = None
    view: View = PLAIN


def command_at(file: File, place: int) -> Optional[Command]:
    """The command that a place is in."""
    number = file.number_at(place)
    return file.commands[number] if number is not None and place <= file.commands[number].end else None


def is_quoted(command: Command, place: int) -> bool:
    """Whether a place of a command's range in the file is in a quotation."""
    written = command.as_written
    return written.text.count("`", 0, written.offset(place)) % 2 == 1


def word(files: Sequence[File], file: File, place: int) -> Optional[Word]:
    """The name at a place, or behind which it is."""
    number = file.number_at(place)
    command = command_at(file, place)
    if command is None:
        return None
    start, end = notation.word_at(file.lines.text, place)
    view = View.of(file, number)
    if is_quoted(command, start):
        found = _quoted(files, file, command, start if end > start else place)
        return found and replace(found, view=view)
    if start == end or start < command.start:
        return None
    name, written = file.lines.text[start:end], command.as_written
    if command.word == "import" and start > command.start:
        return Word(name, start, end, command, False, theory=name)
    entry = manual.entry(name)
    is_first = name in manual.COMMANDS or name in manual.DECLARATIONS or name in manual.PACKAGES
    if entry and name in manual.PACKAGE_RULES:
        return Word(name, start, end, command, False, _with_statement(entry, file, command, start, view), view=view)
    if entry and (not is_first or start == command.start or name in manual.DECLARATIONS and file.is_declaration(number)):
        return Word(name, start, end, command, False, entry, view=view)
    is_term = file.is_declaration(number) or written.text[:written.offset(start)].endswith(_OF_TERMS)
    kinds = IN_TERMS if is_term else (names.kind_outside(written, written.offset(start)),)
    known = _made(file, command, start, name) or names.find(files, file, place, name, kinds)
    if known is None and cites(name, file.notation.types):
        return Word(name, start, end, command, False, _with_statement(manual.Entry(name, _OF_TYPES), file, command, start, view), view=view)
    return Word(name, start, end, command, False, known=known, view=view)


def _with_statement(entry: manual.Entry, file: File, command: Command, start: int, view: View) -> manual.Entry:
    """A rule's entry with the statement of the theorem that it stands for."""
    first, last = notation.word_at(command.text, command.offset(start))
    begun = "g %s `" % command.text[first:last]
    made = next((one.text for one in file.commands if one.package is not None and one.text.startswith(begun)), None)
    return entry if made is None else entry._replace(does="%s Here: `%s`" % (entry.does, view.term(made[len(begun):-1])))


def _quoted(files: Sequence[File], file: File, command: Command, place: int) -> Optional[Word]:
    """The name that stands for what is written at a place of a quotation."""
    offset = command.offset(place)
    first, last = notation.word_at(command.text, offset)
    start, end = command.range(first, last)
    if first == last or not start <= place <= end:
        return None
    name = command.text[first:last]
    if binders.is_bound(command.text, first):
        return Word(name, start, end, command, True)
    kinds = (TYPE,) if binders.is_in_type(command.text, first) else (CONSTANT,)
    return Word(name, start, end, command, True, known=names.find(files, file, place, name, kinds))


def _made(file: File, command: Command, start: int, name: str) -> Optional[Known]:
    """The name at a place as what its command makes, where it does."""
    written = command.as_written
    if command.word in notation.STEPS and not notation.is_made_name(written.text, written.offset(start)):
        return None
    number = file.number_at(start)
    return next((one for one in names.known(file) if one.number == number and one.name == name), None)
