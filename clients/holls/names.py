"""The names that files make: theorems, constants, types and tactics, with what is shown of them; and which stand at a place."""

from __future__ import annotations

import re
from dataclasses import dataclass
from typing import Dict, Iterator, List, NamedTuple, Optional, Sequence, Tuple

from holls import binders, graph, manual, notation
from holls.files import File
from holls.protocol import Made
from holls.text import Command
from holls.view import View

HIDDEN = "pk_"
"""So begin the names of what packages make for themselves."""
THEOREM, CONSTANT, TYPE, TACTIC = "theorem", "constant", "type", "tactic"
IN_TERMS = (CONSTANT, TYPE)
"""The kinds of names that stand in quotations."""

_SHOWN = re.compile(r"(thm|const|type) ([^\s:/]+)(?: \|- |:|/)(.*)\Z", re.S)
_KINDS = {"thm": THEOREM, "const": CONSTANT, "type": TYPE}
_NAMED = re.compile(r"deftac\s+([A-Za-z_][A-Za-z0-9_']*)\s*(.*)\Z", re.S)
_DEFINED = re.compile(r"\s*([A-Za-z_][A-Za-z0-9_']*)")


class Written(NamedTuple):
    """A name as a command's text makes it: the command, the last one of its proof, and its statement, type or expression as it is written."""

    kind: str
    name: str
    number: int
    last: int
    text: str


@dataclass(frozen=True)
class Known:
    """A name that is known: what is shown of it, and the file and the command that make it, which the prelude's lack.

    Where `is_made`, the program has said that it stands, and what is shown is its text; else it is as written. A function's expression always is.
    """

    kind: str
    name: str
    shown: str
    file: Optional[File] = None
    number: int = 0
    is_made: bool = True

    @property
    def origin(self) -> str:
        """The theory that makes it."""
        return self.file.name if self.file else "the prelude"

    def shown_in(self, view: View) -> str:
        """Its statement, type or expression, in the notation of a view."""
        if self.kind == THEOREM:
            return view.term(self.shown)
        return view.type(self.shown) if self.kind == CONSTANT else self.shown

    def line(self, view: View) -> str:
        """The name with its statement, type or expression, in the notation of a view."""
        if self.kind == TACTIC:
            return "deftac %s %s" % (self.name, self.shown)
        return "%s%s%s" % (self.name, {THEOREM: ": |- ", CONSTANT: " : ", TYPE: "/"}[self.kind], self.shown_in(view))


PRELUDE = [Known(THEOREM, name, text) for name, text in manual.PRELUDE.items()] + [
    Known(CONSTANT, name, text) for name, text in manual.CONSTANTS.items()] + [Known(TYPE, name, text) for name, text in manual.TYPES.items()]


def blocks(file: File) -> List[Tuple[int, int]]:
    """The commands that make something, each with the last one that belongs to it: of `g` its `qed` or `oops`.

    Of a proof that isn't ended it is what stands before the next such command.
    """
    found: List[Tuple[int, int]] = []
    is_open = False
    for number, command in enumerate(file.commands):
        if command.word in notation.MAKERS:
            found.append((number, number))
            is_open = command.word == "g"
        elif is_open:
            found[-1] = found[-1][0], number
            is_open = command.word not in ("qed", "oops")
    return found


def written(file: File) -> List[Written]:
    """The names that a file's commands make, kept until its text changes."""
    if file.written is None or file.written[0] is not file.notation:
        made = [one for first, last in blocks(file) for one in _made_by(file.commands[first], first, last)
                if file.commands[first].package is None or not one.name.startswith(HIDDEN)]
        file.written = file.notation, made
    return file.written[1]


def quoted(command: Command) -> str:
    """The text of a command's first quotation, in one line."""
    parts = command.text.split("`")
    return " ".join(parts[1].split()) if len(parts) > 1 else ""


def expression(command: Command) -> str:
    """The expression that a command names, in one line."""
    found = _NAMED.match(command.text)
    return " ".join(found.group(2).split()) if found else ""


def _made_by(command: Command, number: int, last: int) -> Iterator[Written]:
    """What a command makes by its text."""
    words, text = command.text.split("`")[0].split()[1:], quoted(command)
    if command.word == "new_basic_type_definition":
        for kind, name in zip((TYPE, CONSTANT, CONSTANT, THEOREM, THEOREM), words):
            yield Written(kind, name, number, last, "")
    elif words and command.word in ("g", "new_axiom", "new_definition"):
        yield Written(THEOREM, words[0], number, last, text)
        defined = _DEFINED.match(text) if command.word == "new_definition" else None
        if defined:
            yield Written(CONSTANT, defined.group(1), number, last, "")
    elif command.word == "deftac":
        named = _NAMED.match(command.text)
        if named:
            yield Written(TACTIC, named.group(1), number, last, expression(command))
    elif words:
        kind = TYPE if command.word == "new_type" else CONSTANT
        yield Written(kind, words[0], number, last, words[1] if kind == TYPE and len(words) > 1 else text.lstrip(": "))


def known(file: File) -> List[Known]:
    """The names that a file makes, with what is shown of them."""
    return [_known(file, one) for one in written(file)]


def _known(file: File, one: Written) -> Known:
    entry = file.entry(one.last)
    entries = entry.report.entries if entry and isinstance(entry.report, Made) else ()
    if one.kind == TACTIC:
        return Known(one.kind, one.name, one.text, file, one.number, "tac " + one.name in entries)
    for text in entries:
        found = _SHOWN.match(text)
        if found and _KINDS[found.group(1)] == one.kind and found.group(2) == one.name:
            return Known(one.kind, one.name, found.group(3), file, one.number)
    return Known(one.kind, one.name, one.text, file, one.number, False)


def visible(files: Sequence[File], file: File, place: Optional[int] = None) -> List[Known]:
    """The names that stand at a place of a file, or at its end: the nearest first. Of a given-up proof there is none."""
    own = [one for one in written(file) if place is None or file.commands[one.last].end < place]
    found = [_known(file, one) for one in reversed(own) if file.commands[one.last].text != "oops"]
    by_name = {other.name: other for other in files}
    for other in reversed(graph.all_imports(file, by_name)):
        found += [_known(other, one) for one in reversed(written(other)) if other.commands[one.last].text != "oops"]
    return found + PRELUDE


def find(files: Sequence[File], file: File, place: int, name: str, kinds: Sequence[str]) -> Optional[Known]:
    """What a name means at a place, of these kinds; where it stands nowhere above, what the file makes of that name further down."""
    above = next((one for one in visible(files, file, place) if one.name == name and one.kind in kinds), None)
    return above or next((one for one in known(file) if one.name == name and one.kind in kinds), None)


def name_range(known_name: Known) -> Tuple[int, int]:
    """Where a name stands in the command that makes it, in its file."""
    command = known_name.file.commands[known_name.number]
    return place_of_name(command, known_name.name)


def place_of_name(command: Command, name: str) -> Tuple[int, int]:
    """Where a command has a name that it makes; the whole command where it isn't found."""
    command = command.package or command
    pattern = re.compile(r"(?<![A-Za-z0-9_'])" + re.escape(name) + r"(?![A-Za-z0-9_'])")
    found = pattern.search(command.text, len(command.word)) if name else None
    if not found:
        return command.start, command.end
    return command.range(found.start(), found.end())


def uses(files: Sequence[File], target: Known) -> Iterator[Tuple[File, int, int]]:
    """Where a name is used, and made, in the files that know it."""
    pattern = re.compile(r"(?<![A-Za-z0-9_'])" + re.escape(target.name) + r"(?![A-Za-z0-9_'])")
    by_name: Dict[str, File] = {file.name: file for file in files}
    for file in files:
        if target.file is not None and file is not target.file and target.file not in graph.all_imports(file, by_name):
            continue
        for number, command in enumerate(file.commands):
            if command.package is not None:
                yield from _uses_in_package(file, command, target, pattern)
                continue
            if command is not command.as_written and command.text.split("`")[::2] != command.as_written.text.split("`")[::2]:
                command = command.as_written  # Packages have put something into it.
            if target.name not in command.text:
                continue
            makes = file is target.file and number == target.number
            for found in pattern.finditer(command.text, len(command.word) if command.word == target.name else 0):
                if _is_use(command, found.start(), target.kind, makes):
                    yield (file, *command.range(found.start(), found.end()))


def _uses_in_package(file: File, command: Command, target: Known, pattern: "re.Pattern[str]") -> Iterator[Tuple[File, int, int]]:
    """Where a package has a name, told at its first command."""
    package = command.package
    if not command.is_first or package.word == "e":
        return
    for found in pattern.finditer(package.text, len(package.word)):
        is_quoted = package.text.count("`", 0, found.start()) % 2 == 1
        if not is_quoted or target.kind in IN_TERMS and not binders.is_bound(package.text, found.start()):
            yield (file, *package.range(found.start(), found.end()))


def kind_outside(command: Command, place: int) -> str:
    """The kind of the name at a place of a command's text, outside quotations: a tactic or a theorem."""
    text = command.text
    is_function = command.word in notation.STEPS and (notation.is_made_name(text, place) or notation.is_function_place(text, place))
    return TACTIC if is_function else THEOREM


def _is_use(command: Command, place: int, kind: str, makes: bool) -> bool:
    """Whether the name at a place of a command's text is one of this kind: constants and types are used in quotations, the rest outside."""
    text = command.text
    if text.count("`", 0, place) % 2 == 0:
        is_made = makes and (kind != TACTIC or notation.is_made_name(text, place))
        return is_made or kind == kind_outside(command, place) and not notation.is_made_name(text, place)
    return kind in IN_TERMS and not binders.is_bound(text, place) and binders.is_in_type(text, place) == (kind == TYPE)
