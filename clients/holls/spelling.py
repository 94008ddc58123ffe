"""`holls expand` and `holls write`: a file as the program reads it, and a plain file in notation. Each undoes the other.

Nothing but quotations and declarations changes: a declaration is a comment in the plain file, as `(* infixr 16 + add;; *)`.
"""

from __future__ import annotations

import argparse
import re
import sys
from typing import Callable, Iterator, List, NamedTuple, Tuple

from holls import check
from holls.files import File
from holls.surface import declarations
from holls.surface.errors import Misread
from holls.surface.shown import Unprintable
from holls.surface.table import EMPTY, Table
from holls.surface.translation import quotation_in_notation, translated
from holls.surface.vocabulary import Vocabulary
from holls.text import Command, cut

WIDTH = 160
"""A quotation that stands in several lines is broken anew at so many characters."""
FAILED, BROKEN = 1, 2
_DECLARED = re.compile(r"\(\*\s*([^`]*?)\s*;;\s*\*\)\Z")


class Change(NamedTuple):
    """A range of the file, and what stands there instead."""

    start: int
    end: int
    text: str


def add_words(parser: argparse.ArgumentParser) -> None:
    """The words of both command lines."""
    parser.add_argument("files", nargs="+", metavar="FILE", help="a file of commands, NAME.hol")
    parser.add_argument("--in-place", action="store_true", help="write the files themselves, and not to standard output")


def main(given: argparse.Namespace) -> int:
    """Writes the files: status 0, or 1 where a command can't be read or printed and is left as it is, or 2 where a file can't be read."""
    try:
        made = _made(given.files, given.kind == "expand")
        for path, text, troubles in made:  # All are made before one is written: what a file declares, those that import it have in either form.
            for trouble in troubles:
                print("holls: %s:%s" % (path, trouble), file=sys.stderr)
            if given.in_place:
                with open(path, "w", encoding="utf-8", newline="") as stream:
                    stream.write(text)
            else:
                sys.stdout.write(text)
    except (check.CannotCheck, OSError) as error:
        print("holls: %s" % error, file=sys.stderr)
        return BROKEN
    return FAILED if any(troubles for _, _, troubles in made) else 0


def _made(paths: List[str], is_plain: bool) -> List[Tuple[str, str, List[str]]]:
    """The files that are named, each after those that it imports: its path, its text in the other form, and what stays as it is."""
    named = [file for files in check.ordered(paths).values() for file in files if file.path in paths]
    for file in [] if is_plain else named:
        file.take(_declaring(file.lines.text))
    return [(file.path, *(expanded(file) if is_plain else in_notation(file))) for file in named]


def expanded(file: File) -> Tuple[str, List[str]]:
    """The plain text of a file, and what is wrong with commands that stay as they are, each with its line."""
    changes: List[Change] = []
    troubles = [_trouble(file, blemish.start, blemish.text) for blemish in file.notation.blemishes if blemish.is_error]
    for number, command in enumerate(file.commands):
        if file.is_declaration(number):
            changes += _commented(file, command)
        elif command.error is not None:
            start, _ = command.as_written.range(command.error.start, command.error.end)
            troubles.append(_trouble(file, start, command.error.text))
        elif command.package is not None:
            changes += _expanded(file, number)
        elif command is not command.as_written and _is_otherwise(command):
            changes.append(Change(command.start, command.end, command.text))
        elif command is not command.as_written:
            plain = command.text.split("`")[1::2]
            changes += _quotations(file, command.as_written, lambda at, _, plain=plain: plain[at])
    return _changed(file.lines.text, changes), troubles


def _is_otherwise(command: Command) -> bool:
    """Whether more of a command is sent otherwise than quotations."""
    return command.text.split("`")[::2] != command.as_written.text.split("`")[::2]


def _expanded(file: File, number: int) -> Iterator[Change]:
    """The commands of a package, as an ordinary file has them, behind the package as a comment."""
    command = file.commands[number]
    if command.package.word == "e":  # It stands in front of a proof, for a rule in one of its steps.
        yield Change(command.start, command.start, command.text + ";;\n")
        return
    if not command.is_first:
        return
    whole = [one.text for one in file.commands[number:] if one.package is command.package]
    text, package = file.lines.text, command.package
    end = package.end + len(text[package.end:]) - len(text[package.end:].lstrip())
    end = end + 2 if text.startswith(";;", end) else package.end
    comment = "(* %s;; *)" % text[package.start:package.end]
    yield Change(package.start, end, "\n  ".join([comment] + [one + ";;" for one in whole]))


def _commented(file: File, command: Command) -> Iterator[Change]:
    """A declaration as a comment."""
    text = file.lines.text
    end = command.end + len(text[command.end:]) - len(text[command.end:].lstrip())
    if text.startswith(";;", end):
        yield Change(command.start, command.start, "(* ")
        yield Change(end + 2, end + 2, " *)")


def _trouble(file: File, place: int, text: str) -> str:
    return "%d: left as it is: %s" % (file.lines.line(place) + 1, text)


def in_notation(file: File) -> Tuple[str, List[str]]:
    """A plain file's text in notation, where it declares that by commands, and what quotations stay as they are, each with its line.

    One that isn't plain stays, and so does one that has nothing to be written otherwise. A command that is in notation already isn't read as a plain one:
    there an operator between two terms is an argument.
    """
    changes: List[Change] = []
    troubles: List[str] = []
    for number, command in enumerate(file.commands):
        table, vocabulary = file.notation.table(number), file.notation.vocabulary_at(number - 1)
        is_in_notation = command.error is None and command is not command.as_written
        if not file.is_declaration(number) and not table.is_empty and not is_in_notation:
            written = command.as_written
            is_defining = written.word == "new_definition"

            def spelled(at: int, quotation: str, written=written, table=table, vocabulary=vocabulary, is_defining=is_defining) -> str:
                try:
                    return _spelled(quotation, table, vocabulary, is_defining)
                except Unprintable as error:
                    troubles.append(_trouble(file, written.start, str(error)))
                    return quotation

            changes += _quotations(file, written, spelled)
    return _changed(file.lines.text, changes), troubles


def _declaring(text: str) -> str:
    """A text in which the comments that are declarations are commands."""
    changes = []
    for start, end in cut(text).comments:
        found = _DECLARED.match(text[start:end])
        try:
            if found and declarations.read(found.group(1)):
                changes.append(Change(start, end, found.group(1) + ";;"))
        except Misread:
            pass
    return _changed(text, changes)


def _spelled(quotation: str, table: Table, vocabulary: Vocabulary, is_defining: bool) -> str:
    """A plain quotation in notation; as it is where that changes nothing or it isn't plain. Raises `Unprintable`."""
    try:
        found = quotation_in_notation(quotation, table, vocabulary, is_defining)
        if found == quotation_in_notation(quotation, EMPTY, vocabulary, is_defining):
            return quotation
    except Misread:
        return quotation
    word = "new_definition D" if is_defining else "e X"
    back = translated("%s `%s`" % (word, found), table, vocabulary)
    if back.error is not None or not _is_same(back.text.split("`")[1], quotation, is_defining):
        raise Unprintable("in notation this would be read otherwise: " + found)
    return found


def _is_same(one: str, other: str, is_defining: bool) -> bool:
    """Whether two plain quotations are the same, but for white space and parentheses."""
    return one.split() == other.split() or _bare(one, is_defining) == _bare(other, is_defining)


def _bare(quotation: str, is_defining: bool) -> str:
    """A plain quotation as it is printed without anything that is declared."""
    return quotation_in_notation(quotation, EMPTY, Vocabulary(), is_defining)


def _quotations(file: File, command: Command, spelled: Callable[[int, str], str]) -> Iterator[Change]:
    """The changes of a command's quotations to what they are spelled as. Comments in one that changes come to stand before it."""
    text, parts, offset = file.lines.text, command.text.split("`"), 0
    for at, part in enumerate(parts[:-1]):
        if at % 2:
            found = spelled(at // 2, part)
            start, end = command.place(offset - 1) + 1, command.place(offset + len(part))
            if " ".join(found.split()) != " ".join(part.split()):
                comments = "".join(text[first:last] + " " for first, last in file.cut.comments if start <= first < end)
                if comments:
                    yield Change(start - 1, start - 1, comments)
                yield Change(start, end, _broken(found, text, start, end))
        offset += len(part) + 1


def _broken(quotation: str, text: str, start: int, end: int) -> str:
    """A quotation broken into lines, where it was in several, or has grown and is too long for one."""
    begin = text.rfind("\n", 0, start) + 1
    until = text.find("\n", end)
    column, behind = start - begin, (len(text) if until < 0 else until) - end
    lines = text[start:end].split("\n")
    if len(lines) == 1 and (column + len(quotation) + behind <= WIDTH or len(quotation) <= end - start):
        return quotation
    margin = re.match(r"[ \t]*", lines[1]).group() if len(lines) > 1 else re.match(r"[ \t]*", text[begin:]).group() + "  "
    made, words = "", quotation.split(" ")
    for at, word in enumerate(words):
        room = WIDTH - (behind if at == len(words) - 1 else 0)
        if at and column + 1 + len(word) > room:
            made += "\n" + margin + word
            column = len(margin) + len(word)
        else:
            made += (" " if at else "") + word
            column += len(word) + bool(at)
    return made


def _changed(text: str, changes: List[Change]) -> str:
    """A text with changes, which stand in order and apart."""
    parts, at = [], 0
    for change in sorted(changes, key=lambda one: (one.start, one.end)):
        parts += [text[at:change.start], change.text]
        at = change.end
    return "".join(parts) + text[at:]
