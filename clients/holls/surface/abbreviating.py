"""The command `abbreviate`, as a file has it."""

from __future__ import annotations

import re

from holls.surface import definition
from holls.surface.abbreviations import Abbreviation, is_deep
from holls.surface.errors import Misread
from holls.surface.plain import PlainWriter
from holls.surface.reader import Reader
from holls.surface.table import Table
from holls.surface.tree import free_names
from holls.surface.vocabulary import Vocabulary

FORM = "abbreviate `NAME x .. = term`"
_WHOLE = re.compile(r"(?:local\s+)?abbreviate\s*`([^`]*)`\s*\Z")


def is_one(text: str) -> bool:
    """Whether a command is one that abbreviates."""
    return bool(re.match(r"(?:local\s+)?abbreviate(?![A-Za-z0-9_'])", text))


def read(text: str, table: Table, vocabulary: Vocabulary) -> Abbreviation:
    """The abbreviation that a command's text is. Raises `Misread`."""
    found = _WHOLE.match(text)
    if found is None:
        raise Misread(0, max(1, len(text)), "this has to be of the form " + FORM)
    said = definition.read(Reader(found.group(1), table, vocabulary, found.start(1)), True)
    name, names = said.name, [one.name for one in said.arguments]
    where = name.start, name.end
    if vocabulary.is_constant(name.text):
        raise Misread(*where, "the constant `%s` stands already: another name for the abbreviation" % name.text, taken=("const", name.text))
    for one in said.arguments:
        if one.type is not None:
            raise Misread(one.start, one.end, "an argument of an abbreviation has no type: write it on the right, as (%s:num)" % one.name)
        if names.count(one.name) > 1:
            raise Misread(one.start, one.end, "the argument `%s` stands twice" % one.name)
    if said.type is not None:
        raise Misread(*where, "an abbreviation has no type: write it on the right")
    for free in free_names(said.body):
        if free not in names and not vocabulary.is_constant(free):
            raise Misread(said.body.start, said.body.end, "`%s` stands on the right, and is no argument and no constant%s" % (
                free, ": an abbreviation can't stand in itself" if free == name.text else ""))
    if is_deep(said.body):
        raise Misread(said.body.start, said.body.end, "this is nested too deeply for an abbreviation")
    writer = PlainWriter()
    writer.term(said.body)
    return Abbreviation(name.text, tuple(names), writer.text)
