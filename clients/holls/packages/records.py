"""`record`: a type of one constructor whose arguments are fields, with functions that read and replace them.

    record point = Point x:num y:num label:(num list);;
"""

from __future__ import annotations

from typing import List, Sequence

from holls.packages import datatypes, functions, predicates
from holls.packages.clauses import ClauseReader
from holls.packages.datatypes import WrittenConstructor
from holls.packages.layout import Layout
from holls.packages.output import PUBLIC, Output
from holls.packages.parsing import Place, Word
from holls.packages.scope import Data
from holls.packages.terms import tyshow
from holls.packages.type_commands import TypeCommands
from holls.surface.errors import Misread
from holls.surface.table import EMPTY

MOST_FIELDS = 15


def expand(text: str, place: Place, out: Output) -> None:
    """Makes the commands of a `record`. Raises `Misread`."""
    written = datatypes.read(text, "record", place)
    if len(written.constructors) > 1:
        second = written.constructors[1]
        raise Misread(second.start, second.end, "a record has one constructor")
    _check(written.name, written.constructors[0], out)
    data = datatypes.analysed(written, out.asking)
    TypeCommands(data, out, {}).emit()
    out.asking.own.data[data.name] = data
    _Record(data, [one.name or "" for one in written.constructors[0].arguments], out, place).emit()


def _check(name: str, constructor: WrittenConstructor, out: Output) -> None:
    where = constructor.start, constructor.end
    if not 1 <= len(constructor.arguments) <= MOST_FIELDS:
        raise Misread(*where, "a record has from 1 to %d fields" % MOST_FIELDS)
    seen = set()
    for one in constructor.arguments:
        if one.name is None:
            raise Misread(one.type.start, one.type.end, "a field is written name:type")
        if one.name in seen:
            raise Misread(*where, "the field `%s` stands twice" % one.name)
        seen.add(one.name)
        for constant in ("%s_%s" % (name, one.name), "set_%s_%s" % (name, one.name)):
            if out.asking.is_constant(constant):
                raise Misread(*where, "the constant `%s` of the field `%s` stands already" % (constant, one.name), taken=("const", constant))


class _Record:
    def __init__(self, data: Data, fields: Sequence[str], out: Output, place: Place) -> None:
        self.data, self.out, self.place = data, out, place
        self.layout = Layout(data, out.asking)
        self.arguments = self.layout.arguments[0]
        self.readers = ["%s_%s" % (data.name, one) for one in fields]
        self.setters = ["set_%s_%s" % (data.name, one) for one in fields]
        taken = {one.name for one in self.arguments} | set(self.readers) | set(self.setters)
        self.new = out.asking.fresh("new", taken)
        self.element = out.asking.fresh("r", taken)
        self.other = out.asking.fresh("s", taken)

    def emit(self) -> None:
        """Makes the functions, and their laws."""
        whole = "(%s %s)" % (self.data.constructors[0].name, " ".join(one.name for one in self.arguments))
        self._define("FIELDS", ["%s %s = %s" % (name, whole, one.name) for name, one in zip(self.readers, self.arguments)])
        changed = ["%s %s %s = %s %s" % (name, self.new, whole, self.data.constructors[0].name, " ".join(
            self.new if place == at else one.name for place, one in enumerate(self.arguments))) for at, name in enumerate(self.setters)]
        self._define("SETS", changed)
        self._laws()

    def _define(self, kind: str, clauses: List[str]) -> None:
        text = " /\\ ".join("(%s)" % one for one in clauses)
        place = Place(EMPTY, self.place.vocabulary)
        reader = ClauseReader(place.term(Word(text, 0, len(text), True)), self.out.asking)
        functions.define("%s_%s" % (self.data.name, kind), reader, self.out, None, place)

    def _laws(self) -> None:
        name, type_, element, other = self.data.name, self.layout.type, self.element, self.other
        rules = "%s_FIELDS; %s_SETS; FORALL_SIMP" % (name, name)
        split = "%s THEN REWRITE_TAC [%s]" % (predicates.by_cases(self.data, self.out.asking), rules)
        whole = "%s %s" % (self.data.constructors[0].name, " ".join("(%s %s)" % (one, element) for one in self.readers))
        self.out.prove(name + "_ETA", "!%s:%s. %s = %s" % (element, type_, whole, element), split, PUBLIC)
        laws = ["(!(%s:%s) (%s:%s). %s (%s %s %s) = %s)" % (
            self.new, tyshow(self.arguments[at].type), element, type_, reader, setter, self.new, element,
            self.new if place == at else "%s %s" % (reader, element))
            for at, setter in enumerate(self.setters) for place, reader in enumerate(self.readers)]
        self.out.prove(name + "_UPDATES", " /\\ ".join(laws), "REPEAT CONJ_TAC THEN GEN_TAC THEN " + split, PUBLIC)
        same = " /\\ ".join("%s %s = %s %s" % (one, element, one, other) for one in self.readers)
        back = "ONCE_REWRITE_TAC [SYM (SPEC `%s:%s` %s_ETA)] THEN ASM_REWRITE_TAC []" % (element, type_, name)
        self.out.prove(name + "_EXT", "!(%s:%s) (%s:%s). %s = %s <=> %s" % (element, type_, other, type_, element, other, same),
                       "REPEAT GEN_TAC THEN EQ_TAC THEN STRIP_TAC THENL [ASM_REWRITE_TAC []; %s]" % back, PUBLIC)
