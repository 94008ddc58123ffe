"""What expands each of the packages that stand for commands."""

from __future__ import annotations

from typing import Callable, Dict

from holls.packages import datatypes, functions, records, relations, specification
from holls.packages.output import Output
from holls.packages.parsing import Place
from holls.packages.type_commands import TypeCommands


def _define_type(text: str, place: Place, out: Output) -> None:
    written = datatypes.read(text, "define_type", place)
    data = datatypes.analysed(written, out.asking)
    TypeCommands(data, out, {one.name: (one.start, one.end) for one in written.constructors}).emit()
    out.asking.own.data[data.name] = data


PACKAGES: Dict[str, Callable[[str, Place, Output], None]] = {
    "define_type": _define_type, "define": functions.expand, "inductive": relations.expand,
    "specification": specification.expand, "record": records.expand}
"""The packages by their words, each with what expands it."""
