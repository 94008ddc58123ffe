"""The code action that writes a numeral of the open goal as a successor, so that clauses for SUC fit it."""

from __future__ import annotations

import re
from typing import Any, Dict, List

from holls import names
from holls.files import File
from holls.fixes import behind
from holls.lsp import features, goals
from holls.names import TACTIC

MOST = 3
"""So many numerals of a goal are offered."""
REDUCING = "NUM_REDUCE_TAC"
"""What proves `3 = SUC 2`, in theories/numerals.hol."""
_NUMERAL = re.compile(r"(?<![A-Za-z0-9_'?])[0-9]+(?![A-Za-z0-9_'])")


def offers(file: File, files: List[File], uri: str, place: int) -> List[Dict[str, Any]]:
    """The actions, where a goal with numerals is open behind the command at a place and what proves them stands."""
    number = file.number_at(place)
    if number is None or file.lines.line(place) > file.lines.line(file.commands[number].end):
        return []
    known = goals.state(file, number)
    if not isinstance(known, goals.State) or not known.goals or not known.goals.goals:
        return []
    numerals = list(dict.fromkeys(found for found in _NUMERAL.findall(known.goals.goals[0].conclusion) if int(found)))
    if not numerals or not any(one.kind == TACTIC and one.name == REDUCING for one in names.visible(files, file, place)):
        return []
    command = file.commands[number]
    end = behind(file, command.end)
    start = file.lines.starts[file.lines.line(command.start)]
    margin = file.lines.text[start:command.start]
    missing = "" if file.lines.text[command.end:end].strip() else ";;"
    return [{
        "title": "Write %s as SUC %d" % (numeral, int(numeral) - 1), "kind": "quickfix",
        "edit": {"changes": {uri: [{"range": features.span(file, end, end), "newText": missing + _step(numeral, margin if not margin.strip() else "")}]}},
    } for numeral in numerals[:MOST]]


def _step(numeral: str, margin: str) -> str:
    return "\n%se SUBGOAL_THEN `%s = SUC %d` SUBST1_TAC THENL [%s; ALL_TAC];;" % (margin, numeral, int(numeral) - 1, REDUCING)
