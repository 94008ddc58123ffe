"""Help while one types: what could be done about a finding, and the arguments of the function that one writes."""

from __future__ import annotations

from typing import Any, Dict, List, Optional, Sequence, Tuple

from holls import manual, notation
from holls.files import File
from holls.findings import findings
from holls.fixes import fixes
from holls.lsp import features, lookup
from holls.lsp.completion import SYMBOL_NAMES
from holls.text import Command

_CLOSERS = {")": "(", "]": "["}


def actions(file: File, uri: str, files: Sequence[File], every: Sequence[File], start: int, end: int) -> List[Dict[str, Any]]:
    """The code actions for the findings in a range; at a cursor, for those on its line."""
    if start == end:
        start, end = _line(file.lines.text, start)
    found: List[Dict[str, Any]] = []
    for finding in findings(file):
        if finding.start > end or finding.end < start:
            continue
        for fix in fixes(finding, file, files, every):
            edit = {"range": features.span(file, fix.start, fix.end), "newText": fix.text}
            found.append({
                "title": fix.title, "kind": "quickfix", "diagnostics": [features.diagnostic(file, finding)],
                "edit": {"changes": {uri: [edit]}}})
    return found


def manual_of_all() -> Dict[str, Any]:
    """All words of the notation, with how each is written and what it does; and the symbols' names."""
    kinds = {"commands": {**manual.COMMANDS, **manual.PACKAGES}, "declarations": manual.DECLARATIONS,
             "functions": manual.FUNCTIONS, "tacticals": manual.TACTICALS, "rules": {**manual.RULES, **manual.PACKAGE_RULES}}
    told = {kind: {name: {"form": entry.form, "does": entry.does} for name, entry in entries.items()} for kind, entries in kinds.items()}
    return dict(told, symbols=SYMBOL_NAMES)


def _line(text: str, place: int) -> Tuple[int, int]:
    """The first and the last place of the line that a place is in."""
    end = text.find("\n", place)
    return text.rfind("\n", 0, place) + 1, len(text) if end < 0 else end


def signature(file: File, place: int) -> Optional[Dict[str, Any]]:
    """The function whose arguments are written at a place, and which of them."""
    command = lookup.command_at(file, place) or _command_before(file, place)
    if command is None or command.word not in notation.STEPS:
        return None
    command = command.as_written
    offset = command.offset(place) if place <= command.end else len(command.text)
    before = notation.tokens_before(command.text[:offset] + " ", offset + 1)
    entry, number = _open_call(before)
    if entry is None or not entry.arguments:
        return None
    parts = _arguments(entry)
    return {
        "signatures": [{"label": entry.form, "documentation": entry.does, "parameters": [{"label": part} for part in parts]}],
        "activeSignature": 0, "activeParameter": min(number, len(parts) - 1)}


def _command_before(file: File, place: int) -> Optional[Command]:
    """The command that a place stands behind without a `;;` between."""
    number = file.number_at(place)
    return file.commands[number] if number is not None and not file.lines.text[file.commands[number].end:place].strip() else None


def _open_call(before: List[str]) -> Tuple[Optional[manual.Entry], int]:
    """The innermost function, tactical or rule whose arguments aren't all written, by the tokens before a place; and how many are."""
    if before.count("`") % 2:
        before = before[:len(before) - 1 - before[::-1].index("`")]
    number, at = 0, len(before) - 1
    while at > 0:
        token = before[at]
        if token in _CLOSERS:
            at = _opening(before, at)
            number += 1
        elif token == "`":
            at = _quotation(before, at)
            number += 1
        elif token in "([":
            number = 0
        elif token in (",", ";"):
            pass
        else:
            entry = manual.FUNCTIONS.get(token) or {**manual.RULES, **manual.PACKAGE_RULES}.get(token) or manual.TACTICALS.get(token)
            if entry and number < max(1, len(_arguments(entry))):
                return entry, number
            number += 1
        at -= 1
    return None, 0


def _opening(before: List[str], at: int) -> int:
    depth = 0
    while at > 0:
        depth += {")": 1, "]": 1, "(": -1, "[": -1}.get(before[at], 0)
        if not depth:
            return at
        at -= 1
    return at


def _quotation(before: List[str], at: int) -> int:
    """The token that opens the quotation that closes at one."""
    return next((other for other in range(at - 1, 0, -1) if before[other] == "`"), at)


def _arguments(entry: manual.Entry) -> List[str]:
    """The parts of what follows a name."""
    parts: List[str] = []
    for word in entry.arguments.split(" "):
        if parts and (parts[-1].count("[") > parts[-1].count("]") or parts[-1].count("(") > parts[-1].count(")")):
            parts[-1] += " " + word
        elif word:
            parts.append(word)
    return parts
