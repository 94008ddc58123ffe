"""The words that may stand at a place."""

from __future__ import annotations

from typing import Any, Dict, Iterable, List, Sequence

from holls import declaring, fixes, manual, names, notation
from holls.files import File
from holls.lsp import features
from holls.lsp.lookup import command_at, is_quoted
from holls.names import CONSTANT, IN_TERMS, TACTIC, THEOREM, Known
from holls.text import SYMBOLS
from holls.view import View

VARIABLE, KEYWORD, REFERENCE, METHOD, FUNCTION, CONSTANT_KIND, CLASS, MODULE, TEXT, OPERATOR = 6, 14, 18, 2, 3, 21, 7, 9, 1, 24
DETAIL = 160
"""So many characters of a statement are shown beside its name."""
MOST_ELSEWHERE = 200
"""So many names of theories that aren't imported are offered."""

SYMBOL_NAMES = {
    "forall": "∀", "exists": "∃", "unique": "∃!", "lambda": "λ", "select": "ε", "and": "∧", "or": "∨", "not": "¬", "implies": "⇒",
    "iff": "⇔", "to": "→", "in": "∈", "union": "∪", "inter": "∩", "diff": "∖", "subset": "⊆", "psubset": "⊂", "empty": "∅", "leq": "≤", "geq": "≥",
    "times": "×", "circ": "∘",
}
"""Words behind a backslash for which a symbol may be put."""


def at(files: Sequence[File], theories: Iterable[str], file: File, place: int, free: Sequence[str] = ()) -> List[Dict[str, Any]]:
    """The completions at a place: those that are likeliest there come first. `free` are the variables of the goal that is open there."""
    command = command_at(file, place)
    symbols = _symbols(file, place)
    if symbols:
        return symbols
    start, _ = notation.word_at(file.lines.text, place)
    if command is None or start <= command.start:
        own = [_own(name, entry, KEYWORD, "0") for name, entry in manual.COMMANDS.items()]
        return own + [_own(name, entry, KEYWORD, "1") for name, entry in (*manual.PACKAGES.items(), *manual.DECLARATIONS.items())]
    if command.word == "import":
        return [_item(name, MODULE, "a theory", "0") for name in theories if name != file.name]
    visible = _once(names.visible(files, file, command.start))
    view = View.of(file, file.number_at(place))
    if is_quoted(command, start):
        variables = [_item(name.split(":")[0], VARIABLE, name.split(":", 1)[-1], "0") for name in free]
        words = [_known(one, "0" if one.file else "1", view) for one in visible if one.kind in IN_TERMS and one.name[0].isalpha()]
        return variables + words + _operators(visible, view)
    theorems = [_known(one, "1" if one.file else "2", view) for one in visible if one.kind == THEOREM] + _elsewhere(file, start, place)
    written = command.as_written
    offset = written.offset(start)
    if command.word not in notation.STEPS or notation.is_made_name(written.text, offset):
        return [] if command.word in notation.STEPS else theorems
    first, second = ("0", "3") if notation.is_function_place(written.text, offset) else ("3", "0")
    return (
        [_known(one, first, view) for one in visible if one.kind == TACTIC]
        + [_own(name, entry, METHOD, first) for name, entry in (*manual.FUNCTIONS.items(), *manual.STEPS.items())]
        + [_own(name, entry, KEYWORD, first + "1") for name, entry in manual.TACTICALS.items()]
        + [_own(name, entry, FUNCTION, second) for name, entry in (*manual.RULES.items(), *manual.PACKAGE_RULES.items())] + theorems)


def likeliest(found: List[Dict[str, Any]], file: File, place: int, most: int) -> Dict[str, Any]:
    """Of completions so many at most, for an editor that asks again as one types on: those that begin with the word before the place, then
    those that have it in them."""
    start, _ = notation.word_at(file.lines.text, place)
    word = file.lines.text[start:place].lower()
    symbols = [one for one in found if one.get("filterText", "")[1:].startswith(word)]
    labels = [(one["label"].lower().lstrip("\\"), one) for one in ([] if symbols else found)]
    begins = symbols + sorted((one for label, one in labels if label.startswith(word)), key=lambda one: one["sortText"])
    holds = [one for label, one in labels if len(word) > 1 and word in label and not label.startswith(word)]
    return {"isIncomplete": True, "items": (begins + holds)[:most]}


def _elsewhere(file: File, start: int, place: int) -> List[Dict[str, Any]]:
    """The theorems and tactics of theories that aren't imported and whose names begin like the word before a place: with each goes the import."""
    text = file.lines.text
    if place <= start:
        return []
    paths = file.neighbours()
    known = declaring.importers(paths, file.name).union(one.name for one in file.with_imports())
    others = [one for one in declaring.beginning(paths, text[start:place]) if one[1] not in known][:MOST_ELSEWHERE]
    at_import = fixes.import_place(file)
    return [dict(_item(name, REFERENCE, "of %s, which isn't imported" % theory, "4"),
                 additionalTextEdits=[{"range": features.span(file, at_import, at_import), "newText": "import %s;;\n" % theory}]) for name, theory in others]


def _once(visible: Sequence[Known]) -> List[Known]:
    """Each name of a kind once, the nearest one."""
    return list({(one.kind, one.name): one for one in reversed(visible)}.values())[::-1]


def _symbols(file: File, place: int) -> List[Dict[str, Any]]:
    """The symbols, behind a backslash that begins a word or stands alone."""
    text = file.lines.text
    start, end = notation.word_at(text, place)
    if start == 0 or text[start - 1] != "\\" or text[max(0, start - 2):start] in ("/\\", "\\\\"):
        return []
    found = []
    for name, symbol in SYMBOL_NAMES.items():
        span = {side: dict(zip(("line", "character"), file.lines.utf16(at_place))) for side, at_place in (("start", start - 1), ("end", end))}
        found.append(dict(
            _item("\\" + name, TEXT, "%s, sent as %s" % (symbol, SYMBOLS[symbol]), "0"), filterText="\\" + name,
            textEdit={"range": span, "newText": symbol}))
    return found


def _own(name: str, entry: manual.Entry, kind: int, order: str) -> Dict[str, Any]:
    return dict(_item(name, kind, entry.form, order), documentation=entry.does)


def _operators(visible: Sequence[Known], view: View) -> List[Dict[str, Any]]:
    """The operators and the words of the notation that is declared, with the constants for which they stand."""
    types = {one.name: one.shown_in(view) for one in visible if one.kind == CONSTANT}
    operators = [_item(one.symbol, OPERATOR, "%s : %s" % (one.constant, types.get(one.constant, "?")), "0")
                 for one in view.table.operators.values() if one.symbol != one.constant]
    return operators + [_item(word, KEYWORD, "notation", "0") for word in sorted(view.table.reserved)]


def _known(one: Known, order: str, view: View) -> Dict[str, Any]:
    kind = {THEOREM: REFERENCE, TACTIC: METHOD, CONSTANT: CONSTANT_KIND}.get(one.kind, CLASS)
    shown = ("|- " if one.kind == THEOREM else "") + one.shown_in(view)
    detail = shown if len(shown) <= DETAIL else shown[:DETAIL] + " .."
    return dict(_item(one.name, kind, detail, order), documentation="%s of %s" % (one.kind, one.origin))


def _item(label: str, kind: int, detail: str, order: str) -> Dict[str, Any]:
    return {"label": label, "kind": kind, "detail": detail, "sortText": order + label}
