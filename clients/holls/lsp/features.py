"""What an editor shows of a file beside goals: its outline, folding, lenses; and findings as diagnostics."""

from __future__ import annotations

from typing import Any, Dict, List, Optional

from holls import names
from holls.files import File
from holls.findings import Finding, findings
from holls.names import CONSTANT, TACTIC, THEOREM, TYPE
from holls.protocol import Made
from holls.text import Command

FUNCTION = 12
DETAIL = 200
"""So many characters of a package are shown beside its name."""
KINDS = {THEOREM: FUNCTION, CONSTANT: 14, TYPE: 5, TACTIC: 6}
"""The protocol's numbers of the kinds of names."""


def span(file: File, start: int, end: int) -> Dict[str, Any]:
    """A range as the protocol has it."""
    return {side: dict(zip(("line", "character"), file.lines.utf16(place))) for side, place in (("start", start), ("end", end))}


def diagnostics(file: File) -> List[Dict[str, Any]]:
    """The file's findings."""
    return [diagnostic(file, finding) for finding in findings(file)]


def diagnostic(file: File, finding: Finding) -> Dict[str, Any]:
    """A finding as the protocol has it."""
    end = min(finding.end, len(file.lines.text))
    where = span(file, min(finding.start, end), end)
    return {"range": where, "severity": int(finding.severity), "source": "hol", "message": finding.text}


def symbols(file: File) -> List[Dict[str, Any]]:
    """The names that the file makes, one a command."""
    kinds = {"new_constant": KINDS[CONSTANT], "new_type": KINDS[TYPE], "new_basic_type_definition": KINDS[TYPE], "deftac": KINDS[TACTIC]}
    made = []
    for first, last in names.blocks(file):
        command = file.commands[first]
        if command.package is not None:
            made += [_package(file, command.package)] if command.is_first and command.package.word != "e" else []
            continue
        made.append({
            "name": command.name or command.word, "kind": kinds.get(command.word, FUNCTION),
            "detail": names.expression(command) or names.quoted(command),
            "range": span(file, command.start, file.commands[last].end),
            "selectionRange": span(file, *names.place_of_name(command, command.name))})
    return made


def _package(file: File, command: Command) -> Dict[str, Any]:
    """A package, which is one thing whatever it stands for."""
    return {
        "name": command.name or command.word, "kind": KINDS[TYPE] if command.word in ("define_type", "record") else FUNCTION,
        "detail": " ".join(command.text.split())[:DETAIL], "range": span(file, command.start, command.end),
        "selectionRange": span(file, *names.place_of_name(command, command.name))}


def foldings(file: File) -> List[Dict[str, Any]]:
    """Proofs and comments of several lines."""
    line = file.lines.line
    found = list(dict.fromkeys((line(file.commands[first].start), line(file.commands[last].end), "region") for first, last in names.blocks(file)))
    found += [(line(start), line(max(start, end - 1)), "comment") for start, end in file.cut.comments]
    return [{"startLine": first, "endLine": last, "kind": kind} for first, last, kind in found if last > first]


def theorem(file: File, number: int) -> Optional[str]:
    """The name of the theorem that a command made, or None."""
    entry = file.entry(number)
    if not entry or not isinstance(entry.report, Made) or file.commands[number].word == "import":
        return None
    return next((made.split()[1] for made in entry.report.entries if made.startswith("thm ")), None)


def lenses(file: File, uri: str) -> List[Dict[str, Any]]:
    """A lens above each proof that made its theorem, and above each package that made one of its own name (`define`)."""
    made = [(first, theorem(file, last), file.commands[first].package) for first, last in names.blocks(file)]
    shown = {one.name: one.shown for one in names.known(file) if one.kind == THEOREM and one.is_made}
    return [
        {"range": span(file, file.commands[first].start, file.commands[first].start), "data": {"uri": uri, "name": name, "statement": shown.get(name)}}
        for first, name, package in made if name is not None and (package is None or package.name == name)]
