"""What could be done about a finding: edits of the file that an editor offers."""

from __future__ import annotations

import difflib
from dataclasses import dataclass
from typing import Iterator, List, Optional, Sequence

from holls import declaring, graph, manual, names, notation, protocol, syntax, words
from holls.bound import bound_type
from holls.files import File, theory_name
from holls.found import Finding, Severity
from holls.names import TACTIC, THEOREM
from holls.packages.scope import THEORY


@dataclass(frozen=True)
class Fix:
    """An edit with words: what stands from `start` to `end` becomes the text."""

    title: str
    start: int
    end: int
    text: str


def fixes(finding: Finding, file: File, files: Sequence[File], every: Sequence[File]) -> List[Fix]:
    """What could be done; `files` are those that stand in the server, `every` all of the project."""
    if finding.number is not None and file.commands[finding.number].package is not None:
        return list(_base(file, every))
    if "rests on the theory %s:" % THEORY in finding.text:
        return list(_base(file, every))
    if finding.is_open:
        return list(_ends(file, finding.number))
    if finding.number is None:
        return list(_last_end(file, finding))
    if finding.refusal is not None:
        return list(_of_refusal(finding, finding.refusal, file, files, every))
    if finding.undeclared is not None:
        return list(_declaring(finding.undeclared, file, every))
    if finding.hiding is not None:
        return list(_renaming(finding, finding.hiding, file))
    is_behind_open = finding.severity == Severity.ERROR
    return [_before(file, finding.number, word) for word in ("qed", "oops")] if is_behind_open else []


def _ends(file: File, number: int) -> Iterator[Fix]:
    """A proof that is never ended, ended behind its last command; by a qed, unless it is known that goals are left, which would refuse it."""
    last = next(last for first, last in names.blocks(file) if first == number)
    entries = (file.entry(at) for at in range(last, number - 1, -1))
    report = next((entry.report for entry in entries if entry and isinstance(entry.report, protocol.Goals)), None)
    place = behind(file, file.commands[last].end)
    missing = "" if file.lines.text[file.commands[last].end:place].strip() else ";;"
    for word, title in (("qed", "End the proof by qed"), ("oops", "Give the proof up by oops")):
        if word == "oops" or report is None or not report.goals:
            yield Fix(title, place, place, "%s\n%s;;" % (missing, word))


def behind(file: File, place: int) -> int:
    """The place behind a command's `;;`, if it has one."""
    rest = file.lines.text[place:]
    blank = len(rest) - len(rest.lstrip())
    return place + blank + 2 if rest[blank:].startswith(";;") else place


def _last_end(file: File, finding: Finding) -> Iterator[Fix]:
    """The `;;` that the last command lacks."""
    if file.commands and finding.end == file.commands[-1].end and finding.start == finding.end - 1:
        yield Fix("Add ;;", finding.end, finding.end, ";;")


def _before(file: File, number: int, word: str) -> Fix:
    """A proof that was open, ended before a command."""
    place = file.commands[number].start
    return Fix("End the proof before by %s" % word, place, place, word + ";;\n")


def _of_refusal(finding: Finding, refusal: protocol.Refusal, file: File, files: Sequence[File], every: Sequence[File]) -> Iterator[Fix]:
    command = file.commands[finding.number]
    missing = syntax.missing_end(command.text)
    if missing and finding.start == command.place(missing[0]):
        place = command.place(len(command.text[:missing[0]].rstrip()) - 1) + 1
        yield Fix("Add ;;", place, place, ";;")
    elif refusal.number == protocol.UNKNOWN_THEOREM:
        yield from _theorem(finding, refusal.argument, file, files, every)
    elif refusal.number == protocol.UNKNOWN_TAC and not {refusal.argument} & (notation.TACS.keys() | notation.ELSEWHERE.keys()):
        yield from _imports(refusal.argument, TACTIC, file, every)
        visible = [one.name for one in names.visible(files, file, finding.start) if one.kind == TACTIC]
        near = notation.near(refusal.argument, [*manual.FUNCTIONS, *visible])
        if near:
            yield Fix("Replace by %s" % near, finding.start, finding.end, near)
    elif refusal.number == protocol.SYNTAX and finding.start == command.start and command.word not in notation.COMMANDS:
        near = notation.near(command.word, [word.upper() for word in notation.COMMANDS])
        if near:
            yield Fix("Replace by %s" % near.lower(), finding.start, finding.end, near.lower())
        if command.word in notation.TACS or command.word in notation.TACTICALS:
            yield Fix("Begin the step by e", finding.start, finding.start, "e ")
    elif refusal.number == protocol.REFUSED:
        yield from _type(finding.number, refusal.argument, file)
    elif refusal.number == protocol.GOALS_REMAIN:
        yield Fix("Give the proof up by oops", command.start, command.end, "oops")


def _declaring(written: str, file: File, every: Sequence[File]) -> Iterator[Fix]:
    """The theories that declare notation that is none here, to be imported."""
    by_name = {other.name: other for other in every}
    for name in declaring.theories(file.neighbours(), written):
        if name in by_name and not graph.is_importing(by_name[name], file, by_name):
            place = import_place(file)
            yield Fix("Import %s, which declares %s" % (name, written), place, place, "import %s;;\n" % name)


def _base(file: File, every: Sequence[File]) -> Iterator[Fix]:
    """The theory on which packages rest, to be imported."""
    by_name = {other.name: other for other in every}
    base = by_name.get(THEORY)
    is_there = base is not None and (graph.is_importing(file, base, by_name) or graph.is_importing(base, file, by_name))
    if not is_there and (base is not None or any(theory_name(path) == THEORY for path in file.neighbours())):
        place = import_place(file)
        yield Fix("Import %s" % THEORY, place, place, "import %s;;\n" % THEORY)


def _renaming(finding: Finding, name: str, file: File) -> Iterator[Fix]:
    """A quotation with another name for a bound variable, which hides a constant."""
    command = file.commands[finding.number].as_written
    opened = command.text.rfind("`", 0, command.offset(finding.start))
    closed = command.text.find("`", opened + 1)
    start, end = command.place(opened) + 1, command.place(closed)
    text = file.lines.text[start:end]
    fresh = name + "'"
    while notation.has_name(text, fresh):
        fresh += "'"
    yield Fix("Rename %s to %s in this quotation" % (name, fresh), start, end, notation.renamed(text, name, fresh))


def _type(number: int, name: str, file: File) -> Iterator[Fix]:
    """The type that a quotation's variable lacks, where the first goal says what it has to be."""
    command = file.commands[number]
    bare = words.bare_variable(command.text, name)
    goal = _first_goal(number, file) if bare and words.is_alone(command.text, name) else None
    of = bound_type(goal, "?" if name == "EXISTS_TAC" else "!") if goal else None
    if of is not None:
        start, end = command.range(*bare)
        variable = command.text[slice(*bare)]
        yield Fix("Write its type: %s:%s" % (variable, of), start, end, "%s:%s" % (variable, of))


def _first_goal(number: int, file: File) -> Optional[protocol.Goal]:
    """The first goal before a command, if that is known."""
    for above in range(number - 1, -1, -1):
        entry = file.entry(above)
        report = entry.report if entry else None
        if isinstance(report, protocol.Goals):
            return report.goals[0] if report.goals else None
        if not isinstance(report, protocol.Refusal):
            return None
    return None


def _imports(name: str, kind: str, file: File, every: Sequence[File]) -> Iterator[Fix]:
    """The theories that make a name which doesn't stand, to be imported."""
    by_name = {other.name: other for other in every}
    for other in every:
        makes = any(one.kind == kind and one.name == name for one in names.written(other))
        if makes and not graph.is_importing(other, file, by_name):
            yield _import(other.name, name, file)
    known = {*by_name, *(one.name for one in file.with_imports())}
    for other_name in declaring.makers(file.neighbours(), name):
        if other_name not in known:
            yield _import(other_name, name, file)


def _import(theory: str, name: str, file: File) -> Fix:
    """The import of a theory that makes a name."""
    place = import_place(file)
    return Fix("Import %s, which makes %s" % (theory, name), place, place, "import %s;;\n" % theory)


def _theorem(finding: Finding, name: str, file: File, files: Sequence[File], every: Sequence[File]) -> Iterator[Fix]:
    """A theorem that doesn't stand: the theory that makes it, to be imported; or the name that was meant."""
    yield from _imports(name, THEOREM, file, every)
    known = list(dict.fromkeys(one.name for one in names.visible(files, file, finding.start) if one.kind == THEOREM))
    for near in difflib.get_close_matches(name, known, 3, 0.6):
        yield Fix("Replace by %s" % near, finding.start, finding.end, near)


def import_place(file: File) -> int:
    """Where an import is put: in the line behind the last one at the file's beginning, else before the first command."""
    last: Optional[int] = None
    for command in file.commands:
        if command.word != "import":
            break
        last = command.end
    if last is None:
        return file.lines.starts[file.lines.line(file.commands[0].start)]
    line = file.lines.line(last) + 1
    return file.lines.starts[line] if line < len(file.lines.starts) else len(file.lines.text)
