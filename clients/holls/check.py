"""`holls check`: checks files, for a repository or a course, and says by its status whether all is proved."""

from __future__ import annotations

import argparse
import json
import os
import sys
import time
from typing import Callable, Dict, List, Sequence, Union

from holls import checking, circles, disk, farm, files, graph, server, words
from holls.checking import Basis, Unit
from holls.files import File
from holls.found import Finding, Severity
from holls.manual import PRELUDE
from holls.projects import LIBRARY, SUFFIX, Projects
from holls.protocol import Made
from holls.say import complain, say

FAILED, BROKEN = 1, 2
PROGRESS_SECONDS = 0.2
AXIOM = "axiom:"


class CannotCheck(Exception):
    """Why nothing can be checked: no file, no server, bad words."""


def add_words(parser: argparse.ArgumentParser) -> None:
    """The words of the command line."""
    parser.add_argument("files", nargs="+", metavar="FILE", help="a file of commands, NAME.hol, or a folder: all such files in it and below")
    parser.add_argument("--server", metavar="PROGRAM", help="the program hol_serve")
    parser.add_argument("--axioms", action="store_true", help="also list on which axioms and definitions each theorem rests")
    parser.add_argument("--no-axioms", action="store_true", help="take it for an error that a theorem rests on an axiom of a file")
    parser.add_argument("--allow-axiom", action="append", default=[], metavar="NAME", help="but not on this one; may be given again")
    parser.add_argument("--within", action="append", default=[], metavar="DIR",
                        help="take no theory from outside of this folder, whatever a project file says; may be given again")
    parser.add_argument("--quiet", action="store_true", help="write nothing of a file in which all is accepted")
    parser.add_argument("--json", action="store_true", help="one JSON object a line: as --format json")
    parser.add_argument("--format", choices=("text", "json", "github"), default="text",
                        help="lines for people (text), one JSON object a line, or what GitHub shows at the lines of a change")
    parser.add_argument("--seconds", type=int, default=120, help="how long one command may take (120)")
    farm.add_words(parser)


def main(given: argparse.Namespace) -> int:
    """Checks the files: 0 where all commands are accepted and no proof is open, 1 where not, 2 where nothing can be checked."""
    circles.hardly_look()
    try:
        program = server.find(given.server)
        memory = farm.Memory(given, program)
        units = farm.named(given, checking.units(ordered(given.files, given.within, memory.outline)))
        if not given.quiet:
            server.say_which(program, given.server)
        limited = farm.words(program, given)
        if given.ninja:
            farm.write_plan(given, units, program)
            return 0
    except (CannotCheck, server.NoServer, farm.BadWords) as error:
        complain(error)
        return BROKEN
    sent = [unit for unit in units if unit.file.is_sent]
    memory.recall(sent)
    left = [unit for unit in sent if unit.recalled is None]
    checking.Pool(left, limited, given.seconds, given.axioms or given.no_axioms, given.jobs).start()
    shown = _SHOWS["json" if given.json else given.format](given, memory)
    wrong = 0
    for unit in units:
        if unit in sent:
            _wait(unit, left)
        wrong += shown.unit(unit)
    shown.total(units, wrong)
    for name in _no_axioms(given.allow_axiom, units):
        complain("warning: --allow-axiom %s lets nothing pass: none of these files has an axiom of that name" % name)
    failures = list(dict.fromkeys(unit.failure for unit in units if unit.failure))
    for failure in failures:
        complain(failure)
    return BROKEN if failures else FAILED if wrong else 0


def _no_axioms(allowed: Sequence[str], units: Sequence[Unit]) -> List[str]:
    """The names that are allowed and that no axiom has, by the files' texts."""
    if not allowed:
        return []
    known = {name for name in PRELUDE if name.endswith("_AX")}
    known.update(command.name for unit in units for command in unit.file.commands if command.word == "new_axiom")
    return [name for name in dict.fromkeys(allowed) if name not in known]


def _wait(unit: Unit, units: Sequence[Unit]) -> None:
    """Until a unit is done, with a line of progress where standard error is a terminal."""
    is_shown = sys.stderr.isatty()
    begun = time.monotonic()
    while not unit.done.wait(PROGRESS_SECONDS):
        if is_shown and time.monotonic() - begun > PROGRESS_SECONDS:
            entries = [entry for one in units for entry in one.file.theory.entries if not entry.is_hidden]
            known = sum(entry.report is not None for entry in entries)
            done = sum(one.done.is_set() for one in units)
            line = "%d of %d commands, %d of %d files" % (known, len(entries), done, len(units))
            sys.stderr.write("\r\x1b[K" + line)
            sys.stderr.flush()
    if is_shown:
        sys.stderr.write("\r\x1b[K")
        sys.stderr.flush()


def ordered(paths: Sequence[str], within: Sequence[str] = (), know: Callable[[File], None] = lambda _: None) -> Dict[str, List[File]]:
    """By projects, the files that are named and those that they import, each after those that it imports. With `within` none of them
    lies outside of these folders. `know` tells each file what is known of it beforehand."""
    projects = Projects(within)
    named: Dict[str, List[File]] = {}
    for path in _distinct(paths):
        if within and not any(disk.is_within(path, folder) for folder in within):
            raise CannotCheck("%s lies outside of %s, which --within names" % (path, " and ".join(within)))
        named.setdefault(projects.of(path).key, []).append(_read(path, know))
    for root, own in named.items():
        _one_of_each_name(own)
        project = projects.of(own[0].path)
        for file in own:
            file.context += [file.first_line(project.error)] if project.error else []

        def load(_: File, name: str, project=project) -> Union[File, str]:
            path = project.find(name)
            if isinstance(path, list):
                return project.missing(name)
            try:
                return _read(os.path.relpath(path) if _is_below(path) else path, know)
            except CannotCheck as error:
                return str(error)

        named[root] = graph.ordered(graph.with_imports(own, load))
        for file in named[root]:
            file.neighbours = project.with_library
    return named


def sent(paths: Sequence[str]) -> Dict[str, List[str]]:
    """What is sent of files, and of those that they import, by the names of their theories, each after those that it imports."""
    return {
        file.name: [command.text for number, command in enumerate(file.commands) if not file.is_declaration(number)]
        for files_of in ordered(paths).values() for file in files_of}


def _is_below(path: str) -> bool:
    """Whether a path lies below the folder that one works in."""
    return not os.path.relpath(path).startswith("..")


def _distinct(paths: Sequence[str]) -> List[str]:
    """The files that are named, each once, and those in the folders."""
    found: Dict[str, str] = {}
    for path in paths:
        below = _below(path) if os.path.isdir(path) else [path]
        if not below:
            raise CannotCheck("no file NAME%s is in %s or below" % (SUFFIX, path))
        for one in below:
            found.setdefault(os.path.abspath(one), one)
    return list(found.values())


def _below(path: str) -> List[str]:
    """The files of theories in a folder and below. What has such a name and is no regular file is named and passed over."""
    found: List[str] = []
    waiting = [path]
    while waiting:
        folder = waiting.pop()
        try:
            with os.scandir(folder) as entries:
                every = sorted(entries, key=lambda entry: entry.name)
        except OSError as error:
            complain("%s is passed over: it can't be looked into: %s" % (folder, error.strerror or error))
            continue
        waiting += [entry.path for entry in reversed(every) if disk.is_folder(entry)]
        for entry in every:
            if entry.name.endswith(SUFFIX) and disk.is_regular(entry):
                found.append(entry.path)
            elif entry.name.endswith(SUFFIX) and not disk.is_folder(entry):
                complain("%s is passed over: it is no regular file" % entry.path)
    return sorted(found)


def _one_of_each_name(own: Sequence[File]) -> None:
    """Two files of one name can't be theories of one server."""
    names: Dict[str, str] = {}
    for file in own:
        other = names.setdefault(file.name, file.path)
        if other != file.path:
            raise CannotCheck("%s and %s are both the theory %s of one project: rename one" % (other, file.path, file.name))


def _read(path: str, know: Callable[[File], None]) -> File:
    """A file on disk, with what is known of it beforehand."""
    file = read(path)
    know(file)
    return file


def read(path: str) -> File:
    """A file on disk."""
    try:
        return files.read(path, disk.read(path))
    except disk.CannotRead as error:
        raise CannotCheck("%s %s" % (path, error)) from None


def _findings(file: File) -> List[Finding]:
    """What there is to say of a file that was run."""
    from holls.findings import findings  # Here alone: what is remembered needs none of it.

    return findings(file)


def _is_wrong(finding: Finding) -> bool:
    return finding.severity == Severity.ERROR or finding.is_open


class _Show:
    """Writes what there is to say, in lines for people."""

    def __init__(self, given: argparse.Namespace, memory: farm.Memory) -> None:
        self.memory = memory
        self.lists_axioms, self.allows = given.axioms, set(given.allow_axiom)
        self.forbids, self.is_quiet = given.no_axioms, given.quiet
        self._names_library = any(disk.is_within(path, LIBRARY) for path in given.files)

    def unit(self, unit: Unit) -> int:
        """Writes what there is to say of a file. Answers how many errors there are."""
        said = _findings(unit.file) if unit.recalled is None else unit.recalled
        for finding in said:
            kind = "error" if _is_wrong(finding) else finding.severity.name.lower()
            self.finding(unit.file, finding, kind)
        wrong = sum(_is_wrong(finding) for finding in said)
        if not wrong:
            self.memory.keep(unit, said, {word: _made_by(unit, word) for word in ("qed", "new_axiom")})
        for basis in unit.bases:
            if self.lists_axioms:
                self.basis(unit.file, basis)
            bad = self._bad_axioms(basis)
            if bad:
                self.bad_axioms(unit.file, basis, bad)
            wrong += bool(bad)
        self.count(unit, wrong)
        sys.stdout.flush()
        return wrong

    def _bad_axioms(self, basis: Basis) -> List[str]:
        """The axioms on which a theorem rests and may not."""
        found = [item[len(AXIOM):] for item in basis.items if item.startswith(AXIOM)]
        return [name for name in found if self.forbids and name not in self.allows]

    def finding(self, file: File, finding: Finding, kind: str) -> None:
        """A finding."""
        line, column = file.lines.column(finding.start)
        say("%s:%d:%d: %s: %s" % (file.path, line + 1, column + 1, kind, finding.text))

    def basis(self, file: File, basis: Basis) -> None:
        """On what a theorem rests."""
        say("%s:%d: %s %s" % (file.path, basis.line, basis.theorem, words.rests(basis.items)))

    def bad_axioms(self, file: File, basis: Basis, bad: List[str]) -> None:
        """A theorem rests on an axiom that isn't allowed."""
        say("%s:%d:1: error: %s" % (file.path, basis.line, _resting(basis, bad)))

    def count(self, unit: Unit, wrong: int) -> None:
        """The last line of a file; where its server failed, it isn't said that all is accepted."""
        file, has_failed = unit.file, unit.failure is not None
        if not wrong and not has_failed and (self.is_quiet or self._is_carried(file)):
            return
        outcome = _count(wrong, "error") if wrong else "not checked to the end" if has_failed else "all accepted"
        axioms = _made_by(unit, "new_axiom")
        parts = [_count(file.outline.commands, "command"), _count(_made_by(unit, "qed"), "theorem")] + ([_count(axioms, "axiom")] if axioms else [])
        say("%s: %s, %s" % (file.path, ", ".join(parts), outcome))

    def _is_carried(self, file: File) -> bool:
        """Whether a file is the library's, and what is checked isn't."""
        return not self._names_library and disk.is_within(file.path, LIBRARY)

    def total(self, units: Sequence[Unit], wrong: int) -> None:
        """The last line of all, where there are several files."""
        if len(units) > 1 and not self.is_quiet:
            parts = [_count(len(units), "file"), _count(sum(unit.file.outline.commands for unit in units), "command"),
                     _count(sum(_made_by(unit, "qed") for unit in units), "theorem"), _count(wrong, "error")]
            say("in all: " + ", ".join(parts))


class _JsonShow(_Show):
    """As `_Show`, one JSON object a line."""

    def finding(self, file: File, finding: Finding, kind: str) -> None:
        """A finding."""
        start, end = file.lines.column(finding.start), file.lines.column(finding.end)
        told = {
            "file": file.path, "line": start[0] + 1, "column": start[1] + 1, "end_line": end[0] + 1, "end_column": end[1] + 1,
            "severity": kind, "text": finding.text}
        command = None if finding.number is None else file.commands[finding.number]
        is_notation = command is not None and command is not command.as_written and command.error is None
        print(json.dumps(dict(told, plain=command.text) if is_notation else told))

    def basis(self, file: File, basis: Basis) -> None:
        """On what a theorem rests."""
        print(json.dumps({"file": file.path, "line": basis.line, "theorem": basis.theorem, "items": basis.items}))

    def bad_axioms(self, file: File, basis: Basis, bad: List[str]) -> None:
        """A theorem rests on an axiom that isn't allowed."""
        print(json.dumps({
            "file": file.path, "line": basis.line, "column": 1, "end_line": basis.line, "end_column": 2, "severity": "error",
            "text": _resting(basis, bad)}))

    def count(self, unit: Unit, wrong: int) -> None:
        """The last line of a file."""
        more = {"failed": True} if unit.failure is not None else {}
        counts = {"commands": unit.file.outline.commands, "theorems": _made_by(unit, "qed"), "axioms": _made_by(unit, "new_axiom"), "errors": wrong}
        print(json.dumps(dict({"file": unit.file.path}, **counts, **more)))

    def total(self, units: Sequence[Unit], wrong: int) -> None:
        """Nothing: who reads the lines can count them."""


class _GitHubShow(_Show):
    """As `_Show`, what there is to say of a place as a command of GitHub's workflows, which shows it there."""

    def finding(self, file: File, finding: Finding, kind: str) -> None:
        """A finding."""
        (line, column), (last, end) = file.lines.column(finding.start), file.lines.column(finding.end)
        more = {"endLine": last + 1, "endColumn": end + 1} if last == line else {"endLine": last + 1}
        self._command(kind, dict({"file": file.path, "line": line + 1, "col": column + 1}, **more), finding.text)

    def bad_axioms(self, file: File, basis: Basis, bad: List[str]) -> None:
        """A theorem rests on an axiom that isn't allowed."""
        self._command("error", {"file": file.path, "line": basis.line}, _resting(basis, bad))

    @staticmethod
    def _command(kind: str, where: Dict[str, object], text: str) -> None:
        told = ",".join("%s=%s" % (key, _escaped(str(value), ":,")) for key, value in where.items())
        say("::%s %s::%s" % (kind if kind in ("error", "warning") else "notice", told, _escaped(text)))


_SHOWS = {"text": _Show, "json": _JsonShow, "github": _GitHubShow}


def _escaped(text: str, more: str = "") -> str:
    """A text that neither ends a command of GitHub's nor a part of one."""
    return "".join("%%%02X" % ord(character) if character in "%\r\n" + more else character for character in text)


def _resting(basis: Basis, bad: List[str]) -> str:
    return "%s rests on the axiom%s %s" % (basis.theorem, "" if len(bad) == 1 else "s", ", ".join(bad))


def _count(number: int, what: str) -> str:
    return "%d %s%s" % (number, what, "" if number == 1 else "s")


def _made_by(unit: Unit, word: str) -> int:
    """How many commands of a kind made what they are for."""
    if unit.recalled is not None:
        return unit.made[word]
    numbers = [number for number, command in enumerate(unit.file.commands) if command.word == word and command.is_public]
    return sum(bool(entry and isinstance(entry.report, Made)) for entry in map(unit.file.entry, numbers))
