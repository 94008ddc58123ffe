"""What `holls check` does for many theories: so many programs at once and the memory of each, what is remembered of theories that were accepted,
and a plan for Ninja."""

from __future__ import annotations

import argparse
import hashlib
import json
import os
import shlex
import sys
from pathlib import Path
from typing import Dict, Iterator, List, Sequence

from holls import carried, server
from holls.checking import Basis, Unit
from holls.files import File, Outline
from holls.found import Finding, Severity
from holls.limits import limited
from holls.projects import PROJECT_FILE

VARIABLE = "HOLLS_CACHE"
"""The environment variable that names the folder of what is remembered."""
FORMAT = 4
"""What is remembered in another form isn't read."""
LEAST_MEMORY = 512 << 20
MEGABYTE = 1 << 20


class BadWords(Exception):
    """Words of the command line that can't be carried out; the text says why."""


def add_words(parser: argparse.ArgumentParser) -> None:
    """The words of the command line."""
    parser.add_argument("--jobs", type=int, metavar="N", help="so many programs at once (one for each processor)")
    parser.add_argument("--memory", type=int, metavar="MEGABYTES", help="how much each may have (three quarters of the machine's, shared out)")
    parser.add_argument("--cache", metavar="FOLDER", help="remember there which theories were accepted, by their texts, those of all that they "
                        "import, and the program: such a theory isn't run again (the folder that %s names)" % VARIABLE)
    parser.add_argument("--no-cache", action="store_true", help="remember nothing, and believe nothing that was remembered")
    parser.add_argument("--alone", action="store_true", help="say nothing of files that are imported and not named")
    parser.add_argument("--ninja", metavar="OUT", help="check nothing, and write a Ninja file whose targets check one file each")


def words(program: Sequence[str], given: argparse.Namespace) -> List[str]:
    """The words that start a program with its part of the memory. Raises BadWords."""
    if given.jobs is not None and given.jobs < 1 or given.memory is not None and given.memory < 1:
        raise BadWords("--jobs and --memory take a number from 1")
    if given.memory is not None:
        return limited(program, given.memory * MEGABYTE)
    try:
        physical = os.sysconf("SC_PAGE_SIZE") * os.sysconf("SC_PHYS_PAGES")
    except (ValueError, OSError, AttributeError):
        return list(program)
    part, most = max(LEAST_MEMORY, physical * 3 // 4 // (given.jobs or os.cpu_count() or 1)), server.memory()
    return limited(program, part if most is None else min(part, most))


# What is remembered

class Memory:
    """A folder with what was found of theories that were accepted, each under what decides it, and with their outlines, under their texts: so these
    aren't cut into commands. Without a folder nothing is remembered."""

    def __init__(self, given: argparse.Namespace, program: Sequence[str]) -> None:
        folder = given.cache or os.environ.get(VARIABLE)
        self._folder = Path(folder) if folder and not given.no_cache else None
        self._needs_bases = given.axioms or given.no_axioms
        self._base = self._identity(program) if self._folder else ""
        self._keys: Dict[Unit, str] = {}
        self._digests: Dict[File, str] = {}

    @staticmethod
    def _identity(program: Sequence[str]) -> str:
        """What the program and the checker are, by their files' contents."""
        folder = Path(__file__).parent
        own = [path for pattern in ("*.py", "surface/*.py", "packages/*.py") for path in sorted(folder.glob(pattern))]
        return _digest(str(FORMAT), *(_digest_of(Path(path)) for path in [*program, *map(str, own)]))

    def _path(self, unit: Unit) -> Path:
        if unit not in self._keys:
            self._keys[unit] = _digest(self._base, *map(self._digest, unit.imports + [unit.file]))
        return self._place(self._keys[unit], ".json")

    def _outline_path(self, file: File) -> Path:
        return self._place(_digest(self._base, "outline", self._digest(file)), ".outline")

    def _place(self, key: str, suffix: str) -> Path:
        return self._folder / key[:2] / (key + suffix)

    def _digest(self, file: File) -> str:
        """A digest of a file's name and text."""
        if file not in self._digests:
            self._digests[file] = _digest(file.name, file.lines.text)
        return self._digests[file]

    def outline(self, file: File) -> None:
        """Has a file's outline be known, where it was remembered."""
        if self._folder is None:
            return
        try:
            known = json.loads(self._outline_path(file).read_text(encoding="utf-8"))
            file.remember(Outline(tuple(map(str, known["imports"])), int(known["commands"])))
        except (OSError, ValueError, KeyError, TypeError):
            pass  # It is cut.

    def recall(self, units: Sequence[Unit]) -> None:
        """Has those units done that were accepted before."""
        for unit in units if self._folder else ():
            if _is_whole(unit) and self._take(unit):
                unit.done.set()

    def _take(self, unit: Unit) -> bool:
        try:
            known = json.loads(self._path(unit).read_text(encoding="utf-8"))
            bases = known["bases"]
            if bases is None and self._needs_bases:
                return False
            found = [Finding(int(start), int(end), Severity(kind), str(text)) for start, end, kind, text in known["findings"]]
            unit.bases = [Basis(int(line), str(name), tuple(map(str, items))) for line, name, items in bases or ()]
            unit.made = {"qed": int(known["theorems"]), "new_axiom": int(known["axioms"])}
            unit.recalled = found
            return True
        except (OSError, ValueError, KeyError, TypeError):
            return False

    def keep(self, unit: Unit, said: Sequence[Finding], made: Dict[str, int]) -> None:
        """Remembers a unit of which all was accepted."""
        if self._folder is None or unit.recalled is not None or unit.failure or not _is_whole(unit):
            return
        bases = [[basis.line, basis.theorem, list(basis.items)] for basis in unit.bases] if self._needs_bases else None
        findings = [[one.start, one.end, int(one.severity), one.text] for one in said]
        kept = {"theory": unit.file.name, "findings": findings, "bases": bases, "theorems": made["qed"], "axioms": made["new_axiom"]}
        try:
            _write(self._path(unit), kept)
            _write(self._outline_path(unit.file), unit.file.outline._asdict())
        except OSError as error:
            print("holls: warning: nothing can be remembered in %s: %s" % (self._folder, error.strerror or error), file=sys.stderr)
            self._folder = None


def _write(path: Path, kept: Dict[str, object]) -> None:
    """Writes a file whole or not at all, whoever else writes it."""
    own = path.with_suffix(".%d" % os.getpid())
    path.parent.mkdir(parents=True, exist_ok=True)
    own.write_text(json.dumps(kept), encoding="utf-8")
    os.replace(str(own), str(path))


def _is_whole(unit: Unit) -> bool:
    """Whether a unit's text and those that it imports decide what is said of it."""
    return not any(file.refused or file.context for file in unit.imports + [unit.file])


def _digest(*texts: str) -> str:
    """A digest of texts, each with its length."""
    made = hashlib.sha256()
    for text in texts:
        data = text.encode("utf-8", "surrogatepass")
        made.update(b"%d:" % len(data) + data)
    return made.hexdigest()


def _digest_of(path: Path) -> str:
    try:
        return hashlib.sha256(path.read_bytes()).hexdigest()
    except OSError:
        return str(path)


# A plan for Ninja

def plan(given: argparse.Namespace, units: Sequence[Unit], program: Sequence[str]) -> str:
    """A Ninja file: a target for each file, which depends on its text, on those of all that it imports, and on the program.

    Raises BadWords for a path that can't stand in one.
    """
    flags = [word for flag in ("axioms", "no_axioms", "quiet", "json") if getattr(given, flag) for word in ["--" + flag.replace("_", "-")]]
    flags += [word for name in given.allow_axiom for word in ("--allow-axiom", name)] + ["--seconds", str(given.seconds)]
    flags += [word for folder in given.within for word in ("--within", folder)]
    flags += ["--memory", str(given.memory)] if given.memory is not None else []
    flags += ["--format", given.format] if given.format != "text" else []
    starter, folder = carried.starter(), given.ninja + ".d"
    lines = [
        "# A target for each theory, by `holls check --ninja`. `ninja -f %s` checks those whose text, imports or program changed;" % _line(given.ninja),
        "# `-k 0` goes on behind errors. `launcher` may name a program that runs its words on another machine.",
        "ninja_required_version = 1.3", "builddir = " + _value(folder), "launcher =", "holls = " + _value(" ".join(map(shlex.quote, starter))),
        "program = " + _value(shlex.quote(program[0])), "flags = " + _value(" ".join(map(shlex.quote, flags))), "",
        "rule check", "  command = $launcher $holls check --alone --jobs 1 --server $program $flags $in && touch $out", "  description = check $in", "",
        "rule plan", "  command = $holls check --ninja $out --server $program $flags %s" % _value(" ".join(
            ["--alone"] * given.alone + [shlex.quote(path) for path in given.files])), "  generator = 1", "",
    ]
    fixed = [_path(program[0]), *([_path(starter[-1])] if os.path.isfile(starter[-1]) else [])]
    stamps = list(_stamps(units, folder))
    for unit, stamp in zip(units, stamps):
        imports = [_path(file.path) for file in unit.imports] + _project(unit)
        lines.append("build %s: check %s | %s" % (stamp, _path(unit.file.path), " ".join(imports + fixed)))
    every = dict.fromkeys(path for unit in units for path in [*(_path(file.path) for file in unit.imports + [unit.file]), *_project(unit)])
    lines += ["build all: phony " + " ".join(stamps), "build %s: plan | %s" % (_path(given.ninja), " ".join([*every, *fixed])), "default all", ""]
    return "\n".join(lines)


def _project(unit: Unit) -> List[str]:
    """The project file that says where a unit's imports are, where there is one."""
    return [_path(unit.root)] if os.path.basename(unit.root) == PROJECT_FILE else []


def _paths(given: argparse.Namespace) -> List[str]:
    """The absolute paths of the files that are named, and of those in the folders that are."""
    found: List[str] = []
    for path in given.files:
        below = [os.path.join(folder, name) for folder, _, names in os.walk(path) for name in names] if os.path.isdir(path) else [path]
        found += map(os.path.abspath, below)
    return found


def named(given: argparse.Namespace, units: Sequence[Unit]) -> List[Unit]:
    """The units that are told of: with --alone those alone that are named."""
    if not given.alone:
        return list(units)
    paths = set(_paths(given))
    return [unit for unit in units if os.path.abspath(unit.file.path) in paths]


def _stamps(units: Sequence[Unit], folder: str) -> Iterator[str]:
    """The files that say that a unit was accepted: those of several projects apart."""
    roots = list(dict.fromkeys(unit.root for unit in units))
    for unit in units:
        yield _path(os.path.join(folder, str(roots.index(unit.root)), unit.file.name + ".accepted"))


def _line(text: str) -> str:
    if "\n" in text or "\r" in text:
        raise BadWords("a path with a line's end in it can't stand in a Ninja file: %r" % text)
    return text


def _value(text: str) -> str:
    """A text as the value of a Ninja variable."""
    return _line(text).replace("$", "$$")


def _path(path: str) -> str:
    """A path as Ninja writes one."""
    return _value(path).replace(" ", "$ ").replace(":", "$:").replace("|", "$|")


def write_plan(given: argparse.Namespace, units: Sequence[Unit], program: Sequence[str]) -> None:
    """Writes the Ninja file. Raises BadWords where it can't."""
    text = plan(given, units, program)
    try:
        with open(given.ninja, "w", encoding="utf-8") as stream:
            stream.write(text)
    except OSError as error:
        raise BadWords("%s can't be written: %s" % (given.ninja, error.strerror or error)) from None
