"""`holls import`: theorems of HOL Light as theories of ours, from a recorded run, over theories that stand.

What is brought is a statement, exactly, and a proof that the program has accepted. What has a name that stands already is passed over, so that an
import stops at what we have. A theorem that can't be had is named, with what cites it; it is an axiom only where that is asked for.
"""

from __future__ import annotations

import argparse
import re
import sys
from dataclasses import dataclass, field
from pathlib import Path
from typing import Dict, Iterator, List, NamedTuple, Optional, Sequence, Set, Tuple

from holls import check, checking, protocol, server
from holls.checking import Unit
from holls.exchange import layout, neutral, recording
from holls.exchange.deriving import MOST_CHARACTERS, Deriving
from holls.exchange.hol_light import INSTALLED, NoHolLight
from holls.exchange.neutral import Record, Translator, Untranslatable
from holls.exchange.polishing import Polisher
from holls.exchange.replay import Replay
from holls.prover import typed
from holls.prover.asking import Asker, Silent
from holls.prover.scope import Scope
from holls.prover.typed import Term
from holls.prover.writing import Quoter, Unwritable

MISSING, BROKEN = 1, 2
SECONDS = 15.0
_START_SECONDS = 120.0
_MOST_COMMANDS = 400
"""A file has no more, so that a theory has room for edits."""
_INVENTED = re.compile(r"\bT[0-9]+\b")
_LETTERS = "ABCDEFGHIJKLMNOPQRSUVWXYZ"


class Brought(NamedTuple):
    """A theorem that came over: its name, HOL Light's file, the commands of its proof with how many goals are open behind each, and whether a
    part of it is a recorded derivation."""

    name: str
    file: str
    commands: Tuple[str, ...]
    open_goals: Tuple[int, ...]
    is_derived: bool = False


@dataclass
class Outcome:
    """What came over, and the names of what didn't, each with the reason."""

    brought: List[Brought] = field(default_factory=list)
    missing: Dict[str, str] = field(default_factory=dict)


def add_words(parser: argparse.ArgumentParser) -> None:
    """The words of the command line."""
    parser.add_argument("record", metavar="RECORD", help="the neutral file of a recorded run; with --record it is made")
    parser.add_argument("--record", nargs="*", metavar="FILE.ml", dest="further",
                        help="run HOL Light and record it: its core, and these files, with derivations of what doesn't stand in the theories of "
                        "--over; it takes some minutes")
    parser.add_argument("--over", nargs="+", metavar="FILE", default=[], help="the theories that stand: files or folders, all of them are imported")
    parser.add_argument("--from", nargs="+", metavar="FILE.ml", default=[], dest="sources", help="bring the theorems of these files of HOL Light")
    parser.add_argument("--names", nargs="+", metavar="NAME", default=[], help="bring these theorems alone")
    parser.add_argument("-o", "--output", metavar="DIR", default=".", help="the folder for the files that are written (this one)")
    parser.add_argument("--seconds", type=float, default=SECONDS, help="how long a proof may be searched (%g)" % SECONDS)
    parser.add_argument("--derivations", type=int, default=MOST_CHARACTERS, metavar="N",
                        help="what is neither steps nor found comes by recorded derivations, of at most N characters a tactic (%d; 0: none)" % MOST_CHARACTERS)
    parser.add_argument("--axioms", action="store_true", help="state as an axiom what can't be had")
    parser.add_argument("--server", metavar="PROGRAM", help="the program hol_serve")


def main(given: argparse.Namespace) -> int:
    """Records, or brings theorems: 0 where all came over, 1 where some are missing, 2 where nothing can be recorded or brought."""
    try:
        units = checking.units(check.ordered(given.over)) if given.over else []
        if given.further is not None:
            return _recorded(Path(given.record), given.further, units)
        with open(given.record, encoding="latin-1") as lines:
            record = neutral.read(lines)
        importer = Importer(record, units, server.find(given.server), given.seconds, given.axioms, given.derivations)
        outcome = importer.bring(frozenset(given.sources), frozenset(given.names))
    except (OSError, ValueError, NoHolLight, check.CannotCheck, server.NoServer, Silent) as error:
        print("holls: %s" % error, file=sys.stderr)
        return BROKEN
    for path in write(outcome.brought, [unit.file.name for unit in units], Path(given.output)):
        print("%s is written" % path)
    for name, why in outcome.missing.items():
        print("missing: %s: %s" % (name, why))
    derived = sum(one.is_derived for one in outcome.brought)
    print("%d theorems came over%s, %d are missing" % (len(outcome.brought), ", %d of them by recorded derivations" % derived if derived else "",
                                                        len(outcome.missing)))
    return MISSING if outcome.missing else 0


def _recorded(target: Path, further: Sequence[str], units: Sequence[Unit]) -> int:
    scope = Scope()
    for unit in units:
        scope.add_file(unit.file)
    printed = recording.record(target.resolve(), further, recording.Others(frozenset(scope.theorems)) if units else ())
    failed = re.findall(r"^Exception: (.*)$", printed, re.M)
    for told in failed:
        print("holls: HOL Light is recorded, but for a proof that it refuses then: %s" % told, file=sys.stderr)
    print("%s is written" % target)
    return MISSING if failed else 0


class Importer:
    """Brings theorems of a record, one after the other, over theories that stand in a server of its own."""

    def __init__(self, record: Record, units: Sequence[Unit], program: Sequence[str], seconds: float, is_axioms: bool,
                 derivations: int = MOST_CHARACTERS) -> None:
        self.record, self.units, self.program, self.seconds, self.is_axioms = record, units, program, seconds, is_axioms
        self.derivations = derivations
        self.translator = Translator(record)
        self.scope = Scope()
        for unit in units:
            self.scope.add_file(unit.file)
        self.imports = ["import " + unit.file.name for unit in units]
        self.sources: Dict[str, str] = {}
        self.chunks = 0
        self.standing: List[str] = []
        """What the copy has."""

    def bring(self, files: Set[str], names: Set[str]) -> Outcome:
        """The theorems of some files, or of some names, that don't stand yet, in the record's order."""
        outcome = Outcome()
        self.asker = Asker(self.program, _START_SECONDS)
        try:
            for unit in self.units:
                self.asker.add(unit.file.name, [entry.sent for entry in unit.file.theory.entries])
            self._copy()
            self.replay = Replay(self.record, self.translator, self.scope, self.asker)
            self.deriving = Deriving(self.record, self.translator, self.scope, self.asker)
            self.deriving.most = self.derivations
            self.polisher = Polisher(self.asker, self.seconds / 4)
            for name, (number, file) in self.record.names.items():
                if (file in files or name in names) and (not names or name in names) and name not in self.scope.theorems:
                    self._bring(name, number, file, outcome)
        finally:
            self.asker.stop()
        return outcome

    def _bring(self, name: str, number: int, file: str, outcome: Outcome) -> None:
        """One theorem; what it says stands afterwards, if it came over."""
        try:
            statement = self._statement(number)
        except (Untranslatable, Unwritable) as error:
            outcome.missing[name] = str(error)
            return
        self._room()
        hints = cited(name, self._source(file))
        commands = self.replaying(name, number, hints)
        is_derived = False
        if commands is None and self.derivations > 0:
            commands = self.deriving.prove(name, number, hints, self.seconds)
            is_derived = commands is not None and self.deriving.is_derived(commands)
        if commands is None:
            if self.is_axioms:
                commands = ["new_axiom %s %s" % (name, self.replay.quoter.quote(statement))]
            else:
                outcome.missing[name] = "no proof was found" + self._because(number, outcome)
                return
        else:
            commands = self.polisher.shorter(commands) or commands
        goals = self.polisher.depths(commands) or [1] * len(commands)
        outcome.brought.append(Brought(name, file, tuple(commands), tuple(goals), is_derived))
        self.asker.extend(commands)
        self.standing += commands
        self.scope.theorems[name] = statement

    def replaying(self, name: str, number: int, hints: Sequence[str]) -> Optional[List[str]]:
        """A proof by steps that are like the recorded ones, and by searches."""
        return self.replay.prove(name, number, hints, self.seconds)

    def _statement(self, number: int) -> Term:
        theorem = self.record.theorems[number]
        if theorem.hypotheses:
            raise Untranslatable("it has hypotheses")
        term = self.translator.term(theorem.conclusion)
        unknown = sorted({one[1] for one in typed.constants(term)} - set(self.scope.signature.constants))
        if unknown:
            raise Untranslatable("nothing here is %s" % " and ".join(unknown))
        Quoter(self.scope.signature).quote(term)
        return term

    def _because(self, number: int, outcome: Outcome) -> str:
        """What is missing that a recorded proof cites."""
        proof = self.record.proofs.get(number)
        if proof is None:
            return ""
        numbers = [part for node in proof.nodes for kind, part in self.record.nodes[node].arguments if kind == "h"]
        names = {self.replay.citations.names.get(one, "") for one in numbers} & set(outcome.missing)
        return ", and %s is missing, which it cites" % " and ".join(sorted(names)) if names else ""

    def _room(self) -> None:
        """A further theory for what came over, where the copy has many commands."""
        if len(self.standing) < _MOST_COMMANDS:
            return
        self.asker.forget()
        self.chunks += 1
        theory = "holls_import_%d" % self.chunks
        self.asker.add(theory, self.standing)
        self.imports.append("import " + theory)
        self._copy()

    def _copy(self) -> None:
        self.standing = list(self.imports)
        self.asker.copy(self.standing)

    def _source(self, file: str) -> str:
        if file not in self.sources:
            path = INSTALLED / file
            text = path.read_text(encoding="latin-1") if path.exists() else ""
            self.sources[file] = re.sub(r"\(\*.*?\*\)", " ", text, flags=re.S)
        return self.sources[file]


def cited(name: str, source: str) -> List[str]:
    """The words of a theorem's proof in its file, among which are the theorems that it cites; none where the file isn't there."""
    found = re.search(r"^(?:let|and)\s+%s\s*=" % re.escape(name), source, re.M)
    if not found:
        return []
    end = source.find(";;", found.end())
    body = re.sub(r"`[^`]*`", " ", source[found.end():end])
    return list(dict.fromkeys(re.findall(r"[A-Za-z_][A-Za-z0-9_']*", body)))


Names = Dict[str, Dict[str, str]]
"""Of a theorem the letters of the type variables that were made up in its statement."""
_CITED = re.compile(r"(?:INST_TYPE \[([^\]]*)\] )?(?<![A-Za-z0-9_'`:])([A-Za-z_][A-Za-z0-9_']*)(?![A-Za-z0-9_'])")


def renamed(brought: Sequence[Brought], known: Optional[Names] = None) -> Iterator[Brought]:
    """The same with letters for type variables that HOL Light made up, also where a theorem is cited at types for them. `known` has the
    letters of theorems that stand already."""
    names: Names = dict(known or {})
    for one in brought:
        text = "\n".join(one.commands)
        own: Dict[str, str] = {}
        used = set(re.findall(r"\b[A-Z]\b", text))
        for invented in dict.fromkeys(_INVENTED.findall(text)):
            free = [letter for letter in _LETTERS if letter not in used]
            own[invented] = free[0] if free else invented
            used.add(own[invented])
        commands = tuple(_renamed(command, own, names) for command in one.commands)
        names[one.name] = {invented: letter for invented, letter in own.items() if invented in one.commands[0]}
        yield one._replace(commands=commands)


def _renamed(command: str, own: Dict[str, str], names: Names) -> str:
    """A command with letters for made-up type variables: those of its own theorem, and of each that it cites."""
    def cite(found: "re.Match[str]") -> str:
        theirs = names.get(found.group(2))
        before, behind = found.string[:found.start()].rstrip()[-1:], found.string[found.end():].lstrip()[:1]
        if not theirs or found.group(1) is None and before in ("[", ";") and behind in ("]", ";"):
            return found.group()  # An item of a list is matched at any types.
        types = {variable: ty for ty, variable in re.findall(r"`:([^`]*)`,`:([^`]*)`", found.group(1) or "")}
        for invented in theirs:
            if invented in own:
                types.setdefault(invented, invented)
        put = {theirs.get(variable, variable): _INVENTED.sub(lambda one: own.get(one.group(), one.group()), ty) for variable, ty in types.items()}
        made = "; ".join("`:%s`,`:%s`" % (ty, variable) for variable, ty in put.items() if ty != variable)
        if not made:
            return found.group(2)
        cited_at = "INST_TYPE [%s] %s" % (made, found.group(2))
        return cited_at if found.group(1) is not None else "(%s)" % cited_at

    parts = re.split(r"(INST_TYPE \[[^\]]*\]|`[^`]*`)", command)
    text, at = "", 0
    while at < len(parts):
        part = parts[at]
        if part.startswith("INST_TYPE"):
            text += _CITED.sub(cite, part + parts[at + 1], count=1) if _CITED.match(part + parts[at + 1]) else part + parts[at + 1]
            at += 2
            continue
        text += part if part.startswith("`") else _CITED.sub(cite, part)
        at += 1
    return _INVENTED.sub(lambda found: own.get(found.group(), found.group()), text)


def write(brought: Sequence[Brought], imports: Sequence[str], folder: Path) -> Iterator[Path]:
    """Writes the files."""
    for name, text in texts(brought, imports):
        path = folder / (name + ".hol")
        path.write_text(text, encoding="utf-8")
        yield path


def texts(brought: Sequence[Brought], imports: Sequence[str]) -> Iterator[Tuple[str, str]]:
    """Theories within the limits, by name and text, each with its imports; the first imports what stood, and each later one those before it."""
    before = list(imports)
    for name, ones in _split(list(renamed(brought))):
        head = "(* Theorems of HOL Light's %s, brought over by `holls import`. *)\n\n" % ", ".join(dict.fromkeys(one.file for one in ones))
        body = "\n\n".join(_text(one) for one in ones)
        yield name, head + "".join("import %s;;\n" % other for other in before) + "\n" + body + "\n"
        before.append(name)


DERIVED = "(* By a recorded derivation. *)"
"""Stands above a proof that has one."""


def _text(one: Brought) -> str:
    """A theorem's lines, marked where a part of its proof is a recorded derivation."""
    text = layout.proof(one.commands, one.open_goals) if one.commands[0].startswith("g ") else layout.lines(one.commands[0])
    return "%s\n%s" % (DERIVED, text) if one.is_derived else text


def _split(brought: Sequence[Brought]) -> Iterator[Tuple[str, List[Brought]]]:
    """The theorems of a file of HOL Light's together, in parts of at most _MOST_COMMANDS commands."""
    parts: List[Tuple[str, List[Brought]]] = []
    counts: Dict[str, int] = {}
    for one in brought:
        stem = re.sub(r"[^a-z0-9_]", "_", Path(one.file).stem.lower())
        is_full = parts and sum(len(other.commands) for other in parts[-1][1]) + len(one.commands) > _MOST_COMMANDS
        if not parts or is_full or Path(parts[-1][1][0].file).stem != Path(one.file).stem:
            counts[stem] = counts.get(stem, 0) + 1
            name = "from_%s%s" % (stem, "_%d" % counts[stem] if counts[stem] > 1 else "")
            parts.append((name[:protocol.NAME_BYTES], []))
        parts[-1][1].append(one)
    yield from parts
