"""Theories as files have them, and what is asked of them."""

from __future__ import annotations

import re
from functools import cached_property
from typing import TYPE_CHECKING, Any, Dict, List, Optional, Sequence, Tuple, Union

from holls import check, graph, names, search
from holls.api.engine import Context, Layer
from holls.api.premises import Ranking
from holls.api.prover import Prover
from holls.api.proof import Proof, goal_command, no_state
from holls.api.shown import Read, read
from holls.api.values import Checked, Finding, ProgramDied, ProverError, Refused, Theorem, misread
from holls.files import File
from holls.findings import Finding as Found
from holls.findings import Severity, findings
from holls.projects import SUFFIX, in_library, names_of_library
from holls.protocol import Goals, Lost, Made, Refusal, Reply
from holls.sent import Sent
from holls.surface.errors import Misread
from holls.surface.translation import Translation
from holls.text import Command
from holls.view import View

if TYPE_CHECKING:
    from holls.api.exchange import Brought
    from holls.exchange.hol_light import Outcome

_NAME = re.compile(r"[A-Za-z_][A-Za-z0-9_']*")


Report = Union[Goals, Made, Refused]
"""What a command of a theory came to."""


class Unknown(ProverError, KeyError):
    """There is no file, theory or theorem of that name; the text says which and what there is."""

    def __str__(self) -> str:
        return str(self.args[0])


class Project:
    """Files and those that they import: a file, a folder, or several.

    Raises Unknown where a file can't be read, or two have one name.
    """

    def __init__(self, prover: Prover, *paths: str) -> None:
        self.prover = prover
        roots = _roots(paths)
        if len(roots) > 1:
            raise Unknown("these files belong to %d projects: %s; give those of one" % (len(roots), ", ".join(roots)))
        self._take([file for own in roots.values() for file in own])

    @classmethod
    def each(cls, prover: Prover, *paths: str) -> List["Project"]:
        """The projects to which some files and folders belong."""
        made = []
        for own in _roots(paths).values():
            made.append(cls(prover))
            made[-1]._take(own)
        return made

    def _take(self, files: Sequence[File]) -> None:
        self.files: Dict[str, File] = {file.name: file for file in files}
        self._theories: Dict[str, Theory] = {}
        self._layers: Dict[str, Layer] = {}
        self._scripts: Dict[str, Dict[str, Tuple[str, ...]]] = {}
        self._words: Dict[str, Dict[str, Tuple[str, ...]]] = {}

    @property
    def names(self) -> Tuple[str, ...]:
        """The theories, each after those that it imports."""
        return tuple(self.files)

    def theory(self, name: str) -> "Theory":
        """A theory, whole. Raises Unknown where there is none."""
        if name not in self.files:
            raise Unknown("there is no theory %s here: %s" % (name, ", ".join(self.files) or "no file was given"))
        if name not in self._theories:
            self._theories[name] = Theory(self, self.files[name])
        return self._theories[name]

    def text(self, text: str, name: str = "Theory") -> "Theory":
        """A theory of this text, which may import those of the project. Where one of these has its name, this one stands in its place."""
        file = File(name + SUFFIX)
        file.take(text)
        refused = []
        for wanted in file.imports:
            if wanted not in self.files and not self.take_of_library(wanted):
                graph.tell_import(file, wanted, "there is no theory %s in this project" % wanted)
            elif any(other.name == name for other in graph.ordered_from(self.files[wanted], self.files)):
                graph.tell_import(file, wanted, "imports go in a circle here: %s imports a theory of the name %s" % (wanted, name))
                refused.append(wanted)
        file.refuse(refused)
        file.neighbours = self.paths
        graph.know_imports(file, self.files)
        return Theory(self, file)

    def paths(self) -> List[str]:
        """The files that a theory of a text may import: the project's, and the library's."""
        return [file.path for file in self.files.values()] + [path for name in names_of_library() if name not in self.files for path in in_library(name)]

    def take_of_library(self, name: str) -> bool:
        """Takes a theory of the library, with what it imports, where the project has none of the name. Whether the library has one."""
        for path in in_library(name):
            for file in (one for own in _roots([path]).values() for one in own):
                self.files.setdefault(file.name, file)
            return True
        return False

    def bring(self, record: str, **how: Any) -> "Brought":
        """Theorems of HOL Light that a record of `holls import --record` has, as theories over these: `sources`, files of HOL Light's, or `names`
        say which; `seconds`, `axioms` and `derivations` are as the command's. Raises ProverError where the record can't be read."""
        from holls.api import exchange  # Here alone: it takes long to load.
        return exchange.bring(self, record, **how)

    def to_ocaml(self, sample: int = 0) -> str:
        """These theories as OCaml that HOL Light runs, which then proves their theorems, or a sample of so many."""
        from holls.api import exchange
        return exchange.to_ocaml(self, sample)

    def check_by_hol_light(self, sample: int = 0) -> "Outcome":
        """How many theorems HOL Light proves by its own functions, by ours, and refuses. Raises ProverError where it isn't installed."""
        from holls.api import exchange
        return exchange.check_by_hol_light(self, sample)

    def imports(self, file: File) -> List[File]:
        """What a file imports, also by way of others, in order."""
        known = dict(self.files)
        known[file.name] = file
        return graph.all_imports(file, known)

    def layer(self, file: File) -> Layer:
        """A file as it is to stand, kept where it is one of the project's."""
        if self.files.get(file.name) is not file:
            return _layer(file)
        if file.name not in self._layers:
            self._layers[file.name] = _layer(file)
        return self._layers[file.name]

    def scripts(self, file: File) -> Dict[str, Tuple[str, ...]]:
        """The commands of a file by the theorems that they make, kept."""
        if file.name not in self._scripts:
            self._scripts[file.name] = _scripts(file, len(file.commands))
        return self._scripts[file.name]

    def words(self, file: File) -> Dict[str, Tuple[str, ...]]:
        """By the theorems that a file makes the names in their commands, kept."""
        if file.name not in self._words:
            self._words[file.name] = _words(self.scripts(file))
        return self._words[file.name]


def _words(scripts: Dict[str, Tuple[str, ...]]) -> Dict[str, Tuple[str, ...]]:
    """By theorems the names in their commands, outside of quotations, each once."""
    found = {}
    for name, commands in scripts.items():
        words = dict.fromkeys(word for command in commands for part in command.split("`")[::2] for word in _NAME.findall(part))
        found[name] = tuple(word for word in words if word != name)
    return found


def _scripts(file: File, end: int) -> Dict[str, Tuple[str, ...]]:
    """The commands above a place by the theorems that they make."""
    made = [one for one in names.written(file) if one.kind == names.THEOREM and one.last < end]
    return {one.name: tuple(command.text for command in file.commands[one.number:one.last + 1]) for one in made}


def _roots(paths: Sequence[str]) -> Dict[str, List[File]]:
    """By projects, the files that are named and those that they import."""
    try:
        return check.ordered(paths) if paths else {}
    except check.CannotCheck as error:
        raise Unknown(str(error)) from None


def _layer(file: File) -> Layer:
    return Layer(file.name, file.theory.imports, tuple(entry.sent for entry in file.theory.entries))


class Theory:
    """A file's commands, all or up to a place, over what they import. Nothing changes it."""

    def __init__(self, project: Project, file: File, end: Optional[int] = None) -> None:
        self.project, self.prover, self.file = project, project.prover, file
        self._end = len(file.commands) if end is None else end

    @property
    def name(self) -> str:
        """The theory's name."""
        return self.file.name

    @property
    def commands(self) -> Tuple[Command, ...]:
        """The commands, each with its text and its place in the file."""
        return tuple(self.file.commands[:self._end])

    @property
    def text(self) -> str:
        """The file's text, up to where the theory ends."""
        if self._end == len(self.file.commands):
            return self.file.lines.text
        return self.file.lines.text[:self.file.commands[self._end].start]

    @cached_property
    def context(self) -> Context:
        """What has to stand for a proof in this theory."""
        if not self.file.is_sent:
            raise ProverError("%s can be no theory's name" % self.name)
        layer, slots = self.project.layer(self.file), [self.file.slot(at) for at in range(self._end)]
        last = max((slot for slot in slots if slot is not None), default=-1)
        own = layer if last + 1 == len(layer.texts) else Layer(layer.name, layer.imports, layer.texts[:last + 1])
        return Context(tuple(map(self.project.layer, self.project.imports(self.file))) + (own,))

    @cached_property
    def reports(self) -> Tuple[Report, ...]:
        """What each command came to: the goals that are open behind it, what it made, or why it was refused."""
        with self.prover.engine(self.context) as engine:
            standing = engine.reports(self.context)
        found: List[Report] = []
        for number, command in enumerate(self.commands):
            slot = self.file.slot(number)
            report = standing[slot] if slot is not None and slot < len(standing) else None
            found.append(report if isinstance(report, (Goals, Made)) else self._not_accepted(number, command, report))
        return tuple(found)

    def _not_accepted(self, number: int, command: Command, report: Optional[Reply]) -> Report:
        """Why a command isn't accepted; of a declaration of notation that it has made nothing."""
        written = command.as_written
        if command.error:
            return misread(written.text, command.error)
        if self.file.is_declaration(number):
            wrong = [one for one in self.file.notation.blemishes if one.is_error and written.start <= one.start <= written.end]
            return misread(written.text, Misread(0, len(written.text), wrong[0].text)) if wrong else Made(())
        translation = command.translation if isinstance(command, Sent) else Translation(command.text)
        return no_state(Read(written.text, translation), report, self.prover.seconds)

    @cached_property
    def view(self) -> View:
        """The notation that is declared at the theory's end."""
        return View.of(self.file, self._end - 1 if self._end else None)

    @cached_property
    def statements(self) -> Dict[str, str]:
        """The statements of its `g` commands by their names, as they are sent."""
        found = [command for command in self.commands if command.word == "g" and command.text.count("`") == 2]
        return {command.name: command.text.split("`")[1] for command in found}

    def before(self, name: str) -> "Theory":
        """The theory as it stands before the command that makes a name: the theorem, where a constant has this name too. Raises Unknown where none does."""
        found = [one for one in names.written(self.file) if one.name == name and one.number < self._end]
        if not found:
            raise Unknown("no command of %s makes %s" % (self.name, name))
        return Theory(self.project, self.file, next((one for one in found if one.kind == names.THEOREM), found[0]).number)

    def extended(self, *commands: str) -> "Theory":
        """The theory with more commands at its end, each without `;;`."""
        text, last = self.text.rstrip(), self.commands[-1].end if self.commands else 0
        if self.commands and ";;" not in text[last:]:
            text = text[:last] + ";;" + text[last:]
        more = "".join(command + ";;\n" for command in commands)
        return self.project.text((text + "\n\n" if text else "") + more, self.name)

    # Proofs

    def prove(self, name: str, statement: str) -> Union[Proof, Refused]:
        """A proof of a statement, a term of type `bool` without its backquotes, that is to be a theorem of this name."""
        command = read(goal_command(name, statement), self.view)
        if command.translation.error:
            return misread(command.written, command.translation.error)
        with self.prover.engine(self.context, (command.sent,)) as engine:
            answer = engine.attempt(self.context, (), [command.sent])[0]
        if isinstance(answer, Goals):
            return Proof(self, name, statement, command, answer.goals)
        return no_state(command, answer, self.prover.seconds)

    def proof(self, name: str) -> Union[Proof, Refused]:
        """The proof of a statement of this file at its beginning: what stands above it may be cited, and nothing else.

        Raises Unknown where no `g` of that name stands.
        """
        if name not in self.statements:
            raise Unknown("no goal %s is stated in %s" % (name, self.name))
        return self.before(name).prove(name, self.statements[name])

    # Theorems

    def theorems(self, pattern: Optional[str] = None) -> List[Theorem]:
        """The theorems that stand at the end, the imported ones too: all in their order, or those that a pattern finds, the best first.

        A pattern is of the kind that `holls search` takes: parts of names, or a statement with `_`. Raises search.BadQuery.
        """
        standing = self._standing
        if pattern is None:
            return list(standing)
        by_name = {one.name: one for one in standing}
        index, known = self._searched
        return [by_name[one.name] for one in index.find(search.query(pattern, view=self.view), known)]

    @cached_property
    def _searched(self) -> Tuple[search.Index, List[names.Known]]:
        """What searches go through, kept."""
        known = [names.Known(names.THEOREM, one.name, one.statement) for one in self._standing]
        constants = [one for one in names.visible(list(self.project.files.values()), self.file) if one.kind in names.IN_TERMS]
        return search.Index(), known + constants

    @cached_property
    def _standing(self) -> Tuple[Theorem, ...]:
        with self.prover.engine(self.context) as engine:
            texts = engine.theorems(self.context)
        return tuple(_theorem(text) for text in texts)

    @cached_property
    def known(self) -> Tuple[Theorem, ...]:
        """The theorems that a step may cite: the prelude's, then those that stand."""
        prelude = [Theorem(one.name, one.shown) for one in names.PRELUDE if one.kind == names.THEOREM]
        return tuple(prelude) + self._standing

    @cached_property
    def ranking(self) -> Ranking:
        """Those by what goals may need of them."""
        return Ranking([(one.name, one.statement) for one in self.known], self.cited)

    def basis(self, name: str) -> Optional[Tuple[str, ...]]:
        """The axioms, declarations and definitions on which a theorem rests that stands at the end; None where none of this name does."""
        with self.prover.engine(self.context) as engine:
            return engine.bases(self.context, [name])[0]

    @cached_property
    def cited(self) -> Dict[str, Tuple[str, ...]]:
        """By the theorems that stand and whose file is known, those whose names their commands have: a proof's in its steps."""
        standing = {one.name for one in self.known}
        words = {name: each for file in self.project.imports(self.file) for name, each in self.project.words(file).items()}
        words.update(_words(_scripts(self.file, self._end)))
        return {name: tuple(word for word in each if word in standing) for name, each in words.items() if name in standing}

    def script(self, name: str) -> Tuple[str, ...]:
        """The commands that make a theorem which stands here or is imported, as its file has them: of a proof from `g` to `qed`.

        There are none of the prelude's, and of a name that no command makes.
        """
        return self._scripts.get(name, ())

    @cached_property
    def _scripts(self) -> Dict[str, Tuple[str, ...]]:
        found: Dict[str, Tuple[str, ...]] = {}
        for file in self.project.imports(self.file):
            found.update(self.project.scripts(file))
        return {**found, **_scripts(self.file, self._end)}

    def check(self) -> Checked:
        """Whether all of the file is accepted, by running it: what `holls check` says of it, as values."""
        file = File(self.file.path)
        file.take(self.text)
        file.refuse(self.file.refused)
        graph.know_imports(file, {**self.project.files, self.name: file})
        file.context = list(self.file.context)
        try:
            with self.prover.engine(self.context) as engine:
                reports = engine.reports(self.context)
                for entry, report in zip(file.theory.entries, reports):
                    entry.report = report if isinstance(report, (Goals, Made, Refusal)) else Lost("hol_serve had no memory to show it")
                made = [text for entry in file.theory.entries for text in _theorems_made(entry.text, entry.report)]
                bases = engine.bases(self.context, [text.split(" ", 2)[1] for text in made])
        except ProgramDied as died:
            return Checked((), (), str(died))
        theorems = tuple(_theorem(text, self.name, basis) for text, basis in zip(made, bases))
        is_lost = any(isinstance(entry.report, Lost) for entry in file.theory.entries) or None in bases
        failure = "hol_serve had no memory to tell all of %s" % self.name if is_lost else None
        return Checked(tuple(_finding(file, one) for one in findings(file)), theorems, failure)


def _theorems_made(command: str, report: object) -> Sequence[str]:
    if not isinstance(report, Made) or command.split(None, 1)[0] == "import":
        return ()
    return [text for text in report.entries if text.startswith("thm ")]


def _theorem(text: str, theory: str = "", basis: Optional[Tuple[str, ...]] = None) -> Theorem:
    """A theorem by its text `thm N |- p`."""
    name, statement = text.split(" ", 1)[1].split(" |- ", 1)
    return Theorem(name, statement, theory, (), basis)


def _finding(file: File, finding: Found) -> Finding:
    line, column = file.lines.column(finding.start)
    return Finding(line + 1, column + 1, finding.severity == Severity.ERROR or finding.is_open, finding.text)
