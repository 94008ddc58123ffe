"""A file's commands as they are sent: with their quotations in the program's own language, and with what is declared where each stands."""

from __future__ import annotations

import re
from typing import Dict, List, Mapping, NamedTuple, Optional, Sequence, Tuple

from holls.notation import MAKERS, OUTSIDE
from holls.packages import expansion, forward, lets, listed, predicates, replacing, simplifying
from holls.packages.parts import Course, in_front, parts
from holls.packages.scope import Asking, Standing
from holls.surface import abbreviating, declarations
from holls.surface.declarations import NOTHING, Declaration, Scope
from holls.surface.errors import Misread
from holls.surface.table import EMPTY, Clash, Table
from holls.surface.translation import Translation, translated
from holls.surface.vocabulary import MANY, PRELUDE_CONSTANTS, PRELUDE_TYPES, Vocabulary
from holls.text import Blemish, Command

_NAMING = frozenset(("new_definition", "new_constant", "new_type", "new_basic_type_definition"))
_STANDING = frozenset((*MAKERS, "qed", "oops", *expansion.WORDS))
"""The commands that say what stands for packages."""
_ENDING = frozenset((*OUTSIDE, "qed", "oops", *expansion.WORDS)) - frozenset(expansion.OF_FILES)
"""The commands at which a proof is over."""
_OF_FILES = frozenset((*declarations.WORDS, *expansion.OF_FILES, "import"))
"""The commands that are the file's own."""
_EXPANDED = frozenset(expansion.WORDS) - _OF_FILES
"""The packages that stand for commands."""
_FIRST_NAME = re.compile(r"\s*([A-Za-z_][A-Za-z0-9_']*)")


class Sent(Command):
    """A command that is sent otherwise than it is written: its text is what is sent, and its places lead from there to the file.

    One that can't be read as notation has an error, and an empty text.
    """

    __slots__ = ("written", "translation")

    def __init__(self, written: Command, translation: Translation) -> None:
        self.text, self.start, self.end, self.marks = translation.text, written.start, written.end, written.marks
        self.word, self.name, self.written, self.translation = written.word, written.name, written, translation

    @property
    def as_written(self) -> Command:
        """The command as the file has it, but for comments and symbols."""
        return self.written

    @property
    def error(self) -> Optional[Misread]:
        """What is wrong with it as notation, with its range in the command as it is written."""
        return self.translation.error

    def place(self, offset: int) -> int:
        """The place in the file of a place in what is sent, which may be the text's length."""
        return self.end if offset >= len(self.text) else self.written.place(self.translation.place(offset))

    def offset(self, place: int) -> int:
        """The place in what is sent of the innermost part that a place of the file belongs to, at most the text's length."""
        return self.translation.offset(self.written.offset(place))

    def range(self, start: int, end: int) -> Tuple[int, int]:
        """The range in the file from which a range of what is sent comes."""
        return self.written.range(*self.translation.range(start, end))


class Names(NamedTuple):
    """The constants and constructors that a file's commands make, with those that it imports; its own with the command that makes each."""

    imported: Vocabulary
    constants: Dict[str, int]
    constructors: Dict[str, Tuple[int, int]]


class NamesAt(Vocabulary):
    """The names that stand before a command of a file."""

    def __init__(self, names: Names, number: int) -> None:  # The names stand in `names`, so that nothing else is made.
        self.names, self.number = names, number

    def takes_arguments(self, name: str) -> Optional[bool]:
        made = self.names.constructors.get(name)
        return made[1] != 0 if made is not None and made[0] < self.number else self.names.imported.takes_arguments(name)

    def is_constant(self, name: str) -> bool:
        return self.names.constants.get(name, self.number) < self.number or self.names.imported.is_constant(name)


class _Mark(NamedTuple):
    """What a file's notation is before one of the commands that are written: how many it has, and so on."""

    commands: int
    blemishes: int
    scope: Scope
    has_packages: bool


class Notation:
    """What a file's commands are in notation: as they are sent, with what is declared behind each, and what is wrong.

    `misread` are the numbers of the commands that have an error; `declared` those of the declarations, which the program never gets; `simple` the
    theorems that `simp` names here; `exported` and `vocabulary` are what importing files have of this one. `number_read` commands were read for it:
    those at the beginning are taken from the notation `before` the last change, as long as nothing can be otherwise there; and those behind it too where
    steps of proofs alone are others, and none is a package's.
    """

    def __init__(self, written: Sequence[Command], imported: Mapping[str, "Notation"], before: Optional["Notation"] = None) -> None:
        self.commands: List[Command] = []
        self.has_packages = False
        self.lists = {name for one in imported.values() for name in one.lists}
        self.types = {name for one in imported.values() for name in one.types}
        self.simple: Dict[str, None] = {}
        self._lets: Dict[str, str] = {}
        self._imported = imported
        self._course = Course(lambda: [one.standing for one in self._imported.values()])
        self._own = hash(tuple(command.text for command in written if command.word in _STANDING))
        self.key = self._key(imported)
        self._written, self._over, self._keys = written, imported, [one.key for one in imported.values()]
        self._marks: List[_Mark] = []
        self.declared: Dict[int, Declaration] = {}
        self.blemishes: List[Blemish] = []
        self.tables: List[Table] = []
        constructors: Dict[str, int] = {}
        constants: Dict[str, object] = {}
        for other in imported.values():
            constructors.update(other.vocabulary.constructors)
            constants.update(other.vocabulary.constants)
        self.names = Names(Vocabulary(constructors, constants), {}, {})
        self._scope = NOTHING
        self._standing = NamesAt(self.names, 0)
        self._placed: Dict[int, replacing.Placed] = {}
        if before is None or not self._take_steps(before):
            self._take_all(before)
        self.exported = self._scope.exported
        self.vocabulary = Vocabulary({**constructors, **{name: number for name, (_, number) in self.names.constructors.items()}},
                                     {**constants, **self.names.constants})
        self._check_constants()
        self.misread = [number for number, command in enumerate(self.commands) if not command.text and command.error is not None]

    def _take_all(self, before: Optional["Notation"]) -> None:
        """Reads the commands, but for those at the beginning that are as they were before."""
        kept = before._kept(self._written, self._over) if before is not None else 0
        if kept:
            self._begin_as(before, kept)
        self.number_read = len(self._written) - kept
        self._read_from(kept)

    def _take_steps(self, before: "Notation") -> bool:
        """Takes all from another notation, and reads the steps that are others: these change nothing of what stands behind them. Answers whether that is
        so; where it isn't, nothing is taken."""
        written = self._written
        steps = before._other_steps(written) if before._is_over(self._over) else None
        if steps is None:
            return False
        made: List[Command] = []
        for at in steps:
            self._scope = before._marks[at].scope
            made.append(self._translate(at, written[at], written[at].word))
        self._scope = NOTHING
        if self.has_packages:
            self.has_packages = False
            return False
        behind = zip(written[steps.stop:], before.commands[steps.stop:])
        self.commands = [*before.commands[:steps.start], *made, *[Sent(now, one.translation) if isinstance(one, Sent) else now for now, one in behind]]
        self.tables, self.declared, self._marks, self._scope, self.number_read = before.tables, before.declared, before._marks, before._scope, len(steps)
        self.names.constants.update(before.names.constants)
        self.names.constructors.update(before.names.constructors)
        return True

    def _other_steps(self, written: Sequence[Command]) -> Optional[range]:
        """The commands that are others here, where these are steps of proofs, no package stands, and nothing is told of a place; else None."""
        old = self._written
        if self.has_packages or self.blemishes or len(written) != len(old):
            return None
        first = next((at for at, (one, other) in enumerate(zip(old, written)) if one is not other), len(old))
        last = next((at for at in range(len(old) - 1, first - 1, -1) if old[at].text != written[at].text), first - 1)
        steps = range(first, last + 1)
        is_one = all(one.word == "e" and not forward.has_rules(one.text) for at in steps for one in (old[at], written[at]))
        return steps if is_one else None

    def _is_over(self, imported: Mapping[str, "Notation"]) -> bool:
        """Whether the same is imported, and what that makes stand is as it was."""
        return [one.key for one in imported.values()] == self._keys and all(one is self._over.get(name) for name, one in imported.items())

    def _kept(self, written: Sequence[Command], imported: Mapping[str, "Notation"]) -> int:
        """How many commands at the beginning are as they are here whatever stands behind them: where the same is imported, and no package stands that
        does more than to put something into a proof. A proof that the first other command may belong to isn't among them: what stands in front of it is
        found by its steps."""
        if not self._is_over(imported):
            return 0
        number = 0
        for old, new in zip(self._written, written):
            if old is not new or old.word in expansion.WORDS:
                break
            number += 1
        last = next((at for at in range(number - 1, -1, -1) if written[at].word in _ENDING), 0)
        return last if number and written[last].word not in ("qed", "oops") else number

    def _read_from(self, number: int) -> None:
        """Reads the commands that are written from one on."""
        for at in range(number, len(self._written)):
            command = self._written[at]
            self._mark()
            if command.word == "g":
                self._put_in_front(command, self._written, at + 1)
            self._add(len(self.commands), command, self._over)
        self._mark()

    def _mark(self) -> None:
        self._marks.append(_Mark(len(self.commands), len(self.blemishes), self._scope, self.has_packages))

    def _begin_as(self, before: "Notation", kept: int) -> None:
        """Takes the first commands from another notation."""
        self._marks = before._marks[:kept]
        commands, blemishes, self._scope, self.has_packages = before._marks[kept]
        self.commands, self.tables, self.blemishes = before.commands[:commands], before.tables[:commands], before.blemishes[:blemishes]
        self.declared = {number: one for number, one in before.declared.items() if number < commands}
        self.names.constants.update((name, number) for name, number in before.names.constants.items() if number < commands)
        self.names.constructors.update((name, made) for name, made in before.names.constructors.items() if made[0] < commands)

    def _key(self, imported: Mapping[str, "Notation"]) -> int:
        """What decides what stands behind the file's commands."""
        return hash((self._own, *(one.key for one in imported.values())))

    def is_expanded_otherwise(self, imported: Mapping[str, "Notation"]) -> bool:
        """Takes the files that are imported anew; whether packages here may stand for something else by them."""
        was, self._imported, self.key = self.key, imported, self._key(imported)
        if was != self.key:
            self._course = Course(lambda: [one.standing for one in self._imported.values()])
        return was != self.key and self.has_packages

    @property
    def standing(self) -> Standing:
        """What stands for packages behind the file's commands."""
        return self._course.behind(self.commands)

    def _add(self, number: int, command: Command, imported: Mapping[str, "Notation"]) -> None:
        word = command.word
        if word in _EXPANDED:
            self._expand(command)
            return
        if word in _OF_FILES:
            made = command
            self._take_of_file(number, command, imported)
        else:
            made = self._translate(number, command, word)
        if word in _NAMING:
            self._take_names(number, made)
        self.commands.append(made)
        self.tables.append(self._scope.table)

    def _take_of_file(self, number: int, command: Command, imported: Mapping[str, "Notation"]) -> None:
        """Takes an import, a declaration, or what only names something."""
        if command.word == "import":
            self._import(command, imported.get(command.name))
        elif command.word in declarations.WORDS:
            self._declare(number, command)
        else:
            self._take_own(number, command)

    def _translate(self, number: int, command: Command, word: str) -> Command:
        """A command as it is sent."""
        self._standing.number = number
        found = self._translated(command)
        if word in replacing.USING:
            placed = self._placed.get(command.start) if self._placed else None
            made = replacing.translated(found, word, self.lists, lambda: self._course.behind(self.commands), placed)
            self.has_packages = self.has_packages or made is not found
            found = made
        return Sent(command, found) if found.is_changed else command

    def _put_in_front(self, goal: Command, written: Sequence[Command], at: int) -> None:
        """Puts the hidden theorems in front of a proof that rules in its steps stand for."""
        steps: List[Tuple[Command, Translation]] = []
        own = dict(self._lets)
        for number in range(at, len(written)):
            command = written[number]
            if command.word in _ENDING:
                break
            self._standing.number = len(self.commands)
            if command.word == "let":
                self._let(command, own)
            elif command.word == "e" and (forward.has_rules(command.text) or predicates.cites(command.text, self.types)):
                found = self._translated(command, own)
                steps += [(command, found)] if found.error is None else []
        if not steps:
            return
        self.has_packages = True
        made = in_front(goal, steps, self._course.behind(self.commands))
        self._placed.update(made.placed)
        self.commands += made.parts
        self.tables += [self._scope.table] * len(made.parts)

    def _expand(self, command: Command) -> None:
        """Takes the commands that a package stands for."""
        self.has_packages = True
        standing, word, table = self._course.behind(self.commands), command.word, self._scope.table
        if word == "sorry":
            found = expansion.sorry(standing)
        else:
            self._standing.number = len(self.commands)
            found = expansion.expanded(command.text, word, table, self._standing, standing)
        for part in parts(command, found):
            if part.word in _NAMING:
                self._take_names(len(self.commands), part)
            self.commands.append(part)
            self.tables.append(table)
        self._course.behind(self.commands)
        self._course.add(found)
        self.types.update(found.made.data)

    def _let(self, command: Command, own: Dict[str, str]) -> None:
        """Takes a name for a term on the way through a proof, where nothing is told."""
        try:
            name, quotation = lets.read(self._translated(command, own).text, Asking(self._course.behind(self.commands)))
            own[name] = quotation
        except Misread:
            return

    def _translated(self, command: Command, own: Optional[Mapping[str, str]] = None) -> Translation:
        """A command's text as it is sent, with quotations for the names that `let` gave them."""
        found = translated(command.text, self._scope.table, self._standing)
        names = self._lets if own is None else own
        if not names and "let" not in found.text:
            return found
        made = lets.translated(found, command.word, names)
        self.has_packages = self.has_packages or made is not found
        return made

    def _take_own(self, number: int, command: Command) -> None:
        """Takes a command that the program never gets: a list of theorems, a name for a term, or rules of the simplifier."""
        self.has_packages = True
        self.declared[number] = Declaration("", (), (), True)
        standing = self._course.behind(self.commands)
        self._standing.number = number
        found = self._translated(command)
        try:
            if found.error is not None:
                raise found.error
            if command.word == "theorems":
                name, members = listed.read(found.text, Asking(standing))
                standing.lists[name] = members
                self.lists.add(name)
            elif command.word == "let":
                name, quotation = lets.read(found.text, Asking(standing))
                self._lets[name] = quotation
            else:
                names = dict.fromkeys(simplifying.read(found.text, Asking(standing)))
                standing.simple.update(names)
                self.simple.update(names)
        except Misread as error:
            where = (error.start, error.end) if found.error else found.range(error.start, error.end)
            self.blemishes.append(Blemish(*command.range(*where), error.text, True))

    def _declare(self, number: int, command: Command) -> None:
        """Takes a declaration; one that can't stand is told, and does nothing."""
        if abbreviating.is_one(command.text):
            self._abbreviate(number, command)
            return
        try:
            declaration = declarations.read(command.text)
            self.declared[number] = declaration or Declaration("", (), (), True)
            if declaration:
                self._scope = self._scope.declared(declaration)
        except Misread as error:
            self.declared[number] = Declaration("", (), (), True)
            self.blemishes.append(Blemish(*command.range(error.start, error.end), error.text, True))

    def _abbreviate(self, number: int, command: Command) -> None:
        """Takes an abbreviation."""
        self.declared[number] = Declaration("", (), (), True)
        self._standing.number = number
        try:
            made = abbreviating.read(command.text, self._scope.table, self._standing)
            self._scope = self._scope.abbreviated(made, command.word == "local")
        except Misread as error:
            self.blemishes.append(Blemish(*command.range(error.start, error.end), error.text, True))
        except Clash as clash:
            self.blemishes.append(Blemish(command.start, command.end, str(clash), True))

    def _import(self, command: Command, other: Optional["Notation"]) -> None:
        """Takes what another file declares."""
        if other is None:
            return
        self._scope, clashes = self._scope.imported(other.exported)
        for clash in clashes:
            told = "of what %s declares this can't be had: %s" % (command.name, clash)
            self.blemishes.append(Blemish(command.start, command.end, told, True))

    def _take_names(self, number: int, command: Command) -> None:
        """Takes the constants and constructors that a command makes, by its text."""
        words = command.text.split("`")[0].split()[1:]
        if command.word == "new_definition":
            defined = _FIRST_NAME.match(command.text.split("`")[1]) if "`" in command.text else None
            if defined:
                self.names.constants.setdefault(defined.group(1), number)
        elif command.word == "new_constant" and words:
            self.names.constants.setdefault(words[0], number)
        elif command.word == "new_type" and len(words) == 2 and words[1].isdecimal():
            self.names.constructors.setdefault(words[0], (number, int(words[1][:4])))
        elif command.word == "new_basic_type_definition" and len(words) > 2:
            self.names.constructors.setdefault(words[0], (number, MANY))
            for name in words[1:3]:
                self.names.constants.setdefault(name, number)

    def _check_constants(self) -> None:
        """Warns of declarations for constants that nothing makes."""
        for number, declaration in self.declared.items():
            kind = self.vocabulary.constructors if declaration.kind == "type_infixr" else self.vocabulary.constants
            known = PRELUDE_TYPES if declaration.kind == "type_infixr" else PRELUDE_CONSTANTS
            for name, start, end in declaration.constants:
                if name not in kind and name not in known and name not in self._scope.table.abbreviations:
                    told = "nothing makes the constant %s in this file or in those that it imports" % name
                    self.blemishes.append(Blemish(*self.commands[number].range(start, end), told, False))

    def is_like(self, other: "Notation") -> bool:
        """Whether importing files have the same of both."""
        mine, others = self.vocabulary, other.vocabulary
        return self is other or (
            self.exported is other.exported and mine.constructors == others.constructors and mine.constants.keys() == others.constants.keys())

    def table(self, number: Optional[int]) -> Table:
        """What is declared behind a command."""
        return EMPTY if number is None or not self.tables else self.tables[min(number, len(self.tables) - 1)]

    def vocabulary_at(self, number: Optional[int]) -> Vocabulary:
        """The names that stand behind a command."""
        return NamesAt(self.names, 0 if number is None else number + 1)
