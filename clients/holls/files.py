"""A file of commands: its text, the commands that it is cut into, and the theory that it wants of the server."""

from __future__ import annotations

import os
from bisect import bisect_right
from typing import TYPE_CHECKING, Any, Callable, Dict, List, Mapping, NamedTuple, Optional, Sequence, Set, Tuple

from holls import notation, protocol
from holls.places import Lines
from holls.projects import SUFFIX
from holls.text import Blemish, Command, Cut, cut
from holls.theory import Entry, Theory

if TYPE_CHECKING:
    from holls.sent import Notation


class Outline(NamedTuple):
    """What is asked of a text before its commands are: the theories that it imports, and how many commands it has."""

    imports: Tuple[str, ...]
    commands: int


def theory_name(path: str) -> str:
    """The name of a file's theory: the file's without its suffix."""
    name = os.path.basename(path)
    return name[:-len(SUFFIX)] if name.endswith(SUFFIX) else name


class File:
    """A file. Each command has a place in the theory, unless it is too long or one too many, or declares notation.

    The text is cut into commands when these are asked for the first time; before that its `outline` can be told by who remembers it. What needs
    its quotations read (`notation`, `theory`, `blemishes`, and what is told by these) is made when it is asked for the first time behind a change:
    `notation` is what its commands are in notation, by what the files that it imports declare. `blemishes` come from the file alone,
    `context` from what stands beside it; with `is_shadowed` there is no room for it in the server, or another file is its theory. Of the theories that it
    imports those of `refused` are part of a circle, and aren't carried out. `written` is what the module `names` keeps of it, `likes` what
    `meant` does, `hints` what `findings` does; `undecoded` says where its bytes are no text any more, and `neighbours` gives the paths of its project.
    """

    def __init__(self, path: str) -> None:
        self.path = path
        self.name = theory_name(path)
        self._theory = Theory(self.name)
        self._is_named = protocol.is_name(self.name)
        self._blemishes: List[Blemish] = []
        self.context: List[Blemish] = []
        self._told: Tuple[List[Blemish], int, Dict[Tuple[int, int], str]] = ([], 0, {})
        self.is_shadowed = False
        self._cut: Optional[Cut] = None
        self._before: Tuple[str, Optional[Cut]] = ("", None)
        self._outline: Optional[Outline] = None
        self._import_commands: Optional[Dict[str, List[Command]]] = None
        self.refused: Tuple[str, ...] = ()
        self.written: Optional[Tuple[Notation, List[Any]]] = None
        self.likes: Optional[Tuple[List[Notation], Dict[str, Any]]] = None
        self.hints: Optional[List[Any]] = None
        self.undecoded: Optional[Blemish] = None
        self.neighbours: Callable[[], Sequence[str]] = lambda: ()
        self._notation: Optional[Notation] = None
        self._last_notation: Optional[Notation] = None
        self._imported: Mapping[str, "File"] = {}
        self._read_by: Mapping[str, Notation] = {}
        self._slots: List[Optional[int]] = []
        self._behind_oops: Set[int] = set()
        self._starts: List[int] = []
        self.lines = Lines("")
        self.take("")

    def take(self, text: str, lines: Optional[Lines] = None) -> None:
        """Takes the file's text, and its lines where these are known."""
        if self._cut is not None:
            self._before = self.lines.text, self._cut
        self.lines = lines or Lines(text)
        self._cut = self._outline = self._import_commands = None
        self._forget()

    @property
    def cut(self) -> Cut:
        """The text cut into commands."""
        if self._cut is None:
            self._cut = cut(self.lines.text, *self._before)
        return self._cut

    @property
    def import_commands(self) -> Dict[str, List[Command]]:
        """The commands that import, by the theories' names."""
        if self._import_commands is None:
            self._import_commands = {}
            for command in self.cut.commands:
                if command.word == "import" and command.name:
                    self._import_commands.setdefault(command.name, []).append(command)
        return self._import_commands

    @property
    def outline(self) -> Outline:
        """What it imports, and how many commands it has."""
        if self._outline is None:
            self._outline = Outline(tuple(self.import_commands), len(self.cut.commands))
        return self._outline

    def remember(self, outline: Outline) -> None:
        """Takes the outline of its text from who remembers it."""
        self._outline = outline

    @property
    def imports(self) -> Tuple[str, ...]:
        """The theories that it imports."""
        return self.outline.imports

    def know(self, imported: Mapping[str, "File"]) -> None:
        """Takes the files that it imports, by the names of their theories."""
        self._imported = imported
        if self._notation is None:
            return
        known = self._known()
        is_same = known.keys() == self._read_by.keys() and all(one.is_like(self._read_by[name]) for name, one in known.items())
        if self._notation.is_expanded_otherwise(known) or not is_same:
            self._forget()

    def copy(self) -> "File":
        """The same file, which no edit of this one changes."""
        other = File(self.path)
        other._imported, other.refused = self._imported, self.refused
        other.take(self.lines.text, self.lines)
        other._cut = self._cut
        if self._notation is not None:  # What is read of a text stays as it is: a change has another one.
            other._notation, other._read_by, other._starts = self._notation, self._read_by, self._starts
            other._want()
        return other

    @property
    def notation(self) -> Notation:
        """What its commands are in notation."""
        self._read()
        return self._notation

    @property
    def theory(self) -> Theory:
        """The theory that it wants, which is one and the same for all its texts."""
        self._read()
        return self._theory

    @property
    def starts(self) -> List[int]:
        """Where its commands begin."""
        self._read()
        return self._starts

    @property
    def blemishes(self) -> List[Blemish]:
        """What is wrong with its form."""
        self._read()
        return self._blemishes

    @property
    def carried_out(self) -> Tuple[str, ...]:
        """The theories that it imports, those of circles apart."""
        return tuple(name for name in self.imports if name not in self.refused) if self.refused else self.imports

    def _forget(self) -> None:
        """Has what needs its quotations read made anew when it is asked for."""
        self._last_notation = self._notation or self._last_notation
        self._notation = self.hints = None

    def with_imports(self) -> List["File"]:
        """The file and those that it imports, by way of others too."""
        found, waiting = {self.name: self}, [self]
        while waiting:
            file = waiting.pop()
            new = {name: one for name, one in file._imported.items() if name in file.carried_out and name not in found}
            found.update(new)
            waiting += new.values()
        return list(found.values())

    def _known(self) -> Dict[str, Notation]:
        """What the files that it imports are in notation, where these are carried out."""
        imports = self.carried_out
        return {name: one.notation for name, one in self._imported.items() if name in imports and one is not self}

    def _read(self) -> None:
        """Has its commands as they are sent, and before it those of the files that it imports, by a stack of its own: what waits in it is a way of
        imports, on which no file stands twice."""
        waiting, entered = [self], {id(self)}
        while self._notation is None:
            file = waiting[-1]
            unread = next((one for one in file._imported.values() if one._notation is None and id(one) not in entered), None)
            if unread is None:
                waiting.pop()._take_notation()
            else:
                waiting.append(unread)
                entered.add(id(unread))

    def _take_notation(self) -> None:
        """Reads its quotations, where those of the files that it imports are read."""
        from holls.sent import Notation  # Here alone: a check that remembers all reads no quotation, and needs none of it.

        imports = self.carried_out
        self._read_by = {name: one._notation for name, one in self._imported.items() if name in imports and one._notation is not None}
        self._notation = Notation(self.cut.commands, self._read_by, self._last_notation)
        self._last_notation = None
        self._starts = [command.start for command in self._notation.commands]
        self._want()

    def refuse(self, imports: Sequence[str]) -> None:
        """Takes which imports aren't carried out, since they are part of a circle."""
        if self.refused != tuple(imports):
            self.refused = tuple(imports)
            self._forget()

    def _want(self) -> None:
        """Has the theory want the commands. A hidden `oops` ends a failed proof before a command that can't stand in one."""
        cut_off = self.undecoded
        self._blemishes = [blemish for blemish in self.cut.blemishes if blemish.is_error or not cut_off] + ([cut_off] if cut_off else [])
        self._check_name()
        short, declared = protocol.short(self.name), self.notation.declared
        fitting = [number not in declared and (len(command.text) < short or self._fits(command)) for number, command in enumerate(self.commands)]
        texts = self._texts(fitting, True)
        if len(texts) > protocol.COMMANDS:
            texts = self._texts(fitting, False)
        self._check_number(texts)
        self._theory.want(texts[:protocol.COMMANDS])
        self._theory.imports = self.carried_out

    @property
    def commands(self) -> List[Command]:
        """The commands in the order of the file, as they are sent."""
        return self.notation.commands

    @property
    def is_sent(self) -> bool:
        """Whether the file can be a theory."""
        return self._is_named and not self.is_shadowed

    def slot(self, number: int) -> Optional[int]:
        """A command's place in the theory."""
        self._read()
        slot = self._slots[number]
        return slot if slot is not None and slot < protocol.COMMANDS and self.is_sent else None

    def is_declaration(self, number: int) -> bool:
        """Whether a command declares notation, so that the program never gets it."""
        return number in self.notation.declared

    def jobs(self, numbers: Sequence[int]) -> List[Tuple[Theory, int]]:
        """The places of commands in the theory, of those that are sent."""
        self._read()
        most = protocol.COMMANDS if self.is_sent else 0
        return [(self._theory, slot) for slot in map(self._slots.__getitem__, numbers) if slot is not None and slot < most]

    def entry(self, number: int) -> Optional[Entry]:
        """What is known of a command; None where it isn't sent."""
        slot = self.slot(number)
        return None if slot is None else self.theory.entries[slot]

    def entries(self) -> List[Optional[Entry]]:
        """What is known of each command; None of one that isn't sent."""
        self._read()
        own, most = self._theory.entries, protocol.COMMANDS if self.is_sent else 0
        return [own[slot] if slot is not None and slot < most else None for slot in self._slots]

    def behind_oops(self) -> Set[int]:
        """The commands before which a hidden `oops` stands, so that no proof is open there."""
        self._read()
        return self._behind_oops if self.is_sent else set()

    def is_behind_oops(self, number: int) -> bool:
        """Whether a hidden `oops` stands before a command, so that no proof is open there."""
        return number in self.behind_oops()

    def why_not(self, number: int) -> Optional[str]:
        """Why an import can't be carried out, where what stands beside the file says so: no file of that name, or a circle."""
        command = self.commands[number]
        if command.word != "import":
            return None
        if self._told[0] is not self.context or self._told[1] != len(self.context):
            told = {(blemish.start, blemish.end): blemish.text for blemish in reversed(self.context)}
            self._told = self.context, len(self.context), told
        return self._told[2].get((command.start, command.end))

    def proof_begin(self, number: int) -> int:
        """The command at which the proof that a command stands in begins: the last one above that can't stand in a proof, or it."""
        commands = self.commands
        while number > 0 and commands[number].word not in notation.OUTSIDE:
            number -= 1
        return number

    def number_at(self, place: int) -> Optional[int]:
        """The last command that begins before a place, or at it."""
        return bisect_right(self.starts, place) - 1 if self.starts and self.starts[0] <= place else None

    def covers(self, number: int, place: int) -> bool:
        """Whether a place is in a command or in its `;;`."""
        command = self.commands[number]
        return place <= command.end or not self.lines.text[command.end:place].strip(" ;")

    def _fits(self, command: Command) -> bool:
        if not protocol.is_too_long(self.name, command.text):
            return True
        self._blemishes.append(Blemish(
            command.start, command.end, "this command is too long: a request's line has at most %d bytes; split it"
            % protocol.LINE_BYTES, True))
        return False

    def _texts(self, fitting: List[bool], with_oops: bool) -> List[Tuple[str, bool]]:
        """What is sent, each with whether it is hidden."""
        texts: List[Tuple[str, bool]] = []
        self._slots, self._behind_oops = [], set()
        may_be_open = False
        for number, (command, fits) in enumerate(zip(self.commands, fitting)):
            if not fits:
                self._slots.append(None)
                continue
            word, text = command.word, command.text
            if word in notation.OUTSIDE:
                is_inside = command.package is not None and not command.is_first  # A package's own proofs end before its next command.
                if may_be_open and with_oops and not is_inside:
                    texts.append(("oops", True))
                    if len(texts) < protocol.COMMANDS:
                        self._behind_oops.add(number)
                may_be_open = word == "g"
                if word == "import" and command.name in self.refused:
                    text = "import " + self.name  # One that isn't to be carried out is one that never is: that of the theory itself.
            may_be_open = may_be_open and text != "oops"
            self._slots.append(len(texts))
            texts.append((text, False))
        return texts

    def _check_number(self, texts: List[Tuple[str, bool]]) -> None:
        if len(texts) <= protocol.COMMANDS:
            return
        first = self.commands[self._slots.index(protocol.COMMANDS)]
        if first.package is not None:
            own = [slot for slot, command in zip(self._slots, self.commands) if command.package is first.package and slot is not None]
            left = sum(slot < protocol.COMMANDS for slot in own)
            told = "this %s takes %d commands, and %d are left of a theory's %d: from here on nothing is checked; split the file" % (
                first.package.word, len(own), left, protocol.COMMANDS)
        else:
            told = "a theory has at most %d commands: from here on nothing is checked; split the file" % protocol.COMMANDS
        self._blemishes.append(Blemish(first.start, first.end, told, True))

    def _check_name(self) -> None:
        if self._is_named:
            return
        self._blemishes.append(self.first_line((
            "the file's name without %s is the theory's, and `%s` can't be one: it has to be a letter or _, then letters, digits, "
            "_ or ', at most %d, and no reserved word; rename the file" % (SUFFIX, self.name, protocol.NAME_BYTES))))

    def first_line(self, text: str, is_error: bool = True) -> Blemish:
        """An error, or a warning, that is told of the file as a whole."""
        end = self.lines.starts[1] if len(self.lines.starts) > 1 else len(self.lines.text)
        return Blemish(0, end, text, is_error)


def read(path: str, data: bytes) -> File:
    """A file of bytes. Where they aren't UTF-8 it holds what stands before the first byte that isn't, and says so."""
    file = File(path)
    try:
        file.take(data.decode("utf-8"))
    except UnicodeDecodeError as error:
        text = data[:error.start].decode("utf-8")
        told = "the file is no UTF-8 from here on (byte 0x%02x): save it as UTF-8" % data[error.start]
        file.undecoded = Blemish(len(text), len(text) + 1, told, True)
        file.take(text)
    return file
