"""One program, the theories that stand in it, and the scratch theories in which steps are tried.

A scratch theory imports a theory, states a goal and has the steps that lead to a state; its last command is the step that was tried last.
To come from one state to another, the steps that differ are taken out from the end and the others put in: what they came to is found, as
long as the program keeps it, and else run again.
"""

from __future__ import annotations

from dataclasses import dataclass, field
from json.encoder import encode_basestring_ascii
from typing import Dict, Iterator, List, Optional, Sequence, Tuple, Union

from holls import protocol, theory
from holls.api.channel import Broken, Channel, TooSlow
from holls.api.values import CannotStand, ProgramDied, ProverError
from holls.checking import SERVED
from holls.protocol import Error, Items, Made, Theorems

SCRATCHES = 8
"""So many scratch theories stand at most."""
LOAD_SECONDS = 120.0
"""A command of a theory that is loaded, and a question, may take so long at least."""

_DONE = b'{"ok":true}'


@dataclass(frozen=True)
class Layer:
    """A theory that is to stand: its name, the names of the theories that it imports, and its commands' texts."""

    name: str
    imports: Tuple[str, ...]
    texts: Tuple[str, ...]


@dataclass(frozen=True, eq=False)
class Context:
    """Theories that are to stand, each after those that it imports; proofs import the last one."""

    layers: Tuple[Layer, ...]

    @property
    def base(self) -> str:
        """The name of the theory that proofs import."""
        return self.layers[-1].name


class TookTooLong:
    """In place of a report: the command was given up."""


Answer = Union[protocol.Reply, TookTooLong]


@dataclass(eq=False)
class _Scratch:
    """A scratch theory with its commands behind the import."""

    name: str
    texts: List[str] = field(default_factory=list)
    tried: int = 0

    def edits(self, path: Tuple[str, ...]) -> int:
        """How many edits lead to a path."""
        shared = _shared(self.texts, path)
        return len(self.texts) + len(path) - 2 * shared


def _shared(texts: List[str], path: Sequence[str]) -> int:
    """The length of the common beginning of two lists."""
    if list(path) == texts[:len(path)]:  # Mostly so, and quick.
        return len(path)
    for at, (one, other) in enumerate(zip(texts, path)):
        if one != other:
            return at
    return min(len(texts), len(path))


class _Spoilt(ProverError):
    """A line that has to be served wasn't."""

    def __init__(self, error: Error) -> None:
        super().__init__("hol_serve refused a line that a proof needs: " + error.text)
        self.error = error


class Engine:
    """One program at a time. It is started where it is needed, and again after it has ended."""

    def __init__(self, words: Sequence[str], seconds: float) -> None:
        self._words, self._seconds = list(words), seconds
        self._channel: Optional[Channel] = None
        self._forget()

    def _forget(self) -> None:
        self._standing = theory.Standing()
        self._imports: Dict[str, Tuple[str, ...]] = {}
        self._context: Optional[Context] = None
        self._scratches: List[_Scratch] = []
        self._tried = self._made = 0

    @property
    def pid(self) -> Optional[int]:
        """The number of the process that runs, where one does."""
        return self._channel.pid if self._channel and self._channel.is_open else None

    def close(self) -> None:
        """Ends the program."""
        if self._channel:
            self._channel.close()
        self._channel = None
        self._forget()

    def fits(self, context: Context, path: Tuple[str, ...]) -> int:
        """How near what stands is to a state: 2 where its proof does, 1 where its theory does, else 0."""
        if self._context is not context:
            return 0
        return 2 if any(scratch.texts[:1] == list(path[:1]) for scratch in self._scratches) else 1

    # Steps

    def attempt(self, context: Context, path: Tuple[str, ...], tries: Sequence[str]) -> List[Answer]:
        """The reports on commands, each tried behind a path of commands that were accepted before.

        Raises ProgramDied, with the answers before it, where the program ends.
        """
        answers: List[Answer] = []
        failures = 0
        while len(answers) < len(tries):
            try:
                self.stand(context)
                for answer in self._some(path, tries[len(answers):]):
                    answers.append(answer)
            except _Spoilt as spoilt:
                self.close()
                failures += 1
                if failures > 1:
                    answers += [spoilt.error] * (len(tries) - len(answers))
            except TooSlow:
                answers.append(TookTooLong())
            except ProgramDied as died:
                died.done = list(answers)
                raise
        return answers

    def _some(self, path: Tuple[str, ...], tries: Sequence[str]) -> Iterator[Answer]:
        """Sends all, and yields the answers up to a step that the program didn't take."""
        scratch = self._scratch(path)
        lines = self._lead(scratch, path)
        leading, at = len(lines), len(path) + 1
        name, is_there = scratch.name, len(scratch.texts) > len(path)
        report = b'{"op":"report","theory":"%s","at":%d}' % (name.encode(), at)
        for text in tries:
            lines.append(_edit("replace" if is_there else "insert", name, at, text))
            lines.append(report)
            is_there = True
        replies = self._replies(lines, self._seconds, leading)
        for line in lines[:leading]:
            self._need(next(replies), line)
        del scratch.texts[len(path):]
        for text in tries:
            done = next(replies)
            if done != _DONE:
                for _ in replies:  # They speak of places that may be others.
                    pass
                self._drop(scratch)
                yield self._reply(done, lines[leading])
                return
            answer = self._reply(next(replies), report)
            scratch.texts[len(path):] = [text]
            yield answer

    def _lead(self, scratch: _Scratch, path: Tuple[str, ...]) -> List[bytes]:
        """The lines by which a path stands in a scratch theory, with at most one command behind it."""
        texts, lines = scratch.texts, []
        shared = _shared(texts, path)
        keeps = shared + 1
        for at in range(len(texts) - 1, keeps - 1, -1):
            lines.append(b'{"op":"remove","theory":"%s","at":%d}' % (scratch.name.encode(), at + 1))
        del texts[keeps:]
        for at in range(shared, len(path)):
            op = "replace" if at < len(texts) else "insert"
            lines.append(_edit(op, scratch.name, at + 1, path[at]))
            texts[at:at + 1] = [path[at]]
        return lines

    def _scratch(self, path: Tuple[str, ...]) -> _Scratch:
        """The scratch theory from which the fewest edits lead to a path; a new one where that takes fewer."""
        nearest = min(self._scratches, key=lambda scratch: scratch.edits(path), default=None)
        if nearest is None or nearest.edits(path) > len(path) + 2:
            nearest = self._new_scratch()
        self._tried += 1
        nearest.tried = self._tried
        return nearest

    def _new_scratch(self) -> _Scratch:
        room = min(SCRATCHES, protocol.THEORIES - len(self._standing.theories))
        if room < 1:
            raise CannotStand("%d theories stand, and a proof needs one more" % protocol.THEORIES)
        while len(self._scratches) >= room:
            self._drop(min(self._scratches, key=lambda one: one.tried))
        self._made += 1
        names = [name for name, _ in self._standing.theories]
        name = "scratch%d" % self._made
        while name in names:
            name += "_"
        at = len(names) + len(self._scratches)
        base = self._context.base
        self._served([protocol.line({"op": "new_theory", "name": name, "at": at}), _edit("insert", name, 0, "import " + base)])
        scratch = _Scratch(name)
        self._scratches.append(scratch)
        return scratch

    def _drop(self, scratch: _Scratch) -> None:
        self._scratches.remove(scratch)
        self._served([protocol.line({"op": "drop_theory", "name": scratch.name})])

    # Questions

    def ended(self, context: Context, path: Tuple[str, ...], name: str) -> Tuple[Answer, Optional[Tuple[str, ...]]]:
        """The report on a `qed` behind a path, and where it made a theorem, on what that rests."""
        answer = self.attempt(context, path, ["qed"])[0]
        if not isinstance(answer, Made):
            return answer, None
        return answer, self._bases(self._scratch(path).name, [name])[0]

    def theorems(self, context: Context) -> Tuple[str, ...]:
        """The theorems that stand at the end of a theory, as `thm N |- p`."""
        self.stand(context)
        reply = self._asked([{"op": "theorems", "theory": context.base}])[0]
        return reply.texts if isinstance(reply, Theorems) else ()

    def bases(self, context: Context, names: Sequence[str]) -> List[Optional[Tuple[str, ...]]]:
        """On what theorems rest that stand at the end of a theory; None for a name of none."""
        self.stand(context)
        return self._bases(context.base, names)

    def _bases(self, name: str, names: Sequence[str]) -> List[Optional[Tuple[str, ...]]]:
        replies = self._asked([{"op": "basis", "theory": name, "name": one} for one in names])
        return [reply.items if isinstance(reply, Items) else None for reply in replies]

    def reports(self, context: Context) -> List[protocol.Reply]:
        """The reports on the commands of a theory."""
        self.stand(context)
        layer = context.layers[-1]
        return self._asked([{"op": "report", "theory": layer.name, "at": at} for at in range(len(layer.texts))])

    def _asked(self, requests: Sequence[Dict[str, object]]) -> List[protocol.Reply]:
        """The replies to questions."""
        lines = [protocol.line(request) for request in requests]
        return [self._reply(reply, line) for reply, line in zip(list(self._replies(lines, LOAD_SECONDS, len(lines))), lines)]

    # Theories

    def stand(self, context: Context) -> None:
        """Has the theories stand; where others stand already, by the edits that are needed, and where none do, from nothing."""
        if self._channel is None or not self._channel.is_open:
            self.close()
            self._channel = Channel(self._words)
        if self._context is context:
            return
        if len(context.layers) >= protocol.THEORIES:
            raise CannotStand("a proof hangs together with %d theories by imports, and a program holds %d with the proof's own" % (
                len(context.layers), protocol.THEORIES))
        changes = self._changes(context)
        if changes:
            for scratch in list(self._scratches):
                self._drop(scratch)
            self._served([change.line() for change in changes], changes)
        self._imports.update((layer.name, layer.imports) for layer in context.layers)
        self._context = context

    def _changes(self, context: Context) -> List[theory.Change]:
        """What leads to the theories that a context has, with those that stand beside them where nothing that they import changes."""
        wanted = [_wanted(layer.name, layer.imports, layer.texts) for layer in self._kept(context)]
        changes = self._standing.changes(wanted, SERVED)
        if changes is None:
            self.close()
            self._channel = Channel(self._words)
            changes = self._standing.changes([_wanted(*_parts(layer)) for layer in context.layers], SERVED)
        return changes or []

    def _kept(self, context: Context) -> List[Layer]:
        """The layers of a context, and behind them those that stand and import nothing that is to change."""
        own = {layer.name: layer for layer in context.layers}
        changed = {name for name, texts in self._standing.theories if name in own and tuple(texts) != own[name].texts}
        kept: List[Layer] = []
        for name, texts in self._standing.theories:
            imports = own[name].imports if name in own else self._imports.get(name, ())
            if changed.intersection(imports):
                changed.add(name)
            elif name not in own:
                kept.append(Layer(name, imports, tuple(texts)))
        room = protocol.THEORIES - SCRATCHES - len(context.layers)
        return list(context.layers) + kept[:max(0, room)]

    # Lines

    def _replies(self, lines: List[bytes], seconds: float, patient: int) -> Iterator[bytes]:
        """The replies to lines, of which the first ones may take longer: one that doesn't come is an error, and of the others TooSlow."""
        given = 0
        try:
            for reply in self._channel.exchange(lines, seconds, patient):
                yield reply
                given += 1
        except Broken as broken:
            self.close()
            raise _died(lines[given], str(broken)) from None
        except TooSlow:
            self.close()
            if given < patient:
                raise _died(lines[given], "gave no answer in time") from None
            raise

    def _served(self, lines: List[bytes], changes: Sequence[theory.Change] = ()) -> None:
        """Sends edits that have to be made."""
        replies = list(self._replies(lines, max(LOAD_SECONDS, self._seconds), len(lines)))
        for reply, line in zip(replies, lines):
            self._need(reply, line)
        for change in changes:
            self._standing.apply(change)

    def _reply(self, reply: bytes, line: bytes) -> protocol.Reply:
        """What a reply says."""
        found = protocol.reply(reply)
        if isinstance(found, protocol.Unreadable):
            self.close()
            raise _died(line, "wrote a line that is no reply")
        return found

    def _need(self, reply: bytes, line: bytes) -> None:
        """Raises where an edit wasn't made."""
        if reply != _DONE:
            found = self._reply(reply, line)
            raise _Spoilt(found if isinstance(found, Error) else Error(0, "a reply of another kind"))


def _died(line: bytes, reason: str) -> ProgramDied:
    return ProgramDied(line.decode("utf-8", "replace"), reason)


def _parts(layer: Layer) -> Tuple[str, Tuple[str, ...], Tuple[str, ...]]:
    return layer.name, layer.imports, layer.texts


def _wanted(name: str, imports: Tuple[str, ...], texts: Sequence[str]) -> theory.Theory:
    """A layer as `Standing` takes it."""
    return theory.Theory(name, [theory.Entry(text) for text in texts], imports)


def _edit(op: str, name: str, at: int, text: str) -> bytes:
    """An edit's line."""
    return ('{"op":"%s","theory":"%s","at":%d,"text":%s}' % (op, name, at, encode_basestring_ascii(text))).encode("ascii")
