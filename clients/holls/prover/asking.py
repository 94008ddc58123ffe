"""A server of its own for the search, asked one question after the other."""

from __future__ import annotations

import queue
import time
from collections import deque
from typing import Any, Deque, Dict, List, NamedTuple, Optional, Sequence, Union

from holls import protocol
from holls.protocol import Goals, Made, Refusal
from holls.server import Lines, Server

THEORY = "holls_prover"
"""The name of the copy in which steps are tried."""
_SPACING = 32
"""The program keeps its state at each so many-th command of a theory, and goes on from the last one that it kept."""
_ROOM = 200
"""So many commands more are to stand in a theory in which steps are tried."""
_NOTHING = "b"
"""A command that is refused where no proof is open, and so does nothing."""


class Silent(Exception):
    """The program has ended, or gave no answer in time; the text says which."""


class _Standing(NamedTuple):
    """A theory that stands, with its commands; the first ones do nothing."""

    name: str
    texts: List[str]
    idle: int = 0


class Asker:
    """A server in which theories stand, and a copy of a proof behind them, whose next steps are tried."""

    def __init__(self, program: Sequence[str], seconds: float) -> None:
        self.program, self.seconds = list(program), seconds
        self._stand: List[_Standing] = []
        self._spent = 0.0
        self._begin()

    def _begin(self) -> None:
        self._events: "queue.Queue[object]" = queue.Queue()
        self._replies: Deque[bytes] = deque()
        self._server = Server(self.program, self._events)

    def _renew(self) -> None:
        """Has what stands in a fresh server."""
        self._spent = self.processor_seconds()
        self.stop()
        self._begin()
        stood, self._stand = self._stand, []
        for one in stood:
            self._put(one)

    @property
    def count(self) -> int:
        """How many commands the copy has."""
        return len(self._stand[-1].texts) - self._stand[-1].idle

    def stop(self) -> None:
        """Ends the server."""
        self._server.stop()

    def processor_seconds(self) -> float:
        """How much of the processor's time the program has had, where the system says it; with those that ended before."""
        try:
            with open("/proc/%d/schedstat" % self._server.process.pid, encoding="ascii") as file:
                return self._spent + int(file.read().split()[0]) / 1e9
        except (OSError, ValueError, IndexError):
            return self._spent

    def ask(self, request: Dict[str, Any], until: Optional[float] = None) -> protocol.Reply:
        """The reply to a request."""
        self._server.send(protocol.line(request))
        return self._answer(until)

    def _answer(self, until: Optional[float]) -> protocol.Reply:
        if not self._replies:
            self._replies.extend(self._heard(self.seconds if until is None else max(0.01, until - time.monotonic())))
        reply = protocol.reply(self._replies.popleft())
        if isinstance(reply, protocol.Unreadable):
            raise Silent("hol_serve wrote a line that is no reply")
        return reply

    def _heard(self, seconds: float) -> List[bytes]:
        """The next lines that the server writes."""
        try:
            event = self._events.get(timeout=seconds)
        except queue.Empty:
            raise Silent("hol_serve gave no answer in time") from None
        if not isinstance(event, Lines):
            raise Silent("hol_serve " + event.reason)
        return event.lines

    def add(self, theory: str, texts: Sequence[str]) -> None:
        """Puts a theory behind those that stand."""
        self._put(_Standing(theory, list(texts)))

    def _put(self, standing: _Standing) -> None:
        requests = [{"op": "new_theory", "name": standing.name, "at": len(self._stand)}]
        requests += [{"op": "insert", "theory": standing.name, "at": at, "text": text} for at, text in enumerate(standing.texts)]
        self._stand.append(standing)
        self._ask_all(requests)

    def _ask_all(self, requests: Sequence[Dict[str, Any]]) -> None:
        if requests:
            self._server.send(b"\n".join(map(protocol.line, requests)))
        for _ in requests:
            self._answer(None)

    def copy(self, texts: Sequence[str]) -> None:
        """Puts the commands of a proof up to where it is. Commands that do nothing stand before them, so that the program keeps its state behind the last
        import, and no step that is tried goes through these again; none where the theory is nearly full."""
        imports = [at for at, text in enumerate(texts) if text.startswith("import ")]
        idle = -(imports[-1] + 1) % _SPACING if imports and len(texts) < protocol.COMMANDS - _ROOM else 0
        self._put(_Standing(THEORY, [_NOTHING] * idle + list(texts), idle))

    def extend(self, texts: Sequence[str]) -> None:
        """Puts more commands behind those of the copy."""
        own = self._stand[-1].texts
        self._ask_all([{"op": "insert", "theory": THEORY, "at": len(own) + at, "text": text} for at, text in enumerate(texts)])
        own.extend(texts)

    def forget(self) -> None:
        """Takes the last theory out, or the copy."""
        self.ask({"op": "drop_theory", "name": self._stand[-1].name})
        self._stand.pop()

    def report(self, at: int) -> Union[Goals, Made, Refusal, protocol.Error]:
        """The report on a command of the copy."""
        return self.ask({"op": "report", "theory": THEORY, "at": self._stand[-1].idle + at})

    def theorems(self) -> List[str]:
        """The names of the theorems that stand in the copy."""
        reply = self.ask({"op": "theorems", "theory": THEORY})
        return [text.split(" ", 2)[1] for text in reply.texts] if isinstance(reply, protocol.Theorems) else []

    def step(self, text: str, until: Optional[float] = None) -> Union[Goals, Made, Refusal, protocol.Error]:
        """Puts a step behind the last command, and answers its report; one that is refused is taken out again."""
        own = self._stand[-1].texts
        put = protocol.line({"op": "insert", "theory": THEORY, "at": len(own), "text": text})
        self._server.send(put + b"\n" + protocol.line({"op": "report", "theory": THEORY, "at": len(own)}))
        done, report = self._answer(until), self._answer(until)
        if not isinstance(done, protocol.Done):
            return done
        own.append(text)
        if not isinstance(report, (Goals, Made)):
            self.back(self.count - 1)
        return report

    def attempt(self, text: str, until: float) -> Union[Goals, Made, Refusal, protocol.Error, None]:
        """As `step`; None where it has no answer in time, or ends the program. A fresh server then has what stood before."""
        try:
            return self.step(text, until)
        except Silent:
            self._renew()
            return None

    def back(self, count: int) -> None:
        """Takes steps out until so many commands stand."""
        own = self._stand[-1]
        while len(own.texts) - own.idle > count:
            own.texts.pop()
            self.ask({"op": "remove", "theory": THEORY, "at": len(own.texts)})
