"""Connections, between the system and aiohttp, which takes in whatever comes: here it is counted first.

A connection that asks for nothing, or reads nothing of what it asked for, is cut in time, and so is one that asks for more and more before it is answered.
The frames of a page's socket wait where they come too fast: tiny ones cost the server much, and who sends them nothing. An address has so many connections.
"""

from __future__ import annotations

import asyncio
import math
import time
from collections import Counter
from typing import Callable, Optional, Set

from holls.serving.rates import Bucket

BACKLOG = 512
"""So many connections wait to be taken in."""
ASK_SECONDS, ANSWER_SECONDS = 20, 60
"""So long a connection may take until it has asked for something; and so long until it has the answer, and has asked for something else."""
MOST_ASKED, UNHEARD_BYTES = 32, 1 << 16
"""So much may be asked for before the first of it is answered. No browser asks for more than one thing."""
FRAMES, MOST_FRAMES = 200, 1_000
"""So many frames a second a page's socket may send in the long run, and so many at once."""
OF_A_PAGE = 7
"""So many connections a browser has with a server: six, and the socket."""
READ_BYTES, LONG_BYTES = 1 << 11, 1 << 16
"""So much is read at a time: little, so that the others have their turns, but within a long frame."""

_MORE = {126: 2, 127: 8}
"""So many bytes more a frame's length has where its first byte says so."""


def frame(data: bytes, at: int) -> Optional[int]:
    """How long the frame is that begins there; None where its head isn't whole yet."""
    if len(data) < at + 2:
        return None
    first = data[at + 1] & 127
    more = _MORE.get(first, 0)
    if len(data) < at + 2 + more:
        return None
    length = int.from_bytes(data[at + 2:at + 2 + more], "big") if more else first
    return 2 + more + (4 if data[at + 1] & 128 else 0) + length


class Frames:
    """The frames of a page's socket, as they come. `missing` is how much of the last one is still to come."""

    def __init__(self) -> None:
        self._bucket, self._head, self.missing = Bucket(FRAMES, MOST_FRAMES), b"", 0

    def owe(self, data: bytes) -> float:
        """Takes what has come. Answers how many seconds it has to wait."""
        data, at, count = self._head + data, self.missing, 0
        size = frame(data, at)
        while size is not None:
            at, count = at + size, count + 1
            size = frame(data, at)
        self._head, self.missing = data[at:], max(0, at - len(data))
        return self._bucket.owes(count)


class Wire(asyncio.BufferedProtocol):
    """A connection: what comes by it is handed to aiohttp."""

    def __init__(self, wires: "Wires", inner: asyncio.Protocol) -> None:
        self._wires, self._inner = wires, inner
        self._transport: Optional[asyncio.Transport] = None
        self._asked = self._unheard = self._behind = 0
        self._last = self._held = b""
        self._frames: Optional[Frames] = None
        self._waits: Optional[asyncio.TimerHandle] = None
        self.address, self.until = "", time.monotonic() + ASK_SECONDS

    def heard(self) -> None:
        """Something that was asked for is about to be answered."""
        self._asked, self._unheard, self.until = max(0, self._asked - 1), 0, time.monotonic() + ANSWER_SECONDS

    def stays(self) -> None:
        """It is a page's socket from now on. Frames that were sent before it was one can't be counted."""
        self.until, self._frames = math.inf, Frames()
        if self._behind:
            self.cut()

    def cut(self) -> None:
        """Ends it at once."""
        if self._transport:
            self._transport.abort()

    # What the system tells

    def connection_made(self, transport: asyncio.BaseTransport) -> None:
        """It begins; one too many of an address ends at once."""
        self._transport = transport
        self.address = str((transport.get_extra_info("peername") or ("",))[0])
        self._inner.connection_made(transport)
        if not self._wires.take(self):
            self.cut()

    def connection_lost(self, error: Optional[Exception]) -> None:
        """It has ended."""
        if self._waits:
            self._waits.cancel()
        self._wires.drop(self)
        self._inner.connection_lost(error)

    def get_buffer(self, sizehint: int) -> memoryview:
        """Where the next part is read to: all share it, since each part is taken at once."""
        return self._wires.room[:max(READ_BYTES, self._frames.missing if self._frames else 0)]

    def buffer_updated(self, nbytes: int) -> None:
        """A part has come."""
        data = bytes(self._wires.room[:nbytes])
        if self._frames is None:
            if self._may_ask(data):
                self._inner.data_received(data)
            else:
                self.cut()
            return
        seconds = self._frames.owe(data)
        if self._waits or seconds:
            self._held += data
            self._transport.pause_reading()
            self._waits = self._waits or asyncio.get_running_loop().call_later(seconds, self._go_on)
        else:
            self._inner.data_received(data)

    def _go_on(self) -> None:
        """What was held has waited long enough. (It is read on before aiohttp gets that, which may then not want more.)"""
        data, self._held, self._waits = self._held, b"", None
        self._transport.resume_reading()
        self._inner.data_received(data)

    def _may_ask(self, data: bytes) -> bool:
        """Whether a part may come before more is answered: each thing that is asked for ends by an empty line."""
        seen = self._last + data
        ends = [end + len(line) for line in (b"\n\r\n", b"\n\n") for end in (seen.rfind(line),) if end >= 0]
        self._asked += seen.count(b"\n\r\n") + seen.count(b"\n\n")
        self._unheard += len(data)
        self._behind = len(seen) - max(ends) if ends else self._behind + len(data)
        self._last = seen[-2:]
        return self._asked <= MOST_ASKED and self._unheard <= UNHEARD_BYTES

    def eof_received(self) -> Optional[bool]:
        """The other end sends no more."""
        return self._inner.eof_received()

    def pause_writing(self) -> None:
        """What was sent isn't read."""
        self._inner.pause_writing()

    def resume_writing(self) -> None:
        """It is."""
        self._inner.resume_writing()


class Wires:
    """The connections; `make` makes what each is handed to, and an address has so many of them at most, where addresses are known."""

    def __init__(self, make: Callable[[], asyncio.Protocol], most: Optional[int]) -> None:
        self._make, self._most = make, most
        self.room = memoryview(bytearray(LONG_BYTES))
        self._wires: Set[Wire] = set()
        self._counts: "Counter[str]" = Counter()

    def __call__(self) -> Wire:
        return Wire(self, self._make())

    def take(self, wire: Wire) -> bool:
        """Takes one in. Answers whether its address may have it."""
        self._wires.add(wire)
        self._counts[wire.address] += 1
        return self._most is None or self._counts[wire.address] <= self._most

    def drop(self, wire: Wire) -> None:
        """It has ended."""
        self._wires.discard(wire)
        self._counts[wire.address] -= 1
        if not self._counts[wire.address]:
            del self._counts[wire.address]

    def end_silent(self) -> None:
        """Cuts those that have had their time."""
        now = time.monotonic()
        for wire in [one for one in self._wires if one.until < now]:
            wire.cut()
