"""A program's pipes: lines written and lines read on the caller's own thread, with a limit on each wait."""

from __future__ import annotations

import os
import select
import subprocess
import time
from typing import Iterator, List, Sequence

from holls.server import REPLY_BYTES, NoServer, environment

PATIENCE = 4
"""Lines that were served before may take so many times their limit."""

_CHUNK = 1 << 16
_COMPLAINT_BYTES = 4096
_END_SECONDS = 0.5


class Broken(Exception):
    """The program ended, or said what is no line; the text says how. Which line it was at is the caller's to tell."""


class TooSlow(Exception):
    """A reply didn't come within its seconds."""


class Channel:
    """A running program. Nothing but the caller's thread waits, so that a reply costs no change of threads."""

    def __init__(self, words: Sequence[str]) -> None:
        try:
            self._process = subprocess.Popen(
                list(words), bufsize=0, stdin=subprocess.PIPE, stdout=subprocess.PIPE, stderr=subprocess.PIPE,
                env=environment(), start_new_session=True)  # So that Ctrl-C is the caller's alone.
        except OSError as error:
            raise NoServer("the program %s can't be started: %s" % (words[0], error.strerror or error)) from None
        self._in, self._out = self._process.stdin.fileno(), self._process.stdout.fileno()
        os.set_blocking(self._in, False)
        os.set_blocking(self._out, False)
        self._readable, self._both = select.poll(), select.poll()
        self._readable.register(self._out, select.POLLIN)
        self._both.register(self._out, select.POLLIN)
        self._both.register(self._in, select.POLLOUT)
        self._parts: List[bytes] = []
        self._size = 0
        self.is_open = True

    @property
    def pid(self) -> int:
        """The process's number."""
        return self._process.pid

    def exchange(self, lines: Sequence[bytes], seconds: float, patient: int = 0) -> Iterator[bytes]:
        """Writes lines and yields a reply for each, without their newlines: each may take so many seconds, PATIENCE times as many
        those of the first `patient` ones.

        Where it isn't run to its end, or raises, the channel is closed: what else comes can belong to no later line.
        """
        if not self.is_open:
            raise Broken("was ended")
        waiting = memoryview(b"\n".join(lines) + b"\n") if lines else memoryview(b"")
        missing = len(lines)
        try:
            while missing:
                waiting = self._write(waiting)
                is_patient = len(lines) - missing < patient
                found = self._read(waiting, seconds * PATIENCE if is_patient else seconds)
                if len(found) > missing:
                    raise Broken("wrote a line that nobody asked for")
                missing -= len(found)
                yield from found
        finally:
            if missing or len(waiting):
                self.close()

    def _write(self, waiting: memoryview) -> memoryview:
        """Writes what the pipe takes at once."""
        try:
            return waiting[os.write(self._in, waiting):] if len(waiting) else waiting
        except BlockingIOError:
            return waiting
        except OSError:
            return memoryview(b"")  # The program has ended, which the reading tells.

    def _read(self, waiting: memoryview, seconds: float) -> List[bytes]:
        """The lines that come next: none where the pipe has first to be written to."""
        poll = self._both if len(waiting) else self._readable
        until = time.monotonic() + seconds
        while True:
            events = dict(poll.poll(max(0.0, until - time.monotonic()) * 1000))
            if not events:
                raise TooSlow()
            if self._out in events:
                lines = self._take()
                if lines:
                    return lines
            if self._in in events:
                return []

    def _take(self) -> List[bytes]:
        """Reads what stands in the pipe, and answers the whole lines of it."""
        data = os.read(self._out, _CHUNK)
        if not data:
            raise Broken(self._ending())
        self._parts.append(data)
        self._size += len(data)
        if b"\n" not in data:
            if self._size > REPLY_BYTES:
                raise Broken("wrote a line of over %d bytes" % REPLY_BYTES)
            return []
        *lines, rest = b"".join(self._parts).split(b"\n")
        self._parts, self._size = [rest] if rest else [], len(rest)
        return lines

    def _ending(self) -> str:
        """How the program ended, in words."""
        try:
            status = self._process.wait(_END_SECONDS)
        except subprocess.TimeoutExpired:
            return "closed its output"
        os.set_blocking(self._process.stderr.fileno(), False)
        said = (self._process.stderr.read(_COMPLAINT_BYTES) or b"").decode("utf-8", "replace").strip()
        how = "was ended by signal %d" % -status if status < 0 else "ended with status %d" % status
        return how + (" (%s)" % said.splitlines()[-1] if said else "")

    def close(self) -> None:
        """Ends the process at once, and gives back its pipes."""
        if self.is_open:
            self.is_open = False
            self._process.kill()
            self._process.wait()
            for pipe in (self._process.stdin, self._process.stdout, self._process.stderr):
                pipe.close()
