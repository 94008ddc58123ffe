"""The program hol-serve as a process: where it is found, its pipes, and what it serves."""

from __future__ import annotations

import os
import queue
import shutil
import subprocess
import threading
import time
from dataclasses import dataclass
from pathlib import Path
from typing import Dict, FrozenSet, List, Optional, Union

from holls import protocol
from holls.carried import CLONE
from holls.say import complain

try:
    import fcntl
    import resource
except ImportError:
    fcntl = resource = None  # Windows has neither.

VARIABLE = "HOL_SERVE"
"""The environment variable that names the program."""
MEMORY_VARIABLE = "HOL_SERVE_MEMORY"
"""The environment variable that says how many MB of memory a program may have; 0 sets no limit."""
SHELL = "/bin/sh"
"""What starts a program under a limit that its own words name."""
ALLOCATOR = ("GLIBC_TUNABLES", "glibc.malloc.tcache_count=127:glibc.malloc.trim_threshold=67108864:glibc.malloc.mmap_threshold=33554432:glibc.malloc.top_pad=1048576")
"""What a program's environment tells the C library, where it says nothing of that: to keep at hand what the program gives back, which takes and gives blocks of
memory by the thousand for each command. It saves a twentieth of its instructions."""
MEMORY_MB = 3000
"""So many it may have where that isn't said."""

CHUNK_BYTES = 1 << 18
"""So many bytes are read at a time at most, and so many the program can write before one is read, where the system has pipes that large."""
MANY, REPLY_SECONDS, REST_SECONDS = 16, 2e-5, 0.02
"""Where so many replies are awaited, what comes is read a while later, together: so long for each of them, which is less than one takes, and so long
at most. Else this process would be woken by each."""
FEW, PATIENT_SECONDS = 3, 6e-5
"""The same where nobody waits for one of them."""
REPLY_BYTES = 1 << 28
"""A longer line is taken for no reply."""

_SET_PIPE_SIZE = 1031
"""Linux's F_SETPIPE_SZ, which Python has a name for since 3.10."""
_BUILT = CLONE / "crates" / "hol_serve" / "out" / "hol_serve"
_PROBES = (
    ("replace", {"theory": "", "at": 0, "text": ""}),
    ("remove", {"theory": "", "at": 0}),
    ("drop_theory", {"name": ""}),
)


Events = Union["queue.Queue[object]", "queue.SimpleQueue[object]"]
"""Where a server puts what it writes, and its end."""


class NoServer(Exception):
    """There is no program to start; the text says what to do."""


@dataclass(frozen=True)
class Lines:
    """Lines that a server wrote, without their newlines, as many as were there together."""

    server: "Server"
    lines: List[bytes]


@dataclass(frozen=True)
class Ended:
    """A server that has ended, with words on how."""

    server: "Server"
    reason: str


class Server:
    """A running server. What it writes, and its end, come as events; nothing here waits."""

    def __init__(self, program: List[str], events: Events) -> None:
        self.process = _start(program)
        self._events = events
        self._lines: "queue.SimpleQueue[Optional[bytes]]" = queue.SimpleQueue()
        self._complaint = b""
        self._sent = self._read_lines = 0
        self.is_patient = False  # Whether nobody waits for a single reply.
        self._listener = threading.Thread(target=self._hear, daemon=True)
        self._listener.start()  # The reader joins it, which may be as soon as the reader begins.
        for work in (self._write, self._read):
            threading.Thread(target=work, daemon=True).start()

    def send(self, line: bytes) -> None:
        """Queues a line to be written, or several with newlines between them."""
        self._sent += line.count(b"\n") + 1
        self._lines.put(line + b"\n")

    def stop(self) -> None:
        """Ends the process at once. Its last events may still come."""
        self._lines.put(None)
        self.process.kill()

    def _write(self) -> None:
        stdin = self.process.stdin
        try:
            while True:
                line = self._lines.get()
                if line is None:
                    break
                stdin.write(line)
                if self._lines.empty():
                    stdin.flush()
        except OSError:
            pass  # The reader sees the end.
        try:
            stdin.close()
        except OSError:
            pass

    def _read(self) -> None:
        """Hands on whole lines; what ends within a line, or is too long for one, ends the server."""
        begun: List[bytes] = []
        length = 0
        for data in iter(self._data, b""):
            *lines, rest = data.split(b"\n")
            if lines:
                lines[0] = b"".join(begun) + lines[0]
                begun, length = [], 0
                self._read_lines += len(lines)
                self._events.put(Lines(self, lines))
            begun.append(rest)
            length += len(rest)
            if length > REPLY_BYTES:
                break
        if length:
            self.process.kill()
        status = self.process.wait()
        self._listener.join(1)
        self._events.put(Ended(self, _ending(status, self._complaint)))

    def _data(self) -> bytes:
        """What has been written: where much is still to come, a while later."""
        awaited = self._sent - self._read_lines
        if awaited >= (FEW if self.is_patient else MANY):
            time.sleep(min(REST_SECONDS, awaited * (PATIENT_SECONDS if self.is_patient else REPLY_SECONDS)))
        return self.process.stdout.read1(CHUNK_BYTES)

    def _hear(self) -> None:
        """Keeps the last of what comes on standard error."""
        for line in iter(lambda: self.process.stderr.readline(4096), b""):
            self._complaint = line.strip() or self._complaint


def _start(program: List[str]) -> "subprocess.Popen[bytes]":
    try:
        process = subprocess.Popen(program, stdin=subprocess.PIPE, stdout=subprocess.PIPE, stderr=subprocess.PIPE, env=environment())
    except OSError as error:
        raise NoServer("the program %s can't be started: %s" % (program[0], error.strerror or error)) from None
    if program[0] != SHELL:  # Its words set a limit of their own.
        _limit(process.pid, memory())
    _widen(process.stdout.fileno())
    return process


def environment() -> Dict[str, str]:
    """The environment that a program is started in."""
    name, words = ALLOCATOR
    return {name: words, **os.environ}


def _widen(pipe: int) -> None:
    """Has a pipe hold more, where the system can."""
    try:
        fcntl.fcntl(pipe, _SET_PIPE_SIZE, CHUNK_BYTES)
    except (AttributeError, OSError, ValueError):
        pass  # It holds what pipes hold.


def memory() -> Optional[int]:
    """So many bytes of memory a program may have; None where it has no limit."""
    given = os.environ.get(MEMORY_VARIABLE, "")
    return (int(given) if given.isdigit() and len(given) < 10 else MEMORY_MB) << 20 or None


def _limit(process: int, most: Optional[int]) -> None:
    """Limits a program's memory, where the system can: what it isn't given, it answers by the memory line."""
    if most is None or resource is None or not hasattr(resource, "prlimit"):
        return
    try:
        hard = resource.prlimit(process, resource.RLIMIT_AS)[1]
        resource.prlimit(process, resource.RLIMIT_AS, (most if hard == resource.RLIM_INFINITY else min(most, hard), hard))
    except (OSError, ValueError):
        pass  # It has ended already, or runs without the limit.


def _ending(status: int, complaint: bytes) -> str:
    how = "was ended by signal %d" % -status if status < 0 else "ended with status %d" % status
    said = complaint.decode("utf-8", "replace")
    return how + (" (%s)" % said if said else "")


def find(named: Optional[str] = None) -> List[str]:
    """The program's words: as named, else as HOL_SERVE names it, else as built in this clone, else on the PATH, else the released one."""
    name = named or os.environ.get(VARIABLE)
    if name:
        found = shutil.which(name)
        if not found:
            raise NoServer("no program is at %s (as %s names it)" % (name, "--server" if named else VARIABLE))
        return [found]
    return [str(_BUILT) if _BUILT.is_file() else shutil.which("hol_serve") or _released()]


def _released() -> str:
    """The path of the released program."""
    from holls import released  # Here alone, as it needs much that is slow to load.

    try:
        release = released.release()
        if release is not None:
            return released.program(release)
        why = "none is released here either"
    except released.Unusable as error:
        why = str(error)
    raise NoServer("there is no program hol_serve, and %s: build it (`./build`, at the top of the repository), or name it by "
                   "--server FILE or by the variable %s" % (why, VARIABLE))


def say_which(program: List[str], named: Optional[str]) -> None:
    """Tells on standard error which program is used, where nobody has named it."""
    if named or os.environ.get(VARIABLE):
        return
    shown = "the program %s" % os.path.relpath(program[0])
    if program[0] != str(_BUILT):
        from holls import released

        release = released.release()
        if release is not None and Path(program[0]).name.endswith(release.sha256[:16]):
            shown = release.told()
    complain("with %s" % shown)


def probe(program: List[str], seconds: float = 120) -> FrozenSet[str]:
    """Asks a program of its own, which ends again, which edits it serves beside `insert`: an unknown op is refused as `shape`."""
    requests = [dict(keys, op=op) for op, keys in _PROBES]
    replies = [protocol.reply(line) for line in _answers(program, requests, seconds)]
    if len(replies) != len(requests) or any(isinstance(reply, protocol.Unreadable) for reply in replies):
        raise NoServer("%s doesn't answer as hol_serve does: is it the right program?" % program[0])
    return frozenset(op for (op, _), reply in zip(_PROBES, replies) if not _is_shape(reply))


def _is_shape(reply: Union[protocol.Reply, protocol.Report]) -> bool:
    return isinstance(reply, protocol.Error) and reply.number == protocol.SHAPE


def _answers(program: List[str], requests: List[dict], seconds: float) -> List[bytes]:
    """The lines that a program writes for a few requests."""
    with _start(program) as process:
        try:
            text = b"".join(protocol.line(request) + b"\n" for request in requests)
            return process.communicate(text, timeout=seconds)[0].splitlines()
        except subprocess.TimeoutExpired:
            process.kill()
            raise NoServer("%s gave no answer within %d seconds" % (program[0], seconds)) from None
