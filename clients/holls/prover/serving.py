"""A warm server for `holls prove`: it answers at a socket in the user's runtime folder, to the same user alone, a JSON object a line.

A request is `{"words": [..]}`, the words of a command line in a folder `"folder"`; the answer `{"status": n, "out": "..", "error": ".."}`.
"""

from __future__ import annotations

import hashlib
import json
import os
import socket
import stat
import tempfile
import threading
from typing import Any, Callable, Dict, List, Optional, Sequence

_VERSION = "1"
_MOST_BYTES = 65_536
"""A request or an answer is no longer, in bytes."""
_WAITING_SECONDS = 5.0
_BACKLOG = 8

Answering = Callable[[Dict[str, Any]], Dict[str, Any]]


class Unsafe(Exception):
    """The folder for sockets belongs to somebody else, or others may enter it."""


def folder() -> str:
    """The folder of the sockets, which the user alone may enter; it is made where it isn't there. Unsafe where it isn't the user's."""
    base = os.environ.get("XDG_RUNTIME_DIR")
    path = os.path.join(base, "holls") if base and os.path.isdir(base) else os.path.join(tempfile.gettempdir(), "holls-%d" % os.getuid())
    try:
        os.mkdir(path, 0o700)
    except FileExistsError:
        pass
    found = os.lstat(path)
    if not stat.S_ISDIR(found.st_mode) or found.st_uid != os.getuid() or found.st_mode & 0o077:
        raise Unsafe("%s is not a folder of yours alone" % path)
    return path


def address(project: str, program: Sequence[str]) -> str:
    """The path of a project's socket, for a program."""
    named = "\0".join((_VERSION, os.path.realpath(project)) + tuple(program))
    return os.path.join(folder(), hashlib.sha256(named.encode("utf-8", "surrogateescape")).hexdigest()[:24] + ".sock")


class Listener:
    """Answers at a socket, one request after the other in a thread of its own, until it is closed. OSError where the socket can't be made;
    `is_taken` where another server answers there already."""

    def __init__(self, path: str, answer: Answering) -> None:
        self.path, self._answer = path, answer
        self.is_taken = _is_answered(path)
        self._socket: Optional[socket.socket] = None
        if self.is_taken:
            return
        if os.path.exists(path):
            os.unlink(path)
        self._socket = socket.socket(socket.AF_UNIX, socket.SOCK_STREAM)
        self._socket.bind(path)
        os.chmod(path, 0o600)
        self._socket.listen(_BACKLOG)
        threading.Thread(target=self._serve, daemon=True).start()

    def _serve(self) -> None:
        while self._socket is not None:
            try:
                connection, _ = self._socket.accept()
            except OSError:
                return
            threading.Thread(target=self._one, args=(connection,), daemon=True).start()

    def _one(self, connection: socket.socket) -> None:
        """Answers the request of a connection."""
        with connection:
            try:
                connection.settimeout(_WAITING_SECONDS)
                line = _line(connection)
                request = json.loads(line.decode("utf-8")) if line else None
                if isinstance(request, dict):
                    connection.sendall(json.dumps(self._answer(request)).encode("utf-8") + b"\n")
            except (OSError, ValueError, RecursionError):
                return

    def close(self) -> None:
        """Ends it, and takes the socket away."""
        if self._socket is not None:
            listening, self._socket = self._socket, None
            listening.close()
            try:
                os.unlink(self.path)
            except OSError:
                pass


def ask(path: str, request: Dict[str, Any], seconds: float) -> Optional[Dict[str, Any]]:
    """The answer of the server at a path; None where none is there, or it gives none in time."""
    try:
        with socket.socket(socket.AF_UNIX, socket.SOCK_STREAM) as connection:
            connection.settimeout(seconds)
            connection.connect(path)
            connection.sendall(json.dumps(request).encode("utf-8") + b"\n")
            answer = json.loads(_line(connection).decode("utf-8"))
    except (OSError, ValueError, RecursionError):
        return None
    return answer if isinstance(answer, dict) else None


def _is_answered(path: str) -> bool:
    """Whether somebody listens at a path."""
    try:
        with socket.socket(socket.AF_UNIX, socket.SOCK_STREAM) as connection:
            connection.settimeout(_WAITING_SECONDS)
            connection.connect(path)
    except OSError:
        return False
    return True


def _line(connection: socket.socket) -> bytes:
    """What is sent up to the first newline. ValueError where that is too long."""
    found: List[bytes] = []
    length = 0
    while True:
        part = connection.recv(4096)
        found.append(part)
        length += len(part)
        if not part or b"\n" in part:
            return b"".join(found).split(b"\n")[0]
        if length > _MOST_BYTES:
            raise ValueError("a line too long")
