"""Passes messages on between a page's socket and a bridge in a process of its own, and knows nothing of what they say.

Nothing is queued in between: what the page doesn't read, the bridge can't write, and what the bridge doesn't read, the page can't send. Either
one's end is the other's.
"""

from __future__ import annotations

import os
import signal
import subprocess
import threading
from typing import BinaryIO, List, Optional

from holls.websocket import WebSocket

BEAT_SECONDS = 10
"""So often a page is asked whether it is there. Where it is gone while a bridge is at work, the bridge is killed."""
END_SECONDS = 3
"""So long a bridge may take to end with its program."""

NO_ROOM, ENDED = 4000, 4002
"""What a socket says when it is closed: there is no room for another page; the bridge has ended."""


def relay(socket: WebSocket, bridge: List[str]) -> None:
    """Starts a bridge for a socket and passes on, until one of the two has ended; then the other one ends too."""
    try:
        process = subprocess.Popen(bridge, stdin=subprocess.PIPE, stdout=subprocess.PIPE, start_new_session=True)
    except OSError as error:
        socket.close(ENDED, "the bridge can't be started: %s" % (error.strerror or error))
        return
    over = threading.Event()
    workers = [
        threading.Thread(target=_tell, args=(process.stdout, socket), daemon=True),
        threading.Thread(target=_beat, args=(socket, over, process), daemon=True)]
    for worker in workers:
        worker.start()
    try:
        for message in socket.messages():
            process.stdin.write(b"Content-Length: %d\r\n\r\n" % len(message) + message)
            process.stdin.flush()
    except OSError:
        pass  # The bridge has ended, as its teller says.
    finally:
        over.set()
        _end(process)
        for worker in workers:
            worker.join(END_SECONDS)


def _tell(stream: BinaryIO, socket: WebSocket) -> None:
    """Hands a bridge's messages to its page. Where the page is gone, or reads nothing, the rest is read all the same, so that the bridge ends."""
    is_there = True
    for body in iter(lambda: _body(stream), None):
        try:
            if is_there:
                socket.send(body)
        except (OSError, ValueError):
            is_there = False
    if is_there:
        socket.close(ENDED, "the bridge has ended")


def _body(stream: BinaryIO) -> Optional[bytes]:
    """The next message of a bridge; None at its end."""
    length = None
    for line in iter(stream.readline, b""):
        if not line.strip():
            body = stream.read(length or 0)
            return body if len(body) == length else None
        name, _, value = line.partition(b":")
        if name.strip().lower() == b"content-length":
            length = int(value)
    return None


def _beat(socket: WebSocket, over: threading.Event, process: "subprocess.Popen[bytes]") -> None:
    """Asks a page again and again whether it is there: the answer is what the connection's limit of time waits for. Of a page that is gone
    nothing is read any more, and what it sent last may still wait for its bridge: so that is ended here."""
    while not over.wait(BEAT_SECONDS):
        try:
            socket.ping()
        except (OSError, ValueError):
            _kill(process)
            return


def _end(process: "subprocess.Popen[bytes]") -> None:
    """Ends a bridge: it reads the end of its input, and ends with its program. One that doesn't is killed with all that it has started."""
    try:
        process.stdin.close()
    except OSError:
        pass
    try:
        process.wait(END_SECONDS)
    except subprocess.TimeoutExpired:
        _kill(process)
        process.wait()


def _kill(process: "subprocess.Popen[bytes]") -> None:
    if os.name != "posix":
        process.kill()
        return
    try:
        os.killpg(process.pid, signal.SIGKILL)
    except ProcessLookupError:
        pass  # It has just ended.
