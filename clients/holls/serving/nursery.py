"""Bridges for pages: a process that has loaded all that a bridge needs forks one for each page, so that they share its memory and begin at once."""

from __future__ import annotations

import array
import gc
import os
import resource
import signal
import socket
import struct
from typing import Callable, Tuple

BRIDGE_MEMORY = 2 << 30
"""So many bytes of addresses a bridge may have; its memory is hardly more than 20 MB."""
MORE_SECONDS = 60
"""So much later than the server the system ends a process that computes for too long: the server can say why."""
BEHIND = 5
"""So much nicer is who is put behind others, each time."""
AHEAD = b"a"
"""How a bridge is asked for that is made ahead of its page."""


class Nursery:
    """The process that forks. It has to be made before any thread, any event loop and any socket that it isn't to have; it ends with this process.

    `serve` runs a bridge over a socket, one that is made ahead or one for a page that waits. It, and each of its programs, is ended by the system some
    time after so many seconds of the processor.
    """

    def __init__(self, serve: Callable[[socket.socket, bool], None], seconds: int) -> None:
        self._socket, theirs = socket.socketpair()
        if os.fork() == 0:
            self._socket.close()
            try:
                _fork(theirs, serve, seconds)
            finally:
                os._exit(0)
        theirs.close()

    def bear(self, is_ahead: bool = False) -> Tuple[socket.socket, int]:
        """A new bridge's socket, and the number of its process, which is that of its group too."""
        ours, its = socket.socketpair()
        with its:
            self._socket.sendmsg([AHEAD if is_ahead else b"b"], [(socket.SOL_SOCKET, socket.SCM_RIGHTS, array.array("i", [its.fileno()]))])
        told = self._socket.recv(4)
        if len(told) < 4:
            ours.close()
            raise OSError("no bridge can be started any more")
        return ours, struct.unpack("i", told)[0]


def _fork(parent: socket.socket, serve: Callable[[socket.socket, bool], None], seconds: int) -> None:
    """Forks a bridge for each socket that comes, until the parent ends. Interrupts are the parent's matter."""
    signal.signal(signal.SIGINT, signal.SIG_IGN)
    signal.signal(signal.SIGTERM, signal.SIG_DFL)
    signal.signal(signal.SIGCHLD, signal.SIG_IGN)
    gc.collect()
    gc.freeze()
    while True:
        told, given, _, _ = parent.recvmsg(1, socket.CMSG_SPACE(4))
        if not told:
            return
        number = array.array("i", given[0][2])[0]
        child = os.fork()
        if child == 0:
            parent.close()
            _begin(number, lambda pair: serve(pair, told == AHEAD), seconds)
        os.close(number)
        parent.sendall(struct.pack("i", child))


def _begin(number: int, serve: Callable[[socket.socket], None], seconds: int) -> None:
    """What a bridge does: in a group of its own, so that its programs can be ended with it."""
    try:
        os.setsid()
        signal.signal(signal.SIGCHLD, signal.SIG_DFL)
        for what, most in ((resource.RLIMIT_AS, BRIDGE_MEMORY), (resource.RLIMIT_CPU, seconds + MORE_SECONDS), (resource.RLIMIT_CORE, 0)):
            hard = resource.getrlimit(what)[1]
            resource.setrlimit(what, (most if hard == resource.RLIM_INFINITY else min(most, hard), hard))
        serve(socket.socket(fileno=number))
    finally:
        os._exit(1)


def put_behind(group: int) -> None:
    """Has a bridge and its programs get the processor after others."""
    try:
        os.setpriority(os.PRIO_PGRP, group, min(19, os.getpriority(os.PRIO_PGRP, group) + BEHIND))
    except OSError:
        pass  # They have ended already.


def kill(group: int) -> None:
    """Ends a bridge and its programs at once."""
    try:
        os.killpg(group, signal.SIGKILL)
    except OSError:
        pass  # They have ended already.
