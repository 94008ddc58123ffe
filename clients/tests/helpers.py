"""What the tests share: the fake server, and the built one where there is one."""

import atexit
import os
import pathlib
import stat
import sys
import time

CLIENTS = pathlib.Path(__file__).resolve().parents[1]
ROOT = CLIENTS.parent
FAKE = CLIENTS / "tests" / "fake_server.py"
HOLLS = CLIENTS / "bin" / "holls"
BUILT = pathlib.Path(os.environ.get("HOL_SERVE") or ROOT / "crates" / "hol_serve" / "out" / "hol_serve")
PYTHON = [sys.executable, "-I", "-S"]
"""Python without what a machine's site puts in, which may take longer to start than the test."""

SECONDS = 600
"""So long a program may run on a machine that does much else."""

LOOP_SECONDS = 0.026
"""What the loop of `slowness` takes on a processor of the kind for which seconds are wanted."""


def slowness():
    """How many times as long a loop takes here and now as on a processor of the kind for which seconds are wanted, at least 1."""
    begun, number = time.process_time(), 0
    for at in range(300_000):
        number = (number * 31 + at) % 1_000_003
    return max(1.0, (time.process_time() - begun) / LOOP_SECONDS)


def fake(folder, *words):
    """A program in the folder that runs the fake server with these words, as --server wants one file."""
    program = pathlib.Path(folder) / "server"
    quoted = " ".join("'%s'" % word for word in (*PYTHON, FAKE, *words))
    program.write_text("#!/bin/sh\nexec %s\n" % quoted)
    program.chmod(program.stat().st_mode | stat.S_IXUSR)
    return str(program)


ENDS = []
"""What is to be done when a process has run its tests, each with the process's number."""


def at_end(work):
    """Has something done when this process has run its tests: what these share ends."""
    ENDS.append((os.getpid(), work))


def end():
    """Does what is to be done at the end, what came last first."""
    for number, work in ENDS[::-1]:
        if number == os.getpid():
            work()
    ENDS.clear()


atexit.register(end)


def proofs(number):
    """A file of so many proofs, four commands each, that the fake server and the real one accept."""
    return "".join("g N%d `f x = f x`;;\ne ALL_TAC;;\ne REFL_TAC;;\nqed;;\n\n" % at for at in range(number))
