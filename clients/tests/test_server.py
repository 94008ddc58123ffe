"""The program as a process: what comes of one that ends at once, and what it is told of memory."""

import os
import pathlib
import queue
import tempfile
import threading
import time
import unittest
from unittest import mock

from holls import server
from holls.api import channel
from tests import forked
from tests.helpers import SECONDS

ENDS = "#!/bin/sh\necho 'hol-serve: no memory' >&2\nexit 1\n"

TELLS = "#!/bin/sh\necho \"$GLIBC_TUNABLES\"\nread line\n"


class Late(threading.Thread):
    """A thread that begins when the program has ended already."""

    def start(self):
        time.sleep(0.3)
        super().start()


class Ending(unittest.TestCase):
    def setUp(self):
        folder = tempfile.TemporaryDirectory()
        self.addCleanup(folder.cleanup)
        self.folder = pathlib.Path(folder.name)
        self.program = self.folder / "ends"
        self.program.write_text(ENDS)
        self.program.chmod(0o755)

    def test_the_end_of_a_program_that_ends_at_once_is_told_in_whatever_order_its_threads_begin(self):
        events = queue.Queue()
        with mock.patch("threading.Thread", Late):
            started = server.Server([str(self.program)], events)
        self.assertEqual(events.get(timeout=60), server.Ended(started, "ended with status 1 (hol-serve: no memory)"))

    def test_a_checker_whose_program_ends_at_once_says_so_soon(self):
        (self.folder / "A.hol").write_text("g A `x = x`;;\n")
        begun = time.monotonic()
        for _ in range(5):
            done = forked.run("check", "--server", self.program, "A.hol", cwd=self.folder)
            self.assertEqual((done.returncode, done.stderr.decode()), (2, (
                "holls: hol_serve ended with status 1 (hol-serve: no memory), and again when it was started anew\n")))
        self.assertLess(time.monotonic() - begun, 100)


class Memory(unittest.TestCase):
    """What a program is told of how the C library keeps memory."""

    def setUp(self):
        folder = tempfile.TemporaryDirectory()
        self.addCleanup(folder.cleanup)
        self.program = pathlib.Path(folder.name) / "tells"
        self.program.write_text(TELLS)
        self.program.chmod(0o755)

    def told(self):
        events = queue.Queue()
        started = server.Server([str(self.program)], events)
        self.addCleanup(started.process.wait)
        self.addCleanup(started.stop)
        return events.get(timeout=SECONDS).lines

    def told_by_the_interface(self):
        started = channel.Channel([str(self.program)])
        self.addCleanup(started.close)
        return list(started.exchange([b"a line"], SECONDS))

    def test_a_program_is_told_to_keep_memory_at_hand(self):
        with mock.patch.dict(os.environ):
            os.environ.pop("GLIBC_TUNABLES", None)
            self.assertEqual(self.told(), [server.ALLOCATOR[1].encode()])
            self.assertEqual(self.told_by_the_interface(), [server.ALLOCATOR[1].encode()])

    def test_what_its_user_says_of_memory_stays(self):
        with mock.patch.dict(os.environ, {"GLIBC_TUNABLES": "glibc.malloc.tcache_count=3"}):
            self.assertEqual(self.told(), [b"glibc.malloc.tcache_count=3"])


if __name__ == "__main__":
    unittest.main()
