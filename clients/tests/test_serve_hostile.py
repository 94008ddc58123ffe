"""`holls serve` and pages that mean ill: each attack ends, or waits, by itself, and others work on; and a class of twenty with three such pages in it."""

import json
import os
import shutil
import socket
import statistics
import threading
import time
import unittest
import zlib

from holls.websocket import Closed, WebSocket
from tests.helpers import BUILT, SECONDS
from tests.test_page_server import Editor
from tests.test_serve import Served, changed, python

MEMORY = 150_000
"""So many kilobytes the server may have whatever is done to it."""


@unittest.skipUnless(python() and os.path.isdir("/proc/self"), "no Python here has aiohttp, or there is no /proc: holls serve isn't tested")
class Hostile(Served):
    def works(self):
        """Whether a page gets what it asks for."""
        self.assertIsInstance(Editor(self.socket()).ask("hol/manual"), dict)

    def small(self):
        """The server has hardly more memory than in peace."""
        self.assertLess(self.kilobytes(), MEMORY)

    def test_connections_that_ask_nothing_keep_nobody_out_and_end_in_time(self):
        self.serve()
        waiting = [self.connect() for _ in range(600)]
        for connection in waiting[::2]:
            connection.sendall(b"GET /bridge HTTP/1.1\r\nHost: ")
        self.works()
        for connection in waiting:
            connection.settimeout(SECONDS)
            try:
                self.assertEqual(connection.recv(1), b"")
            except ConnectionError:
                pass
        self.works()
        self.small()

    def test_tiny_frames_cost_their_session_alone(self):
        """Fragments of one message, empty messages, pings and pongs, 100,000 of each: they wait outside, and the server hardly works for them."""
        self.serve("--ahead", "0")
        other = Editor(self.socket())
        self.assertIsInstance(other.ask("hol/manual"), dict)
        for first, frame in ((b"\x01\x81\0\0\0\0x", b"\x00\x81\0\0\0\0x"), (b"", b"\x81\x80\0\0\0\0"), (b"", b"\x89\x80\0\0\0\0"), (b"", b"\x8a\x80\0\0\0\0")):
            page, before = self.socket(), self.seconds()
            page._writer.raw._sock.settimeout(2)
            try:
                page._writer.write(first + frame * 100_000)
                page._writer.flush()
            except OSError:
                pass  # Nothing more is taken.
            self.assertIsInstance(other.ask("hol/manual"), dict)
            self.assertLess(self.seconds() - before, 1.0, frame)
            self.cut(page)
        self.small()

    def seconds(self):
        """What the server's own process has had of the processor."""
        with open("/proc/%d/schedstat" % self.process.pid) as stream:
            return int(stream.read().split()[0]) / 1e9

    @staticmethod
    def cut(page):
        """Ends a connection without a word."""
        try:
            page._writer.raw._sock.shutdown(socket.SHUT_RDWR)
        except OSError:
            pass  # It was ended already.

    def test_what_is_asked_before_the_answers_ends_its_connection_alone(self):
        """Requests one behind the other, a head without an end, and what comes behind a socket's request."""
        self.serve("--ahead", "0")
        request, before = b"GET / HTTP/1.1\r\nHost: %s\r\n" % self.host.encode(), self.seconds()
        for text in ((request + b"\r\n") * 100_000, request + b"X: y\r\n" * 1_000_000, request + b"Upgrade: websocket\r\nConnection: Upgrade\r\n\r\n" + b"x" * 10_000_000):
            connection = self.connect()
            with self.assertRaises(OSError):
                connection.sendall(text)
                while connection.recv(1 << 16):
                    pass
                raise OSError("it was closed")
        self.works()
        self.assertLess(self.seconds() - before, 3.0)
        self.small()

    def test_who_reads_no_answer_is_cut_in_time(self):
        """The time is a second here, in place of a minute."""
        self.serve("--ahead", "0", begun=changed("from holls.serving import wires", "wires.ANSWER_SECONDS = 1"))
        self.get("/health").read()
        files, waiting = self.files(), []
        for _ in range(60):
            waiting.append(socket.socket())
            self.addCleanup(self.let_go, waiting[-1])
            waiting[-1].setsockopt(socket.SOL_SOCKET, socket.SO_RCVBUF, 2048)
            waiting[-1].connect(("127.0.0.1", int(self.host.split(":")[1])))
            waiting[-1].sendall(b"GET /theories/sets.hol HTTP/1.1\r\nHost: %s\r\n\r\n" % self.host.encode() * 20)
        self.works()
        self.until(lambda: self.files() <= files + 2)

    def test_an_address_has_so_many_connections_and_begins_so_many_pages(self):
        self.serve("--each", "2", "--ahead", "0")
        self.get("/health").read()
        files = self.files()
        waiting = [self.connect() for _ in range(30)]
        self.until(lambda: sum(map(self.is_cut, waiting)) == 16)
        for connection in waiting:
            connection.close()
        self.until(lambda: self.files() <= files + 1)
        told = []
        for _ in range(6):
            page = self.socket()
            page.send(b"{}")
            page.close()
            told.append(self.closed(page))
            self.until(lambda: json.load(self.get("/health"))["sessions"] == 0)
        self.assertIn("too many pages were begun from your address: this one tries again by itself", told[-1])
        self.assertEqual(sum("too many pages" in one for one in told), 2, told)

    @staticmethod
    def is_cut(connection):
        """Whether the server has ended a connection."""
        connection.setblocking(False)
        try:
            return connection.recv(1) == b""
        except BlockingIOError:
            return False
        except OSError:
            return True

    def test_a_little_that_is_unpacked_to_much_ends_its_session_alone(self):
        self.serve()
        other, page = Editor(self.socket()), self.socket(Sec_WebSocket_Extensions="permessage-deflate")
        packing = zlib.compressobj(1, zlib.DEFLATED, -15)
        packed = b"".join(packing.compress(b"x" * (1 << 20)) for _ in range(200)) + packing.flush(zlib.Z_SYNC_FLUSH)[:-4]
        page._writer.write(b"\xc1\xff" + len(packed).to_bytes(8, "big") + b"\0\0\0\0" + packed)
        page._writer.flush()
        self.closed(page)
        self.assertIsInstance(other.ask("hol/manual"), dict)
        self.small()

    def test_edits_that_come_faster_than_they_are_read_wait_outside(self):
        self.serve()
        other, page = Editor(self.socket()), self.socket()
        editor = Editor(page)
        editor.open("F", "")
        page._writer.raw._sock.settimeout(1)
        sent, text, end = 0, "g F `x = x`;;\n" * 60_000, time.monotonic() + 10
        try:
            while time.monotonic() < end:
                editor.tell("textDocument/didChange", textDocument={"uri": "hol:/F.hol", "version": sent}, contentChanges=[{"text": text}])
                sent += 1
        except OSError:
            pass  # Nothing more is taken.
        self.assertLess(sent, 80)
        self.assertIsInstance(other.ask("hol/manual"), dict)
        self.small()

    def test_a_page_that_computes_without_a_pause_comes_after_others(self):
        self.serve("--ahead", "0", "--share", "1")
        editor = Editor(self.socket())
        editor.open("F", "")
        editor.socket._writer.raw._sock.settimeout(60)
        version, end, seen = 0, time.monotonic() + SECONDS, [self.nice()]
        while seen[-1] < min(19, seen[0] + 10) and time.monotonic() < end:
            version += 1
            editor.tell("textDocument/didChange", textDocument={"uri": "hol:/F.hol", "version": version},
                        contentChanges=[{"text": "g F%d `x = x`;;\n" % version * 10_000}])
            editor.ask("hol/manual")
            seen += [self.nice()] * (self.nice() != seen[-1])
        self.assertEqual(seen, sorted({min(19, seen[0] + more) for more in (0, 5, 10)}))
        self.works()

    def nice(self):
        """The priority of the one bridge there is."""
        bridge = self.children()[0]
        with open("/proc/%s/stat" % bridge) as stream:
            return int(stream.read().rpartition(")")[2].split()[16])

    def test_answers_that_are_not_read_are_not_made(self):
        self.serve()
        other, page = Editor(self.socket()), self.socket()
        Editor(page)
        page._writer.raw._sock.settimeout(1)
        asked = 0
        try:
            while asked < 100_000:
                page.send(b'{"jsonrpc":"2.0","id":1,"method":"hol/manual","params":{}}')
                asked += 1
        except OSError:
            pass  # Nothing more is taken.
        self.assertLess(asked, 100_000)
        self.assertIsInstance(other.ask("hol/manual"), dict)
        self.small()
        self.until(lambda: json.load(self.get("/health"))["sessions"] == 1)  # It is let go, whether it reads or not.

    def test_no_page_has_more_seconds_for_a_command_than_the_server_gives(self):
        self.serve("--seconds", "1")
        for given in (1e9, "1e9", float("inf"), -5, float("nan")):
            editor = Editor(self.socket(), seconds=given, slow=given)
            editor.open("A", "g N `loop`;;\ne HANG_TAC;;\n")
            told = " ".join(editor.said("A"))
            self.assertIn("gave no answer within 1 second", told, given)

    def test_no_name_and_no_text_is_markup_or_a_path(self):
        self.serve("--keep", str(self.room / "work"), "--teacher-key", "secret")
        for name in ("<script>alert(1)</script>", "../../etc/passwd", "a\";x=\"b", "%00", "‮abc"):
            cookies = self.named(name)
            for path in ("/course", "/teacher/secret"):
                self.assertNotIn("<script", self.get(path, Cookie=cookies).read().decode())
            editor = Editor(self.socket(Cookie=cookies))
            editor.open("equations", "import week;;\ng SAME `<script>alert(1)</script>`;;\n")
            editor.said("equations")
        self.until(lambda: "<td>&lt;script&gt;alert(1)" in self.get("/teacher/secret").read().decode())
        page = self.get("/teacher/secret")
        self.assertIn("default-src 'self'", page.getheader("Content-Security-Policy"))
        self.assertNotIn("<script", page.read().decode())
        self.assertEqual({path.name for path in self.room.iterdir()} - {"server", "log", "said"}, {"work"})


@unittest.skipUnless(python() and os.path.isdir("/proc/self") and shutil.which("pgrep"), "no Python here has aiohttp, or /proc or pgrep is missing")
class AClass(Served):
    PAGES, CLASS_SECONDS, EVERY = 17, 20, 2.0

    def test_a_class_of_twenty_for_twenty_seconds_with_three_hostile_pages(self):
        """Seventeen type a key every two seconds and see its goals, whatever the three do; and nothing is left of them."""
        program = str(BUILT) if BUILT.exists() else None
        self.serve("--sessions", "30", "--ahead", "0", program=program)
        self.get("/health").read()
        before = self.files()
        self.took, self.wrong, self.editors = [], [], []
        over, end = threading.Event(), time.monotonic() + self.CLASS_SECONDS
        hostile = [threading.Thread(target=work, args=(over,), daemon=True) for work in (self.flood, self.unread, self.too_long)]
        pages = [threading.Thread(target=self.page, args=(number, end)) for number in range(self.PAGES)]
        for one in (*hostile, *pages):
            one.start()
        for one in pages:
            one.join(SECONDS)
        self.assertLess(self.kilobytes(), MEMORY)
        over.set()
        for one in hostile:
            one.join(SECONDS)
        self.assertEqual(self.wrong, [])
        self.assertGreaterEqual(len(self.took), 2 * self.PAGES)
        self.assertLess(statistics.median(self.took), 5)
        for editor in self.editors:
            editor.socket.close()
        self.until(lambda: json.load(self.get("/health"))["sessions"] == 0 and self.files() <= before + 1)
        self.until(lambda: not self.children())

    def page(self, number, end):
        """Types a key into a step again and again. Each time the goals behind it have to come."""
        try:
            editor = Editor(self.socket())
            self.editors.append(editor)
            editor.open("E", "g E%d `p ==> q ==> p`;;\ne REFL_TAC;;\n" % number)
            version = 0
            while version < 2 or time.monotonic() < end:
                version += 1
                begun = time.monotonic()
                editor.tell("textDocument/didChange", textDocument={"uri": "hol:/E.hol", "version": version},
                            contentChanges=[{"text": "g E%d `p%d ==> q ==> p%d`;;\ne REFL_TAC;;\n" % (number, version, version)}])
                goals = editor.ask("proof/goals", textDocument={"uri": "hol:/E.hol", "version": version}, position={"line": 0, "character": 3})
                if "p%d ==> q ==> p%d" % (version, version) not in json.dumps(goals):
                    self.wrong.append(goals)
                self.took.append(time.monotonic() - begun)
                time.sleep(max(0.0, self.EVERY - self.took[-1]))
        except (Closed, OSError, ValueError) as error:
            self.wrong.append(repr(error))

    def flood(self, over):
        """Changes a long text as fast as it can, in a session anew wherever it is ended."""
        while not over.is_set():
            try:
                page = Editor(self.socket())
                page.open("F", "")
                version = 0
                while not over.is_set():
                    version += 1
                    page.tell("textDocument/didChange", textDocument={"uri": "hol:/F.hol", "version": version},
                              contentChanges=[{"text": "g F%d `x = x`;;\n" % version * 2000}])
                Hostile.cut(page.socket)
            except (Closed, OSError, AttributeError):
                time.sleep(0.1)  # It was ended, or there is no room.

    def unread(self, over):
        """Asks, and reads no answer."""
        page = self.socket()
        Editor(page)
        page._writer.raw._sock.settimeout(1)
        while not over.is_set():
            try:
                page.send(b'{"jsonrpc":"2.0","id":1,"method":"hol/manual","params":{}}')
            except OSError:
                time.sleep(0.1)
        Hostile.cut(page)

    def too_long(self, over):
        """Sends messages of more than is taken, again and again."""
        while not over.is_set():
            try:
                page = self.socket()
                if isinstance(page, WebSocket):
                    page.send(b"[" * (5 << 20))
            except (Closed, OSError):
                pass
            time.sleep(0.5)


if __name__ == "__main__":
    unittest.main()
