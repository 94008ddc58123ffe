"""The page's server, without a browser: files, sockets, bridges, and what hostile connections may do."""

import http.client
import json
import pathlib
import shutil
import socket
import subprocess
import sys
import tempfile
import time
import unittest

from holls import page
from holls.websocket import Closed, WebSocket, new_key
from tests import browser
from tests.helpers import HOLLS, ROOT, fake

FOLDER = ROOT / "page"


class Served(unittest.TestCase):
    """`holls page` over the fake server."""

    def setUp(self):
        room = tempfile.TemporaryDirectory()
        self.addCleanup(room.cleanup)
        self.room = pathlib.Path(room.name)
        self.serve(fake(self.room))

    def serve(self, program, *words):
        self.process, self.address = browser.serve(program, *words)
        self.addCleanup(self.process.stdout.close)
        self.addCleanup(self.process.wait)
        self.addCleanup(self.process.kill)
        self.host = self.address.split("/")[2]

    def get(self, path, **headers):
        connection = http.client.HTTPConnection(self.host, timeout=browser.SECONDS)
        self.addCleanup(connection.close)
        connection.request("GET", path, headers=headers)
        return connection.getresponse()


class Editor:
    """A page without a browser: requests, and what the bridge tells."""

    def __init__(self, socket, **options):
        self.socket, self.number, self.told, self.at = socket, 0, [], {}
        self.given = self.ask("initialize", capabilities={}, initializationOptions=dict({"refused": True}, **options))
        self.tell("initialized")

    def tell(self, method, **params):
        self.socket.send(json.dumps({"jsonrpc": "2.0", "method": method, "params": params}).encode())

    def ask(self, method, **params):
        self.number += 1
        self.socket.send(json.dumps({"jsonrpc": "2.0", "id": self.number, "method": method, "params": params}).encode())
        while True:
            message = self.hear()
            if message.get("id") == self.number and "method" not in message:
                return message.get("result", message.get("error"))

    def hear(self):
        message = json.loads(self.socket.receive())
        self.told.append(message)
        return message

    def open(self, name, content):
        self.tell("textDocument/didOpen", textDocument={"uri": "hol:/%s.hol" % name, "languageId": "hol", "version": 0, "text": content})

    def said(self, name):
        """What is said of a theory, once all is known."""
        uri, kinds, told = "hol:/%s.hol" % name, {1}, None
        while kinds & {1, 2}:
            message = self.hear()
            params = message.get("params", {})
            if message.get("method") == "$/hol/fileProgress" and params["textDocument"]["uri"] == uri:
                kinds = {one["kind"] for one in params["processing"]}
            elif message.get("method") == "textDocument/publishDiagnostics" and params["uri"] == uri:
                told = [one["message"] for one in params["diagnostics"]]
        return told


class Server(Served):
    def connect(self):
        """A connection, with what reads and writes it."""
        host, port = self.host.split(":")
        connection = socket.create_connection((host, int(port)), timeout=browser.SECONDS)
        reader, writer = connection.makefile("rb"), connection.makefile("wb")
        for one in (connection, reader, writer):
            self.addCleanup(self.let_go, one)
        return connection, reader, writer

    @staticmethod
    def let_go(one):
        try:
            one.close()
        except OSError:
            pass  # What was to be written isn't taken any more.

    def socket(self, origin=None):
        """A page's socket, or the status where there is none."""
        _, reader, writer = self.connect()
        writer.write(("GET /bridge HTTP/1.1\r\nHost: %s\r\nUpgrade: websocket\r\nConnection: Upgrade\r\nOrigin: %s\r\nSec-WebSocket-Version: 13\r\n"
                      "Sec-WebSocket-Key: %s\r\n\r\n" % (self.host, origin or "http://" + self.host, new_key())).encode())
        writer.flush()
        status = reader.readline().split()[1]
        while reader.readline().strip():
            pass
        return WebSocket(reader, writer, True) if status == b"101" else status

    def test_files(self):
        for name, kind in (("/", "text/html"), ("/main.js", "text/javascript"), ("/style.css", "text/css"), ("/icon.svg", "image/svg+xml")):
            answer = self.get(name)
            self.assertEqual((answer.status, answer.getheader("Content-Type").split(";")[0]), (200, kind))
            self.assertEqual(answer.read(), (FOLDER / (name.strip("/") or "index.html")).read_bytes())
        self.assertEqual(self.get("/theories/logic.hol").read(), (ROOT / "theories" / "logic.hol").read_bytes())
        for name in ("/../README.md", "/main.js/", "/./main.js", "/theories/", "/%2e%2e/README.md", "/nothing.js", "//etc/passwd", "/theories/README.md", "/theories/..%2fpage%2fmain.js"):
            self.assertEqual(self.get(name).status, 404, name)
        self.assertEqual(self.get("/", Host="evil.example").status, 403)

    def test_nothing_is_fetched_from_elsewhere(self):
        for file in FOLDER.iterdir():
            for address in ("http://", "https://", "ws://"):
                for part in file.read_text().split(address)[1:]:
                    self.assertTrue(part.startswith("www.w3.org/2000/svg"), (file.name, part[:40]))
        listed = (FOLDER / "index.html").read_text()
        for module in FOLDER.glob("*.js"):  # Each is asked for at once, and not when the one that imports it has come.
            self.assertIn('="%s">' % module.name, listed)

    def test_the_page_knows_no_rule_of_the_language_but_colours(self):
        modules = {module.name: module.read_text() for module in FOLDER.glob("*.js")}
        self.assertLess(sum(text.count("\n") for text in modules.values()), 2600)
        for name, text in modules.items():
            if name not in ("lessons.js", "second_hour.js"):  # Whose texts are theories.
                for word in ("REWRITE_TAC", "REFL_TAC", "new_axiom", "new_definition", "deftac", "SPEC"):
                    self.assertNotIn(word, text, name)

    def test_a_bridge_for_each_page(self):
        self.assertEqual(self.socket("http://evil.example"), b"403")
        one, other = Editor(self.socket()), Editor(self.socket())
        one.open("A", "g N `x = x`;;\ne REFL_TAC;;\nqed;;")
        self.assertEqual(one.said("A"), [])
        other.open("B", "import A;;\nimport one;;")  # It knows nothing of the other's theories; those of the library stand.
        self.assertEqual(other.said("B")[0], "there is no theory A here: open it, or make a new one of that name")

    def closed(self, socket):
        """How a socket is closed, with what it was told before."""
        told = []
        try:
            while True:
                told.append(socket.receive())
        except (Closed, OSError) as error:
            return str(error), told

    def test_more_pages_than_there_is_room_for(self):
        open_pages = [self.socket() for _ in range(page.PAGES)]
        self.assertEqual(self.closed(self.socket())[0], "too many pages are open")
        open_pages[0].close()
        self.until(lambda: isinstance(Editor(self.socket()).ask("hol/manual"), dict))

    def until(self, test):
        """Waits until something is so. What fails meanwhile isn't so."""
        end = time.monotonic() + browser.SECONDS
        while time.monotonic() < end:
            try:
                if test():
                    return
            except (Closed, OSError):
                pass
            time.sleep(0.05)
        self.fail("it didn't come about")

    def test_messages_that_are_too_long_or_of_too_many_fragments_end_their_socket_alone(self):
        long, many, begun, pinged, binary = (self.socket() for _ in range(5))
        try:
            long.send(b"x" * (5 << 20))
        except OSError:
            pass  # It was closed before all was written.
        self.assertIn(self.closed(long)[0], ("a message is too long", "the connection broke off", "[Errno 104] Connection reset by peer"))
        many._writer.write(b"\x01\x81\0\0\0\0x" + b"\x00\x81\0\0\0\0x" * 2000)
        many._writer.flush()
        self.assertEqual(self.closed(many)[0], "a message has too many fragments")
        begun._writer.write(b"\x00\x81\0\0\0\0x")
        begun._writer.flush()
        self.assertIn("without a beginning", self.closed(begun)[0])
        pinged._writer.write(b"\x89\xfe\0\x80\0\0\0\0" + b"x" * 128)
        pinged._writer.flush()
        self.assertIn("forbids", self.closed(pinged)[0])
        binary._writer.write(b"\x82\x81\0\0\0\0x")
        binary._writer.flush()
        self.assertEqual(self.closed(binary)[0], "a frame that is no text")
        self.assertIsInstance(Editor(self.socket()).ask("hol/manual"), dict)

    def test_connections_that_ask_nothing_keep_nobody_out_and_end_in_time(self):
        waiting = []
        for _ in range(page.CONNECTIONS + 60):
            waiting.append(self.connect())
            _, reader, writer = waiting[-1]
            writer.write(b"GET / HTTP/1.1\r\nHost: evil.example\r\n\r\n")
            writer.flush()
            self.assertIn(b"403", reader.readline())  # So the server has it, and waits for the next request.
        for _, _, writer in waiting[-20:]:
            writer.write(b"GET / HTTP/1.1\r\nHost: ")
            writer.flush()
        self.assertEqual(self.get("/").status, 200)
        begun = time.monotonic()
        for _, reader, _ in waiting:
            try:
                reader.read()
            except OSError:
                pass
        self.assertLess(time.monotonic() - begun, 10 * page.REQUEST_SECONDS)
        self.assertEqual(self.get("/").status, 200)

    def test_a_page_that_reads_nothing_has_its_bridge_wait(self):
        """What it asks for isn't kept in between: the server writes no more, and reads no more."""
        greedy = self.socket()
        Editor(greedy)
        connection = greedy._writer.raw._sock
        connection.settimeout(2)
        asked = 0
        message = b'{"jsonrpc":"2.0","id":1,"method":"hol/manual","params":{}}'
        try:
            while asked < 100_000:
                greedy.send(message)
                asked += 1
        except OSError:
            pass
        self.assertLess(asked, 100_000)
        self.assertIsInstance(Editor(self.socket()).ask("hol/manual"), dict)

    def test_nonsense_ends_no_server(self):
        for text in (b"", b"x", b"[]", b'{"id": 1}', b'{"method": 7, "id": []}', b"[" * 100000, b'{"method":"initialize","id":1,"params":[]}', b"\xff"):
            socket = self.socket()
            socket.send(text)
            socket.close()
        editor = Editor(self.socket())
        editor.open("A", "qed;;")
        self.assertEqual(editor.said("A"), ["no proof is open here: begin one by g NAME `term`;;"])

    @unittest.skipUnless(shutil.which("pgrep"), "pgrep isn't installed")
    def test_end_of_the_page(self):
        """A program that hangs, and reads no more, ends with its socket; and so it does where the server is killed."""
        for end in ("page", "server"):
            with self.subTest(end):
                log = self.room / ("log" + end)
                program = fake(self.room, "--log", log)
                self.serve(program)
                editor = Editor(self.socket())
                editor.open("A", "g N `loop`;;\ne HANG_TAC;;\n")
                self.until(lambda: log.is_file() and "HANG_TAC" in log.read_text())
                self.assertGreater(self.programs(log), 0)
                if end == "page":
                    editor.socket.close()
                else:
                    self.process.kill()
                self.until(lambda: not self.programs(log))

    def programs(self, log):
        """How many programs that write a log still run."""
        return len(subprocess.run(["pgrep", "-f", "--", "--log %s" % log], stdout=subprocess.PIPE).stdout.split())

    @unittest.skipUnless(shutil.which("pgrep"), "pgrep isn't installed")
    def test_what_a_page_sent_last_keeps_no_bridge_at_work_where_the_server_is_killed(self):
        editor = Editor(self.socket())
        editor.open("A", "")
        for version in range(20):
            editor.tell("textDocument/didChange", textDocument={"uri": "hol:/A.hol", "version": version},
                        contentChanges=[{"text": "g A `x = x`;;\n" * 50_000}])
        self.process.kill()
        self.until(lambda: not subprocess.run(["pgrep", "-f", "--", "--server %s/server" % self.room], stdout=subprocess.PIPE).stdout)

    def test_words_that_fail(self):
        taken = ["--port", self.host.split(":")[1], "--server", fake(self.room)]
        for given, said in ((["--server", "/no/such/program"], b"no program is at"), (taken, b"--port"), (["--port", "65536", *taken[2:]], b"--port")):
            command = [sys.executable, str(HOLLS), "page", "--no-browser", *given]
            done = subprocess.run(command, capture_output=True, timeout=browser.SECONDS)
            self.assertEqual((done.returncode, done.stdout), (2, b""))
            self.assertIn(said, done.stderr)


if __name__ == "__main__":
    unittest.main()
