"""`holls serve`: the page for a class, over aiohttp where some Python here has it: files, sessions, limits, hostile pages, and that nothing is left behind."""

import base64
import functools
import http.client
import json
import os
import pathlib
import re
import shutil
import signal
import socket
import ssl
import subprocess
import sys
import tempfile
import threading
import time
import unittest
import urllib.parse
import zlib
from unittest import mock

from holls.course import layout
from holls.serving import command, usage
from holls.serving.keeping import Keeping, NotKept, folder_of
from holls.serving.rates import Bucket, ByAddress
from holls.serving.watching import Class, from_cookie, name_of, to_cookie
from holls.websocket import Closed, WebSocket, new_key
from tests.helpers import HOLLS, ROOT, SECONDS, fake
from tests.test_page_server import Editor

COURSE = ROOT / "examples" / "course"


@functools.lru_cache(maxsize=1)
def python():
    """A Python that has aiohttp, if there is one."""
    for name in (sys.executable, "/usr/bin/python3"):
        if shutil.which(name) and subprocess.run([name, "-c", "import aiohttp"], capture_output=True).returncode == 0:
            return name
    return None


def changed(*lines):
    """The words of Python that begin `holls` with something in it changed by these lines."""
    return "-c", "; ".join(["import sys", "sys.path.insert(0, %r)" % str(ROOT / "clients"), *lines, "from holls.__main__ import run", "sys.exit(run())"])


class Parts(unittest.TestCase):
    """What needs no aiohttp."""

    def test_a_bucket_fills_as_time_goes_by(self):
        now = [0.0]
        bucket = Bucket(2, 4, lambda: now[0])
        self.assertEqual([bucket.takes() for _ in range(5)], [True] * 4 + [False])
        now[0] = 1.0
        self.assertEqual([bucket.takes() for _ in range(3)], [True, True, False])
        self.assertEqual(bucket.owes(3), 1.5)
        now[0] = 100.0
        self.assertEqual((bucket.owes(4), bucket.owes(2)), (0.0, 1.0))

    def test_a_python_without_aiohttp_is_told_what_brings_it(self):
        """By names that are ours or Debian's: no registry has a package hol-serve that we know of."""
        said = []
        with mock.patch.object(command, "web", None), mock.patch.object(command, "complain", said.append):
            self.assertEqual(command.main(None), 2)
        self.assertIn("`%s -m pip install aiohttp`" % sys.executable, said[0])
        self.assertNotIn("hol-serve[", said[0])

    def test_addresses_have_their_own_and_the_oldest_is_forgotten(self):
        rates = ByAddress(0.001, 1)
        self.assertEqual([rates.takes("a"), rates.takes("a"), rates.takes("b")], [True, False, True])
        for number in range(10_001):
            rates.takes(str(number))
        self.assertTrue(rates.takes("a"))

    def test_addresses_under_which_it_is_known(self):
        for given, name in (("https://hol.example.edu/", "https://hol.example.edu"), ("http://A:80", "http://a"), ("https://a:443", "https://a"),
                            ("http://a:443", "http://a:443"), ("hol.example.edu", None), ("https://a/b", None), ("ftp://a", None), ("https://u@a", None),
                            ("http://[", None)):
            self.assertEqual(command._origin(given), name)

    def test_the_page_of_a_course_has_links_that_hold_the_exercises_and_no_markup_of_a_text(self):
        course = layout.read(str(COURSE))
        found = dict(re.findall(r'href="\./#theory=(\w+)\.([\w-]+)"', command.exercises_page(course, "Ann")))
        self.assertEqual(list(found), ["implications", "equations", "quantifiers"])
        data = found["equations"]
        self.assertEqual(zlib.decompress(base64.urlsafe_b64decode(data + "=" * (-len(data) % 4)), -15).decode(), course.files[1].text)
        named = layout.Course("", "<script>", course.files, (), ())
        self.assertNotIn("<script", command.exercises_page(named, "<script>"))

    def test_who_has_stood_the_longest_comes_first_and_no_name_is_markup(self):
        now = [0.0]
        watched = Class("Logic", {"a": ("A", "B")}, lambda: now[0])
        watched.hear("ann", [{"file": "a", "proved": [], "open": "A", "goal": "x = x"}])
        now[0] = 120.0
        watched.hear("<b>", [{"file": "a", "proved": ["A"], "open": "B", "goal": "p < q"}])
        watched.hear("ann", [{"file": "a", "proved": [], "open": "A", "goal": "x = x"}])
        now[0] = 200.0
        page = watched.page(["ann"])
        rows = re.findall(r"<tr><td>(.*?)</td></tr>", page)
        self.assertEqual([row.split("</td><td>") for row in rows], [
            ["ann", "0 of 2", "a: A", "3 min", "x = x", "2 min"], ["&lt;b&gt; (away)", "1 of 2", "a: B", "1 min", "p &lt; q", "0 min"]])
        watched.hear("ann", [{"file": "a", "proved": ["A", "B"], "open": None, "goal": None}])
        self.assertIn("<td>ann</td><td>2 of 2</td><td></td><td></td><td></td><td>3 min</td>", watched.page(["ann"]))
        now[0] = 4000.0
        watched.hear("ann", [{"file": "a", "proved": ["A", "B"], "open": None, "goal": None}])
        self.assertIn("<td>8 min</td>", watched.page(["ann"]))
        for number in range(1000):
            watched.hear(str(number), [])
        self.assertNotIn("<td>ann", watched.page([]))

    def test_students_have_folders_of_their_own_whatever_their_names(self):
        names = ["Ann", "Zoë", "日本", "a b", "a.b", "a_b", "a/b", "a\\b", "..", ".", "", " ", ".key", "a ", "x" * 60, "日" * 60, "<b>", "a (2)", "CON:", "-x"]
        names += [folder_of(name) for name in names if folder_of(name) != name]
        folders = [folder_of(name) for name in names]
        self.assertEqual(len(set(folders)), len(names))
        self.assertEqual(folders[:6], ["Ann", "Zoë", "日本", "a b", "a.b", "a_b"])
        for folder in folders:
            self.assertTrue(folder and "/" not in folder and not folder.startswith(".") and "(" not in folder and len(os.fsencode(folder)) < 200, folder)

    def test_what_is_kept_has_limits_and_is_written_whole(self):
        with tempfile.TemporaryDirectory() as room:
            keeping = Keeping(room, {"a"})
            keeping.put("ann", "k" * 20, "a", "one \ud800")
            keeping.put("ann", "k" * 20, "a", "two")
            self.assertEqual((pathlib.Path(room) / "ann" / "a.hol").read_text(), "two")
            self.assertEqual(sorted(os.listdir(os.path.join(room, "ann"))), [".key", "a.hol"])
            for student, file, text in (("ann", "b", "x"), ("ann", "a", "x" * (1 << 20) + "x"), ("ann", "../a", "x")):
                with self.assertRaises(NotKept):
                    keeping.put(student, "k" * 20, file, text)
            for number in range(1, 20):
                keeping.put("ann", "k" * 20 + str(number), "a", str(number))
            with self.assertRaises(NotKept):
                keeping.put("ann", "another key", "a", "x")
            self.assertEqual(Keeping(room, {"a"}).put("ann", "k" * 20, "a", "three"), None)
            self.assertEqual((pathlib.Path(room) / "ann" / "a.hol").read_text(), "three")
            self.assertEqual((pathlib.Path(room) / "ann (20)" / "a.hol").read_text(), "19")

    def test_a_name_comes_back_from_its_cookie(self):
        for name in ("Ann", "Zoë; x=1", "<b>\"", "日本"):
            self.assertEqual(from_cookie(to_cookie(name)), name)
        self.assertEqual((from_cookie(None), from_cookie("%00%0aa%ff"), len(name_of("x" * 100))), ("", "a\ufffd", 60))

    @unittest.skipUnless(os.path.isdir("/proc/self"), "what processes use isn't told here")
    def test_what_a_group_uses_is_told(self):
        process = subprocess.Popen([sys.executable, "-c", "while True: pass"], start_new_session=True)
        try:
            end = time.monotonic() + SECONDS
            while usage.of_groups([process.pid])[process.pid].seconds < 0.1 and time.monotonic() < end:
                time.sleep(0.05)
            used = usage.of_groups([process.pid, 0])[process.pid]
            self.assertGreaterEqual(used.seconds, 0.1)
            self.assertGreater(used.memory, 1 << 20)
        finally:
            process.kill()
            process.wait()

    def test_without_aiohttp_it_is_told_what_to_do(self):
        ran = subprocess.run([sys.executable, "-c", "import sys; sys.modules['aiohttp'] = None; sys.argv = ['holls', 'serve']; sys.path.insert(0, %r); "
                              "from holls.__main__ import run; sys.exit(run())" % str(ROOT / "clients")], capture_output=True, timeout=SECONDS)
        self.assertEqual(ran.returncode, 2)
        self.assertIn(b"apt-get install python3-aiohttp", ran.stderr)


class Served(unittest.TestCase):
    """`holls serve` over the fake server."""

    def setUp(self):
        room = tempfile.TemporaryDirectory()
        self.addCleanup(room.cleanup)
        self.room = pathlib.Path(room.name)
        self.log = self.room / "log"

    def serve(self, *words, program=None, begun=(str(HOLLS),)):
        """Begins the server; `begun` are the words of Python that begin `holls`, where it isn't begun as by its users."""
        command = [python(), *begun, "serve", str(COURSE), "--port", "0", "--server", program or fake(self.room, "--log", self.log), *words]
        with open(self.room / "said", "ab") as said:
            self.process = subprocess.Popen(command, stdout=subprocess.PIPE, stderr=said)
        self.addCleanup(self.process.communicate)
        self.addCleanup(self.process.terminate)
        told = self.process.stdout.readline().decode()
        self.host = told.split("http://")[1].split("/")[0]

    def get(self, path, method="GET", **headers):
        connection = http.client.HTTPConnection(self.host, timeout=SECONDS)
        self.addCleanup(connection.close)
        connection.request(method, path, headers=dict({name.replace("_", "-"): value for name, value in headers.items()}, Connection="close"))
        return connection.getresponse()

    def connect(self):
        """A connection that asks nothing yet."""
        address, port = self.host.split(":")
        connection = socket.create_connection((address, int(port)), timeout=SECONDS)
        self.addCleanup(self.let_go, connection)
        return connection

    def socket(self, **headers):
        """A page's socket, or the status where there is none."""
        connection = self.connect()
        reader, writer = connection.makefile("rb"), connection.makefile("wb")
        for one in (reader, writer):
            self.addCleanup(self.let_go, one)
        sent = dict({"Host": self.host, "Upgrade": "websocket", "Connection": "Upgrade", "Origin": "http://" + self.host, "Sec-WebSocket-Version": "13",
                     "Sec-WebSocket-Key": new_key()}, **{name.replace("_", "-"): value for name, value in headers.items()})
        writer.write(("GET /bridge HTTP/1.1\r\n%s\r\n" % "".join("%s: %s\r\n" % one for one in sent.items())).encode())
        writer.flush()
        status = reader.readline().split()[1]
        while reader.readline().strip():
            pass
        return WebSocket(reader, writer, True) if status == b"101" else status

    @staticmethod
    def let_go(one):
        try:
            one.close()
        except OSError:
            pass  # What was to be written isn't taken any more.

    def closed(self, page):
        """The words with which a socket is closed."""
        try:
            while True:
                page.receive()
        except (Closed, OSError) as error:
            return str(error)

    def until(self, test):
        end = time.monotonic() + SECONDS
        while not test():
            self.assertLess(time.monotonic(), end, "it didn't come about")
            time.sleep(0.05)

    def kilobytes(self):
        """The memory of the server's own process."""
        with open("/proc/%d/status" % self.process.pid) as stream:
            return next(int(line.split()[1]) for line in stream if line.startswith("VmRSS"))

    def files(self):
        """How many files the server has open."""
        return len(os.listdir("/proc/%d/fd" % self.process.pid))

    def children(self):
        """The processes that the server's nursery has, which are its bridges, and what these run."""
        nursery = self.below(self.process.pid)
        return [one for process in nursery for one in self.below(process)]

    @staticmethod
    def below(process):
        with open("/proc/%s/task/%s/children" % (process, process)) as stream:
            return stream.read().split()

    def named(self, name):
        """The cookies of a browser in which a name was given."""
        answer = self.get("/course?name=" + urllib.parse.quote(name))
        return "; ".join(value.split(";")[0] for field, value in answer.getheaders() if field == "Set-Cookie")

    def programs(self):
        """How many programs run."""
        return len(subprocess.run(["pgrep", "-f", "--", "--log %s" % self.log], stdout=subprocess.PIPE).stdout.split())


@unittest.skipUnless(python(), "no Python here has aiohttp: holls serve isn't tested")
class Serve(Served):
    def test_files_and_no_path_that_leaves_their_folders(self):
        self.serve()
        for path, kind in (("/", "text/html"), ("/main.js", "text/javascript"), ("/course", "text/html"), ("/theories/week.hol", "text/plain"),
                           ("/theories/logic.hol", "text/plain")):
            answer = self.get(path)
            self.assertEqual((answer.status, answer.getheader("Content-Type").split(";")[0]), (200, kind), path)
            self.assertIn("default-src 'self'", answer.getheader("Content-Security-Policy"))
        for path in ("/../README.md", "/%2e%2e/README.md", "/theories/..%2f..%2fREADME.md", "/theories/../hol-course.json", "/theories/%2fetc%2fpasswd", "/hol-course.json",
                     "/theories/..%2fexercises%2fequations.hol", "/work/ada/equations.hol", "/exercises/equations.hol", "/theories/a%00.hol", "/theories/", "//etc/passwd"):
            self.assertIn(self.get(path).status, (400, 404), path)
        self.assertEqual(self.get("/", Host="evil.example").status, 403)
        self.assertEqual(self.get("/", "POST").status, 405)
        self.assertEqual(self.socket(Origin="http://evil.example"), b"403")
        self.assertEqual(self.socket(Host="evil.example"), b"403")

    def test_a_session_has_the_course_s_theories_and_no_other_s(self):
        self.serve("--origin", "https://hol.example.edu")
        one, other = Editor(self.socket()), Editor(self.socket(Host="hol.example.edu", Origin="https://hol.example.edu"))
        self.assertEqual(one.given["capabilities"]["experimental"], {"exercises": ["equations", "implications", "quantifiers"]})
        one.open("mine", "import week;;\ng N `x = x`;;\ne REFL_TAC;;\nqed;;")
        self.assertEqual(one.said("mine"), [])
        other.open("yours", "import mine;;\nimport hol_course;;")
        self.assertEqual(other.said("yours")[0], "there is no theory mine here: open it, or make a new one of that name")
        self.assertEqual(json.load(self.get("/health"))["sessions"], 2)

    def test_a_teacher_sees_who_is_where_and_nobody_else_does(self):
        self.serve("--teacher-key", "secret")
        cookies = self.named("Zoë <b>")
        self.assertIn('value="Zoë &lt;b&gt;"', self.get("/course", Cookie=cookies).read().decode())
        editor = Editor(self.socket(Cookie=cookies))
        editor.open("equations", "import week;;\ng SAME `x = x`;;\ne REFL_TAC;;\nqed;;\ng TWO `f x = f x`;;\ne ALL_TAC;;\n")
        editor.said("equations")
        end = time.monotonic() + SECONDS
        row = ""
        while "1 of 3" not in row and time.monotonic() < end:
            time.sleep(0.2)
            row = "".join(re.findall("<tr><td>Zo.*?</tr>", self.get("/teacher/secret").read().decode()))
        self.assertEqual(re.findall("<td>(.*?)</td>", row), [
            "Zoë &lt;b&gt;", "0 of 4", "1 of 3", "0 of 3", "equations: TWO", "0 min", "f x = f x", "0 min"])
        self.assertFalse(any(one.get("method") == "$/hol/course" for one in editor.told))
        for path in ("/teacher/", "/teacher/other", "/teacher", "/teacher/secret/x"):
            self.assertEqual(self.get(path).status, 404, path)

    def test_what_is_written_is_kept_where_a_teacher_names_a_folder_and_nobody_writes_over_another_s(self):
        work = self.room / "work"
        (work / "ben").mkdir(parents=True)
        (work / "ben" / "equations.hol").write_text("what ben sent by mail")
        self.serve("--keep", str(work), "--ahead", "0")
        texts = ["g SAME%d `x = x`;;\ne REFL_TAC;;\nqed;;\n" % number for number in range(3)]
        cookies = [self.named("ann"), self.named("ann"), self.named("ben"), self.named("../<b>")]
        for number, cookie in enumerate([*cookies, ""]):
            editor = Editor(self.socket(Cookie=cookie))
            for version, text in enumerate(texts):
                editor.open("equations", "import week;;\n(* of %d *)\n%s" % (number, text))
                self.assertEqual(editor.said("equations"), [])
            editor.open("diary", "(* not a file of the course *)")
            editor.said("diary")
            editor.socket.close()

        def kept():
            return {str(path.relative_to(work)): path.read_text().split("\n")[1:3] for path in work.glob("*/*.hol") if "import" in path.read_text()}
        last = texts[-1].split("\n")[0]
        marked = folder_of("../<b>")
        self.until(lambda: len(kept()) == 4 and all(lines[1] == last for lines in kept().values()))
        self.assertEqual(kept(), {
            "%s/equations.hol" % folder: ["(* of %d *)" % number, last]
            for number, folder in enumerate(["ann", "ann (2)", "ben (2)", marked])})
        self.assertEqual((work / "ben" / "equations.hol").read_text(), "what ben sent by mail")
        self.assertEqual({path.name for path in work.iterdir()}, {"ann", "ann (2)", "ben", "ben (2)", marked})
        self.assertEqual({path.name for path in (work / "ann").iterdir()}, {"equations.hol", ".key"})
        said = (self.room / "said").read_text()
        self.assertIn("page 1 of 127.0.0.1 begins; 1 are open", said)
        for word in ("SAME", "ann", "ben", "diary"):
            self.assertNotIn(word, said)

    def test_a_student_is_told_what_cannot_be_kept_and_when_it_is_kept_again(self):
        work = self.room / "work"
        self.serve("--keep", str(work), "--ahead", "0")
        editor = Editor(self.socket(Cookie=self.named("ann")))
        editor.open("equations", "import week;;\n(* 1 *)\n")
        self.until(lambda: (work / "ann" / "equations.hol").exists())
        os.rename(work, self.room / "away")
        work.write_text("no folder any more")
        self.write(editor, 1, "import week;;\n(* 2 *)\n")
        self.assertEqual(self.warned(editor), "the server can't keep what you write in equations any more: save it, and hand that in")
        work.unlink()
        os.rename(self.room / "away", work)
        self.write(editor, 2, "import week;;\n(* 3 *)\n")
        self.assertEqual(self.warned(editor), "what you write in equations is kept again")
        self.assertEqual((work / "ann" / "equations.hol").read_text(), "import week;;\n(* 3 *)\n")
        self.write(editor, 3, "(* %s *)" % ("x" * 500_000))
        self.assertIn("can't keep what you write in equations", self.warned(editor))
        said = (self.room / "said").read_text()
        self.assertIn("page 1 of 127.0.0.1 isn't kept: %s can't be written to" % work, said)
        self.assertEqual(said.count("isn't kept"), 2)

    @staticmethod
    def write(editor, version, text):
        editor.tell("textDocument/didChange", textDocument={"uri": "hol:/equations.hol", "version": version}, contentChanges=[{"text": text}])

    @staticmethod
    def warned(editor):
        """The next warning that a page is told."""
        message = {}
        while message.get("method") != "window/showMessage":
            message = editor.hear()
        return message["params"]["message"] if message["params"]["type"] == 2 else message

    def test_a_program_that_waits_has_run_what_the_exercises_import(self):
        self.serve("--ahead", "1", "--sessions", "1")
        self.until(lambda: any("TWICE" in text for text in self.asked("insert")) and not self.is_busy())
        before = len(self.asked("insert"))
        editor = Editor(self.socket())
        editor.open("equations", "import week;;\ng SAME `x = x`;;\ne REFL_TAC;;\nqed;;\n")
        self.assertEqual(editor.said("equations"), [])
        self.assertEqual(self.asked("new_theory").count("week"), 1)
        self.assertEqual(len(self.asked("insert")) - before, 4)

    def test_a_page_has_so_many_files_at_most(self):
        self.serve("--files", "3")
        editor = Editor(self.socket())
        for name in ("A", "B", "C", "D"):
            editor.open(name, "g N `x = x`;;\n")
        self.assertIn("the proof of N isn't ended yet", editor.said("C")[-1])
        refused = editor.ask("proof/goals", textDocument={"uri": "hol:/D.hol", "version": 0}, position={"line": 0, "character": 1})
        self.assertEqual(refused["message"], "the document isn't open")
        self.assertIn("3 files are open, and there may be no more: close one",
                      [one["params"]["message"] for one in editor.told if one.get("method") == "window/showMessage"])

    @unittest.skipUnless(shutil.which("pgrep"), "pgrep isn't installed")
    def test_a_page_that_dozes_has_no_program_until_something_is_done(self):
        self.serve("--doze", "1", "--ahead", "0")
        editor = Editor(self.socket())
        editor.open("A", "g N `x = x`;;\ne ALL_TAC;;\n")
        editor.said("A")
        self.until(lambda: self.programs() == 0)
        where = {"textDocument": {"uri": "hol:/A.hol", "version": 0}, "position": {"line": 1, "character": 3}}
        self.assertIn("x = x", json.dumps(editor.ask("proof/goals", **where)))
        self.assertEqual(self.asked("new_theory"), ["A"])
        editor.tell("textDocument/didChange", textDocument={"uri": "hol:/A.hol", "version": 1}, contentChanges=[{"text": "g N `y = y`;;\ne REFL_TAC;;\nqed;;\n"}])
        self.assertEqual(editor.said("A"), [])
        self.assertEqual(self.asked("new_theory"), ["A", "A"])

    def asked(self, op):
        """The texts, or names, of some requests, in their order."""
        lines = [json.loads(line) for line in self.log.read_text().splitlines()] if self.log.exists() else []
        return [one.get("text", one.get("name")) for one in lines if one["op"] == op]

    def is_busy(self):
        """Whether something is asked just now."""
        before = self.log.stat().st_size
        time.sleep(1)
        return self.log.stat().st_size > before

    def test_sessions_have_limits_that_are_told(self):
        self.serve("--sessions", "3", "--each", "2", "--behind-proxy")
        first, second = (Editor(self.socket(X_Forwarded_For="6.6.6.6, 1.1.1.1")) for _ in range(2))
        self.assertIn("2 pages are open from your address", self.closed(self.socket(X_Forwarded_For="7.7.7.7, 1.1.1.1")))
        third = Editor(self.socket(X_Forwarded_For="2.2.2.2"))
        self.assertIn("3 pages are open, and there is room for no more", self.closed(self.socket(X_Forwarded_For="3.3.3.3")))
        first.socket.close()
        self.until(lambda: json.load(self.get("/health"))["room"] == 1)
        self.assertIsInstance(Editor(self.socket(X_Forwarded_For="3.3.3.3")).ask("hol/manual"), dict)
        self.assertIsInstance(second.ask("hol/manual"), dict)
        self.assertIsInstance(third.ask("hol/manual"), dict)

    def test_an_address_that_asks_too_often_waits_and_others_don_t(self):
        self.serve("--rate", "1", "--behind-proxy")
        statuses = []
        asking = [threading.Thread(target=lambda: statuses.append(self.get("/health", X_Forwarded_For="1.1.1.1").status)) for _ in range(60)]
        for one in asking:
            one.start()
        begun = time.monotonic()
        self.assertEqual(self.get("/health", X_Forwarded_For="2.2.2.2").status, 200)
        is_soon = time.monotonic() - begun < 5
        for one in asking:
            one.join()
        self.assertEqual((set(statuses), len(statuses)), ({200, 429}, 60))
        self.assertGreaterEqual(statuses.count(200), 30)
        self.assertTrue(is_soon)

    @unittest.skipUnless(shutil.which("pgrep") and os.path.isdir("/proc/self"), "pgrep or /proc isn't here")
    def test_what_uses_too_much_is_ended_with_its_program_and_told_why(self):
        self.serve("--processor", "1", "--ahead", "0")
        page = self.socket()
        editor = Editor(page)
        editor.open("A", "g N `x = x`;;\ne REFL_TAC;;\n" * 400)
        for version in range(200):
            editor.tell("textDocument/didChange", textDocument={"uri": "hol:/A.hol", "version": version + 1},
                        contentChanges=[{"text": "g N%d `x = x`;;\ne REFL_TAC;;\n" % version * 400}])
        self.assertIn("this page has used the 1 seconds of the processor", self.closed(page))
        self.until(lambda: not self.programs())
        self.assertIsInstance(Editor(self.socket()).ask("hol/manual"), dict)

    @unittest.skipUnless(os.path.isdir("/proc/self"), "what processes use isn't told here")
    def test_memory_idle_time_and_long_messages_end_their_session_alone_and_are_told(self):
        """The time in which nothing is done is three seconds here, in place of a minute at least."""
        code = ("from dataclasses import replace", "from holls.serving import service", "made = service.Settings",
                "service.Settings = lambda *given: replace(made(*given), idle_seconds=3.0)")
        self.serve("--memory", "60", "--ahead", "0", begun=changed(*code))
        self.assertIn("nothing was done here for long: the next key begins anew", self.closed(self.socket()))
        large = self.socket()
        large.send(b"[" * (5 << 20))
        self.assertIn("a message has more than 4 MB", self.closed(large))
        much = Editor(self.socket())
        try:
            for number in range(8):
                much.open("B%d" % number, "g N `x = x`;; (* %s *)\n" % ("x" * 3_900_000))
        except OSError:
            pass  # It was ended before all was sent.
        self.assertIn("this page has used the 60 MB of memory that it may have", self.closed(much.socket))
        self.assertIsInstance(Editor(self.socket()).ask("hol/manual"), dict)

    @unittest.skipUnless(shutil.which("pgrep"), "pgrep isn't installed")
    def test_nothing_is_left_behind(self):
        """A program that hangs ends with its page; and all end where the server is ended, or killed."""
        for end in ("page", signal.SIGTERM, signal.SIGKILL):
            with self.subTest(end):
                self.log = self.room / ("log%s" % end)
                self.serve("--ahead", "0" if end == "page" else "2")
                editor = Editor(self.socket())
                editor.open("A", "g N `loop`;;\ne HANG_TAC;;\n")
                self.until(lambda: self.log.is_file() and "HANG_TAC" in self.log.read_text())
                self.assertGreater(self.programs(), 0)
                if end == "page":
                    editor.socket.close()
                else:
                    self.process.send_signal(end)
                self.until(lambda: not self.programs())
                if end == signal.SIGTERM:
                    self.assertEqual(self.process.wait(SECONDS), 0)

    def test_a_message_that_is_too_long_ends_its_session_alone(self):
        self.serve()
        other, page = Editor(self.socket()), self.socket()
        try:
            page.send(b"x" * (5 << 20))
        except OSError:
            pass  # It was closed before all was written.
        self.closed(page)
        for text in (b"", b"x", b"[]", b'{"id": 1}', b'{"method": 7, "id": []}', b"[" * 100000):
            nonsense = self.socket()
            nonsense.send(text)
            nonsense.close()
        self.assertIsInstance(other.ask("hol/manual"), dict)

    def test_words_that_fail(self):
        for words, told in ((["--sessions", "0"], b"--sessions takes a number from 1"), (["--ahead", "-1"], b"--ahead a number from 0"),
                            (["--keep", "work"], b"name the course"), (["--origin", "hol.example.edu"], b"--origin hol.example.edu"),
                            (["--server", "/no/such"], b"no program is at"), ([str(self.room)], b"a course's exercises stand there")):
            given = words if "--server" in words else [*words, "--server", fake(self.room)]
            ran = subprocess.run([python(), str(HOLLS), "serve", *given], capture_output=True, timeout=SECONDS)
            self.assertEqual((ran.returncode, ran.stdout), (2, b""))
            self.assertIn(told, ran.stderr)


def block(beginning):
    """A block of docs/SERVE.md, by the line that it begins with."""
    lines = (ROOT / "docs" / "SERVE.md").read_text().split("\n")
    start = lines.index("    " + beginning)
    end = next(at for at in range(start, len(lines)) if lines[at] and not lines[at].startswith("    "))
    return "\n".join(line[4:] for line in lines[start:end]) + "\n"


def free_port():
    with socket.socket() as one:
        one.bind(("127.0.0.1", 0))
        return one.getsockname()[1]


@unittest.skipUnless(python() and shutil.which("openssl"), "aiohttp or openssl isn't here: holls serve isn't tested behind a proxy")
class Proxies(Served):
    """The configurations of the page, as they stand there but for names and ports."""

    def setUp(self):
        super().setUp()
        self.port = free_port()
        self.origin = "https://localhost:%d" % self.port
        subprocess.run(["openssl", "req", "-x509", "-newkey", "rsa:2048", "-nodes", "-days", "1", "-subj", "/CN=localhost", "-keyout", str(self.room / "hol.key"),
                        "-out", str(self.room / "hol.crt")], check=True, capture_output=True)
        (self.room / "hol.pem").write_text((self.room / "hol.crt").read_text() + (self.room / "hol.key").read_text())

    def begin(self, *words):
        process = subprocess.Popen(words, stdout=subprocess.DEVNULL, stderr=subprocess.PIPE, cwd=str(self.room))
        self.addCleanup(process.communicate)
        self.addCleanup(process.terminate)

    def secure(self):
        """A connection to the proxy. It is tried until the proxy listens."""
        def tried():
            try:
                made.append(context.wrap_socket(socket.create_connection(("127.0.0.1", self.port), timeout=SECONDS), server_hostname="localhost"))
            except OSError:
                return False
            return True
        made, context = [], ssl._create_unverified_context()
        self.until(tried)
        self.addCleanup(made[0].close)
        return made[0]

    def asked(self, *lines):
        """A request by the proxy: the answer's first line, and a socket's reader and writer."""
        connection = self.secure()
        reader, writer = connection.makefile("rb"), connection.makefile("wb")
        for one in (reader, writer):
            self.addCleanup(self.let_go, one)
        writer.write("".join(line + "\r\n" for line in (*lines, "Host: localhost:%d" % self.port, "")).encode())
        writer.flush()
        status = reader.readline()
        while reader.readline().strip():
            pass
        return status, reader, writer

    def through(self):
        """A page by the proxy."""
        status, reader, writer = self.asked("GET /bridge HTTP/1.1", "Upgrade: websocket", "Connection: Upgrade", "Origin: " + self.origin,
                                            "Sec-WebSocket-Version: 13", "Sec-WebSocket-Key: " + new_key())
        return Editor(WebSocket(reader, writer, True)) if b" 101 " in status else None

    def proves(self, editor):
        editor.open("mine", "import week;;\ng N `x = x`;;\ne REFL_TAC;;\nqed;;")
        self.assertEqual(editor.said("mine"), [])

    @unittest.skipUnless(shutil.which("nginx"), "nginx isn't installed")
    def test_nginx(self):
        self.serve("--origin", self.origin, "--behind-proxy", "--each", "1")
        text = block("server {").replace("listen 443", "listen 127.0.0.1:%d" % self.port).replace("hol.example.edu", "localhost")
        text = text.replace("/etc/ssl/", str(self.room) + "/").replace("127.0.0.1:8765", self.host)
        (self.room / "nginx.conf").write_text("daemon off;\npid %s/pid;\nerror_log stderr;\nevents {}\nhttp {\naccess_log off;\n%s}\n" % (self.room, text))
        self.begin("nginx", "-p", str(self.room), "-c", str(self.room / "nginx.conf"))
        self.assertIn(b" 200 ", self.asked("GET /course HTTP/1.1")[0])
        editor = self.through()
        self.proves(editor)
        status, reader, writer = self.asked("GET /bridge HTTP/1.1", "Upgrade: websocket", "Connection: Upgrade", "Origin: https://evil.example",
                                            "Sec-WebSocket-Version: 13", "Sec-WebSocket-Key: " + new_key())
        self.assertIn(b" 403 ", status)

    @unittest.skipUnless(shutil.which("haproxy"), "haproxy isn't installed")
    def test_haproxy_over_two_servers_of_which_one_goes_away(self):
        hosts, processes = [], []
        for _ in range(2):
            self.serve("--origin", self.origin, "--behind-proxy")
            hosts.append(self.host)
            processes.append(self.process)
        text = block("frontend hol").replace(":443", "127.0.0.1:%d" % self.port).replace("/etc/ssl/", str(self.room) + "/")
        text = text.replace("10.0.0.1:8765", hosts[0]).replace("10.0.0.2:8765", hosts[1]).replace("hol.example.edu", "localhost:%d" % self.port)
        (self.room / "haproxy.cfg").write_text(text)
        self.begin("haproxy", "-db", "-f", str(self.room / "haproxy.cfg"))
        self.proves(self.through())
        used = [json.load(self.health(host))["sessions"] for host in hosts]
        self.assertEqual(sorted(used), [0, 1])
        processes[used.index(1)].terminate()
        processes[used.index(1)].wait(SECONDS)  # Else it may still serve, or be named by the proxy, when another page is opened.
        editors = []
        self.until(lambda: editors.append(self.through()) or editors[-1] is not None)
        self.proves(editors[-1])

    def health(self, host):
        connection = http.client.HTTPConnection(host, timeout=SECONDS)
        self.addCleanup(connection.close)
        connection.request("GET", "/health")
        return connection.getresponse()


if __name__ == "__main__":
    unittest.main()
