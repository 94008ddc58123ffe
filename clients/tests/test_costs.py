"""What the clients do for a key, and for a check, counted: so that none of it comes back that was found to cost and to be needless."""

import json
import pathlib
import queue
import subprocess
import tempfile
import time
import types
import unittest
from unittest import mock

from holls import meant, server
from holls.lsp import features
from holls.lsp.bridge import Bridge, Limits, Probed, Program
from holls.session import AHEAD, WINDOW, Session
from holls.sweep import Sweep
from holls.theory import Theory
from tests import forked
from tests.fake_server import EDITS, Documents
from tests.helpers import CLIENTS, PYTHON, SECONDS, fake, proofs
from tests.test_notation import NUMBERS, loaded

SERVED = frozenset(EDITS)
NUMBER = 60
"""So many proofs the file has in which keys are typed."""


class Played:
    """A server in this process. What it is sent it answers when the test says so; `sends` are how many lines it was sent at a time."""

    made = []

    def __init__(self, program, events):
        self.documents, self.waiting, self.sends, self.requests = Documents(EDITS), [], [], []
        Played.made.append(self)

    def send(self, lines):
        new = lines.split(b"\n")
        self.sends.append(len(new))
        self.requests += map(json.loads, new)
        self.waiting += new

    def stop(self):
        pass

    def answered(self, most=None):
        """The replies to so many lines, or to all that wait, as they come together."""
        now, self.waiting = self.waiting[:most], self.waiting[most:] if most else []
        return server.Lines(self, [json.dumps(self.documents.answer(line)).encode() for line in now])


class OverPlayed(unittest.TestCase):
    def setUp(self):
        Played.made = []
        patch = mock.patch("holls.session.Server", Played)
        patch.start()
        self.addCleanup(patch.stop)


class Keys(OverPlayed):
    """A letter that is typed into a step, which refuses it, and taken out again, in a bridge of this process."""

    def setUp(self):
        super().setUp()
        folder = tempfile.TemporaryDirectory()
        self.addCleanup(folder.cleanup)
        self.path, self.text = pathlib.Path(folder.name, "A.hol"), proofs(NUMBER)
        self.written, self.version = [], 1
        output = types.SimpleNamespace(write=self.written.append, flush=lambda: None)
        self.bridge = Bridge(output, None, 100, Limits())
        self.bridge.probed = Probed(Program(["program"], SERVED), None)
        self.message({"id": 1, "method": "initialize", "params": {}})
        self.message({"method": "textDocument/didOpen", "params": {"textDocument": {"uri": self.path.as_uri(), "version": 1, "text": self.text}}})
        self.program = Played.made[-1]
        self.file = self.bridge.workspace.documents[self.path.as_uri()].file

    def step(self):
        """Once through the bridge's loop, and behind the rest that follows an edit."""
        for one in self.bridge.servers.values():
            one.resting_until = 0.0 if one.resting_until else None
        self.bridge._settle()
        while not self.bridge.events.empty():
            self.bridge._take_all(self.bridge.events.get())
            self.bridge._settle()

    def message(self, message):
        """A message of the editor, until all is known."""
        self.bridge._take_all(message)
        self.bridge._settle()
        self.step()
        while Played.made and Played.made[-1].waiting:
            self.bridge._take_all(Played.made[-1].answered())
            self.bridge._settle()
            self.step()

    def key(self, place, letter):
        """Types a letter at a place, or takes out what stands there. Answers the requests that the program got."""
        self.program.requests.clear()
        self.written.clear()
        line, column = self.file.lines.utf16(place)
        self.version += 1
        where = {"start": {"line": line, "character": column}, "end": {"line": line, "character": column + (not letter)}}
        self.message({"method": "textDocument/didChange", "params": {
            "textDocument": {"uri": self.path.as_uri(), "version": self.version}, "contentChanges": [{"range": where, "text": letter}]}})
        return [request["op"] for request in self.program.requests]

    def place(self, share):
        return self.text.index("\ne ALL", int(len(self.text) * share)) + 4

    def test_the_program_runs_and_tells_what_a_key_changed(self):
        for share in (0.02, 0.5, 0.98):
            asked = self.key(self.place(share), "X")
            self.assertEqual(asked[:2], ["replace", "report"])
            self.assertLessEqual(len(asked), 5)
            self.assertEqual(self.key(self.place(share), ""), ["replace"])

    def test_what_there_is_to_say_is_found_once_a_key(self):
        """The file's findings are what it is walked through for; its diagnostics are sent once, and once what isn't known any more."""
        for letter in ("X", ""):
            with mock.patch.object(features, "findings", wraps=features.findings) as found:
                self.key(self.place(0.98), letter)
            self.assertEqual(found.call_count, 1)
            self.assertEqual(sum(b"publishDiagnostics" in one for one in self.written), 1)

    def test_of_the_commands_those_behind_the_proof_s_begin_are_read(self):
        commands = len(self.file.cut.commands)
        self.assertEqual(commands, 4 * NUMBER)
        for share, most in ((0.02, commands), (0.5, commands // 2), (0.98, 8)):
            for letter in ("X", ""):
                self.key(self.place(share), letter)
                self.assertLessEqual(self.file.notation.number_read, most)

    def test_a_name_that_was_meant_is_looked_for_once_among_those_that_are_imported(self):
        files = loaded(A=NUMBERS + "new_axiom ADD `p`;;\n", B="import A;;\ng X `T`;;\ne ACCEPT_TAC ADDD;;\nqed;;\n")
        file, most = files["B"], 0
        for text in (file.lines.text, file.lines.text.replace("ADDD", "AD"), file.lines.text.replace("ADDD", "DADD")):
            file.take(text)
            with mock.patch.object(meant, "_by_keys", wraps=meant._by_keys) as gathered:
                self.assertEqual(meant.Meant(file).like("theorem", text.split()[-2][:-2], 2), "ADD")
            self.assertLessEqual(gathered.call_count, 1 if most else 2)
            most = gathered.call_count


class Together(OverPlayed):
    """What program and client send one another by many at a time."""

    def session(self, *words):
        theory = Theory("A")
        theory.want([("g N%d `p`" % at, False) for at in range(900)])
        session = Session(["program"], queue.SimpleQueue(), SERVED, Sweep(), lambda: None, 10, *words)
        session.want([theory])
        return session, Played.made[-1]

    def test_one_who_sends_no_other_edit_sends_many_ahead_however_long_they_take(self):
        session, program = self.session(AHEAD)
        self.assertEqual(program.sends, [AHEAD])
        with mock.patch("holls.session.time.monotonic", lambda: session._since + 30):
            session.hear(program.answered(AHEAD // 2))
        self.assertEqual(program.sends, [AHEAD, AHEAD // 2])
        session.hear(program.answered())
        self.assertEqual(sum(program.sends), 901)
        session.hear(program.answered())
        self.assertTrue(session.is_idle)

    def test_an_editor_s_later_edit_waits_for_few(self):
        session, program = self.session()
        self.assertEqual(program.sends, [WINDOW])
        with mock.patch("holls.session.time.monotonic", lambda: session._since + 30):
            session.hear(program.answered())
        self.assertEqual(program.sends, [WINDOW, 1])

    def test_a_check_has_each_command_run_and_told_once_whoever_imports_its_file(self):
        imports = {"A": "", "B": "A", "C": "A", "D": "BC", "E": "DA", "F": "C"}
        with tempfile.TemporaryDirectory() as folder:
            log, path = pathlib.Path(folder, "log"), pathlib.Path(folder, "theories")
            path.mkdir()
            for name, others in imports.items():
                (path / (name + ".hol")).write_text("".join("import %s;;\n" % other for other in others) + "g %s `x = x`;;\ne REFL_TAC;;\nqed;;\n" % name)
            self.assertEqual(forked.run("check", "--jobs", "3", "--server", fake(folder, "--log", log), path).returncode, 0)
            asked = [json.loads(line) for line in log.read_text().splitlines()]
        commands = sorted((name, at) for name, others in imports.items() for at in range(len(others) + 3))
        self.assertEqual(sorted(request["name"] for request in asked if request["op"] == "new_theory"), sorted(imports))
        for op in ("insert", "report"):
            self.assertEqual(sorted((request["theory"], request["at"]) for request in asked if request["op"] == op), commands, op)
        self.assertEqual(len(asked), len(imports) + 2 * len(commands))

    def test_replies_that_many_requests_await_are_read_together(self):
        """The program writes each by itself. Behind the first ones the reader waits until there are more, here until all are written."""
        with tempfile.TemporaryDirectory() as folder:
            script, marker = pathlib.Path(folder, "program.py"), pathlib.Path(folder, "written")
            script.write_text("import os, sys\nfor _ in range(400):\n    sys.stdin.buffer.readline()\nfor _ in range(400):\n    os.write(1, b'{\"ok\":true}\\n')\n"
                              "open(%r, 'w').close()\n" % str(marker))
            rests, events = [], queue.SimpleQueue()

            def rest(seconds):
                rests.append(seconds)
                while not marker.exists():
                    time.sleep(0.01)

            with mock.patch.object(server, "time", types.SimpleNamespace(sleep=rest)):
                started = server.Server([*PYTHON, str(script)], events)
                started.send(b"\n".join([b"{}"] * 400))
                told = list(iter(lambda: events.get(timeout=300), server.Ended(started, "ended with status 0")))
        self.assertEqual(sum(len(one.lines) for one in told), 400)
        self.assertLessEqual(len(told), 3)
        self.assertTrue(all(0 < seconds <= server.REST_SECONDS for seconds in rests))


class Loaded(unittest.TestCase):
    def test_a_file_without_packages_is_read_without_what_expands_them(self):
        lines = ["import sys", "sys.path.insert(0, %r)" % str(CLIENTS), "from holls import check, findings", "from holls.files import File",
                 "file = File('A.hol')", "file.take(sys.argv[1])", "assert file.commands and findings.findings(file)",
                 "print('holls.packages.expanding' in sys.modules)"]
        for text, is_loaded in ((NUMBERS + "g X `x + 1 < ;;", False), (NUMBERS + "define F `f x = x + 1`;;", True)):
            done = subprocess.run([*PYTHON, "-c", "\n".join(lines), text], stdout=subprocess.PIPE, timeout=SECONDS, check=True)
            self.assertEqual(done.stdout.decode().strip(), str(is_loaded), text)


if __name__ == "__main__":
    unittest.main()
