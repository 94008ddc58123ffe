"""Whatever an editor sends, and whatever the program does: each request gets a reply or an error, and the bridge goes on."""

import json
import os
import pathlib
import queue
import random
import tempfile
import types
import unittest
from unittest import mock

from holls import server
from holls.limits import limited
from holls.lsp import answers
from tests.helpers import SECONDS, fake, proofs
from tests.test_lsp import Editor

ODD = (None, True, -1, 10 ** 30, 1e308, float("inf"), float("nan"), "", "x", "\ud800", "\0", [], [[]], {}, {"line": 0}, {"line": float("inf"), "character": 0},
       {"line": -5, "character": -5}, {"line": 10 ** 30, "character": 10 ** 30}, {"start": 1}, {"uri": "file:///\0"}, {"uri": 7})
"""What may stand where another kind of value is wanted."""


class Messages(unittest.TestCase):
    def setUp(self):
        room = tempfile.TemporaryDirectory()
        self.addCleanup(room.cleanup)
        self.folder = pathlib.Path(room.name)
        self.uri = (self.folder / "A.hol").as_uri()

    def editor(self, *words):
        editor = Editor(fake(self.folder, *words))
        self.addCleanup(editor.kill)
        return editor

    def reply(self, editor, message):
        """What comes for a message that asks something, whatever is told beside it."""
        body = json.dumps(message).encode()
        editor.process.stdin.write(b"Content-Length: %d\r\n\r\n" % len(body) + body)
        editor.process.stdin.flush()
        while True:
            said = editor.messages.get(timeout=SECONDS)
            if said is None:
                self.fail("the bridge ended at %s: %s" % (message, editor.process.stderr.read().decode()))
            if "method" not in said:
                return said

    def test_what_is_no_request_is_refused(self):
        editor = self.editor()
        for message in ({"id": 1}, {"id": 1, "method": 7}, {"id": [], "method": "initialize"}, {"id": {}, "method": "x"}, {"id": None, "method": "shutdown"},
                        {"id": 1.5, "method": "x"}, {"id": 2, "method": ["a"]}, {"method": {}}, {}):
            self.assertEqual(self.reply(editor, message)["error"]["code"], -32600, message)
        for body in (b"", b"[", b"[]", b"7", b"\xff", b"[" * 100_000, b'{"a":' * 50_000):
            editor.process.stdin.write(b"Content-Length: %d\r\n\r\n" % len(body) + body)
            editor.process.stdin.flush()
            said = editor.messages.get(timeout=SECONDS)
            self.assertEqual((said["id"], said["error"]["code"]), (None, -32700))
        self.assertEqual(self.reply(editor, {"id": 3, "method": "textDocument/hover", "params": {}})["error"]["code"], -32002)
        for params in ({"capabilities": 7}, {"initializationOptions": {"seconds": "x"}}, {"initializationOptions": {"seconds": [1]}}):
            self.assertEqual(self.reply(editor, {"id": 4, "method": "initialize", "params": params})["error"]["code"], -32602, params)
        self.assertIn("result", self.reply(editor, {"id": 4, "method": "initialize", "params": {"initializationOptions": {"seconds": 10}}}))
        self.assertEqual(self.reply(editor, {"id": 5, "method": "nothing/here"})["error"]["code"], -32601)
        self.assertEqual(self.reply(editor, {"id": 6, "method": "initialize", "params": {}})["error"]["code"], -32602)

    def test_each_request_with_odd_parameters_is_answered(self):
        editor, source = self.editor(), random.Random(2)
        editor.begin()
        editor.open(self.uri, proofs(2) + "g S `p /\\ q`;;\n")
        methods = sorted(self.methods())
        self.assertGreater(len(methods), 15)
        for method in methods:
            for number in range(25):
                params = {"textDocument": {"uri": self.uri}, "position": {"line": 1, "character": 2}, "context": {"diagnostics": []}, "query": "N",
                          "range": {"start": {"line": 0, "character": 0}, "end": {"line": 1, "character": 0}}, "data": {"uri": self.uri, "name": "N0", "number": 0},
                          "command": "holls.stop"}
                for key in source.sample(sorted(params), source.randrange(1, 4)):
                    params[key] = source.choice(ODD)
                said = self.reply(editor, {"jsonrpc": "2.0", "id": number, "method": method, "params": source.choice(ODD) if number == 0 else params})
                self.assertEqual(said["id"], number, (method, params))
        for method in ("textDocument/didOpen", "textDocument/didChange", "textDocument/didClose", "proof/viewRange", "$/cancelRequest", "$/other"):
            for odd in ODD:
                body = json.dumps({"method": method, "params": odd if source.random() < 0.5 else {"textDocument": odd, "contentChanges": odd}}).encode()
                editor.process.stdin.write(b"Content-Length: %d\r\n\r\n" % len(body) + body)
        self.assertEqual(self.reply(editor, {"id": "last", "method": "hol/manual"})["id"], "last")
        self.assertTrue(self.reply(editor, {"id": "goals", "method": "proof/goals", "params": {
            "textDocument": {"uri": self.uri}, "position": {"line": 1, "character": 2}}})["result"]["goals"])

    @staticmethod
    def methods():
        """All requests that the bridge serves but those that wait for a search of proofs, or end the session."""
        return set(answers.Answers(types.SimpleNamespace(workspace=None)).served) - {"codeAction/resolve"} | {"workspace/executeCommand"}

    def test_whatever_the_program_does_the_bridge_says_so_and_goes_on(self):
        for fault in ("twice:9", "noise:6", "bad:10"):
            with self.subTest(fault):
                editor = self.editor("--fault", fault, "--once", str(self.folder / fault.replace(":", "")))
                editor.begin()
                editor.open(self.uri, "g A `p = q`;;\ne REFL_TAC;;\n")
                editor.until(lambda: [found[:2] for found in editor.said(self.uri)] == [(1, 1)])
                self.assertEqual(editor.end(), 0)


@unittest.skipUnless(pathlib.Path("/proc/self/limits").is_file(), "what a process may have isn't told here")
class Memory(unittest.TestCase):
    def limit(self, program, **given):
        """The bytes of addresses that a program may have."""
        with mock.patch.dict(os.environ, given):
            started = server.Server([program], queue.Queue())
        told = pathlib.Path("/proc/%d/limits" % started.process.pid).read_text()
        started.stop()
        started.process.wait()
        return next(line.split()[3] for line in told.splitlines() if line.startswith("Max address space"))

    def test_a_programs_memory_is_limited_by_a_setting(self):
        with tempfile.TemporaryDirectory() as folder:
            program = fake(folder)
            self.assertEqual(self.limit(program), str(3000 << 20))
            self.assertEqual(self.limit(program, HOL_SERVE_MEMORY="500"), str(500 << 20))
            self.assertEqual(self.limit(program, HOL_SERVE_MEMORY="0"), "unlimited")
            self.assertEqual(self.limit(program, HOL_SERVE_MEMORY="much"), str(3000 << 20))

    def test_a_limit_that_words_name_stays(self):
        with tempfile.TemporaryDirectory() as folder:
            events = queue.Queue()
            started = server.Server(limited([fake(folder)], 4000 << 20), events)
            started.send(b'{"op":"stats"}')
            self.assertEqual(events.get(timeout=SECONDS).lines, [b'{"ok":true,"ran":0}'])
            told = pathlib.Path("/proc/%d/limits" % started.process.pid).read_text()
            started.stop()
            started.process.wait()
            self.assertIn("Max address space         %d" % (4000 << 20), told)


if __name__ == "__main__":
    unittest.main()
