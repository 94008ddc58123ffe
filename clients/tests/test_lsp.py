"""`holls lsp` as an editor sees it: scripted sessions over the fake server."""

import json
import pathlib
import queue
import random
import re
import subprocess
import tempfile
import threading
import time
import unittest

from holls.lsp import wire
from tests import forked
from tests.fake_server import Documents
from tests.helpers import SECONDS, fake, proofs


class Editor:
    """An editor that speaks to a bridge: its messages, and what was published last."""

    def __init__(self, program, *words, start=forked.Holls):
        self.process = start("lsp", "--server", program, *words, stdin=subprocess.PIPE, stdout=subprocess.PIPE, stderr=subprocess.PIPE)
        self.messages, self.numbers = queue.Queue(), 0
        self.published, self.versions, self.shown, self.progress, self.unknown = {}, {}, [], [], {}
        self.ever_said, self.ever_unknown, self.searched = [], [], []
        self.reader = threading.Thread(target=self._read, daemon=True)
        self.reader.start()

    def _read(self):
        for message in iter(lambda: wire.read(self.process.stdout), None):
            self.messages.put(message)
        self.messages.put(None)

    def send(self, method, params, number=None):
        message = {"method": method, "params": params, "jsonrpc": "2.0"}
        wire.write(self.process.stdin, dict(message, id=number) if number is not None else message)

    def _next(self, until):
        message = self.messages.get(timeout=max(0.01, until - time.monotonic()))
        if message is None:
            raise AssertionError("the bridge ended: " + self.process.stderr.read().decode())
        if message.get("method") == "textDocument/publishDiagnostics":
            params = message["params"]
            self.published[params["uri"]], self.versions[params["uri"]] = params["diagnostics"], params.get("version")
            self.ever_said += params["diagnostics"]
        elif message.get("method") == "window/showMessage":
            self.shown.append(message["params"]["message"])
        elif message.get("method") == "window/logMessage":
            raise AssertionError(message["params"]["message"])
        elif message.get("method") == "$/hol/fileProgress":
            self.unknown[message["params"]["textDocument"]["uri"]] = message["params"]["processing"]
            self.ever_unknown += message["params"]["processing"]
        elif message.get("method") == "$/progress":
            is_search = message["params"]["token"].startswith("holls/search/")
            (self.searched if is_search else self.progress).append(message["params"]["value"]["kind"])
        return message

    def ask(self, method, params):
        self.numbers += 1
        self.send(method, params, self.numbers)
        until = time.monotonic() + SECONDS
        while True:
            message = self._next(until)
            if message.get("id") == self.numbers and "method" not in message:
                return message.get("result", message.get("error"))

    def until(self, holds):
        """Reads on until something holds."""
        until = time.monotonic() + SECONDS
        while not holds():
            if time.monotonic() > until:
                raise AssertionError("not within %d seconds; published: %r" % (SECONDS, self.published))
            try:
                self._next(time.monotonic() + 0.05)
            except queue.Empty:
                pass

    def begin(self, capabilities=None):
        found = self.ask("initialize", {"capabilities": capabilities or {}})
        self.send("initialized", {})
        return found

    def open(self, uri, text, version=1):
        self.send("textDocument/didOpen", {"textDocument": {"uri": uri, "languageId": "hol", "version": version, "text": text}})

    def change(self, uri, version, text, span=None):
        change = {"text": text}
        if span:
            change["range"] = {side: {"line": line, "character": column} for side, (line, column) in zip(("start", "end"), span)}
        self.send("textDocument/didChange", {"textDocument": {"uri": uri, "version": version}, "contentChanges": [change]})

    def goals(self, uri, line, column, mode="After"):
        return self.ask("proof/goals", {"textDocument": {"uri": uri}, "position": {"line": line, "character": column}, "mode": mode})

    def hover(self, uri, line, column, wanted):
        """A hover that has some words, which one that comes too early may lack."""
        until = time.monotonic() + SECONDS
        while True:
            found = self.ask("textDocument/hover", {"textDocument": {"uri": uri}, "position": {"line": line, "character": column}})
            if wanted in found["contents"]["value"] or time.monotonic() > until:
                return found

    def said(self, uri):
        """The diagnostics as line, severity and the words' beginning."""
        return [(found["range"]["start"]["line"], found["severity"], found["message"].split(":")[0]) for found in self.published.get(uri, [])]

    def end(self):
        try:
            self.ask("shutdown", {})
            self.send("exit", {})
            return self.process.wait(SECONDS)
        finally:
            self.kill()

    def kill(self):
        self.process.kill()
        self.reader.join(SECONDS)
        for pipe in (self.process.stdin, self.process.stdout, self.process.stderr):
            try:
                pipe.close()
            except OSError:
                pass
        self.process.wait()


class Bridging(unittest.TestCase):
    def setUp(self):
        folder = tempfile.TemporaryDirectory()
        self.addCleanup(folder.cleanup)
        self.folder = pathlib.Path(folder.name)
        self.log = self.folder / "log"
        self.uri = (self.folder / "A.hol").as_uri()

    def editor(self, *server, words=(), capabilities=None):
        editor = Editor(fake(self.folder, "--log", str(self.log), *server), *words)
        self.addCleanup(editor.kill)
        editor.begin(capabilities)
        return editor

    def requests(self):
        return [json.loads(line) for line in self.log.read_bytes().splitlines()] if self.log.exists() else []

    def edits(self):
        return [request["op"] for request in self.requests() if request["op"] not in ("report", "basis")]

    def test_a_proof_is_found_once_its_action_is_chosen(self):
        editor = self.editor()
        editor.open(self.uri, "g A `x = x`;;\n  e ALL_TAC;;\n\ng B `p`;;\n")
        editor.goals(self.uri, 3, 0)
        found = {}
        for line in (0, 1, 2, 3):
            span = {side: {"line": line, "character": 3} for side in ("start", "end")}
            every = editor.ask("textDocument/codeAction", {"textDocument": {"uri": self.uri}, "range": span, "context": {"diagnostics": []}})
            found[line] = [one for one in every if one["title"] == "Find a proof"]
        self.assertEqual([len(found[line]) for line in (0, 1, 2, 3)], [1, 1, 0, 1])
        self.assertNotIn("edit", found[1][0])
        edit = editor.ask("codeAction/resolve", found[1][0])["edit"]["changes"][self.uri]
        self.assertEqual([(one["newText"], one["range"]["start"]) for one in edit], [("\n  e REFL_TAC;;", {"line": 1, "character": 13})])
        self.assertIn("no proof was found", editor.ask("codeAction/resolve", found[3][0])["message"])
        self.assertEqual(editor.end(), 0)

    def test_what_can_be_done_is_told_right_behind_an_edit_and_soon_where_a_command_runs_on(self):
        editor = self.editor()
        editor.open(self.uri, "g A `loop = loop`;;\n")
        editor.goals(self.uri, 0, 3)  # The program has begun.
        self.assertIn("Find a proof", self.actions(editor, 0))
        editor.change(self.uri, 2, "e HANG_TAC;;\n", ((1, 0), (1, 0)))
        self.assertEqual(self.actions(editor, 1), [])
        editor.kill()

    def actions(self, editor, line):
        """The titles of what could be done at a line."""
        span = {side: {"line": line, "character": 3} for side in ("start", "end")}
        found = editor.ask("textDocument/codeAction", {"textDocument": {"uri": self.uri}, "range": span, "context": {"diagnostics": []}})
        return [one["title"] for one in found]

    def test_what_a_search_tries_is_shown_and_it_can_be_cancelled(self):
        editor = self.editor(capabilities={"window": {"workDoneProgress": True}})
        editor.open(self.uri, "g A `x = x`;;\n\ng B `(!x:A. ?y. R x y) ==> (?y. !x. R x y)`;;\n")
        editor.goals(self.uri, 2, 0)
        action = {"title": "Find a proof", "data": {"uri": self.uri, "number": 0}}
        editor.ask("codeAction/resolve", action)
        kinds = editor.searched
        self.assertEqual((kinds[0], kinds[-1], set(kinds[1:-1])), ("begin", "end", {"report"}))
        editor.numbers += 1
        editor.send("codeAction/resolve", {"title": "Find a proof", "data": {"uri": self.uri, "number": 1}}, editor.numbers)
        editor.until(lambda: editor.searched.count("begin") == 2)
        editor.send("$/cancelRequest", {"id": editor.numbers})
        editor.until(lambda: editor.searched.count("end") == 2)
        self.assertEqual(editor.end(), 0)

    def test_a_session_from_opening_to_the_end(self):
        editor = self.editor()
        editor.open(self.uri, "g A `p /\\ q`;;\ne CONJ_TAC;;\ne FOO;;\n\ng B `x = x`;;\ne REFL_TAC;;\nqed;;\n")
        editor.until(lambda: editor.said(self.uri) == [(2, 1, "there is no tactic FOO")])
        goals = editor.goals(self.uri, 1, 3)
        self.assertEqual([goal["ty"] for goal in goals["goals"]["goals"]], ["p", "q"])
        self.assertEqual([goal["ty"] for goal in editor.goals(self.uri, 1, 3, "Prev")["goals"]["goals"]], ["p /\\ q"])
        self.assertIn("goal 1 of 2\n  p : bool\n  ----------------------------------------\n  p\n", goals["text"])
        refused = editor.goals(self.uri, 2, 3)
        self.assertEqual(([goal["ty"] for goal in refused["goals"]["goals"]], refused["error"][:8]), (["p", "q"], "refused:"))
        self.assertEqual(editor.end(), 0)

    def test_an_edit_sends_what_changed_and_mends_what_is_said(self):
        editor = self.editor()
        editor.open(self.uri, proofs(100))
        editor.until(lambda: len(self.requests()) == 3 + 1 + 499 + 400)  # Three ask what is served; 99 are hidden.
        before = len(self.edits())
        editor.change(self.uri, 2, "NO", ((5 * 50 + 1, 2), (5 * 50 + 1, 5)))
        editor.until(lambda: any(line == 251 and severity == 1 for line, severity, _ in editor.said(self.uri)))
        self.assertEqual(self.edits()[before:], ["replace"])
        editor.until(lambda: len(self.reports()) == 403)  # The theorem is made all the same, so nothing below the proof can be otherwise.
        self.assertEqual(self.reports()[400:], [251, 252, 253])
        editor.change(self.uri, 3, "ALL", ((251, 2), (251, 4)))
        editor.until(lambda: editor.said(self.uri) == [])
        self.assertEqual((editor.versions[self.uri], len(self.reports())), (3, 403))  # It is the text of before.
        editor.change(self.uri, 4, "NO", ((252, 2), (252, 6)))
        editor.until(lambda: len(self.reports()) == 601)  # Where the theorem is missing all below may be otherwise.
        self.assertEqual((self.reports()[403:408], max(self.reports()[403:])), ([252, 253, 255, 256, 257], 498))

    def reports(self):
        return [request["at"] for request in self.requests() if request["op"] == "report"]

    def test_an_oops_that_was_hidden_is_asked_for_once_it_is_written(self):
        editor = self.editor()
        editor.open(self.uri, "g A `p = q`;;\ne ALL_TAC;;\nnew_axiom B `p`;;\n")
        editor.until(lambda: [found[:2] for found in editor.said(self.uri)] == [(2, 1)] and editor.unknown.get(self.uri) == [])
        editor.change(self.uri, 2, "oops;;\n", ((2, 0), (2, 0)))  # All that is sent is as it was.
        editor.until(lambda: editor.versions[self.uri] == 2 and editor.said(self.uri) == [] and editor.unknown.get(self.uri) == [])
        self.assertEqual(editor.goals(self.uri, 2, 1)["text"], "no proof is open\n")
        self.assertEqual(editor.end(), 0)

    def test_nothing_is_said_of_a_correct_file_at_any_time_but_what_is_not_known(self):
        editor = self.editor()
        editor.open(self.uri, proofs(3) + "g S `x = x`;;\ne SLOW_TAC;;\ne REFL_TAC;;\nqed;;\n" + proofs(3).replace("N", "M"))
        editor.until(lambda: self.uri in editor.published and editor.unknown.get(self.uri) == [])
        self.assertEqual(editor.ever_said, [])
        self.assertTrue(editor.ever_unknown)
        self.assertEqual(editor.end(), 0)

    def test_a_failed_goal_behind_an_open_proof_shows_none_of_its_goals(self):
        editor = self.editor()
        editor.open(self.uri, "g A `p /\\ q`;;\ng B `x x`;;\nqed;;")
        editor.until(lambda: [found[:2] for found in editor.said(self.uri)] == [(1, 1), (1, 1), (2, 3)])
        self.assertEqual([editor.goals(self.uri, line, 0).get("goals") for line in (1, 2)], [None, None])

    def test_without_replace_a_fresh_server_takes_the_file(self):
        editor = self.editor("--serve", "")
        editor.open(self.uri, proofs(2))
        editor.until(lambda: self.uri in editor.published)
        editor.change(self.uri, 2, "NO_TAC", ((1, 2), (1, 9)))
        editor.until(lambda: [found[0] for found in editor.said(self.uri)][:1] == [1])
        editor.change(self.uri, 3, proofs(1))
        editor.until(lambda: editor.said(self.uri) == [] and editor.versions[self.uri] == 3)
        self.assertNotIn("replace", self.edits()[6:])

    def test_random_edits_give_the_reports_of_a_fresh_server(self):
        editor = self.editor()
        source, text = random.Random(5), proofs(3)
        pieces = 4 * ["g X `p /\\ q`;;\n", "g Y `a = a`;;", "g Z `x x`;;\n", "e CONJ_TAC;;\n", "e REFL_TAC;;\n", "qed;;\n"]
        pieces += ["oops;;\n", "(* c *)", "(*", "*)", "*)", ";;", "😀"]
        editor.open(self.uri, text)
        for version in range(2, 102):
            start = source.randrange(len(text) + 1)
            end = min(len(text), start + source.choice([0, 0, 1, 5, 20]))
            new = source.choice(pieces)
            span = [_position(text, place) for place in (start, end)]
            editor.change(self.uri, version, new, span)
            text = text[:start] + new + text[end:]
            if version % 10 == 1:
                self.compare(editor, text, version)
        self.assertEqual(editor.end(), 0)

    def compare(self, editor, text, version):
        """The states after all commands are those that the fake server's own run gives."""
        from holls.files import File
        file = File("A.hol")
        file.take(text)
        documents = Documents()
        documents.new_theory({"name": "A", "at": 0})
        for at, entry in enumerate(file.theory.entries):
            documents.insert({"theory": "A", "at": at, "text": entry.text})
        states, open_goals = [], None
        for at in range(len(file.theory.entries)):
            report = documents.report({"theory": "A", "at": at})
            if "refusal" not in report:
                open_goals = [goal["goal"] for goal in report["goals"]] if "goals" in report else None
            states.append((report, open_goals))
        for number, command in enumerate(file.commands):
            report, open_goals = states[file.slot(number)]
            line, column = _position(text, command.start)
            said = editor.goals(self.uri, line, column)
            self.assertEqual("refusal" in report, "error" in said, (text, command, report, said))
            shown = [goal["ty"] for goal in said["goals"]["goals"]] if "goals" in said else None
            self.assertEqual(shown, open_goals, (text, command))
            self.assertEqual(said["messages"], report.get("made", []))

    def test_faults_are_survived(self):
        for fault in ("die:9", "end:12", "bad:10", "memory:9"):
            with self.subTest(fault):
                editor = self.editor("--fault", fault, "--once", str(self.folder / fault.replace(":", "")))
                editor.open(self.uri, "g A `p = q`;;\ne REFL_TAC;;\n")
                editor.until(lambda: [found[:2] for found in editor.said(self.uri)] == [(1, 1)])
                self.assertEqual(editor.shown, [])
                self.assertEqual(editor.end(), 0)

    def test_a_server_that_always_ends_is_told_of(self):
        editor = self.editor("--fault", "end:7")
        editor.open(self.uri, proofs(5))
        editor.until(lambda: any("hol_serve ended with status 3, and again" in found["message"] for found in editor.published.get(self.uri, [])))
        self.assertEqual(len(editor.shown), 1)
        self.assertEqual(editor.end(), 0)

    def test_no_server_is_told_of_and_the_text_is_looked_at_all_the_same(self):
        editor = Editor(str(self.folder / "none"))
        self.addCleanup(editor.kill)
        editor.begin()
        editor.open(self.uri, "(* open")
        editor.until(lambda: len(editor.said(self.uri)) == 2)
        self.assertIn("no program is at", editor.published[self.uri][0]["message"])
        self.assertIn("never closed", editor.published[self.uri][1]["message"])
        self.assertEqual(editor.end(), 0)

    def inserts(self, text):
        return sum(request["op"] == "insert" and request["text"] == text for request in self.requests())

    def servers(self):
        """How many servers have taken the theory A."""
        return self.edits().count("new_theory")

    def test_a_hanging_command_is_marked_and_when_its_text_changes_the_session_is_begun_again(self):
        editor = self.editor()
        editor.open(self.uri, "g A `loop = loop`;;\ne HANG_TAC;;\ne REFL_TAC;;\nqed;;\n")
        editor.until(lambda: 2 in [found["kind"] for found in editor.unknown.get(self.uri, [])])
        self.assertEqual(editor.said(self.uri), [])
        self.assertEqual(editor.goals(self.uri, 0, 1)["goals"]["goals"][0]["ty"], "loop = loop")  # What stands above is known.
        editor.change(self.uri, 2, "e NO_TAC", ((1, 0), (1, 10)))
        editor.until(lambda: (1, 1) in [found[:2] for found in editor.said(self.uri)])
        self.assertEqual(self.servers(), 2)
        self.assertEqual(editor.end(), 0)

    def test_a_change_below_what_runs_for_long_waits_for_it(self):
        editor = self.editor()
        editor.open(self.uri, "g A `x = x`;;\ne SLOW_TAC;;\ne REFL_TAC;;\nqed;;\n")
        editor.until(lambda: self.inserts("e SLOW_TAC"))
        time.sleep(0.7)
        editor.change(self.uri, 2, "ALL", ((2, 2), (2, 6)))
        self.assertEqual(editor.goals(self.uri, 2, 1)["goals"]["goals"][0]["ty"], "x = x")
        self.assertEqual((self.servers(), self.inserts("e SLOW_TAC")), (1, 1))
        self.assertEqual(editor.end(), 0)

    def test_a_command_that_runs_too_long_is_left_out_and_the_session_goes_on(self):
        editor = self.editor(words=("--seconds", "3"))
        editor.open(self.uri, "g A `loop = loop`;;\ne HANG_TAC;;\ne REFL_TAC;;\nqed;;\n")
        editor.until(lambda: editor.said(self.uri) == [(1, 2, "nothing is known of this command")])
        self.assertIn("hol_serve gave no answer within 3 seconds", editor.published[self.uri][0]["message"])
        self.assertEqual(editor.goals(self.uri, 3, 1)["messages"], ["thm A |- loop = loop"])
        self.assertEqual((self.servers(), self.inserts("e HANG_TAC"), self.inserts("")), (2, 1, 1))
        editor.change(self.uri, 2, "ALL", ((1, 2), (1, 6)))
        editor.until(lambda: editor.said(self.uri) == [])
        self.assertEqual((self.servers(), editor.shown), (2, []))
        self.assertEqual(editor.end(), 0)

    def test_a_command_that_an_edit_above_makes_run_too_long_is_found_and_left_out(self):
        editor = self.editor(words=("--seconds", "3"))
        editor.open(self.uri, "g A `x = x`;;\ne ALL_TAC;;\ne HANG_TAC;;\ne REFL_TAC;;\nqed;;\n" + proofs(1))
        editor.until(lambda: self.uri in editor.published and editor.unknown.get(self.uri) == [])
        editor.change(self.uri, 2, "loop = loop", ((0, 5), (0, 10)))  # This edit gives no answer.
        self.assertEqual(editor.goals(self.uri, 1, 1)["goals"]["goals"][0]["ty"], "loop = loop")
        editor.until(lambda: editor.said(self.uri) == [(2, 2, "nothing is known of this command")])
        self.assertEqual(editor.goals(self.uri, 4, 1)["messages"], ["thm A |- loop = loop"])
        self.assertEqual((self.servers(), editor.shown), (3, []))
        self.assertEqual(editor.end(), 0)

    def test_a_command_that_finds_no_memory_is_left_out_and_the_session_goes_on(self):
        editor = self.editor()
        editor.open(self.uri, "g A `big = big`;;\ne MEMORY_TAC;;\ne REFL_TAC;;\nqed;;\n")
        editor.until(lambda: editor.said(self.uri) == [(1, 2, "nothing is known of this command")])
        self.assertIn("hol_serve had no memory for it", editor.published[self.uri][0]["message"])
        self.assertEqual(editor.goals(self.uri, 3, 1)["messages"], ["thm A |- big = big"])
        self.assertEqual((self.servers(), self.inserts("e MEMORY_TAC"), self.inserts(""), editor.shown), (1, 2, 1, []))
        self.assertEqual(editor.end(), 0)

    def test_a_command_that_finds_no_memory_after_an_edit_above_is_found_and_left_out(self):
        editor = self.editor()
        editor.open(self.uri, "g A `x = x`;;\ne ALL_TAC;;\ne MEMORY_TAC;;\ne REFL_TAC;;\nqed;;\n")
        editor.until(lambda: self.uri in editor.published and editor.unknown.get(self.uri) == [])
        editor.change(self.uri, 2, "big = big", ((0, 5), (0, 10)))  # This edit is answered by the memory line.
        editor.until(lambda: editor.said(self.uri) == [(2, 2, "nothing is known of this command")])
        self.assertEqual(editor.goals(self.uri, 4, 1)["messages"], ["thm A |- big = big"])
        self.assertEqual((self.servers(), editor.shown), (2, []))
        self.assertEqual(editor.end(), 0)

    def test_a_command_that_ends_the_program_is_left_out(self):
        editor = self.editor()
        editor.open(self.uri, "g A `big = big`;;\ne DIE_TAC;;\ne REFL_TAC;;\nqed;;\n")
        editor.until(lambda: editor.said(self.uri) == [(1, 2, "nothing is known of this command")])
        self.assertIn("hol_serve was ended by signal 6", editor.published[self.uri][0]["message"])
        self.assertEqual(editor.goals(self.uri, 3, 1)["messages"], ["thm A |- big = big"])
        self.assertEqual((self.servers(), editor.shown), (3, []))
        self.assertEqual(editor.end(), 0)

    def test_what_one_works_on_comes_before_what_runs_for_long_elsewhere(self):
        editor, other = self.editor(), (self.folder / "B.hol").as_uri()
        editor.open(self.uri, "g A `loop = loop`;;\ne HANG_TAC;;\n")
        editor.until(lambda: self.inserts("e HANG_TAC"))
        editor.open(other, "g B `x = x`;;\n")
        self.assertEqual(editor.goals(other, 0, 1)["goals"]["goals"][0]["ty"], "x = x")
        self.assertEqual(editor.end(), 0)

    def test_symbols_folding_definition_completion_lenses_and_hover(self):
        editor = self.editor()
        editor.open(self.uri, "(* 😀\n *)\n" + proofs(2))
        editor.until(lambda: self.uri in editor.published)
        document = {"textDocument": {"uri": self.uri}}
        symbols = editor.ask("textDocument/documentSymbol", document)
        self.assertEqual([(symbol["name"], symbol["selectionRange"]["start"]) for symbol in symbols],
                         [("N0", {"line": 2, "character": 2}), ("N1", {"line": 7, "character": 2})])
        foldings = editor.ask("textDocument/foldingRange", document)
        self.assertEqual([(found["startLine"], found["endLine"]) for found in foldings], [(2, 5), (7, 10), (0, 1)])
        at = dict(document, position={"line": 7, "character": 3})
        self.assertEqual(editor.ask("textDocument/definition", at)["range"]["start"], {"line": 7, "character": 2})
        at = dict(document, position={"line": 8, "character": 3})
        labels = [found["label"] for found in editor.ask("textDocument/completion", at)]
        self.assertLess({"N0", "CONJ_TAC", "THEN", "TRUTH"}, set(labels))
        hover = editor.hover(self.uri, 5, 1, "rests on")
        self.assertEqual(hover["contents"]["value"], "```hol\nthm N0 |- f x = f x\nrests on no axioms or definitions of its own\n```")
        hover = editor.hover(self.uri, 2, 3, "rests on")
        self.assertEqual(hover["contents"]["value"], "```hol\nN0: |- f x = f x\n```\n\ntheorem of A\n\nrests on no axioms or definitions of its own")
        hover = editor.ask("textDocument/hover", dict(document, position={"line": 3, "character": 4}))
        self.assertIn("Fits any goal and leaves it as it is.", hover["contents"]["value"])
        symbols = editor.ask("workspace/symbol", {"query": "n1"})
        self.assertEqual([(found["name"], found["containerName"]) for found in symbols], [("N1", "A")])
        self.assertEqual(editor.goals(self.uri, 10, 1)["messages"], ["thm N1 |- f x = f x"])
        lenses = editor.ask("textDocument/codeLens", document)
        self.assertEqual(editor.ask("codeLens/resolve", lenses[1])["command"]["title"], "rests on no axioms or definitions of its own")

    def test_a_long_term_is_shown_in_part(self):
        editor = self.editor()
        editor.open(self.uri, "g A `%s`;;" % ("x" * 60_000))
        said = editor.goals(self.uri, 0, 0)
        self.assertTrue(said["text"].endswith("x .. (40000 characters more)\n"))
        self.assertLess(len(said["goals"]["goals"][0]["ty"]), 21_000)

    def test_two_files_and_a_closed_one(self):
        editor = self.editor()
        other = (self.folder / "B.hol").as_uri()
        (self.folder / "A.hol").write_text(proofs(1))
        editor.open(other, "import A;;\nimport C;;\n")
        editor.until(lambda: editor.said(other) == [(1, 1, "there is no file C.hol in %s or in the library" % self.folder)])
        editor.open(self.uri, "g A `p = q`;;\n")
        editor.until(lambda: editor.said(self.uri) == [(0, 3, "the proof of A isn't ended yet")])
        self.assertEqual(editor.goals(other, 0, 1)["messages"], [])
        twin = (self.folder / "sub" / "A.hol").as_uri()
        editor.open(twin, "qed;;")  # Another folder: a project of its own, with a server of its own.
        editor.until(lambda: [found[2] for found in editor.said(twin)] == ["no proof is open here"])
        editor.send("textDocument/didClose", {"textDocument": {"uri": self.uri}})
        editor.until(lambda: editor.said(self.uri) == [])
        self.assertEqual(editor.end(), 0)

    def test_what_an_edit_of_an_open_file_changes_is_told_anew_in_those_that_import_it(self):
        editor, other, last = self.editor(), (self.folder / "B.hol").as_uri(), (self.folder / "C.hol").as_uri()
        editor.open(self.uri, "infixr 16 + add;;\n" + proofs(1))
        editor.open(other, "import A;;\n")
        editor.open(last, "import B;;\ninfixr 12 + plus;;\n")

        def told():
            return [found["message"] for found in editor.published.get(last, [])]

        wanted = ["nothing makes the constant plus in this file or in those that it imports"]
        editor.until(lambda: any("`+` stands for add already" in message for message in told()))
        editor.until(lambda: editor.goals(last, 0, 1)["messages"] == ["thm N0 |- f x = f x"])
        editor.change(self.uri, 2, "infixr 16 ++ add;;\n" + proofs(1))  # Nothing of what is sent is another one.
        editor.until(lambda: told() == wanted)
        editor.change(self.uri, 3, proofs(1).replace("N0", "OTHER"))
        editor.until(lambda: editor.goals(last, 0, 1)["messages"] == ["thm OTHER |- f x = f x"])
        editor.change(self.uri, 4, "infixr 16 + add;;\n" + proofs(1))
        editor.until(lambda: any("`+` stands for add already" in message for message in told()))
        editor.until(lambda: editor.goals(last, 0, 1)["messages"] == ["thm N0 |- f x = f x"])
        self.assertEqual(editor.end(), 0)

    def test_what_changes_on_disk_is_noticed(self):
        editor, other = self.editor(), (self.folder / "B.hol").as_uri()
        editor.open(other, "import C;;\n")
        editor.until(lambda: [found[2][:26] for found in editor.said(other)] == ["there is no file C.hol in "])
        (self.folder / "C.hol").write_text(proofs(1))
        editor.until(lambda: editor.said(other) == [])
        self.assertEqual(editor.goals(other, 0, 1)["messages"], ["thm N0 |- f x = f x"])
        (self.folder / "C.hol").write_text(proofs(1).replace("N0", "OTHER"))
        editor.until(lambda: editor.goals(other, 0, 1)["messages"] == ["thm OTHER |- f x = f x"])
        (self.folder / "C.hol").write_text("import B;;")
        editor.until(lambda: [found[2] for found in editor.said(other)] == ["imports go in a circle here"])
        self.assertEqual(editor.end(), 0)

    def test_of_an_import_circle_nothing_is_taken_whichever_file_was_opened_or_edited_first(self):
        own, other = "import B;;\n" + proofs(1), (self.folder / "B.hol").as_uri()
        for uris in ((self.uri, other), (other, self.uri)):
            editor = self.editor()
            for uri in uris:
                editor.open(uri, own if uri == self.uri else proofs(1))
            name_twice = [(1, 1, "the theorem N0 stands already")]
            editor.until(lambda: [found[:2] for found in editor.said(self.uri)][:1] == [(1, 1)])
            self.assertEqual((editor.said(self.uri)[:1], editor.said(other)), (name_twice, []))
            editor.change(other, 2, "import A;;\n" + proofs(1))
            circle = [(0, 1, "imports go in a circle here")]
            editor.until(lambda: editor.said(self.uri) == editor.said(other) == circle)
            for uri in (self.uri, other):
                self.assertEqual(editor.goals(uri, 4, 0)["messages"], ["thm N0 |- f x = f x"])
                self.assertEqual(editor.goals(uri, 0, 0)["error"], (
                    "refused: imports go in a circle here: A imports B imports A; take one of them out"))
            editor.change(other, 3, proofs(1))
            editor.until(lambda: editor.said(self.uri)[:1] == name_twice and editor.said(other) == [])
            self.assertEqual(editor.end(), 0)

    def test_a_project_file_names_the_folders_of_theories(self):
        (self.folder / "library" / "deep").mkdir(parents=True)
        (self.folder / "library" / "deep" / "C.hol").write_text(proofs(1))
        editor, other = self.editor(), (self.folder / "sub" / "B.hol").as_uri()
        editor.open(other, "import C;;\nimport D;;\n")
        editor.until(lambda: [found[0] for found in editor.said(other)] == [0, 1])
        (self.folder / "hol-project.json").write_text('{"folders": [".", "library"]}')
        editor.until(lambda: [found[0] for found in editor.said(other)] == [1])
        (self.folder / "hol-project.json").write_text('{"folders": "library"}')
        editor.until(lambda: [found[:2] for found in editor.said(other)]== [(0, 1), (1, 1)])
        self.assertIn("hol-project.json can't be read", editor.published[other][0]["message"])
        self.assertEqual(editor.end(), 0)

    def test_a_file_outside_of_its_projects_folders_is_none_of_its_theories(self):
        for folder in ("x", "y"):
            (self.folder / folder).mkdir()
        (self.folder / "hol-project.json").write_text('{"folders": ["x"]}')
        (self.folder / "y" / "B.hol").write_text(proofs(1))
        editor, own, other = self.editor(), (self.folder / "x" / "A.hol").as_uri(), (self.folder / "y" / "B.hol").as_uri()
        editor.open(own, "import B;;")
        editor.open(other, proofs(1))
        editor.open(self.uri, "g A `p`;;")
        editor.until(lambda: [found[:2] for found in editor.said(own)] == [(0, 1)] and editor.unknown.get(other) == [])
        self.assertIn("there is no file B.hol in %s and below" % (self.folder / "x"), editor.published[own][0]["message"])
        editor.until(lambda: [found[:2] for found in editor.said(self.uri)] == [(0, 3)])
        (self.folder / "hol-project.json").write_text('{"folders": ["x", "y"]}')
        editor.until(lambda: editor.said(own) == [])
        (self.folder / "y" / "hol-project.json").write_text("{}")
        (self.folder / "hol-project.json").write_text("{}")
        editor.until(lambda: [found[:2] for found in editor.said(own)] == [(0, 1)])
        (self.folder / "y" / "hol-project.json").unlink()
        editor.until(lambda: editor.said(own) == [])
        self.assertEqual(editor.end(), 0)

    def test_an_edit_does_not_wait_for_a_server_that_hangs(self):
        editor = self.editor("--fault", "hang:70", "--once", str(self.folder / "once"))
        editor.open(self.uri, "g A `p /\\ q`;;\n" + "e ALL_TAC;;\n" * 61)
        editor.until(lambda: len(self.requests()) >= 70)
        editor.change(self.uri, 2, "q", ((0, 5), (0, 6)))  # The answer under way would take ten minutes.
        self.assertEqual(editor.goals(self.uri, 0, 1)["goals"]["goals"][0]["ty"], "q /\\ q")
        self.assertEqual(editor.end(), 0)

    def test_an_edit_waits_where_a_server_takes_long_to_start(self):
        editor = self.editor("--fault", "late:1")
        editor.open(self.uri, "g A `p /\\ q`;;\ne SLOW_TAC;;\n")
        editor.until(lambda: self.inserts("e SLOW_TAC"))
        editor.change(self.uri, 2, "q", ((0, 5), (0, 6)))
        self.assertEqual(editor.goals(self.uri, 1, 1)["goals"]["goals"][0]["ty"], "q /\\ q")
        self.assertEqual(self.servers(), 1)
        self.assertEqual(editor.end(), 0)

    def test_bad_messages_are_refused_and_nothing_ends(self):
        editor = self.editor()
        self.assertEqual(editor.ask("textDocument/hover", {"textDocument": {"uri": "file:///none.hol"}})["code"], -32602)
        self.assertEqual(editor.ask("what/ever", {})["code"], -32601)
        self.assertEqual(editor.ask("hol/search", {"query": "(_"})["message"], "the pattern can't be read: `)` is missing")
        editor.process.stdin.write(b"Content-Length: 3\r\n\r\n{x}")
        self.assertEqual(editor.ask("textDocument/completion", {})["code"], -32602)
        self.assertEqual(editor.end(), 0)

    def test_an_editor_that_goes_away_leaves_no_process(self):
        editor = self.editor()
        editor.open(self.uri, "g A `loop = loop`;;\ne HANG_TAC;;\n")
        editor.until(lambda: self.inserts("e HANG_TAC"))
        editor.process.stdin.close()
        self.assertEqual(editor.process.wait(SECONDS), 1)

    def test_progress_is_shown_where_it_takes_long(self):
        editor = self.editor(capabilities={"window": {"workDoneProgress": True}})
        editor.open(self.uri, "g A `p`;;\ne SLOW_TAC;;\n")
        editor.until(lambda: "end" in editor.progress)
        self.assertEqual(editor.progress[0], "begin")


def _position(text, place):
    """Line and column in UTF-16 units, counted without the code under test."""
    before = re.split("\r\n|\r|\n", text[:place])
    return len(before) - 1, len(before[-1].encode("utf-16-le")) // 2


if __name__ == "__main__":
    unittest.main()
