"""What a bridge publishes while files are opened, edited and closed, at any time: nothing that goes away before the next edit."""

import json
import pathlib
import queue
import random
import tempfile
import time
import unittest

from holls.lsp import features
from holls.lsp.bridge import Bridge, Limits
from holls.server import Ended, Lines
from tests.helpers import BUILT, fake

TEXTS = {
    "A": "new_constant plus `:num->num->num`;;\ninfixr 16 ++ plus;;\nnew_axiom COMM `!m n. m ++ n = n ++ m`;;\ndeftac BY_COMM (ACCEPT_TAC COMM);;\n"
         "g I `!x:num. x ++ x = x ++ x`;;\ne GEN_TAC;;\ne REFL_TAC;;\nqed;;\ng J `!a b. a ++ b = b ++ a`;;\ne BY_COMM;;\nqed;;\n"
         "new_definition TWICE `twice n = n ++ n`;;\ng K `!x. twice x = x ++ x`;;\ne REWRITE_TAC [TWICE];;\nqed;;\n",
    "B": "import A;;\ng L `!a b. a ++ b = b ++ a`;;\ne ACCEPT_TAC J;;\nqed;;\ng M `twice c = twice c /\\ p`;;\ne CONJ_TAC;;\ne REFL_TAC;;\nsorry;;\n"
         "g N `!x. twice x = x ++ x`;;\ne BY_COMM;;\ne REWRITE_TAC [TWICE; K];;\nqed;;\nnew_constant d `:num`;;\n",
    "C": "import packages;;\nimport A;;\ndefine_type tree = LEAF | NODE tree num tree;;\ndefine size `size LEAF = 0 /\\ size (NODE l n r) = SUC (size r)`;;\n"
         "g S `!t. 0 <= size t`;;\ne REWRITE_TAC [LE_0];;\nqed;;\ninductive even `even 0 /\\ (!n. even n ==> even (n + 2))`;;\ng V `even 0`;;\n"
         "e REWRITE_TAC [even_RULES];;\nqed;;\ntheorems BASICS = [S; V];;\ng W `even 0`;;\ne REWRITE_TAC [BASICS];;\nqed;;\n",
    "D": "import B;;\nimport C;;\ng X `twice d = d ++ d`;;\ne ACCEPT_TAC (SPEC `d:num` N);;\nqed;;\ng Y `p ==> q`;;\ne DISCH_TAC;;\n"}
PLAIN = {name: text.replace("import C;;\n", "") for name, text in TEXTS.items() if name != "C"}
"""Those that need no package, whose theory has thousands of commands."""
PIECES = ("", "", "", "e REFL_TAC;;\n", "qed;;\n", "oops;;\n", "sorry;;\n", "g Q `p ==> p`;;\n", "e foo;;\n", "import A;;\n", "import D;;\n", "`", "(*", "*)", ";;",
          "x", "infixr 16 +++ plus;;\n", "no_notation ++;;\n", "g I `p`;;\n", "qedx;;\n", "new_axiom J `p ==> p`;;\n", "deftac BY_COMM REFL_TAC;;\n", " ",
          "import nothing;;\n", "define_type t2 = P | Q;;\n", "theorems BASICS = [I];;\n")


class Output:
    """What a bridge writes, as messages."""

    def __init__(self):
        self.messages = []

    def write(self, data):
        self.messages.append(json.loads(data.partition(b"\r\n\r\n")[2]))

    def flush(self):
        pass


class Walk:
    """A bridge in this process, whose events are taken one by one."""

    def __init__(self, program, folder, source, texts):
        self.output, self.folder, self.source, self.texts = Output(), folder, source, texts
        self.bridge = Bridge(self.output, program, 60, Limits())
        self.versions, self.shown, self.gone, self.published = {}, {}, [], 0
        self.bridge.events.put({"id": 1, "method": "initialize", "params": {"capabilities": {}}})
        self.go(lambda: self.bridge.program is not None)

    def go(self, is_reached, seconds=120):
        """Takes events until something holds, or so long."""
        end = time.monotonic() + seconds
        while not is_reached() and time.monotonic() < end:
            patience = self.bridge._patience()
            try:
                self.take(self.bridge.events.get(timeout=min(0.2, 0.2 if patience is None else patience)))
            except queue.Empty:
                pass
            self.bridge._settle()
            self.look()

    def take(self, event):
        self.bridge._take_all(event)

    def look(self):
        """Compares what is published with what was, since the last edit."""
        for message in self.output.messages:
            if message.get("method") == "window/logMessage":
                self.gone.append(message["params"]["message"])
            if message.get("method") == "textDocument/publishDiagnostics":
                params = message["params"]
                now = [json.dumps(one, sort_keys=True) for one in params["diagnostics"]]
                if params.get("version") == self.versions.get(params["uri"]):
                    self.gone += [(self.did, one) for one in self.shown.get(params["uri"], ()) if one not in now]
                self.shown[params["uri"]], self.published = now, self.published + len(now)
        self.output.messages.clear()

    def tell(self, method, **params):
        """Sends a notification; what is shown from then on belongs to it."""
        self.shown = {}
        self.bridge.events.put({"method": method, "params": params})
        self.go(self.bridge.events.empty)

    def act(self):
        """Opens a file, closes or edits one, and goes on for a while, or until all is known."""
        name = self.source.choice(sorted(self.texts))
        uri = (self.folder / (name + ".hol")).as_uri()
        document, chance = self.bridge.workspace.documents.get(uri), self.source.random()
        self.did = name, chance
        if document is None:
            self.versions[uri] = 1
            self.tell("textDocument/didOpen", textDocument={"uri": uri, "version": 1, "text": self.texts[name]})
        elif chance < 0.05:
            del self.versions[uri]
            self.tell("textDocument/didClose", textDocument={"uri": uri})
        else:
            self.versions[uri] += 1
            change = {"text": self.texts[name]} if chance < 0.25 else self.edit(document.file.lines)
            self.tell("textDocument/didChange", textDocument={"uri": uri, "version": self.versions[uri]}, contentChanges=[change])
        self.go(self.is_done, self.source.choice((0, 0.01, 0.05, 0.2, 60)))

    def edit(self, lines):
        """A piece in place of a line or of some characters."""
        start = self.source.choice(lines.starts) if self.source.random() < 0.5 else self.source.randrange(len(lines.text) + 1)
        end = lines.starts[lines.line(start) + 1] if start in lines.starts[:-1] and self.source.random() < 0.6 else start + self.source.randrange(3)
        self.did += start, end
        where = {side: dict(zip(("line", "character"), lines.utf16(min(place, len(lines.text))))) for side, place in (("start", start), ("end", end))}
        return {"range": where, "text": self.source.choice(PIECES)}

    def is_done(self):
        documents = self.bridge.workspace.documents.values()
        return self.bridge.events.empty() and all(self.bridge.publisher._is_done(document) and document.due is None for document in documents)


class EachReply(Walk):
    """The same, where the program's replies are taken one by one, and behind each it is seen what would be published then, whether or not it is due."""

    def __init__(self, *given):
        self.known, self.new = {}, {}  # What there was to say of each file last, and what of it has come since the bridge took the last edit.
        self.states = {}  # By which the bridge tells whether there is something new to say of each.
        self.number, self.did = 0, ()
        super().__init__(*given)

    def take(self, event):
        for one in [Lines(event.server, [line]) for line in event.lines] if isinstance(event, Lines) else [event]:
            if isinstance(one, (Lines, Ended)):
                self.bridge._hear([one])
            else:
                self.bridge._take(one)
                self.new, self.shown = {}, {}
            self.bridge._settle()
            self.look()

    def look(self):
        super().look()
        for uri, document in self.bridge.workspace.documents.items():
            state = document.version == self.versions.get(uri) and self.bridge.publisher._what_is_said(document)
            if state and state != self.states.get(uri):
                self.states[uri] = state
                now = {json.dumps(one, sort_keys=True) for one in features.diagnostics(document.file)}
                self.gone += [(self.did, one) for one in self.new.get(uri, ()) if one not in now]
                self.new[uri] = self.new.get(uri, set()) & now | now - self.known.get(uri, set())
                self.known[uri], self.number = now, self.number + 1


class Walking(unittest.TestCase):
    def walk(self, program, seed, steps, kind=Walk, texts=TEXTS):
        with tempfile.TemporaryDirectory() as folder:
            walk = kind(program, pathlib.Path(folder), random.Random(seed), texts)
            try:
                for _ in range(steps):
                    walk.act()
            finally:
                walk.bridge.end_programs()
        self.assertEqual(walk.gone, [], seed)
        self.assertGreater(walk.published, steps // 2)
        return walk

    @unittest.skipUnless(BUILT.is_file(), "hol_serve isn't built")
    def test_nothing_that_is_published_goes_away_by_itself(self):
        for seed in range(2):
            self.walk(str(BUILT), seed, 50)

    @unittest.skipUnless(BUILT.is_file(), "hol_serve isn't built")
    def test_nothing_that_could_be_published_behind_a_reply_goes_away_by_itself(self):
        self.assertGreater(sum(self.walk(str(BUILT), seed, 10, EachReply).number for seed in range(103, 106)), 300)

    def test_nor_where_the_program_ends_now_and_then(self):
        with tempfile.TemporaryDirectory() as folder:
            self.walk(fake(folder, "--fault", "die:150", "--once", folder + "/once"), 0, 50, texts=PLAIN)
            self.assertTrue(pathlib.Path(folder, "once").exists())


if __name__ == "__main__":
    unittest.main()
