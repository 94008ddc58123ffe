"""Keeping theories in step, and what is kept of what is known: random edits of three files that import one another."""

import functools
import itertools
import json
import pathlib
import random
import subprocess
import tempfile
import unittest

from holls import protocol
from holls.difference import INSERT, REMOVE, REPLACE
from holls.lsp.workspace import Workspace
from holls.sweep import unknown
from holls.theory import DROP, NEW, Change, Standing, Theory
from tests.fake_server import EDITS, Documents, Slot
from tests.helpers import BUILT, proofs

NAMES = ("A", "B", "C")
PIECES = ("g X `p /\\ q`;;\n", "g Y `a = a`;;", "e CONJ_TAC;;\n", "e REFL_TAC;;\n", "qed;;\n", "oops;;\n", "import A;;", "import B;;",
          "import C;;", "(* c *)", "(*", "*)", ";;", " ", "∀", "new_axiom K `p`;;\n", "deftac T REFL_TAC;;\n", "e T;;\n", "foo;;\n",
          "g X `a = a`;;\ne REFL_TAC;;\nqed;;\n", "g X `p /\\ q`;;\noops;;\n")


USES = "g U `(x:A) = x`;;\ne (ACCEPT_TAC X);;\nqed;;\ng V `(x:B) = x`;;\ne (ACCEPT_TAC X);;\nqed;;\n"
TYPED_TEXT = "g X `(x:A) = x`;;\ne REFL_TAC;;\nqed;;\n" + USES + "g W `p ==> p`;;\ne DISCH_TAC;;\ne (FIRST_ASSUM ACCEPT_TAC);;\nqed;;\n"
TYPED_PIECES = ("(x:A)", "(x:B)", "x", "g X `(x:B) = x`;;\n", "g X `(x:A) = x`;;\n", "e REFL_TAC;;\n", "qed;;\n", "oops;;\n", "e ALL_TAC;;\n",
                "new_axiom X `(x:B) = x`;;\n", "foo;;\n", "b;;\n", "T", " ", "import A;;\n", "new_constant p `:bool`;;\n")
"""A theorem whose type isn't shown, and two that need it."""


def of(workspace):
    """The theories of the one project of a workspace."""
    return [file.theory for files in workspace.groups().values() for file in files]


class Mirror:
    """A server in this process, kept in step by what `Standing` says."""

    def __init__(self, served):
        self.served = served
        self.begin()

    def begin(self):
        self.documents, self.standing = Documents(self.served), Standing()

    def bring(self, theories):
        """Sends the changes, to a fresh server where that is needed. Answers how many."""
        changes = self.standing.changes(theories, self.served)
        if changes is None:
            self.begin()
            changes = self.standing.changes(theories, self.served)
        for change in changes:
            if self.answer(change.line()) != {"ok": True}:
                raise AssertionError(change)
            self.standing.apply(change)
        return len(changes)

    def ask(self, theory):
        """Asks for what has to be asked for, a few reports at a time. Answers how many."""
        asked = 0
        while True:
            jobs = [at for _, at in itertools.islice(unknown(theory, range(len(theory.entries))), 3)]
            for at in jobs:
                theory.entries[at].report = self.report(theory, at)
            theory.settle()
            asked += len(jobs)
            if not jobs and theory.frontier == len(theory.entries):
                return asked

    def answer(self, line):
        return self.documents.answer(line)

    def report(self, theory, at):
        return read(json.dumps(self.answer(protocol.line({"op": "report", "theory": theory.name, "at": at}))))


@functools.lru_cache(1 << 12)
def read(reply):
    """What a reply says."""
    return protocol.reply(reply.encode())


class ProgramMirror(Mirror):
    """The program itself, asked one request after the other."""

    def begin(self):
        self.stop()
        self.process = subprocess.Popen([str(BUILT)], stdin=subprocess.PIPE, stdout=subprocess.PIPE)
        self.standing = Standing()

    def stop(self):
        if hasattr(self, "process"):
            self.process.kill()
            self.process.communicate()

    def answer(self, line):
        self.process.stdin.write(line + b"\n")
        self.process.stdin.flush()
        return json.loads(self.process.stdout.readline())


class InStep(unittest.TestCase):
    def test_1000_random_edits_leave_what_a_fresh_server_says(self):
        for seed, served in enumerate((("replace", "remove", "drop_theory"), ("replace", "remove"), ("remove",), ())):
            with self.subTest(served):
                self.random_edits(random.Random(seed), served)

    def random_edits(self, source, served):
        workspace, mirror = Workspace(), Mirror(served)
        documents = [workspace.open("file:///%s.hol" % name, 1, "") for name in NAMES]
        for _ in range(250):
            self.edit(source, workspace, source.choice(documents))
            theories = of(workspace)
            mirror.bring(theories)
            self.assertEqual(mirror.bring(theories), 0)
            self.compare(mirror, theories, served)

    def edit(self, source, workspace, document, pieces=PIECES):
        lines = document.file.lines
        places = sorted(source.randrange(len(lines.text) + 1) for _ in range(2))
        if source.random() < 0.7:
            places[1] = places[0]
        self.replace(workspace, document, places, source.choice(pieces))

    @staticmethod
    def replace(workspace, document, places, text):
        start, end = (dict(zip(("line", "character"), document.file.lines.utf16(place))) for place in places)
        workspace.change(document, 1, [{"range": {"start": start, "end": end}, "text": text}])

    def compare(self, mirror, theories, served):
        """What was known and is kept is what a fresh server says; what isn't known is asked for."""
        fresh = Documents(served)
        fresh.theories = fresh.run([(theory.name, [Slot(entry.sent) for entry in theory.entries]) for theory in theories])
        for theory in theories:
            mirror.ask(theory)
            for at, (entry, slot) in enumerate(zip(theory.entries, fresh.slots(theory.name))):
                if not entry.is_hidden:
                    self.assertEqual(entry.report, read(json.dumps(slot.reply)), (theory.name, at, entry.text))

    def test_an_edit_in_a_proof_asks_for_no_report_behind_it(self):
        """Unless the proof is broken, or whole again; and nothing is asked where a text is what it was before."""
        workspace, mirror = Workspace(), Mirror(EDITS)
        document = workspace.open("file:///A.hol", 1, proofs(100))
        theory, place = document.file.theory, document.file.lines.text.index("ALL_TAC")
        asked = []
        for places, text in (
                ((0, 0), ""), ((place, place), "ALL_TAC;;\ne "), ((place, place), "T"), ((place + 1, place + 1), "H"), ((place, place + 1), ""),
                ((place, place + 1), ""), ((place, place + 11), ""), ((0, 0), "(* c *)"), ((7, 7), "e foo;;\n"), ((11, 11), "o")):
            self.replace(workspace, document, places, text)
            of(workspace)
            mirror.bring([theory])
            asked.append(mirror.ask(theory))
        self.assertEqual([asked[1], *asked[3:5], *asked[7:]], [3, 1, 1, 0, 1, 1])
        self.assertTrue(all(0 <= asked[at] <= 404 for at in (0, 2, 5, 6)), asked)
        self.compare(mirror, [theory], EDITS)

    @unittest.skipUnless(BUILT.is_file(), "hol_serve isn't built")
    def test_over_the_program_too_what_is_kept_is_what_a_fresh_one_says(self):
        """With statements that are shown alike and differ in types, which later proofs need."""
        mirror, source = ProgramMirror(EDITS), random.Random(5)
        self.addCleanup(mirror.stop)
        workspace = Workspace()
        documents = [workspace.open("file:///%s.hol" % name, 1, TYPED_TEXT if name == "A" else "import A;;\n" + USES) for name in NAMES[:2]]
        place = TYPED_TEXT.index("A)")
        self.check_kept(mirror, of(workspace))
        self.replace(workspace, documents[0], (place, place + 1), "B")  # The theorem is shown as before, and its type is another one.
        self.check_kept(mirror, of(workspace))
        self.assertEqual([isinstance(documents[0].file.theory.entries[at].report, protocol.Refusal) for at in (-11, -7)], [True, False])
        for round_ in range(120):
            self.edit(source, workspace, source.choice(documents), TYPED_PIECES)
            if round_ % 12 == 0:
                self.replace(workspace, documents[0], (0, len(documents[0].file.lines.text)), TYPED_TEXT)
            self.check_kept(mirror, of(workspace))

    def check_kept(self, mirror, theories):
        """What was kept or asked for is what the program says."""
        mirror.bring(theories)
        for theory in theories:
            mirror.ask(theory)
            for at, entry in enumerate(theory.entries):
                if not entry.is_hidden:
                    self.assertEqual(entry.report, mirror.report(theory, at), (theory.name, at, entry.text))

    def test_each_theory_stands_behind_all_that_it_imports(self):
        """1,000 histories of graphs of imports, in which theories come and go: what is said is what a fresh server says, and none is needed."""
        for seed in range(1000):
            source, theories, mirror = random.Random(seed), {}, Mirror(EDITS)
            names = ["T%d" % at for at in range(source.randrange(3, 8))]
            for _ in range(4):
                if source.random() < 0.2:
                    source.shuffle(names)
                wanted = self.graph(source, names, theories)
                self.assertIsNotNone(mirror.standing.changes(wanted, EDITS), seed)
                mirror.bring(wanted)
                self.assertEqual(mirror.bring(wanted), 0, seed)
                for theory in wanted:
                    theory.forget(0)
                self.compare(mirror, wanted, EDITS)

    @staticmethod
    def graph(source, names, theories):
        """Some theories by these names, each importing some before it, in an order in which each comes after its imports."""
        sent = [name for name in names if source.random() < 0.7]
        for name in sent:
            before = names[:names.index(name)]
            theory = theories.setdefault(name, Theory(name))
            if source.random() < 0.6 or not set(theory.imports) <= set(before):
                theory.imports = tuple(source.sample(before, min(len(before), source.randrange(4))))
            own = [("new_axiom K_%s `p`" % name, False)] * source.randrange(2)
            theory.want([("import " + other, False) for other in theory.imports] + own)
        order, waiting = [], source.sample(sent, len(sent))
        while waiting:
            missing = [name for name in theories[waiting[-1]].imports if name in sent and theories[name] not in order]
            if missing:
                waiting += missing
            elif theories[waiting[-1]] not in order:
                order.append(theories[waiting.pop()])
            else:
                waiting.pop()
        return order

    def test_a_closed_file_is_dropped_where_that_is_served_and_else_left(self):
        for served, names in ((("drop_theory",), ["B"]), ((), ["A", "B"])):
            workspace, mirror = Workspace(), Mirror(served)
            for name in NAMES[:2]:
                workspace.open("file:///%s.hol" % name, 1, "qed;;")
            mirror.bring(of(workspace))
            del workspace.documents["file:///A.hol"]
            mirror.bring(of(workspace))
            self.assertEqual([name for name, _ in mirror.documents.theories], names)

    def test_which_edits_can_affect_no_other_command_and_how_long_what_stands_before_took(self):
        standing, wanted = Standing(), [Theory("A"), Theory("B", imports=("A",)), Theory("C")]
        for at, name in enumerate("ABC"):
            standing.apply(Change(NEW, name, at))
            self.assertTrue(standing.is_last(Change(INSERT, name, 0, "qed"), wanted))
            standing.apply(Change(INSERT, name, 0, "qed"), 2.0)
            standing.apply(Change(INSERT, name, 1, "qed"), 3.0)
        cases = {("A", 2): False, ("B", 2): True, ("B", 1): False, ("C", 2): True}
        self.assertEqual({case: standing.is_last(Change(INSERT, *case, "qed"), wanted) for case in cases}, cases)
        cases = {(REPLACE, "B", 1): True, (REPLACE, "B", 0): False, (REMOVE, "C", 1): True, (DROP, "A", 0): False, (NEW, "D", 0): True}
        self.assertEqual({case: standing.is_last(Change(*case), wanted) for case in cases}, cases)
        self.assertEqual((standing.seconds_before(Change(REPLACE, "B", 1)), standing.seconds), (7.0, 15.0))
        standing.apply(Change(REMOVE, "A", 1))
        standing.apply(Change(INSERT, "B", 0, "qed"), 50.0)  # It may have run others too.
        self.assertEqual((standing.seconds_before(Change(REPLACE, "B", 1)), standing.seconds), (2.0, 12.0))
        self.assertEqual(standing.changes([], (DROP,)), [Change(DROP, name) for name in "CBA"])

    def test_what_an_import_gave_is_forgotten_when_its_file_is_closed(self):
        workspace = Workspace()
        workspace.open("file:///A.hol", 1, "qed;;")
        importing = workspace.open("file:///B.hol", 1, "qed;; import A;;").file.theory
        of(workspace)
        importing.entries[0].report = importing.entries[1].report = protocol.Made(())
        of(workspace)
        self.assertEqual([entry.report for entry in importing.entries], [protocol.Made(()), protocol.Made(())])
        del workspace.documents["file:///A.hol"]
        of(workspace)
        self.assertEqual([entry.report for entry in importing.entries], [protocol.Made(()), None])

    def test_a_65th_file_is_told_so(self):
        workspace = Workspace()
        for number in range(65):
            workspace.open("file:///F%d.hol" % number, 1, "qed;;")
        self.assertEqual(len(of(workspace)), 64)
        self.assertIn("a server holds 64 theories", workspace.documents["file:///F64.hol"].file.context[0].text)

    def test_a_file_with_more_imports_than_a_server_holds_is_told_so_until_it_has_fewer(self):
        with tempfile.TemporaryDirectory() as folder:
            for number in range(64):
                pathlib.Path(folder, "F%d.hol" % number).write_text("oops;;")
            workspace, imports = Workspace(), ["import F%d;;" % number for number in range(64)]
            document = workspace.open(pathlib.Path(folder, "A.hol").as_uri(), 1, "\n".join(imports))
            self.assertEqual((len(of(workspace)), document.file.is_sent), (64, False))
            self.assertIn("the open files with those that they import are 65", document.file.context[0].text)
            workspace.change(document, 2, [{"text": "\n".join(imports[1:])}])
            self.assertEqual((len(of(workspace)), document.file.is_sent, document.file.context), (64, True, []))


if __name__ == "__main__":
    unittest.main()
