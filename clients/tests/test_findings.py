"""What is said of a file while its reports come: nothing that a later one takes back, and all of it in the end."""

import json
import random
import time
import unittest

from holls import fixes, graph, protocol
from holls.files import File
from holls.findings import Severity, findings, unknown
from holls.lsp.workspace import Workspace
from holls.sweep import unknown as jobs_of
from tests.fake_server import EDITS, Documents
from tests.helpers import ROOT, proofs
from tests.test_theory import PIECES, Mirror

CORRECT = (
    proofs(3),
    "g A `p /\\ p = p`;;\ne ALL_TAC;;\noops;;\n" + proofs(1),
    "new_constant c `:bool`;;\n" + proofs(2) + "new_axiom AX `c`;;\n",
    "g A `x = x`;; e REFL_TAC;; qed;;\ng B `x = x /\\ y = y`;; e CONJ_TAC;; e REFL_TAC;; e REFL_TAC;; qed;;",
    "(* c *)\n" + proofs(2),
    "g A `x = x`;; oops;;\ng A `x = x`;; oops;;\n" + proofs(1),
    "new_axiom A `p`;;\nnew_axiom B `q`;;\nnew_constant d `:A`;;\n",
    proofs(1) + "g T `a = a`;;\ne ALL_TAC;;\ne ALL_TAC;;\ne ALL_TAC;;\ne REFL_TAC;;\nqed;;\nnew_axiom AX `c`;;\n",
    "g A `p`;;\noops;;\nnew_constant c `:A`;;\ng B `x = x`;;\ne REFL_TAC;;\nqed;;\n",
    proofs(6),
)
WRONG = (
    "g A `p = q`;;\ne REFL_TAC;;\nqed;;\n" + proofs(2),
    "g A `x = x`;;\ne REFL_TAC;;\n" + proofs(1),
    "g A `p /\\ q`;;\ne CONJ_TAC;;\ne FOO_TAC;;\ne REFL_TAC;;\nqed;;\n\ng B `x x`;;\ne CONJ_TAC;;\nqed;;\nqedx;;\noops;;\n",
    "qed;; e ALL_TAC;; g A `x = x`;; e NO_TAC;; e REFL_TAC;; e REFL_TAC;; qed;; qed;;",
    proofs(1) + "g N0 `x = x`;; e REFL_TAC;; qed;;",
    "g A `p`;; e CONJ_TAC;;\nnew_constant c `:A`;;\nnew_axiom B `c`;;\ng C `x = x`;;\ne REFL_TAC;; qed;; qed;;",
    "g A `p`;;\ne f g;; e ALL_TAC;;\nqed;;\ng B `x = x`;; e REFL_TAC;; qed;;\ng C `p`;;",
    "g A `p`;;\nnew_axiom AX `p`;;\nnew_axiom AX `p`;;\ng B `x x`;;\ng C `x x`;;\ne ALL_TAC;;",
    "import none;;\ng A `p = q`;;\ne NO_TAC;;\ne REFL_TAC;;\nqed;;\nimport none;;\ng;;\n",
    "g A `x = x`;; e REFL_TAC;;\ne REFL_TAC;;\nqed;;\ng B `x = x`;; e REFL_TAC;; e REFL_TAC;; qed;;\nqed",
)


def reports(file):
    """The reports on the commands of a file, by their places in the theory."""
    documents = Documents()
    documents.new_theory({"name": file.name, "at": 0})
    for at, entry in enumerate(file.theory.entries):
        documents.insert({"theory": file.name, "at": at, "text": entry.text})
    found = [documents.report({"theory": file.name, "at": at}) for at in range(len(file.theory.entries))]
    return [protocol.reply(json.dumps(report).encode()) for report in found]


def taken(text):
    """A file of a text."""
    file = File("A.hol")
    file.take(text)
    return file


class WhileReportsCome(unittest.TestCase):
    def test_no_finding_goes_away_by_itself(self):
        for number, text in enumerate(CORRECT + WRONG):
            file = taken(text)
            for order in orders(len(file.theory.entries)):
                with self.subTest(number=number, order=order):
                    self.walk(file, reports(file), order, is_correct=number < len(CORRECT))

    def walk(self, file, told, order, is_correct):
        for entry in file.theory.entries:
            entry.report = None
        before = findings(file)
        for at in order:
            if not file.theory.entries[at].is_hidden:
                file.theory.entries[at].report = told[at]
            now = findings(file)
            self.assertEqual([finding for finding in before if finding not in now], [], "gone when %d came" % at)
            before = now
        self.assertEqual(any(finding.severity == Severity.ERROR or finding.is_open for finding in before), not is_correct)
        self.assertEqual(unknown(file), [])

    def test_nor_in_whatever_order_files_edits_and_reports_come(self):
        """Files that import one another, right and wrong ones, opened and edited in any order: after each report all that was said still is."""
        for seed in range(12):
            source, workspace, mirror = random.Random(seed), Workspace(), Mirror(EDITS)
            documents = {}
            for step in range(30):
                self.act(source, workspace, documents)
                files = [file for group in workspace.groups().values() for file in group]
                mirror.bring([file.theory for file in files])
                self.hear(source, mirror, files, (seed, step))

    def act(self, source, workspace, documents):
        """Opens a file, closes one, or edits one."""
        name = source.choice("ABC")
        uri = "file:///%s.hol" % name
        if uri not in documents:
            imports = "".join("import %s;;\n" % other for other in "ABC" if other < name and source.random() < 0.7)
            documents[uri] = workspace.open(uri, 1, imports + source.choice(CORRECT + WRONG).replace("N", name))
        elif source.random() < 0.1:
            del workspace.documents[uri], documents[uri]
        else:
            lines = documents[uri].file.lines
            places = sorted(source.randrange(len(lines.text) + 1) for _ in range(2))
            start, end = (dict(zip(("line", "character"), lines.utf16(place))) for place in (places[0], source.choice(places)))
            workspace.change(documents[uri], 1, [{"range": {"start": start, "end": end}, "text": source.choice(PIECES)}])

    def hear(self, source, mirror, files, when):
        """Takes reports one after the other, in any order in which they may come."""
        before = [findings(file) for file in files]
        while True:
            jobs = [job for file in files for job in jobs_of(file.theory, range(len(file.theory.entries)))]
            if not jobs:
                break
            theory, at = source.choice(jobs)
            theory.entries[at].report = mirror.report(theory, at)
            theory.settle()
            now = [findings(file) for file in files]
            for file, were, are in zip(files, before, now):
                self.assertEqual([finding for finding in were if finding not in are], [], (when, file.name, theory.name, at))
            before = now
        self.assertTrue(all(unknown(file) == [] for file in files), when)

    def test_the_programs_own_reports_on_the_examples_give_no_finding_at_any_time(self):
        for name in ("connectives", "maps", "pair_type", "group_axioms"):
            folder = ROOT / "examples" / "theories"
            file = taken((folder / (name + ".hol")).read_text(encoding="utf-8"))
            lines = (folder / (name + ".replies")).read_text(encoding="utf-8").splitlines()
            sent = [number for number in range(len(file.commands)) if not file.is_declaration(number)]
            replies = [line for line in lines if line.startswith("{")][:len(sent)]
            self.assertEqual(len(replies), len(sent))
            for order in orders(len(replies), 1):
                for entry in file.theory.entries:
                    entry.report = None
                for at in order:
                    file.entry(sent[at]).report = protocol.reply(replies[at].encode())
                    self.assertEqual(findings(file), [], (name, sent[at]))

    def test_what_is_not_known_is_told_apart(self):
        file = taken(proofs(1))
        self.assertEqual(unknown(file), [(0, file.commands[3].end, False)])
        file.entry(1).report = protocol.Made(())
        file.entry(2).is_slow = True
        places = [(command.start, command.end) for command in file.commands]
        self.assertEqual(unknown(file), [places[0] + (False,), places[2] + (True,), places[3] + (False,)])


class WhereLittleIsKnown(unittest.TestCase):
    """What follows from a command of which nothing is known, or that isn't sent, isn't told as an error."""

    def said(self, file):
        return [(file.lines.line(finding.start) + 1, finding.text.split(":")[0]) for finding in findings(file)]

    def test_behind_a_command_that_was_lost(self):
        file = taken("g A `x = x`;;\ne REFL_TAC;;\nqed;;\ng B `x = x`;;\ne REFL_TAC;;\nqed;;\n")
        for entry, report in zip(file.theory.entries, reports(file)):
            entry.report = report
        file.entry(2).report = protocol.Lost("hol_serve ended")
        self.assertEqual(self.said(file), [(3, "nothing is known of this command")])

    def test_behind_a_command_that_is_too_long_to_be_sent(self):
        file = taken("g A `%s`;;\ne REFL_TAC;;\nqed;;\ng B `p = q`;;\ne REFL_TAC;;\n" % ("x" * protocol.LINE_BYTES))
        for entry, report in zip(file.theory.entries, reports(file)):
            entry.report = report
        self.assertEqual(self.said(file), [(1, "this command is too long"), (5, "REFL_TAC doesn't fit the first goal")])

    def test_behind_the_last_command_that_is_sent(self):
        file = taken(proofs(249) + "g A `x = x`;;\n" + "e ALL_TAC;;\n" * 5 + "e REFL_TAC;;\nqed;;\n")
        self.assertEqual(len(file.theory.entries), 1000)
        for entry, report in zip(file.theory.entries, reports(file)):
            entry.report = report
        self.assertEqual(self.said(file), [(1250, "a theory has at most 1000 commands")])


class OneFailureHidesNoOther(unittest.TestCase):
    def said(self, text):
        file = taken(text)
        for entry, report in zip(file.theory.entries, reports(file)):
            entry.report = report
        return [(file.lines.line(finding.start) + 1, finding.severity.name, finding.text) for finding in findings(file)]

    def test_a_failed_proof_is_ended_before_whatever_cannot_stand_in_it(self):
        said = self.said("g A `p = q`;;\ne REFL_TAC;;\nqed;;\nnew_constant c `:A`;;\ng B `p = q`;;\ne REFL_TAC;;\nnew_axiom AX `c`;;\nnew_axiom AX `c`;;")
        self.assertEqual([found[:2] for found in said], [(2, "ERROR"), (3, "NOTE"), (6, "ERROR"), (8, "ERROR")])

    def test_what_follows_a_syntax_error_in_a_step_is_a_note(self):
        said = self.said("g A `x = x`;;\nqed x;;\nqed;;\n")
        self.assertEqual([found[:2] for found in said], [(2, "ERROR"), (3, "NOTE")])
        self.assertIn("(after the error on line 2)", said[1][2])

    def test_a_name_that_is_no_function_is_an_error_wherever_it_stands(self):
        said = self.said("g A `x = x`;;\ne FOO_TAC;;\ne BAR_TAC;;\ne CONJ_TAC;;\n")
        self.assertEqual([found[:2] for found in said], [(2, "ERROR"), (3, "ERROR"), (4, "NOTE")])


class MisspeltNames(unittest.TestCase):
    """The name that was meant stands in the message, where one that stands above is like it."""

    LIBRARY = "new_type list 1;;\nnew_constant length `:(A)list->num`;;\nnew_axiom LENGTH_ONE `p`;;\ndeftac SPLIT_TAC CONJ_TAC;;\n"

    def said(self, command, refusal):
        library, file = File("L.hol"), File("A.hol")
        library.take(self.LIBRARY)
        file.take("import L;;\nnew_axiom OWN_RULE `p`;;\n%s;;\nnew_axiom LATER_RULE `p`;;" % command)
        graph.share_notation([library, file])
        for entry in file.theory.entries:
            entry.report = protocol.Made(())
        file.entry(2).report = refusal
        return findings(file)[0].text

    def test_of_theorems_and_functions_on_goals(self):
        for name, meant in (("LENGHT_ONE", "LENGTH_ONE"), ("length_one", "LENGTH_ONE"), ("OWNRULE", "OWN_RULE"), ("OWN_RULES", "OWN_RULE"),
                            ("EQ_IMPP", None), ("LATER_RULES", None), ("SELECT_A", "SELECT_AX")):
            text = self.said("e ACCEPT_TAC %s" % name, protocol.Refusal(protocol.UNKNOWN_THEOREM, name, "unknown theorem"))
            self.assertEqual(text, "no theorem %s stands before this command%s" % (name, "; did you mean %s?" % meant if meant else ""))
        text = self.said("e SPLT_TAC", protocol.Refusal(protocol.UNKNOWN_TAC, "SPLT_TAC", "unknown function"))
        self.assertIn("; did you mean SPLIT_TAC?", text)
        self.assertEqual(text.count("did you mean"), 1)

    def test_of_constants_and_types(self):
        untypable = protocol.Refusal(protocol.UNTYPABLE, "4", "untypable")
        for term, meant in (("lengthh x = T", "; no constant `lengthh`: did you mean `length`?"), ("lenght = T", "; no constant `lenght`: did you mean `length`?"),
                            ("T = (x:(A)lst)", "; no type `lst`: did you mean `list`?"), ("length = T", ""), ("le = T", ""),
                            ("!lengthh. lengthh T", ""), ("T T", "")):
            text = self.said("g B `%s`" % term, untypable)
            self.assertEqual(text[text.index("no function") + len("no function"):], meant, term)
        text = self.said("new_definition D `d x = lengthh x`", protocol.Refusal(protocol.NOT_CLOSED, "lengthh", "not closed"))
        self.assertIn("or did you mean the constant length?", text)

    def test_a_name_that_an_import_has_says_which(self):
        for command, argument, words in (("g LENGTH_ONE `p`", "thm:LENGTH_ONE", "the theorem LENGTH_ONE stands already: choose another name (it is L's)"),
                                         ("new_constant length `:A`", "const:length", "the constant length stands already: choose another name (it is L's)"),
                                         ("new_type bool 0", "type:bool", "the type bool stands already: choose another name (it is the prelude's)"),
                                         ("g OWN_RULE `p`", "thm:OWN_RULE", "the theorem OWN_RULE stands already: choose another name (it is named on line 2)")):
            self.assertEqual(self.said(command, protocol.Refusal(protocol.NAME_TAKEN, argument, "name taken")), words)

    def test_a_name_that_another_theory_has_says_which_and_its_import_is_offered(self):
        file = File("A.hol")
        file.take("import one;;\ng A `p`;;\ne REWRITE_TAC [ADD_SYM];;\ne NUM_REDUCE_TAC;;\ne ACCEPT_TAC FORALL_ONE;;\n")
        file.neighbours = lambda: [str(ROOT / "theories" / name) for name in ("arithmetic.hol", "numerals.hol", "one.hol", "no_such_file.hol")]
        library = File(str(ROOT / "theories" / "one.hol"))
        library.take("g FORALL_ONE `p`;;")
        graph.share_notation([library, file])
        for entry, report in zip(file.theory.entries, (protocol.Made(()), protocol.Goals(()), protocol.Refusal(protocol.UNKNOWN_THEOREM, "ADD_SYM", ""),
                                                       protocol.Refusal(protocol.UNKNOWN_TAC, "NUM_REDUCE_TAC", ""),
                                                       protocol.Refusal(protocol.UNKNOWN_THEOREM, "FORALL_ONE", ""))):
            entry.report = report
        found = [one for one in findings(file) if one.refusal is not None]
        self.assertEqual([one.text.split("(")[0].strip() for one in found], [
            "no theorem ADD_SYM stands before this command; arithmetic has it: import it",
            "there is no tactic NUM_REDUCE_TAC; numerals has it: import it", "no theorem FORALL_ONE stands before this command"])
        self.assertEqual([[one.title for one in fixes.fixes(one, file, [file], [file])][:1] for one in found[:2]], [
            ["Import arithmetic, which makes ADD_SYM"], ["Import numerals, which makes NUM_REDUCE_TAC"]])

    def test_hostile_names_take_no_time(self):
        names = ["length%s" % ("x" * 500)] + ["lengt%s" % letter for letter in "abcdefgijklmnopqrstuvwxyz"] * 100
        begun = time.process_time()
        self.said("g B `T T %s`" % " ".join(names), protocol.Refusal(protocol.UNTYPABLE, "4", "untypable"))
        self.assertLess(time.process_time() - begun, 5)


def orders(number, more=8):
    """Orders in which reports may come: that of the file, backwards, and others."""
    source = random.Random(3)
    yield list(range(number))
    yield list(reversed(range(number)))
    for _ in range(more):
        order = list(range(number))
        source.shuffle(order)
        yield order


if __name__ == "__main__":
    unittest.main()
