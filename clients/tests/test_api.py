"""The interface for Python: over the fake server with faults on demand, and over hol_serve with the library where it is built."""

import asyncio
import gc
import os
import pathlib
import subprocess
import sys
import tempfile
import threading
import time
import unittest

from holls.api import BadQuery, Kind, NoServer, ProgramDied, Project, Prover, ProverError, Refused, State, Unknown
from holls.api.channel import Broken, Channel, TooSlow
from holls.api.premises import Ranking, symbols
from holls.protocol import Goal
from tests.helpers import BUILT, CLIENTS, ROOT, fake

THEORIES = str(ROOT / "theories")
PATIENT = 120.0
"""Seconds for a step that is to end by itself, on any machine."""
SOON = 3.0
"""Seconds for one that never ends."""
STEPS = ("GEN_TAC", "CONJ_TAC", "EQ_TAC", "DISCH_TAC", "STRIP_TAC", "REPEAT STRIP_TAC", "REPEAT GEN_TAC THEN EQ_TAC", "REWRITE_TAC []",
         "REPEAT STRIP_TAC THEN ASM_REWRITE_TAC []", "REWRITE_TAC [LENGTH; APPEND]", "REPEAT GEN_TAC THEN REWRITE_TAC [FORALL_SIMP]", "BETA_TAC")
"""What is tried of each goal."""


WORKER = """import sys, time
sys.path.insert(0, sys.argv[1])
from holls.api import Project, Prover
from tests.test_api import STEPS, seconds_of
with Prover(sys.argv[2]) as prover:
    logic = Project(prover, sys.argv[3] + "/logic.hol").theory("logic")
    states = [logic.prove("GOAL", statement).state for statement in list(logic.statements.values())[::8]]
    for line in sys.stdin:
        steps = [step + " " * (8 * int(line) + more) for more in range(4) for step in STEPS]
        own, its = time.process_time(), seconds_of(prover.pids[0])
        count = sum(len(state.apply_all(steps)) for state in states)
        print(count / (time.process_time() - own + seconds_of(prover.pids[0]) - its), flush=True)
"""
"""A program that tries steps whenever it is told so, each time others, and says how many a second of the processor."""


def seconds_of(pid):
    """The processor time of a process of one thread."""
    with open("/proc/%d/schedstat" % pid) as stream:
        return int(stream.read().split()[0]) / 1e9


def open_files():
    """How many files this process has open."""
    return len(os.listdir("/proc/self/fd"))


def is_running(pid):
    """Whether a process of this number runs."""
    try:
        with open("/proc/%d/stat" % pid) as stream:
            return stream.read().rsplit(")", 1)[1].split()[0] != "Z"
    except OSError:
        return False


class OverTheFakeServer(unittest.TestCase):
    def setUp(self):
        folder = tempfile.TemporaryDirectory()
        self.addCleanup(folder.cleanup)
        self.folder = pathlib.Path(folder.name)

    def prover(self, *words, **given):
        """A prover over the fake server with these words."""
        prover = Prover(fake(self.folder, *words), **{"seconds": PATIENT, **given})
        self.addCleanup(prover.close)
        return prover

    def state(self, statement, *words, text="", **given):
        """The state in which the proof of a statement begins, after a text."""
        proof = Project(self.prover(*words, **given)).text(text).prove("GOAL", statement)
        self.assertTrue(proof, proof)
        return proof.state

    def test_steps_lead_from_state_to_state_and_disturb_none(self):
        first = self.state("a = a /\\ b = b")
        split = first.apply("CONJ_TAC")
        self.assertEqual([goal.conclusion for goal in split.goals], ["a = a", "b = b"])
        self.assertEqual([goal.conclusion for goal in first.goals], ["a = a /\\ b = b"])
        one = split.apply("REFL_TAC")
        self.assertFalse(one.is_proved)
        self.assertEqual(one.steps, ("e CONJ_TAC", "e REFL_TAC"))
        refused = split.apply("CONJ_TAC")
        self.assertIsInstance(refused, Refused)
        self.assertFalse(refused)
        both = one.apply("REFL_TAC")
        self.assertTrue(both.is_proved)
        self.assertEqual(split.apply("ALL_TAC").goals, split.goals)
        theorem = both.qed()
        self.assertEqual((theorem.name, theorem.statement), ("GOAL", "a = a /\\ b = b"))
        self.assertEqual(theorem.text, "g GOAL `a = a /\\ b = b`;;\ne CONJ_TAC;;\ne REFL_TAC;;\ne REFL_TAC;;\nqed;;\n")
        self.assertEqual(both.qed("OTHER").text.splitlines()[0], "g OTHER `a = a /\\ b = b`;;")

    def test_equal_states_are_found_by_their_goals(self):
        first = self.state("a = a /\\ b = b")
        split = first.apply("CONJ_TAC")
        self.assertEqual(first, first.apply("ALL_TAC"))
        self.assertEqual(len({first, first.apply("ALL_TAC"), split, split.apply("ALL_TAC")}), 2)

    def test_many_steps_at_once_are_answered_in_their_order(self):
        first = self.state("a = a /\\ b = b")
        answers = first.apply_all(["REFL_TAC", "CONJ_TAC", "NONE_TAC", "ALL_TAC"])
        self.assertEqual([bool(answer) for answer in answers], [False, True, False, True])
        self.assertEqual([answer.steps for answer in answers if answer], [("e CONJ_TAC",), ("e ALL_TAC",)])
        self.assertEqual(first.apply_all([]), [])

    def test_a_refusal_has_its_number_its_place_and_a_sentence(self):
        refused = self.state("a = a").apply("NONE_TAC")
        self.assertEqual((refused.kind, refused.number, refused.argument), (Kind.COMMAND, 6, "NONE_TAC"))
        self.assertEqual(refused.command[refused.start:refused.end], "NONE_TAC")
        self.assertIn("NONE_TAC", str(refused))
        goal = Project(self.prover()).text("").prove("GOAL", "x x")
        self.assertEqual((goal.number, goal.command[goal.start]), (7, "`"))

    def test_a_step_that_takes_too_long_is_a_refusal_and_the_others_are_answered(self):
        first = self.state("loop /\\ b = b", seconds=SOON)
        answers = first.apply_all(["ALL_TAC", "HANG_TAC", "CONJ_TAC"])
        self.assertEqual([bool(answer) for answer in answers], [True, False, True])
        self.assertEqual((answers[1].kind, answers[1].number), (Kind.TIME, 0))
        self.assertIn("3 seconds", str(answers[1]))
        self.assertEqual(len(first.proof.theory.prover.pids), 1)

    def test_a_program_that_dies_is_an_exception_that_names_the_line_and_the_prover_goes_on(self):
        first = self.state("big /\\ b = b")
        with self.assertRaises(ProgramDied) as raised:
            first.apply_all(["ALL_TAC", "DIE_TAC", "CONJ_TAC"])
        self.assertIn('"text":"e DIE_TAC"', raised.exception.line)
        self.assertIn("signal", raised.exception.reason)
        self.assertEqual([type(one) for one in raised.exception.done], [State])
        self.assertEqual(len(first.apply("CONJ_TAC").goals), 2)

    def test_no_memory_is_a_refusal(self):
        first = self.state("big /\\ b = b")
        answers = first.apply_all(["CONJ_TAC", "MEMORY_TAC", "ALL_TAC"])
        self.assertEqual([bool(answer) for answer in answers], [True, False, True])
        self.assertEqual((answers[1].kind, answers[1].number), (Kind.REQUEST, 9))

    def test_a_line_that_is_no_reply_ends_the_program(self):
        with self.assertRaises(ProverError):
            for _ in range(5):
                self.state("a = a", "--fault", "bad:5").apply("ALL_TAC")

    def test_each_fault_at_each_line_leaves_a_prover_that_goes_on(self):
        for kind in ("die", "end", "bad"):
            for at in range(1, 9):
                once = self.folder / ("%s%d" % (kind, at))
                prover = self.prover("--fault", "%s:%d" % (kind, at), "--once", str(once))
                theory = Project(prover).text("new_axiom A `a`;;")
                for _ in range(2):
                    try:
                        answers = theory.prove("GOAL", "a = a").state.apply_all(["ALL_TAC", "REFL_TAC"])
                    except ProverError:
                        self.assertTrue(once.exists())
                        continue
                self.assertEqual([len(answer.goals) for answer in answers], [1, 0], (kind, at))
                prover.close()

    def test_a_deep_branch_and_another_take_turns(self):
        one = other = self.state("a = a /\\ b = b")
        for _ in range(30):
            one, other = one.apply("ALL_TAC"), other.apply("ALL_TAC" if other.steps else "CONJ_TAC")
        self.assertEqual((len(one.goals), len(other.goals)), (1, 2))
        for _ in range(20):
            self.assertEqual(len(one.apply("CONJ_TAC").goals), 2)
            self.assertEqual(len(other.apply("REFL_TAC").goals), 1)

    def test_a_proof_has_as_many_steps_as_a_theory_has_commands(self):
        state = self.state("a = a").follow(["e ALL_TAC"] * 998)
        self.assertEqual(len(state.steps), 998)
        refused = state.apply("REFL_TAC")
        self.assertEqual((refused.kind, refused.number), (Kind.REQUEST, 8))
        self.assertEqual(len(state.apply_all(["REFL_TAC", "ALL_TAC"])), 2)

    def test_states_of_more_statements_than_scratch_theories(self):
        theory = Project(self.prover()).text("new_axiom A `a`;;")
        states = [theory.prove("GOAL", "a%d = a%d" % (at, at)).state for at in range(80)]
        for _ in range(2):
            self.assertTrue(all(state.apply("REFL_TAC").is_proved for state in states))

    def test_threads_share_a_pool_and_each_gets_its_own_answers(self):
        theory = Project(self.prover(processes=3)).text("new_axiom A `a`;;")
        wrong = []

        def work(number):
            state = theory.prove("GOAL", "a%d = a%d /\\ b = b" % (number, number)).state
            for _ in range(20):
                split = state.apply("CONJ_TAC")
                if [goal.conclusion for goal in split.goals] != ["a%d = a%d" % (number, number), "b = b"]:
                    wrong.append(number)

        threads = [threading.Thread(target=work, args=(number,)) for number in range(8)]
        for thread in threads:
            thread.start()
        for thread in threads:
            thread.join()
        self.assertEqual(wrong, [])
        self.assertLessEqual(len(theory.prover.pids), 3)

    def test_a_pool_goes_on_where_one_of_its_programs_dies(self):
        prover = self.prover(processes=2)
        state = Project(prover).text("").prove("GOAL", "big /\\ b = b").state
        died, files = [], open_files()

        def work():
            for _ in range(5):
                try:
                    state.apply("DIE_TAC")
                except ProgramDied as error:
                    died.append(error)

        threads = [threading.Thread(target=work) for _ in range(2)]
        for thread in threads:
            thread.start()
        for thread in threads:
            thread.join()
        self.assertEqual(len(died), 10)
        self.assertEqual(len(state.apply("CONJ_TAC").goals), 2)
        self.assertEqual(len(prover.pids), 1)
        self.assertLessEqual(open_files(), files)

    def test_asyncio_runs_as_many_at_once_as_there_are_programs(self):
        meeting = self.folder / "meeting"
        meeting.mkdir()

        async def both():
            async with Prover(fake(self.folder, "--meet", str(meeting)), processes=2, seconds=PATIENT) as prover:
                theory = Project(prover).text("")
                proofs = [theory.prove("GOAL", "a = a"), theory.prove("OTHER", "b = b")]
                return await asyncio.gather(*(prover.run(proof.state.apply, "MEET_TAC") for proof in proofs))

        self.assertTrue(all(asyncio.run(both())))

    def test_a_closed_prover_says_so_and_leaves_nothing(self):
        files = open_files()
        for _ in range(5):
            with Prover(fake(self.folder), processes=2, seconds=PATIENT) as prover:
                state = Project(prover).text("").prove("GOAL", "a = a").state
                pids = prover.pids
                self.assertTrue(pids)
            self.assertFalse(any(is_running(pid) for pid in pids))
            with self.assertRaises(ProverError):
                state.apply("REFL_TAC")
        self.assertEqual(open_files(), files)

    def test_a_prover_that_is_forgotten_ends_its_programs(self):
        prover = Prover(fake(self.folder), seconds=PATIENT)
        state = Project(prover).text("").prove("GOAL", "a = a").state
        pids = prover.pids
        del prover, state
        gc.collect()
        self.assertFalse(any(is_running(pid) for pid in pids))

    def test_a_program_that_is_none(self):
        with self.assertRaises(NoServer):
            Prover(str(self.folder / "nothing"))
        for program in ("/bin/false", "/bin/cat"):
            with Prover(program, seconds=PATIENT) as prover:
                with self.assertRaises(ProverError):
                    Project(prover).text("new_axiom A `a`;;").prove("GOAL", "a = a")
        with self.assertRaises(ValueError):
            Prover(fake(self.folder), processes=0)

    def test_a_program_that_takes_no_line_and_one_that_writes_too_much(self):
        deaf = Channel(["/bin/sleep", "600"])
        with self.assertRaises(TooSlow):
            list(deaf.exchange([b"x" * 1_000_000], 0.2))
        self.assertFalse(deaf.is_open)
        chatty = Channel(["/bin/sh", "-c", "read line; printf 'one\\ntwo\\n'; cat > /dev/null"])
        with self.assertRaises(Broken):
            list(chatty.exchange([b"ask"], PATIENT))
        self.assertFalse(chatty.is_open)

    def test_more_lines_than_the_pipes_hold_are_all_answered(self):
        echo = Channel(["/bin/cat"])
        lines = [b"%07d" % at + b"x" * 500 for at in range(5000)]
        self.assertEqual(list(echo.exchange(lines, PATIENT)), lines)
        echo.close()


class Ranked(unittest.TestCase):
    def test_symbols_are_those_that_no_binder_has(self):
        self.assertEqual(symbols("!x y. f x = g y /\\ (?z. h z)"), {"f", "=", "g", "/\\", "h"})

    def test_the_rarest_symbol_counts_most(self):
        ranking = Ranking([("A", "!x. f x = x"), ("B", "!x. g x = x"), ("C", "!x. f x = f x"), ("D", "h")], {})
        self.assertEqual(ranking.ranked(Goal((), (), "g a = a"), 1), [1])
        self.assertEqual(len(ranking.ranked(None)), 4)

    def test_what_statements_like_a_goal_have_cited_comes_first(self):
        theorems = [("LEMMA", "odd x"), ("NEAR", "f x = g x"), ("FAR", "h x")] + [("LATER%d" % at, "k x") for at in range(30)]
        ranking = Ranking(theorems, {"NEAR": ["LEMMA", "NOTHING"], "FAR": ["FAR"]})
        self.assertEqual(set(ranking.ranked(Goal((), (), "f a = g b"), 2)), {0, 1})


@unittest.skipUnless(BUILT.exists(), "hol_serve isn't built")
class OverTheProgram(unittest.TestCase):
    @classmethod
    def setUpClass(cls):
        cls.prover = Prover(str(BUILT), seconds=PATIENT)
        cls.project = Project(cls.prover, THEORIES)

    @classmethod
    def tearDownClass(cls):
        cls.prover.close()

    def setUp(self):
        self.lists = self.project.theory("lists")

    def test_a_proof_of_the_library_from_its_statement(self):
        proof = self.lists.proof("LENGTH_APPEND")
        after = proof.state.apply("MATCH_MP_TAC LIST_INDUCT THEN BETA_TAC").apply("REWRITE_TAC [APPEND; LENGTH; ADD; SUC_INJ; FORALL_SIMP]")
        self.assertTrue(after.is_proved)
        theorem = after.qed()
        self.assertEqual(theorem.statement, "!l m. LENGTH (APPEND l m) = add (LENGTH l) (LENGTH m)")
        self.assertEqual(theorem.basis, self.lists.basis("LENGTH_APPEND"))
        self.assertIn("def:APPEND", theorem.basis)

    def test_a_theorem_by_the_name_of_its_constant_is_proved_below_the_definition(self):
        pairs = Project(self.prover, str(ROOT / "theories" / "pairs.hol")).theory("pairs")
        self.assertIn("FST", pairs.statements)
        state = pairs.proof("FST").state
        self.assertEqual(state.goal.free, ())
        self.assertIn("FST_DEF", [one.name for one in state.proof.theory.known])

    def test_a_proof_is_found_as_holls_prove_finds_it(self):
        begun = self.project.text("import logic;;", "Mine").prove("N", "p /\\ q ==> q /\\ (p \\/ r)").state
        found = begun.find(PATIENT)
        self.assertTrue(found.is_proved and found.qed(), found)
        self.assertIs(found.find(), found)
        refused = self.project.text("", "Mine").prove("N", "p ==> q").state.find(2.0)
        self.assertFalse(refused)
        self.assertIn("none found", refused.sentence)
        with self.assertRaises(ProverError):
            begun.find(2.0, ["NO_SUCH_THEOREM"])

    def test_nothing_below_the_place_of_a_proof_may_be_cited(self):
        state = self.lists.proof("LENGTH_APPEND").state
        names = {one.name for one in state.premises()}
        self.assertIn("LENGTH", names)
        self.assertIn("TRUTH", names)
        self.assertNotIn("LENGTH_APPEND", names)
        self.assertNotIn("LENGTH_REVERSE", names)
        self.assertEqual(state.apply("REWRITE_TAC [LENGTH_REVERSE]").number, 5)
        self.assertLess([one.name for one in state.premises()].index("LENGTH"), 20)

    def test_theorems_by_a_pattern(self):
        found = self.lists.theorems("LENGTH (APPEND _ _) = _")
        self.assertEqual([one.name for one in found], ["LENGTH_APPEND"])
        self.assertGreater(len(self.lists.theorems()), 500)
        with self.assertRaises(BadQuery):
            self.lists.theorems("(_ = ")

    def test_goals_have_assumptions_and_free_variables(self):
        theory = self.project.text("")
        state = theory.prove("GOAL", "!x:A. P x ==> (Q:A->bool) x ==> P x").state.apply("REPEAT STRIP_TAC")
        self.assertEqual(state.goal, Goal(("Q x", "P x"), ("P:A->bool", "Q:A->bool", "x:A"), "P x"))
        self.assertEqual(str(state), "  0 [P x]\n  1 [Q x]\n`P x`")

    def test_goals_are_shown_and_steps_are_read_in_notation(self):
        theory = self.project.text("import lists;;")
        state = theory.prove("GOAL", "!l. ?n. LENGTH (l ++ [x:A]) = n + 1").state
        self.assertEqual(str(state), "`!l. ?n. LENGTH (l ++ [x]) = n + 1`")
        self.assertEqual(state.goal.conclusion, "!l. ?n. LENGTH (APPEND l (CONS x NIL)) = add n _1")
        after = state.apply("GEN_TAC THEN EXISTS_TAC `LENGTH (l:A list) + 0`")
        self.assertEqual(after.shown[0].conclusion, "LENGTH (l ++ [x]) = (LENGTH l + 0) + 1")
        self.assertEqual(after.steps, ("e GEN_TAC THEN EXISTS_TAC `LENGTH (l:A list) + 0`",))
        self.assertEqual(state.follow(after.steps), after)
        misread, ill = after.apply_all(["EXISTS_TAC `1 +`", "SUBGOAL_THEN `1 + T = x` ASSUME_TAC"])
        self.assertEqual((misread.kind, misread.number), (Kind.NOTATION, 0))
        self.assertEqual((ill.number, ill.command[ill.start:ill.end]), (7, "`1 + T = x`"))
        self.assertEqual([one.name for one in theory.theorems("LENGTH (_ ++ _) = _")], ["LENGTH_APPEND"])

    def test_declarations_of_notation_are_commands_of_a_theory(self):
        theory = self.project.text(
            "import arithmetic;;\nnew_definition TWICE `twice m n = m + n`;;\ninfixr 30 ** twice;;\ninfixr nonsense;;\ng A `1 ** 1 = x`;;")
        self.assertEqual([type(report).__name__ for report in theory.reports], ["Made", "Made", "Made", "Refused", "Goals"])
        self.assertEqual(theory.reports[3].kind, Kind.NOTATION)
        self.assertTrue(self.project.theory("arithmetic").check().is_accepted)

    def test_goals_take_turns_and_steps_may_have_symbols(self):
        state = self.project.text("").prove("GOAL", "(∀x:A. x = x) ∧ T").state.apply("CONJ_TAC")
        turned = state.rotate()
        self.assertEqual([goal.conclusion for goal in turned.goals], ["T", "!x. x = x"])
        self.assertEqual(turned.steps, ("e CONJ_TAC", "r 1"))
        claimed = state.apply("SUBGOAL_THEN `∃y:A. T` ASSUME_TAC")
        self.assertEqual(claimed.goal.conclusion, "?y. T")
        self.assertTrue(turned.apply("REWRITE_TAC []").apply("GEN_TAC THEN REFL_TAC").qed().script)

    def test_a_theorem_that_was_proved_extends_its_theory(self):
        theory = self.project.text("import logic;;", "Mine")
        theorem = theory.prove("TWICE", "p /\\ p <=> p").state.apply("REWRITE_TAC []").qed()
        longer = theory.extended(*theorem.script)
        self.assertEqual(longer.theorems()[-1].name, "TWICE")
        again = longer.prove("AGAIN", "q /\\ q ==> q").state.apply("REWRITE_TAC [TWICE]").qed()
        checked = longer.extended(*again.script).check()
        self.assertTrue(checked.is_accepted, checked)
        self.assertEqual([one.name for one in checked.theorems], ["TWICE", "AGAIN"])
        self.assertEqual(theory.prove("AGAIN", "q /\\ q ==> q").state.apply("REWRITE_TAC [TWICE]").number, 5)
        self.assertEqual(longer.prove("TWICE", "T").number, 10)

    def test_a_checked_text_has_its_errors_at_their_places(self):
        checked = self.project.text("import sets;;\n\nnew_axiom AX `a:bool`;;\ng A `a:bool`;;\n  e REFL_TAC;;\ne ACCEPT_TAC AX;;\nqed;;").check()
        self.assertFalse(checked.is_accepted)
        self.assertEqual([(one.line, one.column) for one in checked.findings if one.is_error], [(5, 5)])
        self.assertEqual(checked.axioms, ("AX",))
        open_proof = self.project.text("g A `p ==> p`;;").check()
        self.assertFalse(open_proof.is_accepted)
        self.assertFalse(self.project.text("import nothing;;").check().is_accepted)
        self.assertFalse(self.project.text("import lists;;", "logic").check().is_accepted)
        self.assertTrue(self.project.text("(* nothing *)").check().is_accepted)

    def test_the_library_is_accepted_and_knows_who_cites_whom(self):
        self.assertTrue(self.lists.check().is_accepted)
        self.assertEqual(self.lists.cited["LENGTH_APPEND"], ("LIST_INDUCT", "APPEND", "LENGTH", "ADD", "SUC_INJ", "FORALL_SIMP"))
        self.assertIn("FORALL_SIMP", self.lists.cited["ADD_0"])
        self.assertEqual(self.lists.script("LENGTH_APPEND")[-1], "qed")
        self.assertTrue(self.lists.script("FORALL_SIMP")[0].startswith("g FORALL_SIMP `"))
        self.assertEqual((self.lists.script("TRUTH"), self.lists.before("LENGTH_APPEND").script("LENGTH_APPEND")), ((), ()))
        self.assertEqual(self.lists.before("LENGTH_APPEND").commands[-1].text, "qed")

    def test_names_that_are_none(self):
        for call in (lambda: self.project.theory("nothing"), lambda: self.lists.before("NOTHING"), lambda: self.lists.proof("NOTHING"),
                     lambda: Project(self.prover, "/nowhere/at/all.hol")):
            with self.assertRaises(Unknown):
                call()
        self.assertIsNone(self.lists.basis("NOTHING"))

    def test_hostile_text_is_refused_and_nothing_else(self):
        state = self.project.text("").prove("GOAL", "p ==> p").state
        texts = ["", " ", "\n", "\x00", "REFL_TAC\n{\"op\":\"close\"}", "REFL_TAC;;\nqed", "`" * 300, "(" * 5000, "\ud800", "é" * 9000, "x" * 70000,
                 "ALL_TAC (* *)", "\u2028", "ASSUME_TAC (SPEC `" + "~" * 4000 + "p` EXCLUDED_MIDDLE)"]
        for text, answer in zip(texts, state.apply_all(texts)):
            self.assertIsInstance(answer, Refused, text[:20])
            self.assertTrue(answer.sentence)
            self.assertLessEqual(answer.start, answer.end)
        for text in texts:
            self.assertFalse(self.project.text("").prove("GOAL", text), text[:20])
            self.assertFalse(self.project.text("").prove(text, "T"), text[:20])
        self.assertTrue(state.apply("DISCH_TAC"))

    def test_rewriting_that_never_ends_ends_by_its_limit(self):
        with Prover(str(BUILT), turns=100_000, seconds=SOON) as prover:
            theory = Project(prover).text("new_constant f `:A->A`;; new_axiom LOOP `!x:A. f x = f (f x)`;;")
            state = theory.prove("GOAL", "!x:A. f x = x").state
            begun = time.monotonic()
            answers = state.apply_all(["REWRITE_TAC [LOOP]", "GEN_TAC"])
            self.assertIn(answers[0].kind, (Kind.TIME, Kind.COMMAND))
            self.assertTrue(answers[1])
            self.assertLess(time.monotonic() - begun, PATIENT)

    def test_a_limit_on_memory(self):
        with Prover(str(BUILT), memory=64 << 20, seconds=PATIENT) as prover:
            self.assertTrue(Project(prover).text("").prove("GOAL", "p ==> p").state.apply("DISCH_TAC"))
        with Prover(str(BUILT), memory=1 << 20, seconds=PATIENT) as prover:
            with self.assertRaises(ProverError):
                Project(prover).text("").prove("GOAL", "p ==> p")

    def test_ten_thousand_states_leak_nothing_and_a_thousand_fit(self):
        state = self.lists.proof("LENGTH_APPEND").state
        state.apply("ALL_TAC")
        files, pids, before = open_files(), self.prover.pids, self._kilobytes()
        states, waiting = {state}, [state]
        steps = ["EXISTS_TAC `x:A`", "ALL_TAC"] + ["ASSUME_TAC (REFL `v%d:num`)" % at for at in range(40)]
        tried = 0
        while tried < 10_000:
            for after in waiting.pop(0).apply_all(steps):
                tried += 1
                if after and after not in states and len(states) < 1000:
                    states.add(after)
                    waiting.append(after)
        self.assertEqual(len(states), 1000)
        self.assertLess(self._kilobytes() - before, 100_000)
        self.assertEqual((open_files(), self.prover.pids), (files, pids))

    def test_five_thousand_steps_a_second_of_which_python_takes_half_at_most(self):
        """In processor time of Python and the program together, the best of three; each step has another text, so that none is found and not run."""
        statements = list(self.lists.statements.values())
        states = [self.lists.prove("GOAL", statements[at * len(statements) // 12]).state for at in range(12)]
        rates, shares = [], []
        for spaces in range(3):
            steps = [step + " " * (spaces * 8 + more) for more in range(8) for step in STEPS]
            own, its = time.process_time(), self._seconds()
            count = sum(len(state.apply_all(steps)) for state in states)
            own, its = time.process_time() - own, self._seconds() - its
            rates.append(count / (own + its))
            shares.append(own / (own + its))
        self.assertGreaterEqual(max(rates), 5000, (rates, shares))
        self.assertLessEqual(min(shares), 0.5, (rates, shares))

    @unittest.skipIf((os.cpu_count() or 1) < 4, "there are no four processors")
    def test_four_side_by_side_do_three_and_a_half_times_as_much_as_one(self):
        """In processor time, of four processes of Python with a program each: a step of four costs hardly more than one of one alone, the best of some rounds.
        (bench/states.py --four shows it by the clock, where nothing else runs.)"""
        workers = [subprocess.Popen([sys.executable, "-c", WORKER, str(CLIENTS), str(BUILT), THEORIES], stdin=subprocess.PIPE, stdout=subprocess.PIPE)
                   for _ in range(4)]
        for worker in workers:
            self.addCleanup(worker.communicate)
        self._rates(workers, 0)  # So that none is cold.
        times = []
        while len(times) < 6 and max(times, default=0) < 3.5:
            alone, = self._rates(workers[:1], 2 * len(times) + 1)
            times.append(sum(self._rates(workers, 2 * len(times) + 2)) / alone)
        self.assertGreaterEqual(max(times), 3.5, times)

    @staticmethod
    def _rates(workers, number):
        """The steps a second of each, all at once."""
        for worker in workers:
            worker.stdin.write(b"%d\n" % number)
            worker.stdin.flush()
        return [float(worker.stdout.readline()) for worker in workers]

    def _seconds(self):
        """The processor time of the program."""
        return seconds_of(self.prover.pids[0])

    def _kilobytes(self):
        """The memory of this process and of its program."""
        found = 0
        for pid in (os.getpid(),) + self.prover.pids:
            with open("/proc/%d/status" % pid) as stream:
                found += sum(int(line.split()[1]) for line in stream if line.startswith("VmRSS"))
        return found


if __name__ == "__main__":
    unittest.main()
