"""`holls repl`: what a line does, when it is whole, what Tab offers; and the prompt in a terminal, where Ctrl-C stops a step alone."""

import os
import pathlib
import pty
import re
import select
import shlex
import shutil
import signal
import subprocess
import tempfile
import time
import unittest

from holls.api import Project, Prover, State
from holls.protocol import Goal
from holls.repl import is_whole
from holls.repl_completion import Completer
from holls.repl_session import Session, Wrong
from holls.repl_show import Show
from tests import forked
from tests.helpers import BUILT, HOLLS, PYTHON, ROOT, SECONDS, fake

PATIENT = 120.0
_COLOURS = re.compile(r"\x1b\[[0-9;?]*[a-zA-Z]")


class Lines(unittest.TestCase):
    def test_a_line_is_whole_where_nothing_is_open_and_no_word_waits(self):
        for text in ("g `p`", "e CONJ_TAC", "e CONJ_TAC;;", "", "b", "e (CONJ_TAC THEN ALL_TAC)", "e THEN;;", "(* a *) qed", "p", "import logic"):
            self.assertTrue(is_whole(text), text)
        for text in ("e CONJ_TAC;", "quit", "#quit;;"):
            self.assertTrue(is_whole(text), text)
        for text in ("g `p /\\", "e CONJ_TAC THEN", "e (CONJ_TAC", "e REWRITE_TAC [A;", "(* a", "e", "g", "e REPEAT", "new_definition D `c =\n"):
            self.assertFalse(is_whole(text), text)


class OverTheFakeServer(unittest.TestCase):
    def setUp(self):
        folder = tempfile.TemporaryDirectory()
        self.addCleanup(folder.cleanup)
        self.folder = pathlib.Path(folder.name)
        self.prover = Prover(fake(self.folder), seconds=PATIENT)
        self.addCleanup(self.prover.close)
        (self.folder / "Base.hol").write_text("new_axiom AX `a`;;\n")
        self.session = Session(self.prover, Project.each(self.prover, str(self.folder)))

    def run_all(self, *lines):
        """What the last of some lines comes to, of which all are accepted."""
        for line in lines:
            told = self.session.run(line)
            self.assertIsNone(told.refused, line)
        return told

    def goals(self):
        """The conclusions of the open goals."""
        return [goal.conclusion for goal in self.session.state.goals]

    def test_the_library_is_found_from_everywhere(self):
        told = self.run_all("import pairs")
        self.assertTrue(told.text.endswith(" names are taken from pairs"), told.text)
        self.assertIn("logic", self.session.theory.project.files)
        with self.assertRaises(Wrong):
            self.session.run("import nothing_of_this_name")
        with self.assertRaises(Wrong) as wrong:
            self.session.run("import pair")
        self.assertEqual(str(wrong.exception), "there is no theory pair; did you mean pairs?")

    def test_a_proof_with_steps_back(self):
        self.run_all("g SPLIT `a = a /\\ b = b`", "e CONJ_TAC")
        self.assertEqual(self.goals(), ["a = a", "b = b"])
        self.run_all("e REFL_TAC", "b")
        self.assertEqual(self.goals(), ["a = a", "b = b"])
        refused = self.session.run("e CONJ_TAC").refused
        self.assertEqual(refused.number, 17)
        self.assertEqual(self.goals(), ["a = a", "b = b"])
        self.run_all("e REFL_TAC", "e REFL_TAC")
        self.assertIn("SPLIT |- a = a /\\ b = b", self.run_all("qed").text)
        self.assertEqual(self.session.theory.text, "\n\ng SPLIT `a = a /\\ b = b`;;\ne CONJ_TAC;;\ne REFL_TAC;;\ne REFL_TAC;;\nqed;;\n".lstrip())
        self.assertIsNone(self.session.state)

    def test_what_hol_light_users_type(self):
        self.run_all("g`a = a /\\ b = b`", "e CONJ_TAC", "b ()", "p()", "e CONJ_TAC", "b()")
        self.assertEqual(self.goals(), ["a = a /\\ b = b"])
        self.run_all("e CONJ_TAC", "e REFL_TAC", "e REFL_TAC")
        self.assertIn("GOAL |- ", self.run_all("top_thm()").text)
        self.assertIn("GOAL2", self.run_all("g `c = c`", "history").text)

    def test_a_theorem_in_one_line_as_hol_light_has_it(self):
        told = self.run_all("prove (`a = a`, REFL_TAC)", "let MINE = prove(`b = b`, REFL_TAC)", "let AX = new_axiom `c`")
        self.assertEqual(told.text, "thm AX |- c")
        with self.assertRaisesRegex(Wrong, "1 goal is left, and no theorem is made; the first one: d = d"):
            self.session.run("let D = prove (`d = d`, ALL_TAC)")
        self.assertEqual(self.session.run("let D = prove (`d = e`, REFL_TAC)").refused.number, 17)
        for line in ("let", "let D", "let D = 3", "let D = prove `d`", "let D = new_axiom"):
            self.assertIsNotNone(self.session.run(line).refused, line)
        self.run_all("g `e = e`", "e REFL_TAC", "let E = top_thm()")
        self.assertEqual([one.name for one in self.session.theory.theorems()], ["GOAL", "MINE", "AX", "E"])
        self.assertEqual(self.session.run("undo").text, "taken back: 7 commands stand")

    def test_undo_opens_the_proof_again_for_another_name(self):
        self.run_all("g `a = a`", "e REFL_TAC", "qed", "undo", "qed MINE")
        self.assertEqual([one.name for one in self.session.theory.theorems()], ["MINE"])
        self.run_all("undo", "oops")
        self.assertEqual(self.session.theory.text.strip(), "")
        with self.assertRaises(Wrong):
            self.session.run("undo")

    def test_commands_outside_of_proofs_and_imports(self):
        self.assertEqual(self.run_all("new_axiom B `b`").text, "thm B |- b")
        self.assertEqual(self.session.run("new_axiom B `b`").refused.number, 10)
        self.run_all("import Base")
        self.assertEqual([one.name for one in self.session.theory.theorems()], ["B", "AX"])
        with self.assertRaisesRegex(Wrong, "no theory Nothing; there are Base, and those of the library"):
            self.session.run("import Nothing")
        self.run_all("g `c = c`", "e ALL_TAC")
        for line in ("import Base", "new_axiom C `c`", "undo", "g `d = d`"):
            with self.assertRaisesRegex(Wrong, "the proof of GOAL is open"):
                self.session.run(line)

    def test_lines_that_are_none(self):
        for line in ("foo", "e REFL_TAC", "b", "qed", "oops", "p", "g", "g a", "g `a", "r x"):
            with self.assertRaises(Wrong):
                self.session.run(line)
        with self.assertRaisesRegex(Wrong, "perhaps save does"):
            self.session.run("sav x")
        self.run_all("g `a = a`")
        for line in ("b 2", "b x", "r 0", "r 99999", "qed 1x", "save"):
            with self.assertRaises(Wrong):
                self.session.run(line)

    def test_save_writes_what_was_accepted_and_over_nothing_else(self):
        path = self.folder / "mine.hol"
        self.run_all("new_axiom B `b`", "g `a = a`", "save " + str(self.folder / "mine"))
        self.assertEqual(path.read_text(), "new_axiom B `b`;;\n")
        self.assertTrue(self.session.is_saved)
        self.run_all("e REFL_TAC", "qed")
        self.assertFalse(self.session.is_saved)
        self.run_all("save " + str(path))
        path.write_text("(* by hand *)\n")
        with self.assertRaisesRegex(Wrong, "something else"):
            self.session.run("save " + str(path))
        self.assertEqual(path.read_text(), "(* by hand *)\n")
        self.run_all("save! " + str(path))
        with self.assertRaises(Wrong):
            self.session.run("save /nowhere/at/all.hol")

    def test_a_file_to_go_on_with(self):
        projects = Project.each(self.prover, str(self.folder))
        session = Session(self.prover, projects, projects[0].files["Base"])
        session.run("g `a = a`")
        session.run("e REFL_TAC")
        session.run("qed A")
        self.assertEqual(session.theory.text, "new_axiom AX `a`;;\n\ng A `a = a`;;\ne REFL_TAC;;\nqed;;\n")
        self.assertEqual(session.theory.name, "Base")

    def test_search_finds_what_stands(self):
        self.run_all("import Base")
        self.assertEqual(self.run_all("search ax").text, "AX |- a")
        self.assertEqual(self.run_all("search nothing").text, "nothing was found")
        with self.assertRaises(Wrong):
            self.session.run("search (_ =")

    def test_completions(self):
        self.run_all("import Base", "new_axiom LONG_NAME `a`")

        def offered(line):
            begin = max(line.rfind(" "), line.rfind("["), line.rfind("(")) + 1
            return Completer(self.session, lambda: (line, begin)).words(line[begin:])

        self.assertIn("qed ", offered("q"))
        self.assertEqual(offered("import B"), ["Base"])
        self.assertEqual(offered("import numer"), ["numerals"])
        self.assertEqual(offered("e REWRITE_TAC [LONG"), ["LONG_NAME"])
        self.assertIn("CONJ_TAC", offered("e CONJ"))
        self.assertIn("CONJ_TAC", offered("e ALL_TAC THEN (CONJ"))
        self.assertEqual(offered("search LONG"), ["LONG_NAME"])
        self.assertEqual(offered("save " + str(self.folder / "Ba")), [str(self.folder / "Base.hol")])
        self.assertEqual(offered("nothing at all"), [])
        completer = Completer(self.session, lambda: 1 / 0)
        self.assertIsNone(completer.complete("x", 0))

    def test_a_refusal_is_shown_with_its_place_and_goals_with_the_first_one_last(self):
        self.run_all("g `a = a /\\ b = b`")
        shown = Show(False).refused(self.session.run("e ALL_TAC2").refused)
        self.assertEqual(shown.splitlines()[:2], ["e ALL_TAC2", "  ^^^^^^^^"])
        self.run_all("e CONJ_TAC")
        self.assertEqual(Show(False).goals(self.session.state), "2 goals, the first one last\n\n`b = b`\n\n`a = a`\n")
        self.assertIn("\x1b[1m`a = a`", Show(True).goals(self.session.state))
        proof = self.session.proof
        many = State(proof, proof.state.path, proof.state.written, tuple(Goal(("p",), (), str(at)) for at in range(20)))
        self.assertIn("15", Show(False).goals(many))
        self.assertIn("  0 [`p`]", Show(False).goals(many))


class AsAProgram(unittest.TestCase):
    def setUp(self):
        folder = tempfile.TemporaryDirectory()
        self.addCleanup(folder.cleanup)
        self.folder = pathlib.Path(folder.name)
        self.environment = dict(os.environ, XDG_STATE_HOME=str(self.folder / "state"), TERM="xterm", HOME=str(self.folder))

    def test_lines_from_a_pipe_and_the_status(self):
        program = fake(self.folder)
        for text, status in (("g `a = a`;; e REFL_TAC;;\nqed A;;\nsave A.hol\n", 0), ("g `a = a`\ne CONJ_TAC\n", 1), ("", 0)):
            done = forked.run("repl", "--server", program, input=text.encode(), cwd=self.folder, env=self.environment)
            self.assertEqual((done.returncode, done.stderr), (status, b""))
            self.assertNotIn(b"\x1b", done.stdout)
        self.assertEqual((self.folder / "A.hol").read_text(), "g A `a = a`;;\ne REFL_TAC;;\nqed;;\n")
        done = forked.run("repl", "none.hol", cwd=self.folder)
        self.assertEqual(done.returncode, 2)

    def test_a_terminal_with_a_step_that_is_stopped(self):
        pid, terminal = pty.fork()
        if not pid:
            os.chdir(self.folder)
            os.execve(PYTHON[0], [*PYTHON, str(HOLLS), "repl", "--server", fake(self.folder)], self.environment)
        self.addCleanup(os.close, terminal)
        self.shown = ""
        self.until(terminal, "# ")
        for line, answer in (("g `loop /\\ b = b`", "`loop /\\ b = b`"), ("e CONJ_TAC", "`loop`"), ("e REFL_TAC", "refused")):
            os.write(terminal, line.encode() + b"\r")
            self.until(terminal, answer)
        os.write(terminal, b"e HANG_TAC\r")
        self.until(terminal, "HANG_TAC")
        time.sleep(0.5)
        os.write(terminal, b"\x03")
        self.until(terminal, "stopped")
        os.write(terminal, b"p\r")
        self.until(terminal, "`loop`")
        os.write(terminal, b"e AL\t\r")
        self.until(terminal, "ALL_TAC")
        os.write(terminal, b"oops\rnew_axiom B `b`\r")
        self.until(terminal, "thm B |- b\r\n# ")
        os.write(terminal, b"\x04")
        self.until(terminal, "not saved yet")
        # (the terminal takes the end of input for itself where the prompt doesn't read yet)
        self.until(terminal, "# ")
        os.write(terminal, b"\x04")
        status = self.ended(pid)
        self.assertEqual(os.waitstatus_to_exitcode(status) if hasattr(os, "waitstatus_to_exitcode") else status >> 8, 0)
        self.assertTrue((self.folder / "state" / "holls" / "history").exists())

    def ended(self, pid):
        """The status of a process, which has to end soon."""
        begun = time.monotonic()
        while time.monotonic() - begun < PATIENT:
            done, status = os.waitpid(pid, os.WNOHANG)
            if done:
                return status
            time.sleep(0.05)
        os.kill(pid, signal.SIGKILL)
        os.waitpid(pid, 0)
        self.fail(f"the prompt doesn't end: {self.shown!r}")

    def until(self, terminal, text):
        """Reads until the terminal shows a text."""
        begun = time.monotonic()
        while text not in _COLOURS.sub("", self.shown):
            self.assertLess(time.monotonic() - begun, PATIENT, self.shown)
            if select.select([terminal], [], [], 1)[0]:
                self.shown += os.read(terminal, 4096).decode("utf-8", "replace")
        shown = _COLOURS.sub("", self.shown)
        self.shown = shown[shown.index(text) + len(text):]


TYPED = (
    ("import arithm\t\n", "names are taken from arithmetic"),
    ("g `!m n p. m + (n + p) = n + (m + p)`;;\n", "`!m n p. m + n + p = n + m + p`"),
    ("e (REPEAT GEN_TAC);;\n", "\n`m + n + p = n + m + p`"),
    ("e (REWRITE_TAC [ADD_ASOC]);;\n", "did you mean ADD_ASSOC?"),
    ("e (MESON_TAC [ADD_ASSOC; ADD_SYM]);;\n", "HOL Light's MESON_TAC isn't here"),
    ("e (REWRITE_TAC [ADD_ASS\t]);;\n", "`(m + n) + p = (n + m) + p`"),
    ("e (SUBST1_TAC (SPECL [`n:num`; `m:num`] ADD_SYM));;\n", "`(m + n) + p = (m + n) + p`"),
    ("b ();;\nb ();;\nb ();;\nprove\n", "no goal is open: qed makes the theorem GOAL"),
    ("let SWAP = top_thm ();;\n", "SWAP |- !m n p. m + n + p = n + m + p\n"),
    ("search [`_ + (_ + _) = _`];;\n", "ADD_ASSOC |- !m n p."),
    ("save mine.hol\n", "mine.hol has "),
    ("#quit;;\n", "it has ended"))
"""What a new user types, and what the screen has to show then."""


class Tmux:
    """A terminal in which a command runs; it says when that has ended."""

    def __init__(self, folder, words):
        self._folder, self._environment = folder, dict(os.environ, HOME=folder, XDG_STATE_HOME=folder, TMUX_TMPDIR=folder)
        self._environment.pop("TMUX", None)
        self.run("new-session", "-d", "-x", "120", "-y", "100", " ".join(map(shlex.quote, words)) + "; echo it has ended; sleep 600")

    def run(self, *words):
        """What tmux answers to a command."""
        words = ["tmux", "-f", os.devnull, *words]
        return subprocess.run(words, env=self._environment, cwd=self._folder, capture_output=True, timeout=SECONDS).stdout.decode()

    def type(self, text):
        """Presses keys, Tab and Enter among them."""
        words = []
        for part in re.findall(r"[^\t\n]+|[\t\n]", text):
            key = {"\t": ["Tab"], "\n": ["Enter"]}.get(part)
            # (a semicolon at the end of a word would end tmux's own command)
            words += ["send-keys", *(key or ["-l", "--", part[:-1] + "\\;" if part.endswith(";") else part]), ";"]
        self.run(*words[:-1])

    def until(self, shown):
        """Waits until the screen shows a text."""
        begun = time.monotonic()
        while shown not in self.run("capture-pane", "-p", "-J"):
            if time.monotonic() - begun > PATIENT:
                raise AssertionError("%r isn't shown: %s" % (shown, self.run("capture-pane", "-p", "-J")))
            time.sleep(0.15)


@unittest.skipUnless(BUILT.exists(), "hol_serve isn't built")
class OverTheProgram(unittest.TestCase):
    def test_a_new_users_first_minutes(self):
        with Prover(str(BUILT), seconds=PATIENT) as prover:
            session = Session(prover, Project.each(prover, str(ROOT / "theories")))
            for line in ("import lists", "g `!l:A list. APPEND l NIL = l`", "e MATCH_MP_TAC LIST_INDUCT THEN BETA_TAC", "e REWRITE_TAC [APPEND_NIL]",
                         "b", "e REWRITE_TAC [APPEND] THEN REPEAT STRIP_TAC", "e ASM_REWRITE_TAC []", "qed APPEND_NIL_AGAIN"):
                told = session.run(line)
                self.assertIsNone(told.refused, line)
            self.assertRegex(told.text, "rests on no axiom of its own and [0-9]+ definitions: basis APPEND_NIL_AGAIN lists them")
            self.assertIn("APPEND_NIL_AGAIN |- ", session.run("search APPEND _ NIL").text)
            self.assertIn("def:APPEND", session.run("basis APPEND_NIL_AGAIN").text)
            session.run("g `p /\\ q ==> q /\\ (p \\/ r)`")
            self.assertIsNone(session.run("e(ALL_TAC THEN ALL_TAC)").refused)
            told = session.run("prove")
            self.assertTrue(told.goals.is_proved, told)
            session.run("qed FOUND")
            self.assertTrue(session.theory.check().is_accepted)
            self.assertEqual(session.run("new_definition D `c = x`").refused.number, 11)
            session.run("g `(!x:A. P x) /\\ Q`")
            session.run("e CONJ_TAC")
            session.run("r 1")
            self.assertEqual(session.state.goal.conclusion, "Q")

    @unittest.skipUnless(shutil.which("tmux"), "tmux isn't installed")
    def test_a_new_user_in_a_terminal_of_tmux(self):
        """What a person types who knows HOL Light, slips, Tab and steps back among it, and what then stands on the screen."""
        folder = tempfile.TemporaryDirectory()
        self.addCleanup(folder.cleanup)
        tmux = Tmux(folder.name, [*PYTHON, str(HOLLS), "repl", "--server", str(BUILT)])
        self.addCleanup(tmux.run, "kill-server")
        tmux.until("Ctrl-D ends.")
        for typed, shown in TYPED:
            tmux.type(typed)
            tmux.until(shown)
        done = forked.run("check", "--server", BUILT, folder.name + "/mine.hol")
        self.assertEqual(done.returncode, 0, done.stdout)
        self.assertIn(b"1 theorem, all accepted", done.stdout)

    def test_packages_stand_at_the_prompt_too(self):
        with Prover(str(BUILT), seconds=PATIENT) as prover, tempfile.TemporaryDirectory() as folder:
            session = Session(prover, Project.each(prover, str(ROOT / "theories"), str(ROOT / "examples" / "theories" / "course")))
            for line in ("import packages", "define DOUBLE `DOUBLE 0 = 0 /\\ DOUBLE (SUC n) = SUC (SUC (DOUBLE n))`", "g A `!n. DOUBLE n = n + n`"):
                told = session.run(line)
                self.assertIsNone(told.refused, line)
                self.assertNotIn("pk_", "".join(told.text) if "import" not in line else "")
            refused = session.run("e INDUCT_ON `zz`").refused
            self.assertIn("zz", refused.sentence)
            refused = session.run("e INDUCT_ON `n` THEN REWRITE_TAC [DUOBLE]").refused
            self.assertEqual((refused.command, refused.sentence), (
                "e INDUCT_ON `n` THEN REWRITE_TAC [DUOBLE]", "no theorem DUOBLE stands before this command; did you mean DOUBLE?"))
            self.assertEqual(refused.command[refused.start:refused.end], "DUOBLE")
            refused = session.run("e DISJ_CASES_TAC (SPEC `n <= n` EXCLUDED_MIDLE);").refused
            self.assertEqual((refused.command[refused.start:refused.end], refused.sentence), (
                "EXCLUDED_MIDLE", "no theorem EXCLUDED_MIDLE stands before this command; did you mean EXCLUDED_MIDDLE?"))
            self.assertIn("gcd_laws has it: import it", session.run("e REWRITE_TAC [GCD_ASSOC]").refused.sentence)
            with self.assertRaises(Wrong):
                session.run("e REWRITE_TAC [GSYM ADD_ASSOC]")
            self.assertIsNone(session.run("e INDUCT_ON `n` THEN REPEAT STRIP_TAC THEN ASM_REWRITE_TAC [DOUBLE; ADD_CLAUSES]").refused)
            self.assertTrue(session.run("qed").text.startswith("A |- !n. DOUBLE n = n + n"))
            self.assertTrue(session.run("save %s/mine" % folder).text.endswith("mine.hol has 5 commands"))
            self.assertEqual(session.run("undo").text, "taken back: 2 commands stand")
            saved = (pathlib.Path(folder) / "mine.hol").read_text()
            self.assertIn("define DOUBLE", saved)
            self.assertIn("\ne INDUCT_ON `n` THEN REPEAT STRIP_TAC THEN ASM_REWRITE_TAC [DOUBLE; ADD_CLAUSES];;\nqed;;\n", saved)


if __name__ == "__main__":
    unittest.main()
