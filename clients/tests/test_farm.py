"""`holls check` for many theories: so many programs at once, what is remembered, and the plan for Ninja, over the fake server."""

import argparse
import io
import json
import math
import os
import pathlib
import resource
import shutil
import subprocess
import tempfile
import time
import unittest
from contextlib import redirect_stdout
from unittest.mock import patch

from holls import check, files, sent
from tests import forked
from tests.helpers import BUILT, HOLLS, PYTHON, ROOT, SECONDS, fake, proofs, slowness


class Farm(unittest.TestCase):
    def setUp(self):
        folder = tempfile.TemporaryDirectory()
        self.addCleanup(folder.cleanup)
        self.folder = pathlib.Path(folder.name)
        self.log = self.folder / "log"
        self.program = fake(self.folder, "--log", self.log)
        self.theories = self.folder / "a folder"
        self.theories.mkdir()

    def write(self, **texts):
        for name, text in texts.items():
            (self.theories / (name + ".hol")).write_text(text)

    def check(self, *words, program=None, environment=None, files=("a folder",)):
        """Status, standard output and standard error."""
        done = forked.run("check", "--server", program or self.program, *words, *files, cwd=self.folder, env=dict(os.environ, **(environment or {})))
        self.assertNotIn(b"Traceback", done.stderr + done.stdout)
        return done.returncode, done.stdout.decode(), done.stderr.decode()

    def asked(self):
        """The theories of which a program was asked for reports since this was asked last."""
        requests = [json.loads(line) for line in self.log.read_text().splitlines()] if self.log.exists() else []
        self.log.unlink() if self.log.exists() else None
        return {request["theory"] for request in requests if request["op"] == "report"}

    def test_a_theory_that_was_accepted_is_not_run_again_until_something_changes(self):
        self.write(A=proofs(2), B="import A;;\n;;\ng B `b = b`;; e REFL_TAC;; qed;;", C="import B;;", D=proofs(1))
        first = self.check("--cache", "kept")
        self.assertEqual(first[0], 0)
        self.assertIn("warning", first[1])
        self.assertEqual(self.asked(), {"A", "B", "C", "D"})
        self.assertEqual(self.check("--cache", "kept"), first)
        self.assertEqual(self.asked(), set())
        self.write(B="import A;;\n;;\ng B `c = c`;; e REFL_TAC;; qed;;")
        self.assertEqual(self.check("--cache", "kept"), first)
        self.assertEqual(self.asked(), {"B", "C"})
        self.write(A=proofs(3))
        self.check("--cache", "kept")
        self.assertEqual(self.asked(), {"A", "B", "C"})
        self.assertEqual(self.check(environment={"HOLLS_CACHE": str(self.folder / "kept")})[0], 0)
        self.assertEqual(self.asked(), set())

    def test_of_what_is_remembered_no_text_is_cut_and_no_quotation_read(self):
        self.write(A="notation num Z I;;\n" + proofs(2), B="import A;;\ng B `0 = 0`;; e REFL_TAC;; qed;;")
        words = argparse.ArgumentParser()
        check.add_words(words)
        given = words.parse_args(["--server", self.program, "--cache", str(self.folder / "kept"), str(self.theories)])
        said, numbers = [], []
        for _ in range(2):
            with patch.object(sent, "Notation", wraps=sent.Notation) as notation, patch.object(files, "cut", wraps=files.cut) as cut:
                with redirect_stdout(io.StringIO()) as output:
                    self.assertEqual(check.main(given), 0)
            said.append(output.getvalue())
            numbers.append((cut.call_count, notation.call_count))
        self.assertEqual(said[1], said[0])
        self.assertEqual(numbers, [(2, 2), (0, 0)])

    def test_a_spoilt_outline_is_made_again(self):
        self.write(A=proofs(1), B="import A;;")
        first = self.check("--cache", "kept")
        outlines = list((self.folder / "kept").glob("*/*.outline"))
        self.assertEqual(len(outlines), 2)
        for text in ("", "[]", "{}", '{"imports": 1, "commands": 2}', '{"imports": [], "commands": "x"}', "\x00"):
            for kept in outlines:
                kept.write_text(text)
            self.assertEqual(self.check("--cache", "kept"), first, text)

    def test_what_is_wrong_is_not_remembered(self):
        self.write(A="g A `p = q`;;\ne REFL_TAC;;\nqed;;\n", B="import A;;", C="g C `c = c`;;\ne REFL_TAC;;\n", D="import Nothing;;")
        first = self.check("--cache", "kept")
        self.assertEqual(first[0], 1)
        self.asked()
        self.assertEqual(self.check("--cache", "kept"), first)
        self.assertEqual(self.asked(), {"A", "C", "D"})

    def test_a_run_that_failed_is_not_remembered(self):
        self.write(A="g A `big = big`;;\ne DIE_TAC;;\ne REFL_TAC;;\nqed;;\n", B=proofs(1))
        first = self.check("--cache", "kept", "--jobs", "1")
        self.assertEqual(first[0], 2)
        self.asked()
        self.assertEqual(self.check("--cache", "kept", "--jobs", "1")[0], 2)
        self.assertIn("A", self.asked())

    def test_no_cache_another_program_and_a_spoilt_memory_run_all(self):
        self.write(A=proofs(1))
        self.assertEqual(self.check("--cache", "kept")[0], 0)
        self.asked()
        self.check("--cache", "kept", "--no-cache")
        self.assertEqual(self.asked(), {"A"})
        other = self.folder / "other"
        other.write_text(pathlib.Path(self.program).read_text() + "# another one\n")
        other.chmod(0o700)
        self.check("--cache", "kept", program=str(other))
        self.assertEqual(self.asked(), {"A"})
        for text in ("", "[]", "{}", '{"bases": 1, "findings": [[1]]}', '{"bases":[],"findings":'):
            for kept in (self.folder / "kept").glob("*/*.json"):
                kept.write_text(text)
            self.assertEqual(self.check("--cache", "kept")[:2], (0, "a folder/A.hol: 4 commands, 1 theorem, all accepted\n"), text)
            self.assertEqual(self.asked(), {"A"}, text)
        self.assertEqual(sorted(path.suffix for path in (self.folder / "kept").glob("*/*")), [".json", ".json", ".outline", ".outline"])

    def test_what_theorems_rest_on_is_remembered_where_it_was_asked(self):
        self.write(A="new_axiom AX `a`;;\n" + proofs(1))
        self.check("--cache", "kept")
        self.asked()
        first = self.check("--cache", "kept", "--axioms")
        self.assertEqual(self.asked(), {"A"})
        self.assertIn("N0 rests on", first[1])
        self.assertEqual(self.check("--cache", "kept", "--axioms"), first)
        self.assertEqual(self.check("--cache", "kept", "--no-axioms")[0], 1)
        self.assertEqual(self.check("--cache", "kept", "--no-axioms", "--allow-axiom", "AX")[0], 0)
        self.assertEqual(self.asked(), set())

    def test_a_folder_that_cannot_be_written_is_told_and_nothing_is_lost(self):
        self.write(A=proofs(1), B=proofs(1))
        (self.folder / "file").write_text("")
        status, output, error = self.check("--cache", "file")
        self.assertEqual((status, output.count("all accepted")), (0, 2))
        self.assertEqual(error.count("nothing can be remembered"), 1)

    def test_so_many_programs_run_at_once(self):
        meeting = self.folder / "meeting"
        meeting.mkdir()
        program = fake(self.folder, "--meet", meeting)
        self.write(A="g A `a = a`;; e MEET_TAC;; e REFL_TAC;; qed;;", B="g B `b = b`;; e MEET_TAC;; e REFL_TAC;; qed;;")
        self.assertEqual(self.check("--jobs", "2", program=program)[0], 0)
        shutil.rmtree(meeting)
        meeting.mkdir()
        status, _, error = self.check("--jobs", "1", "--seconds", "1", program=program)
        self.assertEqual((status, "no answer within 1 second" in error), (2, True))

    def test_the_memory_of_each_program_is_limited(self):
        self.write(A=proofs(1))
        self.assertEqual(self.check("--memory", "4000")[0], 0)
        self.assertEqual(self.check("--memory", "1")[0], 2)
        for words in (("--memory", "0"), ("--jobs", "0"), ("--jobs", "-1")):
            self.assertEqual(self.check(*words)[0], 2)

    def test_alone_says_nothing_of_what_is_imported(self):
        self.write(A=proofs(1), B="import A;;\n" + proofs(0) + "g B `b = b`;; e REFL_TAC;; qed;;")
        self.assertEqual(self.check("--alone", files=["a folder/B.hol"])[:2], (0, "a folder/B.hol: 4 commands, 1 theorem, all accepted\n"))
        self.assertEqual(self.asked(), {"B"})
        self.assertEqual(self.check("--alone")[1].count("all accepted"), 2)

    def test_a_plan_names_what_each_target_depends_on(self):
        self.write(A=proofs(1), B="import A;;", C="import B;;")
        self.assertEqual(self.check("--ninja", "plan.ninja", "--no-axioms", "--allow-axiom", "$AX")[:2], (0, ""))
        lines = (self.folder / "plan.ninja").read_text().splitlines()
        build = next(line for line in lines if line.startswith("build plan.ninja.d/0/C.accepted"))
        self.assertTrue(build.startswith("build plan.ninja.d/0/C.accepted: check a$ folder/C.hol | a$ folder/A.hol a$ folder/B.hol "), build)
        self.assertIn("flags = --no-axioms --allow-axiom '$$AX' --seconds 120", lines)
        self.assertEqual(self.asked(), set())
        self.assertEqual(self.check("--ninja", "nowhere/plan.ninja")[0], 2)
        (self.folder / "a\nb").mkdir()
        (self.folder / "a\nb" / "A.hol").write_text("")
        self.assertEqual(self.check("--ninja", "plan.ninja", files=["a\nb"])[0], 2)

    @unittest.skipUnless(shutil.which("ninja"), "ninja isn't installed")
    def test_ninja_checks_what_changed_and_what_imports_it(self):
        self.write(A=proofs(1), B="import A;;", C="import B;;", D=proofs(1))
        self.assertEqual(self.check("--ninja", "plan.ninja")[0], 0)

        def ninja(*words):
            """The status, and the theories that were checked."""
            begun = time.time()
            done = subprocess.run(["ninja", "-f", "plan.ninja", *words], cwd=self.folder, capture_output=True, timeout=SECONDS)
            while time.time() < begun + 0.05:  # So that a file that is written next is newer for Ninja.
                time.sleep(0.01)
            return done.returncode, self.asked(), done.stdout.decode()

        self.assertEqual(ninja()[:2], (0, {"A", "B", "C", "D"}))
        self.assertEqual(ninja()[1], set())
        self.write(B="import A;;\nimport D;;")
        self.assertEqual(ninja()[:2], (0, {"B", "C"}))
        self.write(D="g D `d = e`;;\ne REFL_TAC;;\nqed;;")
        status, asked, output = ninja("-k", "0")
        self.assertEqual((status, asked), (1, {"B", "C", "D"}))
        self.assertIn("a folder/D.hol:2:3: error: ", output)
        self.write(D=proofs(1))
        self.assertEqual(ninja()[:2], (0, {"D", "B", "C"}))


@unittest.skipUnless(BUILT.exists(), "hol_serve isn't built")
class OverTheProgram(unittest.TestCase):
    def test_the_library_is_recalled_with_the_same_words_within_three_tenths_of_a_second(self):
        """In the seconds of the processor, by the best of some: what else the machine does costs these too."""
        with tempfile.TemporaryDirectory() as folder:
            words = [*PYTHON, str(HOLLS), "check", "--server", str(BUILT), "--no-axioms", "--cache", folder, str(ROOT / "theories")]
            first, _ = self.checked(words)
            wanted, best = 0.3 * slowness(), math.inf
            for _ in range(12):
                output, seconds = self.checked(words)
                self.assertEqual(output, first)
                best = min(best, seconds)
                if best < wanted:
                    break
            self.assertEqual(len(list(pathlib.Path(folder).glob("*/*.json"))), first.count(b"all accepted"))
            self.assertEqual(first.count(b"all accepted"), len(list((ROOT / "theories").glob("*.hol"))))
            self.assertLess(best, wanted)

    def checked(self, words):
        """What a check that finds no fault prints, and the seconds of the processor that it took."""
        before = resource.getrusage(resource.RUSAGE_CHILDREN)
        done = subprocess.run(words, capture_output=True, timeout=SECONDS)
        after = resource.getrusage(resource.RUSAGE_CHILDREN)
        self.assertEqual((done.returncode, done.stderr), (0, b""))
        return done.stdout, after.ru_utime + after.ru_stime - before.ru_utime - before.ru_stime


if __name__ == "__main__":
    unittest.main()
