"""`holls check` as a program, over the fake server and over the real one where it is built."""

import json
import os
import pathlib
import pty
import subprocess
import tempfile
import threading
import time
import unittest

from holls import checking, graph, session
from holls.files import File
from tests import forked
from tests.helpers import BUILT, CLIENTS, HOLLS, PYTHON, ROOT, SECONDS, fake, proofs


class Checking(unittest.TestCase):
    def setUp(self):
        folder = tempfile.TemporaryDirectory()
        self.addCleanup(folder.cleanup)
        self.folder = pathlib.Path(folder.name)

    def check(self, files, *words, server=(), anew=()):
        """Status, standard output and standard error over files of these contents; of a Python that is started anew with some words where these are given."""
        for name, content in files.items():
            (self.folder / name).write_bytes(content if isinstance(content, bytes) else content.encode())
        words = ["check", "--server", fake(self.folder, *server), *words, *files]
        done = (subprocess.run([*PYTHON, *anew, *words], cwd=self.folder, capture_output=True, timeout=SECONDS) if anew
                else forked.run(*words, cwd=self.folder))
        self.assertNotIn(b"Traceback", done.stderr + done.stdout)
        return done.returncode, done.stdout.decode(), done.stderr.decode()

    def test_status_0_where_all_is_proved(self):
        status, output, _ = self.check({"A.hol": proofs(3)})
        self.assertEqual((status, output), (0, "A.hol: 12 commands, 3 theorems, all accepted\n"))

    def test_says_line_and_column_of_the_first_error_and_keeps_what_follows_apart(self):
        status, output, _ = self.check({"A.hol": "g A `p = q`;;\n  e REFL_TAC;;\nqed;;\n\ng B `x = x`;;\ne REFL_TAC;;\nqed;;\n"})
        self.assertEqual(status, 1)
        lines = output.splitlines()
        self.assertTrue(lines[0].startswith("A.hol:2:5: error: REFL_TAC doesn't fit the first goal"))
        self.assertTrue(lines[1].startswith("A.hol:3:1: note: "))
        self.assertEqual(lines[2:], ["A.hol: 6 commands, 1 theorem, 1 error"])

    def test_an_open_proof_is_an_error(self):
        status, output, _ = self.check({"A.hol": "g A `x = x`;;\ne REFL_TAC;;\n"})
        self.assertEqual((status, output.splitlines()[0]), (1, "A.hol:1:1: error: the proof of A isn't ended yet: add qed;; or oops;;"))

    def test_a_forgotten_qed_is_told_at_the_next_goal(self):
        status, output, _ = self.check({"A.hol": "g A `x = x`;;\ne REFL_TAC;;\ng B `x = x`;; e REFL_TAC;; qed;;\n"})
        self.assertEqual(status, 1)
        self.assertIn("A.hol:3:1: error: a proof was open before this: that of A, from line 1; end it by qed;;", output)

    def test_a_name_twice_a_syntax_error_and_the_places_behind_symbols(self):
        status, output, _ = self.check({"A.hol": proofs(1) + "g N0 `x = x`;;\n∀;; qedx;;"})
        self.assertEqual(status, 1)
        self.assertIn("A.hol:6:3: error: the theorem N0 stands already", output)
        self.assertIn("A.hol:7:5: error: `qedx` begins no command", output)

    def test_no_utf8_unclosed_comments_bad_names(self):
        status, output, _ = self.check({"A.hol": b"qed;;\n\xff;;", "B.hol": "(* open\nqed;;", "1C.hol": "qed;;"})
        self.assertEqual(status, 1)
        self.assertIn("A.hol:2:1: error: the file is no UTF-8 from here on (byte 0xff)", output)
        self.assertIn("B.hol:1:1: error: this comment is never closed", output)
        self.assertIn("1C.hol:1:1: error: the file's name without .hol is the theory's", output)

    def test_too_long_and_too_many_commands_are_told_and_the_rest_is_checked(self):
        long = "g L `" + "x" * 70_000 + "`;;\n"
        status, output, _ = self.check({"A.hol": long + proofs(1), "B.hol": proofs(251)})
        self.assertEqual(status, 1)
        self.assertIn("A.hol:1:1: error: this command is too long", output)
        self.assertIn("A.hol: 5 commands, 1 theorem, 1 error", output)
        self.assertIn("B.hol:1251:1: error: a theory has at most 1000 commands", output)

    def test_no_file_no_server_bad_words_are_status_2(self):
        self.assertEqual(self.check({}, "none.hol")[0], 2)
        self.assertEqual(self.check({}, "--what", "a.hol")[0], 2)
        status, _, errors = self.check({"A.hol": "qed;;"}, "--server", "/nowhere/hol_serve")
        self.assertEqual((status, "no program is at /nowhere/hol_serve" in errors), (2, True))

    def test_a_server_that_ends_or_says_nonsense_is_status_2_with_a_line(self):
        for fault in ("die:3", "end:3", "bad:3", "end:6", "memory:2"):
            with self.subTest(fault):
                status, _, errors = self.check({"A.hol": proofs(1)}, server=("--fault", fault))
                self.assertEqual(status, 0 if fault == "memory:2" else 2)
                self.assertEqual(errors.count("\n"), 0 if fault == "memory:2" else 1)

    def test_a_server_that_ends_once_is_started_again(self):
        for fault in ("die:3", "end:7", "bad:2"):
            with self.subTest(fault):
                once = self.folder / fault.replace(":", "_")
                status, output, _ = self.check({"A.hol": proofs(2)}, server=("--fault", fault, "--once", str(once)))
                self.assertEqual((status, output), (0, "A.hol: 8 commands, 2 theorems, all accepted\n"))

    def test_a_program_that_hangs_as_it_starts_is_status_2_soon(self):
        """With a fifth of the time that a start has at least: the test takes it twice."""
        self.assertEqual(session.START_SECONDS, 10)
        hasty = "import sys; sys.path.insert(0, %r); from holls import __main__, session; session.START_SECONDS = 2; sys.exit(__main__.run())"
        begun = time.monotonic()
        status, _, errors = self.check({"A.hol": proofs(1)}, "--seconds", "1", server=("--fault", "hang:1"), anew=("-c", hasty % str(CLIENTS)))
        self.assertEqual((status, errors), (2, "holls: hol_serve gave no answer within 2 seconds, and again when it was started anew\n"))
        self.assertLess(time.monotonic() - begun, 90)

    def test_a_command_that_runs_too_long_is_status_2_and_the_rest_is_checked(self):
        text = "g A `loop = loop`;;\ne HANG_TAC;;\ne REFL_TAC;;\nqed;;\n" + proofs(1) + "g B `p = q`;;\ne REFL_TAC;;\n"
        status, output, errors = self.check({"A.hol": text, "B.hol": "import A;;\n" + proofs(1).replace("N0", "M")}, "--seconds", "6")
        self.assertEqual((status, errors), (2, (
            "holls: A.hol:2: nothing is known of this command: hol_serve gave no answer within 6 seconds\n")))
        self.assertIn("A.hol:11:3: error: REFL_TAC doesn't fit the first goal", output)
        self.assertIn("B.hol: 5 commands, 1 theorem, all accepted\n", output)

    def test_a_command_that_ends_the_program_or_its_memory_is_status_2_and_the_rest_is_checked(self):
        for name, reason in (("DIE_TAC", "was ended by signal 6"), ("MEMORY_TAC", "had no memory for it")):
            with self.subTest(name):
                status, output, errors = self.check({"A.hol": "g A `big = big`;;\ne %s;;\ne REFL_TAC;;\nqed;;\n" % name + proofs(1)})
                told = "nothing is known of this command: hol_serve " + reason
                self.assertEqual((status, errors), (2, "holls: A.hol:2: %s\n" % told))
                self.assertEqual(output.splitlines(), [
                    "A.hol:2:1: warning: " + told, "A.hol: 8 commands, 2 theorems, not checked to the end"])

    def test_files_are_checked_after_those_that_they_import(self):
        files = {"B.hol": "import A;; " + proofs(1).replace("N0", "M"), "A.hol": proofs(1)}
        status, output, _ = self.check(files, server=())
        self.assertEqual((status, output.splitlines()[0]), (0, "A.hol: 4 commands, 1 theorem, all accepted"))
        status, output, _ = self.check({"B.hol": "import C;;", "C.hol": "import B;;"}, server=())
        self.assertEqual((status, output.count("imports go in a circle here: B imports C imports B") == 2), (1, True))

    def test_an_import_circle_is_told_once_at_each_import_and_nothing_is_taken_from_it(self):
        circle = "imports go in a circle here: A imports B imports A; take one of them out"
        for order in ("AB", "BA"):
            files = {name + ".hol": "import %s;;\n" % other * 3 + proofs(1) + "import D;;\n" for name, other in zip(order, order[::-1])}
            files["D.hol"] = proofs(1).replace("N0", "M")
            files["C.hol"] = "import A;;\nimport C;;\nimport NO;; import NO;;\n"
            status, output, errors = self.check(files)
            lines = output.splitlines()
            for name in "AB":
                self.assertEqual([line for line in lines if line.startswith(name)], (
                    ["%s.hol:%d:1: error: %s" % (name, line, circle) for line in (1, 2, 3)] + ["%s.hol: 8 commands, 1 theorem, 3 errors" % name]))
            self.assertEqual([line.split("; ")[0].split(" in ")[0] for line in lines if line.startswith("C")], [
                "C.hol:2:1: error: imports go", "C.hol:3:1: error: there is no file NO.hol", "C.hol:3:13: error: there is no file NO.hol",
                "C.hol: 4 commands, 0 theorems, 3 errors"])
            self.assertEqual((status, errors), (1, ""))

    def test_as_github_shows_it(self):
        (self.folder / "a%,b").mkdir()
        files = {"a%,b/A.hol": "g A `p = q`;;\n  e REFL_TAC;;\nqed;;\n", "B.hol": proofs(1)}
        status, output, _ = self.check(files, "--format", "github")
        lines = output.splitlines()
        self.assertEqual(status, 1)
        self.assertRegex(lines[0], r"\A::error file=a%25%2Cb/A\.hol,line=2,col=5,endLine=2,endColumn=13::REFL_TAC ")
        self.assertTrue(lines[1].startswith("::notice file=a%25%2Cb/A.hol,line=3,col=1,"), lines[1])
        self.assertEqual(lines[2:], [
            "a%,b/A.hol: 3 commands, 0 theorems, 1 error", "B.hol: 4 commands, 1 theorem, all accepted",
            "in all: 2 files, 7 commands, 1 theorem, 1 error"])
        told = self.check(files, "--format", "github", "--quiet")[1].splitlines()
        self.assertEqual(told, lines[:3])

    def test_json_and_axioms(self):
        status, output, _ = self.check({"A.hol": proofs(1)}, "--json", "--axioms")
        self.assertEqual([json.loads(line) for line in output.splitlines()], [
            {"file": "A.hol", "line": 4, "theorem": "N0", "items": []},
            {"file": "A.hol", "commands": 4, "theorems": 1, "axioms": 0, "errors": 0}])
        status, _, errors = self.check({"A.hol": proofs(1)}, "--axioms", server=("--fault", "end:10"))
        self.assertEqual((status, errors), (2, "holls: A.hol:4: on what N0 rests isn't known: hol_serve ended, or had no memory\n"))


    def test_the_keys_of_json_are_those_that_the_page_names(self):
        files = {"A.hol": "new_axiom AX `p`;;\ng B `p = q`;;\ne REFL_TAC;;\n" + proofs(1)}
        page = (ROOT / "docs" / "EDITORS.md").read_text()
        _, output, _ = self.check(files, "--json", "--axioms")
        found = {" ".join("`%s`" % key for key in json.loads(line)) for line in output.splitlines()}
        self.assertEqual([len(found)] + [page.count("\n| %s |" % keys) for keys in found], [3, 1, 1, 1])
        first = json.loads(output.splitlines()[0])
        self.assertEqual([first[key] for key in ("line", "column", "end_line", "end_column", "severity")], [3, 3, 3, 11, "error"])

    def test_65_files_that_hang_together_are_too_many(self):
        files = {"F%02d.hol" % number: "import F%02d;;" % (number - 1) if number else "new_axiom AX `p`;;" for number in range(65)}
        status, output, errors = self.check(files)
        self.assertEqual((status, errors, output.count("all accepted")), (
            2, "holls: F64.hol hangs together with 65 files by imports, and a server holds 64 theories\n", 64))

    def test_no_axioms_is_an_error_where_a_theorem_rests_on_one_that_is_not_allowed(self):
        files = {"A.hol": "new_axiom AX `p`;;\nnew_axiom BX `q`;;\n" + proofs(1)}
        self.assertEqual(self.check(files)[0], 0)
        status, output, _ = self.check(files, "--no-axioms", "--allow-axiom", "AX")
        self.assertEqual((status, output.splitlines()), (1, [
            "A.hol:2:1: error: BX rests on the axiom BX", "A.hol: 6 commands, 1 theorem, 2 axioms, 1 error"]))
        self.assertEqual(self.check(files, "--no-axioms", "--allow-axiom", "AX", "--allow-axiom", "BX")[0], 0)
        for words in (["AX"], ["SELECT_AX"], ["NOSUCH"], ["ax", "N0", "ax"]):
            _, _, errors = self.check(files, "--no-axioms", *("--allow-axiom=" + word for word in words))
            wrong = [word for word in dict.fromkeys(words) if "AX" not in word]
            self.assertEqual(errors.splitlines(), [
                "holls: warning: --allow-axiom %s lets nothing pass: none of these files has an axiom of that name" % word for word in wrong])
        status, output, _ = self.check(files, "--no-axioms", "--json")
        self.assertEqual((status, json.loads(output.splitlines()[1])["text"]), (1, "BX rests on the axiom BX"))

    def test_a_folder_is_checked_with_those_below_it_each_project_for_itself(self):
        for folder in ("one", "two/deep"):
            (self.folder / folder).mkdir(parents=True)
            (self.folder / folder / "A.hol").write_text(proofs(1))
        (self.folder / "two" / "hol-project.json").write_text("{}")
        (self.folder / "two" / "B.hol").write_text("import A;;\n" + proofs(1).replace("N0", "M"))
        program = fake(self.folder)
        done = forked.run("check", "--server", program, ".", cwd=self.folder)
        self.assertEqual((done.returncode, done.stdout.decode().splitlines()), (0, [
            "./one/A.hol: 4 commands, 1 theorem, all accepted", "./two/deep/A.hol: 4 commands, 1 theorem, all accepted",
            "./two/B.hol: 5 commands, 1 theorem, all accepted", "in all: 3 files, 13 commands, 3 theorems, 0 errors"]))
        done = forked.run("check", "--quiet", "--server", program, ".", cwd=self.folder)
        self.assertEqual((done.returncode, done.stdout), (0, b""))

    def check_of(self, *paths):
        """Status and lines over paths in the folder."""
        done = forked.run("check", "--server", fake(self.folder), *paths, cwd=self.folder)
        return done.returncode, [line for line in done.stdout.decode().splitlines() if not line.startswith("in all: ")]

    def put(self, files):
        for name, text in files.items():
            (self.folder / name).parent.mkdir(parents=True, exist_ok=True)
            (self.folder / name).write_text(text)

    def test_what_a_file_may_import_depends_on_its_place_and_not_on_what_else_is_checked(self):
        self.put({"proj/hol-project.json": '{"folders": ["x"]}', "proj/x/a.hol": "import b;;", "proj/x/deep/c.hol": "import a;;", "proj/y/b.hol": proofs(1),
                  "proj/y/d.hol": "import b;;", "proj/y/e.hol": "import c;;", "proj/x/.old/b.hol": proofs(1), "proj/b.hol": proofs(1)})
        folder = self.folder.resolve() / "proj"
        wrong = {"proj/x/a.hol": "b.hol in %s/x and below or in the library" % folder, "proj/y/e.hol": "c.hol in %s/y or in the library" % folder}
        for paths in (["proj"], ["proj/x/a.hol", "proj/y/e.hol"], ["proj/y", "proj/x"], ["proj/b.hol", "proj/x/a.hol", "proj/y/b.hol", "proj/y/e.hol"]):
            status, lines = self.check_of(*paths)
            told = {line.split(":")[0]: line.split("no file ")[1] for line in lines if ": error: there is no file " in line}
            self.assertEqual((status, told, len(lines), len(set(lines))), (1, wrong, len(lines), len(lines)), paths)
            self.assertEqual(sum("all accepted" not in line for line in lines), 4)
        self.assertEqual(self.check_of("proj/y/d.hol")[0], 0)

    def test_a_folder_with_a_project_file_of_its_own_is_no_part_of_the_project_around_it_unless_it_is_named(self):
        self.put({"np/hol-project.json": "{}", "np/in/hol-project.json": "{}", "np/in/b.hol": proofs(1), "np/a.hol": "import b;;"})
        missing = "np/a.hol:1:1: error: there is no file b.hol in %s and below or in the library" % (self.folder.resolve() / "np")
        accepted = "np/in/b.hol: 4 commands, 1 theorem, all accepted"
        self.assertEqual(self.check_of("np"), (1, [missing, "np/a.hol: 1 command, 0 theorems, 1 error", accepted]))
        self.assertEqual(self.check_of("np/a.hol"), (1, [missing, "np/a.hol: 1 command, 0 theorems, 1 error"]))
        self.put({"np/hol-project.json": '{"folders": [".", "in"]}'})
        self.assertEqual(self.check_of("np/a.hol"), (0, [accepted, "np/a.hol: 1 command, 0 theorems, all accepted"]))

    def test_progress_is_shown_on_a_terminal(self):
        (self.folder / "A.hol").write_text("g A `x = x`;; e SLOW_TAC;; e REFL_TAC;; qed;;\n")
        program, (ours, theirs), shown = fake(self.folder), pty.openpty(), []
        reader = threading.Thread(target=lambda: shown.extend(iter(lambda: _read(ours), b"")), daemon=True)
        reader.start()
        with forked.Holls("check", "--server", program, "A.hol", cwd=self.folder, stdout=subprocess.PIPE, stderr=theirs) as process:
            output = process.stdout.read().decode()
        os.close(theirs)
        reader.join()
        os.close(ours)
        self.assertEqual((process.returncode, output.count("all accepted")), (0, 1))
        self.assertRegex(b"".join(shown).decode(), r"\d of 4 commands, 0 of 1 files")

    @unittest.skipUnless((os.cpu_count() or 1) > 1, "there is one processor")
    def test_theories_that_do_not_import_one_another_are_run_side_by_side(self):
        (self.folder / "meeting").mkdir()
        files = {name + ".hol": "g %s `x = x`;; e MEET_TAC;; e REFL_TAC;; qed;;\n" % name for name in "AB"}
        status, output, _ = self.check(files, server=("--meet", str(self.folder / "meeting"), "--log", str(self.folder / "log")))
        self.assertEqual((status, output.count("all accepted")), (0, 2))
        made = [line for line in (self.folder / "log").read_bytes().splitlines() if b"new_theory" in line]
        self.assertEqual(len(made), 2)


def _read(terminal):
    """What a terminal's program has written, or nothing where it has ended."""
    try:
        return os.read(terminal, 4096)
    except OSError:
        return b""


class Circles(unittest.TestCase):
    def test_each_import_is_told_by_a_shortest_circle_and_no_other_import_is_refused(self):
        texts = {"A": "import B;; import X;;", "B": "import C;; import X;;", "C": "import A;; import B;;", "X": "import Y;;", "Y": "qed;;",
                 "U": "import A;;", "S": "import S;; import Y;;"}
        for order in (list(texts), list(texts)[::-1]):
            files = {name: File(name + ".hol") for name in order}
            for name, file in files.items():
                file.take(texts[name])
            found = graph.ordered(graph.with_imports(list(files.values()), lambda _, name: "no " + name))
            told = {name: [blemish.text.split(": ")[1].split(";")[0] for blemish in file.context] for name, file in files.items() if file.context}
            self.assertEqual(told, {
                "A": ["A imports B imports C imports A"], "B": ["B imports C imports B"], "S": ["S imports S"],
                "C": ["A imports B imports C imports A", "B imports C imports B"]})
            self.assertEqual({name: file.theory.imports for name, file in files.items()}, {
                "A": ("X",), "B": ("X",), "C": (), "X": ("Y",), "Y": (), "U": ("A",), "S": ("Y",)})
            self.assertTrue(all(found.index(files[name]) < found.index(file) for file in found for name in file.theory.imports))
            self.assertEqual(files["C"].theory.entries[0].text, "import C")
            files["C"].take("import X;;")
            graph.with_imports(list(files.values()), lambda _, name: "no " + name)
            self.assertEqual([files[name].theory.imports for name in "ABC"], [("B", "X"), ("C", "X"), ("X",)])


class Scheduling(unittest.TestCase):
    def test_a_server_takes_the_file_that_costs_least_where_it_stands(self):
        files = {name: File(name + ".hol") for name in "ABCD"}
        for name, text in (("A", proofs(9)), ("B", "import A;;"), ("C", proofs(1)), ("D", "import C;; import A;; qed;;")):
            files[name].take(text)
        units = checking.units({"here": list(files.values())})
        self.assertEqual([[file.name for file in unit.imports] for unit in units], [[], ["A"], [], ["C", "A"]])
        pool = checking.Pool(units, [], 1, False)
        self.assertEqual(pool.take(self, "", set()).file, files["C"])
        self.assertEqual(pool.take(self, "here", {files["A"]}).file, files["A"])
        self.assertEqual(pool.take(self, "here", {files["A"]}).file, files["B"])
        self.assertEqual(pool.take(self, "there", {files["A"]}).file, files["D"])
        self.assertIsNone(pool.take(self, "here", set()))


@unittest.skipUnless(BUILT.is_file(), "hol_serve isn't built")
class Examples(unittest.TestCase):
    def test_of_a_circle_nothing_is_taken(self):
        with tempfile.TemporaryDirectory() as folder:
            for name, other in ("AB", "BA"):
                pathlib.Path(folder, name + ".hol").write_text("import %s;;\nnew_constant k `:A`;;\n" % other)
            done = forked.run("check", "--server", str(BUILT), ".", cwd=folder)
        circle = "1:1: error: imports go in a circle here: A imports B imports A; take one of them out"
        self.assertEqual(sorted(done.stdout.decode().splitlines()[:-1]), [
            line for name in "AB" for line in ("./%s.hol: 2 commands, 0 theorems, 1 error" % name, "./%s.hol:%s" % (name, circle))])

    def test_the_first_examples_check(self):
        files = [str(ROOT / "examples" / "theories" / (name + ".hol")) for name in ("first", "applications", "tacticals")]
        done = subprocess.run([*PYTHON, str(HOLLS), "check", "--server", str(BUILT), "--axioms", *files], capture_output=True, timeout=SECONDS)
        self.assertEqual((done.returncode, done.stderr), (0, b""), done.stdout.decode())


if __name__ == "__main__":
    unittest.main()
