"""Courses: what a teacher's file asks, what is said of a student's, and that nothing in one of these makes an answer wrong."""

import csv
import io
import json
import os
import pathlib
import re
import tempfile
import unittest

from holls import projects
from holls.course import layout, table
from holls.course.exercises import BadExercise, asked, exercises, given_up
from holls.course.judging import Task, judged
from holls.course.layout import BadCourse, Course, Given
from holls.course.verdicts import Status, Verdict
from tests import forked
from tests.helpers import BUILT, ROOT

TEACHER = """new_definition TWICE `twice (f:A->A) x = f (f x)`;;
g SAME `!x:A. x = x`;;
sorry;;
g FREE `p ==> (p:bool)`;;
e DISCH_TAC;;
"""
SAME = "g SAME `!x:A. x = x`;;\ne GEN_TAC THEN REFL_TAC;;\nqed;;\n"
FREE = "g FREE `p ==> (p:bool)`;;\ne DISCH_TAC THEN ACCEPT_TAC (ASSUME `p:bool`);;\nqed;;\n"
DEFINED = TEACHER.splitlines()[0] + "\n"
SOLVED = DEFINED + SAME + FREE


def is_running(number):
    """Whether a process runs: one that has ended may still be listed."""
    try:
        return pathlib.Path("/proc/%s/stat" % number).read_text().rpartition(")")[2].split()[0] not in "ZX"
    except OSError:
        return False


class Exercises(unittest.TestCase):
    def test_they_are_the_proofs_that_end_by_sorry_or_not_at_all(self):
        text = "g A `p`;; e ALL_TAC;; qed;; g B `q`;; sorry;; g C `r`;; oops;;\n\ng D `s`;; e REFL_TAC;;\nnew_type t 0;;\ng E `∀x. x = x`;;"
        self.assertEqual([(one.name, one.statement, one.line) for one in exercises(text)], [("B", "q", 1), ("D", "s", 3), ("E", "!x. x = x", 5)])

    def test_what_asks_for_them_states_them_and_keeps_all_else(self):
        text, names = asked(TEACHER + "(* asked_SAME is taken *)\nnew_type t 0;;", exercises(TEACHER + "new_type t 0;;"))
        self.assertEqual(names, {"SAME": "asked_SAME_", "FREE": "asked_FREE"})
        self.assertIn("g asked_SAME_ `(!x:A. x = x) ==> T`;;\ne DISCH_TAC THEN ACCEPT_TAC TRUTH;;\nqed;;\n", text)
        self.assertTrue(text.startswith(DEFINED) and text.endswith("new_type t 0;;\n"))
        self.assertNotIn("sorry", text)
        self.assertIn("g FREE `p ==> (p:bool)`;;\nsorry;;\n", given_up(TEACHER, exercises(TEACHER)))

    def test_one_that_cant_be_read_or_stands_twice_is_told_with_its_line(self):
        for text, told in (("\ng `p`;;", "line 2"), ("g A `p`;; sorry;;\ng A `q`;;", "line 2: the exercise A stands on line 1"), ("g A;;", "line 1")):
            with self.assertRaisesRegex(BadExercise, told):
                exercises(text)


class Kept(unittest.TestCase):
    """A folder that is thrown away."""

    def setUp(self):
        kept = tempfile.TemporaryDirectory()
        self.addCleanup(kept.cleanup)
        self.kept, self.folder = kept.name, pathlib.Path(kept.name)

    def put(self, **files):
        for name, text in files.items():
            path = self.folder / name.replace("__", "/").replace("_dot_", ".")
            path.parent.mkdir(parents=True, exist_ok=True)
            path.write_bytes(text if isinstance(text, bytes) else text.encode())


class Folders(Kept):
    def test_a_course_is_read_in_its_order(self):
        self.put(exercises__b_dot_hol=TEACHER, exercises__a_dot_hol=TEACHER, theories__own_dot_hol="")
        (self.folder / "hol-course.json").write_text(json.dumps({"title": "Logic", "exercises": ["b", "a"], "imports": ["own", "logic"]}))
        course = layout.read(str(self.folder))
        self.assertEqual(([one.name for one in course.files], course.title, course.imports), (["b", "a"], "Logic", ("own", "logic")))

    def test_what_is_wrong_with_one_is_told(self):
        for told, text, files in (
                ("no file NAME.hol", None, {}),
                ("the key `titel` means nothing", '{"titel": 1}', {}),
                ("has to be a list of different names", '{"imports": "logic"}', {}),
                ("can't be read", "[" * 5000, {}),
                ("names the exercise c", '{"exercises": ["c"]}', {"exercises__a_dot_hol": TEACHER}),
                ("names nowhere", '{"imports": ["nowhere"]}', {"exercises__a_dot_hol": TEACHER}),
                ("the library has a theory of that name", None, {"exercises__logic_dot_hol": TEACHER}),
                ("has no exercise", None, {"exercises__a_dot_hol": SAME}),
                ("is no UTF-8", None, {"exercises__a_dot_hol": b"\xff"})):
            with self.subTest(told), tempfile.TemporaryDirectory() as name:
                self.folder = pathlib.Path(name)
                self.put(**files)
                if text is not None:
                    (self.folder / "hol-course.json").write_text(text)
                with self.assertRaisesRegex(BadCourse, told):
                    layout.read(name)

    def test_only_a_regular_file_of_a_student_is_read(self):
        self.put(work__ann__a_dot_hol=SOLVED, work__bob__x="", work__eve__a_dot_hol=b"\xff", secret_dot_hol=SOLVED)
        os.symlink("../ann/a.hol", str(self.folder / "work" / "bob" / "a.hol"))
        os.symlink("ann", str(self.folder / "work" / "dan"))
        os.mkfifo(str(self.folder / "work" / "bob" / "b.hol"))
        work = str(self.folder / "work")
        self.assertEqual(layout.students(work), ["ann", "bob", "eve"])
        self.assertEqual(layout.sent(work, "ann", "a").text, SOLVED)
        self.assertEqual(layout.sent(work, "bob", "a"), layout.Sent(None, "the file is a link"))
        self.assertEqual(layout.sent(work, "bob", "b"), layout.Sent(None, "the file is no regular file"))
        self.assertIn("is no UTF-8", layout.sent(work, "eve", "a").why_not)
        self.assertEqual(layout.sent(work, "ann", "b"), layout.Sent(None, ""))


class Tables(unittest.TestCase):
    def test_no_cell_is_a_formula_and_a_row_says_how_many_are_proved(self):
        course = Course("", "T", (Given("a", TEACHER, tuple(exercises(TEACHER))),), (), ())
        row = table.Row("=1+1,\n", (("a", Verdict("SAME", Status.PROVED, "", 3)), ("a", Verdict("FREE", Status.OPEN, "why", 7))))
        read = list(csv.reader(io.StringIO(table.as_csv(course, [row]))))
        self.assertEqual(read, [["student", "proved", "of", "a/SAME", "a/FREE"], ["'=1+1,\n", "1", "2", "proved", "open"]])
        self.assertEqual(json.loads(table.as_json(course, [row]))["students"][0]["exercises"][1]["detail"], "why")
        self.assertEqual(table.lines(row)[1:], ["  a:7: FREE: open, why"])


@unittest.skipUnless(BUILT.is_file(), "hol_serve isn't built")
class Judging(unittest.TestCase):
    """Over the program: each of these is a way to be taken for one who has proved something."""

    def setUp(self):
        kept = tempfile.TemporaryDirectory()
        self.addCleanup(kept.cleanup)
        self.theories = pathlib.Path(kept.name)

    def verdicts(self, sent, given=TEACHER, imports=(), forbidden=()):
        task = Task("first", given, sent, str(self.theories), tuple(imports), tuple(forbidden), (str(BUILT),), 60, 600)
        return {verdict.exercise: verdict for verdict in judged(task)}

    def statuses(self, sent, **how):
        found = self.verdicts(sent, **how)
        return tuple(found[name].status.value for name in ("SAME", "FREE"))

    def test_what_is_proved_is_proved_also_in_other_words(self):
        self.assertEqual(self.statuses(SOLVED), ("proved", "proved"))
        helped = "infixl 5 --> foo;;\ng HELP `!y:B. y = y`;; e GEN_TAC THEN REFL_TAC;; qed;;\ndeftac DONE GEN_TAC THEN REFL_TAC;;\n"
        self.assertEqual(self.statuses(helped + FREE + "g SAME `∀y:A. (y = y)`;; e DONE;; qed;;"), ("proved", "proved"))

    def test_what_is_not_done_is_told_with_its_line(self):
        found = self.verdicts(DEFINED + "g SAME `!x:A. x = x`;;\nsorry;;\ng FREE `p ==> (p:bool)`;;\ne CONJ_TAC;;\nqed;;\n")
        self.assertEqual((found["SAME"].status, found["SAME"].line), (Status.OPEN, 3))
        self.assertEqual((found["FREE"].status, found["FREE"].line), (Status.OPEN, 5))
        self.assertIn("CONJ_TAC", found["FREE"].detail)
        self.assertEqual(self.statuses(""), ("open", "open"))

    def test_another_statement_isnt_the_one_that_was_asked_for(self):
        self.assertEqual(self.statuses(SOLVED.replace("!x:A. x = x", "!x:bool. x = x")), ("changed", "proved"))
        self.assertEqual(self.statuses(SOLVED.replace("!x:A. x = x", "!x:B. x = x")), ("changed", "proved"))

    def test_what_stands_in_a_statement_cant_be_given_another_meaning(self):
        for own in ("new_definition P `p = T`;;\n", "new_constant p `:bool`;;\n"):
            self.assertEqual(self.statuses(DEFINED + own + SAME + FREE), ("proved", "changed"))
        self.assertEqual(self.statuses(DEFINED.replace("A", "B") + "new_type A 0;;\n" + SAME + FREE)[0], "changed")
        notation = "new_definition NOT_SAME `other (x:A) y <=> T`;;\ninfixl 12 == other;;\n"
        other = "g SAME `!x:A. x == x`;; e GEN_TAC THEN REWRITE_TAC [NOT_SAME] THEN ACCEPT_TAC TRUTH;; qed;;\n"
        self.assertEqual(self.statuses(DEFINED + notation + other + FREE), ("changed", "proved"))

    def test_what_was_given_cant_be_made_otherwise(self):
        self.assertEqual(self.statuses(SOLVED.replace("f (f x)`", "f x`")), ("changed", "changed"))
        self.assertEqual(self.statuses(SAME + FREE), ("proved", "proved"))
        self.assertEqual(self.statuses("g asked_SAME `T`;; e ACCEPT_TAC TRUTH;; qed;;\n" + SOLVED), ("changed", "changed"))

    def test_axioms_by_any_name_are_told(self):
        bad = "new_axiom TRUE `F`;;\n"
        self.assertEqual(self.statuses(bad + SOLVED.replace("e GEN_TAC THEN", "e CONTR_TAC TRUE ORELSE GEN_TAC THEN")), ("axiom", "proved"))
        self.assertEqual(self.statuses(DEFINED + "new_axiom SAME `!x:A. x = x`;;\n" + FREE), ("axiom", "proved"))
        lemma = "g LEMMA `!x:A. x = x`;; sorry;;\n"
        self.assertEqual(self.statuses(lemma + SOLVED.replace("e GEN_TAC THEN REFL_TAC", "e ACCEPT_TAC LEMMA")), ("axiom", "proved"))
        named = "deftac CHEAT CONTR_TAC TRUE;;\n"
        self.assertEqual(self.statuses(bad + named + SOLVED.replace("e GEN_TAC THEN REFL_TAC", "e CHEAT")), ("axiom", "proved"))

    def test_axioms_of_the_course_are_its_teachers(self):
        (self.theories / "ours.hol").write_text("new_axiom OURS `!x:A. x = x`;;\n")
        given = "import ours;;\n" + TEACHER
        by_axiom = SOLVED.replace("e GEN_TAC THEN REFL_TAC", "e ACCEPT_TAC OURS")
        self.assertEqual(self.statuses("import ours;;\n" + by_axiom, given=given), ("proved", "proved"))
        self.assertEqual(self.statuses("new_axiom OURS `!x:A. x = x`;;\n" + by_axiom, given=given), ("proved", "proved"))
        false = "new_axiom OURS `F`;;\n" + SOLVED.replace("e GEN_TAC THEN REFL_TAC", "e CONTR_TAC OURS")
        self.assertEqual(self.statuses(false, given=given)[0], "changed")
        self.assertEqual(self.statuses("import ours;;\n" + by_axiom)[0], "open")

    def test_what_may_be_imported_and_used_is_the_teachers_choice(self):
        (self.theories / "more.hol").write_text("g MORE `!x:A. x = x`;; e GEN_TAC THEN REFL_TAC;; qed;;\n")
        (self.theories / "has.hol").write_text(SAME)
        more = "import more;;\n" + SOLVED.replace("e GEN_TAC THEN REFL_TAC", "e ACCEPT_TAC MORE")
        found = self.verdicts(more)["SAME"]
        self.assertEqual(found.status, Status.OPEN)
        self.assertEqual(self.statuses(more, imports=["more"]), ("proved", "proved"))
        self.assertEqual(self.statuses(more, imports=["more"], forbidden=["MORE"]), ("forbidden", "proved"))
        self.assertEqual(self.statuses(SOLVED, forbidden=["GEN_TAC", "TWICE", "new_definition"]), ("forbidden", "proved"))
        self.assertEqual(self.verdicts(SOLVED, forbidden=["REFL_TAC"])["SAME"].line, 3)
        self.assertEqual(self.statuses(DEFINED + "import has;;\n" + FREE, imports=["has"]), ("open", "proved"))
        for name in ("given", "both", "first", "_", "has"):
            self.assertEqual(self.statuses("import %s;;\n" % name + SOLVED), ("proved", "proved"))

    def test_what_may_not_be_used_cant_be_reached_by_another_name(self):
        ways = (
            "deftac OWN GEN_TAC;;\n" + SOLVED.replace("e GEN_TAC", "e OWN"),
            "g LEMMA `!x:A. x = x`;; e GEN_TAC THEN REFL_TAC;; qed;;\ng LATER `!x:A. x = x`;; e ACCEPT_TAC LEMMA;; qed;;\n"
            + SOLVED.replace("e GEN_TAC THEN REFL_TAC", "e ACCEPT_TAC LATER"),
            "deftac OWN (* a *) GEN_TAC;;\ndeftac NEXT OWN;;\n" + SOLVED.replace("e GEN_TAC", "e NEXT"))
        for text in ways:
            self.assertEqual(self.statuses(text, forbidden=["GEN_TAC"]), ("forbidden", "proved"), text)

    def test_a_list_of_theorems_is_another_name_and_stands_for_itself_alone(self):
        (self.theories / "more.hol").write_text(
            "g MORE `!x:A. x = x <=> T`;; e GEN_TAC THEN EQ_TAC;; e DISCH_TAC THEN ACCEPT_TAC TRUTH;; e DISCH_TAC THEN REFL_TAC;; qed;;\n")
        begun, listed = "import more;;\n" + DEFINED, "theorems MINE = [MORE];;\n"
        by_list = SAME.replace("REFL_TAC", "PURE_REWRITE_TAC [MINE] THEN ACCEPT_TAC TRUTH")
        for text, forbidden, statuses in ((begun + listed + by_list + FREE, [], ("proved", "proved")),
                                          (begun + listed + by_list + FREE, ["MORE"], ("forbidden", "proved")),
                                          (begun + SAME + listed + FREE, ["MORE"], ("proved", "proved"))):
            self.assertEqual(self.statuses(text, imports=["more"], forbidden=forbidden), statuses, text)

    def test_a_rule_in_a_step_hides_no_theorem(self):
        (self.theories / "more.hol").write_text("g MORE `!f x. (f:A->A) x = f x`;; e GEN_TAC THEN GEN_TAC THEN REFL_TAC;; qed;;\n")
        text = "import more;;\n" + DEFINED + SAME.replace("GEN_TAC THEN", "MP_TAC (GSYM MORE) THEN DISCH_TAC THEN GEN_TAC THEN") + FREE
        self.assertEqual(self.statuses(text, imports=["more"]), ("proved", "proved"))
        self.assertEqual(self.statuses(text, imports=["more"], forbidden=["MORE"]), ("forbidden", "proved"))

    def test_hostile_texts_cost_their_own_exercises_alone(self):
        for before in ("(((" * 2000 + ";;\n", "g X `" + "(" * 5000 + "`;;\n", "g X `" + "x" * 70_000 + "`;;\n", "\0;;\n", ";;" * 500, "`;;\n`;;\n"):
            self.assertEqual(self.statuses(before + SOLVED), ("proved", "proved"), before[:20])
        self.assertEqual(self.statuses(SOLVED + "(* never closed"), ("proved", "proved"))


@unittest.skipUnless(BUILT.is_file(), "hol_serve isn't built")
class Grade(Kept):
    """The command."""

    def grade(self, *words):
        ran = forked.run("grade", self.folder, "--server", BUILT, *words)
        self.assertNotIn(b"Traceback", ran.stderr + ran.stdout)
        return ran.returncode, ran.stdout.decode(), ran.stderr.decode()

    def test_a_table_of_three_students(self):
        self.put(exercises__first_dot_hol=TEACHER, work__ann__first_dot_hol=SOLVED, work__bob__x="",
                 work__eve__first_dot_hol=SOLVED.replace("e GEN_TAC THEN REFL_TAC", "e ALL_TAC"), work__eve__logic_dot_hol="new_axiom F `F`;;")
        made = [str(self.folder / "table.csv"), str(self.folder / "table.json")]
        status, output, errors = self.grade("--csv", made[0], "--json", made[1])
        self.assertEqual((status, errors), (0, ""))
        self.assertEqual(output.splitlines()[:4], ["ann: 2 of 2 proved", "bob: 0 of 2 proved", "  first: not sent", "eve: 1 of 2 proved"])
        self.assertIn("  first:4: SAME: open, ", output)
        rows = list(csv.reader(open(made[0], newline="")))
        self.assertEqual(rows[1:], [["ann", "2", "2", "proved", "proved"], ["bob", "0", "2", "missing", "missing"], ["eve", "1", "2", "open", "proved"]])
        self.assertEqual([one["proved"] for one in json.load(open(made[1]))["students"]], [2, 0, 1])

    def test_the_course_among_the_examples(self):
        self.folder = ROOT / "examples" / "course"
        made = pathlib.Path(tempfile.mkdtemp(dir=self.kept)) / "table.csv"
        self.assertEqual(self.grade("--csv", str(made))[0], 0)
        self.assertEqual(made.read_text(), (self.folder / "table.csv").read_text())

    def test_in_an_editor_its_exercises_find_its_theories(self):
        """As they were not for a student, who was told that there is no such file."""
        for path in sorted((ROOT / "examples" / "course" / "exercises").glob("*.hol")):
            project = projects.Projects().of(str(path))
            self.assertIsNone(project.error)
            for name in re.findall(r"^import (\w+);;", path.read_text(), re.M):
                self.assertIsInstance(project.find(name), str, "%s: %s" % (path.name, name))

    def test_an_exercise_that_cant_be_read_is_the_teachers_error(self):
        self.put(exercises__first_dot_hol="g WRONG `x x`;;\nsorry;;\n", work__ann__x="")
        status, _, errors = self.grade()
        self.assertEqual(status, 2)
        self.assertIn("first.hol:1: the exercise WRONG can't be given", errors)

    @unittest.skipUnless(os.path.isdir("/proc/self"), "which processes run isn't told here")
    def test_a_file_that_takes_too_long_is_told_and_leaves_no_program(self):
        self.put(exercises__first_dot_hol=TEACHER)
        numbers = self.folder / "numbers"
        slow = self.folder / "slow"
        slow.write_text("#!/bin/sh\necho $$ >> %s\nexec sleep 1000\n" % numbers)
        slow.chmod(0o755)
        for seconds in ("4", "20", "80"):  # On a machine that does much else a judge may take long to start its program.
            words = ["grade", str(self.folder), "--server", str(slow), "--work", str(self.folder), "--file-seconds", seconds]
            ran = forked.run(*words)
            if numbers.exists():
                break
        self.assertEqual(ran.returncode, 2)
        self.assertIn("the file takes longer than %s seconds" % seconds, ran.stderr.decode())
        self.assertTrue(numbers.read_text())
        self.assertEqual([number for number in numbers.read_text().split() if is_running(number)], [])


if __name__ == "__main__":
    unittest.main()
