"""A course of ten exercises is given, done, watched and graded: a teacher and three students with browsers of their own, over `holls serve` and the program."""

import os
import re
import unittest

from tests import browser, forked
from tests.helpers import BUILT, SECONDS
from tests.test_serve import COURSE, Served, free_port, python

STUDENTS = ("ada", "ben", "cleo")
BACK = "!window.page || window.page.isDone && !document.querySelector('#goals.unknown')"
"""A page has a bridge, and what it shows is known. (The list of exercises has none.)"""


@unittest.skipUnless(python() and browser.CHROMIUM and BUILT.exists(), "aiohttp, Chromium or hol_serve isn't here: no course is sat through")
class Sitting(Served):
    shares = "a browser"

    def setUp(self):
        super().setUp()
        self.port, self.kept = free_port(), self.room / "work"
        self.begin()

    def begin(self):
        self.serve("--port", str(self.port), "--keep", str(self.kept), "--teacher-key", "secret", "--ahead", "1", program=str(BUILT))

    def test_a_course_is_given_done_watched_and_graded(self):
        pages = {name: self.student(name) for name in STUDENTS}
        for file in ("implications", "equations", "quantifiers"):
            for name, page in pages.items():
                self.write(page, name, file)
            if file == "implications":
                self.start_anew(pages["ada"])
                for page in pages.values():
                    page.until(BACK)
        teacher = self.person().page("http://%s/teacher/secret" % self.host)
        self.until(lambda: {name: (row[4], row[6]) for name, row in self.rows(teacher).items()} == {
            "ada": ("", ""), "ben": ("implications: SWAP", "q"), "cleo": ("quantifiers: SOME", "")})
        rows = self.rows(teacher)
        self.assertEqual(rows["ada"][1:4], ["4 of 4", "3 of 3", "3 of 3"])
        self.assertEqual(rows["ben"][1:4], ["3 of 4", "2 of 3", "0 of 3"])
        self.assertEqual(rows["cleo"][1:4], ["0 of 4", "3 of 3", "2 of 3"])
        self.anew()  # What the teacher sees then comes from the browsers alone: of the theory that is shown, and of those that aren't.
        self.until(lambda: {name: row[1:4] for name, row in self.rows(teacher).items()} == {name: row[1:4] for name, row in rows.items()})
        for page in pages.values():
            self.assertEqual(page.complaints, [])
        for name in STUDENTS:
            sent = {path.name: path.read_text() for path in (COURSE / "work" / name).glob("*.hol")}
            self.until(lambda: self.texts(name) == sent)
        self.assertEqual(self.graded("--work", str(self.kept)), self.graded())

    def test_a_student_sees_what_cannot_be_kept(self):
        page, banner = self.student("ada"), "document.getElementById('banner')"
        self.write(page, "ada", "equations")
        self.until(lambda: (self.kept / "ada" / "equations.hol").exists())
        os.rename(self.kept, self.room / "away")
        self.kept.write_text("no folder any more")
        page.value("document.getElementById('text').focus(), document.getElementById('text').setSelectionRange(0, 0)")
        page.type("(* more *) ")
        page.until("!%s.hidden && %s.innerText.startsWith(\"The server can't keep what you write in equations any more\")" % (banner, banner))
        page.click("#banner button")
        self.assertTrue(page.value(banner + ".hidden"))
        self.kept.unlink()
        os.rename(self.room / "away", self.kept)
        page.type("(* again *) ")
        page.until("%s.innerText.startsWith('What you write in equations is kept again')" % banner)
        self.assertEqual(page.complaints, [])

    def person(self):
        found = browser.Person()
        self.addCleanup(found.leave)
        return found

    def rows(self, teacher):
        """What the teacher's page shows, by the students' names."""
        teacher.go("http://%s/teacher/secret" % self.host)
        shown = teacher.value("[...document.querySelectorAll('tbody tr')].map((row) => [...row.cells].map((cell) => cell.innerText))")
        return {row[0]: row for row in shown}

    def texts(self, name):
        """What the server has kept of a student."""
        return {path.name: path.read_text() for path in (self.kept / name).glob("*.hol")}

    def student(self, name):
        """A student's browser, in which the name was given."""
        page = self.person().page("http://%s/course" % self.host)
        page.value("document.querySelector('input[name=name]').focus()")
        page.type(name)
        page.click("button")
        page.until("location.search === '?name=%s' && document.querySelector('input[name=name]').value === '%s'" % (name, name))
        return page

    def write(self, page, name, file):
        """Opens an exercise by its link, and writes what the student has sent of it, if that is something."""
        path = COURSE / "work" / name / (file + ".hol")
        if path.is_file():
            page.go("http://%s/course" % self.host)
            page.click("a[href*='theory=%s.']" % file)
            page.until("window.page && window.page.active && window.page.active.name === '%s' && window.page.manual" % file)
            page.value("document.getElementById('text').focus(), document.getElementById('text').select()")
            page.type(path.read_text())
            page.until("window.page.isDone")

    def anew(self):
        self.process.terminate()
        self.process.wait(SECONDS)
        self.begin()

    def start_anew(self, page):
        """The server is started anew while a page is open, and that goes on by itself with what it had."""
        text = page.value("document.getElementById('text').value")
        self.anew()
        page.until(BACK)
        page.value("document.getElementById('text').focus(), document.getElementById('text').setSelectionRange(0, 0)")
        page.type("(* back *) ")
        page.until("window.page.isDone")
        self.until(lambda: self.texts("ada").get("implications.hol") == "(* back *) " + text)
        page.value("document.getElementById('text').focus(), document.getElementById('text').select()")
        page.type(text)
        page.until("window.page.isDone")

    def graded(self, *words):
        """What `holls grade` says of each exercise of each student."""
        done = forked.run("grade", COURSE, "--server", BUILT, *words)
        self.assertEqual(re.findall(r"(?m)^\w+: .*proved$", done.stdout.decode()), ["ada: 10 of 10 proved", "ben: 5 of 10 proved", "cleo: 2 of 10 proved"])
        return done.returncode, done.stdout


if __name__ == "__main__":
    unittest.main()
