"""The page in headless Chromium, where that is installed."""

import base64
import json
import random
import sys
import unittest
import zlib

from tests import browser, forked
from tests.helpers import BUILT, ROOT, fake, proofs
from tests.lesson_answers import ANSWERS
from tests.test_page_server import Served

EXAMPLES = ROOT / "examples"
THEORIES = EXAMPLES / "theories"


@unittest.skipUnless(browser.CHROMIUM, "Chromium isn't installed")
class InBrowser(Served):
    """A page in the browser, over the fake server or the program."""

    shares = "a browser"

    def setUp(self):
        super().setUp()
        self.browser = browser.Person()
        self.addCleanup(self.browser.leave)

    def open(self, more="", **size):
        self.page = self.browser.page(self.address + more, **size)
        self.page.until("!!window.page && !!window.page.active && document.activeElement && window.page.manual")
        return self.page

    def write(self, content):
        """Puts a text in the place of the theory's, as one types it."""
        self.page.value("document.getElementById('text').focus(), document.getElementById('text').select()")
        self.page.type(content)

    def settled(self):
        """Waits until all is known."""
        self.page.until("window.page.isDone")

    def errors(self):
        self.settled()
        return self.page.value("[...document.querySelectorAll('#errors li')].map((item) => item.textContent)")

    def has_errors(self, wanted):
        """Waits for errors that come of a change elsewhere."""
        self.page.until("JSON.stringify([...document.querySelectorAll('#errors li')].map((item) => item.textContent)) === %s" % json.dumps(
            json.dumps(wanted, separators=(",", ":"), ensure_ascii=False)))

    def marks(self):
        """What became of each command."""
        self.settled()
        return self.page.value("window.page.active.tellings().map(({ status }) => status).filter(Boolean)")

    def goals(self):
        self.page.until("!document.querySelector('#goals.unknown') && window.page.asked === null")
        return self.page.value("[...document.querySelectorAll('.conclusion')].map((item) => item.textContent)")

    def tearDown(self):
        if hasattr(self, "page"):
            self.assertEqual(self.page.complaints, [])


class Editing(InBrowser):
    def test_all_may_be_known_before_a_theory_is_shown(self):
        """As in a class, where the server has exercises open while the page begins."""
        shown = self.open()
        self.settled()
        shown.value("(() => { const { active } = window.page; window.page.active = null; window.page.known(); window.page.active = active; setTimeout(() => { window.isLater = true; }, 200); })()")
        shown.until("window.isLater")

    def test_an_error_is_shown_and_mended(self):
        shown = self.open()
        self.write("g A `p /\\ q = q`;;\ne REFL_TAC;;\n")
        self.assertEqual(self.errors(), ["Line 2: REFL_TAC doesn't fit the first goal: it wants an equation whose sides are equal up to bound names"])
        self.assertEqual(shown.value("[...document.querySelectorAll('#under span.error')].map((item) => item.textContent)"), ["REFL_TAC"])
        self.assertEqual(self.goals(), ["p /\\ q = q"])
        self.assertIn("refused: REFL_TAC", shown.value("document.querySelector('#goals .refused').textContent"))
        shown.until("document.getElementById('announced').textContent.includes('REFL_TAC')")
        self.write("g A `p /\\ q = q`;;\ne CONJ_TAC;;\n")
        self.assertEqual(self.errors(), [])
        self.assertEqual(shown.value("[...document.querySelectorAll('#under span.note')].map((item) => item.textContent)"), ["g"])
        self.assertEqual(self.goals(), ["p", "q = q"])
        shown.key("ArrowUp", modifiers=1)
        shown.key("ArrowUp", modifiers=1)
        self.assertEqual(shown.value("[...document.querySelectorAll('#under .current')].map((item) => item.textContent)"),
                         ["g A `p /\\ q = q`;;"])
        self.assertEqual((self.goals(), shown.value("document.getElementById('text').selectionStart")), (["p /\\ q = q"], 0))
        self.write("g A `p`;;\ng B `q = q`;;\ne REFL_TAC;;\nqed;;\nqed;;")
        self.assertEqual(self.errors(), ["Line 2: a proof was open before this: that of A, from line 1; end it by qed;; or give it up by oops;;",
                                         "Line 5: no proof is open here: begin one by g NAME `term`;;"])
        shown.value("window.page.editor.go(0)")
        for place in (10, 43, 10):
            shown.key("F8")
            self.assertEqual(shown.value("document.getElementById('text').selectionStart"), place)

    def test_names_and_symbols(self):
        shown = self.open()
        self.write("g A `x = x`;;\ne REF")
        shown.until("!document.getElementById('choices').hidden")
        self.assertEqual(shown.value("document.querySelector('#choices b').textContent"), "REFL_TAC")
        self.assertEqual(shown.value("document.getElementById('text').getAttribute('aria-activedescendant')"), "choice-0")
        shown.key("Tab")
        self.assertEqual(shown.value("document.getElementById('text').value"), "g A `x = x`;;\ne REFL_TAC")
        shown.type(";;\nq")
        shown.key(" ", "Space", 2)
        shown.until("!document.getElementById('choices').hidden")
        shown.key("Enter")
        shown.type(";;")
        self.assertEqual(self.errors(), [])
        self.write("deftac HALVES CONJ_TAC;;\n")
        self.assertEqual(self.errors(), [])
        shown.type("g C `p /\\ q`;;\ne HALV")
        shown.until("!document.getElementById('choices').hidden")
        self.assertEqual(shown.value("document.querySelector('#choices li').textContent.replace(/\\s+/g, ' ')"), "HALVES CONJ_TAC")
        shown.key("Tab")
        shown.type(";;")
        self.settled()
        self.assertEqual(self.goals(), ["p", "q"])
        self.write("g B `\\forall")
        for letter in " x. p \\and ":
            shown.key(letter, text=letter)
        self.assertEqual(shown.value("document.getElementById('text').value"), "g B `∀x. p ∧ ")
        shown.type("q`;;")
        self.settled()
        self.assertEqual(self.goals(), ["!x. p /\\ q"])
        shown.click("#symbols")
        self.assertEqual(self.goals(), ["∀x. p ∧ q"])

    def test_theories_imports_and_search(self):
        shown = self.open()
        shown.click("#new")
        self.write("g LEFT `x = x`;;\ne REFL_TAC;;\nqed;;\n")
        self.settled()
        shown.click("#new")
        self.write("import Theory1;;\nimport Theory3;;\n")
        self.assertEqual(self.errors(), ["Line 2: there is no theory Theory3 here: open it, or make a new one of that name"])
        shown.click("#tab-theorems")
        shown.value("document.getElementById('query').focus()")
        shown.type("left")
        shown.until("[...document.querySelectorAll('#list li')].some(({ textContent }) => textContent === 'LEFT Theory1 rests on … x = x')")
        shown.value("document.getElementById('query').select()")
        shown.type("`_ ==> _ <=> ~_`")
        found = "[...document.querySelectorAll('#list li > button:first-child')].map((item) => item.textContent).join()"
        shown.until(found + ".includes('IMP_CLAUSES')")
        self.assertEqual(shown.value("[...document.querySelectorAll('#tabs button')].map((item) => item.textContent)"), ["Lesson1", "Theory1", "Theory2"])
        shown.value("document.querySelectorAll('#tabs button')[1].click()")
        self.write("g LEFT `x = x`;;\ne REFL_TAC;;\nqed;;\nimport Theory2;;")
        circle = "imports go in a circle here: Theory1 imports Theory2 imports Theory1; take one of them out"
        self.has_errors(["Line 4: " + circle])
        shown.value("document.querySelectorAll('#tabs button')[2].click()")
        self.has_errors(["Line 1: " + circle, "Line 2: there is no theory Theory3 here: open it, or make a new one of that name"])

    def test_it_is_kept_saved_and_opened(self):
        shown = self.open()
        content = "(* ∀ *)\ng KEPT `x = x`;;\ne REFL_TAC;;\nqed;;\n"
        shown.dialogs.append("Kept")
        shown.click("#new")
        shown.click("#rename")
        shown.until("window.page.active.name === 'Kept'")
        self.write(content)
        self.settled()
        self.browser.take_downloads(self.room)
        shown.key("s", "KeyS", 2)
        saved = self.room / "Kept.hol"
        shown.until("new Promise((done) => setTimeout(() => done(true), 500))")
        self.wait_for(saved)
        self.assertEqual(saved.read_text(encoding="utf-8"), content)
        shown.click("#link")
        link = shown.until("window.page.link")
        shown.go(self.address)
        shown.until("window.page.active && window.page.active.name === 'Kept'")
        self.assertEqual(shown.value("document.getElementById('text').value"), content)
        shown.click("#close")
        shown.until("window.page.theories.length === 1")
        other = self.room / "Other.hol"
        other.write_bytes(saved.read_bytes())
        node = shown.call("DOM.querySelector", nodeId=shown.call("DOM.getDocument")["root"]["nodeId"], selector="#files")["nodeId"]
        shown.call("DOM.setFileInputFiles", files=[str(saved), str(other)], nodeId=node)
        shown.until("window.page.active.name === 'Other'")
        self.assertEqual((self.errors(), shown.value("window.page.theories.map(({ name }) => name)")), ([], ["Lesson1", "Kept", "Other"]))
        other = self.browser.page(self.address)
        other.until("window.page && window.page.active")
        self.write(content + "qed;;")
        other.until("!document.getElementById('banner').hidden && window.page.isResting")
        other.value("window.page.editor.insert('lost')")
        self.assertEqual(shown.value("JSON.parse(localStorage.getItem('hol-serve')).tabs.some(({ text }) => text.includes('lost'))"), False)
        fresh = browser.Person()
        self.addCleanup(fresh.leave)
        self.page = fresh.page(link)
        self.page.until("window.page.active && window.page.active.name === 'Kept'")
        self.assertEqual(self.page.value("document.getElementById('text').value"), content)
        self.assertEqual(self.page.value("location.hash"), "")

    def test_a_link_holds_what_its_theory_imports(self):
        shown = self.open()
        for text in ("g LEFT `x = x`;;\ne REFL_TAC;;\nqed;;\n", "import Theory1;;\n", "import Theory2;;\nimport Theory1;;\nimport logic;;\n"):
            shown.click("#new")
            self.write(text)
        self.settled()
        shown.click("#link")
        link = shown.until("window.page.link")
        self.assertEqual(link.count("theory="), 3)
        fresh = browser.Person()
        self.addCleanup(fresh.leave)
        self.page = fresh.page(link)
        self.page.until("window.page.active && window.page.active.name === 'Theory3'")
        self.assertEqual(self.page.value("window.page.theories.map(({ name }) => name)")[-3:], ["Theory1", "Theory2", "Theory3"])
        for hash in ("#theory=A.x&theory=B.!", "#theory=", "#x", link[link.index("#"):] + "&theory=A.%"):
            self.assertEqual(self.page.value("import('/store.js').then(({ linked }) => linked(%s))" % json.dumps(hash)), [])

    def test_a_short_link_that_holds_much_is_none(self):
        """A thousand letters of it would be unpacked to megabytes, and kept."""
        shown = self.open()
        for length, is_one in ((399_000, True), (400_001, False), (200_000_000, False)):
            squeezed = zlib.compressobj(9, zlib.DEFLATED, -15)
            data = b"".join(squeezed.compress(b"x" * min(length, 1_000_000)) for _ in range(max(1, length // 1_000_000))) + squeezed.flush()
            hash = "#theory=A." + base64.urlsafe_b64encode(data).decode().rstrip("=")
            found = shown.value("import('/store.js').then(async ({ linked }) => (await linked(%s)).map(({ text }) => text.length))" % json.dumps(hash))
            self.assertEqual(found, [length] if is_one else [], length)

    def test_whatever_the_browser_has_kept_the_page_begins(self):
        shown = self.open()
        for kept in ('{"done": 5, "tabs": {"a": 1}, "active": []}', "5", "null", "[", '{"tabs": [5, {"name": 1, "text": 2}, {"name": "A", "text": "qed;;"}]}'):
            shown.value("window.page.keep = () => {}, localStorage.setItem('hol-serve', %s)" % json.dumps(kept))
            shown.go(self.address)
            shown.until("window.page && window.page.active && window.page.manual")
        self.assertEqual(self.errors(), ["Line 1: no proof is open here: begin one by g NAME `term`;;"])

    def wait_for(self, file):
        for _ in range(browser.SECONDS):
            if file.is_file():
                return
            self.page.value("new Promise((done) => setTimeout(done, 1000))")

    def test_what_never_ends_is_stopped(self):
        self.serve(fake(self.room), "--seconds", "600")
        shown = self.open("?seconds=10")
        self.write("g A `loop = loop`;;\ne HANG_TAC;;\ne REFL_TAC;;\nqed;;\n")
        stopped = "Line 2: nothing is known of this command: hol_serve gave no answer within 10 seconds"
        self.assertEqual(self.errors(), [stopped])
        self.assertEqual(self.marks(), ["ok", "warning", "ok", "ok"])
        shown = self.open("?seconds=600")
        self.write("g A `loop = loop`;;\ne HANG_TAC;;\n")
        shown.click("#stop:not([hidden])")
        self.assertEqual(self.errors(), ["Line 2: nothing is known of this command: it was stopped"])
        self.write("g B `loop = loop`;;\ne HANG_TAC;;\ne REFL_TAC;;\n")
        shown.until("window.page.active.isSlow")
        self.write("g A `loop = loop`;;\ne REFL_TAC;;\nqed;;\n")
        self.assertEqual(self.errors(), [])
        self.write("g A `big = big`;;\ne DIE_TAC;;\ne REFL_TAC;;\nqed;;\n")
        self.assertIn("Line 2: nothing is known of this command: hol_serve was ended by signal 6", self.errors()[0])
        self.assertEqual(self.marks(), ["ok", "warning", "ok", "ok"])
        self.process.kill()
        shown.until("!document.getElementById('banner').hidden")

    def test_random_edits(self):
        """What is known after many edits, some made before the last one was answered, is what a fresh page finds."""
        shown = self.open()
        chosen = random.Random(7)
        pieces = ["g A%d `p /\\ q = q`;;\n" % at for at in range(4)] + ["e CONJ_TAC;;\n", "e ALL_TAC;;\n", "e REFL_TAC;;\n", "qed;;\n", "oops;;\n", "foo;;\n",
                                                                      "new_axiom B `q = q`;;\n", "import Theory9;;\n"]
        texts = []
        now = []
        for _ in range(60):
            at = chosen.randrange(len(now) + 1)
            now[at:at + chosen.randrange(4)] = chosen.choices(pieces, k=chosen.randrange(6))
            texts.append("".join(now))
        shown.value("""(async () => { for (const [at, text] of %s.entries()) { window.page.editor.area.value = text; window.page.changed();
            if (at %% 3 === 0) await new Promise((done) => setTimeout(done, at %% 7)); } })()""" % json.dumps(texts))
        self.settled()
        found = [shown.value(FOUND), self.errors(), self.marks()]
        shown.click("#new")
        self.write(texts[-1])
        self.settled()
        self.assertEqual([shown.value(FOUND), self.errors(), self.marks()], found)
        (self.room / "T.hol").write_text(texts[-1])
        done = forked.run("check", "--json", "--server", self.room / "server", self.room / "T.hol")
        said = [json.loads(line) for line in done.stdout.splitlines()]
        wanted = [[one["line"], one["column"], one["end_line"], one["end_column"], one["text"]] for one in said if "text" in one]
        files = [one for one in wanted if "there is no file" not in one[4]] + [one for one in found[0] if "there is no theory" in one[4]]
        self.assertEqual(sorted(found[0]), sorted(files))

    def test_a_word_in_the_progress_line_does_not_lay_out_the_text(self):
        """Compared with the same where the text isn't laid out by itself, in the same browser: what either takes alone is the machine's."""
        shown = self.open()
        self.write("(* %s *)\n" % ("a long line of a comment " * 3) * 250)
        self.settled()
        shown.call("Performance.enable")
        taken = self.layouts("document.getElementById('progress').textContent = `${at} of 250 commands`")
        shown.value("document.getElementById('scroller').style.contain = 'none'")
        self.assertLess(taken, self.layouts("document.getElementById('progress').textContent = `${at} of 250 others`") / 4)

    def layouts(self, change):
        """How long layouts took after each of ten changes, in seconds as the browser counts them."""
        begun = self.layout_seconds()
        self.page.value("(() => { for (let at = 0; at < 10; at += 1) { %s; document.getElementById('text').scrollHeight; } })()" % change)
        return self.layout_seconds() - begun

    def layout_seconds(self):
        return next(metric["value"] for metric in self.page.call("Performance.getMetrics")["metrics"] if metric["name"] == "LayoutDuration")

    def test_the_verdict_and_the_way_on_are_seen_in_each_lesson_however_long_it_is(self):
        shown = self.open(width=1280, height=800)
        for number in range(25):
            shown.value("window.page.hour.begin(%d)" % number)
            shown.until("window.page.hour.number === %d" % number)
            for _ in range(2):
                self.assertEqual(shown.value("""['verdict', 'next'].map((id) => {
                    const { left, top, right, bottom } = document.getElementById(id).getBoundingClientRect();
                    return [[left + 3, top + 3], [left + 3, bottom - 3], [Math.min(right, left + 60) - 3, bottom - 3]].every(
                        ([x, y]) => document.elementFromPoint(x, y)?.id === id); })"""), [True, True], number)
                shown.value("document.getElementById('hint')?.click()")

    def test_keyboard_reader_and_phone(self):
        shown = self.open(width=390, height=800)
        self.assertLessEqual(shown.value("document.scrollingElement.scrollWidth"), 390)
        self.assertGreater(shown.value("document.getElementById('scroller').clientHeight"), 200)
        nodes = shown.call("Accessibility.getFullAXTree")["nodes"]
        named = ("button", "tab", "textbox", "searchbox", "listbox", "tabpanel", "tablist", "region", "toolbar")
        for node in nodes:
            role = node.get("role", {}).get("value")
            if role in named and not node.get("ignored"):
                self.assertTrue(node.get("name", {}).get("value"), node)
        self.assertIn("Text of the theory Lesson1", [node.get("name", {}).get("value") for node in nodes])
        shown.value("document.getElementById('text').focus()")
        seen = []
        for _ in range(12):
            shown.key("Tab")
            seen.append(shown.value("document.activeElement.id || document.activeElement.textContent"))
        for wanted in ("goals", "tab-hour", "hour", "hint"):
            self.assertIn(wanted, seen)
        shown.value("document.getElementById('tab-hour').focus()")
        shown.key("ArrowRight")
        self.assertEqual(shown.value("[document.activeElement.id, document.getElementById('theorems').hidden, document.getElementById('hour').hidden]"),
                         ["tab-theorems", False, True])

    def test_what_a_name_is_and_what_can_be_done(self):
        shown = self.open()
        self.write("g A `p /\\ q = q`;;\ne REFL_TC;;\n")
        self.settled()
        shown.value("window.page.editor.go(20)")
        shown.until("[...document.querySelectorAll('#fixes button')].some(({ textContent }) => textContent === 'Replace by REFL_TAC')")
        shown.value("[...document.querySelectorAll('#fixes button')].find(({ textContent }) => textContent === 'Replace by REFL_TAC').click()")
        shown.until("document.getElementById('text').value.includes('e REFL_TAC;;')")
        self.settled()
        shown.key("F1")
        shown.until("document.getElementById('hover').textContent.includes('REFL_TAC')")
        shown.key("z", "KeyZ", 2)

    def test_a_bridge_that_is_gone_is_made_anew(self):
        shown = self.open()
        self.write("g A `p`;;\nqed;;")
        before = self.errors()
        shown.value("window.page.bridge.socket.close()")
        shown.until("!window.page.bridge.isBegun")
        shown.type("\nfoo;;")
        self.assertEqual(len(self.errors()), len(before) + 1)
        self.assertTrue(shown.value("document.getElementById('banner').hidden"))


@unittest.skipUnless(BUILT.is_file(), "hol_serve isn't built")
class Program(InBrowser):
    """Over the program itself."""

    def setUp(self):
        super().setUp()
        self.serve(BUILT)

    def test_each_lesson_is_solved(self):
        shown = self.open("?seconds=600")
        lessons = shown.value("""import('/lessons.js').then(
            ({ LESSONS, given, solved }) => LESSONS.map((lesson) => [given(lesson), solved(lesson), lesson.wanted, lesson.given]))""")
        self.assertEqual(len(lessons), 25)
        self.assertEqual([number + 1 for number, (given, solved, _, _) in enumerate(lessons) if given == solved], [*ANSWERS])
        for number, (given, solved, wanted, parts) in enumerate(lessons):
            if number + 1 in ANSWERS:
                solved = "\n".join(part + answer for part, answer in zip(parts, ANSWERS[number + 1]))
            self.assertEqual(shown.until("window.page.active.name"), "Lesson%d" % (number + 1))
            self.assertEqual(shown.value("document.getElementById('text').value"), given)
            self.write("".join("new_axiom %s `%s`;;\n" % tuple(text[4:].split(" |- ")) for text in wanted))
            shown.until("window.page.hour.checked === window.page.active.text && window.page.isDone")
            self.assertNotIn("✓", shown.value("document.getElementById('verdict').textContent"))
            if number:
                self.write(solved)
            else:
                self.follow_hints(given)
            shown.until("document.getElementById('verdict').textContent.startsWith('✓')")
            self.assertEqual(self.errors(), [])
            shown.click("#next")
        self.assertEqual(shown.until("document.querySelectorAll('.lessons .done').length"), 25)

    def follow_hints(self, given):
        """Solves a lesson by its hints, each put in as it is shown."""
        self.write(given)
        for number in range(self.page.value("document.querySelectorAll('.hints li').length"), 2):
            self.page.click("#hint")
            self.page.click(".hints li:nth-child(%d) button" % (number + 1))

    def test_a_theory_of_lists_and_arithmetic_is_written_in_notation(self):
        shown = self.open("?seconds=600")
        shown.click("#new")
        self.write("import lists;;\nimport numerals;;\nnew_definition SUM_DEF `SUM l = ITLIST (+) l 0`;;\n")
        self.assertEqual(self.errors(), [])
        shown.type("g SUM `SUM [] = 0 /\\ (!h t. SUM (CONS h t) = h + SUM t)`;;\ne REWRITE_TAC [SUM_DEF; ITLIST; FORALL_SIMP];;\nqed;;\n")
        shown.type("g SIX `SUM [1; 2; 3] = 6`;;\ne REWRITE_TAC [SUM];;\n")
        self.assertEqual(self.errors(), [])
        self.assertEqual(self.goals(), ["1 + 2 + 3 + 0 = 6"])
        shown.key("F4")
        self.assertEqual(self.goals(), ["add _1 (add (BIT0 _1) (add (BIT1 _1) _0)) = BIT0 (BIT1 _1)"])
        shown.key("F4")
        self.assertEqual(self.goals(), ["1 + 2 + 3 + 0 = 6"])
        shown.type("e NUM_REDUCE_TAC;;\nqed;;\ng BAD `SUM [1; 2 = 3`;;\n")
        self.assertEqual(self.errors(), ["Line 11: this `[` is never closed: `]` is missing"])
        self.assertEqual(shown.value("[...document.querySelectorAll('#under span.error')].map((item) => item.textContent)"), ["["])
        shown.click("#tab-theorems")
        shown.value("document.getElementById('query').focus()")
        shown.type("SUM [_; _; _] = _")
        shown.until("[...document.querySelectorAll('#list li')].some(({ textContent }) => textContent.includes('SUM [1; 2; 3] = 6'))")

    def test_examples_are_accepted(self):
        shown = self.open("?seconds=600")
        for name in ("first", "applications", "tacticals"):
            shown.click("#new")
            self.write((THEORIES / (name + ".hol")).read_text(encoding="utf-8"))
            self.assertEqual(self.errors(), [], name)

    def test_a_proof_is_found(self):
        shown = self.open()
        self.write("import logic;;\ng A `(!x:A. P x ==> Q x) /\\ P a ==> ?x. Q x`;;\n")
        self.press("Find a proof")
        shown.until("document.querySelector('#goals .done')")
        self.press("Instead: e STRIP_TAC THEN EXISTS_TAC `a:A` THEN ACCEPT_TAC")
        shown.until("window.page.active.text.split('\\ne ').length === 2 && document.querySelector('#goals .done')")

    def test_why_no_proof_is_found_is_told_and_a_search_can_be_ended(self):
        shown = self.open("?seconds=600")
        self.write("g A `p ==> q`;;\n")
        self.press("Find a proof")
        shown.until("document.getElementById('progress').textContent.includes('the goal is false for p = T, q = F')")
        self.write("g A `(!x:A. R x (f x)) /\\ (!x y z. R x y /\\ R y z ==> R x z) ==> ?x. R x x`;;\n")
        self.press("Find a proof")
        shown.until("/ \\([0-9.]+ s\\)$/.test(document.getElementById('progress').textContent)")
        self.press("Searching … end it")
        shown.until("document.getElementById('progress').textContent.includes('cancelled')")

    def press(self, words):
        """Presses the button of what could be done that begins with some words, once it is there."""
        found = "[...document.querySelectorAll('#fixes button')].find(({ textContent }) => textContent.startsWith(%s))" % json.dumps(words)
        self.page.until(found + " !== undefined")
        self.page.value(found + ".click()")

    def test_speed(self):
        """Prints what it measures: a machine that does much else has no bound to keep."""
        shown = self.open("?seconds=600")
        print("first goal after %d ms" % shown.until("window.page.goals.shownAt"), file=sys.stderr)
        self.write(proofs(50))
        self.settled()
        places = shown.value("[0, 96, 180].map((number) => window.page.active.pieces[number + 1].from + 2)")
        took = [shown.value(TYPED % place) for place in places for _ in range(5)]
        print("goals after a keystroke: %s ms" % ", ".join("%.0f" % one for one in took), file=sys.stderr)
        self.assertTrue(all(one > 0 for one in took))


FOUND = """(() => {
  const { active } = window.page;
  const at = (place) => { const { line, character } = active.lines.position(place); return [line + 1, character + 1]; };
  return active.found.map(({ start, end, text }) => [...at(start), ...at(end), text]);
})()"""
"""What is said of the theory: first and last line and column, and the words."""

TYPED = """(async () => {
  const { editor, active } = window.page;
  editor.go(%d);
  const settled = () => new Promise((done) => { const look = () => (window.page.isDone ? done() : setTimeout(look, 10)); look(); });
  await settled();
  const begun = performance.now();
  editor.insert('T');
  await new Promise((done) => { const look = () => (document.querySelector('#goals.unknown') ? setTimeout(look, 0) : done()); look(); });
  const took = performance.now() - begun;
  await settled();
  editor.insert('', editor.cursor - 1, editor.cursor);
  await settled();
  return took;
})()"""
"""In how many milliseconds the goals are shown after a letter was typed at a place."""


if __name__ == "__main__":
    unittest.main()
