"""A new user's theory in notation, typed letter by letter from an empty file: in Neovim at a terminal, and in the page in Chromium."""

import fcntl
import json
import os
import pathlib
import pty
import re
import shutil
import struct
import subprocess
import tempfile
import termios
import threading
import time
import unittest

from tests import browser, forked
from tests.helpers import BUILT, CLIENTS, HOLLS, PYTHON, SECONDS
from tests.new_theory import STEPS, THEOREMS
from tests.test_page_server import Served

NVIM = shutil.which("nvim")
ESCAPE, BACKSPACE = "\x1b", "\x7f"
CONCLUSION = re.compile(r"^  -{10,}\n  (.*)$", re.MULTILINE)

SEEN = """
function _G.Seen()
  local goals, errors, unknown = '', {}, vim.api.nvim_get_namespaces().holls_unknown
  for _, window in ipairs(vim.api.nvim_list_wins()) do
    local buffer = vim.api.nvim_win_get_buf(window)
    if vim.api.nvim_buf_get_name(buffer):match('goals$') then
      goals = table.concat(vim.api.nvim_buf_get_lines(buffer, 0, -1, false), '\\n')
    end
  end
  for _, one in ipairs(vim.diagnostic.get(0, { severity = vim.diagnostic.severity.ERROR })) do
    local marked = vim.api.nvim_buf_get_text(0, one.lnum, one.col, one.end_lnum, one.end_col, {})
    table.insert(errors, { one.lnum + 1, table.concat(marked, '\\n'), one.message })
  end
  local marks = unknown and #vim.api.nvim_buf_get_extmarks(0, unknown, 0, -1, {}) or 0
  return vim.json.encode({ goals = goals, errors = errors, mode = vim.api.nvim_get_mode().mode, offered = vim.fn.pumvisible(), marks = marks })
end
"""
"""What somebody sees of a file in Neovim: the goal window, the errors with what they mark, and whether anything isn't known yet."""


class Neovim:
    """A Neovim at a terminal of its own, with a file that isn't there yet, and with the goal window."""

    def __init__(self, folder):
        self.folder, self.socket = folder, str(folder / "socket")
        (folder / "init.lua").write_text("vim.opt.runtimepath:prepend(%s)\nvim.g.holls = { command = %s }\n%s" % (
            json.dumps(str(CLIENTS / "neovim")), "{ '%s' }" % "', '".join([*PYTHON, str(HOLLS), "lsp", "--server", str(BUILT)]), SEEN))
        self.terminal, screen = pty.openpty()
        fcntl.ioctl(screen, termios.TIOCSWINSZ, struct.pack("HHHH", 50, 180, 0, 0))
        homes = {"XDG_%s_HOME" % kind: str(folder) for kind in ("STATE", "DATA", "CONFIG")}
        self.process = subprocess.Popen(
            [NVIM, "-u", str(folder / "init.lua"), "-i", "NONE", "-n", "--listen", self.socket, str(folder / "Sums.hol")], stdin=screen, stdout=screen,
            stderr=screen, cwd=folder, env=dict(os.environ, TERM="xterm", **homes), start_new_session=True)
        os.close(screen)
        self.reader = threading.Thread(target=self._read)
        self.reader.start()
        self.until(lambda: os.path.exists(self.socket) and self.asked("mode()") == "n")
        self.type(":HolGoals\r")
        self.until(lambda: self.seen()["goals"] == "no proof is open")
        self.type("i")

    def _read(self):
        """Takes what is drawn, as a terminal does."""
        try:
            while os.read(self.terminal, 1 << 16):
                pass
        except OSError:
            pass  # It has ended.

    def asked(self, expression):
        """What an expression is in this Neovim. (Some versions write it to standard error.)"""
        done = subprocess.run([NVIM, "--server", self.socket, "--remote-expr", expression], stdout=subprocess.PIPE, stderr=subprocess.PIPE, timeout=SECONDS)
        return (done.stdout or done.stderr).decode()

    def seen(self):
        return json.loads(self.asked("v:lua.Seen()"))

    def until(self, holds):
        end = time.monotonic() + SECONDS
        while not holds():
            if time.monotonic() > end or self.process.poll() is not None:
                raise AssertionError("it didn't come about")
            time.sleep(0.05)

    def type(self, text):
        for letter in text:
            os.write(self.terminal, letter.encode())

    def take_back(self, number):
        self.type(BACKSPACE * number)

    def choose(self, name):
        self.type("\x18\x0f")
        self.until(lambda: self.asked("getline('.')").endswith(name))

    def look(self):
        """The goals' conclusions and the errors."""
        seen = self.seen()
        if seen["marks"] or "not known yet" in seen["goals"]:
            return None
        return tuple(CONCLUSION.findall(seen["goals"])), tuple((line, marked, words) for line, marked, words in seen["errors"])

    def turn_plain(self):
        """Shows goals in the program's own words, or again in notation, by a key: it is one of normal mode's."""
        self.type(ESCAPE)
        self.until(lambda: self.asked("mode()") == "n")
        self.type("\\pa")

    def text(self):
        """What the file is, saved."""
        self.type(ESCAPE)
        self.until(lambda: self.asked("mode()") == "n")
        self.type(":w\r")
        self.until(lambda: self.asked("&modified") == "0")
        return (self.folder / "Sums.hol").read_text()

    def end(self):
        self.process.kill()
        self.process.wait()
        self.reader.join()
        os.close(self.terminal)


class Chromium:
    """The page, with a new theory."""

    def __init__(self, page):
        self.page = page
        page.until("!!window.page && !!window.page.active && document.activeElement && window.page.manual")
        page.click("#new")
        page.until("document.getElementById('text').value === ''")
        page.value("document.getElementById('text').focus()")

    def type(self, text):
        for letter in text:
            self.page.key("Enter" if letter == "\n" else letter, text="\r" if letter == "\n" else letter)

    def take_back(self, number):
        for _ in range(number):
            self.page.key("Backspace")

    def choose(self, name):
        self.page.until("!document.getElementById('choices').hidden")
        self.page.until("document.querySelector('#choices b').textContent === %s" % json.dumps(name))
        self.page.key("Tab")

    def look(self):
        """The goals' conclusions and the errors."""
        seen = self.page.value(LOOK)
        return seen and (tuple(seen[0]), tuple(map(tuple, seen[1])))

    def turn_plain(self):
        self.page.key("F4")

    def text(self):
        return self.page.value("document.getElementById('text').value")


class Writing(unittest.TestCase):
    """What both have in common."""

    def write(self, person):
        """Types the theory; behind each step the goals and errors have to come about that it names, and nothing may follow."""
        for step in STEPS:
            person.take_back(step.taken_back)
            person.type(step.typed)
            self.comes_about(person, step.typed, step.goals, step.errors)
            if step.plain:
                person.turn_plain()
                self.comes_about(person, step.typed, step.plain, step.errors)
                person.turn_plain()
                self.comes_about(person, step.typed, step.goals, step.errors)
            if step.chosen:
                person.choose(step.chosen)
        self.judge(person.text())

    def comes_about(self, person, typed, goals, errors):
        end = time.monotonic() + SECONDS
        while person.look() != (goals, errors):
            if time.monotonic() > end:
                self.assertEqual(person.look(), (goals, errors), typed)
            time.sleep(0.1)

    def judge(self, text):
        """What was written is accepted, and so is what it stands for in the program's own words, with the same theorems."""
        with tempfile.TemporaryDirectory() as name:
            path = pathlib.Path(name, "Sums.hol")
            path.write_text(text)
            plain = forked.run("expand", path).stdout.decode()
            self.assertNotIn("\n" + "infixl", plain)
            self.assertIn("g SMALL `!x. IN x (UNION", plain)
            for written in (text, plain):
                path.write_text(written)
                done = forked.run("check", "--axioms", "--json", "--alone", "--server", BUILT, path)
                made = {one["theorem"] for one in map(json.loads, done.stdout.splitlines()) if "theorem" in one}
                self.assertEqual((done.returncode, made & set(THEOREMS)), (0, set(THEOREMS)), done.stdout)


@unittest.skipUnless(BUILT.is_file(), "hol_serve isn't built")
@unittest.skipUnless(NVIM, "nvim isn't installed")
class InNeovim(Writing):
    def test_a_theory_is_written_from_an_empty_file(self):
        with tempfile.TemporaryDirectory() as name:
            person = Neovim(pathlib.Path(name))
            self.addCleanup(person.end)
            self.write(person)


@unittest.skipUnless(BUILT.is_file(), "hol_serve isn't built")
@unittest.skipUnless(browser.CHROMIUM, "Chromium isn't installed")
class InThePage(Writing, Served):
    shares = "a browser"

    def test_a_theory_is_written_from_an_empty_file(self):
        self.serve(BUILT)
        shown = browser.Person()
        self.addCleanup(shown.leave)
        page = shown.page(self.address + "?seconds=600")
        self.write(Chromium(page))
        self.assertEqual(page.complaints, [])


LOOK = """(() => {
  const { active } = window.page;
  if (!window.page.isDone || document.querySelector('#goals.unknown') || window.page.asked !== null) return null;
  const goals = [...document.querySelectorAll('.conclusion')].map((item) => item.textContent);
  const errors = active.found.filter(({ severity }) => severity === 'error');
  return [goals, errors.map(({ start, end, text }) => [active.lines.position(start).line + 1, active.text.slice(start, end), text])];
})()"""
"""What somebody sees of a theory in the page, where all is known."""

del Served

if __name__ == "__main__":
    unittest.main()
