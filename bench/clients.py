#!/usr/bin/env python3
"""What the clients cost beside the program, and how soon somebody sees what a key has changed: one table, with what is wanted.

    python3 bench/clients.py [--program PATH] [--only PART ..] [--keys N] [--rounds N]

PATH is the built program (crates/hol_serve/out/hol_serve). The parts:

  notation   processor time of reading all quotations of theories/, of a key's translation in the largest file there, and of showing a goal of 1,000 nodes
  bridge     a key in the largest file: the bridge's own processor time, and by the clock how soon an editor has its goals, and all findings
  check      processor time of `holls check theories`, beside that of one program that gets the same commands and is asked for each report, in turns:
             the median of the rounds
  neovim     the same keys in Neovim without a screen, by the clock, until the goal window and the list of diagnostics have changed
  page       in Chromium without a window: from its address until all is known of a theory with its imports as tabs, MOST commands and some more

A key is a letter that is typed into a step's first word, which refuses it, and is taken out again; at the beginning, in the middle and at the end of the
file. Processor times hold on a busy machine too, more or less (two threads of one core slow each other); times by the clock hold on a quiet one. The
status is 1 where something takes longer than is wanted.

Needs Python 3.9 and Linux; for the last parts Neovim and Chromium.
"""

import argparse
import ctypes
import json
import os
import pathlib
import resource
import shutil
import statistics
import subprocess
import sys
import tempfile
import time

ROOT = pathlib.Path(__file__).resolve().parents[1]
CLIENTS = ROOT / "clients"
THEORIES = ROOT / "theories"
sys.path.insert(0, str(CLIENTS))
from holls import circles, graph, protocol  # noqa: E402 (clients/holls)
from holls.files import File  # noqa: E402 (clients/holls)
from holls.sent import Notation  # noqa: E402, F401 (clients/holls): loaded before anything is measured
from holls.view import View  # noqa: E402 (clients/holls)
from tests import browser  # noqa: E402 (clients/tests)
from tests.test_lsp import Editor  # noqa: E402 (clients/tests)

PARTS = ("notation", "bridge", "check", "neovim", "page")
MOST = 1259
"""So many commands the theory of the page has at least, with its imports."""
PLACES = (("beginning", 0.02), ("middle", 0.5), ("end", 0.98))
TICKS = os.sysconf("SC_CLK_TCK")
SUBREAPER = 36
MS = 1000.0
NOT_MET = []


def row(what, figure, unit, wanted, more=""):
    """A line of the table."""
    is_met = figure <= wanted
    print("%-58s %9.1f %-2s   wanted %7.1f %s%s%s" % (what, figure, unit, wanted, unit, "" if is_met else "   NOT MET", "   " + more if more else ""), flush=True)
    if not is_met:
        NOT_MET.append(what)


def library():
    """The files of theories/ by their names, with their imports known."""
    found = {}
    for path in sorted(THEORIES.glob("*.hol")):
        found[path.stem] = File(str(path))
        found[path.stem].take(path.read_text(encoding="utf-8"))
    for file in found.values():
        file.know({name: found[name] for name in file.imports if name in found})
    return found


def largest(found):
    return max(found.values(), key=lambda file: len(file.cut.commands))


def step(text, share):
    """The place behind the first letter of a step's first function, so far into the text."""
    return text.index("\ne ", int(len(text) * share)) + 4


# Notation

def notation(_):
    circles.look_seldom()  # As the checker and the bridge do.
    begun = time.process_time()
    found = library()
    read = time.process_time()
    for file in found.values():
        file.notation
    took, commands = time.process_time() - read, sum(len(file.cut.commands) for file in found.values())
    row("all of theories/: a command's quotations are read", 1e6 * took / commands, "us", 115, "%.2f s for %d commands; its files are cut in %.2f s" % (
        took, commands, read - begun))  # 0.4 s are wanted of the 3,493 commands that it had when that was said.
    file = largest(found)
    for name, share in PLACES:
        took = [translation(file, step(file.lines.text, share), number) for number in range(12)]
        row("a key's translation at the %s of %s" % (name, file.name), MS * statistics.median(took), "ms", 10)
    goal(found["lists"])


def translation(file, place, number):
    """The processor time of one key's translation: the file's quotations, behind a letter more."""
    text = file.lines.text
    file.take(text[:place] + chr(ord("a") + number) + text[place:])
    begun = time.process_time()
    file.notation
    took = time.process_time() - begun
    file.take(text)
    return took


def goal(file):
    """A goal of some 1,000 nodes, shown for the first time."""
    view = View.of(file, len(file.commands) - 1)
    took = []
    for number in range(9):
        text = " /\\ ".join("le (add x%d_%d (mult _1 y)) (BIT0 (BIT1 z))" % (number, at) for at in range(50))
        begun = time.process_time()
        shown = view.term(text)
        took.append(time.process_time() - begun)
        assert "x%d_0 + 1 * y <= " % number in shown, shown[:80]
    row("a goal of 1,000 nodes is shown", MS * statistics.median(took), "ms", 5)


# The bridge

def started(*words, **how):
    """`holls` as an editor starts it."""
    return subprocess.Popen([sys.executable, str(CLIENTS / "bin" / "holls"), *words], **how)


def processor(process):
    """A process's own processor time."""
    fields = pathlib.Path("/proc/%d/stat" % process).read_text().rsplit(")", 1)[1].split()
    return (int(fields[11]) + int(fields[12])) / TICKS


class Typing:
    """The largest file in a bridge."""

    def __init__(self, program, file):
        self.editor, self.version = Editor(program, start=started), 1
        self.editor.begin()
        self.uri, self.text, self.lines = (THEORIES / (file.name + ".hol")).as_uri(), file.lines.text, file.lines
        self.editor.open(self.uri, self.text)
        self.all_known()
        while self.editor.process.poll() is None and self._works():
            pass  # It reads the statements ahead of searches.

    def _works(self):
        """Whether the bridge has done something within a second."""
        before = processor(self.editor.process.pid)
        time.sleep(1)
        return processor(self.editor.process.pid) > before + 0.03

    def all_known(self):
        """Until what is published is of the last version, and nothing is unknown."""
        self.editor.until(lambda: self.editor.versions.get(self.uri) == self.version)
        self.editor.ask("textDocument/signatureHelp", {"textDocument": {"uri": self.uri}, "position": {"line": 0, "character": 0}})  # Behind what is unknown.
        self.editor.until(lambda: not self.editor.unknown.get(self.uri))

    def key(self, place, has_letter):
        """Types the letter, or takes it out. Answers the seconds until the goals are there, and until all is known."""
        line, column = self.lines.column(place)
        self.version += 1
        begun = time.monotonic()
        self.editor.change(self.uri, self.version, "X" if has_letter else "", ((line, column), (line, column + (not has_letter))))
        found = self.editor.goals(self.uri, line, column)
        seen = time.monotonic() - begun
        assert found["goals"] is not None
        self.all_known()
        return seen, time.monotonic() - begun


def bridge(given):
    file = largest(library())
    typing = Typing(given.program, file)
    for name, share in PLACES:
        place = step(typing.text, share)
        before = processor(typing.editor.process.pid)
        took = [typing.key(place, number % 2 == 0) for number in range(2 * given.keys)]
        own = (processor(typing.editor.process.pid) - before) / len(took)
        row("a key at the %s of %s: the bridge's own time" % (name, file.name), MS * own, "ms", 20, "with a request that waits for it")
        row("  by the clock: its goals", MS * statistics.median(one for one, _ in took), "ms", 50)
        row("  by the clock: all findings", MS * statistics.median(one for _, one in took), "ms", 250)
    typing.editor.kill()


# The checker

def check(given):
    found = library()
    order, lines = graph.ordered(list(found.values())), []
    for at, file in enumerate(order):
        lines.append({"op": "new_theory", "name": file.name, "at": at})
        lines += put(file)
    text = b"".join(protocol.line(line) + b"\n" for line in lines)
    words = [sys.executable, str(CLIENTS / "bin" / "holls"), "check", "--quiet", "--no-cache", "--server", given.program, str(THEORIES)]
    with tempfile.TemporaryDirectory() as kept:
        as_a_user = {name: value for name, value in os.environ.items() if name != "PYTHONDONTWRITEBYTECODE"}
        as_a_user["PYTHONPYCACHEPREFIX"] = kept  # As Python does unless it is told otherwise: modules are compiled once, and not at each run.
        ended([*words[:-1], str(ROOT / "examples" / "theories" / "first.hol")], b"", as_a_user)
        took = [(ended([given.program], text), ended(words, b"", as_a_user)) for _ in range(given.rounds)]
    program, checker = (statistics.median(times) for times in zip(*took))
    row("holls check theories, with its programs", checker, "s", 1.5 * program, "the program alone %.2f s: %.2f times" % (program, checker / program))


def put(file):
    """A file's commands, each asked for behind it."""
    for at, entry in enumerate(file.theory.entries):
        yield {"op": "insert", "theory": file.name, "at": at, "text": entry.text}
        if not entry.is_hidden:
            yield {"op": "report", "theory": file.name, "at": at}


def ended(words, text, variables=None):
    """The processor time of a program with all that it starts, also what it kills."""
    before = resource.getrusage(resource.RUSAGE_CHILDREN)
    subprocess.run(words, input=text, stdout=subprocess.DEVNULL, stderr=subprocess.DEVNULL, check=True, env=variables)
    while True:
        try:
            os.wait()
        except ChildProcessError:
            break
    after = resource.getrusage(resource.RUSAGE_CHILDREN)
    return after.ru_utime + after.ru_stime - before.ru_utime - before.ru_stime


# Neovim

LUA = r"""
local function goals()
  for _, window in ipairs(vim.api.nvim_list_wins()) do
    local buffer = vim.api.nvim_win_get_buf(window)
    if vim.api.nvim_buf_get_name(buffer):match('goals$') then
      return table.concat(vim.api.nvim_buf_get_lines(buffer, 0, -1, false), '\n')
    end
  end
end
local function errors() return #vim.diagnostic.get(0) end
vim.g.holls = { command = vim.json.decode(vim.env.COMMAND) }
vim.cmd('filetype plugin on | edit ' .. vim.env.FILE)
vim.wait(5000, function() return #vim.lsp.get_active_clients() > 0 end, 5)
vim.cmd('HolGoals')
vim.wait(120000, function() return vim.lsp.get_active_clients()[1].messages ~= nil and #vim.api.nvim_buf_get_extmarks(0,
  vim.api.nvim_get_namespaces().holls_unknown, 0, -1, {}) == 0 and (goals() or ''):match('not known') == nil and errors() == 0 end, 20)
vim.wait(3000)
local results = {}
for _, place in ipairs(vim.json.decode(vim.env.PLACES)) do
  local found = {}
  vim.api.nvim_win_set_cursor(0, place)
  vim.cmd('doautocmd CursorMoved')
  vim.wait(1500)
  local said = {}
  for number = 1, tonumber(vim.env.KEYS) + 2 do
    local typed = number % 2 == 1
    local begun = vim.loop.hrtime()
    vim.api.nvim_buf_set_text(0, place[1] - 1, place[2], place[1] - 1, place[2] + (typed and 0 or 1), { typed and 'X' or '' })
    vim.cmd('doautocmd TextChanged | doautocmd CursorMoved')
    if number <= 2 then
      vim.wait(5000)
      said[typed] = errors() -- So many are said in the end.
    end
    local reached = vim.wait(60000, function() return ((goals() or ''):match('^refused') ~= nil) == typed and not goals():match('not known') end, 1)
    local seen = (vim.loop.hrtime() - begun) / 1e6
    reached = vim.wait(60000, function() return errors() == said[typed] end, 1) and reached
    if number > 2 then
      table.insert(found, { reached and seen or 1e9, (vim.loop.hrtime() - begun) / 1e6 })
    end
    vim.wait(600)
  end
  table.insert(results, found)
end
local out = io.open(vim.env.RESULTS, 'w')
out:write(vim.json.encode(results))
out:close()
vim.cmd('qall!')
"""
"""Types keys, and waits until the goal window says what they did, and until there are as many diagnostics as in the end."""


def neovim(given):
    file = largest(library())
    places = [step(file.lines.text, share) for _, share in PLACES]
    with tempfile.TemporaryDirectory() as folder:
        results, script = pathlib.Path(folder, "results"), pathlib.Path(folder, "keys.lua")
        script.write_text(LUA)
        holls = [sys.executable, str(CLIENTS / "bin" / "holls"), "lsp", "--server", given.program]
        more = {"FILE": str(THEORIES / (file.name + ".hol")), "RESULTS": str(results), "COMMAND": json.dumps(holls), "KEYS": str(2 * given.keys),
                "PLACES": json.dumps([(line + 1, column) for line, column in map(file.lines.column, places)]),
                **{"XDG_%s_HOME" % kind: folder for kind in ("STATE", "DATA", "CONFIG")}}
        subprocess.run([shutil.which("nvim"), "--headless", "-u", "NONE", "-i", "NONE", "--cmd", "set rtp^=%s noswapfile" % (CLIENTS / "neovim"),
                        "-S", str(script)], env=dict(os.environ, **more), stdout=subprocess.DEVNULL, stderr=subprocess.DEVNULL, timeout=900, check=True)
        found = json.loads(results.read_text())
    for (name, _), took in zip(PLACES, found):
        row("Neovim, a key at the %s of %s: its goals" % (name, file.name), statistics.median(one for one, _ in took), "ms", 50)
        row("  all findings", statistics.median(one for _, one in took), "ms", 250)


# The page

def page(given):
    found = library()
    sizes = {name: graph.all_imports(file, found) for name, file in found.items()}
    counts = {name: sum(len(file.cut.commands) for file in (*imports, found[name])) for name, imports in sizes.items()}
    name = min((name for name in counts if counts[name] >= MOST), key=lambda one: counts[one])
    process, address = browser.serve(given.program)
    shown = browser.Person()
    try:
        tab = shown.page(address)
        tab.until("!!window.page && !!window.page.active && window.page.manual")
        tabs = [{"name": file.name, "text": file.lines.text} for file in (*sizes[name], found[name])]
        tab.value("window.page.keep = () => {}, localStorage.setItem('hol-serve', %s)" % json.dumps(json.dumps({"tabs": tabs, "active": name, "done": []})))
        took = [opened(tab, address, name) for _ in range(3)]
    finally:
        shown.leave()
        process.terminate()
        process.wait()
    row("the page: %s with its imports, %d commands" % (name, counts[name]), statistics.median(took), "s", 3, "tabs: %d" % len(tabs))


def opened(tab, address, name):
    """The seconds from the address until all is known of the theory that is shown, and of what it imports."""
    begun = time.monotonic()
    tab.call("Page.navigate", url=address)
    tab.until("!!window.page && window.page.active && window.page.active.name === %s && window.page.isDone" % json.dumps(name))
    return time.monotonic() - begun


def main():
    words = argparse.ArgumentParser(description=__doc__, formatter_class=argparse.RawDescriptionHelpFormatter)
    words.add_argument("--program", default=str(ROOT / "crates" / "hol_serve" / "out" / "hol_serve"))
    words.add_argument("--only", action="append", choices=PARTS)
    words.add_argument("--keys", type=int, default=10)
    words.add_argument("--rounds", type=int, default=5)
    given = words.parse_args()
    ctypes.CDLL(None).prctl(SUBREAPER, 1, 0, 0, 0)  # The programs that a checker kills are waited for here.
    needed = {"neovim": shutil.which("nvim"), "page": browser.CHROMIUM}
    for part in given.only or PARTS:
        if needed.get(part, True):
            globals()[part](given)
        else:
            print("%s: not measured, since it isn't installed" % part)
    sys.exit(bool(NOT_MET))


if __name__ == "__main__":
    main()
