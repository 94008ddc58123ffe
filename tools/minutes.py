#!/usr/bin/env python3
"""The processor minutes of the gate, by crate and by part: what the gate's last lines tell.

    python3 tools/minutes.py FILE

FILE is what `.ci/run` has written: tools/prove.py a line for each crate and kind of check,

    crate NAME KIND SECONDS

and the gate's shell, behind each part, the word `part` and the part's command, and then what `times` says: the second line of that has the time of all that the
shell has run until then, in user mode and in the system."""

import collections
import os
import pathlib
import re
import sys
import threading

KINDS = ("proof", "tests", "edits")
TICK = os.sysconf("SC_CLK_TCK")
# How often processes are looked at, in seconds. What a process takes behind the last look at it isn't counted.
BETWEEN = 0.5
# Crates and parts that take less, in minutes, are counted together.
SMALL = 0.05
TIME = re.compile(r"(\d+)m([\d.]+)s")


# -------------------------------------------------------------------------------------------------------------------- while the checks run


def processes_of(parent):
    """The processes that this one has started and that go on, each with its begin and its processor seconds, with those of what it has run itself."""
    for entry in filter(str.isdigit, os.listdir("/proc")):
        try:
            stat = pathlib.Path(f"/proc/{entry}/stat").read_text(errors="replace")
        except OSError:
            continue
        fields = stat[stat.rindex(")") + 2 :].split()
        if int(fields[1]) == parent:
            yield int(entry), fields[19], sum(map(int, fields[11:15])) / TICK


def work_of(process):
    """The crate that a process checks, and the kind of its check; None for what checks no crate."""
    words = pathlib.Path(f"/proc/{process}/cmdline").read_bytes().decode(errors="replace").split("\0")
    if "--crate-name" not in words:
        return None
    is_edit = "rt-edit" in os.readlink(f"/proc/{process}/cwd")
    return words[words.index("--crate-name") + 1], "edits" if is_edit else "tests" if "--test" in words else "proof"


class Watch:
    """Adds up what the checks take that this process runs, while `with` lasts."""

    def __init__(self):
        self.seconds, self.works, self.ended = {}, {}, threading.Event()
        self.thread = threading.Thread(target=self.look, daemon=True)

    def __enter__(self):
        self.thread.start()
        return self

    def __exit__(self, *_):
        self.ended.set()
        self.thread.join()

    def look(self):
        while not self.ended.wait(BETWEEN):
            for process, begun, seconds in processes_of(os.getpid()):
                try:
                    # (a process that is about to become another one is known only then)
                    self.works[process, begun] = self.works.get((process, begun)) or work_of(process)
                except OSError:
                    continue
                self.seconds[process, begun] = seconds

    def lines(self):
        """The lines of the file that tell of it."""
        found = collections.Counter()
        for process, work in self.works.items():
            if work and process in self.seconds:
                found[work] += self.seconds[process]
        return [f"crate {name} {kind} {seconds:.2f}\n" for (name, kind), seconds in sorted(found.items())]


# -------------------------------------------------------------------------------------------------------------------------- what is printed


def minutes_in(line):
    """The minutes of a line of `times`."""
    return sum(int(minutes) + float(seconds) / 60 for minutes, seconds in TIME.findall(line))


def read(text):
    """The minutes of each crate by kind, and those of each part."""
    crates, parts, before, name = collections.defaultdict(collections.Counter), {}, 0.0, ""
    lines = iter(text.splitlines())
    for line in lines:
        word, _, rest = line.partition(" ")
        if word == "crate":
            crate, kind, seconds = rest.split()
            crates[crate][kind] += float(seconds) / 60
        elif word == "part":
            name, _ = rest.strip(), next(lines, "")
            total = minutes_in(next(lines, ""))
            parts[name], before = total - before, total
    parts.pop("", None)
    return crates, parts


def in_columns(cells, columns):
    """The cells below one another, in so many columns."""
    height = -(-len(cells) // columns)
    return ["    ".join(cells[at::height]).rstrip() for at in range(height)]


def crates_told(crates):
    """Each crate with what its kinds took and their sum, the dearest first."""
    rows = sorted(((sum(kinds.values()), name, [kinds[it] for it in KINDS]) for name, kinds in crates.items()), reverse=True)
    sums = [sum(row[2][at] for row in rows) for at in range(len(KINDS))]
    rows.insert(0, (sum(sums), "all crates", sums))
    cells = [f"{name:22}" + "".join(f"{it:6.1f}" if it else " " * 6 for it in [*kinds, total]) for total, name, kinds in rows]
    return [(f"{'crate':22} proof tests edits   sum    " * 2).rstrip(), *in_columns(cells, 2)]


def parts_told(parts):
    """Each part with its minutes, those that take next to none together."""
    large = {name: it for name, it in parts.items() if it >= SMALL}
    cells = [f"{short(name):38}{it:6.1f}" for name, it in sorted(large.items(), key=lambda it: -it[1])]
    return in_columns([*cells, f"{'the rest':38}{sum(parts.values()) - sum(large.values()):6.1f}"], 3)


def short(command):
    """A part's command without what it is run by and where: the names of its script and of what it is run on."""
    words = [it for it in command.split() if it != "python3"]
    return " ".join([words[0], *(it for it in words[1:] if "/" not in it or not it.startswith("/"))])[:38]


def table(text):
    crates, parts = read(text)
    whole = sum(parts.values())
    return [f"processor minutes: {whole:.0f}", *(crates_told(crates) if crates else []), "by part:", *parts_told(parts)]


if __name__ == "__main__":
    if len(sys.argv) != 2:
        sys.exit("usage: minutes.py FILE")
    print("\n".join(table(pathlib.Path(sys.argv[1]).read_text())))
