#!/usr/bin/env python3
"""How much stack a level of each recursion in the built program takes: functions that call themselves, and those that call one another in a cycle, from objdump.

    python3 bench/frames.py [PROGRAM] [--least N]

Each line is the bytes that one call of each function of the cycle takes together, and their names with the bytes of each: the registers that it keeps, its locals and
the return address. How often a cycle comes round for one level of a term or a text isn't told here; `tests/hostile.py --depth` measures whole inputs.

Needs Python 3.8, Linux and binutils, and nothing else.
"""

import argparse
import pathlib
import re
import subprocess
import sys

PROGRAM = pathlib.Path(__file__).resolve().parent.parent / "crates" / "hol_serve" / "out" / "hol_serve"


class Function:
    """What is seen of a function: bytes that a call takes, and what it calls."""

    def __init__(self):
        self.pushed, self.locals, self.calls = 0, 0, set()

    def bytes(self):
        return 8 * self.pushed + self.locals + 8


def functions(program):
    """The functions of a program, by their names."""
    text = subprocess.run(["objdump", "-d", "--no-show-raw-insn", "-C", program], stdout=subprocess.PIPE, check=True, universal_newlines=True).stdout
    found, at = {}, Function()
    for line in text.splitlines():
        head = re.match(r"[0-9a-f]+ <(.*)>:$", line)
        taken = re.search(r"sub +\$0x([0-9a-f]+),%rsp", line)
        called = re.search(r"call +[0-9a-f]+ <(.*?)>$", line)
        if head:
            at = found.setdefault(head[1], Function())
        elif taken and not at.locals:
            at.locals = int(taken[1], 16)
        elif re.search(r"\tpush ", line) and not at.locals:
            at.pushed += 1
        elif called:
            at.calls.add(called[1])
    return found


def reached(found, name):
    """All that a call of a function may come to call."""
    seen, left = set(), [name]
    while left:
        for called in found[left.pop()].calls:
            if called in found and called not in seen:
                seen.add(called)
                left.append(called)
    return seen


def cycles(found):
    """The sets of functions that call one another, or themselves."""
    over = {name: reached(found, name) for name in found}
    return {frozenset(other for other in over[name] if name in over[other]) for name in found if name in over[name]}


def main():
    given = argparse.ArgumentParser(description=__doc__, formatter_class=argparse.RawDescriptionHelpFormatter)
    given.add_argument("program", nargs="?", default=str(PROGRAM))
    given.add_argument("--least", type=int, default=200, help="bytes of what is shown")
    words = given.parse_args()
    found, lines = functions(words.program), []
    for cycle in cycles(found):
        parts = sorted(((found[name].bytes(), name) for name in cycle), reverse=True)
        lines.append((sum(size for size, _ in parts), ", ".join(f"{name.split('::<')[0]} {size}" for size, name in parts)))
    for size, names in sorted(lines, reverse=True):
        if size >= words.least:
            print(f"{size:6} {names}")
    return 0


if __name__ == "__main__":
    sys.exit(main())
