#!/usr/bin/env python3
"""How many tokens the reader of commands reads in a second.

    python3 bench/notation.py --program PATH [--rounds N]

PATH is the built program, OUT/hol_bench (bench/programs.py). Its texts have so many tokens, or a few less, of one kind:

  brackets   variables as arguments, each inside as many brackets as may be open
  arguments  arguments of a variable
  binders    binders of one variable, one inside another
  variables  variables of one binder
  right      right operands of an infix, one inside another
  prefix     prefixes, one inside another
  then       a chain of tactics
  types      arrows of a type

Each line has the size that is asked for, the tokens of the text, and how many tokens are read in a second of processor time. The times are
medians of the rounds.

Needs Python 3.8 and Linux, and nothing else.
"""

import argparse
import os
import re
import statistics

from kernel import processor_seconds

# What stands before the part that is repeated, the part, and what stands behind.
KINDS = {
    "arguments": ("g N `f", " x", "`"),
    "binders": ("g N `", "!x. ", "x`"),
    "variables": ("g N `!x", " x", ". x`"),
    "right": ("g N `", "p = ", "p`"),
    "prefix": ("g N `", "~", "p`"),
    "then": ("e A", " THEN A", ""),
    "types": ("g N `x:A", "->A", "`"),
}
SIZES = ((100, 20000), (1000, 2000), (4000, 500))
OPEN = 200
TOKEN = re.compile(r"[A-Za-z]+|->|[^\sA-Za-z]")


def count(text):
    return len(TOKEN.findall(text))


def brackets(size):
    """A variable's arguments, each inside as many brackets as may be open, the last one inside what is left."""
    text, left = "g N `f", size - 5
    while left > 0:
        depth = min((left - 1) // 2, OPEN)
        text += " " + "(" * depth + "x" + ")" * depth
        left -= 2 * depth + 1
    return text + "`"


def text(kind, size):
    if kind == "brackets":
        return brackets(size)
    before, part, behind = KINDS[kind]
    return before + part * ((size - count(before + behind)) // count(part)) + behind


def main():
    parser = argparse.ArgumentParser(description=__doc__, formatter_class=argparse.RawDescriptionHelpFormatter)
    parser.add_argument("--program", required=True)
    parser.add_argument("--rounds", type=int, default=5)
    given = parser.parse_args()
    program = os.path.abspath(given.program)
    print(f"{'kind':10}{'size':>6}{'tokens':>8}{'tokens a second':>17}")
    for kind in ("brackets", *KINDS):
        for size, times in SIZES:
            command = text(kind, size)
            seconds = statistics.median(processor_seconds(program, "read", command, times)[0] for _ in range(given.rounds))
            tokens = count(command)
            print(f"{kind:10}{size:6}{tokens:8}{tokens * times / seconds:17,.0f}")


if __name__ == "__main__":
    main()
