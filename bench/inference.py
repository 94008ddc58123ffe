#!/usr/bin/env python3
"""How long finding the types of a term takes, where constants have large types.

    python3 bench/inference.py --program PATH [--rounds N] [--seconds N]

PATH is the built program, OUT/hol_bench (bench/programs.py). Each job is done at a quarter of its size and at its whole size:

  itself     c of the type A0->..->A1999->bool, applied to itself 4,080 times
  argument   the same c as each of 4,080 arguments of a variable
  applied    c of the type A0->..->A1999->bool, applied to one variable in each of 1,000 arguments of a variable
  repeated   the same with c of the type A0->..->A1999->A0, in which a variable stands twice
  chained    c of a type with 1,709 arrows, nested 190 deep, in 600 equations with one variable
  doubling   330 variables, of which each is a function of functions of the one before, so that types double
  zigzag     1,000 variables equated with each other, counted from both ends in turn

Each line has the answer, the seconds of processor time (the median of the rounds) and the largest memory, and how many times longer the
whole took than the quarter. A run is ended after so many seconds (`--seconds`).

Needs Python 3.8 and Linux, and nothing else.
"""

import argparse
import os
import resource
import statistics
import subprocess

from goals import doubling, zigzag


def arrows(count, end="bool"):
    return "->".join("A%d" % k for k in range(count)) + "->" + end


def nested(count, depth):
    """A type of so many arrows, nested so deep to the left."""
    text, each, made = "B", count // depth, 0
    for level in range(depth):
        names = ["V%d" % (made + k) for k in range(each)]
        text = "(" + text + ")->" + "->".join(names) if level else "->".join([text] + names)
        made += each
    return text


def equated(count):
    order = zigzag(count)
    return " /\\ ".join("x%d = x%d" % pair for pair in zip(order, order[1:]))


JOBS = {
    "itself": lambda n: (arrows(2000 * n // 4080), " ".join(["c"] * n)),
    "argument": lambda n: (arrows(2000 * n // 4080), "f" + " c" * n),
    "applied": lambda n: (arrows(2000 * n // 1000), "f" + " (c x)" * n),
    "repeated": lambda n: (arrows(2000 * n // 1000, "A0"), "f" + " (c x)" * n),
    "chained": lambda n: (nested(1710 * n // 600, 190), " /\\ ".join(["x = c"] * n)),
    "doubling": lambda n: ("bool", doubling(n)),
    "zigzag": lambda n: ("bool", equated(n)),
}
SIZES = {"itself": 4080, "argument": 4080, "applied": 1000, "repeated": 1000, "chained": 600, "doubling": 330, "zigzag": 1000}


def run(program, words, seconds):
    """The answer of one run, its processor time and its memory in megabytes."""
    child = subprocess.Popen([program, "infer", *words], stdout=subprocess.PIPE, stderr=subprocess.STDOUT, text=True,
                             preexec_fn=lambda: resource.setrlimit(resource.RLIMIT_CPU, (seconds, seconds)))
    answer = child.stdout.read().strip().replace("hol_bench: ", "")
    _, _, used = os.wait4(child.pid, 0)
    return answer or "not done", used.ru_utime + used.ru_stime, used.ru_maxrss / 1024


def main():
    parser = argparse.ArgumentParser(description=__doc__, formatter_class=argparse.RawDescriptionHelpFormatter)
    parser.add_argument("--program", required=True)
    parser.add_argument("--rounds", type=int, default=3)
    parser.add_argument("--seconds", type=int, default=120)
    given = parser.parse_args()
    program = os.path.abspath(given.program)
    print(f"{'job':10}{'size':>6}{'answer':>12}{'seconds':>9}{'MB':>8}{'times':>7}")
    for job, words in JOBS.items():
        quarter = None
        for size in (SIZES[job] // 4, SIZES[job]):
            runs = [run(program, words(size), given.seconds) for _ in range(given.rounds)]
            taken = statistics.median(one[1] for one in runs)
            times = "" if quarter is None else f"{taken / max(quarter, 0.001):.1f}"
            print(f"{job:10}{size:6}{runs[0][0]:>12}{taken:9.3f}{max(one[2] for one in runs):8.0f}{times:>7}", flush=True)
            quarter = taken


if __name__ == "__main__":
    main()
