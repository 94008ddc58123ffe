#!/usr/bin/env python3
"""How many rules of the kernel and substitutions are done in a second, and what is asked of shared types.

    python3 bench/kernel.py --program PATH [--rounds N] [--only PREFIX]

PATH is the built program, OUT/hol_bench (bench/programs.py). Its jobs:

  refl, trans, mk_comb, beta, inst, inst_type
            a rule over the basis without items, on a term of so many applications, of 5 nodes each
  tower     a variable under so many applications is replaced: the whole term is made anew
  beside    a variable beside so many applications, in which it does not occur: these keep their nodes
  captures  a variable under so many binders, all of whose variables are free in the term that comes in: each binder is renamed
  types     a type for the type variable of all of so many applications: the whole term is made anew
  types_beside
            a type for a type variable that does not occur in so many applications: these keep their nodes
  size      the sizes of 60 types, whose trees have 2, 4, .. 2 to the 60 leaves over 60 shared nodes
  order     the orders of these types against a type variable
  missing   what stands under a name, in a theory with so many entries that has none of it
  checkpoint
            a theory to go on from, which shares the older part of one with so many entries

Each line has the size that the job is given, its answer (the nodes of the result or the conclusion, 20,001 for more; of `size` the sum of the sizes, of `order` how many come after the variable, of `missing` 0, of `checkpoint` 1), and how many
times it is done in a second of processor time. The times are medians of the rounds, less those of a run that prepares the same and does nothing. A round
does the job so often that it takes at least a third of a second, so that starting the program doesn't show.

Needs Python 3.8 and Linux, and nothing else.
"""

import argparse
import os
import resource
import statistics
import subprocess

RULES = ("refl", "trans", "mk_comb", "beta", "inst", "inst_type")
HEIGHTS = ((4, 20000), (40, 2000), (400, 200))
JOBS = tuple((rule, height, times) for rule in RULES for height, times in HEIGHTS) + (
    ("tower", 200, 5000),
    ("tower", 3990, 200),
    ("beside", 200, 200000),
    ("beside", 3990, 200000),
    ("captures", 10, 20000),
    ("captures", 100, 1000),
    ("captures", 1000, 10),
    ("types", 200, 5000),
    ("types", 3990, 200),
    ("types_beside", 200, 200000),
    ("types_beside", 3990, 200000),
    ("size", 60, 1000000),
    ("order", 60, 1000000),
    ("missing", 100, 1000000),
    ("missing", 10000, 1000000),
    ("checkpoint", 100, 100000),
    ("checkpoint", 10000, 100000),
)


def processor_seconds(program, *words):
    """The processor time of one run by these words, and its answer."""
    before = resource.getrusage(resource.RUSAGE_CHILDREN)
    done = subprocess.run([program, *map(str, words)], check=True, capture_output=True, text=True)
    after = resource.getrusage(resource.RUSAGE_CHILDREN)
    return after.ru_utime + after.ru_stime - before.ru_utime - before.ru_stime, done.stdout.strip()


def enough(program, job, size, times):
    """How often the job is done in a round that takes at least a third of a second."""
    while True:
        seconds = processor_seconds(program, job, size, times)[0]
        if seconds >= 0.33 or times >= 1_000_000_000:
            return times
        times = min(int(times * max(2, min(50, 0.5 / max(seconds, 0.01)))), 1_000_000_000)


def rate(program, job, size, times, rounds, middle=statistics.median):
    """How often the job is done in a second of processor time, by the middle of the rounds, and its answer."""
    times = enough(program, job, size, times)
    runs = [processor_seconds(program, job, size, times) for _ in range(rounds)]
    idle = [processor_seconds(program, job, size, 0) for _ in range(rounds)]
    seconds = middle(run[0] for run in runs) - middle(run[0] for run in idle)
    return times / max(seconds, 1e-6), runs[0][1]


def main():
    parser = argparse.ArgumentParser(description=__doc__, formatter_class=argparse.RawDescriptionHelpFormatter)
    parser.add_argument("--program", required=True)
    parser.add_argument("--rounds", type=int, default=5)
    parser.add_argument("--only", default="", help="the jobs whose names begin so")
    given = parser.parse_args()
    program = os.path.abspath(given.program)
    print(f"{'job':14}{'size':>6}{'answer':>11}{'a second':>12}{'ms':>12}")
    for job, size, times in JOBS:
        if not job.startswith(given.only):
            continue
        done, answer = rate(program, job, size, times, given.rounds)
        print(f"{job:14}{size:6}{answer:>11}{done:12,.0f}{1000 / done:12.4f}")


if __name__ == "__main__":
    main()
