#!/usr/bin/env python3
"""How many statements of theories/ examples/python/search.py proves, from the statements alone.

    python3 bench/searches.py [PROGRAM] [--goals N] [--tries N] [--jobs N]

Of all that `g` commands state in theories/, in the order of the imports, so many are taken at equal distances; each gets so many tries, and may cite what stands
above it in its file. Fewer than WANTED of 100 found, or a proof that isn't accepted, ends the run with status 1.
"""

import argparse
import concurrent.futures
import pathlib
import sys
import time

HERE = pathlib.Path(__file__).resolve().parent
sys.path[:0] = [str(HERE.parent / "clients"), str(HERE.parent / "examples" / "python")]

from holls.api import Project, Prover, Refused  # noqa: E402
from search import search  # noqa: E402

WANTED = 60
GOALS, TRIES, SECONDS = 100, 12_000, 60


def chosen(project, number):
    """So many pairs of a theory's name and a statement's, at equal distances."""
    every = [(name, statement) for name in project.names for statement in project.theory(name).statements]
    return [every[int((at + 0.5) * len(every) / number)] for at in range(min(number, len(every)))]


def tried(project, theory, name, tries):
    """What came of a statement: its commands, or None; and the seconds that it took."""
    begun = time.monotonic()
    proof = project.theory(theory).proof(name)
    found = None if isinstance(proof, Refused) else search(proof.state, tries)
    theorem = found.qed() if found is not None else None
    if isinstance(theorem, Refused):
        raise SystemExit("%s: the proof that was found isn't accepted: %s" % (name, theorem))
    return theorem, time.monotonic() - begun


def main():
    words = argparse.ArgumentParser(description=__doc__, formatter_class=argparse.RawDescriptionHelpFormatter)
    words.add_argument("program", nargs="?", help="the built program (the one that holls finds)")
    words.add_argument("--goals", type=int, default=GOALS, help="so many statements (%d)" % GOALS)
    words.add_argument("--tries", type=int, default=TRIES, help="so many steps are tried for each (%d)" % TRIES)
    words.add_argument("--jobs", type=int, default=1, help="so many side by side (1)")
    given = words.parse_args()
    with Prover(given.program, processes=given.jobs, turns=300, seconds=SECONDS) as prover, concurrent.futures.ThreadPoolExecutor(given.jobs) as pool:
        project = Project(prover, str(HERE.parent / "theories"))
        pairs = chosen(project, given.goals)
        count = 0
        for (theory, name), (theorem, took) in zip(pairs, pool.map(lambda pair: tried(project, *pair, given.tries), pairs)):
            count += theorem is not None
            print("%-40s %6.1f s  %s" % (theory + "." + name, took, "; ".join(theorem.script[1:-1]) if theorem else "none found"), flush=True)
    print("%d of %d" % (count, len(pairs)))
    return 0 if count * 100 >= WANTED * len(pairs) else 1


if __name__ == "__main__":
    sys.exit(main())
