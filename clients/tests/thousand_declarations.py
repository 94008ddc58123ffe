"""Random packages by a seed, all of which the program has to accept: `python3 clients/tests/thousand_declarations.py [NUMBER [SEED]]`.

NUMBER, or 1,000, of each package. Each process has a program in which the library stands once; a batch is a theory behind it, of which every theorem that
its commands make has to stand.
"""

import multiprocessing
import os
import pathlib
import sys
import time

if __name__ == "__main__":
    sys.path.insert(0, str(pathlib.Path(__file__).resolve().parents[1]))

from holls.protocol import Goals, Made  # noqa: E402
from holls.prover.asking import Asker  # noqa: E402
from tests.helpers import BUILT  # noqa: E402
from tests.random_declarations import Declarations, corrected, text  # noqa: E402
from tests.test_packages import library, read  # noqa: E402

PACKAGES = {
    "define_type": ("type",), "define": ("function", "numbers", "matrix", "measure"), "inductive": ("relation",), "record": ("record",),
    "specification": ("specification",)}
TOGETHER = 12
"""So many stand in one theory."""
MOST_WRONG = 0.02
"""The share of declarations that may be wrong: the types of some can't be found, or their theorems are too long."""
WORDS = frozenset(("import", "g", "e", "qed", "new_definition", "new_basic_type_definition"))
"""What a package may stand for: nothing of it is an axiom."""
PROGRAM = []


def begin():
    """Has a process's program stand."""
    PROGRAM.append(Asker([str(BUILT)], 300.0))
    for file in library():
        PROGRAM[0].add(file.name, [entry.sent for entry in file.theory.entries])


def theorems(commands):
    """The names of the theorems that commands make."""
    for one in commands:
        words = one.split("`")[0].split()
        if words[0] in ("g", "new_definition"):
            yield words[1]
        elif words[0] == "new_basic_type_definition":
            yield from words[4:6]


def spent():
    """What this process and its program have had of the processors, in seconds."""
    return time.process_time() + PROGRAM[0].processor_seconds()


def run(job):
    """Makes a batch. Answers its package, how many are made, what is wrong, what the program refuses, and the processors' seconds for it."""
    package, seed, number = job
    begun = spent()
    made, wrong, file = corrected(Declarations(seed).some(number, PACKAGES[package]), read)
    commands = [one.text for one in file.commands]
    refused = ["%s isn't a package's" % one for one in commands if one.split()[0] not in WORDS]
    PROGRAM[0].copy(commands)
    standing = set(PROGRAM[0].theorems())
    if not standing.issuperset(theorems(commands)):
        reports = ((one, PROGRAM[0].report(at)) for at, one in enumerate(commands))
        refused += ["%s: %s" % (one, report) for one, report in reports if not isinstance(report, (Goals, Made))]
    PROGRAM[0].forget()
    return package, len(made), wrong, refused, spent() - begun


def main():
    """Writes what is refused, and how many were made in which time."""
    if not BUILT.is_file():  # A pool whose processes end at once begins others for ever.
        print("declarations: there is no program %s" % BUILT)
        return 1
    number, seed = (int(word) for word in (sys.argv[1:] + ["1000", "1"][len(sys.argv) - 1:])[:2])
    begun, made, wrong, refused, seconds = time.monotonic(), dict.fromkeys(PACKAGES, 0), [], [], 0.0
    jobs = [(package, seed * 1_000_000 + at, min(TOGETHER, number - at)) for at in range(0, number, TOGETHER) for package in PACKAGES]
    library()
    with multiprocessing.Pool(os.cpu_count() or 1, begin) as pool:
        for package, some, told, errors, had in pool.imap_unordered(run, jobs):
            made[package] += some
            seconds += had
            wrong += told
            refused += errors
    for one in refused[:40]:
        print(one[:400])
    is_wrong = len(wrong) > MOST_WRONG * number * len(PACKAGES)
    for commands, said in wrong if is_wrong else wrong[:3]:
        print("told as wrong: %s: %s" % (said, text([commands])[:200].replace("\n", " ")))
    print("declarations: %s, %d told as wrong, %d refused, %.1f s, %.1f s of the processors" % (
        ", ".join("%d %s" % (some, package) for package, some in made.items()), len(wrong), len(refused), time.monotonic() - begun, seconds))
    return 1 if refused or is_wrong or not all(made.values()) else 0


if __name__ == "__main__":
    sys.exit(main())
