#!/usr/bin/env python3
"""`holls check` on many generated theories: by its own programs, from what it remembers, by Ninja, and after one theory's change by both.

    python3 bench/farm.py [PROGRAM] [--theories N] [--jobs N]

Each theory imports some of those before it, has a definition and proofs of its own, and hangs together with at most 60 others. What is printed are
seconds by the clock and of the processors, and how many theories were run. A run that doesn't end with the status, or doesn't run the theories, that it has to
ends with status 1. Needs ninja (Debian's ninja-build) for its part."""

import argparse
import os
import pathlib
import random
import resource
import shutil
import subprocess
import sys
import tempfile
import time

HERE = pathlib.Path(__file__).resolve().parent
HOLLS = HERE.parent / "clients" / "bin" / "holls"
SERVE = HERE.parent / "crates" / "hol_serve" / "out" / "hol_serve"
CLUSTER, MOST_IMPORTS, PROOFS = 60, 3, 8


def text(number, random_, names):
    """A theory that defines a function over those of what it imports, with proofs."""
    imports = random_.sample(names, min(len(names), random_.randint(1, MOST_IMPORTS))) if names else []
    lines = ["import %s;;" % name for name in imports]
    body = "x:A"
    for name in imports:
        body = "F_%s (%s)" % (name, body)
    lines.append("new_definition F_T%03d_DEF `F_T%03d = \\x:A. (\\y:A. y) (%s)`;;" % (number, number, body))
    lines += ["g F_T%03d_%d `!(x:A) (y:A). F_T%03d x = y ==> %sy = F_T%03d x`;;\ne REPEAT GEN_TAC;;\ne DISCH_TAC;;\ne ASM_REWRITE_TAC [];;\nqed;;" % (
        number, at, number, "x = x ==> " * at, number) for at in range(PROOFS)]
    return "\n".join(lines) + "\n", imports


def written(folder, number):
    """Writes so many theories. Answers by names what imports them, by way of others too."""
    random_, importers = random.Random(94), {}
    for first in range(0, number, CLUSTER):
        names = []
        for at in range(first, min(number, first + CLUSTER)):
            name = "T%03d" % at
            told, imports = text(at, random_, names)
            (folder / (name + ".hol")).write_text(told)
            names.append(name)
            importers[name] = {name}
            for other in importers.values():
                if other.intersection(imports):
                    other.add(name)
    return importers


class Runs:
    """Commands in a folder, and what they took."""

    def __init__(self, folder):
        self.folder, self.is_right = folder, True

    def run(self, what, words, status=0):
        """Runs a command, and tells what it took. Answers what it wrote."""
        before, begun = resource.getrusage(resource.RUSAGE_CHILDREN), time.monotonic()
        done = subprocess.run(words, cwd=self.folder, stdout=subprocess.PIPE, stderr=subprocess.STDOUT)
        after = resource.getrusage(resource.RUSAGE_CHILDREN)
        used = after.ru_utime + after.ru_stime - before.ru_utime - before.ru_stime
        print("%-52s %6.2f s, %6.2f s of the processors, status %d" % (what, time.monotonic() - begun, used, done.returncode), flush=True)
        output = done.stdout.decode()
        self.expect(done.returncode == status, "the status isn't %d:\n%s" % (status, output))
        return output

    def expect(self, is_right, told):
        """Notes what is wrong."""
        if not is_right:
            self.is_right = False
            print("WRONG: " + told[-1000:], flush=True)


def main():
    words = argparse.ArgumentParser(description=__doc__, formatter_class=argparse.RawDescriptionHelpFormatter)
    words.add_argument("program", nargs="?", default=str(SERVE), help="the built program")
    words.add_argument("--theories", type=int, default=300, help="so many (300)")
    words.add_argument("--jobs", type=int, default=os.cpu_count() or 1, help="so many at once (one for each processor)")
    given = words.parse_args()
    with tempfile.TemporaryDirectory() as name:
        runs = Runs(pathlib.Path(name))
        theories = runs.folder / "theories"
        theories.mkdir()
        importers = written(theories, given.theories)
        check = [sys.executable, str(HOLLS), "check", "--server", os.path.abspath(given.program), "--jobs", str(given.jobs)]
        remembered = [*check, "--cache", "kept", "theories"]
        first = runs.run("holls check", [*check, "theories"])
        runs.expect("in all: %d files" % given.theories in first and "0 errors" in first, first)
        runs.expect(runs.run("holls check, which remembers", remembered) == first, "another answer than without --cache")
        runs.expect(runs.run("holls check, remembered", remembered) == first, "another answer from what is remembered")
        changed = max(importers, key=lambda name: len(importers[name]))
        path = theories / (changed + ".hol")
        path.write_text(path.read_text() + "g LATER `!x:A. x = x`;;\ne GEN_TAC;;\ne REFL_TAC;;\nqed;;\n")
        runs.run("the same with a theorem more in %s (%d import it)" % (changed, len(importers[changed]) - 1), remembered)
        if shutil.which("ninja"):
            by_ninja(runs, check, given.jobs, changed, importers, path)
    return 0 if runs.is_right else 1


def by_ninja(runs, check, jobs, changed, importers, path):
    """The same by Ninja: all, none, and after a change and an error what the theory's importers are."""
    ninja = ["ninja", "-f", "plan.ninja", "-j", str(jobs)]
    runs.run("the plan for Ninja", [*check[:3], *check[3:5], "--quiet", "--ninja", "plan.ninja", "theories"])
    output = runs.run("ninja", ninja)
    runs.expect("[%d/%d]" % (len(importers), len(importers)) in output, output)
    runs.expect("no work to do" in runs.run("ninja again", ninja), "something was run again")
    time.sleep(1)  # So that the file is newer for Ninja.
    path.write_text(path.read_text() + "g LAST `!x:A. x = x`;;\ne GEN_TAC;;\ne REFL_TAC;;\nqed;;\n")
    output = runs.run("ninja with a theorem more in %s" % changed, ninja)
    run = {name for name in importers if "check theories/%s.hol" % name in output}
    last = "[%d/%d]" % (len(importers[changed]), len(importers[changed]))
    runs.expect(last in output and run <= importers[changed], "not what imports it was run: %s" % output)
    path.write_text(path.read_text() + "g WRONG `F`;;\ne REFL_TAC;;\nqed;;\n")
    output = runs.run("ninja -k 0 with an error in it", [*ninja, "-k", "0"], 1)
    runs.expect("%s.hol:" % changed in output and "error" in output, output)


if __name__ == "__main__":
    sys.exit(main())
