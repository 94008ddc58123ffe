"""Refuses the growths of library calls, one after the other: those that the tests of crates/hol_library_tests make, by refusing.c as growth.py does.

`rt ci` leaves these tests as a program that lists them, or runs one by its name. For each k the k-th growth of a test is refused alone, and then all
from the k-th on. The test has to end with want of memory as its own answer, which is the error that the call gives, or to pass: never with another error,
a wrong value, a signal or not at all. A test passes where what was refused isn't needed. By default some k of each test are tried, the first ones, the last ones and some between; with `--all` each k."""

import argparse
import pathlib
import resource
import subprocess
import sys
import tempfile

import growth

BUILT = growth.HERE.parent / "crates" / "hol_library_tests" / "out" / "hol_library_tests_tests"
PASSED, MEMORY = "passed", "memory"
SAID = "\nthe test failed: its result gives status 1\n"
# The test's own answer where memory is short: the error of calls that can fail for that alone, and the case of the others.
ENDS = {(0, "\ntest result: ok\n", ""): PASSED, (101, "", "error: AllocError" + SAID): MEMORY, (101, "", "error: Memory" + SAID): MEMORY}
# The functions of tests in which growths of these calls are refused: they have to be there, and to tell want of memory.
CALLS = {
    "other_entries_under_a_key_are_refused": "new_constant, new_type, Env::add, Env::import",
    "texts_are_answered": "answer_all",
    "values_are_copied": "Expr::copy, Instance::copy, TacArgs::copy, TypePair::copy",
    "what_is_written_is_copied": "Definition::copy, TacExpr::copy, TypeDefinition::copy",
}


class Tests:
    """The program of a crate's tests, whose growths are refused."""

    def __init__(self, program, page):
        self.program, self.page = program, page

    def runs(self, word, first=0, last=0):
        """What comes of the program with this word where these growths are refused: its status, what it wrote and what it told."""
        self.page.refuse(first, last)
        try:
            ran = subprocess.run([self.program, word], stdin=subprocess.DEVNULL, capture_output=True, env=self.page.environment, timeout=60)
        except subprocess.TimeoutExpired:
            return "it doesn't end"
        return ran.returncode, ran.stdout.decode(errors="replace"), ran.stderr.decode(errors="replace")

    def names(self):
        """The names of the tests, as the program lists them."""
        status, wrote, _ = self.runs("--list")
        *rows, count = wrote.splitlines() or [""]
        names = [row.removesuffix(": test") for row in rows]
        if status or count != f"tests: {len(names)}" or not all(row.endswith(": test") for row in rows):
            sys.exit(f"calls: {self.program} doesn't list its tests: {wrote[:300]}")
        return names


def function(name):
    """The name of a test without those of its modules."""
    return name.rpartition("::")[2]


def of_test(tests, name, every):
    """The faults of a test, how often it was tried, in how many of these tries it told want of memory, and its growths."""
    end = tests.runs(name)
    most = tests.page.growths()
    faults = [] if ENDS.get(end) == PASSED else [f"{name} with memory: {end}"]
    tried, told = 1, 0
    for number in growth.chosen(most, every):
        for last in (number, growth.EVERY):
            end = tests.runs(name, number, last)
            refused, tried = tests.page.refused(), tried + 1
            told += ENDS.get(end) == MEMORY
            if end not in ENDS or not refused:
                faults.append(f"{name}, growths {number} to {last} refused, {refused} of them: {end}")
    return faults, tried, told, most


def main():
    given = argparse.ArgumentParser(description=__doc__, formatter_class=argparse.RawDescriptionHelpFormatter)
    given.add_argument("--program", default=str(BUILT), help="the program of the tests of crates/hol_library_tests")
    given.add_argument("--all", action="store_true", help="each growth of each test")
    given.add_argument("--only", default="", help="tests that have this in their names")
    words = given.parse_args()
    passed = failed = tells = growths = 0
    # A test that fails aborts, and would leave a core file here.
    resource.setrlimit(resource.RLIMIT_CORE, (0, 0))
    with tempfile.TemporaryDirectory() as folder:
        tests = Tests(str(pathlib.Path(words.program).resolve()), growth.Page(folder, "calls refused"))
        names = tests.names()
        for name in sorted({*CALLS} - {*map(function, names)}):
            failed += 1
            print(f"FAILED {name}, of {CALLS[name]}: there is no such test")
        names = [name for name in names if words.only in name]
        for name in names:
            faults, tried, told, most = of_test(tests, name, words.all)
            if function(name) in CALLS and not told:
                faults.append(f"{name} never told want of memory, in {tried} tries")
            passed, failed = passed + tried - len(faults), failed + len(faults)
            tells, growths = tells + told, growths + most
            for fault in faults[:5]:
                print(f"FAILED {fault}", flush=True)
    print(f"calls refused: {passed} passed, {failed} failed; {len(names)} tests, of {growths} growths, told want of memory in {tells} tries")
    return 1 if failed or not passed or not growths else 0


if __name__ == "__main__":
    sys.exit(main())
