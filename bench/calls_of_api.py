#!/usr/bin/env python3
"""What each call of Python's interface (clients/holls/api) costs, one by one: processor time of Python and of the program, in a table.

    python3 bench/calls_of_api.py [PROGRAM] [--theory NAME]

Each call is made so many times over a theory of theories/ (lists), with texts that differ where the program would else find what it did before; shown is the
time of one, first and later on, since what is asked of a theory is mostly kept. Times are processor times, so other work changes them little.
"""

import argparse
import pathlib
import sys
import time

HERE = pathlib.Path(__file__).resolve().parent
sys.path.insert(0, str(HERE.parent / "clients"))

from holls.api import Project, Prover  # noqa: E402
from states import STEPS  # noqa: E402

TIMES = 40


def seconds_of(process):
    """The processor time of a program, which has one thread."""
    return int(pathlib.Path("/proc/%d/schedstat" % process).read_text().split()[0]) / 1e9


class Table:
    """Rows of calls, each with its times in microseconds."""

    def __init__(self, prover):
        self.prover, self.rows = prover, []

    def measured(self, call):
        """Processor seconds of Python and of the program in a call."""
        own, its = time.process_time(), sum(map(seconds_of, self.prover.pids))
        call()
        return time.process_time() - own, max(0.0, sum(map(seconds_of, self.prover.pids)) - its)

    def add(self, name, call, times=TIMES):
        """A row of a call that takes a number: its first time, and the mean of the others."""
        first = self.measured(lambda: call(0))
        rest = self.measured(lambda: [call(number) for number in range(1, times)])
        self.rows.append((name, sum(first) * 1e6, *(1e6 * part / (times - 1) for part in rest)))

    def show(self):
        print("| call | first, us | later: Python, us | the program, us |\n|---|---:|---:|---:|")
        for name, *times in self.rows:
            print("| %s | %s |" % (name, " | ".join("%.0f" % one for one in times)))


def fill(table, project, name):
    """All calls of the interface."""
    theory = project.theory(name)
    statement = next(name for name, text in theory.statements.items() if len(text) > 40)
    table.add("`Project(prover, folder)`", lambda _: Project(project.prover, str(HERE.parent / "theories")), 3)
    table.add("`project.text(TEXT)`", lambda number: project.text("import %s;;\n(* %d *)" % (name, number), "T"))
    mine = project.text("import %s;;\n" % name, "Mine")
    table.add("`theory.extended(COMMANDS)`", lambda number: mine.extended("new_axiom A%d `p`" % number))
    table.add("`theory.before(NAME)`", lambda _: theory.before(statement))
    table.add("`theory.reports`", lambda _: theory.reports)
    table.add("`theory.theorems()`", lambda _: theory.theorems())
    table.add("`theory.theorems(PATTERN)`", lambda number: theory.theorems("_ = _ %s" % ("" if number % 2 else " ")), 4)
    table.add("`theory.basis(NAME)`", lambda _: theory.basis(statement))
    table.add("`theory.script(NAME)`", lambda _: theory.script(statement))
    table.add("`theory.cited`", lambda _: theory.cited)
    table.add("`theory.check()`", lambda number: mine.extended("g N `x = %s`" % ("x" * (number + 1)), "oops").check(), 8)
    table.add("`theory.proof(NAME)`", lambda _: theory.proof(statement), 8)
    state = theory.proof(statement).state
    table.add("`theory.prove(NAME, STATEMENT)`", lambda number: mine.prove("N%d" % number, "!p q. p /\\ q ==> q /\\ p"))
    table.add("`state.premises(20)`", lambda _: state.premises(20), 8)
    table.add("`state.apply(STEP)`", lambda number: state.apply("REPEAT GEN_TAC" + " " * number))
    table.add("`state.apply(STEP)`, refused", lambda number: state.apply("CONJ_TAC THEN CONJ_TAC" + " " * number))
    steps = [step + " " * spaces for spaces in range(100 * TIMES // len(STEPS) + 1) for step in STEPS]
    table.add("`state.apply_all(STEPS)`, a step of 100", lambda number: state.apply_all(steps[100 * number:100 * number + 100]))
    table.rows[-1] = (table.rows[-1][0], *(one / 100 for one in table.rows[-1][1:]))
    table.add("`state.shown`", lambda _: state.shown)
    small = mine.prove("SMALL", "!p q. p /\\ q ==> q /\\ p").state
    table.add("`state == other`, `hash(state)`", lambda _: (state == small, hash(state)))
    done = small.apply("REPEAT STRIP_TAC THEN ASM_REWRITE_TAC []")
    table.add("`state.follow(COMMANDS)`", lambda number: small.follow(["e REPEAT STRIP_TAC" + " " * number, "r 1"]))
    table.add("`state.rotate()`", lambda _: small.apply("REPEAT STRIP_TAC").rotate())
    table.add("`state.qed(NAME)`", lambda number: done.qed("SMALL%d" % number))
    table.add("`refused.sentence`", lambda number: small.apply("CONJ_TAC" + " " * number).sentence)
    table.add("`project.to_ocaml()`", lambda _: project.to_ocaml(), 2)


def main():
    words = argparse.ArgumentParser(description=__doc__, formatter_class=argparse.RawDescriptionHelpFormatter)
    words.add_argument("program", nargs="?", help="the built program (the one that holls finds)")
    words.add_argument("--theory", default="lists", metavar="NAME", help="the theory (lists)")
    given = words.parse_args()
    with Prover(given.program) as prover:
        table = Table(prover)
        table.add("`Project(prover, file)`, with imports", lambda _: Project(prover, str(HERE.parent / "theories" / (given.theory + ".hol"))), 3)
        fill(table, Project(prover, str(HERE.parent / "theories")), given.theory)
        table.show()
    return 0


if __name__ == "__main__":
    sys.exit(main())
