#!/usr/bin/env python3
"""Steps a second from Python (clients/holls/api), and by HOL Light's toplevel, where it is installed: the same steps from the same goals.

    python3 bench/states.py [PROGRAM] [--four]

Each of some steps is tried from each of some goals, and its goals are read. HOL Light gets a phrase for each, as one types it: `e (TAC);;`, and
`b ();;` where it fitted. From Python the steps of a goal go together, and then each alone; and a tree of states is gone through in breadth; the same with
statements of the library in place of these goals. Times are processor times of all that takes part, so that a machine that does other work shows the same.
Fewer than LEAST steps a second together or through a tree, more than SHARE of a step's time in Python where they go together, or together fewer than TIMES
as many as HOL Light's, in the better round, end the run with status 1.

With --four, a process of Python with its program goes through a tree on one processor, and then four of them on four, by the clock: on a machine that does
nothing else. Fewer than FOUR times as many steps end the run with status 1 then, too."""

import argparse
import multiprocessing
import os
import pathlib
import sys
import time

HERE = pathlib.Path(__file__).resolve().parent
sys.path.insert(0, str(HERE.parent / "clients"))

import hol_light  # noqa: E402
from holls.api import Project, Prover  # noqa: E402

ROUNDS = 2
LEAST, SHARE, TIMES, FOUR = 5000, 0.5, 8, 3.5
THEORY, STATEMENTS = "lists", 12
GOALS = [
    "!p q. p /\\ q ==> q /\\ p", "!p q r. p /\\ (q \\/ r) <=> p /\\ q \\/ p /\\ r", "!p q. ~(p /\\ q) <=> ~p \\/ ~q", "!p:bool. p ==> p",
    "!P:A->bool Q. (!x. P x /\\ Q x) <=> (!x. P x) /\\ (!x. Q x)", "!(P:A->bool) Q. (?x. P x \\/ Q x) <=> (?x. P x) \\/ (?x. Q x)",
    "!x:A y z. x = y /\\ y = z ==> x = z", "!(f:A->B) g. (!x. f x = g x) ==> f = g", "!(P:A->bool) a. P a ==> ?x. P x",
    "!p q r. (p ==> q ==> r) <=> p /\\ q ==> r", "!(R:A->A->bool). (!x y z. R x y /\\ R y z ==> R x z) ==> !x y z w. R x y /\\ R y z /\\ R z w ==> R x w",
    "!(f:A->B) (g:B->C) (h:A->B) x. (!y. f y = h y) ==> g (f x) = g (h x)"]
STEPS = [
    "GEN_TAC", "CONJ_TAC", "EQ_TAC", "DISCH_TAC", "STRIP_TAC", "REFL_TAC", "REPEAT STRIP_TAC", "REPEAT GEN_TAC THEN EQ_TAC", "REWRITE_TAC []",
    "REPEAT STRIP_TAC THEN ASM_REWRITE_TAC []", "REPEAT GEN_TAC THEN DISCH_TAC THEN ASM_REWRITE_TAC []", "ONCE_REWRITE_TAC [EQ_SYM_EQ]",
    "REWRITE_TAC [FUN_EQ_THM]", "REPEAT GEN_TAC THEN EQ_TAC THEN REPEAT STRIP_TAC THEN ASM_REWRITE_TAC []", "BETA_TAC", "AP_TERM_TAC"]


def seconds_of(process):
    """The processor time of a process that runs."""
    with open(f"/proc/{process}/stat", encoding="ascii") as stream:
        return sum(map(int, stream.read().rsplit(")", 1)[1].split()[11:13])) / os.sysconf("SC_CLK_TCK")


def first_states(prover, theory):
    """The states of the goals; or of statements of a theory of the library, at equal distances, as if they were to be proved at its end."""
    project = Project(prover, str(HERE.parent / "theories"))
    goals = GOALS
    if theory:
        found = list(project.theory(theory).statements.values())
        goals = [found[at * len(found) // STATEMENTS] for at in range(STATEMENTS)]
    behind = project.theory(theory or "logic")
    return [behind.prove("GOAL", goal).state for goal in goals]


def from_python(program, theory=None):
    """Each way with its steps a second of processor time, and the microseconds of a step that Python and the program take."""
    with Prover(program) as prover:
        states = first_states(prover, theory)
        steps = [step + " " * spaces for spaces in range(8) for step in STEPS]  # Each of another text, so that none is found and not run.
        ways = {
            "together": lambda: [after for state in states for after in state.apply_all(steps)],
            "one by one": lambda: [state.apply(" " + step) for state in states for step in steps],
            "through a tree": lambda: list(breadth(states, 8)),
        }
        for way, work in ways.items():
            own, its = time.process_time(), seconds_of(prover.pids[0])
            count = len(work())
            own, its = time.process_time() - own, seconds_of(prover.pids[0]) - its
            yield way, count / (own + its), own / count * 1e6, its / count * 1e6


def breadth(states, most):
    """What is tried from states, from the new ones among those that they lead to, and so on."""
    seen, waiting = set(states), list(states)
    for state in waiting:
        for after in state.apply_all(STEPS):
            yield after
            if after and after not in seen and len(state.steps) < 4 and len(waiting) < 40 * most:
                seen.add(after)
                waiting.append(after)


def by_hol_light():
    """Steps a second of processor time of HOL Light's toplevel."""
    toplevel = hol_light.HolLight()
    try:
        texts = []
        for goal in GOALS:
            toplevel.ask("g `%s`;;" % goal)
            phrases = []
            for step in STEPS:
                fits = "it : goalstack" in toplevel.ask("e (%s);;" % step)
                phrases.append("e (%s);;" % step + (" b ();;" if fits else ""))
                toplevel.ask("b ();;" if fits else "")
            texts.append("\n".join(["g `%s`;;" % goal] + phrases * 5))
        begun = seconds_of(toplevel.process.pid)
        for text in texts:
            toplevel.ask(text)
        return len(GOALS) * len(STEPS) * 5 / (seconds_of(toplevel.process.pid) - begun)
    finally:
        toplevel.close()


def of_the_clock(program, processor, together, counts):
    """Goes through a tree of the library's states once all are ready, on one processor. Tells the steps a second by the clock."""
    os.sched_setaffinity(0, {processor})
    with Prover(program) as prover:
        states = first_states(prover, THEORY)
        together.wait()
        begun = time.monotonic()
        count = len(list(breadth(states, 40)))
        counts.put(count / (time.monotonic() - begun))


def side_by_side(program, number):
    """The steps a second of so many processes of Python, in all, each on a processor of its own."""
    together, counts = multiprocessing.Barrier(number), multiprocessing.Queue()
    places = sorted(os.sched_getaffinity(0))
    processes = [multiprocessing.Process(target=of_the_clock, args=(program, places[at % len(places)], together, counts)) for at in range(number)]
    for process in processes:
        process.start()
    total = sum(counts.get() for _ in processes)
    for process in processes:
        process.join()
    return total


def main():
    words = argparse.ArgumentParser(description=__doc__, formatter_class=argparse.RawDescriptionHelpFormatter)
    words.add_argument("program", nargs="?", help="the built program (the one that holls finds)")
    words.add_argument("--four", action="store_true", help="also four processes side by side")
    given = words.parse_args()
    best, beside, share, times = {}, 0, 1.0, FOUR
    for number in range(1, ROUNDS + 1):
        for theory in (None, THEORY):
            for way, rate, own, its in from_python(given.program, theory):
                print("round %d, from Python, %s, %s: %.0f steps a second; of a step's time Python takes %.0f us, the program %.0f us" % (
                    number, theory or "small goals", way, rate, own, its), flush=True)
                best[theory, way] = max(rate, best.get((theory, way), 0))
                share = min(share, own / (own + its)) if way == "together" else share
        if hol_light.installed():
            rate = by_hol_light()
            beside = max(beside, rate)
            print("round %d, HOL Light's toplevel, small goals: %.0f steps a second" % (number, rate), flush=True)
    if given.four:
        alone, four = side_by_side(given.program, 1), side_by_side(given.program, 4)
        times = four / alone
        print("by the clock: on one processor %.0f steps a second, on four %.0f: %.1f times" % (alone, four, times), flush=True)
    is_enough = all(rate >= LEAST for (_, way), rate in best.items() if way != "one by one") and share <= SHARE and times >= FOUR
    return 0 if is_enough and best[None, "together"] >= TIMES * beside else 1


if __name__ == "__main__":
    sys.exit(main())
