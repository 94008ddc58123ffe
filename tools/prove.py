#!/usr/bin/env python3
"""Proves a tree by `rt ci`, with its checks put side by side by another rule, and tries the wrong bodies of this tree over the libraries as they come.

    python3 tools/prove.py TREE [--minutes FILE]

TREE is a copy of this tree without crates/*/must-fail, in which `rt ci` can run. What it checks there, and what counts as passed, is the toolchain's own:
this loads the command `rt` and has it run its `ci` as it stands, but for two things that decide no verdict.

- Which checks go on at one time, and by how many processes each. `rt ci` divides the processors among all tasks that are ready, most of which have
  nothing to do (the tests of a crate that has none), so a crate that all others wait for gets one process while processors idle. Here it gets all that
  are idle, but one of them where others are ready, and two at least, of four, where the most work waits for it. With RT_JOBS=N, N checks of one process each go
  on at a time, as by `rt ci`.
- The sum of what a crate is made from, which `rt ci` makes anew along each path to a crate below it, 104,000 for the highest, and then doesn't use:
  it is made once.

That they decide none is tested in each run, and told in its line `judge`: each task of `rt ci` was run once, after all that it waits for, and `rt ci` judges by what its own tasks
gave; and at the end each sum is made again from those of the crates below. tools/judge.py compares with an unchanged `rt ci` over a small tree.

The wrong bodies are tried by tests/wrong_bodies.py, where nothing else is ready. Where the toolchain's `rt` isn't as this knows it, `rt ci` itself is
run, and then they are. FILE gets the processor seconds by crate, as tools/minutes.py reads them. Status 0 where all passed."""

import argparse
import importlib.machinery
import importlib.util
import inspect
import os
import pathlib
import shutil
import subprocess
import sys
import time
from concurrent.futures import FIRST_COMPLETED, ThreadPoolExecutor, wait

import minutes

sys.path.append(str(pathlib.Path(__file__).resolve().parent.parent / "tests"))
import wrong_bodies  # noqa: E402 (tests/wrong_bodies.py)

# A check by more processes gains little.
MOST = 4
# What the first in line gets at least, though other checks have all processors: all else waits for it in the end. Not where there are two.
LEAST = 2
# Of what `rt` expects of a check's memory, what it takes where the libraries' statements alone are loaded; and what each further process adds to it.
TAKEN, ADDED = 0.5, 0.4
# The memory that is expected of a check of wrong bodies, in bytes.
EDITS_TAKE = 3_000_000_000


def toolchain():
    """The command `rt` as a module."""
    path = os.path.realpath(shutil.which("rt") or "rt")
    sys.path.insert(0, os.path.dirname(path))
    loader = importlib.machinery.SourceFileLoader("rt", path)
    module = importlib.util.module_from_spec(importlib.util.spec_from_loader("rt", loader))
    loader.exec_module(module)
    return module


def is_known(rt):
    """Whether `rt` has what this puts another thing in place of, and what it uses."""
    names = ("main", "ci", "in_lanes", "processors", "free", "rtlib")
    return all(hasattr(rt, it) for it in names) and [*inspect.signature(rt.in_lanes).parameters] == ["tasks"] and hasattr(rt.rtlib.Crate, "stamp")


def in_order(tasks):
    """The tasks, first those with the most work behind them, counted in lines along a chain. Each stands after those that it waits for."""
    behind = dict.fromkeys(tasks, 0)
    for key in reversed([*tasks]):
        below, lines = tasks[key][:2]
        behind[key] += lines
        for it in below:
            behind[it] = max(behind[it], behind[key])
    return sorted(tasks, key=lambda it: -behind[it])


class Room:
    """The processors and the memory, and what the tasks that go on take of them."""

    def __init__(self, processors, memory, jobs):
        # (one process more than there are four processors: some of those of a check end before the others)
        self.lanes, self.memory, self.jobs, self.taken = jobs or processors + processors // 4, memory, jobs, {}
        self.least = 1 if jobs else max(1, min(LEAST, processors // 2))

    def enter(self, key, needs, others, is_first):
        """How many processes a task gets now beside those that go on, where so many others wait; 0 where it has to wait."""
        least = self.least if is_first else 1
        idle = self.lanes - sum(jobs for jobs, _ in self.taken.values())
        free = self.memory - sum(memory for _, memory in self.taken.values())
        if idle <= 0 and least == 1 or self.taken and TAKEN * needs > free:
            return 0
        fitting = 1 + max(0, int((free / (TAKEN * needs) - 1) / ADDED))
        jobs = 1 if self.jobs else max(1, min(MOST, max(idle - min(others, 1), least), fitting))
        self.taken[key] = jobs, TAKEN * needs * (1 + ADDED * (jobs - 1))
        return jobs

    def leave(self, key):
        return self.taken.pop(key, (1, 0))[0]


def run(tasks, room):
    """Runs the tasks, each after those that it waits for, and returns what each gave. A task without work takes no room."""
    left, running, given = in_order(tasks), {}, {}
    rank = {key: at for at, key in enumerate(left)}
    with ThreadPoolExecutor(len(tasks)) as pool:
        while left or running:
            ready = [key for key in left if all(below in given for below in tasks[key][0])]
            waiting = sum(tasks[key][1] > 0 for key in ready)
            first = min([*left, *(key for key, _ in running.values())], key=rank.get)
            for key in ready:
                _, lines, needs, call = tasks[key]
                waiting -= lines > 0
                jobs = room.enter(key, needs, waiting, key == first) if lines else 1
                if jobs:
                    left.remove(key)
                    running[pool.submit(call, given, jobs)] = key, time.time()
            for it in wait(running, return_when=FIRST_COMPLETED).done:
                key, begun = running.pop(it)
                given[key] = it.result()
                if tasks[key][1]:
                    told(key, room.leave(key), time.time() - begun)
    return given


class Judge:
    """What `rt ci` hands over, watched: its tasks, and the sums of what crates are made from."""

    def __init__(self, make_sum):
        self.make_sum, self.sums, self.begun, self.tasks, self.faults = make_sum, {}, [], {}, []

    def sum_of(self, crate):
        """The sum, which is made once for each value that stands for a crate."""
        if crate not in self.sums:
            self.sums[crate] = self.make_sum(crate)
        return self.sums[crate]

    def watched(self, key, task):
        """The task, which tells when it is begun, and what it lacks then."""
        waits, lines, needs, call = task

        def begin(given, jobs):
            self.begun.append(key)
            self.faults += [f"{' '.join(key)} was begun before {' '.join(below)} had ended" for below in waits if below not in given]
            return call(given, jobs)

        return waits, lines, needs, begin

    def in_lanes(self, tasks, others, room):
        """Runs the tasks of `rt ci`, and others beside them, and answers what its own gave."""
        self.tasks = tasks
        given = run({**{key: self.watched(key, task) for key, task in tasks.items()}, **others}, room)
        return {key: given[key] for key in tasks}

    def ends(self):
        """Says what was seen, and answers whether nothing is amiss. Each sum is made from the files and the sums of the crates below, so if each that is made again is the one that
        was kept, all are those that `rt ci` makes without keeping any."""
        again = [f"the sum of {crate.name} is another one now" for crate, kept in [*self.sums.items()] if self.make_sum(crate) != kept]
        once = [] if sorted(self.begun) == sorted(self.tasks) else ["a task of `rt ci` wasn't run once"]
        faults = self.faults + again + once
        print("\n".join([*(f"FAILED {fault}" for fault in faults),
                         f"judge: {len(self.tasks)} tasks of rt ci, each run once, after those that it waits for; {len(self.sums)} sums made again; {len(faults)} faults"]), flush=True)
        return not faults


def told(key, jobs, seconds):
    if key[1] in ("proof", "tests"):
        print(f"{' '.join(key)}: {seconds / 60:.1f} minutes by {jobs} process{'es' * (jobs > 1)}", flush=True)


def tries(trial, batches):
    """The tasks of trying wrong bodies: each waits for the libraries below its crate."""
    tasks = {}
    for at, (sources, batch) in enumerate(batches):
        waits = [(it, "proof") for it in trial.crates.below(sources.name)]
        tasks[sources.name, f"wrong bodies {at}"] = waits, 1, EDITS_TAKE, lambda given, jobs, it=(sources, batch): trial.try_all(*it)
    return tasks


def prove(tree, trial):
    """Runs `rt ci` in the tree, and with it the trial, and returns the status of `rt ci`."""
    batches = trial.batches(wrong_bodies.edits_by_crate(trial.crates.uses)[0])
    rt, number = toolchain(), os.environ.get("RT_JOBS", "")
    jobs = int(number) if number.isdigit() else 0
    if not is_known(rt):
        print("prove: the toolchain's rt isn't as this script knows it: `rt ci` as it stands", flush=True)
        status = subprocess.run(["rt", "ci"], cwd=tree).returncode
        trial.run(batches, jobs or min(os.cpu_count() or 1, 4))
        return status
    judge = Judge(rt.rtlib.Crate.stamp)
    rt.in_lanes = lambda tasks: judge.in_lanes(tasks, tries(trial, batches), Room(rt.processors(), 0.85 * rt.free(), jobs))
    rt.rtlib.Crate.stamp = lambda crate: judge.sum_of(crate)
    os.chdir(tree)
    status = rt.main(["ci"])
    return status if judge.ends() else 1


def main():
    words = argparse.ArgumentParser(description="Proves a tree by `rt ci`, and tries the wrong bodies of this one.")
    words.add_argument("tree", type=pathlib.Path, metavar="TREE", help="a copy of this tree without crates/*/must-fail")
    words.add_argument("--minutes", type=pathlib.Path, metavar="FILE", help="what gets the processor seconds of each crate")
    words = words.parse_args()
    tree = words.tree.resolve()
    file = words.minutes.resolve() if words.minutes else None
    trial = wrong_bodies.Trial(wrong_bodies.Crates(tree))
    with minutes.Watch() as watch:
        status = prove(tree, trial)
    if file:
        with file.open("a") as told:
            told.writelines(watch.lines())
    print(f"edits: {trial.passed} passed, {trial.failed} failed", flush=True)
    return 1 if trial.failed else status


if __name__ == "__main__":
    sys.exit(main())
