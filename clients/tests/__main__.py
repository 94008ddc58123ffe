"""All tests of the clients, with a last line as the gate's: `python3 clients/tests [NAME..]`; `clients/tests/run` says more.

The tests run side by side, in a few processes, since a part of their time is waiting. Those that share what takes long to make run in the same ones. One
that comes to no end is told with the place where it waits, and tried once more behind all others; then it fails.
"""

import collections
import ctypes
import dataclasses
import faulthandler
import io
import multiprocessing
import multiprocessing.connection
import os
import pathlib
import resource
import signal
import sys
import time
import unittest
from typing import Optional

HERE = pathlib.Path(__file__).resolve().parent
AT_ONCE = 6
"""So many tests are under way: more than the processors of the gate's machine, since they wait for a third of their time."""
SLOW_SECONDS = 10
MOST_TOLD = 12
"""Of so many tests it is told how much of the processors they took."""
MOST_SECONDS = 300
"""A test that takes longer is taken for one that never ends."""
ENDED_SECONDS = 60
"""What it then gets to end its servers, before its process is ended."""
NO_END = "no end"
SHARERS = 2
"""In so many processes at most the tests run that share something, which each of these makes for itself."""
FIRST = ("twenty_seconds", "Sitting", "OverTheLibrary", "undo_each_other", "reads_back", "recalled", "each_lesson", "from_an_empty_file", "every_quotation",
         "test_pairs", "a_search", "Running", "stands_behind_all", "ninja", "test_walk", "Theories.test", "pelletier", "test_python", "constructors",
         "test_package.", "tmux", "test_neovim", "test_vscode", "test_page.", "Proxies", "random_", "faults", "hang", "left_out", "nonsense", "5000")
"""Words of the names of tests that take long, those that take longest first: so they begin."""
SUBREAPER = 36
"""What has Linux hand processes to this one whose own parents have ended, so that it is known what they took."""


@dataclasses.dataclass(frozen=True)
class Test:
    """A test, and what it shares with others, which takes long to make."""

    name: str
    shares: Optional[str]


def tests(suite):
    """The tests of a suite."""
    for test in suite:
        if isinstance(test, unittest.TestSuite):
            yield from tests(test)
        else:
            yield Test(test.id(), getattr(test, "shares", None))


class NeverEnds(BaseException):
    """A test waits for ever. It is no Exception, so that no test takes it for one of its own; `unittest` does take it for an error of the test."""

    seen = 0
    """How often this was raised in this process."""


def never_ends(number, frame):
    """Ends a test that waits for ever, where it waits."""
    NeverEnds.seen += 1
    raise NeverEnds("no end after %d seconds" % MOST_SECONDS)


@dataclasses.dataclass
class Outcome:
    """What came of a test, how long it took, and how much of the processors with all that it started."""

    name: str
    state: str
    written: str
    seconds: float
    processor: float


def processor():
    """The processors' time that this process has had, and those that it started and that have ended."""
    from tests import forked

    used = [resource.getrusage(whose) for whose in (resource.RUSAGE_SELF, resource.RUSAGE_CHILDREN)]
    return sum(one.ru_utime + one.ru_stime for one in used) + forked.spent()


def run(name):
    """Runs a test."""
    begun, had, written, seen = time.monotonic(), processor(), io.StringIO(), NeverEnds.seen
    signal.signal(signal.SIGALRM, never_ends)
    signal.alarm(MOST_SECONDS)
    faulthandler.dump_traceback_later(MOST_SECONDS + ENDED_SECONDS, exit=True)
    try:
        result = unittest.TextTestRunner(stream=written).run(unittest.defaultTestLoader.loadTestsFromName(name))
    finally:
        signal.alarm(0)
        faulthandler.cancel_dump_traceback_later()
    is_failed = result.failures or result.errors or not result.testsRun and not result.skipped
    state = NO_END if NeverEnds.seen > seen else "FAILED" if is_failed else "skipped" if result.skipped else "passed"
    return Outcome(name, state, written.getvalue(), time.monotonic() - begun, processor() - had)


class Worker:
    """A process that runs tests, one after the other. `shares` are what those that it has run share."""

    made = multiprocessing.get_context("fork")

    def __init__(self, others):
        self.ours, theirs = self.made.Pipe()
        self.process = self.made.Process(target=work, args=(theirs, [one.ours for one in (*others, self)]))
        self.process.start()
        theirs.close()
        self.test, self.shares = None, set()

    def begin(self, test):
        """Has a test run, or ends where there is none."""
        self.test = test
        self.shares.add(test.shares if test else None)
        try:
            self.ours.send(test and test.name)
        except OSError:
            pass  # It was lost: nothing will be told of the test.

    def ended(self):
        """What came of its test; nothing where the process was lost."""
        try:
            return self.ours.recv() if self.ours.poll() else None
        except (EOFError, OSError):
            return None


def work(ours, others):
    """Runs tests as they are wanted."""
    from tests import helpers

    for one in others:
        one.close()
    try:
        for name in iter(ours.recv, None):
            ours.send(run(name))
    except (EOFError, BrokenPipeError):
        pass  # Nobody wants to know any more.
    helpers.end()


class Crew:
    """The processes that run tests, and the tests that wait."""

    def __init__(self, found):
        self.waiting, self.workers, self.ending = list(found), [], []

    def outcomes(self):
        """What came of each test, as they end. Of one that was under way when its process was lost, nothing is told."""
        while len(self.workers) < AT_ONCE and self._has_work(Worker(self.workers)):
            pass
        while self.workers:
            awaited = {one: worker for worker in self.workers for one in (worker.ours, worker.process.sentinel)}
            ready = {id(awaited[one]): awaited[one] for one in multiprocessing.connection.wait(list(awaited))}
            yield from filter(None, map(self._next, ready.values()))
        for process in self.ending:
            process.join()

    def _next(self, worker):
        """What came of a process's test; it gets the next one, or another process does in the place of one that was lost."""
        outcome = worker.ended()
        self.workers.remove(worker)
        if outcome is None:
            self.ending.append(worker.process)
        self._has_work(worker if outcome else Worker(self.workers))
        return outcome

    def _has_work(self, worker):
        """Whether there is a test that a process should run, which gets it. Otherwise it ends."""
        test = self._chosen(worker)
        worker.begin(test)
        if test is None:
            self.ending.append(worker.process)
            return False
        self.waiting.remove(test)
        self.workers.append(worker)
        return True

    def _chosen(self, worker):
        """The first test that shares something with those that a process has run, else the first that nothing is to be made for, or not too often."""
        made = collections.Counter(one for other in self.workers for one in other.shares)
        own = (test for test in self.waiting if test.shares and test.shares in worker.shares)
        others = (test for test in self.waiting if test.shares is None or made[test.shares] < SHARERS)
        return next(own, None) or next(others, None)


def dearest(ended, seconds):
    """Words on what the tests took of the processors, and which took most of it."""
    most = sorted(ended, key=lambda one: -one.processor)[:MOST_TOLD]
    return "%.0f s of the processors, most of it %s" % (seconds, ", ".join("%s %.1f" % (".".join(one.name.split(".")[-2:]), one.processor) for one in most))


def told(found):
    """What came of tests, and each is shown that failed or took long."""
    for outcome in Crew(found).outcomes():
        if outcome.state in ("FAILED", NO_END) or outcome.seconds > SLOW_SECONDS:
            print("%s: %s after %.1f s" % (outcome.name, outcome.state, outcome.seconds), flush=True)
        if outcome.state in ("FAILED", NO_END):
            print(outcome.written, flush=True)
        yield outcome


def reap():
    """Takes what has ended and nobody has waited for."""
    try:
        while os.waitpid(-1, os.WNOHANG)[0]:
            pass
    except ChildProcessError:
        pass


def main():
    os.chdir(str(HERE.parents[1]))
    sys.path.insert(0, str(HERE.parent))
    ctypes.CDLL(None).prctl(SUBREAPER, 1, 0, 0, 0)
    from tests import forked, helpers

    found = list(tests(unittest.defaultTestLoader.discover(str(HERE), top_level_dir=str(HERE.parent))))
    found = [test for test in found if not sys.argv[1:] or any(word in test.name for word in sys.argv[1:])]
    found.sort(key=lambda test: next((at for at, word in enumerate(FIRST) if word in test.name), len(FIRST)))
    forked.maker()  # One for all that run here.
    begun, ended = time.monotonic(), list(told(found))
    seconds = time.monotonic() - begun
    states = {it.name: it.state for it in ended}
    again = [test for test in found if states.get(test.name, NO_END) == NO_END]
    if again:
        print("clients: tried once more, since they came to no end: %s" % " ".join(test.name for test in again), flush=True)
        states.update((it.name, it.state) for it in told(again))
    helpers.end()
    reap()
    print("clients: %.0f s by the clock, %s" % (seconds, dearest(ended, processor())), flush=True)
    count = collections.Counter(states.get(test.name, NO_END) for test in found)
    failed = count["FAILED"] + count[NO_END]
    print("clients: %d skipped, %d passed, %d failed" % (count["skipped"], count["passed"], failed))
    return 1 if failed or not found else 0


if __name__ == "__main__":
    sys.exit(main())
