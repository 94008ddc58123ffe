"""How many of HOL Light's statements are found, and how soon: `python3 clients/tests/prover_goals.py [--named] [--missed] [KIND..]`.

goals/hol_light.tsv has the statements, each with the one step that proves it in HOL Light's library. A theorem that says what a goal says, by
whatever name, isn't there while the goal is searched. Each proof that is found is run by the program, `qed` included, and timed with it: by the time
of the processor, so that other work changes nothing.
"""

import argparse
import functools
import multiprocessing
import os
import pathlib
import sys
import time
from typing import Dict, Iterator, List, NamedTuple, Optional, Sequence, Tuple

if __name__ == "__main__":
    sys.path.insert(0, str(pathlib.Path(__file__).resolve().parents[1]))

from holls import check, protocol  # noqa: E402
from holls.files import File  # noqa: E402
from holls.protocol import Error, Goals, Made  # noqa: E402
from holls.prover import clock, reading, scope, typed  # noqa: E402
from holls.prover.asking import Asker, Silent  # noqa: E402
from holls.prover.finder import Finder  # noqa: E402
from holls.prover.knowledge import Knowledge  # noqa: E402
from tests.helpers import BUILT, CLIENTS, ROOT  # noqa: E402

STORED = CLIENTS / "tests" / "goals" / "hol_light.tsv"
KINDS = ("ARITH", "TAUT", "MESON", "SET", "SIMP", "REWRITE")
WORDS = frozenset(("GSYM", "CONJUNCT1", "CONJUNCT2", "SPEC", "SPEC_ALL", "EQT_INTRO", "ARITH", "ETA_AX", "REFL_CLAUSE"))
"""Words in HOL Light's lists that name no theorem of a library."""
SECONDS = 2.0
"""So long a search may take, by the processor's time; users wait for five."""


class Share(NamedTuple):
    """How many goals of a kind are found, and whether with the theorems that HOL Light's step names."""

    kind: str
    is_named: bool
    least: float


SHARES = (Share("ARITH", False, 0.95), Share("TAUT", False, 0.95), Share("MESON", True, 0.85), Share("MESON", False, 0.6),
          Share("SET", False, 0.8), Share("SIMP", True, 0.7), Share("REWRITE", True, 0.7))
MIDDLE_SECONDS, LATE_SECONDS = 0.3, 2.0
"""In so many seconds half of all that are found are found, and 95 %."""


class Stated(NamedTuple):
    """A goal: the kind of step that proves it in HOL Light, the theorems that the step names, and the statement."""

    kind: str
    named: List[str]
    text: str


class Result(NamedTuple):
    """What came of a goal: the steps that were found, and how long it took, with the program's run of them."""

    goal: Stated
    steps: Optional[List[str]]
    seconds: float


def stored(kinds: Sequence[str] = KINDS) -> List[Stated]:
    """The goals of some kinds."""
    found: Dict[str, List[Stated]] = {kind: [] for kind in KINDS}
    for line in STORED.read_text(encoding="utf-8").splitlines():
        if not line.startswith("#"):
            kind, _, _, named, text = line.split("\t")
            found[kind].append(Stated(kind, named.split(), text))
    return [goal for kind in kinds for goal in found[kind]]


@functools.lru_cache(1)
def theories() -> List[File]:
    """The library's files, each behind those that it imports. Nobody changes them."""
    return [file for found in check.ordered([str(ROOT / "theories")]).values() for file in found]


class Watched(Asker):
    """A server whose processor time is counted as it answers."""

    counted = 0.0
    """What all of them have had."""
    _seen = 0.0

    def _answer(self, until: Optional[float]) -> protocol.Reply:
        try:
            return super()._answer(until)
        finally:
            before, self._seen = self._seen, self.processor_seconds()
            Watched.counted += max(0.0, self._seen - before)


def spent() -> float:
    """The searches' clock: the processor's time of this process and of its servers, which other work doesn't change."""
    return time.process_time() + Watched.counted


class Library:
    """All theories in one server, and a copy behind them in which goals are tried."""

    seconds = SECONDS
    """So long a search may take."""

    def __init__(self) -> None:
        self.asker = Watched([str(BUILT)], 120.0)
        self.scope = scope.Scope()
        every = theories()
        for file in every:
            self.asker.add(file.name, [entry.sent for entry in file.theory.entries])
            self.scope.add_file(file)
        self.asker.copy(["import " + file.name for file in every])
        self.count = self.asker.count
        self.known = Knowledge(self.scope)
        self._cores = {name: _core(said) for name, said in self.scope.theorems.items()}

    def stop(self) -> None:
        """Ends the server."""
        self.asker.stop()

    def is_as_made(self) -> bool:
        """Whether the copy has what it had at first, and the server's next replies are those to the next questions."""
        try:
            replies = [self.asker.report(at) for at in (self.count - 1, self.count)]
        except Silent:
            return False
        return self.asker.count == self.count and [type(one) for one in replies] == [Made, Error]

    def withheld(self, term: typed.Term) -> Knowledge:
        """What is known where nothing stands that says what a goal says, or its equation turned round."""
        wanted = _core(term)
        either = (wanted, _core(_turned(wanted)))
        names = frozenset(name for name, core in self._cores.items() if core in either)
        return Knowledge(self.scope.without(names)) if names else self.known

    def has_named(self, goal: Stated) -> bool:
        """Whether each theorem that a goal's step names stands here."""
        return all(name in self.scope.theorems or name in WORDS for name in goal.named)

    def prove(self, goal: Stated, is_named: bool, seconds: Optional[float] = None) -> Result:
        """Searches a proof of a goal, by the theorems that are named where that is said."""
        term = reading.term(goal.text, self.scope.signature, ty=typed.BOOL)
        known = self.withheld(term)
        report = self.asker.step("g GOAL `%s`" % goal.text)
        assert isinstance(report, Goals), goal.text
        named = [name for name in goal.named if name in known.scope.theorems]
        begun = clock.now()
        finder = Finder(self.asker, known.scope, report, goal.text, clock.now() + (seconds or self.seconds), known)
        found = finder.find(named if is_named and named else None)
        if found:
            for step in found:
                self.asker.step(step)
            assert isinstance(self.asker.step("qed"), Made), (goal.text, found)
        taken = clock.now() - begun
        self.asker.back(self.count)
        return Result(goal, found, taken)


_SHARED: List[Library] = []


def shared() -> Library:
    """The library that the tests of a process share, since it takes ten times as long to make as most goals take. One that a test has left otherwise than
    it was is made anew."""
    if _SHARED and not _SHARED[0].is_as_made():
        _SHARED.pop().stop()
    if not _SHARED:
        _SHARED.append(Library())
    return _SHARED[0]


def _core(term: typed.Term) -> typed.Term:
    """A statement without its outer quantifiers, at variables by their places."""
    number = 0
    while True:
        found = typed.quantified(term)
        if not found or found[0] != "!":
            break
        term = typed.opened(found[3], ("v", "%d" % number, found[2]))
        number += 1
    names: Dict[str, str] = {}
    for part in typed.subterms(term):
        if part[0] == "v":
            names.setdefault(part[1], "%d" % len(names))
    return _renamed(term, names)


def _turned(term: typed.Term) -> typed.Term:
    """An equation turned round; any other formula as it is."""
    sides = typed.binary(term)
    return typed.mk_eq(sides[2], sides[1]) if sides and sides[0] in ("=", "<=>") else term


def _renamed(term: typed.Term, names: Dict[str, str]) -> typed.Term:
    if term[0] == "a":
        return ("a", _renamed(term[1], names), _renamed(term[2], names))
    if term[0] == "l":
        return ("l", term[1], term[2], _renamed(term[3], names))
    return ("v", names[term[1]], term[2]) if term[0] == "v" else term


def of_share(share: Share, results: Sequence[Result]) -> str:
    """A line for a share: how many are found, and the times of those."""
    middle, late = times(results)
    found = sum(bool(one.steps) for one in results)
    return "%-8s %s %3d of %3d, %3.0f %% (%2.0f wanted), median %.2f s, 95 %% within %.2f s" % (
        share.kind, "named  " if share.is_named else "unnamed", found, len(results), 100.0 * found / len(results), 100 * share.least, middle, late)


def times(results: Sequence[Result]) -> Tuple[float, float]:
    """In how many seconds half of what is found is found, and 95 %."""
    found = sorted(one.seconds for one in results if one.steps) or [0.0]
    return found[len(found) // 2], found[int(len(found) * 0.95)]


LIBRARY: List[Library] = []
"""A process's own."""


def begin(seconds: float) -> None:
    """Has the library stand in a process, in which a search has so many seconds."""
    clock.use(spent)
    LIBRARY.append(Library())
    LIBRARY[0].seconds = seconds


def search(job: Tuple[int, Stated]) -> Tuple[int, Optional[Result]]:
    """What comes of a goal of a share; None where the step names a theorem that isn't here. A goal at which the program falls silent isn't found."""
    at, goal = job
    is_named = SHARES[at].is_named
    if is_named and not LIBRARY[0].has_named(goal):
        return at, None
    try:
        return at, LIBRARY[0].prove(goal, is_named)
    except Silent:
        seconds = LIBRARY[0].seconds
        LIBRARY.pop().stop()
        begin(seconds)
        return at, Result(goal, None, seconds)


def searched(shares: Sequence[int], processes: int, seconds: float) -> Iterator[Tuple[int, Result]]:
    """The results of the goals of shares, by so many processes, in so many seconds each."""
    jobs = [(at, goal) for at in shares for goal in stored([SHARES[at].kind])]
    with multiprocessing.Pool(processes, begin, (seconds,)) as pool:
        for at, result in pool.imap_unordered(search, jobs):
            if result is not None:
                yield at, result


def main() -> int:
    """Writes a line for each share, and what isn't found where that is asked. The status is 1 where a share or a time isn't met."""
    parser = argparse.ArgumentParser(description=__doc__.split("\n", 1)[0])
    parser.add_argument("kinds", nargs="*", help="of " + ", ".join(KINDS))
    parser.add_argument("--named", action="store_true", help="the shares alone with the theorems that HOL Light's step names")
    parser.add_argument("--unnamed", action="store_true", help="the shares alone without them")
    parser.add_argument("--missed", action="store_true", help="writes what isn't found")
    parser.add_argument("--steps", action="store_true", help="writes what is found")
    parser.add_argument("--jobs", type=int, default=os.cpu_count() or 1, help="so many processes")
    parser.add_argument("--seconds", type=float, default=SECONDS, help="so long a search may take (%g)" % SECONDS)
    given = parser.parse_args()
    shares = [at for at, one in enumerate(SHARES) if (not given.kinds or one.kind in given.kinds) and not (given.unnamed if one.is_named else given.named)]
    results: Dict[int, List[Result]] = {at: [] for at in shares}
    begun = time.monotonic()
    for at, result in searched(shares, given.jobs, given.seconds):
        results[at].append(result)
        if given.missed and not result.steps:
            print("%s %.1f %s [%s]" % (result.goal.kind, result.seconds, result.goal.text, " ".join(result.goal.named)), flush=True)
        if given.steps and result.steps:
            print("%s %.2f %s\n    %s" % (result.goal.kind, result.seconds, result.goal.text, "\n    ".join(result.steps)), flush=True)
    every = [one for found in results.values() for one in found]
    middle, late = times(every)
    print("\n".join(of_share(SHARES[at], found) for at, found in results.items()))
    few = [at for at, found in results.items() if sum(bool(one.steps) for one in found) < SHARES[at].least * len(found)]
    is_slow = middle > MIDDLE_SECONDS or late > LATE_SECONDS
    print("shares: %d goals, %d passed, %d failed; all found in %.2f s in the median, 95 %% within %.2f s; %.0f s" % (
        len(every), len(shares) - len(few), len(few) + is_slow, middle, late, time.monotonic() - begun))
    return 1 if few or is_slow else 0


if __name__ == "__main__":
    sys.exit(main())
