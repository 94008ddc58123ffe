"""Which commands are asked for next."""

from __future__ import annotations

from collections import deque
from typing import Deque, Iterable, Iterator, List, Optional, Sequence, Set

from holls.files import File
from holls.theory import Job, Theory


def unknown(theory: Theory, places: Iterable[int]) -> Iterator[Job]:
    """The jobs at those places of which nothing is known and nothing was asked, and which have to be asked for."""
    most = theory.frontier
    for at in places:
        if at < most and _is_unknown(theory, at):
            yield theory, at


def _is_unknown(theory: Theory, at: int) -> bool:
    entry = theory.entries[at]
    return entry.report is None and not entry.is_asked and not entry.is_hidden


def is_known(files: Sequence[File]) -> bool:
    """Whether every command that is sent has a report."""
    return all(entry.report is not None or entry.is_hidden for file in files for entry in file.theory.entries)


class Sweep:
    """A queue of jobs, gone through once; it is filled again where commands are still unknown at its end."""

    def __init__(self) -> None:
        self.files: List[File] = []
        self._asked: Optional[Set[int]] = None
        self.is_resting = False
        self._first: Deque[Job] = deque()
        self._jobs: Deque[Job] = deque()

    def begin(self, files: Sequence[File]) -> None:
        """Sets what is asked for."""
        self.files = list(files)
        self._asked = None
        self._first.clear()
        self._jobs.clear()

    def prefer(self, jobs: Iterable[Job]) -> None:
        """Puts jobs before all others. While the sweep is resting these alone are asked for."""
        for job in reversed(list(jobs)):
            if not self._first or self._first[0] != job:
                self._first.appendleft(job)

    def asks(self, theory: Theory) -> bool:
        """Whether a theory's commands are asked for. A file's theory is one and the same for all its texts."""
        if self._asked is None:
            self._asked = {id(file.theory) for file in self.files}
        return id(theory) in self._asked

    def pick(self) -> Optional[Job]:
        """The next job."""
        job = _take(self._first)
        if job is None and not self.is_resting:
            job = _take(self._jobs)
            if job is None:
                self._fill()
                job = _take(self._jobs)
        return job

    def _fill(self) -> None:
        for file in self.files:
            if not file.theory.is_settled:
                self._jobs.extend(unknown(file.theory, range(file.theory.frontier)))


def _take(jobs: Deque[Job]) -> Optional[Job]:
    """The first job of a queue of which nothing is known and nothing was asked. One that needn't be asked for yet stays."""
    later: List[Job] = []
    found = None
    while jobs and found is None:
        theory, at = jobs.popleft()
        if at < len(theory.entries) and _is_unknown(theory, at):
            if at < theory.frontier:
                found = theory, at
            else:
                later.append((theory, at))
    jobs.extendleft(reversed(later))
    return found
