"""What groups of processes use, as Linux tells it in /proc. Elsewhere nothing is known, and the system's own limits of a process hold alone."""

from __future__ import annotations

import os
from typing import Dict, Iterable, NamedTuple

_TICKS = os.sysconf("SC_CLK_TCK") if hasattr(os, "sysconf") else 100
_PAGE = os.sysconf("SC_PAGE_SIZE") if hasattr(os, "sysconf") else 4096


class Usage(NamedTuple):
    """Seconds of the processor, those of children that have ended counted, and bytes of memory."""

    seconds: float = 0.0
    memory: int = 0


def of_groups(groups: Iterable[int]) -> Dict[int, Usage]:
    """What each of some groups uses: one walk for all."""
    found = {group: Usage() for group in groups}
    for name in _processes() if found else ():
        told = _told(name)
        group = int(told[2]) if len(told) > 21 else None  # None of one that has just ended.
        if group in found:
            ticks = sum(int(part) for part in told[11:15])
            was = found[group]
            found[group] = Usage(was.seconds + ticks / _TICKS, was.memory + int(told[21]) * _PAGE)
    return found


def _processes() -> Iterable[str]:
    try:
        return [name for name in os.listdir("/proc") if name.isdigit()]
    except OSError:
        return ()


def _told(process: str) -> "list[str]":
    """What is told of a process behind its name: its state, its parent, its group and so on."""
    try:
        with open("/proc/%s/stat" % process, encoding="utf-8", errors="replace") as stream:
            return stream.read().rpartition(")")[2].split()
    except OSError:
        return []
