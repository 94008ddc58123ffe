"""The clock by which searches have their time: what has passed, or the processor's time where tests want results that other work doesn't change."""

from __future__ import annotations

import time
from typing import Callable

_source: Callable[[], float] = time.monotonic


def now() -> float:
    """Seconds since some moment."""
    return _source()


def use(source: Callable[[], float]) -> None:
    """Takes another clock, for all searches of this process."""
    global _source
    _source = source
