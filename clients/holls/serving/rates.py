"""How often something may be done: a bucket that fills as time goes by, and such buckets by addresses."""

from __future__ import annotations

import asyncio
import time
from collections import OrderedDict
from typing import Callable

ADDRESSES = 10_000
"""Of so many addresses it is known what they did last."""


class Bucket:
    """Has `rate` more each second, and `most` at most."""

    def __init__(self, rate: float, most: float, clock: Callable[[], float] = time.monotonic) -> None:
        self._rate, self._most, self._clock = rate, most, clock
        self._has, self._since = most, clock()

    def _fill(self) -> None:
        now = self._clock()
        self._has = min(self._most, self._has + (now - self._since) * self._rate)
        self._since = now

    def takes(self, number: float = 1.0) -> bool:
        """Takes so much, if it is there."""
        self._fill()
        if self._has < number:
            return False
        self._has -= number
        return True

    def owes(self, number: float) -> float:
        """Takes so much in any case. Answers how many seconds it takes until what is lacking is there."""
        self._fill()
        self._has -= number
        return max(0.0, -self._has / self._rate)

    async def wait(self, number: float) -> None:
        """Takes so much, and waits until it would have been there."""
        seconds = self.owes(number)
        if seconds:
            await asyncio.sleep(seconds)


class ByAddress:
    """A bucket for each address; that of the address that was seen longest ago is forgotten."""

    def __init__(self, rate: float, most: float) -> None:
        self._rate, self._most = rate, most
        self._buckets: "OrderedDict[str, Bucket]" = OrderedDict()

    def takes(self, address: str) -> bool:
        """Whether an address may do something now."""
        bucket = self._buckets.pop(address, None) or Bucket(self._rate, self._most)
        self._buckets[address] = bucket
        if len(self._buckets) > ADDRESSES:
            self._buckets.popitem(last=False)
        return bucket.takes()
