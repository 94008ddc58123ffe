"""Provers: a pool of programs, and what they are started with."""

from __future__ import annotations

import threading
import weakref
from contextlib import contextmanager
from typing import TYPE_CHECKING, Any, Callable, Iterator, List, Optional, Tuple, TypeVar

from holls import server
from holls.api.engine import Context, Engine
from holls.api.values import ProverError
from holls.limits import limited

if TYPE_CHECKING:
    from concurrent.futures import ThreadPoolExecutor

    from holls.prover.warm import Warm

Result = TypeVar("Result")


class Prover:
    """So many programs, each started when it is first needed, and started anew after it has ended. It ends with its `with`.

    `program` is the file of hol_serve (the one that `holls` finds by itself), `processes` how many run side by side, `seconds` how long one
    step may take, `memory` how many bytes of addresses a program may have (no limit), `turns` and `cache` the program's own settings.

    Any thread may use it, and so may asyncio, by `run`: a state belongs to no program, and what it needs is put into the next idle one.
    Raises server.NoServer where there is no program.
    """

    def __init__(self, program: Optional[str] = None, *, processes: int = 1, seconds: float = 10.0, memory: Optional[int] = None,
                 turns: Optional[int] = None, cache: Optional[int] = None) -> None:
        if processes < 1 or seconds <= 0:
            raise ValueError("a prover has at least one process, and a step more than 0 seconds")
        words = server.find(program)
        self.program = words[0]
        words += ["--turns=%d" % turns] if turns is not None else []
        words += ["--cache=%d" % cache] if cache is not None else []
        self.processes, self.seconds = processes, seconds
        self._engines = [Engine(limited(words, memory), seconds) for _ in range(processes)]
        self._idle: List[Engine] = list(self._engines)
        self._free = threading.Condition()
        self._is_closed = False
        self._threads: Optional[ThreadPoolExecutor] = None
        self._searchers: List[Warm] = []
        self._end = weakref.finalize(self, _close, self._engines, self._searchers)

    def __enter__(self) -> "Prover":
        return self

    def __exit__(self, *_: object) -> None:
        self.close()

    async def __aenter__(self) -> "Prover":
        return self

    async def __aexit__(self, *_: object) -> None:
        import asyncio  # Here alone, since it takes longer to load than all else.
        await asyncio.get_running_loop().run_in_executor(None, self.close)

    def close(self) -> None:
        """Ends the programs, once those that are at a step have done it."""
        with self._free:
            self._is_closed = True
            self._free.notify_all()
            while len(self._idle) < len(self._engines):
                self._free.wait()
        if self._threads:
            self._threads.shutdown()
        self._end()

    @property
    def pids(self) -> Tuple[int, ...]:
        """The numbers of the processes that run now."""
        return tuple(engine.pid for engine in self._engines if engine.pid is not None)

    def searcher(self) -> "Warm":
        """The search of `holls prove`, with a program of its own, which ends with this prover."""
        from holls.prover.warm import Warm  # Here alone, since it takes long to load.
        with self._free:
            if self._is_closed:
                raise ProverError("this prover is closed")
            if not self._searchers:
                self._searchers.append(Warm([self.program]))
            return self._searchers[0]

    @contextmanager
    def engine(self, context: Context, path: Tuple[str, ...] = ()) -> Iterator[Engine]:
        """An idle program for the block alone: the one in which most of what is needed stands."""
        with self._free:
            while not self._idle and not self._is_closed:
                self._free.wait()
            if self._is_closed:
                raise ProverError("this prover is closed")
            best = self._idle[-1]
            if len(self._idle) > 1:
                best = max(reversed(self._idle), key=lambda engine: engine.fits(context, path))
            self._idle.remove(best)
        try:
            yield best
        except KeyboardInterrupt:
            best.close()
            raise
        finally:
            with self._free:
                self._idle.append(best)
                self._free.notify()

    async def run(self, call: Callable[..., Result], *arguments: Any) -> Result:
        """Awaits any call of this package: `await prover.run(state.apply, "REFL_TAC")`. As many run side by side as there are programs."""
        import asyncio
        from concurrent.futures import ThreadPoolExecutor
        if self._threads is None:
            self._threads = ThreadPoolExecutor(self.processes, "holls")
        return await asyncio.get_running_loop().run_in_executor(self._threads, call, *arguments)


def _close(engines: List[Engine], searchers: "List[Warm]") -> None:
    for engine in engines:
        engine.close()
    for searcher in searchers:
        searcher.stop()
