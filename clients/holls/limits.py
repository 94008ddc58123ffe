"""A limit on the memory of a program that is started."""

from __future__ import annotations

import resource
from typing import List, Optional, Sequence


def limited(program: Sequence[str], memory: Optional[int]) -> List[str]:
    """The words that start a program with a limit on its memory, in bytes, where one is given."""
    if memory is None:
        return list(program)
    most = resource.getrlimit(resource.RLIMIT_AS)[1]
    memory = memory if most == resource.RLIM_INFINITY else min(memory, most)
    return ["/bin/sh", "-c", 'ulimit -v %d && exec "$0" "$@"' % (memory // 1024), *program]
