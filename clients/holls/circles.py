"""How often Python looks for objects that are out of use and hold one another."""

from __future__ import annotations

import gc

SELDOM = 50_000, 20, 50
"""So seldom: nearly all that is made of a file stays until the file changes, or until the end."""
HARDLY = 1_000_000, 20, 50
"""So seldom where all ends soon."""


def look_seldom() -> None:
    """Has Python look for them seldom."""
    gc.set_threshold(*SELDOM)


def hardly_look() -> None:
    """Has Python look for them hardly ever, in a process that ends when it has done its work."""
    gc.set_threshold(*HARDLY)
