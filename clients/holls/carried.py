"""What the clients carry beside their code: the library, the page's files and the released program.

In a clone these stand in its own folders; a package that is installed has them in its folder data/.
"""

from __future__ import annotations

import sys
from pathlib import Path
from typing import List

_HERE = Path(__file__).resolve().parent
CLONE = _HERE.parents[1]
"""The clone, where the code runs in one."""


def folder(name: str) -> Path:
    """The folder of this name, which may be missing."""
    packed = _HERE / "data" / name
    return packed if packed.is_dir() else CLONE / name


def starter() -> List[str]:
    """The words that start `holls` as a process of its own."""
    script = CLONE / "clients" / "bin" / "holls"
    return [sys.executable, str(script)] if script.is_file() else [sys.executable, "-m", "holls"]
