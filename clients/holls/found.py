"""What there is to say of a place in a file."""

from __future__ import annotations

from dataclasses import dataclass
from enum import IntEnum
from typing import Optional

from holls.protocol import Refusal


class Severity(IntEnum):
    """As the Language Server Protocol numbers them."""

    ERROR = 1
    WARNING = 2
    NOTE = 3
    HINT = 4


@dataclass(frozen=True)
class Finding:
    """Something to say of a range of the file. `is_open` marks a proof that is never ended.

    `number` is the command that it is about, where it is about one, and `refusal` its refusal, where that is what is told; `undeclared` is an operator, a
    numeral or a word that no notation here has, and `hiding` a bound variable that has a constant's name, where these are.
    """

    start: int
    end: int
    severity: Severity
    text: str
    is_open: bool = False
    number: Optional[int] = None
    refusal: Optional[Refusal] = None
    undeclared: Optional[str] = None
    hiding: Optional[str] = None
