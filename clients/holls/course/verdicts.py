"""What is said of a student's exercise."""

from __future__ import annotations

from dataclasses import asdict, dataclass
from enum import Enum
from typing import Dict, Optional


class Status(Enum):
    """What became of an exercise."""

    PROVED = "proved"
    OPEN = "open"
    MISSING = "missing"
    CHANGED = "changed"
    AXIOM = "axiom"
    FORBIDDEN = "forbidden"
    UNCHECKED = "unchecked"


@dataclass(frozen=True)
class Verdict:
    """A student's exercise: its name, what became of it, why, and at which line of the student's file."""

    exercise: str
    status: Status
    detail: str = ""
    line: Optional[int] = None

    def as_json(self) -> Dict[str, object]:
        """As JSON."""
        return dict(asdict(self), status=self.status.value)

    @staticmethod
    def from_json(told: Dict[str, object]) -> "Verdict":
        """From JSON."""
        line = told["line"]
        return Verdict(str(told["exercise"]), Status(told["status"]), str(told["detail"]), None if line is None else int(line))
