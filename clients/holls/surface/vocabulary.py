"""Which names are constants and constructors of types at a place, as far as reading needs it."""

from __future__ import annotations

from typing import Dict, Mapping, Optional, Tuple

MANY = -1
"""The number of arguments of a constructor that takes some, where their number isn't known."""

PRELUDE_TYPES = {"bool": 0, "ind": 0, "fun": 2}
PRELUDE_CONSTANTS = frozenset(("T", "F", "ONE_ONE", "ONTO"))


Answers = Mapping[Tuple[str, str], Optional[bool]]
"""What a vocabulary was asked of a type or a constant of a name, with what it answered."""


class Vocabulary:
    """The constants, and the constructors with the numbers of their arguments, beside those of the prelude."""

    def __init__(self, constructors: Optional[Mapping[str, int]] = None, constants: Optional[Mapping[str, object]] = None) -> None:
        self.constructors: Dict[str, int] = dict(constructors or {})
        self.constants: Dict[str, object] = dict(constants or {})

    def takes_arguments(self, name: str) -> Optional[bool]:
        """Whether a constructor takes arguments; None where the name is no constructor that is known."""
        number = self.constructors.get(name, PRELUDE_TYPES.get(name))
        return None if number is None else number != 0

    def is_constant(self, name: str) -> bool:
        """Whether a name is a constant's."""
        return name in self.constants or name in PRELUDE_CONSTANTS


class Asked(Vocabulary):
    """A vocabulary that keeps what it was asked, with its answers: what was read by it holds wherever the answers are the same. `number` is how often it
    was asked: what was read between two equal numbers holds everywhere."""

    def __init__(self, over: Vocabulary) -> None:  # The names stand in `over`, so that nothing else is made.
        self.over = over
        self.answers: Dict[Tuple[str, str], Optional[bool]] = {}
        self.number = 0

    def takes_arguments(self, name: str) -> Optional[bool]:
        self.number += 1
        found = self.answers[("type", name)] = self.over.takes_arguments(name)
        return found

    def is_constant(self, name: str) -> bool:
        self.number += 1
        found = self.answers[("constant", name)] = self.over.is_constant(name)
        return found


class Answered(Vocabulary):
    """A vocabulary that answers as another one did."""

    def __init__(self, answers: Answers) -> None:
        super().__init__()
        self._answers = answers

    def takes_arguments(self, name: str) -> Optional[bool]:
        return self._answers.get(("type", name))

    def is_constant(self, name: str) -> bool:
        return bool(self._answers.get(("constant", name)))


def agrees(vocabulary: Vocabulary, answers: Answers) -> bool:
    """Whether a vocabulary gives these answers."""
    for (kind, name), answer in answers.items():
        if (vocabulary.takes_arguments(name) if kind == "type" else vocabulary.is_constant(name)) != answer:
            return False
    return True


EVERY_TYPE = None
"""In the place of a vocabulary: each name behind a type is a constructor, as the plain language reads."""
