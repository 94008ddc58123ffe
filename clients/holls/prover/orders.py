"""An order of terms by which rewriting ends: the lexicographic path order, where a constant that is defined later is larger."""

from __future__ import annotations

from typing import Dict, List, Tuple

from holls.prover import typed
from holls.prover.typed import Term

_LARGEST = 60
"""Terms with more names aren't compared."""

_Flat = Tuple[Tuple[int, str], Tuple["_Flat", ...]]
_VARIABLE, _BOUND, _BINDER = -1, 0, 1


class Order:
    """The order by the places of constants, in which they were defined."""

    def __init__(self, constants: Dict[str, object]) -> None:
        self._places = {name: number + 2 for number, name in enumerate(constants)}

    def decreases(self, left: Term, right: Term) -> bool:
        """Whether a rule's left side is larger than its right one, at all terms for its variables."""
        if typed.size(left) > _LARGEST or typed.size(right) > _LARGEST:
            return False
        return _is_larger(self._flat(left), self._flat(right))

    def _flat(self, term: Term) -> _Flat:
        """A term as a symbol with arguments."""
        arguments: List[_Flat] = []
        while term[0] == "a":
            arguments.append(self._flat(term[2]))
            term = term[1]
        arguments.reverse()
        if term[0] == "l":
            return (_BINDER, ""), (self._flat(term[3]),) + tuple(arguments)
        if term[0] == "c":
            return (self._places.get(term[1], len(self._places) + 2), term[1]), tuple(arguments)
        if term[0] in "mv":
            variable: _Flat = ((_VARIABLE, "%s%s" % (term[0], term[1])), ())
            return ((_BINDER, "@"), (variable,) + tuple(arguments)) if arguments else variable
        return (_BOUND, str(term[1])), tuple(arguments)


def _is_larger(one: _Flat, other: _Flat) -> bool:
    (symbol, own), (second, others) = one, other
    if symbol[0] == _VARIABLE:
        return False
    if second[0] == _VARIABLE:
        return _has(one, other)
    if any(part == other or _is_larger(part, other) for part in own):
        return True
    if symbol > second:
        return all(_is_larger(one, part) for part in others)
    if symbol != second:
        return False
    for first, last in zip(own, others):
        if first != last:
            return _is_larger(first, last) and all(_is_larger(one, part) for part in others)
    return len(own) > len(others)


def _has(term: _Flat, part: _Flat) -> bool:
    return any(own == part or _has(own, part) for own in term[1])
