"""Random formulas over numbers, and what they are worth: made and evaluated without anything of the prover's."""

import random
from typing import Any, Dict, Tuple

Formula = Tuple[Any, ...]
NAMES = ("x", "y", "z")
BELOW = 4
"""Values below this are tried."""
_NUMERALS = ("_0", "_1", "BIT0 _1", "BIT1 _1", "BIT0 (BIT0 _1)", "BIT1 (BIT0 _1)")
_TERMS = {"add": lambda m, n: m + n, "mult": lambda m, n: m * n, "sub": lambda m, n: max(0, m - n), "MAX": max, "MIN": min,
          "DIV": lambda m, n: m // n if n else 0, "MOD": lambda m, n: m % n if n else m}
_ATOMS = {"le": lambda m, n: m <= n, "lt": lambda m, n: m < n, "=": lambda m, n: m == n}
_CONNECTIVES = {"/\\": lambda p, q: p and q, "\\/": lambda p, q: p or q, "==>": lambda p, q: not p or q, "<=>": lambda p, q: p == q}


def term(chance: random.Random, depth: int) -> Formula:
    """A term of numbers; products have a numeral on the left, and division one on the right that isn't zero."""
    if depth == 0 or chance.random() < 0.25:
        return ("v", chance.choice(NAMES)) if chance.random() < 0.75 else ("n", chance.randrange(len(_NUMERALS)))
    if chance.random() < 0.2:
        return ("SUC", term(chance, depth - 1))
    name = chance.choice(sorted(_TERMS))
    left = ("n", chance.randrange(1, len(_NUMERALS))) if name == "mult" else term(chance, depth - 1)
    right = ("n", chance.randrange(1, len(_NUMERALS))) if name in ("DIV", "MOD") else term(chance, depth - 1)
    return (name, left, right)


def formula(chance: random.Random, depth: int) -> Formula:
    """A formula of such terms."""
    if depth == 0 or chance.random() < 0.2:
        return (chance.choice(sorted(_ATOMS)), term(chance, 2), term(chance, 2))
    if chance.random() < 0.2:
        return ("~", formula(chance, depth - 1))
    return (chance.choice(sorted(_CONNECTIVES)), formula(chance, depth - 1), formula(chance, depth - 1))


def value(one: Formula, values: Dict[str, int]) -> Any:
    """What a formula or a term is worth."""
    kind = one[0]
    if kind == "v":
        return values[one[1]]
    if kind == "n":
        return one[1]
    parts = [value(part, values) for part in one[1:]]
    if kind in ("SUC", "~"):
        return parts[0] + 1 if kind == "SUC" else not parts[0]
    return {**_TERMS, **_ATOMS, **_CONNECTIVES}[kind](*parts)


def text(one: Formula) -> str:
    """A formula or a term as the program reads it."""
    kind = one[0]
    if kind == "v":
        return "(%s:num)" % one[1]
    if kind == "n":
        return "(%s)" % _NUMERALS[one[1]]
    parts = ["(%s)" % text(part) for part in one[1:]]
    infix = kind in _CONNECTIVES or kind == "="
    return (" %s " % kind).join(parts) if infix else " ".join([kind] + parts)


def false_formula(chance: random.Random) -> Formula:
    """A formula that is false for some small values, though not for all."""
    while True:
        made = formula(chance, 2)
        found = {value(made, {"x": x, "y": y, "z": z}) for x in range(BELOW) for y in range(BELOW) for z in range(BELOW)}
        if len(found) == 2:
            return made
