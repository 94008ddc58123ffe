"""The neutral file that a recorded run of HOL Light writes: terms, theorems by what made them, proofs by their tactics, and names.

recorder.ml says what a line means. Terms become those of holls.prover.typed by a map of names; what the map can't say is Untranslatable.
"""

from __future__ import annotations

import re
from dataclasses import dataclass, field
from typing import Dict, Iterable, List, NamedTuple, Optional, Tuple

from holls.prover import numerals, typed
from holls.prover.typed import Term, Type

CONSTANTS = {
    ",": "pair", "+": "add", "*": "mult", "-": "sub", "<=": "le", "<": "lt", ">=": "GE", ">": "GT", "..": "numseg", "==": "cong",
    "num_divides": "divides", "num_coprime": "coprime", "num_gcd": "gcd", "num_lcm": "lcm", "<=_c": "le_c", "<_c": "lt_c", ">=_c": "ge_c",
    ">_c": "gt_c", "=_c": "eq_c",
}
"""HOL Light's constants over num, pairs and sets of num that have other names here."""
TYPES = {"1": "one"}
_NAME = re.compile(r"[A-Za-z_][A-Za-z0-9_']*\Z")
_SET_OF, _IS_IN_SET, _ABSTRACTION, _IS = "GSPEC", "SETSPEC", "GABS", "GEQ"


class Untranslatable(Exception):
    """A term that has no form here; the text says why."""


class Theorem(NamedTuple):
    """What made a theorem (- where that isn't known), what it says, its hypotheses, and what the rule took: (kind, number) with the
    kinds t, h and y of terms, theorems and types."""

    rule: str
    conclusion: int
    hypotheses: Tuple[int, ...]
    arguments: Tuple[Tuple[str, int], ...]


class Node(NamedTuple):
    """A tactic that was run on a goal: the goals that it left, and its arguments."""

    tactic: str
    goal: int
    left: Tuple[int, ...]
    arguments: Tuple[Tuple[str, int], ...]


class Goal(NamedTuple):
    """A goal: what is to be shown, and what is assumed, the newest first."""

    conclusion: int
    assumptions: Tuple[int, ...]


class Proof(NamedTuple):
    """A theorem's first goal, and the nodes in the order in which they ended."""

    goal: int
    nodes: Tuple[int, ...]


@dataclass
class Record:
    """A neutral file, by numbers."""

    types: Dict[int, Tuple[str, ...]] = field(default_factory=dict)
    terms: Dict[int, Tuple[str, ...]] = field(default_factory=dict)
    theorems: Dict[int, Theorem] = field(default_factory=dict)
    goals: Dict[int, Goal] = field(default_factory=dict)
    nodes: Dict[int, Node] = field(default_factory=dict)
    proofs: Dict[int, Proof] = field(default_factory=dict)
    names: Dict[str, Tuple[int, str]] = field(default_factory=dict)
    """Of a name its theorem and its file, in the order of the files."""
    derived: Dict[int, Tuple[int, Tuple[int, ...]]] = field(default_factory=dict)
    """Of a tactic its theorem's derivation, and the theorems of the goals that it left, to which this comes."""
    whole: Dict[int, int] = field(default_factory=dict)
    """Of a named theorem its derivation."""

    def take(self, line: str) -> None:
        """Takes a line. Raises ValueError for one that is none."""
        kind, *words = line.split()
        if kind == "N":
            if words[0] not in self.names or self.names[words[0]][1] == words[2]:
                self.names[words[0]] = int(words[1]), words[2]
        elif kind == "J":
            node, first, *rest = map(int, words)
            if node:
                self.derived[node] = first, tuple(rest)
            else:
                self.whole[first] = rest[0]
        elif kind == "P":
            self.proofs[int(words[0])] = Proof(int(words[1]), tuple(map(int, words[2:])))
        elif kind in ("Y", "T"):
            (self.types if kind == "Y" else self.terms)[int(words[0])] = tuple(words[1:])
        elif kind == "H":
            end = 4 + int(words[3])
            self.theorems[int(words[0])] = Theorem(words[1], int(words[2]), tuple(map(int, words[4:end])), _arguments(words[end:]))
        elif kind == "G":
            self.goals[int(words[0])] = Goal(int(words[1]), tuple(map(int, words[2:])))
        elif kind == "K":
            end = 4 + int(words[3])
            self.nodes[int(words[0])] = Node(words[1], int(words[2]), tuple(map(int, words[4:end])), _arguments(words[end:]))
        else:
            raise ValueError("no line of a record: %s" % line[:60])


def _arguments(words: Iterable[str]) -> Tuple[Tuple[str, int], ...]:
    return tuple((word[0], int(word[1:])) for word in words)


def read(lines: Iterable[str]) -> Record:
    """The record of a file's lines. Raises ValueError, with the line's number, for a line that is none."""
    record = Record()
    for number, line in enumerate(lines, 1):
        try:
            record.take(line)
        except (ValueError, IndexError) as error:
            raise ValueError("line %d: %s" % (number, error)) from None
    return record


class Translator:
    """Terms of a record as ours; each number once."""

    def __init__(self, record: Record) -> None:
        self.record = record
        self._types: Dict[int, Type] = {}
        self._terms: Dict[int, Term] = {}

    def type(self, number: int) -> Type:
        if number not in self._types:
            kind, name, *parts = self.record.types[number]
            if kind == "v":
                made: Type = name if _NAME.match(name) else "T" + "".join(character for character in name if character.isalnum())
            else:
                made = (TYPES.get(name, name), *(self.type(int(part)) for part in parts))
            self._types[number] = made
        return self._types[number]

    def term(self, number: int) -> Term:
        """Our term of a number. Raises Untranslatable."""
        if number not in self._terms:
            self._terms[number] = self._term(number)
        return self._terms[number]

    def _term(self, number: int) -> Term:
        kind, *words = self.record.terms[number]
        if kind == "v":
            return ("v", variable_name(words[0]), self.type(int(words[1])))
        if kind == "c":
            if words[0] == "_0":
                return ("c", "_0", ("num",))
            return ("c", CONSTANTS.get(words[0], words[0]), self.type(int(words[1])))
        one, other = int(words[0]), int(words[1])
        if kind == "l":
            return typed.abstract(self.term(one), self.term(other))
        head = self.record.terms[one]
        if head[:2] == ("c", "NUMERAL"):
            return self._numeral(other)
        if head[:2] == ("c", _SET_OF):
            return self._set(self.term(other))
        if head[:2] == ("c", _ABSTRACTION):
            return self._abstraction(self.term(other))
        return ("a", self.term(one), self.term(other))

    def _numeral(self, number: int) -> Term:
        """What stands under HOL Light's tag NUMERAL, which there is none of here: digits are a numeral, and all else is itself."""
        value, place, rest = 0, 1, number
        while True:
            words = self.record.terms[rest]
            if words[:2] == ("c", "_0"):
                return numerals.numeral(value)
            digit = self.record.terms[int(words[1])][1] if words[0] == "a" else ""
            if digit not in ("BIT0", "BIT1"):
                return self.term(number)
            value += place * (digit == "BIT1")
            place, rest = 2 * place, int(words[2])

    @staticmethod
    def _set(term: Term) -> Term:
        """{t | p}: of HOL Light's `GSPEC (\\v. ?xs. SETSPEC v p t)`, `\\x. p` where t is the one x, else `\\v. ?xs. p /\\ v = t`."""
        if term[0] != "l":
            raise Untranslatable("a set of what is no comprehension")
        body, binders = term[3], []
        while body[0] == "a" and body[1][0] == "c" and body[1][1] == "?" and body[2][0] == "l":
            binders.append((body[2][1], body[2][2], body[1]))
            body = body[2][3]
        head, arguments = typed.spine(body)
        if head[:2] != ("c", _IS_IN_SET) or len(arguments) != 3:
            raise Untranslatable("a set of what is no comprehension")
        member, condition, value = arguments
        if len(binders) == 1 and value == ("b", 0) and member == ("b", 1):
            inner = _without(condition, 1)
            return ("l", binders[0][0], term[2], inner)
        ty = term[2]
        equation = typed.apply(("c", "=", typed.fun(ty, typed.fun(ty, typed.BOOL))), member, value)
        both = typed.apply(("c", "/\\", typed.fun(typed.BOOL, typed.fun(typed.BOOL, typed.BOOL))), condition, equation)
        for name, own, quantifier in reversed(binders):
            both = ("a", quantifier, ("l", name, own, both))
        return ("l", typed.Hint("y"), ty, both)

    @staticmethod
    def _abstraction(term: Term) -> Term:
        """A function of a pair, `\\(x,y). t`, as `UNCURRY (\\x y. t)`."""
        if term[0] != "l":
            raise Untranslatable("a function of a pattern")
        body, binders = term[3], []
        while body[0] == "a" and body[1][0] == "c" and body[1][1] == "!" and body[2][0] == "l":
            binders.append((body[2][1], body[2][2]))
            body = body[2][3]
        head, arguments = typed.spine(body)
        if head[:2] != ("c", _IS) or len(arguments) != 2 or not binders:
            raise Untranslatable("a function of a pattern")
        left, right = arguments
        if left[0] != "a" or left[1] != ("b", len(binders)):
            raise Untranslatable("a function of a pattern")
        pattern, function = left[2], _without(right, len(binders))
        if _leaves(pattern) != [("b", number) for number in reversed(range(len(binders)))]:
            raise Untranslatable("a function of a pattern")
        for name, ty in reversed(binders):
            function = ("l", name, ty, function)
        return _paired(pattern, function, term[2])


def _leaves(pattern: Term) -> List[Term]:
    head, arguments = typed.spine(pattern)
    if head[:2] == ("c", "pair") and len(arguments) == 2:
        return _leaves(arguments[0]) + _leaves(arguments[1])
    return [pattern]


def _paired(pattern: Term, function: Term, ty: Type) -> Term:
    """A function of a pattern's variables as one of its pairs, of a type: UNCURRY for each pair, which may be nested to the right."""
    head, arguments = typed.spine(pattern)
    if head[:2] != ("c", "pair"):
        return function
    if typed.spine(arguments[0])[0][:2] == ("c", "pair"):
        raise Untranslatable("a function of a pattern")
    first, second = ty[1][1:]
    inner_type = typed.fun(second, ty[2])
    inner = ("l", function[1], function[2], _paired(arguments[1], function[3], inner_type))
    return ("a", ("c", "UNCURRY", typed.fun(typed.fun(first, inner_type), ty)), inner)


def _without(term: Term, depth: int) -> Term:
    """A term from under one binder less, that of a depth, which it doesn't have."""
    if term[0] == "b":
        if term[1] == depth:
            raise Untranslatable("a comprehension over its own member")
        return ("b", term[1] - 1) if term[1] > depth else term
    if term[0] == "a":
        return ("a", _without(term[1], depth), _without(term[2], depth))
    return ("l", term[1], term[2], _without(term[3], depth + 1)) if term[0] == "l" else term


def variable_name(name: str) -> str:
    """A variable's name; those that are no names here become ones."""
    if _NAME.match(name):
        return name
    letters = "".join(character if character.isalnum() or character == "_" else "_" for character in name)
    return "v" + letters if letters.strip("_") else {"<<": "R", "<<<": "S", "++": "op", "**": "op", "==": "R", "<=": "R", "@": "op"}.get(name, "R")


def mapped(record: Record) -> Dict[str, Optional[int]]:
    """The names, and the term of what each says; None for a theorem with hypotheses."""
    return {name: record.theorems[number].conclusion if not record.theorems[number].hypotheses else None
            for name, (number, _) in record.names.items()}
