"""Terms and types as texts of the notation. A quotation takes no types from the goal: so each says as many as it needs to be read as its term."""

from __future__ import annotations

from typing import Dict, FrozenSet, List

from holls.prover import annotating, reading, typed
from holls.prover.annotating import BINDER, BINDERS, CONSTANT
from holls.prover.reading import Signature, Unreadable
from holls.prover.typed import Term, Type

_LEVELS = {"<=>": 0, "==>": 2, "\\/": 4, "/\\": 6, "=": 8}
_NEGATION, _APPLICATION = 10, 12
_SYMBOLS = frozenset(("/\\", "\\/", "==>", "=", "~", "!", "?", "?!", "@"))


class Unwritable(Exception):
    """A term that no quotation says, as one with a type that was left open."""


def type_text(ty: Type, is_tight: bool = False) -> str:
    """A type's text; in parentheses where it is a function's and is to bind tightly."""
    if not isinstance(ty, tuple):
        return str(ty)
    if ty[0] == "fun":
        text = "%s->%s" % (type_text(ty[1], True), type_text(ty[2]))
        return "(%s)" % text if is_tight else text
    if len(ty) == 1:
        return ty[0]
    if len(ty) == 2:
        return "%s %s" % (type_text(ty[1], True), ty[0])
    return "(%s)%s" % (",".join(map(type_text, ty[1:])), ty[0])


class _Writer:
    """Writes one term. `annotated` names the variables and the places of constants that get a type where they stand first."""

    def __init__(self, term: Term, annotated: FrozenSet[object], taken: FrozenSet[str]) -> None:
        self.annotated, self.taken = annotated, taken
        self.said: set = set()
        self.places = 0
        self.text = self.write(term, [], 0)

    def write(self, term: Term, bound: List[str], level: int) -> str:
        """A term's text, in parentheses where it binds less tightly than the level."""
        found = typed.binary(term)
        if found:
            name, left, right = found
            own = _LEVELS[name]
            return _enclosed("%s %s %s" % (self.write(left, bound, own + 1), name, self.write(right, bound, own)), own < level)
        if term[0] == "a" and term[1][0] == "c" and term[1][1] == "~":
            return _enclosed("~" + self.write(term[2], bound, _NEGATION), _NEGATION < level)
        if term[0] == "l" or term[0] == "a" and term[1][0] == "c" and term[1][1] in BINDERS and term[2][0] == "l":
            return _enclosed(self.binder(term, bound), level > 0)
        if term[0] == "a":
            text = "%s %s" % (self.write(term[1], bound, _APPLICATION), self.write(term[2], bound, _APPLICATION + 1))
            return _enclosed(text, _APPLICATION < level)
        return self.atom(term, bound)

    def atom(self, term: Term, bound: List[str]) -> str:
        if term[0] == "b":
            return bound[-1 - term[1]]
        if term[0] == "s":
            raise Unwritable("a witness without a name")
        if term[0] == "v":
            point: object = term[1]
            is_first = point not in self.said
            self.said.add(point)
        else:
            self.places += 1
            point, is_first = (CONSTANT, self.places), True
        name = "(%s)" % term[1] if term[1] in _SYMBOLS else term[1]
        if is_first:
            if point in self.annotated:
                return "(%s:%s)" % (name, type_text(term[2]))
        return name

    def binder(self, term: Term, bound: List[str]) -> str:
        kind = "\\" if term[0] == "l" else term[1][1]
        parts: List[str] = []
        while True:
            inner = term if kind == "\\" else term[2]
            self.places += 1
            point = BINDER, self.places
            name = self.fresh(inner, bound)
            parts.append("(%s:%s)" % (name, type_text(inner[2])) if point in self.annotated else name)
            bound, term = bound + [name], inner[3]
            if not (term[0] == "l" if kind == "\\" else self.is_like(term, kind)):
                break
        if len(parts) == 1 and parts[0].startswith("("):
            parts[0] = parts[0][1:-1]
        return "%s%s. %s" % (kind, " ".join(parts), self.write(term, bound, 0))

    @staticmethod
    def is_like(term: Term, kind: str) -> bool:
        return term[0] == "a" and term[1][0] == "c" and term[1][1] == kind and term[2][0] == "l"

    def fresh(self, binder: Term, bound: List[str]) -> str:
        """A bound variable's name, which is none that its body needs otherwise."""
        base = str(binder[1]).rstrip("'") or "x"
        used = {part[1] for part in typed.subterms(binder[3]) if part[0] in "vc"}
        used |= {bound[-1 - number] for number in _loose(binder[3], 1)}
        while base in used or base in self.taken:
            base += "'"
        return base


def _loose(term: Term, depth: int) -> FrozenSet[int]:
    """The bound variables of binders outside of a binder's body."""
    if term[0] == "b":
        return frozenset((term[1] - depth,)) if term[1] >= depth else frozenset()
    if term[0] == "a":
        return _loose(term[1], depth) | _loose(term[2], depth)
    return _loose(term[3], depth + 1) if term[0] == "l" else frozenset()


def _enclosed(text: str, is_needed: bool) -> str:
    return "(%s)" % text if is_needed else text


class Quoter:
    """Writes quotations over what stands; each text is found once."""

    def __init__(self, signature: Signature) -> None:
        self.signature = signature
        self.taken = frozenset(signature.constants)
        self._texts: Dict[Term, str] = {}

    def quote(self, term: Term) -> str:
        """The quotation of a term, which reads as it."""
        if term not in self._texts:
            self._texts[term] = "`%s`" % self._text(term)
        return self._texts[term]

    def _text(self, term: Term) -> str:
        """The text with the fewest types, those of variables first."""
        is_open = any(name.startswith("?") for name in typed.term_types(term))
        annotated: FrozenSet[object] = frozenset()
        try:
            annotated = frozenset() if is_open else annotating.needed(term, self.signature)
        except (KeyError, Unreadable):
            pass  # A constant that doesn't stand, or no term of one type: the text doesn't read as it.
        text = _Writer(term, annotated, self.taken).text
        if not self._reads(text, term):
            raise Unwritable(text)
        return _bare(text)

    def _reads(self, text: str, term: Term) -> bool:
        try:
            return reading.term(text, self.signature) == term
        except Unreadable:
            return False


def _bare(text: str) -> str:
    """A variable alone with its type needs no parentheses."""
    is_variable = text.startswith("(") and text.find(")") == len(text) - 1 and ":" in text and " " not in text.split(":")[0]
    return text[1:-1] if is_variable else text
