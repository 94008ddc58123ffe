"""Texts of terms and types, read into terms with their types: the most general ones (docs/NOTATION.md has the grammar)."""

from __future__ import annotations

from dataclasses import dataclass, field
from typing import Dict, FrozenSet, List, Optional, Tuple

from holls.prover import typed
from holls.prover.typed import BOOL, Hint, Term, Type, fun
from holls.terms import BINDERS, LEVELS, OPERATORS, Unreadable, tokens

_DEEPEST = 150

_A_BOOL = fun("A", BOOL)
PRELUDE: Dict[str, Type] = {
    "=": fun("A", fun("A", BOOL)), "@": fun(_A_BOOL, "A"), "T": BOOL, "F": BOOL, "~": fun(BOOL, BOOL), "!": fun(_A_BOOL, BOOL),
    "?": fun(_A_BOOL, BOOL), "?!": fun(_A_BOOL, BOOL), "ONE_ONE": fun(fun("A", "B"), BOOL), "ONTO": fun(fun("A", "B"), BOOL),
    "/\\": fun(BOOL, fun(BOOL, BOOL)), "\\/": fun(BOOL, fun(BOOL, BOOL)), "==>": fun(BOOL, fun(BOOL, BOOL))}


@dataclass
class Signature:
    """The constants that stand, with their most general types, and the type constructors with the numbers of their arguments."""

    constants: Dict[str, Type] = field(default_factory=lambda: dict(PRELUDE))
    constructors: Dict[str, int] = field(default_factory=lambda: {"bool": 0, "ind": 0, "fun": 2})


class Types:
    """Types that aren't known yet, and what they turn out to be."""

    def __init__(self) -> None:
        self.known: List[Optional[Type]] = []

    def new(self) -> Type:
        self.known.append(None)
        return len(self.known) - 1

    def find(self, ty: Type) -> Type:
        while isinstance(ty, int) and self.known[ty] is not None:
            ty = self.known[ty]
        return ty

    def unify(self, one: Type, other: Type) -> None:
        one, other = self.find(one), self.find(other)
        if one == other:
            return
        if isinstance(one, int) or isinstance(other, int):
            number, ty = (one, other) if isinstance(one, int) else (other, one)
            if self.occurs(number, ty):
                raise Unreadable("a term has no type")
            self.known[number] = ty
        elif isinstance(one, str) or isinstance(other, str) or one[0] != other[0] or len(one) != len(other):
            raise Unreadable("types don't fit")
        else:
            for left, right in zip(one[1:], other[1:]):
                self.unify(left, right)

    def occurs(self, number: int, ty: Type) -> bool:
        ty = self.find(ty)
        return ty == number or isinstance(ty, tuple) and any(self.occurs(number, part) for part in ty[1:])

    def open(self, ty: Type) -> FrozenSet[int]:
        """What isn't known yet of a type."""
        ty = self.find(ty)
        if isinstance(ty, tuple):
            return frozenset().union(*map(self.open, ty[1:]))
        return frozenset((ty,)) if isinstance(ty, int) else frozenset()

    def fresh(self, ty: Type, known: Dict[str, Type]) -> Type:
        """A most general type at types that aren't known."""
        if isinstance(ty, tuple):
            return (ty[0],) + tuple(self.fresh(part, known) for part in ty[1:])
        return known[ty] if ty in known else known.setdefault(ty, self.new())

    def final(self, ty: Type, names: Dict[int, str], begun: str) -> Type:
        """A type with names for what was left open, which have a beginning of their own."""
        ty = self.find(ty)
        if isinstance(ty, int):
            return names.setdefault(ty, "%s%d" % (begun, len(names)))
        return (ty[0],) + tuple(self.final(part, names, begun) for part in ty[1:]) if isinstance(ty, tuple) else ty


class _Reader:
    """Reads one text by recursive descent, with its types."""

    def __init__(self, text: str, signature: Signature, free: Dict[str, Type]) -> None:
        self.tokens = tokens(text)
        self.at = self.depth = 0
        self.signature, self.types = signature, Types()
        self.free: Dict[str, Type] = dict(free)
        self.bound: List[Tuple[str, Type]] = []

    def peek(self) -> str:
        return self.tokens[self.at] if self.at < len(self.tokens) else ""

    def take(self, wanted: Optional[str] = None) -> str:
        token = self.peek()
        if not token or wanted is not None and token != wanted:
            raise Unreadable("`%s` is missing" % (wanted or "a term"))
        self.at += 1
        return token

    def term(self, loosest: int = 0) -> Tuple[Term, Type]:
        left, ty = self.prefix()
        while LEVELS.get(self.peek(), -1) >= loosest:
            name = self.take()
            self.enter()
            right, other = self.term(LEVELS[name])
            self.depth -= 1
            self.types.unify(ty, other)
            side = ty if name == "=" else BOOL
            self.types.unify(ty, side)
            left, ty = typed.apply(("c", "=" if name == "<=>" else name, fun(side, fun(side, BOOL))), left, right), BOOL
        return left, ty

    def enter(self) -> None:
        self.depth += 1
        if self.depth > _DEEPEST:
            raise Unreadable("this is nested too deeply")

    def prefix(self) -> Tuple[Term, Type]:
        token = self.peek()
        is_applied = self.at + 1 < len(self.tokens) and self.tokens[self.at + 1] != ")"
        self.enter()
        if token == "~" and is_applied:
            self.take()
            body, ty = self.prefix()
            self.types.unify(ty, BOOL)
            found = typed.mk_not(body), BOOL
        elif token in BINDERS and is_applied:
            found = self.binder(self.take())
        else:
            found = self.application()
        self.depth -= 1
        return found

    def binder(self, kind: str) -> Tuple[Term, Type]:
        names = self.bound_variables()
        self.bound += names
        body, ty = self.term()
        del self.bound[len(self.bound) - len(names):]
        for name, variable in reversed(names):
            body, ty = self.bind(kind, name, variable, body, ty)
        return body, ty

    def bind(self, kind: str, name: str, variable: Type, body: Term, ty: Type) -> Tuple[Term, Type]:
        made = ("l", Hint(name), variable, body)
        if kind == "\\":
            return made, fun(variable, ty)
        self.types.unify(ty, BOOL)
        result = variable if kind == "@" else BOOL
        return ("a", ("c", kind, fun(fun(variable, BOOL), result)), made), result

    def bound_variables(self) -> List[Tuple[str, Type]]:
        names: List[Tuple[str, Type]] = []
        while self.peek() != ".":
            is_enclosed = self.peek() == "("
            if is_enclosed:
                self.take()
            name, ty = self.name(), self.types.new()
            if self.peek() == ":":
                self.take()
                ty = self.type()
                self.expect(")" if is_enclosed else ".")
            if is_enclosed:
                self.take(")")
            names.append((name, ty))
        self.take(".")
        if not names:
            raise Unreadable("a binder without a variable")
        return names

    def expect(self, token: str) -> None:
        """Refuses what isn't followed by a token."""
        if self.peek() != token:
            raise Unreadable("`%s` is missing" % token)

    def name(self) -> str:
        token = self.take()
        if not (token[0].isalpha() or token[0] == "_"):
            raise Unreadable("`%s` is no name" % token)
        return token

    def application(self) -> Tuple[Term, Type]:
        found, ty = self.atom()
        while self.peek() == "(" or self.peek()[:1].isalpha() or self.peek()[:1] == "_":
            argument, other = self.atom()
            result = self.types.new()
            self.types.unify(ty, fun(other, result))
            found, ty = ("a", found, argument), result
        if self.peek() == ":":
            self.take()
            self.types.unify(ty, self.type())
        return found, ty

    def atom(self) -> Tuple[Term, Type]:
        if self.peek() == "(":
            self.take()
            if self.peek() in OPERATORS and self.tokens[self.at + 1:self.at + 2] == [")"]:
                name = self.take()
                found = self.constant(name)
            else:
                found = self.term()
            self.take(")")
            return found
        name = self.name()
        for back, (other, ty) in enumerate(reversed(self.bound)):
            if other == name:
                return ("b", back), ty
        if name in self.signature.constants and name not in self.free:
            return self.constant(name)
        ty = self.free[name] if name in self.free else self.free.setdefault(name, self.types.new())
        return ("v", name, ty), ty

    def constant(self, name: str) -> Tuple[Term, Type]:
        ty = fun(BOOL, fun(BOOL, BOOL)) if name == "<=>" else self.types.fresh(self.signature.constants[name], {})
        return ("c", "=" if name == "<=>" else name, ty), ty

    def type(self) -> Type:
        self.enter()
        ty = self.applied_type()
        if self.peek() == "->":
            self.take()
            ty = fun(ty, self.type())
        self.depth -= 1
        return ty

    def applied_type(self) -> Type:
        arguments = self.type_atoms()
        while self.peek() in self.signature.constructors and self.signature.constructors[self.peek()] == len(arguments) and arguments:
            arguments = [(self.take(),) + tuple(arguments)]
        if len(arguments) != 1:
            raise Unreadable("a type is missing")
        return arguments[0]

    def type_atoms(self) -> List[Type]:
        token = self.take()
        if token == "(":
            found = [self.type()]
            while self.peek() == ",":
                self.take()
                found.append(self.type())
            self.take(")")
            return found
        number = self.signature.constructors.get(token)
        if number:
            raise Unreadable("the type `%s` lacks its arguments" % token)
        return [(token,) if number == 0 else token]

    def finished(self, term: Term, names: Dict[int, str], begun: str = "?") -> Term:
        """A term with its types as they were found."""
        kind = term[0]
        if kind == "a":
            return ("a", self.finished(term[1], names, begun), self.finished(term[2], names, begun))
        if kind == "l":
            return ("l", term[1], self.types.final(term[2], names, begun), self.finished(term[3], names, begun))
        return term if kind == "b" else (kind, term[1], self.types.final(term[2], names, begun))


def _ended(reader: _Reader) -> None:
    if reader.peek():
        raise Unreadable("`%s` is too much" % reader.peek())


def term(text: str, signature: Signature, free: Optional[Dict[str, Type]] = None, ty: Optional[Type] = None, begun: str = "?") -> Term:
    """The term of a text, where some free variables have types that are known; of a type, where one is given. A type that is left open gets a
    name that begins as is said."""
    reader = _Reader(text, signature, free or {})
    found, own = reader.term()
    _ended(reader)
    if ty is not None:
        reader.types.unify(own, ty)
    return reader.finished(found, {}, begun)


def type_text(text: str, signature: Signature) -> Type:
    """The type of a text."""
    reader = _Reader(text, signature, {})
    found = reader.type()
    _ended(reader)
    return found


def definition(text: str, signature: Signature) -> Term:
    """The theorem that a definition's text makes: `c x y = t` under `!x y`."""
    reader = _Reader(text, signature, {})
    name = reader.name()
    names: List[Tuple[str, Type]] = []
    while reader.peek() not in ("=", "<=>", ":"):
        is_enclosed = reader.peek() == "("
        if is_enclosed:
            reader.take()
        variable, ty = reader.name(), reader.types.new()
        if is_enclosed:
            reader.take(":")
            reader.types.unify(ty, reader.type())
            reader.take(")")
        names.append((variable, ty))
    result = reader.types.new()
    if reader.peek() == ":":
        reader.take()
        reader.types.unify(result, reader.type())
    is_formula = reader.take() == "<=>"
    reader.bound += names
    body, own = reader.term() if is_formula else reader.term(LEVELS["="])
    _ended(reader)
    del reader.bound[:]
    reader.types.unify(own, BOOL if is_formula else own)
    reader.types.unify(own, result)
    ty = own
    for _, other in reversed(names):
        ty = fun(other, ty)
    left: Term = ("c", name, ty)
    for back in range(len(names) - 1, -1, -1):
        left = ("a", left, ("b", back))
    made: Term = typed.apply(("c", "=", fun(own, fun(own, BOOL))), left, body)
    for variable, other in reversed(names):
        made, _ = reader.bind("!", variable, other, made, BOOL)
    return reader.finished(made, {})
