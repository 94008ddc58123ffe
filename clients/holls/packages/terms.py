"""Types and terms with all their types: made, taken apart, substituted.

A type is a string, which is a type variable, or a tuple of a constructor and its arguments, or a `Meta`, which is still open. A term is a tuple:
("v", name, type), ("c", name, type), ("@", function, argument) or ("\\\\", name, type, body).
"""

from __future__ import annotations

from typing import Any, Callable, Dict, FrozenSet, Iterable, List, Optional, Sequence, Set, Tuple, Union

Term = Tuple[Any, ...]


class Meta:
    """A type that is still open."""

    __slots__ = ("to",)

    def __init__(self) -> None:
        self.to: Optional["Type"] = None


Type = Union[str, Tuple[Any, ...], Meta]

BOOL: Type = ("bool",)
NUM: Type = ("num",)

# ---- Types


def fun(*types: Type) -> Type:
    """The type of functions of all but the last."""
    found = types[-1]
    for type_ in reversed(types[:-1]):
        found = ("fun", type_, found)
    return found


def walk(type_: Type) -> Type:
    """What an open type has become."""
    while isinstance(type_, Meta) and type_.to is not None:
        type_ = type_.to
    return type_


def solved(type_: Type, name: Optional[Callable[[], str]] = None) -> Type:
    """The type with what its open parts have become; each that is open still is given a name."""
    type_ = walk(type_)
    if isinstance(type_, Meta):
        if name is None:
            return type_
        type_.to = name()
        return type_.to
    return type_ if isinstance(type_, str) else (type_[0],) + tuple(solved(one, name) for one in type_[1:])


def occurs(meta: Meta, type_: Type) -> bool:
    """Whether an open type is a part of another one."""
    type_ = walk(type_)
    return type_ is meta or isinstance(type_, tuple) and any(occurs(meta, one) for one in type_[1:])


def unify(left: Type, right: Type) -> bool:
    """Makes two types one; whether that can be."""
    left, right = walk(left), walk(right)
    if left is right:
        return True
    if isinstance(left, Meta):
        if occurs(left, right):
            return False
        left.to = right
        return True
    if isinstance(right, Meta):
        return unify(right, left)
    if isinstance(left, str) or isinstance(right, str):
        return left == right
    return left[0] == right[0] and len(left) == len(right) and all(unify(*pair) for pair in zip(left[1:], right[1:]))


def tyvars(type_: Type, found: Optional[List[str]] = None) -> List[str]:
    """The type variables, in order, each once."""
    found = [] if found is None else found
    type_ = walk(type_)
    if isinstance(type_, str):
        if type_ not in found:
            found.append(type_)
    elif isinstance(type_, tuple):
        for one in type_[1:]:
            tyvars(one, found)
    return found


def tysubst(type_: Type, to: Dict[str, Type]) -> Type:
    """The type with other types for type variables."""
    type_ = walk(type_)
    if isinstance(type_, str):
        return to.get(type_, type_)
    return type_ if isinstance(type_, Meta) else (type_[0],) + tuple(tysubst(one, to) for one in type_[1:])


def tymatch(pattern: Type, type_: Type, to: Dict[str, Type]) -> Optional[Dict[str, Type]]:
    """`to`, with what makes the pattern the type; None where nothing does."""
    pattern, type_ = walk(pattern), walk(type_)
    if isinstance(pattern, str):
        return to if to.setdefault(pattern, type_) == type_ else None
    if isinstance(type_, str) or pattern[0] != type_[0] or len(pattern) != len(type_):
        return None
    return to if all(tymatch(*pair, to) is not None for pair in zip(pattern[1:], type_[1:])) else None


def tyshow(type_: Type, is_tight: bool = False) -> str:
    """A type as the program reads it; a tight one can stand before `->` or a constructor."""
    type_ = walk(type_)
    if isinstance(type_, str):
        return type_
    if isinstance(type_, Meta):
        return "?"
    if type_[0] == "fun":
        shown = "%s->%s" % (tyshow(type_[1], True), tyshow(type_[2]))
        return "(%s)" % shown if is_tight else shown
    if len(type_) < 3:
        return type_[0] if len(type_) == 1 else "%s %s" % (tyshow(type_[1], True), type_[0])
    return "(%s)%s" % (",".join(tyshow(one) for one in type_[1:]), type_[0])


def args_of(type_: Type, number: int) -> Tuple[List[Type], Type]:
    """The types of so many arguments of a function, and that of what it is of them."""
    found: List[Type] = []
    for _ in range(number):
        type_ = walk(type_)
        found.append(type_[1])
        type_ = type_[2]
    return found, walk(type_)


def arity(type_: Type) -> int:
    """How many arguments a function of this type takes at most."""
    number = 0
    while isinstance(type_, tuple) and type_[0] == "fun":
        number, type_ = number + 1, walk(type_[2])
    return number


# ---- Terms

LOGIC: Dict[str, Type] = {
    "T": BOOL, "F": BOOL, "~": fun(BOOL, BOOL), "/\\": fun(BOOL, BOOL, BOOL), "\\/": fun(BOOL, BOOL, BOOL), "==>": fun(BOOL, BOOL, BOOL),
    "=": fun("A", "A", BOOL), "!": fun(fun("A", BOOL), BOOL), "?": fun(fun("A", BOOL), BOOL), "?!": fun(fun("A", BOOL), BOOL),
    "@": fun(fun("A", BOOL), "A"), "ONE_ONE": fun(fun("A", "B"), BOOL), "ONTO": fun(fun("A", "B"), BOOL)}
"""The prelude's constants with their types."""


def typeof(term: Term) -> Type:
    """A term's type."""
    kind = term[0]
    if kind == "v" or kind == "c":
        return term[2]
    if kind == "@":
        return walk(typeof(term[1]))[2]
    return ("fun", term[2], typeof(term[3]))


def var(name: str, type_: Type) -> Term:
    """A variable."""
    return ("v", name, type_)


def const(name: str, type_: Type) -> Term:
    """A constant."""
    return ("c", name, type_)


def app(function: Term, *arguments: Term) -> Term:
    """A function applied to arguments."""
    for argument in arguments:
        function = ("@", function, argument)
    return function


def lams(variables: Sequence[Term], body: Term) -> Term:
    """A function of variables."""
    for one in reversed(variables):
        body = ("\\", one[1], one[2], body)
    return body


def spine(term: Term) -> Tuple[Term, List[Term]]:
    """What is applied, and to what."""
    arguments: List[Term] = []
    while term[0] == "@":
        arguments.append(term[2])
        term = term[1]
    arguments.reverse()
    return term, arguments


def binder(kind: str, variables: Sequence[Term], body: Term) -> Term:
    """A body under so many of one quantifier, or choices."""
    for one in reversed(variables):
        type_ = fun(fun(one[2], BOOL), one[2] if kind == "@" else BOOL)
        body = ("@", const(kind, type_), ("\\", one[1], one[2], body))
    return body


def forall(variables: Sequence[Term], body: Term) -> Term:
    """A body for all variables."""
    return binder("!", variables, body)


def exists(variables: Sequence[Term], body: Term) -> Term:
    """That there are variables with a body."""
    return binder("?", variables, body)


def eq(left: Term, right: Term) -> Term:
    """An equation."""
    return app(const("=", fun(typeof(left), typeof(left), BOOL)), left, right)


def operation(name: str, left: Term, right: Term) -> Term:
    """Two propositions with a connective between them."""
    return app(const(name, LOGIC[name]), left, right)


def join(name: str, terms: Sequence[Term]) -> Term:
    """Propositions with a connective between each two."""
    found = terms[-1]
    for one in reversed(terms[:-1]):
        found = operation(name, one, found)
    return found


def conj(terms: Sequence[Term]) -> Term:
    """That all propositions hold."""
    return join("/\\", terms)


def imp(condition: Optional[Term], body: Term) -> Term:
    """An implication; where there is no condition the body alone."""
    return operation("==>", condition, body) if condition is not None else body


def neg(term: Term) -> Term:
    """A negation."""
    return app(const("~", LOGIC["~"]), term)


def is_operation(term: Term, name: str) -> bool:
    """Whether a term is a constant of this name between two terms."""
    return term[0] == "@" and term[1][0] == "@" and term[1][1][0] == "c" and term[1][1][1] == name


def is_binder(term: Term, kind: str) -> bool:
    """Whether a term is a quantifier over a variable."""
    return term[0] == "@" and term[1][0] == "c" and term[1][1] == kind and term[2][0] == "\\"


def conjuncts(term: Term) -> List[Term]:
    """The parts of a conjunction, to the right."""
    found: List[Term] = []
    while is_operation(term, "/\\"):
        found.append(term[1][2])
        term = term[2]
    return found + [term]


def strip(term: Term, kind: str = "!") -> Tuple[List[Term], Term]:
    """The variables of a quantifier, and what stands under it."""
    found: List[Term] = []
    while is_binder(term, kind):
        found.append(var(term[2][1], term[2][2]))
        term = term[2][3]
    return found, term


def frees(term: Term, bound: FrozenSet[str] = frozenset(), found: Optional[Dict[str, Type]] = None) -> Dict[str, Type]:
    """The free variables with their types, in order."""
    found = {} if found is None else found
    kind = term[0]
    if kind == "v":
        if term[1] not in bound:
            found.setdefault(term[1], term[2])
    elif kind == "@":
        frees(term[1], bound, found)
        frees(term[2], bound, found)
    elif kind == "\\":
        frees(term[3], bound | {term[1]}, found)
    return found


def names(term: Term, found: Optional[Set[str]] = None) -> Set[str]:
    """All names of variables and constants."""
    found = set() if found is None else found
    kind = term[0]
    if kind == "@":
        names(term[1], found)
        names(term[2], found)
    else:
        found.add(term[1])
        if kind == "\\":
            names(term[3], found)
    return found


def fresh(base: str, taken: Set[str]) -> str:
    """A name that isn't taken, with primes; it is taken then."""
    while base in taken:
        base += "'"
    taken.add(base)
    return base


def subst(term: Term, to: Dict[str, Term]) -> Term:
    """The term with others for free variables, by their names; bound variables that would capture get primes."""
    kind = term[0]
    if kind == "v":
        return to.get(term[1], term)
    if kind == "c":
        return term
    if kind == "@":
        function, argument = subst(term[1], to), subst(term[2], to)
        return term if function is term[1] and argument is term[2] else ("@", function, argument)
    inside = frees(term[3])
    inner = {name: one for name, one in to.items() if name != term[1] and name in inside}
    if not inner:
        return term
    used = set().union(*[set(frees(one)) for one in inner.values()])
    if term[1] in used:
        name = fresh(term[1], used | set(inside))
        return ("\\", name, term[2], subst(subst(term[3], {term[1]: var(name, term[2])}), inner))
    return ("\\", term[1], term[2], subst(term[3], inner))


def tyinst(term: Term, to: Dict[str, Type]) -> Term:
    """The term with other types for type variables."""
    kind = term[0]
    if kind == "v" or kind == "c":
        return (kind, term[1], tysubst(term[2], to))
    if kind == "@":
        return ("@", tyinst(term[1], to), tyinst(term[2], to))
    return ("\\", term[1], tysubst(term[2], to), tyinst(term[3], to))


def term_tyvars(term: Term, found: Optional[List[str]] = None) -> List[str]:
    """The type variables of a term."""
    found = [] if found is None else found
    kind = term[0]
    if kind == "@":
        term_tyvars(term[1], found)
        term_tyvars(term[2], found)
    else:
        tyvars(term[2], found)
        if kind == "\\":
            term_tyvars(term[3], found)
    return found


def beta(term: Term) -> Term:
    """The term without redexes."""
    kind = term[0]
    if kind == "@":
        function, argument = beta(term[1]), beta(term[2])
        return beta(subst(function[3], {function[1]: argument})) if function[0] == "\\" else ("@", function, argument)
    return ("\\", term[1], term[2], beta(term[3])) if kind == "\\" else term


def same(left: Term, right: Term, pairs: Tuple[Tuple[str, str], ...] = ()) -> bool:
    """Whether two terms are one up to bound names, whatever their types are."""
    kind = left[0]
    if kind != right[0]:
        return False
    if kind == "v":
        for one, other in reversed(pairs):
            if left[1] == one or right[1] == other:
                return left[1] == one and right[1] == other
        return left[1] == right[1]
    if kind == "c":
        return left[1] == right[1]
    if kind == "@":
        return same(left[1], right[1], pairs) and same(left[2], right[2], pairs)
    return same(left[3], right[3], pairs + ((left[1], right[1]),))


def all_names(terms: Iterable[Term]) -> Set[str]:
    """All names in terms."""
    found: Set[str] = set()
    for one in terms:
        names(one, found)
    return found
