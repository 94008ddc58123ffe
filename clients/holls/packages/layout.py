"""The shape of a type's constructors in the general type of trees: labels, children, and what takes them apart again.

Each constructor has a label: of its other arguments, and of the lengths of its lists, as a tuple in a balanced sum. Its children are the arguments
of the type itself, and behind them the lists of it, one after the other.
"""

from __future__ import annotations

from typing import Callable, Dict, List, NamedTuple, Sequence, Set

from holls.packages.datatypes import argument_names, parameters_of
from holls.packages.scope import Asking, Constructor, Data
from holls.packages.terms import Type, tyshow


class Argument(NamedTuple):
    """An argument of a constructor: its name, its type, and its kind."""

    name: str
    type: Type
    kind: str


def number(value: int) -> str:
    """A number as the program reads it."""
    return "(SUC " * value + "_0" + ")" * value


def _folded(parts: Sequence[str], form: str) -> str:
    found = parts[-1]
    for one in reversed(parts[:-1]):
        found = form % (one, found)
    return found


def product(types: Sequence[str]) -> str:
    """The type of tuples."""
    return _folded(types, "(%s,%s)prod")


def added(parts: Sequence[str]) -> str:
    """A sum of numbers."""
    return _folded(parts, "(add %s %s)")


def number_on_the_left(number: int) -> int:
    """How many of two or more constructors are on the left: the greatest power of two that is fewer, since for each of these a theorem stands."""
    return 1 << (number - 1).bit_length() - 1


def _balanced(parts: Sequence[str], form: str) -> str:
    half = number_on_the_left(len(parts)) if len(parts) > 1 else 1
    return parts[0] if len(parts) == 1 else form % (_balanced(parts[:half], form), _balanced(parts[half:], form))


def cases(functions: Sequence[str]) -> str:
    """The function of a label that is one of these by its constructor."""
    return _balanced(functions, "(sum_CASE %s %s)")


def injected(at: int, of: int, text: str) -> str:
    """A tuple as the label of one of so many constructors."""
    if of == 1:
        return text
    half = number_on_the_left(of)
    return "(INL %s)" % injected(at, half, text) if at < half else "(INR %s)" % injected(at - half, of - half, text)


class Layout:
    """A type's constructors, and the texts that are made of them."""

    def __init__(self, data: Data, asking: Asking) -> None:
        self.data = data
        self.type = tyshow(data.type)
        self.tight = tyshow(data.type, True) if data.parameters else self.type
        if data.parameters:
            self.tight = "(%s)" % self.type
        self.own = {con.name for con in data.constructors}
        self.arguments = [[Argument(*one) for one in zip(argument_names(con, asking, self.own), con.types, con.kinds)] for con in data.constructors]
        self.count = len(data.constructors)
        given = self.own | self.taken
        self.predicate, self.function = asking.fresh("P", given), asking.fresh("fn", given)
        self._step = "f%d"
        while any(asking.is_constant(self.step(at)) or self.step(at) in given for at in range(self.count)):
            self._step = self._step.replace("%", "'%")
        self.labels = "(%s)" % _balanced([product(self._label_types(at)) for at in range(self.count)], "(%s,%s)sum")
        self.has_lists = any("l" in con.kinds for con in data.constructors)

    def step(self, at: int) -> str:
        """The variable for what a recursive function is at a constructor."""
        return self._step % at

    def constructor(self, at: int) -> Constructor:
        """A constructor."""
        return self.data.constructors[at]

    def _label_types(self, at: int) -> List[str]:
        return [tyshow(one.type) if one.kind == "x" else "num" for one in self.arguments[at] if one.kind != "r"] or ["one"]

    def label(self, at: int) -> str:
        """The label of a constructor of its arguments."""
        parts = [one.name if one.kind == "x" else "(LENGTH %s)" % one.name for one in self.arguments[at] if one.kind != "r"]
        return injected(at, self.count, _folded(parts, "(pair %s %s)") if parts else "one")

    def witness(self, at: int) -> str:
        """A label of a constructor without arguments of the type itself, with any others."""
        parts = ["(@z:%s. T)" % tyshow(one.type) if one.kind == "x" else "_0" for one in self.arguments[at]]
        return injected(at, self.count, _folded(parts, "(pair %s %s)") if parts else "one")

    def projected(self, at: int, name: str) -> str:
        """An argument, or a list's length, of the tuple `p` of a label."""
        every = [one.name for one in self.arguments[at] if one.kind != "r"]
        place = every.index(name)
        found = "(SND " * place + "p" + ")" * place
        return found if place == len(every) - 1 else "(FST %s)" % found

    def arity(self, at: int) -> str:
        """How many children the tuple of a label has."""
        single = sum(one.kind == "r" for one in self.arguments[at])
        lists = [self.projected(at, one.name) for one in self.arguments[at] if one.kind == "l"]
        if not lists:
            return "(K %s)" % number(single)
        return "(\\p. %s)" % ("(SUC " * single + added(lists) + ")" * single)

    def children(self, at: int) -> str:
        """The children of a constructor of its arguments."""
        lists = [one.name for one in self.arguments[at] if one.kind == "l"]
        found = _folded(lists, "(APPEND %s %s)") if lists else "NIL"
        for one in reversed(self.arguments[at]):
            found = "(CONS %s %s)" % (one.name, found) if one.kind == "r" else found
        return found if found != "NIL" else "(NIL:%s list)" % self.tight

    def variables(self, at: int, mark: str = "") -> str:
        """The arguments with their types, as a binder has them."""
        return " ".join("(%s%s:%s)" % (one.name, mark, tyshow(one.type)) for one in self.arguments[at])

    def term(self, at: int, mark: str = "") -> str:
        """A constructor of its arguments."""
        con = self.constructor(at)
        if not self.arguments[at]:
            return "(%s:%s)" % (con.name, self.type)
        shown = "%s %s" % (con.name, " ".join(one.name + mark for one in self.arguments[at]))
        return "(%s:%s)" % (shown, self.type) if set(self.data.parameters) - set(parameters_of(con)) else "(%s)" % shown

    def forall(self, at: int, body: str, mark: str = "") -> str:
        """A body for all arguments of a constructor."""
        return "(!%s. %s)" % (self.variables(at, mark), body) if self.arguments[at] else "(%s)" % body

    def every(self, body: Callable[[int], str]) -> str:
        """A body for each constructor, for all its arguments."""
        return " /\\ ".join(self.forall(at, body(at)) for at in range(self.count))

    def recursion_type(self, at: int, result: str) -> str:
        """The type of what a recursive function is at a constructor."""
        parts = [tyshow(one.type, True) for one in self.arguments[at]]
        parts += [result if one.kind == "r" else result + " list" for one in self.arguments[at] if one.kind != "x"]
        return "->".join(parts + [result])

    def case_type(self, at: int, result: str) -> str:
        """The type of what a function by cases is at a constructor."""
        return "->".join([tyshow(one.type, True) for one in self.arguments[at]] + [result])

    def split(self, at: int, source: str) -> Dict[str, str]:
        """The arguments of the type itself, and lists of it, in a list of all children that is called so."""
        found: Dict[str, str] = {}
        rest = source
        for one in self.arguments[at]:
            if one.kind == "r":
                found[one.name], rest = "(HD %s)" % rest, "(TL %s)" % rest
        lists = [one.name for one in self.arguments[at] if one.kind == "l"]
        for name in lists[:-1]:
            length = self.projected(at, name)
            found[name], rest = "(pk_TAKE %s %s)" % (length, rest), "(pk_DROP %s %s)" % (length, rest)
        if lists:
            found[lists[-1]] = rest
        return found

    @property
    def taken(self) -> Set[str]:
        """The names of all arguments."""
        return {one.name for every in self.arguments for one in every}
