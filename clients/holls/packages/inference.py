"""The types of a text: from the reader's trees to terms with all their types."""

from __future__ import annotations

import itertools
from typing import Callable, Dict, FrozenSet, Iterator, List, Mapping, Optional, Protocol, Set, Tuple

from holls.packages import terms
from holls.packages.terms import BOOL, LOGIC, Meta, Term, fun, solved, tyshow, unify, walk
from holls.surface.errors import Misread
from holls.surface.tree import Annotation, Application, Binder, Connective, Name, Negation, Symbol, free_names
from holls.surface.tree import Term as Tree
from holls.surface.tree import Type as WrittenType

MOST_DEPTH = 150
"""So deep may a text be nested that a package goes through: all walks of terms go down to its leaves."""


class Constants(Protocol):
    """What inference asks of a place."""

    def type_of(self, name: str) -> Optional[terms.Type]:
        """A constant's most general type."""

    def arity_of(self, name: str) -> Optional[int]:
        """How many arguments a constructor of types takes."""


def check_depth(tree: Tree) -> Tree:
    """The tree. Raises `Misread` where it is nested too deeply."""
    waiting = [(tree, 1)]
    while waiting:
        node, depth = waiting.pop()
        if depth > MOST_DEPTH:
            raise Misread(node.start, max(node.end, node.start + 1), "this is nested too deeply for a package: split it")
        waiting += [(part, depth + 1) for part in parts(node)]
    return tree


def parts(node: Tree) -> List[Tree]:
    """The parts of a tree's node, types among them."""
    kind = node.__class__
    if kind is Application:
        return [node.function, node.argument]
    if kind is Connective:
        return [node.left, node.right]
    if kind is Negation:
        return [node.body]
    if kind is Annotation:
        return [node.term, node.type]
    if kind is Binder:
        return [node.body] + ([node.type] if node.type else [])
    return list(node.arguments) if kind is WrittenType else []


class Inference:
    """Terms of trees; `free` are the types of free variables, which may be open."""

    def __init__(self, constants: Constants, free: Optional[Mapping[str, terms.Type]] = None) -> None:
        self.constants = constants
        self.free: Dict[str, terms.Type] = dict(free or {})

    def type(self, written: WrittenType) -> terms.Type:
        """A type as it is written. Raises `Misread` where a constructor doesn't stand or takes another number of arguments."""
        number = self.constants.arity_of(written.constructor)
        if number is None:
            if written.arguments:
                raise Misread(written.start, written.end, "`%s` is no type constructor here" % written.constructor)
            return written.constructor
        if number != len(written.arguments):
            raise Misread(written.start, written.end, "the type `%s` takes %d arguments" % (written.constructor, number))
        return (written.constructor,) + tuple(self.type(one) for one in written.arguments)

    def need(self, found: terms.Type, wanted: terms.Type, at: Tree, what: str = "this doesn't fit: it is of type %s and %s is wanted") -> None:
        """Raises `Misread` at a place where two types aren't one."""
        if not unify(found, wanted):
            number = itertools.count()
            shown = [tyshow(solved(one, lambda: "?%d" % next(number))) for one in (found, wanted)]
            raise Misread(at.start, at.end, what % tuple(shown))

    def constant(self, name: str) -> Term:
        """A constant at the most general type that its place allows."""
        general = LOGIC[name] if name in LOGIC else self.constants.type_of(name)
        metas = {one: Meta() for one in terms.tyvars(general)}
        return ("c", name, terms.tysubst(general, metas))

    def is_constant(self, name: str) -> bool:
        """Whether a name that nothing binds is a constant."""
        return name in LOGIC or self.constants.type_of(name) is not None

    def term(self, node: Tree, bound: Mapping[str, terms.Type]) -> Term:
        """The term of a tree, with open types. Raises `Misread` where types don't fit."""
        kind = node.__class__
        if kind is Name:
            return self._name(node.text, bound)
        if kind is Symbol:
            return self.constant("=" if node.text == "<=>" else node.text)
        if kind is Application:
            return self._application(node, bound)
        if kind is Connective:
            return self._connective(node, bound)
        if kind is Negation:
            body = self.term(node.body, bound)
            self.need(type_of(body), BOOL, node.body)
            return terms.app(self.constant("~"), body)
        if kind is Annotation:
            body = self.term(node.term, bound)
            self.need(type_of(body), self.type(node.type), node.term)
            return body
        return self._binder(node, bound)

    def _name(self, name: str, bound: Mapping[str, terms.Type]) -> Term:
        if name in bound:
            return ("v", name, bound[name])
        if self.is_constant(name):
            return self.constant(name)
        if name not in self.free:
            self.free[name] = Meta()
        return ("v", name, self.free[name])

    def _application(self, node: Application, bound: Mapping[str, terms.Type]) -> Term:
        function, argument = self.term(node.function, bound), self.term(node.argument, bound)
        type_ = walk(type_of(function))
        if isinstance(type_, tuple) and type_[0] == "fun":
            self.need(type_of(argument), type_[1], node.argument)
        else:
            self.need(type_, fun(type_of(argument), Meta()), node.function)
        return ("@", function, argument)

    def _connective(self, node: Connective, bound: Mapping[str, terms.Type]) -> Term:
        constant = self.constant("=" if node.symbol == "<=>" else node.symbol)
        left, right = self.term(node.left, bound), self.term(node.right, bound)
        if node.symbol == "=":
            self.need(type_of(right), type_of(left), node.right)
        else:
            self.need(type_of(left), BOOL, node.left)
            self.need(type_of(right), BOOL, node.right)
        unify(constant[2][1], type_of(left))
        return terms.app(constant, left, right)

    def _binder(self, node: Binder, bound: Mapping[str, terms.Type]) -> Term:
        type_ = self.type(node.type) if node.type else Meta()
        body = self.term(node.body, {**bound, node.name: type_})
        function = ("\\", node.name, type_, body)
        if node.kind == "\\":
            return function
        self.need(type_of(body), BOOL, node.body)
        constant = self.constant(node.kind)
        unify(constant[2][1], type_of(function))
        return ("@", constant, function)

    def closed(self, term: Term, name: Callable[[], str]) -> Term:
        """The term with what its types have become, and names for those that are open still."""
        kind = term[0]
        if kind == "v" or kind == "c":
            return (kind, term[1], solved(term[2], name))
        if kind == "@":
            return ("@", self.closed(term[1], name), self.closed(term[2], name))
        return ("\\", term[1], solved(term[2], name), self.closed(term[3], name))


def type_of(term: Term) -> terms.Type:
    """The type of a term whose types are open."""
    kind = term[0]
    if kind == "v" or kind == "c":
        return term[2]
    if kind == "@":
        function = walk(type_of(term[1]))
        if isinstance(function, Meta):
            function.to = fun(type_of(term[2]), Meta())
            function = function.to
        return function[2]
    return ("fun", term[2], type_of(term[3]))


def open_names(used: Set[str]) -> Callable[[], str]:
    """Names for open types, none of which is used."""
    every = itertools.chain("ABCDEGHJKLMNPQRSUVWXYZ", ("A%d" % number for number in itertools.count()))
    free: Iterator[str] = (name for name in every if name not in used)
    return lambda: next(free)


def written_variables(tree: Tree, constants: Constants) -> Set[str]:
    """The type variables, and other names of types, that a tree has."""
    found: Set[str] = set()
    waiting = [tree]
    while waiting:
        node = waiting.pop()
        if node.__class__ is WrittenType and not node.arguments and constants.arity_of(node.constructor) is None:
            found.add(node.constructor)
        waiting += parts(node)
    return found


def namer(tree: Tree, constants: Constants) -> Callable[[], str]:
    """Names for the open types of a tree's term: neither its own nor constructors that stand."""
    used = written_variables(tree, constants)
    every = open_names(used)

    def name() -> str:
        while True:
            found = every()
            if constants.arity_of(found) is None:
                return found

    return name


def typed(tree: Tree, constants: Constants, wanted: Optional[terms.Type] = None,
          free: Optional[Mapping[str, terms.Type]] = None) -> Tuple[Term, Dict[str, terms.Type]]:
    """The term of a tree, and the types of its free variables."""
    inference = Inference(constants, free)
    term = inference.term(check_depth(tree), {})
    if wanted is not None:
        inference.need(type_of(term), wanted, tree)
    name = namer(tree, constants)
    return inference.closed(term, name), {one: solved(type_, name) for one, type_ in inference.free.items()}


def free_variables(tree: Tree, is_constant: Callable[[str], bool], bound: FrozenSet[str] = frozenset()) -> List[str]:
    """The names in a tree that are free and no constants, in order."""
    return [name for name in free_names(tree) or [] if name not in bound and not is_constant(name)]
