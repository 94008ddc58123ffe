"""The decisions that a function's clauses make in their order: which patterns are missing, which are never reached, and equations that don't overlap."""

from __future__ import annotations

import itertools
from dataclasses import dataclass
from typing import Callable, Dict, FrozenSet, List, NamedTuple, Optional, Set, Tuple, Union

from holls.packages.clauses import Clause, Function, error
from holls.packages.datatypes import argument_names
from holls.packages.numerals import norm
from holls.packages.scope import Asking, Constructor, Data
from holls.packages.terms import Term, Type, app, args_of, const, fresh, frees, fun, lams, names, same, spine, subst, tyshow, tysubst, var


MOST_LEAVES = 300
MADE = "_"
"""So begin the names of variables that nobody wrote."""


@dataclass(eq=False)
class Leaf:
    """A place that a clause decides: the patterns that lead to it, and what the clause's variables are there."""

    clause: Clause
    patterns: List[Term]
    bound: Dict[str, Term]


@dataclass(eq=False)
class Split:
    """A variable told apart by its constructors, each with the new variables and what is decided there."""

    variable: Term
    data: Data
    branches: List[Tuple[Constructor, List[Term], "Node"]]


Node = Union[Leaf, Split, None]


class _Row(NamedTuple):
    patterns: List[Term]
    clause: Clause
    bound: Dict[str, Term]


def constructor_types(data: Data, constructor: Constructor, type_: Type) -> List[Type]:
    """The types of a constructor's arguments at an instance of its type."""
    to = dict(zip(data.parameters, type_[1:]))
    return [tysubst(one, to) for one in constructor.types]


class Decisions:
    """A function's decisions. `leaves` are in order; `missing` are the first patterns that no clause takes."""

    def __init__(self, function: Function, asking: Asking, functions: FrozenSet[str], first: Optional[int] = None) -> None:
        self.function, self.asking, self.functions = function, asking, functions
        self.leaves: List[Leaf] = []
        self.missing: Optional[List[Term]] = None
        self._numbers = itertools.count()
        number = len(function.clauses[0].patterns)
        types, self.result = args_of(function.type, number)
        self.taken: Set[str] = {function.name}
        for one in function.clauses:
            self.taken |= {variable[1] for variable in one.variables} | names(one.right)
        self.arguments = self._arguments(types)
        rows = [_Row(list(one.patterns), one, {}) for one in function.clauses]
        self.root = self._built(list(self.arguments), rows, list(self.arguments), first)

    def _arguments(self, types: List[Type]) -> List[Term]:
        """The function's arguments, called as a clause calls them where one does."""
        found: List[Term] = []
        for at, type_ in enumerate(types):
            pattern = next((one.patterns[at] for one in self.function.clauses if one.patterns[at][0] == "v"), None)
            used = [one[1] for one in found]
            name = pattern[1] if pattern and pattern[1] not in used and not self.asking.is_constant(pattern[1]) else None
            found.append(var(name or self.asking.fresh("a%d" % at, self.taken), type_))
        return found

    def _built(self, columns: List[Term], rows: List[_Row], patterns: List[Term], first: Optional[int] = None) -> Node:
        if not rows:
            self.missing = self.missing or patterns
            return None
        row = rows[0]
        at = first if first is not None else next((number for number, one in enumerate(row.patterns) if one[0] != "v"), None)
        if at is None:
            bound = dict(row.bound)
            bound.update((pattern[1], column) for pattern, column in zip(row.patterns, columns))
            leaf = Leaf(row.clause, patterns, bound)
            self.leaves.append(leaf)
            if len(self.leaves) > MOST_LEAVES:
                raise error(row.clause.head, "these patterns part into over %d cases: write fewer constructors in one clause" % MOST_LEAVES)
            return leaf
        variable = columns[at]
        data = self.asking.data_of(variable[2][0]) if isinstance(variable[2], tuple) else None
        if data is None:
            raise error(row.clause.head, "patterns of the type `%s` can't be told apart" % tyshow(variable[2]))
        return Split(variable, data, [self._branch(one, data, at, columns, rows, patterns) for one in data.constructors])

    def _branch(self, constructor: Constructor, data: Data, at: int, columns: List[Term], rows: List[_Row],
                patterns: List[Term]) -> Tuple[Constructor, List[Term], Node]:
        variable = columns[at]
        new = self._new(constructor, data, at, columns, rows, patterns)
        term = app(const(constructor.name, fun(*[one[2] for one in new], variable[2])), *new)
        fitting = [made for made in (self._row(one, at, constructor, variable, new, term) for one in rows) if made]
        seen = [subst(one, {variable[1]: term}) for one in patterns]
        return constructor, new, self._built(columns[:at] + new + columns[at + 1:], fitting, seen)

    def _new(self, constructor: Constructor, data: Data, at: int, columns: List[Term], rows: List[_Row], patterns: List[Term]) -> List[Term]:
        """Variables for a constructor's arguments, called as the first clause with it does."""
        heads = (spine(row.patterns[at]) for row in rows if row.patterns[at][0] != "v")
        hint = next((arguments for head, arguments in heads if head[1] == constructor.name), None)
        usual, variable = argument_names(constructor, self.asking), columns[at]
        found: List[Term] = []
        for number, type_ in enumerate(constructor_types(data, constructor, variable[2])):
            name = hint[number][1] if hint and hint[number][0] == "v" else usual[number]
            used = [one[1] for one in columns + found if one is not variable]
            used += [one for pattern in patterns for one in frees(pattern) if one != variable[1]]
            while name in used or name in self.functions or self.asking.is_constant(name):
                name += "'"
            found.append(var(name, type_))
        return found

    def _row(self, row: _Row, at: int, constructor: Constructor, variable: Term, new: List[Term], term: Term) -> Optional[_Row]:
        """A row where a column is a constructor of new variables; None where it doesn't fit."""
        pattern = row.patterns[at]
        bound = {name: subst(one, {variable[1]: term}) for name, one in row.bound.items()}
        if pattern[0] == "v":  # It takes all: the new columns get variables of its own.
            inner = [var("%s%d_%s" % (MADE, next(self._numbers), one[1]), one[2]) for one in new]
            bound[pattern[1]] = term
        else:
            head, inner = spine(pattern)
            if head[1] != constructor.name:
                return None
        return _Row(row.patterns[:at] + inner + row.patterns[at + 1:], row.clause, bound)


def case_term(node: Node, result: Type, of_leaf: Callable[[Leaf], Term]) -> Term:
    """What is decided, by constants of cases."""
    if isinstance(node, Leaf):
        return of_leaf(node)
    functions: List[Term] = []
    types: List[Type] = []
    for _, new, inner in node.branches:
        functions.append(lams(new, case_term(inner, result, of_leaf)))
        types.append(fun(*[one[2] for one in new], result))
    return app(const(node.data.case, fun(*types, node.variable[2], result)), *functions, node.variable)


def splits(node: Node) -> List[Split]:
    """All places at which something is told apart."""
    found: List[Split] = []
    waiting = [node]
    while waiting:
        one = waiting.pop()
        if isinstance(one, Split):
            found.append(one)
            waiting += [inner for _, _, inner in one.branches]
    return found


def leaf_statement(leaf: Leaf, functions: List[Function]) -> Tuple[List[Term], List[Term], Term]:
    """A leaf's variables, patterns and right side, with the clause's own names where these stand for variables."""
    renamed = {term[1]: var(name, term[2]) for name, term in leaf.bound.items() if term[0] == "v" and not name.startswith(MADE)}
    types = {name: type_ for one in leaf.patterns for name, type_ in frees(one).items()}
    values = {one[1] for one in renamed.values()}
    for name in sorted(set(types) - set(renamed)):
        if name in values:  # Another variable has the name.
            new = fresh(name, values | set(types) | {one.name for one in functions})
            values.add(new)
            renamed[name] = var(new, types[name])
    patterns = [subst(one, renamed) for one in leaf.patterns]
    bound = {name: subst(term, renamed) for name, term in leaf.bound.items() if not name.startswith(MADE)}
    variables = {name: type_ for one in patterns for name, type_ in frees(one).items()}
    return [var(*one) for one in variables.items()], patterns, subst(leaf.clause.right, bound)


# ---- Clauses that overlap


def is_shadowed(clause: Clause, functions: List[Function]) -> bool:
    """Whether an earlier clause takes something of which this one says otherwise."""
    function = next(one for one in functions if one.name == clause.function)
    earlier = function.clauses[:function.clauses.index(clause)]
    return any(_overlap(one.patterns, clause.patterns) and not _agree(one, clause) for one in earlier)


def _overlap(some: List[Term], others: List[Term]) -> bool:
    return all(_meet(*pair) for pair in zip(some, others))


def _meet(one: Term, other: Term) -> bool:
    if one[0] == "v" or other[0] == "v":
        return True
    (head, some), (other_head, others) = spine(one), spine(other)
    return head[1] == other_head[1] and _overlap(some, others)


def _agree(earlier: Clause, clause: Clause) -> bool:
    """Whether both clauses say the same where both match."""
    apart = {one[1]: var(one[1] + "#", one[2]) for one in earlier.variables}
    to: Dict[str, Term] = {}
    waiting = [(subst(one, apart), other) for one, other in zip(earlier.patterns, clause.patterns)]
    while waiting:
        one, other = (_walked(term, to) for term in waiting.pop())
        if one[0] == "v":
            if one != other:
                to[one[1]] = other
        elif other[0] == "v":
            to[other[1]] = one
        else:
            waiting += list(zip(spine(one)[1], spine(other)[1]))
    return same(_filled(subst(earlier.right, apart), to), _filled(clause.right, to))


def _walked(term: Term, to: Dict[str, Term]) -> Term:
    while term[0] == "v" and term[1] in to:
        term = to[term[1]]
    return term


def _filled(term: Term, to: Dict[str, Term]) -> Term:
    for _ in range(len(to) + 1):
        term = subst(term, to)
    return norm(term)


def matched(pattern: Term, other: Term, to: Dict[str, Term]) -> bool:
    """Whether two patterns meet; `to` is what the first one's variables are then."""
    if pattern[0] == "v":
        to[pattern[1]] = other
        return True
    if other[0] == "v":
        return True
    (head, some), (other_head, others) = spine(pattern), spine(other)
    return head[1] == other_head[1] and all(matched(one, two, to) for one, two in zip(some, others))
