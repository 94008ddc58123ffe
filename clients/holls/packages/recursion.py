"""Primitive recursion: each call is at an immediate part of one argument, by the recursion theorem of its type.

Functions on one type may call one another, and functions on lists of it; `MAP F l`, `ALL F l` and `EX F l` are calls on a list's elements.
"""

from __future__ import annotations

import itertools
from typing import Callable, FrozenSet, List, Mapping, Optional, Sequence, Set, Tuple, Union

from holls.packages.calls import OVER_LISTS, product_type, projected, tuple_term
from holls.packages.clauses import Function
from holls.packages.matching import Decisions, Leaf, Split, case_term
from holls.packages.numerals import norm
from holls.packages.output import Output, Steps
from holls.packages.scope import Asking, Constructor, Data
from holls.packages.terms import BOOL, Term, Type, app, args_of, beta, const, frees, fun, lams, names, same, spine, subst, tyshow, typeof, var

_MOST_CHOICES = 64
Key = Union[str, Tuple[str, str]]
Values = Callable[[Key, Term], Optional[Term]]
"""What stands for a function's value at a term, or ("list", function) for its values on a list; None where it isn't known."""


class _NotPrimitive(Exception):
    """A call is at something else than an immediate part."""


class Primitive:
    """A way to define functions by primitive recursion, where `column` says at which argument each recurs. Raises `_NotPrimitive` where there is none."""

    def __init__(self, functions: Sequence[Function], arities: Mapping[str, int], column: Mapping[str, int], asking: Asking) -> None:
        self.functions, self.arities, self.column, self.asking = list(functions), arities, column, asking
        types = {one.name: args_of(one.type, arities[one.name])[0][column[one.name]] for one in functions}
        self.main = [one for one in functions if not self._is_on_lists(types, one)]
        self.lists = [one for one in functions if one not in self.main]
        if not self.main or len({types[one.name] for one in self.main}) != 1:
            raise _NotPrimitive
        self.type = types[self.main[0].name]
        self.data: Data = asking.data_of(self.type[0])
        if any(types[one.name] != ("list", self.type) for one in self.lists):
            raise _NotPrimitive
        self.trees = {one.name: Decisions(one, asking, frozenset(arities), column[one.name]) for one in functions}
        if any(tree.missing is not None for tree in self.trees.values()):
            raise _NotPrimitive
        self.place = {one.name: at for at, one in enumerate(self.main)}
        self.list_place = {one.name: at for at, one in enumerate(self.lists)}
        self.others = {name: [one for at, one in enumerate(tree.arguments) if at != column[name]] for name, tree in self.trees.items()}
        self.value = {name: fun(*[one[2] for one in self.others[name]], tree.result) for name, tree in self.trees.items()}
        self.values = product_type([self.value[one.name] for one in self.main])
        self.taken = self._taken()
        self.zipped = _Zipped(self) if self.lists else None
        self.bodies = [self._at_constructor(at) for at in range(len(self.data.constructors))]

    @staticmethod
    def _is_on_lists(types: Mapping[str, Type], function: Function) -> bool:
        own = types[function.name]
        return own[0] == "list" and own[1] in types.values()

    def _taken(self) -> Set[str]:
        found = set(self.arities)
        for tree in self.trees.values():
            found |= tree.taken
            for leaf in tree.leaves:
                for one in leaf.patterns:
                    found |= names(one)
        return found

    def fresh(self, base: str) -> str:
        """A name that is used nowhere."""
        return self.asking.fresh(base, self.taken)

    def root(self, name: str) -> Split:
        """A function's first decision, which is on the argument at which it recurs."""
        return self.trees[name].root

    def _at_constructor(self, at: int) -> Term:
        """What the functions are at a constructor, of its arguments and their values."""
        constructor = self.data.constructors[at]
        new = self.root(self.main[0].name).branches[at][1]
        values = [self._value_of(one, kind) for one, kind in zip(new, constructor.kinds)]
        bodies = []
        for function in self.main:
            _, own, inner = self.root(function.name).branches[at]
            body = lams(self.others[function.name], case_term(
                inner, self.trees[function.name].result, lambda leaf, function=function: self._at_leaf(leaf, function, constructor, values)))
            bodies.append(subst(body, {one[1]: other for one, other in zip(own, new)}))
        return lams(list(new) + [one for one in values if one], tuple_term(bodies))

    def _value_of(self, variable: Term, kind: str) -> Optional[Term]:
        if kind == "x":
            return None
        return var(self.fresh("r_" + variable[1]), self.values if kind == "r" else ("list", self.values))

    def _at_leaf(self, leaf: Leaf, function: Function, constructor: Constructor, values: Sequence[Optional[Term]]) -> Term:
        _, parts = spine(leaf.patterns[self.column[function.name]])

        def known(key: Key, term: Term) -> Optional[Term]:
            for part, kind, value in zip(parts, constructor.kinds, values):
                if value is not None and same(term, norm(part)):
                    return self._known(key, kind, part, value)
            return None

        return self.replaced(subst(leaf.clause.right, leaf.bound), known)

    def _known(self, key: Key, kind: str, part: Term, value: Term) -> Optional[Term]:
        """A function's value at a part whose values are known."""
        if isinstance(key, tuple):
            return self._mapped(key[1], value) if kind == "l" else None
        if kind == "r":
            return projected(self.place[key], len(self.main), value) if key in self.place else None
        if key in self.list_place and self.zipped:
            return projected(self.list_place[key], len(self.lists), self.zipped.of(part, value))
        return None

    def _mapped(self, name: str, value: Term) -> Term:
        if len(self.main) == 1:
            return value
        one, result = var("x", self.values), self.value[name]
        function = lams([one], projected(self.place[name], len(self.main), one))
        return app(const("MAP", fun(fun(self.values, result), ("list", self.values), ("list", result))), function, value)

    def replaced(self, term: Term, known: Values, bound: FrozenSet[str] = frozenset()) -> Term:
        """The term with known values for calls. Raises `_NotPrimitive` where one isn't known."""
        head, arguments = spine(term)
        if head[0] == "v" and head[1] in self.arities and head[1] not in bound:
            at, number = self.column[head[1]], self.arities[head[1]]
            value = known(head[1], norm(arguments[at])) if len(arguments) >= number else None
            if value is None:
                raise _NotPrimitive
            return app(value, *[self.replaced(one, known, bound) for place, one in enumerate(arguments) if place != at])
        if self._is_over_list(head, arguments):
            value = known(("list", arguments[0][1]), norm(arguments[1]))
            if value is None:
                raise _NotPrimitive
            if head[1] == "MAP":
                return value
            same_ = lams([var("b", BOOL)], var("b", BOOL))
            return app(const(head[1], fun(fun(BOOL, BOOL), typeof(value), BOOL)), same_, value)
        if term[0] == "@":
            return ("@", self.replaced(term[1], known, bound), self.replaced(term[2], known, bound))
        return ("\\", term[1], term[2], self.replaced(term[3], known, bound | {term[1]})) if term[0] == "\\" else term

    def _is_over_list(self, head: Term, arguments: Sequence[Term]) -> bool:
        if head[0] != "c" or head[1] not in OVER_LISTS or len(arguments) != 2 or arguments[0][0] != "v":
            return False
        return arguments[0][1] in self.place and self.arities[arguments[0][1]] == 1

    # ---- The proof that there are such functions

    def proof(self, rules: Sequence[str], out: Output, closed: Callable[[Sequence[str]], str]) -> Steps:
        """The proof that functions with the leaves' equations exist."""
        whole = var(self.fresh("fn"), fun(self.type, self.values))
        witnesses = [_eta(self._witness(one, whole)) for one in self.functions]
        pairs = [(self.values, self.data.result)] + list(zip(self.type[1:], self.data.parameters))
        pairs = [pair for pair in pairs if pair[0] != pair[1]]
        theorem = self.data.recursion
        if pairs:
            theorem = "(INST_TYPE [%s] %s)" % ("; ".join("`:%s`,`:%s`" % (tyshow(type_), name) for type_, name in pairs), theorem)
        for one in self.bodies:
            theorem = "(SPEC %s %s)" % (out.show(one), theorem)
        more = ["pk_ZREC_MAP", "list_REC"] if self.lists else []
        more += ["FST", "SND"] if len(self.main) > 1 or len(self.lists) > 1 else []
        more += ["pk_ALL_MAP", "pk_EX_MAP"] if any("l" in one.kinds for one in self.data.constructors) else []
        given = ["EXISTS_TAC %s" % out.show(one) for one in witnesses]
        return [" THEN ".join(["MP_TAC %s THEN BETA_TAC THEN STRIP_TAC" % theorem, *given, "BETA_TAC", closed(more + list(rules))])]

    def _witness(self, function: Function, whole: Term) -> Term:
        arguments = self.trees[function.name].arguments
        at = arguments[self.column[function.name]]
        if function in self.main:
            value = projected(self.place[function.name], len(self.main), app(whole, at))
        else:
            value = projected(self.list_place[function.name], len(self.lists), self.zipped.folded(whole, at))
        return lams(arguments, app(value, *self.others[function.name]))


class _Zipped:
    """Functions on lists of a type, by a fold over the list beside the list of its elements' values."""

    def __init__(self, way: Primitive) -> None:
        self.way = way
        self.results = product_type([way.value[one.name] for one in way.lists])
        list_type: Type = ("list", way.type)
        self.variables = [var(way.fresh("t"), way.type), var(way.fresh("d"), way.values), var(way.fresh("l"), list_type), var(way.fresh("r"), self.results)]
        empty, more = [], []
        for function in way.lists:
            for constructor, new, inner in way.root(function.name).branches:
                body = lams(way.others[function.name], case_term(
                    inner, way.trees[function.name].result, lambda leaf, function=function: self._at_leaf(leaf, function)))
                if constructor.name == "NIL":
                    empty.append(body)
                else:
                    more.append(subst(body, {one[1]: other for one, other in zip(new, (self.variables[0], self.variables[2]))}))
        self.empty, self.step = tuple_term(empty), lams(self.variables, tuple_term(more))

    def _at_leaf(self, leaf: Leaf, function: Function) -> Term:
        way = self.way
        _, parts = spine(leaf.patterns[way.column[function.name]])

        def known(key: Key, term: Term) -> Optional[Term]:
            if parts and key in way.place and same(term, norm(parts[0])):
                return projected(way.place[key], len(way.main), self.variables[1])
            if parts and key in way.list_place and same(term, norm(parts[1])):
                return projected(way.list_place[key], len(way.lists), self.variables[3])
            return None

        return way.replaced(subst(leaf.clause.right, leaf.bound), known)

    def of(self, part: Term, values: Term) -> Term:
        """The functions' values on a list whose elements' values are known."""
        type_ = fun(typeof(self.empty), typeof(self.step), ("list", self.way.type), ("list", self.way.values), self.results)
        return app(const("pk_ZREC", type_), self.empty, self.step, part, values)

    def folded(self, whole: Term, at: Term) -> Term:
        """The functions' values on a list, by the function of its elements."""
        head, value, tail, rest = self.variables
        step = lams([head, tail, rest], beta(app(self.step, head, app(whole, head), tail, rest)))
        type_ = fun(typeof(self.empty), typeof(step), ("list", self.way.type), self.results)
        return app(const("list_REC", type_), self.empty, step, at)


def _eta(term: Term) -> Term:
    if term[0] != "\\":
        return term
    body = _eta(term[3])
    if body[0] == "@" and body[2][0] == "v" and body[2][1] == term[1] and term[1] not in frees(body[1]):
        return body[1]
    return ("\\", term[1], term[2], body)


def primitive(functions: Sequence[Function], arities: Mapping[str, int], asking: Asking) -> Optional[Primitive]:
    """The first way by primitive recursion, if there is one."""
    options: List[List[int]] = []
    for one in functions:
        types, _ = args_of(one.type, arities[one.name])
        options.append([at for at, type_ in enumerate(types) if _is_recursive(type_, asking)])
    for choice in itertools.islice(itertools.product(*options), _MOST_CHOICES):
        try:
            return Primitive(functions, arities, dict(zip(arities, choice)), asking)
        except _NotPrimitive:
            pass
    return None


def _is_recursive(type_: Type, asking: Asking) -> bool:
    data = asking.data_of(type_[0]) if isinstance(type_, tuple) else None
    return data is not None and any(kind in one.kinds for one in data.constructors for kind in "rl")
