"""The clauses of functions that are defined: equations whose left sides are applied to patterns."""

from __future__ import annotations

from dataclasses import dataclass, field
from typing import Dict, Iterable, List, Optional, Tuple

from holls.packages.inference import Inference, free_variables, namer, type_of
from holls.packages.numerals import MOST, literal, norm
from holls.packages.scope import Asking
from holls.packages.terms import BOOL, Meta, Term, Type, app, frees, spine, strip, var
from holls.surface.errors import Misread
from holls.surface.tree import Annotation, Application, Binder, Connective, Name
from holls.surface.tree import Term as Tree

MOST_CLAUSES = 100


@dataclass(eq=False)
class Clause:
    """A clause: the function, its patterns, what it is there, its variables; as it was written, with the ranges of the left and the right side."""

    function: str
    patterns: List[Term]
    right: Term
    variables: List[Term]
    head: Tree
    body: Tree
    given: Term
    written: List[Term]


@dataclass(eq=False)
class Function:
    """A function that is defined, with its clauses in order."""

    name: str
    type: Type
    clauses: List[Clause] = field(default_factory=list)


def conjuncts(tree: Tree) -> List[Tree]:
    """The parts of a conjunction."""
    found: List[Tree] = []
    while tree.__class__ is Connective and tree.symbol == "/\\":
        found.append(tree.left)
        tree = tree.right
    return found + [tree]


def stripped(tree: Tree) -> Tree:
    """What stands under quantifiers."""
    while tree.__class__ is Binder and tree.kind == "!":
        tree = tree.body
    return tree


def tree_spine(tree: Tree) -> Tuple[Tree, List[Tree]]:
    """What is applied, without its type, and to what."""
    arguments: List[Tree] = []
    while tree.__class__ is Application:
        arguments.append(tree.argument)
        tree = tree.function
    while tree.__class__ is Annotation:
        tree = tree.term
    arguments.reverse()
    return tree, arguments


def error(at: Tree, text: str, taken: Optional[Tuple[str, str]] = None) -> Misread:
    """An error at a tree."""
    return Misread(at.start, max(at.end, at.start + 1), text, taken=taken)


class ClauseReader:
    """Reads the clauses of a quotation, several functions' if there are."""

    def __init__(self, tree: Tree, asking: Asking) -> None:
        self.tree, self.asking = tree, asking
        self.parts = conjuncts(tree)
        self.arities: Dict[str, int] = {}
        self.sides: List[Connective] = [self._side(part) for part in self.parts]
        if len(self.parts) > MOST_CLAUSES:
            raise error(self.parts[MOST_CLAUSES], "at most %d clauses stand together" % MOST_CLAUSES)

    def _side(self, part: Tree) -> Connective:
        """A clause's equation; its function and the number of its arguments are taken notice of."""
        body = stripped(part)
        while body.__class__ is Annotation:
            body = body.term
        if body.__class__ is not Connective or body.symbol not in ("=", "<=>"):
            raise error(body, "a clause is an equation, `F pattern .. = term`")
        head, arguments = tree_spine(body.left)
        if head.__class__ is not Name:
            raise error(body.left, "the left side of a clause is a function that is to be defined, applied to patterns")
        if self.asking.is_constant(head.text):
            raise error(head, "the constant `%s` stands already: another name for what is defined" % head.text, ("const", head.text))
        if self.arities.setdefault(head.text, len(arguments)) != len(arguments):
            raise error(body.left, "`%s` has %d arguments here and %d above" % (head.text, len(arguments), self.arities[head.text]))
        return body

    def read(self) -> Tuple[List[Function], List[Clause]]:
        """The functions, in the order of their first clauses, and all clauses. Raises `Misread`."""
        inference = Inference(self.asking)
        own: Dict[str, Type] = {name: Meta() for name in self.arities}
        open_terms = []
        for part in self.parts:
            others = {name: Meta() for name in free_variables(part, self.asking.is_constant) if name not in own}
            inference.free = {**own, **others}
            term = inference.term(part, {})
            inference.need(type_of(term), BOOL, part)
            open_terms.append(term)
        name = namer(self.tree, self.asking)
        functions: Dict[str, Function] = {}
        for open_term, side in zip(open_terms, self.sides):
            self._add(functions, inference.closed(open_term, name), side)
        every = [functions[key] for key in self.arities]
        return every, self._in_order(every)

    def _in_order(self, functions: Iterable[Function]) -> List[Clause]:
        waiting = {one.name: iter(one.clauses) for one in functions}
        return [next(waiting[tree_spine(side.left)[0].text]) for side in self.sides]

    def _add(self, functions: Dict[str, Function], term: Term, side: Connective) -> None:
        _, body = strip(term)
        left, right = body[1][2], body[2]
        head, patterns = spine(left)
        variables = {name: type_ for one in patterns for name, type_ in frees(one).items()}
        for name in {**frees(left), **frees(right)}:
            if name not in self.arities and name not in variables:
                raise error(side.right, "the variable `%s` stands on the right and in no pattern" % name)
        _, trees = tree_spine(side.left)
        self._check_once(trees, variables)
        function = functions.setdefault(head[1], Function(head[1], head[2]))
        function.clauses.append(Clause(
            head[1], [self._pattern(one, tree) for one, tree in zip(patterns, trees)], right, [var(*one) for one in variables.items()],
            side.left, side.right, term, patterns))

    def _check_once(self, trees: List[Tree], variables: Dict[str, Type]) -> None:
        """Raises `Misread` where a variable stands twice in a clause's patterns."""
        seen = set()
        waiting = list(reversed(trees))
        while waiting:
            node = waiting.pop()
            if node.__class__ is Name and node.text in variables and not self.asking.is_constant(node.text):
                if node.text in seen:
                    raise error(node, "the variable `%s` stands twice in the patterns of a clause: two variables, and a condition on the right" % node.text)
                seen.add(node.text)
            elif node.__class__ is Application:
                waiting += (node.argument, node.function)
            elif node.__class__ is Annotation:
                waiting.append(node.term)

    def _pattern(self, term: Term, at: Tree) -> Term:
        """A term that is a pattern: a variable, or a constructor applied to patterns. Raises `Misread`."""
        if term[0] == "v":
            return term
        number = literal(term)
        if number is not None and number > MOST:
            raise error(at, "a numeral over %d is no pattern: write `if x = %d then .. else ..`" % (MOST, number))
        head, arguments = spine(norm(term))
        found = self.asking.constructor(head[1]) if head[0] == "c" else None
        if found is None:
            shown = head[1] if head[0] in "vc" else "\\"
            raise error(at, "`%s` is no pattern: these are variables, constructors applied to patterns, numerals and `n + 1`" % shown)
        if len(arguments) != len(found[1].types):
            raise error(at, "the constructor `%s` takes %d arguments" % (head[1], len(found[1].types)))
        return app(head, *[self._pattern(one, at) for one in arguments])


def clause_of(clauses: List[Clause], function: str) -> Optional[Clause]:
    """A function's last clause."""
    return next((one for one in reversed(clauses) if one.function == function), None)
