"""Trees of terms and types as they are written, each node with its range in the text.

Operators of the notation are applications already, whose head has the operator's range: a tree is that of a plain text.
"""

from __future__ import annotations

from typing import Any, Dict, List, Optional, Tuple

PRECEDENCES = {"<=>": 2, "==>": 4, "\\/": 6, "/\\": 8, "=": 12}
"""The infixes of the plain language, which all group to the right."""
BINDERS = frozenset(("\\", "!", "?", "?!", "@"))
ALONE = frozenset(PRECEDENCES) | BINDERS - {"\\"} | {"~"}
"""The symbols that stand for a constant when they stand alone between parentheses."""


class Type:
    """A type constructor with its arguments, or a type variable: a name without arguments."""

    __slots__ = ("constructor", "arguments", "start", "end")

    def __init__(self, constructor: str, arguments: Tuple["Type", ...], start: int, end: int) -> None:
        self.constructor, self.arguments, self.start, self.end = constructor, arguments, start, end


class Name:
    """A variable or a constant by its name."""

    __slots__ = ("text", "start", "end")

    def __init__(self, text: str, start: int, end: int) -> None:
        self.text, self.start, self.end = text, start, end


class Symbol:
    """A symbol of the plain language alone, as `(/\\)`."""

    __slots__ = ("text", "start", "end")

    def __init__(self, text: str, start: int, end: int) -> None:
        self.text, self.start, self.end = text, start, end


class Application:
    """A function and one argument."""

    __slots__ = ("function", "argument", "start", "end")

    def __init__(self, function: "Term", argument: "Term", start: int, end: int) -> None:
        self.function, self.argument, self.start, self.end = function, argument, start, end


class Connective:
    """An infix of the plain language between two terms; its symbol stands from `at` to `until`."""

    __slots__ = ("symbol", "left", "right", "at", "until", "start", "end")

    def __init__(self, symbol: str, left: "Term", right: "Term", at: int, until: int) -> None:
        self.symbol, self.left, self.right, self.at, self.until = symbol, left, right, at, until
        self.start, self.end = left.start, right.end


class Negation:
    """`~` and a term."""

    __slots__ = ("body", "start", "end")

    def __init__(self, body: "Term", start: int, end: int) -> None:
        self.body, self.start, self.end = body, start, end


class Annotation:
    """A term with its type."""

    __slots__ = ("term", "type", "start", "end")

    def __init__(self, term: "Term", type_: Type, start: int, end: int) -> None:
        self.term, self.type, self.start, self.end = term, type_, start, end


class Binder:
    """A binder with one variable; the variable and its type stand from `at` to `until`."""

    __slots__ = ("kind", "name", "type", "body", "at", "until", "start", "end")

    def __init__(self, kind: str, name: str, type_: Optional[Type], body: "Term", at: int, until: int, start: int, end: int) -> None:
        self.kind, self.name, self.type, self.body = kind, name, type_, body
        self.at, self.until, self.start, self.end = at, until, start, end


Term = Any
"""A Name, Symbol, Application, Connective, Negation, Annotation or Binder."""


def spine(term: Term) -> Tuple[Term, List[Term]]:
    """What is applied, and its arguments in order."""
    arguments: List[Term] = []
    while term.__class__ is Application:
        arguments.append(term.argument)
        term = term.function
    arguments.reverse()
    return term, arguments


def applied(function: Term, arguments: List[Term], start: int, end: int) -> Term:
    """A function applied to arguments, all with one range."""
    for argument in arguments:
        function = Application(function, argument, start, end)
    return function


def free_names(term: Term, most: Optional[int] = None) -> Optional[List[str]]:
    """The names that no binder in the term binds, in order, each once; None where the term has more than `most` nodes."""
    found: Dict[str, None] = {}
    bound: Dict[str, int] = {}
    waiting: List[Any] = [term]
    seen = 0
    while waiting:
        node = waiting.pop()
        kind = node.__class__
        if kind is tuple:  # A binder's end.
            bound[node[0]] -= 1
            continue
        seen += 1
        if most is not None and seen > most:
            return None
        if kind is Name:
            if not bound.get(node.text):
                found.setdefault(node.text)
        elif kind is Application:
            waiting += (node.argument, node.function)
        elif kind is Connective:
            waiting += (node.right, node.left)
        elif kind is Negation:
            waiting.append(node.body)
        elif kind is Annotation:
            waiting.append(node.term)
        elif kind is Binder:
            bound[node.name] = bound.get(node.name, 0) + 1
            waiting += ((node.name,), node.body)
    return list(found)


def bare(term: Term) -> Tuple[Any, ...]:
    """The term without ranges, as a flat tuple in which each node stands before its parts: equal for terms that are written alike."""
    found: List[Any] = []
    waiting: List[Any] = [term]
    while waiting:
        node = waiting.pop()
        kind = node.__class__
        if kind is Name:
            found += ("name", node.text)
        elif kind is Symbol:
            found += ("symbol", node.text)
        elif kind is Application:
            found.append("application")
            waiting += (node.argument, node.function)
        elif kind is Connective:
            found += ("connective", node.symbol)
            waiting += (node.right, node.left)
        elif kind is Negation:
            found.append("negation")
            waiting.append(node.body)
        elif kind is Annotation:
            found += ("annotation", bare_type(node.type))
            waiting.append(node.term)
        elif kind is Binder:
            found += ("binder", node.kind, node.name, bare_type(node.type) if node.type else None)
            waiting.append(node.body)
        else:
            found += bare_type(node)
    return tuple(found)


def bare_type(type_: Type) -> Tuple[Any, ...]:
    """The type without ranges, as a flat tuple of constructors, each with the number of its arguments before these."""
    found: List[Any] = []
    waiting = [type_]
    while waiting:
        node = waiting.pop()
        found += (node.constructor, len(node.arguments))
        waiting += reversed(node.arguments)
    return tuple(found)
