"""Abbreviations: `c x y` read as a term that has no name of its own. The program gets the term.

    abbreviate `below x y = x < y /\\ ~(x = 0)`;;
"""

from __future__ import annotations

from typing import Any, Callable, Dict, List, Mapping, NamedTuple, Set, Tuple

from holls.surface.errors import Misread
from holls.surface.tree import Annotation, Application, Binder, Connective, Name, Negation, Symbol, Term, free_names, spine

_DEEPEST = 100
"""So deep may be what an abbreviation stands for."""
MOST_NODES = 20_000
"""A quotation stands for so many nodes at most."""


class Abbreviation(NamedTuple):
    """An abbreviation: its name, its arguments, and what it stands for as plain text."""

    name: str
    arguments: Tuple[str, ...]
    body: str


def parts(node: Term) -> Tuple[Term, ...]:
    """The terms that a node is made of."""
    kind = node.__class__
    if kind is Application:
        return node.function, node.argument
    if kind is Connective:
        return node.left, node.right
    if kind in (Negation, Binder):
        return (node.body,)
    return (node.term,) if kind is Annotation else ()


def is_deep(term: Term) -> bool:
    """Whether a term is nested more deeply than what an abbreviation stands for may be."""
    waiting = [(term, 1)]
    while waiting:
        node, depth = waiting.pop()
        if depth > _DEEPEST:
            return True
        waiting += [(part, depth + 1) for part in parts(node)]
    return False


class Expanding:
    """Puts terms for the abbreviations in a text's tree; `body_of` reads what one stands for, `bound` counts the names that are bound around it."""

    def __init__(self, every: Mapping[str, Abbreviation], body_of: Callable[[Abbreviation], Term], bound: Mapping[str, int]) -> None:
        self._every, self._body_of = every, body_of
        self._bound = dict(bound)
        self._nodes = 0
        self._sizes: Dict[str, int] = {}
        self.is_used = False

    def expanded(self, term: Term) -> Term:
        """The tree with terms for abbreviations. Raises `Misread` where one can't stand."""
        done: List[Term] = []
        waiting: List[Tuple[str, Any]] = [("visit", term)]
        while waiting:
            what, node = waiting.pop()
            if what == "visit":
                self._visit(node, waiting, done)
            elif what == "spine":
                head, arguments = spine(node)
                number = len(arguments)
                inner = done[len(done) - number:] if number else []
                del done[len(done) - number:]
                done.append(self._instance(head, inner, node))
            else:
                self._build(node, done)
        return done[0]

    def _visit(self, node: Term, waiting: List[Tuple[str, Any]], done: List[Term]) -> None:
        kind = node.__class__
        if kind is Name or kind is Application:
            head, arguments = spine(node)
            if head.__class__ is Name and head.text in self._every and not self._bound.get(head.text):
                waiting.append(("spine", node))
                waiting += [("visit", one) for one in reversed(arguments)]
                return
        if kind is Binder:
            self._bound[node.name] = self._bound.get(node.name, 0) + 1
        own = parts(node)
        if own:
            waiting.append(("build", node))
            waiting += [("visit", one) for one in reversed(own)]
        else:
            done.append(node)

    def _build(self, node: Term, done: List[Term]) -> None:
        """Makes a node anew of parts that were made."""
        kind = node.__class__
        if kind is Binder:
            self._bound[node.name] -= 1
        own = parts(node)
        made = done[len(done) - len(own):]
        del done[len(done) - len(own):]
        done.append(node if all(one is other for one, other in zip(own, made)) else _with_parts(node, made))

    def _instance(self, head: Name, arguments: List[Term], whole: Term) -> Term:
        """What an abbreviation stands for at its arguments; arguments that lack are taken by a function."""
        self.is_used = True
        found = self._every[head.text]
        body = self._body_of(found)
        hidden = next((name for name in free_names(body) if name not in found.arguments and self._bound.get(name)), None)
        if hidden is not None:
            raise Misread(head.start, head.end, "the bound variable `%s` hides the constant in what `%s` stands for: rename the variable" % (
                hidden, head.text), hiding=hidden)
        taken = {name for one in arguments for name in free_names(one)} | set(free_names(body)) - set(found.arguments)
        to: Dict[str, Term] = dict(zip(found.arguments, arguments))
        rest: List[str] = []
        for name in found.arguments[len(arguments):]:
            new = name
            while new in taken:
                new += "'"
            taken.add(new)
            rest.append(new)
            to[name] = Name(new, whole.start, whole.end)
        self._sizes = {name: self._size(one) for name, one in to.items()}
        made = self._substituted(body, to, whole)
        for name in reversed(rest):
            made = Binder("\\", name, None, made, whole.start, whole.end, whole.start, whole.end)
        for one in arguments[len(found.arguments):]:
            made = Application(made, one, whole.start, whole.end)
        return made

    @staticmethod
    def _size(term: Term) -> int:
        """The number of a term's nodes, as far as that is no more than a quotation may have."""
        number, waiting = 0, [term]
        while waiting and number <= MOST_NODES:
            number += 1
            waiting += parts(waiting.pop())
        return number

    def _substituted(self, node: Term, to: Dict[str, Term], whole: Term) -> Term:
        """What an abbreviation stands for with terms for its arguments; its own parts have the range of the whole."""
        self._nodes += self._sizes.get(node.text, 1) if node.__class__ is Name and node.text in to else 1
        if self._nodes > MOST_NODES:
            raise Misread(whole.start, whole.end, "the abbreviations here stand for a term of over %d nodes" % MOST_NODES)
        kind, start, end = node.__class__, whole.start, whole.end
        if kind is Name:
            return to[node.text] if node.text in to else Name(node.text, start, end)
        if kind is Symbol:
            return Symbol(node.text, start, end)
        if kind is Binder:
            inner = {name: one for name, one in to.items() if name != node.name}
            used: Set[str] = {name for one in inner.values() for name in free_names(one)}
            name = node.name
            if name in used:
                while name in used or name in free_names(node.body):
                    name += "'"
                inner[node.name] = Name(name, start, end)
            return Binder(node.kind, name, node.type, self._substituted(node.body, inner, whole), start, end, start, end)
        made = _with_parts(node, [self._substituted(one, to, whole) for one in parts(node)])
        made.start, made.end = start, end
        if kind is Connective:
            made.at, made.until = start, end
        return made


def _with_parts(node: Term, made: List[Term]) -> Term:
    """A node with other parts."""
    kind = node.__class__
    if kind is Application:
        return Application(made[0], made[1], node.start, node.end)
    if kind is Connective:
        found = Connective(node.symbol, made[0], made[1], node.at, node.until)
        found.start, found.end = node.start, node.end
        return found
    if kind is Negation:
        return Negation(made[0], node.start, node.end)
    if kind is Annotation:
        return Annotation(made[0], node.type, node.start, node.end)
    return Binder(node.kind, node.name, node.type, made[0], node.at, node.until, node.start, node.end)
