"""Writing a tree as the program reads it, with the places in the notation from which each part comes."""

from __future__ import annotations

from itertools import accumulate
from typing import Any, List, Optional, Tuple

from holls.surface.tree import PRECEDENCES, Application, Binder, Connective, Name, Negation, Symbol, Term, Type

_NEGATED, _FUNCTION, _ATOM = 13, 14, 15
"""How tightly what stands behind `~`, a function, and an argument binds."""
_TIGHT = 3
"""As a type: the left side of `->`."""

Segment = Tuple[int, int, int]
"""From a place in the plain text on, what stands there comes from this range of the notation."""


class PlainWriter:
    """Writes plain text. What follows from its parts and from where these come is made when it is asked for."""

    def __init__(self) -> None:
        self._written: List[Any] = []  # Of each part its text and the range that it comes from, one after the other: no tuple for each.

    @property
    def text(self) -> str:
        """What is written."""
        return "".join(self._written[::3])

    def segments(self, offset: int = 0) -> List[Segment]:
        """What leads back from the places of what is written, where it stands at an offset."""
        written = self._written
        return list(zip(accumulate(map(len, written[::3]), initial=offset), written[1::3], written[2::3]))

    def deepest(self) -> int:
        """The number of brackets that are open at once at most."""
        changes = ((part == "(") - (part == ")") for part in self._written[::3])
        return max(accumulate(changes), default=0)

    def put(self, text: str, start: int, end: int) -> None:
        """Writes a text that comes from a range."""
        self._written += (text, start, end)

    def term(self, term: Term, level: int = 0) -> None:
        """Writes a term, between parentheses where it binds looser than the level."""
        waiting: List[Tuple[Any, ...]] = [(term, level)]
        put, written = self.put, self._written
        while waiting:
            item = waiting.pop()
            node = item[0]
            kind = node.__class__
            if kind is str:
                written += item
            elif kind is Name:
                written += (node.text, node.start, node.end)
            elif kind is Application:
                self._application(node, item[1], waiting)
            elif kind is Connective:
                self._connective(node, item[1], waiting)
            elif kind is Binder:
                self._binder(node, item[1], waiting)
            elif kind is Symbol:
                put("(", node.start, node.end)
                put(node.text, node.start, node.end)
                put(")", node.start, node.end)
            elif kind is Negation:
                self._opened(node, item[1] > _NEGATED, waiting)
                put("~", node.start, node.start + 1)
                waiting.append((node.body, _NEGATED))
            elif kind is Type:
                self.type(node)
            else:
                self._opened(node, item[1] > 0, waiting)
                waiting += ((node.type, 0), (":", node.start, node.end), (node.term, _FUNCTION))

    def _opened(self, node: Any, is_bracketed: bool, waiting: List[Tuple[Any, ...]]) -> None:
        """Opens a parenthesis around a node, and has it closed behind it."""
        if is_bracketed:
            self.put("(", node.start, node.end)
            waiting.append((")", node.start, node.end))

    def _application(self, node: Application, level: int, waiting: List[Tuple[Any, ...]]) -> None:
        self._opened(node, level > _FUNCTION, waiting)
        function: Term = node
        while function.__class__ is Application:
            waiting += ((function.argument, _ATOM), (" ", function.start, function.end))
            function = function.function
        waiting.append((function, _FUNCTION))

    def _connective(self, node: Connective, level: int, waiting: List[Tuple[Any, ...]]) -> None:
        precedence = PRECEDENCES[node.symbol]
        self._opened(node, level > precedence, waiting)
        space = (" ", node.start, node.end)
        waiting += ((node.right, precedence), space, (node.symbol, node.at, node.until), space, (node.left, precedence + 1))

    def _binder(self, node: Binder, level: int, waiting: List[Tuple[Any, ...]]) -> None:
        """A binder, with those of its kind that stand in it at once."""
        self._opened(node, level > 0, waiting)
        kind, body = node.kind, node
        self.put(kind, node.start, node.start + len(kind))
        while body.__class__ is Binder and body.kind == kind:
            if body is not node:
                self.put(" ", node.start, node.end)
            is_last = body.body.__class__ is not Binder or body.body.kind != kind
            self.variable(body.name, body.type, body.at, body.until, is_last)
            body = body.body
        self.put(".", node.start, node.end)
        self.put(" ", node.start, node.end)
        waiting.append((body, 0))

    def variable(self, name: str, type_: Optional[Type], start: int, end: int, is_last: bool = False) -> None:
        """Writes a variable: one with a type between parentheses, unless it is a binder's last."""
        is_bare = type_ is None or is_last
        if not is_bare:
            self.put("(", start, end)
        self.put(name, start, min(start + len(name), end) if type_ else end)
        if type_ is not None:
            self.put(":", start, end)
            self.type(type_)
        if not is_bare:
            self.put(")", start, end)

    def type(self, type_: Type) -> None:
        """Writes a type."""
        waiting: List[Tuple[Any, ...]] = [(type_, 0)]
        while waiting:
            item = waiting.pop()
            node = item[0]
            if node.__class__ is str:
                self.put(node, item[1], item[2])
                continue
            arguments, start, end = node.arguments, node.start, node.end
            if node.constructor == "fun" and len(arguments) == 2:
                if item[1] >= _TIGHT:
                    self.put("(", start, end)
                    waiting.append((")", start, end))
                waiting += ((arguments[1], 0), ("->", start, end), (arguments[0], _TIGHT))
            elif not arguments:
                self.put(node.constructor, start, end)
            elif len(arguments) == 1:
                waiting += ((node.constructor, start, end), (" ", start, end), (arguments[0], _TIGHT))
            else:
                self.put("(", start, end)
                waiting += ((node.constructor, start, end), (")", start, end))
                for at, argument in enumerate(reversed(arguments)):
                    waiting += ((argument, 0),) if at == len(arguments) - 1 else ((argument, 0), (",", start, end))
