"""Terms as they are shown, read into trees, and patterns of them (docs/NOTATION.md has the grammar).

A tree is a name, a place of a binder counted from the innermost one, or a tuple: ("app", function, argument) or (binder, body). An infix is
its constant applied twice. Types are passed over, and names of bound variables don't matter. In a pattern `_` is any term, and a name that
stands for no constant is any term too, the same one wherever it stands.
"""

from __future__ import annotations

import re
from typing import Any, Dict, FrozenSet, Iterator, List, Optional, Tuple

Tree = Any

_TOKEN = re.compile(r"\s*([A-Za-z_][A-Za-z0-9_']*|\?[0-9]+|<=>|==>|\\/|/\\|->|\?!|[=~\\!?@().:,])")
BINDERS = frozenset(("\\", "!", "?", "?!", "@"))
LEVELS = {"<=>": 0, "==>": 1, "\\/": 2, "/\\": 3, "=": 4}
"""The infixes from what binds loosest; all group to the right."""
OPERATORS = frozenset(("~", "!", "?", "?!", "@", *LEVELS))
_MOST_DEPTH = 150


class Unreadable(Exception):
    """A text that is no term."""


class _Reader:
    """Reads one text by recursive descent."""

    def __init__(self, text: str) -> None:
        self.tokens = tokens(text)
        self.at = 0
        self.bound: List[str] = []
        self.depth = 0

    def peek(self) -> str:
        return self.tokens[self.at] if self.at < len(self.tokens) else ""

    def take(self, wanted: Optional[str] = None) -> str:
        token = self.peek()
        if not token or wanted is not None and token != wanted:
            raise Unreadable("`%s` is missing" % wanted if wanted else "the pattern ends too soon")
        self.at += 1
        return token

    def infix(self, loosest: int = 0) -> Tree:
        """A term whose infixes bind at least as tightly as the one of this level."""
        left = self.prefix()
        while True:
            name = self.peek()
            level = LEVELS.get(name, -1)
            if level < loosest:
                return left
            self.take()
            self.enter()
            left = ("app", ("app", "=" if name == "<=>" else name, left), self.infix(level))
            self.depth -= 1

    def enter(self) -> None:
        self.depth += 1
        if self.depth > _MOST_DEPTH:
            raise Unreadable("this is nested too deeply")

    def prefix(self) -> Tree:
        self.enter()
        token = self.peek()
        if token == "~" and self.next_is_term():
            self.take()
            found = ("app", "~", self.prefix())
        elif token in BINDERS and self.next_is_term():
            found = self.binder(self.take())
        else:
            found = self.application()
        self.depth -= 1
        return found

    def next_is_term(self) -> bool:
        return self.at + 1 < len(self.tokens) and self.tokens[self.at + 1] != ")"

    def binder(self, kind: str) -> Tree:
        names = self.variables()
        self.bound += names
        body = self.infix()
        del self.bound[len(self.bound) - len(names):]
        for _ in names:
            body = (kind, body)
        return body

    def variables(self) -> List[str]:
        """The variables of a binder up to its dot; their types are passed over."""
        names: List[str] = []
        while self.peek() != ".":
            token = self.take()
            if token == ":":
                while self.peek() not in (".", ")", ""):
                    self.take()
            elif token not in ("(", ")"):
                names.append(token)
        self.take(".")
        if not names:
            raise Unreadable("a binder without a variable")
        return names

    def application(self) -> Tree:
        found = self.atom()
        while self.peek() and (self.peek() == "(" or self.peek()[0].isalpha() or self.peek()[0] == "_"):
            found = ("app", found, self.atom())
        if self.peek() == ":":
            while self.peek() not in (")", "") and self.peek() not in ("=", "==>", "<=>", "/\\", "\\/"):
                self.take()
        return found

    def atom(self) -> Tree:
        token = self.take()
        if token == "(":
            if self.peek() in OPERATORS and self.tokens[self.at + 1:self.at + 2] == [")"]:
                name = self.take()
                self.take(")")
                return "=" if name == "<=>" else name
            found = self.infix()
            self.take(")")
            return found
        if not (token[0].isalpha() or token[0] == "_"):
            raise Unreadable("no term begins with `%s`" % token)
        for back, name in enumerate(reversed(self.bound)):
            if name == token:
                return back
        return token


def tokens(text: str) -> List[str]:
    """The tokens of a term's text."""
    found, at = [], 0
    text = text.rstrip()
    while at < len(text):
        match = _TOKEN.match(text, at)
        if not match:
            raise Unreadable("`%s` begins no symbol" % text[at:].lstrip()[0])
        found.append(match.group(1))
        at = match.end()
    return found


def read(text: str) -> Tree:
    """The tree of a text."""
    reader = _Reader(text)
    found = reader.infix()
    if reader.peek():
        raise Unreadable("`%s` is too much" % reader.peek())
    return found


def is_hole(tree: Tree, constants: FrozenSet[str]) -> bool:
    """Whether a name of a pattern stands for any term."""
    return isinstance(tree, str) and (tree == "_" or tree[0].isalpha() and tree not in constants)


def symbols(tree: Tree, constants: FrozenSet[str]) -> FrozenSet[str]:
    """What a tree that a pattern matches has to have: the constants, and the binders but `\\`."""
    if isinstance(tree, str):
        return frozenset() if is_hole(tree, constants) else frozenset((tree,))
    if isinstance(tree, int):
        return frozenset()
    if tree[0] == "app":
        return symbols(tree[1], constants) | symbols(tree[2], constants)
    return symbols(tree[1], constants) | frozenset((tree[0],))


def matches(pattern: Tree, tree: Tree, constants: FrozenSet[str]) -> bool:
    """Whether a pattern is a tree, with terms for what stands for any."""
    return _matches(pattern, tree, constants, {}, 0)


def _matches(pattern: Tree, tree: Tree, constants: FrozenSet[str], terms: Dict[str, Tree], depth: int) -> bool:
    """The same below so many binders, where some names stand for terms already."""
    if isinstance(pattern, str):
        if is_hole(pattern, constants):
            outside = _outside(tree, depth) if depth else tree
            return pattern == "_" or terms.setdefault(pattern, outside) == outside
        return pattern == tree
    if isinstance(pattern, int):
        return pattern == tree
    if not isinstance(tree, tuple) or len(pattern) != len(tree) or pattern[0] != tree[0]:
        return False
    if len(pattern) == 2:
        return _matches(pattern[1], tree[1], constants, terms, depth + 1)
    return _matches(pattern[1], tree[1], constants, terms, depth) and _matches(pattern[2], tree[2], constants, terms, depth)


def _outside(tree: Tree, depth: int, inside: int = 0) -> Tree:
    """A tree as it is outside of so many binders. A variable that they bind has a form of its own, by its binder counted from outside."""
    if isinstance(tree, int):
        return tree if tree < inside else tree - depth if tree >= inside + depth else ("bound", depth + inside - tree)
    if isinstance(tree, str):
        return tree
    if len(tree) == 2:
        return tree[0], _outside(tree[1], depth, inside + 1)
    return tree[0], _outside(tree[1], depth, inside), _outside(tree[2], depth, inside)


def parts(tree: Tree) -> Iterator[Tuple[Any, Tree, int]]:
    """The parts of a tree, each with what it begins with (see `head`) and its depth."""
    waiting = [(tree, 0)]
    while waiting:
        part, depth = waiting.pop()
        chain = []
        while isinstance(part, tuple) and part[0] == "app":
            chain.append(part)
            part = part[1]
        begins = None if isinstance(part, tuple) else part
        for at, applied in enumerate(chain):
            yield part[0] if begins is None else (begins, len(chain) - at), applied, depth + at
            waiting.append((applied[2], depth + at + 1))
        yield part[0] if begins is None else (begins, 0), part, depth + len(chain)
        if begins is None:
            waiting.append((part[1], depth + len(chain) + 1))


def head(tree: Tree) -> Any:
    """What a tree begins with: a binder, or the name or bound variable that is applied with the number of its arguments."""
    number = 0
    while isinstance(tree, tuple) and tree[0] == "app":
        tree, number = tree[1], number + 1
    return tree[0] if isinstance(tree, tuple) else (tree, number)


def stripped(tree: Tree) -> Tree:
    """The tree without its outer `!`."""
    while isinstance(tree, tuple) and tree[0] == "!":
        tree = tree[1]
    return tree


def conclusion(tree: Tree) -> Tree:
    """What a statement concludes: without its outer `!` and its premises."""
    while True:
        tree = stripped(tree)
        if not (isinstance(tree, tuple) and tree[0] == "app" and isinstance(tree[1], tuple) and tree[1][:2] == ("app", "==>")):
            return tree
        tree = tree[2]
