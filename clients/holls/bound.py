"""The type of the variable that a shown goal binds first, as far as the goal's free variables tell it.

A goal is shown without its bound variables' types. Where such a variable is handed to a free one, or stands beside one at `=`, the free one's type
says what it has.
"""

from __future__ import annotations

from typing import Any, Dict, Iterator, List, Optional, Tuple

from holls import terms
from holls.protocol import Goal

Tree = Any


def bound_type(goal: Goal, binder: str) -> Optional[str]:
    """The type of the variable of the binder with which a goal's conclusion begins; None where there is none, or the goal doesn't tell it."""
    try:
        tree = terms.read(goal.conclusion)
    except terms.Unreadable:
        return None
    if not isinstance(tree, tuple) or tree[0] != binder:
        return None
    types: Dict[str, str] = dict(tuple(text.split(":", 1)) for text in goal.free if ":" in text)
    return next(_told(tree[1], types), None)


def _told(body: Tree, types: Dict[str, str]) -> Iterator[str]:
    """What the places of a body say of its variable's type."""
    waiting: List[Tuple[Tree, int]] = [(body, 0)]
    while waiting:
        tree, depth = waiting.pop()
        if not isinstance(tree, tuple):
            continue
        if tree[0] != "app":
            waiting.append((tree[1], depth + 1))
            continue
        head, arguments = _spine(tree)
        wanted = _arguments(types[head]) if isinstance(head, str) and head in types else []
        yield from (of for argument, of in zip(arguments, wanted) if argument == depth and isinstance(argument, int))
        if head == "=" and len(arguments) == 2 and depth in arguments:
            other = arguments[1 - arguments.index(depth)]
            yield from [types[other]] if isinstance(other, str) and other in types else []
        waiting += [(one, depth) for one in reversed(arguments + ([head] if isinstance(head, tuple) else []))]


def _spine(tree: Tree) -> Tuple[Tree, List[Tree]]:
    """What is applied, and to what."""
    arguments: List[Tree] = []
    while isinstance(tree, tuple) and tree[0] == "app":
        arguments.append(tree[2])
        tree = tree[1]
    return tree, arguments[::-1]


def _arguments(text: str) -> List[str]:
    """The types of a function type's arguments."""
    found, depth, start, at = [], 0, 0, 0
    while at < len(text):
        depth += {"(": 1, ")": -1}.get(text[at], 0)
        if not depth and text.startswith("->", at):
            found.append(text[start:at].strip())
            start = at = at + 2
            continue
        at += 1
    return found
