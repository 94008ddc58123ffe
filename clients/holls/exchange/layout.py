"""Commands as the lines of a file: broken behind THEN, a semicolon or a connective, and indented by how many goals are open."""

from __future__ import annotations

import re
from typing import List, Sequence

WIDTH = 160
_PIECES = re.compile(r"`[^`]*`|[^`]+")


def lines(command: str, indent: int = 0) -> str:
    """A command with its `;;`, in lines of at most WIDTH characters where it can be broken."""
    text, rest = "", " " * indent + command.strip() + ";;"
    further = " " * (indent + 2)
    while len(rest) > WIDTH:
        place = _break(rest)
        if place <= len(further):
            break
        text += rest[:place].rstrip() + "\n"
        rest = further + rest[place:].lstrip()
    return text + rest


def _break(text: str) -> int:
    """Where a line ends: behind the last THEN or semicolon that fits, else at the last space."""
    quoted = [False] * (len(text) + 1)
    is_quoted = False
    for place, character in enumerate(text):
        if character == "`":
            is_quoted = not is_quoted
        quoted[place + 1] = is_quoted
    best = [found.end() for found in re.finditer(r" THEN |; | THENL ", text) if found.end() <= WIDTH and not quoted[found.start() + 1]]
    if best and best[-1] > WIDTH // 3:
        return best[-1]
    spaces = [place for place, character in enumerate(text[:WIDTH]) if character == " " and place > WIDTH // 3]
    return (best or spaces or [0])[-1] if not spaces else spaces[-1]


def proof(commands: Sequence[str], open_goals: Sequence[int]) -> str:
    """A proof's lines; a step that closes one of several goals is indented by how many are left."""
    made: List[str] = [lines(commands[0])]
    for place, command in enumerate(commands[1:-1], 1):
        before, after = open_goals[place - 1], open_goals[place]
        made.append(lines(command, 2 * (before - 1) if after < before else 2 * (before - 1)))
    return "\n".join(made + [commands[-1] + ";;"])
