"""Requests and replies of hol-serve, as docs/PROTOCOL.md has them."""

from __future__ import annotations

import json
import re
from dataclasses import dataclass
from json.encoder import encode_basestring
from typing import Any, Dict, List, Tuple, Union

from holls import manual

LINE_BYTES = 65_536
COMMANDS = 1_000
THEORIES = 64
NAME_BYTES = 64
TOKENS = 4_096
BRACKETS = 200

MEMORY = 9
"""The number of the memory line."""
SHAPE = 3
"""The number of the refusal of an unknown op."""

SYNTAX, IN_A_PROOF, NO_PROOF, UNKNOWN_THEORY, UNKNOWN_THEOREM, UNKNOWN_TAC = 1, 2, 3, 4, 5, 6
UNTYPABLE, NOT_BOOL, ARITY, NAME_TAKEN, NOT_CLOSED, NOT_REFLECTED = 7, 8, 9, 10, 11, 12
TOO_LARGE, BAD_RULE, HYPOTHESES, NO_GOAL, REFUSED, TURN_LIMIT = 13, 14, 15, 16, 17, 18
GOALS_REMAIN, NOTHING_TO_UNDO, IMPORT_CLASH = 19, 20, 21

RESERVED = frozenset((*manual.TACTICALS, *manual.RULES))
"""The words that are no names."""

_WRITTEN = json.JSONEncoder(separators=(",", ":"), ensure_ascii=False).encode
_READ = json.JSONDecoder().raw_decode
_DONE = b'{"ok":true}'
"""The commonest reply."""
_NAME = re.compile(r"[A-Za-z_][A-Za-z0-9_']*\Z")


@dataclass(frozen=True)
class Goal:
    """An open goal: the assumptions with the newest first, the free variables as `name:type`, and the conclusion."""

    assumptions: Tuple[str, ...]
    free: Tuple[str, ...]
    conclusion: str


@dataclass(frozen=True)
class Goals:
    """The report of an accepted command after which a proof is open."""

    goals: Tuple[Goal, ...]


@dataclass(frozen=True)
class Made:
    """The report of an accepted command after which no proof is open, with the texts of what it made."""

    entries: Tuple[str, ...]


@dataclass(frozen=True)
class Refusal:
    """The report of a refused command."""

    number: int
    argument: str
    text: str


@dataclass(frozen=True)
class Lost:
    """In place of a report: why there is none."""

    reason: str


@dataclass(frozen=True)
class Done:
    """The reply to an edit."""


DONE = Done()


@dataclass(frozen=True)
class Items:
    """On what a theorem rests; None where no such theorem stands at the theory's end."""

    items: Union[Tuple[str, ...], None]


@dataclass(frozen=True)
class Theorems:
    """The theorems that stand at a theory's end, as `thm N |- p`."""

    texts: Tuple[str, ...]


@dataclass(frozen=True)
class Error:
    """A request that was refused."""

    number: int
    text: str


@dataclass(frozen=True)
class Unreadable:
    """A line that is no reply."""

    line: str


Report = Union[Goals, Made, Refusal]
Reply = Union[Goals, Made, Refusal, Done, Items, Theorems, Error, Unreadable]


def is_name(text: str) -> bool:
    """Whether the text is a NAME of the notation that can name a theory."""
    return bool(_NAME.match(text)) and text not in RESERVED and len(text) <= NAME_BYTES


def line(request: Dict[str, Any]) -> bytes:
    """A request as a line without its newline."""
    return _WRITTEN(request).encode("utf-8", "replace")


def edit(op: str, theory: str, at: int, text: str) -> bytes:
    """An edit of a theory as a line without its newline. A theory's name has no character that JSON escapes."""
    return ('{"op":"%s","theory":"%s","at":%d,"text":%s}' % (op, theory, at, encode_basestring(text))).encode("utf-8", "replace")


def short(theory: str) -> int:
    """Of fewer characters than so many each text fits into a request's line."""
    return (LINE_BYTES - len(theory) - 100) // 6


def is_too_long(theory: str, text: str) -> bool:
    """Whether a command's text doesn't fit into a request's line, at any place of the theory."""
    if len(text) < short(theory):
        return False
    return len(line({"op": "replace", "theory": theory, "at": COMMANDS, "text": text})) > LINE_BYTES


def reply(data: bytes) -> Reply:
    """What a line of the server says."""
    if data == _DONE:
        return DONE
    try:
        text = data.decode("utf-8").strip()
        value, end = _READ(text)
        return _reply(value) if end == len(text) else Unreadable(text[:200])
    except (ValueError, KeyError, TypeError, AttributeError, RecursionError):
        return Unreadable(data[:200].decode("utf-8", "replace"))


def _reply(value: Dict[str, Any]) -> Reply:
    if value["ok"] is False:
        return Error(int(value["error"]), str(value["text"]))
    if "refusal" in value:
        return Refusal(int(value["refusal"]), str(value["arg"]), str(value["text"]))
    if "goals" in value:
        return Goals(tuple([_goal(goal) for goal in value["goals"]]))
    if "made" in value:
        return Made(_texts(value["made"]))
    if "items" in value:
        return Items(None if value["items"] is None else _texts(value["items"]))
    if "theorems" in value:
        return Theorems(_texts(value["theorems"]))
    if value != {"ok": True}:
        raise ValueError("no reply")
    return DONE


def _goal(value: Dict[str, Any]) -> Goal:
    return Goal(_texts(value["asl"]), _texts(value["free"]), str(value["goal"]))


def _texts(values: List[Any]) -> Tuple[str, ...]:
    if not isinstance(values, list):
        raise TypeError("no list")
    return tuple(map(str, values))
