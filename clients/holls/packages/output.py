"""What a package stands for: plain commands, each with what it is for and the place in the package that it comes from."""

from __future__ import annotations

import re
from dataclasses import dataclass, field
from typing import List, NamedTuple, Optional, Sequence, Tuple, Union

from holls.packages.printing import show
from holls.packages.scope import Asking
from holls.packages.terms import Term, Type, tyshow
from holls.surface.errors import Misread

PUBLIC, HIDDEN, PROOF = "public", "hidden", "proof"
"""What a command is for: what it makes is the user's, or serves other commands, or it is a step of a proof."""
MOST_TOKENS = 4_096
_STEP_TOKENS = 3_500
_QUOTED_TOKENS = 4_000
_TOKEN = re.compile(r"[A-Za-z0-9_']+|<=>|==>|->|\\/|/\\|\?!|[^ \t\r\n]")

Span = Tuple[int, int]
Steps = List[Union[str, Tuple[str, List["Steps"]]]]  # type: ignore[misc]
"""A proof: steps, of which the last one may be a step with the proofs of the goals that it leaves."""


class Plain(NamedTuple):
    """A plain command of a package: its text, its role, and the range of the package's text that it comes from; what to say where it is refused."""

    text: str
    role: str
    span: Optional[Span]
    told: Optional[str] = None


def tokens(text: str) -> int:
    """How many tokens a text has."""
    return len(_TOKEN.findall(text))


def _is_longer(text: str, most: int) -> bool:
    """Whether a text has more tokens than so many."""
    return len(text) > most and tokens(text) > most


def joined(steps: Steps) -> str:
    """A proof as one expression."""
    return " THEN ".join(one if isinstance(one, str) else "%s THENL [%s]" % (one[0], "; ".join(joined(part) for part in one[1])) for one in steps)


def commands(steps: Steps) -> List[str]:
    """A proof as one expression where its tokens allow it, else cut where goals part, and before that between steps."""
    whole = joined(steps)
    if not _is_longer(whole, _STEP_TOKENS):
        return [whole]
    found: List[str] = []
    current: Steps = []
    for one in steps:
        if isinstance(one, str):
            if current and _is_longer(joined(current + [one]), _STEP_TOKENS):
                found.append(joined(current))
                current = []
            current.append(one)
        else:
            found.append(joined(current + [one[0]]))
            current = []
            found += [text for part in one[1] for text in commands(part)]
    return found + ([joined(current)] if current else [])


def conjuncts(proofs: Sequence[Steps]) -> Steps:
    """The proof of a conjunction by those of its parts."""
    found = list(proofs[-1])
    for one in reversed(proofs[:-1]):
        found = [("CONJ_TAC", [list(one), found])]
    return found


def goals(steps: Sequence[str]) -> str:
    """An expression that splits a conjunction and has one for each part."""
    found = steps[-1]
    for one in reversed(steps[:-1]):
        found = "CONJ_TAC THENL [%s; %s]" % (one, found)
    return found


def chunks(parts: Sequence[str]) -> List[List[str]]:
    """The parts of a conjunction, so many together that a quotation of them isn't too long."""
    found: List[List[str]] = []
    size = _QUOTED_TOKENS
    for one in parts:
        more = tokens(one) + 1
        if size + more > _QUOTED_TOKENS:
            found.append([])
            size = 0
        found[-1].append(one)
        size += more
    return found


@dataclass
class Output:
    """The commands that a package makes, over what stands. `warnings` are of the package's text."""

    asking: Asking
    plain: List[Plain] = field(default_factory=list)

    def put(self, text: str, role: str = HIDDEN, span: Optional[Span] = None) -> None:
        """Makes a command."""
        self.plain.append(Plain(text, role, span))

    def define(self, theorem: str, head: str, arguments: Sequence[Term], body: Term, symbol: str = "=", role: str = HIDDEN,
               span: Optional[Span] = None) -> None:
        """Makes a definition of a constant with arguments."""
        shown = " ".join([head] + ["(%s:%s)" % (one[1], tyshow(one[2])) for one in arguments])
        text = show(body, self.asking.general, 13 if symbol == "=" else 0, {one[1] for one in arguments})
        self.put("new_definition %s `%s %s %s`" % (theorem, shown, symbol, text), role, span)
        self.made(theorem, None)

    def constant(self, name: str, type_: Type) -> None:
        """Takes notice of a constant that is made."""
        self.asking.own.constants[name] = type_

    def made(self, theorem: str, statement: Optional[object]) -> None:
        """Takes notice of a theorem that is made: its statement's text or term, or nothing of it."""
        self.asking.own.theorems[theorem] = statement

    def prove(self, name: str, statement: Union[str, Term], proof: Union[str, Steps], role: str = HIDDEN, span: Optional[Span] = None) -> None:
        """Makes a theorem with its proof."""
        text = statement if isinstance(statement, str) else show(statement, self.asking.general)
        self.put("g %s `%s`" % (name, text), role, span)
        for one in commands(proof) if isinstance(proof, list) else [proof]:
            self.put("e " + one, PROOF, span)
        self.put("qed", role, span)
        self.made(name, statement)

    def show(self, term: Term) -> str:
        """A term as it is written in a command, between backquotes."""
        return "`%s`" % show(term, self.asking.general)

    def check(self, word: str, end: int) -> None:
        """Raises `Misread` at the package's word where a command would be too long, or make a theorem whose name is given away."""
        for text, _, span, _ in self.plain:
            where = span or (0, end)
            if _is_longer(text, MOST_TOKENS):
                raise Misread(*where, "this %s takes a command of %d tokens (`%s ..`), and %d are the limit: fewer constructors, clauses or arguments" % (
                    word, tokens(text), " ".join(text.split()[:2]), MOST_TOKENS))
        for name in self.asking.own.theorems:
            if self.asking.is_theorem(name):
                told = "the theorem `%s`, which this %s makes, stands already: another name for one of the two" % (name, word)
                raise Misread(0, end, told, taken=("thm", name))
