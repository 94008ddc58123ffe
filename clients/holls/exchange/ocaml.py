"""Commands of ours as OCaml that HOL Light runs, over prelude.ml."""

from __future__ import annotations

import re
from typing import Callable, Dict, FrozenSet, List, NamedTuple, Optional, Sequence

from holls import manual, notation

_TOKEN = re.compile(r"`[^`]*`|[A-Za-z_][A-Za-z0-9_']*|[0-9]+|[()\[\];,]")
_SYMBOL = re.compile(r"[A-Za-z_][A-Za-z0-9_']*|<=>|==>|\\/|/\\|->|\?!|\S")
_NAME = re.compile(r"[A-Za-z_][A-Za-z0-9_']*\Z")


def _taking(entries: Dict[str, manual.Entry], arguments: str) -> FrozenSet[str]:
    """The words that take these arguments and nothing else."""
    return frozenset(name for name, entry in entries.items() if entry.arguments == arguments)


_ONE = _taking(manual.PREFIXES, "tac")
_MANY = _taking(manual.PREFIXES, "[tac; ..]")
_BY_THEOREM = _taking(manual.HANDING, "tac")
_RULES = _taking(manual.RULES, "th")
_ENDS = frozenset((")", "]", ";", ",", *manual.INFIXES))


class Unwritable(Exception):
    """A command that can't be written; the text says why."""


class Proof(NamedTuple):
    """A theorem that is proved: its name, its statement, and its steps."""

    name: str
    statement: str
    steps: List[str]


def string(text: str) -> str:
    """OCaml's string of a text."""
    return '"%s"' % text.replace("\\", "\\\\").replace('"', '\\"').replace("\n", " ")


def theorem(name: str) -> str:
    """The OCaml name of a theorem."""
    return "t_" + name


class Expression:
    """Reads an expression from its text, and writes it as OCaml. `types` are the names of type constructors of one argument."""

    def __init__(self, text: str, named: Sequence[str], types: Sequence[str]) -> None:
        self.tokens, self.at = _TOKEN.findall(text), 0
        self.named, self.types = frozenset(named), types

    def whole(self) -> str:
        """The expression; every token has to be read."""
        made = self.tac()
        if self.at < len(self.tokens):
            raise Unwritable("`%s` isn't understood here" % self.tokens[self.at])
        return made

    def peek(self) -> str:
        return self.tokens[self.at] if self.at < len(self.tokens) else ""

    def take(self, wanted: str = "") -> str:
        token = self.peek()
        if not token or wanted and token != wanted:
            raise Unwritable("%s is missing" % (wanted or "something"))
        self.at += 1
        return token

    def tac(self) -> str:
        """An expression; ORELSE binds loosest, and groups to the right."""
        parts = [self.sequence()]
        while self.peek() == "ORELSE":
            self.take()
            parts.append(self.sequence())
        return parts[0] if len(parts) == 1 else "(FIRST [%s])" % "; ".join(parts)

    def sequence(self) -> str:
        made = self.application()
        while self.peek() in ("THEN", "THENL"):
            if self.take() == "THEN":
                made = "(%s THEN %s)" % (made, self.application())
            else:
                made = "(%s THENL %s)" % (made, self.list(self.tac))
        return made

    def application(self) -> str:
        token = self.take()
        if token == "(":
            made = self.tac()
            self.take(")")
            return made
        if token in _ONE:
            return "(%s %s)" % (token, self.argument_tac())
        if token in _MANY:
            return "(%s %s)" % (token, self.list(self.tac))
        if token == "REPLICATE_TAC":
            return "(REPLICATE_TAC %s %s)" % (self.take(), self.argument_tac())
        if token in _BY_THEOREM:
            return "(%s %s)" % (token, self.by_theorem())
        if token == "SUBGOAL_THEN":
            return "(SUBGOAL_THEN %s %s)" % (self.quotation(), self.by_theorem())
        return "(%s)" % " ".join([self.function(token)] + self.arguments())

    def function(self, name: str) -> str:
        return "u_" + name if name in self.named else name

    def argument_tac(self) -> str:
        if self.peek() == "(":
            self.take()
            made = self.tac()
            self.take(")")
            return made
        return "(%s)" % self.function(self.take())

    def by_theorem(self) -> str:
        """A function whose theorem is handed to it."""
        if self.peek() != "(":
            return "(fun th_ -> %s th_)" % self.function(self.take())
        self.take()
        words = [self.function(self.take())] + self.arguments()
        self.take(")")
        return "(fun th_ -> %s th_)" % " ".join(words)

    def arguments(self) -> List[str]:
        made = []
        while self.peek() and self.peek() not in _ENDS:
            made.append(self.argument())
        return made

    def argument(self) -> str:
        token = self.peek()
        if token == "[":
            return self.list(self.thm)
        if token.startswith("`"):
            return self.quotation()
        if token == "(" and self.tokens[self.at + 1:self.at + 2] and self.tokens[self.at + 1].startswith("`"):
            self.take()
            first = self.quotation()
            self.take(",")
            second = self.quotation()
            self.take(")")
            return "(%s,%s)" % (first, second)
        return self.atomic()

    def list(self, part: Callable[[], str]) -> str:
        self.take("[")
        made: List[str] = []
        while self.peek() != "]":
            made.append(part())
            if self.peek() == ";":
                self.take()
        self.take("]")
        return "[%s]" % "; ".join(made)

    def thm(self) -> str:
        """A theorem expression."""
        token = self.peek()
        if token in ("ASSUME", "REFL"):
            return "(%s %s)" % (self.take(), self.quotation())
        if token == "SPEC":
            self.take()
            quotation = self.quotation()
            return "(SPEC %s %s)" % (quotation, self.atomic())
        if token == "MP":
            self.take()
            first = self.atomic()
            return "(MP %s %s)" % (first, self.atomic())
        if token in _RULES:
            return "(%s %s)" % (self.take(), self.atomic())
        if token == "INST_TYPE":
            self.take()
            pairs = self.list(self.pair)
            return "(INST_TYPE %s %s)" % (pairs, self.atomic())
        return self.atomic()

    def pair(self) -> str:
        first = self.quotation()
        self.take(",")
        return "(%s,%s)" % (first, self.quotation())

    def atomic(self) -> str:
        token = self.take()
        if token == "(":
            made = self.thm()
            self.take(")")
            return made
        return theorem(token)

    def quotation(self) -> str:
        text = self.take().strip("`")
        if text.lstrip().startswith(":"):
            return "(quoted_type %s)" % string(spaced(text.lstrip()[1:], self.types))
        return "(quoted %s)" % string(spaced(text, self.types))


def spaced(text: str, types: Sequence[str] = ()) -> str:
    """A quotation with a space between two symbols, which HOL Light joins, and with brackets in what is of a type of a type."""
    return " ".join(_bracketed(_SYMBOL.findall(text), frozenset(types)))


def _bracketed(tokens: Sequence[str], constructors: FrozenSet[str]) -> List[str]:
    """Tokens with brackets around a type that another constructor follows: HOL Light reads one constructor behind what it applies."""
    made: List[str] = []
    opened: List[int] = []
    first: Optional[int] = None
    closed: Optional[int] = None
    for token in tokens:
        if token in constructors and first is not None:
            made.insert(first, "(")
            made.append(")")
        elif token in constructors and made and (closed is not None or _NAME.match(made[-1])):
            first = closed if closed is not None else len(made) - 1
        else:
            first = None
        if token == "(":
            opened.append(len(made))
        closed = opened.pop() if token == ")" and opened else None
        made.append(token)
    return made


class Writer:
    """Writes files of ours, one after the other, as OCaml. `is_run` says of a theorem's number whether its proof is run, or given."""

    def __init__(self, is_run: Callable[[int], bool] = lambda number: True) -> None:
        self.is_run, self.count = is_run, 0
        self.named: List[str] = []
        self.types: List[str] = ["list", "option"]
        self.lines: List[str] = []
        self.open: List[Proof] = []

    def text(self) -> str:
        """What was written, with the line that tells the numbers."""
        return "\n".join(self.lines + ["summary %d;;" % self.count]) + "\n"

    def add(self, commands: Sequence[str]) -> None:
        """Takes a file's commands. Raises Unwritable, with the command."""
        for command in commands:
            word, _, rest = command.strip().partition(" ")
            write = getattr(self, "_" + word, None) if word in notation.COMMANDS else None
            if write is None:
                raise Unwritable("`%s` begins no command" % word)
            try:
                write(rest.strip())
            except (Unwritable, ValueError, IndexError) as error:
                raise Unwritable("%s: %s" % (" ".join(command.split())[:80], error)) from None

    def _import(self, rest: str) -> None:
        """What is imported was written before."""

    def _g(self, rest: str) -> None:
        name, quoted = rest.split("`")[:2]
        self.open.append(Proof(name.strip(), spaced(quoted, self.types), []))

    def _e(self, rest: str) -> None:
        self.open[-1].steps.append("step (fun () -> %s)" % self._expression(rest))

    def _r(self, rest: str) -> None:
        self.open[-1].steps.append("turned %d" % int(rest))

    def _b(self, rest: str) -> None:
        self.open[-1].steps.pop()

    def _oops(self, rest: str) -> None:
        self.open.pop()

    def _qed(self, rest: str) -> None:
        proof = self.open.pop()
        if self.is_run(self.count):
            made = "proved %s %s [%s]" % (string(proof.name), string(proof.statement), ";\n  ".join(proof.steps))
        else:
            made = "given %s %s" % (string(proof.name), string(proof.statement))
        self.count += 1
        self.lines.append("let %s = %s;;" % (theorem(proof.name), made))

    def _deftac(self, rest: str) -> None:
        name, body = rest.split(None, 1)
        self.lines.append("let u_%s : tactic = fun g_ -> %s g_;;" % (name, self._expression(body)))
        self.named.append(name)

    def _new_definition(self, rest: str) -> None:
        name, quoted = rest.split("`")[:2]
        self.lines.append("let %s = new_definition (quoted %s);;" % (theorem(name.strip()), string(spaced(quoted, self.types))))

    def _new_axiom(self, rest: str) -> None:
        name, quoted = rest.split("`")[:2]
        self.lines.append("let %s = new_axiom (quoted %s);;" % (theorem(name.strip()), string(spaced(quoted, self.types))))

    def _new_constant(self, rest: str) -> None:
        name, quoted = rest.split("`")[:2]
        ty = spaced(quoted.strip()[1:], self.types)
        self.lines.append("new_constant(%s,quoted_type %s);;" % (string(name.strip()), string(ty)))

    def _new_type(self, rest: str) -> None:
        name, number = rest.split()
        self._add_type(name, int(number))
        self.lines.append("new_type(%s,%d);;" % (string(name), int(number)))

    def _new_basic_type_definition(self, rest: str) -> None:
        name, abstraction, representation, first, second, member = rest.split()
        self._add_type(name, 1)
        self.lines.append("let %s,%s = new_basic_type_definition %s (%s,%s) %s;;" % (
            theorem(first), theorem(second), string(name), string(abstraction), string(representation), theorem(member)))

    def _add_type(self, name: str, number: int) -> None:
        if number and name not in self.types:
            self.types.append(name)

    def _expression(self, text: str) -> str:
        return Expression(text, self.named, self.types).whole()
