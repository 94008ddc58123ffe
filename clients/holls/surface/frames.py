"""What waits for a term while a text is read: infixes for their right side, binders for their body, brackets for what stands in them."""

from __future__ import annotations

from typing import TYPE_CHECKING, List, NamedTuple, Optional, Tuple, Union

from holls.surface.errors import Misread
from holls.surface.table import Operator
from holls.surface.tokens import END, WORD
from holls.surface.tree import Application, Binder, Connective, Name, Negation, Symbol, Term, Type, applied, free_names

if TYPE_CHECKING:
    from holls.surface.reader import Reader

_ABOVE_COMMA = 15
MOST_SETS = 50
"""So many sets by conditions stand in one another: the names in each are looked at once for each around it."""


class Variable(NamedTuple):
    """A variable with its type, if it has one."""

    name: str
    type: Optional[Type]
    start: int
    end: int


class Pair(NamedTuple):
    """A pair of patterns."""

    first: "Pattern"
    second: "Pattern"
    start: int
    end: int


Pattern = Union[Variable, Pair]


def names(pattern: Pattern) -> List[str]:
    """The variables of a pattern, from left to right."""
    if pattern.__class__ is Variable:
        return [pattern.name]
    found: List[str] = []
    waiting = [pattern]
    while waiting:
        part = waiting.pop()
        if isinstance(part, Variable):
            found.append(part.name)
        else:
            waiting += (part.second, part.first)
    return found


def bound_by(reader: "Reader", kind: str, pattern: Pattern, body: Term, start: int) -> Term:
    """A binder of a pattern: of a pair it is UNCURRY of a function of both."""
    if pattern.__class__ is Variable:
        return Binder(kind, pattern.name, pattern.type, body, pattern.start, pattern.end, start, body.end)
    for part in _inner_first(pattern):
        body = _bound_once(reader, part, body, start)
    if kind != "\\":
        return Application(Symbol(kind, start, start + len(kind)), body, start, body.end)
    return body


def _inner_first(pattern: Pattern) -> List[Pattern]:
    """A pattern's parts in the order in which a body is bound by them."""
    found: List[Pattern] = []
    waiting = [pattern]
    while waiting:
        part = waiting.pop()
        found.append(part)
        if isinstance(part, Pair):
            waiting += (part.second, part.first)
    found.reverse()
    return found


def _bound_once(reader: "Reader", part: Pattern, body: Term, start: int) -> Term:
    if isinstance(part, Variable):
        return Binder("\\", part.name, part.type, body, part.start, part.end, start, body.end)
    uncurry = reader.table.part("uncurry")
    if uncurry in names(part):
        raise Misread(part.start, part.end, "the variable `%s` hides the constant that `(x,y)` stands for: rename it" % uncurry)
    head = reader.constant(uncurry, part.start, part.end, "(x,y)")
    return Application(head, body, start, body.end)


class Frame:
    """What waits for a term. An open one ends wherever a bracket around it does; another one at its own tokens alone.

    Infixes that bind looser than `least` don't stand in it by themselves, and `why` says so of one. Its `separators` are no infixes in it: the reader
    gives those around it to a frame that has none of its own.
    """

    __slots__ = ("separators",)
    is_open = True
    least = 0
    why = ""
    separators: Tuple[str, ...]

    def closed(self, reader: "Reader", operand: Term) -> Term:
        """The term that an open frame makes of the operand that it waited for."""
        raise NotImplementedError

    def token(self, reader: "Reader", operand: Term) -> Optional[Term]:
        """Takes an operand with the token behind it: the term that the frame is where it ends here, or None where it waits for more."""
        raise NotImplementedError


class Whole(Frame):
    """The text as a whole. `term` is it, once it is read."""

    __slots__ = ("least", "why", "term")
    is_open = False

    def __init__(self, least: int, why: str, separators: Tuple[str, ...]) -> None:
        self.least, self.why, self.separators = least, why, separators
        self.term: Optional[Term] = None

    def token(self, reader: "Reader", operand: Term) -> None:
        self.term = operand


class Argument(Frame):
    """A function that waits for an argument."""

    __slots__ = ("function",)

    def __init__(self, function: Term) -> None:
        self.function = function

    def closed(self, reader: "Reader", operand: Term) -> Term:
        return Application(self.function, operand, self.function.start, operand.end)


class Not(Frame):
    """A `~`."""

    __slots__ = ("start",)

    def __init__(self, start: int) -> None:
        self.start = start

    def closed(self, reader: "Reader", operand: Term) -> Term:
        return Negation(operand, self.start, operand.end)


class Infix(Frame):
    """An infix behind its left side: of the plain language, or one that stands for the constant `head`."""

    __slots__ = ("operator", "left", "head", "at", "until")

    def __init__(self, operator: Operator, left: Term, head: Optional[Name], at: int, until: int) -> None:
        self.operator, self.left, self.head, self.at, self.until = operator, left, head, at, until

    def closed(self, reader: "Reader", operand: Term) -> Term:
        left = self.left
        if self.head is None:
            return Connective(self.operator.symbol, left, operand, self.at, self.until)
        return Application(Application(self.head, left, left.start, self.until), operand, left.start, operand.end)


class Bound(Frame):
    """A binder behind its dot."""

    __slots__ = ("kind", "variables", "names", "start")

    def __init__(self, kind: str, variables: List[Pattern], bound_names: List[str], start: int) -> None:
        self.separators = ()
        self.kind, self.variables, self.names, self.start = kind, variables, bound_names, start

    def closed(self, reader: "Reader", operand: Term) -> Term:
        reader.unbind(self.names)
        for variable in reversed(self.variables):
            operand = bound_by(reader, self.kind, variable, operand, self.start)
        return operand


class Conditional(Frame):
    """`if`, with what is read of it: what stands behind `else` reaches as far as it can."""

    __slots__ = ("start", "end", "parts")

    def __init__(self, start: int, end: int) -> None:
        self.separators = ()
        self.start, self.end = start, end
        self.parts: List[Term] = []

    @property
    def is_open(self) -> bool:
        return len(self.parts) == 2

    def token(self, reader: "Reader", operand: Term) -> None:
        wanted = "else" if self.parts else "then"
        if reader.next.kind is END:
            raise Misread(self.start, self.end, "`%s` is missing to this `if`" % wanted)
        reader.take(wanted)
        self.parts.append(operand)

    def closed(self, reader: "Reader", operand: Term) -> Term:
        head = reader.constant(reader.table.part("condition"), self.start, self.end, "if")
        return applied(head, [*self.parts, operand], self.start, operand.end)


class Let(Frame):
    """`let`, with its patterns and terms; what stands behind `in` reaches as far as it can."""

    __slots__ = ("start", "end", "patterns", "terms", "names", "is_open")

    def __init__(self, reader: "Reader", start: int, end: int) -> None:
        self.separators = ()
        self.start, self.end, self.is_open = start, end, False
        self.patterns: List[Pattern] = []
        self.terms: List[Term] = []
        self.names: List[str] = []
        self._begin(reader)

    def _begin(self, reader: "Reader") -> None:
        self.patterns.append(reader.pattern())
        reader.take("=")

    def token(self, reader: "Reader", operand: Term) -> None:
        if reader.next.kind is END:
            raise Misread(self.start, self.end, "`in` is missing to this `let`")
        self.terms.append(operand)
        if reader.is_next("and"):
            reader.take("and")
            self._begin(reader)
            return
        reader.take("in")
        self.names = [name for pattern in self.patterns for name in names(pattern)]
        reader.bind(self.names)
        self.is_open = True

    def closed(self, reader: "Reader", operand: Term) -> Term:
        reader.unbind(self.names)
        end = operand.end
        for pattern in reversed(self.patterns):
            operand = bound_by(reader, "\\", pattern, operand, self.start)
        head = reader.constant(reader.table.part("let"), self.start, self.end, "let")
        return applied(head, [operand, *self.terms], self.start, end)


class Parenthesis(Frame):
    """A parenthesis."""

    __slots__ = ("start",)
    is_open = False

    def __init__(self, start: int) -> None:
        self.separators = ()
        self.start = start

    def token(self, reader: "Reader", operand: Term) -> Term:
        end = _closing(reader, "(", ")", self.start)
        if operand.__class__ is not Name and operand.__class__ is not Symbol:
            operand.start, operand.end = self.start, end
        return operand


class Elements(Frame):
    """A list or an enumerated set, with the elements that are read."""

    __slots__ = ("opener", "start", "elements", "separator", "least", "why")
    is_open = False

    def __init__(self, opener: str, start: int) -> None:
        self.opener, self.start = opener, start
        self.elements: List[Term] = []
        self.separator = ";" if opener == "[" else ","
        self.separators = (self.separator,)
        self.least = 0 if opener == "[" else _ABOVE_COMMA
        self.why = "an element of a set with `%s` stands in parentheses"

    def token(self, reader: "Reader", operand: Term) -> Optional[Term]:
        self.elements.append(operand)
        if reader.is_next(self.separator):
            reader.take(self.separator)
            return None
        end = _closing(reader, self.opener, "]" if self.opener == "[" else "}", self.start)
        empty, more = ("nil", "cons") if self.opener == "[" else ("empty", "insert")
        found: Term = reader.constant(reader.table.part(empty), self.start, end, self.opener)
        for element in reversed(self.elements):
            head = reader.constant(reader.table.part(more), self.start, self.start + 1, self.opener)
            found = Application(Application(head, element, element.start, element.end), found, element.start, end)
        found.start = self.start
        return found


class Abstraction(Frame):
    """A set `{t | p}` or `{t | x, y | p}`. The variables of the second are read first, and so is a t that is a variable."""

    __slots__ = ("start", "bars", "variables", "names", "pattern", "is_variable")
    is_open = False

    def __init__(self, reader: "Reader", start: int, bars: List[int]) -> None:
        self.separators = ()
        self.start, self.bars = start, bars
        if sum(frame.__class__ is Abstraction for frame in reader.frames) >= MOST_SETS:
            raise Misread(start, start + 1, "over %d sets stand in one another here" % MOST_SETS)
        self.variables: Optional[List[Variable]] = None
        self.names: List[str] = []
        self.pattern: Optional[Term] = None
        self.is_variable = False
        if len(bars) == 2:
            self._read_variables(reader)
        else:
            self._read_variable(reader)

    def _read_variables(self, reader: "Reader") -> None:
        """The variables between the bars."""
        begin, reader.at = reader.at, self.bars[0] + 1
        found = []
        while reader.at < self.bars[1]:
            variable = reader.pattern() if reader.is_next("(") else reader.variable(("|",))
            if not isinstance(variable, Variable):
                raise Misread(variable.start, variable.end, "variables stand here, one by one")
            found.append(variable)
            if reader.is_next(","):
                reader.take(",")
        self.variables, reader.at = found, begin
        self.names = [variable.name for variable in found]
        reader.bind(self.names)

    def _read_variable(self, reader: "Reader") -> None:
        """The variable before the one bar, where nothing else stands there."""
        token, behind, begin, was = reader.next, reader.tokens[reader.at + 1], reader.at, reader.is_notation
        if token.kind is not WORD or token.text in reader.table.reserved or behind.text not in ("|", ":"):
            return
        variable = reader.variable(("|",))
        if reader.at != self.bars[0]:
            reader.at, reader.is_notation = begin, was
            return
        reader.at += 1
        self.variables, self.names, self.is_variable = [variable], [variable.name], True
        reader.bind(self.names)

    def token(self, reader: "Reader", operand: Term) -> Optional[Term]:
        if self.pattern is None and not self.is_variable:
            if reader.at != self.bars[0]:
                raise reader.unexpected()
            self.pattern, reader.at = operand, self.bars[-1] + 1
            return None
        end = _closing(reader, "{", "}", self.start)
        reader.unbind(self.names)
        reader.is_notation = True
        if self.is_variable:
            only = self.variables[0]
            return Binder("\\", only.name, only.type, operand, only.start, only.end, self.start, end)
        return self._made(reader, operand, end)

    def _made(self, reader: "Reader", condition: Term, end: int) -> Term:
        """`\\z. ?vs. p /\\ z = t`."""
        start, pattern = self.start, self.pattern
        in_pattern, in_condition = free_names(pattern), free_names(condition)
        if self.variables is None:
            self.variables = [Variable(name, None, pattern.start, pattern.end) for name in variables_of(reader, in_pattern, in_condition)]
        fresh = fresh_name(in_pattern, in_condition)
        equation = Connective("=", Name(fresh, start, end), pattern, start, end)
        body: Term = Connective("/\\", condition, equation, start, end)
        for node in (equation, body):
            node.start, node.end = start, end
        for one in reversed(self.variables):
            body = Binder("?", one.name, one.type, body, one.start, one.end, start, end)
        return Binder("\\", fresh, None, body, start, end, start, end)


def variables_of(reader: "Reader", in_pattern: List[str], in_condition: List[str]) -> List[str]:
    """The variables of a set `{t | p}`, as HOL Light takes them: those of t, and of several only those that p has too, if it has variables."""
    found = [name for name in in_pattern if not reader.is_constant(name)]
    others = [name for name in in_condition if not reader.is_constant(name)]
    return found if len(found) <= 1 or not others else [name for name in found if name in others]


def fresh_name(*taken: List[str]) -> str:
    """The name of the variable that stands for a set's element: `z`, with the fewest primes that make it none of those taken."""
    found = "z"
    while any(found in names_ for names_ in taken):
        found += "'"
    return found


def _closing(reader: "Reader", opener: str, closer: str, start: int) -> int:
    """Takes a closing bracket, and answers where it ends."""
    if reader.next.kind is END:
        raise Misread(start, start + 1, "this `%s` is never closed: `%s` is missing" % (opener, closer))
    if not reader.is_next(closer) and reader.next.text not in (")", "]", "}", ";", "|", ",", "then", "else", "in", "and"):
        raise reader.unexpected()
    return reader.take(closer).end
