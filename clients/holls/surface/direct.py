"""What a quotation in notation is as the program reads it, straight from its tokens, where nobody asks where its parts come from.

Nearly all quotations are read for their text alone. So no tree is made here: an operand is its text, with how tightly it binds, and what is made of
operands is put together as soon as they are there. This knows the commonest forms. What isn't of these, and all that can't be read, is left to the
reader, which has the places and the errors; what this answers is what the reader and the plain writer would: tests compare the two.
"""

from __future__ import annotations

from typing import Any, Dict, List, NamedTuple, Optional, Sequence, Set, Tuple

from holls.surface.errors import Misread
from holls.surface.frames import MOST_SETS
from holls.surface.plain import PlainWriter
from holls.surface.table import LONGEST_NUMERAL, MOST_BRACKETS, MOST_TOKENS, RIGHT, Table
from holls.surface.tokens import MOST_CHARACTERS, NUMBER, OF_FIRST, WORD, Token, tokens
from holls.surface.tree import ALONE, BINDERS, PRECEDENCES
from holls.surface.types import ARROW, TypeReader
from holls.surface.vocabulary import Vocabulary

_MOST_KEPT = 20_000

Operand = Tuple[str, float]
"""A text, and how tightly it binds: as an argument, a function, what stands behind `~`, or an infix of the plain language."""
_ALONE, _ARGUMENT, _FUNCTION, _NEGATED = 16, 15, 14, 13
_LOOSE = 0
_BOUND = {"\\": 0.1, "!": 0.2, "?": 0.3, "?!": 0.4, "@": 0.5}
"""A binder binds loosest. Each has a number of its own: one within another of its kind is written behind the same symbol."""

Frame = Tuple[Any, ...]
"""What waits for an operand: how tightly it holds to one, the text before it, how tightly that has to bind, how tightly the whole does, the infix's
grouping, and whether a comma ends an element there. Brackets, binders and conditionals hold to none (_OPEN): what they are stands in place of the
text, and what is read of them behind it."""
_OPEN, _TO_ARGUMENT, _TO_NEGATED = -1, 2_000, 1_000

_NAME, _WORD_INFIX, _NUMERAL, _BRACKET, _BINDER, _BEGINNING, _COLON, _NEGATION, _OTHER = range(9)
_BEGINS = frozenset((_NAME, _WORD_INFIX, _NUMERAL, _BRACKET, _BINDER, _BEGINNING, _NEGATION))
"""What can begin an operand."""


class _Unfit(Exception):
    """The text is none of the forms that are known here, or can't be read."""


class _Infix(NamedTuple):
    """An infix: how tightly it binds, how it groups, and the constant that it stands for, if it is none of the plain language."""

    precedence: int
    grouping: str
    constant: str


class _Kinds(Dict[str, int]):
    """What tokens are in a table, by their texts, found as they are asked for."""

    def __init__(self, table: Table) -> None:
        super().__init__()
        self.infixes = {symbol: _Infix(precedence, RIGHT, "") for symbol, precedence in PRECEDENCES.items()}
        for symbol, one in table.operators.items():
            self.infixes.setdefault(symbol, _Infix(one.precedence, one.grouping, one.constant))
        self.in_types = frozenset((ARROW, *table.type_operators))
        self.numerals: Dict[str, Operand] = {}
        self.digits = tuple(table.part(part) for part in ("zero", "one", "even", "odd"))
        self._words, self._reserved = table.words, table.reserved
        self.update(dict.fromkeys(("(", "[", "{"), _BRACKET))
        self.update(dict.fromkeys(BINDERS, _BINDER))
        self.update({":": _COLON, "~": _NEGATION})

    def __missing__(self, text: str) -> int:
        first = OF_FIRST.get(text[:1])
        if first is WORD:
            kind = _WORD_INFIX if text in self._words else _NAME
            if text in self._reserved:
                kind = _BEGINNING if text in ("if", "let") else _OTHER
        else:
            kind = _NUMERAL if first is NUMBER else _OTHER
        if len(self) < _MOST_KEPT:
            self[text] = kind
        return kind


def written(text: str, table: Table, vocabulary: Vocabulary) -> Optional[str]:
    """A quotation's text as the program reads it, and the text itself where nothing in it is in notation; None where the reader has to say."""
    if len(text) > MOST_CHARACTERS:
        return None
    parts = table.parts.findall(text)
    if len(parts) > MOST_TOKENS or not table.abbreviating.isdisjoint(parts) or parts.count("{") > MOST_SETS:
        return None
    direct = _Direct(text, parts, table, vocabulary)
    try:
        found = direct.whole()
    except (_Unfit, Misread):
        return None
    if not direct.is_notation:
        return text
    return found if found.count("(") <= MOST_BRACKETS else None


class _Direct:
    """Writes one quotation. `bound` has all names that a binder before has bound, whether or not it ends before."""

    def __init__(self, text: str, parts: Sequence[str], table: Table, vocabulary: Vocabulary) -> None:
        self.text, self.table, self.vocabulary = text, table, vocabulary
        self.parts = [*parts, "", "", ""]
        kinds = table.memory.get("direct")
        if kinds is None:
            kinds = table.memory["direct"] = _Kinds(table)
        self.kinds: _Kinds = kinds
        self.at = 0
        self.is_notation = False
        self.bound: Set[str] = set()
        self.frames: List[Frame] = [(_OPEN, "", None, None, None, False)]
        self._tokens: Optional[List[Token]] = None

    def whole(self) -> str:
        """The text of the whole quotation."""
        parts, kinds, frames = self.parts, self.kinds, self.frames
        operand: Optional[Operand] = None
        while frames:
            if operand is None:
                text = parts[self.at]
                kind = kinds[text]
                self.at += 1
                operand = (text, _ALONE) if kind <= _WORD_INFIX else self._operand(text, kind)
            else:
                operand = self._behind(*operand)
        return operand[0]

    def _operand(self, text: str, kind: int) -> Optional[Operand]:
        """What an operand begins with that is no name; None where a frame is open that waits for one."""
        if kind is _BRACKET:
            return self._parenthesis() if text == "(" else self._braces(text)
        if kind is _BINDER:
            self._binder(text)
        elif kind is _NUMERAL:
            return self._numeral(text)
        elif kind is _NEGATION and self.parts[self.at] != ")":
            self.frames.append((_TO_NEGATED, "~", _NEGATED, _NEGATED, None, self.frames[-1][5]))
        elif text == "if":
            self.frames.append((_OPEN, "if", [], None, None, False))
        else:
            raise _Unfit
        return None

    def _constant(self, name: Optional[str]) -> str:
        """The constant that something in notation stands for."""
        if name is None or name in self.bound:
            raise _Unfit
        self.is_notation = True
        return name

    def _numeral(self, text: str) -> Operand:
        kinds = self.kinds
        if not self.bound.isdisjoint(kinds.digits):
            raise _Unfit
        self.is_notation = True
        found = kinds.numerals.get(text)
        if found is None:
            found = _numeral(text, *kinds.digits)
            if len(kinds.numerals) < _MOST_KEPT:
                kinds.numerals[text] = found
        return found

    def _parenthesis(self) -> Optional[Operand]:
        """What begins with a parenthesis: a name or a symbol alone, or else a term."""
        text = self.parts[self.at]
        if self.parts[self.at + 1] == ")":
            kind = self.kinds[text]
            if kind is _NAME or kind is _WORD_INFIX:
                self.at += 2
                return text, _ALONE
            if text in ALONE:
                self.at += 2
                return "(%s)" % text, _ALONE
            infix = self.kinds.infixes.get(text)
            if infix is not None:
                self.at += 2
                return self._constant(infix.constant or None), _ALONE
        if text == ":":
            raise _Unfit
        self.frames.append((_OPEN, "(", None, None, None, False))
        return None

    def _braces(self, opener: str) -> Optional[Operand]:
        """A list, or a set of elements, or one of the form {x | p}."""
        is_list = opener == "["
        empty = self.table.part("nil" if is_list else "empty")
        if empty is None:
            raise _Unfit
        if self.parts[self.at] == ("]" if is_list else "}"):
            self.at += 1
            return self._constant(empty), _ALONE
        if not is_list and self.parts[self.at + 1] in ("|", ":"):
            variable = self._variable()
            if self.parts[self.at] != "|":
                raise _Unfit
            self.at += 1
            self.frames.append((_OPEN, "|", variable, None, None, False))
        else:
            self.frames.append((_OPEN, opener, [], None, None, not is_list))
        return None

    def _binder(self, kind: str) -> None:
        parts, variables = self.parts, []
        if parts[self.at] == ")":
            raise _Unfit
        while parts[self.at] != ".":
            variables.append(self._variable())
        if not variables:
            raise _Unfit
        self.at += 1
        self.frames.append((_OPEN, kind, variables, None, None, False))

    def _variable(self) -> Operand:
        """A variable, which is bound from here on: its text, and _LOOSE where it has a type."""
        parts, at = self.parts, self.at
        is_enclosed = parts[at] == "("
        name = parts[at + is_enclosed]
        kind = self.kinds[name]
        if kind is not _NAME and kind is not _WORD_INFIX:
            raise _Unfit
        self.at = at + is_enclosed + 1
        self.bound.add(name)
        if parts[self.at] != ":":
            if is_enclosed:
                raise _Unfit
            return name, _ALONE
        self.at += 1
        type_ = self._type(not is_enclosed)
        if is_enclosed:
            if parts[self.at] != ")":
                raise _Unfit
            self.at += 1
        elif parts[self.at] not in (".", "|"):
            self.is_notation = True
        return "%s:%s" % (name, type_), _LOOSE

    def _type(self, is_variable: bool) -> str:
        """The type that stands next. One of names and arrows alone is written as it stands."""
        parts, kinds, begin = self.parts, self.kinds, self.at
        end = begin + 1
        while parts[end] == ARROW and kinds[parts[end + 1]] is _NAME:
            end += 2
        following = kinds[parts[end]]
        if kinds[parts[begin]] is _NAME and following > _WORD_INFIX and following is not _BEGINNING and parts[end] not in kinds.in_types:
            self.at = end
            return "".join(parts[begin:end])
        if self._tokens is None:
            self._tokens = tokens(self.text, self.table)
        reader = TypeReader(self._tokens, self.at, 0, self.table, self.vocabulary, is_variable)
        writer = PlainWriter()
        writer.type(reader.read())
        self.at = reader.at
        self.is_notation = self.is_notation or reader.is_notation
        return writer.text

    def _behind(self, text: str, binding: float) -> Optional[Operand]:
        """Takes an operand: what a bracket around it is where it closes one, or None where another operand has to follow."""
        frames, parts, kinds = self.frames, self.parts, self.kinds
        if frames[-1][0] == _TO_ARGUMENT:
            text, binding = _closed(frames.pop(), text, binding)
        at = first = self.at
        part = parts[at]
        kind = kinds[part]
        while kind is _NAME:
            at += 1
            part = parts[at]
            kind = kinds[part]
        if at > first:
            text, binding = " ".join((text if binding >= _FUNCTION else "(%s)" % text, *parts[first:at])), _FUNCTION
            self.at = at
        if kind is not _OTHER:
            if self._is_argument(kind, parts[at + 1]):
                frames.append((_TO_ARGUMENT, (text if binding >= _FUNCTION else "(%s)" % text) + " ", _ARGUMENT, _FUNCTION, None, frames[-1][5]))
                return None
            if kind is _COLON:
                self.at += 1
                text, binding = "%s:%s" % (text if binding >= _FUNCTION else "(%s)" % text, self._type(False)), _LOOSE
                part = parts[self.at]
        infix = kinds.infixes.get(part)
        if infix is None or part == "," and frames[-1][5]:
            return self._close(text, binding)
        self._push(infix, part, text, binding)
        return None

    def _is_argument(self, kind: int, following: str) -> bool:
        """Whether the next token begins an argument."""
        if kind is _WORD_INFIX:
            return self.kinds[following] not in _BEGINS
        if kind is _BINDER and following != ")" or kind is _BEGINNING:
            self.is_notation = True
            return True
        return kind is _BRACKET or kind is _NUMERAL

    def _push(self, infix: _Infix, symbol: str, text: str, binding: float) -> None:
        """Opens an infix, behind what binds tighter."""
        precedence, grouping, constant = infix
        frames = self.frames
        while frames[-1][0] >= precedence:
            frame = frames[-1]
            if frame[0] == precedence:
                if frame[4] != grouping:
                    raise _Unfit
                if grouping == RIGHT:
                    break
            text, binding = _closed(frames.pop(), text, binding)
        frame = frames[-1]
        if frame[1] == "{" and frame[0] == _OPEN and precedence <= 14:
            raise _Unfit
        self.at += 1
        if constant:
            before = "%s %s " % (self._constant(constant), text if binding >= _ARGUMENT else "(%s)" % text)
            frames.append((precedence, before, _ARGUMENT, _FUNCTION, grouping, frame[5]))
        else:
            before = "%s %s " % (text if binding > precedence else "(%s)" % text, symbol)
            frames.append((precedence, before, precedence, precedence, grouping, frame[5]))

    def _close(self, text: str, binding: float) -> Optional[Operand]:
        """Takes an operand to the innermost bracket, at a token that no infix is: what the bracket is where it is closed."""
        frames = self.frames
        frame = frames.pop()
        while frame[0] != _OPEN or frame[1] in _BOUND or frame[1] == "if" and len(frame[2]) == 2:
            text, binding = _closed(frame, text, binding) if frame[0] != _OPEN else self._ended(frame, text, binding)
            frame = frames.pop()
        what, part = frame[1], self.parts[self.at]
        self.at += 1
        if what == "(" and part == ")" or not what and not part:
            return text, binding
        if what == "|" and part == "}":
            self.is_notation = True
            return _bound("\\", [frame[2]], text, binding)
        if what == "if" and part == ("else" if frame[2] else "then"):
            frame[2].append((text, binding))
        elif what == "[" or what == "{":
            return self._element(frame, part, text, binding)
        else:
            raise _Unfit
        frames.append(frame)
        return None

    def _element(self, frame: Frame, part: str, text: str, binding: float) -> Optional[Operand]:
        """Takes an element of a list or a set: what this is where it is closed."""
        is_list, elements = frame[1] == "[", frame[2]
        elements.append(text if binding >= _ARGUMENT else "(%s)" % text)
        if part == (";" if is_list else ","):
            self.frames.append(frame)
            return None
        if part != ("]" if is_list else "}"):
            raise _Unfit
        empty, more = ("nil", "cons") if is_list else ("empty", "insert")
        found = self._constant(self.table.part(empty))
        head = self._constant(self.table.part(more))
        inner = " (".join("%s %s" % (head, element) for element in elements)
        return "%s %s%s" % (inner, found, ")" * (len(elements) - 1)), _FUNCTION

    def _ended(self, frame: Frame, text: str, binding: float) -> Operand:
        """What a binder or a conditional is behind its last operand."""
        if frame[1] in _BOUND:
            return _bound(frame[1], frame[2], text, binding)
        head = self._constant(self.table.part("condition"))
        every = [one if tight >= _ARGUMENT else "(%s)" % one for one, tight in (*frame[2], (text, binding))]
        return "%s %s" % (head, " ".join(every)), _FUNCTION


def _closed(frame: Frame, text: str, binding: float) -> Operand:
    """What a frame that holds to its operand is with it."""
    return frame[1] + (text if binding >= frame[2] else "(%s)" % text), frame[3]


def _bound(kind: str, variables: Sequence[Operand], text: str, binding: float) -> Operand:
    """A binder with its body. Behind another one of its kind each variable with a type stands between parentheses, but the last one."""
    own = _BOUND[kind]
    before = ["(%s)" % name if tight == _LOOSE else name for name, tight in variables[:-1]]
    name, tight = variables[-1]
    if binding == own:
        before.append("(%s)" % name if tight == _LOOSE else name)
        return "%s%s %s" % (kind, " ".join(before), text[len(kind):]), own
    return "%s%s. %s" % (kind, " ".join((*before, name)), text), own


def _numeral(text: str, zero: Optional[str], one: Optional[str], even: Optional[str], odd: Optional[str]) -> Operand:
    """A numeral by the constants of its digits: the last digit outermost."""
    if zero is None or len(text) > LONGEST_NUMERAL or even is None and int(text) > 1:
        raise _Unfit
    if int(text) < 2:
        return (one if int(text) else zero), _ALONE
    heads = [odd if digit == "1" else even for digit in reversed(bin(int(text))[3:])]
    return "%s %s%s" % (" (".join(heads), one, ")" * (len(heads) - 1)), _FUNCTION
