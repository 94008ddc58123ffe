"""Reading types: `->`, the operators of types, and constructors behind their arguments."""

from __future__ import annotations

from typing import List, Optional, Tuple, Union

from holls.surface.table import Table
from holls.surface.tokens import END, NUMBER, SYMBOL, VARIABLE, WORD, Token, misread
from holls.surface.tree import Type
from holls.surface.vocabulary import Vocabulary

ARROW, ARROW_PRECEDENCE = "->", 2


class _Bracket:
    """An open bracket with the types that stand in it already."""

    def __init__(self, start: int) -> None:
        self.start = start
        self.arguments: List[Type] = []


class _Infix:
    """A type with an operator behind it."""

    def __init__(self, precedence: int, constructor: str, left: Type) -> None:
        self.precedence, self.constructor, self.left = precedence, constructor, left


_Frame = Union[_Bracket, _Infix]


class TypeReader:
    """Reads one type from a place among tokens of a text that begins at `base`. `is_notation` says whether something in it is none of the plain language.

    Where `is_variable` is set the type belongs to a variable that others may follow: a name behind it that is no constructor ends it. Without a
    vocabulary each name behind a type is a constructor.
    """

    def __init__(self, found: List[Token], at: int, base: int, table: Table, vocabulary: Optional[Vocabulary], is_variable: bool) -> None:
        self.tokens, self.at, self.base, self.table = found, at, base, table
        self.vocabulary, self.is_variable = vocabulary, is_variable
        self.is_notation = False
        self._frames: List[_Frame] = []
        self._brackets = 0

    def read(self) -> Type:
        """The type; `at` is then the place behind it. Raises `Misread` where none stands there."""
        while True:
            left = self._operand()
            if left is None:
                continue
            left = self._behind(left)
            if left is not None:
                return left

    def _operand(self) -> Optional[Type]:
        """A type's beginning; None behind an opening bracket."""
        token = self.tokens[self.at]
        self.at += 1
        if token.kind == WORD and token.text not in self.table.reserved or token.kind == VARIABLE:
            return Type(token.text, (), token.start, token.end)
        if token.kind == SYMBOL and token.text == "(":
            self._frames.append(_Bracket(token.start))
            self._brackets += 1
            return None
        unit = self.table.part("unit")
        if token.kind == NUMBER and token.text == "1" and unit:
            self.is_notation = True
            return Type(unit, (), token.start, token.end)
        self.at -= 1
        shown = "the end" if token.kind == END else "`%s`" % token.text
        raise misread(token, self.base, "a type is missing before %s" % shown)

    def _behind(self, left: Type) -> Optional[Type]:
        """What follows a type: the whole type where it ends, or None where another operand has to follow."""
        while True:
            token = self.tokens[self.at]
            if token.kind == WORD and self._is_constructor(token.text):
                self.at += 1
                left = Type(token.text, (left,), left.start, token.end)
                continue
            infix = self._infix(token)
            if infix is not None:
                self.at += 1
                left = self._reduced(left, infix[0])
                self._frames.append(_Infix(infix[0], infix[1], left))
                return None
            if not self._brackets:
                return self._reduced(left, 0)
            left, is_closed = self._in_bracket(self._reduced(left, 0), token)
            if not is_closed:
                return None

    def _infix(self, token: Token) -> Optional[Tuple[int, str]]:
        """The precedence and the constructor of the operator that a token is."""
        if token.kind != SYMBOL and token.kind != WORD:
            return None
        if token.text == ARROW:
            return ARROW_PRECEDENCE, "fun"
        found = self.table.type_operators.get(token.text)
        if found is None:
            return None
        self.is_notation = True
        return found.precedence, found.constant

    def _reduced(self, right: Type, precedence: int) -> Type:
        """The type with what binds tighter before it; all operators group to the right."""
        while self._frames and self._frames[-1].__class__ is _Infix and self._frames[-1].precedence > precedence:
            frame = self._frames.pop()
            right = Type(frame.constructor, (frame.left, right), frame.left.start, right.end)
        return right

    def _in_bracket(self, left: Type, token: Token) -> Tuple[Type, bool]:
        """Takes a bracket's part; the type that the bracket is where it is closed."""
        bracket = self._frames[-1]
        bracket.arguments.append(left)
        if token.kind != SYMBOL or token.text not in (",", ")"):
            raise misread(token, self.base, "`)` is missing in this type")
        self.at += 1
        if token.text == ",":
            return left, False
        self._frames.pop()
        self._brackets -= 1
        if len(bracket.arguments) == 1:
            return left, True
        name = self.tokens[self.at]
        if name.kind != WORD:
            raise misread(token, self.base, "a constructor of types is missing behind this `)`")
        self.at += 1
        return Type(name.text, tuple(bracket.arguments), bracket.start, name.end), True

    def _is_constructor(self, name: str) -> bool:
        """Whether a name behind a type is applied to it."""
        if name in self.table.reserved or name in self.table.words:
            return False
        if self.vocabulary is None:
            return True
        if self.vocabulary.takes_arguments(name) or not self.is_variable or self._brackets:
            return True
        self.is_notation = True
        return False
