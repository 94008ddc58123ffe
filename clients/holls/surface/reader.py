"""The reader: one pass over the tokens with a stack of its own, so that no nesting is too deep for it.

A frame of the stack is something that waits for a term: an infix for its right side, a binder for its body, a bracket for what stands in it. An
operand is taken to the frames that bind tighter than what follows it. What is an operator of the table becomes an application of its constant.
"""

from __future__ import annotations

from typing import Dict, List, Optional, Tuple

from holls.surface import frames
from holls.surface.abbreviations import Abbreviation, Expanding
from holls.surface.errors import Misread
from holls.surface.frames import Frame, Pattern, Variable
from holls.surface.table import EMPTY, LONGEST_NUMERAL, RIGHT, RUN, Operator, Table
from holls.surface.tokens import END, NUMBER, SYMBOL, WORD, Token, bars, misread, tokens, unknown
from holls.surface.tree import ALONE, BINDERS, PRECEDENCES, Annotation, Application, Name, Symbol, Term, Type, applied
from holls.surface.types import TypeReader
from holls.surface.vocabulary import Vocabulary

_STARTS = frozenset(("(", "[", "{", "~")) | BINDERS
_ATOMS = frozenset(("(", "[", "{"))
_CLOSERS = {")": "(", "]": "[", "}": "{"}
_CONNECTIVES = {symbol: Operator(symbol, precedence, RIGHT, "") for symbol, precedence in PRECEDENCES.items()}
_LONGEST_RUN = 20
"""An operator that isn't declared has so many characters at most."""


class Reader:
    """Reads a quotation's tokens. `is_notation` says whether something in them is none of the plain language.

    `bound` counts the variables of each name that are bound where the reader is. Without a vocabulary the text is plain: each name behind a type is a
    constructor.
    """

    def __init__(self, text: str, table: Table, vocabulary: Optional[Vocabulary], base: int = 0) -> None:
        self.text, self.base, self.table, self.vocabulary = text, base, table, vocabulary
        self.tokens: List[Token] = tokens(text, table, base)
        self.at = 0
        self.bound: Dict[str, int] = {}
        self.is_notation = False
        self.frames: List[Frame] = []
        self.bars = bars(self.tokens) if "|" in text and table.part("insert") else {}

    # ---- What the frames use

    @property
    def next(self) -> Token:
        """The next token."""
        return self.tokens[self.at]

    def is_next(self, text: str) -> bool:
        """Whether the next token is a symbol or a word."""
        token = self.tokens[self.at]
        return token.text == text and token.kind is not END

    def take(self, text: str) -> Token:
        """Takes the next token, which has to be this symbol or word."""
        token = self.tokens[self.at]
        if token.text != text or token.kind is END:
            raise self.misread("`%s` is missing%s" % (text, "" if token.kind is END else " before `%s`" % token.text))
        self.at += 1
        return token

    def misread(self, text: str) -> Misread:
        """An error at the next token."""
        return misread(self.tokens[self.at], self.base, text)

    def constant(self, name: str, start: int, end: int, written: str) -> Name:
        """The constant that something written in notation stands for. Raises `Misread` where a bound variable hides it."""
        self.is_notation = True
        if self.bound.get(name):
            told = "the bound variable `%s` hides the constant that `%s` stands for here: rename the variable" % (name, written)
            raise Misread(start, end, told, hiding=name)
        return Name(name, start, end)

    def bind(self, names: List[str]) -> None:
        """Begins the scope of variables."""
        for name in names:
            self.bound[name] = self.bound.get(name, 0) + 1

    def unbind(self, names: List[str]) -> None:
        """Ends the scope of variables."""
        for name in names:
            self.bound[name] -= 1

    def is_constant(self, name: str) -> bool:
        """Whether a name is a constant's, by the vocabulary or since something that is declared stands for it."""
        return self.vocabulary is not None and self.vocabulary.is_constant(name) or name in self.table.constants

    def read_type(self, is_variable: bool = False) -> Type:
        """The type that stands next."""
        reader = TypeReader(self.tokens, self.at, self.base, self.table, self.vocabulary, is_variable)
        found = reader.read()
        self.at = reader.at
        self.is_notation = self.is_notation or reader.is_notation
        return found

    def variable(self, ends: Tuple[str, ...] = (".",), is_enclosed: bool = False) -> Variable:
        """A variable, with its type if one follows. A type before another token than these is none of the plain language.

        Between parentheses a word of the notation is a variable too, and a type goes as far as one can.
        """
        token = self.tokens[self.at]
        if token.kind is not WORD or token.text in self.table.reserved and not is_enclosed:
            raise self.misread("a variable is missing%s" % ("" if token.kind is END else " before `%s`" % token.text))
        self.at += 1
        if not self.is_next(":"):
            return Variable(token.text, None, token.start, token.end)
        self.at += 1
        found = self.read_type(not is_enclosed)
        if self.tokens[self.at].text not in ends:
            self.is_notation = True
        return Variable(token.text, found, token.start, found.end)

    def pattern(self) -> Pattern:
        """A variable, or what stands between parentheses: a variable with its type, or a pair of patterns."""
        if not self.is_next("("):
            return self.variable()
        opened: List[Tuple[int, List[Pattern]]] = []
        while True:
            if self.is_next("("):
                opened.append((self.take("(").start, []))
                continue
            found: Pattern = self.variable((")",), True)
            while True:
                start, parts = opened[-1]
                parts.append(found)
                if self.is_next(",") and self.table.part("uncurry"):
                    self.at += 1
                    break
                end = self.take(")").end
                opened.pop()
                found = self._pattern_of(parts, start, end)
                if not opened:
                    return found

    def _pattern_of(self, parts: List[Pattern], start: int, end: int) -> Pattern:
        if len(parts) == 1 and isinstance(parts[0], Variable):
            only = parts[0]
            self.is_notation = self.is_notation or only.type is None
            return Variable(only.name, only.type, start, end)
        found = parts[-1]
        for part in reversed(parts[:-1]):
            found = frames.Pair(part, found, start, end)
        self.is_notation = True
        return found

    # ---- Reading

    def term(self, least: int = 0, why: str = "", separators: Tuple[str, ...] = ()) -> Term:
        """The term up to a token that none goes on with, or that is a separator.

        `least` is how loosely its infixes may bind, and `why` what to say where one binds looser.
        """
        whole = frames.Whole(least, why, separators)
        self.frames = [whole]
        operand: Optional[Term] = None
        while whole.term is None:
            operand = self._operand() if operand is None else self._behind(operand)
        return whole.term

    def ended(self, term: Term) -> Term:
        """The term, which has to be all of the text, with what its abbreviations stand for."""
        if self.next.kind is not END:
            raise self.unexpected()
        words = self.table.abbreviating
        if not words or not any(token.text in words for token in self.tokens):
            return term
        expanding = Expanding(self.table.abbreviations, self._body_of, self.bound)
        made = expanding.expanded(term)
        self.is_notation = self.is_notation or expanding.is_used
        return made

    def _body_of(self, abbreviation: Abbreviation) -> Term:
        """What an abbreviation stands for, which is read once."""
        kept: Dict[Abbreviation, Term] = self.table.memory.setdefault("abbreviations", {})
        if abbreviation not in kept:
            reader = Reader(abbreviation.body, EMPTY, None)
            kept[abbreviation] = reader.ended(reader.term())
        return kept[abbreviation]

    def unexpected(self) -> Misread:
        """The error at a token with which no term goes on."""
        token = self.tokens[self.at]
        if token.kind is END:
            return self.misread("the quotation ends too soon")
        if token.kind is SYMBOL and self._is_in_run(token):
            return unknown(self.text, token.start - self.base, self.base)
        if token.kind is NUMBER:
            return Misread(token.start, token.end, "unexpected numeral")
        return Misread(token.start, token.end, "unexpected `%s`" % token.text)

    def _is_in_run(self, token: Token) -> bool:
        """Whether a symbol touches another one, so that both look like one operator, which isn't declared."""
        place = token.start - self.base
        run = next((one for one in RUN.finditer(self.text, max(0, place - _LONGEST_RUN)) if one.start() <= place < one.end()), None)
        return run is not None and run.group() != token.text and run.group() not in self.table.operators

    def _operand(self) -> Optional[Term]:
        """What an operand begins with: an atom, or None where a frame is open that waits for one."""
        kind, text, start, end = self.tokens[self.at]
        if kind is WORD and text not in self.table.reserved:
            self.at += 1
            return Name(text, start, end)
        if kind is NUMBER:
            self.at += 1
            return self._numeral(text, start, end)
        if kind is SYMBOL:
            if text == "(":
                return self._parenthesis()
            if text == "~" and self.tokens[self.at + 1].text != ")":
                self.at += 1
                self._wait(frames.Not(start))
                return None
            if text in BINDERS and self.tokens[self.at + 1].text != ")":
                self.at += 1
                self._binder(text, start)
                return None
            if text == "[" and self.table.part("nil"):
                self.at += 1
                return self._empty("nil", "]", start) or self._open(frames.Elements("[", start))
            if text == "{" and self.table.part("insert"):
                return self._brace()
        elif text == "if" and self.table.part("condition"):
            self.at += 1
            return self._open(frames.Conditional(start, end))
        elif text == "let" and self.table.part("let"):
            self.at += 1
            return self._open(frames.Let(self, start, end))
        raise self.unexpected()

    def _open(self, frame: Frame) -> None:
        """Opens a frame of its own tokens."""
        self.frames.append(frame)

    def _wait(self, frame: Frame) -> None:
        """Opens a frame in which the separators around it are some too."""
        frame.separators = self.frames[-1].separators
        self.frames.append(frame)

    def _empty(self, part: str, closer: str, start: int) -> Optional[Term]:
        """The constant of an empty list or set, where the bracket is closed at once."""
        if not self.is_next(closer):
            return None
        self.at += 1
        end = self.tokens[self.at - 1].end
        name = self.table.part(part)
        return self.constant(name, start, end, self.text[start - self.base:end - self.base])

    def _parenthesis(self) -> Optional[Term]:
        """What begins with a parenthesis: a symbol or a name alone, `(:A)`, or else a term."""
        start = self.tokens[self.at].start
        kind, text, inner, until = self.tokens[self.at + 1] if self.tokens[self.at + 1].kind is not END else (END, "", 0, 0)
        if kind is not END and self.tokens[self.at + 2].text == ")":
            found: Optional[Term] = None
            end = self.tokens[self.at + 2].end
            if kind is SYMBOL and text in ALONE:
                found = Symbol(text, start, end)
            elif kind is SYMBOL and text in self.table.operators:
                found = self.constant(self.table.operators[text].constant, start, end, text)
            elif kind is WORD:
                found = Name(text, start, end)
            if found is not None:
                self.at += 3
                return found
        universe = self.table.part("universe")
        if kind is SYMBOL and text == ":" and universe:
            self.at += 2
            inside = self.read_type()
            end = self.take(")").end
            whole = Type("fun", (inside, Type("bool", (), start, end)), start, end)
            return Annotation(self.constant(universe, start, end, "(:A)"), whole, start, end)
        self.at += 1
        return self._open(frames.Parenthesis(start))

    def _binder(self, kind: str, start: int) -> None:
        variables: List[Pattern] = []
        while not self.is_next("."):
            variables.append(self.pattern())
        if not variables:
            raise self.misread("a variable is missing before `.`")
        self.at += 1
        names = [name for one in variables for name in frames.names(one)]
        self.bind(names)
        self._open(frames.Bound(kind, variables, names, start))

    def _brace(self) -> Optional[Term]:
        """What begins with `{`: the empty set, an enumeration, or an abstraction, which has a `|`."""
        opened = self.at
        start = self.tokens[opened].start
        self.at += 1
        empty = self._empty("empty", "}", start)
        if empty is not None:
            return empty
        places = self.bars.get(opened)
        if places is None:
            return self._open(frames.Elements("{", start))
        if len(places) > 2:
            self.at = places[2]
            raise self.misread("a set has at most two `|`: {t | x, y | p}")
        return self._open(frames.Abstraction(self, start, places))

    def _behind(self, operand: Term) -> Optional[Term]:
        """Takes an operand: what a bracket around it is where it closes one, or None where another operand has to follow or all is read."""
        if self.frames[-1].__class__ is frames.Argument:
            operand = self.frames.pop().closed(self, operand)
        table, found = self.table, self.tokens
        kind, text, start, end = found[self.at]
        while kind is WORD and text not in table.reserved and text not in table.words:  # An argument for which no frame has to wait.
            operand = Application(operand, Name(text, start, end), operand.start, end)
            self.at += 1
            kind, text, start, end = found[self.at]
        if self._is_argument(kind, text):
            self._wait(frames.Argument(operand))
            return None
        if kind is SYMBOL and text == ":":
            self.at += 1
            found = self.read_type()
            operand = Annotation(operand, found, operand.start, found.end)
            kind, text, start, end = self.tokens[self.at]
        while self.frames[-1].__class__ is frames.Not:
            operand = self.frames.pop().closed(self, operand)
        infix = self._infix(kind, text)
        if infix is None:
            return self._close(operand)
        self._push(infix, operand, start, end)
        return None

    def _is_argument(self, kind: str, text: str) -> bool:
        """Whether the next token begins an argument."""
        if kind is WORD:
            if text in self.table.reserved:
                begins = text == "if" or text == "let"
                self.is_notation = self.is_notation or begins
                return begins
            return text not in self.table.words or not self._begins_operand(self.at + 1)
        if kind is SYMBOL:
            if text in _ATOMS:
                return True
            if text in BINDERS and self.tokens[self.at + 1].text != ")":
                self.is_notation = True
                return True
            return False
        return kind is NUMBER

    def _begins_operand(self, at: int) -> bool:
        """Whether a token can begin an operand."""
        kind, text = self.tokens[at][:2]
        if kind is SYMBOL:
            return text in _STARTS
        return kind is NUMBER or kind is WORD and (text not in self.table.reserved or text in ("if", "let"))

    def _infix(self, kind: str, text: str) -> Optional[Operator]:
        """The infix that the next token is behind an operand."""
        if kind is not SYMBOL and kind is not WORD:
            return None
        if text in self.frames[-1].separators:
            return None
        return _CONNECTIVES.get(text) or self.table.operators.get(text)

    def _push(self, infix: Operator, operand: Term, start: int, end: int) -> None:
        """Opens an infix, behind what binds tighter."""
        frame = self.frames[-1]
        while frame.__class__ is frames.Infix and frame.operator.precedence >= infix.precedence:
            if frame.operator.precedence == infix.precedence:
                if frame.operator.grouping != infix.grouping:
                    raise Misread(start, end, "`%s` and `%s` bind alike and group differently: put parentheses around one of them" % (
                        frame.operator.symbol, infix.symbol))
                if infix.grouping == RIGHT:
                    break
            operand = self.frames.pop().closed(self, operand)
            frame = self.frames[-1]
        if frame.least > infix.precedence:
            raise Misread(start, end, frame.why % infix.symbol)
        self.at += 1
        head = None if not infix.constant else self.constant(infix.constant, start, end, infix.symbol)
        self._wait(frames.Infix(infix, operand, head, start, end))

    def _close(self, operand: Term) -> Optional[Term]:
        """Takes an operand to the innermost bracket, at a token that no infix is: what the bracket is where it is closed."""
        while self.frames[-1].is_open:
            operand = self.frames.pop().closed(self, operand)
        found = self.frames[-1].token(self, operand)
        if found is not None:
            self.frames.pop()
        return found

    # ---- Numerals

    def _numeral(self, text: str, start: int, end: int) -> Term:
        """The term of a numeral: in binary, the leading digit innermost."""
        zero, one, even, odd = (self.table.part(part) for part in ("zero", "one", "even", "odd"))
        if zero is None:
            raise Misread(start, end, "there are no numerals here", text)
        if len(text) > LONGEST_NUMERAL:
            raise Misread(start, end, "this numeral has over %d digits" % LONGEST_NUMERAL)
        number = int(text)
        if number < 2:
            return self.constant(one if number else zero, start, end, text)
        if even is None:
            raise Misread(start, end, "numerals end at 1 here", text)
        found: Term = self.constant(one, start, end, text)
        for digit in bin(number)[3:]:
            found = applied(self.constant(odd if digit == "1" else even, start, end, text), [found], start, end)
        return found
