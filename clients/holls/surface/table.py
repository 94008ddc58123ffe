"""What is declared at a place: operators, the forms of conditionals, lists, sets, pairs, `let` and numerals, and the operators of types."""

from __future__ import annotations

import re
from typing import Dict, FrozenSet, List, NamedTuple, Optional, Pattern, Sequence, Tuple
from weakref import WeakValueDictionary

from holls.surface.abbreviations import Abbreviation
from holls.surface.tree import ALONE, BINDERS, PRECEDENCES

MOST_BRACKETS = 200
"""So many brackets may be open at once in a text that the program reads."""
MOST_TOKENS = 8_192
"""So many tokens a quotation in notation has at most, which stand for more than the program reads of a command."""
LONGEST_NUMERAL = 1_000
"""Digits of the longest numeral."""
RIGHT, LEFT = "right", "left"
MOST_PRECEDENCE = 99
_FIXED = ("<=>", "==>", "\\/", "/\\", "->", "?!", "=", "~", "\\", "!", "?", "@", "(", ")", ".", ":", "[", "]", ";", "{", "}", "|", ",", "`")
_PREFIXES = ("?!", "~", "\\", "!", "?", "@")
_SYMBOL = re.compile(r"(?:[-+*/<>=&|^%#$~!?@:\\]+|\.\.)\Z")
_WORD = re.compile(r"[A-Za-z_][A-Za-z0-9_']*\Z")
RUN = re.compile(r"[-+*/<>=&|^%#$~!?@:\\]+|\.\.+")
"""A run of the characters that operators are made of."""
_NOT_PLAIN = r"\.\.|[{}\[\]|;+*#&^%$]|<(?!=>)|-(?!>)|(?<!<=)(?<!==)(?<!-)>|(?<!\\)/(?!\\)|(?<![A-Za-z0-9_'?])[0-9]|\(\s*:"
_ANOTHER = r"[A-Za-z0-9_']\s+[A-Za-z_]|\)\s*[A-Za-z_]|[A-Za-z0-9_')]\s*\("
PERHAPS = re.compile(r",|[A-Za-z0-9_')]\s*(?:\\(?!/)|[!?@])|[!?\\@](?:(?:[^.():!?\\@]|\([^()!?\\@]*\))*:[^.!?\\@]*?(?:%s)|[^.!?\\@]*\([^.()!?\\@]*\()" % _ANOTHER)
"""What a quotation has that may be written in notation: a comma, a binder behind an operand, a binder's variable with a type, behind which there may be
another variable, or which stands where parentheses stand in others. It is looked for from one binder to the next."""
FORMS = {"if": ("condition",), "list": ("nil", "cons"), "set": ("empty", "insert", "universe"), "pair": ("pair", "uncurry"), "let": ("let",),
         "num": ("zero", "one", "even", "odd"), "1": ("unit",)}
"""The forms by the words that declare them, each with what its constants are to it."""
RESULT = -1
"""Among the places at which sets stand: the constant makes one."""
_RESERVED = {"if": ("if", "then", "else"), "let": ("let", "in", "and")}
_PAIR_PRECEDENCE = 14


class Operator(NamedTuple):
    """An infix: how tightly it binds, how it groups, and the constant, or constructor of types, that it stands for."""

    symbol: str
    precedence: int
    grouping: str
    constant: str


class Clash(Exception):
    """A declaration that can't stand beside an earlier one; the text says why."""


Content = Tuple[Tuple[Operator, ...], Tuple[Operator, ...], Tuple[Tuple[str, Tuple[str, ...]], ...], Tuple[Tuple[str, Tuple[int, ...]], ...],
                Tuple[Abbreviation, ...]]

_TABLES: "WeakValueDictionary[Content, Table]" = WeakValueDictionary()


class Table:
    """What is declared. It never changes, and two tables of one content are one object.

    `operators` and `type_operators` are by symbol, `of_constant` and `of_constructor` by what they stand for; `forms` has the constants of each form,
    `sets` which arguments of a constant are sets, with RESULT where it makes one. `abbreviations` are by name, `abbreviating` the words that stand for one. `constants` are
    those that something declared stands for, and `memory` is for what others keep of a table.
    """

    def __init__(self, content: Content) -> None:
        self.content = content
        operators, type_operators, forms, sets, abbreviations = content
        self.operators = {one.symbol: one for one in operators}
        self.of_constant = {one.constant: one for one in operators}
        self.type_operators = {one.symbol: one for one in type_operators}
        self.of_constructor = {one.constant: one for one in type_operators}
        self.forms: Dict[str, Tuple[str, ...]] = dict(forms)
        self.sets: Dict[str, Tuple[int, ...]] = dict(sets)
        self.abbreviations = {one.name: one for one in abbreviations}
        self.abbreviating = frozenset(self.abbreviations).union(one.symbol for one in operators if one.constant in self.abbreviations)
        self.words: FrozenSet[str] = frozenset(symbol for symbol in self.operators if _WORD.match(symbol))
        self.reserved: FrozenSet[str] = frozenset(word for form in self.forms for word in _RESERVED.get(form, ()))
        self.constants = frozenset((*self.of_constant, *(name for names in self.forms.values() for name in names)))
        self.memory: Dict[object, object] = {}
        self._of_part = {part: name for form, names in forms for part, name in zip(FORMS[form], names)}
        self._symbols: Optional[FrozenSet[str]] = None
        self._tokens: Optional[Pattern[str]] = None
        self._parts: Optional[Pattern[str]] = None
        self._notation: Optional[Pattern[str]] = None

    @staticmethod
    def of(content: Content) -> "Table":
        """The table of a content."""
        found = _TABLES.get(content)
        if found is None:
            found = _TABLES[content] = Table(content)
        return found

    def part(self, name: str) -> Optional[str]:
        """The constant that is a part of a form, as `cons` of lists; None where the form isn't declared."""
        return self._of_part.get(name)

    @property
    def is_empty(self) -> bool:
        """Whether nothing is declared, so that all is sent as it is written."""
        return self is EMPTY

    @property
    def symbols(self) -> FrozenSet[str]:
        """The symbols that are tokens."""
        if self._symbols is None:
            self._symbols = frozenset(_FIXED).union(one for one in (*self.operators, *self.type_operators) if not _WORD.match(one))
        return self._symbols

    @property
    def tokens(self) -> Pattern[str]:
        """One token, as groups the white space before it and the token: a word, a number, a type variable `?0`, a symbol, or any other character."""
        if self._tokens is None:
            self._tokens = re.compile(r"([ \t\r\n]*)(%s)" % self.parts.pattern)
        return self._tokens

    @property
    def parts(self) -> Pattern[str]:
        """One token without the white space before it."""
        if self._parts is None:
            longest_first = sorted(self.symbols, key=lambda one: (-len(one), one))
            self._parts = re.compile(r"[A-Za-z_][A-Za-z0-9_']*|[0-9]+|\?[0-9]+|%s|[^ \t\r\n]" % "|".join(map(re.escape, longest_first)))
        return self._parts

    @property
    def notation(self) -> Pattern[str]:
        """What only a quotation in notation has: a character that the plain language hasn't, or something that is declared."""
        if self._notation is None:
            every = [one for one in (*self.operators, *self.type_operators) if one != "," and not _WORD.match(one)]
            symbols = "|".join(re.escape(one) for one in every if not re.search(_NOT_PLAIN, one))
            words = "|".join(sorted(self.words | self.reserved | frozenset(self.abbreviations)))
            both = [r"(?<![-=<>/\\])(?:%s)(?![-=<>/\\])" % symbols] if symbols else []
            both += [r"(?<![A-Za-z0-9_'])(?:%s)(?![A-Za-z0-9_'])" % words] if words else []
            self._notation = re.compile("|".join([_NOT_PLAIN, *both]))
        return self._notation

    def with_operator(self, new: Operator) -> "Table":
        """The table with an operator. Raises `Clash` where its symbol or its constant has another one."""
        _check_symbol(new.symbol)
        self._check(self.operators, self.of_constant, new)
        return self._changed(operators=(*self.operators.values(), new)) if new.symbol not in self.operators else self

    def with_type_operator(self, new: Operator) -> "Table":
        """The table with an operator of types. Raises `Clash` as `with_operator` does."""
        if not _SYMBOL.match(new.symbol) or new.symbol in _FIXED:
            raise Clash("`%s` can't be an operator of types" % new.symbol)
        self._check(self.type_operators, self.of_constructor, new)
        return self._changed(type_operators=(*self.type_operators.values(), new)) if new.symbol not in self.type_operators else self

    @staticmethod
    def _check(by_symbol: Dict[str, Operator], by_constant: Dict[str, Operator], new: Operator) -> None:
        old = by_symbol.get(new.symbol)
        if old is not None and old != new:
            raise Clash("`%s` stands for %s already, as infix%s %d: take it back by no_notation %s" % (
                new.symbol, old.constant, old.grouping[0], old.precedence, new.symbol))
        other = by_constant.get(new.constant)
        if other is not None and other.symbol != new.symbol:
            raise Clash("%s is written `%s` already: a constant has one operator" % (new.constant, other.symbol))

    def with_form(self, form: str, names: Tuple[str, ...]) -> "Table":
        """The table with a form's constants. Raises `Clash` where the form has others."""
        old = self.forms.get(form)
        if old is not None and old != names[:len(old)] and names != old[:len(names)]:
            raise Clash("notation %s is that of %s already: take it back by no_notation %s" % (form, " ".join(old), form))
        if old is not None and len(old) >= len(names):
            return self
        made = self._changed(forms=(*((key, value) for key, value in self.forms.items() if key != form), (form, names)))
        return made.with_operator(Operator(",", _PAIR_PRECEDENCE, RIGHT, names[0])) if form == "pair" else made

    def with_sets(self, constant: str, places: Tuple[int, ...]) -> "Table":
        """The table with which arguments of a constant are sets, beside those that are known to be."""
        joined = tuple(sorted({*self.sets.get(constant, ()), *places}))
        return self._changed(sets=(*((key, value) for key, value in self.sets.items() if key != constant), (constant, joined)))

    def with_abbreviation(self, new: Abbreviation) -> "Table":
        """The table with an abbreviation. Raises `Clash` where its name stands for another term."""
        old = self.abbreviations.get(new.name)
        if old is not None and old != new:
            raise Clash("`%s` abbreviates another term already: take it back by no_notation %s" % (new.name, new.name))
        if new.name in self.reserved:
            raise Clash("`%s` is a word of the notation" % new.name)
        return self if old is not None else self._changed(abbreviations=(*self.abbreviations.values(), new))

    def without(self, what: str) -> Optional["Table"]:
        """The table without an operator, by its symbol, or a form, by its word; None where there is none of these."""
        if what in self.operators or what in self.type_operators:
            return self._changed(operators=[one for one in self.operators.values() if one.symbol != what],
                                 type_operators=[one for one in self.type_operators.values() if one.symbol != what])
        if what in self.forms:
            made = self._changed(forms=[(form, names) for form, names in self.forms.items() if form != what])
            return made.without(",") or made if what == "pair" else made
        if what in self.abbreviations:
            return self._changed(abbreviations=[one for one in self.abbreviations.values() if one.name != what])
        if what in self.sets:
            return self._changed(sets=[(constant, places) for constant, places in self.sets.items() if constant != what])
        return None

    def joined(self, other: "Table") -> Tuple["Table", List[str]]:
        """The table with what another one declares, and why some of it can't be had: what stands here stays."""
        if other is self or other.is_empty:
            return self, []
        if self.is_empty:
            return other, []
        made, clashes = self, []
        for add, key in ((Table.with_operator, "operators"), (Table.with_type_operator, "type_operators")):
            for one in getattr(other, key).values():
                if one.symbol != "," or key != "operators":
                    made = _tried(made, clashes, add, one)
        for form, names in other.forms.items():
            made = _tried(made, clashes, Table.with_form, form, names)
        for constant, places in other.sets.items():
            if made.sets.get(constant) != places:
                made = made.with_sets(constant, places)
        for abbreviation in other.abbreviations.values():
            made = _tried(made, clashes, Table.with_abbreviation, abbreviation)
        return made, clashes

    def _changed(self, operators: Optional[Sequence[Operator]] = None, type_operators: Optional[Sequence[Operator]] = None,
                 forms: Optional[Sequence[Tuple[str, Tuple[str, ...]]]] = None,
                 sets: Optional[Sequence[Tuple[str, Tuple[int, ...]]]] = None,
                 abbreviations: Optional[Sequence[Abbreviation]] = None) -> "Table":
        old = self.content
        return Table.of((
            old[0] if operators is None else tuple(sorted(operators)), old[1] if type_operators is None else tuple(sorted(type_operators)),
            old[2] if forms is None else tuple(sorted(forms)), old[3] if sets is None else tuple(sorted(sets)),
            old[4] if abbreviations is None else tuple(sorted(abbreviations))))


def _tried(table: Table, clashes: List[str], add, *what) -> Table:
    try:
        return add(table, *what)
    except Clash as clash:
        clashes.append(str(clash))
        return table


def _check_symbol(symbol: str) -> None:
    """Raises `Clash` for what can't be an operator: what the plain language has, or may have side by side, as `=~`."""
    if _WORD.match(symbol):
        if symbol in (word for words in _RESERVED.values() for word in words):
            raise Clash("`%s` is a word of the notation, and can't be an operator" % symbol)
        return
    if symbol == ",":
        return
    if not _SYMBOL.match(symbol):
        raise Clash("`%s` can't be an operator: it is a name, .., or made of the characters + - * / < > = & | ^ %% # $ ~ ! ? @ : \\" % symbol)
    if symbol in _FIXED or _is_plain(symbol):
        raise Clash("`%s` can't be an operator: the plain language reads it already" % symbol)


def _is_plain(symbol: str) -> bool:
    """Whether a run of characters is tokens of the plain language that may stand side by side: one of them, and then prefixes."""
    return any(symbol.startswith(one) and _are_prefixes(symbol[len(one):]) for one in (*PRECEDENCES, *BINDERS, *ALONE, ".", ":"))


def _are_prefixes(rest: str) -> bool:
    return not rest or any(rest.startswith(one) and _are_prefixes(rest[len(one):]) for one in _PREFIXES)


EMPTY = Table.of(((), (), (), (), ()))
"""The table of the plain language."""
