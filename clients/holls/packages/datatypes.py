"""`define_type`: what is written, and which type it declares.

    define_type exp = Numb num | Plus exp exp | Sum (exp list);;

Arguments are types; the type itself and lists of it may be among them. The type variables in it are its parameters.
"""

from __future__ import annotations

import re
from dataclasses import replace
from typing import AbstractSet, Dict, List, NamedTuple, Optional, Tuple

from holls.packages.forms import DEFINE_TYPE as FORM
from holls.packages.parsing import Place
from holls.packages.scope import INDUCT, SPLIT, Asking, Constructor, Data
from holls.packages.terms import LOGIC, Type, tyvars
from holls.protocol import RESERVED
from holls.surface.errors import Misread
from holls.surface.reader import Reader
from holls.surface.tokens import END, NUMBER, WORD
from holls.surface.tree import Type as WrittenType

MOST_CONSTRUCTORS = 64
_MUTUAL = ("types that are defined by one another aren't given: make one type of the constructors of all, with a relation (inductive) that says what is of which; "
           "or, where one is of lists of the other, write (t list) in its place")
_USED = re.compile(r"(?:P|fn|h|f[0-9]+)\Z")
"""The variables of the theorems themselves."""


class Argument(NamedTuple):
    """An argument of a constructor: its type, and its name if it has one."""

    type: WrittenType
    name: Optional[str]


class WrittenConstructor(NamedTuple):
    """A constructor as it is written, with the range of its name."""

    name: str
    arguments: List[Argument]
    start: int
    end: int


class Written(NamedTuple):
    """A declaration as it is written, with the range of the type's name."""

    name: str
    constructors: List[WrittenConstructor]
    start: int
    end: int


def read(text: str, word: str, place: Place) -> Written:
    """The declaration in a command's text behind its word. Raises `Misread`."""
    reader = Reader(text[len(word):], place.table, place.vocabulary, len(word))
    _skip_parameters(reader)
    head = None
    while reader.next.kind is WORD:
        head = reader.next
        reader.at += 1
    if head is None or not reader.is_next("="):
        raise reader.misread("this has to be of the form %s" % FORM.replace("define_type", word))
    reader.at += 1
    constructors = [_constructor(reader)]
    while reader.is_next("|"):
        reader.at += 1
        constructors.append(_constructor(reader))
    if reader.is_next(";"):
        raise reader.misread(_MUTUAL)
    if reader.next.kind is not END:
        raise reader.misread("no type goes on with `%s` here: `|` and the next constructor, or a type in parentheses" % reader.next.text)
    return Written(head.text, constructors, head.start, head.end)


def _skip_parameters(reader: Reader) -> None:
    """Parameters between parentheses before the type's name."""
    if reader.is_next("("):
        while reader.next.kind is not END and not reader.is_next(")"):
            reader.at += 1
        reader.take(")")


def _constructor(reader: Reader) -> WrittenConstructor:
    head = reader.next
    if head.kind is not WORD:
        raise reader.misread("a constructor's name is missing here")
    reader.at += 1
    arguments: List[Argument] = []
    while reader.next.kind is WORD and reader.next.text != "and" or reader.is_next("(") or reader.next.kind is NUMBER and reader.is_next("1"):
        name = None
        if reader.next.kind is WORD and reader.tokens[reader.at + 1].text == ":":
            name = reader.next.text
            reader.at += 2
        arguments.append(Argument(_atom(reader), name))
    if reader.is_next("and"):
        raise reader.misread(_MUTUAL)
    return WrittenConstructor(head.text, arguments, head.start, head.end)


def _atom(reader: Reader) -> WrittenType:
    """One type: a name, or a type between parentheses."""
    token = reader.next
    if token.kind is WORD:
        reader.at += 1
        return WrittenType(token.text, (), token.start, token.end)
    if token.kind is NUMBER:
        return reader.read_type()
    reader.take("(")
    inside = [reader.read_type()]
    while reader.is_next(","):
        reader.at += 1
        inside.append(reader.read_type())
    end = reader.take(")").end
    if len(inside) == 1:
        return WrittenType(inside[0].constructor, inside[0].arguments, token.start, end)
    name = reader.next
    if name.kind is not WORD:
        raise reader.misread("a constructor of types is missing behind this `)`")
    reader.at += 1
    return WrittenType(name.text, tuple(inside), token.start, name.end)


class _Types:
    """The types of a declaration's arguments."""

    def __init__(self, written: Written, asking: Asking) -> None:
        self.name, self.asking = written.name, asking
        found: Dict[str, None] = {}
        waiting = [one.type for part in written.constructors for one in part.arguments]
        while waiting:
            node = waiting.pop()
            if node.constructor != self.name and not node.arguments and asking.arity_of(node.constructor) is None:
                found.setdefault(node.constructor)
            waiting += node.arguments
        self.parameters = sorted(found)
        self.own: Type = (self.name,) + tuple(self.parameters)

    def type(self, written: WrittenType) -> Type:
        """A type as it is written. Raises `Misread`."""
        start, end, name = written.start, written.end, written.constructor
        if name == self.name:
            if written.arguments and [one.constructor for one in written.arguments] != self.parameters:
                raise Misread(start, end, "`%s` has the arguments %s here: they are the same everywhere in a type" % (
                    name, ", ".join(self.parameters) or "none"))
            return self.own
        number = self.asking.arity_of(name)
        if number is None:
            if written.arguments:
                raise Misread(start, end, "`%s` is no type here" % name)
            return name
        if number != len(written.arguments):
            raise Misread(start, end, "the type `%s` takes %d arguments" % (name, number))
        return (name,) + tuple(self.type(one) for one in written.arguments)

    def kind(self, type_: Type, written: WrittenType) -> str:
        """Whether a type is the declared one, lists of it, or has nothing of it. Raises `Misread` where it is none of these."""
        if type_ == self.own:
            return "r"
        if type_ == ("list", self.own):
            return "l"
        if not self._has_own(type_):
            return "x"
        if type_[0] == "fun" and self._has_own(type_[1]):
            where = "to the left of ->: there is no such type"
        else:
            where = "under `%s`: beside the type itself only lists of it are given" % ("->" if type_[0] == "fun" else type_[0])
        raise Misread(written.start, written.end, "`%s` stands %s" % (self.name, where))

    def _has_own(self, type_: Type) -> bool:
        return isinstance(type_, tuple) and (type_[0] == self.name or any(self._has_own(one) for one in type_[1:]))


def analysed(written: Written, asking: Asking) -> Data:
    """The type that is declared. Raises `Misread` where there is none."""
    name, where = written.name, (written.start, written.end)
    if asking.arity_of(name) is not None:
        raise Misread(*where, "the type `%s` stands already: another name for this one" % name, taken=("type", name))
    if name in RESERVED:
        raise Misread(*where, "`%s` is a reserved word" % name)
    if len(written.constructors) > MOST_CONSTRUCTORS:
        raise Misread(*where, "a type has at most %d constructors" % MOST_CONSTRUCTORS)
    _check_names(written, asking)
    types = _Types(written, asking)
    constructors = tuple(_analysed(one, types) for one in written.constructors)
    if all("r" in one.kinds for one in constructors):
        raise Misread(*where, "`%s` would have no element: each constructor takes one of it; begin with one that takes none" % name)
    result = "Z"
    while result in types.parameters or result == name or asking.arity_of(result) is not None:
        result += "'"
    found = Data(name, tuple(types.parameters), constructors, name + INDUCT, name + SPLIT, name + "_CASE", name + "_CASE", name + "_RECURSION", result, "")
    has_parts = any("r" in one.kinds for one in constructors)
    return replace(found, size=name + "_SIZE", less=name + "_LESS" if has_parts else None) if found.is_recursive else found


def _check_names(written: Written, asking: Asking) -> None:
    seen = set()
    for one in written.constructors:
        if one.name in seen:
            raise Misread(one.start, one.end, "the constructor `%s` stands twice in this type" % one.name)
        if one.name in LOGIC or asking.is_constant(one.name):
            told = "the constant `%s` stands already: another name for the constructor" % one.name
            raise Misread(one.start, one.end, told, taken=("const", one.name))
        seen.add(one.name)


def _analysed(written: WrittenConstructor, types: _Types) -> Constructor:
    found: List[Tuple[Type, str]] = []
    for one in written.arguments:
        type_ = types.type(one.type)
        found.append((type_, types.kind(type_, one.type)))
    hints = tuple(one.name for one in written.arguments)
    return Constructor(written.name, tuple(type_ for type_, _ in found), "".join(kind for _, kind in found), hints if any(hints) else ())


def argument_names(constructor: Constructor, asking: Asking, own: AbstractSet[str] = frozenset()) -> List[str]:
    """What a constructor's arguments are called: their fields' names, or as HOL Light has them, `a`, or `a0`, `a1`, .. `own` are the constructors that
    don't stand yet."""
    number = len(constructor.types)
    found: List[str] = []
    for at in range(number):
        hint = constructor.hints[at] if constructor.hints else None
        name = hint or ("a" if number == 1 else "a%d" % at)
        while asking.is_constant(name) or name in own or name in found or _USED.match(name):
            name += "_" if _USED.match(name) else "'"  # Where a variable is fixed its primes are found anew, as few as there can be.
        found.append(name)
    return found


def parameters_of(constructor: Constructor) -> List[str]:
    """The type variables of a constructor's arguments."""
    return [name for type_ in constructor.types for name in tyvars(type_)]
