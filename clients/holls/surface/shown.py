"""Printing trees in notation: what is printed reads back as the same tree by the same table and vocabulary."""

from __future__ import annotations

from typing import Any, Dict, Iterable, List, NamedTuple, Optional, Set, Tuple

from holls.surface import frames
from holls.surface.frames import Pattern, Variable
from holls.surface.table import LEFT, RESULT, RIGHT, Table
from holls.surface.tree import (PRECEDENCES, Annotation, Application, Binder, Connective, Name, Negation, Symbol, Term, Type,
                                free_names, spine)
from holls.surface.vocabulary import Vocabulary

_NEGATED, _FUNCTION, _ATOM = 200, 201, 202
"""How tightly what stands behind `~`, a function, and an argument binds: tighter than any infix."""
_ABOVE_COMMA = 15
_MOST_NODES = 200
"""A set with more nodes than this is printed without looking for its elements' form."""
_SET = "{"
"""As if it were bound in each set by a condition, so that these are counted."""
_MOST_BITS = 3_000
_MOST_PAIRS = 50
"""How deeply the pairs of a binder are nested at most."""


class Unprintable(Exception):
    """A tree that has no text in notation, since a name in it is a word of the notation."""


class _Scope(NamedTuple):
    """In the work that waits: variables begin to be bound here, or with -1 end."""

    names: List[str]
    by: int


class _Part(NamedTuple):
    """In the work that waits: a term, how tightly it has to bind, how what stands around it groups, and whether a set is meant."""

    term: Term
    level: int = 0
    grouping: str = ""
    is_set: bool = False


class _TypePart(NamedTuple):
    """In the work that waits: a type, and how tightly it has to bind."""

    type: Type
    level: int = 0


_Work = Any
"""A text, a _Scope, a _Part or a _TypePart."""


class Printer:
    """Prints terms and types by a table. Free names that are `hidden` are variables, so that nothing of the notation stands for them."""

    def __init__(self, table: Table, vocabulary: Optional[Vocabulary] = None, hidden: Iterable[str] = ()) -> None:
        self.table = table
        self.vocabulary = vocabulary or Vocabulary()
        self.bound: Dict[str, int] = {name: 1 for name in hidden}
        self._not_chains: Set[int] = set()
        part = table.part
        self._alone = {part("nil"): "[]", part("empty"): "{}", part("zero"): "0", part("one"): "1"}
        self._alone.pop(None, None)
        self._sets_alone = (part("empty"), part("universe"))
        self._special = {part("condition"): self._conditional, part("pair"): self._pair, part("cons"): self._list, part("insert"): self._set,
                         part("even"): self._numeral, part("odd"): self._numeral, part("let"): self._let, part("uncurry"): self._uncurried}
        self._special.pop(None, None)

    def term(self, term: Term, level: int = 0) -> str:
        """The text of a term, between parentheses where it binds looser than the level. Raises `Unprintable`."""
        return self._run(_Part(term, level))

    def type(self, type_: Type, level: int = 0) -> str:
        """The text of a type. Raises `Unprintable`."""
        return self._run(_TypePart(type_, level))

    def variable(self, variable: Variable) -> str:
        """The text of a definition's argument. Raises `Unprintable`."""
        return "".join(work if isinstance(work, str) else self.type(work.type) for work in self._pattern_text(variable, False))

    def _run(self, first: _Work) -> str:
        parts: List[str] = []
        waiting: List[_Work] = [first]
        while waiting:
            work = waiting.pop()
            kind = work.__class__
            if kind is str:
                parts.append(work)
            elif kind is _Part:
                found = self._term(work)
                if found.__class__ is str:
                    parts.append(found)
                else:
                    found.reverse()
                    waiting += found
            elif kind is _Scope:
                for name in work.names:
                    self.bound[name] = self.bound.get(name, 0) + work.by
            else:
                found = self._type(work)
                found.reverse()
                waiting += found
        return "".join(parts)

    def _term(self, part: _Part) -> Any:
        """A term's text, or the work that it is."""
        node, level, grouping, is_set = part
        kind = node.__class__
        if kind is Name:
            return self._name(node.text)
        if kind is Application:
            return self._application(node, level, grouping)
        if kind is Connective:
            precedence = PRECEDENCES[node.symbol]
            are_sets = node.symbol == "=" and (self._is_set(node.left) or self._is_set(node.right))
            work = [_Part(node.left, precedence + 1, "", are_sets), " %s " % node.symbol, _Part(node.right, precedence, RIGHT, are_sets)]
            return _bracketed(work, level > precedence or level == precedence and grouping == LEFT)
        if kind is Binder:
            return is_set and node.kind == "\\" and self._abstraction(node) or self._binder(node, level)
        if kind is Symbol:
            return "(%s)" % node.text
        if kind is Negation:
            return _bracketed(["~", _Part(node.body, _NEGATED)], level > _NEGATED)
        return self._annotation(node, level)

    def _is_set(self, term: Term) -> bool:
        """Whether a side of an equation is a set for certain: by its constant, or as it is written."""
        if term.__class__ is Annotation:
            term = term.term
        number = 0
        while term.__class__ is Application:
            term, number = term.function, number + 1
        if term.__class__ is not Name or self.bound.get(term.text):
            return False
        return number > 0 and RESULT in self.table.sets.get(term.text, ()) or not number and term.text in self._sets_alone

    # ---- Names

    def _stands(self, name: Optional[str]) -> bool:
        """Whether a name is a constant that something stands for here."""
        return name is not None and not self.bound.get(name)

    def _name(self, name: str) -> str:
        if not self.bound.get(name):
            alone = self._alone.get(name)
            if alone:
                return alone
            operator = self.table.of_constant.get(name)
            if operator is not None:
                symbol = operator.symbol
                return "( %s )" % symbol if symbol[0] == "*" or symbol[-1] == "*" else "(%s)" % symbol
        return self._variable_name(name)

    def _variable_name(self, name: str) -> str:
        """A name as it is written where an operator or a word of the notation may be of that name."""
        return "(%s)" % name if name in self.table.words or name in self.table.reserved else name

    def is_constant(self, name: str) -> bool:
        """Whether a name is a constant's, as the reader takes it."""
        return self.vocabulary.is_constant(name) or name in self.table.constants

    # ---- Applications

    def _application(self, node: Application, level: int, grouping: str) -> Any:
        head, arguments = spine(node)
        number = len(arguments)
        sets: Tuple[int, ...] = ()
        if head.__class__ is Name and not self.bound.get(head.text):
            name = head.text
            special = self._special.get(name)
            found = special(node, arguments, level) if special else None
            if found is not None:
                return found
            sets = self.table.sets.get(name, ())
            if name in self.table.of_constant and number >= 2 and name != self.table.part("pair"):
                if number == 2:
                    return self._infix(name, arguments, sets, level, grouping)
                return self._rest(node, arguments, 2, level)
        elif head.__class__ is Symbol and number == 1:
            found = self._quantified(head.text, arguments[0], level)
            if found is not None:
                return found
        work: List[_Work] = [_Part(head, _FUNCTION)]
        for at, argument in enumerate(arguments):
            work += (" ", _Part(argument, _ATOM, "", at in sets))
        return _bracketed(work, level > _FUNCTION)

    def _rest(self, node: Application, arguments: List[Term], number: int, level: int) -> List[_Work]:
        """An application whose first arguments are written in a form of their own."""
        function: Term = node
        for _ in arguments[number:]:
            function = function.function
        work: List[_Work] = [_Part(function, _FUNCTION)]
        for argument in arguments[number:]:
            work += (" ", _Part(argument, _ATOM))
        return _bracketed(work, level > _FUNCTION)

    def _infix(self, name: str, arguments: List[Term], sets: Tuple[int, ...], level: int, grouping: str) -> List[_Work]:
        operator = self.table.of_constant[name]
        precedence, is_right = operator.precedence, operator.grouping == RIGHT
        left = _Part(arguments[0], precedence + is_right, "" if is_right else LEFT, 0 in sets)
        right = _Part(arguments[1], precedence + (not is_right), RIGHT if is_right else "", 1 in sets)
        clashes = level == precedence and grouping not in ("", operator.grouping)
        return _bracketed([left, " %s " % operator.symbol, right], level > precedence or clashes)

    def _conditional(self, node: Application, arguments: List[Term], level: int) -> Any:
        if len(arguments) < 3:
            return None
        if len(arguments) > 3:
            return self._rest(node, arguments, 3, level)
        condition, yes, no = arguments
        return _bracketed(["if ", _Part(condition), " then ", _Part(yes), " else ", _Part(no)], level > 0)

    def _pair(self, node: Application, arguments: List[Term], level: int) -> Any:
        if len(arguments) < 2:
            return None
        if len(arguments) > 2:
            return self._rest(node, arguments, 2, level)
        parts, name = [arguments[0]], self.table.part("pair")
        last = arguments[1]
        while last.__class__ is Application and last.function.__class__ is Application and _is_name(last.function.function, name):
            parts.append(last.function.argument)
            last = last.argument
        work: List[_Work] = ["("]
        for part in parts:
            work += (_Part(part, _ABOVE_COMMA), ",")
        return work + [_Part(last, _ABOVE_COMMA), ")"]

    def _list(self, node: Application, arguments: List[Term], level: int) -> Any:
        return self._enumeration(node, arguments, level, "cons", "nil", "[; ]", 0)

    def _set(self, node: Application, arguments: List[Term], level: int) -> Any:
        return self._enumeration(node, arguments, level, "insert", "empty", "{, }", _ABOVE_COMMA)

    def _enumeration(self, node: Application, arguments: List[Term], level: int, more: str, empty: str, marks: str, least: int) -> Any:
        """A list or a set of elements, where the chain ends in the empty one."""
        if len(arguments) > 2:
            function = node
            for _ in arguments[2:]:
                function = function.function
            is_chain = self._chain(function, more, empty) is not None
            return self._rest(node, arguments, 2, level) if is_chain else None
        elements = self._chain(node, more, empty) if len(arguments) == 2 else None
        if elements is None:
            return None
        work: List[_Work] = [marks[0]]
        for at, element in enumerate(elements):
            work += (marks[1:3], _Part(element, least)) if at else (_Part(element, least),)
        return work + [marks[3]]

    def _chain(self, node: Term, more: str, empty: str) -> Optional[List[Term]]:
        """The elements of a chain that ends in the empty list or set."""
        more_name, empty_name = self.table.part(more), self.table.part(empty)
        elements: List[Term] = []
        passed: List[int] = []
        while node.__class__ is Application and node.function.__class__ is Application and _is_name(node.function.function, more_name):
            if id(node) in self._not_chains:
                break
            passed.append(id(node))
            elements.append(node.function.argument)
            node = node.argument
        if _is_name(node, empty_name) and self._stands(empty_name):
            return elements
        self._not_chains.update(passed)
        return None

    def _numeral(self, node: Application, arguments: List[Term], level: int) -> Any:
        """A numeral, where the digits end in a leading 1."""
        if len(arguments) != 1 or id(node) in self._not_chains:
            return None
        even, odd, one = (self.table.part(part) for part in ("even", "odd", "one"))
        value, bit, passed = 0, 1, []
        digit: Term = node
        while digit.__class__ is Application and digit.function.__class__ is Name and digit.function.text in (even, odd):
            if not self._stands(digit.function.text) or len(passed) > _MOST_BITS:
                break
            passed.append(id(digit))
            value += bit if digit.function.text == odd else 0
            bit <<= 1
            digit = digit.argument
        if _is_name(digit, one) and self._stands(one):
            return [str(value + bit)]
        self._not_chains.update(passed)
        return None

    # ---- Binders

    def _quantified(self, kind: str, argument: Term, level: int) -> Any:
        """`(!) (UNCURRY (\\x y. p))`, which is written `!(x,y). p`."""
        if kind not in ("!", "?", "?!", "@"):
            return None
        found = self._pattern(argument)
        if found is None or isinstance(found[0], Variable):
            return None
        return self._bound(kind, [found[0]], found[1], level)

    def _uncurried(self, node: Application, arguments: List[Term], level: int) -> Any:
        if len(arguments) > 1:
            function = node
            for _ in arguments[1:]:
                function = function.function
            return self._rest(node, arguments, 1, level) if self._pattern(function) else None
        found = self._pattern(node)
        return None if found is None else self._bound("\\", [found[0]], found[1], level)

    def _pattern(self, node: Term) -> Optional[Tuple[Pattern, Term]]:
        """The pattern that a function binds, and its body: a variable, or a pair where the function is UNCURRY of one that binds both."""
        found = self._pattern_within(node, _MOST_PAIRS)
        uncurry = self.table.part("uncurry")
        if found is None or isinstance(found[0], frames.Pair) and uncurry in frames.names(found[0]):
            return None
        return found

    def _pattern_within(self, node: Term, depth: int) -> Optional[Tuple[Pattern, Term]]:
        if node.__class__ is Binder and node.kind == "\\":
            return Variable(node.name, node.type, node.at, node.until), node.body
        uncurry = self.table.part("uncurry")
        if not depth or node.__class__ is not Application or not _is_name(node.function, uncurry) or not self._stands(uncurry):
            return None
        first = self._pattern_within(node.argument, depth - 1)
        second = self._pattern_within(first[1], depth - 1) if first else None
        return (frames.Pair(first[0], second[0], 0, 0), second[1]) if second else None

    def _binder(self, node: Binder, level: int) -> List[_Work]:
        """A binder, with those of its kind that stand in it at once."""
        variables: List[Pattern] = []
        body: Term = node
        while body.__class__ is Binder and body.kind == node.kind:
            variables.append(Variable(body.name, body.type, body.at, body.until))
            body = body.body
        return self._bound(node.kind, variables, body, level)

    def _bound(self, kind: str, variables: List[Pattern], body: Term, level: int) -> List[_Work]:
        work: List[_Work] = [kind]
        for at, variable in enumerate(variables):
            is_last = at == len(variables) - 1
            work += ([" "] if at else []) + self._pattern_text(variable, is_last)
        names = [name for variable in variables for name in frames.names(variable)]
        work += (". ", _Scope(names, 1), _Part(body), _Scope(names, -1))
        return _bracketed(work, level > 0)

    def _pattern_text(self, pattern: Pattern, is_last: bool) -> List[_Work]:
        """A pattern as it stands behind a binder. The type of the last variable needs no parentheses where it ends for certain."""
        if isinstance(pattern, Variable):
            name = self._bound_name(pattern.name)
            if pattern.type is None:
                return [name]
            if is_last and name == pattern.name and self._ends(pattern.type):
                return [name, ":", _TypePart(pattern.type)]
            return ["(%s:" % pattern.name, _TypePart(pattern.type), ")"]
        work: List[_Work] = []
        waiting: List[Any] = [pattern]
        while waiting:
            part = waiting.pop()
            if isinstance(part, str):
                work.append(part)
            elif isinstance(part, Variable):
                work += [part.name] if part.type is None else [part.name, ":", _TypePart(part.type)]
            else:
                waiting += [")", part.second, ",", part.first, "("]
        return work

    def _bound_name(self, name: str) -> str:
        """A variable's name behind a binder: a word of the notation stands between parentheses there."""
        return "(%s)" % name if name in self.table.reserved else name

    def _ends(self, type_: Type) -> bool:
        """Whether a type behind a variable is read to its end though other variables might follow."""
        waiting = [type_]
        while waiting:
            part = waiting.pop()
            if len(part.arguments) == 1 and not self.vocabulary.takes_arguments(part.constructor):
                return False
            waiting += part.arguments
        return True

    def _abstraction(self, node: Binder) -> Optional[List[_Work]]:
        """A function that is meant as a set, as `{x | p}` or `{t | x, y | p}`."""
        if self.table.part("insert") is None or self.bound.get(_SET, 0) >= frames.MOST_SETS:
            return None
        found = self._image(node)
        if found is not None:
            return found
        if node.name in self.table.reserved or node.type is not None and not self._ends(node.type):
            return None
        work: List[_Work] = ["{", node.name] + ([":", _TypePart(node.type)] if node.type else [])
        names = [node.name, _SET]
        return work + [" | ", _Scope(names, 1), _Part(node.body), _Scope(names, -1), "}"]

    def _image(self, node: Binder) -> Optional[List[_Work]]:
        """`\\z. ?vs. p /\\ z = t` as `{t | vs | p}`; without the variables where the reader finds the same."""
        names: List[str] = []
        has_types, body = False, node.body
        while body.__class__ is Binder and body.kind == "?":
            names.append(body.name)
            has_types, body = has_types or body.type is not None, body.body
        if has_types or node.type is not None or body.__class__ is not Connective or body.symbol != "/\\":
            return None
        condition, equation = body.left, body.right
        if equation.__class__ is not Connective or equation.symbol != "=" or not _is_name(equation.left, node.name) or node.name in names:
            return None
        pattern = equation.right
        in_pattern, in_condition = free_names(pattern, _MOST_NODES), free_names(condition, _MOST_NODES)
        if in_pattern is None or in_condition is None or frames.fresh_name(in_pattern, in_condition) != node.name:
            return None
        if any(name in self.table.reserved for name in names):
            return None
        is_simple = pattern.__class__ in (Name, Annotation) or names != frames.variables_of(self, in_pattern, in_condition)
        if is_simple and not names:
            return None
        middle = " | %s | " % ", ".join(names) if is_simple else " | "
        scope = [*names, _SET]
        return ["{", _Scope(scope, 1), _Part(pattern), middle, _Part(condition), _Scope(scope, -1), "}"]

    def _let(self, node: Application, arguments: List[Term], level: int) -> Any:
        """`LET (\\x y. b) s t` as `let x = s and y = t in b`."""
        body: Term = arguments[0]
        terms, patterns = arguments[1:], []
        for _ in terms:
            found = self._pattern(body)
            if found is None:
                return None
            patterns.append(found[0])
            body = found[1]
        names = [name for pattern in patterns for name in frames.names(pattern)]
        types = [pattern.type for pattern in patterns if isinstance(pattern, Variable) and pattern.type is not None]
        if not terms or any(name in self.table.reserved for name in names) or not all(self._ends(one) for one in types):
            return None
        work: List[_Work] = []
        for at, (pattern, term) in enumerate(zip(patterns, terms)):
            work += [" and " if at else "let "] + self._pattern_text(pattern, True) + [" = ", _Part(term)]
        work += (" in ", _Scope(names, 1), _Part(body), _Scope(names, -1))
        return _bracketed(work, level > 0)

    # ---- Types

    def _annotation(self, node: Annotation, level: int) -> List[_Work]:
        type_ = node.type
        if _is_name(node.term, self.table.part("universe")) and self._stands(self.table.part("universe")) and _is_set_type(type_):
            return ["(:", _TypePart(type_.arguments[0]), ")"]
        return _bracketed([_Part(node.term, _FUNCTION), ":", _TypePart(type_)], level > 0)

    def _type(self, part: _TypePart) -> List[_Work]:
        type_, level = part
        name, arguments = type_.constructor, type_.arguments
        if name == "fun" and len(arguments) == 2:
            return _bracketed([_TypePart(arguments[0], 3), "->", _TypePart(arguments[1], 2)], level > 2)
        operator = self.table.of_constructor.get(name)
        if operator is not None and len(arguments) == 2:
            work = [_TypePart(arguments[0], operator.precedence + 1), operator.symbol, _TypePart(arguments[1], operator.precedence)]
            return _bracketed(work, level > operator.precedence)
        if name in self.table.reserved or arguments and name in self.table.words:
            raise Unprintable("the type `%s` has the name of a word of the notation" % name)
        if not arguments:
            return ["1" if name == self.table.part("unit") else name]
        if len(arguments) == 1:
            return [_TypePart(arguments[0], 100), " ", name]
        work = ["("]
        for at, argument in enumerate(arguments):
            work += ([","] if at else []) + [_TypePart(argument)]
        return work + [")", name]


def _bracketed(work: List[_Work], is_bracketed: bool) -> List[_Work]:
    return ["(", *work, ")"] if is_bracketed else work


def _is_name(term: Term, name: Optional[str]) -> bool:
    return name is not None and term.__class__ is Name and term.text == name


def _is_set_type(type_: Type) -> bool:
    """Whether a type is A->bool of some A."""
    return type_.constructor == "fun" and len(type_.arguments) == 2 and type_.arguments[1].constructor == "bool" and not type_.arguments[1].arguments
