"""The search of instances: connection tableaux over clauses, by longer and longer paths.

Each literal that is open is closed by one of its path that it can contradict, or by a clause that has one, whose other literals are then
open. It answers which clauses were taken, each with the terms of its variables.
"""

from __future__ import annotations

from typing import Any, Dict, List, NamedTuple, Optional, Sequence, Tuple

from holls.prover import clauses, clock, typed
from holls.prover.clauses import APPLY, Clause, Coded, Literal, Symbol
from holls.prover.typed import Term, Type

Path = Optional[Tuple[Literal, Any]]
FAILED = False
"""A search that comes to nothing here."""

class _Owner:
    """A literal that is open. Where it has been closed once and what follows fails, it isn't closed otherwise, if choices are cut."""

    __slots__ = ()


class Frame(NamedTuple):
    """Literals that are open: those of a clause from a place on, with their path and what was closed beside it; then the next ones.

    `owner` is the literal that the clause closes. A frame without literals marks that it has been closed.
    """

    literals: Tuple[Literal, ...]
    at: int
    path: Path
    length: int
    lemmas: Path
    owner: Any
    next: Optional["Frame"]


class Found(NamedTuple):
    """A clause that was taken, with its variables' terms."""

    clause: Clause
    terms: Tuple[Term, ...]


class OutOfTime(Exception):
    """The search has had its time."""


class Connection:
    """A search over clauses, until a time."""

    def __init__(self, all_clauses: Sequence[Clause], until: float, is_cutting: bool) -> None:
        self.clauses = list(all_clauses)
        self.until, self.is_cutting = until, is_cutting
        self.index: Dict[Tuple[bool, Optional[Symbol]], List[Tuple[Clause, int]]] = {}
        for clause in sorted(self.clauses, key=lambda one: len(one.literals)):
            for place, literal in enumerate(clause.literals):
                self.index.setdefault((literal.is_true, _head(literal.atom)), []).append((clause, place))
        self.bindings: List[Optional[Coded]] = []
        self.types: List[Type] = []
        self.trail: List[int] = []
        self.taken: List[Tuple[Clause, int]] = []
        self.limit = self.steps = 0
        self.is_limited = False

    def starts(self) -> List[Clause]:
        """The clauses with which a search begins: those of what is to be shown, if there are any."""
        goals = [clause for clause in self.clauses if clause.is_goal]
        negative = [clause for clause in self.clauses if not any(literal.is_true for literal in clause.literals)]
        found = goals or negative or self.clauses
        return sorted(found, key=lambda one: len(one.literals))

    def search(self, starts: Sequence[Clause], first: int = 1, most: int = 60) -> Optional[List[Found]]:
        """What was taken, with paths as short as possible; None where no search of paths so long finds it, or time is over."""
        for self.limit in range(first, most):
            self.is_limited = False
            for clause in starts:
                base = self._copy(clause)
                literals = tuple(_shifted_literal(literal, base) for literal in clause.literals)
                if self._open(Frame(literals, 0, None, 0, None, None, None)) is True:
                    return self._found()
                self._drop(0, 0, 0)
            if not self.is_limited:
                return None
        return None

    def _copy(self, clause: Clause) -> int:
        """Takes a clause with variables of its own. Answers the first one's number."""
        base = len(self.bindings)
        if clause.count:
            self.bindings += [None] * clause.count
            self.types += [variable.type for variable in clause.variables]
        self.taken.append((clause, base))
        return base

    def _drop(self, mark: int, base: int, taken: int) -> None:
        """Takes back what was bound and taken since."""
        self._undo(mark)
        del self.taken[taken:], self.bindings[base:], self.types[base:]

    def _open(self, frame: Optional[Frame]) -> Any:
        """Closes all that is open. True, or where to go on."""
        if frame is None:
            return True
        self.steps += 1
        if not self.steps & 255 and clock.now() > self.until:
            raise OutOfTime
        if not frame.literals:
            done = self._open(frame.next)
            return frame.owner if done is FAILED else done
        literal = frame.literals[frame.at]
        if self._is_on(literal, frame.path):
            return FAILED
        own = _Owner()
        rest = self._after(frame, literal)
        if self._is_on(literal, frame.lemmas):
            return self._open(rest)
        done = self._reduce(frame, literal, rest)
        return self._extend(frame, literal, rest, own) if done is None else done

    def _after(self, frame: Frame, literal: Literal) -> Optional[Frame]:
        """What is open where a literal is closed."""
        if frame.at + 1 < len(frame.literals):
            return Frame(frame.literals, frame.at + 1, frame.path, frame.length, (literal, frame.lemmas), frame.owner, frame.next)
        return frame.next

    def _reduce(self, frame: Frame, literal: Literal, rest: Optional[Frame]) -> Any:
        """Closes a literal by one of its path. None where that comes to nothing."""
        path = frame.path
        while path is not None:
            other, path = path
            if other.is_true == literal.is_true or not _may_be(other.atom, literal.atom):
                continue
            mark = len(self.trail)
            if self._unify(other.atom, literal.atom):
                is_same = len(self.trail) == mark
                done = self._open(rest)
                if done is not FAILED:
                    return done
                if is_same or self.is_cutting:
                    return FAILED
            self._undo(mark)
        return None

    def _extend(self, frame: Frame, literal: Literal, rest: Optional[Frame], own: int) -> Any:
        """Closes a literal by a clause."""
        is_deep = frame.length >= self.limit
        for clause, place in self._matching(literal):
            if is_deep and len(clause.literals) > 1:
                self.is_limited = True
                continue
            mark, base, taken = len(self.trail), len(self.bindings), len(self.taken)
            self._copy(clause)
            atom = clause.literals[place].atom
            if self._unify(_shifted(atom, base) if clause.count else atom, literal.atom):
                done = self._open(self._opened(frame, literal, rest, own, clause, place, base))
                if done is not FAILED and done is not own:
                    return done
                if done is own or self.is_cutting and len(clause.literals) == 1:
                    self._drop(mark, base, taken)
                    return FAILED
            self._drop(mark, base, taken)
        return FAILED

    def _opened(self, frame: Frame, literal: Literal, rest: Optional[Frame], own: int, clause: Clause, place: int, base: int) -> Optional[Frame]:
        """What is open where a clause closes a literal: its other literals, and then the rest."""
        if len(clause.literals) == 1:
            return rest
        others = clause.literals[:place] + clause.literals[place + 1:]
        if clause.count:
            others = tuple([_shifted_literal(one, base) for one in others])
        end = Frame((), 0, None, 0, None, own, rest) if self.is_cutting else rest
        return Frame(others, 0, (literal, frame.path), frame.length + 1, frame.lemmas, own, end)

    def _matching(self, literal: Literal) -> List[Tuple[Clause, int]]:
        """The literals of clauses that one may contradict."""
        head = _head(self._found_term(literal.atom))
        if head is None:
            return [found for (is_true, _), every in self.index.items() if is_true != literal.is_true for found in every]
        found = self.index.get((not literal.is_true, head), [])
        loose = self.index.get((not literal.is_true, None), [])
        return found + loose if loose else found

    def _found_term(self, term: Coded) -> Coded:
        while isinstance(term, int) and self.bindings[term] is not None:
            term = self.bindings[term]
        return term

    def _is_on(self, literal: Literal, path: Path) -> bool:
        """Whether a literal is one of a list's as it stands."""
        while path is not None:
            other, path = path
            if other.is_true == literal.is_true and _may_be(other.atom, literal.atom) and self._is_same(other.atom, literal.atom):
                return True
        return False

    def _is_same(self, one: Coded, other: Coded) -> bool:
        one, other = self._found_term(one), self._found_term(other)
        if one is other:
            return True
        if isinstance(one, int) or isinstance(other, int):
            return one == other
        if one[0] is not other[0] or len(one) != len(other):
            return False
        return all(self._is_same(left, right) for left, right in zip(one[1:], other[1:]))

    def _unify(self, one: Coded, other: Coded) -> bool:
        bindings, waiting = self.bindings, [(one, other)]
        while waiting:
            one, other = waiting.pop()
            while type(one) is int and bindings[one] is not None:
                one = bindings[one]
            while type(other) is int and bindings[other] is not None:
                other = bindings[other]
            if one is other or type(one) is int and one == other:
                continue
            if type(one) is int or type(other) is int:
                if not (self._bind(one, other) if type(one) is int else self._bind(other, one)):
                    return False
            elif one[0] is other[0]:
                if len(one) != len(other):
                    return False
                waiting.extend(zip(one[1:], other[1:]))
            else:
                left, right = _applied(one), _applied(other)
                if left is None or right is None or one[0] is not APPLY and other[0] is not APPLY:
                    return False
                waiting += [(left[1], right[1]), (left[0], right[0])]
        return True

    def _bind(self, number: int, term: Coded) -> bool:
        if self._occurs(number, term) or self._type(term) != self.types[number]:
            return False
        self.bindings[number] = term
        self.trail.append(number)
        return True

    def _occurs(self, number: int, term: Coded) -> bool:
        term = self._found_term(term)
        if isinstance(term, int):
            return term == number
        return any(self._occurs(number, argument) for argument in term[1:])

    def _type(self, term: Coded) -> Optional[Type]:
        """A term's type."""
        term = self._found_term(term)
        if isinstance(term, int):
            return self.types[term]
        if term[0] is APPLY:
            return self._type(term[1])[2]
        ty = term[0].type
        for _ in range(len(term) - 1 - term[0].own):
            ty = ty[2]
        return ty

    def _undo(self, mark: int) -> None:
        while len(self.trail) > mark:
            self.bindings[self.trail.pop()] = None

    def _found(self) -> List[Found]:
        return [Found(clause, tuple(self.decoded(base + number) for number in range(clause.count))) for clause, base in self.taken]

    def decoded(self, term: Coded) -> Term:
        """A term of the search as a term; a variable that nothing was found for stays one."""
        term = self._found_term(term)
        if isinstance(term, int):
            return ("m", term, self.types[term])
        arguments = [self.decoded(argument) for argument in term[1:]]
        symbol = term[0]
        if symbol is APPLY:
            return ("a", arguments[0], arguments[1])
        own, arguments = arguments[:symbol.own], arguments[symbol.own:]
        begin = clauses.filled(symbol.term, own) if symbol.term is not None else ("s", symbol.position, tuple(own), symbol.type)
        return typed.apply(begin, *arguments)


def _head(atom: Coded) -> Optional[Symbol]:
    """What an atom begins with; None where that is a variable."""
    return None if isinstance(atom, int) or atom[0] is APPLY else atom[0]


def _may_be(one: Coded, other: Coded) -> bool:
    """Whether two atoms may be one by what they begin with."""
    return isinstance(one, int) or isinstance(other, int) or one[0] is other[0] or one[0] is APPLY or other[0] is APPLY


def _applied(term: Coded) -> Optional[Tuple[Coded, Coded]]:
    """A term as a function and its last argument."""
    if term[0] is APPLY:
        return term[1], term[2]
    return (term[:-1], term[-1]) if len(term) - 1 > term[0].own else None


def _shifted(term: Coded, base: int) -> Coded:
    if isinstance(term, int):
        return term + base
    if len(term) == 1:
        return term
    return (term[0],) + tuple([_shifted(argument, base) for argument in term[1:]])


def _shifted_literal(literal: Literal, base: int) -> Literal:
    return Literal(literal.is_true, _shifted(literal.atom, base))
