"""What stands at a command, with types: constants, type constructors and theorems, and named tactics, by the texts that make them.

A statement is read from the text of its `g` or `new_` command and not from what the program shows, which has no types. What can't be read, or
was refused, is left out.
"""

from __future__ import annotations

import re
from functools import lru_cache
from typing import Dict, FrozenSet, Iterator, List, Optional, Sequence, Set, Tuple

from holls import manual, names
from holls.files import File
from holls.prover import reading, typed
from holls.prover.facts import Fact
from holls.prover.reading import Signature, Unreadable
from holls.prover.typed import BOOL, Term, Type, fun

ARITHMETIC = "linear"
"""The theory on which steps of arithmetic rest."""
PACKAGES = ("package_trees", "package_types", "packages")
"""The theories on which packages rest: their theorems serve what packages make."""
MOST_INSTANCES = 4
"""So many instances of a theorem's types are taken at most."""

_LOGICAL = frozenset(name for name in reading.PRELUDE if name not in ("ONE_ONE", "ONTO"))


class Scope:
    """The constants, the theorems and the named tactics that stand, the nearest last."""

    def __init__(self) -> None:
        self.signature = Signature()
        self.functions: Dict[str, FrozenSet[str]] = {}
        """Of each named tactic the variables that it names, free in its quotations."""
        self.concerns: Dict[str, FrozenSet[str]] = {}
        """Of each named tactic the constants that what it cites rewrites or concludes; none where all of these are logical, or it cites nothing."""
        self.theorems: Dict[str, Term] = {}
        self.simple: Dict[str, None] = {}
        self.definitions: Dict[str, str] = {"ONE_ONE": "ONE_ONE", "ONTO": "ONTO"}
        self._facts: Dict[str, Fact] = {}
        self.theorems.update(_prelude())

    def add_file(self, file: File, before: Optional[int] = None, after: int = 0) -> None:
        """Takes what a file makes, or what stands before one of its commands and isn't among so many first ones; of the theory of arithmetic no
        functions, which have a use of their own."""
        self.simple.update(file.notation.simple)
        for first, last in names.blocks(file):
            if before is not None and last >= before:
                break
            if first < after:
                continue
            command = file.commands[first]
            is_left_out = command.word == "deftac" and file.name == ARITHMETIC
            if is_left_out or command.word == "g" and file.commands[last].text != "qed":
                continue
            try:
                self._add(command.word, command.text)
            except (Unreadable, RecursionError, ValueError, KeyError, IndexError):
                continue
            if file.name in PACKAGES or command.name.startswith(names.HIDDEN):
                self._leave_out(command.text.split("`")[0].split()[1:])

    def simplifying(self) -> List[str]:
        """The theorems that stand and that `simp` names."""
        return [name for name in self.simple if name in self.theorems]

    def _leave_out(self, given: Sequence[str]) -> None:
        """Leaves out theorems and functions that packages have for themselves; their constants stand."""
        for name in given:
            for every in (self.theorems, self.definitions, self.functions):
                every.pop(name, None)

    def _add(self, word: str, text: str) -> None:
        """Takes what a command makes."""
        given = text.split("`")[0].split()[1:]
        quoted = text.split("`")[1] if "`" in text else ""
        if word in ("g", "new_axiom"):
            self.theorems[given[0]] = reading.term(quoted, self.signature, ty=BOOL)
        elif word == "new_definition":
            statement = reading.definition(quoted, self.signature)
            constant = _defined(statement)
            self.signature.constants[constant[1]] = constant[2]
            self.theorems[given[0]] = statement
            self.definitions[given[0]] = constant[1]
        elif word == "new_constant":
            self.signature.constants[given[0]] = reading.type_text(quoted.strip().lstrip(":"), self.signature)
        elif word == "deftac":
            variables = self._named_variables(text)
            self.functions.pop(given[0], None)
            self.functions[given[0]], self.concerns[given[0]] = variables, self._concerned(text)
        elif word == "new_type":
            self.signature.constructors[given[0]] = int(given[1])
        elif word == "new_basic_type_definition":
            self._add_type(*given)

    def _named_variables(self, text: str) -> FrozenSet[str]:
        """The names of the variables that are free in a command's quotations, as far as these can be read, and in those of what it uses."""
        found: Set[str] = set()
        for at, part in enumerate(text.split("`")):
            if at % 2 == 0:
                found.update(*(self.functions.get(word, ()) for word in re.findall(r"[A-Za-z0-9_']+", part)))
                continue
            try:
                found |= {one[1] for one in typed.variables(reading.term(part, self.signature))}
            except (Unreadable, RecursionError):
                continue
        return frozenset(found)

    def _concerned(self, text: str) -> FrozenSet[str]:
        """The constants, but for the logical ones, that the theorems in a command rewrite or conclude, and those of the tactics that it uses."""
        found: Set[str] = set()
        for word in re.findall(r"[A-Za-z_][A-Za-z0-9_']*", " ".join(text.split("`")[::2])):
            found |= self.concerns.get(word, frozenset())
            found |= self.fact(word).heads if word in self.theorems else frozenset()
        return frozenset(found - _LOGICAL)

    def _add_type(self, constructor: str, abstraction: str, representation: str, first: str, second: str, theorem: str) -> None:
        """Takes a defined type, its two constants and their theorems."""
        predicate = self.theorems[theorem][1]
        wide = typed.type_of(predicate)[1]
        arguments = sorted(typed.term_types(predicate))
        narrow: Type = (constructor,) + tuple(arguments)
        self.signature.constructors[constructor] = len(arguments)
        self.signature.constants[abstraction] = fun(wide, narrow)
        self.signature.constants[representation] = fun(narrow, wide)
        abs_term, rep_term = ("c", abstraction, fun(wide, narrow)), ("c", representation, fun(narrow, wide))
        a, r = ("v", "a", narrow), ("v", "r", wide)
        self.theorems[first] = typed.mk_eq(typed.apply(abs_term, typed.apply(rep_term, a)), a)
        meets = typed.apply(predicate, r)
        self.theorems[second] = typed.mk_eq(meets, typed.mk_eq(typed.apply(rep_term, typed.apply(abs_term, r)), r))

    def fact(self, name: str) -> Fact:
        """What is found of a theorem."""
        found = self._facts.get(name)
        if found is None or found.term is not self.theorems[name]:
            found = self._facts[name] = Fact(name, self.theorems[name])
        return found

    def copy(self) -> "Scope":
        """The same, to take more."""
        other = Scope()
        other.signature = Signature(dict(self.signature.constants), dict(self.signature.constructors))
        other.functions, other.theorems, other.definitions = dict(self.functions), dict(self.theorems), dict(self.definitions)
        other.simple, other.concerns = dict(self.simple), dict(self.concerns)
        other._facts = self._facts
        return other

    def without(self, names: FrozenSet[str]) -> "Scope":
        """The same without some theorems."""
        left = Scope()
        left.signature, left.functions, left.definitions, left._facts = self.signature, self.functions, self.definitions, self._facts
        left.simple, left.concerns = self.simple, self.concerns
        left.theorems = {name: said for name, said in self.theorems.items() if name not in names}
        return left

    def keep(self, standing: FrozenSet[str]) -> None:
        """Forgets the theorems that don't stand."""
        self.theorems = {name: term for name, term in self.theorems.items() if name in standing or name in manual.PRELUDE}

    def named(self, statement: Term) -> Optional[str]:
        """A theorem that says something."""
        return next((name for name, term in self.theorems.items() if term == statement), None)

    def defining(self, terms: Sequence[Term]) -> List[str]:
        """The theorems that define constants of some terms."""
        wanted = frozenset(constant[1] for term in terms for constant in typed.constants(term))
        return [name for name, constant in self.definitions.items() if constant in wanted and name in self.theorems]


@lru_cache(None)
def _prelude() -> Dict[str, Term]:
    """The prelude's theorems."""
    return {name: reading.term(text, Signature()) for name, text in manual.PRELUDE.items()}


def _defined(statement: Term) -> Term:
    """The constant that a definition's theorem defines."""
    while True:
        bound = typed.quantified(statement)
        if not bound:
            break
        statement = bound[3]
    left = typed.binary(statement)[1]
    while left[0] == "a":
        left = left[1]
    return left


def instances(statement: Term, terms: Sequence[Term]) -> Iterator[Tuple[Dict[str, Type], Term]]:
    """A theorem at the types at which its constants stand in some terms: the types that are put in, and the statement."""
    variables = typed.term_types(statement)
    if not variables:
        yield {}, statement
        return
    present = sorted({constant for term in terms for constant in typed.constants(term)}, key=str)
    own = sorted({constant for constant in typed.constants(statement) if typed.type_variables(constant[2])}, key=_generality)
    found: Dict[str, Dict[str, Type]] = {}
    starts = [number for number, constant in enumerate(own) if constant[1] not in _LOGICAL] or [0]
    for first in starts if own else []:
        for types in _instances(own[first:] + own[:first], present):
            found.setdefault(str(sorted(types.items())), types)
    names = set(present)
    for key in [key for key, types in found.items() if not _is_there(own, types, names)]:
        if any(_is_there(own, types, names) for types in found.values()):
            del found[key]
    for types in list(found.values())[:MOST_INSTANCES] or [{}]:
        kept = {name: ty for name, ty in types.items() if ty != name}
        yield kept, typed.inst_type(statement, kept)


def _is_there(own: Sequence[Term], types: Dict[str, Type], present: Set[Term]) -> bool:
    """Whether a theorem's constants, but for the connectives, are all there at some types."""
    return all(typed.inst_type(constant, types) in present for constant in own if constant[1] not in _LOGICAL)


def _instances(own: Sequence[Term], present: Sequence[Term]) -> List[Dict[str, Type]]:
    """The types at which a theorem's constants are those that are there, the first ones first."""
    found: List[Dict[str, Type]] = [{}]
    for constant in own:
        if constant[1] in _LOGICAL and all(typed.type_variables(constant[2]) <= set(types) for types in found):
            continue
        found = [types for known in found for types in list(_matching(constant, present, known)) or [known]][:2 * MOST_INSTANCES]
    return [types for types in found if types]


def _generality(constant: Term) -> Tuple[bool, int]:
    return constant[1] in _LOGICAL, -len(typed.type_variables(constant[2]))


def _matching(constant: Term, present: Sequence[Term], known: Dict[str, Type]) -> Iterator[Dict[str, Type]]:
    """The types by which a constant is one that is there."""
    for other in present:
        if other[1] == constant[1]:
            types = dict(known)
            if typed.match_type(constant[2], other[2], types):
                yield types


