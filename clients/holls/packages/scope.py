"""What stands before a package: constants with their types, constructors of types, theorems' statements, inductive types and relations.

All of it comes from texts: the program is asked for nothing. A constant's type is found when it is asked for.
"""

from __future__ import annotations

from dataclasses import dataclass, field
from typing import Any, Callable, Dict, Iterable, List, Mapping, Optional, Sequence, Set, Tuple, Union

from holls.manual import PRELUDE
from holls.packages import terms
from holls.packages.inference import Inference, check_depth, namer, type_of, typed
from holls.packages.terms import BOOL, LOGIC, NUM, Term, Type, fun, solved, unify
from holls.surface import definition
from holls.surface.errors import Misread
from holls.surface.reader import Reader
from holls.surface.table import EMPTY
from holls.surface.vocabulary import PRELUDE_TYPES

INDUCT, SPLIT = "_INDUCT", "_SPLIT"
"""So end the names of a type's theorems about predicates."""
_LONGEST_CHAIN = 5_000
"""So many definitions may hang on one another."""


@dataclass(frozen=True)
class Constructor:
    """A constructor: its arguments' types, what they are called, and which of them are the type itself ("r"), lists of it ("l"), or neither ("x")."""

    name: str
    types: Tuple[Type, ...]
    kinds: str
    hints: Tuple[Optional[str], ...] = ()


@dataclass(frozen=True)
class Data:
    """An inductive type, and the names of its theorems.

    `induct` is of the form `.. ==> (!) P`, and so is `split`, without hypotheses: these two stand of the types of theories/, and of others where they
    are needed (predicates.py). `case` is the constant of cases, and `case_theorem` its equations; `recursion` is `!f0 .. ?fn. ..` with a `result` type.
    `size` is a constant, None where the element itself is its size, and "" where there is none; by `less` a part is smaller.
    """

    name: str
    parameters: Tuple[str, ...]
    constructors: Tuple[Constructor, ...]
    induct: str
    split: str
    case: str
    case_theorem: str
    recursion: str
    result: str
    size: Optional[str]
    less: Optional[str] = None
    is_of_library: bool = False

    @property
    def type(self) -> Type:
        """The type with its parameters."""
        return (self.name,) + self.parameters

    @property
    def induction(self) -> str:
        """The theorem of induction of a type that a package makes, in HOL Light's form."""
        return self.name + "_INDUCTION"

    @property
    def is_recursive(self) -> bool:
        """Whether an element has others of the type, or lists of them."""
        return any(kind in one.kinds for one in self.constructors for kind in "rl")

    def constructor(self, name: str) -> Optional[Constructor]:
        """A constructor by its name."""
        return next((one for one in self.constructors if one.name == name), None)


def _library() -> Dict[str, Data]:
    list_, con = ("list", "A"), Constructor

    def data(name: str, parameters: str, constructors: Sequence[Constructor], induct: str, case: str, recursion: str, result: str,
             size: Optional[str] = "", less: Optional[str] = None, case_theorem: str = "") -> Data:
        return Data(name, tuple(parameters), tuple(constructors), induct, name + "_SPLIT", case, case_theorem or case, recursion, result, size, less, True)

    every = (
        data("num", "", [con("_0", (), ""), con("SUC", (NUM,), "r", ("n",))], "NUM_INDUCT", "num_CASE", "num_RECURSION_STD", "A", None, "num_LESS"),
        data("list", "A", [con("NIL", (), ""), con("CONS", ("A", list_), "xr", ("h", "t"))], "LIST_INDUCT", "list_CASE", "list_RECURSION", "B",
             "LENGTH", "list_LESS"),
        data("option", "A", [con("NONE", (), ""), con("SOME", ("A",), "x", ("a",))], "option_SPLIT", "option_CASE", "option_RECURSION", "Z"),
        data("prod", "AB", [con("pair", ("A", "B"), "xx", ("x", "y"))], "prod_SPLIT", "UNCURRY", "pair_RECURSION", "Z", case_theorem="UNCURRY_DEF"),
        data("sum", "AB", [con("INL", ("A",), "x", ("a",)), con("INR", ("B",), "x", ("b",))], "sum_SPLIT", "sum_CASE", "sum_RECURSION", "Z"),
        data("bool", "", [con("T", (), ""), con("F", (), "")], "bool_SPLIT", "bool_CASE", "bool_RECURSION", "Z"),
        data("one", "", [con("one", (), "")], "one_SPLIT", "one_CASE", "one_RECURSION", "Z"))
    return {one.name: one for one in every}


LIBRARY = _library()
"""The inductive types of theories/."""
_STEPS = ("e", "b", "r")
BASE = "pk_CHOSEN"
"""A theorem of the theory on which packages rest."""
THEORY = "packages"


@dataclass(frozen=True)
class Relation:
    """An inductive relation: the name of the theorems', its parameters, those defined with it, and the number of its rules."""

    name: str
    parameters: Tuple[Term, ...]
    group: Tuple[str, ...]
    rules: int


class _Needs(Exception):
    """The type of another constant, or a constructor's arity, has to be found first."""

    def __init__(self, key: Tuple[str, str]) -> None:
        super().__init__(key)
        self.key = key


class Unknown(Exception):
    """What a text says can't be found, since it can't be read."""


@dataclass(frozen=True)
class _Open:
    """What a text says that isn't found yet. It is found once, where `owner` has it: all files that import that one have the same."""

    owner: "Standing" = field(compare=False, repr=False)


@dataclass(frozen=True)
class _Definition(_Open):
    """The text of a definition, by which its constant has a type."""

    text: str


@dataclass(frozen=True)
class _Typed(_Open):
    """The text of a constant's type."""

    text: str


@dataclass(frozen=True)
class _OfType(_Open):
    """A constant of a type definition, or the type itself, by the theorem that something is in it."""

    type: str
    theorem: str
    is_abstraction: Optional[bool]


@dataclass(eq=False)
class Standing:
    """What stands at a place. Dictionaries are of what was made in this file and those that it imports."""

    constants: Dict[str, Any] = field(default_factory=dict)
    arities: Dict[str, Any] = field(default_factory=dict)
    theorems: Dict[str, Any] = field(default_factory=dict)
    data: Dict[str, Data] = field(default_factory=dict)
    relations: Dict[str, Relation] = field(default_factory=dict)
    lists: Dict[str, Tuple[str, ...]] = field(default_factory=dict)
    simple: Dict[str, None] = field(default_factory=dict)
    functions: Set[str] = field(default_factory=set)
    definitions: Dict[str, str] = field(default_factory=dict)
    open: Optional[Tuple[str, str]] = None
    steps: List[str] = field(default_factory=list)

    @staticmethod
    def over(imported: Iterable["Standing"]) -> "Standing":
        """What stands where these have been imported."""
        made = Standing()
        for other in imported:
            for key in ("constants", "arities", "theorems", "data", "relations", "lists", "simple", "definitions"):
                getattr(made, key).update(getattr(other, key))
            made.functions |= other.functions
        return made

    def add(self, made: "Standing") -> None:
        """Takes what a package makes."""
        for key in ("constants", "arities", "theorems", "data", "relations", "lists"):
            getattr(self, key).update(getattr(made, key))
        self.open = None

    def take(self, text: str) -> None:
        """Takes what a plain command makes, by its text."""
        word = next(iter(text.split(None, 1)), "")
        if word in _STEPS:
            self.steps.append(text)
            return
        parts = text.split("`")
        names = parts[0].split()[1:]
        name = names[0] if names else ""
        quoted = parts[1] if len(parts) > 1 else ""
        if word == "g":
            self.open, self.steps = (name, quoted), []
        elif word == "qed" and self.open:
            self.theorems.setdefault(*self.open)
        elif word == "new_axiom" and name:
            self.theorems.setdefault(name, quoted)
        elif word == "new_definition":
            self._define(name, quoted)
        elif word == "new_constant" and name:
            self.constants.setdefault(name, _Typed(self, quoted))
        elif word == "new_type" and len(names) == 2 and names[1].isdecimal():
            self.arities.setdefault(name, int(names[1][:4]))
        elif word == "new_basic_type_definition" and len(names) == 6:
            self._define_type(names)
        elif word == "deftac":
            self.functions.add(name)
        if word in ("qed", "oops"):
            self.open = None

    def _define(self, theorem: str, quoted: str) -> None:
        head = quoted.split(None, 1)
        name = head[0].split(":")[0].split("=")[0] if head else ""
        self.constants.setdefault(name, _Definition(self, quoted))
        self.definitions.setdefault(name, quoted)
        self.theorems.setdefault(theorem, ("definition", name))

    def _define_type(self, names: List[str]) -> None:
        type_, abstraction, representation, first, second, theorem = names
        self.arities.setdefault(type_, _OfType(self, type_, theorem, None))
        self.constants.setdefault(abstraction, _OfType(self, type_, theorem, True))
        self.constants.setdefault(representation, _OfType(self, type_, theorem, False))
        for name in (first, second):
            self.theorems.setdefault(name, None)

    # ---- What is asked

    def type_of(self, name: str) -> Optional[Type]:
        """A constant's most general type; None where it doesn't stand, or its text can't be read."""
        return self._found(("constant", name))

    def arity_of(self, name: str) -> Optional[int]:
        """How many arguments a constructor of types takes; None where none of that name stands."""
        return self._found(("arity", name))

    def _kept(self, key: Tuple[str, str]) -> Any:
        kind, name = key
        if kind == "constant":
            return LOGIC[name] if name in LOGIC else self.constants.get(name)
        return PRELUDE_TYPES[name] if name in PRELUDE_TYPES else self.arities.get(name)

    def _found(self, key: Tuple[str, str]) -> Any:
        """What is kept under a key, found by its text where it isn't known yet: those that it needs first, and each where it was made."""
        if not isinstance(self._kept(key), _Open):
            return self._kept(key)
        waiting: List[Tuple[Standing, Tuple[str, str]]] = [(self, key)]
        while waiting:
            standing, (kind, name) = waiting[-1]
            made = kept = standing._kept((kind, name))
            if isinstance(kept, _Open):
                needed, made = standing._one(kept, (kind, name))
                if needed is not None and len(waiting) <= _LONGEST_CHAIN and not any(one is needed[0] and other == needed[1] for one, other in waiting):
                    waiting.append(needed)
                    continue
            (standing.constants if kind == "constant" else standing.arities)[name] = made
            waiting.pop()
        return self._kept(key)

    def _one(self, kept: _Open, key: Tuple[str, str]) -> Tuple[Optional[Tuple["Standing", Tuple[str, str]]], Any]:
        """What has to be found first, and where, or else what is found."""
        if kept.owner is not self:
            made = kept.owner._kept(key)
            return ((kept.owner, key), None) if isinstance(made, _Open) else (None, made)
        try:
            return None, self._solve(kept)
        except _Needs as need:
            return (self, need.key), None
        except (Misread, RecursionError):
            return None, None

    def _solve(self, kept: Any) -> Any:
        inside = _Inside(self)
        if isinstance(kept, _Definition):
            return _defined_type(kept.text, inside)
        if isinstance(kept, _OfType):
            return self._of_type(kept, inside)
        reader = Reader(kept.text.strip().lstrip(":"), EMPTY, None)
        return Inference(inside).type(check_depth(reader.ended(reader.read_type())))

    def _of_type(self, kept: _OfType, inside: "_Inside") -> Any:
        statement = self.theorems.get(kept.theorem)
        if not isinstance(statement, str):
            return None
        reader = Reader(statement.strip(), EMPTY, None)
        term, _ = typed(reader.ended(reader.term()), inside, BOOL)
        if term[0] != "@":
            return None
        parameters = sorted(terms.term_tyvars(term[1]))
        if kept.is_abstraction is None:
            return len(parameters)
        made, old = (kept.type,) + tuple(parameters), terms.typeof(term[2])
        return fun(old, made) if kept.is_abstraction else fun(made, old)

    def statement(self, name: str) -> Optional[Term]:
        """A theorem's statement; None where it doesn't stand or isn't known by its text."""
        kept = self.theorems.get(name, PRELUDE.get(name))
        if isinstance(kept, str):
            try:
                reader = Reader(kept.strip(), EMPTY, None)
                kept = typed(reader.ended(reader.term()), self, BOOL)[0]
            except (Misread, RecursionError):
                kept = None
            self.theorems[name] = kept
        if isinstance(kept, tuple) and kept[0] == "definition":
            return self._definition(kept[1])
        return kept if isinstance(kept, tuple) else None

    def _definition(self, name: str) -> Optional[Term]:
        """What the definition of a constant says."""
        if name not in self.definitions or self.type_of(name) is None:
            return None
        try:
            return _said(self.definitions[name], name, self)
        except (Misread, RecursionError):
            return None

    def constructor(self, name: str) -> Optional[Tuple[Data, Constructor]]:
        """The constructor of an inductive type."""
        for one in (*self.data.values(), *(LIBRARY.values() if self.has_base else ())):
            found = one.constructor(name)
            if found and self.type_of(name) is not None:
                return one, found
        return None

    def data_of(self, name: str) -> Optional[Data]:
        """An inductive type."""
        return self.data.get(name) or (LIBRARY.get(name) if self.has_base else None)

    @property
    def has_base(self) -> bool:
        """Whether the theory on which packages rest stands."""
        return BASE in self.theorems


class _Inside:
    """What inference asks while a type is found: where another one has to be found first it ends."""

    def __init__(self, standing: Standing) -> None:
        self.standing = standing

    def type_of(self, name: str) -> Optional[Type]:
        return self._now(("constant", name))

    def arity_of(self, name: str) -> Optional[int]:
        return self._now(("arity", name))

    def _now(self, key: Tuple[str, str]) -> Any:
        kept = self.standing._kept(key)
        if isinstance(kept, _Open):
            raise _Needs(key)
        return kept


def _defined_type(text: str, inside: _Inside) -> Type:
    """The type of the constant that a definition defines."""
    defined = definition.read(Reader(text.strip(), EMPTY, None))
    check_depth(defined.body)
    inference = Inference(inside)
    bound = {one.name: inference.type(one.type) if one.type else terms.Meta() for one in defined.arguments}
    result = inference.type(defined.type) if defined.type else terms.Meta()
    body = inference.term(defined.body, bound)
    unify(result, type_of(body))
    if defined.symbol == "<=>":
        unify(result, BOOL)
    return solved(fun(*bound.values(), result), namer(defined.body, inside))


def _said(text: str, name: str, standing: Standing) -> Term:
    """The theorem of a definition."""
    defined = definition.read(Reader(text.strip(), EMPTY, None))
    check_depth(defined.body)
    inference = Inference(standing)
    bound = {one.name: inference.type(one.type) if one.type else terms.Meta() for one in defined.arguments}
    body = inference.term(defined.body, bound)
    general = standing.type_of(name)
    unify(fun(*bound.values(), type_of(body)), general)
    named = namer(defined.body, standing)
    closed = inference.closed(body, named)
    arguments = [terms.var(one, solved(type_, named)) for one, type_ in bound.items()]
    return terms.forall(arguments, terms.eq(terms.app(terms.const(name, general), *arguments), closed))


class Asking:
    """What stands at a place, for one expansion, with what it makes itself: all that it was asked is kept, with the answers."""

    def __init__(self, standing: Standing) -> None:
        self.standing = standing
        self.answers: Dict[Tuple[str, str], Any] = {}
        self.own = Standing()

    def _asked(self, kind: str, name: str, answer: Any) -> Any:
        self.answers[(kind, name)] = answer
        return answer

    def type_of(self, name: str) -> Optional[Type]:
        """A constant's most general type."""
        if name in self.own.constants:
            return self.own.constants[name]
        return self._asked("type_of", name, self.standing.type_of(name))

    def arity_of(self, name: str) -> Optional[int]:
        """How many arguments a constructor of types takes."""
        if name in self.own.arities:
            return self.own.arities[name]
        return self._asked("arity_of", name, self.standing.arity_of(name))

    def statement(self, name: str) -> Optional[Term]:
        """A theorem's statement."""
        return self._asked("statement", name, self.standing.statement(name))

    def data_of(self, name: str) -> Optional[Data]:
        """An inductive type."""
        return self.own.data.get(name) or self._asked("data_of", name, self.standing.data_of(name))

    def constructor(self, name: str) -> Optional[Tuple[Data, Constructor]]:
        """A constructor of an inductive type."""
        own = next(((one, one.constructor(name)) for one in self.own.data.values() if one.constructor(name)), None)
        return own or self._asked("constructor", name, self.standing.constructor(name))

    def relation(self, name: str) -> Optional[Relation]:
        """An inductive relation."""
        return self._asked("relation", name, self.standing.relations.get(name))

    def list_of(self, name: str) -> Optional[Tuple[str, ...]]:
        """A list of theorems."""
        return self._asked("list_of", name, self.standing.lists.get(name))

    @property
    def has_base(self) -> bool:
        """Whether the theory on which packages rest stands."""
        return self.is_theorem(BASE)

    def is_theorem(self, name: str) -> bool:
        """Whether a theorem of this name stands, or a name of a theorem is given away."""
        return name in PRELUDE or self._asked("is_theorem", name, name in self.standing.theorems)

    def is_constant(self, name: str) -> bool:
        """Whether a constant of this name stands."""
        return name in LOGIC or name in self.own.constants or self._asked("is_constant", name, name in self.standing.constants)

    def fresh(self, base: str, taken: Set[str]) -> str:
        """A name that is no constant's and isn't taken, with primes; it is taken then."""
        while base in taken or self.is_constant(base):
            base += "'"
        taken.add(base)
        return base

    def general(self, name: str) -> Type:
        """The type of a constant that stands."""
        found = self.type_of(name)
        if found is None:
            raise Misread(0, 1, "the constant `%s` doesn't stand here: import the theory that defines it" % name)
        return found


def agrees(standing: Standing, answers: Mapping[Tuple[str, str], Any]) -> bool:
    """Whether a place gives these answers."""
    asking = Asking(standing)
    return all(_ask(asking, kind)(name) == answer for (kind, name), answer in answers.items())


def _ask(asking: Asking, kind: str) -> Callable[[str], Any]:
    return getattr(asking, kind)


Answer = Union[Type, int, None]
