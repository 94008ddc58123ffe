"""Items, the names that stand over the prelude and a set of items, and well typed terms: Item.antt, Signature.antt and Typing.antt of hol_kernel.

An item is ("declared_type", name, arity), ("declared_constant", name, type), ("defined_constant", name, term),
("defined_type", name, to_new, from_new, predicate) or ("declared_axiom", name, statement)."""

from typing import FrozenSet, Iterable, List, Optional, Tuple

from . import prelude
from .terms import Term, Type, base_of, fun_parts, fun_type, is_instance, nameless_type, term_tyvars

Item = Tuple
Key = Tuple[str, str]  # "type", "constant" or "axiom", and a name


def new_type(name: str, predicate: Term) -> Type:
    """The type that a type definition makes: its constructor over the type variables of the predicate, in order of bytes."""
    return ("TyApp", name, tuple(("TyVar", a) for a in term_tyvars(predicate)))


def item_types(item: Item) -> List[Tuple[str, int]]:
    if item[0] == "declared_type":
        return [(item[1], item[2])]
    return [(item[1], len(term_tyvars(item[4])))] if item[0] == "defined_type" else []


def item_constants(item: Item) -> List[Tuple[str, Type]]:
    if item[0] == "declared_constant":
        return [(item[1], item[2])]
    if item[0] == "defined_constant":
        ty = nameless_type((), item[2])
        return [(item[1], ty)] if ty else []
    if item[0] == "defined_type":
        ty, new = nameless_type((), item[4]), new_type(item[1], item[4])
        parts = ty and fun_parts(ty)
        return [(item[2], fun_type(parts[0], new)), (item[3], fun_type(new, parts[0]))] if parts else []
    return []


def item_keys(item: Item) -> List[Key]:
    kind = {"declared_type": "type", "defined_type": "type", "declared_axiom": "axiom"}.get(item[0], "constant")
    return [(kind, item[1])] + ([("constant", item[2]), ("constant", item[3])] if item[0] == "defined_type" else [])


def prelude_has(key: Key) -> bool:
    return key[1] in {"type": prelude.TYPES, "constant": prelude.CONSTANTS, "axiom": prelude.AXIOMS}[key[0]]


class Basis:
    """A set of items, with what stands over the prelude and it."""

    def __init__(self, items: Iterable[Item]):
        self.items: FrozenSet[Item] = frozenset(items)
        self.arities = {*prelude.TYPES.items(), *(made for item in self.items for made in item_types(item))}
        self.generic = [*prelude.CONSTANTS.items(), *(made for item in self.items for made in item_constants(item))]
        self.keys = {key for item in self.items for key in item_keys(item)}

    def is_new(self, key: Key) -> bool:
        return not prelude_has(key) and key not in self.keys

    def has_constant(self, name: str, ty: Type) -> bool:
        return any(name == known and is_instance(generic, ty) for known, generic in self.generic)

    def is_type(self, ty: Type) -> bool:
        return ty[0] == "TyVar" or (ty[1], len(ty[2])) in self.arities and all(map(self.is_type, ty[2]))

    def is_known(self, term: Term) -> bool:
        if term[0] == "free":
            return self.is_type(term[2])
        if term[0] == "fixed":
            return self.is_type(term[2]) and self.has_constant(term[1], term[2])
        if term[0] == "app":
            return self.is_known(term[1]) and self.is_known(term[2])
        return term[0] == "bound" or base_of(term[1]) == term[1] and self.is_type(term[2]) and self.is_known(term[3])

    def type_over(self, term: Term) -> Optional[Type]:
        """The type of a term that is well typed over the prelude and these items."""
        return nameless_type((), term) if self.is_known(term) else None
