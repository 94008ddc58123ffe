"""Types of what is read: equations between types, solved by unification (J. A. Robinson, 1965)."""

import functools

from model.refusals import Refusal
from model.terms import BINARY, BOOL, PRELUDE_CONSTANTS, base, fun, type_variables


class Untypable(Exception):
    """There are no types by which the term is one."""


class Open:
    """A type that is to be found; `found` once it is."""

    def __init__(self):
        self.found = None


def seen(ty):
    while isinstance(ty, Open) and ty.found is not None:
        ty = ty.found
    return ty


def occurs(variable, ty):
    ty = seen(ty)
    return ty is variable or not isinstance(ty, Open) and ty[0] == "type" and any(occurs(variable, part) for part in ty[2])


def unify(left, right):
    left, right = seen(left), seen(right)
    if left is right:
        return
    if isinstance(right, Open) and not isinstance(left, Open):
        left, right = right, left
    if isinstance(left, Open):
        if occurs(left, right):
            raise Untypable
        left.found = right
    elif left[0] == "variable" or right[0] == "variable":
        if left != right:
            raise Untypable
    elif left[1] != right[1] or len(left[2]) != len(right[2]):
        raise Untypable
    else:
        for pair in zip(left[2], right[2]):
            unify(*pair)


def type_read(written, types):
    """The type that is written, where constructors stand with so many arguments each."""
    name, parts = written[1], written[2] if written[0] == "apply" else []
    if written[0] == "name" and name not in types:
        return ("variable", name)
    if types.get(name) != len(parts):
        raise Refusal(9)
    return ("type", name, tuple(type_read(part, types) for part in parts))


def opened(ty, variables):
    if ty[0] == "variable":
        return variables.setdefault(ty[1], Open())
    return ("type", ty[1], tuple(opened(part, variables) for part in ty[2])) if type_variables(ty) else ty


@functools.lru_cache(maxsize=10_000)
def is_closed(ty):
    """Whether nothing in a type is to be found."""
    return not isinstance(ty, Open) and (ty[0] == "variable" or all(map(is_closed, ty[2])))


# ---- what is written in a quotation


def body_of(quotation):
    """The term that a quotation or a definition has."""
    body = quotation[5] if quotation[0] == "definition" else quotation[2]
    return body[1] if body[0] == "truth" else body


def types_written_in(term):
    """The types in a term, from left to right."""
    if term[0] == "apply":
        return types_written_in(term[1]) + types_written_in(term[2])
    if term[0] == "lambda":
        return [term[2]] * (term[2] is not None) + types_written_in(term[3])
    return types_written_in(term[1]) + [term[2]] if term[0] == "typed" else []


def types_written(quotation):
    """The types that a quotation has, from left to right."""
    if quotation[0] == "of type":
        return [quotation[2]]
    before = [ty for _, ty in quotation[3]] + [quotation[4]] if quotation[0] == "definition" else []
    return [ty for ty in before if ty] + types_written_in(body_of(quotation))


def constructors_written(ty):
    return {ty[1]}.union(*map(constructors_written, ty[2] if ty[0] == "apply" else []))


def names_written(term):
    """The names in a term, those that are bound too."""
    if term[0] == "apply":
        return names_written(term[1]) | names_written(term[2])
    if term[0] == "lambda":
        return {term[1]} | names_written(term[3])
    return {term[1]} if term[0] == "name" else names_written(term[1]) if term[0] == "typed" else set()


# ---- readings


class Reading:
    """A term is read where constants stand, by their generic types, and constructors of types. `hidden` is a name that is no constant's, though one may stand."""

    def __init__(self, constants, types, hidden=None):
        self.constants, self.types, self.hidden, self.free, self.names = constants, types, hidden, {}, {}

    def of(self, quotation):
        """The term, with its open types called ?0, ?1, .. as they occur."""
        read = self.definition(*quotation[2:]) if quotation[0] == "definition" else self.read(quotation[2], ())
        return self.closed(read[0])

    def read(self, written, scope):
        """The term and its type, with these variables bound around it, the innermost first."""
        kind = written[0]
        if kind == "name":
            return self.occurrence(written[1], scope)
        if kind == "sign":
            ty = BINARY if written[1] == "<=>" else opened(PRELUDE_CONSTANTS[written[1]], {})
            return ("constant", "=" if written[1] == "<=>" else written[1], ty), ty
        if kind == "apply":
            (function, whole), (argument, domain), codomain = self.read(written[1], scope), self.read(written[2], scope), Open()
            unify(whole, fun(domain, codomain))
            return ("comb", function, argument), codomain
        if kind == "lambda":
            ty = self.type_or_open(written[2])
            body, codomain = self.read(written[3], ((written[1], ty), *scope))
            return ("lambda", base(written[1]), ty, body), fun(ty, codomain)
        term, ty = self.read(written[1], scope)
        unify(ty, BOOL if kind == "truth" else type_read(written[2], self.types))
        return term, ty

    def type_or_open(self, written):
        return Open() if written is None else type_read(written, self.types)

    def occurrence(self, name, scope):
        """The innermost bound variable of the name, else the constant, else the free variable."""
        for index, (bound, ty) in enumerate(scope):
            if bound == name:
                return ("bound", index, ty), ty
        if name in self.constants and name != self.hidden:
            ty = opened(self.constants[name], {})
            return ("constant", name, ty), ty
        ty = self.free.setdefault(name, Open())
        return ("free", name, ty), ty

    def definition(self, constant, parameters, annotation, right):
        r"""The equation `constant = \parameters. right`, with the constant a free variable."""
        whole = self.free.setdefault(constant, Open())
        typed = [(name, self.type_or_open(ty)) for name, ty in parameters]
        term, ty = self.read(right, tuple(reversed(typed)))
        if annotation is not None:
            unify(ty, type_read(annotation, self.types))
        for name, domain in reversed(typed):
            term, ty = ("lambda", base(name), domain, term), fun(domain, ty)
        unify(whole, ty)
        return ("comb", ("comb", ("constant", "=", fun(whole, fun(whole, BOOL))), ("free", constant, whole)), term), BOOL

    def closed_type(self, ty):
        ty = seen(ty)
        if isinstance(ty, Open):
            return self.names.setdefault(ty, ("variable", f"?{len(self.names)}"))
        return ty if is_closed(ty) else ("type", ty[1], tuple([self.closed_type(part) for part in ty[2]]))

    def closed(self, term):
        if term[0] == "comb":
            function = self.closed(term[1])
            return ("comb", function, self.closed(term[2]))
        if term[0] == "lambda":
            ty = self.closed_type(term[2])
            return ("lambda", term[1], ty, self.closed(term[3]))
        return (term[0], term[1], self.closed_type(term[2]))
