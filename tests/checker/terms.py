"""Types and nameless terms, from the definitions of hol_types, hol_terms, hol_subst and hol_formulas in docs/DEFINITIONS.md.

A type is ("TyVar", name) or ("TyApp", constructor, types). A nameless term is ("free", name, type), ("bound", index), ("fixed", name, type),
("app", function, argument) or ("lam", base, type, body). Names are texts of ASCII, of which the order is that of bytes. What the definitions call a list of
pairs is a tuple of (what is put, what it stands for), of which the first counts. Functions have the definitions' names."""

from typing import Dict, Iterator, List, Optional, Tuple

Type = Tuple
Term = Tuple
Variable = Tuple[str, Type]


# ---- types (Tree, Fun, Subst, Match, Names)


def fun_type(domain: Type, codomain: Type) -> Type:
    return ("TyApp", "fun", (domain, codomain))


def fun_parts(ty: Type) -> Optional[Tuple[Type, Type]]:
    return ty[2] if ty[0] == "TyApp" and ty[1] == "fun" and len(ty[2]) == 2 else None


def type_subst(pairs: Tuple, ty: Type) -> Type:
    if ty[0] == "TyVar":
        return next((new for new, name in pairs if name == ty[1]), ty)
    return ("TyApp", ty[1], tuple(type_subst(pairs, part) for part in ty[2]))


def match_type(pattern: Type, found: Dict[str, Type], ty: Type) -> bool:
    """Whether what was found and more makes the pattern the type; what is found is added."""
    if pattern[0] == "TyVar":
        return found.setdefault(pattern[1], ty) == ty
    same = ty[0] == "TyApp" and ty[1] == pattern[1] and len(ty[2]) == len(pattern[2])
    return same and all(match_type(part, found, other) for part, other in zip(pattern[2], ty[2]))


def is_instance(generic: Type, ty: Type) -> bool:
    return match_type(generic, {}, ty)


def type_names(ty: Type) -> Iterator[str]:
    if ty[0] == "TyVar":
        yield ty[1]
    else:
        for part in ty[2]:
            yield from type_names(part)


def tyvars(ty: Type) -> List[str]:
    return sorted(set(type_names(ty)))


# ---- nameless terms (Nameless, Alpha)


def base_of(name: str) -> str:
    return name.rstrip("'")


def free_occurrences(term: Term) -> Iterator[Variable]:
    if term[0] == "free":
        yield term[1:]
    elif term[0] == "app":
        yield from free_occurrences(term[1])
        yield from free_occurrences(term[2])
    elif term[0] == "lam":
        yield from free_occurrences(term[3])


def nameless_type(env: Tuple, term: Term) -> Optional[Type]:
    """The type under binders of these types, the innermost first, if each application fits."""
    if term[0] in ("free", "fixed"):
        return term[2]
    if term[0] == "bound":
        return env[term[1]] if term[1] < len(env) else None
    if term[0] == "lam":
        body = nameless_type((term[2],) + env, term[3])
        return body and fun_type(term[2], body)
    function, argument = nameless_type(env, term[1]), nameless_type(env, term[2])
    parts = function and argument and fun_parts(function)
    return parts[1] if parts and parts[0] == argument else None


def strip(term: Term) -> Term:
    if term[0] == "app":
        return ("app", strip(term[1]), strip(term[2]))
    return ("lam", "", term[2], strip(term[3])) if term[0] == "lam" else term


def type_names_in(term: Term) -> Iterator[str]:
    if term[0] in ("free", "fixed"):
        yield from type_names(term[2])
    elif term[0] == "app":
        yield from type_names_in(term[1])
        yield from type_names_in(term[2])
    elif term[0] == "lam":
        yield from type_names(term[2])
        yield from type_names_in(term[3])


def term_tyvars(term: Term) -> List[str]:
    return sorted(set(type_names_in(term)))


# ---- indices and substitution (Shift, Closing, Substitution)


def shift(more: int, passed: int, term: Term) -> Term:
    if term[0] == "bound":
        return term if term[1] < passed else ("bound", term[1] + more)
    if term[0] == "app":
        return ("app", shift(more, passed, term[1]), shift(more, passed, term[2]))
    return ("lam", term[1], term[2], shift(more, passed + 1, term[3])) if term[0] == "lam" else term


def close(variable: Variable, passed: int, term: Term) -> Term:
    if term[0] == "free":
        return ("bound", passed) if term[1:] == variable else term
    if term[0] == "bound":
        return term if term[1] < passed else ("bound", term[1] + 1)
    if term[0] == "app":
        return ("app", close(variable, passed, term[1]), close(variable, passed, term[2]))
    return ("lam", term[1], term[2], close(variable, passed + 1, term[3])) if term[0] == "lam" else term


def open_with(put: Term, passed: int, term: Term) -> Term:
    if term[0] == "bound":
        if term[1] == passed:
            return shift(passed, 0, put)
        return term if term[1] < passed else ("bound", term[1] - 1)
    if term[0] == "app":
        return ("app", open_with(put, passed, term[1]), open_with(put, passed, term[2]))
    return ("lam", term[1], term[2], open_with(put, passed + 1, term[3])) if term[0] == "lam" else term


def bind(variable: Variable, term: Term) -> Term:
    return ("lam", base_of(variable[0]), variable[1], close(variable, 0, term))


def term_subst(pairs: Tuple, passed: int, term: Term) -> Term:
    if term[0] == "free":
        return shift(passed, 0, next((new for new, variable in pairs if variable == term[1:]), term))
    if term[0] == "app":
        return ("app", term_subst(pairs, passed, term[1]), term_subst(pairs, passed, term[2]))
    return ("lam", term[1], term[2], term_subst(pairs, passed + 1, term[3])) if term[0] == "lam" else term


def types_inst(pairs: Tuple, term: Term) -> Term:
    if term[0] in ("free", "fixed"):
        return (term[0], term[1], type_subst(pairs, term[2]))
    if term[0] == "app":
        return ("app", types_inst(pairs, term[1]), types_inst(pairs, term[2]))
    return ("lam", term[1], type_subst(pairs, term[2]), types_inst(pairs, term[3])) if term[0] == "lam" else term


# ---- equations (Equation, Bijections)

BOOL: Type = ("TyApp", "bool", ())


def equality_type(ty: Type) -> Type:
    return fun_type(ty, fun_type(ty, BOOL))


def equation(ty: Type, left: Term, right: Term) -> Term:
    return ("app", ("app", ("fixed", "=", equality_type(ty)), left), right)


def sides(term: Term) -> Optional[Tuple[Type, Term, Term]]:
    """The type and the sides of which the term is the equation."""
    if term[0] == "app" and term[1][0] == "app" and term[1][1][:2] == ("fixed", "="):
        domain = fun_parts(term[1][1][2])
        if domain and term[1][1][2] == equality_type(domain[0]):
            return domain[0], term[1][2], term[2]
    return None


def abs_rep(to_new: str, from_new: str, old: Type, new: Type) -> Term:
    """abs (rep a) = a"""
    a = ("free", "a", new)
    there, back = ("fixed", to_new, fun_type(old, new)), ("fixed", from_new, fun_type(new, old))
    return equation(new, ("app", there, ("app", back, a)), a)


def rep_abs(to_new: str, from_new: str, predicate: Term, old: Type, new: Type) -> Term:
    """P r = (rep (abs r) = r)"""
    r = ("free", "r", old)
    there, back = ("fixed", to_new, fun_type(old, new)), ("fixed", from_new, fun_type(new, old))
    return equation(BOOL, ("app", predicate, r), equation(old, ("app", back, ("app", there, r)), r))
