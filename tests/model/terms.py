"""Types and terms.

A type is ("variable", name) or ("type", constructor, arguments). A term is ("free", name, type), ("bound", index, type), ("constant", name, type),
("comb", function, argument) or ("lambda", name, type, body): an index counts the lambdas inward of the one that binds it (N. G. de Bruijn, 1972), and the name of a
lambda is that which is written, without its primes."""

import functools

BOOL = ("type", "bool", ())


def fun(domain, codomain):
    return ("type", "fun", (domain, codomain))


BINARY = fun(BOOL, fun(BOOL, BOOL))
A, B = ("variable", "A"), ("variable", "B")
QUANTIFIER = fun(fun(A, BOOL), BOOL)
PRELUDE_TYPES = {"bool": 0, "fun": 2, "ind": 0}
PRELUDE_CONSTANTS = {"=": fun(A, fun(A, BOOL)), "@": fun(fun(A, BOOL), A), "T": BOOL, "F": BOOL, "/\\": BINARY, "\\/": BINARY, "==>": BINARY, "~": fun(BOOL, BOOL)}
PRELUDE_CONSTANTS.update({"!": QUANTIFIER, "?": QUANTIFIER, "?!": QUANTIFIER, "ONE_ONE": fun(fun(A, B), BOOL), "ONTO": fun(fun(A, B), BOOL)})
TRUE, FALSE = ("constant", "T", BOOL), ("constant", "F", BOOL)


@functools.lru_cache(maxsize=None)
def type_size(ty):
    return 1 if ty[0] == "variable" else 1 + sum(map(type_size, ty[2]))


def leaves(term):
    """The variables and constants of a term, bound ones too, and its lambdas, in some order."""
    todo = [term]
    while todo:
        term = todo.pop()
        if term[0] == "comb":
            todo += term[1:]
        else:
            yield term
            if term[0] == "lambda":
                todo.append(term[3])


@functools.lru_cache(maxsize=10_000)
def size(term):
    """The nodes of a term and of the types in it."""
    found, todo = 0, [term]
    while todo:
        term = todo.pop()
        found += 1
        if term[0] == "comb":
            todo += term[1:]
        else:
            found += type_size(term[2])
            if term[0] == "lambda":
                todo.append(term[3])
    return found


def type_of(term):
    if term[0] == "comb":
        return type_of(term[1])[2][1]
    return fun(term[2], type_of(term[3])) if term[0] == "lambda" else term[2]


def nameless(term):
    """The term without the names of its bound variables: what is equal up to these is equal here."""
    if term[0] == "comb":
        return ("comb", nameless(term[1]), nameless(term[2]))
    return ("lambda", "", term[2], nameless(term[3])) if term[0] == "lambda" else term


def aconv(left, right):
    return left == right or nameless(left) == nameless(right)


def base(name):
    return name.rstrip("'")


def lifted(term, more, depth=0):
    """A term under so many lambdas more than it stood under."""
    if term[0] == "bound":
        return ("bound", term[1] + more, term[2]) if term[1] >= depth else term
    if term[0] == "comb":
        return ("comb", lifted(term[1], more, depth), lifted(term[2], more, depth))
    return ("lambda", term[1], term[2], lifted(term[3], more, depth + 1)) if term[0] == "lambda" else term


def body_at(function, argument):
    """The body of a lambda with a term for its variable."""

    def put(term, depth):
        if term[0] == "bound":
            return lifted(argument, depth) if term[1] == depth else ("bound", term[1] - 1, term[2]) if term[1] > depth else term
        if term[0] == "comb":
            return ("comb", put(term[1], depth), put(term[2], depth))
        return ("lambda", term[1], term[2], put(term[3], depth + 1)) if term[0] == "lambda" else term

    return put(function[3], 0)


def with_put(term, part, put, depth=0):
    """The term with `put` of the lambdas around it for each occurrence of a part, which is found up to names of bound variables."""
    if nameless(term) == nameless(part):
        return put(depth)
    if term[0] == "comb":
        return ("comb", with_put(term[1], part, put, depth), with_put(term[2], part, put, depth))
    return ("lambda", term[1], term[2], with_put(term[3], part, put, depth + 1)) if term[0] == "lambda" else term


def indices(term, depth=0):
    """The indices of a term that are bound outside of it."""
    if term[0] == "bound":
        return {term[1] - depth} if term[1] >= depth else set()
    if term[0] == "comb":
        return indices(term[1], depth) | indices(term[2], depth)
    return indices(term[3], depth + 1) if term[0] == "lambda" else set()


def free_variables(*terms):
    return {leaf for term in terms for leaf in leaves(term) if leaf[0] == "free"}


def constants_in(term):
    return {leaf[1] for leaf in leaves(term) if leaf[0] == "constant"}


def names_in(*terms):
    """The names of free variables and of constants."""
    return {leaf[1] for term in terms for leaf in leaves(term) if leaf[0] in ("free", "constant")}


def type_put(types, ty):
    """The type with these types for variables, by their names."""
    return types.get(ty[1], ty) if ty[0] == "variable" else ("type", ty[1], tuple(type_put(types, part) for part in ty[2]))


def types_put(types, term):
    if term[0] == "comb":
        return ("comb", types_put(types, term[1]), types_put(types, term[2]))
    if term[0] == "lambda":
        return ("lambda", term[1], type_put(types, term[2]), types_put(types, term[3]))
    return (term[0], term[1], type_put(types, term[2]))


@functools.lru_cache(maxsize=None)
def type_variables(ty):
    return frozenset([ty[1]]) if ty[0] == "variable" else frozenset().union(*map(type_variables, ty[2]))


def type_variables_in(term):
    return set().union(*(type_variables(leaf[2]) for leaf in leaves(term)))


def joined(sign, left, right):
    return ("comb", ("comb", ("constant", sign, BINARY), left), right)


def equation(left, right):
    ty = type_of(left)
    return ("comb", ("comb", ("constant", "=", fun(ty, fun(ty, BOOL))), left), right)


def quantified(name, ty, body, sign="!"):
    return ("comb", ("constant", sign, fun(fun(ty, BOOL), BOOL)), ("lambda", name, ty, body))


def sides(sign, term):
    """The two terms that stand beside a sign, or None."""
    if term[0] == "comb" and term[1][0] == "comb" and term[1][1][0] == "constant" and term[1][1][1] == sign:
        return term[1][2], term[2]
    return None


def under(sign, term):
    """The lambda under a binder's sign, or None."""
    is_one = term[0] == "comb" and term[1][0] == "constant" and term[1][1] == sign and term[2][0] == "lambda"
    return term[2] if is_one else None


def implication(term):
    """The two sides of an implication; of `~p` they are p and F."""
    if term[0] == "comb" and term[1][0] == "constant" and term[1][1] == "~":
        return term[2], FALSE
    return sides("==>", term)


def combs(term):
    """The two sides of an equation between applications, or None."""
    found = sides("=", term)
    return found if found and found[0][0] == found[1][0] == "comb" else None
