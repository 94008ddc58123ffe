"""Terms of given types by chance, and texts of terms with all types."""

import functools

from model.showing import INFIXES, binding, sign_of, type_text
from model.terms import BINARY, BOOL, A, B, base, fun, indices, joined, names_in, quantified, type_put, with_put

IND = ("type", "ind", ())
# Constants of these generic types are declared where such terms are written.
DECLARED = {"R": fun(A, fun(A, BOOL)), "K": fun(A, fun(B, BOOL)), "S": fun(A, BOOL), "q": fun(BOOL, BOOL), "n": fun(A, A), "k": A, "o": BOOL}
# Of what types the arguments of a constant are, and of "=".
KINDS = {"=": "AA", "R": "AA", "K": "AB", "S": "A", "q": "b"}
NAMES = ["x", "y", "z", "a", "x'"]
FUNCTION_NAMES = ["f", "g", "P", "Q", "x"]


def for_all(variable, term):
    """The term for all of a free variable."""
    _, name, ty = variable
    return quantified(base(name), ty, with_put(term, variable, lambda depth: ("bound", depth, ty)))


def typed_text(term, bound=()):
    """A text that is read as the term, whatever stands but its constants."""
    if term[0] == "bound":
        return bound[term[1]]
    if term[0] in ("free", "constant"):
        text = f"({sign_of(term)})" if sign_of(term) else term[1]
        return text if term[0] == "constant" and term[2] in (BOOL, BINARY) else f"({text}:{type_text(term[2])})"
    sign, function = binding(term)
    if sign:
        taken, name = names_in(function[3]) | {bound[index - 1] for index in indices(function[3]) if index > 0}, function[1]
        while name in taken:
            name += "'"
        return f"({sign}{name}:{type_text(function[2])}. {typed_text(function[3], (name, *bound))})"
    function, argument = term[1:]
    if function[0] == "comb" and sign_of(function[1]) in INFIXES:
        return f"({typed_text(function[2], bound)} {sign_of(function[1])} {typed_text(argument, bound)})"
    return f"({typed_text(function, bound)} {typed_text(argument, bound)})"


class Terms:
    """Makes terms by chance over free variables, which are given and become more as terms have them, and over some types."""

    def __init__(self, rng, types, variables=(), redexes=0.0):
        self.rng, self.one, self.types, self.redexes = rng, rng.choice, types, redexes
        self.variables = {name: ty for _, name, ty in variables}

    def chance(self, probability):
        return self.rng.random() < probability

    def type(self):
        if self.chance(0.2):
            return fun(self.one(self.types), self.one([BOOL, BOOL, *self.types]))
        return self.one(self.types)

    def variable(self, ty):
        """A free variable of the type, or None where the names are used up."""
        names = FUNCTION_NAMES if ty[:2] == ("type", "fun") else NAMES
        known = [name for name in names if self.variables.get(name) == ty]
        name = self.one(known if known and self.chance(0.5) else [name for name in names if self.variables.get(name, ty) == ty] or [None])
        if name:
            self.variables[name] = ty
        return name and ("free", name, ty)

    def leaf(self, ty, scope):
        bound = [("bound", index, of) for index, of in enumerate(scope) if of == ty]
        if bound and self.chance(0.7):
            return self.one(bound)
        variable = self.variable(ty)
        if variable and self.chance(0.85):
            return variable
        if ty == BOOL:
            return self.one([("constant", name, BOOL) for name in "TFo"])
        return self.one(bound) if bound else ("constant", "k", ty)

    def of(self, ty, depth, scope=()):
        """A term of the type, where variables of these types are bound around it."""
        if depth > 0 and self.chance(self.redexes):
            return self.redex(ty, depth - 1, scope)
        if depth <= 0 or self.chance(0.15):
            return self.leaf(ty, scope)
        if ty == BOOL:
            return self.formula(depth - 1, scope)
        if ty[:2] == ("type", "fun") and self.chance(0.55):
            return self.abstraction(*ty[2], depth - 1, scope)
        if self.chance(0.4):
            return ("comb", ("constant", "n", fun(ty, ty)), self.of(ty, depth - 1, scope))
        return self.applied(ty, depth - 1, scope) if self.chance(0.5) else self.leaf(ty, scope)

    def abstraction(self, domain, codomain, depth, scope):
        return ("lambda", self.one(["x", "y", "z", "a"]), domain, self.of(codomain, depth, (domain, *scope)))

    def binder(self, depth, scope):
        ty = self.type()
        return ("comb", ("constant", self.one(["!", "!", "?", "?!"]), fun(fun(ty, BOOL), BOOL)), self.abstraction(ty, BOOL, depth, scope))

    def redex(self, ty, depth, scope):
        """A lambda, or what may become one, on a term; a variable that is bound around both, often."""
        domain, is_formula = self.one(scope) if scope and self.chance(0.5) else self.type(), ty == BOOL and self.chance(0.5)
        body = (self.binder if is_formula else lambda *where: self.of(ty, *where))(depth, (domain, *scope))
        function = ("lambda", self.one(["x", "y", "z", "a"]), domain, body) if self.chance(0.7) else self.of(fun(domain, ty), depth, scope)
        return ("comb", function, self.of(domain, self.one([0, depth]), scope))

    def applied(self, ty, depth, scope):
        """A variable on a term."""
        domain = self.one([bound for bound in scope if bound[:2] != ("type", "fun")] or [self.type()])
        function = self.variable(fun(domain, ty)) or ("constant", "k", fun(domain, ty))
        return ("comb", function, self.of(domain, depth, scope))

    def formula(self, depth, scope):
        kind = self.rng.choices(["sign", "not", "binder", "variable", *KINDS], [18, 4, 24, 14, 8, 20, 6, 8, 5])[0]
        if kind == "sign":
            return joined(self.one(["/\\", "\\/", "==>"]), self.of(BOOL, depth, scope), self.of(BOOL, depth, scope))
        if kind == "not":
            return ("comb", ("constant", "~", fun(BOOL, BOOL)), self.of(BOOL, depth, scope))
        if kind == "binder":
            return self.binder(depth, scope)
        if kind == "variable":
            return self.applied(BOOL, depth, scope)
        return self.atom(kind, depth, scope)

    def atom(self, name, depth, scope):
        """A constant of `KINDS` on terms of some types."""
        types = dict(zip("AB", [self.type(), self.type()]))
        domains = [BOOL if kind == "b" else types[kind] for kind in KINDS[name]]
        whole = functools.reduce(lambda codomain, domain: fun(domain, codomain), reversed(domains), BOOL)
        return functools.reduce(lambda term, domain: ("comb", term, self.of(domain, depth, scope)), domains, ("constant", name, whole))


def put(term, types, terms):
    """The term with these types for type variables, and closed terms for free variables as they were before."""
    if term in terms:
        return terms[term]
    if term[0] == "comb":
        return ("comb", put(term[1], types, terms), put(term[2], types, terms))
    if term[0] == "lambda":
        return ("lambda", term[1], type_put(types, term[2]), put(term[3], types, terms))
    return (term[0], term[1], type_put(types, term[2]))
