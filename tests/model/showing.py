"""How types, terms and goals are shown (docs/PROTOCOL.md, 'How terms and types are shown')."""

from model.terms import BINARY, free_variables, indices, names_in

# How tightly what is shown binds.
INFIXES = {"<=>": 2, "==>": 4, "\\/": 6, "/\\": 8, "=": 12}
WHOLE, NEGATION, APPLICATION, ATOM = 0, 13, 14, 15
BINDERS = ("!", "?", "?!", "@")


def is_fun(ty):
    return ty[0] == "type" and ty[1] == "fun"


def type_text(ty):
    if ty[0] == "variable":
        return ty[1]
    parts = [type_text(part) for part in ty[2]]
    if not parts:
        return ty[1]
    first = f"({parts[0]})" if is_fun(ty[2][0]) else parts[0]
    if is_fun(ty):
        return f"{first}->{parts[1]}"
    return f"{first} {ty[1]}" if len(parts) == 1 else f"({','.join(parts)}) {ty[1]}"


def sign_of(term):
    """The sign of a constant that has one, or None."""
    if term[0] != "constant" or term[1] not in INFIXES and term[1] != "~" and term[1] not in BINDERS:
        return None
    return "<=>" if term[1] == "=" and term[2] == BINARY else term[1]


def binding(term):
    """The binder that a term begins with and its lambda, or twice None."""
    if term[0] == "lambda":
        return "\\", term
    if term[0] == "comb" and sign_of(term[1]) in BINDERS and term[2][0] == "lambda":
        return sign_of(term[1]), term[2]
    return None, None


def term_text(term, bound=(), least=WHOLE):
    """The text of a term, in parentheses where it binds less tightly than `least`, with the variables bound around it shown by these names."""
    text, tightness = bare(term, bound)
    return text if tightness >= least else f"({text})"


def bare(term, bound):
    """The text of a term without parentheses around it, and how tightly it binds."""
    if term[0] == "bound":
        return bound[term[1]], ATOM
    if term[0] in ("free", "constant"):
        return f"({sign_of(term)})" if sign_of(term) else term[1], ATOM
    if binding(term)[0]:
        return binder_text(term, bound), WHOLE
    function, argument = term[1:]
    if function[0] == "comb" and sign_of(function[1]) in INFIXES:
        sign = sign_of(function[1])
        tightness = INFIXES[sign]
        return f"{term_text(function[2], bound, tightness + 1)} {sign} {term_text(argument, bound, tightness)}", tightness
    if sign_of(function) == "~":
        return "~" + term_text(argument, bound, NEGATION), NEGATION
    return f"{term_text(function, bound, APPLICATION)} {term_text(argument, bound, ATOM)}", APPLICATION


def binder_text(term, bound):
    """Binders of one sign are shown as one. A variable gets the fewest primes that keep it apart from what occurs in its body."""
    first, shown = binding(term)[0], []
    while binding(term)[0] == first:
        function = binding(term)[1]
        taken = names_in(function[3]) | {bound[index - 1] for index in indices(function[3]) if index > 0}
        name = function[1]
        while name in taken:
            name += "'"
        shown.append(name)
        bound, term = (name, *bound), function[3]
    return f"{first}{' '.join(shown)}. {term_text(term, bound)}"


def goal_shown(goal):
    assumptions, conclusion = goal
    free = sorted({(name.encode(), type_text(ty).encode()) for _, name, ty in free_variables(*assumptions, conclusion)})
    return {"asl": [term_text(term) for term in assumptions], "free": [f"{name.decode()}:{ty.decode()}" for name, ty in free], "goal": term_text(conclusion)}
