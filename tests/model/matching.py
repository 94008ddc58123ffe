"""First-order matching, and MATCH_MP_TAC by it (docs/TACTICS.md; docs/DECISIONS.md for names), which is a function on goals as those of steps.py are.

What the outer quantifiers of a theorem bind is ("outer", (place, name), type) here."""

from model.terms import body_at, free_variables, indices, leaves, lifted, nameless, names_in, quantified, sides, type_of, type_put, type_variables_in, under, with_put


class Match:
    """The types and the terms that a pattern's variables take. What is free in fixed terms, type variables too, is no variable of the pattern."""

    def __init__(self, fixed):
        self.fixed, self.fixed_names, self.fixed_types = free_variables(*fixed), names_in(*fixed), set().union(*map(type_variables_in, fixed))
        self.types, self.terms = {}, {}

    def fits_type(self, pattern, ty):
        if pattern[0] == "variable":
            return pattern == ty if pattern[1] in self.fixed_types else self.types.setdefault(pattern[1], ty) == ty
        return pattern[:2] == ty[:2] and len(pattern[2]) == len(ty[2]) and all(map(self.fits_type, pattern[2], ty[2]))

    def is_variable(self, leaf):
        return leaf[0] == "outer" or leaf[0] == "free" and leaf not in self.fixed

    def why_not(self, pattern, term, depth=0):
        """Why a term is no instance of a pattern, both under so many lambdas of the pattern; None where it is one. A variable takes the term at its first place."""
        if self.is_variable(pattern):
            if any(index < depth for index in indices(term)):
                return "a variable that is bound inside"
            if not self.fits_type(pattern[2], type_of(term)):
                return "another type"
            term = lifted(term, -depth)
            return None if nameless(self.terms.setdefault(pattern, term)) == nameless(term) else "two terms for a variable"
        if pattern[0] != term[0]:
            return "another kind of term"
        if pattern[0] == "comb":
            return self.why_not(pattern[1], term[1], depth) or self.why_not(pattern[2], term[2], depth)
        if pattern[0] == "lambda":
            return self.why_not(pattern[3], term[3], depth + 1) if self.fits_type(pattern[2], term[2]) else "another type"
        if pattern[1] != term[1]:
            return "another name"
        return None if self.fits_type(pattern[2], term[2]) else "another type"

    def put(self, term, depth=0):
        """The term with what its variables take."""
        if self.is_variable(term):
            return lifted(self.terms[term], depth)
        if term[0] == "comb":
            return ("comb", self.put(term[1], depth), self.put(term[2], depth))
        if term[0] == "lambda":
            return ("lambda", term[1], type_put(self.types, term[2]), self.put(term[3], depth + 1))
        return (term[0], term[1], type_put(self.types, term[2]))

    def variables_in(self, term):
        """The variables of a term, and its type variables, that may take something."""
        return {leaf for leaf in leaves(term) if self.is_variable(leaf)} | type_variables_in(term) - self.fixed_types

    def left_over(self, term):
        """The variables that take nothing, each once, as they occur in a term."""
        if term[0] == "comb":
            return list(dict.fromkeys(self.left_over(term[1]) + self.left_over(term[2])))
        return self.left_over(term[3]) if term[0] == "lambda" else [term] if self.is_variable(term) and term not in self.terms else []

    def called_apart(self, variables):
        """What the variables become where types are put. One that would become a fixed one, or one before it, gets primes until its name is none of these and no
        constant's in the fixed terms. (The program keeps it from names that quantified variables have meanwhile, too; that shows where a name has two primes.)"""
        found, taken, names = {}, set(self.fixed), set(self.fixed_names)
        for variable in variables:
            kind, name, ty = variable[0], variable[1], type_put(self.types, variable[2])
            if (kind, name, ty) in taken:
                while name in names:
                    name += "'"
            found[variable] = (kind, name, ty)
            taken.add(found[variable])
            names.add(name)
        return found


def opened(body, place=()):
    """What outer quantifiers bind, told apart by a place, and what stands under them."""
    outer = []
    while under("!", body):
        function = under("!", body)
        outer.append(("outer", (*place, len(outer), function[1]), function[2]))
        body = body_at(function, outer[-1])
    return outer, body


def match_mp_tac(run, goal, theorem):
    outer, body = opened(theorem.conclusion)
    match = Match(theorem.hypotheses.values())
    found = sides("==>", body)
    why = match.why_not(found[1], goal[1]) if found else "no implication"
    if why:
        run.cases.add(f"17: MATCH_MP_TAC, {why}")
        return None
    left_over = match.left_over(found[0])
    called = match.called_apart(left_over)
    run.cases.update(f"fits: MATCH_MP_TAC, {case}" for case, stands in cases(match, found, called).items() if stands)
    match.terms.update(called)
    left = match.put(found[0])
    for variable in reversed([variable for variable in outer if variable in left_over]):
        _, (*_, name), ty = called[variable]
        left = quantified(name, ty, with_put(left, called[variable], lambda depth: ("bound", depth, ty)), "?")
    return [(goal[0], left)]


def cases(match, found, called):
    """What is special where a theorem matches, for the counts alone."""
    right, right_types, outer = free_variables(found[1]), type_variables_in(found[1]), [variable for variable in called if variable[0] == "outer"]
    return {
        "a variable is quantified": outer, "two variables are quantified": outer[1:], "a variable stays": called.keys() - outer,
        "a variable gets a prime": any(old[1] != new[1] for old, new in called.items()), "a free variable takes a term": right.intersection(match.terms),
        "a free variable is fixed": right & match.fixed, "a type variable takes a type": match.types, "a type variable is fixed": right_types & match.fixed_types,
        "a type variable stays": type_variables_in(found[0]) - match.fixed_types.union(match.types),
    }  # fmt: skip
