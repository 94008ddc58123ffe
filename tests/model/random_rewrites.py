"""Documents of goals that have parts which theorems rewrite, or nearly."""

from model.random_matches import CONSTANTS, nearly_put, parts, with_other
from model.random_terms import IND, Terms, for_all, put, typed_text
from model.terms import BOOL, A, B, equation, free_variables, fun, joined, leaves, type_of, type_put

REWRITING = [f"{name}_TAC" for name in ("REWRITE", "ONCE_REWRITE", "PURE_REWRITE", "ASM_REWRITE", "ONCE_ASM_REWRITE")]


def law(rng, terms):
    """What a theorem may rewrite, and its statement: an equation, a negation or another formula."""
    ty, kind = terms.type() if rng.random() < 0.6 else BOOL, rng.choice(["equation"] * 6 + ["negation", "formula"])
    if kind == "equation":
        left = terms.of(ty, rng.choice([1, 2, 3]))
        return left, equation(left, terms.of(ty, rng.choice([0, 1, 2, 2])))
    left = terms.of(BOOL, 2)
    return left, ("comb", ("constant", "~", fun(BOOL, BOOL)), left) if kind == "negation" else left


class Laws:
    """A theorem of one law or of two, maybe under a hypothesis: its axiom, and how it is written from that."""

    def __init__(self, rng, name):
        terms = Terms(rng, rng.choice([[BOOL, A], [A, B], [BOOL]]))
        self.left, statement = law(rng, terms)
        if rng.random() < 0.25:
            other, behind = law(rng, terms)
            self.left, statement = rng.choice([self.left, other]), joined("/\\", statement, behind)
        self.hypothesis = terms.of(BOOL, rng.choice([0, 1])) if rng.random() < 0.3 else None
        for variable in sorted(free_variables(statement)):
            statement = for_all(variable, statement) if rng.random() < 0.6 else statement
        self.axiom = joined("==>", self.hypothesis, statement) if self.hypothesis else statement
        self.text = f"MP {name} (ASSUME `{typed_text(self.hypothesis)}`)" if self.hypothesis else name

    def goal(self, rng):
        """What is assumed for the theorem and maybe more, and a goal by chance with parts that it rewrites, or nearly."""
        fixed = free_variables(self.hypothesis) if self.hypothesis else set()
        goals = Terms(rng, rng.choice([[BOOL], [A, BOOL], [BOOL, IND]]), sorted(fixed))
        goal, types = goals.of(BOOL, 3), {} if self.hypothesis else {name: goals.type() for name in "AB" if rng.random() < 0.7}
        ty, has_lambda = type_put(types, type_of(self.left)), any(leaf[0] == "lambda" for leaf in leaves(self.left))
        for _ in range(rng.choice([1, 2])):
            at, (_, scope) = rng.choice([row for row in enumerate(parts(goal)) if type_of(row[1][0]) == ty] or [(None, (None, ()))])
            free, around = sorted(free_variables(self.left)), () if has_lambda else scope
            taken = {variable: goals.of(type_put(types, variable[2]), rng.choice([0, 1]), around) for variable in free if variable not in fixed}
            found = nearly_put(rng, goals, self.left, types, taken, scope) if rng.random() < 0.3 else put(self.left, types, taken)
            goal = equation(found, goals.of(ty, 1)) if at is None else with_other(goal, at, found)[0]
        return [self.hypothesis] * (self.hypothesis is not None) + [goals.of(BOOL, 2)] * (rng.random() < 0.5), goal


def rewriting(rng, turns):
    """Theorems, each in lists with others on some goals."""
    texts, laws = list(CONSTANTS), []
    for at in range(3):
        laws.append(Laws(rng, f"L{at}"))
        texts.append(f"new_axiom L{at} `{typed_text(laws[-1].axiom)}`")
        for _ in range(3):
            one, other = rng.choice(laws[-2:]), rng.choice(laws)
            assumed, goal = one.goal(rng)
            texts += [f"g G{at} `{' ==> '.join(map(typed_text, [*assumed, goal]))}`", *["e DISCH_TAC"] * len(assumed)]
            for _ in range(3):
                theorems = rng.choice([[one], [one], [one], [one, other], [other, one], []])
                texts += [f"e {rng.choice(REWRITING)} [{'; '.join(theorem.text for theorem in theorems)}]", "b"]
            texts.append("oops")
    return [("A", texts)]
