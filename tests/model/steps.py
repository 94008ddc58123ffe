"""The functions on goals (docs/TACTICS.md), but for those that match. A goal is its assumptions, the newest first, and its conclusion. Each function takes the run, the goal and
its arguments, and gives the goals that are left, or None where it doesn't fit."""

from model.matching import match_mp_tac
from model.rewriting import asm_rewrite_tac, beta_tac, once_asm_rewrite_tac, once_rewrite_tac, pure_rewrite_tac, rewrite_tac
from model.terms import BOOL, FALSE, TRUE, aconv, base, body_at, combs, equation, free_variables, implication, joined, quantified, sides, type_of, under, with_put

# The arguments of each function: q a quotation, t a theorem, l a list of theorems, p a pair of quotations.
ARGUMENTS = {f"{name}_TAC": "" for name in "ALL NO REFL CONJ DISJ1 DISJ2 EQ DISCH GEN AP_TERM AP_THM MK_COMB STRIP BETA".split()}
ARGUMENTS.update({f"{name}_TAC": "q" for name in "X_GEN EXISTS UNDISCH".split()})
ARGUMENTS.update({f"{name}_TAC": "t" for name in "ACCEPT MP ASSUME CONTR CHOOSE DISJ_CASES SUBST1 STRIP_ASSUME MATCH_MP".split()})
ARGUMENTS.update({f"{name}_TAC": "l" for name in "REWRITE ONCE_REWRITE ASM_REWRITE ONCE_ASM_REWRITE PURE_REWRITE".split()})
ARGUMENTS.update({"SPEC_TAC": "p", "X_CHOOSE_TAC": "qt"})


class Theorem:
    """Hypotheses, by their forms without names of bound variables; the conclusion; and the items that it rests on."""

    def __init__(self, hypotheses, conclusion, basis):
        self.hypotheses, self.conclusion, self.basis = hypotheses, conclusion, basis


def all_tac(run, goal):
    return [goal]


def no_tac(run, goal):
    return None


def refl_tac(run, goal):
    found = sides("=", goal[1])
    return [] if found and aconv(*found) else None


def accept_tac(run, goal, theorem):
    return [] if aconv(theorem.conclusion, goal[1]) else None


def conj_tac(run, goal):
    found = sides("/\\", goal[1])
    return found and [(goal[0], part) for part in found]


def disj1_tac(run, goal):
    found = sides("\\/", goal[1])
    return found and [(goal[0], found[0])]


def disj2_tac(run, goal):
    found = sides("\\/", goal[1])
    return found and [(goal[0], found[1])]


def eq_tac(run, goal):
    found = sides("=", goal[1])
    if not found or type_of(found[0]) != BOOL:
        return None
    return [(goal[0], joined("==>", *found)), (goal[0], joined("==>", *reversed(found)))]


def disch_tac(run, goal):
    found = implication(goal[1])
    return found and [((found[0], *goal[0]), found[1])]


def gen_tac(run, goal):
    found = under("!", goal[1])
    if not found:
        return None
    name = run.freed(found[1], (*goal[0], goal[1]))
    return [(goal[0], body_at(found, ("free", name, found[2])))]


def is_new_variable(term, ty, terms):
    """Whether the term is a variable of this type that isn't free in the others."""
    return term[0] == "free" and term[2] == ty and term not in free_variables(*terms)


def x_gen_tac(run, goal, term):
    found = under("!", goal[1])
    if not found or not is_new_variable(term, found[2], (*goal[0], goal[1])):
        return None
    return [(goal[0], body_at(found, term))]


def exists_tac(run, goal, term):
    found = under("?", goal[1])
    return [(goal[0], body_at(found, term))] if found and type_of(term) == found[2] else None


def spec_tac(run, goal, pair):
    term, variable = pair
    if variable[0] != "free" or variable[2] != type_of(term) or variable != term and variable in free_variables(goal[1]):
        return None
    ty = variable[2]
    return [(goal[0], quantified(base(variable[1]), ty, with_put(goal[1], term, lambda depth: ("bound", depth, ty))))]


def mp_tac(run, goal, theorem):
    return [(goal[0], joined("==>", theorem.conclusion, goal[1]))]


def assume_tac(run, goal, theorem):
    return [((theorem.conclusion, *goal[0]), goal[1])]


def contr_tac(run, goal, theorem):
    return [] if theorem.conclusion == FALSE else None


def choose_tac(run, goal, theorem):
    found = under("?", theorem.conclusion)
    if not found:
        return None
    name = run.freed(found[1], (*goal[0], goal[1], theorem.conclusion, *theorem.hypotheses.values()))
    return [((body_at(found, ("free", name, found[2])), *goal[0]), goal[1])]


def x_choose_tac(run, goal, term, theorem):
    found = under("?", theorem.conclusion)
    if not found or not is_new_variable(term, found[2], (*goal[0], goal[1], theorem.conclusion, *theorem.hypotheses.values())):
        return None
    return [((body_at(found, term), *goal[0]), goal[1])]


def disj_cases_tac(run, goal, theorem):
    found = sides("\\/", theorem.conclusion)
    return found and [((part, *goal[0]), goal[1]) for part in found]


def subst1_tac(run, goal, theorem):
    found = sides("=", theorem.conclusion)
    return found and [(goal[0], with_put(goal[1], found[0], lambda depth: found[1]))]


def ap_term_tac(run, goal):
    found = combs(goal[1])
    return [(goal[0], equation(found[0][2], found[1][2]))] if found and aconv(found[0][1], found[1][1]) else None


def ap_thm_tac(run, goal):
    found = combs(goal[1])
    return [(goal[0], equation(found[0][1], found[1][1]))] if found and aconv(found[0][2], found[1][2]) else None


def mk_comb_tac(run, goal):
    found = combs(goal[1])
    if not found or type_of(found[0][1]) != type_of(found[1][1]):
        return None
    return [(goal[0], equation(found[0][part], found[1][part])) for part in (1, 2)]


def undisch_tac(run, goal, term):
    for at, assumption in enumerate(goal[0]):
        if aconv(assumption, term):
            return [(goal[0][:at] + goal[0][at + 1 :], joined("==>", assumption, goal[1]))]
    return None


def stripped(run, pieces, goal, avoided=()):
    """What is left where these pieces are assumed, taken apart; a name that is freed is apart from what is avoided too."""
    if not pieces:
        return [goal]
    first, rest = pieces[0], pieces[1:]
    if sides("/\\", first):
        return stripped(run, [*sides("/\\", first), *rest], goal, avoided)
    if sides("\\/", first):
        run.pay()
        left, right = sides("\\/", first)
        return stripped(run, [left, *rest], goal, avoided) + stripped(run, [right, *rest], goal, avoided)
    found = under("?", first)
    if found:
        name = run.freed(found[1], (*goal[0], goal[1], *pieces, *avoided))
        return stripped(run, [body_at(found, ("free", name, found[2])), *rest], goal, avoided)
    if first == FALSE or aconv(first, goal[1]):
        return []
    if first == TRUE or any(aconv(first, assumption) for assumption in goal[0]):
        return stripped(run, rest, goal, avoided)
    return stripped(run, rest, ((first, *goal[0]), goal[1]), avoided)


def strip_assume_tac(run, goal, theorem):
    return stripped(run, [theorem.conclusion], goal, (theorem.conclusion, *theorem.hypotheses.values()))


def strip_tac(run, goal):
    goals = gen_tac(run, goal) or conj_tac(run, goal)
    if goals:
        return goals
    found = implication(goal[1])
    return found and stripped(run, [found[0]], (goal[0], found[1]))


FUNCTIONS = {name: globals()[name.lower()] for name in ARGUMENTS}
