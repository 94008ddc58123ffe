"""The functions on goals that rewrite, and BETA_TAC (docs/TACTICS.md, 'Rewriting'). Each takes the run, the goal and its arguments, as those of steps.py do.

A rule is its two sides, and the hypotheses of its theorem. What changes a part of a term is a function, which gives the other part or None."""

import functools

from model.matching import Match, opened
from model.refusals import LIMIT, Stop
from model.terms import FALSE, TRUE, body_at, sides, size

BASIC = ["REFL_CLAUSE", "EQ_CLAUSES", "NOT_CLAUSES_WEAK", "AND_CLAUSES", "OR_CLAUSES", "IMP_CLAUSES"]


def rules_of(body, hypotheses, place=()):
    """The rules of a theorem of this conclusion, in order."""
    _, body = opened(body, place)
    both = sides("/\\", body)
    if both:
        return [rule for side in (0, 1) for rule in rules_of(both[side], hypotheses, (*place, side))]
    found, match = sides("=", body), Match(hypotheses)
    if found and match.variables_in(found[1]) <= match.variables_in(found[0]):
        return [(*found, hypotheses)]
    is_negation = body[0] == "comb" and body[1][:2] == ("constant", "~")
    return [(body[2], FALSE, hypotheses) if is_negation else (body, TRUE, hypotheses)]


def rules_of_theorems(theorems):
    return [rule for theorem in theorems for rule in rules_of(theorem.conclusion, list(theorem.hypotheses.values()))]


def rules_of_assumptions(goal):
    return [rule for assumption in goal[0] for rule in rules_of(assumption, [assumption])]


@functools.lru_cache(maxsize=None)
def basic_rules():
    from model.theories import PRELUDE_THEOREMS  # which are read by what stands on this

    return [rule for name in BASIC for rule in rules_of(PRELUDE_THEOREMS[name], [])]


def by_first_of(rules):
    """Changes a term by the first rule whose left side it is an instance of."""

    def changed(term):
        for left, right, hypotheses in rules:
            match = Match(hypotheses)
            if match.why_not(left, term) is None:
                return match.put(right)
        return None

    return changed


def reduced(term):
    is_redex = term[0] == "comb" and term[1][0] == "lambda"
    return body_at(term[1], term[2]) if is_redex else None


def first_changed(term, change):
    """The term with its first part in preorder changed that can be, or None where none can."""
    found = change(term)
    if found:
        return found
    if term[0] == "comb":
        function = first_changed(term[1], change)
        if function:
            return ("comb", function, term[2])
        argument = first_changed(term[2], change)
        return argument and ("comb", term[1], argument)
    body = first_changed(term[3], change) if term[0] == "lambda" else None
    return body and ("lambda", term[1], term[2], body)


def topmost(term, change):
    """The places of the topmost parts that can be changed, in preorder; each is the numbers of the parts to go into."""
    if change(term):
        return [()]
    into = {"comb": (1, 2), "lambda": (3,)}.get(term[0], ())
    return [(part, *place) for part in into for place in topmost(term[part], change)]


def changed_at(term, place, change):
    return (*term[: place[0]], changed_at(term[place[0]], place[1:], change), *term[place[0] + 1 :]) if place else change(term)


def paid(run, term):
    """The term behind a turn."""
    run.pay()
    if size(term) > LIMIT:
        raise Stop(13)
    return term


def left_of(goal, conclusion):
    return [] if conclusion == TRUE else [(goal[0], conclusion)]


def changed_on(run, goal, change):
    conclusion, after = goal[1], first_changed(goal[1], change)
    while after:
        conclusion = paid(run, after)
        after = first_changed(conclusion, change)
    return left_of(goal, conclusion)


def changed_once(run, goal, change):
    conclusion = goal[1]
    for place in topmost(goal[1], change):
        conclusion = paid(run, changed_at(conclusion, place, change))
    return left_of(goal, conclusion)


def beta_tac(run, goal):
    return changed_on(run, goal, reduced)


def rewrite_tac(run, goal, theorems):
    return changed_on(run, goal, by_first_of(rules_of_theorems(theorems) + basic_rules()))


def asm_rewrite_tac(run, goal, theorems):
    return changed_on(run, goal, by_first_of(rules_of_theorems(theorems) + rules_of_assumptions(goal) + basic_rules()))


def pure_rewrite_tac(run, goal, theorems):
    return changed_on(run, goal, by_first_of(rules_of_theorems(theorems)))


def once_rewrite_tac(run, goal, theorems):
    return changed_once(run, goal, by_first_of(rules_of_theorems(theorems) + basic_rules()))


def once_asm_rewrite_tac(run, goal, theorems):
    return changed_once(run, goal, by_first_of(rules_of_theorems(theorems) + rules_of_assumptions(goal) + basic_rules()))
