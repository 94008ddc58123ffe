"""`specification`: constants with the property that an existence theorem gives.

    specification NAME c1 c2 THEOREM;;      of THEOREM |- ?x y. P the constants c1 and c2, and NAME |- P of them
"""

from __future__ import annotations

from typing import Dict, List, Tuple

from holls.packages.forms import SPECIFICATION as FORM
from holls.packages.output import PUBLIC, Output, Steps
from holls.packages.parsing import Place, Word, name_of, usage, words
from holls.packages.terms import Term, binder, const, exists, is_binder, subst, term_tyvars, tyvars, var
from holls.surface.errors import Misread



def expand(text: str, _: Place, out: Output) -> None:
    """Makes the commands of a `specification`. Raises `Misread`."""
    found = words(text)[1:]
    if len(found) < 3:
        raise usage(text, FORM)
    for one in found:
        name_of(one, FORM, text)
    name, wanted, theorem = found[0], found[1:-1], found[-1]
    variables, body = _taken(wanted, theorem, out)
    constants: Dict[str, Term] = {}
    for at, one in enumerate(variables):
        chosen = binder("@", [one], subst(exists(variables[at + 1:], body), constants))
        out.define("pk_%s_DEF" % one[1], one[1], [], chosen, span=(wanted[at].start, wanted[at].end))
        out.constant(one[1], one[2])
        constants[one[1]] = const(one[1], one[2])
    steps: Steps = ["MP_TAC %s" % theorem.text]
    steps += ["MATCH_MP_TAC pk_CHOSEN THEN SUBST1_TAC (SYM pk_%s_DEF) THEN BETA_TAC" % one[1] for one in variables]
    out.prove(name.text, subst(body, constants), [*steps, "DISCH_THEN ACCEPT_TAC"], PUBLIC, (name.start, name.end))


def _taken(wanted: List[Word], theorem: Word, out: Output) -> Tuple[List[Term], Term]:
    """The variables that the constants stand for, under the constants' names, and what the theorem says of them."""
    body = out.asking.statement(theorem.text)
    if body is None:
        raise Misread(theorem.start, theorem.end, "no theorem `%s` whose statement is known stands before this command" % theorem.text)
    variables: List[Term] = []
    renamed: Dict[str, Term] = {}
    for number, one in enumerate(wanted):
        if out.asking.is_constant(one.text) or one.text in [other[1] for other in variables]:
            raise Misread(one.start, one.end, "the constant `%s` stands already: another name for this one" % one.text, taken=("const", one.text))
        if not is_binder(body, "?"):
            raise Misread(theorem.start, theorem.end, "`%s` says that %d exist%s, and %d constants are named" % (
                theorem.text, number, "s" if number == 1 else "", len(wanted)))
        bound = body[2]
        variables.append(var(one.text, bound[2]))
        renamed[bound[1]] = variables[-1]
        body = bound[3]
    body = subst(body, renamed)
    for one, variable in zip(wanted, variables):
        lost = sorted(set(term_tyvars(body)) - set(tyvars(variable[2])))
        if lost:
            raise Misread(one.start, one.end, "the type variable `%s` of `%s` isn't one of `%s`'s type" % (lost[0], theorem.text, one.text))
    return variables, body
