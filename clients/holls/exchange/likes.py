"""What is tried here for a recorded tactic: the function of its name, or what does the same."""

from __future__ import annotations

from typing import Iterator, List, Sequence

from holls.exchange.citing import Uncitable, match, opened
from holls.exchange.neutral import Node, Untranslatable
from holls.protocol import Goal
from holls.prover import trying, typed
from holls.prover.reading import Unreadable
from holls.prover.scope import Scope
from holls.prover.typed import Term
from holls.prover.writing import Unwritable

PASSED = frozenset("FIRST_ASSUM FIRST_X_ASSUM POP_ASSUM UNDISCH_THEN USE_THEN REMOVE_THEN POP_ASSUM_LIST ASSUM_LIST RULE_ASSUM_TAC".split())
"""Tactics that hand an assumption to another one: here it stays where it is, and is cited."""
CLOSERS = frozenset(
    "MESON_TAC ASM_MESON_TAC ITAUT_TAC ARITH_TAC ASM_ARITH_TAC SET_TAC ASM_SET_TAC INT_ARITH_TAC REAL_ARITH_TAC METIS_TAC ASM_METIS_TAC".split())
PLAIN = frozenset(
    "REFL_TAC MK_COMB_TAC AP_TERM_TAC AP_THM_TAC DISCH_TAC EQ_TAC CONJ_TAC DISJ1_TAC DISJ2_TAC X_GEN_TAC EXISTS_TAC UNDISCH_TAC SPEC_TAC GEN_TAC "
    "DISCH_THEN MP_TAC ASSUME_TAC SUBGOAL_THEN STRIP_ASSUME_TAC CHOOSE_TAC X_CHOOSE_TAC CHOOSE_THEN X_CHOOSE_THEN".split())
"""Tactics that a way round doesn't help."""
SIMPLIFYING = frozenset("SIMP_TAC ASM_SIMP_TAC PURE_SIMP_TAC ONCE_SIMP_TAC PURE_ASM_SIMP_TAC ONCE_ASM_SIMP_TAC".split())
OPENING = frozenset("GEN_TAC X_GEN_TAC STRIP_TAC EQ_TAC DISCH_TAC DISCH_THEN CONJ_TAC SPEC_TAC".split()) | PASSED
"""Tactics behind which a goal is as hard as before: where what follows fails, no search is tried."""
_ALONE = frozenset("REFL_TAC MK_COMB_TAC AP_TERM_TAC AP_THM_TAC BETA_TAC DISCH_TAC EQ_TAC CONJ_TAC DISJ1_TAC DISJ2_TAC".split())
_BY_THEOREM = frozenset(
    "ASSUME_TAC ACCEPT_TAC MP_TAC CHOOSE_TAC DISJ_CASES_TAC CONTR_TAC MATCH_MP_TAC STRIP_ASSUME_TAC SUBST1_TAC".split())
_REWRITES = {
    "REWRITE_TAC": "REWRITE_TAC", "ASM_REWRITE_TAC": "ASM_REWRITE_TAC", "ONCE_REWRITE_TAC": "ONCE_REWRITE_TAC",
    "ONCE_ASM_REWRITE_TAC": "ONCE_ASM_REWRITE_TAC", "PURE_REWRITE_TAC": "PURE_REWRITE_TAC", "PURE_ASM_REWRITE_TAC": "ASM_REWRITE_TAC",
    "PURE_ONCE_REWRITE_TAC": "ONCE_REWRITE_TAC", "PURE_ONCE_ASM_REWRITE_TAC": "ONCE_ASM_REWRITE_TAC", "GEN_REWRITE_TAC": "ONCE_REWRITE_TAC",
    "SIMP_TAC": "REWRITE_TAC", "ASM_SIMP_TAC": "ASM_REWRITE_TAC", "PURE_SIMP_TAC": "REWRITE_TAC", "ONCE_SIMP_TAC": "ONCE_REWRITE_TAC",
    "PURE_ASM_SIMP_TAC": "ASM_REWRITE_TAC", "ONCE_ASM_SIMP_TAC": "ONCE_ASM_REWRITE_TAC",
}
"""Rewriting, by the function that is nearest."""
BASIC = (
    "FORALL_SIMP", "EXISTS_SIMP", "NOT_CLAUSES", "COND_CLAUSES", "PAIR_EQ", "FST", "SND", "SUC_INJ", "NOT_SUC", "CONS_11", "NOT_CONS_NIL",
    "IN_ELIM_PAIR_THM", "UNCURRY")
"""HOL Light's further basic rewrites, as far as they stand."""
_SETS = (
    "EXTENSION", "SUBSET", "PSUBSET", "DISJOINT", "IN_CLAUSES", "IN_UNIONS", "IN_INTERS", "IN_IMAGE", "FORALL_SIMP", "EXISTS_SIMP", "NOT_CLAUSES",
    "COND_CLAUSES")
_SET_WORDS = frozenset("IN SUBSET UNION INTER DIFF INSERT DELETE EMPTY UNIV UNIONS INTERS DISJOINT IMAGE PSUBSET SING".split())
_NOTHING = (Uncitable, Untranslatable, Unwritable, Unreadable, RecursionError, KeyError, IndexError)


def basic(scope: Scope) -> List[str]:
    return [name for name in BASIC if name in scope.theorems]


def texts(node: Node, replay: "object") -> Iterator[str]:
    """The expressions that are tried for a node, in this order."""
    for make in (_by_name, _rewriting, _others):
        try:
            yield from make(node, replay)
        except _NOTHING:
            continue


def _term(node: Node, replay, place: int = 0) -> str:
    numbers = [number for kind, number in node.arguments if kind == "t"]
    return replay.quoter.quote(replay.translator.term(numbers[place]))


def _theorem(node: Node, replay, place: int = 0) -> str:
    numbers = [number for kind, number in node.arguments if kind == "h"]
    return replay.citations.text(numbers[place])


def _theorems(node: Node, replay) -> List[str]:
    made = []
    for kind, number in node.arguments:
        if kind == "h":
            try:
                made.append(replay.citations.text(number))
            except _NOTHING:
                continue
    return made


def _names(number: int, replay) -> Iterator[str]:
    """The names of what a theorem was made of, known here or not."""
    name = replay.citations.names.get(number)
    if name:
        yield name
    else:
        for kind, part in replay.record.theorems[number].arguments:
            if kind == "h":
                yield from _names(part, replay)


def _goal_term(replay, number: int) -> Term:
    return replay.translator.term(replay.record.goals[number].conclusion)


def _chosen(replay, node: Node) -> str:
    """The variable that took the place of a goal's outer `!`, as a quotation."""
    found = typed.quantified(_goal_term(replay, node.goal))
    after = _goal_term(replay, node.left[0])
    body = found[3]
    variable = _place(body, after, 0)
    return replay.quoter.quote(variable if variable is not None else ("v", str(found[1]), found[2]))


def _place(pattern: Term, term: Term, depth: int):
    """What stands in a term where a pattern has its outer bound variable."""
    if pattern[0] == "b":
        return term if pattern[1] == depth and term[0] == "v" else None
    if pattern[0] != term[0]:
        return None
    if pattern[0] == "a":
        found = _place(pattern[1], term[1], depth)
        return found if found is not None else _place(pattern[2], term[2], depth)
    return _place(pattern[3], term[3], depth + 1) if pattern[0] == "l" else None


def _by_name(node: Node, replay) -> Iterator[str]:
    name = node.tactic
    goal = _goal_term(replay, node.goal)
    outer = typed.quantified(goal)
    if name in ("GEN_TAC", "STRIP_TAC") and outer and outer[0] == "!" and node.left:
        yield "X_GEN_TAC %s" % _chosen(replay, node)
        yield "GEN_TAC"
    elif name == "STRIP_TAC":
        yield "STRIP_TAC"
        yield "DISCH_TAC"
    elif name == "GEN_TAC":
        yield "GEN_TAC"
    elif name in _ALONE:
        yield name
    elif name == "DISCH_THEN":
        yield "DISCH_TAC"
    elif name in _BY_THEOREM:
        yield "%s %s" % (name, _theorem(node, replay))
    elif name in ("UNDISCH_TAC", "X_GEN_TAC", "EXISTS_TAC"):
        yield "%s %s" % (name, _term(node, replay))
    elif name in ("X_CHOOSE_TAC", "X_CHOOSE_THEN"):
        yield "X_CHOOSE_TAC %s %s" % (_term(node, replay), _theorem(node, replay))
    elif name == "SPEC_TAC":
        yield "SPEC_TAC (%s,%s)" % (_term(node, replay, 0), _term(node, replay, 1))
    elif name == "SUBGOAL_THEN":
        yield "SUBGOAL_THEN %s ASSUME_TAC" % _term(node, replay)
    elif name == "CHOOSE_THEN":
        yield "CHOOSE_TAC %s" % _theorem(node, replay)
    elif name == "DISJ_CASES_THEN2":
        yield "DISJ_CASES_TAC %s" % _theorem(node, replay)


def memberships(term: Term, replay) -> List[str]:
    """Of each set `\\x. p` that something is said to be a member of, without bound variables of outside, the theorem of IN for it."""
    made: List[str] = []
    for part in typed.subterms(term):
        if part[0] == "a" and part[1][0] == "a" and part[1][1][:2] == ("c", "IN") and part[2][0] == "l" and not typed.has_loose(part[2]):
            text = "(SPEC %s %s)" % (replay.quoter.quote(part[2]), replay.citations.at_types("IN", {"A": part[2][2]}))
            if text not in made:
                made.append(text)
    return made


def _rewriting(node: Node, replay) -> Iterator[str]:
    function = _REWRITES.get(node.tactic)
    if function is None:
        if node.tactic == "MATCH_ACCEPT_TAC":
            theorem = _theorem(node, replay)
            yield "REWRITE_TAC [%s]" % theorem
            yield "MATCH_MP_TAC %s" % theorem
            yield "ACCEPT_TAC %s" % theorem
        return
    own = _theorems(node, replay)
    further = basic(replay.scope)
    if any(name.startswith("IN_ELIM") for kind, number in node.arguments if kind == "h" for name in _names(number, replay)):
        sets = memberships(_goal_term(replay, node.goal), replay)
        if sets:
            own = [name for name in own if not name.startswith("IN_ELIM")] + sets
            yield "%s [%s] THEN BETA_TAC" % (function, "; ".join(own))
            yield "%s [%s] THEN BETA_TAC THEN %s [%s]" % (function, "; ".join(own), function, "; ".join(own + further))
    yield "%s [%s]" % (function, "; ".join(own))
    wider = taking_any_body(own, replay.scope)
    if wider != own:
        yield "%s [%s] THEN BETA_TAC" % (function, "; ".join(wider))
        whole = "%s [%s]" % (function, "; ".join(wider + [name for name in further if name not in wider]))
        yield "%s THEN BETA_TAC THEN %s" % (whole, whole)
    if function == "PURE_REWRITE_TAC":
        return
    once = function.startswith("ONCE")
    longer = "%s [%s]" % (function, "; ".join(own + [name for name in further if name not in own]))
    yield longer
    yield "%s THEN BETA_TAC" % longer
    if once:
        yield "%s [%s] THEN BETA_TAC" % (function, "; ".join(own))
        yield "%s THEN REWRITE_TAC [%s]" % (longer, "; ".join(further))
    else:
        yield "%s THEN BETA_TAC THEN %s" % (longer, longer)
        yield "BETA_TAC THEN %s" % longer


def taking_any_body(names: Sequence[str], scope: Scope) -> List[str]:
    """Theorems about `!x. P x` in the form in which rewriting takes any body, `(!) P`, where they have one here."""
    return [name[:-len("_THM")] if name.endswith("_THM") and name[:-len("_THM")] in scope.theorems else name for name in names]


def _by_function(node: Node, replay) -> Iterator[str]:
    """Matching with a function for P: at that function the theorem is brought into the goal, reduced, and used."""
    theorem = _theorem(node, replay)
    number = next(number for kind, number in node.arguments if kind == "h")
    statement = replay.scope.theorems.get(theorem)
    names, behind = opened(replay.citations.conclusion(number) if statement is None else statement)
    sides = typed.binary(behind)
    if not sides or sides[0] != "==>":
        return
    terms, types = {}, {}
    if not match(sides[2], _goal_term(replay, node.goal), terms, types):
        outer, inner = opened(sides[2])
        if not match(inner, _goal_term(replay, node.goal), terms, types):
            return
    if not any(name in terms and terms[name][0] == "l" for name, _ in names):
        return
    text = replay.citations.at_types(theorem, types)
    for name, _ in names:
        if name not in terms:
            return
        text = "(SPEC %s %s)" % (replay.quoter.quote(terms[name]), text)
    yield "MP_TAC %s THEN BETA_TAC THEN DISCH_THEN MATCH_MP_TAC" % text


def _others(node: Node, replay) -> Iterator[str]:
    name = node.tactic
    if name == "ASM_CASES_TAC":
        yield "DISJ_CASES_TAC (SPEC %s EXCLUDED_MIDDLE)" % _term(node, replay)
    elif name == "BOOL_CASES_TAC":
        yield "DISJ_CASES_TAC (SPEC %s BOOL_CASES_AX) THEN FIRST_ASSUM SUBST1_TAC" % _term(node, replay)
    elif name == "COND_CASES_TAC":
        new = [number for number in replay.record.goals[node.left[0]].assumptions
               if number not in replay.record.goals[node.goal].assumptions] if node.left else []
        condition = replay.quoter.quote(replay.translator.term(new[0])) if new else _condition(_goal_term(replay, node.goal), replay)
        yield "DISJ_CASES_TAC (SPEC %s EXCLUDED_MIDDLE) THEN ASM_REWRITE_TAC [COND_CLAUSES]" % condition
    elif name in ("INDUCT_TAC", "LIST_INDUCT_TAC"):
        yield from _induction(node, replay)
    elif name == "ANTS_TAC":
        yield "MATCH_MP_TAC ANTS THEN CONJ_TAC"
    elif name == "TRANS_TAC":
        yield "MATCH_MP_TAC %s THEN EXISTS_TAC %s" % (_theorem(node, replay), _term(node, replay))
    elif name in ("SUBST_ALL_TAC", "SUBST_VAR_TAC"):
        yield "SUBST1_TAC %s" % _theorem(node, replay)
        yield "ASM_REWRITE_TAC []"
    elif name == "STRUCT_CASES_TAC":
        yield "DISJ_CASES_TAC %s THEN ASM_REWRITE_TAC []" % _theorem(node, replay)
        yield "STRIP_ASSUME_TAC %s THEN ASM_REWRITE_TAC []" % _theorem(node, replay)
    elif name == "ABS_TAC":
        yield "MATCH_MP_TAC EQ_EXT THEN BETA_TAC THEN GEN_TAC"
    elif name == "BINOP_TAC":
        yield "MK_COMB_TAC THENL [AP_TERM_TAC; ALL_TAC]"
    elif name == "CONV_TAC":
        yield "BETA_TAC"
        yield "ONCE_REWRITE_TAC [EQ_SYM_EQ]"
        yield "REWRITE_TAC [%s]" % "; ".join(basic(replay.scope))
    elif name == "MATCH_MP_TAC":
        yield from _by_function(node, replay)
        theorem = _theorem(node, replay)
        if theorem == "FINITE_INDUCT_STRONG":
            yield "MATCH_MP_TAC FINITE_BODY THEN BETA_TAC THEN REWRITE_TAC [FINITE_BODY_STEP; FINITE_EMPTY; FINITE_INSERT; FORALL_SIMP]"
        yield "MATCH_MP_TAC %s THEN BETA_TAC" % theorem
    elif name == "ACCEPT_TAC":
        yield "REWRITE_TAC [%s]" % _theorem(node, replay)
    elif name == "DISCH_THEN":
        yield "STRIP_TAC"


def _condition(term: Term, replay) -> str:
    for part in typed.subterms(term):
        if part[0] == "a" and part[1][0] == "c" and part[1][1] == "COND" and not typed.has_loose(part[2]):
            return replay.quoter.quote(part[2])
    raise Uncitable


def _induction(node: Node, replay) -> Iterator[str]:
    if len(node.left) != 2:
        return
    outer = typed.quantified(_goal_term(replay, node.goal))
    step = replay.record.goals[node.left[1]]
    hypothesis = replay.translator.term(step.assumptions[0])
    place = _place(outer[3], hypothesis, 0)
    if node.tactic == "INDUCT_TAC":
        name = place if place is not None else ("v", str(outer[1]), outer[2])
        yield "MATCH_MP_TAC NUM_INDUCT THEN BETA_TAC THEN CONJ_TAC THENL [ALL_TAC; X_GEN_TAC %s THEN DISCH_TAC]" % replay.quoter.quote(name)
    else:
        body = _goal_term(replay, node.left[1])
        cons = next((part for part in typed.subterms(body) if part[0] == "a" and part[1][0] == "a" and part[1][1][:2] == ("c", "CONS")
                     and part[2][0] == "v" and part[1][2][0] == "v"), None)
        if cons is None:
            return
        yield ("MATCH_MP_TAC LIST_INDUCT THEN BETA_TAC THEN CONJ_TAC THENL [ALL_TAC; X_GEN_TAC %s THEN X_GEN_TAC %s THEN DISCH_TAC]"
               % (replay.quoter.quote(cons[1][2]), replay.quoter.quote(cons[2])))


def loops(term: Term) -> bool:
    """Whether rewriting by a theorem may go on for ever."""
    if trying.grows(term):
        return True
    for part in typed.subterms(term):
        sides = typed.binary(part)
        if sides and sides[0] in ("=", "<=>") and typed.size(sides[1]) == typed.size(sides[2]):
            if sorted(str(one) for one in typed.constants(sides[1])) == sorted(str(one) for one in typed.constants(sides[2])):
                return True
    return False


def closing(fine: Sequence[str], others: Sequence[str], scope: Scope) -> Iterator[str]:
    """Short steps that may close a goal, by theorems that rewriting ends with, and by others."""
    further = [name for name in basic(scope) if name not in fine]
    named, longer = "; ".join(fine), "; ".join(list(fine) + further)
    yield "REWRITE_TAC [%s]" % longer
    yield "ASM_REWRITE_TAC [%s]" % longer
    yield "REPEAT STRIP_TAC THEN ASM_REWRITE_TAC [%s]" % longer
    if fine:
        yield "REPEAT STRIP_TAC THEN REWRITE_TAC [%s]" % named
    wider = taking_any_body(fine, scope)
    if wider != list(fine):
        whole = "REWRITE_TAC [%s]" % "; ".join(wider + further)
        yield "%s THEN BETA_TAC THEN %s" % (whole, whole)
    for name in list(others)[:2] + list(fine)[:3]:
        yield "REPEAT STRIP_TAC THEN MATCH_MP_TAC %s THEN ASM_REWRITE_TAC [%s]" % (name, "; ".join(further))
    for name in list(others)[:2]:
        yield "REPEAT GEN_TAC THEN ONCE_REWRITE_TAC [%s] THEN REWRITE_TAC [%s]" % (name, longer)


def preparing(goal: Goal, scope: Scope) -> Iterator[str]:
    """What may go before a search: nothing, and for sets what brings them to their members."""
    yield ""
    words = set(goal.conclusion.replace("(", " ").replace(")", " ").split())
    if words & _SET_WORDS:
        names = [name for name in _SETS if name in scope.theorems]
        yield "REPEAT GEN_TAC THEN REWRITE_TAC [%s]" % "; ".join(names)
        if "\\" in goal.conclusion:
            yield "REPEAT GEN_TAC THEN REWRITE_TAC [%s] THEN REWRITE_TAC [IN] THEN BETA_TAC" % "; ".join(names)


def cases(atoms: Sequence[str], equations: Sequence[str], scope: Scope) -> str:
    """A step that takes the cases of formulas, the equations first, and computes."""
    parts = ["DISJ_CASES_TAC (SPEC %s EXCLUDED_MIDDLE) THEN ASM_REWRITE_TAC []" % text for text in equations]
    parts += ["DISJ_CASES_TAC (SPEC %s BOOL_CASES_AX)" % text for text in atoms]
    return "REPEAT GEN_TAC THEN " + " THEN ".join(parts) + " THEN ASM_REWRITE_TAC [NOT_CLAUSES]"
