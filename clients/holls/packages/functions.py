"""`define`: functions by clauses. Without calls by cases, else by primitive recursion, else by a measure that gets smaller at each call.

    define F `(F [] = 0) /\\ (F (CONS h t) = SUC (F t))`;;
    define F by_measure `\\x y. m` `..`;;                      or by_measure `\\(x,y). m`, one for each function that is defined
    define F by_measure `..` with THEOREM `..`;;                the theorem says that each call is smaller
"""

from __future__ import annotations

from dataclasses import dataclass
from typing import Dict, List, Mapping, NamedTuple, Optional, Sequence, Set, Tuple

from holls.packages import measures
from holls.packages.calls import calls
from holls.packages.clauses import Clause, ClauseReader, Function, error
from holls.packages.datatypes import argument_names
from holls.packages.forms import DEFINE as FORM
from holls.packages.matching import (MOST_LEAVES, Decisions, case_term, constructor_types, is_shadowed, leaf_statement, matched, splits)
from holls.packages.numerals import RULES, norm, of_numeral
from holls.packages.output import HIDDEN, PUBLIC, Output, Steps, conjuncts
from holls.packages.parsing import Place, Word, name_of, usage, words
from holls.packages.predicates import need_split
from holls.packages.printing import shown_briefly
from holls.packages.recursion import primitive
from holls.packages.scope import Asking
from holls.packages.terms import Term, app, binder, conj, const, eq, exists, fresh, forall, same, spine, strip, subst, term_tyvars, tyshow, tyvars, var
from holls.packages.type_commands import need_cases
from holls.protocol import RESERVED
from holls.surface.errors import Misread



class Measure(NamedTuple):
    """What is written of measures: the quotations, and the theorem that each call is smaller."""

    quotations: List[Word]
    theorem: Optional[Word]


class _Equation(NamedTuple):
    """An equation of a leaf, of the clause that decides there; `is_exact` where it is the clause as it was written."""

    clause: Clause
    variables: List[Term]
    patterns: List[Term]
    right: Term
    is_exact: bool


@dataclass
class Definition:
    """What is defined, and how."""

    name: str
    functions: List[Function]
    clauses: List[Clause]
    trees: Dict[str, Decisions]
    asking: Asking
    out: Output

    @property
    def arities(self) -> Dict[str, int]:
        """The numbers of the functions' arguments."""
        return {one.name: len(one.clauses[0].patterns) for one in self.functions}

    @property
    def has_numerals(self) -> bool:
        """Whether a numeral, or a sum with one, is a pattern."""
        return any(norm(one) != one for clause in self.clauses for one in clause.written)


def expand(text: str, place: Place, out: Output) -> None:
    """Makes the commands of a `define`. Raises `Misread`."""
    name, measure, quotation = _parts(text, words(text))
    reader = ClauseReader(place.term(quotation), out.asking)
    if name.text not in reader.arities:
        raise Misread(name.start, name.end, "no clause defines `%s`" % name.text)
    define(name.text, reader, out, measure, place)


def define(name: str, reader: ClauseReader, out: Output, measure: Optional[Measure], place: Place) -> None:
    """Makes the commands of functions by clauses, with the theorem of the clauses under a name. Raises `Misread`."""
    functions, clauses = reader.read()
    trees = {one.name: Decisions(one, out.asking, frozenset(reader.arities)) for one in functions}
    definition = Definition(name, functions, clauses, trees, out.asking, out)
    _check(definition)
    called = any(calls(one.right, definition.arities) for one in clauses)
    if not called:
        _by_cases(definition)
        return
    way = None if measure else primitive(functions, definition.arities, out.asking)
    if way is None:
        _by_measure(definition, measure, place)
        return
    definition.trees = way.trees
    rules = _case_rules(definition)
    _finish(definition, way.proof(rules, out, _closed), rules)


def _parts(text: str, found: List[Word]) -> Tuple[Word, Optional[Measure], Word]:
    """The name, the measures, and the clauses."""
    quoted = [one for one in found[1:] if one.is_quoted]
    plain = [one for one in found[1:] if not one.is_quoted]
    if not plain or not quoted or not found[-1].is_quoted or len(found) < 3:
        raise usage(text, FORM)
    name_of(plain[0], FORM, text)
    if plain[0].text in RESERVED:
        raise Misread(plain[0].start, plain[0].end, "`%s` is a reserved word, and no theorem can have its name" % plain[0].text)
    if [one.text for one in plain[1:]] == [] and len(quoted) == 1:
        return plain[0], None, quoted[0]
    is_measured = len(plain) > 1 and plain[1].text == "by_measure" and found[2] is plain[1] and len(quoted) > 1
    if not is_measured or len(plain) not in (2, 4) or len(plain) == 4 and plain[2].text != "with":
        raise usage(text, FORM)
    return plain[0], Measure(quoted[:-1], plain[3] if len(plain) == 4 else None), quoted[-1]


def _check(definition: Definition) -> None:
    """Raises `Misread` where the clauses don't cover all arguments, one of them isn't reached, or a type variable is lost."""
    for one in definition.functions:
        tree = definition.trees[one.name]
        if tree.missing is not None:
            missing = shown_briefly(app(var(one.name, one.type), *tree.missing), of_numeral)
            raise error(one.clauses[-1].head, "the clauses don't cover all arguments: `%s` is missing" % missing)
        reached = {id(leaf.clause) for leaf in tree.leaves}
        for clause in one.clauses:
            if id(clause) not in reached:
                raise error(clause.head, "no argument reaches this clause: those above it take all that it matches")
    known = {name for one in definition.functions for name in tyvars(one.type)}
    for clause in definition.clauses:
        lost = sorted(set(term_tyvars(clause.right)) - known)
        if lost:
            raise error(clause.body, "the type variable `%s` stands in no type of what is defined: annotate" % lost[0])


def _case_rules(definition: Definition) -> List[str]:
    """The equations of the constants of cases that the functions are made of, which are made to stand; and those of numerals."""
    found: Dict[str, None] = {}
    for one in definition.functions:
        for split in splits(definition.trees[one.name].root):
            need_cases(split.data, definition.out)
            found.setdefault(split.data.case_theorem)
    return list(found) + (list(RULES) if definition.has_numerals else [])


def _closed(rules: Sequence[str], rewrite: str = "ASM_REWRITE_TAC") -> str:
    """The steps that prove equations by rewriting."""
    return "REPEAT CONJ_TAC THEN REPEAT GEN_TAC THEN REPEAT (CHANGED_TAC (%s [%s] THEN BETA_TAC))" % (rewrite, "; ".join([*rules, "FORALL_SIMP"]))


def _by_cases(definition: Definition) -> None:
    """Functions without calls: each is its decisions."""
    rules, out = _case_rules(definition), definition.out
    for one in definition.functions:
        tree = definition.trees[one.name]
        body = case_term(tree.root, tree.result, lambda leaf: subst(leaf.clause.right, leaf.bound))
        out.define("pk_%s_DEF" % one.name, one.name, tree.arguments, body)
    unfold = "; ".join("pk_%s_DEF" % one.name for one in definition.functions)
    every = "; ".join([*rules, "FORALL_SIMP"])
    proof = "REPEAT CONJ_TAC THEN REPEAT GEN_TAC THEN PURE_REWRITE_TAC [%s] THEN REPEAT (CHANGED_TAC (REWRITE_TAC [%s] THEN BETA_TAC))" % (unfold, every)
    _finish(definition, [proof], rules, True)


def _by_measure(definition: Definition, measure: Optional[Measure], place: Place) -> None:
    _case_rules(definition)
    proof = measures.proof(definition, measure, place)
    _finish(definition, proof, [])


# ---- The equations, and the clauses by them


def _equations(definition: Definition) -> List[_Equation]:
    """The equations of all leaves, by clauses."""
    by_clause: Dict[int, List[Tuple[List[Term], List[Term], Term]]] = {id(one): [] for one in definition.clauses}
    for one in definition.functions:
        for leaf in definition.trees[one.name].leaves:
            by_clause[id(leaf.clause)].append(leaf_statement(leaf, definition.functions))
    found: List[_Equation] = []
    for clause in definition.clauses:
        own = by_clause[id(clause)]
        for variables, patterns, right in own:
            is_exact = len(own) == 1 and len(variables) == len(clause.variables) and all(
                same(norm(one), norm(other)) for one, other in zip(patterns, clause.written))
            found.append(_Equation(clause, variables, patterns, right, is_exact))
    return found


def normalized(term: Term, functions: Mapping[str, object]) -> Term:
    """The term with towers for numerals in arguments of calls."""
    head, arguments = spine(term)
    if head[0] == "v" and head[1] in functions:
        return app(head, *[normalized(norm(one), functions) for one in arguments])
    if term[0] == "@":
        return ("@", normalized(term[1], functions), normalized(term[2], functions))
    return ("\\", term[1], term[2], normalized(term[3], functions)) if term[0] == "\\" else term


def _finish(definition: Definition, proof: Steps, rules: Sequence[str], is_plain: bool = False) -> None:
    """Makes the constants, the equations of the leaves, and the theorem of the clauses."""
    out, name, numerals = definition.out, definition.name, definition.has_numerals
    equations = _equations(definition)
    types = {one.name: one.type for one in definition.functions}
    variables = [var(one.name, one.type) for one in definition.functions]
    body = conj([forall(one.variables, eq(app(var(one.clause.function, types[one.clause.function]), *one.patterns),
                                          normalized(one.right, types) if numerals else one.right)) for one in equations])
    is_direct = not numerals and all(one.is_exact for one in equations)
    constants: Dict[str, Term] = {}
    for at, one in enumerate(variables):
        chosen = binder("@", [one], subst(exists(variables[at + 1:], body), constants))
        if not is_plain:
            out.define("pk_%s_DEF" % one[1], one[1], [], chosen)
        out.constant(one[1], one[2])
        constants[one[1]] = const(one[1], one[2])
    steps: Steps = proof
    if not is_plain:
        chosen_steps: Steps = ["MATCH_MP_TAC pk_CHOSEN THEN SUBST1_TAC (SYM pk_%s_DEF) THEN BETA_TAC" % one[1] for one in variables]
        steps = [("SUBGOAL_THEN %s MP_TAC" % out.show(exists(variables, body)), [proof, chosen_steps + ["DISCH_THEN ACCEPT_TAC"]])]
    leaves = name if is_direct else "pk_%s_LEAVES" % name
    out.prove(leaves, subst(body, constants), steps, PUBLIC if is_direct else HIDDEN)
    if not is_direct:
        _as_written(definition, equations, constants)


def _as_written(definition: Definition, equations: Sequence[_Equation], constants: Dict[str, Term]) -> None:
    """The theorem of the clauses as they were written; one of which an earlier clause takes a part, and says otherwise, is its cases."""
    numerals = list(RULES) if definition.has_numerals else []
    rewrite = "REWRITE_TAC [%s]" % "; ".join(["pk_%s_LEAVES" % definition.name, "FORALL_SIMP", *numerals])
    parts: List[Term] = []
    proofs: List[Steps] = []
    for clause in definition.clauses:
        own = [one for one in equations if one.clause is clause]
        is_exact = all(one.is_exact for one in own)
        if not is_exact and is_shadowed(clause, definition.functions):
            parts += [forall(one.variables, eq(app(constants[clause.function], *one.patterns), subst(one.right, constants))) for one in own]
            proofs += [[rewrite]] * len(own)
        else:
            parts.append(subst(forall(clause.variables, strip(clause.given)[1]), constants))
            leaves = [one for one in equations if one.clause.function == clause.function]
            proofs.append([rewrite] if is_exact else _Splitting(definition, clause, rewrite).proof(leaves))
    definition.out.prove(definition.name, conj(parts), conjuncts(proofs), PUBLIC)


class _Splitting:
    """Proves a clause from the equations of the leaves: its variables are told apart as these are."""

    def __init__(self, definition: Definition, clause: Clause, rewrite: str) -> None:
        self.asking, self.out, self.clause, self.rewrite = definition.asking, definition.out, clause, rewrite
        self.used: Set[str] = {one[1] for one in clause.variables}
        self.left = MOST_LEAVES

    def proof(self, leaves: Sequence[_Equation]) -> Steps:
        """The proof by the leaves of the clause's function."""
        instances: List[Dict[str, Term]] = []
        for one in leaves:
            to: Dict[str, Term] = {}
            if all(matched(norm(pattern), other, to) for pattern, other in zip(self.clause.written, one.patterns)):
                instances.append(to)
        return ["X_GEN_TAC %s" % _typed(one) for one in self.clause.variables] + self._cases_down_to(list(self.clause.variables), instances)

    def _cases_down_to(self, variables: List[Term], instances: List[Dict[str, Term]]) -> Steps:
        variable = next((one for one in variables if any(to.get(one[1], one)[0] != "v" for to in instances)), None)
        if variable is None:
            self.left -= 1
            if self.left < 0:
                raise error(self.clause.head, "this clause parts into too many cases: write fewer constructors in one clause")
            return [self.rewrite]
        data = self.asking.data_of(variable[2][0])
        need_split(data, self.out)
        branches: List[Steps] = []
        for constructor in data.constructors:
            names = [fresh(one, self.used) for one in argument_names(constructor, self.asking)]
            new = [var(*one) for one in zip(names, constructor_types(data, constructor, variable[2]))]
            inner = [made for made in (_instance(to, variable, constructor.name, new) for to in instances) if made is not None]
            rest = [one for one in variables if one is not variable] + new
            branches.append(["X_GEN_TAC %s" % _typed(one) for one in new] + self._cases_down_to(rest, inner))
        return ["SPEC_TAC (%s,%s) THEN MATCH_MP_TAC %s THEN BETA_TAC" % (_typed(variable), _typed(variable), data.split), *conjuncts(branches)]


def _typed(variable: Term) -> str:
    return "`%s:%s`" % (variable[1], tyshow(variable[2]))


def _instance(to: Dict[str, Term], variable: Term, constructor: str, new: Sequence[Term]) -> Optional[Dict[str, Term]]:
    """What a clause's variables are where one of them is a constructor of new variables; None where it isn't."""
    pattern = to.get(variable[1], variable)
    rest = {name: term for name, term in to.items() if name != variable[1]}
    if pattern[0] == "v":
        return {**rest, **{one[1]: one for one in new}}
    head, arguments = spine(pattern)
    return {**rest, **{one[1]: term for one, term in zip(new, arguments)}} if head[1] == constructor else None
