"""`inductive`: relations by rules, the least that there are.

    inductive STAR `(!x. STAR R x x) /\\ (!x y z. R x y /\\ STAR R y z ==> STAR R x z)`;;
    inductive R [MONO_1; MONO_2] `..`;;     with theorems that constants around a relation are monotone

Made are R_RULES, R_INDUCT, R_STRONG_INDUCT and R_CASES. All proofs are explicit: nothing is searched that a user's terms could disturb.
"""

from __future__ import annotations

from typing import Dict, List, Mapping, Optional, Sequence, Tuple

from holls.packages.forms import INDUCTIVE as FORM
from holls.packages.measures import path
from holls.packages.output import PUBLIC, Output, Steps, conjuncts
from holls.packages.parsing import Place, Word, name_of, usage, words
from holls.packages.rules import Monotone, Rule, RuleReader, Rules
from holls.packages.scope import Relation
from holls.packages.terms import (Term, Type, app, args_of, arity, beta, conj, const, eq, exists, forall, frees, imp, join, lams, names, operation, subst,
                                  tyshow, var)
from holls.surface.errors import Misread

Env = Dict[str, Term]


def expand(text: str, place: Place, out: Output) -> None:
    """Makes the commands of an `inductive`. Raises `Misread`."""
    name, theorems, quotation = _parts(text)
    for one in theorems:
        if out.asking.statement(one.text) is None:
            raise Misread(one.start, one.end, "no theorem `%s` whose statement is known stands before this command" % one.text)
    found = RuleReader(place.term(quotation), out.asking, [one.text for one in theorems]).read()
    if name.text not in found.relations:
        raise Misread(name.start, name.end, "no rule ends in `%s`" % name.text)
    _Relations(name.text, found, [one.text for one in theorems], out).emit()


def _parts(text: str) -> Tuple[Word, List[Word], Word]:
    found = words(text)
    if len(found) < 3 or not found[-1].is_quoted or any(one.is_quoted for one in found[1:-1]):
        raise usage(text, FORM)
    name_of(found[1], FORM, text)
    listed = found[2:-1]
    if listed and (listed[0].text != "[" or listed[-1].text != "]" or any(one.text != ";" for one in listed[2:-1:2])):
        raise usage(text, FORM)
    theorems = listed[1:-1:2]
    for one in theorems:
        name_of(one, FORM, text)
    return found[1], theorems, found[-1]


class _Relations:
    def __init__(self, name: str, found: Rules, theorems: Sequence[str], out: Output) -> None:
        self.name, self.rules, self.parameters, self.out = name, found.rules, found.parameters, out
        self.types = found.relations
        self.names = list(found.relations)
        number = len(found.parameters)
        rest: Dict[str, Type] = {one: args_of(type_, number)[1] for one, type_ in found.relations.items()}
        taken = {one[1] for one in found.parameters} | set(self.names)
        for rule in found.rules:
            for term in (*rule.arguments, *rule.variables, *([rule.condition] if rule.condition else [])):
                taken |= names(term)
        fresh = out.asking.fresh
        self.arguments: Dict[str, List[Term]] = {}
        for one, type_ in rest.items():
            every = args_of(type_, arity(type_))[0]
            called = ["a"] if len(every) == 1 else ["a%d" % at for at in range(len(every))]
            self.arguments[one] = [var(fresh(name_, taken), own) for name_, own in zip(called, every)]
        self.first = [var(fresh(one + "'", taken), rest[one]) for one in self.names]
        self.second = [var(fresh(one + "''", taken), rest[one]) for one in self.names]
        self.own: Env = {one: app(const(one, type_), *found.parameters) for one, type_ in found.relations.items()}
        self.monotone = Monotone(set(self.names), out.asking, theorems)
        self.recursive = [one for one in found.rules if one.condition is not None and set(frees(one.condition)) & set(self.names)]
        self.mono = "pk_%s_MONO" % name

    def emit(self) -> None:
        """Makes all commands."""
        self._define()
        self._induction()
        if self.recursive:
            self._monotone()
        self._rules()
        self._cases()
        if self.recursive:
            self._strong()
        for one in self.names:
            self.out.asking.own.relations[one] = Relation(self.name, tuple(self.parameters), tuple(self.names), len(self.rules))

    # ---- Texts and terms

    def _env(self, terms: Sequence[Term]) -> Env:
        return dict(zip(self.names, terms))

    @staticmethod
    def _rule(rule: Rule, env: Env, before: Optional[Env] = None) -> Term:
        """A rule of other relations; of others still in what it asks."""
        condition = None if rule.condition is None else beta(subst(rule.condition, before or env))
        return forall(rule.variables, imp(condition, beta(app(env[rule.relation], *rule.arguments))))

    def _all_rules(self, env: Env, before: Optional[Env] = None) -> Term:
        return conj([self._rule(one, env, before) for one in self.rules])

    def _below(self, some: Mapping[str, Term], others: Mapping[str, Term]) -> Term:
        """That some relations are within others."""
        return conj([forall(self.arguments[one], imp(beta(app(some[one], *self.arguments[one])), beta(app(others[one], *self.arguments[one]))))
                     for one in self.names])

    def _spec(self, theorem: str, terms: Sequence[Term]) -> str:
        for one in terms:
            theorem = "(SPEC %s %s)" % (self.out.show(one), theorem)
        return theorem

    @staticmethod
    def _gens(variables: Sequence[Term]) -> Steps:
        return ["X_GEN_TAC `%s:%s`" % (one[1], tyshow(one[2])) for one in variables]

    def _assume(self, term: Term) -> str:
        return "(ASSUME %s)" % self.out.show(term)

    def _rule_theorem(self, at: int, rule: Rule) -> str:
        return self._spec(path(self._spec(self.name + "_RULES", self.parameters), at, len(self.rules)), rule.variables)

    # ---- The relations

    def _define(self) -> None:
        env = self._env(self.first)
        for one, variable in zip(self.names, self.first):
            body = forall(self.first, imp(self._all_rules(env), app(variable, *self.arguments[one])))
            self.out.define("pk_%s_DEF" % one, one, [*self.parameters, *self.arguments[one]], body, "<=>")
        for one, type_ in self.types.items():
            self.out.constant(one, type_)

    def _induction(self) -> None:
        env = self._env(self.first)
        proofs: List[Steps] = []
        for at, one in enumerate(self.names):
            others = [variable for number, variable in enumerate(self.first) if number != at]
            proofs.append([*self._gens(self.arguments[one]), "PURE_REWRITE_TAC [pk_%s_DEF]" % one, "DISCH_THEN MATCH_MP_TAC",
                           *["EXISTS_TAC %s" % self.out.show(other) for other in others], "FIRST_ASSUM ACCEPT_TAC"])
        every = [*self.parameters, *self.first]
        statement = forall(every, imp(self._all_rules(env), self._below(self.own, env)))
        self.out.prove(self.name + "_INDUCT", statement, [*self._gens(every), "DISCH_TAC", *conjuncts(proofs)], PUBLIC)

    # ---- That more of the relations is more of what the rules ask

    def _mono_parts(self, some: Env, others: Env) -> List[Term]:
        return [forall(one.variables, imp(beta(subst(one.condition, some)), beta(subst(one.condition, others)))) for one in self.recursive]

    def _monotone(self) -> None:
        some, others = self._env(self.first), self._env(self.second)
        every = [*self.parameters, *self.first, *self.second]
        proofs: List[Steps] = [["REPEAT GEN_TAC"] * bool(one.variables) + [self.monotone.steps(one.condition)] for one in self.recursive]
        statement = forall(every, imp(self._below(some, others), conj(self._mono_parts(some, others))))
        self.out.prove(self.mono, statement, [*self._gens(every), "DISCH_THEN STRIP_ASSUME_TAC", *conjuncts(proofs)])

    def _with_smaller(self, some: Env, others: Env, rest: Steps) -> Steps:
        """Steps over the assumption that what each rule asks of some relations gives what it asks of others."""
        theorem = self._spec(self.mono, [*self.parameters, *some.values(), *others.values()])
        proof: Steps = ["MP_TAC %s" % theorem, "BETA_TAC", "DISCH_THEN MATCH_MP_TAC", "FIRST_ASSUM ACCEPT_TAC"]
        return [("SUBGOAL_THEN %s STRIP_ASSUME_TAC" % self.out.show(conj(self._mono_parts(some, others))), [proof, rest])]

    def _use(self, rule: Rule, some: Env, others: Env) -> Steps:
        """The step from what a rule asks of others to what it asks of some."""
        if rule not in self.recursive:
            return []
        part = self._mono_parts(some, others)[self.recursive.index(rule)]
        return ["MATCH_MP_TAC %s" % self._spec(self._assume(part), rule.variables)]

    # ---- Rules

    def _rules(self) -> None:
        env = self._env(self.first)
        given = self._assume(self._all_rules(env))
        proofs = [self._rule_proof(at, one, given) for at, one in enumerate(self.rules)]
        statement = forall(self.parameters, self._all_rules(self.own))
        self.out.prove(self.name + "_RULES", statement, [*self._gens(self.parameters), *conjuncts(proofs)], PUBLIC)

    def _rule_proof(self, at: int, rule: Rule, given: str) -> Steps:
        unfold = "SUBST1_TAC %s" % self._spec("pk_%s_DEF" % rule.relation, [*self.parameters, *rule.arguments])
        steps: Steps = [*self._gens(rule.variables), *["DISCH_TAC"] * (rule.condition is not None), unfold, *self._gens(self.first), "DISCH_TAC"]
        own = self._spec(path(given, at, len(self.rules)), rule.variables)
        if rule.condition is None:
            return [*steps, "ACCEPT_TAC %s" % own]
        steps.append("MATCH_MP_TAC %s" % own)
        if rule in self.recursive:
            below = "(MP %s %s)" % (self._spec(self.name + "_INDUCT", [*self.parameters, *self.first]), given)
            mono = "(MP %s %s)" % (self._spec(self.mono, [*self.parameters, *self.own.values(), *self.first]), below)
            steps.append("MATCH_MP_TAC %s" % self._spec(path(mono, self.recursive.index(rule), len(self.recursive)), rule.variables))
        return [*steps, "FIRST_ASSUM ACCEPT_TAC"]

    # ---- Cases, by a constant for their right side

    def _parts(self, rule: Rule) -> List[Term]:
        equations = [eq(*pair) for pair in zip(self.arguments[rule.relation], rule.arguments)]
        return equations + ([subst(rule.condition, self.own)] if rule.condition is not None else [])

    def _cases(self) -> None:
        sides: Env = {}
        stepped: Env = {}
        for one, type_ in self.types.items():
            sides[one] = join("\\/", [exists(rule.variables, conj(self._parts(rule) or [const("T", ("bool",))])) for rule in self.rules if rule.relation == one])
            constant = "pk_%s_STEP" % one
            self.out.define(constant + "_DEF", constant, [*self.parameters, *self.arguments[one]], sides[one], "<=>")
            self.out.constant(constant, type_)
            stepped[one] = app(const(constant, type_), *self.parameters)
        back, forth = self._below(stepped, self.own), self._below(self.own, stepped)
        inner: Steps = ["MATCH_MP_TAC %s" % self._spec(self.name + "_INDUCT", [*self.parameters, *stepped.values()])]
        inner += conjuncts([self._into_step(at, one, stepped) for at, one in enumerate(self.rules)])
        last: Steps = [("SUBGOAL_THEN %s ASSUME_TAC" % self.out.show(forth), [inner, conjuncts(
            [self._both(at, one, forth, back) for at, one in enumerate(self.names)])])]
        rest = self._with_smaller(stepped, self.own, last) if self.recursive else last
        proof: Steps = [*self._gens(self.parameters), ("SUBGOAL_THEN %s ASSUME_TAC" % self.out.show(back), [
            conjuncts([self._out_of_step(one) for one in self.names]), rest])]
        statement = conj([forall(self.arguments[one], eq(app(self.own[one], *self.arguments[one]), sides[one])) for one in self.names])
        self.out.prove(self.name + "_CASES", forall(self.parameters, statement), proof, PUBLIC)

    def _step(self, relation: str, arguments: Sequence[Term]) -> str:
        return self._spec("pk_%s_STEP_DEF" % relation, [*self.parameters, *arguments])

    def _both(self, at: int, relation: str, forth: Term, back: Term) -> Steps:
        arguments, number = self.arguments[relation], len(self.names)
        ways: List[Steps] = [["ACCEPT_TAC %s" % self._spec(path(self._assume(one), at, number), arguments)] for one in (forth, back)]
        return [*self._gens(arguments), "SUBST1_TAC (SYM %s)" % self._step(relation, arguments), ("EQ_TAC", ways)]

    def _out_of_step(self, relation: str) -> Steps:
        """That the right side gives the relation."""
        ways = [self._alternative(at, one) for at, one in enumerate(self.rules) if one.relation == relation]
        found = ways[-1]
        for one in reversed(ways[:-1]):
            found = [("POP_ASSUM DISJ_CASES_TAC", [one, found])]
        return [*self._gens(self.arguments[relation]), "SUBST1_TAC %s" % self._step(relation, self.arguments[relation]), "DISCH_TAC", *found]

    def _alternative(self, at: int, rule: Rule) -> Steps:
        number, arguments = len(self._parts(rule)), self.arguments[rule.relation]
        steps: Steps = ["POP_ASSUM (X_CHOOSE_TAC `%s:%s`)" % (one[1], tyshow(one[2])) for one in rule.variables]
        steps.append("POP_ASSUM MP_TAC")
        for place in range(len(arguments)):
            steps += ["MATCH_MP_TAC pk_CURRY"] * (place < number - 1) + ["DISCH_THEN SUBST1_TAC"]
        if rule.condition is not None:
            return [*steps, "DISCH_TAC", "MATCH_MP_TAC %s" % self._rule_theorem(at, rule), "FIRST_ASSUM ACCEPT_TAC"]
        return steps + ["DISCH_TAC"] * (not arguments) + ["ACCEPT_TAC %s" % self._rule_theorem(at, rule)]

    def _into_step(self, at: int, rule: Rule, stepped: Env) -> Steps:
        """That a rule's conclusion gives the right side."""
        own = [number for number, one in enumerate(self.rules) if one.relation == rule.relation]
        place = own.index(at)
        steps: Steps = [*self._gens(rule.variables), *["DISCH_TAC"] * (rule.condition is not None), "SUBST1_TAC %s" % self._step(rule.relation, rule.arguments)]
        steps += ["DISJ2_TAC"] * place + ["DISJ1_TAC"] * (place < len(own) - 1)
        steps += ["EXISTS_TAC `%s:%s`" % (one[1], tyshow(one[2])) for one in rule.variables]
        parts: List[Steps] = [["REFL_TAC"]] * len(self.arguments[rule.relation])
        if rule.condition is not None:
            parts = [*parts, [*self._use(rule, stepped, self.own), "FIRST_ASSUM ACCEPT_TAC"]]
        return steps + (conjuncts(parts) if parts else ["ACCEPT_TAC TRUTH"])

    # ---- Strong induction

    def _strong(self) -> None:
        env = self._env(self.first)
        both = {one: lams(self.arguments[one], operation("/\\", app(self.own[one], *self.arguments[one]), app(env[one], *self.arguments[one])))
                for one in self.names}
        parts = [self._rule(one, env, both) for one in self.rules]
        forth, within = self._below(self.own, both), self._below(both, self.own)
        opened: Steps = ["MP_TAC %s" % self._spec(self.name + "_INDUCT", [*self.parameters, *both.values()]), "BETA_TAC", "DISCH_THEN MATCH_MP_TAC"]
        opened += conjuncts([self._strong_rule(at, one, parts[at], both) for at, one in enumerate(self.rules)])
        taken = conjuncts([[*self._gens(self.arguments[one]), "DISCH_TAC", "ACCEPT_TAC (CONJUNCT2 (MP %s %s))" % (
            self._spec(path(self._assume(forth), at, len(self.names)), self.arguments[one]),
            self._assume(app(self.own[one], *self.arguments[one])))] for at, one in enumerate(self.names)])
        rest: Steps = [("SUBGOAL_THEN %s ASSUME_TAC" % self.out.show(forth), [opened, taken])]
        first: Steps = ["REPEAT CONJ_TAC", "REPEAT GEN_TAC", "DISCH_THEN STRIP_ASSUME_TAC", "FIRST_ASSUM ACCEPT_TAC"]
        every = [*self.parameters, *self.first]
        proof: Steps = [*self._gens(every), "DISCH_THEN STRIP_ASSUME_TAC", ("SUBGOAL_THEN %s ASSUME_TAC" % self.out.show(within), [
            first, self._with_smaller(both, self.own, rest)])]
        self.out.prove(self.name + "_STRONG_INDUCT", forall(every, imp(self._all_rules(env, both), self._below(self.own, env))), proof, PUBLIC)

    def _strong_rule(self, at: int, rule: Rule, part: Term, both: Env) -> Steps:
        assumed, theorem = self._spec(self._assume(part), rule.variables), self._rule_theorem(at, rule)
        if rule.condition is None:
            return [*self._gens(rule.variables), ("CONJ_TAC", [["ACCEPT_TAC %s" % theorem], ["ACCEPT_TAC %s" % assumed]])]
        return [*self._gens(rule.variables), "DISCH_TAC", ("CONJ_TAC", [
            ["MATCH_MP_TAC %s" % theorem, *self._use(rule, both, self.own), "FIRST_ASSUM ACCEPT_TAC"],
            ["MATCH_MP_TAC %s" % assumed, "FIRST_ASSUM ACCEPT_TAC"]])]
