"""Recursion by a measure: a number that gets smaller at each call, by theorem MEASURE_REC of theories/packages.hol.

Functions that call one another are one on a sum of tuples, whose value is a tuple of all values of which each uses its own. What is asked of the
measure is a theorem of its own, proved by parts being smaller than what they are of, and by a few fixed steps on numbers; else it is the user's.
"""

from __future__ import annotations

import itertools
import re
from typing import TYPE_CHECKING, Dict, List, Mapping, NamedTuple, Optional, Sequence, Set, Tuple

from holls.packages.calls import Call, calls, product_type, projected, tuple_term
from holls.packages.clauses import Clause, error
from holls.packages.inference import Inference, namer, type_of
from holls.packages.matching import Leaf, case_term, leaf_statement, splits
from holls.packages.numerals import RULES, is_constant, norm
from holls.packages.output import HIDDEN, Steps, conjuncts
from holls.packages.parsing import Place, Word
from holls.packages.printing import show
from holls.packages.scope import Data
from holls.packages.terms import (BOOL, NUM, Term, Type, all_names, app, args_of, beta, binder, conj, const, eq, forall, frees, fun, imp, lams, same, spine, strip,
                                  subst, tyshow, typeof, var)
from holls.packages.type_commands import need_size
from holls.surface.errors import Misread

if TYPE_CHECKING:
    from holls.packages.functions import Definition, Measure

_MOST_CHOICES = 64
_SMALLER = "pk_SMALLER_TAC"
_OF_PAIRS = {"FST": "FST", "SND": "SND", "UNCURRY": "UNCURRY_DEF"}
"""What a measure of a pair may be written with, and the theorems that reduce it."""
_WRONG = "that the measure is smaller at each call isn't proved by the steps that are tried: prove %s and name it: by_measure .. with THEOREM"


class Statement(NamedTuple):
    """A leaf: its variables, patterns, right side and calls."""

    leaf: Leaf
    variables: List[Term]
    patterns: List[Term]
    right: Term
    calls: List[Call]


class Fact(NamedTuple):
    """That a call is smaller, with both measures, and whether there are conditions."""

    goal: Term
    smaller: Term
    greater: Term
    has_conditions: bool


def path(theorem: str, at: int, number: int) -> str:
    """A part of a conjunction of so many."""
    for _ in range(at):
        theorem = "(CONJUNCT2 %s)" % theorem
    return theorem if at == number - 1 else "(CONJUNCT1 %s)" % theorem


def proof(definition: "Definition", measure: Optional["Measure"], place: Place) -> Steps:
    """Makes what recursion by a measure needs; the proof that functions with the leaves' equations exist. Raises `Misread`."""
    return _Recursion(definition, measure, place).proof()


def _less(left: Term, right: Term) -> Term:
    return app(const("lt", fun(NUM, NUM, BOOL)), left, right)


def _sum_type(types: Sequence[Type]) -> Type:
    found = types[-1]
    for one in reversed(types[:-1]):
        found = ("sum", one, found)
    return found


class _Recursion:
    def __init__(self, definition: "Definition", measure: Optional["Measure"], place: Place) -> None:
        from holls.packages.functions import normalized
        self.definition, self.measure, self.place = definition, measure, place
        self.functions, self.out, self.asking = definition.functions, definition.out, definition.asking
        self.arities = definition.arities
        self.number = {one.name: at for at, one in enumerate(self.functions)}
        self.types = {one.name: args_of(one.type, self.arities[one.name])[0] for one in self.functions}
        self.results = [definition.trees[one.name].result for one in self.functions]
        self.tuples = [product_type(self.types[one.name]) for one in self.functions]
        self.all_types, self.result = _sum_type(self.tuples), product_type(self.results)
        self.normalized = (lambda term: normalized(term, self.arities)) if definition.has_numerals else lambda term: term
        self.statements = [self._statement(leaf) for one in self.functions for leaf in definition.trees[one.name].leaves]
        self._check_calls()
        self.taken: Set[str] = set(self.arities)
        for tree in definition.trees.values():
            self.taken |= tree.taken
        self.taken |= {one[1] for statement in self.statements for one in statement.variables}

    def _statement(self, leaf: Leaf) -> Statement:
        variables, patterns, right = leaf_statement(leaf, self.functions)
        right = self.normalized(right)
        return Statement(leaf, variables, patterns, right, calls(right, self.arities))

    def _check_calls(self) -> None:
        for statement in self.statements:
            for call in statement.calls:
                body = statement.leaf.clause.body
                if call.arguments is None or call.over:
                    raise error(body, "`%s` stands without its arguments here, and the recursion isn't primitive: write a function on lists beside it" % (
                        call.function))
                if any(set(self.arities) & set(frees(one)) for one in call.arguments):
                    raise error(body, "a call of `%s` stands inside an argument of a call: such nested recursion isn't given" % call.function)

    # ---- That calls are smaller

    def _facts(self, measures: Mapping[str, Term]) -> List[Fact]:
        found: List[Fact] = []
        for statement in self.statements:
            for call in statement.calls:
                smaller = beta(app(measures[call.function], *call.arguments))
                greater = beta(app(measures[statement.leaf.clause.function], *statement.patterns))
                conditions = [one for one in call.conditions if not set(self.arities) & set(frees(one))]
                variables = statement.variables + list(call.bound)
                goal = imp(conj(conditions) if conditions else None, _less(smaller, greater))
                found.append(Fact(forall(variables, goal), smaller, greater, bool(conditions)))
        return found

    def _measures(self) -> Tuple[Dict[str, Term], List[Fact], str]:
        """The measures, that each call is smaller, and the theorem that says so."""
        if self.measure is None:
            return self._found()
        written, theorem = self.measure.quotations, self.measure.theorem
        if len(written) != len(self.functions):
            raise Misread(written[-1].start, written[-1].end, "%d functions are defined, and %d measures stand here: one for each, in their order" % (
                len(self.functions), len(written)))
        measures = {one.name: self._read(word, self.types[one.name]) for one, word in zip(self.functions, written)}
        for name in self._constants(measures):
            self._need(name)
        facts = self._facts(measures)
        where = written[0].start, written[-1].end
        wanted = conj([one.goal for one in facts])
        if theorem is None:
            return measures, facts, self._prove(facts, where)
        stated = self.asking.statement(theorem.text)
        if stated is None:
            raise Misread(theorem.start, theorem.end, "no theorem `%s` whose statement is known stands before this command" % theorem.text)
        if not same(norm(stated), norm(wanted)):
            raise Misread(theorem.start, theorem.end, "`%s` isn't that each call is smaller, which is %s" % (theorem.text, self._brief(wanted)))
        return measures, facts, theorem.text

    def _found(self) -> Tuple[Dict[str, Term], List[Fact], str]:
        """The first arguments of which each call has a part."""
        options = [self._sizes(self.types[one.name]) for one in self.functions]
        for choice in itertools.islice(itertools.product(*options), _MOST_CHOICES):
            measures = dict(zip(self.arities, choice))
            facts = self._facts(measures)
            if all(self._chain(one) is not None for one in facts):
                for name in self._constants(measures):
                    self._need(name)
                return measures, facts, self._prove(facts, None)
        clause = next(one.leaf.clause for one in self.statements if one.calls)
        raise error(clause.head, "no argument of %s is a part of itself at each call: say what gets smaller, by_measure `\\x .. . m`%s" % (
            " and ".join("`%s`" % one.name for one in self.functions), ", one for each" if len(self.functions) > 1 else ""))

    def _sizes(self, types: Sequence[Type]) -> List[Term]:
        """The sizes of arguments, as measures."""
        variables = [var("x%d" % at, type_) for at, type_ in enumerate(types)]
        found: List[Term] = []
        for variable, type_ in zip(variables, types):
            data = self.asking.data_of(type_[0]) if isinstance(type_, tuple) else None
            if data is not None and data.size != "":
                found.append(lams(variables, variable if data.size is None else app(const(data.size, fun(type_, NUM)), variable)))
        return found

    @staticmethod
    def _constants(measures: Mapping[str, Term]) -> List[str]:
        return sorted(all_names(measures.values()))

    def _need(self, name: str) -> None:
        """Has the constant of a type's size stand."""
        if name.endswith("_SIZE"):
            data = self.asking.data_of(name[:-len("_SIZE")])
            if data is not None and data.size == name:
                need_size(data, self.out)

    def _read(self, word: Word, types: Sequence[Type]) -> Term:
        """A measure, as a function of the arguments one by one."""
        tree = self.place.term(word)
        inference = Inference(_WithSizes(self.asking))
        term = inference.term(tree, {})
        is_paired = len(types) > 1 and term[0] == "@" and is_constant(term[1], "UNCURRY")
        wanted = fun(product_type(types), NUM) if is_paired else fun(*types, NUM)
        inference.need(type_of(term), wanted, tree, "the measure is of type %s: it is a number of the arguments, %s")
        if inference.free:
            raise error(tree, "the measure has the free variable `%s`" % next(iter(inference.free)))
        closed = inference.closed(term, namer(tree, self.asking))
        return _curried(closed, len(types)) if is_paired else closed

    def _prove(self, facts: Sequence[Fact], where: Optional[Tuple[int, int]]) -> str:
        """Makes the theorem that each call is smaller."""
        name = "pk_%s_TERM" % self.definition.name
        wanted = conj([one.goal for one in facts])
        before = len(self.out.plain)
        self.out.prove(name, wanted, conjuncts([self._steps(one) for one in facts]), HIDDEN, where)
        told = _WRONG % self._brief(wanted)
        self.out.plain[before:] = [one._replace(told=told) for one in self.out.plain[before:]]
        return name

    def _steps(self, fact: Fact) -> Steps:
        chain = self._chain(fact)
        if chain is not None:
            return chain
        constants = self._constants({"": fact.goal})
        sizes = sorted(name for name in constants if name.endswith("_SIZE")) + [_OF_PAIRS[name] for name in sorted(_OF_PAIRS) if name in constants]
        rewrite = "REWRITE_TAC [%s] THEN " % "; ".join([*sizes, "FORALL_SIMP"]) if sizes else ""
        return ["TRY (CHANGED_TAC (%sBETA_TAC))" % rewrite if sizes else "ALL_TAC", _SMALLER]

    def _chain(self, fact: Fact) -> Optional[Steps]:
        """The steps by which a part is smaller than what it is of; None where the call isn't at one."""
        first, second = self._sized(fact.smaller), self._sized(fact.greater)
        if first is None or second is None or first[0].name != second[0].name or first[0].less is None:
            return None
        data, part, size = first
        between = _between(data, norm(part), norm(second[1]))
        if between is None:
            return None
        steps = ["REPEAT GEN_TAC" + " THEN DISCH_TAC" * fact.has_conditions] if between else []
        for one in between:
            shown = self.out.show(app(size, one) if size else one) if self._stands(data) else ""
            steps.append("MATCH_MP_TAC LT_TRANS THEN EXISTS_TAC %s THEN CONJ_TAC THENL [ALL_TAC; REWRITE_TAC [%s]]" % (shown, data.less))
        numerals = ["PURE_REWRITE_TAC [%s]" % "; ".join(RULES)] if data.name == "num" else []
        return [" THEN ".join([*steps[:1], *numerals, *steps[1:], "REWRITE_TAC [%s; FORALL_SIMP]" % data.less])]

    def _stands(self, data: Data) -> bool:
        """Whether the constant of a type's size can be written: it is asked for before it is made."""
        return data.size is None or self.asking.type_of(data.size) is not None

    def _sized(self, term: Term) -> Optional[Tuple[Data, Term, Optional[Term]]]:
        """The element of which a term is the size."""
        head, arguments = spine(term)
        if head[0] == "c" and len(arguments) == 1 and isinstance(typeof(arguments[0]), tuple):
            data = self.asking.data_of(typeof(arguments[0])[0])
            if data is not None and data.size == head[1]:
                return data, arguments[0], head
        number = self.asking.data_of("num")
        return (number, term, None) if number else None

    def _brief(self, term: Term) -> str:
        """A statement as a person would write it: without most types."""
        shown = show(term, self.asking.general)
        return "`%s`" % re.sub(r"\(([A-Za-z_][A-Za-z0-9_']*):[A-Za-z0-9_' ]*\)", r"\1", shown)

    # ---- The functions

    def _injected(self, at: int, term: Term) -> Term:
        """A tuple among those of all functions."""
        for place in range(at, -1, -1):
            if place == len(self.tuples) - 1:
                continue
            whole = _sum_type(self.tuples[place:])
            side = "INL" if place == at else "INR"
            term = app(const(side, fun(whole[1 if place == at else 2], whole)), term)
        return term

    def _by_function(self, parts: Sequence[Term], result: Type) -> Term:
        """What is one of these by the function whose tuple it is."""
        found = parts[-1]
        for at in range(len(parts) - 2, -1, -1):
            type_ = fun(fun(self.tuples[at], result), fun(_sum_type(self.tuples[at + 1:]), result), _sum_type(self.tuples[at:]), result)
            found = app(const("sum_CASE", type_), parts[at], found)
        return found

    def _tupled(self, term: Term, head: Term) -> Term:
        """The term with calls of the one function for those of all."""
        function, arguments = spine(term)
        if function[0] == "v" and function[1] in self.arities:
            number, at = self.arities[function[1]], self.number[function[1]]
            inside = tuple_term([self._tupled(one, head) for one in arguments[:number]])
            value = projected(at, len(self.functions), app(head, self._injected(at, inside)))
            return app(value, *[self._tupled(one, head) for one in arguments[number:]])
        if term[0] == "@":
            return ("@", self._tupled(term[1], head), self._tupled(term[2], head))
        return ("\\", term[1], term[2], self._tupled(term[3], head)) if term[0] == "\\" else term

    def _anything(self, type_: Type) -> Term:
        return binder("@", [var(self.asking.fresh("y", set(self.taken)), type_)], const("T", BOOL))

    def _bodies(self, own: Term) -> List[Term]:
        found: List[Term] = []
        for at, one in enumerate(self.functions):
            tree = self.definition.trees[one.name]
            body = case_term(tree.root, tree.result, lambda leaf: self._tupled(self.normalized(subst(leaf.clause.right, leaf.bound)), own))
            values = [body if place == at else self._anything(type_) for place, type_ in enumerate(self.results)]
            found.append(_uncurried(tree.arguments, tuple_term(values)))
        return found

    def proof(self) -> Steps:
        """Makes the body and the theorem on its calls; the proof that the functions exist."""
        measures, facts, theorem = self._measures()
        name = "pk_%s_BODY" % self.definition.name
        all_fun = fun(self.all_types, self.result)
        at, function = var(self.asking.fresh("p", self.taken), self.all_types), var(self.asking.fresh("f", self.taken), all_fun)
        own = var(self.asking.fresh("g", self.taken), all_fun)
        body = self._by_function(self._bodies(own), self.result)
        self.out.define(name + "_DEF", name, [own, at], app(body, at))
        self.out.constant(name, fun(all_fun, self.all_types, self.result))
        measured = []
        for one in self.functions:
            variables = [var("x%d" % number, type_) for number, type_ in enumerate(self.types[one.name])]
            measured.append(_uncurried(variables, beta(app(measures[one.name], *variables))))
        measure = self._by_function(measured, NUM)
        constant = const(name, fun(all_fun, self.all_types, self.result))
        assumed = self._assumed(measure, constant, function, at)
        witnesses = [lams(self.definition.trees[one.name].arguments, projected(number, len(self.functions), app(function, self._injected(
            number, tuple_term(self.definition.trees[one.name].arguments))))) for number, one in enumerate(self.functions)]
        start = "MP_TAC (SPEC %s (SPEC %s (INST_TYPE [`:%s`,`:A`; `:%s`,`:B`] MEASURE_REC)))" % (
            self.out.show(constant), self.out.show(measure), tyshow(self.all_types), tyshow(self.result))
        steps: Steps = [start, "BETA_TAC", "DISCH_THEN (X_CHOOSE_TAC `%s:%s`)" % (function[1], tyshow(function[2]))]
        steps += ["EXISTS_TAC %s" % self.out.show(one) for one in witnesses]
        leaves = [self._leaf(one, facts, theorem, name, function, assumed) for one in self._ordered()]
        return [*steps, "BETA_TAC", *conjuncts(leaves)]

    def _assumed(self, measure: Term, constant: Term, function: Term, at: Term) -> Term:
        """What the one function satisfies."""
        other = var(self.asking.fresh("z", self.taken), self.all_types)
        result = self.result
        choice = binder("@", [var(self.asking.fresh("y", self.taken), result)], const("T", BOOL))
        condition = _less(app(measure, other), app(measure, at))
        guard = lams([other], app(const("COND", fun(BOOL, result, result, result)), condition, app(function, other), choice))
        return beta(forall([at], eq(app(function, at), app(constant, guard, at))))

    def _ordered(self) -> List[Statement]:
        return [one for clause in self.definition.clauses for one in self.statements if one.leaf.clause is clause]

    def _first(self, leaf: Leaf) -> int:
        """The number of the first fact on a leaf's calls."""
        found = 0
        for one in self.statements:
            if one.leaf is leaf:
                return found
            found += len(one.calls)
        return found

    def _leaf(self, statement: Statement, facts: Sequence[Fact], theorem: str, name: str, function: Term, assumed: Term) -> Steps:
        """The proof of a leaf's equation: it is unfolded once, and the facts on its calls say that these are smaller."""
        first = self._first(statement.leaf)
        given: List[str] = []
        conditions: List[Term] = []
        for number, call in enumerate(statement.calls):
            fact = path(theorem, first + number, len(facts))
            variables = strip(facts[first + number].goal)[0]
            for one in variables[:len(variables) - len(call.bound)]:
                fact = "(SPEC `%s:%s` %s)" % (one[1], tyshow(one[2]), fact)
            given.append("MP_TAC %s" % fact)
            self._add_conditions(conditions, call, statement.leaf.clause, function)
        several = len(self.functions) > 1
        injected = self._injected(self.number[statement.leaf.clause.function], tuple_term(statement.patterns))
        unfold = "SUBST1_TAC (SPEC %s (ASSUME %s))" % (self.out.show(injected), self.out.show(assumed))
        rules = "; ".join(self._rules() + ["sum_CASE", "FST", "SND"] * several)
        steps: Steps = ["X_GEN_TAC `%s:%s`" % (one[1], tyshow(one[2])) for one in statement.variables]
        steps += [unfold, "POP_ASSUM MP_TAC", "MATCH_MP_TAC pk_FORGET", *given, "PURE_REWRITE_TAC [%s_DEF]" % name, "BETA_TAC",
                  "REPEAT (CHANGED_TAC (PURE_REWRITE_TAC [%s] THEN BETA_TAC))" % rules]
        steps += ["DISJ_CASES_TAC (SPEC %s EXCLUDED_MIDDLE) THEN ASM_REWRITE_TAC [COND_CLAUSES]" % self.out.show(one) for one in conditions]
        return steps + ["REPEAT DISCH_TAC", "ASM_REWRITE_TAC [%s]" % "; ".join(["COND_CLAUSES"] + ["FST", "SND"] * several)]

    def _rules(self) -> List[str]:
        found: Dict[str, None] = {"UNCURRY_DEF": None}
        for one in self.functions:
            for split in splits(self.definition.trees[one.name].root):
                found.setdefault(split.data.case_theorem)
        return list(found)

    def _add_conditions(self, found: List[Term], call: Call, clause: Clause, function: Term) -> None:
        """The conditions of a call that aren't among those that are found, without negations."""
        for one in call.conditions:
            plain = one[2] if one[0] == "@" and is_constant(one[1], "~") else one
            if any(variable[1] in frees(plain) for variable in call.bound):
                raise error(clause.body, "a call under a binder stands under a condition on the bound variable")
            plain = self._tupled(plain, function)
            if not any(same(plain, other) for other in found):
                found.append(plain)


class _WithSizes:
    """What stands, with the constants of types' sizes, which are made where they are needed."""

    def __init__(self, asking: "object") -> None:
        self.asking = asking

    def arity_of(self, name: str) -> Optional[int]:
        return self.asking.arity_of(name)

    def type_of(self, name: str) -> Optional[Type]:
        found = self.asking.type_of(name)
        if found is None and name.endswith("_SIZE"):
            data = self.asking.data_of(name[:-len("_SIZE")])
            return fun(data.type, NUM) if data is not None and data.size == name else None
        return found


def _between(data: Data, part: Term, whole: Term) -> Optional[List[Term]]:
    """The parts between a part and what it is of; None where it is no part."""
    head, arguments = spine(whole)
    constructor = data.constructor(head[1]) if head[0] == "c" else None
    if constructor is None:
        return None
    for one, kind in zip(arguments, constructor.kinds):
        if kind == "r":
            if same(one, part):
                return []
            inner = _between(data, part, one)
            if inner is not None:
                return [one] + inner
    return None


def _uncurried(variables: Sequence[Term], body: Term) -> Term:
    """A function of a tuple."""
    found = lams([variables[-1]], body)
    for one in reversed(variables[:-1]):
        function = lams([one], found)
        inner = typeof(found)
        found = app(const("UNCURRY", fun(typeof(function), ("prod", one[2], inner[1]), inner[2])), function)
    return found


def _curried(term: Term, number: int) -> Term:
    """A function of a tuple as one of its parts one by one."""
    if number == 1:
        return term
    if term[0] == "@" and is_constant(term[1], "UNCURRY") and term[2][0] == "\\":
        inner = term[2]
        return lams([var(inner[1], inner[2])], _curried(inner[3], number - 1))
    pair = typeof(term)[1]
    first, second = var("p%d" % number, pair[1]), var("q%d" % number, pair[2])
    both = app(const("pair", fun(pair[1], pair[2], pair)), first, second)
    return lams([first], _curried(lams([second], beta(app(term, both))), number - 1))
