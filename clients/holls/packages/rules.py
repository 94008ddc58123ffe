"""The rules of inductive relations: what is written, and that more of the relations is more of what stands before a rule's conclusion."""

from __future__ import annotations

from dataclasses import dataclass
from typing import Dict, FrozenSet, List, Mapping, Optional, Sequence, Set, Tuple

from holls.packages.clauses import conjuncts, error, stripped, tree_spine
from holls.packages.inference import typed
from holls.packages.output import goals
from holls.packages.scope import Asking
from holls.packages.terms import (BOOL, Term, Type, app, args_of, beta, conj, frees, is_binder, is_operation, same, spine, strip, subst, term_tyvars,
                                  tyinst, tymatch, typeof, tyvars, var)
from holls.packages.terms import conjuncts as term_conjuncts
from holls.surface.errors import Misread
from holls.surface.tree import Annotation, Application, Binder, Connective, Name, Negation
from holls.surface.tree import Term as Tree

LIBRARY = ("MONO_ALL_P", "MONO_EX_P")
"""The theorems of monotonicity that are known, beside those of logic."""
MOST_RULES = 60


@dataclass(eq=False)
class Rule:
    """A rule: its variables, what it asks, its relation and the arguments there."""

    variables: List[Term]
    condition: Optional[Term]
    relation: str
    arguments: List[Term]


@dataclass(eq=False)
class Rules:
    """Rules with the relations' types, and the parameters: variables that are the first arguments everywhere. The rules are without these."""

    relations: Dict[str, Type]
    parameters: List[Term]
    rules: List[Rule]


def _conclusion(part: Tree) -> Tuple[List[Tree], Tree]:
    """What a rule asks, and what it concludes."""
    conditions: List[Tree] = []
    while True:
        part = stripped(part)
        if part.__class__ is not Connective or part.symbol != "==>":
            return conditions, part
        conditions.append(part.left)
        part = part.right


def uses(tree: Tree, relations: Mapping[str, int]) -> List[Name]:
    """Where relations stand in a tree, but for names that are bound."""
    found: List[Name] = []
    waiting: List[Tuple[Tree, FrozenSet[str]]] = [(tree, frozenset())]
    while waiting:
        node, bound = waiting.pop()
        kind = node.__class__
        if kind is Name and node.text in relations and node.text not in bound:
            found.append(node)
        elif kind is Application:
            waiting += [(node.argument, bound), (node.function, bound)]
        elif kind is Connective:
            waiting += [(node.right, bound), (node.left, bound)]
        elif kind is Negation:
            waiting.append((node.body, bound))
        elif kind is Annotation:
            waiting.append((node.term, bound))
        elif kind is Binder:
            waiting.append((node.body, bound | {node.name}))
    return found


class RuleReader:
    """Reads a quotation of rules. `theorems` say that the user's own constants are monotone."""

    def __init__(self, tree: Tree, asking: Asking, theorems: Sequence[str]) -> None:
        self.tree, self.asking = tree, asking
        self.theorems = [*LIBRARY, *theorems]
        self.parts = conjuncts(tree)
        if len(self.parts) > MOST_RULES:
            raise error(self.parts[MOST_RULES], "at most %d rules stand together" % MOST_RULES)
        self.arities: Dict[str, int] = {}
        for part in self.parts:
            self._take(_conclusion(part)[1])

    def _take(self, concluded: Tree) -> None:
        head, arguments = tree_spine(concluded)
        if concluded.__class__ in (Connective, Negation, Binder) or head.__class__ is not Name:
            raise error(concluded, "a rule ends in the relation, applied to arguments: `.. ==> R x y`")
        if self.asking.is_constant(head.text):
            raise error(head, "the constant `%s` stands already: another name for the relation" % head.text, ("const", head.text))
        if self.arities.setdefault(head.text, len(arguments)) != len(arguments):
            raise error(concluded, "`%s` has %d arguments here and %d above" % (head.text, len(arguments), self.arities[head.text]))

    def read(self) -> Rules:
        """The rules. Raises `Misread` where a relation stands where more of it isn't more of the whole, or a variable is lost."""
        for part in self.parts:
            conditions, concluded = _conclusion(part)
            for one in tree_spine(concluded)[1]:
                for use in uses(one, self.arities):
                    raise error(use, "`%s` stands in an argument of a rule's conclusion" % use.text)
            for one in conditions:
                self._check(one)
        term, free = typed(self.tree, self.asking, BOOL)
        relations = {name: free[name] for name in self.arities}
        parameters = self._parameters(free)
        term = self._without(term, relations, parameters)
        rules = [self._rule(one, relations, part) for one, part in zip(term_conjuncts(term), self.parts)]
        return Rules(relations, parameters, rules)

    def _parameters(self, free: Mapping[str, Type]) -> List[Term]:
        """The variables that are free in the rules, in the order of the first conclusion."""
        _, arguments = tree_spine(_conclusion(self.parts[0])[1])
        order = [one.text for one in arguments if one.__class__ is Name]
        names = [name for name in free if name not in self.arities]
        names.sort(key=lambda name: order.index(name) if name in order else len(order))
        return [var(name, free[name]) for name in names]

    def _without(self, term: Term, relations: Mapping[str, Type], parameters: Sequence[Term]) -> Term:
        """The rules with relations that have no parameters any more."""
        head, arguments = spine(term)
        number = len(parameters)
        if head[0] == "v" and head[1] in relations:
            given = arguments[:number]
            if len(given) < number or any(one[0] != "v" or one[1] != other[1] for one, other in zip(given, parameters)):
                shown, is_one = ", ".join("`%s`" % one[1] for one in parameters), number == 1
                raise error(self.tree, "the variable%s %s %s free in the rules: quantify by !, or make %s the first argument%s of %s everywhere" % (
                    "" if is_one else "s", shown, "is" if is_one else "are", "it" if is_one else "them", "" if is_one else "s",
                    ", ".join("`%s`" % name for name in relations)))
            rest = args_of(relations[head[1]], number)[1]
            return app(var(head[1], rest), *[self._without(one, relations, parameters) for one in arguments[number:]])
        if term[0] == "@":
            return ("@", self._without(term[1], relations, parameters), self._without(term[2], relations, parameters))
        return ("\\", term[1], term[2], self._without(term[3], relations, parameters)) if term[0] == "\\" else term

    def _rule(self, term: Term, relations: Mapping[str, Type], part: Tree) -> Rule:
        variables: List[Term] = []
        conditions: List[Term] = []
        while True:
            more, term = strip(term)
            variables += more
            if not is_operation(term, "==>"):
                break
            conditions.append(term[1][2])
            term = term[2]
        head, arguments = spine(term)
        used = {name for one in (term, *conditions) for name in frees(one)}
        known = [set(tyvars(type_)) for type_ in relations.values()]
        lost = [name for one in (*conditions, *arguments) for name in term_tyvars(one) if any(name not in every for every in known)]
        if lost:
            raise error(part, "the type variable `%s` of this rule stands in the type of %s: annotate" % (
                lost[0], "no relation" if len(relations) == 1 else "not every relation that is defined here"))
        return Rule([one for one in variables if one[1] in used], conj(conditions) if conditions else None, head[1], arguments)

    # ---- Where relations may stand

    def _check(self, tree: Tree) -> None:
        """Raises `Misread` where a relation stands where more of it isn't more of the whole."""
        waiting = [tree]
        while waiting:
            node = waiting.pop()
            found = uses(node, self.arities)
            if found:
                waiting += self._parts(node, found[0])

    def _parts(self, node: Tree, use: Name) -> List[Tree]:
        """The parts in which relations have to be looked at; `use` is where the first one stands."""
        kind = node.__class__
        if kind is Connective and node.symbol in ("/\\", "\\/"):
            return [node.right, node.left]
        if kind is Connective and node.symbol == "==>":
            for one in uses(node.left, self.arities):
                raise error(one, "not monotone: `%s` stands on the left of ==>" % one.text)
            return [node.right]
        if kind is Binder and node.kind in ("!", "?", "\\"):
            return [node.body]
        if kind is Annotation:
            return [node.term]
        if kind is Negation:
            raise error(use, "not monotone: `%s` stands under ~" % use.text)
        if kind is Connective:
            raise error(use, "not monotone: `%s` stands beside %s" % (use.text, node.symbol))
        if kind is Binder:
            raise error(use, "not monotone: `%s` stands under %s" % (use.text, node.kind))
        return self._arguments(node, use)

    def _arguments(self, node: Tree, use: Name) -> List[Tree]:
        head, arguments = tree_spine(node)
        if head.__class__ is not Name:
            raise error(use, "not monotone: `%s` stands in what is applied" % use.text)
        if head.text in self.arities:
            for one in arguments:
                for other in uses(one, self.arities):
                    raise error(other, "not monotone: `%s` stands in an argument of `%s`" % (other.text, head.text))
            return []
        if head.text == "COND" and len(arguments) == 3 and not uses(arguments[0], self.arities):
            return [arguments[2], arguments[1]]
        return self._by_theorem(head.text, arguments, use)

    def _by_theorem(self, name: str, arguments: List[Tree], use: Name) -> List[Tree]:
        for theorem in self.theorems:
            found = monotone(self.asking.statement(theorem))
            if found is None or found[0][0][0] != "c" or found[0][0][1] != name or len(found[0][1]) != len(arguments):
                continue
            waiting = []
            for one, before, after in zip(arguments, found[0][1], found[1][1]):
                if uses(one, self.arities):
                    if same(before, after):
                        raise error(use, "not monotone: `%s` stands in an argument of `%s` for which `%s` says nothing" % (use.text, name, theorem))
                    waiting.append(one)
            return waiting
        raise error(use, "not known to be monotone: `%s` stands under `%s`; name a theorem `(!x. P x ==> Q x) ==> %s P .. ==> %s Q ..`: "
                         "inductive NAME [THEOREM] `..`" % (use.text, name, name, name))


def monotone(statement: Optional[Term]) -> Optional[Tuple[Tuple[Term, List[Term]], Tuple[Term, List[Term]], Term]]:
    """Of a theorem `premises ==> c .. ==> c ..` both of these, taken apart, and the premises."""
    if statement is None:
        return None
    body = strip(statement)[1]
    if not is_operation(body, "==>") or not is_operation(body[2], "==>"):
        return None
    return spine(body[2][1][2]), spine(body[2][2]), body[1][2]


class Monotone:
    """Steps for `t with P ==> t with Q` over assumptions `!x. P x ==> Q x`."""

    def __init__(self, relations: Set[str], asking: Asking, theorems: Sequence[str]) -> None:
        self.relations, self.asking, self.theorems = relations, asking, [*LIBRARY, *theorems]

    def steps(self, term: Term) -> str:
        """The steps for a term."""
        if not set(frees(term)) & self.relations:
            return "DISCH_THEN ACCEPT_TAC"
        for symbol, theorem in (("/\\", "MONO_AND"), ("\\/", "MONO_OR")):
            if is_operation(term, symbol):
                return "MATCH_MP_TAC %s THEN %s" % (theorem, goals([self.steps(term[1][2]), self.steps(term[2])]))
        if is_operation(term, "==>"):
            return "MATCH_MP_TAC MONO_IMP THEN CONJ_TAC THENL [DISCH_THEN ACCEPT_TAC; %s]" % self.steps(term[2])
        for symbol, theorem in (("!", "MONO_FORALL_P"), ("?", "MONO_EXISTS_P")):
            if is_binder(term, symbol):
                return "MATCH_MP_TAC %s THEN BETA_TAC THEN GEN_TAC THEN %s" % (theorem, self.steps(term[2][3]))
        head, arguments = spine(term)
        if head[0] == "v" and head[1] in self.relations:
            return "DISCH_TAC THEN FIRST_ASSUM MATCH_MP_TAC THEN FIRST_ASSUM ACCEPT_TAC"
        if head[0] == "c" and head[1] == "COND":
            return "MATCH_MP_TAC MONO_COND THEN %s" % goals([self.steps(arguments[1]), self.steps(arguments[2])])
        return self._by_theorem(head, arguments)

    def _by_theorem(self, head: Term, arguments: List[Term]) -> str:
        for theorem in self.theorems:
            found = monotone(self.asking.statement(theorem))
            if found is None or found[0][0][:2] != head[:2] or len(found[0][1]) != len(arguments):
                continue
            to: Dict[str, Term] = {}
            types: Dict[str, Type] = {}
            for pattern, one in zip(found[0][1], arguments):
                if pattern[0] == "v":
                    to[pattern[1]] = one
                    tymatch(pattern[2], typeof(one), types)
            parts = []
            for premise in term_conjuncts(found[2]):
                variables, inner = strip(premise)
                parts.append("GEN_TAC THEN " * len(variables) + self.steps(beta(subst(tyinst(inner[1][2], types), to))))
            return "MATCH_MP_TAC %s THEN BETA_TAC THEN %s" % (theorem, goals(parts))
        raise Misread(0, 1, "not known to be monotone: `%s`" % head[1])
