"""Steps that a client expands by the goal's text: `INDUCT_ON `x``, `CASES_ON `t`` and `RULE_INDUCT R`, first in a command `e`.

The goal is known behind its `g`, and behind steps that only take quantifiers and premises off it. Elsewhere the term's variables are taken to be free
in the goal, with the types that they have in the statement.
"""

from __future__ import annotations

import re
from dataclasses import dataclass, replace
from typing import Dict, List, NamedTuple, Optional, Sequence, Set, Tuple

from holls.packages import predicates
from holls.packages.inference import check_depth, typed
from holls.packages.output import goals
from holls.packages.printing import show
from holls.packages.scope import LIBRARY, THEORY, Asking, Data
from holls.packages.terms import BOOL, Term, Type, forall, frees, fresh, is_operation, lams, names, spine, strip, subst, tyshow, typeof, var
from holls.surface.errors import Misread
from holls.surface.reader import Reader
from holls.surface.table import EMPTY

WORDS: Dict[str, str] = {"INDUCT_ON": "INDUCT_ON `x`", "CASES_ON": "CASES_ON `t`", "RULE_INDUCT": "RULE_INDUCT R"}
"""The steps, and how each is written."""
MAYBE = re.compile("|".join(WORDS))
"""What a text has in which one of them may stand."""
_STEP = re.compile(r"(?<![A-Za-z0-9_'])(INDUCT_ON|CASES_ON|RULE_INDUCT)(?![A-Za-z0-9_'])\s*(?:`([^`]*)`|([A-Za-z_][A-Za-z0-9_']*))?")
_TAKING = re.compile(r"\s*(?:(REPEAT GEN_TAC)|(GEN_TAC)|(X_GEN_TAC)\s*`([^`]*)`|(DISCH_TAC))\s*\Z")


class Change(NamedTuple):
    """A range of a command's text, and what stands there instead."""

    start: int
    end: int
    text: str


@dataclass(frozen=True)
class Goal:
    """A goal: what it concludes, what it assumes, and the types of its free variables; whether it is known."""

    concluded: Term
    assumed: Tuple[Term, ...]
    free: Dict[str, Type]
    is_known: bool = True


def outside(text: str) -> str:
    """A text with blanks for its quotations, of the same length."""
    parts = text.split("`")
    return "`".join(part if not number % 2 else " " * len(part) for number, part in enumerate(parts))


def changes(text: str, asking: Asking, statement: Optional[str], before: Sequence[str]) -> List[Change]:
    """What a command `e` has in place of such a step. Raises `Misread`."""
    plain = outside(text)
    found = next((one for one in _STEP.finditer(text) if plain[one.start():one.start() + 1].strip()), None)
    if found is None:
        return []
    word, where = found.group(1), (found.start(1), found.end(1))
    if plain[1:found.start()].strip(" \t\r\n("):
        raise Misread(*where, "%s stands first in a command: what it does depends on the goal" % word)
    if statement is None:
        raise Misread(*where, "no proof is open here")
    argument = found.group(2) if found.group(2) is not None else found.group(3)
    if argument is None or (word == "RULE_INDUCT") != (found.group(3) is not None):
        raise Misread(*where, "this step is written %s" % WORDS[word])
    try:
        goal = _goal(asking, statement, before)
    except Misread as error:
        raise Misread(*where, "the goal can't be read for this step: %s" % error.text) from None
    span = found.span(2) if found.group(2) is not None else found.span(3)
    made = _Step(word, argument, span, goal, asking).text()
    return [Change(found.start(), found.end(), "(%s)" % made)]


def _read(text: str, asking: Asking, free: Optional[Dict[str, Type]] = None, wanted: Optional[Type] = None) -> Tuple[Term, Dict[str, Type]]:
    reader = Reader(text.strip(), EMPTY, None)
    return typed(check_depth(reader.ended(reader.term())), asking, wanted, free)


def _goal(asking: Asking, statement: str, before: Sequence[str]) -> Goal:
    """The goal behind a statement and the steps of its proof."""
    term, free = _read(statement, asking, None, BOOL)
    goal = Goal(term, (), free)
    for text in before:
        for one in re.split(r"\bTHEN\b", text[1:]):
            taken = _taken(goal, one)
            if taken is None:
                return replace(goal, free={**_all_variables(term), **goal.free}, is_known=False)
            goal = taken
    return goal


def _all_variables(term: Term) -> Dict[str, Type]:
    """The variables of a statement by their names: the first of each."""
    found: Dict[str, Type] = {}
    waiting = [term]
    while waiting:
        one = waiting.pop()
        if one[0] == "@":
            waiting += [one[2], one[1]]
        elif one[0] == "\\":
            found.setdefault(one[1], one[2])
            waiting.append(one[3])
        elif one[0] == "v":
            found.setdefault(one[1], one[2])
    return found


def _taken(goal: Goal, step: str) -> Optional[Goal]:
    """The goal behind a step that takes quantifiers or a premise off; None behind another one."""
    found = _TAKING.match(step)
    if found is None:
        return None
    if found.group(5):
        if not is_operation(goal.concluded, "==>"):
            return None
        return replace(goal, concluded=goal.concluded[2], assumed=goal.assumed + (goal.concluded[1][2],))
    variables, _ = strip(goal.concluded)
    number = len(variables) if found.group(1) else 1
    if number > len(variables) or not found.group(1) and not variables:
        return None
    concluded, free = goal.concluded, dict(goal.free)
    for _ in range(number):
        bound = concluded[2]
        name = found.group(4).split(":")[0].strip(" (") if found.group(4) else bound[1]
        if name in free:
            return None
        free[name] = bound[2]
        concluded = subst(bound[3], {bound[1]: var(name, bound[2])})
    return replace(goal, concluded=concluded, free=free)


class _Step:
    """A step's plain text."""

    def __init__(self, word: str, argument: str, span: Tuple[int, int], goal: Goal, asking: Asking) -> None:
        self.word, self.argument, self.span, self.goal, self.asking = word, argument, span, goal, asking
        self.variables, self.body = strip(goal.concluded) if goal.is_known else ([], goal.concluded)
        used: Set[str] = set(goal.free)
        self.own = [var(asking.fresh(one[1], used), one[2]) for one in self.variables]

    def wrong(self, text: str) -> Misread:
        """An error at the argument."""
        return Misread(self.span[0], max(self.span[1], self.span[0] + 1), text)

    def text(self) -> str:
        """The plain steps."""
        return self._by_rules() if self.word == "RULE_INDUCT" else self._by_type()

    def _shown(self, term: Term) -> str:
        return "`%s`" % show(term, self.asking.general)

    def _taken(self, variables: Sequence[Term]) -> List[str]:
        return ["X_GEN_TAC %s" % self._shown(one) for one in variables]

    def _back(self, variables: Sequence[Term]) -> List[str]:
        return ["SPEC_TAC (%s,%s)" % (self._shown(one), self._shown(one)) for one in reversed(variables)]

    def _by_type(self) -> str:
        term, steps = self._term()
        type_ = typeof(term)
        data = self.asking.data_of(type_[0]) if isinstance(type_, tuple) else None
        if data is None and not self.asking.has_base and isinstance(type_, tuple) and type_[0] in LIBRARY:
            raise self.wrong("%s at a %s rests on the theory %s: write import %s;; above the proof" % (self.word, type_[0], THEORY, THEORY))
        if data is None:
            raise self.wrong("`%s` is of type `%s`, which is no inductive type" % (self.argument, tyshow(type_)))
        if self.word == "INDUCT_ON" and term[0] != "v":
            raise self.wrong("induction is on a variable")
        begun = predicates.by_induction(data) if self.word == "INDUCT_ON" else predicates.by_cases(data, self.asking)
        return " THEN ".join([*steps, begun, *self._split(data)])

    @staticmethod
    def _split(data: Data) -> List[str]:
        number = len(data.constructors)
        return [goals(["ALL_TAC"] * number)] if number > 1 else []

    def _term(self) -> Tuple[Term, List[str]]:
        """The term, and the steps by which it is the goal's outermost variable."""
        name = self.argument.split(":")[0].strip()
        at = next((number for number in reversed(range(len(self.variables))) if self.variables[number][1] == name), None)
        if at is not None:
            steps = self._taken(self.own[:at + 1]) + self._back(self.own[:at]) + self._back([self.own[at]]) if at else []
            return self.own[at], steps
        try:
            term, free = _read(self.argument, self.asking, dict(self.goal.free))
        except Misread as error:
            raise self.wrong(error.text) from None
        lost = next((one for one in free if one not in self.goal.free), None)
        if lost is not None:
            raise self.wrong("no variable `%s` stands in the goal" % lost)
        undone = [one for one in self.goal.assumed if set(frees(term)) & set(frees(one))]
        taken = set(self.goal.free) | names(self.goal.concluded)
        variable = term if term[0] == "v" else var(self.asking.fresh(fresh("x", taken), taken), typeof(term))
        return term, ["UNDISCH_TAC %s" % self._shown(one) for one in undone] + ["SPEC_TAC (%s,%s)" % (self._shown(term), self._shown(variable))]

    def _by_rules(self) -> str:
        relation = self.asking.relation(self.argument)
        if relation is None:
            raise self.wrong("`%s` is no inductive relation here" % self.argument)
        if len(relation.group) > 1:
            raise self.wrong("`%s` was defined together with %s: use %s_INDUCT" % (
                self.argument, ", ".join("`%s`" % one for one in relation.group if one != self.argument), relation.name))
        body = subst(self.body, {one[1]: own for one, own in zip(self.variables, self.own)})
        if not self.goal.is_known or not is_operation(body, "==>") or spine(body[1][2])[0][1] != self.argument:
            raise self.wrong("the goal has to be known here, and of the form `!.. %s .. ==> ..`" % self.argument)
        premise, concluded = body[1][2], body[2]
        arguments = spine(premise)[1]
        parameters, arguments = arguments[:len(relation.parameters)], arguments[len(relation.parameters):]
        self._check_arguments(arguments)
        fixed = {name for one in parameters for name in frees(one)}
        moved = {one[1] for one in arguments}
        others = [one for one in self.own if one[1] not in moved and one[1] not in fixed]
        function = lams(arguments, forall(others, concluded))
        theorem = relation.name + "_INDUCT"
        for one in parameters:
            theorem = "(SPEC %s %s)" % (self._shown(one), theorem)
        steps = [*self._taken(self.own), "DISCH_TAC", *self._back(others), "UNDISCH_TAC %s" % self._shown(premise), *self._back(arguments),
                 "MP_TAC (SPEC %s %s) THEN BETA_TAC THEN DISCH_THEN MATCH_MP_TAC" % (self._shown(function), theorem)]
        return " THEN ".join(steps + ([goals(["ALL_TAC"] * relation.rules)] if relation.rules > 1 else []))

    def _check_arguments(self, arguments: Sequence[Term]) -> None:
        own = {one[1] for one in self.own}
        if any(one[0] != "v" or one[1] not in own for one in arguments) or len({one[1] for one in arguments}) < len(arguments):
            raise self.wrong("the arguments of `%s` are different quantified variables: generalize, with an equation for what is no variable" % self.argument)
