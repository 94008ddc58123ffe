"""Expressions with what their names stand for, and what they do to a goal (docs/TACTICS.md)."""

from model.refusals import LIMIT, Stop, Unfit
from model.steps import FUNCTIONS, Theorem
from model.terms import aconv, implication, names_in, nameless, size


class Node:
    """An expression: its word, its parts and its size. Equal ones are one."""

    def __init__(self, word, parts, size):
        self.word, self.parts, self.size = word, parts, size


nodes = {}


def node(word, size, *parts, key=None):
    """The expression of these parts, which `key` has in a form that can be compared where they haven't."""
    whole = (word, *(parts if key is None else key))
    if whole not in nodes:
        nodes[whole] = Node(word, parts, size)
    return nodes[whole]


def forget():
    nodes.clear()


def goal_size(goal):
    return sum(map(size, goal[0])) + size(goal[1])


def is_unchanged(goals, goal):
    if len(goals) != 1 or len(goals[0][0]) != len(goal[0]):
        return False
    return aconv(goals[0][1], goal[1]) and all(map(aconv, goals[0][0], goal[0]))


class Run:
    """One run of an expression: the turns that are left, the constants that stand, the names that were tested for one, the functions that fitted, and cases for the counts
    alone. An expression is run by the method of its word, on its parts and a goal."""

    def __init__(self, turns, standing):
        self.left, self.standing, self.tested, self.fitted, self.cases = turns, standing, [], set(), set()

    def pay(self):
        if self.left == 0:
            raise Stop(18)
        self.left -= 1

    def freed(self, name, terms):
        """The name with the fewest primes that no variable or constant of these terms has, and no constant that stands."""
        taken = names_in(*terms)
        while True:
            if name not in taken:
                self.tested.append(name)
                if name not in self.standing:
                    return name
            name += "'"

    def run(self, expression, goal):
        return getattr(self, expression.word.lower())(goal, *expression.parts)

    def on_each(self, expressions, goals):
        return [left for expression, goal in zip(expressions, goals) for left in self.run(expression, goal)]

    def first(self, goal, expressions):
        if not expressions:
            raise Unfit(17, "FIRST")
        for expression in expressions[:-1]:
            try:
                return self.run(expression, goal)
            except Unfit:
                pass
        return self.run(expressions[-1], goal)

    def use(self, goal, expression):
        self.pay()
        try:
            return self.run(expression, goal)
        except (Unfit, Stop) as it:
            it.is_inside = True
            raise

    def then(self, goal, before, behind):
        return [left for middle in self.run(before, goal) for left in self.run(behind, middle)]

    def thenl(self, goal, before, behind):
        goals = self.run(before, goal)
        if len(goals) != len(behind):
            raise Unfit(17, "THENL")
        return self.on_each(behind, goals)

    def orelse(self, goal, expression, other):
        try:
            return self.run(expression, goal)
        except Unfit:
            pass
        return self.run(other, goal)

    def tried(self, goal, expression):
        try:
            return self.run(expression, goal)
        except Unfit:
            return [goal]

    def repeat(self, goal, expression):
        self.pay()
        try:
            return [left for middle in self.run(expression, goal) for left in self.repeat(middle, expression)]
        except Unfit:
            return [goal]

    def changed_tac(self, goal, expression):
        goals = self.run(expression, goal)
        if is_unchanged(goals, goal):
            raise Unfit(17, "CHANGED_TAC")
        return goals

    def every(self, goal, expressions):
        if not expressions:
            return [goal]
        return [left for middle in self.run(expressions[0], goal) for left in self.every(middle, expressions[1:])]

    def replicate_tac(self, goal, times, expression):
        if times == 0:
            return [goal]
        self.pay()
        return [left for middle in self.run(expression, goal) for left in self.replicate_tac(middle, times - 1, expression)]

    def disch_then(self, goal, continuation):
        found = implication(goal[1])
        if found is None:
            raise Unfit(17, "DISCH_THEN")
        return self.handed(continuation, found[0], (goal[0], found[1]))

    def pop_assum(self, goal, continuation):
        if not goal[0]:
            raise Unfit(17, "POP_ASSUM")
        return self.handed(continuation, goal[0][0], (goal[0][1:], goal[1]))

    def first_assum(self, goal, continuation):
        for assumption in goal[0]:
            try:
                return self.handed(continuation, assumption, goal)
            except Unfit:
                pass
        raise Unfit(17, "FIRST_ASSUM")

    def subgoal_then(self, goal, statement, continuation):
        subgoal = (goal[0], statement)
        if goal_size(subgoal) > LIMIT:
            raise Stop(13)
        return [subgoal, *self.handed(continuation, statement, goal)]

    def handed(self, continuation, statement, goal):
        """What is left where the continuation gets `{p} |- p`, whose hypothesis isn't looked for among the assumptions."""
        name, arguments = continuation
        return self.applied(name, arguments, [Theorem({nameless(statement): statement}, statement, None)], goal)

    def call(self, goal, name, arguments):
        return self.applied(name, arguments, [], goal)

    def applied(self, name, arguments, handed, goal):
        self.pay()
        self.test_hypotheses(name, arguments, goal)
        goals = FUNCTIONS[name](self, goal, *arguments, *handed)
        if goals is None:
            raise Unfit(17, name)
        self.fitted.add(name)
        if any(goal_size(left) > LIMIT for left in goals):
            raise Stop(13)
        return goals

    def test_hypotheses(self, name, arguments, goal):
        theorems = [theorem for argument in arguments for theorem in (argument if isinstance(argument, list) else [argument]) if isinstance(theorem, Theorem)]
        wanted = {hypothesis for theorem in theorems for hypothesis in theorem.hypotheses}
        if wanted and not wanted <= {nameless(assumption) for assumption in goal[0]}:
            raise Unfit(15, name)


setattr(Run, "try", Run.tried)  # Python has a word `try` of its own
