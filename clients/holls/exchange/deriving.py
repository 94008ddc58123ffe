"""A recorded proof as steps of ours with derivations between them: as the replay, without searches but for arithmetic, and where no step leaves
the recorded goals, by what the kernel recorded of the tactic."""

from __future__ import annotations

import time
from typing import Dict, List, Optional, Sequence, Set

from holls.exchange import derivations, likes
from holls.exchange.derivations import Branch, Deriver, Stuck
from holls.exchange.neutral import Node
from holls.exchange.replay import Found, Replay, Step, _NOTHING
from holls.prover import writing
from holls.prover.typed import Term
from holls.protocol import Goal, Goals

MOST_CHARACTERS = 6000
"""How long the derivations of a tactic may be where nothing else is said."""
_ARITHMETIC = frozenset("ARITH_TAC ASM_ARITH_TAC".split())
_DEEPEST = 60
_ARITHMETIC_SECONDS = 6.0
_SEARCH_SECONDS = 4.0


class Deriving(Replay):
    """Proves recorded theorems by steps and derivations."""

    most = MOST_CHARACTERS

    def run(self, text: str) -> Optional[Goals]:
        """The goals behind a step; None where it is refused."""
        return self._run(text)

    def shows(self, goal: Goal, term: Term) -> bool:
        """Whether a goal shows a term."""
        return self._says(goal.conclusion, term)

    def _says(self, text: str, term: Term) -> bool:
        try:
            return self._tree(text) == self._tree(writing._Writer(term, frozenset(), self.quoter.taken).text)
        except _NOTHING:
            return False

    def _whole(self, number: int, goals: Goals) -> Optional[Found]:
        self.parts, self.failures = [], []
        proof = self.record.proofs.get(number)
        mark = self.asker.count
        short = self._rewritten(goals, self.hints[:6])
        if short:
            return short
        self.asker.back(mark)
        if proof is not None:
            self._nodes, self._alike, self._failed = {}, {}, set()
            for one in proof.nodes:
                node = self.record.nodes[one]
                self._nodes[node.goal] = node
                self._numbers[node.goal] = one
                goal = self.record.goals[node.goal]
                self._alike[goal.conclusion, goal.assumptions] = node.goal
            found = self._solved(proof.goal, goals, 0)
            if found:
                return found
            self.asker.back(mark)
        if number in self.record.whole:
            found = self._branch(self.record.whole[number], goals, (), {})
            if found:
                return found
            self.asker.back(mark)
        return None

    def _solved(self, goal: int, goals: Goals, depth: int) -> Optional[Found]:
        node = self._node(goal)
        if time.monotonic() > self.until or depth > _DEEPEST or goal in self._failed or node is None:
            return None
        if node.tactic in likes.PASSED and len(node.left) == 1:
            return self._solved(node.left[0], goals, depth + 1)
        mark = self.asker.count
        for way in (self._short, self._by_step, self._by_derivation, self._searched_for, self._by_lemmas):
            found = way(node, goals, depth)
            if found is not None:
                return found
            self.asker.back(mark)
        self._failed.add(goal)
        return None

    def _short(self, node: Node, goals: Goals, depth: int) -> Optional[Found]:
        """What closes a goal that a tactic closed, without a search but for arithmetic."""
        if node.left:
            return None
        if node.tactic in _ARITHMETIC:
            return self._arithmetic(goals)
        return self._rewritten(goals, list(self._cited(node))[:6])

    def _arithmetic(self, goals: Goals) -> Optional[Found]:
        texts = self._search(goals, [], _ARITHMETIC_SECONDS)
        return self._done([Step(text[len("e "):], 0) for text in texts], goals) if texts else None

    def _by_step(self, node: Node, goals: Goals, depth: int) -> Optional[Found]:
        """The first like that leaves the recorded goals, or none, and what follows."""
        for text, after in self._runs(node, goals):
            if len(after.goals) < len(goals.goals):
                return Found((Step(text, 0),), after)
            if self._are_recorded(node, after):
                return self._followed(text, node.left, after, depth)
        return None

    def _by_derivation(self, node: Node, goals: Goals, depth: int) -> Optional[Found]:
        number = self._numbers.get(node.goal)
        if number not in self.record.derived or not self._is_like(goals.goals[0], node.goal):
            return None
        made, holes = self.record.derived[number]
        solving = {hole: (lambda now, goal=goal: self._solved(goal, now, depth + 1)) for hole, goal in zip(holes, node.left)}
        try:
            assumed = [self.translator.term(one) for one in self.record.goals[node.goal].assumptions]
        except _NOTHING:
            return None
        first = self._assuming(made, assumed, goals)
        if first is None:
            return None
        found = self._branch(made, first.goals, assumed, solving)
        return None if found is None else Found(first.steps + found.steps, found.goals)

    def _assuming(self, number: int, assumed: List[Term], goals: Goals) -> Optional[Found]:
        """What a theorem assumes and the goal doesn't, as a part of what it assumes; `assumed` takes it."""
        steps: List[Step] = []
        for one in self.record.theorems[number].hypotheses:
            try:
                term = self.translator.term(one)
                text = "SUBGOAL_THEN %s ASSUME_TAC" % self.quoter.quote(term)
            except _NOTHING:
                return None
            if term in assumed or any(self._says(shown, term) for shown in goals.goals[0].assumptions):
                continue
            after = self._run(text)
            last = None if after is None else self._run("ASM_REWRITE_TAC []")
            if last is None or len(last.goals) != len(goals.goals):
                return None
            assumed.append(term)
            steps += [Step(text, 2), Step("ASM_REWRITE_TAC []", 0)]
            goals = last
        return Found(tuple(steps), goals)

    def _branch(self, number: int, goals: Goals, assumed: Sequence[Term], holes: Dict[int, derivations.Hole]) -> Optional[Found]:
        deriver = Deriver(self, self.most)
        try:
            branch = deriver.close(number, goals, assumed, holes)
        except Stuck as error:
            self.failures.append(str(error)[:90])
            return None
        if branch.parts:
            self.parts.append(branch.text)
        return Found(tuple(_steps(branch)), deriver.goals)

    def is_derived(self, commands: Sequence[str]) -> bool:
        """Whether a proof has a part that is a derivation, and no step of its own."""
        return any(part in command for part in self.parts for command in commands)

    def _searched_for(self, node: Node, goals: Goals, depth: int) -> Optional[Found]:
        """A short search for what a tactic closed."""
        if node.left or not self.is_searching:
            return None
        texts = self._search(goals, list(self._cited(node))[:8] or self.hints[:8], _SEARCH_SECONDS)
        return self._done([Step(text[len("e "):], 0) for text in texts], goals) if texts else None

    def _by_lemmas(self, node: Node, goals: Goals, depth: int) -> Optional[Found]:
        lemmas = self._lemmas(node)
        return self._behind(lemmas, node, goals, depth) if lemmas and self.is_searching else None

    def _by_likes(self, node: Node, goals: Goals, depth: int) -> Optional[Found]:
        return self._by_step(node, goals, depth)

    parts: List[str] = []
    """The first steps of derivations that closed a goal."""
    failures: List[str] = []
    """Why derivations didn't."""
    _failed: Set[int] = set()
    """Recorded goals that nothing closed."""


def _steps(branch: Branch) -> List[Step]:
    """A branch as steps: what has no hole, and isn't too long for a command, is one."""
    if branch.hole:
        return list(branch.hole)
    if not derivations.has_hole(branch):
        text = derivations.rendered(branch)
        if len(text) <= derivations.MOST_IN_ONE:
            return [Step(text, 0)]
    made = [Step(branch.text, len(branch.parts))]
    for part in branch.parts:
        made += _steps(part)
    return made
