"""A recorded proof as steps of ours: each tactic is tried as its like here, and where goals are left as they were left there the next one follows.

Where no like fits, or goals come out otherwise and what follows fails, the goal is given to the closers: short rewriting, and `holls prove` with the
theorems that the recorded proof cites. Nothing of this is trusted: what it answers are commands that the program has accepted.
"""

from __future__ import annotations

import time
from typing import Dict, Iterator, List, NamedTuple, Optional, Sequence, Tuple

from holls import terms
from holls.exchange import derivations, likes, simplifying
from holls.exchange.citing import Citations, Uncitable
from holls.exchange.neutral import Node, Record, Translator, Untranslatable
from holls.protocol import Goal, Goals
from holls.prover import tables, typed, writing
from holls.prover.asking import Asker
from holls.prover.finder import Finder, Unprovable
from holls.prover.reading import Unreadable
from holls.prover.finding import Item
from holls.prover.scope import Scope
from holls.prover.shown import Reader
from holls.prover.writing import Quoter, Unwritable

_STEP_SECONDS = 1.0
_FIND_SECONDS = 2.5
_MOST_HINTS = 8
_MOST_CASES = 6
_FEW = 5
_MOST_ROUNDS, _MOST_INSTANCES, _PREMISE_SECONDS = 5, 4, 1.0
_DEEPEST = 60
_NOTHING = (Uncitable, Untranslatable, Unwritable, Unreadable, RecursionError, KeyError, IndexError)
_WIDTH = 140


class Step(NamedTuple):
    """An expression, and how many goals it leaves of the one that it is run on."""

    text: str
    left: int


class Found(NamedTuple):
    """Steps that close the first goal, and the goals that are open behind them."""

    steps: Tuple[Step, ...]
    goals: Goals


class Replay:
    """Proves recorded theorems in a server, over what stands in its copy."""

    def __init__(self, record: Record, translator: Translator, scope: Scope, asker: Asker) -> None:
        self.record, self.translator, self.scope, self.asker = record, translator, scope, asker
        self.quoter = Quoter(scope.signature)
        self.citations = Citations(record, translator, scope, self.quoter)
        self.until = 0.0
        self.statement = ""
        self._statement_term: Optional[typed.Term] = None
        self._nodes: Dict[int, Node] = {}
        self._alike: Dict[Tuple[int, Tuple[int, ...]], int] = {}
        self._trees: Dict[str, object] = {}
        self._goal_trees: Dict[int, object] = {}
        self.hints: List[str] = []
        self._numbers: Dict[int, int] = {}
        self.step_seconds = _STEP_SECONDS
        self.refused = ""
        """What the program said of a whole proof whose steps it had accepted."""
        self.is_searching = True
        """Whether what no step does is searched for, where a derivation may be had."""
        self.derived: List[str] = []
        """The rendered parts of the proof that are derivations."""

    def taken(self) -> None:
        """What stands has changed."""
        self.quoter = self.citations.quoter = Quoter(self.scope.signature)

    def prove(self, name: str, number: int, hints: Sequence[str], seconds: float) -> Optional[List[str]]:
        """The commands of a recorded theorem's proof, from its `g` to its `qed`; None where none are found in time. The copy is as before."""
        mark = self.asker.count
        self.hints = [hint for hint in hints if hint in self.scope.theorems and hint != name]
        try:
            self._statement_term = self.translator.term(self.record.theorems[number].conclusion)
            self.statement = self.quoter.quote(self._statement_term)
        except _NOTHING:
            return None
        begun = "g %s %s" % (name, self.statement)
        try:
            goals = self.asker.step(begun)
            if not isinstance(goals, Goals):
                return None
            self.until = time.monotonic() + seconds
            found = self._whole(number, goals)
            return None if found is None else self._checked(mark, begun, found.steps)
        finally:
            self.asker.back(mark)

    def _checked(self, mark: int, begun: str, steps: Sequence[Step]) -> Optional[List[str]]:
        self.asker.back(mark)
        texts = [begun] + commands(steps)
        for text in texts:
            report = self.asker.step(text)
            if not isinstance(report, Goals):
                self.refused = "%s: %s" % (report, text)
                return None
        return texts + ["qed"]

    def _whole(self, number: int, goals: Goals) -> Optional[Found]:
        """A proof by one of the short ways, else as it was recorded, else by the closers with all that was cited."""
        proof = self.record.proofs.get(number)
        if proof is None:
            return self._closed(goals, self.hints)
        self._nodes = {}
        self._alike = {}
        for one in proof.nodes:
            node = self.record.nodes[one]
            self._nodes[node.goal] = node
            self._numbers[node.goal] = one
            goal = self.record.goals[node.goal]
            self._alike[goal.conclusion, goal.assumptions] = node.goal
        short = self._rewritten(goals, self.hints[:_MOST_HINTS])
        return short or self._solved(proof.goal, goals, 0) or self._closed(goals, self.hints)

    # Replaying

    def _node(self, goal: int) -> Optional[Node]:
        node = self._nodes.get(goal)
        if node is None:
            one = self.record.goals[goal]
            node = self._nodes.get(self._alike.get((one.conclusion, one.assumptions), -1))
        return node

    def _solved(self, goal: int, goals: Goals, depth: int) -> Optional[Found]:
        """Closes the first goal, which is like a recorded one."""
        if time.monotonic() > self.until or depth > _DEEPEST:
            return None
        node = self._node(goal)
        if node is None:
            return self._closed(goals, self.hints)
        mark = self.asker.count
        if node.tactic in likes.PASSED and len(node.left) == 1:
            return self._solved(node.left[0], goals, depth + 1)
        if node.tactic in likes.CLOSERS or not node.left:
            quick = self._rewritten(goals, list(self._cited(node))[:_MOST_HINTS])
            if quick:
                return quick
        if node.tactic in likes.CLOSERS:
            found = self._closed(goals, list(self._cited(node)) or self.hints)
            if found:
                return found
        if node.tactic in likes.SIMPLIFYING:
            found = self._simplified(node, goals, depth)
            if found:
                return found
            self.asker.back(mark)
        lemmas = self._lemmas(node)
        found = self._behind(lemmas, node, goals, depth) if lemmas else self._by_likes(node, goals, depth)
        if found is None and node.tactic not in likes.OPENING and self._is_small(node):
            self.asker.back(mark)
            found = self._closed(goals, self._below(node))
        if found is None:
            self.asker.back(mark)
        return found

    def _lemmas(self, node: Node) -> List[int]:
        """The theorems that a tactic takes and that no expression is."""
        made = []
        for kind, number in node.arguments:
            if kind == "h":
                try:
                    self.citations.text(number)
                except Uncitable:
                    if not any(theorem == number for theorem in made):
                        made.append(number)
                except _NOTHING:
                    continue
        return made[:3]

    def _behind(self, lemmas: Sequence[int], node: Node, goals: Goals, depth: int) -> Optional[Found]:
        """A tactic behind what it takes, which is shown first and assumed."""
        number, rest = lemmas[0], lemmas[1:]
        try:
            statement = self.citations.closed(number)
            text = "SUBGOAL_THEN %s ASSUME_TAC" % self.quoter.quote(statement)
        except _NOTHING:
            return None
        after = self._run(text)
        if after is None:
            return None
        first = self._lemma(number, after)
        if first is None:
            return None
        self.citations.names[number] = name = "(ASSUME %s)" % self.quoter.quote(statement)
        self.scope.theorems[name] = statement
        try:
            found = self._behind(rest, node, first.goals, depth) if rest else self._by_likes(node, first.goals, depth)
        finally:
            del self.citations.names[number], self.scope.theorems[name]
        return None if found is None else Found((Step(text, 2),) + first.steps + found.steps, found.goals)

    def _lemma(self, number: int, goals: Goals) -> Optional[Found]:
        names = list(dict.fromkeys(self.citations.leaves(number)))
        mark = self.asker.count
        found = self._closed(goals, names)
        if found is None and number in self.record.proofs:
            self.asker.back(mark)
            saved = self._nodes, self._alike
            found = self._whole(number, goals)
            self._nodes, self._alike = saved
        return found

    def _by_likes(self, node: Node, goals: Goals, depth: int) -> Optional[Found]:
        """The first like that leaves the recorded goals, and what follows; else the first that leaves as many."""
        mark, loose = self.asker.count, []
        for text, after in self._runs(node, goals):
            if len(after.goals) < len(goals.goals):
                return Found((Step(text, 0),), after)
            if self._are_recorded(node, after):
                found = self._followed(text, node.left, after, depth)
                if found or not loose:
                    return found
                self.asker.back(mark)
                break
            loose.append(text)
        for text in loose[:2]:
            after = self._run(text)
            found = None if after is None else self._followed(text, node.left, after, depth)
            if found:
                return found
            self.asker.back(mark)
        return self._bridged(node, goals, depth)

    def _runs(self, node: Node, goals: Goals) -> Iterator[Tuple[str, Goals]]:
        """The likes that leave nothing of the goal, or as many goals as were recorded, each with what it leaves; it is taken back before the next one."""
        mark = self.asker.count
        for text in self._likes(node):
            after = self._run(text)
            if after is None:
                continue
            if len(after.goals) - len(goals.goals) + 1 in (0, len(node.left)):
                yield text, after
            self.asker.back(mark)

    def _are_recorded(self, node: Node, goals: Goals) -> bool:
        """Whether the first goals are like those that the node left."""
        return all(self._is_like(goals.goals[place], goal) for place, goal in enumerate(node.left))

    def _followed(self, text: str, left: Sequence[int], goals: Goals, depth: int) -> Optional[Found]:
        steps = [Step(text, len(left))]
        for goal in left:
            found = self._solved(goal, goals, depth + 1)
            if found is None:
                return None
            steps += found.steps
            goals = found.goals
        return Found(tuple(steps), goals)

    def _bridged(self, node: Node, goals: Goals, depth: int) -> Optional[Found]:
        """Where a tactic left one goal: that goal is shown first, and the one that it was left of follows from it."""
        if len(node.left) != 1 or node.tactic in likes.PLAIN:
            return None
        mark = self.asker.count
        try:
            term = self.translator.term(self.record.goals[node.left[0]].conclusion)
            text = "SUBGOAL_THEN %s MP_TAC" % self.quoter.quote(term)
        except _NOTHING:
            return None
        after = self._run(text)
        if after is None:
            return None
        turned = self.asker.step("r 1")
        cited = list(self._cited(node))
        closing = self._closed(turned, cited) if isinstance(turned, Goals) else None
        self.asker.back(mark)
        if closing is None:
            return None
        after = self._run(text)
        first = None if after is None else self._solved(node.left[0], after, depth + 1)
        if first is None:
            self.asker.back(mark)
            return None
        last = self._done(closing.steps, first.goals)
        if last is None:
            self.asker.back(mark)
            return None
        return Found((Step(text, 2),) + first.steps + last.steps, last.goals)

    def _done(self, steps: Sequence[Step], goals: Goals) -> Optional[Found]:
        """Steps that close the first goal, as they are run; None where they don't."""
        wanted, made = len(goals.goals) - 1, []
        for step in steps:
            after = self._run(step.text)
            if after is None:
                return None
            made.append(Step(step.text, len(after.goals) - len(goals.goals) + 1))
            goals = after
        return Found(tuple(made), goals) if len(goals.goals) == wanted else None

    def _likes(self, node: Node) -> Iterator[str]:
        return likes.texts(node, self)

    def _cited(self, node: Node) -> Iterator[str]:
        seen = set()
        for kind, number in node.arguments:
            if kind == "h":
                for name in self.citations.leaves(number):
                    if name not in seen:
                        seen.add(name)
                        yield name

    def _is_small(self, node: Node) -> bool:
        """Whether a few tactics are all that was run from here on: a search may do the same."""
        waiting, count = [node], 0
        while waiting:
            count += 1
            if count > _FEW:
                return False
            waiting += [inner for inner in map(self._node, waiting.pop().left) if inner is not None]
        return True

    def _below(self, node: Node) -> List[str]:
        """What a tactic and those behind it cite, the nearest first."""
        names: Dict[str, None] = {}
        waiting, count = [node], 0
        while waiting and count < 60:
            one = waiting.pop(0)
            count += 1
            names.update(dict.fromkeys(self._cited(one)))
            waiting += [inner for inner in map(self._node, one.left) if inner is not None and inner is not one]
        return list(names) or self.hints

    # Theorems with premises

    def _simplified(self, node: Node, goals: Goals, depth: int) -> Optional[Found]:
        """A simplification by theorems with premises, a round for each instance; what follows where goals are left."""
        named = [(name, self.scope.theorems[name]) for name in self._cited(node) if name in self.scope.theorems]
        ways = simplifying.conditionals(named)
        if not ways:
            return None
        plain = [name for name, _ in named if not likes.loops(self.scope.theorems[name])]
        steps: List[Step] = []
        if not node.left and goals.goals[0].conclusion.startswith(("!", "(")) or not node.left and "==>" in goals.goals[0].conclusion:
            after = self._run("REPEAT STRIP_TAC")
            if after is not None and len(after.goals) == len(goals.goals):
                steps.append(Step("REPEAT STRIP_TAC", 1))
                goals = after
        tried: set = set()
        for _ in range(_MOST_ROUNDS):
            if node.left and self._is_like(goals.goals[0], node.left[0]):
                found = self._solved(node.left[0], goals, depth + 1)
                return None if found is None else Found(tuple(steps) + found.steps, found.goals)
            if not node.left:
                closed = self._rewritten(goals, plain[:_MOST_HINTS])
                if closed:
                    return Found(tuple(steps) + closed.steps, closed.goals)
            further = self._round(goals, ways, tried)
            if further is None:
                break
            steps += further.steps
            goals = further.goals
        if not node.left:
            return None
        after = self._run("ASM_REWRITE_TAC [%s]" % "; ".join(plain)) if steps else None
        if after is None or len(after.goals) != len(goals.goals):
            return None
        found = self._solved(node.left[0], after, depth + 1)
        return None if found is None else Found(tuple(steps) + (Step("ASM_REWRITE_TAC [%s]" % "; ".join(plain), 1),) + found.steps, found.goals)

    def _round(self, goals: Goals, ways: Sequence[simplifying.Conditional], tried: set) -> Optional[Found]:
        """One instance of a theorem with a premise: the premise is shown, and the equation taken."""
        mark, count = self.asker.count, 0
        try:
            shown = Reader(self.scope.signature, self._statement_term).read(goals.goals[0])
            found = list(simplifying.instances(shown.conclusion, ways, self.quoter.quote, self.citations.at_types))
        except _NOTHING:
            return None
        for one in found:
            if one in tried or count >= _MOST_INSTANCES:
                continue
            tried.add(one)
            count += 1
            text = "SUBGOAL_THEN %s ASSUME_TAC" % self.quoter.quote(one.premise)
            after = self._run(text)
            if after is None:
                continue
            first = self._rewritten(after, [name for name in self.hints if name in self.scope.theorems][:_MOST_HINTS]) or self._searched(after)
            use = "REWRITE_TAC [%s]" % one.text
            last = None if first is None else self._run(use)
            if last is not None and len(last.goals) == len(goals.goals):
                return Found((Step(text, 2),) + first.steps + (Step(use, 1),), last)
            if last is not None and len(last.goals) == len(goals.goals) - 1:
                self.asker.back(self.asker.count - 1)
                return Found((Step(text, 2),) + first.steps, first.goals)
            self.asker.back(mark)
        return None

    def _searched(self, goals: Goals) -> Optional[Found]:
        """A premise by a short search with what the whole proof cites."""
        texts = self._search(goals, self.hints[:_MOST_HINTS], _PREMISE_SECONDS)
        return self._done([Step(text[len("e "):], 0) for text in texts], goals) if texts else None

    # The program

    def _run(self, text: str) -> Optional[Goals]:
        """The goals behind a step; None where it is refused, or takes too long."""
        if time.monotonic() > self.until:
            return None
        report = self.asker.attempt("e " + text, time.monotonic() + self.step_seconds)
        return report if isinstance(report, Goals) else None

    def _is_like(self, goal: Goal, number: int) -> bool:
        """Whether a goal shows what a recorded one shows, and assumes what it assumes."""
        recorded = self.record.goals[number]
        try:
            if self._tree(goal.conclusion) != self._recorded(recorded.conclusion):
                return False
            assumed = [self._tree(text) for text in goal.assumptions]
            return all(self._recorded(one) in assumed for one in recorded.assumptions)
        except _NOTHING:
            return False

    def _tree(self, text: str) -> object:
        if text not in self._trees:
            self._trees[text] = terms.read(text)
        return self._trees[text]

    def _recorded(self, number: int) -> object:
        if number not in self._goal_trees:
            term = self.translator.term(number)
            self._goal_trees[number] = self._tree(writing._Writer(term, frozenset(), self.quoter.taken).text)
        return self._goal_trees[number]

    # Closing

    def _rewritten(self, goals: Goals, names: Sequence[str]) -> Optional[Found]:
        """A short step that closes the first goal."""
        mark = self.asker.count
        fine = [name for name in names if name in self.scope.theorems and not likes.loops(self.scope.theorems[name])]
        for text in likes.closing(fine, [name for name in names if name not in fine], self.scope):
            after = self._run(text)
            if after is not None and len(after.goals) == len(goals.goals) - 1:
                return Found((Step(text, 0),), after)
            self.asker.back(mark)
        return None

    def _closed(self, goals: Goals, names: Sequence[str]) -> Optional[Found]:
        """Steps that close the first goal by short rewriting or by a search."""
        names = [name for name in dict.fromkeys(names) if name in self.scope.theorems and not name.startswith("(")][:_MOST_HINTS]
        found = self._rewritten(goals, names)
        if found:
            return found
        for before in likes.preparing(goals.goals[0], self.scope):
            mark = self.asker.count
            begun = goals
            if before:
                after = self._run(before)
                if after is None or len(after.goals) != len(goals.goals):
                    if after is not None and len(after.goals) == len(goals.goals) - 1:
                        return Found((Step(before, 0),), after)
                    self.asker.back(mark)
                    continue
                begun = after
            found = self._by_cases(begun)
            if found:
                return Found(((Step(before, 1),) if before else ()) + found.steps, found.goals)
            texts = self._search(begun, names)
            last = self._done([Step(text[len("e "):], 0) for text in texts], begun) if texts else None
            if last is not None:
                return Found(((Step(before, 1),) if before else ()) + last.steps, last.goals)
            self.asker.back(mark)
        return None

    def _by_cases(self, goals: Goals) -> Optional[Found]:
        """A goal without quantifiers but outer `!` by the cases of its formulas."""
        mark = self.asker.count
        opened = self._run("REPEAT GEN_TAC") if goals.goals[0].conclusion.startswith("!") else goals
        if opened is None:
            return None
        try:
            shown = Reader(self.scope.signature, self._statement_term).read(opened.goals[0])
            items = [Item(False, shown.conclusion, True)]
            atoms = tables.atoms(items)
            if not 0 < len(atoms) <= _MOST_CASES or len(opened.goals) != len(goals.goals):
                return None
            equations = [atom for atom in atoms if typed.is_equation(atom)]
            if not equations and not tables.is_valid(items, atoms):
                return None
            quoted = [self.quoter.quote(atom) for atom in atoms if atom not in equations]
            text = likes.cases(quoted, [self.quoter.quote(atom) for atom in equations], self.scope)
        except (*_NOTHING, ValueError):
            return None
        finally:
            self.asker.back(mark)
        after = self._run(text)
        if after is not None and len(after.goals) == len(goals.goals) - 1:
            return Found((Step(text, 0),), after)
        self.asker.back(mark)
        return None

    def _search(self, goals: Goals, names: Sequence[str], seconds: float = _FIND_SECONDS) -> Optional[List[str]]:
        left = self.until - time.monotonic()
        if left <= 0.1:
            return None
        try:
            finder = Finder(self.asker, self.scope, goals, self.statement.strip("`"), time.monotonic() + min(seconds, left))
            return finder.find(names or None)
        except (Unprovable, *_NOTHING):
            return None


def commands(steps: Sequence[Step]) -> List[str]:
    """Steps as `e` commands: what leaves one goal goes on in the same command, as long as the line isn't full."""
    made: List[str] = []
    parts: List[str] = []
    for step in steps:
        text = "(%s)" % step.text if " ORELSE " in step.text else step.text
        if parts and sum(len(part) + 6 for part in parts) + len(text) > _WIDTH:
            made.append("e " + " THEN ".join(parts))
            parts = []
        parts.append(text)
        if step.left != 1:
            made.append("e " + " THEN ".join(parts))
            parts = []
    return made
