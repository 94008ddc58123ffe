"""Running steps that were found, and making them fewer: whatever a short step closes needs no long one."""

from __future__ import annotations

import re
from typing import Dict, Iterable, List, Mapping, Optional, Sequence, Set, Tuple

from holls.protocol import Goals
from holls.prover import clock, typed
from holls.prover.asking import Asker
from holls.prover.scripts import Step, commands
from holls.prover.typed import Term

_INTRODUCTION = re.compile(r"(X_GEN_TAC `[^`]*`|STRIP_TAC|DISCH_TAC|GEN_TAC)\Z")
_SHORTER = (
    "GEN_TAC", "STRIP_TAC", "REPEAT GEN_TAC", "REPEAT STRIP_TAC", "REPEAT DISCH_TAC", "REPEAT GEN_TAC THEN DISCH_TAC",
    "REPEAT GEN_TAC THEN STRIP_TAC", "REPEAT GEN_TAC THEN REPEAT DISCH_TAC")
_PIECE = re.compile(r"`[^`]*`|[\[\]()]|(?<![A-Za-z0-9_'])(?:THEN|THENL|ORELSE)(?![A-Za-z0-9_'])")
SHORT = "ASM_REWRITE_TAC []"
"""Steps that are no longer aren't made fewer."""
STRIPS = "REPEAT STRIP_TAC THEN "
"""What a step that may close a goal begins with."""

_Begun = Tuple[Term, int]


def closers(theorems: Sequence[str], is_growing: bool) -> List[str]:
    """Short steps that may close a goal, by rewriting with theorems; by assumptions only where these don't go on for ever."""
    named = "[%s]" % "; ".join(theorems)
    reduced = "REWRITE_TAC %s THEN BETA_TAC THEN REWRITE_TAC [%s]" % (named, "; ".join(dict.fromkeys(["ETA_AX", *theorems])))
    if is_growing:
        return (["REWRITE_TAC " + named, reduced] if theorems else []) + [STRIPS + "FIRST_ASSUM ACCEPT_TAC"]
    if not theorems:
        return [SHORT, STRIPS + SHORT, STRIPS + "FIRST_ASSUM ACCEPT_TAC"]
    alone = ["MATCH_MP_TAC %s THEN ASM_REWRITE_TAC []" % theorems[0]] if len(theorems) == 1 else []
    return ["REWRITE_TAC " + named, STRIPS + "ASM_REWRITE_TAC " + named, reduced, STRIPS + reduced] + alone


def grows(term: Term) -> bool:
    """Whether a part of a formula may be a rule that goes on for ever, and makes larger terms each time: it has its left side's symbol right."""
    for part in typed.subterms(term):
        sides = typed.binary(part)
        if sides and sides[0] in ("=", "<=>") and typed.size(sides[2]) > typed.size(sides[1]):
            begun = _beginning(sides[1])
            if any(_beginning(inner) == begun for inner in typed.subterms(sides[2])):
                return True
    return False


def grow_together(terms: Sequence[Term]) -> bool:
    """Whether equations in some formulas may be rules that go on for ever by way of one another, as `s x <=> t x` and `t x <=> ~s x`, and make larger terms."""
    rules: Dict[_Begun, List[Tuple[Set[_Begun], bool]]] = {}
    for sides in (typed.binary(part) for term in terms for part in typed.subterms(term)):
        if sides and sides[0] in ("=", "<=>"):
            begun = {_beginning(inner) for inner in typed.subterms(sides[2])}
            rules.setdefault(_beginning(sides[1]), []).append((begun, typed.size(sides[2]) > typed.size(sides[1])))
    after = {begun: set().union(*(right for right, _ in some)) & rules.keys() for begun, some in rules.items()}
    return any(is_larger and begun in _reached(right & rules.keys(), after) for begun, some in rules.items() for right, is_larger in some)


def _reached(begun: Iterable[_Begun], after: Mapping[_Begun, Iterable[_Begun]]) -> Set[_Begun]:
    """What is reached from some symbols."""
    found: Set[_Begun] = set()
    waiting = list(begun)
    while waiting:
        one = waiting.pop()
        if one not in found:
            found.add(one)
            waiting += after[one]
    return found


def _beginning(term: Term) -> _Begun:
    """What a term begins with, and the number of its arguments."""
    number = 0
    while term[0] == "a":
        term, number = term[1], number + 1
    return term, number


class Trial:
    """Tries steps in a server until a time; `own_closers` are short ones that may close a goal."""

    def __init__(self, asker: Asker, own_closers: Sequence[str], until: float) -> None:
        self.asker, self.until = asker, until
        self.closers = sorted(own_closers, key=len)

    def close(self, open_goals: int) -> Optional[str]:
        """A short step that closes the first goal, if there is one; it is taken back."""
        mark = self.asker.count
        for text in self.closers:
            if clock.now() > self.until:
                break
            found = goals_after(self.asker, text)
            self.asker.back(mark)
            if found is not None and len(found.goals) == open_goals - 1:
                return text
        return None

    def run(self, step: Step, open_goals: int) -> Optional[Step]:
        """Runs steps on the first goal. Answers those that were run in the end, or None where one is refused."""
        mark = self.asker.count
        if cost(step) > len(SHORT) and clock.now() < self.until:
            for text in self.closers:
                if len(text) >= cost(step):
                    continue
                found = goals_after(self.asker, text)
                if found is not None and len(found.goals) == open_goals - 1:
                    return Step(text)
                self.asker.back(mark)
        step = self._with_short_introductions(step)
        found = goals_after(self.asker, step.text)
        if found is None or len(found.goals) != open_goals - 1 + len(step.subs):
            return None
        subs: List[Step] = []
        for number, sub in enumerate(step.subs):
            done = self.run(sub, open_goals + len(step.subs) - 1 - number)
            if done is None:
                return None
            subs.append(done)
        return merged(Step(step.text, tuple(subs)))

    def _with_short_introductions(self, step: Step) -> Step:
        """Steps that begin with introductions, with these as a shorter step that leaves the same goal."""
        chain, last = [], step
        while _INTRODUCTION.match(last.text) and len(last.subs) == 1:
            chain.append(last.text)
            last = last.subs[0]
        if not chain or clock.now() > self.until:
            return step
        mark, whole = self.asker.count, " THEN ".join(chain)
        wanted = goals_after(self.asker, whole)
        self.asker.back(mark)
        for text in sorted(_SHORTER, key=len):
            if wanted is None or len(text) >= len(whole):
                break
            found = goals_after(self.asker, text)
            self.asker.back(mark)
            if found is not None and _are_alike(found, wanted):
                return Step(text, (last,))
        return step


def goals_after(asker: Asker, text: str) -> Optional[Goals]:
    """The goals after a step; None where it is refused."""
    report = asker.step("e " + text)
    return report if isinstance(report, Goals) else None


def check(asker: Asker, texts: Sequence[str], goals: Goals) -> bool:
    """Whether commands close the first of some goals, and leave the others as they are; they are taken back."""
    mark = asker.count
    found: Optional[Goals] = None
    for text in texts:
        found = goals_after(asker, text[len("e "):])
        if found is None:
            break
    asker.back(mark)
    return found is not None and found.goals == goals.goals[1:]


def fewer(asker: Asker, texts: Sequence[str], goals: Goals, until: float, first: Optional[int] = None) -> List[str]:
    """Commands that close the first goal without the calls that they don't need: each is tried without, the last one first; or those of so many commands at
    the beginning."""
    mark = asker.count
    made = [pieces(text[len("e "):]) for text in texts]
    for text in texts[:first][:-1]:
        goals_after(asker, text[len("e "):])
    longest = 0.0
    for at in reversed(range(len(made[:first]))):
        asker.back(mark + at)
        for number in reversed(range(len(made[at]))):
            rest, now = made[at][:number] + made[at][number + 1:], clock.now()
            if now + longest < until and check(asker, _joined([rest] + made[at + 1:]), goals):
                made[at] = rest
            longest = max(longest, clock.now() - now)
    return _joined(made)


_LIST = re.compile(r"\[([A-Za-z0-9_'; ]*;[A-Za-z0-9_'; ]*)\]")


def shorter(asker: Asker, texts: Sequence[str], goals: Goals, until: float, first: Optional[int] = None) -> List[str]:
    """Commands that close the first goal without the theorems in their lists that they don't need, as far as time allows; or so many at the beginning."""
    made, mark = list(texts), asker.count
    for text in made[:first][:-1]:
        goals_after(asker, text[len("e "):])
    for at in reversed(range(len(made[:first]))):
        asker.back(mark + at)
        for number in reversed(range(len(_LIST.findall(made[at])))):  # One that has become a single name is no list of several any more.
            made[at] = _with_shorter_list(asker, made, at, number, goals, until)
    return made


def _with_shorter_list(asker: Asker, texts: Sequence[str], at: int, number: int, goals: Goals, until: float) -> str:
    """A command with fewer names in one of its lists; those before it stand."""
    found = list(_LIST.finditer(texts[at]))[number]
    names = found.group(1).split("; ")
    width = len(names) // 2
    while width:
        start = 0
        while start < len(names) and len(names) > 1:
            fewer_names = names[:start] + names[start + width:]
            text = texts[at][:found.start()] + "[%s]" % "; ".join(fewer_names) + texts[at][found.end():]
            if clock.now() > until:
                break
            if fewer_names and check(asker, [text] + list(texts[at + 1:]), goals):
                names = fewer_names
            else:
                start += width
        width //= 2
    return texts[at][:found.start()] + "[%s]" % "; ".join(names) + texts[at][found.end():]


def _joined(calls: Sequence[Sequence[str]]) -> List[str]:
    """Commands of calls that THEN joins; none where there is no call."""
    return ["e " + " THEN ".join(one) for one in calls if one]


def run_each(asker: Asker, step: Step, open_goals: int, until: float) -> Optional[Step]:
    """Runs steps as they are until a time. Answers them as often as there were goals for them; None where one is refused."""
    found = goals_after(asker, step.text)
    left = -1 if found is None else len(found.goals) - open_goals + 1
    own = step.subs * left if step.is_each else step.subs
    if left != len(own) or clock.now() > until:
        return None
    subs: List[Step] = []
    for number, sub in enumerate(own):
        done = run_each(asker, sub, open_goals + left - 1 - number, until)
        if done is None:
            return None
        subs.append(done)
    return Step(step.text, tuple(subs))


def _are_alike(one: Goals, other: Goals) -> bool:
    """Whether goals are the same, the order of assumptions apart."""
    if len(one.goals) != len(other.goals):
        return False
    first, second = one.goals[0], other.goals[0]
    return (first.conclusion, set(first.assumptions), set(first.free)) == (second.conclusion, set(second.assumptions), set(second.free))


def cost(step: Step) -> int:
    """How long the commands of steps are, in characters."""
    return sum(len(text) for text in commands(step))


def merged(step: Step) -> Step:
    """Where all goals that a step leaves have the same steps, these once behind it."""
    if len(step.subs) > 1 and all(sub == step.subs[0] for sub in step.subs):
        text = _line(step.subs[0])
        if text is not None:
            return Step("%s THEN %s" % (step.text, text))
    return step


def _line(step: Step) -> Optional[str]:
    """Steps as one expression, where each but the last leaves one goal."""
    if len(step.subs) > 1:
        return None
    if not step.subs:
        return step.text
    rest = _line(step.subs[0])
    return None if rest is None else "%s THEN %s" % (step.text, rest)


def length(texts: Sequence[str]) -> Tuple[int, int]:
    """How long commands are: in characters, and how many."""
    return sum(len(text) for text in texts), len(texts)


def pieces(text: str) -> List[str]:
    """The expressions that THEN joins in a text, outside of brackets; the text alone where another infix stands there."""
    made, depth, begun = [], 0, 0
    for found in _PIECE.finditer(text):
        token = found.group()
        depth += {"(": 1, "[": 1, ")": -1, "]": -1}.get(token, 0)
        if depth == 0 and token in ("THENL", "ORELSE"):
            return [text]
        if depth == 0 and token == "THEN":
            made.append(text[begun:found.start()].strip())
            begun = found.end()
    return made + [text[begun:].strip()]
