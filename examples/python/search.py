#!/usr/bin/env python3
"""Best-first search for proofs, by a list of steps: the state with the least to prove comes first.

    examples/python/search.py theories/lists.hol LENGTH_APPEND MAP_APPEND

What is tried from a state are steps that may always help, and those that cite what its constants mean and the theorems that `premises` puts first; and
later, if nothing better has come, those that theorems like it were proved by, the same with another theorem that is to this goal what the one they cite is
to theirs, and those that cite one theorem.
"""

import heapq
import math
import pathlib
import re
import sys
from collections import Counter, defaultdict
from functools import lru_cache

sys.path.insert(0, str(pathlib.Path(__file__).resolve().parents[2] / "clients"))

from holls.api import Project, Prover, State  # noqa: E402

MOST = 20_000
SPLIT = "REPEAT (STRIP_TAC ORELSE EQ_TAC)"
PLAIN = [
    "REPEAT STRIP_TAC", "ASM_REWRITE_TAC []", "CONJ_TAC", "EQ_TAC", "DISCH_TAC", "GEN_TAC", "STRIP_TAC", "REFL_TAC", "BETA_TAC", "DISJ1_TAC", "DISJ2_TAC",
    "AP_TERM_TAC", "FIRST_ASSUM ACCEPT_TAC", "FIRST_ASSUM MATCH_MP_TAC", "FIRST_ASSUM MATCH_MP_TAC THEN ASM_REWRITE_TAC []", "POP_ASSUM MP_TAC",
    "FIRST_ASSUM MP_TAC", "FIRST_ASSUM SUBST1_TAC", "ONCE_ASM_REWRITE_TAC []", SPLIT, SPLIT + " THEN ASM_REWRITE_TAC []", "REPEAT CONJ_TAC",
    SPLIT + " THEN FIRST_ASSUM MATCH_MP_TAC THEN ASM_REWRITE_TAC []", "REWRITE_TAC [FUN_EQ_THM] THEN REPEAT GEN_TAC", "ONCE_REWRITE_TAC [EQ_SYM_EQ]"]
OF_ONE = ["MATCH_MP_TAC %s THEN BETA_TAC", "REWRITE_TAC [%s]", "REWRITE_TAC [%s] THEN " + SPLIT + " THEN ASM_REWRITE_TAC []", "ASM_REWRITE_TAC [%s]",
          "ONCE_REWRITE_TAC [%s]", "MP_TAC %s", "REWRITE_TAC [%s] THEN BETA_TAC THEN REPEAT STRIP_TAC THEN ASM_REWRITE_TAC []"]
"""The first ones are the cheapest."""
OF_MANY = ["REWRITE_TAC [%s]", SPLIT + " THEN ASM_REWRITE_TAC [%s]", "REWRITE_TAC [%s] THEN BETA_TAC", "REWRITE_TAC [FUN_EQ_THM; %s] THEN BETA_TAC",
           "REWRITE_TAC [%s] THEN " + SPLIT + " THEN ASM_REWRITE_TAC []", "REWRITE_TAC [%s] THEN BETA_TAC THEN REPEAT STRIP_TAC THEN ASM_REWRITE_TAC []"]
BY_INDUCTION = ["MATCH_MP_TAC %s THEN BETA_TAC THEN REWRITE_TAC [%s]", "MATCH_MP_TAC %s THEN BETA_TAC THEN REPEAT STRIP_TAC THEN ASM_REWRITE_TAC [%s]",
                "GEN_TAC THEN MATCH_MP_TAC %s THEN BETA_TAC THEN REPEAT STRIP_TAC THEN ASM_REWRITE_TAC [%s]"]

BY_CASES = ["STRIP_ASSUME_TAC (SPEC `%s` %s)", "STRIP_ASSUME_TAC (SPEC `%s` %s) THEN ASM_REWRITE_TAC []"]
OF_ASSUMPTION = {"MATCH_MP_TAC (ASSUME `%s`)": "==>", "SUBST1_TAC (SYM (ASSUME `%s`))": "=", "UNDISCH_TAC `%s` THEN ASM_REWRITE_TAC []": ""}
"""Each with what the assumption has to have."""
OF_ATOM = "DISJ_CASES_TAC (SPEC `%s` EXCLUDED_MIDDLE) THEN ASM_REWRITE_TAC []"
OF_CONDITION = "DISJ_CASES_TAC (SPEC `%s` EXCLUDED_MIDDLE) THEN ASM_REWRITE_TAC [COND_CLAUSES; %s]"
LATER, FEW, SECONDS, SOON = 60, 8, 2.0, 0.4
"""What the steps that are tried later cost more; in how few theorems a constant stands whose definition is unfolded; how long a proof is looked for, of the
statement and of each state behind it."""
RARE, MANY, ANALOGIES, SHORT = 3, 60, 2, 4
"""By so many of its rarest words theorems are looked for, so many by each, and so many are tried in place of another; a short proof has so many commands."""
WITNESSES = ("T", "F", "_0", "_1")
WORD, INSTANCE = re.compile(r"[A-Za-z_]\w+"), re.compile(r"(\[`:[^`]*`,\s*)`:\w+`\]")


def turns_back(statement):
    """Whether the sides of an equation, or of one of several, have the same symbols: rewriting by it never ends."""
    return any(_turns_back(part) for part in statement.split(" /\\ "))


def _turns_back(statement):
    sides = re.split(" <=> | = ", re.sub(r"^!.*?\. ", "", statement))
    return len(sides) == 2 and sorted(re.findall(r"\w+", sides[0])) == sorted(re.findall(r"\w+", sides[1]))


def is_definition(theorem, others):
    """Whether a theorem is a definition from which another one has made the rules to rewrite by."""
    return theorem.name.endswith("_DEF") and any(one.name == theorem.name[:-len("_DEF")] for one in others)


def typed(goal, text):
    """A term of a goal with the types of its free variables."""
    for variable in goal.free:
        text = re.sub(r"(?<![\w'])%s(?![\w'])" % re.escape(variable.split(":")[0]), lambda _: "(%s)" % variable, text, count=1)
    return text


def atoms(text):
    """The parts of a statement between its connectives, without those that a binder is in."""
    parts = dict.fromkeys(part.strip() for part in re.split(r"<?==?>|/\\|\\/|~", text))
    return [part for part in parts if part.count("(") == part.count(")") and re.match(r"[A-Za-z]", part) and not re.search(r"[!?@.\\]", part)]


def conditions(text):
    """The conditions of a statement's conditionals, without those that a binder is in."""
    parts = dict.fromkeys(bracketed(text[begin.end():]) for begin in re.finditer(r"COND \(", text))
    return [part for part in parts if not re.search(r"[!?@.\\]", part)]


def bracketed(text):
    """What stands before the bracket that closes one in front of a text."""
    depth = 1
    for at, letter in enumerate(text):
        depth += {"(": 1, ")": -1}.get(letter, 0)
        if not depth:
            return text[:at]
    return text


class Library:
    """The theorems that may be cited, by their words."""

    def __init__(self, theory):
        self.theory = theory
        self.equations = [one for one in theory.known if re.search(" <?=>? ", one.statement) and not turns_back(one.statement)]
        self.words = {one.name: frozenset(WORD.findall(re.sub(r"[!?@\\][^.]*\.", " ", one.statement))) for one in theory.known}
        self.counts = Counter(word for words in self.words.values() for word in words)
        self.having = defaultdict(list)
        for name, words in self.words.items():
            for word in words:
                self.having[word].append(name)

    def weight(self, words):
        """How much words tell: rare ones more."""
        return sum(math.log((1 + len(self.words)) / self.counts[word]) for word in words if word in self.counts)

    def alike(self, text, most):
        """Equations that speak of what a text speaks of, and of little else. A definition counts while few theorems speak of what it defines."""
        wanted = frozenset(WORD.findall(text))
        likeness = {one.name: self.weight(self.words[one.name] & wanted) - 0.7 * self.weight(self.words[one.name] - wanted) for one in self.equations}
        found = sorted((one for one in self.equations if likeness[one.name] > 0), key=lambda one: -likeness[one.name])
        return [one.name for one in found if not one.name.endswith("_DEF") or self.counts[one.name[:-len("_DEF")]] < FEW][:most]

    def nearest(self, wanted, most):
        """The theorems that speak of what is wanted, and of little else, among those that have one of its rarest words."""
        rare = sorted((word for word in wanted if self.counts[word]), key=lambda word: self.counts[word])[:RARE]
        names = dict.fromkeys(name for word in rare for name in self.having[word][:MANY])
        likeness = {name: self.weight(self.words[name] & wanted) - self.weight(self.words[name] - wanted) for name in names}
        return sorted((name for name in names if likeness[name] > 0), key=lambda name: -likeness[name])[:most]

    def by_analogy(self, text, like):
        """The steps by which a theorem like a text was proved, if few, with another theorem in place of each that they cite: the one that is to the text what
        that is to the theorem."""
        own, script = frozenset(WORD.findall(text)), self.theory.script(like.name)
        gone, new = self.words[like.name] - own, own - self.words[like.name]
        steps = [command[2:] for command in script if command.startswith("e ")] if len(script) <= SHORT else []
        for step, cited in [(step, word) for step in steps for word in dict.fromkeys(WORD.findall(step)) if self.words.get(word)]:
            others = self.nearest((self.words[cited] - gone) | new, ANALOGIES)
            yield from (one for other in others for one in instances(re.sub(r"\b%s\b" % cited, other, step)))


def instances(step):
    """A step, and where it takes a theorem at a type, the same for its other type variables."""
    yield step
    if INSTANCE.search(step):
        yield from (INSTANCE.sub(lambda found: found.group(1) + "`:%s`]" % variable, step) for variable in "ABC")


library = lru_cache(maxsize=64)(Library)


def steps(state):
    """What is tried from a state, sooner and later: each step with its price. What may lead far away costs more."""
    theory, first = state.proof.theory, state.proof.state
    near = state.premises(40)
    inductions, cases = ([one.name for one in near if word in one.name][:2] for word in ("INDUCT", "CASES"))
    rewriting = [one.name for one in near if "=" in one.statement and not turns_back(one.statement) and not is_definition(one, near)]
    like = library(theory).alike(state.goal.conclusion, 12)
    chosen = (rewriting[:3], like[:3], rewriting[:8], like[:6], like[:10] + ["FORALL_SIMP"] * ("FORALL_SIMP" in rewriting), rewriting[:4] + like[:4])
    lists = ["; ".join(dict.fromkeys(each)) for each in chosen if each]
    more = ["; ".join(rewriting[:count]) for count in (2, 5, 12)]
    scripts = [theory.script(one.name) for one in first.premises(20) + near[:20]]
    soon = {form % (name, each): 0 for form in BY_INDUCTION for name in inductions for each in lists[:4]}
    soon.update((step, 5) for step in PLAIN)
    soon.update((form % each, 10) for form in OF_MANY for each in lists)
    soon.update((form % (variable, name), 10) for form in BY_CASES for name in cases for variable in state.goal.free[:6])
    soon.update((form % typed(state.goal, each), 10) for form, mark in OF_ASSUMPTION.items() for each in state.goal.assumptions[:6] if mark in each)
    soon.update((OF_ATOM % typed(state.goal, each), 10) for each in atoms(state.goal.conclusion)[:4])
    soon.update((OF_CONDITION % (typed(state.goal, part), each), 10) for part in conditions(state.goal.conclusion)[:2] for each in lists[:2])
    soon.update(("EXISTS_TAC `%s`" % witness, 10) for witness in state.goal.free + WITNESSES if "?" in state.goal.conclusion)
    later = {form % (name, each): 0 for form in BY_INDUCTION for name in inductions for each in more + lists[4:]}
    later.update((command[2:], 10) for script in scripts for command in script[:4] if command.startswith("e "))
    later.update((step, 10) for one in near[:20] for step in library(theory).by_analogy(state.goal.conclusion, one))
    later.update((form % each, 10) for form in OF_MANY for each in more)
    later.update((form % one.name, 10 + 10 * place) for place, form in enumerate(OF_ONE) for one in near[:12])
    return soon, {step: price for step, price in later.items() if step not in soon}


def size(state):
    """How much is left to prove: short goals, and few of them."""
    return sum(15 + len(goal.conclusion) + sum(map(len, goal.assumptions)) / 4 for goal in state.goals)


def at_once(state):
    """What a short search of the editors' makes of a state, if something."""
    try:
        return state.find(SOON if state.steps else SECONDS)
    except ProverError:
        return None  # It has gone silent: the steps may still lead on.


def search(first, most=MOST):
    """A state without goals that steps lead to from this one; None where none was found before so many steps were tried.

    Of each state what the editors' "Find a proof" does is tried first, where HOL Light's users would have a tactic that searches.
    """
    waiting, seen, tried = [(0, 0, 0, 0, first)], {first}, 0
    while waiting and tried < most:
        cost, paid, _, stage, state = heapq.heappop(waiting)
        found = [] if stage else [at_once(state)]
        prices = {} if found and found[0] and found[0].is_proved else steps(state)[stage]
        for price, after in zip([0] * len(found) + list(prices.values()), found + state.apply_all(prices)):
            tried += 1
            if isinstance(after, State) and after not in seen:
                if after.is_proved:
                    return after
                seen.add(after)
                heapq.heappush(waiting, (paid + price + size(after), paid + price, tried, 0, after))
        if not stage:
            heapq.heappush(waiting, (cost + LATER, paid, tried + 1, 1, state))
    return None


def main():
    """Searches proofs of the named theorems of a file, each from its statement and what stands above it."""
    with Prover(turns=300) as prover:
        theory = Project(prover, sys.argv[1]).theory(pathlib.Path(sys.argv[1]).stem)
        for name in sys.argv[2:]:
            found = search(theory.proof(name).state)
            print(found.qed().text if found else "%s: none found\n" % name, flush=True)


if __name__ == "__main__":
    main()
