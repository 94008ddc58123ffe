#!/usr/bin/env python3
"""Derivations by chance, checked by a program that is written from the first tier of docs/DEFINITIONS.md alone.

    python3 tests/derivations.py             the last line is 'derivations: N passed, M failed'
    python3 tests/derivations.py --show 3    so many of the derivations, line by line

tests/checker has what a derivation and a legal list of items are, from the definitions, on nameless terms and sets. Derivations by HOL Light's rules are made
by a generator that knows names and renames variables as fusion.ml does, and the checker has to accept each; then each is broken in one of many ways, and has
to be refused at that place by the condition that was broken. Both read the same definitions in different forms, so where they differ one of them, or a
definition, isn't what it is thought to be. The prelude's statements are compared with their texts, as tests/model reads these.

The program proves none of this, and is not run: what it promises is said in the definitions, and this shows what these say."""

import argparse
import collections
import random
import sys
from typing import Callable, Dict, List, Tuple

from checker import generator, named, prelude
from checker.broken import WAYS, Given
from checker.derivations import NODES, Record, Refused, check
from model import theories
from model.grammar import parsed
from model.readings import Reading

SEED = 1
RECORDS = 10_000  # and as many broken ones
EACH = 40  # records over one list of items
TRIES = 40  # to break a record in one way
# The statements as HOL Light's bool.ml, class.ml and nums.ml have them, but that ONE_ONE and ONTO are equations of constants.
TEXTS = {name: text for name, text in theories.PRELUDE_TEXTS.items() if name in prelude.STATEMENTS}
TEXTS.update({"ONE_ONE": r"ONE_ONE = (\f:A->B. !x1 x2. f x1 = f x2 ==> x1 = x2)", "ONTO": r"ONTO = (\f:A->B. !y. ?x. y = f x)"})


def renames_in_inst(theorem: named.Theorem) -> bool:
    put = theorem.given[0] if theorem.rule == "by_inst" else ()
    names = {("Var", *variable): term for term, variable in put}
    inside = theorem.above[0].concl if put else None
    return bool(put) and any(
        variable in named.frees(inside) and any(("Var", *free) in set(named.variables(inside)) - named.frees(inside) for free in free_in(term))
        for variable, term in names.items()
    )


def free_in(term: Tuple) -> set:
    if term[0] == "free":
        return {term[1:]}
    if term[0] == "app":
        return free_in(term[1]) | free_in(term[2])
    return free_in(term[3]) if term[0] == "lam" else set()


# What has to have come among the derivations, so that they show more than that simple ones are accepted.
CASES: Dict[str, Callable[[named.Theorem], bool]] = {
    "TRANS over middles that differ in names": lambda th: th.rule == "by_trans" and named.dest_eq(th.above[0].concl)[1] != named.dest_eq(th.above[1].concl)[0],
    "EQ_MP of a formula with other names": lambda th: th.rule == "by_eq_mp" and named.dest_eq(th.above[0].concl)[0] != th.above[1].concl,
    "DEDUCT_ANTISYM_RULE that removes": lambda th: th.rule == "by_deduct_antisym" and len(th.hyps) < len(named.union(th.above[0].hyps, th.above[1].hyps)),
    "hypotheses that become one": lambda th: th.rule in ("by_inst", "by_inst_type") and len(th.hyps) < len(th.above[0].hyps),
    "ABS under hypotheses": lambda th: th.rule == "by_abs" and bool(th.hyps),
    "INST of a variable that would be captured": renames_in_inst,
    "INST_TYPE under hypotheses": lambda th: th.rule == "by_inst_type" and bool(th.hyps),
}
LEAST = 500  # each case has to come once in so many derivations


class Outcome:
    def __init__(self) -> None:
        self.passed, self.failed = 0, 0

    def tell(self, holds: bool, what: str) -> None:
        self.passed += holds
        self.failed += not holds
        if not holds and self.failed <= 20:
            print(f"FAILED  {what}")


def read_statement(text: str) -> Tuple:
    """The nameless term of a text, by the reader of tests/model."""

    def put(term: Tuple) -> Tuple:
        if term[0] == "comb":
            return ("app", put(term[1]), put(term[2]))
        if term[0] == "lambda":
            return ("lam", term[1], put_type(term[2]), put(term[3]))
        return ("bound", term[1]) if term[0] == "bound" else ({"free": "free", "constant": "fixed"}[term[0]], term[1], put_type(term[2]))

    def put_type(ty: Tuple) -> Tuple:
        return ("TyVar", ty[1]) if ty[0] == "variable" else ("TyApp", ty[1], tuple(map(put_type, ty[2])))

    return put(Reading(theories.PRELUDE_CONSTANTS, theories.PRELUDE_TYPES).of(parsed(f"g N `{text}`")[2]))


def statements(outcome: Outcome) -> None:
    for name, statement in prelude.STATEMENTS.items():
        outcome.tell(read_statement(TEXTS[name]) == statement, f"{name} is another statement than `{TEXTS[name]}`")


def accepted(outcome: Outcome, made: List[Tuple], show: int) -> None:
    rules, cases, lines = collections.Counter(), collections.Counter(), 0
    for number, (_, theorem, record) in enumerate(made):
        try:
            holds, why = check(record) == generator.claim(theorem), "the sequent is another"
        except Refused as refused:
            holds, why = False, f"{refused.why} at {refused.place}"
        outcome.tell(holds, f"derivation {number} is refused: {why}\n{written(record)}")
        lines += len(record.lines)
        rules.update(line.rule for line in record.lines)
        cases.update(case for case, test in CASES.items() if test(theorem))
        if number < show:
            print(written(record))
    print(f"{len(made)} derivations of {lines} lines: {', '.join(f'{rules[rule]} {rule}' for rule in NODES)}")
    for case in CASES:
        print(f"    {cases[case]} {case}")
    for came, of in ((cases, CASES), (rules, NODES)):
        for what in of if len(made) >= RECORDS else ():
            outcome.tell(LEAST * came[what] >= len(made), f"{what}: {came[what]} among the derivations, and not one in {LEAST}")


def refused(outcome: Outcome, rng: random.Random, made: List[Tuple]) -> None:
    for number, (name, (breaks, why)) in enumerate(WAYS.items()):
        wanted, came = (len(made) + len(WAYS) - 1 - number) // len(WAYS), 0
        for _ in range(TRIES * wanted):
            if came == wanted:
                break
            broken = breaks(Given(rng, *rng.choice(made)))
            if broken:
                came += 1
                outcome.tell(*judged(name, why, *broken))
        print(f"    {came} refused: {name} ({why})")
        outcome.tell(came == wanted, f"{name}: {came} broken in this way, and not {wanted}")


def judged(name: str, why: str, record: Record, place: Tuple) -> Tuple[bool, str]:
    try:
        check(record)
    except Refused as refusal:
        return refusal.why == why and refusal.place == place, f"{name}: refused by '{refusal.why}' at {refusal.place}, and not by '{why}' at {place}\n{written(record)}"
    return False, f"{name}: accepted\n{written(record)}"


def written(record: Record) -> str:
    items = [f"    item {number}: {made.item}" for number, made in enumerate(record.made)]
    lines = [f"    line {number}: {line.rule} {line.above} {line.given}\n        {sorted(line.hyps)} |- {line.concl}" for number, line in enumerate(record.lines)]
    return "\n".join(items + lines)


def main() -> None:
    parser = argparse.ArgumentParser(description="Derivations by chance against the first tier of the definitions.")
    parser.add_argument("--seed", type=int, default=SEED)
    parser.add_argument("--records", type=int, default=RECORDS, help="so many derivations, and as many broken ones")
    parser.add_argument("--show", type=int, default=0, help="print so many derivations")
    options = parser.parse_args()
    rng, outcome = random.Random(options.seed), Outcome()
    statements(outcome)
    made = list(generator.records(rng, options.records, EACH))
    accepted(outcome, made, options.show)
    refused(outcome, rng, made)
    print(f"derivations: {outcome.passed} passed, {outcome.failed} failed")
    sys.exit(1 if outcome.failed else 0)


if __name__ == "__main__":
    main()
