#!/usr/bin/env python3
"""How long an `e` takes that rewrites or reduces.

    python3 bench/rewriting.py --program PATH [--rounds N] [--only WORD] [--slow]

PATH is the built program, crates/hol_serve/out/hol_serve. Each job has documents of its own, in a process of its own: what it needs, a goal, and an expression on
it, in some jobs the `qed` behind it too. Each command behind the goal is replaced by itself, which reads it and runs it alone; and so is the same text in a theory
where no proof is open, which reads it and refuses it. The time shown is the processor time of the first less that of the second, a median of the rounds, beside the time
that is wanted; then follow the seconds that a report on the last command takes, which runs nothing, and the greatest peak of resident memory, of which 100 MB are wanted.
That each replace runs one command is asked for by `stats`. A program that ends before it answers is told, and a reply or a number of commands run that isn't the expected
one; the run goes on, and ends with status 1.

  negation    `p <=> ~p` as a rule: 4,000 turns make a goal of over 20,000 nodes
  1,000 rules by 1,000 axioms a goal of 10,000 nodes is rewritten of which no part matches, also by 10 of them, and both a goal of 2 nodes; and one of which 667 parts
              match, each by a rule of its own; goals of 7,800 and 6,500 nodes, where all rules have one constant at their heads, and differ ten nodes below it; and the
              `qed` of the one of which parts match
  truths      a conjunction of 1,000 `T`s, whose ends are at the right, and one of 32 times 32 in brackets, by the basic rewrites
  redexes     100 identity functions applied one to the other's value; a context of 15,000 nodes around 90 of them; functions that double their argument, ten (10,232 nodes at the end) and
              sixteen (too large); a function that takes its argument 90 times; and the `qed` of two
  variables   a rule of 1,000 variables: as arguments of a constant, bound by `!`, and as a conjunction of 32 times 32; and the `qed` where there are 100

Needs Python 3.8 and Linux, and nothing else.
"""

import argparse
import os
import statistics
import sys

from bench import Session, is_done, put, replace, report, request

MEMORY = 100 << 10
RULES = 1000
PARTS = 667


def documents(theories):
    """The requests that make these theories, in order."""
    for place, (name, texts) in enumerate(theories):
        yield request(op="new_theory", name=name, at=place)
        yield from put(texts, name)


def grouped(parts, group=32):
    """A conjunction of conjunctions, so that it is not deep."""
    parts = list(parts)
    return " /\\ ".join("(%s)" % " /\\ ".join(parts[at:at + group]) for at in range(0, len(parts), group))


def nested(function, count, last):
    return "".join("(%s) (" % function for _ in range(count)) + last + ")" * count


def many_heads():
    """A theory whose 1,000 rules have a constant each, and the rules' names; the last one is in the theory that imports it."""
    constants = ["new_constant f%d `:bool->bool`" % k for k in range(RULES)]
    axioms = ["new_axiom R%d `f%d p <=> p`" % (k, k) for k in range(RULES)]
    return [("K", constants), ("R", ["import K", *axioms[:RULES - 1]])], ["import R", axioms[RULES - 1]]


def one_head():
    """The same with one constant at the heads: what tells the rules apart is a word of ten letters below it."""
    axioms = ["new_axiom R%d `h (%s) <=> p`" % (k, word(k, "p")) for k in range(RULES)]
    constants = ["new_constant %s `:bool->bool`" % name for name in ("h", "f", "g")]
    return [("K", constants), ("R", ["import K", *axioms[:RULES - 1]])], ["import R", axioms[RULES - 1]]


def word(number, last):
    letters = ["g" if number >> bit & 1 else "f" for bit in range(10)]
    return " (".join(letters) + " " + last + ")" * 9


def by_rules(names):
    return "PURE_REWRITE_TAC [%s]" % "; ".join(names)


def goals(reply):
    return reply.startswith(b'{"goals":[{')


def closed(reply):
    return reply == b'{"goals":[],"ok":true}\n'


def made(reply):
    return reply.startswith(b'{"made":["thm N ')


def too_large(reply):
    return b'"refusal":13' in reply


class Fault(Exception):
    """What is wrong with a job."""


class Job:
    """Theories, and in the last one the commands before the goal, the goal and what comes behind it, which is measured."""

    def __init__(self, name, wanted, is_right, goal, *behind, before=(), theories=()):
        self.name, self.wanted, self.is_right = name, wanted, is_right
        self.behind, self.first = behind, len(before) + 1
        self.documents = list(documents([*theories, ("A", [*before, "g N `%s`" % goal, *behind]), ("Z", behind)]))

    def used(self, session, line):
        """The processor time of an edit that runs one command."""
        ran, before = session.ran(), session.processor()
        (reply,), _ = session.send([line])
        used = session.processor() - before
        if not is_done(reply):
            raise Fault("answered %r" % reply[:120])
        if session.ran() != ran + 1:
            raise Fault("ran %d commands" % (session.ran() - ran))
        return used

    def once(self, program):
        """The processor time of what is behind the goal, the seconds of the report and the peak memory, in one round."""
        session = Session(program)
        replies, _ = session.send(self.documents)
        if not all(map(is_done, replies)):
            raise Fault("isn't set up")
        used = 0.0
        for place, text in enumerate(self.behind):
            used += self.used(session, replace(self.first + place, text)) - self.used(session, replace(place, text, "Z"))
        (reply,), took = session.send([report(self.first + len(self.behind) - 1)])
        if not self.is_right(reply):
            raise Fault("answered %r" % reply[:120])
        peak = session.peak()
        status, _ = session.close()
        if status != 0:
            raise Fault("ended with status %d" % status)
        return used, took, peak

    def row(self, program, rounds):
        """A row of the table, and whether all was right."""
        try:
            taken = [self.once(program) for _ in range(rounds)]
        except Fault as fault:
            return "%-58s %s" % (self.name, fault), False
        alone, took = (statistics.median(each[k] for each in taken) for k in (0, 1))
        peak = max(each[2] for each in taken)
        over = [word for word, is_over in (("time", self.wanted and alone > self.wanted), ("memory", peak > MEMORY)) if is_over]
        wanted = "%.1f s" % self.wanted if self.wanted else "-"
        return "%-58s %9.4f s %7s %9.4f s %8.1f MB %s" % (self.name, alone, wanted, took, peak / 1024, over and "over: " + " and ".join(over) or ""), True


def jobs(slow):
    names, last = ["R%d" % k for k in range(RULES)], "e CONTR_TAC FALSE"
    yield Job("negation: 4,000 turns, too large", 2.0, too_large, "(p <=> ~p) ==> p", "e DISCH_TAC THEN ASM_REWRITE_TAC []")
    theories, before = many_heads()
    before = ["new_axiom FALSE `F`", "new_constant g `:bool->bool`", *before]
    none, each = grouped(["g p"] * PARTS), grouped("f%d p" % k for k in range(PARTS))
    yield Job("1,000 rules, 10,000 nodes, none matches", 0.5, goals, none, "e " + by_rules(names), theories=theories, before=before)
    yield Job("10 rules, 10,000 nodes, none matches", 0.5, goals, none, "e " + by_rules(names[:10]), theories=theories, before=before)
    yield Job("1,000 rules, 2 nodes", 0.5, goals, "g p", "e " + by_rules(names), theories=theories, before=before)
    yield Job("10 rules, 2 nodes", 0.5, goals, "g p", "e " + by_rules(names[:10]), theories=theories, before=before)
    yield Job("1,000 rules, 10,000 nodes, 667 match", 0.5, goals, each, "e " + by_rules(names), theories=theories, before=before)
    yield Job("1,000 rules, 10,000 nodes, 667 match: with its qed", None, made, each, "e " + by_rules(names), last, "qed", theories=theories, before=before)
    theories, before = one_head()
    none, each = grouped("h (%s)" % word(1000 + k % 24, "q") for k in range(120)), grouped("h (%s)" % word(7 * k, "q") for k in range(100))
    yield Job("1,000 rules of one head, 7,800 nodes, none matches", 0.5, goals, none, "e " + by_rules(names), theories=theories, before=before)
    yield Job("1,000 rules of one head, 6,500 nodes, 100 match", 0.5, goals, each, "e " + by_rules(names), theories=theories, before=before)
    truths = ["T"] * 1000
    yield Job("truths: 1,000 in a row", 0.3, closed, " /\\ ".join(truths), "e REWRITE_TAC []")
    yield Job("truths: 1,000 in a row: with its qed", None, made, " /\\ ".join(truths), "e REWRITE_TAC []", "qed")
    yield Job("truths: 32 times 32", 0.3, closed, grouped(["T"] * 1024), "e REWRITE_TAC []")
    yield Job("truths: 32 times 32: with its qed", None, made, grouped(["T"] * 1024), "e REWRITE_TAC []", "qed")
    identities, false = nested("\\x:bool. x", 100, "p"), ["new_axiom FALSE `F`"]
    yield Job("redexes: 100, one in another", 0.5, goals, identities, "e BETA_TAC")
    yield Job("redexes: 100, one in another: with its qed", None, made, identities, "e BETA_TAC", last, "qed", before=false)
    around = grouped("p%d" % k for k in range(1500)) + " /\\ " + nested("\\x:bool. x", 90, "p")
    yield Job("redexes: 90 in 15,000 nodes", 0.5, goals, around, "e BETA_TAC")
    yield Job("redexes: 10 that double, 10,232 nodes", 0.5, goals, nested("\\x. x /\\ x", 10, "p"), "e BETA_TAC")
    yield Job("redexes: 10 that double: with its qed", None, made, nested("\\x. x /\\ x", 10, "p"), "e BETA_TAC", last, "qed", before=false)
    yield Job("redexes: 16 that double, too large", 0.5, too_large, nested("\\x. x /\\ x", 16, "p"), "e BETA_TAC")
    yield Job("redexes: one that takes its argument 90 times", 0.5, goals, "(\\x. %s) (%s)" % (" /\\ ".join(["x"] * 90), grouped(["p%d" % k for k in range(20)], 5)), "e BETA_TAC")
    variables, values = ["x%d" % k for k in range(1000)], ["p%d" % k for k in range(1000)]
    constant = "new_constant c `:%sbool`" % ("A->" * 1000)
    yield Job("variables: 1,000 arguments", 0.5, closed, "c " + " ".join(values), "e PURE_REWRITE_TAC [R]", before=[constant, "new_axiom R `c %s`" % " ".join(variables)])
    yield Job("variables: 1,000 arguments, bound by !", 0.5, closed, "c " + " ".join(values), "e PURE_REWRITE_TAC [R]",
              before=[constant, "new_axiom R `!%s. c %s`" % (" ".join(variables), " ".join(variables))])
    yield Job("variables: 32 times 32", 0.5, closed, grouped(values), "e PURE_REWRITE_TAC [R]", before=["new_axiom R `(%s) = T`" % grouped(variables)])
    for count in (100, 1000) if slow else (100,):
        few = ["new_constant c `:%sbool`" % ("A->" * count), "new_axiom R `c %s`" % " ".join(variables[:count])]
        yield Job("variables: %s arguments: with its qed" % format(count, ","), None, made, "c " + " ".join(values[:count]), "e PURE_REWRITE_TAC [R]", "qed", before=few)


def main():
    parser = argparse.ArgumentParser(description="Measures rewriting in a built hol-serve.")
    parser.add_argument("--program", required=True, help="the built program")
    parser.add_argument("--rounds", type=int, default=3, help="how often each job is run (3)")
    parser.add_argument("--only", default="", help="jobs whose name has this in it")
    parser.add_argument("--slow", action="store_true", help="also a `qed` by a rule of 1,000 variables, which takes seconds")
    words = parser.parse_args()
    if words.rounds < 1:
        parser.error("--rounds takes a number above 0")
    program, all_right = os.path.abspath(words.program), True
    print("%-58s %11s %7s %11s %11s" % ("job", "processor", "wanted", "report", "memory"))
    for job in jobs(words.slow):
        if words.only in job.name:
            row, is_right = job.row(program, words.rounds)
            print(row, flush=True)
            all_right = all_right and is_right
    return 0 if all_right else 1


if __name__ == "__main__":
    sys.exit(main())
