#!/usr/bin/env python3
"""What edits and reports cost beside running all afresh, as ratios within one run.

    python3 bench/edits.py --program PATH [--rounds N]

PATH is the built program, crates/hol_serve/out/hol_serve. Times are the program's processor time, from the first request of a job to its last reply; what sets a job
up isn't counted. Of each job the least of the rounds is shown. How many commands a job runs is asked for by `stats`.

  entering     1,000 commands of one theory put in order, with a report after each, beside the same and one report at the end
  chain        64 theories of 100 commands, each of which imports the one before: a step of the first theory that is replaced and replaced back, whose `qed` makes
               the same theorem, which runs the step alone; and a new constant at the head of the first theory, and its removal, which runs it alone; both beside
               putting all the theories
  reports      1,000 reports on small goals, at random places of the chain: microseconds each
  memory       the greatest resident set after the edits of the chain, beside that of one session over it

A limit that isn't met, a reply that isn't of the expected kind, or another number of commands run ends the run with status 1.

Needs Python 3.8 and Linux, and nothing else.
"""

import argparse
import os
import random
import sys

from bench import Session, expect, expect_ran, is_done, is_report, is_run, put, replace, report, request

THEORIES, COMMANDS, LEMMAS = 64, 100, 200


def timed(session, lines, is_right, runs, what):
    """The processor time of these requests, which run so many commands."""
    ran, before = session.ran(), session.processor()
    replies, _ = session.send(lines)
    used = session.processor() - before
    expect(replies, is_right, what)
    expect_ran(session, ran, runs, what)
    return used


def lemma(name):
    return [f"g {name} `p /\\ q ==> q /\\ p`", "e DISCH_TAC", "e POP_ASSUM STRIP_ASSUME_TAC", "e CONJ_TAC THEN FIRST_ASSUM ACCEPT_TAC", "qed"]


def theory(number):
    """A theory of 100 commands: but for the first an import of the one before, then constants and lemmas of names of its own."""
    first = [f"import T{number - 1}"] if number else ["new_constant first `:bool`"]
    texts = [*first, *(f"new_constant c{number}_{k} `:bool`" for k in range(4))]
    for k in range(19):
        texts += lemma(f"L{number}_{k}")
    return texts


def putting(name, at, texts):
    return [request(op="new_theory", name=name, at=at), *put(texts, name)]


def entering(program):
    """Seconds of entering the commands with a report after each, and with one report."""
    texts = [text for k in range(LEMMAS) for text in lemma(f"L{k}")]
    lines = putting("A", 0, texts)
    each = lines[:1]
    for place, line in enumerate(lines[1:]):
        each += [line, report(place)]
    found = []
    for requests in (each, [*lines, report(len(texts) - 1)]):
        session = Session(program)
        found.append(timed(session, requests, lambda reply: is_done(reply) or is_report(reply), len(texts), "entering"))
        session.close()
    return found


def chain(program):
    """Seconds of putting the chain, of two changed steps, of a new constant and its removal, and of 1,000 reports; and the two greatest resident sets."""
    theories = [theory(number) for number in range(THEORIES)]
    lines = [line for number, texts in enumerate(theories) for line in putting(f"T{number}", number, texts)]
    session = Session(program)
    all_afresh = timed(session, lines, is_done, sum(is_run(text) for texts in theories for text in texts), "the chain")
    fresh = session.peak() * 1024
    step = 5 + 5 * 9 + 3
    others = ("e CONJ_TAC THENL [FIRST_ASSUM ACCEPT_TAC; FIRST_ASSUM ACCEPT_TAC]", "e CONJ_TAC THEN ALL_TAC THEN FIRST_ASSUM ACCEPT_TAC")
    changed = timed(session, [replace(step, text, "T0") for text in others], is_done, 2, "a changed step")
    head = [request(op="insert", theory="T0", at=0, text="new_constant head `:bool`"), request(op="remove", theory="T0", at=0)]
    headed = timed(session, head, is_done, 1, "a new constant")
    rng = random.Random(1)
    places = [(rng.randrange(THEORIES), 5 + 5 * rng.randrange(19) + rng.randrange(3)) for _ in range(1000)]
    asked = timed(session, [report(at, f"T{number}") for number, at in places], lambda reply: reply.startswith(b'{"goals":[{'), 0, "reports")
    peak = session.peak() * 1024
    session.close()
    return all_afresh, changed / 2, headed / 2, asked, fresh, peak


def main():
    words = argparse.ArgumentParser(description=__doc__, formatter_class=argparse.RawDescriptionHelpFormatter)
    words.add_argument("--program", required=True)
    words.add_argument("--rounds", type=int, default=3)
    chosen = words.parse_args()
    program = os.path.abspath(chosen.program)
    rounds = [(entering(program), chain(program)) for _ in range(chosen.rounds)]
    many, one = (min(found[0][k] for found in rounds) for k in range(2))
    afresh, changed, headed, asked, fresh, peak = (min(found[1][k] for found in rounds) for k in range(6))
    memory = (peak - 1024 * THEORIES * COMMANDS) / fresh
    rows = [
        ("1,000 commands with a report after each", f"{many:.3f} s", "entered with one report", f"{one:.3f} s", many / one, 1.5),
        ("a changed step at the head of the chain", f"{changed * 1000:.2f} ms", "the chain afresh", f"{afresh:.3f} s", changed / afresh, 1 / 100),
        ("a new constant at the head of the chain", f"{headed * 1000:.2f} ms", "the chain afresh", f"{afresh:.3f} s", headed / afresh, 1 / 10),
        ("a report on a small goal", f"{asked * 1000:.1f} us", "limit", "20 us", asked * 1000 / 20, 1),
        ("greatest memory after the edits", f"{peak / 1e6:.1f} MB", "of one session, and 1 KB a command", f"{fresh / 1e6:.1f} MB", memory, 1.5),
    ]
    for job, figure, beside, other, ratio, limit in rows:
        print(f"{job:42} {figure:>12}   {beside:36} {other:>10}   {ratio:7.4f} of {limit:.2f}{'' if ratio <= limit else '   NOT MET'}")
    sys.exit(any(ratio > limit for *_, ratio, limit in rows))


if __name__ == "__main__":
    main()
