#!/usr/bin/env python3
"""How many goals a second hol-serve types and shows, and how long the hardest within the limits take.

    python3 bench/goals.py --program PATH [--seconds S] [--only WORD]

PATH is the built program, crates/hol_serve/out/hol_serve. A job is one command `g N` with a quotation, in a process of its own. Three things are measured, each again and
again until it has taken S seconds of processor time (1 by default), and once at least:

  reading  the command is replaced by itself behind an open proof, where its text is read and it is refused at once
  typing   what it takes longer to replace it by itself where no proof is open: there it types the quotation and opens the proof, or says why the quotation is refused
  showing  a report on it, which shows its goal or the refusal, and runs nothing

How many commands are run is asked for by `stats`. A reply that isn't of the expected kind, or another number of commands run, ends the run with status 1.

The jobs:

  small        a goal of a few names and binders
  doubling     a conjunction of equations whose types double from each to the next: 8 of them (18,208 nodes, accepted), 9 (36,622 nodes, too
               large), and 400 applications that double so
  nesting      an application to 3,000 arguments, and 3,000 times `~`; with 4,000 both are too large
  names        1,000 free names in 500 equations
  zigzag       985 free names, of which each takes the next as its argument: the first the last, the last the second, the second the last
               but one, and so on. Each type is in that of the name before, so that most are found in another order than the names occur
  binders      2,000 variables of one quantifier, and 4,080, with which the statement is too large

Needs Python 3.8 and Linux, and nothing else.
"""

import argparse
import os

from bench import ONE_KEPT, Session, anew, expect, is_done, put, repeated, report, request


def doubling(count):
    return " /\\\\ ".join("x%d = (\\\\g. g x%d x%d)" % (k + 1, k, k) for k in range(count)).replace("\\\\", "\\")


def doubling_applications(count):
    return " /\\ ".join("x%d x%d x%d" % (k + 1, k, k) for k in range(count))


def names(count):
    return " /\\ ".join("x%d = y%d" % (k, k) for k in range(count // 2))


def quantified(count):
    return "!" + " ".join("x%d" % k for k in range(count)) + ". T"


def zigzag(count):
    """The numbers below count from both ends in turn."""
    return [k // 2 if k % 2 == 0 else count - 1 - k // 2 for k in range(count)]


def zigzag_applications(count):
    order = zigzag(count)
    listed = "f " + " ".join("x%d" % k for k in range(count))
    return listed + " /\\ " + " /\\ ".join("x%d x%d" % pair for pair in zip(order, order[1:]))


JOBS = [
    ("a small goal", "!x y:A. f x y = g y x ==> (?z. f x z = y)", b'"goals"'),
    ("8 equations that double, 18,208 nodes", doubling(8), b'"goals"'),
    ("9 equations that double: too large", doubling(9), b'"refusal":13'),
    ("400 applications that double: too large", doubling_applications(400), b'"refusal":13'),
    ("3,000 arguments", "f" + " x" * 3000 + " = T", b'"goals"'),
    ("4,000 arguments: too large", "f" + " x" * 4000 + " = T", b'"refusal":13'),
    ("3,000 times ~", "~" * 3000 + " p", b'"goals"'),
    ("4,000 times ~: too large", "~" * 4000 + " p", b'"refusal":13'),
    ("1,000 free names", names(1000), b'"goals"'),
    ("985 free names on a zigzag: too large", zigzag_applications(985), b'"refusal":13'),
    ("2,000 variables of a quantifier", quantified(2000), b'"goals"'),
    ("4,080 variables of a quantifier: too large", quantified(4080), b'"refusal":13'),
]


def measure(program, label, quotation, expected, seconds):
    """The seconds that reading, typing and showing take."""
    text = "g N `%s`" % quotation
    session = Session(program, *ONE_KEPT)
    theories = [request(op="new_theory", name=name, at=0) for name in "AZ"]
    replies, _ = session.send([*theories, *put([text]), *put(["g Z `T`", text], "Z")])
    expect(replies, is_done, "what sets up " + label)
    reading = repeated(session, anew(1, text, "Z"), 1, label, seconds)
    running = repeated(session, anew(0, text), 1, label, seconds)
    showing = repeated(session, [report(0)], 0, label, seconds, lambda reply: expected in reply)
    session.close()
    return reading, running - reading, showing


def main():
    parser = argparse.ArgumentParser(description=__doc__, formatter_class=argparse.RawDescriptionHelpFormatter)
    parser.add_argument("--program", required=True, help="the built program")
    parser.add_argument("--seconds", type=float, default=1.0, help="how long each of the three goes on (1)")
    parser.add_argument("--only", default="", help="only the jobs whose names have this in them")
    words = parser.parse_args()
    program = os.path.abspath(words.program)
    print("%-42s %13s %13s %13s %21s" % ("job", "reading", "typing", "showing", "typed and shown"))
    for label, quotation, expected in JOBS:
        if words.only in label:
            reading, typing, showing = measure(program, label, quotation, expected, words.seconds)
            times = tuple(1000 * each for each in (reading, typing, showing))
            print("%-42s %10.4f ms %10.4f ms %10.4f ms %10.1f a second" % (label, *times, 1 / (typing + showing)), flush=True)


if __name__ == "__main__":
    main()
