#!/usr/bin/env python3
"""How long one `e` takes that runs through many goals or turns.

    python3 bench/scripts.py --program PATH [--rounds N]

PATH is the built program, crates/hol_serve/out/hol_serve. Each job is a theory of two commands, a goal and an expression. The second is replaced by itself, which
reads it and runs it alone; and a report on it, behind that, shows the goals that are left, or says why it is refused. Each is measured in a process of its own, by the
clock and by processor time, in which the insert of the expression isn't counted. That the one runs a command and the other none is asked for by `stats`. The times shown
are medians of the rounds; the memory is the greatest of them. A reply that isn't of the expected kind ends the run with status 1.

  conjunction   REPEAT CONJ_TAC on a conjunction of 1,000 parts: 1,999 rounds and as many calls
  turns         REPEAT ALL_TAC, with 100,000 turns: it ends when they are used up
  disjunctions  STRIP_TAC on a conjunction of 12 disjunctions: 4,096 goals of 12 assumptions each

Needs Python 3.8 and Linux, and nothing else.
"""

from bench import arguments, is_done, new_theory, put, replace, report, table

CONJUNCTS = 1000
DISJUNCTIONS = 12


def leaves(count):
    """Whether a reply has so many goals."""
    return lambda reply: reply.startswith(b'{"goals":[') and reply.count(b'"goal":') == count


def is_limit(reply):
    return b'"refusal":18' in reply


def jobs(name, goal, expression, is_right, options=()):
    """The run of an expression, and what shows it."""
    text = "e " + expression
    setup, shown = [new_theory(), *put(["g N `%s`" % goal, text])], report(1)
    yield name, setup, [replace(1, text)], is_done, 1, (shown, is_right), options
    yield name + ": shown", setup, [shown], is_right, 0, None, options


def main():
    conjunction = " /\\ ".join("p%d" % k for k in range(CONJUNCTS))
    disjunctions = " /\\ ".join("(p%d \\/ q%d)" % (k, k) for k in range(DISJUNCTIONS)) + " ==> t"
    table(
        [
            *jobs("REPEAT CONJ_TAC on 1,000 parts", conjunction, "REPEAT CONJ_TAC", leaves(CONJUNCTS)),
            *jobs("REPEAT ALL_TAC through 100,000 turns", "p:bool", "REPEAT ALL_TAC", is_limit, ("--turns", "100000")),
            *jobs("STRIP_TAC on 12 disjunctions: 4,096 goals", disjunctions, "STRIP_TAC", leaves(2**DISJUNCTIONS)),
        ],
        *arguments(__doc__),
    )


if __name__ == "__main__":
    main()
