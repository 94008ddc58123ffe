#!/usr/bin/env python3
"""How long theories take: definitions, declarations, imports.

    python3 bench/theories.py --program PATH [--rounds N]

PATH is the built program, crates/hol_serve/out/hol_serve. Each job puts documents of its own into a process of its own, in order, so that each command is read and
run once, which `stats` is asked for; an `import` isn't counted by it, but is made. The clock and the processor time run from the first request to the last reply; the
start of the program isn't in them. Then a report on the last command is looked at. The times shown are medians of the rounds; the memory is the greatest of them. A
reply that isn't of the expected kind, or another number of commands run, ends the run with status 1.

  examples     the four theories of examples/theories that import one another, and the theorems of the last one
  constants    1,000 `new_constant`
  definitions  1,000 `new_definition`, each of which uses the one before
  bases        500 such definitions and 100 proofs over the last ten of them, so that each command joins bases of 500 items
  parameters   a `new_definition` of 100 parameters
  chain        64 theories, each of which imports the one before and adds a definition, an axiom and a proof; and the same without the imports
  imports      ten theories of 1,000 constants, and one that imports all ten
  growing      16 theories of 249 definitions with a lemma each, where each definition uses the one before, also across theories
  large        64 theories of 1,000 commands, each of which imports the one before: 63,937 entries stand in the last one

Needs Python 3.8 and Linux, and nothing else.
"""

import pathlib
import sys

from bench import arguments, is_done, is_run, put, report, request, table

ROOT = pathlib.Path(__file__).resolve().parents[1]
EXAMPLES = ("connectives", "maps", "pair_type", "group_axioms")
THEORIES = 64
CONSTANTS = 1000
IMPORTED = 10
GROWING, LEMMAS = 16, 249


def documents(theories):
    """The requests that make these theories, in order."""
    return [line for place, (name, texts) in enumerate(theories) for line in (request(op="new_theory", name=name, at=place), *put(texts, name))]


def commands(name):
    """The commands of a file of examples/theories, as the clients send them."""
    sys.path.insert(0, str(ROOT / "clients"))
    from holls.check import sent  # the clients' own reader of files
    return sent([str(ROOT / "examples" / "theories" / (name + ".hol"))])[name]


def constants(prefix=""):
    return ["new_constant %sc%d `:A->bool`" % (prefix, number) for number in range(CONSTANTS)]


def definitions(count=CONSTANTS):
    """Definitions, each of which uses the one before."""
    return ["new_definition D0 `d0 p = ~p`", *("new_definition D%d `d%d p = d%d (~p)`" % (k, k, k - 1) for k in range(1, count))]


def proofs_over(count):
    """So many definitions, and 100 proofs over the last ten of them."""
    texts = definitions(count)
    for number in range(100):
        last = count - 1 - number % 10
        texts += ["g N%d `!p. d%d p <=> d%d (~p)`" % (number, last, last - 1), "e ACCEPT_TAC D%d" % last, "qed"]
    return texts


def wide(count):
    """A definition of so many parameters."""
    return ["new_definition D `d %s <=> T`" % " ".join("(x%d:bool)" % k for k in range(count))]


def link(number, imports):
    """A theory of the chain."""
    return [
        *(["import T%d" % (number - 1)] if imports and number else []),
        "new_definition D%d `d%d (x:A) = (x = x)`" % (number, number),
        "new_axiom AX%d `!x:A. d%d x ==> d%d x`" % (number, number, number),
        "g N%d `!x:A. d%d x`" % (number, number),
        "e GEN_TAC THEN SUBST1_TAC (SPEC `x:A` D%d) THEN REFL_TAC" % number,
        "qed",
    ]


def chain(imports):
    return [("T%d" % number, link(number, imports)) for number in range(THEORIES)]


def growing(number):
    """A theory of definitions, each of which uses the one before, with a lemma each; it imports the theory before it."""
    texts = ["import G%d" % (number - 1)] if number else []
    for k in range(number * LEMMAS, (number + 1) * LEMMAS):
        texts += ["new_definition D%d `d%d p = d%d (~p)`" % (k, k, k - 1) if k else "new_definition D0 `d0 p = ~p`"]
        texts += ["g N%d `!p. d%d p <=> d%d (~p)`" % (k, k, k - 1) if k else "g N0 `!p. d0 p <=> ~p`", "e ACCEPT_TAC D%d" % k, "qed"]
    return "G%d" % number, texts


def full(number):
    """A theory of as many commands as one may have, which imports the one before."""
    return ("F%d" % number, [*(["import F%d" % (number - 1)] if number else []), *constants("f%d" % number)][:CONSTANTS])


def is_made(reply):
    return reply.startswith(b'{"made":["')


def has_theorems(count):
    """Whether a reply lists so many theorems."""
    return lambda reply: reply.startswith(b'{"ok":true,"theorems":[') and reply.count(b'"thm ') == count


def job(name, theories, shown=None):
    """A job that puts these theories; what is looked at behind it is a report on the last command, where nothing else is said."""
    last, texts = theories[-1]
    runs = sum(is_run(text) for _, texts in theories for text in texts)
    return name, [], documents(theories), is_done, runs, shown or (report(len(texts) - 1, last), is_made)


def jobs():
    examples = [(name, commands(name)) for name in EXAMPLES]
    stated = [text for name, texts in examples if name != "pair_type" for text in texts]  # of group_axioms and of those that it imports
    proved = sum(text.startswith(("g ", "new_definition", "new_axiom")) for text in stated)
    return [
        job("examples/theories", examples, (request(op="theorems", theory="group_axioms"), has_theorems(proved))),
        job("1,000 new_constant", [("A", constants())]),
        job("1,000 new_definition", [("A", definitions())]),
        job("100 proofs over 500 definitions", [("A", proofs_over(500))]),
        job("a definition of 100 parameters", [("A", wide(100))]),
        job("64 theories that import one another", chain(True)),
        job("the same without the imports", chain(False)),
        job("imports of 10,000 constants", [*(("L%d" % k, constants("l%d" % k)) for k in range(IMPORTED)), ("Z", ["import L%d" % k for k in range(IMPORTED)])]),
        job("16 theories of definitions with lemmas", [growing(k) for k in range(GROWING)]),
        job("64 theories of 1,000 commands", [full(k) for k in range(THEORIES)]),
    ]


if __name__ == "__main__":
    table(jobs(), *arguments(__doc__))
