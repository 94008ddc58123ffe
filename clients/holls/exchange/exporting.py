"""`holls export --hol-light`: files of ours as OCaml that HOL Light runs, so that a second kernel checks their theorems."""

from __future__ import annotations

import argparse
import sys
from typing import List, Sequence

from holls import check, checking
from holls.exchange import hol_light, ocaml
from holls.exchange.hol_light import NoHolLight, Outcome
from holls.exchange.ocaml import Unwritable, Writer
from holls.files import File

REFUSED, BROKEN = 1, 2


def add_words(parser: argparse.ArgumentParser) -> None:
    """The words of the command line."""
    parser.add_argument("files", nargs="+", metavar="FILE", help="a file of commands, NAME.hol, or a folder: all such files in it and below")
    parser.add_argument("--hol-light", action="store_true", required=True, help="as OCaml that HOL Light runs, loaded up to %s" % hol_light.LAST)
    parser.add_argument("-o", "--output", metavar="OUT.ml", help="write to this file (standard output)")
    parser.add_argument("--run", action="store_true", help="run it in HOL Light, where that is installed, and tell how each theorem fared")
    parser.add_argument("--sample", type=int, metavar="N", help="run the proofs of N theorems, taken evenly; the others are stated without one")


def main(given: argparse.Namespace) -> int:
    """Writes OCaml, or runs it: 0 where HOL Light accepts each theorem, 1 where it refuses one, 2 where nothing can be written or run."""
    try:
        units = checking.units(check.ordered(given.files))
        text = written([unit.file for unit in units], given.sample)
        if given.output:
            with open(given.output, "w", encoding="utf-8") as output:
                output.write(text)
        elif not given.run:
            sys.stdout.write(text)
        return _told(hol_light.outcome(hol_light.run(text))) if given.run else 0
    except (check.CannotCheck, NoHolLight, Unwritable, OSError) as error:
        print("holls: %s" % error, file=sys.stderr)
        return BROKEN


def _told(outcome: Outcome) -> int:
    for kind, told in outcome.told:
        print("%s: %s" % ("by our functions" if kind == "ours" else "refused", told))
    print(words(outcome))
    return REFUSED if outcome.refused else 0


def words(outcome: Outcome) -> str:
    """How theorems fared, in a line."""
    stated = ", %d stated without a proof" % outcome.given if outcome.given else ""
    return "%d theorems accepted by HOL Light: %d by its own functions, %d by ours made of its rules%s; %d refused" % (
        outcome.theirs + outcome.ours, outcome.theirs, outcome.ours, stated, outcome.refused)


def written(files: Sequence[File], sample: int = 0) -> str:
    """The OCaml of files that stand in the order of their imports, with its prelude. Raises Unwritable, with the command."""
    texts: List[List[str]] = [[command.text for number, command in enumerate(file.commands) if not file.is_declaration(number)] for file in files]
    theorems = sum(text == "qed" for own in texts for text in own)
    writer = Writer(chosen(theorems, sample) if sample else lambda number: True)
    for own in texts:
        writer.add(own)
    return hol_light.PRELUDE.read_text(encoding="utf-8") + writer.text()


def chosen(theorems: int, sample: int):
    """Which numbers of theorems are in a sample: evenly spread."""
    if sample >= theorems:
        return lambda number: True
    return lambda number: number * sample // theorems != (number + 1) * sample // theorems
