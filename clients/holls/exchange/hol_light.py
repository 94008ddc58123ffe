"""HOL Light as a process, where it is installed: OCaml that it runs behind one of its files."""

from __future__ import annotations

import re
import subprocess
import tempfile
from pathlib import Path
from typing import NamedTuple, Tuple

INSTALLED = Path("/usr/share/hol-light")
"""Where Debian's package hol-light stands."""
PRELUDE = Path(__file__).resolve().parent / "prelude.ml"
LAST = "ind_defs.ml"
"""HOL Light is loaded up to this file, before it has types and choice: what is exported makes its own."""
ADVICE = "HOL Light isn't installed in %s (Debian: apt-get install hol-light libnum-ocaml-dev)" % INSTALLED

_SUMMARY = re.compile(r"^@summary (\d+) (\d+) (\d+) (\d+) of (\d+)$", re.M)
_TOLD = re.compile(r"^@(ours|refused) (.*)$", re.M)
_FAULT = re.compile(r"^(?:Error|Exception)\b.*$", re.M)


class NoHolLight(Exception):
    """HOL Light isn't installed, or ended otherwise than it should; the text says what to do."""


class Outcome(NamedTuple):
    """How theorems fared: so many by HOL Light's own functions, by ours, taken as given, and refused; and a line for each that HOL Light's
    own functions didn't prove, as (ours or refused, what is told)."""

    theirs: int
    ours: int
    given: int
    refused: int
    told: Tuple[Tuple[str, str], ...]


def is_installed() -> bool:
    return (INSTALLED / "hol.ml").exists()


def run(text: str, last: str = LAST) -> str:
    """What HOL Light prints when it runs OCaml behind the file `last` of its own. It ends with the text."""
    if not is_installed():
        raise NoHolLight(ADVICE)
    lines = (INSTALLED / "hol.ml").read_text(encoding="utf-8").splitlines(keepends=True)
    end = next((number for number, line in enumerate(lines) if line.startswith('loads "%s"' % last)), len(lines) - 1)
    with tempfile.TemporaryDirectory() as folder:
        begun = Path(folder, "begun.ml")
        begun.write_text("".join(lines[:end + 1]), encoding="utf-8")
        done = subprocess.run([str(INSTALLED / "ocaml"), "-noprompt", "-init", str(begun)], input=text, stdout=subprocess.PIPE,
                              stderr=subprocess.STDOUT, encoding="utf-8", errors="replace", check=False)
    return done.stdout


def outcome(printed: str) -> Outcome:
    """What the summary says. Raises NoHolLight, with the first fault, where there is none, or where HOL Light lost a theorem: its phrase, or a definition's."""
    found = _SUMMARY.search(printed)
    faults = _FAULT.findall(printed)
    if not found:
        raise NoHolLight("HOL Light came to no end: %s" % (faults or printed.splitlines()[-1:] or ["it printed nothing"])[0])
    theirs, ours, given, refused, number = map(int, found.groups())
    if theirs + ours + given + refused != number:
        raise NoHolLight("HOL Light came to %d of %d theorems: %s" % (theirs + ours + given + refused, number, (faults or ["no fault was told"])[0]))
    return Outcome(theirs, ours, given, refused, tuple(_TOLD.findall(printed)))
