"""Slips of people who come from HOL Light, over the program: the places and words that `holls check` tells of them."""

import pathlib
import tempfile
import unittest

from tests import forked
from tests.helpers import BUILT

SLIPS = (
    ("new_definition Q `len (x:A) = len x`;;", "1:1: error: len stands on its own right side: new_definition can't be recursive"),
    ("new_definition Q `len (x:A) = f x`;;", "1:1: error: f is free in what is defined: make it an argument of the constant"),
    ("new_constant f `:A->A`;; new_axiom GROW `!x:A. x = f x`;;\ng A `(y:A) = z`;;\ne REWRITE_TAC [GROW];;\noops;;",
     "3:1: error: too large: a term here or a term that a tactic makes has over 20,000 nodes"),
    ("new_axiom COMM `!x y. x /\\ y <=> y /\\ x`;;\ng A `a /\\ b`;;\ne REWRITE_TAC [COMM];;\noops;;",
     "3:1: error: the turn limit was reached: a tactic doesn't end (rewriting? ONCE_REWRITE_TAC,"),
    ("g A `T`;;\n// comment\ne ACCEPT_TAC TRUTH;;\nqed;;", "2:1: error: `//` begins no command; comments are (* .. *)"),
    ("g A `T`;;\ne ACCEPT_TAC TRUTH\nqed;;", "3:1: error: a `;;` is missing before `qed`"),
    ("g A `T`;;\ne ACCEPT_TAC (SPEC `x` REFL_CLAUSE);;\noops;;", "2:15: error: SPEC doesn't fit what it is given: it wants a theorem !x. p"),
    ("g A `T`;;\ne ASM_REWRITE [];;\noops;;", "2:3: error: there is no tactic ASM_REWRITE; did you mean ASM_REWRITE_TAC?"),
    ("g A `x:A = x`;;\ne REFL;;\noops;;", "2:3: error: unexpected `REFL`; it makes a theorem, and a tactic is wanted here: ACCEPT_TAC (REFL `t`), or REFL_TAC"),
    ("g A `T`;;\ne ALL_TAC THEN SYM TRUTH;;\noops;;", "2:16: error: unexpected `SYM`; it makes a theorem, and a tactic is wanted here: ACCEPT_TAC (SYM th)"),
    ("g A `T`;;\ne ACCEPT_TAC SYM TRUTH;;\noops;;", "2:14: error: unexpected `SYM`; a rule stands in parentheses here: (SYM th)"),
    ("g A `1 + 1 = 2`;;", "1:6: error: unexpected `1`; numerals are notation"),
    ("g A `x + y = z`;;", "1:8: error: `+` begins no symbol of the notation; operators are notation"),
    ("new_type set A;;", "1:14: error: unexpected `A`; expected new_type NAME NUM"),
    ("( g A `T` );;", "1:1: error: unexpected `(`"),
    ("new_constant c `t`;;", "1:17: error: unexpected `t`; a type's quotation begins with `:`"),
    ("new_definition W `w x x = x`;;", "1:23: error: unexpected `x`; the argument x stands twice"),
)


@unittest.skipUnless(BUILT.is_file(), "hol_serve isn't built")
class Slips(unittest.TestCase):
    def test_each_is_told(self):
        with tempfile.TemporaryDirectory() as folder:
            for at, (text, _) in enumerate(SLIPS):
                (pathlib.Path(folder) / ("S%02d.hol" % at)).write_text(text)
            done = forked.run("check", "--server", BUILT, folder)
        lines = done.stdout.decode().splitlines()
        for at, (text, told) in enumerate(SLIPS):
            first = next(line for line in lines if "S%02d.hol:" % at in line)
            self.assertIn("S%02d.hol:%s" % (at, told), first, text)


if __name__ == "__main__":
    unittest.main()
