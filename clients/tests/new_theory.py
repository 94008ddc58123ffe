"""A theory of lists and arithmetic that a new user types into an empty file, in notation: what is typed, and what is seen behind it.

test_new_theory.py types it letter by letter, in Neovim at a terminal and in the page in Chromium.
"""

from dataclasses import dataclass
from typing import Optional, Tuple


@dataclass(frozen=True)
class Step:
    """Letters that are typed, and what is seen then: the goals' conclusions, and of each error its line, the text that it marks and its words."""

    typed: str
    goals: Tuple[str, ...] = ()
    errors: Tuple[Tuple[int, str, str], ...] = ()
    taken_back: int = 0
    """So many letters are taken back before anything is typed: what was wrong in the step before."""
    plain: Optional[Tuple[str, ...]] = None
    """The same goals as the program says them, where somebody looks."""
    chosen: str = ""
    """What is chosen from the names that are offered for the last word, in its place."""


STEPS = (
    Step("import lists;;\nimport numerals;;\nimport packages;;\n\n"),
    Step("define SUM `SUM [] = 0 /\\ SUM (CONS x l) = x + SUM l`;;\n\n"),
    # A bracket that is never closed.
    Step("g SUM_TWO `SUM [1; 2 = 3`;;", errors=((7, "[", "this `[` is never closed: `]` is missing"),)),
    Step("] = 3`;;\n", ("SUM [1; 2] = 3",), taken_back=len(" = 3`;;")),
    Step("e REWRITE_TAC [SUM];;\n", ("1 + 2 + 0 = 3",), plain=("add _1 (add (BIT0 _1) _0) = BIT1 _1",)),
    # A name is completed.
    Step("e NUM_RED", ("1 + 2 + 0 = 3",), ((9, "NUM_RED", "there is no tactic NUM_RED"),), chosen="NUM_REDUCE_TAC"),
    Step(";;\n"),
    Step("qed;;\n\n"),
    # An operator that nobody has declared.
    Step("g SUM_APPEND `!l m. SUM (l +++ m) = SUM l + SUM m`;;", errors=((12, "+++", "`+++` is no operator here"),)),
    Step(" m) = SUM l + SUM m`;;\n", ("!l m. SUM (l ++ m) = SUM l + SUM m",), taken_back=len("+ m) = SUM l + SUM m`;;")),
    Step("e INDUCT_ON `l`;;\n", (
        "!m. SUM ([] ++ m) = SUM [] + SUM m", "!h t. (!m. SUM (t ++ m) = SUM t + SUM m) ==> (!m. SUM (CONS h t ++ m) = SUM (CONS h t) + SUM m)")),
    Step("e REWRITE_TAC [APPEND; SUM; ADD_CLAUSES; FORALL_SIMP];;\n", (
        "!h t. (!m. SUM (t ++ m) = SUM t + SUM m) ==> (!m. SUM (CONS h t ++ m) = SUM (CONS h t) + SUM m)",)),
    Step("e REPEAT STRIP_TAC THEN REWRITE_TAC [APPEND; SUM];;\n", ("h + SUM (t ++ m) = (h + SUM t) + SUM m",)),
    Step("e ASM_REWRITE_TAC [ADD_ASSOC];;\n"),
    Step("qed;;\n\n"),
    # An operator of one's own, which binds as + does and groups the other way.
    Step("infixl 16 <+> twice;;\nnew_definition TWICE `x <+> y = x + 2 * y`;;\n"),
    Step("g TWICE_SUC `!x y. x <+> y + 1 = x + 2 * y + 1`;;", errors=(
        (21, "+", "`<+>` and `+` bind alike and group differently: put parentheses around one of them"),)),
    Step("(x <+> y) + 1 = x + 2 * y + 1`;;\n", ("!x y. (x <+> y) + 1 = x + 2 * y + 1",), taken_back=len("x <+> y + 1 = x + 2 * y + 1`;;")),
    Step("e REWRITE_TAC [TWICE; ADD_ASSOC; FORALL_SIMP];;\nqed;;\n\n"),
    # Sets.
    Step("g SMALL `!x. x IN {1, 2} UNION {y | y < 3} ==> x < 3`;;\n", ("!x. x IN {1, 2} UNION {y | y < 3} ==> x < 3",),
         plain=("!x. IN x (UNION (INSERT _1 (INSERT (BIT0 _1) EMPTY)) (\\y. lt y (BIT1 _1))) ==> lt x (BIT1 _1)",)),
    Step("e REWRITE_TAC [IN_UNION; IN_INSERT; NOT_IN_EMPTY; IN] THEN BETA_TAC;;\n", ("!x. (x = 1 \\/ x = 2) \\/ x < 3 ==> x < 3",)),
    Step("e REPEAT STRIP_TAC THEN ASM_REWRITE_TAC [] THEN NUM_REDUCE_TAC;;\nqed;;\n"),
)
"""The steps, from the empty file to the last theorem."""

THEOREMS = ("SUM_TWO", "SUM_APPEND", "TWICE_SUC", "SMALL")
