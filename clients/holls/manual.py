"""The language's own words, in one table each: how each is written, what it does, and what it wants where it refuses something.

All that the clients say or test of these words is made of this: so a new one gets its line here. A test compares the names, and the prelude's statements, with
docs/TACTICS.md, docs/NOTATION.md and docs/PROTOCOL.md; `python3 clients/colours.py` puts the words into the editors' files.
"""

from __future__ import annotations

from typing import Dict, NamedTuple, Optional


class Entry(NamedTuple):
    """How a name is written, its arguments as parts of that, what it does, and what it wants, where it refuses something."""

    form: str
    does: str
    wants: str = ""

    @property
    def arguments(self) -> str:
        """What follows the name."""
        return self.form.partition(" ")[2]


def _entries(lines: str) -> Dict[str, Entry]:
    """The entries of a table: `FORM | SENTENCE`, and ` | wants ..` of what refuses something. A line that is indented goes on with the one before."""
    rows = [line.partition(" | ") for line in lines.replace("\n    ", " ").strip().splitlines()]
    parts = [(form, *told.partition(" | wants ")) for form, _, told in rows]
    return {form.split()[0]: Entry(form.strip(), does.strip(), wants.strip()) for form, does, _, wants in parts}


FUNCTIONS = _entries(r"""
ALL_TAC | Fits any goal and leaves it as it is.
NO_TAC | Fits no goal: it is always refused. | wants no goal at all
REFL_TAC | Closes `s = s`; the sides may differ in bound names. | wants an equation whose sides are equal up to bound names
ACCEPT_TAC th | Closes the goal that the theorem concludes. | wants a theorem that concludes the goal
CONJ_TAC | Of `p /\ q` leaves `p`, then `q`. | wants p /\ q
DISJ1_TAC | Of `p \/ q` leaves `p`. | wants p \/ q
DISJ2_TAC | Of `p \/ q` leaves `q`. | wants p \/ q
EQ_TAC | Of `p <=> q` leaves `p ==> q`, then `q ==> p`. | wants p <=> q
DISCH_TAC | Of `p ==> q`, or `~p`, leaves `q`, or `F`, with `p` assumed. | wants p ==> q or ~p
GEN_TAC | Of `!x. p` leaves `p` at a fresh variable. | wants !x. p
X_GEN_TAC `v` | Of `!x. p` leaves `p` at v, a variable of x's type that is free nowhere in the goal.
    | wants !x. p, with a variable of x's type that is free nowhere in the goal
EXISTS_TAC `t` | Of `?x. p` leaves `p` at t, a term of x's type. | wants ?x. p, with a term of x's type
SPEC_TAC (`t`, `x`) | Leaves `!x.` the conclusion with x for each t; x is a variable of t's type that isn't free there, unless it is t.
    | wants a variable of the term's type that isn't free in the goal, unless it is the term
MP_TAC th | Of any goal `w` leaves `c ==> w`, c being what the theorem concludes.
ASSUME_TAC th | Leaves the goal with what the theorem concludes assumed.
CONTR_TAC th | Closes any goal by a theorem that concludes `F`. | wants a theorem that concludes F
CHOOSE_TAC th | By a theorem `?x. p` leaves the goal with `p` assumed at a fresh variable. | wants a theorem ?x. p
X_CHOOSE_TAC `v` th | By a theorem `?x. p` leaves the goal with `p` assumed at v, a variable of x's type that is free in neither.
    | wants a theorem ?x. p, with a variable of x's type that is free neither in it nor in the goal
DISJ_CASES_TAC th | By a theorem `p \/ q` leaves the goal with `p` assumed, then with `q`. | wants a theorem p \/ q
SUBST1_TAC th | By a theorem `s = t` leaves the conclusion with t for each s. | wants a theorem s = t
AP_TERM_TAC | Of `f x = f y` leaves `x = y`. | wants f x = f y
AP_THM_TAC | Of `f x = g x` leaves `f = g`. | wants f x = g x
MK_COMB_TAC | Of `f x = g y`, f and g of one type, leaves `f = g`, then `x = y`. | wants f x = g y with f and g of one type
UNDISCH_TAC `p` | Takes the newest assumption that is p out, and leaves `p ==> w` of the conclusion `w`.
    | wants one of the goal's assumptions
STRIP_ASSUME_TAC th | Assumes the parts of what the theorem concludes: both of a `/\`, a witness of a `?`, a goal for each side of a `\/`.
STRIP_TAC | Does what GEN_TAC or CONJ_TAC does; of `p ==> q`, or `~p`, leaves `q`, or `F`, with the parts of `p` assumed.
    | wants !x. p, p /\ q, p ==> q or ~p
MATCH_MP_TAC th | By a theorem `!xs. s ==> t` whose t matches the goal leaves `s` at the instance, under `?` for variables that t lacks; matching is first order.
    | wants a theorem !xs. s ==> t whose t matches the goal
BETA_TAC | Reduces each `(\x. b) a` of the conclusion; closes the goal where that is `T`.
REWRITE_TAC [th; ..] | Rewrites the conclusion by the theorems and the basic rewrites until no rule matches; closes the goal where that is `T`.
ASM_REWRITE_TAC [th; ..] | Does what REWRITE_TAC does, by the assumptions too, which come before the basic rewrites.
PURE_REWRITE_TAC [th; ..] | Rewrites the conclusion by the theorems alone until no rule matches; closes the goal where that is `T`.
ONCE_REWRITE_TAC [th; ..] | Replaces each topmost part of the conclusion that a theorem or a basic rewrite matches, once; closes the goal where that gives `T`.
ONCE_ASM_REWRITE_TAC [th; ..] | Does what ONCE_REWRITE_TAC does, by the assumptions too, which come before the basic rewrites.
""")
"""The tactics."""

STEPS = _entries(r"""
INDUCT_ON `x` | First in a command: induction on a variable of an inductive type, by the theorem of its type.
CASES_ON `t` | First in a command: the cases of a term of an inductive type.
RULE_INDUCT R | First in a command: induction on the rules of R, of a goal `!.. R x y ==> p`.
""")
"""The steps that the clients expand (docs/PACKAGES.md)."""

INFIXES = _entries(r"""
THEN tac | `t THEN u` runs t, then u on each goal that is left; it binds tighter than ORELSE.
THENL [tac; ..] | `t THENL [u; ..]` runs t, then each on the goal of its place; there have to be as many as goals.
ORELSE tac | `t ORELSE u` runs t, or where it is refused u.
""")
"""The tacticals that stand between expressions."""

PREFIXES = _entries(r"""
REPEAT tac | Runs the expression, and itself again on each goal that is left, until it is refused; each round costs a turn.
TRY tac | Runs the expression, or where it is refused leaves the goal.
CHANGED_TAC tac | Runs the expression, and is refused where just the goal is left.
EVERY [tac; ..] | Runs the expressions one after the other, each on all goals that are left.
FIRST [tac; ..] | Runs the first expression that isn't refused.
REPLICATE_TAC n tac | Runs the expression n times, each time on all goals that are left.
""")
"""Those that stand before what they run."""

HANDING = _entries(r"""
DISCH_THEN tac | Of `p ==> q`, or `~p`, hands `p` as a theorem to the tactic, on `q` or `F`. | wants p ==> q or ~p
POP_ASSUM tac | Takes the newest assumption out and hands it to the tactic as a theorem. | wants a goal with an assumption
FIRST_ASSUM tac | Hands the first assumption to the tactic with which it isn't refused, the newest first; the goal keeps all.
    | wants an assumption that its tactic takes
SUBGOAL_THEN `p` tac | Leaves `p` first, and then what the tactic leaves of the goal with `p` as a theorem.
""")
"""Those that hand a theorem to a tactic, whose last argument it is."""

TACTICALS = {**INFIXES, **PREFIXES, **HANDING}

RULES = _entries(r"""
ASSUME `p` | Makes `p` under the hypothesis `p`, which has to be among the goal's assumptions where it is used.
    | wants a term of type bool: annotate what leaves its type open, as p:bool or (P:A->bool) x
REFL `t` | Makes `t = t`. | wants a term
SPEC `t` th | Of `!x. p` makes `p` at t, a term of x's type.
    | wants a theorem !x. p and a term of x's type: annotate the term, or INST_TYPE the theorem
SYM th | Of `s = t` makes `t = s`. | wants a theorem s = t: of !x. s = t take the ! off by SPEC
CONJUNCT1 th | Of `p /\ q` makes `p`. | wants a theorem p /\ q: of !x. p /\ q take the ! off by SPEC
CONJUNCT2 th | Of `p /\ q` makes `q`. | wants a theorem p /\ q: of !x. p /\ q take the ! off by SPEC
MP th th | Of `p ==> q` and `p` makes `q`.
    | wants a theorem p ==> q and then the theorem p: of !x. p ==> q take the ! off by SPEC; ~p and p <=> q are no implications
INST_TYPE [`:type`, `:A`; ..] th | Makes the theorem with types for its type variables.
    | wants pairs of a type and the type variable that it is put for, as [`:bool`, `:A`]
""")
"""The forward rules."""

PACKAGE_RULES = _entries(r"""
GSYM th | Turns the theorem's equations round, under `!` and `/\`.
CONJ th th | Of `p` and `q` makes `p /\ q`.
GEN_ALL th | Puts `!` before the theorem for each of its free variables.
BETA_RULE th | Makes the theorem with each `(\x. b) a` reduced.
MATCH_MP th th | Of `!xs. p ==> q` and an instance of `p` makes that of `q`.
REWRITE_RULE [th; ..] th | Makes the theorem rewritten by those of the list and the basic rewrites.
PURE_REWRITE_RULE [th; ..] th | Makes the theorem rewritten by those of the list alone.
SPEC_ALL th | Makes the theorem without its outer `!`s, at variables of their names.
SPECL [`t`; ..] th | Of `!x y. p` makes `p` at the terms.
ISPEC `t` th | Of `!x. p` makes `p` at t, and at the types that t asks for.
ISPECL [`t`; ..] th | Of `!x y. p` makes `p` at the terms, and at the types that these ask for.
""")
"""The rules that the clients expand (docs/PACKAGES.md)."""

COMMANDS = _entries(r"""
g NAME `term` | Opens a proof of the term, of type `bool`, under this name.
e TAC | Runs an expression of tactics on the first goal.
b | Undoes the newest `e` or `r` of the proof.
r NUM | Puts the first goal last, so many times.
qed | Ends the proof and makes the theorem.
oops | Gives the proof up.
import NAME | Takes the theorems, constants and types of the theory NAME.hol.
new_type NAME NUM | Declares a type constructor of so many arguments, 0 to 16.
new_constant NAME `:type` | Declares a constant of this type.
new_axiom NAME `term` | States an axiom.
new_definition NAME `c v1 .. vn = term` | Defines the constant c and makes the theorem NAME.
new_basic_type_definition TY ABS REP N1 N2 TH | Defines a type by a theorem TH, `P x`; makes ABS to it, REP from it, and the theorems N1 and N2.
deftac NAME TAC | Names an expression of tactics, which then stands where a tactic without arguments may.
""")
"""The commands."""

DECLARATIONS = _entries(r"""
infixr n op constant | Declares an infix that groups to the right, with a precedence from 1 to 99; without a constant the operator is its name.
infixl n op constant | Declares an infix that groups to the left, with a precedence from 1 to 99; without a constant the operator is its name.
type_infixr n op constructor | Declares an infix of types, which groups to the right.
notation form constant .. | Gives a form its constants: `if`, `list`, `set`, `pair`, `let`, `num`, or `1` for the type of one element.
sets constant place .. | Says which of a constant's arguments, counted from 0, are shown as `{x | p}` where they are functions; `result`: it makes a set.
abbreviate `NAME x .. = term` | Has `NAME x ..` read as the term, which is what goals show.
no_notation op | Takes an operator, a form or an abbreviation back.
local declaration | Declares something for this file alone.
""")
"""The commands of a file that declare notation, which the program never gets (docs/WRITING.md)."""

PACKAGES = _entries(r"""
define_type NAME = CONSTRUCTOR type .. | Declares a type with constructors, and makes its theorems of induction, recursion, cases and equality.
define NAME `clauses` | Defines functions by clauses with patterns, and makes the theorem NAME of them; `by_measure` says what gets smaller at each call.
inductive NAME `rules` | Defines the least relation that has the rules, and makes NAME_RULES, NAME_INDUCT, NAME_STRONG_INDUCT and NAME_CASES.
record NAME = CONSTRUCTOR field:type .. | Declares a type of one constructor, with functions that read and replace its fields, and their laws.
specification NAME constant .. TH | Of a theorem that something exists makes constants that are so, and the theorem NAME that they are.
theorems NAME = [th; ..] | Names a list of theorems, which then stands in any list.
let NAME = `term` | Names a term for the steps behind it; in one step, ``e (let NAME = `term` in STEP)``.
simp th th .. | Has searches simplify by these theorems, in this file and in those that import it.
sorry | Ends the open proof: what it was to prove is an axiom from here on, with a warning.
""")
"""The commands of a file that stand for several of the program's (docs/WRITING.md)."""

PRELUDE = {
    "T_DEF": r"T = ((\p:bool. p) = (\p. p))",
    "AND_DEF": r"(/\) = (\p q. (\f:bool->bool->bool. f p q) = (\f. f T T))",
    "IMP_DEF": r"(==>) = (\p q. p /\ q <=> p)",
    "FORALL_DEF": r"(!) = (\P:A->bool. P = (\x. T))",
    "EXISTS_DEF": r"(?) = (\P:A->bool. !q. (!x. P x ==> q) ==> q)",
    "OR_DEF": r"(\/) = (\p q. !r. (p ==> r) ==> (q ==> r) ==> r)",
    "F_DEF": r"F = (!p. p)",
    "NOT_DEF": r"(~) = (\p. p ==> F)",
    "EXISTS_UNIQUE_DEF": r"(?!) = (\P:A->bool. (?) P /\ (!x y. P x /\ P y ==> x = y))",
    "ETA_AX": r"!t:A->B. (\x. t x) = t",
    "SELECT_AX": r"!(P:A->bool) x. P x ==> P ((@) P)",
    "ONE_ONE": r"!f:A->B. ONE_ONE f <=> (!x1 x2. f x1 = f x2 ==> x1 = x2)",
    "ONTO": r"!f:A->B. ONTO f <=> (!y. ?x. y = f x)",
    "INFINITY_AX": r"?f:ind->ind. ONE_ONE f /\ ~ONTO f",
    "TRUTH": r"T",
    "REFL_CLAUSE": r"!x:A. x = x <=> T",
    "EQ_CLAUSES": r"!t. ((T <=> t) <=> t) /\ ((t <=> T) <=> t) /\ ((F <=> t) <=> ~t) /\ ((t <=> F) <=> ~t)",
    "NOT_CLAUSES_WEAK": r"(~T <=> F) /\ (~F <=> T)",
    "AND_CLAUSES": r"!t. (T /\ t <=> t) /\ (t /\ T <=> t) /\ (F /\ t <=> F) /\ (t /\ F <=> F) /\ (t /\ t <=> t)",
    "OR_CLAUSES": r"!t. (T \/ t <=> T) /\ (t \/ T <=> T) /\ (F \/ t <=> t) /\ (t \/ F <=> t) /\ (t \/ t <=> t)",
    "IMP_CLAUSES": r"!t. (T ==> t <=> t) /\ (t ==> T <=> T) /\ (F ==> t <=> T) /\ (t ==> t <=> T) /\ (t ==> F <=> ~t)",
}
"""The prelude's theorems with their statements."""

CONSTANTS = {
    "T": "bool", "F": "bool", "=": "A->A->bool", "<=>": "bool->bool->bool", "==>": "bool->bool->bool", "/\\": "bool->bool->bool",
    "\\/": "bool->bool->bool", "~": "bool->bool", "!": "(A->bool)->bool", "?": "(A->bool)->bool", "?!": "(A->bool)->bool",
    "@": "(A->bool)->A", "ONE_ONE": "(A->B)->bool", "ONTO": "(A->B)->bool",
}
"""The prelude's constants with their types."""

TYPES = {"bool": "the truth values, T and F", "ind": "an infinite type (INFINITY_AX)", "fun": "functions, written A->B"}
"""The prelude's types."""


def entry(name: str) -> Optional[Entry]:
    """What there is to say of a tactic, a tactical, a rule, a command, a declaration or a package."""
    every = (FUNCTIONS, STEPS, TACTICALS, RULES, PACKAGE_RULES, COMMANDS, DECLARATIONS, PACKAGES)
    return next((entries[name] for entries in every if name in entries), None)
