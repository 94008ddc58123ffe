"""Texts of terms, theorems, expressions and commands by chance: mostly such as fit what stands, and some that don't."""

from model.grammar import TACTICALS, parsed
from model.refusals import Refusal
from model.showing import term_text
from model.steps import ARGUMENTS
from model.terms import BOOL, TRUE, aconv, implication, sides, under
from model.theories import Resolved

EXPRESSIONS = ["D", "E", "CL", "G1"] * 2 + ["LONG_" + "x" * 300, "TRUTH", "AX", "L", "deftac", "e", "c", "T", "x", "D'", "FINISH"]
THEOREMS = ["AX", "AY", "L", "M", "D", "CL", "N1", "deftac"]
CONSTANTS = ["c", "d", "x", "x'", "p", "D", "f", "y"]
TYPES = ["t", "u", "t", "u", "A", "D"]
BUILT_IN = "TRUTH TRUTH T_DEF F_DEF AND_CLAUSES REFL_CLAUSE NOT_CLAUSES_WEAK ETA_AX IMP_CLAUSES SELECT_AX INFINITY_AX".split()
WITHOUT = [name for name, kinds in ARGUMENTS.items() if kinds == ""]
WITH = [name for name, kinds in ARGUMENTS.items() if kinds not in ("", "l")]
# What ends most goals that are no harder than they look.
SEARCH = "REPEAT (FIRST [CONJ_TAC; DISCH_TAC; GEN_TAC; ACCEPT_TAC TRUTH; REFL_TAC; FIRST_ASSUM ACCEPT_TAC])"
UNTYPABLE = ["x x", "(\\x. x x)", "T T", "(p:bool) = (p:A)", "!x. x /\\ x x", "(x:A) = T"]
NOT_TRUTHS = ["x", "f x", "a:A", "\\x:bool. x", "@x:A. T", "(~)", "(f:t) "]
ILL_FORMED = ["x:bool bool", "x:fun", "(x:(bool,A) t) = x", "x:A u = x", "x:t = x", "a:bool t = a", "x:(A,B) fun = y"]
VARIABLES = ["x:bool", "c:bool", "y:bool", "p", "a:A", "T", "F", "x':bool", "a:t"]
AT_TYPES = ["a:%s = a", "(\\x:%s. x) = (\\x. x)", "(\\y:%s. T) = (\\z. T)", "(b:%s->bool) = b", "!x:%s. x = x", "?x:%s. x = x"]
BROKEN = ["(", ")", "[", "]", ";", "`", " THEN ", " TRY ", " 01 ", " 10000", "%", "~", " D ", ".", " ORELSE", " THENL ", " MP ", " 7", "\t"]
BEHIND = [" THEN", ")", " D", " TRY", " ORELSE ALL_TAC", ";", " []", " (", " `", " 3", "  "]
CONTINUATIONS = "ACCEPT_TAC MP_TAC ASSUME_TAC STRIP_ASSUME_TAC CONTR_TAC CHOOSE_TAC DISJ_CASES_TAC SUBST1_TAC MATCH_MP_TAC ACCEPT_TAC".split()
NO_CONTINUATIONS = ["FOO", "ALL_TAC", "CONJ_TAC", "(ACCEPT_TAC TRUTH)", "X_CHOOSE_TAC", "SPEC_TAC", "REWRITE_TAC", "(MP_TAC `T`)", "(X_CHOOSE_TAC `x:bool` TRUTH)"]
UNKNOWN = ["FOO", "D", "CL", "E", "AX", "TRUTH", "THE_TAC", "D'", "x", "c", "deftac"]
ON_ASSUMPTIONS = ["POP_ASSUM MP_TAC", "POP_ASSUM STRIP_ASSUME_TAC"] + [f"FIRST_ASSUM {name}_TAC" for name in "STRIP_ASSUME CONTR CHOOSE DISJ_CASES SUBST1 MATCH_MP".split()]


# How often a tactical is written beside 25 calls, where it isn't 6 times.
OFTEN = {"TRY": 8, "REPEAT": 9, "CHANGED_TAC": 5, "FIRST": 9, "REPLICATE_TAC": 5, "DISCH_THEN": 7, "POP_ASSUM": 4, "FIRST_ASSUM": 8, "SUBGOAL_THEN": 4}


def in_parentheses(text):
    return f"({text})" if any(not (char.isalnum() or char in "'~_") for char in text) else text


class Writer:
    """Writes texts by chance, for what stands in a theory."""

    def __init__(self, rng):
        self.rng, self.one = rng, rng.choice

    def chance(self, probability):
        return self.rng.random() < probability

    def weighed(self, *choices):
        """One of these, each a weight and what makes it."""
        return self.rng.choices([make for _, make in choices], [weight for weight, _ in choices])[0]()

    # ---- terms

    def term(self, depth, bound=()):
        if depth == 0 or self.chance(0.2):
            return self.leaf(bound)
        part = lambda: in_parentheses(self.term(depth - 1, bound))
        return self.weighed(
            (16, lambda: "~" + part()),
            (34, lambda: part() + self.one([" /\\ ", " /\\ ", " \\/ "]) + part()),
            (15, lambda: part() + " ==> " + part()),
            (9, lambda: part() + self.one([" <=> ", " = "]) + part()),
            (16, lambda: self.binder(depth, bound)),
            (5, lambda: self.one(AT_TYPES) % self.one(["A", "bool", "t", "ind", "A->bool", "t u", "bool"])),
            (5, lambda: self.one(["f x", "(f:bool->bool) T", "p", "(P:A->bool) a", "f c"])),
        )

    def leaf(self, bound):
        if self.chance(0.35):
            return self.one(["T", "F", "T"])
        return self.one(bound) if bound and self.chance(0.4) else self.one(["p", "q", "r", "c", "d", "x", "x'", "y"])

    def binder(self, depth, bound):
        name = self.one(["x", "y", "x'", "z", "c"])
        return f"{self.one(['!', '?', '!', '?', '?!'])}{name}{self.one(['', ':bool', ':bool', ':bool'])}. {self.term(depth - 1, (*bound, name))}"

    def quotation(self, depth=2):
        some = [(3, lambda: self.one(UNTYPABLE)), (2, lambda: self.one(NOT_TRUTHS)), (2, lambda: self.one(ILL_FORMED)), (6, lambda: self.one(VARIABLES))]
        return f"`{self.weighed(*some, (87, lambda: self.term(self.rng.randint(0, depth))))}`"

    # ---- theorems

    def theorem(self, theory, depth=2):
        own = [name for kind, name in theory.entries if kind == "thm"]
        if depth == 0 or self.chance(0.45):
            if own and self.chance(0.7):
                return self.one(own)
            return self.one(["NOPE", "REFL_TAC", "D", "CL", "AX", "L"] if self.chance(0.12) else BUILT_IN)
        if self.chance(0.3):
            return self.one(["ASSUME ", "ASSUME ", "ASSUME ", "REFL "]) + self.quotation(1)
        before = self.theorem(theory, depth - 1)
        if self.chance(0.2):
            return f"MP {in_parentheses(before)} {in_parentheses(self.theorem(theory, depth - 1))}"
        found = self.conclusion(theory, before)
        if found is None or self.chance(0.1):
            rules = ["CONJUNCT1 ", "CONJUNCT2 ", "SYM ", "SPEC `T` ", "INST_TYPE [`:A`, `:bool`] ", "INST_TYPE [`:bool`, `:A`; `:B`, `:A`] "]
            return self.one(rules) + in_parentheses(before)
        return self.rule_on(found, in_parentheses(before))

    def conclusion(self, theory, text):
        """The conclusion of a theorem that is written, or None where it is refused."""
        written = parsed(f"e ACCEPT_TAC {in_parentheses(text)}")
        if isinstance(written, Refusal):
            return None
        resolved = Resolved(theory)
        resolved.expression(written[1])
        try:
            resolved.tests()
            return resolved.theorem_of(written[1][2][0][1]).conclusion
        except Refusal:
            return None

    def rule_on(self, conclusion, text):
        """A rule that fits the theorem."""
        if sides("==>", conclusion):
            return f"MP {text} " + self.one(["TRUTH", f"(ASSUME `{term_text(sides('==>', conclusion)[0])}`)"])
        rules = [f"INST_TYPE [`:{self.one(['bool', 'B', 't', 'A->A', 'A'])}`, `:{self.one(['A', 'A', 'B', 'A'])}`] "]
        rules += ["CONJUNCT1 ", "CONJUNCT2 "] if sides("/\\", conclusion) else []
        rules += ["SYM "] if sides("=", conclusion) else []
        found = under("!", conclusion)
        if found:
            rules.append(f"SPEC {self.one(['`T`', '`p:bool`', '`c:bool`', '`x:bool`', '`!y:bool. y`']) if found[2] == BOOL else '`a:A`'} ")
        return self.one(rules) + text

    # ---- expressions

    def arguments(self, theory, kinds):
        return "".join(" " + self.argument(theory, kind) for kind in kinds)

    def argument(self, theory, kind):
        if kind == "q":
            return self.quotation(1)
        if kind == "t":
            return in_parentheses(self.theorem(theory, self.one([0, 2])))
        if kind == "p":
            term = self.one(["`T`", "`p:bool`", "`c:bool`", self.quotation(1)])
            return f"({term}, {self.one(['`x:bool`', '`y:bool`', '`p:bool`', self.quotation(0)])})"
        return f"[{'; '.join(self.theorem(theory, 1) for _ in range(self.one([0, 0, 1, 2, 3])))}]"

    def named(self, theory):
        return [name for kind, name in theory.entries if kind == "tac"]

    def call(self, theory):
        own = self.named(theory)
        if own and self.chance(0.4):
            return self.one(own) + ("" if self.chance(0.93) else self.one([" TRUTH", " []", " `T`", " AX", " [TRUTH]", " (`T`, `x:bool`)"]))
        name = self.weighed((3, lambda: self.one(UNKNOWN)), (30, lambda: self.one(WITHOUT)), (24, lambda: self.one(WITH)), (3, lambda: "PURE_REWRITE_TAC []"))
        kinds = self.one(["", "q", "t", "l", "p", "qt", "tt", "tq", "qq"]) if self.chance(0.025) else ARGUMENTS.get(name, "")
        return name + self.arguments(theory, kinds)

    def continuation(self, theory):
        own = self.named(theory)
        return self.weighed(
            (4 if own else 0, lambda: self.one(["%s", "(%s)"]) % self.one(own)),
            (2, lambda: self.one(NO_CONTINUATIONS)),
            (10, lambda: f"(X_CHOOSE_TAC {self.one(['`x:bool`', '`y:bool`', '`z:bool`', self.quotation(0)])})"),
            (84, lambda: self.one(["%s"] * 9 + ["(%s)"]) % self.one(CONTINUATIONS)),
        )

    def expression(self, theory, depth=3):
        part = lambda: self.application(theory, depth - 1)
        if depth <= 0:
            return self.call(theory)
        return self.weighed(
            (25, lambda: self.call(theory)),
            (19, lambda: f"{part()} THEN {part()}"),
            (5, lambda: f"{part()} THENL {self.listed(theory, depth)}"),
            (10, lambda: f"{part()} ORELSE {self.expression(theory, depth - 1)}"),
            (41, lambda: self.application(theory, depth)),
        )

    def listed(self, theory, depth):
        return f"[{'; '.join(self.expression(theory, depth - 1) for _ in range(self.one([0, 1, 2, 2, 3])))}]"

    def operand(self, theory, depth):
        own = self.named(theory)
        text = self.one(own) if own and self.chance(0.35) else self.expression(theory, depth)
        return text if " " not in text and self.chance(0.7) else f"({text})"

    def application(self, theory, depth):
        if depth <= 0:
            return self.call(theory)
        word = self.rng.choices(["call", "(", *TACTICALS], [25, 10, *(OFTEN.get(word, 6) for word in TACTICALS)])[0]
        if word == "call":
            return self.call(theory)
        if word == "(":
            return f"({self.expression(theory, depth - 1)})"
        parts = {
            "operand": lambda: self.operand(theory, depth - 1), "expressions": lambda: self.listed(theory, depth), "number": lambda: self.one(["0", "1", "2", "3", "5", "9999"]),
            "quotation": lambda: self.quotation(2), "continuation": lambda: self.continuation(theory),
        }  # fmt: skip
        return " ".join([word, *(parts[form]() for form in TACTICALS[word])])

    def fitting(self, theory):
        """An expression that fits the first goal, if one is open."""
        goals = theory.proof.history[-1][0]
        if not goals:
            return self.expression(theory, 1)
        assumptions, conclusion = goals[0]
        fits = {
            "CONJ_TAC STRIP_TAC": sides("/\\", conclusion), "DISCH_TAC STRIP_TAC": implication(conclusion), "DISJ1_TAC DISJ2_TAC": sides("\\/", conclusion),
            "GEN_TAC STRIP_TAC": under("!", conclusion), "REFL_TAC EQ_TAC MK_COMB_TAC AP_TERM_TAC": sides("=", conclusion),
        }  # fmt: skip
        found = [name for names, fit in fits.items() if fit for name in names.split()] + [SEARCH]
        found += ["DISCH_THEN ASSUME_TAC", "DISCH_THEN MP_TAC"] if implication(conclusion) else []
        found += ["X_GEN_TAC `y:bool`"] if under("!", conclusion) else []
        found += [f"EXISTS_TAC `{self.one(['T', 'F', 'p:bool', 'c:bool'])}`"] * 2 if under("?", conclusion) else []
        found += ["ACCEPT_TAC TRUTH"] * 4 if conclusion == TRUE else []
        found += ["FIRST_ASSUM ACCEPT_TAC"] * 4 if any(aconv(term, conclusion) for term in assumptions) else []
        found += ON_ASSUMPTIONS if assumptions else []
        for (kind, name), entry in theory.entries.items():
            found += [f"ACCEPT_TAC {name}"] * 3 if kind == "thm" and aconv(entry.value, conclusion) else []
        return self.one(found)

    # ---- commands

    def command(self, theory, earlier):
        text = self.in_proof(theory, earlier) if theory.proof else self.outside(theory, earlier)
        return self.spoiled(text) if self.chance(0.03) else text

    def in_proof(self, theory, earlier):
        if self.chance(0.6) and not theory.proof.history[-1][0]:
            return "qed"
        return self.weighed(
            (35, lambda: f"e {self.fitting(theory)}"),
            (43, lambda: f"e {self.expression(theory, self.one([1, 2, 2, 3]))}"),
            (4, lambda: "b"),
            (4, lambda: f"r {self.one([0, 1, 1, 2, 7])}"),
            (3, lambda: "oops"),
            (4, lambda: "qed"),
            (4, lambda: self.named_expression(theory)),
            (3, lambda: self.outside(theory, earlier)),
        )

    def named_expression(self, theory):
        name = self.one("REFL_TAC ALL_TAC ACCEPT_TAC REWRITE_TAC MATCH_MP_TAC CONJ_TAC".split() if self.chance(0.06) else EXPRESSIONS)
        return f"deftac {name} {self.expression(theory, self.one([0, 1, 2, 2, 3]))}"

    def outside(self, theory, earlier):
        types = ["bool"] * 6 + ["A", "t", "bool->bool", "A u", "bool bool"]
        imported = list(earlier) if earlier and self.chance(0.93) else ["X9", "A", "B", "C"]
        return self.weighed(
            (30, lambda: self.named_expression(theory)),
            (25, lambda: f"g {self.one(THEOREMS)} {self.quotation(3)}"),
            (8, lambda: f"new_constant {self.one(CONSTANTS)} `:{self.one(types)}`"),
            (9, lambda: f"new_axiom {self.one(THEOREMS)} {self.quotation(2)}"),
            (4, lambda: f"new_definition {self.one(THEOREMS)} `{self.one([*CONSTANTS, 'c', 'T'])} = {in_parentheses(self.term(1))}`"),
            (3, lambda: f"new_type {self.one(TYPES)} {self.one([0, 0, 1, 2])}"),
            (14, lambda: f"import {self.one(imported)}"),
            (7, lambda: self.one(["e ALL_TAC", "qed", "b", "r 1", "oops", "e D", ""])),
        )

    def spoiled(self, text):
        """The text with something taken out, put in, or put behind."""
        at = self.rng.randrange(len(text) + 1)
        return self.weighed(
            (35, lambda: text[:at] + text[at + self.rng.randint(1, 3) :]),
            (25, lambda: text[:at] + self.one(BROKEN) + text[at:]),
            (20, lambda: text + self.one(BEHIND)),
            (20, lambda: text[:at]),
        )
