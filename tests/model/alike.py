"""Documents in which X and Y name expressions that are written in like ways, and others import both: equal values are one, and others clash."""

import random

BASE = [
    "new_constant c `:bool`", "new_type t 0", "new_axiom AX `c`", "new_axiom AT `T`", "new_axiom CC `c /\\ T`", "new_axiom GX `!x:bool. x ==> x`", "new_axiom EX `?x:bool. x`",
    "g L1 `T`", "e ACCEPT_TAC TRUTH", "qed", "g L2 `T`", "e ACCEPT_TAC TRUTH THEN ACCEPT_TAC AX", "qed", "g L3 `T`", "e ACCEPT_TAC TRUTH", "qed", "g L4 `T`", "e ACCEPT_TAC AT", "qed",
    "g Q1 `!x:bool. x = x`", "e GEN_TAC THEN REFL_TAC", "qed", "g Q2 `!y:bool. y = y`", "e GEN_TAC THEN REFL_TAC", "qed", "g Q3 `!x':bool. x' = x'`", "e GEN_TAC THEN REFL_TAC", "qed",
    "g P1 `p ==> p`", "e DISCH_TAC THEN FIRST_ASSUM ACCEPT_TAC", "qed", "deftac A1 ALL_TAC", "deftac A2 ALL_TAC", "deftac U1 A1", "deftac U2 A2", "deftac V1 U1", "deftac V2 U2",
    "deftac S1 ACCEPT_TAC TRUTH", "deftac S2 ACCEPT_TAC L1", "deftac S3 ACCEPT_TAC L2", "deftac S4 (ACCEPT_TAC (L1))", "deftac R1 REPEAT A1", "deftac R2 REPEAT ALL_TAC",
    "deftac AB ALL_TAC THEN CONJ_TAC", "deftac AB2 ALL_TAC THEN CONJ_TAC", "deftac OR1 NO_TAC ORELSE ALL_TAC", "deftac EV1 EVERY [ALL_TAC; CONJ_TAC]", "deftac TR1 TRY ALL_TAC",
]  # fmt: skip
PARTS = {
    "tac": "ALL_TAC (ALL_TAC) A1 A2 U1 U2 V1 V2 (A1) ((U2)) NO_TAC S1 S2 S3 S4 R1 R2".split(),
    "thm": [
        "TRUTH", "L1", "L2", "L3", "L4", "AT", "(L1)", "(CONJUNCT2 CC)", "Q1", "Q2", "Q3", "(SPEC `T` GX)", "(REFL `T`)", "(REFL `c:bool`)", "(SPEC `c:bool` Q1)",
        "(SPEC `c:bool` Q2)", "(INST_TYPE [`:t`, `:A`] L1)", "(INST_TYPE [`:B`, `:A`] L1)", "(ASSUME `p:bool`)", "(ASSUME `q:bool`)", "(ASSUME `c`)",
        "(MP (ASSUME `p ==> q`) (ASSUME `p:bool`))", "(MP (ASSUME `r ==> q`) (ASSUME `r:bool`))", "(SYM (REFL `T`))", "(MP P1 (ASSUME `p:bool`))",
        "(INST_TYPE [`:B`, `:A`; `:t`, `:A`] L1)",
    ],
    "quote": [
        "`T`", "`c`", "`c:bool`", "`(c:bool)`", "`p:bool`", "`!x:bool. x`", "`!x':bool. x'`", "`!y:bool. y`", "`(!) (\\x:bool. x)`", "`(\\x:t. T) = (\\x. T)`", "`(\\x:A. T) = (\\x. T)`",
        "`(\\y:A. T) = (\\y. T)`", "`~ T`", "`~T`", "` T`",
    ],
    "tt": ["ACCEPT_TAC", "(ACCEPT_TAC)", "MP_TAC", "ASSUME_TAC"],
    "n": ["0", "1", "2"],
}  # fmt: skip
FORMS = [
    "{tac}", "{tac} THEN {tac}", "{tac} THEN {tac} THEN {tac}", "{tac} THEN ({tac} THEN {tac})", "EVERY [{tac}; {tac}]", "EVERY [{tac}]", "EVERY []", "FIRST [{tac}]", "FIRST []",
    "FIRST [{tac}; {tac}]", "{tac} ORELSE {tac}", "{tac} ORELSE {tac} ORELSE {tac}", "({tac} ORELSE {tac}) ORELSE {tac}", "TRY {tac}", "REPEAT {tac}", "CHANGED_TAC {tac}",
    "REPLICATE_TAC {n} {tac}", "{tac} THENL [{tac}]", "{tac} THENL []", "ACCEPT_TAC {thm}", "MP_TAC {thm}", "FIRST [ACCEPT_TAC {thm}; ACCEPT_TAC {thm}]", "TRY (TRY {tac})",
    "ACCEPT_TAC {thm} ORELSE MP_TAC {thm}", "EXISTS_TAC {quote}", "SPEC_TAC ({quote}, {quote})", "X_GEN_TAC {quote}", "X_CHOOSE_TAC {quote} {thm}",
    "FIRST_ASSUM (X_CHOOSE_TAC {quote})", "SUBGOAL_THEN {quote} ACCEPT_TAC", "SUBGOAL_THEN {quote} (ACCEPT_TAC)", "DISCH_THEN {tt}", "POP_ASSUM {tt}", "FIRST_ASSUM {tt}",
    "NO_TAC ORELSE REWRITE_TAC [{thm}; {thm}]", "NO_TAC ORELSE PURE_REWRITE_TAC [{thm}]", "NO_TAC ORELSE REWRITE_TAC []", "EVERY [{tac}; EVERY [{tac}]]",
]  # fmt: skip
TO_PROVE = ["T", "c", "T /\\ c", "p ==> p", "?x:bool. x", "!x:bool. x ==> x"]
ENDING = "e REPEAT (CONJ_TAC ORELSE GEN_TAC ORELSE DISCH_TAC) THEN TRY (FIRST_ASSUM ACCEPT_TAC) THEN TRY (ACCEPT_TAC AX) THEN TRY (ACCEPT_TAC TRUTH)"
# Expressions of a family are alike, and some of them equal.
FAMILIES = [
    [f"{name} {theorem}" for name in ("MP_TAC", "ACCEPT_TAC") for theorem in ("TRUTH", "L1", "L3")] + ["ASSUME_TAC TRUTH", "REWRITE_TAC [TRUTH]", "PURE_REWRITE_TAC [TRUTH]"],
    [f"{name}REWRITE_TAC []" for name in ("", "ONCE_", "PURE_", "ASM_", "ONCE_ASM_")],
    [f"REWRITE_TAC [{theorems}]" for theorems in ("TRUTH; L1", "L1; TRUTH", "TRUTH", "TRUTH; TRUTH", "L3; L2", "L2; L3")],
    ["EXISTS_TAC `p:bool`", "X_GEN_TAC `p:bool`", "UNDISCH_TAC `p:bool`", "EXISTS_TAC `p`", "EXISTS_TAC `p:A`", "EXISTS_TAC `(p:bool)`", "EXISTS_TAC `p:B`", "EXISTS_TAC `p:t`"],
    [f"SPEC_TAC ({pair})" for pair in ("`p:bool`, `q:bool`", "`q:bool`, `p:bool`", "`p:bool`, `p:bool`", "`(p:bool)`, `q:bool`")],
    ["DISCH_THEN MP_TAC", "POP_ASSUM MP_TAC", "FIRST_ASSUM MP_TAC", "DISCH_THEN (MP_TAC)", "DISCH_THEN ASSUME_TAC", "SUBGOAL_THEN `T` MP_TAC", "SUBGOAL_THEN `F` MP_TAC"],
    ["X_CHOOSE_TAC `x:bool` EX", "X_CHOOSE_TAC `y:bool` EX", "CHOOSE_TAC EX", "MP_TAC EX", "X_CHOOSE_TAC `x:bool` (ASSUME `?x:bool. x`)", "X_CHOOSE_TAC `x:bool` (ASSUME `?y:bool. y`)"],
    [f"FIRST [ACCEPT_TAC {left}; ACCEPT_TAC {right}]" for left in ("L1", "L2", "L3", "L4", "TRUTH", "AT") for right in ("L2", "L1", "AT")],
    [f"MP_TAC {left} THEN MP_TAC {right}" for left in ("L1", "L2", "(CONJUNCT2 CC)") for right in ("L2", "L1", "(CONJUNCT2 CC)")],
    [
        "MP_TAC (ASSUME `q:bool`)", "MP_TAC (MP (ASSUME `p ==> q`) (ASSUME `p:bool`))", "MP_TAC (MP (ASSUME `r ==> q`) (ASSUME `r:bool`))",
        "MP_TAC (CONJUNCT1 (ASSUME `q /\\ p`))", "MP_TAC (CONJUNCT1 (ASSUME `q /\\ r`))", "MP_TAC (SPEC `p:bool` (ASSUME `!x:bool. q`))",
        "MP_TAC (SPEC `p:bool` (ASSUME `!y:bool. q`))", "MP_TAC (SPEC `r:bool` (ASSUME `!x:bool. q`))",
    ],
    [f"MP_TAC {text}" for text in ("(INST_TYPE [`:t`, `:A`] L1)", "L1", "(INST_TYPE [`:B`, `:A`] L1)", "(INST_TYPE [`:t`, `:B`] L1)", "(INST_TYPE [`:B`, `:A`; `:t`, `:A`] L1)")],
    [f"MP_TAC ({text})" for text in ("SPEC `c:bool` Q1", "SPEC `c:bool` Q2", "REFL `c:bool`", "SYM (REFL `c:bool`)", "SPEC `(c:bool)` Q3", "REFL `p:bool`")],
    [f"{name}_TAC {theorem}" for name in ("MP", "ACCEPT") for theorem in ("Q1", "Q2", "Q3")],
    [f"MP_TAC (SPEC `p:bool` (ASSUME `!{name}:bool. q`))" for name in "xy"],
    [*(f"{word} A1" for word in ("TRY", "REPEAT", "CHANGED_TAC", "REPLICATE_TAC 1", "REPLICATE_TAC 0")), "TRY A2", "TRY U1", "EVERY [A1]", "FIRST [A1]", "A1", "EVERY [A1; A1]"],
]  # fmt: skip
LEAVES = "ALL_TAC A1 A2 A1 A2 U1 V1 NO_TAC CONJ_TAC DISJ1_TAC DISJ2_TAC AB AB2 OR1 EV1 TR1".split()


def filled(rng, form):
    while "{" in form:
        before, _, rest = form.partition("{")
        part, _, behind = rest.partition("}")
        form = before + rng.choice(PARTS[part]) + behind
    return form


def varied(rng, text, form):
    """A text like this one: with another part, or of the same form with other parts, or in parentheses."""
    if rng.random() < 0.4:
        text = filled(rng, form)
    for parts in PARTS.values():
        found = [part for part in parts if part in text and not part.isdigit()]
        if found and rng.random() < 0.5:
            text = text.replace(rng.choice(found), rng.choice(parts), 1)
    return text


def equal(rng, turns):
    """Z imports X and Y, and uses what they name."""
    names = rng.sample(["D", "L1x", "TRUTH", "E", "F1", "AX"], rng.choice([1, 2, 3, 4]))
    forms, seed, document = [rng.choice(FORMS) for _ in names], rng.random(), [("W", BASE)]
    for theory in "XY":
        again, texts = random.Random(seed), ["import W"]
        for name, form in zip(names, forms):
            text = filled(again, form)
            text = varied(rng, text, form) if theory == "Y" and rng.random() < 0.7 else text
            texts.append(f"deftac {name} ({text})" if rng.random() < 0.15 else f"deftac {name} {text}")
        document.append((theory, texts))
    texts = rng.choice([["import X", "import Y"], ["import Y", "import X"], ["import W", "import X", "import Y"]])
    uses = [f"e TRY {name}" for name in names]
    return [*document, ("Z", [*texts, f"g K `{rng.choice(TO_PROVE)}`", *uses, f"e {rng.choice(names)}", ENDING, "qed"])]


def around(text):
    return f"({text})" if " THEN" in text or " ORELSE" in text else text


def bracketed(rng, leaves, word):
    """The leaves, joined by a word or by any, in any order of joining."""
    if len(leaves) == 1:
        return f"({leaves[0]})" if " " in leaves[0] else leaves[0]
    at = rng.randrange(1, len(leaves))
    left, right, join = bracketed(rng, leaves[:at], word), bracketed(rng, leaves[at:], word), word or rng.choice(["THEN", "ORELSE", "THENL"])
    if join == "THENL":
        return f"{around(left)} THENL [{right}]"
    if join == "THEN":
        return f"{left if rng.random() < 0.4 and ' ORELSE ' not in left else around(left)} THEN {around(right)}"
    return f"{around(left)} ORELSE {right if rng.random() < 0.5 else around(right)}"


def two_alike(rng):
    """Two expressions of one family, or of the same leaves."""
    family = rng.choice(FAMILIES)
    if rng.random() < 0.45:
        form = rng.choice(["{}", "{}", "{}", "TRY ({})"])
        return form.format(rng.choice(family)), form.format(rng.choice(family))
    leaves, word = [rng.choice(LEAVES) if rng.random() < 0.8 else rng.choice(family) for _ in range(rng.choice([2, 3, 3, 4, 5]))], rng.choice(["THEN", "ORELSE", None])
    others = rng.choice([leaves, leaves, [*leaves[:-1], rng.choice(LEAVES)], [{"A1": "A2", "A2": "A1"}.get(leaf, leaf) for leaf in leaves]])
    left = bracketed(rng, leaves, word)
    lists = [f"{kind} [{'; '.join(leaves)}]" for kind in ("EVERY", "FIRST")]
    return left, rng.choice([*lists, left, *(bracketed(rng, others, word) for _ in range(5))])


def shapes(rng, turns):
    """Each two that are alike stand alone, so that no clash hides another."""
    document = [("W", BASE)]
    for at in range(5):
        left, right = two_alike(rng)
        document += [(f"{theory}{at}", ["import W", f"deftac D{at} {text}", f"deftac D{at}0 TRY D{at}"]) for theory, text in (("P", left), ("Q", right))]
        use = f"ALL_TAC ORELSE D{at}" if "REWRITE" in left + right else f"TRY D{at}"
        document.append((f"R{at}", [f"import P{at}", f"import Q{at}", "g K `T /\\ T`", f"e {use}"]))
    return document
