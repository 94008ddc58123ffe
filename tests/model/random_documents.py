"""Documents by chance. Each form takes a random.Random and the number of turns, and gives theories in order, each a name and its texts."""

from model.documents import Observed, copied, run_command
from model.random_texts import SEARCH, Writer, in_parentheses
from model.steps import ARGUMENTS
from model.theories import Theory


def general(rng, turns):
    """Commands of all kinds, most of which fit what stands."""
    writer, document, earlier = Writer(rng), [], {}
    for name in "ABC"[: rng.choice([1, 2, 2, 3])]:
        theory, texts = Theory(), []
        for _ in range(rng.randint(4, 26)):
            texts.append(writer.command(theory, earlier))
            run_command(theory, texts[-1], earlier, turns)
        document.append((name, texts))
        earlier[name] = theory
    return document


# ---- each function on goals that it fits, and on others

# What is assumed or concluded, with functions that fit it.
ASSUMED = {
    "F": ["CONTR_TAC"], "p \\/ q": ["DISJ_CASES_TAC"], "?x:bool. x /\\ p": ["CHOOSE_TAC", "X_CHOOSE_TAC"], "?y:A. y = x": ["CHOOSE_TAC"], "p <=> q": ["SUBST1_TAC"],
    "p ==> q": ["ASSUME_TAC"], "(f:bool->bool) p = g p": ["SUBST1_TAC"], "p:bool": ["ACCEPT_TAC", "UNDISCH_TAC"], "p /\\ q": ["STRIP_ASSUME_TAC"], "!x:bool. x ==> x": ["UNDISCH_TAC"], "T": ["STRIP_ASSUME_TAC"],
}  # fmt: skip
CONCLUDED = {
    "p /\\ q": ["CONJ_TAC", "STRIP_TAC"], "p \\/ q": ["DISJ1_TAC", "DISJ2_TAC"], "p ==> q": ["DISCH_TAC", "STRIP_TAC"], "~p": ["DISCH_TAC", "STRIP_TAC"], "p <=> q": ["EQ_TAC"],
    "(f:bool->bool) p = f q": ["AP_TERM_TAC", "MK_COMB_TAC"], "(f:bool->bool) p = g p": ["AP_THM_TAC", "MK_COMB_TAC"], "(f:A->B) x = g y": ["MK_COMB_TAC"], "T": ["ACCEPT_TAC"],
    "!x:bool. x ==> x": ["GEN_TAC", "X_GEN_TAC"], "?x:bool. x": ["EXISTS_TAC"], "x:A = x": ["REFL_TAC", "EQ_TAC"], "p:bool": ["ACCEPT_TAC", "SPEC_TAC"],
}  # fmt: skip
MISRULED = ["CONJUNCT1 TRUTH", "CONJUNCT2 TRUTH", "SYM TRUTH", "SPEC `T` TRUTH", "MP TRUTH TRUTH", "INST_TYPE [`:A`, `:bool`] TRUTH", "ASSUME `x:A`"]
RULED = [
    "SYM (ASSUME `p <=> q`)", "MP (ASSUME `p ==> q`) (ASSUME `p:bool`)", "CONJUNCT1 (ASSUME `p /\\ q`)", "CONJUNCT2 (ASSUME `p /\\ q`)", "SPEC `q:bool` (ASSUME `!x:bool. x ==> x`)",
    "INST_TYPE [`:bool`, `:A`] (ASSUME `?y:A. y = x`)",
]  # fmt: skip
LISTED = [f"{name} THENL [{'; '.join(['ALL_TAC'] * count)}]" for name in ("CONJ_TAC", "EQ_TAC", "MK_COMB_TAC", "ALL_TAC") for count in range(4)]

# Those that rewrite have documents of their own (random_rewrites.py).
QUICK = [name for name, kinds in ARGUMENTS.items() if kinds != "l" or name == "PURE_REWRITE_TAC"]


def step(rng, assumed, fitting):
    """A function on goals with what it takes, one that fits or any; a theorem has a hypothesis that is assumed, or another."""
    term = rng.choice([assumed, assumed, rng.choice(list(ASSUMED))])
    arguments = {"q": "`p:bool`", "t": f"(ASSUME `{term}`)", "p": rng.choice(["(`p:bool`, `y:bool`)", "(`p:bool`, `q:bool`)"]), "qt": f"`y:bool` (ASSUME `{term}`)", "": "", "l": "[]"}
    name = rng.choice(rng.choice([fitting, QUICK]))
    given = f"`{term}`" if name == "UNDISCH_TAC" else "`y:bool`" if name == "X_GEN_TAC" else arguments[ARGUMENTS[name]]
    return rng.choice([f"{name} {given}"] * 8 + [f"MP_TAC ({rng.choice(rules)})" for rules in (MISRULED, RULED, RULED)] + [rng.choice(LISTED)])


def functions(rng, turns):
    texts = []
    for _ in range(8):
        assumed, concluded = rng.choice(list(ASSUMED)), rng.choice(list(CONCLUDED))
        texts += [f"g K `({assumed}) ==> ({concluded})`", "e DISCH_TAC"]
        for _ in range(12):
            texts += [f"e {step(rng, assumed, ASSUMED[assumed] + CONCLUDED[concluded])}", *["b"] * (rng.random() < 0.6)]
        texts.append("oops")
    return [("A", texts)]


# ---- names that steps free, and constants of such names

DECLARED = [
    "new_constant c `:bool`", "new_type t 0", "new_constant x `:bool`", "new_constant x' `:bool`", "new_constant p `:bool`", "new_constant y `:t`", "new_type A 0",
    "new_axiom AX `!x:bool. x ==> x`", "new_definition CD `d = T`", "new_constant T1 `:A`", "new_type u 1",
]  # fmt: skip
FREEING = [
    "GEN_TAC THEN NO_TAC", "(GEN_TAC THEN FIRST []) ORELSE ALL_TAC", "TRY (STRIP_TAC THEN NO_TAC)", "MP_TAC AX", "ALL_TAC ORELSE MP_TAC AX", "ALL_TAC ORELSE EXISTS_TAC `c:bool`",
    "ALL_TAC ORELSE X_GEN_TAC `a:t`", "EXISTS_TAC `c:bool`", "SUBGOAL_THEN `c /\\ p ==> c` ASSUME_TAC", "X_GEN_TAC `a:t`", "X_GEN_TAC `x:bool`", "GEN_TAC", "STRIP_TAC",
    "REPEAT GEN_TAC", "MP_TAC (SPEC `c:bool` AX)", "MP_TAC (ASSUME `c:bool`)", "EXISTS_TAC `x:bool`", "SPEC_TAC (`c:bool`, `x:bool`)", "SPEC_TAC (`x:bool`, `c:bool`)",
    "SUBGOAL_THEN `!a:t. a = y` MP_TAC", "SUBGOAL_THEN `d <=> T` ASSUME_TAC", "CHOOSE_TAC (ASSUME `?x:bool. x`)", "DISCH_THEN CHOOSE_TAC",
    "DISCH_THEN (X_CHOOSE_TAC `x:bool`)", "DISCH_THEN (X_CHOOSE_TAC `c:bool`)", "UNDISCH_TAC `c:bool`", "SUBGOAL_THEN `(f:A->t) z = y` ASSUME_TAC",
    "SUBGOAL_THEN `?b:t u. b = b` STRIP_ASSUME_TAC", "MP_TAC (INST_TYPE [`:t`, `:A`] REFL_CLAUSE)", "MP_TAC (REFL `y:t`)", "ASSUME_TAC (REFL `(c:bool)`)",
]  # fmt: skip
GOALS = [
    "c ==> c", "!x:bool. x ==> x", "!x y:bool. x ==> x", "T", "x ==> x", "!a:t. a = a", "?x:bool. x ==> c", "!x:bool. x ==> c", "(?x:bool. x) ==> c", "c ==> !x:bool. x",
    "!x y:bool. x ==> y ==> x /\\ c", "?c:bool. c", "!c:bool. c ==> x", "!a:A. a = a", "(?x:bool. x /\\ c) \\/ x ==> ?y:bool. y", "c", "x ==> c",
]  # fmt: skip
USES = ["{}", "TRY {}", "REPEAT {}", "{} THEN {}", "{} ORELSE {}", "FIRST [{}; {}; {}]", "EVERY [TRY {}; TRY {}; TRY {}]"]


def scopes(rng, turns):
    """Expressions that are named where other constants stand than where they are used."""
    document, own = [], ["D"]
    for name in "ABZ":
        texts = rng.sample(DECLARED, rng.randint(0, 5))
        texts += [f"deftac {rng.choice(['D', 'E', 'H', 'c', 'x', f'K{rng.randrange(9)}'])} {rng.choice(FREEING)}" for _ in range(rng.randint(2, 6))]
        rng.shuffle(texts)
        own += [text.split()[1] for text in texts if text.startswith("deftac")]
        for _ in document:
            texts.insert(rng.randrange(len(texts) + 1), f"import {rng.choice(document)[0]}")
        for _ in range(rng.randint(1, 3)):
            texts.append(f"g K{rng.randrange(9)} `{rng.choice(GOALS)}`")
            for _ in range(rng.randint(1, 5)):
                texts += ["b"] * (rng.random() < 0.2) + [f"e {rng.choice(USES).format(*(rng.choice(own) for _ in range(3)))}"]
            texts += [f"e {SEARCH}", "qed", "oops"] if rng.random() < 0.5 else ["oops"]
        document.append((name, texts))
    return document


# ---- what is declared

TYPES = ["bool", "A", "t", "A->bool", "t u", "(A,B) u", "bool bool", "fun", "t->A", "(A,t) fun"]
LEFT = ["", " x", " x y", " (x:bool) y", " x x", " (x:A) (y:A)", " (x:t) y", ":bool", " x:bool", " (x:t u)"]
RIGHT = ["T", "x", "\\x:A. T", "(\\x:A. T) = (\\x. T)", "x /\\ y", "\\x. x", "f x", "x x", "!x:A. x = x", "x = y", "c", "d /\\ c", "x:t", "x:t u", "!x:bool. c ==> x", "\\x' x'. x'"]
STATED = ["c", "c ==> d", "x:A = x", "!x:t. x = x", "x x", "x:t u", "T", "x:A", "f x", "d = c", "!x:bool. ?x:bool. x", "\\x:A. x", "!p. p ==> p", "k = k"]


def declaration(rng):
    name, theorem = rng.choice(["c", "d", "t", "k", "c", "d", "T", "ONE_ONE"]), rng.choice(["AX", "AY", "AZ", "AX", "AY", "AZ", "TRUTH", "T_DEF", "c"])
    return rng.choice(
        [
            f"new_type {rng.choice(['t', 't', 'u', 'u', 'bool', 'ind', 'c', 'A'])} {rng.choice([0, 0, 1, 1, 2, 16, 17])}",
            f"new_constant {name} `:{rng.choice(['bool', 'bool', *TYPES])}`",
            f"new_axiom {theorem} `{rng.choice(STATED)}`",
            f"new_definition {theorem} `{name}{rng.choice(LEFT)} {rng.choice(['=', '=', '<=>'])} {in_parentheses(rng.choice(RIGHT))}`",
            rng.choice([f"g {theorem} `{rng.choice(STATED)}`", f"g {theorem} `{rng.choice(STATED)}`", f"e {SEARCH}", "qed", "oops", "r 1", "b", "oops", "e ALL_TAC"]),
            f"deftac {name} MP_TAC {theorem}",
        ]
    )


def declarations(rng, turns):
    """Types, constants, axioms and definitions, also with names that are taken, in theories that import others."""
    document = []
    for name in "ABCDEF":
        texts = [declaration(rng) for _ in range(rng.randint(2, 9))] + ["oops"] * (rng.random() < 0.8)
        if rng.random() < 0.3:
            texts += [f"g {rng.choice(['AZ', 'AW'])} `T`", "e ACCEPT_TAC TRUTH", "r 1", "qed"]
        document.append((name, texts + [f"import {rng.choice([*document, ('Z', [])])[0]}" for _ in range(rng.choice([0, 1, 2]))]))
    return document


def bound_names(rng, turns):
    """Goals that steps change by names of bound variables alone, or not at all."""
    nested = ("!x:bool. ?x':bool. x /\\ x'", "!y:bool. ?y':bool. y /\\ y'")
    goal, other = rng.choice([nested, ("!x:bool. x", "!y:bool. y"), ("?x:bool. x", "?x':bool. x'"), ("(\\x:A. T) = (\\x. T)", "(\\y:A. T) = (\\y. T)")])
    changes = [f"SUBST1_TAC (ASSUME `({goal}) = ({other})`)", "ALL_TAC", "DISCH_TAC THEN POP_ASSUM MP_TAC", "POP_ASSUM ASSUME_TAC", "FIRST_ASSUM SUBST1_TAC"]
    texts = [f"g K `(({goal}) = ({other})) ==> ({goal}) ==> ({goal})`", "e DISCH_TAC", "e DISCH_TAC"]
    return [("A", texts + [f"e CHANGED_TAC ({rng.choice(changes)})" for _ in range(8)])]


# ---- refusals, of which the least number is told


def conjunctions(count):
    return "p" + " /\\ p" * count


def doubling(count):
    """A text whose reading has types that double with each variable."""
    return " /\\ ".join(f"x{k} = (\\g. g x{k - 1} x{k - 1})" for k in range(1, count + 1))


def ladder(steps=13):
    """Commands that name expressions E0, E1, .. of 1, 3, 7, .. nodes."""
    return ["deftac E0 ALL_TAC"] + [f"deftac E{k} E{k - 1} THEN E{k - 1}" for k in range(1, steps + 1)]


LARGE_SYM = f"MP_TAC (SYM (SYM (ASSUME `({conjunctions(500)}) = ({conjunctions(700)})`)))"
FAULTS = {
    "5": [
        "ACCEPT_TAC NOPE", "MP_TAC (CONJUNCT1 NOPE)", "REWRITE_TAC [TRUTH; NOPE]", "ALL_TAC ALL_TAC", "X_CHOOSE_TAC `x:bool` NOPE", "ACCEPT_TAC D", "DISCH_THEN (REWRITE_TAC [NOPE])",
        "OK NOPE", "FOO NOPE",
    ],
    "6": [
        "FOO", "ALL_TAC []", "OK TRUTH", "OK []", "OK `T`", "DISCH_THEN OK", "POP_ASSUM (OK)", "FIRST_ASSUM (OK TRUTH)", "SUBGOAL_THEN `T` OK", "REPEAT ACCEPT_TAC", "ACCEPT_TAC",
        "MP_TAC `T`", "REWRITE_TAC TRUTH", "SPEC_TAC `T` `x`", "DISCH_THEN CONJ_TAC", "DISCH_THEN X_CHOOSE_TAC", "DISCH_THEN (ACCEPT_TAC TRUTH)", "POP_ASSUM REWRITE_TAC",
        "FIRST_ASSUM FOO", "NN", "DISCH_THEN NN", "OK (`T`, `x:bool`)", "X_CHOOSE_TAC TRUTH `x:bool`",
    ],
    "9": [
        "EXISTS_TAC `x:bool bool`", "MP_TAC (REFL `x:fun`)", "MP_TAC (INST_TYPE [`:bool bool`, `:A`] TRUTH)", "MP_TAC (INST_TYPE [`:A`, `:fun`] TRUTH)",
        "SUBGOAL_THEN `x:t = x` ACCEPT_TAC", "SPEC_TAC (`T`, `x:A u`)", "DISCH_THEN (X_CHOOSE_TAC `x:fun`)",
    ],
    "7": ["EXISTS_TAC `x x`", "MP_TAC (ASSUME `T T`)", "SUBGOAL_THEN `x x` ACCEPT_TAC", "SPEC_TAC (`x x`, `y`)", "MP_TAC (SPEC `x x` GX)", "SPEC_TAC (`T`, `(x:A):bool`)"],
    "8": ["SUBGOAL_THEN `x` ACCEPT_TAC", "SUBGOAL_THEN `x:A` MP_TAC", "SUBGOAL_THEN `\\x:bool. x` ACCEPT_TAC"],
    "14": [
        "MP_TAC (MP TRUTH TRUTH)", "MP_TAC (ASSUME `x:A`)", "MP_TAC (ASSUME `x`)", "MP_TAC (SYM TRUTH)", "MP_TAC (CONJUNCT1 TRUTH)", "MP_TAC (CONJUNCT2 (SPEC `T` TRUTH))",
        "MP_TAC (SPEC `x:A` GX)", "MP_TAC (INST_TYPE [`:A`, `:bool`] TRUTH)", "MP_TAC (MP GX TRUTH)", "REWRITE_TAC [TRUTH; SYM TRUTH]", "X_CHOOSE_TAC `x:bool` (SYM TRUTH)",
    ],
    "fits": ["ALL_TAC", "OK", "REPEAT OK", "ACCEPT_TAC TRUTH", "MP_TAC GX", "SUBGOAL_THEN `T` ACCEPT_TAC", "EXISTS_TAC `T`", "TRY OK", "NO_TAC", "CONJ_TAC"],
    "17": [
        "NO_TAC", "CONJ_TAC", "FIRST []", "OK THENL []", "POP_ASSUM MP_TAC", "FIRST_ASSUM ACCEPT_TAC", "DISCH_THEN MP_TAC", "CHANGED_TAC OK", "NG", "NH",
        "ACCEPT_TAC (ASSUME `z:bool`)",
    ],
    "13, a reading": [f"EXISTS_TAC `{doubling(9)}`", f"SUBGOAL_THEN `{doubling(9)}` ACCEPT_TAC", f"MP_TAC (ASSUME `{doubling(9)}`)"],
    "13, a theorem": [f"MP_TAC (REFL `{doubling(8)}`)", f"REWRITE_TAC [REFL `{doubling(8)}`]", f"MP_TAC (SYM (REFL `{doubling(8)}`))", LARGE_SYM],
    "13, a named expression": ["E13 THEN E13", f"E13 ORELSE MP_TAC (ASSUME `{doubling(7)}`)", f"MP_TAC (ASSUME `{doubling(7)}`) THEN E13"],
}  # fmt: skip
LIGHT = [key for key in FAULTS if "13" not in key]


def faulty(rng, count):
    """An expression of so many parts, which are refused by numbers of any order."""
    parts = [rng.choice(FAULTS[rng.choice(list(FAULTS) if rng.random() < 0.2 else LIGHT)]) for _ in range(count)]
    joins = [" THEN ".join(parts), " ORELSE ".join(parts), f"FIRST [{'; '.join(parts)}]", f"EVERY [{'; '.join(f'TRY ({part})' for part in parts)}]"]
    return rng.choices(joins, [2, 1, 1, 1])[0]


def faults(rng, turns):
    texts = [*ladder(), "deftac OK ALL_TAC", "deftac NG OK THENL []", "deftac NH MP_TAC (ASSUME `z:bool`)", "new_axiom GX `!x:bool. x ==> x`"]
    texts += rng.choice([[], ["new_type t 1", "new_type u 0"], ["new_type u 2"]])
    for _ in range(12):
        name = rng.choice(["NN", "NN", f"N{rng.randrange(99)}", "OK", "ALL_TAC", "MP_TAC", "TRUTH"])
        texts.append(f"deftac {name} {faulty(rng, rng.choice([1, 2, 2, 3, 4]))}{rng.choice(['', '', '', f' THEN {name}'])}")
    texts.append("g K `T /\\ T`")
    texts += [rng.choice(["e ", "e ", "e ", "deftac NN "]) + faulty(rng, rng.choice([1, 2, 2, 3, 4])) for _ in range(10)]
    texts += ["e CONJ_TAC THEN ACCEPT_TAC TRUTH", *(f"e {faulty(rng, rng.choice([1, 2, 3]))}" for _ in range(3)), "qed", f"e {faulty(rng, 2)}"]
    return [("A", texts)]


# ---- texts

WORDS = (
    "deftac D A1 THEN THENL ORELSE REPEAT TRY CHANGED_TAC EVERY FIRST REPLICATE_TAC DISCH_THEN POP_ASSUM FIRST_ASSUM SUBGOAL_THEN ASSUME REFL SPEC SYM MP INST_TYPE "
    "( ) [ ] ; , `T` ` : 2 0 12345 TRUTH ACCEPT_TAC ALL_TAC x \\ . `:A` !x. -> = ' e g"
).split()


def reworded(rng, text):
    """The text with a word put in, put in another's place, or taken out."""
    words = text.split(" ")
    at = rng.randrange(len(words))
    words[at : at + rng.choice([0, 1])] = rng.choice([[rng.choice(WORDS)], [rng.choice(WORDS)], []])
    return " ".join(words)


def syntax(rng, turns):
    """Texts that are nearly commands."""
    writer, theory, texts = Writer(rng), Theory(), ["deftac A1 ALL_TAC", "new_axiom AX `!x:bool. x ==> x`"]
    for text in texts:
        run_command(theory, text, {}, turns)
    for _ in range(40):
        text = rng.choice([writer.named_expression, writer.named_expression, lambda theory: writer.outside(theory, {})])(theory)
        for _ in range(rng.choice([0, 1, 1, 2, 3])):
            text = writer.spoiled(text) if rng.random() < 0.5 else reworded(rng, text)
        texts.append(text if rng.random() < 0.9 else " ".join(["deftac", *(rng.choice(WORDS) for _ in range(rng.randint(0, 6)))]))
    return [("A", texts)]


def tokens(rng, turns):
    """Texts of as many tokens as one may have, and of one or two more."""
    parts = ["A1"] * rng.choice([2046, 2047, 2048])
    for _ in range(rng.choice([0, 1, 2, 3])):
        parts[rng.randrange(len(parts))] = rng.choice(["TRY A1", "(A1)", "TRY (A1)", "A1 []", "A1 TRUTH", "ACCEPT_TAC TRUTH"])
    named, used = " THEN ".join(parts), rng.choice([" THEN ", " ORELSE "]).join(parts[rng.choice([0, 0, 1]) :])
    return [("A", ["deftac A1 ALL_TAC", f"deftac D {named}", "g K `T`", "e D", f"e {used}"])]


# ---- limits


def sized(rng, nodes):
    """An expression of so many nodes, one at least, of those that a ladder names."""
    left_over, parts, step = nodes + 1, [], 0
    if left_over % 2:
        parts, left_over = ["TRY ALL_TAC"], left_over - 3
    while left_over:
        parts += [f"E{step - 1}"] * (left_over % 2)
        left_over, step = left_over // 2, step + 1
    rng.shuffle(parts)
    return " THEN ".join(parts)


def size_of(theory, expression, turns):
    """The size of what an expression is, or None where it can't be named."""
    observed = Observed()
    run_command(copied(theory), f"deftac QQ {expression}", {}, turns, observed)
    return observed.sizes[0] if observed.sizes else None


def after(texts, turns):
    theory = Theory()
    for text in texts:
        run_command(theory, text, {}, turns)
    return theory


FILLED = ["({}) THEN {}", "({}) ORELSE {}", "({}) THENL [{}]", "FIRST [{}; {}]", "EVERY [{}; {}]"]
OF_TERMS = [
    "EXISTS_TAC `{}`", "SUBGOAL_THEN `{}` ACCEPT_TAC", "MP_TAC (ASSUME `{}`)", "SPEC_TAC (`{}`, `p:bool`)", "FIRST_ASSUM (X_CHOOSE_TAC `{}`)", "REWRITE_TAC [ASSUME `{}`]",
    "UNDISCH_TAC `{}`", "X_CHOOSE_TAC `{}` (ASSUME `p:bool`)", "MP_TAC (REFL `{}`)",
    "REWRITE_TAC [ASSUME `p:bool`; MP (ASSUME `p ==> q`) (ASSUME `p:bool`); REFL `{}`]",
]  # fmt: skip


def sizes(rng, turns):
    """Expressions, filled up to 20,000 nodes, or to one more or less."""
    texts = [*ladder(), "new_constant c `:bool`", "new_axiom AX `c`", "new_axiom CC `c /\\ T`", "new_axiom EX `?x:bool. x`", "deftac D ACCEPT_TAC AX"]
    theory, writer, count = after(texts, turns), Writer(rng), 0
    for _ in range(60):
        expression = writer.expression(theory, 4) if rng.random() < 0.7 else rng.choice(OF_TERMS).format(conjunctions(rng.randint(0, 250)))
        nodes = size_of(theory, expression, turns)
        for beyond in rng.choice([(0,), (1,), (0, 1), (-1, 2)]):
            if nodes and nodes < 15_000:
                texts.append(f"deftac N{count} {rng.choice(FILLED).format(expression, sized(rng, 20_000 + beyond - nodes - 1))}")
                count += 1
        if count > 12:
            break
    return [("A", texts)]


def turns_filled(rng, turns):
    """Runs, filled up to as many turns as there are, and one more."""
    writer, texts = Writer(rng), ["new_constant c `:bool`", "new_type t 0", "new_axiom AX `c`", "new_axiom GX `!x:bool. x ==> x`", "new_axiom EX `?x:bool. x`"]
    theory = after(texts, turns)
    for name in ["D", "E", "H", "J", "K", "N"][: rng.randint(2, 6)]:
        texts.append(f"deftac {name} {writer.expression(theory, 2)}")
        run_command(theory, texts[-1], {}, turns)
    texts += [f"g KK {writer.quotation(3)}", "g KK `(p /\\ q \\/ r ==> c) /\\ !x:bool. ?y:bool. x ==> (y \\/ x)`"]
    for text in texts[-2:]:
        run_command(theory, text, {}, turns)
    for _ in range(14):
        expression = writer.fitting(theory) if rng.random() < 0.2 else writer.expression(theory, 3)
        expression = rng.choice(["TRY ({})", "TRY ({})", "{}", "TRY ({0}) THEN TRY ({0})", "REPEAT ({})"]).format(expression)
        observed = Observed()
        run_command(copied(theory), f"e {expression}", {}, turns, observed)
        for beyond in (0, 1) if observed.turns else ():
            texts += with_turns(turns - observed.turns[0] + beyond, expression)
        if rng.random() < 0.5:
            texts.append(f"e {expression}")
            run_command(theory, texts[-1], {}, turns)
        if not theory.proof.history[-1][0]:
            texts.append("b")
            run_command(theory, "b", {}, turns)
    return [("A", texts)]


def with_turns(more, expression):
    """A step that takes so many turns before the expression, and is undone."""
    before = [f"REPLICATE_TAC {more // 2} ALL_TAC"] * (more > 1 and more // 2 < 10_000) + ["ALL_TAC"] * (more % 2)
    return [f"e {' THEN '.join([*before, f'({expression})'])}", "b"] if more >= 0 else []


def large_goals(rng, turns):
    """Goals and theorems that are nearly too large, and too large."""
    large, theorem = f"`{conjunctions(rng.choice([400, 570, 571, 572, 1000, 1428, 1990]))}`", f"`{conjunctions(rng.randint(1, 1000))} ==> T`"
    texts = [f"deftac BIG MP_TAC (ASSUME {large})", "deftac ST MP_TAC TRUTH", f"deftac PP ASSUME_TAC (REFL {large})", "deftac P2 ASSUME_TAC AND_CLAUSES"]
    texts += [f"g K {theorem}", "e DISCH_TAC", "e REPEAT ST", "e TRY (REPLICATE_TAC 3000 ST)", "e POP_ASSUM MP_TAC", "e BIG", "oops"]
    texts += ["g K `T`", f"e REPLICATE_TAC {rng.choice([5, 60, 200, 9999])} P2", "e TRY (REPEAT P2)", f"e SUBGOAL_THEN {large} ASSUME_TAC", "e PP THEN PP THEN PP", "e REPEAT PP"]
    texts += [f"e REPLICATE_TAC 60 (ASSUME_TAC (REFL {large}))"]
    return [("A", texts)]


def chains(rng, turns):
    """Names of names, through theories, which take a turn each."""
    document, count, ends = [], 0, rng.choice(["ALL_TAC", "ACCEPT_TAC TRUTH", "REFL_TAC", "TRY NO_TAC", "NO_TAC"])
    for name in ["t0", "t1", "t2", "t3"][: rng.choice([2, 3, 4])]:
        texts = [f"import {document[-1][0]}"] if document else [f"deftac C0 {ends}"]
        for _ in range(rng.choice([1, 3, 10, 40])):
            count += 1
            texts.append(f"deftac C{count} C{count - 1}")
        document.append((name, texts))
    texts, last = [f"import {document[-1][0]}", "g K `T`"], f"C{count}"
    for _ in range(4):
        times = max(0, min(9999, (turns - 1) // (count + 2) + rng.choice([-1, 0, 1])))
        texts += [f"e REPLICATE_TAC {times} {last}", f"e {last}", "b", f"e TRY {last}"]
    return [*document, ("Z", [*texts, f"e {' THEN '.join([last] * rng.randint(1, 20))}", "qed"])]


def nested(rng, turns):
    """As many brackets as may be open, with names of such expressions in them."""
    depth, texts = rng.choice([10, 60, 199, 200, 201]), [f"deftac F0 {rng.choice(['NO_TAC', 'ALL_TAC', 'CONJ_TAC'])}"]
    around = lambda inner: "TRY (" * depth + inner + ")" * depth
    texts += [f"deftac F{k} {around(f'F{k - 1}')}" for k in range(1, rng.choice([3, 12]))]
    return [("A", [*texts, "g K `T /\\ T`", "e F1", "e F2", "e REPEAT F2", f"e {around('F2')}", "e CHANGED_TAC F2"])]
