"""Commands made by the grammar of docs/NOTATION.md, and what becomes of them where they are broken at each byte.

Of what a broken text must be answered PROTOCOL says the form: a refusal's number goes with its text and its arg, a place stands where such a refusal
begins, and a name stands in the text. Of refusal 1 it says more: the text before its place is a command or the beginning of one. So that text,
alone, has to be refused at its end, or not by 1."""

import json
import re

from model.grammar import TACTICALS
from model.refusals import TEXTS

PUT = [*"`()[];:,.~\\!?@=<>/-|'\"0 \n", "\0", "\x7f", "é", "\u2028", "𝔸", "T", "_", "THEN", "10000"]
WORDS = ["x", "y", "P", "c", "T", "F", "x'", "_1", "bool", "e", "qed"]
TYPES = ["A", "B", "bool", "ind", "t"]
NAMES = ["TRUTH", "AX", "L", "REFL_CLAUSE", "NOPE"]
PLAIN = ["ALL_TAC", "CONJ_TAC", "GEN_TAC", "STRIP_TAC", "REFL_TAC", "EQ_TAC", "NOPE_TAC", "BETA_TAC", "NO_TAC", "AP_TERM_TAC"]
HANDED = ["ACCEPT_TAC", "MP_TAC", "ASSUME_TAC", "CHOOSE_TAC", "SUBST1_TAC", "STRIP_ASSUME_TAC", "MATCH_MP_TAC"]


class Grammar:
    """Texts by the grammar, from a source of chance; `deep` bounds how far one part stands in others."""

    def __init__(self, rng):
        self.rng = rng

    def one(self, *ways):
        return self.rng.choice(ways)()

    def some(self, part, least, most, between):
        return between.join(part() for _ in range(self.rng.randint(least, most)))

    def pick(self, *words):
        return self.rng.choice(words)

    def type(self, deep=2):
        if deep == 0 or self.rng.random() < 0.4:
            return self.pick(*TYPES)
        left, right = self.type(deep - 1), self.type(deep - 1)
        return self.pick(f"{left}->{right}", f"({left}) -> {right}", f"({left},{right}) prod", f"{right} list", f"({right})")

    def variable(self):
        return self.pick("x", "y", "p", f"(x : {self.type(1)})", "(p:bool)")

    def term(self, deep=3):
        if deep == 0 or self.rng.random() < 0.2:
            return self.pick(*WORDS, "(/\\)", "(!)", "(~)")
        left, right, of_type = self.term(deep - 1), self.term(deep - 1), self.type(1)
        infix = self.pick("<=>", "==>", "\\/", "/\\", "=")
        binder = f"{self.pick(*'!?@', '?!', chr(92))} {self.some(self.variable, 1, 3, ' ')}. {right}"
        return self.pick(f"({left}) {infix} ({right})", f"~ ({right})", f"({binder})", f"({left}) ({right})", f"({left} : {of_type})", f"(({right}))")

    def quote(self):
        return f"`{self.term(self.rng.randint(0, 3))}`"

    def theorem(self, deep=2):
        """One that stands in parentheses, or a name."""
        if deep == 0 or self.rng.random() < 0.3:
            return self.pick(*NAMES)
        of = self.theorem(deep - 1)
        pairs = self.some(lambda: f"`:{self.type(1)}`, `:A`", 1, 2, "; ")
        ways = [f"ASSUME {self.quote()}", f"REFL {self.quote()}", f"SPEC {self.quote()} {of}", f"SYM {of}", f"CONJUNCT1 {of}", f"CONJUNCT2 {of}"]
        return f"({self.pick(*ways, f'MP {of} {self.theorem(deep - 1)}', f'INST_TYPE [{pairs}] {of}', of)})"

    def call(self):
        listed = "[" + self.some(self.theorem, 0, 3, "; ") + "]"
        ways = [f"{self.pick(*HANDED)} {self.theorem()}", f"REWRITE_TAC {listed}", f"EXISTS_TAC {self.quote()}", f"ASM_REWRITE_TAC {listed}"]
        return self.pick(*ways, *PLAIN, f"SPEC_TAC ({self.quote()}, {self.quote()})", f"X_CHOOSE_TAC {self.quote()} {self.theorem()}")

    def handing(self):
        to = self.pick(*HANDED, f"(X_CHOOSE_TAC {self.quote()})")
        word = self.pick(*(word for word, forms in TACTICALS.items() if "continuation" in forms))
        return " ".join([word, *(to if form == "continuation" else self.quote() for form in TACTICALS[word])])

    def expression(self, deep=2):
        if deep == 0 or self.rng.random() < 0.3:
            return self.one(self.call, self.handing)
        left, right = (f"({self.expression(deep - 1)})" for _ in range(2))
        listed = "[" + self.some(lambda: self.expression(deep - 1), 0, 3, "; ") + "]"
        ways = [f"{left} THEN {right}", f"{left} ORELSE {right}", f"{left} THENL {listed}", f"REPEAT {right}", f"TRY {right}", f"EVERY {listed}"]
        return self.pick(*ways, f"FIRST {listed}", f"CHANGED_TAC {right}", f"REPLICATE_TAC {self.pick('0', '3', '12')} {right}", left)

    def command(self):
        name = self.pick("N", "D1", "L", "x'")
        parameters, body = self.some(self.variable, 0, 3, " "), self.term(2)
        ways = ["b", "qed", "oops", f"r {self.pick('0', '1', '9999')}", f"import {self.pick('A', 'B')}", f"new_type {name} {self.pick('0', '2', '16', '17')}"]
        ways += [f"new_constant {name} `:{self.type(3)}`", f"new_axiom {name} {self.quote()}", f"new_definition {name} `{name} {parameters} = ({body})`"]
        ways += [f"new_basic_type_definition u mk dest N1 N2 {self.pick(*NAMES)}", f"new_definition {name} `{name} {parameters} : bool <=> {body}`"]
        return self.pick(*ways, *(f"g {name} {self.quote()}" for _ in range(4)), *(f"e {self.expression()}" for _ in range(16)), *(f"deftac {name} {self.expression()}" for _ in range(3)))


def broken(text, rng):
    """The text broken at each byte: cut, without it, with another one in its place or before it, with what follows it twice."""
    for at in range(len(text)):
        yield text[:at]
        yield text[:at] + text[at + 1:]
        yield text[:at] + rng.choice(PUT) + text[at + 1:]
        yield text[:at] + rng.choice(PUT) + text[at:]
        end = rng.randint(at, min(len(text), at + 9))
        yield text[:end] + text[at:]


def is_name_in(arg, text):
    return re.fullmatch(r"[A-Za-z_][A-Za-z0-9_']*|\?[0-9]+", arg) and (arg in text or arg.startswith("?"))


def is_well_refused(number, arg, text):
    """Whether a refusal's arg is what PROTOCOL says."""
    if number == 1:
        return arg.isdigit() and int(arg) <= len(text) and text[: int(arg)].isascii()
    if number in (7, 8, 9):
        return arg.isdigit() and text[int(arg)] == "`"
    if number in (10, 21):
        kind, _, name = arg.partition(":")
        return kind in ("type", "const", "thm", "tac") and bool(is_name_in(name, text) or number == 21)
    if number in (4, 5, 6, 11, 12, 14, 15, 17):
        return bool(is_name_in(arg, text))
    return arg == ""


def is_goal(goal):
    lists = all(isinstance(goal[key], list) and all(isinstance(it, str) for it in goal[key]) for key in ("asl", "free"))
    return set(goal) == {"asl", "free", "goal"} and lists and isinstance(goal["goal"], str)


def fault_of(reply, text):
    """What is wrong with the report on a text, or None."""
    try:
        told = json.loads(reply)
    except ValueError:
        return "it is no JSON"
    if json.dumps(told, separators=(",", ":"), sort_keys=True, ensure_ascii=False).encode() != reply:
        return "its form isn't that of a reply"
    if set(told) == {"goals", "ok"}:
        return None if all(map(is_goal, told["goals"])) else "a goal"
    if set(told) == {"made", "ok"}:
        return None if all(re.match(r"(type|const|thm|tac) ", it) for it in told["made"]) else "what was made"
    if set(told) != {"arg", "ok", "refusal", "text"} or TEXTS.get(told["refusal"]) != told["text"]:
        return "a refusal"
    return None if is_well_refused(told["refusal"], told["arg"], text) else "a refusal's arg"


def beginning(reply, text):
    """Where the text is refused by 1 before its end, the text before that place."""
    told = json.loads(reply)
    return text[: int(told["arg"])] if told.get("refusal") == 1 and int(told["arg"]) < len(text) else None


def is_beginning(reply, text):
    """Whether a text goes on to be a command, or is one."""
    told = json.loads(reply)
    return told.get("refusal") != 1 or int(told["arg"]) == len(text)
