"""Rules where a theorem stands in a step: `GSYM th`, `CONJ th th`, `REWRITE_RULE [th; ..] th`, `SPECL [`t`; ..] th` and their like.

Most are a hidden theorem in front of the proof, whose statement is found here and whose proof is a step or two; in the step stands its name. Those
that only give terms and types are written by the program's own rules.
"""

from __future__ import annotations

import re
from dataclasses import dataclass, field
from functools import lru_cache
from typing import Dict, List, NamedTuple, Optional, Sequence, Tuple

from holls.notation import FORWARD
from holls.packages import predicates
from holls.packages.inference import check_depth, typed
from holls.packages.matching_terms import matched
from holls.packages.output import HIDDEN, PROOF, Plain, Steps, commands, conjuncts
from holls.packages.printing import show
from holls.packages.rewriting import TRUE, Endless, rewritten
from holls.packages.scope import Asking
from holls.packages.steps import Change, outside
from holls.packages.terms import (BOOL, Term, Type, beta, conj, eq, forall, frees, is_binder, is_operation, same, strip, subst, tyinst, tymatch, tyshow,
                                  typeof, var)
from holls.surface.errors import Misread
from holls.surface.reader import Reader
from holls.surface.table import EMPTY
from holls.text import REMEMBERED

RULES: Dict[str, str] = {
    "GSYM": "GSYM th", "CONJ": "CONJ th th", "GEN_ALL": "GEN_ALL th", "BETA_RULE": "BETA_RULE th", "MATCH_MP": "MATCH_MP th th",
    "REWRITE_RULE": "REWRITE_RULE [th; ..] th", "PURE_REWRITE_RULE": "PURE_REWRITE_RULE [th; ..] th", "SPEC_ALL": "SPEC_ALL th",
    "SPECL": "SPECL [`t`; ..] th", "ISPEC": "ISPEC `t` th", "ISPECL": "ISPECL [`t`; ..] th"}
"""The rules, and how each is written."""
_AT_TERMS = ("SPECL", "ISPEC", "ISPECL", "SPEC_ALL")
"""Those that make no theorem of their own."""
_WORD = re.compile(r"(?<![A-Za-z0-9_'])(?:%s)(?![A-Za-z0-9_'])" % "|".join(RULES))
_NAMED = re.compile(r"(?<![A-Za-z0-9_'])[A-Za-z_][A-Za-z0-9_']*")
_TOKEN = re.compile(r"`[^`]*`|[A-Za-z_][A-Za-z0-9_']*|[^ \t\r\n]")
_MOST_NESTED = 50


class Theorem(NamedTuple):
    """A theorem's plain expression, its statement, and whether it rests on assumptions of the proof."""

    text: str
    statement: Term
    is_assumed: bool = False


@dataclass
class Lemmas:
    """The hidden theorems of a proof, and what its steps have in place of rules."""

    name: str
    asking: Asking
    plain: List[Plain] = field(default_factory=list)
    made: int = 0
    of_types: Dict[str, Theorem] = field(default_factory=dict)

    def of_type(self, name: str) -> Optional[Theorem]:
        """The theorem of a type's predicates by its name, made where it doesn't stand; None of another name."""
        made = None if name in self.of_types else predicates.named(name, self.asking)
        if made is not None:
            statement, proof = made
            term = typed(check_depth(Reader(statement, EMPTY, None).term()), self.asking, BOOL)[0]
            self.of_types[name] = self.add(term, [proof], "%s can't be made" % name)
        return self.of_types.get(name)

    def undo(self, number: int) -> None:
        """Takes all back but so many commands."""
        del self.plain[number:]
        standing = {one.text.split()[1] for one in self.plain if one.text.startswith("g ")}
        self.of_types = {name: theorem for name, theorem in self.of_types.items() if theorem.text in standing}

    def add(self, statement: Term, steps: Steps, told: str) -> Theorem:
        """Makes a hidden theorem."""
        self.made += 1
        name = "pk_%s_%d" % (self.name, self.made)
        text = show(statement, self.asking.general)
        self.plain.append(Plain("g %s `%s`" % (name, text), HIDDEN, None, told))
        self.plain += [Plain("e " + one, PROOF, None, told) for one in commands(steps)]
        self.plain.append(Plain("qed", HIDDEN, None, told))
        return Theorem(name, statement)


@lru_cache(REMEMBERED)
def has_rules(text: str) -> bool:
    """Whether a command's text has a rule outside of its quotations."""
    return bool(_WORD.search(text)) and bool(_WORD.search(outside(text)))


def _is_one(word: str, lemmas: Lemmas) -> bool:
    """Whether a theorem begins with a word that doesn't stand as it is written."""
    return word in RULES or lemmas.of_type(word) is not None


def changes(text: str, lemmas: Lemmas) -> List[Change]:
    """What a step has in place of its rules. Raises `Misread`."""
    plain = outside(text)
    found: List[Change] = []
    at = 0
    while True:
        match = next((one for one in _NAMED.finditer(plain, at) if _is_one(one.group(), lemmas)), None)
        if match is None:
            return found
        reader = _Reader(text, match.start(), lemmas)
        theorem = reader.theorem(0)
        found.append(Change(match.start(), reader.at, theorem.text))
        at = reader.at


class _Reader:
    """Reads a theorem's expression in a step from a place on."""

    def __init__(self, text: str, at: int, lemmas: Lemmas) -> None:
        self.text, self.at, self.lemmas, self.asking = text, at, lemmas, lemmas.asking

    def wrong(self, start: int, text: str) -> Misread:
        """An error from a place to where the reader is."""
        return Misread(start, max(self.at, start + 1), text)

    def token(self) -> str:
        """The next token."""
        found = _TOKEN.search(self.text, self.at)
        if found is None:
            raise Misread(max(0, len(self.text) - 1), len(self.text), "a theorem is missing here")
        self.at = found.end()
        return found.group()

    def quoted(self) -> Term:
        """A quotation's term."""
        start = self.at
        found = self.token()
        if not found.startswith("`"):
            raise self.wrong(start, "a quotation is missing here")
        reader = Reader(found[1:-1].strip(), EMPTY, None)
        try:
            return typed(check_depth(reader.ended(reader.term())), self.asking)[0]
        except Misread as error:
            raise self.wrong(start, error.text) from None

    def theorem(self, depth: int, is_argument: bool = False) -> Theorem:
        """A theorem's expression; as an argument a name, or one between parentheses."""
        if depth > _MOST_NESTED:
            raise self.wrong(self.at - 1, "these rules are nested too deeply")
        start = _TOKEN.search(self.text, self.at)
        begin = start.start() if start else self.at
        word = self.token()
        if word == "(":
            found = self.theorem(depth + 1)
            if self.token() != ")":
                raise self.wrong(begin, "`)` is missing behind this theorem")
            return found
        if word in _AT_TERMS and not is_argument:
            return self.at_terms(word, begin, depth)
        if word in RULES and not is_argument:
            return self.rule(word, begin, depth)
        if word in FORWARD and not is_argument:
            return self.forward(word, begin, depth)
        made = self.lemmas.of_type(word)
        if made is not None:
            return made
        statement = self.asking.statement(word)
        if statement is None:
            raise self.wrong(begin, "no theorem `%s` whose statement is known stands before this proof" % word)
        return Theorem(word, statement)

    def forward(self, word: str, begin: int, depth: int) -> Theorem:
        """One of the program's own rules."""
        if word == "SPEC":
            term = self.quoted()
            inner = self.theorem(depth + 1, True)
            if not is_binder(inner.statement, "!") or inner.statement[2][2] != typeof(term):
                raise self.wrong(begin, "SPEC wants a theorem !x. p and a term of x's type")
            return self.specialized(inner, [term])
        if word in ("SYM", "CONJUNCT1", "CONJUNCT2"):
            inner = self.theorem(depth + 1, True)
            wanted = "=" if word == "SYM" else "/\\"
            if not is_operation(inner.statement, wanted):
                raise self.wrong(begin, "%s wants a theorem %s" % (word, "s = t" if word == "SYM" else "p /\\ q"))
            left, right = inner.statement[1][2], inner.statement[2]
            made = eq(right, left) if word == "SYM" else left if word == "CONJUNCT1" else right
            return Theorem("(%s %s)" % (word, inner.text), made, inner.is_assumed)
        if word == "MP":
            first, second = self.theorem(depth + 1, True), self.theorem(depth + 1, True)
            if not is_operation(first.statement, "==>"):
                raise self.wrong(begin, "MP wants a theorem p ==> q first")
            return Theorem("(MP %s %s)" % (first.text, second.text), first.statement[2], first.is_assumed or second.is_assumed)
        if word == "ASSUME":
            start = self.at
            term = self.quoted()
            return Theorem("(ASSUME %s)" % self.text[start:self.at].strip(), term, True)
        raise self.wrong(begin, "%s isn't taken inside of a rule: a rule's theorem stands in front of the proof" % word)

    # ---- Rules that give terms and types

    def at_terms(self, word: str, begin: int, depth: int) -> Theorem:
        """A rule that takes a theorem to terms, or to its own variables."""
        given = [] if word == "SPEC_ALL" else self.terms() if word.endswith("L") else [self.quoted()]
        inner = self.theorem(depth + 1, True)
        variables, _ = strip(inner.statement)
        if word == "SPEC_ALL":
            return self.specialized(inner, variables)
        types: Dict[str, Type] = {}
        if len(given) > len(variables):
            raise self.wrong(begin, "%s wants a theorem with %d variables under !, and this has %d" % (word, len(given), len(variables)))
        for one, term in zip(variables, given):
            fits = one[2] == typeof(term) if word == "SPECL" else tymatch(one[2], typeof(term), types) is not None
            if not fits:
                raise self.wrong(begin, "`%s` is of type `%s`, and %s wants one of type `%s`%s" % (
                    show(term, self.asking.general), tyshow(typeof(term)), one[1], tyshow(one[2]), "; ISPECL finds types" if word == "SPECL" else ""))
        text = _at_types(inner.text, types)
        return self.specialized(Theorem(text, tyinst(inner.statement, types), inner.is_assumed), given)

    def terms(self) -> List[Term]:
        """A list of quotations."""
        self.open_list("a list of terms is missing here: [`t`; `u`]")
        found = [self.quoted()]
        while self.list_goes_on():
            found.append(self.quoted())
        return found

    def open_list(self, missing: str) -> None:
        start = self.at
        if self.token() != "[":
            raise self.wrong(start, missing)

    def list_goes_on(self) -> bool:
        """Takes what stands behind an element of a list: whether there is another one."""
        start = self.at
        end = self.token()
        if end not in (";", "]"):
            raise self.wrong(start, "`;` or `]` is missing here")
        return end == ";"

    def next_word(self) -> str:
        """What is read next, if something is."""
        found = _TOKEN.search(self.text, self.at)
        return found.group() if found else ""

    def specialized(self, theorem: Theorem, given: Sequence[Term]) -> Theorem:
        """A theorem at terms, which fit its outer variables."""
        text, statement = theorem.text, theorem.statement
        for term in given:
            text, bound = "(SPEC `%s` %s)" % (show(term, self.asking.general), text), statement[2]
            statement = subst(bound[3], {bound[1]: term})
        return Theorem(text, statement, theorem.is_assumed)

    # ---- Rules that make theorems

    def theorems(self, depth: int) -> List[Theorem]:
        """A list of theorems; names of lists stand for theirs."""
        self.open_list("a list of theorems is missing here: [th; th]")
        if self.next_word() == "]":
            self.token()
            return []
        found = [*self.members(depth, self.next_word())]
        while self.list_goes_on():
            found += self.members(depth, self.next_word())
        return found

    def members(self, depth: int, word: str) -> List[Theorem]:
        """The theorem that stands next in a list, or those of a list that is named there."""
        names = self.asking.list_of(word)
        if names is None:
            return [self.theorem(depth + 1)]
        start = self.at
        self.token()
        found: List[Theorem] = []
        for one in names:
            inner = _Reader(one, 0, self.lemmas)
            try:
                found.append(inner.theorem(depth + 1))
            except Misread as error:
                raise self.wrong(start, error.text) from None
        return found

    def rule(self, word: str, begin: int, depth: int) -> Theorem:
        """A rule that makes a hidden theorem."""
        given = self.theorems(depth + 1) if word.endswith("REWRITE_RULE") else []
        first = self.argument(depth, word, given)
        told = "%s makes no theorem of %s" % (word, first.text)
        if word == "GSYM":
            statement, steps = self.turned(first, begin)
            return self.lemmas.add(statement, steps, told)
        if word == "BETA_RULE":
            return self.lemmas.add(beta(first.statement), ["MP_TAC %s" % first.text, "BETA_TAC", "DISCH_THEN ACCEPT_TAC"], told)
        if word == "GEN_ALL":
            free = [var(*one) for one in frees(first.statement).items()]
            return self.lemmas.add(forall(free, first.statement), [*_generalized(free), "ACCEPT_TAC %s" % first.text], told)
        if word.endswith("REWRITE_RULE"):
            return self.rewritten(word, first, given, begin, told)
        second = self.argument(depth, word, ())
        if word == "CONJ":
            both: Steps = [("CONJ_TAC", [["ACCEPT_TAC %s" % first.text], ["ACCEPT_TAC %s" % second.text]])]
            return self.lemmas.add(conj([first.statement, second.statement]), both, told)
        return self.matched(first, second, begin, told)

    def argument(self, depth: int, word: str, others: Sequence[Theorem]) -> Theorem:
        """The theorem of a rule that makes one, which can't rest on the proof's assumptions."""
        found = self.theorem(depth + 1, True)
        if found.is_assumed or any(one.is_assumed for one in others):
            at = outside(self.text).rindex("ASSUME", 0, self.at)
            raise Misread(at, at + len("ASSUME"), "ASSUME isn't taken inside of %s: its theorem stands in front of the proof" % word)
        return found

    def rewritten(self, word: str, theorem: Theorem, given: Sequence[Theorem], begin: int, told: str) -> Theorem:
        """A theorem rewritten by others."""
        is_pure = word.startswith("PURE")
        try:
            statement = rewritten(theorem.statement, [one.statement for one in given], is_pure)
        except Endless as error:
            raise self.wrong(begin, "%s doesn't end %s" % (word, error)) from None
        if same(statement, theorem.statement):
            raise self.wrong(begin, "%s changes nothing: no left side of its theorems matches a part of `%s`" % (
                word, show(theorem.statement, self.asking.general)))
        if statement == TRUE:
            raise self.wrong(begin, "%s leaves T of its theorem: it says nothing any more" % word)
        step = "%sREWRITE_TAC [%s]" % ("PURE_" if is_pure else "", "; ".join(one.text for one in given))
        return self.lemmas.add(statement, ["MP_TAC %s" % theorem.text, step] + (["DISCH_THEN ACCEPT_TAC"] if is_pure else []), told)

    def turned(self, theorem: Theorem, begin: int) -> Tuple[Term, Steps]:
        """A theorem with all its equations from right to left, and the proof of it."""
        variables, body = strip(theorem.statement)
        text = theorem.text
        for one in variables:
            text = "(SPEC `%s:%s` %s)" % (one[1], tyshow(one[2]), text)
        if is_operation(body, "/\\"):
            parts = [self.turned(Theorem("(%s %s)" % (side, text), part), begin) for side, part in (("CONJUNCT1", body[1][2]), ("CONJUNCT2", body[2]))]
            return forall(variables, conj([one for one, _ in parts])), [*_generalized(variables), *conjuncts([steps for _, steps in parts])]
        if not is_operation(body, "="):
            raise self.wrong(begin, "GSYM wants equations, under ! and /\\, and this has another part")
        return forall(variables, eq(body[2], body[1][2])), [*_generalized(variables), "ACCEPT_TAC (SYM %s)" % text]

    def matched(self, first: Theorem, second: Theorem, begin: int, told: str) -> Theorem:
        """Of `!xs. p ==> q` and an instance of p that of q."""
        variables, body = strip(first.statement)
        if not is_operation(body, "==>"):
            raise self.wrong(begin, "MATCH_MP wants a theorem !x. p ==> q first")
        to: Dict[str, Term] = {}
        types: Dict[str, Type] = {}
        if not matched(body[1][2], second.statement, {one[1] for one in variables}, to, types):
            raise self.wrong(begin, "the second theorem is no instance of what the first one asks")
        text = _at_types(first.text, types)
        rest = [var(one[1], tyinst(one, types)[2]) for one in variables if one[1] not in to]
        for one in variables:
            text = "(SPEC `%s` %s)" % (show(to.get(one[1], tyinst(one, types)), self.asking.general), text)
        statement = forall(rest, subst(tyinst(body[2], types), to))
        return self.lemmas.add(statement, [*_generalized(rest), "ACCEPT_TAC (MP %s %s)" % (text, second.text)], told)


def _at_types(text: str, types: Dict[str, Type]) -> str:
    """A theorem at types."""
    made = ["`:%s`,`:%s`" % (tyshow(type_), name) for name, type_ in types.items() if name != type_]
    return "(INST_TYPE [%s] %s)" % ("; ".join(made), text) if made else text


def _generalized(variables: List[Term]) -> Steps:
    return ["X_GEN_TAC `%s:%s`" % (one[1], tyshow(one[2])) for one in variables]
