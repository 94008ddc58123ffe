"""The words of the notation, and where tokens and quotations stand in a command's text (docs/NOTATION.md)."""

from __future__ import annotations

import difflib
import re
from functools import lru_cache
from typing import Iterable, List, Optional, Tuple

from holls import manual

_TAKEN = {"": "", "th": "a theorem", "`v`": "a term", "`t`": "a term", "`p`": "a term", "(`t`, `x`)": "a pair of terms", "`v` th": "a term and a theorem",
          "[th; ..]": "a list of theorems"}
"""The forms of arguments in words."""

TACS = {name: _TAKEN[entry.arguments] for name, entry in manual.FUNCTIONS.items()}
"""The tactics of HOL Light that the project has a name for, and their arguments."""

TACTICALS = tuple(manual.TACTICALS)

HANDING = tuple(manual.HANDING)
"""The tacticals that hand a theorem to a function."""

FORWARD = {name: entry.form for name, entry in manual.RULES.items()}
"""The forward rules, and how they are written."""

_FINDS = "an editor's action at this step puts those of a proof in its place; `prove` at a prompt and `holls prove` write them"

ELSEWHERE = {
    "ASM_MESON_TAC": _FINDS, "MESON_TAC": _FINDS, "METIS_TAC": _FINDS, "ITAUT_TAC": _FINDS, "TAUT_TAC": _FINDS, "ARITH_TAC": _FINDS,
    "SET_TAC": _FINDS, "ASM_SET_TAC": _FINDS, "ASM_METIS_TAC": _FINDS, "SIMP_TAC": _FINDS, "ASM_SIMP_TAC": _FINDS, "ASM_ARITH_TAC": _FINDS,
    "REAL_ARITH_TAC": "", "ABS_TAC": "", "INDUCT_TAC": "INDUCT_ON `x`, first in a command, is by the theorem of the type of x",
    "LIST_INDUCT_TAC": "INDUCT_ON `l`, first in a command, is by the theorem of lists",
    "CHEAT_TAC": "the command sorry;; ends the proof, with a warning",
    "COND_CASES_TAC": "DISJ_CASES_TAC (SPEC `b` EXCLUDED_MIDDLE) and COND_CLAUSES make the two cases", "BOOL_CASES_TAC": "DISJ_CASES_TAC takes a theorem p \\/ q",
    "ASM_CASES_TAC": "DISJ_CASES_TAC takes a theorem p \\/ q", "GEN_REWRITE_TAC": "ONCE_REWRITE_TAC and SUBST1_TAC rewrite one place",
    "SUBST_ALL_TAC": "SUBST1_TAC rewrites the goal's conclusion", "SUBST_TAC": "SUBST1_TAC takes one equation",
    "MATCH_ACCEPT_TAC": "REPEAT GEN_TAC THEN ACCEPT_TAC (SPEC `x` th), or PURE_REWRITE_TAC [th] where that ends", "CONV_TAC": "BETA_TAC reduces, REWRITE_TAC rewrites",
    "FIRST_X_ASSUM": "FIRST_ASSUM keeps the assumption, POP_ASSUM takes out the newest one", "LABEL_TAC": "assumptions have no labels",
    "USE_THEN": "assumptions have no labels: name one by ASSUME `p`", "ASSUM_LIST": "", "POP_ASSUM_LIST": "", "RULE_ASSUM_TAC": "",
    "MAP_EVERY": "EVERY takes a list of expressions", "MAP_FIRST": "FIRST takes a list of expressions", "X_META_EXISTS_TAC": "",
    "ANTS_TAC": "SUBGOAL_THEN leaves the premise as a goal of its own", "DISCH_ALL_TAC": "REPEAT DISCH_TAC", "GEN_ALL_TAC": "",
    "EXISTENCE_TAC": "", "REFUTE_THEN": "", "CLAIM_TAC": "SUBGOAL_THEN states a claim", "INTRO_TAC": "REPEAT STRIP_TAC",
    "DESTRUCT_TAC": "STRIP_ASSUME_TAC strips a theorem", "FIX_TAC": "X_GEN_TAC names a variable", "MONO_TAC": "",
}
"""Functions on goals of HOL Light that aren't here, each with what to write in its place, if something."""

SEARCHES = {"arith": _FINDS, "prove": _FINDS}
"""Words for a step in whose place a search puts its own."""

RULES_ELSEWHERE = {
    "GSYM": "(SYM (SPEC `x` th)) turns an equation at an instance", "SPECL": "(SPEC `b` (SPEC `a` th)), the first argument innermost",
    "ISPEC": "(SPEC `t` (INST_TYPE [`:ty`, `:A`] th))", "ISPECL": "(SPEC `b` (SPEC `a` (INST_TYPE [`:ty`, `:A`] th)))",
    "SPEC_ALL": "SPEC gives one argument a time", "GEN": "state a goal !x. p and ACCEPT_TAC it", "GEN_ALL": "state a goal !x. p and ACCEPT_TAC it",
    "CONJ": "CONJ_TAC splits the goal", "TRANS": "SUBST1_TAC rewrites by one equation", "EQ_MP": "SUBST1_TAC (SYM th1) THEN ACCEPT_TAC th2",
    "DISCH": "DISCH_TAC on a goal of its own", "INST": "(SPEC `t` th) of a theorem that is proved under !x", "AP_TERM": "AP_TERM_TAC",
    "AP_THM": "AP_THM_TAC", "MATCH_MP": "MATCH_MP_TAC th, or (MP th th)", "CONJUNCTS": "CONJUNCT1 and CONJUNCT2", "BETA_RULE": "MP_TAC th THEN BETA_TAC",
    "REWRITE_RULE": "MP_TAC th THEN REWRITE_TAC [..]", "CONV_RULE": "MP_TAC th THEN BETA_TAC", "UNDISCH": "(MP th (ASSUME `p`))",
    "TAUT": "", "EXISTS": "EXISTS_TAC", "CHOOSE": "CHOOSE_TAC", "DISJ_CASES": "DISJ_CASES_TAC", "EQT_ELIM": "", "EQT_INTRO": "", "BETA_CONV": "BETA_TAC",
    "NOT_ELIM": "", "EQF_INTRO": "", "IMP_TRANS": "", "PROVE_HYP": "", "DEDUCT_ANTISYM_RULE": "", "ONCE_REWRITE_RULE": "MP_TAC th THEN ONCE_REWRITE_TAC [..]",
}
"""Rules of HOL Light that aren't here, each with what to write in its place, if something."""

COMMANDS = {name: entry.form for name, entry in manual.COMMANDS.items()}
"""The commands by their words, and how they are written."""

OUTSIDE = tuple(word for word in COMMANDS if word not in ("e", "b", "r", "qed", "oops"))
"""The commands that are refused while a proof is open."""

MAKERS = tuple(word for word in OUTSIDE if word != "import")
"""The commands whose second word is the name of what they make."""

STEPS = ("e", "deftac")
"""The commands with an expression of tactics."""

PLAIN = frozenset("if then else let in and".split())
"""Words that HOL Light's notation has, and that are plain names here."""

_END = "_TAC"

_TOKEN = re.compile(r"[A-Za-z_][A-Za-z0-9_']*|[0-9]+|<=>|==>|\\/|/\\|->|\?!|[=~\\!?@()\[\].:,;`]")
_IDENT = re.compile(r"[A-Za-z_][A-Za-z0-9_']*")
_QUOTATION = re.compile(r"`[^`]*`?")


def token(text: str, place: int) -> Optional[str]:
    """The token that begins at a place, or None."""
    found = _TOKEN.match(text, place)
    return found.group() if found else None


def tokens_before(text: str, place: int) -> List[str]:
    """The tokens before a place."""
    return [found.group() for found in _TOKEN.finditer(text, 0, place)]


def near(name: str, names: Iterable[str]) -> Optional[str]:
    """The name that was meant, where one is like it; a function's ending says nothing."""
    def stem(word: str) -> str:
        return word[:-len(_END)] if word.endswith(_END) else word

    stems = {stem(other.upper()): other for other in names}
    found = difflib.get_close_matches(stem(name.upper()), stems, 1, 0.72)
    return stems[found[0]] if found else None


@lru_cache(1 << 10)
def near_tactic(name: str) -> Optional[str]:
    """The tactic or tactical that was meant, where one is like a name."""
    return near(name, TACS)


def quotation(text: str, place: int) -> Tuple[int, int]:
    """The range of the quotation whose opening backquote stands at a place."""
    found = _QUOTATION.match(text, place)
    return (place, found.end()) if found else (place, place + 1)


def without_quotations(text: str) -> str:
    """The text with spaces for its quotations."""
    return _QUOTATION.sub(lambda found: " " * len(found.group()), text)


def word_ranges(text: str, word: str) -> List[Tuple[int, int]]:
    """Where a name stands in a text, outside quotations."""
    if not word:
        return []
    pattern = r"(?<![A-Za-z0-9_'])" + re.escape(word) + r"(?![A-Za-z0-9_'])"
    return [found.span() for found in re.finditer(pattern, without_quotations(text))]


def has_name(text: str, name: str) -> bool:
    """Whether a name stands in a text."""
    return any(found.group() == name for found in _IDENT.finditer(text))


def renamed(text: str, name: str, new: str) -> str:
    """A text with another name wherever one stands."""
    return _IDENT.sub(lambda found: new if found.group() == name else found.group(), text)


def has_tactical(text: str) -> bool:
    """Whether a tactical stands in a text, outside quotations."""
    return any(word in TACTICALS for word in _IDENT.findall(without_quotations(text)))


def is_made_name(text: str, place: int) -> bool:
    """Whether a name of a command's text is the one that `deftac` gives."""
    return text[:place].strip() == "deftac"


def is_function_place(text: str, place: int) -> bool:
    """Whether a name at a place of a step's text, outside quotations, is that of a tactic; else it is a theorem's.

    It is at the expression's beginning, behind a tactical, and in brackets that stand there.
    """
    before = tokens_before(_QUOTATION.sub("`", text[:place]), place)
    while before and before[-1] in ("(", "[", ";"):
        before = _before_bracket(before)
    if len(before) < 2:
        return before == ["e"]
    return before[-1] in TACTICALS or before[-1].isdigit() or before[-2:] == ["SUBGOAL_THEN", "`"] or before[:-1] == ["deftac"]


def _before_bracket(before: List[str]) -> List[str]:
    """The tokens before the innermost bracket that is open; none where there is none."""
    depth = 0
    for at in range(len(before) - 1, -1, -1):
        depth += {")": 1, "]": 1, "(": -1, "[": -1}.get(before[at], 0)
        if depth < 0:
            return before[:at]
    return []


def word_at(text: str, place: int) -> Tuple[int, int]:
    """The range of the name that a place is in or behind; an empty range where there is none."""
    start = place
    while start > 0 and re.match(r"[A-Za-z0-9_']", text[start - 1]):
        start -= 1
    found = _IDENT.match(text, start)
    return found.span() if found else (place, place)


def plain_words(text: str) -> List[Tuple[int, int]]:
    """Where words of HOL Light's notation that are plain names here stand in a text's quotations."""
    if not any(word in text for word in PLAIN):
        return []
    return [
        found.span() for quoted in _QUOTATION.finditer(text)
        for found in _IDENT.finditer(text, quoted.start(), quoted.end()) if found.group() in PLAIN]
