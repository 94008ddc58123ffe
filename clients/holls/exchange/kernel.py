"""HOL Light's kernel made to keep derivations, in a copy: each theorem gets what made it, by a script that changes the places where it makes one.

What is put in is ours: a further part of a theorem, `derivation`, and calls that read it. The rules of equal.ml and bool.ml count as one step
each, and what they do inside is forgotten.
"""

from __future__ import annotations

import re
from typing import Dict, List, Tuple

_MADE: Dict[str, str] = {
    "REFL": "made \"REFL\" [] [tm] []", "TRANS": "made \"TRANS\" [of_c1; of_c2] [] []", "MK_COMB": "made \"MK_COMB\" [of_c1; of_c2] [] []",
    "ABS": "made \"ABS\" [of_c] [v] []", "BETA": "made \"BETA\" [] [tm] []", "ASSUME": "made \"ASSUME\" [] [tm] []",
    "EQ_MP": "made \"EQ_MP\" [of_eq; of_c] [] []", "DEDUCT_ANTISYM_RULE": "made \"DEDUCT\" [of_c1; of_c2] [] []",
    "INST_TYPE": "made \"INST_TYPE\" [of_c] [] theta", "INST": "made \"INST\" [of_c] (pairwise theta) []",
    "new_axiom": "made \"AXIOM\" [] [] []", "new_basic_definition": "made \"DEFINITION\" [] [] []",
    "new_basic_type_definition": "made \"TYPE\" [of_c] [] []",
}
"""What is kept by the function that makes a theorem: the rule, its premises, its terms and its types, by the names that the function has for them."""

_TYPE = """  type thm = Sequent of (term list * term * derivation)
  and derivation = { number : int; mutable rule : string; mutable premises : thm list; mutable terms : term list;
                     mutable types : (hol_type * hol_type) list }
  let derivations = ref 0
  let made rule premises terms types = incr derivations;
    { number = !derivations; rule = rule; premises = premises; terms = terms; types = types }
  let rec pairwise theta = match theta with (a,b)::rest -> a::b::(pairwise rest) | [] -> []
  let derivation th = match th with Sequent(_,_,d) -> d.number,d.rule,d.premises,d.terms,d.types
  let derived rule premises terms th = match th with Sequent(a,c,_) -> Sequent(a,c,made rule premises terms [])
  let cut th = match th with Sequent(_,_,d) -> d.rule <- "-"; d.premises <- []; d.terms <- []; d.types <- []
"""
_VALUES = """      val derivation : thm -> int * string * thm list * term list * (hol_type * hol_type) list
      val derived : string -> thm list -> term list -> thm -> thm
      val cut : thm -> unit
"""
_ONE_STEP: Dict[str, List[Tuple[str, str]]] = {
    "equal.ml": [
        ("BETA_CONV", "let BETA_CONV tm = derived \"BETA\" [] [tm] (BETA_CONV tm);;"),
        ("AP_TERM", "let AP_TERM tm = let f = AP_TERM tm in fun th -> derived \"AP_TERM\" [th] [tm] (f th);;"),
        ("AP_THM", "let AP_THM th tm = derived \"AP_THM\" [th] [tm] (AP_THM th tm);;"),
        ("SYM", "let SYM th = derived \"SYM\" [th] [] (SYM th);;"),
    ],
    "bool.ml": [
        ("PROVE_HYP", "let PROVE_HYP a b = let th = PROVE_HYP a b in if th == b then b else derived \"PROVE_HYP\" [a; b] [] th;;"),
        *[(name, "let {0} th = derived \"{0}\" [th] [] ({0} th);;".format(name)) for name in (
            "EQT_ELIM EQT_INTRO CONJUNCT1 CONJUNCT2 NOT_ELIM NOT_INTRO EQF_INTRO EQF_ELIM").split()],
        *[(name, "let {0} a b = derived \"{0}\" [a; b] [] ({0} a b);;".format(name)) for name in "CONJ MP IMP_ANTISYM_RULE IMP_TRANS".split()],
        ("EQ_IMP_RULE", "let EQ_IMP_RULE th = let a,b = EQ_IMP_RULE th in derived \"EQ_IMP1\" [th] [] a,derived \"EQ_IMP2\" [th] [] b;;"),
        *[(name, "let {0} tm = let f = {0} tm in fun th -> derived \"{0}\" [th] [tm] (f th);;".format(name)) for name in "DISCH SPEC GEN DISJ2 CONTR".split()],
        ("EXISTS", "let EXISTS (a,b) th = derived \"EXISTS\" [th] [a; b] (EXISTS (a,b) th);;"),
        ("CHOOSE", "let CHOOSE (v,a) b = derived \"CHOOSE\" [a; b] [v] (CHOOSE (v,a) b);;"),
        ("DISJ1", "let DISJ1 th tm = derived \"DISJ1\" [th] [tm] (DISJ1 th tm);;"),
        ("DISJ_CASES", "let DISJ_CASES a b c = derived \"DISJ_CASES\" [a; b; c] [] (DISJ_CASES a b c);;"),
    ],
}
"""The rules that count as one step, by files, with the line that goes behind the definition of each."""
FILES = ("fusion.ml", *_ONE_STEP)


def changed(file: str, text: str) -> str:
    """The text of one of FILES, changed."""
    return keeping(text) if file == "fusion.ml" else wrapped(text, _ONE_STEP[file])


def keeping(text: str) -> str:
    """The kernel's text with derivations."""
    text = re.sub(r"^ *type thm = Sequent of .*\n", lambda _: _TYPE, text, count=1, flags=re.M)
    text = re.sub(r"^ *type thm *\n", lambda found: found.group() + _VALUES, text, count=1, flags=re.M)
    begun = text.index("  let dest_thm")
    return text[:begun] + _constructions(_patterns(text[begun:]))


def _patterns(text: str) -> str:
    """The heads of functions that take theorems apart: a third part, and a name for the theorem."""
    def head(found: "re.Match[str]") -> str:
        return re.sub(r"Sequent\((\w+),(\w+)\)", r"((Sequent(\1,\2,_)) as of_\2)", found.group())

    return re.sub(r"^  let \w+[^\n=]*Sequent\(\w+,\w+\)[^\n=]*=", head, text, flags=re.M)


def _constructions(text: str) -> str:
    """What makes theorems: a third part behind the other two."""
    made, at, rule = "", 0, ""
    for found in re.finditer(r"^  let (\w+)|Sequent\((?=\[|term_|asl,)", text, re.M):
        if found.group(1):
            rule = found.group(1)
            continue
        if found.start() < at or text[found.start():].startswith("Sequent(asl,c,_)"):
            continue
        end = _closing(text, found.end())
        made += text[at:end] + "," + _MADE[rule]
        at = end
    return made + text[at:]


def _closing(text: str, at: int) -> int:
    """The place of the parenthesis that closes one which is open at a place."""
    depth = 1
    while depth:
        depth += {"(": 1, ")": -1}.get(text[at], 0)
        at += 1
    return at - 1


def wrapped(text: str, additions: List[Tuple[str, str]]) -> str:
    """A file's text with a line behind the definition of each name, where it has one."""
    for name, line in additions:
        found = re.search(r"^let\s+(?:rec\s+)?\(*%s\b" % re.escape(name), text, re.M)
        if found and line:
            end = re.compile(r";;[ \t]*\n").search(text, found.end())
            if end:
                text = text[:end.end()] + line + "\n" + text[end.end():]
    return text
