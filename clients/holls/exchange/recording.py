"""HOL Light runs with its tactics recorded: a copy of what is installed is changed by a script, and writes a neutral file.

Nothing of HOL Light's text is held here. What is put into the copy are lines that wrap a function behind its definition, by its kind
(recorder.ml says what the wrappers do, and what a line of the file means).
"""

from __future__ import annotations

import os
import re
import subprocess
import tempfile
from pathlib import Path
from typing import Container, Dict, FrozenSet, Iterator, List, Sequence, Tuple

from holls.exchange import kernel
from holls.exchange.hol_light import ADVICE, INSTALLED, NoHolLight
from holls.exchange.kernel import wrapped

HERE = Path(__file__).resolve().parent

_RULES = {
    "rec_rule1": "SYM GSYM SPEC_ALL CONJUNCT1 CONJUNCT2 GEN_ALL UNDISCH UNDISCH_ALL NOT_ELIM NOT_INTRO EQT_INTRO EQT_ELIM EQF_INTRO BETA_RULE",
    "rec_rule2": "MP TRANS CONJ EQ_MP MATCH_MP IMP_TRANS PROVE_HYP",
    "rec_rule_term": "ASSUME REFL",
    "rec_rule_term1": "SPEC ISPEC GEN DISCH",
    "rec_rule_terms1": "SPECL ISPECL",
    "rec_rule_pairs1": "INST",
    "rec_rule_types1": "INST_TYPE",
    "rec_rule_split": "EQ_IMP_RULE",
}
"""Rules that stand behind drule.ml, by their wrappers."""

_PLAIN = (
    "ABS_TAC MK_COMB_TAC AP_TERM_TAC AP_THM_TAC BINOP_TAC BETA_TAC REFL_TAC DISCH_TAC EQ_TAC GEN_TAC CONJ_TAC DISJ1_TAC DISJ2_TAC "
    "STRIP_TAC ANTS_TAC")
_BY_THEOREM = (
    "LABEL_TAC_ ASSUME_TAC ACCEPT_TAC SUBST1_TAC SUBST_ALL_TAC SUBST_VAR_TAC MP_TAC CHOOSE_TAC DISJ_CASES_TAC CONTR_TAC MATCH_ACCEPT_TAC "
    "MATCH_MP_TAC STRIP_ASSUME_TAC STRUCT_CASES_TAC")
_BY_TERM = "UNDISCH_TAC X_GEN_TAC EXISTS_TAC"
_THEN = "POP_ASSUM FIRST_ASSUM FIRST_X_ASSUM DISCH_THEN"

_LATER: Dict[str, Sequence[Tuple[str, str]]] = {
    "simp.ml": [
        *[(name, "let {0} ths = rec_tac \"{0}\" (rec_thms ths) ({0} ths);;".format(name)) for name in (
            "PURE_REWRITE_TAC REWRITE_TAC PURE_ONCE_REWRITE_TAC ONCE_REWRITE_TAC PURE_ASM_REWRITE_TAC ASM_REWRITE_TAC "
            "PURE_ONCE_ASM_REWRITE_TAC ONCE_ASM_REWRITE_TAC SIMP_TAC PURE_SIMP_TAC ONCE_SIMP_TAC ASM_SIMP_TAC PURE_ASM_SIMP_TAC "
            "ONCE_ASM_SIMP_TAC").split()],
        ("GEN_REWRITE_TAC", "let GEN_REWRITE_TAC c ths = rec_tac \"GEN_REWRITE_TAC\" (rec_thms ths) (GEN_REWRITE_TAC c ths);;"),
        *[(name, "let {0} = rec_rule_thms1 \"{0}\" {0};;".format(name)) for name in (
            "PURE_REWRITE_RULE REWRITE_RULE PURE_ONCE_REWRITE_RULE ONCE_REWRITE_RULE SIMP_RULE").split()],
        ("GEN_REWRITE_RULE", "let GEN_REWRITE_RULE c = rec_rule_thms1 \"GEN_REWRITE_RULE\" (GEN_REWRITE_RULE c);;"),
        ("ABBREV_TAC", "let ABBREV_TAC tm = rec_tac \"ABBREV_TAC\" [Rec_term tm] (ABBREV_TAC tm);;"),
        ("EXPAND_TAC", "let EXPAND_TAC s = rec_tac \"EXPAND_TAC\" [] (EXPAND_TAC s);;"),
    ],
    "itab.ml": [("ITAUT_TAC", "let ITAUT_TAC = rec_tac \"ITAUT_TAC\" [] ITAUT_TAC;;")],
    "class.ml": [
        ("BOOL_CASES_TAC", "let BOOL_CASES_TAC t = rec_tac \"BOOL_CASES_TAC\" [Rec_term t] (BOOL_CASES_TAC t);;"),
        ("ASM_CASES_TAC", "let ASM_CASES_TAC t = rec_tac \"ASM_CASES_TAC\" [Rec_term t] (ASM_CASES_TAC t);;"),
        ("TAUT", "let TAUT = rec_rule_term \"TAUT\" TAUT;;"),
        ("COND_CASES_TAC", "let COND_CASES_TAC = rec_tac \"COND_CASES_TAC\" [] COND_CASES_TAC;;"),
    ],
    "meson.ml": [
        ("ASM_MESON_TAC", "let ASM_MESON_TAC ths = rec_tac \"ASM_MESON_TAC\" (rec_thms ths) (ASM_MESON_TAC ths);;"),
        ("MESON_TAC", "let MESON_TAC ths = rec_tac \"MESON_TAC\" (rec_thms ths) (MESON_TAC ths);;"),
        ("MESON", "let MESON = rec_rule_thms_term \"MESON\" MESON;;"),
    ],
    "nums.ml": [("INDUCT_TAC", "let INDUCT_TAC = rec_tac \"INDUCT_TAC\" [] INDUCT_TAC;;")],
    "lists.ml": [("LIST_INDUCT_TAC", "let LIST_INDUCT_TAC = rec_tac \"LIST_INDUCT_TAC\" [] LIST_INDUCT_TAC;;")],
    "wf.ml": [("WF_INDUCT_TAC", "let WF_INDUCT_TAC tm = rec_tac \"WF_INDUCT_TAC\" [Rec_term tm] (WF_INDUCT_TAC tm);;")],
    "arith.ml": [("ARITH_TAC", ""), ("ARITH_RULE", "")],
    "sets.ml": [
        ("SET_TAC", "let SET_TAC ths = rec_tac \"SET_TAC\" (rec_thms ths) (SET_TAC ths);;"),
        ("SET_RULE", "let SET_RULE = rec_rule_term \"SET_RULE\" SET_RULE;;"),
        ("ASM_SET_TAC", "let ASM_SET_TAC ths = rec_tac \"ASM_SET_TAC\" (rec_thms ths) (ASM_SET_TAC ths);;"),
    ],
    "int.ml": [
        ("ARITH_TAC", "let ARITH_TAC = rec_tac \"ARITH_TAC\" [] ARITH_TAC;;"),
        ("ASM_ARITH_TAC", "let ASM_ARITH_TAC = rec_tac \"ASM_ARITH_TAC\" [] ASM_ARITH_TAC;;"),
        ("ARITH_RULE", "let ARITH_RULE = rec_rule_term \"ARITH_RULE\" ARITH_RULE;;"),
        ("INT_ARITH_TAC", "let INT_ARITH_TAC = rec_tac \"INT_ARITH_TAC\" [] INT_ARITH_TAC;;"),
        ("INT_ARITH", "let INT_ARITH = rec_rule_term \"INT_ARITH\" INT_ARITH;;"),
    ],
    "ind_defs.ml": [("new_inductive_definition", "let new_inductive_definition tm = let a,b,c = rec_inside new_inductive_definition tm in "
                     "rec_note \"new_inductive_definition\" [Rec_term tm] a,rec_note \"new_inductive_induction\" [Rec_term tm] b,"
                     "rec_note \"new_inductive_cases\" [Rec_term tm] c;;")],
    "recursion.ml": [("new_recursive_definition", "let new_recursive_definition = rec_rule_def1 \"new_recursive_definition\" "
                      "new_recursive_definition;;")],
    "define.ml": [("define", "let define = rec_rule_term \"define\" define;;")],
}
"""What stands in later files, with the line that goes behind its definition there."""


def tactic_lines() -> str:
    """The wrappers of the tactics that tactics.ml makes."""
    lines = ["let {0} : tactic = rec_tac \"{0}\" [] {0};;".format(name) for name in _PLAIN.split()]
    lines += ["let {0} : thm_tactic = fun th -> rec_tac \"{0}\" [Rec_thm th] ({0} th);;".format(name)
              for name in _BY_THEOREM.split() if not name.endswith("_")]
    lines += ["let {0} : term -> tactic = fun tm -> rec_tac \"{0}\" [Rec_term tm] ({0} tm);;".format(name) for name in _BY_TERM.split()]
    lines += ["let {0} : thm_tactic -> tactic = rec_then \"{0}\" [] {0};;".format(name) for name in _THEN.split()]
    lines += [
        "let SPEC_TAC (a,b) : tactic = rec_tac \"SPEC_TAC\" [Rec_term a; Rec_term b] (SPEC_TAC (a,b));;",
        "let X_CHOOSE_TAC tm : thm_tactic = fun th -> rec_tac \"X_CHOOSE_TAC\" [Rec_term tm; Rec_thm th] (X_CHOOSE_TAC tm th);;",
        "let TRANS_TAC th tm : tactic = rec_tac \"TRANS_TAC\" [Rec_thm th; Rec_term tm] (TRANS_TAC th tm);;",
        "let CONV_TAC c : tactic = rec_tac \"CONV_TAC\" [] (CONV_TAC c);;",
        "let RULE_ASSUM_TAC r : tactic = rec_tac \"RULE_ASSUM_TAC\" [] (RULE_ASSUM_TAC r);;",
        "let CHOOSE_THEN ttac th : tactic = rec_then \"CHOOSE_THEN\" [Rec_thm th] (fun f -> CHOOSE_THEN f th) ttac;;",
        "let X_CHOOSE_THEN tm ttac th : tactic = rec_then \"X_CHOOSE_THEN\" [Rec_term tm; Rec_thm th] (fun f -> X_CHOOSE_THEN tm f th) ttac;;",
        "let UNDISCH_THEN tm ttac : tactic = rec_then \"UNDISCH_THEN\" [Rec_term tm] (UNDISCH_THEN tm) ttac;;",
        "let USE_THEN s ttac : tactic = rec_then \"USE_THEN\" [] (USE_THEN s) ttac;;",
        "let REMOVE_THEN s ttac : tactic = rec_then \"REMOVE_THEN\" [] (REMOVE_THEN s) ttac;;",
        "let DISJ_CASES_THEN2 one other th : tactic = rec_cases \"DISJ_CASES_THEN2\" [Rec_thm th] (fun f g -> DISJ_CASES_THEN2 f g th) one other;;",
        "let DISJ_CASES_THEN ttac th : tactic = DISJ_CASES_THEN2 ttac ttac th;;",
        "let SUBGOAL_THEN tm ttac : tactic = rec_subgoal tm SUBGOAL_THEN ttac;;",
        "let POP_ASSUM_LIST f : tactic = rec_list \"POP_ASSUM_LIST\" POP_ASSUM_LIST f;;",
        "let ASSUM_LIST f : tactic = rec_list \"ASSUM_LIST\" ASSUM_LIST f;;",
        "let STRIP_THM_THEN = FIRST_TCL [CONJUNCTS_THEN; DISJ_CASES_THEN; CHOOSE_THEN];;",
    ]
    return "\n".join(lines) + "\n"


def rule_lines() -> str:
    """The wrappers of the rules that stand behind drule.ml."""
    lines = ["let {1} = {0} \"{1}\" {1};;".format(wrapper, name) for wrapper, names in _RULES.items() for name in names.split()]
    lines.append("let new_definition = rec_rule_term \"new_definition\" new_definition;;")
    return "\n".join(lines) + "\n"


def prepare(room: Path, installed: Path = INSTALLED) -> None:
    """Makes a copy of HOL Light in a folder: links to what is installed, and the changed files."""
    for path in installed.iterdir():
        os.symlink(path, room / path.name)
    changes = {"drule.ml": (HERE / "recorder.ml").read_text() + rule_lines(), "tactics.ml": (HERE / "recorder_tactics.ml").read_text()}
    for name, added in changes.items():
        own = (installed / name).read_text(encoding="latin-1")
        _write(room / name, own + "\n" + added + (tactic_lines() if name == "tactics.ml" else ""))
    for name, additions in _LATER.items():
        _write(room / name, wrapped((installed / name).read_text(encoding="latin-1"), additions))
    for name in kernel.FILES:
        _write(room / name, kernel.changed(name, (installed / name).read_text(encoding="latin-1")))


def _write(path: Path, text: str) -> None:
    path.unlink()
    path.write_text(text, encoding="latin-1")


_BINDING = re.compile(r"^(let|and)\s+([\[\(]?\s*[A-Za-z_][\w']*(?:\s*[,;]\s*[A-Za-z_][\w']*)*\s*[\]\)]?)\s*=", re.M)
_RESERVED = frozenset("let rec and in fun function match with if then else type exception open module".split())
_UNRECORDED = frozenset("realax.ml calc_int.ml realarith.ml real.ml calc_rat.ml".split())
"""Files whose proofs aren't written: of reals, to which nothing here comes."""
_QUIET = "Toploop.print_out_phrase := (fun _ _ -> ());;\n"


class Others(Container[str]):
    """All names but some, as those whose derivations are wanted."""

    def __init__(self, names_of: FrozenSet[str]) -> None:
        self.names = names_of

    def __contains__(self, name: object) -> bool:
        return name not in self.names


def bound(words: str) -> List[str]:
    """The names that a binding's left side has."""
    return [name for name in re.findall(r"[A-Za-z_][\w']*", words) if name not in _RESERVED]


def names(text: str) -> Iterator[str]:
    """The names that a file binds at its margin; some are no theorems."""
    for found in _BINDING.finditer(re.sub(r"\(\*.*?\*\)", " ", text, flags=re.S)):
        yield from bound(found[2])


def script(room: Path, further: Sequence[str], wanted: Container[str]) -> Tuple[str, str]:
    """What is loaded before the first file, and the lines behind it: each file, where each name is told behind what binds it."""
    first: List[str] = []
    rest: List[str] = []
    is_recording = False
    for line in (room / "hol.ml").read_text(encoding="utf-8").splitlines(keepends=True):
        loaded = re.match(r'loads "(.*)";;', line)
        if not rest and not loaded:
            first.append(line)
            continue
        rest.append(_file(room, loaded[1], wanted) if loaded and is_recording else line)
        is_recording = is_recording or bool(loaded) and loaded[1] == "tactics.ml"
        if loaded and loaded[1] == "define.ml":
            break
    return "".join(first), _QUIET + "".join(rest) + "".join(_file(room, name, wanted) for name in further)


def _file(room: Path, name: str, wanted: Container[str]) -> str:
    """A file's text, with its names told."""
    text = (room / name).read_text(encoding="latin-1")
    told = "".join('rec_name "%s" %s "%s";;\n' % (one, one, name) for one in dict.fromkeys(names(text)) if not one.startswith("rec_"))
    if name in _UNRECORDED:
        return 'incr rec_depth;;\nloads "%s";;\ndecr rec_depth;;\n%s' % (name, told)
    loaded = '\nloaded_files := ("%s",Digest.file "%s") :: !loaded_files;;\n' % (Path(name).name, room / name)
    return telling(text, name, wanted) + loaded


def telling(text: str, file: str, wanted: Container[str]) -> str:
    """A file's text with a line behind each binding at the margin that tells its names, and marks around those whose derivations are wanted."""
    added: Dict[int, Dict[str, None]] = {}
    begun: Dict[int, None] = {}
    comments = [found.span() for found in re.finditer(r"\(\*.*?\*\)", text, re.S)]
    for found in _BINDING.finditer(text):
        end = re.compile(r";;[^\n]*\n").search(text, found.end())
        if end is None or any(start <= found.start() < stop for start, stop in comments):
            continue
        own = [name for name in bound(found[2]) if not name.startswith("rec_")]
        added.setdefault(end.end(), {}).update(dict.fromkeys(own))
        if found[1] == "let" and any(name in wanted for name in own):
            begun[found.start()] = None
            added[end.end()][""] = None
    made, at = "", 0
    for place in sorted({*added, *begun}):
        made += text[at:place]
        at = place
        made += "".join('rec_name "%s" %s "%s";;\n' % (name, name, file) if name else "" for name in added.get(place, ()))
        made += "rec_is_wanted := false;;\n" if "" in added.get(place, ()) else ""
        made += "rec_is_wanted := true;;\n" if place in begun else ""
    return made + text[at:]


def record(target: Path, further: Sequence[str] = (), wanted: Container[str] = (), installed: Path = INSTALLED) -> str:
    """Runs HOL Light up to define.ml and further files, recorded to a file, with derivations of the wanted names; answers what it printed. It
    takes some minutes."""
    if not (installed / "hol.ml").exists():
        raise NoHolLight(ADVICE)
    with tempfile.TemporaryDirectory() as folder:
        room = Path(folder)
        prepare(room, installed)
        before, rest = script(room, further, wanted)
        (room / "recorded_init.ml").write_text(before, encoding="utf-8")
        environment = dict(os.environ, HOLLIGHT_DIR=folder, HOLLS_RECORD=str(target), OCAMLRUNPARAM="s=4M,l=64M")
        done = subprocess.run([str(room / "ocaml"), "-noprompt", "-init", str(room / "recorded_init.ml")], input=rest, stdout=subprocess.PIPE,
                              stderr=subprocess.STDOUT, text=True, env=environment, cwd=folder, errors="replace", check=False)
    return done.stdout
