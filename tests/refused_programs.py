#!/usr/bin/env python3
"""Tries programs that must not be accepted, over the libraries that `rt ci` has left: each has to be refused for what is wrong with it alone.

    python3 tests/refused_programs.py [--over TREE] [--verbose]

Only hol_kernel's calls make theorems and bases: elsewhere their fields are private. A program of `PROGRAMS` is a crate of its own, which stands on
hol_kernel as the crates above it do. `BASE` uses public calls alone, and has to be proved. Each of the others is `BASE` with one function more, and has to
be refused for the fields that it writes and for nothing else, so that nothing but these stands in its way.

`Thm::closed` makes a theorem of any sequent of which its caller proves that it has a derivation. Each function of `MAKERS` calls it, beside those of `BASE`:
a right one has to be proved, and of a wrong one has to be left open that there is a derivation.

Only a closure that answers what its code means can be stored under it. Each function of `CLOSURES` stores one under CONJ_TAC or GEN_TAC: a right one has
to be proved, and of a wrong one has to be left open what `Entry::new` asks of the answers. The functions of each of the two lists are one crate, since a
check is mostly the reading of what stands below.

Needs `rt` on the PATH, and calls the kit's `rattle` as tests/wrong_bodies.py does. Status 0 where all is so."""

import argparse
import itertools
import pathlib
import re
import subprocess
import sys
import tempfile

import wrong_bodies

# The crates of the programs, and on which each stands.
WRITING, MAKING, STORING = "writes_fields", "makes_theorems", "stores_closures"
USES = {
    WRITING: ["hol_kernel", "hol_subst", "hol_terms"],
    MAKING: ["hol_kernel", "hol_subst", "hol_terms"],
    STORING: ["hol_registry", "hol_tac", "hol_prelude", "hol_just", "hol_goal"],
}
BASE = """//! Theorems by the kernel's public calls.
#![tactic(auto)]

use hol_kernel::{Basis, KernelError, Thm};
use hol_subst::Hypotheses;
use hol_terms::Term;
use std::alloc::{AllocError, Global};
use std::rc::Rc;

/// `|- t = t` over the basis without items.
pub fn reflexivity(alloc: Global, term: &Term) -> Result<Thm, KernelError> {
    let basis = Basis::empty(alloc)?;
    Thm::refl(alloc, &basis, term)
}

/// The parts of a theorem, which all may read.
pub fn parts(thm: &Thm) -> (&Basis, &[Term], &Term) {
    (thm.basis(), thm.hyps(), thm.concl())
}
"""
# What each other program does, its function, and the fields that it has to be refused for.
PROGRAMS = [
    ("writes a theorem by its fields", ("Thm", "basis", "hyps", "concl"), """
pub fn forged(basis: Basis, hyps: Hypotheses, concl: Term) -> Thm {
    Thm { basis, hyps, concl }
}
"""),
    ("gives a theorem another conclusion", ("Thm", "concl"), """
pub fn forged(thm: Thm, concl: Term) -> Thm {
    let mut thm = thm;
    thm.concl = concl;
    thm
}
"""),
    ("takes the hypotheses off a theorem", ("Thm", "hyps"), """
pub fn forged(thm: &mut Thm, none: Hypotheses) {
    thm.hyps = none;
}
"""),
    ("gives a theorem another basis", ("Thm", "basis"), """
pub fn forged(thm: &mut Thm, basis: Basis) {
    thm.basis = basis;
}
"""),
    ("writes a basis by its field", ("Basis", "shared"), """
pub fn forged(alloc: Global) -> Result<Basis, AllocError> {
    Ok(Basis { shared: Rc::new(alloc, unreachable!())? })
}
"""),
    ("gives a basis another's items", ("Basis", "shared"), """
pub fn forged(basis: &mut Basis, other: Basis) {
    let Basis { shared } = other;
    basis.shared = shared;
}
"""),
]
# What a function makes a theorem of, its name, whether it is right, and its text.
MAKERS = [
    ("the parts of one", "handed_on", True, """
pub fn handed_on(thm: &Thm) -> Result<Thm, AllocError> {
    thm.promise();
    let hyps = thm.hypotheses().copy()?;
    let concl = thm.concl().copy()?;
    Thm::closed(thm.basis(), hyps, concl)
}
"""),
    ("a sequent that it is handed", "handed_in", False, """
pub fn handed_in(basis: &Basis, hyps: Hypotheses, concl: Term) -> Result<Thm, AllocError> {
    Thm::closed(basis, hyps, concl)
}
"""),
    ("the parts of one but its conclusion", "concluding_else", False, """
pub fn concluding_else(thm: &Thm, other: &Thm) -> Result<Thm, AllocError> {
    thm.promise();
    let hyps = thm.hypotheses().copy()?;
    let concl = other.concl().copy()?;
    Thm::closed(thm.basis(), hyps, concl)
}
"""),
    ("the parts of one but its hypotheses", "without_hypotheses", False, """
pub fn without_hypotheses(thm: &Thm) -> Result<Thm, AllocError> {
    thm.promise();
    let hyps = Hypotheses::none();
    let concl = thm.concl().copy()?;
    Thm::closed(thm.basis(), hyps, concl)
}
"""),
    ("the parts of one but its basis", "over_another_basis", False, """
pub fn over_another_basis(thm: &Thm, basis: &Basis) -> Result<Thm, AllocError> {
    thm.promise();
    let hyps = thm.hypotheses().copy()?;
    let concl = thm.concl().copy()?;
    Thm::closed(basis, hyps, concl)
}
"""),
]
DERIVED = "closed-requires"
ENTRIES = """//! Functions on goals that are stored under a code.
#![tactic(auto)]
ghost use Rattle.std.specs.Prelude.{◌≤◌};

use hol_goal::{Goal, Names, TacArgs, TacCode};
use hol_prelude::Prelude;
use hol_registry::Entry;
use hol_tac::tac;
use std::alloc::{AllocError, Global};
use std::rc::Rc;
"""
ENTRY = """
pub fn %s(alloc: Global, name: String, prelude: Rc<Prelude>) -> Result<(), AllocError> {
    let tac = Box::new(
        alloc,
        move |args: &TacArgs, goal: &Goal, names: &Names, turns: u32|
            requires { turns ≤ 100000 }
        { %s },
    )?;
    drop(Entry::new(name, TacCode::%s, tac));
    Ok(())
}
"""
# What a closure does, its function, its code, whether it is right, and its body.
CLOSURES = [
    ("CONJ_TAC gives what CONJ_TAC leaves", "conjuncts", "ConjTac", True,
     "let tried = tac(alloc, &prelude, TacCode::ConjTac, args, goal, names, turns)?; Ok(tried)"),
    ("CONJ_TAC gives q before p", "conjuncts_exchanged", "ConjTac", False,
     "let mut tried = tac(alloc, &prelude, TacCode::ConjTac, args, goal, names, turns)?; tried.step.goals.reverse(); Ok(tried)"),
    ("GEN_TAC asks about an equal goal", "bound_name", "GenTac", True,
     "let same = goal.copy()?; let tried = tac(alloc, &prelude, TacCode::GenTac, args, &same, names, turns)?; Ok(tried)"),
    ("GEN_TAC keeps a bound name that is free in an assumption", "bound_name_kept", "GenTac", False,
     "let bare = Goal::new(alloc, Vec::new(alloc), goal.conclusion().copy()?)?; "
     "let mut tried = tac(alloc, &prelude, TacCode::GenTac, args, &bare, names, turns)?; "
     "if let Some(left) = tried.step.goals.pop() { tried.step.goals.push(goal.with_conclusion(alloc, left.conclusion())?)?; } Ok(tried)"),
]
ASKED = "new-requires-2-clause-answers"
ERROR = re.compile(r"(?m)^(?:[^\s:]+:\d+:\d+: )?(error\b.*)$")


def ran(crates, name, text):
    """The status of a check of the crate of this name and text, and what the check says."""
    with tempfile.TemporaryDirectory(prefix="rt-edit-") as room:
        source = pathlib.Path(room) / "src"
        source.mkdir()
        (source / "lib.rt").write_text(text)
        check = subprocess.run(crates.command(name, []), cwd=room, stdin=subprocess.DEVNULL, stdout=subprocess.PIPE, stderr=subprocess.STDOUT,
                               encoding="utf-8", errors="replace")
    return check.returncode, check.stdout


def refused_for(struct, *fields):
    return {f"error[private-field]: field `{field}` of struct `{struct}` is private" for field in fields}


def fields_written(crates, verbose):
    """What each program of `PROGRAMS` does, and why that isn't as it has to be: nothing where it is."""
    for what, fields, function in [("uses public calls alone", None, ""), *PROGRAMS]:
        status, said = ran(crates, WRITING, BASE + function)
        errors = ERROR.findall(said)
        if verbose:
            print(said.rstrip())
        if fields is None:
            well = status == 0 and not errors and re.search(r"(?m)^holes=0$", said) is not None
        else:
            well = status == 1 and set(errors) == refused_for(*fields)
        yield f"a program that {what} is {'refused' if fields else 'proved'}", "" if well else f"status {status}: {errors or last_line(said)}"


def theorems_made(crates, verbose):
    """The same of each function of `MAKERS`."""
    cases = [(f"a function that makes a theorem of {what}", function, is_right) for what, function, is_right, _ in MAKERS]
    yield from functions_judged(crates, MAKING, BASE + "".join(text for *_, text in MAKERS), cases, DERIVED, verbose)


def closures_stored(crates, verbose):
    """The same of each closure of `CLOSURES`."""
    cases = [(f"a closure that under {what}", function, is_right) for what, function, _, is_right, _ in CLOSURES]
    text = ENTRIES + "".join(ENTRY % (function, body, code) for _, function, code, _, body in CLOSURES)
    yield from functions_judged(crates, STORING, text, cases, ASKED, verbose)


def functions_judged(crates, name, text, cases, goal, verbose):
    """The same of functions of the crate of this name and text: what each is, its name, and whether it is right. Of a wrong one the goal is left open."""
    said = ran(crates, name, text)[1]
    if verbose:
        print(said.rstrip())
    for what, function, is_right in cases:
        left = wrong_bodies.goals_left(function, set(), said)
        well = left == [] if is_right else goal in (left or [])
        why = last_line(said) if left is None else f"it leaves {left}"
        yield f"{what} is {'proved' if is_right else 'refused'}", "" if well else why


def last_line(said):
    return said.rstrip().rpartition("\n")[2][:300]


def main():
    words = argparse.ArgumentParser(description="Tries programs that must not be accepted.")
    words.add_argument("--over", type=pathlib.Path, default=wrong_bodies.ROOT, metavar="TREE",
                       help="the tree in which `rt ci` has left the libraries; else this one")
    words.add_argument("--verbose", action="store_true", help="print what each check says")
    words = words.parse_args()
    passed = failed = 0
    try:
        crates = wrong_bodies.Crates(words.over.resolve())
        crates.uses.update(USES)
        missing = crates.missing(STORING)
        if missing:
            raise wrong_bodies.Unusable(f"there is no library of {', '.join(missing)} in {crates.tree}: run `rt ci` there first")
    except wrong_bodies.Unusable as why:
        print(f"refused programs: {why}\nrefused programs: 0 passed, 1 failed")
        return 1
    groups = [fields_written, theorems_made, closures_stored]
    for what, why in itertools.chain.from_iterable(group(crates, words.verbose) for group in groups):
        print(f"NOT SO: {what}: {why}" if why else what, flush=True)
        passed, failed = passed + (not why), failed + bool(why)
    print(f"refused programs: {passed} passed, {failed} failed")
    return 1 if failed else 0


if __name__ == "__main__":
    sys.exit(main())
