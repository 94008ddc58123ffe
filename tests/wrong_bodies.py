#!/usr/bin/env python3
"""Tries the wrong bodies of crates/NAME/must-fail over the libraries that `rt ci` has left in crates/*/out/rlib: the prover must refuse each.

    python3 tests/wrong_bodies.py [CRATE ..] [--edit WORD] [--over TREE] [--jobs N] [--unedited] [--verbose]

An edit is a file of lines 'file: PATH', 'old: TEXT' and 'new: TEXT', as `rt must-fail` reads them, and one line more:

    refused: FUNCTION GOAL

FUNCTION is what the edit changes, by its path in the crate, and GOAL what has to be left open of its proof, as a check names it:
'returns-clause-range' is the clause `range` of what the function promises, 'returns' its only clause, 'invariant-loop-i-preserved' the loop's
invariant, 'sum-requires' what is owed to the call of `sum`. A refusal by other goals alone counts as none, since it shows nothing of that promise.
With '?' for GOAL an edit still waits for a check that tells it: it is tried where its crate or its name is given, and else only counted.

How an edit is tried: on a copy of its crate in which every function that no edit changes has the body `unreachable!()` and a proof left open, so that
the edited function is checked against what the others promise, as a crate above is checked against the libraries below it. That the others keep
their promises is what `rt ci` has shown. Edits are tried in one check: of those of one function each but the first changes a copy of it, that stands
beside it under a name of its own, with a copy of its proof. `--unedited` tries the same functions and copies as they stand, and each must be proved: it shows
that a refusal comes from its edit.

A check that leaves goals open goes on to print the files that would answer them, for a fifth of its time, but not where a proof file has a line that is wrong.
So the edited functions' files get one (`WRONG`), and the goals are taken from the check's notes. What isn't refused so by its goal is tried once more without
that line, and only that decides. `--unedited` tries each both ways: with the line no goal may be left either.

Needs `rt` on the PATH, and calls the kit's `rattle` by flags that `rt check --help` lists. Status 0 where each edit was refused by its goal."""

import argparse
import collections
import concurrent.futures
import os
import pathlib
import re
import resource
import shutil
import subprocess
import sys
import tempfile
import threading
import time

ROOT = pathlib.Path(__file__).resolve().parent.parent
PARTS = ("src", "specs", "proofs")
PROOF_FILES = ("Answers.antt", "Invariants.antt")
# The body and the proof of a function that no edit of a check changes. Its proof is left open, so that what it promises is taken as it is stated. (The hole
# stands in a lemma that says nothing, since a check writes out what each hole has to show: that took a tenth of its time.)
OPEN_BODY = "unreachable!()"
OPEN_PROOF = """use Rattle.{crate}.proofs.{path}.Statement.{{statement}}

left_open : {{A : Type 2}} → A
left_open = ?

pub {name}_spec : {{M : Type 1}} → statement M
{name}_spec = left_open
"""
# A lemma that no check admits. No function's proof has a name with a dash.
WRONG_NAME = "offers-nothing"
WRONG = f"\n\n{WRONG_NAME} : Type 0\n{WRONG_NAME} = Type 0\n"


class Unusable(Exception):
    """Why nothing can be tried."""


def kit():
    """The folder of the toolchain."""
    try:
        page = subprocess.run(["rt", "doc"], stdout=subprocess.PIPE, universal_newlines=True, check=True).stdout.strip()
    except (OSError, subprocess.CalledProcessError) as error:
        raise Unusable(f"`rt doc` doesn't say where the kit is: {error}")
    return pathlib.Path(page).parent


# ---------------------------------------------------------------------------------------------------------------------------- the crates


class Crates:
    """The crates of crates.txt, the libraries of a tree, and the command that checks a crate over these."""

    def __init__(self, tree):
        self.tree, self.kit = tree, kit()
        rows = (line.partition("#")[0].partition(":") for line in (ROOT / "crates.txt").read_text().splitlines())
        self.uses = {name.split()[0]: uses.split() for name, _, uses in rows if name.strip()}
        self.known_below = {}

    def below(self, name):
        """The crates of the repository that stand below one, the lowest first."""
        if name not in self.known_below:
            found = {}
            for use in self.uses[name]:
                if use in self.uses:
                    found.update(dict.fromkeys([*self.below(use), use]))
            self.known_below[name] = list(found)
        return self.known_below[name]

    def library(self, name):
        return self.tree / "crates" / name / "out" / "rlib" / f"{name}.rlib"

    def missing(self, name):
        """The libraries below a crate that don't stand."""
        return [it for it in self.below(name) if not self.library(it).is_dir()]

    def command(self, name, functions):
        """What checks these functions of a crate that stands in the current folder."""
        root = "src/main.rt" if (ROOT / "crates" / name / "src" / "main.rt").is_file() else "src/lib.rt"
        words = [self.kit / "bin" / "rattle", "check", "--crate-name", name, root, "--jobs", "1", "--links", f"{name}="]
        words += ["--antt-project", self.kit / "rattle/logic/antt-project.json", "--logic-built", self.kit / "logic_built", "--allow-holes"]
        for use in [*self.uses[name], "std"]:
            words += ["--extern", f"{use}={self.library(use) if use in self.uses else self.kit / 'rlibs' / (use + '.rlib')}"]
        for folder in [self.kit / "rlibs", *(self.library(it).parent for it in self.below(name))]:
            words += ["-L", f"dependency={folder}"]
        for function in functions:
            words += ["--only", function]
        return [str(word) for word in words]


# ------------------------------------------------------------------------------------------------------------------- a crate's functions


# A function: its path in the crate, whether its body can be left open, its file, the numbers of its first line, of the line that its body begins after,
# and of the one that ends it.
Function = collections.namedtuple("Function", "path is_own file first opened closed")
HEADER = re.compile(r"( *)(?:pub(?:\([a-z]+\))? )?(const )?(?:unsafe )?fn (\w+)")
OWNER = re.compile(r"(?:impl|(?:pub(?:\([a-z]+\))? )?trait|extern)\b")
PLAIN_IMPL = re.compile(r"impl(?:<.*?>)? (\w+)(?:<.*>)? \{")
TRAIT_IMPL = re.compile(r"impl(?:<.*?>)? (\w+) for (\w+)(?:<.*>)? \{")
TYPE = re.compile(r"(?m)^(?:pub(?:\([a-z]+\))? )?(?:struct|enum) (\w+)")


def functions_of(crate):
    """The functions of a crate. The bodies of those of a module or of a type can be left open, and not those of a trait."""
    files = {file: file.read_text() for file in sorted((crate / "src").rglob("*.rt"))}
    module_of = lambda file: [part for part in file.relative_to(crate / "src").with_suffix("").parts if part not in ("lib", "main", "mod")]
    homes = {name: module_of(file) for file, text in files.items() for name in TYPE.findall(text)}
    found = []
    for file, text in files.items():
        own = {**homes, **dict.fromkeys(TYPE.findall(text), module_of(file))}
        found += functions_in(text.split("\n"), module_of(file), own, str(file.relative_to(crate)))
    return found


def functions_in(lines, module, homes, file):
    """The same of one file, in which types have these modules. It is laid out by `rt fmt`: so a body ends at the first brace that stands below its
    function's first letter."""
    owner, is_own, at, found = module, True, 0, []
    while at < len(lines):
        if OWNER.match(lines[at]):
            plain, trait = PLAIN_IMPL.match(lines[at]), TRAIT_IMPL.match(lines[at])
            is_own = plain is not None
            owner = [*homes.get(plain[1], module), plain[1]] if plain else [*module, trait[2] + trait[1]] if trait else None
        elif lines[at] == "}":
            owner, is_own = module, True
        header = HEADER.match(lines[at])
        if header:
            first, indent = at, header[1]
            while not is_opening(lines, first, at, indent) and not lines[at].endswith((";", "{}")):
                at += 1
            if is_opening(lines, first, at, indent):
                opened, at = at, lines.index(indent + "}", at)
                if owner is not None and len(indent) == (0 if owner is module else 4):
                    found.append(Function("::".join([*owner, header[3]]), is_own and not header[2], file, first, opened, at))
        at += 1
    return found


def is_opening(lines, first, at, indent):
    """Whether a line opens the body of the function that begins at `first`."""
    return lines[at] == indent + "{" or lines[at].endswith(" {") and (at == first or lines[at].startswith(indent + ")"))


def cycles_of(crate):
    """The functions that call one another, by their paths, as the folders of their proofs name them."""
    cycles = []
    for folder in (crate / "proofs").rglob("+*"):
        module = "::".join(folder.relative_to(crate / "proofs").parent.parts)
        names = {folder.name[1:]}
        if (folder / "Invariants.antt").is_file():
            names.update(re.findall(r"(?m)^abbrev pub decreases-(\S+) ", (folder / "Invariants.antt").read_text()))
        cycles.append({f"{module}::{name}" for name in names})
    return cycles


# ------------------------------------------------------------------------------------------------------------------------------ the edits


class Edit:
    """A wrong body: what it changes, and the goal of which function has to refuse it."""

    def __init__(self, path):
        self.label, self.changes, self.function, self.goal = f"{path.parent.parent.name}/{path.name}", [], "", ""
        file = old = None
        for line in path.read_text().split("\n"):
            word, _, rest = line.partition(":")
            rest = rest[1:] if rest.startswith(" ") else rest
            if word == "file":
                file = rest.strip()
            elif word == "old":
                old = rest
            elif word == "new" and file and old:
                self.changes.append((file, old, rest))
            elif word == "refused":
                self.function, _, self.goal = rest.strip().partition(" ")
        self.lacks = "" if self.changes and self.function and self.goal else "it lacks a line 'file:', 'old:', 'new:' or 'refused: FUNCTION GOAL'"

    def applied(self, texts):
        """The texts with the edit in them, or None where an old text doesn't stand there exactly once."""
        texts = dict(texts)
        for file, old, new in self.changes:
            if texts.get(file, "").count(old) != 1:
                return None
            texts[file] = texts[file].replace(old, new)
        return texts


def above(lines, first):
    """The first line of a function's attributes, or its own where it has none."""
    while first and lines[first - 1].strip().startswith("#["):
        first -= 1
    return first


class Copy:
    """A copy of a function under a name of its own."""

    def __init__(self, function, number, lines):
        *self.module, self.of = function.path.split("::")
        self.function, self.name = function, f"{self.of}_edit_{number}"
        self.path = "::".join([*self.module, self.name])
        first = above(lines, function.first)
        header = re.sub(rf"\bfn {self.of}\b", f"fn {self.name}", lines[function.first])
        self.lines = [*lines[first : function.first], header, *lines[function.first + 1 : function.closed + 1]]

    def write_proof(self, crate, proofs):
        """Copies the proof files of the function, where it has any. They name it by its path."""
        own, new = proofs.joinpath(*self.module, self.of), proofs.joinpath(*self.module, self.name)
        path = ".".join([f"Rattle.{crate}.proofs", *self.module])
        if own.is_dir():
            shutil.copytree(own, new)
            for file in new.rglob("*.antt"):
                file.write_text(re.sub(rf"\b{re.escape(path)}\.{self.of}(?=\.)", f"{path}.{self.name}", file.read_text()))


class Sources:
    """A crate's source files, its functions, and which of these call one another."""

    def __init__(self, name):
        self.name, self.folder = name, ROOT / "crates" / name
        self.texts = {str(it.relative_to(self.folder)): it.read_text() for it in sorted((self.folder / "src").rglob("*.rt"))}
        self.functions, self.cycles = functions_of(self.folder), cycles_of(self.folder)

    def changed(self, texts):
        """The functions in which these texts differ from the crate's."""
        lines = {file: (self.texts[file].split("\n"), text.split("\n")) for file, text in texts.items()}
        return {it.path for it in self.functions if lines[it.file][0][it.first : it.closed] != lines[it.file][1][it.first : it.closed]}

    def lines_of(self, edit):
        """The lines that an edit changes, by their files and numbers. It adds none and takes none away, since each text of it is one line."""
        pairs = ((file, text.split("\n"), self.texts[file].split("\n")) for file, text in edit.applied(self.texts).items())
        return {(file, at): line for file, lines, was in pairs for at, line in enumerate(lines) if line != was[at]}

    def together(self, edits):
        """The crate's texts with all these edits in them, or None where two change one line."""
        changes = [self.lines_of(it) for it in edits]
        lines = {file: text.split("\n") for file, text in self.texts.items()}
        for (file, at), line in [change for it in changes for change in it.items()]:
            lines[file][at] = line
        return {file: "\n".join(it) for file, it in lines.items()} if len(set().union(*changes)) == sum(map(len, changes)) else None

    def with_cycles(self, paths):
        """These functions and those that call them and are called by them."""
        return set(paths).union(*(cycle for cycle in self.cycles if cycle & set(paths)))

    def copied(self, edit, number, texts):
        """The function of an edit as it stands in these texts, under another name, or None where it isn't all that the edit changes, or can't be copied."""
        function = next(it for it in self.functions if it.path == edit.function)
        edited = edit.applied(self.texts)
        here, was = edited[function.file].split("\n"), self.texts[function.file].split("\n")
        outside = [(text, self.texts[file]) for file, text in edited.items() if file != function.file]
        outside += [(here[: function.first], was[: function.first]), (here[function.closed :], was[function.closed :])]
        if not function.is_own or self.with_cycles({edit.function}) != {edit.function} or any(one != other for one, other in outside):
            return None
        return Copy(function, number, texts[function.file].split("\n"))

    def write(self, folder, texts, closed, copies=()):
        """Writes a copy of the crate with these texts, in which the functions that aren't `closed` are left open, and the copies of functions."""
        for part in PARTS:
            if (self.folder / part).is_dir():
                shutil.copytree(self.folder / part, folder / part)
        lines = {file: text.split("\n") for file, text in texts.items()}
        for it in reversed(self.functions):
            for copy in copies:
                if copy.function.path == it.path:
                    lines[it.file][it.closed + 1 : it.closed + 1] = ["", *copy.lines]
                    copy.write_proof(self.name, folder / "proofs")
            if it.is_own and it.path not in closed:
                indent = " " * (len(lines[it.file][it.closed]) - 1)
                lines[it.file][it.opened + 1 : it.closed] = [f"{indent}    {OPEN_BODY}"]
                drop_cycle_name(lines[it.file], it.first)
                self.leave_open(folder / "proofs", it.path)
        for file, text in lines.items():
            (folder / file).write_text("\n".join(text))

    def leave_open(self, proofs, path):
        *module, name = path.split("::")
        for own in (proofs.joinpath(*module, name), proofs.joinpath(*module, "+" + name)):
            for file in PROOF_FILES:
                (own / file).unlink(missing_ok=True)
        own = proofs.joinpath(*module, name)
        own.mkdir(parents=True, exist_ok=True)
        (own / "Proof.antt").write_text(OPEN_PROOF.format(crate=self.name, path=".".join([*module, name]), name=name))


def drop_cycle_name(lines, first):
    """Takes the name of a cycle of calls off a function that calls nothing."""
    for at in range(above(lines, first), first):
        if lines[at].strip().startswith("#[cycle("):
            lines[at] = ""


# ------------------------------------------------------------------------------------------------------------------------------ the tries


# What a check says of an answer that names something which the edit took away, and what is said of that here: it shows nothing of the goal.
GONE = re.compile(r"has no field|has no `|is not in scope|is no name")
BY_NAME = "only since its answer names what is gone"


# What it says of a goal that is left open: where in the sources, and the goal's name.
NOTE = re.compile(r"(?m)^note: (?:\./)?(\S+?):(\d+):\d+: it is not proved that .*?\(`([^`]+)`\)")


def goals_noted(place, said):
    """The goals that the check's notes call open at the lines of a function."""
    found = ((file, int(line) - 1, goal) for file, line, goal in NOTE.findall(said))
    return [goal for file, line, goal in found if place and file == place.file and place.first <= line <= place.closed]


def goals_left(function, cycle, said, place=None):
    """The goals that a check left open of a function: none where it is proved, None where the check says nothing of them. `place` is where it stands, if the
    check's notes are to be read too."""
    line = next((it for it in said.split("\n") if re.match(rf"fn \w+::{re.escape(function)}: ", it)), "")
    state = line.partition(": ")[2]
    if re.match(r"(proved|no holes|depends on a hole)", state):
        return []
    folder = "/".join(function.split("::"))
    places = {folder} | {"/".join([*it.split("::")[:-1], "+" + it.split("::")[-1]]) for it in cycle}
    own = "|".join(re.escape(it) for it in sorted(places))
    told = re.findall(rf"(?m)^(?:\./)?proofs/(?:{own})/Answers\.antt:\d+:\d+: error: `([^`]+)`(.*(?:\n  \S.*)*)$", said)
    found = [f"{goal} ({BY_NAME})" if GONE.search(why) else goal for goal, why in told]
    found += re.findall(r"`([^`]+)`", state.partition("did not prove")[2].partition(";")[0])
    return [it for it in dict.fromkeys([*found, *goals_noted(place, said)]) if it != WRONG_NAME] or None


class Check:
    """One check of a crate with some of its edits. A brief one prints no files that would answer the goals that it leaves open."""

    def __init__(self, crates, sources, edits, unedited, is_brief):
        self.edits, self.crates, self.sources, self.is_brief = edits, crates, sources, is_brief
        self.paths, self.said, self.seconds = {}, "", 0.0
        with tempfile.TemporaryDirectory(prefix="rt-edit-") as room:
            places = self.write(pathlib.Path(room), unedited)
            self.run(room)
        self.ended = re.search(r"(?m)^only=\d+ holes=\d+$", self.said) is not None
        self.goals = {it: self.goals_of(it, places.get(path) if is_brief else None) if self.ended else None for it, path in self.paths.items()}

    def write(self, room, unedited):
        """Writes what is checked, and returns where each function stands in it."""
        first, plain = firsts(self.edits), self.sources.texts
        copies = {it: self.sources.copied(it, number, plain if unedited else it.applied(plain)) for number, it in enumerate(self.edits) if it not in first}
        self.paths = {it: copies[it].path if it in copies else it.function for it in self.edits}
        texts = self.sources.together(first)
        closed = self.sources.with_cycles({it.function for it in first} | self.sources.changed(texts))
        self.sources.write(room, plain if unedited else texts, closed, copies.values())
        lines = {str(it.relative_to(room)): it.read_text().split("\n") for it in (room / "src").rglob("*.rt")}
        places = {it.path: it._replace(first=above(lines[it.file], it.first)) for it in functions_of(room)}
        for path in self.paths.values() if self.is_brief else ():
            self.write_wrong(room / "proofs", places[path], lines[places[path].file])
        return places

    def write_wrong(self, proofs, place, lines):
        """Puts the wrong line into the proof of a function, or of the cycle of calls that it is of. Not where that is written by hand as a whole; nor where there
        is none, and a call of its own name may make it a cycle, whose proof would stand elsewhere."""
        *module, name = place.path.split("::")
        cycles = [proofs.joinpath(*module, "+" + it.rpartition("::")[2]) for it in sorted(self.sources.with_cycles({place.path}))]
        own = next((it for it in cycles if it.is_dir()), proofs.joinpath(*module, name))
        is_marked = any("#[cycle(" in it for it in lines[place.first : place.opened])
        may_recur = is_marked or any(re.search(rf"\b{name}\(", it) for it in lines[place.opened + 1 : place.closed])
        if not (own / "Proof.antt").is_file() and (own.is_dir() or not may_recur):
            own.mkdir(parents=True, exist_ok=True)
            with (own / "Answers.antt").open("a") as file:
                file.write(WRONG)

    def run(self, room):
        begun = time.time()
        ran = subprocess.run(self.crates.command(self.sources.name, sorted(self.paths.values())), cwd=room, stdin=subprocess.DEVNULL,
                             stdout=subprocess.PIPE, stderr=subprocess.STDOUT, encoding="utf-8", errors="replace")
        self.said, self.seconds = ran.stdout, time.time() - begun

    def goals_of(self, edit, place):
        cycle = set().union(*(it for it in self.sources.cycles if edit.function in it))
        return goals_left(self.paths[edit], cycle, self.said, place)

    def is_refused(self, edit):
        """Whether the edit's own goal is left open."""
        return edit.goal in (self.goals[edit] or ())

    def why(self):
        """The first thing that a check says where it doesn't come to an end, or says nothing of a function."""
        lines = [line for line in self.said.split("\n") if line.strip()]
        return next((line for line in lines if re.search(r"\berror:", line)), lines[-1] if lines else "it says nothing")[:300]


class Trial:
    """All edits of some crates: which are tried together, and what came of each."""

    def __init__(self, crates, unedited=False, verbose=False):
        self.crates, self.unedited, self.verbose = crates, unedited, verbose
        self.alone = threading.Lock()
        self.passed = self.failed = 0

    def say(self, well, text):
        with self.alone:
            print(text, flush=True)
            self.passed, self.failed = self.passed + (well is True), self.failed + (well is False)

    def batches(self, edits_of):
        """The edits that can be tried, as crates' sources and what is tried together of each: first those of the crates that stand highest, since their
        checks take longest."""
        found = []
        for name in sorted(edits_of, key=lambda it: -len(self.crates.below(it))):
            sources = Sources(name)
            fitting = [it for it in edits_of[name] if self.fits(sources, it)]
            found += [(sources, batch) for batch in batches(sources, fitting)]
        return found

    def try_all(self, sources, edits):
        """Tries these edits, first all together."""
        missing = self.crates.missing(sources.name)
        for edit in edits if missing else []:
            self.say(False, f"{edit.label}: NOT TRIED: there is no library of {', '.join(missing)} in {self.crates.tree}: run `rt ci` there first")
        left = [] if missing else [(edits, True)]
        while left:
            left += self.tried(sources, *left.pop(0))

    def run(self, batches, jobs):
        """Tries such batches, so many side by side."""
        with concurrent.futures.ThreadPoolExecutor(jobs) as pool:
            for it in [pool.submit(self.try_all, *batch) for batch in batches]:
                it.result()

    def fits(self, sources, edit):
        why = edit.lacks
        if not why and edit.function not in {it.path for it in sources.functions}:
            why = f"there is no function {edit.function} that can be tried"
        if not why:
            texts = edit.applied(sources.texts)
            if texts is None:
                why = "an 'old:' text doesn't stand in its file exactly once"
            elif edit.function not in sources.with_cycles(sources.changed(texts)):
                why = f"it doesn't change {edit.function}"
        if why:
            self.say(False, f"{edit.label}: BAD EDIT: {why}")
        return not why

    def tried(self, sources, edits, is_brief):
        """Tries some edits together, says what came of them, and returns what has to be tried again: after a brief check all that it doesn't show to be
        refused, or, where they are unedited, to have a goal left. After another, those that the check doesn't tell, each apart, and those that other goals
        alone refuse, without the rest, since of functions that call one another a check that stops at one tells less of the others."""
        check = Check(self.crates, sources, edits, self.unedited, is_brief)
        if self.verbose:
            self.say(None, check.said.rstrip())
        if is_brief:
            groups = [[it for it in edits if not (check.goals[it] if self.unedited else check.is_refused(it))]]
            if not check.ended:
                # (no check is to be lost by a copy)
                groups = [firsts(edits), [it for it in edits if it not in firsts(edits)]]
        else:
            untold = [it for it in edits if check.goals[it] is None and len(edits) > 1]
            others = [it for it in edits if check.goals[it] and it.goal not in [*check.goals[it], "?"] and len(edits) > 1 and not self.unedited]
            groups = [*([it] for it in untold), *([others] if 0 < len(others) < len(edits) else [[it] for it in others])]
        for edit in edits:
            if not any(edit in it for it in groups):
                self.judge(edit, check)
        self.say(None, f"{sources.name}: {check.seconds:.0f} seconds for {len(edits)} edit{'s' * (len(edits) > 1)}")
        return [(it, False) for it in groups if it]

    def judge(self, edit, check):
        """Says what came of an edit."""
        goals = check.goals[edit]
        if goals is None:
            self.say(False, f"{edit.label}: BAD EDIT: of {edit.function} the check says: {check.why()}")
        elif self.unedited:
            self.say(not goals, f"{edit.label}: {edit.function} unedited {'leaves ' + ', '.join(goals) if goals else 'is proved'}")
        elif not goals:
            self.say(False, f"{edit.label}: NOT REFUSED: {edit.function} is still proved")
        elif edit.goal not in goals:
            self.say(False, f"{edit.label}: refused by {', '.join(goals)}, and not by {edit.goal}")
        else:
            self.say(True, f"{edit.label}: refused by {edit.goal} of {edit.function}")


def batches(sources, edits):
    """The edits in groups that are tried together: of different functions or of copies of one, and of different lines. That one calls another is in nobody's
    way, since each is checked against what the others promise."""
    groups = []
    for edit in edits:
        for group in groups:
            if can_join(sources, group, edit):
                group.append(edit)
                break
        else:
            groups.append([edit])
    return groups


def can_join(sources, group, edit):
    if any(it.function == edit.function for it in group):
        return sources.copied(edit, 2, sources.texts) is not None
    others = firsts(group)
    own = sources.changed(edit.applied(sources.texts)) | {edit.function}
    return sources.together([*others, edit]) is not None and not any(own & (sources.changed(it.applied(sources.texts)) | {it.function}) for it in others)


def firsts(edits):
    """The first edit of each function, which changes it in its place."""
    return [*{it.function: it for it in reversed(edits)}.values()]


def edits_by_crate(names, words=("",), with_waiting=False):
    """The edits of these crates whose files' names have one of the words, by crate, and how many of them are left out since they don't name their goal
    yet: none where these are wanted too."""
    found, waiting = {}, 0
    for path in sorted(ROOT.glob("crates/*/must-fail/*.edit")):
        name, edit = path.parent.parent.name, Edit(path)
        if name in names and any(it in path.name for it in words):
            if edit.goal == "?" and not with_waiting:
                waiting += 1
            else:
                found.setdefault(name, []).append(edit)
    return found, waiting


def main():
    words = argparse.ArgumentParser(description="Tries the wrong bodies of crates/*/must-fail.")
    words.add_argument("crates", nargs="*", metavar="CRATE", help="the crates whose edits are tried; else all")
    words.add_argument("--edit", action="append", metavar="WORD", help="only the edits whose file's name has this word (repeatable)")
    words.add_argument("--over", type=pathlib.Path, default=ROOT, metavar="TREE", help="the tree in which `rt ci` has left the libraries; else this one")
    words.add_argument("--jobs", type=int, default=min(os.cpu_count() or 1, 4), metavar="N", help="how many checks go on side by side")
    words.add_argument("--unedited", action="store_true", help="try the same functions as they stand: each must be proved")
    words.add_argument("--verbose", action="store_true", help="print what each check says")
    words = words.parse_args()
    try:
        crates = Crates(words.over.resolve())
        unknown = [it for it in words.crates if it not in crates.uses]
        if unknown:
            raise Unusable(f"crates.txt has no crate {', '.join(unknown)}")
    except Unusable as why:
        print(f"edits: {why}\nedits: 0 passed, 1 failed")
        return 1
    edits_of, waiting = edits_by_crate(words.crates or crates.uses, words.edit or [""], bool(words.crates or words.edit))
    trial = Trial(crates, words.unedited, words.verbose)
    trial.run(trial.batches(edits_of), words.jobs)
    used = resource.getrusage(resource.RUSAGE_CHILDREN)
    if waiting:
        print(f"{waiting} edits were not tried: they don't name their goal yet")
    print(f"{(used.ru_utime + used.ru_stime) / 60:.1f} processor minutes")
    print(f"edits: {trial.passed} passed, {trial.failed} failed")
    return 1 if trial.failed else 0


if __name__ == "__main__":
    sys.exit(main())
