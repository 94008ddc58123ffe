#!/usr/bin/env python3
"""Weakens definitions that a reader has to believe, each edit of tests/weaker by itself, and shows that a law isn't proved any more.

    python3 tests/weaker.py [--edit WORD] [--over TREE] [--jobs N] [--together N] [--unedited] [--verbose]

An edit is a file of lines 'file: PATH', 'old: TEXT' and 'new: TEXT' as those of crates/*/must-fail, PATH being a file of definitions from the top of this
repository, and one line more:

    refused: CRATE LAW LEMMA ..

LAW is a function of CRATE, by its path in it, whose proof has to be lost, and the LEMMAs are those of CRATE that have to be refused, and no others: there the
proof uses what the edit took away. Where no lemma of CRATE is, they are the lemmas of the crates below that are. 'expected: TEXT' besides gives words of what
the checker misses there. A lemma that is refused since its form is gone (a name or an argument that the edit took away) shows nothing, so an edit keeps the form
of a definition, and weakens what it says.

How an edit is tried: in a crate above CRATE, with files under names of the edit's own. These have, of the files of definitions and lemmas that the law needs, the
pieces that the law's proof speaks of and that speak of what is edited, in turn, as tools/pieces.py tells; and there is the law with its proof, over them. All else is
taken from the libraries that `rt ci` has left in TREE. Several edits are tried in one crate, each with files of its own, since a check takes seconds before its
first lemma. Lemmas of the crates below may be refused too: then CRATE's are checked against what these state. `--unedited` takes the same pieces as they stand:
then each law has to be proved.

Needs `rt` on the PATH, as wrong_bodies.py. Status 0 where each edit was refused by its lemmas."""

import argparse
import collections
import concurrent.futures
import dataclasses
import os
import pathlib
import re
import resource
import subprocess
import sys
import tempfile
import threading
import time

import wrong_bodies

ROOT = wrong_bodies.ROOT
sys.path.append(str(ROOT / "tools"))
from pieces import SEARCHES, USE, File, Pieces, Place, Use, is_named, words_of  # noqa: E402 (tools/pieces.py)

EDITS = ROOT / "tests" / "weaker"
PARTS = ("specs", "proofs")
# The name of the crate of copies.
CRATE = "weaker"
SHARED = re.compile(r"(?m)^pub use (Rattle\.\w+\.(?:specs|proofs)\.\w+)$")
# What a check says of a declaration that it refuses: its file, its name, and why.
REFUSED = re.compile(r"(?m)^(?:\./)?((?:specs|proofs)/\S+\.antt):\d+:\d+: error: `([^`]+)`(.*(?:\n  \S.*)*)$")
# What it says of one that stands in one group with another that it refuses.
NOT_TRIED = "is not admitted"
# A name as a check prints it where it doesn't stand by itself.
LONG_NAME = re.compile(r"\bRattle(?:\.\w+)+\.(?=\w)")
# A refusal by these words shows that the edit took a name or an argument away, and no more.
FORM = re.compile(r"is not in scope|is no name|has no field|takes \d+ argument|too many|too few|unknown")


# ----------------------------------------------------------------------------------------------------------------------- files and names


# A module of a crate: the crate, specs or proofs, and its file's path there without the suffix.
Module = collections.namedtuple("Module", "crate part path")


def file_of(module):
    return ROOT / "crates" / module.crate / module.part / (module.path + ".antt")


class Modules:
    """The modules of definitions and lemmas of the repository's crates, and what each names."""

    def __init__(self):
        self.texts, self.homes = {}, {}

    def shared(self, crate, part):
        """The modules that a crate hands on under its own name."""
        if (crate, part) not in self.homes:
            lib = ROOT / "crates" / crate / part / "Lib.antt"
            found = SHARED.findall(lib.read_text()) if lib.is_file() else []
            self.homes[crate, part] = {it.split(".")[-1]: self.found(*it.split(".")[1:3], it.split(".")[3:]) for it in found}
        return self.homes[crate, part]

    def found(self, crate, part, words):
        """The module that a path begins with, or None where no file of this repository is it."""
        for length in range(len(words), 0, -1):
            module = Module(crate, part, "/".join(words[:length]))
            if file_of(module).is_file():
                return module
        return self.shared(crate, part).get(words[0]) if (ROOT / "crates" / crate).is_dir() else None

    def text(self, module):
        if module not in self.texts:
            self.texts[module] = file_of(module).read_text()
        return self.texts[module]


# --------------------------------------------------------------------------------------------------------------------------------- edits


@dataclasses.dataclass
class Edit:
    """A weaker definition, and what has to refuse it."""

    label: str
    changes: list
    crate: str = ""
    law: str = ""
    lemmas: tuple = ()
    expected: str = ""

    @property
    def lacks(self):
        return "" if self.changes and self.lemmas else "it lacks a line 'file:', 'old:', 'new:' or 'refused: CRATE LAW LEMMA ..'"


def edit_of(path):
    edit, file, old = Edit(path.name, []), "", ""
    for line in path.read_text().split("\n"):
        word, _, rest = line.partition(": ")
        if word == "file":
            file = rest.strip()
        elif word == "old":
            old = rest
        elif word == "new":
            edit.changes.append((file, old, rest))
        elif word == "refused":
            edit.crate, edit.law, *edit.lemmas = rest.split() + [""] * (2 - len(rest.split()))
        elif word == "expected":
            edit.expected = rest.strip()
    return edit


# -------------------------------------------------------------------------------------------------------------------------------- copies


def law_alone(code, function):
    """A file of laws with this one alone."""
    parts = code.split("\n\n")
    own = re.compile(rf"\bfn {function}\b")
    return "\n\n".join(part for part in parts if own.search(part) or not re.search(r"(?m)^pub fn ", part))


def differ(old, new):
    return old is None or new is None or old.lines != new.lines


class Cut:
    """Of the modules that a law needs the pieces that it speaks of and that speak of what an edit changes."""

    def __init__(self, pieces, edited, roots, unedited):
        self.pieces, self.edited = pieces, {module: old if unedited else new for module, (old, new) in edited.items()}
        changed = {Place(module, key) for module, (old, new) in edited.items() for key in {*old.pieces, *new.pieces} if differ(old.pieces.get(key), new.pieces.get(key))}
        self.own = {Place(module, key): pieces.edges_of(Place(module, key), file) for module, file in self.edited.items() for key in file.pieces}
        self.behind = pieces.behind(frozenset({pieces.found(use) for file, _ in roots for _, use in file.uses() if use} - {None}))
        self.affected = self.speaking_of(changed)
        self.kept = self.needed(roots)
        # (what another file can't take from where it stands is taken along, and so is what speaks of that)
        while not self.kept <= self.affected:
            self.affected = self.speaking_of(self.affected | self.kept)
            self.kept = self.needed(roots)
        self.modules = {it.module for it in self.kept}

    def edges(self, place):
        return self.own.get(place, {}) if place.module in self.edited else self.pieces.of(place.module)[place.key]

    def file(self, module):
        return self.edited.get(module) or self.pieces.file(module)

    def speaking_of(self, changed):
        """What is changed, and all that speaks of it, and so on."""
        found, left = set(changed), list(changed)
        while left:
            to = left.pop()
            more = self.behind.get(to, set()) | {place for place, edges in self.own.items() if to in edges}
            left += more - found
            found |= more
        return found

    def needed(self, roots):
        """What the law speaks of, and so on, as far as that speaks of what is changed, or can't be taken from where it stands."""
        found = {place for file, words in roots for place, _ in self.pieces.spoken_of(words, file)} & self.affected
        left = list(found)
        while left:
            place = left.pop()
            for to, names in self.edges(place).items():
                is_hidden = to.module == place.module and not names <= self.file(to.module).pieces[to.key].public
                if to not in found and (to in self.affected or is_hidden):
                    found.add(to)
                    left.append(to)
        return found

    def has(self, module, name):
        return any(Place(module, key) in self.kept for key in self.file(module).keys_of(name))

    def text(self, module, taken):
        """The pieces of a module that are kept, with what they take from elsewhere, which `taken` says for each line."""
        file = self.file(module)
        kept = {key: piece for key, piece in file.pieces.items() if Place(module, key) in self.kept}
        words = set().union(*(piece.words for piece in kept.values()))
        own = {name for key in kept for to, names in self.edges(Place(module, key)).items() if to.module == module and to.key not in kept for name in names}
        lines = [it for line, _ in file.uses() for it in taken(line, words)]
        lines += [f"use Rattle.{module.crate}.{module.part}.{module.path.replace('/', '.')}.{{{', '.join(sorted(own))}}}"] * bool(own)
        return "\n".join([*lines, "", *(line for piece in kept.values() for line in piece.lines)]) + "\n"


class Copy:
    """An edit's law with its proof, and of the files of definitions and lemmas the pieces that these speak of and that speak of what is edited, under the edit's own names."""

    def __init__(self, pieces, edit, tag):
        self.pieces, self.edit, self.tag = pieces, edit, tag
        self.module, _, self.function = edit.law.rpartition("::")
        crate = ROOT / "crates" / edit.crate
        self.code = law_alone((crate / "src" / (self.module + ".rt")).read_text(), self.function)
        self.proofs = {it.relative_to(crate / "proofs" / self.module): it.read_text() for it in sorted((crate / "proofs" / self.module / self.function).rglob("*.antt"))}

    @property
    def law(self):
        return f"{self.tag}_{self.module}::{self.function}"

    def write(self, folder, unedited):
        """Adds the files to a crate."""
        texts = self.changed()
        self.edited = set(texts)
        roots = [(File(text), words_of(text)) for text in [self.code, *self.proofs.values()]]
        self.cut = Cut(self.pieces, {it: (File(old), File(new)) for it, (old, new) in texts.items()}, roots, unedited)
        self.places = {f"{self.tag}_{it.crate}_{it.part}_{it.path.replace('/', '_')}": it for it in sorted(self.cut.modules)}
        self.names = {it: name for name, it in self.places.items()}
        for name, it in self.places.items():
            self.put(folder / it.part / f"{name}.antt", self.cut.text(it, self.taken))
            with open(folder / it.part / "Lib.antt", "a") as lib:
                lib.write(f"pub mod {name}\n")
        self.put(folder / "src" / f"{self.tag}_{self.module}.rt", self.renamed(self.code))
        for path, text in self.proofs.items():
            self.put(folder / "proofs" / f"{self.tag}_{self.module}" / path, self.renamed(text))

    def put(self, file, text):
        file.parent.mkdir(parents=True, exist_ok=True)
        own = f"Rattle.{self.edit.crate}.proofs.{self.module}.{self.function}."
        file.write_text(text.replace(own, f"Rattle.{CRATE}.proofs.{self.tag}_{self.module}.{self.function}."))

    def changed(self):
        """The texts of the files that the edit changes, as they stand and with it."""
        texts = {}
        for file, old, new in self.edit.changes:
            _, crate, part, path = file.split("/", 3)
            module = Module(crate, part, path[: -len(".antt")])
            was, text = texts.get(module) or (self.pieces.modules.text(module),) * 2
            if text.count(old) != 1:
                raise wrong_bodies.Unusable(f"an 'old:' text doesn't stand in {file} exactly once")
            texts[module] = was, text.replace(old, new)
        return texts

    def taken(self, line, words):
        """The lines by which a text with these words takes what such a line of it takes: what was taken into the copy, from there."""
        use = Use.of(line)
        module = self.pieces.found(use) if use else None
        if module is None:
            return [line]
        if use.names is None:
            return [line.replace(use.path, self.place(module)) if module in self.names else line]
        used = [pair for pair in use.names if is_named(pair[1], words) or words & SEARCHES]
        inside = [(self.pieces.home(module, name), other) for name, other in used]
        inside = [(home, name, other) for (home, name), other in inside if self.cut.has(home, name)]
        outside = [pair for pair in used if pair[1] not in {other for *_, other in inside}]
        return [use.line(self.place(home), [(name, other)]) for home, name, other in inside] + [use.line(use.path, outside)] * bool(outside)

    def place(self, module):
        return f"Rattle.{CRATE}.{module.part}.{self.names.get(module)}"

    def renamed(self, text):
        """A text of the law with what it takes from the new places."""
        words = words_of("\n".join(line for line in text.split("\n") if not USE.match(line)))
        return "\n".join(it for line in text.split("\n") for it in self.taken(line, words))

    def refused(self, line, said):
        """The lemmas of the edit's files that a check refuses, of the crate and of the crates below: those that the law's line names, else those that are refused."""
        named = [it.split(".") for it in re.findall(rf"`Rattle\.{CRATE}\.(?:specs|proofs)\.([^`]+)`", line)]
        found = [(words[0], words[-1]) for words in named if words[0] in self.places]
        found = found or [(pathlib.Path(file).stem, name.split(".")[-1]) for file, name, why in REFUSED.findall(said) if NOT_TRIED not in why]
        own = {name for place, name in found if place in self.places and self.places[place].crate == self.edit.crate}
        below = {name for place, name in found if place in self.places and self.places[place].crate != self.edit.crate}
        return sorted(own), sorted(below)


def write_crate(folder, copies, unedited):
    """A crate of the copies alone, above that of their laws."""
    for part in PARTS:
        (folder / part).mkdir()
        (folder / part / "Lib.antt").touch()
    (folder / "src").mkdir()
    for copy in copies:
        copy.write(folder, unedited)
    (folder / "src" / "lib.rt").write_text("#![tactic(auto)]\n" + "".join(f"mod {it.tag}_{it.module};\n" for it in copies))


# --------------------------------------------------------------------------------------------------------------------------------- tries


class Trial:
    """What came of the edits."""

    def __init__(self, crates, unedited, verbose):
        self.crates, self.pieces, self.unedited, self.verbose = crates, Pieces(Modules()), unedited, verbose
        self.alone, self.copying = threading.Lock(), threading.Lock()
        self.passed = self.failed = 0

    def say(self, well, text):
        with self.alone:
            print(text, flush=True)
            self.passed, self.failed = self.passed + (well is True), self.failed + (well is False)

    def usable(self, edit, tag):
        """The copy for an edit, or None where it can't be tried, which is told."""
        try:
            if edit.lacks:
                raise wrong_bodies.Unusable(edit.lacks)
            Copy(self.pieces, edit, tag).changed()
            return Copy(self.pieces, edit, tag)
        except (wrong_bodies.Unusable, OSError) as why:
            self.say(False, f"{edit.label}: BAD EDIT: {why}")
            return None

    def try_edits(self, edits):
        """Tries edits in one check."""
        missing = self.crates.missing(CRATE)
        copies = [] if missing else [it for it in (self.usable(edit, f"e{number}") for number, edit in enumerate(edits)) if it]
        for edit in edits if missing else []:
            self.say(False, f"{edit.label}: NOT TRIED: there is no library of {', '.join(missing)}")
        if not copies:
            return
        begun = time.time()
        with tempfile.TemporaryDirectory(prefix="rt-weaker-") as room:
            with self.copying:
                write_crate(pathlib.Path(room), copies, self.unedited)
            ran = subprocess.run(self.crates.command(CRATE, [it.law for it in copies]), cwd=room, stdin=subprocess.DEVNULL, stdout=subprocess.PIPE,
                                 stderr=subprocess.STDOUT, encoding="utf-8", errors="replace")
        if self.verbose:
            self.say(None, ran.stdout.rstrip())
        for copy in copies:
            well, told = self.judged(copy, ran.stdout)
            self.say(well, f"{copy.edit.label}: {told}")
        self.say(None, f"({len(copies)} in {time.time() - begun:.0f} seconds)")

    def judged(self, copy, said):
        """Whether an edit came out as it has to, and what is to be said."""
        edit = copy.edit
        line = re.search(rf"(?m)^fn \w+::{re.escape(copy.law)}: (.*)$", said)
        if line is None:
            why = next((it for it in said.split("\n") if "error" in it), "nothing")
            return False, f"BAD EDIT: of {edit.law} the check says: {why[:300]}"
        is_proved = line[1].startswith(("no holes", "proved"))
        if self.unedited:
            return is_proved, f"{edit.law} unedited " + ("is proved" if is_proved else f"is lost: {line[1][:300]}")
        if is_proved:
            return False, f"NOT REFUSED: {edit.law} is still proved"
        unread = [why for file, _, why in REFUSED.findall(said) if copy.places.get(pathlib.Path(file).stem) in copy.edited]
        if unread:
            return False, f"BAD EDIT: a definition that it changes isn't one: {unread[0][:300]}"
        own, below = copy.refused(line[1], said)
        if (own or below) != sorted(edit.lemmas):
            return False, f"{edit.law} is refused by {', '.join(own or below) or 'no lemma'}, and not by {', '.join(edit.lemmas)}"
        whys = [why for file, name, why in REFUSED.findall(said) if pathlib.Path(file).stem in copy.places and name.split(".")[-1] in edit.lemmas]
        if any(FORM.search(why) for why in whys) or not any(edit.expected in LONG_NAME.sub("", why) for why in whys):
            return False, f"refused by {', '.join(own or below)}, but for another reason: {' '.join(whys)[:300]}"
        return True, f"{edit.law} is refused by {', '.join(own or below)}" + (f", and in the crates below by {', '.join(below)}" if own and below else "")


def groups_of(edits, size):
    """The edits by at most so many; those of one law together, since they share the most."""
    rows = sorted(edits, key=lambda it: (it.crate, it.law, it.label))
    return [rows[at : at + size] for at in range(0, len(rows), size)]


def main():
    words = argparse.ArgumentParser(description="Weakens the definitions of tests/weaker, one at a time.")
    words.add_argument("--edit", action="append", metavar="WORD", help="only the edits whose file's name has this word (repeatable)")
    words.add_argument("--over", type=pathlib.Path, default=ROOT, metavar="TREE", help="the tree in which `rt ci` has left the libraries; else this one")
    words.add_argument("--jobs", type=int, default=min(os.cpu_count() or 1, 4), metavar="N", help="how many checks go on side by side")
    words.add_argument("--together", type=int, default=41, metavar="N", help="how many edits are tried in one check")
    words.add_argument("--unedited", action="store_true", help="take the same files into the copies as they stand: each law must be proved")
    words.add_argument("--verbose", action="store_true", help="print what each check says")
    words = words.parse_args()
    edits = [edit_of(it) for it in sorted(EDITS.glob("*.edit")) if any(word in it.name for word in words.edit or [""])]
    try:
        crates = wrong_bodies.Crates(words.over.resolve())
        laws = dict.fromkeys(it.crate for it in edits if it.crate in crates.uses)
        crates.uses[CRATE] = [*laws, *(use for law in laws for use in crates.uses[law] if use not in laws)]
        trial = Trial(crates, words.unedited, words.verbose)
    except wrong_bodies.Unusable as why:
        print(f"weaker: {why}\nweaker: 0 passed, 1 failed")
        return 1
    with concurrent.futures.ThreadPoolExecutor(words.jobs) as pool:
        for it in [pool.submit(trial.try_edits, row) for row in groups_of(edits, max(words.together, 1))]:
            it.result()
    used = resource.getrusage(resource.RUSAGE_CHILDREN)
    print(f"{(used.ru_utime + used.ru_stime) / 60:.1f} processor minutes")
    print(f"weaker: {trial.passed} passed, {trial.failed} failed")
    return 1 if trial.failed or not edits else 0


if __name__ == "__main__":
    sys.exit(main())
