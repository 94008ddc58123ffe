#!/usr/bin/env python3
"""The index of the library's theorems: by file, and in each by the comments that stand above its parts.

    python3 theories/index.py    writes it to out/THEORIES.md; status 1 where a file gives none

A part begins with a comment that has a line of its own before and behind it; its first sentence is the part's title. What a file gives and needs is
the comment at its head. Before its parts stand the theorems that proofs of the library cite most, MOST at most."""

import argparse
import collections
import pathlib
import re
import sys
import textwrap

HERE = pathlib.Path(__file__).resolve().parent
sys.path.insert(0, str(HERE.parent / "clients"))
from holls import check, names  # noqa: E402 (clients/holls)
from holls.text import cut  # noqa: E402 (clients/holls)

PAGE = HERE.parent / "out" / "THEORIES.md"
WIDTH = 160
MOST = 20
DEFINING = {"new_definition": 1, "new_basic_type_definition": 2}
"""Commands beside g that make theorems, and how many."""


class Theory:
    """A file: what its head says, the theories it imports, its parts as (title, names of theorems), and how many commands and definitions it has."""

    def __init__(self, path, file):
        self.name = path.stem
        text = path.read_text(encoding="utf-8")
        found = cut(text)
        self.commands = len(found.commands)
        self.definitions = sum(DEFINING.get(command.word, 0) for command in found.commands)
        self.imports = [command.name for command in found.commands if command.word == "import"]
        proved = [(command.start, command.name) for command in found.commands if command.word == "g"]
        self.theorems = sorted(proved + packaged(file), key=lambda one: one[0])
        comments = [(start, words(text[start:end])) for start, end in found.comments]
        self.head = comments[0][1] if comments and comments[0][0] == 0 else ""
        titles = [(start, sentence(said)) for (start, end), (_, said) in zip(found.comments, comments) if is_title(text, start, end)]
        self.parts = [(title, [name for at, name in self.theorems if start <= at < end]) for start, end, title in spans(titles, len(text))]
        self.cited = collections.Counter(name for command in found.commands if command.word == "e" for name in cited(command.text))

    def lines(self, uses):
        """Its part of the index, where `uses` says how often each theorem is cited."""
        gives = sentence(re.sub(r" Needs .*", "", self.head))
        needs = f" Imports {', '.join(f'[{name}](../theories/{name}.hol)' for name in self.imports)}." if self.imports else ""
        counts = f"{len(self.theorems)} theorems, {self.definitions} more by definitions, {self.commands} commands."
        yield f"### {self.name}"
        yield ""
        yield from textwrap.wrap(f"{gives}. {counts}{needs}", WIDTH, break_long_words=False, break_on_hyphens=False)
        yield ""
        own = [name for _, name in self.theorems if uses[name]]
        most = sorted(own, key=lambda name: -uses[name])[:MOST]
        for title, made in [("Cited most", most)] + self.parts:
            if made:
                said = f"- *{title}:* " if title else "- "
                yield from textwrap.wrap(said + ", ".join(made), WIDTH, subsequent_indent="  ", break_long_words=False, break_on_hyphens=False)
        yield ""


def packaged(file):
    """The theorems that a file's packages make, with their places."""
    made = [(file.commands[one.number].package, one.name) for one in names.written(file) if one.kind == names.THEOREM]
    return [(package.start, name) for package, name in made if package is not None]


def cited(text):
    """The names in a step's text, outside its quotations."""
    return re.findall(r"[A-Za-z_][A-Za-z0-9_']*", re.sub(r"`[^`]*`", " ", text))


def words(comment):
    """A comment's text in one line."""
    return " ".join(comment[2:-2].split())


def sentence(said):
    """The first sentence, without its point."""
    return re.split(r"[.:;] (?=[A-Z`])|\.$", said, maxsplit=1)[0].replace("*", r"\*")


def is_title(text, start, end):
    """Whether a line without anything stands before the comment and behind it."""
    return text[:start].endswith("\n\n") and text[end:].startswith("\n\n")


def spans(titles, length):
    """The parts from each title to the next, after what stands before the first one."""
    starts = [(0, "")] + titles
    return [(start, end, title) for (start, title), end in zip(starts, [at for at, _ in titles] + [length])]


def in_order(theories):
    """Each after those that it imports."""
    left, done = sorted(theories, key=lambda theory: theory.name), []
    while left:
        named = {theory.name for theory in left}
        first = next((theory for theory in left if not named & set(theory.imports)), left[0])
        left.remove(first)
        done.append(first)
    return done


def faults(theory):
    """What a reader of the index would miss: a file that doesn't say what it gives, theorems of no part."""
    if not theory.head:
        yield f"{theory.name}.hol doesn't begin with a comment that says what it gives"
    if sum(len(own) for _, own in theory.parts) != len(theory.theorems):
        yield f"{theory.name}.hol has theorems that stand in no part"


def index(theories):
    count = sum(len(theory.theorems) for theory in theories)
    commands = sum(theory.commands for theory in theories)
    uses = sum((theory.cited for theory in theories), collections.Counter())
    lines = ["# The library's theorems", "", f"{count} theorems are proved in {len(theories)} files of {commands:,} commands.", ""]
    for theory in theories:
        lines += theory.lines(uses)
    return "\n".join(lines)


def main():
    argparse.ArgumentParser(description=__doc__.split("\n")[0]).parse_args()
    files = {file.name: file for own in check.ordered([str(HERE)]).values() for file in own}
    theories = in_order([Theory(path, files[path.stem]) for path in HERE.glob("*.hol")])
    wrong = [fault for theory in theories for fault in faults(theory)]
    for fault in wrong:
        print(fault)
    PAGE.parent.mkdir(exist_ok=True)
    PAGE.write_text(index(theories), encoding="utf-8")
    print(f"the index of {len(theories)} theories is out/{PAGE.name}; {len(wrong)} faults")
    return 1 if wrong else 0


if __name__ == "__main__":
    sys.exit(main())
