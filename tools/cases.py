#!/usr/bin/env python3
"""Counts the files that have to name a new case of the language, by kinds of cases: what stands in the way of one more.

    python3 tools/cases.py [KIND ..] [--files]

A new case is tried by those that it would be like (LIKES): a file that names each of them has to name it too; one that names some of them uses these. A name
counts in each of its spellings, and as a part of a longer one. Files that are made from others (MADE) and those that only use the language (USES) don't count;
beside the count stands how many files one of the likes has to itself, by their paths. `--files` lists the files."""

import argparse
import pathlib
import re
import subprocess
import sys
from typing import Dict, Iterable, Iterator, List, Tuple

ROOT = pathlib.Path(__file__).resolve().parent.parent
# Of each kind the cases that a new one is like, each with names that aren't spellings of its own.
LIKES: Dict[str, Dict[str, Tuple[str, ...]]] = {
    "tactic": dict.fromkeys(("CONJ_TAC", "EQ_TAC", "DISJ1_TAC", "DISJ2_TAC", "AP_TERM_TAC", "AP_THM_TAC", "MK_COMB_TAC"), ()),
    "tactical": dict.fromkeys(("DISCH_THEN", "POP_ASSUM", "FIRST_ASSUM", "SUBGOAL_THEN"), ()),
    "command": {
        "NEW_TYPE": ("Making::Type",), "NEW_CONSTANT": ("Making::Constant",), "NEW_AXIOM": ("Making::Axiom",), "NEW_DEFINITION": ("Making::Definition",),
        "NEW_BASIC_TYPE_DEFINITION": ("Making::BasicTypeDefinition", "NewTypeDefinition"),
    },
    "argument": {"PAIR": ("a pair of terms",), "THEOREMS": ("a list of theorems",)},
    "refusal": {name: (name.replace("_", " ").lower(),) for name in ("NOT_CLOSED", "BAD_RULE", "GOALS_REMAIN", "NOTHING_TO_UNDO", "IMPORT_CLASH")},
}
# A kind's cases that are written without the underscores of a spelling: words too general to be sought in small letters.
CAMEL_ALONE = ("argument",)
MADE = ("clients/neovim/syntax/hol.vim", "clients/vscode/syntaxes/hol.tmLanguage.json")
USES = re.compile(
    r"(theories|examples|bench|page|docs/FROM_HOL_LIGHT|tests/sessions|tests/model/(alike|random_)|clients/tests|clients/holls/exchange/(derivations|likes|recording)|"
    r"clients/holls/packages/(?!scope)|crates/\w+/must-fail|crates/hol_(logic|library)_tests|tools/cases)"
)
PARTS = ("specs", "src", "proofs")


def spellings(kind: str, name: str, others: Iterable[str]) -> "re.Pattern[str]":
    """What finds a case by its name in capitals, in small letters and as one word."""
    camel = "".join(word.capitalize() for word in name.split("_"))
    written = () if kind in CAMEL_ALONE else (name, name.lower())
    plain = "|".join(map(re.escape, (*written, *others)))
    return re.compile("%s(?<![a-z0-9])%s(?![a-z])" % ("(?<![A-Za-z0-9])(?:%s)(?![A-Za-z0-9])|" % plain if plain else "", camel))


def place(path: str) -> str:
    """Where a file stands: a part of the crates, or a folder of the repository."""
    parts = path.split("/")
    return "crates' " + parts[2] if parts[0] == "crates" and parts[2] in PARTS else parts[0]


def texts() -> Iterator[Tuple[str, str]]:
    """The files that could have to name a case."""
    listed = subprocess.run(["git", "ls-files"], cwd=str(ROOT), stdout=subprocess.PIPE, check=True, universal_newlines=True).stdout.splitlines()
    for path in listed:
        if not USES.match(path) and path not in MADE and pathlib.Path(path).suffix in (".rt", ".antt", ".py", ".js", ".vim", ".lua", ".json", ".md", ".txt", ".ml"):
            yield path, (ROOT / path).read_text(encoding="utf-8", errors="replace")


def naming(kind: str, files: List[Tuple[str, str]]) -> List[str]:
    """The files that name each of a kind's likes."""
    sought = [spellings(kind, name, others) for name, others in LIKES[kind].items()]
    return [path for path, text in files if all(one.search(text) for one in sought)]


def own(kind: str, files: List[Tuple[str, str]]) -> int:
    """How many files one of the likes has to itself, at the most."""
    return max(sum("/%s/" % name.lower() in path or "/%s." % name.lower() in path for path, _ in files) for name in LIKES[kind])


def main() -> int:
    words = argparse.ArgumentParser(description=__doc__.split("\n")[0])
    words.add_argument("kinds", nargs="*", metavar="KIND", help="one of " + ", ".join(LIKES))
    words.add_argument("--files", action="store_true", help="list the files")
    given = words.parse_args()
    unknown = set(given.kinds) - set(LIKES)
    if unknown:
        words.error("no kind is %s: there are %s" % (", ".join(sorted(unknown)), ", ".join(LIKES)))
    files, counts = list(texts()), []
    for kind in given.kinds or LIKES:
        found = naming(kind, files)
        if not found:
            sys.exit("cases: no file names each of %s: are they called otherwise now?" % ", ".join(LIKES[kind]))
        by_place: Dict[str, List[str]] = {}
        for path in found:
            by_place.setdefault(place(path), []).append(path)
        counts.append("%s %d" % (kind, len(found)))
        print("%s: %s; %d of its own" % (kind, ", ".join("%s %d" % (where, len(paths)) for where, paths in sorted(by_place.items())), own(kind, files)))
        print("".join("    %s\n" % path for paths in by_place.values() for path in paths) if given.files else "", end="")
    print("cases: " + ", ".join(counts))
    return 0


if __name__ == "__main__":
    sys.exit(main())
