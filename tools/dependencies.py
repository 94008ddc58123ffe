#!/usr/bin/env python3
"""Each library that the files of a crate name, sources, definitions, proofs and wrong bodies, is one that crates.txt lists for it. `rt ci` says so too, but only
when all crates below are proved."""

import pathlib
import re
import sys

ROOT = pathlib.Path(__file__).resolve().parent.parent
NAMED = re.compile(r"\bRattle\.(\w+)\.")
KINDS = (".rt", ".antt", ".edit")
# What each crate has without a line.
EVERYWHERE = {"std", "core"}


def listed():
    """For each crate the libraries that it may name."""
    lines = (line.partition("#")[0].partition(":") for line in (ROOT / "crates.txt").read_text(encoding="utf-8").splitlines())
    return {name.split()[0]: {name.split()[0], *words.split()} | EVERYWHERE for name, colon, words in lines if colon}


def faults(name, libraries):
    """Each line of a crate that names another library."""
    for file in sorted(it for it in (ROOT / "crates" / name).rglob("*") if it.suffix in KINDS):
        for number, line in enumerate(file.read_text(encoding="utf-8").splitlines(), 1):
            for other in sorted({*NAMED.findall(line)} - libraries):
                yield f"{file.relative_to(ROOT)}:{number}: {other} isn't listed for {name} in crates.txt"


def main():
    crates, passed = listed(), 0
    found = {name: [*faults(name, libraries)] for name, libraries in crates.items()}
    for lines in found.values():
        passed += not lines
        for line in lines:
            print("FAILED", line)
    print(f"dependencies: {passed} passed, {len(found) - passed} failed")
    return 1 if passed < len(found) or not found else 0


if __name__ == "__main__":
    sys.exit(main())
