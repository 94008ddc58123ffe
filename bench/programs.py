#!/usr/bin/env python3
"""Builds the programs of bench/programs, which time calls of the crates. They are no part of the gate, which proves and tests what people use.

    python3 bench/programs.py --check       whether they compile, as `rt try` reads them: some two minutes, and no proof
    python3 bench/programs.py --prove OUT   proves them and what they stand on, and leaves each at OUT/NAME, for kernel.py and its like

Both work in a copy of the tree as git lists it, in a temporary folder, in which the programs stand beside the crates. Their sources end with .txt here, and
their list is programs.txt, since `rt ci` refuses a tree with sources that none of its checks reads or with a second crates.txt; the copy has them without it.
Status 0 where all went well.
Needs Python 3.8 and `rt` on the PATH."""

import argparse
import pathlib
import shutil
import subprocess
import sys
import tempfile
from typing import List

ROOT = pathlib.Path(__file__).resolve().parent.parent
PROGRAMS = ROOT / "bench" / "programs"


def names() -> List[str]:
    """The programs, as programs.txt of their folder lists them."""
    lines = (PROGRAMS / "programs.txt").read_text().splitlines()
    return [line.partition(":")[0].strip() for line in lines if line.strip() and not line.startswith("#")]


def assemble(room: pathlib.Path) -> None:
    """Copies the crates into the folder, without their wrong bodies, and the programs beside them."""
    listed = subprocess.run(["git", "ls-files", "-z", "crates", "crates.txt", "HANDLES"], cwd=ROOT, check=True, stdout=subprocess.PIPE).stdout
    for name in listed.decode().split("\0"):
        path = pathlib.Path(name)
        if name and "must-fail" not in path.parts and (ROOT / path).is_file():
            (room / path).parent.mkdir(parents=True, exist_ok=True)
            shutil.copy(ROOT / path, room / path)
    for name in names():
        copied = room / "crates" / name
        shutil.copytree(PROGRAMS / name, copied, ignore=shutil.ignore_patterns("out"))
        for path in [*copied.rglob("*.rt.txt"), *copied.rglob("*.antt.txt")]:
            path.rename(path.with_suffix(""))
    with (room / "crates.txt").open("a") as file:
        file.write((PROGRAMS / "programs.txt").read_text())


def run(room: pathlib.Path, name: str, command: str) -> bool:
    """Whether `rt` with the command, on the program's own words, ends well."""
    folder = room / "crates" / name
    words = (folder / "args").read_text().split()
    return subprocess.run(["rt", command, "--", *words], cwd=folder).returncode == 0


def main() -> int:
    parser = argparse.ArgumentParser(description="Builds the programs of bench/programs.")
    way = parser.add_mutually_exclusive_group(required=True)
    way.add_argument("--check", action="store_true", help="whether they compile, without a proof")
    way.add_argument("--prove", metavar="OUT", type=pathlib.Path, help="prove and build them, and leave them in this folder")
    given = parser.parse_args()
    with tempfile.TemporaryDirectory(prefix="hol-bench-") as folder:
        room = pathlib.Path(folder)
        assemble(room)
        for name in names():
            if not run(room, name, "try" if given.check else "run"):
                print("%s: not built" % name)
                return 1
            if given.prove:
                given.prove.mkdir(parents=True, exist_ok=True)
                shutil.copy(room / "crates" / name / "out" / name, given.prove / name)
            print("%s: %s" % (name, "compiles" if given.check else "stands at %s" % (given.prove / name)))
    return 0


if __name__ == "__main__":
    sys.exit(main())
