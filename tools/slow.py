#!/usr/bin/env python3
"""Prints where the time of one crate's check went, by function: from the times at which the check kept its files.

    rt check --jobs 1                            in the crate's folder, from nothing (delete out/ first)
    python3 tools/slow.py CRATE [--most N]       or the path of a folder of kept files in place of the crate's name

A check of one process keeps a file of each module as it ends with it, so the time since the file before is what the module took. The modules of a function are its code, the list of
its states (Lts), what each step has (Given, Reads), and its proof. With two jobs the times of two processes run together, and the figures say nothing.
"""
import argparse
import collections
import pathlib
import re

FILE = re.compile(r"Rattle-\w+?-(specs|proofs)\.?(.*)\.oantt")
PART = re.compile(r"(Answers|Calls|Carried|Code|CodeOrder|Ends|Given|Goals|Invariants|Kinds|Lts|Met|Named|Proof|Reads|Statement|Symbol|TheLinks?|Tie)\b")


def kept(folder):
    """The kept files of the crate's own modules, as (time, library, module), earliest first."""
    files = []
    for file in folder.glob("**/*.oantt"):
        found = FILE.fullmatch(file.name)
        if found and "records" not in file.parts:
            files.append((file.stat().st_mtime, *found.groups()))
    return sorted(files)


def split(library, module):
    """The function (or file of lemmas) that a module is of, and which part of it."""
    if library == "specs":
        return "definitions and contracts", "specs"
    names = module.split(".")
    for at, name in enumerate(names):
        part = PART.match(name)
        if part and at:
            return ".".join(names[:at]), part.group()
    return module, "lemmas"


def main():
    parser = argparse.ArgumentParser(description=__doc__, formatter_class=argparse.RawDescriptionHelpFormatter)
    parser.add_argument("crate", metavar="CRATE")
    parser.add_argument("--most", type=int, default=25, metavar="N")
    given = parser.parse_args()
    folder = pathlib.Path(given.crate)
    if not folder.is_dir():
        folder = pathlib.Path(__file__).resolve().parent.parent / "crates" / given.crate / "out" / "incremental"
    files = kept(folder)
    if not files:
        parser.error(f"no kept files in {folder}")
    functions, parts, before = collections.Counter(), collections.Counter(), files[0][0]
    for time, library, module in files:
        function, part = split(library, module)
        functions[function] += time - before
        parts[part] += time - before
        before = time
    for function, seconds in functions.most_common(given.most):
        print(f"{seconds:8.1f}  {function}")
    print("by part: " + ", ".join(f"{part} {seconds:.0f}" for part, seconds in parts.most_common(8)))
    print(f"{files[-1][0] - files[0][0]:.0f} seconds, {len(functions)} functions and files of lemmas")


if __name__ == "__main__":
    main()
