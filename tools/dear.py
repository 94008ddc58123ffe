#!/usr/bin/env python3
"""Lists the functions that are dear to prove, by what checks have kept: each function with a list of states above a size, in each crate's out/incremental.

    python3 tools/dear.py [--above MB] [CRATE ..]

The list of a function's states is made by the borrow checker, and names every local at every step. A check takes a time that grows with the square of its size, so a function
above 3 MB is split (docs/GATE.md, 'Time'). The figures need no clock, and so are the same on a busy machine. Run `rt check` or `rt lib` in a crate first. Of a function
that was renamed or taken away since, the list stays until out/incremental is deleted.
"""
import argparse
import collections
import pathlib
import re

LIST = re.compile(r"Rattle-(\w+?)-proofs\.(.+?)\.Lts(?:-([^.]+))?\.oantt")


def function_of(name):
    """The crate and the function that a kept list is of, or nothing for what is no such list."""
    found = LIST.fullmatch(name)
    if not found:
        return None
    crate, path, member = found.groups()
    if member is None:
        return crate, path
    # (functions that call one another have one folder, whose name begins with a plus)
    return crate, f"{path.rpartition('.')[0]}.{member}".lstrip(".")


def lists(folder):
    """The size of the newest list of each function of the crate in this folder."""
    newest = {}
    for file in (folder / "out" / "incremental").glob("**/*.oantt"):
        function = function_of(file.name)
        if function and function[0] == folder.name:
            stat = file.stat()
            newest[function[1]] = max(newest.get(function[1], (0, 0)), (stat.st_mtime, stat.st_size))
    return {function: size for function, (_, size) in newest.items()}


def main():
    parser = argparse.ArgumentParser(description=__doc__, formatter_class=argparse.RawDescriptionHelpFormatter)
    parser.add_argument("crates", nargs="*", metavar="CRATE")
    parser.add_argument("--above", type=float, default=3, metavar="MB")
    given = parser.parse_args()
    counts = collections.Counter()
    for folder in sorted((pathlib.Path(__file__).resolve().parent.parent / "crates").iterdir()):
        if given.crates and folder.name not in given.crates:
            continue
        for function, size in sorted(lists(folder).items(), key=lambda it: -it[1]):
            if size > given.above * 1e6:
                counts[folder.name] += 1
                print(f"{folder.name:24}{size / 1e6:6.1f}  {function}")
    print(f"{sum(counts.values())} functions in {len(counts)} crates are above {given.above:g} MB")


if __name__ == "__main__":
    main()
