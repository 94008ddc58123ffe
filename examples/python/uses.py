#!/usr/bin/env python3
"""Which theorem is used where: for each theorem of a library how many proofs cite it, in how many theories, and the first of them.

    examples/python/uses.py theories
"""

import collections
import pathlib
import sys

sys.path.insert(0, str(pathlib.Path(__file__).resolve().parents[2] / "clients"))

from holls.api import Project, Prover  # noqa: E402


def uses(project):
    """By theorems, each with its theory, those that cite it in their proofs, as (theory, name)."""
    origin = {name: theory for theory in project.names for name in project.scripts(project.files[theory])}
    found = {name: [] for name in origin}
    for theory in project.names:
        for name, cited in project.theory(theory).cited.items():
            for one in cited if origin.get(name) == theory else ():
                found.setdefault(one, []).append((theory, name))
    return {(origin.get(name, "the prelude"), name): where for name, where in found.items()}


def main():
    """Writes a line for each theorem, the one that is cited most first."""
    with Prover() as prover:
        found = uses(Project(prover, *sys.argv[1:]))
    for (theory, name), where in sorted(found.items(), key=lambda pair: -len(pair[1])):
        theories = collections.Counter(one for one, _ in where)
        first = ", ".join(name for _, name in where[:3]) + (" .." if len(where) > 3 else "")
        print("%4d in %2d  %s.%s  %s" % (len(where), len(theories), theory, name, first))


if __name__ == "__main__":
    main()
