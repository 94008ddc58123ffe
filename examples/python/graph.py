#!/usr/bin/env python3
"""The graph of a library's theorems in the language of Graphviz: an arrow leads from each theorem to those that its proof cites.

    examples/python/graph.py theories/lists.hol | dot -Tsvg > lists.svg
"""

import json
import pathlib
import sys

sys.path.insert(0, str(pathlib.Path(__file__).resolve().parents[2] / "clients"))

from holls.api import Project, Prover  # noqa: E402


def dot(project):
    """The graph, a box around each theory."""
    origin = {name: theory for theory in project.names for name in project.scripts(project.files[theory])}
    yield "digraph theorems {"
    yield "  rankdir=BT; node [shape=box, fontsize=10];"
    for theory in project.names:
        yield "  subgraph cluster_%s {" % theory
        yield "    label=%s;" % json.dumps(theory)
        statements = {one.name: one.statement for one in project.theory(theory).theorems()}
        for name in (name for name, where in origin.items() if where == theory and name in statements):
            yield "    %s [tooltip=%s];" % (json.dumps(name), json.dumps(statements[name]))
        yield "  }"
        for name, cited in project.theory(theory).cited.items():
            if origin.get(name) == theory:
                yield from ("  %s -> %s;" % (json.dumps(name), json.dumps(one)) for one in cited if one in origin)
    yield "}"


if __name__ == "__main__":
    with Prover() as prover:
        print("\n".join(dot(Project(prover, *sys.argv[1:]))))
