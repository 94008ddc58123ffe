#!/usr/bin/env python3
"""Prints the table of lines by crate (`tools/pages.py --write` keeps it in out/LINES.md), and tests that each must-fail edit fits its file."""
import pathlib
import re
import sys

ROOT = pathlib.Path(__file__).resolve().parent.parent


def crates():
    names = []
    for line in (ROOT / "crates.txt").read_text().splitlines():
        line = line.split("#")[0].strip()
        if line:
            names.append(line.split(":")[0].split()[0])
    return names


def lines(folder, pattern, beside=()):
    files = [f for f in folder.glob("**/" + pattern) if not any(p in f.parents for p in beside)]
    return sum(len(f.read_text().splitlines()) for f in files)


def row(name):
    crate = ROOT / "crates" / name
    tests = crate / "src" / "tests"
    code = lines(crate / "src", "*.rt", (tests,))
    tested = lines(tests, "*.rt")
    if name.endswith("_tests"):
        code, tested = 0, code
    edits = len(list((crate / "must-fail").glob("*.edit")))
    return [code, tested, lines(crate / "specs", "*.antt"), lines(crate / "proofs", "*.antt"), edits]


def misfits():
    """Edits whose old text, after the changes before it, does not stand exactly once in the file that they name, or that don't say what refuses them."""
    for edit in sorted(ROOT.glob("crates/*/must-fail/*.edit")):
        texts, target, old = {}, "", ""
        if not re.search(r"(?m)^refused: \S+ \S+$", edit.read_text()):
            yield f"{edit.relative_to(ROOT)}: no line 'refused: FUNCTION GOAL'"
        for r in edit.read_text().splitlines():
            if r.startswith("file: "):
                target = r[len("file: "):].strip()
                if not (edit.parent.parent / target).is_file():
                    yield f"{edit.relative_to(ROOT)}: there is no {target}"
                    break
                texts.setdefault(target, (edit.parent.parent / target).read_text())
            elif r.startswith("old: "):
                old = r[len("old: "):]
                if texts[target].count(old) != 1:
                    yield f"{edit.relative_to(ROOT)}: {texts[target].count(old)} times in {target}: {old}"
            elif r.startswith("new:"):
                texts[target] = texts[target].replace(old, r[len("new:"):].removeprefix(" "))


def table():
    """The lines of the table."""
    found = ["| crate | code with contracts | tests | definitions | proofs | must-fail edits |", "|---|---:|---:|---:|---:|---:|"]
    total = [0] * 5
    for name in crates():
        numbers = row(name)
        total = [a + b for a, b in zip(total, numbers)]
        found.append(f"| {name} | " + " | ".join(f"{n:,}" for n in numbers) + " |")
    return [*found, "| all | " + " | ".join(f"{n:,}" for n in total) + " |"]


def main():
    print("\n".join(table()))
    wrong = list(misfits())
    for line in wrong:
        print(line, file=sys.stderr)
    return 1 if wrong else 0


if __name__ == "__main__":
    sys.exit(main())
