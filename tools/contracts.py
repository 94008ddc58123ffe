"""Each public call of the crates with its contract, as its source has it: what tools/pages.py writes to out/CONTRACTS.md."""

import pathlib
import re
from typing import Dict, Iterator, List

FUNCTION = re.compile(r"^( *)pub (?:const |unsafe )*fn \w+")
TYPE = re.compile(r"^(?:impl\b(?:<[^{]*?>)? *(?P<of>[^{]*?)|pub trait (?P<trait>\w+).*?)\s*\{?$")


def header(lines: List[str], at: int) -> List[str]:
    """A function's signature and clauses: to the brace that opens its body, or to the end of a trait's function."""
    indent = re.match(r" *", lines[at]).group(0)
    found: List[str] = []
    for line in lines[at:]:
        if line == indent + "{":
            break
        found.append(line[len(indent) :])
        has_no_clauses = (line is lines[at] or line.startswith(indent + ")")) and line.endswith(("{", "}"))
        if line.endswith(";") or has_no_clauses:
            found[-1] = re.sub(r"\s*(?:;|\{|\{[^{}]*\})$", "", found[-1])
            break
    return found


def comment(lines: List[str], at: int) -> List[str]:
    """What is said above a function."""
    found: List[str] = []
    while at and lines[at - 1].lstrip().startswith(("///", "#[")):
        at -= 1
        if lines[at].lstrip().startswith("///"):
            found.insert(0, lines[at].strip()[3:].strip())
    return found


def of_file(path: pathlib.Path) -> Iterator[str]:
    """The calls of a file, each as lines of Markdown."""
    lines = path.read_text(encoding="utf-8").split("\n")
    owner, is_trait = "", False
    for at, line in enumerate(lines):
        if match := TYPE.match(line):
            owner, is_trait = (match.group("of") or match.group("trait")).strip(), bool(match.group("trait"))
        elif line.startswith("}"):
            owner, is_trait = "", False
        if FUNCTION.match(line) or is_trait and re.match(r"    fn \w+", line):
            told = " ".join(comment(lines, at))
            yield "\n".join(([told, ""] if told else []) + ["```rust", *([f"// {owner}"] if owner else []), *header(lines, at), "```", ""])


def page(crates: pathlib.Path, names: List[str]) -> str:
    """The page of all calls, by crate and file."""
    parts = ["# Each public call, with its contract\n\nMade by tools/pages.py; [what they come to](../docs/CONTRACTS.md).\n"]
    for crate in names:
        found: Dict[str, List[str]] = {}
        for path in sorted((crates / crate / "src").glob("**/*.rt")):
            if calls := list(of_file(path)):
                found[str(path.relative_to(crates / crate / "src"))] = calls
        if found:
            parts.append(f"## {crate}\n")
            parts += [f"### {file}\n\n" + "\n".join(calls) for file, calls in found.items()]
    return "\n".join(parts)
