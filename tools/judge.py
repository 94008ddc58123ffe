"""Shows that tools/prove.py judges as the toolchain's `rt ci` does: both are run in two copies of one small tree, in which some crates have to pass and others to fail, each for
another reason, and what they say of each crate, their counts and their statuses are compared.

    python3 tools/judge.py

It takes some minutes and is no part of the gate: who changes tools/prove.py, or takes another toolchain, runs it. Status 0 where both say the same, and the crates of FAILED fail."""

import pathlib
import re
import shutil
import subprocess
import sys
import tempfile
import time
from typing import Iterator, List, NamedTuple, Set

ROOT = pathlib.Path(__file__).resolve().parent.parent

CLAUSES = "ghost use Rattle.std.specs.Prelude.{◌≡◌, ◌+◌};\n\n"
TWICE = "/// Twice the number.\npub fn twice(n: u8) -> u16\n    ensures { result ≡ n + %s }\n{\n    u16::from(n) + u16::from(n)\n}\n"
TEST = "\n#[test]\nfn seven_is_doubled(rt: HostRuntime) {\n    assert_eq!(rt; twice(7), %s);\n}\n"
MAIN = 'use low::twice;\nuse std::io;\n\nfn main(rt: HostRuntime) -> io::Result<()> {\n    println!(rt; "{}", twice(7))\n}\n'
HEAD = "//! A crate of the small tree.\n#![tactic(auto)]\n\n"

# The crates: what each uses, its source, and what a program has to write; the fault of each that has one is its name.
CRATES = {
    "low": ("", HEAD + CLAUSES + TWICE % "n", None),
    "tested": ("", HEAD + CLAUSES + TWICE % "n" + TEST % "14", None),
    "program": ("low", HEAD + MAIN, "14\n"),
    "false_clause": ("", HEAD + CLAUSES + TWICE % "1", None),
    "above_false_clause": ("false_clause", HEAD + "pub use false_clause::twice;\n", None),
    "false_test": ("", HEAD + CLAUSES + TWICE % "n" + TEST % "15", None),
    "false_output": ("low", HEAD + MAIN, "15\n"),
    "untidy": ("", HEAD + CLAUSES + TWICE.replace("    ensures", "ensures") % "n", None),
}
# The crates that have to fail, as `rt ci` names them in its last lines.
FAILED = {"false_clause", "above_false_clause", "untidy", "false_test (tests)", "false_output (run)"}
FAILING = "rt: FAILED: "
# The lines that judge, and the one that tools/prove.py has beside them.
JUDGING = re.compile(r"rt: |test |test result|\d+ passed, \d+ failed$")
WATCHED = "judge: "


class Said(NamedTuple):
    """What a command said."""

    status: int
    lines: List[str]
    judge: List[str]


def write_tree(tree: pathlib.Path) -> None:
    """Writes the small tree, with tools/prove.py and what that imports."""
    for name in ("tools/prove.py", "tools/minutes.py", "tests/wrong_bodies.py"):
        (tree / name).parent.mkdir(parents=True, exist_ok=True)
        shutil.copy(str(ROOT / name), str(tree / name))
    (tree / "HANDLES").write_text("Handles allowed: none.\n")
    # (`rt ci` takes what it has proved before on this machine, so no other tree, of this run or another, has these files)
    mark = "small tree %s %d." % (tree.name, time.time_ns())
    (tree / "crates.txt").write_text("".join(f"{name}: {uses}\n" for name, (uses, _, _) in CRATES.items()))
    for name, (_, source, output) in CRATES.items():
        folder = tree / "crates" / name
        (folder / "src").mkdir(parents=True)
        (folder / "src" / ("lib.rt" if output is None else "main.rt")).write_text(source.replace("small tree.", mark), encoding="utf-8")
        if output is not None:
            (folder / "stdout").write_text(output)


def said(words: List[str], tree: pathlib.Path) -> Said:
    """What a command says of the tree's crates, tests and programs, in order of the letters, since checks go on side by side."""
    ran = subprocess.run(words, cwd=str(tree), stdin=subprocess.DEVNULL, stdout=subprocess.PIPE, stderr=subprocess.STDOUT, encoding="utf-8", errors="replace")
    lines = ran.stdout.replace(str(tree), "TREE").splitlines()
    judging = sorted(line for line in lines if JUDGING.match(line))
    return Said(ran.returncode, judging, [line for line in lines if line.startswith(WATCHED)])


def failed_crates(judged: Said) -> Set[str]:
    """The crates, tests and programs that failed, by the line that names them."""
    return {name for line in judged.lines if line.startswith(FAILING) for name in re.findall(r"\w+(?: \((?:tests|run)\))?", line[len(FAILING):])}


def faults(plain: Said, watched: Said) -> Iterator[str]:
    """What is amiss of what an unchanged `rt ci` said, and of what tools/prove.py said."""
    for line in sorted({*plain.lines} ^ {*watched.lines}):
        yield f"only {'rt ci' if line in plain.lines else 'tools/prove.py'} says: {line}"
    if (plain.status, watched.status) != (1, 1):
        yield f"rt ci ended with status {plain.status}, tools/prove.py with {watched.status}, where crates fail"
    if failed_crates(plain) != FAILED:
        yield f"of rt ci these fail: {sorted(failed_crates(plain))}, and not {sorted(FAILED)}"
    if len(watched.judge) != 1 or not watched.judge[0].endswith(" 0 faults"):
        yield f"tools/prove.py says of itself: {watched.judge}"


def main() -> None:
    if not shutil.which("rt"):
        sys.exit("judge: there is no `rt` on the PATH")
    with tempfile.TemporaryDirectory(prefix="judge-") as room:
        trees = [pathlib.Path(room, name).resolve() for name in ("plain", "watched")]
        for tree in trees:
            write_tree(tree)
        plain = said(["rt", "ci"], trees[0])
        watched = said([sys.executable, "tools/prove.py", "."], trees[1])
    found = list(faults(plain, watched))
    for fault in found:
        print(f"FAILED  {fault}")
    print(f"judge: {len({*plain.lines} & {*watched.lines})} lines passed, {len(found)} failed; {len(CRATES)} crates, of which {len(FAILED)} have to fail")
    sys.exit(1 if found else 0)


if __name__ == "__main__":
    main()
