"""Runs the gate on a clean clone of this repository, and prints what each part said of what passed, and what the processor did for each crate and part.

    python3 tools/gate.py [--commit REF] [--log FILE]

The clone stands in a temporary folder, so that what earlier checks kept plays no part. The minutes are the gate's own last lines (tools/minutes.py); they go into
out/GATE.md too, with the commit and the day. The exit status is the gate's. Needs Python 3.8 and `rt` on the PATH."""

import argparse
import os
import pathlib
import re
import subprocess
import sys
import tempfile
import time
from typing import List

OUTCOME = re.compile(r"\b\d+ passed, \d+ failed")
# The line that the gate's minutes begin with.
MINUTES = "processor minutes: "


def git(*words: str) -> str:
    return subprocess.check_output(["git", *words], universal_newlines=True).strip()


def clone(top: str, commit: str, folder: str) -> str:
    """Makes a clean clone of the repository at a commit, and returns what the commit is called in short."""
    git("clone", "-q", top, folder)
    git("-C", folder, "checkout", "-q", git("-C", top, "rev-parse", commit))
    return git("-C", folder, "rev-parse", "--short=8", "HEAD")


def minutes_of(said: List[str]) -> List[str]:
    """The gate's minutes, none where it hasn't come to its end."""
    first = next((at for at, line in enumerate(said) if line.startswith(MINUTES)), len(said))
    return said[first:]


def main() -> int:
    words = argparse.ArgumentParser(description="the gate on a clean clone, and its time by crate")
    words.add_argument("--commit", default="HEAD", help="what to check out")
    words.add_argument("--log", type=pathlib.Path, help="a file for what the gate prints")
    given = words.parse_args()
    top = git("-C", os.path.dirname(os.path.abspath(__file__)), "rev-parse", "--show-toplevel")
    with tempfile.TemporaryDirectory(prefix="gate-") as room:
        commit = clone(top, given.commit, f"{room}/clone")
        log, begun = given.log or pathlib.Path(room) / "log", time.time()
        with log.open("w") as out:
            status = subprocess.run([f"{room}/clone/.ci/run"], stdout=out, stderr=subprocess.STDOUT).returncode
        said, took = log.read_text(errors="replace").splitlines(), (time.time() - begun) / 60
    outcomes, minutes = [line for line in said if OUTCOME.search(line)], minutes_of(said)
    if status:
        print("\n".join(said[-40:]))
    verdict = "passed" if status == 0 else f"ended with status {status}"
    whole = f"Of commit {commit}, {time.strftime('%Y-%m-%d')}: {verdict}, {took:.0f} minutes of wall time on {os.cpu_count()} processors."
    print("\n".join([*outcomes, *minutes, whole]))
    page = pathlib.Path(top) / "out" / "GATE.md"
    page.parent.mkdir(exist_ok=True)
    page.write_text("\n".join(["# The gate's time by crate", "", whole, "", *(f"    {line}" for line in minutes), ""]))
    return status


if __name__ == "__main__":
    sys.exit(main())
