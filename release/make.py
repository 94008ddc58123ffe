#!/usr/bin/env python3
"""Makes the release of a program that the gate built, and checks one.

    python3 release/make.py PROGRAM --commit REF     writes hol_serve.xz and about.json beside this script
    python3 release/make.py --check [PROGRAM]        the packed program is the one that about.json names; with PROGRAM, where the sources
                                                     and the toolchain are the release's, it is this program byte for byte

PROGRAM has to be the proved one, crates/hol_serve/out/hol_serve as .ci/run leaves it; REF is the commit that it was built from. CHANGELOG.md beside this
script has to have a heading with the commit's first eight characters: what is new for users. The toolchain's name is asked from `rt version`.
The last line of a check is 'release: N passed, M failed'."""

import argparse
import hashlib
import json
import lzma
import pathlib
import shutil
import subprocess
import sys

HERE = pathlib.Path(__file__).resolve().parent
ROOT = HERE.parent
PACKED, ABOUT, CHANGES = HERE / "hol_serve.xz", HERE / "about.json", HERE / "CHANGELOG.md"
PROGRAM = "hol_serve"
FIRST = ROOT / "examples" / "first.jsonl"
LAST_REPLIES = b'{"made":["thm REFL1 |- x = x"],"ok":true}\n{"items":[],"ok":true}\n'
SHOWN = 8


def said_by(*words):
    return subprocess.run(words, cwd=ROOT, check=True, capture_output=True, text=True).stdout.strip()


def answers(program):
    """Whether a program answers the first example as it should."""
    with open(FIRST, "rb") as requests:
        ran = subprocess.run([program], stdin=requests, capture_output=True, timeout=60)
    return ran.returncode == 0 and ran.stdout.endswith(LAST_REPLIES)


def sources():
    """What the program is made from: the list of crates, and the folders of its own crate and of those below it."""
    uses = {}
    for line in (ROOT / "crates.txt").read_text(encoding="utf-8").splitlines():
        name, colon, words = line.partition("#")[0].partition(":")
        if colon:
            uses[name.split()[0]] = words.split()
    found, more = set(), {PROGRAM}
    while more:
        found |= more
        more = {below for name in more for below in uses[name] if below in uses} - found
    return ["crates.txt", *(f"crates/{name}/{part}" for name in sorted(found) for part in ("src", "specs", "proofs"))]


def faults_of_sources(commit, kit):
    """Why a program that was built here can't be compared: sources that have changed since the commit, or another toolchain."""
    if not shutil.which("rt") or said_by("rt", "version") != kit:
        return f"the toolchain here isn't {kit}"
    if subprocess.run(["git", "cat-file", "-e", commit + "^{commit}"], cwd=ROOT, capture_output=True).returncode:
        return "this clone doesn't have the commit"
    changed = subprocess.run(["git", "diff", "--quiet", commit, "--", *sources()], cwd=ROOT).returncode
    return "the sources have changed since" if changed else None


def make(program, ref):
    commit = said_by("git", "rev-parse", "--verify", ref + "^{commit}")
    if not answers(program):
        sys.exit(f"release: {program} doesn't answer {FIRST.name} as it should")
    if not (CHANGES.is_file() and f"{commit[:SHOWN]}" in CHANGES.read_text(encoding="utf-8")):
        sys.exit(f"release: {CHANGES.name} has no heading with {commit[:SHOWN]}")
    data = pathlib.Path(program).read_bytes()
    PACKED.write_bytes(lzma.compress(data, preset=9 | lzma.PRESET_EXTREME))
    about = {"commit": commit, "kit": said_by("rt", "version"), "sha256": hashlib.sha256(data).hexdigest(), "size": len(data), "for": "x86-64 Linux"}
    ABOUT.write_text(json.dumps(about, indent=2) + "\n", encoding="utf-8")
    print(f"{PACKED.relative_to(ROOT)}: {PACKED.stat().st_size:,} bytes, unpacked {len(data):,}, SHA-256 {about['sha256']}")


def checks(program):
    """What is checked, each with its fault or None."""
    about = json.loads(ABOUT.read_text(encoding="utf-8"))
    data = lzma.decompress(PACKED.read_bytes())
    is_named = hashlib.sha256(data).hexdigest() == about["sha256"] and len(data) == about["size"]
    yield "the packed program", None if is_named else f"isn't the one that {ABOUT.name} names"
    has_changes = about["commit"][:SHOWN] in CHANGES.read_text(encoding="utf-8")
    yield "the changes", None if has_changes else f"{CHANGES.name} has no heading with {about['commit'][:SHOWN]}"
    if program:
        other = faults_of_sources(about["commit"], about["kit"])
        if other:
            print(f"release: {program} isn't compared: {other}")
        else:
            is_same = pathlib.Path(program).read_bytes() == data
            yield "the program that was built here", None if is_same else "isn't the released one byte for byte, and its sources are"


def check(program):
    found = list(checks(program))
    for name, fault in found:
        if fault:
            print(f"FAILED {name}: {fault}")
    failed = sum(fault is not None for _, fault in found)
    print(f"release: {len(found) - failed} passed, {failed} failed")
    return 1 if failed else 0


def main():
    parser = argparse.ArgumentParser(description=__doc__.split("\n")[0])
    parser.add_argument("program", nargs="?", metavar="PROGRAM", help="the proved program that was built")
    parser.add_argument("--commit", metavar="REF", help="the commit that it was built from")
    parser.add_argument("--check", action="store_true", help="check the release that stands")
    given = parser.parse_args()
    if given.check:
        return check(given.program)
    if not given.program or not given.commit:
        parser.error("a release takes PROGRAM and --commit REF")
    make(str(pathlib.Path(given.program).resolve()), given.commit)
    return 0


if __name__ == "__main__":
    sys.exit(main())
