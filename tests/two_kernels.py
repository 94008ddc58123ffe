#!/usr/bin/env python3
"""The library by a second kernel: HOL Light, where it is installed, runs proofs of theories/ as `holls export --hol-light` writes them.

    python3 tests/two_kernels.py [--sample N | --all]

Of the library's theorems 200, evenly spread, are proved by HOL Light, and the others stated without a proof; with --all each is proved. A
theorem that both kernels accept rests on neither alone: they share no code. The last line is 'two kernels: N passed, M failed', or says
that HOL Light isn't installed (Debian: apt-get install hol-light libnum-ocaml-dev), and then nothing is tested.

Needs Python 3.9 and Linux, and nothing else.
"""

import argparse
import pathlib
import sys

ROOT = pathlib.Path(__file__).resolve().parents[1]
sys.path.insert(0, str(ROOT / "clients"))
from holls import check, checking  # noqa: E402 (clients/holls)
from holls.exchange import exporting, hol_light  # noqa: E402 (clients/holls)

SAMPLE = 200


def main():
    parser = argparse.ArgumentParser(description=__doc__, formatter_class=argparse.RawDescriptionHelpFormatter)
    parser.add_argument("--sample", type=int, default=SAMPLE, help="how many theorems are proved (200)")
    parser.add_argument("--all", action="store_true", help="prove each of them")
    given = parser.parse_args()
    if not hol_light.is_installed():
        print("two kernels: skipped, " + hol_light.ADVICE)
        return 0
    units = checking.units(check.ordered([str(ROOT / "theories")]))
    text = exporting.written([unit.file for unit in units], 0 if given.all else given.sample)
    try:
        outcome = hol_light.outcome(hol_light.run(text))
    except hol_light.NoHolLight as error:
        print(f"{error}\ntwo kernels: 0 passed, 1 failed")
        return 1
    for kind, told in outcome.told:
        if kind == "refused" or given.all:
            print(f"{kind} {told}")
    print(exporting.words(outcome))
    print(f"two kernels: {outcome.theirs + outcome.ours} passed, {outcome.refused} failed")
    return 1 if outcome.refused else 0


if __name__ == "__main__":
    sys.exit(main())
