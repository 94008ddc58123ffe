"""The blocks of commands in pages: each is run, and what the page shows behind one is what the reader sees.

A block ```hol has the next commands of the page's file. A block ```hol fails has commands that are tried there and taken out again: one is refused.
A block ```shown behind one is what the goal window shows at its last command.
"""

import pathlib
import re
import tempfile
import unittest
from typing import List, NamedTuple, Tuple

from holls import check, checking
from holls.findings import Severity, findings
from holls.lsp import goals
from tests.helpers import BUILT, ROOT, SECONDS

PAGES = ("README.md", "docs/TUTORIAL.md")
FENCE = re.compile(r"^```(hol fails|hol|shown)\n(.*?)^```$", re.M | re.S)


class Place(NamedTuple):
    """A block of commands: the file that it ends, where it begins there, whether it fails, and what the page shows of it."""

    text: str
    start: int
    fails: bool
    shown: str


def places(page: str) -> Tuple[List[Place], str]:
    """The blocks of a page's commands, and all those together that stay."""
    found, kept = [], ""
    for kind, text in FENCE.findall(page):
        if kind == "shown":
            found[-1] = found[-1]._replace(shown=text)
            continue
        found.append(Place(kept + text, len(kept), kind == "hol fails", ""))
        kept += "" if kind == "hol fails" else text
    return found, kept


def said_of(file, place):
    """What is shown of a place, over its checked file."""
    last = max(number for number, command in enumerate(file.commands) if command.start < len(place.text))
    return re.sub(r"[ \t]+$", "", goals.text(goals.state(file, last)), flags=re.M)


@unittest.skipUnless(BUILT.is_file(), "hol_serve isn't built")
class Blocks(unittest.TestCase):
    maxDiff = None

    def test_each_block_shows_what_its_page_says(self):
        for page in PAGES:
            with tempfile.TemporaryDirectory() as folder:
                self.compare(page, pathlib.Path(folder))

    def compare(self, page, folder):
        found, kept = places((ROOT / page).read_text(encoding="utf-8"))
        self.assertTrue(found, page)
        (folder / "kept.hol").write_text(kept, encoding="utf-8")
        for number, place in enumerate(found):
            if place.fails:
                (folder / ("fails_%d.hol" % number)).write_text(place.text, encoding="utf-8")
        units = {unit.file.theory.name: unit for unit in checking.units(check.ordered([str(folder)]))}
        checking.Pool(list(units.values()), [str(BUILT)], SECONDS, False, 1).start()
        for unit in units.values():
            self.assertTrue(unit.done.wait(SECONDS))
            self.assertIsNone(unit.failure)
        wrong = [one.text for one in findings(units["kept"].file) if one.severity == Severity.ERROR or one.is_open]
        self.assertEqual(wrong, [], "%s: its commands aren't all accepted" % page)
        for number, place in enumerate(found):
            file = units["fails_%d" % number if place.fails else "kept"].file
            said = said_of(file, place)
            refused = [one for one in findings(file) if one.severity == Severity.ERROR and one.start >= place.start]
            self.assertEqual(bool(refused), place.fails, "%s: %s" % (page, place.text[place.start:]))
            if place.shown:
                self.assertEqual(said, place.shown, "%s, behind %s" % (page, place.text[place.start:]))


if __name__ == "__main__":
    unittest.main()
