"""What the built program says of examples/theories and in the session of docs/PROTOCOL.md, against what stands there."""

import re
import subprocess
import sys
import unittest

from tests.helpers import BUILT, ROOT, SECONDS

sys.path.insert(0, str(ROOT / "examples"))

import replies  # noqa: E402

replies.SECONDS = SECONDS


def session_of(text):
    """The lines of a page's fenced blocks that begin with a request."""
    return [line for block in re.findall(r"^```\n(> .*?)^```$", text, re.M | re.S) for line in block.splitlines()]


@unittest.skipUnless(BUILT.is_file(), "hol_serve isn't built")
class Replies(unittest.TestCase):
    def compare(self, name):
        """Each reply to a theory's commands is the stored one."""
        self.assertIn(name, replies.THEORIES)
        said = replies.transcript(str(BUILT), name)
        self.assertEqual(said.splitlines(), replies.stored(name).read_text(encoding="utf-8").splitlines())

    def test_connectives(self):
        self.compare("connectives")

    def test_maps(self):
        self.compare("maps")

    def test_pair_type(self):
        self.compare("pair_type")

    def test_group_axioms(self):
        self.compare("group_axioms")

    def test_tactics(self):
        self.compare("tactics")

    def test_laws(self):
        self.compare("laws")

    def test_converses(self):
        self.compare("converses")

    def test_there_are_no_others(self):
        self.assertEqual(set(replies.THEORIES), {"connectives", "maps", "pair_type", "group_axioms", "tactics", "laws", "converses"})

    def test_the_session_of_the_page_is_what_the_program_says(self):
        session = session_of((ROOT / "docs" / "PROTOCOL.md").read_text(encoding="utf-8"))
        requests = (ROOT / "examples" / "session.jsonl").read_text(encoding="utf-8").splitlines()
        self.assertEqual([line[2:] for line in session if line.startswith("> ")], requests)
        text = "".join(line + "\n" for line in requests).encode()
        done = subprocess.run([str(BUILT)], input=text, stdout=subprocess.PIPE, timeout=SECONDS, check=True)
        self.assertEqual(done.stdout.decode().splitlines(), [line for line in session if not line.startswith("> ")])


if __name__ == "__main__":
    unittest.main()
