"""The page for Python and its examples, as a reader runs them, over hol_serve where it is built."""

import os
import pathlib
import re
import subprocess
import sys
import tempfile
import unittest

from tests.helpers import BUILT, ROOT, SECONDS

PAGE = ROOT / "docs" / "PYTHON.md"
EXAMPLES = ROOT / "examples" / "python"


def run(*words, **given):
    """Status, standard output and standard error of Python with these words, at the top of the repository."""
    done = subprocess.run(
        [sys.executable, *map(str, words)], cwd=ROOT, capture_output=True, timeout=SECONDS, env=dict(os.environ, HOL_SERVE=str(BUILT)), **given)
    return done.returncode, done.stdout.decode(), done.stderr.decode()


@unittest.skipUnless(BUILT.exists(), "hol_serve isn't built")
class Examples(unittest.TestCase):
    def setUp(self):
        folder = tempfile.TemporaryDirectory()
        self.addCleanup(folder.cleanup)
        self.folder = pathlib.Path(folder.name)

    def test_the_page_runs_and_prints_what_it_says(self):
        text = PAGE.read_text(encoding="utf-8")
        code = "\n".join(re.findall(r"^```python\n(.*?)^```", text, re.M | re.S))
        said = "".join(re.findall(r"^```text\n(.*?)^```", text, re.M | re.S))
        self.assertEqual(run("-c", code), (0, said, ""))

    def test_the_search_finds_proofs_that_are_accepted(self):
        names = ["APPEND_NIL", "LENGTH_APPEND", "MAP_APPEND", "REVERSE_REVERSE"]
        status, output, error = run(EXAMPLES / "search.py", "theories/lists.hol", *names)
        self.assertEqual((status, error), (0, ""))
        self.assertNotIn("none found", output)
        self.assertEqual(re.findall(r"^g (\w+) ", output, re.M), names)
        renamed = re.sub(r"^g (\w+) ", r"g FOUND_\1 ", output, flags=re.M)
        file = self.folder / "Found.hol"
        file.write_text("import lists;;\n" + renamed)
        (self.folder / "hol-project.json").write_text('{"folders": [".", "%s"]}' % (ROOT / "theories"))
        status, output, _ = run(ROOT / "clients" / "bin" / "holls", "check", "--alone", file)
        self.assertEqual(status, 0, output)
        self.assertIn(" 4 theorems, all accepted", output)

    def test_submissions_are_judged_by_the_program(self):
        (self.folder / "set.txt").write_text("import lists\n\nNIL_LAST !l:A list. APPEND l NIL = l\nTWICE !p. p /\\ p <=> p\n")
        proofs = ("import lists;;\ng NIL_LAST `!l:A list. APPEND l NIL = l`;;\ne REWRITE_TAC [APPEND_NIL; FORALL_SIMP];;\nqed;;\n"
                  "g TWICE `!p. p /\\ p <=> p`;;\ne REWRITE_TAC [FORALL_SIMP];;\nqed")
        submissions = {
            "right": (proofs, "all 2 exercises are proved"),
            "other": (proofs.replace("l:A list", "l:num list"), "NIL_LAST is another statement"),
            "missing": (proofs[:proofs.index("g TWICE")], "TWICE isn't proved"),
            "wrong": (proofs.replace("[APPEND_NIL; FORALL_SIMP]", "[]"), "line 4: the proof isn't done"),
            "axiom": (proofs + ";;\nnew_axiom CHEAT `F`;;\ng BY `F`;;\ne ACCEPT_TAC CHEAT;;\nqed;;", "it rests on the axiom CHEAT"),
            "own": (proofs.replace("import lists;;", "new_type list 1;; new_constant NIL `:A list`;; "
                                   "new_constant APPEND `:A list->A list->A list`;; new_axiom APPEND_NIL `!l:A list. APPEND l NIL = l`;;\n"
                                   "import logic;;"), "gives the type list another value"),
            "comment": (proofs + ";; (* ", "this comment is never closed"),
            "nothing": ("", "NIL_LAST isn't proved"),
        }
        for name, (text, _) in submissions.items():
            (self.folder / (name + ".hol")).write_text(text)
        status, output, error = run(EXAMPLES / "submissions.py", self.folder / "set.txt", *(self.folder / (name + ".hol") for name in submissions))
        self.assertEqual((status, error), (1, ""))
        for line, (name, (_, said)) in zip(output.splitlines(), submissions.items()):
            self.assertIn(said, line)
            self.assertIn(name + ".hol: ", line)

    def test_uses_and_the_graph_of_a_library(self):
        status, output, error = run(EXAMPLES / "uses.py", "theories/lists.hol")
        self.assertEqual((status, error), (0, ""))
        counts = [int(line.split()[0]) for line in output.splitlines()]
        self.assertEqual(counts, sorted(counts, reverse=True))
        self.assertRegex(output, r"(?m)^ +\d+ in +\d+  lists\.LIST_INDUCT  \w+, \w+, \w+ \.\.$")
        status, output, error = run(EXAMPLES / "graph.py", "theories/lists.hol")
        self.assertEqual((status, error), (0, ""))
        self.assertIn('  "LENGTH_APPEND" -> "LIST_INDUCT";\n', output)
        nodes = set(re.findall(r'^    "(\w+)" \[', output, re.M))
        self.assertTrue(all(name in nodes for pair in re.findall(r'"(\w+)" -> "(\w+)"', output) for name in pair))
        self.assertEqual(output.count("{"), output.count("}"))


if __name__ == "__main__":
    unittest.main()
