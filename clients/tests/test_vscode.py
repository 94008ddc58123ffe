"""The VS Code extension over a stand-in for VS Code's interface, where Node is installed."""

import json
import os
import pathlib
import shutil
import subprocess
import tempfile
import unittest
import zipfile

from tests.helpers import CLIENTS, HOLLS, PYTHON, SECONDS, fake

NODE = shutil.which("node")


@unittest.skipUnless(NODE, "node isn't installed")
class InVSCode(unittest.TestCase):
    def test_what_a_user_does(self):
        with tempfile.TemporaryDirectory() as name:
            program = fake(pathlib.Path(name))
            self.run_over(CLIENTS / "vscode", {"command": [*PYTHON, str(HOLLS), "lsp", "--server", program]})

    def test_as_it_is_installed(self):
        """From the package that EDITORS has one make, with the bridge that it takes along and the program that a setting names."""
        with tempfile.TemporaryDirectory() as name:
            folder = pathlib.Path(name)
            made = folder / "hol-serve.vsix"
            subprocess.run([*PYTHON, str(CLIENTS / "vscode" / "package"), str(made)], check=True, capture_output=True, timeout=SECONDS)
            with zipfile.ZipFile(made) as package:
                package.extractall(folder)
            self.run_over(folder / "extension", {"server": fake(folder)})

    def run_over(self, folder, settings):
        """What is seen where the extension in a folder is used."""
        given = dict(os.environ, EXTENSION=str(folder), SETTINGS=json.dumps(settings), TEXT="g A `p /\\ q`;;\ne CONJ_TAC;;\ne FOO_TAC;;\n")
        done = subprocess.run([NODE, str(CLIENTS / "tests" / "vscode.js")], env=given, capture_output=True, timeout=SECONDS)
        self.assertEqual(done.returncode, 0, done.stderr.decode())
        found = json.loads(done.stdout)
        about = json.loads((folder / "package.json").read_text())
        self.assertEqual(sorted(set(found["commands"])), sorted(one["command"] for one in about["contributes"]["commands"]))
        self.assertEqual({"onLanguage:hol", *("onCommand:" + name for name in found["commands"])}, set(about["activationEvents"]))
        self.assertLessEqual({one["command"] for one in about["contributes"]["keybindings"]}, set(found["commands"]))
        self.assertEqual(found["before"], [[2, 0, "there is no tactic FOO_TAC"]])
        self.assertTrue(found["goals"].startswith("goal 1 of 2\n  p : bool\n"))
        self.assertEqual(found["plain"], found["goals"])
        self.assertEqual(found["after"], [[0, 2, "the proof of A isn't ended yet: add qed;; or oops;;"]])
        self.assertTrue(found["hover"].startswith("```hol\nCONJ_TAC\n```\nOf `p /\\ q` leaves `p`, then `q`.\n\n```hol\ngoal 1 of 2"), found["hover"])
        self.assertEqual((found["symbols"], found["lenses"], found["completions"]), ([["A", 11]], 0, True))
        self.assertEqual(found["actions"], [
            ["Give the proof up by oops", "\noops;;"], ["Find a proof", "a search"], ["Simplify the goal", "a search"]])
        self.assertEqual((found["ended"], found["found"]), ("the search was cancelled", "\ne REFL_TAC;;"))
        self.assertRegex(found["tried"][0], r" \([0-9.]+ s\)\Z")
        self.assertIn("the goal is false for", found["why"])
        self.assertEqual((found["mayRename"], found["renamed"]), (2, ["BETTER"]))
        self.assertIn("is a word of the language", found["notRenamed"])
        self.assertEqual((found["symbolOf"], found["references"], found["links"]), (["A"], 1, 0))
        self.assertEqual((found["signature"], [one[0] for one in found["searched"]]), ("MATCH_MP_TAC th", ["INFINITY_AX", "SELECT_AX"]))
        self.assertEqual((found["typed"], found["settled"]), (["INFINITY_AX", "SELECT_AX", [13, 20, "∀"]], True))
        self.assertIn("The bridge holls doesn't run", found["shown"][0])
        self.assertEqual(found["opened"], ["file:///A.hol"])


if __name__ == "__main__":
    unittest.main()
