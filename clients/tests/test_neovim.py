"""The plug-in in a real Neovim without a screen, where one is installed."""

import json
import os
import pathlib
import shutil
import subprocess
import sys
import tempfile
import unittest

from tests.helpers import CLIENTS, HOLLS, SECONDS, fake, proofs

NVIM = shutil.which("nvim")
A = "g A `p /\\ q`;;\ne CONJ_TAC;;\ne FOO_TAC;;\nqed;;\n\ng B `x x`;;\nqed;;\nqedx;;\noops;;\n"


@unittest.skipUnless(NVIM, "nvim isn't installed")
class InNeovim(unittest.TestCase):
    def test_what_a_user_does(self):
        with tempfile.TemporaryDirectory() as name:
            folder = pathlib.Path(name)
            (folder / "A.hol").write_text(A)
            (folder / "B.hol").write_text("g A `x = x`;; e REFL_TAC;;\nqed")
            (folder / "C.hol").write_bytes(b"g A `x = x`;;\r\n\r\ne REFL_TAC;;\r\nqed;;\r\nqed;;\r\n")
            (folder / "D.hol").write_text(proofs(8) + "qed;;\n")
            (folder / "E.hol").write_text("new_constant add `:A->A->A`;;\ninfixr 16 + add;;\ng A `x + y = z`;;\ne ALL_TAC;;\n")
            found = self.run_in(folder)
        self.assertEqual(found.pop("failure", None), None)
        window = found.pop("window")
        self.assertTrue(window.startswith("goal 1 of 2\n  p : bool\n"), window)
        self.assertEqual(found.pop("found"), "ETA_AX |- !t:A->B. (\\x. t x) = t  (the prelude)")
        self.assertEqual(found.pop("concluded")[0], "SELECT_AX")
        self.assertIn("\n  x + y = z", found.pop("notation"))
        self.assertIn("\n  add x y = z", found.pop("plain"))
        self.assertEqual(found.pop("colours"), ["holDeclaration", "holSymbol", "holTactic"])
        for step, seen in found.items():
            self.assertTrue(seen["reached"], (step, seen["said"]))
        places = [said[:2] for said in found["six things to say"]["said"]]
        self.assertEqual(sorted(places), [[3, 3], [4, 1], [6, 5], [7, 1], [8, 1], [9, 1]])
        self.assertEqual(found["an error in a file of CRLF lines"]["said"][0][:2], [5, 1])

    def test_the_goal_window_of_a_new_file_is_filled_once_the_bridge_has_begun(self):
        with tempfile.TemporaryDirectory() as name:
            found = self.run_in(pathlib.Path(name), BEGIN="yes")
        self.assertNotIn("failure", found)
        self.assertEqual(found["echoed"], ["Finding a proof: ..", "Finding a proof: logic", ""])
        begun = found["begun"]
        self.assertEqual([one for one in begun if "no answer" in one], [])
        self.assertEqual(begun[-1], "no proof is open", begun)

    def test_a_proof_is_found_and_a_name_is_changed(self):
        with tempfile.TemporaryDirectory() as name:
            (pathlib.Path(name) / "F.hol").write_text("g A `x = x`;;\n")
            found = self.run_in(pathlib.Path(name), FIND="yes")
        self.assertNotIn("failure", found)
        self.assertEqual((found["found"], found["renamed"]), (["g A `x = x`;;", "e REFL_TAC;;"], True))
        self.assertIn("the goal is false for p = T, q = F", found["told"][0])
        self.assertIn("the search was cancelled", found["told"][1])
        self.assertRegex(found["trying"], r"\AFinding a proof: .* \([0-9.]+ s\)\Z")

    def run_in(self, folder, **more):
        server = fake(folder, "--fault", "die:2950", "--once", str(folder / "once"))
        given = dict(os.environ, **more, FOLDER=str(folder), RESULTS=str(folder / "results"), PYTHON=sys.executable, HOLLS=str(HOLLS), SERVER=server,
                     XDG_STATE_HOME=str(folder), XDG_DATA_HOME=str(folder), XDG_CONFIG_HOME=str(folder))
        words = [NVIM, "--headless", "-u", "NONE", "-i", "NONE", "--cmd", "set rtp^=%s noswapfile" % (CLIENTS / "neovim"),
                 "-S", str(CLIENTS / "tests" / "neovim.lua")]
        done = subprocess.run(words, env=given, cwd=folder, capture_output=True, timeout=SECONDS)
        self.assertTrue((folder / "results").exists(), done.stderr.decode())
        return json.loads((folder / "results").read_text())


if __name__ == "__main__":
    unittest.main()
