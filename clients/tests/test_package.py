"""The package for VS Code, and the one for Python: what is in them, and that the clients run from there."""

import importlib.util
import json
import os
import pathlib
import re
import shutil
import subprocess
import sys
import tempfile
import unittest
import xml.dom.minidom
import zipfile

from tests import forked
from tests.helpers import CLIENTS, PYTHON, ROOT, SECONDS, fake, proofs


def released():
    """The newest release, by release/CHANGELOG.md."""
    return re.search(r"(?m)^## ([0-9.]+),", (ROOT / "release" / "CHANGELOG.md").read_text(encoding="utf-8")).group(1)


class Package(unittest.TestCase):
    def test_it_is_made_and_its_bridge_runs(self):
        with tempfile.TemporaryDirectory() as name:
            folder = pathlib.Path(name)
            made = [folder / "one.vsix", folder / "two.vsix"]
            for target in made:
                subprocess.run([*PYTHON, str(CLIENTS / "vscode" / "package"), str(target)], check=True, capture_output=True, timeout=SECONDS)
            self.assertEqual(made[0].read_bytes(), made[1].read_bytes())
            with zipfile.ZipFile(made[0]) as package:
                for page in ("[Content_Types].xml", "extension.vsixmanifest"):
                    xml.dom.minidom.parseString(package.read(page))
                about = json.loads(package.read("extension/package.json"))
                self.assertEqual(about["version"], released())
                inside = set(package.namelist())
                settings = about["contributes"]["configuration"]["properties"]
                for name in ("holls.command", "holls.server"):  # What a folder's own settings may not name.
                    self.assertEqual(settings[name]["scope"], "machine")
                self.assertIn("extension/" + about["main"][2:], inside)
                for grammar in about["contributes"]["grammars"]:
                    self.assertIn("extension/" + grammar["path"][2:], inside)
                package.extractall(folder)
            self.assertIn("extension/holls/data/theories/sets.hol", inside)
            self.finds_the_library(folder, [*PYTHON, str(folder / "extension" / "bin" / "holls")])

    def finds_the_library(self, folder, words, **how):
        """The clients that these words start find a theory of the library from a folder that has none."""
        (folder / "A.hol").write_text("import one;;\nimport no_such_theory;;\n")
        words = [*words, "check", "--server", fake(folder), "A.hol"]
        ran = subprocess.run(words, cwd=str(folder), capture_output=True, timeout=SECONDS, **how)
        self.assertNotIn(b"there is no file one.hol", ran.stdout)
        self.assertIn(b"there is no file no_such_theory.hol", ran.stdout, ran.stderr)

    def test_the_package_for_python_has_all_files_and_finds_the_library(self):
        with tempfile.TemporaryDirectory() as name:
            folder = pathlib.Path(name)
            words = [*PYTHON, "-c", "import sys; sys.path.insert(0, sys.argv[1]); import wheels; print(wheels.build_wheel(sys.argv[2]))"]
            ran = subprocess.run([*words, str(CLIENTS), name], check=True, capture_output=True, timeout=SECONDS)
            with zipfile.ZipFile(folder / ran.stdout.decode().strip()) as wheel:
                wheel.extractall(folder / "made")
                inside = wheel.namelist()
                record = wheel.read("hol_serve-%s.dist-info/RECORD" % released()).decode().splitlines()
                said = wheel.read("hol_serve-%s.dist-info/METADATA" % released()).decode()
            self.assertEqual([line.split(",")[0] for line in record], inside)
            self.assertEqual({one for one in inside if one.endswith(".py")},
                             {path.relative_to(CLIENTS).as_posix() for path in (CLIENTS / "holls").rglob("*.py")})
            self.assertLessEqual({"holls/data/page/index.html", "holls/data/theories/sets.hol", "holls/data/release/about.json"}, set(inside))
            self.assertIn("\nRequires-Dist: aiohttp>=3.8 ; extra == 'serve'\n", said)
            self.finds_the_library(folder, [*PYTHON[:1], "-m", "holls"], env=dict(os.environ, PYTHONPATH=str(folder / "made")))

    def test_one_that_runs_from_the_clone_names_it(self):
        with tempfile.TemporaryDirectory() as name:
            words = [*PYTHON, "-c", "import sys; sys.path.insert(0, sys.argv[1]); import wheels; print(wheels.build_editable(sys.argv[2]))"]
            ran = subprocess.run([*words, str(CLIENTS), name], check=True, capture_output=True, timeout=SECONDS)
            with zipfile.ZipFile(pathlib.Path(name) / ran.stdout.decode().strip()) as wheel:
                self.assertEqual(wheel.read("hol_serve.pth").decode(), "%s\n" % CLIENTS)
                self.assertFalse([one for one in wheel.namelist() if one.startswith("holls/")])

    @unittest.skipUnless(importlib.util.find_spec("pip"), "pip isn't installed")
    def test_pip_installs_it_without_a_network(self):
        """Where an index would be asked, there is none: nothing is fetched, setuptools neither."""
        with tempfile.TemporaryDirectory() as name:
            tree, made = pathlib.Path(name) / "tree", pathlib.Path(name) / "made"
            tree.mkdir()
            for one in ("pyproject.toml", "README.md", "LICENSE", "build"):
                shutil.copy(str(ROOT / one), str(tree))
            for one in ("clients", "theories", "page", "release"):
                shutil.copytree(str(ROOT / one), str(tree / one), ignore=shutil.ignore_patterns("__pycache__", "tests", "out"))
            words = [sys.executable, "-m", "pip", "install", "-q", "--disable-pip-version-check", "--no-index", "--no-deps", "--target", str(made), "."]
            empty = {key: value for key, value in os.environ.items() if not key.startswith(("PIP_", "PYTHON"))}
            ran = subprocess.run(words, cwd=str(tree), env=empty, capture_output=True, timeout=SECONDS)
            self.assertEqual(ran.returncode, 0, ran.stderr.decode())
            self.assertIn("holls.__main__", (made / "bin" / "holls").read_text())
            self.finds_the_library(pathlib.Path(name), [*PYTHON[:1], "-m", "holls"], env=dict(empty, PYTHONPATH=str(made)))


class Recipes(unittest.TestCase):
    """What docs/EDITORS.md has users run in CI, in an empty folder with nothing in the environment but the program."""

    def setUp(self):
        room = tempfile.TemporaryDirectory()
        self.addCleanup(room.cleanup)
        self.folder = pathlib.Path(room.name)
        (self.folder / "proofs").mkdir()
        self.file = self.folder / "proofs" / "A.hol"

    def status(self, words):
        """What these words end with, behind `holls`."""
        environment = {"HOME": str(self.folder), "PATH": "/usr/bin:/bin", "HOL_SERVE": fake(self.folder)}
        ran = forked.run(*words, cwd=self.folder, env=environment)
        self.assertNotIn(b"Traceback", ran.stderr)
        return ran.returncode

    def tried(self, words):
        """The words accept what is proved, and nothing that isn't, or that rests on an axiom."""
        for text, status in ((proofs(2), 0), ("g N `f x = f x`;;\n", 1), ("new_axiom N `f x = f x`;;\n", 1)):
            self.file.write_text(text)
            self.assertEqual(self.status(words), status, "%s: %s" % (words, text))

    def test_the_page_has_what_works(self):
        page = (ROOT / "docs" / "EDITORS.md").read_text(encoding="utf-8")
        blocks = re.findall(r"^```yaml\n(.*?)^```", page, re.M | re.S)
        found = [words.split() for block in blocks for words in re.findall(r"bin/holls (check .*)$", block, re.M)]
        self.assertEqual((len(blocks), len(found)), (3, 2))
        for words in found:
            self.tried(words)

    def test_the_hook_of_pre_commit(self):
        text = (ROOT / ".pre-commit-hooks.yaml").read_text(encoding="utf-8")
        entry = re.search(r"^  entry: holls (.*)$", text, re.M).group(1).split()
        self.tried([*entry, "proofs/A.hol"])


if __name__ == "__main__":
    unittest.main()
