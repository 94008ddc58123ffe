"""`./build`: which crates it counts, what it takes for the program, and what it says where there is no toolchain."""

import importlib.machinery
import importlib.util
import os
import pathlib
import subprocess
import sys
import tempfile
import unittest

from tests.helpers import BUILT, PYTHON, ROOT, SECONDS


def script():
    """The script as a module."""
    loader = importlib.machinery.SourceFileLoader("build", str(ROOT / "build"))
    module = importlib.util.module_from_spec(importlib.util.spec_from_loader("build", loader))
    kept, sys.dont_write_bytecode = sys.dont_write_bytecode, True
    try:
        loader.exec_module(module)
    finally:
        sys.dont_write_bytecode = kept
    return module


class Build(unittest.TestCase):
    def test_it_counts_the_programs_crates(self):
        names = script().crates()
        self.assertEqual(names[-1], "hol_serve")
        self.assertEqual({"hol_kernel", "hol_session"} - set(names), set())
        self.assertEqual([name for name in names if name.endswith("_tests") or not (ROOT / "crates" / name / "src").is_dir()], [])

    def test_a_crate_is_left_where_its_library_is_older_than_its_sources(self):
        build = script()
        with tempfile.TemporaryDirectory() as name:
            crate = pathlib.Path(name) / "one"
            for folder in ("src", "out/rlib"):
                (crate / folder).mkdir(parents=True)
            (crate / "src" / "lib.rt").write_text("")
            self.assertFalse(build.is_built(crate))
            library = crate / "out" / "rlib" / "one.rlib"
            library.write_text("")
            moment = library.stat().st_mtime
            os.utime(str(crate / "src" / "lib.rt"), (moment - 5, moment - 5))
            self.assertTrue(build.is_built(crate))
            os.utime(str(crate / "src" / "lib.rt"), (moment + 5, moment + 5))
            self.assertFalse(build.is_built(crate))

    def test_what_answers_otherwise_is_no_program(self):
        build = script()
        with tempfile.TemporaryDirectory() as name:
            other = pathlib.Path(name) / "other"
            other.write_text("#!/bin/sh\ncat\n")
            other.chmod(0o700)
            self.assertFalse(build.answers(other))
        if BUILT.is_file():
            self.assertTrue(build.answers(BUILT))

    def test_without_a_toolchain_it_says_what_is_missing(self):
        ran = subprocess.run([*PYTHON, str(ROOT / "build")], capture_output=True, timeout=SECONDS, env={"PATH": "/nowhere"})
        self.assertEqual(ran.returncode, 2)
        self.assertIn(b"there is no `rt` on the PATH", ran.stderr)


if __name__ == "__main__":
    unittest.main()
