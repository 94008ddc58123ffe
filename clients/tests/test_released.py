"""The released program: how it is unpacked, and what is said where it can't be used."""

import hashlib
import importlib
import json
import lzma
import os
import pathlib
import subprocess
import sys
import tempfile
import unittest
from unittest import mock

from holls import released, server
from tests import forked
from tests.helpers import ROOT, SECONDS, proofs

SCRIPT = b"#!/bin/sh\necho released\n"
REPLIES = ['{"made":["thm REFL1 |- x = x"],"ok":true}', '{"items":[],"ok":true}']


class Released(unittest.TestCase):
    def setUp(self):
        room = tempfile.TemporaryDirectory()
        self.addCleanup(room.cleanup)
        self.room = pathlib.Path(room.name)
        self.put(SCRIPT)
        at = {"XDG_CACHE_HOME": str(self.room / "cache"), "PATH": "/nowhere", "HOL_SERVE": ""}
        for patch in (mock.patch("holls.carried.folder", lambda _: self.room), mock.patch.object(server, "_BUILT", self.room / "none"),
                      mock.patch.dict(os.environ, at)):
            patch.start()
            self.addCleanup(patch.stop)

    def put(self, data, of=None):
        about = {"commit": "0123456789", "kit": "a kit", "sha256": hashlib.sha256(of or data).hexdigest(), "size": len(of or data)}
        (self.room / "about.json").write_text(json.dumps(about))
        (self.room / "hol_serve.xz").write_bytes(lzma.compress(data))

    def run_found(self):
        found = server.find()
        self.assertTrue(found[0].startswith(str(self.room / "cache")), found)
        return subprocess.run(["/bin/sh", *found], capture_output=True, check=True, timeout=SECONDS).stdout

    def test_it_is_unpacked_once_and_mended(self):
        self.assertEqual(self.run_found(), b"released\n")
        kept = pathlib.Path(server.find()[0])
        moment = kept.stat().st_mtime_ns
        self.assertEqual(self.run_found(), b"released\n")
        self.assertEqual(kept.stat().st_mtime_ns, moment)
        self.assertEqual(kept.stat().st_mode & 0o777, 0o700)
        kept.write_bytes(b"#!/bin/sh\necho another\n")
        self.assertEqual(self.run_found(), b"released\n")
        self.assertEqual([one.name for one in kept.parent.iterdir()], [kept.name])

    def test_what_is_wrong_with_it_is_said(self):
        for put, told in ((lambda: self.put(b"other", SCRIPT), "isn't the program that about.json names"),
                          (lambda: (self.room / "hol_serve.xz").write_bytes(b"no xz"), "can't be unpacked"),
                          (lambda: (self.room / "about.json").write_text("{"), "doesn't say what the released program is"),
                          (lambda: (self.room / "hol_serve.xz").unlink(), "none is released here either")):
            self.put(SCRIPT)
            put()
            with self.assertRaises(server.NoServer) as found:
                server.find()
            self.assertIn(told, str(found.exception))
            self.assertIn("./build", str(found.exception))

    def test_on_another_system_it_is_not_run(self):
        with mock.patch("platform.machine", lambda: "arm64"), self.assertRaises(server.NoServer) as found:
            server.find()
        self.assertIn("the released program is for Linux on x86_64, and this is Linux on arm64", str(found.exception))

    def test_a_python_without_lzma_is_told(self):
        with mock.patch.dict(sys.modules, {"lzma": None}):
            importlib.reload(released)
            try:
                with self.assertRaises(server.NoServer) as found:
                    server.find()
            finally:
                del sys.modules["lzma"]
                importlib.reload(released)
        self.assertIn("this Python was built without lzma", str(found.exception))
        self.assertIn("xz -dk", str(found.exception))

    def test_a_user_without_a_home_has_it_in_the_temporary_folder(self):
        """As in a container, or in the service of docs/SERVE.md, where nothing else can be written."""
        (self.room / "cache").write_text("a file")
        temporary = self.room / "tmp"
        temporary.mkdir()
        with mock.patch.object(tempfile, "tempdir", str(temporary)):
            found = pathlib.Path(server.find()[0])
            self.assertEqual(found.parent, temporary / ("holls-%d" % os.getuid()))
            self.assertEqual(found.parent.stat().st_mode & 0o777, 0o700)
            self.assertEqual(server.find(), [str(found)])

    def test_folders_that_take_nothing_or_are_anothers_are_named(self):
        (self.room / "cache").write_text("a file")
        temporary = self.room / "tmp"
        temporary.mkdir()
        own = temporary / ("holls-%d" % os.getuid())
        for make in (lambda: own.symlink_to(self.room), lambda: own.mkdir(mode=0o700) or own.chmod(0o777), lambda: own.write_text("a file")):
            make()
            with mock.patch.object(tempfile, "tempdir", str(temporary)), self.assertRaises(server.NoServer) as found:
                server.find()
            self.assertIn("have XDG_CACHE_HOME name another folder", str(found.exception))
            own.rmdir() if own.is_dir() and not own.is_symlink() else own.unlink()

    def test_what_is_built_comes_first(self):
        built = self.room / "built"
        built.write_bytes(SCRIPT)
        with mock.patch.object(server, "_BUILT", built):
            self.assertEqual(server.find(), [str(built)])


@unittest.skipUnless((ROOT / "release" / "hol_serve.xz").is_file(), "nothing is released here")
class Release(unittest.TestCase):
    def test_it_answers_and_checks_files(self):
        with tempfile.TemporaryDirectory() as name:
            with mock.patch.dict(os.environ, {"XDG_CACHE_HOME": name}):
                program = released.program(released.release())
            with open(str(ROOT / "examples" / "first.jsonl"), "rb") as requests:
                ran = subprocess.run([program], stdin=requests, capture_output=True, timeout=SECONDS, check=True)
            self.assertEqual(ran.stdout.decode().splitlines()[-2:], REPLIES)
            file = pathlib.Path(name) / "A.hol"
            file.write_text(proofs(2))
            ran = forked.run("check", "--server", program, file)
            self.assertEqual((ran.returncode, ran.stderr), (0, b""))


if __name__ == "__main__":
    unittest.main()
