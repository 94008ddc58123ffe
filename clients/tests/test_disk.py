"""What a folder may hold that others have filled: pipes, devices, links, odd project files, names that would forge lines."""

import json
import os
import pathlib
import tempfile
import unittest

from holls import disk, projects, say
from tests import forked
from tests.helpers import fake, proofs
from tests.test_lsp import Editor


@unittest.skipUnless(hasattr(os, "mkfifo"), "there are no pipes with names")
class Folders(unittest.TestCase):
    def setUp(self):
        room = tempfile.TemporaryDirectory()
        self.addCleanup(room.cleanup)
        self.room = pathlib.Path(room.name)
        self.folder = self.room / "folder"
        self.folder.mkdir()
        self.program = fake(self.room)

    def holls(self, *words):
        done = forked.run(*words, "--server", self.program, cwd=self.folder)
        return done.returncode, done.stdout.decode(), done.stderr.decode()

    def fill(self):
        """A folder with one theory, and all that is none."""
        (self.folder / "A.hol").write_text(proofs(1))
        os.mkfifo(str(self.folder / "Pipe.hol"))
        (self.folder / "Zero.hol").symlink_to("/dev/zero")
        (self.folder / "Self.hol").symlink_to("Self.hol")
        (self.folder / "Gone.hol").symlink_to("nowhere")
        (self.folder / "loop").symlink_to(".")
        (self.folder / "self").symlink_to("self")
        (self.folder / "Folder.hol").mkdir()

    def test_what_is_no_file_is_named_and_passed_over(self):
        self.fill()
        status, said, complained = self.holls("check", self.folder)
        self.assertEqual((status, said), (0, "%s/A.hol: 4 commands, 1 theorem, all accepted\n" % self.folder))
        self.assertEqual(sorted(complained.splitlines()), sorted(
            "holls: %s/%s.hol is passed over: it is no regular file" % (self.folder, name) for name in ("Pipe", "Zero", "Self", "Gone")))
        for name in ("Pipe", "Zero"):
            self.assertEqual(self.holls("check", "%s.hol" % name), (2, "", "holls: %s.hol is no regular file\n" % name))
        self.assertIn("can't be read", self.holls("check", "Self.hol")[2])
        self.assertEqual(self.holls("search", "N0")[0], 0)

    def test_an_import_of_what_is_no_file_is_told_at_its_place(self):
        self.fill()
        for name in ("Pipe", "Zero", "Self", "Gone", "Folder"):
            (self.folder / "B.hol").write_text("import %s;;\n" % name)
            status, said, _ = self.holls("check", "B.hol")
            self.assertEqual((status, said.splitlines()[0]), (
                1, "B.hol:1:1: error: there is no file %s.hol in %s or in the library" % (name, self.folder) + ("; did you mean one?" if name == "Gone" else "")))

    def test_project_files_that_are_none(self):
        (self.folder / "A.hol").write_text(proofs(1))
        file = self.folder / projects.PROJECT_FILE
        for text, told in (('{"folders": ["\\u0000"]}', "has to be a list of folders' names"), ('{"folders": ["\\ud800"]}', "list of folders' names"),
                           ("[" * 100_000, "can't be read: "), ("[]", "can't be read"), ("{", "can't be read"), (b"\xff", "can't be read"),
                           ('{"folder": ["."]}', "the key `folder` means nothing"), ('{"folders": ["nowhere"]}', "there is no folder"),
                           (" " * (projects.PROJECT_FILE_BYTES + 1), "can't be read: it has more than 1 MB")):
            file.write_bytes(text if isinstance(text, bytes) else text.encode())
            status, said, _ = self.holls("check", "A.hol")
            self.assertEqual(status, 1, text[:20])
            self.assertIn(told, said.splitlines()[0])
        file.unlink()
        os.mkfifo(str(file))
        self.assertEqual(self.holls("check", "A.hol")[0], 0)

    def test_a_project_of_all_folders_there_are_is_cut(self):
        (self.folder / "A.hol").write_text(proofs(1))
        (self.folder / projects.PROJECT_FILE).write_text('{"folders": [".", "/"]}')
        status, said, _ = self.holls("check", "A.hol")
        self.assertEqual(status, 1)
        self.assertIn("name more than %d folders" % projects.MOST_FOLDERS, said.replace("names more", "name more"))

    def test_a_theory_of_the_library_is_found_from_everywhere(self):
        (self.folder / "A.hol").write_text("import one;;\nimport nothing_of_this_name;;\n")
        _, said, _ = self.holls("check", "A.hol")
        self.assertEqual([line for line in said.splitlines() if "there is no file" in line], [
            "A.hol:2:1: error: there is no file nothing_of_this_name.hol in %s or in the library" % self.folder.resolve()])
        (self.folder / "one.hol").write_text(proofs(1))  # One's own comes first.
        _, said, _ = self.holls("check", "A.hol")
        self.assertIn("\none.hol: 4 commands", "\n" + said)
        (self.folder / "one.hol").unlink()
        status, said, _ = self.holls("check", "--within", ".", "A.hol")
        self.assertIn("A.hol:1:1: error: the theory one is the library's, which lies outside of .: add --within %s" % projects.LIBRARY, said)

    def test_a_file_that_has_the_name_of_a_theory_which_the_library_imports_is_told_so(self):
        (self.folder / "sums.hol").write_text("import options;;\n" + proofs(1))
        _, said, _ = self.holls("check", "sums.hol", "--alone")
        lines = [line for line in said.splitlines() if line.startswith("sums.hol:1:")]
        self.assertIn("imports go in a circle here", lines[0])
        self.assertEqual(lines[1], "sums.hol:1:1: warning: the library has a theory sums too, which its theory options imports: this file stands in its "
                         "place; rename it if that isn't meant")
        (self.folder / "sums.hol").write_text(proofs(1))
        self.assertEqual(self.holls("check", "sums.hol")[:2], (0, "sums.hol: 4 commands, 1 theorem, all accepted\n"))

    def test_an_import_that_is_misspelt_says_which_was_meant(self):
        (self.folder / "Numbers.hol").write_text(proofs(1))
        (self.folder / "A.hol").write_text("import Number;;\nimport set;;\nimport no_such_thing;;\n")
        _, said, _ = self.holls("check", "A.hol")
        meant = [line.split("; ", 1)[1] if ";" in line else "" for line in said.splitlines() if line.startswith("A.hol:") and "no file" in line]
        self.assertEqual(meant, ["did you mean Numbers?", "did you mean sets?", ""])

    def test_an_editor_in_such_a_folder_goes_on(self):
        self.fill()
        (self.folder / "B.hol").write_text("import A;;\nimport Pipe;;\nimport Self;;\ng B `x = x`;;\ne REFL_TAC;;\nqed;;\n")
        (self.folder / projects.PROJECT_FILE).write_text('{"folders": [".", "\\u0000"]}')
        editor = Editor(self.program)
        self.addCleanup(editor.kill)
        editor.begin()
        uri = (self.folder / "B.hol").as_uri()
        editor.open(uri, (self.folder / "B.hol").read_text())
        editor.until(lambda: [found[:2] for found in editor.said(uri)] == [(0, 1), (1, 1), (2, 1)])
        self.assertEqual([one["name"] for one in editor.ask("hol/search", {"query": "N0"})], ["N0"])
        self.assertEqual([one["name"] for one in editor.ask("workspace/symbol", {"query": "N0"})], ["N0"])
        self.assertEqual(editor.goals(uri, 3, 2)["goals"]["goals"][0]["ty"], "x = x")
        (self.folder / projects.PROJECT_FILE).unlink()
        os.mkfifo(str(self.folder / projects.PROJECT_FILE))
        editor.change(uri, 2, "import A;;\nfoo;;\n")
        editor.until(lambda: [found[:2] for found in editor.said(uri)] == [(1, 1)])
        self.assertEqual(editor.end(), 0)

    def test_within(self):
        other = self.room / "other"
        other.mkdir()
        (other / "Theirs.hol").write_text(proofs(1))
        (self.folder / "A.hol").write_text("import Theirs;;\n")
        (self.folder / projects.PROJECT_FILE).write_text(json.dumps({"folders": [".", str(other)]}))
        self.assertEqual(self.holls("check", "A.hol")[0], 0)
        status, said, _ = self.holls("check", "--within", ".", "A.hol")
        self.assertEqual(status, 1)
        self.assertIn("A.hol:1:1: error: the file %s/Theirs.hol lies outside of ., which --within names" % other, said)
        self.assertEqual(self.holls("check", "--within", ".", "--within", other, "A.hol")[0], 0)
        self.assertEqual(self.holls("check", "--within", other, "A.hol")[0], 2)
        (self.folder / "Theirs.hol").symlink_to(other / "Theirs.hol")
        (self.folder / projects.PROJECT_FILE).unlink()
        self.assertEqual(self.holls("check", "--within", ".", "A.hol")[0], 1)

    def test_no_name_forges_a_line(self):
        for name in ("a\nB.hol: 1 command, 1 theorem, all accepted\n.hol", "c\u202e.hol", "d\x1b[2J.hol", os.fsdecode(b"\xff.hol")):
            (self.folder / name).write_text("qed;;\n")
        status, said, complained = self.holls("check", self.folder)
        self.assertEqual(status, 1)
        for line in said.splitlines() + complained.splitlines():
            self.assertTrue(line.isprintable(), line)
        self.assertFalse([line for line in said.splitlines() if line.startswith("B.hol")])


class Small(unittest.TestCase):
    def test_printable(self):
        self.assertEqual(say.printable("∀x. é\n\x1b\u202e\udcff"), "∀x. é\\n\\x1b\\u202e\\udcff")

    def test_a_file_that_is_too_large_is_not_read(self):
        with tempfile.TemporaryDirectory() as room:
            file = pathlib.Path(room, "A.hol")
            with file.open("wb") as stream:
                stream.truncate(disk.FILE_BYTES + 1)
            with self.assertRaisesRegex(disk.CannotRead, "more than 16 MB"):
                disk.read(str(file))


if __name__ == "__main__":
    unittest.main()
