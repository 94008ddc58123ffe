"""How soon a search begins in an editor: in a project of the whole library, over what stands and is known from the search before."""

import pathlib
import shutil
import tempfile
import time
import types
import unittest
from unittest import mock

from holls.files import File
from holls.lsp import proving
from holls.lsp.workspace import Workspace
from holls.prover import command
from tests.helpers import BUILT, ROOT, SECONDS, slowness

SOON = 0.05
"""So many seconds of the processor may pass from the key to the first that is tried."""
IMPORTS = "".join("import %s;;\n" % name for name in ("arithmetic", "linear", "set_laws", "list_laws", "packages"))
LEMMA = "g L%d `!n m. n + m = m + n`;;\ne ACCEPT_TAC ADD_SYM;;\nqed;;\n"
GOAL = "g A `!n m k. n + m + k = k + m + n`;;\ne REPEAT GEN_TAC;;\n"


class Bridge:
    """What a search asks of the bridge; when it is told the first that is tried is kept."""

    def __init__(self):
        self.program = types.SimpleNamespace(words=[str(BUILT)])
        self.searches, self.failure, self.limits = proving.Searches(), None, types.SimpleNamespace(is_held=True)
        self.events, self.first = types.SimpleNamespace(put=self.take), None

    def warm(self, document):
        """The server for the document's searches."""
        return self.searches.of(document.project.key, self.program.words, False)

    def spent(self, document):
        """The seconds that this process and the program have had of the processor."""
        asker = self.warm(document)._asker
        return time.process_time() + (asker.processor_seconds() if asker else 0.0)

    def take(self, event):
        """Takes the first that a search tries, which is then cancelled."""
        if isinstance(event, proving.Tried) and self.first is None:
            self.first = self.spent(self.document)
            event.search.is_cancelled = True


@unittest.skipUnless(BUILT.exists(), "hol_serve isn't built")
class InAnEditor(unittest.TestCase):
    def setUp(self):
        self.folder = pathlib.Path(tempfile.mkdtemp()).resolve()
        self.addCleanup(shutil.rmtree, str(self.folder), True)
        for path in (ROOT / "theories").glob("*.hol"):
            (self.folder / path.name).symlink_to(path)
        self.lemmas = [LEMMA % number for number in range(60)]
        self.workspace, self.bridge = Workspace(), Bridge()
        self.addCleanup(self.bridge.searches.stop)
        self.document = self.bridge.document = self.workspace.open((self.folder / "mine.hol").as_uri(), 1, self.text())
        self.files = self.workspace.groups()[str(self.folder)]

    def text(self):
        """A file in a project of the whole library, with a goal behind its lemmas."""
        return IMPORTS + "".join(self.lemmas) + GOAL

    def search(self):
        """The seconds of the processor from the key to the first that a search tries, which is ended then."""
        number = len(self.document.file.commands) - 1
        self.bridge.first, begun = None, self.bridge.spent(self.document)
        search = proving.begin(self.bridge, self.document, self.files, number, "")
        self.assertTrue(search.done.wait(SECONDS))
        self.assertIsNotNone(self.bridge.first, search.failure)
        self.assertEqual(search.failure, "the search was cancelled")
        return self.bridge.first - begun

    def test_a_search_begins_at_once(self):
        self.search()
        self.assertLess(min(self.search() for _ in range(5)), SOON * slowness())

    def test_a_search_behind_a_new_theorem_begins_at_once(self):
        self.search()
        found = []
        for number in range(100, 104):
            self.lemmas.append(LEMMA % number)
            self.document.file.take(self.text())
            self.document.file.commands
            found.append(self.search())
            self.assertIn("L%d" % number, self.bridge.warm(self.document)._known[1].scope.theorems)
        self.assertLess(min(found), SOON * slowness())

    def test_what_does_not_change_is_not_read_again(self):
        self.search()
        with mock.patch.object(File, "_take_notation", autospec=True, side_effect=File._take_notation) as read, \
                mock.patch.object(command, "_read", side_effect=command._read) as others:
            self.search()
        self.assertEqual((read.call_count, others.call_count), (0, 0))
        asker = self.bridge.warm(self.document)._asker
        with mock.patch.object(asker, "theorems", side_effect=asker.theorems) as asked:
            self.lemmas.append(LEMMA % 100)
            self.document.file.take(self.text())
            self.search()
            self.lemmas.append("g WRONG `F`;;\ne ACCEPT_TAC ADD_SYM;;\nqed;;\n")
            self.document.file.take(self.text())
            self.search()
        self.assertEqual(asked.call_count, 0)
        standing = self.bridge.warm(self.document)._known[1].scope.theorems
        self.assertIn("L100", standing)
        self.assertNotIn("WRONG", standing)
