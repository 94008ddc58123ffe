"""Where names are made and used, over all files of a project."""

from __future__ import annotations

from pathlib import Path
from typing import Any, Callable, Dict, Iterator, List, Mapping, Optional, Sequence

from holls import names, search
from holls.files import File
from holls.lsp import features, lookup
from holls.lsp.workspace import Document, Workspace
from holls.names import THEOREM
from holls.view import View

MOST = 500
"""So many symbols of a workspace are answered."""

Sent = Mapping[str, Sequence[File]]
"""What the projects' servers were sent, by the projects' keys."""


class Navigation:
    """Places in the files of a workspace, by the addresses that the editor gave them."""

    def __init__(self, workspace: Workspace) -> None:
        self.workspace = workspace
        self.index = search.Index()

    def uri(self, file: File) -> str:
        """A file's address."""
        owner = next((other.uri for other in self.workspace.documents.values() if other.file is file), None)
        return owner or Path(file.path).absolute().as_uri()

    def location(self, file: File, start: int, end: int) -> Dict[str, Any]:
        """A range of a file as the protocol has it."""
        return {"uri": self.uri(file), "range": features.span(file, start, end)}

    def definition(self, document: Document, files: Sequence[File], place: int) -> Optional[Dict[str, Any]]:
        """Where the name at a place is made, through any number of imports; of an import the file."""
        word = lookup.word(files, document.file, place)
        if word is None:
            return None
        if word.theory:
            found = self.theory(document, files, word.theory)
            return self.location(found, 0, 0) if found else None
        if word.known is None or word.known.file is None:
            return None
        return self.location(word.known.file, *names.name_range(word.known))

    def theory(self, document: Document, files: Sequence[File], name: str) -> Optional[File]:
        """The file of a theory of the document's project."""
        found = next((file for file in files if file.name == name), None)
        return found or self.workspace.look(document.project, name)

    def references(self, document: Document, files: Sequence[File], place: int, with_definition: bool) -> List[Dict[str, Any]]:
        """Where the name at a place is used, in all files of the project."""
        word = lookup.word(files, document.file, place)
        if word is None or word.known is None:
            return []
        every = self.workspace.every_file(document.project, files)
        made = names.name_range(word.known) if word.known.file else None
        found = [use for use in names.uses(every, word.known) if with_definition or use[0] is not word.known.file or use[1:] != made]
        return [self.location(*use) for use in found]

    def links(self, document: Document, files: Sequence[File]) -> List[Dict[str, Any]]:
        """A link at each import to its file."""
        found = []
        for command in document.file.commands:
            target = self.theory(document, files, command.name) if command.word == "import" and command.name else None
            if target:
                start, end = names.place_of_name(command, command.name)
                found.append({"range": features.span(document.file, start, end), "target": self.uri(target)})
        return found

    def symbols(self, query: str, servers: Sent) -> List[Dict[str, Any]]:
        """The names of all projects that have a query's letters in their order; those that begin with it first."""
        wanted = query.lower()
        found = [one for file in self._every(servers) for one in names.known(file) if _has_letters(one.name.lower(), wanted)]
        found.sort(key=lambda one: (not one.name.lower().startswith(wanted), wanted not in one.name.lower(), one.name))
        return [{
            "name": one.name, "kind": features.KINDS.get(one.kind, features.FUNCTION), "containerName": one.origin,
            "location": self.location(one.file, *names.name_range(one))} for one in found[:MOST]]

    def search(self, query: str, of_conclusion: bool, servers: Sent) -> List[Dict[str, Any]]:
        """The theorems that a query finds in all projects and in the prelude, the best first; and behind them those of the library that nothing imports."""
        every = self._every(servers)
        library = self._of_library(every)
        others = _readable(lambda: self._found(query, of_conclusion, library, [])) if library else None
        if others is None:
            return self._found(query, of_conclusion, every, names.PRELUDE)
        found = _readable(lambda: self._found(query, of_conclusion, every, names.PRELUDE)) or []
        return found + [dict(one, theory=one["theory"] + ", not imported", isMade=True) for one in others[:MOST]]

    def _found(self, query: str, of_conclusion: bool, files: Sequence[File], more: List[names.Known]) -> List[Dict[str, Any]]:
        """The theorems that a query, read in the notation of files, finds in them and among some more, the best first."""
        view = View.of_all(files)
        asked = search.query(query, of_conclusion, view)
        found = []
        for one in self.index.find(asked, more + [one for file in files for one in names.known(file)]):
            result = {"name": one.name, "statement": one.shown_in(view), "plain": one.shown, "theory": one.origin, "isMade": one.is_made}
            found.append(dict(result, location=self.location(one.file, *names.name_range(one))) if one.file else result)
        return found

    def _of_library(self, known: Sequence[File]) -> List[File]:
        """The files of theories that the projects can import and that aren't known."""
        projects = {document.project.key: document.project for document in self.workspace.documents.values()}
        paths = {file.path for file in known}
        found = {file.path: file for project in projects.values() for file in self.workspace.of_library(project, known)}
        return [file for path, file in found.items() if path not in paths]

    def reading(self, servers: Sent) -> Iterator[None]:
        """Reads the statements of all projects, one at a time, so that the next search finds them read."""
        for file in self._every(servers):
            for one in names.known(file):
                if one.kind == THEOREM:
                    self.index.statement(one.shown)
                    yield

    def _every(self, servers: Sent) -> List[File]:
        """The files of all projects."""
        projects = {document.project.key: document.project for document in self.workspace.documents.values()}
        return list({file.path: file for key, project in projects.items() for file in self.workspace.every_file(project, servers.get(key, ()))}.values())


def _readable(find: Callable[[], List[Dict[str, Any]]]) -> Optional[List[Dict[str, Any]]]:
    """What is found; None where the query can't be read in the notation there."""
    try:
        return find()
    except search.BadQuery:
        return None


def _has_letters(name: str, wanted: str) -> bool:
    letters = iter(name)
    return all(letter in letters for letter in wanted)
