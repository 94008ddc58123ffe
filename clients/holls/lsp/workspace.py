"""The open files, and those on disk that they import, as theories of a server for each project."""

from __future__ import annotations

import os
from bisect import bisect_right
from dataclasses import dataclass
from typing import Any, Dict, List, Optional, Sequence, Tuple, Union
from urllib.parse import unquote, urlparse

from holls import disk, files, graph, places, protocol
from holls.disk import Moment, changed
from holls.files import File
from holls.projects import OneProject, Project, Projects
from holls.theory import Job

AROUND = 40
"""So many lines around the cursor count as seen where the editor doesn't say what is."""

Range = Tuple[int, int]
Versions = Tuple[Tuple[int, int], ...]
"""The imported files, each by itself and the number of its edits."""


def path_of(uri: str) -> str:
    """The path of a document's address; of one that is no file, its last part is kept."""
    parsed = urlparse(uri)
    path = unquote(parsed.path)
    windows = os.name == "nt" and len(path) > 2 and path[0] == "/" and path[2] == ":"
    return path[1:] if windows else path


@dataclass
class Document:
    """An open file: its project, its version, where the cursor is, and which lines are seen.

    `told` is the last version of which all that is seen was published, `published` what was sent last, `unknown` which ranges were
    shown as not known last, `due` when more is sent.
    """

    uri: str
    file: File
    project: Project
    version: Optional[int]
    cursor: int = 0
    seen: Optional[Range] = None
    told: Any = -1
    due: Optional[float] = None
    published: Any = None
    unknown: Any = None
    state: Any = None

    def place(self, position: Dict[str, int]) -> int:
        """The place of an editor's position."""
        return self.file.lines.place(int(position["line"]), int(position["character"]))

    def view(self) -> List[Job]:
        """The jobs of what is seen: the command at the cursor first, then those above it in its proof, whose reports say what its own
        means; then the rest, from the beginning of the first one's proof."""
        lines = self.file.lines
        middle = lines.line(min(self.cursor, len(lines.text)))
        first, last = self.seen or (middle - AROUND, middle + AROUND)
        start, end = lines.place(first, 0), lines.place(last + 1, 0)
        at = self.file.number_at(self.cursor)
        numbers = [] if at is None else [at] + list(range(self.file.proof_begin(at), at))
        first = max(0, bisect_right(self.file.starts, start) - 1)
        seen = list(range(first + (first < len(self.file.commands) and self.file.commands[first].end < start), bisect_right(self.file.starts, end)))
        numbers += list(range(self.file.proof_begin(seen[0]), seen[-1] + 1)) if seen else []
        return self.file.jobs(numbers)

    def is_seen_known(self) -> bool:
        """Whether all that is seen has its report."""
        return all(theory.entries[at].report is not None for theory, at in self.view())


class Workspace:
    """The documents by their addresses, and the files on disk that they import."""

    def __init__(self, projects: Union[Projects, OneProject, None] = None) -> None:
        self.documents: Dict[str, Document] = {}
        self.projects = projects or Projects()
        self._loaded: Dict[str, Tuple[Moment, File]] = {}
        self._looked_at: Dict[str, Tuple[Moment, File]] = {}
        self._imported: Dict[str, Versions] = {}
        self._standing: Optional[File] = None

    def stand(self, names: Sequence[str]) -> None:
        """Has theories stand, with what they import, whatever is open: by a file that is never sent, since it has no name."""
        self._standing = File("")
        self._standing.take("".join("import %s;;\n" % name for name in names))

    def open(self, uri: str, version: Optional[int], text: str) -> Document:
        """A document is opened."""
        path = path_of(uri)
        document = Document(uri, File(path), self.projects.of(path), version)
        document.file.take(text)
        self.documents[uri] = document
        return document

    def change(self, document: Document, version: Optional[int], changes: List[Dict[str, Any]]) -> None:
        """A document is changed: by ranges, or as a whole."""
        lines = document.file.lines
        for change in changes:
            if change.get("range") is None:
                lines = places.Lines(change["text"])
                continue
            start, end = (change["range"][side] for side in ("start", "end"))
            text, document.cursor = places.changed(
                lines, (start["line"], start["character"]), (end["line"], end["character"]), change["text"])
            lines = places.Lines(text)
        document.version = version
        document.file.take(lines.text, lines)

    def is_stale(self) -> bool:
        """Whether a file that was read from disk has changed there, or a project has other files."""
        is_changed = self.projects.refresh()
        for document in self.documents.values():
            document.project = self.projects.of(document.file.path)
        return is_changed or any(changed(path) != moment for path, (moment, _) in self._loaded.items())

    def groups(self) -> Dict[str, List[File]]:
        """By projects, the files that are sent, each after those that it imports. What an import changed is forgotten below it."""
        admitted: Dict[str, List[File]] = {}
        projects: Dict[str, Project] = {}
        used: List[str] = []
        for document in self._admitted():
            projects[document.project.key] = document.project
            admitted.setdefault(document.project.key, []).append(document.file)
        if self._standing is not None:
            project = self.projects.of(self._standing.path)
            projects[project.key] = project
            admitted.setdefault(project.key, []).append(self._standing)
        for key, own in admitted.items():
            admitted[key] = self._sent(projects[key], own, used)
        self._loaded = {path: loaded for path, loaded in self._loaded.items() if path in used}
        return admitted

    def look(self, project: Project, name: str) -> Optional[File]:
        """The file of a theory of a project, as it is open or on disk; None where there is none."""
        path = project.find(name)
        return None if isinstance(path, list) else self._at(path)

    def every_file(self, project: Project, sent: Sequence[File]) -> List[File]:
        """All files of a project: those that are open, those that its server was sent, also of the library, and the others on disk."""
        known = {os.path.abspath(file.path): file for file in sent}
        known.update((os.path.abspath(document.file.path), document.file) for document in self.documents.values() if document.project is project)
        names = {file.name for file in known.values()} if isinstance(self.projects, OneProject) else ()
        others = [self._at(path) for path in project.paths() if os.path.abspath(path) not in known and files.theory_name(path) not in names]
        found = list(known.values()) + [file for file in others if file is not None]
        graph.share_notation(self._with_imports(project, found))
        return found

    def of_library(self, project: Project, known: Sequence[File]) -> List[File]:
        """The files of theories that a project can import and that aren't known yet; where there is one project, `every_file` has them."""
        if isinstance(self.projects, OneProject):
            return []
        paths = {os.path.abspath(file.path) for file in known}
        found = [self._at(path) for path in project.with_library() if os.path.abspath(path) not in paths]
        others = [file for file in found if file is not None]
        graph.share_notation(self._with_imports(project, others))
        return others

    def _with_imports(self, project: Project, found: Sequence[File]) -> List[File]:
        """Some files of a project with those that they import, by way of others too: what an open file imports isn't forgotten by looking at others."""
        by_name = {file.name: file for file in reversed(found)}
        waiting = list(by_name.values())
        while waiting:
            missing = [name for name in waiting.pop().imports if name not in by_name]
            new = {name: file for name, file in ((name, self.look(project, name)) for name in missing) if file is not None}
            by_name.update(new)
            waiting += new.values()
        return list(by_name.values())

    def _at(self, path: str) -> Optional[File]:
        """The file at a path."""
        opened = next((document.file for document in self.documents.values() if os.path.abspath(document.file.path) == path), None)
        if opened:
            return opened
        moment = changed(path)
        if path in self._loaded and self._loaded[path][0] == moment:
            return self._loaded[path][1]
        if path not in self._looked_at or self._looked_at[path][0] != moment:
            try:
                self._looked_at[path] = moment, files.read(path, disk.read(path))
            except disk.CannotRead:
                return None
        return self._looked_at[path][1]

    def _sent(self, project: Project, own: List[File], used: List[str]) -> List[File]:
        """The files of a project that are sent; `used` takes the paths of those that were read."""
        def load(_: File, name: str) -> Union[File, str]:
            return self._load(project, name, used)

        found = graph.ordered([file for file in graph.with_imports(own, load) if file.is_sent])
        for file in found[protocol.THEORIES:]:
            told = "a server holds %d theories, and the open files with those that they import are %d: close some, or import fewer" % (
                protocol.THEORIES, len(found))
            file.is_shadowed = True
            file.context.append(file.first_line(told))
        del found[protocol.THEORIES:]
        for file in found:
            file.neighbours = project.with_library
        edits = {file.name: (id(file), file.theory) for file in found}
        for file in found:
            imported = [edits[name] for name in file.theory.imports if name in edits]
            self._forget(file, tuple((number, theory.edits) for number, theory in imported))
        return found

    def _admitted(self) -> List[Document]:
        """The documents that can be theories; the others are told why they can't."""
        owners: Dict[Tuple[str, str], File] = {}
        for document in self.documents.values():
            file, root = document.file, document.project.key
            owner = owners.setdefault((root, file.name), file)
            is_over = owner is file and sum(other == root for other, _ in owners) > protocol.THEORIES
            file.context, file.is_shadowed = [], owner is not file or is_over
            if document.project.error:
                file.context.append(file.first_line(document.project.error))
            if is_over:
                told = "a server holds %d theories, and as many files are open before this one: close some" % protocol.THEORIES
                file.context.append(file.first_line(told))
            elif owner is not file:
                told = "the open file %s is the theory %s already: close it, or rename one" % (owner.path, file.name)
                file.context.append(file.first_line(told))
        return [document for document in self.documents.values() if document.file.is_sent]

    def _forget(self, file: File, imported: Versions) -> None:
        """Forgets what is known below a file's first import, where an import's theory has changed."""
        first = next((number for number, command in enumerate(file.commands) if command.word == "import"), None)
        slot = None if first is None else file.slot(first)
        if slot is not None and self._imported.get(file.path) not in (None, imported):
            file.theory.forget(slot)
        self._imported[file.path] = imported

    def _load(self, project: Project, name: str, used: List[str]) -> Union[File, str]:
        """A file on disk, as it is now; or why there is none."""
        path = project.find(name)
        if isinstance(path, list):
            return project.missing(name)
        moment = changed(path)
        used.append(path)
        if path not in self._loaded or self._loaded[path][0] != moment:
            try:
                self._loaded[path] = moment, files.read(path, disk.read(path))
            except disk.CannotRead as error:
                return "%s %s" % (path, error)
        file = self._loaded[path][1]
        file.is_shadowed = False
        return file
