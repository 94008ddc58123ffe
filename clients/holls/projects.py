"""Projects: which files are theories of one server, and where an imported theory's file is.

A project is a folder with a project file, `hol-project.json`: `{"folders": ["theories", "library"]}` names the folders, relative to its
own, whose files and those in whose subfolders are its theories; without `folders` it is the project file's own folder. A subfolder with a
project file of its own is left out, unless it is named. A file belongs to the project of the nearest project file at it or above it; where
there is none, or its folders don't have the file, it belongs with those in its own folder, without subfolders.
"""

from __future__ import annotations

import json
import os
from functools import lru_cache
from typing import Dict, List, Optional, Sequence, Tuple, Union

from holls import carried, disk
from holls.disk import Moment, changed

PROJECT_FILE = "hol-project.json"
SUFFIX = ".hol"
MOST_FILES = 10_000
MOST_FOLDERS = 2_000
PROJECT_FILE_BYTES = 1 << 20
_MOST_LETTERS, _LIKE = 100, 0.8
"""Of a name of fewer letters it is told which one was meant, where so much of both is the same."""
LIBRARY = str(carried.folder("theories"))
"""The library: its theories are found from everywhere, where the project has none of the name."""

Stamp = Dict[str, Moment]
"""Paths as they were before they were read."""


class Project:
    """A folder of theories, or those that a project file names. `key` is what no other project has.

    Where `within` names folders, no theory that lies outside of them is found.
    """

    has_library = True

    def __init__(self, root: str, has_file: bool = False, within: Sequence[str] = ()) -> None:
        self.root, self.has_file, self.within = root, has_file, within
        self.key = os.path.join(root, PROJECT_FILE) if has_file else root
        self.error: Optional[str] = None
        self.folders: List[str] = [root]
        self._paths: Dict[str, List[str]] = {}
        self._stamp: Stamp = {}
        self._left_out: List[str] = []
        self.refresh()

    def refresh(self) -> None:
        """Reads the project file and looks for files anew."""
        self.error = None
        own = {}
        if self.has_file:
            path = os.path.join(self.root, PROJECT_FILE)
            own[path] = changed(path)
            self._read(path)
        self._paths, self._stamp, self._left_out = _scan(self.folders, self.has_file)
        if self.has_file and len(self._stamp) >= MOST_FOLDERS and not self.error:
            self.error = "%s names more than %d folders, with those below: the others weren't looked into; name fewer" % (path, MOST_FOLDERS)
        self._stamp.update(own)

    def is_stale(self) -> bool:
        """Whether the project file, or what is in a folder, has changed since it was looked at."""
        return any(changed(path) != moment for path, moment in self._stamp.items())

    def has_folder(self, folder: str) -> bool:
        """Whether the files in a folder are of the project. One that isn't there yet is where it will be."""
        if os.path.isdir(folder):
            return folder in self._stamp and folder not in self._left_out
        return any(os.path.join(folder, "").startswith(os.path.join(own, "")) for own in self.folders)

    def find(self, name: str) -> Union[str, List[str]]:
        """The path of a theory's file; or all such paths, where there are none or several."""
        found = self._found(name)
        return found[0] if len(found) == 1 else found

    def _found(self, name: str) -> List[str]:
        found = self._paths.get(name) or (in_library(name) if self.has_library else [])
        return [path for path in found if any(disk.is_within(path, folder) for folder in self.within)] if self.within else found

    def missing(self, name: str) -> str:
        """Words for a theory that has no file, or several."""
        found = self._found(name)
        if self._paths.get(name) and not found:
            return "the file %s lies outside of %s, which --within names" % (self._paths[name][0], " and ".join(self.within))
        if not found and self.has_library and in_library(name):
            return "the theory %s is the library's, which lies outside of %s: add --within %s" % (name, " and ".join(self.within), LIBRARY)
        if found:
            return "the theory %s has several files in this project: %s; rename all but one" % (name, ", ".join(found))
        where = ", ".join(self.folders) + (" and below" if self.has_file else "") + (" or in the library" if self.has_library else "")
        cut = "; of its files only %d were looked at" % MOST_FILES if len(self.paths()) >= MOST_FILES else ""
        return "there is no file %s%s in %s%s%s" % (name, SUFFIX, where, cut, self._meant(name))

    def _meant(self, name: str) -> str:
        """Words on a theory that can be imported and whose name is like one that has no file."""
        from difflib import get_close_matches  # Which takes a while to load, and is seldom needed.

        known = [other for other in self.importable()[:MOST_FILES] if self._found(other)] if len(name) < _MOST_LETTERS else []
        near = get_close_matches(name, known, 1, _LIKE)
        return "; did you mean %s?" % near[0] if near else ""

    def paths(self) -> List[str]:
        """All files of the project."""
        return sorted(path for found in self._paths.values() for path in found)

    def with_library(self) -> List[str]:
        """All files of the project, and those of the library whose theories can be imported here."""
        return self.paths() + [path for name in self.importable() if name not in self._paths for path in self._found(name)]

    def importable(self) -> List[str]:
        """The theories that can be imported here."""
        return sorted({*self._paths, *(names_of_library() if self.has_library else ())})

    def names(self) -> List[str]:
        """The theories that have a file in the project."""
        return sorted(self._paths)

    def _read(self, path: str) -> None:
        self.folders = [self.root]
        try:
            told = json.loads(disk.read(path, PROJECT_FILE_BYTES).decode("utf-8"))
            folders = told.get("folders", ["."])
            if not isinstance(folders, list) or not all(isinstance(folder, str) and _is_path(folder) for folder in folders):
                raise ValueError("`folders` has to be a list of folders' names")
            self.folders = [os.path.normpath(os.path.join(self.root, folder)) for folder in folders]
            self.error = self._odd(path, told)
        except disk.CannotRead as error:
            self.error = "%s %s" % (path, error)
        except RecursionError:
            self.error = "%s can't be read: its brackets are too deep" % path
        except (ValueError, AttributeError) as error:
            self.error = "%s can't be read: %s" % (path, error)


    def _odd(self, path: str, told: Dict[str, object]) -> Optional[str]:
        """What a project file says that means nothing."""
        other = next((key for key in told if key != "folders"), None)
        if other is not None:
            return "%s: the key `%s` means nothing; `folders` names the folders" % (path, other)
        missing = next((folder for folder in self.folders if not os.path.isdir(folder)), None)
        return None if missing is None else "%s: there is no folder %s" % (path, missing)


def in_library(name: str) -> List[str]:
    """The library's file of a theory, if it has one."""
    path = os.path.join(LIBRARY, name + SUFFIX)
    return [path] if name.isidentifier() and os.path.isfile(path) else []


@lru_cache(maxsize=1)
def names_of_library() -> Tuple[str, ...]:
    """The theories of the library, which doesn't change while a client runs."""
    return tuple(name[:-len(SUFFIX)] for name in _listed(LIBRARY)[0])


def _is_path(name: str) -> bool:
    """Whether a file may have the name."""
    try:
        return b"\0" not in os.fsencode(name)
    except UnicodeEncodeError:
        return False


class Held(Project):
    """The one project of an editor that holds its files itself, as the page does: beside them stand those of a library, and of other folders before it,
    which never change."""

    has_library = False

    def __init__(self, library: Optional[str], before: Sequence[str] = ()) -> None:
        self._before = before
        super().__init__(library or "")
        self.key = "held"

    def refresh(self) -> None:
        """Looks for the files of the folders, once."""
        if not self._paths:
            self._paths = _scan([folder for folder in (*self._before, *self.folders) if folder], True)[0]

    def _found(self, name: str) -> List[str]:
        return self._paths.get(name, [])[:1]

    def is_stale(self) -> bool:
        """Never."""
        return False

    def missing(self, name: str) -> str:
        """Words for a theory that isn't there."""
        return "there is no theory %s here: open it, or make a new one of that name%s" % (name, self._meant(name))


class OneProject:
    """What stands in the place of `Projects` where all documents are of one project, and nothing on disk changes."""

    def __init__(self, library: Optional[str], before: Sequence[str] = ()) -> None:
        self._project = Held(library, before)

    def of(self, _: str) -> Project:
        """The project."""
        return self._project

    def refresh(self) -> bool:
        """Whether something has changed: nothing."""
        return False


def _scan(folders: List[str], is_deep: bool) -> Tuple[Dict[str, List[str]], Stamp, List[str]]:
    """The files of theories by their theories' names, the folders that were looked into, and those of them that are left out."""
    found: Dict[str, List[str]] = {}
    stamp: Stamp = {}
    left_out: List[str] = []
    number, waiting = 0, folders[::-1]
    while waiting and len(stamp) < MOST_FOLDERS:
        folder = waiting.pop()
        if folder in stamp:
            continue
        stamp[folder] = changed(folder)
        if folder not in folders and os.path.isfile(os.path.join(folder, PROJECT_FILE)):
            left_out.append(folder)
            continue
        files, below = _listed(folder)
        for name in files[:max(0, MOST_FILES - number)]:
            found.setdefault(name[:-len(SUFFIX)], []).append(os.path.join(folder, name))
        number += len(files)
        waiting += [os.path.join(folder, name) for name in reversed(below)] if is_deep else []
    return found, stamp, left_out


def _listed(folder: str) -> Tuple[List[str], List[str]]:
    """The files of theories in a folder, and the folders in it that aren't hidden. What is neither is passed over."""
    try:
        with os.scandir(folder) as entries:
            every = sorted(entries, key=lambda entry: entry.name)
    except (OSError, ValueError):
        return [], []
    below = [entry.name for entry in every if not entry.name.startswith(".") and disk.is_folder(entry)]
    return [entry.name for entry in every if entry.name.endswith(SUFFIX) and disk.is_regular(entry)], below


class Projects:
    """The projects by the folders of their files. With `within` no theory outside of these folders is found."""

    def __init__(self, within: Sequence[str] = ()) -> None:
        self._within = within
        self._by_folder: Dict[str, Tuple[Optional[str], Project]] = {}
        self._by_root: Dict[Tuple[str, bool], Project] = {}

    def of(self, path: str) -> Project:
        """The project of a file."""
        folder = os.path.dirname(os.path.abspath(path))
        if folder not in self._by_folder:
            root = _root(folder)
            self._by_folder[folder] = root, self._in(folder, root)
        return self._by_folder[folder][1]

    def _in(self, folder: str, root: Optional[str]) -> Project:
        """The project of a folder's files, where the nearest project file is in `root`. What is wrong with that is told in any case."""
        project = None if root is None else self._at(root, True)
        if project and project.has_folder(folder):
            return project
        own = self._at(folder, False)
        own.error = project.error if project else None
        return own

    def _at(self, root: str, has_file: bool) -> Project:
        key = root, has_file
        if key not in self._by_root:
            self._by_root[key] = Project(root, has_file, self._within)
        return self._by_root[key]

    def refresh(self) -> bool:
        """Looks at those anew in which something has changed. Answers whether there was one, or a project file has come or gone."""
        if any(_root(folder) != root for folder, (root, _) in self._by_folder.items()):
            self._by_folder.clear()
            self._by_root.clear()
            return True
        stale = [project for project in self._by_root.values() if project.is_stale()]
        for project in stale:
            project.refresh()
        if stale:
            self._by_folder.clear()
        return bool(stale)


def _root(folder: str) -> Optional[str]:
    """The nearest folder, this one or one above it, that has a project file."""
    while True:
        if os.path.isfile(os.path.join(folder, PROJECT_FILE)):
            return folder
        above = os.path.dirname(folder)
        if above == folder:
            return None
        folder = above
