"""Files in the order of their imports."""

from __future__ import annotations

import os
from collections import deque
from typing import Callable, Dict, Iterable, List, Sequence, Set, Union

from holls.files import File
from holls.projects import LIBRARY, in_library
from holls.text import Blemish

Load = Callable[[File, str], Union[File, str]]
"""Reads the file of a theory that a file imports; where there is none, words why."""


def with_imports(files: Sequence[File], load: Load) -> List[File]:
    """The files and all those that they import, those of the same name once. A missing one is told at its import, and so is a circle."""
    known: Dict[str, File] = {file.name: file for file in files}
    waiting = list(known.values())
    while waiting:
        file = waiting.pop()
        for name in file.imports:
            found = known.get(name) or load(file, name)
            if isinstance(found, str):
                tell_import(file, name, found)
            elif name not in known:
                found.context = []
                known[name] = found
                waiting.append(found)
    _tell_of_library(known.values())
    _refuse_circles(known)
    share_notation(known.values())
    return list(known.values())


def _tell_of_library(files: Iterable[File]) -> None:
    """Tells of a file that stands in the place of a theory of the library which others of the library import."""
    folders = {file.name: os.path.dirname(os.path.abspath(file.path)) for file in files}
    importers = {name: file.name for file in files if folders[file.name] == LIBRARY for name in file.imports}
    for file in files:
        if file.name in importers and folders[file.name] != LIBRARY:
            told = "the library has a theory %s too, which its theory %s imports: this file stands in its place; rename it if that isn't meant"
            file.context.append(file.first_line(told % (file.name, importers[file.name]), False))


def share_notation(files: Iterable[File]) -> None:
    """Has each file know what those that it imports declare."""
    by_name: Dict[str, File] = {}
    for file in files:
        by_name.setdefault(file.name, file)
    for file in _in_order(by_name.values(), by_name, _carried_out):
        know_imports(file, by_name)


def know_imports(file: File, by_name: Dict[str, File]) -> None:
    """Has a file know what those that it imports declare."""
    file.know({name: by_name[name] for name in file.carried_out if name in by_name})


def _refuse_circles(by_name: Dict[str, File]) -> None:
    """Tells of each import that is part of a circle. None of these is carried out, so that the files' order changes nothing."""
    importers: Dict[str, List[str]] = {}
    for own, file in by_name.items():
        for name in file.imports:
            importers.setdefault(name, []).append(own)
    parts = _parts(by_name, importers)
    for own, file in by_name.items():
        refused = [name for name in file.imports if name in parts and parts[name] == parts[own]]
        file.refuse(refused)
        for name, circle in _circles(own, refused, importers, parts).items():
            tell_import(file, name, _of_circle(circle))


def _of_circle(circle: List[str]) -> str:
    """Words for a circle. Who imports a theory of the library into a file of that name means the library's."""
    if len(circle) == 1 and in_library(circle[0]):
        return "this file is the theory %s itself: rename it, so that the library's %s can be imported" % (circle[0], circle[0])
    return "imports go in a circle here: %s; take one of them out" % " imports ".join(circle + circle[:1])


def _parts(by_name: Dict[str, File], importers: Dict[str, List[str]]) -> Dict[str, str]:
    """By files' names the name of one that stands for all those that the file imports and that import it, by way of others too.

    After Kosaraju and Sharir: against the imports, from the files that stand last.
    """
    parts: Dict[str, str] = {}
    for file in reversed(_in_order(by_name.values(), by_name, _written)):
        waiting = [file.name]
        while waiting:
            name = waiting.pop()
            if name not in parts:
                parts[name] = file.name
                waiting += importers.get(name, [])
    return parts


def _circles(own: str, names: Sequence[str], importers: Dict[str, List[str]], parts: Dict[str, str]) -> Dict[str, List[str]]:
    """By some imports of a file the shortest circle that begins with each, told from its least name on, as at its other imports.

    Found against the imports, from the file on, until all of them are reached.
    """
    after: Dict[str, str] = {}
    missing, waiting = set(names), deque([own])
    while missing and waiting:
        last = waiting.popleft()
        for name in importers.get(last, ()):
            if name not in after and parts.get(name) == parts[own]:
                after[name] = last
                missing.discard(name)
                waiting.append(name)
    return {name: _from_least(own, name, after) for name in names}


def _from_least(own: str, name: str, after: Dict[str, str]) -> List[str]:
    circle = [own]
    while name != own:
        circle.append(name)
        name = after[name]
    least = circle.index(min(circle))
    return circle[least:] + circle[:least]


def tell_import(file: File, name: str, words: str) -> None:
    """Tells of each import of a theory that it can't be carried out."""
    for command in file.import_commands.get(name, ()):
        file.context.append(Blemish(command.start, command.end, words, True))


def ordered(files: Sequence[File]) -> List[File]:
    """The files, each after those that it imports."""
    return _in_order(files, {file.name: file for file in files}, _carried_out)


def all_imports(file: File, by_name: Dict[str, File]) -> List[File]:
    """The files that a file imports, also by way of others, each after those that it imports, without the file itself."""
    return [other for other in ordered_from(file, by_name) if other is not file]


def ordered_from(file: File, by_name: Dict[str, File]) -> List[File]:
    """A file and those that it imports, each after those that it imports."""
    return _in_order([file], by_name, _carried_out)


def is_importing(file: File, other: File, by_name: Dict[str, File]) -> bool:
    """Whether a file imports another, also by way of others and where it is refused; or is it."""
    return other in _in_order([file], by_name, _written)


def _written(file: File) -> Sequence[str]:
    return file.imports


def _carried_out(file: File) -> Sequence[str]:
    return file.carried_out


def _in_order(files: Iterable[File], by_name: Dict[str, File], imports: Callable[[File], Sequence[str]]) -> List[File]:
    """The files and those that they import, each behind its imports, by a stack of its own."""
    order: List[File] = []
    seen: Set[str] = set()
    for first in files:
        stack = [] if first.name in seen else [(first, iter(imports(first)))]
        seen.add(first.name)
        while stack:
            file, names = stack[-1]
            name = next((name for name in names if name in by_name and name not in seen), None)
            if name is None:
                order.append(file)
                stack.pop()
            else:
                seen.add(name)
                stack.append((by_name[name], iter(imports(by_name[name]))))
    return order
