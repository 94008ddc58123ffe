"""`holls search`: finds theorems in files, by words of their names and by a pattern of what they state."""

from __future__ import annotations

import argparse
import json
import os
import queue
from typing import Dict, Iterator, List, Optional, Sequence, Tuple

from holls import check, checking, names, protocol, search, server
from holls.checking import SERVED, Unit
from holls.files import File
from holls.names import PRELUDE, THEOREM, Known
from holls.projects import LIBRARY
from holls.say import complain, say
from holls.session import AHEAD, Session
from holls.sweep import Sweep
from holls.view import View

NONE, BROKEN = 1, 2
ELSEWHERE = ": none of the files that are searched declares or imports it; --in FILE searches others"
MOST_OF_LIBRARY = 50
"""So many theorems of the library are written, where it isn't named by --in."""


def add_words(parser: argparse.ArgumentParser) -> None:
    """The words of the command line."""
    parser.add_argument("query", nargs="+", metavar="QUERY", help="parts of names; or a pattern of the statement, as '_ /\\ _ ==> _', "
                        "beside names between backquotes")
    parser.add_argument("--in", dest="files", action="append", metavar="FILE", help="a file or folder to search (the folder one works in, and "
                        "behind it the library); may be given again")
    parser.add_argument("--conclusion", action="store_true", help="the pattern is of the whole statement or of what it concludes, of no part")
    parser.add_argument("--written", action="store_true", help="take the statements as they are written, proved or not, without the program")
    parser.add_argument("--server", metavar="PROGRAM", help="the program hol_serve")
    parser.add_argument("--json", action="store_true", help="one JSON object a line")
    parser.add_argument("--seconds", type=int, default=120, help="how long one command may take (120)")


def main(given: argparse.Namespace) -> int:
    """Writes the theorems found, the best first: status 0 where there are some, 1 where none, 2 where nothing can be searched."""
    try:
        units = _once(checking.units(check.ordered(_files(given.files))))
        library = [] if given.files else _library(units)
        others = _readable(given, library, list(_written(library))) if library else None
        is_read = _readable(given, units, []) is not None
        found = _found(given, units, _known(given, units) if is_read else []) if is_read or others is None else []
    except (search.BadQuery, check.CannotCheck, server.NoServer) as error:
        complain("%s%s" % (error, ELSEWHERE if str(error).endswith("begins no symbol") else ""))
        return BROKEN
    others = others or []
    for one, view in (*found, *others[:MOST_OF_LIBRARY]):
        _show(one, given.json, view)
    if others[MOST_OF_LIBRARY:] and not given.json:
        say(".. and %d more in the library: --in %s" % (len(others) - MOST_OF_LIBRARY, LIBRARY))
    return 0 if found or others else NONE


def _known(given: argparse.Namespace, units: Sequence[Unit]) -> List[Known]:
    """What is searched of the prelude and of files."""
    as_written = given.written or not units
    return PRELUDE + list(_written(units) if as_written else _standing(units, server.find(given.server), given.seconds))


def _found(given: argparse.Namespace, units: Sequence[Unit], known: Sequence[Known]) -> List[Tuple[Known, View]]:
    """What the query finds, read in the notation of files, the best first. Raises BadQuery."""
    view = View.of_all(unit.file for unit in units)
    return [(one, view) for one in search.Index().find(search.query(" ".join(given.query), given.conclusion, view), known)]


def _readable(given: argparse.Namespace, units: Sequence[Unit], known: Sequence[Known]) -> Optional[List[Tuple[Known, View]]]:
    """The same; None where the query can't be read in the notation there."""
    try:
        return _found(given, units, known)
    except search.BadQuery:
        return None


def _library(units: Sequence[Unit]) -> List[Unit]:
    """The library's files that aren't among these. They are searched as they are written: their theorems all stand."""
    own = {os.path.realpath(unit.file.path) for unit in units}
    every = checking.units(check.ordered([LIBRARY])) if os.path.isdir(LIBRARY) else []
    return [unit for unit in every if os.path.realpath(unit.file.path) not in own]


def _files(named: Optional[List[str]]) -> List[str]:
    """The files and folders that are named; else the folder that one works in, or none where it has no files."""
    if named:
        return named
    return ["."] if any(name.endswith(check.SUFFIX) for _, _, below in os.walk(".") for name in below) else []


def _once(units: Sequence[Unit]) -> List[Unit]:
    """Each file once, though several projects may have it."""
    found: Dict[str, Unit] = {}
    for unit in units:
        found.setdefault(os.path.realpath(unit.file.path), unit)
    return list(found.values())


def _written(units: Sequence[Unit]) -> Iterator[Known]:
    """All that the files make, as it is written."""
    for unit in units:
        yield from names.known(unit.file)


def _standing(units: Sequence[Unit], program: List[str], seconds: int) -> Iterator[Known]:
    """What stands at each file's end, as the program shows it."""
    events: "queue.Queue[object]" = queue.Queue()
    session = Session(program, events, SERVED, Sweep(), lambda: None, seconds, AHEAD)
    standing: List[File] = []
    root = ""
    for unit in units:
        files = unit.imports + [unit.file]
        if not unit.file.is_sent or len(files) > protocol.THEORIES:
            complain("%s isn't searched: it can be no theory of one server" % unit.file.path)
            continue
        standing, root = checking.joined(standing if root == unit.root else [], files), unit.root
        session.want([file.theory for file in standing])
        shown = _ask(session, events, unit.file)
        for one in names.written(unit.file):
            if one.kind != THEOREM:
                yield Known(one.kind, one.name, one.text, unit.file, one.number)
            elif one.name in shown:
                yield Known(one.kind, one.name, shown[one.name], unit.file, one.number)
    session.stop()


def _ask(session: Session, events: "queue.Queue[object]", file: File) -> Dict[str, str]:
    """The statements of the theorems that stand at a file's end, by their names."""
    said: List[object] = []
    session.ask(protocol.line({"op": "theorems", "theory": file.name}), said.append)
    while not said and not session.failure:
        try:
            session.hear(events.get(timeout=session.deadline()))
        except queue.Empty:
            session.tick()
    if session.failure or not isinstance(said[0], protocol.Theorems):
        told = "hol_serve gave no list of the theorems of %s; --seconds N gives it more time" % file.path
        raise server.NoServer(session.failure or told)
    parts = [text.split(" ", 2) for text in said[0].texts]
    return {name: rest[len("|- "):] for _, name, rest in parts}


def _show(one: Known, as_json: bool, view: View) -> None:
    where = (one.file.path, one.file.lines.line(names.name_range(one)[0]) + 1) if one.file else ("prelude", 0)
    if as_json:
        print(json.dumps({"file": where[0], "line": where[1], "name": one.name, "statement": one.shown_in(view), "plain": one.shown}))
    else:
        say("%s: %s |- %s" % ("%s:%d" % where if one.file else where[0], one.name, " ".join(one.shown_in(view).split())))
