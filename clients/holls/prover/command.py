"""`holls prove`: finds a proof of the goal that is open at a line of a file, and writes its steps."""

from __future__ import annotations

import argparse
import json
import os
import re
import sys
from typing import Any, Dict, List, Optional, Sequence, Set

from holls import check, checking, declaring, graph, server
from holls.checking import Unit
from holls.files import File, theory_name
from holls.projects import Project, Projects
from holls.prover import serving, trying
from holls.prover.asking import Silent
from holls.prover.finder import Unprovable
from holls.prover.warm import Answer, NoGoal, Others, Request, Warm
from holls.surface.translation import in_notation

NONE, BROKEN = 1, 2
SECONDS = 5.0
_MOST_OTHERS = 59
"""So many files that aren't imported are read."""
_START_SECONDS = 60.0
"""So long a server may need for a search beside the search itself."""
_MOST_SECONDS = 3600
_PLACE = re.compile(r"(.+):([0-9]+)\Z")


def add_words(parser: argparse.ArgumentParser) -> None:
    """The words of the command line."""
    parser.add_argument("place", metavar="FILE:LINE", nargs="?", help="the goal that is open behind the line's last command")
    parser.add_argument("rest", nargs="*", metavar="with NAME..", help="the theorems that a proof may take first")
    parser.add_argument("--seconds", type=float, default=SECONDS, help="how long the search may take (%g)" % SECONDS)
    parser.add_argument("--arith", action="store_true", help="by arithmetic alone: linear, and equations of polynomials")
    parser.add_argument("--several", action="store_true", help="other proofs too, the shortest first")
    parser.add_argument("--simplify", action="store_true", help="steps that make the goal simpler, whether they close it or not")
    parser.add_argument("--server", metavar="PROGRAM", help="the program hol_serve")
    parser.add_argument("--json", action="store_true", help="one JSON object")
    parser.add_argument("--serve", metavar="FOLDER", help="answer for the project of a folder until the input ends, so that each search begins at once")


def main(given: argparse.Namespace) -> int:
    """Writes steps: status 0 where they close the goal, 1 where none were found, 2 where no goal is open or nothing can be asked."""
    try:
        program = server.find(given.server)
        if given.serve is not None:
            return _serve(given.serve, program)
        answer = _asked(given, program)
        if answer is not None:
            print(answer["out"], end="")
            print(answer["error"], end="", file=sys.stderr)
            return int(answer["status"])
        warm = Warm(program)
        try:
            print(_found(given, warm))
        finally:
            warm.stop()
    except _NoSteps as none:
        print(none.text)
        return NONE
    except (check.CannotCheck, server.NoServer, NoGoal, Silent, Unprovable, serving.Unsafe, OSError) as error:
        print("holls: %s" % error, file=sys.stderr)
        return BROKEN
    return 0


class _NoSteps(Exception):
    """No steps were found; the text says so."""

    def __init__(self, text: str) -> None:
        super().__init__(text)
        self.text = text


def _found(given: argparse.Namespace, warm: Warm) -> str:
    """What is to be written of the steps that are found."""
    place = _PLACE.match(given.place or "")
    if not place or given.rest and (given.rest[0] != "with" or len(given.rest) < 2):
        raise NoGoal("write FILE:LINE, and then perhaps `with` and names of theorems")
    request = _request(place.group(1), int(place.group(2)) - 1, given)
    answer = warm.search(request)
    every = sorted([answer.steps, *map(list, answer.others)], key=trying.length) if answer.steps else [[]]
    written = [[in_notation_at(request.file, answer.number, step) for step in steps] for steps in every]
    text = _json(answer._replace(steps=every[0] if answer.steps else None), written) if given.json else _text(answer, written)
    if answer.steps is None:
        raise _NoSteps(text)
    return text


def _asked(given: argparse.Namespace, program: Sequence[str]) -> Optional[Dict[str, Any]]:
    """The answer of the server that is kept for the file's project, where there is one."""
    place = _PLACE.match(given.place or "")
    try:
        path = serving.address(Projects().of(os.path.abspath(place.group(1))).key, program) if place else ""
    except (serving.Unsafe, OSError):
        return None
    if not place or not os.path.exists(path):
        return None
    request = {"place": "%s:%s" % (os.path.abspath(place.group(1)), place.group(2)), "rest": given.rest, "seconds": given.seconds,
               "arith": given.arith, "simplify": given.simplify, "several": given.several, "json": given.json}
    answer = serving.ask(path, request, given.seconds + _START_SECONDS)
    is_whole = answer is not None and isinstance(answer.get("out"), str) and isinstance(answer.get("error"), str) and answer.get("status") in (0, 1, 2)
    return answer if is_whole else None


def answering(warm: Warm) -> serving.Answering:
    """What answers requests of other processes by a server that is kept."""
    def answer(request: Dict[str, Any]) -> Dict[str, Any]:
        rest = request.get("rest")
        seconds = request.get("seconds")
        if not isinstance(request.get("place"), str) or not isinstance(rest, list) or not all(isinstance(one, str) for one in rest) or \
                not isinstance(seconds, (int, float)) or not 0 < seconds < _MOST_SECONDS:
            return {"status": BROKEN, "out": "", "error": "holls: this is no request\n"}
        given = argparse.Namespace(
            place=request["place"], rest=rest, seconds=float(seconds), arith=bool(request.get("arith")),
            simplify=bool(request.get("simplify")), several=bool(request.get("several")), json=bool(request.get("json")))
        try:
            return {"status": 0, "out": _found(given, warm) + "\n", "error": ""}
        except _NoSteps as none:
            return {"status": NONE, "out": none.text + "\n", "error": ""}
        except (check.CannotCheck, server.NoServer, NoGoal, Silent, Unprovable, OSError) as error:
            return {"status": BROKEN, "out": "", "error": "holls: %s\n" % error}

    return answer


def _serve(folder: str, program: Sequence[str]) -> int:
    """Answers for a folder's project until the input ends."""
    warm = Warm(program)
    listener = serving.Listener(serving.address(Projects().of(os.path.join(os.path.abspath(folder), "A.hol")).key, program), answering(warm))
    if listener.is_taken:
        print("holls: a server for this project is there already", file=sys.stderr)
        return BROKEN
    print("holls: ready", flush=True)
    try:
        while sys.stdin.readline():
            pass
    finally:
        listener.close()
        warm.stop()
    return 0


def _json(answer: Answer, every: List[List[str]]) -> str:
    """An answer as one JSON object, with its steps in notation; `plain` are those as the program reads them, where they differ, `others` other proofs."""
    if answer.steps is None:
        return json.dumps({"steps": None, "why": "none found" + answer.why})
    steps, others = every[0], every[1:]
    plain = {"plain": answer.steps} if answer.steps != steps else {}
    more = {"others": others} if others else {}
    return json.dumps(dict({"steps": steps, "imports": list(answer.imports)} if answer.imports else {"steps": steps}, **plain, **more))


def _text(answer: Answer, every: List[List[str]]) -> str:
    """An answer as lines, with its steps in notation; imports that are missing stand first, in a comment that says where they belong. Other proofs stand
    behind the first one, each behind a comment."""
    if answer.steps is None:
        return "none found" + answer.why
    missing = ["(* before the proof: %s *)" % " ".join("import %s;;" % name for name in answer.imports)] if answer.imports else []
    return "\n(* or *)\n".join("\n".join((missing if not number else []) + [step + ";;" for step in steps]) for number, steps in enumerate(every))


def _request(path: str, line: int, given: argparse.Namespace) -> Request:
    """What is asked of a file's line."""
    found = unit(path)
    number = last_command(found.file, line)
    return Request(found.file, number, found.imports, others(found.file, found.imports), given.rest[1:] or None, given.seconds, given.arith,
                   given.simplify, first=(lambda answer: None) if given.several else None)


def paths_of(project: Project) -> List[str]:
    """The files of a project whose names are no others' too."""
    return [found for found in map(project.find, project.names()) if isinstance(found, str)]


def others(file: File, imports: Sequence[File], paths: Optional[Sequence[str]] = None) -> Others:
    """The project's files, or those of some paths, that a file doesn't import and that don't import it."""
    found = (paths_of(Projects().of(file.path)) if paths is None else list(paths))[:_MOST_OTHERS]
    known = {one.name for one in imports} | declaring.importers(found, file.name)
    return Others(frozenset(map(theory_name, found)) - known, lambda: _read(found, known, file.name))


def _read(paths: Sequence[str], known: Set[str], name: str) -> List[File]:
    """The files of some paths but those that are known, each behind its imports."""
    try:
        every = [one for files in check.ordered(paths).values() for one in files]
    except check.CannotCheck:
        return []
    by_name = {one.name: one for one in every}
    return [one for one in every if one.is_sent and one.name not in known and all(other.name != name for other in graph.all_imports(one, by_name))]


def in_notation_at(file: File, number: int, step: str) -> str:
    """A step in the notation that stands behind a command of a file."""
    return in_notation(step, file.notation.table(number), file.notation.vocabulary_at(number)).text


def unit(path: str) -> Unit:
    """A file with those that it imports."""
    units = checking.units(check.ordered([path]))
    found = next((one for one in units if one.file.path == path), units[-1])
    if not found.file.is_sent:
        raise NoGoal("%s can be no theory" % path)
    return found


def last_command(file: File, line: int) -> int:
    """The last command that begins in a line, counted from 0, or above it."""
    found = [number for number, command in enumerate(file.commands) if file.lines.line(command.start) <= line]
    if not found:
        raise NoGoal("no command stands there")
    return found[-1]
