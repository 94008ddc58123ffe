"""`holls repl`: a prompt with HOL Light's habits."""

from __future__ import annotations

import argparse
import os
import re
import sys
from typing import Iterator, List

from holls import server
from holls.api import Project, Prover, ProverError, Unknown
from holls.projects import SUFFIX
from holls.repl_completion import Completer
from holls.repl_session import Session, Told, Wrong
from holls.repl_show import Show, has_colours, plain
from holls.text import cut

BROKEN = 2
HISTORY_LINES = 2000
_GOES_ON = re.compile(r"(?:\b(?:THEN|THENL|ORELSE|REPEAT|TRY|g|e|deftac)|[,(\[=>\\/])\s*\Z")
_ENDS = re.compile(r"#?(?:quit|exit)\s*(?:\(\s*\))?\s*;*\s*\Z")
_BEGIN, _AGAIN = "# ", "  "


def add_words(parser: argparse.ArgumentParser) -> None:
    """The words of the command line."""
    parser.add_argument("file", nargs="?", metavar="FILE", help="a file of commands, NAME.hol, to go on with")
    parser.add_argument("--in", dest="folders", action="append", metavar="FOLDER", help="a file or folder whose theories can be imported "
                        "(the folder one works in, and below); may be given again")
    parser.add_argument("--server", metavar="PROGRAM", help="the program hol_serve")
    parser.add_argument("--seconds", type=float, default=120.0, help="how long a step may take (120)")


def main(given: argparse.Namespace) -> int:
    """Reads commands to their end: status 0; 1 where the input is no terminal and something was refused; 2 where nothing can begin."""
    try:
        prover = Prover(given.server, seconds=given.seconds)
        with prover:
            folders = given.folders or _folders()
            projects = Project.each(prover, *([given.file] if given.file else []), *folders)
            wanted = os.path.abspath(given.file) if given.file else None
            file = next((one for project in projects for one in project.files.values() if os.path.abspath(one.path) == wanted), None)
            return Prompt(Session(prover, projects, file)).loop()
    except (Unknown, ProverError, server.NoServer, ValueError) as error:
        print("holls: %s" % error, file=sys.stderr)
        return BROKEN


def _folders() -> List[str]:
    """The folder that one works in, if it or one below has files."""
    return ["."] if any(name.endswith(SUFFIX) for _, _, below in os.walk(".") for name in below) else []


class Prompt:
    """Reads lines, has the session carry them out, and shows what comes of them."""

    def __init__(self, session: Session) -> None:
        self.session = session
        self.is_terminal = sys.stdin.isatty() and sys.stdout.isatty()
        self.show = Show(has_colours(sys.stdout))
        self._refusals = 0
        self._is_warned = False

    def loop(self) -> int:
        """Until the input ends."""
        if self.is_terminal:
            _begin_editing(self.session)
            print("hol-serve's prompt: %s. `help` lists the commands; Tab completes, Ctrl-D ends." % (
                "theory %s, %d commands" % (self.session.theory.name, self.session.count)))
        while True:
            try:
                for command in _commands(self._read()):
                    if _ENDS.match(command):
                        raise EOFError
                    if not self._carry_out(command) and not self.is_terminal:
                        self._refusals += 1
            except KeyboardInterrupt:
                print()
            except EOFError:
                if self._may_end():
                    break
        if self.is_terminal:
            _end_editing()
        return 1 if self._refusals and not self.is_terminal else 0

    def _may_end(self) -> bool:
        """Whether the end of the input is meant: what isn't saved is told of once."""
        if self.is_terminal:
            print()
            if not self.session.is_saved and not self._is_warned:
                self._is_warned = True
                print(self.show.wrong("not saved yet: save FILE%s, or once more to end without" % SUFFIX))
                return False
        return True

    def _read(self) -> str:
        """Lines up to where a command is whole."""
        text = ""
        while True:
            try:
                line = input((_AGAIN if text else _BEGIN) if self.is_terminal else "")
            except EOFError:
                if text.strip():
                    return text
                raise
            text += line + "\n"
            if is_whole(text):
                return text

    def _carry_out(self, command: str) -> bool:
        """Has a command carried out, and shows what comes of it. Answers whether it was accepted."""
        self._is_warned = False
        try:
            told = self.session.run(command)
        except KeyboardInterrupt:
            print("\n" + self.show.wrong("stopped: all is as it was before this command"))
            return False
        except (Wrong, ProverError) as error:
            print(self.show.wrong(plain(str(error))))
            return False
        print(self._text(told), flush=True)
        return told.refused is None

    def _text(self, told: Told) -> str:
        parts = [self.show.refused(told.refused)] if told.refused is not None else []
        parts += [told.text] if told.text else []
        parts += [self.show.goals(told.goals)] if told.goals else []
        return "\n".join(parts)


def is_whole(text: str) -> bool:
    """Whether lines hold whole commands: with `;;` at their end, or where no quotation, bracket or comment is open and no word waits for more."""
    if not text.strip() or text.rstrip().endswith(";;"):
        return True
    found = cut(text)
    if any(blemish.is_error for blemish in found.blemishes) or text.count("`") % 2:
        return False
    outside = " ".join(found.commands[-1].text.split("`")[::2]) if found.commands else ""
    if sum(map(outside.count, "([")) > sum(map(outside.count, ")]")):
        return False
    return not _GOES_ON.search(outside if not text.rstrip().endswith("`") else "")


def _commands(text: str) -> Iterator[str]:
    """The commands of what was read."""
    for command in cut(text).commands:
        yield command.text


# The line under one's hands

def _begin_editing(session: Session) -> None:
    """Completion, keys and the lines of earlier sessions, where Python has readline."""
    try:
        import readline
    except ImportError:
        return
    readline.set_completer(Completer(session, lambda: (readline.get_line_buffer(), readline.get_begidx())).complete)
    readline.set_completer_delims(" \t\n`()[]{};,=<>~!?@\\/|:.")
    readline.parse_and_bind("tab: complete")
    readline.set_history_length(HISTORY_LINES)
    try:
        readline.read_history_file(_history_file())
    except OSError:
        pass


def _end_editing() -> None:
    try:
        import readline
        os.makedirs(os.path.dirname(_history_file()), exist_ok=True)
        readline.write_history_file(_history_file())
    except (ImportError, OSError):
        pass


def _history_file() -> str:
    state = os.environ.get("XDG_STATE_HOME") or os.path.join(os.path.expanduser("~"), ".local", "state")
    return os.path.join(state, "holls", "history")
