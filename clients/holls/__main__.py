"""The command line: `holls check FILE..`, `holls search QUERY..`, `holls prove FILE:LINE`, `holls repl`, `holls export`, `holls import`,
`holls grade`, `holls page`, `holls serve` and `holls lsp`."""

from __future__ import annotations

import argparse
import importlib
import os
import sys

KINDS = {
    "check": ("holls.check", "check files: status 0 where all is proved"),
    "search": ("holls.searching", "find theorems by name and by what they state"),
    "prove": ("holls.prover.command", "find a proof of the goal that is open at a line of a file"),
    "repl": ("holls.repl", "a prompt with HOL Light's habits: goals, steps, undo, and a file in the end"),
    "export": ("holls.exchange.exporting", "write files as OCaml that HOL Light runs, or let it check them"),
    "import": ("holls.exchange.importing", "bring theorems of HOL Light over, from a recorded run"),
    "expand": ("holls.spelling", "print a file as the program reads it, without notation"),
    "write": ("holls.spelling", "print a plain file in the notation that it declares or imports"),
    "grade": ("holls.course.grading", "judge what a course's students have sent: a table of what is proved"),
    "page": ("holls.page", "open the page in the browser: an editor, goals and two hours of lessons"),
    "serve": ("holls.serving.command", "serve the page, and a course's exercises, to a class"),
    "lsp": ("holls.lsp.bridge", "speak the Language Server Protocol on standard input and output"),
}
"""The commands, each with the module that has its words and carries it out. No other module is loaded."""
WRONG_WORDS = 2
"""The status where no command is named, as where the words are wrong otherwise."""


def main() -> int:
    """Runs the command that the words name."""
    words = argparse.ArgumentParser(prog="holls", description="Proofs in higher-order logic: checks files of them, and serves editors.",
                                    epilog="holls COMMAND --help says more of one; docs/TUTORIAL.md is where to begin.")
    kinds = words.add_subparsers(dest="kind", metavar="COMMAND", required=True)
    for kind, (module, text) in KINDS.items():
        parser = kinds.add_parser(kind, help=text)
        if sys.argv[1:2] == [kind]:
            importlib.import_module(module).add_words(parser)
    if sys.argv[1:] in ([], ["help"]):
        words.print_help()
        return 0 if sys.argv[1:] else WRONG_WORDS
    given = words.parse_args()
    sys.stdout.reconfigure(errors="backslashreplace")
    return importlib.import_module(KINDS[given.kind][0]).main(given)


def run() -> int:
    """`main`, with a quiet end where the output is closed or the user interrupts."""
    try:
        status = main()
        sys.stdout.flush()
        return status
    except BrokenPipeError:
        os.dup2(os.open(os.devnull, os.O_WRONLY), sys.stdout.fileno())
        return 1
    except KeyboardInterrupt:
        return 130


if __name__ == "__main__":
    sys.exit(run())
