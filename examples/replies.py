#!/usr/bin/env python3
"""What hol-serve says of each command of the theories beside this: writes it, or compares it with what is stored.

    python3 examples/replies.py PROGRAM [--write]

PROGRAM is the built program, crates/hol_serve/out/hol_serve. For each theory NAME.hol with a file NAME.replies, the theory and those that it imports are made in a program
of their own, and it is asked for the report on each command of NAME, for its theorems, and on what the last one rests. NAME.replies has each command after `> ` and the
reply below it. Ends with status 1 where a reply differs from the stored one. With --write the files are written.

Needs Python 3.8 and Linux, and nothing else.
"""

import argparse
import json
import os
import pathlib
import subprocess
import sys
from concurrent.futures import ThreadPoolExecutor

HERE = pathlib.Path(__file__).resolve().parent
FOLDER = HERE / "theories"
THEORIES = ("connectives", "maps", "pair_type", "group_axioms", "tactics", "laws", "converses")
SECONDS = 240

sys.path.insert(0, str(HERE.parent / "clients"))

from holls import check  # noqa: E402  (the clients' own reader of files)


def with_imports(name):
    """The theory and those that it imports, each after those that it imports itself."""
    return [file for files in check.ordered([str(FOLDER / (name + ".hol"))]).values() for file in files]


def texts(file):
    """What is sent of a file."""
    return [command.text for number, command in enumerate(file.commands) if not file.is_declaration(number)]


def line(**keys):
    """One request line, with its newline."""
    return json.dumps(keys, ensure_ascii=False, separators=(",", ":")).encode() + b"\n"


def edits(files):
    """The requests that make the theories."""
    made = []
    for place, file in enumerate(files):
        made.append(line(op="new_theory", name=file.theory.name, at=place))
        made += [line(op="insert", theory=file.theory.name, at=at, text=text) for at, text in enumerate(texts(file))]
    return made


def questions(file):
    """What is asked of a theory: what stands after `> ` and the request."""
    name = file.theory.name
    asked = [(" ".join(text.split()), line(op="report", theory=name, at=at)) for at, text in enumerate(texts(file))]
    asked.append(("theorems", line(op="theorems", theory=name)))
    last = [command.name for command in file.commands if command.word == "g"][-1]
    return asked + [("basis " + last, line(op="basis", theory=name, name=last))]


def transcript(program, name):
    """What the program says of a theory, as NAME.replies has it."""
    files = with_imports(name)
    made, asked = edits(files), questions(files[-1])
    text = b"".join(made + [request for _, request in asked])
    done = subprocess.run([program], input=text, stdout=subprocess.PIPE, timeout=SECONDS, check=True)
    replies = done.stdout.decode().splitlines()
    if len(replies) != len(made) + len(asked) or set(replies[:len(made)]) != {'{"ok":true}'}:
        raise ValueError("%s: the program answered %d lines, and wasn't to refuse an edit" % (name, len(replies)))
    return "".join("> %s\n%s\n" % (told, reply) for (told, _), reply in zip(asked, replies[len(made):]))


def transcripts(program):
    """What the program says of each theory, by names; side by side, since no report's work is kept for the next."""
    with ThreadPoolExecutor(os.cpu_count()) as pool:
        return dict(zip(THEORIES, pool.map(lambda name: transcript(program, name), THEORIES)))


def stored(name):
    """The file of what is stored for a theory."""
    return FOLDER / (name + ".replies")


def main():
    parser = argparse.ArgumentParser(description="Compares the replies to examples/theories with those that are stored.")
    parser.add_argument("program", help="the built program")
    parser.add_argument("--write", action="store_true", help="write the replies")
    words = parser.parse_args()
    differs = False
    for name, text in transcripts(words.program).items():
        if words.write:
            stored(name).write_text(text, encoding="utf-8")
        elif stored(name).read_text(encoding="utf-8") != text:
            differs = True
            print("%s: a reply differs" % stored(name))
    return 1 if differs else 0


if __name__ == "__main__":
    sys.exit(main())
