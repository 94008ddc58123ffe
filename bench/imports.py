#!/usr/bin/env python3
"""What a chain of theories costs, of which each imports the one before it, and so all: processor time and memory of the program by the number of
theories, each with so many entries of its own.

    python3 bench/imports.py [--program PATH] [--entries N]

A theory begins with `import` of the one before it, where all that stands comes into a theory without entries, and goes on with constants. Linux;
Python 3.8."""

import argparse
import pathlib

from ends import BUILT, Server

THEORIES = (16, 32, 64)


def memory(server):
    """The most that the program has held, in MB."""
    status = pathlib.Path(f"/proc/{server.process.pid}/status").read_text()
    return int(status.partition("VmHWM:")[2].split()[0]) / 1024


def entered(server, number, entries):
    """Enters a theory's commands in one go."""
    name = f"T{number}"
    texts = ([f"import T{number - 1}"] if number else []) + [f"new_constant c{number}_{k} `:bool`" for k in range(entries)]
    requests = [{"op": "new_theory", "name": name, "at": number}]
    requests += [{"op": "insert", "theory": name, "at": at, "text": text} for at, text in enumerate(texts)]
    for begun in range(0, len(requests), 100):
        replies = server.ask(requests[begun:begun + 100])
        if any(it != {"ok": True} for it in replies):
            raise SystemExit(f"imports: {name}: {next(it for it in replies if it != {'ok': True})}")


def check(server, number, entries):
    """Looks at what the last theory imports."""
    (shown,) = server.ask([{"op": "report", "theory": f"T{number}", "at": 0}])
    if len(shown.get("made", ())) != number * entries:
        raise SystemExit(f"imports: T{number} doesn't import all before it")


def main():
    words = argparse.ArgumentParser(description=__doc__, formatter_class=argparse.RawDescriptionHelpFormatter)
    words.add_argument("--program", default=str(BUILT))
    words.add_argument("--entries", type=int, default=500, help="of each theory, beside what it imports; up to 999")
    chosen = words.parse_args()
    for theories in THEORIES:
        server = Server([chosen.program])
        for number in range(theories):
            entered(server, number, chosen.entries)
        new, seconds, held = theories * chosen.entries, server.seconds(), memory(server)
        print(f"{theories} theories of {chosen.entries} entries: {seconds:.2f} s, {1e6 * seconds / new:.0f} us and {1024 * held / new:.2f} KB an entry")
        check(server, theories - 1, chosen.entries)
        server.process.stdin.close()
        server.process.wait()


if __name__ == "__main__":
    main()
