"""What edits at the end and in the middle of a long theory cost, and what is found again: processor time of the program by edit, and how many commands it ran.

    python3 bench/ends.py [--program PATH] [--cache N]

A theory of 992 commands (constants, each with a proof of three commands) is entered one by one; then commands are put and taken away. Linux; Python 3.8."""

import argparse
import json
import os
import pathlib
import subprocess

BUILT = pathlib.Path(__file__).resolve().parent.parent / "crates" / "hol_serve" / "out" / "hol_serve"
STEP = "e DISCH_TAC THEN FIRST_ASSUM ACCEPT_TAC"
TICK = os.sysconf("SC_CLK_TCK")


class Server:
    def __init__(self, words):
        self.process = subprocess.Popen(words, stdin=subprocess.PIPE, stdout=subprocess.PIPE, text=True)

    def ask(self, requests):
        """The replies to requests that are sent together."""
        self.process.stdin.write("".join(json.dumps(it) + "\n" for it in requests))
        self.process.stdin.flush()
        return [json.loads(self.process.stdout.readline()) for _ in requests]

    def ran(self):
        return self.ask([{"op": "stats"}])[0]["ran"]

    def seconds(self):
        stat = pathlib.Path(f"/proc/{self.process.pid}/stat").read_text()
        fields = stat[stat.rindex(")") + 2:].split()
        return (int(fields[11]) + int(fields[12])) / TICK


def commands():
    return [text for k in range(248) for text in (f"new_constant c{k} `:bool`", f"g L{k} `c{k} ==> c{k}`", STEP, "qed")]


def insert(at, text):
    return {"op": "insert", "theory": "A", "at": at, "text": text}


def remove(at):
    return {"op": "remove", "theory": "A", "at": at}


def main():
    words = argparse.ArgumentParser(description=__doc__, formatter_class=argparse.RawDescriptionHelpFormatter)
    words.add_argument("--program", default=str(BUILT))
    words.add_argument("--cache", type=int, default=256)
    chosen = words.parse_args()
    server, texts = Server([chosen.program, "--cache", str(chosen.cache)]), commands()
    server.ask([{"op": "new_theory", "name": "A", "at": 0}])
    for at, text in enumerate(texts):
        server.ask([insert(at, text)])
    end, middle = len(texts), len(texts) // 8 * 4
    print(f"entering {end} commands one by one: {server.seconds():.2f} s")
    rows = [("a constant put at the end, and taken away", [insert(end, "new_constant d `:bool`"), remove(end)], 2000),
            ("the last proof's step taken away, and put back", [remove(end - 2), insert(end - 2, STEP)], 1000),
            ("a step in the middle taken away, and put back", [remove(middle + 2), insert(middle + 2, STEP)], 500)]
    for said, edits, times in rows:
        begun, ran = server.seconds(), server.ran()
        for _ in range(times):
            server.ask(edits)
        print(f"{said}: {1e3 * (server.seconds() - begun) / times / len(edits):.3f} ms an edit, {(server.ran() - ran) / times:.2f} runs a pair")
    server.process.stdin.close()
    server.process.wait()


if __name__ == "__main__":
    main()
