#!/usr/bin/env python3
"""Sends requests to hol-serve one at a time, and waits for each reply before it sends the next.

    python3 examples/ask.py PROGRAM FILE

PROGRAM is the built program, crates/hol_serve/out/hol_serve, and FILE has a request a line, as examples/first.jsonl. Each request is
written and then its reply. A program that read on before it replied, or that kept its replies back, would not be heard: the script ends
with status 1 where no reply comes within ten seconds, or where the program doesn't end with status 0 when its input ends.

Needs Python 3.8 and Linux, and nothing else.
"""

import select
import subprocess
import sys

SECONDS = 10


def main():
    program, file = sys.argv[1:]
    with open(file, "rb") as lines:
        requests = [line.rstrip(b"\n") + b"\n" for line in lines]
    with subprocess.Popen([program], stdin=subprocess.PIPE, stdout=subprocess.PIPE) as server:
        for request in requests:
            server.stdin.write(request)
            server.stdin.flush()
            print("> " + request.decode().rstrip())
            reply = b""
            while not reply.endswith(b"\n"):
                ready, _, _ = select.select([server.stdout], [], [], SECONDS)
                more = ready and server.stdout.read1(65536)
                if not more:
                    server.kill()
                    sys.exit("no reply")
                reply += more
            print("< " + reply.decode().rstrip())
        server.stdin.close()
        if server.wait(SECONDS) != 0:
            sys.exit("status %d" % server.returncode)


if __name__ == "__main__":
    main()
