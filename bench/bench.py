#!/usr/bin/env python3
"""How many lines a second hol-serve answers, and how much memory it takes.

    python3 bench/bench.py --program PATH [--rounds N] [--only WORD]

PATH is the built program, crates/hol_serve/out/hol_serve. Six jobs are measured, each in a process of its own:

  inserts   1,000 inserts at the end of one theory, each of which runs its command
  replaces  1,000 commands of a theory of 200, each place five times, are replaced by their own text, with a blank more behind it each time: each runs its
            command, and none of those behind it
  heads     100 times the head of a theory, a constant, is declared with another type, which runs the 200 commands behind it
  reports   1,000 reports on the commands of a theory of 200, each place five times: these run nothing
  steps     a proof of 998 steps, half of which take a quotation, is put into a theory, with its `qed`: 1,000 commands, the most that one may have
  qed       the `qed` of this proof is replaced by itself, which runs it alone

Each request is a line on the program's standard input, and its reply is read from its standard output. The clock runs from the first request of the job to its last
reply, and so does `processor`, the program's processor time; what sets the job up (its theory and the commands) is not counted. So an edit is measured with reading its
line. How many commands the requests run is asked for by `stats`, before and after the job. The times shown are medians of the rounds; the memory is the greatest of
them: the peak resident set of the whole process. A reply that isn't of the expected kind, or another number of commands run, ends the run with status 1.

What goals cost, also those whose types share their nodes, is measured by goals.py, beside this. The test of hol_logic_tests named
`nothing_shared_is_walked` has types and terms that no text within the limits makes: over trees of 2^60 leaves and 60 or 120 nodes, sizes, types, what
isn't free, comparisons that differ early and comparisons over shared parts are answered at once (a call that walked the tree would not end).

Needs Python 3.8 and Linux, and nothing else.
"""

import argparse
import json
import os
import statistics
import subprocess
import sys
import threading
import time

INSERTS = 1000
REQUESTS = 1000
HEADS = 100
# The program's words by which it keeps one outcome that has left its slot.
ONE_KEPT = ("--cache", "1")
COMMANDS = 200
STEPS = 998


def request(**keys):
    """One request line, with its newline."""
    return json.dumps(keys, separators=(",", ":")).encode() + b"\n"


def new_theory():
    return request(op="new_theory", name="A", at=0)


def put(texts, theory="A"):
    """The commands of a theory, in order."""
    return [request(op="insert", theory=theory, at=place, text=text) for place, text in enumerate(texts)]


def replace(at, text, theory="A"):
    return request(op="replace", theory=theory, at=at, text=text)


def anew(at, text, theory="A"):
    """What takes its own place each time, with one to three blanks behind it: a program by ONE_KEPT has to run it."""
    return lambda time: [replace(at, text + " " * (time % 3 + 1), theory)]


def report(at, theory="A"):
    return request(op="report", theory=theory, at=at)


def command(place, statement="x:A = x"):
    """A command that is accepted at this place: each third one opens a proof, and the next two close it."""
    texts = ("g T%d `%s`" % (place, statement), "e REFL_TAC", "qed")
    return texts[place % 3]


def commands(count, statement="x:A = x"):
    return [command(place, statement) for place in range(count)]


def replaces(count):
    """Commands of a theory in turn, each of which takes its own place, with one blank more behind it each time: else its outcome would be found."""
    return [replace(number % COMMANDS, command(number % COMMANDS) + " " * (number // COMMANDS + 1)) for number in range(count)]


def head(number):
    """A constant on which commands behind it rest, of another type each other time."""
    return "new_constant c `:A%d`" % number


def proof(steps):
    """A proof of so many steps, which is an even number: an assumption is made and taken back, and used at the end."""
    back_and_forth = ["e DISCH_TAC", "e UNDISCH_TAC `p:bool`"] * (steps // 2 - 1)
    return ["g N `p ==> p`", *back_and_forth, "e DISCH_TAC", "e ACCEPT_TAC (ASSUME `p:bool`)", "qed"]


def is_run(text):
    """Whether `stats` counts this command: the others are answered from the state."""
    return text.split()[0] not in ("import", "b", "r", "oops")


class Session:
    """A running program, to which lines are sent and whose replies are read."""

    def __init__(self, program, *options):
        self.process = subprocess.Popen([program, *options], stdin=subprocess.PIPE, stdout=subprocess.PIPE)

    def send(self, lines):
        """Sends the lines, reads a reply to each, and gives the replies and the seconds that this took."""
        text = b"".join(lines)
        began = time.perf_counter()
        writer = threading.Thread(target=self.write, args=(text,))
        writer.start()
        replies = [self.process.stdout.readline() for _ in lines]
        took = time.perf_counter() - began
        writer.join()
        return replies, took

    def write(self, text):
        try:
            self.process.stdin.write(text)
            self.process.stdin.flush()
        except BrokenPipeError:
            pass  # the missing replies tell

    def peak(self):
        """The peak resident set of the program so far, in kilobytes."""
        with open("/proc/%d/status" % self.process.pid) as status:
            for line in status:
                if line.startswith("VmHWM:"):
                    return int(line.split()[1])
        return 0

    def processor(self):
        """The processor time that the program has taken so far, in seconds."""
        return time.clock_gettime((~self.process.pid << 3) | 2)  # the clock CPUCLOCK_SCHED of that process, up to now

    def ran(self):
        """How many commands the session has run so far."""
        (reply,), _ = self.send([request(op="stats")])
        if not reply.startswith(b'{"ok":true,"ran":'):
            sys.exit("bench: the program answers stats by %r" % reply)
        return json.loads(reply)["ran"]

    def close(self):
        self.process.stdin.close()
        self.process.stdout.close()
        _, status, usage = os.wait4(self.process.pid, 0)
        self.process.returncode = os.WEXITSTATUS(status) if os.WIFEXITED(status) else -os.WTERMSIG(status)
        return self.process.returncode, usage


def expect(replies, is_right, what):
    """Ends the run where a reply isn't one that was wanted."""
    for number, reply in enumerate(replies):
        if not is_right(reply):
            sys.exit("bench: reply %d of %s is %r" % (number, what, reply))


def is_done(reply):
    return reply == b'{"ok":true}\n'


def is_made(reply):
    return reply == b'{"made":["thm N |- p ==> p"],"ok":true}\n'


def is_report(reply):
    return reply.startswith((b'{"goals":', b'{"made":')) and reply.endswith(b',"ok":true}\n')


def expect_ran(session, before, runs, what):
    """Ends the run where other than so many commands were run since there were so many."""
    ran = session.ran() - before
    if ran != runs:
        sys.exit("bench: %s runs %d commands, and not %d" % (what, ran, runs))


def measure(program, setup, lines, is_right, what, runs, shown=None, options=()):
    """The seconds, the peak memory and the processor time of one round of a job, which runs so many commands. Afterwards the answer to `shown`, a request and what is
    expected of its reply, is looked at."""
    session = Session(program, *options)
    replies, _ = session.send(setup)
    expect(replies, is_done, "what sets up " + what)
    ran, processor = session.ran(), session.processor()
    replies, took = session.send(lines)
    processor = session.processor() - processor
    expect(replies, is_right, what)
    expect_ran(session, ran, runs, what)
    if shown:
        replies, _ = session.send([shown[0]])
        expect(replies, shown[1], "what shows " + what)
    peak = session.peak()
    status, _ = session.close()
    if status != 0:
        sys.exit("bench: the program ended with status %d" % status)
    return took, peak, processor


def repeated(session, lines, runs, what, seconds, is_right=is_done):
    """The processor time of these requests together, over as many times as fit into so many seconds, where each time runs so many commands. They may go by the number of the
    time."""
    lines_at = lines if callable(lines) else lambda time: lines
    count, done, used, ran = 1, 0, 0.0, session.ran()
    while used < seconds:
        before = session.processor()
        replies, _ = session.send([line for time in range(done, done + count) for line in lines_at(time)])
        used, done, count = used + session.processor() - before, done + count, count * 2
        expect(replies, is_right, what)
    expect_ran(session, ran, runs * done, what)
    return used / done


def row(name, lines, rounds):
    """A row of the table from the rounds of a job."""
    took = statistics.median(each[0] for each in rounds)
    peak = max(each[1] for each in rounds)
    processor = statistics.median(each[2] for each in rounds)
    return "%-50s %9.3f s %11.0f %12.3f s %9.1f MB" % (name, took, lines / took, processor, peak / 1024)


def table(jobs, program, rounds, only=""):
    """Measures these jobs, the name first and the arguments of `measure` behind it, and prints the table."""
    print("%-50s %11s %11s %14s %12s" % ("job", "time", "lines/s", "processor", "peak memory"))
    for name, setup, lines, is_right, *more in jobs:
        if only in name:
            taken = [measure(program, setup, lines, is_right, name, *more) for _ in range(rounds)]
            print(row(name, len(lines), taken), flush=True)


def arguments(description):
    """The program, the rounds and the word of the command line."""
    parser = argparse.ArgumentParser(description=description, formatter_class=argparse.RawDescriptionHelpFormatter)
    parser.add_argument("--program", required=True, help="the built program")
    parser.add_argument("--rounds", type=int, default=3, help="how often each job is run (3)")
    parser.add_argument("--only", default="", help="only the jobs whose names have this in them")
    words = parser.parse_args()
    if words.rounds < 1:
        parser.error("--rounds takes a number above 0")
    return os.path.abspath(words.program), words.rounds, words.only


def main():
    small, long = [new_theory(), *put(commands(COMMANDS))], [new_theory(), *put(proof(STEPS))]
    headed = [new_theory(), *put([head(0), *commands(COMMANDS, "c = c")])]
    jobs = [
        ("1,000 inserts into one theory", [new_theory()], put(commands(INSERTS)), is_done, INSERTS),
        ("1,000 replaces over 200 commands", small, replaces(REQUESTS), is_done, REQUESTS),
        ("100 other heads of 200 commands", headed, [replace(0, head(k + 1)) for k in range(HEADS)], is_done, HEADS * (COMMANDS + 1)),
        ("1,000 reports over 200 commands", small, [report(number % COMMANDS) for number in range(REQUESTS)], is_report, 0),
        ("a proof of 998 steps", [], long, is_done, STEPS + 2, (report(STEPS + 1), is_made)),
        ("the qed after 998 steps", long, [replace(STEPS + 1, "qed")], is_done, 1, (report(STEPS + 1), is_made)),
    ]
    table(jobs, *arguments(__doc__))


if __name__ == "__main__":
    main()
