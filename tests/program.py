"""Runs the built program over input and output that fail, and where memory is short, and compares its replies, its line on standard error and its status.

What is wanted comes from docs/PROTOCOL.md: replies to the whole lines that were read, the first byte that isn't taken is the last one tried,
a reply before the next line is read, and the words of the command line. Where the memory of the process is limited, each reply is the memory line or
that of a program with memory to which the lines that were refused aren't sent."""

import argparse
import fcntl
import json
import os
import pathlib
import resource
import shutil
import signal
import socket
import subprocess
import sys
import tempfile

import watched

HERE = pathlib.Path(__file__).resolve().parent

LINES = br"""{"op":"new_theory","name":"A","at":0}
{"op":"insert","theory":"A","at":0,"text":"g REFL1 `x:A = x`"}
{"op":"insert","theory":"A","at":1,"text":"e REFL_TAC"}
{"op":"insert","theory":"A","at":2,"text":"qed"}
{"op":"report","theory":"A","at":0}
{"op":"report","theory":"A","at":1}

{"op":"report","theory":"A","at":2}
{"op":"basis","theory":"A","name":"REFL1"}
""".splitlines(keepends=True)

REPLIES = br"""{"ok":true}
{"ok":true}
{"ok":true}
{"ok":true}
{"goals":[{"asl":[],"free":["x:A"],"goal":"x = x"}],"ok":true}
{"goals":[],"ok":true}
{"error":2,"ok":false,"text":"not JSON"}
{"made":["thm REFL1 |- x = x"],"ok":true}
{"items":[],"ok":true}
""".splitlines(keepends=True)

READ, WRITE, BAD = b"hol-serve: read fault\n", b"hol-serve: write fault\n", b"hol-serve: bad words\n"
NO_MEMORY, MEMORY = b"hol-serve: no memory\n", b'{"error":9,"ok":false,"text":"memory"}\n'
OK = REPLIES[0]
NOT_JSON, LONG = b'{"error":2,"ok":false,"text":"not JSON"}\n', b'{"error":1,"ok":false,"text":"line too long"}\n'


def started(program, reader, words=()):
    return subprocess.Popen([program, *words], stdin=reader, stdout=subprocess.PIPE, stderr=subprocess.PIPE)


def ended(process, before=b""):
    """The status, what was written and what was told."""
    written, told = process.communicate(timeout=60)
    return process.returncode, before + written, told


def read_fails_after(program, lines, rest):
    """Sends so many lines and these bytes of another one, waits for the replies, and lets the next read fail: a peer that goes
    without reading what was sent to it resets the connection."""
    ours, theirs = socket.socketpair()
    process = started(program, theirs)
    theirs.send(b"x")
    ours.sendall(b"".join(LINES[:lines]) + rest)
    before = b"".join(process.stdout.readline() for _ in range(lines))
    ours.close()
    theirs.close()
    return ended(process, before)


def failed_reads(program):
    """The lines that were read whole are answered, and no more."""
    for lines, line in enumerate(LINES):
        for length in sorted({0, 1, len(line) // 2, len(line) - 1} & {*range(len(line))}):
            want = 1, b"".join(REPLIES[:lines]), READ
            yield f"a read that fails after {lines} lines and {length} bytes", want, read_fails_after(program, lines, line[:length])


def write_fails_after(program, room, lines=LINES):
    """Replies go to a file that takes so many bytes."""
    def limited():
        signal.signal(signal.SIGXFSZ, signal.SIG_IGN)
        resource.setrlimit(resource.RLIMIT_FSIZE, (room, room))

    with tempfile.TemporaryFile() as out:
        ran = subprocess.run([program], input=b"".join(lines), stdout=out, stderr=subprocess.PIPE, preexec_fn=limited, timeout=60)
        out.seek(0)
        return ran.returncode, out.read(), ran.stderr


def taken_writes(program):
    """All bytes before the first one that isn't taken are written where a write takes none, which is no error of the system's."""
    compiler, whole = os.environ.get("CC") or "cc", b"".join(REPLIES)
    if not shutil.which(compiler):
        print(f"program: writes that take no byte aren't tried, since there is no C compiler {compiler}: set CC")
        return
    with tempfile.TemporaryDirectory() as folder:
        library = f"{folder}/taking.so"
        subprocess.run([compiler, "-O2", "-shared", "-fPIC", "-o", library, HERE / "taking.c"], check=True)
        for room in range(0, len(whole), 7):
            environment = {**os.environ, "LD_PRELOAD": library, "TAKING": str(room)}
            ran = subprocess.run([program], input=b"".join(LINES), capture_output=True, env=environment, timeout=60)
            yield f"a write that takes no byte after {room} bytes", (1, whole[:room], WRITE), (ran.returncode, ran.stdout, ran.stderr)


def failed_writes(program):
    """All bytes before the first one that isn't taken are written, wherever it stands."""
    whole = b"".join(REPLIES)
    for room in range(len(whole)):
        yield f"a write that fails after {room} bytes", (1, whole[:room], WRITE), write_fails_after(program, room)
    with open("/dev/full", "wb") as full:
        ran = subprocess.run([program], input=b"".join(LINES), stdout=full, stderr=subprocess.PIPE, timeout=60)
    yield "a full device", (1, WRITE), (ran.returncode, ran.stderr)


def replies_in_turn(program):
    """Each reply comes before the next line is sent, and the end after the last."""
    process = started(program, subprocess.PIPE)
    for line, reply in zip(LINES, REPLIES):
        process.stdin.write(line)
        process.stdin.flush()
        yield f"the reply to {line.decode().strip() or 'an empty line'}", reply, process.stdout.readline()
    yield "the end of input", (0, b"", b""), ended(process)


def one_byte_at_a_time(program):
    """Each read gives one byte: a pipe of packets."""
    ours, theirs = os.pipe2(os.O_DIRECT), os.pipe()
    process = subprocess.Popen([program], stdin=ours[0], stdout=theirs[1], stderr=subprocess.PIPE)
    os.close(ours[0])
    os.close(theirs[1])
    for byte in b"".join(LINES):
        os.write(ours[1], bytes([byte]))
    os.close(ours[1])
    with os.fdopen(theirs[0], "rb") as replies:
        found = replies.read()
    yield "a reader that gives one byte at a time", (0, b"".join(REPLIES), b""), (process.wait(), found, process.communicate()[1])


def ends_within_a_line(program):
    """What stands before the end is a line too: where it is cut short, at whichever byte, it is no JSON."""
    for number, line in enumerate(LINES):
        for length in range(1, len(line)):
            want = b"".join(REPLIES[:number]) + (REPLIES[number] if length == len(line) - 1 else NOT_JSON)
            ran = subprocess.run([program], input=b"".join(LINES[:number]) + line[:length], capture_output=True, timeout=60)
            yield f"an end after {number} lines and {length} bytes", (0, want, b""), (ran.returncode, ran.stdout, ran.stderr)
    for length, want in ((65_536, NOT_JSON), (65_537, LONG), (200_000, LONG)):
        ran = subprocess.run([program], input=b"x" * length, capture_output=True, timeout=60)
        yield f"an end after {length} bytes of a line", (0, want, b""), (ran.returncode, ran.stdout, ran.stderr)


def begin(is_ignored):
    """What sets the signal SIGPIPE in the process that is about to become the program."""
    return lambda: signal.signal(signal.SIGPIPE, signal.SIG_IGN if is_ignored else signal.SIG_DFL)


def reader_that_goes_away(program, is_ignored):
    """Reads three replies, and goes: the write fails, whether the signal SIGPIPE was ignored by what started the program or not."""
    pipes = {"stdin": subprocess.PIPE, "stdout": subprocess.PIPE, "stderr": subprocess.PIPE}
    process = subprocess.Popen([program], **pipes, restore_signals=False, preexec_fn=begin(is_ignored))
    process.stdin.write(b"".join(LINES[:3]))
    process.stdin.flush()
    replies = [process.stdout.readline() for _ in range(3)]
    process.stdout.close()
    process.stdin.write(LINES[3])
    process.stdin.flush()
    status = process.wait(timeout=60)
    process.stdin.close()
    return status, replies, process.stderr.read()


def reader_that_is_gone(program, is_ignored, pair):
    """The reader of a pipe or of a socket is gone before the program begins."""
    ours, theirs = pair()
    os.close(ours)
    process = subprocess.Popen([program], stdin=subprocess.PIPE, stdout=theirs, stderr=subprocess.PIPE, restore_signals=False, preexec_fn=begin(is_ignored))
    os.close(theirs)
    told = process.communicate(LINES[0], timeout=60)[1]
    return process.returncode, told


def socket_pair():
    return [end.detach() for end in socket.socketpair()]


def long_lines():
    """Lines of which the last one is answered by more than a pipe holds: a long type at each of many variables."""
    equations = " /\\ ".join(f"x{number} = x{number + 1}" for number in range(300))
    insert = {"op": "insert", "theory": "A", "at": 0, "text": f"g N `{equations} /\\ x0 = (x1:{'A' * 1_000})`"}
    return [LINES[0], json.dumps(insert).encode() + b"\n", LINES[4]]


def reads_some(program, lines, size):
    """Reads so many bytes of the replies to lines, a few at a time by a pipe that holds a page, and goes."""
    ours, theirs = os.pipe()
    fcntl.fcntl(ours, fcntl.F_SETPIPE_SZ, 4_096)
    process = subprocess.Popen([program], stdin=subprocess.PIPE, stdout=theirs, stderr=subprocess.PIPE)
    os.close(theirs)
    process.stdin.write(b"".join(lines))
    process.stdin.close()
    found = b""
    while len(found) < size:
        part = os.read(ours, min(1_000, size - len(found)))
        if not part:
            break
        found += part
    os.close(ours)
    return process.wait(timeout=60), found, process.stderr.read()


def long_replies(program):
    """A reply that is written in parts is whole, or its first bytes, up to the first one that isn't taken."""
    lines = long_lines()
    whole = replies_to(program, lines)[1]
    yield "a long reply", [OK, OK, True], [*whole[:2], len(whole[-1]) > 300_000]
    whole = b"".join(whole)
    yield "a long reply, read slowly", (0, whole, b""), reads_some(program, lines, len(whole))
    for size in (1, 4_095, 4_096, 4_097, 65_536, 65_537, 100_000, len(whole) - 5_000):
        yield f"a reader that goes away after {size} bytes of a long reply", (1, whole[:size], WRITE), reads_some(program, lines, size)
        yield f"a write that fails after {size} bytes of a long reply", (1, whole[:size], WRITE), write_fails_after(program, size, lines)


def signals(program):
    for is_ignored in (False, True):
        yield f"a reader that goes away, SIGPIPE ignored: {is_ignored}", (1, REPLIES[:3], WRITE), reader_that_goes_away(program, is_ignored)
        for pair in (os.pipe, socket_pair):
            yield f"a reader that is gone, SIGPIPE ignored: {is_ignored}, {pair.__name__}", (1, WRITE), reader_that_is_gone(program, is_ignored, pair)
    process = started(program, subprocess.PIPE)
    process.stdin.write(b"".join(LINES[:3]))
    process.stdin.flush()
    before = b"".join(process.stdout.readline() for _ in range(3))
    for sent in (signal.SIGSTOP, signal.SIGCONT):
        process.send_signal(sent)
    process.stdin.write(b"".join(LINES[3:]))
    yield "a program that is stopped and goes on", (0, b"".join(REPLIES), b""), ended(process, before)


def missing(program):
    """Input or output that isn't there, or is none; and nobody to tell."""
    def without(number):
        return lambda: os.close(number)

    lines, folder = b"".join(LINES), os.open("/", os.O_RDONLY)
    ran = subprocess.run([program], stdin=folder, capture_output=True, timeout=60)
    yield "a folder as input", (1, b"", READ), (ran.returncode, ran.stdout, ran.stderr)
    os.close(folder)
    ran = subprocess.run([program], capture_output=True, timeout=60, preexec_fn=without(0))
    yield "no input", (1, b"", READ), (ran.returncode, ran.stdout, ran.stderr)
    ran = subprocess.run([program], input=lines, stderr=subprocess.PIPE, timeout=60, preexec_fn=without(1))
    yield "no output", (1, WRITE), (ran.returncode, ran.stderr)
    with open("/dev/full", "wb") as full:
        for said, end in (("nobody to tell", without(2)), ("a full device to tell", lambda: os.dup2(full.fileno(), 2))):
            ran = subprocess.run([program], input=lines, stdout=full, timeout=60, preexec_fn=end)
            yield said, 1, ran.returncode
            ran = subprocess.run([program], input=lines, stdout=subprocess.PIPE, timeout=60, preexec_fn=end)
            yield f"{said}, and nothing to tell", (0, b"".join(REPLIES)), (ran.returncode, ran.stdout)


def unwaiting(program):
    """Input and output that are set not to wait fail where there is nothing yet, or no room: what was read until then is answered, and what was taken stays."""
    for lines in (0, 3):
        ours, theirs = os.pipe()
        os.set_blocking(ours, False)
        os.write(theirs, b"".join(LINES[:lines]))
        yield f"input that doesn't wait, after {lines} lines", (1, b"".join(REPLIES[:lines]), READ), ended(started(program, ours))
        os.close(ours)
        os.close(theirs)
    ours, theirs = os.pipe()
    os.set_blocking(theirs, False)
    ran = subprocess.run([program], input=b"\n" * 4_000, stdout=theirs, stderr=subprocess.PIPE, timeout=60)
    os.close(theirs)
    with os.fdopen(ours, "rb") as taken:
        found = taken.read()
    yield "output that doesn't wait", (1, True, WRITE), (ran.returncode, bool(found) and (NOT_JSON * 4_000).startswith(found), ran.stderr)


def large():
    """Lines that take memory, and then stack: many goals with steps on them, and deep terms; then what stands, and an end of it all."""
    def line(op, **more):
        return json.dumps({"op": op, **more}).encode() + b"\n"

    texts = []
    for number in range(60):
        parts = " /\\ ".join(f"p{number}_{k}" for k in range(60))
        texts += [f"g N{number} `{parts} ==> q{number}`", "e DISCH_TAC", "oops"]
    texts += ["g D `" + " /\\ ".join(["p"] * 1_990) + "`", "oops", "g E `" + "~" * 3_990 + "p`", "oops"]
    lines = [line("new_theory", name="A", at=0)]
    lines += [line("insert", theory="A", at=at, text=text) for at, text in enumerate(texts)]
    lines += [line("report", theory="A", at=at) for at in range(0, len(texts), 7)]
    lines += [line("remove", theory="A", at=0) for _ in range(40)]
    return [*lines, line("drop_theory", name="A"), *LINES]


def replies_to(program, lines, most=None):
    limits = [(resource.RLIMIT_AS, most)] if most else []
    ran = subprocess.run([program], input=b"".join(lines), capture_output=True, timeout=60, preexec_fn=watched.limited(limits))
    return ran.returncode, ran.stdout.splitlines(keepends=True), ran.stderr


def limited_memory(program):
    """The address space is limited, from less than the program begins with up to what it needs: it doesn't begin, or tells so, or serves."""
    lines, most, begun, refused = large(), 1 << 20, False, 0
    while most < 1 << 31:
        status, replies, told = replies_to(program, lines, most)
        if not begun and not replies:
            # What the system's loader can't load has no words of the program's.
            yield f"{most >> 10} KB: it doesn't begin", True, told == NO_MEMORY and status == 1 or b"hol-serve" not in told and status != 0
        elif status != 0 or len(replies) != len(lines):
            yield f"{most >> 10} KB: an end", (0, len(lines), b""), (status, len(replies), told)
        else:
            begun, served = True, [pair for pair in zip(lines, replies) if pair[1] != MEMORY]
            refused += len(served) < len(lines)
            yield f"{most >> 10} KB: what is served", [reply for _, reply in served], replies_to(program, [line for line, _ in served])[1]
            if len(served) == len(lines):
                break
        most += most // 16 if not begun else 256 << 10
    yield "limits at which it began", True, begun
    yield "limits at which memory was refused", True, refused > 3


def stack_taken(program):
    """Before it answers it has touched the 4 MB of stack that the deepest documents need, so that none of these finds that there is no memory for them."""
    server = watched.Watched(program)
    yield "the first reply", [b'{"ok":true,"ran":0}'], server.ask([b'{"op":"stats"}'])
    yield "4 MB of stack at the first reply", True, server.kilobytes("VmStk") >= 4_096
    yield "the end of it", (b"", 0), server.end()


def words(program):
    good = [(), ("--turns", "4"), ("--turns", "100000"), ("--cache=4096", "--turns", "1"), ("--cache", "1")]
    bad = ["--turns 0", "--turns 100001", "--turns x", "--turns", "--turns 1 --turns 1", "--cache 0", "--cache 4097", "--help", "more"]
    for given in good:
        yield f"the words {given}", (0, b"".join(REPLIES), b""), ended_of(program, given)
    for given in [*map(str.split, bad), [b"\xff"]]:
        yield f"the words {given}", (2, b"", BAD), ended_of(program, given)


def ended_of(program, given):
    ran = subprocess.run([program, *given], input=b"".join(LINES), capture_output=True, timeout=60)
    return ran.returncode, ran.stdout, ran.stderr


def main():
    given = argparse.ArgumentParser(description="runs the built program over input and output that fail")
    given.add_argument("--program", default=str(watched.BUILT))
    program = given.parse_args().program
    passed = failed = 0
    reads = failed_reads, one_byte_at_a_time, ends_within_a_line, replies_in_turn
    for group in (*reads, failed_writes, taken_writes, signals, long_replies, unwaiting, missing, words, stack_taken, limited_memory):
        for name, want, found in group(program):
            passed, failed = passed + (want == found), failed + (want != found)
            if want != found:
                print(f"FAILED {name}\n  got  {found}\n  want {want}")
    print(f"program: {passed} passed, {failed} failed")
    return 1 if failed or not passed else 0


sys.exit(main())
