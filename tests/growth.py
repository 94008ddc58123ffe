"""Refuses the program's growths, one after the other, in each kind of request, and compares what stands afterwards with what stood before.

A growth is a call by which the program asks the C library for memory; refusing.c, which is preloaded into it, refuses those that are named here. What
is wanted comes from docs/PROTOCOL.md: where a growth of a request is refused the reply is the memory line, all reports, theorems and bases are those
from before, and the same request with memory is answered as by a new session; but an edit whose outcome alone can't be kept for later is carried out,
and that outcome is run again. Nor is memory lost: over many refusals of one request the program comes to have no more blocks with each (how many it has
may differ a little, since what is shared does). So for each k the k-th growth of a request is refused alone, and then all from the k-th on. By default
some k of each request are tried, the first ones, the last ones and some between; with `--all` each k."""

import argparse
import itertools
import json
import mmap
import os
import pathlib
import shutil
import struct
import subprocess
import sys
import tempfile
import time

import watched

HERE = pathlib.Path(__file__).resolve().parent
THEORIES = HERE.parent / "examples" / "theories"
MEMORY = b'{"error":9,"ok":false,"text":"memory"}'
OK = b'{"ok":true}'
EVERY = 2**63
NO_MEMORY = b"hol-serve: no memory\n"

# The documents that requests are tried on: theories in order, each a name and its commands' texts.
ONE_THEORY = [("A", [
    "new_constant c `:bool`", "new_axiom AX `c ==> c`", "g L `c ==> c`", "e DISCH_TAC THEN FIRST_ASSUM ACCEPT_TAC", "qed", "g M `c ==> c`",
    "e ACCEPT_TAC L", "qed",
])]
AN_IMPORT = [
    ("L", ["new_constant c `:bool`", "g L1 `c ==> c`", "e DISCH_TAC THEN FIRST_ASSUM ACCEPT_TAC", "qed"]),
    ("M", ["import L", "g M1 `c ==> c`", "e ACCEPT_TAC L1"]),
]
A_CLASH = [("X", ["new_definition C1 `c = T`"]), ("Y", ["new_definition C1 `c = F`"]), ("Z", ["import X", "import Y"])]
ALL_KINDS = [
    ("T", [
        "new_type t 0", "new_constant z `:t`", "new_constant s `:t->t`", "new_axiom EQ `!x:t. s x = x`", "g W `?x:t. (\\y. y = z) x`",
        "e EXISTS_TAC `z:t`", "e BETA_TAC THEN REWRITE_TAC []", "qed", "g P `(\\y:t. y = z) z`", "e BETA_TAC", "e REFL_TAC", "qed",
        "new_basic_type_definition u mk dest N1 N2 P", "new_definition TWO `two x = s (s x)`", "g V `!x. two x = x /\\ (p ==> p)`",
        "e GEN_TAC THEN CONJ_TAC", "r 1", "e DISCH_TAC THEN FIRST_ASSUM ACCEPT_TAC", "e REWRITE_TAC [TWO; EQ]", "b", "e ONCE_REWRITE_TAC [TWO]",
        "e PURE_REWRITE_TAC [EQ] THEN REFL_TAC", "qed", "g O `p \\/ ~p ==> q`", "e STRIP_TAC", "e UNDISCH_TAC `p:bool` THEN MP_TAC (REFL `x:t`)",
    ]),
    ("U", ["import T", "g A `two (s z) = z`", "e MATCH_MP_TAC (CONJUNCT1 V)", "e REWRITE_TAC [V]", "qed", "nonsense", "g B `x x`", "e ACCEPT_TAC EQ"]),
]


def request(op, **more):
    return json.dumps({"op": op, **more}).encode()


def making(docs):
    """The requests that make documents in a new session."""
    lines = []
    for at, (name, texts) in enumerate(docs):
        lines.append(request("new_theory", name=name, at=at))
        lines += [request("insert", theory=name, at=place, text=text) for place, text in enumerate(texts)]
    return lines


class Standing:
    """Documents, and what a new session tells of them: each report, the theorems, and the basis of each of these."""

    def __init__(self, program, docs):
        self.docs, server = docs, watched.Watched(program)
        if set(server.ask(making(docs))) - {OK}:
            sys.exit("growth: a new session refuses documents")
        self.lines = [request("report", theory=name, at=at) for name, texts in docs for at in range(len(texts))]
        for name, _ in docs:
            asked = request("theorems", theory=name)
            theorems = json.loads(server.ask([asked])[0])["theorems"]
            self.lines += [asked] + [request("basis", theory=name, name=text.split()[1]) for text in theorems]
        self.replies = server.ask(self.lines)
        server.end()


class Case:
    """A request on documents that stand, those that stand behind it, and the requests by which it is undone."""

    def __init__(self, line, before, after=None, undoing=()):
        self.line, self.before, self.after, self.undoing = line, before, after or before, list(undoing)


class Page:
    """The page of refusing.c."""

    def __init__(self, folder, said):
        compiler, library, self.file = os.environ.get("CC") or "cc", f"{folder}/refusing.so", f"{folder}/page"
        if not shutil.which(compiler):
            print(f"{said}: 0 passed, 0 failed; skipped, since there is no C compiler {compiler}: set CC")
            sys.exit(0)
        subprocess.run([compiler, "-O2", "-shared", "-fPIC", "-o", library, HERE / "refusing.c"], check=True)
        pathlib.Path(self.file).write_bytes(bytes(mmap.PAGESIZE))
        self.environment = {**os.environ, "LD_PRELOAD": library, "REFUSING": self.file}
        with open(self.file, "r+b") as opened:
            self.page = mmap.mmap(opened.fileno(), mmap.PAGESIZE)

    def refuse(self, first, last):
        """Counts growths from here on, and refuses those from the first to the last."""
        struct.pack_into("<4Q", self.page, 0, 0, first, last, 0)

    def blocks(self):
        return struct.unpack_from("<Q", self.page, 32)[0]

    def growths(self):
        return struct.unpack_from("<Q", self.page, 0)[0]

    def refused(self):
        return struct.unpack_from("<Q", self.page, 24)[0]


class Trial:
    """A program with documents in it, whose growths are refused."""

    def __init__(self, program, page, before, cache="1"):
        self.page, self.faults, self.tried, self.growths, self.blocks = page, [], 0, 0, []
        page.refuse(0, 0)
        self.server = watched.Watched(program, ["--cache", cache], environment=page.environment)
        self.server.ask(making(before.docs))

    def rests(self):
        """Waits until the program waits for a line."""
        while self.server.process.poll() is None and not self.server.is_waiting():
            time.sleep(0)

    def answered(self, line, first=0, last=0):
        """The reply where these growths are refused, and how many were."""
        self.rests()
        self.page.refuse(first, last)
        replies, refused = self.server.ask([line]), self.page.refused()
        self.growths = self.page.growths()
        self.page.refuse(0, 0)
        return replies[0] if replies else b"", refused

    def ran(self):
        return json.loads(self.server.ask([request("stats")])[0])["ran"]

    def expects(self, said, want, found):
        if want == found or len(self.faults) == 5:
            return
        if isinstance(want, list):
            at = next((i for i, pair in enumerate(zip(want, found)) if pair[0] != pair[1]), min(len(want), len(found)))
            want, found = want[at:at + 1], found[at:at + 1]
        self.faults.append(f"{said}\n  got  {found}\n  want {want}")

    def carries_out(self, case, said, reply):
        """The request was answered by this reply, and had its memory: it has done what it does, and is undone."""
        self.expects(f"{said}: the reply", self.wanted(case), reply)
        self.expects(f"{said}: what stands after it", case.after.replies, self.server.ask(case.after.lines))
        if case.undoing:
            self.expects(f"{said}: undone", [OK] * len(case.undoing), self.server.ask(case.undoing))
            self.expects(f"{said}: what stands where it is undone", case.before.replies, self.server.ask(case.before.lines))

    def wanted(self, case):
        """What a request is answered that has its memory."""
        return self.answered(case.line)[0] if json.loads(case.line)["op"] == "stats" else case.reply

    def tries(self, case, first, last, again):
        """Refuses these growths of the request."""
        said = f"{case.line.decode()}, growths {first} to {last} refused" if last == EVERY else f"{case.line.decode()}, growth {first} refused"
        self.tried += 1
        reply, refused = self.answered(case.line, first, last)
        if not refused or reply == case.reply == OK:
            return self.carries_out(case, said, reply)
        self.expects(f"{said}: the reply", MEMORY, reply)
        self.rests()
        self.blocks.append(self.page.blocks())
        self.expects(f"{said}: what stands", case.before.replies, self.server.ask(case.before.lines))
        if again:
            self.carries_out(case, f"{said}, and again with memory", self.answered(case.line)[0])

    def loses_memory(self):
        """Whether the program came to have a block more for each try between the first third and the last."""
        third = len(self.blocks) // 3
        return third >= 10 and min(self.blocks[-third:]) >= max(self.blocks[:third]) + third


def chosen(growths, every):
    """Which growths of so many are refused."""
    if every or growths <= 60:
        return list(range(1, growths + 1))
    return sorted({*range(1, 21), *range(growths - 9, growths + 1), *range(21, growths - 9, max(1, growths // 30))})


def of_case(program, page, case, every):
    """The faults of a request, how many times it was tried, and its growths."""
    trial = Trial(program, page, case.before)
    case.reply, _ = trial.answered(case.line)
    most = trial.growths
    trial.carries_out(case, f"{case.line.decode()} with memory", case.reply)
    for number in chosen(most, every):
        trial.tries(case, number, number, number % 5 == 1)
        trial.tries(case, number, EVERY, number % 5 == 2)
    if trial.loses_memory():
        trial.faults.append(f"{case.line.decode()}: it has {trial.blocks[:3]} .. {trial.blocks[-3:]} blocks")
    if trial.server.end() != (b"", 0):
        trial.faults.append(f"{case.line.decode()}: the program doesn't end well")
    return trial.faults, trial.tried, most


def edited(docs, at, texts):
    return [(name, texts if place == at else old) for place, (name, old) in enumerate(docs)]


def edits_of(program, before, texts):
    """Edits of documents: each command taken out and replaced, these texts put before each of the first theory's, each theory taken out, one put."""
    docs = before.docs
    for place, (name, old) in enumerate(docs):
        for at, text in enumerate(old):
            puts = [request("insert", theory=name, at=at, text=text)]
            yield Case(request("remove", theory=name, at=at), before, Standing(program, edited(docs, place, old[:at] + old[at + 1:])), puts)
            new = texts[at % len(texts)]
            after = Standing(program, edited(docs, place, [*old[:at], new, *old[at + 1:]]))
            yield Case(request("replace", theory=name, at=at, text=new), before, after, [request("replace", theory=name, at=at, text=text)])
        without = Standing(program, docs[:place] + docs[place + 1:])
        puts = [request("new_theory", name=name, at=place), *making([(name, old)])[1:]]
        yield Case(request("drop_theory", name=name), before, without, puts)
    name, old = docs[0]
    for number, text in enumerate(texts):
        at = number % (len(old) + 1)
        after = Standing(program, edited(docs, 0, old[:at] + [text] + old[at:]))
        yield Case(request("insert", theory=name, at=at, text=text), before, after, [request("remove", theory=name, at=at)])
    yield Case(request("new_theory", name="Q", at=1), before, Standing(program, [docs[0], ("Q", []), *docs[1:]]), [request("drop_theory", name="Q")])


def questions_of(before):
    """Requests that change nothing, among them one of each kind that is refused."""
    name = before.docs[0][0]
    for line in before.lines:
        yield Case(line, before)
    yield Case(request("stats"), before)
    yield Case(request("basis", theory=name, name="NOPE"), before)
    refused = [request("report", theory="NOPE", at=0), request("report", theory=name, at=10**6), request("new_theory", name=name, at=0)]
    refused += [request("new_theory", name="0", at=0), request("insert", theory=name, at=0), request("insert", theory=name, at=10**6, text="qed")]
    for line in refused:
        yield Case(line, before)


def closes(program, page, before):
    """A `close` whose growths are refused leaves the session as it is."""
    trial = Trial(program, page, before)
    for number in range(1, 10**6):
        reply, refused = trial.answered(request("close"), number, number)
        trial.tried += 1
        if not refused:
            trial.expects("close with memory", OK, reply)
            trial.expects("close: the end", (b"", 0), trial.server.end())
            return trial.faults, trial.tried, number - 1
        trial.expects(f"close, growth {number} refused", MEMORY, reply)
        trial.expects(f"close, growth {number} refused: what stands", before.replies, trial.server.ask(before.lines))


def losing(program, page, case, first, last):
    """The faults where these growths of an edit are refused, how many were, and at which of the requests that undo it an outcome that it lost is run again."""
    said, trial = f"{case.line.decode()}, growths {first} to {last} refused", Trial(program, page, case.before, "256")
    reply, refused = trial.answered(case.line, first, last)
    again = []
    if reply == OK:
        trial.expects(f"{said}: what stands after it", case.after.replies, trial.server.ask(case.after.lines))
        for number, line in enumerate(case.undoing):
            ran = trial.ran()
            trial.expects(f"{said}: undone", [OK], trial.server.ask([line]))
            again += [number] * (trial.ran() - ran)
        trial.expects(f"{said}: outcomes that are lost", refused, len(again))
        ran = trial.ran()
        trial.expects(f"{said}: again with memory, and undone", [OK] * (len(case.undoing) + 1), trial.server.ask([case.line, *case.undoing]))
        trial.expects(f"{said}: outcomes that are lost again", ran, trial.ran())
        trial.expects(f"{said}: what stands where it is undone", case.before.replies, trial.server.ask(case.before.lines))
    else:
        trial.expects(f"{said}: the reply", MEMORY, reply)
    trial.expects(f"{said}: the end", (b"", 0), trial.server.end())
    return trial.faults, refused, again


def lost_outcomes(program, page, case):
    """Where the growth by which an outcome is kept after it has left the documents is refused, the edit is carried out and that outcome alone is lost."""
    faults, tried, lost = [], 0, set()
    for number in range(1, 10**6):
        found, refused, again = losing(program, page, case, number, number)
        if again:
            found += losing(program, page, case, number, EVERY)[0]
        faults, tried, lost = faults + found, tried + (2 if again else 1), lost | {*again}
        if not refused:
            break
    # The first request that puts a theory back runs nothing, and each other one a command whose outcome left.
    if not lost or len(case.undoing) > 1 and lost != {*range(1, len(case.undoing))}:
        faults.append(f"{case.line.decode()}: the outcomes that it can lose are run again at {sorted(lost)} of the requests that undo it")
    return faults, tried, number - 1


def edits_that_lose(program):
    """Edits by which outcomes leave the documents."""
    before, (name, texts) = Standing(program, ONE_THEORY), ONE_THEORY[0]
    removed, replaced = [*texts[:2], *texts[3:]], [*texts[:3], "nonsense", *texts[4:]]
    back = [request("insert", theory=name, at=2, text=texts[2])], [request("replace", theory=name, at=3, text=texts[3])]
    yield Case(request("remove", theory=name, at=2), before, Standing(program, [(name, removed)]), back[0])
    yield Case(request("replace", theory=name, at=3, text="nonsense"), before, Standing(program, [(name, replaced)]), back[1])
    yield Case(request("drop_theory", name=name), before, Standing(program, []), making(ONE_THEORY))


def fixed_replies(program, page, before):
    """An empty line and one that is too long are answered as ever, whatever is refused."""
    trial = Trial(program, page, before)
    for line, error, text in ((b"", 2, "not JSON"), (b"x" * 65_537, 1, "line too long"), (b"x" * 300_000, 1, "line too long")):
        want = b'{"error":%d,"ok":false,"text":"%s"}' % (error, text.encode())
        for number in range(1, 9):
            for last in (number, EVERY):
                trial.tried += 1
                trial.expects(f"a line of {len(line)} bytes, growth {number} refused", want, trial.answered(line, number, last)[0])
    trial.server.end()
    return trial.faults, trial.tried, 8


def begins(program, page):
    """Where a growth is refused before the session begins, nothing is read and nothing is written."""
    faults, tried = [], 0
    for number in range(1, 10**6):
        with tempfile.TemporaryFile() as lines:
            lines.write(request("stats") + b"\n")
            lines.seek(0)
            page.refuse(number, number)
            ran = subprocess.run([program], stdin=lines, capture_output=True, env=page.environment, timeout=60)
            tried += 1
            read = os.lseek(lines.fileno(), 0, os.SEEK_CUR)
        if read or not page.refused():
            # The growth was one of the request.
            page.refuse(0, 0)
            return faults, tried, number - 1
        if (ran.returncode, ran.stdout, ran.stderr) != (1, b"", NO_MEMORY):
            faults.append(f"growth {number} before the session: {ran.returncode} {ran.stdout[:200]} {ran.stderr[:200]}")


def theory_of(name):
    """A theory of examples/theories, by the clients' own reader."""
    sys.path.insert(0, str(HERE.parent / "clients"))
    from holls.check import sent
    return name, sent([str(THEORIES / f"{name}.hol")])[name]


def cases(program):
    """All requests that are tried."""
    texts = ["new_constant d `:bool`", "g K `!x:A. x = x`", "e REFL_TAC", "nonsense", "new_axiom AX `T`", "import L", "new_definition D `d = (T /\\ F)`"]
    for docs in (ONE_THEORY, AN_IMPORT, A_CLASH, ALL_KINDS):
        before = Standing(program, docs)
        yield from questions_of(before)
        yield from edits_of(program, before, texts)
    before = Standing(program, [theory_of("connectives")])
    ends = [request("remove", theory="connectives", at=0), request("replace", theory="connectives", at=0, text="nonsense")]
    name, old = before.docs[0]
    after = [Standing(program, [(name, old[1:])]), Standing(program, [(name, ["nonsense", *old[1:]])])]
    undoing = [request("insert", theory=name, at=0, text=old[0]), request("replace", theory=name, at=0, text=old[0])]
    for line, behind, back in zip(ends, after, undoing):
        yield Case(line, before, behind, [back])
    yield from list(questions_of(before))[:: 9]


def main():
    given = argparse.ArgumentParser(description=__doc__, formatter_class=argparse.RawDescriptionHelpFormatter)
    given.add_argument("--program", default=str(watched.BUILT))
    given.add_argument("--all", action="store_true", help="each growth of each request")
    given.add_argument("--only", default="", help="requests that have this in them")
    words = given.parse_args()
    passed = failed = requests = most = 0
    with tempfile.TemporaryDirectory() as folder:
        page, row = Page(folder, "growths refused"), Standing(words.program, AN_IMPORT)
        found = [begins(words.program, page), closes(words.program, page, row), fixed_replies(words.program, page, row)]
        found += [lost_outcomes(words.program, page, case) for case in edits_that_lose(words.program)]
        tried_cases = (case for case in cases(words.program) if words.only in case.line.decode())
        for faults, tried, growths in itertools.chain(found, (of_case(words.program, page, case, words.all) for case in tried_cases)):
            requests, most = requests + 1, max(most, growths)
            passed, failed = passed + tried - len(faults), failed + len(faults)
            for fault in faults:
                print(f"FAILED {fault}", flush=True)
    print(f"growths refused: {passed} passed, {failed} failed; in {requests} requests, of up to {most} growths each")
    return 1 if failed or not passed or not most else 0


if __name__ == "__main__":
    sys.exit(main())
