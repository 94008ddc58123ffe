"""A long session: random edits and questions by a fixed seed, as an editor would send them for days.

Memory has to be flat: the most that the program ever had may be 1.2 times what it had after the first tenth of the requests at most. Each edit is
carried out or refused as docs/PROTOCOL.md says, and at points spread over the session all reports, theorems and bases have to be those that a new
session gives over the texts that stand. The edits are those of edits.py, with large goals among them. Not in the gate: a million requests take minutes."""

import argparse
import json
import random
import sys
import time

import edits
import watched

OK = b'{"ok":true}'
IN_A_BATCH = 200


def large():
    """Commands with long texts, many goals, many assumptions and many turns, some of which are refused."""
    parts = r" /\ ".join(f"(p{k} ==> p{k})" for k in range(120))
    yield f"g L `{parts}`"
    yield "e REPEAT CONJ_TAC"
    yield "e REPEAT STRIP_TAC THEN FIRST_ASSUM ACCEPT_TAC"
    yield "g M `" + r" /\ ".join(f"q{k}" for k in range(300)) + " ==> q299 \\/ F`"
    yield "g N `" + "!x:A. " * 300 + "x = x`"
    yield "e REPEAT GEN_TAC THEN REFL_TAC"
    yield "g N `" + "~" * 500 + "(c:bool) ==> " + "~" * 500 + "c`"
    yield "g L `" + r" /\ ".join(rf"x{k} = (\g. g x{k - 1} x{k - 1})" for k in range(1, 12)) + "`"
    yield "new_definition e_DEF `e = (" + r" \/ ".join(["c"] * 200) + ")`"
    yield "e REWRITE_TAC [e_DEF] THEN REPEAT (CHANGED_TAC (REWRITE_TAC []))"
    yield "e REPEAT ALL_TAC"
    yield "g M `(p <=> p /\\ p) ==> p`"
    yield "e DISCH_TAC THEN ASM_REWRITE_TAC []"


class Soak:
    """The session, the documents that stand in it, and what was found."""

    def __init__(self, program, seed):
        self.program, self.rng, self.docs, self.edits = program, random.Random(seed), [], 0
        self.server, self.sent, self.faults, self.first, self.points = watched.Watched(program), 0, [], 0, 0

    def question(self):
        name, texts = self.rng.choice(self.docs or [("A", [])])
        kind = self.rng.randrange(8)
        if kind < 5:
            return edits.request("report", theory=name, at=self.rng.randrange(len(texts) + 1))
        if kind == 5:
            return edits.request("theorems", theory=name)
        return edits.request("basis", theory=name, name=self.rng.choice("LMN")) if kind == 6 else edits.request("stats")

    def batch(self):
        """Lines, and for each that is an edit whether it has to be carried out."""
        lines, wanted = [], []
        while len(lines) < IN_A_BATCH:
            line, new = edits.next_edit(self.rng, self.docs, self.edits)
            self.edits += 1
            self.docs = self.docs if new is None else new
            lines.append(line.encode())
            wanted.append(new is not None)
            for _ in range(self.rng.randrange(4)):
                lines.append(self.question().encode())
                wanted.append(None)
        return lines, wanted

    def runs(self):
        lines, wanted = self.batch()
        replies = self.server.ask(lines)
        self.sent += len(lines)
        if len(replies) != len(lines):
            self.faults.append(f"{len(replies)} replies to {len(lines)} lines")
        for line, want, reply in zip(lines, wanted, replies):
            if want is not None and (reply == OK) != want or b'"error":9' in reply:
                self.faults.append(f"{line[:300]} is answered {reply[:300]}")

    def compares(self):
        """What the session tells has to be what a new one does."""
        docs = [(name, [command.text for command in commands]) for name, commands in self.docs]
        lines = [line.encode() for line in edits.questions(self.docs)]
        lines += [edits.request("basis", theory=name, name=theorem).encode() for name, _ in docs for theorem in ("AX", "AY", "L", "M", "N", "e_DEF")]
        fresh, making = watched.Watched(self.program), []
        for at, (name, texts) in enumerate(docs):
            making.append(edits.request("new_theory", name=name, at=at).encode())
            making += [edits.request("insert", theory=name, at=place, text=text).encode() for place, text in enumerate(texts)]
        fresh.ask(making)
        for line, want, found in zip(lines, fresh.ask(lines), self.server.ask(lines), strict=True):
            if want != found:
                self.faults.append(f"after {self.sent} requests {line} is answered\n  {found[:300]}\n  and by a new session\n  {want[:300]}\n  {json.dumps(docs)}")
        fresh.end()
        self.points += 1


def main():
    given = argparse.ArgumentParser(description=__doc__, formatter_class=argparse.RawDescriptionHelpFormatter)
    given.add_argument("--program", default=str(watched.BUILT))
    given.add_argument("--requests", type=int, default=1_000_000)
    given.add_argument("--points", type=int, default=100)
    given.add_argument("--seed", type=int, default=1)
    words = given.parse_args()
    edits.COMMANDS += [(text, [], []) for text in large()]
    soak, began = Soak(words.program, words.seed), time.monotonic()
    while soak.sent < words.requests and not soak.faults:
        soak.runs()
        if not soak.first and soak.sent * 10 >= words.requests:
            soak.first = soak.server.kilobytes("VmHWM")
        if soak.sent >= words.requests * (soak.points + 1) // words.points:
            soak.compares()
    most, took, seconds = soak.server.kilobytes("VmHWM"), time.monotonic() - began, soak.server.seconds()
    if most > 1.2 * soak.first:
        soak.faults.append(f"it had {soak.first} KB at most in the first tenth, and {most} KB in all")
    if soak.server.end() != (b"", 0):
        soak.faults.append("its end isn't that of a session")
    for fault in soak.faults[:10]:
        print(f"FAILED {fault}")
    print(f"soak: {soak.sent} requests, {soak.edits} of them edits, in {took:.0f} seconds, {seconds:.0f} of them the program's; at most {soak.first} KB in the first tenth, {most} KB in all")
    print(f"soak: {soak.points} passed, {len(soak.faults)} failed")
    return 1 if soak.faults or not soak.points else 0


if __name__ == "__main__":
    sys.exit(main())
