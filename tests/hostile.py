"""Hostile input: texts broken at each byte, lines with each oddity of JSON, trees that are exponentially larger than what is kept of them, and what is
just at a limit. Each list ends by itself, with one reply a line, of the form or the number that docs/PROTOCOL.md says; no line takes over a second
of processor time but those whose turns say so, and no list over 256 MB. The deepest terms, types, expressions, justifications and histories are served
with 6 of the 8 MB of stack that Linux gives a program, and answered as with all of it.

With `--depth` it measures how much stack each takes, in kilobytes, and whether 1 MB is enough."""

import argparse
import itertools
import json
import random
import resource
import sys

import broken_lines
import broken_texts
import large_terms
import watched

OK = b'{"ok":true}'
MOST_KB = 256 * 1024
WHOLE, LESS, LEAST = 8 << 20, 6 << 20, 1 << 20
# The documents into which broken texts are put: an axiom and a constant stand, and a proof is open with two assumptions.
BEFORE = ["new_type list 1", "new_type prod 2", "new_constant c `:bool`", "new_axiom AX `!x:A. P x ==> x = x`", "new_axiom L `c /\\ (c \\/ F)`"]
PROOF = ["g W `c ==> (p /\\ (!x:A. P x)) ==> (?x:A. P x) /\\ (p <=> c)`", "e DISCH_TAC THEN DISCH_TAC"]


def request(op, **more):
    return json.dumps({"op": op, **more}, ensure_ascii=False).encode()


class List:
    """A list of lines, sent to a program of its own, and what is wrong with the answers."""

    def __init__(self, name, program, words=(), stack=WHOLE):
        self.name, self.faults, self.passed, self.slowest, self.is_ended = name, [], 0, 0.0, False
        self.server = watched.Watched(program, words, [(resource.RLIMIT_STACK, stack)])

    def expects(self, holds, said):
        if holds:
            self.passed += 1
        elif len(self.faults) < 10:
            self.faults.append(f"{self.name}: {said}")

    def ask(self, lines, seconds=1.0):
        """The replies to lines, which together take no longer than one may."""
        if self.is_ended:
            return []
        before = self.server.seconds()
        replies = self.server.ask(lines)
        self.is_ended = len(replies) < len(lines)
        self.expects(not self.is_ended, f"{len(replies)} replies to {[line[:80] for line in lines[:3]]} ..")
        took = 0 if self.is_ended else self.server.seconds() - before
        self.slowest = max(self.slowest, took)
        self.expects(took <= seconds, f"{took:.2f} seconds for {[line[:80] for line in lines[:3]]} ..")
        return replies

    def puts(self, name, commands, seconds=1.0, place=0):
        """Puts a theory of these commands at a place among the theories."""
        self.ask([request("new_theory", name=name, at=place)])
        for at, text in enumerate(commands):
            told = self.ask([request("insert", theory=name, at=at, text=text)], seconds)
            self.expects(told == [OK] or self.is_ended, f"insert of {text[:80]}")

    def ends(self):
        most = 0 if self.is_ended else self.server.kilobytes("VmHWM")
        self.expects(most <= MOST_KB, f"it had {most} KB")
        end = self.server.end()
        self.expects(end == (b"", 0), f"it ended with {end[1]} and wrote {end[0][:200]}")
        return self


def in_parts(values, size):
    values = iter(values)
    return iter(lambda: list(itertools.islice(values, size)), [])


def reports_on(session, texts):
    """The report on each text, put in the place of the last command of the theory A."""
    at = len(BEFORE) + len(PROOF)
    lines = [line for text in texts for line in (request("replace", theory="A", at=at, text=text), request("report", theory="A", at=at))]
    replies = session.ask(lines)
    for text, reply in zip(texts, replies[::2]):
        session.expects(reply == OK, f"{text!r} is put with {reply[:200]}")
    return replies[1::2]


def of_texts(program, count):
    """So many commands by the grammar, as they are and broken at each byte; and what stands before a place of refusal 1."""
    rng = random.Random(count)
    grammar = broken_texts.Grammar(rng)
    session = List("broken texts", program, ["--turns", "1000"])
    session.puts("A", [*BEFORE, *PROOF, "qed"])
    beginnings, accepted = set(), 0
    for text in (grammar.command() for _ in range(count)):
        for texts in in_parts(itertools.chain([text], broken_texts.broken(text, rng)), 40):
            for it, reply in zip(texts, reports_on(session, texts)):
                fault = broken_texts.fault_of(reply, it)
                session.expects(not fault, f"{it!r} is answered {reply[:300]}: {fault}")
                accepted += b'"refusal":' not in reply
                beginnings.update(filter(None, [not fault and broken_texts.beginning(reply, it)]))
    for texts in in_parts(sorted(beginnings), 40):
        for it, reply in zip(texts, reports_on(session, texts)):
            session.expects(broken_texts.is_beginning(reply, it), f"{it!r} begins a command, and is answered {reply[:300]}")
    session.expects(accepted > count, f"{accepted} texts are accepted")
    return session.ends()


def of_lines(program):
    """Lines with each oddity of JSON, each answered by the rules of broken_lines.py over the theories that stand."""
    session, theories = List("broken lines", program), {"A": 3}
    session.puts("A", ["g N `p:bool`", "e ALL_TAC", "oops"])
    for lines in in_parts(broken_lines.odd_lines(random.Random(1)), 50):
        wanted, sent = [], []
        for line in lines:
            number, value = broken_lines.error_of(line, theories)
            if number is None and value["op"] == "close":
                continue
            theories = theories if number else broken_lines.carried_out(value, theories)
            wanted.append(number)
            sent.append(line)
        for line, number, reply in zip(sent, wanted, session.ask(sent)):
            refused = json.dumps({"error": number, "ok": False, "text": broken_lines.ERRORS.get(number)}, separators=(",", ":")).encode()
            session.expects(reply == refused if number else b'"ok":true' in reply, f"{line[:200]} is answered {reply[:200]}, not by {number}")
    return session.ends()


def is_wanted(want, reply):
    told = json.loads(reply)
    return told.get("refusal") == want if isinstance(want, int) else want in told


def of_case(program, case, stack=WHOLE):
    """A case's commands, the report on each, and all of it dropped."""
    session = List(f"{case.name}, {stack >> 20} MB of stack", program, ["--turns", str(case.turns)], stack)
    if case.earlier:
        session.puts("B", case.earlier, case.seconds)
    session.puts("A", case.commands, case.seconds, 1 if case.earlier else 0)
    last, asked = len(case.commands) - 1, range(0, len(case.commands), max(1, len(case.commands) // 20))
    session.told = [session.ask([request("report", theory="A", at=at)], case.seconds) for at in sorted({*asked, last})]
    for reply in session.told[-1]:
        session.expects(is_wanted(case.want, reply), f"{case.want} is wanted, and told is {reply[:200]}")
    session.ask([request("replace", theory="A", at=last, text="qed"), request("drop_theory", name="A")])
    return session.ends()


def deep_cases():
    return [*large_terms.deep_terms(), *large_terms.deep_expressions(), *large_terms.deep_runs(), *large_terms.deep_results()]


def of_deep(program, case):
    """With less stack everything is answered as with all of it."""
    whole, less = of_case(program, case), of_case(program, case, LESS)
    less.expects(whole.told == less.told, "the replies differ with less stack")
    return whole, less


def depths(program):
    """The kilobytes of stack down to the deepest byte that each deep case has changed once its texts are read, typed and run, shown, and dropped; and
    whether it is served in 1 MB."""
    print("| what is deep | read | typed and run | told | dropped | at 1 MB |\n|---|---:|---:|---:|---:|---|")
    for case in [*deep_cases(), *large_terms.shared(), *large_terms.at_limits()]:
        session, found, asked = List(case.name, program, ["--turns", str(case.turns)]), [], range(len(case.commands))
        session.ask([request("theorems", theory="A")], 60)
        before = session.server.stack()
        # A text that goes on behind its command is read, and then refused.
        session.puts("A", [text + " )" for text in case.commands], 60)
        found.append(watched.used(before, session.server.stack()))
        for lines in (
            [request("replace", theory="A", at=at, text=text) for at, text in enumerate(case.commands)],
            [request("report", theory="A", at=at) for at in asked],
            [request("drop_theory", name="A")],
        ):
            session.ask(lines, 60)
            found.append(watched.used(before, session.server.stack()))
        session.ends()
        served = of_case(program, case, WHOLE).told == of_case(program, case, LEAST).told
        print(f"| {case.name} | {' | '.join(map(str, found))} | {'served' if served else 'ended'} |", flush=True)


def main():
    given = argparse.ArgumentParser(description=__doc__, formatter_class=argparse.RawDescriptionHelpFormatter)
    given.add_argument("--program", default=str(watched.BUILT))
    given.add_argument("--texts", type=int, default=100, help="how many commands are broken")
    given.add_argument("--only", default="", help="cases whose name has this in it")
    given.add_argument("--depth", action="store_true", help="measures the stack")
    words = given.parse_args()
    if words.depth:
        return depths(words.program)
    lists = [] if words.only else [of_texts(words.program, words.texts), of_lines(words.program)]
    wide = [*large_terms.shared(), *large_terms.at_limits(), *large_terms.many_goals(), *large_terms.steps_on_large_goals(), *large_terms.many_citations()]
    lists += [of_case(words.program, case) for case in wide if words.only in case.name]
    lists += [it for case in deep_cases() if words.only in case.name for it in of_deep(words.program, case)]
    passed, failed = sum(it.passed for it in lists), sum(len(it.faults) for it in lists)
    for it in lists:
        for fault in it.faults:
            print(f"FAILED {fault}")
    slow = ", ".join(f"{it.name} {it.slowest:.1f}" for it in lists if it.slowest > 1)
    print(f"hostile: over a second: {slow}" if slow else "hostile: nothing took over a second")
    print(f"hostile: {passed} passed, {failed} failed")
    return 1 if failed or not passed else 0


if __name__ == "__main__":
    sys.exit(main())
