"""Checks the table of all refusals, tests/refusals.txt, against the sessions and the sources.

A line of the table is 'what | number | arg | why | session | commands': the session has a report on the last of these commands, put one after the
other, that refuses it by this number and with this arg. '..' stands for any part of a command, 'error N' in place of a number for the refusal of a
request. 'what | never N | | why' says that nothing is refused so. That the program gives these reports is what tests/sessions.py runs.

What can be refused is taken from the sources: the functions on goals and their arguments, the places where each refuses and those that pay turns by
themselves, the tacticals, the rules, the commands, the requests; so whatever is added there lacks its lines until they stand. Of each word of the
language a session has an accepted command too: no contract says that there is memory, so a body that gives up is caught by that alone."""

import collections
import json
import pathlib
import re
import sys

ROOT = pathlib.Path(__file__).resolve().parent.parent
TESTS = ROOT / "tests"
sys.path.append(str(TESTS))
import sessions  # noqa: E402 (tests/sessions.py)

CRATES = ROOT / "crates"
TABLE = TESTS / "refusals.txt"

Row = collections.namedtuple("Row", "what number arg why session commands")
# What a reply is about: the commands of the theory up to the one that is reported, or the request itself; no number where that is accepted.
Shown = collections.namedtuple("Shown", "session number arg commands")
# So many lines of this number, or one that says that there are none; where so many places of the sources refuse, just so many.
Need = collections.namedtuple("Need", "what number places", defaults=(0,))

THEOREMS = ("Theorem", "TermAndTheorem", "Theorems")
# By which numbers each command is refused, and each request, as docs/PROTOCOL.md has them.
COMMANDS = {
    "g": (1, 2, 7, 8, 9, 10, 13), "e": (1, 3, 5, 6, 7, 8, 9, 13, 14, 15, 16, 17, 18), "b": (1, 3, 20), "r": (1, 3, 16), "qed": (1, 3, 19), "oops": (1, 3),
    "deftac": (1, 2, 5, 6, 7, 8, 9, 10, 13, 14), "import": (1, 2, 4, 21), "new_type": (1, 2, 10), "new_constant": (1, 2, 9, 10, 13), "new_axiom": (1, 2, 7, 8, 9, 10, 13),
    "new_definition": (1, 2, 7, 9, 10, 11, 12, 13), "new_basic_type_definition": (1, 2, 5, 10, 11, 14),
}
REQUESTS = {
    "new_theory": (3, 5, 6, 7, 8), "drop_theory": (3, 4), "insert": (3, 4, 7, 8), "replace": (3, 4, 7), "remove": (3, 4, 7), "report": (3, 4, 7),
    "theorems": (3, 4), "basis": (3, 4), "stats": (), "close": (),
}
# What an `e` is refused by under the name of a part of it.
BY_NAME = (14, 15, 17)


def found(pattern, file, least):
    """What the pattern finds in the sources' file; its crate may be another one."""
    files = list(CRATES.glob(f"hol_*/{file}"))
    matches = [it for path in files for it in re.findall(pattern, path.read_text(), re.M)]
    if len(matches) < least:
        sys.exit(f"refusals: {len(matches)} of at least {least} found in {file}: does it stand elsewhere, or in another form?")
    return matches


def functions():
    """The functions on goals, each with its kind of arguments, the number of places where it refuses a goal, and whether it pays turns."""
    names = dict(found(r'TacCode::(\w+) => "(\w+)"', "src/tac_code.rt", 33))
    kinds = dict(found(r"TacCode::(\w+) => ArgumentKind::(\w+)", "src/tac_code.rt", 33))
    paying = {code for code, _ in found(r"^ *tac (\w+) = .*\b(stripped|converted) \(", "specs/Tac.antt", 7)}
    bodies = dict(found(r"^pub fn (\w+_tac)\(((?:.|\n)*?\n)\}", "src/*.rt", 33))
    for code, name in names.items():
        body = re.sub(r"let TacArgs::.*\n.*TacFault::Refused.*", "", bodies[name.lower()])
        yield name, kinds[code], body.count("TacFault::Refused("), code in paying


def needed():
    """What has to have lines."""
    for name, kind, places, pays in functions():
        yield from [Need(name, 6), Need(name, 13), Need(name, 17, places) if places else Need(name, "never 17")]
        yield from [Need(name, 15)] if kind in THEOREMS else []
        yield from [Need(name, 18)] if pays else []
    rules = found(r'ForwardRule::\w+ => "(\w+)"', "src/forward_rule.rt", 8)
    for rule in rules:
        yield from [Need(rule, 13), Need(rule, 14)]
    handing = found(r"^    (\w+)\((?:\w+, )?TacCall\),", "src/tac_expr.rt", 5)
    for word, sort in found(r'"([A-Z]\w+)" => Sort::(\w+)', "src/sort.rt", 21):
        if word not in rules:
            yield from [Need(word, number) for number in (13, 17, 18, *((6,) if sort in handing else ()))]
    for word in found(r'"([a-z]\w*)" => Sort::', "src/sort.rt", 13):
        yield from [Need(word, number) for number in COMMANDS.get(word, (1,))]
    for op in found(r'"(\w+)" => (?:\w+\(value\)|Some\(Request::\w+\)),', "src/reading.rt", 9):
        yield from [Need(op, f"error {number}") for number in REQUESTS.get(op, (3,))]
    yield from [Need("a line", f"error {number}") for number in (1, 2, 3, 9)]


def asked_of(line):
    """The request of a line, or an empty one."""
    try:
        asked = json.loads(line)
    except ValueError:
        asked = None
    return asked if isinstance(asked, dict) else {}


def shown_in(session):
    """The reports of a session, and its other replies that refuse."""
    theories = {}
    for line, want in zip(session.sent, session.want):
        asked = asked_of(line)
        op, at, name = asked.get("op"), asked.get("at"), asked.get("theory", asked.get("name"))
        reply = json.loads(want) if isinstance(want, str) and want else {}
        if "error" in reply:
            yield Shown(session.name, f"error {reply['error']}", "", (line.decode(errors="replace"),))
        elif "refusal" in reply:
            yield Shown(session.name, reply["refusal"], reply["arg"], tuple(theories[name][: at + 1]))
        elif "goals" in reply or "made" in reply:
            yield Shown(session.name, None, "", tuple(theories[name][: at + 1]))
        elif op in ("new_theory", "drop_theory"):
            theories[name] = []
        elif op == "insert":
            theories[name].insert(at, asked["text"])
        elif op == "replace":
            theories[name][at] = asked["text"]
        elif op == "remove":
            theories[name].pop(at)


def rows():
    """The lines of the table."""
    for line in TABLE.read_text().splitlines():
        if line and not line.startswith("#"):
            parts = [part.strip() for part in line.split("|")]
            number = int(parts[1]) if parts[1].isdigit() else parts[1]
            yield Row(parts[0], number, *parts[2:], *[""] * (6 - len(parts)))


def is_like(text, pattern):
    return re.fullmatch(".*".join(map(re.escape, pattern.split(".."))), text, re.S)


def names(row, shown):
    """Whether the row is about this reply."""
    commands = row.commands.split(" ;; ")
    last = shown.commands[len(shown.commands) - len(commands):]
    return (row.session, row.number, row.arg) == shown[:3] and len(last) == len(commands) and all(map(is_like, last, commands))


def is_of(row, words, tacticals):
    """Whether what the row is about is what its command says."""
    last = row.commands.split(" ;; ")[-1]
    if isinstance(row.number, str):
        return row.what == "a line" or f'"{row.what}"' in last
    if row.what in words:
        return last.split()[:1] == [row.what]
    if row.number in BY_NAME and row.what not in tacticals and row.arg != row.what:
        return False
    return row.what == "a text" or row.what in re.findall(r"\w+", last)


def key_of(shown, names_of_parts):
    """What a reply refuses, by the words of the table, and the number."""
    if isinstance(shown.number, str):
        op = asked_of(shown.commands[0]).get("op")
        return (op if REQUESTS.get(op) and shown.number not in ("error 1", "error 2") else "a line", shown.number)
    if shown.number in BY_NAME or shown.number == 6 and shown.arg in names_of_parts:
        return (shown.arg, shown.number)
    word = re.match(r"\w*", shown.commands[-1])[0]
    return (word if word in COMMANDS else "a text", shown.number)


def words_accepted(shown):
    """The words of the commands that are accepted; before a `qed` those are that no report refuses."""
    refused = {(it.session, it.commands) for it in shown if it.number}
    words = set()
    for it in shown:
        if not it.number:
            first = 0 if it.commands[-1] == "qed" else len(it.commands) - 1
            for at in range(first, len(it.commands)):
                if (it.session, it.commands[: at + 1]) not in refused:
                    words.update(re.findall(r"\w+", it.commands[at]))
    return words


def faults_of_rows(table, replies, tacticals):
    """For each line what is wrong with it, or None."""
    counts = collections.Counter((row.what, str(row.number)) for row in table)
    copies = collections.Counter(row._replace(why="") for row in table)
    for row in table:
        told = "\n  ".join((" | ".join(str(it) for it in row), ""))
        never = str(row.number).startswith("never ")
        if copies[row._replace(why="")] > 1:
            yield told + "stands more than once"
        elif never:
            yield told + "has lines all the same" if counts[row.what, row.number.removeprefix("never ")] else None
        elif not is_of(row, COMMANDS, tacticals):
            yield told + "its commands are not about it"
        else:
            yield None if any(names(row, it) for it in replies) else told + "no such session, or no such report in it"


def faults_of_needs(table, need):
    """For each thing that has to have lines what it lacks, or None."""
    counts = collections.Counter((row.what, row.number) for row in table)
    for what, number, places in need:
        has = counts[what, number] or (counts[what, f"never {number}"] if not places else 0)
        yield None if has >= max(places, 1) else f"{what} | {number}\n  has {has} lines of at least {max(places, 1)}"


def faults():
    """For each thing that is checked what is wrong with it, or None."""
    every = [session for file in sorted((TESTS / "sessions").glob("*.txt")) for session in sessions.read(file)] + [*sessions.generated()]
    shown = [it for session in every for it in shown_in(session)]
    replies = [it for it in shown if it.number]
    table, need = [*rows()], [*needed()]
    parts = {it.what for it in need if it.number in (6, 14, 17)}
    tacticals = {it.what for it in need if it.number == 17} - {name for name, *_ in functions()}
    yield from faults_of_rows(table, replies, tacticals)
    yield from faults_of_needs(table, need)
    for key in sorted({key_of(it, parts) for it in replies}, key=str):
        yield None if key in {(row.what, row.number) for row in table} else f"{key[0]} | {key[1]}\n  is shown by a session and has no line"
    accepted = words_accepted(shown)
    for word in sorted({it.what for it in need if isinstance(it.number, int)} - {"NO_TAC"}):
        yield None if word in accepted else f"{word}\n  stands in no command that a session has accepted"


def main():
    passed = failed = 0
    for fault in faults():
        passed, failed = passed + (fault is None), failed + (fault is not None)
        if fault:
            print(f"FAILED {fault}")
    print(f"refusals: {passed} passed, {failed} failed")
    return 1 if failed or not passed else 0


if __name__ == "__main__":
    sys.exit(main())
