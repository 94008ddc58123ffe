#!/usr/bin/env python3
"""A small server that follows docs/PROTOCOL.md, for tests: quick, and with faults on demand.

    fake_server.py [--serve OP,..] [--fault KIND:N] [--once FILE] [--log FILE] [--meet FOLDER]

It runs `g`, `e`, `qed`, `oops`, `import`, `deftac`, `new_constant`, `new_axiom`, and serves `replace`, `remove`, `drop_theory` or those of them
that are named. As the program does, an edit runs the command that it puts and each one that reads something else than before, is answered
when these have run, and is made as a whole or not at all; a report runs nothing. Its terms are texts: CONJ_TAC splits at the first ` /\\ `,
REFL_TAC closes `s = s`, ALL_TAC keeps the goal, and so do those that take their time: SLOW_TAC two seconds, MEET_TAC until a second server
runs it, and on a goal that has `loop` in it HANG_TAC ten minutes; on one that has `big` in it MEMORY_TAC finds no memory, and DIE_TAC ends
the process. A fault comes at the Nth request: die (in the middle of a line), end, hang, late (by two seconds), bad (a line that is no reply),
twice (two replies), noise (standard error without end) or memory (the Nth and the next request get the memory line). With --once the fault
that ends a process comes in the first process alone, which makes FILE. The log gets each request.
"""

import json
import os
import re
import sys
import time

COMMAND = re.compile(r"\s*(\w+)\s*(.*?)\s*\Z", re.S)
FUNCTIONS = ("ALL_TAC", "CONJ_TAC", "REFL_TAC", "SLOW_TAC", "MEET_TAC", "HANG_TAC", "MEMORY_TAC", "DIE_TAC")
EDITS = ("replace", "remove", "drop_theory")
MEETING = []


def refusal(number, text, arg=""):
    return {"arg": arg, "ok": True, "refusal": number, "text": text}


def meet():
    """Waits for a second server in the folder where they meet."""
    open(os.path.join(MEETING[0], str(os.getpid())), "w").close()
    while len(os.listdir(MEETING[0])) < 2:
        time.sleep(0.01)


class NoMemory(Exception):
    """A command finds no memory."""


def take_time(name, goal):
    """What a function does beside its work."""
    if name == "SLOW_TAC" or name == "HANG_TAC" and "loop" in goal:
        time.sleep(2 if name == "SLOW_TAC" else 600)
    if name == "MEET_TAC":
        meet()
    if name == "MEMORY_TAC" and "big" in goal:
        raise NoMemory
    if name == "DIE_TAC" and "big" in goal:
        os.abort()


class State:
    """The state of a theory after some commands: its theorems and named functions, and the open proof's name, statement and goals."""

    def __init__(self):
        self.functions = {}
        self.theorems, self.proof, self.goals = {}, None, []

    def copy(self):
        other = State()
        other.functions = dict(self.functions)
        other.theorems, other.proof, other.goals = dict(self.theorems), self.proof, list(self.goals)
        return other

    def is_same(self, other):
        """Whether both states are the same, with their theorems and functions in the same order."""
        return vars(self) == vars(other) and list(self.theorems) == list(other.theorems) and list(self.functions) == list(other.functions)

    def report(self):
        goals = [{"asl": [], "free": ["p:bool"], "goal": goal} for goal in self.goals]
        return {"goals": goals, "ok": True}

    def run(self, text, earlier):
        word, rest = COMMAND.match(text).groups() if COMMAND.match(text) else ("", "")
        runs = {"g": self.open, "e": self.step, "deftac": self.name, "qed": self.end, "new_axiom": self.state, "new_constant": self.state}
        if word in runs:
            return runs[word](rest, text)
        if word == "oops":
            return self.give_up()
        if word == "import":
            return self.take(rest, earlier)
        return refusal(1, "syntax", str(len(text) - len(text.lstrip())))

    def reads(self, text):
        """What a command reads, which decides what it does; None of a text that isn't run but answered from the state."""
        word, rest = COMMAND.match(text).groups() if COMMAND.match(text) else ("", "")
        if word in ("e", "qed"):
            goals = tuple(self.goals if word == "qed" else self.goals[:1])
            return self.proof if word == "qed" else self.proof is None, goals, self.functions.get(rest)
        if word == "deftac":
            return self.proof is None, *map(self.functions.get, rest.split())
        name = rest.split("`")[0].strip()
        return (self.proof is None, name in self.theorems) if word in ("g", "new_axiom", "new_constant") else None

    def open(self, rest, text):
        named = re.match(r"(\w+)\s*`([^`]*)`\Z", rest)
        if not named:
            return refusal(1, "syntax", str(len(text)))
        if self.proof:
            return refusal(2, "in a proof")
        if named[2].strip() == "x x":
            return refusal(7, "untypable", str(text.index("`")))
        if named[1] in self.theorems:
            return refusal(10, "name taken", "thm:" + named[1])
        self.proof, self.goals = (named[1], named[2].strip()), [named[2].strip()]
        return self.report()

    def state(self, rest, text):
        named = re.match(r"(\w+)\s*`([^`]*)`\Z", rest)
        if not named:
            return refusal(1, "syntax", str(len(text)))
        if self.proof:
            return refusal(2, "in a proof")
        if text.startswith("new_constant"):
            return {"made": ["const %s%s" % named.groups()], "ok": True}
        if named[1] in self.theorems:
            return refusal(10, "name taken", "thm:" + named[1])
        self.theorems[named[1]] = named[2].strip()
        return {"made": ["thm %s |- %s" % (named[1], named[2].strip())], "ok": True}

    def name(self, rest, text):
        named = re.match(r"(\w+)\s+(\w+)\Z", rest)
        if not named:
            return refusal(1, "syntax", str(len(text)))
        if self.proof:
            return refusal(2, "in a proof")
        function = self.functions.get(named[2], named[2])
        if function not in FUNCTIONS:
            return refusal(6, "unknown TAC or wrong arguments", named[2])
        if named[1] in self.functions or named[1] in FUNCTIONS:
            return refusal(10, "name taken", "tac:" + named[1])
        self.functions[named[1]] = function
        return {"made": ["tac " + named[1]], "ok": True}

    def step(self, rest, _):
        if not self.proof:
            return refusal(3, "no proof open")
        function = self.functions.get(rest, rest)
        if function not in FUNCTIONS:
            return refusal(6, "unknown TAC or wrong arguments", rest.split()[0] if rest else "")
        if not self.goals:
            return refusal(16, "no goal open")
        left = self.left(function, self.goals[0])
        if left is None:
            return refusal(17, "refused", function)
        self.goals[:1] = left
        return self.report()

    def left(self, name, goal):
        parts = goal.split(" /\\ ", 1)
        if name == "CONJ_TAC":
            return parts if len(parts) == 2 else None
        if name == "REFL_TAC":
            sides = goal.split(" = ", 1)
            return [] if sides[0] == sides[-1] and len(sides) == 2 else None
        return [goal]

    def end(self, rest, text):
        if rest:
            return refusal(1, "syntax", str(text.index(rest)))
        if not self.proof:
            return refusal(3, "no proof open")
        if self.goals:
            return refusal(19, "goals remain")
        name, statement = self.proof
        self.theorems[name], self.proof = statement, None
        return {"made": ["thm %s |- %s" % (name, statement)], "ok": True}

    def give_up(self):
        if not self.proof:
            return refusal(3, "no proof open")
        self.proof, self.goals = None, []
        return {"made": [], "ok": True}

    def take(self, name, earlier):
        if self.proof:
            return refusal(2, "in a proof")
        if name not in earlier:
            return refusal(4, "unknown theory", name)
        new = {key: value for key, value in earlier[name].theorems.items() if key not in self.theorems}
        named = {key: value for key, value in earlier[name].functions.items() if key not in self.functions}
        self.theorems.update(new)
        self.functions.update(named)
        return {"made": ["thm %s |- %s" % pair for pair in new.items()] + ["tac " + key for key in named], "ok": True}


EMPTY = State()


class Slot:
    """A command that stands: its text, what it read when it was run, the states before and after it, and what it came to."""

    def __init__(self, text, old=None, before=None, earlier=None):
        """A command as it is put; or an old one run again. It isn't run where it reads what it read before: it comes to the same."""
        self.text, self.before, self.read, self.is_run = text, before, None, False
        if before is None:
            return
        self.imports = self.imported(earlier)
        self.read, after = before.reads(text), before.copy()
        self.is_run = self.read is not None and self.read != old.read
        if self.is_run and text.startswith("e ") and before.goals:
            name = text[2:].strip()
            take_time(before.functions.get(name, name), before.goals[0])
        self.reply = after.run(text, earlier)
        self.after = old.after if old.before is not None and old.after.is_same(after) else after

    def imported(self, earlier):
        """The state that an import takes from."""
        return earlier.get(self.text.split()[-1]) if self.text.startswith("import ") else None

    def again(self, before, earlier):
        """The command behind another state: itself where nothing has changed."""
        is_same = self.before is before and self.imports is self.imported(earlier)
        return self if is_same else Slot(self.text, self, before, earlier)


def imports(slots):
    """Those that import."""
    return [slot for slot in slots if slot.text.startswith("import ")]


class Documents:
    """Theories in order, each a list of commands; answers one request at a time. `ran` counts the commands that were run."""

    def __init__(self, served=EDITS):
        self.served, self.theories, self.ran, self.stood = set(served), [], 0, {}

    def answer(self, line):
        try:
            request = json.loads(line.decode("utf-8"))
        except ValueError:
            return {"error": 2, "ok": False, "text": "not JSON"}
        if len(line) > 65_536:
            return {"error": 1, "ok": False, "text": "line too long"}
        op = request.get("op") if isinstance(request, dict) else None
        known = {"new_theory", "insert", "report", "basis", "theorems", "stats"} | (self.served & set(EDITS))
        if op not in known:
            return {"error": 3, "ok": False, "text": "shape"}
        return getattr(self, op)(request)

    def slots(self, name):
        return next((slots for standing, slots in self.theories if standing == name), None)

    def new_theory(self, request):
        if self.slots(request["name"]) is not None:
            return {"error": 5, "ok": False, "text": "theory name taken"}
        if not re.match(r"[A-Za-z_][\w']{0,63}\Z", request["name"]):
            return {"error": 6, "ok": False, "text": "bad theory name"}
        if request["at"] > len(self.theories):
            return {"error": 7, "ok": False, "text": "position out of range"}
        if len(self.theories) == 64:
            return {"error": 8, "ok": False, "text": "too many"}
        return self.made(lambda theories: theories.insert(request["at"], (request["name"], [])))

    def at(self, request, most, do):
        slots = self.slots(request["theory"])
        if slots is None:
            return {"error": 4, "ok": False, "text": "unknown theory"}
        if request["at"] >= len(slots) + most:
            return {"error": 7, "ok": False, "text": "position out of range"}
        if most and len(slots) == 1000:
            return {"error": 8, "ok": False, "text": "too many"}
        return do(slots)

    def edit(self, request, most, do):
        def edited(theories):
            at = [name for name, _ in theories].index(request["theory"])
            theories[at] = request["theory"], list(theories[at][1])
            do(theories[at][1])

        return self.at(request, most, lambda _: self.made(edited))

    def made(self, do):
        """Makes an edit and runs what it affects, beside what stands: as a whole or not at all."""
        theories = list(self.theories)
        do(theories)
        try:
            self.theories = self.run(theories)
        except NoMemory:
            return {"error": 9, "ok": False, "text": "memory"}
        before = self.stood
        self.stood = {name: before[name] if name in before and before[name][0] is slots else (slots, imports(slots)) for name, slots in self.theories}
        return {"ok": True}

    def run(self, theories):
        """The theories with all commands run that read something else than before."""
        earlier, found = {}, []
        for name, slots in theories:
            slots = slots if self.is_as_it_stood(name, slots, earlier) else self.run_theory(slots, earlier)
            earlier[name] = slots[-1].after if slots else EMPTY
            found.append((name, slots))
        return found

    def is_as_it_stood(self, name, slots, earlier):
        """Whether a theory has the commands that it had, and imports what it imported: nothing of it is run then."""
        stood, importing = self.stood.get(name, (None, ()))
        return stood is slots and all(slot.imports is slot.imported(earlier) for slot in importing)

    def run_theory(self, slots, earlier):
        state, found = EMPTY, []
        for slot in slots:
            now = slot.again(state, earlier)
            self.ran += now is not slot and now.is_run
            state = now.after
            found.append(now)
        return found

    def insert(self, request):
        return self.edit(request, 1, lambda slots: slots.insert(request["at"], Slot(request["text"])))

    def replace(self, request):
        return self.edit(request, 0, lambda slots: slots.__setitem__(request["at"], Slot(request["text"])))

    def remove(self, request):
        return self.edit(request, 0, lambda slots: slots.__delitem__(request["at"]))

    def report(self, request):
        return self.at(request, 0, lambda slots: slots[request["at"]].reply)

    def drop_theory(self, request):
        if self.slots(request["name"]) is None:
            return {"error": 4, "ok": False, "text": "unknown theory"}
        return self.made(lambda theories: theories.remove(next(one for one in theories if one[0] == request["name"])))

    def stats(self, _):
        return {"ok": True, "ran": self.ran}

    def basis(self, request):
        if self.slots(request["theory"]) is None:
            return {"error": 4, "ok": False, "text": "unknown theory"}
        texts = [slot.text for _, slots in self.theories for slot in slots]
        axioms = ["axiom:" + request["name"]] if any(text.startswith("new_axiom %s " % request["name"]) for text in texts) else []
        return {"items": axioms if request["name"] in self.end(request["theory"]).theorems else None, "ok": True}

    def theorems(self, request):
        if self.slots(request["theory"]) is None:
            return {"error": 4, "ok": False, "text": "unknown theory"}
        return {"ok": True, "theorems": ["thm %s |- %s" % pair for pair in self.end(request["theory"]).theorems.items()]}

    def end(self, name):
        """The state at a theory's end."""
        slots = self.slots(name)
        return slots[-1].after if slots else EMPTY


def make_noise():
    """Writes to standard error without end, some lines without one."""
    while True:
        os.write(2, b"noise " * 1000 + b"\n")
        time.sleep(0.001)


def main():
    given = {"--serve": ",".join(EDITS), "--fault": ":0", "--once": "", "--log": "", "--meet": ""}
    given.update(zip(sys.argv[1::2], sys.argv[2::2]))  # (argparse takes as long to load as all else.)
    once, log_file = given["--once"], given["--log"]
    MEETING.append(given["--meet"])
    kind, number = given["--fault"].split(":")
    documents = Documents(filter(None, given["--serve"].split(",")))
    for count, line in enumerate(iter(sys.stdin.buffer.readline, b""), 1):
        if log_file:
            with open(log_file, "ab") as log:
                log.write(line)
        reply = json.dumps(documents.answer(line.rstrip(b"\n")) if kind != "memory" or count not in (int(number), int(number) + 1)
                           else {"error": 9, "ok": False, "text": "memory"}, sort_keys=True, separators=(",", ":"), ensure_ascii=False)
        is_due = kind and count == int(number) and not (once and os.path.exists(once))
        if is_due and once:
            open(once, "w").close()
        if is_due and kind == "end":
            sys.exit(3)
        if is_due and kind in ("hang", "late"):
            time.sleep(600 if kind == "hang" else 2)
        if is_due and kind == "die":
            sys.stdout.write(reply[:5])
            sys.stdout.flush()
            os.abort()
        if is_due and kind == "bad":
            reply = "no reply {"
        if is_due and kind == "twice":
            reply += "\n" + reply
        if is_due and kind == "noise":
            import threading

            threading.Thread(target=make_noise, daemon=True).start()
        sys.stdout.write(reply + "\n")
        sys.stdout.flush()


if __name__ == "__main__":
    main()
