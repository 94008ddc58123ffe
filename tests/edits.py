"""Random edits of documents, each of which is compared with a new session over the documents that stand after it.

After every edit all reports, all lists of theorems and all bases have to be those that a new session gives, to which the same texts are put in order. Where the edit
was carried out, the number of `stats` may rise by the commands that it affects and no more; where it was refused, it has to stay. Which commands are affected is told
from the new sessions' reports before and after the edit alone: a command is counted where it was inserted or replaced, or where something else stands under a name that
it writes or makes, or a constant comes or goes whose name a step may free, or another proof is open where it looks at that. What a theorem rests on is told from the
commands that were accepted, and compared with the replies to `basis`.

Commands come from a list below, with the names that each of them writes and makes. By chance alone they would nearly all be refused, so most edits go towards
documents in which proofs are finished and imported (`WHOLE`, one after the other), and the others away from them. At the end each kind of command has to have been
accepted, and edits have to have run others than those that they put."""

import argparse
import collections
import itertools
import json
import pathlib
import random
import subprocess
import sys

BUILT = pathlib.Path(__file__).resolve().parent.parent / "crates" / "hol_serve" / "out" / "hol_serve"
THEORIES = ["A", "B", "C", "D"]
LIMIT = 14

# text, the names that it writes, the names that it makes; bound names go with types, so that equal texts of goals are equal goals
COMMANDS = [
    ("new_type t 0", [], ["type:t"]),
    ("new_type u 1", [], ["type:u"]),
    ("new_constant c `:bool`", ["type:bool"], ["const:c"]),
    ("new_constant c' `:bool`", ["type:bool"], ["const:c'"]),
    ("new_constant d `:bool`", ["type:bool"], ["const:d"]),
    ("new_constant k `:t`", ["type:t"], ["const:k"]),
    ("new_constant k `:bool`", ["type:bool"], ["const:k"]),
    ("new_constant p `:bool`", ["type:bool"], ["const:p"]),
    ("new_axiom AX `c ==> c`", ["const:c"], ["thm:AX"]),
    ("new_axiom AX `c:bool`", ["const:c", "type:bool"], ["thm:AX"]),
    ("new_axiom AY `d /\\ c`", ["const:d", "const:c"], ["thm:AY"]),
    ("new_definition e_DEF `e = (c /\\ d)`", ["const:c", "const:d"], ["thm:e_DEF", "const:e"]),
    ("new_definition e_DEF `e = (d \\/ c)`", ["const:c", "const:d"], ["thm:e_DEF", "const:e"]),
    ("new_definition e_DEF `e = x`", ["const:x"], ["thm:e_DEF", "const:e"]),
    ("g L `c ==> c`", ["const:c"], ["thm:L"]),
    ("g L `d ==> d`", ["const:d"], ["thm:L"]),
    ("g M `p /\\ q ==> q /\\ p`", ["const:p", "const:q"], ["thm:M"]),
    ("g N `(c ==> c) /\\ (d ==> d)`", ["const:c", "const:d"], ["thm:N"]),
    ("g N `c /\\ d ==> e`", ["const:c", "const:d", "const:e"], ["thm:N"]),
    ("g Q `!c:bool. c ==> c`", ["const:c", "type:bool"], ["thm:Q"]),
    ("e GEN_TAC", [], []),
    ("e DISCH_TAC", [], []),
    ("e STRIP_TAC", [], []),
    ("e CONJ_TAC", [], []),
    ("e DISCH_TAC THEN FIRST_ASSUM ACCEPT_TAC", [], []),
    ("e REPEAT STRIP_TAC THEN FIRST_ASSUM ACCEPT_TAC", [], []),
    ("e ACCEPT_TAC AX", ["thm:AX"], []),
    ("e ACCEPT_TAC L", ["thm:L"], []),
    ("e MP_TAC AY", ["thm:AY"], []),
    ("e REWRITE_TAC [e_DEF]", ["thm:e_DEF"], []),
    ("e REWRITE_TAC [AY]", ["thm:AY"], []),
    ("e REWRITE_TAC []", [], []),
    ("e ASM_REWRITE_TAC [AY; L]", ["thm:AY", "thm:L"], []),
    ("e SUBGOAL_THEN `c:bool` ASSUME_TAC", ["const:c", "type:bool"], []),
    ("e TRY (ACCEPT_TAC TRUTH)", ["thm:TRUTH"], []),
    ("deftac STEPS REPEAT STRIP_TAC THEN FIRST_ASSUM ACCEPT_TAC", [], ["tac:STEPS"]),
    ("deftac STEPS CONJ_TAC", [], ["tac:STEPS"]),
    ("deftac BY ACCEPT_TAC L", ["thm:L"], ["tac:BY"]),
    ("deftac BY TRY (ACCEPT_TAC AX) THEN STEPS", ["thm:AX", "tac:STEPS"], ["tac:BY"]),
    ("e STEPS", ["tac:STEPS"], []),
    ("e BY", ["tac:BY"], []),
    ("qed", [], []),
    ("qed", [], []),
    ("qed", [], []),
    ("b", [], []),
    ("r 1", [], []),
    ("oops", [], []),
    ("import A", [], []),
    ("import B", [], []),
    ("import C", [], []),
    ("nonsense", [], []),
    ("g L ``", [], []),
]
KEYS = {text: (cited, made) for text, cited, made in COMMANDS}

# documents of whole proofs
CONSTANTS = ["new_constant c `:bool`", "new_constant d `:bool`"]
AXIOMS = ["new_axiom AX `c ==> c`", "new_axiom AY `d /\\ c`"]
STEPS = "deftac STEPS REPEAT STRIP_TAC THEN FIRST_ASSUM ACCEPT_TAC"
PROOF_OF_L = ["g L `c ==> c`", "e DISCH_TAC THEN FIRST_ASSUM ACCEPT_TAC", "qed"]
PROOF_OF_M = ["g M `p /\\ q ==> q /\\ p`", "e STRIP_TAC", "e CONJ_TAC", "b", "e REPEAT STRIP_TAC THEN FIRST_ASSUM ACCEPT_TAC", "qed"]
PROOF_OF_Q = ["g Q `!c:bool. c ==> c`", "e GEN_TAC", "e REPEAT STRIP_TAC THEN FIRST_ASSUM ACCEPT_TAC", "qed"]
WHOLE = [
    [
        ("A", [*CONSTANTS, *AXIOMS, STEPS, *PROOF_OF_L, "new_definition e_DEF `e = (c /\\ d)`", "deftac BY ACCEPT_TAC L"]),
        ("B", ["import A", "g N `(c ==> c) /\\ (d ==> d)`", "e CONJ_TAC", "r 1", "e STEPS", "e BY", "qed", "new_type t 0"]),
        ("C", ["import B", "g L `d ==> d`", *PROOF_OF_M, "new_constant k `:t`"]),
        ("D", ["import A", "g N `c /\\ d ==> e`", "e REWRITE_TAC [e_DEF]", "qed", "import C", "new_constant k `:t`"]),
    ],
    [
        ("B", ["new_constant c' `:bool`", "deftac STEPS CONJ_TAC", *PROOF_OF_Q, "new_constant p `:bool`", "g L `c ==> c`", "e DISCH_TAC", "oops"]),
        ("A", [*reversed(CONSTANTS), *AXIOMS, "g L `c ==> c`", "e ACCEPT_TAC AX", "qed", "new_definition e_DEF `e = (d \\/ c)`"]),
        ("C", ["import A", "g N `(c ==> c) /\\ (d ==> d)`", "e ASM_REWRITE_TAC [AY; L]", "qed", "import B", "new_type u 1"]),
        ("D", ["import C", "g L `d ==> d`", "new_constant k `:t`", "new_type t 0", "new_constant k `:bool`", *PROOF_OF_M]),
    ],
    [
        ("C", [*CONSTANTS, *AXIOMS, "g L `d ==> d`", "e DISCH_TAC", "e MP_TAC AY", "e REWRITE_TAC []", "e DISCH_TAC", "b", "e REPEAT STRIP_TAC THEN FIRST_ASSUM ACCEPT_TAC", "qed"]),
        ("A", ["import C", "new_definition e_DEF `e = (d \\/ c)`", STEPS, "deftac BY TRY (ACCEPT_TAC AX) THEN STEPS", "g N `c /\\ d ==> e`", "e DISCH_TAC", "e REWRITE_TAC [e_DEF]", "e ASM_REWRITE_TAC [AY; L]", "qed"]),
        ("B", ["import A", "g M `p /\\ q ==> q /\\ p`", "e SUBGOAL_THEN `c:bool` ASSUME_TAC", "e REWRITE_TAC [AY]", "e BY", "qed"]),
        ("D", ["import C", "import B", *PROOF_OF_Q]),
    ],
]
# The names that a text binds, which are read, and are none of the constants that it rests on.
BOUND = {"g Q `!c:bool. c ==> c`": ["const:c"]}
UNCOUNTED = {"b", "r", "oops", "import", "nonsense"}


def is_counted(text):
    return text.split()[0] not in UNCOUNTED and text != "g L ``"


def request(op, **more):
    return json.dumps({"op": op, **more})


class Server:
    """The built program, which is asked and answers."""

    def __init__(self, program, words):
        self.process = subprocess.Popen([program, *words], stdin=subprocess.PIPE, stdout=subprocess.PIPE)

    def ask(self, lines):
        self.process.stdin.write("".join(line + "\n" for line in lines).encode())
        self.process.stdin.flush()
        return [json.loads(self.process.stdout.readline()) for _ in lines]

    def end(self):
        self.process.stdin.close()
        return self.process.wait()


def questions(docs):
    """What is asked about documents: reports on all commands, and theorems; bases are asked after that."""
    lines = []
    for name, commands in docs:
        lines += [request("report", theory=name, at=at) for at in range(len(commands))]
        lines.append(request("theorems", theory=name))
    return lines


def told(server, docs):
    """All that is told of documents: for each theory its reports, its theorems, and the basis of each of these."""
    replies, found = iter(server.ask(questions(docs))), []
    for name, commands in docs:
        reports = [next(replies) for _ in commands]
        theorems = next(replies)["theorems"]
        names = [text.split()[1] for text in theorems]
        bases = [reply["items"] for reply in server.ask([request("basis", theory=name, name=n) for n in names])]
        found.append({"reports": reports, "theorems": theorems, "bases": dict(zip(names, bases))})
    return found


def afresh(program, docs):
    """The same of a new session, to which the texts are put in order."""
    server, lines = Server(program, ["--cache", "1"]), []
    for at, (name, commands) in enumerate(docs):
        lines.append(request("new_theory", name=name, at=at))
        lines += [request("insert", theory=name, at=place, text=command.text) for place, command in enumerate(commands)]
    for reply in server.ask(lines):
        if reply != {"ok": True}:
            sys.exit(f"edits: a new session refuses {reply}")
    found = told(server, docs)
    server.end()
    return found


class Command:
    """A text that stands somewhere, for as long as no edit takes it away or puts another in its place."""

    numbers = itertools.count()

    def __init__(self, text):
        self.text, self.number = text, next(Command.numbers)


# ---- which commands an edit affects


def key_of(entry):
    kind, rest = entry.split(" ", 1)
    return kind + ":" + (rest.split("/")[0] if kind == "type" else rest.split(":")[0] if kind == "const" else rest.split()[0])


class Theory:
    """What stands in a theory while its commands are gone through: under each key what the entry says and the items that it rests on; and the open proof, as its
    statement and the history of its goals, each with the items that the proof rests on. What a named expression says is its text, with what it names."""

    def __init__(self):
        self.values, self.proof = {}, None

    def reads(self, text):
        """What the command reads."""
        cited, makes = KEYS[text]
        seen = tuple((key, self.values.get(key)) for key in cited + makes)
        word, goals = text.split()[0], self.proof[1][-1][0] if self.proof else []
        runs = text + str([self.values.get(key) for key in cited if key.startswith("tac:")])
        first = json.dumps([goals[0], tested(runs, goals[0], self.values)]) if word == "e" and goals else None
        closing = (self.proof[0], self.proof[1][-1][1], len(goals)) if word == "qed" and self.proof else None
        return seen, self.proof is not None, first, closing

    def accept(self, text, report, ends):
        """The command was accepted with this report."""
        word, goals, made = text.split()[0], report.get("goals"), [key_of(entry) for entry in report.get("made", [])]
        standing = [key for key in KEYS[text][0] if key in self.values and key not in BOUND.get(text, [])]
        basis = frozenset().union(*(self.values[key][1] for key in standing))
        if word == "g":
            self.proof = ((text.split()[1], json.dumps(goals)), [(goals, basis)])
        elif word == "e":
            self.proof[1].append((goals, self.proof[1][-1][1] | basis))
        elif word == "r":
            self.proof[1].append((goals, self.proof[1][-1][1]))
        elif word == "b":
            self.proof[1].pop()
        elif word == "import":
            self.values.update((key, ends[text.split()[1]][key]) for key in made)
        elif word in ("qed", "oops"):
            self.values.update((key, (self.proof[0], self.proof[1][-1][1])) for key in made)
            self.proof = None
        elif word == "deftac":
            says = (text.split(None, 2)[2], tuple((key, self.values.get(key)) for key in KEYS[text][0]))
            self.values.update((key, (says, basis)) for key in made)
        else:
            item = (item_of(text), text, tuple(standing))
            self.values.update((key, (item, basis | {item})) for key in made)


def tested(text, goal, values):
    """Whether constants stand of the names that the step may free: a bound variable of a goal is `c`, and at most two constants are `c` with primes."""
    frees = "GEN_TAC" in text or "STRIP_TAC" in text
    return [name in values for name in ("const:c", "const:c'")] if frees and "!" in goal["goal"] else []


def item_of(text):
    """The item of a command that makes a type, a constant, an axiom or a definition, as `basis` shows it."""
    word, name = text.split()[:2]
    return "def:" + text.split("`")[1].split()[0] if word == "new_definition" else word.replace("new_", "").replace("constant", "const") + ":" + name


def reads_of(docs, told):
    """What each counted command of documents reads, by its number: from the reports on them, in order."""
    ends, found = {}, {}
    for (name, commands), replies in zip(docs, told):
        theory = Theory()
        for command, report in zip(commands, replies["reports"]):
            if is_counted(command.text):
                found[command.number] = theory.reads(command.text)
            if "refusal" not in report:
                theory.accept(command.text, report, ends)
        ends[name] = theory.values
        for theorem, items in replies["bases"].items():
            if sorted({item[0] for item in theory.values["thm:" + theorem][1]}) != items:
                sys.exit(f"edits: {theorem} of {name} is said to rest on {items}, in {[command.text for command in commands]}")
    return found


def affected(before, old, after, new):
    """How many commands of the new documents were not there, or read something else than they did."""
    had, have = reads_of(old, before), reads_of(new, after)
    return sum(1 for number, reads in have.items() if had.get(number) != reads)


# ---- edits


def edit_towards(rng, docs, whole):
    """An edit, and the documents after it, that goes towards these documents; None where they stand."""
    for at, (name, _) in enumerate(whole):
        if at == len(docs) or docs[at][0] != name:
            names = [other for other, _ in docs]
            if name in names:
                return request("drop_theory", name=names[at]), docs[:at] + docs[at + 1 :]
            return request("new_theory", name=name, at=at), docs[:at] + [(name, [])] + docs[at:]
    differ = [i for i, (_, texts) in enumerate(whole) if [command.text for command in docs[i][1]] != texts]
    if not differ:
        return None
    i = rng.choice(differ)
    (name, commands), texts = docs[i], whole[i][1]
    at = next(at for at in itertools.count() if [command.text for command in commands[at : at + 1]] != texts[at : at + 1])
    after = [command.text for command in commands[at + 1 : at + 2]]
    new = list(commands)
    if at >= len(texts) or after == texts[at : at + 1]:
        del new[at]
        line = request("remove", theory=name, at=at)
    elif at >= len(commands) or commands[at].text in texts[at + 1 :] or rng.random() < 0.5:
        new.insert(at, Command(texts[at]))
        line = request("insert", theory=name, at=at, text=texts[at])
    else:
        new[at] = Command(texts[at])
        line = request("replace", theory=name, at=at, text=texts[at])
    return line, docs[:i] + [(name, new)] + docs[i + 1 :]


def random_edit(rng, docs):
    """A request, and the documents after it; None where it has to be refused."""
    kind = rng.choice(["insert"] * 9 + ["replace"] * 7 + ["remove"] * 6 + ["new_theory", "drop_theory"])
    names = [name for name, _ in docs]
    name, at = rng.choice(names if names and kind != "new_theory" and rng.random() < 0.9 else THEORIES), rng.randrange(LIMIT)
    text = rng.choice(COMMANDS)[0]
    new = [(n, list(commands)) for n, commands in docs]
    if kind == "new_theory":
        at = rng.randrange(len(THEORIES) + 1)
        if name in names or at > len(names):
            return request(kind, name=name, at=at), None
        new.insert(at, (name, []))
        return request(kind, name=name, at=at), new
    if kind == "drop_theory":
        if name not in names or rng.random() < 0.5:
            return request(kind, name="Z"), None
        return request(kind, name=name), [(n, commands) for n, commands in new if n != name]
    place = names.index(name) if name in names else None
    count = len(new[place][1]) if place is not None else 0
    at = at if rng.random() < 0.1 else rng.randrange(count + 1)
    line = request(kind, theory=name, at=at, **({} if kind == "remove" else {"text": text}))
    if place is None or at > count or (kind != "insert" and at == count):
        return line, None
    commands = new[place][1]
    if kind == "insert":
        commands.insert(at, Command(text))
    elif kind == "replace":
        commands[at] = Command(text)
    else:
        del commands[at]
    return line, new


class Tally:
    """What was tried: the edits, the runs that they took, how many running all afresh takes, how many were of commands that the edits didn't put, how many were
    spared that the edits affect; and how often each kind of command was accepted, and an import refused for a clash."""

    def __init__(self):
        self.edits, self.runs, self.afresh, self.behind, self.spared, self.kinds = 0, 0, 0, 0, 0, collections.Counter()

    def add(self, line, rises, bound, docs, told):
        self.edits += 1
        self.runs += rises
        self.spared += bound - rises
        self.behind += max(0, rises - ("text" in json.loads(line)))
        for (_, commands), theory in zip(docs, told):
            self.afresh += sum(is_counted(command.text) for command in commands)
            for command, report in zip(commands, theory["reports"]):
                if "refusal" not in report and (report.get("made") != [] or command.text == "oops"):
                    self.kinds[command.text.split()[0]] += 1
                elif report.get("refusal") == 21:
                    self.kinds["clash"] += 1

    def lacks(self):
        """What was tried too little to show anything."""
        kinds = {text.split()[0] for text, _, _ in COMMANDS} - {"nonsense"} | {"clash"}
        return [kind for kind in sorted(kinds) if self.kinds[kind] < 5] + ["runs behind the edits"] * (self.behind * 3 < self.runs) + ["outcomes that are found"] * (self.spared < 20)


def next_edit(rng, docs, count):
    """An edit, and the documents after it; None for these where it has to be refused."""
    while True:
        goes = rng.random() < (0.9 if count < 50 else 0.6)
        line, new = (edit_towards(rng, docs, WHOLE[count // 50 % len(WHOLE)]) if goes else None) or random_edit(rng, docs)
        if not new or all(len(commands) <= LIMIT for _, commands in new):
            return line, new


def one_run(program, seed, edits, words, tally):
    rng, docs, server = random.Random(seed), [], Server(program, words)
    before, ran, trail = [], 0, []
    for count in range(edits):
        line, new = next_edit(rng, docs, count)
        trail.append(line)
        reply, stats = server.ask([line, request("stats")])
        if (reply == {"ok": True}) != (new is not None):
            sys.exit(f"edits: seed {seed}: {line} is answered {reply}\n" + "\n".join(trail))
        rises = stats["ran"] - ran
        ran = stats["ran"]
        after = afresh(program, new) if new is not None else before
        standing = new if new is not None else docs
        shown = told(server, standing)
        if shown != after:
            sys.exit(f"edits: seed {seed}: after {line} the replies are not those of a new session\n" + "\n".join(trail))
        bound = affected(before, docs, after, standing) if new is not None else 0
        if not 0 <= rises <= bound:
            sys.exit(f"edits: seed {seed}: {line} ran {rises} commands and affects {bound}\n" + "\n".join(trail))
        tally.add(line, rises, bound, standing, after)
        docs, before = standing, after
    if server.end() != 0:
        sys.exit("edits: the program's status is not 0")


def main():
    words = argparse.ArgumentParser(description=__doc__, formatter_class=argparse.RawDescriptionHelpFormatter)
    words.add_argument("--program", default=str(BUILT))
    words.add_argument("--edits", type=int, default=150)
    words.add_argument("--seeds", type=int, nargs="*", default=[1, 2, 3, 4])
    chosen, tally = words.parse_args(), Tally()
    for seed in chosen.seeds:
        one_run(chosen.program, seed, chosen.edits, ["--cache", str((1, 256, 4096)[seed % 3])], tally)
    if tally.runs * 2 > tally.afresh:
        sys.exit(f"edits: {tally.runs} runs where running afresh each time takes {tally.afresh}")
    if tally.edits >= 600 and tally.lacks():
        sys.exit(f"edits: too little was tried of {', '.join(tally.lacks())}")
    print(f"documents under edit: {tally.edits} passed, 0 failed; they ran {tally.runs} commands, where running all afresh each time takes {tally.afresh}")


if __name__ == "__main__":
    main()
