"""Random documents and random edits, each reply to which is compared byte for byte with that of rules written anew: those of tests/model, which come from
docs/NOTATION.md, docs/TACTICS.md and docs/PROTOCOL.md alone. They are those of the whole language but `new_basic_type_definition`; a document
in which one stands is left out.

Compared are the reports on all commands, the theorems, all bases, and the number of `stats`, which may rise by the commands that an edit affects and no more: those
that read something else than they did. At the end each refusal of each command, and each of the cases that one number has, has to have come (`WANTED`, `CASES`).

With `--changed` it changes one rule after the other (changed_rules.py). Each changed rule has to be told apart, which shows that the documents reach it."""

import argparse
import collections
import inspect
import json
import pathlib
import random
import re
import shutil
import subprocess
import sys
import tempfile
import threading

import changed_rules
import watched
from edits import Command, request
from model import alike, expressions, random_documents, random_matches, random_rewrites
from model.documents import Observed, basis, theorems, told
from model.grammar import COMMANDS
from model.random_texts import CONSTANTS, Writer
from model.refusals import Unmodelled
from model.steps import ARGUMENTS

HERE = pathlib.Path(__file__).resolve().parent
FORMS = {
    "general": random_documents.general, "edits": random_documents.general, "scopes": random_documents.scopes, "edits of scopes": random_documents.scopes,
    "declarations": random_documents.declarations, "functions": random_documents.functions, "faults": random_documents.faults, "syntax": random_documents.syntax, "turns": random_documents.turns_filled,
    "equal": alike.equal, "shapes": alike.shapes, "bound names": random_documents.bound_names, "sizes": random_documents.sizes, "tokens": random_documents.tokens,
    "matching": random_matches.matching, "reducing": random_matches.reducing, "rewriting": random_rewrites.rewriting, "large goals": random_documents.large_goals, "chains": random_documents.chains, "nested": random_documents.nested,
}  # fmt: skip
# Documents of these forms take long.
LARGE = ["sizes", "tokens", "large goals", "chains", "nested"]
FREED = ["x", "y", "a", "x'", "a'", "x''"]
TURNS = (1, 2, 3, 5, 7, 10, 15, 40, 120, 300, 1_000, 3_000)
# The numbers by which each command has to have been refused, and the cases that one number has.
WANTED = {
    "deftac": (1, 2, 5, 6, 7, 8, 9, 10, 13, 14), "e": (1, 3, 5, 6, 7, 8, 9, 13, 14, 15, 16, 17, 18), "g": (1, 2, 7, 8, 9, 10), "import": (2, 4, 21), "qed": (3, 19),
    "b": (3, 20), "r": (3, 16), "oops": (3,), "new_type": (2, 10), "new_constant": (2, 9, 10), "new_axiom": (2, 7, 8, 9, 10), "new_definition": (2, 7, 9, 10, 11, 12),
}  # fmt: skip
# The tacticals by whose names something is refused.
TACTICALS = sorted(set(re.findall(r'Unfit\(17, "(\w+)"\)', inspect.getsource(expressions))))
ALWAYS_FIT = ["ALL_TAC", "BETA_TAC", "MP_TAC", "ASSUME_TAC", "STRIP_ASSUME_TAC", *(name for name, kinds in ARGUMENTS.items() if kinds == "l")]
RESTING = [name for name, kinds in ARGUMENTS.items() if "t" in kinds or kinds == "l"]
UNMATCHED = ["no implication", "another kind of term", "another name", "another type", "two terms for a variable", "a variable that is bound inside"]
MATCHED = [
    "a variable is quantified", "two variables are quantified", "a variable stays", "a variable gets a prime", "a free variable takes a term", "a free variable is fixed",
    "a type variable takes a type", "a type variable is fixed", "a type variable stays",
]  # fmt: skip
CASES = [
    *("6: an unknown name", "6: the name that the command gives", "6: a function without arguments", "6: a function with other arguments", "6: a function that gets a theorem"),
    *("6: a named expression with other arguments", "6: a named expression that gets a theorem"),
    *(f"10: a {kind} that is {stands}" for kind in ("type", "const", "thm", "tac") for stands in ("made", "built in")),
    *("13: a reading", "13: a theorem", "13: a named expression", "13: a run", "13: a run inside a named expression", "18: a run", "18: a run inside a named expression"),
    *(f"14: {rule}" for rule in ("ASSUME", "SPEC", "SYM", "CONJUNCT1", "CONJUNCT2", "MP", "INST_TYPE")),
    *(f"15: {name}" for name in RESTING), *(f"17: {name}" for name in (*ARGUMENTS, *TACTICALS) if name not in ALWAYS_FIT), *(f"fits: {name}" for name in ARGUMENTS if name != "NO_TAC"),
    *(f"17: MATCH_MP_TAC, {why}" for why in UNMATCHED), *(f"fits: MATCH_MP_TAC, {case}" for case in MATCHED),
    *("15: inside a named expression", "17: inside a named expression", *(f"21: another {kind} stands" for kind in ("type", "const", "thm", "tac"))),
]


def compact(reply):
    return json.dumps(reply, sort_keys=True, separators=(",", ":")).encode()


def texts_of(document):
    return [(name, [command.text for command in commands]) for name, commands in document]


def reads_of(document, found):
    """What each counted command reads, by its number."""
    rows = ((command.number, row.reads) for (_, commands), (_, rows, _) in zip(document, found) for command, row in zip(commands, rows))
    return {number: reads for number, reads in rows if reads is not None}


class Counts:
    """What was compared, and what came."""

    def __init__(self):
        self.passed, self.faults, self.words, self.cases, self.edits = 0, [], collections.Counter(), collections.Counter(), collections.Counter()

    def add(self, found):
        for _, rows, _ in found:
            for row in rows:
                word = (row.text.split() or [""])[0]
                kind = row.report.get("refusal") or next(kind for kind in ("goals", "made") if kind in row.report)
                self.words[word if word in COMMANDS else "no command", kind] += 1
                if kind in (14, 15, 17):
                    self.cases[f"{kind}: {row.report['arg']}"] += 1

    def lacks(self):
        """What has to come, and didn't."""
        wanted = [(word, number) for word, numbers in WANTED.items() for number in numbers]
        wanted += [(word, "made") for word in WANTED if word not in ("g", "e", "b", "r")] + [(word, "goals") for word in ("g", "e", "b", "r")]
        return [f"{word} {kind}" for word, kind in wanted if not self.words[word, kind]] + [case for case in CASES if not self.cases[case]]

    def show(self):
        for word in [*WANTED, "no command"]:
            kinds = {str(kind): count for (of, kind), count in self.words.items() if of == word}
            refused = ", ".join(f"{number} {kinds[number]}" for number in sorted(filter(str.isdigit, kinds), key=int))
            accepted = "".join(f"{kind} {kinds[kind]}, " for kind in ("goals", "made") if kind in kinds)
            print(f"  {word}: {accepted}refused by {refused}")
        print("  cases: " + ", ".join(f"{case} {self.cases[case]}" for case in CASES))
        print("  edits: " + ", ".join(f"{kind} {count}" for kind, count in sorted(self.edits.items())))


class Comparison:
    """A running program beside the rules, with as many turns."""

    def __init__(self, program, turns, counts):
        self.server, self.turns, self.counts = watched.Watched(program, ["--turns", str(turns), "--cache", "64"]), turns, counts

    def ask(self, lines):
        replies = self.server.ask([line.encode() for line in lines])
        return replies + [b"no reply"] * (len(lines) - len(replies))

    def ran(self):
        return json.loads(self.ask([request("stats")])[0])["ran"]

    def expects(self, stands, document, fault):
        if stands:
            self.counts.passed += 1
        else:
            self.counts.faults.append(f"{fault}\n  with {self.turns} turns, in {json.dumps(texts_of(document))}")

    def edit(self, lines, document, most):
        """Edits are carried out, and run at most so many commands."""
        before = self.ran()
        replies = self.ask(lines)
        rises = self.ran() - before
        self.expects(set(replies) <= {b'{"ok":true}'} and 0 <= rises <= most, document, f"{lines[-1]} ran {rises} commands and affects {most}; {replies[-1].decode()}")
        self.counts.edits["commands affected"] += most
        self.counts.edits["commands run"] += rises

    def compare(self, document, found):
        """Whether all replies on the document are those of the rules."""
        lines, wanted = [], []
        for name, rows, theory in found:
            lines += [request("report", theory=name, at=at) for at in range(len(rows))] + [request("theorems", theory=name)]
            wanted += [row.report for row in rows] + [theorems(theory)]
            names = sorted({name for kind, name in theory.entries if kind in ("thm", "tac")})
            lines += [request("basis", theory=name, name=theorem) for theorem in names]
            wanted += [basis(theory, theorem) for theorem in names]
        faults = len(self.counts.faults)
        for line, reply, want in zip(lines, self.ask(lines), map(compact, wanted)):
            if len(self.counts.faults) == faults:
                self.expects(reply == want, document, f"{line}\n  got  {reply.decode()}\n  want {want.decode()}")
        return len(self.counts.faults) == faults

    def document(self, form, rng):
        """A document of a form is made, compared, edited some times, and taken out."""
        expressions.forget()
        observed = Observed()
        document = [(name, list(map(Command, texts))) for name, texts in FORMS[form](rng, self.turns)]
        found = told(texts_of(document), self.turns, observed)
        self.counts.add(found)
        self.counts.cases.update(observed.cases)
        self.counts.edits["documents"] += 1
        lines = []
        for at, (name, commands) in enumerate(document):
            lines += [request("new_theory", name=name, at=at), *(request("insert", theory=name, at=place, text=it.text) for place, it in enumerate(commands))]
        self.edit(lines, document, len(reads_of(document, found)))
        stands = self.compare(document, found)
        for _ in range(12 if "edits" in form else rng.choice([1, 2, 4])):
            if stands and document:
                document, found, stands = self.edited(rng, document, found, form == "edits of scopes")
        names = [name for name, _ in document]
        self.ask([request("drop_theory", name=name) for name in (names if rng.random() < 0.5 else reversed(names))])

    def edited(self, rng, document, found, of_names):
        """The document after an edit, what the rules tell of it, and whether all was as they say."""
        line, new = edit_of_names(rng, document) if of_names and rng.random() < 0.6 else any_edit(rng, document, found)
        try:
            after = told(texts_of(new), self.turns)
        except Unmodelled:
            return document, found, True
        before = reads_of(document, found)
        most = sum(1 for number, reads in reads_of(new, after).items() if before.get(number) != reads)
        self.counts.edits[json.loads(line)["op"]] += 1
        faults = len(self.counts.faults)
        self.edit([line], new, most)
        return new, after, self.compare(new, after) and len(self.counts.faults) == faults


# ---- edits


def with_commands(document, place, commands):
    return [*document[:place], (document[place][0], commands), *document[place + 1 :]]


def put(document, place, at, text, op):
    """The request that puts a text, and the document behind it."""
    name, commands = document[place]
    new = [*commands[:at], Command(text), *commands[at + (op == "replace") :]]
    return request(op, theory=name, at=at, text=text), with_commands(document, place, new)


def remove(document, place, at):
    name, commands = document[place]
    return request("remove", theory=name, at=at), with_commands(document, place, commands[:at] + commands[at + 1 :])


def edit_of_names(rng, document):
    """A constant comes or goes that has a name which steps may free."""
    place = rng.randrange(len(document))
    constants = [at for at, command in enumerate(document[place][1]) if command.text.startswith("new_constant")]
    if constants and rng.random() < 0.5:
        return remove(document, place, rng.choice(constants))
    at = rng.randrange(min(4, len(document[place][1])) + 1)
    return put(document, place, at, f"new_constant {rng.choice(FREED)} `:bool`", "insert")


def any_edit(rng, document, found):
    place, writer = rng.randrange(len(document)), Writer(rng)
    (name, commands), theory = document[place], found[place][2]
    earlier = {other: stands for other, _, stands in found[:place]}
    kind = rng.choices(["remove", "replace", "insert", "drop_theory", "new_theory"], [30, 32, 30, 4, 4])[0]
    if kind == "drop_theory":
        return request(kind, name=name), document[:place] + document[place + 1 :]
    if kind == "new_theory":
        new = next(other for other in (f"N{number}" for number in range(99)) if other not in [other for other, _ in document])
        return request(kind, name=new, at=place), [*document[:place], (new, []), *document[place:]]
    if kind == "remove" and commands:
        return remove(document, place, rng.randrange(len(commands)))
    choices = [writer.command(theory, earlier), f"new_constant {rng.choice(CONSTANTS)} `:bool`", writer.named_expression(theory)]
    text = rng.choice(choices + [rng.choice(commands).text] * 2 if commands else choices)
    if kind == "replace" and commands:
        return put(document, place, rng.randrange(len(commands)), text, kind)
    return put(document, place, rng.randrange(len(commands) + 1), text, "insert")


# ---- runs


def tried(program, turns, plan, counts):
    """Documents are tried, each by its form and its seed."""
    comparison = Comparison(program, turns, counts)
    for form, seed in plan:
        try:
            comparison.document(form, random.Random(f"{form} {turns} {seed}"))
        except Unmodelled:
            counts.edits["left out"] += 1
        if counts.faults:
            return
    comparison.server.end()


def one_form(given):
    """Documents of one form, until one differs."""
    counts = Counts()
    tried(given.program, given.turns, [(given.form, seed) for seed in range(given.documents)], counts)
    return counts


def all_forms(given):
    counts = Counts()
    for at, turns in enumerate(TURNS):
        plan = [(form, seed) for seed in range(given.rounds) for form in FORMS if form not in LARGE and (turns < 50 or form != "rewriting")]
        plan += [(form, given.rounds + more) for form in ("declarations", "functions") for more in range(4)]
        plan += [("matching", given.rounds)] * (turns > 4)
        large = [LARGE[(at + more) % len(LARGE)] for more in (0, 2, 3)]
        plan += [(form, at) for form in large if turns < 1_000 or form != "large goals"]
        tried(given.program, turns, plan, counts)
    return counts


def try_changes(given):
    """Each changed rule, in a copy of the rules: whether documents tell it apart."""
    passed = failed = 0
    for name, file, old, new, turns, form in changed_rules.CHANGES:
        if given.changed not in name:
            continue
        with tempfile.TemporaryDirectory() as room:
            copy = pathlib.Path(room) / "tests"
            shutil.copytree(HERE, copy, ignore=shutil.ignore_patterns("__pycache__", "sessions"))
            (pathlib.Path(room) / "docs").symlink_to(HERE.parent / "docs")
            text = (copy / "model" / file).read_text(encoding="utf-8")
            (copy / "model" / file).write_text(text.replace(old, new), encoding="utf-8")
            words = ["--program", given.program, "--form", form, "--turns", str(turns), "--documents", str(given.documents)]
            ran = subprocess.run([sys.executable, str(copy / "afresh.py"), *words], stdout=subprocess.PIPE, universal_newlines=True)
        is_apart = old in text and ran.returncode == 1 and "\nafresh: " in ran.stdout
        passed, failed = passed + is_apart, failed + (not is_apart)
        if not is_apart:
            print(f"FAILED {name}: {'not told apart' if old in text else f'its rule does not stand in {file}'}\n{ran.stdout[-600:]}", flush=True)
    print(f"changed rules: {passed} told apart, {failed} failed")
    return 1 if failed or not passed else 0


def main():
    words = argparse.ArgumentParser(description=__doc__, formatter_class=argparse.RawDescriptionHelpFormatter)
    words.add_argument("--program", default=str(watched.BUILT))
    words.add_argument("--rounds", type=int, default=1, help="documents of each form for each number of turns")
    words.add_argument("--changed", nargs="?", const="", help="tries the changed rules whose name has this in it")
    words.add_argument("--form", choices=sorted(FORMS), help="documents of one form, until one differs")
    words.add_argument("--turns", type=int, default=120, help="for these")
    words.add_argument("--documents", type=int, default=300, help="so many of these at most")
    given = words.parse_args()
    if given.changed is not None:
        return try_changes(given)
    counts = one_form(given) if given.form else all_forms(given)
    for fault in counts.faults[:3]:
        print(f"FAILED {fault[:6000]}")
    lacks = [] if given.form or counts.faults else counts.lacks()
    for case in lacks:
        print(f"FAILED nothing had {case}")
    if not given.form:
        counts.show()
    failed = len(counts.faults) + len(lacks)
    print(f"\nafresh: {counts.passed} passed, {failed} failed")
    return 1 if failed or not counts.passed else 0


def with_stack(run):
    """Runs with a stack for terms that are nested thousands of times, and gives what it gave."""
    found = []
    sys.setrecursionlimit(1_000_000)
    threading.stack_size(512 << 20)
    thread = threading.Thread(target=lambda: found.append(run()))
    thread.start()
    thread.join()
    return found[0] if found else 2


if __name__ == "__main__":
    sys.exit(with_stack(main))
