"""Runs the sessions of tests/sessions, and the generated ones below, over the built program, and compares every reply byte for byte.

A file holds sessions. A session begins with a line 'FORM: NAME' and ends with the file or before the next such line:

lines:      '> ' a request, '< ' the reply that is wanted.
in turn:    '> ' a command, put at the end of a theory; '< ' the report that is wanted on the last one. '--' begins another theory.
each:       ': ' commands that stand before; '> ' a command that is put after these alone, or some with ' ;; ' between them; '< ' the report
            that is wanted on the last command of each such line since the last '< '.

'turns: N' or 'cache: N' below the first line runs it with '--turns N' or '--cache N'. '#' begins a comment. Expected replies come from docs/PROTOCOL.md, RFC 8259
and HOL Light."""

import argparse
import json
import pathlib
import re
import subprocess
import sys

HERE = pathlib.Path(__file__).resolve().parent
BUILT = HERE.parent / "crates" / "hol_serve" / "out" / "hol_serve"
FORMS = ("lines", "in turn", "each")
OK = '{"ok":true}'


def request(op, **more):
    return json.dumps({"op": op, **more}, ensure_ascii=False)


def shows(goal, *free):
    """The report on one goal without assumptions."""
    return json.dumps({"goals": [{"asl": [], "free": list(free), "goal": goal}], "ok": True}, separators=(",", ":"))


def makes(*texts):
    return json.dumps({"made": list(texts), "ok": True}, separators=(",", ":"))


def refuses(number, text, arg=""):
    return json.dumps({"arg": arg, "ok": True, "refusal": number, "text": text}, separators=(",", ":"))


class Session:
    """A name, the program's words, the bytes to send, and for each line the reply that is wanted, or a pattern of it; "" where there is none."""

    def __init__(self, name, words=()):
        self.name, self.words, self.sent, self.want = name, list(words), [], []

    def add(self, line, want):
        self.sent.append(line if isinstance(line, bytes) else line.encode())
        self.want.append(want)

    def theory(self, name, commands):
        """Puts a theory of these commands before the others, so that a report on it runs no other."""
        self.add(request("new_theory", name=name, at=0), OK)
        for at, command in enumerate(commands):
            self.add(request("insert", theory=name, at=at, text=command), OK)

    def faults(self, program, seconds):
        try:
            ran = subprocess.run([program, *self.words], input=b"\n".join(self.sent) + b"\n", stdout=subprocess.PIPE, timeout=seconds)
        except subprocess.TimeoutExpired:
            return [f"no end in {seconds} seconds"]
        replies = ran.stdout.decode().split("\n")
        found = [] if ran.returncode == 0 else [f"status {ran.returncode}"]
        wanted = [want for want in self.want if want != ""]
        if replies.pop() != "" or len(replies) != len(wanted):
            found.append(f"{len(replies)} replies for {len(wanted)}")
        sent = [line for line, want in zip(self.sent, self.want) if want != ""]
        for line, reply, want in zip(sent, replies, wanted):
            if not (want.match(reply) if isinstance(want, re.Pattern) else want == reply):
                found.append(f"to   {line[:300].decode(errors='replace')}\n  got  {reply[:600]}\n  want {str(want)[:600]}")
        return found


def of_each(name, words, lines):
    session, before, commands, number = Session(name, words), [], [], 0
    for line in lines:
        kind, rest = line[:2], line[2:]
        if kind == ": ":
            before.append(rest)
        elif kind == "> ":
            commands.append(rest)
        elif kind == "< ":
            for command in commands:
                if number % 64 == 0 and number:
                    for at in range(number - 64, number):
                        session.add(request("drop_theory", name=f"A{at}"), OK)
                texts = [*before, *command.split(" ;; ")]
                session.theory(f"A{number}", texts)
                session.add(request("report", theory=f"A{number}", at=len(texts) - 1), rest)
                number += 1
            commands = []
    return session


def in_turn(name, words, lines):
    session, number, at = Session(name, words), 0, 0
    session.theory("A0", [])
    for line in lines:
        kind, rest = line[:2], line[2:]
        if line == "--":
            number, at = number + 1, 0
            session.theory(f"A{number}", [])
        elif kind == "> ":
            session.add(request("insert", theory=f"A{number}", at=at, text=rest), OK)
            at += 1
        elif kind == "< ":
            session.add(request("report", theory=f"A{number}", at=at - 1), rest)
    return session


def of_lines(name, words, lines):
    session = Session(name, words)
    for line in lines:
        if line.startswith("> "):
            session.add(line[2:], "")
        elif line.startswith("< "):
            session.want[-1] = line[2:]
    return session


def read(file):
    """The sessions of a file."""
    found, head, words, lines = [], None, [], []

    def end():
        if head:
            make = {"each": of_each, "in turn": in_turn, "lines": of_lines}[head[1]]
            found.append(make(f"{file.stem}: {head[2]}", words, lines))

    for line in file.read_text().splitlines():
        start = re.fullmatch(rf"({'|'.join(FORMS)}): (.+)", line)
        option = re.fullmatch(r"(turns|cache): (\d+)", line)
        if start:
            end()
            head, words, lines = start, [], []
        elif option:
            words = ["--" + option[1], option[2]]
        elif line and not line.startswith("#"):
            if not head or line[:2] not in ("> ", "< ", ": ") and line != "--":
                sys.exit(f"{file}: no line of a session: {line}")
            lines.append(line)
    end()
    return found


def report_on(name, command, want):
    session = Session(name)
    session.theory("A", ["g N `p:bool`", command] if command.startswith("e ") else [command])
    session.add(request("report", theory="A", at=1 if command.startswith("e ") else 0), want)
    return session


def doubling(count):
    """In each equation a variable is twice in the next one, so its types double."""
    return "g N `" + r" /\ ".join(rf"x{k} = (\g. g x{k - 1} x{k - 1})" for k in range(1, count + 1)) + "`"


TURN_LIMIT, TOO_LARGE = refuses(18, "turn limit"), refuses(13, "too large")
SHAPE, NOT_JSON = '{"error":3,"ok":false,"text":"shape"}', '{"error":2,"ok":false,"text":"not JSON"}'
UNKNOWN, LONG = '{"error":4,"ok":false,"text":"unknown theory"}', '{"error":1,"ok":false,"text":"line too long"}'
SHAPES = r"""{"op":"x"}
{"op":"drop_theory","theory":"B"}
{"op":"replace","theory":"B","at":0}
{"op":"remove","theory":"B"}
{"op":"theorems","name":"B"}
{"op":1,"theory":"B","at":0}
[{"op":"report","theory":"B","at":0}]
{"theory":"B","at":0}
{"op":"report","at":0}
{"op":"report","theory":"B"}
{"op":"report","theory":0,"at":0}
{"op":"report","theory":"B","at":"0"}
{"op":"report","op":"x","theory":"B","at":0}
{"op":"report","theory":"B","at":18446744073709551616}
{"op":"report","theory":"B","at":-1}
{"op":"report","theory":"B","at":-0}
{"op":"report","theory":"B","at":1.5}
{"op":"report","theory":"B","at":1.0}
{"op":"report","theory":"B","at":1e0}
{"op":"insert","theory":"B","at":0}
{"op":"new_theory","at":0}
{"op":"new_theory","name":"A"}
{"op":"basis","theory":"B"}
{"op":"basis","name":"N"}
7"""
NO_JSON = [b"", b" ", b"\r", b"nul", b'{"op":"report","theory":"B","at":0', b'{"op":"report","theory":"B","at":0} x', b'{"op":"report","theory":"B","at":1e400}']
NO_JSON += [b'{"op":"report","theory":"B","at":01}', b'{"op":"report","theory":"\\ud800","at":0}', b'{"op":"report","theory":"\t","at":0}', b'{"op":"report","theory":"\xff","at":0}']
SERVED = r"""{"op":"report","theory":"B","at":18446744073709551615}
{"op":"x","op":"report","theory":7,"theory":"B","at":-1,"at":0,"other":null}
 { "at" : 0 , "op" : "report" , "theory" : "B" } """


def of_no_requests():
    session = Session("refuses what is no request")
    for lines, reply in ((SHAPES.split("\n"), SHAPE), (NO_JSON, NOT_JSON), (SERVED.split("\n"), UNKNOWN)):
        for line in lines:
            session.add(line, reply)
    return session


def of_lengths():
    session, asked = Session("cuts and reads lines"), '{"op":"report","theory":"B","at":0}'
    for length, reply in ((65_536, UNKNOWN), (65_537, LONG), (200_000, LONG)):
        session.add(asked.ljust(length), reply)
    for arrays, reply in ((126, UNKNOWN), (127, NOT_JSON)):
        session.add('{"op":"report","theory":"B","at":0,"x":' + "[" * arrays + "]" * arrays + "}", reply)
    session.add(" " * 65_537, LONG)
    return session


def of_limits():
    session, many = Session("refuses the 65th theory and the 1001st command"), '{"error":8,"ok":false,"text":"too many"}'
    for number in range(65):
        session.add(request("new_theory", name=f"T{number}", at=number), OK if number < 64 else many)
    for number in range(1001):
        session.add(request("insert", theory="T0", at=0, text="qed"), OK if number < 1000 else many)
    return session


def report_of(session, number, commands, want):
    """Puts a theory of these commands and asks for the report on the last one."""
    session.theory(f"A{number}", commands)
    session.add(request("report", theory=f"A{number}", at=len(commands) - 1), want)


def joined(count, part="p"):
    """10 nodes for each part of one name, and 8 less."""
    return r" /\ ".join([part] * count)


def of_sizes():
    """20,000 nodes and just over: a quantifier of a `bool` has 9, a negation 5, what a definition puts to its right side 10, REFL 8 and its term twice."""
    session = Session("takes 20,000 nodes and no more")
    just, over, generalized = f"!x y. {joined(1999)}", f"!x. {joined(2000)}", f"!q x. {joined(1999)}"
    right, large = f"!(x:bool) y:bool. {joined(1998, 'T')}", f"!x:bool. {joined(1999, 'T')}"
    made = makes("const c:bool", f"thm N |- c <=> (!x y. {joined(1998, 'T')})")
    unfit = [refuses(17, "refused", name) for name in ("UNDISCH_TAC", "ACCEPT_TAC")]
    cases = [([f"g N `{just}`"], shows(just, "p:bool")), ([f"g N `{over}`"], TOO_LARGE)]
    cases += [([f"new_axiom N `{just}`"], makes(f"thm N |- {just}")), ([f"new_axiom N `{over}`"], TOO_LARGE)]
    cases += [([f"new_definition N `c <=> {right}`"], made), ([f"new_definition N `c <=> {large}`"], TOO_LARGE)]
    cases += [(["g N `p:bool`", f"e UNDISCH_TAC `{just}`"], unfit[0]), (["g N `p:bool`", f"e UNDISCH_TAC `{over}`"], TOO_LARGE)]
    cases += [(["g N `p:bool`", f"e ACCEPT_TAC (REFL `~(!x. {joined(999)})`)"], unfit[1])]
    cases += [(["g N `p:bool`", f"e ACCEPT_TAC (REFL `~({joined(1000)})`)"], TOO_LARGE)]
    cases += [([f"g N `!x. {joined(1999)}`", "e SPEC_TAC (`q:bool`, `q:bool`)"], shows(generalized, "p:bool"))]
    cases += [([f"g N `{joined(2000)}`", "e SPEC_TAC (`q:bool`, `q:bool`)"], TOO_LARGE)]
    cases += [([r"new_axiom A `T /\ T`", f"g N `{joined(1999)}`", "e ASSUME_TAC A", r"e UNDISCH_TAC `T /\ T`"], TOO_LARGE)]
    for number, (commands, want) in enumerate(cases):
        report_of(session, number, commands, want)
    return session


def of_binders(count):
    """So many binders one inside another: compared, rewritten and reduced under, renamed where they would capture, and instantiated."""
    session, last = Session(f"keeps {count} binders apart"), count - 1
    xs, ys = (" ".join(f"{name}{k}" for k in range(count)) for name in "xy")
    for at in (0, last):
        equal = rf"(\{xs}. x{at}) = (\{ys}. y{at})"
        report_of(session, f"L{at}", [f"g N `{equal}`"], shows(equal))
        report_of(session, f"R{at}", [f"g N `{equal}`", "e REFL_TAC", "qed"], makes(f"thm N |- {equal}"))
    report_of(session, "U", [rf"g N `(\{xs}. x0) = (\{ys}. y{last})`", "e REFL_TAC"], refuses(17, "refused", "REFL_TAC"))
    proof = [rf"g N `!{xs}. x0 /\ T <=> x0`", "e REWRITE_TAC []", "e REPEAT GEN_TAC", "e ACCEPT_TAC TRUTH", "qed"]
    for steps, want in ((2, shows(f"!{xs}. T")), (3, shows("T")), (5, makes(rf"thm N |- !{xs}. x0 /\ T <=> x0"))):
        report_of(session, f"W{steps}", proof[:steps], want)
    report_of(session, "B", [rf"g N `!{xs}. (\z. z) x0`", "e BETA_TAC"], shows(f"!{xs}. x0"))
    types = "->".join([f"?{k}" for k in range(count)] + ["bool"])
    renamed = xs.replace("x0", "x0'", 1)
    captured = shows(rf"!x0. P (\{renamed}. x0)", f"P:({types})->bool")
    report_of(session, "C", [rf"g N `!x0:bool. P ((\y {xs}. y) x0):bool`", "e BETA_TAC"], captured)
    at_a, at_b = (xs.replace("x0", f"(x0:{name})", 1) for name in "AB")
    proof = [f"g N `!{at_a}. x0 = x0`", "e REPEAT GEN_TAC THEN REFL_TAC", "qed", f"g M `!{at_b}. x0 = x0`", "e ACCEPT_TAC (INST_TYPE [`:B`, `:A`] N)", "qed"]
    report_of(session, "I", proof, makes(f"thm M |- !{xs}. x0 = x0"))
    return session


def of_cycles():
    """Types that would have to stand in themselves, and types of 2^150 nodes that are one: neither is written out."""
    session = Session("refuses cyclic types at once")
    chain = doubling(300)[5:-1]
    twice = doubling(150)[5:-1] + r" /\ " + doubling(150)[5:-1].replace("x", "y")
    untypable = [r"(\x. x x) = y", r"x y = y x", r"f x = y /\ f y = z /\ x = f", rf"{chain} /\ x0 = x300", rf"x300 = x299 /\ {chain}"]
    for number, (text, want) in enumerate([(text, refuses(7, "untypable", "4")) for text in untypable] + [(rf"{twice} /\ x150 = y150", TOO_LARGE)]):
        report_of(session, number, [f"g N `{text}`"], want)
    return session


def of_a_long_reply():
    """60 variables of one type with a long name, which is shown at each of them."""
    name = "A" * 1_200
    equations = r" /\ ".join([f"(x0:{name}) = x1"] + [f"x{k - 1} = x{k}" for k in range(2, 60)])
    free = ",".join(f'"x{k}:{name}"' for k in sorted(range(60), key=lambda k: f"x{k}"))
    shown = equations.replace(f"(x0:{name})", "x0").replace("\\", "\\\\")
    return report_on("tells of goals in over 65,536 bytes", f"g N `{equations}`", f'{{"goals":[{{"asl":[],"free":[{free}],"goal":"{shown}"}}],"ok":true}}')


def of_many_goals(turns, want):
    """1,999 rounds of REPEAT and as many calls: one of each for each conjunction, and for each goal that is left."""
    session = Session(f"splits 999 conjunctions, {turns} turns", ["--turns", str(turns)])
    session.theory("A", ["g N `T" + r" /\ T" * 999 + "`", "e REPEAT CONJ_TAC"])
    session.add(request("report", theory="A", at=1), want)
    return session


def of_large_goals():
    """A goal is too large with its assumptions; that of SUBGOAL_THEN is, before a turn is to be paid."""
    session, large = Session("stops at goals over 20,000 nodes", ["--turns", "1"]), "p" + r" /\ p" * 1_399
    steps = [f"e ALL_TAC THEN SUBGOAL_THEN `{large}` ACCEPT_TAC", "e FIRST_ASSUM ASSUME_TAC", "e FIRST_ASSUM ASSUME_TAC ORELSE ALL_TAC"]
    session.theory("A", [f"g N `{large} ==> q`", "e DISCH_TAC", *steps])
    for at in range(2, 5):
        session.add(request("report", theory="A", at=at), TOO_LARGE)
    return session


def of_texts_at_limits():
    """Texts of 4,096 tokens, or a few less, or of 200 brackets that are open; and texts of one more, each with the place where it is refused."""
    session, goals = Session("reads texts at the limits on tokens and brackets"), '{"goals":[{"asl":[],"free":[%s],"goal":"%s"}],"ok":true}'
    arrows, parameters = "A" + "->A" * 2045, " ".join(f"x{k}" for k in range(4089))
    nested = "~(!x. p <=> " * 199 + "~(!x. p <=> x)" + ")" * 199
    alone = [("g N `" + "~" * 4091 + "p`", TOO_LARGE)]
    alone += [("g N `" + "!x. " * 1363 + "x`", goals % ("", "!" + " ".join(["x"] * 1363) + ". x"))]
    alone += [("g N `" + "(~ !x. p = " * 200 + "x" + ")" * 200 + "`", goals % ('"p:bool"', nested))]
    alone += [(f"new_constant c `:{arrows}`", f'{{"made":["const c:{arrows}"],"ok":true}}')]
    alone += [(f"new_definition D `c {parameters} = c`", '{"arg":"17","ok":true,"refusal":7,"text":"untypable"}')]
    beyond = [("g N `" + "(" * 201, 205), ("e A [" + "(" * 200, 204), ("e" + " x" * 4096, 8192), ("e A `" + "~" * 4093 + "x`", 4098)]
    alone += [(text, f'{{"arg":"{place}","ok":true,"refusal":1,"text":"syntax"}}') for text, place in beyond]
    run = ["e ALL_TAC" + " THEN ALL_TAC" * 2047, "e ALL_TAC" + " ORELSE ALL_TAC" * 2047]
    run += ["e EVERY [ALL_TAC" + "; ALL_TAC" * 2045 + "]", "e " + "(TRY " * 200 + "NO_TAC" + ")" * 200]
    cases = [([text], reply) for text, reply in alone] + [(["g N `p:bool`", text], goals % ('"p:bool"', "p")) for text in run]
    for number, (commands, reply) in enumerate(cases):
        session.theory(f"A{number}", commands)
        session.add(request("report", theory=f"A{number}", at=len(commands) - 1), reply)
    return session


def of_named_sizes():
    """What `deftac` names has 20,000 nodes at most: a name, a tactical and an argument count one, an argument its terms and statements too."""
    session, term = Session("names expressions of 20,000 nodes and no more"), f"!x y z w. {joined(1997)}"
    just = [f"EXISTS_TAC `{term}`", "ACCEPT_TAC A", "E", f"ACCEPT_TAC (ASSUME `!x y z. {joined(998)}`)", f"SUBGOAL_THEN `~({joined(2000)})` ACCEPT_TAC"]
    over = [f"TRY ({expression})" for expression in just] + [f"EXISTS_TAC {doubling(9)[4:]}", f"ACCEPT_TAC (REFL `~({joined(1000)})`)"]
    before = [f"new_axiom A `{term}`", "deftac E ACCEPT_TAC A"]
    for number, (expression, want) in enumerate([(it, makes("tac D")) for it in just] + [(it, TOO_LARGE) for it in over]):
        report_of(session, number, [*before, f"deftac D {expression}"], want)
    return session


def of_nested_names():
    """Each expression is 200 TRY around the one before it: in a theory each of 64, and in one theory up to 19,801 nodes."""
    session, around = Session("runs expressions that are nested by their names"), lambda inner: "(TRY " * 200 + inner + ")" * 200
    for number in range(64):
        session.add(request("new_theory", name=f"T{number}", at=number), OK)
        texts = [f"import T{number - 1}", f"deftac D{number} {around(f'D{number - 1}')}"] if number else [f"deftac D0 {around('NO_TAC')}"]
        for at, text in enumerate(texts + ["g N `p:bool`", f"e D{number}", "oops"]):
            session.add(request("insert", theory=f"T{number}", at=at, text=text), OK)
        session.add(request("report", theory=f"T{number}", at=len(texts) + 1), shows("p", "p:bool"))
    for number in reversed(range(64)):
        session.add(request("drop_theory", name=f"T{number}"), OK)
    names = [f"deftac D0 {around('NO_TAC')}"] + [f"deftac D{number} {around(f'D{number - 1}')}" for number in range(1, 100)]
    session.theory("A", [*names, "g N `p:bool`", "e D98"])
    for at, want in ((98, makes("tac D98")), (99, TOO_LARGE), (101, shows("p", "p:bool"))):
        session.add(request("report", theory="A", at=at), want)
    session.add(request("drop_theory", name="A"), OK)
    return session


def of_nested_lists():
    """Each expression is 199 lists around the one before it, up to 19,901 nodes: two equal theories of them, of which a third imports both, and drops."""
    session, around = Session("compares and drops expressions that are nested in lists by their names"), lambda inner: "EVERY [" * 199 + inner + "]" * 199
    names = [f"deftac D0 {around('NO_TAC')}"] + [f"deftac D{number} {around(f'D{number - 1}')}" for number in range(1, 100)]
    for theory in "BA":
        session.theory(theory, names)
    session.add(request("new_theory", name="Z", at=2), OK)
    for at, text in enumerate(["import A", "import B", "g N `p:bool`", "e TRY D99"]):
        session.add(request("insert", theory="Z", at=at, text=text), OK)
    for at, want in ((1, makes()), (3, shows("p", "p:bool"))):
        session.add(request("report", theory="Z", at=at), want)
    for theory in "ZAB":
        session.add(request("drop_theory", name=theory), OK)
    return session


def of_states_kept():
    """A state is kept at each 32nd command. Commands behind it go back beyond it, and are changed, put in and taken out: what they come to begins from it each time."""
    session, names = Session("goes back beside a state that is kept"), [f"p{number:02}" for number in range(40)]
    commands = [f"g N `{' ==> '.join(names)}`", *["e DISCH_TAC"] * 39, *["b"] * 20]

    def ask(*places):
        for at in places:
            done = steps_taken(commands[: at + 1])
            goal = {"asl": names[:done][::-1], "free": [f"{name}:bool" for name in names], "goal": " ==> ".join(names[done:])}
            session.add(request("report", theory="A", at=at), json.dumps({"goals": [goal], "ok": True}, separators=(",", ":")))

    session.theory("A", commands)
    ask(31, 32, 39, 46, 47, 48, 59)
    for at, text in ((59, "e DISCH_TAC"), (40, "e ALL_TAC"), (33, "b"), (31, "b")):
        session.add(request("replace", theory="A", at=at, text=text), OK)
        commands[at] = text
        ask(31, 32, 33, 58, 59)
    session.add(request("remove", theory="A", at=33), OK)
    del commands[33]
    ask(32, 33, 58)
    session.add(request("insert", theory="A", at=32, text="e DISCH_TAC"), OK)
    commands.insert(32, "e DISCH_TAC")
    ask(31, 32, 33, 59)
    return session


def steps_taken(commands):
    """How many implications are taken apart after a goal's commands."""
    history = [0]
    for text in commands[1:]:
        if text == "b":
            history.pop()
        else:
            history.append(history[-1] + (text == "e DISCH_TAC"))
    return history[-1]


def of_chained_names(turns, want):
    """1,000 expressions, each of which is the name of the one before it, have one node each and take a turn each."""
    session = Session(f"runs 1,000 names in a chain, {turns} turns", ["--turns", str(turns)])
    session.theory("B", ["import A", "g N `p:bool`", "e D999"])
    session.theory("A", ["deftac D0 ALL_TAC"] + [f"deftac D{number} D{number - 1}" for number in range(1, 1000)])
    for theory, at, reply in (("A", 999, makes("tac D999")), ("B", 2, want)):
        session.add(request("report", theory=theory, at=at), reply)
    return session


def generated():
    binders = "!" + " ".join(f"x{k}" for k in range(300)) + ". x0"
    yield report_on("accepts a reading of 18,208 nodes", doubling(8), re.compile(r'{"goals":\[{"asl":\[\],'))
    yield report_on("refuses a reading over 20,000 nodes", doubling(9), TOO_LARGE)
    yield report_on("refuses a reading of 2^300 nodes at once", doubling(300), TOO_LARGE)
    yield report_on("reads and shows 300 binders", f"g N `{binders}`", f'{{"goals":[{{"asl":[],"free":[],"goal":"{binders}"}}],"ok":true}}')
    yield report_on("runs a long chain", "e ALL_TAC" + " THEN ALL_TAC" * 1000, '{"goals":[{"asl":[],"free":["p:bool"],"goal":"p"}],"ok":true}')
    yield of_many_goals(3_998, '{"goals":[' + ",".join(['{"asl":[],"free":[],"goal":"T"}'] * 1000) + '],"ok":true}')
    yield of_many_goals(3_997, TURN_LIMIT)
    yield of_large_goals()
    yield of_sizes()
    for count in (63, 64, 65, 127, 128, 129, 255, 256, 257, 300):
        yield of_binders(count)
    yield of_named_sizes()
    yield of_nested_names()
    yield of_nested_lists()
    yield of_chained_names(1_001, shows("p", "p:bool"))
    yield of_chained_names(1_000, TURN_LIMIT)
    yield of_states_kept()
    yield of_cycles()
    yield of_a_long_reply()
    yield of_texts_at_limits()
    yield of_no_requests()
    yield of_lengths()
    yield of_limits()


def main():
    words = argparse.ArgumentParser(description="runs the sessions of tests/sessions over the built program")
    words.add_argument("--program", default=str(BUILT))
    words.add_argument("--only", default="", help="sessions whose name has this in it")
    words.add_argument("--seconds", type=int, default=60, help="for each session; a program with checks at run time takes long")
    given = words.parse_args()
    every = [session for file in sorted((HERE / "sessions").glob("*.txt")) for session in read(file)] + [*generated()]
    passed = failed = 0
    for session in every:
        if given.only not in session.name:
            continue
        found = session.faults(given.program, given.seconds)
        passed, failed = passed + (not found), failed + bool(found)
        if found:
            print(f"FAILED {session.name}")
            print("\n".join(f"  {it}" for it in found))
    print(f"sessions: {passed} passed, {failed} failed")
    return 1 if failed or not passed else 0


if __name__ == "__main__":
    sys.exit(main())
