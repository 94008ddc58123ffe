"""What requests cost, at three sizes each: the program's processor time may grow as n log n, where n is what a request looks at, and that of a few, which
docs/PROTOCOL.md names ('Limits'), as the square. None takes over 30 seconds or 512 MB, but outcomes that are kept and a step that PROTOCOL names.

    python3 tests/costs.py [--only NAME] [--program PATH]

Each case puts documents of a size into a program of its own, and then asks: only that is timed, by the processor's clock, the least of some tries. The largest
size is 16 times the smallest: there n log n takes some 25 times as long, the square 256 times, and the cube 4,096 times. Times below `NOISE` are taken for that."""

import argparse
import dataclasses
import itertools
import json
import math
import resource
import sys
from typing import Callable, Iterator, List, Tuple

import watched

OK = b'{"ok":true}'
MEMORY = b'"error":9'
# Seconds that a machine at work may add to anything, and how many times as long as n log n something may take.
NOISE, SLACK = 0.02, 2.5
TRIES = 2
# What no request of 64 KB over 1,000 commands takes, but those that docs/PROTOCOL.md names.
MOST_SECONDS, MOST_MEGABYTES = 30, 512


class Cost(Exception):
    """What a case found: the text says what was expected."""


def request(op: str, **more: object) -> bytes:
    return json.dumps({"op": op, **more}).encode()


class Session:
    """A program with one theory, `A`."""

    def __init__(self, program: str, limits: Tuple[Tuple[int, int], ...] = ()):
        self.server = watched.Watched(program, (), list(limits))
        self.expect([request("new_theory", name="A", at=0)])
        self.count = 0

    def expect(self, lines: List[bytes]) -> None:
        """All of these are carried out."""
        replies = self.server.ask(lines)
        wrong = [reply[:200] for reply in replies if reply != OK]
        if wrong or len(replies) < len(lines):
            raise Cost(f"{len(lines)} requests got {len(replies)} replies, not all done: {wrong[:1]}")

    def put(self, texts: List[str], at: int = -1) -> None:
        """Puts commands at the end, or one after the other at a place, where the last then stands first."""
        first = self.count if at < 0 else at
        self.expect([request("insert", theory="A", at=first + (k if at < 0 else 0), text=text) for k, text in enumerate(texts)])
        self.count += len(texts)

    def replace(self, at: int, text: str) -> None:
        self.expect([request("replace", theory="A", at=at, text=text)])

    def report(self, at: int) -> bytes:
        replies = self.server.ask([request("report", theory="A", at=at)])
        if len(replies) != 1:
            raise Cost("the program ended at a report")
        return replies[0]

    def stands(self, at: int, word: bytes) -> None:
        """The report on the command is of this kind."""
        reply = self.report(at)
        if not reply.startswith(b'{"' + word):
            raise Cost(f"the report on command {at} is {reply[:200]!r}")

    def seconds(self, do: Callable[[], object]) -> float:
        before = self.server.seconds()
        do()
        took = self.server.seconds() - before
        if took > MOST_SECONDS:
            raise Cost(f"{took:.0f} seconds, where {MOST_SECONDS} are the most")
        return took

    def most_kilobytes(self) -> int:
        return self.server.kilobytes("VmHWM")

    def end(self, most: int = MOST_MEGABYTES) -> None:
        """Looks at the most memory that it had."""
        megabytes = self.most_kilobytes() >> 10
        self.server.end()
        if megabytes > most:
            raise Cost(f"{megabytes} MB, where {most} are the most")


# ---- cases whose time grows


def goals_of_one_size(program: str, n: int) -> float:
    """n edits of a large goal's statement, above a hundred steps: each runs these, whose outcomes leave under the same texts, and looks for one that left before."""
    session = Session(program)
    parts = " /\\ ".join(["c"] * 600)
    session.put(["new_constant c `:bool`", *(f"new_constant d{k} `:bool`" for k in range(n)), f"g W `{parts} /\\ c`", *["e ALL_TAC"] * 100])
    edits = [request("replace", theory="A", at=n + 1, text=f"g W `{parts} /\\ d{k}`") for k in range(n)]
    took = session.seconds(lambda: session.expect(edits))
    session.stands(n + 101, b"goals")
    session.end()
    return took


def reports_of_names(program: str, n: int) -> float:
    """A report on a goal of 400 variables, whose type has a name of n letters."""
    session = Session(program)
    name = "t" * n
    session.put([f"new_type {name} 0", f"new_constant P `:{name} -> bool`"])
    session.put(["g W `" + " /\\ ".join(f"P x{k}" for k in range(400)) + "`"])
    took = session.seconds(lambda: session.stands(2, b"goals"))
    session.end()
    return took


def turns_deep_in_a_term(program: str, n: int) -> float:
    """Eight times n turns, each a level deeper in a term of n levels than the one before, and so many each a level less deep."""
    session = Session(program)
    tens = "q (" * 9 + "q a" + ")" * 9
    session.put(["new_constant q `:bool->bool`", "new_constant p `:bool->bool`", "new_constant a `:bool`", f"new_axiom L `a <=> {tens}`",
                 "new_axiom IN `p (q x) <=> q (p x)`", "new_axiom OUT `q (p x) <=> p (q x)`", "g W `p (a:bool)`", f"e REPLICATE_TAC {n // 10} (ONCE_REWRITE_TAC [L])"])
    took = session.seconds(lambda: session.put(["e PURE_REWRITE_TAC [IN]", "e PURE_REWRITE_TAC [OUT]"] * 4))
    session.stands(15, b"goals")
    session.end()
    return took


def rules_that_are_assumed(program: str, n: int) -> float:
    """Forty times a turn that looks through n variables for n others, which are assumed."""
    session = Session(program)
    assumed = " ==> ".join(f"p{k}" for k in range(n))
    session.put([f"g W `{assumed} ==> " + " /\\ ".join(f"q{k}" for k in range(n)) + "`", "e REPEAT DISCH_TAC"])
    took = session.seconds(lambda: session.put(["e ASM_REWRITE_TAC []"] * 40))
    session.stands(41, b"goals")
    session.end()
    return took


def rules_that_are_cited(program: str, n: int) -> float:
    """Four turns by n theorems of 300 rules each, on a goal of one node: a turn makes all of them."""
    session = Session(program)
    for j in range(n):
        session.put([f"new_constant P{j} `:A->bool`", f"new_axiom R{j} `" + " /\\ ".join(f"P{j} x{k}" for k in range(300)) + "`"])
    session.put(["g W `q:bool`"])
    took = session.seconds(lambda: session.put(["e PURE_REWRITE_TAC [" + "; ".join(f"R{j}" for j in range(n)) + "]"] * 4))
    session.stands(2 * n + 4, b"goals")
    session.end()
    return took


def goals_with_binders(program: str, n: int) -> float:
    """A report on n goals that differ, each of 900 binders."""
    session = Session(program)
    binders = " ".join(f"x{k}" for k in range(900))
    session.put([f"new_axiom D `!{binders}. T`", "g W `" + " /\\ ".join(f"p{k}" for k in range(n)) + "`", "e REPEAT CONJ_TAC THEN MP_TAC D"])
    took = session.seconds(lambda: session.stands(2, b"goals"))
    session.end()
    return took


def imports_that_add_nothing(program: str, n: int) -> float:
    """n imports of 990 entries that all stand already."""
    session = Session(program)
    session.put([f"new_constant c{k} `:bool`" for k in range(990)])
    session.expect([request("new_theory", name="B", at=1)])
    texts = ["new_constant d `:bool`", *["import A"] * (n + 1)]
    session.expect([request("insert", theory="B", at=at, text=text) for at, text in enumerate(texts[:2])])
    took = session.seconds(lambda: session.expect([request("insert", theory="B", at=at, text=texts[at]) for at in range(2, n + 2)]))
    session.end()
    return took


# ---- cases whose time grows as the square of what they look at, as docs/PROTOCOL.md says


def binders_at_another_type(program: str, n: int) -> float:
    """The step that cites 40 times a theorem of n binders at another type."""
    session = Session(program)
    others = " ".join(f"x{k}" for k in range(1, n))
    session.put(["new_constant c `:" + "A->" * n + "bool`", f"new_axiom AX `P (\\(x0:A) {others}. c x0 {others}):bool`", "g W `T`"])
    took = session.seconds(lambda: session.put(["e ALL_TAC ORELSE " + " ORELSE ".join(["ACCEPT_TAC (INST_TYPE [`:B`,`:A`] AX)"] * 40)]))
    session.stands(3, b"goals")
    session.end()
    return took


def binders_taken_off(program: str, n: int) -> float:
    """Twenty times a step that takes n binders of different names off a theorem."""
    session = Session(program)
    binders = " ".join(f"x{k}" for k in range(n))
    session.put([f"new_axiom AX `!{binders}. P x0 ==> Q`", "g W `Q:bool`"])
    took = session.seconds(lambda: session.put(["e MATCH_MP_TAC AX THEN NO_TAC ORELSE ALL_TAC"] * 20))
    session.stands(21, b"goals")
    session.end()
    return took


def pieces_stripped(program: str, n: int) -> float:
    """Twenty times a step that strips a conjunction of n variables, each of which is assumed."""
    session = Session(program)
    session.put(["new_axiom AX `" + " /\\ ".join(f"p{k}" for k in range(n)) + "`", "g W `q:bool`"])
    took = session.seconds(lambda: session.put(["e STRIP_ASSUME_TAC AX"] * 20))
    session.stands(21, b"goals")
    session.end()
    return took


def binders_shown(program: str, n: int) -> float:
    """Eight reports on a goal of n binders."""
    session = Session(program)
    session.put([f"new_axiom D `!{' '.join(f'x{k}' for k in range(n))}. T`", "g W `q:bool`", "e MP_TAC D"])
    took = session.seconds(lambda: [session.stands(2, b"goals") for _ in range(8)])
    session.end()
    return took


def patterns_of_one_head(program: str, n: int) -> float:
    """A turn by n patterns of one constant that differ in which of its seven arguments are equal, over n parts that none of them matches."""
    session = Session(program)
    patterns = itertools.islice((p for p in partitions(7) if max(p) < 6), n)
    parts = ["g " + " ".join(f"v{(7 * i + j) % 50}" for j in range(7)) for i in range(n)]
    session.put(["new_constant g `:" + "A->" * 7 + "bool`", "new_axiom X `" + " /\\ ".join("g " + " ".join("abcdefh"[k] for k in p) for p in patterns) + "`"])
    session.put(["g W `" + " /\\ ".join(parts) + "`"])
    took = session.seconds(lambda: session.put(["e PURE_REWRITE_TAC [X]"]))
    session.stands(3, b"goals")
    session.end()
    return took


def partitions(n: int) -> Iterator[List[int]]:
    """Each way in which n places may be equal: of each place the number of its class, in the order in which these begin."""
    if n == 0:
        yield []
        return
    for rest in partitions(n - 1):
        yield from (rest + [k] for k in range(max(rest, default=-1) + 2))


# ---- cases that stay below a bound


def edits_at_the_end(program: str, place: int) -> float:
    """The time of 200 edits at the end of a theory of 960 commands, each of which was put at this place: 0, or at the end where it is below 0."""
    session = Session(program)
    for k in range(960):
        session.put([f"new_constant c{k} `:bool`"], at=place)
    edit = [request("insert", theory="A", at=960, text="?"), request("remove", theory="A", at=960)]
    took = session.seconds(lambda: session.expect(edit * 100))
    session.end()
    return took


def built_from_its_end(program: str) -> None:
    """A theory that was built from its end keeps states as one that was built from its beginning: an edit begins at the last one before it."""
    ahead, back = (min(edits_at_the_end(program, place) for _ in range(TRIES)) for place in (-1, 0))
    if back > 2 * ahead + NOISE:
        raise Cost(f"200 edits take {back:.3f} seconds where the theory was built from its end, {ahead:.3f} where from its beginning")



def citations(program: str, n: int) -> float:
    """The time of a step that cites n times a constant whose type has 1,300 variables."""
    session = Session(program)
    session.put(["new_constant c `:" + "->".join(f"A{k % 40}" for k in range(1_300)) + "`", "g W `T`"])
    took = session.seconds(lambda: session.put(["e ALL_TAC ORELSE " + " ORELSE ".join(["ACCEPT_TAC (REFL `c`)"] * n)]))
    session.stands(2, b"goals")
    session.end()
    return took


def quoted_again(program: str) -> None:
    """A quotation that stands 500 times in a command is typed once, which takes five times as long as the rule that is applied to it."""
    once, often = (min(citations(program, n) for _ in range(TRIES)) for n in (1, 500))
    if often > 150 * once + NOISE:
        raise Cost(f"a quotation takes {once:.3f} seconds where it stands once, {often:.3f} where it stands 500 times")


def cited(program: str, n: int) -> float:
    """The time of a turn by 120 rules of n theorems, of which no rule matches: each left side has one variable twice, and no part of the goal has."""
    session = Session(program)
    pairs = [(i, j) for j in range(16) for i in range(j)]
    sides = [" ".join(f"y{i if k == j else k}" for k in range(16)) for i, j in pairs]
    session.put(["new_constant P `:" + "bool->" * 16 + "bool`", "new_axiom R `!z. " + " /\\ ".join(f"(P {side} <=> z)" for side in sides) + "`"])
    session.put(["g W `" + " /\\ ".join(["P " + " ".join(f"x{k}" for k in range(16))] * 100) + "`"])
    took = session.seconds(lambda: session.put(["e PURE_REWRITE_TAC [" + "; ".join(["SPEC `T` R"] * n) + "]"]))
    session.stands(3, b"goals")
    session.end()
    return took


def rules_that_come_again(program: str) -> None:
    """Rules of one left side are tried once, from however many theorems they come."""
    once, often = (min(cited(program, n) for _ in range(TRIES)) for n in (1, 40))
    if often > 10 * once + NOISE:
        raise Cost(f"a turn by 120 rules takes {once:.3f} seconds, {often:.3f} where each comes 40 times")


def long_replies(program: str) -> None:
    """A report of more than 64 MiB is refused at once, and takes no more memory than that twice; the documents stand."""
    session = Session(program)
    name = "t" * 65_000
    session.put([f"new_type {name} 0", f"new_constant P `:{name} -> bool`"])
    session.put(["g W `" + " /\\ ".join(f"P x{k}" for k in range(1_200)) + "`"])
    took = session.seconds(lambda: refused(session, 2))
    if took > 1 or session.most_kilobytes() > 256 << 10:
        raise Cost(f"a report that is too long took {took:.1f} seconds, {session.most_kilobytes() >> 10} MB")
    session.stands(1, b"made")
    session.end()


def refused(session: Session, at: int) -> None:
    reply = session.report(at)
    if MEMORY not in reply:
        raise Cost(f"a report that is too long is answered: {len(reply)} bytes")


def heavy(session: Session, turns_each: int) -> Callable[[int], None]:
    """A step whose outcome holds some megabyte for each of its turns there and back; what is given replaces it by a like one, with so many spaces."""
    parts = " /\\ ".join(["a"] * 1_300)
    turns = " THEN ".join(["SUBST1_TAC AB", "SUBST1_TAC BA"] * turns_each)
    session.put(["new_constant a `:bool`", "new_constant b `:bool`", "new_axiom AB `a <=> b`", "new_axiom BA `b <=> a`", f"g W `{parts}`", f"e {turns}"])
    session.stands(5, b"goals")
    return lambda spaces: session.replace(5, f"e {' ' * spaces}{turns}")


def heavy_outcomes(program: str) -> None:
    """Outcomes that have left the documents hold 400 MB at the most: a few that are heavy by themselves, and many that are together."""
    for turns_each, edits, most in ((200, 8, 800), (50, 20, 500)):
        session = Session(program)
        replaced = heavy(session, turns_each)
        for spaces in range(1, edits + 1):
            replaced(spaces)
        megabytes = session.most_kilobytes() >> 10
        if megabytes > most:
            raise Cost(f"{edits + 1} outcomes of {turns_each} turns there and back, of which two stand at once, take {megabytes} MB")
        session.end(most)


def little_space(program: str) -> None:
    """With 1 GB of addresses, each heavy edit is carried out, at the second try if not at the first: the memory line empties what is kept."""
    session = Session(program, ((resource.RLIMIT_AS, 1 << 30),))
    replaced = heavy(session, 200)
    for spaces in range(1, 9):
        try:
            replaced(spaces)
        except Cost:
            replaced(spaces)
    session.end(1 << 10)


def redexes(body: str) -> str:
    """1,950 abstractions of a body, one in another, over as many arguments: so many levels has a text."""
    return "(\\" + "a " * 1_950 + f". {body})" + " T" * 1_950


def deep(session: Session) -> None:
    """A goal of 7,800 levels, with `c` at the end of half of them; it is no text, but one put into another."""
    session.put(["new_constant c `:bool`", "new_constant d `:bool`", "new_axiom CC `c <=> c`", "new_axiom CD `c <=> d`", "new_axiom DC `d <=> c`"])
    session.put([f"new_axiom AX `!x:bool. {redexes('x')}`", "g W `T`", f"e MP_TAC (SPEC `{redexes('c')}` AX)"])
    session.stands(7, b"goals")


def no_end_of_turns(program: str) -> None:
    """All turns that there are, each at the end of 7,800 levels."""
    session = Session(program)
    deep(session)
    took = session.seconds(lambda: session.put(["e PURE_REWRITE_TAC [CC]"]))
    if took > 2 or b'"refusal":18' not in session.report(8):
        raise Cost(f"10,000 turns take {took:.1f} seconds")
    session.end()


def goes_on_with_little(program: str) -> None:
    """With 512 MB of addresses a step that takes gigabytes gets the memory line; then all is served that needs less, in the theory and without it."""
    session = Session(program, ((resource.RLIMIT_AS, 512 << 20),))
    deep(session)
    (reply,) = session.server.ask([request("insert", theory="A", at=8, text="e REPLICATE_TAC 1995 (SUBST1_TAC CD THEN SUBST1_TAC DC)")])
    if MEMORY not in reply:
        raise Cost(f"a step of gigabytes is answered {reply[:200]!r}")
    session.put(["e SUBST1_TAC CD"])
    session.stands(8, b"goals")
    session.expect([request("drop_theory", name="A"), request("new_theory", name="A", at=0)])
    session.count = 0
    session.put(["g W `T`", "e ACCEPT_TAC TRUTH", "qed"])
    session.stands(2, b"made")
    session.end()


def texts_that_stand(program: str) -> None:
    """Texts of 3,300 tokens take 3 MB each, with what they read as and came to."""
    session = Session(program)
    before = session.most_kilobytes()
    session.put([f"new_axiom A{k} `(f " + " ".join(["x"] * 3_300) + "):bool`" for k in range(60)])
    each = (session.most_kilobytes() - before) / 60
    if each > 3_500:
        raise Cost(f"{each:.0f} KB each")
    session.end()


def binders_of_one_name(program: str) -> None:
    """1,900 binders of one name are taken off, each under another: the names that they get have 1,900 primes, together 1.8 million letters."""
    session = Session(program)
    session.put(["new_axiom AX `!" + "x " * 1_900 + ". P x ==> Q`", "g W `Q:bool`"])
    took = session.seconds(lambda: session.put(["e MATCH_MP_TAC AX"]))
    session.stands(2, b"goals")
    if took > 2:
        raise Cost(f"1,900 binders of one name take {took:.1f} seconds")
    session.end()


def long_texts(program: str) -> None:
    """A goal's text of more than 16 MiB is refused at once, and one of a few letters less isn't."""
    session = Session(program)
    name = "c" * 60_000
    session.put([f"new_constant {name} `:bool`", "new_constant d `:bool`", f"new_axiom D `d <=> {name}`"])
    session.put(["g W `" + " /\\ ".join(["d"] * 270) + "`", "e PURE_REWRITE_TAC [D]", "oops", "g W `" + " /\\ ".join(["d"] * 290) + "`", "e PURE_REWRITE_TAC [D]"])
    session.stands(4, b"goals")
    took = session.seconds(lambda: refused(session, 7))
    if took > 1:
        raise Cost(f"a text that is too long took {took:.1f} seconds")
    session.end()


GROWING: List[Tuple[Callable[[str, int], float], List[int]]] = [
    (goals_of_one_size, [8, 32, 128]),
    (reports_of_names, [2_000, 8_000, 32_000]),
    (turns_deep_in_a_term, [240, 960, 3_840]),
    (rules_that_are_assumed, [60, 240, 960]),
    (rules_that_are_cited, [4, 16, 64]),
    (goals_with_binders, [8, 32, 128]),
    (imports_that_add_nothing, [50, 200, 800]),
]
SQUARE: List[Tuple[Callable[[str, int], float], List[int]]] = [
    (binders_at_another_type, [50, 200, 800]),
    (binders_taken_off, [120, 480, 1_920]),
    (pieces_stripped, [60, 240, 960]),
    (binders_shown, [137, 550, 2_200]),
    (patterns_of_one_head, [25, 100, 400]),
]
BOUNDED: List[Callable[[str], None]] = [
    built_from_its_end,
    quoted_again,
    rules_that_come_again,
    long_replies,
    long_texts,
    heavy_outcomes,
    little_space,
    goes_on_with_little,
    no_end_of_turns,
    texts_that_stand,
    binders_of_one_name,
]


@dataclasses.dataclass
class Found:
    """What was found of a case: its name, what it took, and what is wrong, if anything is."""

    name: str
    said: str
    fault: str


def grown(case: Callable[[str, int], float], sizes: List[int], program: str, order: Callable[[int], float]) -> Found:
    """Each size is compared with the smallest, by the order in which it may grow."""
    took = [min(case(program, n) for _ in range(TRIES)) for n in sizes]
    said = ", ".join(f"{n}: {seconds * 1000:.1f} ms" for n, seconds in zip(sizes, took))
    least = max(took[0], NOISE)
    for n, seconds in zip(sizes, took):
        may = SLACK * least * order(n) / order(sizes[0])
        if seconds > may:
            return Found(case.__name__, said, f"{n} takes {seconds:.3f} seconds, over {may:.3f}")
    return Found(case.__name__, said, "")


def found(program: str, only: str) -> Iterator[Found]:
    growing = [(case, sizes, lambda n: n * math.log(n)) for case, sizes in GROWING] + [(case, sizes, lambda n: n * n) for case, sizes in SQUARE]
    for case, sizes, order in growing:
        if only in ("", case.__name__):
            try:
                yield grown(case, sizes, program, order)
            except Cost as cost:
                yield Found(case.__name__, "", str(cost))
    for bounded in BOUNDED:
        if only in ("", bounded.__name__):
            try:
                bounded(program)
                yield Found(bounded.__name__, "within its bound", "")
            except Cost as cost:
                yield Found(bounded.__name__, "", str(cost))


def main() -> int:
    parser = argparse.ArgumentParser(description=(__doc__ or "").splitlines()[0])
    parser.add_argument("--only", default="")
    parser.add_argument("--program", default=str(watched.BUILT))
    given = parser.parse_args()
    cases = list(found(given.program, given.only))
    for case in cases:
        print(f"{case.name}: {case.fault or case.said}")
    faults = sum(bool(case.fault) for case in cases)
    print(f"costs: {len(cases) - faults} passed, {faults} failed")
    return 1 if faults or not cases else 0


if __name__ == "__main__":
    sys.exit(main())
