"""Random trees over all that notation has: operators, numerals, lists, sets, pairs, conditionals, `let`, binders, and names that get in their way.

Also a command: `python3 clients/tests/random_terms.py [NUMBER [SEED [SIZE]]]` prints so many terms in notation, reads them back and compares.
"""

import pathlib
import random
import sys
import time

sys.path.insert(0, str(pathlib.Path(__file__).resolve().parents[1]))
from holls.surface import tree  # noqa: E402
from holls.surface.plain import PlainWriter  # noqa: E402
from holls.surface.reader import Reader  # noqa: E402
from holls.surface.shown import Printer, Unprintable  # noqa: E402
from holls.surface.table import EMPTY, LEFT, RESULT, RIGHT, Operator  # noqa: E402
from holls.surface.vocabulary import Vocabulary  # noqa: E402

INFIXES = [
    ("<", 12, RIGHT, "lt"), ("<=", 12, RIGHT, "le"), (">", 12, RIGHT, "GT"), (">=", 12, RIGHT, "GE"), ("+", 16, RIGHT, "add"), ("-", 18, LEFT, "sub"),
    ("*", 20, RIGHT, "mult"), ("EXP", 24, LEFT, "EXP"), ("DIV", 22, LEFT, "DIV"), ("MOD", 22, LEFT, "MOD"), ("IN", 11, RIGHT, "IN"),
    ("SUBSET", 12, RIGHT, "SUBSET"), ("PSUBSET", 12, RIGHT, "PSUBSET"), ("INTER", 20, RIGHT, "INTER"), ("UNION", 16, RIGHT, "UNION"),
    ("DIFF", 18, LEFT, "DIFF"), ("INSERT", 21, RIGHT, "INSERT"), ("DELETE", 21, LEFT, "DELETE"), ("HAS_SIZE", 12, RIGHT, "HAS_SIZE"),
    ("o", 26, RIGHT, "o"), ("++", 16, RIGHT, "APPEND"), ("==", 12, LEFT, "equal_to"), ("::", 17, RIGHT, "link"), ("%", 99, LEFT, "scale"),
    ("|-", 1, RIGHT, "yields")]
FORMS = {"if": ("COND",), "list": ("NIL", "CONS"), "set": ("EMPTY", "INSERT", "UNIV"), "pair": ("pair", "UNCURRY"), "let": ("LET",),
         "num": ("_0", "_1", "BIT0", "BIT1"), "1": ("one",)}
SETS = {"IN": (1,), "UNION": (0, 1, RESULT), "INTER": (0, 1, RESULT), "DIFF": (0, 1, RESULT), "SUBSET": (0, 1), "PSUBSET": (0, 1),
        "DELETE": (0, RESULT), "INSERT": (1, RESULT), "FINITE": (0,), "CARD": (0,), "IMAGE": (1, RESULT), "UNIONS": (0, RESULT), "HAS_SIZE": (0,)}
VOCABULARY = Vocabulary({"num": 0, "prod": 2, "list": 1, "one": 0, "option": 1, "sum": 2}, dict.fromkeys(("SUC", "FST", "SND", "CARD", "IMAGE", "FINITE")))


def table():
    """A table with all forms and more operators than a library has."""
    found = EMPTY
    for symbol, precedence, grouping, constant in INFIXES:
        found = found.with_operator(Operator(symbol, precedence, grouping, constant))
    for symbol, precedence, constructor in (("#", 6, "prod"), ("+", 4, "sum")):
        found = found.with_type_operator(Operator(symbol, precedence, RIGHT, constructor))
    for form, names in FORMS.items():
        found = found.with_form(form, names)
    for constant, places in SETS.items():
        found = found.with_sets(constant, places)
    return found


_CONSTANTS = [constant for _, _, _, constant in INFIXES] + [name for form, names in FORMS.items() if form != "1" for name in names] + [
    "SUC", "FST", "CARD", "IMAGE", "FINITE"]
_VARIABLES = ["x", "y", "z", "z'", "f", "P", "s", "n"]
_AWKWARD = ["if", "in", "let", "and", "then", "else", "o", "IN", "add", "NIL", "_0", "UNCURRY", "T"]
_BASES = ["num", "bool", "A", "B", "one", "ind", "unknown"]


class Source:
    """Makes trees of about so many nodes. Its choices are a generator's of random numbers."""

    def __init__(self, seed):
        self.random = random.Random(seed)

    def name(self):
        some = self.random.random()
        return self.random.choice(_VARIABLES if some < 0.6 else _CONSTANTS if some < 0.9 else _AWKWARD)

    def variable(self):
        some = self.random.random()
        return self.random.choice(_VARIABLES if some < 0.9 else _AWKWARD if some < 0.97 else _CONSTANTS)

    def type(self, size):
        if size <= 1:
            return tree.Type(self.random.choice(_BASES), (), 0, 0)
        kind = self.random.choice(("fun", "fun", "prod", "sum", "list", "option", "unknown", "triple"))
        number = 2 if kind in ("fun", "prod", "sum") else 3 if kind == "triple" else 1
        return tree.Type(kind, tuple(self.type((size - 1) // number) for _ in range(number)), 0, 0)

    def optional_type(self):
        return self.type(self.random.randint(1, 4)) if self.random.random() < 0.2 else None

    def term(self, size):
        if size <= 1:
            some = self.random.random()
            if some < 0.03:
                return tree.Symbol(self.random.choice(sorted(tree.ALONE)), 0, 0)
            return self.numeral() if some < 0.12 else tree.Name(self.name(), 0, 0)
        make = self.random.choice((
            self.application, self.application, self.infix, self.infix, self.infix, self.connective, self.connective, self.negation, self.annotation,
            self.binder, self.binder, self.elements, self.conditional, self.pair, self.patterned, self.let, self.abstraction, self.numeral_tail,
            self.universe))
        return make(size - 1)

    def parts(self, size, number):
        """So many terms that have a size together."""
        cuts = sorted(self.random.randint(0, size) for _ in range(number - 1))
        return [self.term(end - begin) for begin, end in zip([0, *cuts], [*cuts, size])]

    def applied(self, name, arguments):
        return tree.applied(tree.Name(name, 0, 0), arguments, 0, 0)

    def application(self, size):
        function, argument = self.parts(size, 2)
        return tree.Application(function, argument, 0, 0)

    def infix(self, size):
        constant = self.random.choice(INFIXES)[3]
        return self.applied(constant, self.parts(size, self.random.choice((2, 2, 2, 2, 2, 1, 3))))

    def connective(self, size):
        left, right = self.parts(size, 2)
        if self.random.random() < 0.1:
            left = self.bound("\\", left)
        return tree.Connective(self.random.choice(sorted(tree.PRECEDENCES)), left, right, 0, 0)

    def negation(self, size):
        return tree.Negation(self.term(size), 0, 0)

    def annotation(self, size):
        return tree.Annotation(self.term(size), self.type(self.random.randint(1, 4)), 0, 0)

    def bound(self, kind, body):
        return tree.Binder(kind, self.variable(), self.optional_type(), body, 0, 0, 0, 0)

    def binder(self, size):
        kind, found = self.random.choice(sorted(tree.BINDERS)), self.term(size)
        for _ in range(self.random.randint(1, 3)):
            found = self.bound(kind, found)
        return found

    def elements(self, size):
        more, empty = self.random.choice((("CONS", "NIL"), ("INSERT", "EMPTY")))
        parts = self.parts(size, self.random.randint(1, 4))
        found = tree.Name(empty, 0, 0) if self.random.random() < 0.85 else parts.pop()
        for part in reversed(parts):
            found = self.applied(more, [part, found])
        return found

    def conditional(self, size):
        return self.applied("COND", self.parts(size, self.random.choice((3, 3, 3, 4, 2))))

    def pair(self, size):
        return self.applied("pair", self.parts(size, self.random.choice((2, 2, 3, 1))))

    def pattern(self, body, depth=2):
        """A function of a variable or of a pair."""
        if not depth or self.random.random() < 0.4:
            return self.bound("\\", body)
        return self.applied("UNCURRY", [self.pattern(self.pattern(body, depth - 1), depth - 1)])

    def patterned(self, size):
        found = self.pattern(self.term(size))
        kind = self.random.choice(("\\", "\\", "!", "?", "?!", "@", "~"))
        return found if kind == "\\" else tree.Application(tree.Symbol(kind, 0, 0), found, 0, 0)

    def let(self, size):
        body, *terms = self.parts(size, self.random.randint(2, 3))
        for _ in terms[:self.random.choice((1, 2))]:
            body = self.pattern(body)
        return self.applied("LET", [body, *terms])

    def abstraction(self, size):
        """Where a set is meant, a function of the form that {t | p} and {t | x, y | p} have."""
        condition, pattern = self.parts(size, 2)
        fresh = self.random.choice(("z", "z", "z'", "w"))
        body = tree.Connective("/\\", condition, tree.Connective("=", tree.Name(fresh, 0, 0), pattern, 0, 0), 0, 0)
        names = [name for name in tree.free_names(pattern) if self.random.random() < 0.8]
        for name in reversed(names):
            body = tree.Binder("?", name, self.optional_type() if self.random.random() < 0.1 else None, body, 0, 0, 0, 0)
        found = tree.Binder("\\", fresh, None, body, 0, 0, 0, 0) if self.random.random() < 0.7 else self.bound("\\", condition)
        constant = self.random.choice(("FINITE", "CARD", "IN", "UNION", "SUBSET", "INSERT"))
        return self.applied(constant, [found] if constant in ("FINITE", "CARD") else [tree.Name("s", 0, 0), found])

    def numeral(self):
        found = tree.Name("_1", 0, 0)
        for _ in range(self.random.randint(0, 8)):
            found = self.applied(self.random.choice(("BIT0", "BIT1")), [found])
        return found

    def numeral_tail(self, size):
        return self.applied(self.random.choice(("BIT0", "BIT1")), [self.term(size)])

    def universe(self, size):
        return tree.Annotation(tree.Name("UNIV", 0, 0), tree.Type("fun", (self.type(2), tree.Type("bool", (), 0, 0)), 0, 0), 0, 0)


def read(text, over, vocabulary):
    """The tree of a text."""
    reader = Reader(text, over, vocabulary)
    return reader.ended(reader.term())


def plain(term):
    """A tree's plain text."""
    writer = PlainWriter()
    writer.term(term)
    return writer.text


def difference(term, over):
    """Of a tree that doesn't read back as it is printed: what is printed. None where it does, or where it can't be printed."""
    wanted = tree.bare(term)
    if tree.bare(read(plain(term), EMPTY, None)) != wanted:
        return plain(term)
    try:
        shown = Printer(over, VOCABULARY).term(term)
    except Unprintable:
        return None
    return None if tree.bare(read(shown, over, VOCABULARY)) == wanted else shown


def differences(number, seed, size):
    """Of so many terms of up to a size, those that don't read back as they are printed, each with what is printed."""
    source, over = Source(seed), table()
    for _ in range(number):
        term = source.term(source.random.randint(1, size))
        try:
            found = difference(term, over)
        except Exception as error:  # noqa: BLE001: told with the term
            found = "%s: %s" % (type(error).__name__, error)
        if found is not None:
            yield plain(term), found


def main():
    number, seed, size = (int(word) for word in (sys.argv[1:] + ["100000", "1", "8"][len(sys.argv) - 1:])[:3])
    begun, wrong = time.monotonic(), 0
    for term, found in differences(number, seed, size):
        wrong += 1
        print("%s\n    %s" % (term, found))
    print("%d terms, %d differences, %.1f s" % (number, wrong, time.monotonic() - begun))
    return 1 if wrong else 0


if __name__ == "__main__":
    sys.exit(main())
