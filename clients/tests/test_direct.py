"""Tests of what is written straight from a quotation's tokens: it is what the reader and the plain writer make of it."""

import functools
import random
import unittest

from holls.surface import direct
from holls.surface.errors import Misread
from holls.surface.plain import PlainWriter
from holls.surface.reader import Reader
from holls.surface.shown import Printer, Unprintable
from holls.surface.table import PERHAPS
from holls.surface.vocabulary import Asked
from tests import random_terms
from tests.test_surface import theories

MORE = ("(", ")", ",", "[", "}", "|", ":", "if", "o", "\\", "=", ".", ";", "7", "~")
"""Tokens that are put where they may not belong."""


def by_the_reader(text, table, vocabulary):
    """What the reader and the plain writer make of a quotation, and whether anything in it is in notation; None where it can't be read."""
    reader = Reader(text, table, vocabulary)
    try:
        term = reader.ended(reader.term())
    except Misread:
        return None
    writer = PlainWriter()
    writer.term(term)
    return writer.text if reader.is_notation else text


def scrambled(source, parts):
    """A text's tokens with a few put elsewhere, left out or put twice."""
    made = list(parts)
    for _ in range(source.randint(1, 2)):
        at, to = source.randrange(len(made)), source.randrange(len(made))
        change = source.choice(("swap", "drop", "double", "put"))
        if change == "swap":
            made[at], made[to] = made[to], made[at]
        elif change == "drop" and len(made) > 1:
            del made[at]
        else:
            made.insert(to, made[at] if change == "double" else source.choice(MORE))
    return " ".join(made)


def of_type(source, depth):
    """A random type."""
    kind = source.randrange(8) if depth else 0
    one, other = (of_type(source, depth - 1) for _ in range(2)) if kind > 2 else ("", "")
    return (source.choice(("A", "num", "T'")), "", "", one + " list", "(%s)list" % one, "(%s)" % one, "(%s,%s)prod" % (one, other), one + "->" + other)[kind] or "B"


def variable(source):
    """A random variable."""
    name, kind = source.choice(("x", "f", "x'")), source.randrange(4)
    return name if not kind else ("%s:%s" if kind < 3 else "(%s:%s)") % (name, of_type(source, 3))


def bound(source, depth):
    """A random term of binders and connectives."""
    kind = source.randrange(6) if depth else 0
    if not kind:
        return source.choice(("x", "R x y", "(x:A)", "(f:A->B) x"))
    if kind < 4:
        variables = source.choice((" ", " ", "")).join(variable(source) for _ in range(source.randrange(1, 4)))
        return "%s%s. %s" % (source.choice(("!", "?", "\\", "@", "?!")), variables, bound(source, depth - 1))
    return "(%s) %s %s" % (bound(source, depth - 1), source.choice(("/\\", "==>", "=")), bound(source, depth - 1))


class Straight(unittest.TestCase):
    shares = "the library's files"

    def compare(self, text, table, vocabulary):
        """Whether a quotation is written straight; where it is, as the reader does, by the same questions."""
        asked, wanted = Asked(vocabulary), Asked(vocabulary)
        found = direct.written(text, table, asked)
        if found is not None:
            self.assertEqual(found, by_the_reader(text, table, wanted), text)
            self.assertEqual(asked.answers, wanted.answers, text)
        return found is not None

    def test_every_quotation_of_the_theories(self):
        straight = every = 0
        for file in theories():
            for number, command in enumerate(file.commands):
                written = command.as_written
                if written is command or command.package is not None or command.word == "new_definition":
                    continue
                table, vocabulary = file.notation.table(number), file.notation.vocabulary_at(number - 1)
                for part in written.text.split("`")[1::2]:
                    if not part.lstrip().startswith(":"):  # Types are the reader's.
                        straight += self.compare(part, table, vocabulary)
                        every += 1
        self.assertGreater(every, 5_000)
        self.assertGreater(straight, 0.98 * every)

    def test_random_terms_and_what_is_left_of_them(self):
        source, over = random_terms.Source(7), random_terms.table()
        straight = 0
        for _ in range(3_000):
            term = source.term(source.random.randint(1, 12))
            try:
                shown = Printer(over, random_terms.VOCABULARY).term(term)
            except Unprintable:
                continue
            straight += self.compare(shown, over, random_terms.VOCABULARY)
            straight += self.compare(scrambled(source.random, over.parts.findall(shown)), over, random_terms.VOCABULARY)
        self.assertGreater(straight, 1_500)

    def test_what_seems_to_have_nothing_of_notation_has_nothing(self):
        """By two expressions, which are looked for before a quotation is read: random binders over variables with types and without."""
        source, over, skipped = random.Random(3), random_terms.table(), 0
        for _ in range(2_000):
            text = bound(source, 3)
            if not over.notation.search(text) and not PERHAPS.search(text):
                self.assertIn(by_the_reader(text, over, random_terms.VOCABULARY), (None, text), text)
                skipped += ":" in text
        self.assertGreater(skipped, 300)

    def test_numerals_and_brackets(self):
        over = random_terms.table()
        is_written = functools.partial(direct.written, table=over, vocabulary=random_terms.VOCABULARY)
        self.assertEqual(is_written("6"), "BIT0 (BIT1 _1)")
        self.assertEqual(is_written("0 + 1"), "add _0 _1")
        self.assertEqual(is_written("[a; b + 2]"), "CONS a (CONS (add b (BIT0 _1)) NIL)")
        self.assertEqual(is_written("{x | x < n}"), "\\x. lt x n")
        self.assertEqual(is_written("if p then f x else y z"), "COND p (f x) (y z)")
        self.assertEqual(is_written("!x:num. !y. x <= y"), "!(x:num) y. le x y")
        self.assertEqual(is_written("f x y"), "f x y")
        for left in ("", "x +", "(x", "x)", "!add. x + y", "let x = y in x", "é + x", "1" * 1_001, "{x, y | p}", " + ".join("(" * 300)):
            self.assertIsNone(is_written(left), left)
        self.assertIsNone(is_written("[%s]" % "; ".join("x" * 300)))  # Too many brackets: the reader says so.


if __name__ == "__main__":
    unittest.main()
