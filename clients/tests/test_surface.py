"""Notation: what is read, what is printed, there and back, places, errors, declarations."""

import argparse
import functools
import json
import pathlib
import random
import re
import shutil
import subprocess
import tempfile
import time
import unittest

from holls import check, spelling
from holls.surface import declarations, tree
from holls.surface.declarations import NOTHING
from holls.surface.errors import Misread
from holls.surface.shown import Printer
from holls.surface.table import EMPTY, LEFT, RIGHT, Clash, Operator
from holls.surface.translation import in_notation, translated
from holls.surface.vocabulary import Vocabulary
from holls.text import cut
from holls.view import View
from tests import random_terms
from tests.helpers import BUILT, ROOT
from tests.random_terms import VOCABULARY, plain, read

TABLE = random_terms.table()
STATEMENTS, DECLARED = ([line.split("\t") for line in (pathlib.Path(__file__).parent / name).read_text().splitlines()] for name in (
    "hol_light_statements.tsv", "hol_light_declared.tsv"))

READ = r"""
m + n * p | add m (mult n p)
m - n - p | sub (sub m n) p
m + n + p = p | add m (add n p) = p
m < n /\ n <= p ==> m < p | lt m n /\ le n p ==> lt m p
~(m = n) ==> p | ~(m = n) ==> p
~x IN s | IN (~x) s
x IN s UNION t | IN x (UNION s t)
IN x s | IN x s
IN x | IN x
f o g o h | o f (o g h)
o SOME f | o SOME f
MAP (f o g) l | MAP (o f g) l
(f o g) x | o f g x
(+) m | add m
( * ) o f | o mult f
if p then x else y + 1 | COND p x (add y _1)
f (if p then x else y) z | f (COND p x y) z
if p then if q then x else y else z | COND p (COND q x y) z
[] | NIL
[a] ++ [b; c] | APPEND (CONS a NIL) (CONS b (CONS c NIL))
[m + n; if p then x else y] | CONS (add m n) (CONS (COND p x y) NIL)
{} | EMPTY
{a, b + c} | INSERT a (INSERT (add b c) EMPTY)
{x | x < y} | \x. lt x y
{x:num | x < 3} | \x:num. lt x (BIT1 _1)
{x + y | x < y} | \z. ?x y. lt x y /\ z = add x y
{f x | x IN s} | \z. ?x. IN x s /\ z = f x
{f x y | x | x IN s} | \z. ?x. IN x s /\ z = f x y
{f z | z IN s} | \z'. ?z. IN z s /\ z' = f z
{(x,y) | R x y} | \z. ?x y. R x y /\ z = pair x y
{SUC n | n IN s} | \z. ?n. IN n s /\ z = SUC n
x INSERT y INSERT s | INSERT x (INSERT y s)
s DELETE x DELETE y | DELETE (DELETE s x) y
(x,y) = z | pair x y = z
x,y,z | pair x (pair y z)
\(x,y). x + y | UNCURRY (\x y. add x y)
\(x:num,y). x | UNCURRY (\(x:num) y. x)
!(x,y) z. p | (!) (UNCURRY (\x y. !z. p))
?((x,y),z). p | (?) (UNCURRY (UNCURRY (\x y z. p)))
let x = 1 in x + x | LET (\x. add x x) _1
let x = 1 and (y,z) = p in x + y | LET (\x. UNCURRY (\y z. add x y)) _1 p
let x = let y = 1 in y in x | LET (\x. x) (LET (\y. y) _1)
0 | _0
1 | _1
2 | BIT0 _1
11 | BIT1 (BIT1 (BIT0 _1))
12 * 12 = 144 | mult (BIT0 (BIT0 (BIT1 _1))) (BIT0 (BIT0 (BIT1 _1))) = BIT0 (BIT0 (BIT0 (BIT0 (BIT1 (BIT0 (BIT0 _1))))))
(:A) | UNIV:A->bool
(:num->bool) = s | (UNIV:(num->bool)->bool) = s
x:A#B->C | x:(A,B)prod->C
x:A#B#C+1 list | x:((A,(B,C)prod)prod,one list)sum
f \x. x + 1 | f (\x. add x _1)
!x:num y. x <= y | !(x:num) y. le x y
!s:A->bool t. s = t | !(s:A->bool) t. s = t
!l:num list m. p | !(l:num list) m. p
!(if). if p then q else (if) | !if. COND p q if
\o. (o) x + 1 | \o. add (o x) _1
p /\ !x. 0 = x | p /\ (!x. _0 = x)
!x. x = 0 \/ ?y. x = y + 1 | !x. x = _0 \/ (?y. x = add y _1)
"""
"""Texts in notation with the plain text that each is, as HOL Light reads them where it does."""

WRONG = [
    ("!m n. m + = n", 10, 11, "unexpected `=`"),
    ("!add. m + n = add n", 8, 9, "the bound variable `add` hides the constant that `+` stands for here: rename the variable"),
    ("x << y", 2, 4, "`<<` is no operator here"),
    ("x < y << z", 6, 8, "`<<` is no operator here"),
    ("m .. n", 2, 4, "`..` is no operator here"),
    ("x & y", 2, 3, "`&` is no operator here"),
    ("x + \x01", 4, 5, "`U+0001` begins no symbol of the notation"),
    ("[a; b", 0, 1, "this `[` is never closed: `]` is missing"),
    ("{x | x < 3", 0, 1, "this `{` is never closed: `}` is missing"),
    ("f (x + 1", 2, 3, "this `(` is never closed: `)` is missing"),
    ("[a; b)", 5, 6, "`]` is missing before `)`"),
    ("m + n)", 5, 6, "unexpected `)`"),
    ("if p then q", 0, 2, "`else` is missing to this `if`"),
    ("if p + q", 0, 2, "`then` is missing to this `if`"),
    ("let x = 1", 0, 3, "`in` is missing to this `let`"),
    ("let x in x", 6, 8, "`=` is missing before `in`"),
    ("m +", 2, 3, "the quotation ends too soon"),
    ("s DELETE x INSERT t", 11, 17, "`DELETE` and `INSERT` bind alike and group differently: put parentheses around one of them"),
    ("{a = b, c}", 3, 4, "an element of a set with `=` stands in parentheses"),
    ("{x | y | z | p}", 11, 12, "a set has at most two `|`: {t | x, y | p}"),
    ("\\(add,y). add", 0, 0, ""),
    ("\\(x,UNCURRY). x + 1", 1, 12, "the variable `UNCURRY` hides the constant that `(x,y)` stands for: rename it"),
    ("x:num#", 5, 6, "a type is missing before the end"),
    ("x:(A#B", 5, 6, "`)` is missing in this type"),
    ("!x + y. p", 3, 4, "a variable is missing before `+`"),
    ("1 2x", 0, 0, ""),
]
"""Texts with where each fails and why; those without words are read."""


def sent(text, table=TABLE, vocabulary=VOCABULARY):
    """What is sent of a quotation."""
    found = translated("e X `%s`" % text, table, vocabulary)
    if found.error:
        raise found.error
    return found.text[len("e X `"):-1]


@functools.lru_cache(1)
def theories():
    """The files of theories/, each knowing what it imports. No test changes them."""
    return [file for files in check.ordered([str(ROOT / "theories")]).values() for file in files]


def closed_under_imports(names):
    """Some theories with those that they import, in an order in which each comes after its imports."""
    found = set(names)
    for file in reversed(theories()):
        found |= set(file.imports) if file.name in found else set()
    return [file.name for file in theories() if file.name in found]


def asking(lines):
    """The program's replies to requests."""
    given = "".join(json.dumps(line) + "\n" for line in lines)
    done = subprocess.run([str(BUILT)], input=given, stdout=subprocess.PIPE, text=True, check=True)
    return [json.loads(line) for line in done.stdout.splitlines()]


def quotations(text):
    return text.split("`")[1::2]


class Reading(unittest.TestCase):
    def test_reads_as_hol_light_does(self):
        for line in READ.strip().splitlines():
            written, wanted = line.split(" | ", 1) if line.count(" | ") == 1 else (line[:line.rindex(" | ")], line[line.rindex(" | ") + 3:])
            with self.subTest(written):
                self.assertEqual(sent(written), wanted)

    def test_prints_what_it_reads(self):
        for line in READ.strip().splitlines():
            wanted = line[line.rindex(" | ") + 3:]
            shown = Printer(TABLE, VOCABULARY).term(read(wanted, EMPTY, None))
            with self.subTest(shown):
                self.assertEqual(tree.bare(read(shown, TABLE, VOCABULARY)), tree.bare(read(wanted, EMPTY, None)))

    def test_says_where_a_text_fails_and_why(self):
        for text, start, end, words in WRONG:
            with self.subTest(text):
                error = translated("e X `%s`" % text, TABLE, VOCABULARY).error
                if not words:
                    self.assertIsNone(error)
                    continue
                self.assertEqual((error.start - 5, error.end - 5, error.text), (start, end, words))

    def test_without_declarations_each_text_is_sent_as_it_is(self):
        for text in ("g A `m + n`", "g A `f !x. p`", "g A `{x | p}`", "g A `[`", "e X `1", "new_definition D `if p = p`"):
            found = translated(text, EMPTY, VOCABULARY)
            self.assertEqual((found.text, found.segments, found.error), (text, None, None))

    def test_a_plain_text_is_sent_as_it_is(self):
        for text in ("g A `!x  y. (x = y)`", "g A `(!x:A. p) /\\\n q`", "e X `x:A` `:B->(C)`", "g A `f x ) y`", "g A `p ==> :`", "g A `x:(A,B)t`", "b"):
            found = translated(text, TABLE, VOCABULARY)
            self.assertEqual((found.text, found.segments, found.error), (text, None, None))

    def test_numerals_without_binary_digits_end_at_one(self):
        table = EMPTY.with_form("num", ("_0", "_1"))
        self.assertEqual(sent("0 = 1", table), "_0 = _1")
        with self.assertRaisesRegex(Misread, "numerals end at 1 here"):
            sent("2", table)
        with self.assertRaisesRegex(Misread, "there are no numerals here"):
            sent("f 2", EMPTY.with_form("if", ("COND",)))

    def test_definitions(self):
        def defined(text):
            found = translated("new_definition D `%s`" % text, TABLE, VOCABULARY)
            return found.error.text if found.error else quotations(found.text)[0]

        self.assertEqual(defined("f x (y:num) = x + y"), "f x (y:num) = add x y")
        self.assertEqual(defined("f (x:num#B) : num = FST x + 1"), "f (x:(num,B)prod):num = add (FST x) _1")
        self.assertEqual(defined("P x <=> x IN s /\\ x < 3"), "P x <=> IN x s /\\ lt x (BIT1 _1)")
        self.assertEqual(defined("m + n = num_REC 0 f m"), "add m n = num_REC _0 f m")
        self.assertEqual(defined("(s:A->bool) SUBSET t <=> !x. x IN s ==> x IN t"), "SUBSET (s:A->bool) t <=> !x. IN x s ==> IN x t")
        self.assertEqual(defined("f x = x + 1 /\\ p"), "unexpected `/\\`: the right side of a definition's = stands in parentheses, "
                         "or has <=> before it")
        self.assertEqual(defined("f (x,y) = x + 1"), "an argument of a definition is a variable, and no pair")
        self.assertEqual(defined("f add = 1 + 2"), "the bound variable `add` hides the constant that `+` stands for here: rename the variable")
        self.assertEqual(defined("f x + 1"), "a variable is missing before `+`")
        self.assertEqual(defined("f x [1]"), "a variable is missing before `[`")

    def test_types_in_quotations_of_their_own(self):
        self.assertEqual(sent(":A#B->1"), ":(A,B)prod->one")
        self.assertEqual(sent(" :num list"), " :num list")


class Bounds(unittest.TestCase):
    def test_long_lists_and_sums_say_how_long_they_are(self):
        for text, words in (
                ("[%s] = []" % "; ".join(["x"] * 202), "this list has 202 members"), ("{%s} = s" % ", ".join(["x"] * 300), "this set has 300 members"),
                (" + ".join(["x"] * 1000), "`+` joins 1000 terms here"), (" - ".join(["x"] * 500), "`-` joins 500 terms here"),
                ("n = 1%s" % ("0" * 80), "this numeral has 266 binary digits"), ("n + %sx%s" % ("(f " * 300, ")" * 300), "this term is nested too deeply")):
            error = translated("g A `%s`" % text, TABLE, VOCABULARY).error
            self.assertEqual(error.text, words + ", and the program reads at most 200 brackets open at once: split it")
            self.assertLess(error.start, len(text) + 5)
        self.assertIsNone(translated("g A `[%s] = []`" % "; ".join(["x"] * 201), TABLE, VOCABULARY).error)

    def test_no_nesting_is_too_deep_for_the_reader_and_the_printer(self):
        for text in (
                "(" * 5000 + "x" + ")" * 5000, "~" * 9000 + "p", "p ==> " * 5000 + "p", "!x. " * 5000 + "p", "f " * 9000 + "x", "(f " * 5000 + "x" + ")" * 5000,
                "x:" + "A->" * 5000 + "B", "x:" + "(" * 5000 + "A" + ")" * 5000, "(BIT0 " * 4000 + "x" + ")" * 4000, "(CONS x " * 4000 + "y" + ")" * 4000,
                "(INSERT x " * 3000 + "EMPTY" + ")" * 3000, "(UNCURRY " * 3000 + "f" + ")" * 3000, "(FINITE (\\x. " * 1500 + "p" + "))" * 1500):
            term = read(text, EMPTY, None)
            shown = Printer(TABLE, VOCABULARY).term(term)
            self.assertEqual(tree.bare(read(shown, TABLE, VOCABULARY)), tree.bare(term))
            self.assertEqual(tree.bare(read(plain(term), EMPTY, None)), tree.bare(term))

    def test_hostile_texts_end_soon(self):
        deep = "{f x | x IN " * 60 + "s" + "}" * 60
        self.assertIn("over 50 sets stand in one another here", translated("g A `%s`" % deep, TABLE, VOCABULARY).error.text)
        self.assertIn("over 8192 tokens", translated("g A `%s`" % ("x + " * 9000 + "x"), TABLE, VOCABULARY).error.text)
        self.assertIn("over 1000 digits", translated("g A `%s`" % ("1" * 5000), TABLE, VOCABULARY).error.text)
        self.assertIn("over 200000 characters", translated("g A `x%s+ 1`" % (" " * 200_000), TABLE, VOCABULARY).error.text)
        begun = time.process_time()
        for text in ("!" * 60_000, "!x:" * 20_000, "!(" * 30_000, "!" + "(x)" * 20_000 + ":", "\\" * 60_000 + ":A b."):
            self.assertFalse(translated("e X `%s`" % text, TABLE, VOCABULARY).is_changed)
        self.assertLess(time.process_time() - begun, 3.0)  # That of one text was more, where each binder was looked at with all that stands behind it.

    def test_texts_of_any_characters_are_read_or_refused(self):
        source = random.Random(11)
        pieces = ["x", "add", "o", "if", "then", "else", "let", "in", "and", " ", " ", "+", "-", "*", "(", ")", "[", "]", "{", "}", "|", ",", ";", ".", ":",
                  "!", "\\", "~", "=", "==>", "<", "1", "23", "#", "num", "list", "?", "\n", "é", "IN", "A"]
        read_well = 0
        for _ in range(4000):
            text = "".join(source.choice(pieces) for _ in range(source.randint(0, 14)))
            for command in ("g A `%s`" % text, "new_definition A `%s`" % text, "e X `:%s`" % text):
                found = translated(command, TABLE, VOCABULARY)
                read_well += found.segments is not None
                if found.error:
                    self.assertEqual(found.text, "")
                    self.assertTrue(0 <= found.error.start < found.error.end <= len(command), (command, found.error.start, found.error.end))
                    self.assertTrue(found.error.text)
        self.assertGreater(read_well, 30)


class ThereAndBack(unittest.TestCase):
    shares = "the library's files"

    def test_every_quotation_of_the_theories(self):
        changed = 0
        for file in theories():
            for number, command in enumerate(file.commands):
                if file.is_declaration(number):
                    continue
                self.assertIsNone(command.error, command.as_written.text)
                table, vocabulary = file.notation.table(number), file.notation.vocabulary_at(number - 1)
                written = in_notation(command.text, table, vocabulary)
                self.assertEqual(written.left, 0, command.text)
                found = translated(written.text, table, vocabulary)
                self.assertIsNone(found.error, written.text)
                changed += found.segments is not None
                self.assertEqual(self.bare(found.text, command.word), self.bare(command.text, command.word))
                self.assertIsNone(translated(command.text, table, vocabulary).segments, command.text)
        self.assertGreater(changed, 700)

    def test_the_theories_expanded_are_what_is_sent_of_them(self):
        for file in theories():
            text, troubles = spelling.expanded(file)
            self.assertEqual(troubles, [])
            sent_of_it = [" ".join(command.text.split()) for number, command in enumerate(file.commands) if not file.is_declaration(number)]
            self.assertEqual([" ".join(command.text.split()) for command in cut(text).commands], sent_of_it)

    def test_expand_and_write_of_all_theories_undo_each_other(self):
        with tempfile.TemporaryDirectory() as room:
            paths = [shutil.copy(str(ROOT / "theories" / (file.name + ".hol")), room) for file in theories()]
            plain = self.spelled("expand", paths)
            written = self.spelled("write", paths)
            again = self.spelled("expand", paths)
        for file in theories():
            self.assertEqual(again[file.name], plain[file.name], file.name)
        same = [file.name for file in theories() if written[file.name] == self.squeezed(file.lines.text)]
        self.assertGreater(len(same), 25)  # Others have packages, whose commands stay, or spell something as the program does.

    def spelled(self, kind, paths):
        """The commands of files that are written in another form in their place, by their theories' names."""
        self.assertEqual(spelling.main(argparse.Namespace(kind=kind, files=paths, in_place=True)), 0)
        return {pathlib.Path(path).stem: self.squeezed(pathlib.Path(path).read_text()) for path in paths}

    @staticmethod
    def squeezed(text):
        """A file's commands without white space and parentheses."""
        return [re.sub(r"[\s()]", "", command.text) for command in cut(text).commands]

    @staticmethod
    def bare(text, word):
        """A command with its quotations as trees; of a definition's, what stands behind its `=`."""
        parts = text.split("`")
        for at in range(1, len(parts) - 1, 2):
            body = parts[at].strip()
            if body.startswith(":"):
                body = "x" + body
            elif word == "new_definition":
                head, equals, body = re.split(r"(<=>|(?<![<=>])=(?![=>]))", body, 1)
                parts[at - 1] += re.sub(r"[\s()]", "", head) + equals
            parts[at] = tree.bare(read(body, EMPTY, None))
        return parts

    # The gate prints and reads a hundred thousand by the script itself (.ci/run).
    def test_random_terms(self):
        self.assertEqual(list(random_terms.differences(3_000, 1, 8)), [])

    def test_larger_random_terms(self):
        self.assertEqual(list(random_terms.differences(1_000, 2, 24)), [])

    def test_all_that_the_sessions_show(self):
        number = 0
        for path in sorted((ROOT / "tests" / "sessions").glob("*.txt")):
            for line in path.read_text().splitlines():
                if line.startswith("< {"):
                    for shown in self.terms(json.loads(line[2:])):
                        number += 1
                        term = read(shown, EMPTY, None)
                        self.assertEqual(tree.bare(read(Printer(TABLE, VOCABULARY).term(term), TABLE, VOCABULARY)), tree.bare(term), shown)
        self.assertGreater(number, 500)

    @staticmethod
    def terms(reply):
        """The terms that a reply shows."""
        for goal in reply.get("goals", ()):
            yield from goal["asl"]
            yield goal["goal"]
        for made in reply.get("made", ()):
            if made.startswith("thm "):
                yield made.split(" |- ", 1)[1]


class HolLight(unittest.TestCase):
    """HOL Light's own statements, from its sources: those whose constants the library has."""

    shares = "the library's files"

    def test_its_statements_are_read_and_printed_as_they_are_written(self):
        vocabulary = View.of_all(theories()).vocabulary
        for _, statement in STATEMENTS:
            shown = Printer(TABLE, vocabulary).term(read(statement, TABLE, vocabulary))
            self.assertEqual(re.sub(r"[\s()]", "", shown), re.sub(r"[\s()]", "", statement))

    def test_more_of_them_are_read_and_printed_with_all_that_the_library_declares(self):
        """Those of the same list with other operators, or of constants that the library hasn't, which are names as others then."""
        view = View.of_all(theories())
        for _, statement in DECLARED:
            shown = Printer(view.table, view.vocabulary).term(read(statement, view.table, view.vocabulary))
            self.assertEqual(re.sub(r"[\s()]", "", shown), re.sub(r"[\s()]", "", statement))

    @unittest.skipUnless(BUILT.is_file(), "hol_serve isn't built")
    def test_the_library_s_theorems_of_their_names_prove_them(self):
        named = {name for name, _ in STATEMENTS}
        needed = closed_under_imports({file.name for file in theories() if any(command.name in named for command in file.commands)})
        lines, steps = self.library(needed)
        place, closed = 0, {}

        def put(text):
            nonlocal place
            lines.append({"op": "insert", "theory": "statements", "at": place, "text": text})
            place += 1

        lines.append({"op": "new_theory", "name": "statements", "at": steps})
        for name in needed:
            put("import " + name)
        for number, (name, statement) in enumerate(STATEMENTS):
            put("g S%d `%s`" % (number, sent(statement)))
            lines.append({"op": "report", "theory": "statements", "at": place - 1})
            closed[len(lines) - 1] = (statement, "goals")
            if name != "-":
                put("e FIRST [ACCEPT_TAC %s; PURE_REWRITE_TAC [%s]; REPEAT GEN_TAC THEN MATCH_MP_TAC %s; REWRITE_TAC [%s]]" % ((name,) * 4))
                lines.append({"op": "report", "theory": "statements", "at": place - 1})
                closed[len(lines) - 1] = (statement, name)
            put("oops")
        replies = asking(lines)
        proved = 0
        for at, (statement, wanted) in closed.items():
            self.assertIn("goals" if wanted == "goals" else "ok", replies[at], statement)
            proved += wanted != "goals" and replies[at].get("goals") == []
        self.assertGreaterEqual(proved, 40)

    @staticmethod
    def library(names=None):
        """The lines that put the library, or some theories of it, into a server, and how many these are."""
        files, lines = [file for file in theories() if names is None or file.name in names], []
        for at, file in enumerate(files):
            lines.append({"op": "new_theory", "name": file.name, "at": at})
            texts = [entry.text for entry in file.theory.entries]
            lines += [{"op": "insert", "theory": file.name, "at": number, "text": text} for number, text in enumerate(texts)]
        return lines, len(files)


@unittest.skipUnless(BUILT.is_file(), "hol_serve isn't built")
class ShownByTheProgram(unittest.TestCase):
    shares = "the library's files"

    def test_each_goal_and_theorem_of_the_library_reads_back(self):
        lines, _ = HolLight.library()
        asked = []
        for line in lines:
            asked += [line] + ([dict(op="report", theory=line["theory"], at=line["at"])] if line["op"] == "insert" else [])
        replies = asking(asked)
        commands = {(file.name, file.slot(at)): (file, at) for file in theories() for at in range(len(file.commands))}
        number, seen = 0, set()
        for request, reply in zip(asked, replies):
            if request["op"] != "report" or "made" in reply and any(made.startswith("thm ") for made in reply["made"][1:]):
                continue  # An import's entries are those of other files.
            place = request["theory"], request["at"]
            if place not in commands:  # An `oops` that stands in no file.
                continue
            view = View.of(*commands[place])
            for shown in ThereAndBack.terms(reply):
                number += 1
                if (request["theory"], view.table, shown) in seen:  # As most of a goal's assumptions behind each step.
                    continue
                seen.add((request["theory"], view.table, shown))
                printed = view.term(shown)
                self.assertEqual(tree.bare(read(printed, view.table, view.vocabulary)), tree.bare(read(shown, EMPTY, None)), printed)
        self.assertGreater(number, 3000)


class Places(unittest.TestCase):
    def test_places_go_both_ways(self):
        text = "e X `m + n <= if p then [a; bb] else NIL` THEN Y `x:A#B` th"
        found = translated(text, TABLE, VOCABULARY)
        self.assertEqual(found.text, "e X `le (add m n) (COND p (CONS a (CONS bb NIL)) NIL)` THEN Y `x:(A,B)prod` th")
        for written, plain_text in (("+", "add"), ("<=", "le"), ("if", "COND"), ("bb", "bb"), ("m ", "m"), ("n ", "n"), ("p ", "p"), ("NIL", "NIL)`"),
                                    ("THEN", "THEN"), ("th", "th"), ("A#", "A")):
            place = text.rindex(written) if written == "th" else text.index(written)
            self.assertEqual(found.text[found.offset(place):][:len(plain_text)], plain_text, written)
            self.assertEqual(found.place(found.offset(place)), place, written)
        for at, character in enumerate(found.text):
            if character == "`":
                self.assertEqual(text[found.place(at)], "`")

    def test_ranges_come_from_what_is_written(self):
        text = "g A `m + n <= if p then x else y` THEN"
        found = translated(text, TABLE, VOCABULARY)

        def written(part):
            start = found.text.index(part)
            begin, end = found.range(start, start + len(part))
            return text[begin:end]

        self.assertEqual([written(part) for part in ("add", "le", "COND", "m", "THEN", "g A")], ["+", "<=", "if", "m", "THEN", "g A"])
        self.assertEqual(found.range(len(found.text), len(found.text)), (len(text), len(text)))


class Declaring(unittest.TestCase):
    @staticmethod
    def scope(*texts, base=NOTHING):
        for text in texts:
            base = base.declared(declarations.read(text))
        return base

    def test_reads_each_kind(self):
        table = self.scope("infixr 16 + add", "infixl  22 DIV", "type_infixr 6 # prod", "notation if COND", "notation list NIL CONS",
                           "notation set EMPTY INSERT UNIV", "notation pair pair UNCURRY", "notation let LET", "notation num _0 _1 BIT0 BIT1",
                           "notation 1 one", "sets IN 1", "sets UNION 0 1 result").table
        self.assertEqual(sent("if x DIV y + 2 IN {1} then (a,b) else let c = [] in c:1#A", table.with_operator(Operator("IN", 11, RIGHT, "IN"))),
                         "COND (IN (add (DIV x y) (BIT0 _1)) (INSERT _1 EMPTY)) (pair a b) (LET (\\c. c:(one,A)prod) NIL)")
        self.assertEqual(table.operators["DIV"], Operator("DIV", 22, LEFT, "DIV"))
        self.assertEqual(table.sets, {"IN": (1,), "UNION": (-1, 0, 1)})
        self.assertIsNone(declarations.read("g A `infixr`"))
        self.assertIsNone(declarations.read(""))

    def test_refuses_what_fits_no_form(self):
        for text, marked in (
                ("infixr", "infixr"), ("infixr 16", "16"), ("infixr 0 + add", "0"), ("infixr 100 + add", "100"), ("infixr x + add", "x"),
                ("infixr 16 + add more", "more"), ("infixr 16 +", "+"), ("infixr 16 ( f", "("), ("infixr 16 = equal", "="), ("infixr 16 =~ f", "=~"),
                ("infixr 16 if f", "if"), ("infixr 16 ; f", ";"), ("infixr 16 é f", "é"), ("type_infixr 6 # ", "#"), ("notation", "notation"),
                ("notation what x", "what"), ("notation list NIL", "NIL"), ("notation num _0 _1 BIT0", "BIT0"), ("notation if COND D", "D"),
                ("sets IN", "IN"), ("sets IN x", "x"), ("sets IN 16", "16"), ("no_notation +", "+"), ("local", "local"), ("local g A `p`", "local"),
                ("local local infixr 1 + f", "local"), ("notation if 1", "1")):
            with self.subTest(text):
                with self.assertRaises(Misread) as caught:
                    self.scope(text)
                self.assertEqual(text[caught.exception.start:caught.exception.end], marked)

    def test_one_symbol_is_one_constant(self):
        first = self.scope("infixr 16 + add", "notation if COND")
        self.assertIs(self.scope("infixr 16 + add", "notation if COND", base=first).table, first.table)
        for text in ("infixr 16 + plus", "infixl 16 + add", "infixr 16 ++ add", "notation if IF"):
            with self.assertRaises(Misread):
                self.scope(text, base=first)
        again = self.scope("no_notation +", "infixr 16 + plus", base=first)
        self.assertEqual(sent("x + y", again.table), "plus x y")

    def test_importers_have_what_is_declared_unless_it_is_local(self):
        first = self.scope("infixr 16 + add", "local infixr 20 * mult", "local infixr 12 < lt")
        self.assertEqual(sent("x + y * z", first.table), "add x (mult y z)")
        second, clashes = NOTHING.imported(first.exported)
        self.assertEqual(clashes, [])
        self.assertEqual(sent("x + y", second.table), "add x y")
        with self.assertRaises(Misread):
            sent("x * y", second.table)
        third, clashes = self.scope("infixl 18 + plus").imported(second.exported)
        self.assertEqual(len(clashes), 1)
        self.assertEqual(sent("x + y", third.table), "plus x y")
        both, clashes = second.imported(first.exported)
        self.assertEqual((both.table is second.table, clashes), (True, []))
        hidden = self.scope("local no_notation +", base=first)
        self.assertIn("+", hidden.exported.operators)
        self.assertNotIn("+", hidden.table.operators)

    def test_equal_tables_are_one(self):
        self.assertIs(self.scope("infixr 16 + add", "sets IN 1").table, self.scope("sets IN 1", "infixr 16 + add").table)
        self.assertIs(self.scope("infixr 16 + add", "no_notation +").table, EMPTY)
        with self.assertRaises(Clash):
            EMPTY.with_operator(Operator("==>", 3, RIGHT, "f"))

    def test_what_is_known_of_names_is_asked_again(self):
        text, more = "g A `!x:num f y. x < y`", Vocabulary({"num": 0, "f": 1}, {})
        self.assertIn("!(x:num) f y.", translated(text, TABLE, VOCABULARY).text)
        self.assertIs(translated(text, TABLE, VOCABULARY), translated(text, TABLE, Vocabulary({"num": 0})))
        self.assertIn("!(x:num f) y.", translated(text, TABLE, more).text)
        self.assertIn("!(x:num) f y.", translated(text, TABLE, VOCABULARY).text)
        self.assertIn("?f x.", translated("g A `{f x | f x < 1} = s`", TABLE, VOCABULARY).text)
        self.assertIn("?x.", translated("g A `{f x | f x < 1} = s`", TABLE, Vocabulary({}, {"f": 1})).text)


if __name__ == "__main__":
    unittest.main()
