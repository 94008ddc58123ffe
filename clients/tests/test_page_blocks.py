"""Every block of every page: what runs it, or compares it. A block that nothing takes fails.

A block is fenced, or indented by four behind a blank line. RUN_BY names, by pages and a block's first line, the test that runs it; the others are of
the kinds that are tried here: words of commands, what they print, commands of files, JSON, grammars, an order of theories.
"""

import argparse
import importlib
import json
import os
import pathlib
import random
import re
import shlex
import subprocess
import tempfile
import unittest
from typing import Dict, List, NamedTuple, Tuple

from holls.__main__ import KINDS
from holls.course import layout
from holls.surface import declarations
from tests import forked
from tests.grammar import Grammar
from tests.helpers import BUILT, ROOT, SECONDS
from tests.test_blocks import FENCE, PAGES

BLOCK = re.compile(r"^```(\w*[^\n]*)\n(.*?)^```$|(?<=\n\n)((?: {4,}[^\n]*\n|\n(?= {4}))+)", re.M | re.S)
RUN_BY: Dict[str, Tuple[Tuple[str, str], ...]] = {
    "README.md": (("", "tests.test_blocks.Blocks"), ),
    "docs/TUTORIAL.md": (("", "tests.test_blocks.Blocks"), ),
    "docs/PYTHON.md": (("", "tests.test_python.Examples"), ),
    "docs/PROTOCOL.md": (("> {", "tests.test_examples.Replies"), ),
    "docs/SERVE.md": (("server {", "tests.test_serve.Proxies"), ("frontend hol", "tests.test_serve.Proxies")),
    "docs/EDITORS.md": (("on: [", "tests.test_package.Recipes"), ("proofs:", "tests.test_package.Recipes"), ("repos:", "tests.test_package.Recipes")),
}
"""Of a page the beginnings of blocks, and the class of tests that runs them. (Of pages with hol, shown, python and text these kinds.)"""
KIND_OF = {"tests.test_blocks.Blocks": ("hol", "hol fails", "shown"), "tests.test_python.Examples": ("python", "text")}
COMMAND = re.compile(r"(?:\$ )?(clients/bin/holls|holls|python3|rt|apt-get|code|pip|clients/vscode/package|release/make\.py|\.ci/run|\./build)\b")
OTHERS = ("rt", "apt-get", "code", "pip")
"""Programs that aren't of this repository."""
TEMPLATE = re.compile(r"\bNAME\b|`rules`")

COMMANDS_OF = {
    ("docs/WRITING.md", "import sets;;"): "{0}\n{1}\noops;;\n",
    ("docs/PACKAGES.md", "import packages;;"): "{0}\n{1}\n",
    ("docs/PACKAGES.md", "define VALUE `(VALUE (Numb n) = n) /\\ (VALUE (Plus a b) = VALUE a + VALUE b) /\\ (VALUE (Sum l) = VALUES l) /\\"):
        "import packages;;\nimport quotients;;\ndefine_type exp = Numb num | Plus exp exp | Sum (exp list);;\n{0}\n{1}\n{2}\n",
    ("docs/PACKAGES.md", "inductive STAR `(!x. STAR R x x) /\\ (!x y z. R x y /\\ STAR R y z ==> STAR R x z)`;;"): "import packages;;\n{0}\n",
    ("docs/PACKAGES.md", "record point = Point across:num tag:A;;"): "import packages;;\n{0}\ng A `!p:A point. p = p`;;\ne REWRITE_TAC [point_ETA];;\noops;;\n",
    ("docs/PACKAGES.md", "specification HALVES half rest HALVING;;"):
        "import packages;;\ng HALVING `?h r:num. h = r`;;\ne EXISTS_TAC `0` THEN EXISTS_TAC `0` THEN REFL_TAC;;\nqed;;\n{0}\n",
    ("docs/PACKAGES.md", "e INDUCT_ON `x` THEN ..;;        e CASES_ON `t` THEN ..;;        e RULE_INDUCT STAR THEN ..;;"):
        "import packages;;\ninductive STAR `(!x. STAR R x x) /\\ (!x y z. R x y /\\ STAR R y z ==> STAR R x z)`;;\n"
        "g A `!x. x + 0 = x`;;\n{0} ALL_TAC;;\noops;;\ng B `!t:num. t = t`;;\n{1} ALL_TAC;;\noops;;\n"
        "g C `!R (x:A) y. STAR R x y ==> T`;;\n{2} ALL_TAC;;\noops;;\n",
    ("docs/PACKAGES.md", "theorems BASIC = [FORALL_SIMP; ADD_CLAUSES; SPEC `0` ADD_0];;"): "import packages;;\n{0}\ng A `!x. x + 0 <= x`;;\n{1}\nqed;;\n",
    ("docs/PACKAGES.md", "e REWRITE_TAC [GSYM ADD_ASSOC; REWRITE_RULE [ADD_CLAUSES] STEP] THEN MP_TAC (SPECL [`m:num`; `0`] (ASSUME `!x y. x <= y`));;"):
        "import packages;;\nimport naturals;;\nnew_axiom STEP `!n. P (n + SUC 0)`;;\n"
        "g A `(!x y. x <= y) ==> (m + n) + SUC 0 = m`;;\ne DISCH_TAC;;\n{0}\noops;;\n",
    ("docs/PACKAGES.md", "let two = `SUC (SUC 0)`;;"): "import packages;;\n{0}\ng A `?(a:num) b. a = a /\\ 0 <= b`;;\n{1}\nqed;;\n",
    ("docs/PACKAGES.md", "simp LENGTH_APPEND REVERSE_REVERSE;;"): "import list_laws;;\nimport packages;;\n{0}\n",
    ("docs/COURSES.md", "import week;;"): "",
    ("docs/PACKAGES.md", "g HARD `!x. f x = x`;;"): "",
}
"""Pages' commands of files, by their blocks' first lines: what stands around the block's lines, so that all is accepted. Where it is empty, the block has a
test of its own."""


OWN_WORK = r"""g MORE `!l x a. RUN x (COMPILE l) a = VALUE x l + a * x EXP LENGTH l`;;
e REWRITE_TAC [COMPILE] THEN MATCH_MP_TAC LIST_INDUCT THEN BETA_TAC THEN CONJ_TAC;;
  e REWRITE_TAC [REVERSE; RUN; VALUE; LENGTH; EXP; ADD_CLAUSES; MULT_CLAUSES; FORALL_SIMP];;
e REPEAT STRIP_TAC THEN ASM_REWRITE_TAC [REVERSE; RUN_APPEND; RUN; VALUE; LENGTH; EXP; LEFT_ADD_DISTRIB; ADD_ASSOC; MULT_ASSOC];;
e SUBST1_TAC (SPEC `a:num` (SPEC `x:num` MULT_SYM)) THEN REFL_TAC;;
qed;;
new_definition SCALED_DEF `SCALED k l = list_REC [] (\c t r. CONS (k * c) r) l`;;
g SCALED `(!k. SCALED k [] = []) /\ (!k c t. SCALED k (CONS c t) = CONS (k * c) (SCALED k t))`;;
e REWRITE_TAC [SCALED_DEF; list_REC] THEN BETA_TAC THEN REWRITE_TAC [FORALL_SIMP];;
qed;;
g VALUE_SCALED `!l k x. VALUE x (SCALED k l) = k * VALUE x l`;;
e MATCH_MP_TAC LIST_INDUCT THEN BETA_TAC THEN CONJ_TAC;;
  e REWRITE_TAC [SCALED; VALUE; MULT_CLAUSES; FORALL_SIMP];;
e REPEAT STRIP_TAC THEN ASM_REWRITE_TAC [SCALED; VALUE; LEFT_ADD_DISTRIB; MULT_ASSOC];;
e SUBST1_TAC (SPEC `k:num` (SPEC `x:num` MULT_SYM)) THEN REFL_TAC;;
qed;;
define PLUS2 `PLUS2 [] m = m /\ PLUS2 (CONS h t) [] = CONS h t /\ PLUS2 (CONS h t) (CONS k u) = CONS (h + k) (PLUS2 t u)`;;
"""
"""What the tutorial leaves to its reader, done: so the names are free, and the theorems that it names do."""


class Block(NamedTuple):
    """A block of a page: the heading that it stands under, its language where it is fenced, and its text without the margin."""

    heading: str
    kind: str
    text: str

    @property
    def first(self) -> str:
        return self.text.split("\n", 1)[0]


def pages() -> List[str]:
    """All pages, by their paths."""
    return sorted(str(path.relative_to(ROOT)) for folder in (".", "docs", "bench", "examples", "release", "tests", "theories", "tools") for path in (ROOT / folder).glob("*.md"))


def blocks(page: str) -> List[Block]:
    """The blocks of a page in their order."""
    text, found = (ROOT / page).read_text(encoding="utf-8"), []
    for one in BLOCK.finditer(text):
        headings = re.findall(r"^#+ (.*)$", text[:one.start()], re.M)
        lines = (one.group(2) or one.group(3)).rstrip("\n").split("\n")
        margin = min(len(line) - len(line.lstrip()) for line in lines if line.strip())
        found.append(Block(headings[-1], one.group(1) or "", "\n".join(line[margin:] for line in lines)))
    return found


def runner(page: str, block: Block) -> str:
    """The class of tests that runs a block, or none."""
    for beginning, named in RUN_BY.get(page, ()):
        if block.text.startswith(beginning) and (named not in KIND_OF or block.kind in KIND_OF[named]):
            return named
    return ""


def quotes_source(block: Block) -> bool:
    """Whether tools/pages.py compares a block with the file that its first line names."""
    return bool(re.fullmatch(r"(?://|--) (?:crates|tests|tools)/\S+", block.first))


def run(words, folder, **given):
    """Status and standard output of `holls` with these words, in a folder in which the repository's own stand."""
    for name in ("clients", "examples", "theories"):
        if not (folder / name).exists():
            os.symlink(ROOT / name, folder / name)
    done = forked.run(*words, cwd=folder, env=dict(os.environ, HOL_SERVE=str(BUILT)), **given)
    return done.returncode, done.stdout.decode()


class InFolder(unittest.TestCase):
    maxDiff = None

    def setUp(self):
        folder = tempfile.TemporaryDirectory()
        self.addCleanup(folder.cleanup)
        self.folder = pathlib.Path(folder.name)

    def of(self, page, beginning):
        """The block of a page that begins so."""
        found = [one for one in blocks(page) if one.text.startswith(beginning)]
        self.assertEqual(len(found), 1, "%s: %s" % (page, beginning))
        return found[0]

    def accepted(self, name, text):
        """Has a file checked: all of it is accepted."""
        (self.folder / (name + ".hol")).write_text(text)
        status, said = run(["check", "--alone", name + ".hol"], self.folder)
        self.assertEqual(status, 0, said + text)


class Each(unittest.TestCase):
    def test_each_block_is_run_or_compared_by_something(self):
        for page in pages():
            for block in blocks(page):
                taken = runner(page, block) or quotes_source(block) or COMMAND.match(block.text) or (page, block.first) in HERE
                self.assertTrue(taken, "%s, under %s: nothing runs the block %s" % (page, block.heading, block.text))
        self.assertEqual(HERE - {(page, block.first) for page in pages() for block in blocks(page)}, set())

    def test_what_runs_them_stands(self):
        for page, named in {(page, named) for page, rows in RUN_BY.items() for _, named in rows}:
            module, name = named.rsplit(".", 1)
            self.assertTrue(issubclass(getattr(importlib.import_module(module), name), unittest.TestCase))
        self.assertEqual(set(PAGES), {page for page, rows in RUN_BY.items() if rows[0][1] == "tests.test_blocks.Blocks"})
        for page in PAGES:
            found = [one for one in blocks(page) if one.kind in KIND_OF["tests.test_blocks.Blocks"]]
            self.assertEqual(len(found), len(FENCE.findall((ROOT / page).read_text(encoding="utf-8"))))


class Words(unittest.TestCase):
    """The words of commands: what they name is there, and takes them."""

    def test_each_command_is_one(self):
        lines = [line for page in pages() for block in blocks(page) for line in block.text.replace("\\\n", " ").split("\n") if COMMAND.match(line)]
        self.assertGreater(len(lines), 25)
        for line in lines:
            with self.subTest(line):
                words = shlex.split(re.split(r"\s{3,}", line[2:] if line.startswith("$ ") else line)[0])
                self.tried(words[1:] if words[0] == "python3" else words)

    def test_the_service_of_systemd(self):
        unit = next(one for one in blocks("docs/SERVE.md") if one.first == "[Unit]").text
        self.assertEqual(re.findall(r"^\[(\w+)\]$", unit, re.M), ["Unit", "Service", "Install"])
        self.assertTrue(all(re.match(r"\[\w+\]$|[A-Z]\w+=\S|$", line) for line in unit.replace("\\\n", " ").split("\n")), unit)
        words = shlex.split(re.search(r"^ExecStart=(.*)$", unit.replace("\\\n", " "), re.M).group(1))
        self.assertEqual(words[:2], ["/usr/bin/python3", "/opt/hol-serve/clients/bin/holls"])
        self.tried(words[1:])

    def tried(self, words):
        if words[0] in OTHERS:
            return
        if words[0].endswith("holls"):
            parser = argparse.ArgumentParser(prog="holls")
            importlib.import_module(KINDS[words[1]][0]).add_words(parser)
            parser.parse_args([word for word in words[2:] if word != ".."])
            return
        script = ROOT / words[0]
        self.assertTrue(script.is_file(), words)
        self.assertTrue(words[0].endswith(".py") or os.access(script, os.X_OK), words)
        for option in (word.strip("[]") for word in words if word.strip("[]").startswith("--")):
            self.assertIn('"%s"' % option, script.read_text(encoding="utf-8"), words)


@unittest.skipUnless(BUILT.is_file(), "hol_serve isn't built")
class Said(InFolder):
    """What commands print."""

    def test_commands_print_what_their_pages_show(self):
        for page, beginning in (("docs/EDITORS.md", "$ clients/bin/holls check"), ("docs/COURSES.md", "$ clients/bin/holls grade")):
            first, *wanted = self.of(page, beginning).text.split("\n")
            _, said = run(shlex.split(first)[2:], self.folder)
            self.assertEqual(said.splitlines(), wanted, page)
        self.assertTrue((self.folder / "table.csv").is_file())

    def test_the_end_of_the_tutorial(self):
        text = (ROOT / "docs" / "TUTORIAL.md").read_text(encoding="utf-8")
        end = text.index("    $ clients/bin/holls check")
        (self.folder / "first.hol").write_text("".join(body for kind, body in FENCE.findall(text[:end]) if kind == "hol"))
        first, *wanted = self.of("docs/TUTORIAL.md", "$ clients/bin/holls check").text.split("\n")
        status, said = run(shlex.split(first)[2:], self.folder)
        self.assertEqual((status, len(said.splitlines())), (0, len(wanted)), said)
        for line, shown in zip(said.splitlines(), wanted):
            self.assertRegex(line, "^%s$" % re.escape(shown).replace(r"\.\.", ".*"))

    def test_what_the_tutorial_leaves_to_the_reader(self):
        text = (ROOT / "docs" / "TUTORIAL.md").read_text(encoding="utf-8")
        for named in ("`SCALED k l`", "`!l k x. VALUE x (SCALED k l) = k * VALUE x l`", "RUN x (COMPILE l) a = VALUE x l"):
            self.assertIn(named, text)
        self.accepted("first", "".join(body for kind, body in FENCE.findall(text) if kind == "hol") + OWN_WORK)

    def test_a_proof_is_found_as_shown(self):
        page = (ROOT / "docs" / "EDITORS.md").read_text(encoding="utf-8")
        goal = re.search(r"for\n`(\(!x:A\. P x .*?)`:$", page, re.M).group(1)
        (self.folder / "demo.hol").write_text("\n" * 11 + "g A `%s`;;\n" % goal)
        words = shlex.split(self.of("docs/EDITORS.md", "$ clients/bin/holls prove").text)[2:]
        status, said = run([*words, "--seconds", "60"], self.folder)
        self.assertEqual((status, said.rstrip("\n")), (0, self.of("docs/EDITORS.md", "e STRIP_TAC").text))

    def test_the_prompt_and_a_search(self):
        first, *lines = self.of("docs/EDITORS.md", "$ clients/bin/holls repl").text.split("\n")
        status, said = run(shlex.split(first)[2:], self.folder, input="".join(line[2:] + "\n" for line in lines).encode())
        self.assertEqual(status, 0, said)
        self.assertIn("LIST_INDUCT", "".join(lines))
        self.assertEqual(run(shlex.split(self.of("docs/EDITORS.md", "$ clients/bin/holls search").text)[2:], self.folder)[0], 0)

    def test_the_first_proof_in_an_editor(self):
        goal, step = self.of("docs/EDITORS.md", "g BOTH").text.split("\n")
        self.accepted("Both", "\n".join([goal, "e GEN_TAC;;", step, "e REFL_TAC;;", "e REFL_TAC;;", "qed;;\n"]))


@unittest.skipUnless(BUILT.is_file(), "hol_serve isn't built")
class Commands(InFolder):
    """Commands of files, outside of those pages that are run as one file."""

    def test_they_are_accepted_under_what_they_need(self):
        for at, ((page, first), around) in enumerate(COMMANDS_OF.items()):
            text = self.of(page, first + "\n" if "\n" in self.of(page, first).text else first).text
            lines = [line for line in text.split("\n") if not TEMPLATE.search(line)]
            lines = [part for line in lines for part in (re.findall(r"e \w+ \S+ THEN(?= \.\.;;)", line) or [line])]
            if around:
                (self.folder / ("T%d.hol" % at)).write_text(around.format(*lines))
        status, said = run(["check", "."], self.folder)
        self.assertEqual(status, 0, said)

    def test_a_proof_that_isnt_done(self):
        for name, text in (("Hard", "import packages;;\n" + self.of("docs/PACKAGES.md", "g HARD").text),
                           ("Two", (ROOT / "examples" / "course" / "exercises" / "equations.hol").read_text(encoding="utf-8"))):
            (self.folder / (name + ".hol")).write_text(text + "\n")
        os.symlink(ROOT / "examples" / "course" / "theories" / "week.hol", self.folder / "week.hol")
        status, said = run(["check", "--alone", "Hard.hol"], self.folder)
        self.assertEqual((status, "HARD" in said), (1, True), said)
        shown = self.of("docs/COURSES.md", "import week;;").text
        self.assertEqual([line for line in shown.split("\n") if line not in (self.folder / "Two.hol").read_text().split("\n")], [])

    def test_a_script_of_hol_lights_and_ours(self):
        lines = self.of("docs/FROM_HOL_LIGHT.md", "let INVERSE_ONTO").text.split("\n")
        column = lines[0].index("g INVERSE_ONTO")
        self.accepted("Script", "import functions;;\n" + "\n".join(line[column:] for line in lines).replace("INVERSE_ONTO", "INVERSE_ONTO_AGAIN") + "\n")

    def test_declarations_are_read(self):
        found = [one.strip() for one in re.findall(r"([^;]+;?[^;]*);;", self.of("docs/WRITING.md", "infixr 16").text)]
        self.assertGreater(len(found), 12)
        for one in found:
            self.assertTrue(declarations.read(one), one)

    def test_projects_and_courses(self):
        self.assertEqual(set(json.loads(self.of("docs/EDITORS.md", "{").text)), {"folders"})
        said = json.loads(self.of("docs/COURSES.md", "{").text)
        self.assertEqual(set(said), set(re.findall(r'"(\w+)": ', layout.__doc__)))
        for line in self.of("docs/COURSES.md", "hol-course.json").text.split("\n"):
            path = line.split()[0]
            self.assertTrue(any((ROOT / "examples" / "course").glob(re.sub("NAME|STUDENT", "*", path))), path)

    def test_the_editors_folder(self):
        line = self.of("docs/EDITORS.md", "set runtimepath").text
        self.assertTrue((ROOT / line.split("~/hol-serve/")[1] / "ftplugin" / "hol.vim").is_file())


class Forms(InFolder):
    """Grammars, forms of replies, an order of theories."""

    def test_readme_shows_a_line_of_the_session(self):
        session = next(one.text for one in blocks("docs/PROTOCOL.md") if '"op":"stats"' in one.text)
        self.assertIn(self.of("README.md", "> {").text, session)

    def test_the_forms_of_replies_and_the_words_of_the_program(self):
        session = next(one.text for one in blocks("docs/PROTOCOL.md") if one.text.startswith("> {")).split("\n")
        keys = [re.findall(r'"(\w+)":', re.sub(r'\[.*\]', "", line)) for line in session if line.startswith("{")]
        for line in self.of("docs/PROTOCOL.md", '{"goals"').text.split("\n"):
            form = re.findall(r'"(\w+)":', re.sub(r"\[.*\]", "", line))
            self.assertIn(form, keys, line)
        self.assertEqual(re.findall(r'"(\w+)":', self.of("docs/PROTOCOL.md", '{"error"').text), ["error", "ok", "text"])
        if BUILT.is_file():
            words = re.findall(r"--\w+", self.of("docs/PROTOCOL.md", "hol-serve [").text)
            self.assertEqual(subprocess.run([str(BUILT), *(part for word in words for part in (word, "5"))], stdin=subprocess.DEVNULL).returncode, 0)
            ran = subprocess.run([str(BUILT)], input=b"nothing\n", capture_output=True, timeout=SECONDS)
            self.assertEqual(list(json.loads(ran.stdout)), ["error", "ok", "text"])

    def test_refused_lines_are_those_of_edits(self):
        for first, files in (("refused: FUNCTION GOAL", ROOT.glob("crates/*/must-fail/*.edit")), ("refused: hol_model", (ROOT / "tests" / "weaker").rglob("*"))):
            form = re.sub(r"[A-Z]{2,}", r"[\\w:.-]+", self.of("docs/GATE.md", first).text)
            self.assertTrue(any(re.search("^%s" % form, one.read_text(encoding="utf-8"), re.M) for one in files if one.is_file()), first)

    def test_theories_stand_in_the_order_that_is_drawn(self):
        imports = {path.stem: re.findall(r"^import (\w+);;", path.read_text(encoding="utf-8"), re.M) for path in (ROOT / "theories").glob("*.hol")}
        drawn = arrows(self.of("theories/README.md", "logic ->").text)
        self.assertEqual({name for pair in drawn for name in pair}, set(imports))
        for above, below in drawn:
            self.assertIn(above, reached(imports, below), "%s doesn't import %s" % (below, above))


def arrows(text: str) -> List[Tuple[str, str]]:
    """The pairs of a drawing: names, `->`, names; behind an arrow that begins a line, those stand that the arrow above it comes from."""
    found, sources = [], {}
    for line in text.split("\n"):
        at = 0
        for part in line.split(";"):
            names: List[str] = []
            for piece in re.finditer(r"->|[^->;]+", part):
                place = at + piece.start()
                if piece.group() == "->":
                    names = names or sources[place]
                    sources[place] = names
                elif piece.group().strip():
                    below = re.findall(r"\w+", piece.group())
                    found += [(one, other) for one in names for other in below]
                    names = below
            at += len(part) + 1
    return found


def reached(imports: Dict[str, List[str]], name: str) -> List[str]:
    """What a theory imports, by way of others too."""
    found, waiting = set(), [name]
    while waiting:
        more = [one for one in imports[waiting.pop()] if one not in found]
        found.update(more)
        waiting += more
    return sorted(found)


@unittest.skipUnless(BUILT.is_file(), "hol_serve isn't built")
class Grammars(unittest.TestCase):
    """docs/NOTATION.md's grammar: random texts of it are texts of the program's."""

    def test_what_the_grammar_makes_is_read(self):
        grammar = Grammar("\n".join(one.text for one in blocks("docs/NOTATION.md")), random.Random(1))
        texts = [grammar.text("command", 13) for _ in range(2000)]
        requests = ['{"op":"new_theory","name":"A","at":0}']
        for text in texts:
            requests += [json.dumps({"op": "insert", "theory": "A", "at": 0, "text": text}), '{"op":"report","theory":"A","at":0}', '{"op":"remove","theory":"A","at":0}']
        ran = subprocess.run([str(BUILT)], input=("\n".join(requests) + "\n").encode(), capture_output=True, timeout=SECONDS)
        replies = [json.loads(line) for line in ran.stdout.decode().splitlines()]
        for text, taken, report in zip(texts, replies[1::3], replies[2::3]):
            self.assertTrue(taken["ok"], (text, taken))
            self.assertEqual(report.get("refusal") == 1, text.startswith("new_definition") and has_one_name_twice(text), (text, report))
        self.assertGreater(len({report.get("refusal", 0) for report in replies[2::3]}), 5)


def has_one_name_twice(text: str) -> bool:
    """Whether a definition's constant and arguments have one name twice, which the page says is refused."""
    tokens, names, depth = text.split("`")[1].split(), [], 0
    for at, token in enumerate(tokens):
        if depth == 0 and token in ("=", "<=>", ":"):
            break
        if token not in "()" and (depth == 0 or depth == 1 and tokens[at - 1] == "("):
            names.append(token)
        depth += {"(": 1, ")": -1}.get(token, 0)
    return len(set(names)) < len(names)


HERE = set(COMMANDS_OF) | {
    ("README.md", '> {"op":"report","theory":"A","at":5}'), ("docs/COURSES.md", "hol-course.json          what is to be said of the course; may be left out"),
    ("docs/COURSES.md", "{"), ("docs/EDITORS.md", '{"folders": ["theories", "library/logic"]}'), ("docs/EDITORS.md", "set runtimepath^=~/hol-serve/clients/neovim"),
    ("docs/EDITORS.md", "g BOTH `!x:A. x = x /\\ (p <=> p)`;;"), ("docs/EDITORS.md", "e STRIP_TAC THEN EXISTS_TAC `a:A`;;"),
    ("docs/FROM_HOL_LIGHT.md", "let INVERSE_ONTO = prove                              g INVERSE_ONTO `!(f:A->B) h. (!y. f (h y) = y) ==> ONTO f`;;"),
    ("docs/GATE.md", "refused: FUNCTION GOAL"), ("docs/GATE.md", "refused: hol_model laws::falsity_needs_infinity derived_follows"),
    ("docs/NOTATION.md", "command := g NAME QUOTE                  open a proof of a goal"), ("docs/NOTATION.md", "QUOTE   := ` term `"),
    ("docs/NOTATION.md", "term   := t4  | t4 <=> term"), ("docs/NOTATION.md", "type  := tapp | tapp -> type"),
    ("docs/NOTATION.md", "tac  := seq | seq ORELSE tac"),
    ("docs/NOTATION.md", "thm := tha | ASSUME QUOTE | REFL QUOTE | SPEC QUOTE tha | SYM tha | CONJUNCT1 tha | CONJUNCT2 tha | MP tha tha"),
    ("docs/PROTOCOL.md", '{"goals":[{"asl":[..],"free":[..],"goal":".."}],"ok":true}'), ("docs/PROTOCOL.md", '{"error":n,"ok":false,"text":".."}'),
    ("docs/PROTOCOL.md", "hol-serve [--turns N] [--cache N]"), ("docs/SERVE.md", "[Unit]"),
    ("docs/PACKAGES.md", "define_type NAME = CONSTRUCTOR type .. | CONSTRUCTOR type .. | ..;;"),
    ("docs/WRITING.md", "infixr 16 + add;;                   infixl 22 DIV;;"), ("theories/README.md", "logic -> derived_rules"),
}
"""The pages and first lines of the other blocks, which tests of this file take."""


if __name__ == "__main__":
    unittest.main()
