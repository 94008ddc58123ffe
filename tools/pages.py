#!/usr/bin/env python3
"""Checks the pages, and makes what they say of the definitions from these.

    python3 tools/pages.py            checks; the last line is 'pages: N passed, M failed'
    python3 tools/pages.py --write    writes the lists of definitions to out/DEFINITIONS.md, each public call's contract to out/CONTRACTS.md, the lines by
                                      crate to out/LINES.md, and the counts of README.md, and then checks

The definitions that have to be believed are those that the contracts of some functions name, and what these name, and so on (tools/antt.py). They
stand in three tiers, each without what stands in those before. tools/definitions.txt has sentences for files and definitions; where it has none,
the comment at a file's head or above a definition is taken. Of the first tier the list has the definitions themselves, each behind those that it names,
and what its words of std mean, so that it can be read as one text."""

import argparse
import dataclasses
import pathlib
import re
import shutil
import subprocess
import sys
import tempfile

import antt
import contracts
import lines as counting

ROOT = pathlib.Path(__file__).resolve().parent.parent
CRATES = ROOT / "crates"
SENTENCES = ROOT / "tools" / "definitions.txt"
WEAKER = ROOT / "tests" / "weaker"
LISTS = ROOT / "out" / "DEFINITIONS.md"
LINES = ROOT / "out" / "LINES.md"
CALLS = ROOT / "out" / "CONTRACTS.md"
CONTRACTS = ROOT / "docs" / "CONTRACTS.md"
GATE = ROOT / "docs" / "GATE.md"
README = ROOT / "README.md"
WIDTH = 120
LONGEST_LINE = 160
LARGEST_README = 6_144
LARGEST_PAGES = 280 * 1024  # Of docs/ and all READMEs together.
# Where README says how many definitions have to be read, for the first tier and for all.
COUNTS = re.compile(r"(read )[\d,]+( definitions \()[\d,]+( lines\) .*?;\s+for\s+all\s+.*?)[\d,]+( \()[\d,]+( lines\))", re.S)
# Where README says how many places make a theorem, in all and in hol_kernel.
MAKERS = re.compile(r"(theorems are made in )\d+( places,\s+)\d+(\s+of\s+them\s+in\s+hol_kernel)")


@dataclasses.dataclass(frozen=True)
class Tier:
    title: str
    contracts: tuple  # of a file and a function in it
    stops: tuple = ()  # definitions that are left to later tiers, with what they name
    each_has_a_sentence: bool = False


RUN = ("hol_session/src/serving.rt", "run")
PROGRAM = ("hol_serve/src/program.rt", "program")
TIERS = (
    Tier(
        "Each theorem shown has a derivation",
        (("hol_kernel/src/thm.rt", "promise"), ("hol_print/src/term_text.rt", "show_term")),
        each_has_a_sentence=True,
    ),
    Tier("Documents, commands and what is read", (RUN, PROGRAM), stops=(("hol_combine.specs.Runs", "run"),)),
    Tier("What expressions of TACs do to a goal", (RUN, PROGRAM)),
)
# Of the first tier what laws say all of that the rest takes from there: files, and definitions of a file.
DECIDED = (
    "hol_types/Code.antt",
    "hol_types/Order.antt type_cmp",
    "hol_types/Order.antt types_cmp",
    "hol_types/Equal.antt",
    "hol_types/Match.antt",
    "hol_terms/Code.antt",
    "hol_subst/AlphaOrder.antt",
    "hol_subst/CodeOrder.antt",
    *(f"hol_kernel/Item.antt {name}" for name in ("ItemParts", "item_to", "item_from", "item_back", "item_code")),
    *(f"hol_kernel/Items.antt {name}" for name in ("item_cmp", "in_order_of", "in_order")),
)
DECIDED_TITLE = "Codes, orders and tests, said by laws"
OF_DECIDED = """Nobody has to believe these: laws say all that is taken from them above. `orders_are_total` (crates/hol_model/src/definitions.rt): the orders are total
and tie only what is equal, so that finite sets by them are sets as one means it; the tests of equality decide it; and `in_order` lists what a set holds.
`instances_are_substitutions` (crates/hol_formulas/src/prelude.rt): a type is an instance of another exactly where some substitution for its type variables gives
it. They aren't counted among the tier's lines."""
LARGEST_FIRST_TIER = 600
STD = "std"  # Begins the keys of sentences for words of std.
OF_WORDS = """Each definition stands behind those that it names, but for the last section, with its text as it stands in the file. Where it is said that a law holds it, that
law isn't proved any more with each edit in parentheses, which makes it weaker; what holds the others, and what no law does, says
[DEFINITIONS](../docs/DEFINITIONS.md#what-no-law-holds). How a definition is read is in [READING_CONTRACTS](../docs/READING_CONTRACTS.md); a fact is the type of what shows it, and holds where that type has a value: a value of `Derives` is a
derivation. Words of the toolchain's std:"""


def edits_by_line(folder):
    """Of each place in a file of definitions the edits of tests/weaker.py that change it, each with the law that is lost."""
    found = {}
    for path in sorted(folder.glob("*.edit")):
        text = path.read_text(encoding="utf-8")
        law = re.search(r"(?m)^refused: \S+ (?:\S+::)?(\S+)", text)
        for file, old in re.findall(r"(?m)^file: (.*)\nold: (.*)$", text):
            before, stands, _ = (ROOT / file).read_text(encoding="utf-8").partition(old)
            if law and stands:
                found.setdefault((file, before.count("\n") + 1), []).append((path.stem, law.group(1)))
    return found


class Sentences:
    """What tools/definitions.txt says: of 'CRATE/FILE', of 'CRATE/FILE NAME', and of 'std NAME, NAME', words of std that the first tier has."""

    def __init__(self, text):
        self.of, key, file = {}, "", ""
        for number, line in enumerate(text.splitlines(), 1):
            if line.startswith("    "):
                self.of[key] += " " + line.strip()
            elif line.strip() and not line.startswith("#"):
                name, colon, sentence = line.strip().partition(": ")
                if not colon:
                    raise antt.Unread(f"tools/definitions.txt, line {number}")
                file = file if line.startswith("  ") else name
                key = f"{file} {name}" if line.startswith("  ") else name
                if key in self.of:
                    raise antt.Unread(f"tools/definitions.txt, line {number}: {key} again")
                self.of[key] = sentence


# ---- text


def escaped(text):
    """A comment as Markdown that reads as it stands, but for what is between backquotes."""
    parts = text.split("`")
    return "`".join(part if i % 2 else re.sub(r"([\\*<\[\]])", r"\\\1", part) for i, part in enumerate(parts))


def words_of(text):
    """The words of a text, a code span of up to 60 bytes being one, and what would begin a list or a heading going with the word before."""
    found, rest = [], text
    while rest := rest.lstrip():
        match = re.match(r"(?:`[^`]{1,60}`|[^\s`]|`[^`]*$|`(?=[^`]{61,}`))+", rest)
        word, rest = match.group(0), rest[match.end() :]
        if found and re.match(r"([-+*>|]|#{1,6}$|\d+[.)]$|=+$)", word):
            found[-1] += " " + word
        else:
            found.append(word)
    return found


def filled(text, first="", further=""):
    lines, line = [], first
    for i, word in enumerate(words_of(text)):
        if i and len(line) + 1 + len(word) > WIDTH:
            lines.append(line)
            line = further + word
        else:
            line += (" " if i else "") + word
    return [*lines, line]


def count(number, word):
    return f"{number:,} {word}" + ("" if number == 1 else "s")


def word_of(path):
    """The word of std, or of a type that is declared in Rust, at a path; of a type's variants the type."""
    parts = path.split(".")
    return parts[parts.index("TheVariants") - 1] if "TheVariants" in parts else parts[-1]


def as_sentence(text):
    return text if text.endswith((".", ":")) else (text or "(no sentence)") + "."


# ---- the definitions


class Definitions:
    def __init__(self):
        self.library = antt.Library(CRATES)
        self.sentences = Sentences(SENTENCES.read_text(encoding="utf-8"))
        names = [line.split("#")[0].split(":")[0].split() for line in (ROOT / "crates.txt").read_text().splitlines()]
        self.crates = [words[0] for words in names if words]
        self.tiers, self.roots, self.foreign, before = [], [], set(), set()
        for tier in TIERS:
            roots = set().union(*(self.library.named_by_contract(CRATES / file, function) for file, function in tier.contracts))
            stops = frozenset(self.library.modules[module].definitions[name] for module, name in tier.stops)
            found, foreign = self.library.reached(roots, stops)
            self.roots.append(roots)
            self.tiers.append(found - before)
            self.foreign |= foreign
            before |= found
        self.all = before
        self.decided = {d for d in self.tiers[0] if d.key in DECIDED or d.key.split(" ")[0] in DECIDED}
        self.edits = edits_by_line(WEAKER)

    def counted(self, number):
        """What counts as a tier's."""
        return self.tiers[number] - self.decided

    def counts(self, definitions):
        lines = sum(len(d.lines) for d in definitions)
        return len(definitions), lines, len({d.module for d in definitions}), len({d.crate for d in definitions})

    def faults(self):
        """Definitions and files without a sentence, and sentences for what isn't reached."""
        known = {d.key for d in self.all} | {d.key.split(" ")[0] for d in self.all}
        for key in self.sentences.of:
            if key not in known and key.split(" ")[0] != STD:
                yield f"tools/definitions.txt has a sentence for {key}, which isn't reached"
        yield from self.faults_of_words()
        yield from self.faults_of_order()
        for key in DECIDED:
            if not any(key in (d.key, d.key.split(" ")[0]) for d in self.decided):
                yield f"the first tier hasn't {key}, which laws are to decide"
        if self.counts(self.counted(0))[1] > LARGEST_FIRST_TIER:
            yield f"the first tier has more than {LARGEST_FIRST_TIER} lines"
        for tier, definitions in zip(TIERS, self.tiers):
            for d in sorted(definitions, key=lambda d: d.key):
                if not self.of_file(d.module):
                    yield f"{d.key}: the file has no sentence"
                if tier.each_has_a_sentence and not self.of_definition(d):
                    yield f"{d.key} has no sentence, neither a comment in its file nor a line of tools/definitions.txt"

    def first_tier(self):
        """What counts as the first tier's, in the order of the page."""
        return [d for crate, inside in self.by_crate(self.counted(0)) for _, found in self.files(inside, crate) for d in found]

    def faults_of_words(self):
        """Words of std in the first tier without a sentence, and sentences for others."""
        met = {word_of(path) for d in self.counted(0) for path in self.library.named_by(d)[1]}
        told = [name for key in self.sentences.of if key.startswith(STD + " ") for name in key[len(STD) + 1 :].split(", ")]
        for name in sorted(met ^ set(told)):
            yield f"the word {name} of std stands in the first tier, and tools/definitions.txt doesn't say what it means" if name in met else f"{name} doesn't stand in the first tier"

    def faults_of_order(self):
        """Definitions of the first tier that stand before one that they name, and that doesn't name them."""
        listed = self.first_tier()
        place = {d: number for number, d in enumerate(listed)}
        for d in listed:
            for other in self.library.named_by(d)[0]:
                if place.get(other, -1) > place[d] and d not in self.library.reached({other})[0]:
                    yield f"{d.key} stands before {other.key}, which it names"

    def text_of(self, definition):
        """A definition's lines as they stand in its file, with the comments in between."""
        lines = (CRATES / definition.crate / "specs" / definition.file).read_text(encoding="utf-8").splitlines()
        first, last = min(definition.lines), max(definition.lines)
        inside = [lines[n - 1] for n in range(first, last + 1) if n in definition.lines or lines[n - 1].lstrip().startswith("--")]
        indent = len(inside[0]) - len(inside[0].lstrip())
        return [line[indent:] for line in inside]

    def weaker(self, definition):
        """What tests/weaker.py does to a definition, and the laws that are lost then."""
        file = f"crates/{definition.crate}/specs/{definition.file}"
        found = {}
        for edit, law in sorted({edit for line in definition.lines for edit in self.edits.get((file, line), ())}):
            found.setdefault(law, []).append(f"`{edit}`")
        return ["Held by " + "; by ".join(f"`{law}` ({', '.join(edits)})" for law, edits in found.items()) + "."] if found else []

    def of_file(self, module):
        crate, _, path = module.split(".", 2)
        head = self.library.modules[module].head.split("\n\n")[0]
        return self.sentences.of.get(f"{crate}/{path.replace('.', '/')}.antt") or escaped(head)

    def of_definition(self, definition):
        return self.sentences.of.get(definition.key) or escaped(definition.comment)

    def files(self, definitions, crate):
        """The modules of a crate, each after those that its definitions name, with these definitions of each."""
        listed = [m for m in self.library.modules if m.startswith(f"{crate}.specs.")]
        order, met = [], set()

        def visit(module):
            if module not in met:
                met.add(module)
                named = set().union(set(), *(self.library.named_by(d)[0] for d in self.library.modules[module].definitions.values() if d in self.all))
                for other in sorted({d.module for d in named if d.crate == crate}):
                    visit(other)
                order.append(module)

        for module in listed:
            visit(module)
        for module in order:
            inside = [d for d in self.library.modules[module].definitions.values() if d in definitions]
            if inside:
                yield module, inside

    # ---- the page

    def page(self):
        lines = []
        for number, tier in enumerate(TIERS):
            lines += ["", f"## {number + 1}. {tier.title}", ""]
            lines += filled(self.of_tier(number, tier))
            lines += ["", *filled(OF_WORDS), "", *self.of_words()] if tier.each_has_a_sentence else []
            before = {d.module for d in set().union(set(), *self.tiers[:number])}
            for crate, inside in self.by_crate(self.counted(number)):
                lines += ["", f"### {crate}, {self.size(inside)}", ""]
                for module, found in self.files(inside, crate):
                    lines += self.of_module(tier, module, found, module in before, tier.each_has_a_sentence)
            lines += self.of_decided(tier) if number == 0 else []
        return [*lines, *self.of_foreign(), *self.of_the_rest()]

    def by_crate(self, definitions):
        return [(c, inside) for c in self.crates if (inside := {d for d in definitions if d.crate == c})]

    def size(self, definitions):
        number, lines, *_ = self.counts(definitions)
        return f"{count(number, 'definition')}, {count(lines, 'line')}"

    def of_decided(self, tier):
        lines = ["", f"### {DECIDED_TITLE}, {self.size(self.decided)}", "", *filled(OF_DECIDED), ""]
        for crate, inside in self.by_crate(self.decided):
            for module, found in self.files(inside, crate):
                lines += self.of_module(tier, module, found, False)
        return lines

    def of_tier(self, number, tier):
        definitions, lines, files, crates = self.counts(self.counted(number))
        text = f"{count(definitions, 'definition')}, {count(lines, 'line')}, in {count(files, 'file')} of {count(crates, 'crate')}"
        begins = []
        for file, function in tier.contracts:
            names = sorted(d.name for d in self.library.named_by_contract(CRATES / file, function))
            begins.append(f"`{function}` (crates/{file}): " + ", ".join(f"`{name}`" for name in names))
        if number == len(TIERS) - 1:
            return text + ". Reached by way of `run` of hol_combine alone, which says what an expression does to a goal."
        return text + ". The contracts that they begin at, with the words of these: " + "; ".join(begins) + "."

    def of_words(self):
        """What the words of std mean that stand in the first tier."""
        lines = []
        for key, sentence in self.sentences.of.items():
            if key.startswith(STD + " "):
                names = ", ".join(f"`{name}`" for name in key[len(STD) + 1 :].split(", "))
                lines += filled(f"{names}: {as_sentence(sentence)}", "- ", "  ")
        used = set().union(*(self.library.named_by(d)[0] for d in self.counted(0))) & self.decided
        told = "; ".join(f"`{d.name}`, {self.of_definition(d)}" for d in sorted(used, key=lambda d: d.name.lower()))
        return [*lines, *filled(f"Of the last section: {told}.", "- ", "  ")]

    def of_module(self, tier, module, definitions, again, in_full=False):
        crate, _, path = module.split(".", 2)
        file = path.replace(".", "/") + ".antt"
        link = f"[{file}](../crates/{crate}/specs/{file})"
        if tier.each_has_a_sentence:
            lines = [*filled(f"**{link}.** {as_sentence(self.of_file(module))}"), ""]
            for d in definitions:
                cases = [c for c, types in self.library.modules[module].constructors.items() if d in types]
                of_cases = f" ({', '.join(f'`{c}`' for c in cases)})" if cases else ""
                sentence = f"`{d.name}`{of_cases}: {as_sentence(self.of_definition(d))}"
                lines += filled(sentence, *(() if in_full else ("- ", "  ")))
                lines += ["", "```antt", *self.text_of(d), "```", "", *(line for text in self.weaker(d) for line in filled(text)), ""] if in_full else []
            return [*lines, ""]
        words = ", ".join(f"`{d.name}`" for d in definitions)
        text = f"More of {link}. Words: {words}." if again else f"**{link}.** {as_sentence(self.of_file(module))} Words: {words}."
        return [*filled(text), ""]

    def of_foreign(self):
        """The words that these definitions use, and that this page doesn't count."""
        types, kit = {}, {}
        for path in self.foreign:
            crate, *parts = path.split(".")
            if crate in self.crates:
                parts = parts[parts.index("declared") + 1 :]
                at = next((i for i, p in enumerate(parts) if p in ("TheVariants", "TheConstants")), len(parts) - 1)
                name = parts[at + 1] if parts[at] == "TheConstants" else parts[at - 1 if parts[at] == "TheVariants" else at]
                modules = parts[: at if parts[at] == "TheConstants" else at - 1]
                types.setdefault(crate, set()).add((name, "/".join(modules) + ".rt"))
            else:
                kit.setdefault(crate, set()).add(parts[-1])
        number = len({name for names in kit.values() for name in names})
        lines = ["", "## Words that aren't counted", ""]
        lines += filled(
            f"{count(sum(map(len, types.values())), 'type')} and constants that are declared in Rust, each with its variants or its value, "
            f"and {count(number, 'word')} of the kit's crates."
        )
        lines.append("")
        for crate in [c for c in self.crates if c in types]:
            lines += filled(f"{crate}, in src/: " + ", ".join(f"`{name}` ({file})" for name, file in sorted(types[crate])) + ".", "- ", "  ")
        for crate in sorted(kit):
            lines += filled(f"{crate}: " + ", ".join(f"`{name}`" for name in sorted(kit[crate])) + ".", "- ", "  ")
        return lines

    def of_the_rest(self):
        others = {d for m in self.library.modules.values() for d in m.definitions.values()} - self.all
        definitions, lines, files, crates = self.counts(others)
        text = f"{count(definitions, 'definition')}, {count(lines, 'line')}, in {count(files, 'file')} of {count(crates, 'crate')}, that the contracts above don't reach:"
        return ["", "## What else is in specs/", "", *filled(text)]

    def numbers(self):
        """Of the first tier and of all, how many definitions and lines there are."""
        return [f"{n:,}" for found in (self.counted(0), self.all) for n in self.counts(found)[:2]]


def with_title(lines):
    """The page of the lists."""
    return "# The definitions, by tiers\n\nMade by tools/pages.py; [what they are](../docs/DEFINITIONS.md).\n\n" + "\n".join(lines) + "\n"


def squeezed(lines):
    """Without blank lines at the ends, or two together."""
    found = []
    for line in lines:
        if line or found and found[-1]:
            found.append(line)
    return found[: -1 if found and not found[-1] else None]


def with_counts(text, numbers):
    """The README with the numbers of definitions and of their lines."""
    text, found = COUNTS.subn(lambda match: "".join(part for pair in zip(match.groups(), [*numbers, ""]) for part in pair), text)
    if found != 1:
        raise antt.Unread("README.md doesn't say, or says twice, how many definitions have to be read")
    return text


def codes():
    """Each crate's code, without comments."""
    files = {crate.name: sorted(crate.glob("src/**/*.rt")) for crate in CRATES.iterdir()}
    return {crate: "".join(re.sub(r"//[^\n]*", "", path.read_text(encoding="utf-8")) for path in paths) for crate, paths in files.items()}


def with_makers(text):
    """The README with the number of calls of `Thm::closed`, by which alone a theorem is made that is no copy."""
    calls = {crate: code.count("Thm::closed(") for crate, code in codes().items()}
    text, found = MAKERS.subn(rf"\g<1>{sum(calls.values())}\g<2>{calls['hol_kernel']}\g<3>", text)
    if found != 1:
        raise antt.Unread("README.md doesn't say, or says twice, in how many places theorems are made")
    return text


# ---- checks of pages


def prose(text):
    """The lines outside of tables and code, with their numbers; code is fenced, or indented by four after a blank line and outside a list."""
    fenced, listed, code, blank = False, False, False, True
    for number, line in enumerate(text.split("\n"), 1):
        if line.lstrip().startswith("```"):
            fenced = not fenced
        elif not fenced:
            indented = line.startswith("    ") and not listed
            code = indented and (blank or code) or code and not line.strip()
            if not code and not line.lstrip().startswith("|"):
                yield number, line
        if re.match(r"\s*([-*+]|\d+[.)]) ", line):
            listed = True
        elif line.strip() and not line.startswith(" "):
            listed = False
        blank = not line.strip()


def long_lines(page, text):
    for number, line in prose(text):
        if len(line) > LONGEST_LINE:
            yield f"line {number} has {len(line)} characters"


def slugs(text):
    """The anchors of a page's headings, as GitHub makes them."""
    for _, line in prose(text):
        if match := re.match(r"#+ (.*)", line):
            heading = re.sub(r"\[([^]]*)\]\([^)]*\)", r"\1", match.group(1)).lower()
            yield re.sub(r"[^\w\- ]", "", heading).strip().replace(" ", "-")


def broken_links(page, text):
    for target in re.findall(r"\]\(([^)\s]+)\)", text):
        if re.match(r"[a-z]+:", target):
            continue
        file, _, anchor = target.partition("#")
        path = (page.parent / file).resolve() if file else page
        if not path.exists():
            yield f"there is no {target}"
        elif anchor and path.suffix == ".md" and anchor not in slugs(path.read_text(encoding="utf-8")):
            yield f"there is no heading {target}"


def missing_paths(page, text):
    """Paths from the top of the repository, or from crates/ to a crate's files; NAME and * stand for any name. What is built has `out` in its path."""
    paths = re.findall(r"(?<![\w/.-])((?:crates|docs|tests|tools|bench|examples|clients|release)/[\w./*+-]*)", text)
    paths += [f"crates/{path}" for path in re.findall(r"(?<![\w/.-])(hol_\w+/(?:src|specs|proofs)/[\w./*]*)", text)]
    for path in paths:
        path = path.rstrip(".-")
        if "/out/" not in path + "/" and not any(ROOT.glob(re.sub(r"\bNAME\b", "*", path.rstrip("/")))):
            yield f"there is no {path}"


def stale_quotes(page, text):
    """Fenced code that begins with a comment that is a file's path: its other lines stand in that file, in this order."""
    for block in re.findall(r"^```\w+\n(.*?)^```", text, re.M | re.S):
        first, *quoted = block.splitlines()
        if match := re.fullmatch(r"(?://|--) ((?:crates|tests|tools)/\S+)", first):
            lines = iter((ROOT / match.group(1)).read_text(encoding="utf-8").splitlines() if (ROOT / match.group(1)).is_file() else ())
            for line in quoted:
                if line not in lines:
                    yield f"{match.group(1)} has no such line, or not there: {line}"
                    break


def missing_edits(text):
    """Wrong bodies that docs/GATE.md names in its table, by crate, and that aren't there."""
    rows = re.findall(r"^\| (hol_\w+) \| (`.*`) \|$", text, re.M)
    if not rows:
        yield "it has no table of wrong bodies"
    for crate, names in rows:
        for name in re.findall(r"`(\w+)`", names):
            if not (CRATES / crate / "must-fail" / f"{name}.edit").is_file():
                yield f"{crate} has no wrong body {name}"


def unknown_words(text):
    """Names of calls, laws, definitions and tests on docs/CONTRACTS.md that neither a crate nor a test has; `mk_` stands for all names that begin so."""
    sources = [path for folder in ("src", "specs") for path in CRATES.glob(f"*/{folder}/**/*") if path.suffix in (".rt", ".antt")]
    sources += (ROOT / "tests").glob("*.py")
    known = set(re.findall(r"\w+", " ".join(path.read_text(encoding="utf-8") for path in sources)))
    for name in sorted(set(re.findall(r"`([A-Za-z_][\w:]*)`", text))):
        if not name.endswith("_") and not set(re.findall(r"\w+", name)) <= known:
            yield f"nothing has the name {name}"


# What the reader has to tell apart: a file of definitions, and what each of them names. Another file, `Other.antt`, has `a`, `b` and `data c`, whose
# case is `d`, and `data e`, whose case is `b2`.
READER = (
    ("use Rattle.x.specs.Other.{a, b}\npub f : a\nf = λ b. b", "f: a"),  # bound by λ
    ("use Rattle.x.specs.Other.{a, b, c}\npub f : (a : c) → a\nf = b", "f: b c"),  # by a telescope
    ("use Rattle.x.specs.Other.{a, b}\npub f : (x : a) × (b x)\nf = (λ a. a, a)", "f: a b"),  # up to a comma
    ("use Rattle.x.specs.Other.{a, c, d}\npub f : c → c\nf d = a\nf a = a", "f: a c"),  # by a pattern, but a case isn't
    ("use Rattle.x.specs.Other.{a, b, c}\npub f : c\nf = let a : c = b in a", "f: b c"),  # by let
    ("use Rattle.x.specs.Other.{a, b, c}\npub record r : Type 0 where\n  pub a : c\n  pub z : a", "r: c"),  # by a field before
    ("use Rattle.x.specs.Other.{a, b, c}\npub f : c\nf = record { a = b; c = b }", "f: b c"),  # a field's label is no name
    ("use Rattle.x.specs.Other.{a, b as z}\npub f : a\nf = z.a", "f: a b"),  # nor what stands behind a dot
    ("use Rattle.x.specs.Other as o\npub f : o.c\nf = o.e.b2", "f: c e"),  # a module's words, and a case behind its type
    ("use Rattle.x.specs.Passed.{a2}\npub f : a2\nf = a2 -- b", "f: a"),  # what another file passes on; comments
    ("use Rattle.x.specs.Other.{a, b, c}\nmodule _ (b : c) where\n  pub f : a\n  f = b", "f: a c"),  # by a section, which each of it has
    ("use Rattle.x.specs.Other.{a, b}\nabbrev mutual\n  pub f : a\n  f = g\n\n  pub g : b\n  g = f", "f: a g; g: b f"),
    ("use Rattle.x.specs.Other.{a, c, d}\npub f : c → a\nf x = elim x as (λ _. a) [ d ↦ a | a ↦ a ]", "f: a c"),
)


def reader_faults():
    """Where the reader names other words than READER says."""
    other = "pub a : Type 0\na = ⊥\npub b : Type 0\nb = ⊥\npub data c : Type 0 where\n  d : c\npub data e : Type 0 where\n  b2 : e\n"
    for text, want in READER:
        with tempfile.TemporaryDirectory() as folder:
            specs = pathlib.Path(folder) / "x" / "specs"
            specs.mkdir(parents=True)
            for name, content in (("Lib", ""), ("Other", other), ("Passed", "pub use Rattle.x.specs.Other.{a as a2}\n"), ("File", text + "\n")):
                (specs / f"{name}.antt").write_text(content, encoding="utf-8")
            library = antt.Library(pathlib.Path(folder))
            definitions = library.modules["x.specs.File"].definitions.values()
            got = "; ".join(f"{d.name}: {' '.join(sorted(n.name for n in library.named_by(d)[0]))}" for d in definitions)
        if got != want:
            yield f"{text!r} gives {got}, and not {want}"


def check(name, faults):
    found = list(faults)
    for fault in found:
        print(f"FAILED {name}: {fault}")
    return not found


def definitions_checks(write):
    """The checks of the lists and the counts, after these are written, if they are to be."""
    made = Definitions()
    readme = with_makers(with_counts(README.read_text(encoding="utf-8"), made.numbers()))
    yield check("sentences", made.faults())
    lists = with_title(squeezed(made.page()))
    yield check(str(LISTS.relative_to(ROOT)), broken_links(LISTS, lists))
    if write:
        LISTS.parent.mkdir(exist_ok=True)
        LISTS.write_text(lists, encoding="utf-8")
        LINES.write_text("\n".join(["# Lines by crate", "", *counting.table()]) + "\n", encoding="utf-8")
        CALLS.write_text(contracts.page(CRATES, made.crates), encoding="utf-8")
        README.write_text(readme, encoding="utf-8")
    stale = [] if readme == README.read_text(encoding="utf-8") else ["it isn't what the files make it: python3 tools/pages.py --write"]
    yield check("README.md, counts", stale)
    yield check("wrong bodies", counting.misfits())


def kit_faults():
    """Where the README names another toolchain than the one that is here; there may be none."""
    if shutil.which("rt"):
        kit, logic = subprocess.run(["rt", "version"], capture_output=True, text=True, check=True).stdout.strip().split(maxsplit=1)
        text = README.read_text(encoding="utf-8")
        for name in (kit, logic):
            if f"`{name}`" not in text:
                yield f"the toolchain is `{name}`, which isn't the one that README.md names"


def page_checks():
    pages = sorted(p for folder in (".", "docs", "bench", "examples", "release", "tests", "theories", "tools") for p in (ROOT / folder).glob("*.md"))
    for page in pages:
        text = page.read_text(encoding="utf-8")
        for name, faults in (("lines", long_lines), ("links", broken_links), ("paths", missing_paths), ("quotes", stale_quotes)):
            yield check(f"{page.relative_to(ROOT)}, {name}", faults(page, text))
    yield check("docs/GATE.md, wrong bodies", missing_edits(GATE.read_text(encoding="utf-8")))
    yield check("docs/CONTRACTS.md, names", unknown_words(CONTRACTS.read_text(encoding="utf-8")))
    size = README.stat().st_size
    yield check("README.md, toolchain", kit_faults())
    unsafe = {crate: found for crate, code in codes().items() if (found := len(re.findall(r"\bunsafe\b", code)))}
    yield check("README.md, the one `unsafe`", [] if unsafe == {"hol_mark": 1} else [f"the word stands in {unsafe}"])
    yield check("README.md, size", [f"{size} bytes, and at most {LARGEST_README}"] if size > LARGEST_README else [])
    whole = sum(page.stat().st_size for page in pages if page.name == "README.md" or page.parent.name == "docs")
    yield check("docs/ and READMEs, size", [f"{whole} bytes, and at most {LARGEST_PAGES}"] if whole > LARGEST_PAGES else [])


def main():
    parser = argparse.ArgumentParser(description=__doc__.split("\n")[0])
    parser.add_argument("--write", action="store_true", help="write the lists and the counts")
    write = parser.parse_args().write
    results = []
    try:
        results.append(check("reader", reader_faults()))
        results += definitions_checks(write)
    except antt.Unread as error:
        results.append(check("definitions", [error]))
    results += page_checks()
    print(f"pages: {sum(results)} passed, {len(results) - sum(results)} failed")
    return 0 if all(results) else 1


if __name__ == "__main__":
    sys.exit(main())
