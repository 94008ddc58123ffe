"""What stands in files of definitions and lemmas, by pieces: a definition or a lemma with its clauses, a type with its cases, a block over parameters as a whole.

Of each piece this tells which others it speaks of, by the words in it: a word that could be the name of a piece counts as one. So a piece may seem to speak of
more than it does, and never of less; and who takes a piece away with all that seems to speak of it leaves nothing behind that does."""

import collections
import dataclasses
import functools
import re
from typing import Dict, Iterator, List, Optional, Set, Tuple

MARKS = {"pub", "abbrev", "unfoldable", "pattern", "mutual", "data", "record", "module", "ruleset"}
KINDS = ("module", "mutual", "data", "record")
BLOCKS = ("module", "mutual")
WORD = re.compile(r"[^\s(){}\[\],;.]+")
# A line that takes names from a module, in definitions and lemmas and in code, with its names or its other name.
USE = re.compile(r"^((?:ghost |pub )*use )(Rattle(?:\.\w+)+?)(?:\.\{(.*)\}|( as \S+))?(;?)$")
INNER = re.compile(r"^ +((?:[^\s:(){}]+ )+): ")
# Words by which a proof looks for what fits: it may find each name that its file takes.
SEARCHES = {"search", "grind", "simp"}


def words_of(text: str) -> Set[str]:
    return set(WORD.findall(text))


def is_named(name: str, words: Set[str]) -> bool:
    """Whether one of the words may be the name, or a part of it where it is an operator."""
    return not WORD.fullmatch(name) or name in words or any(part in words for part in name.split("◌") if part and part != name)


@dataclasses.dataclass
class Use:
    """A line that takes names from a module: each with the name under which it is taken; none where the module itself gets another name."""

    begin: str
    path: str
    names: Optional[List[Tuple[str, str]]]
    rest: str
    end: str

    @classmethod
    def of(cls, line: str) -> "Optional[Use]":
        found = USE.match(line)
        if not found:
            return None
        pairs = [part.partition(" as ") for part in (found[3] or "").split(", ") if part]
        names = [(name, other or name) for name, _, other in pairs] if found[3] is not None else None
        return cls(found[1], found[2], names, found[4] or "", found[5])

    def line(self, path: str, names: List[Tuple[str, str]]) -> str:
        """The line that takes these names from another place."""
        return f"{self.begin}{path}.{{{', '.join(name if name == other else f'{name} as {other}' for name, other in names)}}}{self.end}"


@dataclasses.dataclass
class Piece:
    """A piece of a file: the names that it declares, those of them that other files may take, its lines, and the words in them."""

    names: Set[str] = dataclasses.field(default_factory=set)
    public: Set[str] = dataclasses.field(default_factory=set)
    lines: List[str] = dataclasses.field(default_factory=list)
    words: Set[str] = dataclasses.field(default_factory=set)
    kind: str = ""
    cases: bool = False
    blocks: List[int] = dataclasses.field(default_factory=lambda: [0])

    def begin(self, line: str) -> None:
        marks = [word for word in line.partition(":")[0].split() if word in MARKS]
        name = next((word for word in line.split() if word not in MARKS), "")
        self.kind = next((mark for mark in KINDS if mark in marks), "")
        if self.kind not in BLOCKS:
            self.names.add(name)
            self.public |= {name} if "pub" in marks else set()

    def declares(self, line: str) -> bool:
        """Whether a line within a block is one of its own declarations, and none of a lemma in it."""
        depth = len(line) - len(line.lstrip())
        while depth <= self.blocks[-1] and len(self.blocks) > 1:
            self.blocks.pop()
        is_own = depth == self.blocks[-1] + 2
        if line.split()[-1] == "mutual" or line.lstrip().startswith("module "):
            self.blocks.append(depth)
        return is_own

    def go_on(self, line: str) -> None:
        before = line.partition(":")[0].split()
        own = INNER.match(line + " ")
        names = set(own[1].split()) - MARKS if own else set()
        if self.kind in BLOCKS and self.declares(line):
            names |= set([word for word in before if word not in MARKS][:1])
            self.names |= names
            self.public |= names if "pub" in before else set()
            self.cases = "data" in before
        elif self.kind == "data" or self.kind in BLOCKS and self.cases:
            # (a case is taken by its name where its type may be)
            self.names |= names
            self.public |= names if self.public else set()

    def add(self, line: str) -> None:
        if self.lines:
            self.go_on(line)
        else:
            self.begin(line)
        self.lines.append(line)
        self.words |= words_of(line)


class File:
    """A file's lines that take names, and its pieces by their keys, in order."""

    def __init__(self, text: str):
        self.heads: List[str] = []
        self.pieces: Dict[str, Piece] = {}
        key = ""
        for number, line in enumerate(text.split("\n")):
            if not line.strip() or line.lstrip().startswith("--"):
                continue
            if line.startswith(("use ", "pub use ", "ghost use ")):
                self.heads.append(line)
                continue
            if line[0] != " " and not line.startswith("unfolding "):
                name = next((word for word in line.split() if word not in MARKS), "")
                key = f"block {number}" if line.split()[-1] == "mutual" or line.startswith("module ") else name
            self.pieces.setdefault(key, Piece()).add(line)

    @functools.lru_cache(maxsize=None)
    def uses(self) -> List[Tuple[str, Optional[Use]]]:
        return [(line, Use.of(line)) for line in self.heads]

    @functools.lru_cache(maxsize=None)
    def handed_on(self) -> "Dict[str, Tuple[Use, str]]":
        """The names that the file hands on from others, each with the line and the name there."""
        return {other: (use, name) for line, use in self.uses() if use and line.startswith("pub ") for name, other in use.names or ()}

    def keys_of(self, name: str) -> Iterator[str]:
        return (key for key, piece in self.pieces.items() if name in piece.names)


# A piece of a module.
Place = collections.namedtuple("Place", "module key")


class Pieces:
    """The pieces of modules, and which speaks of which."""

    def __init__(self, modules):
        self.modules, self.files, self.edges, self.reversed = modules, {}, {}, {}

    def file(self, module) -> File:
        if module not in self.files:
            self.files[module] = File(self.modules.text(module))
        return self.files[module]

    def found(self, use: Use):
        """The module of this repository that such a line takes names from, if one is."""
        words = use.path.split(".")[1:]
        return self.modules.found(words[0], words[1], words[2:]) if len(words) > 2 and words[1] in ("specs", "proofs") else None

    def home(self, module, name: str):
        """The module in which a name that this one offers is declared, and its name there."""
        handed = self.file(module).handed_on().get(name)
        below = self.found(handed[0]) if handed else None
        return self.home(below, handed[1]) if below is not None else (module, name)

    def spoken_of(self, words: Set[str], file: File) -> Iterator[Tuple[Place, str]]:
        """The pieces of other modules that these words of a file may name, each with the name."""
        takes_all = bool(words & SEARCHES)
        for _, use in file.uses():
            module = self.found(use) if use else None
            if module is None:
                continue
            names = use.names if use.names is not None else [(name, name) for piece in self.file(module).pieces.values() for name in piece.names]
            for name, other in names:
                if takes_all or is_named(other, words):
                    home, name = self.home(module, name)
                    yield from ((Place(home, key), name) for key in self.file(home).keys_of(name))

    def edges_of(self, place: Place, file: File) -> Dict[Place, Set[str]]:
        """The pieces that one speaks of, with the names by which it may."""
        found: Dict[Place, Set[str]] = {}
        own = file.pieces[place.key]
        for to, name in self.spoken_of(own.words, file):
            found.setdefault(to, set()).add(name)
        for key, piece in file.pieces.items():
            names = {name for name in piece.names if is_named(name, own.words)} if key != place.key else set()
            if names:
                found.setdefault(Place(place.module, key), set()).update(names)
        return found

    def of(self, module) -> Dict[str, Dict[Place, Set[str]]]:
        """What each piece of a module speaks of."""
        if module not in self.edges:
            file = self.file(module)
            self.edges[module] = {key: self.edges_of(Place(module, key), file) for key in file.pieces}
        return self.edges[module]

    def below(self, modules) -> Set:
        """These modules, and those that they take names from, and so on."""
        seen, left = set(modules), list(modules)
        while left:
            more = {self.found(use) for _, use in self.file(left.pop()).uses() if use} - {None} - seen
            seen |= more
            left += more
        return seen

    def behind(self, modules) -> Dict[Place, Set[Place]]:
        """Of each piece of these modules and of those below them, the pieces that speak of it."""
        if modules not in self.reversed:
            found: Dict[Place, Set[Place]] = {}
            pairs = ((Place(module, key), edges) for module in self.below(modules) for key, edges in self.of(module).items())
            for place, to in ((place, to) for place, edges in pairs for to in edges):
                found.setdefault(to, set()).add(place)
            self.reversed[modules] = found
        return self.reversed[modules]
