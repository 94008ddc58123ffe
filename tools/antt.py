"""A reader of the definitions in crates/*/specs: what stands in each file, and which definitions each one names.

It reads the forms that are used there, layout and binders included, and raises `Unread` at any other, and at a word that is neither bound nor
declared, imported or built in: so it passes over nothing. Words of std and the kit's crates, and those that are made from Rust types
(`declared`), are seen and not followed."""

import dataclasses
import pathlib
import re

MARKS = {"pattern", "unfoldable", "abbrev", "pub"}
SIGNS = {"=", ":", "→", "×", "↦", "|", "∧", "∨"}
WORDS = {"λ", "let", "in", "elim", "as", "record", "where", "Type", "Prim"}
# What antt's prelude opens in every file, as far as definitions use it.
BUILT_IN = {"⊥", "Unit", "tt", "absurd", "¬◌", "IsProp", "IsSet", "search", "grind", "omega", "simp", "rw", "cc", "assumption", "hlevel", "yes", "no", "Dec"}
# Words of std and of `base` that match in a pattern.
STD_CONSTRUCTORS = {"zero", "suc", "true", "false", "[]", "◌∷◌", "inl", "inr", "refl", "gnil", "gnum", "gcons"}

TOKEN = re.compile(r'"(?:[^"\\]|\\.)*"|«[^»]*»|--[^\n]*|[(){}.;,@]|[^\s(){}.;,@"«»]+')
TELESCOPES = {"→", "×"}


class Unread(Exception):
    """A form or a word that this reader does not know."""


@dataclasses.dataclass(frozen=True)
class Token:
    text: str
    line: int
    column: int

    @property
    def end(self):
        return self.column + len(self.text)


@dataclasses.dataclass(frozen=True)
class Group:
    """What stands between brackets."""

    opening: Token
    parts: tuple
    closing: Token

    @property
    def line(self):
        return self.opening.line

    @property
    def column(self):
        return self.opening.column

    @property
    def text(self):
        return self.opening.text

    @property
    def end(self):
        return self.closing.end


@dataclasses.dataclass(eq=False)
class Definition:
    """A function, a `data` type with its constructors, or a record with its fields."""

    module: str
    name: str
    comment: str
    lines: set = dataclasses.field(default_factory=set)
    statements: list = dataclasses.field(default_factory=list)  # (tokens, names bound outside, whether a clause)

    @property
    def crate(self):
        return self.module.split(".")[0]

    @property
    def file(self):
        return self.module.split(".", 2)[2].replace(".", "/") + ".antt"

    @property
    def key(self):
        return f"{self.crate}/{self.file} {self.name}"


@dataclasses.dataclass(eq=False)
class Module:
    name: str
    head: str = ""
    definitions: dict = dataclasses.field(default_factory=dict)
    constructors: dict = dataclasses.field(default_factory=dict)  # a name, and the `data` types that have it
    names: dict = dataclasses.field(default_factory=dict)  # a name, and the module and the name that it stands for
    modules: dict = dataclasses.field(default_factory=dict)  # a name, and the module that it stands for


def tokens_of(text):
    """The tokens, and the comment's text at each line that is one."""
    found, comments = [], {}
    for number, line in enumerate(text.split("\n"), 1):
        for match in TOKEN.finditer(line):
            word = match.group(0)
            if word.startswith("--"):
                if not line[: match.start()].strip():
                    comments[number] = word[2:].strip()
                break
            if word.startswith("{-"):
                raise Unread(f"a comment in brackets, line {number}")
            found.append(Token(word, number, match.start()))
    return found, comments


def statements_of(tokens, column):
    """Splits at the lines that begin at the column; a bracket alone closes what is open."""
    found, last = [], 0
    for token in tokens:
        if token.line != last and token.column == column and token.text not in ("}", ")", "]"):
            found.append([])
        if not found:
            raise Unread(f"line {token.line} is indented")
        last = token.line
        found[-1].append(token)
    return found


def grouped(tokens):
    closing = {"(": ")", "{": "}", "[": "]"}
    stack = [(None, [])]
    for token in tokens:
        if token.text in closing:
            stack.append((token, []))
        elif token.text in (")", "}", "]"):
            opening, parts = stack.pop()
            if opening is None or closing[opening.text] != token.text:
                raise Unread(f"brackets, line {token.line}")
            stack[-1][1].append(Group(opening, tuple(parts), token))
        else:
            stack[-1][1].append(token)
    if len(stack) != 1:
        raise Unread(f"brackets, line {stack[-1][0].line}")
    return stack[0][1]


def split_at(parts, mark):
    found = [[]]
    for part in parts:
        if isinstance(part, Token) and part.text == mark:
            found.append([])
        else:
            found[-1].append(part)
    return found


def index_of(parts, mark):
    return next((i for i, part in enumerate(parts) if isinstance(part, Token) and part.text == mark), None)


def is_word(part):
    return isinstance(part, Token) and part.text not in SIGNS | {".", ",", ";", "@", "_"} and not part.text[0] in '"«?' and not part.text[0].isdigit()


class Library:
    """The modules of all crates' specs."""

    def __init__(self, crates):
        self.modules = {}
        for path in sorted(crates.glob("*/specs/**/*.antt")):
            crate = path.relative_to(crates).parts[0]
            inner = path.relative_to(crates / crate / "specs").with_suffix("")
            module = Module(".".join([crate, "specs", *inner.parts]))
            self.modules[module.name] = module
            try:
                Reader(module).read(path.read_text(encoding="utf-8"))
            except Unread as error:
                raise Unread(f"{path}: {error}") from error
        self.seen = {}

    def place(self, path):
        """The module at a path, through what each crate's Lib.antt passes on, or None where it is no module of ours."""
        for _ in range(8):
            if path in self.modules:
                return path
            above, _, last = path.rpartition(".")
            further = self.modules.get(above + ".Lib")
            if further is None or last not in further.modules:
                return None
            path = further.modules[last]
        raise Unread(f"{path} is passed on in a circle")

    def lookup(self, path, name, met=()):
        """The definitions of ours that a name of a module stands for, whether one is a constructor, and the path where it is no name of ours."""
        place = self.place(path)
        if place is None:
            return [], False, f"{path}.{name}"
        module = self.modules[place]
        if name in module.definitions:
            return [module.definitions[name]], False, None
        if name in module.constructors:
            return module.constructors[name], True, None
        if name in module.names and (place, name) not in met:
            return self.lookup(*module.names[name], (*met, (place, name)))
        raise Unread(f"{path} has no {name}")

    def named_by(self, definition):
        """The definitions that one names, and the paths of words that are not ours."""
        if definition not in self.seen:
            scan = Scan(self, self.modules[definition.module], definition.key)
            for statement, bound, is_clause in definition.statements:
                (scan.clause if is_clause else scan.term)(statement, bound)
            scan.found.discard(definition)
            self.seen[definition] = (scan.found, scan.foreign)
        return self.seen[definition]

    def reached(self, roots, stops=frozenset()):
        """What is reached from some definitions, these included, without going into those in `stops`; and the words that are not ours."""
        todo, found, foreign = [d for d in roots if d not in stops], set(), set()
        while todo:
            definition = todo.pop()
            if definition not in found:
                found.add(definition)
                named, words = self.named_by(definition)
                foreign |= words
                todo += [d for d in named if d not in stops]
        return found, foreign

    def named_by_contract(self, path, function):
        """The definitions that the clauses of a function in a .rt file name."""
        text = path.read_text(encoding="utf-8")
        module = Module(str(path))
        for line in re.findall(r"^\s*ghost (use [^;]*);", text, re.M):
            Reader(module).use(grouped(tokens_of(line)[0]))
        header = re.search(rf"^( *)[^\n/]*\bfn {function}\b(.*?)^\1\{{$", text, re.M | re.S)
        if header is None:
            raise Unread(f"{path} has no function {function} with clauses")
        clauses = re.sub(r"^\s*//[^\n]*", "", header.group(2), flags=re.M)
        scan = Scan(self, module, f"{path.name} {function}", is_contract=True)
        for part in [p for p in grouped(tokens_of(clauses)[0]) if isinstance(p, Group) and p.text == "{"]:
            scan.term(part.parts, frozenset())
        if not scan.found:
            raise Unread(f"the clauses of {function} in {path} name no definition")
        return scan.found


class Reader:
    """Reads a file's statements into a module."""

    def __init__(self, module):
        self.module = module
        self.comments = {}
        self.above_block = ""  # a comment above `mutual`, which speaks of the first definition in it

    def read(self, text):
        tokens, self.comments = tokens_of(text)
        head = []
        while len(head) + 1 in self.comments:
            head.append(self.comments[len(head) + 1])
        self.module.head = re.sub(r" *\n+ *", lambda m: "\n\n", " ".join(line or "\n" for line in head))
        self.block(tokens, 0, frozenset(), ())

    def comment_above(self, line):
        found = []
        while line - 1 in self.comments and not self.comments[line - 1].startswith("----"):
            line -= 1
            found.insert(0, self.comments[line])
        return "" if line == 1 else " ".join(found)

    def block(self, tokens, column, bound, outside):
        """Statements at a column; `outside` are those of the block around that each definition has, as a section's parameters."""
        for statement in statements_of(tokens, column):
            words = [t.text for t in statement]
            marks = next((i for i, w in enumerate(words) if w not in MARKS), len(words))
            word = words[marks]
            if word == "use":
                self.use(grouped(statement[marks:]))
            elif word == "mod":
                continue
            elif word == "mutual":
                inner = statement[marks + 1 :]
                self.above_block = self.comment_above(statement[0].line)
                self.block(inner, inner[0].column, bound, outside)
            elif word == "module" and words[marks + 1] == "_":
                where = words.index("where")
                parameters = grouped(statement[marks + 2 : where])
                names = {t.text for g in parameters for t in g.parts[: index_of(g.parts, ":")]}
                inner = statement[where + 1 :]
                self.block(inner, inner[0].column, bound | names, (*outside, tuple(parameters)))
            elif word in ("data", "record"):
                self.type(word, statement[marks + 1 :], bound, outside)
            else:
                self.function(statement, marks, bound, outside)

    def define(self, name, statement, outside):
        if name in self.module.definitions:
            raise Unread(f"{name} is defined twice")
        comment, self.above_block = self.comment_above(statement[0].line) or self.above_block, ""
        definition = Definition(self.module.name, name, comment)
        definition.lines |= {t.line for t in statement}
        definition.statements += [(parameters, frozenset(), False) for parameters in outside]
        self.module.definitions[name] = definition
        return definition

    def function(self, statement, marks, bound, outside):
        parts = grouped(statement[marks:])
        name = parts[0].text
        after = 2 if len(parts) > 2 and isinstance(parts[1], Group) and parts[1].text == "{" else 1
        if isinstance(parts[after], Token) and parts[after].text == ":":
            levels = {t.text for t in parts[1].parts} if after == 2 else set()
            definition = self.define(name, statement, outside)
            definition.statements.append((parts[after + 1 :], bound | levels, False))
        elif marks == 0 and name in self.module.definitions and index_of(parts, "=") is not None:
            definition = self.module.definitions[name]
            definition.lines |= {t.line for t in statement}
            definition.statements.append((parts[1:], bound, True))
        else:
            raise Unread(f"line {statement[0].line}")

    def type(self, kind, statement, bound, outside):
        """`data` or `record`, its name, parameters, type, `where`, and constructors or fields, one a statement."""
        where = next((i for i, t in enumerate(statement) if t.text == "where"), len(statement))
        parts = grouped(statement[:where])
        definition = self.define(parts[0].text, statement, outside)
        colon = index_of(parts, ":")
        if any(isinstance(p, Token) for p in parts[1:colon]):
            raise Unread(f"parameters of {definition.name}")
        names = set()
        for group in parts[1:colon]:
            at = index_of(group.parts, ":")
            if at is None:  # levels
                names |= {t.text for t in group.parts}
            else:
                definition.statements.append((group.parts[at + 1 :], bound | frozenset(names), False))
                names |= {t.text for t in group.parts[:at]}
        bound = bound | names
        definition.statements.append((parts[colon + 1 :], bound, False))
        inner = statement[where + 1 :]
        for part in statements_of(inner, inner[0].column) if inner else []:
            part = [t for i, t in enumerate(part) if not (i == 0 and t.text == "pub")]
            members = grouped(part)
            at = index_of(members, ":")
            if at is None or any(isinstance(m, Group) for m in members[:at]):
                raise Unread(f"line {part[0].line}")
            definition.statements.append((members[at + 1 :], bound, False))
            for member in members[:at]:
                if kind == "data":
                    self.module.constructors.setdefault(member.text, []).append(definition)
                else:
                    bound = bound | {member.text}

    def use(self, parts):
        """`use A.B.C`, `use A.B.C as D`, `use A.B.{c, d as e, F.g}`."""
        path, items, alias = [], None, None
        for part in parts[1:]:
            if isinstance(part, Group):
                items = part.parts
            elif part.text not in (".", "as"):
                if alias is not None:
                    alias = part.text
                else:
                    path.append(part.text.strip("«»"))
            elif part.text == "as":
                alias = ""
        if "*" in path:
            raise Unread(f"use {'.'.join(path)}")
        base = ".".join(path[path[0] == "Rattle" :])
        if items is None:
            self.module.modules[alias or path[-1]] = base
            return
        for item in split_at(items, ","):
            words = [t.text for t in item]
            if not words:
                continue
            name = words[-1]
            if "as" in words:
                words = words[: words.index("as")]
            inner = [w for w in words if w != "."]
            self.module.names[name] = (".".join([base, *inner[:-1]]), inner[-1])


class Scan:
    """Walks over terms, and notes what they name."""

    def __init__(self, library, module, at, is_contract=False):
        self.library, self.module, self.at, self.is_contract = library, module, at, is_contract
        self.found, self.foreign = set(), set()
        self.operators = {}
        for name in [*module.definitions, *module.constructors, *module.names]:
            for piece in name.split("◌") if "◌" in name else ():
                if piece:
                    self.operators[piece] = name

    def clause(self, parts, bound):
        at = index_of(parts, "=")
        self.term(parts[at + 1 :], self.pattern(parts[:at], bound))

    def pattern(self, parts, bound):
        """Notes the constructors, and answers the bound names with those that the pattern binds."""
        i = 0
        while i < len(parts):
            part = parts[i]
            if isinstance(part, Group):
                inner = part.parts
                if part.text == "{" and index_of(inner, "=") is not None:
                    inner = inner[index_of(inner, "=") + 1 :]
                bound = self.pattern(inner, bound)
            elif is_word(part):
                chain = self.chain(parts, i)
                i += 2 * (len(chain) - 1)
                if len(chain) > 1 or self.is_constructor(part.text):
                    self.name(chain, frozenset(), part)
                else:
                    bound = bound | {part.text}
            i += 1
        return bound

    def is_constructor(self, word):
        word = self.operators.get(word, word)
        if word in self.module.definitions:
            return False
        if word in self.module.constructors:
            return True
        if word not in self.module.names:
            return word == "tt"
        path, name = self.module.names[word]
        _, is_constructor, foreign = self.library.lookup(path, name)
        if foreign is None:
            return is_constructor
        return name in STD_CONSTRUCTORS or name[0].isupper()

    def chain(self, parts, i):
        """`a.b.c` without spaces, of which the first is a word."""
        words = [parts[i].text]
        while i + 2 < len(parts) and all(isinstance(p, Token) for p in parts[i + 1 : i + 3]):
            dot, word = parts[i + 1], parts[i + 2]
            if dot.text != "." or dot.column != parts[i].end or word.column != dot.end or word.line != dot.line:
                break
            words.append(word.text)
            i += 2
        return words

    def name(self, chain, bound, token):
        word = self.operators.get(chain[0], chain[0]) if chain[0] not in bound else chain[0]
        module = self.module
        if word in bound or word in WORDS or word in BUILT_IN:
            return
        if word == "Rattle":
            self.note(*self.of_path(chain[1:]))
        elif len(chain) > 1 and word in module.modules:
            self.note(*self.of_path([*module.modules[word].split("."), *chain[1:]]))
        elif word in module.definitions:
            self.found.add(module.definitions[word])
        elif word in module.constructors:
            self.found |= set(module.constructors[word])
        elif word in module.names:
            self.note(*module.names[word])
        elif not self.is_contract:
            raise Unread(f"{self.at}, line {token.line}: what is {'.'.join(chain)}?")

    def of_path(self, words):
        """A path of modules, and the name after it; fields may follow."""
        for count in range(len(words) - 1, 0, -1):
            if self.library.place(".".join(words[:count])) is not None:
                return ".".join(words[:count]), words[count]
        return ".".join(words[:-1]), words[-1]

    def note(self, path, name):
        definitions, _, foreign = self.library.lookup(path, name)
        self.found |= set(definitions)
        if foreign is not None:
            self.foreign.add(foreign)

    def term(self, parts, bound):
        outer, i = bound, 0
        while i < len(parts):
            part = parts[i]
            if isinstance(part, Group):
                bound = self.group(parts, i, bound)
            elif part.text in (",", ";", "|"):
                bound = outer
            elif part.text == "λ":
                dot = next(j for j in range(i + 1, len(parts)) if isinstance(parts[j], Token) and parts[j].text == ".")
                bound = self.binders(parts[i + 1 : dot], bound)
                i = dot
            elif part.text == "let":
                bound, i = self.let(parts, i, bound)
            elif is_word(part):
                before = parts[i - 1] if i else None
                chain = self.chain(parts, i)
                if not (before is not None and isinstance(before, Token) and before.text == "." and before.end == part.column):
                    self.name(chain, bound, part)
                i += 2 * (len(chain) - 1)
            i += 1

    def binders(self, parts, bound):
        for part in parts:
            if isinstance(part, Token):
                bound = bound | {part.text}
            else:
                colon = index_of(part.parts, ":")
                if colon is not None:
                    self.term(part.parts[colon + 1 :], bound)
                bound = bound | {t.text for t in part.parts[:colon] if is_word(t)}
        return bound

    def let(self, parts, i, bound):
        """The names bound after `let`, and where `in` stands."""
        depth, end = 1, i + 1
        while depth:
            if isinstance(parts[end], Token):
                depth += (parts[end].text == "let") - (parts[end].text == "in")
            end += 1
        body = parts[i + 1 : end - 1]
        equals = index_of(body, "=")
        names, _, of_type = body[:equals], None, []
        colon = index_of(names, ":")
        if colon is not None:
            names, of_type = names[:colon], names[colon + 1 :]
        self.term(of_type, bound)
        self.term(body[equals + 1 :], bound)
        return self.binders(names, bound), end - 1

    def group(self, parts, i, bound):
        """A group, and the names that are bound behind it where it is a telescope's."""
        group = parts[i]
        inner = group.parts
        after = parts[i + 1] if i + 1 < len(parts) else None
        colon = index_of(inner, ":")
        if group.text != "[" and colon is not None and all(is_word(p) or p.text == "_" for p in inner[:colon]):
            # a telescope, also before another one
            if not (isinstance(after, Group) or isinstance(after, Token) and after.text in TELESCOPES):
                if after is not None or self.is_contract:
                    raise Unread(f"{self.at}, line {group.line}: a binder")
            self.term(inner[colon + 1 :], bound)
            return bound | {t.text for t in inner[:colon]}
        if group.text == "[":
            for case in split_at(inner, "|"):
                arrow = index_of(case, "↦")
                if arrow is not None:
                    self.term(case[arrow + 1 :], self.pattern(case[:arrow], bound))
                else:
                    self.term(case, bound)
        elif group.text == "{":
            for field in split_at(inner, ";"):
                equals = index_of(field, "=")
                self.term(field if equals is None else field[equals + 1 :], bound)
        else:
            self.term(inner, bound)
        return bound


if __name__ == "__main__":
    library = Library(pathlib.Path(__file__).resolve().parent.parent / "crates")
    print(sum(len(m.definitions) for m in library.modules.values()), "definitions in", len(library.modules), "files")
    for module in library.modules.values():
        for definition in module.definitions.values():
            try:
                library.named_by(definition)
            except Unread as error:
                print(error)
