"""What stands in a theory, and what a command makes of what it writes: names that are looked up, readings, theorems by rules, and expressions."""

import collections
import pathlib
import re

from model.expressions import node
from model.grammar import FORMS, RULES, parsed
from model.readings import Reading, Untypable, body_of, constructors_written, names_written, type_read, types_written
from model.refusals import LIMIT, Refusal
from model.showing import term_text, type_text
from model.steps import ARGUMENTS, Theorem
from model.terms import BOOL, PRELUDE_CONSTANTS, PRELUDE_TYPES, aconv, body_at, constants_in, equation, nameless, sides, size, type_of, type_size, types_put, under

# The prelude's theorems with their statements, as docs/NOTATION.md lists them.
NOTATION = pathlib.Path(__file__).resolve().parents[2] / "docs" / "NOTATION.md"
PRELUDE_TEXTS = dict(re.findall(r"^\| ([A-Z0-9_]+) \| `([^`]*)` \|$", NOTATION.read_text(encoding="utf-8"), re.M))
PRELUDE_THEOREMS = {name: Reading(PRELUDE_CONSTANTS, PRELUDE_TYPES).of(parsed(f"g N `{text}`")[2]) for name, text in PRELUDE_TEXTS.items()}
PRELUDE = {"type": PRELUDE_TYPES, "const": PRELUDE_CONSTANTS, "thm": PRELUDE_THEOREMS, "tac": ARGUMENTS}

# What stands under a key, which is a kind and a name: an arity, a type, a statement or an expression; and the items that it rests on.
Entry = collections.namedtuple("Entry", "value basis")
# An open proof, with its goals and what they rest on, after each step that isn't undone.
Proof = collections.namedtuple("Proof", "name statement history")


class Theory:
    """What stands in a theory, in the order in which it came to, and the open proof."""

    def __init__(self):
        self.entries, self.proof = {}, None

    def standing(self, kind):
        """What stands of a kind, by its name, with what is built in."""
        return {**PRELUDE[kind], **{name: entry.value for (of_kind, name), entry in self.entries.items() if of_kind == kind}}

    def has(self, key):
        return key in self.entries or key[1] in PRELUDE[key[0]]

    def basis(self, key):
        return self.entries[key].basis if key in self.entries else frozenset()


def entry_text(key, entry):
    kind, name = key
    if kind == "type":
        return f"type {name}/{entry.value}"
    if kind == "const":
        return f"const {name}:{type_text(entry.value)}"
    return f"thm {name} |- {term_text(entry.value)}" if kind == "thm" else f"tac {name}"


def theorem_size(theorem):
    return size(theorem.conclusion) + sum(map(size, theorem.hypotheses.values()))


def theorem_key(theorem):
    """What makes a theorem another one: its conclusion by names of bound variables too, its hypotheses without them, and what it rests on."""
    return (frozenset(theorem.hypotheses), theorem.conclusion, theorem.basis)


def hypotheses(*terms):
    return {nameless(term): term for term in terms}


class Resolved:
    """What a command writes, looked up where a theory stands: first it is gone through, from left to right, then tested, and then evaluated."""

    def __init__(self, theory, own=None):
        self.theory, self.own, self.constants, self.types = theory, own, theory.standing("const"), theory.standing("type")
        self.cited, self.calls, self.quotations, self.values, self.has_to_be_true = [], [], [], {}, set()

    # ---- what is written

    def quote(self, quotation, has_to_be_true=False):
        self.quotations.append(quotation)
        if has_to_be_true:
            self.has_to_be_true.add(id(quotation))

    def theorem(self, written):
        word, *parts = written
        if word == "name":
            self.cited.append(parts[0])
            return
        for form, part in zip(RULES[word], parts):
            if form == "simple_theorem":
                self.theorem(part)
            else:
                for quotation in [part] if form == "quotation" else [each for pair in part for each in pair]:
                    self.quote(quotation)

    def arguments(self, written):
        for kind, *parts in written:
            for part in parts[0] if kind == "theorems" else parts:
                self.theorem(part) if kind in ("theorem", "theorems") else self.quote(part)

    def called(self, name, arguments, is_continuation=False):
        self.calls.append((name, arguments, is_continuation))
        self.arguments(arguments)

    def expression(self, written):
        word, *parts = written
        if word == "call":
            self.called(*parts)
            return
        for form, part in zip(FORMS[word], parts):
            if form == "continuation":
                self.called(*part, True)
            elif form == "quotation":
                self.quote(part, True)
            else:
                for inner in part if form == "expressions" else [part] if form == "operand" else []:
                    self.expression(inner)

    # ---- tests, in the order of their numbers in what is refused

    def tests(self):
        for name in self.cited:
            if not self.theory.has(("thm", name)):
                raise Refusal(5, name)
        for call in self.calls:
            self.test_call(*call)
        for quotation in self.quotations:
            self.test_types(quotation)
        for quotation in self.quotations:
            self.read(quotation)
        for quotation in self.quotations:
            if (type_size if quotation[0] == "of type" else size)(self.values[id(quotation)]) > LIMIT:
                raise Refusal(13, "", "a reading")
        for quotation in self.quotations:
            if id(quotation) in self.has_to_be_true and type_of(self.values[id(quotation)]) != BOOL:
                raise Refusal(8, str(quotation[1]))

    def test_call(self, name, arguments, is_continuation):
        kinds = "".join({"quotation": "q", "theorem": "t", "pair": "p", "theorems": "l"}[argument[0]] for argument in arguments)
        if name == self.own:
            raise Refusal(6, name, "the name that the command gives")
        if name in ARGUMENTS:
            wanted = {"t": "", "qt": "q"}.get(ARGUMENTS[name]) if is_continuation else ARGUMENTS[name]
        elif ("tac", name) in self.theory.entries:
            wanted = None if is_continuation else ""
        else:
            raise Refusal(6, name, "an unknown name")
        if kinds != wanted:
            what = "a function" if name in ARGUMENTS else "a named expression"
            raise Refusal(6, name, what + (" that gets a theorem" if is_continuation else " with other arguments" if kinds else " without arguments"))

    def test_types(self, quotation):
        for ty in types_written(quotation):
            try:
                type_read(ty, self.types)
            except Refusal:
                raise Refusal(9, str(quotation[1]))

    def read(self, quotation):
        hidden = quotation[2] if quotation[0] == "definition" else None
        try:
            of_type = quotation[0] == "of type"
            self.values[id(quotation)] = type_read(quotation[2], self.types) if of_type else Reading(self.constants, self.types, hidden).of(quotation)
        except Untypable:
            raise Refusal(7, str(quotation[1]))

    # ---- what is looked at, and what is rested on

    def keys_of(self, quotation):
        """The keys of the types' constructors and of the names that a quotation has."""
        found = {("type", name) for ty in types_written(quotation) for name in constructors_written(ty)}
        if quotation[0] == "of type":
            return found
        parameters = {name for name, _ in quotation[3]} if quotation[0] == "definition" else set()
        return found | {("const", name) for name in parameters | names_written(body_of(quotation))}

    def keys(self):
        quoted = set().union(*map(self.keys_of, self.quotations))
        named = {("tac", name) for name, _, _ in self.calls}
        cited = {("thm", name) for name in self.cited}
        return quoted | named | cited

    def basis_of(self, quotation):
        keys = {("type", name) for ty in types_written(quotation) for name in constructors_written(ty)}
        if quotation[0] != "of type":
            hidden = quotation[2] if quotation[0] == "definition" else None
            keys |= {("const", name) for name in constants_in(self.values[id(quotation)]) if name != hidden}
        return frozenset().union(*map(self.theory.basis, keys))

    def basis(self):
        quoted = frozenset().union(*map(self.basis_of, self.quotations))
        named = frozenset().union(*(self.theory.basis(("tac", name)) for name, _, _ in self.calls))
        cited = frozenset().union(*(self.theory.basis(("thm", name)) for name in self.cited))
        return quoted | named | cited

    # ---- theorems by rules

    def theorem_of(self, written):
        word, *parts = written
        if word == "name":
            return Theorem({}, self.theory.standing("thm")[parts[0]], self.theory.basis(("thm", parts[0])))
        found = getattr(self, word.lower())(*parts)
        if found is None:
            raise Refusal(14, word)
        if theorem_size(found) > LIMIT:
            raise Refusal(13, "", "a theorem")
        return found

    def assume(self, quotation):
        term = self.values[id(quotation)]
        return Theorem(hypotheses(term), term, self.basis_of(quotation)) if type_of(term) == BOOL else None

    def refl(self, quotation):
        term = self.values[id(quotation)]
        return Theorem({}, equation(term, term), self.basis_of(quotation))

    def spec(self, quotation, written):
        before, term = self.theorem_of(written), self.values[id(quotation)]
        found = under("!", before.conclusion)
        if not found or found[2] != type_of(term):
            return None
        return Theorem(before.hypotheses, body_at(found, term), before.basis | self.basis_of(quotation))

    def sym(self, written):
        before = self.theorem_of(written)
        found = sides("=", before.conclusion)
        return found and Theorem(before.hypotheses, equation(*reversed(found)), before.basis)

    def conjunct1(self, written, side=0):
        before = self.theorem_of(written)
        found = sides("/\\", before.conclusion)
        return found and Theorem(before.hypotheses, found[side], before.basis)

    def conjunct2(self, written):
        return self.conjunct1(written, 1)

    def mp(self, written, other):
        left, right = self.theorem_of(written), self.theorem_of(other)
        found = sides("==>", left.conclusion)
        if not found or not aconv(found[0], right.conclusion):
            return None
        return Theorem({**right.hypotheses, **left.hypotheses}, found[1], left.basis | right.basis)

    def inst_type(self, pairs, written):
        before, types = self.theorem_of(written), {}
        for new, old in pairs:
            if self.values[id(old)][0] != "variable":
                return None
            types.setdefault(self.values[id(old)][1], self.values[id(new)])
        basis = before.basis.union(*(self.basis_of(quotation) for pair in pairs for quotation in pair))
        return Theorem(hypotheses(*(types_put(types, term) for term in before.hypotheses.values())), types_put(types, before.conclusion), basis)

    # ---- expressions

    def arguments_of(self, written):
        """Arguments, what they are compared by, and how many nodes they count: each one, and its terms and statements."""
        values, keys, count = [], [], 0
        for kind, *parts in written:
            count += 1
            if kind in ("theorem", "theorems"):
                theorems = [self.theorem_of(part) for part in (parts[0] if kind == "theorems" else parts)]
                count += sum(map(theorem_size, theorems))
                keys.append((kind, *map(theorem_key, theorems)))
                values.append(theorems if kind == "theorems" else theorems[0])
            else:
                terms = tuple(self.values[id(part)] for part in parts)
                count += sum(map(size, terms))
                keys.append((kind, *terms))
                values.append(terms if kind == "pair" else terms[0])
        return values, tuple(keys), count

    def continuation_of(self, written):
        values, keys, count = self.arguments_of(written[1])
        return (written[0], values), (written[0], keys), 1 + count

    def expression_of(self, written):
        word, *parts = written
        if word == "call":
            return self.call_of(*parts)
        found, count = [], 1
        for value, key, own in map(self.part_of, FORMS[word], parts):
            found.append((value, key))
            count += own
        return node(word, count, *(value for value, _ in found), key=[key for _, key in found])

    def part_of(self, form, part):
        """A part of an expression, as it is compared, and what it counts."""
        if form == "continuation":
            return self.continuation_of(part)
        if form == "quotation":
            statement = self.values[id(part)]
            return statement, statement, 1 + size(statement)
        if form == "number":
            return part, part, 0
        inner = tuple(map(self.expression_of, part if form == "expressions" else [part]))
        value = inner if form == "expressions" else inner[0]
        return value, value, sum(each.size for each in inner)

    def call_of(self, name, arguments):
        if name not in ARGUMENTS:
            named = self.theory.entries[("tac", name)].value
            return node("use", named.size, named)
        values, keys, count = self.arguments_of(arguments)
        return node("call", 1 + count, name, values, key=(name, keys))
