"""Texts are read: as tokens, and then as commands, by descent (docs/NOTATION.md).

What is read are tuples. Of a term they are ("name", n), ("sign", s), ("apply", f, x), ("lambda", name, its type or None, body) and ("typed", t, type); of a type
("name", n) and ("apply", constructor, arguments); quotations are ("term", place, t), ("of type", place, type) and ("definition", place, constant, parameters, type or
None, right side), where a right side behind `<=>` is ("truth", t)."""

import re

from model.refusals import Refusal, Unmodelled

# What stands around the words of tacticals that stand between, what follows those that stand before, the forward rules and the commands: each part by the
# method that reads it, by which the rest of the model knows it too. None: a command that isn't modelled.
INFIXES = {"THEN": ("operand", "operand"), "THENL": ("operand", "expressions"), "ORELSE": ("operand", "operand")}
TACTICALS = {
    "TRY": ("operand",), "REPEAT": ("operand",), "CHANGED_TAC": ("operand",), "EVERY": ("expressions",), "FIRST": ("expressions",), "REPLICATE_TAC": ("number", "operand"),
    "DISCH_THEN": ("continuation",), "POP_ASSUM": ("continuation",), "FIRST_ASSUM": ("continuation",), "SUBGOAL_THEN": ("quotation", "continuation"),
}  # fmt: skip
RULES = {
    "ASSUME": ("quotation",), "REFL": ("quotation",), "SPEC": ("quotation", "simple_theorem"), "SYM": ("simple_theorem",), "CONJUNCT1": ("simple_theorem",),
    "CONJUNCT2": ("simple_theorem",), "MP": ("simple_theorem", "simple_theorem"), "INST_TYPE": ("instances", "simple_theorem"),
}  # fmt: skip
COMMANDS = {
    "g": ("name", "quotation"), "e": ("expression",), "b": (), "r": ("number",), "qed": (), "oops": (), "import": ("name",), "new_type": ("name", "arity"),
    "new_constant": ("name", "type_quotation"), "new_axiom": ("name", "quotation"), "new_definition": ("name", "definition"), "new_basic_type_definition": None,
    "deftac": ("name", "expression"),
}  # fmt: skip
FORMS = {**INFIXES, **TACTICALS}
RESERVED = {*FORMS, *RULES}
SYMBOLS = ["<=>", "==>", "\\/", "/\\", "->", "?!", "=", "~", "\\", "!", "?", "@", "(", ")", "[", "]", ".", ":", ",", ";", "`"]
BINDERS, INFIXES = ("\\", "!", "?", "?!", "@"), ("<=>", "==>", "\\/", "/\\", "=")
TOKEN = re.compile(r"[ \t\n\r]*(?:(?P<word>[A-Za-z_][A-Za-z0-9_']*)|(?P<number>[0-9]+)|(?P<symbol>%s)|(?P<end>\Z))" % "|".join(map(re.escape, SYMBOLS)))
MOST_TOKENS, MOST_OPEN = 4096, 200


def tokens(text):
    """Tokens, each with its kind, its text and its place; the last one is the end, or where the text has no token more."""
    found, at, opened = [], 0, 0
    while True:
        match = TOKEN.match(text, at)
        place = match.start(match.lastgroup) if match else re.compile(r"[ \t\n\r]*").match(text, at).end()
        if match and match.lastgroup == "end":
            return [*found, ("end", "", len(text.encode()))]
        word = match.group(match.lastgroup) if match else ""
        opened += (word in ("(", "[")) - (word in (")", "]"))
        is_long = match and match.lastgroup == "number" and word != "0" and (word[0] == "0" or len(word) > 4)
        if len(found) == MOST_TOKENS or not match or is_long or opened > MOST_OPEN:
            return [*found, ("bad", "", place)]
        found.append((word if match.lastgroup == "symbol" else match.lastgroup, word, place))
        at = match.end()


class Tokens:
    """Where a text is read."""

    def __init__(self, text):
        self.tokens, self.at = tokens(text), 0

    def kind(self, ahead=0):
        return self.tokens[self.at + ahead][0]

    def word(self):
        kind, text, _ = self.tokens[self.at]
        return text if kind == "word" else None

    def fail(self):
        raise Refusal(1, str(self.tokens[self.at][2]))

    def take(self, kind):
        """The token that stands here, which has to be of this kind."""
        if self.kind() != kind:
            self.fail()
        self.at += 1
        return self.tokens[self.at - 1]

    def skips(self, kind):
        """Whether a token of this kind stood here."""
        stands = self.kind() == kind
        self.at += stands
        return stands

    def is_name(self):
        return self.kind() == "word" and self.word() not in RESERVED

    def name(self):
        if not self.is_name():
            self.fail()
        return self.take("word")[1]

    def listed(self, element, least=0):
        """What stands in square brackets, with semicolons between."""
        self.take("[")
        if least == 0 and self.skips("]"):
            return []
        found = [element()]
        while self.skips(";"):
            found.append(element())
        self.take("]")
        return found

    def in_parentheses(self, element):
        self.take("(")
        found = element()
        self.take(")")
        return found


class Terms(Tokens):
    """Types, terms and quotations."""

    def type(self):
        domain = self.type_application()
        return ("apply", "fun", [domain, self.type()]) if self.skips("->") else domain

    def type_application(self):
        if self.skips("("):
            parts = [self.type()]
            while self.skips(","):
                parts.append(self.type())
            self.take(")")
            found = parts[0] if len(parts) == 1 else ("apply", self.take("word")[1], parts)
        else:
            found = ("name", self.take("word")[1])
        while self.kind() == "word":
            found = ("apply", self.take("word")[1], [found])
        return found

    def term(self, tightness=0):
        """A term of infixes that bind at least as tightly as this one; all group to the right."""
        if tightness == len(INFIXES):
            return self.negation()
        left = self.term(tightness + 1)
        if self.skips(INFIXES[tightness]):
            return ("apply", ("apply", ("sign", INFIXES[tightness]), left), self.term(tightness))
        return left

    def negation(self):
        if self.skips("~"):
            return ("apply", ("sign", "~"), self.negation())
        return self.binder() if self.kind() in BINDERS else self.typed()

    def variable(self):
        """A variable and its type or None, in parentheses where it has one."""
        if self.kind() != "(":
            return self.take("word")[1], None
        return self.in_parentheses(lambda: (self.take("word")[1], self.type_behind_colon()))

    def type_behind_colon(self):
        self.take(":")
        return self.type()

    def binder(self):
        sign, variables = self.take(self.kind())[0], []
        while True:
            is_bare = self.kind() != "("
            variables.append(self.variable())
            if is_bare and self.kind() == ":":
                variables[-1] = (variables[-1][0], self.type_behind_colon())
                self.take(".")
                break
            if self.skips("."):
                break
            if self.kind() not in ("word", "("):
                self.fail()
        body = self.term()
        for name, ty in reversed(variables):
            body = ("lambda", name, ty, body)
            body = body if sign == "\\" else ("apply", ("sign", sign), body)
        return body

    def typed(self):
        found = self.atom()
        while self.kind() in ("word", "("):
            found = ("apply", found, self.atom())
        return ("typed", found, self.type_behind_colon()) if self.kind() == ":" else found

    def atom(self):
        if self.kind() == "word":
            return ("name", self.take("word")[1])
        self.take("(")
        sign = self.kind()
        if sign in INFIXES or sign in ("~", "!", "?", "?!", "@") and self.kind(1) == ")":
            self.at += 1
            self.take(")")
            return ("sign", sign)
        found = self.term()
        self.take(")")
        return found

    def quotation(self):
        place, term = self.take("`")[2], self.term()
        self.take("`")
        return ("term", place, term)

    def type_quotation(self):
        place, ty = self.take("`")[2], self.type_behind_colon()
        self.take("`")
        return ("of type", place, ty)

    def definition(self):
        place, constant = self.take("`")[2], self.name()
        parameters, seen = [], {constant}
        while self.kind() in ("word", "("):
            name_at = self.tokens[self.at + (self.kind() == "(")]
            if name_at[0] == "word" and name_at[1] in seen:
                self.at += self.kind() == "("
                self.fail()
            parameters.append(self.variable())
            seen.add(parameters[-1][0])
        annotation = self.type_behind_colon() if self.kind() == ":" else None
        if self.skips("="):
            right = self.term(INFIXES.index("="))
        else:
            self.take("<=>")
            right = ("truth", self.term())
        self.take("`")
        return ("definition", place, constant, parameters, annotation, right)


class Expressions(Terms):
    """Theorems, expressions and commands."""

    def expression(self):
        left = self.sequence()
        if self.word() == "ORELSE":
            self.at += 1
            return ("ORELSE", left, self.expression())
        return left

    def sequence(self):
        found = self.application()
        while self.word() in ("THEN", "THENL"):
            word = self.take("word")[1]
            found = (word, found, self.application() if word == "THEN" else self.listed(self.expression))
        return found

    def application(self):
        word = self.word()
        if self.kind() == "(":
            return self.in_parentheses(self.expression)
        if word in TACTICALS:
            return self.with_parts(word, TACTICALS[word])
        return ("call", self.name(), self.arguments())

    def with_parts(self, word, forms):
        """The word that stands here, with what follows it."""
        self.at += 1
        return (word, *(getattr(self, form)() for form in forms))

    def expressions(self):
        return self.listed(self.expression)

    def number(self):
        return int(self.take("number")[1])

    def operand(self):
        return self.in_parentheses(self.expression) if self.kind() == "(" else ("call", self.name(), [])

    def continuation(self):
        """The name and the arguments of what is handed a theorem."""
        return self.in_parentheses(lambda: (self.name(), self.arguments())) if self.kind() == "(" else (self.name(), [])

    def arguments(self):
        found = []
        while self.kind() in ("`", "(", "[") or self.is_name():
            found.append(self.argument())
        return found

    def argument(self):
        if self.kind() == "`":
            return ("quotation", self.quotation())
        if self.kind() == "[":
            return ("theorems", self.listed(self.theorem))
        if self.kind() == "(" and self.kind(1) == "`":
            return ("pair", *self.in_parentheses(lambda: self.with_comma(self.quotation)))
        return ("theorem", self.simple_theorem())

    def with_comma(self, element):
        first = element()
        self.take(",")
        return first, element()

    def simple_theorem(self):
        return self.in_parentheses(self.theorem) if self.kind() == "(" else ("name", self.name())

    def theorem(self):
        word = self.word()
        return self.with_parts(word, RULES[word]) if word in RULES else self.simple_theorem()

    def instances(self):
        return self.listed(lambda: self.with_comma(self.type_quotation), 1)

    def arity(self):
        if self.kind() == "number" and int(self.tokens[self.at][1]) > 16:
            self.fail()
        return int(self.take("number")[1])

    def command(self):
        word = self.word()
        if word not in COMMANDS:
            self.fail()
        if COMMANDS[word] is None:
            raise Unmodelled(word)
        found = self.with_parts(word, COMMANDS[word])
        if self.kind() != "end":
            self.fail()
        return found


kept = {}


def parsed(text):
    """The command that a text is, or the refusal by which it is none."""
    if text not in kept:
        if len(kept) > 20_000:
            kept.clear()
        try:
            kept[text] = Expressions(text).command()
        except Refusal as refusal:
            kept[text] = refusal
    return kept[text]
