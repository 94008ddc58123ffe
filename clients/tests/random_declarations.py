"""Random packages, all of which the program has to accept: types, functions by clauses and by measures, relations, records, specifications."""

import random

from holls.findings import Severity, findings

RESTS = ("num", "bool", "num", "(num list)", "(num#bool)", "(num option)", "(num->bool)")
KINDS = ("type", "function", "numbers", "matrix", "measure", "relation")


class Declarations:
    """Declarations by a seed. Names count up, so that all may stand in one file."""

    def __init__(self, seed):
        self.random = random.Random(seed)
        self.count = 0

    def name(self, prefix):
        """A new name."""
        self.count += 1
        return "%s%d" % (prefix, self.count)

    def some(self, number, kinds=KINDS):
        """So many declarations of some kinds in turn, each a list of commands."""
        return [getattr(self, kinds[at % len(kinds)])() for at in range(number)]

    # ---- Types

    def constructors(self, most=9):
        """A type's name, its parameters, and its constructors with their arguments as (kind, type)."""
        pick, name = self.random, self.name("ty")
        parameters = pick.choice(([], [], ["A"], ["A", "B"]))
        made = []
        number = pick.choice([number for number in (1, 2, 2, 3, 3, 4, 5, 6, 9) if number <= most])
        for at in range(most if most > 9 and pick.random() < 0.03 else number):
            made.append((self.name("C"), [self.argument(at, parameters) for _ in range(pick.choice((0, 0, 1, 1, 2, 2, 3, 4)))]))
        used = [one for one in parameters if any(text == one for _, arguments in made for _, text in arguments)]
        own = " ".join(filter(None, ["(%s)" % ",".join(used) if len(used) > 1 else "".join(used), name]))
        place = {"r": own if not used else "(%s)" % own, "l": "(%s list)" % own}
        return name, [(con, [(kind, place.get(kind, text)) for kind, text in arguments]) for con, arguments in made]

    def argument(self, at, parameters):
        """An argument of a constructor; of the first one none is of the type itself."""
        chance = self.random.random()
        if chance < 0.4 and at:
            return "r", ""
        if chance < 0.5:
            return "l", ""
        return ("x", self.random.choice(parameters)) if chance < 0.65 and parameters else ("x", self.random.choice(RESTS))

    @staticmethod
    def declared(name, constructors):
        """A declaration of a type."""
        return "define_type %s = %s" % (name, " | ".join(" ".join([con] + [text for _, text in arguments]) for con, arguments in constructors))

    def type(self):
        """A type."""
        return [self.declared(*self.constructors(24))]

    def record(self):
        """A record, or one with a parameter."""
        pick, fields = self.random, []
        for _ in range(pick.choice((1, 1, 2, 2, 3, 4))):
            fields.append("%s:%s" % (self.name("field"), pick.choice(RESTS + ("A", "(A list)"))))
        return ["record %s = %s %s" % (self.name("rec"), self.name("C"), " ".join(fields))]

    VALUES = {"num": ("0", "7", "SUC n"), "bool": ("T", "F"), "num list": ("[]", "[1; 2]"), "A->A": ("\\x. x",)}

    def specification(self):
        """Constants by what is proved to exist."""
        every = self.random.choice((["A->A"], ["num", "bool", "num list"]))  # A type variable has to be in each constant's type.
        types = [self.random.choice(every) for _ in range(self.random.choice((1, 1, 2, 3)))]
        values = ["(%s):%s" % (self.random.choice(self.VALUES[one]).replace("SUC n", "SUC 4"), one) for one in types]
        exist, bound = self.name("EXIST"), [self.name("x") for _ in types]
        said = " /\\ ".join("%s = (%s)" % pair for pair in zip(bound, values))
        proof = " THEN ".join("EXISTS_TAC `%s`" % one for one in values) + " THEN REWRITE_TAC []"
        return ["g %s `?%s. %s`" % (exist, " ".join(bound), said), "e " + proof, "qed",
                "specification %s %s %s" % (self.name("SAID"), " ".join(self.name("c") for _ in types), exist)]

    # ---- Functions

    def function(self):
        """A type and a function on it, and one on lists of it where it has some."""
        pick = self.random
        name, constructors = self.constructors(5)
        function, has_lists = self.name("FN"), any(kind == "l" for _, arguments in constructors for kind, _ in arguments)
        on_lists = self.name("FL") if has_lists else None
        other = pick.choice(("", "n", "l"))
        clauses = [self.clause(function, on_lists, con, arguments, other) for con, arguments in constructors]
        if on_lists:
            clauses += ["%s [] %s = 1" % (on_lists, other), "%s (CONS x y) %s = %s x %s + %s y %s" % (on_lists, other, function, other, on_lists, other)]
        elif len(clauses) > 2 and pick.random() < 0.3:
            clauses = clauses[:-1] + ["%s e %s = 7" % (function, other)]
        return [self.declared(name, constructors), "define %s `%s`" % (function, " /\\ ".join(clauses))]

    def clause(self, function, on_lists, con, arguments, other):
        """A function's clause at a constructor."""
        pick = self.random
        variables = [(kind, text, self.name("v")) for kind, text in arguments]
        numbers = [name for _, text, name in variables if text == "num"]
        terms = [str(pick.randint(0, 3))] + {"": [], "n": ["n"], "l": ["LENGTH l"]}[other] + numbers
        changed = {"": "", "n": pick.choice(("n", "(n + 1)")), "l": "(CONS %s l)" % (numbers + ["0"])[0]}[other]
        terms += ["%s %s %s" % (function, name, changed) for kind, _, name in variables if kind == "r" and pick.random() < 0.8]
        terms += ["%s %s %s" % (on_lists, name, other) for kind, _, name in variables if kind == "l"]
        right = terms[0]
        for one in terms[1:]:
            right = pick.choice(("%s + %s", "%s + %s", "(if %s < 2 then 1 else %s)", "%s * (%s)")) % (right, one)
        return "%s (%s) %s = %s" % (function, " ".join([con] + [name for _, _, name in variables]), other, right)

    def numbers(self):
        """A function on numbers and lists, with numerals and n + k."""
        pick, name, least = self.random, self.name("FN"), self.random.choice((1, 1, 2, 3))
        kind = pick.choice(("numbers", "list", "both"))
        if kind == "numbers":
            clauses = ["%s %d = %d" % (name, at, pick.randint(0, 9)) for at in range(least)]
            called = ["%s (n + %d)" % (name, at) if at else "%s n" % name for at in range(least) if pick.random() < 0.7]
            clauses.append("%s (n + %d) = %s" % (name, least, " + ".join(["n"] + called)))
        elif kind == "list":
            clauses = ["%s [%s] acc = acc" % (name, "; ".join("x%d" % one for one in range(at))) for at in range(least)]
            taken = "".join("(CONS x%d " % at for at in range(least)) + "t" + ")" * least
            clauses.append("%s %s acc = %s t (CONS x0 acc)" % (name, taken, name))
        else:
            called = pick.choice(("l", "(CONS n l)"))
            clauses = ["%s 0 l = [0]" % name, "%s (SUC n) [] = [n]" % name, "%s (SUC n) (CONS x l) = CONS x (%s n %s)" % (name, name, called)]
        return ["define %s `%s`" % (name, " /\\ ".join(clauses))]

    # ---- Patterns that overlap

    PATTERNS = {
        "num": ("0", "1", "2", "(SUC num)", "(var + 2)"), "num list": ("[]", "(CONS num list)"), "bool": ("T", "F"), "num#bool": ("(num,bool)",),
        "num option": ("NONE", "(SOME num)")}

    def pattern(self, type_, depth):
        """A pattern of a type."""
        if not depth or self.random.random() < 0.4:
            return self.name("v")
        chosen = self.random.choice(self.PATTERNS[type_])
        for short, full in (("num", "num"), ("bool", "bool"), ("list", "num list")):
            if short in chosen:
                chosen = chosen.replace(short, self.pattern(full, depth - 1), 1)
        return chosen.replace("var", self.name("v"))

    def matrix(self):
        """A function of several arguments whose clauses overlap; the last one takes what is left."""
        pick, name = self.random, self.name("FN")
        types = [pick.choice(list(self.PATTERNS)) for _ in range(pick.choice((1, 2, 2, 3)))]
        clauses = ["%s %s = %d" % (name, " ".join(self.pattern(one, 2) for one in types), at) for at in range(pick.choice((1, 2, 3, 4)))]
        clauses.append("%s %s = 9" % (name, " ".join("(%s:%s)" % (self.name("w"), one) for one in types)))
        return ["define %s `%s`" % (name, " /\\ ".join(clauses))]

    # ---- By a measure

    def measure(self):
        """Functions of a number that call one another with smaller ones, under conditions."""
        pick = self.random
        names = [self.name("FN") for _ in range(pick.choice((1, 1, 2)))]
        clauses = []
        for one in names:
            called = " + ".join("%s %s" % (pick.choice(names), pick.choice(("(n - 1)", "(n - 2)", "(n DIV 2)"))) for _ in range(pick.choice((1, 2))))
            condition = pick.choice(("n = 0", "n < 2", "n <= 1", "n < 3"))
            clauses.append("%s n = (if %s then %s else %s)" % (one, condition, pick.choice(("n", "1", "0")), called))
        return ["define %s %s `%s`" % (names[0], " ".join(["by_measure"] + ["`\\n. n`"] * len(names)), " /\\ ".join(clauses))]

    # ---- Relations

    def relation(self):
        """A relation, or two, with random rules."""
        pick = self.random
        relations = [self.name("REL")] + ([self.name("REL")] if pick.random() < 0.25 else [])
        parameter, variables = pick.choice(("", "", "S ")), ["x", "y", "z"][:pick.choice((1, 1, 2, 3))]
        rules = []
        for one in relations:
            rules.append("(!%s. %s %s%s)" % (" ".join(variables), one, parameter, " ".join(pick.choice((name, name, "0")) for name in variables)))
            for _ in range(pick.choice((1, 1, 2, 3))):
                asked = self.asked(relations, parameter, variables, 2) + (" /\\ S x" if parameter and pick.random() < 0.5 else "")
                rules.append("(!%s. %s ==> %s)" % (" ".join(variables), asked, self.occurrence(one, parameter, variables)))
        return ["inductive %s `%s`" % (relations[0], " /\\ ".join(rules))]

    def occurrence(self, relation, parameter, variables, first=None):
        """A relation of random arguments."""
        pick = self.random
        arguments = [pick.choice(variables + ["(SUC %s)" % pick.choice(variables), "0", "(%s + %s)" % (variables[0], variables[-1])]) for _ in variables]
        return "%s %s%s" % (relation, parameter, " ".join([first] + arguments[1:] if first else arguments))

    def asked(self, relations, parameter, variables, depth):
        """What a rule asks."""
        chance, one = self.random.random(), self.random.choice(relations)
        if chance < 0.35 or not depth:
            return self.occurrence(one, parameter, variables)
        if chance < 0.6:
            both = [self.asked(relations, parameter, variables, depth - 1) for _ in range(2)]
            return "(%s)" % (" /\\ " if chance < 0.5 else " \\/ ").join(both)
        inner = self.occurrence(one, parameter, variables, "w")
        if chance < 0.8:
            return "(!w. w < x ==> %s)" % inner if chance < 0.7 else "(?w. %s /\\ w < 3)" % inner
        if chance < 0.87:
            return "ALL (\\w. %s) [x; 1]" % inner
        rest = self.asked(relations, parameter, variables, depth - 1)
        return "(if x = 0 then %s else %s)" % (rest, inner.replace("w", "x")) if chance < 0.94 else "(x < 3 ==> %s)" % rest


def text(declarations):
    """Declarations as the text of a file."""
    return "".join(command + ";;\n" for commands in declarations for command in commands)


def corrected(declarations, read):
    """Declarations without the clauses that aren't reached, and without those that are told to be wrong, as one with a type variable that can't be
    guessed; these; and the file that `read` makes of the text of the others."""
    declarations, wrong = list(declarations), []
    while True:
        file = read(text(declarations))
        errors = [one for one in findings(file) if one.severity == Severity.ERROR]
        if not errors:
            return declarations, wrong, file
        whole, at = file.lines.text, len(file.lines.text) - len(text(declarations))
        kept = []
        for commands in declarations:
            end = at + len(text([commands]))
            told = next((one for one in errors if at <= one.start < end), None)
            if told is None or "no argument reaches" in told.text:
                kept.append(commands if told is None else _without(commands, whole[told.start:told.end]))
            else:
                wrong.append((commands, told.text))
            at = end
        declarations = kept


def _without(commands, head):
    """Commands of a function without the clause of this left side."""
    parts = commands[-1].split("`")
    parts[-2] = " /\\ ".join(one for one in parts[-2].split(" /\\ ") if not one.startswith(head))
    return commands[:-1] + ["`".join(parts)]
