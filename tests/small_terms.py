"""Sends all small terms to the built program as goals, and compares each reply byte for byte: the text, the types of the free variables, or the
refusal of what has no typing.

The types that are wanted come from the rules of typing as they stand: each gives equations between types, and these are solved by substituting
for one variable after another (J. A. Robinson, 1965). The text comes from docs/NOTATION.md and docs/PROTOCOL.md, 'How terms and types are
shown'. Slow, and so short that a reader can believe it."""

import argparse
import collections
import json
import pathlib
import subprocess
import sys

BUILT = pathlib.Path(__file__).resolve().parent.parent / "crates" / "hol_serve" / "out" / "hol_serve"

# A type is the name of a variable, which begins with '?' where it is still to be found, or a tuple of a constructor and its arguments.
BOOL = ("bool",)


def fun(*types):
    return types[0] if len(types) == 1 else ("fun", types[0], fun(*types[1:]))


def type_text(ty):
    if isinstance(ty, str):
        return ty
    if ty == BOOL:
        return "bool"
    domain = type_text(ty[1])
    return (f"({domain})" if ty[1][0] == "fun" else domain) + "->" + type_text(ty[2])


def variables(ty):
    """The variables of a type from left to right."""
    return [ty] if isinstance(ty, str) else [name for part in ty[1:] for name in variables(part)]


def put(types, ty):
    """The type with these types for variables."""
    return types.get(ty, ty) if isinstance(ty, str) else (ty[0], *(put(types, part) for part in ty[1:]))


def is_open(ty):
    return isinstance(ty, str) and ty.startswith("?")


def solution(equations):
    """The types for open variables by which the sides of each equation are one type, the most general ones; or None."""
    found, left_over = {}, list(equations)
    while left_over:
        left, right = (put(found, side) for side in left_over.pop())
        if is_open(right):
            left, right = right, left
        if left == right:
            continue
        if is_open(left):
            if left in variables(right):
                return None
            found = {**{name: put({left: right}, ty) for name, ty in found.items()}, left: right}
        elif isinstance(left, str) or isinstance(right, str) or left[0] != right[0]:
            return None
        else:
            left_over += zip(left[1:], right[1:])
    return found


# Constants with their generic types: those that the theory declares, and those of the prelude that the terms have.
DECLARED = {"c": fun("B", "A", "B", BOOL), "beside": fun("A", "B", "B")}
SIGNS = {"=": fun("A", "A", BOOL), "/\\": fun(BOOL, BOOL, BOOL), "==>": fun(BOOL, BOOL, BOOL), "~": fun(BOOL, BOOL)}
SIGNS.update({"!": fun(fun("A", BOOL), BOOL), "@": fun(fun("A", BOOL), "A")})
CONSTANTS = {"T": BOOL, **DECLARED, **SIGNS}

# A text with parentheses around it, and the term that it is, as it is written: ("name", x), ("apply", f, x), ("lambda", x, its type or None, body)
# or ("typed", t, type). An infix, `~` and a binder other than `\` are their constants applied.
Written = collections.namedtuple("Written", "text term")


def name(text):
    return Written(text, ("name", text))


def sign(text):
    return Written(f"({text})", ("name", text))


def apply(function, argument):
    return Written(f"({function.text} {argument.text})", ("apply", function.term, argument.term))


def infix(text):
    return lambda left, right: Written(f"({left.text} {text} {right.text})", apply(apply(sign(text), left), right).term)


def negation(part):
    return Written(f"(~{part.text})", apply(sign("~"), part).term)


def binder(text, variable, ty=None):
    def over(body):
        whole = Written(f"({text}{variable}{':' + type_text(ty) if ty else ''}. {body.text})", ("lambda", variable, ty, body.term))
        return whole if text == "\\" else Written(whole.text, apply(sign(text), whole).term)

    return over


def typed(ty):
    return lambda part: Written(f"({part.text}:{type_text(ty)})", ("typed", part.term, ty))


class Leaf:
    """A variable or a constant, where it stands in a term or is bound, with its type."""

    def __init__(self, name, ty):
        self.name, self.ty = name, ty


class Reading:
    """A term as it is read: ("bound", leaf), ("leaf", leaf), ("comb", f, x) or ("lambda", leaf, body). `leaves` has its leaves from left to right,
    and `has_typing` tells whether there are types for them."""

    def __init__(self, written):
        self.leaves, self.equations, self.free, self.opened = [], [], {}, 0
        self.term, _ = self.read(written, ())
        found = solution(self.equations)
        self.has_typing = found is not None
        if self.has_typing:
            self.finish([put(found, leaf.ty) for leaf in self.leaves])

    def finish(self, types):
        """Gives the leaves their types, with the open ones called ?0, ?1, .. as they occur."""
        names = {}
        for variable in (name for ty in types for name in variables(ty) if is_open(name)):
            names.setdefault(variable, f"?{len(names)}")
        for leaf, ty in zip(self.leaves, types):
            leaf.ty = put(names, ty)

    def open(self):
        self.opened += 1
        return f"?{self.opened}"

    def leaf(self, name, ty):
        self.leaves.append(Leaf(name, ty))
        return self.leaves[-1]

    def read(self, written, scope):
        """The term and its type, where these variables are bound, the innermost first."""
        kind, *parts = written
        if kind == "name":
            return self.occurrence(parts[0], scope)
        if kind == "apply":
            function, whole = self.read(parts[0], scope)
            argument, domain = self.read(parts[1], scope)
            codomain = self.open()
            self.equations.append((whole, fun(domain, codomain)))
            return ("comb", function, argument), codomain
        if kind == "lambda":
            variable = self.leaf(parts[0], parts[1] or self.open())
            body, codomain = self.read(parts[2], (variable, *scope))
            return ("lambda", variable, body), fun(variable.ty, codomain)
        term, ty = self.read(parts[0], scope)
        self.equations.append((ty, parts[1]))
        return term, ty

    def occurrence(self, name, scope):
        """The innermost bound variable of the name, else the constant at an instance of its type, else the free variable, which has one type."""
        for variable in scope:
            if variable.name == name:
                return ("bound", variable), variable.ty
        if name == "<=>":
            leaf = self.leaf("=", fun(BOOL, BOOL, BOOL))
        elif name in CONSTANTS:
            leaf = self.leaf(name, put({variable: self.open() for variable in variables(CONSTANTS[name])}, CONSTANTS[name]))
        else:
            leaf = self.leaf(name, self.free.setdefault(name, self.open()))
        return ("leaf", leaf), leaf.ty


# How tightly what is shown binds.
WHOLE, INFIXES, NEGATION, APPLICATION, ATOM = 0, {"<=>": 2, "==>": 4, "/\\": 8, "=": 12}, 13, 14, 15


def occurring(term):
    """The leaves of a term, bound and others, without those of its lambdas."""
    if term[0] in ("bound", "leaf"):
        return [term]
    return [leaf for part in (term[1:] if term[0] == "comb" else term[2:]) for leaf in occurring(part)]


def sign_of(term):
    """The sign of a constant that has one, or None."""
    if term[0] != "leaf" or term[1].name not in SIGNS:
        return None
    return "<=>" if term[1].name == "=" and term[1].ty == fun(BOOL, BOOL, BOOL) else term[1].name


def binding(term):
    """The binder that a term begins with, its variable and its body; or three times None."""
    if term[0] == "lambda":
        return ("\\", *term[1:])
    if term[0] == "comb" and sign_of(term[1]) in ("!", "@") and term[2][0] == "lambda":
        return (sign_of(term[1]), *term[2][1:])
    return None, None, None


def chosen(variable, body, names):
    """The variable's name without its primes, with the fewest that keep it apart from what occurs in the body and isn't bound in it."""
    taken = {names.get(leaf) if kind == "bound" else leaf.name for kind, leaf in occurring(body)}
    shown_as = variable.name.rstrip("'")
    while shown_as in taken:
        shown_as += "'"
    return shown_as


def shown(term, least, names):
    """The text of a term, in parentheses where it binds less tightly than `least`. Of the variables bound around it the names are given."""
    text, level = shown_bare(term, names)
    return text if level >= least else f"({text})"


def shown_bare(term, names):
    """The text of a term without parentheses around it, and how tightly it binds."""
    if term[0] == "bound":
        return names[term[1]], ATOM
    if term[0] == "leaf":
        return f"({sign_of(term)})" if sign_of(term) else term[1].name, ATOM
    if binding(term)[0]:
        return shown_binder(term, names), WHOLE
    _, function, argument = term
    if function[0] == "comb" and sign_of(function[1]) in INFIXES:
        level = INFIXES[sign_of(function[1])]
        return f"{shown(function[2], level + 1, names)} {sign_of(function[1])} {shown(argument, level, names)}", level
    if sign_of(function) == "~":
        return "~" + shown(argument, NEGATION, names), NEGATION
    return f"{shown(function, APPLICATION, names)} {shown(argument, ATOM, names)}", APPLICATION


def shown_binder(term, names):
    first, shown_as = binding(term)[0], []
    while binding(term)[0] == first:
        _, variable, term = binding(term)
        shown_as.append(chosen(variable, term, names))
        names = {**names, variable: shown_as[-1]}
    return f"{first}{' '.join(shown_as)}. {shown(term, WHOLE, names)}"


def reply(**parts):
    return json.dumps({"ok": True, **parts}, sort_keys=True, separators=(",", ":"))


def wanted(goal):
    """The reply on a goal that has type bool if it has a typing, and its text as it is shown, or None."""
    reading = Reading(goal.term)
    if not reading.has_typing:
        return reply(arg="4", refusal=7, text="untypable"), None
    free = {leaf.name: type_text(leaf.ty) for kind, leaf in occurring(reading.term) if kind == "leaf" and leaf.name not in CONSTANTS}
    text = shown(reading.term, WHOLE, {})
    return reply(goals=[{"asl": [], "free": [f"{name}:{free[name]}" for name in sorted(free)], "goal": text}]), text


def small(leaves, overs, joins, nodes):
    """All terms of up to so many nodes: of these leaves, of what makes a term of one, and of what makes one of two."""
    lists = [leaves]
    while len(lists) < nodes:
        more = [over(part) for part in lists[-1] for over in overs]
        more += [join(left, right) for lefts, rights in zip(lists, lists[-2::-1]) for left in lefts for right in rights for join in joins]
        lists.append(more)
    return [term for terms in lists for term in terms]


def probed(written, scope=(), probe="q"):
    """The term with a variable of its own applied beside each constant and in each lambda, so that their types are among those of free variables."""
    kind, *parts = written

    def with_probe(variable, part):
        return apply(apply(name("beside"), apply(name(probe), name(variable))), part)

    if kind == "name":
        if parts[0] in scope or parts[0] not in CONSTANTS:
            return name(parts[0])
        return apply(binder("\\", "v")(with_probe("v", name("v"))), name(parts[0]))
    if kind == "apply":
        return apply(probed(parts[0], scope, probe + "l"), probed(parts[1], scope, probe + "r"))
    if kind == "lambda":
        return binder("\\", parts[0], parts[1])(with_probe(parts[0], probed(parts[2], (parts[0], *scope), probe + "b")))
    return typed(parts[1])(probed(parts[0], scope, probe))


def cases():
    """Texts of goals, each with the reply that is wanted."""
    leaves, overs = [name("x"), name("f"), name("c"), name("T")], [binder("\\", "x"), binder("\\", "f", "A"), typed(fun("A", BOOL))]
    terms = small(leaves, overs, [apply], 6) + [probed(term.term) for term in small(leaves, overs, [apply], 5)]
    for goal in (typed(BOOL)(apply(name("P"), term)) for term in terms):
        yield goal.text, wanted(goal)[0]
    leaves, overs = [name("x"), name("x'"), name("p"), sign("=")], [negation, binder("!", "x"), binder("\\", "x''"), binder("@", "p")]
    for goal in map(typed(BOOL), small(leaves, overs, [apply, infix("="), infix("<=>"), infix("/\\"), infix("==>")], 5)):
        answer, text = wanted(goal)
        yield goal.text, answer
        if text:
            yield f"({text}):bool", answer


def request(op, **more):
    return json.dumps({"op": op, "theory": "A", **more})


def replies(program, goals):
    """The reports on these goals, which stand one after another at one place of a theory, behind the constants."""
    commands = [f"new_constant {name} `:{type_text(ty)}`" for name, ty in DECLARED.items()] + ["oops"]
    lines = [request("new_theory", name="A", at=0)] + [request("insert", at=at, text=text) for at, text in enumerate(commands)]
    first, at = len(lines) + 1, len(commands) - 1
    for goal in goals:
        lines += [request("replace", at=at, text=f"g N `{goal}`"), request("report", at=at)]
    ran = subprocess.run([program], input="\n".join(lines) + "\n", stdout=subprocess.PIPE, encoding="utf-8", timeout=600)
    return ran.stdout.splitlines()[first::2]


def main():
    words = argparse.ArgumentParser(description="sends all small terms to the built program as goals")
    words.add_argument("--program", default=str(BUILT))
    goals, answers = zip(*cases())
    found = replies(words.parse_args().program, goals)
    found += ["no reply"] * (len(goals) - len(found))
    failed = [case for case in zip(goals, found, answers) if case[1] != case[2]]
    for goal, got, want in failed[:20]:
        print(f"FAILED {goal}\n  got  {got}\n  want {want}")
    print(f"typing: {len(goals) - len(failed)} passed, {len(failed)} failed")
    return 1 if failed else 0


if __name__ == "__main__":
    sys.exit(main())
