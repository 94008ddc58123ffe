"""Commands and documents: the report on each command, what stands after it, and what it reads."""

import collections

from model.expressions import Run
from model.grammar import parsed
from model.refusals import LIMIT, Refusal, Stop, Unfit
from model.showing import goal_shown
from model.terms import BOOL, free_variables, fun, quantified, type_of, type_variables, type_variables_in
from model.theories import Entry, Proof, Resolved, Theory, entry_text

WITH_PROOF = {"e", "b", "r", "qed", "oops"}
UNCOUNTED = {"import", "b", "r", "oops"}
Row = collections.namedtuple("Row", "text report reads")


class Observed:
    """What running came upon: cases of refusals and functions that fitted, sizes of named expressions, turns that were taken."""

    def __init__(self):
        self.cases, self.sizes, self.turns = collections.Counter(), [], []


def key_text(key):
    return ":".join(key)


class Running:
    """A command that is run where a theory stands, behind theories that stand earlier. `reads` is what it reads, or None where it isn't counted."""

    def __init__(self, theory, written, earlier, turns, observed):
        self.theory, self.written, self.earlier, self.turns, self.observed = theory, written, earlier, turns, observed
        self.word, self.resolved, self.reads = written[0], Resolved(theory, written[1] if written[0] == "deftac" else None), None

    def report(self):
        makes = self.makes()
        if self.word not in UNCOUNTED:
            self.reads = self.what_is_read(makes)
        if self.theory.proof is None and self.word in WITH_PROOF:
            raise Refusal(3)
        if self.theory.proof is not None and self.word not in WITH_PROOF:
            raise Refusal(2)
        self.resolved.tests()
        self.test_names(makes)
        return getattr(self, "run_" + self.word)(*self.written[1:])

    def makes(self):
        """The keys of what the command makes; what it writes is gone through."""
        word, resolved = self.word, self.resolved
        if word in ("e", "deftac"):
            resolved.expression(self.written[-1])
        elif word in ("g", "new_axiom", "new_constant", "new_definition"):
            resolved.quote(self.written[2], word in ("g", "new_axiom"))
        kinds = {"deftac": "tac", "g": "thm", "new_axiom": "thm", "new_constant": "const", "new_type": "type", "new_definition": "thm"}
        made = [(kinds[word], self.written[1])] if word in kinds else []
        return made + [("const", self.written[2][2])] if word == "new_definition" else made

    def test_names(self, makes):
        for key in makes:
            if self.theory.has(key):
                raise Refusal(10, key_text(key), f"a {key[0]} that is {'made' if key in self.theory.entries else 'built in'}")

    def what_is_read(self, makes):
        """What stands under the names that are written and made, whether a proof is open, of an `e` the first goal and what it tests, of a `qed` the proof."""
        proof, keys = self.theory.proof, self.resolved.keys().union(makes)
        first = closing = None
        if proof and self.word == "e":
            first = proof.history[-1][0][:1]
        if proof and self.word == "qed":
            closing = (proof.name, proof.statement, proof.history[-1][1], len(proof.history[-1][0]))
        return [{key: self.theory.entries.get(key) for key in keys}, proof is not None, first, closing, {}]

    def made(self, new):
        self.theory.entries.update(new)
        return {"made": [entry_text(key, entry) for key, entry in new.items()], "ok": True}

    def goals(self):
        return {"goals": [goal_shown(goal) for goal in self.theory.proof.history[-1][0]], "ok": True}

    # ---- commands

    def run_import(self, name):
        if name not in self.earlier:
            raise Refusal(4, name)
        standing, new = self.theory.entries, {}
        for key, entry in self.earlier[name].entries.items():
            if key not in standing:
                new[key] = entry
            elif standing[key] != entry:
                raise Refusal(21, key_text(key), f"another {key[0]} stands")
        return self.made(new)

    def run_g(self, name, quotation):
        statement = self.resolved.values[id(quotation)]
        self.theory.proof = Proof(name, statement, [([((), statement)], self.resolved.basis())])
        return self.goals()

    def run_e(self, written):
        expression, history = self.resolved.expression_of(written), self.theory.proof.history
        goals, basis = history[-1]
        if not goals:
            raise Refusal(16)
        run = Run(self.turns, set(self.resolved.constants))
        try:
            left = run.run(expression, goals[0])
        except Unfit as it:
            raise Refusal(it.number, it.name, "inside a named expression" if it.is_inside else "")
        except Stop as it:
            raise Refusal(it.number, "", f"a run{' inside a named expression' if it.is_inside else ''}")
        finally:
            self.reads[4] = {name: name in run.standing for name in run.tested}
            self.observed.cases.update([f"fits: {name}" for name in run.fitted] + list(run.cases))
        self.observed.turns.append(self.turns - run.left)
        history.append((left + goals[1:], basis | self.resolved.basis()))
        return self.goals()

    def run_b(self):
        if len(self.theory.proof.history) < 2:
            raise Refusal(20)
        self.theory.proof.history.pop()
        return self.goals()

    def run_r(self, places):
        goals, basis = self.theory.proof.history[-1]
        if not goals:
            raise Refusal(16)
        places %= len(goals)
        self.theory.proof.history.append((goals[places:] + goals[:places], basis))
        return self.goals()

    def run_oops(self):
        self.theory.proof = None
        return self.made({})

    def run_qed(self):
        name, statement, history = self.theory.proof
        goals, basis = history[-1]
        if goals:
            raise Refusal(19)
        self.theory.proof = None
        return self.made({("thm", name): Entry(statement, basis)})

    def run_deftac(self, name, written):
        expression = self.resolved.expression_of(written)
        self.observed.sizes.append(expression.size)
        if expression.size > LIMIT:
            raise Refusal(13, "", "a named expression")
        return self.made({("tac", name): Entry(expression, self.resolved.basis())})

    def run_new_type(self, name, arity):
        return self.made({("type", name): Entry(arity, frozenset([("type", name, arity)]))})

    def run_new_constant(self, name, quotation):
        ty = self.resolved.values[id(quotation)]
        return self.made({("const", name): Entry(ty, self.resolved.basis() | {("const", name, ty)})})

    def run_new_axiom(self, name, quotation):
        statement = self.resolved.values[id(quotation)]
        return self.made({("thm", name): Entry(statement, self.resolved.basis() | {("axiom", name, statement)})})

    def run_new_definition(self, name, quotation):
        constant, right = quotation[2], self.resolved.values[id(quotation)][2]
        free = sorted(variable[1] for variable in free_variables(right))
        if free:
            raise Refusal(11, free[0])
        ty = type_of(right)
        left_over = sorted(type_variables_in(right) - type_variables(ty))
        if left_over:
            raise Refusal(12, left_over[0])
        basis = self.resolved.basis() | {("def", constant, right)}
        statement = defining(("constant", constant, ty), right, len(quotation[3]))
        return self.made({("const", constant): Entry(ty, basis), ("thm", name): Entry(statement, basis)})


def defining(constant, right, count):
    """The equation that defines a constant with so many parameters, for all of these."""
    parameters, left = [], constant
    for _ in range(count):
        parameters.append(right[1:3])
        right = right[3]
    for at, (_, ty) in enumerate(parameters):
        left = ("comb", left, ("bound", count - 1 - at, ty))
    # The sides have loose indices, so that their type is that of the right one where these are given types.
    ty = type_of(right)
    statement = ("comb", ("comb", ("constant", "=", fun(ty, fun(ty, BOOL))), left), right)
    for name, domain in reversed(parameters):
        statement = quantified(name, domain, statement)
    return statement


def run_command(theory, text, earlier, turns, observed=None):
    """The report on a command and what it reads; the theory becomes the one behind it, where it is accepted."""
    written, observed = parsed(text), observed or Observed()
    if isinstance(written, Refusal):
        return written.report(), None
    running = Running(theory, written, earlier, turns, observed)
    try:
        return running.report(), running.reads
    except Refusal as refusal:
        if refusal.case:
            observed.cases[f"{refusal.number}: {refusal.case}"] += 1
        return refusal.report(), running.reads


def copied(theory):
    """A theory with the same entries and the same proof."""
    other = Theory()
    other.entries = dict(theory.entries)
    if theory.proof:
        other.proof = theory.proof._replace(history=list(theory.proof.history))
    return other


def told(document, turns, observed=None):
    """What is told of theories, each a name and its texts: for each its name, a row for each command, and what stands at its end."""
    earlier, found = {}, []
    for name, texts in document:
        theory = Theory()
        rows = [Row(text, *run_command(theory, text, earlier, turns, observed)) for text in texts]
        found.append((name, rows, theory))
        earlier[name] = theory
    return found


def theorems(theory):
    return {"ok": True, "theorems": [entry_text(key, entry) for key, entry in theory.entries.items() if key[0] == "thm"]}


def basis(theory, name):
    entry = theory.entries.get(("thm", name))
    return {"items": sorted(key_text(item[:2]) for item in entry.basis) if entry else None, "ok": True}
