#!/usr/bin/env python3
"""How long one `e` takes with each function on goals, and the `qed` behind a long proof.

    python3 bench/steps.py --program PATH [--rounds N] [--only WORD]

PATH is the built program, crates/hol_serve/out/hol_serve. Each job is a theory with one proof. Behind its `g` stands an `e ASSUME_TAC` of a theorem without
variables, and the steps are run again by replacing this by an `e ASSUME_TAC` of another one: then each goal has another assumption, so each `e` behind reads another
goal and is run, without its text being read again. What that takes is measured by processor time, less what the same takes in a theory without the steps. A `qed`
is replaced by itself, which runs it alone; what replacing an `oops` in its place by itself takes, which runs nothing, is taken off. How many commands are run is
asked for by `stats`. The times shown are medians of the rounds. A reply that isn't of the expected kind, or another number of commands run, ends the run with status 1.

  steps   a function on a goal of about 100 and of about 10,000 nodes, and the `b` that takes it back, 400 times each in one proof. The goals are made of towers `~ (~ .. p)`, of 5
          nodes an application: GEN_TAC, say, has `!x. ~ (~ .. x)`, CONJ_TAC `q /\\ q` for such a tower q of half the nodes, and MP_TAC the theorem and the goal q
  proofs  200 steps, most by one function, and the `qed` that makes the theorem of them by the rules behind it
  leaves  one `e` that makes 1,024 goals and closes them, and its `qed`: by CONJ and by MK_COMB, with all goals open at once (in turn), and with each closed before the next
          is made (at the last goal); and one `e` that goes through as many with DISJ2

Needs Python 3.8 and Linux, and nothing else.
"""

import statistics

from bench import ONE_KEPT, Session, anew, arguments, expect, is_done, is_run, new_theory, put, repeated, replace, report

PAIRS = 400
STEPS = 200
LEAVES = 1024
SECONDS = 0.2  # of edits in a round, at least
ASSUMED = ["e ASSUME_TAC TRUTH", "e ASSUME_TAC T_DEF"]


def tower(nodes, inner="p"):
    """A term of about so many nodes."""
    return "~" * (nodes // 5) + " " + inner


def functions(nodes):
    """Each function with its arguments, the goal of about so many nodes, and the commands before the goal and between it and the function."""
    half, whole = tower(nodes // 2), tower(nodes)
    is_half, is_whole, is_some = ("new_axiom A `%s`" % p for p in (half, whole, "?x. " + tower(nodes // 2, "x")))
    equation = "%s = %s" % (half, half)
    both = "(%s) %s (%s)"
    yield "ALL_TAC", whole
    yield "REFL_TAC", equation
    yield "ACCEPT_TAC A", whole, [is_whole]
    yield "CONJ_TAC", both % (half, "/\\", half)
    yield "DISJ1_TAC", both % (half, "\\/", half)
    yield "DISJ2_TAC", both % (half, "\\/", half)
    yield "EQ_TAC", both % (half, "<=>", half)
    yield "DISCH_TAC", both % (half, "==>", half)
    yield "UNDISCH_TAC `%s`" % half, both % (half, "==>", half), [], ["e DISCH_TAC"]
    yield "GEN_TAC", "!x. %s" % tower(nodes, "x")
    yield "X_GEN_TAC `z:bool`", "!x. %s" % tower(nodes, "x")
    yield "EXISTS_TAC `z:bool`", "?x. %s" % tower(nodes, "x")
    yield "SPEC_TAC (`p:bool`, `x:bool`)", whole
    yield "MP_TAC A", half, [is_half]
    yield "ASSUME_TAC A", half, [is_half]
    yield "CONTR_TAC A", whole, ["new_axiom A `F`"]
    yield "CHOOSE_TAC A", half, [is_some]
    yield "X_CHOOSE_TAC `z:bool` A", half, [is_some]
    yield "DISJ_CASES_TAC A", half, ["new_axiom A `(%s) \\/ (%s)`" % (half, half)]
    yield "SUBST1_TAC A", whole, ["new_axiom A `p:bool = q`"]
    yield "AP_TERM_TAC", equation
    yield "AP_THM_TAC", equation
    yield "MK_COMB_TAC", equation


def proofs():
    """Each proof of about so many steps: most of its functions, its goal, its steps and the commands before it."""
    half = STEPS // 2
    last = STEPS - 1
    yield "CONJ_TAC, REFL_TAC", " /\\ ".join(["a:A = a"] * half), ["CONJ_TAC", "REFL_TAC"] * (half - 1) + ["REFL_TAC"]
    yield "CONJ_TAC, ACCEPT_TAC", " /\\ ".join(["T"] * half), ["CONJ_TAC", "ACCEPT_TAC TRUTH"] * (half - 1) + ["ACCEPT_TAC TRUTH"]
    yield "CONJ_TAC, CONTR_TAC", " /\\ ".join(["p"] * half), ["CONJ_TAC", "CONTR_TAC A"] * (half - 1) + ["CONTR_TAC A"], ["new_axiom A `F`"]
    yield "DISCH_TAC, UNDISCH_TAC", "p ==> p", ["DISCH_TAC", "UNDISCH_TAC `p:bool`"] * (half - 1) + ["DISCH_TAC", "ACCEPT_TAC (ASSUME `p:bool`)"]
    yield "MP_TAC, DISCH_TAC", "T", ["MP_TAC TRUTH", "DISCH_TAC"] * half + ["ACCEPT_TAC TRUTH"]
    yield "GEN_TAC", "!%s. a:A = a" % " ".join("x%d" % k for k in range(last)), ["GEN_TAC"] * last + ["REFL_TAC"]
    yield "SPEC_TAC, GEN_TAC", "x:A = x", ["SPEC_TAC (`x:A`, `x:A`)", "GEN_TAC"] * half + ["REFL_TAC"]
    yield "EXISTS_TAC", "?%s. a:A = a" % " ".join("(x%d:A)" % k for k in range(last)), ["EXISTS_TAC `a:A`"] * last + ["REFL_TAC"]
    yield "CHOOSE_TAC", "T", ["CHOOSE_TAC A"] * last + ["ACCEPT_TAC TRUTH"], ["new_axiom A `?x:A. T`"]
    yield "DISJ1_TAC", "(" * last + "T" + " \\/ F)" * last, ["DISJ1_TAC"] * last + ["ACCEPT_TAC TRUTH"]
    yield "DISJ2_TAC", "F \\/ " * last + "T", ["DISJ2_TAC"] * last + ["ACCEPT_TAC TRUTH"]
    yield "DISJ_CASES_TAC, ACCEPT_TAC", "T", ["DISJ_CASES_TAC A", "ACCEPT_TAC TRUTH"] * half + ["ACCEPT_TAC TRUTH"], ["new_axiom A `T \\/ F`"]
    cases = ["EQ_TAC", *["DISCH_TAC", "ACCEPT_TAC (ASSUME `p:bool`)"] * 2]
    yield "EQ_TAC, DISCH_TAC, ACCEPT_TAC", " /\\ ".join(["(p <=> p)"] * (STEPS // 6)), ["CONJ_TAC", *cases] * (STEPS // 6 - 1) + cases
    yield "AP_TERM_TAC", "%s p = %s p" % ("~" * last, "~" * last), ["AP_TERM_TAC"] * last + ["REFL_TAC"]
    yield "AP_THM_TAC", "f%s = (f%s:A)" % (" x" * last, " x" * last), ["AP_THM_TAC"] * last + ["REFL_TAC"]
    yield "MK_COMB_TAC, REFL_TAC", "%s p = %s p" % ("~" * half, "~" * half), ["MK_COMB_TAC", "REFL_TAC"] * half + ["REFL_TAC"]


def leaves():
    """Each expression that closes so many goals: what it does, the goal and itself."""
    truths, equation = " /\\ ".join(["T"] * LEAVES), "%s p = %s p" % ("~" * (LEAVES - 1), "~" * (LEAVES - 1))
    yield "CONJ, in turn", truths, "REPEAT CONJ_TAC THEN ACCEPT_TAC TRUTH"
    yield "CONJ, at the last goal", truths, "REPEAT (CONJ_TAC THENL [ACCEPT_TAC TRUTH; ALL_TAC]) THEN ACCEPT_TAC TRUTH"
    yield "DISJ2", "F \\/ " * (LEAVES - 1) + "T", "REPEAT DISJ2_TAC THEN ACCEPT_TAC TRUTH"
    yield "MK_COMB, in turn", equation, "REPEAT MK_COMB_TAC THEN REFL_TAC"
    yield "MK_COMB, at the last goal", equation, "REPEAT (MK_COMB_TAC THENL [REFL_TAC; ALL_TAC]) THEN REFL_TAC"


def is_goals(reply):
    return reply.startswith(b'{"goals":[')


def is_made(reply):
    return reply.startswith(b'{"made":["thm N ')


class Measure:
    """How the built program is run, and how often."""

    def __init__(self, program, rounds):
        self.program, self.rounds = program, rounds

    def medians(self, once, name, *more):
        """The medians of what is measured in each round."""
        return [statistics.median(each) for each in zip(*(once(name, *more) for _ in range(self.rounds)))]

    def theory(self, name, texts, is_right, at):
        """A session over these commands, where this is what stands at a place."""
        session = Session(self.program, *ONE_KEPT)
        replies, _ = session.send([new_theory(), *put(texts)])
        expect(replies, is_done, "what sets up " + name)
        replies, _ = session.send([report(at)])
        expect(replies, is_right, "the steps of " + name)
        return session

    def rerun(self, session, name, before, texts):
        """The processor time of running the commands again that follow so many ones and the goal."""
        at, runs = len(before) + 1, sum(is_run(text) for text in texts)
        edits = [anew(at, text) for text in reversed(ASSUMED)]
        return repeated(session, lambda time: [line for each in edits for line in each(time)], 2 * (1 + runs), name, SECONDS) / 2

    def seconds(self, name, goal, before, texts):
        """The processor time of running these commands again that come behind the goal, and the next one."""
        whole = [*before, "g N `%s`" % goal, ASSUMED[0], *texts]
        session = self.theory(name, whole, is_goals, len(whole) - 1)
        used = self.rerun(session, name, before, texts)
        replies, _ = session.send([report(len(whole) - 1)])
        expect(replies, is_goals, "the steps of " + name)
        session.close()
        return used

    def pairs(self, name, goal, expression, before=(), behind=()):
        """The processor time of the expression, and of the `b` that takes it back, in one round."""
        tried = [*behind, *["e " + expression, "b"] * PAIRS]
        whole, without = (self.seconds(name, goal, before, texts) for texts in (tried, behind))
        return [(whole - without) / PAIRS]

    def ends(self, name, goal, steps, before=()):
        """The processor time of all steps, and of the `qed`, in one round."""
        steps = ["e " + step for step in steps]
        whole = [*before, "g N `%s`" % goal, ASSUMED[0], *steps, "qed"]
        last = len(whole) - 1
        session = self.theory(name, whole, is_made, last)
        qed = repeated(session, anew(last, "qed"), 1, name, SECONDS)
        expect(session.send([replace(last, "oops")])[0], is_done, name)
        oops = repeated(session, [replace(last, "oops")], 0, name, SECONDS / 10)
        session.close()
        whole, without = (self.seconds(name, goal, before, texts) for texts in (steps, []))
        return whole - without, qed - oops

    def step(self, expression, goal, before=(), behind=()):
        """The seconds of the expression, and of the `b` that takes it back."""
        return self.medians(self.pairs, expression.split()[0], goal, expression, before, behind)[0]

    def proof(self, name, goal, steps, before=()):
        """The seconds of all steps, and of the `qed`."""
        return self.medians(self.ends, name, goal, steps, before)


def main():
    program, rounds, only = arguments(__doc__)
    measure = Measure(program, rounds)
    print("%-32s %14s %14s" % ("an `e` and its `b`", "100 nodes", "10,000 nodes"))
    for small, large in zip(functions(100), functions(10000)):
        name = small[0].split()[0]
        if only in name:
            print("%-32s %11.1f us %11.1f us" % (name, *(1e6 * measure.step(*job) for job in (small, large))), flush=True)
    print("%-32s %14s %14s %14s" % ("proofs", "steps", "a step", "qed"))
    for name, goal, steps, *before in proofs():
        if only in name:
            each, end = measure.proof(name, goal, steps, *before)
            print("%-32s %14d %11.1f us %11.2f ms" % (name, len(steps), 1e6 * each / len(steps), 1e3 * end), flush=True)
    print("%-32s %14s %14s" % ("%d leaves" % LEAVES, "e", "qed"))
    for name, goal, expression in leaves():
        if only in name:
            print("%-32s %11.2f ms %11.2f ms" % (name, *(1e3 * each for each in measure.proof(name, goal, [expression]))), flush=True)


if __name__ == "__main__":
    main()
