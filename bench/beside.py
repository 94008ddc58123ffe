#!/usr/bin/env python3
"""The kernel's rules, the derived rules and whole theories beside HOL Light's, in one run, by processor time.

    python3 bench/beside.py [--program PATH] [--serve PATH] [--rounds N] [--only PART] [--processor N]

--program is the built program OUT/hol_bench (bench/programs.py), and --serve crates/hol_serve/out/hol_serve. What isn't given is left out. Parts:

  kernel    by hol_bench: how many of each rule of the kernel are done in a second. The work is the same in both: towers `f (f .. x)` of so many applications of 5 nodes each, and
            the theorem `t = t` of them
  derived   by hol_bench: the same of each derived rule of bool.ml and equal.ml, of the same premises in both: theorems `t = t` of such towers, and what is made of them, under
            hypotheses of that kind where a rule takes one off. Beside it, how many rules of the kernel each takes in HOL Light, whose kernel is counted while it loads a
            second time. EQT_ELIM and IMP_ANTISYM_RULE have no call here, so HOL Light's stand alone
  rules     by hol_serve: what one round more of a proof takes in its `qed` (by 50 and by 150 rounds, of formulas like `T` and `x = x`), with what the `qed` does around the
            rules: it walks the step, joins its basis, takes its premise. HOL Light's rules alone stand beside it, so this is no comparison of rules: `derived` is
  theories  how long the theories of examples/theories take from nothing. HOL Light runs the same steps by its own functions of the same names; what is timed there
            are the calls alone, with the reading of their quotations, and beside it all that its toplevel takes with reading OCaml. Ours is all from the first request
  library   how long the theorems of theories/ that HOL Light has by these names take, there by its own tactics; once

Both sides take turns on one processor, the one on which a loop takes least at the beginning: a round of a row is HOL Light's measurement and, right behind it, ours, of a tenth
of a second each. Shown are the best round of each side and the ratio of these two, since what else a machine does only slows; and behind it the median of the rounds' ratios. A
fourth of the rounds are taken for `rules` and `theories`. What that loop takes is printed at the beginning and at the end: it tells how busy the machine is. HOL Light is Debian's
package (apt-get install hol-light libnum-ocaml-dev), loaded up to class.ml. Where it is not installed, only our figures are printed.

Needs Python 3.8 and Linux, and nothing else.
"""

import argparse
import os
import pathlib
import re
import statistics
import sys
import time

import hol_light
from bench import ONE_KEPT, Session, anew, expect, is_done, is_run, measure, new_theory, put, repeated, report, request
from hol_light import HolLight
from kernel import HEIGHTS, RULES, enough, processor_seconds
from library import Theories
from theories import EXAMPLES, commands, documents

KERNEL = 'loads "fusion.ml";;'
SCRIPT = """
let a = mk_vartype "A";;
let f = mk_var("f", mk_fun_ty a a);;
let x = mk_var("x", a) and y = mk_var("y", a) and z = mk_var("z", a);;
let rec tower v n = if n = 0 then v else mk_comb(f, tower v (n-1));;
let seconds times g =
  let before = Sys.time() in
  for i = 1 to times do ignore (g ()) done;
  Sys.time() -. before;;
let rec enough times g = let spent = seconds times g in if spent > 0.1 then int_of_float (0.1 *. float times /. spent) else enough (times * 2) g;;
let jobs = Hashtbl.create 100;;
let keep height name g = Hashtbl.add jobs (name,height) (g,enough 100 g);;
let turn name height = let g,times = Hashtbl.find jobs (name,height) in Printf.printf "rate %.0f\\n%!" (float times /. seconds times g);;
let each_kernel_rule height =
  let t = tower x height in
  let th = REFL t in
  let ff = REFL f in
  let redex = mk_comb(mk_abs(x,t),x) in
  keep height "refl" (fun () -> REFL t);
  keep height "trans" (fun () -> TRANS th th);
  keep height "mk_comb" (fun () -> MK_COMB(ff,th));
  keep height "beta" (fun () -> BETA redex);
  keep height "inst" (fun () -> INST [y,x] th);
  keep height "inst_type" (fun () -> INST_TYPE [mk_vartype "B",a] th);;
"""
DERIVED = """
let each_rule height job =
  let t = tower x height and u = tower y height and w = tower z height in
  let th = REFL t and th' = REFL u in
  let p = concl th and q = concl th' and r = concl (REFL w) in
  let assumed = ASSUME p and both = CONJ th th' and implies = DISCH q th in
  let all = GEN x th and some = mk_exists(x,p) in
  let exists = EXISTS (some,x) th and either = DISJ1 th q in
  let under_p = ADD_ASSUM p th' and under_q = ADD_ASSUM q th' and under_r = ADD_ASSUM r th' in
  let falsity = ASSUME (mk_const("F",[])) in
  let denied = DISCH p (ADD_ASSUM p falsity) in
  let truth = EQT_INTRO th and refuted = NOT_INTRO denied in
  let back = DISCH p th' in
  let redex = mk_comb(mk_abs(x,p),y) in
  job "conj" (fun () -> CONJ th th');
  job "conjunct1" (fun () -> CONJUNCT1 both);
  job "conjunct2" (fun () -> CONJUNCT2 both);
  job "mp" (fun () -> MP implies th');
  job "disch" (fun () -> DISCH p assumed);
  job "undisch" (fun () -> UNDISCH implies);
  job "eqt_intro" (fun () -> EQT_INTRO th);
  job "eqt_elim" (fun () -> EQT_ELIM truth);
  job "eqf_intro" (fun () -> EQF_INTRO refuted);
  job "imp_antisym" (fun () -> IMP_ANTISYM_RULE implies back);
  job "generalize" (fun () -> GEN x th);
  job "spec" (fun () -> SPEC y all);
  job "exists" (fun () -> EXISTS (some,x) th);
  job "choose" (fun () -> CHOOSE (z,exists) under_r);
  job "disj1" (fun () -> DISJ1 th q);
  job "disj2" (fun () -> DISJ2 q th);
  job "disj_cases" (fun () -> DISJ_CASES either under_p under_q);
  job "contr" (fun () -> CONTR p falsity);
  job "not_intro" (fun () -> NOT_INTRO denied);
  job "prove_hyp" (fun () -> PROVE_HYP th assumed);
  job "sym" (fun () -> SYM th);
  job "ap_term" (fun () -> AP_TERM f th);
  job "beta_conv" (fun () -> BETA_CONV redex);;
"""
TIMED = "let each_derived_rule height = each_rule height (keep height);;\n"
COUNTED = """
let count name g = let before = !kernel_steps in ignore (g ()); Printf.printf "steps %s %d\\n%!" name (!kernel_steps - before);;
each_rule 4 count;;
"""
COUNTING = """
let kernel_steps = ref 0;;
let REFL t = incr kernel_steps; REFL t;;
let TRANS a b = incr kernel_steps; TRANS a b;;
let MK_COMB(a,b) = incr kernel_steps; MK_COMB(a,b);;
let ABS v a = incr kernel_steps; ABS v a;;
let BETA t = incr kernel_steps; BETA t;;
let ASSUME t = incr kernel_steps; ASSUME t;;
let EQ_MP a b = incr kernel_steps; EQ_MP a b;;
let DEDUCT_ANTISYM_RULE a b = incr kernel_steps; DEDUCT_ANTISYM_RULE a b;;
let INST_TYPE l a = incr kernel_steps; INST_TYPE l a;;
let INST l a = incr kernel_steps; INST l a;;
"""
DERIVED_RULES = tuple(re.findall(r'job "(\w+)"', DERIVED))
DERIVED_HEIGHTS = tuple((height, times) for height, times in HEIGHTS if height in (4, 400))
NO_CALL = ("eqt_elim", "imp_antisym")
"""The derived rules that no call of ours is."""
FEW, MANY = 50, 150
SECONDS = 0.2  # of qeds in a round, at least
QED_JOBS = {
    ("conj",): lambda n: ([], " /\\ ".join(["T"] * (n + 1)), ["CONJ_TAC", "ACCEPT_TAC TRUTH"] * n + ["ACCEPT_TAC TRUTH"]),
    ("mp", "disch"): lambda n: ([], "T", ["MP_TAC TRUTH", "DISCH_TAC"] * n + ["ACCEPT_TAC TRUTH"]),
    ("undisch", "disch"): lambda n: ([], "p ==> p", ["DISCH_TAC", "UNDISCH_TAC `p:bool`"] * n + ["DISCH_TAC", "FIRST_ASSUM ACCEPT_TAC"]),
    ("generalize",): lambda n: ([], "!%s. a:A = a" % " ".join(f"x{k}" for k in range(n)), ["GEN_TAC"] * n + ["REFL_TAC"]),
    ("spec", "generalize"): lambda n: ([], "x:A = x", ["SPEC_TAC (`x:A`, `x:A`)", "GEN_TAC"] * n + ["REFL_TAC"]),
    ("exists",): lambda n: ([], "?%s. a:A = a" % " ".join(f"(x{k}:A)" for k in range(n)), ["EXISTS_TAC `a:A`"] * n + ["REFL_TAC"]),
    ("choose",): lambda n: (["new_axiom A `?x:A. T`"], "T", ["CHOOSE_TAC A"] * n + ["ACCEPT_TAC TRUTH"]),
    ("disj1",): lambda n: ([], "(" * n + "T" + " \\/ F)" * n, ["DISJ1_TAC"] * n + ["ACCEPT_TAC TRUTH"]),
    ("disj2",): lambda n: ([], "F \\/ " * n + "T", ["DISJ2_TAC"] * n + ["ACCEPT_TAC TRUTH"]),
    ("disj_cases",): lambda n: (["new_axiom A `T \\/ F`"], "T", ["DISJ_CASES_TAC A", "ACCEPT_TAC TRUTH"] * n + ["ACCEPT_TAC TRUTH"]),
    ("contr", "conj"): lambda n: (["new_axiom A `F`"], " /\\ ".join(["p"] * (n + 1)), ["CONJ_TAC", "CONTR_TAC A"] * n + ["CONTR_TAC A"]),
    ("ap_term",): lambda n: ([], "%s p = %s p" % ("~" * n, "~" * n), ["AP_TERM_TAC"] * n + ["REFL_TAC"]),
}
"""The rules that a round of a proof uses, and the commands before a proof by so many rounds, its goal and its steps."""
THEORIES = """
let spent = ref 0.0;;
let timed g = let before = Sys.time() in let r = g () in spent := !spent +. (Sys.time() -. before); r;;
let ONE_ONE = new_definition `ONE_ONE (f:A->B) <=> !x1 x2. f x1 = f x2 ==> x1 = x2`;;
let ONTO = new_definition `ONTO (f:A->B) <=> !y. ?x. y = f x`;;
let begun = Sys.time();;
"""
SPENT = 'Printf.printf "theory %s %f %f\\n%!" "{name}" !spent (Sys.time() -. begun);;\n'
TACTICS = 'loads "tactics.ml";;'
TIMING = """
let proved = ref [];;
let prove(t,tac) = let before = Sys.time() in let th = prove(t,tac) in proved := (th,Sys.time() -. before)::!proved; th;;
let tell name th = try Printf.printf "proved %s %f\\n%!" name (snd (List.find (fun (own,_) -> own == th) !proved)) with Not_found -> ();;
"""
LAST_OF_LIBRARY = 'loads "sets.ml";;'
RENAMED = {"COND": "CONDITION"}
"""Constants of examples/theories that HOL Light has as its own."""


class Pair:
    """The rounds of one row: what each side did in a second, or the seconds that it took; and which of several is the best."""

    def __init__(self, best):
        self.ours, self.theirs, self.best = [], [], best

    def our(self):
        return self.best(self.ours)

    def their(self):
        return self.best(self.theirs)

    def times(self):
        """How many times as fast as they we are, by the best round of each side and by the median of the rounds."""
        ratios = [our / their for our, their in ((self.our(), self.their()), *zip(self.ours, self.theirs))]
        first, *rounds = ratios if self.best is max else [1 / ratio for ratio in ratios]
        return f"{first:8.2f}{statistics.median(rounds):8.2f}"


class Jobs:
    """Rules that HOL Light and hol_bench do on request, each for a tenth of a second."""

    def __init__(self, program, light, script, function, heights):
        self.program, self.light, self.times = program, light, {}
        if light:
            light.ask(SCRIPT + script + "".join(f"{function} {height};;\n" for height, _ in heights))

    def theirs(self, rule, height):
        """HOL Light's rate."""
        return float(re.search(r"^rate (\d+)$", self.light.ask(f'turn "{rule}" {height};;'), re.M)[1])

    def ours(self, rule, height, times):
        """Our rate; `times` is how often to do it at first, until it is known how often a tenth of a second takes."""
        if (rule, height) not in self.times:
            times = enough(self.program, rule, height, times)
            self.times[rule, height] = max(1, int(0.1 * times / processor_seconds(self.program, rule, height, times)[0]))
        times = self.times[rule, height]
        return times / max(processor_seconds(self.program, rule, height, times)[0] - processor_seconds(self.program, rule, height, 0)[0], 1e-6)

    def pair(self, rule, height, times, rounds):
        """The rates of both sides in turn."""
        found = Pair(max)
        for _ in range(rounds):
            if self.light:
                found.theirs.append(self.theirs(rule, height))
            if self.program and rule not in NO_CALL:
                found.ours.append(self.ours(rule, height, times))
        return found

    def close(self):
        if self.light:
            self.light.close()


def started(more=None):
    """HOL Light, where it is installed."""
    return HolLight(more) if hol_light.installed() else None


def line_of(rule, height, pair):
    """A row of a table of rates."""
    line = f"{rule:12}{height * 5 + 2:7}" + (f"{pair.our():14,.0f}" if pair.ours else " " * 14)
    if pair.theirs:
        line += f"{pair.their():14,.0f}" + (pair.times() if pair.ours else "")
    return line


def kernel_part(program, rounds):
    jobs = Jobs(program, started(), "", "each_kernel_rule", HEIGHTS)
    print(f"{'rule':12}{'nodes':>7}{'a second':>14}{'HOL Light':>14}{'times':>8}{'median':>8}")
    for rule in RULES:
        for height, times in HEIGHTS:
            print(line_of(rule, height, jobs.pair(rule, height, times, rounds)), flush=True)
    jobs.close()


def is_made(reply):
    return reply.startswith(b'{"made":["thm N ')


def qed_seconds(program, before, goal, steps):
    """The processor time of the `qed` behind these steps."""
    texts = [*before, f"g N `{goal}`", *("e " + step for step in steps), "qed"]
    last, session = len(texts) - 1, Session(program, *ONE_KEPT)
    expect(session.send([new_theory(), *put(texts)])[0], is_done, "a proof")
    expect(session.send([report(last)])[0], is_made, f"the proof of {goal[:40]}")
    seconds = repeated(session, anew(last, "qed"), 1, "a qed", SECONDS)
    session.close()
    return seconds


def round_seconds(program, job):
    """What one round more of such a proof takes in its `qed`, in seconds."""
    few, many = (qed_seconds(program, *job(count)) for count in (FEW, MANY))
    return (many - few) / (MANY - FEW)


def their_steps():
    """How many rules of HOL Light's kernel each derived rule takes there."""
    if not hol_light.installed():
        return {}
    with HolLight({KERNEL: COUNTING}) as light:
        return {rule: int(count) for rule, count in re.findall(r"^steps (\w+) (\d+)$", light.ask(SCRIPT + DERIVED + COUNTED), re.M)}


def derived_part(program, rounds):
    jobs, steps = Jobs(program, started(), DERIVED + TIMED, "each_derived_rule", DERIVED_HEIGHTS), their_steps()
    print(f"{'rule':12}{'nodes':>7}{'a second':>14}{'HOL Light':>14}{'times':>8}{'median':>8}{'its steps':>11}")
    for rule in DERIVED_RULES:
        for height, times in DERIVED_HEIGHTS:
            line = line_of(rule, height, jobs.pair(rule, height, times, rounds))
            print(f"{line:63}{steps[rule]:11}" if steps else line, flush=True)
    jobs.close()


def rules_part(program, rounds):
    least = DERIVED_HEIGHTS[:1]
    jobs = Jobs(None, started(), DERIVED + TIMED, "each_derived_rule", least)
    print(f"{'rules':24}{'ours in a qed':>16}{'HOL Light':>12}{'times':>8}{'median':>8}")
    for rules, job in QED_JOBS.items():
        pair = Pair(min)
        for _ in range(max(1, rounds // 4)):
            if jobs.light:
                pair.theirs.append(sum(1 / jobs.theirs(rule, least[0][0]) for rule in rules))
            if program:
                pair.ours.append(round_seconds(program, job))
        line = f"{' and '.join(rules):24}" + (f"{1e6 * pair.our():13.2f} us" if program else " " * 16)
        line += f"{1e6 * pair.their():9.2f} us" if jobs.light else ""
        print(line + (pair.times() if program and jobs.light else ""), flush=True)
    jobs.close()


def quoted(text):
    """The text with other names for the constants that HOL Light has."""
    for name, other in RENAMED.items():
        text = re.sub(rf"(?<![\w']){name}(?![\w'])", other, text)
    return text


def phrase(text, goal):
    """A command as OCaml, for the theorem that is being proved."""
    word, _, rest = text.strip().partition(" ")
    names, rest = re.match(r"([^`]*)(.*)", quoted(rest.strip()), re.S).groups()
    name = names.strip()
    plain = {
        "g": f"let _ = timed (fun () -> g {rest});;",
        "e": f"let _ = timed (fun () -> e ({names}{rest}));;",
        "qed": f"let {goal} = timed (fun () -> top_thm ());;",
        "new_constant": f'let _ = timed (fun () -> new_constant("{name}", {rest}));;',
        "new_axiom": f"let {name} = timed (fun () -> new_axiom {rest});;",
        "new_definition": f"let {name} = timed (fun () -> new_definition {rest});;",
    }
    if word in plain:
        return plain[word]
    if word == "new_type":
        made, arity = name.split()
        return f'let _ = timed (fun () -> new_type("{made}", {arity}));;'
    if word == "new_basic_type_definition":
        made, to, back, first, second, member = name.split()
        return f'let {first},{second} = timed (fun () -> new_basic_type_definition "{made}" ("{to}","{back}") {member});;'
    return "" if word == "import" else sys.exit(f"beside: a command that isn't known: {text}")


def phrases(name):
    """The commands of a theory as OCaml, and what tells the time at its end."""
    lines, goal = [], ""
    for text in commands(name):
        if text.startswith("g "):
            goal = text.split()[1]
        lines.append(phrase(text, goal))
    return "\n".join(lines) + "\n" + SPENT.format(name=name)


def their_theory(light, name):
    """HOL Light's seconds up to the end of this theory, behind those before it: those of its functions, and those with its toplevel."""
    output = light.ask(phrases(name))
    failed = re.findall(r"^(?:Exception|Error).*$", output, re.M)
    if failed:
        sys.exit("beside: HOL Light refuses a step of examples/theories:\n" + "\n".join(failed[:5]))
    return tuple(map(float, re.search(rf"^theory {name} ([\d.]+) ([\d.]+)$", output, re.M).groups()))


def our_theories(program, last):
    """Our seconds of processor time up to the end of this theory, from nothing."""
    theories = [(name, commands(name)) for name in EXAMPLES[:EXAMPLES.index(last) + 1]]
    runs = sum(is_run(text) for _, texts in theories for text in texts)
    return measure(program, [], documents(theories), is_done, "the theories", runs)[2]


def theories_part(program, rounds):
    calls, whole = ({name: Pair(min) for name in EXAMPLES} for _ in range(2))
    for _ in range(max(1, rounds // 4)):
        light = started()
        if light:
            light.ask(THEORIES)
        for name in EXAMPLES:
            if light:
                for pair, seconds in zip((calls[name], whole[name]), their_theory(light, name)):
                    pair.theirs.append(seconds)
            if program:
                seconds = our_theories(program, name)
                calls[name].ours.append(seconds)
                whole[name].ours.append(seconds)
        if light:
            light.close()
    print(f"{'theories up to':16}{'ours, s':>10}{'calls, s':>10}{'times':>8}{'median':>8}{'toplevel, s':>13}{'times':>8}{'median':>8}")
    for name in EXAMPLES:
        line = f"{name:16}" + (f"{whole[name].our():10.4f}" if program else " " * 10)
        for pair, width in ((calls[name], 10), (whole[name], 13)):
            line += (f"{pair.their():{width}.3f}" if pair.theirs else "") + (pair.times() if pair.theirs and program else " " * 16)
        print(line, flush=True)


def their_library(names):
    """The seconds that HOL Light takes to prove its theorems of these names."""
    lines = pathlib.Path(hol_light.ROOT, "hol.ml").read_text(encoding="utf-8").splitlines(keepends=True)
    start, end = (next(k for k, line in enumerate(lines) if line.startswith(last)) for last in (hol_light.LAST, LAST_OF_LIBRARY))
    asked = "".join(f'tell "{name}" {name};;\n' for name in names)
    with HolLight({TACTICS: TIMING}) as light:
        output = light.ask("".join(lines[start + 1:end + 1]) + asked)
    return {name: float(seconds) for name, seconds in re.findall(r"^proved (\S+) ([\d.]+)$", output, re.M)}


def our_library(program):
    """The seconds of processor time that each theorem of theories/ takes from its `g` to its `qed`, and all of them with what is between."""
    session, found = Session(program), {}
    for place, (name, texts) in enumerate(Theories().files):
        expect(session.send([request(op="new_theory", name=name, at=place)])[0], is_done, name)
        goals = [at for at, text in enumerate(texts) if text.startswith("g ")]
        cuts = sorted({0, *goals, *(texts.index("qed", at) + 1 for at in goals), len(texts)})
        for first, last in zip(cuts, cuts[1:]):
            before = session.processor()
            expect(session.send(put(texts, name)[first:last])[0], is_done, name)
            found[texts[first].split()[1] if first in goals else (name, first)] = session.processor() - before
    session.close()
    return found


def library_part(program, _rounds):
    names = [text.split()[1] for _, texts in Theories().files for text in texts if text.startswith("g ")]
    theirs = their_library(names) if hol_light.installed() else {}
    ours = our_library(program) if program else {}
    line = f"{len(theirs)} theorems of HOL Light's names: HOL Light's tactics {sum(theirs.values()):.2f} s"
    if ours:
        same = sum(ours[name] for name in theirs)
        line += f", ours {same:.3f} s" + (f", ratio {sum(theirs.values()) / same:.1f}" if theirs else "") + f"; all of theories/ {sum(ours.values()):.2f} s"
    print(line)


def loop_seconds(processor):
    """What a loop of ours takes on this processor, the least of five times."""
    os.sched_setaffinity(0, {processor})
    taken = []
    for _ in range(5):
        before = time.process_time()
        sum(range(1_000_000))
        taken.append(time.process_time() - before)
    return min(taken)


def main():
    parser = argparse.ArgumentParser(description=__doc__, formatter_class=argparse.RawDescriptionHelpFormatter)
    parser.add_argument("--program", help="the built hol_bench")
    parser.add_argument("--serve", help="the built hol_serve")
    parser.add_argument("--rounds", type=int, default=28)
    parser.add_argument("--only", default="", help="kernel, derived, rules, theories or library")
    parser.add_argument("--processor", type=int, help="the processor on which both sides run")
    given = parser.parse_args()
    seconds = {each: loop_seconds(each) for each in ([given.processor] if given.processor is not None else sorted(os.sched_getaffinity(0)))}
    processor = min(seconds, key=seconds.get)
    print(f"on processor {processor}, where a loop takes {1000 * loop_seconds(processor):.1f} ms", flush=True)
    program, serve = (path and os.path.abspath(path) for path in (given.program, given.serve))
    if not hol_light.installed():
        print("HOL Light is not installed")
    parts = (("kernel", kernel_part, program), ("derived", derived_part, program), ("rules", rules_part, serve), ("theories", theories_part, serve), ("library", library_part, serve))
    for part, work, needed in parts:
        if given.only in part:
            work(needed, given.rounds)
    print(f"at the end that loop takes {1000 * loop_seconds(processor):.1f} ms")


if __name__ == "__main__":
    main()
