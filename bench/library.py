#!/usr/bin/env python3
"""The library of theories beside HOL Light's: which names of HOL Light's files stand in theories/, and which of these say the same. And what the library costs.

    python3 bench/library.py [--record FILE] [--all] [--write]
    python3 bench/library.py --program PATH [--rounds N] [--dear N]

The first needs HOL Light (Debian: apt-get install hol-light libnum-ocaml-dev), which is loaded with the files of FILES, without the proofs of what they
state before they prove it, as only statements are compared: that takes a minute or two in place of many. Each theorem that a file of it names is looked up
in theories/; where the name stands, HOL Light's own parser reads our statement, with our names of constants, and its `aconv` compares it with the theorem,
free variables quantified outside, in the order of their first places, and type variables numbered. HOL Light's sets {x | p} and functions of pairs are
first written as theories/README.md says, and its numerals without NUMERAL. With --record the theorems are those of a recorded run, as `holls import` makes
one (docs/EDITORS.md), which takes seconds: there the terms are compared, with their types, as holls.exchange.neutral translates HOL Light's. It prints a
table by file, and with --all the statements that differ, ours and HOL Light's, and the names that are missing; --write puts the table into
theories/README.md. The status is 1 where a statement differs that isn't in ALLOWED.

The second measures the program PATH, crates/hol_serve/out/hol_serve: the library from nothing, and a change of a step in the middle of logic.hol whose
theorem stays. With --dear it lists instead what each file and the N dearest proofs take (an import is a proof of its own).

Needs Python 3.9 and Linux, and nothing else.
"""

import argparse
import dataclasses
import os
import pathlib
import re
import statistics
import subprocess
import sys
import tempfile

from bench import Session, is_done, is_run, measure, put, replace, request, row
from hol_light import ROOT as HOL_LIGHT

ROOT = pathlib.Path(__file__).resolve().parents[1]
sys.path.insert(0, str(ROOT / "clients"))
from holls import checking  # noqa: E402 (clients/holls)
from holls.check import ordered, sent  # noqa: E402 (clients/holls)
from holls.exchange import neutral  # noqa: E402 (clients/holls)
from holls.exchange.ocaml import spaced, string  # noqa: E402 (clients/holls)
from holls.exchange.recording import names  # noqa: E402 (clients/holls)
from holls.manual import PRELUDE  # noqa: E402 (clients/holls)
from holls.prover import typed  # noqa: E402 (clients/holls)
from holls.prover.scope import Scope  # noqa: E402 (clients/holls)

FILES = (
    "theorems.ml", "class.ml", "trivia.ml", "pair.ml", "nums.ml", "arith.ml", "wf.ml", "ind_types.ml", "lists.ml", "int.ml", "sets.ml", "iterate.ml",
    "Library/rstc.ml", "Library/prime.ml", "Library/binomial.ml", "Library/permutations.ml", "Library/products.ml", "Library/isum.ml")
"""The files of HOL Light in the table; of int.ml what is about num alone. The last six aren't among those that hol.ml loads."""
NAMES = {
    "pair": ",", "add": "+", "mult": "*", "sub": "-", "le": "<=", "lt": "<", "GE": ">=", "GT": ">", "numseg": "..", "cong": "==", "divides": "num_divides",
    "coprime": "num_coprime", "gcd": "num_gcd", "lcm": "num_lcm", "le_c": "<=_c", "lt_c": "<_c", "ge_c": ">=_c", "gt_c": ">_c", "eq_c": "=_c",
}
"""Our names of constants that HOL Light calls otherwise."""
TYPES = ("list", "option", "prod", "sum", "recspace")
"""The library's types of types."""
ALLOWED = frozenset()
"""Names whose statements may differ."""
ABOUT_OTHERS = ("real", "hreal", "nadd", "treal", "complex", "cart", "finite_image", "word")
"""Types that the library doesn't have: a theorem about them is counted in no row."""
INTEGERS = "int.ml, of integers"
"""The row of theorems about integers, which stand in a file among others."""
BEGIN, END = "<!-- Made by bench/library.py --write, from here -->", "<!-- to here. -->"
PROVED = re.compile(r"\bprove(\)?\s*\(\s*)(?=`)")
RULED = re.compile(r"^(let [A-Za-z0-9_']+ =\s*)(?:REAL_ARITH|INT_ARITH|ARITH_RULE|INTEGER_RULE|NUMBER_RULE|TAUT)\s*(`[^`]*`);;", re.M)
"""How HOL Light's files prove a theorem that they state: by `prove`, up to what it states; or by a rule, whole."""
SCRIPT = r"""
let kept = ref ([] : (string * string * thm) list);;
let keep file name th = kept := (file,name,th) :: !kept;;
let as_stated tm = mk_thm([],tm);;
"""
COMPARING = r"""
let rec plain tm = match tm with
    Comb(Const("NUMERAL",_),digits) -> digits
  | Comb(Const("GSPEC",_),Abs(v,body)) -> plain_set v (plain body)
  | Comb(Const("GABS",_),Abs(f,body)) -> (try plain_function f (plain body) with Failure _ -> mk_comb(rator tm,plain (rand tm)))
  | Comb(f,x) -> mk_comb(plain f,plain x)
  | Abs(v,body) -> mk_abs(v,plain body)
  | _ -> tm
and plain_set v body =
  let xs,inside = strip_exists body in
  match inside with
    Comb(Comb(Comb(Const("SETSPEC",_),w),p),t) when w = v ->
      if xs = [t] then mk_abs(t,p) else mk_abs(v,list_mk_exists(xs,mk_conj(p,mk_eq(v,t))))
  | _ -> failwith "plain_set"
and plain_function f body =
  let xs,inside = strip_forall body in
  match inside with
    Comb(Comb(Const("GEQ",_),Comb(g,pattern)),t) when g = f -> uncurried pattern t
  | _ -> failwith "plain_function"
and uncurried pattern t = match pattern with
    Comb(Comb(Const(",",_),x),y) when is_var x ->
      let inner = mk_abs(x,(if is_var y then mk_abs(y,t) else uncurried y t)) in
      mk_icomb(mk_const("UNCURRY",[]),inner)
  | _ -> failwith "uncurried";;
let closed tm =
  let rec places bound found tm = match tm with
      Var(_,_) -> if mem tm bound || mem tm found then found else tm :: found
    | Const(_,_) -> found
    | Comb(f,x) -> places bound (places bound found f) x
    | Abs(v,b) -> places (v :: bound) found b in
  list_mk_forall(List.rev (places [] [] tm),tm);;
let numbered tm =
  let rec of_type ty found = match ty with Tyvar _ -> if mem ty found then found else found @ [ty] | Tyapp(_,l) -> List.fold_left (fun a b -> of_type b a) found l in
  let rec of_term tm found = match tm with
      Var(_,ty) | Const(_,ty) -> of_type ty found | Comb(f,x) -> of_term x (of_term f found) | Abs(v,b) -> of_term b (of_term v found) in
  let tyvars = of_term tm [] in
  inst (List.mapi (fun i ty -> mk_vartype ("T" ^ string_of_int i),ty) tyvars) tm;;
new_constant("UNCURRY",`:(A->B->C)->A#B->C`);;
new_type_abbrev("one",`:1`);;
List.iter (fun (s,_) -> if not (mem s ["<=>";"==>";"\\/";"/\\";"="]) then unparse_as_infix s) (infixes());;
List.iter (fun s -> if not (mem s ["\\";"!";"?";"?!";"@"]) then unparse_as_binder s) (binders());;
List.iter (fun s -> if s <> "~" then unparse_as_prefix s) (prefixes());;
the_overload_skeletons := [];;
the_interface := filter (fun (n,_) -> n = "<=>") !the_interface;;
let called (ours,theirs) = the_interface := (ours,(theirs,get_const_type theirs)) :: !the_interface;;
let compare_all ours =
  List.iter (fun (file,name,th) ->
    if hyp th = [] then
      let their = concl th in
      let told = (match (try Some(assoc name ours) with Failure _ -> None) with
          None -> "missing"
        | Some text ->
          (try if aconv (numbered (closed (parse_term text))) (numbered (closed (plain their))) then "same" else "differs"
           with Failure why -> "unread " ^ String.map (fun c -> if c = '\n' then ' ' else c) why | _ -> "unread")) in
      let rec types ty = match ty with Tyapp(n,l) -> n :: List.concat (map types l) | _ -> [] in
      let rec of_term tm = match tm with Var(_,ty) | Const(_,ty) -> types ty | Comb(f,x) -> of_term f @ of_term x | Abs(v,b) -> of_term v @ of_term b in
      Printf.printf "\nNAMED %s %s %s %s\n%!" file name (String.concat "," (setify (of_term their))) told;
      if told <> "missing" && told <> "same" then
        Printf.printf "THEIRS %s %s\n%!" name (String.map (fun c -> if c = '\n' then ' ' else c) (string_of_term (closed (plain their))))) (rev !kept);;
"""


class Theories:
    """The files of theories/ in the order of their imports: their commands, and statements by name."""

    def __init__(self):
        self.files = list(sent([str(ROOT / "theories")]).items())
        self.statements = dict(PRELUDE)
        for _, texts in self.files:
            for text in texts:
                self.take(text)

    def take(self, text):
        """What a command states."""
        word, *names_of = re.sub(r"`.*", "", text, flags=re.S).split()
        if word in ("g", "new_definition"):
            statement = text[text.index("`") + 1:text.rindex("`")]
            self.statements[names_of[0]] = " ".join(statement.split())


@dataclasses.dataclass
class Row:
    """Of a file of HOL Light: how many names of theorems it has, and those that stand here, by how they compare."""

    names: int = 0
    same: list = dataclasses.field(default_factory=list)
    differs: list = dataclasses.field(default_factory=list)
    missing: list = dataclasses.field(default_factory=list)

    def line(self, file):
        stand = len(self.same) + len(self.differs)
        return f"| {file} | {self.names} | {stand} | {len(self.same)} | {len(self.differs)} | {self.names - stand} |"


def readable(statement):
    """Our statement as HOL Light reads it, but for the names of constants."""
    return re.sub(r"(?<![\w'])_1(?![\w'])", "( BIT1 _0 )", spaced(statement, TYPES))


def script(theories, room):
    """The lines that load HOL Light, keep the theorems of each file, and compare them with ours at the end: what goes before the first, and the rest. Files
    whose proofs are passed over are put into a folder."""
    first, rest = [], []
    for line in pathlib.Path(HOL_LIGHT, "hol.ml").read_text(encoding="utf-8").splitlines(keepends=True):
        loaded = re.match(r'loads "(.*)";;', line)
        if not rest or not loaded:
            (rest if rest else first).append(line)
        else:
            rest += stated(loaded.group(1), room)
        if loaded and loaded.group(1) == "simp.ml":
            rest.append(SCRIPT)
        if loaded and loaded.group(1) == "define.ml":
            break
    for file in FILES:
        if file.startswith("Library/"):
            rest += stated(file, room)
    ours = ";\n".join(f"{string(name)},{string(readable(text))}" for name, text in theories.statements.items())
    called = "".join(f"called ({string(our)},{string(their)});;\n" for our, their in NAMES.items())
    return "".join(first), "".join(rest) + COMPARING + called + f"compare_all [{ours}];;\n"


def stated(file, room):
    """The lines that load a file without its proofs, and keep its theorems if it is in the table."""
    path = pathlib.Path(room, file.replace("/", "_"))
    path.write_text(without_proofs(pathlib.Path(HOL_LIGHT, file).read_text(encoding="latin-1")), encoding="latin-1")
    return [f'loadt "{path}";;\n', *(kept(file) if file in FILES else ())]


def without_proofs(text):
    """A file of HOL Light's in which the theorems that it proves by `prove` or a rule, each by itself, are taken as they are stated: proofs take minutes."""
    text, made, at = re.sub(r'^needs ".*";;', "", text, flags=re.M), [], 0  # Those would load files with their proofs.
    for found in PROVED.finditer(text):
        if found.start() >= at:
            end = text.index("`", found.end() + 1) + 1
            made += [text[at:found.start()], "as_stated", found.group(1), text[found.end():end], ")"]
            at = closing(text, end)
    return RULED.sub(r"\1as_stated \2;;", "".join(made) + text[at:])


def closing(text, at):
    """The place behind the bracket that closes the one that is open at a place of OCaml's."""
    depth, comments = 1, 0
    for found in re.compile(r'\(\*|\*\)|`[^`]*`|"(?:[^"\\]|\\.)*"|[()]', re.S).finditer(text, at):
        token = found.group()
        comments += (token == "(*") - (token == "*)")
        depth += 0 if comments else (token == "(") - (token == ")")
        if not depth:
            return found.end()
    return len(text)


def kept(file):
    """The lines that keep a file's theorems; those names that are something else are refused there."""
    text = pathlib.Path(HOL_LIGHT, file).read_text(encoding="latin-1")
    return [f'keep "{file}" "{name}" {name};;\n' for name in dict.fromkeys(names(text))]


def hol_light(theories):
    """What HOL Light prints when it has compared all."""
    with tempfile.TemporaryDirectory() as room:
        before, rest = script(theories, room)
        pathlib.Path(room, "init.ml").write_text(before, encoding="utf-8")
        done = subprocess.run([f"{HOL_LIGHT}/ocaml", "-noprompt", "-init", f"{room}/init.ml"], input=rest, stdout=subprocess.PIPE,
                              stderr=subprocess.STDOUT, encoding="utf-8", errors="replace", check=False)
    return done.stdout


def told_by_hol_light(theories):
    """Of each theorem that HOL Light names: its file, its name, the types in it, and how our statement compares, with theirs where it isn't the same."""
    output = hol_light(theories)
    theirs = dict(re.findall(r"^THEIRS (\S+) (.*)$", output, re.M))
    return [(file, name, types.split(","), f"{told}\n  HOL Light  {' '.join(theirs[name].split())}" if name in theirs else told)
            for file, name, types, told in re.findall(r"^NAMED (\S+) (\S+) (\S*) (.*)$", output, re.M)]


def told_by_record(path):
    """The same of a recorded run."""
    sys.setrecursionlimit(20_000)
    with open(path, encoding="latin-1") as lines:
        record = neutral.read(lines)
    translator, scope, told = neutral.Translator(record), Scope(), []
    for unit in checking.units(ordered([str(ROOT / "theories")])):
        scope.add_file(unit.file)
    for name, (number, file) in record.names.items():
        theorem = record.theorems[number]
        if file not in FILES or theorem.hypotheses:
            continue
        try:
            term = translator.term(theorem.conclusion)
        except neutral.Untranslatable as error:
            told.append((file, name, (), f"unread {error}" if name in scope.theorems else "missing"))
            continue
        is_same = name in scope.theorems and numbered(closed(scope.theorems[name])) == numbered(closed(term))
        told.append((file, name, constructors(term), "same" if is_same else "differs" if name in scope.theorems else "missing"))
    return told


def constructors(term):
    """The names of the type constructors in a term."""
    found, waiting = set(), [part[2] for part in typed.subterms(term) if part[0] in "vcl"]
    while waiting:
        ty = waiting.pop()
        if isinstance(ty, tuple):
            found.add(ty[0])
            waiting += ty[1:]
    return found


def closed(term):
    """A term for all of its free variables, in the order in which they stand there."""
    variables = dict.fromkeys(part for part in typed.subterms(term) if part[0] == "v")
    for variable in reversed(variables):
        quantifier = ("c", "!", typed.fun(typed.fun(variable[2], typed.BOOL), typed.BOOL))
        term = ("a", quantifier, typed.abstract(variable, term))
    return term


def numbered(term):
    """A term with numbers for its type variables, by their first places."""
    numbers = {}

    def type_of(ty):
        if isinstance(ty, str):
            return numbers.setdefault(ty, len(numbers))
        return (ty[0], *map(type_of, ty[1:]))

    def put(part):
        if part[0] in "vc":
            return part[0], part[1], type_of(part[2])
        if part[0] == "a":
            return "a", put(part[1]), put(part[2])
        return ("l", type_of(part[2]), put(part[3])) if part[0] == "l" else part

    return put(term)


def rows(told_of_all):
    """The table's rows by file, and the names that differ or that can't be read, with what is told of them."""
    found, others = {}, {}
    for file in FILES:
        found[file] = Row()
        if file == "int.ml":
            found[INTEGERS] = Row()
    for file, name, types, told in told_of_all:
        if set(types) & set(ABOUT_OTHERS):
            continue
        row = found[INTEGERS if "int" in types and file == "int.ml" else file]
        row.names += 1
        if told == "same":
            row.same.append(name)
        elif told == "missing":
            row.missing.append(name)
        else:
            row.differs.append(name)
            others[name] = told
    return found, others


def kept_rows(found, text):
    """The rows, and for files of which nothing was told those of a table that stands, as where a record has not all files."""
    stand = {name: list(map(int, numbers)) for name, *numbers in re.findall(r"^\| (\S.*?) \| (\d+) \| \d+ \| (\d+) \| (\d+) \|", text, re.M)}
    for file, row in found.items():
        if not row.names and file in stand:
            names, same, differs = stand[file]
            found[file] = Row(names, [""] * same, [""] * differs)
    return found


def table(found):
    lines = ["| HOL Light | names | stand here | identical | differing | missing |", "|---|---:|---:|---:|---:|---:|"]
    lines += [row.line(file) for file, row in found.items()]
    total = Row(sum(row.names for row in found.values()), [name for row in found.values() for name in row.same],
                [name for row in found.values() for name in row.differs])
    return "\n".join([*lines, total.line("together")])


def compare(theories, record, is_all, is_written):
    """Prints the comparison, and says whether no statement differs but those that may."""
    if not record and not os.path.exists(f"{HOL_LIGHT}/hol.ml"):
        sys.exit("library: HOL Light is not installed (Debian: apt-get install hol-light libnum-ocaml-dev)")
    page = ROOT / "theories" / "README.md"
    found, others = rows(told_by_record(record) if record else told_by_hol_light(theories))
    found = kept_rows(found, page.read_text(encoding="utf-8")) if record else found
    print(table(found))
    for name, told in others.items() if is_all else ():
        print(f"\n{name}: {told}\n  here       {theories.statements[name]}")
    for file, row in found.items() if is_all else ():
        print(f"\nmissing of {file}: {', '.join(row.missing) or 'nothing'}")
    if is_written:
        before, rest = page.read_text(encoding="utf-8").split(BEGIN, 1)
        page.write_text(f"{before}{BEGIN}\n\n{table(found)}\n\n{END}{rest.split(END, 1)[1]}", encoding="utf-8")
    differing = sorted(set(others) - ALLOWED)
    if differing:
        print(f"library: {len(differing)} statements differ: {', '.join(differing)}")
    return bool(sum(row.names for row in found.values())) and not differing


def middle(texts):
    """The place of a step in the middle of a file, and another text of it, which proves T on the way: its theorem stays."""
    place = next(place for place in range(len(texts) // 2, len(texts)) if texts[place].startswith("e "))
    return place, f"e SUBGOAL_THEN `T` ASSUME_TAC THENL [REWRITE_TAC []; {texts[place][2:].strip()}]"


def costs(theories, program, rounds):
    """Prints the rows of the whole library and of an edit."""
    whole = []
    for place, (name, texts) in enumerate(theories.files):
        whole += [request(op="new_theory", name=name, at=place), *put(texts, name)]
    runs = sum(is_run(text) for _, texts in theories.files for text in texts)
    name, texts = theories.files[0]
    place, text = middle(texts)
    theorem = max(at for at in range(place) if texts[at].startswith("g "))
    end = next(at for at in range(place, len(texts)) if texts[at] == "qed")
    made = texts[theorem].split()[1].encode()

    def stands(reply):
        return reply.startswith(b'{"made":["thm ' + made)

    shown = (request(op="report", theory=name, at=end), stands)
    print("%-50s %11s %11s %14s %12s" % ("job", "time", "lines/s", "processor", "peak memory"))
    taken = [measure(program, [], whole, is_done, "the library", runs) for _ in range(rounds)]
    print(row("the library from nothing", len(whole), taken), flush=True)
    taken = [measure(program, whole, [replace(place, text, name)], is_done, "the step", 1, shown) for _ in range(rounds)]
    print(f"step {place} of {name}, which alone is run: {1000 * statistics.median(each[2] for each in taken):.2f} ms of processor time", flush=True)


def proofs(texts):
    """The places of each proof, from its `g` to its `qed`, and of each other command."""
    start = 0
    for at, text in enumerate(texts):
        if not texts[start].startswith("g ") or text == "qed":
            yield start, at + 1
            start = at + 1


def dear(theories, program, most):
    """Prints what each file takes, the dearest first, and then the dearest proofs."""
    session, files, taken = Session(program), [], []
    for place, (name, texts) in enumerate(theories.files):
        begun, memory = session.processor(), session.peak()
        session.send([request(op="new_theory", name=name, at=place)])
        for start, end in proofs(texts):
            before = session.processor()
            session.send([request(op="insert", theory=name, at=at, text=texts[at]) for at in range(start, end)])
            taken.append((session.processor() - before, name, " ".join(texts[start].split("`")[0].split()[:2]), end - start))
        files.append((session.processor() - begun, name, len(texts), (session.peak() - memory) / 1024))
    session.close()
    print("%-24s %9s %9s %9s" % ("file", "ms", "commands", "MB"))
    for seconds, name, commands, memory in sorted(files, reverse=True):
        print("%-24s %9.1f %9d %9.1f" % (name, 1000 * seconds, commands, memory))
    print("%-24s %-40s %9s %9s" % ("file", "proof", "ms", "commands"))
    for seconds, name, proof, commands in sorted(taken, reverse=True)[:most]:
        print("%-24s %-40s %9.2f %9d" % (name, proof, 1000 * seconds, commands))


def main():
    parser = argparse.ArgumentParser(description=__doc__, formatter_class=argparse.RawDescriptionHelpFormatter)
    parser.add_argument("--record", metavar="FILE", help="compare with the theorems of a recorded run")
    parser.add_argument("--all", action="store_true", help="list those that differ, with what stands here")
    parser.add_argument("--write", action="store_true", help="put the table into theories/README.md")
    parser.add_argument("--program", help="measure this program instead")
    parser.add_argument("--rounds", type=int, default=3, help="how often each is measured (3)")
    parser.add_argument("--dear", type=int, metavar="N", help="list what each file and the N dearest proofs take")
    given = parser.parse_args()
    theories = Theories()
    if given.program and given.dear:
        return dear(theories, os.path.abspath(given.program), given.dear)
    if given.program:
        return costs(theories, os.path.abspath(given.program), given.rounds)
    return None if compare(theories, given.record, given.all, given.write) else 1


if __name__ == "__main__":
    sys.exit(main())
