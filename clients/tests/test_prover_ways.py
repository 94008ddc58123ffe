"""Ways to a proof: theorems that say a goal, premises, orders of rules, inductions; imports that are offered; and the server that is kept."""

import functools
import json
import os
import pathlib
import shutil
import stat
import subprocess
import tempfile
import time
import unittest
from unittest import mock

from holls.protocol import Refusal
from holls.prover import clock, command, induction, knowledge, orders, patterns, preparing, reading, scope, serving, shaping, typed
from holls.prover.facts import Fact
from holls.prover.finder import Finder
from holls.prover.premises import Premises
from holls.prover.shown import Shown
from holls.prover.warm import Request, Warm
from tests import forked, prover_goals
from tests.helpers import BUILT, ROOT, SECONDS
from tests.test_lsp import Editor


def library(*names):
    """What stands at the end of some files of theories/ and of those that they import."""
    found = scope.Scope()
    for file in prover_goals.theories():
        if not names or file.name in names:
            found.add_file(file)
    return found


LOGIC = ("logic", "functions", "pairs", "numbers", "arithmetic", "sets", "lists", "relations")


@functools.lru_cache(1)
def known():
    """What is known at the end of the files of logic, which no test changes."""
    return knowledge.Knowledge(library(*LOGIC))


class Theorems(unittest.TestCase):
    shares = "the library in a program"

    def setUp(self):
        self.known = known()
        self.scope = self.known.scope

    def read(self, text):
        """The term of a text."""
        return reading.term(text, self.scope.signature, ty=typed.BOOL)

    def test_a_theorem_has_a_pattern_for_each_conclusion(self):
        found = patterns.patterns(self.read("!x:A. P x ==> (!y. Q x y) /\\ ~R x"))
        self.assertEqual([[kind for kind, _ in one.path] for one in found], [["spec", "premise", "left", "spec"], ["spec", "premise", "right"]])
        binding = patterns.Binding()
        self.assertTrue(binding.match(found[1].conclusion, self.read("~R (f a:A)")))
        self.assertEqual(binding.instance(found[1].premises[0]), self.read("(P:A->bool) (f a)"))
        self.assertFalse(patterns.Binding().match(found[1].conclusion, self.read("R (a:A):bool")))

    def test_an_equation_is_found_by_its_shape(self):
        goal = self.read("P (c:A) ==> !x:A. ?y:B. R x y /\\ Q y")
        found = shaping.instances(Shown((), goal, {}), shaping.shapes(["SKOLEM_THM"], self.known), self.known)
        self.assertEqual([one.said for one in found], [self.read("(!x:A. ?y:B. R x y /\\ Q y) <=> (?y. !x:A. R x (y x) /\\ (Q:B->bool) (y x))")])
        inner = self.read("!z. (f:A->B) z = f z ==> (?x:A. R z x)")
        found = shaping.instances(Shown((), inner, {}), shaping.shapes(["RIGHT_IMP_EXISTS_THM"], self.known), self.known)
        self.assertEqual([one.said for one in found], [self.read("!z. (((f:A->B) z = f z) ==> (?x:A. R z x)) <=> (?x:A. f z = f z ==> R z x)")])
        none = self.read("!x:A. ?y:A. R x (f y)")
        self.assertEqual(shaping.instances(Shown((), none, {}), shaping.shapes(["RIGHT_IMP_EXISTS_THM"], self.known), self.known), [])

    def test_rules_that_end(self):
        for name, wanted in (("ADD_CLAUSES", True), ("MULT", True), ("EXP", True), ("REVERSE_APPEND", True), ("MEM", True), ("ADD_SYM", False),
                             ("ADD_ASSOC", False), ("UNION_COMM", False), ("IN_UNION", True), ("RTC_CASES_R", False)):
            self.assertEqual(self.known.is_decreasing(name), wanted, name)
        order = orders.Order({"c": 0, "f": 0})
        names = {name: ("c", name, typed.fun("A", "A")) for name in "cf"}
        x = ("v", "x", "A")
        f, c = (lambda term: ("a", names["f"], term)), (lambda term: ("a", names["c"], term))
        self.assertTrue(order.decreases(f(x), c(c(x))))
        self.assertFalse(order.decreases(c(x), f(x)))
        self.assertFalse(order.decreases(f(x), c(("v", "y", "A"))))
        self.assertFalse(order.decreases(x, x))

    def test_rare_constants_choose_premises(self):
        facts = [Fact(name, self.read(text)) for name, text in (
            ("COMMON", "!m n. add m n = add n m"), ("OTHER", "!n. add n _0 = n"), ("RARE", "!l:A list. LENGTH (REVERSE l) = LENGTH l"),
            ("FAR", "!s:A->bool. UNION s s = s"))]
        chosen = Premises(facts, frozenset(reading.PRELUDE)).chosen([self.read("LENGTH (REVERSE (l:A list)) = add _0 (LENGTH l)")], 3)
        self.assertEqual(chosen[0], "RARE")
        self.assertNotIn("FAR", chosen)

    def test_theorems_of_induction(self):
        found = {one.name: one for name in self.scope.theorems for one in induction.of(name, self.scope.theorems[name])}
        for name, cases, is_whole, guard in (("NUM_INDUCT", 2, True, None), ("LIST_INDUCT", 2, True, None), ("TC_INDUCT", 2, False, "TC"),
                                             ("FINITE_INDUCT_STRONG", 2, False, "FINITE"), ("pair_INDUCT", 1, False, None)):
            one = found[name]
            self.assertEqual((one.cases, one.is_whole, one.guard and patterns.head(one.guard)), (cases, is_whole, guard), name)
        self.assertNotIn("ADD_CLAUSES", found)

    def test_what_is_computed_and_what_sets_have(self):
        self.assertEqual(self.known.clauses["LENGTH"], ["LENGTH"])
        self.assertEqual(self.known.clauses["add"], ["ADD_CLAUSES"])
        self.assertEqual(self.known.members["UNION"], "IN_UNION")
        goal = [self.read("SUBSET (INTER s t) (s:A->bool)")]
        self.assertEqual(self.known.membership(goal), ["IN_INTER", "EXTENSION", "SUBSET", "IN"])
        self.assertEqual(self.known.membership([self.read("add m n = n")]), [])

    def test_what_holds_of_conditionals_and_abstractions(self):
        said = preparing.conditionals([self.read("!x. f (COND (P x) (x:A) y) = y")])
        self.assertEqual(len(said), 1)
        self.assertEqual(said[0], self.read("!x. (P x ==> COND (P x) (x:A) y = x) /\\ (~P x ==> COND (P x) x y = y)"))
        self.assertEqual(preparing.members([self.read("FINITE (\\x:A. P x /\\ IN x s)")]), [self.read("!x. IN x (\\x:A. P x /\\ IN x s) <=> P x /\\ IN x s")])
        self.assertEqual(preparing.members([self.read("!x:A. P x")]), [])


@unittest.skipUnless(BUILT.exists(), "hol_serve isn't built")
class OverTheLibrary(unittest.TestCase):
    shares = "the library in a program"

    def setUp(self):
        clock.use(prover_goals.spent)
        self.addCleanup(clock.use, time.monotonic)
        self.library = prover_goals.shared()

    def test_inductions(self):
        for text in ("!l:A list. REVERSE (REVERSE l) = l", "!n x. LENGTH (REPLICATE n (x:A)) = n", "!(R:A->A->bool) x y. TC R x y ==> RTC R x y",
                     "!n. EVEN (mult n (SUC n))", "!l (x:A). MEM x (APPEND l m) <=> MEM x l \\/ MEM x m"):
            self.assertTrue(self.library.prove(prover_goals.Stated("", [], text), False, 30.0).steps, text)

    def test_each_part_of_a_conjunction_goes_its_own_way(self):
        goal = prover_goals.Stated("", [], "!l m:A list. LENGTH (APPEND l m) = add (LENGTH l) (LENGTH m) /\\ (le (mult a b) c ==> lt (mult a b) (SUC c))")
        found = self.library.prove(goal, False, 8.0)
        self.assertTrue(found.steps)
        self.assertIn("CONJ_TAC", found.steps[0])

    def test_conditions_are_shown(self):
        for names, text in ((["SUB_ADD"], "le n m /\\ (P:num->bool) m ==> P (add (sub m n) n)"),
                            (["DIV_MULT"], "(!n. (P:num->bool) (DIV (mult _1 n) _1)) <=> (!n. P n)"),
                            (["DIV_MULT", "MAP_ID"], "~(k = _0) ==> MAP (\\x. DIV (mult k x) k) l = l")):
            self.assertTrue(self.library.prove(prover_goals.Stated("", names, text), True, 30.0).steps, text)

    def test_equations_for_functions_of_what_is_bound(self):
        for names, text in ((["RIGHT_IMP_EXISTS_THM", "SKOLEM_THM"], "!P (R:A->B->bool). (!x. P x ==> (?y. R x y)) <=> ?f. !x. P x ==> R x (f x)"),
                            (["SKOLEM_THM"], "(?f:A->num. !x. lt (f x) (g x)) <=> !x:A. ?y. lt y (g x)"),
                            (["EXISTS_UNCURRY", "PAIRED_ETA_THM"], "!P:((A,B)prod->C)->bool. (?f. P f) <=> ?f. P (UNCURRY (\\a b. f a b))"),
                            (["EXISTS_PAIR_FUN_THM", "o_DEF", "ETA_AX"], "!P:(A->B)->(A->C)->bool. (?f g. P f g) <=> ?h. P (o FST h) (o SND h)")):
            self.assertTrue(self.library.prove(prover_goals.Stated("", names, text), True).steps, text)

    def test_the_order_of_operands(self):
        for text in ("int_add (int_add a b) (int_add c d) = int_add d (int_add (int_add c b) a)",
                     "!x y z. int_mul x (int_add (int_mul y z) x) = int_mul (int_add x (int_mul z y)) x",
                     "(!x y. (f:A->A->A) x y = f y x) /\\ (!x y z. f x (f y z) = f (f x y) z) ==> f a (f b (f c d)) = f (f d c) (f b a)"):
            self.assertTrue(self.library.prove(prover_goals.Stated("", [], text), False).steps, text)

    def test_a_goal_is_made_simpler_where_it_is_not_closed(self):
        for text, wanted in (("(P:num->bool) (LENGTH (APPEND (CONS x NIL) (l:A list)))", "P (SUC (LENGTH l))"),
                             ("(Q:A list->bool) (REVERSE (REVERSE l))", "Q l"), ("(P:num->bool) m", None)):
            report = self.library.asker.step("g GOAL `%s`" % text)
            finder = Finder(self.library.asker, self.library.scope, report, text, clock.now() + 10.0)
            found = finder.simplify()
            for step in found or []:
                report = self.library.asker.step(step)
            self.assertEqual((found is None, report.goals[0].conclusion), (wanted is None, wanted or "P m"))
            self.library.asker.back(self.library.count)

    def test_all_theories_go_together(self):
        said = {file.name: self.library.asker.step("import " + file.name) for file in prover_goals.theories()}
        self.assertEqual({name: answer for name, answer in said.items() if isinstance(answer, Refusal)}, {})
        self.library.asker.back(self.library.count)

    def test_named_theorems_are_in_no_step_that_needs_none(self):
        found = self.library.prove(prover_goals.Stated("", [], "!(x:A) s t. IN x s /\\ SUBSET s t ==> ~(t = EMPTY)"), False, 30.0)
        self.assertIn("REWRITE_TAC [", found.steps[0])
        self.assertNotIn("IN_DELETE", " ".join(found.steps))


class Sockets(unittest.TestCase):
    def setUp(self):
        self.folder = tempfile.mkdtemp()
        self.addCleanup(shutil.rmtree, self.folder, True)
        patch = mock.patch.dict(os.environ, {"XDG_RUNTIME_DIR": self.folder})
        patch.start()
        self.addCleanup(patch.stop)

    def test_a_socket_is_the_users_alone(self):
        listener = serving.Listener(serving.address("/some/project", ["program"]), lambda request: {"said": request["word"]})
        self.addCleanup(listener.close)
        self.assertEqual(stat.S_IMODE(os.stat(serving.folder()).st_mode), 0o700)
        self.assertEqual(stat.S_IMODE(os.stat(listener.path).st_mode), 0o600)
        self.assertEqual(serving.ask(listener.path, {"word": "x"}, SECONDS), {"said": "x"})
        self.assertNotEqual(serving.address("/some/project", ["other"]), listener.path)
        again = serving.Listener(listener.path, lambda request: {})
        self.assertTrue(again.is_taken)
        listener.close()
        self.assertIsNone(serving.ask(listener.path, {"word": "x"}, 1.0))

    def test_a_folder_of_others_is_refused(self):
        os.mkdir(os.path.join(self.folder, "holls"))
        os.chmod(os.path.join(self.folder, "holls"), 0o755)
        with self.assertRaises(serving.Unsafe):
            serving.folder()
        shutil.rmtree(os.path.join(self.folder, "holls"))
        os.symlink("/tmp", os.path.join(self.folder, "holls"))
        with self.assertRaises(serving.Unsafe):
            serving.folder()

    def test_what_is_no_request_ends_nothing(self):
        listener = serving.Listener(serving.address("/p", []), lambda request: {"n": len(request)})
        self.addCleanup(listener.close)
        for odd in ([], 7, "x" * 70_000):
            self.assertIsNone(serving.ask(listener.path, odd, SECONDS))
        self.assertEqual(serving.ask(listener.path, {}, SECONDS), {"n": 0})

    def test_a_socket_that_nobody_answers_at_is_taken_over(self):
        path = serving.address("/p", [])
        pathlib.Path(path).write_text("")
        listener = serving.Listener(path, lambda request: {"n": 1})
        self.addCleanup(listener.close)
        self.assertEqual(serving.ask(path, {}, SECONDS), {"n": 1})


@unittest.skipUnless(BUILT.exists(), "hol_serve isn't built")
class Commands(unittest.TestCase):
    """`holls prove` in a project of a few files of the library."""

    def setUp(self):
        self.folder = pathlib.Path(tempfile.mkdtemp())
        self.addCleanup(shutil.rmtree, str(self.folder), True)
        for name in ("logic", "numbers", "arithmetic", "linear"):
            shutil.copy(str(ROOT / "theories" / (name + ".hol")), str(self.folder))
        (self.folder / "mine.hol").write_text("import arithmetic;;\ng A `le m n ==> lt (sub m n) (add (mult k k) _1)`;;\n\ng B `add m n = add n m`;;\n")
        (self.folder / "over.hol").write_text("import mine;;\n")
        self.environment = dict(os.environ, XDG_RUNTIME_DIR=str(self.folder))

    def prove(self, place, *words):
        """The status and output of `holls prove`."""
        done = forked.run("prove", "%s:%s" % (self.folder / "mine.hol", place), "--server", BUILT, "--seconds", "30", *words, text=True, env=self.environment)
        return done.returncode, done.stdout + done.stderr

    def test_an_import_is_offered_with_steps(self):
        status, said = self.prove(2, "--json", "--arith")
        found = json.loads(said)
        self.assertEqual((status, found["imports"]), (0, ["linear"]))
        text = "import arithmetic;;\nimport linear;;\ng A `le m n ==> lt (sub m n) (add (mult k k) _1)`;;\n%s;;\nqed;;\n" % ";;\n".join(found["steps"])
        (self.folder / "mine.hol").write_text(text)
        done = forked.run("check", self.folder / "mine.hol", "--server", BUILT, text=True)
        self.assertEqual(done.returncode, 0, done.stdout)

    def test_no_import_where_none_is_needed(self):
        status, said = self.prove(4, "--json")
        self.assertEqual((status, list(json.loads(said))), (0, ["steps"]))

    def test_what_is_made_above_is_known_at_once_and_no_longer_than_it_stands(self):
        warm = Warm([str(BUILT)])
        self.addCleanup(warm.stop)
        for above, wanted in (("", None), ("new_axiom CZ `C = _0`;;\n", ["e ACCEPT_TAC CZ"]), ("", None), ("new_axiom CY `C = _0`;;\n", ["e ACCEPT_TAC CY"])):
            (self.folder / "mine.hol").write_text("import numbers;;\nnew_constant C `:num`;;\n%sg A `C = _0`;;\n" % above)
            unit = command.unit(str(self.folder / "mine.hol"))
            answer = warm.search(Request(unit.file, len(unit.file.commands) - 1, unit.imports, names=None, seconds=1.0 if wanted is None else 30.0))
            self.assertEqual(answer.steps, wanted)

    def test_several_proofs_are_told_the_shortest_first(self):
        status, said = self.prove(4, "--json", "--several")
        found = json.loads(said)
        every = [found["steps"], *found["others"]]
        self.assertEqual(status, 0)
        self.assertGreater(len(every), 1)
        self.assertEqual(len({tuple(one) for one in every}), len(every))
        lengths = [sum(map(len, one)) for one in every]
        self.assertEqual(lengths, sorted(lengths))
        proofs = "".join("g B%d `add m n = add n m`;;\n%s;;\nqed;;\n" % (number, ";;\n".join(steps)) for number, steps in enumerate(every))
        (self.folder / "mine.hol").write_text("import arithmetic;;\n" + proofs)
        done = forked.run("check", self.folder / "mine.hol", "--server", BUILT, text=True)
        self.assertEqual(done.returncode, 0, done.stdout)

    def test_a_server_that_is_kept(self):
        given = ["prove", "--serve", self.folder, "--server", BUILT]
        kept = forked.Holls(*given, stdin=subprocess.PIPE, stdout=subprocess.PIPE, text=True, env=self.environment)
        try:
            self.assertEqual(kept.stdout.readline(), "holls: ready\n")
            first, second = self.prove(4, "--json"), self.prove(4, "--json")
            self.assertEqual((first, second[0]), (second, 0))
            self.assertEqual(self.prove(1)[0], 2)
            again = forked.run(*given, env=self.environment)
            self.assertEqual(again.returncode, 2)
        finally:
            kept.communicate()
        self.assertEqual([path.name for path in (self.folder / "holls").iterdir()], [])
        self.assertEqual(self.prove(4, "--json"), first)

    def test_an_editors_server_answers_it_too(self):
        program = self.folder / "program"
        program.write_text("#!/bin/sh\nexec '%s' \"$@\"\n" % BUILT)
        program.chmod(0o755)
        with mock.patch.dict(os.environ, self.environment):
            editor = Editor(str(program))
            self.addCleanup(editor.kill)
            editor.begin()
            path = self.folder / "mine.hol"
            editor.open(path.as_uri(), path.read_text())
            editor.goals(path.as_uri(), 3, 0)
            span = {side: {"line": 3, "character": 0} for side in ("start", "end")}
            given = {"textDocument": {"uri": path.as_uri()}, "range": span, "context": {"diagnostics": []}}
            action = next(one for one in editor.ask("textDocument/codeAction", given) if one["title"] == "Find a proof")
            steps = editor.ask("codeAction/resolve", action)["edit"]["changes"][path.as_uri()][0]["newText"]
        program.write_text("#!/bin/sh\nexit 1\n")  # So no other one can be begun.
        done = forked.run("prove", "%s:4" % path, "--server", program, text=True, env=self.environment)
        self.assertEqual((done.returncode, done.stdout.strip()), (0, steps.strip()), done.stderr)
        self.assertEqual(editor.end(), 0)
        self.assertEqual([one.name for one in (self.folder / "holls").iterdir()], [])
