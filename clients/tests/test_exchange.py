"""Theories as OCaml for HOL Light: what is written, and where HOL Light is installed, that it runs."""

import contextlib
import io
import pathlib
import tempfile
import unittest
from unittest import mock

from holls.exchange import exporting, hol_light, ocaml
from holls.files import File
from tests import forked


SMALL = """(* A comment. *)
deftac BOTH REPEAT GEN_TAC THEN TRY CONJ_TAC;;
g TWICE `!p. ~~p ==> p`;;
e GEN_TAC;;
e NO_TAC ORELSE ALL_TAC THEN ALL_TAC;;
b;;
e ALL_TAC;;
r 1;;
oops;;
g REFLEXIVE `!x:A. x = x`;;
e GEN_TAC THEN REFL_TAC;;
qed;;
g OTHER `!x:A. x = x`;;
e BOTH THENL [MATCH_MP_TAC (SPEC `x:A` REFLEXIVE)];;
qed;;
"""
FOR_OURS = """g NAMED `!x:A. (!x. P x) ==> P x`;;
e GEN_TAC THEN DISCH_THEN (ASSUME_TAC);;
e ACCEPT_TAC (SPEC `x:A` (ASSUME `!x:A. P x`));;
qed;;
g LEFT `!x:A. x = x`;;
e REWRITE_TAC [];;
e GEN_TAC THEN ACCEPT_TAC TRUTH;;
qed;;
"""
NESTED = """new_type both 2;;
new_type seq 1;;
new_definition D `d (l:(A,B)both seq seq) <=> T`;;
g USED `!l:(A,B)both seq seq. d l <=> T`;;
e REWRITE_TAC [D];;
qed;;
"""
WRONG = """g WRONG `!x y:A. x = y`;;
e REPEAT GEN_TAC THEN REFL_TAC;;
qed;;
"""


def file_of(text):
    file = File("small.hol")
    file.take(text)
    return file


def commands(text):
    return [command.text for command in file_of(text).commands]


def written(text):
    writer = ocaml.Writer()
    writer.add(commands(text))
    return writer.lines


def exported(text, *words):
    """The status and the output of `holls export --hol-light` for a file."""
    with tempfile.TemporaryDirectory() as folder:
        path = pathlib.Path(folder, "small.hol")
        path.write_text(text)
        done = forked.run("export", "--hol-light", path, *words, universal_newlines=True)
    return done.returncode, done.stdout, done.stderr


class Writing(unittest.TestCase):
    def test_proofs_and_what_takes_steps_back(self):
        lines = written(SMALL)
        self.assertEqual(lines[0], "let u_BOTH : tactic = fun g_ -> ((REPEAT (GEN_TAC)) THEN (TRY (CONJ_TAC))) g_;;")
        self.assertEqual(lines[1], 'let t_REFLEXIVE = proved "REFLEXIVE" "! x : A . x = x" [step (fun () -> ((GEN_TAC) THEN (REFL_TAC)))];;')
        self.assertEqual(lines[2], 'let t_OTHER = proved "OTHER" "! x : A . x = x" [step (fun () -> '
                                   '((u_BOTH) THENL [(MATCH_MP_TAC (SPEC (quoted "x : A") t_REFLEXIVE))]))];;')
        self.assertEqual(len(lines), 3)

    def test_orelse_binds_looser_than_then(self):
        made = ocaml.Expression("A ORELSE B THEN C ORELSE D", (), ()).whole()
        self.assertEqual(made, "(FIRST [(A); ((B) THEN (C)); (D)])")

    def test_arguments(self):
        for text, made in (
                ("REWRITE_TAC [SYM (A); MP A (ASSUME `p`)]", '(REWRITE_TAC [(SYM t_A); (MP t_A (ASSUME (quoted "p")))])'),
                ("SPEC_TAC (`x:A`,`y:A`)", '(SPEC_TAC ((quoted "x : A"),(quoted "y : A")))'),
                ("DISCH_THEN (X_CHOOSE_TAC `x:A`)", '(DISCH_THEN (fun th_ -> X_CHOOSE_TAC (quoted "x : A") th_))'),
                ("SUBGOAL_THEN `p` MP_TAC", '(SUBGOAL_THEN (quoted "p") (fun th_ -> MP_TAC th_))'),
                ("ACCEPT_TAC (INST_TYPE [`:B`,`:A`; `:A`,`:B`] A)",
                 '(ACCEPT_TAC (INST_TYPE [((quoted_type "B"),(quoted_type "A")); ((quoted_type "A"),(quoted_type "B"))] t_A))'),
                ("REPLICATE_TAC 3 (FIRST [A; B])", "(REPLICATE_TAC 3 (FIRST [(A); (B)]))")):
            self.assertEqual(ocaml.Expression(text, (), ()).whole(), made)

    def test_symbols_and_types_that_hol_light_would_join(self):
        self.assertEqual(ocaml.spaced("~~p /\\ x<=>y"), "~ ~ p /\\ x <=> y")
        for text, made in (("x:A list list", "x : ( A list ) list"), ("(x:A list) = y", "( x : A list ) = y"),
                           ("x:(A,B)prod list option", "x : ( ( ( A , B ) prod ) list ) option"), ("f:num list->B", "f : num list -> B"),
                           ("x:((A option list,B)sum,num list)prod", "x : ( ( ( A option ) list , B ) sum , num list ) prod")):
            self.assertEqual(ocaml.spaced(text, ("num", "list", "option", "prod", "sum")), made)

    def test_what_makes_types_and_constants(self):
        made = written("new_type T 1;;\nnew_constant c `:A T T`;;\nnew_axiom AX `c = c:A T T`;;\nnew_definition D `d (x:A) <=> T`;;\n"
                       "new_basic_type_definition U to_U from_U ONE TWO AX;;\n")
        self.assertEqual(made, ['new_type("T",1);;', 'new_constant("c",quoted_type "( A T ) T");;', 'let t_AX = new_axiom (quoted "c = c : ( A T ) T");;',
                                'let t_D = new_definition (quoted "d ( x : A ) <=> T");;',
                                'let t_ONE,t_TWO = new_basic_type_definition "U" ("to_U","from_U") t_AX;;'])

    def test_what_cannot_be_written_is_named(self):
        for text in ("nonsense N;;", "g A `p`;;\ne (GEN_TAC;;\nqed;;", "g A `p`;;\ne GEN_TAC );;"):
            with self.assertRaises(ocaml.Unwritable) as caught:
                written(text)
            self.assertTrue(str(caught.exception))

    def test_a_sample_is_spread(self):
        for theorems, sample in ((976, 200), (10, 3), (5, 5), (3, 9)):
            is_run = exporting.chosen(theorems, sample)
            self.assertEqual(sum(map(is_run, range(theorems))), min(theorems, sample))
        self.assertEqual(exporting.written([file_of(SMALL)], 1).count("= given "), 1)

    def test_without_hol_light_it_says_what_to_install(self):
        words = exporting.argparse.ArgumentParser()
        exporting.add_words(words)
        with tempfile.TemporaryDirectory() as folder:
            path = pathlib.Path(folder, "small.hol")
            path.write_text(SMALL)
            complaint = io.StringIO()
            with mock.patch.object(hol_light, "INSTALLED", pathlib.Path(folder)), contextlib.redirect_stderr(complaint):
                self.assertEqual(exporting.main(words.parse_args(["--hol-light", "--run", str(path)])), exporting.BROKEN)
        self.assertIn("apt-get install hol-light", complaint.getvalue())

    def test_outcome(self):
        printed = "x\n@ours A: step 1: GEN_TAC\n@refused B: goals remain; ours: goals remain\n@summary 3 1 2 1 of 7\n"
        found = hol_light.outcome(printed)
        self.assertEqual((found.theirs, found.ours, found.given, found.refused), (3, 1, 2, 1))
        self.assertEqual([kind for kind, _ in found.told], ["ours", "refused"])
        with self.assertRaises(hol_light.NoHolLight) as caught:
            hol_light.outcome("Error: Unbound value t_A\n")
        self.assertIn("Unbound value t_A", str(caught.exception))

    def test_a_theorem_that_hol_light_lost_is_told(self):
        with self.assertRaises(hol_light.NoHolLight) as caught:
            hol_light.outcome('Exception: Failure "parse_type".\nError: Unbound value t_D\n@summary 3 1 2 1 of 8\n')
        self.assertEqual(str(caught.exception), 'HOL Light came to 7 of 8 theorems: Exception: Failure "parse_type".')


@unittest.skipUnless(hol_light.is_installed(), "HOL Light isn't installed")
class Running(unittest.TestCase):
    def test_it_is_written_to_a_file_or_to_the_output(self):
        status, text, _ = exported(FOR_OURS)
        self.assertEqual(status, 0)
        self.assertIn('let t_NAMED = proved "NAMED"', text)

    def test_types_of_types_and_a_statement_that_hol_light_does_not_read(self):
        text = exporting.written([file_of(NESTED)]).replace("summary 1;;", 'let t_A = given "A" "p = x y )";;\nlet t_B = given "B" "T";;\nsummary 3;;')
        found = hol_light.outcome(hol_light.run(text))
        self.assertEqual((found.theirs, found.given, found.refused), (1, 1, 1))
        self.assertTrue(found.told[0][1].startswith("A: its statement can't be read: "), found.told)

    def test_theorems_and_what_is_none(self):
        status, told, complaint = exported(FOR_OURS + WRONG, "--run")
        self.assertEqual((status, complaint), (exporting.REFUSED, ""))
        self.assertIn("2 theorems accepted by HOL Light", told)
        self.assertIn("1 by its own functions, 1 by ours", told)
        self.assertIn("by our functions: LEFT: ", told)
        self.assertIn("refused: WRONG: step 1: ", told)


if __name__ == "__main__":
    unittest.main()
