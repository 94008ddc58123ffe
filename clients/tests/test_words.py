"""What is said of refusals."""

import re
import unittest

from holls import notation
from holls.files import File
from holls.lsp import goals
from holls.protocol import Goal, Goals, Refusal
from holls.words import explain
from tests.helpers import ROOT


def said(text, number, argument):
    """The words for a refusal of a command."""
    return explain(text, Refusal(number, argument, ""))[2]


class OfDefinitions(unittest.TestCase):
    def test_a_definitions_right_side(self):
        self.assertIn("stands in parentheses", said("new_definition D `f x = x /\\ x`", 1, "26"))
        self.assertIn("make it an argument", said("new_definition D `f x = y`", 11, "y"))
        self.assertIn("0 to 16", said("new_type t 17", 1, "11"))

    def test_a_recursive_one(self):
        for text in ("new_definition Q `len (x:A) = len x`", "new_definition Q `len = len`", "new_definition Q\n` len x <=> !y. len y`"):
            self.assertIn("len stands on its own right side: new_definition can't be recursive; define makes functions by clauses", said(text, 11, "len"))
        self.assertTrue((ROOT / "docs" / "PACKAGES.md").is_file())
        self.assertEqual(said("new_definition Q `len (x:A) = f x`", 11, "f"), "f is free in what is defined: make it an argument of the constant")
        self.assertIn("has to be closed", said("new_basic_type_definition ty abs rep N N TH", 11, "rep"))

    def test_a_type_definition(self):
        text = "new_basic_type_definition ty abs rep N N TH"
        self.assertIn("made twice", said(text, 10, "thm:N"))
        self.assertNotIn("made twice", said(text, 10, "type:ty"))
        self.assertIn("is no application", said(text, 14, "new_basic_type_definition"))
        self.assertIn("has to be closed", said(text, 11, "y"))


class OfImports(unittest.TestCase):
    def test_a_clash_says_what_of_which_kind(self):
        self.assertIn("gives the theorem TH another value", said("import A", 21, "thm:TH"))
        self.assertIn("gives the constant c another value", said("import A", 21, "const:c"))
        self.assertIn("gives the tactic CL another value", said("import A", 21, "tac:CL"))


class InTheGoalWindow(unittest.TestCase):
    def test_the_name_that_was_meant_is_told_there_too(self):
        file = File("A.hol")
        file.take("g A `T`;;\ne ACCEPT_TAC TRUT;;\n")
        file.theory.entries[0].report = Goals((Goal((), (), "T"),))
        file.theory.entries[1].report = Refusal(5, "TRUT", "")
        self.assertEqual(goals.state(file, 1).errors, ["refused: no theorem TRUT stands before this command; did you mean TRUTH?"])


class OfNamedFunctions(unittest.TestCase):
    def marked(self, text, number, argument):
        start, end, words = explain(text, Refusal(number, argument, ""))
        return start, text[start:end], words

    def test_the_name_and_its_expression(self):
        self.assertEqual(said("deftac REFL_TAC ALL_TAC", 10, "tac:REFL_TAC"), "the tactic REFL_TAC stands already: choose another name")
        self.assertEqual(self.marked("deftac CL TRY CL", 10, "tac:CL"), (7, "CL", "the tactic CL stands already: choose another name"))
        self.assertEqual(self.marked("deftac CL CL", 6, "CL"), (10, "CL", "there is no tactic CL"))
        self.assertEqual(self.marked("deftac CL ACCEPT_TAC CL", 5, "CL")[0], 21)
        self.assertIn("the expression with its terms", said("deftac D14 D13 THEN D13", 13, ""))
        self.assertNotIn("the expression", said("g A `p`", 13, ""))

    def test_it_takes_no_arguments_and_no_theorem(self):
        for text in ("e CL TRUTH", "e CL `x`", "e CL []", "e CONJ_TAC THEN CL TRUTH", "e DISCH_THEN CL", "e DISCH_THEN (CL)", "e CL (TRUTH)", "e SUBGOAL_THEN `p` CL"):
            self.assertEqual(self.marked(text, 6, "CL")[1:], ("CL", "no tactic CL takes arguments: what deftac names takes none"))
        for text in ("e CL", "e CL THEN CL", "e TRY (CL THENL [])", "e (CL) ORELSE CL"):
            self.assertEqual(said(text, 6, "CL"), "there is no tactic CL")

    def test_what_is_refused_inside(self):
        found = self.marked("e CONJ_TAC THEN CL", 17, "ACCEPT_TAC")
        self.assertEqual(found[:2], (2, "CONJ_TAC THEN CL"))
        self.assertTrue(found[2].endswith("a theorem that concludes the goal; it stands in an expression that is named here"), found[2])
        self.assertTrue(self.marked("e CL", 15, "ACCEPT_TAC")[2].endswith("it stands in an expression that is named here"))
        self.assertFalse(said("e CONJ_TAC", 17, "CONJ_TAC").endswith("here"))

    def test_slips(self):
        for text, at, told in (("deftac (ALL_TAC)", "7", "("), ("deftac TRY ALL_TAC", "7", "TRY")):
            self.assertEqual(self.marked(text, 1, at)[1:], (told, "a name is missing before the expression: deftac NAME TAC"))
        self.assertIn("the expression stands right behind the name", said("deftac CL = ALL_TAC", 1, "10"))
        self.assertEqual(said("deftac CL", 1, "9"), "the command ends too soon: something has to follow here")
        self.assertEqual(said("e REFL_TAC\ndeftac CL ALL_TAC", 1, "18"), "a `;;` is missing before `deftac`")


class OfSlips(unittest.TestCase):
    """What is said of what people write by mistake, and where it is marked."""

    def marked(self, text, number, argument):
        start, end, words = explain(text, Refusal(number, argument, ""))
        return text[start:end], words

    def test_a_name_or_an_end_is_missing(self):
        self.assertEqual(self.marked("g `p`", 1, "2"), ("`", "a name is missing before the quotation: g NAME `term`"))
        for text, number, argument in (("e REFL_TAC\nqed", 5, "qed"), ("e REFL_TAC qed", 5, "qed"), ("qed qed", 1, "4")):
            self.assertEqual(self.marked(text, number, argument), ("qed", "a `;;` is missing before `qed`"))
        self.assertEqual(self.marked("e CONJ_TAC\n  e REFL_TAC", 5, "e")[1], "a `;;` is missing before `e`")
        self.assertEqual(said("e ACCEPT_TAC qed_thm", 5, "qed_thm"), "no theorem qed_thm stands before this command")
        self.assertEqual(said("e REWRITE_TAC [x;\n  r; s]", 5, "s"), "no theorem s stands before this command")
        self.assertEqual(self.marked("e REWRITE_TAC [x]\nr 2", 1, "18")[1], "a `;;` is missing before `r`")

    def test_no_end_is_missing_where_the_text_fails_before(self):
        for mark in ("//", "/*", "--", "#", "%"):
            text = mark + " comment `x`\ne ACCEPT_TAC TRUTH"
            self.assertEqual(self.marked(text, 1, "0"), (mark, "`%s` begins no command; comments are (* .. *)" % mark))
            self.assertEqual(self.marked("e REFL_TAC %s a `" % mark, 1, "11")[1], "`%s` begins no symbol of the notation; comments are (* .. *)" % mark)
            self.assertNotIn("comments", said("g A `x %s`" % mark, 1, "7"))
        self.assertIn("`foo` begins no command", said("foo\ne REFL_TAC", 1, "0"))
        self.assertEqual(self.marked("e REFL_TAC)\nqed", 1, "10")[0], ")")
        self.assertEqual(self.marked("e (REFL_TAC\nqed)", 1, "15"), ("qed", "a `;;` is missing before `qed`"))

    def test_a_backquote_is_missing(self):
        self.assertEqual(self.marked("g A `x = x", 1, "10"), ("`", "this quotation is never closed: a backquote is missing"))
        start, _, _ = explain("g A `p\n\ne SPEC_TAC (`x`,`y`)", Refusal(1, "9", ""))
        self.assertEqual(start, 4)

    def test_functions_and_rules_of_hol_light_that_are_not_here(self):
        self.assertIn("HOL Light's MESON_TAC isn't here", said("e MESON_TAC []", 6, "MESON_TAC"))
        self.assertIn("puts those of a proof in its place", said("e ASM_SIMP_TAC []", 6, "ASM_SIMP_TAC"))
        word, words = self.marked("e REWRITE_TAC[GSYM FOO]", 1, "19")
        self.assertEqual((word, "is none of the forward rules" in words, "(SYM (SPEC" in words), ("GSYM", True, True))
        self.assertIn("stand apart by `;`", said("e REWRITE_TAC [ONE TWO]", 1, "19"))
        self.assertIn("did you mean REWRITE_TAC?", said("e REWRIT_TAC []", 6, "REWRIT_TAC"))
        self.assertIn("begins with e", said("CONJ_TAC", 1, "0"))
        self.assertIn("did you mean qed?", said("qedx", 1, "0"))

    def test_what_a_function_wants_and_which_goal_it_met(self):
        self.assertEqual(self.marked("e CONJ_TAC", 17, "CONJ_TAC"), ("CONJ_TAC", "CONJ_TAC doesn't fit the first goal: it wants p /\\ q"))
        self.assertEqual(self.marked("e CONJ_TAC THEN GEN_TAC", 17, "GEN_TAC"), ("GEN_TAC", "GEN_TAC doesn't fit the goal that it is run on: it wants !x. p"))
        self.assertEqual(self.marked("e CONJ_TAC THEN CONJ_TAC", 17, "CONJ_TAC")[0], "CONJ_TAC THEN CONJ_TAC")
        self.assertIn("as many expressions", said("e CONJ_TAC THENL [ALL_TAC]", 17, "THENL"))
        self.assertIn("leaves the goal as it was", said("e CHANGED_TAC ALL_TAC", 17, "CHANGED_TAC"))
        wanting = [name for name in notation.TACS if "wants" in said("e " + name, 17, name)]
        never = ["ALL_TAC", "MP_TAC", "ASSUME_TAC", "STRIP_ASSUME_TAC", "BETA_TAC"]
        self.assertEqual(set(notation.TACS) - set(wanting), set(never) | {name for name in notation.TACS if "REWRITE" in name})

    def test_what_each_rule_wants(self):
        source = (ROOT / "crates" / "hol_resolve" / "src" / "forward_rule.rt").read_text(encoding="utf-8")
        self.assertEqual(sorted(re.findall(r'ForwardRule::\w+ => "(\w+)"', source)), sorted(notation.FORWARD))
        for name, form in notation.FORWARD.items():
            word, words = self.marked("e ACCEPT_TAC (%s)" % form, 14, name)
            self.assertEqual((word, words.startswith(name + " doesn't fit what it is given: it wants ")), (name, True), words)
        self.assertIn("INST_TYPE the theorem", said("e ACCEPT_TAC (SPEC `x` REFL_CLAUSE)", 14, "SPEC"))
        self.assertIn("as p:bool or (P:A->bool) x", said("e ACCEPT_TAC (ASSUME `x`)", 14, "ASSUME"))

    def test_what_does_not_end(self):
        for number in (13, 18):
            self.assertIn("rewriting", said("e REWRITE_TAC [GROW]", number, ""))
            self.assertIn("ONCE_REWRITE_TAC, or SUBST1_TAC at an instance", said("e REWRITE_TAC [GROW]", number, ""))
        self.assertIn("a term that a tactic makes has over 20,000 nodes", said("e REWRITE_TAC [GROW]", 13, ""))
        self.assertIn("split the statement", said("g A `p`", 13, ""))
        self.assertIn("split it into several e", said("e REPEAT ALL_TAC", 18, ""))
        self.assertNotIn("--turns", said("e REPEAT ALL_TAC", 18, ""))

    def test_hints_in_terms_stand_at_tokens_of_terms(self):
        self.assertIn("binder as an argument", said("g A `f !x. P`", 1, "7"))
        self.assertNotIn("binder", said("e ACCEPT_TAC !x", 1, "13"))

    def test_numerals_and_operators_in_terms(self):
        for text, place, told in (("g A `1 + 1 = 2`", "5", "1"), ("g A `x = 12`", "9", "12"), ("new_definition A `a = 0`", "22", "0")):
            word, words = self.marked(text, 1, place)
            self.assertEqual((word, "numerals are notation" in words, "numbers.hol" in words), (told, True, True), words)
        for operator in "+-*<>":
            self.assertIn("arithmetic.hol", said("g A `x %s y`" % operator, 1, "7"))
        self.assertNotIn("numerals", said("e REWRITE_TAC 1", 1, "14"))
        self.assertNotIn("arithmetic.hol", said("e REFL_TAC + x", 1, "11"))
        self.assertIn("closes no comment", said("g A `x *) y`", 1, "7"))

    def test_a_types_quotation(self):
        for text, place in (("new_constant c `t`", "16"), ("new_constant c `(t)`", "16"), ("e ACCEPT_TAC (INST_TYPE [`:A`,`B`] TH)", "31")):
            self.assertIn("a type's quotation begins with `:`", said(text, 1, place))
        self.assertNotIn("type", said("new_definition D `(f x) = x`", 1, "18"))
        self.assertNotIn("a type's quotation", said("g A `:bool`", 1, "5"))

    def test_a_definitions_arguments(self):
        for text, place in (("new_definition W `w x x = x`", "22"), ("new_definition W `w (x:A) (x:B) = x`", "27"), ("new_definition W `w x y (x:A) = x`", "25")):
            self.assertEqual(self.marked(text, 1, place), ("x", "unexpected `x`; the argument x stands twice"))
        self.assertIn("no argument may have the name of the constant", said("new_definition W `w w = w`", 1, "20"))
        self.assertNotIn("twice", said("new_definition W `w (x x) = x`", 1, "23"))
        self.assertNotIn("twice", said("new_definition W `w x = (!(x x. p))`", 1, "29"))

    def test_what_a_tactical_hands_over(self):
        words = said("e POP_ASSUM (REWRITE_TAC)", 6, "REWRITE_TAC")
        self.assertIn("POP_ASSUM hands a theorem to the tactic behind it, and REWRITE_TAC takes a list of theorems", words)
        self.assertIn("ASM_REWRITE_TAC []", words)
        self.assertIn("write POP_ASSUM ACCEPT_TAC", said("e POP_ASSUM (ACCEPT_TAC TRUTH)", 6, "ACCEPT_TAC"))
        self.assertEqual(said("e MP_TAC", 6, "MP_TAC"), "MP_TAC takes a theorem")


if __name__ == "__main__":
    unittest.main()
