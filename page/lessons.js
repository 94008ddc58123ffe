import { SECOND } from './second_hour.js';

// The lessons: ten of the first hour, and those of the second. Of each: what it says, the parts of the text that it begins with, what has to be made in the end (as reports
// show it; and `inNotation` what is shown of that, in notation), and hints, each with the commands that it gives away, of an exercise none.

const FIRST = [
  {
    title: 'Both sides are the same',
    say: [
      'A theory is a list of <b>commands</b>. Each ends with <code>;;</code>. The command <code>g NAME `term`</code> opens a proof: its '
      + 'term is the <b>goal</b>. Put the cursor anywhere in a command, and the goals after it are shown beside the text.',
      'A step <code>e TACTIC</code> runs a <b>tactic</b> on the first goal. <code>REFL_TAC</code> closes a goal whose two sides are the '
      + 'same. When no goal is left, <code>qed</code> ends the proof and makes the theorem.',
      'Prove <code>x = x</code>: write the step and <code>qed</code> under the goal.',
    ],
    given: ['g REFL1 `x:A = x`;;\n'],
    wanted: ['thm REFL1 |- x = x'],
    hints: [
      { say: 'The step is <code>e REFL_TAC;;</code>', code: 'e REFL_TAC;;\n' },
      { say: 'No goals are left. End the proof by <code>qed;;</code>', code: 'qed;;\n' },
    ],
  },
  {
    title: 'Two goals of one',
    say: [
      '<code>!x. p</code> says that p holds for all x; <code>/\\</code> is “and”; <code>&lt;=&gt;</code> is equality of truth values. '
      + '(Instead of <code>!</code> you may write ∀: type <code>\\forall</code> and a space.)',
      '<code>GEN_TAC</code> takes a <code>!x</code> off: it is enough to prove the rest for some fixed x, of which nothing is known. '
      + '<code>CONJ_TAC</code> splits a goal <code>p /\\ q</code> into two. Steps work on the <b>first</b> goal; what is left of it '
      + 'takes its place.',
    ],
    given: ['g BOTH `!x:A. x = x /\\ (p <=> p)`;;\n'],
    wanted: ['thm BOTH |- !x. x = x /\\ (p <=> p)'],
    hints: [
      { say: 'The outermost symbol is <code>!</code>, so begin with <code>GEN_TAC</code>.', code: 'e GEN_TAC;;\n' },
      { say: 'Now it is <code>/\\</code>: split the goal by <code>CONJ_TAC</code>.', code: 'e CONJ_TAC;;\n' },
      { say: 'Each of the two has equal sides: <code>REFL_TAC</code>, once for each.', code: '  e REFL_TAC;;\n  e REFL_TAC;;\n' },
      { say: 'No goal is left.', code: 'qed;;\n' },
    ],
  },
  {
    title: 'What is assumed',
    say: [
      '<code>p ==> q</code> is “if p then q”. To prove it, assume p and prove q: that is <code>DISCH_TAC</code>. Above the line stand '
      + 'the <b>assumptions</b> of a goal.',
      '<code>FIRST_ASSUM f</code> tries the tactic f with each assumption. <code>ACCEPT_TAC</code> closes a goal that is just what a '
      + 'theorem says; so <code>FIRST_ASSUM ACCEPT_TAC</code> closes a goal that is assumed.',
    ],
    given: ['g ID `!p. p ==> p`;;\n'],
    wanted: ['thm ID |- !p. p ==> p'],
    hints: [
      { say: 'First the <code>!</code>: <code>GEN_TAC</code>.', code: 'e GEN_TAC;;\n' },
      { say: 'Then assume p, by <code>DISCH_TAC</code>.', code: 'e DISCH_TAC;;\n' },
      { say: 'The goal is assumed: <code>FIRST_ASSUM ACCEPT_TAC</code>.', code: 'e FIRST_ASSUM ACCEPT_TAC;;\nqed;;\n' },
    ],
  },
  {
    title: 'One step that does many',
    say: [
      '<code>STRIP_TAC</code> takes the outermost symbol off, whichever it is: <code>!</code>, <code>/\\</code> or <code>==></code>. '
      + 'What it assumes it takes apart: of <code>p /\\ q</code> it assumes both parts.',
      '<code>REPEAT f</code> runs f again and again, on each goal that is left, until it is refused. <code>f THEN g</code> runs f, and g '
      + 'on all that f leaves.',
      'Two goals will be left that one step can close: try <code>THEN</code>. (If you end up with too much or too little, change the '
      + 'text: what follows is checked anew at once.)',
    ],
    given: ['g CONJ_SWAP `!p q. p /\\ q ==> q /\\ p`;;\n'],
    wanted: ['thm CONJ_SWAP |- !p q. p /\\ q ==> q /\\ p'],
    hints: [
      { say: '<code>REPEAT STRIP_TAC</code> leaves two goals, with p and q assumed.', code: 'e REPEAT STRIP_TAC THEN' },
      {
        say: 'Both goals are assumed: go on with <code>FIRST_ASSUM ACCEPT_TAC</code> behind the <code>THEN</code>.',
        code: ' FIRST_ASSUM ACCEPT_TAC;;\nqed;;\n',
      },
    ],
  },
  {
    title: 'By cases',
    say: [
      '<code>p \\/ q</code> is “p or q”. Where it is assumed, there are two cases, and <code>STRIP_TAC</code> makes a goal of each.',
      'Where it is to be proved, one side is enough: <code>DISJ1_TAC</code> goes on with the left side, <code>DISJ2_TAC</code> with the '
      + 'right one.',
      'Here each case needs another side, so that they are proved one after the other.',
    ],
    given: ['g DISJ_SWAP `!p q. p \\/ q ==> q \\/ p`;;\n'],
    wanted: ['thm DISJ_SWAP |- !p q. p \\/ q ==> q \\/ p'],
    hints: [
      {
        say: 'Take all apart: <code>REPEAT STRIP_TAC</code>. In the first goal p is assumed, in the second q.',
        code: 'e REPEAT STRIP_TAC;;\n',
      },
      { say: 'In the first one the right side is assumed.', code: '  e DISJ2_TAC THEN FIRST_ASSUM ACCEPT_TAC;;\n' },
      { say: 'In the second one it is the left side.', code: '  e DISJ1_TAC THEN FIRST_ASSUM ACCEPT_TAC;;\nqed;;\n' },
    ],
  },
  {
    title: 'There is one',
    say: [
      '<code>?x. p</code> says that p holds of some x. Where it is assumed, <code>STRIP_TAC</code> takes such an x. Where it is to be '
      + 'proved, you name one: <code>EXISTS_TAC `t`</code> leaves p with t for x.',
      'A term in a step is read by itself. So say its type where it isn’t clear: <code>`x:A`</code>. The types of a goal’s variables '
      + 'stand above the line.',
    ],
    given: ['g SOME `!(P:A->bool) Q. (?x. P x /\\ Q x) ==> (?x. Q x)`;;\n'],
    wanted: ['thm SOME |- !P Q. (?x. P x /\\ Q x) ==> (?x. Q x)'],
    hints: [
      {
        say: '<code>REPEAT STRIP_TAC</code> leaves <code>?x. Q x</code> with an x of which both are assumed.',
        code: 'e REPEAT STRIP_TAC;;\n',
      },
      { say: 'It is this x: <code>EXISTS_TAC `x:A`</code>.', code: 'e EXISTS_TAC `x:A`;;\n' },
      { say: '<code>Q x</code> is assumed.', code: 'e FIRST_ASSUM ACCEPT_TAC;;\nqed;;\n' },
    ],
  },
  {
    title: 'Equals for equals',
    say: [
      'An equation lets you put its right side for its left one. <code>ASM_REWRITE_TAC []</code> does it with the assumptions, wherever '
      + 'the goal has a left side, and closes the goal if it becomes <code>s = s</code>. Between the brackets theorems may stand, by '
      + 'which it rewrites too: <code>[TH1; TH2]</code>.',
      'Of a goal <code>f x = f y</code> the tactic <code>AP_TERM_TAC</code> leaves <code>x = y</code>.',
      'Prove both theorems.',
    ],
    given: ['g SWAP_EQ `!(x:A) y. x = y ==> y = x`;;\n', 'g SAME_VALUE `!(f:A->B) x y. x = y ==> f y = f x`;;\n'],
    wanted: ['thm SWAP_EQ |- !x y. x = y ==> y = x', 'thm SAME_VALUE |- !f x y. x = y ==> f y = f x'],
    hints: [
      {
        say: 'Of the first: <code>REPEAT STRIP_TAC</code> assumes <code>x = y</code>. Then rewrite, and end the proof by <code>qed</code>.',
        code: 'e REPEAT STRIP_TAC;;\ne ASM_REWRITE_TAC [];;\nqed;;\n', part: 0,
      },
      { say: 'Of the second: strip it too, and take f off on both sides.', code: 'e REPEAT STRIP_TAC;;\ne AP_TERM_TAC;;\n' },
      { say: 'What is left is the first theorem once more: rewrite by the assumption.', code: 'e ASM_REWRITE_TAC [];;\nqed;;\n' },
    ],
  },
  {
    title: 'What was proved before',
    say: [
      'A theorem is cited by its name. <code>ACCEPT_TAC TH</code> closes the goal that TH says. Where TH begins with <code>!x</code>, '
      + '<code>SPEC `t` TH</code> is TH at t: so <code>SPEC `q:bool` (SPEC `p:bool` CONJ_SWAP)</code> is <code>p /\\ q ==> q /\\ '
      + 'p</code>.',
      '<code>EQ_TAC</code> splits <code>p &lt;=&gt; q</code> into <code>p ==> q</code> and <code>q ==> p</code>.',
      'By <code>MATCH_MP_TAC TH</code>, where TH says <code>!x. s ==> t</code> and the goal is a t, it is enough to prove that s. Also '
      + 'an assumption can be such a TH: <code>FIRST_ASSUM MATCH_MP_TAC</code>.',
    ],
    given: [
      'g CONJ_SWAP `!p q. p /\\ q ==> q /\\ p`;;\ne REPEAT STRIP_TAC THEN FIRST_ASSUM ACCEPT_TAC;;\nqed;;\n\n'
        + 'g APPLY `!(P:A->bool) Q a. (!x. P x ==> Q x) ==> P a ==> Q a`;;\n',
      'g CONJ_SYM `!p q. p /\\ q <=> q /\\ p`;;\n',
    ],
    wanted: ['thm APPLY |- !P Q a. (!x. P x ==> Q x) ==> P a ==> Q a', 'thm CONJ_SYM |- !p q. p /\\ q <=> q /\\ p'],
    hints: [
      {
        say: 'Of the first: after <code>REPEAT STRIP_TAC</code> the assumption <code>!x. P x ==> Q x</code> turns <code>Q a</code> into '
          + '<code>P a</code>.',
        code: 'e REPEAT STRIP_TAC;;\ne FIRST_ASSUM MATCH_MP_TAC;;\n', part: 0,
      },
      { say: '<code>P a</code> is assumed.', code: 'e FIRST_ASSUM ACCEPT_TAC;;\nqed;;\n', part: 0 },
      {
        say: 'Of the second: <code>REPEAT GEN_TAC THEN EQ_TAC</code> leaves two goals, and each is what CONJ_SWAP says.',
        code: 'e REPEAT GEN_TAC THEN EQ_TAC;;\n',
      },
      { say: 'The first one is CONJ_SWAP at p and q.', code: '  e ACCEPT_TAC (SPEC `q:bool` (SPEC `p:bool` CONJ_SWAP));;\n' },
      { say: 'The second one is CONJ_SWAP at q and p.', code: '  e ACCEPT_TAC (SPEC `p:bool` (SPEC `q:bool` CONJ_SWAP));;\nqed;;\n' },
    ],
  },
  {
    title: 'A definition',
    say: [
      'A new constant is made by <code>new_definition NAME `c x = t`</code>: it makes the constant c, and the theorem NAME, <code>!x. c '
      + 'x = t</code>.',
      'Define what it is to do one function after another: the constant <code>COMP</code>, by a theorem <code>COMP_DEF</code>, with '
      + '<code>COMP g f = \\x. g (f x)</code>. (<code>\\x. t</code> is the function that takes x to t.) Say the types of both: '
      + '<code>(g:B->C) (f:A->B)</code>.',
      'The command <code>infixr 26 after COMP;;</code> declares notation: <code>g after f</code> is written for <code>COMP g f</code> from here on, '
      + 'and goals are shown so. (26 says how tightly it binds, <code>infixr</code> that <code>h after g after f</code> is <code>h after (g after f)</code>.)',
      'Then prove the two theorems that are begun here. <code>REWRITE_TAC [COMP_DEF]</code> writes out what COMP is, and '
      + '<code>BETA_TAC</code> makes <code>(\\x. t) a</code> into t at a.',
    ],
    given: [
      'infixr 26 after COMP;;\n(* Define COMP here. *)\n',
      'g COMP_AT `!(g:B->C) (f:A->B) x. (g after f) x = g (f x)`;;\n',
      'g COMP_ASSOC `!(h:C->D) (g:B->C) (f:A->B). h after g after f = (h after g) after f`;;\n',
    ],
    wanted: [
      'thm COMP_DEF |- !g f. COMP g f = (\\x. g (f x))',
      'thm COMP_AT |- !g f x. COMP g f x = g (f x)',
      'thm COMP_ASSOC |- !h g f. COMP h (COMP g f) = COMP (COMP h g) f',
    ],
    inNotation: [
      'thm COMP_DEF |- !g f. g after f = (\\x. g (f x))',
      'thm COMP_AT |- !g f x. (g after f) x = g (f x)',
      'thm COMP_ASSOC |- !h g f. h after g after f = (h after g) after f',
    ],
    hints: [
      { say: 'The definition:', code: 'new_definition COMP_DEF `(g:B->C) after (f:A->B) = \\x. g (f x)`;;\n', part: 0 },
      {
        say: 'Of the first theorem: take the <code>!</code> off, write out what COMP is, and reduce. Then both sides are the same.',
        code: 'e REPEAT GEN_TAC THEN REWRITE_TAC [COMP_DEF] THEN BETA_TAC THEN REFL_TAC;;\nqed;;\n', part: 1,
      },
      {
        say: 'The second one is proved in the same way.',
        code: 'e REPEAT GEN_TAC THEN REWRITE_TAC [COMP_DEF] THEN BETA_TAC THEN REFL_TAC;;\nqed;;\n',
      },
    ],
  },
  {
    title: 'Induction',
    say: [
      'Begin at z and take s again and again: z, s z, s (s z) .. What is reached so are the numbers over z and s. Here they are defined: '
      + 'n is one of them if it has <b>every</b> property P that z has, and that m hands on to <code>s m</code>.',
      'First prove the principle of induction, NUM_INDUCT: what z has and what is handed on, all numbers have. It is the definition, '
      + 'read in another way.',
      'Then use it: every number is z, or s of something. SPEC makes NUM_INDUCT speak of the property <code>\\n. n = z \\/ (?m. n = s '
      + 'm)</code>.',
    ],
    given: [
      'new_definition NUM_DEF\n  `NUM (z:A) s n <=> (!P. P z /\\ (!m. P m ==> P (s m)) ==> P n)`;;\n\n'
        + 'g NUM_INDUCT `!(z:A) s P. P z /\\ (!m. P m ==> P (s m)) ==> (!n. NUM z s n ==> P n)`;;\n',
      'g NUM_CASES `!(z:A) s n. NUM z s n ==> n = z \\/ (?m. n = s m)`;;\n',
    ],
    wanted: [
      'thm NUM_DEF |- !z s n. NUM z s n <=> (!P. P z /\\ (!m. P m ==> P (s m)) ==> P n)',
      'thm NUM_INDUCT |- !z s P. P z /\\ (!m. P m ==> P (s m)) ==> (!n. NUM z s n ==> P n)',
      'thm NUM_CASES |- !z s n. NUM z s n ==> n = z \\/ (?m. n = s m)',
    ],
    hints: [
      {
        say: 'Of NUM_INDUCT: fix z, s and P, assume what P has, and fix n.',
        code: 'e REPEAT GEN_TAC THEN DISCH_TAC THEN GEN_TAC;;\n', part: 0,
      },
      {
        say: 'Write out what NUM is, and use it: <code>DISCH_THEN MATCH_MP_TAC</code> hands the left side of the goal to MATCH_MP_TAC.',
        code: 'e REWRITE_TAC [NUM_DEF];;\ne DISCH_THEN MATCH_MP_TAC;;\n', part: 0,
      },
      { say: 'What is left is assumed.', code: 'e FIRST_ASSUM ACCEPT_TAC;;\nqed;;\n', part: 0 },
      {
        say: 'Of NUM_CASES: fix z and s alone, and bring in NUM_INDUCT for this property.',
        code: 'e GEN_TAC THEN GEN_TAC;;\ne MP_TAC (SPEC `\\n:A. n = z \\/ (?m:A. n = s m)` (SPEC `s:A->A` (SPEC `z:A` NUM_INDUCT)));;\n',
      },
      {
        say: 'Reduce, and use what was brought in: the two premises of the induction are left.',
        code: 'e BETA_TAC THEN DISCH_THEN MATCH_MP_TAC THEN CONJ_TAC;;\n',
      },
      { say: 'z is z.', code: '  e DISJ1_TAC THEN REFL_TAC;;\n' },
      {
        say: 'And <code>s m</code> is s of m, whatever m is: in both cases.',
        code: '  e REPEAT STRIP_TAC THEN DISJ2_TAC THEN EXISTS_TAC `m:A` THEN REFL_TAC;;\nqed;;\n',
      },
    ],
  },
];

export const LESSONS = [...FIRST, ...SECOND];
export const SECOND_BEGINS = FIRST.length;

// The text that a lesson begins with: its parts, with a line free between two.
export const given = ({ given: parts }) => parts.join('\n');

// A solution: behind each part the commands of its hints, which are those of the last part unless they name another one. Of an exercise, what it begins with.
export function solved({ given: parts, hints }) {
  const codes = (at) => hints.filter(({ part = parts.length - 1 }) => part === at).map(({ code = '' }) => code).join('');
  return parts.map((part, at) => part + codes(at)).join('\n');
}
