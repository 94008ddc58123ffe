// The second hour: fifteen lessons, from a definition by cases to a compiler that is proved correct. Every other one is an exercise: its hints say what to look at,
// and give no command away.

const DOUBLE = 'define DOUBLE `DOUBLE 0 = 0 /\\ DOUBLE (SUC n) = SUC (SUC (DOUBLE n))`;;\n';
const DOUBLE_MADE = 'thm DOUBLE |- DOUBLE _0 = _0 /\\ (!n. DOUBLE (SUC n) = SUC (SUC (DOUBLE n)))';
const DOUBLE_SHOWN = 'thm DOUBLE |- DOUBLE 0 = 0 /\\ (!n. DOUBLE (SUC n) = SUC (SUC (DOUBLE n)))';
const SUMOF = 'define SUMOF `SUMOF [] = 0 /\\ SUMOF (CONS h t) = h + SUMOF t`;;\n';
const SUMOF_MADE = 'thm SUMOF |- SUMOF NIL = _0 /\\ (!h t. SUMOF (CONS h t) = add h (SUMOF t))';
const SUMOF_SHOWN = 'thm SUMOF |- SUMOF [] = 0 /\\ (!h t. SUMOF (CONS h t) = h + SUMOF t)';
const EXP = 'define_type exp = Num num | Var | Plus exp exp | Times exp exp;;\n';
const EVAL = 'define EVAL `EVAL x (Num n) = n /\\ EVAL x Var = x /\\\n'
  + '  EVAL x (Plus a b) = EVAL x a + EVAL x b /\\ EVAL x (Times a b) = EVAL x a * EVAL x b`;;\n';
const EVAL_MADE = 'thm EVAL |- (!x n. EVAL x (Num n) = n) /\\ (!x. EVAL x Var = x) /\\ (!x a b. EVAL x (Plus a b) = add (EVAL x a) (EVAL x b)) /\\ '
  + '(!x a b. EVAL x (Times a b) = mult (EVAL x a) (EVAL x b))';

export const SECOND = [
  {
    title: 'A definition by cases',
    say: [
      '<code>import linear;;</code> takes a theory of the library, with what that one imports: here the numbers with <code>+</code>, <code>&lt;=</code> and '
      + '<code>if p then s else t</code>. MAX2 is the greater of two numbers.',
      'Prove that it is at least the first one. <code>REWRITE_TAC [MAX2]</code> writes the definition out. Then make cases: '
      + '<code>EXCLUDED_MIDDLE</code> says <code>!t. t \\/ ~t</code>, <code>SPEC</code> puts a term for t, and <code>DISJ_CASES_TAC</code> makes a goal '
      + 'of each side.',
      'In each case the condition is assumed, so <code>ASM_REWRITE_TAC [COND_CLAUSES]</code> says which branch is taken.',
    ],
    given: ['import linear;;\nnew_definition MAX2 `MAX2 m n = if m <= n then n else m`;;\n\ng MAX2_UPPER `!m n. m <= MAX2 m n`;;\n'],
    wanted: ['thm MAX2 |- !m n. MAX2 m n = COND (le m n) n m', 'thm MAX2_UPPER |- !m n. le m (MAX2 m n)'],
    inNotation: ['thm MAX2 |- !m n. MAX2 m n = (if m <= n then n else m)', 'thm MAX2_UPPER |- !m n. m <= MAX2 m n'],
    hints: [
      { say: 'Take both <code>!</code> off, and write MAX2 out.', code: 'e REPEAT GEN_TAC THEN REWRITE_TAC [MAX2];;\n' },
      { say: 'Make cases by the condition.', code: 'e DISJ_CASES_TAC (SPEC `m <= n` EXCLUDED_MIDDLE);;\n' },
      { say: 'In the first one <code>m &lt;= n</code> is assumed, and it is what is wanted.', code: '  e ASM_REWRITE_TAC [COND_CLAUSES];;\n' },
      {
        say: 'In the second one <code>m &lt;= m</code> is left: that is <code>LE_REFL</code>.',
        code: '  e ASM_REWRITE_TAC [COND_CLAUSES; LE_REFL];;\nqed;;\n',
      },
    ],
  },
  {
    title: 'Exercise: the smaller of two',
    say: [
      'Now without commands: the hints of an exercise say where to look. MIN2 is the smaller of two numbers. Prove that it is at most the first one.',
      'What a name says is shown where the pointer rests on it; F1 at the cursor does the same.',
    ],
    given: ['import linear;;\nnew_definition MIN2 `MIN2 m n = if m <= n then m else n`;;\n\ng MIN2_LOWER `!m n. MIN2 m n <= m`;;\n'],
    wanted: ['thm MIN2 |- !m n. MIN2 m n = COND (le m n) m n', 'thm MIN2_LOWER |- !m n. le (MIN2 m n) m'],
    inNotation: ['thm MIN2 |- !m n. MIN2 m n = (if m <= n then m else n)', 'thm MIN2_LOWER |- !m n. MIN2 m n <= m'],
    hints: [
      { say: 'It begins as the lesson before: the same cases.' },
      { say: 'In the second case <code>~(m &lt;= n)</code> is assumed. Search “Theorems” for <code>~(_ &lt;= _)</code>: one says what that is.' },
      { say: '<code>NOT_LE</code> is an equation, and turned round by <code>SYM</code> it goes from <code>n &lt; m</code> to what is assumed.' },
      { say: 'From <code>n &lt; m</code> the goal follows by <code>LT_IMP_LE</code>, with MATCH_MP_TAC. “Find a proof” does it, too.' },
    ],
  },
  {
    title: 'Recursion and induction',
    say: [
      'Behind <code>import packages;;</code> the command <code>define NAME `clauses`</code> makes a function that may call itself: a clause for 0, and '
      + 'one for the number after n, <code>SUC n</code>. Its theorem has the clauses, and rewriting computes by it.',
      'To prove something of every number, prove it of 0, and of <code>SUC n</code> where it holds of n. The step <code>e INDUCT_ON `n`</code> leaves these '
      + 'two goals.',
      'In the second one <code>REPEAT STRIP_TAC</code> assumes what holds of n, the <b>induction hypothesis</b>. <code>ADD_CLAUSES</code> computes with +.',
    ],
    given: [`import packages;;\n${DOUBLE}\ng DOUBLE_ADD \`!n. DOUBLE n = n + n\`;;\n`],
    wanted: [DOUBLE_MADE, 'thm DOUBLE_ADD |- !n. DOUBLE n = add n n'],
    inNotation: [DOUBLE_SHOWN, 'thm DOUBLE_ADD |- !n. DOUBLE n = n + n'],
    hints: [
      { say: 'Begin by the induction.', code: 'e INDUCT_ON `n`;;\n' },
      { say: 'Of 0 both sides are computed.', code: '  e REWRITE_TAC [DOUBLE; ADD_CLAUSES];;\n' },
      { say: 'Then assume the induction hypothesis.', code: 'e REPEAT STRIP_TAC;;\n' },
      { say: 'It is an equation: rewrite by it, too.', code: 'e ASM_REWRITE_TAC [DOUBLE; ADD_CLAUSES];;\nqed;;\n' },
    ],
  },
  {
    title: 'Exercise: doubles are even',
    say: [
      'A function may answer a truth value: EV says whether a number is even. (<code>&lt;=&gt;</code> is the = of truth values.) Prove that each double is.',
    ],
    given: [`import packages;;\n${DOUBLE}define EV \`(EV 0 <=> T) /\\ (EV (SUC n) <=> ~EV n)\`;;\n\ng EV_DOUBLE \`!n. EV (DOUBLE n)\`;;\n`],
    wanted: [DOUBLE_MADE, 'thm EV |- (EV _0 <=> T) /\\ (!n. EV (SUC n) <=> ~EV n)', 'thm EV_DOUBLE |- !n. EV (DOUBLE n)'],
    inNotation: [DOUBLE_SHOWN, 'thm EV |- (EV 0 <=> T) /\\ (!n. EV (SUC n) <=> ~EV n)', 'thm EV_DOUBLE |- !n. EV (DOUBLE n)'],
    hints: [
      { say: 'By induction on n.' },
      { say: 'Both goals are closed by computing: with the clauses of DOUBLE and of EV.' },
      { say: 'In the second one assume the induction hypothesis before, and rewrite by it.' },
    ],
  },
  {
    title: 'Finding theorems',
    say: [
      'The library has thousands of theorems. In “Theorems” a pattern finds those of a form, where <code>_</code> stands for anything: try <code>_ &lt;= _ + '
      + '_</code>. Words find names: <code>le trans</code>.',
      'Names follow HOL Light’s: <code>ADD_SYM</code> swaps the sides of +, <code>LE_TRANS</code> chains, what ends in <code>_CLAUSES</code> is for rewriting.',
      'Prove both by what you find. MATCH_MP_TAC of LE_TRANS asks for a number in between, which <code>EXISTS_TAC</code> names.',
    ],
    given: [
      `import packages;;\n${DOUBLE}g DOUBLE_ADD \`!n. DOUBLE n = n + n\`;;\n`
        + 'e INDUCT_ON `n` THEN REPEAT STRIP_TAC THEN ASM_REWRITE_TAC [DOUBLE; ADD_CLAUSES];;\nqed;;\n\ng DOUBLE_LE `!n. n <= DOUBLE n`;;\n',
      'g LE_MORE `!k m n. m <= n ==> m <= n + k`;;\n',
    ],
    wanted: ['thm DOUBLE_LE |- !n. le n (DOUBLE n)', 'thm LE_MORE |- !k m n. le m n ==> le m (add n k)'],
    inNotation: ['thm DOUBLE_LE |- !n. n <= DOUBLE n', 'thm LE_MORE |- !k m n. m <= n ==> m <= n + k'],
    hints: [
      {
        say: 'Of the first: rewrite by DOUBLE_ADD; what is left is <code>LE_ADD</code>.', part: 0,
        code: 'e GEN_TAC THEN REWRITE_TAC [DOUBLE_ADD];;\ne REWRITE_TAC [LE_ADD];;\nqed;;\n',
      },
      {
        say: 'Of the second: take it apart, and go by way of n.',
        code: 'e REPEAT STRIP_TAC THEN MATCH_MP_TAC LE_TRANS;;\ne EXISTS_TAC `n:num`;;\n',
      },
      { say: 'One side is assumed, the other is LE_ADD.', code: 'e ASM_REWRITE_TAC [LE_ADD];;\nqed;;\n' },
    ],
  },
  {
    title: 'Finding proofs',
    say: [
      'Where a goal is open, the button “Find a proof” under the text searches some seconds for steps that close it: logic, equations, small '
      + 'inductions, linear arithmetic. It writes them into your theory, and the program checks them as it checks yours.',
      'Let it prove this one. What it writes is long, as it is made of small steps; you need not read it.',
    ],
    given: ['import linear;;\n\ng TWICE_LT `!m n. m < n ==> m + m < n + n`;;\n'],
    wanted: ['thm TWICE_LT |- !m n. lt m n ==> lt (add m m) (add n n)'],
    inNotation: ['thm TWICE_LT |- !m n. m < n ==> m + m < n + n'],
    hints: [
      {
        say: 'Put the cursor into the line of the goal, and press “Find a proof”. It wrote this:',
        code: 'e LE_REFUTE_TAC THEN UNDISCH_TAC `SUC (n + n) <= SUC (m + m)` THEN LE_FIRST_TAC;;\n'
          + 'e UNDISCH_TAC `SUC m <= n` THEN MATCH_MP_TAC (SPEC `2` LE_PLUS_MULT) THEN SUBST1_TAC (SPEC `m:num` VAR0);;\n'
          + 'e SUBST1_TAC (SPEC `n:num` VAR1) THEN LE_SUM_TAC;;\n',
      },
      { say: 'No goal is left.', code: 'qed;;\n' },
    ],
  },
  {
    title: 'Lists',
    say: [
      '<code>[]</code> is the empty list, <code>CONS h t</code> the list of head h and tail t, <code>l ++ m</code> one list behind the other '
      + '(<code>APPEND</code> is its theorem). A function on lists has a clause for each of the two forms, and so has an induction.',
      'SUMOF adds a list up. Prove that the sum of two lists is the sum of their sums. Keep m under its <code>!</code>, and put the list on which you induct '
      + 'first.',
    ],
    given: [`import packages;;\n${SUMOF}\ng SUMOF_APPEND \`!l m. SUMOF (l ++ m) = SUMOF l + SUMOF m\`;;\n`],
    wanted: [SUMOF_MADE, 'thm SUMOF_APPEND |- !l m. SUMOF (APPEND l m) = add (SUMOF l) (SUMOF m)'],
    inNotation: [SUMOF_SHOWN, 'thm SUMOF_APPEND |- !l m. SUMOF (l ++ m) = SUMOF l + SUMOF m'],
    hints: [
      { say: 'By induction on the first list.', code: 'e INDUCT_ON `l`;;\n' },
      {
        say: 'Of the empty list all is computed. <code>FORALL_SIMP</code> drops a <code>!m</code> in front of T.',
        code: '  e REWRITE_TAC [APPEND; SUMOF; ADD_CLAUSES; FORALL_SIMP];;\n',
      },
      { say: 'Assume the induction hypothesis.', code: 'e REPEAT STRIP_TAC;;\n' },
      { say: 'Compute, and move the brackets of + by <code>ADD_ASSOC</code>.', code: 'e ASM_REWRITE_TAC [APPEND; SUMOF; ADD_ASSOC];;\nqed;;\n' },
    ],
  },
  {
    title: 'Exercise: the same sum backwards',
    say: [
      '<code>REVERSE l</code> is the list turned round; its theorem REVERSE says how it is made by <code>++</code>. Prove that it has the same sum. The theorem of '
      + 'the lesson before stands.',
    ],
    given: [
      `import packages;;\n${SUMOF}\ng SUMOF_APPEND \`!l m. SUMOF (l ++ m) = SUMOF l + SUMOF m\`;;\n`
        + 'e INDUCT_ON `l` THEN REPEAT STRIP_TAC THEN ASM_REWRITE_TAC [APPEND; SUMOF; ADD_CLAUSES; ADD_ASSOC];;\nqed;;\n\n'
        + 'g SUMOF_REVERSE `!l. SUMOF (REVERSE l) = SUMOF l`;;\n',
    ],
    wanted: [SUMOF_MADE, 'thm SUMOF_REVERSE |- !l. SUMOF (REVERSE l) = SUMOF l'],
    inNotation: [SUMOF_SHOWN, 'thm SUMOF_REVERSE |- !l. SUMOF (REVERSE l) = SUMOF l'],
    hints: [
      { say: 'By induction. The empty list is turned round by REVERSE alone.' },
      { say: 'Else rewrite by REVERSE, then by the sum of two lists, and compute.' },
      { say: 'What is left swaps the sides of a sum. Rewriting by ADD_SYM wouldn’t end: give it at these two terms, by SPEC, to ACCEPT_TAC.' },
    ],
  },
  {
    title: 'Say more to prove it',
    say: [
      'ADDUP adds a list up in a loop: its second argument is the sum so far. From 0 on it gives the sum. But an induction on exactly that gets stuck: its '
      + 'hypothesis speaks of 0 alone, and the loop goes on with <code>h + 0</code>.',
      'So prove <b>more</b>: what the loop gives from any a. Its <code>!a</code> has to stand under the induction, so that the hypothesis holds of all a. The '
      + 'theorem that is wanted then is one line.',
    ],
    given: [
      `import packages;;\n${SUMOF}define ADDUP \`ADDUP [] a = a /\\ ADDUP (CONS h t) a = ADDUP t (h + a)\`;;\n\n`
        + 'g ADDUP_SUMOF `!l a. ADDUP l a = SUMOF l + a`;;\n',
      'g ADDUP_IS_SUMOF `!l. ADDUP l 0 = SUMOF l`;;\n',
    ],
    wanted: [
      SUMOF_MADE, 'thm ADDUP |- (!a. ADDUP NIL a = a) /\\ (!h t a. ADDUP (CONS h t) a = ADDUP t (add h a))',
      'thm ADDUP_IS_SUMOF |- !l. ADDUP l _0 = SUMOF l',
    ],
    inNotation: [
      SUMOF_SHOWN, 'thm ADDUP |- (!a. ADDUP [] a = a) /\\ (!h t a. ADDUP (CONS h t) a = ADDUP t (h + a))',
      'thm ADDUP_IS_SUMOF |- !l. ADDUP l 0 = SUMOF l',
    ],
    hints: [
      {
        say: 'Of the first: induction on l, and the empty list.', part: 0,
        code: 'e INDUCT_ON `l`;;\n  e REWRITE_TAC [ADDUP; SUMOF; ADD_CLAUSES; FORALL_SIMP];;\n',
      },
      { say: 'Compute, and use the hypothesis, at another a.', part: 0, code: 'e REPEAT STRIP_TAC THEN ASM_REWRITE_TAC [ADDUP; SUMOF];;\n' },
      {
        say: 'Move the brackets, and swap the sides of one sum.', part: 0,
        code: 'e REWRITE_TAC [ADD_ASSOC] THEN SUBST1_TAC (SPEC `SUMOF t` (SPEC `h:num` ADD_SYM)) THEN REFL_TAC;;\nqed;;\n',
      },
      { say: 'Of the second: it is the first one at 0.', code: 'e REWRITE_TAC [ADDUP_SUMOF; ADD_CLAUSES; FORALL_SIMP];;\nqed;;\n' },
    ],
  },
  {
    title: 'Exercise: turning round in a loop',
    say: [
      'REV turns a list round in a loop. Prove that it gives what REVERSE gives. Nobody says here what to prove first: state a theorem of your own in front, by '
      + '<code>g NAME `..`</code>.',
    ],
    given: [
      'import packages;;\ndefine REV `REV ([]:A list) a = a /\\ REV (CONS h t) a = REV t (CONS h a)`;;\n\n(* A theorem of your own may stand here. *)\n',
      'g REV_REVERSE `!l:A list. REV l [] = REVERSE l`;;\n',
    ],
    wanted: ['thm REV |- (!a. REV NIL a = a) /\\ (!h t a. REV (CONS h t) a = REV t (CONS h a))', 'thm REV_REVERSE |- !l. REV l NIL = REVERSE l'],
    inNotation: ['thm REV |- (!a. REV [] a = a) /\\ (!h t a. REV (CONS h t) a = REV t (CONS h a))', 'thm REV_REVERSE |- !l. REV l [] = REVERSE l'],
    hints: [
      { say: 'What does <code>REV l a</code> give from any list a? Try <code>[1; 2; 3]</code> on paper.' },
      { say: 'It gives <code>REVERSE l ++ a</code>. State that for all l and a, with types: <code>!l (a:A list). ..</code>' },
      { say: 'By induction, with the theorems of REV, REVERSE and <code>++</code>. Brackets of <code>++</code> are moved by APPEND_ASSOC, or by it turned round.' },
      { say: 'Then the goal is your theorem at <code>[]</code>: <code>APPEND_NIL</code> says what a list with <code>[]</code> behind it is.' },
    ],
  },
  {
    title: 'A compiler',
    say: [
      'Expressions are polynomials in x, written as the list of their coefficients, the lowest first: <code>[5; 0; 2]</code> is 5 + 0x + 2x². VALUE says what one '
      + 'means.',
      'The machine has one register. An instruction is a number i: multiply the register by x, and add i. RUN says what the register holds after a program. '
      + 'The compiler begins with the highest coefficient.',
      'It is <b>correct</b> if running the compiled program from 0 gives the value. An induction gets stuck where one program runs behind another, so that is '
      + 'the theorem to prove first.',
    ],
    given: [
      'import packages;;\ndefine VALUE `VALUE x [] = 0 /\\ VALUE x (CONS c t) = c + x * VALUE x t`;;\n'
        + 'define RUN `RUN x [] a = a /\\ RUN x (CONS i q) a = RUN x q (i + x * a)`;;\n'
        + 'define COMPILE `COMPILE [] = ([]:num list) /\\ COMPILE (CONS c t) = COMPILE t ++ [c]`;;\n\n'
        + 'g RUN_APPEND `!p q x a. RUN x (p ++ q) a = RUN x q (RUN x p a)`;;\n',
      'g COMPILE_CORRECT `!l x. RUN x (COMPILE l) 0 = VALUE x l`;;\n',
    ],
    wanted: [
      'thm VALUE |- (!x. VALUE x NIL = _0) /\\ (!x c t. VALUE x (CONS c t) = add c (mult x (VALUE x t)))',
      'thm RUN |- (!x a. RUN x NIL a = a) /\\ (!x i q a. RUN x (CONS i q) a = RUN x q (add i (mult x a)))',
      'thm COMPILE_CORRECT |- !l x. RUN x (COMPILE l) _0 = VALUE x l',
    ],
    inNotation: [
      'thm VALUE |- (!x. VALUE x [] = 0) /\\ (!x c t. VALUE x (CONS c t) = c + x * VALUE x t)',
      'thm RUN |- (!x a. RUN x [] a = a) /\\ (!x i q a. RUN x (CONS i q) a = RUN x q (i + x * a))',
      'thm COMPILE_CORRECT |- !l x. RUN x (COMPILE l) 0 = VALUE x l',
    ],
    hints: [
      {
        say: 'Of the first: induction on the first program, and both goals are computed.', part: 0,
        code: 'e INDUCT_ON `p` THEN REPEAT STRIP_TAC THEN ASM_REWRITE_TAC [APPEND; RUN];;\nqed;;\n',
      },
      { say: 'Of the second: induction on l; the empty program.', code: 'e INDUCT_ON `l`;;\n  e REWRITE_TAC [COMPILE; RUN; VALUE; FORALL_SIMP];;\n' },
      { say: 'Then by RUN_APPEND and the hypothesis.', code: 'e REPEAT STRIP_TAC THEN ASM_REWRITE_TAC [COMPILE; RUN_APPEND; RUN; VALUE];;\nqed;;\n' },
    ],
  },
  {
    title: 'Types of your own',
    say: [
      '<code>define_type</code> makes a type by its constructors: an expression is a number, the variable, a sum or a product of two. With it come its induction '
      + 'and all else one needs of it; functions on it have a clause for each constructor.',
      'MIRROR swaps the sides of each sum and product. Prove that this changes no value: an induction with four goals.',
    ],
    given: [
      `import packages;;\n${EXP}${EVAL}define MIRROR \`MIRROR (Num n) = Num n /\\ MIRROR Var = Var /\\\n`
        + '  MIRROR (Plus a b) = Plus (MIRROR b) (MIRROR a) /\\ MIRROR (Times a b) = Times (MIRROR b) (MIRROR a)`;;\n\n'
        + 'g MIRROR_EVAL `!e x. EVAL x (MIRROR e) = EVAL x e`;;\n',
    ],
    wanted: [
      EVAL_MADE,
      'thm MIRROR |- (!n. MIRROR (Num n) = Num n) /\\ MIRROR Var = Var /\\ (!a b. MIRROR (Plus a b) = Plus (MIRROR b) (MIRROR a)) /\\ '
        + '(!a b. MIRROR (Times a b) = Times (MIRROR b) (MIRROR a))',
      'thm MIRROR_EVAL |- !e x. EVAL x (MIRROR e) = EVAL x e',
    ],
    inNotation: ['thm MIRROR_EVAL |- !e x. EVAL x (MIRROR e) = EVAL x e'],
    hints: [
      {
        say: 'Induction on e. Of numbers and the variable nothing changes.',
        code: 'e INDUCT_ON `e`;;\n  e REWRITE_TAC [MIRROR; FORALL_SIMP];;\n  e REWRITE_TAC [MIRROR; FORALL_SIMP];;\n',
      },
      { say: 'A sum: rewrite by the hypotheses of both sides.', code: '  e REPEAT STRIP_TAC THEN ASM_REWRITE_TAC [MIRROR; EVAL];;\n' },
      { say: 'What is left is ADD_SYM at these two values.', code: '  e ACCEPT_TAC (SPEC `EVAL x a0` (SPEC `EVAL x a1` ADD_SYM));;\n' },
      {
        say: 'And so of a product.',
        code: 'e REPEAT STRIP_TAC THEN ASM_REWRITE_TAC [MIRROR; EVAL];;\ne ACCEPT_TAC (SPEC `EVAL x a0` (SPEC `EVAL x a1` MULT_SYM));;\nqed;;\n',
      },
    ],
  },
  {
    title: 'Exercise: one expression in another',
    say: ['<code>PUT f e</code> puts f for the variable everywhere in e. Prove that its value at x is that of e at the value of f.'],
    given: [
      `import packages;;\n${EXP}${EVAL}define PUT \`PUT f (Num n) = Num n /\\ PUT f Var = f /\\\n`
        + '  PUT f (Plus a b) = Plus (PUT f a) (PUT f b) /\\ PUT f (Times a b) = Times (PUT f a) (PUT f b)`;;\n\n'
        + 'g PUT_EVAL `!e f x. EVAL x (PUT f e) = EVAL (EVAL x f) e`;;\n',
    ],
    wanted: [
      EVAL_MADE,
      'thm PUT |- (!f n. PUT f (Num n) = Num n) /\\ (!f. PUT f Var = f) /\\ (!f a b. PUT f (Plus a b) = Plus (PUT f a) (PUT f b)) /\\ '
        + '(!f a b. PUT f (Times a b) = Times (PUT f a) (PUT f b))',
      'thm PUT_EVAL |- !e f x. EVAL x (PUT f e) = EVAL (EVAL x f) e',
    ],
    inNotation: ['thm PUT_EVAL |- !e f x. EVAL x (PUT f e) = EVAL (EVAL x f) e'],
    hints: [
      { say: 'On which variable do both functions recur? On that one by induction.' },
      { say: 'All four goals are closed by one and the same step: strip, and rewrite by the hypotheses and both functions.' },
      { say: '<code>THEN</code> runs it on all four.' },
    ],
  },
  {
    title: 'Relations by rules',
    say: [
      '<code>inductive</code> makes the least relation that has the rules you write: what is even is reached from 0 by adding two. It gives '
      + '<code>EVN_RULES</code>, the rules, and an induction over how something was reached.',
      'The step <code>e RULE_INDUCT EVN</code> turns a goal <code>!n. EVN n ==> p</code> into a goal for each rule.',
      'Prove that each such number is some m + m, and that four more is even, too. (Of a theorem <code>p /\\ q</code>, <code>CONJUNCT1</code> is p and <code>CONJUNCT2</code> '
      + 'is q.)',
    ],
    given: [
      'import packages;;\ninductive EVN `EVN 0 /\\ (!n. EVN n ==> EVN (SUC (SUC n)))`;;\n\ng EVN_HALF `!n. EVN n ==> ?m. n = m + m`;;\n',
      'g EVN_FOUR `!n. EVN n ==> EVN (SUC (SUC (SUC (SUC n))))`;;\n',
    ],
    wanted: [
      'thm EVN_HALF |- !n. EVN n ==> (?m. n = add m m)',
      'thm EVN_FOUR |- !n. EVN n ==> EVN (SUC (SUC (SUC (SUC n))))',
    ],
    inNotation: ['thm EVN_HALF |- !n. EVN n ==> (?m. n = m + m)', 'thm EVN_FOUR |- !n. EVN n ==> EVN (SUC (SUC (SUC (SUC n))))'],
    hints: [
      {
        say: 'Of the first: by the rules. Of 0 the half is 0.', part: 0,
        code: 'e RULE_INDUCT EVN;;\n  e EXISTS_TAC `0` THEN REWRITE_TAC [ADD_CLAUSES];;\n',
      },
      {
        say: 'Of the other rule it is one more than the half before.', part: 0,
        code: 'e REPEAT STRIP_TAC THEN EXISTS_TAC `SUC m`;;\ne ASM_REWRITE_TAC [ADD_CLAUSES];;\nqed;;\n',
      },
      {
        say: 'Of the second: by the second rule twice, and what is left is assumed.',
        code: 'e REPEAT STRIP_TAC THEN MATCH_MP_TAC (CONJUNCT2 EVN_RULES) THEN MATCH_MP_TAC (CONJUNCT2 EVN_RULES);;\n'
          + 'e FIRST_ASSUM ACCEPT_TAC;;\nqed;;\n',
      },
    ],
  },
  {
    title: 'Exercise: a compiler for expressions',
    say: [
      'Here is a machine with a stack, a list of numbers of which the first is the top. <code>Add</code> and <code>Mul</code> take two numbers off and put their '
      + 'sum or product on. COMP compiles an expression: first the code of its parts, then the instruction.',
      'Prove that running the code of any expression, on any stack, puts its value on top. Then you have proved a compiler correct.',
    ],
    given: [
      `import packages;;\n${EXP}define_type instr = Push num | Load | Add | Mul;;\n${EVAL}`
        + 'define STEP `STEP x (Push n) s = CONS n s /\\ STEP x Load s = CONS x s /\\\n'
        + '  STEP x Add (CONS b (CONS a s)) = CONS (a + b) s /\\ STEP x Mul (CONS b (CONS a s)) = CONS (a * b) s /\\\n  STEP x i s = s`;;\n'
        + 'define EXEC `EXEC x [] s = s /\\ EXEC x (CONS i p) s = EXEC x p (STEP x i s)`;;\n'
        + 'define COMP `COMP (Num n) = [Push n] /\\ COMP Var = [Load] /\\\n'
        + '  COMP (Plus a b) = COMP a ++ COMP b ++ [Add] /\\ COMP (Times a b) = COMP a ++ COMP b ++ [Mul]`;;\n\n(* A theorem of your own may stand here. *)\n',
      'g COMP_CORRECT `!e x s. EXEC x (COMP e) s = CONS (EVAL x e) s`;;\n',
    ],
    wanted: [
      EVAL_MADE, 'thm EXEC |- (!x s. EXEC x NIL s = s) /\\ (!x i p s. EXEC x (CONS i p) s = EXEC x p (STEP x i s))',
      'thm COMP |- (!n. COMP (Num n) = CONS (Push n) NIL) /\\ COMP Var = CONS Load NIL /\\ '
        + '(!a b. COMP (Plus a b) = APPEND (COMP a) (APPEND (COMP b) (CONS Add NIL))) /\\ '
        + '(!a b. COMP (Times a b) = APPEND (COMP a) (APPEND (COMP b) (CONS Mul NIL)))',
      'thm COMP_CORRECT |- !e x s. EXEC x (COMP e) s = CONS (EVAL x e) s',
    ],
    inNotation: ['thm COMP_CORRECT |- !e x s. EXEC x (COMP e) s = CONS (EVAL x e) s'],
    hints: [
      { say: 'Begin the induction on e, and look at where it gets stuck: one program runs behind another.' },
      { say: 'So prove first what EXEC makes of <code>p ++ q</code>, on any stack. You have done the like in “A compiler”.' },
      { say: 'With it, all four goals are closed by one step: strip, and rewrite by the hypotheses, your theorem and the clauses of all four functions.' },
    ],
  },
];
