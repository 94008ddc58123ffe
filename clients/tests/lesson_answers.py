"""Answers to the exercises among the page's lessons: of each, by its number, what goes behind each part of the text that it begins with."""

ANSWERS = {
    12: ["""e REPEAT GEN_TAC THEN REWRITE_TAC [MIN2];;
e DISJ_CASES_TAC (SPEC `m <= n` EXCLUDED_MIDDLE);;
e ASM_REWRITE_TAC [COND_CLAUSES; LE_REFL];;
e ASM_REWRITE_TAC [COND_CLAUSES] THEN MATCH_MP_TAC LT_IMP_LE THEN ASM_REWRITE_TAC [SYM (SPEC `n:num` (SPEC `m:num` NOT_LE))];;
qed;;
"""],
    14: ["""e INDUCT_ON `n` THEN REPEAT STRIP_TAC THEN ASM_REWRITE_TAC [DOUBLE; EV];;
qed;;
"""],
    18: ["""e INDUCT_ON `l`;;
e REWRITE_TAC [REVERSE];;
e REPEAT STRIP_TAC;;
e ASM_REWRITE_TAC [REVERSE; SUMOF_APPEND; SUMOF; ADD_CLAUSES];;
e ACCEPT_TAC (SPEC `h:num` (SPEC `SUMOF t` ADD_SYM));;
qed;;
"""],
    20: ["""g REV_APPEND `!l (a:A list). REV l a = REVERSE l ++ a`;;
e INDUCT_ON `l` THEN REPEAT STRIP_TAC THEN
  ASM_REWRITE_TAC [REV; REVERSE; APPEND; SYM (SPEC `z:A list` (SPEC `y:A list` (SPEC `x:A list` APPEND_ASSOC)))];;
qed;;
""", """e REWRITE_TAC [REV_APPEND; APPEND_NIL; FORALL_SIMP];;
qed;;
"""],
    23: ["""e INDUCT_ON `e` THEN REPEAT STRIP_TAC THEN ASM_REWRITE_TAC [PUT; EVAL];;
qed;;
"""],
    25: ["""g EXEC_APPEND `!p x q s. EXEC x (p ++ q) s = EXEC x q (EXEC x p s)`;;
e INDUCT_ON `p` THEN REPEAT STRIP_TAC THEN ASM_REWRITE_TAC [APPEND; EXEC];;
qed;;
""", """e INDUCT_ON `e` THEN REPEAT STRIP_TAC THEN ASM_REWRITE_TAC [COMP; EXEC; EXEC_APPEND; STEP; EVAL];;
qed;;
"""],
}
