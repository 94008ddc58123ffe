(* What a file of `holls export --hol-light` needs, in HOL Light loaded up to ind_defs.ml: the prelude's constants and theorems, the functions
   on goals as docs/TACTICS.md has them, made of HOL Light's rules, and how a proof is run: by HOL Light's own functions, and where these fail
   by ours. HOL Light's kernel makes each theorem in either case. *)

type_invention_warning := false;;
let ETA_AX = new_axiom (parse_term "!t:A->B. (\\x. t x) = t");;
new_constant("@",parse_type "(A->bool)->A");;
parse_as_binder "@";;
let SELECT_AX = new_axiom (parse_term "!P (x:A). P x ==> P((@) P)");;
new_type("ind",0);;
let ONE_ONE = new_definition (parse_term "ONE_ONE (f:A->B) <=> (!x1 x2. f x1 = f x2 ==> x1 = x2)");;
let ONTO = new_definition (parse_term "ONTO (f:A->B) <=> (!y. ?x. y = f x)");;
let INFINITY_AX = new_axiom (parse_term "?f:ind->ind. ONE_ONE f /\\ ~ONTO f");;
let t_T_DEF = T_DEF and t_AND_DEF = AND_DEF and t_IMP_DEF = IMP_DEF and t_FORALL_DEF = FORALL_DEF and t_EXISTS_DEF = EXISTS_DEF
and t_OR_DEF = OR_DEF and t_F_DEF = F_DEF and t_NOT_DEF = NOT_DEF and t_EXISTS_UNIQUE_DEF = EXISTS_UNIQUE_DEF and t_ETA_AX = ETA_AX
and t_SELECT_AX = SELECT_AX and t_ONE_ONE = ONE_ONE and t_ONTO = ONTO and t_INFINITY_AX = INFINITY_AX and t_TRUTH = TRUTH
and t_REFL_CLAUSE = REFL_CLAUSE and t_EQ_CLAUSES = EQ_CLAUSES and t_NOT_CLAUSES_WEAK = NOT_CLAUSES_WEAK and t_AND_CLAUSES = AND_CLAUSES
and t_OR_CLAUSES = OR_CLAUSES and t_IMP_CLAUSES = IMP_CLAUSES;;
let quoted = parse_term;;
let quoted_type = parse_type;;

(* Our tactics, where HOL Light's of the same name differ. *)
module Ours = struct
  (* Names that are freed: the base with the fewest primes that is the name of no variable there and of no constant. *)
  let standing : (string,unit) Hashtbl.t = Hashtbl.create 100
  let counted = ref 0
  let is_constant name =
    let all = constants () in
    let count = List.length all in
    (if count <> !counted then (List.iter (fun (c,_) -> Hashtbl.replace standing c ()) all; counted := count));
    Hashtbl.mem standing name
  let base name =
    let rec without i = if i > 1 && name.[i-1] = '\'' then without (i-1) else i in
    String.sub name 0 (without (String.length name))
  let fresh avoid v =
    let name,ty = dest_var v in
    let names = map (fst o dest_var) avoid in
    let rec pick s = if mem s names || is_constant s then pick (s^"'") else s in
    mk_var(pick (base name),ty)
  let goal_variables (asl,w) = freesl (w :: map (concl o snd) asl)

  let gen_tac : tactic = fun (_,w as g) ->
    let v,_ = dest_forall w in X_GEN_TAC (fresh (goal_variables g) v) g
  let choose_tac th : tactic = fun g ->
    let v,_ = dest_exists (concl th) in X_CHOOSE_TAC (fresh (union (goal_variables g) (thm_frees th)) v) th g

  (* What is assumed is taken apart, a piece at a time. *)
  let rec strip (pieces : thm list) : tactic = fun (asl,w as g) ->
    match pieces with
      [] -> ALL_TAC g
    | th::rest ->
      let c = concl th in
      if is_conj c then strip (CONJUNCT1 th :: CONJUNCT2 th :: rest) g else
      if is_disj c then DISJ_CASES_THEN2 (fun a -> strip (a::rest)) (fun b -> strip (b::rest)) th g else
      if is_exists c then
        let v,_ = dest_exists c in
        let own = fresh (itlist (union o thm_frees) pieces (goal_variables g)) v in
        X_CHOOSE_THEN own (fun t -> strip (t::rest)) th g else
      if is_const c && fst(dest_const c) = "F" then CONTR_TAC th g else
      if aconv c w then ACCEPT_TAC th g else
      if is_const c && fst(dest_const c) = "T" || List.exists (fun (_,a) -> aconv (concl a) c) asl then strip rest g else
      (ASSUME_TAC th THEN strip rest) g
  let strip_assume_tac th = strip [th]
  let strip_tac : tactic = fun (_,w as g) ->
    if is_forall w then gen_tac g else if is_conj w then CONJ_TAC g else
    if is_imp w || is_neg w then DISCH_THEN (fun th -> strip [th]) g else failwith "STRIP_TAC"

  (* First-order matching: `fixed` variables and type variables stand for themselves. *)
  let rec match_type fixed pattern ty found =
    match pattern,ty with
      Tyvar _,_ ->
        (match (try Some(rev_assoc pattern found) with Failure _ -> None) with
           Some own -> if own = ty then found else failwith "match"
         | None -> if mem pattern fixed && pattern <> ty then failwith "match" else (ty,pattern)::found)
    | Tyapp(a,l),Tyapp(b,m) when a = b && length l = length m ->
        List.fold_left2 (fun found x y -> match_type fixed x y found) found l m
    | _ -> failwith "match"
  let first_order fixed fixed_types pattern tm =
    let rec go bound pattern tm (types,terms) =
      match pattern,tm with
        Var(_,ty),_ ->
          (match (try Some(assoc pattern bound) with Failure _ -> None) with
             Some own -> if own = tm then (types,terms) else failwith "match"
           | None ->
             if exists (fun (_,own) -> vfree_in own tm) bound then failwith "match" else
             if mem pattern fixed then (if pattern = tm then (types,terms) else failwith "match") else
             let types = match_type fixed_types ty (type_of tm) types in
             match (try Some(rev_assoc pattern terms) with Failure _ -> None) with
               Some t -> if aconv t tm then (types,terms) else failwith "match"
             | None -> (types,(tm,pattern)::terms))
      | Const(a,ty),Const(b,other) when a = b -> (match_type fixed_types ty other types,terms)
      | Comb(f,x),Comb(g,y) -> go bound x y (go bound f g (types,terms))
      | Abs(Var(_,ty) as v,b),Abs(Var(_,other) as w,c) -> go ((v,w)::bound) b c (match_type fixed_types ty other types,terms)
      | _ -> failwith "match" in
    let types,terms = go [] pattern tm ([],[]) in
    let types = filter (fun (t,a) -> t <> a) types in
    types,map (fun (t,v) -> t,inst types v) terms
  let fixed_of th = freesl (hyp th),itlist (union o type_vars_in_term) (hyp th) []

  (* Rewriting: the rules of a theorem, and the leftmost outermost part that one of them takes. *)
  let rec rules th =
    let c = concl th in
    if is_forall c then (let v,_ = dest_forall c in rules (SPEC (genvar (type_of v)) th)) else
    if is_conj c then rules (CONJUNCT1 th) @ rules (CONJUNCT2 th) else
    if is_eq c then (
      let l,r = dest_eq c in
      let fixed,fixed_types = fixed_of th in
      let is_rule = subset (frees r) (union (frees l) fixed) && subset (type_vars_in_term r) (union (type_vars_in_term l) fixed_types) in
      [if is_rule then th else EQT_INTRO th]) else
    [if is_neg c then EQF_INTRO th else EQT_INTRO th]
  let by_rule th =
    let l = lhs (concl th) and fixed,fixed_types = fixed_of th in
    fun tm ->
      let types,terms = first_order fixed fixed_types l tm in
      let own = INST terms (INST_TYPE types th) in
      if aconv (lhs (concl own)) tm then TRANS (REFL tm) own else failwith "by_rule"
  let rec first_conv c tm =
    try c tm with Failure _ -> match tm with
      Comb(f,x) -> (try AP_THM (first_conv c f) x with Failure _ -> AP_TERM f (first_conv c x))
    | Abs(_,_) -> ABS_CONV (first_conv c) tm
    | _ -> failwith "first_conv"
  let rec once_conv c tm =
    try c tm with Failure _ -> match tm with
      Comb(f,x) -> (match (try Some(once_conv c f) with Failure _ -> None) with
          Some th -> (try MK_COMB(th,once_conv c x) with Failure _ -> AP_THM th x)
        | None -> AP_TERM f (once_conv c x))
    | Abs(_,_) -> ABS_CONV (once_conv c) tm
    | _ -> failwith "once_conv"
  let basics = flat (map rules [REFL_CLAUSE; EQ_CLAUSES; NOT_CLAUSES_WEAK; AND_CLAUSES; OR_CLAUSES; IMP_CLAUSES])
  let turns = 10000
  let rewrite is_once ths is_basic : tactic = fun g ->
    let own = map by_rule (flat (map rules ths) @ (if is_basic then basics else [])) in
    let c tm = tryfind (fun rule -> rule tm) own in
    let rec loop left tm =
      match (try Some(first_conv c tm) with Failure _ -> None) with
        None -> REFL tm
      | Some th -> if left = 0 then failwith "turns" else TRANS th (loop (left - 1) (rand (concl th))) in
    CONV_TAC (fun tm -> if is_once then (try once_conv c tm with Failure _ -> REFL tm) else loop turns tm) g
  let with_assumptions is_once ths : tactic = fun (asl,_ as g) -> rewrite is_once (ths @ map snd asl) true g

  let match_mp_tac th : tactic = fun (_,w as g) ->
    let xs,_ = strip_forall (concl th) in
    let gs = map (genvar o type_of) xs in
    let opened = SPECL gs th in
    if is_neg (concl opened) then failwith "MATCH_MP_TAC" else
    let _,t = dest_imp (concl opened) in
    let fixed,fixed_types = fixed_of th in
    let types,terms = first_order fixed fixed_types t w in
    let found = INST terms (INST_TYPE types opened) in
    let s,t = dest_imp (concl found) in
    if not (aconv t w) then failwith "MATCH_MP_TAC" else
    let pairs = map (fun (x,g) -> inst types x,inst types g) (zip xs gs) in
    let left = filter (fun (_,g) -> vfree_in g s && not (mem g (map snd terms))) pairs in
    let rec renamed avoid l = match l with [] -> [] | (x,g)::r -> let own = variant avoid x in (own,g)::renamed (own::avoid) r in
    let left = renamed (subtract (frees s) (map snd left)) left in
    let found = INST left found in
    let ex,proved = itlist (fun (x,_) (p,th) -> let e = mk_exists(x,p) in e,CHOOSE(x,ASSUME e) th) left (lhand (concl found),UNDISCH found) in
    SUBGOAL_THEN ex (fun e -> ACCEPT_TAC (PROVE_HYP e proved)) g
end;;

let by_ours = ref false;;
let either theirs ours : tactic = fun g -> if !by_ours then ours g else theirs g;;
let GEN_TAC : tactic = either GEN_TAC Ours.gen_tac;;
let STRIP_TAC : tactic = either STRIP_TAC Ours.strip_tac;;
let CHOOSE_TAC th : tactic = either (fun g -> CHOOSE_TAC th g) (Ours.choose_tac th);;
let STRIP_ASSUME_TAC th : tactic = either (fun g -> STRIP_ASSUME_TAC th g) (Ours.strip_assume_tac th);;
let MATCH_MP_TAC th : tactic = either (fun g -> MATCH_MP_TAC th g) (Ours.match_mp_tac th);;
let REWRITE_TAC ths : tactic = either (fun g -> REWRITE_TAC ths g) (Ours.rewrite false ths true);;
let PURE_REWRITE_TAC ths : tactic = either (fun g -> PURE_REWRITE_TAC ths g) (Ours.rewrite false ths false);;
let ONCE_REWRITE_TAC ths : tactic = either (fun g -> ONCE_REWRITE_TAC ths g) (Ours.rewrite true ths true);;
let ASM_REWRITE_TAC ths : tactic = either (fun g -> ASM_REWRITE_TAC ths g) (Ours.with_assumptions false ths);;
let ONCE_ASM_REWRITE_TAC ths : tactic = either (fun g -> ONCE_ASM_REWRITE_TAC ths g) (Ours.with_assumptions true ths);;

(* Running proofs, each within a minute. *)
#load "unix.cma";;
exception Too_long;;
Sys.set_signal Sys.sigalrm (Sys.Signal_handle (fun _ -> raise Too_long));;
let seconds = 60;;
let by_theirs_count = ref 0 and by_ours_count = ref 0 and given_count = ref 0 and refused_count = ref 0;;
let failure = ref "";;
let step (tac : unit -> tactic) () = ignore (e (tac ()));;
let turned n () = ignore (r n);;
let run_steps is_ours tm steps =
  by_ours := is_ours;
  ignore (Unix.alarm seconds);
  let result =
    (try
       ignore (set_goal ([],tm));
       List.iteri (fun i one -> try one () with Failure why -> failwith (Printf.sprintf "step %d: %s" (i+1) why)) steps;
       let th = top_thm () in
       if hyp th = [] && aconv (concl th) tm then Some (EQ_MP (ALPHA (concl th) tm) th) else (failure := "another theorem"; None)
     with Failure why -> failure := why; None
     | Too_long -> failure := "a minute is over"; None
     | Stack_overflow -> failure := "nested too deeply"; None
     | Not_found | Unchanged | Match_failure _ -> failure := "goals remain"; None) in
  ignore (Unix.alarm 0);
  result;;
let stated name statement =
  try Some (quoted statement) with problem ->
    let why = (match problem with Failure why -> why | _ -> Printexc.to_string problem) in
    incr refused_count; Printf.printf "@refused %s: its statement can't be read: %s\n%!" name why; None;;
let proved name statement steps =
  match stated name statement with
    None -> TRUTH
  | Some tm ->
    match run_steps false tm steps with
      Some th -> incr by_theirs_count; th
    | None ->
      let theirs = !failure in
      match run_steps true tm steps with
        Some th -> incr by_ours_count; Printf.printf "@ours %s: %s\n%!" name theirs; th
      | None -> incr refused_count; Printf.printf "@refused %s: %s; ours: %s\n%!" name theirs !failure; mk_thm([],tm);;
let given name statement = match stated name statement with None -> TRUTH | Some tm -> incr given_count; mk_thm([],tm);;
let summary number =
  Printf.printf "@summary %d %d %d %d of %d\n%!" !by_theirs_count !by_ours_count !given_count !refused_count number;;
