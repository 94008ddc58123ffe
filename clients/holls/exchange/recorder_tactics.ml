(* The part of the recorder that is loaded behind tactics.ml, where goals and tactics are known. *)

(* A goal that is left, with the theorem that comes to stand for it. *)
type rec_left = { rec_open : goal; mutable rec_shown : thm option };;
type rec_node = { rec_goal : goal; rec_tactic : string; rec_args : rec_arg list; rec_left : rec_left list; rec_made : rec_left };;
let rec_log : rec_node list ref = ref [];;
let rec_place g = { rec_open = g; rec_shown = None };;
let rec_put name args g left =
  let made = rec_place g in
  rec_log := { rec_goal = g; rec_tactic = name; rec_args = args; rec_left = left; rec_made = made } :: !rec_log; made;;
(* A justification whose theorems are kept at the places that they stand for. *)
let rec_kept made left just = fun i ths ->
  (if length ths = length left then List.iter2 (fun place th -> place.rec_shown <- Some th) left ths);
  let th = rec_inside (just i) ths in
  made.rec_shown <- Some th; th;;

let rec_tac name args (tac : tactic) : tactic = fun g ->
  if !rec_depth > 0 then tac g else begin
    let (variables,goals,just) = rec_inside tac g in
    let left = map rec_place goals in
    let made = rec_put name args g left in
    variables,goals,rec_kept made left just end;;

(* A tactic that hands a theorem to another one: what this is run on is taken for a goal that the first leaves, in a place of its own. The
   tactic is made before there is a goal, as it may be refused for its theorem alone. *)
let rec_watch handed inner th (asl,w) =
  let own = rec_place (asl,w) in
  handed := own :: !handed;
  let (variables,goals,just) = inner th own.rec_open in
  variables,goals,rec_kept own [] just;;
let rec_watched name args handed (tac : tactic) left : tactic = fun g ->
  if !rec_depth > 0 then tac g else begin
    handed := [];
    let (variables,goals,just) = tac g in
    let places = map rec_place goals in
    let made = rec_put name args g (left !handed places) in
    variables,goals,rec_kept made places just end;;
let rec_newest handed _ = match handed with own :: _ -> [own] | [] -> [];;
let rec_then name args (tac : thm_tactic -> tactic) (inner : thm_tactic) : tactic =
  let handed = ref [] in rec_watched name args handed (tac (rec_watch handed inner)) rec_newest;;
let rec_cases name args (tac : thm_tactic -> thm_tactic -> tactic) (one : thm_tactic) (other : thm_tactic) : tactic =
  let handed = ref [] in
  rec_watched name args handed (tac (rec_watch handed one) (rec_watch handed other))
    (fun handed _ -> match handed with b :: a :: _ -> [a; b] | l -> l);;
let rec_subgoal tm (tac : term -> thm_tactic -> tactic) (inner : thm_tactic) : tactic =
  let handed = ref [] in
  rec_watched "SUBGOAL_THEN" [Rec_term tm] handed (tac tm (rec_watch handed inner))
    (fun handed goals -> match handed with own :: _ -> [hd goals; own] | [] -> goals);;
let rec_list name (tac : (thm list -> tactic) -> tactic) (inner : thm list -> tactic) : tactic =
  let handed = ref [] in rec_watched name [] handed (tac (rec_watch handed inner)) rec_newest;;

let rec_thms = map (fun th -> Rec_thm th);;

(* Of a tactic that was run: the theorem that came of it, and those of the goals that it left, by how the kernel made the one of the others. *)
let rec_derived n node =
  match node.rec_made.rec_shown with
    None -> ()
  | Some th ->
      let shown = List.concat (map (fun place -> match place.rec_shown with Some th -> [th] | None -> []) node.rec_left) in
      if length shown = length node.rec_left && rec_fits shown th then begin
        let holes = map (fun th -> string_of_int (rec_hole th)) shown in
        let made = rec_derivation th in
        rec_say (["J"; string_of_int n; string_of_int made] @ holes);
        List.iter rec_forget shown end;;

(* Writes a proof: its goals by the places where they are. *)
let rec_proof th (first : goal) nodes =
  let goals = ref ([] : (goal * int) list) in
  let goal g =
    try List.assq g !goals with Not_found ->
    let c = rec_term (snd g) in
    let hs = map (fun (_,h) -> string_of_int (rec_term (concl h))) (fst g) in
    let n = rec_new () in
    goals := (g,n) :: !goals;
    rec_say (["G"; string_of_int n; string_of_int c] @ hs); n in
  let node one =
    let g = goal one.rec_goal in
    let left = map (fun place -> string_of_int (goal place.rec_open)) one.rec_left in
    let args = map rec_argument one.rec_args in
    let n = rec_new () in
    rec_say (["K"; string_of_int n; one.rec_tactic; string_of_int g; string_of_int (length left)] @ left @ args);
    (if !rec_is_wanted then rec_derived n one);
    string_of_int n in
  let numbers = map node (rev nodes) in
  let theorem = rec_theorem th in
  let begun = goal first in
  rec_say (["P"; string_of_int theorem; string_of_int begun] @ numbers);;

let prove (tm,tac) =
  if !rec_depth > 0 then prove (tm,tac) else begin
    let saved = !rec_log in
    rec_log := [];
    let first = ref ([],tm) in
    let watched g = first := g; tac g in
    let th = (try prove (tm,watched) with ex -> (rec_log := saved; raise ex)) in
    let nodes = !rec_log in
    rec_log := saved;
    ignore (rec_note "prove" [] th);
    rec_proof th !first nodes; th end;;

let rec_name name th file =
  let n = rec_theorem th in
  rec_say ["N"; name; string_of_int n; file];
  (if !rec_is_wanted && rec_fits [] th then rec_say ["J"; "0"; string_of_int n; string_of_int (rec_derivation th)]);
  rec_settle th n; flush rec_channel;;
