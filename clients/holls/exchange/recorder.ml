(* The recorder that `holls import` loads into HOL Light behind drule.ml: it writes what is proved, by which tactics, to a neutral file.

   A line of the file is one thing, by its first letter; numbers name what stands in lines before.
     Y n v NAME           a type variable
     Y n c NAME types     a type
     T n v NAME type      a variable; c: a constant; a f x: an application; l v body: an abstraction
     H n RULE concl k hypotheses arguments
                          a theorem; RULE is what made it, or - ; k counts its hypotheses; an argument is tN, hN (a theorem) or yN (a type)
     G n concl hypotheses a goal
     K n TACTIC goal k goals arguments
                          a tactic that was run: k counts the goals that it left
     J node theorem theorems
                          what the kernel made: a tactic's theorem, and those of the goals that it left, of which it was made by the rules that
                          the H lines between them tell (where this was asked for); of node 0 a named theorem, and its derivation
     P theorem goal nodes a proof: its theorem, its first goal and its tactics in the order in which they ended
     N NAME theorem FILE  a name of the source, which is a theorem's *)

let rec_channel = open_out (Sys.getenv "HOLLS_RECORD");;
let rec_depth = ref 0;;
let rec_say words = output_string rec_channel (String.concat " " words); output_char rec_channel '\n';;
let rec_types : (hol_type,int) Hashtbl.t = Hashtbl.create 5000;;
let rec_terms : (string,int) Hashtbl.t = Hashtbl.create 100000;;
let rec_count = ref 0;;
let rec_new () = incr rec_count; !rec_count;;

let rec rec_type ty =
  try Hashtbl.find rec_types ty with Not_found ->
  let words = match ty with
      Tyvar name -> ["v"; name]
    | Tyapp(name,args) -> "c" :: name :: map (fun a -> string_of_int (rec_type a)) args in
  let n = rec_new () in
  Hashtbl.replace rec_types ty n; rec_say ("Y" :: string_of_int n :: words); n;;

let rec rec_term tm =
  let words = match tm with
      Var(name,ty) -> ["v"; name; string_of_int (rec_type ty)]
    | Const(name,ty) -> ["c"; name; string_of_int (rec_type ty)]
    | Comb(f,x) -> let a = rec_term f in let b = rec_term x in ["a"; string_of_int a; string_of_int b]
    | Abs(v,body) -> let a = rec_term v in let b = rec_term body in ["l"; string_of_int a; string_of_int b] in
  let key = String.concat " " words in
  try Hashtbl.find rec_terms key with Not_found ->
  let n = rec_new () in
  Hashtbl.replace rec_terms key n; rec_say ("T" :: string_of_int n :: words); n;;

(* What made a theorem, and the number of one that was written, by the theorem itself. *)
type rec_arg = Rec_term of term | Rec_thm of thm | Rec_type of hol_type;;
type rec_known = { rec_thm : thm; mutable rec_rule : string * rec_arg list; mutable rec_number : int };;
let rec_known : (int,rec_known list) Hashtbl.t = Hashtbl.create 20000;;
let rec_key th = Hashtbl.hash (concl th);;
let rec_bucket th = try Hashtbl.find rec_known (rec_key th) with Not_found -> [];;
let rec_find th = List.find (fun known -> known.rec_thm == th) (rec_bucket th);;
let rec_entry th =
  try rec_find th with Not_found ->
  let known = { rec_thm = th; rec_rule = "-",[]; rec_number = 0 } in
  Hashtbl.replace rec_known (rec_key th) (known :: rec_bucket th); known;;
let rec_note name args th =
  (if !rec_depth = 0 && not (exists (fun arg -> match arg with Rec_thm own -> own == th | _ -> false) args) then
    let known = rec_entry th in
    if fst known.rec_rule = "-" then known.rec_rule <- (name,args));
  th;;
let rec rec_theorem th =
  let known = rec_entry th in
  if known.rec_number > 0 then known.rec_number else begin
    let name,args = known.rec_rule in
    let args = map rec_argument args in
    let c = rec_term (concl th) in
    let hs = map (fun h -> string_of_int (rec_term h)) (hyp th) in
    let n = rec_new () in
    known.rec_number <- n;
    rec_say (["H"; string_of_int n; name; string_of_int c; string_of_int (length hs)] @ hs @ args); n end
and rec_argument arg = match arg with
    Rec_term tm -> "t" ^ string_of_int (rec_term tm)
  | Rec_thm th -> "h" ^ string_of_int (rec_theorem th)
  | Rec_type ty -> "y" ^ string_of_int (rec_type ty);;

(* Runs a function with what it calls unwritten. *)
let rec_inside f x =
  incr rec_depth;
  let result = (try f x with ex -> (decr rec_depth; raise ex)) in
  decr rec_depth; result;;

(* Rules by what they take. *)
let rec_rule1 name f th = rec_note name [Rec_thm th] (rec_inside f th);;
let rec_rule2 name f th1 th2 = rec_note name [Rec_thm th1; Rec_thm th2] (rec_inside (f th1) th2);;
let rec_rule_term name f tm = rec_note name [Rec_term tm] (rec_inside f tm);;
let rec_rule_term1 name f tm th = rec_note name [Rec_term tm; Rec_thm th] (rec_inside (f tm) th);;
let rec_rule_terms1 name f tms th = rec_note name (map (fun t -> Rec_term t) tms @ [Rec_thm th]) (rec_inside (f tms) th);;
let rec_rule_pairs1 name f pairs th =
  rec_note name (List.concat (map (fun (a,b) -> [Rec_term a; Rec_term b]) pairs) @ [Rec_thm th]) (rec_inside (f pairs) th);;
let rec_rule_types1 name f pairs th =
  rec_note name (List.concat (map (fun (a,b) -> [Rec_type a; Rec_type b]) pairs) @ [Rec_thm th]) (rec_inside (f pairs) th);;
let rec_rule_thms1 name f ths th = rec_note name (map (fun t -> Rec_thm t) ths @ [Rec_thm th]) (rec_inside (f ths) th);;
let rec_rule_thms_term name f ths tm = rec_note name (map (fun t -> Rec_thm t) ths @ [Rec_term tm]) (rec_inside (f ths) tm);;
let rec_rule_conv1 name f conv th = rec_note name [Rec_thm th] (rec_inside (f conv) th);;
let rec_rule_split name f th =
  let a,b = rec_inside f th in rec_note (name ^ "1") [Rec_thm th] a,rec_note (name ^ "2") [Rec_thm th] b;;
let rec_rule_list name f th =
  let ths = rec_inside f th in
  List.mapi (fun i t -> rec_note (name ^ string_of_int i) [Rec_thm th] t) ths;;
let rec_rule_def1 name f th tm = rec_note name [Rec_term tm] (rec_inside (f th) tm);;
let rec_rule_string name f s th = rec_note name [Rec_thm th] (rec_inside (f s) th);;

(* Derivations, as the kernel keeps them: lines H of its rules. What was named is a leaf, and so is what stands for a goal that was left. *)
let rec_is_wanted = ref false;;
let rec_most = 6000;;
let rec_leaves : (int,int) Hashtbl.t = Hashtbl.create 5000;;
let rec_id th = let number,_,_,_,_ = derivation th in number;;
let rec_premises th = let _,_,premises,_,_ = derivation th in premises;;
(* Whether a derivation has no more steps than are written. *)
let rec_fits leaves th =
  let seen = Hashtbl.create 500 in
  List.iter (fun leaf -> Hashtbl.replace seen (rec_id leaf) ()) leaves;
  let rec go waiting = match waiting with
      [] -> true
    | th::rest ->
        let id = rec_id th in
        if Hashtbl.mem seen id || Hashtbl.mem rec_leaves id then go rest else begin
          Hashtbl.replace seen id ();
          Hashtbl.length seen <= rec_most && go (List.rev_append (rec_premises th) rest) end in
  go [th];;
let rec_line rule th args =
  let c = rec_term (concl th) in
  let hs = map (fun h -> string_of_int (rec_term h)) (hyp th) in
  let n = rec_new () in
  rec_say (["H"; string_of_int n; rule; string_of_int c; string_of_int (length hs)] @ hs @ args); n;;
let rec_settle th n = Hashtbl.replace rec_leaves (rec_id th) n; cut th;;
let rec_hole th =
  let id = rec_id th in
  try Hashtbl.find rec_leaves id with Not_found ->
  let n = rec_line "GOAL" th [] in
  Hashtbl.replace rec_leaves id n; n;;
let rec_forget th =
  let _,rule,_,_,_ = derivation th in
  if rule <> "-" then Hashtbl.remove rec_leaves (rec_id th);;
let rec_derivation th =
  let done_ = Hashtbl.create 500 in
  let rec go th =
    let id,rule,premises,terms,types = derivation th in
    try Hashtbl.find rec_leaves id with Not_found ->
    try Hashtbl.find done_ id with Not_found ->
    let numbers = map (fun p -> "h" ^ string_of_int (go p)) premises in
    let ts = map (fun t -> "t" ^ string_of_int (rec_term t)) terms in
    let ys = List.concat (map (fun (a,b) -> ["y" ^ string_of_int (rec_type a); "y" ^ string_of_int (rec_type b)]) types) in
    let n = rec_line rule th (ts @ ys @ numbers) in
    Hashtbl.replace done_ id n; n in
  go th;;
