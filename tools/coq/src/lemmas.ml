(* What goes along with a goal: lemmas by name, and lemmas chosen from databases of hints. *)
open Names
open EConstr
open First_order

type given = { formula : Replay.formula; proof : constr; statement : constr }

(* ---- lemmas of all types *)

let most_instances = 16

let rec first_of n = function x :: r when n > 0 -> x :: first_of (n - 1) r | _ -> []

let is_type tb t = match EConstr.kind tb.sigma (Reductionops.whd_all tb.env tb.sigma (Retyping.get_type_of tb.env tb.sigma t)) with
  | Constr.Sort s -> not (Sorts.is_prop (ESorts.kind tb.sigma s))
  | _ -> false

(* The types of the goal, and those that its types and symbols are made with, as A of list A. *)
let types tb =
  let rec made_with t = let _, args = decompose_app tb.sigma t in args @ List.concat_map made_with args in
  let inside = List.concat_map made_with (tb.carriers @ List.map (fun y -> y.term) tb.symbols) in
  let add l t = if List.exists (eq_constr tb.sigma t) l then l else t :: l in
  List.rev (List.fold_left add [] (List.rev tb.carriers @ List.filter (is_type tb) inside))

(* A lemma's instances at these types, for the types that it begins with. *)
let rec instances tb (t, ty) =
  let ty = Reductionops.nf_betaiota tb.env tb.sigma ty in
  match EConstr.kind tb.sigma ty with
  | Constr.Prod (_, a, b) when isSort tb.sigma a && not (Sorts.is_prop (ESorts.kind tb.sigma (destSort tb.sigma a))) ->
    let at carrier = instances tb (mkApp (t, [| carrier |]), Vars.subst1 carrier b) in
    first_of most_instances (List.concat_map at (types tb))
  | _ -> [ t, ty ]

let translated tb (proof, statement) =
  Option.map (fun formula -> { formula; proof; statement }) (attempt tb (fun () -> First_order.formula tb tb.env [] statement))

(* The instances that are first-order; those that bring no other types, if there are such. *)
let given tb (t, ty) =
  let carriers = List.length tb.carriers in
  let brings_none i =
    let before = tb.carriers, tb.symbols, tb.equal in
    match translated tb i with
    | Some g when List.length tb.carriers = carriers -> Some g
    | _ -> let a, b, e = before in tb.carriers <- a; tb.symbols <- b; tb.equal <- e; None in
  let all = instances tb (t, ty) in
  match List.filter_map brings_none all with
  | [] -> List.filter_map (translated tb) all
  | l -> l

(* ---- databases of hints *)

let lemma_of hint = match Hints.FullHint.repr hint, Hints.FullHint.name hint with
  | (Hints.Res_pf _ | Hints.ERes_pf _ | Hints.Give_exact _ | Hints.Res_pf_THEN_trivial_fail _), Hints.PathHints [ r ] -> Some r
  | _ -> None

let in_database name =
  let db = try Hints.searchtable_map name with Not_found ->
    CErrors.user_err (Pp.str ("leancop: there is no database of hints " ^ name)) in
  Hints.Hint_db.fold (fun _ _ hints l -> List.filter_map lemma_of hints @ l) db []

let references l = List.fold_right GlobRef.Set.add l GlobRef.Set.empty

let logical = lazy (references (List.map global [ "core.True.type"; "core.False.type"; "core.not.type"; "core.and.type"; "core.or.type";
                                                  "core.iff.type"; "core.ex.type"; "core.eq.type" ]))

(* The constants, types, constructors and variables that a term speaks of. *)
let rec speaks_of sigma found t = match EConstr.destRef sigma t with
  | r, _ -> if GlobRef.Set.mem r (Lazy.force logical) then found else GlobRef.Set.add r found
  | exception Constr.DestKO -> EConstr.fold sigma (speaks_of sigma) found t

(* Up to so many lemmas, those first that speak of little else than the goal. What such a lemma speaks of besides counts for the rest. *)
let choose bound about lemmas =
  let score about (_, of_lemma) =
    let n = GlobRef.Set.cardinal of_lemma and shared = GlobRef.Set.cardinal (GlobRef.Set.inter of_lemma about) in
    if shared = 0 then 0. else float_of_int shared /. float_of_int n in
  let rec go n about left chosen =
    let best = List.fold_left (fun best l -> match best with
        | Some (s, _) when s >= score about l -> best
        | _ -> Some (score about l, l)) None left in
    match best with
    | Some (s, ((lemma, of_lemma) as l)) when n > 0 && s > 0. ->
      let about = if s >= 0.5 then GlobRef.Set.union of_lemma about else about in
      go (n - 1) about (List.filter (fun x -> x != l) left) (lemma :: chosen)
    | _ -> List.rev chosen in
  go bound about lemmas []

(* Lemmas of databases, as terms with their types, for a goal that speaks of something. *)
let from_hints env sigma ~bound ~about databases =
  let all = GlobRef.Set.elements (references (List.concat_map in_database databases)) in
  let known = List.filter (fun r -> not (Environ.is_polymorphic env r)) all in
  let typed = List.map (fun r -> let t = mkRef (r, EInstance.empty) in t, Retyping.get_type_of env sigma t) known in
  choose bound about (List.map (fun (t, ty) -> (t, ty), speaks_of sigma GlobRef.Set.empty ty) typed)
