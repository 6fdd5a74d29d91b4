(* From propositions of Coq to formulas of many sorts, and to problems of TPTP. *)
open Names
open EConstr
open Replay

exception Not_first_order of string

let global name = Coqlib.lib_ref name
let known = Hashtbl.create 50
let c name = try Hashtbl.find known name with Not_found ->
  let t = mkRef (global name, EInstance.empty) in Hashtbl.add known name t; t

type symbol = { term : constr; sort : sort; name : string }

type table = {
  env : Environ.env; (* of the goal *)
  sigma : Evd.evar_map;
  mutable carriers : constr list; (* newest first *)
  mutable symbols : symbol list;  (* newest first *)
  mutable equal : int list;       (* sorts whose equality occurs *)
}

let no why = raise (Not_first_order why)

let clean s = String.map (fun ch -> match ch with 'a'..'z' | 'A'..'Z' | '0'..'9' | '_' -> ch | _ -> '_') s

let rec head_name sigma t =
  match EConstr.kind sigma t with
  | Constr.App (h, _) -> head_name sigma h
  | Constr.Var id -> Id.to_string id
  | Constr.Const (k, _) -> Label.to_string (Constant.label k)
  | Constr.Ind ((m, i), _) -> Label.to_string (MutInd.label m) ^ (if i = 0 then "" else string_of_int i)
  | Constr.Construct (((m, i), k), _) ->
    (try Id.to_string (Global.lookup_mind m).Declarations.mind_packets.(i).Declarations.mind_consnames.(k - 1) with _ -> "c")
  | _ -> "t"

let carrier tb ty =
  let n = List.length tb.carriers in
  let rec go i = function
    | [] -> tb.carriers <- ty :: tb.carriers; n
    | x :: r -> if Reductionops.is_conv tb.env tb.sigma x ty then n - 1 - i else go (i + 1) r in
  Base (go 0 tb.carriers)

let symbol tb t sort =
  let n = List.length tb.symbols in
  let rec go i = function
    | [] ->
      let name = Printf.sprintf "s%d_%s" (n + 1) (clean (head_name tb.sigma t)) in
      tb.symbols <- { term = t; sort; name } :: tb.symbols; Sym (n + 1)
    | x :: r -> if x.sort = sort && eq_constr tb.sigma x.term t then Sym (n - i) else go (i + 1) r in
  go 0 tb.symbols

let rec args_of = function Arr (a, b) -> let l, r = args_of b in a :: l, r | s -> [], s

(* The sort of a closed type. *)
let base tb depth ty =
  if not (Vars.noccur_between tb.sigma 1 depth ty) then no "a dependent type";
  let closed = Vars.lift (-depth) ty in
  let whd = Reductionops.whd_all tb.env tb.sigma closed in
  if isSort tb.sigma whd then no "a sort";
  match Retyping.get_sort_family_of tb.env tb.sigma closed with
  | Sorts.InSProp -> no "a proof"
  | _ -> carrier tb closed (* a proposition too, where predicates speak of its proofs *)

(* The sort of a closed term over [n] arguments, if its type allows it. *)
let arrow tb ty n ~prop =
  let rec go ty n =
    let whd = Reductionops.whd_all tb.env tb.sigma ty in
    if n = 0 then
      if prop then (match EConstr.kind tb.sigma whd with
          | Constr.Sort s when Sorts.is_prop (ESorts.kind tb.sigma s) -> Prp | _ -> no "not a proposition")
      else base tb 0 ty
    else match EConstr.kind tb.sigma whd with
      | Constr.Prod (_, a, b) when Vars.noccurn tb.sigma 1 b ->
        let s = base tb 0 a in
        Arr (s, go (Vars.lift (-1) b) (n - 1))
      | _ -> no "a dependent function" in
  go ty n

let rec first = function [] -> no "not first-order" | f :: r -> (try f () with Not_first_order _ when r <> [] -> first r)

(* [sorts]: of the variables, innermost first; the local context of [env] has just these on top of the goal's. *)
let rec term tb env sorts ~prop t =
  let depth = List.length sorts in
  match EConstr.kind tb.sigma t with
  | Constr.Rel i when i <= depth -> if prop then no "a variable proposition" else Var (i - 1), List.nth sorts (i - 1)
  | Constr.Cast (t, _, _) -> term tb env sorts ~prop t
  | _ ->
    let h, args = decompose_app tb.sigma t in
    let all = Array.of_list args in
    let n = Array.length all in
    let split k () =
      let h = applist (h, Array.to_list (Array.sub all 0 k)) in
      if not (Vars.noccur_between tb.sigma 1 depth h) then no "a bound function";
      let h = Vars.lift (-depth) h in
      let ty = Retyping.get_type_of tb.env tb.sigma h in
      let sort = arrow tb ty (n - k) ~prop in
      let rest = Array.to_list (Array.sub all k (n - k)) in
      let want, res = args_of sort in
      let rest = List.map2 (fun a s ->
          let u, s' = term tb env sorts ~prop:false a in
          if s <> s' then no "sorts"; u) rest want in
      List.fold_left (fun h a -> Apply (h, a)) (symbol tb h sort) rest, res in
    first (List.init (n + 1) split)

let is_ref sigma name t = match EConstr.destRef sigma t with (r, _) -> GlobRef.equal r (global name) | exception Constr.DestKO -> false

let equality tb s = match s with Base n -> if not (List.mem n tb.equal) then tb.equal <- n :: tb.equal | _ -> ()

let eq_symbol tb s =
  let n = match s with Base n -> n | _ -> no "equality of propositions" in
  let ty = List.nth (List.rev tb.carriers) n in
  symbol tb (mkApp (c "core.eq.type", [| ty |])) (Arr (s, Arr (s, Prp)))

(* x of a type has a property, and all that have it are x: what exists! says of x. *)
let unique sigma ty p x =
  let y = Context.nameR (Id.of_string "y") and beta f x = Reductionops.beta_applist sigma (f, [ x ]) in
  let same = mkApp (c "core.eq.type", [| Vars.lift 2 ty; Vars.lift 2 x; mkRel 2 |]) in
  mkApp (c "core.and.type", [| beta p x; mkProd (y, ty, mkProd (Context.anonR, beta (Vars.lift 1 p) (mkRel 1), same)) |])

let rec formula tb env sorts t =
  let depth = List.length sorts in
  let sigma = tb.sigma in
  let under na ty k =
    let s = base tb depth ty in
    let env = EConstr.push_rel (Context.Rel.Declaration.LocalAssum (na, ty)) env in
    s, k env (s :: sorts) in
  match EConstr.kind sigma t with
  | Constr.Cast (t, _, _) -> formula tb env sorts t
  | Constr.LetIn (_, b, _, u) -> formula tb env sorts (Vars.subst1 b u)
  | Constr.Prod (na, a, b) ->
    if Retyping.get_sort_family_of env sigma a = Sorts.InProp && Vars.noccurn sigma 1 b then begin
      let b = Vars.lift (-1) b in
      let fa = formula tb env sorts a in
      if is_ref sigma "core.False.type" b then Not fa else Imp (fa, formula tb env sorts b)
    end else
      let s, f = under na a (fun env sorts -> formula tb env sorts b) in
      All (s, f)
  | _ ->
    let h, args = decompose_app sigma t in
    let go = formula tb env sorts in
    match args with
    | [] when is_ref sigma "core.True.type" h -> Top
    | [] when is_ref sigma "core.False.type" h -> Bot
    | [ a ] when is_ref sigma "core.not.type" h -> Not (go a)
    | [ a; b ] when is_ref sigma "core.and.type" h -> And (go a, go b)
    | [ a; b ] when is_ref sigma "core.or.type" h -> Or (go a, go b)
    | [ a; b ] when is_ref sigma "core.iff.type" h -> let f = go a in Iff (f, go b)
    | [ ty; p ] when is_ref sigma "core.ex.type" h ->
      (match EConstr.kind sigma p with
       | Constr.Lambda (na, a, b) -> let s, f = under na a (fun env sorts -> formula tb env sorts b) in Ex (s, f)
       | _ ->
         let s, f = under Context.anonR ty (fun env sorts -> formula tb env sorts (Reductionops.beta_applist sigma (Vars.lift 1 p, [ mkRel 1 ]))) in
         Ex (s, f))
    | [ ty; p; x ] when is_ref sigma "leancop.unique" h -> go (unique sigma ty p x)
    | [ ty; a; b ] when is_ref sigma "core.eq.type" h ->
      let s = base tb depth ty in
      let e = eq_symbol tb s in
      let a, sa = term tb env sorts ~prop:false a in
      let b, sb = term tb env sorts ~prop:false b in
      if sa <> s || sb <> s then no "sorts";
      equality tb s;
      Atom (Apply (Apply (e, a), b))
    | _ ->
      match EConstr.kind sigma h with
      | Constr.Lambda _ when args <> [] -> formula tb env sorts (Reductionops.whd_betaiota env sigma t)
      | _ -> let a, s = term tb env sorts ~prop:true t in if s <> Prp then no "sorts"; Atom a

(* What a failed attempt added is taken back. *)
let attempt tb f =
  let kept = tb.carriers, tb.symbols, tb.equal in
  try Some (f ()) with Not_first_order _ | Retyping.RetypeError _ ->
    let a, b, e = kept in tb.carriers <- a; tb.symbols <- b; tb.equal <- e; None

(* ---- equality *)

let nth_symbol tb n = List.nth tb.symbols (List.length tb.symbols - n)

let rec alls sorts f = match sorts with [] -> f | s :: r -> All (s, alls r f)
let has_equality tb = function Base n -> List.mem n tb.equal | _ -> false

(* Congruence of a function brings the equality of its values. *)
let rec close_equality tb =
  let before = List.length tb.equal in
  List.iter (fun y -> match args_of y.sort with
      | l, (Base _ as r) when List.exists (has_equality tb) l -> equality tb r
      | _ -> ()) tb.symbols;
  if List.length tb.equal > before then close_equality tb

let equal tb s a b = Atom (Apply (Apply (eq_symbol tb s, a), b))

let equivalence tb s =
  let eq i j = equal tb s (Var i) (Var j) in
  [ All (s, eq 0 0);
    alls [ s; s ] (Imp (eq 1 0, eq 0 1));
    alls [ s; s; s ] (Imp (And (eq 2 1, eq 1 0), eq 2 0)) ]

(* Of a symbol: its left arguments, then a right one for each argument whose sort has equality. *)
let congruence tb k y =
  let args, res = args_of y.sort in
  let sorts = args @ List.filter (has_equality tb) args in
  let total = List.length sorts in
  let left = List.mapi (fun i _ -> Var (total - 1 - i)) args in
  let next = ref (List.length args) in
  let right = List.map2 (fun l s -> if has_equality tb s then (incr next; Var (total - !next)) else l) left args in
  let equations = List.concat (List.map2 (fun s (l, r) -> if has_equality tb s then [ equal tb s l r ] else [])
                                 args (List.combine left right)) in
  let given = Proof_text.balanced (fun a b -> And (a, b)) equations in
  let on l = List.fold_left (fun h a -> Apply (h, a)) (Sym k) l in
  alls sorts (match res with
      | Base _ -> Imp (given, equal tb res (on left) (on right))
      | _ -> Imp (And (given, Atom (on left)), Atom (on right)))

(* Axioms of the equalities that occur, each sort's apart. *)
let equality_axioms tb =
  close_equality tb;
  let sorts = List.rev_map (fun n -> Base n) tb.equal in
  let equalities = List.map (eq_symbol tb) sorts in
  let congruences = List.mapi (fun i y -> i + 1, y) (List.rev tb.symbols)
                    |> List.filter (fun (k, y) -> not (List.mem (Sym k) equalities) && List.exists (has_equality tb) (fst (args_of y.sort)))
                    |> List.map (fun (k, y) -> congruence tb k y) in
  List.concat_map (equivalence tb) sorts @ congruences

(* ---- to TPTP *)

let text tb formula_ =
  let b = Buffer.create 1000 in
  let out = Buffer.add_string b in
  let rec tm env t =
    let rec spine t acc = match t with Apply (f, a) -> spine f (a :: acc) | h -> h, acc in
    match spine t [] with
    | Var i, [] -> out (List.nth env i)
    | Sym n, l ->
      out (nth_symbol tb n).name;
      if l <> [] then (out "("; List.iteri (fun i a -> if i > 0 then out ","; tm env a) l; out ")")
    | _ -> assert false in
  let rec go env = function
    | Atom t -> tm env t
    | Top -> out "$true"
    | Bot -> out "$false"
    | Not f -> out "~("; go env f; out ")"
    | And (f, g) -> pair env " & " f g
    | Or (f, g) -> pair env " | " f g
    | Imp (f, g) -> pair env " => " f g
    | Iff (f, g) -> pair env " <=> " f g
    | All (_, f) -> quant env "!" f
    | Ex (_, f) -> quant env "?" f
  and pair env op f g = out "("; go env f; out op; go env g; out ")"
  and quant env q f = let x = Printf.sprintf "X%d" (List.length env + 1) in out (q ^ "[" ^ x ^ "]:("); go (x :: env) f; out ")" in
  go [] formula_;
  Buffer.contents b

let problem tb premises goal =
  let item role name f = Printf.sprintf "fof(%s,%s,%s).\n" name role (text tb f) in
  String.concat "" (List.mapi (fun i f -> item "axiom" (Printf.sprintf "a%d" (i + 1)) f) premises)
  ^ (if goal = Bot && premises <> [] then "" else item "conjecture" "c" goal)

(* The formula of that problem. *)
let whole premises goal = match premises, goal with
  | [], g -> g
  | l, Bot -> Not (Proof_text.balanced (fun a b -> And (a, b)) l)
  | l, g -> Imp (Proof_text.balanced (fun a b -> And (a, b)) l, g)
