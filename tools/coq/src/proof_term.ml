(* Formulas and derivations as terms of Coq. *)
open Names
open EConstr
open Replay
open First_order

let rec nat n = if n = 0 then c "num.nat.O" else mkApp (c "num.nat.S", [| nat (n - 1) |])
let rec positive n =
  if n = 1 then c "num.pos.xH"
  else mkApp (c (if n land 1 = 1 then "num.pos.xI" else "num.pos.xO"), [| positive (n lsr 1) |])
let number n = if n = 0 then c "num.N.N0" else mkApp (c "num.N.Npos", [| positive n |])
let list ty l = List.fold_right (fun x r -> mkApp (c "core.list.cons", [| ty; x; r |])) l (mkApp (c "core.list.nil", [| ty |]))

let rec c_sort = function
  | Base n -> mkApp (c "leancop.Base", [| nat n |])
  | Prp -> c "leancop.Prp"
  | Arr (a, b) -> mkApp (c "leancop.Arr", [| c_sort a; c_sort b |])
let rec c_term = function
  | Sym n -> mkApp (c "leancop.Sym", [| nat n |])
  | Eig n -> mkApp (c "leancop.Eig", [| number n |])
  | Var n -> mkApp (c "leancop.Var", [| nat n |])
  | Apply (a, b) -> mkApp (c "leancop.App", [| c_term a; c_term b |])
let rec c_formula f =
  let k name l = mkApp (c ("leancop." ^ name), Array.of_list l) in
  match f with
  | Atom t -> k "Atom" [ c_term t ]
  | Top -> c "leancop.Top"
  | Bot -> c "leancop.Bot"
  | Not f -> k "Not" [ c_formula f ]
  | And (f, g) -> k "And" [ c_formula f; c_formula g ]
  | Or (f, g) -> k "Or" [ c_formula f; c_formula g ]
  | Imp (f, g) -> k "Imp" [ c_formula f; c_formula g ]
  | Iff (f, g) -> k "Iff" [ c_formula f; c_formula g ]
  | All (s, f) -> k "All" [ c_sort s; c_formula f ]
  | Ex (s, f) -> k "Ex" [ c_sort s; c_formula f ]
let c_path p = list (c "num.nat.type") (List.map nat p)
let c_arg = function
  | No -> c "leancop.No"
  | Tm t -> mkApp (c "leancop.Tm", [| c_term t |])
  | Nm n -> mkApp (c "leancop.Nm", [| number n |])
let c_instr = function
  | UT (p, i, q, a) -> mkApp (c "leancop.UT", [| c_path p; number i; c_path q; c_arg a |])
  | UF (p, j, a) -> mkApp (c "leancop.UF", [| c_path p; number j; c_arg a |])
  | AX (p, i, q, j) -> mkApp (c "leancop.AX", [| c_path p; number i; c_path q; number j |])
let rec c_deriv = function
  | D0 s -> mkApp (c "leancop.D0", [| c_instr s |])
  | D1 (s, d) -> mkApp (c "leancop.D1", [| c_instr s; c_deriv d |])
  | D2 (s, d, e) -> mkApp (c "leancop.D2", [| c_instr s; c_deriv d; c_deriv e |])

(* A formula as the proposition that it came from. *)
let proposition tb formula_ =
  let carriers = Array.of_list (List.rev tb.carriers) in
  let sort = function Base n -> carriers.(n) | _ -> assert false in
  let rec tm = function
    | Sym n -> (nth_symbol tb n).term
    | Var n -> mkRel (n + 1)
    | Apply (a, b) -> mkApp (tm a, [| tm b |])
    | Eig _ -> assert false in
  let rec go = function
    | Atom t -> tm t
    | Top -> c "core.True.type"
    | Bot -> c "core.False.type"
    | Not f -> mkApp (c "core.not.type", [| go f |])
    | And (f, g) -> mkApp (c "core.and.type", [| go f; go g |])
    | Or (f, g) -> mkApp (c "core.or.type", [| go f; go g |])
    | Imp (f, g) -> mkProd (Context.anonR, go f, Vars.lift 1 (go g))
    | Iff (f, g) -> mkApp (c "core.iff.type", [| go f; go g |])
    | All (s, f) -> mkProd (Context.nameR (Id.of_string "x"), sort s, go f)
    | Ex (s, f) -> mkApp (c "core.ex.type", [| sort s; mkLambda (Context.nameR (Id.of_string "x"), sort s, go f) |]) in
  go formula_
