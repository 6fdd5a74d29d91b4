(* A term of a sort: what a variable stands for that a proof leaves free. *)
open EConstr
open Replay
open First_order

let may_be_empty = "a type that may be empty"

let some_symbol tb s =
  let n = List.length tb.symbols in
  let rec look i = function
    | [] -> None
    | y :: r -> if y.sort = s then Some (Sym (n - i)) else look (i + 1) r in
  look 0 tb.symbols

(* A variable of the goal's context. *)
let some_variable tb s ty =
  let has_type d = Reductionops.is_conv tb.env tb.sigma (EConstr.of_constr (Context.Named.Declaration.get_type d)) ty in
  Option.map (fun d -> symbol tb (mkVar (Context.Named.Declaration.get_id d)) s)
    (List.find_opt has_type (Environ.named_context tb.env))

(* A constructor without arguments. *)
let some_constructor tb s ty =
  let head, args = decompose_app tb.sigma (Reductionops.whd_all tb.env tb.sigma ty) in
  match EConstr.kind tb.sigma head with
  | Constr.Ind (ind, u) ->
    let whole, one = Inductive.lookup_mind_specif tb.env ind in
    let parameters = List.filteri (fun i _ -> i < whole.Declarations.mind_nparams) args in
    let rec look k =
      if k = Array.length one.Declarations.mind_consnrealargs then None
      else if one.Declarations.mind_consnrealargs.(k) = 0 then Some (symbol tb (applist (mkConstructU ((ind, k + 1), u), parameters)) s)
      else look (k + 1) in
    look 0
  | _ -> None

(* [names]: those of the branch, with their sorts. *)
let find tb s names =
  let rec go tried s =
    if List.mem s tried then raise (Stuck may_be_empty);
    let ty = match s with Base k -> List.nth (List.rev tb.carriers) k | _ -> raise (Stuck "sort") in
    let by_function () =
      let n = List.length tb.symbols in
      let value i y = match args_of y.sort with
        | (_ :: _ as l), r when r = s ->
          (try Some (List.fold_left (fun h a -> Apply (h, go (s :: tried) a)) (Sym (n - i)) l) with Stuck _ -> None)
        | _ -> None in
      List.find_map (fun x -> x) (List.mapi value tb.symbols) in
    let name () = Option.map (fun (i, _) -> Eig i) (List.find_opt (fun (_, r) -> r = s) names) in
    let ways = [ (fun () -> some_symbol tb s); (fun () -> some_variable tb s ty); by_function;
                 (fun () -> some_constructor tb s ty); name ] in
    match List.find_map (fun way -> way ()) ways with
    | Some t -> t
    | None -> raise (Stuck may_be_empty) in
  go [] s
