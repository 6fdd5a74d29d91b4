(* A structure that makes a problem's formula false, in the names of the goal. *)
open Pp
open First_order
open Structure_text

let most_facts = 40

let rec first_of n = function x :: r when n > 0 -> x :: first_of (n - 1) r | _ -> []
let commas l = prlist_with_sep (fun () -> str ", ") (fun x -> x) l
let numbers l = commas (List.map int l)
let facts = function
  | [] -> str "nothing"
  | l -> commas (first_of most_facts l) ++ (if List.length l > most_facts then str ", .." else mt ())

let printed (tb : First_order.table) = Printer.pr_econstr_env tb.env tb.sigma
let applied (tb : First_order.table) (y : First_order.symbol) elements = prlist_with_sep (fun () -> str " ") (fun x -> x) (printed tb y.term :: List.map int elements)

(* A type, where the symbol is its equality. *)
let equated (tb : First_order.table) (y : First_order.symbol) = match EConstr.kind tb.sigma y.term with
  | Constr.App (h, [| ty |]) when is_ref tb.sigma "core.eq.type" h -> Some ty
  | _ -> None

let true_atom tb y elements = match equated tb y, elements with
  | None, l -> Some (applied tb y l)
  | Some _, [ a; b ] when a >= b -> None
  | Some ty, [ a; b ] -> Some (int a ++ str " = " ++ int b ++ str " in " ++ printed tb ty)
  | Some _, _ -> None

let values (t : Structure_text.table) elements show =
  List.filter_map (fun x -> x)
    (Array.to_list (Array.mapi (fun i v -> show (arguments elements t.arity i) v) t.values))

let told (tb : First_order.table) (s : Structure_text.t) =
  let symbol name = List.find_opt (fun (y : First_order.symbol) -> y.name = name) tb.symbols in
  let elements = List.sort_uniq compare (List.concat (Array.to_list s.domains)) in
  let rows tables show =
    List.concat_map (fun (t : Structure_text.table) -> match symbol t.name with
        | None -> []
        | Some y -> values t (List.length elements) (show y)) tables in
  let functions = rows s.functions (fun y l v -> Some (applied tb y l ++ str " = " ++ int v)) in
  let atoms w = rows s.predicates.(w) (fun y l v -> if v = 0 then None else true_atom tb y l) in
  let later w = List.filter (fun v -> v <> w + 1) s.relation.(w) in
  let at w =
    let there = s.domains.(w) in
    fnl () ++ str "  " ++ (if s.worlds = 1 then str "true: " else
       str "true at " ++ int (w + 1) ++ (if later w = [] then mt () else str " (before " ++ numbers (later w) ++ str ")")
       ++ (if there = elements then mt () else str " (elements " ++ numbers there ++ str ")") ++ str ": ")
    ++ facts (atoms w) in
  let domain = if tb.carriers = [] then mt () else
      fnl () ++ str "  elements of " ++ commas (List.rev_map (printed tb) tb.carriers) ++ str ": " ++ numbers elements in
  str "what was given does not give this, which is false in a structure"
  ++ (if s.worlds = 1 then str ":" else str " of " ++ int s.worlds ++ str " states of knowledge:")
  ++ domain
  ++ (if functions = [] then mt () else fnl () ++ str "  values: " ++ facts functions)
  ++ prlist_with_sep mt at (List.init s.worlds (fun w -> w))
