(* The texts of finite structures: what a formula that is none of logic's is false in. Nothing of Coq here. *)

type table = { name : string; arity : int; values : int array (* by tuples in lexicographic order *) }

type t = {
  worlds : int;
  relation : int list array;      (* the worlds that each sees *)
  domains : int list array;       (* the elements that are there at each *)
  functions : table list;         (* elements *)
  predicates : table list array;  (* at each world, 1 for true *)
}

exception Not_understood

let numbers = List.map int_of_string
let number words = match words with [ n ] -> int_of_string n | _ -> raise Not_understood

(* [None] where the text is no structure. *)
let read text =
  let lines = List.map (String.split_on_char ' ') (String.split_on_char '\n' text) in
  let all word = List.filter_map (function w :: r when w = word -> Some r | _ -> None) lines in
  let one word = match all word with [ r ] -> number r | _ -> raise Not_understood in
  try
    if List.hd lines <> [ "leancop"; "structure"; "1" ] then raise Not_understood;
    let worlds = one "worlds" in
    let by_world word =
      let rows = Array.make worlds [] in
      List.iter (fun r -> match numbers r with w :: l -> rows.(w - 1) <- l | [] -> raise Not_understood) (all word);
      rows in
    let functions = List.map (function
        | name :: arity :: values -> { name; arity = int_of_string arity; values = Array.of_list (numbers values) }
        | _ -> raise Not_understood) (all "function") in
    let predicates = Array.make worlds [] in
    List.iter (function
        | [ name; arity; w; bits ] ->
          let w = int_of_string w - 1 and values = Array.init (String.length bits) (fun i -> if bits.[i] = '1' then 1 else 0) in
          predicates.(w) <- predicates.(w) @ [ { name; arity = int_of_string arity; values } ]
        | _ -> raise Not_understood) (all "predicate");
    Some { worlds; relation = by_world "relation"; domains = by_world "domain"; functions; predicates }
  with Not_understood | Failure _ | Invalid_argument _ -> None

(* The arguments of each place of a table, over so many elements. *)
let arguments elements arity place =
  let rec go n place l = if n = 0 then l else go (n - 1) (place / elements) ((place mod elements + 1) :: l) in
  go arity place []
