(* By hand, as HOL Light takes more than a minute to load: hol-light, and then #use "leancop.ml";; #use "test.ml";;
   Each line has to print its theorem; the last ones have to print that they were refused. *)

let show th = let n,search,replay = !leancop_last in Printf.printf "%d steps, program %.2f s, replay %.3f s\n" n search replay; th;;

show(LEANCOP [] `(?x. !y. R x y) ==> !y:A. ?x:B. R x y`);;
show(LEANCOP [] `?x:A. P x ==> !y. P y`);;
show(LEANCOP [] `~(?x:A. !y. R y x <=> ~R y y)`);;
show(LEANCOP [] `!f x:A. f x = x ==> f(f x) = x`);;
show(LEANCOP [] `(?!x:A. P x) ==> !x y. P x /\ P y ==> x = y`);;
show(LEANCOP [LE_TRANS] `!a b c d. a <= b /\ b <= c /\ c <= d ==> a <= d`);;
prove(`!x y z:A. x = y /\ z = y ==> x = z`, LEANCOP_TAC []);;
prove(`(p <=> q) /\ (q <=> r) ==> (p <=> r)`, LEANCOP_TAC []);;

let refused tm = try let _ = LEANCOP [] tm in failwith "proved" with Failure s -> if s = "proved" then failwith s else "refused: " ^ s;;
refused `(!y:A. ?x:A. R x y) ==> ?x. !y. R x y`;;
refused `p /\ q <=> p \/ q`;;
