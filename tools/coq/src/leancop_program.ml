(* Runs the program within a time, and leaves no process behind. Nothing of Coq here. *)

exception Time_ended

let no_limit = infinity
let after seconds = Unix.gettimeofday () +. seconds
let left until = if until = no_limit then no_limit else until -. Unix.gettimeofday ()
let whole_seconds until = max 1 (int_of_float (ceil (left until)))

let rec again f = try f () with Unix.Unix_error (Unix.EINTR, _, _) -> again f

(* What comes through a pipe before a moment. *)
let read_all fd until =
  let b = Buffer.create 65536 and chunk = Bytes.create 65536 in
  let rec go () =
    let wait = if until = no_limit then -1. else left until in
    if until <> no_limit && wait <= 0. then raise Time_ended;
    match Unix.select [ fd ] [] [] wait with
    | [], _, _ -> raise Time_ended
    | exception Unix.Unix_error (Unix.EINTR, _, _) -> go ()
    | _ ->
      let n = again (fun () -> Unix.read fd chunk 0 65536) in
      if n > 0 then (Buffer.add_subbytes b chunk 0 n; go ()) in
  go ();
  Buffer.contents b

(* In a session of its own where that can be had, so that what it starts ends with it. The shell bounds its processor time, in case
   that this process ends before it without a word. *)
let shell = {|ulimit -t "$1"; shift; command -v setsid >/dev/null && exec setsid "$@"; exec "$@"|}

let start argv ~until ~quiet output =
  let bound = if until = no_limit then "unlimited" else string_of_int (whole_seconds until + 1) in
  let nothing = Unix.openfile "/dev/null" [ Unix.O_RDWR; Unix.O_CLOEXEC ] 0 in
  let errors = if quiet then nothing else Unix.stderr in
  Fun.protect ~finally:(fun () -> Unix.close nothing) (fun () ->
      Unix.create_process "/bin/sh" (Array.append [| "sh"; "-c"; shell; "sh"; bound |] argv) nothing output errors)

let end_of pid =
  List.iter (fun p -> try Unix.kill p Sys.sigkill with Unix.Unix_error _ -> ()) [ -pid; pid ];
  snd (again (fun () -> Unix.waitpid [] pid))

(* What a program writes, and its exit status. However this ends (the time, a key, the caller's own limit), the program ends too. *)
let answer ?(quiet = false) ~until argv =
  let r, w = Unix.pipe ~cloexec:true () in
  match start argv ~until ~quiet w with
  | exception e -> List.iter Unix.close [ r; w ]; raise e
  | pid ->
    Unix.close w;
    match read_all r until with
    | text ->
      Unix.close r;
      text, (match again (fun () -> Unix.waitpid [] pid) with _, Unix.WEXITED n -> n | _ -> 128)
    | exception e -> Unix.close r; ignore (end_of pid); raise e

(* A file that is there as long as f runs. *)
let with_file text f =
  let name = Filename.temp_file "leancop" ".p" in
  Fun.protect ~finally:(fun () -> Sys.remove name) (fun () ->
      let oc = open_out_bin name in
      output_string oc text;
      close_out oc;
      f name)

let variable name = match Sys.getenv_opt name with Some "" -> None | v -> v
let program () = Stdlib.Option.value (variable "LEANCOP") ~default:"leancop"
let executable name = try Unix.access name [ Unix.X_OK ]; not (Sys.is_directory name) with Unix.Unix_error _ | Sys_error _ -> false
let on_path name = List.map (fun folder -> Filename.concat folder name)
    (String.split_on_char ':' (Stdlib.Option.value (variable "PATH") ~default:""))
let is_there name = List.exists executable (if String.contains name '/' then [ name ] else on_path name)
let show text = if variable "LEANCOP_SHOW" <> None then prerr_string text

(* ---- derivations that are kept *)

(* The folder LEANCOP_KEPT, if it is set, has them by problem and logic: what was proved once with the program is proved again
   without it. *)
let kept_file logic problem =
  let key = Digest.to_hex (Digest.string (logic ^ "\n" ^ problem)) in
  Stdlib.Option.map (fun folder -> Filename.concat folder (key ^ ".txt")) (variable "LEANCOP_KEPT")

let whole_file name =
  let ic = open_in_bin name in
  Fun.protect ~finally:(fun () -> close_in ic) (fun () -> really_input_string ic (in_channel_length ic))

(* Whole or not at all, since other processes may do the same. *)
let keep file text =
  let part = Printf.sprintf "%s.%d" file (Unix.getpid ()) in
  let oc = open_out_bin part in
  output_string oc text;
  close_out oc;
  Sys.rename part file

let is_derivation text = String.length text > 8 && String.sub text 0 8 = "leancop "

(* ---- what is asked *)

type said = Said of string | Late | Cannot_run of string

let ask ~until argv =
  if not (is_there argv.(0)) then Cannot_run argv.(0) else
  match answer ~until argv with
  | text, _ -> Said text
  | exception Time_ended -> Late

let prove ~logic ~options ~until problem =
  match kept_file logic problem with
  | Some file when Sys.file_exists file -> Said (whole_file file)
  | file ->
    let said = with_file problem (fun name ->
        ask ~until (Array.of_list (program () :: "prove" :: name :: ("--logic=" ^ logic) :: options))) in
    show problem;
    (match said, file with
     | Said text, Some file when is_derivation text -> keep file text
     | _ -> ());
    (match said with Said text -> show text | _ -> ());
    said

(* ---- the finder of structures, where it is there *)

let refuter () =
  let name = "leancop-refute" in
  let beside = if String.contains (program ()) '/' then [ Filename.dirname (program ()) ] else [] in
  let places = List.concat_map (fun f -> List.map (Filename.concat f) [ name; "tools/" ^ name ]) beside @ on_path name in
  match variable "LEANCOP_REFUTE" with
  | None -> List.find_opt executable places
  | file -> file

(* The text of a structure that makes the problem's formula false, as the program judges it. *)
let refute ~logic ~until problem =
  let logic = "--logic=" ^ logic in
  let ask = answer ~quiet:true ~until in
  let found finder =
    with_file problem (fun file ->
        match ask [| finder; file; logic; Printf.sprintf "--time=%d" (whole_seconds until) |] with
        | text, 0 ->
          show text;
          let judged = with_file text (fun structure -> ask [| program (); "model"; file; structure; logic |]) in
          if judged = ("false at the root\n", 9) then Some text else None
        | _ -> None) in
  try Option.bind (refuter ()) found with Time_ended -> None
