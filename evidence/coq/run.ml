(* Runs a script of tgstore by the model that Coq extracted, and writes the replies that tgstore would write.

   The words are those of tgstore: --workers N, --vertices N, --stock TEXT. The script is one that tgstore accepts. Lines of
   collections are left out, since the model has no heap. *)

open Model

let number text =
  let rec bits value = if value = 0L then [] else (Int64.logand value 1L = 1L) :: bits (Int64.shift_right_logical value 1) in
  let rec positive = function [] -> None | bit :: rest -> (
    match positive rest, bit with
    | None, true -> Some XH | None, false -> None
    | Some above, true -> Some (XI above) | Some above, false -> Some (XO above)) in
  match positive (bits (Int64.of_string ("0u" ^ text))) with None -> N0 | Some value -> Npos value

let text_of value =
  let rec length = function XH -> 1 | XI above | XO above -> 1 + length above in
  let rec bits = function XH -> 1L | XI above -> Int64.logor 1L (Int64.shift_left (bits above) 1) | XO above -> Int64.shift_left (bits above) 1 in
  match value with
  | N0 -> "0"
  | Npos value when length value > 64 -> failwith "a number over 64 bits"
  | Npos value -> Printf.sprintf "%Lu" (bits value)

let letter = function R -> 'r' | W -> 'w' | T -> 't' | G -> 'g' | A -> 'a' | L -> 'l' | U -> 'u' | V -> 'v'
let rights text = rights_where (fun one -> String.contains text (letter one))
let letters set = String.of_seq (Seq.map letter (Seq.filter (has set) (List.to_seq all_rights)))

let rec nat_of number = if number = 0 then O else S (nat_of (number - 1))

(* The laws of the boxes of a stock: a letter, and so many of it where a number follows. *)
let stock text =
  let law = function 'c' -> Cell | 's' -> Sum | 'm' -> Max | 'l' -> Log (nat_of 4) | other -> failwith (String.make 1 other) in
  let is_digit at = at < String.length text && text.[at] >= '0' && text.[at] <= '9' in
  let rec from at =
    if at = String.length text then [] else begin
      let stop = ref (at + 1) in
      while is_digit !stop do incr stop done;
      let count = if !stop = at + 1 then 1 else int_of_string (String.sub text (at + 1) (!stop - at - 1)) in
      List.init count (fun _ -> law text.[at]) @ from !stop
    end in
  from 0

let first_state = function Log _ -> [] | _ -> [N0]

let rule = function
  | RTake -> "take" | RGrant -> "grant" | RRemove -> "remove" | RRead -> "read" | RWrite -> "write" | RAppend -> "append"
  | RInspect -> "inspect"

let cause = function
  | NotDistinct -> "distinct"
  | NotLog -> "law"
  | Missing (set, from, target) -> Printf.sprintf "%s->%s %s" (text_of from) (text_of target) (letters set)

let words = String.concat " "

let reply = function
  | Done -> "ok"
  | Name name -> words ["ok"; text_of name]
  | Values state -> words ("ok" :: List.map text_of state)
  | Edges row -> words ("ok" :: List.map (fun (name, set) -> text_of name ^ ":" ^ letters set) row)
  | Denied (which, why) -> words ["denied"; rule which; cause why]
  | VerticesFull -> "refused vertices"
  | WorkersFull -> "refused workers"

let command = function
  | ["take"; via; target; set] -> Take (rights set, number via, number target)
  | ["grant"; via; target; set] -> Grant (rights set, number via, number target)
  | ["remove"; target; set] -> Remove (rights set, number target)
  | ["read"; target] -> Read (number target)
  | ["write"; target; value] -> Write (number target, number value)
  | ["append"; target; value] -> Append (number target, number value)
  | ["inspect"; target] -> Inspect (number target)
  | ["list"] -> List
  | ["retire"] -> Retire
  | line -> failwith (words line)

(* The graph and the stock after a command of a worker, and the reply. A box is taken where a name was given. *)
let serve graph boxes worker line =
  let made by_law = match boxes, line with
    | [], _ -> (graph, boxes, "refused stock")
    | law :: rest, _ ->
      let deed = by_law law (first_state law) in
      let said = answer graph worker deed in
      (step graph worker deed, (match said with Name _ -> rest | _ -> boxes), reply said) in
  match line with
  | _ when not (graph.active worker) -> (graph, boxes, "refused worker")
  | ["create"; set] -> made (fun law state -> Create (rights set, law, state))
  | ["spawn"; set] -> made (fun law state -> Spawn (rights set, law, state))
  | line -> let deed = Plain (command line) in (step graph worker deed, boxes, reply (answer graph worker deed))

let rec serve_lines graph boxes =
  match String.split_on_char ' ' (input_line stdin) with
  | exception End_of_file -> ()
  | ["full"] | ["minor"] -> serve_lines graph boxes
  | ["edge"; from; target; set] -> serve_lines (with_edge graph (number from) (number target) (rights set)) boxes
  | worker :: line ->
    let graph, boxes, said = serve graph boxes (number worker) line in
    print_endline said;
    serve_lines graph boxes
  | [] -> ()

let () =
  let workers = ref "2" and vertices = ref "1000000" and boxes = ref "" in
  Arg.parse [("--workers", Arg.Set_string workers, ""); ("--vertices", Arg.Set_string vertices, ""); ("--stock", Arg.Set_string boxes, "")]
    (fun word -> raise (Arg.Bad word)) "run [--workers N] [--vertices N] [--stock TEXT]";
  let count = number !workers in
  let stores name = if N.ltb name count then Some { law_of = Cell; state_of = [N0] } else None in
  serve_lines (opened count (number !vertices) stores) (stock !boxes)
