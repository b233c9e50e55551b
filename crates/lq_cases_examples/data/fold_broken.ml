let rec fold f acc xs =
  match xs with
  | [] -> acc
  | x :: r -> fold f (f acc x) r
let larger a b = if a < b then b else a
let best = fold larger (-5) [3; 9; 4]
let () = assert (0 <= best)
