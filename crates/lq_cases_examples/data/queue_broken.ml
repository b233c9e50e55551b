type queue = Queue of int list * int list
let rec turn xs turned =
  match xs with
  | [] -> turned
  | x :: r -> turn r (x :: turned)
let push q x = match q with Queue (front, back) -> Queue (front, x :: back)
let pop q =
  match q with
  | Queue (front, back) ->
    (match front with
     | x :: r -> Queue (r, back)
     | [] -> (match turn back [] with x :: r -> Queue (r, [])))
let empty = Queue ([], [])
let one = push empty 3
let rest = pop empty
