let rec halve xs =
  match xs with
  | [] -> ([], [])
  | x :: r -> (match halve r with (a, b) -> (x :: b, a))
let rec merge low xs ys =
  match xs with
  | [] -> ys
  | x :: r ->
    (match ys with
     | [] -> xs
     | y :: s ->
       if y <= x then x :: merge x r (y :: s) else y :: merge y (x :: r) s)
let rec sort low xs =
  match xs with
  | [] -> []
  | x :: r ->
    (match r with
     | [] -> [x]
     | y :: s -> (match halve xs with (a, b) -> merge low (sort low a) (sort low b)))
let rec check xs =
  match xs with
  | [] -> ()
  | x :: r -> (match r with [] -> () | y :: s -> assert (x <= y)); check r
let least = 0
let () = check (sort least [7; 2; 5; 9])
