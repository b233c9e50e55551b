let rec insert low x ys =
  match ys with
  | [] -> [x]
  | y :: r -> if x <= y then y :: x :: r else y :: insert y x r
let rec sort low xs =
  match xs with
  | [] -> []
  | x :: r -> insert low x (sort low r)
let rec check xs =
  match xs with
  | [] -> ()
  | x :: r -> (match r with [] -> () | y :: s -> assert (x <= y)); check r
let least = 0
let () = check (sort least [7; 2; 5])
