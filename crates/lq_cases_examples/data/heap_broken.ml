type 'a heap = Empty | Node of 'a * 'a heap * 'a heap
let rec merge low g h =
  match g with
  | Empty -> h
  | Node (x, a, b) ->
    (match h with
     | Empty -> g
     | Node (y, c, d) ->
       if x <= y then Node (x, b, merge x a (Node (y, c, d)))
       else Node (x, d, merge y c (Node (x, a, b))))
let check h =
  match h with
  | Empty -> ()
  | Node (x, a, b) ->
    (match a with Empty -> () | Node (y, c, d) -> assert (x <= y));
    (match b with Empty -> () | Node (y, c, d) -> assert (x <= y))
let least = 0
let five = Node (5, Empty, Empty)
let three = Node (3, Empty, Empty)
let () = check (merge least five three)
