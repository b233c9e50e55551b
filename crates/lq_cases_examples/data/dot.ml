let rec dot a b i =
  if i < Array.length a then a.(i) * b.(i) + dot a b (i + 1) else 0
let u = Array.make 3 2
let w = Array.make 3 5
let () = print_int (dot u w 0)
