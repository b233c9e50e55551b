let rec sum a i = if i < Array.length a then a.(i) + sum a (i + 1) else 0
let numbers = Array.make 10 1
let () = assert (0 <= sum numbers 0)
