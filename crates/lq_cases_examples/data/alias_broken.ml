let prices = Array.make 3 5
let copy = prices
let () = copy.(0) <- 0
let () = print_int (100 / prices.(0))
