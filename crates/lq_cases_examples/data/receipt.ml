let paid = read_int ()
let change = paid - 7 (* the price *)
let () = assert (change < paid)
let () = print_int change
