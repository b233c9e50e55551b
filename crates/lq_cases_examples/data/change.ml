let price = read_int ()
let paid = price + 5
let back = paid - 3
let () = assert (price < back)
let () = assert (back <= paid)
