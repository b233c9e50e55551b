let price = read_int ()
let twice x = x + x
let () = print_int (twice price)
