let balance = read_int ()
let balance = balance - 20
let () = assert (balance >= 0)
