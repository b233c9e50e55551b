let x = read_int ()
let () = assert (x <= x + 1)
