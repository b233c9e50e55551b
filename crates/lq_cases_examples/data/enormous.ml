let votes = read_int ()
let () = assert (votes <= 170141183460469231731687303715884105727)
