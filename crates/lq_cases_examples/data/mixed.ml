let width = read_int ()
let wide = width > 10
let () = print_int (wide + 1)
