let width = read_int ()
let height = widht + 2
