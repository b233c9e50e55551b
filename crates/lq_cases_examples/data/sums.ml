let first = read_int ()
let second = read_int ()
let next = first + 1
let before = second - 2
let offset = -7
let copy = offset
