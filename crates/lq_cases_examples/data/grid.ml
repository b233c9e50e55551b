let width = 4
let grid = Array.make 3 (Array.make width 0)
let at g i j = g.(i).(j)
let () = print_int (at grid 2 3)
