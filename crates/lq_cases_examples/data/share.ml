let share total people = total / people
let at_least_one n = if 0 < n then n else 1
let () = print_int (share 100 (at_least_one (read_int ())))
