let rec search a x low high =
  if low < high then
    let middle = (low + high) / 2 in
    let y = a.(middle) in
    if y = x then middle
    else if y < x then search a x (middle + 1) high
    else search a x low middle
  else -1
let numbers = Array.make 8 0
let () = print_int (search numbers (read_int ()) 0 (Array.length numbers + 1))
