let rec count xs = match xs with [] -> 0 | x :: r -> 1 + count r
let rec double xs = match xs with [] -> [] | x :: r -> 2 * x :: double r
let () = assert (count (double [4; 5; 6]) = 3)
