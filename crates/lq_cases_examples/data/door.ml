type door = Shut | Ajar | Locked
let lock d = match d with Shut -> Locked
let unlock d = match d with Locked -> Shut
let push d = match d with Shut -> Ajar
let pull d = match d with Ajar -> Shut
let locked = lock (pull (push Shut))
let ajar = push (unlock locked)
