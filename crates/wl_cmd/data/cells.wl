(* area and lists *)
area[r_] := 3 r^2
area /@ {1, 2, 5}
t = Table[i^2, {i, 5}]
Total[t]
Select[t, EvenQ]
rules = {x -> 2, y -> 3};
x^2 + y /. rules
"ab" <> "cd"
StringLength[%]
p[n_Integer?EvenQ] := "even"
p[_] = "odd";
p /@ {3, 4}
