(* Sorting by one rule: neighbours in the wrong order change places. *)
sort[{a___, x_, y_, b___}] := sort[{a, y, x, b}] /; x > y
sort[list_] := list
sort[{3, 1, 2, 5, 4}]

(* Rules that are used wherever they match, once, and again and again *)
{a, b, c, a} /. a -> 1
a + b + c //. {a -> b, b -> c}
Cases[{1, x, 2/3, "text", f[2], 7}, _Integer]
{1, {2, {3, {4}}}} //. {x___, {y___}, z___} :> {x, y, z}

(* A pattern that takes its pieces in any order, since the sum has none *)
both[x_ + 2*y_] := {x, y}
both[2*q + p]

(* A rule may ask a question before it is used. *)
halve[n_?EvenQ] := n/2
halve /@ {4, 5, 10}

(* What a function says by itself *)
root::neg = "`1` has no real root.";
root[x_] := Message[root::neg, x] /; x < 0
root[x_] := x^(1/2)
{root[4/9]^2, root[2]}
root[-4]
Quiet[root[-4]]
Check[root[-4], "there was a message"]

(* Leaving from the middle: the first square past 1000 *)
Catch[Do[If[n^2 > 1000, Throw[n^2]], {n, 100}]]

(* What a sum of two amounts is, said of the amounts and not of the sum *)
money /: money[a_] + money[b_] := money[a + b]
money[3] + money[4]
2*% + Out[5]
