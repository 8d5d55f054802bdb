(* Sorting by one rule: neighbours in the wrong order change places. *)
sort[{a___, x_, y_, b___}] := sort[{a, y, x, b}] /; x > y
sort[list_List] := list
sort[{3, 1, 2, 5, 4}]

(* The same as a rule for any head, used until nothing changes *)
swap = h_[a___, x_, y_, b___] /; Order[x, y] == -1 :> h[a, y, x, b];
word[t, e, a, c, h] //. swap

(* Merging two sorted lists *)
merge[{}, b_] := b
merge[a_, {}] := a
merge[{x_, a___}, {y_, b___}] := Prepend[merge[{a}, {y, b}], x] /; x <= y
merge[a_, {y_, b___}] := Prepend[merge[a, {b}], y]
merge[{1, 4, 6}, {2, 3, 7}]

(* Sorting by halves *)
mergesort[list_] := list /; Length[list] <= 1
mergesort[list_] := With[{n = Quotient[Length[list], 2]}, merge[mergesort[Take[list, n]], mergesort[Drop[list, n]]]]
mergesort[{9, 2, 7, 2, 8, 1}]

(* Sorting by a key that is worked out first *)
Map[Last, Sort[Map[{StringLength[#], #} &, {"pear", "fig", "banana", "kiwi"}]]]
