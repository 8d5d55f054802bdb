(* Truth tables. A formula is a pure function of its letters. *)
rows[1] = {{True}, {False}};
rows[n_] := Join[Map[Prepend[#, True] &, rows[n - 1]], Map[Prepend[#, False] &, rows[n - 1]]]
table[f_, n_] := Map[Append[#, Apply[f, #]] &, rows[n]]

implies[a_, b_] := !a || b
table[implies[#1, #2] &, 2]

(* A formula that is true in each row is a tautology. *)
isTautology[f_, n_] := Apply[And, Map[Apply[f, #] &, rows[n]]]
isTautology[#1 || !#1 &, 1]
isTautology[implies[implies[implies[#1, #2], #1], #1] &, 2]
isTautology[implies[#1 || #2, #1 && #2] &, 2]

(* De Morgan's laws push each negation down to a letter. *)
down = {not[and[a_, b_]] :> or[not[a], not[b]], not[or[a_, b_]] :> and[not[a], not[b]], not[not[a_]] :> a};
not[and[p, or[not[q], r]]] //. down

(* Counting the rows in which exactly two of three hold *)
Count[Map[Count[#, True] &, rows[3]], 2]
