(* Polynomials by hand: rules that multiply out, and a list of coefficients. *)
expand[a_*(b_ + c_)] := expand[a*b] + expand[a*c]
expand[(a_ + b_)^n_Integer?(# > 1 &)] := expand[a*expand[(a + b)^(n - 1)]] + expand[b*expand[(a + b)^(n - 1)]]
expand[a_ + b_] := expand[a] + expand[b]
expand[a_] := a
expand[(x + 1)*(x - 1)]
expand[(x + y)^3]

(* The coefficients, from the constant one on *)
value[{}, _] := 0
value[{c_, rest___}, x_] := c + x*value[{rest}, x]
value[{1, 0, 3}, 2]

sum[p_, q_] := With[{n = Max[Length[p], Length[q]]}, pad[p, n] + pad[q, n]]
pad[p_, n_] := Join[p, Table[0, {n - Length[p]}]]
product[{}, _] := {}
product[{c_, rest___}, q_] := sum[c*q, Prepend[product[{rest}, q], 0]]
product[{1, 1}, {1, 1}]
Nest[product[{1, 1}, #] &, {1}, 5]

(* Division by x - a after Horner: the quotient's coefficients, and what is left *)
horner[p_, a_] := FoldList[#1*a + #2 &, First[Reverse[p]], Rest[Reverse[p]]]
horner[{-6, 11, -6, 1}, 1]
Select[Range[-10, 10], value[{-6, 11, -6, 1}, #] == 0 &]
