(* Numbers as Peano wrote them: zero, and the number after each. *)
plus[n_, zero] := n
plus[n_, next[m_]] := next[plus[n, m]]
times[n_, zero] := zero
times[n_, next[m_]] := plus[times[n, m], n]

two = next[next[zero]]; three = next[two];
plus[two, three]
times[two, three]

(* To and fro between both ways of writing *)
peano[0] := zero
peano[n_Integer?(# > 0 &)] := next[peano[n - 1]]
number[zero] := 0
number[next[n_]] := number[n] + 1
number[times[peano[6], peano[7]]]

(* The same with one rule for each sign, over and over *)
sums = {n_ + zero -> n, next[n_] + next[m_] :> next[next[n + m]]};
next[zero] + next[next[zero]] //. sums

(* Which is the smaller one? *)
less[_, zero] := False
less[zero, next[_]] := True
less[next[n_], next[m_]] := less[n, m]
{less[two, three], less[three, two], less[two, two]}

(* What no rule takes apart stays as it is. *)
plus[n, next[m]]
