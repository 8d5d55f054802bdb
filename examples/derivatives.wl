(* Rules for derivatives, as a pupil would write them. *)
d[c_, x_] := 0 /; FreeQ[c, x]
d[x_, x_] := 1
d[f_ + g_, x_] := d[f, x] + d[g, x]
d[f_ * g_, x_] := d[f, x] * g + f * d[g, x]
d[f_ ^ n_Integer, x_] := n * f ^ (n - 1) * d[f, x]
d[sin[f_], x_] := cos[f] * d[f, x]
d[cos[f_], x_] := -sin[f] * d[f, x]

d[x ^ 3 + 2 * x, x]
d[sin[x ^ 2], x]
d[(1 + x) ^ 5, x]

(* Where no rule says anything, the question stays. *)
d[tan[x], x]

(* The second derivative *)
d[d[x ^ 4, x], x]
