(* Functions that remember what they have worked out. *)
fib[0] = 0; fib[1] = 1;
fib[n_Integer] := fib[n] = fib[n - 1] + fib[n - 2]
fib[50]
Table[fib[k], {k, 0, 10}]

(* Euclid's algorithm, each step as a rule *)
gcd[a_, 0] := a
gcd[a_, b_] := gcd[b, Mod[a, b]]
gcd[123456, 7890]

(* Numbers are exact fractions. *)
Total[Table[1/k, {k, 1, 10}]]
Fold[1/(#1 + #2) &, 1, {2, 2, 2, 2, 2}]

(* A loop: how many steps until 27 comes down to 1? *)
steps[n_] := Module[{k = n, count = 0}, While[k > 1, k = If[EvenQ[k], k/2, 3*k + 1]; count++]; count]
steps[27]

(* What can't be divided by any smaller number *)
isPrime[n_] := n > 1 && Select[Range[2, n - 1], Mod[n, #] == 0 &] == {}
Select[Range[30], isPrime]

(* A number with more than 127 bits is too large. *)
2^127

(* A definition without an end is stopped. *)
f[x_] := f[x] + 1
f[1]
