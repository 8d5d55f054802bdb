(* A game by rules with conditions: who takes the trick? *)
rank[card[_, n_Integer]] := n
rank[card[_, jack]] = 11; rank[card[_, queen]] = 12;
rank[card[_, king]] = 13; rank[card[_, ace]] = 14;

beats[card[s_, a_], card[s_, b_], _] := rank[card[s, a]] > rank[card[s, b]]
beats[card[trump_, _], card[_, _], trump_] := True
beats[_, _, _] := False

beats[card[hearts, queen], card[hearts, 10], spades]
beats[card[spades, 2], card[hearts, ace], spades]
beats[card[clubs, ace], card[hearts, 2], spades]

(* The best card of a trick, with the first one's suit led *)
best[{c_}, _] := c
best[{c_, d_, rest___}, trump_] := best[{If[beats[d, c, trump], d, c], rest}, trump]
best[{card[hearts, 10], card[hearts, king], card[clubs, ace], card[spades, 3]}, spades]
best[{card[hearts, 10], card[hearts, king], card[clubs, ace]}, diamonds]

(* Hands: rules with conditions are tried in the order in which they are written. *)
alike[cards_] := With[{ranks = Map[rank, cards]}, Max[Map[Count[ranks, #] &, ranks]]]
hand[cards_] := three /; alike[cards] == 3
hand[cards_] := pair /; alike[cards] == 2
hand[cards_] := flush /; Length[Union[Map[First, cards]]] == 1
hand[cards_] := high[Max[Map[rank, cards]]]
hand[{card[hearts, 7], card[clubs, 2], card[spades, 7], card[diamonds, 7]}]
hand[{card[hearts, 7], card[clubs, 2], card[spades, 7]}]
hand[{card[hearts, 7], card[hearts, 2], card[hearts, king]}]
hand[{card[hearts, 7], card[clubs, 2], card[hearts, king]}]
