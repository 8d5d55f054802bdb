(* Strings are joined, measured, and taken apart into characters. *)
"rule" <> "-" <> "based"
StringLength["déjà"]
Characters["abc"]

(* A word and its mirror image *)
mirror[s_String] := Apply[StringJoin, Reverse[Characters[s]]]
isPalindrome[s_String] := mirror[s] === s
mirror["stressed"]
Map[isPalindrome, {"level", "rule"}]

(* How often does each letter stand there? *)
counts[s_String] := With[{cs = Characters[s]}, Map[{#, Count[cs, #]} &, Union[cs]]]
counts["banana"]

(* Plurals, the exceptions first: the more specific rule is tried first, whatever the order in which they are written. *)
plural[s_String] := s <> "s"
plural["mouse"] = "mice";
plural["child"] = "children";
Map[plural, {"rule", "mouse", "child"}]

(* Anything can be made a string. *)
"x is " <> ToString[1/2 + 1/3] <> "."
"f" <> x
