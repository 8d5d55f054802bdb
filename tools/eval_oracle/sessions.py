"""Random sessions over all rows of the definition: attributes, patterns, guards, ends, messages, limits, small budgets.

A text is drawn from its list of forms, in which `<E>` stands for an expression, `<e>` for a small one, and so on: the capital
letter goes one level further in, the small letter to the bottom.
"""
import random
import re
import sys

from definition_rows import ROOT, parse, run

ATOMS = {
    "S": "a b x y f g h i",
    "N": "0 1 2 3 -1 -2 1/2 5",
    "F": "f g h",
}
BOTTOM = {
    "E": "<S> <S> <N>",
    "P": "_ x_ y_ x_Integer _Symbol a 1 x__ y___ _f x_. z_:3 _?IntegerQ",
    "C": "True False u x==1 x>1 y===a IntegerQ[x] x<y (x=2;True) MatchQ[x,_Integer] <e>==<e>",
    "L": "{} {<e>} {<e>,<e>}",
}
EXPRESSIONS = """
<S> ;; <N> ;; <L> ;; <L> ;; <L> ;; f[<E>] ;; f[<E>, <E>] ;; g[<E>] ;; h[<E>, <E>, <E>] ;; <E> + <E> ;; (<E>) * (<E>) ;; (<E>)^2 ;; (<E>)^0 ;; (<E>)^-1 ;; (<E>)^a
If[<C>, <E>, <E>] ;; If[<C>, <E>] ;; Which[<C>, <E>, <C>, <E>] ;; <C> && <C> ;; <C> || <C> ;; Switch[<E>, <p>, <E>, <p>, <E>] ;; (<E>; <E>) ;; (<S> = <E>)
Sequence[<E>, <E>] ;; Unevaluated[<E>] ;; Unevaluated[<E>, <E>] ;; Evaluate[<E>] ;; Evaluate[<E>, <E>] ;; Hold[<E>, <E>] ;; ReleaseHold[Hold[<E>]]
(# &)[<E>] ;; (# + #2 &)[<E>] ;; ({##} &)[<E>] ;; (#0 &)[<E>] ;; (f[#, ##2] &)[<E>, <E>] ;; (If[#, a, b] &)[<C>] ;; Function[x, <E>][<E>] ;; Function[{x, y}, <E>][<E>, <E>]
Module[{x = <E>, y}, <E>] ;; With[{x = <E>}, <E>] ;; Block[{x = <E>, y}, <E>] ;; Block[{f, x = <E>}, <E>]
Table[<E>, {i, <N>}] ;; Table[<E>, {<N>}] ;; Table[<E>, {i, <N>, <N>, 1}] ;; Table[<E>, {i, <N>, <N>, 1/2}] ;; Table[<E>, {i, <N>, <N>, <N>}] ;; Do[<E>, {<S>, 2}] ;; Table[{i, j}, {i, 2}, {j, i}]
While[<C>, Break[]] ;; While[<C>, x = 3] ;; While[<C>, Continue[]] ;; For[i = 0, i < 2, i++, <E>] ;; Do[<E>, {i, 2}, {<S>, i}]
Catch[<E>] ;; Throw[<E>] ;; Catch[<E>, <p>] ;; Throw[<E>, <e>] ;; Check[<E>, <e>] ;; Quiet[<E>] ;; CheckAbort[<E>, <e>] ;; Abort[] ;; Break[] ;; Continue[]
1/0 ;; {1, 2} + {1, 2, 3} ;; <L>[[<N>]] ;; <L>[[{1, -1}]] ;; {{a, b}, {c}}[[<N>, {1, 2}]] ;; Print[<E>] ;; Print[<E>, "s", <e>] ;; Message[f::zz, <e>] ;; Message[f::m, <E>]
MatchQ[<E>, <P>] ;; MemberQ[<L>, <p>] ;; Count[<L>, <p>] ;; FreeQ[<E>, <p>] ;; Cases[<L>, <P>] ;; Cases[<L>, <P> :> <b>] ;; DeleteCases[<L>, <p>] ;; Replace[<E>, <P> -> <E>]
(<E> /. <P> -> <E>) ;; (<E> /. {<P> :> <b>, <p> -> <e>}) ;; (<E> //. a -> b) ;; (<E> //. f[x_] -> x) ;; (<E> //. b -> c)
Select[<L>, IntegerQ] ;; Select[<L>, # > 1 &] ;; Select[<L>, f] ;; Scan[Print, <L>] ;; Scan[f, <L>] ;; Fold[f, <e>, <L>] ;; FoldList[Plus, <e>, <L>] ;; Nest[f, <E>, 2] ;; Nest[# + 1 &, <E>, 2] ;; NestList[f, <E>, 2] ;; FixedPoint[a &, <N>] ;; FixedPoint[If[# === 3, 3, # + 1] &, <N>]
Map[f, <L>] ;; Apply[f, <L>] ;; Apply[f, {g[<E>], a}, {1}] ;; MapApply[f, {g[<E>], <E>}] ;; Array[f, 2] ;; Sort[<L>] ;; Sort[{<E>, <E>, <E>}] ;; Order[<E>, <E>] ;; OrderedQ[<L>] ;; Join[<L>, <L>] ;; Union[<L>] ;; Flatten[<L>] ;; Flatten[{a, {b, {c}}}, <N>]
Length[<E>] ;; Depth[<E>] ;; Head[<E>] ;; First[<L>] ;; Last[<L>] ;; Rest[<L>] ;; Most[<L>] ;; Take[<L>, <N>] ;; Drop[<L>, <N>] ;; Take[<L>, {1, -1}] ;; Append[<L>, <E>] ;; Prepend[<L>, <E>] ;; Reverse[<L>] ;; DeleteDuplicates[<L>] ;; Total[<L>] ;; Range[<N>, <N>] ;; Transpose[{<L>, <L>}] ;; Partition[<L>, 2]
AtomQ[<E>] ;; ListQ[<E>] ;; NumberQ[<E>] ;; EvenQ[<E>] ;; StringQ[<E>] ;; TrueQ[<E>] ;; Not[<C>] ;; Identity[<E>] ;; Abs[<N>] ;; Sign[<N>] ;; Floor[<N>] ;; Ceiling[<N>] ;; Numerator[<N>] ;; Factorial[<N>] ;; Mod[<N>, <N>] ;; Quotient[<N>, <N>] ;; GCD[<N>, 4] ;; Max[<N>, <N>] ;; Min[<N>, {<N>, {<N>}}] ;; Rational[<N>, <N>]
<E> == <E> ;; <E> != <E> ;; <N> < <N> ;; a < <N> <= <N> ;; 1 < <N> <= <N> ;; <E> === <E> ;; <E> =!= <E> ;; "ab" <> "c" ;; {"s", <E>} == {"t", <E>} ;; 2^126 + 2^126 + <E> ;; (2^100)*(2^27) ;; 1/(2^126) + 1/3
Out[] ;; %1 ;; In[1] ;; Out[<N>] ;; Attributes[<S>] ;; Attributes[Plus] ;; f::m
"""
PATTERNS = """
<p> ;; <p> ;; f[<P>, <P>] ;; g[<P>] ;; {<P>, <P>} ;; <p> | <p> ;; (<P>) /; <C> ;; Except[<p>] ;; Except[<p>, <p>] ;; HoldPattern[<P>] ;; Repeated[<p>] ;; RepeatedNull[<p>] ;; <p> + <p> ;; Verbatim[<p>] ;; h[<p>, <p>] ;; f[x_][<P>]
"""
CONDITIONS = """
<c> ;; <c> ;; <c> ;; (y = <E>; True) ;; <E> == <E> ;; (f[<p>] = <e>; False) ;; MatchQ[<E>, <p>] ;; (Print[x]; <c>)
"""
LISTS = "{} ;; {<E>} ;; {<E>, <E>} ;; {<E>, <E>, <E>}"
BODIES = """
<E> ;; <E> ;; <E> /; <C> ;; Module[{u = <e>, v}, u + v + <e> /; <C>] ;; With[{u = <e>}, {u, <e>} /; <C>] ;; Block[{x = <e>}, <E> /; <C>] ;; Module[{u}, With[{v = u}, {v, u} /; <C>]] ;; Block[{x = <e>}, Module[{u = x}, u /; <C>]]
"""
LEFT_SIDES = """
x ;; y ;; f[<P>] ;; f[<P>] ;; f[<p>, <p>] ;; g[<P>] ;; h[<p>, <P>] ;; h[<p>, <p>, <p>] ;; f[x_] /; <C> ;; g[f[<p>]] ;; f[x_][y_] ;; HoldPattern[f[<p>]] ;; 3 ;; Plus[a, b] ;; $RecursionLimit
"""
ATTRIBUTES = """
Flat ;; Orderless ;; Listable ;; HoldFirst ;; HoldAll ;; HoldRest ;; OneIdentity ;; SequenceHold ;; HoldAllComplete ;; Protected ;; {Flat, Orderless} ;; {Flat, OneIdentity}
"""
DEFINITIONS = """
<D> = <E> ;; <D> := <B> ;; <D> := <B> ;; f[<P>] := <B> ;; f[<P>] := <B> ;; g[<P>] := <B> ;; x = <E>
"""
USES = """
f[<E>, <E>] /. f[x_, y_] /; <C> :> <B> ;; f[<N>, <e>] /. f[x_Integer, y_] :> <B> ;; {<E>, <E>, <E>} /. {x__, y___} /; <C> :> {{x}, {y}} ;; {<e>, <e>, <e>} /. {x_, x_, y_} :> <B> ;; {1, <N>, <e>} /. {y___, x_Integer, ___} /; <C> :> <B> ;; g[<E>] /. g[x:(_Integer | _Symbol)] :> <B>
f[x_] := <B>; f[<N>] ;; f[x_, y_] /; <C> := <B>; f[<e>, <E>] ;; f[x_Integer] := <B>; f[x_] := <E>; {f[<N>], f[<e>]} ;; f[x__] := <B>; f[<e>, <e>] ;; g[x_?IntegerQ] := <B>; g[<N>] ;; g[x_, y_:<N>] := <B>; {g[a], g[a, <e>]} ;; h[x_, y___] := <B>; {h[<e>], h[<e>, <e>, <e>]}
f[x_] := Module[{u = x}, u + 1 /; u > <N>]; f[<N>] ;; f[x_] := With[{u = x}, {u, <e>} /; <C>]; f[<N>] ;; f[x_] := Block[{y = x}, {x, y, z} /; <C>]; {f[<N>], y} ;; f[x_] := With[{u = x}, Block[{u = 2}, u /; <C>]]; f[<e>] ;; f[x_] := Module[{u}, u = <e>; u /; <C>]; f[1]
f[x_] := Module[{v = x}, With[{u = v}, {u, v} /; u === <e>]]; f[<e>] ;; f[x_] := Block[{y = x}, Module[{v = y}, y = v + 1; {y, v} /; <C>]]; {f[<e>], y} ;; {f[1], f[2]} /. f[x_] :> Module[{u = x}, {u, a} /; x > 1]
SetAttributes[h, Flat]; h[a, b, c] /. h[x_, y_] :> {x, y} ;; SetAttributes[h, {Flat, Orderless}]; h[c, <e>, 1] /. h[x_, y_Integer] :> {x, y} ;; SetAttributes[h, {Flat, OneIdentity}]; h[<e>, b] /. h[x_, y__] :> {x, {y}} ;; SetAttributes[g, OneIdentity]; <e> /. g[x_, y_:3] :> {x, y} ;; SetAttributes[h, Orderless]; h[<e>, <e>, <e>] /. h[x_, y__] /; <C> :> {x, {y}}
(2 a + <e>) /. x_. y_ + z_. :> {x, y, z} ;; (a + b + c) /. x_ + y_ :> {x, y} ;; (<e>)^2 /. x_^n_. :> {x, n} ;; <e> /. x_. + y_. :> {x, y} ;; MatchQ[{<e>, <e>}, {x_, y_.}] ;; MatchQ[{<e>, <e>, <e>}, {(a | 1)..}] ;; MatchQ[f[<e>, <e>], f[Repeated[_Integer], ___]] ;; MatchQ[<E>, Except[_List, x_]] ;; Cases[{<E>, <E>, <E>}, Except[<p>]]
Function[x, Function[y, x + y]][y] ;; Function[x, Function[{y, x}, x + y]][y] ;; With[{x = y}, Function[y, {x, y}][<e>]] ;; Module[{x = <e>}, Function[y, x + y][x]] ;; f[x_] := Function[y, {x, y}]; f[y][<e>] ;; f[x_] := With[{y = x}, {x, y}]; f[y] ;; f[x_] := Module[{y = x}, {x, y, u}]; f[y + u] ;; With[{u = y}, Module[{y = u}, {u, y}]]
r := r + 1; Block[{$RecursionLimit = 20}, r] ;; f[x_] := x + f[x + 1]; Block[{$RecursionLimit = 25}, CheckAbort[f[0], <e>]] ;; f[x_] := f[x + 1]; Block[{$IterationLimit = 20}, f[<N>]] ;; f[x_] := f[x + 1]; CheckAbort[Block[{$IterationLimit = 21}, f[0]], <E>] ;; Table[$RecursionLimit, {$RecursionLimit, 18, 21}] ;; Block[{$IterationLimit = 5}, $IterationLimit]
Catch[Throw[<E>, a], <p>] ;; Catch[{<E>, Throw[<E>]}] ;; Catch[Do[If[i == 2, Throw[i]], {i, 3}]] ;; Check[1/0, <E>] ;; Check[Quiet[1/0], <E>] ;; Quiet[Check[{1/0, <E>}, b]] ;; Check[Check[<E>, a]; <E>, b] ;; Off[Power::infy]; Check[1/0, <E>] ;; CheckAbort[Block[{x = 1}, x = 2; Abort[]], x] ;; Block[{x = <e>}, Catch[x = 5; Throw[x]]] ;; {Block[{x = 1}, Break[]], x}
Block[{x = 1, Plus = 2, y}, {x, y}] ;; Block[{f}, f[x_] := <E>; f[<N>]] ;; x = <e>; Block[{x = 1, x = 2}, x] + x ;; Block[{a}, a /: f[a] = <E>; f[a]] ;; Protect[x]; Block[{x = 1}, x] ;; Module[{x$1 = 5}, Module[{x}, {x, x$1}]] ;; Do[If[i == 2, Protect[i]]; Print[i], {i, 3}] ;; Table[x, {Plus, Print[1]}] ;; i = 7; {Table[i, {i, 2}], i} ;; Do[i = i + 1; Print[i], {i, 3}]
f[x_] /; (f[y_] = 2; False) := 0; {f[1], f[1]} ;; f[x_] := (f[x] = <e>); {f[1], f[1]} ;; g[y_] := 0 /; x == 2; {g[a], x = 2, g[a]} ;; a /: f[a] = <e>; f[_] := <E>; f[a] ;; f[x_][y_] := {x, y}; f[1][<e>] ;; f[b, SetAttributes[f, Orderless]; a] ;; {x, x = <E>, x} ;; f[_Symbol] := 5; f[Sequence[Unevaluated[x]]]
SetAttributes[f, HoldAll]; f[<E>, Evaluate[<E>]] ;; SetAttributes[f, Listable]; f[{1, <e>}, <e>] ;; SetAttributes[f, SequenceHold]; f[Sequence[a, <e>]] ;; SetAttributes[f, HoldAllComplete]; f[<E>, Unevaluated[a], Sequence[b, c]] ;; SetAttributes[f, {Listable, Orderless}]; f[{b, a}, {<e>, c}] ;; SetAttributes[f, Listable]; f[{1, 2}, {1, 2, 3}, <e>]
"""
CELLS = """
{x, y} = {<E>, <E>} ;; {x, y} = <L> ;; {f[1], {x, y}} = {<e>, <L>}
<S> /: f[<S>] = <E> ;; <S> /: g[a, x_] := <B> ;; <S> /: f[g[x_]] = <E> ;; <S> /: a = <E> ;; TagSet[a, f[a], <E>] ;; f[g[x_], a] ^= <E> ;; f[Plus, b] ^= <E> ;; g[a] ^:= <B> ;; g[f[x_]] ^:= <B>
SetAttributes[<F>, <A>] ;; SetAttributes[<F>, <A>] ;; ClearAttributes[<F>, <A>] ;; Clear[<F>] ;; Clear[x, y] ;; Clear[Plus] ;; Clear[$RecursionLimit] ;; ClearAll[<F>] ;; Protect[<F>] ;; Protect[x] ;; Unprotect[<F>]
x =. ;; f[a] =. ;; f[x_] =. ;; g[1] =. ;; Plus[a, b] =. ;; TagUnset[a, f[a]] ;; <S> += <E> ;; <S> -= <E> ;; <S> *= <E> ;; <S> /= <E> ;; <S>++ ;; <S>-- ;; ++<S> ;; --<S> ;; x = {<e>} ;; AppendTo[x, <e>] ;; PrependTo[<S>, <e>]
f::m = "t `1`" ;; f::m = "u `2` `1`" ;; g::m = 5 ;; Message[f::m, <E>, <e>] ;; Off[f::m] ;; On[f::m] ;; Off[Power::infy] ;; On[Power::infy] ;; Message[f::m, 1] ;; Message[f::m, 2] ;; {1/0, 1/0, 1/0, 1/0}
$IterationLimit = 20 ;; $IterationLimit = 5 ;; $RecursionLimit = 20 ;; Block[{$RecursionLimit = 20}, <E>] ;; f[x_] := f[x + 1] ;; f[x_] := x + f[x] ;; r := r + 1 ;; Block[{$IterationLimit = 20}, f[<N>]] ;; r
"""


def split(text):
    return [form.strip() for line in text.strip().splitlines() for form in line.split(" ;; ")]


# `Part` is drawn once wl_lists has it
HAS_PART = (ROOT / "crates" / "wl_lists" / "specs" / "Parts.antt").is_file()
FORMS = {
    "E": [form for form in split(EXPRESSIONS) if HAS_PART or "[[" not in form], "P": split(PATTERNS), "C": split(CONDITIONS), "L": split(LISTS), "B": split(BODIES),
    "D": split(LEFT_SIDES), "A": split(ATTRIBUTES), "K": split(CELLS), "M": split(DEFINITIONS), "U": split(USES),
}
SMALL = {**{k: v.split() for k, v in ATOMS.items()}, **{k: v.split() for k, v in BOTTOM.items()}}


class Draw:
    """Random texts."""

    def __init__(self, seed):
        self.random = random.Random(seed)

    def form(self, kind, depth):
        if kind in ATOMS or kind in BOTTOM and depth <= 0:
            return self.random.choice(SMALL[kind])
        return self.random.choice(FORMS[kind])

    def text(self, kind, depth):
        def part(found):
            letter = found[1]
            return self.text(letter.upper(), depth - 1 if letter.isupper() else 0)
        return re.sub("<([A-Za-z])>", part, self.form(kind, depth))

    def cell(self):
        while True:
            kind = self.random.choice("EEEUUUUUMMKK")
            text = self.text(kind, self.random.choice([2, 3, 3, 4]))
            try:
                parse(text.encode())
                return text
            except Exception:
                continue

    def session(self):
        cells = [self.cell() for _ in range(self.random.randint(2, 6))]
        return cells, self.random.choice([30, 60, 100, 200, 300, 300])


def drawn(count, seed):
    """So many sessions with their budgets; those that the oracle can't run are passed over."""
    draw, found = Draw(seed), []
    while len(found) < count:
        cells, steps = draw.session()
        try:
            run(cells, steps)
        except RecursionError:
            continue
        found.append((cells, steps))
    return found


if __name__ == "__main__":
    for cells, steps in drawn(int(sys.argv[1]), int(sys.argv[2])):
        print(steps, " | ".join(cells))
