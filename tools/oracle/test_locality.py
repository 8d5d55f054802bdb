"""Locality on random programs: an evaluation without an effect has the same end and record in each
state that agrees on the names read; a settled value evaluates to itself with the record of its turn."""
import random
import sys

import syntax
from evaluate import Kernel, with_big_stack

CHANGES = """f[x_] := x
f[x_, y_] := {y, x}
f[x_] := 0 /; c == 2
f[_Symbol] := 5
a = 1
a = b
b := c
c = 2
a /: f[a] = 7
b /: g[b, ___] := b
g[x__] := h[x]
g[h[x_, y_:0]] := {x, y}
h[x_][y_] := y
SetAttributes[f, Flat]
SetAttributes[g, Orderless]
SetAttributes[h, OneIdentity]
SetAttributes[f, HoldFirst]
SetAttributes[g, HoldAllComplete]
SetAttributes[h, Listable]
SetAttributes[List, Orderless]
SetAttributes[Plus, HoldAll]
ClearAttributes[Plus, Flat]
Unprotect[Plus]; Plus[a, _] := b
f::m = "text"
Off[Power::infy]
Protect[a]
f[x_] := Module[{u = x}, u /; u > 10]
f[x_] := Block[{c = x}, c /; c == 2]""".splitlines()
PARTS = ["a", "b", "c", "1", "2", "f", "g", "h"]
FORMS = ["f[%s]", "g[%s, %s]", "h[%s]", "h[%s][%s]", "{%s, %s}", "%s + %s", "f[g[%s]]", "Hold[%s]",
         "f[Unevaluated[%s]]", "f[Sequence[%s, %s]]", "MatchQ[%s, h[x_, y_:0]]", "Attributes[f]", "f::m",
         "Table[%s, {2}]", "If[%s == 2, %s, %s]", "%s /. a -> %s", "Function[x, f[x]][%s]",
         "Table[%s, {a, 0}]", "With[{x = %s}, f[x, %s]]", "Cases[{%s, %s}, _f]", "f[Evaluate[%s]]",
         "Fold[f, %s, {%s}]", "Select[{%s, 1}, f]", "Catch[Throw[%s]]", "CheckAbort[Abort[], %s]",
         "Check[%s, c]", "Quiet[%s]", "a = %s", "f[1/0]", "Block[{a = %s}, f[a]]"]


def random_text(rng, deep):
    if deep == 0 or rng.random() < 0.25:
        return rng.choice(PARTS)
    form = rng.choice(FORMS)
    return "(" + form % tuple(random_text(rng, deep - 1) for _ in range(form.count("%s"))) + ")"


def parse(text):
    return syntax.parse(text.encode())


def summary(k, end):
    r = k.record
    return end, sorted(r.names), r.effect, r.steps, r.depth, r.turns


def main(count, seed=3):
    rng = random.Random(seed)
    compared = settled = 0
    for _ in range(count):
        k = Kernel(20000)
        for _ in range(rng.randrange(5)):
            k.evaluate(parse(rng.choice(CHANGES)))
        t = parse(random_text(rng, 3))
        one, other = k.copy(), k.copy()
        one.refill(20000)
        found = summary(one, one.evaluate(t))
        for _ in range(rng.randrange(1, 6)):
            other.evaluate(parse(rng.choice(CHANGES)))
        agree = all(one.store.entry(n).content() == other.store.entry(n).content() for n in found[1])
        if not found[2] and found[0][0] != "budget" and agree:
            other.refill(20000)
            again = summary(other, other.evaluate(t))
            assert again == found, (t, found, again)
            compared += 1
        if found[0][0] == "value" and one.settled(found[0][1]):
            v = found[0][1]
            from evaluate import is_atom
            if not is_atom(v):
                _, _, turn = one.turn_record(v)
                end = one.evaluate(v)
                assert summary(one, end) == (("value", v), sorted(turn.names), False, turn.steps,
                                             turn.depth, turn.turns), (v, turn, one.record)
                settled += 1
    print("locality: %d of %d evaluations compared, %d settled values" % (compared, count, settled))


if __name__ == "__main__":
    with_big_stack(lambda: main(*map(int, sys.argv[1:] or ["3000"])))
