"""Writes the worked cells of wl_laws: what the definition gives for them is what the oracle gives.

    python3 tools/eval_oracle/worked.py

It writes crates/wl_laws/specs/WorkedCells.antt (the statements) and crates/wl_laws/proofs/Computed.antt (their proofs, by computing)
and lays them out by `rt fmt`. To work another session, add it to SESSIONS and run this again.
"""
import subprocess

from definition_rows import ROOT, equation

CRATE = ROOT / "crates" / "wl_laws"

# a name, the cells, the steps of each cell, and whether the items are compared whole or by their number
SESSIONS = [
    # what is evaluated, and which rule applies
    ("Symbols", ["x = 1; x", "Clear[x]", "x"]),
    ("EvaluatedOnce", ["{x, x = 1}", "%"]),
    ("GivesItself", ["h[x_] := h[x]; h[1]"]),
    ("RuleForAnElement", ["f[a]", "a /: f[a] = 7", "%1"]),
    ("UpAndSub", ["a /: f[a] = 7; f[a]", "g[x_][y_] := {x, y}; g[1][2]"]),
    ("Specific", ["f[x_] := 1; f[0] = 2; {f[0], f[3]}", "Clear[f]; f[0]"]),
    ("HeldSequence", ["Hold[Sequence[a, b], Unevaluated[c]]"]),
    ("FirstForm", ["f[_Symbol] := 5", "f[Sequence[Unevaluated[x]]]", "%"]),
    ("LateOrderless", ["f[b, SetAttributes[f, Orderless]; a]", "%"]),
    ("OneIdentity", ["f[g[x_, y_:0]] := {x, y}", "f[b]", "SetAttributes[g, OneIdentity]", "%2"]),
    ("FlatAndOrderless", ["SetAttributes[h, {Flat, Orderless}]; h[b, h[a]]", "x*2*x + 3 x^2"]),
    ("Fibonacci", ["fib[0] = 0; fib[1] = 1; fib[n_] := fib[n] = fib[n - 1] + fib[n - 2]; fib[4]"]),
    # conditions and tests that change what they look at
    ("ConditionRedefines", ["f[x_] /; (f[y_] = 2; False) := 0", "f[1]", "f[1]"]),
    ("BlockedCondition", ["g[y_] := 0 /; x == 2", "Block[{x = 1}, w = g[a]]", "x = 2", "w"]),
    ("HiddenCondition", ["g[y_] := 0 /; x == 2", "g[a]", "Quiet[{1/0, b}]", "Check[%, bad]", "x = 2", "%2"]),
    ("TestBreaks", ["While[MatchQ[1, _?((Break[]; True) &)]]"]),
    ("ConditionMoves", ["f[x_] = Module[{u = x}, u /; u > 1]", "f[3]"]),
    # guards
    ("Guard", ["f[x_] := Module[{u = x^2}, u + 1 /; u > 10]", "f[3]", "f[4]", "Module[{w}, w]"]),
    ("GuardsWithin", ["g[x__, y__] := With[{n = Length[{x}]}, {n, y} /; n == 2]", "g[a, b, c]",
                      "h[x_] := Block[{z = x}, z + 1 /; z > 0]", "{h[1], h[-1], z}"]),
    ("GuardedNoMore", ["f[x_] := With[{u = x}, Block[{u = 2}, u /; True]]; f[5]"]),
    # scopes
    ("Scopes", ["Module[{x = 2}, x + y]", "Module[{u}, u]", "Function[x, Function[y, x + y]][y]"]),
    ("NameTwice", ["x = 7; Block[{x = 1, x = 2}, x]", "x", "With[{x = 1, x = 2}, x]"]),
    ("BlockIsNoScope", ["f[x_] := Block[{x = 1}, x]; f[5]"]),
    ("BlockGivesBack", ["z = 1; Block[{z = 5}, Abort[]]", "z"]),
    ("BlockPassesOver", ["Block[{x = 1, Plus = 2, $IterationLimit = 5, y}, {x, $IterationLimit}]", "x"]),
    # loops and ends
    ("BreakOut", ["i = 0; While[True, i++; If[i == 3, Break[]]]; i"]),
    ("ProtectedWithin", ["Do[If[i == 2, Protect[i]]; Print[i], {i, 3}]", "i"]),
    ("LimitAsIterator", ["Table[$RecursionLimit, {$RecursionLimit, 18, 21}]", "$RecursionLimit"]),
    ("NoIterator", ["Table[x, {Plus, Print[1]}]"]),
    ("Tables", ["Table[i + j, {i, 2}, {j, i}]", "Table[i, {i, 1, 2, 1/2}]"]),
    ("Caught", ["Catch[Do[If[i == 3, Throw[i]], {i, 9}]]", "Throw[b]", "Break[]", "Catch[Throw[1, a], _Symbol]"]),
    ("QuietThrow", ["Quiet[Throw[1]]"]),
    # limits and budgets
    ("Recursion", ["r := r + 1", "Block[{$RecursionLimit = 20}, r]", "CheckAbort[Block[{$RecursionLimit = 20}, r], no]"]),
    ("Iteration", ["$IterationLimit = 20", "k[n_] := k[n + 1]; k[0]"]),
    ("SixSteps", ["{1, 2}", "{%, 3}"], 6),
    ("FiveSteps", ["{1, 2}", "{%, 3}"], 5),
    ("EnoughForLeaves", ["MatchQ[q[a, a, a, a], q[x___, y___, z___, b]]"], 34),
    ("OneLeafTooMany", ["MatchQ[q[a, a, a, a], q[x___, y___, z___, b]]"], 33),
    # messages
    ("Messages", ['f::bad = "Bad `1`.";', "Message[f::bad, b]", "Off[f::bad]; Message[f::bad, 2]"], 1000, False),
    ("Stopped", ["{1/0, 1/0, 1/0, 1/0}"]),
    ("Checked", ["Check[1/0, bad]", "Quiet[Check[1/0, bad]]", "Quiet[1/0]"]),
    ("Uneven", ["1 + 2 + {1, 2} + {1, 2, 3}"]),
    ("Refused", ["Plus[a, b] = 3", "f[a, Plus, Times] ^:= 1", "f[a, b]", "3[a] = 1", "g /: k[m] = 1", "{p, q} = {1}"]),
    # replacement
    ("ReplacedFirst", ["q[a, b, c] /. q[x__, y__] :> {{x}, {y}}", "a /. x_. + y_ :> {x, y}", "{a, {a, b}} //. a -> b"]),
    ("CasesByRule", ["Cases[{1, a, 2, f[3]}, x_Integer :> x + 1]", "DeleteCases[{a, b, a}, a]", "FreeQ[{a, {b}}, b]"]),
]

STATEMENTS = '''-- Sessions, each from a new kernel, and what each of their cells gives. The values are those of an independent writing of the language; tools/eval_oracle/worked.py writes this file.
use Rattle.std.specs.Prelude.{◌≡◌, true, false, [], ◌∷◌, codes, pos, negsuc}
use Rattle.wl_expr.specs.Tree.{num}
use Rattle.wl_expr.specs.Words.{applied, natural, whole}
use Rattle.wl_rules.specs.Start.{words}
use Rattle.wl_laws.specs.Cells.{cells, briefs, name, string, call}

'''
PROOFS = '''-- The worked cells, computed. tools/eval_oracle/worked.py writes this file.
use Rattle.std.proofs.Common.{refl}
use Rattle.wl_laws.specs.Cells.{cells}
use Rattle.wl_laws.specs.WorkedCells.{%s}

'''


def statement(name, cells, steps=1000, with_items=True):
    shown = "".join("-- %s\n" % cell for cell in cells)
    budget = "" if steps == 1000 else "-- with %d steps for a cell:\n" % steps
    return "%s%sabbrev pub %s : Type 0\n%s =\n    %s\n\n" % (budget, shown, name, name, equation(cells, steps, with_items))


def proof(name):
    word = name[0].lower() + name[1:]
    return "pub %s : %s\nunfolding cells\n%s = refl\n\n" % (word, name, word)


def main():
    names = [session[0] for session in SESSIONS]
    whole = "abbrev pub WorkedCells : Type 0\nWorkedCells =\n    %s\n" % "\n    × ".join(names)
    (CRATE / "specs" / "WorkedCells.antt").write_text(STATEMENTS + "".join(statement(*s) for s in SESSIONS) + whole)
    words = [name[0].lower() + name[1:] for name in names]
    tail = "pub worked_cells : WorkedCells\nworked_cells = (%s)\n" % ", ".join(words)
    (CRATE / "proofs" / "Computed.antt").write_text(PROOFS % ", ".join(names + ["WorkedCells"]) + "".join(map(proof, names)) + tail)
    subprocess.run(["rt", "fmt"], cwd=CRATE, check=True)
    print("%d sessions of %d cells" % (len(SESSIONS), sum(len(session[1]) for session in SESSIONS)))


main()
