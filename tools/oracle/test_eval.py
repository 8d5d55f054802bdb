"""Worked cases that concern evaluation, at the level of the Kernel,
and through session.py where it exists.  Run: python3 test_eval.py [part of a case's name]
"""
import sys
import time

from tree import Sym, Str, Node, num
from evaluate import Kernel, with_big_stack
import printing
import syntax

DEFAULT = 10_000_000
# (name, options, cells, expected lines).  Options: steps, total, form.
ROWS = []


def row(name, cells, expected, **options):
    ROWS.append((name, options, cells, expected))


row("case 1", ["1/3 + 1/6"], ["Out[1]= 1/2"])
row("case 2", ["Hold[a + b*-c^2] // FullForm"],
    ["Out[1]//FullForm= Hold[Plus[a, Times[b, Times[-1, Power[c, 2]]]]]"])
row("case 3", ["x -> y & /@ {1}"], ["Out[1]= {x -> y}"])
row("case 4", ["{x, x = 1}", "%"], ["Out[1]= {x, 1}", "Out[2]= {1, 1}"])
row("case 5", ["f[x_] /; (f[y_] = 2; False) := 0", "f[1]", "f[1]"], ["Out[2]= f[1]", "Out[3]= 2"])
row("case 6", ["h[x_] := h[x]; h[1]"], ["Out[1]= h[1]"])
row("case 7", ["g[y_] := 0 /; x == 2", "Block[{x = 1}, w = g[a]]", "x = 2", "w", "x = 2", "w"],
    ["Out[2]= g[a]", "Out[3]= 2", "Out[4]= 0", "Out[5]= 2", "Out[6]= 0"])
row("case 8", ["f[a]", "a /: f[a] = 7", "%1"], ["Out[1]= f[a]", "Out[2]= 7", "Out[3]= 7"])
row("case 9", ["f[g[x_, y_:0]] := {x, y}", "f[b]", "SetAttributes[g, OneIdentity]", "%2"],
    ["Out[2]= f[b]", "Out[4]= {b, 0}"])
row("case 10", ["r := r + 1", "r"],
    ["$RecursionLimit::reclim: Recursion depth of 200 exceeded.", "Out[2]= $Aborted"])
row("case 11", ["k[n_] := k[n + 1]; k[0]", "$IterationLimit = 20", "k[0]"],
    ["$IterationLimit::itlim: Iteration limit of 1000 exceeded.", "Out[1]= $Aborted", "Out[2]= 20",
     "$IterationLimit::itlim: Iteration limit of 20 exceeded.", "Out[3]= $Aborted"])
row("case 12", ["{1, 2}", "{%, 3}"], ["Out[1]= {1, 2}", "Out[2]= {{1, 2}, 3}"], steps=6)
row("case 13", ["{1, 2}", "{%, 3}"],
    ["Out[1]= {1, 2}", "General::steps: Step budget of 5 exceeded.", "Out[2]= $Aborted"], steps=5)
row("case 14", ["2^126 + (2^126 - 1)", "2^127"],
    ["Out[1]= 170141183460469231731687303715884105727",
     "General::ovfl: Overflow occurred in computation.", "Out[2]= Overflow[]"])
row("case 15", ["q[a, b, c] /. q[x__, y__] :> {{x}, {y}}", "a /. x_. + y_ :> {x, y}"],
    ["Out[1]= {{a}, {b, c}}", "Out[2]= {0, a}"])
row("case 16", ["fib[0] = 0; fib[1] = 1; fib[n_] := fib[n] = fib[n - 1] + fib[n - 2]; fib[90]"],
    ["Out[1]= 2880067194370816120"])
row("case 17", ["(* area and lists *)\narea[r_] := 3 r^2", "area /@ {1, 2, 5}",
              "t = Table[i^2, {i, 5}]", "Total[t]", "Select[t, EvenQ]", "rules = {x -> 2, y -> 3};",
              "x^2 + y /. rules", '"ab" <> "cd"', "StringLength[%]",
              'p[n_Integer?EvenQ] := "even"', 'p[_] = "odd";', "p /@ {3, 4}"],
    ["Out[2]= {3, 12, 75}", "Out[3]= {1, 4, 9, 16, 25}", "Out[4]= 55", "Out[5]= {4, 16}", "Out[7]= 7",
     'Out[8]= "abcd"', "Out[9]= 4", 'Out[12]= {"odd", "even"}'])
THOUSAND = "{" + ", ".join("f[%d]" % i for i in range(1, 1001)) + "}"
row("case 18", ["Table[f[i], {i, 1000}]", "%", "%"], ["Out[%d]= %s" % (n, THOUSAND) for n in (1, 2, 3)])
row("case 19", ["a +\n  b"], ["Out[1]= a + b"])
INFY = "Power::infy: Infinite expression 0^(-1) encountered."
row("case 20", ["Check[1/0, bad]", "Quiet[Check[1/0, bad]]", "Quiet[1/0]", "{1/0, 1/0, 1/0, 1/0}"],
    [INFY, "Out[1]= bad", "Out[2]= bad", "Out[3]= ComplexInfinity", INFY, INFY, INFY,
     "General::stop: Further output of Power::infy will be suppressed during this calculation.",
     "Out[4]= {ComplexInfinity, ComplexInfinity, ComplexInfinity, ComplexInfinity}"])
row("case 21", ["Plus[a, b] = 3"], ["Set::write: Tag Plus in a + b is Protected.", "Out[1]= 3"])
row("case 22", ["Module[{x = 2}, x + y]", "Module[{u}, u]", "Function[x, Function[y, x + y]][y]"],
    ["Out[1]= 2 + y", "Out[2]= u$2", "Out[3]= Function[y$, y + y$]"])
row("case 23", ["z = 1; Block[{z = 5}, Abort[]]", "z"], ["Out[1]= $Aborted", "Out[2]= 1"])
row("case 24", ["MakeBoxes[a + b]"], ['Out[1]= RowBox[{"a", " + ", "b"}]'])
row("case 25", ["x*2*x + 3 x^2", "(a + b) - 2 a"], ["Out[1]= 5*x^2", "Out[2]= -a + b"])
row("case 26", ["(" * 399 + "1" + ")" * 399], ["Out[1]= 1"])
row("case 27", ["Length[Range[3999988]]", "Length[Range[3999989]]"],
    ["Out[1]= 3999988", "General::large: Expression too large.", "Out[2]= $Aborted"])
row("case 28", ["i = 0; While[True, i++; If[i == 3, Break[]]]; i",
              "CheckAbort[Block[{$RecursionLimit = 20}, d := d + 1; d], no]", "$RecursionLimit"],
    ["Out[1]= 3", "$RecursionLimit::reclim: Recursion depth of 20 exceeded.", "Out[2]= no",
     "Out[3]= 200"])
row("case 29", ['f::bad = "Bad `1`.";', "Message[f::bad, {1}]", "Off[f::bad]; Message[f::bad, 2]",
              "Unset[f[1]]"], ["f::bad: Bad {1}.", "Out[4]= $Failed"])
row("case 30", ['Print["a"]', "x = 1; Clear[x]", "x"], ["a", "Out[3]= x"])
row("case 31", ["170141183460469231731687303715884105727 + 1", "4 + 5"],
    ["General::ovfl: Overflow occurred in computation.", "Out[1]= Overflow[]", "Out[2]= 9"])
row("case 32", ["a /: f[a] = 7", "f[a]", "g[x_][y_] := {x, y}", "g[1][2]",
             "SetAttributes[h, {Flat, Orderless}]; h[b, h[a]]"],
    ["Out[1]= 7", "Out[2]= 7", "Out[4]= {1, 2}", "Out[5]= h[a, b]"])
row("case 33", ["x = 1; Clear[x]", "x"], ["Out[2]= x"])
row("case 34", ["1/6 + 1/10", "Mod[-7, 3]", "{1, 2}[[3]]", "{a, {a, b}} //. a -> b", "0^0"],
    ["Out[1]= 4/15", "Out[2]= 2", "Part::partw: Part 3 of {1, 2} does not exist.",
     "Out[3]= {1, 2}[[3]]", "Out[4]= {b, {b, b}}",
     "Power::indet: Indeterminate expression 0^0 encountered.", "Out[5]= Indeterminate"])
row("case 35", ["Catch[Do[If[i == 3, Throw[i]], {i, 9}]]", "Throw[b]", "Break[]"],
    ["Out[1]= 3", "Throw::nocatch: Uncaught Throw[b] returned to top level.",
     "Out[2]= Hold[Throw[b]]", "Out[3]= Hold[Break[]]"])
row("case 36", ["g[y_] := 0 /; x == 2", "g[a]", "Quiet[{1/0, b}]", "Check[%, bad]", "x = 2", "%2"],
    ["Out[2]= g[a]", "Out[3]= {ComplexInfinity, b}", "Out[4]= {ComplexInfinity, b}", "Out[5]= 2",
     "Out[6]= 0"])
row("case 37", ["f[_Symbol] := 5", "f[Sequence[Unevaluated[x]]]", "%"],
    ["Out[2]= f[Unevaluated[x]]", "Out[3]= 5"])
MATCH = "MatchQ[q[a, a, a, a, a, a, a, a, a, a], q[x___, y___, z___, b]]"
row("case 38", [MATCH], ["Out[1]= False"], steps=85)
row("case 39", [MATCH], ["General::steps: Step budget of 84 exceeded.", "Out[1]= $Aborted"], steps=84)
row("case 40", ["Nest[f, x, 1000]"],
    ["$RecursionLimit::reclim: Recursion depth of 200 exceeded.", "Out[1]= $Aborted"])
row("case 41", ["f[x_] := Module[{u = x^2}, u + 1 /; u > 10]", "f[3]", "f[4]", "Module[{w}, w]"],
    ["Out[2]= f[3]", "Out[3]= 17", "Out[4]= w$3"])
row("case 42", ["g[x__, y__] := With[{n = Length[{x}]}, {n, y} /; n == 2]", "g[a, b, c]",
              "h[x_] := Block[{z = x}, z + 1 /; z > 0]", "{h[1], h[-1], z}"],
    ["Out[2]= {2, c}", "Out[4]= {2, h[-1], z}"])
row("case 43", ["{1, 2}", "{%, 3}", "5"], ["Out[1]= {1, 2}", "Out[2]= {{1, 2}, 3}", "Out[3]= 5"], total=8)
row("case 44", ["{1, 2}", "{%, 3}", "5"],
    ["Out[1]= {1, 2}", "General::total: Total step budget of 7 exceeded.", "Out[2]= $Aborted",
     "Out[3]= 5"], total=7)
row("case 45", ['StringMatchQ["2024-06", DigitCharacter.. ~~ "-" ~~ DigitCharacter..]',
              'StringCases["a1b22", DigitCharacter..]',
              'StringReplace["abcab", "a" ~~ x_ :> x <> "-"]'],
    ["Out[1]= True", 'Out[2]= {"1", "22"}', 'Out[3]= "b-cb-"'])
row("case 46", ['StringCases["abcabc", "a" ~~ __ ~~ "c"]', 'StringReplace["ab", "" -> "-"]',
              'StringMatchQ["a", f[x]]'],
    ['Out[1]= {"abcabc"}', 'Out[2]= "-a-b-"', 'Out[3]= StringMatchQ["a", f[x]]'])
row("case 47", ["Expand[(a + b)^3]", "Coefficient[(x + y)^4, x, 2]", "Collect[a x + b x + c, x]",
              "PolynomialQ[x^2 + f[x], x]"],
    ["Out[1]= a^3 + 3*a^2*b + 3*a*b^2 + b^3", "Out[2]= 6*y^2", "Out[3]= c + x*(a + b)",
     "Out[4]= False"])
row("case 48", ["Expand[(2^126 + a)^2]"],
    ["General::ovfl: Overflow occurred in computation.", "Out[1]= Overflow[]"])
row("case 49", ['RestoreEntry[f, "Down", {f[0], Rational[1, 2]}]',
              'RestoreEntry[f, "Down", {f[x_], x^2}]',
              'RestoreEntry[f, "Attributes", {Listable}]', "f[{0, 3}]"],
    ["Out[4]= {1/2, 9}"])
# cells of the demonstration
row("case 50", ["{57, 76} /. 57 -> 1"], ["Out[1]= {1, 76}"])
row("case 51", ["{35, 9} /. 35 -> 1", "Sort[{41, 22, 2}]"], ["Out[1]= {1, 9}", "Out[2]= {2, 22, 41}"])

# (row, list of the steps of its cells)
STEPS = {"case 12": [2, 6], "case 50": [12], "case 51": [12, 6], "case 38": [85],
         "case 43": [2, 6, 0]}
STEPS_OF_CELL = {("case 18", 3): 2004}


# The line loop at the level of the Kernel

def play(cells, steps=DEFAULT, total=None, form="input"):
    """(lines, steps of each cell, kernel)."""
    k, lines, taken, left = Kernel(steps), [], [], total
    for n, cell in enumerate(cells, 1):
        t = syntax.parse(cell.encode())
        budget = steps if left is None else min(steps, left)
        k.refill(budget)
        silent = (type(t) is Node and t.head == Sym("CompoundExpression") and len(t.args) >= 2
                  and t.args[-1] == Sym("Null"))
        e = t
        if silent:
            e = t.args[0] if len(t.args) == 2 else Node(t.head, t.args[:-1])
        end = k.evaluate(e)
        extra, value = [], Sym("$Aborted")
        if end[0] == "value":
            value = end[1]
        elif end[0] == "thrown":
            value = k.uncaught(end[1], end[2])
        elif end[0] == "budget":
            by_total = left is not None and left < steps
            extra = ["General::total: Total step budget of %d exceeded." % total if by_total
                     else "General::steps: Step budget of %d exceeded." % steps]
        taken.append(budget - k.steps_left)
        if left is not None:
            left -= taken[-1]
        label, text = "Out[%d]= " % n, None
        kept = value
        if type(value) is Node and value.head in (Sym("FullForm"), Sym("InputForm")) and len(value.args) == 1:
            kept = value.args[0]
            label = "Out[%d]//%s= " % (n, value.head.name)
            full = value.head == Sym("FullForm")
        else:
            full = form == "full"
        lines += k.shown + extra
        if not silent and value != Sym("Null"):
            lines.append(label + (printing.full_form(kept) if full else printing.input_form(kept)))
        k.put_line(t, kept)
    return lines, taken, k


def first_difference(got, expected):
    for k, (a, b) in enumerate(zip(got + [None], expected + [None])):
        if a != b:
            return "line %d: got %.200r, expected %.200r" % (k + 1, a, b)


# Whole runs through the text layer, bytes exact

USAGE = "usage: wl [--steps N] [--total N] [--form input|full] [--demo N] [FILE]"
# (name, words, source bytes, out lines, status, line on err)
WHOLE = [
    ("case 52", [], b"", [], 0, None),
    ("case 12", ["--steps", "6"], b"{1, 2}\n{%, 3}\n", ["Out[1]= {1, 2}", "Out[2]= {{1, 2}, 3}"], 0, None),
    ("case 13", ["--steps", "5"], b"{1, 2}\n{%, 3}\n",
     ["Out[1]= {1, 2}", "General::steps: Step budget of 5 exceeded.", "Out[2]= $Aborted"], 1, None),
    ("case 14", [], b"2^126 + (2^126 - 1)\n2^127\n170141183460469231731687303715884105728\n",
     ["Out[1]= 170141183460469231731687303715884105727",
      "General::ovfl: Overflow occurred in computation.", "Out[2]= Overflow[]",
      "Refused: number past 127 bits at byte 1."], 1, None),
    ("case 53", [], b"1.5\n1 + 1\nf[1,",
     ["Refused: real number at byte 1.", "Out[1]= 2", "Refused: unfinished input."], 1, None),
    ("case 18", [], b"Table[f[i], {i, 1000}]\n%\n%\n",
     ["Out[%d]= %s" % (n, THOUSAND) for n in (1, 2, 3)], 0, None),
    ("case 19", [], b"a +\n  b\n", ["Out[1]= a + b"], 0, None),
    ("case 54", [], b"1" + b" " * 131071 + b"\n", ["Out[1]= 1"], 0, None),
    ("case 55", [], b"1" + b" " * 131072 + b"\n", ["Refused: cell longer than 131072 bytes."], 1, None),
    ("case 56", ["--steps", "0"], b"", [], 2, USAGE),
    ("case 57", ["--demo", "1"], b"", ["cells 1", "refused 0", "steps 12"], 0, None),
    ("case 58", [], b"\xff\n", ["Refused: not UTF-8."], 1, None),
    ("case 26", [], b"(" * 400 + b"1" + b")" * 400 + b"\n", ["Refused: nested deeper than 400."], 1, None),
    ("case 59", [], b"1 +\n 2 (* two (* nested *) *)\n", ["Out[1]= 3"], 0, None),
    ("case 60", ["--demo", "2"], b"", ["cells 2", "refused 0", "steps 18"], 0, None),
    ("case 38", ["--steps", "85"], MATCH.encode() + b"\n", ["Out[1]= False"], 0, None),
    ("case 39", ["--steps", "84"], MATCH.encode() + b"\n",
     ["General::steps: Step budget of 84 exceeded.", "Out[1]= $Aborted"], 1, None),
    ("case 40", [], b"Nest[f, x, 1000]\n",
     ["$RecursionLimit::reclim: Recursion depth of 200 exceeded.", "Out[1]= $Aborted"], 0, None),
    ("case 61", [], b"16^^ff + 2^^101\n37^^1\n8^^78\n36^^Zz\n",
     ["Out[1]= 260", "Refused: base at byte 1.", "Refused: digit at byte 5.", "Out[2]= 1295"], 1, None),
    ("case 43", ["--total", "8"], b"{1, 2}\n{%, 3}\n5\n",
     ["Out[1]= {1, 2}", "Out[2]= {{1, 2}, 3}", "Out[3]= 5"], 0, None),
    ("case 44", ["--total", "7"], b"{1, 2}\n{%, 3}\n5\n",
     ["Out[1]= {1, 2}", "General::total: Total step budget of 7 exceeded.", "Out[2]= $Aborted",
      "Out[3]= 5"], 1, None),
]


def whole(part):
    """The rows above, and each row of ROWS joined to one text, through session.run."""
    try:
        from session import run
    except ImportError:
        print("no session.py")
        return 0
    runs = list(WHOLE)
    for name, options, cells, expected in ROWS:
        words = [w for key, v in options.items() for w in ("--" + key, str(v))]
        status = 1 if any(line.startswith(("General::steps", "General::total")) for line in expected) else 0
        runs.append((name, words, ("\n".join(cells) + "\n").encode(), expected, status, None))
    bad = 0
    for name, words, source, expected, status, err in runs:
        if part not in name or name == "case 27" and not part:     # alone, for its time
            continue
        ran = run(words, source)
        faults = []
        got = ran.out.decode().split("\n")
        if got[-1] != "" or got[:-1] != expected:
            faults.append(first_difference(got[:-1], expected))
        if (ran.status, ran.err) != (status, err):
            faults.append("status %s, err %s" % (ran.status, ran.err))
        bad += bool(faults)
        if faults:
            print("%-18s WRONG %s" % (name, "; ".join(faults)))
    print("%d whole runs, %s" % (len(runs), "all as written" if not bad else "%d WRONG" % bad))
    return bad


def main(part):
    bad = 0
    for name, options, cells, expected in ROWS:
        if part not in name:
            continue
        start = time.time()
        lines, taken, k = play(cells, **options)
        faults = []
        if lines != expected:
            faults.append(first_difference(lines, expected))
        if name in STEPS and taken != STEPS[name]:
            faults.append("steps %s, expected %s" % (taken, STEPS[name]))
        for (other, cell), steps in STEPS_OF_CELL.items():
            if other == name and taken[cell - 1] != steps:
                faults.append("steps of cell %d: %d, expected %d" % (cell, taken[cell - 1], steps))
        if k.open_depth or k.quiets:
            faults.append("something is still open")
        bad += bool(faults)
        print("%-18s %s  (%.1f s)" % (name, "ok" if not faults else "WRONG " + "; ".join(faults),
                                      time.time() - start))
    print("all rows as written" if not bad else "%d rows WRONG" % bad)
    return bad


if __name__ == "__main__":
    wanted = sys.argv[1] if len(sys.argv) > 1 else ""
    wrong = with_big_stack(lambda: main(wanted) + whole(wanted))
    sys.exit(1 if wrong else 0)
