"""Worked cases through `run`, with the evaluator of evaluate.py.

python3 test_run_rows.py
"""
import sys

from session import run
from wl import in_deep_thread

ROWS = []


def row(name, source, out, status=0, words=()):
    ROWS.append((name, source, out, status, words))


row("case 52", "", "")
row("case 1", "1/3 + 1/6\n", "Out[1]= 1/2\n")
row("case 2", "Hold[a + b*-c^2] // FullForm\n", "Out[1]//FullForm= Hold[Plus[a, Times[b, Times[-1, Power[c, 2]]]]]\n")
row("case 3", "x -> y & /@ {1}\n", "Out[1]= {x -> y}\n")
row("case 4", "{x, x = 1}\n%\n", "Out[1]= {x, 1}\nOut[2]= {1, 1}\n")
row("case 5", "f[x_] /; (f[y_] = 2; False) := 0\nf[1]\nf[1]\n", "Out[2]= f[1]\nOut[3]= 2\n")
row("case 6", "h[x_] := h[x]; h[1]\n", "Out[1]= h[1]\n")
row("case 7", "g[y_] := 0 /; x == 2\nBlock[{x = 1}, w = g[a]]\nx = 2\nw\nx = 2\nw\n",
    "Out[2]= g[a]\nOut[3]= 2\nOut[4]= 0\nOut[5]= 2\nOut[6]= 0\n")
row("case 8", "f[a]\na /: f[a] = 7\n%1\n", "Out[1]= f[a]\nOut[2]= 7\nOut[3]= 7\n")
row("case 9", "f[g[x_, y_:0]] := {x, y}\nf[b]\nSetAttributes[g, OneIdentity]\n%2\n", "Out[2]= f[b]\nOut[4]= {b, 0}\n")
row("case 10", "r := r + 1\nr\n", "$RecursionLimit::reclim: Recursion depth of 200 exceeded.\nOut[2]= $Aborted\n")
row("case 11", "k[n_] := k[n + 1]; k[0]\n$IterationLimit = 20\nk[0]\n",
    "$IterationLimit::itlim: Iteration limit of 1000 exceeded.\nOut[1]= $Aborted\nOut[2]= 20\n"
    "$IterationLimit::itlim: Iteration limit of 20 exceeded.\nOut[3]= $Aborted\n")
row("case 12", "{1, 2}\n{%, 3}\n", "Out[1]= {1, 2}\nOut[2]= {{1, 2}, 3}\n", 0, ["--steps", "6"])
row("case 13", "{1, 2}\n{%, 3}\n", "Out[1]= {1, 2}\nGeneral::steps: Step budget of 5 exceeded.\nOut[2]= $Aborted\n", 1,
    ["--steps", "5"])
row("case 14", "2^126 + (2^126 - 1)\n2^127\n170141183460469231731687303715884105728\n",
    "Out[1]= 170141183460469231731687303715884105727\nGeneral::ovfl: Overflow occurred in computation.\n"
    "Out[2]= Overflow[]\nRefused: number past 127 bits at byte 1.\n", 1)
row("case 53", "1.5\n1 + 1\nf[1,", "Refused: real number at byte 1.\nOut[1]= 2\nRefused: unfinished input.\n", 1)
row("case 15", "q[a, b, c] /. q[x__, y__] :> {{x}, {y}}\na /. x_. + y_ :> {x, y}\n", "Out[1]= {{a}, {b, c}}\nOut[2]= {0, a}\n")
row("case 16", "fib[0] = 0; fib[1] = 1; fib[n_] := fib[n] = fib[n - 1] + fib[n - 2]; fib[90]\n", "Out[1]= 2880067194370816120\n")
row("case 17", """(* area and lists *)
area[r_] := 3 r^2
area /@ {1, 2, 5}
t = Table[i^2, {i, 5}]
Total[t]
Select[t, EvenQ]
rules = {x -> 2, y -> 3};
x^2 + y /. rules
"ab" <> "cd"
StringLength[%]
p[n_Integer?EvenQ] := "even"
p[_] = "odd";
p /@ {3, 4}
""", """Out[2]= {3, 12, 75}
Out[3]= {1, 4, 9, 16, 25}
Out[4]= 55
Out[5]= {4, 16}
Out[7]= 7
Out[8]= "abcd"
Out[9]= 4
Out[12]= {"odd", "even"}
""")
row("case 18", "Table[f[i], {i, 1000}]\n%\n%\n",
    "".join("Out[%d]= {%s}\n" % (k, ", ".join("f[%d]" % i for i in range(1, 1001))) for k in (1, 2, 3)))
row("case 19", "a +\n  b\n", "Out[1]= a + b\n")
row("case 54", "1" + " " * 131071 + "\n", "Out[1]= 1\n")
row("case 55", "1" + " " * 131072 + "\n", "Refused: cell longer than 131072 bytes.\n", 1)
row("case 20", "Check[1/0, bad]\nQuiet[Check[1/0, bad]]\nQuiet[1/0]\n{1/0, 1/0, 1/0, 1/0}\n",
    "Power::infy: Infinite expression 0^(-1) encountered.\nOut[1]= bad\nOut[2]= bad\nOut[3]= ComplexInfinity\n"
    + "Power::infy: Infinite expression 0^(-1) encountered.\n" * 3
    + "General::stop: Further output of Power::infy will be suppressed during this calculation.\n"
      "Out[4]= {ComplexInfinity, ComplexInfinity, ComplexInfinity, ComplexInfinity}\n")
row("case 56", "1\n", "", 2, ["--steps", "0"])
row("case 21", "Plus[a, b] = 3\n", "Set::write: Tag Plus in a + b is Protected.\nOut[1]= 3\n")
row("case 57", "", "cells 1\nrefused 0\nsteps 12\n", 0, ["--demo", "1"])
row("case 22", "Module[{x = 2}, x + y]\nModule[{u}, u]\nFunction[x, Function[y, x + y]][y]\n",
    "Out[1]= 2 + y\nOut[2]= u$2\nOut[3]= Function[y$, y + y$]\n")
row("case 23", "z = 1; Block[{z = 5}, Abort[]]\nz\n", "Out[1]= $Aborted\nOut[2]= 1\n")
row("case 24", "MakeBoxes[a + b]\n", 'Out[1]= RowBox[{"a", " + ", "b"}]\n')
row("case 25", "x*2*x + 3 x^2\n(a + b) - 2 a\n", "Out[1]= 5*x^2\nOut[2]= -a + b\n")
row("case 58", b"\xff\n", "Refused: not UTF-8.\n", 1)
row("case 62", "(" * 399 + "1" + ")" * 399 + "\n", "Out[1]= 1\n")
row("case 63", "(" * 400 + "1" + ")" * 400 + "\n", "Refused: nested deeper than 400.\n", 1)
row("case 27", "Length[Range[3999988]]\nLength[Range[3999989]]\n",
    "Out[1]= 3999988\nGeneral::large: Expression too large.\nOut[2]= $Aborted\n")
row("case 28", "i = 0; While[True, i++; If[i == 3, Break[]]]; i\nCheckAbort[Block[{$RecursionLimit = 20}, d := d + 1; d], no]\n"
    "$RecursionLimit\n", "Out[1]= 3\n$RecursionLimit::reclim: Recursion depth of 20 exceeded.\nOut[2]= no\nOut[3]= 200\n")
row("case 29", 'f::bad = "Bad `1`.";\nMessage[f::bad, {1}]\nOff[f::bad]; Message[f::bad, 2]\nUnset[f[1]]\n',
    "f::bad: Bad {1}.\nOut[4]= $Failed\n")
row("case 64", "1 + 2\n7\n", "Out[1]= 3\nOut[2]= 7\n")
row("case 31", "170141183460469231731687303715884105727 + 1\n1 + + 2\nx\n170141183460469231731687303715884105728\n4 + 5\n",
    "General::ovfl: Overflow occurred in computation.\nOut[1]= Overflow[]\nRefused: unexpected input at byte 5.\nOut[2]= x\n"
    "Refused: number past 127 bits at byte 1.\nOut[3]= 9\n", 1)        # x is no longer refused
row("case 59", "1 +\n 2 (* two (* nested *) *)\n", "Out[1]= 3\n")
row("case 32", "a /: f[a] = 7\nf[a]\ng[x_][y_] := {x, y}\ng[1][2]\nSetAttributes[h, {Flat, Orderless}]; h[b, h[a]]\n",
    "Out[1]= 7\nOut[2]= 7\nOut[4]= {1, 2}\nOut[5]= h[a, b]\n")
row("case 33", "x = 1; Clear[x]\nx\n", "Out[2]= x\n")
row("case 34", "1/6 + 1/10\nMod[-7, 3]\n{1, 2}[[3]]\n{a, {a, b}} //. a -> b\n0^0\n",
    "Out[1]= 4/15\nOut[2]= 2\nPart::partw: Part 3 of {1, 2} does not exist.\nOut[3]= {1, 2}[[3]]\nOut[4]= {b, {b, b}}\n"
    "Power::indet: Indeterminate expression 0^0 encountered.\nOut[5]= Indeterminate\n")
row("case 35", "Catch[Do[If[i == 3, Throw[i]], {i, 9}]]\nThrow[b]\nBreak[]\n",
    "Out[1]= 3\nThrow::nocatch: Uncaught Throw[b] returned to top level.\nOut[2]= Hold[Throw[b]]\nOut[3]= Hold[Break[]]\n")
row("case 60", "", "cells 2\nrefused 0\nsteps 18\n", 0, ["--demo", "2"])
row("case 36", "g[y_] := 0 /; x == 2\ng[a]\nQuiet[{1/0, b}]\nCheck[%, bad]\nx = 2\n%2\n",
    "Out[2]= g[a]\nOut[3]= {ComplexInfinity, b}\nOut[4]= {ComplexInfinity, b}\nOut[5]= 2\nOut[6]= 0\n")
row("case 37", "f[_Symbol] := 5\nf[Sequence[Unevaluated[x]]]\n%\n", "Out[2]= f[Unevaluated[x]]\nOut[3]= 5\n")
QUERY = "MatchQ[q[a, a, a, a, a, a, a, a, a, a], q[x___, y___, z___, b]]\n"
row("case 38", QUERY, "Out[1]= False\n", 0, ["--steps", "85"])
row("case 39", QUERY, "General::steps: Step budget of 84 exceeded.\nOut[1]= $Aborted\n", 1, ["--steps", "84"])
row("case 40", "Nest[f, x, 1000]\n", "$RecursionLimit::reclim: Recursion depth of 200 exceeded.\nOut[1]= $Aborted\n")
row("case 41", "f[x_] := Module[{u = x^2}, u + 1 /; u > 10]\nf[3]\nf[4]\nModule[{w}, w]\n", "Out[2]= f[3]\nOut[3]= 17\nOut[4]= w$3\n")
row("case 42", "g[x__, y__] := With[{n = Length[{x}]}, {n, y} /; n == 2]\ng[a, b, c]\nh[x_] := Block[{z = x}, z + 1 /; z > 0]\n"
    "{h[1], h[-1], z}\n", "Out[2]= {2, c}\nOut[4]= {2, h[-1], z}\n")
row("case 61", "16^^ff + 2^^101\n37^^1\n8^^78\n36^^Zz\n", "Out[1]= 260\nRefused: base at byte 1.\nRefused: digit at byte 5.\nOut[2]= 1295\n", 1)
row("case 43", "{1, 2}\n{%, 3}\n5\n", "Out[1]= {1, 2}\nOut[2]= {{1, 2}, 3}\nOut[3]= 5\n", 0, ["--total", "8"])
row("case 44", "{1, 2}\n{%, 3}\n5\n",
    "Out[1]= {1, 2}\nGeneral::total: Total step budget of 7 exceeded.\nOut[2]= $Aborted\nOut[3]= 5\n", 1, ["--total", "7"])
row("case 45", 'StringMatchQ["2024-06", DigitCharacter.. ~~ "-" ~~ DigitCharacter..]\nStringCases["a1b22", DigitCharacter..]\n'
    'StringReplace["abcab", "a" ~~ x_ :> x <> "-"]\n', 'Out[1]= True\nOut[2]= {"1", "22"}\nOut[3]= "b-cb-"\n')
row("case 46", 'StringCases["abcabc", "a" ~~ __ ~~ "c"]\nStringReplace["ab", "" -> "-"]\nStringMatchQ["a", f[x]]\n',
    'Out[1]= {"abcabc"}\nOut[2]= "-a-b-"\nOut[3]= StringMatchQ["a", f[x]]\n')
row("case 47", "Expand[(a + b)^3]\nCoefficient[(x + y)^4, x, 2]\nCollect[a x + b x + c, x]\nPolynomialQ[x^2 + f[x], x]\n",
    "Out[1]= a^3 + 3*a^2*b + 3*a*b^2 + b^3\nOut[2]= 6*y^2\nOut[3]= c + x*(a + b)\nOut[4]= False\n")
row("case 48", "Expand[(2^126 + a)^2]\n", "General::ovfl: Overflow occurred in computation.\nOut[1]= Overflow[]\n")


def main():
    bad = 0
    chosen = sys.argv[1:]
    for name, source, out, status, words in ROWS:
        if chosen and name not in chosen:
            continue
        ran = run(list(words), source if type(source) is bytes else source.encode())
        if ran.out != out.encode() or ran.status != status:
            bad += 1
            print("row", name, "differs: status", ran.status)
            print(" want", repr(out)[:600])
            print(" got ", repr(ran.out.decode())[:600])
    print(len(ROWS), "rows,", bad, "differ")
    return 1 if bad else 0


if __name__ == "__main__":
    sys.exit(in_deep_thread(main))
