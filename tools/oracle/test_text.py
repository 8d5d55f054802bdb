"""Worked and hard cases for the reader, the printer, the order, the numbers, the words
and the line loop.  python3 test_text.py"""
import sys
import threading
from fractions import Fraction

import exact
import numbers as brief_numbers
from cells import LIMIT, TOO_LONG, cells
from early import run_early
from order import order
from printing import boxes, clean, full_form, input_form, spell
from session import demo_cells, refusal_line, run
from syntax import SyntaxFault, parse
from tokens import ScanFault, is_name, tokens
from tree import Node, Str, Sym, num
from words import USAGE, read_words

HALF = Fraction(1, 2)


def says(text, bases=True):
    """The FullForm of what a cell reads as, or its refusal."""
    data = text if type(text) is bytes else text.encode()
    try:
        return full_form(parse(data, bases))
    except SyntaxFault as f:
        return refusal_line(f.kind, f.at)


def check(rows):
    for text, want in rows:
        got = says(text)
        assert got == want, (text, want, got)


def n(head, *args):
    return Node(Sym(head) if type(head) is str else head, args)


def same_texts(rows):
    """Each row: FullForm text, InputForm text."""
    for full, want in rows:
        t = parse(full.encode())
        got = input_form(t)
        assert got == want, (full, want, got)
        if clean(t):
            assert parse(got.encode()) == spell(t), full


# ---- numbers ----

def fault(call, *args):
    try:
        return call(*args)
    except exact.NumFault as f:
        return type(f).__name__


def test_numbers():
    m = exact.MAX
    q = Fraction
    assert exact.int_(-2 ** 127) is None and exact.int_(m) == m and exact.int_(-m) == -m
    assert fault(exact.ratio, -2 ** 127, 0) == "ZeroDivisor"
    assert fault(exact.ratio, -2 ** 127, -2 ** 127) == "Overflow"
    assert fault(exact.ratio, 1, -2 ** 127) == "Overflow"
    assert exact.ratio(6, -4) == q(-3, 2)

    assert exact.add(q(2 ** 126), q(2 ** 126 - 1)) == m
    assert fault(exact.add, q(m), q(1)) == "Overflow"
    assert exact.add(q(-m), q(m)) == 0
    # the product of the unreduced denominators leaves the range, nothing that is named does
    d = 2 ** 100
    assert exact.add(q(1, d), q(1, d)) == q(1, 2 ** 99)
    # an intermediate number leaves the range though the sum would fit
    assert fault(exact.add, q(m, 2), q(-m, 2)) == 0
    assert fault(exact.add, q(m, 2), q(-m + 2, 2)) == q(1)
    assert fault(exact.add, q(2 ** 126 + 1, 2), q(2 ** 126 + 1, 2)) == "Overflow"      # the sum of numerators
    assert fault(exact.add, q(2 ** 126), q(-2 ** 127 + 1, 2)) == "Overflow"            # p*(s/g)
    assert exact.mul(q(m, 3), q(3, m)) == 1
    assert fault(exact.mul, q(2 ** 64), q(2 ** 63)) == "Overflow"
    assert fault(exact.pow_, q(0), -1) == "ZeroDivisor" and exact.pow_(q(0), 5) == 0
    assert fault(exact.pow_, q(2), 127) == "Overflow" and exact.pow_(q(2), 126) == 2 ** 126
    assert exact.pow_(q(-1), -m) == -1 and exact.pow_(q(1), -2 ** 127) == 1
    assert exact.pow_(q(-2, 3), -3) == q(-27, 8)
    assert exact.pow_(q(3), 0) == 1
    assert exact.floor(q(-1, 2)) == -1 and exact.cmp(q(1, 3), q(1, 2)) == -1
    assert exact.modulo(q(-7), q(3)) == 2 and exact.modulo(q(7), q(-3)) == -2
    assert exact.quotient(q(-7), q(3)) == -3 and fault(exact.modulo, q(1), q(0)) == "ZeroDivisor"
    assert exact.gcd(q(-4), q(6)) == 2 and exact.gcd(q(0), q(0)) == 0
    assert brief_numbers.add(q(1, 3), q(1, 6)) == HALF


# ---- order ----

def test_order():
    def sign(a, b):
        return order(parse(a.encode()), parse(b.encode()))

    def ascends(*texts):
        for i, a in enumerate(texts):
            for j, b in enumerate(texts):
                assert sign(a, b) == (i > j) - (i < j), (a, b)

    ascends("-3", "2", '"A"', '"a"', "Times[]", "a", "a^2", "A", "b", "a b", "b^2")
    ascends("x", "x^2", "y")
    ascends("x", "a x", "x y")                 # from the last factor backwards
    ascends("a", "A", "ab", "b")               # lower case first, only at equal folded bytes
    ascends("f[a]", "g[a]", "f[a, a]")
    ascends("Times[2]", "a", "2 a")            # equal factor lists: the structural order decides
    # 2 x^2 + 3 x^2 and the place of a before b
    assert sign("x", "2 x") == -1 and sign("3 x", "2 x") == 1
    assert sign("x^y", "x") == 1               # an exponent that is no number: a factor of its own


# ---- cells ----

def test_cells():
    def cut(data):
        return [(c.text, c.end) for c in cells(data)]

    assert cut(b"") == [] and cut(b" \t\r\n\f\n") == []
    assert cut(b"1\n2") == [(b"1", 1), (b"2", None)]
    assert cut(b"a +\n  b\n") == [(b"a +\n  b", 7)]
    assert cut(b"1 +\n 2 (* two (* nested *) *)\n") == [(b"1 +\n 2 (* two (* nested *) *)", 29)]
    assert cut(b"(* c *)\nx\n") == [(b"(* c *)\nx", 9)]                             # begins at the comment
    assert cut(b"(* c *)\n") == [] and cut(b"(* c") == [(b"(* c", None)]
    assert cut(b"x (* c *)\n(* d *)\n") == [(b"x (* c *)", 9)]
    assert cut(b'"a\nb\\"\n" y\n') == [(b'"a\nb\\"\n" y', 10)]
    assert cut(b"(* \" *)x\ny") == [(b"(* \" *)x", 8), (b"y", None)]
    assert cut(b"(*)\n*)x\n") == [(b"(*)\n*)x", 7)]
    assert cut(b"f[\n)\n]\nx\n") == [(b"f[\n)", 4), (b"]", 6), (b"x", 8)]
    # tails
    for tail in b"* / ^ = < > , | @ ~ ? : + - && /. /; -> :> :: ~~ // || =>".split():
        assert len(cells(b"a " + tail + b"\nb")) == 1, tail
    for tail in b"++ -- & .. ; ! =. ] } ) _. # % ;. =; !- ".split():
        want = 1 if tail in (b"!-",) else 2
        assert len(cells(b"a " + tail + b"\nb")) == want, tail
    assert len(cells(b"a + +\nb")) == 2           # blanks don't count: q and p are both `+`
    assert len(cells(b"a / (* c *) .\nb")) == 1
    assert len(cells(b"a & (* c *) &\nb")) == 1
    assert len(cells(b"+\nb")) == 1 and len(cells(b"&\nb")) == 2

    assert cut(b"1" + b" " * (LIMIT - 1) + b"\n")[0][0] != TOO_LONG
    assert cut(b"  1" + b" " * LIMIT + b"\n2") == [(TOO_LONG, LIMIT + 3), (b"2", None)]


# ---- tokens ----

def test_tokens():
    def cut(text, bases=True):
        try:
            return " ".join(t.text for t in tokens(text, bases))
        except ScanFault as f:
            return "%s %d" % (f.kind, f.at)

    for text, want in [
            ("x_.5", "x_. 5"), ("x_..", "x_ .."), ("x_...", "x_ ..."), ("_.y", "_. y"), ("x__.", "BadChar 4"),
            ("x_h.5", "Real 4"), ("a_b_c", "a_b _c"), ("x____", "x___ _"), ("x_1", "x_ 1"),
            ("1.5", "Real 1"), ("1.", "Real 1"), ("1. 5", "Real 1"), ("1..5", "1 .. 5"), ("1...5", "1 ... 5"),
            ("x.5", "Real 2"), ("x..5", "x .. 5"), ("....5", "Real 4"), ("x/.5", "x /. 5"), ("x=.5", "x =. 5"),
            ("x=..", "BadChar 4"), ("x.", "BadChar 2"), ("%1.", "BadChar 3"), ("#1.5", "Real 3"),
            ("%%1", "%% 1"), ("%12", "%12"), ("###2", "## #2"), ("##a", "## a"), ("#1a", "#1 a"),
            ("#a", "BadChar 1"), ("#$", "BadChar 1"), ('#"a"', "BadChar 1"), ('#"a', "BadChar 1"),
            ("#_", "# _"), ("#.5", "Real 2"),
            ('"a\\q"', "BadEscape 3"), ('"a\\q', "OpenString 1"), ('"a\\', "OpenString 1"),
            ('"a\\"', "OpenString 1"), ('"a" "b', "OpenString 5"), ('"\n\\t"', '"\n\\t"'),
            ("(* (* *)", "OpenComment 1"), ("a (*)", "OpenComment 3"), ("a(*b*)c", "a c"),
            ("(* \" *) a", "a"), ("a *) b", "a * ) b"),
            ("é + \\", "BadChar 6"), ("a`b", "BadChar 2"), ("a~b", "BadChar 2"), ("\ufeffa", "BadChar 1"),
            ("a\u00a0b", "BadChar 2"), ("a\x0bb", "BadChar 2"), ("aé$1", "aé$1"),
            ("a=!=b", "a =!= b"), ("a=!b", "a = ! b"), ("a!==b", "a != = b"), ("a-->b", "a -- > b"),
            ("a+++b", "a ++ + b"), ("a~~~b", "BadChar 4"), ("a//.b", "a //. b"), ("a//@b", "a // @ b"),
            ("a^:=b", "a ^:= b"), ("a^:>b", "a ^ :> b"), ("a;;;", "a ;; ;"), ("!!!a", "!! ! a"),
            ("a&&&b", "a && & b"), ("a@@@@b", "a @@@ @ b"), ("a====b", "a === = b"),
            ("170141183460469231731687303715884105728", "LongNumber 1"),
            ("000170141183460469231731687303715884105727", "000170141183460469231731687303715884105727"),
            ("a #170141183460469231731687303715884105728", "LongNumber 3"),
            ("%170141183460469231731687303715884105728", "LongNumber 1"),
            ("170141183460469231731687303715884105728.", "Real 1"),

            ("16^^ff + 2^^101", "16^^ff + 2^^101"), ("37^^1", "Base 1"), ("8^^78", "Digit 5"), ("1^^0", "Base 1"),
            ("2^^", "Digit 4"), ("2^^ 1", "Digit 4"), ("2^^x", "Digit 4"), ("2^^102.", "Digit 6"),
            ("2^^101.", "Real 1"), ("2^^101..", "2^^101 .."), ("2^^" + "1" * 128, "LongNumber 1"),
            ("2^^" + "1" * 127, "2^^" + "1" * 127), ("99^^99.", "Base 1"), ("0^^", "Base 1"),
            ("2^^1é", "2^^1 é"), ("2^^1_", "2^^1 _"), ("#2^^1", "#2 ^ ^ 1"), ("x2^^1", "x2 ^ ^ 1"),
            ("2^^^1", "Digit 4"), ("2 ^^1", "2 ^ ^ 1"), ("002^^1", "002^^1")]:
        got = cut(text)
        assert got == want, (text, want, got)
    assert cut("2^^1", False) == "2 ^ ^ 1"
    assert is_name("x$1") and is_name("é") and not is_name("") and not is_name("1a") and not is_name("a_b")


# ---- trees ----

def test_parse_rows():
    check([

        ("a /: f[a] = 7", "TagSet[a, f[a], 7]"),
        ("a < b <= c", "Inequality[a, Less, b, LessEqual, c]"),
        ("x ^ ^ 2", "Refused: unexpected input at byte 5."),
        ("f[a,,b]", "Refused: unexpected input at byte 5."),
        ("g /: l", "Refused: unfinished input."),
        ("g /: l ;", "Refused: unexpected input at byte 8."),
        ("Hold[a + b*-c^2] // FullForm", "FullForm[Hold[Plus[a, Times[b, Times[-1, Power[c, 2]]]]]]"),
        ("x -> y & /@ {1}", "Map[Function[Rule[x, y]], List[1]]"),

        ("1.5", "Refused: real number at byte 1."),
        ("f[1,", "Refused: unfinished input."),
        (b"\xff", "Refused: not UTF-8."),
        ("1 + + 2", "Refused: unexpected input at byte 5."),

        ("(" * 399 + "1" + ")" * 399, "1"),
        ("(" * 400 + "1" + ")" * 400, "Refused: nested deeper than 400."),

        ("16^^ff + 2^^101", "Plus[255, 5]"),
        ("37^^1", "Refused: base at byte 1."),
        ("8^^78", "Refused: digit at byte 5."),
        ("36^^Zz", "1295"),
        # no token
        ("(* c *)", "Refused: unfinished input."), ("", "Refused: unfinished input."),
    ])


def test_parse_table():
    check([
        ("a::b", 'MessageName[a, "b"]'), ('a::"b c"', 'MessageName[a, "b c"]'),
        ("a::b::c", "Refused: unexpected input at byte 5."), ("(a)::b", "Refused: unexpected input at byte 4."),
        ("a_::b", "Refused: unexpected input at byte 3."), ("a::1", "Refused: unexpected input at byte 4."),
        ("a::", "Refused: unfinished input."), ("1::a", "Refused: unexpected input at byte 2."),
        ("x_?f[y]", "PatternTest[Pattern[x, Blank[]], f][y]"), ("a?b?c", "Refused: unexpected input at byte 4."),
        ("p?-1", "PatternTest[p, -1]"), ("p?-a?q", "PatternTest[p, Times[-1, PatternTest[a, q]]]"),
        ("x_Integer?EvenQ", "PatternTest[Pattern[x, Blank[Integer]], EvenQ]"),
        ("f[]", "f[]"), ("f[[1, 2]]", "Part[f, 1, 2]"), ("f[ [1] ]", "Part[f, 1]"),
        ("f[[]]", "Refused: unexpected input at byte 4."), ("f[[1],", "Refused: unexpected input at byte 6."),
        ("f[[1]", "Refused: unfinished input."), ("f[[", "Refused: unfinished input."),
        ("f[[1]][x]", "Part[f, 1][x]"), ("a[b[[c[1]]]]", "a[Part[b, c[1]]]"),
        ("()", "Refused: unexpected input at byte 2."), ("{}", "List[]"), ("{a,}", "Refused: unexpected input at byte 4."),
        ("{,", "Refused: unexpected input at byte 2."), ("a, b", "Refused: unexpected input at byte 2."),
        ("(a, b)", "Refused: unexpected input at byte 3."), ("(]", "Refused: unexpected input at byte 2."),
        (")", "Refused: unexpected input at byte 1."),
        ("++x++", "PreIncrement[Increment[x]]"), ("a++b", "Times[Increment[a], b]"),
        ("a+++b", "Plus[Increment[a], b]"), ("a + ++b", "Plus[a, PreIncrement[b]]"),
        ("a-->b", "Greater[Decrement[a], b]"), ("x++[1]", "Increment[x][1]"),
        ("a@b@c", "a[b[c]]"), ("f@x!", "Factorial[f[x]]"), ("f@-x^2", "f[Times[-1, Power[x, 2]]]"),
        ("a/@b@@c@@@d", "Map[a, Apply[b, MapApply[c, d]]]"),
        ("a! !", "Factorial[Factorial[a]]"), ("a!!", "Refused: unexpected input at byte 2."),
        ("!!a", "Refused: unexpected input at byte 1."), ("! !a", "Not[Not[a]]"), ("a ! b", "Times[Factorial[a], b]"),
        ("!a!", "Not[Factorial[a]]"), ("a! = b", "Set[Factorial[a], b]"), ("a!=b", "Unequal[a, b]"),
        ("a<>b<>c", "StringJoin[a, b, c]"), ("a^b^c", "Power[a, Power[b, c]]"), ("(-1)^x", "Power[-1, x]"),
        ("Times[-1, 1]^x", "Power[Times[-1, 1], x]"),
        ("-2^2", "Times[-1, Power[2, 2]]"), ("2^-1", "Power[2, -1]"), ("a^-b^c", "Power[a, Times[-1, Power[b, c]]]"),
        ("a/b/c", "Times[Times[a, Power[b, -1]], Power[c, -1]]"), ("a b/c", "Times[a, Times[b, Power[c, -1]]]"),
        ("a/b c", "Times[Times[a, Power[b, -1]], c]"), ("a*b c", "Times[a, b, c]"), ("(a b) c", "Times[Times[a, b], c]"),
        ("2(a)", "Times[2, a]"), ("a{b}", "Times[a, List[b]]"), ("a b^2", "Times[a, Power[b, 2]]"),
        ("a -b", "Plus[a, Times[-1, b]]"), ("a - b - c", "Plus[a, Times[-1, b], Times[-1, c]]"),
        ("-a + b", "Plus[Times[-1, a], b]"), ("-a*b", "Times[Times[-1, a], b]"),
        ("a == b == c", "Equal[a, b, c]"), ("a == !b == c", "Equal[a, Not[Equal[b, c]]]"),
        ("a === b === c", "SameQ[a, b, c]"), ("a === b === c =!= d", "UnsameQ[SameQ[SameQ[a, b], c], d]"),
        ("!a == b", "Not[Equal[a, b]]"), ("a && !b || c", "Or[And[a, Not[b]], c]"),
        ("a | b..", "Alternatives[a, Repeated[b]]"), ("a|b ...", "Alternatives[a, RepeatedNull[b]]"),
        ("x:1", "Pattern[x, 1]"), ("x_:1", "Optional[Pattern[x, Blank[]], 1]"), ("x:y:z", "Optional[Pattern[x, y], z]"),
        ("(x):1", "Optional[x, 1]"),
        ("a~~b~~c", "StringExpression[a, b, c]"), ("a/;b/;c", "Condition[Condition[a, b], c]"),
        ("a->b:>c", "Rule[a, RuleDelayed[b, c]]"), ("a/.b//.c", "ReplaceRepeated[ReplaceAll[a, b], c]"),
        ("a+=b-=c", "AddTo[a, SubtractFrom[b, c]]"), ("a*=b/=c", "TimesBy[a, DivideBy[b, c]]"),
        ("a& &", "Function[Function[a]]"), ("a = b & [1]", "Set[a, Function[b][1]]"), ("a + b & [1]", "Function[Plus[a, b]][1]"),
        ("x // f // g", "g[f[x]]"), ("a = x // f", "Set[a, f[x]]"), ("x // f = y", "Set[f[x], y]"),
        ("a = b := c ^= d ^:= e", "Set[a, SetDelayed[b, UpSet[c, UpSetDelayed[d, e]]]]"),
        ("a = b =.", "Set[a, Unset[b]]"), ("x =. = 3", "Set[Unset[x], 3]"), ("x=.5", "Times[Unset[x], 5]"),
        ("g /: l := r", "TagSetDelayed[g, l, r]"), ("g /: l =.", "TagUnset[g, l]"),
        ("a = g /: l = r", "Set[a, TagSet[g, l, r]]"), ("g /: (l = r)", "Refused: unfinished input."),
        ("g /: l ^= r", "Refused: unexpected input at byte 8."), ("g /: h /: l = r", "Refused: unexpected input at byte 8."),
        ("(g /: l)", "Refused: unexpected input at byte 8."), ("{g /: l, 1}", "Refused: unexpected input at byte 8."),
        ("f[g /: h[k /: l", "Refused: unfinished input."), ("a; g /: l", "Refused: unfinished input."),
        # where the `=.` is no longer what stands right of the `/:`, the list isn't viable, though it may become so
        ("g/:a=. x", "Refused: unexpected input at byte 8."), ("g/:a=. x=5", "TagSet[g, Times[Unset[a], x], 5]"),
        ("g/:a=. x=", "Refused: unfinished input."), ("g/:a=. x=5)", "Refused: unexpected input at byte 8."),
        ("a;", "CompoundExpression[a, Null]"), ("a; b;", "CompoundExpression[a, b, Null]"), ("(a;); b", "CompoundExpression[CompoundExpression[a, Null], b]"),
        ("{a;, b}", "List[CompoundExpression[a, Null], b]"), ("a; ;", "Refused: unexpected input at byte 4."),
        ("a;;", "Refused: unexpected input at byte 2."), ("a;; b", "Refused: unexpected input at byte 2."),
        ("a; !b", "CompoundExpression[a, Not[b]]"), ("a; !", "Refused: unfinished input."), ("a; +b", "Refused: unexpected input at byte 4."),
        ("a;-b", "CompoundExpression[a, Times[-1, b]]"), (";a", "Refused: unexpected input at byte 1."),
        # neg
        ("-2 3", "Times[-2, 3]"), ("a - 2 b", "Plus[a, Times[-2, b]]"), ("a - b 2", "Plus[a, Times[-1, b, 2]]"),
        ("a - 2/3", "Plus[a, Times[-2, Power[3, -1]]]"), ("a - 2/3 b", "Plus[a, Times[Times[-2, Power[3, -1]], b]]"),
        ("a - b/2", "Plus[a, Times[-1, Times[b, Power[2, -1]]]]"), ("a - b/2 c", "Plus[a, Times[-1, Times[b, Power[2, -1]], c]]"),
        ("a - (2)", "Plus[a, Times[-1, 2]]"), ("a - (2 b)", "Plus[a, Times[-1, Times[2, b]]]"),
        ("- -2", "Times[-1, -2]"), ("--2", "PreDecrement[2]"), ("-0", "0"), ("-2!", "Times[-1, Factorial[2]]"),
        # tokens as trees
        ("{_, __h, x___, x_., _.}", "List[Blank[], BlankSequence[h], Pattern[x, BlankNullSequence[]], Optional[Pattern[x, Blank[]]], Optional[Blank[]]]"),
        ("{#, ##, #0, ##12}", "List[Slot[1], SlotSequence[1], Slot[0], SlotSequence[12]]"),
        ("{%, %%, %%%, %07}", "List[Out[], Out[-2], Out[-3], Out[7]]"), ("%%2", "Times[Out[-2], 2]"),
        (r'"\"\\\n\t\r"', r'"\"\\\n\t\r"'),
    ])


def test_depth():
    def deep(inner, brackets):
        return says("(" * brackets + inner + ")" * brackets)

    assert deep("1 + 2", 398) == "Plus[1, 2]" and deep("1 + 2 + 3", 398) == "Plus[1, 2, 3]"
    assert deep("1 + 2", 399) == "Refused: nested deeper than 400."
    assert deep("a === b === c", 398) == "SameQ[a, b, c]"
    assert deep("a === b =!= c", 398) == "Refused: nested deeper than 400."
    assert deep("a === b =!= c", 397) == "UnsameQ[SameQ[a, b], c]"
    assert deep("x_.", 399) == "Optional[Pattern[x, Blank[]]]"
    assert says("(" * 131072) == "Refused: unfinished input."
    assert says("f[" * 65536) == "Refused: unfinished input."
    assert says("(" * 65535 + "1" + ")" * 65536) == "Refused: unexpected input at byte 131072."
    assert says("a=" * 60000 + "a") == "Refused: nested deeper than 400."
    assert says("1+" * 60000 + "1").startswith("Plus[1, 1, ")


# ---- printing ----

def test_printing():
    assert input_form(HALF) == "1/2" and full_form(HALF) == "Rational[1, 2]" and full_form(-HALF) == "Rational[-1, 2]"
    same_texts([

        ("Optional[Pattern[x, Blank[]]]", "x_."), ("Plus[a, Times[-1, b, c]]", "a - b*c"),
        ("Times[-1, b, c]", "-1*b*c"), ("Power[-1, x]", "(-1)^x"), ("Times[5, Power[x, 2]]", "5*x^2"),
        ("Plus[Times[-1, a], b]", "-a + b"), ("Part[List[1, 2], 3]", "{1, 2}[[3]]"), ("Power[0, -1]", "0^(-1)"),
        ("Function[x, y]", "Function[x, y]"), ("List[Rule[x, y]]", "{x -> y}"),
        # Plus
        ("Plus[a, -2]", "a - 2"), ("Plus[-2, a]", "-2 + a"), ("Plus[a, Times[-2, b]]", "a - 2*b"),
        ("Plus[a, Times[-2, 3]]", "a - 2*3"), ("Plus[a, Times[-1, 2]]", "a + -1*2"), ("Plus[a, Times[-1, 2, b]]", "a + -1*2*b"),
        ("Plus[a, Times[-1, b]]", "a - b"), ("Plus[a, Times[-1, Plus[b, c]]]", "a - (b + c)"),
        ("Plus[a, Times[-1, Times[b, c]]]", "a - (b*c)"), ("Plus[a, Times[-1, Times[-1, b]]]", "a - -b"),
        ("Plus[a, Times[-1, b, 2]]", "a - b*2"), ("Plus[a, Times[-1]]", "a + Times[-1]"), ("Plus[a, Times[-3]]", "a + Times[-3]"),
        ("Plus[a, Plus[b, c]]", "a + (b + c)"), ("Plus[Plus[a, b], c]", "(a + b) + c"), ("Plus[a]", "Plus[a]"), ("Plus[]", "Plus[]"),
        ("Plus[a, Times[b, -2]]", "a + b*-2"), ("Plus[a, Times[-1, Power[2, n], y]]", "a - 2^n*y"),
        ("Plus[Times[-2, a], Times[-1, b, c]]", "-2*a - b*c"),
        # Times and Power
        ("Times[-1, Times[-1, x]]", "-(-x)"), ("Times[-1, Power[a, b]]", "-a^b"), ("Times[-1, 2]", "-1*2"), ("Times[2, -3]", "2*-3"),
        ("Times[a, Times[-1, b]]", "a*-b"), ("Times[Times[-1, a], b]", "-a*b"), ("Times[-1]", "Times[-1]"), ("Times[-1, \"s\"]", '-"s"'),
        ("Times[a, Times[b, c]]", "a*(b*c)"), ("Power[Power[a, b], c]", "(a^b)^c"), ("Power[a, Power[b, c]]", "a^b^c"), ("Power[a, Times[-1, b]]", "a^(-b)"),
        ("Power[Factorial[a], 2]", "a!^2"), ("Factorial[Factorial[a]]", "(a!)!"), ("Not[Not[a]]", "!(!a)"), ("Not[Factorial[a]]", "!a!"),
        # operators
        ("Map[f, Map[g, x]]", "f /@ (g /@ x)"), ("MapApply[f, x]", "MapApply[f, x]"), ("Apply[f, x, List[1]]", "Apply[f, x, {1}]"),
        ("Set[a, Set[b, c]]", "a = b = c"), ("Set[Set[a, b], c]", "(a = b) = c"), ("Condition[a, Condition[b, c]]", "a /; (b /; c)"),
        ("Condition[Condition[a, b], c]", "(a /; b) /; c"), ("Rule[a, Rule[b, c]]", "a -> b -> c"), ("AddTo[a, AddTo[b, c]]", "a += b += c"),
        ("Equal[a, b, c]", "a == b == c"), ("Inequality[a, Less, b]", "Inequality[a, Less, b]"), ("Equal[a, Not[b]]", "a == (!b)"), ("And[a, Not[b]]", "a && !b"),
        ("SameQ[a]", "SameQ[a]"), ("Unset[a]", "Unset[a]"), ("TagSet[a, b, c]", "TagSet[a, b, c]"), ("Increment[a]", "Increment[a]"), ("Out[1]", "Out[1]"),
        ("Function[Function[a]]", "(a &) &"), ("Function[a][b]", "(a &)[b]"), ("CompoundExpression[a, Null]", "a;"), ("CompoundExpression[a, b, Null]", "a; b;"),
        ("CompoundExpression[Null, Null]", "Null;"), ("CompoundExpression[a, Null, b]", "a; Null; b"), ("CompoundExpression[a]", "CompoundExpression[a]"),
        ("CompoundExpression[CompoundExpression[a, Null], b]", "(a;); b"), ("f[CompoundExpression[a, Null], b]", "f[a;, b]"),
        # patterns
        ("PatternTest[Pattern[x, Blank[]], EvenQ]", "x_?EvenQ"), ("PatternTest[x, f[y]]", "x?(f[y])"), ("PatternTest[MessageName[a, \"b\"], c]", "a::b?c"),
        ("Pattern[x, BlankSequence[h]]", "x__h"), ("Pattern[x, Blank[f[y]]]", "x:Blank[f[y]]"), ("Blank[1]", "Blank[1]"), ("Blank[a, b]", "Blank[a, b]"),
        ("Optional[Pattern[x, Blank[h]]]", "Optional[x_h]"), ("Optional[Pattern[x, BlankSequence[]]]", "Optional[x__]"), ("Optional[Blank[]]", "_."),
        ("Optional[Pattern[x, Blank[]], 1]", "x_:1"), ("Optional[x, 1]", "Optional[x, 1]"), ("Optional[Pattern[x, y], 1]", "(x:y):1"), ("Pattern[x, Pattern[y, z]]", "x:(y:z)"),
        ("Pattern[1, z]", "Pattern[1, z]"), ("Repeated[a]", "a.."), ("RepeatedNull[1]", "1..."), ("Repeated[Alternatives[a, b]]", "(a | b).."), ("Repeated[a, 2]", "Repeated[a, 2]"),
        ("Repeated[Repeated[a]]", "(a..).."),
        ("Slot[0]", "#0"), ("SlotSequence[2]", "##2"), ("Slot[-1]", "Slot[-1]"), ("Slot[a]", "Slot[a]"),
        ("MessageName[a, \"b c\"]", 'MessageName[a, "b c"]'), ("MessageName[a, b]", "MessageName[a, b]"),
        # level 3: the head may have the equal level, what Part stands on may not
        ("f[x][y]", "f[x][y]"), ("Part[f, 1][x]", "f[[1]][x]"), ("Part[f[x], 1]", "(f[x])[[1]]"), ("Part[Part[f, 1], 2]", "(f[[1]])[[2]]"), ("Part[f]", "Part[f]"),
        ("(-1)[x]", "(-1)[x]"), ("5[x]", "5[x]"), ("a::b[x]", "a::b[x]"), ("x_[y]", "x_[y]"),
        (r'"\"\\\n\t\r"', r'"\"\\\n\t\r"'),
    ])
    x_ = n("Pattern", Sym("x"), n("Blank"))
    for t, text in [(n("Plus", Sym("a"), -HALF), "a - 1/2"), (n("Plus", Sym("a"), n("Times", -HALF, Sym("b"))), "a - 1/2*b"),
                    (n("Power", Sym("a"), HALF), "a^(1/2)"), (n("Times", Sym("a"), HALF), "a*1/2"), (-HALF, "-1/2"),
                    (n(HALF, Sym("x")), "(1/2)[x]")]:
        assert input_form(t) == text and parse(text.encode()) == spell(t), text
    assert not clean(n("Repeated", n("Optional", x_))) and not clean(n("f", n("RepeatedNull", n("Times", Sym("a"), n("Optional", x_)))))
    assert clean(n("Repeated", n("f", n("Optional", x_)))) and clean(n("Repeated", n("Optional", x_), num(2)))
    assert not clean(n("Repeated", n("Repeated", Sym("a"))))          # by the letter, though it is read back
    assert spell(n("f", HALF)) == parse(b"f[1/2]")


def test_boxes():
    def row(*parts):
        return n("RowBox", n("List", *[Str(p) if type(p) is str else p for p in parts]))

    for text, want in [
            ("a + b", row("a", " + ", "b")),
            ("a", Str("a")), ("-3", Str("-3")), ('"s"', Str('"s"')), ("x_.", Str("x_.")), ("#", Str("#1")), ("{}", Str("{}")),
            ("f[]", row("f", "[]")), ("f[x, y]", row("f", "[", "x", ", ", "y", "]")), ("{a, b}", row("{", "a", ", ", "b", "}")),
            ("(a + b)^(c + d)", row("(", row("a", " + ", "b"), ")^(", row("c", " + ", "d"), ")")),
            ("a - 2 b", row("a", " - ", row("2", "*", "b"))), ("a - (b + c)", row("a", " - (", row("b", " + ", "c"), ")")),
            ("a;", row("a", ";")), ("-x", row("-", "x")), ("e[[i, j]]", row("e", "[[", "i", ", ", "j", "]]")), ("a::b", row("a", "::", "b"))]:
        got = boxes(parse(text.encode()))
        assert got == want, (text, want, got)
    assert boxes(HALF) == Str("1/2")


# ---- words ----

def test_words():
    def read(line, total=True):
        got = read_words(line.split(" ") if line else [], total)
        return got if got == USAGE else tuple(got)

    std = (10_000_000, None, "input", None, None)
    assert read("") == std and read("--") == std
    assert read("F") == std[:4] + ("F",) and read("-- -x") == std[:4] + ("-x",) and read("-") == std[:4] + ("-",)
    assert read("-- --") == std[:4] + ("--",) and read("help") == std[:4] + ("help",)
    assert read("--steps 5 --form full F --total 9") == (5, 9, "full", None, "F")
    assert read("F --steps=0007") == (7, None, "input", None, "F")
    assert read("--demo 20000") == (10_000_000, None, "input", 20000, None)
    assert read("--steps 1000000000000")[0] == 10 ** 12 and read("--steps " + "0" * 40 + "1")[0] == 1
    assert read_words([""]).file == ""
    for line in ["--steps 0", "--steps 1000000000001", "--steps", "--steps=", "--steps -5", "--steps +5", "--steps 5a", "--steps \u0663",
                 "--steps --form", "--steps -- 5", "--steps 5 --steps 5", "--form Input", "--form", "--form=", "--demo 0", "--demo 20001", "--demo 1 F",
                 "--demo 1 -- F", "F G", "-- F G", "-x", "-5", "--help", "-h", "--version", "-V", "--step 5", "--steps=5=5", "---", "--=5", "--total 0"]:
        assert read(line) == USAGE, line
    assert read_words(["--demo", "1", ""]) == USAGE
    assert read("--total 5", total=False) == USAGE


# ---- the line loop, over a kernel that is no kernel ----

class Stub:
    """Gives each expression as it is, at a cost of 2 steps a node; a few heads end in other ways."""

    def __init__(self, steps):
        self.shown, self.history, self.steps_left = [], [], steps

    def refill(self, steps):
        self.shown, self.steps_left = [], steps

    def put_line(self, line_input, value):
        self.history.append((line_input, value))

    def uncaught(self, value, tag):
        self.shown.append("nocatch")
        return n("Hold", n("Throw", value, *([] if tag is None else [tag])))

    def evaluate(self, t):
        if type(t) is Node:
            if self.steps_left < 2:
                self.steps_left = 0
                return ("budget",)
            self.steps_left -= 2
            if t.head == Sym("Print"):
                self.shown.append(t.args[0].text)
                return "value", Sym("Null")
            if t.head == Sym("Throw"):
                return ("thrown", t.args[0], t.args[1] if len(t.args) > 1 else None)
            if t.head == Sym("Abort"):
                return ("aborted",)
            if t.head == Sym("CompoundExpression"):
                return self.evaluate(t.args[-1])
        return "value", t


def test_session():
    def played(text, *words):
        data = text if type(text) is bytes else text.encode()
        ran = run(list(words), data, Stub)
        return ran.out.decode(), ran.status

    assert played("") == ("", 0)
    assert played("a\n\nb") == ("Out[1]= a\nOut[2]= b\n", 0)
    assert played("a;\nNull\nb") == ("Out[3]= b\n", 0)
    assert played("1.5\na\nf[1,") == ("Refused: real number at byte 1.\nOut[1]= a\nRefused: unfinished input.\n", 1)
    assert played(b"\xff\n") == ("Refused: not UTF-8.\n", 1)
    assert played(b"1" + b" " * 131071) == ("Out[1]= 1\n", 0)
    assert played(b"1" + b" " * 131072) == ("Refused: cell longer than 131072 bytes.\n", 1)
    assert played("(" * 400 + "1" + ")" * 400) == ("Refused: nested deeper than 400.\n", 1)
    assert played('Print["a\nb"]\nPrint["c"];\nPrint["d"]; x') == ("a\nb\nc\nOut[3]= x\n", 0)
    assert played("FullForm[a+b]\nInputForm[f[1/2]]\nFullForm[InputForm[x]]\nFullForm[Null]\nFullForm[a, b]") == (
        "Out[1]//FullForm= Plus[a, b]\nOut[2]//InputForm= f[1*2^(-1)]\nOut[3]//FullForm= InputForm[x]\n"
        "Out[4]//FullForm= Null\nOut[5]= FullForm[a, b]\n", 0)
    assert played("FullForm[a+b]\na+b\n\"s\"", "--form", "full") == ("Out[1]//FullForm= Plus[a, b]\nOut[2]= Plus[a, b]\nOut[3]= \"s\"\n", 0)
    assert played("Throw[b]\nThrow[b, t]\nThrow[b];\nAbort[]\nAbort[];") == (
        "nocatch\nOut[1]= Hold[Throw[b]]\nnocatch\nOut[2]= Hold[Throw[b, t]]\nnocatch\nOut[4]= $Aborted\n", 0)
    assert played("f[x]\ng", "--steps", "1") == ("General::steps: Step budget of 1 exceeded.\nOut[1]= $Aborted\nOut[2]= g\n", 1)
    assert played("f[x];", "--steps", "1") == ("General::steps: Step budget of 1 exceeded.\n", 1)
    assert played("f[x]\nf[x]\n5\nf[x]", "--total", "3") == (
        "Out[1]= f[x]\nGeneral::total: Total step budget of 3 exceeded.\nOut[2]= $Aborted\nOut[3]= 5\n"
        "General::total: Total step budget of 3 exceeded.\nOut[4]= $Aborted\n", 1)
    # the budget and the total left are equal: the item of the budget
    assert played("f[x]", "--total", "1", "--steps", "1") == ("General::steps: Step budget of 1 exceeded.\nOut[1]= $Aborted\n", 1)
    ran = run([], b"FullForm[a];\n1.5\nb;", Stub)
    assert [input_form(i) + " | " + input_form(v) for i, v in ran.history] == ["FullForm[a]; | a", "b; | b"]
    assert ran.counts == (3, 1, 2)
    # statuses
    assert run(["--steps", "0"], b"", Stub)[:3] == (b"", "usage: wl [--steps N] [--total N] [--form input|full] [--demo N] [FILE]", 2)
    assert run(["--steps", "0"], b"", Stub, total=False).err == "usage: wl [--steps N] [--form input|full] [--demo N] [FILE]"
    assert run(["--steps", "0"], b"", Stub).session is None
    assert run(["F"], lambda name: None, Stub)[:3] == (b"", "wl: read failed", 3)
    opened = []
    run(["sums"], lambda name: opened.append(name) or b"", Stub)
    run([], lambda name: opened.append(name) or b"", Stub)
    assert opened == ["sums", None]
    # status 6: only the cells whose ending line feed is among the first bytes
    assert run([], b"a\nb\nc", Stub, limit=4)[:3] == (b"Out[1]= a\nOut[2]= b\n", "wl: input longer than 1073741824 bytes", 6)
    assert run([], b"a\nb\nc", Stub, limit=3)[:3] == (b"Out[1]= a\n", "wl: input longer than 1073741824 bytes", 6)
    assert run([], b"a\nb\nc", Stub, limit=5).status == 0
    assert demo_cells(1) == ["{57, 76} /. 57 -> 1"]
    assert demo_cells(2) == ["{35, 9} /. 35 -> 1", "Sort[{41, 22, 2}]"]
    assert run(["--demo", "20"], lambda name: 1 / 0, Stub).out.startswith(b"cells 20\nrefused ")


def test_early():
    def played(stage, text, *words):
        out, err, status, history, counts = run_early(stage, words, text.encode() if type(text) is str else text)
        return out.decode(), status

    not_yet = "Refused: not supported yet.\n"
    m = str(exact.MAX)
    assert played(1, "1 + 2\n7\n") == ("Out[1]= 3\nOut[2]= 7\n", 0)
    assert played(1, "x\n4 + 5\n") == (not_yet + "Out[1]= 9\n", 1)
    for bad in ["1 ++ 2", "1 + + 2", "1 2", "+1", "1+", m + "+1", str(exact.MAX + 1), "1\x0b", "(1)", "1" + " " * 131072]:
        assert played(1, bad) == (not_yet, 1), bad
    assert played(1, " \t\f\r\n\n  1\r\n" + "1" + " " * 131071) == ("Out[1]= 1\nOut[2]= 1\n", 0)
    assert played(1, m + " + 0") == ("Out[1]= %s\n" % m, 0) and played(1, "007") == ("Out[1]= 7\n", 0)
    assert played(1, "1", "-")[1] == 2 and played(1, "1", "a", "b")[1] == 2 and played(1, "1", "")[1] == 0
    assert played(2, "1 +\n 2 (* two (* nested *) *)\n1 ++ 2\n") == ("Out[1]= 3\n" + not_yet, 1)
    assert played(2, m + " + 1\n1 + + 2\nx\n%d\n4 + 5\n" % (exact.MAX + 1)) == (
        "General::ovfl: Overflow occurred in computation.\nOut[1]= Overflow[]\nRefused: unexpected input at byte 5.\n"
        + not_yet + "Refused: number past 127 bits at byte 1.\nOut[2]= 9\n", 1)
    assert played(2, "+ 1 +") == (not_yet, 1) and played(2, "+ 1") == ("Refused: unexpected input at byte 1.\n", 1)
    assert played(2, "1 + + x") == (not_yet, 1) and played(2, "x 1.5") == ("Refused: real number at byte 3.\n", 1)
    assert played(3, "(1)\n-0\n1 + (2 + 3)\nPlus[1, 2]\n1 // Plus\n1;\n1 - 2\n1 2\n1 +") == (
        "Out[1]= 1\nOut[2]= 0\n" + not_yet + "Out[3]= 3\nOut[4]= 1\n" + not_yet * 3 + "Refused: unfinished input.\n", 1)


def main():
    for name, test in list(globals().items()):
        if name.startswith("test_"):
            test()
            print("ok", name)


if __name__ == "__main__":
    threading.stack_size(512 * 1024 * 1024)
    done = []
    thread = threading.Thread(target=lambda: done.append(main()))
    thread.start()
    thread.join()
    sys.exit(0 if done else 1)
