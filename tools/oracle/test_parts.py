"""Tests of the parts: a few cases, and the trials of a match against a second writing
as plain lists joined end to end, on random patterns and subjects; the same for string patterns."""
import random
import sys

from tree import Sym, Str, Node, num
from fractions import Fraction
import patterns
from patterns import FAIL, trials, special, lengths, stretchable, head_of, default_of, optional_name
import string_patterns
from store import Store
from evaluate import Kernel
import assign
import syntax


def parse(text):
    return syntax.parse(text.encode())


# patterns once more, by recursion: leaves(p, run, b, tests) is the list of leaves.

def leaves(p, run, b, tests, flags):
    kind = special(p)
    if kind in ("Blank", "BlankSequence", "BlankNullSequence"):
        least = {"Blank": 1, "BlankSequence": 1, "BlankNullSequence": 0}[kind]
        good = len(run) >= least and not (kind == "Blank" and len(run) > 1)
        good = good and all(not p.args or head_of(e) == p.args[0] for e in run)
        return [(b, tests)] if good else [FAIL]
    if kind == "Pattern":
        return then(leaves(p.args[1], run, b, tests, flags),
                    lambda b, t: bound(p.args[0].name, run, b, t))
    if kind in ("PatternTest", "Condition"):
        test = ("applies", p.args[1], run) if kind == "PatternTest" else ("holds", p.args[1])
        return then(leaves(p.args[0], run, b, tests, flags), lambda b, t: [(b, t + (test,))])
    if kind in ("HoldPattern", "Optional"):
        return leaves(p.args[0], run, b, tests, flags)
    if kind == "Alternatives":
        out = [leaf for q in p.args for leaf in leaves(q, run, b, tests, flags)]
        return out if p.args else [FAIL]
    if kind in ("Repeated", "RepeatedNull"):
        if kind == "Repeated" and not run:
            return [FAIL]
        out = [(b, tests)]
        for e in run:
            out = then(out, lambda b, t, e=e: leaves(p.args[0], (e,), b, t, flags))
        return out
    if kind == "Verbatim":
        return [(b, tests)] if run == (p.args[0],) else [FAIL]
    if kind == "Except":
        if len(run) != 1:
            return [FAIL]
        q = p.args[1] if len(p.args) == 2 else Node(Sym("Blank"), ())
        test = ("refuses", p.args[0], run)
        return then(leaves(q, run, b, tests, flags), lambda b, t: [(b, t + (test,))])
    if type(p) is Node and len(run) == 1:
        t, h = run[0], p.head
        own = flags.get(h.name, ()) if type(h) is Sym else ()
        if ("OneIdentity" in own and any(special(q) == "Optional" for q in p.args)
                and head_of(t) != h):
            return elements(p, 0, (t,), b, tests, flags, own)
        if type(t) is not Node:
            return [FAIL]
        return then(leaves(h, (t.head,), b, tests, flags),
                    lambda b, u: elements(p, 0, t.args, b, u, flags, own))
    return [(b, tests)] if run == (p,) else [FAIL]


def then(listed, go_on):
    out = []
    for leaf in listed:
        out += [FAIL] if leaf is FAIL else go_on(*leaf)
    return out


def bound(name, run, b, tests):
    if name in b and b[name] != run:
        return [FAIL]
    return [({**b, name: run}, tests)]


def need_most(p, h, own):
    need, most = lengths(p)
    return need, float("inf") if "Flat" in own and stretchable(p, h) else most


def elements(p, j, left, b, tests, flags, own):
    if j == len(p.args):
        return [FAIL] if left else [(b, tests)]
    q, h = p.args[j], p.head
    rest = [need_most(r, h, own) for r in p.args[j + 1:]]
    rest_need, rest_most = sum(n for n, _ in rest), sum(m for _, m in rest)
    need, most = need_most(q, h, own)
    if special(q) == "Optional":
        need = lengths(q.args[0])[0]
    out, n = [], len(left)
    for k in range(n + 1):
        if not (max(need, n - rest_most) <= k <= min(most, n - rest_need)):
            continue
        picks = sorted(pick_all(n, k)) if "Orderless" in own else [tuple(range(k))]
        for places in picks:
            run = tuple(left[i] for i in places)
            others = tuple(left[i] for i in range(n) if i not in places)
            if k >= 2 and "Flat" in own and stretchable(q, h):
                run = (Node(h, run),)
            out += then(leaves(q, run, b, tests, flags),
                        lambda b, t, o=others: elements(p, j + 1, o, b, t, flags, own))
    if special(q) == "Optional":
        d = default_of(q, h, j + 1)
        if d is not None:
            name = optional_name(q.args[0])
            start = [(b, tests)] if name is None else bound(name, (d,), b, tests)
            out += then(start, lambda b, t: elements(p, j + 1, left, b, t, flags, own))
    return out or [FAIL]


def pick_all(n, k):
    if k == 0:
        return [()]
    return [(i,) + tuple(i + 1 + x for x in rest)
            for i in range(n) for rest in pick_all(n - i - 1, k - 1)]


# Random patterns and subjects

ATOMS = [Sym("a"), Sym("b"), num(1), Str("s")]


def some(rng, *items):
    return items[rng.randrange(len(items))]


def random_tree(rng, deep):
    if deep == 0 or rng.random() < 0.3:
        return some(rng, *ATOMS)
    return Node(Sym(some(rng, "f", "g", "Plus")),
                [random_tree(rng, deep - 1) for _ in range(rng.randrange(4))])


def random_pattern(rng, deep):
    S, r = Sym, rng.random()
    if deep == 0 or r < 0.3:
        head = [] if rng.random() < 0.7 else [S(some(rng, "f", "Plus", "Symbol", "Integer"))]
        blank = Node(S(some(rng, "Blank", "Blank", "BlankSequence", "BlankNullSequence")), head)
        if rng.random() < 0.3:
            return some(rng, *ATOMS)
        return Node(S("Pattern"), (S(some(rng, "x", "y")), blank)) if rng.random() < 0.7 else blank
    q = random_pattern(rng, deep - 1)
    if r < 0.6:
        return Node(S(some(rng, "f", "g", "Plus", "Power")),
                    [random_pattern(rng, deep - 1) for _ in range(rng.randrange(4))])
    if r < 0.7:
        return Node(S("Optional"), (q,) if rng.random() < 0.4 else (q, num(7)))
    name = some(rng, "PatternTest", "Condition", "HoldPattern", "Alternatives", "Repeated",
                "RepeatedNull", "Verbatim", "Except", "Pattern", "Except2")
    if name in ("PatternTest", "Condition"):
        return Node(S(name), (q, S("t")))
    if name == "Alternatives":
        return Node(S(name), [random_pattern(rng, deep - 1) for _ in range(rng.randrange(3))])
    if name == "Pattern":
        return Node(S(name), (S(some(rng, "x", "y")), q))
    if name == "Except2":
        return Node(S("Except"), (random_pattern(rng, deep - 1), q))
    return Node(S(name), (q,))


def pattern_for(rng, t, deep):
    """A pattern that has a chance to match t."""
    r = rng.random()
    if r < 0.3 or deep == 0:
        return t if rng.random() < 0.3 else random_pattern(rng, 0)
    if r < 0.7 and type(t) is Node:
        inner = [pattern_for(rng, a, deep - 1) for a in t.args]
        if inner and rng.random() < 0.5:
            del inner[rng.randrange(len(inner))]
        if rng.random() < 0.5:
            inner.insert(rng.randrange(len(inner) + 1), random_pattern(rng, 1))
        return Node(t.head if rng.random() < 0.9 else Node(Sym("Blank"), ()), inner)
    q = pattern_for(rng, t, deep - 1)
    name = some(rng, "PatternTest", "Condition", "HoldPattern", "Alternatives", "Repeated",
                "RepeatedNull", "Except", "Pattern", "Optional", "Except2")
    if name in ("PatternTest", "Condition"):
        return Node(Sym(name), (q, Sym("t")))
    if name == "Alternatives":
        return Node(Sym(name), (random_pattern(rng, 1), q, pattern_for(rng, t, deep - 1)))
    if name == "Pattern":
        return Node(Sym(name), (Sym(some(rng, "x", "y", "z")), q))
    if name == "Except2":
        return Node(Sym("Except"), (random_pattern(rng, 1), q))
    return Node(Sym(name), (q,))


def random_flags(rng):
    return {name: frozenset(a for a in ("Flat", "Orderless", "OneIdentity") if rng.random() < 0.4)
            for name in ("f", "g", "Plus", "Power")}


def compare_trials(count):
    rng = random.Random(1)
    listed = 0
    for _ in range(count):
        t, flags = random_tree(rng, 3), random_flags(rng)
        p = pattern_for(rng, t, 3) if rng.random() < 0.8 else random_pattern(rng, 3)
        got, expected = [], None
        for leaf in trials(p, t, flags):
            got.append(leaf)
            if len(got) > 3000:
                break
        if len(got) > 3000:
            continue
        expected = leaves(p, (t,), {}, (), flags)
        assert got == expected, (p, t, flags, got[:5], expected[:5])
        listed += len(got)
    print("trials: %d random matches, %d leaves agree" % (count, listed))


# string patterns once more

def string_leaves(q, s, i, b):
    P = string_patterns
    if P.atom_ends(q, s, i) is not None:
        return [(e, b) for e in P.atom_ends(q, s, i)] or [FAIL]
    kind = P.form(q)

    def after(listed, go_on):
        out = []
        for leaf in listed:
            out += [FAIL] if leaf is FAIL else go_on(*leaf)
        return out

    if kind == "Pattern":
        def bind(e, b):
            name = q.args[0].name
            if dict(b).get(name, s[i:e]) != s[i:e]:
                return [FAIL]
            return [(e, b if name in dict(b) else b + [(name, s[i:e])])]
        return after(string_leaves(q.args[1], s, i, b), bind)
    if kind == "StringExpression":
        out = [(i, b)]
        for a in q.args:
            out = after(out, lambda e, b, a=a: string_leaves(a, s, e, b))
        return out
    if kind == "Alternatives":
        return [leaf for a in q.args for leaf in string_leaves(a, s, i, b)] or [FAIL]
    inner = q.args[0]
    if kind == "Repeated":
        null = Node(Sym("RepeatedNull"), (inner,))
        return after(string_leaves(inner, s, i, b), lambda e, b: string_leaves(null, s, e, b))
    return after(string_leaves(inner, s, i, b),
                 lambda e, b: [FAIL] if e == i else string_leaves(q, s, e, b)) + [(i, b)]


def random_string_pattern(rng, deep):
    S = Sym
    if deep == 0 or rng.random() < 0.3:
        return some(rng, Str("a"), Str(""), Str("ab"), string_patterns.BLANK, string_patterns.BLANKS,
                    string_patterns.NULLS, S("DigitCharacter"), S("LetterCharacter"))
    name = some(rng, "Pattern", "StringExpression", "Alternatives", "Repeated", "RepeatedNull")
    q = random_string_pattern(rng, deep - 1)
    if name == "Pattern":
        return Node(S(name), (S(some(rng, "x", "y")), q))
    if name.startswith("Repeated"):
        return Node(S(name), (q,))
    return Node(S(name), [random_string_pattern(rng, deep - 1) for _ in range(rng.randrange(4))])


def compare_strings(count):
    rng = random.Random(2)
    listed = 0
    for _ in range(count):
        q = random_string_pattern(rng, 3)
        s = "".join(some(rng, "a", "b", "1") for _ in range(rng.randrange(5)))
        got = []
        for leaf in string_patterns.leaves(q, s, 0):
            got.append(leaf)
            if len(got) > 2000:
                break
        if len(got) > 2000:
            continue
        expected = string_leaves(q, s, 0, [])
        assert got == expected, (q, s, got, expected)
        listed += len(got)
    print("string leaves: %d random patterns, %d leaves agree" % (count, listed))


# Rows

def rows():
    k = Kernel(1000)

    def arrange(text, *attributes):
        t = parse(text)
        return k.arrange(t, t.args, frozenset(attributes))
    assert arrange("Plus[b, Plus[a, 2], Sequence[1]]", "Flat", "Orderless") == (
        "node", parse("Plus[1, 2, a, b]"))
    assert arrange("f[{1, 2}, x]", "Listable") == ("threaded", parse("{f[1, x], f[2, x]}"))
    assert arrange("f[{1}, {1, 2}]", "Listable")[0] == "uneven"

    t = parse("q[a, a, a, a, a, a, a, a, a, a]")
    found = list(trials(parse("q[x___, y___, z___, b]"), t, {}))
    assert found == [FAIL] * 55
    found = list(trials(parse("q[x__, y__]"), parse("q[a, b, c]"), {}))
    assert [b["x"] for b, _ in found] == [(Sym("a"),), (Sym("a"), Sym("b"))]

    store = Store()
    for body, left in enumerate(["f[x_]", "f[0]", "f[x_Integer]", "f[y_]", "f[x_]"], 1):
        store.put_rule("f", "down", parse(left), num(body))
    assert store.rules("f", "down") == tuple(
        (parse(l), num(b)) for l, b in [("f[0]", 2), ("f[x_Integer]", 3), ("f[x_]", 5), ("f[y_]", 4)])
    assert store.drawn == 5 and store.version("f") == 5
    saved = store.swap_entry("f")
    store.restore_entry("f", saved)
    assert store.version("f") == 7 and len(store.rules("f", "down")) == 4

    for _ in range(4):
        k.issue("Part", "partw", [num(3), parse("{1, 2}")])
    assert k.shown == ["Part::partw: Part 3 of {1, 2} does not exist."] * 3 + [
        "General::stop: Further output of Part::partw will be suppressed during this calculation."]
    assert assign.tags(parse("f[a, g[x], _h, a]")) == ["a", "g", "h"]
    print("cases: ok")


def records():
    """The record of an evaluation, and settled expressions."""
    k = Kernel(1000)

    def of(text):
        end = k.evaluate(parse(text))
        return end, k.record
    end, r = of("{1, 2}")
    assert (list(r.names), r.effect, r.steps, r.depth, r.turns) == (["List"], False, 2, 2, 1)
    end, r = of("f[a]")
    assert (sorted(r.names), r.effect, r.steps, r.depth, r.turns) == (["a", "f"], False, 3, 2, 1)
    end, r = of("Quiet[1/0]")
    assert r.effect and {"Power", "General", "Quiet", "Times", "ComplexInfinity"} <= set(r.names)
    of("x = 5")
    assert not k.settled(parse("{x}")) and k.settled(parse("{y}")) and k.settled(parse("f[Hold[x]]"))
    _, _, r = k.turn_record(parse("{y}"))
    assert (sorted(r.names), r.steps, r.depth, r.turns) == (["List", "y"], 3, 2, 1)
    _, _, r = k.turn_record(parse("{f[1], f[2], f[3]}"))
    assert (sorted(r.names), r.steps, r.depth, r.turns) == (["List", "f"], 8, 3, 1)
    assert k.settled(parse("f[Unevaluated[y]]"))
    _, _, r = k.turn_record(parse("f[Unevaluated[y]]"))
    assert sorted(r.names) == ["Unevaluated", "f", "y"]
    of("f[_Symbol] := 5")
    assert not k.settled(parse("f[Unevaluated[y]]"))
    print("records: ok")


# Expand against values at random places

def value_at(t, place):
    if type(t) is Fraction:
        return t
    if type(t) is Sym:
        return place[t.name]
    values = [value_at(a, place) for a in t.args]
    if t.head == Sym("Plus"):
        return sum(values, Fraction(0))
    if t.head == Sym("Times"):
        product = Fraction(1)
        for v in values:
            product *= v
        return product
    assert t.head == Sym("Power")
    return values[0] ** int(values[1])


def random_polynomial(rng, deep):
    if deep == 0 or rng.random() < 0.3:
        return some(rng, "x", "y", "z", "%d" % rng.randrange(-3, 4), "1/%d" % rng.randrange(1, 4))
    form = some(rng, "(%s + %s)", "(%s - %s)", "(%s*%s)", "(%s)^" + str(rng.randrange(1, 4)))
    return form % tuple(random_polynomial(rng, deep - 1) for _ in range(form.count("%s")))


def expands(count):
    import polynomials
    rng, steps = random.Random(4), [0]

    def tick():
        steps[0] += 1
    for _ in range(count):
        t = parse(random_polynomial(rng, 4))
        k = Kernel(10 ** 6)
        value = k.evaluate(t)[1]
        if "Overflow" in repr(value) or "ComplexInfinity" in repr(value):
            continue
        try:
            found = polynomials.apply("Expand", [value], tick)
            collected = polynomials.apply("Collect", [value, Sym("x")], tick)
        except polynomials.exact.Overflow:
            continue
        place = {n: Fraction(rng.randrange(-9, 10), rng.randrange(1, 5)) for n in "xyz"}
        assert value_at(found, place) == value_at(collected, place) == value_at(t, place), t
        assert k.evaluate(found)[1] == found, (t, found)       # Normal is a fixed point here
    print("Expand and Collect: %d random polynomials, %d pairs" % (count, steps[0]))


if __name__ == "__main__":
    rows()
    expands(1500)
    records()
    compare_trials(int(sys.argv[1]) if len(sys.argv) > 1 else 20000)
    compare_strings(int(sys.argv[1]) if len(sys.argv) > 1 else 20000)
