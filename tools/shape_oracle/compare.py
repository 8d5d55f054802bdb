"""Compares what wl_shape makes of nodes and bodies with what an independent writing says, on random trees.

    python3 tools/shape_oracle/compare.py [COUNT [SEED]]

A quarter each of the calls are `arrange` (heads, elements and attributes at random, nested sequences, lists of equal and other
lengths), `fill` (the candidates of random patterns), `replace` and `rename` (scopes within scopes, parameters that capture, equal
names). Nothing here is changed: `rt try` runs a program (driver.rt.txt) in a copy, unproved.
"""
import collections
import itertools
import pathlib
import random
import sys
from fractions import Fraction

sys.dont_write_bytecode = True
HERE = pathlib.Path(__file__).resolve().parent
sys.path.insert(0, str(HERE.parent))
sys.path.insert(0, str(HERE.parent / "match_oracle"))
sys.path.insert(0, str(HERE.parent / "oracle"))
import clone
import compare as patterns_of
import evaluate
import filling
import patterns
import tree

MOST_LEAVES = 20
NAMES = ["x", "y", "x$", "y$", "z"]
ATTRIBUTES = ["Flat", "Orderless", "Listable", "SequenceHold", "HoldAllComplete"]
FLAGS = {name: frozenset(held) for name, held in patterns_of.FLAGS.items()}


def words(t):
    return patterns_of.words(tree, t)


def listed(*args):
    return tree.Node(tree.Sym("List"), args)


class Draw:
    """Random bodies, and nodes to arrange."""

    def __init__(self, seed):
        self.random = random.Random(seed)
        self.pairs = patterns_of.Draw(tree, seed)

    def name(self):
        return tree.Sym(self.random.choice(NAMES))

    def atom(self):
        if self.random.random() < 0.8:
            return self.name()
        return self.random.choice([Fraction(2), Fraction(-1, 2), tree.Str("s"), tree.Sym("f")])

    def body(self, depth):
        if depth == 0 or self.random.random() < 0.2:
            return self.atom()
        if self.random.random() < 0.55:
            return self.scope(depth)
        head = self.random.choice(["f", "Plus", "List", "Table", "Block"])
        args = [self.body(depth - 1) for _ in range(self.random.randint(0, 3))]
        if self.random.random() < 0.1:
            return tree.Node(self.body(depth - 1), args)
        return tree.Node(tree.Sym(head), args)

    def scope(self, depth):
        kind = self.random.choice(["Function", "Function", "Module", "With"])
        first = self.parameters(kind, depth)
        args = [first, self.body(depth - 1)]
        if self.random.random() < 0.05:
            args = args[:1] if self.random.random() < 0.5 else args + [self.name()]
        return tree.Node(tree.Sym(kind), args)

    def parameters(self, kind, depth):
        if self.random.random() < 0.07:
            return self.body(depth - 1)
        if kind == "Function":
            return self.name() if self.random.random() < 0.5 else listed(*[self.name() for _ in range(self.random.randint(0, 3))])
        return listed(*[self.local(kind, depth) for _ in range(self.random.randint(0, 3))])

    def local(self, kind, depth):
        if kind == "Module" and self.random.random() < 0.5:
            return self.name()
        return tree.Node(tree.Sym("Set"), [self.name(), self.body(depth - 1)])

    def element(self, depth, head):
        pick = self.random.random()
        if depth == 0 or pick < 0.35:
            return self.atom()
        args = [self.element(depth - 1, head) for _ in range(self.random.randint(0, 3))]
        if pick < 0.6:
            return listed(*args)
        return tree.Node(self.random.choice([tree.Sym("Sequence"), head, tree.Sym("g")]), args)

    def arranged(self):
        head = self.random.choice([tree.Sym("f"), tree.Sym("Plus"), tree.Sym("List"), tree.Node(tree.Sym("f"), [tree.Sym("a")])])
        attributes = [a for a in ATTRIBUTES if self.random.random() < (0.5 if a in ATTRIBUTES[:3] else 0.15)]
        args = [self.element(3, head) for _ in range(self.random.randint(0, 5))]
        first = tree.Node(head, args)
        try:
            kind, made = evaluate.Kernel(1000).arrange(first, first.args, frozenset(attributes))
            want = kind + " " + words(made)
        except evaluate.Aborted:
            want = "large"
        return "|".join(["arrange", words(head), " ".join(attributes)] + [words(a) for a in args]), want

    def filled(self):
        while True:
            p, s = self.pairs.pair()
            leaves = list(itertools.islice(patterns.trials(p, s, FLAGS), MOST_LEAVES + 1))
            found = [leaf[0] for leaf in leaves if leaf != patterns.FAIL]
            if len(leaves) <= MOST_LEAVES and found:
                break
        body = self.body(4)
        want = "".join(made(filling.fill(body, binding)) + "; " for binding in found)
        return "|".join(["fill", words(body), words(p), words(s)]), want

    def replaced(self):
        body = self.body(4)
        count = self.random.randint(0, 3)
        names = [self.name() for _ in range(count)]
        values = [self.body(2) for _ in range(count)]
        want = made(filling.replace(body, [x.name for x in names], values))
        return "|".join(["replace", words(body)] + [words(t) for t in names + values]), want

    def renamed(self):
        body = self.body(4)
        names = [self.name() for _ in range(self.random.randint(0, 3))]
        n = self.random.choice([1, 7, 12345, 2**64 - 1])
        want = made(filling.rename(body, [x.name for x in names], n))
        return "|".join(["rename", words(body), str(n)] + [words(x) for x in names]), want


def made(t):
    return words(t) if tree.fits(t) else "large"


def main():
    count = int(sys.argv[1]) if len(sys.argv) > 1 else 1000
    seed = int(sys.argv[2]) if len(sys.argv) > 2 else 1
    draw = Draw(seed)
    calls = [[draw.arranged, draw.filled, draw.replaced, draw.renamed][k % 4]() for k in range(count)]
    libraries = "wl_shape wl_match wl_rules wl_expr wl_exact wl_ports anyhow"
    got = clone.answers((HERE / "driver.rt.txt").read_text(), libraries, [line for line, _ in calls])
    wrong = [(line, want, answer) for (line, want), answer in zip(calls, got) if want != answer]
    for line, want, answer in wrong[:20]:
        print("%r: oracle %r, wl_shape %r" % (line, want, answer))
    kinds = collections.Counter(line.split("|")[0] + (" " + want.split()[0] if line.startswith("arrange") else "") for line, want in calls)
    body_changed = sum(1 for line, want in calls if not line.startswith("arrange") and want.rstrip("; ") != line.split("|")[1])
    renamed = sum(1 for line, want in calls if "$$" in want)
    print("%d calls: %s; bodies changed: %d, with a name that was marked twice: %d" % (count, dict(kinds), body_changed, renamed))
    print("differences: %d" % len(wrong))
    sys.exit(1 if wrong else 0)


if __name__ == "__main__":
    main()
