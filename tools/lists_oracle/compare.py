"""Compares wl_lists with the oracle's built-in functions on random calls.

    python3 tools/lists_oracle/compare.py [COUNT [SEED]]

Each call has a name of the table, or another, and random elements, most of the kind that the name looks for: numbers at the ends
of the range, indices without a part, long texts, deep lists and elements out of shape are among them. The calls of `at_limits`,
whose results are as large as an expression may be, or larger, come besides. A copy of the repository gets a program that prints
each answer; `rt try` runs it, unproved. It ends with status 1 where a call differs, or where a name gave nothing.
"""
import pathlib
import random
import sys
from fractions import Fraction

sys.dont_write_bytecode = True
sys.path.insert(0, str(pathlib.Path(__file__).resolve().parent.parent))
import calls

NAMES = """Head Length Depth Order OrderedQ First Last Rest Most Append Prepend Join Reverse Sort Union DeleteDuplicates Part Take Drop
Flatten Range Total Transpose Partition Apply MapApply Map Array StringJoin StringLength Characters ToString MakeBoxes Evaluate
ReleaseHold Identity""".split()
OF_TWO = "Order Append Prepend Take Drop Partition MapApply Map Array".split()
OF_TEXTS = "StringJoin StringLength Characters".split()
OF_MANY = "Join Union Evaluate".split()
OTHER_NAMES = ["Plus", "foo", "head", "Parts"]
HEADS = ["List", "List", "List", "f", "f", "Plus", "Times", "Power", "Hold", "Rule"]
MOST = 2**127 - 1
ENDS = [MOST, -MOST, 2**126, 2**64, -(2**63)]
TEXTS = ["", "s", "tä", "😀", 'a"b', "x\\y", "_"]


class Draw:
    """Random calls."""

    def __init__(self, tree, seed):
        self.tree = tree
        self.random = random.Random(seed)

    def happens(self, chance):
        return self.random.random() < chance

    def node(self, head, args):
        return self.tree.Node(self.tree.Sym(head), tuple(args))

    def number(self):
        pick = self.random.random()
        if pick < 0.7:
            return Fraction(self.random.randint(-4, 6))
        if pick < 0.92:
            return Fraction(self.random.randint(-9, 9), self.random.randint(1, 6))
        return Fraction(self.random.choice(ENDS))

    def text(self):
        return self.tree.Str("".join(self.random.choice(TEXTS) for _ in range(self.random.randint(0, 3))))

    def atom(self):
        pick = self.random.random()
        if pick < 0.4:
            return self.number()
        if pick < 0.55:
            return self.text()
        return self.tree.Sym(self.random.choice(["a", "b", "x", "A", "List", "f"]))

    def element(self, depth):
        if depth == 0 or self.happens(0.45):
            return self.atom()
        return self.compound(depth)

    def compound(self, depth):
        args = [self.element(depth - 1) for _ in range(self.random.randint(0, 4))]
        if args and self.happens(0.4):
            args.append(self.random.choice(args))
        if self.happens(0.08):
            return self.tree.Node(self.element(depth - 1), tuple(args))
        return self.node(self.random.choice(HEADS), args)

    def index(self, size):
        """Mostly of a part that is there."""
        far = size + 2 if self.happens(0.15) else size
        if self.happens(0.02):
            return self.number()
        return Fraction(self.random.randint(-far, far))

    def indices(self, e, most):
        """Of a walk into e, lists among them."""
        chosen = []
        while len(chosen) < most:
            args = e.args if type(e) is self.tree.Node else ()
            if self.happens(0.4):
                several = [self.index(len(args)) for _ in range(self.random.choice([0, 1, 2, 2, 3, 5]))]
                if several and self.happens(0.3):
                    several += several
                chosen.append(self.node("List", several))
            else:
                chosen.append(self.index(len(args)))
            e = self.random.choice(args) if args else e
        return chosen

    def part(self):
        e = self.compound(4) if self.happens(0.6) else self.grid()
        chosen = self.indices(e, self.random.choice([0, 1, 1, 1, 2, 2, 3]))
        if chosen and self.happens(0.05):
            chosen[self.random.randrange(len(chosen))] = self.element(1)
        return [self.element(1) if self.happens(0.05) else e] + chosen

    def grid(self):
        """A list of lists of one length, mostly."""
        width = self.random.randint(0, 4)
        rows = [self.node("List", [self.element(2) for _ in range(width)]) for _ in range(self.random.randint(0, 4))]
        if rows and self.happens(0.2):
            rows[self.random.randrange(len(rows))] = self.element(2)
        return self.node("List" if self.happens(0.9) else "f", rows)

    def segment(self):
        e = self.compound(3)
        size = len(e.args)
        if self.happens(0.5):
            return [e, self.index(size)]
        return [e, self.node("List", [self.index(size) for _ in range(2 if self.happens(0.9) else 3)])]

    def span(self):
        """Bounds and a step of few values, at the ends of the range too."""
        by = self.random.choice([Fraction(1), Fraction(2), Fraction(-1), Fraction(1, 2), Fraction(-2, 3), Fraction(3, 7), Fraction(0)])
        start = Fraction(self.random.randint(-9, 9), self.random.choice([1, 1, 2, 3]))
        if self.happens(0.15):
            start = Fraction(self.random.choice([MOST - 3, 3 - MOST, Fraction(MOST, 2), Fraction(1, MOST)]))
        end = start + by * self.random.randint(-2, 12) + self.random.choice([Fraction(0), Fraction(1, 3)])
        if not self.tree.in_range(end):
            end = Fraction(MOST if end > 0 else -MOST)
        kind = self.random.random()
        if kind < 0.25:
            return [Fraction(self.random.randint(-3, 30), self.random.choice([1, 1, 2]))]
        if kind < 0.45 and abs(end - start) < 100:
            return [start, end]
        return [start, end, by]

    def like(self, name):
        """Elements of the kind that the name looks for."""
        if name == "Part":
            return self.part()
        if name in ("Take", "Drop"):
            return self.segment()
        if name == "Range":
            return self.span()
        if name == "Transpose":
            return [self.grid()]
        if name == "Flatten":
            return [self.compound(4)] + ([Fraction(self.random.randint(-1, 3))] if self.happens(0.5) else [])
        if name == "Partition":
            return [self.compound(3), Fraction(self.random.choice([-1, 0, 1, 2, 2, 3, MOST]))]
        if name == "Array":
            return [self.element(1), Fraction(self.random.choice([-1, 0, 1, 2, 3, 7]))]
        if name == "Apply":
            level = self.node("List", [Fraction(1)]) if self.happens(0.8) else self.element(1)
            return [self.element(1), self.compound(3)] + ([level] if self.happens(0.5) else [])
        if name in OF_TEXTS:
            return [self.text() for _ in range(self.random.randint(0, 4) if name == "StringJoin" else 1)]
        if name in OF_MANY:
            head = self.random.choice(["List", "List", "f"])
            return [self.node(head, self.compound(3).args) for _ in range(self.random.randint(0, 4))]
        if name in OF_TWO:
            return [self.element(2), self.compound(3)][:: self.random.choice([1, -1])]
        if name == "ReleaseHold":
            return [self.node(self.random.choice(["Hold", "HoldComplete", "HoldPattern", "g"]), self.compound(2).args[:2])]
        return [self.compound(3)]

    def long(self):
        """A heavy element, or a deep one."""
        if self.happens(0.5):
            return self.tree.Str("s" * self.random.choice([1_300_000, 1_999_990, 2_000_000, 3_999_985, 3_999_995, 3_999_999]))
        e = self.compound(1)
        for _ in range(self.random.choice([500, 990, 994])):
            e = self.node("List", [e])
        return e

    def large(self, args):
        """The elements with heavy or deep ones among them, or in them."""
        args = list(args) or [self.atom()]
        at = self.random.randrange(len(args))
        old = args[at]
        if type(old) is self.tree.Node and old.args and self.happens(0.6):
            inner = list(old.args)
            inner[self.random.randrange(len(inner))] = self.long()
            args[at] = self.tree.Node(old.head, tuple(inner))
        elif type(old) is not Fraction:
            args[at] = self.long()
        return args

    def call(self):
        name = self.random.choice(NAMES) if self.happens(0.98) else self.random.choice(OTHER_NAMES)
        args = self.like(name)
        if self.happens(0.08):
            args = [self.element(2) for _ in range(self.random.randint(0, 4))]
        if name != "Characters" and self.happens(0.02):
            larger = self.large(args)
            args = larger if all(self.tree.fits(arg) for arg in larger) else args
        return name, args


def at_limits(tree):
    """Results that are as large as an expression may be, or larger. The last ones say their answer, which the oracle is too slow for."""

    def text(n):
        return tree.Str("s" * n)

    def listed(*args):
        return tree.Node(tree.Sym("List"), args)

    def deep(n):
        e = tree.Sym("a")
        for _ in range(n - 1):
            e = listed(e)
        return e

    def whole(n):
        return Fraction(n)

    ones = listed(*[whole(1)] * 2_000)
    both = [listed(whole(1), whole(-1))]
    yield from [
        ("Array", [tree.Sym("f"), whole(4_000_001)]),
        ("Array", [tree.Sym("f"), whole(MOST)]),
        ("StringJoin", [text(2_000_000), text(1_999_999)]),
        ("StringJoin", [text(2_000_000), text(2_000_000)]),
        ("MakeBoxes", [text(3_999_997)]),
        ("MakeBoxes", [text(3_999_998)]),
        ("Append", [listed(text(1_999_990)), text(2_000_003)]),
        ("Append", [listed(text(1_999_990)), text(2_000_004)]),
        ("Prepend", [listed(), deep(999)]),
        ("Prepend", [listed(), deep(1_000)]),
        ("Map", [tree.Sym("f"), listed(deep(998))]),
        ("Map", [tree.Sym("f"), listed(deep(999))]),
        ("Apply", [deep(1_000), listed()]),
        ("Apply", [deep(999), listed()]),
        ("Evaluate", [text(2_000_000), text(2_000_000)]),
        ("Part", [listed(text(1_333_330)), listed(*[whole(1)] * 3)]),
        ("Part", [listed(text(1_333_331)), listed(*[whole(1)] * 3)]),
        ("Part", [listed(text(1_333_331)), listed(*[whole(1)] * 3 + [whole(2)])]),
        ("Part", [deep(6), ones, ones, ones, whole(2)]),
        ("Part", [deep(400)] + both * 398 + [whole(7)]),
        ("Part", [deep(1_000)] + [whole(-1)] * 999),
        ("Part", [deep(1_000)] + [whole(-1)] * 1_000),
        ("Part", [deep(6), ones, ones, ones], "large"),
        ("Part", [deep(400)] + both * 398, "large"),
        ("Range", [whole(1), whole(MOST), Fraction(1, 2**90)], "large"),
    ]


def main():
    count = int(sys.argv[1]) if len(sys.argv) > 1 else 10_000
    seed = int(sys.argv[2]) if len(sys.argv) > 2 else 7
    sys.setrecursionlimit(20_000)
    _, tree = calls.load()
    draw = Draw(tree, seed)
    drawn = [draw.call() for _ in range(count)] + list(at_limits(tree))
    sys.exit(calls.compare("wl_lists", "wl_form wl_expr wl_exact wl_ports anyhow", NAMES, drawn))


main()
