"""Compares wl_algebra with the oracle's built-in functions on random calls.

    python3 tools/algebra_oracle/compare.py [COUNT [SEED]]

Each call has a name of the table, or another, and random elements, numbers at the ends of the range and elements out of shape among
them. A copy of the repository gets a program that prints each answer; `rt try` runs it, unproved. It ends with status 1 where a call
differs, or where a name gave nothing.
"""
import pathlib
import random
import sys
from fractions import Fraction

sys.dont_write_bytecode = True
sys.path.insert(0, str(pathlib.Path(__file__).resolve().parent.parent))
import calls

NAMES = """Plus Times Power Abs Sign Floor Ceiling Numerator Denominator Mod Quotient GCD Max Min Factorial Rational IntegerQ EvenQ OddQ
NumberQ AtomQ StringQ ListQ TrueQ Equal Unequal Less LessEqual Greater GreaterEqual Inequality SameQ UnsameQ Not""".split()
ONE = NAMES[3:9] + ["Factorial", "Not"] + [name for name in NAMES if name.endswith("Q")][:8]
SIGNS = ["Less", "LessEqual", "Greater", "GreaterEqual", "Equal", "Unequal"]
ENDS = [2**127 - 1, -(2**127 - 1), 2**126, 2**64, 3**40, 33, 34, 35, 126, 127]


class Draw:
    """Random calls."""

    def __init__(self, tree, seed):
        self.tree = tree
        self.random = random.Random(seed)

    def number(self):
        pick = self.random.random()
        if pick < 0.6:
            return Fraction(self.random.randint(-4, 6))
        if pick < 0.85:
            return Fraction(self.random.randint(-9, 9), self.random.randint(1, 6))
        if pick < 0.95:
            return Fraction(self.random.choice(ENDS))
        return Fraction(self.random.choice([1, -1, 3]), self.random.choice(ENDS[2:5]))

    def atom(self):
        pick = self.random.random()
        if pick < 0.45:
            return self.number()
        if pick < 0.55:
            return self.tree.Str(self.random.choice(["s", "t"]))
        special = ["ComplexInfinity", "Indeterminate", "True", "False"]
        return self.tree.Sym(self.random.choice(special if pick < 0.65 else ["a", "b", "x"]))

    def element(self, depth):
        if depth == 0 or self.random.random() < 0.6:
            return self.atom()
        head = self.random.choice(["Times", "Times", "Power", "Plus", "List", "f"])
        size = 2 if head == "Power" and self.random.random() < 0.9 else self.random.randint(0, 3)
        return self.tree.Node(self.tree.Sym(head), tuple(self.element(depth - 1) for _ in range(size)))

    def call(self):
        name = self.random.choice(NAMES) if self.random.random() < 0.97 else self.random.choice(["Sort", "foo", "plus"])
        size = self.random.choice([0, 1, 1, 2, 2, 2, 3, 4, 6])
        if name in ("Mod", "Quotient", "Power", "Rational", "Unequal") and self.random.random() < 0.9:
            size = 2
        if name in ONE and self.random.random() < 0.8:
            size = 1
        if name == "Not" and self.random.random() < 0.5:
            return name, [self.tree.Sym(self.random.choice(["True", "False"]))]
        only_numbers = self.random.random() < 0.5
        args = [self.number() if only_numbers else self.element(2) for _ in range(size)]
        if args and self.random.random() < 0.3:
            args.append(args[self.random.randrange(len(args))])
        if name == "Inequality":
            args = [self.tree.Sym(self.random.choice(SIGNS)) if k % 2 and self.random.random() < 0.95 else arg for k, arg in enumerate(args)]
        return name, args


def main():
    count = int(sys.argv[1]) if len(sys.argv) > 1 else 10_000
    seed = int(sys.argv[2]) if len(sys.argv) > 2 else 7
    _, tree = calls.load()
    draw = Draw(tree, seed)
    drawn = [draw.call() for _ in range(count)]
    sys.exit(calls.compare("wl_algebra", "wl_expr wl_exact wl_ports anyhow", NAMES, drawn))


main()
