"""Sessions of the oracle, written as rows that the definition of wl_semantics computes."""
import pathlib
import sys
from fractions import Fraction

sys.dont_write_bytecode = True
ROOT = pathlib.Path(__file__).resolve().parent.parent.parent
sys.path.insert(0, str(ROOT / "tools" / "oracle"))
from evaluate import Kernel  # noqa: E402
from syntax import parse  # noqa: E402
from tree import Str, Sym  # noqa: E402

ABORTED = Sym("$Aborted")


# ---- trees

def quoted(text):
    return '"%s"' % text.replace("\\", "\\\\").replace('"', '\\"').replace("\n", "\\n").replace("\t", "\\t")


def listed(texts):
    return "".join("%s ∷ " % text for text in texts) + "[]"


def integer(n):
    return "pos %d" % n if n >= 0 else "negsuc %d" % (-n - 1)


def written(t):
    """A tree as a term of the definition."""
    if type(t) is Fraction:
        if t.denominator > 1:
            return "num (record { num = %s; den = %d })" % (integer(t.numerator), t.denominator)
        return "natural %d" % t.numerator if t >= 0 else "whole (%s)" % integer(t.numerator)
    if type(t) is Str:
        return "string %s" % quoted(t.text)
    if type(t) is Sym:
        return "name %s" % quoted(t.name)
    parts = trees(t.args)
    if type(t.head) is Sym:
        return "call %s %s" % (quoted(t.head.name), parts)
    return "applied (%s) %s" % (written(t.head), parts)


def trees(ts):
    return "(%s)" % listed(written(t) for t in ts) if ts else "[]"


# ---- sessions

class Gave:
    """What the oracle gives for a cell: its value, the items, and what was done."""

    def __init__(self, value, items, steps, record):
        self.value, self.items, self.steps = value, items, steps
        self.names, self.effect = list(record.names), record.effect
        self.depth, self.turns = record.depth, record.turns


def run(cells, steps):
    """The expressions of the cells, and what each gives, where each cell has so many steps."""
    kernel, inputs, gave = Kernel(steps), [], []
    for cell in cells:
        tree = parse(cell.encode())
        kernel.refill(steps)
        end = kernel.evaluate(tree)
        record = kernel.record
        done = record.names.copy(), record.effect
        value = end[1] if end[0] == "value" else kernel.uncaught(end[1], end[2]) if end[0] == "thrown" else ABORTED
        record.names, record.effect = done
        gave.append(Gave(value, list(kernel.shown), steps - kernel.steps_left, record))
        inputs.append(tree)
        kernel.put_line(tree, value)
    return inputs, gave


# ---- rows

def outcome(gave, with_items):
    items = "(%s)" % listed("codes %s" % quoted(i) for i in gave.items) if gave.items else "[]"
    if not with_items:
        items = str(len(gave.items))
    names = "words (codes %s)" % quoted(" ".join(gave.names)) if gave.names else "[]"
    return "record { value = %s; items = %s; steps = %d; names = %s; effect = %s; depth = %d; turns = %d }" % (
        written(gave.value), items, gave.steps, names, str(gave.effect).lower(), gave.depth, gave.turns)


def equation(cells, steps=1000, with_items=True):
    """That the definition gives for these cells what the oracle does; without the items their number is compared."""
    inputs, gave = run(cells, steps)
    gives = "cells %d %s" % (steps, trees(inputs))
    if not with_items:
        gives = "briefs (%s)" % gives
    return "%s\n    ≡ %s[]" % (gives, "".join("%s\n    ∷ " % outcome(g, with_items) for g in gave))
