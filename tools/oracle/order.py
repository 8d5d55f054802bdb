"""The canonical order: order(a, b) is -1, 0 or 1.

"keys" are the class (number, string, rest) with the value, the text or the factor
list; "structural" is the structural order, which decides ties of the keys.
"""
import sys
from fractions import Fraction

from tree import Node, Str, Sym, is_num

sys.setrecursionlimit(max(sys.getrecursionlimit(), 100_000))

TIMES = Sym("Times")
POWER = Sym("Power")
ONE = Fraction(1)


def three(a, b):
    return (a > b) - (a < b)


def order(a, b):
    """Numbers first, by value; then strings, by bytes; then the rest by factor lists and structure."""
    ca, cb = key_class(a), key_class(b)
    if ca != cb:
        return three(ca, cb)
    if ca == 0:
        return three(a, b)
    if ca == 1:
        return three(a.text.encode(), b.text.encode())
    return order_of_factors(factors(a), factors(b)) or structural(a, b)


def key_class(t):
    return 0 if is_num(t) else 1 if type(t) is Str else 2


def factors(t):
    """The factor list of t: pairs of base and number."""
    parts = [t]
    if type(t) is Node and t.head == TIMES:
        parts = [e for e in t.args if not is_num(e)]
    return [pair(f) for f in parts]


def pair(f):
    if type(f) is Node and f.head == POWER and len(f.args) == 2 and is_num(f.args[1]):
        return (f.args[0], f.args[1])
    return (f, ONE)


def order_of_factors(fa, fb):
    """From the last pair backwards, by base, then by exponent; a list that ends first comes first."""
    for (ba, ea), (bb, eb) in zip(reversed(fa), reversed(fb)):
        c = structural(ba, bb) or three(ea, eb)
        if c:
            return c
    return three(len(fa), len(fb))


def structural(a, b):
    """Numbers, strings, names, nodes."""
    ca, cb = structural_class(a), structural_class(b)
    if ca != cb:
        return three(ca, cb)
    if ca == 0:
        return three(a, b)
    if ca == 1:
        return three(a.text.encode(), b.text.encode())
    if ca == 2:
        return order_of_names(a.name, b.name)
    if a is b:
        return 0
    c = three(len(a.args), len(b.args)) or structural(a.head, b.head)
    if c:
        return c
    for x, y in zip(a.args, b.args):
        c = structural(x, y)
        if c:
            return c
    return 0


def structural_class(t):
    return 0 if is_num(t) else 1 if type(t) is Str else 2 if type(t) is Sym else 3


def order_of_names(x, y):
    """By bytes with A to Z taken as a to z; where these are equal, by bytes in descending order."""
    bx, by = x.encode(), y.encode()
    return three(bx.lower(), by.lower()) or three(by, bx)


def sort_key(t):
    """A key for list.sort, which is stable."""
    return _key(t)


import functools

_key = functools.cmp_to_key(order)
