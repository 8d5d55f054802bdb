"""Exact numbers.

A number is a fractions.Fraction in range (see tree.in_range).  Every function follows its line of
it forms exactly the intermediate numbers that its comment names and raises Overflow
exactly where one of them leaves the range, even where the reduced result would fit.

The range is -(2^127 - 1) .. 2^127 - 1.  In Rust the arguments of `int`, `ratio` and `pow` are i128,
so they lie from -2^127 to 2^127 - 1; that is a condition here (ValueError).
"""
from fractions import Fraction
from math import gcd as _gcd

MAX = 2 ** 127 - 1
LOW = -2 ** 127                     # the one i128 that is no numerator


class NumFault(Exception):
    pass


class Overflow(NumFault):           # 1
    pass


class ZeroDivisor(NumFault):        # 2
    pass


def _i128(n):
    if not LOW <= n <= MAX:
        raise ValueError("not an i128")
    return n


def _formed(n):
    """One of the intermediate numbers that are named."""
    if not -MAX <= n <= MAX:
        raise Overflow()
    return n


def int_(n):
    """`Num::int`: None exactly for -2^127."""
    return None if _i128(n) == LOW else Fraction(n)


def ratio(p, q):
    """ZeroDivisor exactly where q is 0; else Overflow exactly where p or q is -2^127."""
    _i128(p)
    if _i128(q) == 0:
        raise ZeroDivisor()
    if p == LOW or q == LOW:
        raise Overflow()
    return Fraction(p, q)


def add(a, b):
    p, q, r, s = a.numerator, a.denominator, b.numerator, b.denominator
    g = _gcd(q, s)
    left = _formed(p * (s // g))
    right = _formed(r * (q // g))
    top = _formed(left + right)
    bottom = _formed(q * (s // g))
    return Fraction(top, bottom)


def mul(a, b):
    p, q, r, s = a.numerator, a.denominator, b.numerator, b.denominator
    g = _gcd(p, s)
    h = _gcd(r, q)
    top = _formed((p // g) * (r // h))
    bottom = _formed((q // h) * (s // g))
    return Fraction(top, bottom)


def pow_(a, n):
    """Needs that base and n aren't both 0."""
    _i128(n)
    if a == 0 and n == 0:
        raise ValueError("0^0 is outside pow's condition")
    if a == 0:
        if n < 0:
            raise ZeroDivisor()
        return Fraction(0)
    p, q = a.numerator, a.denominator
    if abs(p) == 1 and q == 1:
        return Fraction(1 if p == 1 or n % 2 == 0 else -1)
    # |p| or q is at least 2, so from the 127th power on the result has left the range
    if abs(n) >= 127:
        raise Overflow()
    exact = a ** n
    _formed(exact.numerator)
    _formed(exact.denominator)
    return exact


def neg(a):
    return -a


def floor(a):
    return Fraction(a.numerator // a.denominator)


def cmp(a, b):
    return (a > b) - (a < b)


def _integers(a, b):
    if a.denominator != 1 or b.denominator != 1:
        raise ValueError("needs integers")
    return a.numerator, b.numerator


def modulo(a, b):
    n, m = _integers(a, b)
    if m == 0:
        raise ZeroDivisor()
    return Fraction(n % m)          # Python rounds the quotient down, as asked


def quotient(a, b):
    n, m = _integers(a, b)
    if m == 0:
        raise ZeroDivisor()
    return Fraction(n // m)


def gcd(a, b):
    n, m = _integers(a, b)
    return Fraction(_gcd(n, m))
