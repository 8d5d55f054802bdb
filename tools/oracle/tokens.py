"""Tokens, with the literals b^^digits where bases=True.

tokens(text, bases) is a list of Token(kind, text, at), or raises ScanFault(kind, at).  `text` is a str;
`at` is a byte counted from 1.

The longest token is found by trying each row of the table at the place and taking the longest.
"""
from collections import namedtuple

from xid import is_xid_continue, is_xid_start

MAX = 2 ** 127 - 1

Token = namedtuple("Token", "kind text at")


class ScanFault(Exception):
    """kind is Real, LongNumber, BadChar, BadEscape, OpenString, OpenComment, Base or Digit."""

    def __init__(self, kind, at):
        Exception.__init__(self, kind, at)
        self.kind = kind
        self.at = at


BLANKS = " \t\n\f\r"
DIGITS = "0123456789"
LETTERS = "abcdefghijklmnopqrstuvwxyz"
ALNUM = DIGITS + LETTERS + LETTERS.upper()
ESCAPES = {'"': '"', "\\": "\\", "n": "\n", "t": "\t", "r": "\r"}

SIGNS = """( ) [ ] { } , :: ? ++ -- @ /@ @@ @@@ ! !! <> ^ - / * + == != < <= > >= === =!= && || .. ... | :
~~ /; -> :> /. //. += -= *= /= & // = := ^= ^:= /: =. ; ;;""".split()
SIGN_SET = set(SIGNS)
LONGEST_SIGN = max(len(s) for s in SIGNS)


def starts_name(c):
    """XID_Start or `$`."""
    return c == "$" or is_xid_start(c)


def goes_on_name(c):
    """XID_Continue but not `_`, or `$`."""
    return c == "$" or c != "_" and is_xid_continue(c)


def is_name(text):
    """The predicate that a text is a name."""
    return text != "" and starts_name(text[0]) and all(goes_on_name(c) for c in text[1:])


# Each row of the table: the end of that token at place i, or None where it doesn't begin there.

def number_end(s, i, bases):
    j = i
    while j < len(s) and s[j] in DIGITS:
        j += 1
    if j == i:
        return None
    if bases and s.startswith("^^", j):
        j += 2
        while j < len(s) and s[j] in ALNUM:
            j += 1
    return j


def name_end(s, i):
    if i >= len(s) or not starts_name(s[i]):
        return None
    j = i + 1
    while j < len(s) and goes_on_name(s[j]):
        j += 1
    return j


def pattern_end(s, i):
    j = name_end(s, i) or i
    marks = 0
    while marks < 3 and j < len(s) and s[j] == "_":
        marks += 1
        j += 1
    if marks == 0:
        return None
    behind = name_end(s, j)
    if behind is not None:
        return behind
    if marks == 1 and s.startswith(".", j) and not s.startswith("..", j):
        return j + 1
    return j


def slot_end(s, i):
    if not s.startswith("#", i):
        return None
    j = i + (2 if s.startswith("##", i) else 1)
    while j < len(s) and s[j] in DIGITS:
        j += 1
    return j


def out_end(s, i):
    if not s.startswith("%", i):
        return None
    j = i + 1
    while j < len(s) and s[j] == "%":
        j += 1
    many = j                            # one or more `%`
    j = i + 1
    while j < len(s) and s[j] in DIGITS:
        j += 1                          # one `%` and digits
    return max(many, j)


def string_end(s, i):
    """The end of a string; OpenString where it is never closed; else BadEscape at its first bad escape.

    An open string's opening comes before any escape in it, so OpenString is the first fault.
    """
    if not s.startswith('"', i):
        return None
    j = i + 1
    bad = None
    while j < len(s) and s[j] != '"':
        if s[j] == "\\":
            if s[j + 1:j + 2] not in ESCAPES and bad is None:
                bad = j
            j += 2
        else:
            j += 1
    if j >= len(s):
        raise _At("OpenString", i)
    if bad is not None:
        raise _At("BadEscape", bad)
    return j + 1


def sign_end(s, i):
    for k in range(LONGEST_SIGN, 0, -1):
        if s[i:i + k] in SIGN_SET and i + k <= len(s):
            return i + k
    return None


class _At(Exception):
    """A fault at a character; turned into a ScanFault with its byte."""


def comment_end(s, i):
    nesting, j = 1, i + 2
    while nesting:
        if s.startswith("(*", j):
            nesting += 1
            j += 2
        elif s.startswith("*)", j):
            nesting -= 1
            j += 2
        elif j < len(s):
            j += 1
        else:
            raise _At("OpenComment", i)
    return j


def digit_value(c):
    return DIGITS.index(c) if c in DIGITS else 10 + LETTERS.index(c.lower())


def number_value(text):
    """The value of a number token without faults."""
    if "^^" in text:
        base, digits = text.split("^^")
        return value_in(decimal(base), digits)
    return decimal(text)


def value_in(base, digits):
    """The value, or a number past the range where it is so great."""
    digits = digits.lstrip("0") or "0"
    if len(digits) > 127:               # at least base^127, so at least 2^127
        return MAX + 1
    return int(digits, base)


def decimal(digits):
    return value_in(10, digits)


def check_number(s, i, j):
    """Faults of the literal s[i:j], in the order Base, Digit, Real, LongNumber."""
    text = s[i:j]
    if "^^" in text:
        base, digits = text.split("^^")
        b = decimal(base)
        if not 2 <= b <= 36:
            raise _At("Base", i)
        first_digit = j - len(digits)
        for k, c in enumerate(digits):
            if digit_value(c) >= b:
                raise _At("Digit", first_digit + k)
        if digits == "":
            raise _At("Digit", j)
    if s.startswith(".", j) and not s.startswith("..", j):
        raise _At("Real", i)
    if number_value(text) > MAX:
        raise _At("LongNumber", i)


def check_digits_behind(s, i, j, mark):
    """LongNumber of a slot or out."""
    digits = s[i:j].lstrip(mark)
    if digits and decimal(digits) > MAX:
        raise _At("LongNumber", i)


def tokens(s, bases=False):
    try:
        return list(_tokens(s, bases))
    except _At as fault:
        kind, i = fault.args
        raise ScanFault(kind, len(s[:i].encode()) + 1) from None


def _tokens(s, bases):
    i, n = 0, len(s)
    byte = 1                            # the byte of character i
    while i < n:
        if s[i] in BLANKS:
            i, byte = i + 1, byte + 1
            continue
        if s.startswith("(*", i):
            j = comment_end(s, i)
            byte += len(s[i:j].encode())
            i = j
            continue
        # Real, the second case: a `.` followed by a digit where a token is looked for
        if s[i] == "." and s[i + 1:i + 2] != "" and s[i + 1] in DIGITS:
            raise _At("Real", i)
        ends = [("Number", number_end(s, i, bases)), ("Name", name_end(s, i)),
                ("Pattern", pattern_end(s, i)), ("Slot", slot_end(s, i)), ("Out", out_end(s, i)),
                ("Text", string_end(s, i)), ("Sign", sign_end(s, i))]
        ends = [(j, kind) for kind, j in ends if j is not None]
        if not ends:
            raise _At("BadChar", i)
        j, kind = max(ends)             # no two rows give the same longest token
        if kind == "Number":
            check_number(s, i, j)
        elif kind == "Out":
            check_digits_behind(s, i, j, "%")
        elif kind == "Slot":
            check_digits_behind(s, i, j, "#")
            if s[i:j] == "#" and j < n and (starts_name(s[j]) or s[j] == '"'):
                raise _At("BadChar", i)
        text = s[i:j]
        yield Token(kind, text, byte)
        byte += len(text.encode())
        i = j


def string_value(token_text):
    """The characters of a string token."""
    out, inner, k = [], token_text[1:-1], 0
    while k < len(inner):
        if inner[k] == "\\":
            out.append(ESCAPES[inner[k + 1]])
            k += 2
        else:
            out.append(inner[k])
            k += 1
    return "".join(out)
