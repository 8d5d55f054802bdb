"""Cells, on the whole bytes.

cells(data) is a list of Cell(text, start, end):
  text   the bytes of the cell, or TOO_LONG;
  start  the place of its first byte, from 0;
  end    the place of the line feed that ends it, from 0, or None for a last cell without one.
"""
import re
from collections import namedtuple

LIMIT = 131_072
TOO_LONG = "TooLong"

Cell = namedtuple("Cell", "text start end")

BLANKS = b" \t\n\f\r"
NON_BLANK = re.compile(rb"[^ \t\n\f\r]")
LAST_CONTINUES = b"*/^=<>,|@~?:"


def cells(data):
    found = []
    place = 0
    while True:
        # a cell begins at the first non-blank byte after the end of the cell before
        first = NON_BLANK.search(data, place)
        if first is None:
            return found
        start = first.start()
        end, is_cell = cell_end(data, start)
        if is_cell:
            stop = len(data) if end is None else end
            text = data[start:stop] if stop - start <= LIMIT else TOO_LONG
            found.append(Cell(text, start, end))
        if end is None:
            return found
        place = end + 1


def cell_end(data, start):
    """(place of the ending line feed, True), or (None, whether the rest is a cell)."""
    depth = 0           # of brackets, in code
    nesting = 0         # of comments; 0 is outside
    in_string = False
    q = p = None        # the last significant byte and the one before it
    i, n = start, len(data)
    while i < n:
        b = data[i:i + 1]
        two = data[i:i + 2]
        if nesting:
            if two == b"(*":
                nesting += 1
                i += 2
            elif two == b"*)":
                nesting -= 1
                i += 2
            else:
                i += 1
            continue
        if not in_string and two == b"(*":
            nesting = 1
            i += 2
            continue
        # code or string: a non-blank byte here is significant
        if in_string:
            taken = data[i:i + 2] if b == b"\\" else b      # `\` takes the next byte with it
            for c in taken:
                if c not in BLANKS:
                    p, q = q, c
            if b == b'"':
                in_string = False
            i += len(taken)
            continue
        if b == b"\n" and depth == 0 and q is not None and not continuing(p, q):
            return i, True
        if b not in (b" ", b"\t", b"\n", b"\f", b"\r"):
            p, q = q, b[0]
        if b == b'"':
            in_string = True
        elif b in (b"(", b"[", b"{"):
            depth += 1
        elif b in (b")", b"]", b"}"):
            depth = max(0, depth - 1)
        i += 1
    return None, q is not None or nesting > 0


def continuing(p, q):
    """p and q are byte values; p is None where the cell has one significant byte alone."""
    q = bytes([q])
    p = b"" if p is None else bytes([p])
    return (q in tuple(bytes([c]) for c in LAST_CONTINUES)
            or q in (b"+", b"-") and p != q
            or q == b"&" and p == b"&"
            or q in (b".", b";") and p == b"/")
