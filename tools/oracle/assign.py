"""Left sides of definitions, without evaluation (wl_assign)."""
from tree import Sym, Node, is_int
from patterns import special, inner_pattern, BLANKS
from store import LIMITS


def is_wrapper(t):
    """Condition[l, c] or HoldPattern[l]."""
    return type(t) is Node and (t.head == Sym("Condition") and len(t.args) == 2
                                or t.head == Sym("HoldPattern") and len(t.args) == 1)


def core(left):
    """(core, whether HoldPattern was met on the way)."""
    held = False
    while is_wrapper(left):
        held = held or left.head == Sym("HoldPattern")
        left = left.args[0]
    return left, held


def with_core(left, new):
    """The left side with another core."""
    if not is_wrapper(left):
        return new
    return Node(left.head, (with_core(left.args[0], new),) + left.args[1:])


def target(c):
    """("own" | "down" | "sub", name) or ("raw", part)."""
    if type(c) is Sym:
        return "own", c.name
    leftmost = c
    while type(leftmost) is Node:
        leftmost = leftmost.head
    if type(leftmost) is not Sym:
        return "raw", leftmost
    return ("down" if type(c.head) is Sym else "sub"), leftmost.name


def tag_of(e):
    while special(e) in ("HoldPattern", "Condition", "PatternTest", "Pattern"):
        e = inner_pattern(e, special(e))
    if type(e) is Sym:
        return e.name
    if special(e) in BLANKS:
        return e.args[0].name if e.args and type(e.args[0]) is Sym else None
    if type(e) is Node and type(e.head) is Sym:
        return e.head.name
    return None


def tags(c):
    """The distinct tags of a core, in order."""
    if type(c) is not Node:
        return []
    return list(dict.fromkeys(t for t in map(tag_of, c.args) if t is not None))


def limit_allows(name, value):
    low, high = LIMITS[name]
    return is_int(value) and low <= value <= high


def moved_condition(left, right):
    """A right side r /; c is stored as the left side l /; c with body r."""
    if type(right) is Node and right.head == Sym("Condition") and len(right.args) == 2:
        r, c = right.args
        return Node(Sym("Condition"), (left, c)), r
    return left, right
