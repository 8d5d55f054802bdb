"""Loops and branches.  A row is row(k, args, form): the result, or None where it stays."""
from tree import Sym, Node, is_num, is_int, num, weight, MAX_WEIGHT
from builtins_pure import iterator_values, is_list, list_of
from store import LIMITS
import assign
import exact

TRUE, FALSE, NULL = Sym("True"), Sym("False"), Sym("Null")


def row_if(k, args, form):
    if not 2 <= len(args) <= 4:
        return None
    if args[0] == TRUE:
        return args[1]
    if args[0] == FALSE:
        return args[2] if len(args) >= 3 else NULL
    return args[3] if len(args) == 4 else None


def row_which(k, args, form):
    if not args or len(args) % 2:
        return None
    for c, v in zip(args[0::2], args[1::2]):
        value = k.eval(c)
        if value == TRUE:
            return v
        if value != FALSE:
            return None
    return NULL


def junction(stop, skip):
    def row(k, args, form):
        left = []
        for a in args:
            value = k.eval(a)
            if value == stop:
                return stop
            if value != skip:
                left.append(value)
        if not left:
            return skip
        return left[0] if len(left) == 1 else Node(form.head, left)
    return row


def row_compound(k, args, form):
    if not args:
        return None
    for a in args[:-1]:
        k.eval(a)
    return args[-1]


def row_while(k, args, form):
    from evaluate import Broke, Continued
    if not 1 <= len(args) <= 2:
        return None
    while True:
        k.step()
        try:
            if k.eval(args[0]) != TRUE:
                return NULL
            if len(args) == 2:
                k.eval(args[1])
        except Continued:
            pass
        except Broke:
            return NULL


def row_for(k, args, form):
    from evaluate import Broke, Continued
    if not 3 <= len(args) <= 4:
        return None
    s, c, i = args[:3]
    k.eval(s)
    while True:
        k.step()
        try:
            if k.eval(c) != TRUE:
                return NULL
            if len(args) == 4:
                k.eval(args[3])
        except Continued:
            pass
        except Broke:
            return NULL
        try:
            k.eval(i)
        except Continued:
            pass
        except Broke:
            return NULL


class Stop(Exception):
    """A Do that was left by Break."""


def iterate(k, it, run_pass):
    """Runs the passes of an iterator: "unchanged", "overflow" or "done"."""
    if not is_list(it) or not 1 <= len(it.args) <= 4:
        return "unchanged"
    name = None
    bounds = it.args
    if len(it.args) > 1:
        if type(it.args[0]) is not Sym:
            return "unchanged"
        name = it.args[0].name
        if "Protected" in k.attributes(name):
            return "unchanged"
        bounds = it.args[1:]
    numbers = [k.eval(b) for b in bounds]
    if not all(is_num(v) for v in numbers):
        return "unchanged"
    a, b = (num(1), numbers[0]) if len(numbers) == 1 else numbers[:2]
    s = numbers[2] if len(numbers) == 3 else num(1)
    if s == 0:
        return "unchanged"
    values = iterator_values(a, b, s)
    saved = None
    try:
        while True:
            try:
                value = next(values, None)
            except exact.Overflow:
                return "overflow"
            if value is None:
                return "done"
            k.step()
            if name is not None:
                saved = let(k, name, value, saved)
            run_pass()
    finally:
        if saved is not None:
            k.give_entry(name, saved)


def let(k, name, value, saved):
    """Sets the iterator's name; gives what was taken out, None where nothing was so far."""
    if "Protected" in k.attributes(name):
        k.issue("Set", "wrsym", [Sym(name)])
        return saved
    if name in LIMITS and not assign.limit_allows(name, value):
        k.issue(name, "limset", [Sym(name), value])
        return saved
    if saved is None:
        saved = k.take_entry(name)
    k.set_own(name, value)
    return saved


def overflow(k):
    k.issue("General", "ovfl", [])
    return Node(Sym("Overflow"), ())


def inner_body(form):
    """The body of each pass over the first iterator."""
    body, further = form.args[0], form.args[2:]
    return Node(form.head, (body,) + further) if further else body


class Collected:
    """The values of Table, NestList and FoldList, whose weights are tested after each pass."""

    def __init__(self, values=()):
        self.values = list(values)
        self.total = sum(weight(v) for v in self.values)

    def add(self, k, value):
        self.values.append(value)
        self.total += weight(value)
        if self.total > MAX_WEIGHT:
            k.large()


def row_table(k, args, form):
    if len(args) < 2:
        return None
    body = inner_body(form)
    found = Collected()
    end = iterate(k, args[1], lambda: found.add(k, k.eval_built(body)))
    if end == "unchanged":
        return None
    return overflow(k) if end == "overflow" else list_of(found.values)


def row_do(k, args, form):
    from evaluate import Broke, Continued
    if len(args) < 2:
        return None
    body = inner_body(form)

    def run_pass():
        try:
            k.eval_built(body)
        except Continued:
            pass
        except Broke:
            raise Stop()

    try:
        end = iterate(k, args[1], run_pass)
    except Stop:
        return NULL
    if end == "unchanged":
        return None
    return overflow(k) if end == "overflow" else NULL


def row_select(k, args, form):
    if len(args) != 2 or type(args[0]) is not Node:
        return None
    left = []
    for x in args[0].args:
        k.step()
        if k.eval_built(Node(args[1], (x,))) == TRUE:
            left.append(x)
    return Node(args[0].head, left)


def row_scan(k, args, form):
    if len(args) != 2 or type(args[1]) is not Node:
        return None
    for x in args[1].args:
        k.step()
        k.eval_built(Node(args[0], (x,)))
    return NULL


def row_fold(k, args, form):
    if len(args) != 3 or type(args[2]) is not Node:
        return None
    value = args[1]
    for x in args[2].args:
        k.step()
        value = k.eval_built(Node(args[0], (value, x)))
    return value


def row_fold_list(k, args, form):
    if len(args) != 3 or type(args[2]) is not Node:
        return None
    found = Collected([args[1]])
    for x in args[2].args:
        k.step()
        found.add(k, k.eval_built(Node(args[0], (found.values[-1], x))))
    return list_of(found.values)


def is_count(n):
    return is_int(n) and n >= 0


def row_nest(k, args, form):
    if len(args) != 3 or not is_count(args[2]):
        return None
    value, done = args[1], 0
    while done < args[2]:
        k.step()
        value = k.eval_built(Node(args[0], (value,)))
        done += 1
    return value


def row_nest_list(k, args, form):
    if len(args) != 3 or not is_count(args[2]):
        return None
    found = Collected([args[1]])
    while len(found.values) <= args[2]:
        k.step()
        found.add(k, k.eval_built(Node(args[0], (found.values[-1],))))
    return list_of(found.values)


def row_fixed_point(k, args, form):
    if len(args) != 2:
        return None
    value = args[1]
    while True:
        k.step()
        after = k.eval_built(Node(args[0], (value,)))
        if after == value:
            return value
        value = after


def row_switch(k, args, form):
    if len(args) < 3 or len(args) % 2 == 0:
        return None
    for p, v in zip(args[1::2], args[2::2]):
        if k.match(k.eval(p), args[0]) is not None:
            return v
    return None


ROWS = {
    "If": row_if, "Which": row_which, "And": junction(FALSE, TRUE), "Or": junction(TRUE, FALSE),
    "CompoundExpression": row_compound, "While": row_while, "For": row_for, "Do": row_do,
    "Table": row_table, "Select": row_select, "Scan": row_scan, "Fold": row_fold,
    "FoldList": row_fold_list, "Nest": row_nest, "NestList": row_nest_list,
    "FixedPoint": row_fixed_point, "Switch": row_switch,
}
