"""The built-in functions that neither evaluate nor read a state, as one function on trees.

apply(name, args) gives
  None                              the expression stays
  ("gives", tree)
  ("notice", notice, tree)          a tree with a message
  ("told", notice)                  a message alone, the expression stays
A notice is (symbol, tag, [arguments]).  TooLarge is raised where a list grows past the weight limit
while it is made; other results are tested by the kernel.
"""
from fractions import Fraction
import math

from tree import Sym, Str, Node, num, is_num, is_int, depth, MAX_WEIGHT
from patterns import head_of
import exact

TRUE, FALSE = Sym("True"), Sym("False")
INDETERMINATE, INFINITE = Sym("Indeterminate"), Sym("ComplexInfinity")
LIST = Sym("List")
PLUS, TIMES, POWER = Sym("Plus"), Sym("Times"), Sym("Power")
OVERFLOW = ("notice", ("General", "ovfl", []), Node(Sym("Overflow"), ()))


class TooLarge(Exception):
    pass


def gives(t):
    return ("gives", t)


def truth(b):
    return ("gives", TRUE if b else FALSE)


def node(name, *args):
    return Node(Sym(name), args)


def is_list(t):
    return type(t) is Node and t.head == LIST


def list_of(items):
    return Node(LIST, items)


def is_node(t):
    return type(t) is Node


def canonical(items):
    import order
    return sorted(items, key=order.sort_key)


def apply(name, args):
    row = ROWS.get(name)
    if row is None:
        return None
    try:
        return row(list(args))
    except exact.Overflow:
        return OVERFLOW


# F1. Numbers

def row_plus(args):
    if not args:
        return gives(num(0))
    if len(args) == 1:
        return gives(args[0])
    if INDETERMINATE in args:
        return gives(INDETERMINATE)
    infinities = args.count(INFINITE)
    if infinities >= 2:
        return gives(INDETERMINATE)
    if infinities == 1 and all(is_num(a) or a == INFINITE for a in args):
        return gives(INFINITE)
    total = num(0)
    rests = {}                                   # rest -> coefficient, in the first one's place
    for a in args:
        if is_num(a):
            total = exact.add(total, a)
        else:
            coefficient, rest = coefficient_and_rest(a)
            rests[rest] = exact.add(rests[rest], coefficient) if rest in rests else coefficient
    left = []
    for rest, coefficient in rests.items():
        if coefficient == 0:
            continue
        if coefficient == 1:
            left.append(rest)
        elif type(rest) is Node and rest.head == TIMES:
            left.append(Node(TIMES, (coefficient,) + rest.args))
        else:
            left.append(Node(TIMES, (coefficient, rest)))
    return gives(joined(PLUS, total, num(0), left))


def coefficient_and_rest(a):
    if type(a) is Node and a.head == TIMES and len(a.args) >= 2 and is_num(a.args[0]):
        others = a.args[1:]
        return a.args[0], others[0] if len(others) == 1 else Node(TIMES, others)
    return num(1), a


def joined(head, number, neutral, left):
    """The number first unless it is neutral and something else is left; an only one by itself."""
    if number != neutral or not left:
        left = [number] + left
    return left[0] if len(left) == 1 else Node(head, left)


def row_times(args):
    if not args:
        return gives(num(1))
    if len(args) == 1:
        return gives(args[0])
    if INDETERMINATE in args:
        return gives(INDETERMINATE)
    product = num(1)
    for a in args:
        if is_num(a):
            product = exact.mul(product, a)
    if product == 0:
        return gives(INDETERMINATE if INFINITE in args else num(0))
    others = [a for a in args if not is_num(a)]
    if others and all(a == INFINITE for a in others):
        return gives(INFINITE)
    groups = {}                                  # base -> [elements, exponents]
    for a in others:
        if type(a) is Node and a.head == POWER and len(a.args) == 2:
            base, exponent = a.args
        else:
            base, exponent = a, num(1)
        group = groups.setdefault(base, ([], []))
        group[0].append(a)
        group[1].append(exponent)
    left = []
    for base, (elements, exponents) in groups.items():
        if len(elements) == 1:
            left.append(elements[0])
        else:
            left.append(Node(POWER, (base, Node(PLUS, exponents))))
    return gives(joined(TIMES, product, num(1), left))


def row_power(args):
    if len(args) != 2:
        return None
    b, e = args
    if b == num(0) and e == num(0):
        return ("notice", ("Power", "indet", [Node(POWER, args)]), INDETERMINATE)
    if e == num(0):
        return gives(num(1))
    if e == num(1):
        return gives(b)
    if b == num(1):
        return gives(num(1))
    if b == num(0) and is_int(e) and e < 0:
        return ("notice", ("Power", "infy", [Node(POWER, args)]), INFINITE)
    if is_num(b) and is_int(e):
        return gives(exact.pow_(b, int(e)))
    if is_int(e) and type(b) is Node and b.head == POWER and len(b.args) == 2:
        return gives(Node(POWER, (b.args[0], Node(TIMES, (b.args[1], e)))))
    if is_int(e) and type(b) is Node and b.head == TIMES:
        return gives(Node(TIMES, [Node(POWER, (f, e)) for f in b.args]))
    return None


def of_number(function):
    def row(args):
        if len(args) == 1 and is_num(args[0]):
            return gives(function(args[0]))
        return None
    return row


def of_integers(function):
    def row(args):
        if len(args) == 2 and is_int(args[0]) and is_int(args[1]) and args[1] != 0:
            return gives(function(args[0], args[1]))
        return None
    return row


def row_gcd(args):
    if all(is_int(a) for a in args):
        return gives(num(math.gcd(*[int(a) for a in args])))
    return None


def extreme(choose):
    def row(args):
        numbers = []
        def take(items):
            for a in items:
                if is_list(a):
                    take(a.args)
                else:
                    numbers.append(a)
        take(args)
        if numbers and all(is_num(a) for a in numbers):
            return gives(choose(numbers))
        return None
    return row


def row_factorial(args):
    if len(args) != 1 or not is_int(args[0]) or args[0] < 0:
        return None
    if args[0] >= 34:                            # 34! is above 2^127 - 1
        raise exact.Overflow()
    return gives(num(math.factorial(int(args[0]))))


def question(test):
    def row(args):
        return truth(test(args[0])) if len(args) == 1 else None
    return row


def neighbours(args):
    return zip(args, args[1:])


def apart(a, b):
    if type(a) in (Fraction, Str) and type(b) in (Fraction, Str):
        return a != b
    if is_list(a) and is_list(b):
        return (len(a.args) != len(b.args)
                or any(apart(x, y) for x, y in zip(a.args, b.args)))
    return False


def row_equal(args):
    if all(a == b for a, b in neighbours(args)):
        return truth(True)
    if any(apart(a, b) for a, b in neighbours(args)):
        return truth(False)
    return None


def row_unequal(args):
    if len(args) != 2:
        return None
    if args[0] == args[1]:
        return truth(False)
    return truth(True) if apart(*args) else None


COMPARISONS = {
    "Less": lambda a, b: a < b, "LessEqual": lambda a, b: a <= b,
    "Greater": lambda a, b: a > b, "GreaterEqual": lambda a, b: a >= b,
    "Equal": lambda a, b: a == b, "Unequal": lambda a, b: a != b,
}


def comparison(name):
    def row(args):
        if all(is_num(a) for a in args):
            return truth(all(COMPARISONS[name](a, b) for a, b in neighbours(args)))
        return None
    return row


def row_inequality(args):
    operands, signs = args[0::2], args[1::2]
    if len(args) < 3 or len(args) % 2 == 0 or not all(is_num(a) for a in operands):
        return None
    if not all(type(s) is Sym and s.name in COMPARISONS for s in signs):
        return None
    return truth(all(COMPARISONS[s.name](a, b)
                     for s, (a, b) in zip(signs, neighbours(operands))))


def row_not(args):
    if args == [TRUE]:
        return truth(False)
    return truth(True) if args == [FALSE] else None


# F2. Expressions, lists and strings

def of_one(function):
    def row(args):
        return gives(function(args[0])) if len(args) == 1 else None
    return row


def of_node(function, least=0):
    """Rows of one node with at least so many elements."""
    def row(args):
        if len(args) == 1 and is_node(args[0]) and len(args[0].args) >= least:
            return gives(function(args[0]))
        return None
    return row


def row_order(args):
    import order
    return gives(num(-order.order(*args))) if len(args) == 2 else None


def ordered(e):
    import order
    return TRUE if all(order.order(a, b) <= 0 for a, b in neighbours(e.args)) else FALSE


def row_append(args):
    if len(args) == 2 and is_node(args[0]):
        return gives(Node(args[0].head, args[0].args + (args[1],)))
    return None


def row_prepend(args):
    if len(args) == 2 and is_node(args[0]):
        return gives(Node(args[0].head, (args[1],) + args[0].args))
    return None


def row_join(args):
    if args and all(is_node(a) and a.head == args[0].head for a in args):
        return gives(Node(args[0].head, [x for a in args for x in a.args]))
    return None


def row_union(args):
    if args and all(is_list(a) for a in args):
        return gives(list_of(canonical(dict.fromkeys(x for a in args for x in a.args))))
    return None


class Missing(Exception):
    """A part that doesn't exist: its index, and the expression where it was looked for."""


def pick(e, i):
    if not is_node(e):
        raise Missing(i, e)
    n, k = len(e.args), int(i)
    if k == 0:
        return e.head
    if not 1 <= abs(k) <= n:
        raise Missing(i, e)
    return e.args[k - 1] if k > 0 else e.args[n + k]


def parts(e, indices):
    if not indices:
        return e
    i, further = indices[0], indices[1:]
    if not is_list(i):
        return parts(pick(e, i), further)
    if not is_node(e) and not i.args:
        raise Missing()                          # no single index to name
    found = [parts(pick(e, j), further) for j in i.args]
    return Node(e.head, found)


def row_part(args):
    if len(args) < 2 or not is_node(args[0]):
        return None
    for i in args[1:]:
        if not (is_int(i) or is_list(i) and all(is_int(j) for j in i.args)):
            return None
    try:
        return gives(parts(args[0], args[1:]))
    except Missing as missing:
        return ("told", ("Part", "partw", list(missing.args))) if missing.args else None


def span(args):
    """For Take and Drop: e and the places from (0-based) and to (past the end) that are meant."""
    if len(args) != 2 or not is_node(args[0]):
        return None
    e, s = args
    size = len(e.args)
    if is_int(s):
        n = int(s)
        if abs(n) > size:
            return None
        return (e, 0, n) if n >= 0 else (e, size + n, size)
    if is_list(s) and len(s.args) == 2 and all(is_int(i) and i != 0 for i in s.args):
        m, n = [int(i) if i > 0 else size + int(i) + 1 for i in s.args]
        if 1 <= m <= n <= size:
            return e, m - 1, n
    return None


def row_take(args):
    found = span(args)
    if found is None:
        return None
    e, start, end = found
    return gives(Node(e.head, e.args[start:end]))


def row_drop(args):
    found = span(args)
    if found is None:
        return None
    e, start, end = found
    return gives(Node(e.head, e.args[:start] + e.args[end:]))


def row_flatten(args):
    if not 1 <= len(args) <= 2 or not is_node(args[0]):
        return None
    levels = math.inf
    if len(args) == 2:
        if not is_int(args[1]) or args[1] < 0:
            return None
        levels = int(args[1])
    e, out = args[0], []

    def take(items, left):
        for a in items:
            if left > 0 and is_node(a) and a.head == e.head:
                take(a.args, left - 1)
            else:
                out.append(a)

    take(e.args, levels)
    return gives(Node(e.head, out))


def iterator_values(a, b, s):
    """The values of an iterator.  exact.Overflow is raised where the row says so."""
    value = a
    while value <= b if s > 0 else value >= b:
        yield value
        try:
            value = exact.add(value, s)
        except exact.Overflow:
            if is_int(value) and is_int(s):
                return
            raise


def row_range(args):
    if not 1 <= len(args) <= 3 or not all(is_num(a) for a in args):
        return None
    a, b = (num(1), args[0]) if len(args) == 1 else args[:2]
    s = args[2] if len(args) == 3 else num(1)
    if s == 0:
        return None
    values = []
    for value in iterator_values(a, b, s):
        values.append(value)
        if 5 + len(values) > MAX_WEIGHT:
            raise TooLarge()
    return gives(list_of(values))


def row_total(args):
    return gives(Node(PLUS, args[0].args)) if len(args) == 1 and is_list(args[0]) else None


def row_transpose(args):
    if len(args) != 1 or not is_list(args[0]) or not args[0].args:
        return None
    rows = args[0].args
    if not all(is_list(r) and len(r.args) == len(rows[0].args) for r in rows) or not rows[0].args:
        return None
    return gives(list_of([list_of(column) for column in zip(*[r.args for r in rows])]))


def row_partition(args):
    if len(args) != 2 or not is_node(args[0]) or not is_int(args[1]) or args[1] < 1:
        return None
    e, n = args[0], int(args[1])
    whole = len(e.args) // n
    return gives(Node(e.head, [Node(e.head, e.args[k * n:(k + 1) * n]) for k in range(whole)]))


def row_apply(args):
    if len(args) == 3 and args[2] == list_of([num(1)]):
        return row_map_apply(args[:2])
    if len(args) != 2 or not is_node(args[1]):
        return None
    return gives(Node(args[0], args[1].args))


def row_map_apply(args):
    if len(args) != 2 or not is_node(args[1]):
        return None
    f, e = args
    return gives(Node(e.head, [Node(f, a.args) if is_node(a) else a for a in e.args]))


def row_map(args):
    if len(args) != 2:
        return None
    f, e = args
    return gives(Node(e.head, [Node(f, (a,)) for a in e.args]) if is_node(e) else e)


def row_array(args):
    if len(args) != 2 or not is_int(args[1]) or args[1] < 0:
        return None
    if args[1] > MAX_WEIGHT:
        raise TooLarge()
    return gives(list_of([Node(args[0], (num(k),)) for k in range(1, int(args[1]) + 1)]))


def row_string_join(args):
    if all(type(a) is Str for a in args):
        return gives(Str("".join(a.text for a in args)))
    return None


def row_string_length(args):
    return gives(num(len(args[0].text))) if len(args) == 1 and type(args[0]) is Str else None


def row_characters(args):
    if len(args) == 1 and type(args[0]) is Str:
        return gives(list_of([Str(c) for c in args[0].text]))
    return None


def to_string(e):
    import printing
    return e if type(e) is Str else Str(printing.input_form(e))


def make_boxes(e):
    import printing
    return printing.boxes(e)


def row_evaluate(args):
    return gives(args[0] if len(args) == 1 else Node(Sym("Sequence"), args))


def release_hold(e):
    if is_node(e) and len(e.args) == 1 and e.head in (Sym("Hold"), Sym("HoldComplete"),
                                                      Sym("HoldPattern")):
        return e.args[0]
    return e


ROWS = {
    "Plus": row_plus, "Times": row_times, "Power": row_power,
    "Abs": of_number(abs), "Sign": of_number(lambda x: num((x > 0) - (x < 0))),
    "Floor": of_number(exact.floor), "Ceiling": of_number(lambda x: -exact.floor(-x)),
    "Numerator": of_number(lambda x: num(x.numerator)),
    "Denominator": of_number(lambda x: num(x.denominator)),
    "Mod": of_integers(exact.modulo), "Quotient": of_integers(exact.quotient), "GCD": row_gcd,
    "Max": extreme(max), "Min": extreme(min), "Factorial": row_factorial,
    "Rational": of_integers(lambda n, m: exact.ratio(int(n), int(m))),
    "IntegerQ": question(is_int), "NumberQ": question(is_num),
    "EvenQ": question(lambda e: is_int(e) and int(e) % 2 == 0),
    "OddQ": question(lambda e: is_int(e) and int(e) % 2 == 1),
    "AtomQ": question(lambda e: not is_node(e)), "StringQ": question(lambda e: type(e) is Str),
    "ListQ": question(is_list), "TrueQ": question(lambda e: e == TRUE),
    "Equal": row_equal, "Unequal": row_unequal, "Less": comparison("Less"),
    "LessEqual": comparison("LessEqual"), "Greater": comparison("Greater"),
    "GreaterEqual": comparison("GreaterEqual"), "Inequality": row_inequality,
    "SameQ": lambda args: truth(all(a == b for a, b in neighbours(args))),
    "UnsameQ": lambda args: truth(len(set(args)) == len(args)), "Not": row_not,
    "Head": of_one(head_of), "Length": of_one(lambda e: num(len(e.args) if is_node(e) else 0)),
    "Depth": of_one(lambda e: num(depth(e))), "Order": row_order, "OrderedQ": of_node(ordered),
    "First": of_node(lambda e: e.args[0], 1), "Last": of_node(lambda e: e.args[-1], 1),
    "Rest": of_node(lambda e: Node(e.head, e.args[1:]), 1),
    "Most": of_node(lambda e: Node(e.head, e.args[:-1]), 1),
    "Append": row_append, "Prepend": row_prepend, "Join": row_join,
    "Reverse": of_node(lambda e: Node(e.head, e.args[::-1])),
    "Sort": of_node(lambda e: Node(e.head, canonical(e.args))), "Union": row_union,
    "DeleteDuplicates": of_node(lambda e: Node(e.head, dict.fromkeys(e.args))),
    "Part": row_part, "Take": row_take, "Drop": row_drop, "Flatten": row_flatten,
    "Range": row_range, "Total": row_total, "Transpose": row_transpose, "Partition": row_partition,
    "Apply": row_apply, "MapApply": row_map_apply, "Map": row_map, "Array": row_array,
    "StringJoin": row_string_join, "StringLength": row_string_length, "Characters": row_characters,
    "ToString": of_one(to_string), "MakeBoxes": of_one(make_boxes), "Evaluate": row_evaluate,
    "ReleaseHold": of_one(release_hold), "Identity": of_one(lambda e: e),
}
