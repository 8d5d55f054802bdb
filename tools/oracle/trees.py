"""Syntax trees: their shape, their edges, their depth and the expressions that they stand for.

A syntax tree is one of
  Atom(tok)                   a number, name, pattern, slot, out or string token
  Paren(kid), Lst(kids)       ( e ), { e, e }
  Call(head, kids), Part(head, kids)
  Prefix(op, kid), Postfix(op, kid), Infix(op, left, right)
The sign of a juxtaposition is JUXT.  Chains are infix nodes nested to the left, as read; what counts as
one chain is told by `chain(t)`.
"""
from collections import namedtuple
from fractions import Fraction

from tree import Node, Str, Sym
from tokens import is_name, number_value, string_value

Atom = namedtuple("Atom", "tok")
Paren = namedtuple("Paren", "kid")
Lst = namedtuple("Lst", "kids")
Call = namedtuple("Call", "head kids")
Part = namedtuple("Part", "head kids")
Prefix = namedtuple("Prefix", "op kid")
Postfix = namedtuple("Postfix", "op kid")
Infix = namedtuple("Infix", "op left right")

JUXT = "juxtaposition"

# op: (level, kind, full form)
INFIX = {
    "::": (1, "none", "MessageName"),
    "?": (2, "none", "PatternTest"),
    "@": (5, "right", None),
    "/@": (6, "right", "Map"), "@@": (6, "right", "Apply"), "@@@": (6, "right", "MapApply"),
    "<>": (8, "chain", "StringJoin"),
    "^": (9, "right", "Power"),
    "/": (11, "left", None),
    "*": (12, "chain", "Times"), JUXT: (12, "chain", "Times"),
    "+": (13, "chain", "Plus"), "-": (13, "chain", "Plus"),
    "==": (14, "chain", "Equal"), "!=": (14, "chain", "Unequal"), "<": (14, "chain", "Less"),
    "<=": (14, "chain", "LessEqual"), ">": (14, "chain", "Greater"), ">=": (14, "chain", "GreaterEqual"),
    "===": (15, "chain", "SameQ"), "=!=": (15, "chain", "UnsameQ"),
    "&&": (17, "chain", "And"),
    "||": (18, "chain", "Or"),
    "|": (20, "chain", "Alternatives"),
    ":": (21, "left", None),
    "~~": (22, "chain", "StringExpression"),
    "/;": (23, "left", "Condition"),
    "->": (24, "right", "Rule"), ":>": (24, "right", "RuleDelayed"),
    "/.": (25, "left", "ReplaceAll"), "//.": (25, "left", "ReplaceRepeated"),
    "+=": (26, "right", "AddTo"), "-=": (26, "right", "SubtractFrom"),
    "*=": (26, "right", "TimesBy"), "/=": (26, "right", "DivideBy"),
    "//": (28, "left", None),
    "=": (29, "right", "Set"), ":=": (29, "right", "SetDelayed"), "^=": (29, "right", "UpSet"),
    "^:=": (29, "right", "UpSetDelayed"), "/:": (29, "right", None),
    ";": (30, "chain", "CompoundExpression"),
}
PREFIX = {"++": (4, "PreIncrement"), "--": (4, "PreDecrement"), "-": (10, None), "!": (16, "Not")}
POSTFIX = {
    "++": (4, "right", "Increment"), "--": (4, "right", "Decrement"),
    "!": (7, None, "Factorial"),
    "..": (19, None, "Repeated"), "...": (19, None, "RepeatedNull"),
    "&": (27, None, "Function"),
    "=.": (29, "right", "Unset"),
    ";": (30, "chain", "CompoundExpression"),
}
ATOM_KINDS = {"Number", "Name", "Pattern", "Slot", "Out", "Text"}


def is_atom(t, *kinds):
    return type(t) is Atom and (not kinds or t.tok.kind in kinds)


# ---- edges and right trees ----

def right_edge(t):
    """The levels of the operators on the right edge."""
    levels = []
    while type(t) in (Infix, Prefix):
        if type(t) is Infix:
            levels.append(INFIX[t.op][0])
            t = t.right
        else:
            levels.append(PREFIX[t.op][0])
            t = t.kid
    return levels


def left_edge(t):
    levels = []
    while True:
        if type(t) is Infix:
            levels.append(INFIX[t.op][0])
            t = t.left
        elif type(t) is Postfix:
            levels.append(POSTFIX[t.op][0])
            t = t.kid
        elif type(t) in (Call, Part):
            levels.append(3)
            t = t.head
        else:
            return levels


def left_child_allows(level, kind, left):
    """The rule on the right edge of the left child of an infix or postfix node."""
    return all(m < level or m == level and kind not in ("right", "none") for m in right_edge(left))


def right_child_allows(level, kind, right):
    """The rule on the left edge of the right child of an infix or prefix node."""
    return all(m < level or m == level and kind not in ("left", "chain", "none") for m in left_edge(right))


def is_definition(t):
    """`l = r`, `l := r` or `l =.`, without parentheses."""
    return type(t) is Infix and t.op in ("=", ":=") or type(t) is Postfix and t.op == "=."


def right_here(t, next_text):
    """Whether t is right at its own top.  next_text is the text of the token behind t, or None.

    The rule on a juxtaposition's right operand is the business of whoever builds the node, since a
    node doesn't know its first token; `first_is_open` tells it.
    """
    if type(t) is Infix:
        level, kind, _ = INFIX[t.op]
        if not left_child_allows(level, kind, t.left) or not right_child_allows(level, kind, t.right):
            return False
        if t.op == "/:":
            return is_definition(t.right)
        if t.op == "::":
            return is_atom(t.left, "Name") and is_atom(t.right, "Name", "Text")
        return True
    if type(t) is Prefix:
        return right_child_allows(PREFIX[t.op][0], "right" if PREFIX[t.op][0] == 4 else None, t.kid)
    if type(t) is Postfix:
        if t.op == ";" and not semicolon_is_postfix(next_text):
            return False
        return left_child_allows(*POSTFIX[t.op][:2], t.kid)
    if type(t) in (Call, Part):
        return left_child_allows(3, None, t.head)
    return True


def semicolon_is_postfix(next_text):
    return next_text is None or next_text in (")", "]", "}", ",")


# ---- chains and depth ----

def chain(t):
    """(operands, signs) where t is an infix node of a chain level: the whole chain; else None."""
    if type(t) is not Infix or INFIX[t.op][1] != "chain":
        return None
    level = INFIX[t.op][0]
    operands, signs = [], []
    while type(t) is Infix and INFIX[t.op][0] == level:
        operands.append(t.right)
        signs.append(t.op)
        t = t.left
    operands.append(t)
    return operands[::-1], signs[::-1]


def is_mixed_15(signs):
    return INFIX[signs[0]][0] == 15 and len(set(signs)) > 1


def depth(t):
    """The depth, without recursion."""
    todo = [counting(t)]                # each: [operands still to count, depths so far, rule]
    while True:
        rest, depths, rule = todo[-1]
        if rest:
            todo.append(counting(rest.pop()))
            continue
        todo.pop()
        d = rule(depths[::-1])          # operands were taken from the last
        if not todo:
            return d
        todo[-1][1].append(d)


def counting(t):
    """The operands of t as the depth sees them, and how t's depth follows from theirs."""
    kids, rule = [], one_more
    if type(t) is Atom:
        pass
    elif type(t) in (Paren, Prefix):
        kids = [t.kid]
    elif type(t) is Lst:
        kids = list(t.kids)
    elif type(t) in (Call, Part):
        kids = [t.head] + list(t.kids)
    elif type(t) is Postfix:
        kids = [t.kid]
        if t.op == ";" and type(t.kid) is Infix and t.kid.op == ";":
            rule = max                  # a last `;` belongs to the chain, which lowers to one node
    else:
        ch = chain(t)
        kids = ch[0] if ch else [t.left, t.right]
        if ch and is_mixed_15(ch[1]):
            rule = pairs_from_the_left
    return [kids, [], rule]


def one_more(depths):
    return 1 + max(depths, default=0)


def pairs_from_the_left(depths):
    d = depths[0]
    for e in depths[1:]:
        d = 1 + max(d, e)
    return d


# ---- lowering ----

def node(head, *args):
    return Node(Sym(head), args)


TIMES, POWER = Sym("Times"), Sym("Power")
MINUS_ONE = Fraction(-1)


def lower(t):
    if type(t) is Atom:
        return lower_atom(t.tok)
    if type(t) is Paren:
        return lower(t.kid)
    if type(t) is Lst:
        return Node(Sym("List"), [lower(k) for k in t.kids])
    if type(t) is Call:
        return Node(lower(t.head), [lower(k) for k in t.kids])
    if type(t) is Part:
        return Node(Sym("Part"), [lower(t.head)] + [lower(k) for k in t.kids])
    if type(t) is Prefix:
        return neg(t.kid) if t.op == "-" else node(PREFIX[t.op][1], lower(t.kid))
    if type(t) is Postfix:
        if t.op == ";":
            ch = chain(t.kid) if type(t.kid) is Infix and t.kid.op == ";" else None
            parts = ch[0] if ch else [t.kid]
            return Node(Sym("CompoundExpression"), [lower(k) for k in parts] + [Sym("Null")])
        return node(POSTFIX[t.op][2], lower(t.kid))
    return lower_infix(t)


def lower_infix(t):
    op, full = t.op, INFIX[t.op][2]
    ch = chain(t)
    if ch:
        operands, signs = ch
        level = INFIX[op][0]
        if level == 13:
            rest = [neg(k) if s == "-" else lower(k) for s, k in zip(signs, operands[1:])]
            return Node(Sym("Plus"), [lower(operands[0])] + rest)
        if level == 14 and len(set(signs)) > 1:
            args = [lower(operands[0])]
            for s, k in zip(signs, operands[1:]):
                args += [Sym(INFIX[s][2]), lower(k)]
            return Node(Sym("Inequality"), args)
        if is_mixed_15(signs):
            value = lower(operands[0])
            for s, k in zip(signs, operands[1:]):
                value = node(INFIX[s][2], value, lower(k))
            return value
        return Node(Sym(full), [lower(k) for k in operands])
    if op == "/":
        return node("Times", lower(t.left), node("Power", lower(t.right), MINUS_ONE))
    if op == "@":
        return Node(lower(t.left), [lower(t.right)])
    if op == "//":
        return Node(lower(t.right), [lower(t.left)])
    if op == ":":
        return node("Pattern" if is_atom(t.left, "Name") else "Optional", lower(t.left), lower(t.right))
    if op == "::":
        right = t.right.tok
        text = right.text if right.kind == "Name" else string_value(right.text)
        return node("MessageName", lower(t.left), Str(text))
    if op == "/:":
        return lower_tagged(t)
    return node(full, lower(t.left), lower(t.right))


def lower_tagged(t):
    tag, definition = lower(t.left), t.right
    if type(definition) is Postfix:
        return node("TagUnset", tag, lower(definition.kid))
    name = "TagSet" if definition.op == "=" else "TagSetDelayed"
    return node(name, tag, lower(definition.left), lower(definition.right))


def neg(e):
    """What negation makes of an expression."""
    reached = e
    while True:
        if type(reached) is Infix and reached.op == "/":
            reached = reached.left
        elif type(reached) is Infix and INFIX[reached.op][0] == 12:
            reached = chain(reached)[0][0]
        else:
            break
    if is_atom(reached, "Number"):
        return lower(with_first(e, reached))
    if type(e) is Infix and INFIX[e.op][0] == 12:
        return Node(TIMES, [MINUS_ONE] + [lower(k) for k in chain(e)[0]])
    return Node(TIMES, [MINUS_ONE, lower(e)])


class Negated(namedtuple("Negated", "tok")):
    """The number literal that neg has negated in its place."""


def with_first(e, literal):
    """e with the literal, which is the leftmost operand of e, negated in its place."""
    path = []
    while e is not literal:
        path.append(e)
        e = e.left
    t = Atom(Negated(literal.tok))
    for p in reversed(path):
        t = p._replace(left=t)
    return t


def lower_atom(tok):
    if type(tok) is Negated:
        return -lower_atom(tok.tok)
    kind, text = tok.kind, tok.text
    if kind == "Number":
        return Fraction(number_value(text))
    if kind == "Name":
        return Sym(text)
    if kind == "Text":
        return Str(string_value(text))
    if kind == "Slot":
        digits = text.lstrip("#")
        name = "Slot" if len(text) - len(digits) == 1 else "SlotSequence"
        return node(name, Fraction(int(digits or "1")))
    if kind == "Out":
        digits = text.lstrip("%")
        if digits:
            return node("Out", Fraction(int(digits)))
        k = len(text)
        return node("Out") if k == 1 else node("Out", Fraction(-k))
    return lower_pattern(text)


def lower_pattern(text):
    first = text.index("_")
    name = text[:first]
    behind = text[first:].lstrip("_")
    marks = len(text) - first - len(behind)
    blank = ["Blank", "BlankSequence", "BlankNullSequence"][marks - 1]
    if behind == ".":
        p = node(blank)
    else:
        p = Node(Sym(blank), [Sym(behind)] if behind else [])
    if name:
        p = node("Pattern", Sym(name), p)
    return node("Optional", p) if behind == "." else p
