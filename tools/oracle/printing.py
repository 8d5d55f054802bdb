"""InputForm, FullForm and boxes; how a text is spelled, and when it is clean.

layout(t) gives the level of t's text and what it is made of in order: texts (str), operands (Operand) and
elements (trees).  pieces(t) settles the parentheses and leaves texts and trees.  The text is the joined
pieces; the boxes are a RowBox of them.  So both come from one table.
"""
import sys
from collections import namedtuple
from fractions import Fraction

from tokens import is_name
from tree import Node, Str, Sym, is_int, is_num
from trees import INFIX

sys.setrecursionlimit(max(sys.getrecursionlimit(), 100_000))

ATOM = 0
BLANKS = {"Blank": "_", "BlankSequence": "__", "BlankNullSequence": "___"}

# heads that are joined by their operator with a space on each side, of 2 or more elements
SPACED_CHAINS = ["<>", "===", "=!=", "&&", "||", "|", "~~", "==", "!=", "<", "<=", ">", ">="]
# the same with exactly 2 elements
SPACED_PAIRS = ["/@", "@@", "/;", "->", ":>", "/.", "//.", "+=", "-=", "*=", "/=", "=", ":=", "^=", "^:="]
CHAIN_SIGN = {INFIX[s][2]: s for s in SPACED_CHAINS}
PAIR_SIGN = {INFIX[s][2]: s for s in SPACED_PAIRS}
EQUAL_ON_THE_RIGHT = (9, 24, 26, 29)


def quoted(text):
    for raw, escaped in (("\\", "\\\\"), ('"', '\\"'), ("\n", "\\n"), ("\t", "\\t"), ("\r", "\\r")):
        text = text.replace(raw, escaped)
    return '"' + text + '"'


def is_call(t, head, count=None):
    return type(t) is Node and t.head == Sym(head) and (count is None or len(t.args) == count)


# ---- operands and parentheses ----

Operand = namedtuple("Operand", "tree level equal")


def operand(t, level):
    """t as operand of an operator of that level: in parentheses unless t's level is smaller."""
    return [Operand(t, level, False)]


def operand_or_equal(t, level):
    return [Operand(t, level, True)]


def in_parentheses(op):
    own = layout(op.tree)[0]
    return not (own < op.level or op.equal and own == op.level)


def right_operand(t, level):
    return operand_or_equal(t, level) if level in EQUAL_ON_THE_RIGHT else operand(t, level)


def joined(parts, between):
    """Lists of pieces, with a text between two of them."""
    out = []
    for k, part in enumerate(parts):
        if k:
            out.append(between)
        out += part
    return out


# ---- the table ----

def layout(t):
    if is_num(t):
        if t.denominator != 1:
            return 11, ["%d/%d" % (t.numerator, t.denominator)]
        return (ATOM if t >= 0 else 10), [str(t.numerator)]
    if type(t) is Str:
        return ATOM, [quoted(t.text)]
    if type(t) is Sym:
        return ATOM, [t.name]
    special = type(t.head) is Sym and layout_of_head(t.head.name, t.args, t)
    if special:
        return special
    # all else
    return 3, operand_or_equal(t.head, 3) + ["["] + joined([[a] for a in t.args], ", ") + ["]"]


def layout_of_head(head, args, t):
    """The row of a node with a symbol as head, or None for `all else`."""
    n = len(args)
    if head == "List":
        return ATOM, ["{"] + joined([[a] for a in args], ", ") + ["}"]
    if head == "Plus" and n >= 2:
        terms = operand(args[0], 13)
        for term in args[1:]:
            terms += later_term(term)
        return 13, terms
    if head == "Times" and n == 2 and args[0] == -1 and not is_num(args[1]):
        return 10, ["-"] + operand(args[1], 10)
    if head == "Times" and n >= 2:
        return 12, joined([operand(a, 12) for a in args], "*")
    if head == "Power" and n == 2:
        return 9, operand(args[0], 9) + ["^"] + right_operand(args[1], 9)
    if head == "Factorial" and n == 1:
        return 7, operand(args[0], 7) + ["!"]
    if head == "Not" and n == 1:
        return 16, ["!"] + operand(args[0], 16)
    if head in CHAIN_SIGN and n >= 2:
        sign = CHAIN_SIGN[head]
        level = INFIX[sign][0]
        return level, joined([operand(a, level) for a in args], " " + sign + " ")
    if head in PAIR_SIGN and n == 2:
        sign = PAIR_SIGN[head]
        level = INFIX[sign][0]
        return level, operand(args[0], level) + [" " + sign + " "] + right_operand(args[1], level)
    if head == "Function" and n == 1:
        return 27, operand(args[0], 27) + [" &"]
    if head == "CompoundExpression" and n >= 2:
        if args[-1] == Sym("Null"):
            return 30, joined([operand(a, 30) for a in args[:-1]], "; ") + [";"]
        return 30, joined([operand(a, 30) for a in args], "; ")
    if head == "PatternTest" and n == 2:
        return 2, operand(args[0], 2) + ["?"] + operand(args[1], 2)
    blank = blank_text(t)
    if blank is not None:
        return ATOM, [blank]
    if head == "Optional" and n == 1 and args[0] in (ANY, named_any(args[0])):
        return ATOM, [blank_text(args[0]) + "."]
    if head == "Pattern" and n == 2 and type(args[0]) is Sym:
        return 21, operand(args[0], 21) + [":"] + operand(args[1], 21)
    if head == "Optional" and n == 2 and type(args[0]) is not Sym:
        return 21, operand(args[0], 21) + [":"] + operand(args[1], 21)
    if head == "Repeated" and n == 1:
        return 19, operand(args[0], 19) + [".."]
    if head == "RepeatedNull" and n == 1:
        return 19, operand(args[0], 19) + ["..."]
    if head in ("Slot", "SlotSequence") and n == 1 and is_int(args[0]) and args[0] >= 0:
        return ATOM, [("#" if head == "Slot" else "##") + str(args[0].numerator)]
    if head == "MessageName" and n == 2 and type(args[0]) is Sym and type(args[1]) is Str \
            and is_name(args[1].text):
        return 1, [args[0], "::", Sym(args[1].text)]
    if head == "Part" and n >= 2:
        return 3, operand(args[0], 3) + ["[["] + joined([[a] for a in args[1:]], ", ") + ["]]"]
    return None


ANY = Node(Sym("Blank"), [])


def named_any(t):
    """Pattern[x, Blank[]] where t is one, else something that t isn't."""
    if is_call(t, "Pattern", 2) and type(t.args[0]) is Sym and t.args[1] == ANY:
        return t
    return None


def blank_text(t):
    """The text of a blank with names for name and head, else None."""
    if is_call(t, "Pattern", 2) and type(t.args[0]) is Sym:
        inner = bare_blank_text(t.args[1])
        return None if inner is None else t.args[0].name + inner
    return bare_blank_text(t)


def bare_blank_text(t):
    if type(t) is Node and type(t.head) is Sym and t.head.name in BLANKS:
        if len(t.args) == 0:
            return BLANKS[t.head.name]
        if len(t.args) == 1 and type(t.args[0]) is Sym:
            return BLANKS[t.head.name] + t.args[0].name
    return None


def later_term(term):
    """The pieces of a Plus term after the first, its ` + ` or ` - ` included."""
    if is_num(term) and term < 0:
        return [" - "] + operand(-term, 13)
    if is_call(term, "Times") and len(term.args) >= 2 and is_num(term.args[0]):
        first, rest = term.args[0], term.args[1:]
        if first < 0 and first != -1:
            return [" - "] + operand(Node(term.head, (-first,) + rest), 13)
        if first == -1 and not is_num(rest[0]):
            if len(rest) == 1:
                return [" - "] + operand(rest[0], 12)
            return [" - "] + operand(Node(term.head, rest), 13)
    return [" + "] + operand(term, 13)


# ---- texts ----

def input_form(t):
    out = []
    write(t, out)
    return "".join(out)


def pieces(t):
    """Texts and trees in the order of the text."""
    out = []
    for piece in layout(t)[1]:
        if type(piece) is not Operand:
            out.append(piece)
        elif in_parentheses(piece):
            out += ["(", piece.tree, ")"]
        else:
            out.append(piece.tree)
    return out


def write(t, out):
    for piece in pieces(t):
        if type(piece) is str:
            out.append(piece)
        else:
            write(piece, out)


def full_form(t):
    if is_num(t):
        if t.denominator != 1:
            return "Rational[%d, %d]" % (t.numerator, t.denominator)
        return str(t.numerator)
    if type(t) is Str:
        return quoted(t.text)
    if type(t) is Sym:
        return t.name
    return full_form(t.head) + "[" + ", ".join(full_form(a) for a in t.args) + "]"


def boxes(t):
    parts = pieces(t)
    if all(type(p) is str for p in parts):
        return Str("".join(parts))
    row, text = [], ""
    for p in parts:                     # the strings between two operands are one string
        if type(p) is str:
            text += p
            continue
        if text:
            row.append(Str(text))
        text = ""
        row.append(boxes(p))
    if text:
        row.append(Str(text))
    return Node(Sym("RowBox"), [Node(Sym("List"), row)])


# ---- spelled and clean ----

def spell(t):
    """Times[p, Power[q, -1]] for each fraction p/q."""
    if is_num(t):
        if t.denominator == 1:
            return t
        power = Node(Sym("Power"), [Fraction(t.denominator), Fraction(-1)])
        return Node(Sym("Times"), [Fraction(t.numerator), power])
    if type(t) is not Node:
        return t
    return Node(spell(t.head), [spell(a) for a in t.args])


def clean(t):
    """No Repeated or RepeatedNull of one element has an element whose Text ends in a full stop."""
    if type(t) is not Node:
        return True
    if t.head in (Sym("Repeated"), Sym("RepeatedNull")) and len(t.args) == 1:
        if input_form(t.args[0]).endswith("."):
            return False
    return clean(t.head) and all(clean(a) for a in t.args)
