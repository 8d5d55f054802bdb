"""Definitions: entries, the specificity key, the entries of the
start, and versions.

Names are Python strs.  Rules are pairs (left, body).
"""
from tree import Sym, Node, num
from patterns import special, inner_pattern

KINDS = ("own", "down", "up", "sub")
ATTRIBUTES = ("Flat", "HoldAll", "HoldAllComplete", "HoldFirst", "HoldRest", "Listable",
              "NumericFunction", "OneIdentity", "Orderless", "Protected", "SequenceHold")
LIMITS = {"$RecursionLimit": (20, 512), "$IterationLimit": (20, 1_000_000)}
LAST_VERSION = 2 ** 64 - 1


# The specificity key

def has_patterns(t):
    """Whether some part of t, head or t itself is a special form of a pattern."""
    if special(t):
        return True
    return type(t) is Node and (has_patterns(t.head) or any(has_patterns(a) for a in t.args))


def key_of(left):
    """(digits, -tests): the smaller key comes first."""
    digits, tests = [], 0

    def walk(p):
        nonlocal tests
        kind = special(p)
        if kind in ("PatternTest", "Condition"):
            tests += 1
        if kind in ("Pattern", "HoldPattern", "PatternTest", "Condition"):
            walk(inner_pattern(p, kind))
        elif kind == "Verbatim" or not has_patterns(p):
            digits.append(0)
        elif kind == "Blank":
            digits.append(2 if p.args else 4)
        elif kind == "Alternatives":
            digits.append(3)
            for q in p.args:
                walk(q)
        elif kind == "Except":
            digits.append(4)
        elif kind == "Repeated":
            digits.append(5)
        elif kind == "BlankSequence":
            digits.append(5 if p.args else 6)
        elif kind == "RepeatedNull":
            digits.append(7)
        elif kind == "BlankNullSequence":
            digits.append(7 if p.args else 8)
        elif kind == "Optional":
            digits.append(9)
            walk(p.args[0])
        else:
            digits.append(1)
            walk(p.head)
            for a in p.args:
                walk(a)

    walk(left)
    return digits, -tests


class Entry:
    def __init__(self):
        self.rules = {kind: [] for kind in KINDS}
        self.attributes = frozenset()
        self.messages = {}
        self.off = set()
        self.version = 0

    def copy(self):
        new = Entry()
        new.rules = {kind: list(rules) for kind, rules in self.rules.items()}
        new.attributes = self.attributes
        new.messages = dict(self.messages)
        new.off = set(self.off)
        new.version = self.version
        return new

    def content(self):
        """The entry without its version, for comparison."""
        return (tuple(tuple(self.rules[k]) for k in KINDS), self.attributes,
                tuple(sorted(self.messages.items())), tuple(sorted(self.off)))


EMPTY = Entry()


class Store:
    """The definitions.  Each changing call draws a new version for its entry."""

    def __init__(self):
        self.entries = {}
        self.drawn = 0
        for name, attributes in start_attributes().items():
            self._own(name).attributes = attributes
        for (name, tag), text in START_MESSAGES.items():
            self._own(name).messages[tag] = text
        for name, value in (("$RecursionLimit", 200), ("$IterationLimit", 1000)):
            self._own(name).rules["own"] = [(Sym(name), num(value))]

    def _own(self, name):
        """The entry of the name, made where there is none (version 0)."""
        if name not in self.entries:
            self.entries[name] = Entry()
        return self.entries[name]

    def _change(self, name):
        entry = self._own(name)
        if self.drawn < LAST_VERSION:
            self.drawn += 1
        entry.version = self.drawn
        return entry

    # looks

    def entry(self, name):
        return self.entries.get(name, EMPTY)

    def version(self, name):
        return self.entry(name).version

    def attributes(self, name):
        return self.entry(name).attributes

    def protected(self, name):
        return "Protected" in self.entry(name).attributes

    def rules(self, name, kind):
        """A snapshot of the list."""
        return tuple(self.entry(name).rules[kind])

    def limit(self, name):
        """The number of one of the two limits."""
        return int(self.entries[name].rules["own"][0][1])

    def contents(self):
        """All entries that aren't empty, for comparison."""
        empty = EMPTY.content()
        return {n: e.content() for n, e in self.entries.items() if e.content() != empty}

    def copy(self):
        new = Store.__new__(Store)
        new.entries = {name: entry.copy() for name, entry in self.entries.items()}
        new.drawn = self.drawn
        return new

    # changes; the caller has looked at Protected where that matters

    def put_rule(self, name, kind, left, body):
        rules = self._change(name).rules[kind]
        for k, (old, _) in enumerate(rules):
            if old == left:
                rules[k] = (left, body)
                return
        key, place = key_of(left), len(rules)
        for k, (old, _) in enumerate(rules):
            if key_of(old) > key:
                place = k
                break
        # After all rules whose key isn't greater.  The list is sorted, so this
        # is the place of the first greater key.
        rules.insert(place, (left, body))

    def remove_rule(self, name, kind, left):
        for k, (old, _) in enumerate(self.entry(name).rules[kind]):
            if old == left:
                del self._change(name).rules[kind][k]
                return True
        return False

    def clear(self, name, everything):
        entry = self._change(name)
        entry.rules = {kind: [] for kind in KINDS}
        if everything:
            entry.attributes = frozenset()
            entry.messages = {}
            entry.off = set()

    def set_attributes(self, name, attributes):
        self._change(name).attributes = frozenset(attributes)

    def put_message(self, name, tag, text):
        self._change(name).messages[tag] = text

    def set_off(self, name, tag, off):
        entry = self._change(name)
        (entry.off.add if off else entry.off.discard)(tag)

    def swap_entry(self, name):
        """Takes the four rule lists out."""
        entry = self._change(name)
        saved, entry.rules = entry.rules, {kind: [] for kind in KINDS}
        return saved

    def restore_entry(self, name, saved):
        self._change(name).rules = saved


# The symbols with attributes from the start.

FULL_FORMS = """MessageName PatternTest Part PreIncrement PreDecrement Increment Decrement
Map Apply MapApply Factorial StringJoin Power Times Plus Equal Unequal Less LessEqual Greater
GreaterEqual SameQ UnsameQ Not And Or Repeated RepeatedNull Alternatives Pattern Optional
StringExpression Condition Rule RuleDelayed ReplaceAll ReplaceRepeated AddTo SubtractFrom TimesBy
DivideBy Function Set SetDelayed UpSet UpSetDelayed Unset CompoundExpression Null"""
LOWERING = "Inequality Less LessEqual Times List Blank Pattern Optional Slot SlotSequence Out"
IN_F = """Plus Times Power Abs Sign Floor Ceiling Numerator Denominator Mod Quotient GCD Max Min
Factorial Rational IntegerQ EvenQ OddQ NumberQ AtomQ StringQ ListQ TrueQ Equal Unequal Less
LessEqual Greater GreaterEqual Inequality SameQ UnsameQ Not True False Head Length Depth Order
OrderedQ First Last Rest Most Append Prepend Join Reverse Sort Union DeleteDuplicates Part Take Drop
Flatten Range Total Transpose Partition Apply MapApply Map Array StringJoin StringLength Characters
ToString MakeBoxes Evaluate ReleaseHold Identity If Which And Or CompoundExpression While For Do
Table Select Scan Fold FoldList Nest NestList FixedPoint Switch MatchQ MemberQ Count Cases
DeleteCases FreeQ Replace ReplaceAll ReplaceRepeated Set SetDelayed UpSet TagSet UpSetDelayed Unset
TagUnset AddTo SubtractFrom TimesBy DivideBy PreIncrement PreDecrement AppendTo PrependTo Increment
Decrement Clear ClearAll Attributes SetAttributes ClearAttributes Protect Unprotect Module With Block
Function Throw Catch Abort CheckAbort Break Continue Print Message Off On Quiet Check MessageName Out
In Overflow General $Failed"""
LISTED = """True False Null $Aborted $Failed Indeterminate ComplexInfinity Overflow Integer String
Symbol General Thread Sequence BlankSequence BlankNullSequence"""
LATER = """StringMatchQ StringCases StringReplace DigitCharacter LetterCharacter
Expand Collect Coefficient PolynomialQ RestoreEntry"""
TABLE = {
    "Flat Listable NumericFunction OneIdentity Orderless": "Plus Times",
    "Listable NumericFunction OneIdentity": "Power",
    "Listable NumericFunction": "Abs Sign Floor Ceiling Mod Quotient Factorial",
    "Listable": "Numerator Denominator EvenQ OddQ StringLength Characters Out In",
    "Flat Listable OneIdentity Orderless": "GCD",
    "Flat NumericFunction OneIdentity Orderless": "Max Min",
    "Flat OneIdentity": "StringJoin Join",
    "Flat HoldAll OneIdentity": "And Or",
    "HoldAll": """Hold HoldPattern CompoundExpression Condition Function Module Block With Table Do
        While For Which Clear ClearAll Attributes Protect Unprotect Check CheckAbort Quiet On Off
        TagUnset""",
    "HoldAll SequenceHold": "SetDelayed UpSetDelayed TagSet TagSetDelayed",
    "HoldFirst": """Pattern Unset AddTo SubtractFrom TimesBy DivideBy Increment Decrement
        PreIncrement PreDecrement AppendTo PrependTo Catch SetAttributes ClearAttributes Message
        MessageName""",
    "HoldFirst SequenceHold": "Set UpSet",
    "HoldRest": "If PatternTest Switch",
    "HoldRest SequenceHold": "RuleDelayed",
    "SequenceHold": "Rule",
    "HoldAllComplete": "HoldComplete Unevaluated MakeBoxes",
}


def start_attributes():
    names = (FULL_FORMS + " " + LOWERING + " " + IN_F + " " + LISTED + " " + LATER).split()
    found = {name: {"Protected"} for name in names}
    for name in ATTRIBUTES:
        found[name] = {"Protected"}
    for attributes, row in TABLE.items():
        for name in row.split():
            found.setdefault(name, {"Protected"}).update(attributes.split())
    found["RestoreEntry"].add("HoldAllComplete")
    return {name: frozenset(a) for name, a in found.items()}


START_MESSAGES = {
    ("$RecursionLimit", "reclim"): "Recursion depth of `1` exceeded.",
    ("$IterationLimit", "itlim"): "Iteration limit of `1` exceeded.",
    ("$RecursionLimit", "limset"): "Cannot set `1` to `2`.",
    ("$IterationLimit", "limset"): "Cannot set `1` to `2`.",
    ("General", "large"): "Expression too large.",
    ("General", "ovfl"): "Overflow occurred in computation.",
    ("Power", "infy"): "Infinite expression `1` encountered.",
    ("Power", "indet"): "Indeterminate expression `1` encountered.",
    ("Set", "wrsym"): "Symbol `1` is Protected.",
    ("Set", "write"): "Tag `1` in `2` is Protected.",
    ("Set", "setraw"): "Cannot assign to raw object `1`.",
    ("Set", "shape"): "Lists `1` and `2` are not the same shape.",
    ("TagSet", "tagnf"): "Tag `1` not found in `2`.",
    ("Thread", "tdlen"): "Objects of unequal length in `1` cannot be combined.",
    ("Part", "partw"): "Part `1` of `2` does not exist.",
    ("Throw", "nocatch"): "Uncaught `1` returned to top level.",
}
