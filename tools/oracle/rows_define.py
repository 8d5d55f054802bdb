"""Definitions, attributes, scoping, and RestoreEntry."""
from math import gcd

from tree import Sym, Str, Node, num, is_int
from builtins_pure import is_list, list_of
from store import ATTRIBUTES, LIMITS
import assign
import filling

NULL, FAILED = Sym("Null"), Sym("$Failed")


# Left sides

def prepared(k, left):
    """(left side, core), the size of the left side tested."""
    c, held = assign.core(left)
    if type(c) is Node and not held:
        c = evaluated_core(k, c)
    left = assign.with_core(left, c)
    return k.tested(left), c


def evaluated_core(k, c):
    from evaluate import spliced
    head = evaluated_core(k, c.head) if type(c.head) is Node else c.head
    attributes = k.attributes(head.name) if type(head) is Sym else frozenset()
    args = k.evaluated_elements(c.args, attributes)
    if "SequenceHold" not in attributes and "HoldAllComplete" not in attributes:
        args = spliced(args, Sym("Sequence"))
    return Node(head, args)


# Refusals: each gives True where a message was issued and nothing may change

def raw(k, c):
    kind, part = assign.target(c)
    if kind == "raw":
        k.issue("Set", "setraw", [part])
    return kind == "raw"


def closed(k, kind, name, c, value, direct=False):
    """Whether the symbol refuses a rule of this kind; `direct` for Set of the symbol itself."""
    if "Protected" in k.attributes(name):
        if kind == "own":
            k.issue("Set", "wrsym", [Sym(name)])
        else:
            k.issue("Set", "write", [Sym(name), c])
        return True
    if name in LIMITS and not (direct and assign.limit_allows(name, value)):
        k.issue(name, "limset", [Sym(name), value])
        return True
    return False


def put(k, kind, name, left, body):
    k.changed(name)
    k.store.put_rule(name, kind, left, body)


# Set and its relatives.  Each definition gives True where it was refused.

def define(k, l, v, immediate):
    """l = v or l := v."""
    left, body = assign.moved_condition(l, v)
    left, c = prepared(k, left)
    if raw(k, c):
        return True
    kind, name = assign.target(c)
    direct = immediate and left == Sym(name)
    if closed(k, kind, name, c, v, direct):
        return True
    put(k, kind, name, left, body)
    return False


def define_up(k, l, v):
    """l ^= v or l ^:= v."""
    left, body = assign.moved_condition(l, v)
    left, c = prepared(k, left)
    if raw(k, c):
        return True
    refused = False
    for name in assign.tags(c):
        if closed(k, "up", name, c, v):
            refused = True
        else:
            put(k, "up", name, left, body)
    return refused


def tagged_kind(k, g, c):
    """The kind of rule of g for the core; None after TagSet::tagnf."""
    if g in assign.tags(c):
        return "up"
    kind, name = assign.target(c)
    if kind in ("down", "sub") and name == g:
        return kind
    k.issue("TagSet", "tagnf", [Sym(g), c])
    return None


def define_tagged(k, g, l, v):
    """g /: l = v or g /: l := v."""
    left, body = assign.moved_condition(l, v)
    left, c = prepared(k, left)
    if raw(k, c):
        return True
    kind = tagged_kind(k, g, c)
    if kind is None or closed(k, kind, g, c, v):
        return True
    put(k, kind, g, left, body)
    return False


def is_message_name(t):
    return (filling.is_head(t, "MessageName") and len(t.args) == 2
            and type(t.args[0]) is Sym and type(t.args[1]) is Str)


def set_message(k, l, v):
    name = l.args[0].name
    if "Protected" in k.attributes(name):
        k.issue("Set", "wrsym", [Sym(name)])
    elif name in LIMITS:
        k.issue(name, "limset", [Sym(name), v])
    else:
        k.changed(name)
        k.store.put_message(name, l.args[1].text, v.text)


def set_one(k, l, v):
    """What the row of Set does for l and v; its value is v."""
    if is_list(l):
        if is_list(v) and len(v.args) == len(l.args):
            for a, b in zip(l.args, v.args):
                set_one(k, a, b)
        else:
            k.issue("Set", "shape", [l, v])
    elif is_message_name(l) and type(v) is Str:
        set_message(k, l, v)
    else:
        define(k, l, v, immediate=True)


def row_set(k, args, form):
    if len(args) != 2:
        return None
    set_one(k, *args)
    return args[1]


def row_set_delayed(k, args, form):
    if len(args) != 2:
        return None
    return FAILED if define(k, args[0], args[1], immediate=False) else NULL


def row_up_set(k, args, form):
    if len(args) != 2:
        return None
    define_up(k, *args)
    return args[1]


def row_up_set_delayed(k, args, form):
    if len(args) != 2:
        return None
    return FAILED if define_up(k, *args) else NULL


def row_tag_set(k, args, form):
    if len(args) != 3 or type(args[0]) is not Sym:
        return None
    value = k.eval(args[2])
    define_tagged(k, args[0].name, args[1], value)
    return value


def row_tag_set_delayed(k, args, form):
    if len(args) != 3 or type(args[0]) is not Sym:
        return None
    return FAILED if define_tagged(k, args[0].name, args[1], args[2]) else NULL


def taken_away(k, kind, name, left, c):
    if closed(k, kind, name, c, NULL):
        return FAILED
    k.read(name)
    if not k.store.remove_rule(name, kind, left):
        return FAILED
    k.changed(name)
    return NULL


def row_unset(k, args, form):
    if len(args) != 1:
        return None
    left, c = prepared(k, args[0])
    if raw(k, c):
        return FAILED
    kind, name = assign.target(c)
    return taken_away(k, kind, name, left, c)


def row_tag_unset(k, args, form):
    if len(args) != 2 or type(args[0]) is not Sym:
        return None
    left, c = prepared(k, args[1])
    if raw(k, c):
        return FAILED
    g = args[0].name
    kind = tagged_kind(k, g, c)
    return FAILED if kind is None else taken_away(k, kind, g, left, c)


# AddTo and its relatives

def changed_value(new):
    """A row that sets x to new(o, v); where new takes o alone, of one element."""
    def row(k, args, form, gives_old=False):
        x = args[0]
        old = k.eval(x)
        if old == x:
            return None
        value = k.eval_built(Node(Sym("Set"), (x, new(old, *args[1:]))))
        return old if gives_old else value
    return row


def with_count(n, row):
    return lambda k, args, form: row(k, args, form) if len(args) == n else None


def node(name, *args):
    return Node(Sym(name), args)


pre_increment = changed_value(lambda o: node("Plus", o, num(1)))
pre_decrement = changed_value(lambda o: node("Plus", o, num(-1)))


# Entries

def row_clear(everything):
    def row(k, args, form):
        if not args or not all(type(a) is Sym for a in args):
            return None
        for a in args:
            if "Protected" in k.attributes(a.name):
                k.issue("Set", "wrsym", [a])
            elif a.name in LIMITS:
                k.issue(a.name, "limset", [a, NULL])
            else:
                k.changed(a.name)
                k.store.clear(a.name, everything)
        return NULL
    return row


def row_attributes(k, args, form):
    if len(args) != 1 or type(args[0]) is not Sym:
        return None
    return list_of([Sym(a) for a in sorted(k.attributes(args[0].name))])


def names_of(t):
    """The names of a name or of a list of names, else None."""
    items = t.args if is_list(t) else (t,)
    return [a.name for a in items] if all(type(a) is Sym for a in items) else None


def change_attributes(combine):
    def row(k, args, form):
        if len(args) != 2:
            return None
        names, attributes = names_of(args[0]), names_of(args[1])
        if names is None or attributes is None or not set(attributes) <= set(ATTRIBUTES):
            return None
        for name in names:
            k.changed(name)
            k.store.set_attributes(name, combine(k.store.attributes(name), set(attributes)))
        return NULL
    return row


def protection(combine):
    def row(k, args, form):
        if len(args) != 1 or type(args[0]) is not Sym:
            return None
        name = args[0].name
        k.changed(name)
        old = k.store.attributes(name)
        new = combine(old, {"Protected"})
        k.store.set_attributes(name, new)
        return list_of([Str(name)] if old != new else [])
    return row


# Scoping

def evaluated_values(k, pairs):
    return [(name, None if v is None else k.eval(v)) for name, v in pairs]


def module_body(k, pairs, body, guarded=False):
    values = evaluated_values(k, pairs)
    n = k.next_module_number()
    renamed = filling.rename(body, [name for name, _ in values], n)
    if guarded:
        k.tested(renamed)
    for name, value in values:
        if value is not None:
            new = "%s$%d" % (name, n)
            if "Protected" in k.attributes(new):
                k.issue("Set", "wrsym", [Sym(new)])
            else:
                k.set_own(new, value)
    return renamed


def with_body(k, pairs, body):
    values = evaluated_values(k, pairs)
    return filling.replace(body, [name for name, _ in values], [v for _, v in values])


def in_block(k, pairs, inside):
    """Block around inside(), which gives its result."""
    values = evaluated_values(k, pairs)
    open_names = []
    for name, value in values:
        if "Protected" in k.attributes(name):
            k.issue("Set", "wrsym", [Sym(name)])
        elif name in LIMITS and (value is None or not assign.limit_allows(name, value)):
            k.issue(name, "limset", [Sym(name), NULL if value is None else value])
        else:
            open_names.append((name, value))
    saved = [(name, k.take_entry(name)) for name, _ in open_names]
    for name, value in open_names:
        if value is not None:
            k.set_own(name, value)
    try:
        return inside()
    finally:
        for name, rules in reversed(saved):
            k.give_entry(name, rules)


def scoping(name, run):
    def row(k, args, form):
        if len(args) != 2:
            return None
        pairs = filling.local_list(args[0], name)
        return None if pairs is None else run(k, pairs, args[1])
    return row


def function_applied(head, args):
    """Function[b][args] and its relatives; None for every other head."""
    if not filling.is_head(head, "Function"):
        return None
    if len(head.args) == 1:
        return filling.apply_slots(head.args[0], head, args)
    if len(head.args) == 2:
        names = filling.function_names(head.args[0])
        if names is not None and len(args) >= len(names):
            return filling.replace(head.args[1], names, args)
    return None


# RestoreEntry

def with_fractions(t):
    if type(t) is not Node:
        return t
    if t.head == Sym("Rational") and len(t.args) == 2 and all(is_int(a) for a in t.args):
        n, m = int(t.args[0]), int(t.args[1])
        if m >= 2 and gcd(n, m) == 1:
            return num(n, m)
    return filling.rebuilt(t, with_fractions(t.head), [with_fractions(a) for a in t.args])


def takes_rule(name, kind, left):
    """Whether the left side, without evaluating it, is of that kind and symbol."""
    c, _ = assign.core(left)
    if assign.target(c)[0] == "raw":
        return False
    if kind == "up":
        return name in assign.tags(c)
    return assign.target(c) == (kind, name)


def row_restore_entry(k, args, form):
    if len(args) != 3 or type(args[0]) is not Sym or not is_list(args[2]):
        return None
    name, row, items = args[0].name, args[1], args[2].args
    if type(row) is not Str or name in LIMITS:
        return None
    if row.text in ("Own", "Down", "Up", "Sub"):
        if len(items) != 2:
            return None
        left, body = [with_fractions(t) for t in items]
        kind = row.text.lower()
        if not takes_rule(name, kind, left):
            return None
        if "Protected" in k.attributes(name):
            k.issue("Set", "wrsym", [Sym(name)])
            return FAILED
        put(k, kind, name, left, body)
    elif row.text == "Message":
        if len(items) != 2 or not all(type(t) is Str for t in items):
            return None
        if "Protected" in k.attributes(name):
            k.issue("Set", "wrsym", [Sym(name)])
            return FAILED
        k.changed(name)
        k.store.put_message(name, items[0].text, items[1].text)
    elif row.text == "Off":
        if len(items) != 1 or type(items[0]) is not Str:
            return None
        k.changed(name)
        k.store.set_off(name, items[0].text, True)
    elif row.text == "Attributes":
        attributes = names_of(args[2])
        if attributes is None or not set(attributes) <= set(ATTRIBUTES):
            return None
        k.changed(name)
        k.store.set_attributes(name, attributes)
    else:
        return None
    return NULL


ROWS = {
    "Set": row_set, "SetDelayed": row_set_delayed, "UpSet": row_up_set,
    "UpSetDelayed": row_up_set_delayed, "TagSet": row_tag_set,
    "TagSetDelayed": row_tag_set_delayed, "Unset": row_unset, "TagUnset": row_tag_unset,
    "AddTo": with_count(2, changed_value(lambda o, v: node("Plus", o, v))),
    "SubtractFrom": with_count(2, changed_value(
        lambda o, v: node("Plus", o, node("Times", num(-1), v)))),
    "TimesBy": with_count(2, changed_value(lambda o, v: node("Times", o, v))),
    "DivideBy": with_count(2, changed_value(
        lambda o, v: node("Times", o, node("Power", v, num(-1))))),
    "AppendTo": with_count(2, changed_value(lambda o, v: node("Append", o, v))),
    "PrependTo": with_count(2, changed_value(lambda o, v: node("Prepend", o, v))),
    "PreIncrement": with_count(1, pre_increment), "PreDecrement": with_count(1, pre_decrement),
    "Increment": with_count(1, lambda k, args, form: pre_increment(k, args, form, True)),
    "Decrement": with_count(1, lambda k, args, form: pre_decrement(k, args, form, True)),
    "Clear": row_clear(False), "ClearAll": row_clear(True), "Attributes": row_attributes,
    "SetAttributes": change_attributes(lambda old, a: old | a),
    "ClearAttributes": change_attributes(lambda old, a: old - a),
    "Protect": protection(lambda old, a: old | a), "Unprotect": protection(lambda old, a: old - a),
    "Module": scoping("Module", module_body), "With": scoping("With", with_body),
    "Block": scoping("Block", lambda k, pairs, b: in_block(k, pairs, lambda: k.eval(b))),
    "RestoreEntry": row_restore_entry,
}
