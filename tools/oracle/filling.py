"""Filling of templates by bindings.

  fill(body, binding)           binding: name -> run (tuple of trees)
  replace(body, names, trees)   of equal names the first counts
  rename(body, names, n)        each name becomes name$n
  apply_slots(body, function, args)   for Function[b][args]
"""
from operator import is_

from tree import Sym, Node, is_int


def run_tree(run):
    """What stands for a bound run."""
    return run[0] if len(run) == 1 else Node(Sym("Sequence"), run)


def fill(body, binding):
    return substitute(body, {name: run_tree(run) for name, run in binding.items()})


def replace(body, names, trees):
    values = {}
    for name, tree in zip(names, trees):
        values.setdefault(name, tree)
    return substitute(body, values)


def rename(body, names, n):
    return replace(body, names, [Sym("%s$%d" % (name, n)) for name in names])


# Scopes

def is_head(t, name):
    return type(t) is Node and t.head == Sym(name)


def is_setting(t):
    return is_head(t, "Set") and len(t.args) == 2 and type(t.args[0]) is Sym


def local_list(t, name):
    """For the list of Module, Block or With: pairs (name, value or None); None where t isn't such a
    list.  In With all elements have values."""
    if not is_head(t, "List"):
        return None
    pairs = []
    for a in t.args:
        if is_setting(a):
            pairs.append((a.args[0].name, a.args[1]))
        elif type(a) is Sym and name != "With":
            pairs.append((a.name, None))
        else:
            return None
    return pairs


def function_names(t):
    """The names of x or {x, y} in Function[x, b]; None for another form."""
    if type(t) is Sym:
        return [t.name]
    if is_head(t, "List") and all(type(a) is Sym for a in t.args):
        return [a.name for a in t.args]
    return None


def parameters(t):
    """The formal parameters of t where t is an inner Function, Module or With, else None."""
    if type(t) is not Node or type(t.head) is not Sym or len(t.args) != 2:
        return None
    name = t.head.name
    if name == "Function":
        return function_names(t.args[0])
    if name in ("Module", "With"):
        pairs = local_list(t.args[0], name)
        return None if pairs is None else [n for n, _ in pairs]
    return None


def symbols(t, found=None):
    """All names that occur in t."""
    found = set() if found is None else found
    todo = [t]
    while todo:
        u = todo.pop()
        if type(u) is Sym:
            found.add(u.name)
        elif type(u) is Node:
            todo.append(u.head)
            todo.extend(u.args)
    return found


def outside_parts(t):
    """The parts of a scope t that are outside its scope, the parameters themselves apart."""
    parts = [t.head]
    first = t.args[0]
    if type(first) is Node:
        parts.append(first.head)
        for a in first.args:
            if type(a) is Node:
                parts.extend([a.head, a.args[1]])
    return parts


def open_names(t):
    """The names with an occurrence in t that filling would reach."""
    if type(t) is Sym:
        return {t.name}
    if type(t) is not Node:
        return set()
    formal = parameters(t)
    if formal is None:
        return open_names(t.head).union(*[open_names(a) for a in t.args])
    found = open_names(t.args[1]) - set(formal)
    return found.union(*[open_names(p) for p in outside_parts(t)])


# The substitution

def substitute(t, values):
    """t with each reachable name in `values` (name -> tree) replaced."""
    if type(t) is Sym:
        return values.get(t.name, t)
    if type(t) is not Node or not values:
        return t
    formal = parameters(t)
    if formal is not None:
        return substitute_scope(t, formal, values)
    head = substitute(t.head, values)
    args = [substitute(a, values) for a in t.args]
    return rebuilt(t, head, args)


def rebuilt(t, head, args):
    """Node(head, args), or t itself where nothing differs."""
    if head is t.head and len(args) == len(t.args) and all(map(is_, args, t.args)):
        return t
    return Node(head, args)


def substitute_scope(t, formal, values):
    body = t.args[1]
    inner = {name: v for name, v in values.items() if name not in formal}
    reached = open_names(body)
    arriving = set()                      # names in the expressions that arrive in the body
    for name, v in inner.items():
        if name in reached:
            symbols(v, arriving)
    new_names = {}
    taken = arriving | symbols(body)
    for p in formal:
        if p in arriving and p not in new_names:
            q = p + "$"
            while q in taken:
                q += "$"
            new_names[p] = q
    inner.update((p, Sym(q)) for p, q in new_names.items())
    return rebuilt(t, substitute(t.head, values),
                   [substitute_formal(t.args[0], new_names, values), substitute(body, inner)])


def substitute_formal(first, new_names, values):
    """x, {x, y} or {x, y = v} with the parameters renamed and the values filled."""
    def renamed(x):
        return Sym(new_names[x.name]) if x.name in new_names else x
    if type(first) is Sym:
        return renamed(first)
    args = []
    for a in first.args:
        if type(a) is Sym:
            args.append(renamed(a))
        else:
            args.append(rebuilt(a, substitute(a.head, values),
                                [renamed(a.args[0]), substitute(a.args[1], values)]))
    return rebuilt(first, substitute(first.head, values), args)


# Slots

def apply_slots(t, function, args):
    if type(t) is not Node:
        return t
    if t.head == Sym("Function") and len(t.args) == 1:
        return t
    if len(t.args) == 1 and is_int(t.args[0]):
        n = int(t.args[0])
        if t.head == Sym("Slot"):
            if n == 0:
                return function
            return args[n - 1] if 1 <= n <= len(args) else t
        if t.head == Sym("SlotSequence"):
            return Node(Sym("Sequence"), args[n - 1:]) if 1 <= n <= len(args) + 1 else t
    head = apply_slots(t.head, function, args)
    return rebuilt(t, head, [apply_slots(a, function, args) for a in t.args])
