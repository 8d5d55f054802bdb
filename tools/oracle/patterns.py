"""Leaves of a match search, and the flags that a match reads.

`trials(pattern, tree, flags)` is a generator of leaves in order.  A leaf is
  FAIL                       or
  (binding, tests)           binding: dict name -> run (a tuple of trees);
                             tests: tuple of
                               ("applies", t, run)   p?t
                               ("holds", c)          p /; c
                               ("refuses", c, run)   Except
The search keeps its open choices on a list of its own, so that neither long
patterns nor long subjects nest Python calls.
"""
from itertools import combinations
import math

from tree import Sym, Str, Node, num
from fractions import Fraction

FAIL = "Fail"
NO_END = math.inf
BLANKS = ("Blank", "BlankSequence", "BlankNullSequence")
WRAPPERS = ("Pattern", "PatternTest", "Condition", "HoldPattern")


def head_of(t):
    """The head of any tree, as the built-in Head gives it."""
    if type(t) is Node:
        return t.head
    if type(t) is Fraction:
        return Sym("Integer") if t.denominator == 1 else Sym("Rational")
    return Sym("String") if type(t) is Str else Sym("Symbol")


def special(p):
    """The name of the special form of a pattern that p is, or None."""
    if type(p) is not Node or type(p.head) is not Sym:
        return None
    name, n = p.head.name, len(p.args)
    if name in BLANKS:
        return name if n <= 1 else None
    if name == "Pattern":
        return name if n == 2 and type(p.args[0]) is Sym else None
    if name in ("PatternTest", "Condition"):
        return name if n == 2 else None
    if name in ("HoldPattern", "Repeated", "RepeatedNull", "Verbatim"):
        return name if n == 1 else None
    if name in ("Optional", "Except"):
        return name if n in (1, 2) else None
    if name == "Alternatives":
        return name
    return None


def inner_pattern(p, kind):
    """The pattern q inside one of the wrappers or Optional."""
    return p.args[1] if kind == "Pattern" else p.args[0]


def head_symbols(p):
    """The symbols that are heads of nodes of p, in preorder."""
    found, todo = [], [p]
    while todo:
        t = todo.pop()
        if type(t) is Node:
            if type(t.head) is Sym:
                found.append(t.head.name)
            todo.extend(reversed(t.args))
            todo.append(t.head)
    return found


# Lengths

def stretchable(p, h):
    """Whether p under the Flat head h (a symbol) may take longer runs."""
    while True:
        kind = special(p)
        if kind in WRAPPERS or kind == "Optional":
            p = inner_pattern(p, kind)
        elif kind == "Blank":
            return not p.args or p.args[0] == h
        else:
            return False


def lengths(p):
    """need and most of p, apart from what a Flat head does to it."""
    kind = special(p)
    if kind in ("BlankSequence", "Repeated"):
        return 1, NO_END
    if kind in ("BlankNullSequence", "RepeatedNull"):
        return 0, NO_END
    if kind == "Alternatives":
        if not p.args:
            return 1, 1
        pairs = [lengths(q) for q in p.args]
        return min(n for n, _ in pairs), max(m for _, m in pairs)
    if kind in WRAPPERS:
        return lengths(inner_pattern(p, kind))
    if kind == "Optional":
        return 0, lengths(p.args[0])[1]
    return 1, 1


def optional_name(q):
    """The name that the absent choice of Optional[q, d] binds, or None."""
    while True:
        kind = special(q)
        if kind == "Pattern":
            return q.args[0].name
        if kind in ("PatternTest", "Condition", "HoldPattern"):
            q = q.args[0]
        else:
            return None


def default_of(p, h, place):
    """The default of the Optional p that is element `place` (from 1) under h."""
    if len(p.args) == 2:
        return p.args[1]
    if h == Sym("Plus"):
        return num(0)
    if h == Sym("Times"):
        return num(1)
    if h == Sym("Power") and place == 2:
        return num(1)
    return None


class Elements:
    """A list of patterns under the head h, prepared for runs over elements."""

    def __init__(self, h, patterns, attributes):
        self.h = h
        self.patterns = patterns
        self.flat = "Flat" in attributes
        self.orderless = "Orderless" in attributes
        self.need, self.most, self.stretch = [], [], []
        for p in patterns:
            need, most = lengths(p)
            stretch = self.flat and stretchable(p, h)
            self.need.append(need)
            self.most.append(NO_END if stretch else most)
            self.stretch.append(stretch)
        self.rest_need, self.rest_most = [0], [0]
        for j in range(len(patterns) - 1, 0, -1):
            self.rest_need.insert(0, self.rest_need[0] + self.need[j])
            self.rest_most.insert(0, self.rest_most[0] + self.most[j])

    def choices(self, j, left):
        """The goals of each choice for pattern j on the elements left, in order."""
        p, n = self.patterns[j], len(left)
        is_optional = special(p) == "Optional"
        need = lengths(p.args[0])[0] if is_optional else self.need[j]
        low = max(need, n - self.rest_most[j])
        high = min(self.most[j], n - self.rest_need[j])
        k = low
        while k <= high:
            for run, rest in self.cuts(left, k):
                if k >= 2 and self.stretch[j]:
                    run = (Node(self.h, run),)
                yield [("match", p, run), ("elements", self, j + 1, rest)]
            k += 1
        if is_optional:
            default = default_of(p, self.h, j + 1)
            if default is not None:
                name = optional_name(p.args[0])
                bind = [] if name is None else [("bind", name, (default,))]
                yield bind + [("elements", self, j + 1, left)]

    def cuts(self, left, k):
        if not self.orderless:
            yield left[:k], left[k:]
            return
        for places in combinations(range(len(left)), k):
            taken = set(places)
            yield (tuple(left[i] for i in places),
                   tuple(left[i] for i in range(len(left)) if i not in taken))


def has_head(e, blank):
    return not blank.args or head_of(e) == blank.args[0]


def match_choices(p, run, flags):
    """FAIL, or the list of choices, each the list of goals that p on run leads to."""
    kind = special(p)
    if kind == "Blank":
        return [[]] if len(run) == 1 and has_head(run[0], p) else FAIL
    if kind in ("BlankSequence", "BlankNullSequence"):
        if kind == "BlankSequence" and not run:
            return FAIL
        return [[]] if all(has_head(e, p) for e in run) else FAIL
    if kind == "Pattern":
        return [[("match", p.args[1], run), ("bind", p.args[0].name, run)]]
    if kind == "PatternTest":
        return [[("match", p.args[0], run), ("test", ("applies", p.args[1], run))]]
    if kind == "Condition":
        return [[("match", p.args[0], run), ("test", ("holds", p.args[1]))]]
    if kind in ("HoldPattern", "Optional"):
        return [[("match", p.args[0], run)]]
    if kind == "Alternatives":
        if not p.args:
            return FAIL
        return [[("match", q, run)] for q in p.args]
    if kind in ("Repeated", "RepeatedNull"):
        if kind == "Repeated" and not run:
            return FAIL
        return [[("match", p.args[0], (e,)) for e in run]]
    if kind == "Verbatim":
        return [[]] if run == (p.args[0],) else FAIL
    if kind == "Except":
        if len(run) != 1:
            return FAIL
        test = ("test", ("refuses", p.args[0], run))
        if len(p.args) == 1:
            return [[test]]
        return [[("match", p.args[1], run), test]]
    if type(p) is Node and len(run) == 1:
        t = run[0]
        h = p.head
        attributes = flags.get(h.name, frozenset()) if type(h) is Sym else frozenset()
        if (type(h) is Sym and "OneIdentity" in attributes and head_of(t) != h
                and any(special(q) == "Optional" for q in p.args)):
            return [[("elements", Elements(h, p.args, attributes), 0, (t,))]]
        if type(t) is not Node:
            return FAIL
        return [[("match", h, (t.head,)),
                    ("elements", Elements(h, p.args, attributes), 0, t.args)]]
    return [[]] if run == (p,) else FAIL


def trials(pattern, tree, flags):
    """The leaves in order.  `flags` maps head symbols' names to attribute sets."""
    # A state: goals still to be done (linked pairs), binding, tests.
    choices = [iter([((("match", pattern, (tree,)), None), {}, ())])]
    while choices:
        state = next(choices[-1], None)
        if state is None:
            choices.pop()
            continue
        goals, binding, tests = state
        while True:
            if goals is None:
                yield binding, tests
                break
            goal, goals = goals
            if goal[0] == "bind":
                name, run = goal[1], goal[2]
                if name not in binding:
                    binding = {**binding, name: run}
                elif binding[name] != run:
                    yield FAIL
                    break
                continue
            if goal[0] == "test":
                tests = tests + (goal[1],)
                continue
            if goal[0] == "elements":
                spec, j, left = goal[1], goal[2], goal[3]
                if j == len(spec.patterns):
                    if left:
                        yield FAIL
                        break
                    continue
                options = spec.choices(j, left)
            else:
                options = match_choices(goal[1], goal[2], flags)
                if options is FAIL:
                    yield FAIL
                    break
                options = iter(options)
            first = next(options, None)
            if first is None:          # nothing is listed
                yield FAIL
                break
            choices.append(following(options, goals, binding, tests))
            for new in reversed(first):
                goals = (new, goals)


def following(options, goals, binding, tests):
    """The states of the choices after the first."""
    for new in options:
        state_goals = goals
        for goal in reversed(new):
            state_goals = (goal, state_goals)
        yield state_goals, binding, tests
