"""The evaluator: evaluation, matching, state, guards.  Every expression is evaluated anew.

Kernel(steps) has evaluate, refill, put_line, uncaught, settled and the fields that they name.
Ends other than a value are Python exceptions (class End).  The built-in functions that evaluate stand in
rows_control.py, those of F4 in rows_state.py and rows_define.py, F1 and F2 in builtins_pure.py.
"""
import re
import sys
import threading

from tree import Sym, Str, Node, num, fits
from patterns import trials, head_symbols, FAIL
from store import Store, LIMITS
import filling
import builtins_pure
import assign

sys.setrecursionlimit(1_000_000)
STACK_BYTES = 1 << 30
TRUE, NULL = Sym("True"), Sym("Null")
LAST_NUMBER = 2 ** 64 - 1


class End(Exception):
    pass


class Thrown(End):
    def __init__(self, value, tag):
        self.value, self.tag = value, tag


class Aborted(End):
    pass


class BudgetEnded(End):
    pass


class Broke(End):
    pass


class Continued(End):
    pass


class Record:
    """The record of an evaluation, and the end."""

    def __init__(self):
        self.names = {}            # name -> True, in the order of the first reads
        self.effect = False
        self.steps = 0
        self.depth = 0             # 1 for the evaluation's own level
        self.turns = 0             # the most turns of one evaluation
        self.base = 0              # open depth outside

    def __repr__(self):
        return "Record(names=%s, effect=%s, steps=%d, depth=%d, turns=%d)" % (
            list(self.names), self.effect, self.steps, self.depth, self.turns)


def with_big_stack(function):
    """Runs function() in a thread whose stack is large, and hands on its result or exception."""
    if getattr(threading.current_thread(), "big_stack", False):
        return function()
    box = {}

    def work():
        try:
            box["value"] = function()
        except BaseException as fault:
            box["fault"] = fault

    old = threading.stack_size(STACK_BYTES)
    thread = threading.Thread(target=work)
    thread.big_stack = True
    thread.start()
    threading.stack_size(old)
    thread.join()
    if "fault" in box:
        raise box["fault"]
    return box["value"]


def is_atom(t):
    return type(t) is not Node and type(t) is not Sym


class Kernel:
    def __init__(self, steps):
        self.store = Store()
        self.history = []
        self.module_number = 0
        self.steps_left = steps
        self.open_depth = 0
        self.quiets = 0
        self.heard = 0                     # messages issued that weren't off
        self.counts = {}                   # (symbol, tag) -> times shown in this cell
        self.shown = []
        self.record = Record()

    # The outside

    def refill(self, steps):
        self.steps_left = steps
        self.shown = []
        self.counts = {}

    def evaluate(self, tree):
        return with_big_stack(lambda: self.evaluate_here(tree))

    def evaluate_here(self, tree):
        self.record = Record()
        try:
            return "value", self.eval(tree)
        except Thrown as end:
            return "thrown", end.value, end.tag
        except Aborted:
            return ("aborted",)
        except BudgetEnded:
            return ("budget",)
        except Broke:
            return "value", Node(Sym("Hold"), (Node(Sym("Break"), ()),))
        except Continued:
            return "value", Node(Sym("Hold"), (Node(Sym("Continue"), ()),))

    def put_line(self, line_input, value):
        self.history.append((line_input, value))

    def uncaught(self, value, tag):
        throw = Node(Sym("Throw"), (value,) if tag is None else (value, tag))
        hold = Node(Sym("Hold"), (throw,))
        if not fits(hold):
            self.issue("General", "large", [])
            return Sym("$Aborted")
        self.issue("Throw", "nocatch", [throw])
        return hold

    def copy(self):
        """A kernel in the same state, for questions about it."""
        new = Kernel.__new__(Kernel)
        new.__dict__.update(self.__dict__)
        new.store = self.store.copy()
        new.history = list(self.history)
        new.counts = dict(self.counts)
        new.shown = list(self.shown)
        new.record = Record()
        return new

    # Steps, depth, reads, effects

    def step(self):
        if self.steps_left == 0:
            raise BudgetEnded()
        self.steps_left -= 1
        self.record.steps += 1

    def read(self, name):
        self.record.names[name] = True

    def attributes(self, name):
        self.read(name)
        return self.store.attributes(name)

    def changed(self, name):
        """Notes the change of an entry, which the caller makes."""
        self.read(name)
        self.record.effect = True

    def large(self):
        self.issue("General", "large", [])
        raise Aborted()

    def tested(self, tree):
        """A tree whose size is tested."""
        if not fits(tree):
            self.large()
        return tree

    # Messages

    def issue(self, symbol, tag, args):
        self.read(symbol)
        self.read("General")
        self.record.effect = True
        entry = self.store.entry(symbol)
        if tag in entry.off:
            return
        self.heard += 1
        if self.quiets:
            return
        count = self.counts.get((symbol, tag), 0)
        if count >= 3:
            return
        self.counts[symbol, tag] = count + 1
        text = entry.messages.get(tag)
        if text is None:
            text = self.store.entry("General").messages.get(tag, "-- Message text not found --")
        self.show("%s::%s: %s" % (symbol, tag, filled_text(text, args)))
        if count == 2:
            self.show("General::stop: Further output of %s::%s will be suppressed during this "
                      "calculation." % (symbol, tag))

    def show(self, item):
        self.record.effect = True
        self.shown.append(item)

    # Evaluation

    def eval(self, t):
        if is_atom(t):
            return t
        limit = self.store.limit("$RecursionLimit")
        if self.open_depth + 1 > limit:
            self.issue("$RecursionLimit", "reclim", [num(limit)])
            raise Aborted()
        self.open_depth += 1
        record = self.record
        record.depth = max(record.depth, self.open_depth - record.base)
        try:
            turns = 0
            while True:
                limit = self.store.limit("$IterationLimit")
                if turns + 1 > limit:
                    self.issue("$IterationLimit", "itlim", [num(limit)])
                    raise Aborted()
                turns += 1
                if turns > self.record.turns:
                    self.record.turns = turns
                final, t = self.turn(t)
                if final or is_atom(t):
                    return t
        finally:
            self.open_depth -= 1

    def eval_built(self, t):
        """The evaluation of a tree that a test or a built-in function has built, whose size is tested."""
        return self.eval(self.tested(t))

    def turn(self, t):
        """(True, final expression) or (False, result of a rule)."""
        self.step()
        return self.turn_of_symbol(t) if type(t) is Sym else self.turn_of_node(t)

    def turn_of_symbol(self, t):
        self.read(t.name)
        result = self.trial(self.store.rules(t.name, "own"), t)
        if result is None or result == t:
            return True, t
        return False, result

    def turn_of_node(self, t):
        # Steps 1 and 2
        head = self.eval(t.head)
        attributes = self.attributes(head.name) if type(head) is Sym else frozenset()
        first = filling.rebuilt(t, head, self.evaluated_elements(t.args, attributes))
        self.tested(first)
        # Step 3
        args = first.args
        stripped = False
        if "HoldAllComplete" not in attributes:
            plain = tuple(without_unevaluated(a) for a in args)
            stripped = any(a is not b for a, b in zip(args, plain))
            args = plain
        # Steps 4 to 7
        kind, form = self.arrange(first, args, attributes)
        if kind == "threaded":
            return False, form
        if kind == "uneven":
            self.issue("Thread", "tdlen", [form])
        # Steps 8 to 10
        result = self.apply_rules(form, attributes)
        if result is None or result == form:
            return True, (first if stripped else form)
        return False, result

    def evaluated_elements(self, args, attributes):
        """Step 2."""
        out = list(args)
        for k in evaluated_places(args, attributes):
            out[k] = self.eval(args[k])
        return out

    def arrange(self, first, args, attributes):
        """Steps 4 to 7 on the first form's head with args: ("node", t), ("uneven", t) or
        ("threaded", t)."""
        head = first.head
        if "SequenceHold" not in attributes and "HoldAllComplete" not in attributes:
            args = spliced(args, Sym("Sequence"))
        if "Flat" in attributes:
            args = spliced(args, head)
        kind = "node"
        if "Listable" in attributes:
            lists = [a for a in args if builtins_pure.is_list(a)]
            if lists:
                length = len(lists[0].args)
                if all(len(a.args) == length for a in lists):
                    return "threaded", self.threaded(head, args, length)
                kind = "uneven"
        if "Orderless" in attributes:
            args = builtins_pure.canonical(args)
        return kind, filling.rebuilt(first, head, args)

    def threaded(self, head, args, length):
        items = []
        for k in range(length):
            items.append(self.tested(Node(head, [
                a.args[k] if builtins_pure.is_list(a) else a for a in args])))
        return self.tested(builtins_pure.list_of(items))

    def apply_rules(self, form, attributes):
        """Steps 8 to 10: the result of the first rule that applies, or None."""
        if "HoldAllComplete" not in attributes:
            for name in up_names(form):
                self.read(name)
                result = self.trial(self.store.rules(name, "up"), form)
                if result is not None:
                    return result
        kind, name = assign.target(form)
        if kind != "raw":
            self.read(name)
            result = self.trial(self.store.rules(name, kind), form)
            if result is not None:
                return result
        return self.built_in(form)

    def built_in(self, form):
        import rows
        head, args = form.head, form.args
        if type(head) is Sym:
            row = rows.ROWS.get(head.name)
            if row is not None:
                result = row(self, args, form)
            else:
                result = self.pure_built_in(head.name, args)
        else:
            result = rows.function_applied(head, args)
        return None if result is None else self.tested(result)

    def pure_built_in(self, name, args):
        try:
            answer = builtins_pure.apply(name, args)
        except builtins_pure.TooLarge:
            self.large()
        if answer is None:
            return None
        if answer[0] in ("notice", "told"):
            self.issue(*answer[1])
        return None if answer[0] == "told" else answer[-1]

    # Trials, matches and guards

    def trial(self, rules, t):
        """The result of the first rule that applies, or None.  `rules` is a snapshot."""
        for left, body in rules:
            result = self.match(left, t, body)
            if result is not None:
                return result
        return None

    def match(self, pattern, t, body=None):
        """A match, with conditions that share locals.  Without a body: the binding or None.  With a body: the result or None."""
        flags = {}
        for name in head_symbols(pattern):
            flags[name] = self.attributes(name)
        for leaf in trials(pattern, t, flags):
            self.step()
            if leaf is FAIL:
                continue
            binding, tests = leaf
            if not self.tests_hold(binding, tests):
                continue
            if body is None:
                return binding
            filled = self.tested(filling.fill(body, binding))
            if not (is_guarded(body) and is_guarded(filled)):
                return filled
            result = self.guard(filled)
            if result is not None:
                return result
        return None

    def tests_hold(self, binding, tests):
        """All tests in order, up to the first that isn't True."""
        for test in tests:
            if test[0] == "applies":
                for e in test[2]:
                    if self.eval_built(Node(test[1], (e,))) != TRUE:
                        return False
            elif test[0] == "holds":
                if self.eval_built(filling.fill(test[1], binding)) != TRUE:
                    return False
            elif self.match(test[1], test[2][0]) is not None:
                return False
        return True

    def guard(self, g):
        """A guard: the result, or None."""
        import rows
        if not is_guarded(g) and not is_condition(g):
            return g
        if is_condition(g):
            return g.args[0] if self.eval(g.args[1]) == TRUE else None
        name = g.head.name
        pairs = filling.local_list(g.args[0], name)
        if name == "Module":
            return self.guard(rows.module_body(self, pairs, g.args[1], guarded=True))
        if name == "With":
            return self.guard(self.tested(rows.with_body(self, pairs, g.args[1])))

        def inside():
            result = self.guard(g.args[1])
            return None if result is None else self.eval(result)
        return rows.in_block(self, pairs, inside)

    # Definitions made by other means than Set

    def set_own(self, name, value):
        """The own rule that Module, Block, Table and Do set."""
        self.changed(name)
        self.store.put_rule(name, "own", Sym(name), value)

    def take_entry(self, name):
        self.changed(name)
        return self.store.swap_entry(name)

    def give_entry(self, name, saved):
        self.changed(name)
        self.store.restore_entry(name, saved)

    def next_module_number(self):
        self.record.effect = True
        self.module_number = min(self.module_number + 1, LAST_NUMBER)
        return self.module_number

    # Agreement of states, settled expressions

    def turn_record(self, t):
        """(final, expression, record) of Turn in the present state, with t's level open."""
        probe = self.copy()
        probe.record.base = probe.open_depth
        probe.open_depth += 1
        probe.record.depth = 1
        probe.record.turns = 1
        final, e = probe.turn(t)
        return final, e, probe.record

    def settled(self, t):
        """Whether it is settled in the present state."""
        if is_atom(t):
            return True
        try:
            final, e, record = self.turn_record(t)
        except End:
            return False
        if not final or e != t or record.effect:
            return False
        if type(t) is Sym:
            return True
        if not self.settled(t.head):
            return False
        attributes = self.store.attributes(t.head.name) if type(t.head) is Sym else frozenset()
        return all(self.settled(t.args[k]) for k in evaluated_places(t.args, attributes))


def filled_text(text, args):
    """The marks of a message text, read once from left to right."""
    import printing

    def of(mark):
        k = int(mark.group(1))
        if k > len(args):
            return mark.group(0)
        e = args[k - 1]
        return e.text if type(e) is Str else printing.input_form(e)
    return re.sub("`([1-9][0-9]*)`", of, text)


def evaluated_places(args, attributes):
    """The places of the elements that step 2 evaluates, numbers and strings left out."""
    if "HoldAllComplete" in attributes:
        return []
    hold_first = "HoldFirst" in attributes or "HoldAll" in attributes
    hold_rest = "HoldRest" in attributes or "HoldAll" in attributes
    places = []
    for k, a in enumerate(args):
        held = hold_first if k == 0 else hold_rest
        if not is_atom(a) and (not held or filling.is_head(a, "Evaluate")):
            places.append(k)
    return places


def without_unevaluated(a):
    if type(a) is Node and a.head == Sym("Unevaluated") and len(a.args) == 1:
        return a.args[0]
    return a


def spliced(args, head):
    """Elements with this head replaced by their elements, again and again."""
    out, todo = [], list(reversed(args))
    while todo:
        a = todo.pop()
        if type(a) is Node and a.head == head:
            todo.extend(reversed(a.args))
        else:
            out.append(a)
    return tuple(out)


def up_names(form):
    names = {}
    for a in form.args:
        if type(a) is Sym:
            names[a.name] = True
        elif type(a) is Node and type(a.head) is Sym:
            names[a.head.name] = True
    return names


def is_condition(t):
    return filling.is_head(t, "Condition") and len(t.args) == 2


def is_guarded(t):
    if type(t) is not Node or len(t.args) != 2 or type(t.head) is not Sym:
        return False
    if t.head.name not in ("Module", "With", "Block"):
        return False
    if filling.local_list(t.args[0], t.head.name) is None:
        return False
    return is_condition(t.args[1]) or is_guarded(t.args[1])
