"""The loop over cells: the transcript.

The evaluator is an object with
  refill(steps)            begins a cell: steps left, empty items and message counts
  evaluate(tree)           ('value', t), ('thrown', v, tag or None), ('aborted',) or ('budget',)
  uncaught(value, tag)     the value of an uncaught throw; issues its message
  put_line(input, value)   appends to the history
  shown, steps_left, history
and is made by make_kernel(steps); without make_kernel it is evaluate.Kernel.
"""
from collections import namedtuple

from cells import TOO_LONG, cells
from printing import full_form, input_form
from syntax import SyntaxFault, parse
from tree import Node, Sym
from words import USAGE, read_words, usage_line

SOURCE_LIMIT = 1_073_741_824
GREATEST_COUNT = 2 ** 64 - 1

Ran = namedtuple("Ran", "out err status history counts session")
Counts = namedtuple("Counts", "cells refused steps")

NULL = Sym("Null")
ABORTED = Sym("$Aborted")
COMPOUND = Sym("CompoundExpression")
FORMS = {Sym("FullForm"): full_form, Sym("InputForm"): input_form}

REFUSALS = {
    "TooLong": "cell longer than 131072 bytes.",
    "NotUtf8": "not UTF-8.",
    "Real": "real number at byte %d.",
    "LongNumber": "number past 127 bits at byte %d.",
    "BadChar": "character at byte %d.",
    "BadEscape": "escape at byte %d.",
    "OpenString": "open string at byte %d.",
    "OpenComment": "open comment at byte %d.",
    "Base": "base at byte %d.",
    "Digit": "digit at byte %d.",
    "Unclosed": "unfinished input.",
    "Unexpected": "unexpected input at byte %d.",
    "TooDeep": "nested deeper than 400.",
}


def refusal_line(kind, at=None):
    text = REFUSALS[kind]
    return "Refused: " + (text % at if "%d" in text else text)


class Session:
    """One session: `line(cell)` does one cell and leaves its bytes in `pending`."""

    def __init__(self, options, make_kernel=None, bases=True):
        if make_kernel is None:
            from evaluate import Kernel as make_kernel
        self.options = options
        self.bases = bases
        self.kernel = make_kernel(options.steps)
        self.total_left = options.total         # None: without end
        self.counts = Counts(0, 0, 0)
        self.pending = b""

    def line(self, text):
        """text: the bytes of the cell or TOO_LONG.  'Answered', 'Refused' or 'BudgetEnded'."""
        try:
            if text == TOO_LONG:
                raise SyntaxFault("TooLong")
            tree = parse(text, self.bases)
        except SyntaxFault as f:
            self.pending = lines([refusal_line(f.kind, f.at)])
            self.count(refused=1)
            return "Refused"
        return self.answer(tree)

    def count(self, refused=0, steps=0):
        c = self.counts
        self.counts = Counts(*(min(n, GREATEST_COUNT)
                               for n in (c.cells + 1, c.refused + refused, c.steps + steps)))

    def answer(self, tree):
        n = len(self.kernel.history) + 1
        steps, by_total = self.options.steps, False
        if self.total_left is not None and self.total_left < steps:
            steps, by_total = self.total_left, True
        self.kernel.refill(steps)

        expression, silent = without_last_null(tree)
        end = self.kernel.evaluate(expression)
        last_item = []
        if end[0] == "value":
            value = end[1]
        elif end[0] == "thrown":
            value = self.kernel.uncaught(end[1], end[2])
        elif end[0] == "aborted":
            value = ABORTED
        elif end[0] == "budget":
            last_item = [self.budget_item(by_total)]
            value = ABORTED
        else:
            raise ValueError(end)

        taken = steps - self.kernel.steps_left
        if self.total_left is not None:
            self.total_left -= taken
        self.count(steps=taken)

        label, text, kept = shown_value(n, value, self.options.form)
        answer = [] if silent or value == NULL else [label + text()]
        self.pending = lines(list(self.kernel.shown) + last_item + answer)
        self.kernel.put_line(tree, kept)
        return "BudgetEnded" if end[0] == "budget" else "Answered"

    def budget_item(self, by_total):
        if by_total:
            return "General::total: Total step budget of %d exceeded." % self.options.total
        return "General::steps: Step budget of %d exceeded." % self.options.steps


def lines(texts):
    return "".join(t + "\n" for t in texts).encode()


def without_last_null(tree):
    """What is evaluated of a cell's expression, and whether its answer stays unshown."""
    if type(tree) is Node and tree.head == COMPOUND and len(tree.args) >= 2 and tree.args[-1] == NULL:
        left = tree.args[:-1]
        return (left[0] if len(left) == 1 else Node(COMPOUND, left)), True
    return tree, False


def shown_value(n, value, form):
    """(label, function that gives the text, the value that Out[n] keeps)."""
    if type(value) is Node and value.head in FORMS and len(value.args) == 1:
        e = value.args[0]
        return "Out[%d]//%s= " % (n, value.head.name), lambda: FORMS[value.head](e), e
    write = full_form if form == "full" else input_form
    return "Out[%d]= " % n, lambda: write(value), value


# ---- the demonstration ----

def demo_cells(count):
    found, s = [], count
    for k in range(1, count + 1):
        s = (1103515245 * s + 12345) % 2 ** 31
        r = s // 65536
        a, b, form = r % 97, r // 97 % 97, r % 5
        found.append(["Total[Table[i^2, {i, %d}]]" % a,
                      "d[%d] = {%d, %d}" % (k, a, b),
                      "Sort[{%d, %d, %d}]" % (b, a, k),
                      "{%d, %d} /. %d -> %d" % (a, b, a, k),
                      "%d.5" % a][form])
    return found


def demo_notebook(count):
    """N cells, each on a line."""
    return "".join(c + "\n" for c in demo_cells(count)).encode()


# ---- the whole run ----

def run(words, source, make_kernel=None, bases=True, total=True, limit=SOURCE_LIMIT):
    """Transcript.  source: the bytes, or a function from the name (or None) to the bytes, None for a fault.

    bases and total switch literals in other bases and the budget of the whole run.  `limit` is there for tests of status 6.
    """
    options = read_words(words, total)
    if options == USAGE:
        return Ran(b"", usage_line(total), 2, [], Counts(0, 0, 0), None)
    session = Session(options, make_kernel, bases)
    out, worst = [], 0

    def play(texts):
        nonlocal worst
        for text in texts:
            if session.line(text) != "Answered":
                worst = 1
            out.append(session.pending)

    def ended(status, err=None, written=None):
        written = b"".join(out) if written is None else written
        return Ran(written, err, status, list(session.kernel.history), session.counts, session)

    if options.demo is not None:
        play(cell.text for cell in cells(demo_notebook(options.demo)))
        return ended(worst, written=b"cells %d\nrefused %d\nsteps %d\n" % session.counts)
    data = source(options.file) if callable(source) else source
    if data is None:
        return ended(3, "wl: read failed")
    if len(data) > limit:
        play(cell.text for cell in cells(data) if cell.end is not None and cell.end < limit)
        return ended(6, "wl: input longer than 1073741824 bytes")
    play(cell.text for cell in cells(data))
    return ended(worst)
