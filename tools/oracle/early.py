"""`run` before there is an evaluator: stage 1 reads sums on lines, stage 2 cells and tokens, stage 3 trees.

run_early(stage, words, data) is (out, err, status, history, counts of cells and refused).
python3 early.py STAGE [FILE]
"""
import re
import sys

from cells import TOO_LONG, cells
from exact import MAX, Overflow, add
from session import lines, refusal_line
from syntax import SyntaxFault, parse
from tokens import ScanFault, tokens
from tree import Node, Sym, is_num, num
from words import usage_line

sys.set_int_max_str_digits(0)

NOT_YET = "Refused: not supported yet."
PLUS = Sym("Plus")


class Refused(Exception):
    """The line that stands for the cell."""


def run_early(stage, words, data):
    if len(words) > 1 or words and words[0].startswith("-"):
        return b"", usage_line(total=False), 2, [], (0, 0)
    read = {1: input_of_line, 2: input_of_tokens}.get(stage, input_of_tree)
    out, history, refused = [], [], 0
    texts = list(line_cells(data)) if stage == 1 else [c.text for c in cells(data)]
    for text in texts:
        try:
            tree = read(text)
        except Refused as r:
            out.append(lines([r.args[0]]))
            refused += 1
            continue
        value, items, shown = value_of(tree)
        history.append((tree, value))
        out.append(lines(items + ["Out[%d]= %s" % (len(history), shown)]))
    return b"".join(out), None, 1 if refused else 0, history, (len(texts), refused)


def value_of(tree):
    """(value, items, text) of a number or of Plus of numbers."""
    if is_num(tree):
        return tree, [], str(tree)
    total = num(0)
    try:
        for k in tree.args:
            total = add(total, k)
    except Overflow:
        return (Node(Sym("Overflow"), []), ["General::ovfl: Overflow occurred in computation."], "Overflow[]")
    return total, [], str(total)


def sum_of(numbers):
    numbers = [num(k) for k in numbers]
    return numbers[0] if len(numbers) == 1 else Node(PLUS, numbers)


# stage 1: a line is a cell

def line_cells(data):
    for line in data.split(b"\n"):
        cell = line.lstrip(b" \t\f\r")
        if cell:
            yield cell


def input_of_line(cell):
    blanks = rb"[ \t\f\r]"
    numbers = []
    if (len(cell) <= 131_072 and re.fullmatch(rb"[0-9+ \t\f\r]*", cell)
            and not re.search(rb"\+" + blanks + rb"*\+", cell)
            and not re.search(rb"[0-9]" + blanks + rb"+[0-9]", cell)
            and not cell.startswith(b"+") and not cell.rstrip(b" \t\f\r").endswith(b"+")):
        numbers = [int(k) for k in re.findall(rb"[0-9]+", cell)]
    if not numbers or max(numbers) > MAX or sum(numbers) > MAX:
        raise Refused(NOT_YET)
    return sum_of(numbers)


# stage 2: cells and tokens

def input_of_tokens(cell):
    if cell == TOO_LONG:
        raise Refused(refusal_line("TooLong"))
    try:
        toks = tokens(cell.decode("utf-8"))
    except UnicodeDecodeError:
        raise Refused(refusal_line("NotUtf8")) from None
    except ScanFault as f:
        raise Refused(refusal_line(f.kind, f.at)) from None
    plus = [t.kind == "Sign" and t.text == "+" for t in toks]
    is_number = [t.kind == "Number" for t in toks]
    if (not all(p or q for p, q in zip(plus, is_number))
            or any(a and b for a, b in zip(is_number, is_number[1:])) or plus[-1]):
        raise Refused(NOT_YET)
    for k, t in enumerate(toks):
        if plus[k] and (k == 0 or plus[k - 1]):
            raise Refused(refusal_line("Unexpected", t.at))
    return sum_of([int(t.text) for t in toks if t.kind == "Number"])


# stage 3: trees

def input_of_tree(cell):
    if cell == TOO_LONG:
        raise Refused(refusal_line("TooLong"))
    try:
        tree = parse(cell)
    except SyntaxFault as f:
        raise Refused(refusal_line(f.kind, f.at)) from None

    def plain(t):
        return is_num(t) and t >= 0

    if plain(tree) or type(tree) is Node and tree.head == PLUS and all(plain(a) for a in tree.args):
        return tree
    raise Refused(NOT_YET)


if __name__ == "__main__":
    with open(sys.argv[2], "rb") if len(sys.argv) > 2 else sys.stdin.buffer as f:
        ran = run_early(int(sys.argv[1]), [], f.read())
    sys.stdout.buffer.write(ran[0])
    sys.exit(ran[2])
