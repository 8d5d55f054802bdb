"""Notebook files, saved definitions, and `top`.

top(words, source) is a session.Ran.  python3 book.py [words] behaves as the finished `wl` with both.
"""
import sys

from cells import cells
from printing import clean, input_form, quoted
from session import Counts, Ran, Session, run
from syntax import SyntaxFault, classify, parse
from tokens import is_name, tokens
from tree import Node, Str, Sym, is_int, is_num, num
from trees import depth
from words import GREATEST_STEPS, Options, STEPS, number, split_words

LIMIT = 131_072
BOOK_USAGE = "usage: wl book [--steps N] [--total N] [--form input|full] [FILE]"
SAVE_USAGE = "usage: wl save [--steps N] [--total N] FILE NAME..."


class BookFault(Exception):
    """NotNotebook or TooLong."""


# ---- notebook files ----

def read_book(data):
    """The list of (content, style), or BookFault."""
    if len(data) > LIMIT:
        raise BookFault("TooLong")
    try:
        tree = parse(data)
    except SyntaxFault:
        raise BookFault("NotNotebook") from None
    if not is_node(tree, "Notebook", 1) or not is_node(tree.args[0], "List"):
        raise BookFault("NotNotebook")
    book = []
    for cell in tree.args[0].args:
        if not is_node(cell, "Cell", 2) or not all(type(a) is Str for a in cell.args):
            raise BookFault("NotNotebook")
        book.append((cell.args[0].text, cell.args[1].text))
    return book


def is_node(t, head, count=None):
    return type(t) is Node and t.head == Sym(head) and (count is None or len(t.args) == count)


def book_text(book):
    if not book:
        return "Notebook[{}]\n"
    written = ["Cell[%s, %s]" % (quoted(content), quoted(style)) for content, style in book]
    return "Notebook[{\n" + ",\n".join(written) + "\n}]\n"


def played(book, options):
    """(the book that ran, the session, whether all cells were answered)."""
    session = Session(options)
    out, everything = [], True
    for content, style in book:
        if style == "Output":
            continue
        out.append((content, style))
        if style != "Input":
            continue
        written = b""
        for cell in cells(content.encode()):
            everything = session.line(cell.text) == "Answered" and everything
            written += session.pending
        if written:
            out.append((written.decode(), "Output"))
    return out, session, everything


def ended(status, err=None, out=b"", session=None):
    history = list(session.kernel.history) if session else []
    return Ran(out, err, status, history, session.counts if session else Counts(0, 0, 0), session)


def read_options(words, names):
    """(Options without a file, positional words), or None."""
    found = split_words(words, names)
    if found is None:
        return None
    values, positional = found
    steps = number(values["--steps"], GREATEST_STEPS) if "--steps" in values else STEPS
    total = number(values["--total"], GREATEST_STEPS) if "--total" in values else None
    form = values.get("--form", "input")
    if steps is None or "--total" in values and total is None or form not in ("input", "full"):
        return None
    return Options(steps, total, form, None, None), positional


def run_book(words, source):
    found = read_options(words, ["--steps", "--total", "--form"])
    if found is None or len(found[1]) > 1:
        return ended(2, BOOK_USAGE)
    options, positional = found
    data = source(positional[0] if positional else None) if callable(source) else source
    if data is None:
        return ended(3, "wl: read failed")
    try:
        book = read_book(data)
    except BookFault as f:
        if f.args[0] == "TooLong":
            return ended(8, "wl: notebook longer than 131072 bytes")
        return ended(7, "wl: not a notebook")
    book, session, everything = played(book, options)
    return ended(0 if everything else 1, None, book_text(book).encode(), session)


# ---- saved definitions ----

class SaveFault(Exception):
    """NotOwn or NotPlain, with k."""


def with_rational(t):
    """Rational[n, m] for each fraction."""
    if is_num(t) and not is_int(t):
        return Node(Sym("Rational"), [num(t.numerator), num(t.denominator)])
    if type(t) is not Node:
        return t
    return Node(with_rational(t.head), [with_rational(a) for a in t.args])


def has_rational_node(t):
    if type(t) is not Node:
        return False
    if is_node(t, "Rational", 2) and all(is_int(a) for a in t.args):
        return True
    return has_rational_node(t.head) or any(has_rational_node(a) for a in t.args)


def restore(name, kind, items):
    return Node(Sym("RestoreEntry"), [Sym(name), Str(kind), Node(Sym("List"), items)])


def lines_of(store, name):
    """(the RestoreEntry of each line, whether its rule allows it to be plain), in the order of the saved text."""
    from rows_define import takes_rule
    entry = store.entry(name)
    for kind in ("own", "down", "up", "sub"):
        for left, body in entry.rules[kind]:
            allowed = (not has_rational_node(left) and not has_rational_node(body)
                       and takes_rule(name, kind, left))
            yield with_rational(restore(name, kind.capitalize(), [left, body])), allowed
    for tag in sorted(entry.messages, key=str.encode):
        yield restore(name, "Message", [Str(tag), Str(entry.messages[tag])]), True
    for tag in sorted(entry.off, key=str.encode):
        yield restore(name, "Off", [Str(tag)]), True
    if entry.attributes:
        yield restore(name, "Attributes", [Sym(a) for a in sorted(entry.attributes)]), True


def is_plain(tree, allowed):
    text = input_form(tree)
    if not allowed or len(text.encode()) > LIMIT or not clean(tree):
        return False
    verdict, syntax = classify(tokens(text, True))
    assert verdict == "Right", text
    return depth(syntax) <= 400


def save(store, names):
    """The saved text, or SaveFault."""
    from store import Store
    start = Store().entries
    for k, name in enumerate(names):
        if name in start:
            raise SaveFault("NotOwn", k)
    out, done = [], set()
    for k, name in enumerate(names):
        if name in done:
            continue
        done.add(name)
        for tree, allowed in lines_of(store, name):
            if not is_plain(tree, allowed):
                raise SaveFault("NotPlain", k)
            out.append(input_form(tree) + "\n")
    return "".join(out)


def run_save(words, source):
    found = read_options(words, ["--steps", "--total"])
    if found is None or len(found[1]) < 2 or not all(is_name(w) for w in found[1][1:]):
        return ended(2, SAVE_USAGE)
    options, (file, *names) = found
    args = ["--steps", str(options.steps)] + (["--total", str(options.total)] if options.total else [])
    ran = run(args + ["--", file], source)
    if ran.status > 1:
        return ran._replace(out=b"")
    try:
        return ran._replace(out=save(ran.session.kernel.store, names).encode())
    except SaveFault as f:
        return ran._replace(out=b"", status=9, err="wl: cannot save " + names[f.args[1]])


def top(words, source):
    if words[:1] == ["book"]:
        return run_book(words[1:], source)
    if words[:1] == ["save"]:
        return run_save(words[1:], source)
    return run(words, source)


if __name__ == "__main__":
    from wl import in_deep_thread, main
    sys.exit(in_deep_thread(lambda: main(sys.argv[1:], top)))
