"""Calls of built-in functions, compared with the oracle's: what algebra_oracle and lists_oracle share.

A call is a name and its elements, one line `name|words`. The words of an element make a stack: a number, `'` and a text, a
name, `f:2` for the node of that name and the last two, `:2` for a node whose head lies below its elements, `~9` for a text of
nine letters s, and `^9` for nine lists round the last. The driver, calls.rt.txt, answers with one line each.
"""
import collections
import pathlib
import sys

import clone

HERE = pathlib.Path(__file__).resolve().parent
# a text of more bytes is shown by its ends and its length
LONG = 1_000


def load():
    sys.path.insert(0, str(HERE / "oracle"))
    import builtins_pure
    import tree
    return builtins_pure, tree


def written(tree, t, inner):
    """The words of a tree, those of its parts by `inner`."""
    if type(t) is tree.Node:
        args = [inner(tree, arg) for arg in t.args]
        if type(t.head) is tree.Sym:
            return " ".join(args + [f"{t.head.name}:{len(args)}"])
        return " ".join([inner(tree, t.head)] + args + [f":{len(args)}"])
    if type(t) is tree.Sym:
        return t.name
    return "'" + t.text if type(t) is tree.Str else str(t)


def shown(tree, t):
    """The words of a result, as the driver shows it."""
    size = len(t.text.encode()) if type(t) is tree.Str else 0
    if size > LONG:
        return f"'{t.text[:3]}~{size}~{t.text[:-4:-1]}"
    return written(tree, t, shown)


def given(tree, t):
    """The words of an element, with the short ones for a long text and for many lists."""
    if type(t) is tree.Str and len(t.text) > LONG:
        return f"~{len(t.text)}"
    depth = 0
    while type(t) is tree.Node and t.head == tree.Sym("List") and len(t.args) == 1:
        t, depth = t.args[0], depth + 1
    return f"{given(tree, t)} ^{depth}" if depth else written(tree, t, given)


def expected(builtins, tree, names, name, args):
    if name not in names:
        return "stays"
    try:
        answer = builtins.apply(name, args)
    except builtins.TooLarge:
        return "large"
    if answer is None:
        return "stays"
    words = [] if answer[0] == "gives" else [answer[1][1]] + [shown(tree, t) for t in answer[1][2]]
    if answer[0] != "told":
        if not tree.fits(answer[-1]):
            return "large"
        words.append(shown(tree, answer[-1]))
    return " ".join([answer[0]] + words)


def compare(crate, libraries, names, calls):
    """Compares what the crate's `apply` answers with what the oracle says, prints the figures, and gives the status.

    A call is a name, its elements, and, where the oracle isn't to be asked, the answer.
    """
    sys.setrecursionlimit(20_000)
    builtins, tree = load()
    wanted = [known[0] if known else expected(builtins, tree, names, name, args) for name, args, *known in calls]
    lines = [name + "|" + " ".join(given(tree, arg) for arg in args) for name, args, *_ in calls]
    program = (HERE / "calls.rt.txt").read_text().replace("CRATE", crate)
    got = clone.answers(program, crate + " " + libraries, lines)
    wrong = [(line, w, g) for line, w, g in zip(lines, wanted, got) if w != g]
    for line, want, answer in wrong[:20]:
        print(f"{line[:300]!r}: oracle {want[:300]!r}, {crate} {answer[:300]!r}")
    kinds = collections.Counter(w.split()[0] for w in wanted)
    changed = {name for (name, *_), w in zip(calls, wanted) if w != "stays"}
    stayed = {name for (name, *_), w in zip(calls, wanted) if w == "stays"} & set(names)
    unmet = sorted(set(names) - changed)
    print(f"{len(calls)} calls: {dict(kinds)}")
    print(f"{len(changed)} of {len(names)} names gave something{': not ' if unmet else ''}{' '.join(unmet)}; {len(stayed)} stayed too")
    print(f"differences: {len(wrong)}")
    return 1 if wrong or unmet else 0
