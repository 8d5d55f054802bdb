"""Compares wl_syntax with the oracle's parser on random cells.

    python3 tools/syntax_oracle/compare.py [COUNT [SEED]]

The random token lists of tools/oracle make the cells; in some of them a literal in another base stands, right or wrong, for one token.
A copy of the repository gets a program that prints each line's expression in full, or its refusal; `rt try` runs it, unproved.
"""
import collections
import pathlib
import random
import sys

sys.dont_write_bytecode = True
HERE = pathlib.Path(__file__).resolve().parent
sys.path.insert(0, str(HERE.parent))
import clone

LIBRARIES = "wl_syntax wl_expr wl_scan wl_exact"


def load():
    sys.path.insert(0, str(HERE.parent / "oracle"))
    import fuzz_syntax
    import syntax
    return syntax, vars(fuzz_syntax)


def full(tree):
    kind = type(tree).__name__
    if kind == "Fraction":
        return str(tree.numerator)
    if kind == "Sym":
        return tree.name if hasattr(tree, "name") else tree[0]
    if kind == "Str":
        return '"' + (tree.text if hasattr(tree, "text") else tree[0]) + '"'
    return full(tree.head) + "[" + ", ".join(full(a) for a in tree.args) + "]"


def expected(syntax, text):
    try:
        return full(syntax.parse(text.encode()))
    except syntax.SyntaxFault as fault:
        if fault.kind in ("Unclosed", "NotUtf8", "TooDeep"):
            return fault.kind
        if fault.kind == "Unexpected":
            return f"Unexpected {fault.at}"
        return f"Scan {fault.at}"


def literal(r):
    base = r.choice(["2", "8", "10", "16", "36", "016", "0", "1", "37"])
    digits = "".join(r.choice("01179abfzAFZ") for _ in range(r.choice([0, 1, 2, 2, 3, 5, 30])))
    return base + "^^" + digits + r.choice(["", "", "", "."])


def cells(names, count, seed):
    r = random.Random(seed)
    made = []
    while len(made) < count:
        if r.random() < 0.5:
            tokens = names["grown_list"](r, r.randint(3, 24))
        else:
            size = r.choice([1, 2, 3, 4, 5, 6, 7, 8, 9, 12])
            tokens = names["random_list"](r, r.choice(names["POOLS"]), size)
        texts = [t.text for t in tokens]
        if texts and r.random() < 0.3:
            texts[r.randrange(len(texts))] = literal(r)
        text = (" " if r.random() < 0.8 else "").join(texts)
        if "\n" not in text:
            made.append(text)
    return made


def main():
    count = int(sys.argv[1]) if len(sys.argv) > 1 else 12000
    seed = int(sys.argv[2]) if len(sys.argv) > 2 else 7
    syntax, names = load()
    lines = cells(names, count, seed)
    wanted = [expected(syntax, line) for line in lines]
    got = clone.answers((HERE / "driver.rt.txt").read_text(), LIBRARIES, lines)
    kinds = collections.Counter(w.split()[0] if w.split()[0] in ("Unclosed", "Unexpected", "Scan", "TooDeep") else "tree" for w in wanted)
    wrong = [(c, w, g) for c, w, g in zip(lines, wanted, got) if w != g]
    for cell, want, answer in wrong[:20]:
        print(f"{cell!r}: oracle {want!r}, wl_syntax {answer!r}")
    print(dict(kinds), f"differences: {len(wrong)}")
    sys.exit(1 if wrong else 0)


main()
