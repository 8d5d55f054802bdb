"""Compares wl_form with the oracle's printing on random trees.

    python3 tools/printing_oracle/compare.py [COUNT [SEED [ORACLE]]]

ORACLE is the folder of printing.py and fuzz_printing.py, whose random trees are printed; tools/oracle, if none is given. A copy of the repository gets a
program that prints each tree's InputForm, its FullForm, its boxes in FullForm, and the FullForm of what its InputForm is
read as; `rt try` runs it, unproved. What is read back is compared for the trees of which that is promised.
"""
import pathlib
import random
import sys

sys.dont_write_bytecode = True
HERE = pathlib.Path(__file__).resolve().parent
sys.path.insert(0, str(HERE.parent))
import clone

LIBRARIES = "wl_form wl_syntax wl_expr wl_exact wl_ports"
BATCH = 500


def load(oracle):
    sys.path.insert(0, str(oracle))
    import printing
    import tree
    names = {}
    source = (oracle / "fuzz_printing.py").read_text().rsplit("main()", 1)[0]
    exec(compile(source, "fuzz_printing.py", "exec"), names)
    return printing, tree, names


def words(tree, t):
    """The tree's words, each node behind its head and its elements."""
    if type(t) is tree.Sym:
        return ["s:" + t.name]
    if type(t) is tree.Str:
        return ["t:" + ".".join(str(ord(c)) for c in t.text)]
    if type(t) is tree.Node:
        parts = words(tree, t.head)
        for a in t.args:
            parts += words(tree, a)
        return parts + [f"c:{len(t.args)}"]
    return [f"n:{t.numerator}/{t.denominator}"]


def main():
    count = int(sys.argv[1]) if len(sys.argv) > 1 else 10000
    seed = int(sys.argv[2]) if len(sys.argv) > 2 else 7
    oracle = pathlib.Path(sys.argv[3]).resolve() if len(sys.argv) > 3 else HERE.parent / "oracle"
    printing, tree, names = load(oracle)
    r = random.Random(seed)
    trees = [names["random_tree"](r, r.choice([1, 2, 3, 4])) for _ in range(count)]
    lines = [" ".join(words(tree, t)) for t in trees]
    got = clone.answers((HERE / "driver.rt.txt").read_text(), LIBRARIES, lines, 4, BATCH)
    wrong, clean = 0, 0
    for t, (text, full, boxed, read) in zip(trees, got):
        wanted = (printing.input_form(t), printing.full_form(t), printing.full_form(printing.boxes(t)))
        is_clean = printing.clean(t)
        clean += is_clean
        if wanted != (text, full, boxed) or is_clean and read != printing.full_form(printing.spell(t)):
            wrong += 1
            if wrong <= 20:
                print(f"{wanted!r}: wl_form {(text, full, boxed, read)!r}")
    print(f"trees: {count}, read back: {clean}, differences: {wrong}")
    sys.exit(1 if wrong else 0)


main()
