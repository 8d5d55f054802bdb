"""Compares the demonstration notebooks of wl_demo with the oracle's.

    python3 tools/demo/compare.py [COUNT [SEED]]

The notebooks of no cell to 200, that of 20,000, and COUNT of random sizes between. A copy of the repository gets a program
that prints the cells of each; `rt try` runs it, unproved.
"""
import pathlib
import random
import sys

sys.dont_write_bytecode = True
HERE = pathlib.Path(__file__).resolve().parent
sys.path[:0] = [str(HERE.parent), str(HERE.parent / "oracle")]
import clone
from session import demo_cells

MOST = 20_000


def cells_of(sizes, batch):
    """What is printed of these notebooks, so many in a run: `rt try` takes a megabyte of output."""
    return clone.answers((HERE / "driver.rt.txt").read_text(), "wl_demo", [str(n) for n in sizes], batch=batch)


def main():
    count = int(sys.argv[1]) if len(sys.argv) > 1 else 5
    seed = int(sys.argv[2]) if len(sys.argv) > 2 else 7
    r = random.Random(seed)
    small, large = [*range(201)], [MOST, *(r.randint(201, MOST) for _ in range(count))]
    sizes = small + large
    got = cells_of(small, len(small)) + cells_of(large, 2)
    cells, wrong = 0, 0
    for size, text in zip(sizes, got):
        wanted = demo_cells(size)
        *given, end = text.split("\t")
        cells += len(given)
        if (given, end) != (wanted, "end"):
            wrong += 1
            at = next((k for k, pair in enumerate(zip(given, wanted)) if pair[0] != pair[1]), len(given))
            print(f"notebook of {size}, cell {at + 1}: {given[at : at + 1]} for {wanted[at : at + 1]}, then {end!r}")
    print(f"notebooks: {len(sizes)}, cells: {cells}, differences: {wrong}")
    sys.exit(1 if wrong else 0)


main()
