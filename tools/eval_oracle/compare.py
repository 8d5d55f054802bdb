"""Compares the definition of evaluation with the oracle, on random sessions.

    python3 tools/eval_oracle/compare.py [COUNT [SEED]]

Each session becomes a row that holds by computing with the definition: the value of each cell, its items, the steps, the names read
in order, whether there was an effect, the deepest depth and the most turns are those that the oracle says. The rows stand in
files of their own in a copy of the crates, which `rt check` reads; nothing here is changed. It is fast where `rt check` has run in
crates/wl_laws before. Where the text of an item doesn't compute, the number of the items is compared.
"""
import pathlib
import re
import shutil
import subprocess
import sys
import tempfile

from definition_rows import ROOT, equation, run
from sessions import drawn

ROWS_A_FILE = 100
HEAD = '''-- Rows that the oracle gives.
use Rattle.std.specs.Prelude.{◌≡◌, true, false, [], ◌∷◌, refl, codes, pos, negsuc}
use Rattle.wl_expr.specs.Tree.{num}
use Rattle.wl_expr.specs.Words.{applied, natural, whole}
use Rattle.wl_rules.specs.Start.{words}
use Rattle.wl_laws.specs.Cells.{cells, briefs, name, string, call}

'''


def is_shut(item):
    """Whether an item shows a string in its quotes, or a `s::t` that isn't its own message's: their texts don't compute."""
    return '"' in item or "::" in item.split(": ", 1)[-1] and not item.startswith("General::stop: ")


def row(n, cells, steps):
    shown = "".join("-- %s\n" % cell for cell in cells)
    whole = not any(is_shut(item) for gave in run(cells, steps)[1] for item in gave.items)
    return "%srow_%d : %s\nunfolding cells\nrow_%d = refl\n\n" % (shown, n, equation(cells, steps, whole), n)


def copy_of_crates(folder):
    """wl_laws and what it stands on, with the libraries that are built."""
    lines = [line for line in (ROOT / "crates.txt").read_text().splitlines() if line and not line.startswith("#")]
    below = {line.split(":")[0]: line.split(":")[1].split() for line in lines}
    names = [name for name in below if name in ("wl_laws", *below["wl_laws"])]
    (folder / "crates.txt").write_text("".join("%s: %s\n" % (name, " ".join(below[name])) for name in names))
    for name in names:
        shutil.copytree(ROOT / "crates" / name, folder / "crates" / name, ignore=shutil.ignore_patterns("incremental"))
    return folder / "crates" / "wl_laws"


def add_rows(crate, rows):
    names = []
    for k in range(0, len(rows), ROWS_A_FILE):
        names.append("Drawn%d" % (k // ROWS_A_FILE))
        text = HEAD + "".join(row(n, *rows[n]) for n in range(k, min(k + ROWS_A_FILE, len(rows))))
        (crate / "proofs" / (names[-1] + ".antt")).write_text(text)
    lib = crate / "proofs" / "Lib.antt"
    lib.write_text(lib.read_text() + "".join("mod %s\n" % name for name in names))


def wrong_rows(crate, output, rows):
    """The sessions of the rows that don't hold."""
    places = re.findall(r"proofs/(Drawn\d+)\.antt:(\d+):\d+: error", output)
    found = {re.match(r"row_(\d+)", (crate / "proofs" / (name + ".antt")).read_text().splitlines()[int(line) - 1]) for name, line in places}
    return [rows[n] for n in sorted(int(row[1]) for row in found if row)]


def main():
    count = int(sys.argv[1]) if len(sys.argv) > 1 else 200
    seed = int(sys.argv[2]) if len(sys.argv) > 2 else 1
    rows = drawn(count, seed)
    folder = pathlib.Path(tempfile.mkdtemp())
    try:
        crate = copy_of_crates(folder)
        add_rows(crate, rows)
        done = subprocess.run(["rt", "check"], cwd=crate, capture_output=True, text=True)
        wrong = wrong_rows(crate, done.stdout, rows)
        for cells, steps in wrong:
            print("differs, with %d steps: %s" % (steps, " | ".join(cells)))
        if done.returncode and not wrong:
            print(done.stdout[-2000:], done.stderr[-2000:])
        print("%d sessions of %d cells, seed %d; %d differ" % (len(rows), sum(len(cells) for cells, _ in rows), seed, len(wrong)))
        sys.exit(1 if done.returncode else 0)
    finally:
        shutil.rmtree(folder)


if __name__ == "__main__":
    main()
