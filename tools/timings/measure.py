"""Times built-in functions on long lists, with a program that is proved and built.

    python3 tools/timings/measure.py [CALL=COUNT ..]

A copy of the repository gets a program (driver.rt.txt) that makes each call's elements, then times the call alone. `rt run` proves and
builds it, which takes some minutes where nothing is kept of the crates below. Without words the calls of CALLS are timed, each at half
its length and at its length, so that what isn't about linear shows.
"""
import pathlib
import subprocess
import sys
import tempfile

sys.dont_write_bytecode = True
HERE = pathlib.Path(__file__).resolve().parent
sys.path.insert(0, str(HERE.parent))
import clone

LIBRARIES = "wl_algebra wl_lists wl_form wl_expr wl_exact wl_ports anyhow indexmap unicode_ident"
CRATES = ["wl_ports", "wl_exact", "wl_expr", "wl_form", "wl_algebra", "wl_lists"]
CALLS = ["plus_distinct", "plus_equal", "times_distinct", "sort_numbers", "sort_nodes", "union", "part_distinct", "part_equal", "part_inside"]


def main():
    rows = [word.split("=") for word in sys.argv[1:]]
    if not rows:
        rows = [(call, count) for call in CALLS for count in (50_000, 100_000)]
        rows += [("range", 1_999_994), ("range", 3_999_988)]
    lines = "".join(f"{call} {count}\n" for call, count in rows)
    with tempfile.TemporaryDirectory() as folder:
        copy = pathlib.Path(folder)
        clone.copied(copy, CRATES)
        with open(copy / "crates.txt", "a") as listed:
            listed.write("measure: " + LIBRARIES + "\n")
        source = copy / "crates" / "measure" / "src"
        source.mkdir(parents=True)
        (source / "main.rt").write_text((HERE / "driver.rt.txt").read_text())
        run = subprocess.run(["rt", "run"], cwd=source.parent, input=lines, capture_output=True, text=True)
        timed = [line.split() for line in run.stdout.splitlines() if line.split()[:1] and line.split()[0] in {row[0] for row in rows}]
        if len(timed) < len(rows):
            sys.exit(run.stdout[-4000:] + run.stderr[-2000:])
        for call, count, micros, weight in timed:
            print(f"{call:16} {int(count):>9} elements {int(micros) / 1000:>10.1f} ms, weight {weight}")


main()
