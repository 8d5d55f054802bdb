"""A copy of the repository, for the scripts that compare: nothing in the repository itself is changed."""
import pathlib
import shutil
import subprocess
import sys
import tempfile

ROOT = pathlib.Path(__file__).resolve().parent.parent


def copied(folder, crates=None, checked=False):
    """Copies all crates into the folder, or these alone; where it is wanted with what checks kept of them in out/."""
    rows = (ROOT / "crates.txt").read_text().splitlines()
    listed = [row.split(":")[0] for row in rows if ":" in row and not row.startswith("#")]
    names = listed if crates is None else crates
    kept = [row for row in rows if row.split(":")[0] in names]
    (folder / "crates.txt").write_text("\n".join(kept) + "\n")
    ignored = None if checked else shutil.ignore_patterns("out")
    for name in names:
        shutil.copytree(ROOT / "crates" / name, folder / "crates" / name, ignore=ignored)


def answers(program, libraries, lines, lines_each=1, batch=None):
    """What a program prints for these lines, so many lines for each; `rt try` runs it in a copy, unproved.

    PROGRAM is its text, LIBRARIES the crates that it stands on. With BATCH it is run anew for each so many lines.
    """
    with tempfile.TemporaryDirectory() as folder:
        copy = pathlib.Path(folder)
        copied(copy)
        with open(copy / "crates.txt", "a") as rows:
            rows.write("drive: " + libraries + "\n")
        source = copy / "crates" / "drive" / "src"
        source.mkdir(parents=True)
        (source / "main.rt").write_text(program)
        got = []
        for begin in range(0, len(lines), batch or len(lines) or 1):
            got += printed(source.parent, lines[begin : begin + (batch or len(lines))], lines_each)
        return got


def printed(crate, lines, lines_each):
    """The answers to these lines, each a text where one line is printed for each, else a tuple."""
    text = "\n".join(lines) + "\n"
    run = subprocess.run(["rt", "try", "--seconds", "3000"], cwd=crate, input=text, capture_output=True, text=True)
    got = run.stdout.split("\n")[: lines_each * len(lines)]
    if len(got) < lines_each * len(lines):
        sys.exit(run.stdout[-2000:] + run.stderr[-2000:])
    if lines_each == 1:
        return got
    return [tuple(got[k : k + lines_each]) for k in range(0, len(got), lines_each)]
