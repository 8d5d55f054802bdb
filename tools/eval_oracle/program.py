"""Compares what sessions answer with what the oracle answers, on random sessions of many cells.

    python3 tools/eval_oracle/program.py [--try] [COUNT [SEED]]

The sessions are those of sessions.py: definitions, attributes, patterns, guards, loops, scopes, ends, messages, limits and small
budgets; some have a total of all cells besides, some are answered in FullForm. A program (driver.rt.txt) in a copy of the
repository plays them over the public calls of wl_session; `rt run` proves and builds it, which takes minutes where nothing is kept of the
crates below. With --try it is run unproved. The end of each cell, its bytes and the steps so far are compared. It ends with status 1
where a session differs, and prints it.
"""
import pathlib
import random
import shutil
import subprocess
import sys
import tempfile

from definition_rows import ROOT
from sessions import drawn

sys.path.insert(0, str(ROOT / "tools"))
import clone  # noqa: E402
from session import Session  # noqa: E402
from wl import in_deep_thread  # noqa: E402
from words import read_words  # noqa: E402

LIBRARIES = "wl_session wl_scan wl_ports anyhow"
HERE = pathlib.Path(__file__).resolve().parent
SECONDS = 3_000


def with_options(sessions, seed):
    """Each session's cells, and its words: the budget of a cell, some with a total and a form."""
    choose, found = random.Random(seed), []
    for cells, steps in sessions:
        words = ["--steps", str(steps)]
        if choose.random() < 0.25:
            words += ["--total", str(choose.choice([steps // 2, steps, steps + 20, 2 * steps]))]
        if choose.random() < 0.25:
            words += ["--form", "full"]
        found.append((cells, words))
    return found


def expected(cells, words):
    """What the oracle gives for each cell: its end, the steps so far, and its bytes."""
    session, found = Session(read_words(words, True)), []
    for cell in cells:
        end = session.line(cell.encode())
        found.append((end, session.counts.steps, session.pending))
    return found


def lines_of(sessions):
    """What the program reads."""
    text = []
    for cells, words in sessions:
        options = read_words(words, True)
        total = "-" if options.total is None else options.total
        text.append("session %d %s %s" % (options.steps, total, options.form))
        text += ["cell " + cell for cell in cells]
    return "\n".join(text) + "\n"


def answers(written, count):
    """The cells that a program has written: end, steps, bytes."""
    found, at = [], 0
    while len(found) < count:
        end_of_line = written.find(b"\n", at)
        if end_of_line < 0:
            break
        end, steps, size = written[at:end_of_line].decode().split(" ")
        begin = end_of_line + 1
        found.append((end, int(steps), written[begin : begin + int(size)]))
        at = begin + int(size) + 1
    return found


def copy_of_crates(folder):
    """wl_session and what it stands on, with what checks kept."""
    rows = [row for row in (ROOT / "crates.txt").read_text().splitlines() if ":" in row and not row.startswith("#")]
    below = {row.split(":")[0]: row.split(":")[1].split() for row in rows}
    names, waiting = set(), ["wl_session", "wl_scan"]
    while waiting:
        name = waiting.pop()
        if name in below and name not in names:
            names.add(name)
            waiting += below[name]
    (folder / "crates.txt").write_text("".join("%s: %s\n" % (name, " ".join(below[name])) for name in below if name in names))
    for name in names:
        shutil.copytree(ROOT / "crates" / name, folder / "crates" / name, ignore=shutil.ignore_patterns("incremental"))


def played(sessions, unproved):
    """What the program writes for all sessions."""
    with tempfile.TemporaryDirectory() as name:
        folder = pathlib.Path(name)
        copy_of_crates(folder)
        with open(folder / "crates.txt", "a") as listed:
            listed.write("play: " + LIBRARIES + "\n")
        source = folder / "crates" / "play" / "src"
        source.mkdir(parents=True)
        (source / "main.rt").write_text((HERE / "driver.rt.txt").read_text())
        call = ["rt", "try", "--seconds", str(SECONDS)] if unproved else ["rt", "run"]
        run = subprocess.run(call, cwd=source.parent, input=lines_of(sessions).encode(), capture_output=True)
        return run.stdout, run.stderr


def main(words):
    unproved = "--try" in words
    numbers = [int(word) for word in words if word != "--try"]
    count = numbers[0] if numbers else 1_000
    seed = numbers[1] if len(numbers) > 1 else 1
    sessions = with_options(drawn(count, seed), seed)
    wanted = [expected(cells, words) for cells, words in sessions]
    written, errors = played(sessions, unproved)
    found = answers(written, sum(len(cells) for cells in wanted))
    if not found:
        print(written.decode(errors="replace")[-2000:], errors.decode(errors="replace")[-2000:])
    at, wrong = 0, 0
    for (cells, words), cells_wanted in zip(sessions, wanted):
        given = found[at : at + len(cells)]
        at += len(cells)
        if given != cells_wanted:
            wrong += 1
            print("differs: %s: %s" % (" ".join(words), " | ".join(cells)))
            for one, other in zip(given + [None] * len(cells), cells_wanted):
                if one != other:
                    print("    wl: %s\n    oracle: %s" % (one, other))
                    break
    print("%d sessions of %d cells, seed %d; %d differ" % (len(sessions), sum(len(cells) for cells, _ in sessions), seed, wrong))
    return 1 if wrong else 0


if __name__ == "__main__":
    sys.exit(in_deep_thread(lambda: main(sys.argv[1:])))
