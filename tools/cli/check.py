"""Runs the built program over real files and streams, and checks what no clause can say of them.

    python3 tools/cli/check.py [PROGRAM]

PROGRAM is the built `wl`; crates/wl_cmd/out/wl_cmd, if none is given. What goes to standard output, to standard error and
as status is compared for files and streams that are there, missing, closed, full and cut short. It ends with status 1 where
a row differs, and with 0 and a word where no program is built.
"""
import os
import pathlib
import resource
import signal
import subprocess
import sys
import tempfile

ROOT = pathlib.Path(__file__).resolve().parent.parent.parent
USAGE = b"usage: wl [--steps N] [--form input|full] [--demo N] [FILE]\n"
READ = b"wl: read failed\n"
WRITE = b"wl: write failed\n"
CELLS = 20_000
LIMIT = 8_192


def transcript(cells):
    return b"".join(b"Out[%d]= 3\n" % n for n in range(1, cells + 1))


def limited():
    """A write past the limit fails, in place of ending the program."""
    signal.signal(signal.SIGXFSZ, signal.SIG_IGN)
    resource.setrlimit(resource.RLIMIT_FSIZE, (LIMIT, LIMIT))


def run(program, words, stdin=b"", **streams):
    """Standard output, standard error and status; a stream that is given takes the place of its pipe."""
    out = streams.pop("stdout", subprocess.PIPE)
    given = {"stdin": streams.pop("source")} if "source" in streams else {"input": stdin}
    ended = subprocess.run([program, *words], stdout=out, stderr=subprocess.PIPE, timeout=60, **given, **streams)
    return ended.stdout or b"", ended.stderr, ended.returncode


def rows(program, folder):
    cells = folder / "cells.wl"
    cells.write_bytes(b"1 + 2\n" * CELLS)
    short = folder / "short.wl"
    short.write_bytes(b"1 + 2\n1 + 2\n")
    yield "a file", run(program, [str(short)]), (transcript(2), b"", 0)
    yield "a long file", run(program, [str(cells)]), (transcript(CELLS), b"", 0)
    yield "standard input", run(program, [], b"1 + 2\n"), (transcript(1), b"", 0)
    yield "no input", run(program, [], b""), (b"", b"", 0)
    yield "a refused cell", run(program, [], b"f[\n"), (b"Refused: unfinished input.\n", b"", 1)
    yield "a missing file", run(program, [str(folder / "missing.wl")]), (b"", READ, 3)
    yield "a folder", run(program, [str(folder)]), (b"", READ, 3)
    yield "words that aren't read", run(program, ["--cells"]), (b"", USAGE, 2)
    yield "closed input", run(program, [], source=None, preexec_fn=lambda: os.close(0)), (b"", READ, 3)
    yield "closed output", run(program, [str(short)], preexec_fn=lambda: os.close(1)), (b"", WRITE, 4)
    with open("/dev/full", "wb") as full:
        yield "a full disk", run(program, [str(cells)], stdout=full), (b"", WRITE, 4)
    part = folder / "part.txt"
    with open(part, "wb") as out:
        got = run(program, [str(cells)], stdout=out, preexec_fn=limited)
    yield "a file that may not grow", (part.read_bytes(), *got[1:]), (transcript(CELLS)[:LIMIT], WRITE, 4)


def main():
    program = pathlib.Path(sys.argv[1] if len(sys.argv) > 1 else ROOT / "crates/wl_cmd/out/wl_cmd")
    if not program.is_file():
        print("skipped: no program is built; ./wl builds one")
        return 0
    failed = 0
    with tempfile.TemporaryDirectory() as folder:
        for name, got, wanted in rows(program, pathlib.Path(folder)):
            if got != wanted:
                failed += 1
                print(f"{name}: status {got[2]}, wanted {wanted[2]}; out {got[0][:200]!r}, err {got[1][:200]!r}")
    print("differences:", failed)
    return 1 if failed else 0


if __name__ == "__main__":
    sys.exit(main())
