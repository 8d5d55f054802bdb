"""Compares what the notebooks in examples/ give with what stands beside them.

    python3 tools/examples/check.py [PROGRAM]

PROGRAM is a built `wl`; without one the second writing in tools/oracle is asked. It ends with status 1 where a notebook differs.
"""
import pathlib
import subprocess
import sys

ROOT = pathlib.Path(__file__).resolve().parent.parent.parent


def main():
    program = [sys.argv[1]] if len(sys.argv) > 1 else [sys.executable, str(ROOT / "tools" / "oracle" / "wl.py")]
    wrong = 0
    notebooks = sorted((ROOT / "examples").glob("*.wl"))
    for notebook in notebooks:
        run = subprocess.run(program + [str(notebook)], capture_output=True)
        if run.stdout != notebook.with_suffix(".out").read_bytes() or run.returncode != 0:
            wrong += 1
            print("%s: status %d, standard output\n%s" % (notebook.name, run.returncode, run.stdout.decode()))
    print("examples: %d as they should be, %d not" % (len(notebooks) - wrong, wrong))
    sys.exit(1 if wrong else 0)


if __name__ == "__main__":
    main()
