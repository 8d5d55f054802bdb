"""Has the proofs refuse wrong bodies that are too dear for the gate.

    python3 tools/wrong_bodies/check.py [CRATE ..]

Each folder here has the name of a crate, and edits as a crate's must-fail/ has them. They are tried in a copy of the repository
by `rt must-fail`, which begins with what `rt check` has kept on this machine. An edit of a recursion has all its functions
proved again, which takes minutes. It ends with status 1 where an edit is not refused.
"""
import pathlib
import shutil
import subprocess
import sys
import tempfile

HERE = pathlib.Path(__file__).resolve().parent
ROOT = HERE.parent.parent


def tried(crate, copy):
    """Whether each edit of the crate is refused."""
    shutil.copytree(HERE / crate, copy / "crates" / crate / "must-fail", dirs_exist_ok=True)
    return subprocess.run(["rt", "must-fail", crate], cwd=copy).returncode == 0


def main():
    crates = sys.argv[1:] or sorted(folder.name for folder in HERE.iterdir() if folder.is_dir())
    with tempfile.TemporaryDirectory() as folder:
        copy = pathlib.Path(folder) / "copy"
        subprocess.run(["git", "clone", "-q", str(ROOT), str(copy)], check=True)
        refused = [tried(crate, copy) for crate in crates]
    return 0 if all(refused) else 1


if __name__ == "__main__":
    sys.exit(main())
