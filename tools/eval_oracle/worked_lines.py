"""Writes the worked lines of wl_session: the bytes that the definition gives for them are those that the oracle gives.

    python3 tools/eval_oracle/worked_lines.py

It writes crates/wl_session/specs/WorkedLines.antt (the statements) and crates/wl_session/proofs/ComputedLines.antt (their proofs, by
computing) and lays them out by `rt fmt`. To work another session, add it to SESSIONS and run this again.
"""
import subprocess

from definition_rows import ROOT, listed, quoted, written

from session import Session
from syntax import SyntaxFault, parse
from words import read_words

CRATE = ROOT / "crates" / "wl_session"
SCANNED = ["Real", "LongNumber", "BadChar", "BadEscape", "OpenString", "OpenComment", "Base", "Digit"]

# a name, the cells, and words of the command line: 1,000 steps where none are given
SESSIONS = [
    ("Refusals", ["1.5", "1 + 1", "f[1,", "x ^ ^ 2", "37^^1", '"a\\q"', "3"]),
    ("SilentCells", ["1;", "Null", "x;", "x = 3;", "x", "a; b; Null", "%5"]),
    ("Wrappers", ["FullForm[a + b]", "%", "{InputForm[a + b]}", "InputForm[{a, b}]", "FullForm[a, b]", "FullForm[FullForm[Null]]"]),
    ("FullForms", ["a + b", "InputForm[a + b]", "{1/2, -c}"], ["--form", "full"]),
    ("Ends", ["Throw[b]", "Throw[1, a]", "Break[]", "Abort[]", "Quiet[Throw[1]]"]),
    ("GivenBack", ["z = 1; Block[{z = 5}, Abort[]]", "z"]),
    ("MessagesOff", ['f::a = "m `1`";', "Message[f::a, 5];", "Off[f::a]; Message[f::a, 5]", "1/0"]),
    ("LimitOfTurns", ["$IterationLimit = 20", "k[n_] := k[n + 1]; k[0]", "%1"]),
    ("SixSteps", ["{1, 2}", "{%, 3}"], ["--steps", "6"]),
    ("FiveSteps", ["{1, 2}", "{%, 3};", "{%1, 3}"], ["--steps", "5"]),
    ("TotalOfEight", ["{1, 2}", "{%, 3}", "5"], ["--total", "8"]),
    ("TotalOfSeven", ["{1, 2}", "{%, 3}", "5"], ["--total", "7"]),
    ("TotalAsTheSteps", ["{1, 2}"], ["--steps", "1", "--total", "1"]),
]

STATEMENTS = '''-- Cells from a new session, and the bytes that are written for them. The bytes are those of an independent writing of the language; tools/eval_oracle/worked_lines.py writes this file.
use Rattle.std.specs.Prelude.{◌≡◌, [], ◌∷◌, Some, None, codes, pos, negsuc}
use Rattle.wl_laws.specs.Cells.{call, name, string}
use Rattle.wl_expr.specs.Tree.{num}
use Rattle.wl_expr.specs.Words.{natural, whole}
use Rattle.wl_scan.specs.declared.token.ScanKind.TheVariants.{Real, LongNumber, BadChar, BadEscape, OpenString, OpenComment, Base, Digit}
use Rattle.wl_session.specs.Bytes.{bytes_of}
use Rattle.wl_session.specs.Reading.{refused, read}
use Rattle.wl_session.specs.declared.fault.LineFault.TheVariants.{Syntax}
use Rattle.wl_session.specs.declared.options.Form.TheVariants.{Input, Full}
use Rattle.wl_syntax.specs.declared.fault.SyntaxFault.TheVariants.{Scan, Unclosed, Unexpected}

'''
PROOFS = '''-- The worked lines, computed. tools/eval_oracle/worked_lines.py writes this file.
use Rattle.std.proofs.Common.{refl}
use Rattle.wl_session.specs.Bytes.{bytes_of}
use Rattle.wl_session.specs.WorkedLines.{%s}

'''


def reading(cell):
    """A cell as it is read, or why it is refused, as a term of the definition."""
    try:
        tree = written(parse(cell.encode()))
    except SyntaxFault as fault:
        if fault.kind in SCANNED:
            return "refused (Syntax (Scan (record { kind = %s; at = %d })))" % (fault.kind, fault.at)
        return "refused (Syntax %s)" % (fault.kind if fault.at is None else "(%s %d)" % (fault.kind, fault.at))
    return "read %s" % (tree if " " not in tree and not tree.startswith("(") else "(%s)" % tree)


def equation(cells, words):
    """That the definition gives the oracle's bytes for these cells."""
    options = read_words((["--steps", "1000"] if "--steps" not in words else []) + words, True)
    session, out = Session(options), b""
    for cell in cells:
        session.line(cell.encode())
        out += session.pending
    total = "None" if options.total is None else "Some %d" % options.total
    given = "record { steps = %d; total = %s; form = %s }" % (options.steps, total, options.form.capitalize())
    return "bytes_of (%s) (%s)\n    ≡ codes %s" % (given, listed(reading(cell) for cell in cells), quoted(out.decode()))


def statement(name, cells, words=()):
    shown = "".join("-- %s\n" % cell for cell in cells)
    return "%sabbrev pub %s : Type 0\n%s =\n    %s\n\n" % (shown, name, name, equation(cells, list(words)))


def proof(name):
    word = name[0].lower() + name[1:]
    return "pub %s : %s\nunfolding bytes_of\n%s = refl\n\n" % (word, name, word)


def main():
    names = [session[0] for session in SESSIONS]
    whole = "abbrev pub WorkedLines : Type 0\nWorkedLines =\n    %s\n" % "\n    × ".join(names)
    (CRATE / "specs" / "WorkedLines.antt").write_text(STATEMENTS + "".join(statement(*s) for s in SESSIONS) + whole)
    words = [name[0].lower() + name[1:] for name in names]
    tail = "pub worked_lines : WorkedLines\nworked_lines = (%s)\n" % ", ".join(words)
    (CRATE / "proofs" / "ComputedLines.antt").write_text(PROOFS % ", ".join(names + ["WorkedLines"]) + "".join(map(proof, names)) + tail)
    subprocess.run(["rt", "fmt"], cwd=CRATE, check=True)
    print("%d sessions of %d cells" % (len(SESSIONS), sum(len(session[1]) for session in SESSIONS)))


main()
