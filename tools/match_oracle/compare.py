"""Compares the leaves of wl_match's search and definition with those of an independent writing, on random patterns.

    python3 tools/match_oracle/compare.py [--search] [COUNT [SEED [ORACLE]]]

ORACLE is the folder of patterns.py and tree.py; tools/oracle, if none is given. Patterns are of all forms, heads have all flags. Pairs
with more than 60 leaves are passed over, and counted. Nothing here is changed: a copy of the crates is used.

The search is run: a program (driver.rt.txt, by `rt try`, unproved) prints each leaf, with what its names are bound to and its tests as
`View` lends them, and they are the oracle's; a run that is lent has elements as its kind has. With --search that is all.

Then each pair becomes a row that holds by computing with the definition: `Trials (pattern flags P) S` is the oracle's list of leaves,
each with its bindings and its tests. The rows stand in files of their own, which `rt check` reads.
"""
import collections
import itertools
import pathlib
import random
import re
import shutil
import subprocess
import sys
import tempfile
from fractions import Fraction

sys.dont_write_bytecode = True
HERE = pathlib.Path(__file__).resolve().parent
ROOT = HERE.parent.parent
MOST_LEAVES = 60
ROWS_A_FILE = 250
CRATES = ["wl_ports", "wl_exact", "wl_expr", "wl_match"]

FLAGS = {
    "f": {"Flat"}, "o": {"Orderless"}, "i": {"OneIdentity"}, "g": {"Flat", "Orderless"}, "k": {"Flat", "OneIdentity"},
    "m": {"Orderless", "OneIdentity"}, "Plus": {"Flat", "Orderless", "OneIdentity"},
    "Times": {"Flat", "Orderless", "OneIdentity"}, "Power": {"OneIdentity"},
}
HEADS = ["f", "o", "i", "g", "k", "m", "Plus", "Times", "Power", "h", "List"]
ATOMS = ["a", "b", "c"]
NAMES = ["x", "y"]
KINDS = ["Symbol", "Integer", "Rational", "String", "f", "g", "h"]

HEADER = '''-- Rows that the independent writing gives.
use Rattle.std.specs.Prelude.{◌≡◌, Bool, true, false, cond, ◌||◌, List, [], ◌∷◌, refl, codes, bytes_eq, pos, negsuc}
use Rattle.wl_expr.specs.Tree.{Tree, num, text, symbol}
use Rattle.wl_expr.specs.Words.{Name, form, applied, natural}
use Rattle.wl_match.specs.declared.flags.Flags.{Flags}
use Rattle.wl_match.specs.Pattern.{pattern, applies, holds, refuses}
use Rattle.wl_match.specs.Search.{Entry, Leaf, Fail, Found, bound, noted}
use Rattle.wl_match.specs.Trials.{Trials}

abbrev is : Name → Name → Bool
is s t = bytes_eq s t

abbrev flags : Name → Flags
flags s = record { flat = %s; orderless = %s; one_identity = %s }

'''


def load(oracle):
    sys.path.insert(0, str(oracle))
    import patterns
    import tree
    return patterns, tree


class Draw:
    """Random patterns and subjects."""

    def __init__(self, tree, seed):
        self.tree = tree
        self.random = random.Random(seed)

    def node(self, head, *args):
        return self.tree.Node(head if not isinstance(head, str) else self.tree.Sym(head), args)

    def atom(self):
        pick = self.random.random()
        if pick < 0.7:
            return self.tree.Sym(self.random.choice(ATOMS))
        return self.random.choice([Fraction(0), Fraction(1), Fraction(1, 2), self.tree.Str("s")])

    def subject(self, depth):
        if depth == 0 or self.random.random() < 0.3:
            return self.atom()
        head = self.random.choice(HEADS)
        args = [self.subject(depth - 1) for _ in range(self.random.randint(0, 4))]
        if self.random.random() < 0.05:
            return self.node(self.node(head), *args)
        return self.node(head, *args)

    def blank(self):
        name = self.random.choice(["Blank", "Blank", "BlankSequence", "BlankNullSequence"])
        if self.random.random() < 0.3:
            return self.node(name, self.tree.Sym(self.random.choice(KINDS)))
        return self.node(name)

    def pattern(self, depth):
        pick = self.random.random()
        if depth == 0 or pick < 0.25:
            return self.random.choice([self.blank, self.blank, self.atom])()
        inner = lambda: self.pattern(depth - 1)
        name = self.tree.Sym(self.random.choice(NAMES))
        if pick < 0.5:
            return self.node("Pattern", name, inner())
        if pick < 0.72:
            head = self.random.choice(HEADS)
            args = [inner() for _ in range(self.random.randint(0, 3))]
            if self.random.random() < 0.08:
                return self.node(self.random.choice([name, self.node("Blank"), self.node("Pattern", name, self.node("Blank"))]), *args)
            return self.node(head, *args)
        form = self.random.choice([
            lambda: self.node("PatternTest", inner(), self.tree.Sym("t")),
            lambda: self.node("Condition", inner(), self.node("r", name)),
            lambda: self.node("HoldPattern", inner()),
            lambda: self.node("Optional", inner()),
            lambda: self.node("Optional", inner(), self.atom()),
            lambda: self.node("Alternatives", *[inner() for _ in range(self.random.randint(0, 3))]),
            lambda: self.node("Repeated", inner()),
            lambda: self.node("RepeatedNull", inner()),
            lambda: self.node("Verbatim", inner()),
            lambda: self.node("Except", inner()),
            lambda: self.node("Except", inner(), inner()),
            lambda: self.node(self.random.choice(["Pattern", "Optional", "Verbatim", "Except", "Blank"]), inner(), inner(), inner()),
        ])
        return form()

    def like(self, p, depth):
        """A subject that has something of the pattern's shape."""
        if type(p) is not self.tree.Node or depth == 0:
            return p if self.random.random() < 0.5 and type(p) is not self.tree.Node else self.subject(1)
        if type(p.head) is self.tree.Sym and p.head.name in HEADS:
            args = []
            for arg in p.args:
                args.extend(self.like(arg, depth - 1) for _ in range(self.random.choice([0, 1, 1, 1, 2])))
            return self.node(p.head, *args)
        if type(p.head) is self.tree.Sym and p.head.name in ("Pattern",) and len(p.args) == 2:
            return self.like(p.args[1], depth)
        if p.args and self.random.random() < 0.8:
            return self.like(p.args[0], depth)
        return self.subject(depth - 1)

    def pair(self):
        if self.random.random() < 0.7:
            head = self.random.choice(HEADS)
            p = self.node(head, *[self.pattern(2) for _ in range(self.random.randint(1, 4))])
        else:
            p = self.pattern(3)
        s = self.like(p, 3) if self.random.random() < 0.85 else self.subject(2)
        return p, s


def written(tree, t):
    if type(t) is Fraction:
        if t.denominator == 1 and t >= 0:
            return "natural %d" % t.numerator
        sign = "pos %d" % t.numerator if t >= 0 else "negsuc %d" % (-t.numerator - 1)
        return "num (record { num = %s; den = %d })" % (sign, t.denominator)
    if type(t) is tree.Str:
        return 'text (codes "%s")' % t.text
    if type(t) is tree.Sym:
        return 'symbol (codes "%s")' % t.name
    if type(t.head) is tree.Sym:
        return 'form (codes "%s") %s' % (t.head.name, listed(tree, t.args))
    return "applied (%s) %s" % (written(tree, t.head), listed(tree, t.args))


def listed(tree, ts):
    return "(" + "".join("(%s) ∷ " % written(tree, t) for t in ts) + "[])"


def words(tree, t):
    """An expression in words, elements before their head."""
    if type(t) is tree.Node:
        return " ".join([words(tree, e) for e in (*t.args, t.head)] + [":%d" % len(t.args)])
    if type(t) is tree.Sym:
        return t.name
    return "'" + t.text if type(t) is tree.Str else str(t)


def wanted(tree, patterns, leaves):
    out = ""
    for one in leaves:
        if one == patterns.FAIL:
            out += "fail; "
            continue
        run = lambda r: "(" + "".join(words(tree, t) + ", " for t in r) + ") "
        binding, tests = one
        out += "".join("%s %s" % (x, run(binding[x])) for x in NAMES if x in binding)
        for test in tests:
            out += "%s %s " % (test[0], words(tree, test[1])) + (run(test[2]) if len(test) > 2 else "")
        out += "; "
    return out


def plain(text, kinds, odd):
    """What the program printed, without the kinds of runs, which are counted; a run that its kind can't have is noted."""
    def run(found):
        kind, parts = found.group(1), found.group(2).split(", ")[:-1]
        kinds[kind] += 1
        if kind == "Wrapped":
            head, elements = parts[0], parts[1:]
            odd.extend([text] if len(elements) < 2 or "Flat" not in FLAGS.get(head, ()) else [])
            return "(" + " ".join(elements + [head, ":%d" % len(elements)]) + ", )"
        odd.extend([text] if (kind == "One") != (len(parts) == 1) else [])
        return "(" + found.group(2) + ")"
    return re.sub(r"(One|Slice|Picked|Wrapped)\(([^)]*)\)", run, text)


def search(tree, patterns, rows):
    lines = [words(tree, p) + "|" + words(tree, s) for p, s, _ in rows]
    with tempfile.TemporaryDirectory() as folder:
        copy = pathlib.Path(folder)
        text = [line for line in (ROOT / "crates.txt").read_text().splitlines(keepends=True) if line.split(":")[0] in CRATES]
        (copy / "crates.txt").write_text("".join(text) + "drive: wl_match wl_expr wl_exact wl_ports anyhow\n")
        for name in CRATES:
            shutil.copytree(ROOT / "crates" / name, copy / "crates" / name, ignore=shutil.ignore_patterns("out"))
        source = copy / "crates" / "drive" / "src"
        source.mkdir(parents=True)
        shutil.copy(HERE / "driver.rt.txt", source / "main.rt")
        (copy / "pairs.txt").write_text("\n".join(lines) + "\n")
        with open(copy / "pairs.txt") as given:
            run = subprocess.run(["rt", "try", "--seconds", "3000"], cwd=source.parent, stdin=given, capture_output=True, text=True)
    got = run.stdout.split("\n")[: len(lines)]
    if len(got) < len(lines):
        sys.exit(run.stdout[-2000:] + run.stderr[-2000:])
    kinds, odd = collections.Counter(), []
    wrong = [(line, want, answer) for line, want, answer in zip(lines, (wanted(tree, patterns, r[2]) for r in rows), got) if plain(answer, kinds, odd) != want]
    for line, want, answer in wrong[:20]:
        print("%r: oracle %r, search %r" % (line, want, answer))
    for answer in odd[:20]:
        print("a run that its kind can't have: %r" % answer)
    print("the search: %d pairs, runs lent %s; differences: %d, odd runs: %d" % (len(lines), dict(kinds), len(wrong), len(odd)), flush=True)
    return bool(wrong or odd)


def main():
    args = [arg for arg in sys.argv[1:] if arg != "--search"]
    count = int(args[0]) if len(args) > 0 else 1000
    seed = int(args[1]) if len(args) > 1 else 1
    oracle = pathlib.Path(args[2]).resolve() if len(args) > 2 else ROOT / "tools" / "oracle"
    patterns, tree = load(oracle)
    draw = Draw(tree, seed)
    flags = {name: frozenset(held) for name, held in FLAGS.items()}
    rows, passed, kinds = [], 0, collections.Counter()
    while len(rows) < count:
        p, s = draw.pair()
        leaves = list(itertools.islice(patterns.trials(p, s, flags), MOST_LEAVES + 1))
        if len(leaves) > MOST_LEAVES:
            passed += 1
            continue
        kinds["Fail"] += sum(1 for one in leaves if one == patterns.FAIL)
        kinds["Candidate"] += sum(1 for one in leaves if one != patterns.FAIL)
        rows.append((p, s, leaves))
    print("%d pairs, %d with too many leaves passed over; leaves: %s" % (len(rows), passed, dict(kinds)), flush=True)
    if search(tree, patterns, rows):
        sys.exit(1)
    if "--search" not in sys.argv:
        check(tree, patterns, rows)


def flag_text(flag):
    text = "false"
    for name, held in sorted(FLAGS.items()):
        if flag in held:
            text = 'is s (codes "%s") || (%s)' % (name, text)
    return text


def row(tree, patterns, n, p, s, leaves):
    """The bindings and the tests of a leaf are compared apart: the oracle doesn't say in which order a name and a test came."""
    expected = []
    for one in leaves:
        if one == patterns.FAIL:
            expected.append("failed")
            continue
        binding, tests = one
        names = "".join('bound (codes "%s") %s ∷ ' % (x, listed(tree, r)) for x, r in binding.items()) + "[]"
        notes = []
        for test in tests:
            if test[0] == "applies":
                notes.append("noted (applies (%s)) %s" % (written(tree, test[1]), listed(tree, test[2])))
            elif test[0] == "refuses":
                notes.append("noted (refuses (%s)) %s" % (written(tree, test[1]), listed(tree, test[2])))
            else:
                notes.append("noted (holds (%s)) []" % written(tree, test[1]))
        expected.append("given (%s) (%s)" % (names, "".join(note + " ∷ " for note in notes) + "[]"))
    return "row_%d : seen (Trials (pattern flags (%s)) (%s)) ≡ %s\nrow_%d = refl\n" % (
        n, written(tree, p), written(tree, s), "".join("(%s) ∷ " % e for e in expected) + "[]", n)


SEEN = '''data Seen : Type 0 where
  failed : Seen
  given : List Entry → List Entry → Seen

abbrev names_of : List Entry → List Entry
names_of [] = []
names_of (bound x r ∷ e) = bound x r ∷ names_of e
names_of (noted t r ∷ e) = names_of e

abbrev tests_of : List Entry → List Entry
tests_of [] = []
tests_of (bound x r ∷ e) = tests_of e
tests_of (noted (applies t) r ∷ e) = noted (applies t) r ∷ tests_of e
tests_of (noted (refuses t) r ∷ e) = noted (refuses t) r ∷ tests_of e
tests_of (noted (holds t) r ∷ e) = noted (holds t) [] ∷ tests_of e

abbrev seen : List Leaf → List Seen
seen [] = []
seen (Fail ∷ ls) = failed ∷ seen ls
seen (Found e ∷ ls) = given (names_of e) (tests_of e) ∷ seen ls

'''


def check(tree, patterns, rows):
    copy = pathlib.Path(tempfile.mkdtemp())
    try:
        lines = (ROOT / "crates.txt").read_text().splitlines(keepends=True)
        (copy / "crates.txt").write_text("".join(line for line in lines if line.split(":")[0] in CRATES))
        for name in CRATES:
            shutil.copytree(ROOT / "crates" / name, copy / "crates" / name)
        proofs = copy / "crates" / "wl_match" / "proofs"
        header = HEADER % tuple(flag_text(flag) for flag in ("Flat", "Orderless", "OneIdentity"))
        lines = []
        for k in range(0, len(rows), ROWS_A_FILE):
            name = "Drawn%d" % (k // ROWS_A_FILE)
            text = header + SEEN + "\n".join(row(tree, patterns, n, *rows[n]) for n in range(k, min(k + ROWS_A_FILE, len(rows))))
            (proofs / (name + ".antt")).write_text(text)
            lines.append("mod %s\n" % name)
        lib = proofs / "Lib.antt"
        lib.write_text(lib.read_text() + "".join(lines))
        done = subprocess.run(["rt", "check"], cwd=copy / "crates" / "wl_match", capture_output=True, text=True)
        errors = [line for line in done.stdout.splitlines() if "error" in line and "Drawn" in line]
        for line in errors[:20]:
            print(line)
        last = [line for line in done.stdout.splitlines() if line.startswith("logic=")]
        print("rows that don't hold: %d; %s" % (len(errors), last[-1].split(" ")[0] if last else done.stdout[-600:] + done.stderr[-600:]))
        sys.exit(0 if done.returncode == 0 else 1)
    finally:
        shutil.rmtree(copy)


if __name__ == "__main__":
    main()
