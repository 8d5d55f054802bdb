"""Compares wl_words with the oracle's reading of random command lines.

    python3 tools/words_oracle/compare.py [COUNT [SEED]]

Most lines are made of options with values and a file name; others of words out of shape.
A copy of the repository gets a program that prints what each line asks for; `rt try` runs it, unproved.
"""
import collections
import pathlib
import random
import sys

sys.dont_write_bytecode = True
HERE = pathlib.Path(__file__).resolve().parent
sys.path.insert(0, str(HERE.parent))
import clone

LIBRARIES = "wl_words wl_ports clap"
NAMES = ["--steps", "--total", "--form", "--demo"]
ODD_NAMES = ["--ste", "--step", "--Steps", "--help", "--version", "--file", "---steps", "--", "-", "-s", "-steps", "--steps ", "-h", "-V", "--stepsé"]
NUMBERS = ["1", "5", "0007", "20000", "1000000000000", "9999", "00000000000000000000000000000012"]
ODD_NUMBERS = ["0", "000", "20001", "1000000000001", "18446744073709551615", "18446744073709551616", "18446744073709551617", "99999999999999999999999999",
               "+5", "-5", "-1", "5 ", " 5", "5x", "0x5", "1e3", "1.0", "1_000", "٣", "５", "", "=5", "5=", "-", "--"]
FORMS = ["input", "full"]
ODD_FORMS = ["Input", "FULL", "inputs", "", "in", "full ", "5", "-", "--form", "=full"]
FILES = ["a.wl", "-", "", "steps", "é", "a b", "input", "5"]
ODD_WORDS = ["-5", "-", "--", "--=", "--=5", "-=5", "---", "--steps", "--steps=", "-1.5", "-.", "=", "-é", "--é=1", "- ", "a=b"]


def load():
    sys.path.insert(0, str(HERE.parent / "oracle"))
    import words
    return words


def value(r, name):
    odd = r.random() < 0.15
    if name == "--form":
        return r.choice(ODD_FORMS if odd else FORMS)
    if odd:
        return r.choice(ODD_NUMBERS)
    return r.choice(NUMBERS) if r.random() < 0.7 else str(r.randint(1, 20000))


def option(r, name):
    text = value(r, name)
    if r.random() < 0.05:
        name = r.choice(ODD_NAMES)
    kind = r.random()
    if kind < 0.03:
        return [name]
    return [name + "=" + text] if kind < 0.5 else [name, text]


def line(r):
    if r.random() < 0.1:
        return [r.choice(ODD_WORDS + FILES + NAMES + NUMBERS) for _ in range(r.randint(0, 4))]
    parts = [option(r, name) for name in r.sample(NAMES, r.choice([0, 1, 1, 1, 2, 2, 3, 4]))]
    if r.random() < 0.35:
        parts.append([r.choice(FILES)])
    if r.random() < 0.08:
        parts.append([r.choice(ODD_WORDS)])
    if r.random() < 0.05:
        parts.append(option(r, r.choice(NAMES)))
    r.shuffle(parts)
    return [word for part in parts for word in part]


def expected(oracle, words):
    asked = oracle.read_words(words)
    if asked == oracle.USAGE:
        return "Usage"
    task = "input" if asked.file is None else "file " + asked.file
    if asked.demo is not None:
        task = f"demo {asked.demo}"
    return f"{asked.steps} {asked.total} {asked.form} {task}"


def main():
    count = int(sys.argv[1]) if len(sys.argv) > 1 else 10000
    r = random.Random(int(sys.argv[2]) if len(sys.argv) > 2 else 7)
    oracle = load()
    lines = [line(r) for _ in range(count)]
    wanted = [expected(oracle, words) for words in lines]
    got = clone.answers((HERE / "driver.rt.txt").read_text(), LIBRARIES, ["".join("\t" + word for word in words) for words in lines])
    wrong = [row for row in zip(lines, wanted, got) if row[1] != row[2]]
    for words, want, answer in wrong[:20]:
        print(f"{words!r}: oracle {want!r}, wl_words {answer!r}")
    kinds = collections.Counter(want if want == "Usage" else want.split()[3] for want in wanted)
    print(dict(kinds), f"different lines: {len(set(map(tuple, lines)))}, differences: {len(wrong)}")
    sys.exit(1 if wrong else 0)


main()
