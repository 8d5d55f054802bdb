"""The words of the command line, with --total.

read_words(words, total) is Options, or USAGE.  What `clap` states for a simple command is written out here:
- `--name value` and `--name=value`; names aren't abbreviated;
- the value in a word of its own is not a word that begins with `-`, but `-` alone is one;
- `--` ends the options; after it every word is positional;
- a word that begins with `-` and isn't `-` alone is no positional before `--`;
- each option at most once, at most one positional word.
"""
from collections import namedtuple

Options = namedtuple("Options", "steps total form demo file")
USAGE = "Usage"

STEPS = 10_000_000
GREATEST_STEPS = 1_000_000_000_000
GREATEST_DEMO = 20_000


def usage_line(total=True):
    middle = "[--total N] " if total else ""
    return "usage: wl [--steps N] " + middle + "[--form input|full] [--demo N] [FILE]"


def split_words(words, names):
    """({option: value}, [positional words]), or None."""
    values, positional = {}, []
    only_positional = False
    k = 0
    while k < len(words):
        word = words[k]
        k += 1
        if only_positional or word == "-" or not word.startswith("-"):
            positional.append(word)
            continue
        if word == "--":
            only_positional = True
            continue
        name, equals, value = word.partition("=")
        if name not in names or name in values:
            return None
        if not equals:
            if k == len(words) or words[k].startswith("-") and words[k] != "-":
                return None
            value = words[k]
            k += 1
        values[name] = value
    return values, positional


def number(text, greatest):
    """One or more digits 0 to 9 with a value from 1 to greatest, or None."""
    if text == "" or any(c not in "0123456789" for c in text):
        return None
    digits = text.lstrip("0")
    if digits == "" or len(digits) > 20 or int(digits) > greatest:
        return None
    return int(digits)


def read_words(words, total=True):
    names = ["--steps", "--form", "--demo"] + (["--total"] if total else [])
    found = split_words(list(words), names)
    if found is None:
        return USAGE
    values, positional = found
    if len(positional) > 1:
        return USAGE
    bounds = {"--steps": GREATEST_STEPS, "--total": GREATEST_STEPS, "--demo": GREATEST_DEMO}
    read = {}
    for name, text in values.items():
        read[name] = number(text, bounds[name]) if name in bounds else text
        if read[name] is None:
            return USAGE
    form = read.get("--form", "input")
    if form not in ("input", "full"):
        return USAGE
    file = positional[0] if positional else None
    demo = read.get("--demo")
    if demo is not None and file is not None:
        return USAGE
    return Options(read.get("--steps", STEPS), read.get("--total"), form, demo, file)
