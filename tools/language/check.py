"""Checks docs/LANGUAGE.md and docs/TOUR.md, so that they can't drift.

    python3 tools/language/check.py [--program PROGRAM] [DOCUMENT ..]

- The examples: each fenced block `wl` is a session of its own, with the words of the command line behind `wl`. A line
  `In[n]:= cell` has a cell, which goes on over the next lines that begin with a blank; the lines behind it are what the
  cell prints. Each block is compared with what tools/oracle answers, or with what PROGRAM, the built `wl`, prints.
- The tables of symbols: each symbol that a new store has stands in one row, with its attributes (Protected apart).
- The files of the definition that stand beside the rules, `wl_x/File`, are there. Those that are still to come (COMING)
  are counted.

It ends with status 1 where something differs.
"""
import argparse
import collections
import pathlib
import re
import subprocess
import sys

sys.dont_write_bytecode = True
HERE = pathlib.Path(__file__).resolve().parent
ROOT = HERE.parent.parent
CRATES = ROOT / "crates"
START = CRATES / "wl_rules" / "specs" / "Start.antt"
LIMITS = {"$RecursionLimit", "$IterationLimit"}
# crates and files that the document names before they are there
COMING = {"wl_poly", "wl_strings", "wl_semantics/RestoreRow"}

Block = collections.namedtuple("Block", "line words text cells")
Oracle = collections.namedtuple("Oracle", "cells session wl words")

FENCE = re.compile(r"^```wl(?: (?P<words>.*))?$")
PROMPT = re.compile(r"^In\[\d+\]:= (?P<cell>.*)$")
CELL_END = re.compile(r"(?<!\\)\|")
HEADER = re.compile(r"^\| Symbol \| Attributes \|")
FILE = re.compile(r"`(?P<crate>wl_[a-z_]+)/(?P<file>[A-Z]\w*)`")
START_ROW = re.compile(r'\((?P<attributes>(?:\w+ ∷ )*)\[\], words \(codes "(?P<names>[^"]*)"\)\)')


# ---- examples

def cells_of(lines):
    found, goes_on = [], False
    for line in lines:
        prompt = PROMPT.match(line)
        if prompt:
            found.append(prompt["cell"])
        elif goes_on and line.startswith(" "):
            found[-1] += "\n" + line
        goes_on = bool(prompt) or goes_on and line.startswith(" ")
    return found


def blocks(document):
    found, fence, start, inside = [], None, 0, []
    for number, line in enumerate(document.split("\n"), 1):
        if fence is None:
            fence, start, inside = FENCE.match(line), number, []
        elif line == "```":
            words = (fence["words"] or "").split()
            found.append(Block(start, words, "\n".join(inside) + "\n", cells_of(inside)))
            fence = None
        else:
            inside.append(line)
    if fence is not None:
        sys.exit("The block at line %d has no end" % start)
    return found


def oracle():
    sys.path.insert(0, str(ROOT / "tools" / "oracle"))
    import cells
    import session
    import wl
    import words
    return Oracle(cells, session, wl, words)


def answered(there, block):
    """The block as the oracle writes it, or what is wrong with it."""
    cut = [cell.text.decode() for cell in there.cells.cells(notebook(block))]
    if cut != block.cells:
        return "these are no cells of their own: the text is cut into\n" + "\n".join(map(repr, cut)) + "\n"
    running = there.session.Session(there.words.read_words(block.words))
    text = ""
    for cell in block.cells:
        text += "In[%d]:= %s\n" % (len(running.kernel.history) + 1, cell)
        running.line(cell.encode())
        text += running.pending.decode()
    return text


def notebook(block):
    return "\n".join(block.cells).encode()


def without_cells(block):
    """What is printed, as the block has it."""
    left = block.text
    for cell in block.cells:
        left = re.sub(r"(?m)^In\[\d+\]:= " + re.escape(cell) + "\n", lambda found: "", left, count=1)
    return left


def printed(program, block):
    ended = subprocess.run([program, *block.words], input=notebook(block), stdout=subprocess.PIPE, timeout=60)
    return ended.stdout.decode()


def differing_blocks(found, program):
    if program:
        for block in found:
            yield block, without_cells(block), printed(program, block)
        return
    there = oracle()
    for block, text in there.wl.in_deep_thread(lambda: [(b, answered(there, b)) for b in found]):
        yield block, block.text, text


# ---- tables of symbols

def stored_symbols():
    """Each symbol of a new store with its attributes but Protected."""
    found = {}
    for row in START_ROW.finditer(START.read_text()):
        for name in row["names"].split():
            found[name] = frozenset(row["attributes"].replace("∷", " ").split())
    return found | {name: frozenset() for name in LIMITS}


def written_symbols(document):
    """The rows of the tables of symbols: name and attributes, a name as often as it stands."""
    in_table = False
    for line in document.split("\n"):
        in_table = line.startswith("|") and (in_table or bool(HEADER.match(line)))
        row = [cell.strip() for cell in CELL_END.split(line)[1:-1]]
        if in_table and row[0].startswith("`"):
            for name in re.findall(r"`([^`]+)`", row[0]):
                yield name, frozenset(re.findall(r"\w+", row[1]))


def wrong_symbols(document):
    stored, written = stored_symbols(), list(written_symbols(document))
    for name, attributes in written:
        if stored.get(name, attributes) != attributes:
            yield "%s: the table says %s, the store %s" % (name, sorted(attributes), sorted(stored[name]))
    counts = collections.Counter(name for name, _ in written)
    yield from ("%s stands in %d rows" % (name, n) for name, n in counts.items() if n > 1)
    yield from ("%s stands in no row" % name for name in stored if name not in counts)
    yield from ("%s is no symbol of a new store" % name for name in counts if name not in stored)


# ---- files

def files(document):
    return sorted({(found["crate"], found["file"]) for found in FILE.finditer(document)})


def is_there(crate, file):
    return (CRATES / crate / "specs" / (file + ".antt")).is_file()


def is_coming(crate, file):
    return crate in COMING and not (CRATES / crate).is_dir() or crate + "/" + file in COMING


def missing_files(document):
    """The files that aren't there: those that should be, and those to come."""
    missing = [named for named in files(document) if not is_there(*named)]
    return [m for m in missing if not is_coming(*m)], [m for m in missing if is_coming(*m)]


def main():
    words = argparse.ArgumentParser(description="Checks docs/LANGUAGE.md and docs/TOUR.md.")
    words.add_argument("--program", help="the built wl, in place of tools/oracle")
    words.add_argument("documents", nargs="*", default=[ROOT / "docs" / "LANGUAGE.md", ROOT / "docs" / "TOUR.md"], type=pathlib.Path)
    given = words.parse_args()
    texts = [document.read_text() for document in given.documents]
    document = "\n".join(texts)
    found = [block for text in texts for block in blocks(text)]
    wrong = 0
    for block, here, there in differing_blocks(found, given.program):
        if here != there:
            wrong += 1
            print("The block at line %d has\n%sand should have\n%s" % (block.line, here, there))
    missing, coming = missing_files(document)
    for line in [*wrong_symbols(document), *("%s/%s isn't there" % named for named in missing)]:
        wrong += 1
        print(line)
    cells = sum(len(block.cells) for block in found)
    symbols = len(set(name for name, _ in written_symbols(document)))
    print("%d blocks with %d cells, %d symbols, %d files of which %d are to come; %d differ"
          % (len(found), cells, symbols, len(files(document)), len(coming), wrong))
    return 1 if wrong else 0


if __name__ == "__main__":
    sys.exit(main())
