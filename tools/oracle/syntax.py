"""parse(bytes) -> tree, or raises SyntaxFault.

Two readers of a list of tokens stand here:
- the definition: `right_trees(toks)` lists all right trees over spans of the list, `ending(toks)` is the
  ending of a list of tokens, and `classify_by_definition` decides by them alone.  Slow; for short lists.
- the machine: `classify` reads the tokens once with lists of open operators and brackets of its own.
`fuzz_syntax.py` compares the two.
"""
from functools import lru_cache

from tokens import ScanFault, Token, tokens
from trees import (ATOM_KINDS, Atom, Call, Infix, INFIX, JUXT, Lst, Paren, Part, POSTFIX, Postfix, PREFIX,
                   Prefix, depth, is_definition, lower, right_here, semicolon_is_postfix)

MAX_DEPTH = 400


class SyntaxFault(Exception):
    """kind: NotUtf8, a scan kind (Real ... Digit), Unclosed, Unexpected or TooDeep; at: byte or None."""

    def __init__(self, kind, at=None):
        Exception.__init__(self, kind, at)
        self.kind = kind
        self.at = at


def parse(data, bases=True):
    """Lower of the one right tree, or the first refusal that holds."""
    try:
        text = data.decode("utf-8")
    except UnicodeDecodeError:
        raise SyntaxFault("NotUtf8") from None
    try:
        toks = tokens(text, bases)
    except ScanFault as f:
        raise SyntaxFault(f.kind, f.at) from None
    verdict, what = classify(toks)
    if verdict == "Unclosed":
        raise SyntaxFault("Unclosed")
    if verdict == "Unexpected":
        raise SyntaxFault("Unexpected", toks[what].at)
    if depth(what) > MAX_DEPTH:
        raise SyntaxFault("TooDeep")
    return lower(what)


# ======== the definition ========

def texts(toks):
    """The signs as texts and None for an atom."""
    return [t.text if t.kind == "Sign" else None for t in toks]


def right_trees(toks):
    """All right trees whose leaves and signs in order read as toks.

    Rightness is asked node by node, and a child's own rightness doesn't depend on its parent except for
    the token behind it, which the span knows.  So the right trees over a span are made of right trees.
    """
    s = texts(toks)
    n = len(toks)

    @lru_cache(maxsize=None)
    def over(i, j):
        return tuple(t for t in candidates(i, j) if right_here(t, text_at(j)))

    def text_at(j):
        return None if j >= n else s[j] if s[j] is not None else "an atom"

    def candidates(i, j):
        if j <= i:
            return
        if j == i + 1:
            if s[i] is None:
                yield Atom(toks[i])
        if j >= i + 2:
            if s[i] == "(" and s[j - 1] == ")":
                for t in over(i + 1, j - 1):
                    yield Paren(t)
            if s[i] == "{" and s[j - 1] == "}":
                if j == i + 2:
                    yield Lst(())
                for kids in lists(i + 1, j - 1):
                    yield Lst(kids)
            if s[i] in PREFIX:
                for t in over(i + 1, j):
                    yield Prefix(s[i], t)
            if s[j - 1] in POSTFIX:
                for t in over(i, j - 1):
                    yield Postfix(s[j - 1], t)
            if s[j - 1] == "]":
                for k in range(i + 1, j - 1):
                    if s[k] != "[":
                        continue
                    for head in over(i, k):
                        if k + 1 == j - 1:
                            yield Call(head, ())
                        for kids in lists(k + 1, j - 1):
                            yield Call(head, kids)
                        if s[k + 1] == "[" and s[j - 2] == "]":
                            for kids in lists(k + 2, j - 2):
                                yield Part(head, kids)
        for k in range(i + 1, j):
            if s[k] in INFIX and k + 1 < j:
                for left in over(i, k):
                    for right in over(k + 1, j):
                        yield Infix(s[k], left, right)
            # juxtaposition: the right operand begins with an atom, `(` or `{`
            if s[k] is None or s[k] in ("(", "{"):
                for left in over(i, k):
                    for right in over(k, j):
                        yield Infix(JUXT, left, right)

    @lru_cache(maxsize=None)
    def lists(i, j):
        """One or more elements joined by commas."""
        found = [(t,) for t in over(i, j)]
        for k in range(i + 1, j - 1):
            if s[k] == ",":
                found += [(t,) + rest for t in over(i, k) for rest in lists(k + 1, j)]
        return tuple(found)

    return list(over(0, n))


OPEN = {"(": ")", "[": "]", "{": "}"}
CLOSE = set(OPEN.values())
ALWAYS_POSTFIX = {"..", "...", "&", "=."}
DEFINES = {"=", ":=", "=."}


def ending(toks):
    """The ending, as a list of tokens without a place."""
    s = texts(toks)
    wanted = True                       # an operand is wanted here
    levels = [[]]                       # the tokens of each open bracket level after its last , or ;
    closers = []
    before = None
    for text in s:
        if text in ("!", "++", "--"):
            prefix = wanted or before == ";"
            wanted = prefix
        elif text in ("(", "[", "{", ","):
            wanted = True
        elif text is None or text in CLOSE or text in ALWAYS_POSTFIX or text == ";":
            wanted = False
        elif text in INFIX or text in PREFIX:
            wanted = True               # stands as infix or prefix
        else:
            wanted = False              # `;;` and `!!` stand in no right tree
        if text in OPEN:
            levels.append([])
            closers.append(OPEN[text])
        elif text in CLOSE:
            if closers:
                levels.pop()
                closers.pop()
        elif text in (",", ";"):
            levels[-1] = []
        else:
            levels[-1].append(text)
        before = text
    end = [name("a")] if wanted else []
    while True:
        if lacks_definition(levels.pop()):
            end += [sign("="), name("a")]
        if not closers:
            return end
        end.append(sign(closers.pop()))


def lacks_definition(level):
    """Whether the level holds a `/:` that no `=`, `:=` or `=.` follows."""
    lacking = False
    for text in level:
        if text == "/:":
            lacking = True
        elif text in DEFINES:
            lacking = False
    return lacking


def name(text):
    return Token("Name", text, None)


def sign(text):
    return Token("Sign", text, None)


def is_viable(toks):
    return bool(right_trees(toks + ending(toks)))


def classify_by_definition(toks):
    """('Right', tree), ('Unclosed', None) or ('Unexpected', index of the token)."""
    found = right_trees(toks)
    if found:
        assert len(found) == 1, "two right trees"
        return "Right", found[0]
    if is_viable(toks):
        return "Unclosed", None
    for k in range(1, len(toks) + 1):
        if not is_viable(toks[:k]):
            return "Unexpected", k - 1


# ======== the machine ========

class Dead(Exception):
    """No list that begins with the tokens read so far has a right tree."""


class Frame:
    """One open bracket level.

    kind      'top', '(', '{', 'call'; for `[[` a 'part' with an 'index' inside it
    head      the head of a call or part
    done      the elements before the last comma
    ops       open operators from the left, each (sign, level, left); left is None for a prefix
    tags      the places in ops of the open `/:`
    operand   the operand that is complete so far, or None where one is wanted
    semi      a `;` stands right before, not yet known as infix or postfix; the operand is its left child
    dotted    a `=.` came at this level, and no `/:` and no other definition sign after it
    fresh     no token was read at this level
    """

    def __init__(self, kind, head=None):
        self.kind = kind
        self.head = head
        self.done = []
        self.ops = []
        self.tags = []
        self.operand = None
        self.semi = False
        self.dotted = False
        self.fresh = True
        self.unmet = False


class Machine:
    """Reads tokens by precedence.  A postfix or infix operator takes as its left child all that stands
    left of it up to the first open operator that binds looser; what a postfix operator has taken adds no
    operator to the right edge any more."""

    def __init__(self):
        self.frames = [Frame("top")]
        self.must_close = False         # the first `]` of a Part was read: the next token is the second
        self.after_colons = False       # a `::` was read: the next token is a name or string
        self.last = None                # the token before
        self.unmet_frames = 0

    # -- one token; raises Dead

    def read(self, tok):
        text = tok.text if tok.kind == "Sign" else None
        if self.must_close and text != "]":
            raise Dead
        if self.after_colons and tok.kind not in ("Name", "Text"):
            raise Dead
        self.after_colons = False
        f = self.frames[-1]
        if f.semi:
            self.settle_semicolon(f, "an atom" if text is None else text)
        if text is None:
            self.begin_operand(f)
            f.operand = Atom(tok)
        elif text in ("(", "{"):
            self.begin_operand(f)
            self.frames.append(Frame(text))
        elif text == "[":
            self.open_square(f)
        elif text in CLOSE:
            self.close(f, text)
        elif text == ",":
            if f.kind in ("top", "("):
                raise Dead
            self.end_element(f)
        elif f.operand is None:
            if text not in PREFIX:
                raise Dead
            f.ops.append((text, PREFIX[text][0], None))
        elif text in POSTFIX and text != ";":
            self.postfix(f, text)
        elif text in INFIX:
            self.infix(f, text)
        else:
            raise Dead                  # `;;` or `!!`
        f.fresh = False
        self.last = tok
        self.note_unmet()

    def settle_semicolon(self, f, next_text):
        f.semi = False
        if semicolon_is_postfix(next_text):
            f.operand = Postfix(";", f.operand)
        else:
            f.ops.append((";", 30, f.operand))
            f.operand = None

    def begin_operand(self, f):
        """An atom, `(` or `{` comes: where an operand is complete, this is a juxtaposition."""
        if f.operand is not None:
            self.infix(f, JUXT)

    def postfix(self, f, text):
        level, kind, _ = POSTFIX[text]
        self.reduce(f, level, kind)
        f.operand = Postfix(text, f.operand)
        if text == "=.":
            f.dotted = True

    def infix(self, f, op):
        level, kind, _ = INFIX[op]
        if op == "::":
            if self.last.kind != "Name":
                raise Dead
            self.after_colons = True
        self.reduce(f, level, kind)
        if op == ";":
            f.semi = True
            f.dotted = False
            return
        if level == 29:
            if f.ops and f.ops[-1][0] == "/:" and op not in ("=", ":="):
                raise Dead              # this node would be the right child of `/:`
            f.dotted = False
        if op == "/:":
            f.tags.append(len(f.ops))
        f.ops.append((op, level, f.operand))
        f.operand = None

    def reduce(self, f, level, kind):
        """Close the open operators that a new operator of this level and kind takes into its left child."""
        while f.ops:
            op, open_level, left = f.ops[-1]
            if open_level > level or open_level == level and kind == "right":
                return
            if open_level == level and kind == "none":
                raise Dead
            f.ops.pop()
            if left is None:
                f.operand = Prefix(op, f.operand)
                continue
            if op == "/:":
                f.tags.pop()
                if not is_definition(f.operand):
                    raise Dead
            f.operand = Infix(op, left, f.operand)

    # -- brackets

    def open_square(self, f):
        if f.operand is not None:
            self.reduce(f, 3, None)     # `::` and `?` bind tighter
            self.frames.append(Frame("call", f.operand))
            f.operand = None
        elif f.kind == "call" and f.fresh:
            f.kind = "part"
            self.frames.append(Frame("index"))
        else:
            raise Dead

    def close(self, f, text):
        if f.kind == "part":            # here must_close holds: the frame inside is closed
            if text != "]" or not self.must_close:
                raise Dead
            self.must_close = False
            self.give(Part(f.head, tuple(f.done)))
            return
        if text != {"(": ")", "{": "}", "call": "]", "index": "]"}.get(f.kind):
            raise Dead
        if not (f.fresh and f.kind in ("{", "call")):
            self.end_element(f)
        if f.kind == "(":
            self.give(Paren(f.done[0]))
        elif f.kind == "{":
            self.give(Lst(tuple(f.done)))
        elif f.kind == "call":
            self.give(Call(f.head, tuple(f.done)))
        else:
            self.frames.pop()
            self.frames[-1].done = f.done
            self.must_close = True

    def give(self, tree):
        self.frames.pop()
        self.frames[-1].operand = tree

    def end_element(self, f):
        if f.operand is None:
            raise Dead
        self.reduce(f, 31, None)
        f.done.append(f.operand)
        f.operand = None
        f.dotted = False

    # -- viability

    def note_unmet(self):
        """The list read so far is viable exactly where no frame is unmet.

        A frame is unmet where after its last open `/:` came a `=.` and no `=` or `:=`, so that the ending
        brings no definition, but the `/:` wouldn't get `l =.` as its right child, since something was
        read behind the `=.`.  A later `=`, `:=` or `=.` can still help, so this isn't Dead.
        """
        if len(self.frames) > 1:
            self.set_unmet(self.frames[-2])
        self.set_unmet(self.frames[-1])

    def set_unmet(self, f):
        if f is self.frames[-1]:
            right = f.operand
        else:
            right = None                # a bracket is open in it, so no `l =.` ends it
        unmet = False
        if f.tags and f.dotted:
            if f.tags[-1] == len(f.ops) - 1:
                unmet = right is None or not is_definition(right)
            else:
                unmet = f.ops[f.tags[-1] + 1][0] not in ("=", ":=")
        self.unmet_frames += unmet - f.unmet
        f.unmet = unmet

    def viable(self):
        return self.unmet_frames == 0

    # -- the end of the list

    def end(self):
        """The right tree, or None."""
        f = self.frames[0]
        if len(self.frames) > 1 or f.operand is None:
            return None
        if f.semi:
            self.settle_semicolon(f, None)
        try:
            self.reduce(f, 31, None)
        except Dead:
            return None
        return f.operand


def classify(toks):
    """As classify_by_definition."""
    m = Machine()
    first_bad = None
    for k, tok in enumerate(toks):
        try:
            m.read(tok)
        except Dead:
            return "Unexpected", k if first_bad is None else first_bad
        if first_bad is None and not m.viable():
            first_bad = k
    viable = m.viable()
    tree = m.end()
    if tree is not None:
        return "Right", tree
    if viable:
        return "Unclosed", None
    return "Unexpected", first_bad
