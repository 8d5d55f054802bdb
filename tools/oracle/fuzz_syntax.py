"""Compares the machine of syntax.py with the definition, on random token lists, valid and not.

python3 fuzz_syntax.py [seconds] [seed]
"""
import random
import sys
import time

from syntax import classify, classify_by_definition, name
from tokens import SIGNS, Token
from trees import INFIX, depth, lower

ATOMS = [("Number", "1"), ("Number", "2"), ("Name", "a"), ("Name", "s"), ("Pattern", "x_"), ("Text", '"t"'),
         ("Slot", "#"), ("Out", "%"), ("Name", "f")]

# groups of tokens that meet each other in hard ways
POOLS = [
    SIGNS + ["a"] * 15,
    "a a a a a a ! ! ++ -- - - + ; ; ( ) [ ] , ^ @".split(),
    "a a a a a a /: /: = = := =. =. ^= ; , ( ) [ ] & ! + -> x_".split(),
    "a a a a a [ [ [ ] ] ] ( ) { } , ; + - 1".split(),
    "a a a a s :: :: ? ? : @ /@ @@ \"t\" x_ [ ] -".split(),
    "a a a a a a + - * / 1 2 ^ - ! == === =!= && < <=".split(),
    "a a a a a a -> :> /. //. /; & & // .. ... | ~~ += = =. ;".split(),
    "a a a a a a ; ; ; ! ++ - ( ) [ ] , { } a".split(),
    "a a a a a - ! ++ @ ^ == & =. -> /@ //".split(),
    "a a a a a a /: = =. ! x_ ( ) ;".split(),
]


def token(text, at):
    for kind, sample in ATOMS:
        if sample == text:
            return Token(kind, text, at)
    return Token("Sign", text, at)


def random_list(r, pool, n):
    out = []
    if r.random() < 0.5:
        return [token(r.choice(pool), k) for k in range(n)]
    # half of them alternate operands and signs, so that long ones are often right
    signs = [t for t in pool if t not in [s for _, s in ATOMS]] or pool
    while len(out) < n:
        if r.random() < 0.15:
            out.append(r.choice(pool))
        out.append(r.choice(ATOMS)[1] if r.random() < 0.2 else "a")
        if r.random() < 0.92:
            out.append(r.choice(signs))
    return [token(t, k) for k, t in enumerate(out[:n])]


PREFIX_SIGNS = ["-", "!", "++", "--"]
POSTFIX_SIGNS = ["!", "++", "--", "..", "&", "=.", "...", "=."]
INFIX_SIGNS = [t for t in SIGNS if t in INFIX] + ["/:", "=", "/:", "="]


def grown(r, size):
    """Texts of an expression of about that many tokens, right or nearly right."""
    if size <= 1:
        return [r.choice(["a"] * 6 + [s for _, s in ATOMS])]
    kind = r.random()
    if kind < 0.12:
        return [r.choice(PREFIX_SIGNS)] + grown(r, size - 1)
    if kind < 0.24:
        return grown(r, size - 1) + [r.choice(POSTFIX_SIGNS)]
    if kind < 0.32:
        return r.choice([["("] + grown(r, size - 2) + [")"], ["{"] + grown(r, size - 2) + ["}"],
                         ["a", "["] + grown(r, size - 3) + ["]"], ["a", "[", "["] + grown(r, size - 5) + ["]", "]"],
                         ["f", "["] + grown(r, (size - 4) // 2) + [","] + grown(r, (size - 4) // 2) + ["]"],
                         ["("] + grown(r, size - 3) + [";", ")"]])
    left = r.randint(1, size - 1)
    return grown(r, left) + ([] if r.random() < 0.1 else [r.choice(INFIX_SIGNS)]) + grown(r, size - left - 1)


def grown_list(r, n):
    """A grown list, often with a token changed, taken away or put in, or cut off."""
    out = grown(r, n)
    for _ in range(r.choice([0, 0, 1, 1, 2])):
        k = r.randrange(len(out) + 1)
        how = r.random()
        if how < 0.3:
            out[k:k + 1] = [r.choice(SIGNS)]
        elif how < 0.5:
            del out[k:k + 1]
        elif how < 0.7:
            out[k:k] = [r.choice(SIGNS + ["a"] * 10)]
        elif k:
            out = out[:k]
    return [token(t, k) for k, t in enumerate(out)]


def main():
    seconds = float(sys.argv[1]) if len(sys.argv) > 1 else 60
    r = random.Random(int(sys.argv[2]) if len(sys.argv) > 2 else 1)
    start, count, kinds = time.time(), 0, {}
    while time.time() - start < seconds:
        if r.random() < 0.4:
            toks = grown_list(r, r.randint(3, 16))
        else:
            toks = random_list(r, r.choice(POOLS), r.choice([1, 2, 3, 4, 5, 6, 7, 8, 9, 9, 10]))
        want = classify_by_definition(toks)
        got = classify(toks)
        assert got == want, ([t.text for t in toks], want, got)
        if want[0] == "Right":
            lower(got[1])
            depth(got[1])
        count += 1
        kinds[want[0]] = kinds.get(want[0], 0) + 1
    print(count, "lists,", kinds)


if __name__ == "__main__":
    main()
