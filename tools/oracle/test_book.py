"""Notebook files and saved definitions on a few books.  python3 test_book.py"""
import sys

from book import book_text, played, read_book, top
from session import run
from wl import in_deep_thread
from words import read_words


def main():
    source = b'Notebook[{Cell["Sums", "Text"], Cell["1 + 1\\n%", "Input"], Cell["old", "Output"]}]\n'
    want = b'''Notebook[{
Cell["Sums", "Text"],
Cell["1 + 1\\n%", "Input"],
Cell["Out[1]= 2\\nOut[2]= 2\\n", "Output"]
}]
'''
    ran = top(["book"], source)
    assert (ran.out, ran.status, ran.err) == (want, 0, None), ran
    assert top(["book"], want).out == want
    ran = top(["book"], b"Notebook[3]")
    assert (ran.out, ran.status, ran.err, ran.session) == (b"", 7, "wl: not a notebook", None)
    for data in [b"", b"1.5", b'Notebook[{Cell["a", b]}]', b'Notebook[{Cell["a"]}]', b"Notebook[]", b"Notebook[{}, 1]", b"\xff"]:
        assert top(["book"], data).status == 7, data
    assert top(["book"], b"Notebook[{}]" + b" " * 131072).status == 8
    assert top(["book"], b"Notebook[{}]").out == b"Notebook[{}]\n"
    assert top(["book", "--demo", "1"], b"").status == 2
    assert top(["book"], b'Notebook[{Cell["1.5", "Input"]}]').status == 1
    assert top(["book"], b'(* c *) {Cell["a;", "Input"]} // Notebook').out == b'Notebook[{\nCell["a;", "Input"]\n}]\n'
    # an answer of two Input cells is in one session
    options = read_words([])
    book = [("x = 1", "Input"), ("t", "Text"), ("x + 1\n%", "Input"), ("z", "Output"), ("f[", "Input")]
    ran_book, session, everything = played(book, options)
    assert not everything and played(ran_book, options)[0] == ran_book
    assert read_book(book_text(ran_book).encode()) == ran_book
    joined = "".join(c for c, style in ran_book if style == "Output")
    assert joined.encode() == run([], b"x = 1\nx + 1\n%\nf[").out

    file = b"f[x_] := x^2; f[0] = 1/2; SetAttributes[f, Listable]\n"
    want = b'''RestoreEntry[f, "Down", {f[0], Rational[1, 2]}]
RestoreEntry[f, "Down", {f[x_], x^2}]
RestoreEntry[f, "Attributes", {Listable}]
'''
    ran = top(["save", "FILE", "f"], file)
    assert (ran.out, ran.status) == (want, 0), ran
    again = run([], want + b"f[{0, 3}]\n")
    assert (again.out, again.status) == (b"Out[4]= {1/2, 9}\n", 0), again
    ran = top(["save", "FILE", "Plus"], file)
    assert (ran.out, ran.status, ran.err) == (b"", 9, "wl: cannot save Plus")
    assert top(["save", "FILE"], file).status == 2 and top(["save", "FILE", "1"], file).status == 2
    assert top(["save", "FILE", "f", "f", "g"], file).out == want
    for cell, status in [("f[x_] := Rational[1, 2]", 9), ("f[(x_.)..] := 1", 9), ("x = 1/2", 0), ("f[x_] := a..", 0),
                         ("f::a = \"m\"; Off[f::b]; f::B = \"n\"", 0)]:
        ran = top(["save", "FILE", "f", "x"], cell.encode())
        assert ran.status == status, (cell, ran)
        if status == 0:
            again = run([], ran.out)
            assert again.out == b"" and again.status == 0, (cell, again)
            first = run([], cell.encode()).session.kernel.store.contents()
            assert again.session.kernel.store.contents() == first, cell
    print("ok")
    return 0


if __name__ == "__main__":
    sys.exit(in_deep_thread(main))
