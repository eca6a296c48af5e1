#!/usr/bin/env python3
"""tests/quotes.py [PROGRAM]

Compares the pieces of code and proofs that docs/BUILDING.md quotes with the tree (tools/quotes.py), and says which
lines differ: with a minus where the page has a line that the tree doesn't have, and a plus where one is missing. Also
that a quote that is wrong, or of a line that isn't there, is found. The program isn't needed. Ends with status 0 where
all are the same."""
import difflib
import sys
from pathlib import Path

TOP = Path(__file__).resolve().parent.parent
sys.path.insert(0, str(TOP / "tools"))
sys.dont_write_bytecode = True
import quotes  # noqa: E402

# Quotes that are made of a file that is there, and what is wrong with each.
WRONG = {
    "<!-- quote pas_bestfit/src/best.rt: impl Nothing { -->\n<!-- end of quote -->": "0 lines begin",
    "<!-- quote pas_bestfit/src/best.rt: } -->\n<!-- end of quote -->": "and not one",
    "<!-- quote pas_bestfit/src/nothing.rt: impl { -->\n<!-- end of quote -->": "No such file",
    "<!-- quote pas_bestfit/src/best.rt: impl Best { -->\n": "1 quotes begin, 0 end",
}
PIECE = ["/// Says.", "fn f()", "    requires { a }", "{", "    if b {", "    }", "", "    c", "}", "", "fn g() {}"]
ENTRY = ["-- what it is", "pub f : A", "f a =", "    b", "", "g = c"]


def said(page):
    try:
        quotes.made_anew(page)
        return "nothing"
    except ValueError as fault:
        return str(fault)


def faults(page):
    """What is wrong with the quotes of this page, and with the tool."""
    yield from difflib.unified_diff(page.splitlines(), quotes.made_anew(page).splitlines(), n=0, lineterm="")
    spoilt = page.replace("let mut best = None;", "let mut best = Some(0);")
    if page == spoilt or quotes.made_anew(spoilt) != quotes.made_anew(page):
        yield "a quote with another word isn't mended"
    for wrong, why in WRONG.items():
        if why not in said(wrong):
            yield f"of {wrong!r} it says {said(wrong)!r}, and not {why!r}"
    if quotes.piece(PIECE, 1) != PIECE[:9]:
        yield f"a function is quoted as {quotes.piece(PIECE, 1)}"
    if quotes.piece(ENTRY, 1) != ENTRY[:4]:
        yield f"a lemma is quoted as {quotes.piece(ENTRY, 1)}"


def main():
    if len(sys.argv) > 2 or sys.argv[1:2] in (["-h"], ["--help"]):
        sys.exit(__doc__)
    page = quotes.PAGE.read_text(encoding="utf-8")
    try:
        found = list(faults(page))
    except ValueError as fault:
        found = [str(fault)]
    for fault in found:
        print(fault)
    if found:
        sys.exit("docs/BUILDING.md isn't as the tree: tools/quotes.py --write makes its quotes anew")
    print(f"{len(quotes.QUOTE.findall(page))} quotes are as the tree")


if __name__ == "__main__":
    main()
