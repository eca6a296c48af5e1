#!/usr/bin/env python3
"""Keeps the pieces of code and proofs that docs/BUILDING.md quotes as they are in the tree.

A quote stands between two marks, of which the first names a file below crates/ and how the line begins with which the
piece begins there, without the blanks before it:

    <!-- quote pas_bestfit/src/best.rt: impl Placing for -->
    <!-- end of quote -->

One line of the file alone may begin so. The piece is that line, with the comments and clauses right above it that belong
to it, and what follows up to the line that closes it: the bracket of the same margin, or, where no bracket is open at
its end, the last line before an empty one.

With --write the quotes are made anew. tests/quotes.py fails where one isn't as the tree.
"""

from __future__ import annotations

import argparse
import re
import sys
from pathlib import Path

TOP = Path(__file__).resolve().parent.parent
PAGE = TOP / "docs/BUILDING.md"
QUOTE = re.compile(r"<!-- quote (\S+): (.+?) -->\n(.*?)<!-- end of quote -->", re.S)
BEGINS, ENDS = "<!-- quote ", "<!-- end of quote -->"
LANGUAGES = {".rt": "rust", ".antt": "text", ".edit": "text"}


def piece(lines: list[str], at: int) -> list[str]:
    """The piece that begins with this line, with the comments above it."""
    first, margin = at, len(lines[at]) - len(lines[at].lstrip())
    while first and re.match(r"\s*(///|--|#\[)", lines[first - 1]):
        first -= 1
    last = at
    while last + 1 < len(lines) and lines[last + 1].strip():
        last += 1
        if re.match(rf" {{{margin}}}[}}\])]", lines[last]):
            return lines[first : last + 1]
    # A bracket that is open at the piece's end goes on over empty lines.
    text = "\n".join(lines[at : last + 1])
    while text.count("{") > text.count("}") and last + 1 < len(lines):
        last += 1
        text += "\n" + lines[last]
        if re.match(rf" {{{margin}}}[}}\])]", lines[last]):
            break
    return lines[first : last + 1]


def quoted(file: str, begins: str) -> str:
    """The quote of the piece of this file that begins so, or a ValueError that says why there is none."""
    path = TOP / "crates" / file
    try:
        lines = path.read_text(encoding="utf-8").splitlines()
    except OSError as fault:
        raise ValueError(f"crates/{file}: {fault.strerror}") from fault
    found = [at for at, line in enumerate(lines) if line.lstrip().startswith(begins)]
    if len(found) != 1:
        raise ValueError(f"crates/{file}: {len(found)} lines begin with {begins!r}, and not one")
    text = "\n".join(piece(lines, found[0]))
    return f"<!-- quote {file}: {begins} -->\n\n```{LANGUAGES.get(path.suffix, 'text')}\n{text}\n```\n\n{ENDS}"


def made_anew(page: str) -> str:
    """The page with each quote as the tree has it, or a ValueError."""
    if not page.count(BEGINS) == page.count(ENDS) == len(QUOTE.findall(page)):
        raise ValueError(f"{page.count(BEGINS)} quotes begin, {page.count(ENDS)} end, and {len(QUOTE.findall(page))} do both")
    return QUOTE.sub(lambda it: quoted(it[1], it[2]), page)


def main() -> None:
    parser = argparse.ArgumentParser(description=__doc__, formatter_class=argparse.RawDescriptionHelpFormatter)
    parser.add_argument("--write", action="store_true", help="make the quotes of docs/BUILDING.md anew")
    words = parser.parse_args()
    try:
        page = PAGE.read_text(encoding="utf-8")
        anew = made_anew(page)
    except (OSError, ValueError) as fault:
        sys.exit(f"quotes.py: {fault}")
    if words.write:
        PAGE.write_text(anew, encoding="utf-8")
    elif page != anew:
        sys.exit("quotes.py: docs/BUILDING.md isn't as the tree: --write makes its quotes anew")
    print(f"{len(QUOTE.findall(page))} quotes")


if __name__ == "__main__":
    main()
