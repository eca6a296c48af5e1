#!/usr/bin/env python3
"""tests/tables.py [PROGRAM]

Compares the lists of tables in docs/CHANGING.md with those that tools/tables.py makes of the tree, line by line, and
says which lines differ: with a minus where the page has a line that the tree doesn't tell, and a plus where one is
missing. The program isn't needed. Ends with status 0 where all are the same."""
import difflib
import pathlib
import sys

TOP = pathlib.Path(__file__).resolve().parent.parent
sys.path.insert(0, str(TOP / "tools"))
sys.dont_write_bytecode = True
import tables  # noqa: E402


def faults(page):
    """What is wrong with the lists of this page."""
    yield from tables.amiss(page)
    lines = difflib.unified_diff(page.splitlines(), tables.made_anew(page).splitlines(), n=0, lineterm="")
    yield from (line for line in lines if not line.startswith(("---", "+++")))


def main():
    if len(sys.argv) > 2 or sys.argv[1:2] in (["-h"], ["--help"]):
        sys.exit(__doc__)
    found = list(faults(tables.PAGE.read_text(encoding="utf-8")))
    for fault in found:
        print(fault)
    if found:
        sys.exit("docs/CHANGING.md isn't as the tree: tools/tables.py --write makes its lists anew")
    print(f"{len(tables.TYPES)} lists are as the tree")


if __name__ == "__main__":
    main()
