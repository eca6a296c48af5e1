#!/usr/bin/env python3
"""tests/edits.py [PROGRAM]

Says which edits of edits/ can't be applied to the tree as it stands, and which the table of docs/PROOFS.md lacks or has
otherwise. Nothing is proved, and the program isn't needed: tools/try-edits tries them. Ends with status 0 where there
is none."""
import subprocess
import sys
from pathlib import Path

TOP = Path(__file__).resolve().parent.parent


def main():
    if len(sys.argv) > 2 or sys.argv[1:2] in (["-h"], ["--help"]):
        sys.exit(__doc__)
    command = [sys.executable, TOP / "tools/try-edits", "--list"]
    ran = subprocess.run(command, stdin=subprocess.DEVNULL, stdout=subprocess.PIPE, stderr=subprocess.PIPE, text=True)
    if ran.returncode:
        print(ran.stderr, end="")
        sys.exit("tools/try-edits --write CRATE tries the edits of a crate, and makes its rows of the table")
    print(f"{len(ran.stdout.splitlines())} edits can be applied, and stand in the table")


if __name__ == "__main__":
    main()
