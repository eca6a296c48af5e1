#!/usr/bin/env python3
"""tests/imports.py [PROGRAM]

Says which files of crates/ haven't their imports in the one form (tools/fold_imports.py), and tries the tools that
rewrite proof files on the small texts of their own: that each does what it is to do, and nothing more in a second run.
The tools that make one crate or one file of several, or two crates of one, are tried on small trees. The program isn't needed. Ends with status 0 where all is well."""
import subprocess
import sys
from pathlib import Path

TOP = Path(__file__).resolve().parent.parent
RUNS = [
    ("fold_imports.py", "--check"),
    ("fold_imports.py", "--self-check"),
    ("drop_dead.py", "--self-check"),
    ("inline_aliases.py", "--self-check"),
    ("make_private.py", "--self-check"),
    ("merge_crates.py", "--self-check"),
    ("merge_files.py", "--self-check"),
    ("split_crate.py", "--self-check"),
]


def fault_of(words):
    """What a tool says where it doesn't pass, or nothing."""
    command = [sys.executable, TOP / "tools" / words[0], *words[1:]]
    ran = subprocess.run(command, cwd=TOP, stdin=subprocess.DEVNULL, stdout=subprocess.PIPE, stderr=subprocess.STDOUT)
    return f"status {ran.returncode}\n{ran.stdout.decode(errors='replace')}" if ran.returncode else None


def main():
    if len(sys.argv) > 2 or sys.argv[1:2] in (["-h"], ["--help"]):
        sys.exit(__doc__)
    found = [(words, fault) for words in RUNS if (fault := fault_of(words))]
    for words, fault in found:
        print(f"tools/{' '.join(words)}: {fault.rstrip()}")
    if found:
        sys.exit("tools/fold_imports.py CRATE writes the imports of a crate in that form")
    print("imports are in one form, and the tools do what they are to do")


if __name__ == "__main__":
    main()
