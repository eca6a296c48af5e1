#!/usr/bin/env python3
"""Times the search of a directory's offered pages by rows of eight words beside the search word by word, and prints a table.

usage: bench/scan.py [--repeat N] [--times N] PROGRAM

PROGRAM is the built crates/pas_timing/out/pas_timing. The directory has 4,096 pages, of which the last alone is offered, so each search
reads 65 words. The two ways run in turn. The table has the nanoseconds of one search by the processor's time of the fastest of N runs (9),
less that of a run of no search, and how many times as long the search word by word takes.
"""

import resource
import subprocess
import sys

WAYS = ["rows", "words"]


def seconds(program, job):
    """The processor's seconds that the program takes for the job, and the sum that it prints."""
    before = resource.getrusage(resource.RUSAGE_CHILDREN)
    done = subprocess.run([program, "scan"], input=job + "\n", capture_output=True, text=True, check=True)
    after = resource.getrusage(resource.RUSAGE_CHILDREN)
    return after.ru_utime + after.ru_stime - before.ru_utime - before.ru_stime, done.stdout.split()[-1]


def main(arguments):
    repeat, times = 9, 2_000_000
    while arguments[:1] in (["--repeat"], ["--times"]):
        if arguments[0] == "--repeat":
            repeat = int(arguments[1])
        else:
            times = int(arguments[1])
        arguments = arguments[2:]
    if len(arguments) != 1:
        sys.exit(__doc__)
    fastest, none, sums = dict.fromkeys(WAYS, float("inf")), float("inf"), set()
    for _ in range(repeat):
        none = min(none, seconds(arguments[0], "rows 0")[0])
        for way in WAYS:
            took, total = seconds(arguments[0], f"{way} {times}")
            fastest[way] = min(fastest[way], took)
            sums.add(total)
    if len(sums) != 1:
        sys.exit(f"the ways differ: {sorted(sums)}")
    rows, words = [(fastest[way] - none) / times * 1e9 for way in WAYS]
    print("| By rows, ns | Word by word, ns | Word by word / rows |\n|---|---|---|")
    print(f"| {rows:,.1f} | {words:,.1f} | {words / rows:.2f} |")


main(sys.argv[1:])
