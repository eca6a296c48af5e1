#!/usr/bin/env python3
"""Times the lane kernels beside plain loops, and prints a table.

usage: bench/lanes.py [--repeat N] PROGRAM

PROGRAM is the built crates/pas_timing/out/pas_timing. Each call is timed on rows of 8, 64 and 4,096 words, in lanes and plain in turn. The
table has the nanoseconds of one call by the processor's time of the fastest of N runs (5), and how many times as long the plain loop takes.
A call includes the loop round it, and the row's last word was written just before it.
"""

import resource
import subprocess
import sys

CALLS = ["first_set", "count_ones", "any_and_not", "all_zero"]
WORDS = [8, 64, 4096]
WAYS = ["lanes", "plain"]
WORDS_READ = 120_000_000


def seconds(program, job):
    """The processor's seconds that the program takes for the job, and the sum that it prints."""
    before = resource.getrusage(resource.RUSAGE_CHILDREN).ru_utime
    done = subprocess.run([program, "lanes"], input=job + "\n", capture_output=True, text=True, check=True)
    return resource.getrusage(resource.RUSAGE_CHILDREN).ru_utime - before, done.stdout.split()[-1]


def best(program, call, words, times, repeat):
    """The fastest seconds of each way. Both have to give one sum."""
    fastest, sums = dict.fromkeys(WAYS, float("inf")), set()
    for _ in range(repeat):
        for way in WAYS:
            took, total = seconds(program, f"{call} {way} {words} {times}")
            fastest[way] = min(fastest[way], took)
            sums.add(total)
    if len(sums) != 1:
        sys.exit(f"{call} on {words} words: the ways differ: {sorted(sums)}")
    return fastest


def main(arguments):
    repeat = 5
    if arguments[:1] == ["--repeat"]:
        repeat, arguments = int(arguments[1]), arguments[2:]
    if len(arguments) != 1:
        sys.exit(__doc__)
    print("| Call | Words | Lanes, ns | Plain, ns | Plain / lanes |\n|---|---|---|---|---|")
    for call in CALLS:
        for words in WORDS:
            times = WORDS_READ // (words + 16)
            lanes, plain = best(arguments[0], call, words, times, repeat).values()
            print(f"| `{call}` | {words:,} | {lanes / times * 1e9:,.1f} | {plain / times * 1e9:,.1f} | {plain / lanes:.1f} |", flush=True)


main(sys.argv[1:])
