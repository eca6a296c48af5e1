#!/usr/bin/env python3
"""tests/wrong_runs.py PROGRAM

Judges the pairs of transcripts of `run` of tests/pairs_of_runs.py by tests/transcripts.py: a right one, which has to be
accepted, and one with the same trace that has to be refused. The wrong ones are those of an allocator whose actors or phases act in another order than
that of the text, so that what one worker did, or what an earlier phase left, isn't there yet: for each actor alone they
are right. The program's own transcript of each trace has to be accepted, too, and where nothing happens at the same time
it has to be the right one. Ends with status 0 where all is so."""

import subprocess
import sys

from pairs_of_runs import PAIRS
from traces import read_trace
from transcripts import judge

MOST_SECONDS = 60


def written(program, trace):
    """What the program writes of the trace."""
    done = subprocess.run([program, "run"], input=trace.encode("ascii"), stdout=subprocess.PIPE, timeout=MOST_SECONDS)
    return done.stdout.decode("ascii", "replace") if done.returncode == 0 else f"status {done.returncode}"


def faults(program, pair):
    """What isn't as it has to be."""
    plan = read_trace(pair.trace)
    if reason := judge(plan, pair.right):
        yield f"the right one is refused: {reason}"
    if judge(plan, pair.wrong) is None:
        yield "the wrong one is accepted"
    own = written(program, pair.trace)
    if reason := judge(plan, own):
        yield f"the program's own is refused: {reason}"
    if plan.is_in_order() and own != pair.right:
        yield f"the program writes another one than the right:\n{own}"


def main():
    if len(sys.argv) != 2 or sys.argv[1].startswith("-"):
        sys.exit(__doc__)
    found = [f"{pair.what}: {fault}" for pair in PAIRS for fault in faults(sys.argv[1], pair)]
    for fault in found:
        print(fault)
    print(f"{len(PAIRS)} pairs, {len(found)} faults")
    return 1 if found else 0


if __name__ == "__main__":
    sys.exit(main())
