#!/usr/bin/env python3
"""tests/measures.py PROGRAM

Runs the program that measures, pas_timing, which `rt ci` leaves beside PROGRAM, on small inputs whose outputs are known:
the search of a directory by rows and word by word, and a trace replayed alone in both ways. The gate itself runs its
kernels. The status is 1 where an output isn't the one that is known."""

import subprocess
import sys
from pathlib import Path

TRACE = Path(__file__).resolve().parent / "measures/replay.pas"
SCAN = b"rows 100\nwords 100\nrows\nbits 100\n"
FOUND = "rows 100 409600\nwords 100 409600\nrows no job\nbits 100 no job\n"
RECORDS = "records 15\n"


def printed(program, words, text):
    """What it prints, or how it ended."""
    done = subprocess.run([program, *words], input=text, capture_output=True, timeout=60)
    return done.stdout.decode() if done.returncode == 0 else f"status {done.returncode}\n"


def main():
    program = Path(sys.argv[1]).resolve().parents[2] / "pas_timing/out/pas_timing"
    trace = TRACE.read_bytes()
    cases = [(["scan"], SCAN, FOUND)] + [(["replay", way], trace, RECORDS) for way in ("run", "order")]
    wrong = 0
    for words, text, known in cases:
        told = printed(program, words, text)
        if told != known:
            wrong += 1
            print(f"{' '.join(words)}: {told!r} where {known!r} is known")
    print(f"{len(cases)} outputs, {wrong} wrong")
    return int(wrong > 0)


if __name__ == "__main__":
    sys.exit(main())
