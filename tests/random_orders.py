#!/usr/bin/env python3
"""tests/random_orders.py PROGRAM [--write]

Replays random traces with `pas order`, and compares what it writes with the transcripts of random_orders.xz, byte for
byte. Each stands there behind a line 'seed N', of which tools/random_trace.py makes the trace. The program is proved to
write the text that is defined, so that this tries the definition: most transcripts are what the program printed before
that was proved, and those of the seeds 1001 to 1040 come from a second reading of the rules. Ends with status 0 where
all are the same. With --write those that differ are kept as the program writes them, after a change of a rule: read
some of them first."""
import lzma
import re
import subprocess
import sys
from pathlib import Path

TESTS = Path(__file__).resolve().parent
KEPT = TESTS / "random_orders.xz"
sys.path.insert(0, str(TESTS.parent / "tools"))
sys.dont_write_bytecode = True
from random_trace import Trace  # noqa: E402

MOST_SECONDS = 60


def transcripts():
    """The seeds, each with its transcript."""
    text = lzma.decompress(KEPT.read_bytes()).decode()
    parts = re.split(r"(?m)^seed (\d+)\n", text)[1:]
    return {int(seed): wanted for seed, wanted in zip(parts[::2], parts[1::2])}


def replayed(program, seed):
    """The program's run on the trace of this seed."""
    trace = Trace(seed).text()
    return subprocess.run([program, "order"], input=trace.encode(), stdout=subprocess.PIPE, timeout=MOST_SECONDS)


def write(program, seeds):
    """Keeps what the program writes of the traces of these seeds."""
    runs = {seed: replayed(program, seed) for seed in seeds}
    if failed := [seed for seed, run in runs.items() if run.returncode]:
        sys.exit(f"the program fails on the seeds {failed}, so nothing is written")
    text = "".join(f"seed {seed}\n{run.stdout.decode()}" for seed, run in runs.items())
    KEPT.write_bytes(lzma.compress(text.encode(), preset=9 | lzma.PRESET_EXTREME))


def differs(program, seed, wanted):
    """What is wrong with the replay of the trace of this seed, or nothing."""
    run = replayed(program, seed)
    if run.returncode:
        return f"the status is {run.returncode}"
    lines = zip(run.stdout.split(b"\n"), wanted.encode().split(b"\n"))
    unlike = next((number for number, (line, other) in enumerate(lines, 1) if line != other), None)
    if run.stdout != wanted.encode():
        return f"the transcript is another, first at line {unlike}" if unlike else "one transcript is a first part of the other"
    return None


def main():
    if len(sys.argv) not in (2, 3) or sys.argv[1].startswith("-") or sys.argv[2:] not in ([], ["--write"]):
        sys.exit(__doc__)
    found = transcripts()
    if sys.argv[2:]:
        write(sys.argv[1], found)
        found = transcripts()
    faults = [f"seed {seed}: {fault}" for seed, wanted in found.items() if (fault := differs(sys.argv[1], seed, wanted))]
    for fault in faults:
        print(fault)
    print(f"{len(found)} random traces, {len(faults)} wrong")
    sys.exit(1 if faults or not found else 0)


if __name__ == "__main__":
    main()
