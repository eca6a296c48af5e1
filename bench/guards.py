#!/usr/bin/env python3
"""Times `pas order` on traces whose requests are for whole pages, some of them guarded, and prints a table.

usage: bench/guards.py [--repeat N] [--requests R] PROGRAM
       bench/guards.py --trace EVERY [--requests R] [--pages P]

PROGRAM is a built program, such as crates/pas/out/pas. Each trace has R requests (100,000) of one thread for 1 to 4 pages, and as many frees
that are flushed at once where some 1,000 pages are in use. It is replayed without guards, and with each request guarded, each second, tenth
and hundredth one, in regions of 4,096 and of 16,384 pages. For each the table has the guards that went up, the lines of the transcript, and of
the fastest of N runs (5) the seconds by the clock, how many times those without guards it takes, and the peak memory. With `--trace` the
trace comes to standard output, with a guard for each request whose number is a multiple of EVERY, or with none where that is 0:
`bench/large_steps.py` counts its steps.
"""

import argparse
import os
import subprocess
import sys
import tempfile
import time

from bench import Numbers

MOST_IN_USE = 1_000
EVERY = (0, 1, 2, 10, 100)


def trace(every, requests, pages):
    """The lines of a trace."""
    yield f"pas 4 pages {pages} threads 1 heaps 1 age 2"
    if every:
        yield f"guard {every}"
    numbers, live, used = Numbers(7), [], 0
    for name in range(1, requests + 1):
        while used > MOST_IN_USE or (live and numbers.below(100) < 45):
            at = numbers.below(len(live))
            live[at], live[-1] = live[-1], live[at]
            freed, size = live.pop()
            used -= size
            yield f"f 1 {freed}"
            yield "flush 1"
        size = 1 + numbers.below(4)
        live.append((name, size))
        used += size
        yield f"a 1 {name} 0 {4096 * size} 16"


def timed(program, source, sink):
    """Seconds by the clock, and the peak memory in MB."""
    with open(source, "rb") as text, open(sink, "wb") as out:
        began = time.perf_counter()
        child = subprocess.Popen([program, "order"], stdin=text, stdout=out)
        _, status, usage = os.wait4(child.pid, 0)
        seconds = time.perf_counter() - began
    child.returncode = os.waitstatus_to_exitcode(status)
    if child.returncode:
        sys.exit(f"{program} order: status {child.returncode}")
    return seconds, usage.ru_maxrss / 1024


def measured(program, folder, lines, repeat):
    """The guards and the lines of the transcript, and the least seconds and the memory of some runs."""
    source, sink = os.path.join(folder, "trace"), os.path.join(folder, "transcript")
    with open(source, "w", encoding="ascii") as file:
        file.writelines(line + "\n" for line in lines)
    runs = [timed(program, source, sink) for _ in range(repeat)]
    with open(sink, encoding="ascii") as file:
        text = file.read()
    return text.count(" guarded "), text.count("\n"), *min(runs)


def main():
    parser = argparse.ArgumentParser(description=__doc__, formatter_class=argparse.RawDescriptionHelpFormatter)
    parser.add_argument("program", nargs="?")
    parser.add_argument("--trace", type=int)
    parser.add_argument("--repeat", type=int, default=5)
    parser.add_argument("--requests", type=int, default=100_000)
    parser.add_argument("--pages", type=int, default=4_096)
    wanted = parser.parse_args()
    if wanted.trace is not None:
        sys.stdout.writelines(line + "\n" for line in trace(wanted.trace, wanted.requests, wanted.pages))
        return
    if not wanted.program:
        sys.exit(__doc__)
    print("| Pages | Guarded | Guards | Lines | Seconds | Times those without | MB |")
    print("|---|---|---|---|---|---|---|")
    with tempfile.TemporaryDirectory() as folder:
        for pages in (4_096, 16_384):
            least = 0
            for every in EVERY:
                guards, lines, seconds, memory = measured(wanted.program, folder, trace(every, wanted.requests, pages), wanted.repeat)
                least = least or seconds
                which = {0: "none", 1: "each", 2: "each second"}.get(every, f"each {every}th")
                print(f"| {pages:,} | {which} | {guards:,} | {lines:,} | {seconds:.2f} | {seconds / least:.2f} | {memory:.0f} |", flush=True)


if __name__ == "__main__":
    main()
