#!/usr/bin/env python3
"""Times `pas run` beside `pas order` by the number of threads, and prints a table.

usage: bench/threads.py [--repeat N] [--operations N] PROGRAM TIMING [TRACE..]

PROGRAM is the built crates/pas/out/pas, and TIMING the built crates/pas_timing/out/pas_timing. The traces have 400,000
operations in one phase, divided among 1, 2, 4, 8 and 16 threads: requests of 16 to 256 bytes, and frees by name of the
thread's own blocks. In one the threads work in heaps of their own, in the other all share one heap. The table has the
milliseconds by the wall clock from the bytes of the trace to those of the transcript, of the fastest of N runs (7),
the peak memory, how many times as long `run` takes as `order`, by the fastest of each and by the median of the pairs
of runs that follow each other, and the same for the operations alone, from a kit that is ready to the last record. The
ways run in turn. Where traces are named, they are timed in place of the generated ones. What else the machine does
meanwhile shows in the figures.
"""

import os
import statistics
import subprocess
import sys
import tempfile
import time

from bench import in_turns, write_trace

THREADS = [1, 2, 4, 8, 16]
WAYS = ["order", "run"]
PAGES = 4096
LEAST, MOST = 16, 256
LIVE = 20_000


def generated(operations, threads, is_own):
    """A trace whose threads take turns, with their shares of the live blocks. The heaps are those of the threads, or one."""
    yield f"pas 1 pages {PAGES} threads {threads} heaps {threads if is_own else 1} age 2"
    yield from in_turns(operations, threads, LIVE // threads,
                        lambda numbers, thread: f"{thread if is_own else 0} {LEAST + numbers.below(MOST - LEAST + 1)}")


def timed(program, way, path):
    """Seconds by the clock, the peak memory in MB, and how many requests were refused."""
    with open(path, "rb") as source, tempfile.TemporaryFile() as output:
        start = time.perf_counter()
        child = subprocess.Popen([program, way], stdin=source, stdout=output)
        _, status, usage = os.wait4(child.pid, 0)
        seconds = time.perf_counter() - start
        child.returncode = os.waitstatus_to_exitcode(status)
        if child.returncode != 0:
            sys.exit(f"{program} {way}: status {child.returncode} on {path}")
        output.seek(0)
        refused = sum(b" held " in line or b" no-space " in line for line in output)
    return seconds, usage.ru_maxrss / 1024, refused


def alone(timing, way, path):
    """Seconds by the clock of the operations alone."""
    with open(path, "rb") as source:
        done = subprocess.run([timing, "replay", way, "time"], stdin=source, capture_output=True, text=True, check=True)
    return int(done.stdout.split()[-1]) / 1e9


def row(program, timing, name, path, repeat):
    """The line of a trace."""
    took, inner, peak, refused = {way: [] for way in WAYS}, dict.fromkeys(WAYS, 9e9), dict.fromkeys(WAYS, 0.0), 0
    for _ in range(repeat):
        for way in WAYS:
            seconds, memory, count = timed(program, way, path)
            took[way].append(seconds)
            peak[way], refused = max(peak[way], memory), max(refused, count)
        for way in WAYS:
            inner[way] = min(inner[way], alone(timing, way, path))
    whole = " | ".join(f"{1000 * min(took[way]):.1f} | {peak[way]:.1f}" for way in WAYS)
    pairs = statistics.median(run / order for order, run in zip(took["order"], took["run"]))
    figures = f"{whole} | {min(took['run']) / min(took['order']):.2f}, {pairs:.2f}"
    figures += f" | {1000 * inner['order']:.1f} | {1000 * inner['run']:.1f} | {inner['run'] / inner['order']:.2f}"
    return f"| {name} | {figures} | {refused} |"


def main(arguments):
    options = {"--repeat": 7, "--operations": 400_000}
    while arguments and arguments[0] in options:
        options[arguments[0]] = int(arguments[1])
        arguments = arguments[2:]
    if len(arguments) < 2:
        sys.exit(__doc__)
    program, timing = map(os.path.abspath, arguments[:2])
    print("| Heaps, threads | `order`, ms | MB | `run`, ms | MB | Times | Alone: `order`, ms | `run`, ms | Times | Refused |")
    print("|---|---|---|---|---|---|---|---|---|---|")
    for path in arguments[2:]:
        print(row(program, timing, os.path.basename(path), path, options["--repeat"]), flush=True)
    if arguments[2:]:
        return
    with tempfile.TemporaryDirectory() as folder:
        for is_own in (True, False):
            for threads in THREADS:
                name = f"{'their own' if is_own else 'one'}, {threads}"
                _, path = write_trace(folder, f"{name}.trace", generated(options["--operations"], threads, is_own))
                print(row(program, timing, name, path, options["--repeat"]), flush=True)


if __name__ == "__main__":
    main(sys.argv[1:])
