#!/usr/bin/env python3
"""Times `pas order` on legal traces that ask for much work, and prints a table.

usage: bench/slow.py [--seconds S] PROGRAM..
       bench/slow.py --trace NAME

Each PROGRAM is a built program, such as crates/pas/out/pas. The traces:

    full      4 threads with 32 heaps fill a region of 16,384 pages; then each asks and frees on, and most requests are refused
    holes     16,300 bit-fit pages keep a hole of 1,008 bytes each, and 300,000 requests for 1,100 bytes pass them by
    guards    5,000 guarded blocks of a page are up, and 100,000 more are asked for, each in the place of one that is freed
    refill    20,000 blocks of 1,025 to 2,048 bytes live; 10,000 times a random one is freed, and another one is asked for

The table has the operations, and for each program the seconds of user and system time and the peak memory of one run. A run is
stopped after S seconds of processor time (120). With `--trace` the trace comes to standard output.
"""

import argparse
import os
import resource
import subprocess
import sys
import tempfile

from bench import Numbers

PAGES = 16_384


def full(numbers):
    """Requests of the classes by four threads in 32 heaps, up to and past the end of the region."""
    yield f"pas 4 pages {PAGES} threads 4 heaps 32 age 2"
    live = [[] for _ in range(4)]
    for name in range(1, 400_001):
        thread = name % 4
        yield f"a {thread + 1} {name} {numbers.below(32)} {16 + numbers.below(497)} 16"
        live[thread].append(name)
    for name in range(400_001, 550_001):
        thread = name % 4
        names = live[thread]
        at = numbers.below(len(names))
        names[at], names[-1] = names[-1], names[at]
        yield f"f {thread + 1} {names.pop()}"
        yield f"a {thread + 1} {name} {numbers.below(32)} {16 + numbers.below(497)} 16"
        names.append(name)


def holes(numbers):
    """Pages of which 1,008 bytes are free, each of which is visited by each later request."""
    yield f"pas 4 pages {PAGES} threads 1 heaps 1 age 2"
    for page in range(16_300):
        yield f"a 1 {2 * page + 1} 0 2048 16"
        yield f"a 1 {2 * page + 2} 0 1040 16"
    for name in range(32_601, 332_601):
        yield f"a 1 {name} 0 1100 16"
        yield f"f 1 {name}"


def guards(numbers):
    """Guarded blocks of one page."""
    yield f"pas 4 pages {PAGES} threads 1 heaps 1 age 2"
    yield "guard 1"
    for name in range(1, 5_001):
        yield f"a 1 {name} 0 4096 16"
    live = list(range(1, 5_001))
    for name in range(5_001, 105_001):
        at = numbers.below(len(live))
        yield f"f 1 {live[at]}"
        yield f"a 1 {name} 0 4096 16"
        live[at] = name


def refill(numbers):
    """Blocks of bit-fit pages, freed and asked for at random."""
    yield f"pas 4 pages {PAGES} threads 1 heaps 1 age 2"
    live = list(range(1, 20_001))
    for name in live:
        yield f"a 1 {name} 0 {1_025 + numbers.below(1_024)} 16"
    for name in range(20_001, 30_001):
        at = numbers.below(len(live))
        yield f"f 1 {live[at]}"
        yield f"a 1 {name} 0 {1_025 + numbers.below(1_024)} 16"
        live[at] = name


TRACES = {"full": full, "holes": holes, "guards": guards, "refill": refill}


def run(program, path, seconds):
    """Seconds of processor time and megabytes of a run, or None where it was stopped."""
    with open(path, "rb") as trace:
        child = subprocess.Popen([program, "order"], stdin=trace, stdout=subprocess.DEVNULL,
                                 preexec_fn=lambda: resource.setrlimit(resource.RLIMIT_CPU, (seconds, seconds + 1)))
        _, status, usage = os.wait4(child.pid, 0)
    child.returncode = os.waitstatus_to_exitcode(status)
    return (usage.ru_utime + usage.ru_stime, usage.ru_maxrss / 1024) if child.returncode == 0 else None


def main():
    parser = argparse.ArgumentParser(description=__doc__, formatter_class=argparse.RawDescriptionHelpFormatter)
    parser.add_argument("--seconds", type=int, default=120)
    parser.add_argument("--trace", choices=TRACES)
    parser.add_argument("programs", nargs="*", metavar="PROGRAM")
    args = parser.parse_args()
    if args.trace:
        sys.stdout.writelines(line + "\n" for line in TRACES[args.trace](Numbers(7)))
        return
    if not args.programs:
        parser.error("a PROGRAM is needed")
    for name, lines in TRACES.items():
        with tempfile.NamedTemporaryFile("w", suffix=".trace") as trace:
            operations = 0
            for line in lines(Numbers(7)):
                trace.write(line + "\n")
                operations += line[0] in "af"
            trace.flush()
            told = []
            for program in args.programs:
                figures = run(program, trace.name, args.seconds)
                told.append(f"{figures[0]:8.2f} s {figures[1]:7.1f} MB" if figures else f"over {args.seconds} s")
            print(f"{name:8} {operations:9,}  {'   '.join(told)}", flush=True)


if __name__ == "__main__":
    main()
