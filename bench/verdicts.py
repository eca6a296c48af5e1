#!/usr/bin/env python3
"""Times `pas check` of a transcript beside `pas order`, which makes it, and prints a table.

usage: bench/verdicts.py [--repeat N] PROGRAM [TRACE..]

PROGRAM is a built program, such as crates/pas/out/pas, and a TRACE a file in the trace format, or the same packed by xz. First comes a
generated trace whose transcript has a million lines, as many as fit beside it in one input; of a TRACE that is too long for that, a first
part is taken. For each the table has the lines of the transcript, the bytes of the whole input, and of the fastest of N runs (5) of either,
in turn, the seconds by the wall clock and the peak memory; and how many times those of `order` a check takes.
"""

import lzma
import os
import subprocess
import sys
import tempfile
import time

MOST_BYTES = 16_777_216


def million_lines():
    """A trace of 16 threads: blocks that are given and freed, ticks, and idle threads that are stopped. Its transcript has a million short lines."""
    yield "pas 1 pages 256 threads 16 heaps 1 age 2"
    for turn in range(33_000):
        yield f"a 1 {turn + 1} 0 {16 * (turn % 8 + 1)} 16"
        yield f"f 1 {turn + 1}"
    yield "phase"
    for epoch in range(36_000):
        yield from [f"tick {epoch % 9}"] * 10
        yield "idle 0"


def trace_at(path):
    """The lines of a trace."""
    with lzma.open(path, "rt", encoding="ascii") if path.endswith(".xz") else open(path, encoding="ascii") as file:
        yield from (line.rstrip("\n") for line in file)


def run(program, word, path, output):
    """Seconds by the clock, and the peak memory in MB."""
    with open(path, "rb") as source, open(output, "wb") as sink:
        start = time.perf_counter()
        child = subprocess.Popen([program, word], stdin=source, stdout=sink)
        _, status, usage = os.wait4(child.pid, 0)
        seconds = time.perf_counter() - start
    child.returncode = os.waitstatus_to_exitcode(status)
    if child.returncode:
        sys.exit(f"{program} {word}: status {child.returncode} on {path}")
    return seconds, usage.ru_maxrss / 1024


def prepare(program, folder, lines):
    """Writes the trace, as much of it as may be checked, and the input of the check. How many lines the transcript has, and the input's bytes.
    A child does it: what this process has in memory at most would be counted with the program's."""
    told = os.path.join(folder, "told")
    if not (child := os.fork()):
        with open(told, "w", encoding="ascii") as file:
            print(*written(program, folder, list(lines)), file=file)
        os._exit(0)
    if os.waitpid(child, 0)[1]:
        sys.exit("the trace wasn't written")
    with open(told, encoding="ascii") as file:
        return map(int, file.read().split())


def written(program, folder, lines):
    """The same, by this process."""
    trace, transcript, both = (os.path.join(folder, name) for name in ("trace", "transcript", "both"))
    while True:
        with open(trace, "w", encoding="ascii") as file:
            file.writelines(line + "\n" for line in lines)
        run(program, "order", trace, transcript)
        with open(both, "wb") as file:
            for part in (trace, None, transcript):
                file.write(open(part, "rb").read() if part else b"transcript\n")
        if os.path.getsize(both) <= MOST_BYTES:
            with open(transcript, "rb") as file:
                return sum(1 for _ in file), os.path.getsize(both)
        lines = lines[:len(lines) * 9 // 10]


def main():
    words, repeat = sys.argv[1:], 5
    if words[:1] == ["--repeat"]:
        repeat, words = int(words[1]), words[2:]
    if not words or words[0].startswith("--"):
        sys.exit(__doc__)
    program, *paths = words
    print(f"{'trace':36} {'lines':>9} {'bytes':>10} {'order':>7} {'MB':>6} {'check':>7} {'MB':>6} {'time':>5} {'mem':>5}")
    with tempfile.TemporaryDirectory() as folder:
        for name, lines in [("a million lines", million_lines())] + [(os.path.basename(path), trace_at(path)) for path in paths]:
            count, size = prepare(program, folder, lines)
            best = {"order": (9e9, 0.0), "check": (9e9, 0.0)}
            for _ in range(repeat):
                for word, path in (("order", "trace"), ("check", "both")):
                    seconds, memory = run(program, word, os.path.join(folder, path), os.path.join(folder, "said"))
                    best[word] = min(best[word][0], seconds), max(best[word][1], memory)
            with open(os.path.join(folder, "said"), "rb") as said:
                if said.read() != b"yes\n":
                    sys.exit(f"{name}: the transcript isn't accepted")
            (order, held), (check, kept) = best["order"], best["check"]
            print(f"{name:36} {count:9} {size:10} {order:7.3f} {held:6.1f} {check:7.3f} {kept:6.1f} {check / order:5.2f} {kept / held:5.2f}", flush=True)


if __name__ == "__main__":
    main()
