#!/usr/bin/env python3
"""Times `pas order` on generated traces and on traces that you name, and prints a table.

usage: bench/bench.py [--repeat N] [--quick] PROGRAM [OTHER] [TRACE..]

PROGRAM and OTHER are built programs, such as crates/pas/out/pas; with two of them each trace is run by both in turn, and the table has
their ratio. A TRACE is a file in the trace format, or the same packed by xz. For each trace the table has its operations, the seconds of
the fastest of N runs (5) by the wall clock, nanoseconds an operation, the peak memory, and the share of the requests that found a slot in
their thread's cache, which is computed from the transcript.
"""

import lzma
import os
import subprocess
import sys
import tempfile
import time

# The sizes of the classes, in bytes.
CLASSES = [16, 32, 48, 64, 80, 96, 112, 128, 160, 192, 224, 256, 320, 384, 448, 512]
MOST_LOCALS = 32
PAGE = 4096


class Numbers:
    """A small generator of numbers, the same on every machine."""

    def __init__(self, seed):
        self.state = seed

    def below(self, n):
        self.state = (self.state * 6364136223846793005 + 1442695040888963407) % 2**64
        return (self.state >> 33) % n


def in_turns(operations, threads, live, request, seed=7):
    """Lines of threads that take turns: each asks, for what `request` says by a source of numbers and the thread from 0, until it has so many
    blocks, and then frees as often as it asks."""
    numbers, blocks, name = Numbers(seed), [[] for _ in range(threads)], 0
    for i in range(operations):
        thread = i % threads
        mine = blocks[thread]
        if mine and (len(mine) >= live or numbers.below(2)):
            at = numbers.below(len(mine))
            mine[at], mine[-1] = mine[-1], mine[at]
            yield f"f {thread + 1} {mine.pop()}"
        else:
            name += 1
            mine.append(name)
            yield f"a {thread + 1} {name} {request(numbers, thread)} 16"


def generated(operations, threads, heaps, pages, live):
    """A trace whose threads take turns, and ask for the sizes of classes in all heaps."""
    yield f"pas 1 pages {pages} threads {threads} heaps {heaps} age 2"
    yield from in_turns(operations, threads, live, lambda numbers, _: f"{numbers.below(heaps)} {CLASSES[numbers.below(16)]}")


def refused(operations, pages):
    """A trace that fills a region with blocks of one heap, and then asks for blocks of another in vain."""
    name = 0
    yield f"pas 1 pages {pages} threads 1 heaps 2 age 2"
    for _ in range(8 * pages):
        name += 1
        yield f"a 1 {name} 0 512 16"
    for _ in range(operations):
        name += 1
        yield f"a 1 {name} 1 512 16"


def write_trace(folder, name, lines):
    path = os.path.join(folder, name)
    with open(path, "w", encoding="ascii") as file:
        file.writelines(line + "\n" for line in lines)
    return name, path


def traces(folder, quick, named):
    for n in (10_000, 100_000) if quick else (10_000, 100_000, 1_000_000):
        yield write_trace(folder, f"1 thread, {n}", generated(n, 1, 8, 4096, 2000))
    n = 100_000 if quick else 1_000_000
    yield write_trace(folder, f"16 threads in turn, {n}", generated(n, 16, 8, 4096, 1000))
    yield write_trace(folder, "20000 refusals, 4096 pages", refused(20_000, 4096))
    for path in named:
        name = os.path.basename(path)
        if path.endswith(".xz"):
            target = os.path.join(folder, name[:-3])
            with lzma.open(path) as packed, open(target, "wb") as file:
                file.write(packed.read())
            yield name[:-3], target
        else:
            yield name, path


def operations_of(path):
    with open(path, "rb") as file:
        return sum(line.split(b" ", 1)[0].strip() in (b"a", b"f", b"r", b"flush", b"stop", b"tick", b"pass", b"idle") for line in file)


def run(program, path, output):
    """Seconds by the clock, and the peak memory in MB."""
    with open(path, "rb") as source:
        start = time.perf_counter()
        child = subprocess.Popen([program, "order"], stdin=source, stdout=output)
        _, status, usage = os.wait4(child.pid, 0)
        seconds = time.perf_counter() - start
    child.returncode = os.waitstatus_to_exitcode(status)
    if child.returncode not in (0, 7):
        sys.exit(f"{program}: status {child.returncode} on {path}")
    return seconds, usage.ru_maxrss / 1024


class Thread:
    """The local allocators of a thread, the last used at the end: heap and class, page, and the slots that wait."""

    def __init__(self):
        self.locals = {}


def cached_share(path, transcript):
    """How many requests were answered with a block, and how many of these by a slot that waited in their thread's cache."""
    asked = {}
    with open(path, encoding="ascii") as file:
        header = file.readline().split()
        threads = {k: Thread() for k in range(1, int(header[5]) + 1)}
    free, class_of = {}, {}
    given = cached = 0

    def stop(local):
        page, slots = local
        free[page] |= slots

    with open(transcript, encoding="ascii") as lines:
        for line in lines:
            words = line.split()
            if words[0] == "report":
                break
            if len(words) < 3:
                continue
            if words[1] == "deed" and words[6] == "class":
                page = int(words[3])
                size = int(words[7])
                class_of[page] = (int(words[5]), size)
                free[page] = set(range(PAGE // size))
            elif words[1] == "give":
                address = int(words[2], 16)
                page, offset = address // PAGE, address % PAGE
                if page not in class_of:
                    continue
                key, slot = class_of[page], offset // class_of[page][1]
                locals_ = threads[int(words[0])].locals
                given += 1
                if key in locals_ and slot in locals_[key][1]:
                    cached += 1
                    local = locals_.pop(key)
                    local[1].discard(slot)
                else:
                    if key in locals_:
                        stop(locals_.pop(key))
                    if len(locals_) >= MOST_LOCALS:
                        stop(locals_.pop(next(iter(locals_))))
                    local = (page, free[page])
                    free[page] = set()
                    local[1].discard(slot)
                locals_[key] = local
            elif words[1] == "freed":
                address = int(words[2], 16)
                page = address // PAGE
                if page in class_of:
                    free[page].add(address % PAGE // class_of[page][1])
    return given, cached


def main():
    words, repeat, quick = sys.argv[1:], 5, False
    while words and words[0].startswith("--"):
        option = words.pop(0)
        if option == "--repeat":
            repeat = int(words.pop(0))
        elif option == "--quick":
            quick = True
        else:
            sys.exit(__doc__)
    programs = [word for word in words if os.access(word, os.X_OK)]
    named = [word for word in words if word not in programs]
    if not 1 <= len(programs) <= 2:
        sys.exit(__doc__)
    print(f"{'trace':36} {'operations':>10}" + "".join(f" {'seconds':>8} {'ns/op':>6} {'MB':>6}" for _ in programs)
          + (f" {'time':>5} {'mem':>5}" if len(programs) == 2 else "") + f" {'cached':>7}")
    with tempfile.TemporaryDirectory() as folder:
        for name, path in traces(folder, quick, named):
            operations = operations_of(path)
            best = [(9e9, 0.0) for _ in programs]
            for i in range(repeat):
                for k, program in enumerate(programs):
                    output = open(os.path.join(folder, "out"), "wb") if i == 0 and k == 0 else open(os.devnull, "wb")
                    with output:
                        seconds, memory = run(program, path, output)
                    best[k] = min(best[k][0], seconds), max(best[k][1], memory)
            given, cached = cached_share(path, os.path.join(folder, "out"))
            row = f"{name:36} {operations:10}"
            for seconds, memory in best:
                row += f" {seconds:8.3f} {seconds / max(operations, 1) * 1e9:6.0f} {memory:6.1f}"
            if len(programs) == 2:
                row += f" {best[0][0] / best[1][0]:5.2f} {best[0][1] / best[1][1]:5.2f}"
            print(row + (f" {100 * cached / given:6.1f}%" if given else f" {'':>7}"), flush=True)


if __name__ == "__main__":
    main()
