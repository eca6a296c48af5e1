#!/usr/bin/env python3
"""Compares built programs on traces: processor time, page faults and peak memory, in one table.

usage: bench/traces.py [--way WAY] [--repeat N] [--markdown] LABEL=PROGRAM.. TRACE..

A PROGRAM is a built program that reads a trace from its standard input, such as crates/pas/out/pas, one of an older
commit, or another allocator's replay of the same traces. WAY is the word behind it (order). A TRACE is a file in the
trace format, or one packed by xz. The programs run in turn, each N times (9), with their output into a file in memory.
Of each trace the table has the operations, and of each program

    ms      the least of the N runs' user and system time together, in milliseconds
    faults  the fewest page faults that needed no disk
    MB      the peak memory, by GNU time, as what a child of Python is said to have is never less than Python's own

and, from the second program on, each as a part of the first one's. What differs in its output is told, and then the
status is 1.
"""

import argparse
import hashlib
import lzma
import os
import shutil
import subprocess
import sys
import tempfile
from pathlib import Path
from typing import NamedTuple

from bench import operations_of

IN_MEMORY = "/dev/shm" if os.path.isdir("/dev/shm") else None


class Run(NamedTuple):
    """What one run took, and the sum of what it wrote."""

    milliseconds: float
    faults: int
    status: int
    text: str


class Figures(NamedTuple):
    milliseconds: float
    faults: int
    megabytes: float | None


def run(program, way, trace, output):
    with open(trace, "rb") as source, open(output, "wb") as sink:
        child = subprocess.Popen([program, way], stdin=source, stdout=sink)
        _, status, usage = os.wait4(child.pid, 0)
        child.returncode = os.waitstatus_to_exitcode(status)
    with open(output, "rb") as written:
        text = hashlib.file_digest(written, "sha256").hexdigest()
    return Run(1000 * (usage.ru_utime + usage.ru_stime), usage.ru_minflt, child.returncode, text)


def megabytes(program, way, trace, note):
    """The peak memory by GNU time, where it is there."""
    timer = shutil.which("time")
    if not timer:
        return None
    with open(trace, "rb") as source:
        subprocess.run([timer, "-f", "%M", "-o", note, program, way], stdin=source, stdout=subprocess.DEVNULL, check=False)
    return int(Path(note).read_text().split()[-1]) / 1024


def compared(programs, way, trace, repeat, room):
    """The figures of each program on a trace, and the labels of those that wrote another text than the first."""
    output, runs = os.path.join(room, "out"), {label: [] for label in programs}
    for _ in range(repeat):
        for label, program in programs.items():
            runs[label].append(run(program, way, trace, output))
    first = next(iter(runs.values()))[0]
    other = [label for label, its in runs.items() if any((it.status, it.text) != (first.status, first.text) for it in its)]
    figures = {}
    for label, its in runs.items():
        memory = megabytes(programs[label], way, trace, os.path.join(room, "note"))
        figures[label] = Figures(min(it.milliseconds for it in its), min(it.faults for it in its), memory)
    return figures, other


def row(name, operations, figures):
    cells = [name, f"{operations:,}"]
    first = next(iter(figures.values()))
    for at, its in enumerate(figures.values()):
        cells += [f"{its.milliseconds:.1f}", f"{its.faults:,}", "?" if its.megabytes is None else f"{its.megabytes:.1f}"]
        if at:
            cells += [f"{its.milliseconds / first.milliseconds:.2f}", f"{its.faults / first.faults:.2f}"]
            cells += ["?" if its.megabytes is None or not first.megabytes else f"{its.megabytes / first.megabytes:.2f}"]
    return cells


def head(labels):
    cells = ["Trace", "Operations"]
    for at, label in enumerate(labels):
        cells += [f"{label}: ms", "faults", "MB"]
        cells += ["times: ms", "faults", "MB"] if at else []
    return cells


def unpacked(trace, room):
    if trace.suffix != ".xz":
        return trace.name, trace
    target = Path(room) / trace.stem
    with lzma.open(trace) as packed:
        target.write_bytes(packed.read())
    return trace.stem, target


def put(cells, is_markdown):
    if is_markdown:
        print(f"| {' | '.join(cells)} |", flush=True)
    else:
        print(f"{cells[0]:28}" + "".join(f"{cell:>12}" for cell in cells[1:]), flush=True)


def main():
    parser = argparse.ArgumentParser(description=__doc__, formatter_class=argparse.RawDescriptionHelpFormatter)
    parser.add_argument("--way", default="order")
    parser.add_argument("--repeat", type=int, default=9)
    parser.add_argument("--markdown", action="store_true", help="a table for docs/SPEED.md")
    parser.add_argument("named", nargs="+", metavar="LABEL=PROGRAM or TRACE")
    words = parser.parse_args()
    programs = dict(it.split("=", 1) for it in words.named if "=" in it)
    traces = [Path(it) for it in words.named if "=" not in it]
    if not programs or not traces:
        parser.error("a program and a trace, at least")
    differs = False
    put(head(programs), words.markdown)
    if words.markdown:
        put(["---"] * len(head(programs)), True)
    with tempfile.TemporaryDirectory(dir=IN_MEMORY) as room:
        for trace in traces:
            name, path = unpacked(trace, room)
            figures, other = compared(programs, words.way, path, words.repeat, room)
            put(row(name, operations_of(path), figures), words.markdown)
            if other:
                print(f"{name}: another text or status: {', '.join(other)}", file=sys.stderr)
            differs = differs or bool(other)
    return int(differs)


if __name__ == "__main__":
    sys.exit(main())
