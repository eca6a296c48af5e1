"""All requests of a trace, by thread."""

from __future__ import annotations

from array import array
from pathlib import Path
from typing import NamedTuple

from trace_lines import Fault, TraceLines


class Requests:
    """A thread's requests of blocks, and of other sizes of blocks, in order: of each its line, name and size; and how
    many the thread and its keeper have answered."""

    def __init__(self) -> None:
        self.lines, self.names, self.sizes, self.answered = array("I"), array("I"), array("I"), [0, 0]

    def add(self, line: int, name: int, size: int) -> None:
        self.lines.append(line)
        self.names.append(name)
        self.sizes.append(size)


class Trace(NamedTuple):
    """What the trace tells beyond its transcript: the header's numbers, each thread's requests, how many of them are to
    be guarded, and what comments of tools/trace_of.py say of its heaps."""

    pages: int
    threads: int
    heaps: int
    operations: int
    requests: dict[int, Requests]
    guards_due: int
    named: dict[int, str]


def read_trace(path: Path) -> Trace:
    """What a trace tells that the program found without fault."""
    try:
        lines = TraceLines(path)
        requests = {thread: Requests() for thread in range(1, lines.threads + 1)}
        for thread, name, size, _ in lines.requests():
            requests[int(thread)].add(lines.line, name, size)
    except OSError as fault:
        raise Fault(f"{path}: {fault.strerror}") from None
    return Trace(lines.pages, lines.threads, lines.heaps, lines.operations(), requests, lines.due, lines.named)
