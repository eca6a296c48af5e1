"""The lines of a trace, one after the other: its header, its requests, and which of them are to be guarded. The format is
that of docs/FORMAT.md."""

from __future__ import annotations

import re
from collections import Counter
from collections.abc import Iterator
from pathlib import Path
from typing import BinaryIO

from trace_text import MOST_BITFIT, MOST_OPERATIONS

HEADER = re.compile(rb" *pas +[1-9] +pages +(\d+) +threads +(\d+) +heaps +(\d+) +age +\d+ *\n?")
HEAP_COMMENT = re.compile(rb"# heap (\d{1,2}): (.*?)\s*")
MOST_OF_HEADER, MOST_SHOWN, COMMENT = 1000, 80, ord("#")
MOST_SIZE = (1 << 32) - 1
# How many words each line has.
WORDS = {b"a": 6, b"m": 6, b"f": 3, b"fs": 5, b"r": 4, b"rs": 6, b"flush": 2, b"stop": 2, b"tick": 2, b"pass": 1,
         b"idle": 2, b"phase": 1, b"shared": 2, b"guard": 2}
NO_OPERATIONS = (b"phase", b"shared", b"guard")


class Fault(Exception):
    """Why a file can't be read, with the line."""


def shown(line: bytes) -> str:
    """The beginning of a line that isn't understood, so that any bytes can be told."""
    text = line.strip().decode(errors="replace")
    return "".join(letter if letter.isprintable() else "\N{REPLACEMENT CHARACTER}" for letter in text[:MOST_SHOWN])


def header_of(file: BinaryIO) -> tuple[int, ...]:
    """The pages, threads and heaps that the first line says; nothing where it is no header."""
    head = HEADER.fullmatch(file.readline(MOST_OF_HEADER))
    return tuple(map(int, head.groups())) if head else ()


class TraceLines:
    """A trace that the program found without fault, read as far as its requests are asked for: the line at hand, how many
    lines there were of each word, how many requests were to be guarded, and what comments of tools/trace_of.py say of the
    heaps."""

    def __init__(self, path: Path) -> None:
        self.path, self.line, self.due = path, 1, 0
        self.counts = dict.fromkeys(WORDS, 0)
        self.named: dict[int, str] = {}
        self.file = path.open("rb")
        header = header_of(self.file)
        if not header:
            raise Fault(f"{path}: line 1: no header of a trace")
        self.pages, self.threads, self.heaps = header

    def requests(self) -> Iterator[tuple[bytes, int, int, bool]]:
        """Of each request its thread, its name and its size, and whether it is to be guarded: of a thread's requests for
        whole pages each is whose number is a multiple of that of the `guard` line."""
        counts, threads = self.counts, {b"%d" % each for each in range(1, self.threads + 1)}
        whole_pages, each_so_many = Counter(), 0
        for self.line, line in enumerate(self.file, 2):
            words = line.split()
            try:
                kind = words[0]
                if len(words) != WORDS[kind]:
                    raise KeyError(kind)
                counts[kind] += 1
                if kind == b"a" or kind == b"m":
                    thread, name, size, is_due = words[1], int(words[2]), int(words[4]), False
                    if thread not in threads or name > MOST_OPERATIONS or size > MOST_SIZE:
                        raise KeyError(name)
                    if each_so_many and size > MOST_BITFIT and kind == b"a":
                        whole_pages[thread] += 1
                        is_due = whole_pages[thread] % each_so_many == 0
                        self.due += is_due
                    yield thread, name, size, is_due
                elif kind == b"guard":
                    each_so_many = int(words[1])
            except (KeyError, ValueError, IndexError):
                if words and line[0] != COMMENT:
                    raise Fault(f"{self.path}: line {self.line}: no line of a trace: {shown(line)}") from None
                if told := HEAP_COMMENT.fullmatch(line):
                    self.named[int(told[1])] = told[2].decode(errors="replace")
        self.file.close()

    def operations(self) -> int:
        return sum(count for kind, count in self.counts.items() if kind not in NO_OPERATIONS)
