"""Reads the logs that tools/record/record makes. What a log is, record.c says."""

from __future__ import annotations

import struct
from collections.abc import Iterator
from pathlib import Path
from typing import NamedTuple

HEAD = struct.Struct("<8sQQII1024s")
HEAD_ROOM = 4096
READ_AT_ONCE = 4096

# A log of an earlier recorder has no times: its records lack the eight bytes behind the site.
WITH_TIMES, WITHOUT_TIMES = b"paslog2\n", b"paslog1\n"
RECORDS = {WITH_TIMES: struct.Struct("<QQQQQIBB2x"), WITHOUT_TIMES: struct.Struct("<QQQQIBB2x")}

# The kinds of records. One of kind 0 was never finished.
UNFINISHED, FREE, MOVES, MOVED, ENDS = 0, *b"f<>e"
REQUESTS = {ord(kind): call for kind, call in {
    "m": "malloc", "c": "calloc", "a": "aligned_alloc", "p": "posix_memalign", "l": "memalign", "v": "valloc", "w": "pvalloc"}.items()}
KINDS = {UNFINISHED, FREE, MOVES, MOVED, ENDS, *REQUESTS}

# A record: the block that came back, or 0; the block that a free or a realloc gives up; the bytes that were asked for;
# the call site; the nanoseconds of the machine's clock, or 0 in a log without times; the thread; the logarithm of the
# alignment that was asked for, 0 where none was; and the kind.
Record = tuple[int, int, int, int, int, int, int, int]
LOST: Record = (0, 0, 0, 0, 0, 0, 0, UNFINISHED)


class LogFault(Exception):
    """Why a file can't be read as a log."""


class Log(NamedTuple):
    """Whose log it is, how many records it should have, how many found no room, and whether they have times."""

    path: Path
    program: str
    process: int
    threads: int
    records: int
    lost: int
    has_times: bool


def read_head(path: Path) -> Log:
    """What the log says of itself."""
    try:
        with path.open("rb") as file:
            bytes_ = file.read(HEAD.size)
    except OSError as fault:
        raise LogFault(f"{path}: {fault.strerror}") from None
    if len(bytes_) < HEAD.size or bytes_[:len(WITH_TIMES)] not in RECORDS:
        raise LogFault(f"{path}: no log of tools/record/record")
    magic, records, lost, threads, process, program = HEAD.unpack(bytes_)
    name = program.split(b"\0")[0].decode(errors="replace")
    return Log(path, name, process, threads, records, lost, magic == WITH_TIMES)


def records_of(log: Log) -> Iterator[Record]:
    """The log's records in their order. One that has no place in the file is as one that was never finished."""
    record, left = RECORDS[WITH_TIMES if log.has_times else WITHOUT_TIMES], log.records
    kind_at = record.size - 3
    try:
        with log.path.open("rb") as file:
            file.seek(HEAD_ROOM)
            while left and (bytes_ := file.read(record.size * min(READ_AT_ONCE, left))):
                whole = len(bytes_) // record.size
                read, kinds = record.iter_unpack(bytes_[:whole * record.size]), bytes_[kind_at::record.size]
                if strange := set(kinds) - KINDS:
                    at = min(map(kinds.index, strange))
                    raise LogFault(f"{log.path}: record {log.records - left + at + 1:,} has the unknown kind {kinds[at]}")
                yield from read if log.has_times else (each[:4] + (0,) + each[4:] for each in read)
                left -= whole
    except OSError as fault:
        raise LogFault(f"{log.path}: {fault.strerror}") from None
    for _ in range(left):
        yield LOST
