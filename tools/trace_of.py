#!/usr/bin/env python3
"""Makes a trace of a log that tools/record/record made of a program.

Each request becomes a line `a` and each free a line `f`, in the log's order. A realloc becomes a line `m`, or, before
version 4, an `a` and then an `f`. Where a thread frees a block that another asked for in the same phase, the next phase
begins before it; so no line comes too early. A thread that ends gets a line `stop`, and its number goes to a thread
that begins later. The region has as many pages as the log's blocks need at their most, which is said.

What doesn't fit the format's limits is cut, and said on standard error: a request of more than the region, with its
free; an alignment above a page; threads beyond the most at once, which share numbers; and all that comes after the most
operations, bytes or lines of a transcript that a trace may have. Call sites beyond the thirty-first share a heap, which
a comment in the trace says. The status is 0 where the trace was written; with --strict it is 3 where something was cut.
"""

from __future__ import annotations

import os
import sys

sys.dont_write_bytecode = True
HERE = os.path.dirname(os.path.realpath(__file__))
sys.path[:0] = [HERE, os.path.join(HERE, "record")]
import interrupts

interrupts.end_quietly()
import argparse
from collections.abc import Callable
from itertools import islice
from pathlib import Path
from typing import NamedTuple

import recorded
from conversion import Conversion, after
from needed_pages import SMALL, Need
from progress import Progress
from trace_heaps import Heaps
from trace_text import (LAST_VERSION, MOST_AGE, MOST_EPOCH, MOST_GUARDED, MOST_OPERATIONS, MOST_PAGES, MOST_THREADS,
                        Full, TooLong, Wanted)
from whole_file import write_whole

CUT = 3
TELL_EACH, CHECK_EACH = 20_000, 5_000
NANOSECONDS = 1_000_000
MOST_MILLISECONDS, MOST_RECORDS = 86_400_000, 1 << 40


class Made(NamedTuple):
    """A trace: how it came to be, the pages that its blocks need, and its shared heaps."""

    conversion: Conversion
    need: Need
    shared: list[int]


class Reading(NamedTuple):
    """A trace of the log, and the last of its records by which all fits into the pages that are needed until then."""

    conversion: Conversion
    fitting: int


def read_through(log: recorded.Log, options: argparse.Namespace, heaps: Heaps, pages: int, last: int) -> Reading:
    """The trace of the part of the log that is wanted, up to the record `last`. Without pages it ends where the pages that are
    needed until then leave no room for it."""
    wanted = Wanted(options.version, options.age, options.tick, options.passes, options.idle, options.idle_age, options.guard,
                    options.tick_ms and options.tick_ms * NANOSECONDS, options.pass_ms and options.pass_ms * NANOSECONDS)
    conversion = Conversion(wanted, pages, options.threads, options.sized, heaps.anew())
    progress, records, before = Progress("records", log.records), recorded.records_of(log), options.start - 1
    at = fitting = before
    try:
        conversion.begin_with(after(islice(records, before)))
        for at, record in enumerate(islice(records, last - before), before):
            if at % TELL_EACH == 0:
                progress.tell(at)
            if at % CHECK_EACH == 0 and not pages:
                if not fits(conversion, options):
                    break
                fitting = at
            conversion.take(record)
    except Full as full:
        conversion.cut_after(at, last, str(full))
    finally:
        progress.end()
    return Reading(conversion, fitting)


def region(conversion: Conversion, options: argparse.Namespace) -> int:
    """How many pages the blocks so far need, of those that the version has."""
    shared = shared_heaps(options.shared, conversion)
    return min(conversion.needed.need(shared).wanted, MOST_PAGES[options.version])


def fits(conversion: Conversion, options: argparse.Namespace) -> bool:
    return conversion.trace.fits(region(conversion, options))


def made(log: recorded.Log, options: argparse.Namespace) -> Made:
    """The trace, with as many pages as its blocks need where no number is named. Where these leave no room for all of it, it is
    made once more of the records that fit; or, where hardly any do, of what fits with these pages."""
    heaps, last = Heaps(options.heaps, log), min(log.records, options.start - 1 + options.most)
    conversion, fitting = read_through(log, options, heaps, options.pages or 0, last)
    if not options.pages and fits(conversion, options):
        conversion.trace.pages = region(conversion, options)
    elif not options.pages and fitting < options.start + CHECK_EACH:
        conversion, _ = read_through(log, options, heaps, region(conversion, options), last)
    elif not options.pages:
        conversion, _ = read_through(log, options, heaps, 0, fitting)
        conversion.trace.pages = region(conversion, options)
        conversion.cut_after(fitting, last, str(TooLong()))
    if conversion.numbers.shared:
        conversion.cut["threads that share another's number"] = conversion.numbers.shared
    shared = shared_heaps(options.shared, conversion)
    return Made(conversion, conversion.needed.need(shared), shared)


def shared_heaps(which: str | int | None, conversion: Conversion) -> list[int]:
    if which is None:
        return []
    return list(range(conversion.heaps.count)) if which == "all" else conversion.needed.small(which)


def about_pages(made: Made, options: argparse.Namespace) -> list[str]:
    """How many pages the region has and why, and a warning where the blocks don't fit."""
    (least, wanted), pages = made.need, made.conversion.trace.pages
    why = f"the blocks fill {least:,} at their most, and leave holes"
    if options.pages:
        why = f"as told; {why}, so {wanted:,} would do"
    elif wanted > pages:
        why = f"the most of this version; {why}, so {wanted:,} would do"
    said = [f"version {options.version}, {pages:,} pages: {why}"]
    if least > pages:
        cure = f"--pages {wanted} has room for them"
        if wanted > MOST_PAGES[options.version]:
            cure = f"--version {LAST_VERSION} has more pages"
        if wanted > MOST_PAGES[LAST_VERSION]:
            cure = "--from and --most take a part of the log that may need less"
        said.append(f"warning: what lives passes the region, so requests will be refused; {cure}")
    return said


def number_within(least: int, most: int) -> Callable[[str], int]:
    def number(text: str) -> int:
        if not text.isdecimal() or not least <= int(text) <= most:
            raise argparse.ArgumentTypeError(f"{text} is no number from {least:,} to {most:,}")
        return int(text)
    return number


def heaps_to_share(text: str) -> str | int:
    return text if text == "all" else SMALL if text == "small" else number_within(1, max(MOST_PAGES.values()))(text)


def add_options_of_scavenger(parser: argparse.ArgumentParser) -> None:
    every, milliseconds = number_within(1, MOST_OPERATIONS), number_within(1, MOST_MILLISECONDS)
    for what, name in (("tick", "tick"), ("pass", "passes")):
        one = parser.add_mutually_exclusive_group()
        one.add_argument(f"--{what}", type=every, metavar="N", dest=name, help=f"a {what} after each N operations of threads")
        one.add_argument(f"--{what}-ms", type=milliseconds, metavar="M", help=f"a {what} each M milliseconds of the program")
    parser.add_argument("--idle", type=every, metavar="N", help="an idle line after each N operations of threads")
    parser.add_argument("--idle-age", type=number_within(0, MOST_EPOCH), default=1, metavar="E",
                        help="the epochs of an idle line (1)")


def add_options(parser: argparse.ArgumentParser) -> None:
    parser.add_argument("log", type=Path, help="a log of tools/record/record")
    parser.add_argument("-o", dest="file", type=Path, help="the trace (standard output)")
    parser.add_argument("--version", type=int, choices=MOST_PAGES, default=LAST_VERSION, help=f"that of the trace ({LAST_VERSION})")
    parser.add_argument("--from", type=number_within(1, MOST_RECORDS), default=1, metavar="N", dest="start",
                        help="from this record of the log on, where first what lives then is asked for (1)")
    parser.add_argument("--most", type=number_within(1, MOST_RECORDS), default=MOST_RECORDS, metavar="N",
                        help="at most so many records of the log (all)")
    parser.add_argument("--heaps", choices=["one", "site", "size"], default="one",
                        help="one heap, or one for each call site, or one for each power of two of sizes (one)")
    parser.add_argument("--shared", type=heaps_to_share, metavar="all|small|N",
                        help=f"each heap is shared, or each whose slots fit into N pages, {SMALL} if small")
    parser.add_argument("--pages", type=number_within(1, max(MOST_PAGES.values())),
                        help="the pages of the region (as many as the blocks need)")
    parser.add_argument("--threads", type=number_within(1, MOST_THREADS),
                        help="the most threads at once (16, or 8 with guards)")
    parser.add_argument("--age", type=number_within(1, MOST_AGE), default=2, help="the age of the header (2)")
    add_options_of_scavenger(parser)
    parser.add_argument("--sized", action="store_true", help="a free names its size and alignment (from version 2 on)")
    parser.add_argument("--guard", type=number_within(1, MOST_OPERATIONS), metavar="N",
                        help="each N-th request of a thread for whole pages is guarded (from version 4 on)")
    parser.add_argument("--strict", action="store_true", help=f"status {CUT} where a line tells of a cut, or warns")


def read_options() -> argparse.Namespace:
    parser = argparse.ArgumentParser(description=__doc__, formatter_class=argparse.RawDescriptionHelpFormatter)
    add_options(parser)
    options = parser.parse_args()
    if options.pages and options.pages > MOST_PAGES[options.version]:
        parser.error(f"version {options.version} has at most {MOST_PAGES[options.version]:,} pages")
    if options.sized and options.version < 2:
        parser.error("frees with a size come with version 2")
    if options.guard and options.version < 4:
        parser.error("guards come with version 4")
    options.threads = options.threads or (MOST_GUARDED if options.guard else MOST_THREADS)
    if options.guard and options.threads > MOST_GUARDED:
        parser.error(f"a trace with guards has at most {MOST_GUARDED} threads")
    return options


def read_log(options: argparse.Namespace) -> recorded.Log:
    log = recorded.read_head(options.log)
    if (options.tick_ms or options.pass_ms) and not log.has_times:
        raise recorded.LogFault(f"{log.path}: an earlier recorder made it, which noted no times; --tick and --pass count operations")
    if options.start > max(log.records, 1):
        raise recorded.LogFault(f"{log.path}: it has {log.records:,} records, and none is number {options.start:,}")
    return log


def write(made: Made, file: Path | None) -> None:
    """To the file or to standard output."""
    conversion = made.conversion
    text = "".join(conversion.trace.text(conversion.heaps.count, made.shared, conversion.heaps.comments()))
    try:
        if file:
            write_whole(file, text)
        else:
            sys.stdout.write(text)
            sys.stdout.flush()
    except OSError as fault:
        if not file:
            os.dup2(os.open(os.devnull, os.O_WRONLY), sys.stdout.fileno())
        sys.exit(f"trace_of: {file or 'standard output'}: {fault.strerror}")


def counted(number: int, what: str) -> str:
    return f"{number:,} {what}" + ("" if number == 1 else "s")


def convert(options: argparse.Namespace) -> int:
    """Writes the trace, and answers the status."""
    it = made(read_log(options), options)
    write(it, options.file)
    trace, heaps = it.conversion.trace, it.conversion.heaps
    operations, threads, phases, used, live = map(counted, (trace.operations, trace.counts[0], trace.phase, heaps.count, trace.live),
                                                  ("operation", "thread", "phase", "heap", "block"))
    said = [f"{operations} of {threads} in {phases} and {used}; {live} left at the end", *about_pages(it, options)]
    said += [f"cut: {count:,} {what}" for what, count in it.conversion.cut.items()]
    status = CUT if options.strict and len(said) > 2 else 0
    if chief := heaps.chief():
        said.append(f"{chief}: if it is a wrapper of malloc, a recording with a greater --up parts them")
    for line in said:
        print(f"trace_of: {line}", file=sys.stderr)
    return status


def main() -> None:
    options = read_options()
    try:
        sys.exit(convert(options))
    except recorded.LogFault as fault:
        sys.exit(f"trace_of: {fault}")


if __name__ == "__main__":
    main()
