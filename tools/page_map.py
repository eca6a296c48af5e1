#!/usr/bin/env python3
"""Draws what became of each page: a page of HTML that stands alone, from a trace and its transcript.

A row is a page with a deed, by heap and kind; time goes to the right, by the transcript's lines. The colour tells when
the page got its deed, when it had memory, how full it was, when it was empty, when it stood beside a guarded block, and
when its memory went back to the system. Refusals and wrong frees are marks. Above stand the totals: what was asked for,
what rounding up wasted, and what was free on pages that had memory; and a table says what each heap had at the peak.
Whoever points at a place reads its page, its lines and the page's line of the report.

A long transcript is sampled: a column then stands for several lines, and shows the pages after the last of them and the
greatest totals; of marks that are too many some are left out. The page says so. With --lines the columns are those of a
part of the transcript, and finer. The transcript is one of `pas order`, or of `pas run`, in which lines of a phase
stand by thread; of that, too, the page tells.
"""

from __future__ import annotations

import os
import sys

sys.dont_write_bytecode = True
sys.path.insert(0, os.path.dirname(os.path.realpath(__file__)))
import interrupts

interrupts.end_quietly()
import argparse
import re
from pathlib import Path

from page_columns import Lines
from page_section import page_of, section_of
from trace_lines import Fault
from whole_file import write_whole

MOST_LINES = 1_000_000_000


def lines_of(text: str) -> Lines:
    """A range of lines: A..B, from A on as A.., and up to B as ..B."""
    told = re.fullmatch(r"([1-9]\d{0,8})?\.\.([1-9]\d{0,8})?", text)
    if not told or not text.strip("."):
        raise argparse.ArgumentTypeError(f"{text} is no range of lines, as 1000..2000")
    lines = Lines(int(told[1] or 1), int(told[2] or MOST_LINES))
    if lines.first > lines.last:
        raise argparse.ArgumentTypeError(f"{text} ends before it begins")
    return lines


def main() -> None:
    parser = argparse.ArgumentParser(description=__doc__, formatter_class=argparse.RawDescriptionHelpFormatter)
    parser.add_argument("trace", type=Path, help="a trace")
    parser.add_argument("transcript", type=Path, help="what `pas order` or `pas run` wrote of it")
    parser.add_argument("-o", dest="file", type=Path, required=True, help="the page of HTML")
    parser.add_argument("--lines", type=lines_of, metavar="A..B", help="only these lines of the transcript, from 1")
    options = parser.parse_args()
    try:
        section = section_of(options.trace, options.transcript, lines=options.lines)
        text = page_of(f"Page map of {options.trace.name}", section.markup)
        write_whole(options.file, text)
    except Fault as fault:
        sys.exit(f"page_map: {fault}")
    except OSError as fault:
        sys.exit(f"page_map: {options.file}: {fault.strerror}")
    each = f", a column for {section.lines / section.columns:,.1f} of them" if section.lines > section.columns else ""
    made = f"{section.pages:,} pages, {section.lines:,} lines{each}; {len(text.encode()):,} bytes"
    print(f"page_map: {made}", file=sys.stderr)


if __name__ == "__main__":
    main()
