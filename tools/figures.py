#!/usr/bin/env python3
"""Prints the figures of runs: a row for each trace with a transcript of it, exact over every line.

    tools/figures.py TRACE TRANSCRIPT.. [TRACE TRANSCRIPT..]..

A trace stands before its transcripts, of `pas order` or of `pas run`; a file that begins with a header is a trace.
Without an option the figures stand in four tables; --csv prints one table with all of them, --json a list of objects.
docs/TOOLS.md explains each column. A text that is no trace, or no transcript of it, is refused with its line.
"""

from __future__ import annotations

import os
import sys

sys.dont_write_bytecode = True
sys.path.insert(0, os.path.dirname(os.path.realpath(__file__)))
import interrupts

interrupts.end_quietly()
import argparse
import csv
import json
from collections.abc import Iterator
from pathlib import Path
from typing import TextIO

from run_figures import KINDS, Gauge, Run, read_run
from trace_lines import Fault, header_of
from trace_text import PAGE

Tables = dict[str, list[tuple[str, str]]]
# The tables for a reader: of each column what stands above it, and its name.
TABLES: Tables = {
    "Pages": [("of", "command"), ("operations", "operations"), ("lines", "lines"), ("peak", "backed_peak"),
              ("at line", "backed_peak_line"), ("mean", "backed_mean"), ("end", "backed_end"), ("class", "deeds_class"),
              ("shared", "deeds_shared"), ("bit-fit", "deeds_bitfit"), ("large", "deeds_large"),
              ("returned", "returned"), ("again", "backed_again")],
    "Bytes": [("asked: peak", "asked_peak"), ("at line", "asked_peak_line"), ("mean", "asked_mean"),
              ("given: peak", "given_peak"), ("mean", "given_mean"), ("rounding: peak", "rounding_peak"),
              ("mean", "rounding_mean"), ("fragmentation", "fragmentation")],
    "Requests and frees": [("given", "given"), ("kept", "kept"), ("no-space", "no_space"), ("held", "held"),
                           ("by", "held_by"), ("skipped", "skipped"), ("freed", "freed"),
                           ("frees skipped", "skipped_frees"), ("ended", "ended"), ("no-block", "no_block"),
                           ("size", "size_differs"), ("outside", "outside"), ("unaligned", "unaligned")],
    "Guards and the scavenger": [("guards due", "guards_due"), ("raised", "guards_raised"), ("ticks", "ticks"),
                                 ("passes", "passes"), ("caches stopped", "stopped")],
}
COUNTS = {"given": b"give", "kept": b"kept", "no_space": b"no-space", "held": b"held", "skipped": b"skipped",
          "freed": b"freed", "skipped_frees": b"skipped free", "ended": b"ended", "no_block": b"no-block",
          "size_differs": b"size-differs", "outside": b"outside", "unaligned": b"unaligned",
          "guards_raised": b"guarded", "ticks": b"tick", "passes": b"pass", "stopped": b"stopped"}


def of_gauge(name: str, gauge: Gauge, lines: int) -> dict[str, object]:
    return {f"{name}_peak": gauge.peak, f"{name}_peak_line": gauge.line, f"{name}_mean": round(gauge.mean(lines), 1),
            f"{name}_end": gauge.now}


def figures_of(run: Run) -> dict[str, object]:
    """Each figure by its name."""
    blocks, counts, lines = run.blocks, run.counts, run.line
    pages, given, asked, line = run.at_peak
    deeds, is_of_run = list(run.deeds.values()), run.is_of_run()
    free = 100 * (1 - asked / (pages * PAGE)) if pages else 0
    holders = sorted((int(actor), count) for actor, count in run.held_by.items())
    return {
        "trace": str(run.requests.path), "transcript": str(run.path), "command": "run" if is_of_run else "order",
        "operations": run.requests.operations(), "lines": lines,
        **of_gauge("backed", run.backed, lines), "backed_peak_line": line,
        **{f"deeds_{kind.decode()}": deeds.count(kind) for kind in KINDS},
        "returned": counts[b"unback"], "backed_again": run.again,
        **of_gauge("asked", blocks.asked, lines), **of_gauge("given", blocks.given, lines),
        **of_gauge("rounding", blocks.rounding, lines),
        "at_peak_asked": asked, "at_peak_given": given, "fragmentation": round(free, 1),
        **{name: counts[word] for name, word in COUNTS.items()},
        "held_by": None if is_of_run and holders else {f"{actor}": count for actor, count in holders},
        "guards_due": run.requests.due,
    }


def runs_of(files: list[Path]) -> Iterator[tuple[Path, Path]]:
    """Each transcript with the trace that stands before it."""
    trace, is_used = None, True
    for path in files:
        if path.exists() and not path.is_file() and not path.is_dir():
            raise Fault(f"{path}: it is read more than once, and so has to be a file")
        with path.open("rb") as file:
            is_trace = bool(header_of(file))
        if is_trace and not is_used:
            raise Fault(f"{trace}: a trace without a transcript behind it")
        if trace is None and not is_trace:
            raise Fault(f"{path}: line 1: no header of a trace")
        if not is_trace:
            yield trace, path
        trace, is_used = (path, False) if is_trace else (trace, True)
    if not is_used:
        raise Fault(f"{trace}: a trace without a transcript behind it")


def cell(value: object, key: str = "") -> str:
    """A figure for a reader."""
    if isinstance(value, dict):
        return " ".join(f"{actor}:{count:,}" for actor, count in value.items()) or "-"
    if value is None or isinstance(value, str):
        return value or "?"
    if key.endswith(("_change", "_overhead")):
        return f"{value:+,}%"
    return f"{value:,}%" if key == "fragmentation" else f"{value:,}"


def names_of(rows: list[dict[str, object]]) -> list[str]:
    """What to call each run: its transcript, and with its folder where two have one name."""
    names = [Path(str(row["transcript"])).name for row in rows]
    return names if len(set(names)) == len(names) else [str(row["transcript"]) for row in rows]


def tables_of(rows: list[dict[str, object]], names: list[str], tables: Tables) -> Iterator[str]:
    """The tables, with the runs' names on the left."""
    for title, columns in tables.items():
        lines = [[title, *(head for head, _ in columns)]]
        lines += [[name, *(cell(row[key], key) for _, key in columns)] for name, row in zip(names, rows)]
        widths = [max(map(len, column)) for column in zip(*lines)]
        for first, *rest in lines:
            yield "  ".join([first.ljust(widths[0]), *(word.rjust(width) for word, width in zip(rest, widths[1:]))])
        yield ""


def write_csv(rows: list[dict[str, object]], out: TextIO) -> None:
    writer = csv.writer(out, lineterminator="\n")
    writer.writerow(rows[0])
    for row in rows:
        writer.writerow([cell(value) if value is None or isinstance(value, dict) else value for value in row.values()])


def write(rows: list[dict[str, object]], form: str | None, out: TextIO, names: list[str] | None = None,
          tables: Tables = TABLES) -> None:
    if form == "csv":
        write_csv(rows, out)
    elif form == "json":
        print(json.dumps(rows, indent=1), file=out)
    else:
        print("\n".join(tables_of(rows, names or names_of(rows), tables)).rstrip(), file=out)


def add_forms(parser: argparse.ArgumentParser) -> argparse._MutuallyExclusiveGroup:
    forms = parser.add_mutually_exclusive_group()
    forms.add_argument("--csv", dest="form", action="store_const", const="csv", help="a line of CSV for each run")
    forms.add_argument("--json", dest="form", action="store_const", const="json", help="a list of objects")
    return forms


def main() -> None:
    parser = argparse.ArgumentParser(description=__doc__, formatter_class=argparse.RawDescriptionHelpFormatter)
    parser.add_argument("files", nargs="+", type=Path, metavar="FILE", help="a trace, and then its transcripts")
    add_forms(parser)
    options = parser.parse_args()
    try:
        rows = [figures_of(read_run(trace, path)) for trace, path in runs_of(options.files)]
        write(rows, options.form, sys.stdout)
        sys.stdout.flush()
    except Fault as fault:
        sys.exit(f"figures: {fault}")
    except BrokenPipeError:
        os.dup2(os.open(os.devnull, os.O_WRONLY), sys.stdout.fileno())
        sys.exit(1)
    except OSError as fault:
        sys.exit(f"figures: {fault.filename or 'standard output'}: {fault.strerror}")


if __name__ == "__main__":
    main()
