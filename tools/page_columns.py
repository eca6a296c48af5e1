"""The columns of a page map: the pages and the totals of a transcript's lines, or of a range of them."""

from __future__ import annotations

import io
import re
from array import array
from collections.abc import Iterable
from itertools import islice
from pathlib import Path
from typing import NamedTuple

from page_history import History, Mark
from progress import Progress
from trace_lines import Fault
from trace_requests import read_trace

MOST_COLUMNS, LEAST_COLUMNS, MOST_CELLS = 4000, 250, 5_000_000
MOST_MARKS = 2000
TELL_EACH = 20_000
NEW_LINE = b"\n"


class Lines(NamedTuple):
    """A range of lines of a transcript, from 1, the last included."""

    first: int
    last: int

    def within(self, end: int) -> Lines:
        """Those that there are."""
        if self.first > end:
            raise Fault(f"there is no line {self.first:,}, for the report begins after line {end:,}")
        return Lines(self.first, min(self.last, end))


class Columns:
    """The pages with a deed after the last line of each column, and the greatest of each total after a line of it."""

    def __init__(self, lines: Lines, pages: int) -> None:
        """Of these lines, at whose end so many pages have a deed."""
        self.lines, self.pages, self.number = lines, pages, lines.last - lines.first + 1
        most = max(LEAST_COLUMNS, min(MOST_COLUMNS, MOST_CELLS // max(1, pages)))
        self.columns = min(self.number, most)
        self.states: list[bytes] = []
        self.totals: list[array[int]] = [array("q") for _ in range(3)]
        self.asking = array("I")
        self.next, self.is_open = lines.first, False

    def last_line(self, column: int) -> int:
        return self.lines.first - 1 + (column + 1) * self.number // self.columns

    def column_of(self, line: int) -> int:
        return ((line - self.lines.first + 1) * self.columns - 1) // self.number

    def see(self, history: History) -> None:
        """To be called after the line `next`: the first of a column, and then its last."""
        if len(self.states) == self.columns:
            return
        totals, last = (history.backed, history.room, history.asked), self.last_line(len(self.states))
        if not self.is_open:
            for total in totals:
                total.top = total.now
            self.is_open, self.next = True, last
        if history.line == last:
            self.states.append(bytes(history.states()[:self.pages]))
            self.asking.append(history.asking)
            for column, total in zip(self.totals, totals):
                column.append(total.top)
            self.is_open, self.next = False, last + 1

    def rows(self, places: Iterable[int]) -> bytes:
        """The states of these pages, row after row."""
        all_states = b"".join(self.states)
        return b"".join(all_states[place::self.pages] for place in places)

    def of(self, lines: Iterable[int]) -> tuple[int, list[int]]:
        """How many of these lines are in the range, and their columns."""
        seen = [line for line in lines if self.lines.first <= line <= self.lines.last]
        return len(seen), sorted(set(map(self.column_of, seen)))

    def thinned(self, marks: Iterable[Mark]) -> list[tuple[Mark, int]]:
        """At most so many marks of the range, each with the number that it stands for: those of one column, page and
        sort together first, and then some left out evenly."""
        inside = [mark for mark in marks if self.lines.first <= mark.line <= self.lines.last]
        if len(inside) <= MOST_MARKS:
            return [(mark, 1) for mark in inside]
        together: dict[tuple[int, int, bool], tuple[Mark, int]] = {}
        for mark in inside:
            place = self.column_of(mark.line), mark.page, mark.is_refusal
            first, count = together.get(place, (mark, 0))
            together[place] = first, count + 1
        kept = list(together.values())
        return [kept[at * len(kept) // MOST_MARKS] for at in range(MOST_MARKS)] if len(kept) > MOST_MARKS else kept


def read_transcript(path: Path) -> tuple[bytes, int]:
    """A transcript, and how many lines stand before its report."""
    try:
        text = path.read_bytes()
    except OSError as fault:
        raise Fault(f"{path}: {fault.strerror}") from None
    if not text.isascii() or b"\0" in text:
        at = next(at for at, byte in enumerate(text) if not 0 < byte < 128)
        raise Fault(f"{path}: line {text.count(NEW_LINE, 0, at) + 1}: it is no text")
    if text.startswith(b"line ") and text.count(NEW_LINE) <= 1:
        raise Fault(f"{path}: the program found a fault in the trace: {text.decode().strip()}")
    report = text.rfind(b"\nreport\n")
    if report < 0:
        raise Fault(f"{path}: line {text.count(NEW_LINE)}: the transcript ends without a report")
    return text, text.count(NEW_LINE, 0, report + 1)


def replayed(trace: Path, transcript: Path, lines: Lines | None = None) -> tuple[History, Columns]:
    """The history that a transcript tells, and the columns of these lines of it, or of all."""
    text, end = read_transcript(transcript)
    asked = read_trace(trace)
    try:
        shown = (lines or Lines(1, end)).within(end)
    except Fault as fault:
        raise Fault(f"{transcript}: {fault}") from None
    deeds = sum(b" deed " in line for line in islice(io.BytesIO(text), shown.last))
    names = re.findall(rb" guarded \d+ \d+ name (\d+)\n", text)
    history = History(asked, text.count(b" deed "), set(map(int, names)))
    columns, progress = Columns(shown, deeds), Progress("lines", end)
    try:
        for at, line in enumerate(io.BytesIO(text)):
            try:
                if at < end:
                    history.take(line)
                    if at + 1 >= columns.next:
                        columns.see(history)
                elif at > end:
                    history.take_report(line)
            except Fault as fault:
                raise Fault(f"{transcript}: line {at + 1}: {fault}") from None
            if at % TELL_EACH == 0:
                progress.tell(at)
    finally:
        progress.end()
    if not history.total:
        raise Fault(f"{transcript}: line {at + 1}: the report ends without its totals")
    history.leave_peak()
    return history, columns
