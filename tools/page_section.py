"""The page map of a run as a piece of HTML, and the page around such pieces.

`section_of` makes the piece, with what its script draws; `page_of` the page, which has style and scripts once. Several
pieces may stand on a page, and one that is hidden is drawn when it is shown."""

from __future__ import annotations

import base64
import json
import zlib
from collections import Counter
from html import escape
from pathlib import Path
from typing import NamedTuple

from page_columns import Columns, Lines, replayed
from page_history import EMPTY, FULL, GUARD, NO_MEMORY, WENT_BACK, History, Page
from trace_text import PAGE

HERE = Path(__file__).resolve().parent
# The second stands on the first.
SCRIPTS = ["page_picture.js", "page_map.js"]
KINDS = ["class", "shared", "bitfit", "large"]
PAGE_OF_HTML = """<!DOCTYPE html>
<html lang="en">
<head>
<meta charset="utf-8">
<title>{title}</title>
<style>
{style}</style>
</head>
<body>
{body}
<script>
{script}</script>
</body>
</html>
"""


class Section(NamedTuple):
    """The HTML of a run, and what it shows: pages, lines and columns, and the greatest memory of the run in bytes."""

    markup: str
    pages: int
    lines: int
    columns: int
    most_memory: int


def section_of(trace: Path, transcript: Path, *, name: str = "", scale: int = 0, lines: Lines | None = None) -> Section:
    """The map of a run under this name, else the trace's; its curves end at `scale` bytes, else at their own greatest.
    Of a range of lines it shows these alone."""
    history, columns = replayed(trace, transcript, lines)
    data = data_of(history, columns) | {"name": name or trace.name, "transcript": transcript.name, "scale": scale}
    text = json.dumps(data, separators=(",", ":")).replace("<", "\\u003c")
    markup = (HERE / "page_map.html").read_text().replace("DATA", text)
    return Section(markup, columns.pages, columns.number, columns.columns, history.backed.most * PAGE)


def page_of(title: str, body: str) -> str:
    """A page of HTML that needs nothing else, around sections and what else the body has."""
    style, script = (HERE / "page_map.css").read_text(), "\n".join((HERE / name).read_text() for name in SCRIPTS)
    return PAGE_OF_HTML.format(title=escape(title), style=style, script=script, body=body)


def rank(item: tuple[int, Page]) -> tuple[int, int, int, int]:
    """Pages stand by heap, and in a heap by kind, and classes by size."""
    number, page = item
    kind, _, size = page.kind.partition(" ")
    return page.heap, KINDS.index(kind) if kind in KINDS else len(KINDS), int(size or 0), number


def told(number: int, page: Page) -> list[object]:
    """What the section knows of a page."""
    outcomes = ", ".join(f"{word} {count:,}" for word, count in (page.outcomes or {}).items())
    return [number, page.heap, page.kind, page.deed, list(page.backed), page.backs, list(page.unbacked), page.unbacks,
            list(page.guarded), page.guards, page.most, outcomes, page.report]


def packed(bytes_: bytes) -> str:
    return base64.b64encode(zlib.compress(bytes_, 9)).decode()


def table_of(history: History) -> list[list[int]]:
    """Of each heap that has pages: its number, its pages with a deed, and what it had at the peak."""
    deeds = Counter(page.heap for page in history.pages.values())
    return [[heap, deeds[heap], *history.peak.heaps[heap]] for heap in sorted(deeds)]


def data_of(history: History, columns: Columns) -> dict[str, object]:
    """What the script of the page draws; what there is much of is packed."""
    shown = [(number, page) for number, page in history.pages.items() if 0 <= page.place < columns.pages]
    pages = sorted(shown, key=rank)
    marks = [[mark.line, columns.column_of(mark.line), mark.page, int(mark.is_refusal), count, mark.text]
             for mark, count in columns.thinned(history.marks)]
    backed, room, asked = columns.totals
    much = {"pages": [told(number, page) for number, page in pages], "marks": marks, "asking": list(columns.asking),
            "totals": [[PAGE * each for each in backed], list(room), list(asked)]}
    refusals = sum(mark.is_refusal for mark in history.marks)
    strip = {"phases": history.phases, "ticks": history.ticks, "passes": history.passes, "guards": history.guards}
    peak = history.peak
    return {
        "total": history.total, "operations": history.trace.operations, "regionPages": history.trace.pages,
        "named": history.trace.named, "heaps": table_of(history), "lines": history.line, "first": columns.lines.first,
        "last": columns.lines.last, "columns": columns.columns, "byActor": history.is_of_run(),
        "states": {"noMemory": NO_MEMORY, "wentBack": WENT_BACK, "guard": GUARD, "empty": EMPTY, "steps": FULL},
        "peak": {"line": peak.line, "pages": peak.backed, "room": peak.room, "asked": peak.asked},
        "most": [[PAGE * history.backed.most, history.backed.line], [history.room.most, history.room.line],
                 [history.asked.most, history.asked.line]],
        "guards": [len(history.guards), history.trace.guards_due],
        "allMarks": [refusals, len(history.marks) - refusals],
        "strip": {name: columns.of(lines) for name, lines in strip.items()},
        "cells": packed(columns.rows([page.place for _, page in pages])),
        "told": packed(json.dumps(much, separators=(",", ":")).encode()),
    }
