"""The page of HTML of several policies: their figures, their curves on one scale, and the page map of each."""

from __future__ import annotations

import json
from array import array
from bisect import bisect_left
from html import escape
from pathlib import Path

import page_section
from figures import cell
from run_figures import Run
from trace_text import PAGE

HERE = Path(__file__).resolve().parent
COLUMNS = 1000
SUMS = {"refusals": ("no_space", "held", "skipped"),
        "wrong_frees": ("ended", "no_block", "size_differs", "outside", "unaligned")}
# The columns of the page's table: what stands above each, its name, and what it tells.
TABLE = [("peak", "backed_peak", "most pages with memory"),
         ("change", "backed_peak_change", "of the peak, against the first policy"),
         ("over asked", "backed_peak_overhead", "of the peak's bytes, against the most that were asked for at once"),
         ("mean", "backed_mean_of_requests", "pages with memory, over the requests that were answered"),
         ("end", "backed_end", "pages with memory at the end"),
         ("returned", "returned", "times that a page's memory went back"),
         ("again", "backed_again", "times that a page got memory that had had some before"),
         ("asked, peak", "asked_peak", "most bytes that were asked for"),
         ("refusals", "refusals", "requests that got nothing"),
         ("wrong frees", "wrong_frees", "frees without effect"),
         ("guards due", "guards_due", "requests that were to be guarded"),
         ("raised", "guards_raised", "requests that were guarded")]


class Curves:
    """The greatest of each part of a run: its pages with memory, and the bytes that were asked for; by how many
    requests were answered, which is what runs of one log have in common."""

    def __init__(self) -> None:
        self.requests, self.backed, self.asked, self.lines = array("I"), array("I"), array("Q"), array("I")

    def see(self, run: Run) -> None:
        """To be called where a part of the lines ends."""
        self.requests.append(run.answered())
        self.backed.append(max(run.backed.end_part(), 0))
        self.asked.append(max(run.blocks.asked.end_part(), 0))
        self.lines.append(run.line)

    def peak_of(self, row: dict[str, object]) -> list[object]:
        """The most pages, the line, and the part in which it stands."""
        line = row["backed_peak_line"]
        return [row["backed_peak"], line, bisect_left(self.lines, line)]


def with_sums(row: dict[str, object]) -> dict[str, object]:
    """A run's figures, with the sums that the table has."""
    return row | {name: sum(row[key] for key in keys) for name, keys in SUMS.items()}


def table_of(names: list[str], rows: list[dict[str, object]], firsts: list[int]) -> str:
    heads = "".join(f'<th title="{escape(told)}">{escape(head)}</th>' for head, _, told in TABLE)
    lines = [f"<tr><th></th><th class='text'>policy</th>{heads}<th></th></tr>"]
    for at, (name, row) in enumerate(zip(names, rows)):
        shown, first = with_sums(row), firsts[at]
        same = "" if first == at else f"<br><small>the same run as {escape(names[first])}</small>"
        cells = "".join(f"<td>{escape(cell(shown[key], key))}</td>" for _, key, _ in TABLE)
        lines.append(f'<tr><td><label><input type="checkbox" checked data-run="{at}"><i></i></label></td>'
                     f'<td class="text">{escape(name)}{same}</td>{cells}<td><button data-map="{at}">map</button></td></tr>')
    return "\n".join(lines)


def page_of(log: str, names: list[str], rows: list[dict[str, object]], curves: list[Curves],
            files: list[tuple[Path, Path]], firsts: list[int]) -> str:
    """The whole page. All curves end at the most memory that any run had, and so do those of the maps. Of runs that are
    the same the first has a map."""
    shown = sorted(set(firsts))
    scale = max(int(row["backed_peak"]) for row in rows) * PAGE
    data = {"names": names, "scale": scale, "page": PAGE,
            "maps": [shown.index(first) for first in firsts],
            "peaks": [each.peak_of(row) for each, row in zip(curves, rows)],
            "curves": [[list(each.requests), list(each.backed), list(each.asked)] for each in curves]}
    maps = "\n".join(
        f'<div class="policy" id="map{at}"{" hidden" if at else ""}>\n'
        f'{page_section.section_of(*files[at], name=names[at], scale=scale).markup}</div>' for at in shown)
    body = (HERE / "policies.html").read_text()
    told = {"LOG": escape(log), "TABLE": table_of(names, rows, firsts), "MAPS": maps,
            "DATA": json.dumps(data, separators=(",", ":")).replace("<", "\\u003c")}
    for mark, text in told.items():
        head, _, tail = body.partition(f"@{mark}@")
        body = head + text + tail
    return page_section.page_of(f"Policies of {log}", body)
