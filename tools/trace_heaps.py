"""Of which heap of the trace a request is."""

from __future__ import annotations

from collections import Counter
from copy import copy

import recorded
import sites
from trace_text import MOST_HEAPS

LAST = MOST_HEAPS - 1


class Heaps:
    """One heap; or one for each call site of the log, the rarest sharing the last; or one for each power of two of sizes."""

    def __init__(self, by: str, log: recorded.Log) -> None:
        self.by, self.requests, self.of_sites, self.names, self.count = by, [0] * MOST_HEAPS, {}, {}, 1
        if by == "size":
            self.names = {heap: f"up to {16 << heap:,} bytes" for heap in range(MOST_HEAPS)}
        if by == "site":
            self.rank(log)

    def rank(self, log: recorded.Log) -> None:
        """The call sites with the most requests get a heap each, and the others the last one. It is those of the whole log, so
        a site has the same heap in each part of it."""
        ranked = [site for site, _ in Counter(record[3] for record in recorded.records_of(log) if record[0]).most_common()]
        names = sites.names_of(ranked[:MOST_HEAPS], log)
        self.of_sites = {site: heap for heap, site in enumerate(ranked[:MOST_HEAPS])}
        self.names = {heap: names[site] for site, heap in self.of_sites.items()}
        if len(ranked) > MOST_HEAPS:
            self.names[LAST] = f"{len(ranked) - LAST:,} other call sites"

    def anew(self) -> Heaps:
        """The same before any request."""
        other = copy(self)
        other.requests, other.count = [0] * MOST_HEAPS, 1
        return other

    def of(self, size: int, site: int) -> int:
        """By size there is a heap for each power of two from 16 on."""
        heap = 0
        if self.by == "site":
            heap = self.of_sites.get(site, LAST)
        elif self.by == "size":
            heap = min(max(size - 1, 15).bit_length() - 4, LAST)
        if heap >= self.count:
            self.count = heap + 1
        self.requests[heap] += 1
        return heap

    def chief(self) -> str:
        """Of one call site that has most of the requests, if there is one: how many, and what it is."""
        most, all_ = max(self.requests[:LAST]), sum(self.requests)
        if self.by != "site" or 2 * most <= all_:
            return ""
        return f"one call site has {most:,} of {all_:,} requests, {self.names[self.requests.index(most)]}"

    def comments(self) -> list[str]:
        asked = [(heap, count) for heap, count in enumerate(self.requests) if count and self.names]
        return [f"# heap {heap}: {count:,} requests, {self.names[heap]}" for heap, count in asked]
