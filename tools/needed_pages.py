"""How many pages a trace needs, so that no request is refused for want of space.

A page's deed is for ever, so each heap and kind needs its own most, whenever that was. What a thread has freed lives on
until its log is flushed; this is followed here as the program does it.
"""

from __future__ import annotations

from bisect import bisect_left
from collections import Counter, defaultdict
from collections.abc import Container
from typing import NamedTuple

from trace_text import LEAST_ALIGN, PAGE, Room

MOST_LOGGED = 64
# A thread takes so many slots of a shared page.
SLOTS_AT_ONCE = 4
BITFIT, WHOLE = 0, PAGE
GRAINS = PAGE // LEAST_ALIGN
# The region's pages are a multiple of this.
STEP = 64
# A heap whose blocks of classes fit into so many pages is small.
SMALL = 16


class Directory:
    """What lives in a heap's pages of one kind, and the most that did: slots, grains or pages; and the threads that asked,
    as bits. Of whole pages also the holes, and how many pages got a deed."""

    __slots__ = ("live", "most", "threads", "holes", "filled")

    def __init__(self) -> None:
        self.live = self.most = self.threads = self.filled = 0
        self.holes: list[tuple[int, int]] = []

    def place(self, pages: int, next_: int) -> int:
        """Where whole pages come to stand: in the first hole with room, or behind all pages of the region."""
        for at, (first, end) in enumerate(self.holes):
            if first + pages <= end:
                self.holes[at:at + 1] = [(first + pages, end)] if first + pages < end else []
                return first
        self.filled += pages
        return next_

    def leave(self, first: int, pages: int) -> None:
        """Whole pages become a hole, one with those beside it."""
        end, at = first + pages, bisect_left(self.holes, (first, first))
        if at < len(self.holes) and self.holes[at][0] == end:
            end = self.holes.pop(at)[1]
        if at and self.holes[at - 1][1] == first:
            at -= 1
            first = self.holes.pop(at)[0]
        self.holes.insert(at, (first, end))


class Held(NamedTuple):
    """What a block has of its directory; and of whole pages the first."""

    directory: Directory
    amount: int
    first: int = 0


class Need(NamedTuple):
    """The pages that the blocks fill, if none is left over; and those of a region in which none is refused."""

    least: int
    wanted: int


def pages_for(amount: int, in_page: int) -> int:
    return -(-amount // in_page)


def with_holes(pages: int) -> int:
    return pages_for(3 * pages, 2)


class NeededPages:
    """The directories, by heap and kind: the bytes of a class, or one of the other two kinds."""

    def __init__(self, guard: int | None) -> None:
        self.guard = guard
        self.directories: defaultdict[tuple[int, int], Directory] = defaultdict(Directory)
        self.logs: defaultdict[int, list[Held]] = defaultdict(list)
        self.of_whole_pages: defaultdict[int, int] = defaultdict(int)
        self.next = 0

    def ask(self, thread: int, heap: int, room: Room, is_guarded: bool) -> Held:
        kind, amount = (room.bytes, 1) if room.is_class else (BITFIT, room.bytes // LEAST_ALIGN)
        if room.pages:
            kind, amount = WHOLE, room.pages
            if is_guarded and self.guard:
                self.of_whole_pages[thread] += 1
                amount += 2 if self.of_whole_pages[thread] % self.guard == 0 else 0
        directory = self.directories[heap, kind]
        directory.live += amount
        if directory.live > directory.most:
            in_page = PAGE // kind if kind else GRAINS
            self.next += pages_for(directory.live, in_page) - pages_for(directory.most, in_page) if kind != WHOLE else 0
            directory.most = directory.live
        directory.threads |= 1 << thread
        if kind != WHOLE:
            return Held(directory, amount)
        first = directory.place(amount, self.next)
        self.next = max(self.next, first + amount)
        return Held(directory, amount, first)

    def free(self, thread: int, held: Held) -> None:
        log = self.logs[thread]
        if len(log) == MOST_LOGGED:
            self.flush(thread)
        log.append(held)

    def flush(self, thread: int) -> None:
        for directory, amount, first in self.logs[thread]:
            directory.live -= amount
            if directory.filled:
                directory.leave(first, amount)
        self.logs[thread].clear()

    def small(self, pages: int) -> list[int]:
        """The heaps whose slots of classes would fit into so many pages, if each class were at its most."""
        grains: Counter[int] = Counter()
        for (heap, kind), directory in self.directories.items():
            if kind not in (BITFIT, WHOLE):
                grains[heap] += directory.most * kind // LEAST_ALIGN
        return sorted(heap for heap in grains if grains[heap] <= pages * GRAINS)

    def need(self, shared: Container[int]) -> Need:
        """A page of a class is new only where each other page of the class is full or another thread's, so a directory of a
        class has a page more for each other thread. Where blocks of several lengths share pages they leave holes, at first fit
        about half as many as there are blocks: there it is half more. A block of whole pages that grows finds no room in the
        holes that it left, so those pages are laid out, too. Guards stand on pages that never had memory, so that their holes
        aren't filled: with them it is four times as many whole pages."""
        least = wanted = 0
        shared_grains, taken = Counter(), Counter()
        for (heap, kind), directory in self.directories.items():
            most, threads = directory.most, directory.threads.bit_count()
            if kind == WHOLE:
                least += most
                wanted += max(4 * most if self.guard else with_holes(most), directory.filled)
            elif kind == BITFIT:
                pages = pages_for(most, GRAINS)
                least, wanted = least + pages, wanted + with_holes(pages) + threads - 1
            elif heap in shared:
                shared_grains[heap] += most * kind // LEAST_ALIGN
                taken[heap] += (most + threads * (SLOTS_AT_ONCE - 1)) * kind // LEAST_ALIGN
            else:
                pages = pages_for(most, PAGE // kind)
                least, wanted = least + pages, wanted + pages + threads - 1
        least += sum(pages_for(grains, GRAINS) for grains in shared_grains.values())
        wanted += sum(with_holes(pages_for(grains, GRAINS)) for grains in taken.values())
        return Need(least, max(STEP, STEP * pages_for(wanted, STEP)))
