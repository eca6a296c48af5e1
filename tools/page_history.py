"""What became of each page, from a trace and its transcript, line by line. Both formats are those of docs/FORMAT.md."""

from __future__ import annotations

from array import array
from collections import Counter
from collections.abc import Callable
from typing import NamedTuple

from trace_lines import Fault, shown
from trace_requests import Requests, Trace
from trace_text import PAGE

REFUSALS = (b"no-space", b"held", b"skipped")
WRONG_FREES = (b"ended", b"no-block", b"size-differs", b"outside", b"unaligned")
OUTCOMES = (b"bare", b"young", b"in-use", b"not-offered")
MOST_LINES_KEPT = 6

# How a page stands: without a deed; with one, but without memory so far; its memory went back; beside a guarded block;
# empty; and FULL steps of how full it is.
NO_DEED, NO_MEMORY, WENT_BACK, GUARD, EMPTY, FULL = 0, 1, 2, 3, 4, 16
STATES = bytes(EMPTY - -live * FULL // PAGE for live in range(PAGE + 1))


class Mark(NamedTuple):
    """A refusal or a wrong free: its line in the transcript, the page or 0, and what the line says."""

    line: int
    page: int
    is_refusal: bool
    text: str


class Total:
    """A total as it stands, the greatest that it was since the column began, and the greatest of all with its line."""

    __slots__ = "now", "top", "most", "line"

    def __init__(self) -> None:
        self.now = self.top = self.most = self.line = 0

    def add(self, more: int, line: int) -> None:
        now = self.now = self.now + more
        if now > self.top:
            self.top = now
            if now > self.most:
                self.most, self.line = now, line


class Page:
    """A page: its place among those with a deed, the line of its deed, those of the first times of memory, of its going
    back and of guards, and counts."""

    __slots__ = ("place", "heap", "kind", "deed", "backed", "unbacked", "guarded", "backs", "unbacks", "guards",
                 "is_guard", "live", "most", "outcomes", "report")

    def __init__(self) -> None:
        self.place, self.heap, self.kind, self.deed = -1, 0, "", 0
        self.backed, self.unbacked, self.guarded = array("I"), array("I"), array("I")
        self.backs = self.unbacks = self.guards = self.live = self.most = 0
        self.is_guard, self.report = False, ""
        self.outcomes: Counter[str] | None = None

    def state(self) -> int:
        if self.is_guard:
            return GUARD
        if self.backs <= self.unbacks:
            return WENT_BACK if self.backs else NO_MEMORY
        return STATES[max(0, min(self.live, PAGE))]


class Peak(NamedTuple):
    """The moment at which most pages had memory, and of such moments the first with most bytes in blocks; then of each
    heap its pages with memory, bytes in blocks, bytes asked for and blocks."""

    line: int
    backed: int
    room: int
    asked: int
    heaps: list[list[int]]


def keep(lines: array[int], line: int) -> None:
    if len(lines) < MOST_LINES_KEPT:
        lines.append(line)


class History:
    """The region as the transcript's lines are taken, one after the other.

    In a transcript of `run` the lines of a phase stand by actor; so a block may end there before it is given, and be
    given before its page has a deed. All is counted so that the state is right again where the phase ends."""

    def __init__(self, trace: Trace, deeds: int, names_guarded: set[int]) -> None:
        """Of a transcript with so many deeds, in which requests of these names were guarded."""
        self.trace, self.names_guarded = trace, names_guarded
        self.pages: dict[int, Page] = {}
        self.deeds, self.state = 0, bytearray(deeds)
        self.changed: set[Page] = set()
        self.marks: list[Mark] = []
        self.blocks: dict[tuple[bytes, bytes], tuple[int, int, list[int]]] = {}
        self.ended_early: set[tuple[bytes, bytes]] = set()
        self.backed, self.room, self.asked = Total(), Total(), Total()
        self.heaps = [[0, 0, 0, 0] for _ in range(trace.heaps)]
        self.peak, self.is_at_peak = Peak(0, 0, 0, 0, [list(each) for each in self.heaps]), False
        self.phases, self.ticks, self.passes, self.guards = array("I"), array("I"), array("I"), array("I")
        self.is_by_actor, self.actor, self.actors = True, b"", False
        self.line, self.asking, self.total = 0, 0, ""
        self.by_word: dict[bytes, Callable[[list[bytes]], None]] = {
            b"deed": self.deed, b"back": self.back, b"unback": self.unback,
            b"give": self.give, b"freed": self.freed, b"kept": self.kept,
            b"guarded": self.guarded, b"lowered": self.lowered, b"stopped": lambda words: None,
            b"tick": lambda words: self.ticks.append(self.line), b"pass": lambda words: self.passes.append(self.line)}
        self.by_word |= dict.fromkeys(REFUSALS + WRONG_FREES, self.mark) | dict.fromkeys(OUTCOMES, self.outcome)

    def take(self, line: bytes) -> None:
        """The next line of the transcript, before the report."""
        self.line += 1
        words = line.split()
        try:
            if words[0] == self.actor or self.see_actor(words):
                self.by_word[words[1]](words)
        except (KeyError, ValueError, IndexError):
            raise Fault(f"no line of a transcript of this trace: {shown(line)}") from None

    def see_actor(self, words: list[bytes]) -> bool:
        """Whether it is a line of an actor, another than the last; one that ends a phase is none, and any actor's lines
        may come after it."""
        if words[0] == b"phase":
            self.phases.append(self.line)
            self.actor = b""
        elif words == [b"close"]:
            self.actor = b""
        else:
            before, actor = int(self.actor or 0), int(words[0])
            self.is_by_actor &= before < actor or not self.actor
            self.actors |= 0 < before < actor
            self.actor = words[0]
        return bool(self.actor)

    def page(self, number: int) -> Page:
        if number not in self.pages:
            if not 1 <= number <= self.trace.pages:
                raise KeyError(number)
            self.pages[number] = Page()
        return self.pages[number]

    def states(self) -> bytearray:
        """How the pages stand, in the order of their deeds."""
        for page in self.changed:
            if page.place >= 0:
                self.state[page.place] = page.state()
        self.changed.clear()
        return self.state

    def deed(self, words: list[bytes]) -> None:
        page = self.page(int(words[3]))
        if page.deed:
            raise KeyError(page.deed)
        page.heap, page.kind, page.deed = int(words[5]), b" ".join(words[6:]).decode(), self.line
        page.place, self.deeds = self.deeds, self.deeds + 1
        self.heaps[0][0] -= page.backs - page.unbacks
        self.heaps[page.heap][0] += page.backs - page.unbacks
        self.changed.add(page)

    def back(self, words: list[bytes]) -> None:
        page = self.page(int(words[3]))
        page.backs += 1
        keep(page.backed, self.line)
        self.backed.add(1, self.line)
        self.heaps[page.heap][0] += 1
        self.see_peak()
        self.changed.add(page)

    def unback(self, words: list[bytes]) -> None:
        self.leave_peak()
        page = self.page(int(words[3]))
        page.unbacks += 1
        keep(page.unbacked, self.line)
        self.backed.add(-1, self.line)
        self.heaps[page.heap][0] -= 1
        self.changed.add(page)

    def give(self, words: list[bytes]) -> None:
        requests, at = self.answered(int(words[0]))
        block, room, asked, of_heap = (words[2], words[4]), int(words[6]), requests.sizes[at], self.heaps[int(words[8])]
        if block in self.ended_early:
            self.ended_early.remove(block)
            return
        self.blocks[block] = room, asked, of_heap
        self.room.add(room, self.line)
        self.asked.add(asked, self.line)
        of_heap[1] += room
        of_heap[2] += asked
        of_heap[3] += 1
        self.lies(block[0], room, 1)
        if self.room.now > self.peak.room:
            self.see_peak()

    def freed(self, words: list[bytes]) -> None:
        if self.is_at_peak:
            self.leave_peak()
        block = words[2], words[4]
        if block not in self.blocks:
            self.ended_early.add(block)
            return
        room, asked, of_heap = self.blocks.pop(block)
        self.room.now -= room
        self.asked.now -= asked
        of_heap[1] -= room
        of_heap[2] -= asked
        of_heap[3] -= 1
        self.lies(block[0], room, -1)

    def kept(self, words: list[bytes]) -> None:
        """A block stands for another size from now on."""
        self.leave_peak()
        requests, at = self.answered(int(words[0]))
        block = words[2], words[4]
        if block in self.blocks:
            room, asked, of_heap = self.blocks[block]
            more = requests.sizes[at] - asked
            self.blocks[block] = room, asked + more, of_heap
            self.asked.add(more, self.line)
            of_heap[2] += more

    def lies(self, address: bytes, room: int, sign: int) -> None:
        """A block begins to live there, or ends."""
        first, share = int(address, 16) // PAGE, sign * min(room, PAGE)
        for number in range(first, first + (room // PAGE or 1)):
            page = self.pages.get(number) or self.page(number)
            live = page.live = page.live + share
            if live > page.most:
                page.most = live
            self.changed.add(page)

    def guarded(self, words: list[bytes]) -> None:
        self.guards.append(self.line)
        for word in words[2:4]:
            page = self.page(int(word))
            page.is_guard, page.guards = True, page.guards + 1
            keep(page.guarded, self.line)
            self.changed.add(page)

    def lowered(self, words: list[bytes]) -> None:
        for word in words[2:4]:
            page = self.page(int(word))
            page.is_guard = False
            self.changed.add(page)

    def see_peak(self) -> None:
        """More pages have memory, or more bytes are in blocks."""
        backed, room = self.backed.now, self.room.now
        if backed > self.peak.backed or backed == self.peak.backed and room > self.peak.room:
            self.peak, self.is_at_peak = Peak(self.line, backed, room, self.asked.now, []), True

    def leave_peak(self) -> None:
        """Something is about to become less, so the heaps of the peak are kept, once."""
        if self.is_at_peak:
            self.peak, self.is_at_peak = self.peak._replace(heaps=[list(each) for each in self.heaps]), False

    def next_of(self, actor: int) -> tuple[Requests, bool, int]:
        """Which request a line of this actor answers, by its place. Those that were guarded are answered by the
        thread's keeper, which is actor T + k of thread k, and whose lines stand elsewhere in a transcript of `run`."""
        is_keeper = actor > self.trace.threads
        requests = self.trace.requests[actor - self.trace.threads if is_keeper else actor]
        at = requests.answered[is_keeper]
        if self.names_guarded:
            names = requests.names
            while at < len(names) and (names[at] in self.names_guarded) != is_keeper:
                at += 1
        return requests, is_keeper, at

    def answered(self, actor: int) -> tuple[Requests, int]:
        requests, is_keeper, at = self.next_of(actor)
        self.asking = requests.lines[at]
        requests.answered[is_keeper] = at + 1
        return requests, at

    def mark(self, words: list[bytes]) -> None:
        """A refusal answers a request; but what a free is skipped for was answered before."""
        word, page, more = words[1], 0, ""
        if word in WRONG_FREES:
            page = int(words[2], 16) // PAGE
        elif word == b"skipped":
            self.skip(int(words[0]), int(words[3]))
        else:
            page = int(words[2]) if word == b"held" else 0
            requests, at = self.answered(int(words[0]))
            if requests.names[at] != int(words[-1]):
                raise KeyError(at)
            more = f" (line {requests.lines[at]} of the trace, {requests.sizes[at]} bytes)"
        text = b" ".join(words).decode(errors="replace") + more
        self.marks.append(Mark(self.line, page if page in self.pages else 0, word in REFUSALS, text))

    def skip(self, thread: int, name: int) -> None:
        requests, _, at = self.next_of(thread)
        if at < len(requests.names) and requests.names[at] == name:
            self.answered(thread)

    def outcome(self, words: list[bytes]) -> None:
        page = self.pages.get(int(words[3]))
        if page:
            page.outcomes = page.outcomes or Counter()
            page.outcomes[words[1].decode()] += 1

    def take_report(self, line: bytes) -> None:
        words = line.split()
        if words[:1] == [b"page"] and words[1].isdigit() and int(words[1]) in self.pages:
            self.pages[int(words[1])].report = line.strip().decode(errors="replace")
        elif words[:1] == [b"total"]:
            self.total = line.strip().decode(errors="replace")
        else:
            raise Fault(f"no line of a report: {shown(line)}")

    def is_of_run(self) -> bool:
        """Whether the lines stand by actor in each phase, and several threads have lines in one."""
        return self.is_by_actor and self.actors
