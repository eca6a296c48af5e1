"""The figures of a run, from a trace and its transcript, exact over every line. Both formats are those of
docs/FORMAT.md.

No lines are kept, but the live blocks, and eight bytes for each request that lines of other threads answer later, as in
a phase of `run`. The trace is read as far as the transcript answers it."""

from __future__ import annotations

from collections import Counter
from collections.abc import Callable, Iterable
from pathlib import Path

from progress import Progress
from run_requests import Requests
from trace_lines import Fault, shown

# How many words the lines have that are only counted.
COUNTED = {b"tick": 3, b"pass": 3, b"stopped": 3, b"lowered": 4, b"bare": 4, b"young": 6, b"in-use": 8,
           b"not-offered": 4, b"ended": 5, b"no-block": 5, b"size-differs": 7, b"outside": 5, b"unaligned": 5}
KINDS = (b"class", b"shared", b"bitfit", b"large")
# The words of lines that answer a request.
ANSWERS = (b"give", b"kept", b"no-space", b"held", b"skipped")
SIZE_BITS, SIZE = 32, (1 << 32) - 1
AT_ONCE = 1 << 18


class Gauge:
    """A quantity over the lines: what it is now, the greatest that it was since its part of the lines began, and of all
    with its first line. Of each change and its line the product is summed up for the mean, since a change holds from
    its line to the last one."""

    __slots__ = ("now", "top", "peak", "line", "moved")

    def __init__(self) -> None:
        self.now = self.top = self.peak = self.line = self.moved = 0

    def add(self, change: int, line: int) -> None:
        self.now += change
        self.moved += change * line
        if self.now > self.top:
            self.rise(line)

    def rise(self, line: int) -> None:
        self.top = self.now
        if self.top > self.peak:
            self.peak, self.line = self.top, line

    def end_part(self) -> int:
        """The greatest value of the part that ends here."""
        top, self.top = self.top, self.now
        return top

    def mean(self, lines: int) -> float:
        return (self.now * (lines + 1) - self.moved) / lines if lines else 0.0


class Blocks:
    """The live blocks, each with what was asked for and its room, by address and turn; and the gauges of both sums and
    of what rounding up lost."""

    def __init__(self) -> None:
        self.live: dict[bytes, int] = {}
        self.asked, self.given, self.rounding = Gauge(), Gauge(), Gauge()

    def begin(self, block: bytes, size: int, room: int, line: int) -> None:
        self.live[block] = room << SIZE_BITS | size
        asked, given, rounding = self.asked, self.given, self.rounding
        asked.now += size
        asked.moved += size * line
        if asked.now > asked.top:
            asked.rise(line)
        given.now += room
        given.moved += room * line
        if given.now > given.top:
            given.rise(line)
        rounding.now = given.now - asked.now
        if rounding.now > rounding.top:
            rounding.rise(line)

    def end(self, block: bytes, line: int) -> bool:
        """Whether the block had begun. No gauge rises."""
        known = self.live.pop(block, 0)
        size, room = known & SIZE, known >> SIZE_BITS
        asked, given = self.asked, self.given
        asked.now -= size
        asked.moved -= size * line
        given.now -= room
        given.moved -= room * line
        return known > 0

    def settle(self) -> None:
        """What rounding up lost is, in all but its peak, the one sum without the other."""
        self.rounding.now = self.given.now - self.asked.now
        self.rounding.moved = self.given.moved - self.asked.moved

    def keep(self, block: bytes, size: int, line: int) -> None:
        """The block, if it lives, stands for another size from now on."""
        if known := self.live.get(block):
            self.end(block, line)
            self.begin(block, size, known >> SIZE_BITS, line)


class Run:
    """What a transcript tells, line by line. In one of `run` the lines of a phase stand by actor; so a block may end
    there before it is given."""

    def __init__(self, trace: Path, path: Path) -> None:
        self.path, self.requests, self.blocks, self.backed = path, Requests(trace, path), Blocks(), Gauge()
        self.line = self.last = self.again = self.moved = 0
        self.phases = 1
        self.at_peak = 0, 0, 0, 0
        self.ended_early: dict[bytes, int] = {}
        self.givers: dict[bytes, bytes] = {}
        self.deeds: dict[int, bytes] = {}
        self.was_backed: set[int] = set()
        self.refused: set[int] = set()
        self.counts: Counter[bytes] = Counter()
        self.held_by: Counter[bytes] = Counter()
        self.is_by_actor, self.actors, self.actor, self.is_closed = True, False, b"", False
        self.by_word: dict[bytes, Callable[[list[bytes]], None]] = {
            b"give": self.give, b"freed": self.freed, b"kept": self.kept, b"deed": self.deed, b"back": self.back,
            b"unback": self.unback, b"no-space": self.refuse, b"held": self.hold, b"skipped": self.skip,
            b"guarded": self.guarded} | dict.fromkeys(COUNTED, self.count)

    def take(self, lines: Iterable[bytes]) -> None:
        """The next lines, before the report."""
        by_word = self.by_word
        for line in lines:
            self.line += 1
            words = line.split()
            try:
                if words[0] == self.actor or self.see_actor(words):
                    by_word[words[1]](words)
            except (KeyError, ValueError, IndexError):
                raise self.fault(self.line, "no line of a transcript of this trace", line) from None

    def fault(self, number: int, what: str, line: bytes = b"") -> Fault:
        return Fault(f"{self.path}: line {number}: {what}" + (f": {shown(line)}" if line else ""))

    def see_actor(self, words: list[bytes]) -> bool:
        """Whether an actor's line begins so, of another one than the last; or else a line ends a phase, after which any
        actor's lines may come."""
        if words[0] in (b"phase", b"close"):
            self.phases += words[0] == b"phase"
            if words != [b"close"] and words != [b"phase", b"%d" % self.phases] or self.is_closed:
                raise KeyError(words[0])
            self.end_phase()
            self.is_closed, self.actor = words[0] == b"close", b""
            return False
        before, actor = int(self.actor or 0), int(words[0])
        if not 0 <= actor <= 2 * self.requests.threads:
            raise KeyError(actor)
        self.is_by_actor &= before < actor or not self.actor
        self.actors |= 0 < before < actor
        self.actor = words[0]
        return True

    def end_phase(self) -> None:
        """Each block that ended has been given."""
        for block, line in self.ended_early.items():
            raise self.fault(line, f"no block was given there that can end: {block[:10].decode()}")

    def give(self, words: list[bytes]) -> None:
        """The line has no name: it answers the next request of its actor."""
        actor, word, address, _, turn, _, room, _, _ = words
        self.last, size = self.requests.next_of(actor)
        room, block = int(room), address + turn
        if room < size:
            raise KeyError(room)
        self.givers[address[:7]] = actor
        self.counts[word] += 1
        if self.ended_early and self.ended_early.pop(block, None):
            return
        self.blocks.begin(block, size, room, self.line)
        if self.backed.now >= self.at_peak[0]:
            self.see_peak()

    def freed(self, words: list[bytes]) -> None:
        _, word, address, _, turn, _, _ = words
        self.counts[word] += 1
        if not self.blocks.end(address + turn, self.line):
            self.ended_early[address + turn] = self.line

    def kept(self, words: list[bytes]) -> None:
        actor, word, address, _, turn, _, name = words
        asked_for, size = self.requests.next_of(actor)
        if asked_for != int(name):
            raise KeyError(name)
        self.counts[word] += 1
        self.blocks.keep(address + turn, size, self.line)
        self.see_peak()

    def see_peak(self) -> None:
        """Of the lines with the most pages backed the first at which most was given."""
        pages, most, _, _ = self.at_peak
        backed, given = self.backed.now, self.blocks.given.now
        if backed > pages or backed == pages and given > most:
            self.at_peak = backed, given, self.blocks.asked.now, self.line

    def page(self, word: bytes) -> int:
        if not 1 <= int(word) <= self.requests.pages:
            raise KeyError(word)
        return int(word)

    def deed(self, words: list[bytes]) -> None:
        page = self.page(words[3])
        if page in self.deeds or words[6] not in KINDS:
            raise KeyError(page)
        self.deeds[page], self.givers[b"0x%05x" % page] = words[6], words[0]

    def back(self, words: list[bytes]) -> None:
        _, _, _, word = words
        page = self.page(word)
        self.again += page in self.was_backed
        self.was_backed.add(page)
        self.move_page(1)
        self.see_peak()

    def move_page(self, change: int) -> None:
        self.backed.add(change, self.line)
        self.moved += change * self.answered()

    def answered(self) -> int:
        """How many requests have an answer."""
        return sum(map(self.counts.__getitem__, ANSWERS))

    def mean_of_requests(self) -> float:
        """Pages with memory, over the answers: of a pass or a deed one run has more lines than another, and these don't
        weigh."""
        answered = self.answered()
        return self.backed.now - self.moved / answered if answered else 0.0

    def unback(self, words: list[bytes]) -> None:
        _, word, _, page, _, _ = words
        self.page(page)
        self.counts[word] += 1
        self.move_page(-1)

    def refuse(self, words: list[bytes]) -> None:
        """A refusal answers the request whose name it has last."""
        name, _ = self.requests.next_of(words[0])
        if name != int(words[-1]):
            raise KeyError(name)
        self.refused.add(name)
        self.counts[words[1]] += 1

    def hold(self, words: list[bytes]) -> None:
        """Who gave the last block on a page has the slots that are left."""
        self.refuse(words)
        self.held_by[self.givers.get(b"0x%05x" % self.page(words[2]), b"0")] += 1

    def skip(self, words: list[bytes]) -> None:
        """Of a request that was refused a free is skipped, or a reallocation, which counts as refused itself then."""
        if int(words[-1]) in self.refused:
            self.counts[b"skipped free"] += 1
        else:
            self.refuse(words)

    def guarded(self, words: list[bytes]) -> None:
        _, word, _, _, _, name = words
        if self.last != int(name):
            raise KeyError(name)
        self.last = 0
        self.counts[word] += 1

    def count(self, words: list[bytes]) -> None:
        if len(words) != COUNTED[words[1]]:
            raise KeyError(words[1])
        self.counts[words[1]] += 1

    def is_of_run(self) -> bool:
        """Whether the lines stand by actor in each phase, and several threads have lines in one."""
        return self.is_by_actor and self.actors

    def take_report(self, lines: list[bytes]) -> None:
        """The lines after `report`: those of the pages, and the totals, which have to be those of the lines before."""
        line = self.line + 1 + max(len(lines), 1)
        totals = {b"deeds": len(self.deeds), b"backed": self.backed.now, b"live": len(self.blocks.live),
                  b"given": self.counts[b"give"], b"ended": self.counts[b"freed"]}
        told = b"total " + b" ".join(b"%s %d" % total for total in totals.items())
        if not lines or lines[-1].split()[:1] != [b"total"]:
            raise self.fault(line, "the transcript ends without its totals")
        if len(lines) - 1 != len(self.deeds) or any(each.split()[:1] != [b"page"] for each in lines[:-1]):
            raise self.fault(line, f"the report has {len(lines) - 1:,} lines of {len(self.deeds):,} pages with a deed")
        if lines[-1].strip() != told:
            raise self.fault(line, f"the lines before say {told.decode()}, and not", lines[-1])

    def end(self) -> None:
        """Each line of the trace has been answered."""
        self.blocks.settle()
        left, counts = self.requests.end(), self.requests.counts
        said = {b"phase": self.phases - 1, b"tick": self.counts[b"tick"], b"pass": self.counts[b"pass"]}
        if not self.is_closed:
            raise self.fault(self.line, "no close before the report")
        if left:
            raise self.fault(self.line, f"{left:,} requests of {self.requests.path} have no answer")
        for word, count in said.items():
            if counts[word] != count:
                name = word.decode()
                raise self.fault(self.line, f"{count:,} lines {name}, and {self.requests.path} has {counts[word]:,}")


def read_run(trace: Path, path: Path, see: Callable[[Run], None] | None = None, parts: int = 1) -> Run:
    """What the whole transcript tells. What is to see it on the way is called after each of about so many parts."""
    run, report, is_report, size = Run(trace, path), [], False, path.stat().st_size
    progress = Progress(path.name, size)
    with path.open("rb") as file:
        while lines := file.readlines(min(AT_ONCE, size // parts + 1)):
            if not run.line and lines[0].startswith(b"line "):
                raise Fault(f"{path}: the program found a fault in the trace: {shown(lines[0])}")
            if not is_report:
                at = next((at for at, line in enumerate(lines) if line == b"report\n"), len(lines))
                run.take(lines[:at])
                is_report, lines = at < len(lines), lines[at + 1:]
                if see:
                    see(run)
            report += lines
            progress.tell(file.tell())
    progress.end()
    if not is_report:
        raise run.fault(run.line, "the transcript ends without a report")
    run.end()
    run.take_report(report)
    return run
