"""The lines of a trace, within the limits that docs/FORMAT.md gives them."""

from __future__ import annotations

from collections.abc import Iterator
from functools import lru_cache
from typing import NamedTuple

PAGE = 4096
LEAST_ALIGN = 16
MOST_PAGES = {1: 4096, 2: 4096, 3: 16384, 4: 16384}
LAST_VERSION = 4
MOST_THREADS, MOST_GUARDED, MOST_HEAPS, MOST_AGE, MOST_EPOCH = 16, 8, 32, 1_000_000, 2**40 - 1
MOST_OPERATIONS, MOST_BOUND, MOST_BYTES = 1_000_000, 2_000_000, 16_777_216
CLASSES = [16, 32, 48, 64, 80, 96, 112, 128, 160, 192, 224, 256, 320, 384, 448, 512]
MORE_CLASSES = [640, 768, 896, 1024]
MOST_BITFIT = 2048
MOST_OF_COMMENT = 150
ROOM_FOR_HEAD = 128 + MOST_HEAPS * (MOST_OF_COMMENT + 1 + len("shared 31\n"))
LINES_IN_PIECE = 10_000
NEVER = 1 << 80


class Full(Exception):
    """The trace may have no more lines: why, and what helps."""


class TooLong(Full):
    """The transcript may have no more lines."""

    def __init__(self) -> None:
        super().__init__(f"operations for {MOST_BOUND:,} lines of a transcript: rarer passes and fewer --pages need less, and "
                         "--from and --most take another part of the log")


class Room(NamedTuple):
    """What a request gets: its bytes, whether they are a slot of a class, its pages where it gets whole ones, and how many
    lines of a transcript it may bring."""

    bytes: int
    is_class: bool
    pages: int
    lines: int


@lru_cache(1 << 16)
def room_of(version: int, size: int, align: int) -> Room:
    """The room of a request."""
    for bytes_ in CLASSES + (MORE_CLASSES if version >= 3 else []):
        if bytes_ >= size and bytes_ % align == 0:
            return Room(bytes_, True, 0, 2)
    if size <= MOST_BITFIT:
        return Room(-(-max(size, 1) // LEAST_ALIGN) * LEAST_ALIGN, False, 0, 2)
    pages = -(-size // PAGE)
    return Room(pages * PAGE, False, pages, 1 + pages)


class Wanted(NamedTuple):
    """What the header says but for the pages; after how many operations of threads, or after how many nanoseconds of the
    log, the scavenger has one; and which of a thread's requests for whole pages is guarded."""

    version: int
    age: int
    tick: int | None = None
    passes: int | None = None
    idle: int | None = None
    idle_age: int = 1
    guard: int | None = None
    tick_nanoseconds: int | None = None
    pass_nanoseconds: int | None = None


class Trace:
    """The lines so far. While the pages of the region are open they are 0, and a trace is full when it is in every
    region."""

    def __init__(self, wanted: Wanted, pages: int) -> None:
        self.wanted, self.pages = wanted, pages
        self.pieces: list[str] = []
        self.lines: list[str] = []
        self.operations = self.of_threads = self.bytes = self.cost = self.epoch = self.live = 0
        self.phase = 1
        # The threads, and how many idle operations and passes there are; and the lines of a transcript for these.
        self.counts, self.fixed = (1, 0, 0), self.fixed_of((1, 0, 0), pages)
        self.next_due = min([each for each in (wanted.tick, wanted.idle, wanted.passes) if each], default=NEVER)
        # The times at which the scavenger has something to do. The clock begins with the first record that has a time.
        self.next_tick = self.next_pass = 0
        self.due_at = 1 if wanted.tick_nanoseconds or wanted.pass_nanoseconds else NEVER
        # The operations of threads and the epoch at the last pass by the clock, and the epoch at the first one after as many
        # operations.
        self.passed_at = (-1, 0, 0)

    def fixed_of(self, counts: tuple[int, int, int], pages: int) -> int:
        """How many lines of a transcript threads, idle operations and passes may bring in a region of so many pages: each
        page's deed to each thread and each keeper, a line a thread for each idle operation, and the pages of each pass."""
        threads, idles, passes = counts
        return threads * (pages * (2 if self.wanted.guard else 1) + idles) + passes * (pages + 1)

    def fits(self, pages: int) -> bool:
        """Whether the region may have so many pages."""
        return self.fixed_of(self.counts, pages) + self.cost <= MOST_BOUND

    def add(self, line: str, cost: int, thread: int = 1, idles: int = 0, passes: int = 0) -> None:
        """An operation, where there is room for it."""
        counts, fixed = self.counts, self.fixed
        if thread > counts[0] or idles or passes:
            counts = max(counts[0], thread), counts[1] + idles, counts[2] + passes
            fixed = self.fixed_of(counts, self.pages)
        bytes_, cost = self.bytes + len(line) + 1, self.cost + cost
        if self.operations == MOST_OPERATIONS:
            raise Full(f"{MOST_OPERATIONS:,} operations: --from and --most take another part of the log")
        if bytes_ + ROOM_FOR_HEAD > MOST_BYTES:
            raise Full(f"{MOST_BYTES:,} bytes: --from and --most take another part of the log, and frees without a size are shorter")
        if fixed + cost > MOST_BOUND:
            raise TooLong
        self.bytes, self.cost, self.counts, self.fixed = bytes_, cost, counts, fixed
        self.operations += 1
        self.lines.append(line)
        if len(self.lines) >= LINES_IN_PIECE:
            self.end_piece()

    def end_piece(self) -> None:
        self.pieces.append("".join(f"{line}\n" for line in self.lines))
        self.lines.clear()

    def add_of_thread(self, line: str, cost: int, thread: int, blocks: int = 0) -> None:
        """An operation of a thread, by which so many blocks more live, and then what the scavenger is to do after so many."""
        self.add(line, cost, thread)
        self.of_threads += 1
        self.live += blocks
        if self.of_threads == self.next_due:
            self.scavenge()

    def scavenge(self) -> None:
        """What is due after so many operations, and when something is due again."""
        wanted, done = self.wanted, self.of_threads
        self.next_due = min(done + each - done % each for each in (wanted.tick, wanted.idle, wanted.passes) if each)
        if wanted.tick and done % wanted.tick == 0:
            self.tick(1)
        if wanted.idle and done % wanted.idle == 0:
            self.add(f"idle {wanted.idle_age}", 0, idles=1)
        if wanted.passes and done % wanted.passes == 0:
            self.add("pass", 0, passes=1)

    def tick(self, epochs: int) -> None:
        self.add(f"tick {self.epoch + epochs}", 1)
        self.epoch += epochs

    def catch_up(self, nanoseconds: int) -> None:
        """What was due by the clock until this time, which comes once it has passed `due_at`."""
        wanted = self.wanted
        if self.due_at == 1:
            self.next_tick = nanoseconds + (wanted.tick_nanoseconds or NEVER)
            self.next_pass = nanoseconds + (wanted.pass_nanoseconds or NEVER)
        while self.next_pass <= nanoseconds:
            if self.is_pass_new(self.epoch + self.epochs_until(self.next_pass)):
                self.tick_until(self.next_pass)
                self.add("pass", 0, passes=1)
                done, _, since = self.passed_at
                self.passed_at = (self.of_threads, self.epoch, since if done == self.of_threads else self.epoch)
            self.next_pass += wanted.pass_nanoseconds
        self.tick_until(nanoseconds)
        self.due_at = min(self.next_tick, self.next_pass)

    def epochs_until(self, nanoseconds: int) -> int:
        """How many ticks are due."""
        is_due = self.next_tick <= nanoseconds
        return (nanoseconds - self.next_tick) // self.wanted.tick_nanoseconds + 1 if is_due else 0

    def tick_until(self, nanoseconds: int) -> None:
        """The ticks that are due, as one line."""
        if epochs := self.epochs_until(nanoseconds):
            self.next_tick += epochs * self.wanted.tick_nanoseconds
            self.tick(epochs)

    def is_pass_new(self, epoch: int) -> bool:
        """Not where nobody acted since the last pass, and no page that was too young then has come of age."""
        done, seen, since = self.passed_at
        return done != self.of_threads or not (epoch == seen or seen >= since + self.wanted.age)

    def ask(self, thread: int, name: int, heap: int, size: int, align: int, room: Room) -> None:
        self.add_of_thread(f"a {thread} {name} {heap} {size} {align}", self.lines_of(room), thread, 1)

    def move(self, thread: int, name: int, old: int, size: int, align: int) -> None:
        lines = self.lines_of(room_of(self.wanted.version, size, align))
        self.add_of_thread(f"m {thread} {name} {old} {size} {align}", lines + 1, thread)

    def free(self, thread: int, name: int) -> None:
        self.add_of_thread(f"f {thread} {name}", 1, thread, -1)

    def free_sized(self, thread: int, name: int, size: int, align: int) -> None:
        self.add_of_thread(f"fs {thread} {name} {size} {align}", 1, thread, -1)

    def stop(self, thread: int) -> None:
        self.add_of_thread(f"stop {thread}", 0, thread)

    def begin_phase(self) -> None:
        self.lines.append("phase")
        self.bytes += len("phase") + 1
        self.phase += 1

    def lines_of(self, room: Room) -> int:
        return room.lines + (2 if self.wanted.guard and room.pages else 0)

    def text(self, heaps: int, shared: list[int], comments: list[str]) -> Iterator[str]:
        """The whole trace, piece by piece."""
        wanted = self.wanted
        head = [f"pas {wanted.version} pages {self.pages} threads {self.counts[0]} heaps {heaps} age {wanted.age}"]
        head += [f"shared {heap}" for heap in shared] + ([f"guard {wanted.guard}"] if wanted.guard else [])
        head += [ascii(comment)[1:-1][:MOST_OF_COMMENT] for comment in comments]
        yield "".join(f"{line}\n" for line in head)
        yield from self.pieces
        yield "".join(f"{line}\n" for line in self.lines)
