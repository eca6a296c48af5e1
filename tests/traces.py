"""A second reading of traces without a fault, by docs/FORMAT.md: what each phase asks for, which requests are to be
guarded, and the route of a request. It has no program of its own."""

from collections import Counter
from typing import NamedTuple

PAGE, GRAIN = 4096, 16
GRAINS = PAGE // GRAIN
CLASSES = [16, 32, 48, 64, 80, 96, 112, 128, 160, 192, 224, 256, 320, 384, 448, 512, 640, 768, 896, 1024]
# How many of them traces of a version have.
CLASSES_OF = {1: 16, 2: 16, 3: 20, 4: 20}
MOST_BITFIT = 2048
MOST_LOGGED = 64
CHORES = ("tick", "pass", "idle")


def grains_on(address, room, page):
    """The grains of a block on a page, as the bits of a number."""
    first = max(address // GRAIN - page * GRAINS, 0)
    end = min((address + room) // GRAIN - page * GRAINS, GRAINS)
    return (1 << end) - (1 << first)


def last_line(machine):
    """The last line of a report, by the machine of a second reading."""
    live, ended = len(machine.live), sum(machine.ends.values())
    return f"total deeds {len(machine.deeds)} backed {len(machine.backed)} live {live} given {live + ended} ended {ended}"


class Block(NamedTuple):
    """A block that was given, which a name stands for."""

    address: int
    turn: int
    room: int
    heap: int

    def pages(self):
        return range(self.address // PAGE, (self.address + self.room - 1) // PAGE + 1)

    def grains_on(self, page):
        return grains_on(self.address, self.room, page)


class Logged(NamedTuple):
    """A free that waits in a log: the name of a block, and the room that it names, or None."""

    address: int
    turn: int
    room: int | None


class Wanted(NamedTuple):
    """What a request asks for: its directory, its room, its alignment, what its address is a multiple of, and the bytes of a
    page that blocks of its kind and room cover at most."""

    name: int
    directory: tuple
    room: int
    align: int
    step: int
    most: int

    def is_placed(self, address):
        """Whether a block of it may begin there: in its page where it isn't large."""
        offset = address % PAGE
        return offset % self.step == 0 and (self.directory[1] == "large" or offset + self.room <= self.most)


class Trace(NamedTuple):
    """A trace without a fault: its region, the operations of each phase, as words, and the names of the guarded requests."""

    version: int
    pages: int
    threads: int
    age: int
    shared: set
    phases: list
    guard: int = 0
    guarded: frozenset = frozenset()

    @property
    def actors(self):
        """The last actor: the last thread, or the last keeper in a guarded trace."""
        return self.threads * (2 if self.guard else 1)

    def wanted(self, name, heap, size, align):
        """By the route of the request: the smallest class that suits, else a bit-fit page, else whole pages."""
        for bytes_ in CLASSES[:CLASSES_OF[self.version]]:
            if bytes_ >= size and bytes_ % align == 0:
                kind = "shared" if heap in self.shared else f"class {bytes_}"
                return Wanted(name, (heap, kind), bytes_, align, bytes_, PAGE // bytes_ * bytes_)
        if size <= MOST_BITFIT:
            return Wanted(name, (heap, "bitfit"), -(-max(size, 1) // GRAIN) * GRAIN, align, align, PAGE)
        return Wanted(name, (heap, "large"), -(-size // PAGE) * PAGE, align, PAGE, PAGE)

    def room(self, size, align):
        """That of a request for so many bytes at a multiple of the alignment."""
        return self.wanted(None, None, size, align).room

    def acting(self, phase):
        """The threads that have an operation in the phase; and 0 where the scavenger has one."""
        return {0 if operation[0] in CHORES else operation[1] for operation in self.phases[phase]}

    def is_in_order(self):
        """Whether at most one actor works in each phase. Then all runs say the same."""
        return all(len(self.acting(phase)) <= 1 for phase in range(len(self.phases)))


def guarded_names(phases, guard):
    """Of each thread's requests for whole pages each whose number is a multiple of that of the `guard` line."""
    names, counts = set(), Counter()
    for word, *rest in (operation for phase in phases for operation in phase if guard):
        if word == "a" and rest[3] > MOST_BITFIT:
            counts[rest[0]] += 1
            names.update({rest[1]} if counts[rest[0]] % guard == 0 else ())
    return frozenset(names)


def read_trace(text):
    """The trace of a text without a fault."""
    first, *lines = text.split("\n")
    words = first.split()
    shared, phases, guard = set(), [[]], 0
    for line in lines:
        word, *rest = line.split() or ["#"]
        if word.startswith("#"):
            continue
        if word == "phase":
            phases.append([])
        elif word == "shared":
            shared.add(int(rest[0]))
        elif word == "guard":
            guard = int(rest[0])
        else:
            phases[-1].append((word, *(int(value, 0) for value in rest)))
    return Trace(int(words[1]), int(words[3]), int(words[5]), int(words[9]), shared, phases, guard, guarded_names(phases, guard))
