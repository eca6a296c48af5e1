"""A second reading of traces of versions 1 to 4, for the tests of what writes them: by the words of the format alone, and by no line of the tools or
of the program. `read` answers what a region with room for everything would come to: which blocks live at the end, how many were given and kept; or it
raises a Fault, the first of the text, or a Wrong, where a line frees or moves what is no live block, or names another room than the block has.

A line `fs THREAD NAME SIZE ALIGN` or `rs THREAD ADDRESS TURN SIZE ALIGN` (from version 2 on) frees with the room of a request for this size and
alignment. Version 3 has four more classes and up to 16,384 pages. A line `m THREAD NAME OLD SIZE ALIGN` (version 4) keeps the block of OLD where the
size, 0 counting as 1, is at most its room and its address suits the alignment, and NAME stands for it then; else NAME stands for a new block in the
same heap, and the block of OLD ends. It costs one line of a transcript more than a request. With a line `guard N` (version 4, at most 8 threads) each
request for whole pages costs two lines more, and each page one more a thread."""
import re
from typing import NamedTuple

FEW_CLASSES = [*range(16, 129, 16), *range(160, 257, 32), *range(320, 513, 64)]
SIZES = {1: FEW_CLASSES, 2: FEW_CLASSES, 3: FEW_CLASSES + [640, 768, 896, 1024], 4: FEW_CLASSES + [640, 768, 896, 1024]}
MOST_PAGES = {1: 4096, 2: 4096, 3: 16384, 4: 16384}
# The version from which on a line's first word is one, and the words behind it.
LINES = {
    "shared": (1, "heap"), "phase": (1, ""), "a": (1, "thread new heap size align"), "f": (1, "thread old"), "r": (1, "thread address turn"),
    "flush": (1, "thread"), "stop": (1, "thread"), "tick": (1, "epoch"), "pass": (1, ""), "idle": (1, "epoch"),
    "guard": (4, "every"), "fs": (2, "thread old size align"), "rs": (2, "thread address turn size align"), "m": (4, "thread new old size align"),
}


class Fault(Exception):
    """The line and the reason of a text that is no trace."""


class Wrong(Exception):
    """A line that no log of a program without faults brings."""


class Name(NamedTuple):
    """What a name stands for: a block by its number, and the thread and the phase of the line that made it."""

    block: int
    thread: int
    phase: int


class Reading:
    def __init__(self, header):
        told = re.fullmatch(r"pas ([1-4]) pages ([1-9]\d*) threads ([1-9]\d*) heaps ([1-9]\d*) age ([1-9]\d*)", header)
        if not told:
            raise Fault("line 1: BadHeader")
        self.version, self.pages, self.threads, self.heaps, age = map(int, told.groups())
        if self.pages > MOST_PAGES[self.version] or self.threads > 16 or self.heaps > 32 or age > 1_000_000:
            raise Fault("line 1: BadHeader")
        self.names, self.rooms, self.live = {}, [], set()
        self.phase, self.operations, self.cost, self.moved, self.kept, self.guard = 1, 0, self.threads * self.pages, 0, 0, 0

    def room(self, size, align):
        """The room of a request, and whether it is for whole pages."""
        suits = [each for each in SIZES[self.version] if each >= size and each % align == 0]
        if suits:
            return suits[0], False
        unit = 16 if size <= 2048 else 4096
        return (size + unit - 1) // unit * unit, unit == 4096

    def reason(self, word, values):
        """Why the line of these values is none, but for what is counted: the first reason that applies."""
        old, new = self.names.get(values.get("old")), values.get("new")
        reasons = {
            "BadNumber": any(not 1 <= values[it] <= 1_000_000 for it in ("old", "new") if it in values) or values.get("epoch", 0) >= 1 << 40
                         or values.get("turn", 0) >= (1 << 40) - 1 or not 1 <= values.get("every", 1) <= 1_000_000,
            "BadThread": not 1 <= values.get("thread", 1) <= self.threads or ("every" in values and self.threads > 8),
            "BadHeap": values.get("heap", 0) >= self.heaps,
            "BadSize": values.get("size", 0) > 4096 * self.pages,
            "BadAlign": values.get("align", 16) not in [16 << each for each in range(9)],
            "NameTaken": new in self.names,
            "NameUnknown": "old" in values and old is None,
            "TooEarly": old is not None and old.thread != values.get("thread") and old.phase == self.phase,
        }
        return next((name for name, applies in reasons.items() if applies), None)

    def cost_of(self, word, values):
        if word in ("a", "m"):
            room, is_whole = self.room(values["size"], values["align"])
            return (1 + room // 4096 + 2 * (self.guard > 0) if is_whole else 2) + (word == "m")
        return {"pass": 1 + self.pages, "idle": self.threads, "flush": 0, "stop": 0}.get(word, 1)

    def give(self, values):
        self.rooms.append(self.room(values["size"], values["align"])[0])
        self.live.add(len(self.rooms) - 1)
        self.names[values["new"]] = Name(len(self.rooms) - 1, values["thread"], self.phase)

    def end(self, at, block):
        if block not in self.live:
            raise Wrong(f"line {at}: the block has ended before")
        self.live.discard(block)

    def act(self, at, word, values):
        """What the line does, in a region with room for everything."""
        old = self.names.get(values.get("old"))
        if word == "a":
            self.give(values)
        elif word in ("f", "fs"):
            self.end(at, old.block)
            if word == "fs" and self.room(values["size"], values["align"])[0] != self.rooms[old.block]:
                raise Wrong(f"line {at}: the block has {self.rooms[old.block]} bytes")
        elif word == "m":
            if old.block not in self.live:
                raise Wrong(f"line {at}: what is moved has ended before")
            self.moved += 1
            # Each address is a multiple of 16; of another one nothing is known here.
            if values["align"] == 16 and max(values["size"], 1) <= self.rooms[old.block]:
                self.kept += 1
                self.names[values["new"]] = Name(old.block, values["thread"], self.phase)
            elif values["align"] == 16:
                self.give(values)
                self.end(at, old.block)
            else:
                raise Wrong(f"line {at}: whether the block is kept isn't known here")

    def take(self, at, line):
        word, *rest = line.split(" ")
        since, shapes = LINES.get(word, (9, ""))
        is_late = (word in ("shared", "guard") and (self.operations or self.phase > 1)) or (word == "guard" and self.guard)
        if self.version < since or len(rest) != len(shapes.split()) or is_late:
            raise Fault(f"line {at}: BadWord")
        if any(not re.fullmatch(r"0x[0-9a-f]{8}" if shape == "address" else r"0|[1-9]\d*", each) for shape, each in zip(shapes.split(), rest)):
            raise Fault(f"line {at}: BadNumber")
        values = {shape: int(each, 0) for shape, each in zip(shapes.split(), rest)}
        if reason := self.reason(word, values):
            raise Fault(f"line {at}: {reason}")
        if word == "phase":
            self.phase += 1
        elif word == "guard":
            self.guard, self.cost = values["every"], self.cost + self.threads * self.pages
        elif word != "shared":
            self.operations, self.cost = self.operations + 1, self.cost + self.cost_of(word, values)
            if self.operations > 1_000_000:
                raise Fault(f"line {at}: TooManyOps")
            if self.cost > 2_000_000:
                raise Fault(f"line {at}: TraceTooLarge")
            self.act(at, word, values)


def read(text):
    """The reading of this text, which has one blank between words."""
    lines = text.split("\n")
    reading = Reading(lines[0])
    for at, line in enumerate(lines[1:], 2):
        if line.strip() and not line.startswith("#"):
            reading.take(at, line)
    return reading
