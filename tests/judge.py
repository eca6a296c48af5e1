"""A second reading of what a right transcript of `pas order` is, for tests/verdicts.py: the number of the first line of a
text that isn't allowed at its place, by docs/FORMAT.md and the lines before it alone. It knows no words of a region and no
caches: a request is answered by deeds of its directory and backs, as many as the machine allows, and then by a block or a
refusal. It has no program of its own."""

import re
from collections import defaultdict
from typing import NamedTuple

from traces import GRAIN, GRAINS, MOST_LOGGED, PAGE, Block, Logged, last_line

ALL_ONES = 2**64 - 1

NUMBER = "(0|[1-9][0-9]*)"
DEED = re.compile(f"{NUMBER} deed page {NUMBER} heap {NUMBER} (class [0-9]+|shared|bitfit|large)\n")
BACK = re.compile(f"{NUMBER} back page {NUMBER}\n")
GIVE = re.compile(f"{NUMBER} give 0x([0-9a-f]{{8}}) turn {NUMBER} room {NUMBER} heap {NUMBER}\n")
HELD = re.compile(f"{NUMBER} held {NUMBER} name {NUMBER}\n")
OUTCOME = re.compile(f"0 (?:(bare|not-offered) page {NUMBER}|(young) page {NUMBER} stamp {NUMBER}|(unback) page {NUMBER} epoch {NUMBER}"
                     f"|(in-use) page {NUMBER} word ([0-3]) value 0x([0-9a-f]{{16}}))\n")


class Stopped(Exception):
    """The line at hand isn't allowed at its place, or is wanting."""


class Guard(NamedTuple):
    """A block between two pages, and its keeper."""

    keeper: int
    low: int
    high: int
    block: Block


class Machine:
    """What the events so far have come to."""

    def __init__(self, trace):
        self.pages, self.age = trace.pages, trace.age
        self.deeds, self.backed, self.live = {}, set(), {}
        self.gives, self.ends, self.stamps, self.covered = defaultdict(int), defaultdict(int), defaultdict(int), defaultdict(int)

    def may_give(self, block, directory):
        """Whether the block may be given: on backed pages of the directory, where no block lives, with the next turn."""
        if block.address % GRAIN or block.room % GRAIN or not block.room or block.turn != self.gives[block.address]:
            return False
        return all(self.deeds.get(page) == directory and page in self.backed and not self.covered[page] & block.grains_on(page) for page in block.pages())

    def give(self, block):
        self.gives[block.address] += 1
        self.live[block.address] = block
        for page in block.pages():
            self.covered[page] |= block.grains_on(page)

    def end(self, address, epoch):
        block = self.live.pop(address)
        self.ends[address] += 1
        for page in block.pages():
            self.covered[page] &= ~block.grains_on(page)
            self.stamps[page] = max(self.stamps[page], epoch)

    def has_room(self, page):
        """Whether a block of the page's kind could cover a grain that is free."""
        kind = self.deeds[page][1].split()
        usable = PAGE // int(kind[1]) * int(kind[1]) // GRAIN if len(kind) > 1 else GRAINS
        return self.covered[page] & ((1 << usable) - 1) != (1 << usable) - 1


def lines_of(text):
    """The lines of a text, each with its newline, which the last may lack."""
    return re.findall(r"[^\n]*\n|[^\n]+", text)


class Lines:
    """The lines of a text, which are taken in order."""

    def __init__(self, text):
        self.lines, self.at = lines_of(text), 0

    def peek(self):
        """The next line, or nothing."""
        return self.lines[self.at] if self.at < len(self.lines) else ""

    def expect(self, text):
        """Takes the next line, which is just this one."""
        if self.peek() != text + "\n":
            raise Stopped
        self.at += 1

    def match(self, pattern):
        """The values of the next line, if it has this form."""
        found = pattern.fullmatch(self.peek())
        return found.groups() if found else None


class Judge:
    """Takes the lines of a transcript one after the other."""

    def __init__(self, trace, lines):
        self.trace, self.lines, self.machine = trace, lines, Machine(trace)
        self.names = {}
        self.logs = {thread: [] for thread in range(1, trace.threads + 1)}
        self.idle_since = dict.fromkeys(self.logs, 0)
        self.guards = []
        self.epoch = 0

    def verdict(self):
        """`yes`, or `no line N`."""
        try:
            for number, operations in enumerate(self.trace.phases, 1):
                self.phase(number, operations)
            self.lines.expect("close")
            for thread in self.logs:
                self.flush(thread)
            for keeper in range(self.trace.threads + 1, self.trace.actors + 1):
                self.sweep(keeper, is_close=True)
            self.report()
            if self.lines.peek():
                raise Stopped
        except Stopped:
            return f"no line {self.lines.at + 1}"
        return "yes"

    def phase(self, number, operations):
        if number > 1:
            self.lines.expect(f"phase {number}")
        active = {values[0] for word, *values in operations if word not in ("tick", "pass", "idle")}
        self.idle_since.update(dict.fromkeys(active, self.epoch))
        for word, *values in operations:
            if word == "tick":
                self.epoch = max(self.epoch, values[0])
                self.lines.expect(f"0 tick {self.epoch}")
            elif word == "pass":
                self.scavenge()
            elif word == "idle":
                self.stop_idle(active, *values)
            else:
                self.operate(word, *values)

    def operate(self, word, thread, *values):
        if word == "a" and values[0] in self.trace.guarded:
            self.guard(thread, self.trace.wanted(*values))
        elif word == "a":
            self.request(thread, self.trace.wanted(*values))
        elif word == "m":
            self.remake(thread, *values)
        elif word in ("f", "fs"):
            name, *asked = values
            block = self.names[name]
            if block is None:
                self.lines.expect(f"{thread} skipped name {name}")
            else:
                self.free(thread, block.address, block.turn, asked)
        elif word in ("r", "rs"):
            address, turn, *asked = values
            self.free(thread, address, turn, asked)
        else:
            self.flush(thread)

    def request(self, thread, wanted):
        """Deeds and backs, and then a block or a refusal. Whether it was a block."""
        while self.prepares(thread, wanted.directory):
            self.lines.at += 1
        self.names[wanted.name] = None
        if self.lines.peek() == f"{thread} no-space name {wanted.name}\n" or self.is_held(thread, wanted.name, wanted.directory):
            self.lines.at += 1
            return False
        if not self.gives(thread, wanted):
            raise Stopped
        return True

    def gives(self, actor, wanted):
        """Whether the next line is a block of this actor for what is wanted, that the machine allows; it is taken then."""
        given = self.lines.match(GIVE)
        if not given:
            return False
        block = Block(int(given[1], 16), *map(int, given[2:]))
        is_wanted = (int(given[0]), block.room, block.heap) == (actor, wanted.room, wanted.directory[0]) and block.address % wanted.align == 0
        if not is_wanted or not self.machine.may_give(block, wanted.directory):
            return False
        self.lines.at += 1
        self.machine.give(block)
        self.names[wanted.name] = block
        return True

    def guard(self, thread, wanted):
        """The keeper sweeps, and tries the request; the thread is asked where it backed no page and gave no block."""
        keeper, has_backed = self.trace.threads + thread, False
        self.sweep(keeper)
        while self.prepares(keeper, wanted.directory):
            has_backed = has_backed or self.lines.match(BACK) is not None
            self.lines.at += 1
        if self.gives(keeper, wanted):
            block = self.names[wanted.name]
            low, high = block.pages()[0] - 1, block.pages()[-1] + 1
            if low == 0 or high > self.trace.pages:
                raise Stopped
            self.guards.append(Guard(keeper, low, high, block))
            self.lines.expect(f"{keeper} guarded {low} {high} name {wanted.name}")
        elif has_backed:
            raise Stopped
        else:
            self.request(thread, wanted)

    def sweep(self, keeper, is_close=False):
        """Of each guard of the keeper, in the order in which they went up, a line where its block has ended, and at the close in any case."""
        down = [guard for guard in self.guards if guard.keeper == keeper and (is_close or self.machine.ends[guard.block.address] > guard.block.turn)]
        self.guards = [guard for guard in self.guards if guard not in down]
        for guard in down:
            self.lines.expect(f"{keeper} lowered {guard.low} {guard.high}")

    def prepares(self, thread, directory):
        """Whether the next line is a deed of the directory or a back, of this thread, that the machine allows; it is done then."""
        machine = self.machine
        if deed := self.lines.match(DEED):
            actor, page, heap = map(int, deed[:3])
            if actor != thread or (heap, deed[3]) != directory or not 1 <= page <= machine.pages or page in machine.deeds:
                return False
            machine.deeds[page] = directory
            return True
        if back := self.lines.match(BACK):
            actor, page = map(int, back)
            if actor != thread or page not in machine.deeds or page in machine.backed:
                return False
            machine.backed.add(page)
            return True
        return False

    def is_held(self, thread, name, directory):
        held = self.lines.match(HELD)
        return bool(held) and (int(held[0]), int(held[2])) == (thread, name) and self.machine.deeds.get(int(held[1])) == directory

    def remake(self, thread, name, old, size, align):
        """A block that suits is kept; another is asked for, and then the old one is freed."""
        block = self.names[old]
        if block is None:
            self.names[name] = None
            self.lines.expect(f"{thread} skipped name {name}")
        elif max(size, 1) <= block.room and block.address % align == 0:
            self.names[name] = block
            self.lines.expect(f"{thread} kept {block.address:#010x} turn {block.turn} name {name}")
        elif self.request(thread, self.trace.wanted(name, block.heap, size, align)):
            self.free(thread, block.address, block.turn, [])

    def free(self, thread, address, turn, asked):
        """Refused at once, or logged; a full log is flushed before."""
        if not 1 <= address // PAGE <= self.trace.pages:
            self.lines.expect(f"{thread} outside {address:#010x} turn {turn}")
        elif address % GRAIN:
            self.lines.expect(f"{thread} unaligned {address:#010x} turn {turn}")
        else:
            if len(self.logs[thread]) == MOST_LOGGED:
                self.flush(thread)
            self.logs[thread].append(Logged(address, turn, self.trace.room(*asked) if asked else None))

    def flush(self, thread):
        """A line for each free of the log, in order: that of its true reason, or its end."""
        entries, self.logs[thread] = self.logs[thread], []
        for address, turn, room in entries:
            block = self.machine.live.get(address)
            what = f"{address:#010x} turn {turn}"
            if self.machine.ends[address] > turn:
                self.lines.expect(f"{thread} ended {what}")
            elif block is None or block.turn != turn:
                self.lines.expect(f"{thread} no-block {what}")
            elif room is not None and room != block.room:
                self.lines.expect(f"{thread} size-differs {what} asked {room}")
            else:
                self.lines.expect(f"{thread} freed {what} epoch {self.epoch}")
                self.machine.end(address, self.epoch)

    def scavenge(self):
        """A pass, and then its outcomes, of pages that rise."""
        self.lines.expect(f"0 pass {self.epoch}")
        last = 0
        while (outcome := self.lines.match(OUTCOME)) and (page := self.outcome(*[value for value in outcome if value is not None])) > last:
            if outcome[5]:
                self.machine.backed.remove(page)
            last = page
            self.lines.at += 1

    def outcome(self, word, page, *values):
        """The page of an outcome that is allowed, or 0."""
        machine, page = self.machine, int(page)
        allowed = {
            "bare": lambda: page not in machine.backed,
            "not-offered": lambda: page in machine.deeds,
            "young": lambda: int(values[0]) == machine.stamps[page] and self.epoch < int(values[0]) + machine.age,
            "in-use": lambda: int(values[1], 16) != ALL_ONES,
            "unback": lambda: (page in machine.backed and not machine.covered[page] and int(values[0]) == self.epoch
                               and self.epoch >= machine.stamps[page] + machine.age),
        }
        return page if 1 <= page <= machine.pages and allowed[word]() else 0

    def stop_idle(self, active, epochs):
        for thread in self.logs:
            if thread not in active and self.epoch >= self.idle_since[thread] + epochs:
                self.flush(thread)
                self.lines.expect(f"0 stopped {thread}")

    def report(self):
        machine = self.machine
        self.lines.expect("report")
        begun = defaultdict(int)
        for block in machine.live.values():
            begun[block.address // PAGE] += 1
        for page in sorted(machine.deeds):
            heap, kind = machine.deeds[page]
            free = GRAINS - machine.covered[page].bit_count()
            front = f"page {page} heap {heap} {kind} live {begun[page]} free {free} stamp {machine.stamps[page]} marks "
            if self.lines.peek() not in {front + marks + "\n" for marks in self.marks(page)}:
                raise Stopped
            self.lines.at += 1
        self.lines.expect(last_line(machine))

    def marks(self, page):
        """The marks that a page may have, joined."""
        machine = self.machine
        backed = ["backed"] if page in machine.backed else []
        rights = [["offered"]] if machine.has_room(page) else [["offered"], ["parked"]]
        hints = [["hinted"]] if backed and not machine.covered[page] else [[], ["hinted"]]
        return ["+".join(backed + right + hint) for right in rights for hint in hints]
