"""Transcripts for the tests of the page map, and a second reading of them that is plain and slow: the pages and the totals after any line."""

from collections import defaultdict

PAGE = 4096
REFUSALS, WRONG_FREES = ("no-space", "held", "skipped"), ("ended", "no-block", "size-differs", "outside", "unaligned")
# How a page stands: 0 without a deed, 1 without memory so far, 2 where it went back, 3 beside a guarded block, 4 empty, and then how many sixteenths
# are full, rounded up.
NO_DEED, NO_MEMORY, WENT_BACK, GUARD, EMPTY = range(5)


def waves(rng):
    """Requests of all kinds that come and go in five waves of two threads, on a region that is too small for the highest; after each, ticks and
    passes. Some frees are wrong."""
    lines, live, name, epoch = ["pas 1 pages 220 threads 2 heaps 3 age 2", "# heap 0: the first of three", "shared 2"], [], 0, 0
    for height in (60, 420, 200, 900, 120):
        for _ in range(height):
            name += 1
            size = rng.choice([24, 48, 64, 100, 200, 320, 512, 512, 700, 900, 1500, 2000, 5000, 9000])
            lines.append(f"a {1 + name % 2} {name} {rng.randrange(2) if size > 512 else rng.randrange(3)} {size} {16 << (name % 3)}")
            live.append(name)
        lines.append("phase")
        rng.shuffle(live)
        while len(live) > height // 9:
            lines.append(f"f {1 + len(live) % 2} {live.pop()}")
        lines += ["r 1 0x00001000 0", "r 2 0x00001000 99", "r 1 0x00000010 0", "r 2 0x00001008 0", "stop 1", "stop 2"]
        for _ in range(3):
            epoch += 1
            lines += [f"tick {epoch}", "pass"]
        lines.append("phase")
    return "\n".join(lines) + "\n"


def guarded(rng):
    """Blocks of many sizes of two threads, each third of whole pages guarded, on a region in which not each guard finds its place; they come and go,
    move, and their memory goes back."""
    lines = ["pas 4 pages 120 threads 2 heaps 3 age 1", "guard 3", "# heap 0: 170 requests, main (queue.c:9)", "# heap 2: 90 requests, \u00fcber.so+0x13d5"]
    live, name, epoch = [], 0, 0
    for _ in range(4):
        for _ in range(70):
            name += 1
            lines.append(f"a {1 + name % 2} {name} {rng.choice([0, 0, 2])} {rng.choice([24, 100, 600, 1500, 3000, 5000, 9000, 12000])} 16")
            live.append(name)
        lines.append("phase")
        rng.shuffle(live)
        for at in range(0, len(live), 9):
            name += 1
            lines.append(f"m {1 + at % 2} {name} {live[at]} {rng.choice([16, 90, 700, 4096, 9001])} 16")
            live[at] = name
        lines.append("phase")
        while len(live) > 15:
            lines.append(f"f {1 + len(live) % 2} {live.pop()}")
        lines += ["flush 1", "flush 2", "stop 1"]
        for _ in range(2):
            epoch += 1
            lines += [f"tick {epoch}", "pass"]
        lines.append("phase")
    return "\n".join(lines) + "\n"


def many(rng, operations):
    """A trace of one thread that keeps a few thousand blocks of all sizes, for a transcript that is long and pages that change often."""
    lines, live, sizes = ["pas 3 pages 16384 threads 1 heaps 4 age 2"], [], [16, 40, 130, 300, 512, 900, 2000, 3000, 4000, 4096]
    most = operations // 33
    for number in range(1, operations + 1):
        if len(live) < most and (not live or rng.random() < 0.54):
            lines.append(f"a 1 {number} {number & 3} {rng.choice(sizes)} 16")
            live.append(number)
        else:
            at = rng.randrange(len(live))
            live[at], live[-1] = live[-1], live[at]
            lines.append(f"f 1 {live.pop()}")
    return "\n".join(lines) + "\n"


def one_block(times, pages=16384):
    """A block that comes and goes so often, on a region of most pages."""
    lines = [f"a 1 {name} 0 100 16\nf 1 {name}\nflush 1" for name in range(1, times + 1)]
    return "\n".join([f"pas 3 pages {pages} threads 1 heaps 1 age 2", *lines]) + "\n"


# A transcript of `run` in which a block ends before it is given, and its page is given before it has a deed, by the order of its lines.
EARLY = """pas 1 pages 2 threads 3 heaps 2 age 2
a 2 1 1 24 16
a 3 2 1 24 16
r 1 0x00001020 0
flush 1
""", """1 freed 0x00001020 turn 0 epoch 0
2 back page 1
2 give 0x00001020 turn 0 room 32 heap 1
3 deed page 1 heap 1 class 32
3 give 0x00001000 turn 0 room 32 heap 1
close
report
page 1 heap 1 class 32 live 1 free 254 stamp 0 marks backed+offered
total deeds 1 backed 1 live 1 given 2 ended 1
"""


# Lines of version 4: a block that is kept for another size, one that moves, and two moves that are refused.
MOVES = """pas 4 pages 2 threads 1 heaps 1 age 2
a 1 1 0 24 16
m 1 2 1 32 16
m 1 3 2 33 16
m 1 4 3 64 16
m 1 5 4 16 16
f 1 3
""", """1 deed page 1 heap 0 class 32
1 back page 1
1 give 0x00001000 turn 0 room 32 heap 0
1 kept 0x00001000 turn 0 name 2
1 deed page 2 heap 0 class 48
1 back page 2
1 give 0x00002000 turn 0 room 48 heap 0
1 no-space name 4
1 skipped name 5
close
1 freed 0x00001000 turn 0 epoch 0
1 freed 0x00002000 turn 0 epoch 0
report
page 1 heap 0 class 32 live 0 free 256 stamp 0 marks backed+offered+hinted
page 2 heap 0 class 48 live 0 free 256 stamp 0 marks backed+offered+hinted
total deeds 2 backed 2 live 0 given 2 ended 2
"""


class Reading:
    """The region after the lines of a transcript of `order` that were read so far."""

    def __init__(self, trace):
        lines = [line.split() for line in trace.splitlines()]
        self.threads, self.blocks, self.events, self.guards, self.raised = int(lines[0][5]), {}, defaultdict(list), set(), 0
        self.heap_of, self.requests, self.due, every, whole = {}, defaultdict(list), 0, 0, defaultdict(int)
        for words in lines[1:]:
            if words[:1] == ["guard"]:
                every = int(words[1])
            elif words[:1] in (["a"], ["m"]):
                self.requests[int(words[1])].append((words[2], int(words[4])))
                if words[0] == "a" and int(words[4]) > 2048:
                    whole[words[1]] += 1
                    self.due += every > 0 and whole[words[1]] % every == 0

    def next_of(self, actor):
        return self.requests[actor if actor <= self.threads else actor - self.threads]

    def read(self, line):
        words = line.split()
        what = words[1] if len(words) > 1 else ""
        if what in ("deed", "back", "unback"):
            self.events[int(words[3])].append(what)
            if what == "deed":
                self.heap_of[int(words[3])] = int(words[5])
        elif what == "give":
            self.blocks[words[2], words[4]] = int(words[2], 16), int(words[6]), self.next_of(int(words[0])).pop(0)[1], int(words[8])
        elif what == "freed":
            del self.blocks[words[2], words[4]]
        elif what == "kept":
            size = self.next_of(int(words[0])).pop(0)[1]
            if (words[2], words[4]) in self.blocks:
                address, room, _, heap = self.blocks[words[2], words[4]]
                self.blocks[words[2], words[4]] = address, room, size, heap
        elif what in ("no-space", "held") or what == "skipped" and self.next_of(int(words[0]))[:1] and self.next_of(int(words[0]))[0][0] == words[3]:
            self.next_of(int(words[0])).pop(0)
        elif what == "guarded":
            self.guards |= {int(words[2]), int(words[3])}
            self.raised += 1
        elif what == "lowered":
            self.guards -= {int(words[2]), int(words[3])}

    def backed(self):
        return [page for page, events in self.events.items() if events[-1] == "back"]

    def totals(self):
        """The bytes of pages with memory, of rooms, and those that were asked for."""
        return PAGE * len(self.backed()), sum(block[1] for block in self.blocks.values()), sum(block[2] for block in self.blocks.values())

    def state(self, page):
        live = sum(min(room, PAGE) for address, room, _, _ in self.blocks.values() if address // PAGE <= page < address // PAGE + max(1, room // PAGE))
        events = self.events.get(page, [])
        if "deed" not in events:
            return NO_DEED
        if page in self.guards:
            return GUARD
        if events[-1] != "back":
            return WENT_BACK if "back" in events else NO_MEMORY
        return EMPTY + min(16, -(-live * 16 // PAGE))

    def heaps(self):
        """Of each heap with pages: its number, pages with memory, bytes in blocks, bytes asked for, and blocks."""
        backed = self.backed()
        return [[heap, sum(self.heap_of[page] == heap for page in backed), sum(block[1] for block in self.blocks.values() if block[3] == heap),
                 sum(block[2] for block in self.blocks.values() if block[3] == heap), sum(block[3] == heap for block in self.blocks.values())]
                for heap in sorted(set(self.heap_of.values()))]
