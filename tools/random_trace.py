"""Random traces, of which tests/random_orders.xz has what `pas order` writes: the same seed gives the same trace
everywhere."""

from __future__ import annotations

import random

PAGE = 4096
CLASSES = [16, 32, 48, 64, 80, 96, 112, 128, 160, 192, 224, 256, 320, 384, 448, 512, 640, 768, 896, 1024]

# What comes how often in a trace of this sort; a sort that isn't named is as the first one.
ACTS = ("request", "free", "raw", "flush", "stop", "tick", "pass", "idle", "phase")
SORTS = {
    "even": (40, 22, 5, 8, 4, 4, 5, 3, 4),
    "requests": (70, 14, 2, 6, 3, 1, 2, 1, 2),
    "frees": (34, 34, 8, 12, 4, 2, 3, 1, 3),
    "scavenger": (26, 22, 2, 10, 6, 12, 16, 6, 6),
    "threads": (36, 24, 3, 8, 8, 6, 6, 14, 16),
    "ranges": (40, 30, 0, 14, 6, 1, 2, 10, 8),
    "guards": (30, 30, 2, 14, 4, 4, 6, 2, 6),
}
# The sorts that most seeds choose from, and how often each comes.
CHANCES = {"even": 4, "requests": 4, "frees": 4, "scavenger": 4, "threads": 4, "log": 1, "caches": 1, "drain": 6,
           "kept": 6}

# Sizes of requests: of a class or near one, up to version 2 and from version 3 on; of no class; of whole pages.
SMALL = (0, 1, 16, 24, 48, 100, 128, 200, 256, 300, 320, 400, 448, 500, 512, 512)
SMALL_OF_MORE = (0, 1, 16, 24, 100, 256, 512, 513, 640, 700, 768, 896, 1000, 1024)
BITFIT = (513, 600, 800, 1000, 1024, 1500, 2000, 2048)
LARGE = (2049, 4096, 4096, 5000, 8192, 12000, 16384)


class Trace:
    """The random trace of a seed. Each is of some sort, which says what comes often in it.

    Seeds up to 1,000 give traces of the first version of the format, those up to 2,000 such of whole pages, those up to
    3,000 the second and third version, and later ones the fourth: up to 4,000 with guards, and then with many
    reallocations."""

    def __init__(self, seed: int) -> None:
        self.dice = dice = random.Random(seed)
        self.sort = self.sort_of(seed)
        self.pages = dice.choices((1, 2, 3, 4, 5, 8, 12, 16), (8, 10, 8, 8, 4, 2, 1, 1))[0]
        self.threads = dice.choice((1, 1, 2, 2, 3, 4))
        self.heaps = dice.choice((1, 1, 2, 3))
        self.fit_sort()
        self.version = 4 if seed > 3000 else dice.choice((2, 3)) if seed > 2000 else 1
        self.lines = [f"pas {self.version} pages {self.pages} threads {self.threads} heaps {self.heaps} "
                      f"age {dice.choice((1, 1, 2, 3))}"]
        shares = {"caches": 1.0, "kept": 0.2}.get(self.sort, dice.choice((0.0, 0.3, 0.6)))
        self.lines += [f"shared {heap}" for heap in range(self.heaps) if dice.random() < shares]
        if self.sort == "guards":
            self.lines.append(f"guard {dice.choice((1, 2, 2, 2, 3))}")
        self.names = self.epoch = 0
        self.sizes: dict[int, tuple[int, int]] = {}  # size and alignment of each name
        self.old: list[int] = []                     # names of earlier phases
        self.freed: set[int] = set()
        self.own: dict[int, list[int]] = {k: [] for k in range(1, self.threads + 1)}
        self.fill()

    def sort_of(self, seed: int) -> str:
        if seed > 3000:
            return "moves" if seed > 4000 else "guards"
        return "ranges" if 1000 < seed <= 2000 else self.dice.choices(list(CHANCES), list(CHANCES.values()))[0]

    def fit_sort(self) -> None:
        """Pages, threads and heaps with which what the sort is for can come."""
        choice = self.dice.choice
        if self.sort == "caches":
            self.pages, self.heaps = max(self.pages, 6), 3
        if self.sort == "kept":
            self.pages, self.threads = min(self.pages, 3), max(self.threads, 2)
        if self.sort == "ranges":
            self.pages, self.heaps, self.threads = choice((8, 10, 12, 16)), choice((1, 1, 1, 2)), 2
        if self.sort == "guards":
            self.pages, self.heaps, self.threads = choice((5, 6, 7, 8, 10)), choice((1, 1, 1, 2)), choice((1, 1, 2, 3))
        if self.sort == "moves":
            self.pages = choice((4, 5, 6, 8))

    def text(self) -> str:
        return "\n".join(self.lines) + "\n"

    # ---- what a trace has

    def fill(self) -> None:
        """What the sort begins with, and then operations by its weights."""
        begin = {"log": self.fill_log, "caches": self.fill_caches, "drain": self.fill_drained, "kept": self.fill_kept,
                 "ranges": self.fill_ranges, "guards": self.fill_guards, "moves": self.fill_moves}.get(self.sort)
        if begin:
            begin()
        many = self.dice.randint(2, 6) if begin else self.dice.randint(6, 28)
        self.operate(self.dice.choices(ACTS, SORTS.get(self.sort, SORTS["even"]), k=many))

    def operate(self, acts: list[str]) -> None:
        does = {"request": self.request, "free": self.free, "raw": self.raw, "flush": self.flush, "stop": self.stop,
                "tick": self.tick, "pass": self.make_pass, "idle": self.idle, "phase": self.phase, "whole": self.whole,
                "small": self.small, "move": self.move, "lag": self.lag, "rest": self.rest}
        for act in acts:
            does[act]()

    def fill_log(self) -> None:
        """More frees than a log has room for."""
        k = self.thread()
        for _ in range(3):
            self.ask(k, self.heap(), self.dice.choice((16, 512, 700)), 16)
        for _ in range(self.dice.randint(64, 67)):
            self.lines.append(f"f {k} {self.dice.choice(self.own[k])}")

    def fill_caches(self) -> None:
        """More local allocators than a cache has room for."""
        k = self.thread()
        pairs = [(heap, size) for heap in range(self.heaps) for size in CLASSES[:16]]
        self.dice.shuffle(pairs)
        for heap, size in pairs[: self.dice.randint(30, 38)]:
            self.ask(k, heap, size, 16)

    def fill_drained(self) -> None:
        """Blocks that all end, with ticks and passes behind them, again and again."""
        for _ in range(self.dice.randint(2, 4)):
            k, first = self.thread(), self.names + 1
            for _ in range(self.dice.randint(1, 4)):
                self.ask(k, self.heap(), self.size(), 16)
            for name in range(first, self.names + self.dice.choice((0, 1, 1, 1))):
                self.lines.append(f"f {k} {name}")
            self.lines.append(f"{self.dice.choice(('flush', 'stop', 'stop'))} {k}")
            self.operate(self.dice.choices(("tick", "pass", "request"), (5, 5, 1), k=self.dice.randint(2, 6)))

    def fill_kept(self) -> None:
        """Pages whose slots a thread has all used, and which others ask for."""
        k, size, first = self.thread(), self.dice.choice((320, 384, 448, 512)), self.names + 1
        for _ in range(self.dice.choice((1, 2)) * (PAGE // size) - self.dice.choice((0, 0, 1))):
            self.ask(k, 0, size, 16)
        for name in range(first, self.names + self.dice.choice((0, 1, 1))):
            self.lines.append(f"f {k} {name}")
        self.lines.append(f"flush {k}")
        for act in self.dice.choices(("tick", "pass", "like", "flush"), (3, 5, 4, 1), k=self.dice.randint(3, 9)):
            if act == "like":
                self.ask(self.thread(), 0, size, 16)
            else:
                self.operate([act])

    def fill_ranges(self) -> None:
        """Blocks of whole pages that end and are asked for again, some of them ended by an idle stop, and small blocks
        between them."""
        acts, weights = ("whole", "small", "free", "flush", "lag"), (20, 6, 30, 20, 14)
        self.operate(self.dice.choices(acts, weights, k=self.dice.randint(12, 20)))

    def fill_guards(self) -> None:
        """Blocks of whole pages, some of them guarded, that end and get other sizes, and pages that lose their memory
        between them."""
        acts, weights = ("whole", "small", "free", "flush", "move", "rest"), (40, 2, 30, 26, 4, 5)
        self.operate(self.dice.choices(acts, weights, k=self.dice.randint(12, 20)))

    def fill_moves(self) -> None:
        """Blocks that get other sizes or the same once more, also such that ended, and names that stand for nothing."""
        acts, weights = ("request", "move", "free", "flush", "stop", "rest", "phase"), (30, 44, 10, 6, 3, 4, 3)
        self.operate(self.dice.choices(acts, weights, k=self.dice.randint(14, 26)))

    # ---- operations

    def thread(self) -> int:
        return self.dice.randint(1, self.threads)

    def heap(self) -> int:
        return self.dice.randrange(self.heaps)

    def ask(self, k: int, heap: int, size: int, align: int) -> None:
        self.names += 1
        self.sizes[self.names] = (size, align)
        self.own[k].append(self.names)
        self.lines.append(f"a {k} {self.names} {heap} {size} {align}")

    def size(self) -> int:
        dice = self.dice
        sort = dice.random()
        if sort < 0.55:
            return dice.choice(SMALL_OF_MORE if self.version >= 3 else SMALL)
        return dice.choice(BITFIT) if sort < 0.8 else min(dice.choice(LARGE), PAGE * self.pages)

    def request(self) -> None:
        align = self.dice.choice((16, 16, 16, 16, 32, 64, 128, 256, 1024, 2048, 4096))
        self.ask(self.thread(), self.heap(), self.size(), align)

    def whole(self) -> None:
        sizes = (1, 1, 1, 2, 2, 3) if self.sort == "ranges" else (1, 1, 1, 2)
        self.ask(self.thread(), self.heap(), PAGE * self.dice.choice(sizes), 16)

    def small(self) -> None:
        self.ask(self.thread(), self.heap(), self.dice.choice((16, 600)), 16)

    def move(self) -> None:
        """Another size for a block of an earlier request."""
        k = self.thread()
        if names := self.own[k] + self.old:
            size, align, old = self.moved(names)
            self.names += 1
            self.sizes[self.names] = (size, align)
            self.lines.append(f"m {k} {self.names} {old} {size} {align}")
            self.own[k].append(self.names)

    def moved(self, names: list[int]) -> tuple[int, int, int]:
        """A size and an alignment, and the name of which the block is to get them."""
        if self.sort == "guards":
            return self.dice.choice((16, 3000, 4096, 8192)), 16, self.dice.choice(names)
        old = self.dice.choice(names)
        if self.dice.random() < 0.3:
            return *self.sizes[old], old
        return self.size(), self.dice.choice((16, 16, 16, 64, 256)), old

    def lag(self) -> None:
        """Some frees of one thread, and a phase in which it is idle and stopped, while another one ends blocks and asks
        for pages."""
        k, other = self.dice.sample(sorted(self.own), 2)
        sizes = [PAGE * self.dice.choice((1, 1, 2)) for _ in range(3)]
        for n, size in enumerate(sizes):
            self.ask(k if n == 0 else other, 0, size, 16)
        self.lines.append(f"f {k} {self.names - 2}")
        self.phase()
        self.lines.append("idle 0")
        for name in self.dice.sample((self.names - 1, self.names), self.dice.randint(1, 2)):
            self.lines.append(f"f {other} {name}")
        self.lines.append(f"flush {other}")
        for _ in range(self.dice.randint(1, 4)):
            self.ask(other, 0, PAGE * self.dice.choice((1, 1, 2)), 16)
        self.phase()

    def free(self) -> None:
        k = self.thread()
        names = self.own[k] + self.old
        live = [name for name in names if name not in self.freed]
        if names:
            name = self.dice.choice(live if live and self.dice.random() < 0.8 else names)
            self.freed.add(name)
            self.free_named(k, name)

    def free_named(self, k: int, name: int) -> None:
        """From the second version on, most frees name a size and an alignment: mostly those that were asked for."""
        if self.version == 1 or self.dice.random() < 0.3:
            self.lines.append(f"f {k} {name}")
        else:
            size, align = self.sizes[name] if self.dice.random() < 0.7 else (self.size(), 16)
            self.lines.append(f"fs {k} {name} {size} {align}")

    def raw(self) -> None:
        """A free by an address, mostly of a place where blocks begin."""
        dice = self.dice
        page = dice.randint(0, self.pages + 1) if dice.random() < 0.3 else dice.randint(1, min(self.pages, 3))
        grain = dice.choice((0, 0, 0, 32, 64, 128, dice.randrange(256)))
        address = PAGE * page + 16 * grain + dice.choice((0, 0, 0, 0, 0, 8))
        what = f"{self.thread()} 0x{address:08x} {dice.choice((0, 0, 0, 1, 2))}"
        plain = self.version == 1 or dice.random() < 0.3
        self.lines.append(f"r {what}" if plain else f"rs {what} {self.size()} 16")

    def flush(self) -> None:
        self.lines.append(f"flush {self.thread()}")

    def stop(self) -> None:
        self.lines.append(f"stop {self.thread()}")

    def tick(self) -> None:
        self.epoch = max(self.epoch + self.dice.choice((-1, 1, 1, 2, 3)), 0)
        self.lines.append(f"tick {self.epoch}")

    def make_pass(self) -> None:
        self.lines.append("pass")

    def rest(self) -> None:
        """Some epochs, and a pass that finds pages old enough."""
        self.epoch += 3
        self.lines += [f"tick {self.epoch}", "pass"]

    def idle(self) -> None:
        self.lines.append(f"idle {self.dice.choice((0, 0, 1, 2))}")

    def phase(self) -> None:
        self.lines.append("phase")
        for names in self.own.values():
            self.old.extend(names)
            names.clear()
