"""What a run of the allocator's machine has come to, and what an event of it is, as tests/orders.py looks for an order of
events: an event says when it may come next (`fits`), what it does to the machine (`do`, `undo`), and whether what is still
ahead lets it come now (`standing`). It has no program of its own."""

from collections import Counter, defaultdict

# Whether an event that fits should come now: nothing that is ahead can mind it; something may; something surely does.
SAFE, RISKY, TOO_EARLY = range(3)


class Machine:
    """What a run of events has come to: deeds, backed pages, live blocks, gives and ends by address, epochs."""

    def __init__(self, pages, age):
        self.pages, self.age, self.epoch = pages, age, 0
        self.deeds, self.backed = {}, set()
        self.live, self.covered, self.lives_on = {}, {}, defaultdict(set)
        self.gives, self.ends, self.newest = Counter(), Counter(), Counter()
        self.guarded = set()

    def add(self, give):
        """A block lives from now on."""
        self.live[give.address] = give
        self.covered.update(dict.fromkeys(give.places, give.address))
        for page in give.pages:
            self.lives_on[page].add(give.address)

    def remove(self, give):
        """A block lives no longer."""
        del self.live[give.address]
        for place in give.places:
            del self.covered[place]
        for page in give.pages:
            self.lives_on[page].discard(give.address)

    def has_bare_run(self, length):
        """Whether so many pages in a row are without a deed."""
        run = 0
        for page in range(1, self.pages + 1) if len(self.deeds) < self.pages else ():
            run = 0 if page in self.deeds else run + 1
            if run == length:
                return True
        return False


class Ahead:
    """What of a phase is still to come, as far as another course's event may have to wait for it."""

    def __init__(self):
        self.reads, self.unborn, self.differing = Counter(), Counter(), Counter()
        self.backs, self.backs_by, self.gives_on = Counter(), Counter(), Counter()
        self.raises, self.raises_by, self.unbacks, self.standing_blocks = Counter(), Counter(), Counter(), Counter()
        self.ends, self.ends_by, self.sweeps = Counter(), Counter(), Counter()
        self.watches = defaultdict(list)
        self.passing = defaultdict(lambda: defaultdict(list))


class Event:
    """An event that changes nothing, so it is safe wherever it fits."""

    course = at = None

    def note(self, ahead, by):
        """Counts the event among what is ahead (1), or takes it out (-1). What is noted first is taken out last."""

    def fits(self, machine):
        return True

    def standing(self, machine, ahead):
        return SAFE

    def do(self, machine):
        """Answers what `undo` needs."""

    def undo(self, machine, memory):
        pass
