"""The events of threads, and of keepers that serve for them: what requests, frees and flushes do (tests/orders.py). They
have no program of their own."""

from run_machine import RISKY, SAFE, TOO_EARLY, Event
from scavenger_events import Bare
from traces import GRAIN, GRAINS, PAGE, grains_on


class Deed(Event):
    """A page without a deed gets one. Nothing ever asks for a page without a deed but its own deed."""

    def __init__(self, page, directory):
        self.page, self.directory = page, directory

    def fits(self, machine):
        return 1 <= self.page <= machine.pages and self.page not in machine.deeds

    def do(self, machine):
        machine.deeds[self.page] = self.directory

    def undo(self, machine, memory):
        del machine.deeds[self.page]


class Back(Event):
    """A page with a deed that isn't backed is backed."""

    def __init__(self, page):
        self.page = page

    def note(self, ahead, by):
        ahead.backs[self.page] += by
        ahead.backs_by[self.page, self.course] += by

    def fits(self, machine):
        return self.page in machine.deeds and self.page not in machine.backed and self.page not in machine.guarded

    def standing(self, machine, ahead):
        is_guarded_later = ahead.raises[self.page] > ahead.raises_by[self.page, self.course]
        if is_guarded_later and not ahead.unbacks[self.page]:
            return TOO_EARLY
        others = is_guarded_later or ahead.backs[self.page] > ahead.backs_by[self.page, self.course]
        return RISKY if others or any(isinstance(watch, Bare) for watch in ahead.watches[self.page]) else SAFE

    def do(self, machine):
        machine.backed.add(self.page)

    def undo(self, machine, memory):
        machine.backed.discard(self.page)


class Give(Event):
    """A block of the next turn at its address, on backed pages of its directory, where no block lives."""

    def __init__(self, address, turn, room, directory):
        self.address, self.turn, self.room, self.directory = address, turn, room, directory
        self.pages = range(address // PAGE, (address + room - 1) // PAGE + 1)
        self.places = self.places_of(directory[1])
        self.end = None

    def places_of(self, kind):
        """What no other live block may have: grains, or by the first grain of a page or a slot where blocks keep to them."""
        first = self.address // GRAIN
        if kind == "large":
            return range(first, first + self.room // GRAIN, GRAINS)
        return range(first, first + (1 if kind.startswith("class") else self.room // GRAIN))

    def grains_on(self, page):
        return grains_on(self.address, self.room, page)

    def note(self, ahead, by):
        for page in self.pages:
            ahead.gives_on[page] += by
        for place in self.places if self.end else ():
            if by > 0:
                ahead.passing[place][self.course].append(self)
            else:
                ahead.passing[place][self.course].pop()

    def fits(self, machine):
        return (machine.gives[self.address] == self.turn
                and all(machine.deeds.get(page) == self.directory and page in machine.backed for page in self.pages)
                and not any(place in machine.covered for place in self.places))

    def standing(self, machine, ahead):
        """A block that doesn't end in the phase has to wait for all that can't be while it lives. Of two that end in it,
        either may be first, where neither has to live before the other ends."""
        if ahead.unborn[self.address, self.turn]:
            return TOO_EARLY
        standing = SAFE
        for other in self.rivals(ahead):
            end = self.end
            if end is None or (other.course == end.course and other.at < end.at):
                return TOO_EARLY
            standing = RISKY
        return standing

    def rivals(self, ahead):
        """What is ahead in other courses and may have to come before the block is given."""
        for page in self.pages:
            yield from (watch for watch in ahead.watches[page] if watch.bars(self))
        for place in self.places:
            for course, gives in ahead.passing[place].items() if place in ahead.passing else ():
                if course != self.course and gives and gives[-1].address != self.address and not gives[-1].outlives(self):
                    yield gives[-1]

    def outlives(self, other):
        """Whether the block surely ends only after another was given."""
        return self.end.course == other.course and self.end.at > other.at

    def do(self, machine):
        machine.gives[self.address] += 1
        machine.add(self)

    def undo(self, machine, memory):
        machine.gives[self.address] -= 1
        machine.remove(self)


class End(Event):
    """A live block ends, which has the room that its free names, if any. Of what needs it to live only a free that names
    another room and a keeper that leaves its guard up can be ahead; what needs the page empty waits for it."""

    def __init__(self, address, turn, room, epoch):
        self.address, self.turn, self.room, self.epoch = address, turn, room, epoch

    def note(self, ahead, by):
        ahead.ends[self.address, self.turn] += by
        ahead.ends_by[(self.address, self.turn), self.course] += by

    def fits(self, machine):
        block = machine.live.get(self.address)
        return block is not None and block.turn == self.turn and self.room in (None, block.room)

    def standing(self, machine, ahead):
        name = self.address, self.turn
        if ahead.differing[name] or ahead.standing_blocks[name]:
            return TOO_EARLY
        return RISKY if ahead.sweeps[name] else SAFE

    def do(self, machine):
        block = machine.live[self.address]
        memory = block, [machine.newest[page] for page in block.pages]
        machine.remove(block)
        machine.ends[self.address] += 1
        for page in block.pages:
            machine.newest[page] = max(machine.newest[page], self.epoch)
        return memory

    def undo(self, machine, memory):
        block, newest = memory
        machine.add(block)
        machine.ends[self.address] -= 1
        for page, epoch in zip(block.pages, newest):
            machine.newest[page] = epoch


class Ended(Event):
    """A free of a block that ended before."""

    def __init__(self, address, turn):
        self.address, self.turn = address, turn

    def fits(self, machine):
        return machine.ends[self.address] > self.turn


class NoBlock(Event):
    """A free of a block that wasn't given yet: no more of the address than its turn were ended, and it doesn't live."""

    def __init__(self, address, turn):
        self.address, self.turn = address, turn

    def note(self, ahead, by):
        ahead.unborn[self.address, self.turn] += by

    def fits(self, machine):
        block = machine.live.get(self.address)
        return machine.ends[self.address] <= self.turn and (block is None or block.turn != self.turn)


class SizeDiffers(Event):
    """A free that names another room than its block has, which lives on."""

    def __init__(self, address, turn, room):
        self.address, self.turn, self.room = address, turn, room

    def note(self, ahead, by):
        ahead.differing[self.address, self.turn] += by

    def fits(self, machine):
        block = machine.live.get(self.address)
        return block is not None and block.turn == self.turn and block.room != self.room


class Read(Event):
    """A flush reads the epoch."""

    def __init__(self, epoch):
        self.epoch = epoch

    def note(self, ahead, by):
        ahead.reads[self.epoch] += by

    def fits(self, machine):
        return machine.epoch == self.epoch


class Refused(Event):
    """A request finds no page without a deed that could serve; and where a page is named, it is one of the directory."""

    def __init__(self, directory, pages, page):
        self.directory, self.pages, self.page = directory, pages, page

    def fits(self, machine):
        if self.page is not None and machine.deeds.get(self.page) != self.directory:
            return False
        return not machine.has_bare_run(self.pages)


class RefusedAlone(Refused):
    """.. and nobody else acts meanwhile, so where it is for whole pages or a bit-fit one no page is in another actor's hands, and
    none could serve. What caches hold isn't told, so of other requests nothing more is asked."""

    def __init__(self, directory, pages, page, room, align):
        super().__init__(directory, pages, page)
        self.room, self.align = room, align

    def fits(self, machine):
        serves = {"large": self.has_run, "bitfit": self.has_place}.get(self.directory[1])
        return super().fits(machine) and (serves is None or (self.page is None and not serves(machine)))

    def has_run(self, machine):
        run = 0
        for page in range(1, machine.pages + 1):
            is_usable = machine.deeds.get(page, self.directory) == self.directory and not machine.lives_on[page] and page not in machine.guarded
            run = run + 1 if is_usable else 0
            if run == self.pages:
                return True
        return False

    def has_place(self, machine):
        pages = [page for page, directory in machine.deeds.items() if directory == self.directory]
        return any(has_place(machine, page, self.room, self.align) for page in pages)


def has_place(machine, page, room, align):
    """Whether a block of so many bytes, at a multiple of the alignment, could be given on the page."""
    covered = sum(machine.live[address].grains_on(page) for address in machine.lives_on[page])
    block = (1 << room // GRAIN) - 1
    return not all(covered >> offset // GRAIN & block for offset in range(0, PAGE - room + 1, align))
