"""The events of the scavenger: ticks, and what its passes see and do (tests/orders.py). They have no program of their
own."""

from run_machine import RISKY, SAFE, TOO_EARLY, Event


class Tick(Event):
    """The epoch rises, or stays. Whoever reads the old one has to read it before."""

    def __init__(self, epoch):
        self.epoch = epoch

    def fits(self, machine):
        return self.epoch >= machine.epoch

    def standing(self, machine, ahead):
        return TOO_EARLY if self.epoch > machine.epoch and ahead.reads[machine.epoch] else SAFE

    def do(self, machine):
        memory, machine.epoch = machine.epoch, self.epoch
        return memory

    def undo(self, machine, memory):
        machine.epoch = memory


class Watch(Event):
    """The scavenger sees that no block, or none of some, lives on a page."""

    def note(self, ahead, by):
        if by > 0:
            ahead.watches[self.page].append(self)
        else:
            ahead.watches[self.page].pop()

    def bars(self, give):
        return True


class Bare(Watch):
    """A page with a deed that isn't backed."""

    def __init__(self, page):
        self.page = page

    def fits(self, machine):
        return self.page in machine.deeds and self.page not in machine.backed


class Young(Watch):
    """A backed page without a live block, and with this newest end, which isn't old enough."""

    def __init__(self, page, stamp, epoch):
        self.page, self.stamp, self.epoch = page, stamp, epoch

    def fits(self, machine):
        return (self.page in machine.backed and not machine.lives_on[self.page] and machine.newest[self.page] == self.stamp
                and self.epoch < self.stamp + machine.age)


class Unback(Watch):
    """A backed page without a live block, all of whose ends are old enough, is no longer backed."""

    def __init__(self, page, epoch):
        self.page, self.epoch = page, epoch

    def fits(self, machine):
        return (self.page in machine.backed and not machine.lives_on[self.page]
                and self.epoch >= machine.newest[self.page] + machine.age)

    def note(self, ahead, by):
        super().note(ahead, by)
        ahead.unbacks[self.page] += by

    def standing(self, machine, ahead):
        if not ahead.gives_on[self.page]:
            return SAFE
        return RISKY if ahead.backs[self.page] else TOO_EARLY

    def do(self, machine):
        machine.backed.discard(self.page)

    def undo(self, machine, memory):
        machine.backed.add(self.page)


class InUse(Watch):
    """No grain that was read as free is of a live block."""

    def __init__(self, page, word, value):
        self.page, self.free = page, value << 64 * word

    def bars(self, give):
        return bool(give.grains_on(self.page) & self.free)

    def fits(self, machine):
        return self.page in machine.deeds and not any(self.bars(machine.live[at]) for at in machine.lives_on[self.page])


class NotOffered(Event):
    """The page has a deed."""

    def __init__(self, page):
        self.page = page

    def fits(self, machine):
        return self.page in machine.deeds
