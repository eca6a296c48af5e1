"""The events of guards: how keepers raise them beside blocks, and lower them (tests/orders.py). They have no program of
their own."""

from typing import NamedTuple

from run_machine import RISKY, SAFE, TOO_EARLY, Event


class Raised(Event):
    """A guard goes up: its pages belong to the heap as large ones, and have no memory and no block; nobody backs them or
    gives one there until it is lowered."""

    def __init__(self, low, high, heap):
        self.outer, self.directory, self.is_lowered = (low, high), (heap, "large"), False

    def note(self, ahead, by):
        for page in self.outer:
            ahead.raises[page] += by
            ahead.raises_by[page, self.course] += by

    def fits(self, machine):
        return all(machine.deeds.get(page) == self.directory and page not in machine.backed and not machine.lives_on[page]
                   and page not in machine.guarded for page in self.outer)

    def standing(self, machine, ahead):
        """A guard that stays up has to wait for all that happens to its pages."""
        if not any(ahead.backs[page] > ahead.backs_by[page, self.course] or ahead.raises[page] > ahead.raises_by[page, self.course] for page in self.outer):
            return SAFE
        return RISKY if self.is_lowered else TOO_EARLY

    def do(self, machine):
        machine.guarded.update(self.outer)

    def undo(self, machine, memory):
        machine.guarded.difference_update(self.outer)


class Lowered(Event):
    """A guard that is up is lowered, whether its block has ended or not."""

    def __init__(self, low, high):
        self.outer = (low, high)

    def fits(self, machine):
        return machine.guarded.issuperset(self.outer)

    def do(self, machine):
        machine.guarded.difference_update(self.outer)

    def undo(self, machine, memory):
        machine.guarded.update(self.outer)


class Guard(NamedTuple):
    """The pages beside a block that a keeper gave, and its name."""

    low: int
    high: int
    address: int
    turn: int

    @property
    def name(self):
        return self.address, self.turn

    @property
    def outer(self):
        return self.low, self.high


class Sweeps:
    """Sweeps of a keeper between which no guard goes up. Its lines tell which guards they lower, one after the other, and not which
    sweep lowers which."""

    def __init__(self, up):
        self.up, self.lowered, self.done, self.last = up, [], 0, None

    def staying(self):
        return [guard for guard in self.up if guard not in self.lowered]

    def left(self):
        return self.lowered[self.done:]


class Sweep(Event):
    """A keeper lowers those of its guards whose blocks have ended, in the order in which they went up, and no others."""

    def __init__(self, sweeps):
        self.sweeps = sweeps
        sweeps.last = self

    def note(self, ahead, by):
        for guard in self.sweeps.staying():
            ahead.standing_blocks[guard.name] += by
        for guard in self.sweeps.lowered if self is not self.sweeps.last else ():
            ahead.sweeps[guard.name] += by

    def ended(self, machine):
        """Those that are up and whose blocks have ended."""
        return [guard for guard in self.sweeps.left() if machine.ends[guard.address] > guard.turn]

    def fits(self, machine):
        """The last one leaves none of those that the lines tell."""
        left, ended = self.sweeps.left(), self.ended(machine)
        raised = sorted(ended, key=self.sweeps.up.index)
        return (ended == raised == left[:len(ended)] and (self is not self.sweeps.last or ended == left)
                and not any(machine.ends[guard.address] > guard.turn for guard in self.sweeps.staying()))

    def standing(self, machine, ahead):
        """Where another course may end a block before it, either may be first."""
        waits = (ahead.ends[guard.name] > ahead.ends_by[guard.name, self.course] for guard in self.sweeps.left())
        return RISKY if self is not self.sweeps.last and any(waits) else SAFE

    def do(self, machine):
        memory, ended = self.sweeps.done, self.ended(machine)
        for guard in ended:
            machine.guarded.difference_update(guard.outer)
        self.sweeps.done += len(ended)
        return memory

    def undo(self, machine, memory):
        for guard in self.sweeps.lowered[memory:self.sweeps.done]:
            machine.guarded.update(guard.outer)
        self.sweeps.done = memory


def outers_of(event):
    """The pages of the guards that the event may lower."""
    return [guard.outer for guard in event.sweeps.lowered] if isinstance(event, Sweep) else [event.outer] if isinstance(event, Lowered) else []
