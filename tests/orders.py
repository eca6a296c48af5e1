"""Looks for an order of the events of a phase, each course's in its own order, that is a run of the allocator's machine. A
course has the events of one worker, in the order in which it makes them.

As the search goes through the orders, each event that is next says whether it may come (tests/run_machine.py).
`find_order` is the search; it is used by tests/transcripts.py and has no program of its own."""

from guard_events import Raised, outers_of
from run_machine import RISKY, SAFE, Ahead
from thread_events import End, Give

MOST_CHOICES = 50_000


class Undecided(Exception):
    """The search gave up."""


class Search:
    """Goes through the orders of the events of some courses."""

    def __init__(self, machine, courses):
        self.machine, self.ahead = machine, Ahead()
        self.courses = [events for events in courses if events]
        self.places = [0] * len(self.courses)
        self.trail, self.choices, self.seen = [], [], set()
        for line, events in enumerate(self.courses):
            self.prepare(line, events)

    def prepare(self, line, events):
        """Gives each event its course and its place in it."""
        for at, event in enumerate(events):
            event.course, event.at = line, at

    def link(self):
        """Gives each block its end in the phase, and notes what is ahead, the last of each course first."""
        ends = {(event.address, event.turn): event for events in self.courses for event in events if isinstance(event, End)}
        for events in self.courses:
            for event in reversed(events):
                if isinstance(event, Give):
                    event.end = ends.get((event.address, event.turn))
                if isinstance(event, Raised):
                    event.is_lowered = any(event.outer in outers_of(other) for other in events[event.at:])
                event.note(self.ahead, 1)

    def heads(self):
        """The next event of each course that has one."""
        return [events[at] for events, at in zip(self.courses, self.places) if at < len(events)]

    def do(self, event):
        event.note(self.ahead, -1)
        self.places[event.course] += 1
        self.trail.append((event, event.do(self.machine)))

    def undo(self, length):
        while len(self.trail) > length:
            event, memory = self.trail.pop()
            event.undo(self.machine, memory)
            self.places[event.course] -= 1
            event.note(self.ahead, 1)

    def standing(self, event):
        """How an event that is next stands, or None where it doesn't fit."""
        return event.standing(self.machine, self.ahead) if event.fits(self.machine) else None

    def advance(self):
        """Does all that is safe."""
        moved = True
        while moved:
            moved = False
            for line, events in enumerate(self.courses):
                while self.places[line] < len(events) and self.standing(events[self.places[line]]) == SAFE:
                    self.do(events[self.places[line]])
                    moved = True

    def distance(self, event):
        """How soon what an event begins can be over: the choice of the nearest is tried first."""
        if not isinstance(event, Give):
            return 0
        return 1 + event.end.at - self.places[event.end.course]

    def options(self):
        """What may come next, though something ahead may mind, the best last. None where this place was seen before."""
        key = (*self.places, frozenset(self.machine.guarded))
        if key in self.seen:
            return []
        self.seen.add(key)
        if len(self.seen) > MOST_CHOICES:
            raise Undecided
        return sorted((event for event in self.heads() if self.standing(event) == RISKY), key=self.distance, reverse=True)

    def back(self):
        """Goes back to the last choice that is left, and answers what is to be done there, or None."""
        while self.choices:
            length, options = self.choices[-1]
            if options:
                self.undo(length)
                return options.pop()
            self.choices.pop()
        return None

    def run(self):
        """None where there is an order, which the machine has then gone; otherwise the events that couldn't come, where the
        search first got stuck."""
        self.link()
        stuck = None
        while True:
            self.advance()
            if not (heads := self.heads()):
                return None
            self.choices.append((len(self.trail), self.options()))
            stuck = stuck or heads
            event = self.back()
            if event is None:
                return stuck
            self.do(event)


def find_order(machine, courses):
    """Looks for an order of the courses that is a run of the machine. Where there is one, the machine goes it, and the
    answer is None; otherwise the answer has events, of each course the next one, of a place from which there is no way on."""
    return Search(machine, courses).run()
