"""What the actors of a transcript of `pas run` were asked and answered, each by its own lines, for tests/transcripts.py. It
has no program of its own."""

from guard_events import Guard, Lowered, Raised, Sweep, Sweeps
from run_lines import OUTCOMES, Wrong
from scavenger_events import Bare, InUse, NotOffered, Tick, Unback, Young
from thread_events import Back, Deed, End, Ended, Give, NoBlock, Read, Refused, RefusedAlone, SizeDiffers
from traces import CHORES, GRAIN, MOST_LOGGED, PAGE, Block, Logged

ENDS = {"freed": End, "ended": Ended, "no-block": NoBlock, "size-differs": SizeDiffers}


class Accounts:
    """What the actors were asked and answered so far, each by its own lines; these become events."""

    def __init__(self, trace):
        self.trace = trace
        self.named = {}
        self.logs = {thread: [] for thread in range(1, trace.threads + 1)}
        self.since = dict.fromkeys(self.logs, 0)
        self.epoch = 0
        self.guarded = trace.guarded
        self.up = {thread: [] for thread in self.logs}
        self.is_alone, self.hinted, self.sweeps = False, set(), {}

    def phase(self, phase, lines, machine):
        """The events of each course of a phase, before which the machine stands so."""
        operations, acting = self.trace.phases[phase], self.trace.acting(phase)
        self.is_alone, self.hinted = len(acting) == 1, empty_pages(machine)
        self.since.update(dict.fromkeys(acting - {0}, self.epoch))
        idle = [thread for thread in self.logs if thread not in acting]
        self.sweeps = dict.fromkeys(self.logs)
        courses = [self.scavenged([each for each in operations if each[0] in CHORES], idle, lines)]
        for thread in sorted(acting - {0}):
            course = []
            for operation in operations:
                if operation[0] not in CHORES and operation[1] == thread:
                    if operation[0] == "a" and operation[2] in self.guarded:
                        course += self.tried(thread, operation[2:], lines[self.trace.threads + thread])
                        if operation[2] in self.named:
                            continue
                    course += self.answered(operation, lines[thread])
            courses.append(course)
        for actor, rest in enumerate(lines):
            rest.end(f"nothing that actor {actor} does in phase {phase + 1} says this")
        return courses

    def answered(self, operation, lines):
        """The events of one operation of a thread."""
        word, thread, *values = operation
        if word == "a":
            return self.requested(self.trace.wanted(*values), lines)
        if word in ("f", "fs"):
            name, *sizing = values
            if self.named[name] is None:
                lines.take_exactly(f"name {name} has no block", "skipped", name)
                return []
            return self.freed(thread, *self.named[name][:2], sizing, lines)
        if word == "m":
            return self.reallocated(thread, *values, lines)
        if word in ("r", "rs"):
            address, turn, *sizing = values
            return self.freed(thread, address, turn, sizing, lines)
        return self.flushed(thread, lines)

    def lowered(self, thread, lines):
        """A keeper lowers all its guards, in the order in which they went up."""
        for guard in self.up[thread]:
            lines.take_exactly(f"the keeper of thread {thread} leaves a guard up", "lowered", *guard.outer)
        return [Lowered(*guard.outer) for guard in self.up[thread]]

    def tried(self, thread, values, lines):
        """What a keeper does for a guarded request: guards are lowered; then deeds and backs, a block between two pages and
        the line that says so, or deeds alone. The guard stands from before the first back on. Where no guard goes up, lines of
        the next tries are taken for those of this one: which sweep lowers what is looked for, and deeds may come early."""
        wanted = self.trace.wanted(*values)
        self.sweeps[thread] = self.sweeps[thread] or Sweeps(list(self.up[thread]))
        events = [Sweep(self.sweeps[thread])]
        is_raised = any(line.word == "guarded" and line.values[2] == wanted.name for line in lines.lines[lines.at:])
        while lines.peek() in (["lowered"] if is_raised else ["lowered", "deed"]):
            line = lines.lines[lines.at]
            guard = next((guard for guard in self.up[thread] if line.word == "lowered" and guard.outer == line.values), None)
            if guard:
                self.up[thread].remove(guard)
                self.sweeps[thread].lowered.append(guard)
            elif line.word == "deed" and line.values[1:] == wanted.directory:
                events.append(Deed(line.values[0], wanted.directory))
            else:
                break
            lines.at += 1
        if not is_raised:
            return events
        self.sweeps[thread] = None
        made = self.requested(wanted, lines)
        if not isinstance(made[-1], Give):
            raise Wrong(f"no block of the keeper for name {wanted.name}")
        give = made[-1]
        low, high = give.pages[0] - 1, give.pages[-1] + 1
        lines.take_exactly(f"the block of name {wanted.name} stands between pages {low} and {high}", "guarded", low, high, wanted.name)
        self.up[thread].append(Guard(low, high, give.address, give.turn))
        deeds = [event for event in made if isinstance(event, Deed)]
        return events + deeds + [Raised(low, high, wanted.directory[0])] + made[len(deeds):]

    def reallocated(self, thread, name, old, size, align, lines):
        """A block that suits is kept; for another one its heap is asked, and where that gives one the old one is freed then, as any
        free is. A block that was refused has no other size."""
        block = self.named[old]
        if block is None or (max(size, 1) <= block.room and block.address % align == 0):
            said = ("skipped", name) if block is None else ("kept", block.address, block.turn, name)
            lines.take_exactly(f"the reallocation of name {old} asks for nothing", *said)
            self.named[name] = block
            return []
        events = self.requested(self.trace.wanted(name, block.heap, size, align), lines)
        return events + (self.freed(thread, *block[:2], [], lines) if self.named[name] else [])

    def requested(self, wanted, lines):
        """The deeds and backs of a request, and then its block or its refusal."""
        made = []
        while lines.peek() in ("deed", "back"):
            made.append(lines.take("", "deed", "back"))
        line = lines.take(f"no answer to the request of name {wanted.name}", "give", "held", "no-space")
        deeds = [each.values[0] for each in made if each.word == "deed"]
        backs = [each.values[0] for each in made if each.word == "back"]
        for each in made:
            if each.word == "deed" and each.values[1:] != wanted.directory:
                raise Wrong(f"not for the request of name {wanted.name}: {each.text}")
        if [each.word for each in made] != ["deed"] * len(deeds) + ["back"] * len(backs):
            raise Wrong(f"a deed after a back in the request of name {wanted.name}")
        events = [Deed(page, wanted.directory) for page in deeds] + [Back(page) for page in backs]
        return events + [self.given(wanted, line, deeds, backs) if line.word == "give" else self.refused(wanted, line, deeds, backs)]

    def given(self, wanted, line, deeds, backs):
        """A block of the right room and heap at a place of its route. A small request makes a deed only of the block's page; all
        back only pages of the block, and the deeds and backs of a large one rise."""
        address, turn, room, heap = line.values
        if (room, heap) != (wanted.room, wanted.directory[0]) or not wanted.is_placed(address):
            raise Wrong(f"no block for the request of name {wanted.name}: {line.text}")
        give = Give(address, turn, room, wanted.directory)
        if address < PAGE or give.pages[-1] > self.trace.pages:
            raise Wrong(f"outside the region: {line.text}")
        is_large = wanted.directory[1] == "large"
        if not are_rising(deeds) or not are_rising(backs) or not set(backs if is_large else deeds + backs) <= set(give.pages):
            raise Wrong(f"no pages for the request of name {wanted.name}: deeds {deeds}, backs {backs}, {line.text}")
        self.named[wanted.name] = Block(address, turn, room, heap)
        return give

    def refused(self, wanted, line, deeds, backs):
        """A refusal, before which a small request makes nothing, and a large one at most deeds."""
        *page, name = line.values
        is_large = wanted.directory[1] == "large"
        if name != wanted.name or backs or not are_rising(deeds) or (deeds and not is_large):
            raise Wrong(f"no refusal of the request of name {wanted.name}: deeds {deeds}, backs {backs}, {line.text}")
        self.named[wanted.name] = None
        pages, held = wanted.room // PAGE if is_large else 1, page[0] if page else None
        return RefusedAlone(wanted.directory, pages, held, wanted.room, wanted.step) if self.is_alone else Refused(wanted.directory, pages, held)

    def freed(self, thread, address, turn, sizing, lines):
        """A free is refused at once, or logged, with the room of the size and alignment that it names, if any; a full log is
        flushed before."""
        if not PAGE <= address < PAGE * (self.trace.pages + 1):
            lines.take_exactly("a free outside the region", "outside", address, turn)
            return []
        if address % GRAIN:
            lines.take_exactly("an unaligned free", "unaligned", address, turn)
            return []
        events = self.flushed(thread, lines) if len(self.logs[thread]) == MOST_LOGGED else []
        self.logs[thread].append(Logged(address, turn, self.trace.room(*sizing) if sizing else None))
        return events

    def flushed(self, thread, lines):
        """The log's names in order, each ended or refused. The epoch is read once and before; it is told where one ended."""
        events, epochs = [], set()
        for logged in self.logs[thread]:
            free = f"the free of {logged.address:#010x} turn {logged.turn}"
            line = lines.take(f"no answer to {free}", *ENDS)
            told = line.values[2:]
            if line.values[:2] != (logged.address, logged.turn) or (line.word == "size-differs" and told != (logged.room,)):
                raise Wrong(f"not {free}: {line.text}")
            epochs.update(told if line.word == "freed" else ())
            events.append(ENDS[line.word](*logged, *told) if line.word == "freed" else ENDS[line.word](*line.values))
        if len(epochs) > 1:
            raise Wrong(f"epochs {sorted(epochs)} in one flush of thread {thread}")
        self.logs[thread] = []
        return [Read(epoch) for epoch in epochs] + events

    def scavenged(self, operations, idle, lines):
        """The events of the scavenger's operations, and of the idle threads that it stops."""
        events = []
        for operation in operations:
            if operation[0] == "tick":
                self.epoch = max(self.epoch, operation[1])
                lines[0].take_exactly(f"a tick to {self.epoch}", "tick", self.epoch)
                events.append(Tick(self.epoch))
            elif operation[0] == "pass":
                lines[0].take_exactly(f"a pass in epoch {self.epoch}", "pass", self.epoch)
                events += self.passed(lines[0])
            else:
                for thread in idle:
                    if self.epoch >= self.since[thread] + operation[1]:
                        events += self.flushed(thread, lines[thread])
                        lines[0].take_exactly(f"thread {thread} is idle", "stopped", thread)
        return events

    def passed(self, lines):
        """The outcomes of a pass, at most one a page, the lowest first; the first pass of a phase has one of each page that is surely hinted."""
        events, pages = [], []
        while lines.peek() in OUTCOMES:
            line = lines.take("", *OUTCOMES)
            pages.append(line.values[0])
            events.append(self.outcome(line))
        if not are_rising(pages) or not set(pages) <= set(range(1, self.trace.pages + 1)):
            raise Wrong(f"the pages of a pass: {pages}")
        if not self.hinted <= set(pages):
            raise Wrong(f"a pass leaves out pages that were hinted before the phase: {sorted(self.hinted - set(pages))}")
        self.hinted = set()
        return events

    def outcome(self, line):
        """The event of an outcome."""
        if line.word == "in-use":
            page, word, value = line.values
            if word > 3 or value == 2**64 - 1:
                raise Wrong(f"no word in use: {line.text}")
            return InUse(page, word, value)
        if line.word == "young":
            return Young(*line.values, self.epoch)
        if line.word == "unback":
            if line.values[1] != self.epoch:
                raise Wrong(f"not in epoch {self.epoch}: {line.text}")
            return Unback(*line.values)
        return {"bare": Bare, "not-offered": NotOffered}[line.word](*line.values)

    def closed(self, lines):
        """The events of the close, which is one course: each thread in order is stopped, and then each keeper lowers all its guards."""
        events = []
        for thread in self.logs:
            events += self.flushed(thread, lines[thread])
        for thread in self.logs if self.trace.guard else ():
            events += self.lowered(thread, lines[self.trace.threads + thread])
        for actor, rest in enumerate(lines):
            rest.end(f"nothing that actor {actor} does at the close says this")
        return [events]


def are_rising(numbers):
    return all(before < after for before, after in zip(numbers, numbers[1:]))


def empty_pages(machine):
    """The pages that are surely hinted between two phases: backed ones without a block, of kinds of which no cache holds grains."""
    return {page for page in machine.backed if machine.deeds[page][1] in ("large", "bitfit") and not machine.lives_on[page]}
