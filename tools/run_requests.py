"""The requests of a trace, in the order in which a transcript answers them."""

from __future__ import annotations

from array import array
from pathlib import Path

from trace_lines import TraceLines
from trace_text import MOST_OPERATIONS


def names_of_guards(path: Path) -> bytearray:
    """For each name whether the transcript has a guard of its request."""
    raised = bytearray(MOST_OPERATIONS + 1)
    with path.open("rb") as file:
        for line in file:
            if b" guarded " in line and (name := line.split()[-1]).isdigit() and int(name) <= MOST_OPERATIONS:
                raised[int(name)] = 1
    return raised


class Waiting:
    """Requests of an actor that are answered later, in their order."""

    def __init__(self) -> None:
        self.clear()

    def clear(self) -> None:
        self.names, self.sizes, self.at = array("I"), array("I"), 0

    def add(self, name: int, size: int) -> None:
        self.names.append(name)
        self.sizes.append(size)

    def next(self) -> tuple[int, int]:
        self.at += 1
        return self.names[self.at - 1], self.sizes[self.at - 1]

    def count(self) -> int:
        return len(self.names) - self.at

    def is_empty(self) -> bool:
        if self.at and not self.count():
            self.clear()
        return not self.names


class Requests(TraceLines):
    """The requests of a trace, each of the actor whose line answers it, read when they are asked for."""

    def __init__(self, path: Path, transcript: Path) -> None:
        super().__init__(path)
        self.transcript, self.raised = transcript, bytearray()
        self.waiting: dict[bytes, Waiting] = {}
        self.read = self.requests()

    def answerer(self, thread: bytes, name: int) -> bytes:
        """Who answers a request that is to be guarded: the thread's keeper, where it raised the guard."""
        self.raised = self.raised or names_of_guards(self.transcript)
        return b"%d" % (int(thread) + self.threads) if self.raised[name] else thread

    def next_of(self, actor: bytes) -> tuple[int, int]:
        """The name and the size of the next request that a line of this actor answers."""
        if self.waiting and actor in self.waiting and not self.waiting[actor].is_empty():
            return self.waiting[actor].next()
        for thread, name, size, is_due in self.read:
            answerer = self.answerer(thread, name) if is_due else thread
            if answerer == actor:
                return name, size
            self.waiting.setdefault(answerer, Waiting()).add(name, size)
        raise KeyError(actor)

    def end(self) -> int:
        """Reads the rest, and answers how many requests no line has answered."""
        return sum(1 for _ in self.read) + sum(each.count() for each in self.waiting.values())
