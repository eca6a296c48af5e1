"""The lines of a transcript of `pas run`, for tests/transcripts.py: their words, and how they stand by phase and by actor,
by docs/FORMAT.md. It has no program of its own."""

import re
from typing import NamedTuple

from traces import CLASSES

# The lines by their second word: N is a number, A an address, V the value of a free word, KIND the kind of a page.
SHAPES = {
    "deed": "page N heap N KIND",
    "back": "page N",
    "give": "A turn N room N heap N",
    "freed": "A turn N epoch N",
    "ended": "A turn N",
    "no-block": "A turn N",
    "size-differs": "A turn N asked N",
    "no-space": "name N",
    "held": "N name N",
    "outside": "A turn N",
    "unaligned": "A turn N",
    "skipped": "name N",
    "kept": "A turn N name N",
    "guarded": "N N name N",
    "lowered": "N N",
    "tick": "N",
    "pass": "N",
    "unback": "page N epoch N",
    "bare": "page N",
    "young": "page N stamp N",
    "in-use": "page N word N value V",
    "not-offered": "page N",
    "stopped": "N",
}
# The lines that a keeper may have.
KEPT = ("deed", "back", "give", "guarded", "lowered")
OUTCOMES = ("unback", "bare", "young", "in-use", "not-offered")
NUMBER = "(0|[1-9][0-9]*)"
WORDS = {"N": NUMBER, "A": "(0x[0-9a-f]{8})", "V": "(0x[0-9a-f]{16})", "KIND": "(class (?:%s)|bitfit|shared|large)" % "|".join(map(str, CLASSES))}
PATTERNS = {word: re.compile(" ".join([NUMBER, word] + [WORDS.get(part, part) for part in shape.split()])) for word, shape in SHAPES.items()}


class Wrong(Exception):
    """What is wrong with a transcript."""


class Line(NamedTuple):
    """A line of an actor: its second word, and the values of the others."""

    actor: int
    word: str
    values: tuple
    text: str


def line_of(text, trace):
    """The line that a text is."""
    words = text.split(" ", 2)
    pattern = PATTERNS.get(words[1]) if len(words) > 1 else None
    match = pattern.fullmatch(text) if pattern else None
    if not match:
        raise Wrong(f"no such line: {text}")
    actor, *values = match.groups()
    if int(actor) > trace.actors or (int(actor) == 0) != (words[1] in OUTCOMES + ("tick", "pass", "stopped")):
        raise Wrong(f"not a line of this actor: {text}")
    if (int(actor) > trace.threads and words[1] not in KEPT) or (int(actor) <= trace.threads and words[1] in ("guarded", "lowered")):
        raise Wrong(f"not a line of this actor: {text}")
    return Line(int(actor), words[1], tuple(value if value[0] in "bcls" else int(value, 0) for value in values), text)


class Lines:
    """Lines that are taken in order."""

    def __init__(self, lines):
        self.lines, self.at = lines, 0

    def peek(self):
        """The second word of the next line, or None."""
        return self.lines[self.at].word if self.at < len(self.lines) else None

    def take(self, what, *words):
        """The next line, which has one of these words, or these and no other values."""
        if self.peek() not in words:
            raise Wrong(f"{what}: {self.lines[self.at].text if self.peek() else 'no line'}")
        self.at += 1
        return self.lines[self.at - 1]

    def take_exactly(self, what, word, *values):
        line = self.take(what, word)
        if line.values != values:
            raise Wrong(f"{what}: {line.text}")

    def end(self, what):
        if self.peek():
            raise Wrong(f"{what}: {self.lines[self.at].text}")


def parts_of(trace, text):
    """For each phase, and for the close, the lines of each actor; and the lines of the report."""
    if not text.endswith("\n"):
        raise Wrong("the last line has no end")
    texts = text[:-1].split("\n")
    marks = [f"phase {number}" for number in range(2, len(trace.phases) + 1)] + ["close", "report"]
    parts = []
    for mark in marks:
        if mark not in texts:
            raise Wrong(f"no line {mark}")
        at = texts.index(mark)
        parts.append(by_actor([line_of(line, trace) for line in texts[:at]], trace.actors))
        texts = texts[at + 1:]
    return parts, texts


def by_actor(lines, actors):
    """The lines of each actor, which stand actor by actor."""
    for before, after in zip(lines, lines[1:]):
        if before.actor > after.actor:
            raise Wrong(f"it stands after a line of actor {before.actor}: {after.text}")
    return [Lines([line for line in lines if line.actor == actor]) for actor in range(actors + 1)]


def by_phase_and_actor(text):
    """The text that `run` may write where it makes its steps in the order of the text, from the one that `order` writes."""
    written, phase = [], []
    lines = text.split("\n")
    for at, line in enumerate(lines):
        if line in ("close", "report") or line.startswith("phase "):
            written += sorted(phase, key=actor_of) + [line]
            phase = []
        else:
            phase.append(line)
        if line == "report":
            return "\n".join(written + lines[at + 1:])
    return text


def actor_of(line):
    return int(line.split(" ", 1)[0])
