#!/usr/bin/env python3
"""tests/best_fit.py PROGRAM

Compares each address that pas_bestfit_run prints with that of a model which is written from the rule alone: a request gets
the first grains of the shortest free run that is long enough, the lowest of these, on the lowest page that has one; where
none has, it begins the lowest page that nothing was taken of yet. Read are the kept output, and what the program prints
where `rt ci` has left it beside PROGRAM. The status is 1 where an address is another one, or where not all requests and
frees are there."""

import subprocess
import sys
from itertools import groupby
from pathlib import Path

PAGES, GRAINS, BYTES = 16, 256, 16
REQUESTS, FREES = 1000, 936
KEPT = Path(__file__).resolve().parent.parent / "crates/pas_bestfit_run/stdout"


def free_runs(page):
    """The first grain and the length of each run of free grains that no longer one has in it."""
    for is_free, run in groupby(range(GRAINS), lambda grain: page[grain]):
        grains = list(run)
        if is_free:
            yield grains[0], len(grains)


class Model:
    """The pages, each a list that says of its grains whether they are free, and the blocks that live."""

    def __init__(self):
        self.pages, self.live = [], {}

    def place(self, grains):
        """Page and first grain of the best place, or None."""
        for number, page in enumerate(self.pages):
            fits = [(length, first) for first, length in free_runs(page) if length >= grains]
            if fits:
                return number, min(fits)[1]
        return (len(self.pages), 0) if len(self.pages) < PAGES else None

    def give(self, grains):
        """The address of a block of so many grains, from now on taken, or None."""
        place = self.place(grains)
        if place is None:
            return None
        number, first = place
        if number == len(self.pages):
            self.pages.append([True] * GRAINS)
        self.mark(number, first, grains, False)
        address = (GRAINS * (number + 1) + first) * BYTES
        self.live[address] = grains
        return address

    def end(self, address):
        """The block at this address ends. False where none lives there."""
        grains = self.live.pop(address, None)
        if grains is None:
            return False
        number, first = divmod(address // BYTES, GRAINS)
        self.mark(number - 1, first, grains, True)
        return True

    def mark(self, number, first, grains, is_free):
        self.pages[number][first : first + grains] = [is_free] * grains


def faults(lines):
    """What is wrong in the lines that were printed."""
    model, counted = Model(), {"give": 0, "none": 0, "free": 0}
    for number, line in enumerate(lines, 1):
        word, *numbers = line.split()
        counted[word] += 1
        numbers = [int(it) for it in numbers]
        if word == "free":
            if not model.end(numbers[0]):
                yield f"line {number}: no block lives at {numbers[0]}"
            continue
        wanted, told = model.give(numbers[0]), numbers[1] if word == "give" else None
        if wanted != told:
            yield f"line {number}: {numbers[0]} grains at {told}, and the best place is {wanted}"
            return
    if (counted["give"] + counted["none"], counted["free"]) != (REQUESTS, FREES):
        yield f"there are {counted}"


def main():
    texts = [("the kept output", KEPT.read_text())]
    program = Path(sys.argv[1]).resolve().parents[2] / "pas_bestfit_run/out/pas_bestfit_run"
    if program.exists():
        done = subprocess.run([program], capture_output=True, timeout=60, check=True)
        texts.append(("the program", done.stdout.decode()))
    wrong = [f"{name}: {fault}" for name, text in texts for fault in faults(text.splitlines())]
    print("\n".join([*wrong, f"{len(texts)} outputs, {len(wrong)} faults"]))
    return int(bool(wrong))


if __name__ == "__main__":
    sys.exit(main())
