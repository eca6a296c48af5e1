#!/usr/bin/env python3
"""tests/transcripts.py TRACE TRANSCRIPT

Judges a transcript of `pas run` for a trace, by a second reading of the rules of docs/FORMAT.md: its lines stand by phase
and by actor; each actor's lines answer its operations, in order; some order of all of them, each course's in its own order
and phase after phase, is a run of the allocator's machine; and the report is that of the state which this run reaches. A
course is what one worker does in a phase, one act after the other: a thread's operations with what its keeper does for
them, or the scavenger's with the stops of idle threads. Prints what is wrong, with status 1, or `right`. The order of two
courses isn't told by a transcript: it is looked for (tests/orders.py)."""

import sys

from accounts import Accounts
from orders import Undecided, find_order
from run_lines import Wrong, parts_of
from run_machine import Machine
from traces import GRAIN, GRAINS, PAGE, last_line, read_trace

MARKS = ["backed", "offered", "parked", "hinted"]


def check_run(trace, machine, parts):
    """Phase by phase the lines answer the operations, and in some order their events are a run."""
    accounts = Accounts(trace)
    for phase, lines in enumerate(parts):
        is_close = phase == len(trace.phases)
        courses = accounts.closed(lines) if is_close else accounts.phase(phase, lines, machine)
        if stuck := find_order(machine, courses):
            events = [(type(event).__name__, vars(event)) for event in stuck]
            raise Wrong(f"{'at the close' if is_close else f'in phase {phase + 1}'} no order of the events is a run; none of these can come next: {events}")


def page_line(machine, page):
    """What the report says of a page, without its marks."""
    heap, kind = machine.deeds[page]
    blocks = [machine.live[address] for address in machine.lives_on[page]]
    begun = sum(block.address // PAGE == page for block in blocks)
    free = GRAINS - sum(block.grains_on(page).bit_count() for block in blocks)
    return f"page {page} heap {heap} {kind} live {begun} free {free} stamp {machine.newest[page]} marks "


def has_room(machine, page):
    """Whether a block of the page's kind could cover one of its free grains."""
    kind = machine.deeds[page][1].split()
    covered = sum(machine.live[address].grains_on(page).bit_count() for address in machine.lives_on[page])
    usable = PAGE // int(kind[1]) * int(kind[1]) // GRAIN if len(kind) > 1 else GRAINS
    return covered < usable


def check_marks(machine, page, text):
    """A page is marked as backed where it is; as offered or parked, and offered where it has room; and as hinted at least where
    it is backed and empty."""
    marks = text.split("+")
    if marks != [mark for mark in MARKS if mark in marks]:
        raise Wrong(f"no marks: {text}")
    is_backed = page in machine.backed
    if ("backed" in marks) != is_backed or ("offered" in marks) == ("parked" in marks):
        raise Wrong(f"not the marks of page {page}: {text}")
    if has_room(machine, page) and "parked" in marks:
        raise Wrong(f"page {page} has room: {text}")
    if is_backed and not machine.lives_on[page] and "hinted" not in marks:
        raise Wrong(f"page {page} is backed and empty: {text}")


def check_report(machine, texts):
    """The report is that of the machine."""
    pages = sorted(machine.deeds)
    if len(texts) != len(pages) + 1:
        raise Wrong(f"the report has {len(texts)} lines for {len(pages)} pages")
    for page, text in zip(pages, texts):
        wanted = page_line(machine, page)
        if not text.startswith(wanted):
            raise Wrong(f"the report says {text} and not {wanted}..")
        check_marks(machine, page, text[len(wanted):])
    if texts[-1] != (wanted := last_line(machine)):
        raise Wrong(f"the report says {texts[-1]} and not {wanted}")


def judge(trace, text):
    """What is wrong with a transcript of `run` for a trace, or None."""
    machine = Machine(trace.pages, trace.age)
    try:
        parts, report = parts_of(trace, text)
        check_run(trace, machine, parts)
        check_report(machine, report)
    except Wrong as wrong:
        return str(wrong)
    except Undecided:
        return "no order of the events of a phase was found in time"
    return None


def main():
    if len(sys.argv) != 3:
        print(__doc__)
        return 2
    with open(sys.argv[1], encoding="ascii") as trace, open(sys.argv[2], encoding="ascii") as transcript:
        wrong = judge(read_trace(trace.read()), transcript.read())
    print(wrong or "right")
    return 1 if wrong else 0


if __name__ == "__main__":
    sys.exit(main())
