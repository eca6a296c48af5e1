"""Pairs of transcripts of `pas run` for one trace, a right one and a wrong one, for tests/wrong_runs.py. It has no program of
its own."""

from typing import NamedTuple


class Pair(NamedTuple):
    """What is wrong, a trace, and its right and its wrong transcript."""

    what: str
    trace: str
    right: str
    wrong: str


# Thread 1 frees the block that its keeper gave for it, while thread 2 asks for another.
OWN_GUARDED = """pas 4 pages 12 threads 2 heaps 1 age 2
guard 1
a 1 1 0 4096 16
f 1 1
flush 1
a 2 2 0 16 16
"""
OWN_GUARDED_RIGHT = """1 freed 0x00002000 turn 0 epoch 0
2 deed page 4 heap 0 class 16
2 back page 4
2 give 0x00004000 turn 0 room 16 heap 0
3 deed page 1 heap 0 large
3 deed page 2 heap 0 large
3 deed page 3 heap 0 large
3 back page 2
3 give 0x00002000 turn 0 room 4096 heap 0
3 guarded 1 3 name 1
close
3 lowered 1 3
report
page 1 heap 0 large live 0 free 256 stamp 0 marks offered
page 2 heap 0 large live 0 free 256 stamp 0 marks backed+offered+hinted
page 3 heap 0 large live 0 free 256 stamp 0 marks offered
page 4 heap 0 class 16 live 1 free 255 stamp 0 marks backed+offered
total deeds 4 backed 2 live 1 given 2 ended 1
"""
OWN_GUARDED_WRONG = """1 no-block 0x00002000 turn 0
2 deed page 4 heap 0 class 16
2 back page 4
2 give 0x00004000 turn 0 room 16 heap 0
3 deed page 1 heap 0 large
3 deed page 2 heap 0 large
3 deed page 3 heap 0 large
3 back page 2
3 give 0x00002000 turn 0 room 4096 heap 0
3 guarded 1 3 name 1
close
3 lowered 1 3
report
page 1 heap 0 large live 0 free 256 stamp 0 marks offered
page 2 heap 0 large live 1 free 0 stamp 0 marks backed+parked
page 3 heap 0 large live 0 free 256 stamp 0 marks offered
page 4 heap 0 class 16 live 1 free 255 stamp 0 marks backed+offered
total deeds 4 backed 2 live 2 given 2 ended 0
"""

# The block of the first guard has ended before its keeper is asked again.
SWEPT = """pas 4 pages 8 threads 1 heaps 1 age 2
guard 1
a 1 1 0 4096 16
f 1 1
flush 1
a 1 2 0 4096 16
"""
SWEPT_RIGHT = """1 freed 0x00002000 turn 0 epoch 0
2 deed page 1 heap 0 large
2 deed page 2 heap 0 large
2 deed page 3 heap 0 large
2 back page 2
2 give 0x00002000 turn 0 room 4096 heap 0
2 guarded 1 3 name 1
2 lowered 1 3
2 give 0x00002000 turn 1 room 4096 heap 0
2 guarded 1 3 name 2
close
2 lowered 1 3
report
page 1 heap 0 large live 0 free 256 stamp 0 marks offered
page 2 heap 0 large live 1 free 0 stamp 0 marks backed+parked+hinted
page 3 heap 0 large live 0 free 256 stamp 0 marks offered
total deeds 3 backed 1 live 1 given 2 ended 1
"""
SWEPT_WRONG = """1 freed 0x00002000 turn 0 epoch 0
2 deed page 1 heap 0 large
2 deed page 2 heap 0 large
2 deed page 3 heap 0 large
2 back page 2
2 give 0x00002000 turn 0 room 4096 heap 0
2 guarded 1 3 name 1
2 deed page 4 heap 0 large
2 deed page 5 heap 0 large
2 deed page 6 heap 0 large
2 back page 5
2 give 0x00005000 turn 0 room 4096 heap 0
2 guarded 4 6 name 2
close
2 lowered 1 3
2 lowered 4 6
report
page 1 heap 0 large live 0 free 256 stamp 0 marks offered
page 2 heap 0 large live 0 free 256 stamp 0 marks backed+offered+hinted
page 3 heap 0 large live 0 free 256 stamp 0 marks offered
page 4 heap 0 large live 0 free 256 stamp 0 marks offered
page 5 heap 0 large live 1 free 0 stamp 0 marks backed+parked
page 6 heap 0 large live 0 free 256 stamp 0 marks offered
total deeds 6 backed 2 live 1 given 2 ended 1
"""

# No guard fits for the second request; the first guard is lowered when the third comes, as its block has ended then.
SILENT = """pas 4 pages 4 threads 1 heaps 1 age 2
guard 1
a 1 1 0 4096 16
a 1 2 0 4096 16
f 1 1
flush 1
a 1 3 0 8192 16
"""
SILENT_KEEPER = """2 deed page 1 heap 0 large
2 deed page 2 heap 0 large
2 deed page 3 heap 0 large
2 back page 2
2 give 0x00002000 turn 0 room 4096 heap 0
2 guarded 1 3 name 1
2 lowered 1 3
close
report
"""
SILENT_RIGHT = """1 deed page 4 heap 0 large
1 back page 4
1 give 0x00004000 turn 0 room 4096 heap 0
1 freed 0x00002000 turn 0 epoch 0
1 back page 1
1 give 0x00001000 turn 0 room 8192 heap 0
""" + SILENT_KEEPER + """page 1 heap 0 large live 1 free 0 stamp 0 marks backed+parked
page 2 heap 0 large live 0 free 0 stamp 0 marks backed+parked+hinted
page 3 heap 0 large live 0 free 256 stamp 0 marks offered
page 4 heap 0 large live 1 free 0 stamp 0 marks backed+parked
total deeds 4 backed 3 live 2 given 3 ended 1
"""
SILENT_WRONG = """1 back page 1
1 give 0x00001000 turn 0 room 4096 heap 0
1 freed 0x00002000 turn 0 epoch 0
1 back page 3
1 give 0x00002000 turn 1 room 8192 heap 0
""" + SILENT_KEEPER + """page 1 heap 0 large live 1 free 0 stamp 0 marks backed+parked
page 2 heap 0 large live 1 free 0 stamp 0 marks backed+parked+hinted
page 3 heap 0 large live 0 free 0 stamp 0 marks backed+parked
total deeds 3 backed 3 live 2 given 3 ended 1
"""

# The scavenger ticks, stops an idle thread that freed its block, and makes a pass.
LENT = """pas 1 pages 4 threads 1 heaps 1 age 1
a 1 1 0 512 16
f 1 1
phase
tick 5
idle 3
pass
"""
LENT_GIVEN = """1 deed page 1 heap 0 class 512
1 back page 1
1 give 0x00001000 turn 0 room 512 heap 0
phase 2
0 tick 5
0 stopped 1
0 pass 5
"""
LENT_RIGHT = LENT_GIVEN + """0 young page 1 stamp 5
1 freed 0x00001000 turn 0 epoch 5
close
report
page 1 heap 0 class 512 live 0 free 256 stamp 5 marks backed+offered+hinted
total deeds 1 backed 1 live 0 given 1 ended 1
"""
LENT_LATE = LENT_GIVEN + """1 freed 0x00001000 turn 0 epoch 0
close
report
page 1 heap 0 class 512 live 0 free 256 stamp 0 marks backed+offered+hinted
total deeds 1 backed 1 live 0 given 1 ended 1
"""
LENT_UNBACKED = LENT_GIVEN + """0 unback page 1 epoch 5
1 freed 0x00001000 turn 0 epoch 0
close
report
page 1 heap 0 class 512 live 0 free 256 stamp 0 marks offered
total deeds 1 backed 0 live 0 given 1 ended 1
"""

# Thread 2 frees the block that thread 1 got a phase before.
HANDED = """pas 1 pages 1 threads 2 heaps 1 age 2
a 1 1 0 16 16
phase
f 2 1
flush 2
"""
HANDED_GIVEN = """1 deed page 1 heap 0 class 16
1 back page 1
1 give 0x00001000 turn 0 room 16 heap 0
phase 2
"""
HANDED_RIGHT = HANDED_GIVEN + """2 freed 0x00001000 turn 0 epoch 0
close
report
page 1 heap 0 class 16 live 0 free 256 stamp 0 marks backed+offered+hinted
total deeds 1 backed 1 live 0 given 1 ended 1
"""
HANDED_WRONG = HANDED_GIVEN + """2 no-block 0x00001000 turn 0
close
report
page 1 heap 0 class 16 live 1 free 255 stamp 0 marks backed+offered
total deeds 1 backed 1 live 1 given 1 ended 0
"""

# Thread 2 asks for the one page a phase after thread 1.
ONE_PAGE = """pas 1 pages 1 threads 2 heaps 2 age 2
a 1 1 0 4096 16
phase
a 2 2 1 4096 16
"""
ONE_PAGE_RIGHT = """1 deed page 1 heap 0 large
1 back page 1
1 give 0x00001000 turn 0 room 4096 heap 0
phase 2
2 no-space name 2
close
report
page 1 heap 0 large live 1 free 0 stamp 0 marks backed+parked
total deeds 1 backed 1 live 1 given 1 ended 0
"""
ONE_PAGE_WRONG = """1 no-space name 1
phase 2
2 deed page 1 heap 1 large
2 back page 1
2 give 0x00001000 turn 0 room 4096 heap 1
close
report
page 1 heap 1 large live 1 free 0 stamp 0 marks backed+parked
total deeds 1 backed 1 live 1 given 1 ended 0
"""

# Each of two threads gets the same whole page for a while, one phase after the other.
TURNS = """pas 1 pages 1 threads 2 heaps 1 age 2
a 1 1 0 4096 16
f 1 1
flush 1
phase
a 2 2 0 4096 16
f 2 2
flush 2
"""
TURNS_END = """close
report
page 1 heap 0 large live 0 free 256 stamp 0 marks backed+offered+hinted
total deeds 1 backed 1 live 0 given 2 ended 2
"""
TURNS_RIGHT = """1 deed page 1 heap 0 large
1 back page 1
1 give 0x00001000 turn 0 room 4096 heap 0
1 freed 0x00001000 turn 0 epoch 0
phase 2
2 give 0x00001000 turn 1 room 4096 heap 0
2 freed 0x00001000 turn 1 epoch 0
""" + TURNS_END
TURNS_WRONG = """1 give 0x00001000 turn 1 room 4096 heap 0
1 freed 0x00001000 turn 1 epoch 0
phase 2
2 deed page 1 heap 0 large
2 back page 1
2 give 0x00001000 turn 0 room 4096 heap 0
2 freed 0x00001000 turn 0 epoch 0
""" + TURNS_END

# A page has no block and has memory before the scavenger's pass.
LEFT = """pas 1 pages 1 threads 1 heaps 1 age 2
a 1 1 0 4096 16
f 1 1
flush 1
phase
tick 5
pass
"""
LEFT_GIVEN = """1 deed page 1 heap 0 large
1 back page 1
1 give 0x00001000 turn 0 room 4096 heap 0
1 freed 0x00001000 turn 0 epoch 0
phase 2
0 tick 5
0 pass 5
"""
LEFT_RIGHT = LEFT_GIVEN + """0 unback page 1 epoch 5
close
report
page 1 heap 0 large live 0 free 256 stamp 0 marks offered
total deeds 1 backed 0 live 0 given 1 ended 1
"""
LEFT_WRONG = LEFT_GIVEN + """close
report
page 1 heap 0 large live 0 free 256 stamp 0 marks backed+offered+hinted
total deeds 1 backed 1 live 0 given 1 ended 1
"""

# Nobody holds the page when thread 2 asks for it.
FREE = """pas 1 pages 1 threads 2 heaps 1 age 2
a 1 1 0 SIZE 16
f 1 1
flush 1
phase
a 2 2 0 SIZE 16
"""
FREE_GIVEN = """1 deed page 1 heap 0 KIND
1 back page 1
1 give 0x00001000 turn 0 room SIZE heap 0
1 freed 0x00001000 turn 0 epoch 0
phase 2
"""
FREE_RIGHT = FREE_GIVEN + """2 give 0x00001000 turn 1 room SIZE heap 0
close
report
page 1 heap 0 KIND live 1 free FREE stamp 0 marks backed+OFFER+hinted
total deeds 1 backed 1 live 1 given 2 ended 1
"""
FREE_REFUSED = FREE_GIVEN + """2 REFUSAL name 2
close
report
page 1 heap 0 KIND live 0 free 256 stamp 0 marks backed+offered+hinted
total deeds 1 backed 1 live 0 given 1 ended 1
"""


def refused(size, kind, free, offer, refusal):
    """A request of so many bytes that is refused, though the page of this kind has nothing on it."""
    values = {"SIZE": str(size), "KIND": kind, "FREE": str(free), "OFFER": offer, "REFUSAL": refusal}
    texts = [FREE, FREE_RIGHT, FREE_REFUSED]
    for name, value in values.items():
        texts = [text.replace(name, value) for text in texts]
    return Pair(f"a request of {size} bytes is refused by {refusal!r}, as if the page were taken", *texts)


# Thread 1 has done nothing since epoch 0.
IDLE = """pas 1 pages 1 threads 1 heaps 1 age 2
a 1 1 0 16 16
phase
tick 5
phase
idle 3
"""
IDLE_GIVEN = """1 deed page 1 heap 0 class 16
1 back page 1
1 give 0x00001000 turn 0 room 16 heap 0
phase 2
0 tick 5
phase 3
"""
IDLE_END = """close
report
page 1 heap 0 class 16 live 1 free 255 stamp 0 marks backed+offered
total deeds 1 backed 1 live 1 given 1 ended 0
"""

PAIRS = [
    Pair("a free of the block that the thread's keeper gave before finds none", OWN_GUARDED, OWN_GUARDED_RIGHT, OWN_GUARDED_WRONG),
    Pair("a guard stays up whose block ended before", SWEPT, SWEPT_RIGHT, SWEPT_WRONG),
    Pair("a page beside a guarded block has memory before the guard goes down", SILENT, SILENT_RIGHT, SILENT_WRONG),
    Pair("a free that is flushed after a tick has the epoch before it", LENT, LENT_RIGHT, LENT_LATE),
    Pair("a page is given back by an end that the tick was before", LENT, LENT_RIGHT, LENT_UNBACKED),
    Pair("a free of a block of an earlier phase finds none", HANDED, HANDED_RIGHT, HANDED_WRONG),
    Pair("a request gets what one of an earlier phase asked for", ONE_PAGE, ONE_PAGE_RIGHT, ONE_PAGE_WRONG),
    Pair("the turns of two phases have changed places", TURNS, TURNS_RIGHT, TURNS_WRONG),
    Pair("a pass leaves out a page that was hinted before its phase", LEFT, LEFT_RIGHT, LEFT_WRONG),
    refused(4096, "large", 0, "parked", "held 1"),
    refused(4096, "large", 0, "parked", "no-space"),
    refused(1040, "bitfit", 191, "offered", "held 1"),
    refused(1040, "bitfit", 191, "offered", "no-space"),
    Pair("an idle thread isn't stopped", IDLE, IDLE_GIVEN + "0 stopped 1\n" + IDLE_END, IDLE_GIVEN + IDLE_END),
]
