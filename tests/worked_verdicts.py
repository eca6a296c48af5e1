"""Transcripts and what a check of them says, each worked out by the rules, for tests/worked.py. It has no program of its own."""

from typing import NamedTuple


class Judged(NamedTuple):
    """What is the matter, a trace, a transcript, and what is said of it."""

    what: str
    trace: str
    transcript: str
    said: str


FREED = """pas 1 pages 4 threads 1 heaps 1 age 2
a 1 1 0 24 16
f 1 1
"""

FREED_TWICE = """pas 1 pages 1 threads 2 heaps 1 age 2
a 1 1 0 16 16
f 1 1
stop 1
a 2 2 0 16 16
f 1 1
flush 1
"""

# A free whose first end is at epoch 3, and a tick before the second.
TICKED = """pas 1 pages 1 threads 1 heaps 1 age 2
a 1 1 0 16 16
a 1 2 0 16 16
tick 3
f 1 1
flush 1
tick 5
f 1 2
"""

# A block, its end and a pass that gives the page back.
PASSED = """pas 1 pages 1 threads 1 heaps 1 age 2
a 1 1 0 4096 16
f 1 1
flush 1
stop 1
tick 2
pass
"""

# A block of 32 bytes that is freed with a room of 48 and, twice, with its own.
SIZED = """pas 2 pages 1 threads 1 heaps 1 age 2
a 1 1 0 24 16
fs 1 1 40 16
fs 1 1 32 16
fs 1 1 32 16
"""

# Blocks of two of the larger classes, and one that is larger than these.
TWENTY_CLASSES = """pas 3 pages 3 threads 1 heaps 1 age 2
a 1 1 0 513 16
a 1 2 0 1024 1024
a 1 3 0 1025 16
"""

# A block that is kept, one that is replaced, one that can't be, and what follows from that.
REALLOCATED = """pas 4 pages 2 threads 1 heaps 1 age 2
a 1 1 0 24 16
m 1 2 1 32 16
m 1 3 2 33 16
m 1 4 3 64 16
m 1 5 4 16 16
f 1 3
"""

# Two guarded requests, of which the second lowers the guard of the first.
GUARDED = """pas 4 pages 8 threads 1 heaps 1 age 2
guard 2
a 1 1 0 4096 16
a 1 2 0 4096 16
f 1 2
flush 1
a 1 3 0 4096 16
a 1 4 0 8192 16
"""

# A guarded request in a region that has no room for a guard.
GUARDED_ALONE = """pas 4 pages 2 threads 1 heaps 1 age 2
guard 1
a 1 1 0 4096 16
"""

# A guarded request in a region that has room for it.
GUARDED_FIRST = """pas 4 pages 8 threads 1 heaps 1 age 2
guard 1
a 1 1 0 4096 16
"""

JUDGED = [
    Judged("", FREED, """1 deed page 1 heap 0 class 32
1 back page 1
1 give 0x00001000 turn 0 room 32 heap 0
close
1 freed 0x00001000 turn 0 epoch 0
report
page 1 heap 0 class 32 live 0 free 256 stamp 0 marks backed+offered+hinted
total deeds 1 backed 1 live 0 given 1 ended 1
""", "yes"),
    Judged("A free grain is wanting.", FREED, """1 deed page 1 heap 0 class 32
1 back page 1
1 give 0x00001000 turn 0 room 32 heap 0
close
1 freed 0x00001000 turn 0 epoch 0
report
page 1 heap 0 class 32 live 0 free 255 stamp 0 marks backed+offered+hinted
total deeds 1 backed 1 live 0 given 1 ended 1
""", "no line 7"),
    Judged("The page isn't backed when the block is given.", FREED, """1 deed page 1 heap 0 class 32
1 give 0x00001000 turn 0 room 32 heap 0
close
""", "no line 2"),
    Judged("The totals are wanting.", FREED, """1 deed page 1 heap 0 class 32
1 back page 1
1 give 0x00001000 turn 0 room 32 heap 0
close
1 freed 0x00001000 turn 0 epoch 0
report
page 1 heap 0 class 32 live 0 free 256 stamp 0 marks backed+offered+hinted
""", "no line 8"),
    Judged("The last line lacks its newline.", FREED, """1 deed page 1 heap 0 class 32
1 back page 1
1 give 0x00001000 turn 0 room 32 heap 0
close
1 freed 0x00001000 turn 0 epoch 0
report
page 1 heap 0 class 32 live 0 free 256 stamp 0 marks backed+offered+hinted
total deeds 1 backed 1 live 0 given 1 ended 1""", "no line 8"),
    Judged("A line follows the totals.", FREED, """1 deed page 1 heap 0 class 32
1 back page 1
1 give 0x00001000 turn 0 room 32 heap 0
close
1 freed 0x00001000 turn 0 epoch 0
report
page 1 heap 0 class 32 live 0 free 256 stamp 0 marks backed+offered+hinted
total deeds 1 backed 1 live 0 given 1 ended 1

""", "no line 9"),
    Judged("Another allocator may refuse a request.", FREED, """1 no-space name 1
1 skipped name 1
close
report
total deeds 0 backed 0 live 0 given 0 ended 0
""", "yes"),
    Judged("", FREED, "", "no line 1"),
    Judged("The log of thread 1 holds the first block of the address.", FREED_TWICE, """1 deed page 1 heap 0 class 16
1 back page 1
1 give 0x00001000 turn 0 room 16 heap 0
1 freed 0x00001000 turn 0 epoch 0
2 give 0x00001000 turn 1 room 16 heap 0
1 ended 0x00001000 turn 0
close
report
page 1 heap 0 class 16 live 1 free 255 stamp 0 marks backed+offered+hinted
total deeds 1 backed 1 live 1 given 2 ended 1
""", "yes"),
    Judged("", FREED_TWICE, """1 deed page 1 heap 0 class 16
1 back page 1
1 give 0x00001000 turn 0 room 16 heap 0
1 freed 0x00001000 turn 0 epoch 0
2 give 0x00001000 turn 1 room 16 heap 0
1 freed 0x00001000 turn 1 epoch 0
close
""", "no line 6"),
    Judged("An end has the epoch of the last tick, and not of the end before it.", TICKED, """1 deed page 1 heap 0 class 16
1 back page 1
1 give 0x00001000 turn 0 room 16 heap 0
1 give 0x00001010 turn 0 room 16 heap 0
0 tick 3
1 freed 0x00001000 turn 0 epoch 3
0 tick 5
close
1 freed 0x00001010 turn 0 epoch 5
report
page 1 heap 0 class 16 live 0 free 256 stamp 5 marks backed+parked+hinted
""", "no line 11"),
    Judged("", TICKED, """1 deed page 1 heap 0 class 16
1 back page 1
1 give 0x00001000 turn 0 room 16 heap 0
1 give 0x00001010 turn 0 room 16 heap 0
0 tick 3
1 freed 0x00001000 turn 0 epoch 3
0 tick 5
close
1 freed 0x00001010 turn 0 epoch 3
""", "no line 9"),
    Judged("", PASSED, """1 deed page 1 heap 0 large
1 back page 1
1 give 0x00001000 turn 0 room 4096 heap 0
1 freed 0x00001000 turn 0 epoch 0
0 tick 2
0 pass 2
0 unback page 1 epoch 2
close
report
page 1 heap 0 large live 0 free 256 stamp 0 marks offered
total deeds 1 backed 0 live 0 given 1 ended 1
""", "yes"),
    Judged("", SIZED, """1 deed page 1 heap 0 class 32
1 back page 1
1 give 0x00001000 turn 0 room 32 heap 0
close
1 size-differs 0x00001000 turn 0 asked 48
1 freed 0x00001000 turn 0 epoch 0
1 ended 0x00001000 turn 0
report
page 1 heap 0 class 32 live 0 free 256 stamp 0 marks backed+offered+hinted
total deeds 1 backed 1 live 0 given 1 ended 1
""", "yes"),
    Judged("Another room was named.", SIZED, """1 deed page 1 heap 0 class 32
1 back page 1
1 give 0x00001000 turn 0 room 32 heap 0
close
1 size-differs 0x00001000 turn 0 asked 64
1 freed 0x00001000 turn 0 epoch 0
""", "no line 5"),
    Judged("No block of this turn was freed.", SIZED, """1 deed page 1 heap 0 class 32
1 back page 1
1 give 0x00001000 turn 0 room 32 heap 0
close
1 size-differs 0x00001000 turn 1 asked 48
1 freed 0x00001000 turn 0 epoch 0
""", "no line 5"),
    Judged("The block hasn't the room that was named, so it doesn't end.", SIZED, """1 deed page 1 heap 0 class 32
1 back page 1
1 give 0x00001000 turn 0 room 32 heap 0
close
1 freed 0x00001000 turn 0 epoch 0
1 ended 0x00001000 turn 0
""", "no line 5"),
    Judged("It has the one that was named next.", SIZED, """1 deed page 1 heap 0 class 32
1 back page 1
1 give 0x00001000 turn 0 room 32 heap 0
close
1 size-differs 0x00001000 turn 0 asked 48
1 size-differs 0x00001000 turn 0 asked 32
""", "no line 6"),
    Judged("That it ended is said before its room.", SIZED, """1 deed page 1 heap 0 class 32
1 back page 1
1 give 0x00001000 turn 0 room 32 heap 0
close
1 size-differs 0x00001000 turn 0 asked 48
1 freed 0x00001000 turn 0 epoch 0
1 size-differs 0x00001000 turn 0 asked 32
""", "no line 7"),
    Judged("", SIZED, """1 no-space name 1
1 skipped name 1
1 skipped name 1
1 skipped name 1
close
report
total deeds 0 backed 0 live 0 given 0 ended 0
""", "yes"),
    Judged("No room was named.", FREED, """1 deed page 1 heap 0 class 32
1 back page 1
1 give 0x00001000 turn 0 room 32 heap 0
close
1 size-differs 0x00001000 turn 0 asked 48
""", "no line 5"),
    Judged("", TWENTY_CLASSES, """1 deed page 1 heap 0 class 640
1 back page 1
1 give 0x00001000 turn 0 room 640 heap 0
1 deed page 2 heap 0 class 1024
1 back page 2
1 give 0x00002000 turn 0 room 1024 heap 0
1 deed page 3 heap 0 bitfit
1 back page 3
1 give 0x00003000 turn 0 room 1040 heap 0
close
report
page 1 heap 0 class 640 live 1 free 216 stamp 0 marks backed+offered
page 2 heap 0 class 1024 live 1 free 192 stamp 0 marks backed+offered
page 3 heap 0 bitfit live 1 free 191 stamp 0 marks backed+offered
total deeds 3 backed 3 live 3 given 3 ended 0
""", "yes"),
    Judged("", REALLOCATED, """1 deed page 1 heap 0 class 32
1 back page 1
1 give 0x00001000 turn 0 room 32 heap 0
1 kept 0x00001000 turn 0 name 2
1 deed page 2 heap 0 class 48
1 back page 2
1 give 0x00002000 turn 0 room 48 heap 0
1 no-space name 4
1 skipped name 5
close
1 freed 0x00001000 turn 0 epoch 0
1 freed 0x00002000 turn 0 epoch 0
report
page 1 heap 0 class 32 live 0 free 256 stamp 0 marks backed+offered+hinted
page 2 heap 0 class 48 live 0 free 256 stamp 0 marks backed+offered+hinted
total deeds 2 backed 2 live 0 given 2 ended 2
""", "yes"),
    Judged("The new name stands for the block.", REALLOCATED, """1 deed page 1 heap 0 class 32
1 back page 1
1 give 0x00001000 turn 0 room 32 heap 0
1 kept 0x00001000 turn 0 name 1
""", "no line 4"),
    Judged("A block that suits is kept.", REALLOCATED, """1 deed page 1 heap 0 class 32
1 back page 1
1 give 0x00001000 turn 0 room 32 heap 0
1 give 0x00001020 turn 0 room 32 heap 0
""", "no line 4"),
    Judged("The name that was replaced is freed first.", REALLOCATED, """1 deed page 1 heap 0 class 32
1 back page 1
1 give 0x00001000 turn 0 room 32 heap 0
1 kept 0x00001000 turn 0 name 2
1 deed page 2 heap 0 class 48
1 back page 2
1 give 0x00002000 turn 0 room 48 heap 0
1 no-space name 4
1 skipped name 5
close
1 freed 0x00002000 turn 0 epoch 0
""", "no line 11"),
    Judged("", GUARDED, """1 deed page 1 heap 0 large
1 back page 1
1 give 0x00001000 turn 0 room 4096 heap 0
2 deed page 2 heap 0 large
2 deed page 3 heap 0 large
2 deed page 4 heap 0 large
2 back page 3
2 give 0x00003000 turn 0 room 4096 heap 0
2 guarded 2 4 name 2
1 freed 0x00003000 turn 0 epoch 0
1 give 0x00003000 turn 1 room 4096 heap 0
2 lowered 2 4
2 deed page 5 heap 0 large
2 deed page 6 heap 0 large
2 deed page 7 heap 0 large
2 back page 5
2 back page 6
2 give 0x00005000 turn 0 room 8192 heap 0
2 guarded 4 7 name 4
close
2 lowered 4 7
report
page 1 heap 0 large live 1 free 0 stamp 0 marks backed+parked
page 2 heap 0 large live 0 free 256 stamp 0 marks offered
page 3 heap 0 large live 1 free 0 stamp 0 marks backed+parked+hinted
page 4 heap 0 large live 0 free 256 stamp 0 marks offered
page 5 heap 0 large live 1 free 0 stamp 0 marks backed+parked
page 6 heap 0 large live 0 free 0 stamp 0 marks backed+parked
page 7 heap 0 large live 0 free 256 stamp 0 marks offered
total deeds 7 backed 4 live 3 given 4 ended 1
""", "yes"),
    Judged("The first guard's block has ended, so it is lowered first.", GUARDED, """1 deed page 1 heap 0 large
1 back page 1
1 give 0x00001000 turn 0 room 4096 heap 0
2 deed page 2 heap 0 large
2 deed page 3 heap 0 large
2 deed page 4 heap 0 large
2 back page 3
2 give 0x00003000 turn 0 room 4096 heap 0
2 guarded 2 4 name 2
1 freed 0x00003000 turn 0 epoch 0
1 give 0x00003000 turn 1 room 4096 heap 0
2 deed page 5 heap 0 large
""", "no line 12"),
    Judged("The guard's pages stand beside the block.", GUARDED, """1 deed page 1 heap 0 large
1 back page 1
1 give 0x00001000 turn 0 room 4096 heap 0
2 deed page 2 heap 0 large
2 deed page 3 heap 0 large
2 deed page 4 heap 0 large
2 back page 3
2 give 0x00003000 turn 0 room 4096 heap 0
2 guarded 2 5 name 2
""", "no line 9"),
    Judged("A keeper that has backed a page gives the block.", GUARDED, """1 deed page 1 heap 0 large
1 back page 1
1 give 0x00001000 turn 0 room 4096 heap 0
2 deed page 2 heap 0 large
2 deed page 3 heap 0 large
2 deed page 4 heap 0 large
2 back page 3
1 deed page 5 heap 0 large
""", "no line 8"),
    Judged("One that has made deeds alone may leave it to its thread.", GUARDED, """1 deed page 1 heap 0 large
1 back page 1
1 give 0x00001000 turn 0 room 4096 heap 0
2 deed page 2 heap 0 large
2 deed page 3 heap 0 large
2 deed page 4 heap 0 large
1 deed page 5 heap 0 large
1 back page 5
1 give 0x00005000 turn 0 room 4096 heap 0
1 freed 0x00005000 turn 0 epoch 0
""", "no line 11"),
    Judged("No guard is up yet.", GUARDED, """1 deed page 1 heap 0 large
1 back page 1
1 give 0x00001000 turn 0 room 4096 heap 0
2 lowered 2 4
""", "no line 4"),
    Judged("The close lowers all guards.", GUARDED, """1 deed page 1 heap 0 large
1 back page 1
1 give 0x00001000 turn 0 room 4096 heap 0
2 deed page 2 heap 0 large
2 deed page 3 heap 0 large
2 deed page 4 heap 0 large
2 back page 3
2 give 0x00003000 turn 0 room 4096 heap 0
2 guarded 2 4 name 2
1 freed 0x00003000 turn 0 epoch 0
1 give 0x00003000 turn 1 room 4096 heap 0
2 lowered 2 4
2 deed page 5 heap 0 large
2 deed page 6 heap 0 large
2 deed page 7 heap 0 large
2 back page 5
2 back page 6
2 give 0x00005000 turn 0 room 8192 heap 0
2 guarded 4 7 name 4
close
report
""", "no line 21"),
    Judged("", GUARDED_ALONE, """1 deed page 1 heap 0 large
1 back page 1
1 give 0x00001000 turn 0 room 4096 heap 0
close
report
page 1 heap 0 large live 1 free 0 stamp 0 marks backed+parked
total deeds 1 backed 1 live 1 given 1 ended 0
""", "yes"),
    Judged("There is no page below the block.", GUARDED_ALONE, """2 deed page 1 heap 0 large
2 back page 1
2 give 0x00001000 turn 0 room 4096 heap 0
2 guarded 0 2 name 1
""", "no line 4"),
    Judged("A keeper's block on the first page may come after the lines before it, but no page stands below it.", GUARDED_FIRST, """2 deed page 1 heap 0 large
2 deed page 2 heap 0 large
2 back page 1
2 give 0x00001000 turn 0 room 4096 heap 0
close
""", "no line 5"),
    Judged(".. nor one on the last page.", GUARDED_FIRST, """2 deed page 7 heap 0 large
2 deed page 8 heap 0 large
2 back page 8
2 give 0x00008000 turn 0 room 4096 heap 0
2 guarded 7 9 name 1
""", "no line 5"),
]

# Inputs of a check whose line `transcript` or whose trace is in question: what is the matter, the input, the status and
# what is said.
TRANSCRIPT = JUDGED[0].transcript
HEADER = "pas 1 pages 4 threads 1 heaps 1 age 2\n"
CALLS = [
    ("without the line the transcript is empty", FREED, 8, "no line 1"),
    ("so it is where the line ends the input without a newline", f"{FREED}transcript", 8, "no line 1"),
    ("with a blank behind its word the line is of the trace", f"{FREED}transcript \n{TRANSCRIPT}", 1, "line 4: BadWord"),
    ("the first such line separates", f"{FREED}transcript\ntranscript\n{TRANSCRIPT}", 8, "no line 1"),
    ("the last line lacks its newline", f"{FREED}transcript\n{TRANSCRIPT[:-1]}", 8, "no line 8"),
    ("a fault of the trace", f"{HEADER}f 1 2\ntranscript\n{TRANSCRIPT}", 1, "line 2: NameUnknown"),
    ("what stands behind the line is no part of the trace", f"{FREED}transcript\nno trace\n", 8, "no line 1"),
    ("no trace stands in front of the line", "transcript\n", 1, "line 1: BadHeader"),
    ("nothing at all", "", 1, "line 1: BadHeader"),
    ("a line is left out", f"{FREED}transcript\n{TRANSCRIPT.replace('1 back page 1' + chr(10), '')}", 8, "no line 2"),
    ("the totals come twice", f"{FREED}transcript\n{TRANSCRIPT}{TRANSCRIPT.splitlines(True)[-1]}", 8, "no line 9"),
]
