"""Traces with their transcripts in the order of the text, each worked out by the rules, for tests/worked.py: beside those of
examples/. It has no program of its own."""

from typing import NamedTuple


class Worked(NamedTuple):
    """What happens, a trace, and its transcript."""

    what: str
    trace: str
    transcript: str


# One thread, and nothing for the scavenger.
ALONE = [
    Worked(
        "Nothing is asked.",
        "pas 1 pages 4 threads 1 heaps 1 age 2",
        """close
report
total deeds 0 backed 0 live 0 given 0 ended 0
""",
    ),
    Worked(
        "Two frees of one block.",
        """pas 1 pages 4 threads 1 heaps 1 age 2
a 1 1 0 24 16
f 1 1
f 1 1
""",
        """1 deed page 1 heap 0 class 32
1 back page 1
1 give 0x00001000 turn 0 room 32 heap 0
close
1 freed 0x00001000 turn 0 epoch 0
1 ended 0x00001000 turn 0
report
page 1 heap 0 class 32 live 0 free 256 stamp 0 marks backed+offered+hinted
total deeds 1 backed 1 live 0 given 1 ended 1
""",
    ),
    Worked(
        "The only page is of another class, so the name stands for nothing and its free is skipped.",
        """pas 1 pages 1 threads 1 heaps 1 age 2
a 1 1 0 16 16
a 1 2 0 32 16
f 1 2
f 1 1
f 1 1
""",
        """1 deed page 1 heap 0 class 16
1 back page 1
1 give 0x00001000 turn 0 room 16 heap 0
1 no-space name 2
1 skipped name 2
close
1 freed 0x00001000 turn 0 epoch 0
1 ended 0x00001000 turn 0
report
page 1 heap 0 class 16 live 0 free 256 stamp 0 marks backed+offered+hinted
total deeds 1 backed 1 live 0 given 1 ended 1
""",
    ),
    Worked(
        "A page keeps its heap once it is empty.",
        """pas 1 pages 1 threads 1 heaps 2 age 2
a 1 1 0 16 16
f 1 1
stop 1
a 1 2 1 16 16
f 1 2
""",
        """1 deed page 1 heap 0 class 16
1 back page 1
1 give 0x00001000 turn 0 room 16 heap 0
1 freed 0x00001000 turn 0 epoch 0
1 no-space name 2
1 skipped name 2
close
report
page 1 heap 0 class 16 live 0 free 256 stamp 0 marks backed+offered+hinted
total deeds 1 backed 1 live 0 given 1 ended 1
""",
    ),
    Worked(
        "Frees by address and turn.",
        """pas 1 pages 1 threads 1 heaps 1 age 2
a 1 1 0 32 16
r 1 0x00001000 1
r 1 0x00001010 0
r 1 0x00000008 0
r 1 0x00001008 0
r 1 0x00002000 0
r 1 0x00001000 0
""",
        """1 deed page 1 heap 0 class 32
1 back page 1
1 give 0x00001000 turn 0 room 32 heap 0
1 outside 0x00000008 turn 0
1 unaligned 0x00001008 turn 0
1 outside 0x00002000 turn 0
close
1 no-block 0x00001000 turn 1
1 no-block 0x00001010 turn 0
1 freed 0x00001000 turn 0 epoch 0
report
page 1 heap 0 class 32 live 0 free 256 stamp 0 marks backed+offered+hinted
total deeds 1 backed 1 live 0 given 1 ended 1
""",
    ),
    Worked(
        "Sizes of 0 and 1, of the largest class, and one more.",
        """pas 1 pages 8 threads 1 heaps 1 age 2
a 1 1 0 0 16
a 1 2 0 1 16
a 1 3 0 512 16
a 1 4 0 513 16
""",
        """1 deed page 1 heap 0 class 16
1 back page 1
1 give 0x00001000 turn 0 room 16 heap 0
1 give 0x00001010 turn 0 room 16 heap 0
1 deed page 2 heap 0 class 512
1 back page 2
1 give 0x00002000 turn 0 room 512 heap 0
1 deed page 3 heap 0 bitfit
1 back page 3
1 give 0x00003000 turn 0 room 528 heap 0
close
report
page 1 heap 0 class 16 live 2 free 254 stamp 0 marks backed+offered
page 2 heap 0 class 512 live 1 free 224 stamp 0 marks backed+offered
page 3 heap 0 bitfit live 1 free 223 stamp 0 marks backed+offered
total deeds 3 backed 3 live 4 given 4 ended 0
""",
    ),
    Worked(
        "A class that an alignment asks for, and alignments that none has.",
        """pas 1 pages 4 threads 1 heaps 1 age 2
a 1 1 0 130 128
a 1 2 0 16 4096
a 1 3 0 16 4096
""",
        """1 deed page 1 heap 0 class 256
1 back page 1
1 give 0x00001000 turn 0 room 256 heap 0
1 deed page 2 heap 0 bitfit
1 back page 2
1 give 0x00002000 turn 0 room 16 heap 0
1 deed page 3 heap 0 bitfit
1 back page 3
1 give 0x00003000 turn 0 room 16 heap 0
close
report
page 1 heap 0 class 256 live 1 free 240 stamp 0 marks backed+offered
page 2 heap 0 bitfit live 1 free 255 stamp 0 marks backed+offered
page 3 heap 0 bitfit live 1 free 255 stamp 0 marks backed+offered
total deeds 3 backed 3 live 3 given 3 ended 0
""",
    ),
    Worked(
        "A bit-fit block takes the place of one that ended where it fits, and a longer one doesn't.",
        """pas 1 pages 1 threads 1 heaps 1 age 2
a 1 1 0 528 16
a 1 2 0 528 16
a 1 3 0 528 16
f 1 2
flush 1
a 1 4 0 528 16
f 1 4
flush 1
a 1 5 0 529 16
""",
        """1 deed page 1 heap 0 bitfit
1 back page 1
1 give 0x00001000 turn 0 room 528 heap 0
1 give 0x00001210 turn 0 room 528 heap 0
1 give 0x00001420 turn 0 room 528 heap 0
1 freed 0x00001210 turn 0 epoch 0
1 give 0x00001210 turn 1 room 528 heap 0
1 freed 0x00001210 turn 1 epoch 0
1 give 0x00001630 turn 0 room 544 heap 0
close
report
page 1 heap 0 bitfit live 3 free 156 stamp 0 marks backed+offered
total deeds 1 backed 1 live 3 given 5 ended 2
""",
    ),
    Worked(
        "Three classes on one shared page.",
        """pas 1 pages 1 threads 1 heaps 2 age 2
shared 1
a 1 1 1 16 16
a 1 2 1 48 16
a 1 3 1 16 16
""",
        """1 deed page 1 heap 1 shared
1 back page 1
1 give 0x00001000 turn 0 room 16 heap 1
1 give 0x00001060 turn 0 room 48 heap 1
1 give 0x00001010 turn 0 room 16 heap 1
close
report
page 1 heap 1 shared live 3 free 251 stamp 0 marks backed+offered
total deeds 1 backed 1 live 3 given 3 ended 0
""",
    ),
    Worked(
        "A large block over pages that two others left and one that nobody had.",
        """pas 1 pages 4 threads 1 heaps 1 age 2
a 1 1 0 2049 16
a 1 2 0 8192 16
f 1 1
f 1 2
flush 1
a 1 3 0 16384 16
""",
        """1 deed page 1 heap 0 large
1 back page 1
1 give 0x00001000 turn 0 room 4096 heap 0
1 deed page 2 heap 0 large
1 deed page 3 heap 0 large
1 back page 2
1 back page 3
1 give 0x00002000 turn 0 room 8192 heap 0
1 freed 0x00001000 turn 0 epoch 0
1 freed 0x00002000 turn 0 epoch 0
1 deed page 4 heap 0 large
1 back page 4
1 give 0x00001000 turn 1 room 16384 heap 0
close
report
page 1 heap 0 large live 1 free 0 stamp 0 marks backed+parked+hinted
page 2 heap 0 large live 0 free 0 stamp 0 marks backed+parked+hinted
page 3 heap 0 large live 0 free 0 stamp 0 marks backed+parked+hinted
page 4 heap 0 large live 0 free 0 stamp 0 marks backed+parked
total deeds 4 backed 4 live 1 given 3 ended 2
""",
    ),
    Worked(
        "A block of one whole page.",
        """pas 1 pages 4 threads 1 heaps 1 age 2
a 1 1 0 2049 16
""",
        """1 deed page 1 heap 0 large
1 back page 1
1 give 0x00001000 turn 0 room 4096 heap 0
close
report
page 1 heap 0 large live 1 free 0 stamp 0 marks backed+parked
total deeds 1 backed 1 live 1 given 1 ended 0
""",
    ),
    Worked(
        "A block of all pages.",
        """pas 1 pages 4 threads 1 heaps 1 age 2
a 1 1 0 16384 16
a 1 2 0 2049 16
""",
        """1 deed page 1 heap 0 large
1 deed page 2 heap 0 large
1 deed page 3 heap 0 large
1 deed page 4 heap 0 large
1 back page 1
1 back page 2
1 back page 3
1 back page 4
1 give 0x00001000 turn 0 room 16384 heap 0
1 no-space name 2
close
report
page 1 heap 0 large live 1 free 0 stamp 0 marks backed+parked
page 2 heap 0 large live 0 free 0 stamp 0 marks backed+parked
page 3 heap 0 large live 0 free 0 stamp 0 marks backed+parked
page 4 heap 0 large live 0 free 0 stamp 0 marks backed+parked
total deeds 4 backed 4 live 1 given 1 ended 0
""",
    ),
    Worked(
        "Large blocks beside another heap's page, until no page is left.",
        """pas 1 pages 3 threads 1 heaps 2 age 2
a 1 1 0 16 16
a 1 2 1 8192 16
a 1 3 1 4096 16
""",
        """1 deed page 1 heap 0 class 16
1 back page 1
1 give 0x00001000 turn 0 room 16 heap 0
1 deed page 2 heap 1 large
1 deed page 3 heap 1 large
1 back page 2
1 back page 3
1 give 0x00002000 turn 0 room 8192 heap 1
1 no-space name 3
close
report
page 1 heap 0 class 16 live 1 free 255 stamp 0 marks backed+offered
page 2 heap 1 large live 1 free 0 stamp 0 marks backed+parked
page 3 heap 1 large live 0 free 0 stamp 0 marks backed+parked
total deeds 3 backed 3 live 2 given 2 ended 0
""",
    ),
    Worked(
        "Frees that name a room: another one than the block has, its own, and its own again.",
        """pas 2 pages 1 threads 1 heaps 1 age 2
a 1 1 0 24 16
fs 1 1 40 16
fs 1 1 32 16
fs 1 1 32 16
""",
        """1 deed page 1 heap 0 class 32
1 back page 1
1 give 0x00001000 turn 0 room 32 heap 0
close
1 size-differs 0x00001000 turn 0 asked 48
1 freed 0x00001000 turn 0 epoch 0
1 ended 0x00001000 turn 0
report
page 1 heap 0 class 32 live 0 free 256 stamp 0 marks backed+offered+hinted
total deeds 1 backed 1 live 0 given 1 ended 1
""",
    ),
    Worked(
        "The four classes above 512 bytes, and one byte more than the largest.",
        """pas 3 pages 3 threads 1 heaps 1 age 2
a 1 1 0 513 16
a 1 2 0 1024 1024
a 1 3 0 1025 16
""",
        """1 deed page 1 heap 0 class 640
1 back page 1
1 give 0x00001000 turn 0 room 640 heap 0
1 deed page 2 heap 0 class 1024
1 back page 2
1 give 0x00002000 turn 0 room 1024 heap 0
1 deed page 3 heap 0 bitfit
1 back page 3
1 give 0x00003000 turn 0 room 1040 heap 0
close
report
page 1 heap 0 class 640 live 1 free 216 stamp 0 marks backed+offered
page 2 heap 0 class 1024 live 1 free 192 stamp 0 marks backed+offered
page 3 heap 0 bitfit live 1 free 191 stamp 0 marks backed+offered
total deeds 3 backed 3 live 3 given 3 ended 0
""",
    ),
    Worked(
        "A block is kept for another size, and another takes its place; then there is no room, and so nothing to reallocate.",
        """pas 4 pages 2 threads 1 heaps 1 age 2
a 1 1 0 24 16
m 1 2 1 32 16
m 1 3 2 33 16
m 1 4 3 64 16
m 1 5 4 16 16
f 1 3
""",
        """1 deed page 1 heap 0 class 32
1 back page 1
1 give 0x00001000 turn 0 room 32 heap 0
1 kept 0x00001000 turn 0 name 2
1 deed page 2 heap 0 class 48
1 back page 2
1 give 0x00002000 turn 0 room 48 heap 0
1 no-space name 4
1 skipped name 5
close
1 freed 0x00001000 turn 0 epoch 0
1 freed 0x00002000 turn 0 epoch 0
report
page 1 heap 0 class 32 live 0 free 256 stamp 0 marks backed+offered+hinted
page 2 heap 0 class 48 live 0 free 256 stamp 0 marks backed+offered+hinted
total deeds 2 backed 2 live 0 given 2 ended 2
""",
    ),
]

# How a transcript ends of 86 requests of a class with 85 slots on a page.
PAST_A_PAGE = """1 give 0x00001fc0 turn 0 room 48 heap 0
1 deed page 2 heap 0 class 48
1 back page 2
1 give 0x00002000 turn 0 room 48 heap 0
close
report
page 1 heap 0 class 48 live 85 free 1 stamp 0 marks backed+parked
page 2 heap 0 class 48 live 1 free 253 stamp 0 marks backed+offered
total deeds 2 backed 2 live 86 given 86 ended 0
"""

# And of 65 frees, one more than a log has places for: before the last is logged the others end, in their order.
PAST_A_LOG = (
    "1 give 0x00001400 turn 0 room 16 heap 0\n"
    + "".join(f"1 freed 0x{address:08x} turn 0 epoch 0\n" for address in range(0x1000, 0x1400, 16))
    + """close
1 freed 0x00001400 turn 0 epoch 0
report
page 1 heap 0 class 16 live 0 free 256 stamp 0 marks backed+offered+hinted
total deeds 1 backed 1 live 0 given 65 ended 65
"""
)

# The largest region, and one block of all its pages; what stands there of it, and how the report begins and ends.
LARGEST = """pas 3 pages 16384 threads 1 heaps 1 age 2
a 1 1 0 67108864 16
"""
LARGEST_GIVEN = """
1 give 0x00001000 turn 0 room 67108864 heap 0
close
report
page 1 heap 0 large live 1 free 0 stamp 0 marks backed+parked
"""
LARGEST_TOTALS = """
page 16384 heap 0 large live 0 free 0 stamp 0 marks backed+parked
total deeds 16384 backed 16384 live 1 given 1 ended 0
"""
