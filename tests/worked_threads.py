"""Traces in whose phases several actors act, with their transcripts in the order of the text, and some with those on
threads, each worked out by the rules, for tests/worked.py: beside those of examples/. It has no program of its own."""

from worked_traces import Worked

# Several actors act in a phase: on threads there are many ways.
AT_ONCE = [
    Worked(
        "The second thread's request and its free.",
        """pas 1 pages 1 threads 2 heaps 1 age 2
a 1 1 0 16 16
a 2 2 0 16 16
f 2 2
""",
        """1 deed page 1 heap 0 class 16
1 back page 1
1 give 0x00001000 turn 0 room 16 heap 0
2 held 1 name 2
2 skipped name 2
close
report
page 1 heap 0 class 16 live 1 free 255 stamp 0 marks backed+offered
total deeds 1 backed 1 live 1 given 1 ended 0
""",
    ),
    Worked(
        "A name whose block another thread's took the place of.",
        """pas 1 pages 1 threads 2 heaps 1 age 2
a 1 1 0 16 16
f 1 1
stop 1
a 2 2 0 16 16
f 1 1
flush 1
""",
        """1 deed page 1 heap 0 class 16
1 back page 1
1 give 0x00001000 turn 0 room 16 heap 0
1 freed 0x00001000 turn 0 epoch 0
2 give 0x00001000 turn 1 room 16 heap 0
1 ended 0x00001000 turn 0
close
report
page 1 heap 0 class 16 live 1 free 255 stamp 0 marks backed+offered+hinted
total deeds 1 backed 1 live 1 given 2 ended 1
""",
    ),
    Worked(
        "A page in another thread's hands, and an idle thread.",
        """pas 1 pages 1 threads 2 heaps 1 age 2
a 1 1 0 16 16
a 2 2 0 16 16
phase
idle 0
a 2 3 0 16 16
""",
        """1 deed page 1 heap 0 class 16
1 back page 1
1 give 0x00001000 turn 0 room 16 heap 0
2 held 1 name 2
phase 2
0 stopped 1
2 give 0x00001010 turn 0 room 16 heap 0
close
report
page 1 heap 0 class 16 live 2 free 254 stamp 0 marks backed+offered
total deeds 1 backed 1 live 2 given 2 ended 0
""",
    ),
    Worked(
        "Two threads end one block.",
        """pas 1 pages 1 threads 2 heaps 1 age 2
a 1 1 0 16 16
phase
f 1 1
flush 1
f 2 1
flush 2
""",
        """1 deed page 1 heap 0 class 16
1 back page 1
1 give 0x00001000 turn 0 room 16 heap 0
phase 2
1 freed 0x00001000 turn 0 epoch 0
2 ended 0x00001000 turn 0
close
report
page 1 heap 0 class 16 live 0 free 256 stamp 0 marks backed+offered+hinted
total deeds 1 backed 1 live 0 given 1 ended 1
""",
    ),
    Worked(
        "A page goes back and is backed anew.",
        """pas 1 pages 1 threads 1 heaps 1 age 2
a 1 1 0 16 16
tick 3
f 1 1
stop 1
tick 4
pass
tick 5
pass
pass
a 1 2 0 16 16
""",
        """1 deed page 1 heap 0 class 16
1 back page 1
1 give 0x00001000 turn 0 room 16 heap 0
0 tick 3
1 freed 0x00001000 turn 0 epoch 3
0 tick 4
0 pass 4
0 young page 1 stamp 3
0 tick 5
0 pass 5
0 unback page 1 epoch 5
0 pass 5
1 back page 1
1 give 0x00001000 turn 1 room 16 heap 0
close
report
page 1 heap 0 class 16 live 1 free 255 stamp 3 marks backed+offered
total deeds 1 backed 1 live 1 given 2 ended 1
""",
    ),
    Worked(
        "The same with a pass less.",
        """pas 1 pages 1 threads 1 heaps 1 age 2
a 1 1 0 16 16
tick 3
f 1 1
stop 1
tick 4
pass
tick 5
pass
a 1 2 0 16 16
""",
        """1 deed page 1 heap 0 class 16
1 back page 1
1 give 0x00001000 turn 0 room 16 heap 0
0 tick 3
1 freed 0x00001000 turn 0 epoch 3
0 tick 4
0 pass 4
0 young page 1 stamp 3
0 tick 5
0 pass 5
0 unback page 1 epoch 5
1 back page 1
1 give 0x00001000 turn 1 room 16 heap 0
close
report
page 1 heap 0 class 16 live 1 free 255 stamp 3 marks backed+offered
total deeds 1 backed 1 live 1 given 2 ended 1
""",
    ),
    Worked(
        "A pass beside a page in use.",
        """pas 1 pages 1 threads 1 heaps 1 age 2
a 1 1 0 16 16
f 1 1
stop 1
a 1 2 0 16 16
pass
""",
        """1 deed page 1 heap 0 class 16
1 back page 1
1 give 0x00001000 turn 0 room 16 heap 0
1 freed 0x00001000 turn 0 epoch 0
1 give 0x00001000 turn 1 room 16 heap 0
0 pass 0
0 in-use page 1 word 0 value 0x0000000000000000
close
report
page 1 heap 0 class 16 live 1 free 255 stamp 0 marks backed+offered
total deeds 1 backed 1 live 1 given 2 ended 1
""",
    ),
    Worked(
        "A pass beside a page whose right is held.",
        """pas 1 pages 1 threads 1 heaps 1 age 2
a 1 1 0 512 16
a 1 2 0 512 16
a 1 3 0 512 16
a 1 4 0 512 16
a 1 5 0 512 16
a 1 6 0 512 16
a 1 7 0 512 16
a 1 8 0 512 16
f 1 1
f 1 2
f 1 3
f 1 4
f 1 5
f 1 6
f 1 7
f 1 8
flush 1
pass
""",
        """1 deed page 1 heap 0 class 512
1 back page 1
1 give 0x00001000 turn 0 room 512 heap 0
1 give 0x00001200 turn 0 room 512 heap 0
1 give 0x00001400 turn 0 room 512 heap 0
1 give 0x00001600 turn 0 room 512 heap 0
1 give 0x00001800 turn 0 room 512 heap 0
1 give 0x00001a00 turn 0 room 512 heap 0
1 give 0x00001c00 turn 0 room 512 heap 0
1 give 0x00001e00 turn 0 room 512 heap 0
1 freed 0x00001000 turn 0 epoch 0
1 freed 0x00001200 turn 0 epoch 0
1 freed 0x00001400 turn 0 epoch 0
1 freed 0x00001600 turn 0 epoch 0
1 freed 0x00001800 turn 0 epoch 0
1 freed 0x00001a00 turn 0 epoch 0
1 freed 0x00001c00 turn 0 epoch 0
1 freed 0x00001e00 turn 0 epoch 0
0 pass 0
0 not-offered page 1
close
report
page 1 heap 0 class 512 live 0 free 256 stamp 0 marks backed+offered+hinted
total deeds 1 backed 1 live 0 given 8 ended 8
""",
    ),
    Worked(
        "The slots of thirty-three directories.",
        """pas 1 pages 33 threads 2 heaps 3 age 2
a 1 1 0 16 16
a 1 2 0 32 16
a 1 3 0 48 16
a 1 4 0 64 16
a 1 5 0 80 16
a 1 6 0 96 16
a 1 7 0 112 16
a 1 8 0 128 16
a 1 9 0 160 16
a 1 10 0 192 16
a 1 11 0 224 16
a 1 12 0 256 16
a 1 13 0 320 16
a 1 14 0 384 16
a 1 15 0 448 16
a 1 16 0 512 16
a 1 17 1 16 16
a 1 18 1 32 16
a 1 19 1 48 16
a 1 20 1 64 16
a 1 21 1 80 16
a 1 22 1 96 16
a 1 23 1 112 16
a 1 24 1 128 16
a 1 25 1 160 16
a 1 26 1 192 16
a 1 27 1 224 16
a 1 28 1 256 16
a 1 29 1 320 16
a 1 30 1 384 16
a 1 31 1 448 16
a 1 32 1 512 16
a 1 33 2 16 16
a 2 34 0 16 16
a 2 35 0 32 16
""",
        """1 deed page 1 heap 0 class 16
1 back page 1
1 give 0x00001000 turn 0 room 16 heap 0
1 deed page 2 heap 0 class 32
1 back page 2
1 give 0x00002000 turn 0 room 32 heap 0
1 deed page 3 heap 0 class 48
1 back page 3
1 give 0x00003000 turn 0 room 48 heap 0
1 deed page 4 heap 0 class 64
1 back page 4
1 give 0x00004000 turn 0 room 64 heap 0
1 deed page 5 heap 0 class 80
1 back page 5
1 give 0x00005000 turn 0 room 80 heap 0
1 deed page 6 heap 0 class 96
1 back page 6
1 give 0x00006000 turn 0 room 96 heap 0
1 deed page 7 heap 0 class 112
1 back page 7
1 give 0x00007000 turn 0 room 112 heap 0
1 deed page 8 heap 0 class 128
1 back page 8
1 give 0x00008000 turn 0 room 128 heap 0
1 deed page 9 heap 0 class 160
1 back page 9
1 give 0x00009000 turn 0 room 160 heap 0
1 deed page 10 heap 0 class 192
1 back page 10
1 give 0x0000a000 turn 0 room 192 heap 0
1 deed page 11 heap 0 class 224
1 back page 11
1 give 0x0000b000 turn 0 room 224 heap 0
1 deed page 12 heap 0 class 256
1 back page 12
1 give 0x0000c000 turn 0 room 256 heap 0
1 deed page 13 heap 0 class 320
1 back page 13
1 give 0x0000d000 turn 0 room 320 heap 0
1 deed page 14 heap 0 class 384
1 back page 14
1 give 0x0000e000 turn 0 room 384 heap 0
1 deed page 15 heap 0 class 448
1 back page 15
1 give 0x0000f000 turn 0 room 448 heap 0
1 deed page 16 heap 0 class 512
1 back page 16
1 give 0x00010000 turn 0 room 512 heap 0
1 deed page 17 heap 1 class 16
1 back page 17
1 give 0x00011000 turn 0 room 16 heap 1
1 deed page 18 heap 1 class 32
1 back page 18
1 give 0x00012000 turn 0 room 32 heap 1
1 deed page 19 heap 1 class 48
1 back page 19
1 give 0x00013000 turn 0 room 48 heap 1
1 deed page 20 heap 1 class 64
1 back page 20
1 give 0x00014000 turn 0 room 64 heap 1
1 deed page 21 heap 1 class 80
1 back page 21
1 give 0x00015000 turn 0 room 80 heap 1
1 deed page 22 heap 1 class 96
1 back page 22
1 give 0x00016000 turn 0 room 96 heap 1
1 deed page 23 heap 1 class 112
1 back page 23
1 give 0x00017000 turn 0 room 112 heap 1
1 deed page 24 heap 1 class 128
1 back page 24
1 give 0x00018000 turn 0 room 128 heap 1
1 deed page 25 heap 1 class 160
1 back page 25
1 give 0x00019000 turn 0 room 160 heap 1
1 deed page 26 heap 1 class 192
1 back page 26
1 give 0x0001a000 turn 0 room 192 heap 1
1 deed page 27 heap 1 class 224
1 back page 27
1 give 0x0001b000 turn 0 room 224 heap 1
1 deed page 28 heap 1 class 256
1 back page 28
1 give 0x0001c000 turn 0 room 256 heap 1
1 deed page 29 heap 1 class 320
1 back page 29
1 give 0x0001d000 turn 0 room 320 heap 1
1 deed page 30 heap 1 class 384
1 back page 30
1 give 0x0001e000 turn 0 room 384 heap 1
1 deed page 31 heap 1 class 448
1 back page 31
1 give 0x0001f000 turn 0 room 448 heap 1
1 deed page 32 heap 1 class 512
1 back page 32
1 give 0x00020000 turn 0 room 512 heap 1
1 deed page 33 heap 2 class 16
1 back page 33
1 give 0x00021000 turn 0 room 16 heap 2
2 give 0x00001010 turn 0 room 16 heap 0
2 held 2 name 35
close
report
page 1 heap 0 class 16 live 2 free 254 stamp 0 marks backed+offered
page 2 heap 0 class 32 live 1 free 254 stamp 0 marks backed+offered
page 3 heap 0 class 48 live 1 free 253 stamp 0 marks backed+offered
page 4 heap 0 class 64 live 1 free 252 stamp 0 marks backed+offered
page 5 heap 0 class 80 live 1 free 251 stamp 0 marks backed+offered
page 6 heap 0 class 96 live 1 free 250 stamp 0 marks backed+offered
page 7 heap 0 class 112 live 1 free 249 stamp 0 marks backed+offered
page 8 heap 0 class 128 live 1 free 248 stamp 0 marks backed+offered
page 9 heap 0 class 160 live 1 free 246 stamp 0 marks backed+offered
page 10 heap 0 class 192 live 1 free 244 stamp 0 marks backed+offered
page 11 heap 0 class 224 live 1 free 242 stamp 0 marks backed+offered
page 12 heap 0 class 256 live 1 free 240 stamp 0 marks backed+offered
page 13 heap 0 class 320 live 1 free 236 stamp 0 marks backed+offered
page 14 heap 0 class 384 live 1 free 232 stamp 0 marks backed+offered
page 15 heap 0 class 448 live 1 free 228 stamp 0 marks backed+offered
page 16 heap 0 class 512 live 1 free 224 stamp 0 marks backed+offered
page 17 heap 1 class 16 live 1 free 255 stamp 0 marks backed+offered
page 18 heap 1 class 32 live 1 free 254 stamp 0 marks backed+offered
page 19 heap 1 class 48 live 1 free 253 stamp 0 marks backed+offered
page 20 heap 1 class 64 live 1 free 252 stamp 0 marks backed+offered
page 21 heap 1 class 80 live 1 free 251 stamp 0 marks backed+offered
page 22 heap 1 class 96 live 1 free 250 stamp 0 marks backed+offered
page 23 heap 1 class 112 live 1 free 249 stamp 0 marks backed+offered
page 24 heap 1 class 128 live 1 free 248 stamp 0 marks backed+offered
page 25 heap 1 class 160 live 1 free 246 stamp 0 marks backed+offered
page 26 heap 1 class 192 live 1 free 244 stamp 0 marks backed+offered
page 27 heap 1 class 224 live 1 free 242 stamp 0 marks backed+offered
page 28 heap 1 class 256 live 1 free 240 stamp 0 marks backed+offered
page 29 heap 1 class 320 live 1 free 236 stamp 0 marks backed+offered
page 30 heap 1 class 384 live 1 free 232 stamp 0 marks backed+offered
page 31 heap 1 class 448 live 1 free 228 stamp 0 marks backed+offered
page 32 heap 1 class 512 live 1 free 224 stamp 0 marks backed+offered
page 33 heap 2 class 16 live 1 free 255 stamp 0 marks backed+offered
total deeds 33 backed 33 live 34 given 34 ended 0
""",
    ),
]

# What `run` writes of guarded traces of examples/: in a phase the keeper's lines come behind the thread's.
KEEPERS_LAST = {
    "guards": """1 deed page 1 heap 0 large
1 back page 1
1 give 0x00001000 turn 0 room 4096 heap 0
1 freed 0x00003000 turn 0 epoch 0
1 give 0x00003000 turn 1 room 4096 heap 0
2 deed page 2 heap 0 large
2 deed page 3 heap 0 large
2 deed page 4 heap 0 large
2 back page 3
2 give 0x00003000 turn 0 room 4096 heap 0
2 guarded 2 4 name 2
2 lowered 2 4
2 deed page 5 heap 0 large
2 deed page 6 heap 0 large
2 deed page 7 heap 0 large
2 back page 5
2 back page 6
2 give 0x00005000 turn 0 room 8192 heap 0
2 guarded 4 7 name 4
close
2 lowered 4 7
report
page 1 heap 0 large live 1 free 0 stamp 0 marks backed+parked
page 2 heap 0 large live 0 free 256 stamp 0 marks offered
page 3 heap 0 large live 1 free 0 stamp 0 marks backed+parked+hinted
page 4 heap 0 large live 0 free 256 stamp 0 marks offered
page 5 heap 0 large live 1 free 0 stamp 0 marks backed+parked
page 6 heap 0 large live 0 free 0 stamp 0 marks backed+parked
page 7 heap 0 large live 0 free 256 stamp 0 marks offered
total deeds 7 backed 4 live 3 given 4 ended 1
""",
    "guards-no-run": """1 deed page 1 heap 0 large
1 back page 1
1 give 0x00001000 turn 0 room 4096 heap 0
close
report
page 1 heap 0 large live 1 free 0 stamp 0 marks backed+parked
total deeds 1 backed 1 live 1 given 1 ended 0
""",
}

# In one phase the lines of thread 1 stand before those of thread 2, whichever comes first in the text.
BY_THREAD = Worked(
    "lines by thread",
    """pas 1 pages 1 threads 2 heaps 1 age 2
a 2 1 0 16 16
r 1 0x00000008 0
""",
    """1 outside 0x00000008 turn 0
2 deed page 1 heap 0 class 16
2 back page 1
2 give 0x00001000 turn 0 room 16 heap 0
close
report
page 1 heap 0 class 16 live 1 free 255 stamp 0 marks backed+offered
total deeds 1 backed 1 live 1 given 1 ended 0
""",
)

# Two threads free one block in a phase: the free of thread 1 finds it, or that of thread 2.
TWO_FREES = """pas 1 pages 1 threads 2 heaps 1 age 2
a 1 1 0 16 16
phase
f 1 1
flush 1
f 2 1
flush 2
"""
ONE_FREED = [
    """1 deed page 1 heap 0 class 16
1 back page 1
1 give 0x00001000 turn 0 room 16 heap 0
phase 2
1 freed 0x00001000 turn 0 epoch 0
2 ended 0x00001000 turn 0
close
report
page 1 heap 0 class 16 live 0 free 256 stamp 0 marks backed+offered+hinted
total deeds 1 backed 1 live 0 given 1 ended 1
""",
    """1 deed page 1 heap 0 class 16
1 back page 1
1 give 0x00001000 turn 0 room 16 heap 0
phase 2
1 ended 0x00001000 turn 0
2 freed 0x00001000 turn 0 epoch 0
close
report
page 1 heap 0 class 16 live 0 free 256 stamp 0 marks backed+offered+hinted
total deeds 1 backed 1 live 0 given 1 ended 1
""",
]

# The runs on pages 2 and 3 went to the index of heap 1 with the operations of thread 2. That on page 1 ended as thread 1
# was stopped, and this thread has no operation after it: so page 2 is named for the next request, where a scan would take
# page 1, and page 3 for the one after it, as page 2 has left the index. The last one is served by a scan.
ENDED_RUNS = Worked(
    "an index names each run that ended once",
    """pas 1 pages 4 threads 2 heaps 2 age 2
a 1 1 1 4096 16
f 1 1
phase
a 2 2 1 4096 16
a 2 3 1 4096 16
f 2 2
f 2 3
flush 2
phase
idle 0
phase
a 2 4 1 4096 16
a 2 5 1 4096 16
a 2 6 1 4096 16
""",
    """1 deed page 1 heap 1 large
1 back page 1
1 give 0x00001000 turn 0 room 4096 heap 1
phase 2
2 deed page 2 heap 1 large
2 back page 2
2 give 0x00002000 turn 0 room 4096 heap 1
2 deed page 3 heap 1 large
2 back page 3
2 give 0x00003000 turn 0 room 4096 heap 1
2 freed 0x00002000 turn 0 epoch 0
2 freed 0x00003000 turn 0 epoch 0
phase 3
1 freed 0x00001000 turn 0 epoch 0
0 stopped 1
0 stopped 2
phase 4
2 give 0x00002000 turn 1 room 4096 heap 1
2 give 0x00003000 turn 1 room 4096 heap 1
2 give 0x00001000 turn 1 room 4096 heap 1
close
report
page 1 heap 1 large live 1 free 0 stamp 0 marks backed+parked+hinted
page 2 heap 1 large live 1 free 0 stamp 0 marks backed+parked+hinted
page 3 heap 1 large live 1 free 0 stamp 0 marks backed+parked+hinted
total deeds 3 backed 3 live 3 given 6 ended 3
""",
)
# On threads the scavenger's lines stand first.
BY_THE_SHARED_INDEX = """1 deed page 1 heap 1 large
1 back page 1
1 give 0x00001000 turn 0 room 4096 heap 1
phase 2
2 deed page 2 heap 1 large
2 back page 2
2 give 0x00002000 turn 0 room 4096 heap 1
2 deed page 3 heap 1 large
2 back page 3
2 give 0x00003000 turn 0 room 4096 heap 1
2 freed 0x00002000 turn 0 epoch 0
2 freed 0x00003000 turn 0 epoch 0
phase 3
0 stopped 1
0 stopped 2
1 freed 0x00001000 turn 0 epoch 0
phase 4
2 give 0x00002000 turn 1 room 4096 heap 1
2 give 0x00003000 turn 1 room 4096 heap 1
2 give 0x00001000 turn 1 room 4096 heap 1
close
report
page 1 heap 1 large live 1 free 0 stamp 0 marks backed+parked+hinted
page 2 heap 1 large live 1 free 0 stamp 0 marks backed+parked+hinted
page 3 heap 1 large live 1 free 0 stamp 0 marks backed+parked+hinted
total deeds 3 backed 3 live 3 given 6 ended 3
"""
