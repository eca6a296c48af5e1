"""Traces of several actors, of which one acts in each phase, with their transcripts, each worked out by the rules, for
tests/worked.py: beside those of examples/. It has no program of its own."""

from worked_traces import Worked

# Threads have no choice.
IN_TURN = [
    Worked(
        "Threads that have nothing to stop.",
        """pas 1 pages 4 threads 2 heaps 1 age 2
flush 2
phase
stop 1
""",
        """phase 2
close
report
total deeds 0 backed 0 live 0 given 0 ended 0
""",
    ),
    Worked(
        "The epoch doesn't fall.",
        """pas 1 pages 4 threads 1 heaps 1 age 2
tick 7
tick 5
""",
        """0 tick 7
0 tick 7
close
report
total deeds 0 backed 0 live 0 given 0 ended 0
""",
    ),
    Worked(
        "A pass finds nothing.",
        """pas 1 pages 4 threads 1 heaps 1 age 2
pass
""",
        """0 pass 0
close
report
total deeds 0 backed 0 live 0 given 0 ended 0
""",
    ),
    Worked(
        "Idle threads.",
        """pas 1 pages 4 threads 3 heaps 1 age 2
stop 2
tick 2
idle 2
phase
idle 3
idle 0
""",
        """0 tick 2
0 stopped 1
0 stopped 3
phase 2
0 stopped 1
0 stopped 2
0 stopped 3
close
report
total deeds 0 backed 0 live 0 given 0 ended 0
""",
    ),
    Worked(
        "A page in another thread's hands is held, until that thread is idle.",
        """pas 1 pages 1 threads 2 heaps 1 age 2
a 1 1 0 16 16
phase
a 2 2 0 16 16
f 2 2
phase
idle 0
phase
a 2 3 0 16 16
""",
        """1 deed page 1 heap 0 class 16
1 back page 1
1 give 0x00001000 turn 0 room 16 heap 0
phase 2
2 held 1 name 2
2 skipped name 2
phase 3
0 stopped 1
0 stopped 2
phase 4
2 give 0x00001010 turn 0 room 16 heap 0
close
report
page 1 heap 0 class 16 live 2 free 254 stamp 0 marks backed+offered
total deeds 1 backed 1 live 2 given 2 ended 0
""",
    ),
    Worked(
        "A name stands for the block that it was given, and for no later one at its place.",
        """pas 1 pages 1 threads 2 heaps 1 age 2
a 1 1 0 16 16
f 1 1
stop 1
phase
a 2 2 0 16 16
phase
f 1 1
flush 1
""",
        """1 deed page 1 heap 0 class 16
1 back page 1
1 give 0x00001000 turn 0 room 16 heap 0
1 freed 0x00001000 turn 0 epoch 0
phase 2
2 give 0x00001000 turn 1 room 16 heap 0
phase 3
1 ended 0x00001000 turn 0
close
report
page 1 heap 0 class 16 live 1 free 255 stamp 0 marks backed+offered+hinted
total deeds 1 backed 1 live 1 given 2 ended 1
""",
    ),
    Worked(
        "An empty page goes back two epochs after its last end, and is backed anew.",
        """pas 1 pages 1 threads 1 heaps 1 age 2
a 1 1 0 16 16
phase
tick 3
phase
f 1 1
stop 1
phase
tick 4
pass
tick 5
pass
pass
phase
a 1 2 0 16 16
""",
        """1 deed page 1 heap 0 class 16
1 back page 1
1 give 0x00001000 turn 0 room 16 heap 0
phase 2
0 tick 3
phase 3
1 freed 0x00001000 turn 0 epoch 3
phase 4
0 tick 4
0 pass 4
0 young page 1 stamp 3
0 tick 5
0 pass 5
0 unback page 1 epoch 5
0 pass 5
phase 5
1 back page 1
1 give 0x00001000 turn 1 room 16 heap 0
close
report
page 1 heap 0 class 16 live 1 free 255 stamp 3 marks backed+offered
total deeds 1 backed 1 live 1 given 2 ended 1
""",
    ),
    Worked(
        "A hinted page in use, and one of which a thread keeps slots.",
        """pas 1 pages 2 threads 1 heaps 1 age 2
a 1 1 0 16 16
f 1 1
stop 1
a 1 2 0 16 16
phase
pass
phase
a 1 3 0 512 16
f 1 3
flush 1
phase
pass
""",
        """1 deed page 1 heap 0 class 16
1 back page 1
1 give 0x00001000 turn 0 room 16 heap 0
1 freed 0x00001000 turn 0 epoch 0
1 give 0x00001000 turn 1 room 16 heap 0
phase 2
0 pass 0
0 in-use page 1 word 0 value 0x0000000000000000
phase 3
1 deed page 2 heap 0 class 512
1 back page 2
1 give 0x00002000 turn 0 room 512 heap 0
1 freed 0x00002000 turn 0 epoch 0
phase 4
0 pass 0
close
report
page 1 heap 0 class 16 live 1 free 255 stamp 0 marks backed+offered
page 2 heap 0 class 512 live 0 free 256 stamp 0 marks backed+offered+hinted
total deeds 2 backed 2 live 1 given 3 ended 2
""",
    ),
    Worked(
        "Passes over a bit-fit page, and over one whose blocks another thread ended.",
        """pas 1 pages 4 threads 2 heaps 1 age 2
a 1 1 0 600 16
f 1 1
flush 1
phase
pass
phase
a 1 2 0 600 16
phase
pass
phase
f 1 2
phase
tick 4
phase
flush 1
phase
tick 5
pass
tick 6
pass
phase
a 1 3 0 512 16
a 1 4 0 512 16
a 1 5 0 512 16
a 1 6 0 512 16
a 1 7 0 512 16
a 1 8 0 512 16
a 1 9 0 512 16
a 1 10 0 512 16
phase
f 2 3
f 2 4
f 2 5
f 2 6
f 2 7
f 2 8
f 2 9
f 2 10
flush 2
phase
pass
""",
        """1 deed page 1 heap 0 bitfit
1 back page 1
1 give 0x00001000 turn 0 room 608 heap 0
1 freed 0x00001000 turn 0 epoch 0
phase 2
0 pass 0
0 young page 1 stamp 0
phase 3
1 give 0x00001000 turn 1 room 608 heap 0
phase 4
0 pass 0
0 in-use page 1 word 0 value 0xffffffc000000000
phase 5
phase 6
0 tick 4
phase 7
1 freed 0x00001000 turn 1 epoch 4
phase 8
0 tick 5
0 pass 5
0 young page 1 stamp 4
0 tick 6
0 pass 6
0 unback page 1 epoch 6
phase 9
1 deed page 2 heap 0 class 512
1 back page 2
1 give 0x00002000 turn 0 room 512 heap 0
1 give 0x00002200 turn 0 room 512 heap 0
1 give 0x00002400 turn 0 room 512 heap 0
1 give 0x00002600 turn 0 room 512 heap 0
1 give 0x00002800 turn 0 room 512 heap 0
1 give 0x00002a00 turn 0 room 512 heap 0
1 give 0x00002c00 turn 0 room 512 heap 0
1 give 0x00002e00 turn 0 room 512 heap 0
phase 10
2 freed 0x00002000 turn 0 epoch 6
2 freed 0x00002200 turn 0 epoch 6
2 freed 0x00002400 turn 0 epoch 6
2 freed 0x00002600 turn 0 epoch 6
2 freed 0x00002800 turn 0 epoch 6
2 freed 0x00002a00 turn 0 epoch 6
2 freed 0x00002c00 turn 0 epoch 6
2 freed 0x00002e00 turn 0 epoch 6
phase 11
0 pass 6
0 not-offered page 2
close
report
page 1 heap 0 bitfit live 0 free 256 stamp 4 marks offered
page 2 heap 0 class 512 live 0 free 256 stamp 6 marks backed+offered+hinted
total deeds 2 backed 1 live 0 given 10 ended 10
""",
    ),
    Worked(
        "Pages of idle threads go back.",
        """pas 1 pages 4 threads 3 heaps 1 age 2
a 1 1 0 512 16
phase
a 2 2 0 256 16
phase
f 1 1
flush 1
phase
f 2 2
flush 2
phase
pass
tick 1
idle 3
tick 3
idle 3
pass
phase
a 1 3 0 512 16
""",
        """1 deed page 1 heap 0 class 512
1 back page 1
1 give 0x00001000 turn 0 room 512 heap 0
phase 2
2 deed page 2 heap 0 class 256
2 back page 2
2 give 0x00002000 turn 0 room 256 heap 0
phase 3
1 freed 0x00001000 turn 0 epoch 0
phase 4
2 freed 0x00002000 turn 0 epoch 0
phase 5
0 pass 0
0 tick 1
0 tick 3
0 stopped 1
0 stopped 2
0 stopped 3
0 pass 3
0 unback page 1 epoch 3
0 unback page 2 epoch 3
phase 6
1 back page 1
1 give 0x00001000 turn 1 room 512 heap 0
close
report
page 1 heap 0 class 512 live 1 free 224 stamp 0 marks backed+offered
page 2 heap 0 class 256 live 0 free 256 stamp 0 marks offered
total deeds 2 backed 1 live 1 given 3 ended 2
""",
    ),
    Worked(
        "A thread frees what another asked for, and goes on with slots that it stopped.",
        """pas 1 pages 8 threads 2 heaps 2 age 2
a 1 1 0 100 16
a 1 2 1 100 16
a 1 3 0 100 16
phase
f 2 1
f 2 2
flush 2
phase
a 1 4 0 100 16
phase
a 2 5 0 100 16
phase
stop 1
phase
a 2 6 1 100 16
""",
        """1 deed page 1 heap 0 class 112
1 back page 1
1 give 0x00001000 turn 0 room 112 heap 0
1 deed page 2 heap 1 class 112
1 back page 2
1 give 0x00002000 turn 0 room 112 heap 1
1 give 0x00001070 turn 0 room 112 heap 0
phase 2
2 freed 0x00001000 turn 0 epoch 0
2 freed 0x00002000 turn 0 epoch 0
phase 3
1 give 0x000010e0 turn 0 room 112 heap 0
phase 4
2 deed page 3 heap 0 class 112
2 back page 3
2 give 0x00003000 turn 0 room 112 heap 0
phase 5
phase 6
2 give 0x00002000 turn 1 room 112 heap 1
close
report
page 1 heap 0 class 112 live 2 free 242 stamp 0 marks backed+offered
page 2 heap 1 class 112 live 1 free 249 stamp 0 marks backed+offered+hinted
page 3 heap 0 class 112 live 1 free 249 stamp 0 marks backed+offered
total deeds 3 backed 3 live 4 given 6 ended 2
""",
    ),
    Worked(
        "Two threads at a shared page.",
        """pas 1 pages 8 threads 2 heaps 2 age 2
shared 1
a 1 1 1 16 16
a 1 2 1 48 16
phase
a 2 3 1 16 16
a 2 4 1 512 16
phase
a 1 5 0 16 16
a 1 6 0 48 16
f 1 1
flush 1
a 1 7 1 16 16
""",
        """1 deed page 1 heap 1 shared
1 back page 1
1 give 0x00001000 turn 0 room 16 heap 1
1 give 0x00001060 turn 0 room 48 heap 1
phase 2
2 give 0x00001040 turn 0 room 16 heap 1
2 give 0x00001200 turn 0 room 512 heap 1
phase 3
1 deed page 2 heap 0 class 16
1 back page 2
1 give 0x00002000 turn 0 room 16 heap 0
1 deed page 3 heap 0 class 48
1 back page 3
1 give 0x00003000 turn 0 room 48 heap 0
1 freed 0x00001000 turn 0 epoch 0
1 give 0x00001010 turn 0 room 16 heap 1
close
report
page 1 heap 1 shared live 4 free 219 stamp 0 marks backed+offered
page 2 heap 0 class 16 live 1 free 255 stamp 0 marks backed+offered
page 3 heap 0 class 48 live 1 free 253 stamp 0 marks backed+offered
total deeds 3 backed 3 live 6 given 7 ended 1
""",
    ),
    Worked(
        "Large blocks of two threads, of which one ends the other's.",
        """pas 1 pages 4 threads 2 heaps 1 age 1
a 1 1 0 8192 16
phase
a 2 2 0 4096 16
phase
f 2 1
flush 2
phase
a 1 3 0 4096 16
phase
tick 1
pass
""",
        """1 deed page 1 heap 0 large
1 deed page 2 heap 0 large
1 back page 1
1 back page 2
1 give 0x00001000 turn 0 room 8192 heap 0
phase 2
2 deed page 3 heap 0 large
2 back page 3
2 give 0x00003000 turn 0 room 4096 heap 0
phase 3
2 freed 0x00001000 turn 0 epoch 0
phase 4
1 give 0x00001000 turn 1 room 4096 heap 0
phase 5
0 tick 1
0 pass 1
0 in-use page 1 word 0 value 0x0000000000000000
0 unback page 2 epoch 1
close
report
page 1 heap 0 large live 1 free 0 stamp 0 marks backed+parked
page 2 heap 0 large live 0 free 256 stamp 0 marks offered
page 3 heap 0 large live 1 free 0 stamp 0 marks backed+parked
total deeds 3 backed 2 live 2 given 3 ended 1
""",
    ),
    Worked(
        "A thread frees another's block by a room that it hasn't and by its own one, and then that thread frees it too.",
        """pas 2 pages 1 threads 2 heaps 1 age 2
a 1 1 0 24 16
phase
fs 2 1 48 16
rs 2 0x00001000 0 32 16
flush 2
phase
fs 1 1 32 16
rs 1 0x00001020 0 32 16
""",
        """1 deed page 1 heap 0 class 32
1 back page 1
1 give 0x00001000 turn 0 room 32 heap 0
phase 2
2 size-differs 0x00001000 turn 0 asked 48
2 freed 0x00001000 turn 0 epoch 0
phase 3
close
1 ended 0x00001000 turn 0
1 no-block 0x00001020 turn 0
report
page 1 heap 0 class 32 live 0 free 256 stamp 0 marks backed+offered+hinted
total deeds 1 backed 1 live 0 given 1 ended 1
""",
    ),
    Worked(
        "A thread gives another's block another size, in its heap, and that thread keeps what it came to.",
        """pas 4 pages 2 threads 2 heaps 2 age 2
a 1 1 1 24 16
phase
m 2 2 1 33 16
phase
m 1 3 2 33 16
f 1 3
phase
flush 2
""",
        """1 deed page 1 heap 1 class 32
1 back page 1
1 give 0x00001000 turn 0 room 32 heap 1
phase 2
2 deed page 2 heap 1 class 48
2 back page 2
2 give 0x00002000 turn 0 room 48 heap 1
phase 3
1 kept 0x00002000 turn 0 name 3
phase 4
2 freed 0x00001000 turn 0 epoch 0
close
1 freed 0x00002000 turn 0 epoch 0
report
page 1 heap 1 class 32 live 0 free 256 stamp 0 marks backed+offered+hinted
page 2 heap 1 class 48 live 0 free 256 stamp 0 marks backed+offered+hinted
total deeds 2 backed 2 live 0 given 2 ended 2
""",
    ),
]
