"""Traces with their transcripts and what figures they have, for tests/figures.py; and traces of many requests. It has no
program of its own."""

FIRST = """pas 1 pages 4 threads 1 heaps 1 age 2
a 1 1 0 24 16
f 1 1
""", """1 deed page 1 heap 0 class 32
1 back page 1
1 give 0x00001000 turn 0 room 32 heap 0
close
1 freed 0x00001000 turn 0 epoch 0
report
page 1 heap 0 class 32 live 0 free 256 stamp 0 marks backed+offered+hinted
total deeds 1 backed 1 live 0 given 1 ended 1
""", {"command": "order", "operations": 2, "lines": 5, "backed_peak": 1, "backed_peak_line": 3, "backed_mean": 0.8, "backed_end": 1, "deeds_class": 1,
      "asked_peak": 24, "asked_peak_line": 3, "asked_mean": 9.6, "given_peak": 32, "given_peak_line": 3, "given_mean": 12.8, "rounding_peak": 8,
      "rounding_peak_line": 3, "rounding_mean": 3.2, "at_peak_asked": 24, "at_peak_given": 32, "fragmentation": 99.4, "given": 1, "freed": 1}
# A block that is kept for another size, one that moves, and two moves that are refused.
MOVES = """pas 4 pages 2 threads 1 heaps 1 age 2
a 1 1 0 24 16
m 1 2 1 32 16
m 1 3 2 33 16
m 1 4 3 64 16
m 1 5 4 16 16
f 1 3
f 1 4
""", """1 deed page 1 heap 0 class 32
1 back page 1
1 give 0x00001000 turn 0 room 32 heap 0
1 kept 0x00001000 turn 0 name 2
1 deed page 2 heap 0 class 48
1 back page 2
1 give 0x00002000 turn 0 room 48 heap 0
1 no-space name 4
1 skipped name 5
1 skipped name 4
close
1 freed 0x00001000 turn 0 epoch 0
1 freed 0x00002000 turn 0 epoch 0
report
page 1 heap 0 class 32 live 0 free 256 stamp 0 marks backed+offered+hinted
page 2 heap 0 class 48 live 0 free 256 stamp 0 marks backed+offered+hinted
total deeds 2 backed 2 live 0 given 2 ended 2
""", {"command": "order", "operations": 7, "lines": 13, "backed_peak": 2, "backed_peak_line": 7, "backed_mean": 1.5, "backed_end": 2, "deeds_class": 2,
      "asked_peak": 65, "asked_peak_line": 7, "asked_mean": 36.8, "given_peak": 80, "given_peak_line": 7, "given_mean": 44.3, "rounding_peak": 15,
      "rounding_peak_line": 7, "rounding_mean": 7.5, "at_peak_asked": 65, "at_peak_given": 80, "fragmentation": 99.2, "given": 2, "kept": 1,
      "no_space": 1, "skipped": 1, "freed": 2, "skipped_frees": 1}
# By `run`: a block ends before it is given, by the order of the lines, and its page gets its deed still later.
EARLY = """pas 1 pages 2 threads 3 heaps 1 age 2
a 2 1 0 24 16
a 3 2 0 20 16
r 1 0x00001020 0
flush 1
pass
""", """0 pass 0
1 freed 0x00001020 turn 0 epoch 0
2 give 0x00001020 turn 0 room 32 heap 0
3 deed page 1 heap 0 class 32
3 back page 1
3 give 0x00001000 turn 0 room 32 heap 0
close
report
page 1 heap 0 class 32 live 1 free 254 stamp 0 marks backed+offered
total deeds 1 backed 1 live 1 given 2 ended 1
""", {"command": "run", "operations": 5, "lines": 7, "backed_peak": 1, "backed_peak_line": 6, "backed_mean": 0.4, "backed_end": 1, "deeds_class": 1,
      "asked_peak": 20, "asked_peak_line": 6, "asked_mean": 5.7, "asked_end": 20, "given_peak": 32, "given_peak_line": 6, "given_mean": 9.1,
      "given_end": 32, "rounding_peak": 12, "rounding_peak_line": 6, "rounding_mean": 3.4, "rounding_end": 12, "at_peak_asked": 20,
      "at_peak_given": 32, "fragmentation": 99.5, "given": 2, "freed": 1, "passes": 1}
# Of four requests for whole pages the second and the fourth are due, and the region has room for one guard. A page goes back and comes again.
GUARDED = """pas 4 pages 6 threads 1 heaps 1 age 1
guard 2
a 1 1 0 4000 16
a 1 2 0 4096 16
f 1 1
flush 1
tick 5
pass
a 1 3 0 3000 16
a 1 4 0 9000 16
""", """1 deed page 1 heap 0 large
1 back page 1
1 give 0x00001000 turn 0 room 4096 heap 0
2 deed page 2 heap 0 large
2 deed page 3 heap 0 large
2 deed page 4 heap 0 large
2 back page 3
2 give 0x00003000 turn 0 room 4096 heap 0
2 guarded 2 4 name 2
1 freed 0x00001000 turn 0 epoch 0
0 tick 5
0 pass 5
0 unback page 1 epoch 5
1 back page 1
1 give 0x00001000 turn 1 room 4096 heap 0
1 no-space name 4
close
2 lowered 2 4
report
page 1 heap 0 large live 1 free 0 stamp 0 marks backed+parked
page 2 heap 0 large live 0 free 256 stamp 0 marks offered
page 3 heap 0 large live 1 free 0 stamp 0 marks backed+parked
page 4 heap 0 large live 0 free 256 stamp 0 marks offered
total deeds 4 backed 2 live 2 given 3 ended 1
""", {"command": "order", "operations": 8, "lines": 18, "backed_peak": 2, "backed_peak_line": 8, "backed_mean": 1.6, "backed_end": 2, "deeds_large": 4,
      "returned": 1, "backed_again": 1, "asked_peak": 8096, "asked_peak_line": 8, "asked_mean": 4725.3, "asked_end": 7096, "given_peak": 8192,
      "given_peak_line": 8, "given_mean": 5006.2, "given_end": 8192, "rounding_peak": 1096, "rounding_peak_line": 15, "rounding_mean": 280.9,
      "rounding_end": 1096, "at_peak_asked": 8096, "at_peak_given": 8192, "fragmentation": 1.2, "given": 3, "no_space": 1, "freed": 1,
      "guards_raised": 1, "guards_due": 2, "ticks": 1, "passes": 1}
BY_HAND = {"first": FIRST, "moves": MOVES, "early": EARLY, "guarded": GUARDED}


def crowded(rng):
    """Requests of small blocks of four threads on a region that is soon full; so many are held by other threads' caches."""
    lines, own, name = ["pas 3 pages 24 threads 4 heaps 2 age 2", "shared 1"], {thread: [] for thread in range(1, 5)}, 0
    for _ in range(1500):
        thread = rng.randint(1, 4)
        if rng.random() < 0.7 or not own[thread]:
            name += 1
            lines.append(f"a {thread} {name} {rng.randrange(2)} {rng.choice((16, 32, 48, 64, 100, 200, 300, 500, 1000))} 16")
            own[thread].append(name)
        elif rng.random() < 0.9:
            lines.append(f"f {thread} {own[thread].pop(rng.randrange(len(own[thread])))}")
        else:
            lines.append(f"{rng.choice(('flush', 'stop'))} {thread}")
    return lines


def many(rng, operations):
    """A trace of a thread that keeps some thousand blocks."""
    lines, live = ["pas 1 pages 4096 threads 1 heaps 4 age 2"], []
    for number in range(1, operations + 1):
        if len(live) < 12000 and (not live or rng.random() < 0.52):
            lines.append(f"a 1 {number} {number & 3} {rng.choice((16, 40, 64, 130, 300, 512))} 16")
            live.append(number)
        else:
            at = rng.randrange(len(live))
            live[at], live[-1] = live[-1], live[at]
            lines.append(f"f 1 {live.pop()}")
    return "\n".join(lines) + "\n"
