#!/usr/bin/env python3
"""tests/storm.py PROGRAM [--seconds N] [--rounds N] [--operations N]

Replays random traces of 16 threads on 64 pages by `pas run`, again and again for so many seconds (60), or in so many rounds
however long they take, with so many operations each (500,000), in 1, 20 and 200 phases in turn. Each run has to end with
status 0; in its report each page with a deed and room is offered, each other one parked, and each backed page without a
live block is hinted; what was given and not ended is live. Between them small traces are judged line by line
(tests/transcripts.py). Prints the operations replayed and the greatest memory by the number of phases, which must not grow
with it."""
import os
import random
import subprocess
import sys
import tempfile
import time

from traces import read_trace
from transcripts import judge

THREADS, PAGES, HEAPS = 16, 64, 4
SIZES = [16, 24, 48, 100, 256, 512, 600, 1500, 2048, 4096, 9000]
PHASES = [1, 20, 200]
JUDGED = 4000


def storm(rng, operations, phases):
    """A random trace: requests of all kinds, frees of the thread's own blocks and of those of earlier phases, flushes and stops; ticks and passes."""
    lines = [f"pas 1 pages {PAGES} threads {THREADS} heaps {HEAPS} age 1", "shared 3"]
    own, old, name, epoch = [[] for _ in range(THREADS + 1)], [], 0, 0
    for phase in range(phases):
        if phase:
            lines.append("phase")
            old += [named for mine in own for named in mine]
            own = [[] for _ in range(THREADS + 1)]
            epoch += 1
            lines.append(f"tick {epoch}")
        for _ in range(operations // phases):
            thread, roll = rng.randint(1, THREADS), rng.random()
            if roll < 0.48:
                name += 1
                lines.append(f"a {thread} {name} {rng.randrange(HEAPS)} {rng.choice(SIZES)} 16")
                own[thread].append(name)
            elif roll < 0.96:
                mine = own[thread] if own[thread] and (not old or roll < 0.9) else old
                if mine:
                    at = rng.randrange(len(mine))
                    mine[at], mine[-1] = mine[-1], mine[at]
                    lines.append(f"f {thread} {mine.pop()}")
            else:
                lines.append(f"{'flush' if roll < 0.985 else 'stop'} {thread}" if roll < 0.999 else "pass")
    return "\n".join(lines) + "\n"


def run(program, text):
    """The status, the text and the greatest memory in kilobytes of a run."""
    with tempfile.TemporaryFile() as source, tempfile.TemporaryFile() as sink:
        source.write(text.encode())
        source.seek(0)
        child = subprocess.Popen([program, "run"], stdin=source, stdout=sink)
        _, status, usage = os.wait4(child.pid, 0)
        sink.seek(0)
        return os.waitstatus_to_exitcode(status), sink.read().decode(), usage.ru_maxrss


def faults_of(transcript):
    """What is wrong with the report of a transcript, by its lines and by the events before it."""
    lines, report = transcript.split("report\n")
    wrong, live = [], 0
    for line in report.splitlines():
        words = line.split()
        if words[0] == "page":
            marks, free, page_live = words[-1].split("+"), int(words[words.index("free") + 1]), int(words[words.index("live") + 1])
            live += page_live
            if ("offered" in marks) == ("parked" in marks) or ("parked" in marks and free and "large" not in words and "bitfit" not in words and "shared" not in words and is_room(words, free)):
                wrong.append(f"neither or both: {line}")
            if "backed" in marks and page_live == 0 and free == 256 and "hinted" not in marks:
                wrong.append(f"not hinted: {line}")
    given, ended = lines.count(" give 0x"), lines.count(" freed 0x")
    totals = report.splitlines()[-1].split()
    if [int(totals[totals.index(word) + 1]) for word in ("given", "ended", "live")] != [given, ended, given - ended]:
        wrong.append(f"{given} given and {ended} ended: {report.splitlines()[-1]}")
    return wrong


def is_room(words, free):
    """Whether the free grains of a page of a class are more than those behind its last slot."""
    grains = int(words[words.index("class") + 1]) // 16
    return free > 256 % grains


def main():
    words = sys.argv[1:]
    seconds = float(words.pop(words.index("--seconds") + 1)) if "--seconds" in words else 60
    rounds = int(words.pop(words.index("--rounds") + 1)) if "--rounds" in words else None
    operations = int(words.pop(words.index("--operations") + 1)) if "--operations" in words else 500_000
    words = [word for word in words if not word.startswith("--")]
    if len(words) != 1:
        sys.exit(__doc__)
    rng, memory, replayed, judged, wrong = random.Random(7), {}, 0, 0, 0
    texts = {phases: storm(rng, operations, phases) for phases in PHASES}
    end, done = time.monotonic() + seconds, 0
    while done < rounds if rounds is not None else time.monotonic() < end:
        done += 1
        for phases, text in texts.items():
            status, transcript, most = run(words[0], text)
            faults = [f"status {status}"] if status else faults_of(transcript)
            replayed += operations
            memory[phases] = max(memory.get(phases, 0), most)
            small = storm(rng, JUDGED, 40)
            status, transcript, _ = run(words[0], small)
            fault = f"status {status}" if status else judge(read_trace(small), transcript)
            judged += 1
            for said in faults + [fault] * (fault is not None):
                print(said)
                wrong += 1
    for phases, most in memory.items():
        print(f"{phases} phases: {most / 1024:.1f} MB")
    print(f"{replayed} operations replayed, {judged} small transcripts judged, {wrong} wrong")
    sys.exit(1 if wrong else 0)


if __name__ == "__main__":
    main()
