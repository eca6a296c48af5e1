#!/usr/bin/env python3
"""tests/threaded_runs.py PROGRAM [--runs N] [--load] [--self-test] [TRACE..]

Runs `pas run` again and again, and judges each transcript (tests/transcripts.py). Without traces it has small ones of its
own, in which two to eight threads, their keepers and the scavenger race, each run N times (100); a TRACE is a file in the
trace format, or the same packed by xz, and is run N times (5). With --load as many processes as the machine has processors
keep it busy meanwhile. Says of each trace how many different transcripts there were, how many were wrong, and how many
guards went up; the status is 1 where any was wrong, and where in thirty runs or more of its own traces no more than 2,000
guards went up. With --self-test right transcripts are spoilt in place of it, a line or a digit each, and those are counted that are
refused; where the program has no `run`, they are of `order`, sorted by actor."""

import lzma
import os
import random
import subprocess
import sys
import tempfile

from run_lines import by_phase_and_actor
from traces import read_trace
from transcripts import judge

MOST_SECONDS = 120
LEAST_REFUSED = 0.95
SPOILS = 40
MANY_GUARDS, MANY_RUNS = 2_000, 30


def asked(thread, names, heap, size, align=16):
    """A request of the thread for each of the names."""
    return [f"a {thread} {name} {heap} {size} {align}" for name in names]


def freed(thread, names):
    return [f"f {thread} {name}" for name in names]


def in_turn(*lists):
    """Lines of several actors in turn, each actor's in its own order."""
    return [line for at in range(max(map(len, lists))) for lines in lists for line in lines[at:at + 1]]


def trace(pages, threads, heaps, age, *phases, shared=(), version=1, guard=None):
    """The text of a trace with these lines in its phases."""
    head = [f"pas {version} pages {pages} threads {threads} heaps {heaps} age {age}"] + [f"shared {heap}" for heap in shared]
    head += [f"guard {guard}"] if guard else []
    return "\n".join(head + [line for at, phase in enumerate(phases) for line in (["phase"] if at else []) + phase]) + "\n"


def two_frees():
    """Two threads free the same blocks, so each block is ended once and its other free has come too late."""
    names = range(1, 1001)
    frees = [[line for name in names for line in freed(thread, [name]) + ([f"flush {thread}"] if name % 5 == 0 else [])] for thread in (1, 2)]
    return trace(16, 2, 1, 2, asked(1, names, 0, 64), in_turn(*frees))


def the_one_page():
    """Four threads ask for slots of the one page, and give them up again and again."""
    turns = [[line for name in range(100 * thread, 100 * thread + 60) for line in asked(thread, [name], 0, 256) + freed(thread, [name]) + [f"stop {thread}"]]
             for thread in range(1, 5)]
    return trace(1, 4, 1, 2, in_turn(*turns))


def whose_page():
    """Four threads with a heap each race for the deeds of the pages."""
    turns = [asked(thread, range(thread * 1000, thread * 1000 + 150), thread - 1, 512) for thread in range(1, 5)]
    return trace(60, 4, 4, 2, in_turn(*turns))


def shared_pages():
    """Three threads have views of the same pages for three classes, and free what another asked for."""
    first = [asked(thread, range(thread * 100, thread * 100 + 100), 0, 16 * thread) for thread in (1, 2, 3)]
    second = [in_turn(freed(thread, range(thread % 3 * 100 + 100, thread % 3 * 100 + 200)), asked(thread, range(thread * 1000, thread * 1000 + 100), 0, 48))
              + [f"stop {thread}"] for thread in (1, 2, 3)]
    return trace(3, 3, 1, 2, in_turn(*first), in_turn(*second), shared=[0])


def bit_fit():
    """Three threads fit blocks of many sizes between each other's on few pages."""
    turns = []
    for thread in (1, 2, 3):
        names = range(thread * 100, thread * 100 + 100)
        asks = [line for name in names for line in asked(thread, [name], 0, 520 + name * 37 % 1500, 16 << name % 3)]
        frees = [line for name in names for line in freed(thread, [name]) + ([f"flush {thread}"] if name % 2 else [])]
        turns.append(in_turn(asks, [""] * 2 + frees))
    return trace(4, 3, 1, 2, [line for line in in_turn(*turns) if line])


def large_blocks():
    """Three threads claim runs of one to three of eight pages."""
    turns = [[line for name in range(thread * 100, thread * 100 + 60)
              for line in asked(thread, [name], 0, 4096 * (name % 3) + 2100) + freed(thread, [name]) + [f"flush {thread}"]] for thread in (1, 2, 3)]
    return trace(8, 3, 1, 2, in_turn(*turns))


def large_and_small():
    """Runs of pages, bit-fit blocks and slots, of two heaps, race for the pages of the region."""
    turns = [asked(thread, range(thread * 100, thread * 100 + 30), thread % 2, size) for thread, size in ((1, 9000), (2, 1500), (3, 512), (4, 4096))]
    frees = [freed(thread, range(thread * 100, thread * 100 + 30)) + [f"stop {thread}"] for thread in range(1, 5)]
    again = [asked(thread, range(thread * 1000, thread * 1000 + 30), thread % 2, size) for thread, size in ((1, 4096), (2, 512), (3, 1500), (4, 9000))]
    return trace(50, 4, 2, 2, in_turn(*turns), in_turn(*(first + second for first, second in zip(frees, again))))


def full_logs():
    """Each of two threads frees more of the other's blocks than a log has places for, and its own ones."""
    names = {thread: range(thread * 1000, thread * 1000 + 800) for thread in (1, 2)}
    frees = [in_turn(freed(thread, names[3 - thread]), asked(thread, range(thread * 2000 + 1000, thread * 2000 + 1400), 0, 32)) for thread in (1, 2)]
    return trace(18, 2, 1, 2, in_turn(*(asked(thread, names[thread], 0, 32) for thread in (1, 2))), in_turn(*frees))


def ticks_beside():
    """The epoch rises while three threads free."""
    names = {thread: range(thread * 1000, thread * 1000 + 250) for thread in (1, 2, 3)}
    turns = [[line for name in names[thread] for line in asked(thread, [name], thread % 2, 112) + freed(thread, [name]) + [f"flush {thread}"]]
             for thread in (1, 2, 3)]
    return trace(6, 3, 2, 2, in_turn(*turns, [f"tick {epoch}" for epoch in range(1, 2500)]))


def passes_beside():
    """The scavenger takes pages back while threads empty and fill them: slots, large blocks and bit-fit ones."""
    turns = [[line for name in range(thread * 1000, thread * 1000 + 200)
              for line in asked(thread, [name], 0, size) + freed(thread, [name]) + [f"stop {thread}"]] for thread, size in ((1, 512), (2, 3000), (3, 1040))]
    scavenger = [line for epoch in range(1, 900) for line in (f"tick {epoch}", "pass")]
    return trace(4, 3, 1, 1, in_turn(*turns, scavenger), ["pass", "tick 900", "pass"], in_turn(*(asked(thread, [thread], 0, 512) for thread in (1, 2, 3))))


def idle_threads():
    """Threads that rest have their caches stopped, while another asks for their slots."""
    names = {thread: range(thread * 100, thread * 100 + 20) for thread in (1, 2, 3)}
    asks = in_turn(*(asked(thread, names[thread], 0, 128) + freed(thread, names[thread][5:]) for thread in (1, 2, 3)))
    scavenger = ["tick 1", "idle 2", "tick 2"] + ["idle 3", "pass"] * 400 + ["idle 1", "pass", "tick 3", "idle 0", "pass", "idle 9"]
    beside = in_turn(asked(1, range(1000, 1300), 0, 128), scavenger)
    return trace(10, 3, 1, 1, asks, [], beside, ["tick 4", "idle 1", "pass"], asked(2, range(2000, 2030), 0, 128))


def raw_frees():
    """Frees by address and turn race with the gives that these turns wait for."""
    turns = [line for name in range(1, 151) for line in asked(1, [name], 0, 512) + freed(1, [name]) + ["stop 1"]]
    frees = [[line for turn in range(150) for line in (f"r {thread} 0x00001000 {turn}", f"flush {thread}")] for thread in (2, 3)]
    others = ["r 2 0x00000ff0 0", "r 2 0x00001008 1", "r 3 0x00002000 0", "r 3 0x00001010 0", "flush 3"]
    return trace(1, 3, 1, 2, in_turn(turns, *frees), others)


def sized_frees():
    """Each of two threads frees the other's blocks, of classes, bit-fit ones and whole pages, by the sizes that were asked for,
    some by larger ones too, and its own blocks by others; and blocks by address and turn."""
    sizes = {name: (24, 600, 1000, 4097)[name % 4] for name in range(1, 321)}
    names = {thread: [name for name in sizes if name % 2 == thread - 1] for thread in (1, 2)}
    asks = [[line for name in names[thread] for line in asked(thread, [name], thread - 1, sizes[name])] for thread in (1, 2)]
    frees = []
    for thread in (1, 2):
        others, own = ([f"fs {thread} {name} {size} 16" for name in names[which] for size in rooms(sizes[name])]
                       for which, rooms in ((3 - thread, lambda size: (size, 2 * size)[:1 + (size > 600)]), (thread, lambda size: (size + 40,))))
        raw = [f"rs {thread} {4096 * page:#010x} 0 {size} 16" for page in range(1, 40) for size in (24, 4097)]
        frees.append(in_turn(others, own, raw, [""] * 20 + [f"flush {thread}"] * 40))
    return trace(400, 2, 2, 2, in_turn(*asks), [line for line in in_turn(*frees) if line], version=2)


def four_more_classes():
    """Three threads fill and empty pages of the classes that came with version 3, by frees that name a size between two."""
    turns = [[line for name in range(1000 * thread, 1000 * thread + 120)
              for line in asked(thread, [name], 0, size, align) + [f"fs {thread} {name} {size - 17} {align}"] + [f"stop {thread}"] * (name % 3 == 0)]
             for thread, size, align in ((1, 640, 128), (2, 896, 16), (3, 1024, 512))]
    return trace(6, 3, 1, 2, in_turn(*turns), version=3)


def reallocations():
    """Two threads give their own blocks other sizes, and then each the blocks that both have, so that each block is freed twice or kept for
    two names; some want whole pages, and some find no room."""
    sizes = (24, 600, 4097, 100)
    first = {thread: range(1000 * thread, 1000 * thread + 80) for thread in (1, 2)}
    own = [[line for name in first[thread] for line in asked(thread, [name], thread - 1, sizes[name % 4]) +
            [f"m {thread} {name + 100} {name} {sizes[name // 4 % 4]} {16 << name % 3}"]] for thread in (1, 2)]
    again = [[line for name in (*first[1], *first[2]) for line in [f"m {thread} {name + 100 * thread + 300} {name + 100} {sizes[name // 16 % 4] + thread} 16"] +
              [f"flush {thread}"] * (name % 7 == 0)] for thread in (1, 2)]
    return trace(40, 2, 2, 2, in_turn(*own), in_turn(*again), version=4)


def guarded(threads, every, pages, requests):
    """Requests for one or two whole pages, each so many guarded, of threads that free all their blocks but the first two, and, a phase later,
    those of another; a small block now and then; and a scavenger that takes pages back. Then thread 1 asks alone, while the others are idle."""
    turns, left = [], {}
    for thread in range(1, threads + 1):
        names, lines = range(1000 * thread, 1000 * thread + requests), []
        for at, name in enumerate(names):
            lines += asked(thread, [name], 0, 4096 * (at % 2) + 2100) + (asked(thread, [name + 500], 0, 600) if at % 16 == 5 else [])
            lines += freed(thread, [name]) + [f"flush {thread}"] if at > 1 else []
        turns.append(lines)
        left[thread] = names[:2]
    scavenger = [line for epoch in range(1, 2 * requests) for line in (f"tick {epoch}", "pass")]
    others = [[line for name in left[thread % threads + 1] for line in freed(thread, [name]) + [f"flush {thread}"] + asked(thread, [name + 500 * threads + 9000], 0, 5000)]
              for thread in range(1, threads + 1)]
    alone = ["idle 0", f"tick {2 * requests}", "pass"] + asked(1, range(20_000, 20_006), 0, 4096) + freed(1, range(20_000, 20_003)) + ["flush 1"]
    return trace(pages, threads, 1, 1, in_turn(*turns, scavenger), in_turn(*others, ["pass", "idle 1", "pass"]), alone, version=4, guard=every)


def guards_of_two():
    return guarded(2, 1, 24, 30)


def guards_of_three():
    return guarded(3, 2, 30, 30)


def guards_of_four():
    return guarded(4, 1, 40, 24)


def guards_of_eight():
    """Eight threads free what they asked for in the phase and in the one before; behind each such phase stands one of the scavenger alone."""
    phases, before = [], {thread: [] for thread in range(1, 9)}
    for turn in range(6):
        turns = []
        for thread in range(1, 9):
            names, others = range(1000 * thread + 10 * turn, 1000 * thread + 10 * turn + 4), before[thread % 8 + 1]
            lines = [line for name in names for line in asked(thread, [name], thread % 2, 4096 * (name % 2) + 2100)]
            turns.append(lines + freed(thread, [*names[1:], *others]) + [f"flush {thread}"])
        before = {thread: [1000 * thread + 10 * turn] for thread in before}
        phases += [in_turn(*turns), [f"tick {turn + 1}", "pass"]]
    return trace(90, 8, 2, 1, *phases, version=4, guard=3)


def one_thread():
    """One thread, so there is no race."""
    names = range(1, 91)
    asks = [line for name in names for line in asked(1, [name], name % 2, name * 97 % 3000)]
    return trace(12, 1, 2, 2, asks + freed(1, names), asked(1, range(91, 120), 1, 48), shared=[1])


OWN = [two_frees, the_one_page, whose_page, shared_pages, bit_fit, large_blocks, large_and_small, full_logs, ticks_beside, passes_beside,
       idle_threads, raw_frees, sized_frees, four_more_classes, reallocations, guards_of_two, guards_of_three, guards_of_four, guards_of_eight, one_thread]


def named(path):
    """The text of a trace in a file."""
    with (lzma.open if path.endswith(".xz") else open)(path, "rb") as file:
        return file.read().decode("ascii")


def written(program, way, text):
    """What the program writes of a trace, or None where its status isn't 0."""
    done = subprocess.run([program, way], input=text.encode("ascii"), stdout=subprocess.PIPE, timeout=MOST_SECONDS)
    return None if done.returncode else done.stdout.decode("ascii", "replace")


def judged(program, text, transcript):
    """What is wrong with a transcript, or None. Where at most one actor works in each phase, it is that of `order` by actor."""
    plan = read_trace(text)
    if transcript is None:
        return "the status isn't 0"
    if plan.is_in_order() and transcript != by_phase_and_actor(written(program, "order", text)):
        return "nothing happens at the same time, and it isn't what `order` writes"
    return judge(plan, transcript)


def keep(name, text, transcript):
    """Leaves a wrong transcript and its trace in files, and answers where."""
    folder = tempfile.mkdtemp(prefix="wrong-")
    for ending, content in (("trace", text), ("transcript", transcript or "")):
        with open(os.path.join(folder, f"{name}.{ending}"), "w", encoding="utf-8") as file:
            file.write(content)
    return folder


def run_often(program, name, text, runs, load):
    """Runs a trace so often, says what came of it, and answers how many transcripts were wrong, and how many guards went up."""
    found = {}
    with load:
        for _ in range(runs):
            transcript = written(program, "run", text)
            found[transcript] = found.get(transcript, 0) + 1
    wrong = {transcript: reason for transcript in found if (reason := judged(program, text, transcript))}
    count = sum(found[transcript] for transcript in wrong)
    guards = sum(transcript.count(" guarded ") * times for transcript, times in found.items() if transcript)
    print(f"{name}: {runs} runs, {len(found)} different transcripts, {count} wrong" + (f", {guards} guards" if guards else ""), flush=True)
    for transcript, reason in list(wrong.items())[:3]:
        print(f"  {reason:.300}\n  in {keep(name, text, transcript)}", flush=True)
    return count, guards


def spoilt(transcript, numbers):
    """A transcript in which one thing is otherwise: a line left out, two lines that changed places, or a digit."""
    lines = transcript.split("\n")[:-1]
    at, other = numbers.sample(range(len(lines)), 2)
    way = numbers.randrange(3)
    if way == 0:
        del lines[at]
    elif way == 1:
        lines[at], lines[other] = lines[other], lines[at]
    else:
        digits = [place for place, letter in enumerate(lines[at]) if letter in "0123456789"]
        if digits:
            place = numbers.choice(digits)
            digit = numbers.choice([digit for digit in "0123456789" if digit != lines[at][place]])
            lines[at] = lines[at][:place] + digit + lines[at][place + 1:]
    return ["a line left out", "two lines changed", "a digit changed"][way], "\n".join(lines) + "\n"


def self_test(program, traces):
    """Spoils right transcripts, and says how many of these are refused. A few may still be right: a digit of an epoch that
    was also read, or of what the scavenger read of a page."""
    numbers, tried, accepted = random.Random(7), {}, {}
    for name, text in traces:
        transcript = written(program, "run", text) or by_phase_and_actor(written(program, "order", text))
        if wrong := judge(read_trace(text), transcript):
            sys.exit(f"{name}: {wrong}")
        for _ in range(SPOILS):
            way, other = spoilt(transcript, numbers)
            if other != transcript:
                tried[way] = tried.get(way, 0) + 1
                accepted[way] = accepted.get(way, 0) + (judge(read_trace(text), other) is None)
    for way, count in tried.items():
        print(f"{way}: {count - accepted[way]} of {count} refused")
    return 0 if sum(accepted.values()) <= (1 - LEAST_REFUSED) * sum(tried.values()) else 1


class Load:
    """Keeps the processors busy while it is entered."""

    def __init__(self, processes):
        self.processes, self.children = processes, []

    def __enter__(self):
        self.children = [subprocess.Popen([sys.executable, "-c", "while True: pass"]) for _ in range(self.processes)]

    def __exit__(self, *_):
        for child in self.children:
            child.kill()
            child.wait()


def main():
    words, options, runs = sys.argv[1:], set(), None
    while words and (at := next((at for at, word in enumerate(words) if word.startswith("--")), None)) is not None:
        option = words.pop(at)
        if option == "--runs":
            runs = int(words.pop(at))
        elif option in ("--load", "--self-test"):
            options.add(option)
        else:
            sys.exit(__doc__)
    if not words:
        sys.exit(__doc__)
    program, paths = os.path.abspath(words[0]), words[1:]
    traces = [(os.path.basename(path), named(path)) for path in paths] or [(own.__name__, own()) for own in OWN]
    if "--self-test" in options:
        return self_test(program, traces)
    load = Load(os.cpu_count() if "--load" in options else 0)
    runs = runs or (5 if paths else 100)
    told = [run_often(program, name, text, runs, load) for name, text in traces]
    wrong, guards = (sum(counts) for counts in zip(*told))
    print(f"{wrong} wrong, {guards} guards went up")
    return 1 if wrong or (not paths and runs >= MANY_RUNS and guards <= MANY_GUARDS) else 0


if __name__ == "__main__":
    sys.exit(main())
