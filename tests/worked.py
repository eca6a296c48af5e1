#!/usr/bin/env python3
"""tests/worked.py PROGRAM

Compares what the program `pas` says with what was worked out by the rules, by hand: the first faults of texts, with each
of `order`, `run` and `check` (worked_faults.py); the transcripts of traces (worked_traces.py, worked_turns.py,
worked_threads.py, and those of examples/), which `order` writes, also of a text in several pieces, `check` accepts, and
`run` writes where threads have no choice, also with a second thread that does nothing; where they have one, five
transcripts of `run` are judged (transcripts.py); and what `check` says of transcripts (worked_verdicts.py). Ends with
status 0 where all is so."""

import subprocess
import sys
from pathlib import Path

import worked_threads as threads
from traces import read_trace
from transcripts import judge
from worked_faults import CUT, CUTS, GROUPS
from worked_traces import ALONE, PAST_A_LOG, PAST_A_PAGE, Worked
from worked_turns import IN_TURN
from worked_verdicts import CALLS, FREED, JUDGED, TRANSCRIPT

MOST_SECONDS = 60
EXAMPLES = Path(__file__).resolve().parent.parent / "examples"
# How often a trace is replayed on threads that have a choice.
TIMES = 5
# The bytes of a piece of the text that `order` reads.
PIECE = 65_536


class Program:
    """The program, and what was wrong with what it said."""

    def __init__(self, path):
        self.path, self.count, self.faults = path, 0, []

    def says(self, word, text):
        """The status and the text of a run with this word."""
        run = subprocess.run([self.path, word], input=text, stdout=subprocess.PIPE, timeout=MOST_SECONDS)
        return run.returncode, run.stdout

    def compare(self, what, word, text, status, wanted):
        """A run with the word has this status, and writes just this; where nothing is wanted, it writes anything."""
        self.count += 1
        found = self.says(word, text)
        if found[0] != status or wanted is not None and found[1] != wanted:
            self.faults.append(f"{what}: {word} of {text[:200]!r}: status {found[0]} and {found[1][:200]!r}, not {status} and {wanted and wanted[:200]!r}")

    def judge(self, what, trace):
        """A transcript of `run` is a right one."""
        self.count += 1
        status, said = self.says("run", trace.encode())
        if status or (wrong := judge(read_trace(trace), said.decode())):
            self.faults.append(f"{what}: run of {trace[:200]!r}: {f'status {status}' if status else wrong}")


def check_of(trace, transcript):
    """The input of a check. A trace may lack its last newline, and an empty line says nothing."""
    return f"{trace}\ntranscript\n{transcript}".encode()


def with_second_thread(trace):
    """A trace of one thread with a second one, which does nothing: it is replayed on threads."""
    return trace.replace(" threads 1 ", " threads 2 ", 1)


def asking(pages, requests, size):
    """Requests of so many bytes, one after the other."""
    return f"pas 1 pages {pages} threads 1 heaps 1 age 2\n" + "".join(f"a 1 {name} 0 {size} 16\n" for name in range(1, requests + 1))


def filling(pages, requests, size):
    """Requests of so many bytes, and then the frees of all."""
    return asking(pages, requests, size) + "".join(f"f 1 {name}\n" for name in range(1, requests + 1))


def try_faults(program):
    """Each text has its first fault, or none, with each word: `check` finds it in front of the line `transcript`."""
    texts = [(group.what, group.begin + text, fault) for group in GROUPS for text, fault in group.texts]
    texts += [("a text that is cut off", CUT[:end], fault) for ends, fault in CUTS for end in ends]
    for what, text, fault in texts:
        line = None if fault is None else f"{fault}\n".encode()
        for word in ("order", "run"):
            program.compare(what, word, text, int(fault is not None), line)
        program.compare(what, "check", text + b"\ntranscript\n", 8 if fault is None else 1, line or b"no line 1\n")


def long_text(place, lines):
    """40,000 requests, which are three pieces of a text that is read on two threads, with these lines before one of them."""
    requests = [f"a 1 {name} 0 16 16\n" for name in range(1, 40_001)]
    return "pas 1 pages 4096 threads 2 heaps 1 age 2\n" + "".join(requests[: place - 1] + [lines] + requests[place - 1 :])


LONG_TEXTS = [
    (long_text(1, ""), None),
    (long_text(1, "shared 0\n"), None),
    (long_text(2, "shared 0\n"), "line 3: BadWord"),
    (long_text(20_000, "shared 0\n"), "line 20001: BadWord"),
    (long_text(20_000, "phase\n# f\n  f 2 1 \n\nphase\nf 1 2\n"), None),
    (long_text(20_000, "f 2 1\n"), "line 20001: TooEarly"),
    (long_text(25_000, "a 1 7 0 16 16\nfree\n"), "line 25001: NameTaken"),
    (long_text(39_000, "tick 5\nf 1 01\n"), "line 39002: BadNumber"),
    (long_text(40_000, "a 1 40001 0 16 24\n"), "line 40001: BadAlign"),
    (long_text(1, "") + "stop 2", None),
    (long_text(1, "") + "stop 2\nstop 3", "line 40003: BadThread"),
    ("pas 1 pages 4096 threads 2 heaps 1 age 2\n" + "#" * 600_000 + " and more", None),
    ("pas 1 pages 4096 threads 2 heaps 1 age 2\n" + "\n" * 600_000, None),
    ("pas 1 pages 4096 threads 2 heaps 1 age 2\n" + "\n" * 600_000 + "pass 1\n", "line 600002: BadWord"),
    ("\n" * 600_000, "line 1: BadHeader"),
    ("pas 1 pages 4096 threads 1 heaps 1 age 2\n" + "pass\n" * 488, "line 489: TraceTooLarge"),
]


def try_long_texts(program):
    """Long texts have the same first fault in both ways, or are replayed alike: here one actor acts in each phase."""
    for text, fault in LONG_TEXTS:
        text = text.encode()
        if fault is not None:
            for word in ("order", "run"):
                program.compare("a long text", word, text, 1, f"{fault}\n".encode())
            continue
        status, transcript = program.says("order", text)
        program.compare("a long text", "run", text, 0, transcript if status == 0 else b"as with order")


def comments(size, width):
    """Comments of so many bytes in all, in lines of at most that many."""
    return "".join("#" * (min(width, size - at) - 1) + "\n" for at in range(0, size, width))


def try_pieces(program):
    """`order` reads its text in pieces: lines that lie anywhere about the end of one, behind short lines or behind one that is longer than a piece, have the
    transcript that they have alone, and the fault behind them is the first. A text that ends there without a newline is read whole."""
    header, lines = FREED.split("\n", 1)
    for width in (64, 2 * PIECE):
        for place in range(PIECE - len(lines) - 1, PIECE + 2):
            text = header + "\n" + comments(place - len(header) - 1, width) + lines
            program.compare("about the end of a piece", "order", text.encode(), 0, TRANSCRIPT.encode())
            program.compare("about the end of a piece", "order", text[:-1].encode(), 0, TRANSCRIPT.encode())
            fault = f"line {text.count(chr(10)) + 1}: NameUnknown\n".encode()
            program.compare("a fault about the end of a piece", "order", (text + "f 1 2\n" + comments(PIECE, width)).encode(), 1, fault)


def try_alone(program, worked):
    """A trace of one thread: the same text in both ways, also on threads."""
    text = worked.transcript.encode()
    program.compare(worked.what, "order", worked.trace.encode(), 0, text)
    program.compare(worked.what, "run", worked.trace.encode(), 0, text)
    program.compare(worked.what, "run", with_second_thread(worked.trace).encode(), 0, text)
    program.compare(worked.what, "check", check_of(worked.trace, worked.transcript), 0, b"yes\n")


def try_at_once(program, worked):
    program.compare(worked.what, "order", worked.trace.encode(), 0, worked.transcript.encode())
    program.compare(worked.what, "check", check_of(worked.trace, worked.transcript), 0, b"yes\n")
    for _ in range(TIMES):
        program.judge(worked.what, worked.trace)


def try_in_turn(program, worked):
    try_at_once(program, worked)
    program.compare(worked.what, "run", worked.trace.encode(), 0, worked.transcript.encode())


def examples():
    """The traces of examples/ that have a transcript."""
    for path in sorted(EXAMPLES.glob("*.trace")):
        transcript = path.with_suffix(".transcript").read_text()
        if not transcript.startswith("line "):
            yield Worked(path.stem, path.read_text(), transcript)


def try_transcripts(program):
    for worked in ALONE:
        try_alone(program, worked)
    for worked in IN_TURN:
        try_in_turn(program, worked)
    for worked in threads.AT_ONCE:
        try_at_once(program, worked)
    for worked in examples():
        plain = " threads 1 " in worked.trace and not any(line.split(" ")[0] in ("guard", "tick", "pass", "idle") for line in worked.trace.splitlines())
        (try_alone if plain else try_at_once)(program, worked)
        if worked.what in threads.KEEPERS_LAST:
            program.compare(worked.what, "run", worked.trace.encode(), 0, threads.KEEPERS_LAST[worked.what].encode())


def try_full_pages(program):
    """How the transcripts of a full page and of a full log end; and those of pages that fill and empty are right in both ways."""
    for trace, end in ((asking(2, 86, 48), PAST_A_PAGE), (filling(1, 65, 16), PAST_A_LOG)):
        status, transcript = program.says("order", trace.encode())
        if status or not transcript.endswith(end.encode()):
            program.faults.append(f"the transcript of {trace[:100]!r} has another end")
    for shape in ((2, 86, 48), (1, 65, 16), (4, 9, 2048), (16, 5, 12_288)):
        trace = filling(*shape)
        _, transcript = program.says("order", trace.encode())
        try_alone(program, Worked("pages that fill and empty", trace, transcript.decode()))
    passes = "pas 1 pages 4096 threads 1 heaps 1 age 2\n" + "pass\n" * 487
    _, transcript = program.says("order", passes.encode())
    program.compare("as many passes as may be", "check", check_of(passes, transcript.decode()), 0, b"yes\n")


def racing(pages, size, is_scavenged):
    """A trace in whose one phase three threads, and the scavenger where that is asked, race for so many pages: 39 rounds of
    a request, its free and a stop."""
    lines = [f"pas 1 pages {pages} threads 3 heaps 1 age 1"]
    for turn in range(1, 40):
        for thread in (1, 2, 3):
            name = 3 * turn + thread
            lines += [f"a {thread} {name} 0 {size} 16", f"f {thread} {name}", f"stop {thread}"]
        lines += [f"tick {turn}", "pass"] if is_scavenged else []
    return "\n".join(lines) + "\n"


RACES = [(2, 512, False), (2, 1040, False), (2, 4096, False), (1, 512, True), (1, 4096, True)]


def try_races(program):
    """Races for the same pages by slots, bit-fit blocks and whole pages, judged."""
    for race in RACES:
        for _ in range(TIMES):
            program.judge(f"a race {race}", racing(*race))


def try_threads(program):
    """What threads do that have no choice, or one of two."""
    by_thread, ended = threads.BY_THREAD, threads.ENDED_RUNS
    program.compare(by_thread.what, "run", by_thread.trace.encode(), 0, by_thread.transcript.encode())
    program.compare(ended.what, "order", ended.trace.encode(), 0, ended.transcript.encode())
    program.compare(ended.what, "run", ended.trace.encode(), 0, threads.BY_THE_SHARED_INDEX.encode())
    program.compare("two frees", "order", threads.TWO_FREES.encode(), 0, threads.ONE_FREED[0].encode())
    for _ in range(20):
        found = program.says("run", threads.TWO_FREES.encode())
        if found not in [(0, text.encode()) for text in threads.ONE_FREED]:
            program.faults.append(f"two threads free one block: {found}")


def try_verdicts(program):
    for judged in JUDGED:
        program.compare(judged.what, "check", check_of(judged.trace, judged.transcript), 0 if judged.said == "yes" else 8, f"{judged.said}\n".encode())
    for what, text, status, said in CALLS:
        program.compare(what, "check", text.encode(), status, f"{said}\n".encode())


def main():
    if len(sys.argv) != 2 or sys.argv[1].startswith("-"):
        sys.exit(__doc__)
    program = Program(sys.argv[1])
    for part in (try_faults, try_long_texts, try_pieces, try_transcripts, try_full_pages, try_races, try_threads, try_verdicts):
        part(program)
    for fault in program.faults:
        print(fault)
    print(f"{program.count} answers compared, {len(program.faults)} wrong")
    sys.exit(1 if program.faults or not program.count else 0)


if __name__ == "__main__":
    main()
