#!/usr/bin/env python3
"""tests/verdicts.py PROGRAM [--edits N] [--seed S] [--jobs J] [--lines L] [--only] [TRACE..]

Has the program `pas` check transcripts: that of each trace of examples/ (but for `--only`) and of each TRACE (also packed,
as NAME.xz; as much of it as has a transcript of at most L lines), which it has to accept, and N edits of one line of each,
drawn by the seed: a line left out, doubled or exchanged with the next
one, a number of it one off, a word of it changed, another actor; and where a transcript has fewer of these than N, one
byte of a line changed, put in or left out. What the program says of each has to be what a second reading of the rules says
(tests/judge.py): that the line isn't allowed, or which later one isn't, or that the transcript is right as it now stands.
Where it is to refuse a line, it gets only a few of the lines behind that one, which have no say in it: so a program that
takes the line, or refuses another one, is still found out.
Prints for each trace how many edits were refused at their line, how many at a later one and how many are right; status 0
where all verdicts are those of the second reading."""

import argparse
import itertools
import lzma
import os
import pathlib
import random
import re
import subprocess
import sys
from collections import Counter
from concurrent.futures import ProcessPoolExecutor
from typing import NamedTuple

from judge import Judge, Lines, lines_of
from traces import read_trace

MOST_SECONDS = 60
MOST_BYTES = 16_777_216
FEW_LINES = 200
EXAMPLES = pathlib.Path(__file__).resolve().parent.parent / "examples"
WORDS = ["deed", "back", "unback", "give", "freed", "ended", "no-block", "size-differs", "outside", "unaligned", "no-space", "held", "kept", "skipped",
         "guarded", "lowered", "tick", "pass", "bare", "young", "in-use", "not-offered", "stopped", "phase", "close", "report", "page", "heap", "class", "shared", "bitfit",
         "large", "turn", "room", "epoch", "name", "asked", "stamp", "word", "value", "live", "free", "marks", "total", "deeds", "backed", "given"]
MARKS = ["backed", "offered", "parked", "hinted"]
BYTES = [chr(code) for code in range(32, 127)]


class Edit(NamedTuple):
    """What stands from line `at` on, from 0, in place of `count` lines."""

    at: int
    count: int
    lines: tuple


def off_by_one(line):
    """The line with each of its numbers one more and one less; an address also by a grain."""
    for found in re.finditer(r"0x[0-9a-f]+|(?<![\w-])[0-9]+(?![\w-])", line):
        text = found.group()
        is_hex = text.startswith("0x")
        for step in (1, -1, 16, -16) if is_hex else (1, -1):
            value = int(text, 0) + step
            if value >= 0:
                yield line[:found.start()] + (f"0x{value:0{len(text) - 2}x}" if is_hex else str(value)) + line[found.end():]


def other_words(line):
    """The line with one word changed to another, or its marks to others."""
    for found in re.finditer(r"[a-z-]+", line):
        if found.group() in WORDS:
            yield from (line[:found.start()] + word + line[found.end():] for word in WORDS if word != found.group())
    front, marks, back = line.partition(" marks ")
    if marks:
        for bits in range(1 << len(MARKS)):
            yield front + marks + ("+".join(mark for at, mark in enumerate(MARKS) if bits >> at & 1) or "none") + "\n"


def other_actors(line, actors):
    """The line with another actor."""
    actor, space, rest = line.partition(" ")
    if space and actor.isdigit():
        yield from (f"{other} {rest}" for other in range(actors + 2) if other != int(actor))


def kinds_of_edits(lines, at, actors):
    """The edits of one line, by their kinds."""
    line = lines[at]
    moved = [Edit(at, 1, ()), Edit(at, 1, (line, line))]
    if at + 1 < len(lines) and lines[at + 1] != line:
        moved.append(Edit(at, 2, (lines[at + 1], line)))
    others = [off_by_one(line), other_words(line), other_actors(line, actors)]
    return [moved] + [[Edit(at, 1, (other,)) for other in kind if other != line] for kind in others]


def byte_edit(lines, draw):
    """A line with one byte changed, put in or left out."""
    at = draw.randrange(len(lines))
    line, place, byte = lines[at], draw.randrange(len(lines[at])), draw.choice(BYTES)
    return Edit(at, 1, (draw.choice([line[:place] + byte + line[place + 1:], line[:place] + byte + line[place:], line[:place] + line[place + 1:]]),))


def draw_edits(lines, actors, count, draw):
    """So many edits, all unlike, in the order of their lines: of each kind alike, as long as there are more; then of bytes."""
    edits = set()
    for _ in range(8 * count):
        if len(edits) == count:
            break
        kinds = kinds_of_edits(lines, draw.randrange(len(lines)), actors)
        edits.add(draw.choice(draw.choice([kind for kind in kinds if kind])))
    while len(edits) < count:
        edit = byte_edit(lines, draw)
        if edit.lines != (lines[edit.at],):
            edits.add(edit)
    return sorted(edits)


class EditedLines(Lines):
    """The lines of a transcript. Where one is reached that has edits, a child goes on with each of them in its place."""

    def __init__(self, text, edits):
        super().__init__(text)
        self.edits, self.verdicts, self.sink = edits[::-1], {}, None

    def peek(self):
        while self.edits and self.edits[-1].at == self.at:
            edit = self.edits.pop()
            source, sink = os.pipe()
            child = os.fork()
            if not child:
                self.edits, self.sink = [], sink
                self.put(edit)
                break
            os.close(sink)
            with os.fdopen(source, "rb") as told:
                self.verdicts[edit] = told.read().decode()
            os.waitpid(child, 0)
        return super().peek()

    def put(self, edit):
        """Makes the edit. A line that has lost its newline goes on with the next one."""
        end = edit.at + edit.count
        self.lines[edit.at:end + 1] = lines_of("".join(edit.lines) + "".join(self.lines[end:end + 1]))


def verdict_on(trace, lines):
    """What the second reading says of lines."""
    try:
        return Judge(trace, lines).verdict()
    except Exception as error:
        return f"the second reading failed: {error!r}"


def judged(trace, text, edits):
    """The verdict on the transcript, and on it after each edit, by the second reading: a few lines are read again for each."""
    parts, trace = lines_of(text), read_trace(trace)
    if len(parts) <= FEW_LINES:
        return verdict_on(trace, Lines(text)), {edit: verdict_on(trace, Lines("".join((*parts[:edit.at], *edit.lines, *parts[edit.at + edit.count:])))) for edit in edits}
    lines = EditedLines(text, edits)
    verdict = verdict_on(trace, lines)
    if lines.sink is not None:
        os.write(lines.sink, verdict.encode())
        os._exit(0)
    return verdict, lines.verdicts


def told(program, trace, *parts):
    """What the program says of a trace and the parts of a transcript, as bytes."""
    text = b"".join((trace, b"" if trace.endswith(b"\n") else b"\n", b"transcript\n", *parts))
    run = subprocess.run([program, "check"], input=text, stdout=subprocess.PIPE, stderr=subprocess.STDOUT, timeout=MOST_SECONDS)
    said = run.stdout.decode(errors="replace")
    if run.returncode != {"y": 0, "n": 8}.get(said[:1]) or not said.endswith("\n"):
        return f"{said!r} with status {run.returncode}"
    return said[:-1]


def transcript_of(program, trace):
    run = subprocess.run([program, "order"], input=trace.encode(), stdout=subprocess.PIPE, check=True, timeout=MOST_SECONDS)
    return run.stdout.decode()


def read_pair(program, path, most_lines):
    """A trace and its transcript: as much of the trace as may be checked with its transcript in one input, of at most so many lines."""
    trace = lzma.open(path).read().decode() if path.suffix == ".xz" else path.read_text()
    beside = path.with_suffix(".transcript")
    text = beside.read_text() if beside.exists() else transcript_of(program, trace)
    while len(trace) + len(text) + 20 > MOST_BYTES or text.count("\n") > most_lines:
        lines = trace.splitlines(keepends=True)
        trace = "".join(lines[:len(lines) * 9 // 10])
        text = transcript_of(program, trace)
    return trace, text


def outcome_of(edit, verdict):
    """Where an edit is refused."""
    if verdict == "yes":
        return "right"
    return "at its line" if int(verdict.split()[-1]) <= edit.at + max(len(edit.lines), 1) else "later"


def needed(edit, verdict):
    """How many lines behind an edit the program gets: all, or a few more than up to the one that it is to refuse."""
    return max(int(verdict.split()[-1]) - edit.at, 0) + 2 if verdict.startswith("no line ") else None


def try_edits(program, path, count, seed, part, parts, most_lines):
    """Of every so many edits one is tried. How many there were of each outcome, and what is wrong."""
    trace, text = read_pair(program, path, most_lines)
    lines = lines_of(text)
    edits = draw_edits(lines, read_trace(trace).actors, count, random.Random(f"{seed} {path.name}"))[part::parts]
    verdict, verdicts = judged(trace, text, edits)
    trace, text, starts = trace.encode(), text.encode(), [0, *itertools.accumulate(map(len, lines))]
    said = told(program, trace, text)
    faults = [f"{path.name}: the program says {said}, the second reading {verdict}"] if (said, verdict) != ("yes", "yes") else []
    counts = Counter()
    for edit in edits:
        end = edit.at + edit.count
        behind = needed(edit, verdicts.get(edit, ""))
        until = len(lines) if behind is None else min(end + behind, len(lines))
        said = told(program, trace, text[:starts[edit.at]], "".join(edit.lines).encode(), text[starts[end]:starts[until]])
        if said == verdicts.get(edit):
            counts[outcome_of(edit, said)] += 1
        else:
            faults.append(f"{path.name}: {''.join(edit.lines)!r} in place of {edit.count} from line {edit.at + 1}: the program says {said}, the second reading {verdicts.get(edit)}")
    return counts, faults


def main():
    parser = argparse.ArgumentParser(description=__doc__, formatter_class=argparse.RawDescriptionHelpFormatter)
    parser.add_argument("program")
    parser.add_argument("traces", nargs="*", type=pathlib.Path)
    parser.add_argument("--edits", type=int, default=25)
    parser.add_argument("--seed", type=int, default=1)
    parser.add_argument("--jobs", type=int, default=1)
    parser.add_argument("--lines", type=int, default=MOST_BYTES)
    parser.add_argument("--only", action="store_true")
    wanted = parser.parse_intermixed_args()
    examples = [] if wanted.only else [path for path in sorted(EXAMPLES.glob("*.trace")) if not path.with_suffix(".transcript").read_bytes().startswith(b"line ")]
    faults, total = [], Counter()
    with ProcessPoolExecutor(wanted.jobs) as pool:
        tries = {path: [pool.submit(try_edits, wanted.program, path, wanted.edits, wanted.seed, part, wanted.jobs, wanted.lines) for part in range(wanted.jobs)]
                 for path in examples + wanted.traces}
        for path, parts in tries.items():
            results = [part.result() for part in parts]
            counts = sum((counts for counts, _ in results), Counter())
            faults += [fault for _, wrong in results for fault in wrong]
            total += counts
            print(f"{path.name}: {counts['at its line']} refused at their line, {counts['later']} at a later one, {counts['right']} right", flush=True)
    print(*faults, sep="\n", end="\n" if faults else "")
    print(f"{total.total()} edits as the second reading has them, {len(faults)} wrong")
    sys.exit(1 if faults or not total else 0)


if __name__ == "__main__":
    main()
