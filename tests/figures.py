#!/usr/bin/env python3
"""tests/figures.py PROGRAM [--operations N]

Tests tools/figures.py with the program `pas`. Of the traces of tests/figures_by_hand.py the figures are those that were worked out by hand; of all
examples, of random traces of every version by `order` and by `run`, and of a recorded program they are those of a second reading
(tests/figures_reading.py); it also asks that the room of each block is that of the request that it is counted to. A cache that holds a page is the
one that the figures name: after a `stop` of its thread the request meets that page free. A transcript that lacks a line, or is of another trace, is
refused with the line; so is what is no trace. A trace of N operations (a million) takes less than 64 MB. Prints what was checked; the status is 1
where something was wrong."""

import argparse
import csv
import io
import json
import pathlib
import random
import re
import shutil
import sys
import tempfile

sys.dont_write_bytecode = True
from logs import RECORD, ROOT, called, called_with, check, end_checks, told_on_terminal, trace_of
from figures_by_hand import BY_HAND, GUARDED, crowded, many
from figures_reading import Second
import random_trace

TOOL = ROOT / "tools/figures.py"
MOST_KILOBYTES = 64_000


def figures(*files):
    made = called([sys.executable, str(TOOL), *map(str, files), "--json"])
    check(made.returncode == 0 and not made.stderr, f"{files}: {made.stderr}")
    return json.loads(made.stdout) if made.returncode == 0 else []


def is_same(figure, wanted):
    return abs(figure - wanted) <= 0.0501 if isinstance(wanted, float) else figure == wanted


def test_second(what, row, trace, transcript):
    """The figures are those of the second reading."""
    second = Second(trace, transcript)
    wanted = second.figures()
    wrong = {key: (row.get(key), value) for key, value in wanted.items() if not is_same(row.get(key, -1), value)}
    check(not wrong and set(row) == set(wanted) | {"trace", "transcript", "command", "held_by"}, f"{what}: {wrong}")
    check(second.rooms_are_right, f"{what}: the second reading counts a block to another request")
    check(row["held_by"] is None or sum(row["held_by"].values()) == row["held"], f"{what}: held by {row['held_by']}")


def files_of(room, name, trace, *transcripts):
    paths = [room / f"{name}.trace", *(room / f"{name}.{at}" for at in range(len(transcripts)))]
    for path, text in zip(paths, (trace, *transcripts)):
        path.write_text(text)
    return paths


def test_by_hand(program, room):
    for name, (trace, transcript, wanted) in BY_HAND.items():
        row = figures(*files_of(room, name, trace, transcript))[0]
        for key, value in row.items():
            if key not in ("trace", "transcript", "held_by"):
                check(value == wanted.get(key, 0), f"{name}: {key} is {value}, and by hand {wanted.get(key, 0)}")
        test_second(name, row, trace, transcript)
        if wanted["command"] == "order":
            check(called_with(program, "order", trace).stdout == transcript, f"{name}: the program writes another transcript")
    print(f"{len(BY_HAND)} traces by hand")


def test_random(program, room):
    """Random traces of every version, and all examples, by both ways."""
    traces = {path.stem: path.read_text() for path in sorted((ROOT / "examples").glob("*.trace")) if not path.stem.startswith("fault")}
    traces |= {f"seed {seed}": random_trace.Trace(seed).text() for first in (1, 1001, 2001, 3001, 4001) for seed in range(first, first + 25)}
    traces["crowded"] = "\n".join(crowded(random.Random(6))) + "\n"
    files, texts, of_run, held, raised = [], [], 0, 0, 0
    for at, (name, trace) in enumerate(traces.items()):
        written = [called_with(program, word, trace).stdout for word in ("order", "run")]
        files += files_of(room, f"random{at}", trace, *written)
        texts += [(f"{name}, {word}", trace, text) for word, text in zip(("order", "run"), written)]
    rows = figures(*files)
    check(len(rows) == len(texts), f"{len(rows)} rows of {len(texts)} runs")
    for row, (what, trace, text) in zip(rows, texts):
        test_second(what, row, trace, text)
        of_run, held, raised = of_run + (row["command"] == "run"), held + row["held"], raised + row["guards_raised"]
    check(of_run > 20 and held > 20 and raised > 20, f"{of_run} rows of run, {held} held, {raised} guards")
    print(f"{len(rows)} runs as by a second reading: {of_run} of `run`, {held} requests held, {raised} guards")


def test_holders(program, room):
    """Whose cache holds the page of a request: as far as that request, but after a stop of its thread, the page isn't held."""
    lines = crowded(random.Random(5))
    trace = "\n".join(lines) + "\n"
    transcript = called_with(program, "order", trace).stdout
    names = [(line.split()[-1], line.split()[2]) for line in transcript.splitlines() if " held " in line]
    whole = figures(*files_of(room, "crowded", trace, transcript))[0]["held_by"]
    before, found = {}, 0
    for name, page in names[:: max(1, len(names) // 25)]:
        at = next(at for at, line in enumerate(lines) if line.split()[0] == "a" and line.split()[2] == name)
        up_to = ["\n".join(lines[:end]) + "\n" for end in (at, at + 1)]
        held = [figures(*files_of(room, f"cut{end}", text, called_with(program, "order", text).stdout))[0]["held_by"] for end, text in enumerate(up_to)]
        holder = [thread for thread in held[1] if held[1][thread] != held[0].get(thread, 0)]
        check(len(holder) == 1, f"the request {name} is held by {holder}")
        for thread in "1234":
            end = called_with(program, "order", up_to[0] + f"stop {thread}\n{lines[at]}\n").stdout.splitlines()
            is_held = any(line.endswith(f" held {page} name {name}") for line in end)
            given = [int(line.split()[2], 16) // 4096 for line in end[:end.index("close")] if " give " in line][-1]
            is_right = not is_held if thread in holder else is_held or given != int(page)
            end_said = "held" if is_held else f"free, and page {given} gives"
            check(is_right, f"the request {name} was held by {holder}; after a stop of {thread} page {page} is {end_said}")
        found += 1
    check(found > 15 and len(whole) > 2, f"{found} requests that are held, by {whole}")
    print(f"{found} requests of {len(names)} that are held: by the caches that the figures name")


def test_refusals(room):
    """What is no trace and no transcript, and a transcript that lacks a line."""
    trace, transcript, _ = GUARDED
    count = refused = 0
    lines = transcript.splitlines(keepends=True)
    for at, line in enumerate(lines):
        if any(word in line for word in ("lowered", "marks")):
            continue
        for text in ("".join(lines[:at] + lines[at + 1:]), "".join(lines[:at] + [line, line] + lines[at + 1:]), "".join(lines[:at])):
            made = called([sys.executable, str(TOOL), *map(str, files_of(room, "spoilt", trace, text))])
            is_right = made.returncode == 1 and re.match(r"figures: \S+spoilt.0: line \d+: ", made.stderr) and not made.stdout and "b'" not in made.stderr
            count, refused = count + 1, refused + bool(is_right)
            check(is_right, f"without or with twice {line.strip()}: {made.stderr}")
    texts = {
        ("", ""): "spoilt.trace: line 1: no header of a trace", ("pas 1\n", ""): "line 1: no header of a trace",
        (trace.replace("f 1 1", "f 1"), transcript): "spoilt.trace: line 5: no line of a trace: f 1",
        (trace.replace("a 1 2", "a 2 2"), transcript): "spoilt.trace: line 4: no line",
        (trace.replace("flush 1", "flash 1"), transcript): "spoilt.trace: line 6: no line of a trace: flash 1",
        (trace.replace("4000", "5000"), transcript): "spoilt.0: line 3: no line of a transcript of this trace: 1 give 0x00001000",
        (trace + "a 1 5 0 4 16\n", transcript): "1 requests of ", (trace, ""): "the transcript ends without a report",
        (trace, "line 2: BadSize\n"): "spoilt.0: the program found a fault in the trace: line 2: BadSize",
        (trace, transcript.replace("page 1 heap", "page 9 heap", 1)): "spoilt.0: line 1: no line",
        (trace, transcript.replace("live 2 given", "live 3 given")): "and not: total deeds 4 backed 2 live 3",
        (trace, transcript.replace("2 guarded 2 4 name 2", "2 guarded 2 4 name 1")): "spoilt.0: line 8: no line",
        (trace + "tick 9\n", transcript): "1 lines tick, and ",
        (trace + "phase\n", transcript): "0 lines phase, and ",
    }
    for (one, other), said in texts.items():
        made = called([sys.executable, str(TOOL), *map(str, files_of(room, "spoilt", one, other))])
        check(made.returncode == 1 and said in made.stderr and made.stderr.count("\n") == 1 and "b'" not in made.stderr, f"not '{said}': {made.stderr}")
    good = files_of(room, "good", trace, transcript)
    for words, said in (((good[1],), "line 1: no header"), ((good[0],), "a trace without a transcript"), ((room, good[1]), "Is a directory"),
                        ((good[0], *good), "a trace without a transcript"), ((good[0], room / "none"), "none: No such file"),
                        ((good[0], "/bin/sh"), "sh: line 1: no line of a transcript"), ((good[0], "/dev/null"), "has to be a file")):
        made = called([sys.executable, str(TOOL), *map(str, words)])
        check(made.returncode == 1 and said in made.stderr and made.stderr.count("\n") == 1, f"{words}: not '{said}': {made.stderr}")
    print(f"{refused} of {count} transcripts with a line too few or too many, {len(texts) + 7} other refusals")


def test_forms(room):
    """The tables, CSV and JSON say the same."""
    paths = [path for name, (trace, transcript, _) in BY_HAND.items() for path in files_of(room, name, trace, transcript)]
    rows = figures(*paths)
    told = called([sys.executable, str(TOOL), *map(str, paths), "--csv"]).stdout
    read = list(csv.DictReader(io.StringIO(told)))
    check([list(row) for row in read] == [list(row) for row in rows] and len(rows) == len(BY_HAND), f"the columns of CSV: {told[:200]}")
    for row, text in zip(rows, read):
        check(all(text[key] == str(value) for key, value in row.items() if key != "held_by"), f"CSV: {text}")
    text = called([sys.executable, str(TOOL), *map(str, paths)]).stdout
    tables = [table.splitlines() for table in text.split("\n\n")]
    check(len(tables) == 4 and all(len(table) == len(rows) + 1 and len({len(line) for line in table}) == 1 for table in tables), f"the tables:\n{text}")
    check(tables[0][-1].split() == "guarded.0 order 8 18 2 8 1.6 2 0 0 0 4 1 1".split(), f"the tables:\n{text}")
    helped = called([sys.executable, str(TOOL), "--help"])
    check(helped.returncode == 0 and "TRACE TRANSCRIPT" in helped.stdout, "no help")
    print("tables, CSV and JSON")


def test_recorded(program, room):
    """A program of this machine, and what lives at its end by its trace."""
    log = room / "perl.log"
    made = called([sys.executable, str(RECORD), "-o", str(log), "--", "perl", "-e", "my %h; $h{$_ % 700} .= 'x' x ($_ % 90) for 1 .. 4000; print scalar %h"])
    check(made.returncode == 0, f"perl under the recorder: {made.stderr}")
    texts = [trace_of(log, "--version", "4", *more).stdout for more in ((), ("--guard", "3", "--heaps", "size"))]
    for trace in texts:
        transcript = called_with(program, "order", trace).stdout
        row = figures(*files_of(room, "perl", trace, transcript))[0]
        test_second("perl", row, trace, transcript)
        check(row["command"] == "order" and row["operations"] > 2000 and row["guards_raised"] == row["guards_due"], f"perl: {row}")
    print(f"a recorded program: {row['operations']:,} operations, {row['guards_raised']} guards")


def test_many(program, room, operations):
    """The memory of a long trace, and how far it is, on a terminal alone."""
    trace = many(random.Random(7), operations)
    transcript = called_with(program, "order", trace).stdout
    paths = files_of(room, "many", trace, transcript)
    code = f"import re, runpy, sys, time; sys.argv[1:] = {[str(path) for path in paths] + ['--json']!r}\n" \
           f"try: runpy.run_path({str(TOOL)!r}, run_name='__main__')\n" \
           "finally: print(re.search(r'VmHWM:\\s*(\\d+)', open('/proc/self/status').read())[1], time.process_time(), file=sys.stderr)"
    made = called([sys.executable, "-c", code])
    kilobytes, seconds = map(float, made.stderr.split())
    row = json.loads(made.stdout)[0]
    total = transcript.splitlines()[-1].split()
    said = {key: int(total[total.index(word) + 1]) for key, word in (("backed_end", "backed"), ("given", "given"), ("freed", "ended"))}
    check(all(row[key] == value for key, value in said.items()) and row["operations"] == operations, f"many: {row}, and not {said}")
    check(kilobytes < MOST_KILOBYTES, f"{operations:,} operations take {kilobytes:,.0f} KB")
    said = told_on_terminal([sys.executable, str(TOOL), *map(str, paths)])
    check(re.search(r"\rmany.0 [1-9][0-9]?%", said) or operations < 100_000, f"it doesn't tell how far it is: {said!r}")
    print(f"{operations:,} operations: {seconds:.1f} seconds of processor, {kilobytes / 1000:.0f} MB")


def main():
    parser = argparse.ArgumentParser(description=__doc__, formatter_class=argparse.RawDescriptionHelpFormatter)
    parser.add_argument("program")
    parser.add_argument("--operations", type=int, default=1_000_000)
    options = parser.parse_args()
    program = str(pathlib.Path(options.program).resolve())
    with tempfile.TemporaryDirectory() as room:
        room = pathlib.Path(room)
        test_by_hand(program, room)
        test_random(program, room)
        test_holders(program, room)
        test_refusals(room)
        test_forms(room)
        if shutil.which("gcc") and shutil.which("perl"):
            test_recorded(program, room)
        else:
            print("SKIPPED: nothing was recorded, for there is no gcc or no perl")
        test_many(program, room, options.operations)
    end_checks()


if __name__ == "__main__":
    main()
