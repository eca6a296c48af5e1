#!/usr/bin/env python3
"""tests/trace_of.py PROGRAM

Tests tools/trace_of.py with logs that are written by hand (logs_by_hand.py): each becomes just the trace that it should, of versions 1 to 4 without a
fault by the program `pas`, and by a second reading of the format (versions.py), which itself finds the faults of spoilt texts. Random logs of threads
are replayed in as many pages as it chose, and nothing is refused; parts of them have what lived at their start and end. The room that it takes for a
request is what the program gives. Traces at the limits of the format are cut, and said to be; on a terminal, and there alone, it tells how far it is. A
full disk and an interrupt leave no file. Prints what was checked; the status is 1 where something was wrong."""

import os
import pathlib
import random
import re
import resource
import signal
import stat
import subprocess
import sys
import tempfile

sys.dont_write_bytecode = True
import versions
from logs import (RECORD, TRACE_OF, check, called, called_with, end, end_checks, followed, free, interrupted, moved, refused, request, second_reading,
                  told_on_terminal, trace_of, write_log)
from logs_by_hand import BY_HAND
import trace_text


def test_by_hand(program, room):
    """Each log becomes its trace. One without times becomes the same, where no times are asked for."""
    for what, (records, options, lines, cuts) in BY_HAND.items():
        made = trace_of(write_log(room / "hand.log", records), *options)
        check(made.returncode == 0 and made.stdout == "".join(line + "\n" for line in lines), f"{what}: status {made.returncode}\n{made.stdout}{made.stderr}")
        said = [line for line in made.stderr.splitlines() if "cut:" in line]
        check(len(said) == len(cuts) and all(cut in line for cut, line in zip(cuts, said)), f"{what}: not these cuts: {said}")
        strict = trace_of(room / "hand.log", *options, "--strict")
        check((strict.returncode, strict.stdout) == (3 if cuts else 0, made.stdout), f"{what}, --strict: status {strict.returncode}")
        second_reading(what, made.stdout)
        run = called_with(program, "order", made.stdout)
        check(run.returncode == 0, f"{what}: the program finds a fault: {run.stdout}")
        old = trace_of(write_log(room / "old.log", records, has_times=False), *options)
        if "-ms" in " ".join(options):
            check(old.returncode == 1 and "noted no times" in old.stderr and not old.stdout, f"{what}, without times: {old.returncode} {old.stderr}")
        else:
            check((old.stdout, old.stderr) == (made.stdout, made.stderr), f"{what}, without times: {old.stdout}{old.stderr}")
    print(f"{len(BY_HAND)} logs by hand, with times and without")


MOVES = "pas 4 pages 2 threads 2 heaps 1 age 2\na 1 1 0 24 16\nm 1 2 1 32 16\nm 1 3 2 33 16\n"
# What the second reading says of texts with a fault, or with a line that frees or moves what it shouldn't.
SPOILT = {
    "pas 5 pages 2 threads 1 heaps 1 age 2\n": "line 1: BadHeader", "pas 2 pages 4097 threads 1 heaps 1 age 2\n": "line 1: BadHeader",
    MOVES + "m 1 2 3 9 16\n": "line 5: NameTaken", MOVES + "m 1 4 9 9 16\n": "line 5: NameUnknown", MOVES + "m 2 4 3 9 16\n": "line 5: TooEarly",
    MOVES.replace("pas 4", "pas 3"): "line 3: BadWord", MOVES + "fs 1 3 24\n": "line 5: BadWord", MOVES + "fs 1 3 x 16\n": "line 5: BadNumber",
    MOVES + "m 3 4 3 9 16\n": "line 5: BadThread", MOVES + "m 1 4 3 8193 16\n": "line 5: BadSize", MOVES + "fs 1 3 9 24\n": "line 5: BadAlign",
    MOVES + "fs 1 3 49 16\n": "line 5: the block has 48 bytes", MOVES + "f 1 1\n": "line 5: the block has ended before",
    MOVES + "f 1 3\nm 1 4 3 9 16\n": "line 6: what is moved has ended before", MOVES + "guard 1\n": "line 5: BadWord",
    MOVES.replace("age 2\n", "age 2\nguard 1\nguard 1\n"): "line 3: BadWord", MOVES.replace("age 2\n", "age 2\nguard 0\n"): "line 2: BadNumber",
    MOVES.replace("threads 2", "threads 9").replace("age 2\n", "age 2\nguard 1\n"): "line 2: BadThread",
}


def test_second_reading():
    for text, wanted in SPOILT.items():
        try:
            said = f"{len(versions.read(text).live)} live"
        except (versions.Fault, versions.Wrong) as fault:
            said = str(fault)
        check(said == wanted, f"the second reading says {said} and not {wanted} of\n{text}")
    seen = versions.read(MOVES)
    check((seen.live, seen.rooms, seen.kept) == ({1}, [32, 48], 1), f"the second reading of moves: {seen.live}, {seen.rooms}, {seen.kept}")
    print(f"{len(SPOILT) + 1} texts by the second reading")


def blocks(count, size, thread=1, first=1):
    """So many requests."""
    return [request(thread, 16 * each, size) for each in range(first, first + count)]


def frees(count):
    return [free(1, 16 * each) for each in range(1, count + 1)]


def growing(steps):
    """A block of one page more at each step, and behind each a page of small ones; the log of frees is flushed in between."""
    records, first = [], 16
    for pages in range(1, steps + 1):
        records += [request(1, first << 12, 4096 * pages)] + ([free(1, (first - 1) << 12)] if pages > 1 else [])
        records += [request(1, (first << 20) + 16 * each, 24) for each in range(128)]
        for each in range(65):
            records += [request(1, (first << 20) + 4096, 900), free(1, (first << 20) + 4096)]
        first += 1
    return records


# Logs, options, and the pages that their blocks fill and that the region gets: a page has 128 slots of 32 bytes, 64 frees stay in a thread's log, other
# threads have pages of their own, and where blocks of several lengths share pages it is half more, or four times as much with guards.
PAGES = {
    "slots of 64 pages": (blocks(8192, 24), [], 64, 64),
    "one slot more": (blocks(8193, 24), [], 65, 128),
    "slots of 64 pages, for two threads": (blocks(8000, 24) + blocks(192, 24, 2, 8001), [], 64, 128),
    "frees in the log": (blocks(8192, 24) + frees(64) + blocks(64, 24), [], 65, 128),
    "a full log is flushed": (blocks(8192, 24) + frees(65) + blocks(64, 24), [], 64, 64),
    "a thread's end flushes its log": (blocks(8192, 24) + frees(64) + [end(1)] + blocks(64, 24), [], 64, 64),
    "two heaps have no page in common": (blocks(8192, 24) + blocks(1, 60, 1, 8193), ["--heaps", "size"], 65, 128),
    "classes share pages": (blocks(100, 24) + blocks(1, 60, 1, 101), ["--shared", "all"], 1, 64),
    "whole pages": (blocks(21, 8192), [], 42, 64),
    "more whole pages": (blocks(43, 4096), [], 43, 128),
    "whole pages with guards": (blocks(6, 4096), ["--guard", "2"], 12, 64),
    "more of them": (blocks(9, 4096), ["--guard", "2"], 17, 128),
    "a block that grows": (growing(20), [], 76, 256),
    "bit-fit blocks": (blocks(86, 2048), [], 43, 128),
    "a move takes a block before it frees one": (blocks(42, 4096) + moved(1, 16, 8192, 8192), [], 44, 128),
    "a kept block": (blocks(42, 4096) + moved(1, 16, 16, 2048), [], 42, 64),
}


def test_pages(program, room):
    for what, (records, options, filled, pages) in PAGES.items():
        made = trace_of(write_log(room / "pages.log", records), *options)
        check(f"version 4, {pages:,} pages: the blocks fill {filled:,} at their most" in made.stderr and made.stdout.startswith(f"pas 4 pages {pages} "),
              f"{what}: {made.stderr}")
        run = called_with(program, "order", made.stdout)
        check(run.returncode == 0 and not refused(run.stdout), f"{what}: {refused(run.stdout)[:2]}")
    many = write_log(room / "many.log", blocks(5000, 4096))
    huge = write_log(room / "huge.log", [request(1, 64 * each, 1 << 22) for each in range(1, 18)])
    for log, options, said in [
        (many, ["--pages", "4900"], "4,900 pages: as told; the blocks fill 5,000 at their most, and leave holes, so 7,552 would do\n"
                                    "trace_of: warning: what lives passes the region, so requests will be refused; --pages 7552 has room for them\n"),
        (many, ["--version", "2"], "version 2, 4,096 pages: the most of this version; the blocks fill 5,000 at their most, and leave holes, so 7,552 would do\n"
                                   "trace_of: warning: what lives passes the region, so requests will be refused; --version 4 has more pages\n"),
        (huge, [], "version 4, 16,384 pages: the most of this version; the blocks fill 17,408 at their most, and leave holes, so 26,112 would do\n"
                   "trace_of: warning: what lives passes the region, so requests will be refused; --from and --most take a part of the log that may need less\n"),
    ]:
        made, strict = trace_of(log, *options), trace_of(log, *options, "--strict")
        check(said in made.stderr and (made.returncode, strict.returncode) == (0, 3), f"{options}: {made.returncode}, {strict.returncode}: {made.stderr}")
        check(refused(called_with(program, "order", made.stdout).stdout), f"{options}: nothing is refused, but a warning said so")
    print(f"the pages of {len(PAGES)} logs, three warnings")


def random_log(seed):
    """Threads that ask, free each other's blocks and move them, come and end."""
    chance, live, records, threads, last = random.Random(seed), {}, [], [1], 1
    for number in range(6000):
        thread = chance.choice(threads)
        sort = chance.random()
        if sort < 0.01:
            last += 1
            threads.append(last)
        elif sort < 0.015 and len(threads) > 1:
            threads.remove(thread)
            records.append(end(thread))
        elif sort < 0.55 or not live:
            live[64 * number] = size = chance.choice([chance.randrange(300), chance.randrange(3000), chance.randrange(40_000)])
            records.append(request(thread, 64 * number, size, at=1 + number * 100_000))
        elif sort < 0.9:
            old = chance.choice(list(live))
            del live[old]
            records.append(free(thread, old, at=1 + number * 100_000))
        else:
            old = chance.choice(list(live))
            live[64 * number] = size = live.pop(old) * chance.randrange(5) // 2
            records += moved(thread, old, 64 * number, size)
    return records


def between_reallocs(records, at):
    """So many records, or one more where a realloc is begun there."""
    return at + (chr(records[at - 1][-1]) == "<")


RANDOM_WAYS = [[], ["--heaps", "size", "--shared", "small", "--tick-ms", "7", "--pass-ms", "50"], ["--version", "2", "--sized", "--threads", "3"],
               ["--guard", "3", "--tick", "100", "--pass", "1000"], ["--heaps", "size", "--shared", "all"]]


def test_rooms(program):
    """The room of a request, of no bytes too, is that which the program gives."""
    sizes, aligns = (0, 1, 16, 17, 48, 500, 512, 513, 640, 1000, 1024, 1025, 2033, 2048, 2049, 4096, 4097, 9000), [1 << bits for bits in range(4, 13)]
    wanted = [(size, align) for size in sizes for align in aligns]
    for version in range(1, 5):
        asked = "".join(f"a 1 {name} 0 {size} {align}\n" for name, (size, align) in enumerate(wanted, 1))
        said = called_with(program, "order", f"pas {version} pages 4096 threads 1 heaps 1 age 2\n{asked}").stdout
        given = [int(line.split()[6]) for line in said.splitlines() if line.split()[1:2] == ["give"]]
        rooms = [trace_text.room_of(version, *each).bytes for each in wanted]
        check(given == rooms, f"version {version}: rooms {[each for each in zip(wanted, given, rooms) if each[1] != each[2]]}")
    print(f"{len(wanted)} rooms of each version")


def test_random(program, room):
    """Nothing is refused in as many pages as it chose; and a part begins with what lived then, and ends with what lived at its end."""
    for seed, options in enumerate(RANDOM_WAYS * 2):
        records = random_log(seed)
        log, (few, half) = write_log(room / "random.log", records), (between_reallocs(records, each) for each in (1000, len(records) // 2))
        for part in ([], ["--from", str(half + 1)], ["--from", str(few + 1), "--most", str(half - few)]):
            what = f"random log {seed} {' '.join(options + part)}"
            made = trace_of(log, *options, *part)
            run, seen = called_with(program, "order", made.stdout), second_reading(what, made.stdout)
            check(made.returncode == run.returncode == 0 and not refused(run.stdout), f"{what}: {run.returncode} {made.stderr} {refused(run.stdout)[:2]}")
            if seen is not None:
                ends = half if "--most" in part else len(records)
                at_start = len(followed(records[:int(part[1]) - 1])[0]) if part else 0
                first = re.match(r"(?:[#pgs].*\n)*((?:a .*\n)*)phase\n", made.stdout)
                check(len(seen.live) == len(followed(records[:ends])[0]), f"{what}: {len(seen.live)} live")
                check(not part or first and first[1].count("\n") == at_start, f"{what}: it doesn't begin with the {at_start} blocks that lived")
    print(f"{2 * len(RANDOM_WAYS)} random logs, whole and in parts")


def test_limits(program, room):
    """A trace that is cut is a trace, and one more line is too much."""
    megabytes = [request(1, 64 * each, 4 << 20) for each in range(1, 2100)]
    write_log(room / "hand.log", megabytes)
    for options in ((), ("--guard", "9")):
        made = trace_of(room / "hand.log", *options, "--version", "4")
        run, more = called_with(program, "order", made.stdout), called_with(program, "order", made.stdout + f"a 1 5000 0 {4 << 20} 16\n")
        check(run.returncode == 0 and "cut: " in made.stderr and "2,000,000 lines of a transcript: rarer passes and fewer --pages need less" in made.stderr, f"a trace at the limit: {options} {run.stdout[:80]} {made.stderr}")
        check(more.returncode == 1 and more.stdout.endswith("TraceTooLarge\n"), f"beyond the limit: {options} {more.stdout[:80]}")
    log = write_log(room / "hand.log", blocks(40_000, 24) + blocks(8000, 3000, first=40_001))
    for options, pages, records in (["--pass", "100"], 320, "40,000"), (["--pass", "10", "--pages", "3000"], 3000, "6,619"):
        passes = trace_of(log, *options)
        run = called_with(program, "order", passes.stdout)
        check(passes.stdout.startswith(f"pas 4 pages {pages} ") and run.returncode == 0 and not refused(run.stdout), f"passes at the limit: {passes.stdout[:20]} {run.stdout[:80]}")
        check(f"all after number {records}, for a trace has at most operations for 2,000,000 lines" in passes.stderr, f"passes at the limit: {passes.stderr}")
    more = called_with(program, "order", passes.stdout + "pass\n")
    check(more.stdout.endswith("TraceTooLarge\n"), f"a pass beyond the limit: {more.stdout[:80]}")
    vast = trace_of(write_log(room / "hand.log", [request(1, 64, (64 << 20) + 1), free(1, 64), request(1, 64, 8)]))
    check("cut: 1 requests of more than a region's 16,384 pages, and their frees" in vast.stderr and vast.stdout == "pas 4 pages 64 threads 1 heaps 1 age 2\na 1 1 0 8 16\n",
          f"a request of more than any region: {vast.stderr} {vast.stdout}")
    sites = [request(1, 64 * each, 8, site=1000 + each % 50) for each in range(1, 500)]
    made = trace_of(write_log(room / "hand.log", sites), "--heaps", "site")
    check(called_with(program, "order", made.stdout).returncode == 0 and "19 other call sites" in made.stdout, f"fifty call sites: {made.stdout[:900]}")
    made = trace_of(write_log(room / "hand.log", [request(1, 64, 8)], lost=3))
    check("cut: 3 calls that the log has no record of" in made.stderr and "a 1 1 0 8 16" in made.stdout, f"lost records: {made.stderr}")
    room_for_lines = trace_text.ROOM_FOR_HEAD + 1000
    trace_text.MOST_BYTES, trace = room_for_lines, trace_text.Trace(trace_text.Wanted(1, 2), 4096)
    try:
        while True:
            trace.ask(1, trace.live + 1, 0, 24, 16, trace_text.room_of(1, 24, 16))
    except trace_text.Full as full:
        length = len("".join(trace.text(32, list(range(32)), ["#" * 999] * 32)))
        check("bytes" in str(full) and length <= room_for_lines and trace.live > 40, f"bytes: {full}, {length}, {trace.live}")
    print("eight traces at the limits")


def test_million(program, room):
    """A million operations; how far it is, on a terminal alone; and an interrupt, which leaves no file and no word."""
    many, text = room / "many.log", room / "many.trace"
    write_log(many, [record for each in range(500_010) for record in (request(1, 64, each % 300), free(1, 64))])
    made = trace_of(many)
    run = called_with(program, "order", made.stdout)
    check("all after number 1,000,000, for a trace has at most 1,000,000 operations: --from and --most" in made.stderr and run.returncode == 0, f"a million operations: {made.stderr}")
    check("\r" not in made.stderr and "%" not in made.stderr, f"it tells how far it is where there is no terminal: {made.stderr}")
    said = told_on_terminal([sys.executable, str(TRACE_OF), str(many), "-o", str(text)])
    check(re.search(r"\rrecords [1-9][0-9]?%", said), f"it doesn't tell how far it is: {said}")
    check(text.read_text() == made.stdout, "on a terminal the trace is another")
    text.unlink()
    status, said = interrupted([sys.executable, str(TRACE_OF), str(many), "-o", str(text)], "records")
    check(status == 130 and "Traceback" not in said and "trace_of" not in said, f"an interrupt: status {status}: {said}")
    check(sorted(path.name for path in room.glob("*many*")) == ["many.log"], "an interrupt leaves a file")
    print("a million operations, on a terminal too, and interrupted")


def no_room():
    resource.setrlimit(resource.RLIMIT_FSIZE, (4096, 4096))
    signal.signal(signal.SIGXFSZ, signal.SIG_IGN)


def test_files(room):
    """A trace comes to its name whole or not at all."""
    log, text = write_log(room / "files.log", blocks(1000, 24)), room / "files.trace"
    words = [sys.executable, str(TRACE_OF), str(log), "-o", str(text)]
    full = called(words, preexec_fn=no_room)
    check(full.returncode == 1 and full.stderr == f"trace_of: {text}: File too large\n" and not text.exists(), f"a full disk: {full.stderr}")
    text.write_text("before")
    text.chmod(0o640)
    check(called(words, preexec_fn=no_room).returncode == 1 and text.read_text() == "before", "a full disk takes the trace that was there")
    made = called(words)
    check(made.returncode == 0 and text.read_text() == trace_of(log).stdout and stat.S_IMODE(text.stat().st_mode) == 0o640, f"a file that was there: {made.stderr}")
    check(sorted(path.name for path in room.glob("*files*")) == ["files.log", "files.trace"], "there are files that nobody asked for")
    for words, said in ((["-o", "/dev/full"], "trace_of: /dev/full: No space left on device\n"), ([], "trace_of: standard output: No space left on device\n")):
        with open("/dev/full", "w") as no_space:
            made = subprocess.run([sys.executable, str(TRACE_OF), str(log), *words], stdout=no_space, stderr=subprocess.PIPE, text=True)
        check(made.returncode == 1 and made.stderr == said, f"{words}: {made.returncode} {made.stderr}")
    check(stat.S_ISCHR(os.stat("/dev/full").st_mode), "/dev/full was written over")
    print("files on a full disk")


def test_refusals(room):
    (room / "other").write_text("something else")
    bad = write_log(room / "bad.log", [request(1, 64, 8), (1, 2, 3, 4, 5, 6, 0, ord("z"))])
    refusals = [
        ((room / "none",), "none: No such file"), ((room / "other",), "other: no log of tools/record/record"), ((room,), "Is a directory"),
        ((bad,), "bad.log: record 2 has the unknown kind 122"), ((bad, "--from", "2"), "record 2 has the unknown kind 122"),
        ((bad, "--from", "3"), "it has 2 records, and none is number 3"), ((bad, "--from", "0"), "0 is no number from 1"),
        ((bad, "--version", "1", "--pages", "5000"), "version 1 has at most 4,096 pages"), ((bad, "--pages", "0"), "0 is no number from 1 to 16,384"),
        ((bad, "--version", "1", "--sized"), "frees with a size come with version 2"), ((bad, "--version", "3", "--guard", "2"), "guards come with version 4"),
        ((bad, "--guard", "2", "--threads", "9"), "a trace with guards has at most 8 threads"), ((bad, "--shared", "none"), "none is no number"),
        ((bad, "--version", "5"), "invalid choice"), ((bad, "--tick", "x"), "x is no number"), ((bad, "--tick", "2", "--tick-ms", "2"), "not allowed with"),
    ]
    for words, said in refusals:
        made = trace_of(*map(str, words))
        check(made.returncode and said in made.stderr and not made.stdout, f"{words}: {made.returncode} {made.stderr}")
    for tool in (RECORD, TRACE_OF):
        helped = called([sys.executable, str(tool), "--help"])
        check(helped.returncode == 0 and "usage:" in helped.stdout, f"{tool.name} --help: {helped.stderr}")
    print(f"{len(refusals)} refusals, two helps")


def main():
    if len(sys.argv) != 2 or sys.argv[1].startswith("-"):
        sys.exit(__doc__)
    program = str(pathlib.Path(sys.argv[1]).resolve())
    with tempfile.TemporaryDirectory() as room:
        room = pathlib.Path(room)
        test_second_reading()
        test_by_hand(program, room)
        test_pages(program, room)
        test_rooms(program)
        test_random(program, room)
        test_limits(program, room)
        test_million(program, room)
        test_files(room)
        test_refusals(room)
    end_checks()


if __name__ == "__main__":
    main()
