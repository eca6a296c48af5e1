#!/usr/bin/env python3
"""tests/record.py PROGRAM

Tests the recorder of tools/record, and tools/trace_of.py on its logs, with the program `pas`. A program whose threads race, whose children fork and
which is killed (tests/racing_requests.c) says how many calls it made, and its logs have each of them, in an order in which no address is given twice
without a free between. Three programs of this machine, one with threads, are recorded, and their traces, with one heap and several, with and without
the scavenger's lines, are replayed by `order` and by `run`: none has a fault, nothing is refused, and as many blocks live at the end as the log says.
So do their traces of versions 2 to 4, with sized frees and, in version 4, a line for each realloc, by the program and by a second reading of the
format (versions.py). Call sites have the names of their functions, a pause of a program has its ticks, and the status is the program's. Where there
is no gcc nothing is recorded, and that is said. Prints what was checked; the status is 1 where something was wrong."""

import os
import pathlib
import re
import resource
import shutil
import signal
import struct
import subprocess
import sys
import tempfile
from collections import Counter

sys.dont_write_bytecode = True
from logs import (HEAD, HEAD_ROOM, RECORD, RECORD_SHAPE, ROOT, called, called_with, check, end_checks, followed, interrupted, refused,
                  second_reading, trace_of)

RACE = ROOT / "tests/racing_requests.c"
REQUESTS = {"m": "malloc", "c": "calloc", "a": "aligned_alloc", "p": "posix_memalign", "l": "memalign", "v": "valloc",
            "w": "pvalloc"}
THREADED = """
import queue, threading
work, done = queue.Queue(), queue.Queue()
def serve():
    while (item := work.get()) is not None:
        done.put([str(item * each) for each in range(item % 20)])
threads = [threading.Thread(target=serve) for _ in range(4)]
for thread in threads: thread.start()
for item in range(250): work.put(item)
for thread in threads: work.put(None)
for thread in threads: thread.join()
print(sum(len(done.get()) for _ in range(250)))
"""
# Programs that a machine may have. The first is the one with threads.
PROGRAMS = [
    ("python3", [sys.executable, "-S", "-c", THREADED], {"PYTHONMALLOC": "malloc"}),
    ("perl", ["perl", "-e", 'my %h; $h{$_ % 700} .= "$_ " for 1..20000; print length(join "", sort values %h), "\\n"'], {}),
    ("sqlite3", ["sqlite3", ":memory:", "create table t(a, b); with recursive n(i) as (select 1 union all select i+1 from n where i < 3000) insert into t "
                 "select i, 'text ' || i from n; create index x on t(b); select count(*), sum(length(b)) from t where b like '%7%';"], {}),
    ("git", ["git", "-C", str(ROOT), "log", "--stat", "-20"], {}),
    ("awk", ["awk", 'BEGIN { for (i = 0; i < 20000; i++) a[i % 900] = a[i % 900] i; print length(a) }'], {}),
    ("bash", ["bash", "-c", "for i in {1..3000}; do x=$x$i; y[i]=${x:0:i%90}; done; echo ${#x}"], {}),
]
WAYS = [
    ["--version", "1"],
    ["--version", "1", "--heaps", "site", "--tick", "500", "--pass", "5000", "--idle", "1500"],
    ["--version", "1", "--heaps", "size", "--tick", "1000", "--threads", "2", "--pages", "3000"],
]

LATER_WAYS = [["--version", "2", "--sized"], ["--version", "3", "--sized", "--heaps", "size", "--pass", "5000"], [],
              ["--sized", "--shared", "small", "--tick-ms", "5", "--pass-ms", "20", "--heaps", "site", "--threads", "2"]]


def read_log(path):
    """The records of a log, by a reading of its own."""
    bytes_ = path.read_bytes()
    number = struct.unpack_from(HEAD, bytes_)[1]
    return [struct.unpack_from(RECORD_SHAPE, bytes_, HEAD_ROOM + at * struct.calcsize(RECORD_SHAPE)) for at in range(number)]


def record(log, command, environment=None, status=0):
    made = called([sys.executable, str(RECORD), "-o", str(log), "--", *command], env=os.environ | (environment or {}))
    check(made.returncode == status, f"{command[0]} under the recorder: status {made.returncode}: {made.stderr}")
    return made


def parts_of_program(log, program):
    """The addresses at which a program's own code lay."""
    for line in pathlib.Path(f"{log}.maps").read_text().splitlines():
        if line.endswith(str(program)):
            yield tuple(int(word, 16) for word in line.split()[0].split("-"))


def own_counts(log, spans, keeps_from=frozenset()):
    """The calls that a program's own code made, by kind; and the frees of such blocks, and those that live."""
    counts, own, moving = Counter(), set(keeps_from), {}
    for block, old, _, site, _, thread, _, kind in read_log(log):
        kind = chr(kind)
        if kind == "f":
            counts["free"] += old in own
            own.discard(old)
        elif kind == "<":
            own.discard(old)
        elif kind != "e" and any(first <= site < last for first, last in spans):
            counts[REQUESTS.get(kind, "realloc")] += 1
            own.add(block)
    return counts, own


def test_race(room):
    """Each process's log has just the calls that the process says."""
    program = room / "race"
    subprocess.run(["gcc", "-O1", "-pthread", "-o", str(program), str(RACE)], check=True)
    calls = processes = 0
    for words, status in ((["40", "600", "4"], 0), (["8", "4000", "0"], 0), (["3", "400", "2", "kill"], 128 + 9)):
        log = room / "race.log"
        made = record(log, [str(program), *words], status=status)
        logs = {struct.unpack_from(HEAD, path.read_bytes())[4]: path for path in room.glob("race.log*") if path.suffix != ".maps"}
        spans = list(parts_of_program(log, program)) if status == 0 else None
        for line in made.stdout.splitlines():
            who, process, *rest = line.split()
            said = {word: int(count) for word, count in zip(rest[::2], rest[1::2])}
            check(int(process) in logs, f"no log of process {process}")
            path = logs.pop(int(process))
            live, odd = followed(read_log(path))
            check(odd == (1 if who == "child" else 0), f"{line}: {odd} addresses given twice or freed unseen")
            if spans:
                counts, own = own_counts(path, spans)
                counts["live"] = len(own)
                check(all(counts[word] == count for word, count in said.items()), f"{line}: the log has {dict(counts)}")
            else:
                everything = Counter(REQUESTS.get(chr(each[-1]), chr(each[-1])) for each in read_log(path))
                check(everything["realloc"] == 0 and everything[">"] == said["realloc"] and everything["memalign"] == said["memalign"], f"{line}: the log has {everything}")
            calls, processes = calls + sum(said.values()) - said["live"], processes + 1
        check(not logs, f"logs of processes that said nothing: {logs}")
        ended, late = set(), 0
        for _, _, _, site, _, thread, _, kind in read_log(log):
            ended.update([thread] if chr(kind) == "e" else [])
            late += thread in ended and spans is not None and any(first <= site < last for first, last in spans)
        check(len(ended) == int(words[0]) and not late, f"{len(ended)} threads ended, and not {words[0]}; {late} requests of theirs came later")
    print(f"{calls:,} calls of {processes} processes that race, fork and are killed: each in its log")


def test_full(room):
    """A program whose log finds no room goes on, and the log says how many records it lacks."""
    program, log = room / "race", room / "full.log"

    def shut_at(bytes_):
        def shut():
            resource.setrlimit(resource.RLIMIT_FSIZE, (bytes_, bytes_))
            signal.signal(signal.SIGXFSZ, signal.SIG_IGN)
        return shut

    environment = os.environ | {"LD_PRELOAD": str(ROOT / "tools/record/out/record.so"), "PAS_RECORD_TO": str(log)}
    words, in_full = [str(program), "8", "4000", "0"], HEAD_ROOM + 65_536 * struct.calcsize(RECORD_SHAPE)
    made = called(words, env=environment, preexec_fn=shut_at(100))
    check(made.returncode == 0 and made.stderr.count("can't grow: File too large") == 1 and not log.exists(), f"no room at all: {made.returncode} {made.stderr}")
    made = called(words, env=environment, preexec_fn=shut_at(in_full))
    _, records, lost = struct.unpack_from("<8sQQ", log.read_bytes())
    check(made.returncode == 0 and made.stderr.count("can't grow: File too large") == 1, f"a log without room: {made.returncode} {made.stderr}")
    check(records > 70_000 and lost == records - 65_536, f"a log without room: {lost} of {records} records lost")
    made = trace_of(log, "--strict")
    check(f"cut: {lost:,} calls that the log has no record of" in made.stderr and made.returncode == 3, f"a log without room: {made.returncode} {made.stderr}")
    print("a log without room")


def test_call_sites(room):
    """Six calls of the program's one function that asks are six call sites; the call above them is one and the same."""
    program, log = room / "race", room / "sites.log"
    for up in ("0", "1"):
        made = called([sys.executable, str(RECORD), "-o", str(log), "--up", up, str(program), "9", "50", "0"])
        spans = list(parts_of_program(log, program))
        of_program = [each for each in read_log(log) if any(first <= each[3] < last for first, last in spans)]
        sites = [{each[3] for each in of_program if chr(each[-1]) == kind} for kind in "caplvw"]
        is_right = set.intersection(*sites) if up == "1" else all(len(each) == 1 for each in sites) and len(set.union(*sites)) == len(sites)
        check(made.returncode == 0 and is_right, f"--up {up}: call sites {sites}")
        by_site = trace_of(log, "--heaps", "site").stdout
        check("requests, race+0x" in by_site, f"--up {up}: {by_site[:300]}")
    print("call sites, and those above them")


SITES = """#include <stdlib.h>
void *volatile kept;
void before(void) { kept = 0; }
__attribute__((noinline)) static void one(void) { kept = malloc(10); }
__attribute__((noinline)) static void other(void) { kept = malloc(20); }
int main(void) { one(); one(); other(); return 0; }
"""
# How the program is built, whether its file is older than the log, and what stands behind its name and the address: the function, and the line.
BUILDS = [(["-g", "-no-pie"], True, " {} {}.c:{}"), (["-g", "-pie", "-fPIE"], True, " {} {}.c:{}"), (["-no-pie"], True, " {}"), (["-no-pie", "-s"], True, ""),
          (["-no-pie", "-s", "-rdynamic"], True, ""), (["-g", "-no-pie"], False, None)]


def test_names(room):
    """Call sites have the names of their functions, and their lines, wherever the program lay."""
    (room / "sites.c").write_text(SITES)
    source, program, log = room / "sites.c", room / "sites", room / "names.log"
    for options, is_older, named in BUILDS:
        subprocess.run(["gcc", "-O1", *options, "-o", str(program), str(source)], check=True)
        symbols = [line.split() for line in called(["nm", "-S", str(program)]).stdout.splitlines()]
        spans = {words[3]: (int(words[0], 16), int(words[0], 16) + int(words[1], 16)) for words in symbols if len(words) == 4}
        record(log, [str(program)])
        os.utime(program, (0, 0) if is_older else (1 << 32, 1 << 32))
        made = trace_of(log, "--heaps", "site")
        for heap, (count, function, line) in enumerate(((2, "one", 4), (1, "other", 5))):
            if named is None:
                check(re.search(f"# heap {heap}: {count} requests, byte 0x[0-9a-f]+ of sites\n", made.stdout), f"a program that was changed: {made.stdout}")
                continue
            told = re.search(f"# heap {heap}: {count} requests, sites\\+0x([0-9a-f]+)(.*)\n", made.stdout)
            check(told and told[2] == named.format(function, "sites", line), f"{options}: the name of {function}: {made.stdout}")
            check(told and (function not in spans or spans[function][0] < int(told[1], 16) <= spans[function][1]), f"{options}: {function}, {told} {spans}")
    print(f"the names of call sites, in {len(BUILDS)} builds")


# A thread's times never go back, as those of the whole log may.
SLEEPS = "import time; kept = [bytes(each) for each in range(2000)]; time.sleep(0.4); more = [bytes(each) for each in range(2000)]"


def test_times(program, room):
    """A pause of a program has its ticks, and a pass or two."""
    log = room / "times.log"
    record(log, [sys.executable, "-S", "-c", SLEEPS], {"PYTHONMALLOC": "malloc"})
    records = [each for each in read_log(log) if each[-1]]
    check(all(first[4] <= second[4] for first, second in zip(records, records[1:])), "a thread's times go back")
    pauses = [(second[4] - first[4], at) for at, (first, second) in enumerate(zip(records, records[1:]), 1)]
    longest, at = max(pauses)
    check(longest >= 400_000_000, f"the longest pause took {longest} ns")
    made = trace_of(log, "--tick-ms", "10", "--pass-ms", "10", "--from", str(at), "--most", "2")
    told = re.search(r"phase\n.*\n((?:tick .*\npass\n)*)tick ([0-9]+)\n", made.stdout)
    check(told and int(told[2]) >= 39 and 1 <= told[1].count("pass") <= 4, f"a pause of 0.4 seconds: {made.stdout[-200:]}")
    run = called_with(program, "order", made.stdout)
    check(run.returncode == 0 and not refused(run.stdout), f"a pause: {run.stdout[:80]}")
    print("times, and what the scavenger does in a pause")


def test_statuses(room):
    """The status is the program's, and what isn't the program's is told apart as by env."""
    log, empty = room / "status.log", room / "empty"
    (room / "other").write_text("something else")
    empty.write_text("")
    for words, status, said in (
        (["-o", str(log), "true"], 0, "nothing was logged"), (["-o", str(log), "sh", "-c", "exit 7"], 7, "records"),
        (["-o", str(log), "sh", "-c", "kill -9 $$"], 137, "ended by signal 9"), (["-o", str(log), "no-such-program"], 127, "no-such-program: No such file"),
        (["-o", str(log), str(empty)], 126, "empty: Permission denied"), (["-o", str(room / "other"), "true"], 125, "other is there and is no log"),
        (["-o", str(room / "none" / "log"), "true"], 125, "is no folder"), (["-o", str(log)], 2, "no program to run"),
    ):
        made = called([sys.executable, str(RECORD), *words])
        check(made.returncode == status and said in made.stderr, f"{words}: {made.returncode} {made.stderr}")
    made = record(log, ["sh", "-c", "exit 0"])
    records = struct.unpack_from(HEAD, log.read_bytes())[1]
    check(0 < records < 1024 and log.stat().st_size == HEAD_ROOM + 1024 * struct.calcsize(RECORD_SHAPE), f"{records} records: {log.stat().st_size} bytes")
    check(f"record: {log}: {records} records, 1 thread, " in made.stderr, f"a path outside this folder: {made.stderr}")
    status, said = interrupted([sys.executable, str(RECORD), "-o", str(log), "--", "sh", "-c", "echo begun >&2; sleep 20"], "begun")
    check(status == 128 + signal.SIGINT and "Traceback" not in said and "ended by signal 2" in said, f"an interrupt: {status} {said}")
    print("eight statuses, a small log, an interrupt")


def test_program(program, room, name, command, environment):
    """The program says under the recorder what it says without; its traces are replayed without a fault."""
    log = room / f"{name}.log"
    plain = called(command, env=os.environ | environment)
    made = record(log, command, environment)
    check(made.stdout == plain.stdout, f"{name} says something else under the recorder")
    records = read_log(log)
    live, odd = followed(records)
    asked = sum(chr(each[-1]) in "mcaplvw>" and each[0] != 0 for each in records)
    for options in WAYS:
        converted = trace_of(log, *options)
        check(converted.returncode == 0 and all("share another's number" in line or "one call site has" in line for line in converted.stderr.splitlines()[2:]), f"{name} {options}: {converted.stderr}")
        for word in ("order", "run"):
            run = called_with(program, word, converted.stdout)
            what = f"{name} {' '.join(options)}, {word}"
            if run.returncode:
                check(False, f"{what}: status {run.returncode}: {run.stdout[:80]}")
                continue
            total = run.stdout.splitlines()[-1].split()
            said = {word: int(total[total.index(word) + 1]) for word in ("live", "given")}
            check(said == {"live": len(live), "given": asked}, f"{what}: {' '.join(total)}, and the log has {len(live)} live of {asked}")
            check(not refused(run.stdout), f"{what}: {refused(run.stdout)[:2]}")
    for options in LATER_WAYS:
        test_version(program, f"{name} {' '.join(options)}", trace_of(log, *options), len(live), asked, moved_in(records))
    threads = len({each[5] for each in records})
    print(f"{name}: {len(records):,} records of {threads} threads, {len(live):,} blocks live, {len(WAYS)} traces replayed in both ways, "
          f"{len(LATER_WAYS)} of later versions too, and read a second time")
    return threads


def moved_in(records):
    """How many reallocs of a block gave one."""
    return sum(chr(each[-1]) == ">" and each[0] != 0 and each[1] != 0 for each in records)


def test_version(program, what, converted, live, asked, moved):
    """A trace of a later version: each realloc of a block is a line, and what lives at the end is what the log says."""
    check(converted.returncode == 0 and all("share another's number" in line or "one call site has" in line for line in converted.stderr.splitlines()[2:]), f"{what}: {converted.stderr}")
    seen = second_reading(what, converted.stdout)
    if seen is None:
        return
    given = asked - seen.kept
    check(seen.moved == (moved if seen.version == 4 else 0), f"{what}: {seen.moved} lines m of {moved} reallocs")
    check(len(seen.live) == live and len(seen.rooms) == given, f"{what}: {len(seen.live)} of {len(seen.rooms)} live, and the log has {live} of {given}")
    for word in ("order", "run"):
        run = called_with(program, word, converted.stdout)
        total = run.stdout.splitlines()[-1].split()
        said = {word: int(total[total.index(word) + 1]) for word in ("live", "given")} if run.returncode == 0 else {}
        check(said == {"live": live, "given": given}, f"{what}, {word}: status {run.returncode}, {' '.join(total)}, and the log has {live} live of {given}")
        odd = refused(run.stdout) + [line for line in run.stdout.splitlines() if " size-differs " in line]
        check(not odd, f"{what}, {word}: {odd[:2]}")


def main():
    if len(sys.argv) != 2 or sys.argv[1].startswith("-"):
        sys.exit(__doc__)
    program = str(pathlib.Path(sys.argv[1]).resolve())
    with tempfile.TemporaryDirectory() as room:
        room = pathlib.Path(room)
        if shutil.which("gcc"):
            test_race(room)
            test_call_sites(room)
            test_full(room)
            test_names(room)
            test_times(program, room)
            test_statuses(room)
            there = [each for each in PROGRAMS if shutil.which(each[1][0])][:3]
            threads = [test_program(program, room, *each) for each in there]
            check(len(threads) == 3 and max(threads) >= 5, f"not three programs, one with threads: {threads}")
        else:
            print("SKIPPED: nothing was recorded, for there is no gcc")
    end_checks()


if __name__ == "__main__":
    main()
