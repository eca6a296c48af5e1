#!/usr/bin/env python3
"""tests/statuses.py PROGRAM

Tries what the program `pas` answers with each status: words that are no accepted list, which read nothing (2); sources
of which a read fails, the first, the second or one in mid-stream (3); sinks that are full at each byte of a text in turn,
for texts of each kind (4); inputs that are too long (6); the largest block of the largest region; and summaries of
generated traces. Ends with status 0 where all is so."""

import os
import resource
import signal
import socket
import struct
import subprocess
import sys
import tempfile
import time

from worked_traces import LARGEST, LARGEST_GIVEN, LARGEST_TOTALS
from worked_verdicts import FREED, TRANSCRIPT

MOST_SECONDS = 60
MOST_BYTES = 16_777_216

USAGE = b"usage: pas order | pas run | pas check | pas gen SEED OPS THREADS PAGES\n"

# Lists of words that aren't accepted.
OTHERS = [
    [],
    ["order", "--"],
    ["order", "order"],
    ["gen", "7"],
    ["Order"],
    ["order "],
    ["run", "x"],
    ["run", "--"],
    ["run", "run"],
    ["order", "run"],
    ["Run"],
    ["check", "check"],
    ["check", "--"],
    ["check", "order"],
    ["Check"],
    ["help"],
    ["gen", "7", "12", "4", "1024", "1"],
    ["gen", "07", "12", "4", "1024"],
    ["gen", "-7", "12", "4", "1024"],
    ["gen", "18446744073709551616", "12", "4", "1024"],
    ["gen", "7", "200001", "4", "1024"],
    ["gen", "7", "12", "17", "1024"],
    ["gen", "7", "12", "0", "1024"],
    ["gen", "7", "12", "4", "1"],
]

SHORT = ["gen", "7", "12", "4", "1024"]
SHORT_LINES = b"ops 12\ngive 9\nfreed 3\nended 0\nno-block 0\nno-space 0\nheld 0\nskipped 0\n"
# What that seed's generated trace of twelve operations is, by a program that was written from the rules alone.
SHORT_TRACE = b"""pas 1 pages 1024 threads 4 heaps 6 age 2
shared 5
a 4 1 3 1258 16
a 1 2 0 205 32
a 1 3 2 427 16
a 1 4 5 376 32
a 2 5 0 278 16
a 1 6 1 232 64
a 2 7 1 411 32
f 4 1
f 2 7
a 3 8 0 192 64
f 1 2
a 1 9 0 265 32
"""
LONG = ["gen", "7", "100000", "4", "4096"]
LONG_SUMMARY = b"""ops 100000
give 50096
freed 49704
ended 0
no-block 0
no-space 0
held 0
skipped 0
total deeds 482 backed 337 live 392 given 50096 ended 49704
"""


def answer(program, words, text):
    """The status and the text of a run."""
    run = subprocess.run([program, *words], input=text, stdout=subprocess.PIPE, timeout=MOST_SECONDS)
    return run.returncode, run.stdout


def answer_to_no_read(program, words):
    """The same where each read fails: the input is a folder."""
    folder = os.open("/", os.O_RDONLY)
    try:
        run = subprocess.run([program, *words], stdin=folder, stdout=subprocess.PIPE, timeout=MOST_SECONDS)
    finally:
        os.close(folder)
    return run.returncode, run.stdout


def answer_to_one_read(program, words, text):
    """The same where the read behind this text fails: the other side of the connection is reset then."""
    with socket.create_server(("127.0.0.1", 0)) as server, socket.create_connection(server.getsockname()) as source:
        other, _ = server.accept()
        child = subprocess.Popen([program, *words], stdin=source, stdout=subprocess.PIPE)
        other.sendall(text)
        other.setsockopt(socket.SOL_SOCKET, socket.SO_LINGER, struct.pack("ii", 1, 0))
        while child.poll() is None and has_bytes(source):
            time.sleep(0.001)
        other.close()
        said, _ = child.communicate(timeout=MOST_SECONDS)
    return child.returncode, said


def has_bytes(source):
    """Whether bytes wait in a socket that nobody has read yet."""
    try:
        return bool(source.recv(1, socket.MSG_PEEK | socket.MSG_DONTWAIT))
    except BlockingIOError:
        return False


def answer_to_full_sink(program, words, source, most):
    """The status of a run whose output is a file that may have so many bytes, and what it has then."""

    def limit():
        signal.signal(signal.SIGXFSZ, signal.SIG_IGN)
        resource.setrlimit(resource.RLIMIT_FSIZE, (most, most))

    source.seek(0)
    with tempfile.TemporaryFile() as sink:
        run = subprocess.run([program, *words], stdin=source, stdout=sink, preexec_fn=limit, timeout=MOST_SECONDS)
        sink.seek(0)
        return run.returncode, sink.read()


def other_words(program):
    """Other words are answered with the usage, and nothing is read."""
    for words in OTHERS:
        yield words, answer_to_no_read(program, words), (2, USAGE)


def failing_reads(program):
    """A read that fails, the first, the second or one in mid-stream, leaves nothing written, also where there was a fault before it."""
    long = b"#" * 99 + b"\n"
    texts = {"one read": b"", "many reads": long * 3000, "a fault": b"f 1 2\n" + long * 3000, "a long line": b"#" * 300_000}
    for word in ("order", "run", "check"):
        yield [word], answer_to_no_read(program, [word]), (3, b"")
        for what, text in texts.items():
            yield [word, what], answer_to_one_read(program, [word], FREED.encode() + text), (3, b"")


def full_sinks(program):
    """Each byte of a text may be the first for which there is no room: what stands before it is written. With room for
    all bytes the status is that of the text."""
    calls = [
        (["order"], FREED.encode(), 0),
        (["run"], FREED.encode(), 0),
        (["order"], b"", 1),
        (["run"], b"\n", 1),
        (["check"], FREED.encode() + b"transcript\n" + TRANSCRIPT.encode(), 0),
        (["check"], FREED.encode(), 8),
        (["check"], b"", 1),
        (["gen", "7"], b"", 2),
        (SHORT, b"", 0),
    ]
    for words, text, status in calls:
        whole = answer(program, words, text)
        yield words, whole[0], status
        with tempfile.TemporaryFile() as source:
            source.write(text)
            source.flush()
            for most in range(len(whole[1]) + 1):
                wanted = (4, whole[1][:most]) if most < len(whole[1]) else whole
                yield [*words, most], answer_to_full_sink(program, words, source, most), wanted


def longest_inputs(program):
    """An input may have so many bytes and no more."""
    for word in ("order", "run", "check"):
        yield [word, "the most bytes"], answer(program, [word], b"\n" * MOST_BYTES), (1, b"line 1: BadHeader\n")
        yield [word, "one more"], answer(program, [word], b"\n" * (MOST_BYTES + 1)), (6, b"input too long\n")


def largest_region(program):
    """The largest region is one block, in both ways."""
    for word in ("order", "run"):
        status, text = answer(program, [word], LARGEST.encode())
        is_so = LARGEST_GIVEN.encode() in text and text.endswith(LARGEST_TOTALS.encode())
        yield [word, "the largest region"], (status, is_so), (0, True)


def summaries(program):
    """The short summary ends with the totals of the trace's transcript, and nothing is read."""
    status, transcript = answer(program, ["order"], SHORT_TRACE)
    totals = transcript[transcript.rindex(b"\ntotal ") + 1 :] if b"\ntotal " in transcript else b""
    yield SHORT, (status, answer_to_no_read(program, SHORT)), (0, (0, SHORT_LINES + totals))
    yield LONG, answer_to_no_read(program, LONG), (0, LONG_SUMMARY)


def main():
    if len(sys.argv) != 2 or sys.argv[1].startswith("-"):
        sys.exit(__doc__)
    program, count, wrong = os.path.abspath(sys.argv[1]), 0, 0
    for test in (other_words, failing_reads, full_sinks, longest_inputs, largest_region, summaries):
        for words, found, wanted in test(program):
            count += 1
            if found != wanted:
                wrong += 1
                print(f"{test.__name__}: {words}: found {found!r:.300}, and not {wanted!r:.300}")
    print(f"{count} answers, {wrong} wrong")
    sys.exit(1 if wrong or not count else 0)


if __name__ == "__main__":
    main()
