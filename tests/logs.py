"""Logs of the recorder as the tests of tools/record and tools/trace_of.py write and read them, how these tools and the program are called, and the
count of checks."""
import os
import pathlib
import pty
import signal
import struct
import subprocess
import sys

MOST_SECONDS = 60
ROOT = pathlib.Path(__file__).resolve().parent.parent
sys.dont_write_bytecode = True
sys.path[:0] = [str(ROOT / "tools"), str(ROOT / "tests")]
import versions

RECORD, TRACE_OF = ROOT / "tools/record/record", ROOT / "tools/trace_of.py"
HEAD, RECORD_SHAPE, HEAD_ROOM = "<8sQQII1024s", "<QQQQQIBB2x", 4096
# Logs of earlier recorders lack the time, the fifth of a record.
OLD_SHAPE = "<QQQQIBB2x"

checks, wrong = 0, []


def check(is_right, what):
    """Counts a check, and says what is wrong."""
    global checks
    checks += 1
    if not is_right:
        wrong.append(what)
        print(f"WRONG: {what}", flush=True)


def end_checks():
    """Says how many checks there were, and ends with status 1 where one was wrong."""
    print(f"{checks} checks, {len(wrong)} wrong")
    sys.exit(1 if wrong else 0)


def called(words, **more):
    return subprocess.run(words, stdin=subprocess.DEVNULL, stdout=subprocess.PIPE, stderr=subprocess.PIPE, text=True, timeout=MOST_SECONDS, **more)


def trace_of(log, *options):
    return called([sys.executable, str(TRACE_OF), str(log), *options])


def called_with(program, word, text):
    return subprocess.run([program, word], input=text, stdout=subprocess.PIPE, stderr=subprocess.PIPE, text=True, timeout=MOST_SECONDS)


def second_reading(what, text):
    """The second reading of a trace, in which each line frees and moves what lives."""
    try:
        return versions.read(text)
    except (versions.Fault, versions.Wrong) as fault:
        check(False, f"{what}: by a second reading {fault}")
        return None


def on_terminal(words, seen=lambda child, said: None):
    """The status of a tool, and what it says on standard error where that is a terminal. Each part of that is shown to `seen`."""
    ours, theirs = pty.openpty()
    # A shell starts what it runs in the background with interrupts ignored, and that goes on to each child.
    child = subprocess.Popen(words, stdin=subprocess.DEVNULL, stdout=subprocess.DEVNULL, stderr=theirs, start_new_session=True,
                             preexec_fn=lambda: signal.signal(signal.SIGINT, signal.SIG_DFL))
    os.close(theirs)
    said = b""
    try:
        while part := os.read(ours, 4096):
            said += part
            seen(child, said.decode())
    except OSError:
        pass
    os.close(ours)
    return child.wait(MOST_SECONDS), said.decode()


def told_on_terminal(words):
    status, said = on_terminal(words)
    check(status == 0, f"{words[1]} on a terminal")
    return said


def interrupted(words, at):
    """The same of a tool that is interrupted, with what it runs, once it has said this."""
    sent = []

    def interrupt(child, said):
        if at in said and not sent:
            sent.append(os.killpg(child.pid, signal.SIGINT))
    return on_terminal(words, interrupt)


def refused(transcript):
    return [line for line in transcript.splitlines() if line.split()[1:2] and line.split()[1] in ("no-space", "held", "skipped", "ended", "no-block", "outside", "unaligned")]


def request(thread, block, size, kind="m", align=1, site=0, at=0):
    return block, 0, size, site, at, thread, align.bit_length() - 1, ord(kind)


def free(thread, block, at=0):
    return 0, block, 0, 0, at, thread, 0, ord("f")


def moved(thread, old, block, size):
    return [(0, old, 0, 0, 0, thread, 0, ord("<")), (block, old, size, 0, 0, thread, 0, ord(">"))]


def end(thread):
    return 0, 0, 0, 0, 0, thread, 0, ord("e")


def write_log(path, records, lost=0, has_times=True):
    threads = len({record[5] for record in records})
    head = struct.pack(HEAD, b"paslog2\n" if has_times else b"paslog1\n", len(records) + lost, lost, threads, 77, b"/bin/hand")
    packed = (struct.pack(RECORD_SHAPE, *record) if has_times else struct.pack(OLD_SHAPE, *record[:4], *record[5:]) for record in records)
    path.write_bytes(head.ljust(HEAD_ROOM, b"\0") + b"".join(packed))
    return path


def followed(records):
    """The addresses that live at the end, and how many were given twice without a free between or given up without being there."""
    live, moving, odd = set(), {}, 0
    for block, old, size, _, _, thread, _, kind in records:
        kind = chr(kind)
        if kind == "f" or (kind == "<" and old):
            odd += old not in live
            moving[thread] = kind == "<"
            live.discard(old)
        elif kind == ">" and not block and size and old:
            live.add(old)
        elif kind in ">mcaplvw" and block:
            odd += block in live
            live.add(block)
    return live, odd
