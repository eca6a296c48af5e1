#!/usr/bin/env python3
"""tests/refused_memory.py PROGRAM

Runs the program `pas` with each of its allocations refused in turn, and once with all from each one on: a run that was refused memory ends with
status 5 and wrote nothing, or it ends as a run without a refusal: with the same bytes, and on threads with a right transcript. A library that stands
between the program and malloc is compiled for that, by `cc` or else by the kit's own compiler. Ends with status 0 where each run is so."""
import os
import pathlib
import shutil
import subprocess
import sys
import tempfile

from traces import read_trace
from transcripts import judge

MOST_SECONDS = 60

# The kit's compiler has no headers, so what the library calls is declared here.
SHIM = r"""
typedef __SIZE_TYPE__ size_t;
#define RTLD_NEXT ((void *)-1)
enum { WRITTEN_ANEW = 01 | 0100 | 01000 };

void *dlsym(void *, const char *);
char *getenv(const char *);
int unsetenv(const char *);
long atol(const char *);
int open(const char *, int, ...);
long write(int, const void *, size_t);
void abort(void);

static long made, first = -1, last = -1;
static void *(*real_malloc)(size_t);
static void *(*real_realloc)(void *, size_t);

__attribute__((constructor)) static void begin(void)
{
    real_malloc = dlsym(RTLD_NEXT, "malloc");
    real_realloc = dlsym(RTLD_NEXT, "realloc");
    first = getenv("REFUSE_FROM") ? atol(getenv("REFUSE_FROM")) : -1;
    last = getenv("REFUSE_TO") ? atol(getenv("REFUSE_TO")) : -1;
}

static int is_refused(void)
{
    if (!real_malloc)
        begin();
    long number = __atomic_fetch_add(&made, 1, __ATOMIC_SEQ_CST);
    return first >= 0 && number >= first && number <= last;
}

void *malloc(size_t size) { return is_refused() ? 0 : real_malloc(size); }
void *realloc(void *old, size_t size) { return is_refused() ? 0 : real_realloc(old, size); }

static void tell(void)
{
    char *path = getenv("REFUSE_COUNT");
    if (!path)
        return;
    unsetenv("REFUSE_COUNT");
    char digits[24];
    int at = sizeof digits;
    long left = made;
    do
        digits[--at] = '0' + left % 10;
    while (left /= 10);
    int file = open(path, WRITTEN_ANEW, 0600);
    if (file < 0 || write(file, digits + at, sizeof digits - at) < 0)
        abort();
}

/* A program with threads ends without its destructors. */
__attribute__((noreturn)) void _exit(int status)
{
    void (*real_exit)(int) = dlsym(RTLD_NEXT, "_exit");
    tell();
    real_exit(status);
    __builtin_unreachable();
}

__attribute__((destructor)) static void end(void) { tell(); }
"""


def full_log_and_cache():
    """A trace that fills a log, a cache and some pages, with shared, bit-fit and large blocks, and two threads in two phases."""
    lines = ["pas 1 pages 64 threads 2 heaps 3 age 1", "shared 2"]
    names = 0
    for heap in range(3):
        for size in [16 * by for by in range(1, 33)] + [600, 1500, 2048, 2049, 12288]:
            names += 1
            lines.append(f"a 1 {names} {heap} {size} 16")
    lines += [f"f 1 {name}" for name in range(1, names, 2)]
    lines += ["tick 3", "phase"] + [f"f 2 {name}" for name in range(2, names, 2)]
    lines += ["flush 2", "tick 9", "pass", "idle 2", f"a 2 {names + 1} 0 40960 4096"]
    return ("\n".join(lines) + "\n").encode()


def many_lines():
    """A trace of one thread whose transcript is so long that other threads make its lines."""
    lines = ["pas 1 pages 8 threads 1 heaps 1 age 2"]
    for name in range(1, 55_001):
        lines += [f"a 1 {name} 0 16 16", f"f 1 {name}"]
    return ("\n".join(lines) + "\n").encode()


TRACES = {
    "a small trace": b"pas 1 pages 4 threads 1 heaps 1 age 2\na 1 1 0 24 16\nf 1 1\n",
    "two threads in two phases": b"pas 1 pages 8 threads 2 heaps 1 age 2\na 1 1 0 16 16\na 2 2 0 16 16\nf 1 1\nphase\nf 2 1\nf 1 2\n",
    "two threads at once, and then the scavenger": b"pas 1 pages 1 threads 2 heaps 1 age 2\na 2 1 0 16 16\nr 1 0x00000008 0\nphase\nf 1 1\nidle 0\n",
    "one block that two threads free at once": b"pas 1 pages 1 threads 2 heaps 1 age 2\na 1 1 0 16 16\nphase\nf 1 1\nflush 1\nf 2 1\nflush 2\n",
    "a full log and a full cache, blocks of every kind": full_log_and_cache(),
    "lines that other threads make": many_lines(),
    "a line that is longer than a piece": b"pas 1 pages 4 threads 1 heaps 1 age 2\na 1 1 0 24 16\n" + b"#" * 300_000 + b"\nf 1 1\n",
    "a fault": b"pas 1 pages 4 threads 1 heaps 1 age 2\nf 1 1\n",
}

EXAMPLES = pathlib.Path(__file__).resolve().parent.parent / "examples"
TRANSCRIPT = (EXAMPLES / "first.transcript").read_bytes()
GUARDED = (EXAMPLES / "guards.transcript").read_bytes()

RUNS = {f"{word}, {what}": ([word], text) for word in ("order", "run") for what, text in TRACES.items()} | {
    "a check of a right transcript": (["check"], TRACES["a small trace"] + b"transcript\n" + TRANSCRIPT),
    "a check of one with guards": (["check"], (EXAMPLES / "guards.trace").read_bytes() + b"transcript\n" + GUARDED),
    "a check of an empty one": (["check"], TRACES["a small trace"]),
    "a generated trace": (["gen", "7", "2000", "4", "64"], b""),
    "other words": (["replay", "it"], b""),
}


def compiler():
    """The words that start a C compiler: the machine's, or that of the kit beside `rt`."""
    if shutil.which("cc") or not shutil.which("rt"):
        return ["cc"]
    folder = pathlib.Path(shutil.which("rt")).resolve().parent.parent / "toolchain/bin"
    return [folder / "clang", f"--ld-path={folder / 'ld.lld'}"]


def run(program, shim, words, text, first=None, last=None, count=None):
    """The status of a run in which these allocations are refused, and what it wrote."""
    environment = dict(os.environ, LD_PRELOAD=str(shim))
    if first is not None:
        environment |= {"REFUSE_FROM": str(first), "REFUSE_TO": str(last)}
    if count is not None:
        environment["REFUSE_COUNT"] = str(count)
    child = subprocess.run([program, *words], input=text, stdout=subprocess.PIPE, env=environment, timeout=MOST_SECONDS)
    return child.returncode, child.stdout


def is_right(words, text, wanted, found):
    """Whether a run that was refused memory ended so. What threads do at once may come in another order each time."""
    if found in (wanted, (5, b"")):
        return True
    return words == ["run"] and found[0] == wanted[0] == 0 and judge(read_trace(text.decode()), found[1].decode()) is None


def wanted_status(words, text):
    """The status of a run without a refusal: other words get 2, a fault 1, a transcript that isn't right 8."""
    if words[0] not in ("order", "run", "check", "gen"):
        return 2
    if words == ["check"]:
        return 0 if TRANSCRIPT in text or GUARDED in text else 8
    return 1 if text == TRACES["a fault"] else 0


def tried(program, folder, shim, words, text):
    """How many allocations the run makes, and what is wrong where some are refused."""
    count = folder / "count"
    wanted = run(program, shim, words, text, count=count)
    made = int(count.read_text())
    faults, ends = [], set()
    if wanted[0] != wanted_status(words, text) or not wanted[1]:
        faults.append(f"refused nothing: status {wanted[0]} and {len(wanted[1])} bytes")
    for first in range(made):
        for last in (first, 1 << 40):
            found = run(program, shim, words, text, first, last)
            ends.add(found[0])
            if not is_right(words, text, wanted, found):
                faults.append(f"refused {first} to {last}: status {found[0]} and {len(found[1])} bytes")
    if 5 not in ends:
        faults.append("no run ended with status 5")
    return made, faults


def main():
    if len(sys.argv) != 2 or sys.argv[1].startswith("-"):
        sys.exit(__doc__)
    wrong = 0
    with tempfile.TemporaryDirectory() as name:
        folder = pathlib.Path(name)
        source, shim = folder / "refuse.c", folder / "refuse.so"
        source.write_text(SHIM)
        subprocess.run([*compiler(), "-O1", "-shared", "-fPIC", "-nostdlib", "-o", shim, source], check=True)
        for what, (words, text) in RUNS.items():
            made, faults = tried(sys.argv[1], folder, shim, words, text)
            for fault in faults:
                print(f"{what}: {fault}")
            wrong += len(faults)
            print(f"{what}: {made} allocations, each refused alone and with all after it; {len(faults)} wrong")
    sys.exit(1 if wrong else 0)


if __name__ == "__main__":
    main()
