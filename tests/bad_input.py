#!/usr/bin/env python3
"""tests/bad_input.py PROGRAM

Feeds texts that are no traces, and some at the border, to the program `pas`, and compares each answer with a second reading of the rules of
docs/FORMAT.md: the first fault of a text, or none. A text with a fault is answered by that one line and status 1, one without by status 0, and one
that is too long by status 6. Ends with status 0 where all answers are right."""
import random
import re
import subprocess
import sys

MOST_SECONDS = 60
MOST_BYTES = 16_777_216
MOST_RECORDS = 2_000_000
MOST_OPERATIONS = 1_000_000
HEADER = b"pas 1 pages 4 threads 2 heaps 2 age 2\n"

# The words behind the first one of each kind of line, by what they are, and in which version a line came first, where that isn't the first.
SHAPES = {
    b"shared": ["heap"],
    b"a": ["thread", "name", "heap", "size", "align"],
    b"f": ["thread", "name"],
    b"r": ["thread", "address", "turn"],
    b"flush": ["thread"],
    b"stop": ["thread"],
    b"tick": ["epoch"],
    b"pass": [],
    b"idle": ["epoch"],
    b"phase": [],
    b"fs": ["thread", "name", "size", "align"],
    b"rs": ["thread", "address", "turn", "size", "align"],
    b"m": ["thread", "name", "old", "size", "align"],
    b"guard": ["every"],
}
SINCE = {b"fs": 2, b"rs": 2, b"m": 4, b"guard": 4}

# The lines that may stand only before the first operation and `phase` line, and that are no operations.
FIRST = (b"shared", b"guard")

# The most pages of each version.
PAGES = {1: 4096, 2: 4096, 3: 16384, 4: 16384}


def number_of(word):
    """The number that a word is, or None."""
    if re.fullmatch(rb"0|[1-9][0-9]{0,19}", word) and int(word) < 1 << 64:
        return int(word)
    return None


def value_of(shape, word):
    """What a word says where something of this shape should be, or None where it is a bad number."""
    if shape == "address":
        return int(word, 16) if re.fullmatch(rb"0x[0-9a-f]{8}", word) else None
    number = number_of(word)
    limits = {"name": range(1, 1_000_001), "old": range(1, 1_000_001), "every": range(1, 1_000_001), "epoch": range(1 << 40), "turn": range((1 << 40) - 1)}
    return number if number is not None and (shape not in limits or number in limits[shape]) else None


def header_of(line):
    """Version, pages, threads and heaps, or None."""
    words = [word for word in line.split(b" ") if word]
    if len(words) != 10 or [words[at] for at in (0, 2, 4, 6, 8)] != [b"pas", b"pages", b"threads", b"heaps", b"age"]:
        return None
    version = number_of(words[1])
    if version not in PAGES:
        return None
    values = [number_of(words[at]) for at in (3, 5, 7, 9)]
    limits = (PAGES[version], 16, 32, 1_000_000)
    if any(value is None or not 1 <= value <= most for value, most in zip(values, limits)):
        return None
    return [version, *values[:3]]


class Reader:
    """What earlier lines said, as far as later ones need it."""

    def __init__(self, version, pages, threads, heaps):
        self.version, self.pages, self.threads, self.heaps = version, pages, threads, heaps
        self.asked, self.phase, self.operations, self.begun, self.guarded = {}, 1, 0, False, False
        self.records = threads * pages

    def cost(self, kind, has):
        if kind in (b"a", b"m"):
            large = has["size"] > 2048
            return (1 + -(-has["size"] // 4096) if large else 2) + (2 if large and self.guarded else 0) + (kind == b"m")
        return {b"f": 1, b"r": 1, b"fs": 1, b"rs": 1, b"tick": 1, b"pass": 1 + self.pages, b"idle": self.threads}.get(kind, 0)

    def name_fault(self, kind, has):
        if kind in (b"a", b"m") and has["name"] in self.asked:
            return "NameTaken"
        if kind in (b"f", b"fs", b"m"):
            freed = has["old" if kind == b"m" else "name"]
            if freed not in self.asked:
                return "NameUnknown"
            thread, phase = self.asked[freed]
            if thread != has["thread"] and phase == self.phase:
                return "TooEarly"
        return None

    def fault(self, line):
        """The fault of a line, or None."""
        words = [word for word in line.split(b" ") if word]
        if not words or line.startswith(b"#"):
            return None
        kind = words[0]
        if kind not in SHAPES or self.version < SINCE.get(kind, 1) or len(words) != 1 + len(SHAPES[kind]) or (kind in FIRST and self.begun) or (kind == b"guard" and self.guarded):
            return "BadWord"
        has = {shape: value_of(shape, word) for shape, word in zip(SHAPES[kind], words[1:])}
        if None in has.values():
            return "BadNumber"
        if ("thread" in has and not 1 <= has["thread"] <= self.threads) or (kind == b"guard" and self.threads > 8):
            return "BadThread"
        if "heap" in has and has["heap"] >= self.heaps:
            return "BadHeap"
        if "size" in has and has["size"] > 4096 * self.pages:
            return "BadSize"
        if "align" in has and has["align"] not in [16 << by for by in range(9)]:
            return "BadAlign"
        if fault := self.name_fault(kind, has):
            return fault
        self.begun = self.begun or kind not in FIRST
        if kind == b"guard":
            self.guarded = True
            self.records += self.threads * self.pages
        if kind == b"phase":
            self.phase += 1
        if kind in FIRST or kind == b"phase":
            return None
        self.operations += 1
        self.records += self.cost(kind, has)
        if kind in (b"a", b"m"):
            self.asked[has["name"]] = (has["thread"], self.phase)
        if self.operations > MOST_OPERATIONS:
            return "TooManyOps"
        return "TraceTooLarge" if self.records > MOST_RECORDS else None


def first_fault(text):
    """The number and the reason of the lowest faulty line, or None."""
    lines = text.split(b"\n")
    if lines[-1] == b"":
        lines.pop()
    header = header_of(lines[0]) if lines else None
    if header is None:
        return 1, "BadHeader"
    reader = Reader(*header)
    for number, line in enumerate(lines[1:], 2):
        if fault := reader.fault(line):
            return number, fault
    return None


def is_wrong(program, text):
    """What is wrong with the answer to a text, or None."""
    run = subprocess.run([program, "order"], input=text, stdout=subprocess.PIPE, timeout=MOST_SECONDS)
    if len(text) > MOST_BYTES:
        wanted, status = b"input too long\n", 6
    elif fault := first_fault(text):
        wanted, status = b"line %d: %s\n" % (fault[0], fault[1].encode()), 1
    else:
        wanted, status = None, 0
    if run.returncode != status or (wanted is not None and run.stdout != wanted):
        return f"status {run.returncode} and {run.stdout[:60]!r}, not {status} and {wanted!r}, of {text[:200]!r}"
    return None


GOOD = [
    b"shared 1", b"a 1 1 0 24 16", b"a 2 2 1 600 64", b"f 1 1", b"r 2 0x00001000 0", b"flush 1", b"tick 3", b"phase", b"f 1 2", b"pass", b"idle 1",
    b"a 1 3 0 8192 4096", b"stop 2",
]

# A line for each reason but the first and the last two, by what must have come before: the lines of GOOD.
BAD = {
    "BadWord": [b"free 1 1", b"a 1 9 0 24", b"a 1 9 0 24 16 0", b"pass 1", b"phase 2", b"shared 1", b"\xff\xfe", b"A 1 9 0 24 16", b"flush\t1"],
    "BadNumber": [
        b"a 1 9 0 024 16", b"a 1 9 0 +24 16", b"a 1 9 0 -1 16", b"a 1 9 0 18446744073709551616 16", b"a 1 0 0 24 16", b"a 1 1000001 0 24 16", b"a x 9 0 24 16",
        b"tick 1099511627776", b"idle 1099511627776", b"r 1 0x00001000 1099511627775", b"r 1 0x1000 0", b"r 1 0x0000100A 0", b"r 1 4096 0",
        b"flush 1\r", b"flush \xb2", b"f 1 1.0",
    ],
    "BadThread": [b"a 0 9 0 24 16", b"a 3 9 0 24 16", b"f 3 1", b"r 17 0x00001000 0", b"flush 0", b"stop 18446744073709551615"],
    "BadHeap": [b"a 1 9 2 24 16", b"a 1 9 18446744073709551615 24 16"],
    "BadSize": [b"a 1 9 0 16385 16", b"a 1 9 0 18446744073709551615 16"],
    "BadAlign": [b"a 1 9 0 24 0", b"a 1 9 0 24 8", b"a 1 9 0 24 24", b"a 1 9 0 24 8192", b"a 1 9 0 24 18446744073709551615"],
    "NameTaken": [b"a 1 1 0 24 16", b"a 2 3 0 24 16"],
    "NameUnknown": [b"f 1 9", b"f 2 1000000"],
    "TooEarly": [b"f 2 3"],
}

# .. and for lines of later versions, by the version in which they came. In an earlier one each of them is a bad word.
LATER_BAD = {
    2: {
        "BadWord": [b"fs 1 3 24", b"fs 1 3", b"fs 1 3 24 16 0", b"rs 1 0x00001000 0 24", b"rs 1 0x00001000 0 24 16 0", b"fs\t1 3 24 16", b"Fs 1 3 24 16"],
        "BadNumber": [
            b"fs 1 3 024 16", b"fs 1 0 24 16", b"fs 1 1000001 24 16", b"fs x 9 16385 8", b"fs 1 3 24 16\r", b"rs 1 0x1000 0 24 16",
            b"rs 1 0x00001000 1099511627775 24 16", b"rs 1 0x00001000 0 18446744073709551616 16",
        ],
        "BadThread": [b"fs 3 9 16385 8", b"fs 0 3 24 16", b"rs 0 0x00001000 0 16385 8", b"rs 17 0x00001000 0 24 16"],
        "BadSize": [b"fs 1 9 16385 8", b"fs 2 3 18446744073709551615 16", b"rs 1 0x00001000 0 16385 8"],
        "BadAlign": [b"fs 1 9 24 8", b"fs 2 3 24 48", b"rs 1 0x00001000 0 24 8192", b"rs 1 0x00001000 0 24 0"],
        "NameUnknown": [b"fs 1 9 24 16", b"fs 2 1000000 24 16"],
        "TooEarly": [b"fs 2 3 24 16"],
    },
    4: {
        "BadWord": [b"m 1 9 3 24", b"m 1 9 3 24 16 0", b"M 1 9 3 24 16"],
        "BadNumber": [b"m 1 0 3 24 16", b"m 1 9 0 24 16", b"m 1 9 1000001 24 16", b"m 1 09 3 24 16", b"m x 3 9 16385 8", b"m 1 9 3 24 18446744073709551616"],
        "BadThread": [b"m 0 3 9 16385 8", b"m 3 9 3 24 16"],
        "BadSize": [b"m 1 3 9 16385 8", b"m 2 9 3 18446744073709551615 16"],
        "BadAlign": [b"m 1 3 9 24 8", b"m 2 9 3 24 8192"],
        "NameTaken": [b"m 1 3 9 24 16", b"m 2 1 3 24 16", b"m 1 3 3 24 16"],
        "NameUnknown": [b"m 1 9 8 24 16", b"m 2 9 9 24 16"],
        "TooEarly": [b"m 2 9 3 24 16"],
    },
}

# Lines at the border of a limit, all of them good behind GOOD.
BORDER = [
    b"a 1 1000000 0 0 16", b"a 1 9 1 16384 4096", b"a 2 9 0 2048 4096", b"tick 1099511627775", b"idle 1099511627775", b"idle 0",
    b"r 1 0xffffffff 1099511627774", b"  flush   1  ", b"", b"   ", b"#\xff", b"# a 1 1", b"f 2 1", b"f 1 1",
]

LATER_BORDER = {
    2: [
        b"fs 1 3 0 16", b"fs 1 3 16384 4096", b"fs 2 1 24 16", b"rs 1 0xffffffff 1099511627774 16384 4096", b"rs 2 0x00001000 0 0 16", b" fs  1 1 40 16 ",
    ],
    4: [b"m 1 1000000 3 0 16", b"m 1 9 3 16384 4096", b"m 2 8 1 2049 16", b" m  2 7 2 24 16 "],
}

# Lines behind the header of a region of so many threads, whose last one has this fault, or none.
GUARDS = [
    (8, [b"guard 1"], None), (8, [b"guard 1000000", b"shared 1"], None), (1, [b"shared 1", b" guard  7 ", b"shared 0", b"a 1 1 0 4096 16"], None),
    (8, [b"# a", b"", b"guard 2"], None), (8, [b"guard 0"], "BadNumber"), (8, [b"guard 1000001"], "BadNumber"), (8, [b"guard 02"], "BadNumber"),
    (8, [b"guard x"], "BadNumber"), (8, [b"guard 18446744073709551616"], "BadNumber"), (9, [b"guard 0"], "BadNumber"), (9, [b"guard 1"], "BadThread"),
    (16, [b"guard 1000000"], "BadThread"), (8, [b"guard"], "BadWord"), (8, [b"guard 1 1"], "BadWord"), (8, [b"Guard 1"], "BadWord"), (8, [b"guard 1", b"guard 1"], "BadWord"),
    (8, [b"guard 1", b"shared 1", b"guard x"], "BadWord"), (8, [b"guard 1", b"guard"], "BadWord"), (8, [b"a 1 1 0 24 16", b"guard 1"], "BadWord"), (8, [b"phase", b"guard 1"], "BadWord"),
    (8, [b"flush 1", b"guard x"], "BadWord"), (16, [b"pass", b"guard 0"], "BadWord"), (1, [b"guard 1", b"flush 1", b"shared 1"], "BadWord"),
]

HEADERS = {
    True: [(1, 1, 1, 1), (4096, 16, 32, 1_000_000), (4096, 1, 1, 2), (1, 16, 32, 1)],
    False: [(0, 1, 1, 1), (16385, 1, 1, 1), (4, 0, 1, 1), (4, 17, 1, 1), (4, 1, 0, 1), (4, 1, 33, 1), (4, 1, 1, 0), (4, 1, 1, 1_000_001)],
}


def header(version):
    """The header of the version, for all lines of the tables."""
    return b"pas %d" % version + HEADER[5:]


def faults():
    """Each bad line and each border line as the first one, in the middle and as the last one, with and without a line feed at the end."""
    good = b"\n".join(GOOD) + b"\n"
    older = [line for lines in BAD.values() for line in lines] + BORDER
    later = [line for table in LATER_BAD.values() for lines in table.values() for line in lines] + [line for lines in LATER_BORDER.values() for line in lines]
    for version, lines in [(1, older), *((version, later) for version in PAGES)]:
        first = header(version)
        for line in lines:
            for text in (first + line + b"\n" + good, first + good + line + b"\n" + good[-7:], first + good + line, first + good + line + b"\n"):
                yield text


def reasons():
    """Each reason comes where its table says it: in each version, of its own lines and of those before; a later one begins with a bad word."""
    for version in PAGES:
        good = header(version) + b"\n".join(GOOD) + b"\n"
        bad = [(reason, line) for reason, lines in BAD.items() for line in lines]
        bad += [(reason if since <= version else "BadWord", line) for since, table in LATER_BAD.items() for reason, lines in table.items() for line in lines]
        bad += [("BadWord", line) for since, lines in LATER_BORDER.items() if since > version for line in lines]
        for reason, line in bad:
            if first_fault(good + line) != (len(GOOD) + 2, reason):
                sys.exit(f"the table of bad lines is wrong at {line!r} in version {version}")
            yield good + line
        for line in BORDER + [line for since, lines in LATER_BORDER.items() if since <= version for line in lines]:
            if first_fault(good + line) is not None:
                sys.exit(f"the table of border lines is wrong at {line!r} in version {version}")
            yield good + line


def guards():
    """Each table of lines with a `guard` line, alone and with lines behind it; in an earlier version the first such line is a bad word."""
    for threads, lines, reason in GUARDS:
        for version in PAGES:
            text = b"pas %d pages 4 threads %d heaps 2 age 2\n" % (version, threads) + b"\n".join(lines)
            first = next(at for at, line in enumerate(lines) if line.split()[:1] == [b"guard"] or line.split()[:1] == [b"Guard"])
            wanted = (len(lines) + 1, reason) if reason else None
            if version < 4 and (wanted is None or first + 2 <= wanted[0]):
                wanted = (first + 2, "BadWord")
            if first_fault(text) != wanted:
                sys.exit(f"the table of guards is wrong at {lines!r} in version {version}")
            yield text
            yield text + b"\n"
            yield text + b"\na 1 9 0 4096 16\nm 1 8 9 8192 16\nflush 1\n"


def headers():
    for is_good, values in HEADERS.items():
        for pages, threads, heaps, age in values:
            for version in PAGES:
                text = b"pas %d pages %d threads %d heaps %d age %d\n" % (version, pages, threads, heaps, age)
                if (first_fault(text) is None) != is_good:
                    sys.exit(f"the table of headers is wrong at {text!r}")
                yield text
                yield text + b"pass"
    for version, pages in [(1, 4097), (2, 4097), (3, 4097), (3, 16384), (0, 4), (max(PAGES) + 1, 4), (257, 4)]:
        yield b"pas %d pages %d threads 1 heaps 1 age 2\n" % (version, pages)
    for line in (b"", b"\n", b"\n" + HEADER, b"# a trace\n" + HEADER, b"pas 02" + HEADER[5:], b" pas  1 pages 4 threads 2 heaps 2 age 2 ", HEADER[:-1] + b" 1"):
        yield line


def cuts():
    """A trace that is cut at each byte."""
    text = header(max(PAGES)) + b"guard 2\n" + b"\n".join(GOOD + [line for lines in LATER_BORDER.values() for line in lines]) + b"\n"
    for length in range(len(text) + 1):
        yield text[:length]


def changes():
    """A trace in which one byte is another, is missing or comes twice: each byte above 127 among them."""
    text = header(max(PAGES)) + b"guard 2\n" + b"\n".join(GOOD + [line for lines in LATER_BORDER.values() for line in lines]) + b"\n"
    draws = random.Random(1)
    for at in range(len(text)):
        for byte in (draws.randrange(256), draws.randrange(128, 256), draws.choice(b" \n#0x9a")):
            yield text[:at] + bytes([byte]) + text[at + 1 :]
        yield text[:at] + text[at + 1 :]
        yield text[: at + 1] + text[at:]


def long_texts():
    """Texts at the limits of bytes, operations and records, and one beyond; and lines of nearly all bytes."""
    for length in (MOST_BYTES, MOST_BYTES + 1):
        yield b"\n" * length
        yield HEADER + b"#" * (length - len(HEADER))
        yield HEADER + b"flush 1" + b" " * (length - len(HEADER) - 7)
        yield HEADER + b"9" * (length - len(HEADER))
        yield HEADER + b"a 1 " + b"1" * (length - len(HEADER) - 4)
    for operations in (MOST_OPERATIONS, MOST_OPERATIONS + 1):
        yield HEADER + b"flush 1\n" * operations
    whole = b"pas 1 pages 4096 threads 1 heaps 1 age 2\n"
    for passes in (487, 488):
        yield whole + b"pass\n" * passes
    ticks = (MOST_RECORDS - 4096 - 4097 * 487) % 4097
    yield whole + b"pass\n" * 487 + b"tick 1\n" * ticks
    yield whole + b"pass\n" * 487 + b"tick 1\n" * (ticks + 1)
    sized = b"pas 2" + whole[5:] + b"pass\n" * 487
    yield sized + b"rs 1 0x00001000 0 24 16\n" * ticks
    yield sized + b"rs 1 0x00001000 0 24 16\n" * (ticks + 1)
    yield header(2) + b"flush 1\n" * MOST_OPERATIONS + b"rs 1 0x00001000 0 24 16\n"
    moved = b"pas 4" + whole[5:] + b"a 1 1 0 24 16\n" + b"pass\n" * 487
    for left in (3, 2):
        yield moved + b"tick 1\n" * (ticks - 2 - left) + b"m 1 2 1 24 16\n"
    yield header(4) + b"a 1 1 0 24 16\n" + b"flush 1\n" * (MOST_OPERATIONS - 1) + b"m 1 2 1 24 16\n"
    # In a guarded trace a deed more for each page, and two more for a request for whole pages and for a reallocation to them.
    kept = b"pas 4" + whole[5:] + b"guard 1000000\n" + b"pass\n" * 485
    left = MOST_RECORDS - 2 * 4096 - 4097 * 485
    for lines, cost in [(b"a 1 1 0 24 16\n", 2), (b"a 1 1 0 2049 16\n", 4), (b"a 1 1 0 8192 16\n", 5), (b"a 1 1 0 24 16\nm 1 2 1 4097 16\n", 8)]:
        for more in (0, 1):
            yield kept + b"tick 1\n" * (left - cost + more) + lines


def main():
    if len(sys.argv) != 2 or sys.argv[1].startswith("-"):
        sys.exit(__doc__)
    count, wrong = 0, 0
    for texts in (headers, guards, reasons, faults, cuts, changes, long_texts):
        for text in texts():
            count += 1
            if what := is_wrong(sys.argv[1], text):
                wrong += 1
                print(f"{texts.__name__}: {what}")
    print(f"{count} texts, {wrong} answered wrongly")
    sys.exit(1 if wrong else 0)


if __name__ == "__main__":
    main()
