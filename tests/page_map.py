#!/usr/bin/env python3
"""tests/page_map.py PROGRAM [--into PICTURE] [--operations N]

Tests tools/page_map.py with the program `pas`. The pages of HTML of all examples without a fault, of waves of requests and frees with refusals, wrong
frees, ticks and passes, of guarded blocks, and of a storm of threads, say of each page and column what a second reading of the transcript says: how
the pages stand, the greatest totals of a column, the peak with its line and what each heap had then, the guards that were due and raised; at the end
they agree with the report, and each refusal and each wrong free is a mark. A range of lines has the same pages in finer columns. They fetch nothing,
and for a trace of N operations (a million) on more than 10,000 pages stay below 3 MB. What is no trace or no transcript of it is refused, with its line
once; an interrupt ends quietly, and a full disk leaves no part of a file. A real browser opens the pages (tests/map_pictures.py); with --into the
picture of the waves is kept. Without a browser that part is skipped, and said to be. Prints what was checked; the status is 1 where something was
wrong."""

import argparse
import base64
import json
import os
import pathlib
import random
import re
import resource
import signal
import subprocess
import sys
import tempfile
import time
import zlib
from html.parser import HTMLParser

sys.dont_write_bytecode = True
import logs
import map_pictures
from browser import BrowserFault, find_browser
from logs import ROOT, check, end_checks
from map_reading import EARLY, MOVES, PAGE, REFUSALS, WRONG_FREES, Reading, guarded, many, one_block, waves
from storm import storm

MOST_SECONDS, MOST_BYTES, MOST_COLUMNS = 300, 3_000_000, 4000
# An interrupt that comes just before a read isn't seen by it, so another one is sent after so many seconds.
BETWEEN = 10
TOOL = ROOT / "tools/page_map.py"


def tool(*words, **more):
    return subprocess.run([sys.executable, str(TOOL), *map(str, words)], stdin=subprocess.DEVNULL, stdout=subprocess.PIPE, stderr=subprocess.PIPE, text=True,
                          timeout=MOST_SECONDS, **more)


class Tags(HTMLParser):
    """The tags of a page, and what it would fetch."""

    def __init__(self):
        super().__init__()
        self.tags, self.fetched = [], []

    def handle_starttag(self, tag, attributes):
        self.tags.append(tag)
        self.fetched += [value for key, value in attributes if key in ("src", "href", "srcset", "data", "action")]


def data_of(text):
    """The data of each run on a page."""
    found = [json.loads(each) for each in re.findall(r'<script type="application/json">(.*)</script>', text)]
    for data in found:
        data["cells"], much = (zlib.decompress(base64.b64decode(data[each])) for each in ("cells", "told"))
        data.update(json.loads(much))
    return found


class Case:
    """A trace, its transcript, and the page of HTML that the tool made of them."""

    def __init__(self, room, name, trace, transcript, *options):
        self.name, self.lines, self.text = name, transcript.splitlines(), trace
        self.path, self.trace, self.transcript = room / f"{name}.html", room / f"{name}.trace", room / f"{name}.transcript"
        self.trace.write_text(trace)
        self.transcript.write_text(transcript)
        made = tool(self.trace, self.transcript, "-o", self.path, *options)
        check(made.returncode == 0, f"{name}: {made.stderr}")
        text = self.path.read_text()
        self.bytes = len(text.encode())
        tags = Tags()
        tags.feed(text)
        check(tags.tags.count("script") == 2 and not tags.fetched and text.endswith("</html>\n"), f"{name}: {tags.fetched} or no whole page")
        check(not re.search(r"https?://|@import|url\(", text), f"{name}: it names another place")
        self.data, = data_of(text)
        self.end = len(self.lines) - 1 - self.lines[::-1].index("report")

    def cells(self, column):
        """How the pages stand in this column."""
        return list(self.data["cells"][column::self.data["columns"]])


def test_columns(case, each):
    """Columns have the pages after their last line and the greatest totals after a line of them; a part of the columns is read page by page. The peak
    and the heaps of the peak are those of the second reading."""
    data, reading, column, totals, peak, heaps = case.data, Reading(case.text), 0, [], (0, 0), []
    first, last, greatest = data["first"], data["last"], [(0, 0)] * 3
    for number, line in enumerate(case.lines[:case.end], 1):
        reading.read(line)
        now = reading.totals()
        greatest = [max((total, -number), before) for total, before in zip(now, greatest)]
        if now[:2] > peak:
            peak, heaps = now[:2], [number, now[2], reading.heaps()]
        if not first <= number <= last:
            continue
        totals.append(now)
        if number == first - 1 + (column + 1) * (last - first + 1) // data["columns"]:
            wanted = [max(total) for total in zip(*totals)]
            check([total[column] for total in data["totals"]] == wanted, f"{case.name}: totals of column {column}, and not {wanted}")
            if column % each == 0:
                check(case.cells(column) == [reading.state(page[0]) for page in data["pages"]], f"{case.name}: column {column}")
            column, totals = column + 1, []
    check(column == data["columns"], f"{case.name}: {column} columns, and not {data['columns']}")
    check(data["most"] == [[total, -line] for total, line in greatest], f"{case.name}: the greatest: {data['most']}, and not {greatest}")
    told, had = data["peak"], {heap: rest for heap, *rest in heaps[2] if any(rest)}
    check([told["line"], told["asked"]] == heaps[:2] and (told["pages"] * PAGE, told["room"]) == peak, f"{case.name}: peak {told}, and not {peak} {heaps}")
    check({heap: rest for heap, _, *rest in data["heaps"] if any(rest)} == had, f"{case.name}: heaps {data['heaps']}, and not {had}")
    check(data["guards"] == [reading.raised, reading.due], f"{case.name}: guards {data['guards']}, and not {reading.raised} of {reading.due}")


def test_end(case):
    """The last column is what the report says; all pages, refusals and wrong frees are there."""
    data, report = case.data, [line.split() for line in case.lines[case.end + 1:-1]]
    at, cells = {page[0]: row for row, page in enumerate(data["pages"])}, case.cells(data["columns"] - 1)
    check(sorted(at) == [int(words[1]) for words in report], f"{case.name}: pages {sorted(at)}")
    for words in report:
        page, state = data["pages"][at[int(words[1])]], cells[at[int(words[1])]]
        live, free = int(words[words.index("live") + 1]), int(words[words.index("free") + 1])
        is_right = (state >= 4) == ("backed" in words[-1]) and (live == 0 or state > 4) and (free < 256 or state <= 4)
        check(is_right and page[-1] == " ".join(words) and str(page[1]) == words[3] and page[2] == " ".join(words[4:words.index("live")]), f"{case.name}: state {state}, {page}")
    deeds = {heap: sum(words[3] == str(heap) for words in report) for heap, *_ in data["heaps"]}
    check(sum(deeds.values()) == len(report) and all(deeds[heap] == number > 0 for heap, number, *_ in data["heaps"]), f"{case.name}: deeds {data['heaps']}")
    total = case.lines[-1].split()
    check(data["total"] == case.lines[-1] and data["totals"][0][-1] >= PAGE * int(total[total.index("backed") + 1]), f"{case.name}: {data['total']}")
    check(data["columns"] == min(case.end, MOST_COLUMNS, max(250, 5_000_000 // max(1, len(report)))), f"{case.name}: {data['columns']} columns")


def test_marks(case):
    """Each refusal and each wrong free of the lines is a mark, where they aren't too many, with the text of its line; and where phases began, ticks came,
    passes ran and guards went up, that is told."""
    data, first, last = case.data, case.data["first"], case.data["last"]
    seconds = [line.split(" ", 2)[1] if line != "close" else "" for line in case.lines[:case.end]]
    said = [sum(second in words for second in seconds) for words in (REFUSALS, WRONG_FREES)]
    inside = sum(second in REFUSALS + WRONG_FREES for second in seconds[first - 1:last])
    check(data["allMarks"] == said and len(data["marks"]) <= inside, f"{case.name}: marks {data['allMarks']}, and not {said}")
    check(inside > 2000 or len(data["marks"]) == inside, f"{case.name}: {len(data['marks'])} marks of {inside}")

    def column_of(line):
        return ((line - first + 1) * data["columns"] - 1) // (last - first + 1)

    for line, column, _, _, count, text in data["marks"]:
        is_right = first <= line <= last and text.startswith(case.lines[line - 1]) and column == column_of(line) and count >= 1
        check(is_right, f"{case.name}: a mark of line {line}: {text}")
    for name, pattern in (("phases", "phase "), ("ticks", "0 tick "), ("passes", "0 pass "), ("guards", r"\d+ guarded ")):
        lines = [line for line in range(first, last + 1) if re.match(pattern, case.lines[line - 1])]
        check(data["strip"][name] == [len(lines), sorted(set(map(column_of, lines)))], f"{case.name}: {name} {data['strip'][name]}, and not {lines}")


def test_ranges(room, case):
    """A part of a transcript: a column for each of its lines, with the same pages as in the whole, and those of the end without a bound."""
    end, text = case.end, "\n".join(case.lines) + "\n"
    for word, first, last in (("101..400", 101, 400), (f"{end - 50}..", end - 50, end), ("..7", 1, 7), (f"{end}..999999999", end, end)):
        part = Case(room, f"{case.name} {first}", case.text, text, "--lines", word)
        check([part.data[each] for each in ("first", "last", "columns", "lines")] == [first, last, last - first + 1, end], f"{word}: {part.data['first']}")
        check(part.data["peak"] == case.data["peak"] and part.data["heaps"] == case.data["heaps"], f"{word}: another peak")
        test_columns(part, 1)
        test_marks(part)
    for word, said in (("9..3", "ends before it begins"), ("3", "no range of lines"), ("..", "no range"), ("0..4", "no range"), ("a..b", "no range")):
        made = tool(case.trace, case.transcript, "-o", room / "x.html", "--lines", word)
        check(made.returncode == 2 and said in made.stderr and not (room / "x.html").exists(), f"--lines {word}: {made.stderr}")
    made = tool(case.trace, case.transcript, "-o", room / "x.html", "--lines", f"{end + 1}..")
    check(made.returncode == 1 and f"there is no line {end + 1:,}" in made.stderr and not (room / "x.html").exists(), f"beyond the end: {made.stderr}")
    print("4 ranges of lines, 6 refused")


def test_refusals(room):
    """What is no trace and no transcript."""
    (room / "t").write_text("pas 1 pages 4 threads 1 heaps 1 age 2\na 1 1 0 24 16\n")
    (room / "no").write_text("something\n")
    (room / "short").write_text((room / "t").read_text() + "# heap 0: 1 requests\na 1 2 0 24\n")
    (room / "bytes").write_bytes(b"close\nrep\xd0\x00rt\n")
    end = "close\nreport\ntotal deeds 0 backed 0 live 0 given 0 ended 0\n"
    transcripts = {
        "": "line 0: the transcript ends without a report", "line 2: BadSize\n": "the program found a fault in the trace: line 2: BadSize",
        "1 back page 1\n": "line 1: the transcript ends without a report", "1 jump page 1\n" + end: "line 1: no line of a transcript of this trace: 1 jump page 1",
        "1 back page 9\n" + end: "line 1: no line", "1 no-space name 2\n" + end: "line 1: no line", "1 no-space name 1\n1 no-space name 1\n" + end: "line 2: no line",
        "1 deed page 1 heap 0 class 32\n" * 2 + end: "line 2: no line", "close\nreport\npages\n": "line 3: no line of a report: pages",
        "close\nreport\n": "line 2: the report ends without its totals",
    }
    for text, said in transcripts.items():
        (room / "s").write_text(text)
        made = tool(room / "t", room / "s", "-o", room / "x.html")
        check(made.returncode == 1 and f"{room / 's'}: {said}" in made.stderr and not (room / "x.html").exists(), f"{text!r}: {made.stderr}")
        check(len(re.findall(r"line \d", made.stderr)) == len(re.findall(r"line \d", said)), f"{text!r}: the line twice: {made.stderr}")
    (room / "s").write_text(end)
    files = (("no", "s", "no: line 1: no header of a trace"), ("short", "s", "short: line 4: no line of a trace: a 1 2 0 24"), ("none", "s", "none: No such file"),
             ("t", "none", "none: No such file"), (".", "s", ": Is a directory"), ("t", ".", ": Is a directory"), ("bytes", "s", "bytes: line 1: no header"),
             ("t", "bytes", "bytes: line 2: it is no text"))
    for trace, transcript, said in files:
        made = tool(room / trace, room / transcript, "-o", room / "x.html")
        check(made.returncode == 1 and said in made.stderr and made.stderr.count("\n") == 1 and not (room / "x.html").exists(), f"{trace}, {transcript}: {made.stderr}")
    check("usage:" in tool("--help").stdout, "no help")
    print(f"{len(transcripts) + len(files)} refusals, one help")


def test_whole_files(room, case):
    """Where the disk is full no part of the page is left, and what stood there before is; a device is written as it is."""
    def least():
        resource.setrlimit(resource.RLIMIT_FSIZE, (20_000, 20_000))

    into = room / "whole.html"
    for before in (None, "as before"):
        if before:
            into.write_text(before)
        made = tool(case.trace, case.transcript, "-o", into, preexec_fn=least)
        check(made.returncode == 1 and "whole.html: File too large" in made.stderr, f"a full disk: {made.returncode} {made.stderr}")
        check((into.read_text() if into.exists() else None) == before and not list(room.glob(".whole*")), f"a full disk leaves {list(room.glob('*whole*'))}")
    into.chmod(0o640)
    check(tool(case.trace, case.transcript, "-o", into).returncode == 0 and into.read_text() == case.path.read_text(), "another page the second time")
    check(into.stat().st_mode & 0o777 == 0o640, "the file has other rights")
    for device, status, said in (("/dev/null", 0, "pages"), ("/dev/full", 1, "No space left")):
        made = tool(case.trace, case.transcript, "-o", device)
        check(made.returncode == status and said in made.stderr and pathlib.Path(device).is_char_device(), f"{device}: {made.returncode} {made.stderr}")
    made = tool(case.trace, case.transcript, "-o", room / "none" / "x.html")
    check(made.returncode == 1 and "No such file" in made.stderr, f"a folder that isn't there: {made.stderr}")
    print("full disks, devices")


def test_interrupt(room, case):
    """An interrupt while it waits for its transcript: nothing is said and nothing left."""
    pipe, into = room / "pipe", room / "interrupted.html"
    os.mkfifo(pipe)
    child = subprocess.Popen([sys.executable, str(TOOL), str(case.trace), str(pipe), "-o", str(into)], stdout=subprocess.PIPE, stderr=subprocess.PIPE,
                             preexec_fn=lambda: signal.signal(signal.SIGINT, signal.SIG_DFL))
    with pipe.open("wb"):
        while child.poll() is None:
            child.send_signal(signal.SIGINT)
            try:
                child.wait(BETWEEN)
            except subprocess.TimeoutExpired:
                pass
        said = child.communicate()
    check(child.returncode == 130 and said == (b"", b"") and not into.exists(), f"an interrupt: {child.returncode}, {said}")
    terminal = logs.told_on_terminal([sys.executable, str(TOOL), str(case.trace), str(case.transcript), "-o", str(into)])
    check("pages" in terminal.splitlines()[-1] and into.exists(), f"on a terminal: {terminal!r}")
    print("an interrupt, a terminal")


def cases_of(room, program, rng, operations):
    """All pages: of the examples, of waves, guards and storms, of transcripts written by hand, and of many operations."""
    def replayed(word, text):
        run = subprocess.run([program, word], input=text, stdout=subprocess.PIPE, text=True, timeout=MOST_SECONDS)
        check(run.returncode == 0, f"{word}: status {run.returncode}: {run.stdout[:80]}")
        return run.stdout

    found = [(trace.stem, trace.read_text(), trace.with_suffix(".transcript").read_text()) for trace in sorted((ROOT / "examples").glob("*.trace"))]
    cases = [Case(room, *each) for each in found if not each[2].startswith("line ")]
    wave, guards, stormy, long, block = waves(rng), guarded(rng), storm(rng, 20000, 20), many(rng, operations), one_block(3000)
    cases += [Case(room, name, text, replayed("order", text)) for name, text in (("waves", wave), ("guarded", guards), ("one-block", block))]
    cases.append(Case(room, "moves", *MOVES))
    for case in cases:
        test_columns(case, 50 if case.data["columns"] > 1000 else 1)
    print(f"{len(cases)} transcripts of `order`, column for column")
    check(sum(case.data["guards"][0] for case in cases) > 30 and cases[-3].data["guards"][0] < cases[-3].data["guards"][1], "no guards, or none that finds no place")
    early = Case(room, "early", *EARLY)
    check([total[-1] for total in early.data["totals"]] == [PAGE, 32, 24] and early.cells(5) == [5], f"early: {early.data['totals']}")
    check(early.data["heaps"] == [[1, 1, 1, 32, 24, 1]], f"early: heaps {early.data['heaps']}")
    of_run = [Case(room, name, text, replayed("run", text)) for name, text in (("waves-of-run", wave), ("storm-of-run", stormy), ("guarded-of-run", guards))]
    check([case.data["byActor"] for case in [*cases, early, *of_run]] == [False] * len(cases) + [True] * 4, "which of them are of `run`")
    began = time.monotonic()
    last = Case(room, "many", long, replayed("order", long))
    check(last.bytes < MOST_BYTES, f"{last.bytes} bytes")
    print(f"{operations:,} operations: {last.data['lines']:,} lines, {len(last.data['pages']):,} pages, {last.bytes / 1e6:.2f} MB of HTML, "
          f"{time.monotonic() - began:.0f} seconds with its replay")
    return [*cases, early, *of_run, last]


def main():
    parser = argparse.ArgumentParser(description=__doc__, formatter_class=argparse.RawDescriptionHelpFormatter)
    parser.add_argument("program")
    parser.add_argument("--into", type=pathlib.Path)
    parser.add_argument("--operations", type=int, default=1_000_000)
    options = parser.parse_args()
    with tempfile.TemporaryDirectory() as room:
        room = pathlib.Path(room)
        cases = cases_of(room, str(pathlib.Path(options.program).resolve()), random.Random(7), options.operations)
        by_name = {case.name: case for case in cases}
        for case in cases:
            test_end(case)
            test_marks(case)
        for name in ("waves", "guarded"):
            test_ranges(room, by_name[name])
        test_refusals(room)
        test_whole_files(room, by_name["waves"])
        test_interrupt(room, by_name["waves"])
        if browser := find_browser():
            try:
                map_pictures.test_pictures(browser, room, by_name, options.into)
            except BrowserFault as fault:
                check(False, f"the browser: {fault}")
        else:
            print("SKIPPED: the browser part, for there is no browser (apt-get install chromium-headless-shell)")
    end_checks()


if __name__ == "__main__":
    main()
