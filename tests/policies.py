#!/usr/bin/env python3
"""tests/policies.py PROGRAM [--into PICTURE]

Tests tools/policies with the program `pas`, on logs that are written here and on a recorded program. Each choice of values is a run, in order, and its
figures are those that the tools give one by one; what is left out by 0 or `none` is left out; what trace_of.py says is said once. Policies that come to
one run are said to, and what makes no difference; the mean over requests is that of a second reading. The page of HTML
fetches nothing and has a map for each run; all curves and maps are on one scale, that of the greatest peak, and each curve's greatest value is the
run's. Several runs take hardly more memory than one. What can't be done is refused, and leaves no page; where it or another tool for traces is
interrupted while it still imports, nothing is said. In a real browser each run has its curve and a mark at its peak, a button shows its map alone, a box
hides its curve, and the pointer tells the values; without a browser that part is skipped, and said to be. With --into its picture is kept. Prints what
was checked; the status is 1 where something was wrong."""

import argparse
import csv
import io
import json
import os
import pathlib
import random
import re
import shutil
import signal
import subprocess
import sys
import tempfile
import time

sys.dont_write_bytecode = True
from browser import Browser, BrowserFault, find_browser
from logs import RECORD, ROOT, called, called_with, check, end_checks, free, moved, request, trace_of, write_log

POLICIES, FIGURES = ROOT / "tools/policies", ROOT / "tools/figures.py"
SIZE = 1240, 1400
# What there is beside the figures of tools/figures.py.
MORE = {"log", "backed_peak_change", "backed_peak_overhead", "backed_mean_of_requests"}
ANSWERS = {"give", "kept", "no-space", "held"}


def policies(program, log, *words):
    return called([sys.executable, str(POLICIES), str(log), "--program", program, *map(str, words)])


def waves(rng):
    """A log of two threads whose blocks come and go in three waves, some of whole pages, some moved."""
    records, live, address = [], [], 0
    for height in (300, 500, 200):
        for at in range(height):
            address += 1 << 16
            size = rng.choice((16, 40, 100, 500, 1500, 3000, 9000))
            records.append(request(1 + at % 2, address, size, site=70 + size % 3))
            live.append((1 + at % 2, address))
            if at % 7 == 0:
                thread, old = live.pop(rng.randrange(len(live)))
                address += 1 << 16
                records += moved(thread, old, address, rng.randrange(1, 700))
                live.append((thread, address))
        rng.shuffle(live)
        records += [free(*live.pop()) for _ in range(len(live) * 3 // 4)]
    return records


def rows_one_by_one(program, log, room, choices):
    """The figures by the other tools, for each choice of words."""
    rows = []
    for words in choices:
        trace, transcript = room / "one.trace", room / "one.transcript"
        trace.write_text(trace_of(log, *words).stdout)
        transcript.write_text(called_with(program, "order", trace.read_text()).stdout)
        rows += json.loads(called([sys.executable, str(FIGURES), str(trace), str(transcript), "--json"]).stdout)
    return rows


def test_choices(program, room):
    """Each choice is a run, in order, and has the figures of the tools one by one."""
    log = write_log(room / "waves.log", waves(random.Random(3)))
    cases = [
        (["--version", "4", "--heaps", "one,site", "--guard", "0,2", "--pages", "3000"],
         [["--version", "4", "--pages", "3000", "--heaps", heaps, *guard] for heaps in ("one", "site") for guard in ([], ["--guard", "2"])],
         ["heaps one, no guard", "heaps one, guard 2", "heaps site, no guard", "heaps site, guard 2"]),
        (["--version", "1", "--age", "1,2,none", "--tick", "20", "--pass", "50", "--pages", "2000"],
         [["--version", "1", "--tick", "20", "--pass", "50", "--pages", "2000", *age] for age in (["--age", "1"], ["--age", "2"], [])],
         ["age 1", "age 2", "no age"]),
        (["--version", "4", "--pages", "900,2500"], [["--version", "4", "--pages", pages] for pages in ("900", "2500")], ["pages 900", "pages 2500"]),
        (["--version", "4"], [["--version", "4"]], ["version 4"]),
    ]
    for words, choices, names in cases:
        made = policies(program, log, *words, "--json")
        check(made.returncode == 0, f"{words}: {made.stderr}")
        rows, wanted = json.loads(made.stdout), rows_one_by_one(program, log, room, choices)
        check(len(rows) == len(wanted), f"{words}: {len(rows)} rows")
        first = rows[0]["backed_peak"]
        for name, row, one in zip(names, rows, wanted):
            figures = {key: value for key, value in one.items() if key not in ("trace", "transcript")}
            check(figures == {key: row.get(key) for key in figures}, f"{name}: {row}, and one by one {one}")
            check(set(row) == set(figures) | MORE | {word[2:] for word in words if word.startswith("--")}, f"{name}: {sorted(row)}")
            asked = row["asked_peak"]
            check(abs(row["backed_peak_change"] - 100 * (row["backed_peak"] - first) / first) < 0.051, f"{name}: {row['backed_peak_change']}")
            check(abs(row["backed_peak_overhead"] - 100 * (4096 * row["backed_peak"] - asked) / asked) < 0.051, f"{name}: {row['backed_peak_overhead']}")
        text = policies(program, log, *words).stdout.splitlines()
        check([line.split("  ")[0] for line in text[1:len(names) + 1]] == names and "change" in text[0], f"{names}: {text[:3]}")
        read = list(csv.DictReader(io.StringIO(policies(program, log, *words, "--csv").stdout)))
        check([each["backed_peak"] for each in read] == [str(row["backed_peak"]) for row in rows], f"{names}: CSV {read}")
    check(len({row["backed_peak"] for row in json.loads(policies(program, log, *cases[0][0], "--json").stdout)}) > 2, "all policies have one peak")
    check(sum(row["returned"] for row in rows_one_by_one(program, log, room, cases[1][1])) > 0, "no page went back")
    kept = room / "kept"
    policies(program, log, *cases[0][0], "--keep", kept)
    traces = [(kept / f"{at}.trace").read_text() for at in range(4)]
    check(traces == [trace_of(log, *words).stdout for words in cases[0][1]] and len(set(traces)) == 4, "the traces that are kept")
    print(f"{sum(len(names) for _, _, names in cases)} policies as one by one")


def test_options(program, room):
    """Each option of trace_of.py that has a value is one of policies, and does there what it does alone."""
    usage = called([sys.executable, str(ROOT / "tools/trace_of.py"), "--help"]).stdout.split("\n\n")[0]
    theirs = set(re.findall(r"--([\w-]+) [^]\s]", usage))
    ours = set(re.findall(r"--([\w-]+) V", called([sys.executable, str(POLICIES), "--help"]).stdout))
    check(theirs <= ours and len(theirs) > 8, f"options of trace_of.py that policies lacks: {theirs - ours}")
    log = write_log(room / "waves.log", waves(random.Random(5)))
    values = {"version": "3,4", "heaps": "size,one", "shared": "none,all", "pages": "700,3000", "threads": "1,2", "age": "1,9", "guard": "2,0",
              "tick": "0,9", "pass": "0,90", "idle": "50,0", "tick-ms": "0,1", "pass-ms": "0,5", "idle-age": "0,1", "from": "1,500", "most": "400,800"}
    check(set(values) == ours, f"options that aren't tried: {ours ^ set(values)}")
    first = ["--tick", "30", "--idle", "40", "--version", "4"]
    for name in sorted(theirs):
        told = [word for at in range(0, 6, 2) if first[at] != f"--{name}" and not (name == "tick-ms" and at == 0) for word in first[at:at + 2]]
        choices = [told + ([] if value == "none" or value == "0" and name != "idle-age" else [f"--{name}", value]) for value in values[name].split(",")]
        made = policies(program, log, *told, f"--{name}", values[name], "--json")
        check(made.returncode == 0, f"--{name} {values[name]}: {made.stderr}")
        rows = json.loads(made.stdout) if made.returncode == 0 else []
        for row, one in zip(rows, rows_one_by_one(program, log, room, choices)):
            check(all(row[key] == value for key, value in one.items() if key not in ("trace", "transcript")), f"--{name}: {row}, and one by one {one}")
        check([row[name] for row in rows] == values[name].split(","), f"--{name}: {[row[name] for row in rows]}")
    lacking = ", ".join(sorted(ours - theirs))
    print(f"{len(theirs)} options of trace_of.py" + (f"; SKIPPED, for it doesn't have them: {lacking}" if lacking else ""))


def test_said(program, room):
    """What is cut is said once, and by its policy."""
    log = write_log(room / "cut.log", [free(1, 64), request(1, 64, 24), free(1, 64)])
    made = policies(program, log, "--version", "4", "--age", "1,2,3")
    said = [line for line in made.stderr.splitlines() if "hasn't seen asked for" in line]
    check(made.returncode == 0 and len(said) == 1 and said[0].startswith("policies: age 1: "), f"what is cut: {made.stderr}")
    check("operation" not in made.stderr and "the blocks fill" not in made.stderr, f"what is said of each trace: {made.stderr}")
    records = [request(1, at << 8, 24, site=7 if at % 4 else 8) for at in range(1, 13)]
    log = write_log(room / "wrapper.log", records)
    said = "one call site has 9 of 12 requests, "
    check(policies(program, log, "--heaps", "one,site", "--age", "1,2").stderr.count(said) == 1, "a call site with most of the requests")
    made = trace_of(log, "--heaps", "site", "--strict")
    check(made.returncode == 0 and said in made.stderr and said not in trace_of(log).stderr, f"a call site with most of the requests: {made.stderr}")
    made = trace_of(write_log(room / "half.log", records[2:4]), "--heaps", "site")
    check(made.returncode == 0 and "one call site" not in made.stderr, f"two call sites with as many requests: {made.stderr}")
    log = write_log(room / "large.log", [request(1, at << 24, 1 << 20) for at in range(1, 90)])
    made = policies(program, log, "--heaps", "one,size")
    check("warning: what lives passes the region" in made.stderr, f"a region that is too small: {made.stderr}")
    check("requests were refused" in made.stderr and "heaps one; heaps size" in made.stderr, f"a region that is too small: {made.stderr}")
    print("what is cut is said once")


def mean_of_requests(transcript):
    """By a reading of our own: the pages with memory after each line that answers a request."""
    pages, after = set(), []
    for words in map(str.split, transcript.read_text().split("\nreport\n")[0].splitlines()):
        if words[1:2] == ["back"]:
            pages.add(words[3])
        elif words[1:2] == ["unback"]:
            pages.discard(words[3])
        elif words[1:2] and (words[1] in ANSWERS or words[1] == "skipped" and words[-1].isdecimal()):
            after.append(len(pages))
    return sum(after) / len(after)


def test_same(program, room):
    """Policies that come to one run are said to, have one map, and the options that make no difference are named. The mean over requests is that of a
    reading of our own, and passes that give nothing back don't change it, though they have lines."""
    log, page, kept = write_log(room / "same.log", waves(random.Random(6))), room / "same.html", room / "same"
    made = policies(program, log, "--heaps", "one,site", "--age", "1,4,9", "--pages", "3000", "-o", page, "--json")
    rows, (own, maps) = json.loads(made.stdout), read_page(page)
    said = made.stderr.splitlines()
    for at, heaps in enumerate(("one", "site")):
        same = [f"policies: heaps {heaps}, age {age}: the same run as heaps {heaps}, age 1" for age in (4, 9)]
        check(all(line in said for line in same) and own["maps"][3 * at:3 * at + 3] == [at] * 3, f"heaps {heaps}: {made.stderr} {own['maps']}")
    check([row["age"] for row in rows] == ["1", "4", "9"] * 2 and len({row["backed_mean"] for row in rows}) == 2, f"ages without passes: {rows}")
    check([each["name"] for each in maps] == ["heaps one, age 1", "heaps site, age 1"], f"{len(maps)} maps")
    check(sum("makes no difference" in line for line in said) == 1 and any("--age makes no difference" in line for line in said), made.stderr)
    words = ["--pages", "3000", "--pass", "0,25", "--keep", kept]
    made = policies(program, log, *words, "--json")
    none, some = json.loads(made.stdout)
    check("passes without ticks give nothing back" in made.stderr and "makes no difference" not in made.stderr, f"passes alone: {made.stderr}")
    check(none["backed_mean"] != some["backed_mean"] and some["returned"] == 0 < some["passes"], f"passes alone: {none} {some}")
    check(none["backed_mean_of_requests"] == some["backed_mean_of_requests"], f"passes alone: {none['backed_mean_of_requests']}, {some}")
    made = policies(program, log, *words, "--tick", "10", "--age", "1,9", "--json")
    told, read = ([row["backed_mean_of_requests"] for row in json.loads(made.stdout)], [mean_of_requests(kept / f"{at}.transcript") for at in range(4)])
    check(len(told) == 4 and all(abs(one - other) < 0.051 for one, other in zip(told, read)) and len(set(told)) == 3, f"means: {told}, and {read}")
    check("age 9" in made.stderr and "makes no difference" not in made.stderr and "without ticks" not in made.stderr, f"with ticks: {made.stderr}")
    check("the same requests" not in made.stderr and "were refused" not in made.stderr, made.stderr)
    made = policies(program, log, "--pages", "16000", "--pass", "0,1")
    check("the runs don't have the same requests" in made.stderr, f"a run that is cut: {made.stderr}")
    tables = [line.split("  ")[0] for line in policies(program, log, *words, "--all").stdout.splitlines()]
    check(tables[0] == "Policies" and [line in tables for line in ("Pages", "Bytes", "Requests and frees")] == [True] * 3, f"--all: {tables}")
    print("policies that come to one run, and means over requests")


def test_refusals(program, room):
    log, page = write_log(room / "small.log", [request(1, 64, 24), free(1, 64)]), room / "none.html"
    (room / "other").write_text("something else\n")
    broken = room / "broken"
    cases = {5: "it was out of memory", 9: "status 9", 1: "the program found a fault in the trace: line 1: BadHeader"}
    words = [((log, "--age", "0"), "age 0: trace_of"), ((log, "--heaps", "one,other"), "heaps other: "),
             ((room / "absent",), "absent"), ((room / "other",), "no log of"),
             ((log, "--guard", "3", "--version", "3"), "guard"), ((log, "--age", ",".join(map(str, range(1, 103)))), "102 policies are more than 100")]
    for told, said in words:
        made = policies(program, *told, "-o", page)
        check(made.returncode == 1 and said in made.stderr and not page.exists() and not made.stdout, f"{told}: {made.returncode} {made.stderr}")
    for status, said in cases.items():
        broken.write_text(f"#!/bin/sh\necho line 1: BadHeader\nexit {status}\n")
        broken.chmod(0o755)
        made = policies(str(broken), log, "-o", page)
        check(made.returncode == 1 and said in made.stderr and not page.exists(), f"status {status}: {made.stderr}")
    made = policies(str(room / "absent"), log)
    check(made.returncode == 2 and "there is no program" in made.stderr, f"no program: {made.stderr}")
    made = policies(program, log, "--version", "4", "-o", room / "absent" / "page.html")
    check(made.returncode == 1 and "absent" in made.stderr and "Traceback" not in made.stderr, f"no folder: {made.stderr}")
    check("--heaps" in called([sys.executable, str(POLICIES), "--help"]).stdout, "no help")
    print(f"{len(words) + len(cases) + 2} refusals")


def test_interrupts(room):
    """An interrupt while a tool imports argparse, which a module here sends: nothing is said."""
    (room / "modules").mkdir()
    (room / "modules/argparse.py").write_text("import os, signal, time\nos.kill(os.getpid(), signal.SIGINT)\ntime.sleep(9)\n")
    for name in ("trace_of.py", "page_map.py", "figures.py", "policies"):
        made = called([sys.executable, str(ROOT / "tools" / name)], env=os.environ | {"PYTHONPATH": str(room / "modules")},
                      preexec_fn=lambda: signal.signal(signal.SIGINT, signal.SIG_DFL))
        check((made.returncode, made.stdout, made.stderr) == (130, "", ""), f"{name} is interrupted early: {made.returncode}, {made.stdout}{made.stderr}")
    print("4 tools are interrupted early")


def read_page(path):
    """The page's own data, and those of its maps."""
    text = path.read_text()
    own = json.loads(re.search(r'<script type="application/json" id="curve-data">(.*?)</script>', text)[1])
    maps = [json.loads(each) for each in re.findall(r'<script type="application/json">(\{.*?)</script>', text)]
    check(not re.search(r"""(src|href)=|https?://(?!www\.w3\.org/2000/svg)|@import|url\(""", text), f"{path.name} names another place")
    return own, maps


def test_page(program, room):
    """The page of several policies, and its rows."""
    log, page = write_log(room / "waves.log", waves(random.Random(4))), room / "waves.html"
    made = policies(program, log, "--version", "4", "--heaps", "one,site", "--guard", "0,1", "--pages", "3000", "-o", page, "--json")
    check(made.returncode == 0 and page.exists(), made.stderr)
    rows, (own, maps) = json.loads(made.stdout), read_page(page)
    greatest = max(row["backed_peak"] for row in rows)
    scales = [own["scale"], *(each["scale"] for each in maps)]
    check(scales == [4096 * greatest] * 5, f"scales: {scales}, and the greatest peak has {greatest} pages")
    check([each["name"] for each in maps] == own["names"] and len(set(own["names"])) == 4, f"names: {own['names']}")
    for row, (requests, backed, asked), (peak, line, part), map_ in zip(rows, own["curves"], own["peaks"], maps):
        check([max(backed), peak, backed[part]] == [row["backed_peak"]] * 3 and line == row["backed_peak_line"], f"a curve's peak: {max(backed)}, {peak}, {row}")
        check([max(asked), backed[-1]] == [row["asked_peak"], row["backed_end"]], f"a curve: {max(asked)}, {backed[-1]}, and {row}")
        answered = sum(row[key] for key in ("given", "kept", "no_space", "held", "skipped"))
        check(requests == sorted(requests) and requests[-1] == answered and len(requests) > 200, f"requests: {requests[-1]}, and {answered}")
        check((map_["peak"]["pages"], map_["peak"]["line"]) == (peak, line), f"the map's peak: {map_['peak']}, and {peak} at {line}")
    peaks = [row["backed_peak"] for row in rows]
    print(f"a page of {len(rows)} policies, {page.stat().st_size / 1000:.0f} KB, the peaks {peaks} on a scale of {greatest} pages")
    return page, rows


MARKS = """[...document.querySelectorAll('#curves .peak')].map(mark => [+mark.getAttribute('cx'), +mark.getAttribute('cy')])"""
TOPS = """[...document.querySelectorAll('#curves .backed')].map(each => each.getBBox()).map(box => [box.y, box.y + box.height])"""
MAPS = "[...document.querySelectorAll('.policy')].map(map => map.offsetHeight > 200)"
BOX = "(() => { const { left, top, width, height } = document.getElementById('curves').getBoundingClientRect(); return [left, top, width, height]; })()"


def test_in_browser(browser_path, page, rows, into):
    with Browser(browser_path, *SIZE) as browser:
        browser.open(page, "document.querySelectorAll('#curves .peak').length")
        marks, tops = browser.value(MARKS), browser.value(TOPS)
        greatest = max(row["backed_peak"] for row in rows)
        for row, (x, y), (top, bottom) in zip(rows, marks, tops):
            wanted = bottom - (bottom - min(each[0] for each in tops)) * row["backed_peak"] / greatest
            check(abs(y - wanted) < 1 and abs(y - top) < 1, f"{row['backed_peak']} of {greatest} pages: a mark at {y}, the curve's top at {top}, not {wanted}")
        check(len(marks) == len(tops) == len(rows), f"{len(marks)} marks, {len(tops)} curves")
        for at in range(len(rows)):
            browser.value(f"document.querySelectorAll('[data-map]')[{at}].click()")
            check(browser.value(MAPS) == [each == at for each in range(len(rows))], f"map {at}: {browser.value(MAPS)}")
        browser.value("scrollTo(0, 0)")
        left, top, width, _ = browser.value(BOX)
        browser.point_at(left + width * 0.6, top + 100)
        said = browser.value("document.querySelector('#policies .said').textContent")
        told = re.findall(r"^(.*): ([\d,]+) pages, ", said, re.M)
        check(len(told) == len(rows) and all(0 < int(pages.replace(",", "")) <= greatest for _, pages in told), f"the pointer tells {said!r}")
        picture = browser.picture()
        browser.value("document.querySelectorAll('#policies input')[1].click()")
        shown = browser.value("[...document.querySelectorAll('#curves .backed')].map(each => each.style.display !== 'none')")
        check(shown == [at != 1 for at in range(len(rows))], f"a box hides {shown}")
        check(browser.picture() != picture, "the picture is the same without a curve")
        check(not browser.faults(), f"{browser.faults()}")
        if into:
            into.write_bytes(picture)
    print(f"{len(rows)} curves and maps in a real browser")


def test_same_in_browser(browser_path, page):
    """Of six runs that come to two there are two maps, two buttons above them and two colours, and each run's own button shows the right one."""
    with Browser(browser_path, *SIZE) as browser:
        browser.open(page, "document.querySelectorAll('#curves .peak').length")
        for at in range(6):
            browser.value(f"document.querySelectorAll('[data-map]')[{at}].click()")
            check(browser.value(MAPS) == [at < 3, at >= 3], f"run {at} of six: {browser.value(MAPS)}")
        tabs = browser.value("[...document.getElementById('maps').children].map(each => each.textContent)")
        colours = browser.value("[...document.querySelectorAll('#curves .backed')].map(each => each.getAttribute('stroke'))")
        check(tabs == ["heaps one, age 1", "heaps site, age 1"], f"buttons: {tabs}")
        check(colours == [colours[0]] * 3 + [colours[3]] * 3 and colours[0] != colours[3], f"colours: {colours}")
        said = browser.value("[...document.querySelectorAll('#policies small')].map(each => each.textContent)")
        check(said == [f"the same run as {tabs[at // 2]}" for at in range(4)], f"what is said of runs that are the same: {said}")
        check(not browser.faults(), f"{browser.faults()}")


def memory_of(program, log, *words):
    """The rows, the greatest memory in kilobytes, and the seconds."""
    code = f"import re, runpy, sys; sys.argv[1:] = {[str(log), '--program', program, '--json', *map(str, words)]!r}\n" \
           f"try: runpy.run_path({str(POLICIES)!r}, run_name='__main__')\n" \
           "finally: print(re.search(r'VmHWM:\\s*(\\d+)', open('/proc/self/status').read())[1], file=sys.stderr)"
    began = time.monotonic()
    made = subprocess.run([sys.executable, "-c", code], stdout=subprocess.PIPE, stderr=subprocess.PIPE, text=True)
    check(made.returncode == 0, f"{words}: {made.stderr}")
    return json.loads(made.stdout), int(made.stderr.splitlines()[-1]), time.monotonic() - began


def test_recorded(program, room):
    """A real program: its policies, and their memory against that of one."""
    log, page = room / "perl.log", room / "perl.html"
    work = "my %h; for (1 .. 30000) { $h{$_ % 700} .= 'x' x ($_ % 90); delete $h{$_ * 7 % 900} }"
    made = called([sys.executable, str(RECORD), "-o", str(log), "--", "perl", "-e", work])
    check(made.returncode == 0, f"perl under the recorder: {made.stderr}")
    _, one, _ = memory_of(program, log, "--version", "4", "--heaps", "one", "-o", page)
    rows, four, seconds = memory_of(program, log, "--version", "4", "--heaps", "one,site", "--guard", "0,5", "-o", page)
    is_served = [row["no_space"] == row["held"] == 0 and row["guards_due"] == row["guards_raised"] for row in rows]
    check(is_served == [True] * 4, f"perl: {rows}")
    check(four < 1.5 * one, f"four policies take {four:,} KB, and one {one:,}")
    print(f"a recorded program, {rows[0]['operations']:,} operations under 4 policies: {seconds:.0f} seconds, {four / 1000:.0f} MB, and {one / 1000:.0f} of one")


def main():
    parser = argparse.ArgumentParser(description=__doc__, formatter_class=argparse.RawDescriptionHelpFormatter)
    parser.add_argument("program")
    parser.add_argument("--into", type=pathlib.Path)
    options = parser.parse_args()
    program = str(pathlib.Path(options.program).resolve())
    with tempfile.TemporaryDirectory() as room:
        room = pathlib.Path(room)
        test_choices(program, room)
        test_options(program, room)
        test_said(program, room)
        test_same(program, room)
        test_refusals(program, room)
        test_interrupts(room)
        page, rows = test_page(program, room)
        if browser := find_browser():
            try:
                test_in_browser(browser, page, rows, options.into)
                test_same_in_browser(browser, room / "same.html")
            except BrowserFault as fault:
                check(False, f"the browser: {fault}")
        else:
            print("SKIPPED: the browser part, for there is no browser (apt-get install chromium-headless-shell)")
        if shutil.which("gcc") and shutil.which("perl"):
            test_recorded(program, room)
        else:
            print("SKIPPED: nothing was recorded, for there is no gcc or no perl")
    end_checks()


if __name__ == "__main__":
    main()
