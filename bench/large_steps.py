#!/usr/bin/env python3
"""Counts the steps of requests for whole pages in `pas order`, with the indexes of ended runs and without, and prints a table.

usage: bench/large_steps.py [--lines N] TRACE..

A TRACE is a file in the trace format, or the same packed by xz; of each the first N lines are replayed, or all. The counting is done by
the tree's own code: the script copies `crates/`, changes the texts below in the copy, and runs it by `rt try`, which builds it without a
proof. The copy counts the steps of each request for more than 2,048 bytes, from its actor's count before the call to that after it, and
says of all of them how many they are, their pages, their steps and the most of one, in place of the events and refusals. In a region whose
age is 1,000,000 it asks no index; so each trace is replayed twice, and its own age is changed, which passes alone ask for. A row has the
figures of a trace's requests that were given a block; those that were refused have a row of their own. A build takes a minute or two, and
what it builds is some hundred times as slow as the program, for it checks each access; a trace that takes longer than ten minutes has no row.
"""

import lzma
import os
import re
import shutil
import subprocess
import sys
import tempfile

TOP = os.path.dirname(os.path.dirname(os.path.abspath(__file__)))

# Keeps what is counted in the records themselves, where the first two lines of it are of the requests that were given a block.
COUNTING = """
/// Adds a request that took so many steps to what is counted: at the place of the first record of its kind, or at the end.
fn count_request(out: &mut Records, pages: u32, steps: u64) {
    let kind = (pages == 0) as u32;
    for place in 0..out.as_slice().len() {
        let Record::Said(_, Said::Guarded { low, high, name }) = out.as_slice()[place] else {
            continue;
        };
        let Record::Said(_, Said::Young { page, stamp }) = out.as_slice()[place + 1] else {
            continue;
        };
        if page == kind {
            let most = if (steps as u32) > name { steps as u32 } else { name };
            out.change(place, Record::Said(1, Said::Guarded { low: low + 1, high: high + pages, name: most }));
            out.change(place + 1, Record::Said(1, Said::Young { page, stamp: stamp + steps }));
            return;
        }
    }
    out.push(Record::Said(1, Said::Guarded { low: 1, high: pages, name: steps as u32 }));
    out.push(Record::Said(1, Said::Young { page: kind, stamp: steps }));
}

/// Does the task,"""

EDITS = [
    ("pas_profile/src/room.rt", r"    /// Takes all items out\.\n", """    pub fn change(&mut self, place: usize, item: T) {
        self.items[place] = item;
    }

    /// Takes all items out.
"""),
    ("pas_answers/src/answering.rt", r"\n/// Does the task,", COUNTING),
    ("pas_answers/src/answering.rt", r"    let \(came, said\) = perform\(", "    let steps = desk.count();\n    let (came, _) = perform("),
    ("pas_answers/src/answering.rt", r"    push_events\(desk\.shown\(\), before, out\);\n    if let Some\(said\) = said \{\n.*\n    \}\n", """    let _ = before;
    if let Task::Request { size, .. } = task {
        if size > 2048 {
            let pages = match came {
                Some(block) => block.room / 4096,
                None => 0,
            };
            count_request(out, pages, desk.count() - steps);
        }
    }
"""),
    ("pas_replay/src/seats.rt", r"    let mut door = PlainDoor::new\(indexes\);\n    at_desk::operate\(desk, &mut door, (.*)\)\n", r"""    if desk.profile().age == 1_000_000 {
        return at_desk::operate(desk, &mut pas_large::NoIndex, \1);
    }
    let mut door = PlainDoor::new(indexes);
    at_desk::operate(desk, &mut door, \1)
"""),
]
NO_INDEX, ANY_AGE = b"1000000", b"2"


def changed(folder):
    """The folder of the program in a copy of the crates, with the edits."""
    shutil.copytree(os.path.join(TOP, "crates"), os.path.join(folder, "crates"), ignore=shutil.ignore_patterns("out", "must-fail"))
    for name in ("crates.txt", "HANDLES"):
        shutil.copy(os.path.join(TOP, name), folder)
    for name, old, new in EDITS:
        path = os.path.join(folder, "crates", name)
        with open(path, encoding="utf8") as file:
            text = file.read()
        text, count = re.subn(old, new if "\\1" in new else lambda _: new, text)
        if count != 1:
            sys.exit(f"{name}: this text stands there {count} times, where the script changes it once: {old}")
        with open(path, "w", encoding="utf8") as file:
            file.write(text)
    return os.path.join(folder, "crates", "pas")


def write_cases(folder, path, lines):
    """The trace under two names, with the age that asks the indexes and with the one that doesn't."""
    with (lzma.open(path) if path.endswith(".xz") else open(path, "rb")) as source:
        text = source.read().split(b"\n")
    head = text[0].split()
    for way, age in (("with", ANY_AGE), ("without", NO_INDEX)):
        with open(os.path.join(folder, f"{os.path.basename(path).removesuffix('.xz')}.{way}"), "wb") as file:
            file.write(b"\n".join([b" ".join(head[:-1] + [age])] + text[1:lines and lines + 1]) + b"\n")


def counted(crate, cases):
    """By case: what the requests that were given a block, and those that were refused, come to: number, pages, most steps, all steps."""
    done = subprocess.run(["rt", "try", "--seconds", "600", "--cases", cases, "--", "order"], cwd=crate, capture_output=True, text=True)
    found, name, counts = {}, None, None
    for line in done.stdout.splitlines():
        numbers = [int(word) for word in re.findall(r"\d+", line)][1:]
        if line.startswith("== "):
            name = line.split()[1]
            found[name] = {}
        elif " guarded " in line:
            counts = numbers
        elif " young " in line and counts:
            kind, steps = numbers
            found[name][kind], counts = (*counts, steps), None
    if not found:
        sys.exit(f"rt try says nothing of a trace:\n{done.stdout[-2000:]}{done.stderr[-2000:]}")
    return found


def main(words):
    lines = int(words[1]) if words[:1] == ["--lines"] else 0
    paths = words[2:] if lines else words
    if not paths or paths[0].startswith("-"):
        sys.exit(__doc__)
    with tempfile.TemporaryDirectory() as folder:
        cases = os.path.join(folder, "cases")
        os.makedirs(cases)
        for path in paths:
            write_cases(cases, path, lines)
        found = counted(changed(os.path.join(folder, "tree")), cases)
    print("| Trace | Requests | Pages | Steps with the indexes | A request | Most | Steps without | A request | Most |")
    print("|---|---|---|---|---|---|---|---|---|")
    for name in sorted({case.rsplit(".", 1)[0] for case in found}):
        ways = [found.get(f"{name}.{way}") for way in ("with", "without")]
        if not all(ways):
            print(f"{name}: no answer in time, or no such request", file=sys.stderr)
            continue
        for kind, word in ((0, ""), (1, ", refused")):
            if any(kind in way for way in ways):
                number, pages = (ways[0].get(kind) or ways[1][kind])[:2]
                figures = [way.get(kind, (0, 0, 0, 0)) for way in ways]
                figures = " | ".join(f"{steps:,} | {steps / max(number, 1):,.1f} | {most:,}" for number, _, most, steps in figures)
                print(f"| {name}{word} | {number:,} | {pages:,} | {figures} |", flush=True)


if __name__ == "__main__":
    main(sys.argv[1:])
