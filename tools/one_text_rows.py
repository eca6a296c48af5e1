#!/usr/bin/env python3
"""Writes rows for the definition of the text of `pas order` (crates/pas_same_text): traces with the records and the
report that their transcripts tell, as theorems that the kernel proves by computing. They come to standard output as a
file for proofs/.

    tools/one_text_rows.py seen PREFIX FILE..             rows of these traces, whose transcripts lie beside them:
                                                          NAME.trace and NAME.transcript, or NAME.in and NAME.out
    tools/one_text_rows.py counted PREFIX FILE..          the same in fewer steps of the kernel, for long traces
    tools/one_text_rows.py trace SEED                     the random trace of this seed, as a text, of which
                                                          tests/random_orders.xz has the transcript
"""

from __future__ import annotations

import argparse
import re
import sys
from pathlib import Path

sys.dont_write_bytecode = True
HERE = Path(__file__).resolve().parent
sys.path.insert(0, str(HERE))
import fold_imports
from random_trace import CLASSES, Trace

TRANSCRIPTS = {".trace": ".transcript", ".in": ".out"}

HEADER = """use Rattle.std.proofs.Common.{◌≡◌, %scodes, refl}
%suse Rattle.pas_same_text.proofs.Seen.{%s}
"""
KINDS = "use Rattle.pas_profile.specs.declared.directory.Kind.{Kind}\n"
GRAINS = "use Rattle.pas_report.specs.Reports.{grains_that}\n"
COUNTS = "use Rattle.pas_same_text.specs.Pages.{each_of}\nuse Rattle.pas_same_text.specs.Passes.{free_bits}\n"
REASONS = "use Rattle.pas_trace.specs.declared.fault.Reason.{Reason}\n"


class Fault(Exception):
    """What can't be made a row, and why."""


# ---- transcripts

def kind_term(words: list[str]) -> str:
    """The words after `heap H` of a deed line or a page line."""
    if words[0] == "class":
        return f"(Kind.Class {CLASSES.index(int(words[1]))})"
    return "Kind." + {"shared": "Shared", "bitfit": "Bitfit", "large": "Large"}[words[0]]


KIND = r"(class (?:%s)|shared|bitfit|large)" % "|".join(map(str, CLASSES))

# the record of each sort of line: a pattern for the line, and the word of Seen.antt with the numbers that follow
LINES = [
    (rf"(\d+) deed page (\d+) heap (\d+) {KIND}", "deed_of"),
    (r"(\d+) back page (\d+)", "back_of"),
    (r"(\d+) unback page (\d+) epoch (\d+)", "unback_of"),
    (r"(\d+) give (0x\w+) turn (\d+) room (\d+) heap (\d+)", "give_of"),
    (r"(\d+) freed (0x\w+) turn (\d+) epoch (\d+)", "freed_of"),
    (r"(\d+) ended (0x\w+) turn (\d+)", "ended_of"),
    (r"(\d+) no-block (0x\w+) turn (\d+)", "no_block_of"),
    (r"(\d+) size-differs (0x\w+) turn (\d+) asked (\d+)", "size_differs_of"),
    (r"(\d+) outside (0x\w+) turn (\d+)", "outside_of"),
    (r"(\d+) unaligned (0x\w+) turn (\d+)", "unaligned_of"),
    (r"(\d+) no-space name (\d+)", "no_space_of"),
    (r"(\d+) held (\d+) name (\d+)", "held_of"),
    (r"(\d+) skipped name (\d+)", "skipped_of"),
    (r"(\d+) kept (0x\w+) turn (\d+) name (\d+)", "kept_of"),
    (r"(\d+) guarded (\d+) (\d+) name (\d+)", "guarded_of"),
    (r"(\d+) lowered (\d+) (\d+)", "lowered_of"),
    (r"0 tick (\d+)", "tick_of"),
    (r"0 pass (\d+)", "pass_of"),
    (r"0 bare page (\d+)", "bare_of"),
    (r"0 young page (\d+) stamp (\d+)", "young_of"),
    (r"0 in-use page (\d+) word (\d+) value (0x\w+)", "in_use_of"),
    (r"0 not-offered page (\d+)", "not_offered_of"),
    (r"0 stopped (\d+)", "stopped_of"),
    (r"phase (\d+)", "phase_of"),
    (r"close", "closed"),
]


def argument(text: str) -> str:
    if text[0].isdigit():
        return str(int(text, 0))
    return kind_term(text.split(" "))


def record_term(line: str) -> str:
    for pattern, word in LINES:
        match = re.fullmatch(pattern, line)
        if match:
            return " ".join([word] + [argument(text) for text in match.groups()])
    raise Fault(f"no line of a transcript: {line}")


def row_term(line: str) -> str:
    match = re.fullmatch(rf"page (\d+) heap (\d+) {KIND} live (\d+) free (\d+) stamp (\d+) marks (\S+)", line)
    if not match:
        raise Fault(f"no line of a report: {line}")
    page, heap, kind, live, free, stamp, marks = match.groups()
    have = marks.split("+")
    flags = " ".join(str(mark in have).lower() for mark in ("backed", "offered", "parked", "hinted"))
    return f"row_of {page} {heap} {kind_term(kind.split(' '))} {live} {free} {stamp} (marked {flags})"


def as_list(terms: list[str]) -> str:
    return "(" + " ∷ ".join(terms + ["[]"]) + ")"


def shown_term(transcript: str) -> str:
    """What the transcript tells, in the words of Seen.antt."""
    lines = transcript.splitlines() or [""]
    if fault := re.fullmatch(r"line (\d+): (\w+)", lines[0]):
        return f"faulty {fault[1]} Reason.{fault[2]}"
    total = re.fullmatch(r"total deeds (\d+) backed (\d+) live (\d+) given (\d+) ended (\d+)", lines[-1])
    if not total or "report" not in lines:
        raise Fault("a transcript has a report, and a total at its end")
    at = lines.index("report")
    records = as_list([record_term(line) for line in lines[:at]])
    rows = as_list([row_term(line) for line in lines[at + 1:-1]])
    return f"shown {records} {rows} (totalled {' '.join(total.groups())})"


# ---- files of rows

def string_term(text: str) -> str:
    escapes = {"\n": "\\n", "\t": "\\t", "\r": "\\r", '"': '\\"', "\\": "\\\\"}
    return '(codes "%s")' % "".join(escapes.get(c, c) for c in text)


def row_text(name: str, word: str, trace: str, transcript: str) -> str:
    """A row by a word of Seen.antt: `seen`, or `counted`, which takes fewer steps."""
    shown = shown_term(transcript)
    opened = {"seen": "seen grains_that", "counted": "counted"}[word]
    opened += " each_of free_bits" if shown.startswith("shown") else ""
    return f"{name} : {word} {string_term(trace)} ≡ {shown}\nunfolding {opened}\n{name} = refl\n"


def file_text(comment: str, rows: list[str]) -> str:
    body = "\n".join(rows)
    words = ["seen", "counted", "shown", "faulty", "row_of", "marked", "totalled"] + [word for _, word in LINES]
    used = [word for word in words if re.search(rf"\b{word}\b", body)]
    wanted = {KINDS: "Kind." in body, GRAINS: "seen" in used, REASONS: "faulty" in used, COUNTS: "shown" in used}
    uses = "".join(line for line, is_wanted in wanted.items() if is_wanted)
    plain = "true, false, [], ◌∷◌, " if "shown" in used else ""
    folder = fold_imports.Folder(fold_imports.Kit(None), fold_imports.WIDTH)
    return folder.rewritten(f"-- {comment}\n" + HEADER % (plain, uses, ", ".join(used)) + "\n" + body, is_code=False, is_proof=True)


def worked(word: str, prefix: str, files: list[Path]) -> str:
    rows = []
    for path in files:
        try:
            if path.suffix not in TRANSCRIPTS:
                raise Fault("a trace is NAME.trace or NAME.in")
            beside = path.with_suffix(TRANSCRIPTS[path.suffix])
            name = prefix + "_" + re.sub(r"\W", "_", path.stem)
            rows.append(row_text(name, word, path.read_bytes().decode(), beside.read_bytes().decode()))
        except Fault as fault:
            raise Fault(f"{path}: {fault}") from fault
    return file_text("The replays of worked traces, by computing.", rows)


def main() -> None:
    parser = argparse.ArgumentParser(description=__doc__, formatter_class=argparse.RawDescriptionHelpFormatter)
    ways = parser.add_subparsers(dest="way", required=True)
    for way, why in (("seen", "rows of worked traces"), ("counted", "the same in fewer steps of the kernel")):
        of_files = ways.add_parser(way, help=why)
        of_files.add_argument("prefix", help="with what the names of the rows begin")
        of_files.add_argument("files", type=Path, nargs="+", help="traces, with their transcripts beside them")
    of_seed = ways.add_parser("trace", help="a random trace")
    of_seed.add_argument("seed", type=int)
    words = parser.parse_args()
    try:
        if words.way == "trace":
            text = Trace(words.seed).text()
        else:
            text = worked(words.way, words.prefix, words.files)
    except OSError as fault:
        sys.exit(f"one_text_rows: {fault.filename}: {fault.strerror}")
    except (Fault, UnicodeDecodeError) as fault:
        sys.exit(f"one_text_rows: {fault}")
    sys.stdout.write(text)


if __name__ == "__main__":
    main()
