#!/usr/bin/env python3
"""Breaks statements and heads of modules that are wider than 160 columns: tools/short_lines.py [--check] [--bodies N] [FILE..]

Of the .antt files of specs/ and proofs/ (or of those named) the lines that state something: what stands behind a name and
a colon, and the parameters of a `module`. A statement is broken before an arrow, a head between two parameters, so that
each line holds as many as fit. Where one of them alone is too wide, it is broken at its own arrows, or before a `×`, `⊎`
or a relation, inside its brackets if need be, two columns further in, or else before its arguments in brackets. What
can't be broken so stays as it is. Bodies are left alone, but for --bodies N: the N widest lines of bodies that fit into
two are broken, behind an `in`, an `=` or a `↦`, or before a `∙` or an argument. Records, arms and texts in quotes stay
whole.

With --check nothing is written. A line tells of each file how many lines were too wide and how many still are. The status
is 1 where something was, or would be, changed.
"""

from __future__ import annotations

import argparse
import re
import sys
from pathlib import Path
from typing import Iterator

ROOT = Path(__file__).resolve().parent.parent
WIDTH = 160
STATED = re.compile(r" *(?:pub |abbrev |unfoldable |pattern |opaque )*[^\s:(){},;=]+ : ")
OPENED, CLOSED = "({[", ")}]"
# What a type is broken before, the weakest first.
JOINTS = ("→", "⊎", "×", "≡", "≤")
# Words before which or behind which no argument stands.
NO_HEAD = set("in = ↦ ∙ let λ then else if → × ⊎ ≡ ≤ < , ; ∷ ++ + * - / == && || | elim".split())
# How deep in brackets a body is broken at most, and how long the two parts are at least.
DEEPEST, LEAST_FIRST, LEAST_REST = 2, 24, 12
PARAMETER = re.compile(r"[({][^\s(){}]+(?: [^\s(){}:]+)* : ")
RECORD = re.compile(r"record (?:[\w.']+ |\([^(){}]*\) )?\{[^{}]*\}")


def parts_of(text: str, joint: str) -> list[str]:
    """The text cut before each such word outside brackets."""
    depth, begin, parts = 0, 0, []
    for at, letter in enumerate(text):
        if letter in OPENED:
            depth += 1
        elif letter in CLOSED:
            depth -= 1
        elif depth == 0 and at > begin and text.startswith(f"{joint} ", at) and text[at - 1] == " ":
            parts.append(text[begin:at].rstrip())
            begin = at
    return [*parts, text[begin:]]


def parameters_of(text: str) -> list[str]:
    """The text cut before each parameter outside brackets."""
    depth, begin, parts = 0, 0, []
    for at, letter in enumerate(text):
        if letter in OPENED:
            if depth == 0 and at > begin and text[at - 1] == " " and PARAMETER.match(text, at):
                parts.append(text[begin:at].rstrip())
                begin = at
            depth += 1
        elif letter in CLOSED:
            depth -= 1
    return [*parts, text[begin:]]


def arguments_of(text: str) -> list[str]:
    """The text cut before each argument in round brackets, if it has one, or else of the widest application in it that has two."""
    for first, last in [(-1, len(text)), *(it for it in inside(text) if text[it[0]] == "(")]:
        parts = bracketed_of(text[first + 1 : last])
        if len(parts) > (1 if first < 0 else 2):
            return [text[: first + 1] + parts[0], *parts[1:-1], parts[-1] + text[last:]]
    return [text]


def bracketed_of(text: str) -> list[str]:
    """The text cut before each argument in round brackets that stands outside brackets."""
    depth, begin, parts = 0, 0, []
    for at, letter in enumerate(text):
        if letter == "(" and depth == 0 and at > begin and text[at - 1] == " ":
            parts.append(text[begin:at].rstrip())
            begin = at
        depth += (letter in OPENED) - (letter in CLOSED)
    return [*parts, text[begin:]]


def filled(parts: list[str], indent: str, further: str) -> list[str]:
    """Lines that hold as many of the parts as fit, the first at the indent and the others further in."""
    lines = [indent + parts[0]]
    for part in parts[1:]:
        if len(lines[-1]) + 1 + len(part) <= WIDTH:
            lines[-1] += f" {part}"
        else:
            lines.append(further + part)
    return lines


def inside(text: str) -> Iterator[tuple[int, int]]:
    """The brackets of the text, the widest first."""
    open_at, found = [], []
    for at, letter in enumerate(text):
        if letter in OPENED:
            open_at.append(at)
        elif letter in CLOSED and open_at:
            found.append((open_at.pop(), at))
    return iter(sorted(found, key=lambda it: it[0] - it[1]))


def broken(text: str, indent: str, further: str) -> list[str]:
    """The text in lines, none wider than may be if that can be had."""
    if len(indent) + len(text) <= WIDTH:
        return [indent + text]
    for parts in (parts_of(text, "→"), parameters_of(text), *(parts_of(text, joint) for joint in JOINTS[1:])):
        if len(parts) > 1:
            return wrapped(parts, indent, further)
    for first, last in inside(text):
        inner = text[first + 1 : last]
        for joint in JOINTS:
            parts = parts_of(inner, joint)
            if len(parts) > 1:
                parts[0], parts[-1] = text[: first + 1] + parts[0], parts[-1] + text[last:]
                return wrapped(parts, indent, f"{further}  ")
    parts = arguments_of(text) if '"' not in text else [text]
    return filled(parts, indent, further) if len(parts) > 1 else [indent + text]


def wrapped(parts: list[str], indent: str, further: str) -> list[str]:
    lines = []
    for line in filled(parts, indent, further):
        room = line[: len(line) - len(line.lstrip(" "))]
        lines += [line] if len(line) <= WIDTH else broken_once(line.lstrip(" "), room, f"{further}  ")
    return lines


def broken_once(text: str, indent: str, further: str) -> list[str]:
    """A part that is too wide by itself. Its leading arrow stays where it is."""
    head = re.match(r"[→×⊎≡≤<] ", text)
    lead = head[0] if head else ""
    lines = broken(text[len(lead) :], indent, further) if lead else broken(text, indent, further)
    lines[0] = indent + lead + lines[0].lstrip(" ")
    return lines


def of_module(line: str) -> list[str]:
    indent = line[: len(line) - len(line.lstrip(" "))]
    text, parts, depth, begin = line.strip(), [], 0, 0
    for at, letter in enumerate(text):
        if letter in OPENED:
            if depth == 0 and at > begin:
                parts.append(text[begin:at].strip())
                begin = at
            depth += 1
        elif letter in CLOSED:
            depth -= 1
            if depth == 0:
                parts.append(text[begin : at + 1].strip())
                begin = at + 1
    parts.append(text[begin:].strip())
    lines = []
    for given in filled([it for it in parts if it], indent, f"{indent}    "):
        lines += [given] if len(given) <= WIDTH else broken_once(given.strip(), given[: len(given) - len(given.lstrip())], f"{indent}      ")
    return lines


def of_statement(line: str) -> list[str]:
    indent = line[: len(line) - len(line.lstrip(" "))]
    return broken(line.strip(), indent, f"{indent}    ")


def rewritten(lines: list[str]) -> list[str]:
    told, in_statement = [], False
    for line in lines:
        bare = line.split("  -- ")[0]
        if re.match(r" *module _? ?[({]", line) or re.match(r" *module \S+ [({]", line):
            told += of_module(line) if len(line) > WIDTH and bare == line else [line]
            in_statement = False
        elif STATED.match(line) and not line.lstrip().startswith(("let ", "record {", "--")) and " = " not in line.split(" : ", 1)[0]:
            told_of = RECORD.sub("", bare)
            is_field = " = " in told_of and not re.search(r"\([^()]* = ", told_of)
            told += of_statement(line) if len(line) > WIDTH and bare == line and not is_field else [line]
            in_statement = True
        elif in_statement and re.match(r" +→ ", line):
            told += continued(line) if len(line) > WIDTH and bare == line else [line]
        else:
            in_statement = False
            told.append(line)
    return told


def continued(line: str) -> list[str]:
    """A further line of a statement."""
    indent = line[: len(line) - len(line.lstrip(" "))]
    parts = parts_of(line.strip(), "→")
    return wrapped(parts, indent, indent)


def wide(lines: list[str]) -> int:
    return sum(len(it) > WIDTH and not it.lstrip().startswith("--") for it in lines)


def joints(line: str, start: int) -> Iterator[tuple[int, int, int, int]]:
    """Where a line of a body may be broken: how deep in round brackets, how good (0 is best), the place, and how far in the rest stands."""
    open_at: list[str] = []
    for at in range(start, len(line)):
        letter = line[at]
        depth = len(open_at)
        if letter in CLOSED:
            if not open_at:
                return
            open_at.pop()
        elif any(it != "(" for it in open_at):
            open_at += [letter] if letter in OPENED else []
        elif letter in OPENED:
            if letter == "(" and is_argument(line, at, start):
                yield depth, 3, at, 4
            open_at.append(letter)
        elif line.startswith(" in ", at):
            yield depth, 0, at + 4, 2 if depth else 0
        elif line.startswith((" = ", " ↦ "), at):
            yield depth, 1, at + 3, 4
        elif line.startswith(" ∙ ", at):
            yield depth, 2, at + 1, 2 if depth else 0
        elif depth and line.startswith(", ", at):
            yield depth, 2, at + 2, 2


def is_argument(line: str, at: int, start: int) -> bool:
    """Whether what the bracket opens is an argument of what stands before it."""
    before = line[:at].split()
    if at == start or line[at - 1] != " " or not before or re.match(r"\((?:[\w'-]+ )+: ", line[at:]):
        return False
    return before[-1] not in NO_HEAD and not before[-1].endswith((",", ";", ".", "(", "|"))


def in_two(line: str) -> list[str] | None:
    """The line in two that are narrow enough, cut where it is least deep."""
    indent = len(line) - len(line.lstrip(" "))
    is_clause = not line.lstrip().startswith(("let ", "∙", "|", "(")) and any(rank == 1 and not depth for depth, rank, _, _ in joints(line, indent))
    best = None
    for depth, rank, at, further in joints(line, indent):
        first, rest = line[:at].rstrip(" "), line[at:]
        further = 4 if is_clause and not depth else further
        narrow = len(first) <= WIDTH and indent + further + len(rest) <= WIDTH
        if depth <= DEEPEST and narrow and len(first.strip()) >= LEAST_FIRST and len(rest) >= LEAST_REST:
            key = (depth, rank, at if rank < 2 else -at)
            if best is None or key < best[0]:
                best = (key, [first, " " * (indent + further) + rest])
    return best[1] if best else None


def is_body(line: str) -> bool:
    bare = line.lstrip()
    if bare.startswith(("--", "use ", "→", "record ")) or '"' in line or " -- " in line or "record {" in line or "[ " in line:
        return False
    return not re.match(r"(?:pub )?module |(?:pub |abbrev |unfoldable )+|(?!let )[^\s:(){},;=]+ : ", bare)


def with_bodies(files: list[Path], most: int) -> dict[Path, list[str]]:
    """The files in which so many of the widest lines of bodies are broken."""
    texts = {file: file.read_text().split("\n") for file in files if file.parts[-3:-1] != ("specs",) and "proofs" in file.parts}
    found = [(len(line), file, at) for file, lines in texts.items() for at, line in enumerate(lines) if len(line) > WIDTH and is_body(line) and in_two(line)]
    chosen = {(file, at) for _, file, at in sorted(found, key=lambda it: -it[0])[:most]}
    told = {}
    for file in {file for file, _ in chosen}:
        told[file] = [part for at, line in enumerate(texts[file]) for part in (in_two(line) if (file, at) in chosen else [line])]
    return told


def main() -> int:
    parser = argparse.ArgumentParser(description=__doc__, formatter_class=argparse.RawDescriptionHelpFormatter)
    parser.add_argument("--check", action="store_true")
    parser.add_argument("--bodies", type=int, default=0, metavar="N")
    parser.add_argument("files", nargs="*", type=Path)
    given = parser.parse_args()
    files = given.files or sorted(it for part in ("specs", "proofs") for it in ROOT.glob(f"crates/*/{part}/**/*.antt"))
    for file, new in with_bodies(files, given.bodies).items() if given.bodies else ():
        print(f"{file}: {wide(file.read_text().split(chr(10)))} too wide, {wide(new)} still are")
        file.write_text("\n".join(new))
    changed = False
    for file in files:
        lines = file.read_text().split("\n")
        new = rewritten(lines)
        if new == lines:
            continue
        changed = True
        assert "".join("".join(lines).split()) == "".join("".join(new).split()), file
        print(f"{file}: {wide(lines)} too wide, {wide(new)} still are, {len(new) - len(lines)} lines more")
        if not given.check:
            file.write_text("\n".join(new))
    return int(changed)


if __name__ == "__main__":
    sys.exit(main())
