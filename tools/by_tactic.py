#!/usr/bin/env python3
"""Finds proofs of a crate's lemmas that a tactic finds too, by the names of the lemmas in them, and writes it there.

A place is the body of a clause, what a `let` with a type or a field of a record has, or an arm, where that takes two
lines or more; or all clauses of a lemma, where none calls the lemma itself. In its stead `search` is tried, with the
lemmas that stood there as its list. For each place a copy of the lemma with another name is put behind the lemma; the
crate is checked once, over the libraries that are built below it, and a copy of which nothing is said is proved. The
files are put back. With --write what proved is written in, the outermost of places in one another, where it saves a
line and takes no more than --width columns; the crate is checked again, and what fails there is taken back. Imports
that nothing uses any more go by `rt tidy`, and `tools/fold_imports.py` lays out the rest.

A lemma with a comment in its body is left alone: there a reader should see the proof. For the others that is for who
runs this to say.

Status: 0, or 1 if the crate wasn't proved at the end.
"""

from __future__ import annotations

import argparse
import re
import subprocess
import sys
from collections import defaultdict
from pathlib import Path
from typing import Iterator, NamedTuple

sys.dont_write_bytecode = True
import antt
import use_trees

OPEN, CLOSE = "([{", ")]}"
WIDTH = 140
# No list gets longer: a search over more lemmas ends at its limits.
MOST_LEMMAS = 16
TOKEN = re.compile(r"[^\s()\[\]{},;]+")
NAME = re.compile(r"(?<![\w.'◌-])[^\W\d][\w'≡≢≤-]*(?:\.[\w-]+)*")
VARIABLE = re.compile(r"[a-z][\w'-]*")
WORDS = set("let in elim as record where absurd refl ap sym subst cc rw simp grind search omega arith inl inr tt if then else pub assumption".split())
SAID = re.compile(r"(?:^|\s|/)(proofs/[\w/.+-]+\.antt):(\d+):\d+: (?:error: (?P<error>[^\n]*)|note: `\w+` has chosen a term)")


class Unread(Exception):
    """A text that is built otherwise than the tool knows; its lemma is left alone."""


class Place(NamedTuple):
    """Where a tactic may stand: the lemma, the part of the file from its first clause's word on, and what to write there."""

    item: antt.Item
    start: int
    end: int
    tactic: str

    def saved(self, text: str) -> int:
        return text.count("\n", self.start, self.end)


def closing(text: str, at: int) -> int:
    """Where the bracket at this place ends."""
    depth = 0
    for end in range(at, len(text)):
        depth += (text[end] in OPEN) - (text[end] in CLOSE)
        if not depth:
            return end
    raise Unread


def tokens(text: str, at: int, end: int) -> Iterator[tuple[int, str]]:
    """The words of a part of the text, each with its place; a pair of brackets is one word, with what follows it at once."""
    while at < end:
        if text[at].isspace():
            at += 1
        elif text[at] in CLOSE:
            raise Unread
        elif text[at] in ",;":
            yield at, text[at]
            at += 1
        else:
            to = closing(text, at) + 1 if text[at] in OPEN else at
            while to < end and not text[to].isspace() and text[to] not in ",;" + OPEN + CLOSE:
                to += 1
            yield at, text[at:to]
            at = to


def cut_at(text: str, at: int, end: int, signs: str) -> Iterator[tuple[int, int]]:
    """The parts of a pair of brackets between such signs."""
    bars = [place for place, word in tokens(text, at + 1, end) if word in signs]
    yield from zip([at, *bars], [*bars, end])


def inner_parts(text: str, at: int, end: int) -> Iterator[tuple[int, int]]:
    """The parts of an expression of which the goal is known: typed `let`s, fields, arms, and the end of a `let`."""
    found = list(tokens(text, at, end))
    head = found[0][1] if found else ""
    if head == "let":
        names = [(place, word) for place, word in found if word in ("let", "in", "=", ":")]
        depth, equals, typed = 0, None, False
        for place, word in names:
            depth += (word == "let") - (word == "in")
            if not depth:
                if typed and equals:
                    yield equals + 1, place
                yield place + 2, end
                return
            if depth == 1 and not equals:
                equals, typed = place if word == "=" else None, typed or word == ":"
    elif head in ("record", "elim"):
        bracket = [place for place, word in found if word[0] == ("{" if head == "record" else "[")]
        if len(bracket) == 1:
            signs, arrow = (";", "=") if head == "record" else ("|", "↦")
            for first, last in cut_at(text, bracket[0], closing(text, bracket[0]), signs):
                sign = next((place for place, word in tokens(text, first + 1, last) if word == arrow), None)
                if sign:
                    yield sign + 1, last


def parts(text: str, at: int, end: int) -> Iterator[tuple[int, int]]:
    """An expression and what stands in it at places of which the goal is known, outermost first."""
    while at < end and text[at].isspace():
        at += 1
    while end > at and text[end - 1].isspace():
        end -= 1
    yield at, end
    for first, last in inner_parts(text, at, end):
        yield from parts(text, first, last)


class Lemmas:
    """Which words of a file are lemmas: those that it declares or brings of some proofs/, and that stand in no type."""

    def __init__(self, crate: Path) -> None:
        self.typed: set[str] = set()
        for path in crate.glob("*/**/*.antt"):
            lines = path.read_text(encoding="utf-8").split("\n")
            if "specs" in path.parts:
                self.typed |= set(antt.words_of(lines))
            for item in antt.items_of(lines):
                head = antt.signature_of(item, lines)
                self.typed |= {word for told in antt.words_of(head) for word in NAME.findall(told)} - {item.name}
        common = crate / "proofs/Common.antt"
        self.passed = self.brought(common.read_text(encoding="utf-8")) if common.exists() else set()

    def brought(self, text: str) -> set[str]:
        leaves = [leaf for use in antt.USE.finditer(text) for leaf in use_trees.leaves_in(use["path"], use["names"] or "")]
        return {leaf.alias or leaf.name for leaf in leaves if "proofs" in leaf.module.split(".")}

    def among(self, text: str, words: str) -> list[str]:
        """The lemmas that stand in such a part of a file, each once."""
        own = {item.name for item in antt.items_of(text.split("\n"))}
        known = {it for it in own | self.brought(text) | self.passed if VARIABLE.fullmatch(it)} - WORDS - self.typed
        return [it for it in dict.fromkeys(word.split(".")[0] for word in NAME.findall(words)) if it in known]


def listed(lemmas: list[str]) -> str:
    return f"search (arith, {', '.join(lemmas)})" if lemmas else "search arith"


def one_clause(text: str, item: antt.Item, clauses: list[tuple[int, int, int]], signature: str) -> str | None:
    """The left side of a clause that stands for all, its arguments called as the signature calls them."""
    patterns = [[word for _, word in tokens(text, first, equals)][1:] for first, equals, _ in clauses]
    given = [[word for word in words if word[0] != "{"] for words in patterns]
    if len({len(words) for words in given}) != 1 or any(len(words) != len(told) for words, told in zip(given, patterns)):
        return None
    binders = re.findall(r"\(([^():]+) :", signature)
    names = [name for told in binders for name in told.split()]
    free = [next((it for it in column if VARIABLE.fullmatch(it) and it not in WORDS), None) for column in zip(*given)]
    arguments = [name if at >= len(names) else names[at] for at, name in enumerate(free)]
    if None in arguments or len(set(arguments)) < len(arguments):
        return None
    return f"{item.indent}{' '.join([item.name, *arguments])} = "


def clauses_of(text: str, item: antt.Item, at: int, end: int) -> list[tuple[int, int, int]]:
    """Each clause of a lemma: where it begins, where its `=` stands, and where it ends."""
    starts = [it.start() for it in re.finditer(rf"(?m)^{item.indent}{re.escape(item.name)}(?= )(?! *:)", text[at:end])]
    found = []
    for first, last in zip(starts, [*starts[1:], end - at]):
        equals = next((place for place, word in tokens(text, at + first, at + last) if word == "="), None)
        if equals is None:
            raise Unread
        found.append((at + first, equals, at + last))
    return found


def places_of(text: str, lemmas: Lemmas) -> Iterator[Place]:
    lines = text.split("\n")
    starts = [0]
    for line in lines:
        starts.append(starts[-1] + len(line) + 1)
    for item in antt.items_of(lines):
        at, end = starts[item.first], starts[item.end] - 1
        told = text[at:end]
        calls = re.compile(rf"(?<![\w.'-]){re.escape(item.name)}(?![\w'-])")
        if item.sort or re.search(r"(?:^|\s)--|\bwhere\b|\bunfolding\b", told):
            continue
        try:
            clauses = clauses_of(text, item, at, end)
            bodies = [text[equals + 1 : last] for _, equals, last in clauses]
            if len(clauses) > 1 and not any(calls.search(body) for body in bodies):
                head = one_clause(text, item, clauses, text[at : clauses[0][0]])
                names = lemmas.among(text, "\n".join(bodies))
                if head and len(names) <= MOST_LEMMAS:
                    yield Place(item, clauses[0][0], end, head + listed(names))
            for _, equals, last in clauses:
                for first, to in parts(text, equals + 1, last):
                    part = text[first:to]
                    names = lemmas.among(text, part)
                    if "\n" in part and not calls.search(part) and len(names) <= MOST_LEMMAS:
                        yield Place(item, first, to, listed(names))
        except Unread:
            continue


def with_arith(text: str) -> str:
    """The file with `arith` among what it brings."""
    if re.search(r"(?m)^use .*[{ ]arith[,}]", text):
        return text
    return re.sub(r"(?m)^(?=use )", "use Rattle.std.proofs.Common.{arith}\n", text, count=1)


class Crate:
    def __init__(self, root: Path, jobs: int) -> None:
        self.root, self.jobs = root, jobs
        self.texts = {path: path.read_text(encoding="utf-8") for path in sorted((root / "proofs").rglob("*.antt")) if path.name != "Lib.antt"}

    def put_back(self) -> None:
        for path, text in self.texts.items():
            path.write_text(text, encoding="utf-8")

    def check(self) -> tuple[bool, dict[str, list[tuple[int, str]]]]:
        """Whether the crate is proved, and of each file the lines of which the check says something."""
        run = subprocess.run(["rt", "check", "--jobs", str(self.jobs)], cwd=self.root, capture_output=True, text=True)
        said = defaultdict(list)
        for it in SAID.finditer(run.stdout + run.stderr):
            said[it[1]].append((int(it[2]), it["error"] or ""))
        return "logic=proved" in run.stdout, said

    def proved(self, places: dict[Path, list[Place]]) -> dict[Path, list[Place]]:
        """Those places at which the tactic proves what stands there, by a copy of the lemma for each."""
        copies: dict[str, list[tuple[int, int, Path, Place]]] = defaultdict(list)
        for path, here in places.items():
            text, name = self.texts[path], str(path.relative_to(self.root))
            lines = with_arith(text).split("\n")
            more = len(lines) - text.count("\n") - 1
            for at, place in sorted(enumerate(here), key=lambda it: (it[1].item.end, it[0]), reverse=True):
                first = sum(len(line) + 1 for line in text.split("\n")[: place.item.first])
                last = sum(len(line) + 1 for line in text.split("\n")[: place.item.end])
                copy = (text[first : place.start] + place.tactic + text[place.end : last]).rstrip("\n")
                own = rf"(?m)^({place.item.indent})(?:pub |abbrev |unfoldable )*{re.escape(place.item.name)}(?= )"
                lines[place.item.end + more : place.item.end + more] = re.sub(own, rf"\g<1>copy_{at}", copy).split("\n")
            path.write_text("\n".join(lines), encoding="utf-8")
            for at, place in enumerate(here):
                first = next(it for it, line in enumerate(lines, 1) if line.strip().startswith(f"copy_{at} "))
                count = text.count("\n", 0, place.end) - text.count("\n", 0, place.start)
                copies[name].append((first, first + place.item.end - place.item.first - count - 1, path, place))
        try:
            _, said = self.check()
        finally:
            self.put_back()
        found = defaultdict(list)
        for name, made in copies.items():
            for first, last, path, place in made:
                if not any(first <= line <= last for line, _ in said.get(name, [])):
                    found[path].append(place)
        return found

    def written(self, places: dict[Path, list[Place]]) -> bool:
        """Writes the tactics in, and takes those back that the check refuses; whether the crate is proved at the end."""
        chosen = {path: [it for it in here if not any(it is not at and at.start <= it.start and it.end <= at.end for at in here)] for path, here in places.items()}
        while True:
            for path, text in self.texts.items():
                here = sorted(chosen.get(path, []), reverse=True, key=lambda it: it.start)
                for place in here:
                    text = text[: place.start] + place.tactic + text[place.end :]
                path.write_text(with_arith(text) if here else text, encoding="utf-8")
            is_proved, said = self.check()
            refused = {(name, word) for name, here in said.items() for _, error in here for word in re.findall(r"`([^`]+)`", error)[:1] if "depend" not in error}
            kept = {path: [it for it in here if (str(path.relative_to(self.root)), it.item.name) not in refused] for path, here in chosen.items()}
            if kept == chosen:
                return is_proved
            chosen = kept


def main() -> int:
    parser = argparse.ArgumentParser(description=__doc__, formatter_class=argparse.RawDescriptionHelpFormatter)
    parser.add_argument("crate", type=Path, help="the crate's folder")
    parser.add_argument("--write", action="store_true", help="write in what proved")
    parser.add_argument("--width", type=int, default=WIDTH, help=f"no tactic that is wider ({WIDTH})")
    parser.add_argument("--jobs", type=int, default=1, help="so many processes for a check (1)")
    options = parser.parse_args()
    crate = Crate(options.crate.resolve(), options.jobs)
    lemmas = Lemmas(crate.root)
    places = {path: [it for it in places_of(text, lemmas) if len(it.tactic) <= options.width and it.saved(text)] for path, text in crate.texts.items()}
    places = {path: here for path, here in places.items() if here}
    print(f"{sum(map(len, places.values()))} places", flush=True)
    found = crate.proved(places)
    for path, here in found.items():
        for place in here:
            print(f"{path.relative_to(crate.root)}: {place.item.name}: {place.saved(crate.texts[path])} lines less by {place.tactic}")
    if options.write and found:
        return 0 if crate.written(found) else 1
    return 0


if __name__ == "__main__":
    sys.exit(main())
