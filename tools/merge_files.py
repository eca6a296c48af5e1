#!/usr/bin/env python3
"""Puts files of lemmas together whose heads bring the same names.

    merge_files.py CRATE INTO FROM..      the lemmas of these files of proofs/ go to INTO
    merge_files.py --plan [CRATE..]       tells which pairs would save import lines, the best first, and writes nothing

A file is named as it stands below proofs/, without its ending. What one of the two brings of the other goes, what
both bring stands once, the one that the other hangs on stands first, and each `use` of the tree follows. Refused are
two files that would make a cycle, that declare or bring two things by one name, or of which one brings the other's by
an alias; and a file that passes names on can only stay. The comment at the head of each file stays above its lemmas.
Write the tables anew afterwards, and look for the old name in docs/.

Status: 0, or 2 where the files can't go together.
"""

from __future__ import annotations

import argparse
import itertools
import re
import sys
import tempfile
from pathlib import Path
from typing import NamedTuple

sys.dont_write_bytecode = True
import antt
import fold_imports as fold

TOP = Path(__file__).resolve().parent.parent
MOST_LINES = 780
MADE = ("Answers", "Invariants")


class Refused(Exception):
    """Why two files can't go together."""


class Parsed(NamedTuple):
    """A file: what it brings, the comment at its head, and the rest."""

    leaves: list[fold.Leaf]
    head: list[str]
    rest: list[str]


def parsed(text: str) -> Parsed:
    lines = text.splitlines()
    imports = fold.imports_of(lines)
    rest = fold.rest_of(lines, imports)
    first = next((at for at, line in enumerate(rest) if not line.startswith("--")), len(rest))
    return Parsed([leaf for it in imports for leaf in it.leaves], rest[:first], rest[first:])


def use_of(leaf: fold.Leaf, before: str = "use ", end: str = "") -> str:
    told = f"{leaf.name} as {leaf.alias}" if leaf.alias else leaf.name
    return f"{before}Rattle.{leaf.module}.{{{told}}}{end}"


class Crate:
    """The files of proofs of a crate, by their names, and what each brings of the others."""

    def __init__(self, top: Path, name: str, folder: fold.Folder) -> None:
        self.top, self.name, self.folder = top, name, folder
        self.proofs = top / "crates" / name / "proofs"
        files = sorted(it for it in self.proofs.rglob("*.antt") if it.name != "Lib.antt")
        self.texts = {".".join(it.relative_to(self.proofs).with_suffix("").parts): it.read_text(encoding="utf-8") for it in files}
        self.count()

    def count(self) -> None:
        prefix = f"{self.name}.proofs."
        brought = {it: {leaf.module.removeprefix(prefix) for leaf in parsed(text).leaves} for it, text in self.texts.items()}
        self.below = {it: found & set(self.texts) for it, found in brought.items()}

    def path_of(self, name: str) -> Path:
        return self.proofs / f"{name.replace('.', '/')}.antt"

    def all_below(self, name: str, but: str = "") -> set[str]:
        """What a file hangs on, where it brings nothing of this one itself."""
        found: set[str] = set()
        todo = [it for it in self.below[name] if it != but]
        while todo:
            it = todo.pop()
            if it not in found:
                found.add(it)
                todo += self.below[it]
        return found

    def in_order(self, one: str, other: str) -> tuple[str, str]:
        if other in self.all_below(one, other) or one in self.all_below(other, one):
            raise Refused(f"{one} and {other} would make a cycle")
        return (other, one) if other in self.below[one] else (one, other)

    def joined(self, first: str, second: str) -> str:
        """The text of both files."""
        files = [parsed(self.texts[it]) for it in (first, second)]
        modules = {f"{self.name}.proofs.{it}" for it in (first, second)}
        if any(re.match(r"(?:unfoldable )?pub use ", line) for line in files[1].rest):
            raise Refused(f"{second} passes names on")
        if any(leaf.alias for file in files for leaf in file.leaves if leaf.module in modules):
            raise Refused("one brings the other's by an alias")
        leaves = list(dict.fromkeys(leaf for file in files for leaf in file.leaves if leaf.module not in modules))
        self.compare(first, second, leaves)
        uses = [use_of(leaf) for leaf in leaves]
        parts = [files[0].head + uses + files[0].rest, files[1].head, files[1].rest]
        text = "\n\n".join("\n".join(it).strip("\n") for it in parts if it)
        return self.folder.rewritten(f"{text}\n", False, True)

    def compare(self, first: str, second: str, leaves: list[fold.Leaf]) -> None:
        """Stops where a name would mean two things."""
        declared = [{item.name for item in antt.items_of(self.texts[it].splitlines())} for it in (first, second)]
        twice = declared[0] & declared[1]
        if twice:
            raise Refused(f"both declare {min(twice)}")
        origins: dict[str, tuple[str, str]] = {}
        for leaf in leaves:
            name, origin = leaf.alias or leaf.name, self.folder.kit.origin(leaf.module, leaf.name)
            if origins.setdefault(name, origin) != origin:
                raise Refused(f"two things are brought as {name}")
        both = (declared[0] | declared[1]) & set(origins)
        if both:
            raise Refused(f"{min(both)} is declared and brought")

    def merge(self, into: str, gone: str) -> None:
        """Writes both as one file, and has the tree follow."""
        text = self.joined(*self.in_order(into, gone))
        self.path_of(into).write_text(text, encoding="utf-8")
        self.path_of(gone).unlink()
        self.declare(into, gone)
        old, new = (f"{self.name}.proofs.{it}" for it in (gone, into))
        for crate in antt.crates_of(self.top):
            edits = (self.top / "edits" / crate.name).glob("*.edit")
            for path in [*crate.rglob("*.antt"), *crate.rglob("*.rt"), *crate.rglob("*.edit"), *edits]:
                if "out" not in path.parts[len(crate.parts) :]:
                    self.follow(path, crate.name, old, new)

    def declare(self, into: str, gone: str) -> None:
        """The file that goes is no longer named by its folder, and the other is pub where that one was."""
        library = self.path_of(gone).parent / "Lib.antt"
        if not library.is_file():
            return
        lines = library.read_text(encoding="utf-8").splitlines()
        last, kept = gone.split(".")[-1], into.split(".")[-1]
        if f"pub mod {last}" in lines:
            lines = [f"pub mod {kept}" if line == f"mod {kept}" else line for line in lines]
        library.write_text("".join(f"{it}\n" for it in lines if it not in (f"mod {last}", f"pub mod {last}")), encoding="utf-8")

    def follow(self, path: Path, crate: str, old: str, new: str) -> None:
        text = path.read_text(encoding="utf-8")
        if old.split(".")[-1] not in text:
            return
        told = self.followed(text, path, old, new)
        behind = [f"::{it.removeprefix(self.name + '.').replace('.', '::')}" for it in (old, new)]
        for root in [self.name, *(["crate"] if crate == self.name else [])]:
            told = re.sub(rf"\b{root}{behind[0]}\b", f"{root}{behind[1]}", told)
        if told != text:
            path.write_text(told, encoding="utf-8")

    def followed(self, text: str, path: Path, old: str, new: str) -> str:
        """The text, whose imports bring from the new file what they brought from the old one."""
        lines = text.splitlines()
        touched = [it for it in fold.imports_of(lines) if any(leaf.module == old for leaf in it.leaves)] if path.suffix != ".edit" else []
        if not touched:
            return text
        for it in reversed(touched):
            leaves = [leaf._replace(module=new) if leaf.module == old else leaf for leaf in it.leaves]
            lines[it.first : it.last + 1] = [use_of(leaf, it.head, it.end) for leaf in leaves]
        return self.folder.rewritten("".join(f"{it}\n" for it in lines), path.suffix == ".rt", "proofs" in path.parts)

    def pairs(self, least: int) -> list[tuple[int, str, str]]:
        """The pairs of files that would save so many import lines at least, the best first."""
        size = {it: len(text.splitlines()) for it, text in self.texts.items() if it.split(".")[-1] not in MADE}
        uses = {it: sum(fold.is_import(line) for line in self.texts[it].splitlines()) for it in size}
        found = []
        for one, other in itertools.combinations(sorted(size), 2):
            if one.rpartition(".")[0] != other.rpartition(".")[0] or min(uses[one], uses[other]) < least:
                continue
            try:
                lines = self.joined(*self.in_order(one, other)).splitlines()
            except (Refused, fold.Refused):
                continue
            saved = uses[one] + uses[other] - sum(map(fold.is_import, lines))
            if len(lines) <= MOST_LINES and saved >= least:
                found.append((saved, one, other))
        return sorted(found, reverse=True)


SMALL = {
    "Lib": "pub mod Above\nmod Below\n",
    "Below": "-- What stands below.\nuse Rattle.std.proofs.Common.{refl, ◌≡◌, ℕ}\n\nis_same : (n : ℕ) → n ≡ n\nis_same n = refl\n",
    "Above": "-- What stands above.\nuse Rattle.small.proofs.Below.{is_same}\nuse Rattle.std.proofs.Common.{◌≡◌, ℕ}\n\n"
    "pub is_same_again : (n : ℕ) → n ≡ n\nis_same_again n = is_same n\n",
    "Third": "use Rattle.small.proofs.Below.{is_same}\nuse Rattle.std.proofs.Common.{ℕ}\n",
}


def self_check(folder: fold.Folder) -> None:
    """Tries the tool on a small crate of its own."""
    with tempfile.TemporaryDirectory() as made:
        proofs = Path(made) / "crates" / "small" / "proofs"
        for part in (proofs, proofs.parent / "src"):
            part.mkdir(parents=True)
        for name, text in SMALL.items():
            (proofs / f"{name}.antt").write_text(text, encoding="utf-8")
        Crate(Path(made), "small", folder).merge("Above", "Below")
        whole = (proofs / "Above.antt").read_text(encoding="utf-8")
        assert whole.index("is_same :") < whole.index("-- What stands above.") < whole.index("is_same_again :"), whole
        assert "small.proofs" not in whole and not (proofs / "Below.antt").exists(), whole
        assert "small.proofs.Above.{is_same}" in (proofs / "Third.antt").read_text(encoding="utf-8")
        assert (proofs / "Lib.antt").read_text(encoding="utf-8") == "pub mod Above\n"
        (proofs / "Third.antt").write_text("is_same : ℕ\n", encoding="utf-8")
        try:
            Crate(Path(made), "small", folder).merge("Above", "Third")
        except Refused:
            return
        raise AssertionError("two lemmas of one name went together")


def main() -> int:
    parser = argparse.ArgumentParser(description=__doc__, formatter_class=argparse.RawDescriptionHelpFormatter)
    parser.add_argument("names", nargs="*", help="a crate, the file that stays and those that go; with --plan, crates (all)")
    parser.add_argument("--plan", action="store_true", help="tell pairs, and write nothing")
    parser.add_argument("--least", type=int, default=5, help="the import lines that a pair of the plan saves at least (5)")
    parser.add_argument("--self-check", action="store_true", help="try the tool on a small crate of its own")
    words = parser.parse_args()
    folder = fold.Folder(fold.Kit(fold.kit_of(None)), fold.WIDTH)
    if words.self_check:
        self_check(folder)
    elif words.plan:
        for name in words.names or [it.name for it in antt.crates_of(TOP)]:
            for saved, one, other in Crate(TOP, name, folder).pairs(words.least):
                print(f"{name}: {one} and {other}: {saved} lines fewer")
    elif len(words.names) < 3:
        parser.error("a crate, the file that stays, and one that goes")
    else:
        name, into, *others = words.names
        for gone in others:
            try:
                Crate(TOP, name, folder).merge(into, gone)
            except (Refused, fold.Refused) as amiss:
                print(f"merge_files: {into} and {gone}: {amiss}", file=sys.stderr)
                return 2
    return 0


if __name__ == "__main__":
    sys.exit(main())
