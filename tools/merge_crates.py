#!/usr/bin/env python3
"""Makes one crate of several: tools/merge_crates.py INTO FROM..

The files of src/, specs/, proofs/ and must-fail/ of each FROM move into INTO, those of edits/FROM into edits/INTO. The
roots are joined: src/lib.rt (the docs one after the other, then its `mod` and its `pub use` lines), specs/Lib.antt and
proofs/Lib.antt; the READMEs stand one after the other, to be made one by hand. INTO is one of the tree's crates, or a
new one. A module's path stays what it was but for the crate, and so do the folders of its proofs.

Over all crates and edits `Rattle.FROM.` becomes `Rattle.INTO.`, and `FROM::` becomes `INTO::`, or `crate::` in INTO
itself, and what a block of `use` lines brings from there is one line; paths of files in documents and scripts follow.
crates.txt gets one line, at the first of their places behind all that they need, with what each named, the highest
first; where others name them, INTO stands once. Then tools/fold_imports.py and `rt fmt` lay the files out, and what
still names a FROM is told, line by line: it is prose, and mended by hand.

The tool stops, writes nothing and says which, where two files, modules or names that a root passes on would be one,
where a lemma file would have a module's name, where a crate has more than the files above, or options in crates.txt,
where a root has other items, where an edit is one of a root, and where a crate would stand above what needs it.

Status: 0; 2 where it stopped.
"""

from __future__ import annotations

import argparse
import re
import shutil
import sys
import tempfile
from pathlib import Path
from typing import Iterator, NamedTuple

PARTS = {"src": ".rt", "specs": ".antt", "proofs": ".antt", "must-fail": ".edit"}
ROOT, LEMMAS, README = "src/lib.rt", ("specs/Lib.antt", "proofs/Lib.antt"), "README.md"
JOINED = (ROOT, *LEMMAS, README)
CODE = (".rt", ".antt", ".edit")
PROSE = (".md", ".py", "")

MODULE = re.compile(r"(?:pub(?:\(crate\))? )?mod (\w+);?")
PASSED_ON = re.compile(r"pub use (?P<path>[\w:]+)::(?:\{(?P<names>[^{}*]*)\}|(?P<name>\w+(?: as \w+)?));", re.S)
ROW = re.compile(r"(?P<name>\w+)(?P<options>[^:]*):(?P<needs>.*)")
EDITED = re.compile(r"(?m)^file: *(\S+)$")
BROUGHT = re.compile(r"(?P<head> *(?:pub(?:\([\w ]+\))? )?use )(?P<path>\w+)::(?:\{(?P<names>[\w\s,]*)\}|(?P<name>\w+));")


class Refused(Exception):
    """What a merge can't make one."""


class Root(NamedTuple):
    """A crate's lib.rt: its docs, its inner attributes, its modules by name, and what it passes on by its names."""

    docs: list[str]
    marks: list[str]
    modules: dict[str, str]
    passed_on: dict[tuple[str, ...], str]


def root_of(path: str, text: str) -> Root:
    root, above = Root([], [], {}, {}), []
    lines = iter(text.splitlines())
    for line in lines:
        if line.startswith("//!"):
            root.docs.append(line)
        elif line.startswith("#!["):
            root.marks.append(line)
        elif line.startswith("#["):
            above.append(line)
        elif found := MODULE.fullmatch(line):
            root.modules[found[1]] = "\n".join([*above, line])
            above = []
        elif line.startswith("pub use "):
            while ";" not in line:
                line += f"\n{next(lines)}"
            if above or not (found := PASSED_ON.fullmatch(line)):
                raise Refused(f"{path} passes on what isn't told by names: {line}")
            names = (it.strip().split(" as ")[-1] for it in (found["names"] or found["name"]).split(","))
            root.passed_on[tuple(it for it in names if it)] = line
        elif line.strip():
            raise Refused(f"{path} has an item of its own: {line}")
    return root


def one_name(kind: str, owners: Iterator[tuple[str, str]]) -> None:
    """Stops where two owners have one name."""
    seen: dict[str, str] = {}
    for name, owner in owners:
        if name in seen:
            raise Refused(f"{kind} {name} is of {seen[name]} and of {owner}")
        seen[name] = owner


def joined_root(roots: dict[str, Root]) -> str:
    one_name("the module", ((it, crate) for crate, root in roots.items() for it in root.modules))
    passed = [(it, crate) for crate, root in roots.items() for names in root.passed_on for it in names]
    one_name("the name", iter(passed))
    modules = {name: line for root in roots.values() for name, line in root.modules.items()}
    for name, crate in passed:
        if name in modules:
            raise Refused(f"the name {name} of {crate} is a module's too")
    docs = "\n//!\n".join("\n".join(root.docs) for root in roots.values() if root.docs)
    marks = dict.fromkeys(it for root in roots.values() for it in root.marks)
    uses = sorted(line for root in roots.values() for line in root.passed_on.values())
    blocks = [[*docs.splitlines(), *marks], [modules[it] for it in sorted(modules)], uses]
    return "\n\n".join("\n".join(it) for it in blocks if it) + "\n"


def joined_lemmas(path: str, texts: dict[str, str]) -> str:
    lines = [(line, crate) for crate, text in texts.items() for line in text.splitlines() if line]
    for line, crate in lines:
        if not re.fullmatch(r"(?:pub )?mod \w+", line):
            raise Refused(f"{path} of {crate} has another line: {line}")
    one_name("the module", ((line.split()[-1], f"{path} of {crate}") for line, crate in lines))
    return "".join(f"{line}\n" for line, _ in lines)


def texts_below(folder: Path) -> dict[str, str]:
    """The files of a folder, but for what rt made."""
    paths = (it for it in sorted(folder.rglob("*")) if it.is_file())
    below = {it.relative_to(folder).as_posix(): it for it in paths}
    return {name: path.read_text(encoding="utf-8") for name, path in below.items() if not name.startswith("out/")}


def check_files(crate: str, files: dict[str, str]) -> None:
    for name, text in files.items():
        part = name.split("/")[0]
        if name != README and not (part in PARTS and name.endswith(PARTS[part])) or name == "src/main.rt":
            raise Refused(f"{crate} has {name}, which this tool doesn't move")
        if name.endswith(".edit"):
            check_edit(f"{crate}/{name}", text)


def check_edit(name: str, text: str) -> None:
    if any(it in JOINED for it in EDITED.findall(text)):
        raise Refused(f"{name} edits a root")


def check_apart(crates: dict[str, dict[str, str]]) -> None:
    """Stops where two crates have one file, by any case, or one has a lemma file by the name of another's module."""
    files = [(name, crate) for crate, its in crates.items() for name in its if name not in JOINED]
    one_name("the file", ((name.lower(), crate) for name, crate in files))
    modules = {name[4:-3].split("/")[0]: crate for name, crate in files if name.startswith("src/")}
    for name, crate in files:
        lemmas = re.fullmatch(r"proofs/(\w+)\.antt", name)
        if lemmas and lemmas[1].lower() in modules:
            raise Refused(f"{name} of {crate} has the name of a module of {modules[lemmas[1].lower()]}")


def merged_files(crates: dict[str, dict[str, str]]) -> dict[str, str]:
    """The files of the one crate."""
    for crate, files in crates.items():
        check_files(crate, files)
    check_apart(crates)
    after = {name: text for files in crates.values() for name, text in files.items() if name not in JOINED}
    roots = {crate: files[ROOT] for crate, files in crates.items() if ROOT in files}
    after[ROOT] = joined_root({crate: root_of(f"{crate}/{ROOT}", text) for crate, text in roots.items()})
    for root in LEMMAS:
        if texts := {crate: files[root] for crate, files in crates.items() if root in files}:
            after[root] = joined_lemmas(root, texts)
    after[README] = "\n".join(files[README] for files in crates.values() if README in files)
    return after


def merged_list(text: str, into: str, merged: list[str]) -> str:
    """The text of crates.txt with one line for the crates."""
    lines = text.splitlines()
    rows = {found["name"]: (at, found) for at, line in enumerate(lines) if (found := ROW.fullmatch(line))}
    missing = [it for it in merged if it not in rows and it != into]
    if missing:
        raise Refused(f"crates.txt has no {missing[0]}")
    own = [rows[it] for it in merged if it in rows]
    union = list(dict.fromkeys(it for _, found in own for it in found["needs"].split() if it not in merged))
    needed = max((rows[it][0] for it in union if it in rows), default=-1)
    place = min(at for at, _ in own if at > needed)
    # The highest storey first, and what isn't of this tree last.
    union.sort(key=lambda it: -rows[it][0] if it in rows else 1)
    after = []
    for at, line in enumerate(lines):
        found = ROW.fullmatch(line)
        if found and found["name"] in merged:
            if found["options"].strip():
                raise Refused(f"crates.txt has options of {found['name']}")
            after += [f"{into}: {' '.join(union)}".rstrip()] if at == place else []
            continue
        if found and (needs := found["needs"].split()) and not set(needs).isdisjoint(merged):
            # A line may stand before what it needs; what stood behind all of it is to stand so still.
            if max(rows[it][0] for it in needs if it in merged and it in rows) < at < place:
                raise Refused(f"{found['name']} needs {into}, and stands below it in crates.txt")
            told = dict.fromkeys(into if it in merged else it for it in needs)
            line = f"{found['name']}{found['options']}: {' '.join(told)}"
        after.append(line)
    return "".join(f"{line}\n" for line in after)


def brought_once(text: str, path: str) -> str:
    """The code, where the `use` lines of a block bring what they bring from this path by one line."""
    lines, after, block = text.splitlines(), [], []

    def end_block() -> None:
        parts = [BROUGHT.fullmatch(" ".join(it.split("\n"))) for it in block]
        same = [it["head"] if it and it["path"] == path else None for it in parts]
        for at, (line, part, head) in enumerate(zip(block, parts, same)):
            if head is None or same.count(head) == 1:
                after.append(line)
            elif head not in same[:at]:
                its = (it["names"] or it["name"] for it, its_head in zip(parts, same) if its_head == head)
                names = sorted({name.strip() for it in its for name in it.split(",")} - {""})
                after.append(f"{head}{path}::{{{', '.join(names)}}};")
        block.clear()

    rest = iter(lines)
    for line in rest:
        if not re.match(r" *(?:pub(?:\([\w ]+\))? )?use ", line):
            end_block()
            after.append(line)
            continue
        while ";" not in line:
            line += f"\n{next(rest)}"
        block.append(line)
    end_block()
    return "".join(f"{line}\n" for line in after)


class Names:
    """Rewrites what names the merged crates."""

    def __init__(self, into: str, merged: list[str]) -> None:
        self.into = into
        one = "|".join(map(re.escape, merged))
        self.module = re.compile(rf"\bRattle\.(?:{one})\.")
        self.path = re.compile(rf"(?<![\w:])(?:{one})::")
        gone = "|".join(re.escape(it) for it in merged if it != into)
        self.file = re.compile(rf"\b(?:{gone})/(?=(?:src|specs|proofs|must-fail|README)\b)")
        self.gone = re.compile(rf"\b(?:{gone})\b")

    def in_code(self, text: str, is_own: bool, suffix: str) -> str:
        after = self.path.sub("crate::" if is_own else f"{self.into}::", text)
        if after != text and suffix == ".rt":
            after = brought_once(after, "crate" if is_own else self.into)
        return self.module.sub(f"Rattle.{self.into}.", after)

    def in_prose(self, text: str) -> str:
        return self.file.sub(f"{self.into}/", text)


class Merge(NamedTuple):
    """What a merge writes, by path, and the folders that it takes away."""

    written: dict[Path, str]
    gone: list[Path]


def files_of(top: Path) -> Iterator[Path]:
    """The text files of a tree whose names may be rewritten."""
    for part in sorted(it for it in top.iterdir() if it.name in ("bench", "crates", "docs", "edits", "tests", "tools")):
        for path in sorted(part.rglob("*")):
            if path.is_file() and "out" not in path.relative_to(top).parts and path.suffix in (*CODE, *PROSE):
                yield path
    yield from sorted(top.glob("*.md"))


def text_of(path: Path) -> str | None:
    try:
        return path.read_text(encoding="utf-8")
    except UnicodeDecodeError:
        return None


def merge(top: Path, into: str, sources: list[str]) -> Merge:
    merged = list(dict.fromkeys([into, *sources]))
    if len(merged) <= 1 or into in sources:
        raise Refused("INTO is followed by other crates than itself")
    crates = {it: texts_below(top / "crates" / it) for it in merged if (top / "crates" / it).is_dir()}
    for crate in sources:
        if crate not in crates:
            raise Refused(f"there is no crates/{crate}")
    names = Names(into, merged)
    own = {f"crates/{into}/{name}": text for name, text in merged_files(crates).items()}
    beside = {it: texts_below(top / "edits" / it) for it in merged}
    one_name("the edit", ((name, f"edits/{crate}") for crate, its in beside.items() for name in its))
    for crate, its in beside.items():
        for name, text in its.items():
            check_edit(f"edits/{crate}/{name}", text)
            own[f"edits/{into}/{name}"] = text
    written = {top / name: names.in_code(text, True, Path(name).suffix) for name, text in own.items()}
    listed = top / "crates.txt"
    written[listed] = merged_list(listed.read_text(encoding="utf-8"), into, merged)
    folders = [top / part / it for part in ("crates", "edits") for it in merged]
    for path in files_of(top):
        if path not in written and not any(it in path.parents for it in folders) and (text := text_of(path)):
            is_code = path.suffix in CODE
            after = names.in_code(text, False, path.suffix) if is_code else names.in_prose(text)
            if after != text:
                written[path] = after
    written[top / "crates" / into / README] = names.in_prose(own[f"crates/{into}/{README}"])
    return Merge(written, [it for it in folders if it.name != into and it.is_dir()])


def carry_out(plan: Merge) -> None:
    for folder in plan.gone:
        shutil.rmtree(folder)
    for path, text in plan.written.items():
        path.parent.mkdir(parents=True, exist_ok=True)
        path.write_text(text, encoding="utf-8")


def still_named(top: Path, names: Names) -> Iterator[str]:
    """Each line that names a crate which is no more."""
    for path in files_of(top):
        for number, line in enumerate((text_of(path) or "").splitlines(), 1):
            if names.gone.search(line):
                yield f"{path.relative_to(top)}:{number}: {line.strip()}"


# ---- the tool on trees of its own
TREE = {
    "crates.txt": "# Low\nlow:\n\n# Trials\none: low kit\ntwo: one low\nmid: low\nthree: low mid\n"
    "# Top\ntop: three two one low\n",
    "docs/PAGE.md": "`two` has `two/src/b.rt`.\n",
    "crates/low/src/lib.rt": "#![tactic(auto)]\n",
    "crates/one/README.md": "# `one`\n",
    "crates/one/src/lib.rt": "//! One.\n#![tactic(auto)]\n\npub mod a;\n\npub use a::{alpha, beta};\n",
    "crates/one/src/a.rt": "ghost use Rattle.one.specs.A.{x};\nuse low::y;\n",
    "crates/one/specs/Lib.antt": "pub mod A\n",
    "crates/one/specs/A.antt": "pub x : ℕ\nx = 1\n",
    "crates/two/README.md": "# `two`\n",
    "crates/two/src/lib.rt": "//! Two.\n#![tactic(auto)]\n\n#[cfg(test)]\nmod b;\n\npub use b::gamma;\n",
    "crates/two/src/b.rt": "ghost use Rattle.one.specs.A.{x};\nuse one::alpha;\nuse low::one::z;\n",
    "crates/two/proofs/Lib.antt": "mod B\n",
    "crates/two/proofs/b_of/Answers.antt": "use Rattle.two.proofs.B.{x}\n",
    "crates/two/must-fail/less.edit": "file: src/b.rt\nold: alpha\nnew: beta\n",
    "crates/two/out/kept": "what rt made",
    "crates/three/src/lib.rt": "//! Three.\n#![tactic(auto)]\n\nmod c;\n",
    "crates/three/src/c.rt": "use low::y;\n",
    "crates/top/src/lib.rt": "use one::{alpha,\n    beta};\nuse low::z;\nuse two::gamma;\n#[tactic(auto, using(two::proofs::B::x))]\n",
    "edits/two/more.edit": "file: proofs/b_of/Answers.antt\nold: use Rattle.two.proofs.B.{x}\nnew: y\n",
}
MERGED = {
    "crates.txt": "# Low\nlow:\n\n# Trials\nmid: low\none: mid low kit\n# Top\ntop: one low\n",
    "docs/PAGE.md": "`two` has `one/src/b.rt`.\n",
    "crates/low/src/lib.rt": TREE["crates/low/src/lib.rt"],
    "crates/one/README.md": "# `one`\n\n# `two`\n",
    "crates/one/src/lib.rt": "//! One.\n//!\n//! Two.\n//!\n//! Three.\n#![tactic(auto)]\n\n"
    "pub mod a;\n#[cfg(test)]\nmod b;\nmod c;\n\npub use a::{alpha, beta};\npub use b::gamma;\n",
    "crates/one/src/a.rt": TREE["crates/one/src/a.rt"],
    "crates/one/specs/Lib.antt": TREE["crates/one/specs/Lib.antt"],
    "crates/one/specs/A.antt": TREE["crates/one/specs/A.antt"],
    "crates/one/src/b.rt": "ghost use Rattle.one.specs.A.{x};\nuse crate::alpha;\nuse low::one::z;\n",
    "crates/one/src/c.rt": TREE["crates/three/src/c.rt"],
    "crates/one/proofs/Lib.antt": "mod B\n",
    "crates/one/proofs/b_of/Answers.antt": "use Rattle.one.proofs.B.{x}\n",
    "crates/one/must-fail/less.edit": TREE["crates/two/must-fail/less.edit"],
    "crates/top/src/lib.rt": "use one::{alpha, beta, gamma};\nuse low::z;\n#[tactic(auto, using(one::proofs::B::x))]\n",
    "edits/one/more.edit": "file: proofs/b_of/Answers.antt\nold: use Rattle.one.proofs.B.{x}\nnew: y\n",
}
# What stops it, by a change of the tree, and what it says then.
STOPS = [
    ({"crates/two/src/A.rt": ""}, "the file src/a.rt is of one and of two"),
    ({"crates/two/src/lib.rt": "mod a;\n"}, "the module a is of one and of two"),
    ({"crates/two/src/lib.rt": "mod b;\n\npub use b::beta;\n"}, "the name beta is of one and of two"),
    ({"crates/two/src/lib.rt": "mod b;\n\npub use b::a;\n"}, "the name a of two is a module's too"),
    ({"crates/two/src/lib.rt": "pub struct B;\n"}, "two/src/lib.rt has an item of its own: pub struct B;"),
    ({"crates/two/src/lib.rt": "pub use b::*;\n"}, "two/src/lib.rt passes on what isn't told by names: pub use b::*;"),
    ({"crates/two/specs/Lib.antt": "mod A\n"}, "the module A is of specs/Lib.antt of one and of specs/Lib.antt of two"),
    ({"crates/two/proofs/A.antt": ""}, "proofs/A.antt of two has the name of a module of one"),
    ({"crates/two/args": ""}, "two has args, which this tool doesn't move"),
    ({"crates/two/must-fail/less.edit": "file: src/lib.rt\n"}, "two/must-fail/less.edit edits a root"),
    ({"edits/one/more.edit": ""}, "the edit more.edit is of edits/one and of edits/two"),
    ({"crates.txt": "one:\ntwo: one\nmid: two\nthree: mid\n"}, "mid needs one, and stands below it in crates.txt"),
    ({"crates.txt": "one:\ntwo: one\n"}, "crates.txt has no three"),
    ({"crates.txt": "one:\ntwo may_wait=2: one\nthree:\n"}, "crates.txt has options of two"),
]


def tree_of(files: dict[str, str], room: str) -> Path:
    for name, text in files.items():
        path = Path(room) / name
        path.parent.mkdir(parents=True, exist_ok=True)
        path.write_text(text, encoding="utf-8")
    return Path(room)


def self_check() -> None:
    """Merges three small crates, into one of them and into a new one, and sees that each stop stops it."""
    with tempfile.TemporaryDirectory() as room:
        top = tree_of(TREE, room)
        carry_out(merge(top, "one", ["two", "three"]))
        found = texts_below(top)
        differ = sorted(name for name in found | MERGED if found.get(name) != MERGED.get(name))
        assert not differ, {name: found.get(name) for name in differ}
        told = list(still_named(top, Names("one", ["one", "two", "three"])))
        assert told == ["crates/one/README.md:3: # `two`", "docs/PAGE.md:1: `two` has `one/src/b.rt`."], told
    with tempfile.TemporaryDirectory() as room:
        top = tree_of(TREE, room)
        carry_out(merge(top, "new", ["one", "two"]))
        listed = "# Low\nlow:\n\n# Trials\nnew: low kit\nmid: low\nthree: low mid\n# Top\ntop: three new low\n"
        found = texts_below(top)
        assert found["crates.txt"] == listed, found["crates.txt"]
        assert found["crates/new/src/b.rt"] == MERGED["crates/one/src/b.rt"].replace(".one.", ".new.")
        assert not any(it.startswith(("crates/one/", "crates/two/", "edits/two/")) for it in found)
    odd = merged_list("odd: one\none:\ntwo: one\n", "one", ["one", "two"])
    assert odd == "odd: one\none:\n", odd
    early = merged_list("low:\none: low\nmid: one\ntwo: one low\n", "one", ["one", "two"])
    assert early == "low:\none: low\nmid: one\n", early
    for changed, wanted in STOPS:
        with tempfile.TemporaryDirectory() as room:
            try:
                merge(tree_of(TREE | changed, room), "one", ["two", "three"])
            except Refused as amiss:
                assert str(amiss) == wanted, f"it says {amiss}, and not {wanted}"
            else:
                raise AssertionError(f"it doesn't stop: {wanted}")
    print("self-check: as it should be")


def main() -> int:
    parser = argparse.ArgumentParser(description=__doc__, formatter_class=argparse.RawDescriptionHelpFormatter)
    parser.add_argument("crate", nargs="*", help="INTO, and then each FROM")
    parser.add_argument("--top", type=Path, default=Path("."), help="the top of the repository (here)")
    parser.add_argument("--check", action="store_true", help="write nothing, and say what would be written")
    parser.add_argument("--self-check", action="store_true", help="try the tool on small trees of its own")
    words = parser.parse_args()
    if words.self_check:
        self_check()
        return 0
    into, *sources = words.crate or parser.error("no crates are named")
    try:
        plan = merge(words.top, into, sources)
    except Refused as amiss:
        print(f"merge_crates: {amiss}", file=sys.stderr)
        return 2
    if words.check:
        print(*(it.relative_to(words.top) for it in plan.written), sep="\n")
        return 0
    carry_out(plan)
    print(*still_named(words.top, Names(into, [into, *sources])), sep="\n")
    print(f"{len(plan.written)} files written; now tools/fold_imports.py and rt fmt", file=sys.stderr)
    return 0


if __name__ == "__main__":
    sys.exit(main())
