#!/usr/bin/env python3
"""Makes a crate of some modules of another: tools/split_crate.py FROM INTO PART..

Each PART is a file of crates/FROM: src/NAME.rt, with its folder and the proofs of its functions, specs/NAME.antt or
proofs/NAME.antt. They move into INTO, which is a new crate or one that this tool began, and on which FROM stands then.
A module's path stays what it was but for the crate.

Over all crates and edits `Rattle.FROM.` becomes `Rattle.INTO.`, and `crate::` or `FROM::` becomes `INTO::`, where what
follows has moved; an import of both becomes two. In what moved, a function, type or constant that is named outside INTO
is `pub` instead of `pub(crate)`, with the fields and methods that were, and so are the modules and files of lemmas that
are named outside. What FROM's root passes on of a moved module, and such a module that is public, it passes on from
INTO, so that its callers change nothing but for definitions. An edit goes with its files. crates.txt gets a line for
INTO, before FROM's, with what it names of FROM's libraries, and FROM's and others' lines name what they name then.
Paths of files in documents and scripts follow. Then tools/fold_imports.py and `rt fmt` lay the files out; the README
and the head of src/lib.rt are written by hand.

The tool stops, writes nothing and says which, where what moves needs what stays, where an edit is of both, where a root
has other items than merge_crates.py knows, where a file or module isn't there or INTO has one already.

Status: 0; 2 where it stopped.
"""

from __future__ import annotations

import argparse
import re
import shutil
import sys
import tempfile
from pathlib import Path
from typing import Iterator, NamedTuple

sys.dont_write_bytecode = True
import use_trees
from merge_crates import CODE, EDITED, LEMMAS, README, ROOT, ROW, Refused
from merge_crates import brought_once, files_of, root_of, text_of, texts_below, tree_of

Module = tuple[str, str]  # a part of a crate, and a module of it
Texts = dict[str, str]
Outside = dict[Module, set[str]]

PART = re.compile(r"(?P<part>src|specs|proofs)/(?P<name>[\w+]+)\.(?:rt|antt)")
ITEM = re.compile(r"(?m)^pub\(crate\)(?= (?:const fn|fn|struct|enum|trait|type|const|static) (\w+))")
INSIDE = re.compile(r"(?m)^( +)pub\(crate\) ")


def module_of(path: str) -> Module:
    """The module in which a name stands, by its path below Rattle.CRATE."""
    part, *names = path.split(".")
    if part == "specs" and names and names[0] in ("declared", "contracts"):
        return "src", names[1] if len(names) > 1 else ""
    name = names[0] if names else ""
    return ("src", name) if part == "proofs" and not name[:1].isupper() else (part, name)


def module_of_file(name: str) -> Module:
    """The module of a file, by its path in the crate."""
    part, first, *_ = [*name.split("/"), ""]
    first = first.rsplit(".", 1)[0] if "/" not in name.partition("/")[2] else first
    return ("src", first) if part == "proofs" and not first[:1].isupper() else (part, first)


class Names:
    """Rewrites what names the modules that moved from one crate to another."""

    def __init__(self, source: str, into: str, moved: set[Module]) -> None:
        self.source, self.into, self.moved = source, into, moved
        self.brought = re.compile(
            rf"(?m)^(?P<head> *(?:ghost |unfoldable |pub )*use )Rattle\.{source}\.(?P<path>[^\s{{;]*?)\.?"
            r"(?:\{(?P<names>.*)\})(?P<end>;?)$"
        )
        self.told = re.compile(rf"\bRattle\.{source}\.(?P<path>[^\s{{}}(),;]+)")
        self.grouped = re.compile(rf"(?m)^(?P<head> *(?:pub )?use )(?P<crate>crate|{source})::\{{(?P<names>[^}}]*)\}};")

    def crate_of(self, module: Module) -> str:
        return self.into if module in self.moved else self.source

    def in_lemmas(self, text: str) -> str:
        """The text with each path of antt's where it is now."""

        def group(found: re.Match) -> str:
            of: dict[str, list[use_trees.Leaf]] = {}
            for leaf in use_trees.leaves_in(found["path"], found["names"]):
                crate = self.crate_of(module_of(f"{leaf.module}.{leaf.name}"))
                of.setdefault(crate, []).append(leaf._replace(module=f"Rattle.{crate}.{leaf.module}"))
            return "\n".join(f"{found['head']}{use_trees.told(own)}{found['end']}" for own in of.values())

        text = self.brought.sub(group, text)
        return self.told.sub(lambda it: f"Rattle.{self.crate_of(module_of(it['path'].rstrip('.')))}.{it['path']}", text)

    def in_code(self, text: str, own: str, roots: dict[str, str]) -> str:
        """The code of this crate, where FROM's root passes on these names of these modules."""
        crate_of = lambda name: self.crate_of(("src", name))
        told = lambda crate: "crate" if crate == own else crate

        def group(found: re.Match) -> str:
            of: dict[str, list[str]] = {}
            for name in (it.strip() for it in found["names"].split(",") if it.strip()):
                first, _, rest = name.partition("::")
                # A name of the root stays a name of the root, but for what moved: that can't name FROM.
                module = first if rest else roots.get(first, "") if own == self.into else ""
                name = name if rest or not module else f"{module}::{name}"
                of.setdefault(told(crate_of(module) if module else self.source), []).append(name)
            return "\n".join(f"{found['head']}{it}::{{{', '.join(names)}}};" for it, names in of.items())

        here = "crate" if own in (self.source, self.into) else self.source
        text = self.grouped.sub(lambda it: group(it) if it["crate"] == here else it[0], text)

        def path(found: re.Match) -> str:
            first = found["first"]
            if own == self.into and first in roots and ("src", first) not in self.moved:
                return f"{told(crate_of(roots[first]))}::{roots[first]}::{first}"
            return f"{told(crate_of(first))}::{first}"

        after = re.sub(rf"(?<![\w:]){here}::(?P<first>\w+)", path, text)
        return brought_once(after, told(self.into)) if after != text else after

    def in_prose(self, text: str) -> str:
        """The text in which files that moved are named where they are."""
        file = re.compile(rf"\b{self.source}/((?:src|specs|proofs)/[\w+/.-]+)")
        return file.sub(lambda it: f"{self.crate_of(module_of_file(it[1]))}/{it[1]}", text)


def cited(text: str, source: str, is_own: bool) -> Iterator[tuple[Module, str]]:
    """The modules of this crate that a text of any crate names, each with what it names of it."""
    names = Names(source, source, set())
    for found in names.brought.finditer(text):
        for leaf in use_trees.leaves_in(found["path"], found["names"]):
            yield module_of(f"{leaf.module}.{leaf.name}"), leaf.name
    for found in names.told.finditer(names.brought.sub("", text)):
        yield module_of(found["path"].rstrip(".")), found["path"].split(".")[-1]
    here = "crate" if is_own else source
    for found in re.finditer(rf"(?<![\w:]){here}::(\w+)(?:::(?:\{{([^}}]*)\}}|(\w+)))?", text):
        for name in (found[2] or found[3] or "").split(","):
            yield ("src", found[1]), name.strip().split("::")[0].split(" as ")[0]


class Split(NamedTuple):
    """What a split writes, by path, and the files that it takes away."""

    written: dict[Path, str]
    gone: list[Path]


def parts_of(words: list[str], files: dict[str, str]) -> set[Module]:
    moved = set()
    for word in words:
        found = PART.fullmatch(word)
        if not found or word not in files or word in (ROOT, *LEMMAS):
            raise Refused(f"there is no {word} to move")
        moved.add((found["part"], found["name"]))
    return moved


def check_below(source: str, own: dict[str, str], moved: set[Module]) -> None:
    """Stops where what moves names what stays."""
    wrong = set()
    for name, text in own.items():
        if module_of_file(name) in moved:
            for module, what in cited(text, source, True):
                there = f"{module[0]}/{module[1]}"
                if module not in moved and any(it.startswith((f"{there}.", f"{there}/")) for it in own):
                    wrong.add(f"{name} needs {what} of {there}")
    if wrong:
        raise Refused("what moves needs what stays:\n" + "\n".join(sorted(wrong)))


def named_outside(source: str, moved: set[Module], own: Texts, others: dict[str, Texts]) -> Outside:
    """What is named of the modules that move by what doesn't."""
    staying = [text for name, text in own.items() if module_of_file(name) not in moved]
    foreign = [text for its in others.values() for text in its.values()]
    outside: Outside = {}
    for is_own, texts in ((True, staying), (False, foreign)):
        for text in texts:
            for module, what in cited(text, source, is_own):
                if module in moved:
                    outside.setdefault(module, set()).add(what)
    return outside


def made_public(text: str, named: set[str]) -> str:
    """The code in which what is named outside is public, with the fields and methods that its own crate could name."""
    text = ITEM.sub(lambda it: "pub" if it[1] in named else it[0], text)
    return INSIDE.sub(r"\1pub ", text) if named else text


class Cut(NamedTuple):
    """What moves from one crate into another, and what is named of it outside."""

    source: str
    into: str
    moved: set[Module]
    outside: Outside

    def roots(self, text: str, there: str) -> tuple[str, str]:
        """FROM's root and INTO's."""
        root, other = root_of(f"{self.source}/{ROOT}", text), root_of(f"{self.into}/{ROOT}", there)
        is_moved = lambda name: ("src", name) in self.moved
        modules = dict(other.modules)
        for name, line in root.modules.items():
            if is_moved(name):
                if name in modules:
                    raise Refused(f"{self.into} has a module {name} already")
                is_public = line.startswith("pub mod") or ("src", name) in self.outside
                modules[name] = re.sub(r"(?:pub(?:\([\w ]+\))? )?mod ", "pub mod " if is_public else "mod ", line)
        below = lambda found: f"pub use {self.into}::{found[1]}" if is_moved(found[1]) else found[0]
        passed = [re.sub(r"^pub use (\w+)", below, it) for it in root.passed_on.values()]
        public = [name for name, line in root.modules.items() if is_moved(name) and "pub mod" in line]
        passed += [f"pub use {self.into}::{name};" for name in public]
        stay = [line for name, line in root.modules.items() if not is_moved(name)]
        docs = [*(other.docs or [f"//! What {self.source} stands on."]), *(other.marks or root.marks)]
        own = [docs, [modules[it] for it in sorted(modules)], sorted(other.passed_on.values())]
        laid = lambda its: "\n\n".join("\n".join(it) for it in its if it) + "\n"
        return laid([[*root.docs, *root.marks], stay, sorted(passed)]), laid(own)

    def lemmas(self, path: str, text: str, there: str) -> tuple[str, str]:
        """FROM's list of such files and INTO's."""
        part, stay, go = path.split("/")[0], [], there.splitlines()
        for line in text.splitlines():
            found = re.fullmatch(r"(?:pub )?mod (\w+)", line)
            if line and not found:
                raise Refused(f"{path} has another line: {line}")
            if found and (part, found[1]) in self.moved:
                is_public = line.startswith("pub") or (part, found[1]) in self.outside
                go.append(f"pub mod {found[1]}" if is_public else line)
            elif line:
                stay.append(line)
        return "".join(f"{it}\n" for it in stay), "".join(f"{it}\n" for it in go)

    def moves(self, name: str, text: str) -> bool:
        """Whether a file of FROM, or an edit of it, goes into INTO."""
        if not name.endswith(".edit"):
            return module_of_file(name) in self.moved
        sides = {module_of_file(it) in self.moved for it in EDITED.findall(text)}
        if len(sides) > 1:
            raise Refused(f"{name} edits what moves and what stays")
        return True in sides


def libraries_named(texts: Iterator[str], among: list[str]) -> list[str]:
    whole = "\n".join(texts)
    return [it for it in among if re.search(rf"\b{it}::|\bRattle\.{it}\.", whole)]


def split_list(text: str, source: str, into: str, after: dict[str, dict[str, str]]) -> str:
    """The text of crates.txt, by the code that each crate that names INTO or FROM has then."""
    lines, seen = [], False
    rows = {found["name"]: found for line in text.splitlines() if (found := ROW.fullmatch(line))}
    if source not in rows:
        raise Refused(f"crates.txt has no {source}")
    if any(rows[it]["options"].strip() for it in (source, into) if it in rows):
        raise Refused(f"crates.txt has options of {source}")
    codes = lambda crate: (it for name, it in after[crate].items() if name.endswith((".rt", ".antt")))
    for line in text.splitlines():
        found = ROW.fullmatch(line)
        if not found or found["name"] == into:
            lines += [] if found else [line]
            continue
        name, needs = found["name"], found["needs"].split()
        if name == source:
            own = rows[into]["needs"].split() if into in rows else []
            below = libraries_named(codes(into), [*needs, *(it for it in own if it not in needs)])
            lines.append(f"{into}: {' '.join(it for it in below if it != into)}".rstrip())
        if name in after and (name == source or source in needs):
            place = 0 if name == source else needs.index(source) + 1
            needs = [*needs[:place], into, *needs[place:]] if into not in needs else needs
            needs = libraries_named(codes(name), needs)
        lines.append(f"{name}{found['options']}: {' '.join(needs)}".rstrip())
    return "".join(f"{it}\n" for it in lines)


class Writing:
    """Gathers what a split writes, and takes away."""

    def __init__(self, top: Path, cut: Cut, root: str, there: Texts) -> None:
        self.top, self.cut, self.names = top, cut, Names(cut.source, cut.into, cut.moved)
        passed_on = root_of(f"{cut.source}/{ROOT}", root).passed_on
        of = {names: re.split(r"\W+", line.removeprefix("pub use "))[0] for names, line in passed_on.items()}
        # What FROM's root passes on, by its names, each with its module.
        self.passed_on = {name: module for names, module in of.items() for name in names}
        self.written: dict[Path, str] = {}
        self.gone: list[Path] = []
        self.after: dict[str, Texts] = {cut.source: {}, cut.into: dict(there)}

    def put(self, crate: str, name: str, text: str, part: str = "crates") -> None:
        text = self.names.in_lemmas(text) if name.endswith(CODE) else text
        if name.endswith((".rt", ".edit")) and name != ROOT:
            text = self.names.in_code(text, crate, self.passed_on)
        if part == "crates":
            self.after.setdefault(crate, {})[name] = text
        self.written[self.top / part / crate / name] = text

    def put_own(self, name: str, text: str, there: Texts) -> None:
        """A file of FROM, of which INTO has these."""
        source, into = self.cut.source, self.cut.into
        stay, go = text, ""
        if name == ROOT:
            stay, go = self.cut.roots(text, there.get(ROOT, ""))
        elif name in LEMMAS:
            stay, go = self.cut.lemmas(name, text, there.get(name, ""))
        elif self.cut.moves(name, text):
            if name in there:
                raise Refused(f"{into} has {name} already")
            named = self.cut.outside.get(module_of_file(name), set())
            stay, go = "", made_public(text, named) if name.startswith("src/") else text
        if stay or text == stay:
            self.put(source, name, stay)
        else:
            self.gone.append(self.top / "crates" / source / name)
        if go or not stay and text != stay:
            self.put(into, name, go)

    def put_edits(self) -> None:
        source, into = self.cut.source, self.cut.into
        for name, text in texts_below(self.top / "edits" / source).items():
            moves = self.cut.moves(f"edits/{source}/{name}", text)
            self.put(into if moves else source, name, text, "edits")
            self.gone += [self.top / "edits" / source / name] if moves else []

    def put_documents(self) -> None:
        for path in files_of(self.top):
            if path.suffix not in CODE and path.name != Path(__file__).name:
                if text := self.written.get(path) or text_of(path):
                    self.written[path] = self.names.in_prose(text)

    def split(self) -> Split:
        was = {path: path.read_text(encoding="utf-8") for path in self.written if path.is_file()}
        return Split({path: text for path, text in self.written.items() if was.get(path) != text}, self.gone)


def split(top: Path, source: str, into: str, words: list[str]) -> Split:
    folder = top / "crates" / source
    if not folder.is_dir() or source == into:
        raise Refused(f"there is no crates/{source}, or it is INTO")
    files, there = texts_below(folder), texts_below(top / "crates" / into)
    moved = parts_of(words, files)
    inside = {name: text for name, text in files.items() if name.startswith(("src/", "specs/", "proofs/"))}
    own = {name: text for name, text in inside.items() if name not in LEMMAS}
    check_below(source, {name: text for name, text in own.items() if name != ROOT}, moved)
    crates = sorted(it for it in (top / "crates").iterdir() if it.name != source and it.is_dir())
    others = {it.name: texts_below(it) for it in crates}
    cut = Cut(source, into, moved, named_outside(source, moved, own, others))
    writing = Writing(top, cut, files[ROOT], there)
    for name, text in files.items():
        writing.put_own(name, text, there)
    if README not in there:
        writing.put(into, README, f"# `{into}`\n")
    writing.put_edits()
    for crate, its in others.items():
        for name, text in its.items():
            if name.endswith(CODE) and crate != into:
                writing.put(crate, name, text)
    listed = top / "crates.txt"
    writing.written[listed] = split_list(listed.read_text(encoding="utf-8"), source, into, writing.after)
    writing.put_documents()
    return writing.split()


def carry_out(plan: Split) -> None:
    for path in plan.gone:
        path.unlink()
        while not any(path.parent.iterdir()):
            path = path.parent
            path.rmdir()
    for path, text in plan.written.items():
        path.parent.mkdir(parents=True, exist_ok=True)
        path.write_text(text, encoding="utf-8")


# ---- the tool on a tree of its own
TREE = {
    "crates.txt": "# Low\nlow:\nkit:\n# Top\nwhole: low kit\nabove: whole low\nbeside: low\n",
    "docs/PAGE.md": "`whole/src/a.rt` and `whole/src/b.rt`, `whole/specs/A.antt`.\n",
    "crates/low/src/lib.rt": "#![tactic(auto)]\n",
    "crates/whole/README.md": "# `whole`\n",
    "crates/whole/src/lib.rt": "//! Whole.\n#![tactic(auto)]\n\npub mod a;\nmod b;\n\n"
    "pub use a::{alpha, Other};\npub use b::beta;\n",
    "crates/whole/src/a.rt": "ghost use Rattle.whole.specs.A.{x};\nuse low::y;\n\npub(crate) struct One {\n"
    "    pub(crate) field: u8,\n}\n"
    "pub fn alpha() {}\npub(crate) fn own() {}\n",
    "crates/whole/src/b.rt": "ghost use Rattle.whole.specs.{A.x, B.y};\n"
    "ghost use Rattle.whole.specs.declared.a.One.{One};\nuse crate::a::{One, alpha};\n"
    "use kit::z;\n",
    "crates/whole/specs/Lib.antt": "pub mod A\npub mod B\n",
    "crates/whole/specs/A.antt": "use Rattle.whole.specs.declared.a.One.{One}\n",
    "crates/whole/specs/B.antt": "use Rattle.whole.specs.{A.x, declared.a.One.One as It}\n",
    "crates/whole/proofs/Lib.antt": "mod Laws\nmod More\n",
    "crates/whole/proofs/Laws.antt": "use Rattle.whole.specs.A.{x}\n",
    "crates/whole/proofs/More.antt": "use Rattle.whole.proofs.{Laws.law, More.own}\n",
    "crates/whole/proofs/a/alpha/Answers.antt": "use Rattle.whole.proofs.a.alpha.Goals as goal\n"
    "use Rattle.whole.proofs.Laws.{law}\n",
    "crates/above/src/lib.rt": "ghost use Rattle.whole.specs.{A.x, B.y};\nuse whole::{alpha, beta};\nuse low::y;\n",
    "crates/beside/src/lib.rt": "use low::y;\nuse crate::{a, b};\n",
    "edits/whole/less.edit": "file: src/a.rt\nold: alpha\nnew: beta\n",
    "edits/whole/more.edit": "file: src/b.rt\nold: One\nnew: Two\n",
}
PARTS = ["src/a.rt", "specs/A.antt", "proofs/Laws.antt"]
AFTER = {
    "crates.txt": "# Low\nlow:\nkit:\n# Top\nparts: low\nwhole: parts kit\nabove: whole parts low\nbeside: low\n",
    "docs/PAGE.md": "`parts/src/a.rt` and `whole/src/b.rt`, `parts/specs/A.antt`.\n",
    "crates/low/src/lib.rt": TREE["crates/low/src/lib.rt"],
    "crates/parts/README.md": "# `parts`\n",
    "crates/parts/src/lib.rt": "//! What whole stands on.\n#![tactic(auto)]\n\npub mod a;\n",
    "crates/parts/src/a.rt": "ghost use Rattle.parts.specs.A.{x};\nuse low::y;\n\npub struct One {\n"
    "    pub field: u8,\n}\n"
    "pub fn alpha() {}\npub(crate) fn own() {}\n",
    "crates/parts/specs/Lib.antt": "pub mod A\n",
    "crates/parts/specs/A.antt": "use Rattle.parts.specs.declared.a.One.{One}\n",
    "crates/parts/proofs/Lib.antt": "pub mod Laws\n",
    "crates/parts/proofs/Laws.antt": "use Rattle.parts.specs.A.{x}\n",
    "crates/parts/proofs/a/alpha/Answers.antt": "use Rattle.parts.proofs.a.alpha.Goals as goal\n"
    "use Rattle.parts.proofs.Laws.{law}\n",
    "crates/whole/README.md": "# `whole`\n",
    "crates/whole/src/lib.rt": "//! Whole.\n#![tactic(auto)]\n\nmod b;\n\npub use b::beta;\n"
    "pub use parts::a::{alpha, Other};\npub use parts::a;\n",
    "crates/whole/src/b.rt": "ghost use Rattle.parts.specs.A.{x};\nghost use Rattle.whole.specs.B.{y};\n"
    "ghost use Rattle.parts.specs.declared.a.One.{One};\n"
    "use parts::a::{One, alpha};\nuse kit::z;\n",
    "crates/whole/specs/Lib.antt": "pub mod B\n",
    "crates/whole/specs/B.antt": "use Rattle.parts.specs.{A.x, declared.a.One.One as It}\n",
    "crates/whole/proofs/Lib.antt": "mod More\n",
    "crates/whole/proofs/More.antt": "use Rattle.parts.proofs.Laws.{law}\nuse Rattle.whole.proofs.More.{own}\n",
    "crates/above/src/lib.rt": "ghost use Rattle.parts.specs.A.{x};\nghost use Rattle.whole.specs.B.{y};\n"
    "use whole::{alpha, beta};\nuse low::y;\n",
    "crates/beside/src/lib.rt": TREE["crates/beside/src/lib.rt"],
    "edits/parts/less.edit": TREE["edits/whole/less.edit"],
    "edits/whole/more.edit": TREE["edits/whole/more.edit"],
}
# What stops it, by a change of the tree, and what it says then.
STOPS = [
    ({"crates/whole/specs/A.antt": "use Rattle.whole.specs.B.{y}\n"}, "what moves needs what stays:\n"
    "specs/A.antt needs y of specs/B"),
    ({"crates/whole/src/a.rt": "use crate::b::beta;\n"}, "what moves needs what stays:\nsrc/a.rt needs beta of src/b"),
    ({"edits/whole/less.edit": "file: src/a.rt\nfile: src/b.rt\n"
    ""}, "edits/whole/less.edit edits what moves and what stays"),
    ({"crates/whole/proofs/Lib.antt": "use it\n"}, "proofs/Lib.antt has another line: use it"),
    ({"crates/parts/specs/A.antt": ""}, "parts has specs/A.antt already"),
    ({"crates.txt": "low:\n"}, "crates.txt has no whole"),
]


def self_check() -> None:
    """Splits a small crate, and sees that each stop stops it."""
    with tempfile.TemporaryDirectory() as room:
        top = tree_of(TREE, room)
        carry_out(split(top, "whole", "parts", PARTS))
        found = texts_below(top)
        differ = sorted(name for name in found | AFTER if found.get(name) != AFTER.get(name))
        assert not differ, {name: found.get(name) for name in differ}
    with tempfile.TemporaryDirectory() as room:
        top = tree_of(TREE, room)
        carry_out(split(top, "whole", "parts", ["specs/A.antt", "src/a.rt", "proofs/Laws.antt"][:2] + PARTS[2:]))
        carry_out(split(top, "whole", "parts", ["proofs/More.antt"]))
        assert (top / "crates/parts/proofs/Lib.antt").read_text() == "pub mod Laws\nmod More\n"
        assert (top / "crates.txt").read_text() == AFTER["crates.txt"], (top / "crates.txt").read_text()
    for changed, wanted in [*STOPS, ({}, "there is no src/none.rt to move")]:
        with tempfile.TemporaryDirectory() as room:
            try:
                split(tree_of(TREE | changed, room), "whole", "parts", PARTS if changed else ["src/none.rt"])
            except Refused as amiss:
                assert str(amiss) == wanted, f"it says {amiss}, and not {wanted}"
            else:
                raise AssertionError(f"it doesn't stop: {wanted}")
    print("self-check: as it should be")


def main() -> int:
    parser = argparse.ArgumentParser(description=__doc__, formatter_class=argparse.RawDescriptionHelpFormatter)
    parser.add_argument("word", nargs="*", help="FROM, INTO, and then each PART")
    parser.add_argument("--top", type=Path, default=Path("."), help="the top of the repository (here)")
    parser.add_argument("--check", action="store_true", help="write nothing, and say what would be written")
    parser.add_argument("--self-check", action="store_true", help="try the tool on a small tree of its own")
    words = parser.parse_args()
    if words.self_check:
        self_check()
        return 0
    if len(words.word) < 3:
        parser.error("FROM, INTO and a PART are needed")
    source, into, *parts = words.word
    try:
        plan = split(words.top, source, into, parts)
    except Refused as amiss:
        print(f"split_crate: {amiss}", file=sys.stderr)
        return 2
    if words.check:
        print(*(it.relative_to(words.top) for it in plan.written), sep="\n")
        return 0
    carry_out(plan)
    print(f"{len(plan.written)} files written; now tools/fold_imports.py and rt fmt", file=sys.stderr)
    return 0


if __name__ == "__main__":
    sys.exit(main())
