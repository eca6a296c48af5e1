#!/usr/bin/env python3
"""Finds the tables of a type: what has a clause for each of its variants, or for several, and so is looked at when a
variant comes or goes.

A table is a definition or lemma with clauses by variants, a `match` of the code with the goals of its arms, a family
whose constructors name variants, or a list of them. They are printed as Markdown, by file in the order in which the
checker asks for them: the crates as crates.txt has them, in a crate the definitions, the code and the proofs, and of
definitions and proofs each file after those that it uses. In a file the tables with a clause for each variant stand
first. Of definitions and code those that name one variant alone are told too, of proofs those that name two.

Without names all types are told. With --lacking only the tables are told that don't name this variant, first those that
name each other one: what is still to do. With --write the lists in docs/CHANGING.md are made anew, each between its two
marks; tests/tables.py says where they aren't those that this script prints."""
import argparse
import functools
import pathlib
import re
import sys
import textwrap
from collections import defaultdict
from typing import NamedTuple

sys.dont_write_bytecode = True
import use_trees

TOP = pathlib.Path(__file__).resolve().parent.parent
CRATES = TOP / "crates"
PAGE = TOP / "docs/CHANGING.md"
# The types, each with the file that has it.
TYPES = {
    "Step": "pas_steps/src/step.rt",
    "StepKind": "pas_steps/specs/Kinds.antt",
    "Item": "pas_trace/src/item.rt",
    "Wish": "pas_trace/src/item.rt",
    "What": "pas_trace/src/plan.rt",
    "Act": "pas_trace/specs/Acts.antt",
    "Event": "pas_profile/src/event.rt",
    "Record": "pas_records/src/record.rt",
    "Said": "pas_records/src/record.rt",
    "Kind": "pas_profile/src/directory.rt",
    "Route": "pas_profile/src/directory.rt",
}
WIDTH = 120
BEGIN, END = "<!-- tables of ", "<!-- end of tables -->"
LIST = re.compile(rf"{BEGIN}(\w+) -->\n(?:(?!{BEGIN}).)*?{END}", re.S)

WORD = re.compile(r"[A-Za-z_][\w'-]*(?:\.[A-Za-z_][\w'-]*)*")
SIGNATURE = re.compile(r"\s*(?:(?:pub|abbrev|unfoldable) )*([\w'-]+) :(?: |$)")
FAMILY = re.compile(r"\s*(?:pub )?data ([\w'-]+)\b.* where\s*$")
USE = re.compile(r"(?m)^use ([\w.]+?)(?: as (\w+)|\.\{([^}]*)\})")
GROUP = re.compile(r"(?m)^use ([\w.]+)\.\{(.*)\}$")
PASSED = re.compile(r"(?m)^use Rattle\.(\w+)\.proofs\.Common\.\{([^}]*)\}$")
STRING = re.compile(r"""b?'[{}()\[\]]'|"(?:\\.|[^"\\])*\"""", re.S)


class Type(NamedTuple):
    name: str
    file: str
    modules: tuple
    variants: list


def top_parts(text, separator):
    """The text's parts between these separators, of those that stand in no bracket."""
    parts, depth, begin, at = [], 0, 0, 0
    while at < len(text):
        depth += (text[at] in "([{") - (text[at] in ")]}")
        if depth == 0 and text.startswith(separator, at):
            parts.append(text[begin:at])
            begin = at = at + len(separator)
        else:
            at += 1
    return [*parts, text[begin:]]


def block_at(text, brace):
    """What stands in the braces that begin here."""
    depth = 0
    for at in range(brace, len(text)):
        depth += (text[at] == "{") - (text[at] == "}")
        if depth == 0:
            return text[brace + 1 : at]
    sys.exit(f"tables.py: a brace isn't shut: {text[brace:brace + 60]!r}")


def spread(group):
    """A line for each name of an import, behind the module that declares it."""
    return "\n".join(f"use {use_trees.told([leaf])}" for leaf in use_trees.leaves_in(group[1], group[2]))


@functools.cache
def text_of(path):
    """A file without its comments and with a line for each import, and code without its strings."""
    mark = "//" if path.suffix == ".rt" else "--"
    text = re.sub(rf"(?m)(?:^|(?<=\s)){mark}.*$", "", path.read_text(encoding="utf-8"))
    return STRING.sub("_", text) if path.suffix == ".rt" else PASSED.sub(declared, GROUP.sub(spread, text))


@functools.cache
def common_of(crate):
    """Of each name that a crate's own Common passes on: the module that it has it from."""
    path = CRATES / crate / "proofs/Common.antt"
    lines = path.read_text(encoding="utf-8").replace("pub use ", "use ") if path.is_file() else ""
    return {name: module for module, alias, name in USE.findall(GROUP.sub(spread, lines))}


def declared(line):
    """The line that brings a name from its module, for one that brings it from the Common of a crate."""
    module = common_of(line[1]).get(line[2].partition(" as ")[0])
    return f"use {module}.{{{line[2]}}}" if module else line[0]


def type_of(name):
    """The type of this name, with its variants in order."""
    file = TYPES[name]
    crate, stem = file.split("/")[0], pathlib.Path(file).stem
    text = text_of(CRATES / file)
    if file.endswith(".rt"):
        begin = re.search(rf"\benum {name} \{{", text)
        body = block_at(text, begin.end() - 1) if begin else ""
        module, variants = f"declared.{stem}.{name}", [WORD.match(it.strip())[0] for it in top_parts(body, ",") if it.strip()]
    else:
        begin = re.search(rf"\bdata {name} : .* where\n", text)
        body = re.split(r"\n(?=\S)", text[begin.end() :])[0] if begin else ""
        module, variants = stem, re.findall(r"(?m)^\s+([\w'-]+) :", body)
    if not variants:
        sys.exit(f"tables.py: crates/{file} has no type {name}")
    return Type(name, file, (f"Rattle.{crate}.specs.{module}",), variants)


def words_for(kind, text, file):
    """The words that name variants in a file of definitions or proofs, each with its variant."""
    own = file == kind.file
    words, qualifiers = {it: it for it in kind.variants if own}, {kind.name} if own else set()
    for module, alias, names in USE.findall(text):
        if module.removesuffix(".TheVariants") not in kind.modules:
            continue
        if alias and module.endswith(".TheVariants"):
            qualifiers.add(alias)
        for name in filter(None, (it.strip() for it in names.split(","))):
            known, _, called = name.partition(" as ")
            if known in kind.variants:
                words[called or known] = known
            elif known == kind.name:
                qualifiers.add(called or known)
    words.update((f"{qualifier}.{it}", it) for qualifier in qualifiers for it in kind.variants)
    return words


def named_in(text, words):
    return {words[it] for it in WORD.findall(text) if it in words}


def tables_in_proofs(text, words):
    """The variants that each definition, lemma, family or list of a file names, in the file's order."""
    found, known, family, margin = defaultdict(set), set(), None, 0
    for line in text.splitlines():
        indent = len(line) - len(line.lstrip())
        if family and line.strip() and indent <= margin:
            family = None
        if begin := FAMILY.match(line):
            family, margin = begin[1], indent
        elif family:
            found[family] |= named_in(line.partition(" : ")[2], words)
        elif begin := SIGNATURE.match(line):
            known.add(begin[1])
        elif (first := line.split()[:1]) and first[0] in known:
            left, *right = top_parts(f"{line.strip()} ", " = ")
            if right:
                found[first[0]] |= named_in(left, words)
            if right and left == first[0] and len(listed := top_parts(right[0], "∷")) > 1:
                found[left] |= {words[it.strip()] for it in listed if it.strip() in words}
    return found


def patterns_of(body):
    """The patterns of a match with this body."""
    patterns, rest = [], body
    while len(parts := top_parts(rest, "=>")) > 1:
        patterns.append(parts[0])
        rest = "=>".join(parts[1:]).lstrip()
        if rest.startswith("{"):
            rest = rest[len(block_at(rest, 0)) + 2 :].lstrip().removeprefix(",")
        else:
            rest = ",".join(top_parts(rest, ",")[1:])
    return patterns


def tables_in_code(text, kind):
    """The variants that the matches of each function of a file name."""
    found = defaultdict(set)
    functions = [(it.start(), it[1]) for it in re.finditer(r"\bfn (\w+)", text)]
    for match in re.finditer(r"\bmatch\b[^{};]*\{|\bmatches!\([^;{]*?,.*", text):
        patterns = patterns_of(block_at(text, match.end() - 1)) if match[0].endswith("{") else [match[0]]
        named = set(re.findall(rf"\b{kind.name}::(\w+)", " ".join(patterns)))
        if where := [name for at, name in functions if at < match.start()]:
            found[where[-1]] |= named & set(kind.variants)
    return found


@functools.cache
def files_of(name):
    """The files of a crate in the order in which the checker asks for them."""
    crate, ordered = CRATES / name, []
    for part, ending in (("specs", ".antt"), ("src", ".rt"), ("proofs", ".antt")):
        files = sorted((crate / part).rglob(f"*{ending}"))
        waiting = {it.relative_to(crate / part).with_suffix("").as_posix().replace("/", "."): it for it in files}

        def visit(module):
            path = waiting.pop(module)
            used = re.findall(rf"(?m)^use Rattle\.{name}\.{part}\.([\w.]+?)(?: as |\.\{{)", text_of(path))
            for other in used:
                if other in waiting:
                    visit(other)
            ordered.append(path)

        while waiting:
            visit(min(waiting))
    return ordered


def crates():
    lines = (TOP / "crates.txt").read_text(encoding="utf-8").splitlines()
    return [line.split(":")[0] for line in lines if ":" in line and not line.startswith("#")]


def tables_of(kind, lacking=None):
    """Each file with tables of the type: those with a clause for each variant, and the others; of those that lack one."""
    variants = set(kind.variants) - {lacking}
    for crate in crates():
        matching = set()
        for path in files_of(crate):
            text, file = text_of(path), path.relative_to(CRATES).as_posix()
            least = 2 if "/proofs/" in file else 1
            if path.suffix == ".rt":
                found = tables_in_code(text, kind) if f"{kind.name}::" in text else {}
                matching |= {(path.stem, name) for name, named in found.items() if named}
            else:
                found = tables_in_proofs(text, words_for(kind, text, file)) if any(it in text for it in kind.modules) or file == kind.file else {}
                if any(path.parts[-2] == function and stem in path.parts for stem, function in matching):
                    found["goals by arm"] = set(re.findall(r"\bin-([A-Z]\w*)", text)) & set(kind.variants)
            found = {name: named for name, named in found.items() if len(named) >= least and lacking not in named}
            all_named = [name for name, named in found.items() if named >= variants]
            some = [name for name in found if name not in all_named]
            if all_named or some:
                yield file, all_named, some


def markdown(name, lacking=None):
    """The tables of the type of this name, or those of them that lack a variant."""
    kind = type_of(name)
    rows = list(tables_of(kind, lacking))
    each, some = (sum(len(row[at]) for row in rows) for at in (1, 2))
    whole = f"each but `{lacking}`" if lacking else "each"
    parts = [f"`{name}` (`{kind.file}`): {len(kind.variants)} variants. Tables with a clause for {whole}: {each}, for some: {some}.\n"]
    for file, all_named, others in rows:
        listed = [", ".join(f"`{it}`".replace("`goals by arm`", "goals by arm") for it in names) for names in (all_named, others)]
        told = "; ".join(filter(None, (listed[0], f"some: {listed[1]}" if others else "")))
        parts.append(textwrap.fill(f"- `{file}`: {told}", WIDTH, subsequent_indent="  ", break_long_words=False, break_on_hyphens=False))
    return "\n".join([*parts, ""])


def amiss(page):
    """What is wrong with the marks of a page: each type has one list, which begins and ends."""
    names = [it[1] for it in LIST.finditer(page)]
    yield from (f"no list is made of the type {name}" for name in names if name not in TYPES)
    yield from (f"the type {name} has {names.count(name)} lists" for name in TYPES if names.count(name) != 1)
    if not page.count(BEGIN) == page.count(END) == len(names):
        yield f"{page.count(BEGIN)} lists begin, {page.count(END)} end, and {len(names)} do both"


def made_anew(page):
    """The page with each of its lists made anew, but for those of a type that isn't known."""
    return LIST.sub(lambda it: f"{BEGIN}{it[1]} -->\n\n{markdown(it[1])}\n{END}" if it[1] in TYPES else it[0], page)


def main():
    parser = argparse.ArgumentParser(description=__doc__, formatter_class=argparse.RawDescriptionHelpFormatter)
    parser.add_argument("type", nargs="*", metavar="TYPE", help=f"of {', '.join(TYPES)}")
    parser.add_argument("--lacking", metavar="VARIANT", help="only tables of the one TYPE that don't name this variant")
    parser.add_argument("--write", action="store_true", help="make the lists of docs/CHANGING.md anew")
    given = parser.parse_args()
    if unknown := [name for name in given.type if name not in TYPES]:
        parser.error(f"no list is made of the type {unknown[0]}")
    if given.lacking and (len(given.type) != 1 or given.lacking not in type_of(given.type[0]).variants):
        parser.error(f"--lacking {given.lacking} wants one type, which has this variant")
    if given.write:
        page = PAGE.read_text(encoding="utf-8")
        if faults := list(amiss(page)):
            sys.exit("\n".join(f"docs/CHANGING.md: {fault}" for fault in faults))
        PAGE.write_text(made_anew(page), encoding="utf-8")
    else:
        print("\n".join(markdown(name, given.lacking) for name in given.type or TYPES), end="")


if __name__ == "__main__":
    main()
