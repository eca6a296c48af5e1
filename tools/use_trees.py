"""Imports with braces, as Rust has them: `use Rattle.low.{specs.A.{one, two as zwei}, proofs.P.three}`.

What one brings is a list of leaves, and it is written by the tree of their paths: what two leaves share stands once."""

from __future__ import annotations

import re
from typing import Iterator, NamedTuple

Tree = dict  # below each word of a path what stands there; a name's end is None


class Leaf(NamedTuple):
    """One name that a file brings: where the import says it is, as library.part.module, and the name that it gets."""

    module: str
    name: str
    alias: str


def parts_of(names: str) -> Iterator[str]:
    """What stands between the commas of a pair of braces, without those of braces inside."""
    depth, part = 0, ""
    for sign in f"{names},":
        depth += (sign == "{") - (sign == "}")
        if sign != "," or depth:
            part += sign
        elif told := " ".join(part.split()):
            yield told
            part = ""
        else:
            part = ""


def leaf_of(path: str, told: str) -> Leaf:
    name, _, alias = told.partition(" as ")
    # What begins with a letter and ends in a dot is the path; dots of an operator are its own.
    below, last = re.fullmatch(r"((?:[^\W\d][\w'-]*\.)*)(.+)", name).groups()
    return Leaf(f"{path}.{below}".strip("."), last, alias)


def leaves_in(path: str, names: str) -> Iterator[Leaf]:
    """The leaves of an import of this path with these names in its braces."""
    for part in parts_of(names):
        below, brace, inner = part.partition(".{")
        if brace and part.endswith("}"):
            yield from leaves_in(f"{path}.{below}".strip("."), inner[:-1])
        else:
            yield leaf_of(path, part)


def tree_of(leaves: list[Leaf]) -> Tree:
    """The leaves by their paths, each part where it first stood."""
    tree: Tree = {}
    for leaf in leaves:
        below = tree
        for word in leaf.module.split("."):
            below = below.setdefault(word, {})
        # A module and a name in it may be called the same.
        below[leaf.name, leaf.alias] = None
    return tree


def in_order(tree: Tree, path: tuple[str, ...] = ()) -> Iterator[Leaf]:
    """The leaves of a tree: what shares a path stands together."""
    for key, below in tree.items():
        if below is None:
            yield Leaf(".".join(path), *key)
        else:
            yield from in_order(below, (*path, key))


def branches(tree: Tree) -> list[str]:
    """How each branch of a tree is written inside braces."""
    return [name_of(*key) if below is None else branch(key, below) for key, below in tree.items()]


def name_of(name: str, alias: str) -> str:
    return f"{name} as {alias}" if alias else name


def branch(path: str, tree: Tree) -> str:
    """A branch: the path of what is alone below it, and braces where several are."""
    inner = branches(tree)
    return f"{path}.{inner[0]}" if len(inner) == 1 else f"{path}.{{{', '.join(inner)}}}"


def told(leaves: list[Leaf]) -> str:
    """The path that all leaves share, and the braces with what stands below it."""
    path, tree = [], tree_of(leaves)
    while len(tree) == 1 and (below := next(iter(tree.items())))[1] is not None:
        path.append(below[0])
        tree = below[1]
    return f"{'.'.join(path)}.{{{', '.join(branches(tree))}}}"


def cut(head: str, leaves: list[Leaf], end: str, width: int) -> list[str]:
    """Lines with head, leaves and end, none wider than the width where it can be helped."""
    lines, line = [], []
    for leaf in in_order(tree_of(leaves)):
        if line and len(f"{head}{told([*line, leaf])}{end}") > width:
            lines.append(line)
            line = []
        line.append(leaf)
    return [f"{head}{told(it)}{end}" for it in [*lines, line]]
