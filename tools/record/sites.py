"""Names of call sites: where they lie in the program's files, and their function and line where these can be told."""

from __future__ import annotations

import struct
import subprocess
from bisect import bisect_right
from collections.abc import Iterable
from pathlib import Path
from typing import NamedTuple

from recorded import Log

MOST_SECONDS = 60
ELF, LOADED = b"\x7fELF\x02\x01", 1
ELF_HEAD, SEGMENT = struct.Struct("<32xQ14xHH"), struct.Struct("<IIQQQQ16x")


class Part(NamedTuple):
    """A part of a file that the program had in its memory, and when that was written down."""

    first: int
    end: int
    offset: int
    file: Path
    written: float


class Place(NamedTuple):
    """A file, and an address in it as its symbols and lines have it."""

    file: Path
    address: int


def read_parts(log: Log) -> list[Part]:
    """Where the program's files lay in its memory at its end; nothing where it didn't come to write it."""
    maps = Path(f"{log.path}.maps")
    try:
        lines, written = maps.read_text(errors="replace").splitlines(), maps.stat().st_mtime
    except OSError:
        return []
    parts = []
    for line in lines:
        words = line.split(None, 5)
        if len(words) == 6 and words[5].startswith("/"):
            first, end = (int(word, 16) for word in words[0].split("-"))
            parts.append(Part(first, end, int(words[2], 16), Path(words[5]), written))
    return parts


def address_of(file: Path, offset: int, written: float) -> int | None:
    """The address at which the program headers want this byte of the file; none where the file doesn't tell, or isn't
    the one that ran, since it was changed after that."""
    try:
        if file.stat().st_mtime > written:
            return None
        with file.open("rb") as bytes_:
            head = bytes_.read(64)
            if len(head) < 64 or not head.startswith(ELF):
                return None
            start, size, count = ELF_HEAD.unpack_from(head)
            bytes_.seek(start)
            segments = bytes_.read(size * count)
    except OSError:
        return None
    for at in range(0, len(segments) - SEGMENT.size + 1, size or SEGMENT.size):
        sort, _, from_, address, _, length = SEGMENT.unpack_from(segments, at)
        if sort == LOADED and from_ <= offset < from_ + length:
            return address + offset - from_
    return None


def said_by(command: list[str], given: str = "") -> list[str]:
    """The lines that a tool of the machine writes; none where it isn't there, fails or is too slow."""
    try:
        made = subprocess.run(command, input=given, stdout=subprocess.PIPE, stderr=subprocess.DEVNULL, text=True,
                              errors="replace", timeout=MOST_SECONDS)
    except (OSError, subprocess.TimeoutExpired):
        return []
    return made.stdout.splitlines()


def symbols_of(file: Path) -> list[tuple[int, int, str]]:
    """The functions of the file by address, each with its end."""
    symbols = set()
    for more in ([], ["-D"]):
        for line in said_by(["nm", "-C", "-S", "--defined-only", *more, str(file)]):
            words = line.split(None, 3)
            if len(words) == 4 and words[2] in "tTwWiu":
                symbols.add((int(words[0], 16), int(words[0], 16) + int(words[1], 16), words[3].split("@")[0]))
    return sorted(symbols)


def functions(file: Path, addresses: list[int]) -> dict[int, str]:
    """The function and the line of each address of the file, as far as its debug information or its symbols tell them.
    A site is the address behind its call, so the byte before it is looked up. Without debug information addr2line names
    the function before the address, however far that is."""
    said = said_by(["addr2line", "-f", "-C", "-e", str(file)], "".join(f"{each - 1:#x}\n" for each in addresses))
    told, symbols = {}, None
    for address, function, line in zip(addresses, said[::2] or ["??"] * len(addresses), said[1::2] or ["??:0"] * len(addresses)):
        is_known = not line.startswith("??") and not line.split()[0].endswith((":?", ":0"))
        if not is_known:
            symbols = symbols_of(file) if symbols is None else symbols
            at = bisect_right(symbols, (address - 1, 1 << 64, ""))
            function = symbols[at - 1][2] if at and symbols[at - 1][1] >= address else ""
        told[address] = " ".join(filter(None, [function, Path(line.split(" ")[0]).name if is_known else ""]))
    return told


def names_of(sites: Iterable[int], log: Log) -> dict[int, str]:
    """Each call site as an address in a file, with its function and line, as far as they are known."""
    parts, names, places = read_parts(log), {}, {}
    for site in sites:
        names[site] = f"{site:#x}"
        for part in parts:
            if part.first <= site < part.end:
                offset = site - part.first + part.offset
                address = address_of(part.file, offset, part.written)
                names[site] = f"byte {offset:#x} of {part.file.name}" if address is None else f"{part.file.name}+{address:#x}"
                if address is not None:
                    places[site] = Place(part.file, address)
    for file in {place.file for place in places.values()}:
        told = functions(file, sorted({place.address for place in places.values() if place.file == file}))
        for site, place in places.items():
            if place.file == file and told.get(place.address):
                names[site] += f" {told[place.address]}"
    return names
