#!/usr/bin/env python3
"""Runs the kit's `rt` with these words, with the sum of each crate's files made once, and its processors kept busy.

For each library `rt` makes a sum of the crate's files and of the sums of those that it stands on, and so reads a crate
once for each way that leads down to it: for pas_top 9,557 times, which takes half a minute of one processor, twice.
Here a crate's sum is kept until the command ends. So no file of the crates may change meanwhile: tools/prove runs it on
a copy. The proofs that the end waits for get more processes, and a program's compilers run side by side (lanes.py). The
verdict is the kit's: what is checked and how is its code, and where the kit makes the sum, or runs its tasks, by other
code than is known here, that part is left as it is. Where it isn't Python, the words go to it as they are.

    tools/kit.py WORD..    as rt WORD..
"""

from __future__ import annotations

import functools
import hashlib
import importlib.machinery
import importlib.util
import inspect
import os
import shutil
import subprocess
import sys
from pathlib import Path
from types import ModuleType

import lanes

# The code by which rattle-kit-13b makes the sum: of the files of the crate and of those below it, which no run writes.
KNOWN_SUMS = {"bd65806bc231da43"}
# The code by which rattle-kit-13f builds a library and tells that it is built: by the crate's sum, in a file beside it.
KNOWN_BUILDS = {"d0ae00b6b66174f0"}
# The code by which rattle-kit-13f runs its tasks side by side, and that by which it has a program compiled.
KNOWN_LANES = {"eeec54b828605f7f"}
KNOWN_COMPILING = {"dff3deaca24f2f18"}


def find() -> str:
    """Where the kit's rt is."""
    found = shutil.which("rt")
    if not found:
        sys.exit("there is no rt, the kit's command, in PATH")
    return os.path.realpath(found)


@functools.lru_cache(maxsize=None)
def knows(word: str) -> bool:
    """Whether the kit's rt tells of this word in its help: kits differ."""
    words = [find(), "help"]
    told = subprocess.run(words, stdin=subprocess.DEVNULL, stdout=subprocess.PIPE, stderr=subprocess.STDOUT, text=True)
    return word in told.stdout


def command(*words: str) -> list[str]:
    """How rt is called where nobody changes a file of the crates before it ends."""
    return [sys.executable, str(Path(__file__).resolve()), *words]


def load(path: str) -> ModuleType | None:
    """The kit's rt as a module, if it is one of Python."""
    try:
        if not Path(path).read_bytes().startswith(b"#!/usr/bin/env python3"):
            return None
        loader = importlib.machinery.SourceFileLoader("kit_rt", path)
        made = importlib.util.module_from_spec(importlib.util.spec_from_loader("kit_rt", loader))
        sys.modules["kit_rt"] = made
        loader.exec_module(made)
        return made
    except (ImportError, OSError, SyntaxError):
        return None


def code_sum(of: type | ModuleType, *names: str) -> str:
    """A sum of the code of these methods or functions, or nothing where one isn't there."""
    found = [getattr(of, name, None) for name in names]
    return hashlib.sha256("".join(map(inspect.getsource, found)).encode()).hexdigest()[:16] if all(found) else ""


@functools.lru_cache(maxsize=None)
def building() -> ModuleType | None:
    """The kit's rt, if it tells that a library is built by code that is known."""
    kit = load(find())
    crate = getattr(getattr(kit, "rtlib", None), "Crate", object)
    return kit if code_sum(crate, "is_built", "build_rlib") in KNOWN_BUILDS else None


def mark_built(top: Path) -> list[str]:
    """Marks the libraries that the gate built below this folder as built, and returns their names.

    The gate builds a library of what its functions promise, over libraries that are built so, and leaves it unmarked, as
    it fits no others. So they are taken together: those of a crate and of all below it."""
    kit = building()
    crates = kit.rtlib.crates_below(str(top)) if kit else []
    built = [it for it in crates if it.makes_rlib() and (Path(it.rlib) / "format").is_file()]
    for it in built:
        (Path(it.rlib).parent / "stamp").write_text(it.stamp())
    return [it.name for it in built]


def keep_sums(crate: type) -> bool:
    """Has each crate's sum kept, if it is made by code that is known."""
    if code_sum(crate, "stamp") not in KNOWN_SUMS:
        return False
    made = crate.stamp
    sums: dict[tuple[str, str], str] = {}

    def stamp(self) -> str:
        of = self.folder, repr((self.said, self.has_c))
        if of not in sums:
            sums[of] = made(self)
        return sums[of]

    crate.stamp = stamp
    return True


def fill_processors(kit: ModuleType) -> bool:
    """Has the kit's processors kept busy where it runs tasks and compilers by code that is known, and tells of it."""
    crate = getattr(kit, "Crate", object)
    known = [code_sum(kit, "in_lanes") in KNOWN_LANES, code_sum(crate, "ci", "compile_by") in KNOWN_COMPILING]
    if known[0]:
        lanes.widen(kit)
    if known[1]:
        lanes.compile_at_once(crate)
    return any(known)


def main() -> int:
    words = sys.argv[1:]
    if not words or words[0] in ("-h", "--help"):
        print(__doc__, end="")
        return 0 if words else 2
    path = find()
    kit = load(path)
    # Both, whichever is known.
    is_known = kit and [keep_sums(getattr(getattr(kit, "rtlib", None), "Crate", object)), fill_processors(kit)]
    if not is_known or not any(is_known) or not hasattr(kit, "main"):
        os.execv(path, [path, *words])
    return kit.main(words)


if __name__ == "__main__":
    sys.exit(main())
