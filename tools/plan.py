"""In which order `tools/prove` proves crates, with how many jobs, and how long that takes."""

from __future__ import annotations

import re
import sys
from dataclasses import dataclass, field
from pathlib import Path

import machine

ROOT = Path(__file__).resolve().parent.parent
MOST_JOBS = 4
# The time by the clock of a proof with so many jobs, where it is 1 with one job.
TIME_WITH_JOBS = {1: 1.0, 2: 0.8, 3: 0.72, 4: 0.65}
# The time of a crate that the table of times doesn't have.
USUAL_SECONDS = 40.0
# What these crates take by the clock beyond their proofs, with one process at work: a program is compiled twice.
MORE_SECONDS = {"pas": 85.0}


@dataclass
class Crate:
    """A crate, all that it stands on, the seconds that one processor takes to prove it, those that come on top, and
    those of the longest chain of crates that begins with it, each of which stands on the one before."""

    name: str
    line: str
    uses: list[str]
    below: set[str] = field(default_factory=set)
    seconds: float = USUAL_SECONDS
    more: float = 0.0
    chain: float = 0.0

    @property
    def folder(self) -> Path:
        return ROOT / "crates" / self.name

    @property
    def is_program(self) -> bool:
        return (self.folder / "src/main.rt").is_file()

    def is_built(self) -> bool:
        """Whether it was built with its work, and nothing in the folder is younger: a guess, for the estimate alone."""
        built = self.folder / "out/rlib/stamp"
        files = [file for part in ("src", "specs", "proofs") for file in (self.folder / part).rglob("*")]
        has_work = (self.folder / "out/incremental").is_dir()
        return has_work and built.is_file() and all(file.stat().st_mtime <= built.stat().st_mtime for file in files)


def read_crates(top: str) -> dict[str, Crate]:
    """The crate of that name and those below it, each after those that it stands on."""
    known: dict[str, Crate] = {}
    for line in (ROOT / "crates.txt").read_text().splitlines():
        head, _, uses = line.partition("#")[0].partition(":")
        if head.strip():
            known[head.split()[0]] = Crate(head.split()[0], line, uses.split())
    if top not in known:
        sys.exit(f"crates.txt has no crate {top}")
    wanted: dict[str, Crate] = {}

    def want(crate: Crate) -> None:
        if not crate.folder.is_dir():
            sys.exit(f"crates.txt names {crate.name}, and there is no crates/{crate.name}")
        # The names that are no lines of the file are the kit's libraries.
        own = [known[name] for name in crate.uses if name in known]
        for it in own:
            if it.name not in wanted:
                want(it)
        crate.below = {name for it in own for name in (it.name, *it.below)}
        wanted[crate.name] = crate

    want(known[top])
    return wanted


def table() -> str:
    """The table of times in docs/GATE.md, and what is said below it of the machine."""
    text = (ROOT / "docs/GATE.md").read_text()
    return text.partition("<!-- times by crate -->")[2].partition("<!-- end -->")[0]


def seconds_by_crate() -> dict[str, float]:
    """What the proof of each crate took there."""
    return {name: float(seconds) for name, seconds in re.findall(r"(?m)^\| `(\w+)` \| (\d+) ", table())}


def set_seconds(crates: dict[str, Crate], anew: bool) -> None:
    """Gives each crate its time by the table in docs/GATE.md, as this machine would take it, and that of its chain: from
    nothing, or over the libraries that are built."""
    there = re.search(r"compares\s+machines\s+takes\s+([\d.]+)\s+seconds", table())
    slower = machine.loop_seconds() / float(there[1]) if there else 1.0
    times = seconds_by_crate()
    changed: set[str] = set()
    for crate in crates.values():
        if not anew and crate.is_built() and not crate.below & changed:
            crate.seconds = 1.0
        else:
            changed.add(crate.name)
            crate.seconds = slower * (times.get(crate.name) or USUAL_SECONDS)
            crate.more = slower * MORE_SECONDS.get(crate.name, 0.0)
    for crate in reversed(list(crates.values())):
        above = [it.chain for it in crates.values() if crate.name in it.below]
        crate.chain = crate.seconds + crate.more + max(above, default=0.0)


class Plan:
    """Which crates are begun next, and with how many jobs."""

    def __init__(self, crates: dict[str, Crate], processors: int) -> None:
        self.left = sorted(crates.values(), key=lambda it: -it.chain)
        self.processors = processors
        self.running: dict[str, tuple[Crate, int]] = {}
        self.done: set[str] = set()

    def begin(self) -> list[tuple[Crate, int]]:
        begun = []
        ready = [it for it in self.left if it.below <= self.done]
        while ready:
            free = self.processors - sum(jobs for _, jobs in self.running.values())
            if free <= 0:
                break
            crate = ready.pop(0)
            is_longest = all(crate.chain >= other.chain for other, _ in self.running.values())
            # Processors that no other crate waits for shorten the proof that the end waits for.
            jobs = max(1, min(MOST_JOBS, free - len(ready))) if is_longest else 1
            self.left.remove(crate)
            self.running[crate.name] = crate, jobs
            begun.append((crate, jobs))
        return begun

    def end(self, crate: Crate, is_proved: bool) -> None:
        del self.running[crate.name]
        if is_proved:
            self.done.add(crate.name)


def estimate(plan: Plan) -> float:
    """The seconds by the clock that the plan takes."""
    now: float = 0.0
    ends: dict[str, tuple[float, Crate]] = {}
    while True:
        for crate, jobs in plan.begin():
            ends[crate.name] = now + crate.seconds * TIME_WITH_JOBS[jobs] + crate.more, crate
        if not ends:
            return now
        now, crate = ends.pop(min(ends, key=lambda it: ends[it][0]))
        plan.end(crate, True)
