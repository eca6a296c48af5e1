"""What `tools/prove` and `tools/gate-times` ask of the machine: its processors, its memory, and how fast it is."""

from __future__ import annotations

import os
import re
import time
import zlib
from pathlib import Path

GROUP = Path("/sys/fs/cgroup")


def number_in(file: Path, pattern: str) -> int | None:
    """The number that the pattern finds in the file, if there are both."""
    try:
        found = re.search(pattern, file.read_text())
    except OSError:
        return None
    return int(found[1]) if found else None


def processor_count() -> int:
    """The processors that this process may run on, or fewer where its control group has a quota of their time."""
    count = len(os.sched_getaffinity(0))
    quota = number_in(GROUP / "cpu.max", r"^(\d+)")
    period = number_in(GROUP / "cpu.max", r" (\d+)")
    return max(1, min(count, quota // period)) if quota and period else count


def free_gigabytes() -> float:
    """The memory that is free, within the control group's limit."""
    free = 1024 * (number_in(Path("/proc/meminfo"), r"MemAvailable:\s+(\d+)") or 0)
    limit = number_in(GROUP / "memory.max", r"^(\d+)")
    held = number_in(GROUP / "memory.stat", r"(?m)^anon (\d+)")
    return min(free, limit - held) / 1e9 if limit and held is not None else free / 1e9


def loop_seconds() -> float:
    """The seconds that a processor takes to pack a fixed megabyte: the least of three, to compare machines by."""
    text = b"".join(b"%d " % (number * number % 9973) for number in range(200_000))
    times = []
    for _ in range(3):
        began = time.process_time()
        zlib.compress(text, 9)
        times.append(time.process_time() - began)
    return min(times)
