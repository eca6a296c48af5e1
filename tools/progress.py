"""How far long work is, on a terminal; nowhere else."""

from __future__ import annotations

import sys
import time

SECONDS = 0.2


class Progress:
    """Says on standard error, where that is a terminal, how much of the work is done."""

    def __init__(self, what: str, total: int) -> None:
        self.what, self.total = what, max(total, 1)
        self.is_told = sys.stderr.isatty()
        self.next = time.monotonic() + SECONDS

    def tell(self, done: int) -> None:
        """To be called now and then, with what is done of the total."""
        if self.is_told and time.monotonic() >= self.next:
            print(f"\r{self.what} {100 * done // self.total}%", end="", file=sys.stderr, flush=True)
            self.next = time.monotonic() + SECONDS

    def end(self) -> None:
        """Takes the line away again."""
        if self.is_told:
            print("\r\x1b[K", end="", file=sys.stderr, flush=True)
