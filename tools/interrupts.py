"""How the tools end where they are interrupted. It imports nothing that takes long, and so can be called before what does."""

from __future__ import annotations

import sys
from types import TracebackType

INTERRUPTED = 130


def end_quietly() -> None:
    """From now on an interrupt that nobody catches ends the tool with this status, and nothing is said."""
    sys.excepthook = tell


def tell(kind: type[BaseException], fault: BaseException, trace: TracebackType | None) -> None:
    if issubclass(kind, KeyboardInterrupt):
        sys.exit(INTERRUPTED)
    sys.__excepthook__(kind, fault, trace)
