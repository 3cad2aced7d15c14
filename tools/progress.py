"""Shows on a terminal how far a long run is."""
from __future__ import annotations

import sys
import time
from typing import Callable

Say = Callable[[str], None]
EVERY = 0.2  # seconds


class Progress:
    """A line on standard error that is written anew; nothing where that is no terminal. A context manager."""

    def __init__(self) -> None:
        self.is_shown = sys.stderr.isatty()
        self.begin = self.last = time.monotonic()
        self.width = 0

    def __enter__(self) -> Progress:
        return self

    def __exit__(self, *_: object) -> None:
        if self.width:
            self.write("")
            self.width = 0

    def say(self, what: str) -> None:
        """Shows what is being done, with the seconds so far, a few times a second at most."""
        now = time.monotonic()
        if self.is_shown and now - self.last >= EVERY:
            self.last = now
            self.write(f"{what}, {now - self.begin:.0f} s")

    def write(self, line: str) -> None:
        """Writes the line over the one before."""
        sys.stderr.write(f"\r{line.ljust(self.width)}" + ("" if line else "\r"))
        sys.stderr.flush()
        self.width = len(line)


def silent(_: str) -> None:
    """Shows nothing."""
