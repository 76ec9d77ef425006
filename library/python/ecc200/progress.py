"""How far long work is, on standard error, where that is a terminal."""
from __future__ import annotations

import sys
import time

__all__ = ["Progress"]


class Progress:
    """Counts what is done. After a second a line says so, and is written over twice a second; it is removed at the
    end."""

    def __init__(self, what: str, every: float = 0.5, begin: float = 1.0) -> None:
        self.what, self.every, self.done, self.width = what, every, 0, 0
        self.begun = time.monotonic()
        self.next = self.begun + begin
        self.shows = sys.stderr.isatty()

    def step(self) -> None:
        """One more is done."""
        self.done += 1
        if self.shows and time.monotonic() >= self.next:
            now = time.monotonic()
            self.next = now + self.every
            line = f"{self.done:,} {self.what}, {self.done / (now - self.begun):,.0f} a second"
            self.width = max(self.width, len(line))
            print(f"\r{line:{self.width}}", end="", file=sys.stderr, flush=True)

    def end(self) -> None:
        """Removes the line."""
        if self.width:
            print("\r" + " " * self.width + "\r", end="", file=sys.stderr, flush=True)
            self.width = 0
