"""Symbols on a terminal: two modules in a character, of half blocks."""
from __future__ import annotations

import os
import sys
from typing import List

from .core import Rows
from .spelling import plain

__all__ = ["blocks", "can_show", "columns", "is_terminal", "say"]

_LIGHT = {(0, 0): "\u2588", (0, 1): "\u2580", (1, 0): "\u2584", (1, 1): " "}  # what is light is drawn
_WHITE_ON_BLACK, _AS_BEFORE = "\x1b[97;40m", "\x1b[0m"


def say(words: str) -> None:
    """Says something on standard error, in a line."""
    print(f"ecc200: {plain(words)}", file=sys.stderr, flush=True)


def is_terminal() -> bool:
    """Whether standard output is a terminal."""
    return sys.stdout.isatty()


def can_show() -> bool:
    """Whether the charset of standard output has half blocks."""
    try:
        return bool("".join(_LIGHT.values()).encode(sys.stdout.encoding))
    except UnicodeEncodeError:
        return False


def columns() -> int:
    """How many characters a line of the terminal has."""
    return os.get_terminal_size(sys.stdout.fileno()).columns


def blocks(rows: Rows, quiet: int, coloured: bool) -> List[str]:
    """The lines of a symbol with its quiet zone: light modules are drawn, dark ones left. `coloured`: white on black,
    whatever the terminal's colours are."""
    wide = [bytes(quiet) + row + bytes(quiet) for row in rows]
    width = len(wide[0])
    wide = [bytes(width)] * quiet + wide + [bytes(width)] * quiet
    lines = ["".join(map(_LIGHT.__getitem__, zip(*pair))) for pair in zip(wide[::2], wide[1::2])]
    return [_WHITE_ON_BLACK + line + _AS_BEFORE for line in lines] if coloured else lines
