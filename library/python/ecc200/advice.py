"""Refusals in words: what is wrong with a grid, and what to do about it."""
from __future__ import annotations

import functools
import math
import operator
from typing import Callable, Iterable, List, NamedTuple, Optional, Tuple

from . import core
from .core import BorderLimit, Code, Extent, Reading, Refused, Rows, Shape, Size

__all__ = ["ANEW", "NEARER", "Righted", "bytes_in", "in_words", "reduced", "righted", "sizes_of", "why_not_written"]

_BEGINS = {
    233: "a part of a message that several symbols hold (structured append)",
    234: "an instruction to the reader that scans it (reader programming)",
    236: "a macro 05",
    237: "a macro 06",
    240: "EDIFACT",
    241: "an ECI, which says how the bytes behind it are meant",
}
_WITHOUT_USUAL = "isn't read with --usual: leave out --usual"
_DAMAGE = ("a codeword that no encoder writes there, so the symbol comes from a faulty encoder or was damaged into the "
           "codewords of another message")

NEARER = "Take it from nearer, in even light and flat"
ANEW = "scan it again, from nearer, in even light and flat, or print it anew"


def _border(why: Refused, rows: Rows, extent: Extent, doubtful: Optional[Rows]) -> str:
    count = sum(place.kind in (core.Kind.BORDER_DARK, core.Kind.BORDER_LIGHT)
                for row in core.places(len(rows), len(rows[0])) for place in row)
    accept = ""
    if _reading(rows, "auto", extent, doubtful) is not None:
        accept = "; --border auto accepts them, since each block has a correction left"
    elif _reading(rows, why.value, extent, doubtful) is not None:
        accept = f"; --border {why.value} accepts them, though some block has no correction left"
    return (f"{why.value} of the {count} modules of its border have the wrong colour: {ANEW}{accept}. The left "
            "column and the bottom row must be dark, the top row and the right column alternate")


def _block(why: Refused, rows: Rows, has_doubts: bool) -> str:
    size = core._size_of(len(rows), len(rows[0]))
    block = f"block {why.place + 1} of its {size.blocks}"
    if has_doubts:
        return (f"{block} can't be restored: a wrong codeword takes two of its {size.check_codewords // size.blocks} "
                f"check codewords, and one with a doubtful module takes one. {ANEW.capitalize()}")
    return (f"{block} has more than {size.limit} wrong codewords, the most that can be corrected: {ANEW}. "
            "Where the modules are known that may be wrong, --doubtful restores twice as many")


def in_words(why: Refused, rows: Rows, extent: Extent = Extent.WIDE, doubtful: Optional[Rows] = None) -> str:
    """Why a grid, of which these modules are doubtful, isn't read at this extent, and what to do."""
    code, place = why.code, why.place
    if code == Code.SIZE:
        return (f"no symbol has {len(rows)} rows of {len(rows[0])} modules; 'ecc200 sizes' lists those that there are. "
                "Is it cut out exactly, with one character or pixel for each module?")
    if code == Code.DOUBT:
        return f"the grid of its doubtful modules hasn't {len(rows)} rows of {len(rows[0])} modules, as it has"
    if code == Code.BORDER:
        return _border(why, rows, extent, doubtful)
    if code == Code.BLOCK:
        return _block(why, rows, doubtful is not None)
    if code == Code.LEFT_OUT:
        beyond = f"only stands in front of all else: {_DAMAGE}" if extent == Extent.WIDE else _WITHOUT_USUAL
        return f"codeword {place} begins {_BEGINS[why.value]}, which {beyond}"
    return f"{core._library.ecc200_code_words(int(code)).decode()}, codeword {place}: {_DAMAGE}"


def sizes_of(shape: Shape) -> List[Size]:
    """The sizes of a shape."""
    return [size for size in core.sizes()
            if shape == Shape.ANY or (size.rows == size.columns) == (shape == Shape.SQUARE)
            and not (shape == Shape.RECTANGLE and size.extension)]


def bytes_in(size: Size) -> int:
    """How many bytes of any kind a symbol of this size holds: its data codewords but a latch, and the length that says
    that they go to the end."""
    return size.data_codewords - 2


def _capitals_in(size: Size) -> int:
    """How many capitals a symbol of this size holds: three in two of its data codewords, behind a latch."""
    pairs, one = divmod(size.data_codewords - 1, 2)
    return 3 * pairs + one


def why_not_written(why: Refused, wanted: Optional[Tuple[int, int]] = None, shape: Optional[Shape] = None) -> str:
    """Why a message isn't written in this size, or in any of this shape, and what to do."""
    if why.code != Code.TOO_LONG:
        return str(why)
    if wanted is None:
        size = max(sizes_of(shape or Shape.SQUARE), key=lambda size: size.data_codewords)
        holder = f"any {'rectangle' if shape == Shape.EXTENDED else 'symbol'} holds"
        if shape == Shape.RECTANGLE:
            holder = "any rectangle of ISO/IEC 16022 holds; --shape extended has larger ones"
    else:
        size, holder = core._size_of(*wanted), f"a symbol of {wanted[0]}x{wanted[1]} holds"
    return (f"the message is longer than {holder}: {2 * size.data_codewords} digits, {_capitals_in(size)} capitals, or "
            f"{bytes_in(size)} bytes of any kind; of the normal form {size.data_codewords} characters of ASCII that "
            "aren't digits")


# ---- Grids that could be read if they stood otherwise

class Righted(NamedTuple):
    """How a grid was changed so that it is read, in words; its rows then, and what they say."""
    how: str
    rows: Rows
    reading: Reading


def _cropped(rows: Rows) -> Tuple[Rows, str]:
    """Without a light margin."""
    dark = [number for number, row in enumerate(rows) if any(row)]
    if not dark:
        return rows, ""
    in_columns = functools.reduce(operator.or_, map(_as_number, rows)).to_bytes(len(rows[0]), "big")
    left, right = len(in_columns) - len(in_columns.lstrip(b"\0")), len(in_columns.rstrip(b"\0"))
    if (dark[-1] - dark[0] + 1, right - left) == (len(rows), len(rows[0])):
        return rows, ""
    return [row[left:right] for row in rows[dark[0]:dark[-1] + 1]], "has a light margin"


def _as_number(row: bytes) -> int:
    """A row as one number, a byte a module: what is done to it is done to all modules at once."""
    return int.from_bytes(row, "big")


def _common(places: Iterable[int], length: int) -> int:
    """The greatest divisor that places of a row of this length, and the length, have in common."""
    return functools.reduce(math.gcd, places, length)


def reduced(rows: Rows) -> Tuple[Rows, str]:
    """With one character for each module, where several in a row and several rows stand for one."""
    numbers = [_as_number(row) for row in rows]
    begun = functools.reduce(operator.or_, (number ^ number >> 8 for number in numbers)).to_bytes(len(rows[0]), "big")
    across = _common((column for column, is_new in enumerate(begun) if is_new), len(begun))
    down = _common((row for row in range(1, len(rows)) if rows[row] != rows[row - 1]), len(rows))
    if across * down <= 1:
        return rows, ""
    return [row[::across] for row in rows[::down]], f"has {across} by {down} characters or pixels for each module"


def _turned(rows: Rows) -> Rows:
    """By a quarter, against the clock."""
    return [bytes(column) for column in zip(*rows)][::-1]


def _reading(rows: Rows, border_limit: BorderLimit, extent: Extent,
             doubtful: Optional[Rows] = None) -> Optional[Reading]:
    try:
        return core.read(rows, border_limit, extent, doubtful)
    except Refused:
        return None


def _has_size(rows: Rows) -> bool:
    """Whether some symbol has so many rows and columns, as they stand or turned."""
    size = len(rows), len(rows[0])
    return bool({size, size[::-1]} & core._sizes_by_dimensions().keys())


_INVERSE = bytes((1, 0)) + bytes(254)
_TURNS = ("", "is turned to the right by a quarter", "is upside down", "is turned to the left by a quarter")


def _stands(rows: Rows, read: Callable[[Rows], Optional[Reading]]) -> Optional[Righted]:
    """Upright, if some turn or mirror makes it readable."""
    for mirrored in ("", "is mirrored"):
        for turn in _TURNS:
            reading = read(rows)
            if reading is not None:
                return Righted(" and ".join(filter(None, (mirrored, turn))), rows, reading)
            rows = _turned(rows)
        rows = [row[::-1] for row in rows]
    return None


def righted(rows: Rows, border_limit: BorderLimit = None, extent: Extent = Extent.WIDE) -> Optional[Righted]:
    """How a grid that isn't read as it stands is read: without its margin, with one character a module, inverted,
    turned or mirrored."""
    if not rows or len({len(row) for row in rows}) != 1:
        return None
    inverse = [row.translate(_INVERSE) for row in rows]
    for colour, grid in (("", rows), ("is light on dark", inverse)):
        cut, margin = _cropped(grid)
        small, many = reduced(cut)
        if not _has_size(small):
            continue
        stands = _stands(small, lambda some: _reading(some, border_limit, extent))
        if stands is not None:
            how = " and ".join(filter(None, (many, margin, colour, stands.how)))
            return Righted(how, stands.rows, stands.reading) if how else None
    return None
