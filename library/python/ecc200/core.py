"""Data Matrix ECC 200, the squares and rectangles of ISO/IEC 16022 and of its rectangular extension, ISO/IEC 21471:
read, write, normalise and inspect, by the shared library ecc200; found in pictures by the library ecc200_sample, where
that is installed.

    >>> rows = write(b"123456")
    >>> read(rows).data
    b'123456'

A grid is the rows of a symbol from the top, each with its modules from the left, without a quiet zone: true or 1 is
dark, false or 0 is light. A row is bytes, a list of numbers, or text of the characters 0 and 1. Taken as well are a
text with a row on each line, an array of two dimensions, what has `rows`, such as an encoded symbol, all modules of a
square in one bytes, and a Pillow picture with one pixel a module, whose light margin is left out. Functions return rows
as bytes, whose items are 1 and 0. A symbol stands upright: the solid column is on the left, the solid row at the
bottom.

The modules that may be wrong, as under a blot, are given as a grid of the same rows and columns in which they are 1: a
picture keeps its margin there, and one bytes may be those of a rectangle too. A codeword with such a module counts as
lost, of which twice as many can be restored as of wrong ones.

A message is its bytes, and whether FNC1 stands in front, which marks GS1 messages; further FNC1s are the byte 0x1D, GS.
To tell FNC1 from GS, use the items: 0 to 255, and FNC1. Text is written in ISO/IEC 8859-1 where that has it, else in
the charset whose symbol is smallest, unless one is named, and marked where readers would take its bytes for another
text.

Beside its message a symbol may have marks, which say how the bytes behind them are meant: each is how many items stand
before it, and the number of an ECI assignment, as (0, 26) for UTF-8 from the first byte on. And it may have a head:
"programming", for reader programming, or (part, of, a, b), for a part of what several symbols say together, which have
the two numbers of their file in common (structured append).

What can't be read or written raises Refused. All functions may be called from any number of threads, and let others run
meanwhile.

A picture, for `decode` and `find`, is Pillow's, or anything with a buffer or the array interface (numpy, OpenCV):
luminances, a byte each with 0 black, or booleans, true being light, or colours, for which Pillow is needed. Or it is
the file of a picture, given by its path, open, or as its bytes: Pillow opens it, and every page of it is looked at.

The shared library is looked for at the path in the environment variable ECC200_LIBRARY; if that isn't set, beside this
file, then where the system keeps its libraries. The sampler's, ECC200_SAMPLE_LIBRARY, is looked for in the same way
when it is first needed.
"""
from __future__ import annotations

import codecs
import ctypes
import enum
import functools
import io
import itertools
import math
import operator
import os
import re
import struct
import sys
import warnings
from typing import (TYPE_CHECKING, Any, Callable, Dict, Iterable, Iterator, List, Literal, NamedTuple, Optional,
                    Protocol, Sequence, Tuple, Type, TypeVar, Union, overload)

if TYPE_CHECKING:
    from .gs1 import Element

__all__ = ["ABI", "BorderLimit", "Code", "Corners", "End", "Extent", "FNC1", "Findings", "Form", "Found", "Grid",
           "Head", "Inspection", "Kind", "MOST_ITEMS", "Mark", "Message", "Place", "Profile", "Quality", "Reading",
           "Refused", "Rows", "SamplerMissing", "Shape", "Sides", "Size", "Unsure", "decode", "find", "has_sampler",
           "inspect", "luminance", "normal", "places", "read", "read_many", "sampler_fault", "sizes", "usual_limit",
           "version", "write"]

# ecc200.h: constants
ABI = 1
_MOST_MODULES = 20736
MOST_ITEMS = 3123
_MOST_MARKS = 779
_MOST_CODEWORDS = 2178
_MOST_BLOCKS = 10
_SIZE_COUNT = 48
FNC1 = 256
_BEYOND = 255
_ONE = 4
_NO_HEAD = 0
_PART = 1
_PROGRAMMING = 2
_USUAL_LIMIT = 0
_SURE_LIMIT = 1
_GIVEN_LIMIT = 3
# ecc200.h: end
_GS = 0x1D


class _Array(Protocol):
    """What numpy's arrays and Pillow's pictures have in common."""
    @property
    def __array_interface__(self) -> Dict[str, Any]: ...


Rows = List[bytes]


class _Symbol(Protocol):
    """What a symbol that was encoded and one that was found have in common."""
    @property
    def rows(self) -> Rows: ...


Grid = Union[str, bytes, bytearray, memoryview, Sequence[str], Sequence[bytes], Sequence[bytearray],
             Sequence[Sequence[int]], _Array, _Symbol]
Message = Union[str, bytes, bytearray, memoryview, Iterable[int]]
Mark = Tuple[int, int]
Head = Union[None, Literal["programming"], Tuple[int, int, int, int]]
# How many border modules may have the wrong colour: so many; as many as usual; or any number, if each block then leaves
# a correction unused, which shows that it is a symbol.
BorderLimit = Union[int, None, Literal["auto"]]
# Top left, top right, bottom right and bottom left of the upright symbol, in pixels from the picture's upper left.
Corners = Tuple[Tuple[float, float], ...]


class Profile(enum.IntEnum):
    """The normal form of a message: ASCII encodation, or one Base 256 segment where that is shorter."""
    # ecc200.h: profiles
    ASCII = 0
    SHORTER = 1
    # ecc200.h: end


class Form(enum.IntEnum):
    """The form in which something is written: a profile, or the encodations that take the smallest size."""
    # ecc200.h: forms
    ASCII = 0
    SHORTER = 1
    SMALLEST = 2
    # ecc200.h: end


class Shape(enum.IntEnum):
    """The sizes of which a symbol that is written has the smallest that holds it, by the number of modules: the
    squares; the rectangles of ISO/IEC 16022; these and those of ISO/IEC 21471; all."""
    # ecc200.h: shapes
    SQUARE = 0
    RECTANGLE = 1
    EXTENDED = 2
    ANY = 3
    # ecc200.h: end


class Extent(enum.IntEnum):
    """What is read: ASCII, C40, Text, X12 and Base 256; or these, EDIFACT, a macro 05 or 06 in front, an Upper Shift
    that waits at the end of a run, marks, heads, and the other dealing of 144 x 144. What USUAL reads WIDE reads as the
    same."""
    # ecc200.h: extents
    WIDE = 0
    USUAL = 1
    # ecc200.h: end


class Code(enum.IntEnum):
    """Why a symbol or a message is refused. ecc200.h explains `value` and `place` for each code."""
    # ecc200.h: codes
    SHAPE = 3
    SIZE = 4
    BORDER = 5
    BLOCK = 6
    RESERVED = 7
    LEFT_OUT = 8
    UPPER_SHIFT = 9
    TRIPLET = 10
    VALUE = 11
    LENGTH = 12
    UNFINISHED = 13
    TOO_LONG = 14
    ITEM = 15
    PROFILE = 16
    EXTENT = 17
    CHOICE = 18
    DOUBT = 19
    DESIGNATOR = 20
    APPEND = 21
    MARK = 22
    HEAD = 23
    LIMIT = 24
    # ecc200.h: end


class Refused(ValueError):
    """A symbol that can't be read, or a message that can't be written: the code, and its numbers."""

    def __init__(self, code: int, value: int = 0, place: int = 0) -> None:
        self.code, self.value, self.place = Code(code), value, place
        words = _library.ecc200_code_words(code).decode()
        super().__init__(f"{words} ({self.code.name}, value {value}, place {place})")

    def __reduce__(self) -> Tuple[Type["Refused"], Tuple[Any, ...]]:
        return type(self), (self.code, self.value, self.place)


def _side(rows: int, columns: int) -> int:
    """The side of a square."""
    if rows != columns:
        raise AttributeError(f"a rectangle of {rows} rows and {columns} columns has no side")
    return rows


class Reading(NamedTuple):
    """What a symbol says, and how much of it was wrong."""
    data: bytes                 # the message without an FNC1 in front; any other is the byte 0x1D
    gs1: bool                   # whether FNC1 stands in front
    items: Tuple[int, ...]      # the message item by item: 0 to 255, or FNC1
    corrected: Tuple[int, ...]  # for each block, how many of its codewords were corrected, those not counted that are
                                # erased, since a module of theirs is doubtful
    border_faults: int          # how many border modules that aren't doubtful have the wrong colour
    rows: int                   # how many rows of modules the symbol has
    columns: int                # how many modules each row has
    erased: Tuple[int, ...]     # for each block, how many of its codewords are erased
    left: Tuple[int, ...]       # for each block, how many of its check codewords are left: two were used for each that
                                # was corrected, and one for each erased one
    corners: Optional[Corners] = None  # where it was found, if that was in a picture
    marks: Tuple[Mark, ...] = ()  # each with how many items stand before it, and its number
    head: Head = None
    symbology: str = "]d1"      # the symbology identifier of ISO/IEC 15424, "]d1" to "]d6", of the codewords that were
                                # printed: symbols that say the same may have others
    dealing: int = 0            # 1 if the codewords are dealt by the other dealing of 144 x 144, else 0

    @property
    def size(self) -> Tuple[int, int]:
        """The rows and the columns."""
        return self.rows, self.columns

    @property
    def side(self) -> int:
        """Modules on a side of a square; a rectangle has none, and raises AttributeError."""
        return _side(self.rows, self.columns)

    @property
    def text(self) -> Optional[str]:
        """The message as text, in the charsets that its marks name; without a mark in UTF-8 where its bytes are that,
        else in ISO/IEC 8859-1. None where they are no text of these, as binary data."""
        return text_of(self.items, self.marks).text

    @property
    def charset(self) -> str:
        """The charset of the text, or several with commas between, by the names that Python has for them; "binary" or
        "ECI n" for the bytes behind a mark that names no charset."""
        return text_of(self.items, self.marks).charset

    @property
    def elements(self) -> Optional[List[Element]]:
        """The identifiers of GS1 data, each with its value. None where it is none, as a part of a structured append, or
        isn't as GS1's rules have it: `gs1.split` then says what is wrong."""
        from .gs1 import elements_of  # (which stands on this module; this file by itself has no elements)
        return None if self.head else elements_of(self.items)

    def __repr__(self) -> str:
        said = repr(self.data if self.text is None else self.text)
        return f"<Reading of {'GS1 data ' * self.gs1}{said}, {self.rows} rows and {self.columns} columns>"


class Inspection(NamedTuple):
    """The codewords of a symbol: of B blocks, block b has the codewords b, b + B, b + 2 B, .."""
    held: bytes                           # as they stand in the symbol, data codewords and then check codewords
    mended: bytes                         # with each block corrected; a block beyond correction is left as it is
    corrected: Tuple[Optional[int], ...]  # for each block as in a Reading, or None beyond correction
    border_faults: int                    # how many border modules that aren't doubtful have the wrong colour
    erased: Tuple[int, ...]               # for each block as in a Reading, or 0 beyond correction
    left: Tuple[int, ...]                 # the same
    dealing: int = 0                      # as in a Reading, of what is read
    designators: Tuple[Mark, ...] = ()    # as the marks of a Reading, but each with how many codewords stand before its
                                          # ECI, 241; none where a block is beyond correction, or WIDE reads nothing


class Kind(enum.IntEnum):
    """What a module is: the bit of a codeword, or part of the border or the fixed square, and then its colour."""
    # ecc200.h: kinds
    BIT = 1
    BORDER_LIGHT = 2
    BORDER_DARK = 3
    FIXED_LIGHT = 4
    FIXED_DARK = 5
    # ecc200.h: end


class Place(NamedTuple):
    """What a module is. For a bit, `codeword` counts from 0 and `bit` from 1, the highest, to 8; else both are 0."""
    kind: Kind
    codeword: int
    bit: int


class Size(NamedTuple):
    """A row of the table of sizes: rows and columns of modules of the symbol, of a region without its border, of
    regions, and of the mapping matrix, which is all regions together; codewords; the blocks into which they are dealt;
    how many wrong codewords can be corrected in each block; and 1 for a size of ISO/IEC 21471."""
    # ecc200.h: size
    rows: int
    columns: int
    region_rows: int
    region_columns: int
    regions_down: int
    regions_across: int
    mapping_rows: int
    mapping_columns: int
    data_codewords: int
    check_codewords: int
    blocks: int
    limit: int
    extension: int
    # ecc200.h: end

    @property
    def side(self) -> int:
        """Modules on a side of a square; a rectangle has none, and raises AttributeError."""
        return _side(self.rows, self.columns)


_u8, _u16, _u32 = ctypes.c_uint8, ctypes.c_uint16, ctypes.c_uint32


# ecc200.h: structs
class _Fault(ctypes.Structure):
    _fields_ = [("code", _u16), ("value", _u16), ("place", _u16)]


class _Scan(ctypes.Structure):
    _fields_ = [("rows", _u16), ("columns", _u16), ("limit", _u16), ("border_limit", _u16), ("extent", _u16)]


class _Head(ctypes.Structure):
    _fields_ = [("kind", _u16), ("part", _u16), ("parts", _u16), ("file", _u8 * 2)]


class _Mark(ctypes.Structure):
    _fields_ = [("number", _u32), ("place", _u32)]


class _ReadingOut(ctypes.Structure):
    _fields_ = [("fault", _Fault), ("rows", _u16), ("columns", _u16), ("border_faults", _u16), ("block_count", _u16),
                ("item_count", _u16), ("mark_count", _u16), ("identifier", _u16), ("dealing", _u16), ("head", _Head),
                ("corrected", _u8 * _MOST_BLOCKS), ("erased", _u8 * _MOST_BLOCKS), ("left", _u8 * _MOST_BLOCKS),
                ("marks", _Mark * _MOST_MARKS), ("items", _u16 * MOST_ITEMS)]


class _How(ctypes.Structure):
    _fields_ = [("form", _u16), ("shape", _u16), ("rows", _u16), ("columns", _u16), ("extent", _u16), ("head", _Head)]


class _SymbolOut(ctypes.Structure):
    _fields_ = [("fault", _Fault), ("rows", _u16), ("columns", _u16), ("modules", _u8 * _MOST_MODULES)]


class _InspectionOut(ctypes.Structure):
    _fields_ = [("fault", _Fault), ("rows", _u16), ("columns", _u16), ("border_faults", _u16), ("block_count", _u16),
                ("codeword_count", _u16), ("dealing", _u16), ("designator_count", _u16),
                ("designators", _Mark * _MOST_MARKS), ("corrected", _u8 * _MOST_BLOCKS), ("erased", _u8 * _MOST_BLOCKS),
                ("left", _u8 * _MOST_BLOCKS), ("held", _u8 * _MOST_CODEWORDS), ("mended", _u8 * _MOST_CODEWORDS)]


class _PlaceOut(ctypes.Structure):
    _fields_ = [("codeword", _u16), ("bit", _u8), ("kind", _u8)]


class _PlacesOut(ctypes.Structure):
    _fields_ = [("fault", _Fault), ("rows", _u16), ("columns", _u16), ("places", _PlaceOut * _MOST_MODULES)]


class _SizeOut(ctypes.Structure):
    _fields_ = [("rows", _u16), ("columns", _u16), ("region_rows", _u16), ("region_columns", _u16),
                ("regions_down", _u16), ("regions_across", _u16), ("mapping_rows", _u16), ("mapping_columns", _u16),
                ("data_codewords", _u16), ("check_codewords", _u16), ("blocks", _u16), ("limit", _u16),
                ("extension", _u16)]


class _SizesOut(ctypes.Structure):
    _fields_ = [("sizes", _SizeOut * _SIZE_COUNT)]
# ecc200.h: end


# The instructions of x86-64-v2, as Linux calls them: without one of these the library would end the process.
_INSTRUCTIONS = {"cx16", "lahf_lm", "popcnt", "sse4_1", "sse4_2", "ssse3"}


def _lacking(path: str) -> List[str]:
    """The instructions that the library needs and a processor hasn't, by a file like /proc/cpuinfo; none if that
    doesn't say."""
    try:
        with open(path) as file:
            flags = next((line.split(":")[1] for line in file if line.startswith("flags")), None)
    except OSError:
        flags = None
    return [] if flags is None else sorted(_INSTRUCTIONS - set(flags.split()))


_WINDOWS = os.name == "nt"


def _opened(name: str, needed: int, missing: Type[ImportError]) -> ctypes.CDLL:
    """The shared library of this name, with the version of its interface that is needed."""
    file = f"{name}.dll" if _WINDOWS else f"lib{name}.so"
    variable, faults, there = f"{name.upper()}_LIBRARY", [], ""
    beside, own = os.path.join(os.path.dirname(os.path.abspath(__file__)), file), f"{file}.{needed}"
    named, usual = os.environ.get(variable), [file] if _WINDOWS else [own, file, os.path.join("/usr/local/lib", own)]
    for path in [named] if named else [beside, *usual]:
        try:
            library = ctypes.CDLL(path)
            abi = getattr(library, f"{name}_abi")()
        except AttributeError:
            raise missing(f"{path} is a library, but not {name}", path=path) from None
        except OSError as why:
            faults.append(str(why))
            # (if Linux names another file, that is one which this one needs)
            is_there = os.path.isfile(path) or not _WINDOWS and not str(why).startswith(f"{path}:")
            if is_there:
                there = there or f"{path} is there, but can't be loaded: {why}"
            continue
        if abi != needed:
            said = f"{path} has version {abi} of the interface, but this module needs version {needed}"
            raise missing(said, path=path)
        return library
    if there:
        raise missing(there, path=path)
    raise missing(f"the library {name} isn't installed, or set {variable} to its path ({'; '.join(faults)})")


def _load(processor: str = "/proc/cpuinfo") -> ctypes.CDLL:
    if _lacking(processor):
        raise ImportError("libecc200.so needs the processor's instructions of x86-64-v2; this one lacks "
                          f"{', '.join(_lacking(processor))}")
    library = _opened("ecc200", ABI, ImportError)
    # (a number takes a register as a pointer does, and that is what ctypes makes of it soonest)
    octets, number, out, words = ctypes.c_char_p, ctypes.c_void_p, ctypes.c_void_p, ctypes.c_char_p
    symbol = [octets, number, octets, number]
    for name, result, given in (
        ("version", words, []), ("code_words", words, [_u16]), ("abi", _u16, []),
        ("usual_limit", _u16, [number, number]), ("sizes", None, [out]), ("places", _u16, [number, number, out]),
        ("read", _u16, [*symbol, octets, out]), ("normal", _u16, [*symbol, octets, number, out]),
        ("inspect", _u16, [*symbol, number, number, out]),
        ("write", _u16, [out, number, octets, number, octets, out]),
        ("write_bytes", _u16, [octets, number, octets, out]),
    ):
        function = getattr(library, "ecc200_" + name)
        function.restype, function.argtypes = result, given
    return library


_library = _load()
_ASCII, _WIDE = Profile.ASCII, Extent.WIDE
_USUAL = bytes(ctypes.sizeof(_How))  # ASCII, and the smallest square
_call_read, _call_write_bytes = _library.ecc200_read, _library.ecc200_write_bytes


# Room for answers: a view of its bytes, and their address. Making it takes as long as a call, so it is kept. `pop` and
# `append` are atomic: each room serves one call at a time, whatever threads and signal handlers do.
_Room = Tuple[memoryview, int]
_readings: List[_Room] = []
_symbols: List[_Room] = []


def _room(rooms: List[_Room], kind: Type[ctypes.Structure]) -> _Room:
    try:
        return rooms.pop()
    except IndexError:
        made = bytearray(ctypes.sizeof(kind))
        return memoryview(made), ctypes.addressof(ctypes.c_char.from_buffer(made))


# How a symbol is read; and the beginning of a reading, with its head and its three counts for each block, and of a
# symbol.
_packed_scan = struct.Struct("=5H").pack
_read_head = struct.Struct("=14H2B" + f"{_MOST_BLOCKS}s" * 3).unpack_from
_drawn_head = struct.Struct("=5H").unpack_from
_ITEMS, _MODULES, _PLACES = _ReadingOut.items.offset, _SymbolOut.modules.offset, _PlacesOut.places.offset
_MARKS, _MARK_SIZE = _ReadingOut.marks.offset, ctypes.sizeof(_Mark)
_IDENTIFIERS = tuple(f"]d{number}" for number in range(7))
_DIGITS = bytes(byte == 0x31 for byte in range(256))
_TURNS = {2: 0, 3: 3, 4: 1, 5: 5, 6: 4, 7: 6, 8: 2}  # for each orientation of EXIF, Pillow's way of transposing


class _Foreign(Refused):
    """A row of text with another character than 0 and 1."""

    def __init__(self, row: str) -> None:
        super().__init__(Code.SHAPE)
        self.row = row
        self.args = (f"a row of text consists of the characters 0 and 1, unlike {row!r}",)

    def __reduce__(self) -> Tuple[Type[Refused], Tuple[Any, ...]]:
        return type(self), (self.row,)


def _of_row(row: Any) -> bytes:
    if isinstance(row, str):
        if row.strip("01"):
            raise _Foreign(row)
        return row.encode().translate(_DIGITS)
    if not hasattr(row, "__iter__") and not hasattr(row, "__getitem__"):
        raise TypeError(f"a row of modules is bytes, text, or a list of numbers, unlike {row!r}")
    modules = row if isinstance(row, bytes) else [*row]
    if modules and isinstance(modules[0], str):
        return _of_row("".join(modules))
    return modules if isinstance(modules, bytes) else bytes(1 if module else 0 for module in modules)


def _orientation(picture: Any) -> int:
    """How EXIF says that a picture is to be turned: 1, for not at all, to 8."""
    try:
        tags = getattr(picture, "tag_v2", None) or picture.getexif()  # a TIFF's own are there without its file
        return int(tags.get(274, 1))
    except Exception:  # Pillow's plugins raise what they like
        return 1


def _darkened(picture: Any) -> Any:
    """A Pillow picture of 1 where a picture is dark and of 0 where it is light."""
    return _of_pillow(picture).point([1] * 128 + [0] * 128)


def _rows_of(dark: Any) -> Rows:
    return [dark.crop((0, row, dark.width, row + 1)).tobytes() for row in range(dark.height)]


def _ways(picture: Any) -> List[Rows]:
    """The pixels of a picture, true for dark, without its light margin: as they are stored, and as EXIF says that they
    are turned, if it does."""
    dark = _darkened(picture)
    dark = dark.crop(dark.getbbox())
    turn = _TURNS.get(_orientation(picture))
    return [_rows_of(dark)] if turn is None else [_rows_of(dark), _rows_of(dark.transpose(turn))]


def _best(ways: List[Rows]) -> Rows:
    """Of the ways in which a symbol may stand the one in which it is read, or else has most of the solid borders."""
    def merit(rows: Rows) -> Tuple[bool, int]:
        is_read = any(isinstance(answer, Reading) for answer in read_many([rows]))
        return is_read, sum(row[0] for row in rows) + sum(rows[-1])

    return ways[0] if len(ways) == 1 else max(ways, key=merit)


def _viewed(view: memoryview) -> Sequence[Any]:
    """The rows of a memoryview of two dimensions."""
    columns = view.shape[1] if view.shape else 0
    if view.itemsize > 1 or not columns:
        return view.tolist()
    modules = view.tobytes()
    return [modules[at:at + columns] for at in range(0, len(modules), columns)]


def _plain(grid: Any) -> Sequence[Any]:
    """A grid as rows, or as bytes that are all its modules."""
    if isinstance(grid, str):
        return grid.split()
    if isinstance(grid, memoryview) and grid.ndim == 2:
        return _viewed(grid)
    if isinstance(grid, (bytes, bytearray, memoryview)):
        modules = bytes(grid)
        return modules.split() if b"\n" in modules and not modules.strip(b"01\r\n") else modules
    if isinstance(getattr(grid, "rows", None), list):
        return list(grid.rows)
    if hasattr(grid, "getbbox"):
        return _best(_ways(grid))
    if not hasattr(grid, "__iter__") and not hasattr(grid, "__getitem__"):
        raise TypeError(f"a grid is rows of modules, as a list, a text, an array or a picture, unlike {grid!r}")
    return _of_row(grid) if getattr(grid, "ndim", 2) == 1 else list(grid)


def _joined(rows: Sequence[Any]) -> Tuple[bytes, int]:
    """The modules of rows that are as long as one another, and how long they are."""
    try:
        modules = b"".join(rows)
        columns = len(modules) // len(rows)
        if {*map(len, rows)} == {columns}:
            return modules, columns
    except (TypeError, ZeroDivisionError):
        pass
    each = [_of_row(row) for row in rows]
    if len({*map(len, each)}) > 1:
        raise Refused(Code.SHAPE)
    return b"".join(each), len(each[0]) if each else 0


def _modules(grid: Grid) -> Tuple[bytes, int, int]:
    """The modules of a grid, its rows and its columns."""
    rows = grid if isinstance(grid, list) else _plain(grid)
    if isinstance(rows, bytes):
        modules, count = rows, math.isqrt(len(rows))
        columns = count  # (the library refuses what is no square)
    else:
        count = len(rows)
        modules, columns = _joined(rows)
    if count > 65535 or columns > 65535:
        raise Refused(Code.SIZE, count, columns)
    if modules[:1] in (b"0", b"1") and not modules.strip(b"01"):  # characters
        modules = modules.translate(_DIGITS)
    return modules, count, columns


def _doubtful(grid: Optional[Grid], rows: int, columns: int) -> Tuple[Optional[bytes], int]:
    """The modules of a symbol of so many rows and columns that are doubtful, and how many modules that are, 0 if none
    is said to be."""
    if grid is None:
        return None, 0
    some: Any = grid
    marks = _rows_of(_darkened(some)) if hasattr(some, "getbbox") else some if isinstance(some, list) else _plain(some)
    if isinstance(marks, bytes):
        modules, size = marks, (rows, columns) if len(marks) == rows * columns else None
    else:
        modules, wide = _joined(marks)
        size = len(marks), wide
    if size != (rows, columns):
        return b"\0", 1  # (the library refuses one, after what it refuses before)
    if modules[:1] in (b"0", b"1") and not modules.strip(b"01"):  # characters
        modules = modules.translate(_DIGITS)
    return modules, len(modules)


def _dimensions(rows: int, columns: int) -> Tuple[int, int]:
    """Rows and columns that the library takes as they are, or the refusal that names them."""
    try:
        dimensions = operator.index(rows), operator.index(columns)
    except TypeError:
        raise TypeError(f"rows and columns are whole numbers, unlike {rows!r} and {columns!r}") from None
    if 0 <= min(dimensions) and max(dimensions) <= 65535:
        return dimensions
    raise Refused(Code.SIZE, *dimensions)


def _number(code: Code, number: int) -> Any:
    """A number that the library takes as it is, or the refusal that names it."""
    if not hasattr(number, "__index__"):
        kind = _KINDS[code]
        some = ", ".join(f"{kind.__name__}.{member.name}" for member in kind)
        raise TypeError(f"one of {some} is wanted, unlike {number!r}")
    if 0 <= number <= 65535:
        return operator.index(number)
    raise Refused(code, number)


_KINDS: Dict[Code, Type[enum.IntEnum]] = {Code.PROFILE: Profile, Code.EXTENT: Extent, Code.CHOICE: Shape}


def _whole(name: str, number: Any, least: int, most: Optional[int] = None) -> int:
    """A number of this name, if it is a whole one from the least on, and up to the most if there is one."""
    try:
        whole = operator.index(number)
    except TypeError:
        raise TypeError(f"{name} is a whole number, unlike {number!r}") from None
    if least <= whole and (most is None or whole <= most):
        return whole
    raise ValueError(f"{name} is a whole number from {least} {'on' if most is None else f'to {most}'}, unlike "
                     f"{number!r}")


def _limit(border_limit: BorderLimit) -> Tuple[int, int]:
    """The kind of a border limit, and the number of one that is given."""
    if border_limit is None:
        return _USUAL_LIMIT, 0
    if border_limit == "auto":
        return _SURE_LIMIT, 0
    return _GIVEN_LIMIT, min(_whole("border_limit", border_limit, 0), 65535)


def _bytes_of(items: Iterable[int]) -> bytes:
    """Items as bytes, FNC1 as 0x1D."""
    return bytes(_GS if item == FNC1 else item for item in items)


def _said(answer: memoryview) -> Reading:
    (code, value, place, rows, columns, border_faults, blocks, count, mark_count, identifier, dealing, kind, part, of,
     a, b, corrected, erased, left) = _read_head(answer)
    if code:
        raise Refused(code, value, place)
    raw = answer[_ITEMS:_ITEMS + 2 * count].tobytes()
    data, items, gs1 = raw[::2], struct.unpack(f"={count}H", raw), raw[:2] == b"\0\1"
    if b"\1" in raw[1::2]:  # the upper byte of an FNC1
        data = _bytes_of(items[gs1:])
    counts: Tuple[Tuple[int, ...], ...]
    if blocks == 1:  # as mostly
        counts = (corrected[0],), (erased[0],), (left[0],)
    else:
        counts = tuple(corrected[:blocks]), tuple(erased[:blocks]), tuple(left[:blocks])
    marks = _marks_of(answer, mark_count) if mark_count else ()
    head: Head = None if not kind else "programming" if kind == _PROGRAMMING else (part, of, a, b)
    return Reading(data, gs1, items, counts[0], border_faults, rows, columns, counts[1], counts[2], None, marks, head,
                   _IDENTIFIERS[identifier], dealing)


def _marks_of(answer: memoryview, count: int) -> Tuple[Mark, ...]:
    """The marks of a reading, each with its place first."""
    numbers = struct.iter_unpack("=2I", answer[_MARKS:_MARKS + _MARK_SIZE * count])
    return tuple((place, number) for number, place in numbers)


class _Drawn(List[bytes]):
    """The rows of a symbol, of which numpy makes an array of numbers. (Of a list of bytes it would make strings,
    without the light modules at the end of each.)"""

    @property
    def __array_interface__(self) -> Dict[str, Any]:
        shape = len(self), len(self[0]) if self else 0
        return {"version": 3, "shape": shape, "typestr": "|u1", "data": b"".join(self)}


@functools.lru_cache(maxsize=None)
def _cut(rows: int, columns: int) -> Callable[[Union[bytes, memoryview], int], Tuple[bytes, ...]]:
    """What takes the rows of a symbol out of an answer: many slices would take longer than the call."""
    return struct.Struct(f"{columns}s" * rows).unpack_from


def _drawn(answer: memoryview) -> Rows:
    code, value, place, rows, columns = _drawn_head(answer)
    if code:
        raise Refused(code, value, place)
    return _Drawn(_cut(rows, columns)(answer, _MODULES))


def version() -> str:
    """The version of the shared library."""
    return str(_library.ecc200_version().decode())


def usual_limit(rows: int, columns: Optional[int] = None) -> int:
    """How many wrong border modules are usually accepted in a symbol of so many rows and columns, by default a square:
    an eighth of their sum, rounded down."""
    return sum(_dimensions(rows, rows if columns is None else columns)) // 8


def read(grid: Grid, border_limit: BorderLimit = None, extent: Extent = Extent.WIDE,
         doubtful: Optional[Grid] = None) -> Reading:
    """What a symbol says. `border_limit`: how many border modules may have the wrong colour, by default the usual
    limit; "auto": any number, if each block leaves a correction unused. `doubtful`: a grid with as many rows and
    columns in which the modules are 1 whose colours tell nothing, as under a blot.

    A symbol with more damage than can be corrected is refused, unless it has come near the codewords of another
    message, and is then read as that message: if that is worse than a refusal, look at `left`. Where that is 0 and
    codewords are erased, a block is read whatever it held."""
    modules, rows, columns = _modules(grid)
    extent = extent if extent is _WIDE else _number(Code.EXTENT, extent)
    marks = (None, 0) if doubtful is None else _doubtful(doubtful, rows, columns)
    scan = _packed_scan(rows, columns, *_limit(border_limit), extent)
    answer, address = room = _room(_readings, _ReadingOut)
    try:
        _call_read(modules, len(modules), marks[0], marks[1], scan, address)
        return _said(answer)
    finally:
        _readings.append(room)


def read_many(grids: Iterable[Grid], border_limit: BorderLimit = None,
              extent: Extent = Extent.WIDE) -> List[Union[Reading, Refused]]:
    """For each grid, in order, what it says or its refusal. An array of three dimensions is taken grid by grid."""
    answers: List[Union[Reading, Refused]] = []
    for grid in grids:
        try:
            answers.append(read(grid, border_limit, extent))
        except Refused as why:
            answers.append(why)
    return answers


def _items(message: Iterable[int], gs1: bool) -> Any:
    """The items of a message as an array of 16 bits each."""
    import array  # (which would take a part of each start)
    if not hasattr(message, "__iter__") and not hasattr(message, "__getitem__"):
        raise TypeError(f"a message is text, bytes, or a list of items, unlike {message!r}")
    items = [FNC1 if gs1 and item == _GS else item for item in message]
    try:
        return array.array("H", [FNC1, *items] if gs1 else items)
    except OverflowError:
        place = next(place for place, item in enumerate(items) if not 0 <= item <= FNC1)
        raise Refused(Code.ITEM, items[place], min(place + gs1, 65535)) from None


_HEADS: Dict[Any, Tuple[int, ...]] = {None: (_NO_HEAD, 0, 0, 0, 0), "programming": (_PROGRAMMING, 0, 0, 0, 0)}
_MOST_OF_A_PART = (65535, 65535, 255, 255)
_NO_MARK = 0xFFFFFFFF  # more than any number of an assignment, and than any place


def _numbers_of(head: Head) -> Tuple[int, ...]:
    """The numbers of a head, with 0, which the library refuses, for those that it can't be given."""
    known = _HEADS.get(head) if head is None or isinstance(head, str) else None
    if known:
        return known
    try:
        each = [] if isinstance(head, str) else [*map(operator.index, head or ())]
    except TypeError:
        each = []
    if len(each) != len(_MOST_OF_A_PART):
        raise TypeError(f"a head is None, 'programming', or a part as (2, 5, 1, 2), unlike {head!r}")
    return _PART, *(number if 0 <= number <= most else 0 for number, most in zip(each, _MOST_OF_A_PART))


def _packed(marks: Iterable[Mark]) -> Tuple[bytes, int]:
    """Marks as the library takes them, and how many there are. What it can't be given is a number that it refuses."""
    packed, count = [], 0
    for count, mark in enumerate(marks, 1):
        try:
            place, number = map(operator.index, mark)
        except (TypeError, ValueError):
            raise TypeError(f"a mark is its place and its number, as (0, 26), unlike {mark!r}") from None
        packed.append(struct.pack("=2I", *(it if 0 <= it < _NO_MARK else _NO_MARK for it in (number, place))))
    return b"".join(packed), count


@functools.lru_cache(maxsize=1024)
def _how(form: int, shape: int, rows: int = 0, columns: int = 0, extent: int = 0,
         head: Tuple[int, ...] = _HEADS[None]) -> bytes:
    """How something is written, as the library takes it."""
    return struct.pack("=8H2B", form, shape, rows, columns, extent, *head)


def _chosen(form: int, size: Optional[Tuple[int, int]], shape: Optional[int], extent: int, head: Head) -> bytes:
    """How something is written: in this form, in this size or in the smallest of this shape, with this head."""
    wanted, numbers = _number(Code.PROFILE, form), _numbers_of(head)
    readers = _number(Code.EXTENT, extent)
    if size is None:
        if shape == _ONE:
            raise Refused(Code.CHOICE, _ONE)
        chosen = _number(Code.CHOICE, Shape.SQUARE if shape is None else shape)
        return _how(wanted, chosen, 0, 0, readers, numbers)
    if shape is not None:
        raise TypeError("a size is chosen or a shape, and not both")
    try:
        rows, columns = map(operator.index, size)
    except (TypeError, ValueError):
        raise TypeError(f"a size is the rows and the columns of a symbol, as (8, 32), unlike {size!r}") from None
    if (rows, columns) not in _sizes_by_dimensions():
        raise Refused(Code.SIZE, rows, columns)
    return _how(wanted, _ONE, rows, columns, readers, numbers)


def _behind(marks: Iterable[Mark], gs1: bool) -> Tuple[Mark, ...]:
    """The marks of a text that stands behind an FNC1 in front, or behind none."""
    return tuple((place + gs1, number) for place, number in marks)


def _of_text(text: str, gs1: bool, charset: Optional[str], marks: Tuple[Mark, ...], extent: Extent,
             how: bytes) -> Tuple[bytes, Tuple[Mark, ...]]:
    """The bytes of a text, and the marks that are given with it, or else its own, behind an FNC1 in front; readers of
    the usual extent know none."""
    if extent == Extent.USUAL:
        return unmarked(text, charset), marks
    if marks:
        return encoded(text, charset or _usual(text)), marks
    data, own = content_in(text, charset, gs1, how)
    return data, _behind(own, gs1)


def _symbol(message: Iterable[int], gs1: bool, marks: Iterable[Mark], how: bytes) -> Rows:
    """The symbol of bytes or items that is written in one way."""
    beside, mark_count = _packed(marks) if marks else (None, 0)
    answer, address = room = _room(_symbols, _SymbolOut)
    try:
        if gs1 or mark_count or not isinstance(message, bytes):
            items = _items(message, gs1)
            _library.ecc200_write(items.buffer_info()[0], len(items), beside, mark_count, how, address)
        else:
            _call_write_bytes(message, len(message), how, address)
        return _drawn(answer)
    finally:
        _symbols.append(room)


def _area(data: bytes, gs1: bool, marks: Iterable[Mark], how: bytes) -> float:
    """How many modules a symbol has that is written in one way; more than any has where none is."""
    try:
        rows = _symbol(data, gs1, marks, how)
    except Refused:
        return math.inf
    return len(rows) * len(rows[0])


def write(message: Message, gs1: bool = False, profile: Profile = Profile.ASCII, charset: Optional[str] = None,
          size: Optional[Tuple[int, int]] = None, shape: Optional[Shape] = None, marks: Iterable[Mark] = (),
          head: Head = None, form: Optional[Form] = None, extent: Extent = Extent.WIDE) -> Rows:
    """The symbol of a message, given as bytes, as items, which are 0 to 255 or FNC1, or as text, which becomes bytes
    and marks as `charsets.content_of` has it. With `gs1`, FNC1 stands in front, as the first codeword in each form, and
    in place of each 0x1D. It is the normal grid, which is a square, unless another `shape` is chosen, whose smallest
    symbol is written, or a `size` by its rows and columns.

    `marks` and a `head` are written beside the message; the places of marks count its items, an FNC1 in front too. A
    text that is given marks has no others, and for Extent.USUAL it has none. `form` stands for a profile: Form.SMALLEST
    takes the encodations by which what is said fits the smallest size, of those that readers of an `extent` read;
    Extent.USUAL has no marks and no heads, which are then too long."""
    is_usual = profile is _ASCII and size is None and shape is None and head is None and form is None
    if form is None and profile == Form.SMALLEST.value:
        raise Refused(Code.PROFILE, profile)
    how = _USUAL if is_usual else _chosen(profile if form is None else form, size, shape, extent, head)
    if isinstance(message, str):
        message, marks = _of_text(message, gs1, charset, tuple(marks), extent, how)
    return _symbol(message, gs1, marks, how)


def normal(grid: Grid, border_limit: BorderLimit = None, profile: Profile = Profile.ASCII,
           extent: Extent = Extent.WIDE, doubtful: Optional[Grid] = None) -> Rows:
    """The normal grid of what a symbol says, which is a square whatever the symbol is. Symbols that have normal grids
    under one profile say the same exactly if these are equal."""
    modules, rows, columns = _modules(grid)
    wanted, form = _number(Code.EXTENT, extent), _number(Code.PROFILE, profile)
    marks = _doubtful(doubtful, rows, columns)
    scan = _packed_scan(rows, columns, *_limit(border_limit), wanted)
    answer, address = room = _room(_symbols, _SymbolOut)
    try:
        _library.ecc200_normal(modules, len(modules), *marks, scan, form, address)
        return _drawn(answer)
    finally:
        _symbols.append(room)


def inspect(grid: Grid, doubtful: Optional[Grid] = None) -> Inspection:
    """The codewords of a symbol, as they stand in it and as they are corrected, even if it can't be read."""
    modules, rows, columns = _modules(grid)
    out = _InspectionOut()
    code = _library.ecc200_inspect(modules, len(modules), *_doubtful(doubtful, rows, columns), rows, columns,
                                   ctypes.byref(out))
    if code:
        raise Refused(code, out.fault.value, out.fault.place)
    blocks, words = out.block_count, out.codeword_count
    corrected = tuple(None if count == _BEYOND else count for count in out.corrected[:blocks])
    return Inspection(bytes(out.held)[:words], bytes(out.mended)[:words], corrected, out.border_faults,
                      tuple(out.erased[:blocks]), tuple(out.left[:blocks]), out.dealing,
                      tuple((mark.place, mark.number) for mark in out.designators[:out.designator_count]))


def places(rows: int, columns: Optional[int] = None) -> List[List[Place]]:
    """What each module of a symbol of so many rows and columns, by default a square, is, row by row."""
    out, kinds = _PlacesOut(), (Kind.BIT, *Kind)
    rows, columns = _dimensions(rows, rows if columns is None else columns)
    code = _library.ecc200_places(rows, columns, ctypes.byref(out))
    if code:
        raise Refused(code, out.fault.value, out.fault.place)
    each = [Place(kinds[kind], word, bit)
            for word, bit, kind in struct.iter_unpack("=HBB", bytes(out)[_PLACES:_PLACES + 4 * rows * columns])]
    return [each[at:at + columns] for at in range(0, rows * columns, columns)]


def sizes() -> List[Size]:
    """The table of sizes, by rising number of modules, and of those with as many by rising columns."""
    out = _SizesOut()
    _library.ecc200_sizes(ctypes.byref(out))
    return [Size._make(row) for row in struct.iter_unpack(f"={len(Size._fields)}H", bytes(out))]


@functools.lru_cache(maxsize=None)
def _sizes_by_dimensions() -> Dict[Tuple[int, int], Size]:
    return {(size.rows, size.columns): size for size in sizes()}


def _size_of(rows: int, columns: int) -> Size:
    """The size of so many rows and columns, which some symbol has."""
    return _sizes_by_dimensions()[rows, columns]


# ---- Text: of which charset bytes are, and how that is marked

# The charsets of ECI assignments, by names that Python, IANA and iconv have in common. Where a charset has several
# numbers the last is written.
_CHARSETS = {
    0: "ibm437", 1: "iso-8859-1", 170: "us-ascii", 2: "ibm437",
    **{part + 2: f"iso-8859-{part}" for part in (*range(1, 12), *range(13, 17))}, 20: "shift_jis",
    21: "windows-1250", 22: "windows-1251", 23: "windows-1252", 24: "windows-1256", 25: "utf-16be", 26: "utf-8",
    27: "us-ascii", 28: "big5", 29: "gb2312", 30: "euc-kr", 31: "gbk", 32: "gb18030", 33: "utf-16le", 34: "utf-32be",
    35: "utf-32le",
}
_BINARY = 899
_LATIN_1, _UTF_8, _ECI_UTF_8 = "iso-8859-1", "utf-8", 26
# What ZXing and zxing-cpp take for UTF-8 where nothing is marked, and what can be Shift JIS to them: there half-width
# katakana take one byte and other letters two.
_LIKE_UTF_8 = rb"(?:[\0-\x7f]|[\xc0-\xdf][\x80-\xff]|[\xe0-\xef][\x80-\xff]{2}|[\xf0-\xf7][\x80-\xff]{3})*"
_KATAKANA, _TWO_BYTES = rb"[\xa1-\xdf]", rb"[\x81-\x9f\xe0-\xef][@-~\x80-\xfc]"
_LIKE_SHIFT_JIS = rb"(?:[\0-\x7f]|%b|%b)*" % (_KATAKANA, _TWO_BYTES)
_RUNS_OF_SHIFT_JIS = rb"((?:%b)+)|((?:%b)+)" % (_KATAKANA, _TWO_BYTES)
# In which charsets text that ISO/IEC 8859-1 hasn't is written, beside UTF-8: those that zxing-cpp 1.4.0 reads behind
# their assignments, by trial of each code. Of each the codes by their least and greatest bytes, and those of them that
# zxing-cpp, browsers or Python have for other characters or twice. (It knows no 31 to 35, and takes 29 for GB 18030.)
_ALIKE: Dict[int, Tuple[str, str]] = {
    **{number: ("a0-ff", "") for number in (*range(4, 14), *range(15, 19))},
    **{number: ("80-ff", "") for number in range(21, 25)},
    9: ("a0-ff", "a4 a5 aa"), 10: ("a0-ff", "af fd fe"), 13: ("a1-ff", ""),
    20: ("a1-df 8140-84fc 8840-9ffc e040-eafc", "1a 1c 7f 8160 8161 817c 8191 8192 81ca"),
    28: ("a140-c5fe c640-c67e c940-f8fe f940-f9d5",
         "a145 a14e a1c2 a1e3 a1f2 a1f3 a1fe a240 a241 a242 a244 a246 a247 a2cc a2ce a3e1"),
    29: ("a1a1-a1fe a2b1-a2e2 a2e5-a2ee a2f1-a2fc a3a1-a3fe a4a1-a4f3 a5a1-a5f6 a6a1-a6b8 a6c1-a6d8 a7a1-a7c1 a7d1-a7f1"
         " a8a1-a8ba a8c5-a8e9 a9a4-a9ef b0a1-d6fe d7a1-d7f9 d8a1-f7fe", "a1a4 a1aa"),
    30: ("a1a1-c8fe caa1-fdfe", "a2e6 a2e7 a4d4"),
}


class Text(NamedTuple):
    """What bytes are as text, None where they are none, and the charset by whose name they should be; of several the
    names stand with commas between, in the order in which they come."""
    text: Optional[str]
    charset: str


def _decoded(data: bytes, charset: str) -> Optional[str]:
    try:
        return data.decode(charset)
    except UnicodeError:
        return None


def encoded(text: str, charset: str) -> bytes:
    """The bytes of a text in a charset that has all of it: not only another character that is written for one of its
    own, as Python's Shift JIS writes a backslash for a yen sign."""
    data = text.encode(charset)
    if _decoded(data, charset) != text:
        place = next((it for it, letter in enumerate(text) if _decoded(letter.encode(charset), charset) != letter), 0)
        raise UnicodeEncodeError(charset, text, place, place + 1, "it is read as another character")
    return data


def _charset(number: Optional[int], data: bytes) -> str:
    """The charset of bytes behind the mark of an assignment, or without one; or what they are instead."""
    if number is None:
        return _LATIN_1 if _decoded(data, _UTF_8) is None else _UTF_8
    return "binary" if number == _BINARY else _CHARSETS.get(number, f"ECI {number}")


def text_of(items: Sequence[int], marks: Iterable[Mark] = (), charset: Optional[str] = None) -> Text:
    """Items as text: those behind a mark in its charset, those that no mark stands before in UTF-8 where they are that,
    else in ISO/IEC 8859-1; or all in `charset`, whatever is marked. An FNC1 in front is left out, any other is the
    character U+001D."""
    data, front = _bytes_of(items), int(tuple(items[:1]) == (FNC1,))
    if charset is not None:
        return Text(_decoded(data[front:], charset), charset)
    starts: List[Tuple[int, Optional[int]]] = [(front, None), *((max(place, front), it) for place, it in marks)]
    ends = [*(place for place, _ in starts[1:]), len(data)]
    pieces = [(_charset(number, data[start:end]), data[start:end])
              for (start, number), end in zip(starts, ends) if start < end]
    runs = [(name, b"".join(piece for _, piece in run))
            for name, run in itertools.groupby(pieces, operator.itemgetter(0))]
    known = set(_CHARSETS.values())
    texts = [_decoded(run, name) if name in known else None for name, run in runs]
    names = dict.fromkeys(name for name, _ in runs)
    return Text(None if None in texts else "".join(map(str, texts)), ", ".join(names) or _UTF_8)


@functools.lru_cache(maxsize=None)
def _assignments() -> Dict[str, int]:
    """The numbers of charsets, by the names of Python's codecs."""
    return {codecs.lookup(name).name: number for number, name in _CHARSETS.items()}


def charset_of(number: int) -> Optional[str]:
    """The charset of an ECI assignment; None if it names none."""
    return _CHARSETS.get(number)


def assignment(charset: str) -> Optional[int]:
    """The number of the ECI assignment of a charset, by any name that Python has for it; None if there is none."""
    return _assignments().get(codecs.lookup(charset).name)


def _is_guessed_shift_jis(data: bytes) -> bool:
    """Whether ZXing and zxing-cpp (TextDecoder::GuessEncoding) take bytes without a mark for Shift JIS: what can be
    that, if some run has three letters that aren't ASCII, or if some bytes are controls of ISO/IEC 8859-1. Else if all
    katakana are one run of two, or if a tenth of the bytes are signs of ISO/IEC 8859-1 rather than letters."""
    if not re.fullmatch(_LIKE_SHIFT_JIS, data):
        return False
    runs = re.findall(_RUNS_OF_SHIFT_JIS, data)
    katakana = [len(run) for run, _ in runs if run]
    if max([0, *katakana, *(len(pairs) // 2 for _, pairs in runs)]) >= 3 or re.search(rb"[\x80-\x9f]", data):
        return True
    return katakana == [2] or 10 * len(re.findall(rb"[\xa0-\xbf\xd7\xf7]", data)) >= len(data)


def _taken_for(data: bytes) -> Optional[str]:
    """The charset for which readers take bytes without a mark; None where they differ."""
    if _decoded(data, _UTF_8) is not None:
        return _UTF_8
    return None if re.fullmatch(_LIKE_UTF_8, data) or _is_guessed_shift_jis(data) else _LATIN_1


def unmarked(text: str, charset: Optional[str] = None) -> bytes:
    """The bytes of a text without a mark: in a charset that is named, else in ISO/IEC 8859-1 where they are read as it,
    else in UTF-8."""
    if charset is not None:
        return encoded(text, charset)
    data = text.encode(_LATIN_1, "replace")
    return data if text_of(data).text == text else text.encode(_UTF_8)


@functools.lru_cache(maxsize=None)
def _codes(number: int) -> Callable[[bytes], bool]:
    """Whether bytes are the code of a character that all have alike, in the charset of an assignment."""
    spans, unlike = _ALIKE[number]
    bounds = [tuple(map(bytes.fromhex, span.split("-"))) for span in f"00-7f {spans}".split()]
    others = {bytes.fromhex(code) for code in unlike.split()}
    return lambda code: code not in others and any(
        len(code) == len(least) and all(low <= byte <= high for low, byte, high in zip(least, code, most))
        for least, most in bounds)


@functools.lru_cache(maxsize=65536)
def _has_alike(letter: str, number: int) -> bool:
    """Whether a letter is in the charset of an assignment, and is the same to all who read it there."""
    try:
        return _codes(number)(encoded(letter, _CHARSETS[number]))
    except UnicodeError:
        return False


def _writings(text: str) -> Iterator[Tuple[bytes, Tuple[Mark, ...]]]:
    """The bytes and marks by which text that ISO/IEC 8859-1 hasn't can be written: those of UTF-8 first."""
    yield text.encode(_UTF_8), ((0, _ECI_UTF_8),)
    for number in sorted(_ALIKE):
        if all(_has_alike(letter, number) for letter in set(text)):
            yield text.encode(_CHARSETS[number]), ((0, number),)


def _usual(text: str) -> str:
    """The charset of a text where that doesn't depend on its symbol."""
    return _LATIN_1 if all(letter < "\u0100" for letter in text) else _UTF_8


def content_in(text: str, charset: Optional[str], gs1: bool, how: bytes) -> Tuple[bytes, Tuple[Mark, ...]]:
    """The same as `content_of`, for a symbol that is written in one way, behind an FNC1 or without one."""
    name = charset or _usual(text)
    if charset is None and name == _UTF_8:
        return min(_writings(text), key=lambda way: _area(way[0], gs1, _behind(way[1], gs1), how))
    data = encoded(text, name)
    taken = _taken_for(data)
    is_clear = taken is not None and data.decode(taken) == text
    number = None if is_clear else assignment(name)
    return data, () if number is None else ((0, number),)


def content_of(text: str, charset: Optional[str] = None) -> Tuple[bytes, Tuple[Mark, ...]]:
    """The bytes of a text, and the marks by which they are read as it. What ISO/IEC 8859-1 has is that. Other text is
    in the charset whose smallest square is smallest among those that zxing-cpp reads as they were written, of equal
    ones in UTF-8, behind its mark; `write` and `encode` look at the symbol that they are asked for. Or a `charset` is
    named. Else the mark of the charset stands in front where some reader would take the bytes for another text without
    it, as those of "20 \u00b0C" for Shift JIS; a charset that has no ECI assignment is never marked."""
    return content_in(text, charset, False, _how(Form.SMALLEST, Shape.SQUARE, 0, 0, Extent.WIDE))


# ---- Symbols in pictures, which the library ecc200_sample finds: the structs are those of ecc200_sample.h.

_SAMPLE_ABI = 1
_MOST_FOUND = 64  # symbols of one picture, unless a caller says otherwise
_MOST_UNREAD = 32  # symbols of one picture that aren't read
_ANY_TIME = 0xFFFFFFFF
_IS_UNSURE = 2  # `unread` of a symbol that is
_NO_MEMORY = 2
_COLOURS = {1: "L", 2: "LA", 3: "RGB", 4: "RGBA"}  # by the numbers of a pixel, as Pillow calls them
# How Pillow calls the numbers of an array that are no bytes, by their letter and their bytes: integers, and floats.
_NUMBERS = {("H", 2): "I;16{}", ("h", 2): "I;16{}S", ("i", 4): "I;32{}S", ("l", 4): "I;32{}S", ("f", 4): "F;32{}F",
            ("d", 8): "F;64{}F"}


class SamplerMissing(ImportError):
    """The library ecc200_sample isn't installed, can't be loaded, or is of another version."""


class Unsure(Refused):
    """A symbol of a picture that leaves too few corrections unused for what it may say, `reading`, to be trusted."""

    def __init__(self, reading: Reading) -> None:
        least = min(reading.left)
        super().__init__(Code.BLOCK, 0, reading.left.index(least))
        self.reading = reading
        self.args = (f"block {self.place + 1} leaves {least} check codewords, too few to be sure that it says "
                     f"{reading.data!r}",)

    def __reduce__(self) -> Tuple[Type[Refused], Tuple[Any, ...]]:
        return type(self), (self.reading,)


class Sides(NamedTuple):
    """A share of each side of a symbol: at the top, on the right, below and on the left."""
    top: float
    right: float
    bottom: float
    left: float


class Quality(NamedTuple):
    """How good the print of a symbol is, as ISO/IEC 15415 counts it, but of this picture, uncalibrated: this is no
    verifier's report, for which light, aperture and calibration are given."""
    contrast: float                 # the largest less the smallest reflectance, 0 to 1, luminance taken for reflectance
    modulation: float               # the least of all codewords
    unused: Tuple[float, ...]       # of each block, the share of its check codewords that isn't used
    axial: float                    # nonuniformity: how much the modules' mean width and height differ, as a share
    grid: float                     # nonuniformity: how far the worst module lies beside an even grid, in modules
    growth: Tuple[float, float]     # how much wider, and higher, dark modules are than they should be, in modules
    border: Sides                   # the share of its modules that have a wrong colour, or are doubtful
    quiet: Sides                    # the share of the quiet zone, one module wide, that is dark or isn't in the picture
    readable: Tuple[int, int, int, int]  # how many codewords have a modulation of .5, .4, .3 and .2, or more
    weakest: str                    # the weakest place, in words
    grades: Dict[str, str]          # A to F, of contrast, modulation, unused, axial and grid
    modulations: Tuple[float, ...]  # of each codeword, that of its weakest module: how far its reflectance is from the
                                    # middle, as a share of half the contrast


class Found(NamedTuple):
    """A symbol in a picture."""
    answer: Union[Reading, Refused]           # what it says, or why it isn't read
    rows: Rows                                # its modules, upright
    corners: Corners                          # among the pixels as they are stored
    inverted: bool                            # whether it is light on dark
    mirrored: bool
    page: int = 1                             # of a picture with several pages, which one has it
    doubtful: Optional[Rows] = None           # of which modules the picture tells nothing, if it was read with that
    border_limit: int = 0                     # how many wrong border modules it might have: with this and `doubtful`
                                              # `read` says the same of its rows
    quality: Optional[Quality] = None         # how good its print is, if that was asked for


class End(enum.IntEnum):
    """Why the search of a picture ended: all of it was searched; as many symbols were found as were asked for; the time
    was over; or so much work was done without finding one more."""
    WHOLE = 0
    ROOM = 1
    TIME = 2
    WORK = 3


_Item = TypeVar("_Item")


class Findings(List[_Item]):
    """A list of what was found, which says why the search ended, and where nothing is read on a page, which code of
    another kind it shows, as "a QR code", if one is clear."""
    ended: End = End.WHOLE
    other: Optional[str] = None

    @property
    def complete(self) -> bool:
        """Whether all of the picture was searched; else there may be more."""
        return self.ended == End.WHOLE

    def add(self, some: Iterable[_Item], page: "Findings[Any]") -> None:
        """Adds what was found on another page."""
        self.extend(some)
        self.tell(page)

    def tell(self, page: "Findings[Any]") -> None:
        """Says of the search of another page what that says."""
        self.ended, self.other = max(self.ended, page.ended), self.other or page.other


class _Sample(ctypes.Structure):
    _fields_ = [("corners", ctypes.c_double * 8), ("rows", _u16), ("columns", _u16), ("inverted", _u8),
                ("mirrored", _u8), ("modules", _u8 * _MOST_MODULES), ("doubtful", _u8 * _MOST_MODULES),
                ("reading", _ReadingOut), ("border_limit", _u16), ("unread", _u16)]


class _Search(ctypes.Structure):
    _fields_ = [("milliseconds", ctypes.c_uint32), ("least_side", _u16), ("margin", _u16),
                ("symbols", ctypes.c_void_p), ("room", ctypes.c_size_t), ("count", ctypes.c_size_t),
                ("unread", ctypes.c_void_p), ("unread_room", ctypes.c_size_t), ("unread_count", ctypes.c_size_t),
                ("ended", _u16), ("effort", _u16)]


class _QualityOut(ctypes.Structure):
    _fields_ = [("contrast", ctypes.c_double), ("modulation", ctypes.c_double),
                ("unused", ctypes.c_double * _MOST_BLOCKS), ("axial", ctypes.c_double), ("grid", ctypes.c_double),
                ("growth", ctypes.c_double * 2), ("border", ctypes.c_double * 4), ("quiet", ctypes.c_double * 4),
                ("codewords", _u16), ("blocks", _u16), ("readable", _u16 * 4), ("grades", _u8 * 5),
                ("weakest", ctypes.c_char * 64), ("modulations", ctypes.c_float * _MOST_CODEWORDS)]


class _Asked(NamedTuple):
    """What is asked of the search of a page: how many symbols at most, and how many that aren't read; about how long
    it may take, or None, if its work is limited; how many corrections each block must leave unused; and whether the
    print is measured."""
    most: int = _MOST_FOUND
    unread: int = 0
    milliseconds: Optional[int] = None
    margin: int = 0
    quality: bool = False

    def checked(self) -> "_Asked":
        """The same, in numbers that the sampler takes as they are."""
        time = self.milliseconds
        return _Asked(_whole("most", self.most, 1, 65535), self.unread,
                      None if time is None else _whole("milliseconds", time, 0, _ANY_TIME - 1),
                      _whole("margin", self.margin, 0, 65535), self.quality)


@functools.lru_cache(maxsize=None)
def _sampler() -> ctypes.CDLL:
    library = _opened("ecc200_sample", _SAMPLE_ABI, SamplerMissing)
    if not hasattr(library, "ecc200_sample_other_code"):
        raise SamplerMissing("the library ecc200_sample is older than this module", path=library._name)
    size = ctypes.c_size_t
    library.ecc200_sample_find.argtypes = [ctypes.c_char_p, size, size, size, ctypes.c_void_p]
    library.ecc200_sample_find.restype = _u16
    library.ecc200_sample_measure.argtypes = [ctypes.c_char_p, size, size, size, ctypes.c_void_p, ctypes.c_void_p]
    library.ecc200_sample_measure.restype = _u16
    library.ecc200_sample_other_code.argtypes = [ctypes.c_char_p, size, size, size, ctypes.c_void_p]
    library.ecc200_sample_other_code.restype = ctypes.c_char_p
    return library


def sampler_fault() -> Optional[str]:
    """Why the library ecc200_sample can't be used, or None if it can."""
    try:
        _sampler()
        return None
    except SamplerMissing as why:
        return str(why) if why.path else "the library ecc200_sample isn't installed"


def has_sampler() -> bool:
    """Whether the library ecc200_sample is installed, so that symbols can be found in pictures."""
    return sampler_fault() is None


def _of_pillow(picture: Any) -> Any:
    """A Pillow picture in shades of grey, on white paper where it is transparent."""
    if picture.mode.startswith("I") or picture.mode == "F":  # 16 bits or more, which Pillow would cut off at 255
        picture = picture if picture.mode == "F" else picture.convert("I")
        low, high = picture.getextrema()
        white = 1 if picture.mode == "F" and high <= 1 else max(high, 255)
        picture = picture.point(lambda value: value * (255 / white) + 0)
    elif "A" in picture.getbands() or "transparency" in picture.info:
        from PIL import Image
        paper = Image.new("RGBA", picture.size, "white")
        paper.alpha_composite(picture.convert("RGBA"))
        picture = paper
    return picture.convert("L")


def _elements(picture: Any) -> memoryview:
    """What an array has: its buffer; or, where it has none, what its array interface names, which needs numpy unless
    that is whole bytes."""
    try:
        return memoryview(picture)
    except TypeError:
        named = None if isinstance(picture, list) else getattr(picture, "__array_interface__", None)
    if named is None:
        raise TypeError(f"a picture is Pillow's, or an array, unlike {type(picture).__name__}")
    if isinstance(named.get("data"), bytes) and not named.get("strides") and named["typestr"] in ("|u1", "|b1"):
        return memoryview(named["data"]).cast("B" if named["typestr"] == "|u1" else "?", named["shape"])
    import numpy
    array: Any = numpy.asarray(picture)
    return memoryview(array)


def _raw_mode(view: memoryview) -> Optional[str]:
    """How Pillow calls the numbers of an array, if they are some that it knows."""
    mode, is_own = _NUMBERS.get((view.format[-1:], view.itemsize)), view.format[0] not in "<>"
    return mode and mode.format("B" if view.format[0] == ">" or is_own and sys.byteorder == "big" else "")


def _scaled(view: memoryview) -> Optional[bytes]:
    """Numbers that Pillow doesn't know, as of 64 bits, as bytes; None if they are none."""
    try:
        numbers = struct.unpack(f"{view.format[:-1]}{view.nbytes // view.itemsize}{view.format[-1]}", view.tobytes())
        high = max(numbers)
        factor = 255 / (1 if isinstance(high, float) and high <= 1 else max(high, 255))
        return bytes(int(min(255, max(0, number * factor))) for number in numbers)
    except (struct.error, TypeError):
        return None


def _in_bytes(view: memoryview) -> Optional[bytes]:
    """The numbers of an array of two or three dimensions as bytes: booleans as 0 and 255, and other numbers by the
    largest, which is 255 if it is beyond that, or if they are floats and it isn't beyond 1. None if no picture has such
    numbers."""
    if view.format == "?":
        return view.tobytes().replace(b"\1", b"\xff")
    if view.format == "B" or not view.nbytes:
        return view.tobytes()
    mode, width = _raw_mode(view), view.nbytes // view.itemsize // len(view)
    if mode is None:
        return _scaled(view)
    from PIL import Image
    return bytes(_of_pillow(Image.frombytes(mode[0], (width, len(view)), view.tobytes(), "raw", mode)).tobytes())


def luminance(picture: Any) -> Tuple[bytes, int, int]:
    """The luminances of a picture row by row, its width and its height."""
    if not hasattr(picture, "getbbox"):
        view = _elements(picture)
        shape = view.shape or ()
        has_rows = len(shape) == 2 or len(shape) == 3 and shape[2] in _COLOURS
        pixels = _in_bytes(view) if has_rows else None
        if pixels is None:
            raise TypeError("a picture is an array of rows of numbers, or of rows of colours, unlike one of "
                            f"{shape} of {view.format}")
        if len(shape) == 2:
            return pixels, shape[1], shape[0]
        from PIL import Image
        picture = Image.frombytes(_COLOURS[shape[2]], (shape[1], shape[0]), pixels)
    grey = _of_pillow(picture)
    return grey.tobytes(), grey.width, grey.height


def _held(data: bytes, name: str) -> Any:
    """What these bytes are: a grid, which has two values or is text, or else the file of a picture."""
    if data and (len(set(data)) <= 2 or not data.strip(b"01\r\n")):
        return data
    try:
        from PIL import Image, UnidentifiedImageError
    except ImportError:
        raise ImportError("to read the files of pictures install Pillow") from None
    try:
        picture = Image.open(io.BytesIO(data))
        picture.load()
        return picture
    except UnidentifiedImageError:
        raise TypeError(f"{name} is neither a grid nor a picture that Pillow opens") from None
    except Exception as why:  # Pillow's plugins raise what they like
        raise TypeError(f"{name} is a picture that can't be opened: {why}") from why


def _loaded(given: Any) -> Any:
    """What a file holds, given by its path, open, or as its bytes; a grid or a picture as it is."""
    if given is None:
        raise TypeError("a picture or a grid is wanted, unlike None, which OpenCV's imread gives where it opens none")
    if isinstance(given, (bytes, bytearray)) or isinstance(given, memoryview) and given.ndim == 1:
        return _held(bytes(given), "what these bytes are")
    is_path = isinstance(given, str) and "\n" not in given and (not given.strip() or given.strip("01 \t\r") != "")
    if is_path or hasattr(given, "__fspath__"):
        with open(given, "rb") as file:
            return _held(file.read(), os.fspath(given))
    if not hasattr(given, "read"):
        return given
    data = given.read()
    if isinstance(data, str):
        raise TypeError("a file is opened for bytes, as by open(name, 'rb')")
    return _held(data, str(getattr(given, "name", "what this file has")))


def _is_last(picture: Any, number: int, why: Exception) -> bool:
    """Whether a picture has no further page, which is why it can't be turned to."""
    try:
        return isinstance(why, EOFError) and number >= int(getattr(picture, "n_frames", 1))
    except Exception:  # Pillow's plugins raise what they like
        return False


def _pages(picture: Any, broken: List[str]) -> Iterator[Tuple[int, Any]]:
    """The pages of a Pillow picture that stands at its first, as those of a TIFF or a GIF, one after another, each with
    its number from 1; else the picture as it is. What is wrong with pages that can't be opened goes to `broken`."""
    yield 1, picture
    if not hasattr(picture, "seek") or picture.tell() > 0:
        return
    try:
        for number in itertools.count(2):
            try:
                picture.seek(number - 1)
            except Exception as why:
                if not _is_last(picture, number - 1, why):
                    broken.append(f"page {number} of the picture can't be opened, nor what may stand behind it "
                                  f"({str(why) or type(why).__name__})")
                break
            try:
                picture.load()
            except Exception as why:
                broken.append(f"page {number} of the picture can't be opened ({str(why) or type(why).__name__})")
                continue
            yield number, picture
    finally:
        if picture.tell() > 0:
            picture.seek(0)


def _tell_broken(broken: List[str], is_found: bool) -> None:
    """Pages that can't be opened are a warning where something was found on others, and else an error."""
    if broken and not is_found:
        raise ValueError("; ".join(broken))
    for why in broken:
        warnings.warn(why, stacklevel=3)


def _measured(sample: Any, pixels: bytes, width: int, height: int) -> Quality:
    out = _QualityOut()
    if _sampler().ecc200_sample_measure(pixels, width, height, width, ctypes.byref(sample), ctypes.byref(out)):
        raise MemoryError(f"there is too little memory to measure {sample.rows} by {sample.columns} modules")
    grades = dict(zip(("contrast", "modulation", "unused", "axial", "grid"), ("FDCBA"[grade] for grade in out.grades)))
    return Quality(out.contrast, out.modulation, tuple(out.unused[:out.blocks]), out.axial, out.grid,
                   (out.growth[0], out.growth[1]), Sides(*out.border), Sides(*out.quiet),
                   (out.readable[0], out.readable[1], out.readable[2], out.readable[3]), out.weakest.decode("ascii"),
                   grades, tuple(out.modulations[:out.codewords]))


def _found(sample: Any, page: int) -> Found:
    rows, doubtful = (_Drawn(_cut(sample.rows, sample.columns)(bytes(modules), 0))
                      for modules in (sample.modules, sample.doubtful))
    corners = tuple(zip(sample.corners[::2], sample.corners[1::2]))
    answer: Union[Reading, Refused]
    try:
        answer = _said(memoryview(bytes(sample.reading)))._replace(corners=corners)
        answer = Unsure(answer) if sample.unread == _IS_UNSURE else answer
    except Refused as why:
        answer = why
    return Found(answer, rows, corners, bool(sample.inverted), bool(sample.mirrored), page,
                 doubtful if any(map(any, doubtful)) else None, sample.border_limit)


def _is_inside(corners: Corners, place: Tuple[float, float]) -> bool:
    """Whether a place lies within corners, which go around it one way or the other."""
    x, y = place
    turns = [(right - left) * (y - top) > (down - top) * (x - left)
             for (left, top), (right, down) in zip(corners, corners[1:] + corners[:1])]
    return len(set(turns)) == 1


def _beside_other(symbols: List[Found], pixels: bytes, width: int, height: int) -> Findings[Found]:
    """What isn't read of a picture in which nothing is, but for what has its middle or a corner in a code of another
    kind, and which that is."""
    corners = (ctypes.c_double * 8)()
    name = _sampler().ecc200_sample_other_code(pixels, width, height, width, corners)
    if name is None:
        return Findings(symbols)
    around = tuple(zip(corners[::2], corners[1::2]))
    places = [(*symbol.corners, tuple(sum(values) / 4 for values in zip(*symbol.corners))) for symbol in symbols]
    found = Findings(symbol for symbol, own in zip(symbols, places)
                     if not any(_is_inside(around, (x, y)) for x, y in own))
    found.other = name.decode("ascii")
    return found


def _searched(picture: Any, page: int, asked: _Asked) -> Findings[Found]:
    """The symbols of one page of a picture, and behind them those that aren't read, the likeliest first."""
    pixels, width, height = luminance(picture)
    if len(pixels) != width * height:
        raise ValueError(f"a picture of {width} by {height} pixels has {len(pixels)} luminances")
    samples, unread = (_Sample * asked.most)(), (_Sample * asked.unread)()
    time = _ANY_TIME if asked.milliseconds is None else asked.milliseconds
    search = _Search(time, 0, asked.margin, ctypes.addressof(samples), asked.most, 0, ctypes.addressof(unread),
                     asked.unread)
    code = _sampler().ecc200_sample_find(pixels, width, height, width, ctypes.byref(search))
    if code == _NO_MEMORY:
        raise MemoryError(f"there is too little memory to search a picture of {width} by {height} pixels")
    if code:
        raise ValueError(f"a picture of {width} by {height} pixels can't be searched ({code})")
    kept = (*samples[:search.count], *unread[:search.unread_count])
    symbols = [_found(sample, page) for sample in kept]
    if asked.quality:
        measured = (_measured(sample, pixels, width, height) for sample in kept)
        symbols = [symbol._replace(quality=quality) for symbol, quality in zip(symbols, measured)]
    found = Findings(symbols) if search.count else _beside_other(symbols, pixels, width, height)
    found.ended = End(search.ended)
    return found


def _only_read(answers: Iterable[Union[Reading, Refused]]) -> List[Reading]:
    return [answer for answer in answers if isinstance(answer, Reading)]


def _records(grid: Any) -> List[Any]:
    """A grid; or each of those in a text, in which empty lines stand between."""
    text = grid.decode("ascii") if isinstance(grid, bytes) and not grid.strip(b"01\r\n") else grid
    if not isinstance(text, str):
        return [grid]
    rows, records = text.split(), [record for record in text.replace("\r\n", "\n").split("\n\n") if record.strip()]
    return [grid] if len(records) < 2 or set(map(len, rows)) == {len(rows)} else records


def find(picture: Any, most: int = _MOST_FOUND, milliseconds: Optional[int] = None, margin: int = 0,
         unread: bool = False, quality: bool = False) -> Findings[Found]:
    """At most `most` symbols of each page of a picture. The search takes about `milliseconds` for a page; without them
    its work is limited, the same on every machine, which is up to a second where nothing is found. It ends at once
    where `most` are found: `complete` of the list is false where it ended before all was searched. `margin`: how
    many corrections each block must leave unused. With `unread`, behind those of each page also what was found on it
    and isn't read, the likeliest first, with its refusal: at most 32, whose borders have few faults. A page that can't
    be opened is a warning where a symbol is read on another, and else ValueError is raised. With `quality` the print of
    each symbol is measured.

    Where the library ecc200_sample isn't installed SamplerMissing is raised."""
    given = _loaded(picture)
    _sampler()
    asked = _Asked(most, _MOST_UNREAD if unread else 0, milliseconds, margin, quality).checked()
    found: Findings[Found] = Findings()
    broken: List[str] = []
    for number, page in _pages(given, broken):
        symbols = _searched(page, number, asked)
        found.add(symbols, symbols)
    _tell_broken(broken, any(isinstance(symbol.answer, Reading) for symbol in found))
    return found


def _of_page(page: Any, number: int, asked: _Asked, border_limit: BorderLimit,
             extent: Extent) -> Findings[Union[Reading, Refused]]:
    """What the symbols of a picture say: those that are found, or else the one whose modules the pixels are."""
    found = _searched(page, number, asked) if has_sampler() else Findings()
    answers: Findings[Union[Reading, Refused]] = Findings()
    answers.add((symbol.answer for symbol in found), found)
    if not _only_read(answers):
        spelled = _spelled(page, border_limit, extent)
        if _only_read(spelled) or asked.unread and not answers and _has_border(spelled):
            return Findings(spelled)
    return answers


def _without_margin(rows: Rows) -> Rows:
    """Rows without the light ones around them, and without light columns beside them, where a symbol may have as many
    as are left."""
    dark = [number for number, row in enumerate(rows) if b"\1" in row] or [0]
    rows = rows[dark[0]:dark[-1] + 1]
    if len(rows) ** 2 > _MOST_MODULES:
        return rows
    columns = [number for number, column in enumerate(zip(*rows)) if any(column)] or [0]
    return [row[columns[0]:columns[-1] + 1] for row in rows]


def _spelled(picture: Any, border_limit: BorderLimit, extent: Extent) -> List[Union[Reading, Refused]]:
    """What a picture says whose pixels are modules: dark ones are dark, or, in an array, light ones, as in a grid."""
    if hasattr(picture, "getbbox"):
        return read_many([picture], border_limit, extent)
    pixels, width, height = luminance(picture)
    values = sorted(set(pixels))
    bound = values[-1] if len(values) == 2 else 128
    ways = [bytes((byte < bound) == is_dark for byte in range(256)) for is_dark in (True, False)]
    rows = [pixels[row * width:(row + 1) * width] for row in range(height)]
    answers = read_many([_without_margin([row.translate(way) for row in rows]) for way in ways], border_limit, extent)
    return [*_only_read(answers), *answers][:1]


def _has_border(answers: Iterable[Union[Reading, Refused]]) -> bool:
    """Whether these are of symbols, read or not."""
    return not any(isinstance(answer, Refused) and answer.code in (Code.SHAPE, Code.SIZE, Code.BORDER)
                   for answer in answers)


@overload
def decode(picture: Any, most: int = ..., milliseconds: Optional[int] = ..., border_limit: BorderLimit = ...,
           extent: Extent = ...) -> Findings[Reading]: ...


@overload
def decode(picture: Any, most: int = ..., milliseconds: Optional[int] = ..., border_limit: BorderLimit = ...,
           extent: Extent = ..., *, unread: bool) -> Findings[Union[Reading, Refused]]: ...


def decode(picture: Any, most: int = _MOST_FOUND, milliseconds: Optional[int] = None,
           border_limit: BorderLimit = None, extent: Extent = Extent.WIDE, *, unread: bool = False) -> Any:
    """What the symbols of a grid or of a picture say: a list, empty if nothing is read. Rows, text of 0 and 1, and what
    has `rows`, such as an encoded symbol, are grids; what has the array interface (numpy, OpenCV, Pillow) is a picture,
    on each page of which at most `most` symbols are looked for, wherever they stand, during `milliseconds` or, without
    them, as `find` has it. A memoryview of rows is a grid, or else a picture. The path of a file, an open file, and the
    bytes of one are what the file holds; if that is neither, TypeError is raised. `complete` of the list is false where
    the search of a picture ended before all of it was searched. With `unread` the list also has the Refused of each
    grid that isn't read, and of each symbol that is found and isn't.

    Symbols found in a picture are read at the wide extent, with as many border faults as the search takes. A Pillow
    picture in which nothing is found is read as one symbol with one pixel a module; where that is none, and the library
    ecc200_sample isn't installed, SamplerMissing is raised. A page that can't be opened is a warning where something is
    read on another, and else ValueError is raised."""
    asked = _Asked(most, _MOST_UNREAD if unread else 0, milliseconds).checked()
    _limit(border_limit)  # what a picture has no use for is named, too
    given = _loaded(picture)
    answers: Findings[Union[Reading, Refused]] = Findings()
    if isinstance(given, list) or hasattr(given, "rows") or not hasattr(given, "__array_interface__"):
        answers.extend(read_many(_records(given), border_limit, extent))
        if len(answers) == 1 and isinstance(answers[0], _Foreign):
            raise answers[0]
        if not (isinstance(given, memoryview) and given.ndim > 1) or _only_read(answers):
            return _kept(answers, unread)
    broken: List[str] = []
    for number, page in _pages(given, broken):
        of_page = _of_page(page, number, asked, border_limit, extent)
        answers.add(of_page, of_page)
    _tell_broken(broken, bool(_only_read(answers)))
    if not _only_read(answers):
        _sampler()
    return _kept(answers, unread)


def _kept(answers: Findings[Union[Reading, Refused]], unread: bool) -> Findings[Any]:
    """All answers, or those alone that are readings."""
    if unread:
        return answers
    readings: Findings[Any] = Findings(_only_read(answers))
    readings.tell(answers)
    return readings
