"""What each codeword of a symbol stands for. What the symbol says is read by the library; the meanings told here are
compared with that: the items, the marks and the head."""
from __future__ import annotations

from typing import Iterator, List, NamedTuple, Optional, Sequence, Tuple

from . import core
from .core import BorderLimit, Extent, FNC1, Grid, Head, Mark, Reading, Refused, charset_of
from .spelling import spelled

__all__ = ["Codeword", "Explanation", "explain"]

_LATCHES = {230: "C40", 231: "Base 256", 238: "X12", 239: "Text", 240: "EDIFACT"}
_APPEND, _PROGRAMMING, _ECI = 233, 234, 241
_OTHERS = {_APPEND: "structured append", _PROGRAMMING: "reader programming", 236: "macro 05", 237: "macro 06"}
_PAD, _UPPER_SHIFT, _FNC1_WORD, _UNLATCH, _EDIFACT_UNLATCH = 129, 235, 232, 254, 31
_TRIPLETS = (230, 238, 239)
_MACROS = {236: b"05", 237: b"06"}


class Codeword(NamedTuple):
    """A codeword: its place, which counts from 1; its value, corrected if it can be; its value in the symbol; the
    encodation in which it stands; and what it means."""
    place: int
    value: int
    held: int
    encodation: str
    meaning: str


class Explanation(NamedTuple):
    """The codewords of a symbol, and what it says, or why it isn't read."""
    codewords: List[Codeword]
    reading: Optional[Reading]
    refused: Optional[Refused]


class _Told:
    """The meanings of data codewords, as far as they were told, and the items, the marks and the head for which these
    stand."""

    def __init__(self, data: bytes) -> None:
        self.data = data
        self.meanings: List[Tuple[str, str]] = []
        self.items: List[int] = []
        self.marks: List[Mark] = []
        self.head: Head = None

    @property
    def at(self) -> int:
        return len(self.meanings)

    @property
    def left(self) -> int:
        return len(self.data) - self.at

    def say(self, encodation: str, meaning: str, items: Sequence[int] = ()) -> None:
        self.meanings.append((encodation, meaning))
        self.items += items


def _character(item: int) -> str:
    if 33 <= item <= 126:
        return f"the character {spelled((item,))}"
    return {32: "a space", FNC1: "FNC1"}.get(item, f"the byte {item}")


def _listed(items: Sequence[int]) -> str:
    return ", ".join(map(_character, items)) or "nothing by itself"


# ---- ASCII

def _tell_ascii(told: _Told) -> None:
    """One codeword in ASCII, or a latch and its run."""
    value = told.data[told.at]
    if 1 <= value <= 128:
        told.say("ASCII", _character(value - 1), [value - 1])
    elif 130 <= value <= 229:
        told.say("ASCII", f"the digits {value - 130:02}", f"{value - 130:02}".encode())
    elif value == _FNC1_WORD:
        told.say("ASCII", "FNC1", [FNC1])
    elif value == _UPPER_SHIFT:
        told.say("ASCII", "an Upper Shift: 128 more for the next character")
        if told.left and 1 <= told.data[told.at] <= 128:
            item = told.data[told.at] + 127
            told.say("ASCII", f"the byte {item}, with the 128 of the Upper Shift", [item])
    elif value in _LATCHES:
        told.say("ASCII", f"a latch to {_LATCHES[value]}")
        {231: _tell_bytes, 240: _tell_groups}.get(value, lambda told: _tell_triplets(_LATCHES[value], told))(told)
    elif value == _ECI:
        _tell_mark(told)
    else:
        told.say("ASCII", f"{_OTHERS[value]}, which only stands in front" if value in _OTHERS
                 else "a reserved codeword")


def _tell_mark(told: _Told) -> None:
    """An ECI and its designator, of one to three codewords."""
    told.say("ASCII", "an ECI: its number says how what follows is meant")
    words = [*told.data[told.at:told.at + 3], 0, 0, 0]
    count = 1 if words[0] < 128 else 2 if words[0] < 192 else 3
    number = words[0] - 1
    if count == 2:
        number = (words[0] - 128) * 254 + 127 + words[1] - 1
    if count == 3:
        number = (words[0] - 192) * 64516 + 16383 + (words[1] - 1) * 254 + words[2] - 1
    told.marks.append((len(told.items), number))
    charset = charset_of(number)
    meant = f"ECI {number}" + (f", {charset}" if charset else "")
    beside = {1: [""], 2: [", with the next codeword", ", with the codeword before"],
              3: [", with the next two codewords", ", with the codewords beside it", ", with the two codewords before"]}
    for which in beside[count][:told.left]:
        told.say("ECI", f"{meant}{which}")


def _tell_part(told: _Told) -> None:
    """A structured append: which part, and the two numbers of the file."""
    part, of, first, second = told.data[1] // 16 + 1, 17 - told.data[1] % 16, told.data[2], told.data[3]
    told.head = part, of, first, second
    told.say("ASCII", "structured append: the symbol is a part of what several say together")
    told.say("", f"part {part} of {of}")
    told.say("", f"the first number of their file, {first}")
    told.say("", f"the second number of their file, {second}")


def _tell_head(told: _Told) -> None:
    """A head, or the empty runs in front of a macro, and this."""
    data, start = told.data, 0
    if data[0] == _APPEND and len(data) > 3:
        _tell_part(told)
        return
    if data[0] == _PROGRAMMING:
        told.head = "programming"
        told.say("ASCII", "reader programming: the message is for the reader")
        return
    while data[start] in _TRIPLETS and data[start + 1:start + 3][:1] == bytes([_UNLATCH]) and start + 2 < len(data):
        start += 2
    macro = _MACROS.get(data[start])
    while macro and told.at < start:
        _tell_ascii(told)
    if macro:
        told.say("ASCII", f"macro {macro.decode()}: [)>, RS, {macro.decode()} and GS in front of the message, RS and "
                 "EOT behind it", b"[)>\x1e" + macro + b"\x1d")


# ---- Base 256

def _plain(told: _Told, at: int) -> int:
    """A codeword of Base 256 without the number that depends on its place."""
    return (told.data[at] - (149 * (at + 1) % 255 + 1)) % 256


def _tell_bytes(told: _Told) -> None:
    if not told.left:
        return
    name, length = "Base 256", _plain(told, told.at)
    if length < 250:
        told.say(name, f"the length: {length} bytes" if length else "the length: to the end of the symbol")
        length = length or told.left
    elif told.left > 1:
        length = 250 * (length - 249) + _plain(told, told.at + 1)
        told.say(name, f"the length, with the next codeword: {length} bytes")
        told.say(name, f"the length, with the codeword before: {length} bytes")
    for _ in range(min(length, told.left)):
        item = _plain(told, told.at)
        told.say(name, _character(item), [item])


# ---- C40, Text and X12

def _basic(mode: str, value: int) -> int:
    if mode == "X12" and value < 4:
        return (13, 42, 62, 32)[value]
    return 32 if value == 3 else value + 44 if value < 14 else value + (83 if mode == "Text" else 51)


def _shifted(mode: str, shift: int, value: int) -> int:
    """The item of a value behind Shift 1, 2 or 3."""
    if shift == 1:
        return value
    if shift == 2:
        return FNC1 if value == 27 else value + (33 if value < 15 else 43 if value < 22 else 69)
    return value + 96 if mode == "C40" or value in (0, *range(27, 32)) else value + 64


class _Values:
    """Values of C40, Text or X12 one after another, with the shifts that wait."""

    def __init__(self, mode: str) -> None:
        self.mode, self.shift, self.upper = mode, 0, 0

    def take(self, value: int) -> Tuple[str, List[int]]:
        """What a value is, and its items."""
        shift, self.shift = self.shift, 0
        if self.mode != "X12" and not shift and value < 3:
            self.shift = value + 1
            return f"Shift {value + 1}", []
        if shift == 2 and value == 30:
            self.upper = 128
            return "an Upper Shift", []
        item = _shifted(self.mode, shift, value) if shift else _basic(self.mode, value)
        item, self.upper = item + self.upper, 0
        return _character(item), [item]


def _tell_triplets(mode: str, told: _Told) -> None:
    values = _Values(mode)
    while told.left >= 2 and told.data[told.at] != _UNLATCH:
        pair = told.data[told.at] * 256 + told.data[told.at + 1] - 1
        three = pair // 1600, pair // 40 % 40, pair % 40
        parts = [values.take(value) for value in three]
        meaning = f"the values {', '.join(map(str, three))}: {', '.join(words for words, _ in parts)}"
        told.say(mode, f"with the next codeword {meaning}", [item for _, items in parts for item in items])
        told.say(mode, "the second half of these values")
    if told.left and told.data[told.at] == _UNLATCH:
        told.say(mode, "an unlatch, back to ASCII")


# ---- EDIFACT

def _tell_groups(told: _Told) -> None:
    """Groups of three codewords with four values, up to an unlatch, or until at most two codewords are left."""
    while told.left > 2:
        three = int.from_bytes(told.data[told.at:told.at + 3], "big")
        four = [three >> 18, three >> 12 & 63, three >> 6 & 63, three & 63]
        end = four.index(_EDIFACT_UNLATCH) if _EDIFACT_UNLATCH in four else None
        items = [value + 64 if value < 32 else value for value in four[:end]]
        words = _listed(items) if items else ""
        if end is not None:
            words = (words + ", " if words else "") + "and an unlatch, back to ASCII"
        count = 3 if end is None else min(end + 1, 3)
        told.say("EDIFACT", f"the values {', '.join(map(str, four[:None if end is None else end + 1]))}: {words}",
                 items)
        for _ in range(count - 1):
            told.say("EDIFACT", "more of these values")
        if end is not None:
            return


# ---- The whole

def _tell(data: bytes) -> _Told:
    told = _Told(data)
    _tell_head(told)
    macro = bool(told.items)
    while told.left and data[told.at] != _PAD:
        _tell_ascii(told)
    told.items += b"\x1e\x04" if macro else b""
    if told.left:
        told.say("ASCII", "the end of the message, and the first pad")
    while told.left:
        told.say("ASCII", "a pad")
    return told


def _meanings(data: bytes, reading: Optional[Reading], refused: Optional[Refused]) -> Iterator[Tuple[str, str]]:
    """The meanings as far as the message was read: up to the fault, if there is one."""
    told = _tell(data)
    said = told.head, tuple(told.items), tuple(told.marks)
    if reading is not None and said != (reading.head, reading.items, reading.marks):
        raise AssertionError("the meanings told here aren't what the library reads")
    known = len(data) if refused is None else max(0, refused.place - 1)
    for place, meaning in enumerate(told.meanings):
        if place < known:
            yield meaning
        else:
            yield ("", "what can't be read begins here" if place == known else "not read")


def explain(grid: Grid, border_limit: BorderLimit = None, extent: Extent = Extent.WIDE,
            doubtful: Optional[Grid] = None) -> Explanation:
    """The codewords of a grid with what each means: the data codewords, and then the check codewords. Beyond correction
    none has a meaning."""
    seen = core.inspect(grid, doubtful)
    reading, refused = None, None
    try:
        reading = core.read(grid, border_limit, extent, doubtful)
    except Refused as why:
        refused = why
    _, rows, columns = core._modules(grid)
    size = core._size_of(rows, columns)
    data = seen.mended[:size.data_codewords]
    if None in seen.corrected:
        meanings = [("", "unknown: its block is beyond correction" if seen.corrected[place % size.blocks] is None
                     else "not read")
                    for place in range(len(data))]
    elif refused is not None and refused.code == core.Code.BORDER:
        meanings = [("", "not read, since the border is wrong")] * len(data)
    else:
        meanings = list(_meanings(data, reading, refused))
    first = 0 if seen.dealing else len(data)
    meanings += [("", f"a check codeword of block {(first + place) % size.blocks + 1}")
                 for place in range(len(seen.mended) - len(data))]
    return Explanation([Codeword(place + 1, seen.mended[place], seen.held[place], *meanings[place])
                        for place in range(len(seen.mended))], reading, refused)
