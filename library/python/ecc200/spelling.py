"""Messages as text to be shown: characters as they are, with a backslash before what isn't one."""
from __future__ import annotations

import os
import re
import unicodedata
from typing import Iterable, List, NamedTuple, Optional, Sequence, Tuple

from .core import FNC1, Head, Mark, encoded, text_of

__all__ = ["Misspelled", "Spelled", "headed", "is_plain", "of_part", "of_spelling", "part_of", "plain", "shown",
           "spelled"]

_CONTROLS = ("Cc", "Cs", "Zl", "Zp")
_TURNS = ("LRE", "RLE", "LRO", "RLO", "PDF", "LRI", "RLI", "FSI", "PDI")
_HEAD = r"\\(?:(P)|A\{([^}]*)\})"
_ESCAPE = r"(?s)\\(\\|F|x[0-9A-Fa-f]{2}|E\{[0-9]{1,6}\})|\\(.?)|([^\\]+)"
_PART = "([0-9]{1,2})/([0-9]{1,2})(?::([0-9]{3})([0-9]{3}))?"


class Misspelled(ValueError):
    """A text with a backslash before something that isn't spelled so."""


class Spelled(NamedTuple):
    """What a text spells: items, marks among them, and a head."""
    items: List[int]
    marks: List[Mark]
    head: Head


def part_of(head: Tuple[int, int, int, int]) -> str:
    """A part of what several symbols say, as the command line has it: 2/5:001002."""
    return "{}/{}:{:03}{:03}".format(*head)


def of_part(text: str) -> Tuple[int, int, int, int]:
    """A part as the command line has it, as 2/5:001002, or as 2/5, whose file has the numbers 1 and 1."""
    found = re.fullmatch(_PART, text)
    part, of, first, second = (int(number or 1) for number in found.groups()) if found else (0, 0, 0, 0)
    if not 1 <= part <= of or not 2 <= of <= 16 or not 1 <= first <= 254 or not 1 <= second <= 254:
        raise Misspelled("a part of 2 to 16 is wanted, as 2/5, or as 2/5:001002 with two numbers from 001 to 254 that "
                         f"all parts have in common, unlike {text!r}")
    return part, of, first, second


def headed(head: Head) -> str:
    """What a symbol with this head is, in words."""
    if head is None:
        return "a whole message"
    if isinstance(head, str):
        return "an instruction to the reader (reader programming)"
    part, of, *file = head
    return f"part {part} of {of} of the file {file[0]:03}{file[1]:03} (structured append)"


def _spelled_head(head: Head) -> str:
    return "" if head is None else "\\P" if isinstance(head, str) else f"\\A{{{part_of(head)}}}"


def spelled(items: Iterable[int], marks: Sequence[Mark] = (), head: Head = None) -> str:
    """Items as dm_tool spells them: \\F is FNC1, \\\\ a backslash, \\xHH a byte that isn't a printable character of
    ASCII. Among them \\E{26} is the mark of ECI 26; in front of them \\A{2/5:001002} is a part of what several symbols
    say, and \\P reader programming."""
    each = ["\\F" if item == FNC1 else "\\\\" if item == 92 else chr(item) if 32 <= item < 127
            else f"\\x{item:02X}" for item in items]
    for place, number in reversed(marks):
        each.insert(place, f"\\E{{{number}}}")
    return _spelled_head(head) + "".join(each)


def _is_shown(letter: str) -> bool:
    """Whether a letter is shown as it is: all but what ends a line, controls a terminal, or turns letters around."""
    return (letter.isprintable() or unicodedata.category(letter) not in _CONTROLS
            and unicodedata.bidirectional(letter) not in _TURNS)


def is_plain(text: str) -> bool:
    """Whether a text has no controls but line ends and tabs."""
    return all(letter in "\n\r\t" or _is_shown(letter) for letter in text)


def _plain_bytes(found: "re.Match[str]") -> str:
    """Bytes in a row that the locale has no letters for, as they are where they are letters of UTF-8 that are shown, or
    no byte of a terminal's controls."""
    letters = os.fsencode(found[0]).decode("utf-8", "surrogateescape")
    each = ((letter, letter.encode("utf-8", "surrogateescape")) for letter in letters)
    return "".join(data.decode("ascii", "surrogateescape") if _is_shown(letter) or "\udca0" <= letter <= "\udcff"
                   else spelled(data) for letter, data in each)


def plain(text: str) -> str:
    """A text with the names of files in it as a line of a terminal: what would end the line, control the terminal or
    turn letters around is spelled, as \\x1B."""
    if text.isprintable():
        return text
    shown_alone = "".join(letter if _is_shown(letter) or "\udc80" <= letter <= "\udcff"
                          else spelled(letter.encode("utf-8", "replace")) for letter in text)
    return re.sub("[\udc80-\udcff]+", _plain_bytes, shown_alone)


def _is_by_letters(text: str, name: str, data: bytes) -> bool:
    """Whether the letters of a text have the bytes in it that each has by itself in this charset, or charsets."""
    try:
        return "," not in name and b"".join(letter.encode(name) for letter in text) == data
    except UnicodeError:
        return False


def shown(items: Iterable[int], marks: Sequence[Mark] = (), charset: Optional[str] = None) -> str:
    """Items as text, with controls spelled, and all of it spelled where they are no text."""
    items = tuple(items)
    if FNC1 in items or not marks and all(item < 128 for item in items):
        return spelled(items, marks)
    text, name = text_of(items, marks, charset)
    if text is None or not all(map(_is_shown, text)) and not _is_by_letters(text, name, bytes(items)):
        return spelled(items, marks)
    return "".join("\\\\" if letter == "\\" else letter if _is_shown(letter) else spelled(letter.encode(name))
                   for letter in text)


def _of_head(text: str) -> Tuple[Head, str]:
    """The head that a text begins with, and the rest of the text."""
    found = re.match(_HEAD, text)
    if found is None:
        return None, text
    return "programming" if found[1] else of_part(found[2]), text[found.end():]


def of_spelling(text: str, charset: str) -> Spelled:
    """What a text spells, with its characters in this charset."""
    items: List[int] = []
    marks: List[Mark] = []
    head, rest = _of_head(text)
    for found in re.finditer(_ESCAPE, rest):
        escape, wrong, plain = found.groups()
        if plain is not None:
            items += encoded(plain, charset)
        elif escape is None:
            raise Misspelled(f"a backslash is followed by {wrong!r}; there are \\\\, \\F, \\xHH and \\E{{26}}, and in "
                             "front \\A{2/5:001002} and \\P")
        elif escape[0] == "E":
            marks.append((len(items), int(escape[2:-1])))
        else:
            items.append(FNC1 if escape == "F" else 92 if escape == "\\" else int(escape[1:], 16))
    return Spelled(items, marks, head)
