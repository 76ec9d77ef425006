"""GS1 element strings: application identifiers with their values.

    >>> from ecc200 import gs1
    >>> elements = gs1.parse("(01)09521234543213(17)251231(10)ABC123")
    >>> gs1.message(elements)
    b'01095212345432131725123110ABC123'
    >>> gs1.text(gs1.split(b"010952123454321310ABC\\x1d17251231"))
    '(01)09521234543213(10)ABC(17)251231'

A message is written with `write(gs1.message(elements), gs1=True)`. What is read has them as `reading.elements`; where
that is None, `split(reading.data)` says what is wrong. Each value is checked: its length and characters, check digits,
dates, countries and currencies. What doesn't pass raises Faulty, which says what is wrong with which identifier.
Identifiers that the table doesn't have are refused too; with `unknown=True` they pass. Which identifiers there are, and
where they come from, is said in data/gs1_identifiers.txt.
"""
from __future__ import annotations

import functools
import os
import re
from typing import Callable, Dict, FrozenSet, Iterable, Iterator, List, NamedTuple, Optional, Sequence, Tuple, Union

from .core import FNC1

__all__ = ["Element", "Faulty", "Identifier", "elements_of", "identifiers", "items", "message", "parse", "resembles",
           "split", "text"]

_GS = 0x1D
_X = "!\"%&'()*+,-./0123456789:;<=>?ABCDEFGHIJKLMNOPQRSTUVWXYZ_abcdefghijklmnopqrstuvwxyz"
_Y = "#-/0123456789ABCDEFGHIJKLMNOPQRSTUVWXYZ"
_Z = "-0123456789=ABCDEFGHIJKLMNOPQRSTUVWXYZ_abcdefghijklmnopqrstuvwxyz"
_CHARSETS = {"N": ("digits", "0123456789"), "X": ("the characters of GS1", _X),
             "Y": ("capitals, digits, #, - and /", _Y), "Z": ("the characters of file-safe Base 64", _Z)}


class Faulty(ValueError):
    """An element string that GS1's rules don't allow, in words."""


class Element(NamedTuple):
    """An identifier, as 01, and its value, as 09521234543213."""
    identifier: str
    value: str


class Part(NamedTuple):
    """A part of a value: a charset, its least and greatest length, the name of a check or an empty one, and whether it
    may be missing."""
    charset: str
    least: int
    most: int
    check: str
    optional: bool


class Identifier(NamedTuple):
    """An identifier of the table: whether its length is known to all scanners, so that no FNC1 ends it; its parts; its
    title."""
    fixed: bool
    parts: Tuple[Part, ...]
    title: str


# ---- The table

_SOURCE = os.path.join(os.path.dirname(os.path.abspath(__file__)), "data", "gs1_identifiers.txt")
_PART = r"(\[?)([NXYZ])(\.\.)?(\d+)(?::([a-z-]+))?\]?$"


def _part(word: str) -> Part:
    found = re.match(_PART, word)
    if not found:
        raise ValueError(f"{_SOURCE}: a part {word!r}")
    bracket, charset, to, length, check = found.groups()
    return Part(charset, 1 if to else int(length), int(length), check or "", bool(bracket))


def _table(lines: Iterable[str]) -> Dict[str, Identifier]:
    table = {}
    for line in lines:
        if line[:1].isdigit():
            numbers, kind, _, parts, *title = line.split(None, 4)
            first, last = (numbers.split("-") * 2)[:2]
            for number in range(int(first), int(last) + 1):
                table[f"{number:0{len(first)}}"] = Identifier(kind == "fixed", tuple(map(_part, parts.split("+"))),
                                                              "".join(title).strip())
    return table


@functools.lru_cache(maxsize=None)
def _known() -> Dict[str, Identifier]:
    with open(_SOURCE, encoding="utf-8") as file:
        return _table(file)


@functools.lru_cache(maxsize=None)
def _codes() -> Dict[str, FrozenSet[str]]:
    """The codes that a check lets pass, by its name."""
    codes: Dict[str, FrozenSet[str]] = {}
    with open(_SOURCE, encoding="utf-8") as file:
        for line in file:
            if line.startswith(":"):
                check, *listed = line[1:].split()
                codes[check] = codes.get(check, frozenset()).union(listed)
    return codes


# Lengths of the values that all scanners know by the first two digits of the identifier.
_LENGTHS = {"00": 18, "01": 14, "02": 14, "03": 14, "04": 16,
            **{str(two): 6 for two in (*range(11, 20), *range(31, 37))}, "20": 2, "41": 13}


@functools.lru_cache(maxsize=None)
def _digits() -> Dict[str, int]:
    """How many digits an identifier has, by its first two."""
    return {**{number[:2]: len(number) for number in _known()}, **{two: 2 for two in ("04", "14", "18", "19")},
            "31": 4, "32": 4, "33": 4, "34": 4, "35": 4, "36": 4, "41": 3}


def identifiers() -> Dict[str, Identifier]:
    """The table of identifiers."""
    return dict(_known())


def _is_fixed(identifier: str) -> bool:
    return identifier[:2] in _LENGTHS


# ---- Checks: each takes a part of a value, and gives what is wrong with it, or nothing

_PAIR = "23456789ABCDEFGHJKLMNPQRSTUVWXYZ"
_PRIMES = (2, 3, 5, 7, 11, 13, 17, 19, 23, 29, 31, 37, 41, 43, 47, 53, 59, 61, 67, 71, 73, 79, 83)


def check_digit(digits: str) -> str:
    """The check digit that follows these digits."""
    return str(-sum(int(digit) * (3, 1)[place % 2] for place, digit in enumerate(reversed(digits))) % 10)


def check_pair(characters: str) -> str:
    """The two check characters that follow these, of the 82 of GS1, at most 23."""
    total = sum(prime * _X.index(character) for prime, character in zip(_PRIMES, reversed(characters))) % 1021
    return _PAIR[total // 32] + _PAIR[total % 32]


def _check(value: str) -> str:
    wanted = check_digit(value[:-1])
    return "" if value[-1] == wanted else f"its check digit is {value[-1]}, and should be {wanted}"


def _check_pair(value: str) -> str:
    wanted = check_pair(value[:-2]) if len(value) > 2 else ""
    if not wanted:
        return "its check pair is missing"
    return "" if value[-2:] == wanted else f"its check pair is {value[-2:]}, and should be {wanted}"


def _day(year: int, month: str, day: str) -> str:
    import datetime  # (an eighth of the package's import)
    try:
        datetime.date(year, int(month), int(day))
        return ""
    except ValueError:
        return f"there is no month {month}" if not 1 <= int(month) <= 12 else f"month {month} has no day {day}"


def _date(value: str) -> str:
    # 2000 is a leap year, as each year of two digits that four divides may be
    return _day(2000 + int(value[:2]), value[2:4], value[4:6])


def _month_day(value: str) -> str:
    return _date(value[:4] + "01") if value[4:] == "00" else _date(value)


def _full_date(value: str) -> str:
    return _day(int(value[:4]), value[4:6], value[6:8]) if int(value[:4]) else "there is no year 0000"


def _time(value: str) -> str:
    return "" if value == "9999" else _below(24, "hour")(value[:2]) or _below(60, "minute")(value[2:])


def _below(bound: int, what: str) -> Callable[[str], str]:
    return lambda value: "" if int(value) < bound else f"there is no {what} {value}"


def _listed(check: str, what: str, *more: str) -> Callable[[str], str]:
    return lambda value: "" if value in _codes()[check] or value in more else f"there is no {what} {value}"


_CHECKS: Dict[str, Callable[[str], str]] = {
    "": lambda value: "", "check": _check, "pair": _check_pair, "date": _date, "month-day": _month_day,
    "full-date": _full_date, "time": _time,
    "country": _listed("country", "country"), "processor": _listed("country", "country", "999"),
    "letters": _listed("letters", "country"), "currency": _listed("currency", "currency"),
    "hour": _below(24, "hour"), "minute": _below(60, "minute"), "second": _below(60, "second"),
    "minus": lambda value: "" if value == "-" else f"its sign is {value}, and can only be -",
}


def _lengths(parts: Sequence[Part]) -> str:
    """The lengths that a value of these parts may have, in words."""
    most = sum(part.most for part in parts)
    least = sum(part.least for part in parts if not part.optional)
    return f"{most} characters" if least == most else f"{least} to {most} characters"


def _fault(value: str, parts: Sequence[Part]) -> str:
    at = 0
    for part in parts:
        piece = value[at:at + part.most]
        if not piece and part.optional:
            break
        if len(piece) < part.least:
            return f"it takes {_lengths(parts)}, and has {len(value)}"
        name, charset = _CHARSETS[part.charset]
        strange = piece.strip(charset)
        if strange:
            return f"it takes {name}, and not {strange[0]!r}" + (f" in place {at + piece.index(strange[0]) + 1}"
                                                                 if len(value) > 1 else "")
        wrong = _CHECKS[part.check](piece)
        if wrong:
            return str(wrong)
        at += len(piece)
    return "" if at == len(value) else f"it takes {_lengths(parts)}, and has {len(value)}"


def _checked(element: Element, unknown: bool) -> Element:
    identifier, value = element
    known = _known().get(identifier)
    if known is None and not unknown:
        raise Faulty(f"({identifier}) isn't an application identifier of the table")
    if not re.fullmatch("[0-9]{2,4}", identifier):
        raise Faulty(f"({identifier}) isn't an application identifier: these have two to four digits")
    if known is not None:
        fault = _fault(value, known.parts)
    else:
        length = _LENGTHS.get(identifier[:2])
        fault = _fault(value, [Part("X", length or 1, length or 90, "", False)])
    if fault:
        raise Faulty(f"({identifier}) {known.title}: {fault}" if known else f"({identifier}): {fault}")
    return element


# ---- Text and messages

_BRACKETED = r"\((\d*)\)((?:\\\(|[^(])*)"
_SQUARE = r"(?s)\[(\d*)\]([^\[\\]*)"


def parse(text: str, unknown: bool = False) -> List[Element]:
    """The elements of a text as it is printed: each identifier in brackets, and its value behind it. An opening bracket
    that is part of a value is written \\( there, and a backslash can't be part of one. Identifiers may instead all
    stand in square brackets, as zint has them, which are part of no value; round ones in a value are then written as
    they are."""
    return [_checked(element, unknown) for element in _bracketed(text)]


def _bracketed(text: str) -> Iterator[Element]:
    """The elements of a text as they stand there."""
    at, bracketed = 0, re.compile(_SQUARE if text.startswith("[") else _BRACKETED)
    while at < len(text) or not text:
        found = bracketed.match(text, at)
        if not found:
            raise Faulty(f"an identifier in brackets, such as (01), is wanted at character {at + 1}")
        yield Element(found[1], found[2].replace("\\(", "("))
        at = found.end()


def resembles(text: str) -> bool:
    """Whether a text reads like elements: identifiers of the table in brackets, each with a value of its lengths and
    characters, if perhaps with a wrong check digit or date."""
    try:
        elements = [*_bracketed(text)] if text[:1] in ("(", "[") else []
    except Faulty:
        return False
    known = [(_known().get(identifier), value) for identifier, value in elements]
    return bool(known) and all(one is not None and not _fault(value, [part._replace(check="") for part in one.parts])
                               for one, value in known)


def text(elements: Iterable[Element]) -> str:
    """Elements as they are printed."""
    return "".join(f"({identifier})" + value.replace("(", "\\(") for identifier, value in elements)


def message(elements: Sequence[Element]) -> bytes:
    """The bytes of elements, without the FNC1 in front: the byte 0x1D ends each value of variable length that another
    element follows."""
    last = len(elements) - 1
    return "".join(identifier + value + ("" if place == last or _is_fixed(identifier) else "\x1d")
                   for place, (identifier, value) in enumerate(elements)).encode("ascii")


def items(elements: Sequence[Element]) -> List[int]:
    """The items of elements: FNC1 in front, and at the end of each value of variable length that another element
    follows."""
    return [FNC1, *(FNC1 if byte == _GS else byte for byte in message(elements))]


def _identifier(data: str, at: int, unknown: bool) -> str:
    """The identifier that stands here."""
    for digits in (2, 3, 4):
        if data[at:at + digits] in _known():
            return data[at:at + digits]
    digits = _digits().get(data[at:at + 2], 0)
    if not digits:
        raise Faulty(f"no identifier begins with {data[at:at + 2]!r}, so it can't be said where its value begins "
                     f"(character {at + 1})")
    if not unknown:
        raise Faulty(f"({data[at:at + digits]}) isn't an application identifier of the table")
    return data[at:at + digits]


def split(data: Union[bytes, Iterable[int]], unknown: bool = False) -> List[Element]:
    """The elements of a message, without the FNC1 in front: as bytes with 0x1D between elements, or as items with FNC1
    or 0x1D. A separator where none is needed is passed over."""
    numbers = list(data)
    strange = [number for number in numbers if not 0 <= number <= FNC1]
    if strange:
        raise Faulty(f"{strange[0]} is no item of a message")
    letters = "".join(chr(_GS if number == FNC1 else number)
                      for number in (numbers[1:] if numbers[:1] == [FNC1] else numbers))
    if not letters:
        raise Faulty("there is no identifier")
    elements, at = [], 0
    while at < len(letters):
        identifier = _identifier(letters, at, unknown)
        at += len(identifier)
        end = letters.find("\x1d", at)
        end = len(letters) if end < 0 else end
        if _is_fixed(identifier):
            end = min(end, at + _LENGTHS[identifier[:2]])
        elements.append(_checked(Element(identifier, letters[at:end]), unknown))
        at = end + (letters[end:end + 1] == "\x1d")
    return elements


def elements_of(items: Sequence[int]) -> Optional[List[Element]]:
    """The elements of items with FNC1 in front, or None where that isn't there, or a rule isn't kept."""
    try:
        return split(items) if items[:1] == (FNC1,) else None
    except Faulty:
        return None
