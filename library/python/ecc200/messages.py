"""The messages of the subcommand write: words of the command line, lines of standard input, or the bytes of a file."""
from __future__ import annotations

import argparse
import functools
import os
import re
from typing import BinaryIO, Iterator, List, NamedTuple, Optional, Sequence, Tuple, Union

from . import core, gs1
from .advice import why_not_written
from .core import FNC1, Extent, Form, Head, Mark, Refused, Shape
from .labels import Label, printed
from .sources import Trouble, open_input
from .spelling import of_spelling, shown, spelled

__all__ = ["Unclear", "Unwritten", "in_words", "labelled", "labels", "content_of"]

_LINE_END = "(\r\n|\n|\r)\\Z"
_UTF16 = (b"\xff\xfe", b"\xfe\xff")
# Bytes of a line, of which a message takes fewer however it is spelled, and of one that is passed over.
_MOST_OF_LINE, _MOST_PASSED = 1 << 16, 1 << 30


class Unwritten(NamedTuple):
    """A message that has no symbol: its number, what it is called, and why, in words."""
    number: int
    name: str
    why: str


class _Given(NamedTuple):
    """A message as it is given: what it is called, and its text, in which bytes that aren't UTF-8 are surrogates, or
    None for a line that is too long."""
    name: str
    text: Optional[str]


def _pass_over(stream: BinaryIO) -> None:
    """Goes to the end of a line."""
    piece = b"of a line"
    for _ in range(_MOST_PASSED // _MOST_OF_LINE):
        if not piece or piece.endswith(b"\n"):
            return
        piece = stream.readline(_MOST_OF_LINE)
    raise Trouble(f"standard input has a line without an end in {_MOST_PASSED >> 30} GiB, and isn't read further")


def _lines() -> Iterator[Optional[str]]:
    """The lines of standard input, with None for each that is too long."""
    with open_input("-") as stream:
        if stream.peek(2)[:2] in _UTF16:
            raise Trouble("standard input is UTF-16, and lines of UTF-8 are wanted: make it that first, as in  "
                          "iconv -f UTF-16 -t UTF-8 < FILE")
        for line in iter(functools.partial(stream.readline, _MOST_OF_LINE + 1), b""):
            is_long = len(line) > _MOST_OF_LINE
            yield None if is_long else line.decode("utf-8", "surrogateescape")
            if is_long:
                _pass_over(stream)


def _word(word: str) -> str:
    """A word of the command line. Bytes that the locale has no letters for are UTF-8."""
    is_text = not any("\udc80" <= letter <= "\udcff" for letter in word)
    return word if is_text else os.fsencode(word).decode("utf-8", "surrogateescape")


def _given(messages: List[str]) -> Iterator[_Given]:
    """The messages, without a byte order mark in front of the first, and without the line end behind each."""
    name, texts = ("message", map(_word, messages)) if messages else ("line", _lines())
    for number, text in enumerate(texts, 1):
        bare = None if text is None else re.sub(_LINE_END, "", text)
        yield _Given(f"{name} {number}", bare[1:] if bare and number == 1 and bare[0] == "\ufeff" else bare)


class Unclear(ValueError):
    """Why a text is no message, in words."""


def _check(text: str, is_line: bool) -> None:
    """That a text is UTF-8, and that a line has no CR inside."""
    try:
        text.encode("utf-8")
    except UnicodeEncodeError as why:
        byte = ord(text[why.start]) - 0xDC00
        raise Unclear(f"it isn't UTF-8: its character {why.start + 1} is the byte {byte:02X}. iconv makes other "
                       "charsets UTF-8; --escapes, --hex and --bytes take any bytes") from None
    if is_line and "\r" in text:
        raise Unclear("it has a CR inside; if that is part of the message, write it as \\x0D with --escapes")


def _of_hexadecimal(text: str) -> bytes:
    """The bytes that two digits each stand for."""
    strange = re.search(r"[^0-9A-Fa-f\s]", text)
    if strange:
        raise Unclear(f"it has {strange[0]!r}, which is no hexadecimal digit")
    try:
        return bytes.fromhex(text)
    except ValueError:
        raise Unclear("each byte takes two hexadecimal digits side by side, as 41 for A, and it has "
                       f"{len(''.join(text.split()))}: {text}") from None


class _Content(NamedTuple):
    """What a symbol is to say: items, marks among them, and a head; its text in parts; and whether this reads like GS1
    data and isn't."""
    items: Sequence[int]
    marks: Tuple[Mark, ...]
    head: Head
    parts: Tuple[str, ...]
    only_looks_gs1: bool = False


def _charset(given: argparse.Namespace) -> str:
    """The charset of text that is spelled, or stands behind the ECI that is asked for, which may name none."""
    behind = "utf-8" if given.eci is None else core.charset_of(given.eci) or "ascii"
    return str(given.charset or behind)


def _marked(text: str, number: int, given: argparse.Namespace) -> Tuple[bytes, Tuple[Mark, ...]]:
    """The bytes of a text, and the marks by which they are read as it. In a part of what several symbols say the
    charset of those before it would hold, so that its own is marked, unless it is ASCII."""
    head = _of_message(given.head, number)
    how = core._chosen(Form[given.form.upper()], _size(given), _shape(given), given.extent, head)
    data, marks = core.content_in(text, given.charset, False, how)
    eci = core.assignment(given.charset or "iso-8859-1")
    is_alone = not isinstance(given.head, tuple) or data.isascii()
    return data, marks if marks or is_alone or eci is None else ((0, eci),)


def _of_text(text: str, number: int, given: argparse.Namespace) -> _Content:
    """What a text says: with the marks by which it is read as it was written, unless its charset is asked for by its
    number, or its readers know no marks."""
    marks: Tuple[Mark, ...] = ()
    if given.eci is not None:
        data = core.encoded(text, _charset(given))
    elif given.extent == Extent.WIDE:
        data, marks = _marked(text, number, given)
    else:
        data = core.unmarked(text, given.charset)
    return _Content(data, marks, None, printed(text), gs1.resembles(text))


def _of_spelling(text: str, given: argparse.Namespace) -> _Content:
    """What a text says that is spelled."""
    items, marks, head = of_spelling(text, _charset(given))
    if head is not None and given.head is not None:
        raise Unclear("it begins with a head, and --append and --programming are another")
    return _Content(items, tuple(marks), head, printed(spelled(items, marks)))


def content_of(text: str, number: int, given: argparse.Namespace) -> _Content:
    """What a message says."""
    if given.gs1:
        elements = gs1.parse(text, given.unknown)
        return _Content(gs1.items(elements), (), None, tuple(gs1.text([element]) for element in elements))
    if given.hex:
        data = _of_hexadecimal(text)
        return _Content(data, (), None, (data.hex(),))
    return _of_spelling(text, given) if given.escapes else _of_text(text, number, given)


def _of_message(head: Head, number: int) -> Head:
    """The head of a message: of parts this one is the first message's, and those that follow are the next ones'."""
    if not isinstance(head, tuple):
        return head
    part, of, first, second = head
    if part + number - 1 > of:
        raise Unclear(f"it would be part {part + number - 1}, and there are {of}")
    return part + number - 1, of, first, second


def _whole(content: _Content, number: int, given: argparse.Namespace) -> _Content:
    """What a symbol is to say with what the command line says of each."""
    head, marks = content.head or _of_message(given.head, number), content.marks
    if given.eci is not None:
        marks = ((int(tuple(content.items[:1]) == (FNC1,)), given.eci), *marks)
    if given.extent == Extent.USUAL and (marks or head):
        raise Unclear("the readers that --basic is for know neither ECI nor structured append nor reader programming")
    return content._replace(marks=marks, head=head)


def _size(given: argparse.Namespace) -> Optional[Tuple[int, int]]:
    """The rows and columns that are asked for."""
    if given.size is None:
        return None
    rows, columns = given.size.split("x")
    return int(rows), int(columns)


def _shape(given: argparse.Namespace) -> Optional[Shape]:
    return None if given.shape is None else Shape[given.shape.upper()]


def labelled(content: _Content, number: int, given: argparse.Namespace) -> Label:
    whole = _whole(content, number, given)
    rows = core.write(whole.items, size=_size(given), shape=_shape(given), marks=whole.marks, head=whole.head,
                      form=Form[given.form.upper()], extent=given.extent)
    return Label(number, whole.parts, rows, whole.only_looks_gs1)


def in_words(why: ValueError, given: argparse.Namespace) -> str:
    if isinstance(why, Refused):
        return why_not_written(why, _size(given), _shape(given))
    if isinstance(why, UnicodeEncodeError):
        return f"the charset {_charset(given)} has no {why.object[why.start]!r}; name another by --charset, as utf-8"
    return str(why)


def _of_bytes(data: bytes, number: int, name: str, given: argparse.Namespace) -> Union[Label, Unwritten]:
    marks = () if given.eci is None else ((0, given.eci),)
    try:
        return labelled(_Content(data, (), None, printed(shown(data, marks))), number, given)
    except ValueError as why:
        return Unwritten(number, name, in_words(why, given))


def _of_file(name: str, given: argparse.Namespace) -> Union[Label, Unwritten]:
    with open_input(name) as stream:
        data = stream.read(core.MOST_ITEMS + 1)  # (so many are refused)
    return _of_bytes(data, 1, "standard input" if name == "-" else name, given)


def labels(given: argparse.Namespace) -> Iterator[Union[Label, Unwritten]]:
    """For each message its label, or why it has none. Labels are numbered as the messages are."""
    if given.bytes is not None:
        if given.messages:
            raise Trouble(f"--bytes {given.bytes}: this file is the message, and {given.messages[0]!r} would be "
                          "another")
        yield _of_file(given.bytes, given)
        return
    if given.raw:
        for number, word in enumerate(given.messages, 1):
            yield _of_bytes(os.fsencode(word), number, f"message {number}", given)
        if not given.messages:
            yield _of_file("-", given)
        return
    is_batch = not given.messages
    for number, (name, text) in enumerate(_given(given.messages), 1):
        try:
            if text is None:
                raise Unclear(f"it has more than {_MOST_OF_LINE:,} bytes, and no message is so long")
            if is_batch and not given.blank and not text.strip():
                raise Unclear("it is blank, and has no symbol; --blank makes symbols of blank lines too")
            _check(text, is_batch)
            yield labelled(content_of(text, number, given), number, given)
        except ValueError as why:
            yield Unwritten(number, name, in_words(why, given))
