"""Tables: labels by the rows of a CSV file, whose headings say what the columns are, and what symbols say as CSV."""
from __future__ import annotations

import argparse
import codecs
import csv
import functools
import io
import os
import re
import sys
from typing import Dict, Iterator, List, NamedTuple, Optional, Sequence, Tuple, Union

from . import core, gs1
from .core import Reading, Refused, Shape
from .labels import Label, printed
from .messages import Unclear, Unwritten, in_words, labelled, content_of
from .sources import Source, Trouble, Unreadable, open_input, whole
from .spelling import plain
from .terminal import say

__all__ = ["Answers", "Sheet", "Table", "known_as", "labels", "table_of"]

MESSAGE, KIND, TEXT, COPIES, FILE, SIZE, UNUSED = "message", "kind", "text", "copies", "file", "size", "-"
_SOURCE = os.path.join(os.path.dirname(os.path.abspath(__file__)), "data", "headings.txt")
_SEPARATORS = (";", "\t", ",")
_MOST_BYTES, _MOST_COPIES = 1 << 28, 9999
_ELEMENT = r"\(?([0-9]{2,4})\)?"
_ENDING = r"(?i)\.(png|svg|pdf|txt)\Z"
_LIVE = ("=", "+", "-", "@", "\t", "\r")  # what begins a formula, or may
_IS_KEPT = r"'[=+@-]"  # how a spreadsheet keeps text that would be one
_CHOICES = "message, kind, text, copies, file, size or an identifier of GS1, as 01, and - leaves it out"
_KINDS = ("text", "gs1", "escapes", "hex")

# What a column is said to be on the command line, by its heading.
Answers = Dict[str, str]


# ---- What the columns are

def _bare(heading: str) -> str:
    return re.sub(r"[\s._-]+", "", heading.lower())


@functools.lru_cache(maxsize=None)
def _known() -> Dict[str, str]:
    """What a column is, by its bare heading."""
    with open(_SOURCE, encoding="utf-8") as file:
        parts = [line.strip().partition(": ") for line in file if not line.startswith("#")]
    return {_bare(heading): meaning for meaning, _, headings in parts for heading in headings.split(", ")}


def known_as(heading: str) -> Optional[str]:
    """What a column of this heading is; None if that isn't known."""
    found = re.fullmatch(_ELEMENT, heading.strip())
    if found:
        return found[1] if found[1] in gs1.identifiers() else None
    return UNUSED if heading.strip() == UNUSED else _known().get(_bare(heading))


class Table(NamedTuple):
    """A table of labels: the name of its file, what its columns are, and its rows below the headings, but blank
    ones."""
    name: str
    columns: List[str]
    rows: List[List[str]]

    def has(self, meaning: str) -> bool:
        """Whether some column is this."""
        return meaning in self.columns

    def cell(self, row: Sequence[str], meaning: str) -> str:
        """What a row has in this column, nothing if there is none."""
        place = self.columns.index(meaning) if meaning in self.columns else len(row)
        return row[place] if place < len(row) else ""


def _checked(table: Table) -> Table:
    """That the columns make labels."""
    elements = [meaning for meaning in table.columns if meaning.isdigit()]
    doubled = {meaning for meaning in table.columns if meaning != UNUSED and table.columns.count(meaning) > 1}
    if doubled:
        raise Trouble(f"{table.name}: two of its columns are {min(doubled)}; --column HEADING=- leaves one out")
    if table.has(MESSAGE) and elements:
        raise Trouble(f"{table.name}: identifiers of GS1 make the message, so that no other column can be it; "
                      "--column HEADING=- leaves one out")
    if not table.has(MESSAGE) and not elements:
        raise Trouble(f"{table.name}: none of its columns is the message; --column HEADING=message says which is")
    return table


def _meanings(name: str, headings: Sequence[str], answers: Answers) -> List[str]:
    meanings = []
    for heading in map(str.strip, headings):
        meaning = answers.get(heading) or (known_as(heading) if heading else UNUSED)
        if meaning is None:
            raise Trouble(f"{name}: the heading {heading!r} isn't known: --column '{heading}=message' says what it is "
                          f"({_CHOICES})")
        meanings.append(meaning)
    for heading in answers:
        if heading not in map(str.strip, headings):
            raise Trouble(f"--column {heading}={answers[heading]}: {name} has no such heading")
    return meanings


def _text_of(name: str) -> str:
    """The text of a file of UTF-8, or of UTF-16 with its mark."""
    try:
        with open_input(name) as stream:
            data = whole(stream, _MOST_BYTES)
    except Unreadable as why:
        raise Trouble(f"{name}: {why}") from None
    try:
        return data.decode("utf-16" if data[:2] in (b"\xff\xfe", b"\xfe\xff") else "utf-8-sig")
    except UnicodeDecodeError:
        raise Trouble(f"{name}: it isn't UTF-8: make it that first, as in  iconv -f WINDOWS-1252 -t UTF-8 < FILE"
                      ) from None


def table_of(name: str, answers: Answers) -> Table:
    """The table in a file, whose columns are what their headings or these answers say. Fields are separated by what the
    first line has of semicolons, tabs and commas."""
    text = _text_of(name)
    first = text.lstrip().split("\n", 1)[0]
    separator = next((each for each in _SEPARATORS if each in re.sub('"[^"]*"', "", first)), ",")
    lines = csv.reader(io.StringIO(text, newline=""), delimiter=separator, strict=True)
    try:
        rows = [row for row in lines if any(map(str.strip, row))]
    except csv.Error as why:
        end = "a quotation mark is never closed" if "end of data" in str(why) else str(why)
        raise Trouble(f"{name}: line {lines.line_num}: {end}, so that its rows can't be told apart") from None
    if not rows:
        raise Trouble(f"{name}: it is empty: there are no headings in it")
    return _checked(Table(name, _meanings(name, rows[0], answers), rows[1:]))


# ---- Labels

def _kept(cell: str, kept: List[str]) -> str:
    """A cell without the apostrophe that a spreadsheet has in front of a text that else would be a formula."""
    if not re.match(_IS_KEPT, cell):
        return cell
    kept.append(cell)
    return cell[1:]


def _copies(cell: str) -> int:
    digits = cell.strip() or "1"
    if not re.fullmatch("[0-9]{1,9}", digits) or int(digits) > _MOST_COPIES:
        raise Unclear(f"{digits!r} is no number of copies from 0 to {_MOST_COPIES}")
    return int(digits)


def _of_kind(cell: str, given: argparse.Namespace) -> argparse.Namespace:
    """What is asked for, with the kind of a message that a cell names, if it does: as the option of its name."""
    kind = cell.strip().lower()
    if not kind:
        return given
    if kind not in _KINDS:
        raise Unclear(f"{cell.strip()!r} is no kind of a message: {', '.join(_KINDS)}")
    return argparse.Namespace(**{**vars(given), **{name: name == kind for name in _KINDS[1:]}})


def _sized(cell: str, given: argparse.Namespace) -> argparse.Namespace:
    """What is asked for, with the size or the shape of a cell, if it has one."""
    word = cell.strip().lower()
    if not word:
        return given
    shapes = [shape.name.lower() for shape in Shape]
    sizes = [f"{size.rows}x{size.columns}" for size in core.sizes()]
    if word not in shapes and word not in sizes:
        raise Unclear(f"{cell.strip()!r} is no size of a symbol, as 8x32, and no shape: {', '.join(shapes)}")
    return argparse.Namespace(**{**vars(given), "size": word if word in sizes else None,
                                 "shape": word if word in shapes else None})


def _elements(table: Table, row: Sequence[str]) -> str:
    """The element string of a row."""
    values = [(meaning, table.cell(row, meaning).strip()) for meaning in table.columns if meaning.isdigit()]
    elements = [gs1.Element(identifier, value) for identifier, value in values if value]
    if not elements:
        raise Unclear("it has no value of an identifier")
    return gs1.text(elements)


def _label(table: Table, row: Sequence[str], number: int, given: argparse.Namespace, kept: List[str]) -> Label:
    if len(row) > len(table.columns):
        raise Unclear(f"it has {len(row)} fields, and there are {len(table.columns)} headings")
    sized = _sized(table.cell(row, SIZE), given)
    if table.has(MESSAGE):
        text = _kept(table.cell(row, MESSAGE), kept)
        if not given.blank and not text.strip():
            raise Unclear("its message is blank, and has no symbol; --blank makes symbols of blank ones too")
        content = content_of(text, number, _of_kind(table.cell(row, KIND), sized))
    else:
        content = content_of(_elements(table, row), number, _of_kind("gs1", sized))
    try:
        label = labelled(content, number, sized)
    except Refused as why:
        raise Unclear(in_words(why, sized)) from None
    parts = printed(_kept(table.cell(row, TEXT), kept)) if table.has(TEXT) else label.parts
    name = table.cell(row, FILE).strip() or "".join(label.parts)
    return label._replace(parts=parts, named_by=re.sub(_ENDING, "", name), copies=_copies(table.cell(row, COPIES)))


def labels(table: Table, given: argparse.Namespace) -> Iterator[Union[Label, Unwritten]]:
    """For each row its label, or why it has none. Labels are numbered as the rows are, from 1 below the headings."""
    kept: List[str] = []
    for number, row in enumerate(table.rows, 1):
        try:
            yield _label(table, row, number, given, kept)
        except ValueError as why:
            yield Unwritten(number, f"{table.name}: row {number}", in_words(why, given))
    if kept:
        say(f"{table.name}: an apostrophe in front of =, +, - or @ is a spreadsheet's, and isn't written (as in "
            f"{kept[0]}; cells like that: {len(kept)})")


# ---- What symbols say

class Sheet:
    """CSV on standard output, in UTF-8 with CR and LF whatever the locale, with a row for each symbol. `elements` are
    the identifiers of GS1 that have columns, by the headings of these."""

    def __init__(self, elements: Dict[str, str], has_mark: bool) -> None:
        self.elements, self.live = elements, 0
        sys.stdout.flush()
        sys.stdout.buffer.write(codecs.BOM_UTF8 if has_mark else b"")
        self._write(["picture", "number", MESSAGE, KIND, *elements, "symbology", SIZE, "corrected", "border", "corners",
                     "not read"])

    def _write(self, cells: Sequence[str]) -> None:
        """Writes a row, with an apostrophe in front of what a spreadsheet would take for a formula."""
        live = [cell.startswith(_LIVE) for cell in cells]
        self.live += sum(live)
        row = io.StringIO()
        csv.writer(row, lineterminator="\r\n").writerow([f"'{cell}" if is_live else cell
                                                         for cell, is_live in zip(cells, live)])
        sys.stdout.buffer.write(row.getvalue().encode("utf-8", "surrogateescape"))
        sys.stdout.buffer.flush()

    def add(self, source: Source, reading: Optional[Reading], said: Tuple[str, str], elements: Dict[str, str],
            fault: str) -> None:
        """Adds a symbol, with its message and the kind of that, or what is said instead of one."""
        corners = source.found.corners if source.found is not None else ()
        told = [reading.symbology, f"{reading.rows}x{reading.columns}", str(sum(reading.corrected)),
                str(reading.border_faults)] if reading is not None else [""] * 4
        self._write(["" if source.file == "-" else plain(source.file), str(source.number or ""), *said,
                     *(elements.get(identifier, "") for identifier in self.elements.values()), *told,
                     " ".join(f"({x:.2f}, {y:.2f})" for x, y in corners), plain(fault)])

    def end(self) -> None:
        """Says how many cells have an apostrophe in front."""
        if self.live:
            say("cells that begin with =, +, - or @, and have an apostrophe in front so that no spreadsheet takes them "
                f"for formulas: {self.live}")
