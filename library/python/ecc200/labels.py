"""Labels: symbols as the command line asks for them, as grids, as blocks on a terminal, or as pictures in files."""
from __future__ import annotations

import argparse
import errno
import os
import re
import sys
import unicodedata
from typing import Dict, List, NamedTuple, Optional, Sequence, Tuple

from . import drawing, files, font, terminal
from .core import Rows
from .progress import Progress
from .sources import Trouble

__all__ = ["KINDS", "Label", "Output", "printed", "safe"]

KINDS = ("png", "svg", "pdf", "txt", "blocks")
_DRAWN = ("png", "svg", "pdf")
_INCH = 25.4
_MOST_OFF = 0.02  # how much a module may be off before it is said, as a part of its side
_MOST_NAME = 150  # bytes of a message in the name of a file
_ALONE, _ON_SHEETS = 2, 4  # modules of the quiet zone, unless another is asked for
_FOR_ALL = (errno.ENOSPC, errno.EDQUOT, errno.EROFS)  # what keeps every file from being written


class Label(NamedTuple):
    """A symbol to be put out: its number, which counts messages or symbols from 1; what it says, in parts between which
    a line may end; its rows, which are none where a grid was refused; whether it reads like GS1 data and isn't; what
    its file is named by; how many there are to be of it, and which of these it is."""
    number: int
    parts: Tuple[str, ...]
    rows: Rows
    only_looks_gs1: bool = False
    named_by: str = ""
    copies: int = 1
    copy: int = 1


def printed(text: str) -> Tuple[str, ...]:
    """A text as a caption has it: its words with the spaces behind them, accents joined to their letters, and a space
    for what isn't printable."""
    text = unicodedata.normalize("NFC", text)
    if not text.isprintable():
        text = "".join(letter if letter.isprintable() else " " for letter in text)
    return tuple(re.findall(r"\S+ *| +", text))


def safe(text: str) -> str:
    """A text as a part of a file's name: letters, digits, -, _ and dots inside; what else there is becomes _."""
    plain = re.sub(r"[^\w.-]+", "_", text).strip("_.-")
    return plain.encode()[:_MOST_NAME].decode(errors="ignore") or "empty"


def _grid(rows: Rows) -> str:
    return "".join("".join("01"[module] for module in row) + "\n" for row in rows) + "\n" if rows else "\\no\n\n"


def _of_copy(label: Label) -> str:
    """What the name of a file has where there are several of a label."""
    return f"-{label.copy}" if label.copies > 1 else ""


class Output:
    """Where labels go and how, as the command line asks; Trouble says what can't be done so."""

    def __init__(self, given: argparse.Namespace) -> None:
        self.file: Optional[str] = None if given.output == "-" else given.output
        usual = _ALONE if given.sheet is None else _ON_SHEETS
        self.quiet: int = usual if given.quiet_zone is None else given.quiet_zone
        self.captions: bool = given.caption
        self.kind = self._kind(given)
        self._check_folder()
        self.sheet = self._sheet(given)
        self.module, self.dpi = self._module(given), float(given.dpi)
        self.dot = drawing.DOT
        if self.kind == "png":
            self._round(given.module)
        self.names: Dict[str, int] = {}
        self.status = 0  # what files that can't be written make the command's

    # ---- What is asked for

    def _kind(self, given: argparse.Namespace) -> str:
        if given.format:
            kind = str(given.format)
        elif self.file is not None:
            kind = os.path.splitext(self.file)[1][1:].lower()
            if kind not in (*_DRAWN, "txt"):
                raise Trouble(f"{self.file}: its name should end with .png, .svg, .pdf or .txt, or --format say which"
                              " it is")
        else:
            kind = "blocks" if terminal.is_terminal() and terminal.can_show() else "txt"
        if kind == "blocks" and not terminal.can_show():
            raise Trouble("--format blocks: the charset of standard output has no half blocks")
        if kind in ("png", "pdf") and self.file is None and terminal.is_terminal():
            raise Trouble("a picture isn't put onto a terminal: send it on, as in  > label.png, or name a file by -o")
        if self.captions and kind == "txt":
            raise Trouble("--caption: a grid has none; it needs a picture, as -o label.png, or --format blocks")
        return kind

    def _check_folder(self) -> None:
        """That the folder of the files is there, if it is one for all."""
        folder = os.path.dirname(self.file or "")
        if folder and "{}" not in folder and not os.path.isdir(folder):
            raise Trouble(f"{self.file}: there is no folder {folder}; make it first")

    def _sheet(self, given: argparse.Namespace) -> Optional[Tuple[float, float]]:
        if given.sheet is None:
            return None
        found = re.fullmatch(r"(\d+(?:\.\d+)?)x(\d+(?:\.\d+)?)", given.sheet)
        if not found:
            raise Trouble(f"--sheet {given.sheet}: a size in millimetres is wanted, as 210x297; if that is a message, "
                          "put it before --sheet")
        if self.kind not in _DRAWN:
            raise Trouble("--sheet: sheets are pictures, and need -o FILE, its name ending with .pdf, .svg or .png")
        if self.is_named:
            raise Trouble(f"{self.file}: a sheet has several messages, and can't be named by one")
        return float(found[1]), float(found[2])

    @staticmethod
    def _module(given: argparse.Namespace) -> float:
        """The side of a module in millimetres."""
        found = re.fullmatch(r"(\d+(?:\.\d+)?)(mm)?", given.module)
        size = float(found[1]) if found else 0
        if not found or not 0.01 <= size <= 1000 or (not found[2] and size != int(size)):
            raise Trouble(f"--module {given.module}: a size is wanted, as 0.5mm, or as 8, a whole number of dots")
        if not 1 <= given.dpi <= 100000:
            raise Trouble(f"--dpi {given.dpi:g}: a resolution is wanted, as 300")
        return size if found[2] else size * _INCH / float(given.dpi)

    def _round(self, asked: str) -> None:
        """Makes modules, and the dots of letters, whole numbers of dots of the resolution. Says how wide a module is
        then, where that is another width."""
        dots = drawing.dots(self.module, self.dpi)
        made = dots * _INCH / self.dpi
        if abs(made - self.module) > _MOST_OFF * self.module:
            terminal.say(f"a module of {asked} isn't a whole number of dots at {self.dpi:g} dots an inch: it is drawn "
                         f"as {dots} dot{'s' * (dots > 1)}, {made:.3g} mm")
        self.module, self.dot = made, drawing.dots(drawing.DOT, self.dpi) * _INCH / self.dpi

    @property
    def is_named(self) -> bool:
        """Whether files are named by their messages."""
        return self.file is not None and "{}" in self.file

    @property
    def is_of_grids(self) -> bool:
        """Whether labels are grids, one after another."""
        return self.kind == "txt" and not self.is_named

    @property
    def shows(self) -> bool:
        """Whether labels go to standard output one by one."""
        return self.file is None and self.kind in ("txt", "blocks")

    # ---- Labels put out

    def show(self, label: Label) -> None:
        """Prints a label on standard output, at once."""
        if self.kind == "txt":
            text = _grid(label.rows)
        else:
            width = len(label.rows[0]) + 2 * self.quiet
            if terminal.is_terminal() and 0 < terminal.columns() < width:
                terminal.say(f"the terminal has {terminal.columns()} columns, and the symbol takes {width}")
            text = "\n".join(self._lines(label, terminal.is_terminal())) + "\n\n"
        sys.stdout.write(text)
        sys.stdout.flush()

    def put(self, labels: Sequence[Label], count: int) -> None:
        """Writes labels into files, or onto standard output if none is named. `count`: how many messages there were,
        also those that have no label: files are numbered by message."""
        if self.file is not None and not any(label.rows for label in labels):
            labels = []
        self._clear(self._lost(labels, count))
        if self.shows:
            for label in labels:
                self.show(label)
        elif labels and self.kind in ("txt", "blocks") and not self.is_named:
            self._write(self._name(labels[0], 1), self._of_text(labels))
        elif labels:
            self._draw(labels, count)

    def _lost(self, labels: Sequence[Label], count: int) -> List[str]:
        """The files that would be there if none of so many messages was refused."""
        if self.file is None or self.is_named:
            return []
        if self.sheet is not None or self.kind not in _DRAWN:
            return [] if labels or not count else [self.file]
        written = {label.number for label in labels}
        return [str(self._name(Label(number, (), []), count)) for number in range(1, count + 1)
                if number not in written]

    def _clear(self, names: Sequence[str]) -> None:
        """Removes files that stand from before under these names, as nothing else is there now, and says so."""
        for name in filter(os.path.isfile, names):
            try:
                os.unlink(os.path.realpath(name))
                terminal.say(f"{name} stood there from before, and is removed")
            except OSError as why:
                self.status = 2
                terminal.say(f"{name} stands there from before: {why.strerror}")

    def _of_text(self, labels: Sequence[Label]) -> bytes:
        if self.kind == "txt":
            return "".join(_grid(label.rows) for label in labels).encode("ascii")
        return "".join("\n".join(self._lines(label, False)) + "\n\n" for label in labels).encode()

    def _lines(self, label: Label, coloured: bool) -> List[str]:
        """A label in blocks."""
        width = len(label.rows[0]) + 2 * self.quiet
        return terminal.blocks(label.rows, self.quiet, coloured) + drawing.wrapped(label.parts, width) * self.captions

    def _draw(self, labels: Sequence[Label], count: int) -> None:
        """A file for each label, or for each sheet, or one PDF."""
        if self.kind not in _DRAWN:
            for label in labels:
                self._write(self._name(label, count), self._of_text([label]))
            return
        self._complain(labels)
        if self.sheet is None:
            pages = [drawing.alone(label.rows, self.module, self.quiet, self._caption(label), self.dot)
                     for label in labels]
            names = [self._name(label, count) for label in labels]
        else:
            pages = self._sheets(labels)
            names = [self._name(Label(number, (), []), len(pages)) for number in range(1, len(pages) + 1)]
        if self.kind == "pdf" and (self.sheet is not None or self.file is None):
            self._write(self.file, drawing.pdf(pages))
            return
        if self.file is None and len(pages) > 1:
            raise Trouble(f"{len(pages)} pictures don't go into standard output; --format pdf makes pages of them, and "
                          "-o FILE files")
        progress = Progress("pictures drawn")
        for name, page in zip(names, pages):
            self._write(name, self._drawn(page))
            progress.step()
        progress.end()

    def _sheets(self, labels: Sequence[Label]) -> List[drawing.Page]:
        assert self.sheet is not None
        try:
            return drawing.sheets([label.rows for label in labels], self.module, self.quiet, self.sheet,
                                  captions=[self._caption(label) for label in labels], dot=self.dot)
        except ValueError as why:
            raise Trouble(str(why)) from None

    def _caption(self, label: Label) -> Tuple[str, ...]:
        return label.parts if self.captions else ()

    def _complain(self, labels: Sequence[Label]) -> None:
        """Says which letters of captions the kind of picture hasn't."""
        for label in labels if self.captions else ():
            lacking = font.lacking("".join(label.parts), self.kind)
            if lacking:
                terminal.say(f"the caption of symbol {label.number} has {lacking}, for which a .{self.kind} has no "
                             "letter; an .svg has all")

    def _drawn(self, page: drawing.Page) -> bytes:
        if self.kind == "png":
            try:
                return drawing.png(page, self.dpi)
            except ValueError as why:
                raise Trouble(str(why)) from None
        return drawing.svg(page) if self.kind == "svg" else drawing.pdf([page])

    def _name(self, label: Label, count: int) -> Optional[str]:
        """The name of a label's file."""
        if self.file is None:
            return None
        if self.is_named:
            return self.file.replace("{}", self._by_message(label) + _of_copy(label))
        base, end = os.path.splitext(self.file)
        number = "" if count == 1 else f"-{label.number:0{len(str(count))}}"
        return f"{base}{number}{_of_copy(label)}{end}"

    def _by_message(self, label: Label) -> str:
        """The message as a part of a name, with the label's number behind it if another label has that name."""
        name = safe(label.named_by or "".join(label.parts))
        while self.names.setdefault(name, label.number) != label.number:
            name += f"-{label.number}"
        return name

    def _write(self, name: Optional[str], data: bytes) -> None:
        """Writes a file, or onto standard output. A file that can't be written is named, and keeps no other from being
        written, unless no other could be."""
        if name is None:
            sys.stdout.flush()
            sys.stdout.buffer.write(data)
            return
        try:
            files.replace(name, data)
        except OSError as why:
            if why.errno in _FOR_ALL or why.errno == errno.EACCES and not os.path.exists(name):
                raise
            self.status = 2
            terminal.say(f"{name}: {why.strerror}")
