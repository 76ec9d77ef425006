"""What the command reads: files with grids as text, or pictures, also those of whole folders."""
from __future__ import annotations

import collections
import functools
import io
import os
import re
import stat
import sys
from typing import Any, BinaryIO, Deque, Iterable, Iterator, List, NamedTuple, Optional, Tuple, Union

from . import core, pictures
from .advice import NEARER, reduced
from .core import Rows

__all__ = ["Search", "Source", "Trouble", "Unreadable", "doubts", "known_charset", "of_picture", "of_text",
           "open_input", "sources", "whole", "why_not"]

# How pictures begin: PNG, JPEG, GIF, BMP, TIFF, WebP, PNM. A sound is a RIFF too, and a text may begin with BM.
_PICTURE = rb"(?s)\x89PNG|\xff\xd8\xff|GIF8|BM.{13}\0\0\0|II\*\0|MM\0\*|RIFF....WEBP|P[1-6]\s+[#\d]"
_WITHOUT = "without it a picture has to show one upright symbol with a whole number of pixels for each module"
_MOST_CHARACTERS, _MOST_LINES = 4096, 4096  # of a record; a symbol has at most 144
_MOST_BYTES, _PIECE = 1 << 30, 1 << 20  # of a picture's file, and of what is read of it at once
_GRID = rb"[\r\n]*[01]{10,}\r?\n"
_NOT_DOTS = rb"(?P<PDF>%PDF-)|(?P<SVG>(?:\xef\xbb\xbf)?\s*(?:<[?!][^>]*>\s*)*<svg\b)"
_OBJECT = r"\s*<_io\.BytesIO object at \w+>"  # how Pillow names what it was given
_DRAWN_BY = {"PDF": "pdftoppm -r 300 -png label.pdf label", "SVG": "rsvg-convert -d 300 -p 300 -o label.png label.svg"}


class Trouble(Exception):
    """What can't be done as it was asked for, in words: the command ends with status 2."""


class Unreadable(Exception):
    """Why a file can't be read, in words."""


def why_not(why: Exception) -> str:
    """Why something can't be done."""
    return "there is too little memory" if isinstance(why, MemoryError) else str(why) or type(why).__name__


def known_charset(name: str) -> None:
    """That there is a charset of this name."""
    try:
        "".encode(name)
    except (LookupError, UnicodeError):
        raise Trouble(f"there is no charset {name!r}") from None


class Source(NamedTuple):
    """A grid of a file: its rows, as the file has them, or why there are none."""
    file: str
    number: int                            # counts the grids of a file from 1; 0 where the file can't be read
    rows: Optional[Rows]
    # why there are no rows; or, if these aren't read, what else may be the reason
    fault: str = ""
    found: Optional[pictures.Found] = None
    is_complete: bool = True               # whether all of its picture's page was searched that was to be
    is_end: bool = False                   # whether it only says that the search ended early
    is_text: bool = False                  # whether it is the record of a text
    other: Optional[str] = None            # which code of another kind its picture's page shows, where nothing is read


class Search(NamedTuple):
    """How pictures are searched: for how many symbols on each page, or for the first, if there is no other; for how
    long, if that is said, with how many corrections left, whether all that aren't read are wanted, and whether the
    print is measured."""
    most: Optional[int] = 64
    milliseconds: Optional[int] = None
    margin: int = 0
    unread: bool = False
    quality: bool = False

    def asked(self) -> core._Asked:
        """The same for the sampler: the likeliest symbol that isn't read is wanted anyway."""
        return core._Asked(self.most or 2, core._MOST_UNREAD if self.unread else 1, self.milliseconds, self.margin,
                           self.quality)

    def is_early(self, ended: core.End, count: int) -> bool:
        """Whether there may be more of what was to be found than so many symbols: who asks for one wants the first."""
        if self.most is None:
            return count > 1 or count == 0 and ended != core.End.WHOLE
        return ended != core.End.WHOLE and (ended != core.End.ROOM or self.most > 1)

    @property
    def allowed(self) -> str:
        """What a search may take."""
        return "its usual work" if self.milliseconds is None else f"its {self.milliseconds} ms"

    def in_words(self, ended: core.End, count: int) -> str:
        """Why a search ended early."""
        if self.most is None and count > 1:
            return "there are more symbols than the one that is read: --all reads them, and --most 1 any one"
        some = f"{count} symbol{'s' * (count != 1)}"
        if ended == core.End.ROOM:
            return f"the search ended with {some}, and there may be more: --most is how many are looked for"
        return f"the search ended after {self.allowed}, with {some}, and there may be more: --time allows a longer one"


def open_input(name: str) -> io.BufferedReader:
    """A file's bytes, or those of standard input for -."""
    if name == "-" and sys.stdin is None:
        raise Trouble("standard input is closed")
    return open(sys.stdin.fileno() if name == "-" else name, "rb", closefd=name != "-")


def _line_fault(line: bytes) -> str:
    if line.endswith(b"\r"):
        return "its lines end with CR and LF: take the CR out first, as in  tr -d '\\r' < FILE"
    strange = line.strip(b"01")[:1]
    return (f"it has the character {strange.decode('latin-1')!r}; a grid consists of 0 and 1, a line for each row of "
            "modules")


def _of_record(file: str, number: int, lines: List[bytes]) -> Source:
    for line in lines:
        if line.strip(b"01"):
            return Source(file, number, None, _line_fault(line), is_text=True)
    if len({len(line) for line in lines}) > 1:
        shortest, longest = min(map(len, lines)), max(map(len, lines))
        return Source(file, number, None, f"its lines have from {shortest} to {longest} characters; a grid has as many "
                      "in each", is_text=True)
    return Source(file, number, [line.translate(core._DIGITS) for line in lines], is_text=True)


def of_text(name: str, stream: BinaryIO) -> Iterator[Source]:
    """The records of a text: lines of 0 and 1, and empty lines between."""
    lines: List[bytes] = []
    number = 0
    for line in iter(functools.partial(stream.readline, _MOST_CHARACTERS + 2), b""):
        line = line[:-1] if line.endswith(b"\n") else line
        if line not in (b"", b"\r"):
            lines.append(line)
            if len(line) > _MOST_CHARACTERS or len(lines) > _MOST_LINES:
                raise Unreadable(f"a record has more than {_MOST_CHARACTERS} characters or {_MOST_LINES} lines, and "
                                  "is no grid")
        elif lines:
            number += 1
            yield _of_record(name, number, lines)
            lines = []
    if lines:
        yield _of_record(name, number + 1, lines)
    elif not number and name != "-":
        raise Unreadable("its lines are empty: there are no grids in it")


def _picture(data: bytes) -> Any:
    try:
        from PIL import Image
    except ModuleNotFoundError:
        raise Unreadable("to read pictures install Pillow (Debian: python3-pil)") from None
    try:
        picture = Image.open(io.BytesIO(data))
        picture.load()
        return picture
    except Exception as why:  # Pillow's plugins raise what they like
        raise Unreadable(f"the picture can't be opened ({why_not(why)})") from None


def whole(file: BinaryIO, most: int) -> bytes:
    """The bytes of a file, of at most so many."""
    held = io.BytesIO()
    for piece in iter(functools.partial(file.read, _PIECE), b""):
        if held.tell() + len(piece) > most:
            raise Unreadable(f"it has more than {most >> 20:,} MiB, the most that is read of one")
        held.write(piece)
    return held.getvalue()


def _of_modules(name: str, page: Any, note: str) -> Source:
    """A page of one upright symbol with a whole number of pixels a module, each cut to one."""
    ways = core._ways(page)
    if not any(map(any, ways[0])):
        return Source(name, 1, None, "nothing in the picture is dark")
    return Source(name, 1, core._best([reduced(rows)[0] for rows in ways]), note)


def _is_symbol(source: Source) -> bool:
    """Whether the modules make a symbol, if perhaps one that isn't read."""
    try:
        return source.rows is not None and bool(core.read(source.rows))
    except core.Refused as why:
        return why.code not in (core.Code.SHAPE, core.Code.SIZE, core.Code.BORDER, core.Code.BLOCK)


def _has_margin(source: Source, margin: int) -> bool:
    """Whether a symbol that is read leaves so many corrections of each block."""
    try:
        reading = core.read(source.rows or [])
    except core.Refused:
        return True
    return core._size_of(*reading.size).limit - max(reading.corrected) >= margin


def _of_page(name: str, page: Any, number: int, search: Search) -> Tuple[List[Source], Optional[str]]:
    """The symbols of a page, those that are read first. Where the sampler can't be used or reads none, the one that the
    pixels spell module by module; or else the likeliest that isn't read, and all of these if they are wanted. Behind
    them, whether the search ended early. And where none is read, which code of another kind there is."""
    fault = core.sampler_fault()
    found = core._searched(page, number, search.asked()) if fault is None else core.Findings[pictures.Found]()
    read = [symbol for symbol in found if isinstance(symbol.answer, core.Reading)]
    if not read:
        spelled = _of_modules(name, page, "" if fault is None else f"{fault}; {_WITHOUT}")
        if _has_margin(spelled, search.margin) and (fault is not None or _is_symbol(spelled)):
            return [spelled], None
    is_complete = not search.is_early(found.ended, len(read))
    shown = found if search.unread or not read else read
    kept = [symbol for symbol in shown if search.most is not None or symbol not in read[1:]]
    sources = [Source(name, 1, symbol.rows, "", symbol, is_complete, other=found.other) for symbol in kept]
    if not is_complete:
        where = "" if number == 1 else f"page {number}: "
        sources.append(Source(name, 0, None, where + search.in_words(found.ended, len(read)), None, False, True))
    return sources, found.other


def of_picture(name: str, data: bytes, search: Search) -> Iterator[Source]:
    """The symbols of a picture, page by page."""
    picture, count, ends = _picture(data), 0, []  # type: Any, int, List[Source]
    broken: List[str] = []
    others: List[str] = []
    for number, page in core._pages(picture, broken):
        try:
            found, other = _of_page(name, page, number, search)
        except Exception as why:  # as there is no memory for it
            broken.append(f"page {number} of the picture can't be searched ({why_not(why)})")
            continue
        others += [other] if other else []
        for source in found:
            if source.is_end:
                ends.append(source)
            else:
                count += 1
                yield source._replace(number=count)
    for fault in broken:
        yield Source(name, 0, None, re.sub(_OBJECT, "", fault))
    if count or broken:
        yield from ends
        return
    margin = search.margin
    passed = f"; those that leave fewer than {margin} corrections are passed over" if margin else ""
    within = f" by a search that ended after {search.allowed}" if ends else ""
    other = f"but {others[0]}, which isn't one" if others else "and other codes, as QR codes, aren't read"
    yield Source(name, 1, None, f"no Data Matrix symbol was found in its {picture.width} by {picture.height} pixels"
                 f"{within}, {other}. {NEARER}: a module should have at least two pixels, and the symbol a light "
                 "margin. --time allows a longer search" + passed, is_complete=not ends)


# ---- Files and folders

class _Folder:
    """A folder whose files are read: whether there was one to be read, and for each that was passed over, whether it
    was a drawing."""

    def __init__(self, path: str) -> None:
        self.path, self.has_any = path, False
        self.passed: List[bool] = []

    def sources(self, search: Search) -> Iterator[Source]:
        """That there was nothing to be read in it, once its files are read, if so."""
        count, drawings = len(self.passed), sum(self.passed)
        drawn = (f", {drawings} of them PDF or SVG, which are to be drawn first, as by  {_DRAWN_BY['PDF']}" if drawings
                 else "")
        passed = f"; {count} file{'s' * (count > 1)} of other kinds {'are' if count > 1 else 'is'} passed over{drawn}"
        if not self.has_any:
            yield Source(self.path or ".", 0, None, "there are no pictures and no grids in it" + passed * bool(count))

    def is_picture(self) -> bool:
        """Whether it can be looked at beforehand."""
        return False


def _of_file(name: str, folder: Optional[_Folder], search: Search) -> Iterator[Source]:
    """The grids of a file. One that isn't named, but found in a folder, is passed over if it is neither a picture nor
    has grids."""
    with open_input(name) as file:
        start = file.peek(4096)
        if re.match(_PICTURE, start):
            yield from of_picture(name, whole(file, _MOST_BYTES), search)
        elif folder is None or re.match(_GRID, start):
            _check_text(start, name)
            yield from of_text(name, file)
        else:
            folder.passed.append(bool(re.match(_NOT_DOTS, start)))


def _check_text(start: bytes, name: str) -> None:
    """That what a file begins with may be text of grids."""
    found = re.match(_NOT_DOTS, start)
    if found:
        kind = str(found.lastgroup)
        raise Unreadable(f"it is {'an' if kind == 'SVG' else 'a'} {kind}, and pictures made of pixels are read: draw "
                          f"it first, as by  {_DRAWN_BY[kind]}")
    if re.search("\u2580|\u2584|\u2588".encode(), start):
        raise Unreadable("it is a symbol in half blocks, as a terminal shows it, and grids of 0 and 1 are read: leave "
                          "out --format blocks, or write --format txt")
    if re.search(rb"[\0-\x08\x0e-\x1f]", start):
        raise Unreadable("it is neither a picture (PNG, JPEG, GIF, BMP, TIFF, WebP, PNM) nor text with grids")
    if not start and name != "-":
        raise Unreadable("it is empty: there are no grids in it, and no picture")


def _walked(folder: str) -> Iterator[Union[str, OSError]]:
    """The files in a folder and in those below it, in the order of their names, and which folders can't be opened.
    Links are left alone."""
    faults: List[OSError] = []
    for path, inner, files in os.walk(folder or ".", onerror=faults.append):
        inner.sort()
        for name in sorted(files):
            file = os.path.join(path, name)
            try:
                if stat.S_ISREG(os.lstat(file).st_mode):
                    yield file if folder else file[2:]
            except OSError as why:
                faults.append(why)
    yield from faults


class _File(NamedTuple):
    """A file to be read, or why a folder can't be opened; and in which folder it was found, if it wasn't named."""
    path: Union[str, OSError]
    folder: Optional[_Folder] = None

    def sources(self, search: Search) -> Iterator[Source]:
        """Its grids, or why it can't be read."""
        for source in self._sources(search):
            if self.folder is not None:
                self.folder.has_any = True
            yield source

    def _sources(self, search: Search) -> Iterator[Source]:
        try:
            if isinstance(self.path, OSError):
                raise self.path
            yield from _of_file(self.path, self.folder, search)
        except IsADirectoryError:
            yield Source(str(self.path), 0, None, "it is a folder; -r reads the files in it")
        except OSError as why:
            name = why.filename if why is self.path else self.path
            yield Source(str(name), 0, None, str(why.strerror))
        except Exception as why:  # as of a file that memory has no room for: the others are read all the same
            yield Source(str(self.path), 0, None, re.sub(_OBJECT, "", why_not(why)))

    def is_picture(self) -> bool:
        """Whether it is one that can be looked at beforehand, as standard input and pipes can't."""
        if isinstance(self.path, OSError) or not os.path.isfile(self.path):
            return False
        try:
            with open(self.path, "rb") as file:
                return bool(re.match(_PICTURE, file.peek(4096)))
        except (OSError, MemoryError):
            return False


def _files(names: List[str], recursive: bool) -> Iterator[Union[_File, _Folder]]:
    """These files, and all files in these folders, with each folder behind them, if `recursive`."""
    for name in names or ["" if recursive else "-"]:
        if recursive and os.path.isdir(name or "."):
            folder = _Folder(name)
            yield from (_File(file, folder) for file in _walked(name))
            yield folder
        else:
            yield _File(name)


def _side_by_side(files: Iterator[Union[_File, _Folder]], search: Search, jobs: int) -> Iterator[Source]:
    """The grids of files in order, of which so many pictures are searched at a time, and some are waiting."""
    from concurrent.futures import Future, ThreadPoolExecutor  # a sixth of each start
    pending: Deque[Union[Future[List[Source]], Iterator[Source]]] = collections.deque()

    def first() -> Iterable[Source]:
        part = pending.popleft()
        return part.result() if isinstance(part, Future) else part

    def begun(file: Union[_File, _Folder]) -> Union[Future[List[Source]], Iterator[Source]]:
        if file.is_picture():
            try:
                return pool.submit(lambda: list(file.sources(search)))
            except (RuntimeError, MemoryError):  # no thread can be started
                pass
        return file.sources(search)

    with ThreadPoolExecutor(jobs) as pool:
        try:
            for file in files:
                pending.append(begun(file))
                if len(pending) > 2 * jobs:
                    yield from first()
            while pending:
                yield from first()
        finally:
            for part in pending:
                if isinstance(part, Future):
                    part.cancel()


def sources(names: List[str], recursive: bool = False, search: Search = Search(), jobs: int = 1) -> Iterator[Source]:
    """The grids of these files in order, and of all files in these folders if `recursive`. Without names those of
    standard input, or if `recursive` of the folder in which the command runs. As many pictures as there are `jobs` are
    searched at a time."""
    files = _files(names, recursive)
    if jobs > 1:
        yield from _side_by_side(files, search, jobs)
        return
    for file in files:
        yield from file.sources(search)


# ---- Doubtful modules

def doubts(name: Optional[str]) -> Iterator[Optional[Rows]]:
    """The grids of a file that say which modules of symbols are doubtful, one after another; without a file none for
    ever."""
    if name is None:
        while True:
            yield None
    with open_input(name) as stream:
        try:
            _check_text(stream.peek(4096), name)
            for source in of_text(name, stream):
                if source.rows is None:
                    raise Unreadable(f"grid {source.number}: {source.fault}")
                yield source.rows
        except Unreadable as why:
            raise Trouble(f"--doubtful {name}: {why}") from None
