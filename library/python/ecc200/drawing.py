"""Symbols as pictures: PNG, SVG and PDF, one symbol or a sheet of them, perhaps with text below each. Nothing but
Python's own modules is needed."""
from __future__ import annotations

import itertools
import struct
import zlib
from typing import List, NamedTuple, Sequence, Tuple

from . import font
from .core import Rows, _whole

__all__ = ["A4", "Cell", "DOT", "Line", "Page", "alone", "check", "dots", "pdf", "png", "sheets", "svg", "wrapped"]

A4 = (210.0, 297.0)
DOT = 0.25  # the side of a dot of a letter in millimetres: letters are 1.75 mm high
_INCH = 25.4
_DESCENT = 3  # dots below the letters, as fonts of SVG and PDF have them for a p
_ADVANCE, _FEED = font.WIDTH + 1, font.BASELINE + _DESCENT  # from letter to letter, and from line to line, in dots
_MOST_DOTS = 1 << 29  # of a PNG, which takes a byte for each while it is drawn: a sheet of A4 at 2,000 dots an inch
_MOST_SIDE = 100000.0  # of a sheet, in millimetres
_LEAST_COLUMNS = 20  # letters that a caption has room for below the smallest symbol


class Cell(NamedTuple):
    """A symbol, and where its first module stands, in millimetres from the left and from the top."""
    rows: Rows
    left: float
    top: float


class Line(NamedTuple):
    """A line of text, and where it begins, in millimetres from the left and from the top, with room for accents."""
    text: str
    left: float
    top: float


class Page(NamedTuple):
    """A page in millimetres, the side of a module, the symbols on it, the lines of text, and the side of a dot of their
    letters."""
    width: float
    height: float
    module: float
    cells: List[Cell]
    lines: Sequence[Line] = ()
    dot: float = DOT


def check(module: float, quiet: int) -> None:
    """That a module has a side, and the quiet zone a width that isn't negative."""
    if not 0 < module < float("inf"):
        raise ValueError(f"the side of a module is more than 0 mm, unlike {module}")
    _whole("the width of a quiet zone", quiet, 0, 65535)


def dots(length: float, dpi: float) -> int:
    """How many dots of this resolution, in dots an inch, come nearest to a length in millimetres: at least one."""
    if not 1 <= dpi <= 100000:
        raise ValueError(f"a resolution is 1 to 100000 dots an inch, unlike {dpi}")
    return max(1, round(length * dpi / _INCH))


# ---- Pages

def wrapped(parts: Sequence[str], columns: int) -> List[str]:
    """Lines of at most so many letters. They end between parts, where no part is longer than a line."""
    lines = [""]
    for part in parts:
        if lines[-1] and len(lines[-1]) + len(part.rstrip()) > columns:
            lines.append("")
        lines[-1] += part
        while len(lines[-1].rstrip()) > columns:
            lines[-1:] = [lines[-1][:columns], lines[-1][columns:]]
    return [line.rstrip() for line in lines if line.strip()]


class _Block:
    """A symbol with its quiet zone, and its caption in the middle below: how large it is, in millimetres, and what it
    puts on a page."""

    def __init__(self, rows: Rows, module: float, quiet: int, caption: Sequence[str], dot: float) -> None:
        self.rows, self.module, self.dot, self.quiet = rows, module, dot, quiet * module
        self.wide, self.high = ((count + 2 * quiet) * module for count in (len(rows[0]), len(rows)))
        columns = max(_LEAST_COLUMNS, int((self.wide / dot + 1) / _ADVANCE + 1e-9))
        self.lines = wrapped(caption, columns)
        self.width = max(self.wide, *(self._width(line) + _ADVANCE * dot for line in self.lines), 0)
        self.gap = max(0, module - self.quiet) if self.lines else 0  # the standard's least quiet zone
        self.height = self.high + self.gap + len(self.lines) * _FEED * dot

    def _width(self, line: str) -> float:
        return (len(line) * _ADVANCE - 1) * self.dot

    def cell(self, left: float, top: float) -> Cell:
        return Cell(self.rows, left + (self.width - self.wide) / 2 + self.quiet, top + self.quiet)

    def caption(self, left: float, top: float) -> List[Line]:
        first = top + self.high + self.gap
        return [Line(line, left + (self.width - self._width(line)) / 2, first + place * _FEED * self.dot)
                for place, line in enumerate(self.lines)]


def alone(rows: Rows, module: float, quiet: int, caption: Sequence[str] = (), dot: float = DOT) -> Page:
    """A page that is just one symbol with its quiet zone, and below it its caption, in parts between which a line may
    end."""
    check(module, quiet)
    block = _Block(rows, module, quiet, caption, dot)
    return Page(block.width, block.height, module, [block.cell(0, 0)], block.caption(0, 0), dot)


def sheets(symbols: Sequence[Rows], module: float, quiet: int, size: Tuple[float, float] = A4, margin: float = 10.0,
           captions: Sequence[Sequence[str]] = (), dot: float = DOT) -> List[Page]:
    """Pages of this size that hold the symbols row by row, each in the middle of a place that has room for the largest
    with its quiet zone and its caption."""
    check(module, quiet)
    if not all(0 < side <= _MOST_SIDE for side in size) or not 0 <= margin <= _MOST_SIDE:
        raise ValueError(f"a side of a sheet is more than 0 and at most {_MOST_SIDE:g} mm, and its margin 0 or more, "
                         "unlike {:g} by {:g} and {:g}".format(*size, margin))
    if not symbols:
        return []
    blocks = [_Block(rows, module, quiet, caption, dot)
              for rows, caption in zip(symbols, captions or [()] * len(symbols))]
    wide, high = max(block.width for block in blocks), max(block.height for block in blocks)
    columns, lines = int((size[0] - 2 * margin) / wide + 1e-9), int((size[1] - 2 * margin) / high + 1e-9)
    if columns < 1 or lines < 1:
        raise ValueError(f"a symbol of {wide:.1f} by {high:.1f} mm doesn't fit on a sheet of {size[0]:g} by "
                         f"{size[1]:g} mm with a margin of {margin:g} mm")
    pages = []
    for begin in range(0, len(blocks), columns * lines):
        cells: List[Cell] = []
        words: List[Line] = []
        for place, block in enumerate(blocks[begin:begin + columns * lines]):
            left = margin + place % columns * wide + (wide - block.width) / 2
            top = margin + place // columns * high + (high - block.height) / 2
            cells.append(block.cell(left, top))
            words += block.caption(left, top)
        pages.append(Page(size[0], size[1], module, cells, words, dot))
    return pages


# ---- Pictures of pages


def _runs(row: bytes) -> List[Tuple[int, int]]:
    """The dark runs of a row: where each begins, and its length."""
    runs, at = [], 0
    while at < len(row):
        if row[at]:
            end = row.find(b"\0", at)
            end = len(row) if end < 0 else end
            runs.append((at, end - at))
            at = end
        at += 1
    return runs


def _number(value: float) -> str:
    return f"{value:.4f}".rstrip("0").rstrip(".")


def svg(page: Page) -> bytes:
    """A page as SVG, in millimetres. Each symbol is one path, so that no seams show between modules."""
    from html import escape  # (a part of each start, where it isn't needed)
    width, height = _number(page.width), _number(page.height)
    parts = [f'<svg xmlns="http://www.w3.org/2000/svg" width="{width}mm" height="{height}mm" '
             f'viewBox="0 0 {width} {height}">\n',
             f'<rect width="{width}" height="{height}" fill="#fff"/>\n']
    for rows, left, top in page.cells:
        path = "".join(f"M{x} {y}h{run}v1h-{run}z" for y, row in enumerate(rows) for x, run in _runs(row))
        place = f"translate({_number(left)} {_number(top)}) scale({_number(page.module)})"
        parts.append(f'<path transform="{place}" fill="#000" shape-rendering="crispEdges" d="{path}"/>\n')
    for text, left, top in page.lines:
        place = f'x="{_number(left)}" y="{_number(top + font.BASELINE * page.dot)}"'
        letters = f'font-family="monospace" font-size="{_number(_size(page))}" xml:space="preserve"'
        length = f'textLength="{_number(len(text) * _ADVANCE * page.dot)}"'
        parts.append(f'<text {place} {length} {letters}>{escape(text, quote=False)}</text>\n')
    return "".join([*parts, "</svg>\n"]).encode()


def _size(page: Page) -> float:
    """The size of a font whose letters are as wide as these: six tenths of it, as is usual where all have one width."""
    return _ADVANCE * page.dot / 0.6


def _content(page: Page) -> bytes:
    point = 72 / _INCH
    lines = [f"{point:.6f} 0 0 {-point:.6f} 0 {page.height * point:.4f} cm"]
    for rows, left, top in page.cells:
        lines.append(f"q {_number(page.module)} 0 0 {_number(page.module)} {_number(left)} {_number(top)} cm")
        lines += [f"{x} {y} {run} 1 re" for y, row in enumerate(rows) for x, run in _runs(row)]
        lines.append("f Q")
    for text, left, top in page.lines:
        place = f"{_number(left)} {_number(top + font.BASELINE * page.dot)}"
        letters = text.encode("cp1252", "replace").hex()
        lines.append(f"BT /F {_number(_size(page))} Tf 1 0 0 -1 {place} Tm <{letters}> Tj ET")
    return zlib.compress("\n".join(lines).encode("ascii"))


_FONT = "<< /Font << /F << /Type /Font /Subtype /Type1 /BaseFont /Courier /Encoding /WinAnsiEncoding >> >> >>"


def pdf(pages: Sequence[Page]) -> bytes:
    """Pages as PDF."""
    point = 72 / _INCH
    kids = " ".join(f"{3 + 2 * place} 0 R" for place in range(len(pages)))
    objects = [b"<< /Type /Catalog /Pages 2 0 R >>", f"<< /Type /Pages /Kids [{kids}] /Count {len(pages)} >>".encode()]
    for place, page in enumerate(pages):
        box = f"[0 0 {page.width * point:.4f} {page.height * point:.4f}]"
        objects.append(f"<< /Type /Page /Parent 2 0 R /MediaBox {box} /Resources {_FONT if page.lines else '<< >>'} "
                       f"/Contents {4 + 2 * place} 0 R >>".encode())
        content = _content(page)
        objects.append(b"<< /Length %d /Filter /FlateDecode >>\nstream\n%s\nendstream" % (len(content), content))
    out, places = bytearray(b"%PDF-1.4\n%\xe2\xe3\xcf\xd3\n"), []
    for number, body in enumerate(objects, 1):
        places.append(len(out))
        out += b"%d 0 obj\n%s\nendobj\n" % (number, body)
    table = len(out)
    out += b"xref\n0 %d\n0000000000 65535 f \n" % (len(objects) + 1)
    out += b"".join(b"%010d 00000 n \n" % place for place in places)
    return bytes(out + b"trailer\n<< /Size %d /Root 1 0 R >>\nstartxref\n%d\n%%%%EOF\n" % (len(objects) + 1, table))


def png(page: Page, dpi: float) -> bytes:
    """A page as PNG with one bit a pixel at this resolution, in dots an inch, which the file states. A module is a
    whole number of dots, and at least one."""
    many = dots(page.module, dpi)
    scale = many / page.module
    width, height = round(page.width * scale), round(page.height * scale)
    if width * height > _MOST_DOTS:
        raise ValueError(f"a PNG of {width} by {height} dots is too large: .svg and .pdf need none")
    lines = [b"1" * width] * height  # (lines that are alike are mostly one object)
    for rows, left, top in page.cells:
        x, y = round(left * scale), round(top * scale)
        for number, row in enumerate(rows):
            _lay(lines, x, y + number * many, many, _wide(row, many))
    for text, left, top in page.lines:
        _set(lines, text, round(left * scale), round(top * scale), max(1, int(page.dot * scale + 1e-6)))
    packed = b"".join(_packed(line) * len(list(same)) for line, same in itertools.groupby(lines))
    metre = round(dpi / _INCH * 1000)
    return (b"\x89PNG\r\n\x1a\n" + _chunk(b"IHDR", struct.pack(">IIBBBBB", width, height, 1, 0, 0, 0, 0))
            + _chunk(b"pHYs", struct.pack(">IIB", metre, metre,
                                          1)) + _chunk(b"IDAT", zlib.compress(packed)) + _chunk(b"IEND", b""))


def _wide(row: bytes, many: int) -> bytes:
    """A row of modules as pixels, with so many for each."""
    return row.replace(b"\0", b"1" * many).replace(b"\1", b"0" * many)


def _lay(lines: List[bytes], left: int, top: int, many: int, pixels: bytes) -> None:
    """Lays pixels into so many lines from this one on, as far as there is room. Lines that were one object stay one."""
    before = lines[top:top + many]
    end = min(left + len(pixels), len(lines[0]))
    after = {key: line[:left] + pixels[:end - left] + line[end:] for key, line in {id(it): it for it in before}.items()}
    lines[top:top + many] = [after[id(line)] for line in before]


def _set(lines: List[bytes], text: str, left: int, top: int, many: int) -> None:
    """Sets a line of text into lines of pixels, with so many for a dot."""
    columns = [column for letter in text for column in (*font.glyph(letter), 0)]
    halves = bytes(column & 255 for column in columns), bytes(column >> 8 for column in columns)
    for bit in range(font.HEIGHT):
        row = halves[bit // 8].translate(_BITS[bit % 8])
        _lay(lines, left, top + bit * many, many, _wide(row, many))


_BITS = [bytes(byte >> bit & 1 for byte in range(256)) for bit in range(8)]


def _packed(line: bytes) -> bytes:
    """A line of pixels as a PNG has it: its filter, which is none, and bits, eight in a byte, the first the highest."""
    length = -(-len(line) // 8)
    return int(line.ljust(length * 8, b"0"), 2).to_bytes(length + 1, "big")


def _chunk(name: bytes, body: bytes) -> bytes:
    return struct.pack(">I", len(body)) + name + body + struct.pack(">I", zlib.crc32(name + body))
