"""Messages into symbols that are drawn."""
from __future__ import annotations

import functools
import os
from typing import Any, Callable, Dict, Iterable, Optional, Tuple, Union

from . import core, drawing, files, gs1 as element_strings
from .core import Extent, Form, Head, Mark, Message, Profile, Rows, Shape

__all__ = ["Symbol", "encode"]


class Symbol:
    """A symbol: the rows of its modules, and how it is drawn. `module` is the side of a module in millimetres, `quiet`
    the width of the quiet zone in modules. As an array it is a picture with one pixel a module, 0 dark and 255 light,
    with its quiet zone."""

    def __init__(self, rows: Rows, module: float = 0.5, quiet: int = 2) -> None:
        drawing.check(module, quiet)
        self.rows: Rows = core._Drawn(rows)
        self.module, self.quiet = module, quiet

    @property
    def columns(self) -> int:
        """How many modules each row has."""
        return len(self.rows[0])

    @property
    def size(self) -> Tuple[int, int]:
        """How many rows and columns of modules it has."""
        return len(self.rows), self.columns

    @property
    def side(self) -> int:
        """Modules on a side of a square; a rectangle has none, and raises AttributeError."""
        return core._side(*self.size)

    def __str__(self) -> str:
        return "".join("".join("01"[module] for module in row) + "\n" for row in self.rows)

    def __repr__(self) -> str:
        return "<Symbol of {} rows and {} columns>".format(*self.size)

    def __eq__(self, other: object) -> bool:
        return isinstance(other, Symbol) and self.rows == other.rows

    def __hash__(self) -> int:
        return hash(b"".join(self.rows))

    @functools.cached_property
    def __array_interface__(self) -> Dict[str, Any]:
        height, width = (count + 2 * self.quiet for count in self.size)
        beside, blank = bytes(self.quiet), [bytes(width)] * self.quiet
        rows = [*blank, *(beside + row + beside for row in self.rows), *blank]
        pixels = b"".join(rows).translate(b"\xff\0" + bytes(254))
        return {"version": 3, "shape": (height, width), "typestr": "|u1", "data": pixels}

    def page(self) -> drawing.Page:
        """The symbol with its quiet zone, as drawing.py draws it."""
        return drawing.alone(self.rows, self.module, self.quiet)

    def png(self, dpi: float = 300) -> bytes:
        """A picture at this resolution, in dots an inch; a module is a whole number of dots."""
        return drawing.png(self.page(), dpi)

    def svg(self) -> bytes:
        return drawing.svg(self.page())

    def pdf(self) -> bytes:
        return drawing.pdf([self.page()])

    def save(self, path: Union[str, "os.PathLike[str]"], dpi: float = 300) -> None:
        """Writes a file, of the kind that its name's end says: .png, at this resolution, .svg, .pdf or .txt, a grid.
        It is replaced when it is whole."""
        kinds: Dict[str, Callable[[], bytes]] = {".png": lambda: self.png(dpi), ".svg": self.svg, ".pdf": self.pdf,
                                                 ".txt": str(self).encode}
        kind = os.path.splitext(path)[1].lower()
        if kind not in kinds:
            raise ValueError(f"{os.fspath(path)}: its name should end with {', '.join(kinds)}")
        files.replace(path, kinds[kind]())

    def _repr_svg_(self) -> str:
        return self.svg().decode()


def encode(message: Message, gs1: bool = False, profile: Optional[Profile] = None, charset: Optional[str] = None,
           unknown: bool = False, module: float = 0.5, quiet: int = 2, size: Optional[Tuple[int, int]] = None,
           shape: Optional[Shape] = None, marks: Iterable[Mark] = (), head: Head = None, form: Optional[Form] = None,
           extent: Extent = Extent.WIDE) -> Symbol:
    """The symbol of a message: the smallest square, unless another `shape` is chosen, or a `size` by its rows and
    columns, with the encodations that readers of the wide extent read, as most readers are, or of another `extent`.
    A `profile`, or a `form`, is written instead where one is named, and with Profile.ASCII the normal grid. With `gs1`
    a text is an element string with its identifiers in brackets, which is checked (with `unknown` those that aren't in
    the table pass); other text becomes bytes and marks as `charsets.content_of` has it, without marks for Extent.USUAL.
    `marks` and a `head` are those of `write`."""
    if gs1 and isinstance(message, str):
        message = element_strings.message(element_strings.parse(message, unknown))
    form = Form.SMALLEST if form is None and profile is None else form
    profile = Profile.ASCII if profile is None else profile
    return Symbol(core.write(message, gs1, profile, charset, size, shape, marks, head, form, extent), module, quiet)
