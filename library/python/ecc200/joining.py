"""The parts of a structured append, put together.

    >>> from ecc200 import core, joining
    >>> parts = [core.read(core.write(data, head=(part, 2, 1, 9))) for part, data in ((2, b"456"), (1, b"123"))]
    >>> joining.join(parts).data
    b'123456'
"""
from __future__ import annotations

from typing import Dict, Iterable, List, NamedTuple, Optional, Tuple

from . import core
from .core import FNC1, Mark, Reading, text_of
from .gs1 import Element, elements_of

__all__ = ["Joined", "Unjoined", "join"]


class Unjoined(ValueError):
    """Readings that aren't all parts of one file, each of them there: `missing` and `doubled` are numbers of parts,
    which are not there, or there with two contents; `strange` are places, counted from 0, of readings that are parts of
    another file or of another number of parts, or no parts."""

    def __init__(self, why: str, missing: Tuple[int, ...] = (), doubled: Tuple[int, ...] = (),
                 strange: Tuple[int, ...] = ()) -> None:
        super().__init__(why)
        self.missing, self.doubled, self.strange = missing, doubled, strange


class Joined(NamedTuple):
    """What the parts of a file say together, as a Reading has it."""
    data: bytes                  # the message without an FNC1 in front; any other is the byte 0x1D
    gs1: bool                    # whether FNC1 stands in front
    items: Tuple[int, ...]
    marks: Tuple[Mark, ...]      # a charset holds to the next mark, in later parts too
    parts: Tuple[Reading, ...]   # one reading of each part, in order

    @property
    def text(self) -> Optional[str]:
        """The message as text, as a Reading has it."""
        return text_of(self.items, self.marks).text

    @property
    def charset(self) -> str:
        """The charset of the text, as a Reading has it."""
        return text_of(self.items, self.marks).charset

    @property
    def elements(self) -> Optional[List[Element]]:
        """The elements of GS1 data, as a Reading has them."""
        return elements_of(self.items)


def _listed(words: str, numbers: Iterable[int]) -> List[str]:
    """What is wrong with these parts or readings, in words, or nothing where there are none."""
    each = ", ".join(map(str, numbers))
    return [words.format(each)] if each else []


def _by_part(readings: List[Reading]) -> Dict[int, Reading]:
    """One reading of each part, by its number."""
    heads = [reading.head if isinstance(reading.head, tuple) else None for reading in readings]
    file = next((head[1:] for head in heads if head), None)
    if file is None:
        raise Unjoined("there is no part of a structured append", strange=tuple(range(len(readings))))
    parts: Dict[int, Reading] = {}
    doubled, strange = set(), []
    for place, (reading, head) in enumerate(zip(readings, heads)):
        if head is None or head[1:] != file:
            strange.append(place)
            continue
        first = parts.setdefault(head[0], reading)
        if (first.items, first.marks) != (reading.items, reading.marks):
            doubled.add(head[0])
    count, *identification = file
    missing = [part for part in range(1, count + 1) if part not in parts]
    named = "the file {} {} of {} parts".format(*identification, count)
    why = [*_listed(f"missing of {named}: part {{}}", missing), *_listed("with two contents: part {}", sorted(doubled)),
           *_listed(f"no part of {named}: reading {{}}", (place + 1 for place in strange))]
    if why:
        raise Unjoined("; ".join(why), tuple(missing), tuple(sorted(doubled)), tuple(strange))
    return parts


def join(readings: Iterable[Reading]) -> Joined:
    """What the parts of a structured append say together, in whichever order they are given; a part may be given more
    than once, if it says the same. The file is that of the first part. Raises Unjoined if a part is missing or has two
    contents, or if a reading is none of its parts."""
    by_part = _by_part([*readings])
    parts = tuple(by_part[part] for part in sorted(by_part))
    items: Tuple[int, ...] = ()
    marks: Tuple[Mark, ...] = ()
    for part in parts:
        marks += tuple((len(items) + place, number) for place, number in part.marks)
        items += part.items
    gs1 = items[:1] == (FNC1,)
    return Joined(core._bytes_of(items[gs1:]), gs1, items, marks, parts)
