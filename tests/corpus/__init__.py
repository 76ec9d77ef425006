"""The marks of other encoders, for all fronts. `squares.txt` has those in seven ways to encode, `wide.txt` those that
the usual extent refuses, `contents.txt` those with texts, ECIs and heads, `sizes.txt` those in the sizes beyond the
squares to 104, and `shifts.txt` those with characters of each shift set; `damaged` are symbols of each size with
damage, which damage.py makes. A line is a mark, with tabs between:

- its name;
- its rows and columns, as 8x32;
- its modules, row by row from the first, in hexadecimal digits, dark as 1;
- which of them are doubtful, likewise, or -;
- what it says in the wide extent, as `ecc200 read --escapes` prints it, or how it is refused, as `dm_tool` does;
- its encoder, with the options: zint -b 71, dmtxwrite, iec16022, BWIPP with the name of its encoder, or ZXing with the
  side that it is told, or 0;
- what else is known, each as NAME=VALUE: `usual`, how `dm_tool` refuses it; `data`, its data codewords in
  hexadecimal digits; `identifier`, that of symbology; `text`, that of the content, with control characters spelled;
  `given`, what the encoder was given, in UTF-8 or spelled, where that isn't the items of what it says; `found`, the
  damage: how many border modules are wrong, and of each block how many codewords are corrected, and how many erased.

`texts.txt` has texts as labels have them: a line for each script, its name and then its texts. `elements.txt` has GS1
element strings, each with its items, spelled, or with \\no and a part of what the Python package says of its fault.
`charsets.txt` has contents as the marks have them, each with the charsets that it is in, and its text, if it is one,
with control characters spelled. `corpus.mjs` reads the marks and the texts too."""
import functools
import re
from typing import NamedTuple, Optional

from tests.support import places

FNC1 = 256
# A mark, a head, or an item of what is said.
TOKEN = re.compile(r"\\E\{(?P<number>\d+)\}|\\A\{(?P<part>\d+)/(?P<parts>\d+):(?P<one>\d{3})(?P<other>\d{3})\}|"
                   r"(?P<programming>\\P)|(?P<item>\\x(?P<byte>[0-9A-Fa-f]{2})|(?P<fnc1>\\F)|\\\\|.)")


class Mark(NamedTuple):
    """A mark. Modules and doubtful modules are 0 or 1, row by row."""
    name: str
    rows: int
    columns: int
    modules: bytes
    doubtful: Optional[bytes]
    said: str
    encoder: str
    more: dict

    @property
    def grid(self):
        """Its rows as numbers."""
        return [self.modules[at:at + self.columns] for at in range(0, len(self.modules), self.columns)]

    @property
    def lines(self):
        """Its rows as text."""
        return ["".join(map(str, row)) for row in self.grid]

    @property
    def text(self):
        """Its grid as text, each row with its end."""
        return "".join(f"{line}\n" for line in self.lines)

    @property
    def usual(self):
        """What `dm_tool read` answers to it."""
        return self.more.get("usual", self.said)

    @property
    def refusal(self):
        """The code, the value and the place with which it is refused for its damage, or None."""
        if not self.said.startswith("\\no "):
            return None
        _, code, kind, number = self.said.split()
        return int(code), *((int(number), 0) if kind == "border" else (0, int(number)))

    @property
    def damage(self):
        """How many border modules are wrong, and of each block how many codewords are corrected and erased."""
        border, *counts = map(int, self.more["found"].split())
        blocks = len(counts) // 2
        return border, tuple(counts[:blocks]), tuple(counts[blocks:])

    @property
    def message(self):
        """What it says without marks and head."""
        return "".join(found[0] for found in TOKEN.finditer(self.said) if found["item"])

    @property
    def content(self):
        """Its items, marks, each a place and a number, and its head: None, "programming", or a part."""
        return content_of(self.said)


def content_of(said):
    """Gives the items, the marks and the head of what is said."""
    items, marks, head = [], [], None
    for found in TOKEN.finditer(said):
        if found["number"]:
            marks.append((len(items), int(found["number"])))
        elif found["part"]:
            head = tuple(int(found[name]) for name in ("part", "parts", "one", "other"))
        elif found["programming"]:
            head = "programming"
        else:
            items.append(FNC1 if found["fnc1"] else int(found["byte"], 16) if found["byte"] else ord(found["item"][0]))
    return tuple(items), tuple(marks), head


def characters(spelled):
    """Gives a text of which control characters and backslashes are spelled."""
    return re.sub(r"\\(\\|x(..))", lambda it: chr(int(it[2], 16)) if it[2] else "\\", spelled)


def bits_of(digits, count):
    """Gives so many bits of hexadecimal digits, as 0 and 1."""
    return bytes(map(int, f"{int(digits, 16):0{count}b}"))


def mark_of(line):
    name, size, modules, doubtful, said, encoder, *more = line.split("\t")
    rows, columns = map(int, size.split("x"))
    count = rows * columns
    doubt = None if doubtful == "-" else bits_of(doubtful, count)
    further = dict(each.split("=", 1) for each in more)
    return Mark(name, rows, columns, bits_of(modules, count), doubt, said, encoder, further)


def lines_of(name):
    """Gives the lines of a file, or those that damage.py makes."""
    if name == "damaged":
        from tests.corpus import damage  # which stands on what reads the other marks
        return damage.lines()
    return places.text_of("tests", "corpus", f"{name}.txt").splitlines()


@functools.cache
def marks(name):
    return tuple(map(mark_of, lines_of(name)))


def rows(name):
    """Gives the rows of a file that has no marks."""
    return [line.split("\t") for line in lines_of(name)]


def texts():
    return [(script, text) for script, *some in rows("texts") for text in some]


def grids(some):
    """Gives the text of marks, as programs take it: an empty line stands between two grids."""
    return "\n".join(mark.text for mark in some)
