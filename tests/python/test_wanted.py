"""What is wanted is said where something else is given, in words of the user's; and what can be taken is."""
import os

from tests.python.common import PackageCase, ecc
from tests.python.test_batches import saved, shell

import ecc200
from ecc200 import pictures


def index(number):
    """A whole number that is no int, as numpy's are."""
    return type("Index", (), {"__index__": lambda _: number})()


class Wanted(PackageCase):
    def test_by_python(self):
        """TypeErrors name what is wanted and what was given."""
        rows = ecc200.write(b"A")
        for size in (8, "8x32", (8, ), (8, "32"), 8.0):
            self.raises(f"size={size!r}", TypeError, f"as (8, 32), unlike {size!r}",
                        lambda size=size: ecc200.encode(b"A", size=size))
        self.raises("a size and a shape", TypeError, "not both",
                    lambda: ecc200.write(b"A", size=(8, 18), shape=ecc200.Shape.RECTANGLE))
        for name, call in {"shape": lambda: ecc200.encode(b"A", shape="rectangle"),
                           "write, shape": lambda: ecc200.write(b"A", shape="rectangle")}.items():
            self.raises(name, TypeError, "one of Shape.SQUARE, Shape.RECTANGLE, Shape.EXTENDED, Shape.ANY is wanted, "
                        "unlike 'rectangle'", call)
        self.raises("profile", TypeError, "Profile.SHORTER is wanted, unlike 'short'",
                    lambda: ecc200.write(b"A", profile="short"))
        self.raises("extent", TypeError, "Extent.USUAL is wanted, unlike 'all'",
                    lambda: ecc200.read(rows, extent="all"))
        for name, call in {"decode": ecc200.decode, "find": ecc200.find}.items():
            self.raises(name, TypeError, "unlike None, which OpenCV's imread gives", lambda call=call: call(None))
        self.raises("decode(7)", TypeError, "a grid is rows of modules", lambda: ecc200.decode(7))
        self.raises("read(None)", TypeError,
                    "a grid is rows of modules, as a list, a text, an array or a picture, unlike " "None", lambda:
                    ecc200.read(None))
        self.raises("read([7])", TypeError, "a row of modules is bytes, text, or a list of numbers, unlike 7",
                    lambda: ecc200.read([7]))
        self.row("numpy's numbers", ecc200.write(b"A", size=(index(8), index(32))), ecc200.write(b"A", size=(8, 32)))

    def test_rows_of_numbers(self):
        """numpy makes numbers of the rows of symbols, all of them."""
        numpy = self.needed("numpy", "numpy", "rows as numbers of numpy")
        symbol = ecc200.encode(b"LOT 7", size=(8, 32))
        for name, rows in {"encode": symbol.rows, "write": ecc200.write(b"A"), "normal": ecc200.normal(symbol.rows),
                           "a symbol of rows": ecc200.Symbol([b"\1\0", b"\0\0"]).rows}.items():
            array = numpy.array(rows)
            self.row(f"rows of {name}", (array.tolist(), array.dtype), ([list(row) for row in rows], numpy.uint8))
            self.row(f"they are a list of {name}", (isinstance(rows, list), rows == list(rows)), (True, True))
        self.row("rows are a grid, and no picture", [found.data for found in ecc200.decode(symbol.rows)], [b"LOT 7"])
        self.row("read as an array", ecc200.read(numpy.array(symbol.rows)).data, b"LOT 7")
        if pictures.is_there():
            self.raises("rows are no picture", TypeError, "unlike _Drawn", lambda: ecc200.find(symbol.rows))

    def test_depths(self):
        """Pictures of 16 and 32 bits and of floats are read as those of 8 bits are."""
        pillow = self.needed("PIL.Image", "Pillow", "pictures of other depths")
        numpy = self.needed("numpy", "numpy", "pictures of other depths")
        grey = numpy.array(ecc200.encode(b"16 bits")).repeat(5, 0).repeat(5, 1)
        full, camera = grey.astype(numpy.uint16) * 257, grey.astype(numpy.uint16) * 16  # 12 bits of a camera's
        given = {"full": full, "a camera's": camera, "the other order": full.astype(">u2"),
                 "a camera's in the other order": camera.astype(">u2"), "a part": full[:, ::-1][:, ::-1], "colours":
                 numpy.stack([full] * 3, 2), "colours of a camera": numpy.stack([camera] * 3, 2), "floats to 1": grey /
                 numpy.float32(255), "floats to 255": grey.astype(">f4"), "long floats":
                 numpy.flipud(grey).astype(float)[::-1] / 255, "the other long floats": grey.astype(">f8"),
                 "colours of floats": numpy.stack([grey / 255] * 3, 2), "signed": camera.astype(numpy.int16),
                 "signed in the other order": camera.astype(">i2"), "32 bits": full.astype(numpy.int32) * 257,
                 "32 bits in the other order": full.astype(">i4") * 257}
        for name, array in given.items():
            pixels, width, height = ecc200.luminance(array)
            got = numpy.frombuffer(pixels, numpy.uint8).reshape(height, width)
            self.holds(f"luminance, {name}", (abs(got.astype(int) - grey) <= 1).all(), str(got[:1]))
        levels = numpy.arange(256).reshape(16, 16)
        for kind in ("<u2", ">u2"):
            got = numpy.frombuffer(ecc200.luminance((levels * 16).astype(kind))[0], numpy.uint8)
            self.holds(f"each level, {kind}", (abs(got.astype(int) - levels.ravel()) <= 1).all(), str(got))
        path = os.path.join(self.room, "sixteen.png")
        pillow.Image.fromarray(full).save(path)
        opened = pillow.Image.open(path)
        got = numpy.frombuffer(ecc200.luminance(opened)[0], numpy.uint8)
        self.holds("a PNG of 16 bits", (abs(got.astype(int) - grey.ravel()) <= 1).all(), f"{opened.mode}")
        for kind in (numpy.uint16, numpy.int32, numpy.float32, float):
            dim = numpy.full((4, 4), 100, kind)
            self.row(f"what is below 256 stays, {kind.__name__}", set(ecc200.luminance(dim)[0]), {100})
            self.row(f"nothing, {kind.__name__}", ecc200.luminance(dim[:0]), (b"", 4, 0))
        for kind in (numpy.int16, numpy.int32, float):
            self.row(f"what is below 0 is black, {kind.__name__}",
                     [*ecc200.luminance(numpy.array([[-300, 0, 255, 100]], kind))[0]], [0, 0, 255, 100])
        dim = numpy.array([[-2.0, 0.0, 0.25, 0.5]])
        self.row("floats up to 1 are shares of white", [*ecc200.luminance(dim)[0]], [0, 0, 63, 127])
        dark = numpy.eye(12, dtype=numpy.int32)
        self.row("integers up to 1 are dark", max(ecc200.luminance(dark)[0]), 1)
        for kind in (numpy.int8, numpy.int64, numpy.uint32, ">i8"):
            self.row(f"numbers not of Pillow, {kind}", ecc200.luminance(dark.astype(kind)), ecc200.luminance(dark))
        self.row("half floats", ecc200.luminance(dim.astype(numpy.float16)), ecc200.luminance(dim))
        self.raises("no numbers", TypeError, "rows of numbers", lambda: ecc200.luminance(dark.astype(complex)))
        if pictures.is_there():
            for name, array in given.items():
                self.row(f"decoded, {name}", [found.data for found in ecc200.decode(array, most=1)], [b"16 bits"])
            self.says("a file by the command", ecc("read", path), output="16 bits\n")

    def test_by_command(self):
        """The command says what it wants in words of the user's."""
        saved(self.room, "blocks.txt", ecc("write A --format blocks")[1])
        for name, words, parts in [("a message behind --sheet", ("write", "-o", "a.pdf", "--sheet", "123456"),
             ["--sheet 123456: a size in millimetres is wanted, as 210x297; if that is a message, put it before "
              "--sheet"]), ("a size that there isn't", ("write", "--size", "9x9", "A"),
             ["no symbol has 9 rows and 9 columns; 'ecc200 sizes' lists those that there are"]),
            ("no size", ("write", "--size", "8", "A"), ["rows and columns are wanted, as 8x32, unlike '8'"]),
            ("a size turned", ("write", "--size", "32x8", "A"), ["no symbol has 32 rows"]),
            ("no number", ("read", "--border", "x"),
             ["--border: auto, or a whole number from 0 to 65535 is wanted, unlike 'x'"]),
            ("a number too large", ("read", "--border", "70000"), ["from 0 to 65535 is wanted, unlike '70000'"]),
            ("a number with a sign", ("read", "--time", "+5"), ["a whole number from 1 to 3600000 is wanted"]),
            ("no resolution", ("write", "--dpi", "x", "A"),
             ["from 1 to 100000 of dots an inch is wanted, as 300, unlike"]),
            ("half blocks", ("read", "blocks.txt"), ["blocks.txt: it is a symbol in half blocks", "--format txt"]),
        ]:
            got = ecc(*words, folder=self.room)
            self.says(name, got, 2, "", parts)
            self.holds(f"{name}: no list of choices, no names of Python's",
                       not any(word in got[2] for word in ("choose from", "value:", "fromhex", "invalid")), got[2])
        self.says("by a pipe", shell("$E write --format blocks 123456 | $E read", self.room), 2, "", ["half blocks"])
        for text, part in (("414",
                            "each byte takes two hexadecimal digits side by side, as 41 for A, and it has 3: 414"),
                           ("4g", "it has 'g', which is no hexadecimal digit"), ("4 14 1", "side by side")):
            self.says(f"--hex {text}", ecc("write --hex", text), 1, "", ["message 1: ", part])
        self.says("a size with a zero in front", ecc("write --size 08x32 A"), output=ecc("write --size 8x32 A")[1])
        self.says("--hex with blanks", ecc("write --hex", "41 42"), output=ecc("write AB")[1])
        for command in ("read", "check", "normal", "compare", "explain", "write", "sizes"):
            groups = [line for line in ecc(command, "--help")[1].splitlines() if line.endswith(":") and line[0] != " "]
            self.row(f"groups of {command} --help", len(groups), len(set(groups)))
