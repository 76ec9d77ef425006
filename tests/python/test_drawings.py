"""Pictures: what is drawn is read again by others and by the sampler; symbols in arrays."""
import importlib.util
import io
import os
import pathlib
import warnings
import zlib

from tests.python.common import PACKAGE, PYTHON, SAMPLER, SHARED, PackageCase, clean, run
from tests.support import places

import ecc200
from ecc200 import core, drawing, pictures

MESSAGES = [b"123456", b"Mitsubadoor", b"A" * 44, b"caf\xe9 " * 30, b"7" * 1632]
RECTANGLES = [(8, 18), (8, 144), (26, 40), (144, 144)]


def pixels(data):
    """Width, height, and rows of pixels of a PNG with one bit a pixel, by its own bytes."""
    assert data[:8] == b"\x89PNG\r\n\x1a\n"
    at, chunks = 8, {}
    while at < len(data):
        length, name = int.from_bytes(data[at:at + 4], "big"), data[at + 4:at + 8]
        body = data[at + 8:at + 8 + length]
        assert int.from_bytes(data[at + 8 + length:at + 12 + length], "big") == zlib.crc32(name + body)
        chunks[name] = body
        at += 12 + length
    width, height = int.from_bytes(chunks[b"IHDR"][:4], "big"), int.from_bytes(chunks[b"IHDR"][4:8], "big")
    raw, step = zlib.decompress(chunks[b"IDAT"]), (width + 7) // 8 + 1
    rows = [bytes(int(bit) for byte in raw[row * step + 1:row * step + step] for bit in f"{byte:08b}")[:width]
            for row in range(height)]
    return width, height, rows, int.from_bytes(chunks[b"pHYs"][:4], "big")


def laid(page):
    """Whether all on a page lies within its margins, and whether no quiet zone or line of text is overlapped."""
    boxes = [(cell.left - 1, cell.top - 1, cell.left + len(cell.rows[0]) / 2 + 1, cell.top + len(cell.rows) / 2 + 1)
             for cell in page.cells]
    boxes += [(line.left, line.top, line.left + (len(line.text) * 6 - 1) * 0.25, line.top + 2.5) for line in page.lines]
    inside = all(left >= 10 - 1e-6 and top >= 10 - 1e-6 and right <= 200 + 1e-6 and bottom <= 287 + 1e-6
                 for left, top, right, bottom in boxes)
    return inside, all(a[2] <= b[0] + 1e-6 or b[2] <= a[0] + 1e-6 or a[3] <= b[1] + 1e-6 or b[3] <= a[1] + 1e-6
                       for at, a in enumerate(boxes) for b in boxes[:at])


def texts(given, **more):
    return [reading.text for reading in ecc200.decode(given, **more)]


def leaves(image):
    """Three pages: two symbols of one message, nothing, a symbol of another."""
    drawn = (ecc200.encode(message, quiet=4).png() for message in (b"first", b"third"))
    first, third = (image.open(io.BytesIO(data)).convert("L") for data in drawn)
    pages = [image.new("L", (2 * first.width, first.height), 255) for _ in range(3)]
    pages[0].paste(first, (0, 0))
    pages[0].paste(first, (first.width, 0))
    pages[2].paste(third, (0, 0))
    return pages


def stored(rows, orientation):
    """Pixels as a camera stores them with an orientation of EXIF: where in the scene the first row and column lie."""
    height, width = len(rows), len(rows[0])
    at = {1: lambda y, x: (y, x), 2: lambda y, x: (y, width - 1 - x), 3: lambda y, x: (height - 1 - y, width - 1 - x),
          4: lambda y, x: (height - 1 - y, x), 5: lambda y, x: (x, y), 6: lambda y, x: (x, width - 1 - y),
          7: lambda y, x: (height - 1 - x, width - 1 - y), 8: lambda y, x: (height - 1 - x, y)}[orientation]
    sides = (width, height) if orientation > 4 else (height, width)
    places = [[at(y, x) for x in range(sides[1])] for y in range(sides[0])]
    return [bytes(rows[y][x] for y, x in line) for line in places]


def photograph(image, rows, orientation):
    """A picture of dark modules, with an orientation, as the bytes of a PNG, which keeps each pixel."""
    picture = image.frombytes("L", (len(rows[0]), len(rows)), b"".join(rows).translate(b"\xff\0" + bytes(254)))
    exif, file = image.Exif(), io.BytesIO()
    exif[274] = orientation
    picture.save(file, "PNG", exif=exif)
    return file.getvalue()


class Magnified:
    """A symbol's picture with several pixels for each module, an array by its interface alone."""

    def __init__(self, symbol, times):
        array = symbol.__array_interface__
        side, data = array["shape"][0], array["data"]
        rows = [bytes(shade for shade in data[at:at + side] for _ in range(times)) * times
                for at in range(0, side * side, side)]
        self.__array_interface__ = {**array, "shape": (side * times, side * times), "data": b"".join(rows)}


class Drawings(PackageCase):
    def test_png(self):
        for rows in [*map(ecc200.write, MESSAGES), *(ecc200.write(b"Rect", size=size) for size in RECTANGLES)]:
            sides = len(rows[0]), len(rows)
            for dots, quiet in ((1, 0), (1, 2), (3, 1), (8, 4)):
                width, height, found, metre = pixels(drawing.png(drawing.alone(rows, dots * 25.4 / 300, quiet), 300))
                self.row(f"a PNG of {sides} at {dots}", (width, height, metre),
                         (*((side + 2 * quiet) * dots for side in sides), 11811))
                modules = [bytes(1 - row[x * dots + dots // 2] for x in range(quiet, quiet + sides[0]))
                           for row in found[quiet * dots + dots // 2:(quiet + sides[1]) * dots:dots]]
                self.row(f"its modules, {sides} at {dots}", modules, rows)
                self.row(f"its dark pixels, {sides} at {dots}", sum(row.count(0) for row in found),
                         dots * dots * sum(map(sum, rows)))
        width, *_ = pixels(drawing.png(drawing.alone(ecc200.write(b"123456"), 0.5, 2), 300))
        self.row("half a millimetre at 300 dots an inch is six dots", width, 14 * 6)

    def test_sheets(self):
        symbols = [ecc200.write(b"%d" % number * (number % 40 + 1)) for number in range(100)]
        pages = drawing.sheets(symbols, 0.5, 2)
        cells = [cell for page in pages for cell in page.cells]
        self.row("each symbol is on a sheet", [cell.rows for cell in cells], symbols)
        for page in pages:
            inside, apart = laid(page)
            self.holds("on the page", inside)
            self.holds("no quiet zone is overlapped", apart)
        self.raises("one larger than the sheet", ValueError, "doesn't fit", lambda: drawing.sheets(symbols, 10.0, 2))
        self.row("pages of the PDF", drawing.pdf(pages).count(b"/Type /Page "), len(pages))

    def test_symbols(self):
        symbol = ecc200.encode(b"123456")
        self.row("a symbol as text", str(symbol).split(), ["".join(map(str, row)) for row in symbol.rows])
        self.row("equal symbols", (symbol == ecc200.encode(b"123456"), symbol == ecc200.encode(b"12345"),
                                   len({symbol, ecc200.encode(b"123456")})), (True, False, 1))
        self.row("text", ecc200.encode("A"), ecc200.encode(b"A"))
        self.row("decode a grid", ecc200.decode(symbol.rows)[0].data, b"123456")
        self.row("decode no symbol", ecc200.decode([bytes(10)] * 10), [])
        self.holds("as SVG in a notebook", symbol._repr_svg_().startswith("<svg "))
        numpy = self.wanted_module("numpy", "numpy", "symbols as arrays")
        if numpy:
            array = numpy.asarray(symbol)
            self.row("a symbol as an array", (array.shape, array.dtype, array[2, 2], array[0, 0]),
                     ((14, 14), numpy.uint8, 0, 255))
        pillow = self.wanted_module("PIL.Image", "Pillow", "symbols in Pillow's pictures")
        if pillow and numpy:
            self.row("read from a picture", ecc200.read(pillow.Image.fromarray(numpy.asarray(symbol))).data, b"123456")

    def test_unloadable(self):
        """A sampler's library that is there, and lacks another that it needs, isn't said to be missing."""
        if not self.has("cc", "a library that can't be loaded"):
            return
        gone, path = os.path.join(self.room, "libgone.so"), os.path.join(self.room, "libecc200_sample.so")
        run(["cc", "-shared", "-o", gone, "-Wl,-soname,libgone.so.7", "-x", "c", "-"])
        run(["cc", "-shared", "-o", path, "-x", "c", "-", "-x", "none", "-Wl,--no-as-needed", gone])
        os.remove(gone)
        env = clean(PYTHONPATH=PACKAGE, ECC200_LIBRARY=SHARED, ECC200_SAMPLE_LIBRARY=path, COLUMNS="500")
        asked = "import ecc200; print(ecc200.has_sampler(), flush=True); ecc200.find([])"
        status, output, errors = run([PYTHON, "-c", asked], env=env)
        self.row("a library that can't be loaded", (status, output), (1, "False\n"))
        help_told = run([PYTHON, "-m", "ecc200", "read", "--help"], env=env)[1]
        for name, told in (("the module", errors), ("the command", help_told)):
            is_told = f"{path} is there, but can't be loaded: libgone.so.7" in told and "isn't installed" not in told
            self.holds(f"{name} names what is lacking", is_told, told)
        run(["cc", "-shared", "-o", path, "-x", "c", "-"],
            f"unsigned short ecc200_sample_abi(void) {{ return {core._SAMPLE_ABI}; }}\n".encode())
        status, output, errors = run([PYTHON, "-c", asked], env=env)
        self.holds("no search", (status, output) == (1, "False\n") and "older than this" in errors, errors)

    def test_taken(self):
        symbol, other = ecc200.encode(b"123456"), ecc200.encode("Mitsubadoor", charset="ascii")
        path = os.path.join(self.room, "two.txt")
        places.wrote(f"{symbol}\n{other}\n", path)
        with open(path, "rb") as file:
            two = {"an open file": file, "bytes": file.read(), "a path": path, "a Path": pathlib.Path(path)}
            file.seek(0)
            for name, given in {**two, "text": two["bytes"].decode(), "CR": two["bytes"].replace(b"\n",
                                                                                                 b"\r\n")}.items():
                self.row(f"two grids as {name}", texts(given), ["123456", "Mitsubadoor"])
        self.row("a symbol", texts(symbol), ["123456"])
        for call in (ecc200.read, ecc200.normal, ecc200.inspect):
            self.row(f"{call.__name__} of a symbol", call(other), call(other.rows))
        with open(path, encoding="ascii") as file:
            self.raises("a file that is open for text", TypeError, "'rb'", lambda: ecc200.decode(file))
        none = os.path.join(self.room, "none.png")
        self.raises("a path of nothing", FileNotFoundError, "none.png", lambda: ecc200.decode(none))
        self.raises("a grid with another character", ValueError, "'10x'", lambda: ecc200.decode("10x\n101\n111\n"))
        for name, given in {"a number": 7, "nothing": None}.items():
            self.raises(f"decode of {name}", TypeError, "", lambda given=given: ecc200.decode(given))
        fault = TypeError if self.wanted_module("PIL.Image", "Pillow", "what is no picture") else ImportError
        for name, given in {"no bytes": b"", "other bytes": b"no picture", "a square of them": b"abcd" * 25,
                            "a broken picture": b"\x89PNG\r\n\x1a\nrubbish",
                            "an open file": io.BytesIO(b"rubbish")}.items():
            self.raises(f"decode of {name}", fault, "", lambda given=given: ecc200.decode(given))

    def test_saved(self):
        symbol = ecc200.encode(b"123456")
        for name, wanted in {"a.png": symbol.png(600), "a.PNG": symbol.png(600), "a.svg": symbol.svg(),
                             "a.pdf": symbol.pdf(), "a.txt": str(symbol).encode()}.items():
            path = pathlib.Path(self.room, name)
            symbol.save(path, dpi=600)
            self.row(f"saved as {name}", path.read_bytes(), wanted)
        symbol.save(os.path.join(self.room, "usual.png"))
        self.row("saved as usual", pathlib.Path(self.room, "usual.png").read_bytes(), symbol.png())
        self.row("a saved grid is read", texts(os.path.join(self.room, "a.txt")), ["123456"])
        self.raises("saved as another kind", ValueError, "a.gif: its name should end with .png, .svg, .pdf, .txt",
                    lambda: symbol.save(os.path.join(self.room, "a.gif")))
        if os.path.isfile(SAMPLER) and self.wanted_module("PIL.Image", "Pillow", "a saved picture"):
            self.row("a saved picture is read", texts(os.path.join(self.room, "a.png")), ["123456"])

    def test_in_files(self):
        """Pictures as the bytes of a file, as an open file, as a path; also without the sampler."""
        image = self.needed("PIL.Image", "Pillow", "files of pictures")
        path, picture = os.path.join(self.room, "label.png"), ecc200.encode(b"123456", quiet=4).png()
        places.wrote(picture, path)
        given = {"bytes": picture, "a bytearray": bytearray(picture), "a memoryview": memoryview(picture), "a path":
                 path, "a Path": pathlib.Path(path), "bytes in memory": io.BytesIO(picture)}
        lone = "import ecc200; print([found.text for found in ecc200.decode({!r})])"
        env = clean(PYTHONPATH=PACKAGE, ECC200_LIBRARY=SHARED, ECC200_SAMPLE_LIBRARY=os.path.join(self.room, "none.so"))
        status, _, errors = run([PYTHON, "-c", lone.format(path)], env=env)
        self.holds("a picture without the sampler", status == 1 and "SamplerMissing" in errors, errors)
        small = os.path.join(self.room, "small.png")
        ecc200.encode(b"123456", module=25.4 / 300, size=(8, 32)).save(small)
        self.row("a pixel a module", run([PYTHON, "-c", lone.format(small)], env=env), (0, "['123456']\n", ""))
        if not os.path.isfile(SAMPLER):
            self.leave_out("symbols in files of pictures (the library ecc200_sample isn't built)")
            return
        for name, some in given.items():
            self.row(f"a picture as {name}", texts(some), ["123456"])
        with image.Image.open(path) as opened:
            pixels, width, height = ecc200.luminance(opened)
        self.row("a picture as a view of its rows", texts(memoryview(pixels).cast("B", (height, width))), ["123456"])
        grid = memoryview(b"".join(ecc200.write(b"123456"))).cast("B", (10, 10))
        self.row("a grid as a view of its rows", texts(grid), ["123456"])
        corners = ecc200.decode(path)[0].corners
        in_modules = [tuple(round(value / 6) for value in corner) for corner in corners]  # a module has six dots
        self.row("corners of a reading", in_modules, [(4, 4), (14, 4), (14, 14), (4, 14)])
        self.row("those of what is found", [symbol.corners for symbol in pictures.find(path)], [corners])
        self.raises("find in bytes that are no picture", TypeError, "neither", lambda: pictures.find(b"rubbish"))

    def test_paged(self):
        """Each page of a TIFF and of a GIF is looked at, and a picture stands at its first page afterwards."""
        image = self.needs_search("pages of pictures").Image
        pages, quickly = leaves(image), {"milliseconds": 300}
        for kind in ("tiff", "gif"):
            path = os.path.join(self.room, f"pages.{kind}")
            pages[0].save(path, save_all=True, append_images=pages[1:])
            self.row(f"the pages of a {kind}", texts(path, **quickly), ["first", "first", "third"])
            self.row(f"where they are, {kind}", [symbol.page for symbol in pictures.find(path, **quickly)], [1, 1, 3])
            self.row(f"one symbol of each page, {kind}", texts(path, most=1, **quickly), ["first", "third"])
            with image.open(path) as picture:
                got = texts(picture, **quickly), picture.tell()
                self.row(f"Pillow's {kind}", got, (["first", "first", "third"], 0))
                picture.seek(2)
                self.row(f"a later page, {kind}", (texts(picture, **quickly), picture.tell()), (["third"], 2))
        whole = places.read(self.room, "pages.tiff")
        with warnings.catch_warnings(record=True) as told:
            warnings.simplefilter("always")
            got = texts(whole[:-200], **quickly), [symbol.page for symbol in pictures.find(whole[:-200], **quickly)]
        self.row("pages before one that is cut off", got, (["first", "first"], [1, 1]))
        self.row("a page that is cut off", ["page 3" in str(each.message) for each in told], [True, True])
        pages[1].save(path, format="tiff", save_all=True, append_images=pages[:1])
        whole = places.read(path)
        for call in (ecc200.decode, pictures.find):
            self.raises("a page that is cut off behind one with nothing", ValueError, "page 2",
                        lambda call=call: call(whole[:-200], **quickly))

    def test_oriented(self):
        """A picture is read as it is stored and as EXIF says that it is turned; corners are among the stored pixels."""
        pillow = self.needed("PIL.Image", "Pillow", "pictures with an orientation")
        rows = ecc200.write(b"Mitsubadoor")
        large = [bytes(module for module in row for _ in range(4)).ljust(100, b"\0") for row in rows for _ in range(4)]
        wide = [bytes(120)] * 10 + [bytes(20) + row for row in large] + [bytes(120)] * 30
        for orientation in range(1, 9):
            for name, kept in (("stored", rows), ("turned", stored(rows, orientation))):
                with pillow.Image.open(io.BytesIO(photograph(pillow.Image, kept, orientation))) as picture:
                    got = ecc200.read(picture).data, ecc200.normal(picture)
                    self.row(f"orientation {orientation}, {name}", got, (b"Mitsubadoor", rows))
            if os.path.isfile(SAMPLER):
                got = ecc200.decode(photograph(pillow.Image, stored(wide, orientation), orientation), most=1)
                marked = [bytearray(120) for _ in wide]
                marked[10][20] = 1  # the symbol's first pixel
                y, x = next((y, line.index(1)) for y, line in enumerate(stored(marked, orientation)) if 1 in line)
                near = [abs(reading.corners[0][0] - x) < 2 and abs(reading.corners[0][1] - y) < 2 for reading in got]
                self.row(f"orientation {orientation}, found where it is stored", near, [True])

    def test_sampled(self):
        """The sampler's library: pictures in arrays and in Pillow's pictures, turned and light on dark."""
        if not os.path.isfile(SAMPLER):
            self.leave_out("symbols in pictures (the library ecc200_sample isn't built)")
            if not pictures.is_there():
                self.raises("pictures without the sampler", pictures.Missing, "ecc200_sample",
                            lambda: pictures.find(memoryview(bytes(100)).cast("B", (10, 10))))
            return
        pillow = self.needed("PIL.Image", "Pillow", "symbols in pictures")
        numpy = self.needed("numpy", "numpy", "symbols in arrays")
        self.holds("the sampler's library can be loaded", pictures.is_there())
        picture = pillow.Image.open(io.BytesIO(ecc200.encode(b"Mitsubadoor", quiet=4, module=1).png(dpi=203)))
        array = numpy.asarray(picture.convert("L"))
        rows, colours = ecc200.write(b"Mitsubadoor"), numpy.stack([array] * 3, axis=2)
        for name, given in {"Pillow's": picture, "grey": picture.convert("L"), "colours": picture.convert("RGB"),
                            "clear": picture.convert("RGBA"), "an array": array, "an array of colours": colours,
                            "turned colours": numpy.rot90(colours), "a buffer": memoryview(array),
                            "transparent": numpy.insert(colours, 3, 255, axis=2), "bool": array > 100,
                            "a buffer of colours": memoryview(colours), "steps": numpy.repeat(array, 2, 1)[:, ::2],
                            "16 bits": pillow.Image.fromarray(array.astype(numpy.uint16) * 257),
                            "an array of 16 bits": array.astype(numpy.uint16) * 257, "32 bits": picture.convert("I"),
                            "64 bits": array.astype(numpy.int64), "colours of 64 bits": colours.astype(numpy.int64),
                            "turned": picture.convert("L").rotate(30, expand=True, fillcolor=255),
                            "a quarter": picture.convert("L").rotate(90),
                            "light on dark": pillow.Image.fromarray(255 - array),
                            "mirrored": pillow.Image.fromarray(array[:, ::-1].copy())}.items():
            got = [(symbol.answer.data, symbol.rows, symbol.inverted) for symbol in pictures.find(given, most=1)]
            self.row(f"in a picture, {name}", got, [(b"Mitsubadoor", rows, name == "light on dark")])
            self.row(f"decoded, {name}", [reading.data for reading in ecc200.decode(given, most=1)], [b"Mitsubadoor"])
        corners = pictures.find(picture, most=1)[0].corners
        self.holds("the corners", all(abs(x - wanted_x) < 8 and abs(y - wanted_y) < 8 for (x, y), (wanted_x, wanted_y)
                                      in zip(corners, [(32, 32), (160, 32), (160, 160), (32, 160)])), str(corners))
        self.row("nothing in a picture", pictures.find(pillow.Image.new("L", (200, 200), 255), milliseconds=50), [])
        for name, given in (("complex numbers", array.astype(complex)), ("a line", array[0])):
            self.raises(f"{name}", TypeError, "an array of rows of numbers", lambda given=given: pictures.find(given))
        symbol = ecc200.encode(b"A" * 9, quiet=4)
        self.row("a symbol, an array by its interface alone",
                 [reading.data for reading in ecc200.decode(Magnified(symbol, 5), most=1)], [b"A" * 9])
        spec = importlib.util.spec_from_file_location("one_file", places.MODULE)
        one = importlib.util.module_from_spec(spec)
        spec.loader.exec_module(one)
        self.holds("the sampler by the file core.py alone", one.has_sampler())
        for name, got in (("found", [symbol.answer for symbol in one.find(array, most=1)]), ("decoded",
                          one.decode(array, most=1)), ("a grid decoded", one.decode(rows, most=1))):
            self.row(f"by the file alone, {name}", [reading.data for reading in got], [b"Mitsubadoor"])
