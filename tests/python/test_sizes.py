"""All sizes, by the module and by the command: symbols of each are read by others, and those of others are read; sides;
sizes that are chosen, pictures, sheets, doubtful modules. tests/library asks the library of each."""
import io
import json
import os
import pickle

from tests.corpus import make
from tests.python.common import PackageCase, ecc, run, saved
from tests.python.test_drawings import laid
from tests.python.test_labels import of_blocks
from tests.python.test_module import numpy_forms, plain_forms
from tests.python.test_surface import text

import ecc200
from ecc200 import Form, Shape, drawing

SIZES = [(size.rows, size.columns) for size in ecc200.sizes()]
EXTENSION = {(size.rows, size.columns) for size in ecc200.sizes() if size.extension}
# Which sizes a shape has.
KINDS = {Shape.SQUARE: lambda size: size.rows == size.columns,
         Shape.RECTANGLE: lambda size: size.rows != size.columns and not size.extension,
         Shape.EXTENDED: lambda size: size.rows != size.columns, Shape.ANY: lambda size: True}
ZXING = "/usr/share/java/core.jar"


def named(size):
    return "{}x{}".format(*size)


def filling(size):
    """A message of so many letters that a symbol of this size has no pad."""
    data = next(each.data_codewords for each in ecc200.sizes() if (each.rows, each.columns) == size)
    return bytes(65 + place % 26 for place in range(data))


def changed(rows, cells):
    """Rows with these modules turned round."""
    copy = [bytearray(row) for row in rows]
    for row, column in cells:
        copy[row][column] ^= 1
    return copy


def cells_of(size, bit=1):
    """Where this bit of each codeword stands."""
    return {place.codeword: (y, x) for y, row in enumerate(ecc200.places(*size)) for x, place in enumerate(row)
            if (place.kind, place.bit) == (ecc200.Kind.BIT, bit)}


def marked(size, cells):
    rows = [bytearray(size[1]) for _ in range(size[0])]
    for row, column in cells:
        rows[row][column] = 1
    return list(map(bytes, rows))


def read_by_zxing(grids):
    """What ZXing says to grids in the order in which they are given: bytes, or None."""
    lines = "".join(",".join("".join("01"[module] for module in row) for row in rows) + "\n" for rows in grids)
    said = make.output([*make.ZXING[:-1], "read"], lines.encode()).decode()
    return [None if line == "-" else bytes.fromhex(line) for line in said.split("\n")[:-1]]


class Sizes(PackageCase):
    def test_sides(self):
        """A square has a side, and a rectangle none."""
        for size, data in zip(SIZES, map(filling, SIZES)):
            symbol = ecc200.encode(data, size=size)
            reading = ecc200.read(symbol)
            named = next(each for each in ecc200.sizes() if (each.rows, each.columns) == size)
            self.row(f"a symbol of {size}", (symbol.size, len(symbol.rows), symbol.columns), (size, *size))
            self.row(f"{size}", (reading.size, reading.rows, reading.columns, reading.corners), (size, *size, None))
            for thing in (symbol, reading, named):
                if size[0] == size[1]:
                    self.row(f"the side of {type(thing).__name__}, {size}", thing.side, size[0])
                else:
                    self.raises(f"the side of {type(thing).__name__}, {size}", AttributeError, "has no side",
                                lambda thing=thing: thing.side)
                    self.row(f"it has none, {size}", hasattr(thing, "side"), False)
        self.row("a reading, pickled", pickle.loads(pickle.dumps(reading)), reading)
        self.row("how a symbol is shown", repr(ecc200.encode(b"A", size=(8, 32))), "<Symbol of 8 rows and 32 columns>")

    def test_any_border(self):
        """The word "auto" for a limit, by which each size is read in tests/library: in all calls that take one."""
        rows = changed(ecc200.write(b"123456"), [(9, column) for column in range(10)])
        self.row("rows that come once", ecc200.read(iter(rows), "auto").data, b"123456")
        self.row("of many", [got.data for got in ecc200.read_many([rows], "auto")], [b"123456"])
        self.row("decoded", [[got.data for got in ecc200.decode(rows, border_limit=limit)] for limit in (None, "auto")],
                 [[], [b"123456"]])
        self.raises("another word", TypeError, "", lambda: ecc200.read(rows, "any"))

    def test_without_a_check_codeword_left(self):
        """A block whose doubtful codewords leave no check is read as another if one is wrong, in each size."""
        for size in ecc200.sizes():
            named, checks, block = (size.rows, size.columns), size.check_codewords // size.blocks, size.blocks - 1
            data, cells = filling(named), list(cells_of(named).items())
            words = [cell for _, cell in sorted(cells)[block::size.blocks]]
            rows, marks = changed(ecc200.write(data, size=named), words[:checks + 1]), marked(named, words[:checks])
            seen = ecc200.inspect(rows, doubtful=marks)
            self.holds(f"a block of {named} without a check codeword left holds something else",
                       seen.mended[:len(data)] != bytes(letter + 1 for letter in data)
                       and (seen.corrected[block], seen.erased[block], seen.left[block]) == (0, checks, 0), str(seen))

    def test_doubtful_forms(self):
        size, words = (8, 32), b"0123456789"
        rows, cells = ecc200.write(words, size=size), [cells_of(size)[0]]
        damaged, marks = changed(rows, cells), marked(size, cells)
        said = ecc200.read(damaged, doubtful=marks)
        self.row("rows", (said.data, said.erased, said.corrected, said.left), (words, (1, ), (0, ), (10, )))
        flat, lines = b"".join(marks), ["".join("01"[mark] for mark in row) for row in marks]
        given = {**plain_forms(lines), "flat bytes": flat, "a bytearray": bytearray(flat),
                 "digits": "".join(lines).encode(), "a symbol": ecc200.Symbol(marks)}
        if numpy := self.wanted_module("numpy", "numpy", "doubt in arrays"):
            given.update(numpy_forms(numpy, lines), flat=numpy.array([list(row) for row in marks]).ravel())
        if image := self.wanted_module("PIL.Image", "Pillow", "doubt in pictures"):
            given["a picture"] = image.Image.frombytes("L", (32, 8), flat.translate(b"\xff\0" * 128))
        for name, doubt in given.items():
            for call in (ecc200.read, ecc200.normal, ecc200.inspect):
                self.row(f"{call.__name__}, as {name}", call(damaged, doubtful=doubt), call(damaged, doubtful=marks))
        self.row("none", ecc200.read(damaged, doubtful=[bytes(32)] * 8), ecc200.read(damaged))
        self.raises("ragged doubt", ecc200.Refused, "SHAPE", lambda: ecc200.read(rows, doubtful=[*marks[:-1], b"\0"]))
        self.raises("another character", ValueError, "0x'", lambda: ecc200.read(rows, doubtful=["0" * 31 + "x"] * 8))
        self.raises("doubt that is a number", TypeError, "", lambda: ecc200.read(rows, doubtful=7))

    def test_beside(self):
        """Each size that is written is read by others where they know it: zxing-cpp reads all; ZXing for Java those of
        ISO/IEC 16022; dmtxread these but 144 by 144, whose check codewords it deals otherwise."""
        grids = {size: ecc200.write(filling(size), size=size) for size in SIZES}
        if self.has("java", "what ZXing reads") and os.path.isfile(ZXING):
            got = dict(zip(grids, read_by_zxing(grids.values())))
            self.row("all are answered by ZXing", len(got), 48)
            for size in set(grids) - EXTENSION:
                self.row(f"ZXing reads {size}", got[size], filling(size))
        for size, rows in grids.items():
            path, said = os.path.join(self.room, "size.png"), filling(size).decode()
            ecc200.Symbol(rows, quiet=4).save(path)
            if self.has("ZXingReader", "what zxing-cpp reads"):
                got = run(["ZXingReader", "-format", "DataMatrix", "-1", path])
                self.holds(f"zxing-cpp reads {size}", said in got[1], str(got))
            if size not in EXTENSION | {(144, 144)} and self.has("dmtxread", "what dmtxread reads"):
                self.row(f"dmtxread reads {size}", run(["dmtxread", "-n", "-N1", "-m10000", path])[1].strip(), said)

    def test_from_others(self):
        """What zint makes by its own choice, and what it and libdmtx make in a size that is asked for, is read."""
        image = self.needed("PIL.Image", "Pillow", "symbols of others")
        path = os.path.join(self.room, "other.png")
        for number, size in enumerate(SIZES):
            if self.has("zint", "symbols of zint in each size"):
                order = sorted((it for it in SIZES if it not in EXTENSION), key=lambda size: size[0] != size[1])
                if size in order:
                    text = f"A{number:02}"
                    run(["zint", "-b", "71", f"--vers={order.index(size) + 1}", "--scale=0.5", "-d", text, "-o", path])
                    with image.Image.open(path) as picture:
                        got = ecc200.read(picture)
                    self.row(f"zint's {size}", (got.text, got.size), (text, size))
            if size[0] != size[1] and size not in EXTENSION and self.has("dmtxwrite", "symbols of libdmtx"):
                run(["dmtxwrite", "-e", "a", "-d", "1", "-m", "1", "-s", "{}x{}".format(*size), "-o", path], b"AB12")
                with image.Image.open(path) as picture:
                    got = ecc200.read(picture)
                self.row(f"libdmtx's {size}", (got.text, got.size), ("AB12", size))

    def test_grids(self):
        here, messages = self.made("grids"), [filling(size).decode() for size in SIZES]
        drawn = [text(ecc200.write(message.encode(), size=size)) for message, size in zip(messages, SIZES)]
        for size, message, grid in zip(SIZES, messages, drawn):
            self.says(f"--size {named(size)}", ecc("write --form ascii --size", named(size), message), output=grid)
        self.says("read", ecc("read", given="".join(drawn)), output="".join(f"{message}\n" for message in messages))
        wanted_lines = [f"{named((size.rows, size.columns))}, 0 border modules wrong, codewords corrected in each "
                        f"block: {', '.join(['0'] * size.blocks)} (at most {size.limit})" for size in ecc200.sizes()]
        self.row("check", ecc("check", given="".join(drawn))[1].splitlines(), wanted_lines)
        told = [json.loads(line) for line in ecc("explain --json", given="".join(drawn))[1].splitlines()]
        for size, message, one in zip(SIZES, messages, told):
            meanings = [word["meaning"] for word in one["codewords"]]
            self.row(f"explain {named(size)}", (one["rows"], one["columns"], meanings[:len(message)]),
                     (*size, [f"the character {letter}" for letter in message]))
        saved(here, "square.txt", text(ecc200.write(b"Mitsu")))
        for size in ((8, 18), (16, 48), (26, 64), (144, 144)):
            saved(here, "one.txt", text(ecc200.write(b"Mitsu", size=size)))
            self.says(f"compare {named(size)}", self.ecc("compare one.txt square.txt"),
                      output=f"one.txt: Mitsu ({named(size)}, 0 codewords corrected)\nsquare.txt: Mitsu (12x12, 0 "
                      "codewords corrected)\nthe same\n")

    def test_sizes_told(self):
        status, output, errors = ecc("sizes")
        lines = [line.split() for line in output.splitlines()]
        self.row("sizes", (status, errors, [line[0] for line in lines[1:]]), (0, "", list(map(named, SIZES))))
        for shape in Shape:
            got = {line.split()[0] for line in ecc("sizes --shape", shape.name.lower())[1].splitlines()[1:]}
            self.row(shape.name, got, {named((it.rows, it.columns)) for it in ecc200.sizes() if KINDS[shape](it)})
        told = [json.loads(line) for line in ecc("sizes --json")[1].splitlines()]
        self.row("sizes in JSON", [ecc200.Size(**{name: line[name] for name in ecc200.Size._fields}) for line in told],
                 ecc200.sizes())
        for shape in ("square", "rectangle", "extended"):
            size = next(each["size"] for each in told if each["shape"] == shape)
            self.holds(f"--size {size}", ecc("write --size", size, "--", "7")[0] == 0)
            shown = [json.loads(line)["size"] for line in ecc("sizes --shape", shape, "--json")[1].splitlines()]
            wanted = ("rectangle", "extended") if shape == "extended" else (shape, )
            self.row(f"--shape {shape}", shown, [each["size"] for each in told if each["shape"] in wanted])
        self.holds("--help speaks of sizes", "JSON for each size" in " ".join(ecc("sizes --help")[1].split()))
        for line in told:
            size = line["rows"], line["columns"]
            for item, name, form in ((b"7", "digits", Form.SMALLEST), (b"A", "letters", Form.ASCII),
                                     (b"\xff", "bytes", Form.SMALLEST)):
                count = line[name]
                self.row(f"{count} {name} in {named(size)}",
                         ecc200.read(ecc200.write(item * count, form=form, size=size)).data, item * count)
                self.raises(f"one more of {name}, {named(size)}", ecc200.Refused, "TOO_LONG",
                            lambda: ecc200.write(item * (count + 1), form=form, size=size))

    def test_chosen(self):
        here = self.made("chosen")
        for shape in Shape:
            for words, message, gs1 in ((["A1B2C3"], b"A1B2C3", False), (["--gs1", "(10)A(21)B"], b"10A\x1d21B", True)):
                self.says(f"--shape {shape.name.lower()}, {words}", ecc("write --shape", shape.name.lower(), *words),
                          output=text(ecc200.write(message, gs1, shape=shape, form=Form.SMALLEST)))
                self.says(f"--form ascii --shape {shape.name.lower()}, {words}",
                          ecc("write --form ascii --shape", shape.name.lower(), *words),
                          output=text(ecc200.write(message, gs1, shape=shape)))
        self.row("the usual shape", ecc("write", "A" * 20), ecc("write --shape square", "A" * 20))
        self.says("--size with --hex", ecc("write --size 12x26 --hex 00ff"),
                  output=text(ecc200.write(b"\0\xff", size=(12, 26), form=Form.SMALLEST)))
        self.says("--size with --shorter", ecc("write --size 12x26 --shorter --hex", "80" * 9),
                  output=text(ecc200.write(b"\x80" * 9, profile=1, size=(12, 26))))
        self.says("--size with --bytes", ecc("write --size 8x18 --bytes -", given=b"\xff\n"),
                  output=text(ecc200.write(b"\xff\n", size=(8, 18), form=Form.SMALLEST)))
        small = [text(ecc200.write(letter, size=(8, 18), form=Form.SMALLEST)) for letter in (b"A", b"C")]
        self.says("lines, one too long", ecc("write --size 8x18", given="A\nBBBBBBB\nC\n"), 1, "".join(small),
                  ["line 2: the message is longer than a symbol of 8x18 holds: 10 digits, 6 capitals, or 3 bytes"])
        for shape, part in (("rectangle", "any rectangle of ISO/IEC 16022 holds; --shape extended has larger ones: 98"),
                            ("extended", "any rectangle holds: 236 digits"), ("any", "any symbol holds: 3116 digits"),
                            ("square", "any symbol holds: 3116 digits")):
            self.says(f"too long for --shape {shape}", ecc("write --shape", shape, given="7" * 4000), 1, "", [part])
        self.holds("words of an unknown size say where all are", "'ecc200 sizes'" in ecc("write --size 9x9 A")[2])
        self.says("files by message", self.ecc("write --shape rectangle -o", "{}.txt", "A", "B"), output="")
        self.row("one", open(os.path.join(here, "A.txt")).read(), text(ecc200.write(b"A", shape=1, form=Form.SMALLEST)))

    def test_doubtful(self):
        """Grids of doubtful modules in a file beside the symbols."""
        here, size, message = self.made("doubtful"), (8, 32), b"Rectangle1"
        rows, cells = ecc200.write(message, size=size), list(cells_of(size).values())
        damaged, marks = changed(rows, cells[:11]), marked(size, cells[:11])
        square, none = ecc200.write(b"123456"), [bytes(10)] * 10
        saved(here, "damaged.txt", text(square) + text(damaged))
        saved(here, "marks.txt", text(none) + text(marks))
        self.says("without", self.ecc("read damaged.txt"), 1, "123456\n\\no\n", ["symbol 2: block 1", "--doubtful"])
        told = ["--doubtful", "marks.txt", "damaged.txt"]
        self.says("read", self.ecc("read", *told), output="123456\nRectangle1\n")
        for name, words, grids in (("grids", "read --doubtful marks.txt", (square, damaged)),
                                   ("marks", "read --doubtful - damaged.txt", (none, marks))):
            got = self.ecc(words, given="".join(map(text, grids)))
            self.says(f"{name} on standard input", got, output="123456\nRectangle1\n")
        self.says("check", self.ecc("check", *told),
                  output="10x10, 0 border modules wrong, codewords corrected in each block: 0, erased: 0, check "
                  "codewords left: 5\n8x32, 0 border modules wrong, codewords corrected in each block: 0, erased: 11, "
                  "check codewords left: 0\n")
        self.says("normal", self.ecc("normal", *told), output=text(square) + text(ecc200.write(message)))
        status, output, _ = self.ecc("explain", *told)
        self.holds("explain", status == 0 and "It says Rectangle1" in output and "corrected; the symbol has" in output,
                   output)
        second = json.loads(self.ecc("read --json", *told)[1].splitlines()[1])
        self.row("JSON", (second["corrected"], second["erased"], second["left"]), ([0], [11], [0]))
        saved(here, "one.txt", text(damaged))
        saved(here, "more.txt", text(marked(size, cells[:12])))
        self.says("more than can be restored", self.ecc("read --doubtful more.txt one.txt"), 1,
                  "\\no\n", ["block 1 of its 1 can't be restored", "11 check codewords"])
        for name, files, status, part in [
            ("other rows", text(none), 1, "the grid of its doubtful modules hasn't 8 rows of 32 modules"),
            ("no grid", "\n", 2, "its lines are empty"), ("too many", text(marks) * 2, 2, "more grids than there are"),
            ("another character", "10x\n", 2, "grid 1: it has the character 'x'"),
            ("a ragged one", "10\n1\n", 2, "grid 1: its lines have from 1 to 2"),
            ("a picture", b"\x89PNG\r\n\x1a\nrubbish", 2, "neither a picture"),
        ]:
            saved(here, "marks.txt", files)
            got = self.ecc("read --doubtful marks.txt one.txt")
            self.holds(name, got[0] == status and part in got[2], str(got))
        saved(here, "marks.txt", text(none))
        self.says("too few", self.ecc("read --doubtful marks.txt damaged.txt"), 2, "123456\n",
                  ["--doubtful marks.txt: it has no grid for symbol 2 of damaged.txt"])
        self.says("none there", self.ecc("read --doubtful nope.txt one.txt"), 2, "", ["nope.txt: No such"])
        self.says("both there", ecc("read --doubtful -", given=text(square)), 2, "", ["--doubtful -: standard input"])
        self.says("ways", self.ecc("read --any-way --doubtful more.txt one.txt"), 2, "", ["don't go with --any-way"])

    def test_drawn(self):
        """Symbols as SVG, PDF, blocks and arrays, by their own rows and columns, and as others draw them."""
        here = self.made("drawn")
        image = self.wanted_module("PIL.Image", "Pillow", "symbols as others draw them")
        for size in ((16, 16), (8, 18), (8, 144), (26, 40), (144, 144)):
            rows = ecc200.write(b"Rect", size=size)
            symbol = ecc200.Symbol(rows, quiet=1)
            array = symbol.__array_interface__
            self.row(f"an array of {size}", (array["shape"], len(array["data"])),
                     ((size[0] + 2, size[1] + 2), (size[0] + 2) * (size[1] + 2)))
            status, shown, _ = ecc("write --form ascii --format blocks --quiet-zone 2 --size", named(size), "Rect")
            self.row(f"blocks, {size}", (status, of_blocks(shown.split("\n")[:(size[0] + 4) // 2], 2)), (0, text(rows)))
            if not image:
                continue
            self.row(f"pictured {size}", ecc200.read(image.Image.open(io.BytesIO(symbol.png(25.4 / 0.5)))).size, size)
            self.row(f"its array as a picture, {size}",
                     ecc200.read(image.Image.frombytes("L", array["shape"][::-1], array["data"])).size, size)
            for kind, words in {"pdf": ["pdftoppm", "-r", "508", "-png", "-singlefile", "a.pdf", "a"],
                                "svg": ["rsvg-convert", "-d", "508", "-p", "508", "-o", "a.png", "a.svg"]}.items():
                if self.has(words[0], f"{kind} as {words[0]} draws it"):
                    self.ecc("write --size", named(size), "Rect", "-o", f"a.{kind}")
                    self.row(f"{words[0]} draws {kind} of {size}", run(words, cwd=here)[0], 0)
                    with image.Image.open(os.path.join(here, "a.png")) as picture:
                        small = picture.convert("L").resize((size[1] + 4, size[0] + 4), image.Image.BOX)
                    self.row(f"{kind} of {size} as {words[0]} draws it", ecc200.read(small), ecc200.read(rows))

    def test_sheets(self):
        """Sheets that hold symbols of several shapes, on which nothing overlaps."""
        symbols = [ecc200.write(b"SN%d" % number, size=SIZES[number]) for number in range(48)
                   if 4 < ecc200.sizes()[number].data_codewords]
        for caption in ([], ["SN-0001"], ["W" * 50]):
            for page in drawing.sheets(symbols, 0.5, 2, captions=[caption] * len(symbols)):
                self.row(f"nothing overlaps, {caption}", laid(page), (True, True))
        self.raises("a rectangle wider than a sheet", ValueError, "74.0 by 6.0 mm doesn't fit",
                    lambda: drawing.sheets([ecc200.write(b"A", size=(8, 144))], 0.5, 2, (90.0, 90.0)))

    def test_found(self):
        """Rectangles and large squares in pictures, where the sampler finds them: by the package and by the command."""
        here = self.made("found", "rectangles in pictures")
        for size in SIZES:
            path, data = os.path.join(here, f"{named(size)}.png"), filling(size)
            ecc200.encode(data, size=size, quiet=4).save(path)
            got = ecc200.decode(path, most=1)
            self.row(f"decode {named(size)}", [(reading.data, reading.size) for reading in got], [(data, size)])
        lines = [json.loads(line) for line in ecc("read --json -r", here)[1].splitlines()]
        told = {line["file"]: (line.get("message"), line.get("rows"), line.get("columns")) for line in lines}
        self.row("read", told, {os.path.join(here, f"{named(it)}.png"): (filling(it).decode(), *it) for it in SIZES})
        lots = "".join(f"lot {number}\n" for number in range(12))
        self.says("a sheet", self.ecc("write --shape rectangle --sheet 100x60 --caption -o sheet.png", given=lots),
                  output="")
        got = self.ecc("read --all --time 20000 sheet.png")
        self.row("a sheet of rectangles", (got[0], sorted(got[1].splitlines())), (0, sorted(lots.splitlines())))
