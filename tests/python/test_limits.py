"""What is damaged, endless, or too large for memory or a number ends by itself, and keeps nothing else back."""
import contextlib
import io
import os
import pickle
import struct
import types
import warnings
from unittest import mock

from tests.python.common import PackageCase, ecc
from tests.python.test_batches import saved, shell, symbols
from tests.python.test_surface import text
from tests.support import places

import ecc200
from ecc200 import core, drawing, gs1

ENDLESS = "tr '\\0' {} < /dev/zero"


def picture_of(message):
    from PIL import Image
    return Image.open(io.BytesIO(ecc200.encode(message, quiet=4).png())).convert("L")


def with_empty_directory(path):
    """Gives a TIFF a second directory, which is empty."""
    data = bytearray(places.read(path))
    start = struct.unpack_from("<I", data, 4)[0]
    struct.pack_into("<I", data, start + 2 + 12 * struct.unpack_from("<H", data, start)[0], len(data))
    saved("", path, bytes(data) + bytes(6))


def by_main(*words):
    """Status, output and errors of the command in this process."""
    from ecc200 import command
    with contextlib.redirect_stdout(io.StringIO()) as said, contextlib.redirect_stderr(io.StringIO()) as errors:
        status = command.main([*words])
    return status, said.getvalue(), errors.getvalue()


class Limits(PackageCase):
    def test_damaged(self):
        """Each file is answered or named, whatever the others are, and each page that can be opened."""
        here = self.made("damaged", "damaged pictures")
        names = ["first.png", "next.tif", "three.tif", "last.png"]
        for name, message in (("first.png", b"1"), ("next.tif", b"2"), ("last.png", b"4")):
            picture_of(message).save(os.path.join(here, name))
        with_empty_directory(os.path.join(here, "next.tif"))
        picture_of(b"3").save(os.path.join(here, "three.tif"), save_all=True, append_images=[picture_of(b"5")])
        os.truncate(os.path.join(here, "three.tif"), os.path.getsize(os.path.join(here, "three.tif")) - 50)
        output = "first.png:1\nnext.tif:2\nthree.tif:3\nlast.png:4\n"
        for jobs in ("1", "3"):
            got = self.ecc("read --jobs", jobs, *names)
            self.says(f"damaged pages, {jobs} at a time", got, 2, output,
                      ["ecc200: next.tif: page 2 of the picture can't be opened", "ecc200: three.tif: page 2 of"])
            self.row("each is named once", got[2].count("\n"), 2)
        for call in (ecc200.decode, ecc200.find):
            with warnings.catch_warnings(record=True) as said:
                self.row(f"by Python, {call.__name__}", len(call(os.path.join(here, "next.tif"))), 1)
            self.holds("it warns", any("page 2 of" in str(one.message) for one in said))

    def test_little_memory(self):
        """A file for which there is no room is named, and the others are read, at each limit and with several jobs."""
        Image = self.needs_search("little memory").Image
        here = self.made("memory")
        picture_of(b"small").save(os.path.join(here, "a.png"))
        Image.new("RGBA", (2500, 2500)).save(os.path.join(here, "large.png"), compress_level=1)
        picture_of(b"last").save(os.path.join(here, "z.png"))
        outputs = set()
        for limit in range(60_000, 340_000, 28_000):
            if shell(f"ulimit -v {limit}; $E read a.png", here)[0]:
                continue  # there is too little for the smallest
            for jobs in ("1", "3"):
                got = shell(f"ulimit -v {limit}; $E read --time 300 --jobs {jobs} a.png large.png z.png", here)
                self.holds(f"{limit} kB, {jobs} at a time", got[0] in (1, 2, 3) and "Traceback" not in got[2]
                           and ("a.png:small\n" in got[1] or "a.png: " in got[2])
                           and ("z.png:last\n" in got[1] or "z.png: " in got[2]) and "large.png" in got[2], str(got))
                outputs.add("memory" in got[2])
        self.row("the large one has room only at some", outputs, {True, False})

    def test_exhausted(self):
        """Wherever memory ends, or no thread can be started, the other files are read."""
        self.needs_search("files for which there is no memory")
        from concurrent.futures import ThreadPoolExecutor
        from ecc200 import reporting, sources
        here = self.made("exhausted")
        names = [os.path.join(here, f"{number}.png") for number in range(3)]
        for number, name in enumerate(names):
            picture_of(b"%d" % number).save(name)
        for module, name in ((sources, "of_picture"), (sources, "_of_page"), (reporting, "_answer")):
            usual = getattr(module, name)

            def failing(first, *rest, usual=usual):
                if getattr(first, "file", first) == names[1]:
                    raise MemoryError
                return usual(first, *rest)
            with mock.patch.object(module, name, failing):
                for jobs in ("1", "2"):
                    got = by_main("read", "--jobs", jobs, *names)
                    self.says(f"no memory in {name}, {jobs} at a time", got, 2, f"{names[0]}:0\n{names[2]}:2\n",
                              [f"ecc200: {names[1]}: ", "too little memory"])
        pages = os.path.join(here, "pages.tif")
        picture_of(b"1").save(pages, save_all=True, append_images=[picture_of(b"2"), picture_of(b"3")])
        usual_page = sources._of_page
        with mock.patch.object(sources, "_of_page", lambda name, page, number, search: usual_page(
                name, None if number == 2 else page, number, search)):
            self.says("one page", by_main("read", pages), 2, "1\n3\n", ["page 2 of the picture can't be searched"])
        for error in (RuntimeError, MemoryError):
            with mock.patch.object(ThreadPoolExecutor, "submit", side_effect=error):
                self.says(f"{error.__name__} of a thread", by_main("read", "--jobs", "2", *names),
                          output="".join(f"{name}:{number}\n" for number, name in enumerate(names)))

    def test_endless(self):
        here = self.made("endless")
        rows = [("a row of a grid", f"{ENDLESS.format('1')} | $E read", 2, "more than 4096 characters"),
                ("a row of doubtful modules", f"$E read --doubtful <({ENDLESS.format('1')}) label.txt", 2,
                 "more than 4096 characters"),
                ("a picture", "cat <(printf 'GIF8') /dev/zero | $E read", 2, "more than 1,024 MiB"),
                ("a message", f"{ENDLESS.format('A')} | $E write", 2, "without an end in 1 GiB"),
                ("the bytes of a message", "$E write --bytes /dev/zero", 1, "/dev/zero: the message is longer")]
        saved(here, "label.txt", symbols(b"A"))
        for name, line, status, part in rows:
            self.says(name, shell(f"ulimit -v 4000000; {line}", here), status, "", [part])

    def test_long_lines(self):
        """A line that is longer than any message is one that is refused."""
        got = ecc("write", given=b"A\n" + b"7" * 70_000 + b"\nB\n")
        self.says("a long line", got, 1, symbols(b"A", b"B"), ["line 2: it has more than 65,536"])
        self.row("it is named once", got[2].count("\n"), 1)

    def test_many(self):
        """A grid with a foreign character is one that is refused."""
        good = core.write(b"A")
        got = core.read_many([good, ["10", "1x"], "10\n\u00e9\n", text(good)])
        self.row("each has an answer", [getattr(answer, "code", answer) for answer in got],
                 [core.read(good), core.Code.SHAPE, core.Code.SHAPE, core.read(good)])
        self.holds("it says why", "'1x'" in str(got[1]), str(got[1]))
        again = pickle.loads(pickle.dumps(got[1]))
        self.row("it goes between processes", (str(again), again.code), (str(got[1]), got[1].code))
        self.raises("one by itself", core.Refused, "0 and 1", lambda: core.read(["10", "1x"]))

    def test_numbers(self):
        """A number that C would wrap is named."""
        square = memoryview(bytes(64 * 64)).cast("B", (64, 64))
        for name, least, most in (("margin", 0, 65535), ("milliseconds", 0, 2**32 - 2), ("most", 1, 65535)):
            for value in (least - 1, most + 1, -2**40, 2**64):
                for call in (ecc200.find, ecc200.decode)[:1 + (name != "margin")]:
                    self.raises(f"{call.__name__}, {name}={value}", ValueError,
                                f"{name} is a whole number from {least}", lambda: call(square, **{name: value}))
            self.raises(name, TypeError, f"{name} is a whole number", lambda: ecc200.find(square, **{name: 1.5}))
        grid = core.write(b"A")
        calls = core.read, core.normal, ecc200.decode, lambda it, border_limit: core.read_many([it], border_limit)
        for call, given in (*((call, grid) for call in calls), (ecc200.decode, square)):
            for value in (-1, -2**40):
                self.raises(f"a border limit of {value}", ValueError, "border_limit is a whole number", lambda: call(
                   given, border_limit=value))
        self.raises("what a grid has no use for", ValueError, "most is a whole number", lambda: ecc200.decode(grid, 0))
        self.raises("a border limit in words", TypeError, "border_limit", lambda: core.read(grid, "none"))
        self.row("a large one", core.read(grid, 2**64), core.read(grid))
        for call in (ecc200.encode, core.write):
            self.raises("a number", TypeError, "text, bytes, or a list of items, unlike 123456", lambda: call(123456))
        self.raises("items that are none", gs1.Faulty, "70000 is no item", lambda: gs1.split([48, 70000]))
        for size, margin in (((float("inf"), 5), 1), ((float("nan"), 5), 1), ((-5, 5), 1), ((5, 5), float("nan")),
                             ((5, 5), -float("inf"))):
            self.raises(f"a sheet of {size} and {margin}", ValueError, "a side of a sheet", lambda: drawing.sheets(
               [grid], .5, 2, size, margin))
        self.row("a sheet of nothing", drawing.sheets([], .5, 2), [])
        for call in (core.places, core.usual_limit):
            self.raises(f"{call.__name__} of half a row", TypeError, "rows and columns are whole", lambda: call(10.5))
            self.raises(f"{call.__name__} of fewer than none", core.Refused, "SIZE, value -5", lambda: call(-5))
        self.row("characters in lists", core.read([list("".join(map(str, row))) for row in grid]), core.read(grid))
        self.raises("other characters in lists", core.Refused, "unlike '2", lambda: core.read([["2"], ["1"]]))
        self.raises("half a module of quiet zone", TypeError, "quiet zone", lambda: ecc200.encode(b"A", quiet=1.5))
        for words in (("--sheet", "9" * 400 + "x5"), ("--sheet", "0x5"), ("--module", "9" * 400)):
            got = ecc("write A -o a.svg", *words)
            self.says(f"{words[0]} {words[1][:9]}", got, 2, "", ["ecc200: "])
            self.holds("no traceback", "Traceback" not in got[2] and got[2].count("\n") == 1, got[2])
        for words in (("--dpi", "9" * 5000), ("--size", "9" * 5000 + "x8"), ("--quiet-zone", "9" * 5000)):
            self.says(f"{words[0]} with 5000 digits", ecc("write A", *words), 2, "", ["wanted, "])

    def test_arrays(self):
        """Arrays in which pixels are modules, and of any numbers, are read."""
        if self.has_sampler("pictures that are too short"):
            short = types.SimpleNamespace(  # fewer luminances than it says
                mode="L", size=(600, 600), width=600, height=600, info={}, getbbox=lambda: (0, 0, 600, 600),
                getbands=lambda: ("L", ), convert=lambda mode: short, tobytes=lambda: bytes(99))
            self.raises("a picture that is too short", ValueError, "has 99 luminances", lambda: ecc200.find(short))
        numpy = self.needed("numpy", "numpy", "arrays of modules")
        ten, one = numpy.int64(10), numpy.int64(1)
        rows = core.write(b"A")
        self.row("numbers of numpy", (core.places(ten), core.usual_limit(ten), core.read(rows, one, extent=one),
                                      core.normal(rows, one, profile=numpy.int64(0), extent=one),
                                      core.write(b"A", size=(ten, ten), form=numpy.int64(2))),
                 (core.places(10), 2, core.read(rows, 1), core.normal(rows), rows))
        for message in (b"A", b"Mitsubadoor" * 9):
            symbol = ecc200.encode(message)
            grid = numpy.array(symbol.rows)
            picture = numpy.array(symbol)
            for name, array in [("a picture", picture), ("a grid", grid), ("a grid with a margin", numpy.pad(grid, 3)),
                                ("a grid of booleans", grid.astype(bool)), ("light booleans", grid == 0)]:
                self.row(f"{name} of {len(grid)}", [found.data for found in ecc200.decode(array)], [message])
            for kind in ("int8", "int16", "uint16", "int32", "uint32", "int64", "uint64", ">i8", "<u8", "float16",
                         "float32", "float64"):
                self.row(f"a grid of {kind}", [found.data for found in ecc200.decode(grid.astype(kind))], [message])
                scaled = (picture // 255 * (1 if kind[0] == "f" else 120)).astype(kind)
                self.row(f"a picture of {kind}", [found.data for found in ecc200.decode(scaled)], [message])
        large = numpy.kron(numpy.array(ecc200.encode(b"A", quiet=4)).astype("int64") * 300, numpy.ones((5, 5), int))
        if self.has_sampler("a large array"):
            self.row("found in int64", [found.answer.data for found in ecc200.find(large)], [b"A"])
            self.row("no symbol", ecc200.decode(numpy.zeros((200, 300), "int64")), [])
        self.raises("numbers that are none", TypeError, "an array of rows of numbers", lambda: ecc200.decode(
           numpy.zeros((9, 9), complex)))

    def test_doubted(self):
        """A border limit that is found by itself takes the doubtful modules into account."""
        rows = [bytearray(row) for row in core.write(b"123456")]
        doubtful = [bytearray(10) for _ in rows]
        for column in range(10):
            rows[9][column] = 0  # the border is wrong
        places = core.places(10)
        for y, x in ((y, x) for y in range(10) for x in range(10)):
            if places[y][x].kind == core.Kind.BIT and places[y][x].codeword < 3:
                rows[y][x], doubtful[y][x] = 0, 1  # more codewords than could be corrected
        self.raises("without the doubt", core.Refused, "", lambda: core.normal(rows, "auto"))
        self.row("with it", core.normal(rows, "auto", doubtful=doubtful), core.write(b"123456"))
