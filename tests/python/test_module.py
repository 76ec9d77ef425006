"""The module: grids and messages in all their forms, refusals, many grids, threads and processes."""
import array
import contextlib
import copy
import multiprocessing
import os
import pickle
import signal
import threading
import time
from unittest import mock

from tests import corpus
from tests.python.common import SHARED, VERSION, PackageCase, marks, outcome, saved

import ecc200
from ecc200 import core


def answer(grid, **more):
    """What a grid says, or the numbers of its refusal."""
    return outcome(ecc200.read, grid, **more)


def plain_forms(lines):
    rows = [bytes(map(int, line)) for line in lines]
    flat, sides = b"".join(rows), (len(rows), len(rows[0]))
    forms = {"rows of bytes": rows, "rows in a tuple": tuple(rows), "rows from an iterator's list": list(iter(rows)),
             "bytearrays": list(map(bytearray, rows)), "rows of numbers": [list(row) for row in rows],
             "rows of booleans": [[bool(module) for module in row] for row in rows],
             "rows of larger numbers": [[module * 1000 for module in row] for row in rows], "rows of text": lines,
             "rows of digits": [line.encode() for line in lines], "a text": "\n".join(lines) + "\n",
             "a text in bytes": "\n".join(lines).encode() + b"\n", "a view": memoryview(flat).cast("B", sides),
             "a view of numbers": memoryview(array.array("l", list(flat))).cast("B").cast("l", sides),
             "rows of arrays": [array.array("H", list(row)) for row in rows],
             "rows of 255": [bytes(255 * module for module in row) for row in rows]}
    flat_forms = {"flat bytes": flat, "a flat bytearray": bytearray(flat), "flat digits": "".join(lines).encode(),
                  "a flat memoryview": memoryview(flat)}
    return {**forms, **flat_forms} if sides[0] == sides[1] else forms


def numpy_forms(numpy, lines):
    grid = numpy.array([[int(module) for module in line] for line in lines], dtype=numpy.uint8)
    wide = numpy.zeros((2 * len(lines), 3 * len(lines[0])), dtype=numpy.uint8)
    wide[::2, ::3] = grid
    forms = {"uint8": grid, "bool": grid.astype(bool), "int64": grid.astype(numpy.int64) * -7,
             "float": grid.astype(float) / 2, "steps": wide[::2, ::3], "fortran": numpy.asfortranarray(grid),
             "rows of": list(grid), "a view of steps": memoryview(wide[::2, ::3])}
    flat_forms = {"flat": grid.ravel(), "flat bool": grid.ravel().astype(bool)}
    return {**forms, **flat_forms} if len(lines) == len(lines[0]) else forms


def pictures(image, lines):
    wide, high = len(lines[0]), len(lines)
    dark = image.new("L", (wide, high), 255)
    dark.putdata([0 if module == "1" else 255 for line in lines for module in line])
    roomy = image.new("L", (wide + 5, high + 9), 240)
    roomy.paste(dark, (2, 4))
    clear = image.new("RGBA", (wide + 2, high + 2), (0, 0, 0, 0))
    clear.paste((10, 20, 30, 255), (1, 1, wide + 1, high + 1), dark.point(lambda shade: 255 - shade))
    return {"L": dark, "1": dark.convert("1"), "RGB": dark.convert("RGB"), "P": dark.convert("P"),
            "with a margin": roomy, "transparent": clear}


def answer_or_refusal(grid):
    return ecc200.read_many([grid])[0]


def raising(number):
    raise ecc200.Refused(ecc200.Code.SIZE, number)


@contextlib.contextmanager
def two_processes():
    """A pool whose processes SIGTERM ends by itself: a handler in Python loses one right after the fork."""
    before = signal.signal(signal.SIGTERM, signal.SIG_DFL)
    try:
        with multiprocessing.Pool(2) as pool:
            yield pool
    finally:
        signal.signal(signal.SIGTERM, before)


class Module(PackageCase):
    def test_forms(self):
        """Each mark says the same in whichever form it is given; what that is, tests/library asks."""
        numpy = self.wanted_module("numpy", "numpy", "grids as arrays of numpy")
        pillow = self.wanted_module("PIL.Image", "Pillow", "grids as pictures of Pillow")
        for mark in (*corpus.marks("squares"), *corpus.marks("sizes")):
            lines, wanted = mark.lines, answer([list(row) for row in mark.grid])
            given = plain_forms(lines)
            if numpy:
                given.update(numpy_forms(numpy, lines))
            if pillow:
                given.update(pictures(pillow.Image, lines))
            for name, grid in given.items():
                self.row(f"mark {mark.name} as {name}", answer(grid), wanted)

    def test_strange_grids(self):
        if os.sysconf("SC_PHYS_PAGES") > 1 << 22:
            self.row("rows and columns too many", answer([bytes(65_536)] * 65_536), (ecc200.Code.SIZE, 65_536, 65_536))
        self.raises("other characters", ValueError, "'10x0'", lambda: ecc200.read(["10x0"] * 4))

    def test_refusals(self):
        for code in ecc200.Code:
            why = ecc200.Refused(code, 7, 9)
            for name, other in (("pickled", pickle.loads(pickle.dumps(why))), ("copied", copy.copy(why)),
                                ("copied deeply", copy.deepcopy(why))):
                self.row(f"{code.name}, {name}", (type(other), other.code, other.value, other.place, str(other)),
                         (type(why), code, 7, 9, str(why)))

    def test_many(self):
        grids = [list(map(str, lines)) for lines in marks()] + [["1"], [bytes(10)] * 10]
        wanted = [answer(grid) for grid in grids]

        def told(found):
            return [(each.code, each.value, each.place) if isinstance(each, ecc200.Refused) else each for each in found]
        self.row("many at once", told(ecc200.read_many(grids)), wanted)
        self.row("many from an iterator", told(ecc200.read_many(iter(grids))), wanted)
        with two_processes() as pool:
            self.row("many by processes", told(pool.map_async(answer_or_refusal, grids).get(timeout=60)), wanted)
            self.raises("a refusal that a process raises", ecc200.Refused, "SIZE, value 11",
                        lambda: pool.map_async(raising, [11] * 4).get(timeout=60))
        numpy = self.wanted_module("numpy", "numpy", "many grids in an array")
        if numpy:
            block = numpy.array([[list(row) for row in ecc200.write(b"%06d" % number)] for number in range(200)],
                                dtype=numpy.uint8)
            block[7] = 0
            wanted = [answer([bytes(row) for row in grid]) for grid in block]
            for name, some in (("bytes", block), ("booleans", block.astype(bool)),
                               ("numbers", block.astype(numpy.int32)), ("steps", numpy.repeat(block, 2, 0)[::2])):
                self.row(f"an array of three dimensions of {name}", told(ecc200.read_many(some)), wanted)

    def test_by_threads(self):
        """Answers of eight threads are those of one, and others run during a call."""
        grids = [[bytes(map(int, line)) for line in lines] for lines in marks()]
        wanted, got = [answer(grid) for grid in grids], {}

        def work(number):
            got[number] = [[answer(grid) for grid in grids] for _ in range(20)]
        threads = [threading.Thread(target=work, args=(number,)) for number in range(8)]
        for thread in threads:
            thread.start()
        for thread in threads:
            thread.join()
        self.row("eight threads", all(each == wanted for rounds in got.values() for each in rounds) and len(got), 8)
        interrupted = []

        def interrupt(*_):
            interrupted.append(answer(grids[0]))
        before = signal.signal(signal.SIGALRM, interrupt)
        signal.setitimer(signal.ITIMER_REAL, 0.0005, 0.0005)
        until, right = time.monotonic() + 1, True
        while time.monotonic() < until:
            right = right and [answer(grid) for grid in grids[100:]] == wanted[100:]
        signal.setitimer(signal.ITIMER_REAL, 0)
        signal.signal(signal.SIGALRM, before)
        self.row("in a handler", (right, len(interrupted) > 50, set(interrupted) == {wanted[0]}), (True, True, True))
        # ctypes' flag for functions that keep the interpreter's lock
        self.row("calls let others run", core._library.ecc200_read._flags_ & 4, 0)

    def test_loading(self):
        """Processors that lack an instruction, libraries that aren't there or of another version."""
        good = "processor\t: 0\nflags\t\t: fpu " + " ".join(sorted(core._INSTRUCTIONS)) + " avx\n"
        for name, text, lacking in [("has all", good, []), ("has no SSE4.2", good.replace("sse4_2 ", ""), ["sse4_2"]),
                                    ("says nothing", "processor\t: 0\n", []),
                                    ("has none", "flags\t\t: fpu\n", sorted(core._INSTRUCTIONS))]:
            path = saved(self.room, "cpuinfo", text)
            self.row(f"a processor that {name}", core._lacking(path), lacking)
            if lacking:
                self.raises(f"the module on one that {name}", ImportError, "x86-64-v2; this one lacks " + lacking[0],
                            lambda path=path: core._load(path))
        self.row("a processor that isn't described", core._lacking(os.path.join(self.room, "none")), [])
        with mock.patch.dict(os.environ, ECC200_LIBRARY=os.path.join(self.room, "none.so")):
            self.raises("no library", ImportError, "ECC200_LIBRARY", core._load)
        with mock.patch.dict(os.environ, ECC200_SAMPLE_LIBRARY=SHARED):
            self.raises("a library in place of another", core.SamplerMissing,
                        f"{SHARED} is a library, but not ecc200_sample", core._sampler.__wrapped__)
        self.row("the version", core.version(), VERSION)
