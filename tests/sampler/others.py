"""Codes of other kinds, which zint draws, are called what they are, and nothing else is."""
import ctypes
import math
import os
import random
import shutil

from tests.sampler.pictures import grid_of, pgm, pixels_of, run, turned
from tests.sampler.sheets import noisy
from tests.sampler.sizes import tilted
from tests.support import places

QR, AZTEC, PDF417, BARS = "a QR code", "an Aztec code", "a PDF417 code", "a bar code"
LETTERS, DIGITS = "ABCDEFGHIJKLMNOPQRSTUVWXYZ 0123456789", "0123456789"
# By zint's numbers: what each is called, its characters, how many, and how many modules high its rows are.
KINDS = {58: (QR, LETTERS, (4, 120), 1), 92: (AZTEC, LETTERS, (4, 200), 1), 128: (AZTEC, "1", (1, 1), 1),
         55: (PDF417, LETTERS, (6, 90), 3), 20: (BARS, LETTERS, (4, 20), 40), 13: (BARS, DIGITS, (12, 12), 40),
         34: (BARS, DIGITS, (11, 11), 40), 8: (BARS, LETTERS, (4, 12), 40), 25: (BARS, LETTERS, (4, 12), 40),
         3: (BARS, DIGITS, (8, 14), 40)}


def drawn(number, text):
    """The modules of a code that zint draws; of a code of bars as many rows as it is modules high."""
    done = run(["zint", "-b", str(number), "--dump", "-d", text])
    assert done.returncode == 0, done.stderr
    lines = [line.replace(" ", "") for line in done.stdout.decode().splitlines() if line.strip()]
    rows = [f"{int(line, 16):0{4 * len(line)}b}" for line in lines]
    wide = max(len(row.rstrip("0")) for row in rows)
    return [[int(digit) for digit in row[:wide]] for row in rows for _ in range(KINDS[number][3])]


def codes(chance, count):
    """So many codes of each kind, by zint's number and what each says."""
    for number, (_, letters, (least, most), _) in KINDS.items():
        for _ in range(count):
            text = "".join(chance.choice(letters) for _ in range(chance.randint(least, most))).strip() or "A"
            yield number, text, drawn(number, text)


class Library:
    def __init__(self, case):
        ctypes.CDLL(places.SHARED, ctypes.RTLD_GLOBAL)
        self.call = ctypes.CDLL(os.path.join(case.plain, "libecc200_sample.so")).ecc200_sample_other_code
        self.call.restype = ctypes.c_char_p
        self.call.argtypes = [ctypes.c_char_p, *[ctypes.c_size_t] * 3, ctypes.c_void_p]

    def of(self, rows):
        corners = (ctypes.c_double * 8)()
        name = self.call(b"".join(map(bytes, rows)), len(rows[0]), len(rows), len(rows[0]), corners)
        return name and name.decode(), list(zip(corners[::2], corners[1::2]))


def ways(chance, number, modules):
    """Ways in which a code is shown: its name, its rows, and pixels a module and a quiet zone if it is upright."""
    least = 2 if KINDS[number][0] in (QR, AZTEC) else 1
    for scale, quiet in ((least, 0), (3, 4), (chance.randint(4, 9), 2)):
        yield f"upright at {scale}", pixels_of(modules, scale, quiet), (scale, quiet)
    rows = pixels_of(modules, 2, 6, chance.randint(10, 80), chance.randint(160, 250))
    for way in ("turned by a quarter", "upside down", "turned back"):
        rows = turned(rows)
        yield way, rows, None
    yield "mirrored", [row[::-1] for row in rows], None
    yield "noisy", noisy(rows, 8, chance), None


def square_rings(count, marks=()):
    """Squares within squares, dark and light by turns, in the middle of a light ground with some dark modules."""
    side = 2 * count + 9
    middle = side // 2
    rings = [[max(abs(x - middle), abs(y - middle)) for x in range(side)] for y in range(side)]
    return [[int(away < count and away % 2 == 0 or (x - middle, y - middle) in marks) for x, away in enumerate(row)]
            for y, row in enumerate(rings)]


def finders(places_of, side, chance):
    """Modules of chance with a QR code's squares at these corners."""
    rows = [[chance.randint(0, 1) for _ in range(side)] for _ in range(side)]
    for top, left in places_of:
        for y in range(-1, 8):
            for x in range(-1, 8):
                away = max(abs(x - 3), abs(y - 3))
                if 0 <= top + y < side and 0 <= left + x < side:
                    rows[top + y][left + x] = int(away in (0, 1, 3))
    return rows


LEAST_TURNED = 0.9  # of the codes of squares that stand turned by any angle


class Others:
    def test_other_codes(self):
        """Clean codes of each kind are called what they are: upright at any scale, turned, mirrored, noisy."""
        if not self.has("zint", "codes of other kinds"):
            return
        library, chance = Library(self), random.Random(61)
        for number, text, modules in codes(chance, 6):
            for way, rows, upright in ways(chance, number, modules):
                name, corners = library.of(rows)
                self.row(f"{text!r} by zint's {number}, {way}", name, KINDS[number][0])
                if upright and name:
                    scale, quiet = upright
                    xs, ys = ([value / scale - quiet for value in values] for values in zip(*corners))
                    self.row(f"{text!r} by zint's {number}, {way}: corners",
                             (abs(min(xs)) <= 1, abs(max(xs) - len(modules[0])) <= 1, min(ys) > -1,
                              max(ys) < len(modules) + 1), (True, ) * 4)

    def test_turned_codes(self):
        """QR codes and Aztec codes are called what they are at nearly any angle."""
        if not self.has("zint", "codes of other kinds that are turned"):
            return
        library, chance = Library(self), random.Random(64)
        names = [(KINDS[number][0], library.of(tilted(pixels_of(modules, 4, 4), chance.uniform(0, 2 * math.pi)))[0])
                 for number, _, modules in codes(chance, 8) if KINDS[number][0] in (QR, AZTEC)]
        right = sum(wanted == got for wanted, got in names)
        self.row(f"{right} of {len(names)}, and no other name",
                 (right >= LEAST_TURNED * len(names), {got for wanted, got in names if got != wanted} <= {None}),
                 (True, True))

    def test_other_codes_are_said(self):
        """The program says which other code there is, and the status is as where there is none."""
        if not self.has("zint", "what is said of codes of other kinds"):
            return
        for number, text, modules in codes(random.Random(62), 1):
            done = run([self.sampler, "--time=30000"], pgm(pixels_of(modules, 3)))
            self.row(f"{text!r} by zint's {number}", (done.returncode, done.stdout, done.stderr.decode()),
                     (1, b"", f"dm_sample: -: no Data Matrix symbol was found, but {KINDS[number][0]}\n"))
        both = [one + other for one, other in zip(pixels_of(grid_of("BESIDE IT"), 4, 4), pixels_of(modules, 4, 4))]
        done = run([self.sampler, "--all", "--time=30000"], pgm(both))
        self.row("a symbol beside one", (done.returncode, done.stderr), (0, b""))

    def test_nothing_else_is_named(self):
        """What looks like a part of another code isn't called one: bars, squares, circles, an unread symbol."""
        library, chance = Library(self), random.Random(63)
        if shutil.which("zint"):
            low = drawn(20, "A LOW BAR CODE")[:6]
            self.row("a bar code that is too low", library.of(pixels_of(low, 3, 8))[0], None)
        bars = [chance.randint(0, 1) for _ in range(120)]
        compact = {(-5, -5), (-4, -5), (-5, -4), (5, -5), (5, -4), (5, 4)}
        circles = [[20 if math.hypot(x - 60, y - 60) % 8 < 4 and math.hypot(x - 60, y - 60) < 36 else 230
                    for x in range(120)] for y in range(120)]
        corners = (0, 0), (0, 14), (14, 0)
        pictures = {"bars": pixels_of([bars] * 40, 2), "even bars": pixels_of([[k % 2 for k in range(99)]] * 40, 2),
                    "squares within squares": pixels_of(square_rings(5), 4),
                    "and with two marks": pixels_of(square_rings(5, {(-5, -5), (5, 5)}), 4), "circles": circles,
                    "two squares": pixels_of(finders(corners[:2], 21, chance), 4),
                    "three squares without turns between": pixels_of(finders(corners, 21, chance), 4),
                    "chess": pixels_of([[(x + y) % 2 for x in range(30)] for y in range(30)], 4)}
        for name, rows in pictures.items():
            self.row(name, library.of(rows)[0], None)
        self.row("with the marks of an Aztec code", library.of(pixels_of(square_rings(5, compact), 4))[0], AZTEC)
        for count in range(1, 60):
            grid = grid_of("".join(chance.choice(LETTERS) for _ in range(count)))
            for row in range(1, len(grid) - 1):
                for column in range(1, len(grid) - 1):
                    grid[row][column] ^= chance.random() < 0.3
            rows = pixels_of(grid, chance.randint(1, 5), chance.randint(0, 4))
            self.row(f"a symbol of {count} characters beyond repair", library.of(rows)[0], None)
