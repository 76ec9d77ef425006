"""Many symbols in one picture: sheets and trays, close together, turned as one or each by itself."""
import json
import math
import os
import random
import sys

from tests.sampler.pictures import grid_of, pgm, pixels_of, run
from tests.sampler.sizes import tilted
from tests.support import places, work

MOST_WORK = 0.2  # for a symbol of a sheet, the picture's opening included: about 20 milliseconds


def labels(count, chance):
    """Messages, and their grids, which are all of one size."""
    messages = [f"{chance.randrange(10 ** 8):08d}" for _ in range(count)]
    return messages, [grid_of(message) for message in messages]


def sheet_of(grids, across, gap, pixels):
    """The rows of a picture: grids row by row, `gap` modules apart."""
    side = len(grids[0])
    apart, rows = [0] * gap, []
    for first in range(0, len(grids), across):
        row_of = grids[first:first + across]
        row_of += [[[0] * side] * side] * (across - len(row_of))
        rows += [[0] * (across * (side + gap) + gap)] * gap
        rows += [[module for grid in row_of for module in (*apart, *grid[line])] + apart for line in range(side)]
    return pixels_of(rows + [[0] * len(rows[0])] * gap, pixels)


def noisy(rows, deviation, chance):
    """A picture full of noise."""
    return [[max(0, min(255, level + round(chance.gauss(0, deviation)))) for level in row] for row in rows]


def told(sampler, rows, *words):
    """What is said of all symbols in the usual work, in its order, and how that ended."""
    done = run([sampler, "--all", "--json", *words], pgm(rows) if rows else b"")
    return [json.loads(line)["message"] for line in done.stdout.splitlines()], (done.returncode, done.stderr)


class Sheets:
    def test_sheets(self):
        """Sheets are read whole, in order, however dense; and the time a symbol doesn't grow with their number."""
        chance = random.Random(21)
        for count, across, pixels in ((100, 10, 4), (400, 20, 3)):
            messages, grids = labels(count, chance)
            for gap in (1, 2, 4, 6):
                name = f"{count} symbols, {gap} modules apart"
                rows = sheet_of(grids, across, gap, pixels)
                with work.measured() as took:
                    got, ended = told(self.sampler, rows)
                self.row(name, (got, ended), (messages, (0, b"")))
                self.row(f"{name}: the work", took.pieces < MOST_WORK * count or str(took), True)

    def test_large_sheets(self):
        """The search of twelve megapixels with symbols and text is over in its usual work, and then it says so."""
        chance = random.Random(65)
        messages, grids = labels(6, chance)
        rows = [bytearray(b"\xe6" * 4000) for _ in range(3000)]
        for at, grid in enumerate(grids):
            top, left = 200 + at // 3 * 1400, 150 + at % 3 * 1300
            for y, line in enumerate(pixels_of(grid, 5 + at)):
                rows[top + y][left:left + len(line)] = line
            for y in range(12):
                words = bytes(chance.choice((20, 230)) if x % 8 < 6 else 230 for x in range(160))
                rows[top + 400 + y][left:left + 480] = bytes(level for level in words for _ in range(3))
        with work.measured() as took:
            done = run([self.sampler, "--all", "--json"], pgm(rows))
        told = [json.loads(line) for line in done.stdout.splitlines()]
        self.row("what is said", ([each["message"] for each in told], {each["complete"] for each in told},
                                  done.returncode, done.stderr), (messages, {True}, 0, b""))
        self.row("the work", took.pieces < 20 or str(took), True)

    def test_turned_sheets(self):
        """A sheet that lies turned is read in the order that it has when it is turned back."""
        messages, grids = labels(56, random.Random(22))
        for gap, angle in ((1, 0.12), (2, -0.3), (4, 0.7)):
            got, ended = told(self.sampler, tilted(sheet_of(grids, 8, gap, 4), angle))
            self.row(f"{gap} modules apart, turned by {angle}", (got, ended), (messages, (0, b"")))

    def test_trays(self):
        """Symbols of a tray, each turned by itself, are read row by row."""
        chance = random.Random(23)
        messages, grids = labels(30, chance)
        pictures = [tilted(pixels_of(grid, 4, 1), chance.uniform(0, 2 * math.pi)) for grid in grids]
        side = max(len(picture) for picture in pictures)
        padded = [[row + [230] * (side - len(row)) for row in picture] + [[230] * side] * (side - len(picture))
                  for picture in pictures]
        rows = [[level for picture in padded[first:first + 6] for level in picture[line]]
                for first in range(0, 30, 6) for line in range(side)]
        got, ended = told(self.sampler, rows)
        self.row("a tray", (got, ended), (messages, (0, b"")))

    def test_noisy_sheets(self):
        """Symbols that nearly touch, in noise that hides borders from who doesn't know where the neighbours are."""
        chance = random.Random(32)
        for angle, noise in ((3.03, 22), (2.32, 16), (4.21, 10), (4.04, 16)):
            messages, grids = labels(64, chance)
            rows = noisy(tilted(sheet_of(grids, 8, 1, 4), angle), noise, chance)
            got, ended = told(self.sampler, rows)
            self.row(f"noise of {noise}, turned by {angle}", (sorted(got), ended), (sorted(messages), (0, b"")))

    def test_our_own_sheets(self):
        """Sheets that the command draws, perhaps with captions, are read whole, in order, and no word is said."""
        env = {**os.environ, "PYTHONPATH": places.PACKAGE, "ECC200_LIBRARY": places.SHARED}
        for count, words in ((10, []), (57, []), (400, []), (40, ["--caption"]), (60, ["--caption"]),
                             (200, ["--caption"])):
            path, messages = os.path.join(self.room, f"sheet-{count}.png"), [f"MESSAGE{k}" for k in range(count)]
            done = run([sys.executable, "-m", "ecc200", "write", "--sheet", *words, "-o", path],
                       "".join(message + "\n" for message in messages).encode(), env=env)
            self.row(f"a sheet of {count} is drawn", (done.returncode, done.stderr), (0, b""))
            with work.measured() as took:
                got, ended = told(self.sampler, None, path)
            self.row(f"a sheet of {count}", (got, ended), (messages, (0, b"")))
            self.row(f"a sheet of {count}: the work", took.pieces < 10 + MOST_WORK * count or str(took), True)

    def test_more_than_are_looked_for(self):
        """More symbols than are looked for: those that are found are read, and it is said that there may be more."""
        _, grids = labels(25, random.Random(24))
        rows = sheet_of([grids[k % 25] for k in range(1050)], 35, 2, 3)
        got, (status, said) = told(self.sampler, rows, "--time=100000")
        self.row("more than are looked for", (len(got), status, said),
                 (1024, 4, b"dm_sample: -: the search ended early, with 1024 symbols: there may be more\n"))

    def test_uneven_trays(self):
        """Symbols in rows, each tilted by up to 15 degrees, to one side, are read row by row, also on their sides."""
        chance = random.Random(41)
        for across, down, quarter in ((3, 2, 0), (3, 2, 1), (6, 4, 0), (6, 4, 1), (6, 4, 3)):
            messages, grids = labels(across * down, chance)
            pictures = [tilted(pixels_of(grid, 4), chance.uniform(0, math.pi / 12) + quarter * math.pi / 2)
                        for grid in grids]
            rows = [[level for picture in pictures[first:first + across] for level in picture[line]]
                    for first in range(0, across * down, across) for line in range(len(pictures[0]))]
            got, ended = told(self.sampler, rows)
            self.row(f"{across} by {down}, turned by {90 * quarter} degrees or so", (got, ended), (messages, (0, b"")))
