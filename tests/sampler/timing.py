"""What the time of a picture is enough for, counted by the processor, and not by the clock."""
import json
import os
import random

from tests.sampler.common import Searches
from tests.sampler.pictures import grid_of, pgm, pixels_of, record, run
from tests.support import places, work


def lettering(chance, columns, rows=6, pixels=2):
    """What looks like small text."""
    glyphs = [[chance.choice((20, 230)) if column % 4 else 230 for column in range(columns)] for _ in range(rows)]
    return [[level for level in row for _ in range(pixels)] for row in glyphs for _ in range(pixels)]


def draw(rows, part, down, right):
    for y, row in enumerate(part):
        rows[down + y][right:right + len(row)] = row


def label_of(grids, chance):
    """A label of four symbols across, each with five lines of what looks like small text in a frame."""
    wide, high = 250, 180
    rows = [[230] * (4 * wide) for _ in range(high * ((len(grids) + 3) // 4))]
    for k, grid in enumerate(grids):
        right, down = k % 4 * wide, k // 4 * high
        draw(rows, [[20] * (wide - 6)] * (high - 6), down + 3, right + 3)
        draw(rows, [[230] * (wide - 12)] * (high - 12), down + 6, right + 6)
        draw(rows, pixels_of(grid, 6, 0), down + 30, right + 30)
        for line in range(5):
            draw(rows, lettering(chance, 32, 4, 3), down + 30 + 20 * line, right + 145)
    return rows


def cluttered(wide, high, chance, count):
    """Rows of pixels with rectangles of all shades, so many on each million."""
    rows = [bytearray(b"\xd0" * wide) for _ in range(high)]
    for _ in range(count * wide * high // 10 ** 6):
        x, y, across, down = (chance.randrange(most) for most in (wide - 60, high - 60, 60, 60))
        level = bytes([chance.randrange(20, 240)]) * across
        for row in rows[y:y + down]:
            row[x:x + across] = level
    return rows


class Timing:
    def by_clock(self, folder, name):
        """The environment in which the clock is one of these: "clock" gives the processor's time."""
        made = os.path.join(folder, f"{name}.so")
        if not os.path.exists(made):
            self.compiles(f"{name}.c", made, compiler=("cc", "-shared", "-fPIC"))
        return {**os.environ, "LD_PRELOAD": made}

    def test_a_label(self):
        """Twelve symbols beside frames and text are read within half of the usual second, dark on light or not."""
        chance = random.Random(7)
        grids = [grid_of("".join(chance.choice("ABCDEFGHIJ") for _ in range(10))) for _ in range(12)]
        label = label_of(grids, chance)
        wanted = sorted(record(grid)[:-2] for grid in grids)
        for name, rows in (("as it is", label), ("light on dark", [[255 - level for level in row] for row in label])):
            for more in ([], ["--time=500"]):
                done = run([self.sampler, "--all", *more], pgm(rows), env=self.by_clock(self.room, "clock"))
                self.row(f"a label of twelve, {name} {more}", sorted(done.stdout.decode().split("\n\n")[:-1]), wanted)

    def test_early_with_a_symbol(self):
        """What was found when the time was over is printed, and it is said that there may be more."""
        chance, wide = random.Random(4), 3000
        rows = [bytes(row) + b"\xe6" * (wide - len(row)) for row in pixels_of(grid_of("123456"), 12)]
        picture = f"P5 {wide} {wide} 255\n".encode() + b"".join(rows) + chance.randbytes(wide * (wide - len(rows)))
        done = run([self.sampler, "--all", "--json", "--time=900"], picture, env=self.by_clock(self.room, "clock"))
        told = [json.loads(line) for line in done.stdout.splitlines()]
        said = b"dm_sample: -: the search ended early, after 900 milliseconds: there may be more symbols\n"
        self.row("found before the time was over",
                 ([(one["message"], one["complete"]) for one in told], done.returncode, done.stderr),
                 ([("123456", False)], 4, said))

    def test_busy(self):
        """A busy machine says what an idle one does, unless a time is given."""
        found, none = pgm(pixels_of(grid_of("LATE"))), pgm([[k * j % 251 for k in range(300)] for j in range(300)])
        for name, picture in (("a symbol", found), ("none", none)):
            idle, busy = (run([self.sampler, "--all", "--json"], picture, env=env)
                          for env in (None, self.by_clock(self.room, "late")))
            self.row(f"{name} on a busy machine", (busy.returncode, busy.stdout, busy.stderr),
                     (idle.returncode, idle.stdout, idle.stderr))
        done = run([self.sampler, "--time=1000"], found, env=self.by_clock(self.room, "late"))
        self.row("a second that is over at once", (done.returncode, done.stdout), (4, b""))

    def test_work(self):
        """A picture of many megapixels with much in it and no symbol is given up, and it is said why."""
        wide, high = 3000, 2000
        picture = f"P5 {wide} {high} 255\n".encode() + b"".join(cluttered(wide, high, random.Random(8), 400))
        with work.measured() as took:
            done = run([self.sampler], picture)
        said = (b"dm_sample: -: the search ended early, after the usual work: there may be a symbol, --time searches "
                b"longer\n")
        self.row("given up", (done.returncode, done.stdout, done.stderr), (4, b"", said))
        self.row("six times what it takes alone", took.pieces < 20 or str(took), True)

    def test_large_photographs(self):
        """Twelve megapixels, with a small symbol or without, take about a second at most, thrice what they need."""
        wide, high = 4000, 3000
        for message in ("SMALL", None):
            rows = cluttered(wide, high, random.Random(9), 40)
            if message:
                draw(rows, pixels_of(grid_of(message), 7), 1900, 2300)
            with work.measured() as took:
                self.says(f"twelve megapixels: {message}", rows, message)
            self.row(f"twelve megapixels: the work, {message}", took.pieces < 10 or str(took), True)

    def test_shares(self):
        """The first ways to search leave enough of the usual work for those behind them, as for light on dark."""
        wide, high = 3000, 2000
        rows = cluttered(wide, high, random.Random(8), 525)
        draw(rows, pixels_of(grid_of("LIGHT"), 12, 2, 230, 20), 300, 500)
        self.says("light on dark among many rectangles", rows, "LIGHT")

    def test_text(self):
        """A page of text takes less than in other light; and symbols on it are found, dark on light or not."""
        chance, page, calls = random.Random(46), [bytearray([230]) * 1240 for _ in range(1754)], []
        for at in range(35 * 18):
            draw(page, lettering(chance, 12, 6, 4), 100 + at // 18 * 44, 100 + at % 18 * 58)
        for lit in (page, [bytes(it - it * y // 3000 for it in row) for y, row in enumerate(page)]):
            self.says("nothing but text", lit, None)
            calls.append(lambda picture=pgm(lit): run([self.sampler], picture))
        text, other = work.leasts(*calls)
        self.row("less work", text < 0.7 * other or (text, other), True)
        for ink, ground in ((20, 230), (230, 20)):
            draw(page, pixels_of(grid_of("ON A PAGE"), 3, 2, ink, ground), 1000, 600)
            self.row(f"{ink} on {ground}, with little work", Searches(self).of(page, 1, 30)[0], ["none;; ON A PAGE"])

    def test_deadline(self):
        """The time binds also what is computed before the search."""
        path = os.path.join(self.room, "fifty.pgm")
        places.wrote(b"P5 8192 6200 255\n" + random.Random(2).randbytes(8192 * 6200), path)
        for milliseconds in (0, 100):
            with work.measured() as took:
                done = run([self.sampler, f"--time={milliseconds}", path], env=self.by_clock(self.room, "clock"))
            self.row(f"{milliseconds} ms for 50 megapixels", (done.returncode, took.pieces < 6 or str(took)), (4, True))
        os.remove(path)
