"""How good the print of a symbol is: drawn contrast, blur, growth, form and damage, with errors and directions."""
import functools
import json
import math
import operator
import os

from tests.sampler.pictures import PYTHON, pgm, run, turned
from tests.support import package

SCALE, QUIET = 10, 3  # pixels, and modules
LOT = "LOT 4711 SERIAL 0815"
GRADES = ("contrast", "modulation", "unused", "axial", "grid")


def rows_of(text, **more):
    """The grid of the smallest symbol of a text, or of one that is chosen."""
    return [list(row) for row in package.imported().encode(text, **more).rows]


def drawn(grid, dark=30, light=230, growth=(0, 0), place=None, scale=SCALE, fine=1, spots=()):
    """The picture of a grid whose dark modules grow; `place` gives what a height shows: by how much to the right of
    where it lies, and from which height; `spots` of the quiet zone are dark."""
    inked = {(x, y) for y, row in enumerate(grid) for x, module in enumerate(row) if module} | set(spots)
    joined, (across, down) = all if min(growth) < 0 else any, [{-each / 2, each / 2} for each in growth]
    levels = [light + (dark - light) * count / fine ** 2 for count in range(fine ** 2 + 1)]
    xs, ys = ([(at + (part + 0.5) / fine) / scale - QUIET for at in range((modules + 2 * QUIET) * scale)
               for part in range(fine)] for modules in (len(grid[0]), len(grid)))

    @functools.cache
    def line(right, heights):
        """How much of each pixel is dark in a line that shows modules at these heights."""
        columns = {x for x, _ in inked if joined((x, y) in inked for y in heights)}
        beside = [[math.floor(x + right + more) in columns for x in xs] for more in across]
        marks = list(map(joined, zip(*beside)))
        return [sum(marks[at:at + fine]) for at in range(0, len(marks), fine)]

    placed = map(place, ys) if place else ((0, y) for y in ys)
    lines = [line(right, frozenset(math.floor(y + more) for more in down)) for right, y in placed]
    return [[levels[sum(counts)] for counts in zip(*lines[at:at + fine])] for at in range(0, len(lines), fine)]


def blurred(rows, modules):
    """A picture out of focus: each pixel a mean by a bell curve whose deviation is so many modules."""
    reach = int(3 * modules * SCALE) + 1
    weights = [math.exp(-(k / modules / SCALE) ** 2 / 2) for k in range(-reach, reach + 1)]
    whole = sum(weights)

    @functools.cache
    def along(line):
        padded = line[:1] * reach + line + line[-1:] * reach
        return [sum(map(operator.mul, weights, padded[k:k + len(weights)])) / whole for k in range(len(line))]

    return list(zip(*map(along, zip(*map(along, map(tuple, rows))))))


def whole(rows):
    return [list(map(round, row)) for row in rows]


def by_pixels(rows, grid):
    """Of each codeword the modulation, by the pixels of its modules within a round aperture of 0.8 modules."""
    ecc200 = package.imported()
    places, middle = ecc200.places(len(grid), len(grid[0])), (SCALE - 1) / 2
    aperture = [(x, y) for x in range(SCALE) for y in range(SCALE) if math.hypot(x - middle, y - middle) <= 0.4 * SCALE]

    def level(column, row):
        left, top = (column + QUIET) * SCALE, (row + QUIET) * SCALE
        return sum(rows[top + y][left + x] for x, y in aperture) / len(aperture)

    around = range(-1, len(grid) + 1)
    levels = {(x, y): level(x, y) for x in around for y in around}
    least, most = min(levels.values()), max(levels.values())
    least_of = {}
    for y, row in enumerate(places):
        for x, here in enumerate(row):
            if here.kind == ecc200.Kind.BIT:
                modulation = 2 * abs(levels[x, y] - (least + most) / 2) / (most - least)
                least_of[here.codeword] = min(modulation, least_of.get(here.codeword, 1))
    return [least_of[word] for word in sorted(least_of)]


class Quality:
    def measured(self, rows):
        """What the sampler says of the print of the first symbol of a picture."""
        return next(iter(self.told(whole(rows), "--quality")), {}).get("quality", {})

    def near(self, name, got, wanted, error):
        self.row(f"{name}: {got} is {wanted} by {error}", abs(got - wanted) <= error, True)

    def rises(self, name, numbers, sign=1):
        steps = [sign * (after - before) for before, after in zip(numbers, numbers[1:])]
        self.row(f"{name} goes one way: {numbers}", min(steps) > 0, True)

    def test_quality_contrast(self):
        grid, came = rows_of(LOT), []
        for dark, light, grade in ((0, 255, "A"), (30, 230, "A"), (40, 200, "B"), (60, 190, "C"), (90, 150, "D"),
                                   (100, 140, "F")):
            quality = self.measured(drawn(grid, dark, light))
            self.near(f"contrast {dark} to {light}", quality["contrast"], (light - dark) / 255, 0.005)
            self.row(f"its grades, {dark} to {light}", [quality["grades"][name] for name in GRADES], [grade, *"AAAA"])
            self.near(f"modulation, {dark} to {light}", quality["modulation"], 1, 0.01)
            came.append(quality["contrast"])
        self.rises("contrast", came, -1)
        inverted = self.measured(drawn(grid, 230, 30))
        self.near("contrast of light on dark", inverted["contrast"], 200 / 255, 0.005)
        self.near("modulation of light on dark", inverted["modulation"], 1, 0.01)

    def test_quality_modulation(self):
        grid, came = rows_of(LOT), []
        for blur in (0.1, 0.2, 0.25, 0.3, 0.35):
            rows = blurred(drawn(grid), blur)
            quality, wanted = self.measured(rows), by_pixels(rows, grid)
            worst = max(abs(one - other) for one, other in zip(quality["modulations"], wanted, strict=True))
            self.near(f"modulations, blur {blur}", worst, 0, 0.05)
            self.near(f"the least, blur {blur}", quality["modulation"], min(wanted), 0.05)
            self.row(f"what is weak, blur {blur}", quality["weakest"].split(" ")[0],
                     "nothing" if min(quality["modulations"]) >= 0.5 else "codeword")
            self.row(f"how many are readable, blur {blur}", quality["readable"],
                     [sum(value >= level for value in quality["modulations"]) for level in (0.5, 0.4, 0.3, 0.2)])
            self.near(f"growth, blur {blur}", max(map(abs, quality["growth"])), 0, 0.03)
            self.near(f"grid, blur {blur}", quality["grid"], 0, 0.1)
            came.append(quality["modulation"])
        self.rises("modulation", came, -1)

    def test_quality_growth(self):
        grid, came = rows_of(LOT), []
        for across in (-0.4, -0.2, 0, 0.2, 0.4):
            for down in (across, across / 2) if across > -0.4 else (across,):
                quality = self.measured(drawn(grid, growth=(across, down), fine=2))
                self.near(f"growth of {across} across, {down} down", quality["growth"][0], across, 0.03)
                self.near(f"growth of {down} down, {across} across", quality["growth"][1], down, 0.03)
            self.near(f"axial nonuniformity, growth {across}", quality["axial"], 0, 0.01)
            self.near(f"grid nonuniformity, growth {across}", quality["grid"], 0, 0.05)
            came.append(quality["growth"][0])
        self.rises("growth", came)
        for across, blur, error in ((0.2, 0.2, 0.03), (-0.2, 0.2, 0.03), (0.2, 0.3, 0.06), (-0.2, 0.3, 0.06)):
            quality = self.measured(blurred(drawn(grid, growth=(across, across)), blur))
            self.near(f"growth {across}, blur {blur}", quality["growth"][0], across, error)
        for name, axis, rows in (("across, turned", 0, turned(drawn(grid, growth=(0.4, 0.2)))),
                                 ("of light modules down", 1, drawn(grid, 230, 30, growth=(0.2, 0.4)))):
            self.near(f"growth {name}", self.measured(rows)["growth"][axis], 0.4, 0.03)

    def test_quality_form(self):
        grid, came = rows_of(LOT), []
        side = len(grid)
        for wider, grade in ((1, "A"), (1.04, "A"), (1.07, "B"), (1.09, "C"), (1.11, "D"), (1.15, "F")):
            quality = self.measured(drawn(grid, place=lambda y: (0, y * wider), fine=2))
            self.near(f"axial nonuniformity {wider}", quality["axial"], 2 * (wider - 1) / (wider + 1), 0.01)
            self.row(f"its grade, {wider}", quality["grades"]["axial"], grade)
            came.append(quality["axial"])
        self.rises("axial nonuniformity", came)
        for slant in (0.05, 0.1, 0.2):
            quality = self.measured(drawn(grid, place=lambda y: (slant * (y - side / 2), y), fine=2))
            longer = math.hypot(1, slant)
            self.near(f"axial, skew {slant}", quality["axial"], 2 * (longer - 1) / (longer + 1), 0.01)
            self.near(f"grid, skew {slant}", quality["grid"], 0, 0.05)
            self.near(f"growth, skew {slant}", max(map(abs, quality["growth"])), 0, 0.03)
        came = []
        for most in (0, 0.1, 0.2, 0.3, 0.4):
            bent = lambda y: (-most * math.sin(math.pi * min(max(y / side, 0), 1)) ** 2, y)
            quality = self.measured(drawn(grid, place=bent, fine=2))
            self.near(f"grid nonuniformity {most}", quality["grid"], most, 0.03 + most / 8)
            came.append(quality["grid"])
        self.rises("grid nonuniformity", came)
        for most in (0.2, 0.4):
            wound = lambda y: (-most * math.sin(2 * math.pi * min(max(y / side, 0), 1)), y)
            quality = self.measured(drawn(grid, place=wound, fine=2))
            self.near(f"grid nonuniformity {most}, wound", quality["grid"], most, 0.03 + most / 8)

    def test_quality_damage(self):
        grid = rows_of(LOT)
        side, border, quiet = len(grid), [], []
        for count in range(4):
            torn = [[0 if x == 0 and 2 <= y < 2 + count else module for x, module in enumerate(row)]
                    for y, row in enumerate(grid)]
            quality = self.measured(drawn(torn, scale=6))
            self.row(f"the left border, {count}", quality["border"], [0, 0, 0, round(count / side, 4)])
            self.row(f"{count}", quality["weakest"].split(",")[0], "the left border" if count else "nothing is weak")
            border.append(quality["border"][3])
            quality = self.measured(drawn(grid, scale=6, spots=[(x, -1) for x in range(4, 4 + count)]))
            self.row(f"the quiet zone above, {count}", quality["quiet"], [round(count / side, 4), 0, 0, 0])
            quiet.append(quality["quiet"][0])
        self.rises("damage of the border", border)
        self.rises("damage of the quiet zone", quiet)
        self.row("the quiet zone in words", quality["weakest"], "the quiet zone above, columns 5 to 7")
        wrong = [row[:] for row in grid]
        wrong[0][4:7] = [1 - module for module in grid[0][4:7]]
        quality = self.measured(drawn(wrong, scale=6))
        self.row("the top border", (quality["border"], quality["weakest"]),
                 ([round(3 / side, 4), 0, 0, 0], "the top border, columns 5 to 7"))
        wrong = [row[:] for row in grid]
        wrong[9][side - 1], wrong[side - 1][3] = 1 - grid[9][side - 1], 0
        quality = self.measured(drawn(wrong, scale=6))
        self.row("two sides", (quality["border"], quality["weakest"]),
                 ([0, round(1 / side, 4), round(1 / side, 4), 0], "the right border, row 10"))
        cut = [row[QUIET * 6:] for row in drawn(grid, scale=6)]
        self.row("a quiet zone that isn't in the picture", self.measured(cut)["quiet"], [0, 0, 0, 1])

    def test_quality_unused(self):
        ecc200 = package.imported()
        for grid, blocks in ((rows_of(LOT), 1), (rows_of(LOT, size=(52, 52)), 2)):
            size = next(it for it in ecc200.sizes() if (it.rows, it.columns) == (len(grid), len(grid[0])))
            places, checks, came = ecc200.places(size.rows, size.columns), size.check_codewords // blocks, []
            for count in range(0, size.limit + 1, max(1, size.limit // 4)):
                words = {blocks * k for k in range(count)}  # of the first block
                damaged = [[module ^ (here.kind == ecc200.Kind.BIT and here.codeword in words and here.bit == 1)
                            for module, here in zip(row, line)] for row, line in zip(grid, places)]
                quality = self.measured(drawn(damaged, scale=5))
                wanted = [round(1 - 2 * count / checks, 4), *[1] * (blocks - 1)]
                self.row(f"unused with {count} errors in {len(grid)} rows", quality["unused"], wanted)
                grade = next(letter for letter, begin in zip("ABCDF", (0.62, 0.5, 0.37, 0.25, 0)) if wanted[0] >= begin)
                self.row(f"its grade, {count} in {len(grid)} rows", quality["grades"]["unused"], grade)
                self.row(f"what is weak, {count} in {len(grid)} rows", quality["weakest"].split(" ")[0],
                         "codeword" if count else "nothing")
                came.append(quality["unused"][0])
            self.rises(f"unused error correction of {len(grid)} rows", came, -1)

    def test_quality_graded(self):
        self.part("graded")

    def test_quality_in_python(self):
        """What the module for Python and the command say is what dm_sample does."""
        rows = whole(blurred(drawn(rows_of(LOT), growth=(0.2, 0)), 0.2))
        wanted = self.measured(rows)
        ecc200 = package.imported()
        script = ("import json, sys, ecc200; from ecc200.quality import rounded; picture = memoryview(bytes(json.loads("
                  "sys.stdin.read())))\n"
                  f"found = ecc200.find(picture.cast('B', [{len(rows)}, {len(rows[0])}]), quality=True)\n"
                  "print(json.dumps(rounded(found[0].quality)))")
        env = {**os.environ, **package.settings(), "ECC200_SAMPLE_LIBRARY": f"{self.plain}/libecc200_sample.so"}
        done = run([PYTHON, "-c", script], json.dumps([value for row in rows for value in row]).encode(), env=env)
        self.row("by Python", json.loads(done.stdout or b"{}") or done.stderr[-300:], wanted)
        self.row("what has numbers", sorted(wanted), sorted(ecc200.Quality._fields))

    def test_quality_is_careful(self):
        """With the sanitisers: tiny and large symbols, a rectangle, cut ones, and what isn't read."""
        for name, grid in (("10", rows_of("1")), ("8 by 144", rows_of("A", size=(8, 144))), ("72", rows_of("B" * 400))):
            rows = drawn(grid, scale=3)
            for what, picture in ((name, rows), (f"{name} cut", [row[9:] for row in rows[9:]])):
                done = run([self.careful, "--json", "--quality", "--unread"], pgm(whole(picture)))
                self.row(what, (done.stderr, b'"quality"' in done.stdout), (b"", True))
        done = run([self.careful, "--quality"], b"")
        self.row("without --json", (done.returncode, done.stderr[:17]), (2, b"dm_sample: usage:"))
