"""Symbols of the sizes that dm_tool's records don't have: rectangles, and squares of sides 120, 132 and 144."""
import functools
import json
import math
import os

from tests.sampler.pictures import grid_of, message_of, pgm, pixels_of, record, run, turned
from tests.support import package


def seen(said):
    """What is told that a symbol of any size decides."""
    return [said.get(name) for name in ("rows", "columns", "message", "grid")]


def wanted(rows, columns, message, grid):
    return [rows, columns, message, ["".join(map(str, row)) for row in grid]]


def tilted(rows, angle):
    """A picture turned by any angle, on ground as light as its first pixel, each pixel a mean of those around."""
    high, wide, light = len(rows), len(rows[0]), rows[0][0]
    reach, cosine, sine = int(math.hypot(high, wide)) + 4, math.cos(angle), math.sin(angle)
    steps = [at + 0.5 - reach / 2 for at in range(reach)]
    places = [(at, cosine * right, sine * right) for at, right in enumerate(steps)]
    out = [[light] * reach for _ in steps]
    for line, down in zip(out, steps):
        south, fall = sine * down, cosine * down
        for at, east, rise in places:
            across, along = east + south + wide / 2 - 0.5, fall - rise + high / 2 - 0.5
            if 0 <= across < wide - 1 and 0 <= along < high - 1:
                column, row = int(across), int(along)
                (one, two), (three, four) = rows[row][column:column + 2], rows[row + 1][column:column + 2]
                if one == two == three == four:
                    line[at] = one
                else:
                    upper, lower = one + (across - column) * (two - one), three + (across - column) * (four - three)
                    line[at] = round(upper + (along - row) * (lower - upper))
    return out


@functools.cache
def symbols():
    """Of each of these sizes: its rows, its columns, a message that fills it, and its grid."""
    ecc200, made = package.imported(), []
    for size in ecc200.sizes():
        named, message = (size.rows, size.columns), message_of(size.data_codewords)
        if size.rows != size.columns or size.rows > 104:
            made.append((*named, message, [list(row) for row in ecc200.write(message.encode(), size=named)]))
    return made


class Sizes:
    def test_every_other_size(self):
        """Each size upright, by quarters, mirrored, inverted, at three pixels a module or more, without quiet zone."""
        for at, (rows, columns, message, grid) in enumerate(symbols()):
            scale = 3 + at % 4
            plain = pixels_of(grid, scale)
            ways = {"at 3 pixels a module": pixels_of(grid, 3), "without a quiet zone": pixels_of(grid, scale, 0),
                    "mirrored": [row[::-1] for row in plain], "turned": turned(plain),
                    "on its head": turned(turned(plain)), "turned back": turned(turned(turned(plain))),
                    "light on dark": [[255 - level for level in row] for row in plain],
                    "turned in a mirror, light on dark": turned([[255 - level for level in row[::-1]]
                                                                 for row in plain])}
            for way, picture in ways.items():
                said = self.first(picture)
                self.row(f"{rows} by {columns} at {scale}, {way}", seen(said), wanted(rows, columns, message, grid))
                self.row(f"{rows} by {columns}, {way}: mirrored, inverted",
                         (said.get("mirrored"), said.get("inverted")), ("mirror" in way, "light" in way))

    def test_every_angle(self):
        for at, (rows, columns, message, grid) in enumerate(symbols()):
            angle = 0.23 + 0.61 * at
            said = self.first(tilted(pixels_of(grid, 3 if rows > 100 else 4 + at % 3), angle))
            self.row(f"{rows} by {columns} turned by {angle:.2f}",
                     [said.get(name) for name in ("rows", "columns", "message")], [rows, columns, message])

    def test_corners(self):
        """The corners of a rectangle, as it stands and as a mirror shows it, are those of the upright symbol."""
        rows, columns, _, grid = symbols()[2]
        plain, wide, high = pixels_of(grid), 4 * columns + 24, 4 * rows + 24
        left, right, top, below = 12, wide - 12, 12, high - 12
        for way, picture, places_of in (
                ("as it is", plain, [(left, top), (right, top), (right, below), (left, below)]),
                ("mirrored", [row[::-1] for row in plain], [(right, top), (left, top), (left, below), (right, below)])):
            got = [tuple(round(place) for place in corner) for corner in self.first(picture).get("corners", [])]
            self.row(f"corners of {rows} by {columns}, {way}", got, places_of)

    def test_zint(self):
        if not self.has("zint", "zint's own pictures"):
            return
        path = os.path.join(self.room, "zint.png")
        for version in range(22, 49):
            message = message_of(4)
            run(["zint", "-b", "71", f"--vers={version}", "--dmre", "-d", message, "--scale=2", "-o", path])
            said = json.loads(run([self.sampler, "--json", "--time=30000", path]).stdout or b"{}")
            self.row(f"zint --vers={version}", said.get("message"), message)

    def test_no_records(self):
        """What can't be handed on to dm_tool is named, and what can is."""
        for rows, columns, _, grid in (symbols()[1], symbols()[-1]):
            done = run([self.sampler, "--time=30000"], pgm(pixels_of(grid)))
            why = "is no square" if rows != columns else "is larger than those of dm_tool"
            said = f"dm_sample: -: the symbol of {rows} by {columns} modules at 12.0,12.0 {why}: --json has it\n"
            self.row(f"{rows} by {columns}", (done.returncode, done.stdout, done.stderr.decode()), (1, b"", said))
        rows, columns, _, grid = symbols()[0]
        square = grid_of("SQUARE")
        beside, other = pixels_of(grid), pixels_of(square)
        wide = max(len(beside[0]), len(other[0]))
        both = [row + [230] * (wide - len(row)) for row in beside + other]
        done = run([self.sampler, "--all", "--corners", "--time=30000"], pgm(both))
        said = done.stderr.decode().splitlines()
        self.row("square below rectangle", (done.returncode, done.stdout.decode(), len(said)), (1, record(square), 2))
        self.row("the rectangle is named", any(f"{rows} by {columns} modules" in line for line in said), True)
