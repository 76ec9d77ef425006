"""Pictures of every size and format, turned, mirrored and inverted, and photographs of which some must be read."""
import functools
import importlib.util
import json
import math
import os
import tempfile

from tests.sampler import pngs
from tests.sampler.pictures import (CAREFUL, PYTHON, grid_of, message_of, pgm, pixels_of, record, run, sizes, turned)
from tests.support import places
from tests.support.places import PROGRAM

LEAST_SHARE = 0.93           # of the symbols of fifty pictures


def corners_near(said, wanted, apart):
    """Whether the corners that --corners says are no farther from those wanted."""
    got = [tuple(map(float, corner.split(","))) for corner in said.split()[1:]]
    return len(got) == 4 and all(abs(one - other) <= apart for here, there in zip(got, wanted)
                                 for one, other in zip(here, there))


@functools.cache
def photographs():
    """Makes fifty pictures and two with several symbols, once for all samplers: their folder, and how that ended."""
    room = tempfile.TemporaryDirectory(prefix="photographs-")
    words = [PYTHON, places.path("bench", "photographs"), "--program", PROGRAM, "--share", "13"]
    return room, run([*words, os.path.join(room.name, "set")]).returncode


def the_set(case, words):
    """Of these pictures none is read wrong, and LEAST_SHARE of their symbols are read. `words` call the sampler."""
    if not os.path.isfile(PROGRAM):
        case.leave_out("fifty photographs (the program that makes their symbols isn't built)")
        return
    room, status = photographs()
    if status:
        case.leave_out("fifty photographs (python3-opencv and python3-numpy aren't installed)")
        return
    made = os.path.join(room.name, "set")
    index = json.loads(places.text_of(made, "index.json"))
    symbols = right = 0
    for picture in index:
        more = ["--all"] if len(picture["messages"]) > 1 else []
        said = run([*words, "--json", "--time=30000", *more, os.path.join(made, picture["file"])]).stdout.decode()
        messages = {json.loads(line)["message"] for line in said.splitlines()}
        case.row(f"{picture['file']}: wrong messages", messages - set(picture["messages"]), set())
        symbols, right = symbols + len(picture["messages"]), right + len(messages)
    print(f"of {symbols} symbols in {len(index)} photographs {right} were read")
    case.row("the symbols that are read", right >= LEAST_SHARE * symbols and len(index) >= 50, True)
    through = run(["sh", "-c", f'"$@" | "{PROGRAM}" read', "sh", *words, f'{made}/{index[0]["file"]}']).stdout.decode()
    case.row("dm_sample | dm_tool read", through.rstrip("\n"), index[0]["messages"][0])


class Reading:
    def test_every_size(self):
        """Each size, upright and turned, mirrored, inverted: the grid comes out as it was written."""
        for at, (side, count, _) in enumerate(sizes()):
            grid = grid_of(message_of(count))
            rows = pixels_of(grid, 3 + at % 4)
            ways = {"upright": rows, "mirrored": [row[::-1] for row in rows],
                    "inverted": [[255 - level for level in row] for row in rows]}
            for times in range(at % 3 + 1):
                ways[f"turned {times + 1}"] = turned(list(ways.values())[-1])
            for way, picture in ways.items():
                self.reads(f"side {side}, {way}", picture, grid, "--time=30000", "-")

    def test_without_quiet_zone(self):
        """A symbol that fills its picture, on some sides, is found where it stands: each size, some at each scale."""
        for at, (side, count, _) in enumerate(sizes()):
            grid = grid_of(message_of(count))
            for scale in range(2, 10) if side < 20 else (3 + at % 4,):
                rows = pixels_of(grid, scale, 0)
                ways = {"as it is": rows, "turned": turned(rows), "mirrored": [row[::-1] for row in rows],
                        "light on dark": [[255 - level for level in row] for row in rows],
                        "on the left": [row + [230] * 20 for row in rows] + [[230] * (len(rows) + 20)] * 20}
                for way, picture in ways.items():
                    done = run([self.careful if at == scale else self.sampler, "--corners", "--time=30000"],
                               pgm(picture))
                    self.row(f"side {side} at {scale} without a quiet zone, {way}",
                             (done.returncode, done.stdout.decode()), (0, record(grid)))
                    if way in ("as it is", "on the left"):
                        near = corners_near(done.stderr.decode(),
                                            [(0, 0), (len(rows), 0), (len(rows), len(rows)), (0, len(rows))],
                                            0.15 * scale)
                        self.row(f"side {side} at {scale} without a quiet zone, {way}: corners", near, True)

    def test_hard_shadow(self):
        """A symbol across which a hard shadow falls, with two fifths of the light or somewhat less left."""
        for count, left, slope in ((8, 0.4, 0.15), (8, 0.4, 0.6), (8, 0.35, 1.5), (18, 0.4, 3), (18, 0.35, 0.15),
                                   (18, 0.35, 1.5)):
            grid = grid_of(message_of(count))
            rows = pixels_of(grid, 5, 4, 30, 210)
            middle = len(rows) * (slope + 1) / 2
            rows = [[int(level * left) if slope * x + y < middle else level for x, level in enumerate(row)]
                    for y, row in enumerate(rows)]
            self.reads(f"{count} codewords in a shadow of {left}, slope {slope}", rows, grid, "--time=30000")

    def test_glare(self):
        """A symbol on a dim ground with a bright spot, in which dark modules are lighter than light ones elsewhere."""
        for count in (18, 44):
            grid = grid_of(message_of(count))
            rows = pixels_of(grid, 5, 4, 30, 130)
            reach = 2 * (0.15 * len(rows)) ** 2
            for across, down in ((0.5, 0.5), (0.35, 0.6)):
                away = lambda x, y: (x - across * len(rows)) ** 2 + (y - down * len(rows)) ** 2
                lit = [[min(255, int(level + 140 * math.exp(-away(x, y) / reach))) for x, level in enumerate(row)]
                       for y, row in enumerate(rows)]
                self.reads(f"{count} codewords with glare at {across}, {down}", lit, grid, "--time=30000")

    def test_formats(self):
        grid = grid_of("FORMATS")
        rows = pixels_of(grid)
        wide, high = len(rows[0]), len(rows)
        flat = [level for row in rows for level in row]
        bits = [[level < 128 for level in row] for row in rows]
        line = (wide + 7) // 8
        made = {"P1": f"P1 {wide} {high}\n".encode()
                + b"".join(b"".join(b"01"[bit:bit + 1] for bit in row) + b"\n" for row in bits),
                "P2": f"P2 {wide} {high} 255\n".encode() + b" ".join(b"%d" % level for level in flat),
                "P3": f"P3 {wide} {high} 255\n".encode() + b"\n".join(b"%d %d %d" % (it, it, it) for it in flat),
                "P4": f"P4 {wide} {high}\n".encode()
                + b"".join(int("".join("01"[bit] for bit in row).ljust(8 * line, "0"), 2).to_bytes(line, "big")
                           for row in bits), "P5": pgm(rows), "P5 of two bytes": f"P5 {wide} {high} 1000\n".encode()
                + b"".join((level * 1000 // 255).to_bytes(2, "big") for level in flat),
                "P6": f"P6 {wide} {high} 255\n".encode() + b"".join(bytes([level, level, level]) for level in flat)}
        for name, text in made.items():
            self.reads(name, text, grid)
        places.wrote(pgm(rows), self.room, "formats.pgm")
        if self.has_pillow("PNG and JPEG in all their forms"):
            for file in self.coloured_formats():
                self.reads(file, b"", grid, os.path.join(self.room, file))

    def has_pillow(self, what):
        return importlib.util.find_spec("PIL") is not None or self.leave_out(f"{what} (python3-pil isn't installed)")

    def coloured_formats(self):
        from PIL import Image
        grey = Image.open(os.path.join(self.room, "formats.pgm")).convert("L")
        colour, clear = grey.convert("RGB"), grey.convert("RGBA")
        clear.putalpha(grey.point(lambda level: 255 if level < 128 else 0))
        for name, image, more in (
                ("grey.png", grey, {}), ("colour.png", colour, {}), ("palette.png", colour.quantize(7), {}),
                ("clear.png", clear, {}), ("bits.png", grey.convert("1"), {}),
                ("deep.png", grey.convert("I").point(lambda level: level * 257).convert("I;16"), {}),
                ("grey.jpg", grey, {}), ("colour.jpg", colour, {"quality": 90}),
                ("progressive.jpg", colour, {"progressive": True}), ("inks.jpg", colour.convert("CMYK"), {})):
            image.save(os.path.join(self.room, name), **more)
            yield name

    def test_every_png(self):
        """PNG of every colour type, depth and gamma: the luminance is what was put in, and what others see."""
        made = os.path.join(self.room, "luminance.out")
        sources = [places.path("sampler", "program", f"{name}.c") for name in ("picture", "png", "jpeg", "pnm")]
        self.compiles("luminance.c", made, *sources, "-lpng", "-ljpeg", compiler=("cc", "-std=c17", *CAREFUL))
        if not self.has_pillow("PNG of every form"):
            return
        for path, luminances in pngs.luminances(self.room):
            done = run([made, path])
            for by, wanted in luminances.items():
                if wanted is None:
                    continue
                got = done.stdout[-len(wanted):]
                most = 2.5 if by == "Pillow" else 1.5  # Pillow drops the lower eight of sixteen bits
                is_near = len(got) == len(wanted) and all(abs(one - other) <= most for one, other in zip(got, wanted))
                self.row(f"{os.path.basename(path)}: {by}", (done.returncode, is_near, done.stderr[:600]),
                         (0, True, b""))

    def test_the_set(self):
        the_set(self, [self.sampler])
