"""What only a second look shows: faint symbols, dark labels, gleams, small dots, and a pixel or two a module."""
import json
import math
import random

from tests.sampler.hard import crowded
from tests.sampler.pictures import grid_of, pgm, pixels_of, run
from tests.sampler.timing import draw

DARK, LIGHT = 20, 230


def faint(message, pixels):
    """A symbol that is eight levels of 255 darker than its ground."""
    return pixels_of(grid_of(message), pixels, 3, LIGHT - 8, LIGHT)


def among_text(message, pixels, depth):
    """A symbol that touches others, so many levels darker than its ground, beside what looks like text and is clear."""
    chance = random.Random(pixels)
    part = pixels_of(crowded(grid_of(message), chance), pixels, 3, LIGHT - depth, LIGHT)
    text = [[line % 7 < 5 and column % 6 and chance.random() < 0.5 for column in range(220)] for line in range(166)]
    rows = [[LIGHT] * (len(part[0]) + 700) for _ in range(500)]
    draw(rows, part, 0, 0)
    draw(rows, pixels_of(text, 3, 0, DARK, LIGHT), 0, len(part[0]) + 20)
    return rows


def on_dark(message, pixels):
    """A symbol on a dark label that ends two modules beside it, on a light ground, in little light."""
    chance = random.Random(pixels)
    rows = pixels_of(grid_of(message), pixels, 2, 8, 32)
    beyond, wide = 10 * pixels, len(rows[0])
    edge = [[110] * (wide + 2 * beyond)] * beyond
    rows = edge + [[110] * beyond + list(row) + [110] * beyond for row in rows] + edge
    return [[min(255, max(0, round(chance.gauss(level, level ** 0.5)))) for level in row] for row in rows]


def gleaming(message, pixels, gleam):
    """A symbol that is brighter by a gleam at each place, told in modules."""
    return [[min(255, int(level + gleam(x / pixels, y / pixels))) for x, level in enumerate(row)]
            for y, row in enumerate(pixels_of(grid_of(message), pixels, 3, 110, 170))]


def bound(grid, module, across):
    """A symbol whose dark modules are drawn as `module`, between bars above and below, as zint binds it."""
    side, blank = len(module), [[LIGHT] * len(module)] * len(module)
    rows = [[level for dark in row for level in (module if dark else blank)[line]] + [LIGHT] * across
            for row in grid for line in range(side)]
    bar = [[DARK] * len(rows[0])] * (2 * side)
    return bar + rows + bar


class Again:
    def all_say(self, name, rows, messages, *words):
        """That the symbols in a picture have these messages, and that each is read."""
        done = run([self.sampler, "--json", *words], pgm(rows))
        self.row(name, ([json.loads(it)["message"] for it in done.stdout.splitlines()], done.returncode), (messages, 0))

    def test_shown_faintly(self):
        """Faint symbols are read, also beside one that is clear, which is told once."""
        for pixels, message in ((4, "FAINT"), (6, "FAINTER"), (9, "FAINTEST")):
            self.all_say(f"{message}, {pixels} pixels a module", faint(message, pixels), [message])
        clear, other = pixels_of(grid_of("CLEAR1"), 5), faint("FAINT2", 5)
        self.all_say("beside a clear one", [one + two for one, two in zip(clear, other)], ["CLEAR1", "FAINT2"], "--all")

    def test_faint_among_text(self):
        """Lattices are looked for once more only in what is faint, where the ground is even: clear text hides none."""
        for pixels, depth in ((3, 30), (4, 16), (4, 23)):
            self.all_say(f"{pixels} pixels a module, {depth} levels", among_text("FAINT AMONG TEXT", pixels, depth),
                         ["FAINT AMONG TEXT"])

    def test_on_dark(self):
        """What stands on a dark label is read though a lighter ground is near."""
        for pixels in (3, 4, 5):
            self.all_say(f"{pixels} pixels a module", on_dark("DARK LABEL", pixels), ["DARK LABEL"])

    def test_gleaming(self):
        """Thin gleams across modules leave these as they are."""
        for pixels, apart, thick in ((5, 5, 4), (5, 7, 5), (6, 5, 4), (6, 7, 5), (12, 7, 14), (12, 9, 12), (14, 7, 12)):
            rows = gleaming("GLEAMING", pixels, lambda x, y: 145 * ((2 * x + y) % apart < thick / pixels))
            self.all_say(f"{thick / 2} pixels, {apart} modules apart, of {pixels} pixels", rows, ["GLEAMING"])
        for count, pixels, wide, a, b, c in ((30, 4, 0.14, 3, 2.3, 5), (62, 4, 0.14, 3, 2.3, 5),
                                             (114, 8, 0.14, 3, 2.3, 5), (62, 6, 0.16, 2.4, 2, 3),
                                             (280, 5, 0.12, 2, 3, 5)):
            fold = lambda x, y: math.sin(x / a) + math.sin(y / b + math.sin(x / c))
            message = ("GLEAMS ALONG FOLDS " * 15)[:count]
            rows = gleaming(message, pixels, lambda x, y: 130 * math.exp(-(fold(x, y) / wide) ** 2))
            self.all_say(f"folds {wide} wide, {count} letters, {pixels} pixels a module", rows, [message])

    def test_bound_dots(self):
        """Dots as zint draws them at its smallest, with binding bars: of three pixels and of one."""
        cross = [[LIGHT, DARK, LIGHT], [DARK, DARK + 9, DARK], [LIGHT, DARK, LIGHT]]
        for name, module in (("three pixels", cross), ("a pixel", [[LIGHT, LIGHT], [LIGHT, DARK]])):
            for message in ("AB", "12345678", "Hello world 123"):
                self.all_say(f"dots of {name}: {message}", bound(grid_of(message), module, 1), [message])

    def test_one_pixel(self):
        """A pixel a module is enough for a drawing, with a quiet zone or without, and the corners are the picture's."""
        for quiet in (0, 1, 4):
            for message in ("ABC123", "Hello world 123", "X" * 60):
                grid = grid_of(message)
                self.all_say(f"{message} with {quiet} pixels around", pixels_of(grid, 1, quiet), [message])
                first, last = quiet, quiet + len(grid)
                corners = [[first, first], [last, first], [last, last], [first, last]]
                near = [max(abs(a - b) for a, b in zip(got, wanted)) < 0.6
                        for got, wanted in zip(self.first(pixels_of(grid, 1, quiet))["corners"], corners)]
                self.row(f"{message} with {quiet} pixels around: corners", near, [True] * 4)
