"""What a camera sees where marks are made: symbols that touch others, torn, of dots, bent, and in uneven light."""
import math
import random

from tests.sampler.pictures import grid_of, message_of, pixels_of, sizes, turned


def crowded(grid, chance, among=(0, 1), around=5):
    """The modules of a grid, with others on all sides that touch it."""
    side = len(grid)
    field = [[chance.choice(among) for _ in range(side + 2 * around)] for _ in range(side + 2 * around)]
    for row in range(side):
        field[around + row][around:around + side] = grid[row]
    return field


def drawn(wide, high, level):
    return [[int(level(x + 0.5, y + 0.5)) for x in range(wide)] for y in range(high)]


def turned_by(angle, right, down, side):
    """Where a place beside the middle of a symbol that is turned lies in it, across and down."""
    return (math.cos(angle) * right + math.sin(angle) * down + side / 2,
            math.cos(angle) * down - math.sin(angle) * right + side / 2)


def waved(grid, scale, right, down, at, dark=30):
    """A symbol whose modules lie beside their places by so much at most, in waves that begin somewhere."""
    inked = {(row, column) for row, line in enumerate(grid) for column, module in enumerate(line) if module}
    middles = [place + 0.5 for place in range((len(grid) + 8) * scale)]
    downs = [down * math.sin(2 * math.pi * (x / scale / 17 + at / 7)) for x in middles]
    rights = [right * math.sin(2 * math.pi * (y / scale / 16 + at / 5)) for y in middles]
    return [[dark if (math.floor(y / scale - 4 + lower), math.floor(x / scale - 4 + farther)) in inked else 220
             for x, lower in zip(middles, downs)] for y, farther in zip(middles, rights)]


def moved_along(rows, path):
    """The rows of a picture as a camera sees them that goes along a path, of steps right and down."""
    high, wide = len(rows), len(rows[0])
    return [[sum(rows[min(max(y + down, 0), high - 1)][min(max(x + right, 0), wide - 1)] for right, down in path)
             // len(path) for x in range(wide)] for y in range(high)]


class Hard:
    def test_touching(self):
        """Symbols among random modules, without a quiet zone, and in a dark ground, dark on light and light on dark."""
        chance = random.Random(11)
        for side, count, _ in sizes()[2:]:
            grid = grid_of(message_of(count))
            for name, among in (("others", (0, 1)), ("dark", (1,))):
                rows = pixels_of(crowded(grid, chance, among), 4 if side < 50 else 3)
                if side % 4:
                    rows = [[250 - level for level in row] for row in rows]
                self.reads(f"side {side} among {name}", rows, grid, "--time=30000")

    def test_torn(self):
        """Symbols without a corner, of which each is read though more of the border is wrong than usual."""
        for at, (side, count, _) in enumerate(sizes()[3:12]):
            message = message_of(count)
            reach, turn = int(0.36 * side), at % 4
            grid = grid_of(message)
            for row in range(side):
                for column in range(side):
                    right, down = (column, side - 1 - column)[turn % 2], (row, side - 1 - row)[turn // 2]
                    if right + down < reach:
                        grid[row][column] = 0
            told = self.first(pixels_of(grid, 5))
            self.row(f"side {side} without corner {turn}",
                     (told.get("message"), told.get("border_faults", 0) > side // 4), (message, reach > side // 4))

    def test_wider_border(self):
        """A symbol with a border more damaged than usual is read only if each block leaves a correction unused."""
        chance = random.Random(12)
        for side, count, limit in sizes()[1:6]:
            message = message_of(count)
            grid, kept = grid_of(message), {}
            while limit not in kept:
                corrected = self.first(pixels_of(grid)).get("corrected")
                if corrected is None:  # one flip has made two codewords wrong, or too many
                    grid = grid_of(message)
                else:
                    kept[corrected[0]] = [row[:] for row in grid]
                row, column = chance.randrange(1, side - 1), chance.randrange(1, side - 1)
                grid[row][column] ^= 1
            for wrong in sorted(kept):
                spoilt = [row[:] for row in kept[wrong]]
                for k in range(side // 4 + 1):
                    spoilt[2 + k][0] ^= 1
                self.says(f"side {side}, {wrong} of {limit} corrections and a border beyond the limit",
                          pixels_of(spoilt), message if wrong < limit else None, "--time=30000")

    def test_dots(self):
        """Dots of three fifths of a module, which don't touch, turned a little, some so faint that they are lost."""
        self.of_dots(sizes()[:9], (6,), 0.3, 200)

    def test_small_dots(self):
        """The same with dots of two fifths of a module, dark and light ones."""
        for ground in (200, 50):
            self.of_dots(sizes()[1:9], (4, 7, 11), 0.2, ground)

    def of_dots(self, of_sizes, scales, radius, ground):
        chance = random.Random(13)
        for at, (side, count, _) in enumerate(of_sizes):
            grid, message, scale = grid_of(message_of(count)), message_of(count), scales[at % len(scales)]
            faint = {(row, column) for row in range(side) for column in range(side) if chance.random() < 0.02}
            wide, turn = int((side + 8) * scale * 1.15), 0.1 * (side % 5)

            def level(x, y):
                across, along = turned_by(turn, (x - wide / 2) / scale, (y - wide / 2) / scale, side)
                row, column = math.floor(along), math.floor(across)
                if not (0 <= row < side and 0 <= column < side and grid[row][column]):
                    return ground
                away = math.hypot(across - column - 0.5, along - row - 0.5) - radius
                depth = (30 if (row, column) in faint else 150) * (1 if ground > 127 else -1)
                return ground - depth * min(1, max(0, 0.5 - away * scale))
            self.says(f"dots of side {side}, a radius of {radius} and {scale} pixels a module on {ground}",
                      drawn(wide, wide, level), message, "--time=30000")

    def test_bent(self):
        """Symbols around a cylinder, up to forty degrees each way, upright and on their sides."""
        for at, (side, count, _) in enumerate(sizes()[4:18:2]):
            grid, scale = grid_of(message_of(count)), 6
            reach, wide = math.radians(40), (side + 8) * scale
            radius = side * scale / 2 / reach

            def level(x, y):
                across, along = (x, y) if at % 2 else (y, x)
                sine = (across - wide / 2) / radius
                if abs(sine) >= 1:
                    return 230
                column, row = (math.floor(math.asin(sine) * radius / scale + side / 2),
                               math.floor((along - wide / 2) / scale + side / 2))
                return 30 if 0 <= row < side and 0 <= column < side and grid[row][column] else 230
            self.says(f"side {side} around a cylinder", drawn(wide, wide, level), message_of(count), "--time=30000")

    def test_crumpled(self):
        """On crumpled paper, and as a camera shows them that shakes; as it is and turned, dark on light or not."""
        for at, (side, count, _) in enumerate(sizes()[4:10:2]):
            for name, right, down in (("crumpled", 0.4, 0.3), ("row by row", 0.45, 0)):
                rows = waved(grid_of(message_of(count)), 6, right, down, at)
                for turns in range(4):
                    told = next(iter(self.told(rows)), {})
                    self.row(f"side {side}, {name}, {turns} turns", told.get("message"), message_of(count))
                    self.lies_upright(f"side {side}, {name}, {turns} turns", told, turns, 4 * 6, len(rows) - 4 * 6)
                    rows = [[250 - level for level in row] for row in turned(rows)]

    def test_crumpled_large(self):
        """The work that nets may do is enough for large symbols."""
        for at in (16, 18, 20):
            side, count, _ = sizes()[at]
            self.says(f"side {side}", waved(grid_of(message_of(count)), 6, 0.4, 0.3, at), message_of(count))

    def test_crumpled_faintly(self):
        """Hardly darker than the paper, where no net grows: borders are bent by a share of their length."""
        for at, scale in ((4, 4), (6, 6), (8, 4)):
            side, count, _ = sizes()[at]
            self.says(f"side {side}", waved(grid_of(message_of(count)), scale, 0.4, 0.3, at, 212), message_of(count))

    def test_crumpled_steep(self):
        """In steep waves, which nets follow as far as many knots around tell; of small modules, where doubled."""
        for at, right, down, scale in ((8, 0.9, 0, 6), (8, 0.75, 0.65, 6), (12, 0.9, 0, 6), (12, 0.75, 0.65, 6),
                                       (12, 0.75, 0.65, 4), (6, 0.9, 0.7, 6), (6, 1, 0.8, 4), (8, 1.1, 0.9, 6)):
            side, count, _ = sizes()[at]
            rows = waved(grid_of(message_of(count)), scale, right, down, at)
            self.says(f"side {side}, {right} and {down}, {scale} pixels", rows, message_of(count))

    def lies_upright(self, name, told, turns, near, far):
        """That the corners of a symbol lie about where they do in a picture that was turned so often."""
        wanted = [(near, near), (far, near), (far, far), (near, far)]
        self.row(f"{name}: corners", [max(abs(a - b) for a, b in zip(got, wanted[(k + turns) % 4])) < near / 2
                                      for k, got in enumerate(told.get("corners", []))], [True] * 4)

    def test_bands(self):
        """In the light of a lamp that flickers while the rows are read one by one."""
        for at, (side, count, _) in enumerate(sizes()[3:12]):
            grid = grid_of(message_of(count))
            rows = pixels_of(grid, 5)
            period, depth = 5 * (5 + at), 0.4 + 0.03 * at
            lit = [[int(level * (1 - depth * (0.5 + 0.5 * math.sin(2 * math.pi * y / period)))) for level in row]
                   for y, row in enumerate(rows)]
            self.reads(f"side {side} in bands of {period} pixels", lit, grid, "--time=30000")

    def test_motion(self):
        """A camera that moves by 2.4 modules while it takes a picture, so that no threshold tells the modules apart."""
        scale, turn, reach = 5, 0.1 + math.pi / 4, 12
        path = [(round(math.cos(turn) * (step - reach / 2)), round(math.sin(turn) * (step - reach / 2)))
                for step in range(reach + 1)]
        for side, message in ((sizes()[at][0], message_of(sizes()[at][1])) for at in (3, 4, 6, 7, 8)):
            self.says(f"side {side} moved", moved_along(pixels_of(grid_of(message), scale, 4), path), message)

    def test_craters(self):
        """Craters in streaked metal that is lit from one side, so that one half of each is dark."""
        chance = random.Random(14)
        for at, (side, count, _) in enumerate(sizes()[2:10]):
            grid, message, scale = grid_of(message_of(count)), message_of(count), (6, 7)[at % 2]
            wide, turn = int((side + 8) * scale * 1.15), 0.15 + 0.2 * at
            noise = [chance.gauss(0, 18) for _ in range(wide + 4)]
            streaks = [sum(noise[y:y + 4]) / 2 for y in range(wide)]

            def level(x, y):
                across, along = turned_by(turn, (x - wide / 2) / scale, (y - wide / 2) / scale, side)
                row, column, shade = math.floor(along), math.floor(across), 0
                if 0 <= row < side and 0 <= column < side and grid[row][column]:
                    beside, below = across - column - 0.5, along - row - 0.5
                    inside = min(1, max(0, 0.5 - (math.hypot(beside, below) - 0.32) * scale))
                    shade = 90 * inside * min(1, max(-0.3, 0.5 + 3 * beside))
                return max(0, min(255, 140 + streaks[int(y)] - shade))
            self.says(f"craters of side {side}", drawn(wide, wide, level), message)
