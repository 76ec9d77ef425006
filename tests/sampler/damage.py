"""Known damage: modules that lie outside of the picture, in a glare, beyond a torn edge or under a blot."""
import itertools
import math
import random

from tests.sampler.pictures import grid_of, message_of, pgm, pixels_of, run
from tests.sampler.sizes import symbols, tilted

SCALE, QUIET = 5, 3


def squares():
    return [(message_of(count), grid_of(message_of(count))) for count in (36, 62, 114)]


def is_known(said, inside):
    """Whether there are doubtful modules, and each lies in the damage, or one module beside it."""
    places = [(row, column) for row, line in enumerate(said.get("doubtful", [])) for column, mark in enumerate(line)
              if mark == "1"]
    near = [any(inside(row + down, column + right) for down in (-1, 0, 1) for right in (-1, 0, 1))
            for row, column in places]
    return bool(places) and all(near)


def spotted(grid):
    """A symbol with a spot of glare in its middle."""
    rows = pixels_of(grid, SCALE, QUIET, 30, 200)
    middle = len(rows) / 2
    return [[255 if math.hypot(x - middle, y - middle) < 0.2 * len(rows) else level for x, level in enumerate(row)]
            for y, row in enumerate(rows)]


class Damage:
    def messages(self):
        """Symbols to be damaged: squares, and rectangles of some height."""
        return squares() + [(message, grid) for rows, columns, message, grid in symbols() if 16 <= rows < columns][::4]

    def grows(self, name, message, spoil, steps):
        """Damage that grows: two checks of each block are left. Gives the readings by doubtful modules, with steps."""
        known = []
        for step in steps:
            last = self.first(spoil(step))
            if last:
                self.row(f"{name} {step}: the message", last["message"], message)
            if "doubtful" in last:
                self.row(f"{name} {step}: checks are left", min(last["left"]) >= 2 and max(last["erased"]) > 0, True)
                known.append((step, last))
            elif last:
                self.row(f"{name} {step}: nothing is erased", max(last["erased"]), 0)
        return known

    def covered(self, name, message, rows, is_covered, level, steps):
        """A picture of which more and more shows a level in the place of a symbol: how often it is read by doubt."""
        spoil = lambda step: [[level if is_covered(step, y / SCALE - QUIET, x / SCALE - QUIET) else own
                               for x, own in enumerate(row)] for y, row in enumerate(rows)]
        known = self.grows(name, message, spoil, steps)
        for step, said in known:
            self.row(f"{name} {step}: where",
                     is_known(said, lambda row, column: is_covered(step, row + 0.5, column + 0.5)), True)
        return len(known)

    def test_outside(self):
        """A symbol on its corner, of which the picture cuts a corner off, more and more."""
        count = 0
        for message, grid in squares():
            high, wide = len(grid), len(grid[0])
            rows = tilted(pixels_of(grid, SCALE, QUIET), math.pi / 4)
            for step, said in self.grows(f"{high} by {wide} on its corner, cut off by", message,
                                         lambda step: rows[int(1.4 * QUIET * SCALE) + step * SCALE:],
                                         range(int(0.4 * high), int(0.5 * high) + 1)):
                places = [corner for corner in said["corners"] if corner[1] < 0]
                self.row(f"{high} by {wide} cut off by {step}: corners outside", len(places), 1)
                count += 1
        self.row("some are read by what is outside", count > 1, True)

    def test_known_torn(self):
        """A symbol without a corner, which shows what lies behind, as grey or dark."""
        count = 0
        for at, (message, grid) in enumerate(self.messages()):
            high, wide = len(grid), len(grid[0])
            behind, turn = (120, 60, 180)[at % 3], at % 4

            def is_off(step, row, column):
                across, along = (column, wide - 1 - column)[turn % 2], (row, high - 1 - row)[turn // 2]
                return across / wide + along / high < 0.04 * step
            count += self.covered(f"{high} by {wide} without corner {turn}, of", message, pixels_of(grid, SCALE, QUIET),
                                  is_off, behind, range(11, 18, 2))
        self.row("some are read by what is torn off", count > 1, True)

    def test_known_glare(self):
        """A symbol with a spot on it that is as light as can be."""
        count = 0
        for message, grid in self.messages():
            high, wide = len(grid), len(grid[0])

            def is_lit(step, row, column):
                return math.hypot(row - high / 2, column - wide / 2) < 0.035 * step * math.sqrt(high * wide)
            count += self.covered(f"{high} by {wide} in a glare of", message, pixels_of(grid, SCALE, QUIET, 30, 200),
                                  is_lit, 255, range(6, 9))
        self.row("some are read by what glares", count > 1, True)

    def test_weak(self):
        """Modules of low contrast aren't doubtful: what has too many of them isn't read, and nothing else is."""
        chance = random.Random(17)
        for message, grid in self.messages():
            high, wide = len(grid), len(grid[0])
            rows = pixels_of(grid, SCALE, QUIET)
            for row, column in itertools.product(range(1, high // 2), range(1, wide - 1)):
                level = 125 + chance.randrange(-45, 45)
                for y in range(SCALE):
                    first = (QUIET + column) * SCALE
                    rows[(QUIET + row) * SCALE + y][first:first + SCALE] = [level] * SCALE
            self.row(f"{high} by {wide} with weak modules", self.first(rows), {})

    def test_evidence(self):
        """Where doubtful modules leave no more than two checks, a symbol is read only if its border has no fault: else
        what lies beside one may be taken for the rest of a smaller one. Small ones are read by a second look."""
        corners = (("ABC", 6, 6), ("ABCDE", 4, 7), ("ABCDEFGH", 5, 9))
        for scale, (message, down, right), faults in itertools.product((SCALE, 2), corners, ((), ((0, 3),))):
            grid = grid_of(message)
            for row, column in faults:
                grid[row][column] ^= 1
            rows, last = pixels_of(grid, scale, QUIET), len(grid) + 2
            for row in rows[(QUIET + down) * scale:(QUIET + last) * scale]:
                row[(QUIET + right) * scale:(QUIET + last) * scale] = [120] * ((last - right) * scale)
            said = self.first(rows)
            self.row(f"side {len(grid)} without a corner, {len(faults)} faults, {scale} pixels a module",
                     (said.get("message"), said.get("left")), (None, None) if faults else (message, [2]))

    def test_margin_with_doubt(self):
        """A margin counts where modules are doubtful, too."""
        message = message_of(62)
        rows = spotted(grid_of(message))
        left = min(self.first(rows)["left"])
        self.row("with a margin", [self.first(rows, f"--margin={unused}").get("message")
                                   for unused in (left // 2, left // 2 + 1)], [message, None])

    def test_doubt_is_no_record(self):
        """What is read without its doubtful modules can't be handed on to dm_tool."""
        done = run([self.sampler, "--time=30000"], pgm(spotted(grid_of(message_of(62)))))
        why = b"was read without its doubtful modules, of which dm_tool knows nothing: --json has it\n"
        self.row("one with doubtful ones", (done.returncode, done.stdout, done.stderr.endswith(why)), (1, b"", True))
