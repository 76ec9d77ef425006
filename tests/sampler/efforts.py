"""What a part of the usual work is enough for: what is found costs no more, and shows where neighbours are."""
import random
from bisect import bisect_left

from tests.sampler.common import Searches
from tests.sampler.pictures import grid_of, pixels_of
from tests.sampler.sheets import labels, noisy, sheet_of
from tests.sampler.sizes import tilted
from tests.sampler.timing import draw, lettering


def said(messages):
    """Messages as searched.c prints them."""
    return [f"none;; {message}" for message in messages]


def captioned(chance):
    """A sheet of 60 symbols with two lines of what looks like small text below each, and what they say."""
    messages, grids = labels(60, chance)
    rows, apart = sheet_of(grids, 6, 8, 5), 5 * (len(grids[0]) + 8)
    for at in range(60):
        draw(rows, lettering(chance, 24), 55 + at // 6 * apart + 5 * len(grids[0]) + 10, 55 + at % 6 * apart)
    return messages, rows


def noisy_sheet(seed, deviation):
    """A sheet of 64 symbols that lie turned and nearly touch, full of noise, and what they say."""
    chance = random.Random(seed)
    messages, grids = labels(64, chance)
    return messages, noisy(tilted(sheet_of(grids, 8, 1, 4), 2.32), deviation, chance)


def crowded(grid, chance):
    """A photograph of 12 megapixels: 500 frames with a word each, and among them a symbol of 2 pixels a module."""
    rows = [bytearray([230]) * 4000 for _ in range(3000)]
    for _ in range(500):
        wide, high, thick = chance.randint(30, 200), chance.randint(30, 200), chance.randint(2, 6)
        down, right = chance.randrange(2800), chance.randrange(3800)
        draw(rows, [[20] * wide] * high, down, right)
        draw(rows, [[230] * (wide - 2 * thick)] * (high - 2 * thick), down + thick, right + thick)
        draw(rows, lettering(chance, 12), down + 8, right + 8)
    draw(rows, pixels_of(grid, 2, 2), 1700, 2500)
    return rows


class Efforts:
    def test_blanked(self):
        """Once all symbols of a sheet have been read, little is left to be searched, of their texture or outlines."""
        searches, chance = Searches(self), random.Random(43)
        small, large = (["".join(chance.choice("ABCDEFGH") for _ in range(length)) for _ in range(count)]
                        for count, length in ((100, 8), (64, 40)))
        for messages, across, pixels, percent in ((small, 10, 3, 30), (large, 8, 5, 20)):
            rows = sheet_of([grid_of(message) for message in messages], across, 2, pixels)
            self.row(f"{len(messages)} symbols with {percent} % of the usual work",
                     searches.of(rows, len(messages) + 1, percent), (said(messages), "whole"))

    def test_captions(self):
        """What looks like a lattice beside symbols that were read doesn't take these in, which would take long."""
        messages, rows = captioned(random.Random(5))
        self.row("60 symbols with text and 5 % of the work", Searches(self).of(rows, 61, 5), (said(messages), "whole"))

    def test_large_work(self):
        """A large picture, which takes long to open, is allowed less, but for a photograph, which is allowed more."""
        def share(rows, low, high):
            return bisect_left(range(high), True, low, key=lambda percent: searches.of(rows, 1, percent)[1] == "whole")
        searches = Searches(self)
        small = share([b"\xe6" * 2000] * 1000, 1, 1000)
        sheet = share([b"\xe6" * 4000] * 2190, 4 * small, 6 * small)
        photograph = share([b"\xe6" * 4000] * 3000, sheet * 4 // 5, sheet * 6 // 5)
        self.row(f"of their usual work 2, 8.8 and 12 megapixels take {small}, {sheet} and {photograph} %",
                 (4.6 * small < sheet < 5.2 * small, 0.9 * sheet < photograph < 1.06 * sheet), (True, True))

    def test_small(self):
        """A small symbol is found among much else in a photograph."""
        found, _ = Searches(self).of(crowded(grid_of("A small one"), random.Random(0)), 1)
        self.row("of 2 pixels a module in 12 megapixels", found, said(["A small one"]))

    def test_neighbours(self):
        """Symbols that only their neighbours show are found before much else is tried, dark on light or not."""
        searches = Searches(self)
        messages, rows = noisy_sheet(34, 24)
        found, _ = searches.of(rows, 64, 12)
        self.row("dark on light with 12 % of the usual work", sorted(found), sorted(said(messages)))
        messages, rows = noisy_sheet(35, 32)
        found, _ = searches.of([[255 - level for level in row] for row in rows], 64)
        self.row("light on dark with the usual work", sorted(found), sorted(said(messages)))
