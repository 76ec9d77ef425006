"""Makes pictures of 0.3 to 12 megapixels as phones and cameras take them, always the same: phones.py FOLDER, which has
lines.json, a list of grids as rows of 0 and 1. Each stands on a label with text and bars, which lies on a table,
turned, and somewhat out of focus. Needs Debian's python3-opencv and python3-numpy."""
import json
import math
import multiprocessing
import pathlib
import random
import sys

import cv2
import numpy

WIDE, HIGH = 4000, 3000
LABEL = (1700, 1100)
MODULES = (8, 28)  # pixels
MOST_SYMBOL = 900  # pixels
# The widths that pictures have in turn, and the least pixels of a module then.
WIDTHS, LEAST = (4000, 640, 4000, 3264, 4000, 1280, 4000), 3


def label_of(rows, chance, width):
    """A label with a symbol, text beside it and bars below."""
    label = numpy.full((LABEL[1], LABEL[0], 3), chance.uniform(200, 245), numpy.float32)
    module = min(max(chance.uniform(*MODULES), LEAST * WIDE / width), MOST_SYMBOL / (len(rows) + 4))
    dark = chance.uniform(15, 60)
    grid = numpy.array([[int(module) for module in row] for row in rows], numpy.float32)
    symbol = cv2.resize(grid, None, fx=module, fy=module, interpolation=cv2.INTER_NEAREST)[:, :, None]
    side, at = symbol.shape[0], round(90 + 2 * module)
    part = label[at:at + side, at:at + side]
    part[:] = part * (1 - symbol) + dark * symbol
    for line in range(7):
        text = "".join(chance.choice("ABCDEFGHIJ 0123456789") for _ in range(14))
        cv2.putText(label, text, (at + side + 60, 180 + 110 * line), cv2.FONT_HERSHEY_SIMPLEX, 2, (dark,) * 3, 6)
    left = at
    while left < 1560 and at + side < 900:
        wide = chance.randint(4, 16)
        label[960:1060, left:left + wide] = dark
        left += wide + chance.randint(4, 16)
    return label


def table(chance, noises):
    """Something like wood."""
    coarse = noises.normal(0, 1, (30, 400)).astype(numpy.float32)
    streaks = cv2.resize(coarse, (WIDE, HIGH), interpolation=cv2.INTER_CUBIC)[:, :, None]
    return 14 * streaks + numpy.array([chance.uniform(least, least + 50) for least in (60, 90, 120)], numpy.float32)


def laid(picture, label, chance):
    """The label on the table, turned by any angle and in some perspective."""
    angle, size = chance.uniform(-math.pi, math.pi), numpy.array(LABEL)
    turn = numpy.array([[math.cos(angle), math.sin(angle)], [-math.sin(angle), math.cos(angle)]])
    corners = numpy.array([[0, 0], [1, 0], [1, 1], [0, 1]]) * size
    moved = (corners - size / 2) @ turn + (WIDE / 2 + chance.uniform(-500, 500), HIGH / 2 + chance.uniform(-300, 300))
    moved += numpy.array([[chance.uniform(-40, 40) for _ in range(2)] for _ in range(4)])
    way = cv2.getPerspectiveTransform(corners.astype(numpy.float32), moved.astype(numpy.float32))
    inside = cv2.warpPerspective(numpy.ones(label.shape, numpy.float32), way, (WIDE, HIGH))
    return picture * (1 - inside) + cv2.warpPerspective(label, way, (WIDE, HIGH)) * inside


def taken(picture, width, chance, noises):
    """What light, lens and a sensor of so many columns add."""
    down, right = numpy.mgrid[0:HIGH, 0:WIDE].astype(numpy.float32) / WIDE
    picture = picture * (1 + chance.uniform(-0.3, 0.3) * right + chance.uniform(-0.3, 0.3) * down)[:, :, None]
    picture = cv2.GaussianBlur(picture, (0, 0), chance.uniform(0.8, 2))
    picture = cv2.resize(picture, (width, width * HIGH // WIDE), interpolation=cv2.INTER_AREA)
    return picture + noises.normal(0, chance.uniform(3, 8), (*picture.shape[:2], 1))


def make(folder, k, rows):
    chance, noises, width = random.Random(f"phone {k}"), numpy.random.RandomState(k), WIDTHS[k % len(WIDTHS)]
    picture = taken(laid(table(chance, noises), label_of(rows, chance, width), chance), width, chance, noises)
    cv2.imwrite(str(folder / f"phone-{k:03d}.jpg"), numpy.clip(picture, 0, 255).astype(numpy.uint8),
                [cv2.IMWRITE_JPEG_QUALITY, chance.randint(85, 95)])


def main(folder):
    cv2.setNumThreads(1)
    with multiprocessing.Pool() as pool:
        pool.starmap(make, [(folder, *each) for each in enumerate(json.loads((folder / "lines.json").read_text()))], 1)


if __name__ == "__main__":
    main(pathlib.Path(sys.argv[1]))
