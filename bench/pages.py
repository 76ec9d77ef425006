"""Full pages of text, of A4, as scanners give them."""
import glob
import os
import textwrap

import cv2
import numpy
from PIL import Image, ImageDraw, ImageFont

DENSITIES = 100, 150, 200, 300  # dots an inch
A4 = 210, 297                   # millimetres
MODULES = 0.35, 0.6             # millimetres
FORMS = "clean", "noisy", "turned", "as JPEG", "all of these"
OFTEN = "eeeeeeeeeeeetttttttttaaaaaaaaooooooooiiiiiiinnnnnnnsssssshhhhhhrrrrrrddddlllluuucccmmmwwffggyyppbbvk"
DEJAVU = [f"/usr/share/fonts/truetype/dejavu/DejaVu{kind}{weight}.ttf"
          for kind in ("Sans", "SansMono", "Serif") for weight in ("", "-Bold")]
WITHOUT_WORDS = "D050000L", "StandardSymbols", "Z003"  # signs, and handwriting
FONTS = [font for font in DEJAVU + sorted(glob.glob("/usr/share/fonts/opentype/urw-base35/*.otf"))
         if not os.path.basename(font).startswith(WITHOUT_WORDS)]


def words_of(chance):
    """A paragraph of sentences."""
    text = []
    for _ in range(chance.randint(2, 7)):
        words = ["".join(chance.choice(OFTEN) for _ in range(chance.choice((1, 2, 2, 3, 3, 3, 4, 4, 5, 6, 7, 8, 10))))
                 for _ in range(chance.randint(5, 22))]
        if chance.random() < 0.2:
            words[chance.randrange(len(words))] = str(chance.randint(1, 99999))
        if chance.random() < 0.4:
            words[chance.randrange(len(words))] += ","
        text.append(" ".join(words).capitalize() + chance.choice("...?;"))
    return " ".join(text)


def drawn(dots, chance):
    """A page at so many dots an inch, as grey levels, and the font's name."""
    wide, high = (round(side / 25.4 * dots) for side in A4)
    path = chance.choice(FONTS)
    size = chance.uniform(8.5, 12) / 72 * dots
    font = ImageFont.truetype(path, round(size))
    page = Image.new("L", (wide, high), chance.randint(235, 255))
    pen, edge, down = ImageDraw.Draw(page), round(0.8 * dots), round(0.8 * dots)
    line = size * chance.uniform(1.15, 1.4)
    letters = int((wide - 2 * edge) / pen.textlength(OFTEN, font) * len(OFTEN) * 1.1)
    while down < high - edge:
        for row in textwrap.wrap(words_of(chance), letters):
            if down < high - edge:
                pen.text((edge, down), row, chance.randint(0, 40), font)
            down += line
        down += chance.choice((0, 0.5, 1)) * line
    return numpy.asarray(page).astype(numpy.float32), os.path.basename(path)


def stamp(picture, grid, dots, chance):
    """Prints a symbol of modules of MODULES somewhere over a page's text, with its quiet zone."""
    module = max(2, chance.uniform(*MODULES) / 25.4 * dots)
    ink = numpy.pad(1 - grid.astype(numpy.float32), 1, constant_values=1)
    rows, columns = (round(length * module) for length in ink.shape)
    fine = cv2.resize(ink, None, fx=16, fy=16, interpolation=cv2.INTER_NEAREST)
    down, right = (chance.randint(0, length - side) for length, side in zip(picture.shape, (rows, columns)))
    light, dark = picture[0, 0], chance.randint(0, 40)
    picture[down : down + rows, right : right + columns] = (
        dark + (light - dark) * cv2.resize(fine, (columns, rows), interpolation=cv2.INTER_AREA))


def page(dots, form, grid, chance, noises):
    """A page in one of the forms, its font's name, and what its file ends in. With a symbol, if there is a grid."""
    picture, font = drawn(dots, chance)
    high, wide = picture.shape
    if grid is not None:
        stamp(picture, grid, dots, chance)
    if form in ("turned", "all of these"):
        angle = chance.choice((-1, 1)) * chance.uniform(0.3, 2)
        turn = cv2.getRotationMatrix2D((wide / 2, high / 2), angle, 1)
        picture = cv2.warpAffine(picture, turn, (wide, high), flags=cv2.INTER_LINEAR, borderValue=float(picture[0, 0]))
    if form in ("noisy", "all of these"):
        picture = cv2.GaussianBlur(picture, (0, 0), chance.uniform(0.3, 0.8))
        picture = picture + noises.normal(0, chance.uniform(3, 15), picture.shape)
    ending = ".jpg" if form in ("as JPEG", "all of these") else ".png"
    return numpy.clip(picture, 0, 255).astype(numpy.uint8), font, ending
