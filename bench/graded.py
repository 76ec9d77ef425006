"""The graded kinds of pictures that bench/photographs makes, each as hard as a finder with one search of a picture
finds it: what each changes in how a symbol is drawn and taken, mostly by hard.py and surfaces.py in other ranges."""
import math
from functools import partial

import cv2
import numpy

from hard import LETTERS, brushed, smeared, unfocused
from surfaces import (bottle, by_heat, carton, clearfilm, crumpled, faded, few_electrons, film, fluted, gleaming,
                      lowlight, seen_through, soft, vial, wafer, wobbling)

OBLONG = (8, 18), (8, 32), (12, 26), (12, 36), (16, 36), (16, 48)  # the rectangles of ISO/IEC 16022
GOLD, SILK = (90, 170, 205), (225, 235, 235)


def has_size(kind, rows, columns):
    """Whether the symbols of a kind have this size at times."""
    if kind == "large":
        return rows > 104
    if kind in ("oblong", "dmre"):
        return rows != columns and ((rows, columns) in OBLONG) == (kind == "oblong")
    return rows == columns <= (36 if kind == "small12" else 104)


def changed(kind=None, light=(130, 210), faint=None, **others):
    """A kind that is another one with these changes: ink that is darker than the ground by so many levels, and what
    else a look has. Of pairs, it is something between them, and one of a list."""
    def change(look, chance):
        if kind:
            kind(look, chance)
        if faint:
            level = chance.uniform(*light)
            look.ground, look.ink = (level,) * 3, (level - chance.uniform(*faint),) * 3
        for name, value in others.items():
            setattr(look, name, chance.uniform(*value) if isinstance(value, tuple)
                    else chance.choice(value) if isinstance(value, list) else value)
    return change


# ---- how symbols are taken

def by_phone(picture, _, chance, noises, least=150, most=1500):
    """The picture as a phone's camera takes it: linear light, counted by `least` to `most` electrons a pixel behind a
    mosaic of colours, of which each pixel's others are guessed, and sharpened."""
    electrons, shades = chance.uniform(least, most), picture.shape[2]
    light = (numpy.clip(picture, 0, 255) / 255) ** 2.2
    mosaic = light[:, :, shades // 2].copy()
    mosaic[::2, ::2], mosaic[1::2, 1::2] = light[::2, ::2, 0], light[1::2, 1::2, shades - 1]
    counted = noises.poisson(mosaic * electrons) / electrons + noises.normal(0, 2 / electrons, mosaic.shape)
    colours = cv2.cvtColor((numpy.clip(counted, 0, 1) * 65535).astype(numpy.uint16), cv2.COLOR_BayerRG2BGR)
    shown = (255 * (colours / 65535) ** (1 / 2.2)).astype(numpy.float32)
    return shown + chance.uniform(0.2, 0.8) * (shown - cv2.GaussianBlur(shown, (0, 0), 1.2))


def phone(look, chance):
    """By a phone's camera, as it keeps its pictures."""
    look.sensed, look.noise, look.formats = by_phone, 0, (".jpg",)
    look.fall = chance.uniform(0.05, 0.25)


def tilted(ink, chance, least=46, most=63):
    """The ink as seen from beside, by `least` to `most` degrees, from some sides away."""
    (high, wide), slant, away = ink.shape, math.radians(chance.uniform(least, most)), chance.uniform(2, 5)
    square = numpy.array([[-1, -1], [1, -1], [1, 1], [-1, 1]]) / 2
    near = 1 + math.sin(slant) * square[:, 1] / away
    shown = square * (1, math.cos(slant)) * (near.min() / near)[:, None]
    corners = [((places + 0.5) * (wide, high)).astype(numpy.float32) for places in (square, shown)]
    return cv2.warpPerspective(ink, cv2.getPerspectiveTransform(*corners), (wide, high), flags=cv2.INTER_LINEAR)


def lit_pixels(picture, look, chance, _):
    """A monitor's pixels: stripes of three colours beside each other, in rows, of which a camera's pixels see some
    more and some less."""
    high, wide = picture.shape[:2]
    period, turn, depth = chance.uniform(0.9, 2.2), chance.uniform(0, 2 * math.pi), chance.uniform(0.1, 0.35)
    down, right = numpy.mgrid[0:high, 0:wide]
    across = (math.cos(turn) * right + math.sin(turn) * down)[:, :, None] / period - numpy.arange(3) / 3
    along = (math.cos(turn) * down - math.sin(turn) * right)[:, :, None] / period
    return picture * (1 - depth * (1 + numpy.cos(2 * math.pi * across)) / 2
                      - depth * (1 + numpy.cos(2 * math.pi * along)) / 2)


def faxed(picture, look, chance, noises):
    """Black and white, with specks, by a scanner whose rows shift a little."""
    level, (high, wide) = sum(look.ink) / 6 + sum(look.ground) / 6, picture.shape[:2]
    shown = numpy.array([numpy.roll(row, chance.choice((0, 0, 0, 1))) for row in picture[:, :, 0]])
    black = (shown + noises.normal(0, chance.uniform(5, 20), (high, wide))) < level + chance.uniform(-15, 15)
    black ^= noises.rand(high, wide) < chance.uniform(0, 0.01)
    return numpy.repeat(255.0 * ~black[:, :, None], 3, 2)


def fax(look, chance):
    look.pixels, look.perspective, look.blur = chance.choice((3, 3.5, 4, 5)), 0, chance.uniform(0.1, 0.25)
    look.noise, look.sensed, look.formats = 0, faxed, (".png",)


# ---- what they are on

def soiled(picture, look, chance, noises):
    """Stains, specks and scratches."""
    (high, wide), ink = picture.shape[:2], look.ink[0]
    stains = numpy.clip(soft(noises, high, wide, chance.uniform(4, 10) * look.pixels) - 0.8, 0, 1)[:, :, None]
    picture = picture - chance.uniform(0.3, 0.7) * stains * (picture - ink)
    for _ in range(chance.randint(5, 25) * high * wide // 40000 + 3):
        at = chance.randrange(wide), chance.randrange(high)
        cv2.circle(picture, at, max(1, round(chance.uniform(0.1, 0.5) * look.pixels)), (ink,) * 3, -1)
    for _ in range(chance.randint(1, 4)):
        at, to = ((chance.randrange(wide), chance.randrange(high)) for _ in range(2))
        cv2.line(picture, at, to, look.ground, max(1, round(chance.uniform(0.1, 0.35) * look.pixels)), cv2.LINE_AA)
    return picture


def threaded(picture, look, chance, noises):
    """Cloth, whose threads go over and under each other, and are darker where they go under."""
    high, wide = picture.shape[:2]
    period, turn, depth = chance.uniform(0.3, 0.9) * look.pixels, chance.uniform(0, math.pi), chance.uniform(0.15, 0.45)
    down, right = numpy.mgrid[0:high, 0:wide]
    waves = [numpy.sin(math.pi * (math.cos(turn + more) * right + math.sin(turn + more) * down) / period)
             for more in (0, math.pi / 2)]
    picture = crumpled(picture, look, chance, noises, 0.03, 0.1)
    return picture * (1 - depth * (0.5 + 0.5 * waves[0] * waves[1]))[:, :, None]


def board(canvas, look, chance):
    """A circuit board: tracks below the solder mask, which end in holes, pads of gold, and the silk screen's text."""
    side, module, mask = len(canvas), 2 * look.pixels, look.behind
    for _ in range(chance.randint(10, 40)):
        at, turn = [chance.randrange(side) for _ in range(2)], chance.randrange(8) * math.pi / 4
        reach, thick = chance.uniform(0.1, 0.6) * side, max(1, round(chance.uniform(0.3, 1.2) * module))
        to = [round(at[0] + reach * math.cos(turn)), round(at[1] + reach * math.sin(turn))]
        cv2.line(canvas, at, to, [1.4 * shade for shade in mask], thick, cv2.LINE_AA)
        cv2.circle(canvas, to, round(1.2 * thick), GOLD, -1, cv2.LINE_AA)
        cv2.circle(canvas, to, round(0.6 * thick), (20,) * 3, -1, cv2.LINE_AA)
    for _ in range(chance.randint(4, 20)):
        at = [chance.randrange(side) for _ in range(2)]
        to = [place + round(chance.uniform(1, 5) * module) for place in at]
        cv2.rectangle(canvas, at, to, GOLD, -1)
        text = chance.choice(LETTERS[:26]) + str(chance.randint(1, 99))
        cv2.putText(canvas, text, [at[0], at[1] - round(module)], cv2.FONT_HERSHEY_SIMPLEX, module / 10, SILK,
                    max(1, round(0.3 * module)), cv2.LINE_AA)


def pcb(look, chance):
    """A symbol in the silk screen, as dark gaps in it or light on the mask."""
    look.scene, look.behind = board, chance.choice(((45, 90, 20), (110, 50, 15), (30, 25, 25), (35, 30, 120)))
    look.ink, look.ground = (look.behind, SILK) if chance.random() < 0.6 else (SILK, look.behind)


def tight(look, chance):
    """Without a quiet zone, on something else."""
    look.quiet, look.behind = (0, 0), (chance.uniform(60, 200),) * 3
    look.beside = True


def mixed(look, chance):
    for kind in chance.sample(("dirty", "mirrored", "steep", "tight", "plainphone"), 2):
        KINDS[kind](look, chance)


KINDS = {
    "bottle": partial(bottle, least=32, most=57),
    "carton": changed(partial(carton, least=13, most=34), lit=partial(fluted, waves=(1, 4), rough=(0.5, 2.5)),
                      noise=(0, 2)),
    "clearfilm": changed(partial(clearfilm, least=80, most=120), lit=partial(seen_through, least=20, most=45)),
    "crumple": changed(faint=(12, 38), noise=(0, 2),
                       lit=partial(crumpled, least=0.05, most=0.14, dark=(0.02, 0.06), waves=0.02)),
    "defocus": changed(faint=(12, 60), lit=partial(unfocused, least=0.8, most=1.1), blur=0, noise=(0, 4)),
    "dirty": changed(lit=soiled),
    "dmre": changed(),
    "dotpeen": changed(light=(120, 170), faint=(85, 115), dot=(0.7, 0.9), lit=partial(brushed, least=15, most=60)),
    "fax": fax,
    "film": changed(partial(film, least=9, most=32), lit=partial(gleaming, least=5, most=25), noise=(0, 3)),
    "large": changed(faint=(28, 73), pixels=[3, 3.5, 4], blur=(0.29, 0.47), noise=(2, 9)),
    "lasermetal": changed(light=(120, 160), faint=(85, 115), lit=partial(brushed, least=10, most=45)),
    "lowlight": changed(partial(lowlight, least=110, most=150), sensed=partial(few_electrons, least=100, most=400)),
    "mirrored": changed(mirrored=True, perspective=0.08, blur=(0.1, 0.45), noise=(0, 25)),
    "mixed": mixed,
    "motion": changed(faint=(10, 32), lit=partial(smeared, least=1.1, most=1.9), blur=0, noise=(1, 4)),
    "oblong": changed(),
    "pcb": pcb,
    "plainphone": phone,
    "rolling": changed(faint=(12, 44), lit=partial(wobbling, least=0.1, most=0.6), noise=(0, 3)),
    "scan": changed(faint=(10, 55), pixels=[2, 2.25, 2.5, 3], perspective=0, blur=(0.2, 0.4), noise=(0, 1.5)),
    "screen": changed(phone, lit=lit_pixels, beside=True),
    "several": changed(perspective=0.08, blur=(0.1, 0.45), noise=(5, 30)),
    "small12": changed(pixels=(2, 3), blur=(0, 0.1), noise=(0, 3), formats=[(".jpg",)]),
    "steep": changed(rolled=tilted, perspective=0.02, pixels=[5, 6, 8, 10]),
    "thermal": changed(faint=(20, 56), drawn=by_heat, lit=partial(faded, left=0.7, least=0.35), blur=(0.1, 0.3),
                       noise=(0, 2)),
    "tight": tight,
    "vial": partial(vial, least=45, most=58),
    "wafer": partial(wafer, least=10, most=24),
    "woven": changed(phone, lit=threaded, pixels=[4, 5, 6, 8, 10]),
}
