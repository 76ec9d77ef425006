"""Kinds of pictures by what symbols are found on: what each changes in how a symbol is drawn and taken."""
import math

import cv2
import numpy


def soft(noises, high, wide, reach):
    """Even noise with a deviation of 1, of waves about so many pixels long."""
    small = [max(2, math.ceil(length / reach) + 1) for length in (high, wide)]
    field = cv2.resize(noises.normal(0, 1, small), (wide, high), interpolation=cv2.INTER_CUBIC)
    return field / max(field.std(), 1e-6)


def taken(ink, right, down):
    """What is seen where each pixel is moved by so many to the right and down."""
    high, wide = ink.shape[:2]
    rows, columns = numpy.mgrid[0:high, 0:wide].astype(numpy.float32)
    return cv2.remap(ink.astype(numpy.float32), (columns + right).astype(numpy.float32),
                     (rows + down).astype(numpy.float32), cv2.INTER_LINEAR, borderMode=cv2.BORDER_REPLICATE)


# ---- film: gleams on it, and what is behind it

def gleaming(picture, look, chance, noises, least=60, most=160):
    """Gleams along folds, lighter by `least` to `most` levels."""
    high, wide = picture.shape[:2]
    folds = soft(noises, high, wide, chance.uniform(4, 10) * look.pixels)
    gleam = chance.uniform(least, most) * numpy.exp(-(folds / chance.uniform(0.05, 0.15)) ** 2)
    return picture + gleam[:, :, None]


def seen_through(picture, look, chance, noises, least=30, most=60):
    """What is behind, darker by `least` to `most` levels, and gleams."""
    high, wide = picture.shape[:2]
    behind = soft(noises, high, wide, chance.uniform(5, 12) * look.pixels) > chance.uniform(-0.5, 0.5)
    return gleaming(picture - (chance.uniform(least, most) * behind)[:, :, None], look, chance, noises)


def film(look, chance, least=40, most=70):
    light = chance.uniform(150, 210)
    look.ground, look.ink, look.lit = (light,) * 3, (light - chance.uniform(least, most),) * 3, gleaming


def clearfilm(look, chance, least=70, most=110):
    light = chance.uniform(160, 220)
    look.ground, look.ink, look.lit = (light,) * 3, (light - chance.uniform(least, most),) * 3, seen_through


# ---- round and bent things

def around(least, most):
    """Rolls ink around a cylinder of so many degrees each way."""
    def rolled(ink, chance):
        high, wide = ink.shape
        reach, away = math.radians(chance.uniform(least, most)), chance.uniform(4, 12)
        tilt, quarter = chance.uniform(-0.3, 0.3), chance.randint(0, 1)
        turned = numpy.rot90(ink) if quarter else ink
        sine = numpy.linspace(-1, 1, turned.shape[1]) * math.sin(reach)
        angle = numpy.arcsin(sine)
        near = (away - numpy.cos(angle)) / (away - 1)
        columns = (angle / reach + 1) / 2 * (turned.shape[1] - 1)
        middle = (turned.shape[0] - 1) / 2
        down = (numpy.arange(turned.shape[0]) - middle)[:, None] * near
        down = down + middle + tilt * (numpy.cos(angle) - math.cos(reach)) * middle
        columns = numpy.broadcast_to(columns, down.shape)
        shown = cv2.remap(numpy.ascontiguousarray(turned), columns.astype(numpy.float32), down.astype(numpy.float32),
                          cv2.INTER_LINEAR, borderMode=cv2.BORDER_CONSTANT)
        return numpy.ascontiguousarray(numpy.rot90(shown, -1) if quarter else shown)
    return rolled


def streaked(picture, look, chance, _):
    """A highlight along the glass, and shade at its rims."""
    at = numpy.linspace(-1, 1, picture.shape[1])
    place, wide = chance.uniform(-0.5, 0.5), chance.uniform(0.02, 0.08)
    light = 1 - chance.uniform(0.3, 0.6) * at ** 2
    return picture * light[None, :, None] + (chance.uniform(60, 160) * numpy.exp(-((at - place) / wide) ** 2))[None, :,
                                                                                                               None]


def vial(look, chance, least=35, most=52):
    look.rolled, look.lit, look.pixels = around(least, most), streaked, chance.choice((3, 4, 5))
    look.behind = (chance.uniform(60, 200),) * 3


def bottle(look, chance, least=22, most=42):
    look.rolled, look.lit = around(least, most), streaked
    look.behind = (chance.uniform(20, 120),) * 3


def crumpled(picture, look, chance, noises, least=0.4, most=1.1, dark=(0.1, 0.3), waves=0.1):
    """Paper that is bent by `least` to `most` of a module, in folds that are darker by such a share."""
    high, wide = picture.shape[:2]
    reach, depth = chance.uniform(6, 14) * look.pixels, chance.uniform(least, most) * look.pixels
    right, down = (depth * soft(noises, high, wide, reach) for _ in range(2))
    sharp = numpy.abs(soft(noises, high, wide, reach))
    shade = 1 - chance.uniform(*dark) * numpy.exp(-(sharp / 0.15) ** 2) + waves * soft(noises, high, wide, reach)
    return taken(picture, right, down).reshape(picture.shape) * shade[:, :, None]


def crumple(look, _):
    look.lit = crumpled


# ---- how it is printed

def by_heat(grid, pixels, chance):
    """Printed by heat, along rows: elements that are dead or weak leave lines, and ink is thicker one way."""
    ink = numpy.kron(grid, numpy.ones((pixels, pixels))).astype(numpy.float32)
    for _ in range(chance.randint(1, max(1, len(grid) // 6))):
        at, thick = chance.randrange(ink.shape[1]), max(1, round(chance.uniform(0.1, 0.45) * pixels))
        ink[:, at:at + thick] *= chance.uniform(0, 0.4)
    thick = max(1, round(chance.uniform(0, 0.35) * pixels))
    return cv2.dilate(ink, numpy.ones((thick, 1)))


def faded(picture, look, chance, noises, left=0.7, least=0.25):
    """Ink of which about so much is left, and the least where it is faintest."""
    high, wide = picture.shape[:2]
    fade = numpy.clip(left + 0.25 * soft(noises, high, wide, 8 * look.pixels), least, 1)[:, :, None]
    light = numpy.array(look.ground)[None, None, :picture.shape[2]]
    return light + (picture - light) * fade


def thermal(look, _):
    look.drawn, look.lit = by_heat, faded


def jetted(grid, pixels, chance):
    """Squirted onto fibres: drops that run, a little beside their places, in rows that shift."""
    high, wide = grid.shape
    ink = numpy.zeros((high * pixels, wide * pixels), numpy.float32)
    for y, x in zip(*numpy.nonzero(grid)):
        for drop in range(4):
            at = [round((place + 0.25 + 0.5 * (drop >> way & 1) + chance.gauss(0, 0.06)) * pixels * 16)
                  for way, place in enumerate((x, y))]
            cv2.circle(ink, at, round(chance.uniform(0.3, 0.42) * pixels * 16), chance.uniform(0.7, 1), -1,
                       cv2.LINE_AA, 4)
    return ink


def fluted(picture, look, chance, noises, waves=(4, 14), rough=(4, 10)):
    """Board that is wavy and fibrous by so many levels."""
    high, wide = picture.shape[:2]
    angle, period = chance.uniform(0, math.pi), chance.uniform(3, 9) * look.pixels
    down, right = numpy.mgrid[0:high, 0:wide]
    wave = numpy.sin(2 * math.pi * (math.cos(angle) * right + math.sin(angle) * down) / period)
    fibres = cv2.GaussianBlur(noises.normal(0, 1, (high, wide)), (0, 0), sigmaX=2 * look.pixels, sigmaY=0.8)
    return picture + (chance.uniform(*waves) * wave + chance.uniform(*rough) * fibres / fibres.std())[:, :, None]


def carton(look, chance, least=45, most=80):
    light = chance.uniform(110, 160)
    look.ground, look.ink = (light,) * 3, (light - chance.uniform(least, most),) * 3
    look.drawn, look.lit = jetted, fluted


def etched(picture, look, chance, noises):
    high, wide = picture.shape[:2]
    angle = chance.uniform(0, math.pi)
    down, right = numpy.mgrid[0:high, 0:wide] / max(high, wide) - 0.5
    slope = chance.uniform(20, 60) * (math.cos(angle) * right + math.sin(angle) * down)
    return picture + slope[:, :, None] + chance.uniform(0.5, 2) * soft(noises, high, wide, 6 * look.pixels)[:, :, None]


def wafer(look, chance, least=8, most=20):
    """Etched into a mirror: hardly any contrast, and little noise."""
    level, away = chance.uniform(70, 180), chance.uniform(least, most)
    look.ground, look.ink, look.lit = (level,) * 3, (level - away,) * 3, etched
    look.noise, look.dot = chance.uniform(0.5, 2), chance.choice((None, 0.85))


# ---- how it is taken

def scanned(picture, look, chance, noises):
    """By a scanner, with its threshold, or as a fax has it."""
    level = sum(look.ink) / 6 + sum(look.ground) / 6
    sharp = numpy.clip((picture - level) * chance.uniform(2, 6) + 128, 0, 255)
    return sharp + noises.normal(0, chance.uniform(0, 12), picture.shape[:2])[:, :, None]


def scan(look, chance):
    look.pixels, look.perspective, look.blur = chance.choice((2, 2.25, 2.5, 3)), 0, chance.uniform(0.15, 0.35)
    look.lit = None
    look.sensed = scanned


def wobbling(picture, look, chance, noises, least=0.3, most=1.2):
    """Row by row, while the camera moves and shakes by `least` to `most` modules."""
    high, _ = picture.shape[:2]
    row = numpy.arange(high)
    lean, waves = chance.uniform(-0.35, 0.35), chance.uniform(1, 3)
    wide = chance.uniform(least, most) * look.pixels
    shake = wide * numpy.sin(2 * math.pi * waves * row / high + chance.uniform(0, 6))
    right = (lean * (row - high / 2) + shake)[:, None] + 0 * picture[:, :, 0]
    return taken(picture, right, numpy.zeros_like(right)).reshape(picture.shape)


def rolling(look, _):
    look.lit = wobbling


def few_electrons(picture, look, chance, noises, least=8, most=30):
    """The picture by `least` to `most` electrons a pixel."""
    electrons = chance.uniform(least, most)
    shown = noises.poisson(numpy.clip(picture, 0, 255) / 255 * electrons) + noises.normal(0, 1, picture.shape)
    return shown / electrons * chance.uniform(60, 140)


def lowlight(look, chance, least=50, most=90):
    """A dark label on lighter ground, a few modules away, in little light."""
    look.noise, look.sensed = 0, few_electrons
    dark = chance.uniform(10, 30)
    look.ink, look.ground = (dark,) * 3, (dark + chance.uniform(least, most),) * 3
    look.behind = (chance.uniform(190, 250),) * 3


KINDS = {"film": film, "clearfilm": clearfilm, "vial": vial, "bottle": bottle, "crumple": crumple, "thermal": thermal,
         "carton": carton, "wafer": wafer, "scan": scan, "rolling": rolling, "lowlight": lowlight}
