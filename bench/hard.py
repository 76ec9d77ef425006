"""The hard kinds of pictures that bench/photographs makes: what each changes in how a symbol is drawn and taken."""
import math

import cv2
import numpy

LETTERS = "ABCDEFGHIJKLMNOPQRSTUVWXYZ-/."
TORN = 0.1  # of the symbol's area


def inverted(look, _):
    look.ink, look.ground = look.ground, look.ink


# ---- light

def counted_light(picture, _, chance, noises):
    """The picture as few electrons show it."""
    electrons, gain = chance.uniform(4, 25), chance.uniform(40, 120)
    shown = noises.poisson(numpy.clip(picture, 0, 255) / 255 * electrons) + noises.normal(0, 1.5, picture.shape)
    picture = shown / electrons * gain
    picture[noises.rand(*picture.shape[:2]) < 0.0005] = 255
    return picture


def dim(look, chance):
    look.noise, look.sensed = 0, counted_light


def banded_light(picture, look, chance, _):
    depth, period = chance.uniform(0.4, 0.75), look.pixels * chance.uniform(4, 20)
    phase = chance.uniform(0, 2 * math.pi)
    wave = 0.5 + 0.5 * numpy.sin(2 * math.pi * numpy.arange(picture.shape[0]) / period + phase)
    return picture * (1 - depth * wave)[:, None, None]


def bands(look, _):
    look.sensed = banded_light


def shadowed_light(picture, _, chance, __):
    height, width = picture.shape[:2]
    angle, left = chance.uniform(0, 2 * math.pi), chance.uniform(0.25, 0.45)
    middle = numpy.array([height, width]).reshape(2, 1, 1) * chance.uniform(-0.6, -0.4)
    down, right = numpy.mgrid[0:height, 0:width] + middle
    away = math.cos(angle) * right + math.sin(angle) * down
    return picture * (left + (1 - left) * numpy.clip(away / chance.uniform(0.5, 3) + 0.5, 0, 1))[:, :, None]


def shadow(look, _):
    look.lit = shadowed_light


def glaring_light(picture, _, chance, __):
    height, width = picture.shape[:2]
    down, right = numpy.mgrid[0:height, 0:width]
    at, reach = [chance.uniform(0.3, 0.7) * length for length in (height, width)], chance.uniform(0.07, 0.16) * height
    spot = numpy.exp(-((down - at[0]) ** 2 + (right - at[1]) ** 2) / (2 * reach ** 2))
    return numpy.minimum(picture + chance.uniform(150, 500) * spot[:, :, None], 255)


def glare(look, _):
    look.lit = glaring_light


def brushed(picture, look, chance, noises, least=40, most=120):
    """Streaks along one direction, and a highlight across them, lighter by `least` to `most` levels."""
    height, width = picture.shape[:2]
    streaks = cv2.GaussianBlur(noises.normal(0, 1, (height, width)), (0, 0), sigmaX=8 * look.pixels,
                               sigmaY=0.3 * look.pixels)
    down = numpy.mgrid[0:height, 0:width][0] / height - chance.uniform(0.2, 0.8)
    highlight = chance.uniform(least, most) * numpy.exp(-(down / chance.uniform(0.05, 0.2)) ** 2)
    return picture + (chance.uniform(8, 25) * streaks / streaks.std() + highlight)[:, :, None]


def metal(look, chance):
    level = chance.uniform(100, 160)
    look.ground, look.ink, look.lit = (level,) * 3, (chance.uniform(20, level - 60),) * 3, brushed


# ---- how the mark is made

def peened(grid, pixels, chance, least=0.57, most=0.63):
    """Discs that don't touch, between `least` and `most` of a module wide, each a little beside its place, of which
    some are faint."""
    ink = numpy.zeros((grid.shape[0] * pixels, grid.shape[1] * pixels), numpy.float32)
    faint = chance.uniform(0.01, 0.05)
    for y, x in zip(*numpy.nonzero(grid)):
        at = [round((place + 0.5 + chance.gauss(0, 0.03)) * pixels * 16) for place in (x, y)]
        shade = chance.uniform(0.1, 0.35) if chance.random() < faint else 1.0
        cv2.circle(ink, at, round(chance.uniform(least, most) * pixels * 8), shade, -1, cv2.LINE_AA, 4)
    return ink


def dotted(look, _):
    look.drawn = peened


def specks(look, chance):
    wide = chance.uniform(0.28, 0.47)
    look.drawn = lambda grid, pixels, chance: peened(grid, pixels, chance, wide - 0.03, wide + 0.03)


def cratered(grid, pixels, chance):
    """Craters of 0.45 to 0.75 of a module, each a little beside its place, in light from one side: one half is dark and
    the other one as light as the ground, or somewhat lighter."""
    ink = numpy.zeros((grid.shape[0] * pixels, grid.shape[1] * pixels), numpy.float32)
    wide, turn, gleam = chance.uniform(0.45, 0.75), chance.uniform(0, 2 * math.pi), chance.uniform(-0.4, 0)
    down, right = numpy.mgrid[0:ink.shape[0], 0:ink.shape[1]] + 0.5
    for y, x in zip(*numpy.nonzero(grid)):
        at = [(place + 0.5 + chance.gauss(0, 0.04)) * pixels for place in (x, y)]
        rows, columns = (slice(max(place - 1, 0) * pixels, (place + 2) * pixels) for place in (y, x))
        across, along = right[rows, columns] - at[0], down[rows, columns] - at[1]
        radius = chance.uniform(0.93, 1.07) * wide * pixels / 2
        inside = numpy.clip(radius + 0.5 - numpy.hypot(across, along), 0, 1)
        slope = (math.cos(turn) * across + math.sin(turn) * along) / radius
        ink[rows, columns] += inside * numpy.clip(0.5 + 1.2 * slope, gleam, 1)
    return ink


def cratered_metal(look, chance):
    metal(look, chance)
    look.drawn = cratered


def neighbour(wide, high, pixels, chance):
    """The ink of a strip of so many modules that begins at a symbol's border: text, a line, bars, or another code."""
    strip = numpy.zeros((high * pixels, wide * pixels), numpy.float32)
    kind = chance.choice(("text", "line", "bars", "code"))
    gap = round(chance.choice((0, 0, 0.2)) * pixels)
    if kind == "line":
        strip[gap:gap + round(chance.uniform(0.4, 1.6) * pixels)] = 1
    elif kind == "text":
        text = "".join(chance.choice(LETTERS) for _ in range(4 * wide))
        scale = chance.uniform(1.8, high) * pixels / 22
        down = gap + cv2.getTextSize(text, cv2.FONT_HERSHEY_SIMPLEX, scale, 1)[0][1]
        cv2.putText(strip, text, (0, down), cv2.FONT_HERSHEY_SIMPLEX, scale, 1.0, max(1, round(0.35 * pixels)))
    elif kind == "bars":
        at = 0.0
        while at < wide:
            strip[gap:, round(at * pixels):round((at + chance.randint(1, 3) * 0.7) * pixels)] = 1
            at += chance.randint(2, 6) * 0.7
    else:
        modules = numpy.array([[chance.randint(0, 1) for _ in range(wide)] for _ in range(high)], numpy.float32)
        modules[0] = numpy.arange(wide) % 2
        strip[gap:] = numpy.kron(modules, numpy.ones((pixels, pixels), numpy.float32))[:strip.shape[0] - gap]
    return strip


def crowd(ink, quiet, pixels, chance):
    """Draws what touches a symbol, on two sides at least."""
    sides, turned = chance.sample(range(4), chance.randint(2, 4)), ink
    for k in range(4):
        if k in sides:
            wide = turned.shape[1] // pixels - 2 * quiet
            turned[-quiet * pixels:, quiet * pixels:-quiet * pixels] = neighbour(wide, quiet, pixels, chance)
        turned = numpy.rot90(turned)


def touching(look, _):
    look.around = crowd


def tear(over, quiet, pixels, chance):
    """Takes a corner off what is placed, by a ragged edge."""
    across = math.sqrt(2 * TORN) * chance.uniform(0.75, 1.35)
    down = 2 * TORN / across
    steps = numpy.linspace(0, 1, 12)
    at = [(1 - steps) * across, steps * down]
    edge = [[place + chance.gauss(0, 0.012) for place in places] for places in at]
    turned = numpy.rot90(over, -chance.randint(0, 3))
    edge = [[quiet * pixels + (count - 2 * quiet * pixels) * place for place in places]
            for count, places in zip(turned.shape[::-1], edge)]
    far = -3 * quiet * pixels
    points = [(edge[0][0], far), *zip(*edge), (far, edge[1][-1]), (far, far)]
    mask = numpy.ones(turned.shape, numpy.float32)
    cv2.fillPoly(mask, [numpy.array(points).round().astype(numpy.int32)], 0.0)
    turned *= mask


def torn(look, chance):
    look.torn, look.behind = tear, (chance.uniform(60, 230),) * 3


# ---- what it stands on, and how it is taken

def rolled(ink, chance):
    """The ink as it stands on a cylinder, whose middle is nearest, as seen from so many radii and somewhat from
    above."""
    high, wide = ink.shape
    reach, away, tilt = math.radians(chance.uniform(25, 40)), chance.uniform(5, 12), chance.uniform(-0.25, 0.25)
    angles = numpy.linspace(-1.25 * reach, 1.25 * reach, 400)
    nearness = (away - 1) / (away - numpy.cos(angles))
    shown = numpy.sin(angles) * nearness
    across = numpy.linspace(-1, 1, wide) * numpy.sin(reach) * (away - 1) / (away - math.cos(reach))
    angle = numpy.interp(across, shown, angles)
    near = (away - 1) / (away - numpy.cos(angle))
    height = reach * high / wide
    down = numpy.linspace(-1, 1, high)[:, None] * height
    up = (down / near[None, :] + tilt * (numpy.cos(angle) - math.cos(reach))[None, :]) / height
    right = numpy.broadcast_to(angle / reach, up.shape)
    maps = [((places + 1) / 2 * (count - 1)).astype(numpy.float32) for count, places in ((wide, right), (high, up))]
    return cv2.remap(ink, *maps, cv2.INTER_LINEAR, borderMode=cv2.BORDER_REPLICATE)


def cylinder(look, _):
    look.rolled = rolled


def smeared(picture, look, chance, _, least=1, most=3):
    """The picture as a camera takes it that moves along a bent path of `least` to `most` modules."""
    reach = chance.uniform(least, most) * look.pixels
    angle, bend = chance.uniform(0, 2 * math.pi), chance.uniform(-0.6, 0.6)
    size = 2 * math.ceil(reach) + 3
    kernel = numpy.zeros((size, size), numpy.float32)
    for step in numpy.linspace(0, 1, 400):
        turn = angle + bend * (step - 0.5)
        at = numpy.array([math.cos(turn), math.sin(turn)]) * reach * (step - 0.5) + size / 2
        kernel[int(at[1]), int(at[0])] += 1
    return cv2.filter2D(picture.astype(numpy.float32), -1, kernel / kernel.sum(), borderType=cv2.BORDER_REPLICATE)


def motion(look, _):
    look.lit, look.blur = smeared, 0


def unfocused(picture, look, chance, _, least=0.4, most=0.9):
    """The picture through a round lens that isn't focused: a disc of `least` to `most` of a module's radius."""
    radius = chance.uniform(least, most) * look.pixels
    reach = math.ceil(radius)
    down, right = numpy.mgrid[-reach:reach + 1:(2 * reach + 1) * 1j, -reach:reach + 1:(2 * reach + 1) * 1j]
    kernel = numpy.clip(radius + 0.5 - numpy.hypot(down, right), 0, 1).astype(numpy.float32)
    return cv2.filter2D(picture.astype(numpy.float32), -1, kernel / kernel.sum(), borderType=cv2.BORDER_REPLICATE)


def defocus(look, _):
    look.lit, look.blur = unfocused, 0


KINDS = {"inverted": inverted, "dim": dim, "bands": bands, "shadow": shadow, "glare": glare, "metal": metal,
         "touching": touching, "dotted": dotted, "torn": torn, "cylinder": cylinder, "motion": motion,
         "defocus": defocus}
