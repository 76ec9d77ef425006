"""PNG files of every colour type and depth, interlaced or not, with or without a gamma, and by others."""
import os
import random
import shutil
import struct
import subprocess
import zlib

from tests.support import places

WIDTH, HEIGHT = 13, 11
GREY, COLOUR, PALETTE, GREY_AND_OPACITY, COLOUR_AND_OPACITY = 0, 2, 3, 4, 6
SAMPLES = {GREY: 1, COLOUR: 3, PALETTE: 1, GREY_AND_OPACITY: 2, COLOUR_AND_OPACITY: 4}
DEPTHS = {GREY: (1, 2, 4, 8, 16), COLOUR: (8, 16), PALETTE: (1, 2, 4, 8), GREY_AND_OPACITY: (8, 16),
          COLOUR_AND_OPACITY: (8, 16)}
# The first column and row of each pass of an interlaced picture, and how many follow after how many.
PASSES = ((0, 0, 8, 8), (4, 0, 8, 8), (0, 4, 4, 8), (2, 0, 4, 4), (0, 2, 2, 4), (1, 0, 2, 2), (0, 1, 1, 2))
GAMMAS = {"": b"", "linear": (b"gAMA", struct.pack(">I", 100000)), "screen": (b"gAMA", struct.pack(">I", 45455)),
          "sRGB": (b"sRGB", b"\0")}


def chunk(kind, content):
    return struct.pack(">I", len(content)) + kind + content + struct.pack(">I", zlib.crc32(kind + content))


def packed(row, depth):
    """A row's samples in as many bytes as they take."""
    bits = "".join(f"{sample:0{depth}b}" for sample in row)
    return int(bits.ljust((len(bits) + 7) // 8 * 8, "0"), 2).to_bytes((len(bits) + 7) // 8, "big")


def png(pixels, kind, depth, is_interlaced, extra):
    """A file of these pixels, each a list of samples, with further chunks before the data."""
    passes = PASSES if is_interlaced else ((0, 0, 1, 1),)
    data = b""
    for left, top, across, down in passes:
        for row in pixels[top::down]:
            part = [sample for pixel in row[left::across] for sample in pixel]
            data += b"\0" + packed(part, depth) if part else b""
    header = struct.pack(">IIBBBBB", len(pixels[0]), len(pixels), depth, kind, 0, 0, is_interlaced)
    return b"\x89PNG\r\n\x1a\n" + chunk(b"IHDR",
                                        header) + extra + chunk(b"IDAT", zlib.compress(data)) + chunk(b"IEND", b"")


def luminance(samples, most):
    """Of one to four samples up to `most`: grey, or red, green and blue, and then perhaps opacity; on white."""
    grey = samples[0] if len(samples) < 3 else 0.299 * samples[0] + 0.587 * samples[1] + 0.114 * samples[2]
    opacity = samples[-1] / most if len(samples) % 2 == 0 else 1
    return 255 * (grey / most * opacity + 1 - opacity)


def made(kind, depth, is_interlaced, gamma, is_clear, chance):
    """A picture of chance, and its luminance; `is_clear` makes one colour clear, or a palette in part."""
    most = 2 ** depth - 1
    pixels = [[[chance.randint(0, most) for _ in range(SAMPLES[kind])] for _ in range(WIDTH)] for _ in range(HEIGHT)]
    extra = chunk(*GAMMAS[gamma]) if gamma else b""
    flat = [pixel for row in pixels for pixel in row]
    if kind == PALETTE:
        colours, opacities = chance.randbytes(3 * 2 ** depth), chance.randbytes(2 ** depth)
        extra += chunk(b"PLTE", colours) + (chunk(b"tRNS", opacities) if is_clear else b"")
        seen = [luminance([*colours[3 * at:3 * at + 3], *opacities[at:at + 1][:is_clear]], 255) for at, in flat]
    else:
        clear = pixels[HEIGHT // 2][WIDTH // 2] if is_clear else None
        extra += chunk(b"tRNS", b"".join(struct.pack(">H", sample) for sample in clear)) if is_clear else b""
        seen = [255 if pixel == clear else luminance(pixel, most) for pixel in flat]
    return png(pixels, kind, depth, is_interlaced, extra), seen


def forms():
    for kind, depths in DEPTHS.items():
        for depth in depths:
            for is_interlaced in (0, 1):
                for is_clear in (False, True)[:1 if kind in (GREY_AND_OPACITY, COLOUR_AND_OPACITY) else 2]:
                    gamma = list(GAMMAS)[(depth + is_interlaced + is_clear + kind) % 4] if depth < 16 else None
                    for one in GAMMAS if gamma is None else (gamma,):
                        name = f"{kind}-{depth}-{'ni'[is_interlaced]}-{'oc'[is_clear]}-{one}"
                        yield name, (kind, depth, is_interlaced, one, is_clear)


def by_pillow(path):
    from PIL import Image  # Debian's python3-pil
    image = Image.open(path)
    if image.mode.startswith("I"):  # grey of sixteen bits
        return [sample / 257 for sample in image.getdata()]
    return [luminance(pixel, 255) for pixel in image.convert("RGBA").getdata()]


def by_netpbm(path):
    if not shutil.which("pngtopam"):
        return None
    done = subprocess.run(["pngtopam", "-alphapam", path], stdout=subprocess.PIPE, stderr=subprocess.DEVNULL)
    header, _, body = done.stdout.partition(b"ENDHDR\n")
    told = dict(line.split(None, 1) for line in header.decode().splitlines()[1:])
    depth, most = int(told["DEPTH"]), int(told["MAXVAL"])
    samples = [sample for sample, in struct.iter_unpack(">H" if most > 255 else "B", body)]
    return [luminance(samples[k:k + depth], most) for k in range(0, len(samples), depth)]


def luminances(folder):
    """Makes a file of each form; gives its path and the luminances, on white, put in it and seen by others or None."""
    for name, form in forms():
        kind, depth, *_, is_clear = form
        path = os.path.join(folder, f"form-{name}.png")
        text, seen = made(*form, random.Random(name))
        places.wrote(text, path)
        is_passed_over = is_clear and (kind, depth) not in ((PALETTE, depth), (GREY, 8), (COLOUR, 8))
        yield path, {"what was put in": seen, "Pillow": None if is_passed_over else by_pillow(path),
                     "netpbm": None if is_clear and kind == COLOUR else by_netpbm(path)}
