"""Makes pictures of symbols without any other library, and runs the sampler on them."""
import functools
import importlib
import subprocess

from tests.support import package

PYTHON = "/usr/bin/python3"  # Debian's, which has Debian's numpy and OpenCV
CAREFUL = ["-fsanitize=address,undefined,float-cast-overflow", "-fno-sanitize-recover=all"]


def run(words, given=b"", **more):
    return subprocess.run(words, input=given, stdout=subprocess.PIPE, stderr=subprocess.PIPE, timeout=600, **more)


@functools.cache
def sizes():
    """Of each square to side 104: its side, its data codewords, and how many wrong ones each block corrects."""
    return [(size.rows, size.data_codewords, size.limit) for size in package.imported().sizes()
            if size.rows == size.columns <= 104]


def message_of(count):
    """A message of so many characters, each of which takes a codeword."""
    return "".join(chr(65 + k * k % 26) for k in range(count))


@functools.cache
def spelling():
    """Gives what spells messages in the package."""
    package.imported()
    return importlib.import_module("ecc200.spelling")


def grid_of(message):
    """The normal grid of a message, spelled as dm_tool spells it."""
    return [list(row) for row in package.imported().write(spelling().of_spelling(message, "iso-8859-1").items)]


def record(grid):
    return "".join("".join(map(str, row)) + "\n" for row in grid) + "\n"


def pixels_of(grid, scale=4, quiet=3, dark=20, light=230):
    """The rows of a picture, each a list of brightnesses."""
    empty = [[light] * (len(grid[0]) + 2 * quiet) for _ in range(quiet)]
    modules = empty + [[light] * quiet + [dark if module else light for module in row] + [light] * quiet
                       for row in grid] + empty
    lines = [[level for level in row for _ in range(scale)] for row in modules]
    return [line[:] for line in lines for _ in range(scale)]


def pgm(rows):
    return f"P5\n# made for a test\n{len(rows[0])} {len(rows)}\n255\n".encode() + b"".join(map(bytes, rows))


def turned(rows):
    return [list(row) for row in zip(*rows[::-1])]
