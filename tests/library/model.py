"""What the tests know of Data Matrix (ISO/IEC 16022) by themselves: the sizes, the placement, the error correcting code
and some encodations, written from the standard and not from the library, which is compared with it."""
import functools
import operator
from collections import namedtuple

FNC1, PAD, LATCH_BASE_256, UPPER_SHIFT = 256, 129, 231, 235
NO_MODULE, BIT, BORDER_LIGHT, BORDER_DARK, FIXED_LIGHT, FIXED_DARK = range(6)

SQUARE, RECTANGLE, EXTENDED, ANY, ONE = range(5)

# Rows and columns of the symbol; of a region, without its border; regions down and across; data and check codewords;
# blocks. ISO/IEC 16022, and then what ISO/IEC 21471 adds.
STANDARD = """\
10 10 8 8 1 1 3 5 1
12 12 10 10 1 1 5 7 1
14 14 12 12 1 1 8 10 1
16 16 14 14 1 1 12 12 1
18 18 16 16 1 1 18 14 1
20 20 18 18 1 1 22 18 1
22 22 20 20 1 1 30 20 1
24 24 22 22 1 1 36 24 1
26 26 24 24 1 1 44 28 1
32 32 14 14 2 2 62 36 1
36 36 16 16 2 2 86 42 1
40 40 18 18 2 2 114 48 1
44 44 20 20 2 2 144 56 1
48 48 22 22 2 2 174 68 1
52 52 24 24 2 2 204 84 2
64 64 14 14 4 4 280 112 2
72 72 16 16 4 4 368 144 4
80 80 18 18 4 4 456 192 4
88 88 20 20 4 4 576 224 4
96 96 22 22 4 4 696 272 4
104 104 24 24 4 4 816 336 6
120 120 18 18 6 6 1050 408 6
132 132 20 20 6 6 1304 496 8
144 144 22 22 6 6 1558 620 10
8 18 6 16 1 1 5 7 1
8 32 6 14 1 2 10 11 1
12 26 10 24 1 1 16 14 1
12 36 10 16 1 2 22 18 1
16 36 14 16 1 2 32 24 1
16 48 14 22 1 2 49 28 1"""
EXTENSION = """\
8 48 6 22 1 2 18 15 1
8 64 6 14 1 4 24 18 1
8 80 6 18 1 4 32 22 1
8 96 6 22 1 4 38 28 1
8 120 6 18 1 6 49 32 1
8 144 6 22 1 6 63 36 1
12 64 10 14 1 4 43 27 1
12 88 10 20 1 4 64 36 1
16 64 14 14 1 4 62 36 1
20 36 18 16 1 2 44 28 1
20 44 18 20 1 2 56 34 1
20 64 18 14 1 4 84 42 1
22 48 20 22 1 2 72 38 1
24 48 22 22 1 2 80 41 1
24 64 22 14 1 4 108 46 1
26 40 24 18 1 2 70 38 1
26 48 24 22 1 2 90 42 1
26 64 24 14 1 4 118 50 1"""


class Size(namedtuple("Size", "rows columns region_rows region_columns down across mapping_rows mapping_columns data "
                              "check blocks limit extension")):
    """A row of the table of sizes, as the library has it."""

    @property
    def named(self):
        return self.rows, self.columns

    @property
    def is_square(self):
        return self.rows == self.columns

    @property
    def checks_of_a_block(self):
        return self.check // self.blocks

    def is_of(self, shape, named):
        """Whether a choice has this size."""
        if shape == ONE:
            return self.named == named
        return shape == ANY or self.is_square == (shape == SQUARE) and not (shape == RECTANGLE and self.extension)


def size_of(row, extension):
    rows, columns, high, wide, down, across, data, check, blocks = map(int, row.split())
    return Size(rows, columns, high, wide, down, across, high * down, wide * across, data, check, blocks,
                check // blocks // 2, extension)


SIZES = sorted([*(size_of(row, 0) for row in STANDARD.splitlines()),
                *(size_of(row, 1) for row in EXTENSION.splitlines())],
               key=lambda size: (size.rows * size.columns, size.columns))
SIZE_OF = {size.named: size for size in SIZES}


class Field:
    """The field of 256 elements with the polynomial 301, by logarithms, and check codewords over it."""
    power = [1]
    for _ in range(254):
        power.append(power[-1] << 1 if power[-1] < 128 else power[-1] << 1 ^ 301)
    log = {value: exponent for exponent, value in enumerate(power)}

    def times(self, a, b):
        return self.power[(self.log[a] + self.log[b]) % 255] if a and b else 0

    @functools.cache
    def multiples(self, count):
        """The generator polynomial for so many check codewords, times each element, as a number to base 256."""
        generator = [1]
        for root in self.power[1:count + 1]:
            shifted, scaled = generator + [0], [0] + [self.times(root, x) for x in generator]
            generator = [a ^ b for a, b in zip(shifted, scaled)]
        return [int.from_bytes([self.times(element, x) for x in generator[1:]], "big") for element in range(256)]

    @functools.cache
    def checks(self, data, count):
        """What remains of the data codewords, followed by as many zeros, when they are divided by the generator."""
        rest, highest, multiples = 0, 8 * (count - 1), self.multiples(count)
        for word in data:
            rest = (rest & (1 << highest) - 1) << 8 ^ multiples[rest >> highest ^ word]
        return list(rest.to_bytes(count, "big"))


FIELD = Field()


class Placement:
    """The standard's placement in a mapping matrix: cells[row][column] is a codeword, from 0, and a bit, from 1."""
    UTAH = [(-2, -2), (-2, -1), (-1, -2), (-1, -1), (-1, 0), (0, -2), (0, -1), (0, 0)]
    # The four special shapes, by rows and columns that count from the end if they are negative.
    CORNERS = [
        [(-1, 0), (-1, 1), (-1, 2), (0, -2), (0, -1), (1, -1), (2, -1), (3, -1)],
        [(-3, 0), (-2, 0), (-1, 0), (0, -4), (0, -3), (0, -2), (0, -1), (1, -1)],
        [(-3, 0), (-2, 0), (-1, 0), (0, -2), (0, -1), (1, -1), (2, -1), (3, -1)],
        [(-1, 0), (-1, -1), (0, -3), (0, -2), (0, -1), (1, -3), (1, -2), (1, -1)],
    ]

    def __init__(self, rows, columns):
        self.rows, self.columns, self.count = rows, columns, 0
        self.cells = [[None] * columns for _ in range(rows)]
        self.sweep()

    def put(self, shape, row, column):
        """Lays the next codeword in a shape; what falls out comes back on the other side, moved along."""
        for bit, (down, right) in enumerate(shape, 1):
            r, c = row + down, column + right
            if r < 0:
                r, c = r + self.rows, c + 4 - (self.rows + 4) % 8
            if c < 0:
                r, c = r + 4 - (self.columns + 4) % 8, c + self.columns
            if r >= self.rows:
                r -= self.rows
            self.cells[r][c] = self.count, bit
        self.count += 1

    def put_corner(self, shape):
        for bit, (r, c) in enumerate(shape, 1):
            self.cells[r][c] = self.count, bit
        self.count += 1

    def sweep(self):
        rows, columns, row, column = self.rows, self.columns, 4, 0
        while row < rows or column < columns:
            for shape, at, fits in zip(self.CORNERS, [(rows, 0), (rows - 2, 0), (rows - 2, 0), (rows + 4, 2)],
                                       [True, columns % 4 != 0, columns % 8 == 4, columns % 8 == 0]):
                if fits and (row, column) == at:
                    self.put_corner(shape)
            while row >= 0 and column < columns:
                if row < rows and column >= 0 and self.cells[row][column] is None:
                    self.put(self.UTAH, row, column)
                row, column = row - 2, column + 2
            row, column = row + 1, column + 3
            while row < rows and column >= 0:
                if row >= 0 and column < columns and self.cells[row][column] is None:
                    self.put(self.UTAH, row, column)
                row, column = row + 2, column - 2
            row, column = row + 3, column + 1


def border(size, row, column):
    """What a module of a border is, or None inside a region: dark on the left and below, else alternating."""
    r, c = row % (size.region_rows + 2), column % (size.region_columns + 2)
    last_row, last_column = size.region_rows + 1, size.region_columns + 1
    if 0 < r < last_row and 0 < c < last_column:
        return None
    dark = c == 0 or r == last_row or (r == 0 and c % 2 == 0) or (c == last_column and r % 2 == 1)
    return BORDER_DARK if dark else BORDER_LIGHT


def places_of(size):
    """Kind, codeword and bit of each module, row by row."""
    cells = Placement(size.mapping_rows, size.mapping_columns).cells
    found = []
    for row in range(size.rows):
        for column in range(size.columns):
            kind = border(size, row, column)
            r, c = row - 1 - 2 * (row // (size.region_rows + 2)), column - 1 - 2 * (column // (size.region_columns + 2))
            if kind is not None:
                found.append((kind, 0, 0))
            elif cells[r][c] is None:
                is_dark = r - size.mapping_rows == c - size.mapping_columns
                found.append((FIXED_DARK if is_dark else FIXED_LIGHT, 0, 0))
            else:
                found.append((BIT, *cells[r][c]))
    return found


PLACES = {size.named: places_of(size) for size in SIZES}


def codewords(size, data):
    """These data codewords with the check codewords of each block, in the order of the symbol, dealt one by one."""
    words = list(data) + [0] * size.check
    for b in range(size.blocks):
        first = size.data + (b - size.data) % size.blocks
        words[first::size.blocks] = FIELD.checks(tuple(data[b::size.blocks]), size.checks_of_a_block)
    return words


# The bits of each codeword, the highest first; and what makes digits of bits.
BITS = [bytes(map(int, f"{word:08b}")) for word in range(256)]
DIGITS = bytes.maketrans(b"\0\1", b"01")


@functools.cache
def bits_of(size):
    """Where the bits of all codewords stand, one after another."""
    places = sorted((word, bit, at) for at, (kind, word, bit) in enumerate(PLACES[size.named]) if kind == BIT)
    return [at for _, _, at in places]


@functools.cache
def sources(size):
    """Takes for each module its bit from those of all codewords, behind which stand a light one and a dark one."""
    fixed = {kind: 8 * (size.data + size.check) + (kind in (BORDER_DARK, FIXED_DARK)) for kind in range(FIXED_DARK + 1)}
    return operator.itemgetter(*(8 * word + bit - 1 if kind == BIT else fixed[kind]
                                 for kind, word, bit in PLACES[size.named]))


def modules_of(size, words):
    """The modules of a symbol that holds these codewords, row by row."""
    return list(sources(size)(b"".join(BITS[word] for word in words) + b"\0\1"))


def words_in(size, modules):
    """The codewords that the modules of a symbol hold."""
    bits = bytes(operator.itemgetter(*bits_of(size))(modules)).translate(DIGITS)
    return list(int(bits, 2).to_bytes(len(bits) // 8, "big"))


def padded(data, count):
    """Data codewords with pads behind them, of which all but the first are randomised by their place, from 1 on."""
    rest = [(PAD + 149 * place % 253 + 1 - 1) % 254 + 1 for place in range(len(data) + 2, count + 1)]
    return (list(data) + [PAD] + rest)[:count]


def randomised(value, place):
    """A Base 256 codeword at a place, which counts from 1."""
    return (value + 149 * place % 255 + 1) % 256


def triple(a, b, c):
    """The two codewords of three values of C40, Text or X12."""
    return list(divmod(1600 * a + 40 * b + c + 1, 256))


def ascii_words(items):
    """ASCII encodation: two digits in a codeword, an Upper Shift before a byte above 127."""
    words, at = [], 0
    while at < len(items):
        item = items[at]
        if 48 <= item <= 57 and at + 1 < len(items) and 48 <= items[at + 1] <= 57:
            words.append(130 + 10 * (item - 48) + items[at + 1] - 48)
            at += 1
        elif item == FNC1:
            words.append(232)
        elif item > 127:
            words += [UPPER_SHIFT, item - 127]
        else:
            words.append(item + 1)
        at += 1
    return words


def base_256_words(items):
    """One Base 256 segment from the first codeword on."""
    length = [len(items)] if len(items) < 250 else [249 + len(items) // 250, len(items) % 250]
    return [LATCH_BASE_256] + [randomised(value, place) for place, value in enumerate(length + list(items), 2)]
