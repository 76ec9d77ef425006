"""Lines to write, and damage to the symbols made from them.

Nothing here is taken from the program: codewords and their places are computed independently, so that what the program
writes can be compared with them."""
import random

# A large symbol: four regions of 24 by 24 modules make a mapping square of 48 by 48, in which 204 data codewords and 84
# check codewords lie, dealt alternately into two blocks. In each block 21 wrong codewords can be corrected.
SIDE = 52
REGION = 24
MAPPING = 48
DATA = 204
CODEWORDS = 288
BLOCKS = 2
LIMIT = 21

# How the program refuses a symbol in which EDIFACT encodation was chosen, and a rectangular one, which zxing-cpp
# chooses at times.
LEFT_OUT = "\\no 8 left-out 240 ", "\\no 3 shape"

DIGITS = "0123456789"
LETTERS = "ABCDEFGHIJKLMNOPQRSTUVWXYZabcdefghijklmnopqrstuvwxyz"
MARKS = " -./:"


def lines_of(length, count):
    """Lines of letters, digits and punctuation. No two digits are adjacent, so each character takes one codeword."""
    chance = random.Random(length)
    lines = []
    for _ in range(count):
        line = ""
        while len(line) < length:
            line += chance.choice(LETTERS + MARKS if line[-1:].isdigit() else LETTERS + MARKS + DIGITS)
        lines.append(line)
    return lines


def short_lines(count):
    """Lines like serial numbers, ten letters and digits, which take six to eight codewords: a symbol of side 14."""
    chance = random.Random(14)
    lines = []
    while len(lines) < count:
        line = "".join(chance.choice(LETTERS[:26] + DIGITS * 3) for _ in range(10))
        if 6 <= len(ascii_codewords(line)) <= 8:
            lines.append(line)
    return lines


def ascii_codewords(line):
    """The codewords of a line of printable characters in ASCII encodation: two adjacent digits make one codeword."""
    codewords = []
    at = 0
    while at < len(line):
        pair = line[at:at + 2]
        if len(pair) == 2 and pair[0] in DIGITS and pair[1] in DIGITS:
            codewords.append(130 + int(pair))
            at += 2
        else:
            codewords.append(ord(line[at]) + 1)
            at += 1
    return codewords


def padded(codewords):
    """The codewords, followed by pads up to the data codewords of the symbol of side 52."""
    codewords = list(codewords)
    if len(codewords) < DATA:
        codewords.append(129)
    while len(codewords) < DATA:
        pad = 129 + 149 * (len(codewords) + 1) % 253 + 1
        codewords.append(pad if pad <= 254 else pad - 254)
    return codewords


def places():
    """For each codeword of the symbol of side 52 the cells of its bits, the highest first, as pairs of row and column.

    At this size there is no corner shape. The last cells of the shapes are those with (5 row + column) mod 8 = 4, taken
    by diagonals upwards and downwards in turn; what leaves the square at one edge comes in at the opposite one."""
    lasts = [(row, column) for row in range(MAPPING) for column in range(MAPPING) if (5 * row + column) % 8 == 4]
    lasts.sort(key=lambda cell: (sum(cell), cell[1] if cell[0] % 2 == 0 else cell[0]))
    shape = [(-2, -2), (-2, -1), (-1, -2), (-1, -1), (-1, 0), (0, -2), (0, -1), (0, 0)]
    return [[symbol_cell(row + down, column + right) for down, right in shape] for row, column in lasts]


def symbol_cell(row, column):
    """Where a cell of the mapping square lies in the symbol, between the borders of the regions."""
    row, column = row % MAPPING, column % MAPPING
    return row + 2 * (row // REGION) + 1, column + 2 * (column // REGION) + 1


PLACES = places()


def data_of(grid):
    """The data codewords of a grid, given as its rows; none if it has another side."""
    if [len(row) for row in grid] != [SIDE] * SIDE:
        return []
    return [int("".join(grid[row][column] for row, column in cells), 2) for cells in PLACES[:DATA]]


def damaged(grid, chance):
    """The grid with as many wrong codewords in each block as can be corrected, each changed in some of its bits."""
    rows = [list(row) for row in grid]
    for block in range(BLOCKS):
        for word in chance.sample(range(block, CODEWORDS, BLOCKS), LIMIT):
            change = chance.randrange(1, 256)
            for bit, (row, column) in enumerate(PLACES[word]):
                if change >> (7 - bit) & 1:
                    rows[row][column] = "1" if rows[row][column] == "0" else "0"
    return ["".join(row) for row in rows]


def grids_of(text):
    """The grids of a text, each as its rows."""
    return [record.split("\n") for record in text.split("\n\n") if record]


def text_of(grids):
    """The text of grids: a line for each row, and an empty line after each grid."""
    return "".join("\n".join(rows) + "\n\n" for rows in grids)
