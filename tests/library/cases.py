"""Requests to the library, each with the answer that is wanted: what model.py knows by itself, or what was worked out
by hand. answers.c, answers.rs and answers.py answer them by the callers, a line for each."""
import functools

from tests.library.contents import USUAL, WIDE, content_of, content_words, said_by, symbol_of
from tests.library.model import (ANY, DIGITS, EXTENDED, FIELD, FNC1, ONE, PLACES, RECTANGLE, SIZES, SIZE_OF, SQUARE,
                                 UPPER_SHIFT, ascii_words, base_256_words, bits_of, codewords, modules_of, padded,
                                 randomised, triple, words_in)

SMALLEST = 2  # a form that is no profile
LARGEST = SIZES[-1]
MOST_DATA, MOST_CODEWORDS, MOST_MODULES = LARGEST.data, LARGEST.data + LARGEST.check, LARGEST.rows * LARGEST.columns
WORDS = {
    0: "no fault", 3: "the modules aren't as many as the rows times the columns",
    4: "no size has these rows and columns", 5: "too many border modules have the wrong colour",
    6: "a block is damaged beyond correction", 7: "a reserved codeword",
    8: "an encodation or function that isn't supported", 9: "an Upper Shift that no character follows",
    10: "a pair of codewords that doesn't stand for three values", 11: "a value that has no meaning after a shift",
    12: "a wrong Base 256 length", 13: "the run or the symbol ends before the character of an Upper Shift",
    14: "the message is too long for any size that may be taken", 15: "an item above 256", 16: "no such profile",
    17: "no such extent", 18: "no such shape", 19: "the doubtful modules aren't as many as the modules",
    20: "an ECI without the designator of a number", 21: "a structured append that is no part of a file",
    22: "a mark out of order, behind the items, or with a number above 999999", 23: "no such head",
    24: "no such border limit",
}


class Symbol(list):
    """The modules of a symbol, row by row, with its rows and columns."""

    def __init__(self, modules, named):
        super().__init__(modules)
        self.named = named

    @property
    def size(self):
        return SIZE_OF[self.named]

    def changed(self, at):
        """The same with the modules at these places turned over."""
        modules = list(self)
        for place in at:
            modules[place] ^= 1
        return Symbol(modules, self.named)


text_of = functools.cache(str)  # for which each number is written once


def numbers(some):
    return ",".join(map(text_of, some)) or "-"


def hexadecimal(some):
    return bytes(some).hex() or "-"


def shown(grid, named, doubt):
    rows, columns = named or grid.named
    return f"{rows} {columns} {hexadecimal(grid)} {hexadecimal(doubt)}"


# Border limits by their kinds, with a number that is of no account.
USUAL_LIMIT, SURE_LIMIT, ANY_LIMIT, GIVEN_LIMIT = (0, 9), (1, 65535), (2, 0), 3


def limited(limit):
    """A border limit as its kind and its number."""
    kind, number = (GIVEN_LIMIT, limit) if isinstance(limit, int) else limit
    return f"{kind}:{number}"


def read(grid, limit=ANY_LIMIT, extent=USUAL, named=None, doubt=()):
    return f"read {extent} {limited(limit)} {shown(grid, named, doubt)}"


def normal(grid, profile, limit=ANY_LIMIT, extent=USUAL, named=None, doubt=()):
    return f"normal {extent} {profile} {limited(limit)} {shown(grid, named, doubt)}"


def inspect(grid, named=None, doubt=()):
    return f"inspect {shown(grid, named, doubt)}"


def heading(head):
    """A head as its kind and its numbers; five numbers are taken as they are."""
    if head is None or head == "programming":
        return "2:0:0:0:0" if head else "0:0:0:0:0"
    return ":".join(map(str, head if len(head) == 5 else (1, *head)))


def marking(marks):
    return ",".join(f"{number}@{place}" for number, place in marks) or "-"


def how(form, shape, named, extent, head):
    return f"{form} {shape} {named[0]} {named[1]} {extent} {heading(head)}"


def write(said, form=0, shape=SQUARE, named=(0, 0), extent=USUAL):
    said = content_of(said)
    return f"write {how(form, shape, named, extent, said.head)} {marking(said.marks)} {numbers(said.items)}"


def write_bytes(items, form=0, shape=SQUARE, named=(0, 0), extent=USUAL, head=None):
    return f"write_bytes {how(form, shape, named, extent, head)} {hexadecimal(items)}"


def no(code, value=0, place=0):
    return f"no {code} {value} {place}"


def counted(size, corrected, erased=None):
    """The three counts for each block."""
    erased = erased or [0] * size.blocks
    left = [0 if bad == "beyond" else size.checks_of_a_block - 2 * bad - lost for bad, lost in zip(corrected, erased)]
    return f"corrected {numbers(corrected)} erased {numbers(erased)} left {numbers(left)}"


def saying(said):
    said = content_of(said)
    return f"items {numbers(said.items)} marks {marking(said.marks)} head {heading(said.head)}"


def reading(named, said, corrected=None, border=0, erased=None, identifier=None, dealing=0):
    """The answer to a reading; the identifier is that of the normal form, unless it's given."""
    size = SIZE_OF[named]
    counts = counted(size, corrected or [0] * size.blocks, erased)
    known = identifier or said_by(content_words(content_of(said)))[1]
    return (f"rows {named[0]} columns {named[1]} border {border} blocks {size.blocks} {counts} {saying(said)} "
            f"identifier {known} dealing {dealing}")


def symbol(said, profile=0, shape=SQUARE, named=(0, 0)):
    """The answer that has the symbol of these items, or of this content."""
    made = symbol_of(said, profile, shape, named)
    if not made:
        return no(14)
    return f"rows {made[0].rows} columns {made[0].columns} modules {bytes(made[1]).translate(DIGITS).decode()}"


def inspection(named, held, mended, corrected=None, border=0, erased=None, designators=()):
    size = SIZE_OF[named]
    head = f"rows {named[0]} columns {named[1]} border {border} blocks {size.blocks}"
    counts = counted(size, corrected or [0] * size.blocks, erased)
    return f"{head} {counts} held {numbers(held)} mended {numbers(mended)} designators {marking(designators)}"


def grid_of(named, *data):
    """A symbol with these data codewords, and pads behind them."""
    size = SIZE_OF[named]
    return Symbol(modules_of(size, codewords(size, padded(data, size.data))), named)


def words_of(size, block, count, first=0):
    return range(block, size.data + size.check, size.blocks)[first:first + count]


def modules_at(named, words, bits):
    """Where these bits of codewords stand."""
    places = bits_of(SIZE_OF[named])
    return [places[8 * word + bit - 1] for word in words for bit in bits]


def hurt(grid, block, count, first=0):
    """The same symbol with so many codewords of a block changed, each in two of its modules."""
    return grid.changed(modules_at(grid.named, words_of(grid.size, block, count, first), (1, 6)))


def doubt_of(grid, words):
    """Doubtful modules: one of each of these codewords."""
    marked = set(modules_at(grid.named, words, (3,)))
    return [int(i in marked) for i in range(len(grid))]


def held_by(grid):
    return words_in(grid.size, grid)


@functools.cache
def border_of(named):
    """The modules of the border, from the end."""
    return [i for i, (kind, _, _) in enumerate(PLACES[named]) if kind in (2, 3)][::-1]


def with_bad_border(grid, count):
    """The same symbol with so many modules of the border turned over, from the end."""
    return grid.changed(border_of(grid.named)[:count])


# ---- Each fault, with its number and its place

TEN, TWELVE = (10, 10), (12, 12)
# Data codewords of a symbol of side 12 that are refused, in both extents, and how.
REFUSED = [
    ((0, 66, 66, 66, 66), 7, 0, 1), ((66, 250, 129, 66, 66), 7, 0, 2), ((66, 66, 66, 66, 255), 7, 0, 5),
    ((66, 242, 66, 66, 66), 7, 0, 2), ((66, 233, 66, 66, 66), 8, 233, 2), ((66, 234, 66, 66, 66), 8, 234, 2),
    ((66, 66, 236, 66, 66), 8, 236, 3), ((66, 66, 66, 237, 66), 8, 237, 4),
    ((66, UPPER_SHIFT, UPPER_SHIFT, 66, 66), 9, 0, 2), ((66, 66, 66, UPPER_SHIFT, 129), 9, 0, 4),
    ((230, 0, 0, 66, 66), 10, 0, 2), ((66, 66, 239, 255, 255), 10, 0, 4), ((230, *triple(1, 39, 0), 66, 66), 11, 0, 2),
    ((239, *triple(4, 4, 4), *triple(1, 33, 0)), 11, 0, 4), ((231, randomised(60, 2), 1, 2, 3), 12, 0, 1),
    ((66, 66, 66, 66, 231), 12, 0, 5), ((66, 66, 66, 66, UPPER_SHIFT), 13, 0, 5),
]
# The same in the usual extent; the wide one reads them as these items.
WIDENED = [
    ((240, 0b01000000, 0b00100000, 0b11011111, 129), 8, 240, 1, b"PBC"),
    ((236, 66, 129, 56, 206), 8, 236, 1, b"[)>\x1e05\x1dA\x1e\x04"),
    ((237, 66, 67, 129, 206), 8, 237, 1, b"[)>\x1e06\x1dAB\x1e\x04"),
    ((230, *triple(14, 1, 30), 254, 66), 13, 0, 2, b"AA"),
]
# Rows and columns that no size has.
NO_SIZES = [(0, 0), (0, 10), (10, 0), (1, 1), (9, 9), (11, 11), (28, 28), (10, 18), (8, 20), (8, 152), (12, 48),
            (16, 16 * 48), (26, 36), (143, 143), (145, 145), (146, 146), (65535, 65535), (8, 65535),
            *((it.columns, it.rows) for it in SIZES if it.rows < it.columns)]


def calls_with_modules():
    """Reading, normalising and inspecting, as functions of modules."""
    yield read
    yield lambda grid, extent=USUAL, **more: normal(grid, 1, extent=extent, **more)
    yield lambda grid, extent=USUAL, limit=None, **more: inspect(grid, **more)


def faults():
    """Each code is met, with the number and the place that belong to it."""
    light, good = Symbol([0] * 100, TEN), grid_of(TEN, 142, 164, 186)
    for extent in (USUAL, WIDE):
        for data, code, value, place in REFUSED:
            yield read(grid_of(TWELVE, *data), extent=extent), no(code, value, place)
            yield normal(grid_of(TWELVE, *data), 0, extent=extent), no(code, value, place)
        for call in calls_with_modules():
            yield call(good[1:], extent=extent, named=TEN), no(3)
            yield call(good, extent=extent, named=TWELVE), no(3)
            yield call(good, extent=extent, named=(100, 0)), no(3)
            yield call([], extent=extent, named=(65535, 65535)), no(3)
            yield call(good, extent=extent, named=(5, 20)), no(4, 5, 20)
            yield call(good, extent=extent, named=(100, 1)), no(4, 100, 1)
            yield call([], extent=extent, named=(0, 0)), no(4, 0, 0)
            yield call([], extent=extent, named=(0, 65535)), no(4, 0, 65535)
            yield call([], extent=extent, named=(65535, 0)), no(4, 65535, 0)
            yield call([1], extent=extent, named=(1, 1)), no(4, 1, 1)
            for count in (1, 99, 101, 200):
                yield call(good, extent=extent, doubt=[0] * count), no(19)
            yield call([0] * 144, extent=extent, named=TEN, doubt=[0] * 100), no(3)
            yield call([0] * 50, extent=extent, named=(5, 10), doubt=[0] * 49), no(4, 5, 10)
            yield call([0] * 50, extent=extent, named=(5, 10), doubt=[0] * 50), no(4, 5, 10)
        for call in (read, lambda *given, **more: normal(*given, 1, **more)):
            yield call(light, limit=26, extent=extent), no(5, 27)
            yield call(hurt(good, 0, 5), extent=extent), no(6, 0, 0)
        for limit in (27, 65535, SURE_LIMIT, ANY_LIMIT):
            yield read(light, limit, extent), no(7, 0, 1)
        for kind in (4, 5, 65535):
            yield read([], (kind, 2), extent, named=(11, 11)), no(24, kind)
            yield normal(good, 2, (kind, 0), extent), no(24, kind)
        yield normal(good, 2, extent=extent), no(16, 2)
        yield normal([], 65535, extent=extent, named=(7, 7)), no(16, 65535)
    yield write([65], 3), no(16, 3)
    yield write([999], 65535), no(16, 65535)
    yield write([999], 3, 9), no(16, 3)
    yield write([999], 0, 5), no(18, 5)
    yield write([999], 1, 65535), no(18, 65535)
    yield write_bytes(b"A", 0, 5), no(18, 5)
    yield write([65, 257, 999]), no(15, 257, 1)
    yield write([65535], 1), no(15, 65535, 0)
    yield write([300], 0, ONE, (9, 9)), no(15, 300, 0)
    yield write([55] * 2 * MOST_DATA + [300]), no(15, 300, 2 * MOST_DATA)
    yield write([55] * 65534 + [300]), no(15, 300, 65534)
    yield write([55] * 65536 + [300]), no(15, 300, 65535)
    for count in (2 * MOST_DATA + 1, 2 * MOST_DATA + 8, 70_000):
        for shape in (SQUARE, RECTANGLE, EXTENDED, ANY):
            yield write([55] * count, 0, shape), no(14)
    for named in NO_SIZES:
        yield f"places {named[0]} {named[1]}", no(4, *named)
        yield write([65], 0, ONE, named), no(14)
        if named[0] * named[1] < 30_000:
            yield inspect([0] * (named[0] * named[1]), named), no(4, *named)
            yield read([0] * (named[0] * named[1]), named=named), no(4, *named)


def wide():
    """What only the wide extent reads, and an extent that doesn't exist."""
    for data, code, value, place, items in WIDENED:
        grid = grid_of(TWELVE, *data)
        yield read(grid, extent=USUAL), no(code, value, place)
        yield normal(grid, 0, extent=USUAL), no(code, value, place)
        yield read(grid, extent=WIDE), reading(TWELVE, items)
        yield normal(grid, 0, extent=WIDE), symbol(items)
        yield normal(grid, 1, extent=WIDE), symbol(items, 1)
    for extent in (2, 65535):
        yield read([], (9, 0), extent, named=(11, 11)), no(17, extent)
        yield normal([], 2, extent=extent, named=(11, 11)), no(17, extent)
        yield normal(grid_of(TEN, 142), 0, extent=extent), no(17, extent)
    yield normal([], 2, extent=WIDE, named=(11, 11)), no(16, 2)
    digits = [55] * (2 * MOST_DATA - 2)
    longest = grid_of(LARGEST.named, 236, *ascii_words(digits))
    yield read(longest, extent=WIDE), reading(LARGEST.named, [*b"[)>\x1e05\x1d", *digits, 30, 4])
    yield normal(longest, 0, extent=WIDE), no(14)


# ---- What symbols say

MESSAGES = [
    (b"", 0), (b"123456", 0), (b"A", 0), ([FNC1, *b"0112345678901231"], 0), ([*b"AB", FNC1, *b"CD"], 0),
    ([*b"AB", FNC1], 0), ([FNC1], 0), ([FNC1, FNC1, *b"10AB", FNC1, *b"\x1d21"], 0), (b"\x1d\x1e\x00\x7f\x80\xff", 0),
    (b"\x80" * 3, 1), (b"\x80" * 2, 1), ([FNC1] + [128] * 4, 1), (b"\xff" * 250, 1), (b"\xff" * 249, 1),
    (b"\xff" * (MOST_DATA - 3), 1), (b"\xff" * (MOST_DATA - 2), 1), (b"\xff" * (MOST_DATA - 3), 0),
    (b"7" * (2 * MOST_DATA), 0), (b"7" * (2 * MOST_DATA - 1), 1), (b"A" * MOST_DATA, 0), (b"A" * (MOST_DATA + 1), 0),
    (bytes(range(256)), 0), (bytes(range(256)), 1), (b"Mitsubadoor", 0), (b"Mitsubadoor", 1),
]


def messages():
    """Messages under both profiles, in the smallest of each shape, and what their symbols say."""
    for items, profile in MESSAGES:
        for other in sorted({profile, 0, 1}):
            for shape in (SQUARE, RECTANGLE, EXTENDED, ANY):
                yield write(items, other, shape), symbol(items, other, shape)
                if FNC1 not in list(items):
                    yield write_bytes(items, other, shape, (9, 9)), symbol(items, other, shape)
        for shape in (SQUARE, EXTENDED):
            made = symbol_of(items, profile, shape)
            if made is None:
                continue
            grid = Symbol(made[1], made[0].named)
            for extent in (USUAL, WIDE):
                yield read(grid, 0, extent), reading(grid.named, items)
                for other in (0, 1):
                    yield normal(grid, other, 0, extent), symbol(items, other)
    for extent in (USUAL, WIDE):
        other_way = grid_of((26, 26), *base_256_words(b"123456"), 232, 66)
        yield read(other_way, extent=extent), reading((26, 26), [*b"123456", FNC1, 65])
        yield normal(other_way, 1, extent=extent), symbol([*b"123456", FNC1, 65], 1)
        c40 = grid_of((8, 32), 230, *triple(14, 15, 16), *triple(0, 30, 1), *triple(27, 3, 4), 254)
        yield read(c40, extent=extent), reading((8, 32), [65, 66, 67, 30, FNC1, 32, 48])
    yield write_bytes(b"A", 3), no(16, 3)
    yield write_bytes(b"A" * (MOST_DATA + 1)), no(14)
    yield write_bytes(b"7" * 70_000, 1), no(14)


def choices():
    """The smallest symbol of each shape at each length where another size begins; and each size by itself."""
    for shape in (SQUARE, RECTANGLE, EXTENDED, ANY):
        for length in sorted({size.data + more for size in SIZES for more in (0, 1)}):
            items = [65 + k % 26 for k in range(length)]
            yield write(items, 0, shape), symbol(items, 0, shape)
    for size in SIZES:
        for length in (0, 1, size.data - 1, size.data, size.data + 1):
            items = [65 + k % 26 for k in range(length)]
            yield write(items, 0, ONE, size.named), symbol(items, 0, ONE, size.named)
        for profile in (0, 1):
            items = [200] * (size.data - 2)
            yield write(items, profile, ONE, size.named), symbol(items, profile, ONE, size.named)
            yield write_bytes(items, profile, ONE, size.named), symbol(items, profile, ONE, size.named)


def sizes():
    """For each size: its row, its places, a symbol at the limits of its border and its blocks, and one beyond each."""
    yield "sizes", " | ".join(" ".join(map(str, size)) for size in SIZES)
    for i, size in enumerate(SIZES):
        items, extent, named = [65 + (i + k) % 26 for k in range(size.data)], i % 2, size.named
        grid = grid_of(named, *ascii_words(items))
        words = held_by(grid)
        places = " ".join(",".join(map(str, at)) for at in PLACES[named])
        yield f"places {named[0]} {named[1]}", f"rows {named[0]} columns {named[1]} {places}"
        yield read(grid, 0, extent), reading(named, items)
        yield inspect(grid), inspection(named, words, words)
        usual = sum(named) // 8
        for wrong in (1, usual, usual + 1):
            bad = with_bad_border(grid, wrong)
            told = reading(named, items, None, wrong)
            for limit in (usual, USUAL_LIMIT):
                yield read(bad, limit, extent), told if wrong <= usual else no(5, wrong)
                yield normal(bad, 0, limit, extent), symbol(items) if wrong <= usual else no(5, wrong)
            for limit in (65535, ANY_LIMIT, SURE_LIMIT):
                yield read(bad, limit, extent), told
            yield normal(bad, 0, SURE_LIMIT, extent), symbol(items)
        yield from sure(grid, items, usual, extent)
        yield read(with_bad_border(grid, 1), 0, extent), no(5, 1)
        yield normal(with_bad_border(grid, 2), 1, 1, extent), no(5, 2)
        yield from damage(grid, items, [(size.limit + b) % (size.limit + 1) for b in range(size.blocks)], extent)
        yield from damage(grid, items, [size.limit] * size.blocks, extent)
        yield from doubt(grid, items, extent)


def sure(grid, items, usual, extent):
    """Any border is taken where each block leaves a correction unused, and else the usual one; here in the last block
    one is left, as two check codewords, and then one check codeword, or none, of damage that is known, or isn't."""
    size, named, block = grid.size, grid.named, grid.size.blocks - 1
    checks, whole = size.checks_of_a_block, len(border_of(named))
    for erased, changed, is_sure in ((checks - 2, 0, True), (checks - 1, 0, False), (checks, 0, False), (0, 0, True),
                                     (0, size.limit - 1, True), (0, size.limit, False)):
        bad = hurt(grid, block, erased + changed)
        marks = doubt_of(grid, words_of(size, block, erased)) if erased else ()
        lost, spent = ([count if b == block else 0 for b in range(size.blocks)] for count in (erased, changed))
        for wrong in (usual, usual + 1, whole):
            worse = with_bad_border(bad, wrong)
            taken = is_sure or wrong <= usual
            told = reading(named, items, spent, wrong, lost) if taken else no(5, wrong)
            yield read(worse, SURE_LIMIT, extent, doubt=marks), told
            yield normal(worse, 0, SURE_LIMIT, extent, doubt=marks), symbol(items) if taken else no(5, wrong)
    worse = with_bad_border(hurt(grid, block, max(5, size.limit + 2)), usual + 1)
    yield read(worse, SURE_LIMIT, extent), no(5, usual + 1)
    yield read(worse, ANY_LIMIT, extent), no(6, 0, block)


def damage(grid, items, counts, extent):
    """So many wrong codewords in each block; then also more than can be corrected in the last one, and in the first."""
    size, named, words, bad = grid.size, grid.named, held_by(grid), grid
    for block, count in enumerate(counts):
        bad = hurt(bad, block, count)
    yield read(bad, 0, extent), reading(named, items, counts)
    yield normal(bad, 1, 0, extent), symbol(items, 1)
    yield inspect(bad), inspection(named, held_by(bad), words, counts)
    for block in {size.blocks - 1, 0}:
        # With so many wrong codewords these blocks are near no codeword of the code, as an inspection shows.
        worse = with_bad_border(hurt(grid, block, max(5, size.limit + 2)), 3)
        held = held_by(worse)
        mended = [held[i] if i % size.blocks == block else word for i, word in enumerate(words)]
        known = ["beyond" if b == block else 0 for b in range(size.blocks)]
        yield inspect(worse), inspection(named, held, mended, known, 3)
        yield read(worse, 3, extent), no(6, 0, block)


def doubt(grid, items, extent):
    """As many erased and wrong codewords as a block's check codewords allow, in the last block; and one more erased."""
    size, named, words, block = grid.size, grid.named, held_by(grid), grid.size.blocks - 1
    checks = size.checks_of_a_block
    for erased, wrong in ((1, 0), (checks, 0), (checks - 2, 1), (checks % 2, checks // 2), (2, size.limit - 1)):
        bad = hurt(grid, block, erased + wrong)
        marks = doubt_of(grid, words_of(size, block, erased))
        lost, changed = ([count if b == block else 0 for b in range(size.blocks)] for count in (erased, wrong))
        yield read(bad, 0, extent, doubt=marks), reading(named, items, changed, 0, lost)
        yield normal(bad, 0, 0, extent, doubt=marks), symbol(items)
        yield inspect(bad, doubt=marks), inspection(named, held_by(bad), words, changed, 0, lost)
    known = ["beyond" if b == block else 0 for b in range(size.blocks)]
    for erased, wrong in ((checks + 1, 0), (checks - 1, 1)):
        bad, marks = hurt(grid, block, erased + wrong), doubt_of(grid, words_of(size, block, erased))
        held = held_by(bad)
        mended = [held[i] if i % size.blocks == block else word for i, word in enumerate(words)]
        yield inspect(bad, doubt=marks), inspection(named, held, mended, known)
        yield read(bad, 0, extent, doubt=marks), no(6, 0, block)
    border = set(border_of(named)[:7])
    marks = [255 * (i in border) for i in range(len(grid))]
    yield read(with_bad_border(grid, 7), 0, extent, doubt=marks), reading(named, items)
    yield read(with_bad_border(grid, 8), 0, extent, doubt=marks), no(5, 1)
    yield inspect(with_bad_border(grid, 9), doubt=marks), inspection(named, words, words, None, 2)
    yield read(grid, 0, extent, doubt=[1] * len(grid)), no(6, 0, 0)
    yield read(grid, 0, extent, doubt=[0] * len(grid)), reading(named, items)


def conveniences():
    """Room 0, 1, one short, all, and more, for items with FNC1 in front, inside, at the end, and nowhere."""
    said = [[], [FNC1], [65], [FNC1, 65, 66], [65, FNC1, 66], [65, 66, FNC1], [FNC1, FNC1, 29, 30, FNC1],
            list(b"\x00\x1d\x1e\x80\xff"), [67] * 1632]
    for items in said:
        front = items[:1] == [FNC1]
        text = [29 if item == FNC1 else item for item in items[front:]]
        for room in sorted({0, 1, 2, max(0, len(text) - 1), len(text), len(text) + 1, len(text) + 5}):
            for asked in (0, 1):
                told = int(front) if asked else -1
                yield f"text {room} {asked} {numbers(items)}", f"{len(text)} gs1 {told} bytes {numbers(text[:room])}"
    for data in (b"", b"A", b"\x1d", b"AB\x1dCD\x1d", b"\x1d\x1e\x1c\x00\xff", b"x" * 1632):
        for gs1 in (0, 1, 2, -1):
            items = [FNC1, *(FNC1 if byte == 29 else byte for byte in data)] if gs1 else list(data)
            for room in sorted({0, 1, 2, max(0, len(items) - 1), len(items), len(items) + 1, len(items) + 5}):
                yield f"items {room} {gs1} {hexadecimal(data)}", f"{len(items)} items {numbers(items[:room])}"


def modules():
    """Anything but 0 is dark, and doubtful."""
    for named, items in ((TEN, b"123456"), ((8, 18), b"12345678")):
        grid = grid_of(named, *ascii_words(items))
        bad, marks = hurt(grid, 0, 3), doubt_of(grid, words_of(grid.size, 0, 3))
        for dark in (2, 128, 255):
            some = Symbol([dark * module for module in grid], named)
            yield read(some, 0), reading(named, items)
            yield inspect(some), inspection(named, held_by(grid), held_by(grid))
            yield normal(some, 0, 0), symbol(items)
            yield read(bad, 0, doubt=[dark * mark for mark in marks]), reading(named, items, None, 0, [3])


def words(codes):
    for code in [*range(26), 255, 256, 65535]:
        yield f"words {code}", WORDS[code] if code in codes else "not a code of this library"


def limits():
    """An eighth of rows and columns together, rounded down."""
    for side in [*range(0, 130), 255, 256, 1023, 65532, 65535]:
        yield f"limit {side} {side}", str(side // 4)
    for rows, columns in [*(size.named for size in SIZES), (0, 7), (0, 8), (7, 0), (8, 0), (3, 4), (0, 65535),
                          (65535, 1)]:
        yield f"limit {rows} {columns}", str((rows + columns) // 8)


def check_codewords_are_known():
    """The model's error correcting code on the standard's example, 123456 at side 10."""
    return FIELD.checks((142, 164, 186), 5) == [114, 25, 5, 88, 102]
