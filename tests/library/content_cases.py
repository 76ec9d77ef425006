"""Requests about contents, which are what symbols say at most: items, marks, which are ECI assignments at their places,
and a head, of structured append or reader programming; and about the other dealing of 144 x 144. Each has the answer
that is wanted: it stands here as it was worked out by hand, or contents.py knows it."""
import itertools

from tests import corpus
from tests.library.cases import (LARGEST, MOST_DATA, SMALLEST, TEN, TWELVE, USUAL, WIDE, Symbol, doubt_of, grid_of,
                                 held_by, hurt, inspect, inspection, no, normal, read, reading, symbol,
                                 with_bad_border, words_of, write, write_bytes)
from tests.library.contents import (Content, Refusal, content_said, content_words, dealt_anew, designators_of,
                                    head_words, said_by, symbol_of)
from tests.library.model import (ANY, EXTENDED, FNC1, ONE, RECTANGLE, SIZE_OF, SIZES, SQUARE, base_256_words, codewords,
                                 modules_of, padded, randomised, triple)

PROGRAMMING = "programming"
MACRO_5, MACRO_6 = b"[)>\x1e05\x1d", b"[)>\x1e06\x1d"
TRAILER = b"\x1e\x04"
MOST_NUMBER = 999_999

# Data codewords, and what they say in the wide extent: items, marks, a head, and the identifier's digit.
WORKED = [
    ((241, 27, 66, 67, 68, 129), b"ABC", [(26, 0)], None, 4), ((241, 128, 74, 66, 129), b"A", [(200, 0)], None, 4),
    ((241, 192, 15, 62, 66, 129), b"A", [(20000, 0)], None, 4), ((131, 241, 4, 132), b"0102", [(3, 2)], None, 4),
    ((66, 241, 10, 241, 27, 67), b"AB", [(9, 1), (26, 1)], None, 4), ((241, 127, 66), b"A", [(126, 0)], None, 4),
    ((241, 128, 1, 66), b"A", [(127, 0)], None, 4), ((241, 191, 254, 66), b"A", [(16382, 0)], None, 4),
    ((241, 192, 1, 1, 66), b"A", [(16383, 0)], None, 4), ((241, 207, 63, 129), b"", [(999999, 0)], None, 4),
    ((233, 28, 1, 2, 66, 129), b"A", [], (2, 5, 1, 2), 1), ((233, 31, 1, 1, 66), b"A", [], (2, 2, 1, 1), 1),
    ((233, 241, 254, 254, 66), b"A", [], (16, 16, 254, 254), 1), ((232, 241, 27, 66), [FNC1, 65], [(26, 1)], None, 5),
    ((234, 142, 164, 186, 129), b"123456", [], PROGRAMMING, 1), ((66, 232, 67), [65, FNC1, 66], [], None, 3),
    ((230, 254, 237, 66, 67, 129), MACRO_6 + b"AB" + TRAILER, [], None, 1), ((142, 232), [49, 50, FNC1], [], None, 3),
    ((230, 254, 238, 254, 236, 129), MACRO_5 + TRAILER, [], None, 1), ((50, 51, 232), [49, 50, FNC1], [], None, 1),
    ((236, 241, 27, 66, 129), MACRO_5 + b"A" + TRAILER, [(26, 7)], None, 4), ((230, 10, 121), [FNC1], [], None, 1),
    ((233, 15, 1, 1, 232, 66), [FNC1, 65], [], (1, 2, 1, 1), 2), ((232,), [FNC1], [], None, 2),
    ((66, 67, 240, 241, 4, 39, 192, 67), b"AB<PP'62B", [], None, 1), ((66, 230, 10, 121, 129), [65, FNC1], [], None, 1),
    ((230, 87, 199, 254, 241, 27, 66), b"AA", [(26, 1)], None, 4), ((129, 232), b"", [], None, 1),
    ((236, 232, 66), [*MACRO_5, FNC1, 65, *TRAILER], [], None, 3), ((50, 241, 4, 51), b"12", [(3, 1)], None, 4),
    ((234, 232, 66, 241, 27), [FNC1, 65], [(26, 2)], PROGRAMMING, 5), ((233, 28, 1, 2, 66), b"A", [], (2, 5, 1, 2), 1),
    ((241, 27, 66, 67, 68), b"ABC", [(26, 0)], None, 4), ((241, 27, 66, 129, 70), b"A", [(26, 0)], None, 4),
    ((241, 27, 231, 88, 45), b"A", [(26, 0)], None, 4), ((234, 239, 254, 129, 70), b"", [], PROGRAMMING, 1),
    ((234, 230, 232), [FNC1], [], PROGRAMMING, 3), ((240, 232, 66), [FNC1, 65], [], None, 3),
]
# Those that say nothing in the wide extent, with code, value and place.
REFUSED = [
    *((data, 20, 0, 1) for data in ((241, 207, 63, 130), (241, 0, 66), (241, 128, 0), (241, 128, 255, 66),
                                    (241, 208, 1, 1), (241, 192, 1, 0, 66), (241, 192, 0, 1, 66), (241, 255, 1, 1),
                                    (241, 192, 255, 1, 66), (241, 208, 1, 1, 66))),
    *((data, 21, 0, 1) for data in ((233, 0, 1, 1, 66), (233, 32, 1, 1, 66), (233, 15, 0, 1, 66), (233, 15, 1, 255),
                                    (233, 15, 255, 1), (233, 15, 1, 0), (233, 16, 1, 1), (233, 255, 0, 0))),
    ((66, 233, 15, 1, 1), 8, 233, 2), ((66, 234), 8, 234, 2), ((233, 15, 1, 1, 236, 66), 8, 236, 5),
    ((234, 237, 66), 8, 237, 2), ((239, 254, 66, 236), 8, 236, 4), ((241, 1, 0), 7, 0, 3), ((234, 234), 8, 234, 2),
    ((230, 254, 233, 15, 1, 1), 8, 233, 3), ((240, 125, 66, 236, 66), 8, 236, 4), ((231, 45, 65, 236), 8, 236, 4),
    ((241, 27, 237, 66), 8, 237, 3), ((236, 236, 66), 8, 236, 2), ((230, 254, 66, 237), 8, 237, 4),
    ((234, 230, 254, 237), 8, 237, 4),
]
# What ends a symbol and is no designator, and what is one.
MALFORMED = [(241,), (241, 0), (241, 128), (241, 128, 0), (241, 128, 255), (241, 191), (241, 192), (241, 192, 1),
             (241, 192, 1, 0), (241, 192, 0, 1), (241, 207, 63), (241, 207, 63, 130), (241, 208, 1, 1), (241, 255)]
DESIGNATORS = [(241, 1), (241, 127), (241, 128, 1), (241, 191, 254), (241, 192, 1, 1), (241, 207, 63, 129)]
# Numbers beside which a designator has other codewords.
EDGES = [0, 1, 25, 26, 125, 126, 127, 128, 380, 381, 382, 16382, 16383, 16384, 16636, 16637, 80898, 80899, 80900,
         899_999, 999_998, 999_999]


def said_of(data, count, extent):
    """What data codewords with pads behind them say: a content and the identifier's digit, or their refusal."""
    try:
        return said_by(padded(data, count), extent)
    except Refusal as why:
        return no(*why.args), None


def read_of(named, data, extent=WIDE):
    """What a symbol with these data codewords, and pads behind them, is read as."""
    content, identifier = said_of(data, SIZE_OF[named].data, extent)
    wanted = content if isinstance(content, str) else reading(named, content, identifier=identifier)
    return read(grid_of(named, *data), extent=extent), wanted


def readings_of(named, data, extents=(USUAL, WIDE)):
    """The same, and its normal grids."""
    for extent in extents:
        yield read_of(named, data, extent)
        content, _ = said_of(data, SIZE_OF[named].data, extent)
        for profile in (0, 1):
            wanted = content if isinstance(content, str) else symbol(content, profile)
            yield normal(grid_of(named, *data), profile, extent=extent), wanted


def smallest_named(data):
    """The smallest square that has room for so many data codewords."""
    return next(size.named for size in SIZES if size.is_of(SQUARE, None) and size.data >= len(data))


def worked():
    """What stands above, in squares."""
    for data, items, marks, head, identifier in WORKED:
        named, content = smallest_named(data), Content(tuple(items), tuple(marks), head)
        yield read(grid_of(named, *data), 0, WIDE), reading(named, content, identifier=identifier)
        yield from readings_of(named, data)
    for data, code, value, place in REFUSED:
        named = smallest_named(data)
        yield read(grid_of(named, *data), 0, WIDE), no(code, value, place)
        yield from readings_of(named, data)


def inspected(named, data):
    """The inspection of a symbol with these data codewords, as it is, with as many of the codewords of its first block
    wrong as can be corrected, and with more, where nothing is said."""
    grid, size = grid_of(named, *data), SIZE_OF[named]
    words, found = held_by(grid), designators_of(padded(data, size.data))
    yield inspect(grid), inspection(named, words, words, designators=found)
    bad = hurt(grid, 0, size.limit)
    counts = [size.limit, *[0] * (size.blocks - 1)]
    yield inspect(bad), inspection(named, held_by(bad), words, counts, designators=found)
    worse = hurt(grid, 0, max(5, size.limit + 2))
    mended = [held if i % size.blocks == 0 else word for i, (held, word) in enumerate(zip(held_by(worse), words))]
    yield inspect(worse), inspection(named, held_by(worse), mended, ["beyond", *[0] * (size.blocks - 1)])


def designators():
    """What inspections show of what is worked out above, of the end of each size, and of marks in each encodation."""
    for data, *_ in (*WORKED, *REFUSED):
        yield from inspected(smallest_named(data), data)
    for size, last in itertools.product(SIZES, (*MALFORMED, *DESIGNATORS)):
        if len(last) <= size.data:
            yield from inspected(size.named, [*(65 + k % 26 for k in range(size.data - len(last))), *last])
    for one in RUNS.values():
        for data in ((241, 27, *one), (*one, 241, 128, 74), (236, *one, 241, 192, 1, 1, *one, 241, 27)):
            yield from inspected((24, 24), data)
    # 241 in a segment, in a run of EDIFACT, behind the first pad, and as the first codeword of a designator
    for data in ((*base_256_words(b"A"), 241, 27, 66), (231, randomised(0, 2), 241, 27, 66),
                 (240, 241, 27, 66, 124, 66), (66, 129, 241, 27), (241, 241, 27)):
        yield from inspected((24, 24), data)


def ends():
    """What is malformed, and what isn't, at the last places of each size."""
    for size in SIZES:
        for last in (*MALFORMED, *DESIGNATORS, (233,), (234,), (236,), (237,), (233, 15, 1)):
            for front in ((), (234,)) if len(last) < size.data < 63 else ((),) if len(last) < size.data else ():
                filled = [*front, *(65 + k % 26 for k in range(size.data - len(last) - len(front))), *last]
                yield read_of(size.named, filled)
        for head in ((233, 0, 1, 1), (233, 32, 1, 1), (233, 15, 0, 1), (233, 15, 255, 1), (233, 15, 1, 0), (233,),
                     (233, 15), (233, 15, 1), (233, 15, 1, 1), (233, 15, 1, 1, 66)):
            if len(head) <= size.data:
                yield read_of(size.named, head)


# Data codewords of one encodation each; behind those of EDIFACT two codewords or more have to come.
RUNS = {"digits": (142, 164), "C40": (230, *triple(14, 15, 16), 254), "Text": (239, *triple(14, 15, 16), 254),
        "X12": (238, *triple(14, 15, 1), 254), "EDIFACT": (240, 4, 32, 196, 124), "a content": (66,),
        "Upper Shift": (235, 66), "FNC1": (232,), "an empty run": (230, 254)}


def beside():
    """Marks before, between and behind what each encodation says, in a macro, behind a head, at the end; several."""
    marked = [(241, 27), (241, 128, 74), (241, 27, 241, 10)]
    for (_, one), (_, other) in itertools.product(RUNS.items(), repeat=2):
        for mark in marked[:2]:
            for data in ((*mark, *one, *other), (*one, *mark, *other), (*one, *other, *mark)):
                yield read_of((24, 24), data)
    for front in ((), (236,), (230, 254, 237), (234,), (233, 28, 1, 2)):
        for one, mark in itertools.product(RUNS.values(), marked):
            for data in ((*front, *mark, *one), (*front, *one, *mark), (*front, *mark, *one, *mark)):
                yield from readings_of((24, 24), data, [WIDE])
    for bytes_first in (b"", b"A", b"ABC"):
        segment = base_256_words(bytes_first) if bytes_first else []
        yield from readings_of((24, 24), (*segment, 241, 27, 142, 241, 4, 164), [WIDE])
    # where a segment goes to the end of the symbol there is no mark in it
    yield from readings_of(TWELVE, (231, randomised(0, 2), 241, 27, 66), [WIDE])


def edges():
    """The numbers whose designators have other codewords than those beside them, read and written."""
    for number in EDGES:
        for items, place in ((b"", 0), (b"A", 0), (b"A", 1), (b"1234", 2), (b"1234", 1), ([FNC1, 200], 1)):
            content = Content(tuple(items), ((number, place),))
            data = content_words(content)
            named = smallest_named(data)
            yield read(grid_of(named, *data), 0, WIDE), reading(named, content)
            for form in (0, 1):
                yield write(content, form), symbol(content, form)
    for first, second in itertools.product((*range(0, 256, 5), 127, 128, 191, 192, 207, 208), (0, 1, 2, 254, 255)):
        yield read_of(TEN, (241, first, second))
        yield read_of(TWELVE, (241, first, second, second))


def heads():
    """All parts, and what is no head; read and written."""
    for q in range(256):
        yield read_of(TWELVE, (233, q, 1 + q % 254, 254 - q % 254))
    for parts in range(2, 17):
        for part in range(1, parts + 1):
            content = Content((65,), (), (part, parts, 1 + part, 254))
            yield write(content, part % 2), symbol(content)
            yield write_bytes(b"A", 0, ANY, (0, 0), USUAL, content.head), symbol(content, 0, ANY)
    for head in (PROGRAMMING, (1, 2, 1, 254)):
        for items in (b"", b"123", [FNC1, 49, 50], MACRO_5 + b"A" + TRAILER, b"\xff" * 40):
            for form, shape in itertools.product((0, 1), (SQUARE, RECTANGLE, EXTENDED, ANY)):
                content = Content(tuple(items), ((26, len(items)),), head)
                yield write(content, form, shape), symbol(content, form, shape)
    for size, head in itertools.product(SIZES, (PROGRAMMING, (2, 3, 4, 5))):
        content = Content((65,) * max(0, size.data - len(head_words(head))), (), head)
        yield write(content, 0, ONE, size.named), symbol(content, 0, ONE, size.named)
    for head, form in itertools.product(NO_HEADS, (0, 1, SMALLEST)):
        yield write(Content((65,), (), head), form, extent=WIDE), no(23)
        yield write_bytes(b"A", form, extent=WIDE, head=head), no(23)


# Kinds with their numbers that are no head.
NO_HEADS = [(1, 0, 2, 1, 1), (1, 3, 2, 1, 1), (1, 1, 1, 1, 1), (1, 1, 0, 1, 1), (1, 17, 17, 1, 1), (1, 1, 17, 1, 1),
            (1, 65535, 65535, 1, 1), (1, 1, 2, 0, 1), (1, 1, 2, 1, 0), (1, 1, 2, 255, 1), (1, 1, 2, 1, 255),
            (1, 0, 0, 0, 0), (1, 257, 258, 1, 1), (1, 2, 1, 1, 1), (3, 0, 0, 0, 0), (3, 1, 2, 1, 1),
            (65535, 0, 0, 0, 0), (0, 1, 0, 0, 0), (0, 0, 2, 0, 0), (0, 0, 0, 1, 0), (0, 0, 0, 0, 254), (0, 1, 2, 1, 1),
            (2, 1, 2, 1, 1), (2, 1, 0, 0, 0), (2, 0, 2, 0, 0), (2, 0, 0, 255, 0), (2, 0, 0, 0, 1)]


def marks():
    """Marks at each place of a message, in all forms and shapes; in order or not; as many as fit."""
    for items in (b"12345678", b"ABCDEF", b"ab\xff\xfe1", [FNC1, 49, 50, FNC1, 65], MACRO_6 + b"1A" + TRAILER):
        for place in range(len(items) + 1):
            for some in ([(26, place)], [(3, place), (999_999, place)], [(4, 0), (5, place), (6, len(items))]):
                content = Content(tuple(items), tuple(some))
                for form, shape in ((0, SQUARE), (1, ANY), (0, RECTANGLE)):
                    yield write(content, form, shape), symbol(content, form, shape)
    for some, at in (([(MOST_NUMBER + 1, 0)], 0), ([(26, 3)], 0), ([(26, 1), (26, 0)], 1), ([(1, 65_536)], 0),
                     ([(4, 0), (4, 2), (4, 3)], 2), ([(4_294_967_295, 0)], 0), ([(1, 4_294_967_295)], 0),
                     ([(1, 2), (65_536_000, 2)], 1), ([(1, 0)] * 65_536 + [(1, 3)], 65_535),
                     ([(1, 0)] * 65_600 + [(1_000_000, 0)], 65_535)):
        yield write(Content((65, 66), tuple(some))), no(22, 0, at)
        if len(some) < 9:
            yield write(Content((65, 66), tuple(some)), SMALLEST, ANY, extent=WIDE), no(22, 0, at)
    for count in (MOST_DATA // 2 - 1, MOST_DATA // 2, MOST_DATA // 2 + 1, 2000):
        content = Content((), ((26, 0),) * count)
        yield write(content), symbol(content)
    most = Content((), ((26, 0),) * (MOST_DATA // 2))
    grid = Symbol(symbol_of(most)[1], LARGEST.named)
    yield read(grid, 0, WIDE), reading(LARGEST.named, most)
    yield normal(grid, 0, 0, WIDE), symbol(most)
    for size in SIZES:
        content = Content((49,) * (2 * (size.data - 5)), ((16383, 1),)) if size.data > 5 else Content((), ((26, 0),))
        for change in (0, 1):
            some = content._replace(items=content.items + (65,) * change)
            yield write(some, 0, ONE, size.named), symbol(some, 0, ONE, size.named)


def orders():
    """Of several faults of writing the first in their order is told."""
    bad_head, bad_marks, head, items, big = (1, 0, 0, 0, 0), ((26, 9),), (1, 2, 1, 1), (65, 66), (65,) * (MOST_DATA + 1)
    worse, bad = (Content((65, 300), bad_marks, it) for it in (bad_head, head))
    for said, form, shape, extent, wanted in (
            (worse, 3, 9, 9, no(16, 3)), (worse, SMALLEST, 9, 9, no(17, 9)), (worse, SMALLEST, 9, 65535, no(17, 65535)),
            (worse, 0, 9, 9, no(18, 9)), (worse, SMALLEST, 9, WIDE, no(18, 9)), (worse, SMALLEST, ANY, WIDE, no(23)),
            (worse, 1, ONE, 9, no(23)), (bad, 0, ONE, 9, no(15, 300, 1)), (bad, SMALLEST, ONE, USUAL, no(15, 300, 1)),
            (Content(items, bad_marks, head), 0, ONE, 9, no(22, 0, 0)),
            (Content(items, bad_marks, head), SMALLEST, ONE, USUAL, no(22, 0, 0)),
            (Content(items, ((26, 1),), head), 0, ONE, 9, no(14)), (Content(big, ((26, 1),), head), 0, ANY, 9, no(14)),
            (Content(items, ((26, 1),)), SMALLEST, ANY, USUAL, no(14)),
            (Content(items, (), head), SMALLEST, ANY, USUAL, no(14))):
        yield write(said, form, shape, (9, 9), extent), wanted
    for form, shape, extent, head, wanted in ((3, 9, 9, bad_head, no(16, 3)), (SMALLEST, 9, 2, bad_head, no(17, 2)),
                                              (1, 9, 2, bad_head, no(18, 9)), (SMALLEST, 3, 1, bad_head, no(23)),
                                              (1, 4, 9, (1, 2, 1, 1), no(14))):
        yield write_bytes(b"A", form, shape, (9, 9), extent, head), wanted
    for extent in (0, 1, 2, 65535):
        yield write(b"A", 0, SQUARE, extent=extent), symbol(b"A")
        yield write_bytes(b"\xff" * 9, 1, SQUARE, extent=extent), symbol(b"\xff" * 9, 1)


# ---- The other dealing
def dealt():
    """144 x 144 whose check codewords are dealt anew from the first block on."""
    size, named = LARGEST, LARGEST.named
    for content in (Content(tuple(65 + k % 26 for k in range(size.data))), Content((), ((26, 0),), PROGRAMMING),
                   Content((FNC1, *b"0112345678901231"), ((3, 17),))):
        words = codewords(size, padded(content_words(content), size.data))
        grid = Symbol(modules_of(size, dealt_anew(size, words)), named)
        yield read(grid, 0, WIDE), reading(named, content, dealing=1)
        yield read(grid, 0, USUAL), no(6)
        yield normal(grid, 0, 0, USUAL), no(6)
        for profile in (0, 1):
            yield normal(grid, profile, 0, WIDE), symbol(content, profile)
        bad = with_bad_border(grid, 3)
        for block in range(size.blocks):
            bad = hurt(bad, block, size.limit - block)
        corrected = [size.limit - block for block in range(size.blocks)]
        yield read(bad, 3, WIDE), reading(named, content, corrected, 3, dealing=1)
        yield read(bad, 2, WIDE), no(5, 3)
        yield normal(bad, 0, 3, WIDE), symbol(content)
        erased = hurt(grid, 9, size.checks_of_a_block)
        marked = doubt_of(erased, words_of(size, 9, size.checks_of_a_block))
        lost = [0] * 9 + [size.checks_of_a_block]
        yield read(erased, 0, WIDE, doubt=marked), reading(named, content, None, 0, lost, dealing=1)
        yield read(hurt(grid, 9, size.limit + 9), 0, WIDE), no(6)
        yield read(Symbol(modules_of(size, words), named), 0, WIDE), reading(named, content)
        yield read(hurt(Symbol(modules_of(size, words), named), 4, size.limit + 9), 0, WIDE), no(6, 0, 4)


# ---- Marks of other encoders
def printed(*files):
    """The marks of these files of the corpus: of each its name, rows and columns, what it says, and its modules."""
    for mark in (mark for file in files for mark in corpus.marks(file)):
        yield mark.name, (mark.rows, mark.columns), content_said(mark.said), list(mark.modules)


def of_other_encoders():
    """Each is read as the corpus says, in the usual extent too where that has it, normalised, and inspected."""
    for _, named, content, modules in printed("squares", "wide", "sizes", "contents", "shifts"):
        grid = Symbol(modules, named)
        words = held_by(grid)
        data = words[:grid.size.data]
        yield read(grid, 0, WIDE), reading(named, content, identifier=said_by(data)[1])
        yield normal(grid, 0, 0, WIDE), symbol(content)
        yield inspect(grid), inspection(named, words, words, designators=designators_of(data))
        content, identifier = said_of(data, len(data), USUAL)
        wanted = content if isinstance(content, str) else reading(named, content, identifier=identifier)
        yield read(grid, 0, USUAL), wanted


def damaged():
    """Symbols of each size with as much damage as is corrected and with more, where it is known and where it isn't."""
    for mark in corpus.marks("damaged"):
        named, doubt = (mark.rows, mark.columns), mark.doubtful or ()
        grid, limit, refused = Symbol(mark.modules, named), sum(named) // 8, mark.refusal and no(*mark.refusal)
        wanted = symbol(mark.content[0])
        if not refused:
            border, corrected, erased = mark.damage
            yield read(grid, limit, WIDE, doubt=doubt), reading(named, mark.content[0], corrected, border, erased)
        else:
            yield read(grid, limit, WIDE, doubt=doubt), refused
        yield normal(grid, 0, limit, WIDE, doubt=doubt), refused or wanted


ALL = (worked, designators, ends, beside, edges, heads, marks, orders, dealt, of_other_encoders, damaged)
