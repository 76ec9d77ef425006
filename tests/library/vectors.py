"""What was worked out by hand, or by a model that isn't kept here: data codewords and what they say, and contents and
their codewords; damage of which it is known where it is; borders; both dealings. The program takes some of it too."""
from tests.library.cases import (LARGEST, SMALLEST, TEN, USUAL, WIDE, Symbol, grid_of, held_by, no, normal, read,
                                 reading, symbol, write)
from tests.library.content_cases import smallest_named
from tests.library.contents import Content, content_said, dealt_anew, said_by, symbol_of
from tests.library.model import (ANY, DIGITS, EXTENDED, ONE, RECTANGLE, SIZE_OF, SQUARE, ascii_words, base_256_words,
                                 codewords, modules_of, padded, randomised)
from tests.library.small_cases import answer, asked

# All data codewords of squares, in hexadecimal digits, and what they say or how they are refused, as `dm_tool` prints
# it; where the wide extent has something else, that stands behind it.
CODEWORDS = {"e65b0b": "AIM", "e60aff": r"\xC1", "e72d41": r"\x80", "e72c41": r"\x80", "420081": r"\no 7 reserved 2",
             "f04281": (r"\no 8 left-out 240 1", "A"), "eb8281": r"\no 9 upper-shift 1", "e6fa01": r"\no 10 triplet 2",
             "e60aa1": r"\no 11 value 2", "e72f41": r"\no 12 length 1", "4242e7": r"\no 12 length 3",
             "4242eb": r"\no 13 unfinished 3", "e657c7": (r"\no 13 unfinished 2", "A"), "ef5b0b": "aim",
             "e65b0b5b0b5b0b42": "AIMAIMAIMA", "e65af1": "AI", "e65b0bfe42": "AIMA", "e6fa00": "ZZZ",
             "e60000": r"\no 10 triplet 2", "428146dc73": "A", "f00427c043": (r"\no 8 left-out 240 1", "ABB"),
             "42f07a0fc081fb93": (r"\no 8 left-out 240 2", "A^ ?@ 17"),
             "ec4281": (r"\no 8 left-out 236 1", r"[)>\x1E05\x1DA\x1E\x04"),
             "edf04314727d8107": (r"\no 8 left-out 237 1", r"[)>\x1E06\x1DP1Q2\x1E\x04"),
             "e657c7fe42": (r"\no 13 unfinished 2", "AA"), "ef57c7": (r"\no 13 unfinished 2", "a"),
             "e72c891fb44ae075": r"\xC8\xC8\xC8\xC8\xC8\xC8", "e60aff0aff0aff81": r"\xC1\xC1\xC1", "e60a87": r"\FA",
             "ef0a7c": r"\F ", "31e832": r"0\F1"}
# Contents and their codewords in the smallest squares that say them; None where no square does.
SMALLEST_USUAL = {"AIMAIMAIM": "e65b0b5b0b5b0b81",
    "AIMAIMAIMAIMAIMAIMAIMAIMAIM": "e65b0b5b0b5b0b5b0b5b0b5b0b5b0b5b0b5b0bfe8176", "AIMAIMAIMA": "42e68d9f8d9f8d9f",
    "aimaimaimaim1": "62ef8d9f8d9f8d9f8d96fe81", "A*B>A*B>A*B>A*B>": "42ee089b57b80eb25e1f089b",
    r"ABCDEF\xC1GHIJKL": "e659e96d240aff805f939a81", r"[)>\x1E05\x1DABC\x1E\x04": "5c2a3f1f871e4243441f0581",
    r"\x80\x81\x82": "e72f41d86e", r"\xC8\xC8\xC8\xC8\xC8\xC8\xC8\xC8\xC8\xC8": "e736891fb44ae0750ba036cc",
    r"\xC8" * 20 + "AAA": "e740891fb44ae0750ba036cc61f78c22b74de3780ea34242428168fe962d",
    r"\E{26}AIMAIMAIMAIM": None, r"\E{26}A": None, r"\PA": None, "A": "42"}
SMALLEST_WIDE = {"": "81af46", "ABC": "424344", "12345678": "8ea4bad081", "!\"#$%&'()*+,": "22232425262728292a2b2c2d",
    "!\"#$%&'()*+,-": "22f08a39259a7a29aabb2d81", ".-.-.-.-.-.-.-.-abcd": "2ff0b6eb6eb6eb6eb6eb6eb6eb5f62636465",
    ".-.-.-.-.-.-.-.-.-.-.-.-": "f0badbadbadbadbadbadbadbadbadbadbadbad7c8176",
    r"[)>\x1E05\x1DABC\x1E\x04": "ec42434481", r"[)>\x1E06\x1D\x1E\x04": "ed8146",
    r"AIMAIMAIM\E{26}aimaimaim": "e65b0b5b0b5b0bfef11bef5b0b5b0b5b0b81",
    r"AIMAIMAIMAIM\E{200}\E{20000}A": "e65b0b5b0b5b0b5b0bfef1804af1c00f3e42",
    r"123\E{999999}45678": "8e34f1cf3f81afc53981fb93",
    r"\A{2/5:001002}AIMAIMAIMAIMAIM": "e91c0102e65b0b5b0b5b0b5b0b5b0bfe811c",
    r"\P[)>\x1E05\x1DAIMAIMAIM\x1E\x04": "ea5c2a3f1f871e424a4e424a4e424a4e1f05",
    r"[)>\x1E05\x1D\E{26}AIMAIMAIM\x1E\x04": "ecf11be65b0b5b0b5b0bfe81",
    r"[)>\x1E05\E{26}\x1DAIMAIMAIM\x1E\x04": "5c2a3f1f87f11b1e424ae6a4c7a4c7a29f05",
    r"\xC8\xC8\xC8\xC8\xC8\xC8\E{26}\xC8\xC8\xC8\xC8\xC8\xC8": "e732891fb44ae075f11be70a61f78c22b74d",
    r"\xFF" * 20 + r"\E{26}": "e740c056eb8117ac42d76d03982ec359ee841aaf45daf11b81d168fe962d",
    "!\"#$%&'()*+,\\E{26}!\"#$%&'()*": "22f08a39259a7a29aabb1ff11b2223f08e49669e8a6a",
    r"[)>\x1E05\x1DAIMAIMAIM\x1E\x04": "ece65b0b5b0b5b0b", r"\E{26}AIMAIMAIMAIM": "f11be65b0b5b0b5b0b5b0b81"}
# Messages and their codewords in ASCII, and in the shorter form where that has others.
MESSAGES = {r"A\FB": "42e843", r"\\": "5d", r"\F": "e8", "~": "7f", r"\x80\x80\x80": ("eb01eb01eb01", "e72f41d76c"),
            r"\x80\x80": "eb01eb01", "": "", "123456": "8ea4ba", "A": "42", r"\F\x80\x80\x80\x80": "e8eb01eb01eb01eb01",
            r"\F01": "e883", r"0\F1": "31e832", "123": "8e34", r"\xFF": "eb80", "AIM": "424a4e", r"\x80": "eb01"}
# How many digits there are, a choice of sizes, and the smallest one that it has for them.
DIGIT_SIZES = [(10, SQUARE, (12, 12)), (10, RECTANGLE, (8, 18)), (10, ANY, (12, 12)), (44, ANY, (20, 20)),
               (48, EXTENDED, (8, 64)), (48, RECTANGLE, (16, 36)), (98, RECTANGLE, (16, 48)), (99, RECTANGLE, None),
               (168, EXTENDED, (26, 48)), (168, SQUARE, (36, 36)), (168, (20, 64), (20, 64)), (169, (20, 64), None),
               (168, (64, 20), None), (1632, ANY, (104, 104)), (1633, ANY, (120, 120))]
# First and other codewords of side 104, how many items they say in the wide extent, and the last one; or the refusal.
WHOLE = [(237, 142, 1639, 4), (236, 130, 1639, 4), (236, 207, 1639, 4), (240, 240, 1084, 48), (240, 124, 814, 123),
         (240, 31, 815, 30), (240, 129, 1084, 65), (237, 240, 1093, 4), (236, 230, 1230, 4), (230, 240, 1221, 90),
         (239, 87, 1222, 86), (240, 255, no(7, 0, 815)), (240, 0, no(7, 0, 815)), (236, 235, no(9, 0, 2)),
         (237, 237, no(8, 237, 2))]


def refusal_of(said):
    """The refusal that `dm_tool` prints so, or None."""
    code, *others = [int(word) for word in said.split() if word.isdecimal()] if said.startswith("\\no ") else [0]
    return no(code, *[0, *others][-2:]) if code else None


def both(it):
    """What stands for two, or two."""
    return (it, it) if isinstance(it, str) else it


def square_of(words):
    """The smallest square that has so many data codewords, with these in it, and pads behind them."""
    return grid_of(smallest_named(words), *words)


def in_words(words):
    """The answer that has it."""
    grid = square_of(words)
    return f"rows {grid.size.rows} columns {grid.size.columns} modules {bytes(grid).translate(DIGITS).decode()}"


def read_as(words, said, extent):
    """Data codewords of a square are read as a content, or refused."""
    content, data = content_said(said), held_by(square_of(words))[:square_of(words).size.data]
    return refusal_of(said) or reading(square_of(words).named, content, identifier=said_by(data, extent)[1])


def of_codewords():
    """Squares are read, or refused, in each extent, and normalised."""
    for digits, said in CODEWORDS.items():
        words = bytes.fromhex(digits)
        for extent, one in zip((USUAL, WIDE), both(said)):
            yield read(square_of(words), 0, extent), read_as(words, one, extent)
            for profile in (0, 1):
                wanted = refusal_of(one) or symbol(content_said(one), profile)
                yield normal(square_of(words), profile, 0, extent), wanted
    zeros = padded([231, 38, 193, *(randomised(0, at) for at in range(4, 254))], 280)
    counted = [231, 40, 0, *(randomised(at % 256, at) for at in range(4, 817))]
    for words, wanted in ((zeros, reading((64, 64), [0] * 250)), ([*zeros[:2], 187, *zeros[3:]], no(12, 0, 1)),
                          (counted, reading((104, 104), [at % 256 for at in range(4, 817)])),
                          *(([231, *wrong, *counted[3:]], no(12, 0, 1)) for wrong in ((40, 1), (41, 193)))):
        yield read(square_of(words), 0, USUAL), wanted
    for first, other, *said in WHOLE:
        words = [first] + [other] * 815
        content, identifier = said_by(words) if len(said) > 1 else (None, 0)
        assert content is None or [len(content.items), content.items[-1]] == said
        wanted = reading((104, 104), content, identifier=identifier) if content else said[0]
        yield read(square_of(words), 0, WIDE), wanted
        yield normal(square_of(words), 0, 0, WIDE), symbol(content) if content else said[0]
    for content in (content_said(both[1]) for both in CODEWORDS.values() if isinstance(both, tuple)):
        size, modules = symbol_of(content)
        for extent in (USUAL, WIDE):
            yield read(Symbol(modules, size.named), 0, extent), reading(size.named, content)
            yield normal(Symbol(modules, size.named), 0, 0, extent), symbol(content)


def written():
    """Contents are written in their codewords, and these are read as them."""
    for extent, some in ((USUAL, SMALLEST_USUAL), (WIDE, SMALLEST_WIDE)):
        for said, digits in some.items():
            words = bytes.fromhex(digits or "")
            yield write(content_said(said), SMALLEST, extent=extent), in_words(words) if digits else no(14)
            if digits:
                yield read(square_of(words), 0, extent), read_as(words, said, extent)
    for said, digits in MESSAGES.items():
        for form, one in enumerate(both(digits)):
            yield write(content_said(said), form), in_words(bytes.fromhex(one))
    for count, size in ((249, 280), (250, 280), (278, 280), (813, 816), (814, 816), (815, 1050), (1047, 1050),
                        (1048, 1050), (1555, 1558), (1556, 1558)):
        to_the_end = [231, randomised(0, 2), *(randomised(255, at) for at in range(3, count + 3))]
        words = to_the_end if count + 2 == size else base_256_words([255] * count)
        assert square_of(words).size.data == size
        yield write([255] * count, SMALLEST), in_words(words)
    yield write([255] * 1557, SMALLEST), no(14)
    for items in (b"123456", b"\x80" * 3, b"A"):
        yield write(items, 1, ONE, (12, 12)), symbol(items, 1, ONE, (12, 12))
    fills = Content((65,) * 811, ((999_999, 811),), "programming")
    yield write(fills), symbol(fills)
    yield read(Symbol(symbol_of(fills)[1], (104, 104)), 0, WIDE), reading((104, 104), fills)
    for count, choice, named in DIGIT_SIZES:
        digits, (shape, chosen) = b"0" * count, (choice, (0, 0)) if isinstance(choice, int) else (ONE, choice)
        refused = write(digits, SMALLEST, shape, chosen), no(14)
        yield (asked(digits, USUAL, shape, chosen), answer(digits, SIZE_OF[named], True)) if named else refused


def doubtful():
    """Codewords that differ from those of 123456 are restored where it is known in which modules, up to five; and wrong
    modules of the border of 8 x 32, by row and column, of which some are doubtful."""
    right = grid_of(TEN, 142, 164, 186)
    for words, erased in (((17, 164, 186, 114, 25, 5, 88, 102), 1), ((17, 18, 19, 20, 21, 5, 88, 102), 5),
                          ((142, 164, 186, 20, 21, 22, 23, 102), 4), ((142, 164, 186, 114, 25, 5, 88, 102), 0),
                          ((17, 18, 19, 20, 21, 22, 88, 102), 6)):
        grid = Symbol(modules_of(SIZE_OF[TEN], words), TEN)
        marks = [one ^ other for one, other in zip(grid, right)]
        yield read(grid, 0, USUAL, doubt=marks), no(6) if erased > 5 else reading(TEN, b"123456", None, 0, [erased])
    for doubt, wanted in ((0, no(5, 27)), (1, no(6))):
        yield read(Symbol([0] * 100, TEN), 2 * (1 - doubt), USUAL, doubt=[doubt] * 100), wanted
    named, wrong = (8, 32), [(0, 0), (7, 31), (3, 15), (3, 16)]
    for some, marked, count in (((), (), 0), (wrong, (), 4), ([*wrong, (3, 14), (1, 17)], (), 4), (wrong[:3], (), 3),
                                (wrong[:3], (wrong[1], wrong[3]), 2)):
        grid = Symbol(modules_of(SIZE_OF[named], [0] * 21), named).changed(32 * row + column for row, column in some)
        marks = [int(divmod(at, 32) in marked) for at in range(256)] if marked else ()
        for limit in range(5):
            for doubt in (marks, *([[0] * 256] if not marks else [])):
                yield read(grid, limit, USUAL, doubt=doubt), no(7, 0, 1) if limit >= count else no(5, count)


# ---- The two dealings of 144 x 144, of A to W over and over, so that no two blocks are alike
LETTERS = [65 + place % 23 for place in range(LARGEST.data)]
DEALT = [codewords(LARGEST, ascii_words(LETTERS)), dealt_anew(LARGEST, codewords(LARGEST, ascii_words(LETTERS)))]


def spoilt(words, count, blocks=range(10)):
    """The codewords with so many of the first data codewords of these blocks wrong."""
    return [word ^ 255 * (at % 10 in blocks and at // 10 < count) for at, word in enumerate(words)]


def laid(words):
    return Symbol(modules_of(LARGEST, words), LARGEST.named)


def dealings():
    """The other dealing is read in the wide extent alone; either corrects as much; both have one normal symbol."""
    for dealing, words in enumerate(DEALT):
        for count in (0, 31):
            grid, wanted = laid(spoilt(words, count)), reading(LARGEST.named, LETTERS, [count] * 10, dealing=dealing)
            yield read(grid, 0, USUAL), no(6) if dealing else wanted
            yield read(grid, 0, WIDE), wanted
            yield normal(grid, 0, 0, WIDE), symbol(LETTERS)
        yield read(laid(spoilt(words, 32, [5])), 0, WIDE), no(6, 0, 0 if dealing else 5)
        # all check codewords of block 0 are wrong and doubtful
        wrong = [255 * (at >= LARGEST.data and (at + dealing * 2) % 10 == 0) for at in range(len(words))]
        grid = laid([word ^ change for word, change in zip(words, wrong)])
        wanted = reading(LARGEST.named, LETTERS, None, 0, [62] + [0] * 9, dealing=dealing)
        yield read(grid, 0, WIDE, doubt=laid(wrong)), wanted


def shown_dealings():
    """Codewords of 144 x 144, and what an inspection shows: its dealing, what they are mended to, and the counts."""
    yield spoilt(DEALT[1], 31), 1, DEALT[1], (31,) * 10
    yield spoilt(DEALT[0], 31, [8]), 0, DEALT[0], (0,) * 8 + (31, 0)
    yield (lost := spoilt(DEALT[0], 32, [5])), 0, lost, (0,) * 5 + (None,) + (0,) * 4
    yield (lost := spoilt(DEALT[1], 32, [5])), 0, lost, (None,) * 10


ALL = (of_codewords, written, doubtful, dealings)
