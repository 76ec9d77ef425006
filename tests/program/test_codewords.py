"""Grids with given codewords, right ones and wrong ones, by the program: what each says, how it is checked, and which
grid it becomes; and the codewords in which messages are written."""
import itertools

from tests.library.contents import content_said, symbol_of
from tests.library.model import BORDER_DARK, DIGITS, PLACES, SIZES, SIZE_OF, codewords, modules_of
from tests.library.vectors import CODEWORDS, MESSAGES, both, square_of
from tests.program.samples import ran
from tests.support import needs
from tests.support.case import Case

SQUARES = [size for size in SIZES if size.rows == size.columns <= 104]
WORDS = [142, 164, 186, 114, 25, 5, 88, 102]  # of 123456
FLAGS = ("", " --shorter")
TOO_LONG = b"\\no 14 too-long"


def drawn(modules):
    rows, side = bytes(modules).translate(DIGITS), round(len(modules) ** 0.5)
    return b"\n".join(rows[at:at + side] for at in range(0, side * side, side))


def grid(side, words):
    """The grid of this side with these codewords, data and then checks."""
    return drawn(modules_of(SIZE_OF[side, side], words))


def normal(said, profile=0):
    """The grid as which a message is written."""
    made = symbol_of(content_said(said), profile)
    return drawn(made[1]) if made and made[0].rows <= 104 else TOO_LONG


def changed(words, places, change=255):
    return [word ^ change * (at in places) for at, word in enumerate(words)]


def checked(text, corrected=0):
    """How a grid with a right border is checked, in each block of which so many codewords are corrected."""
    side = text.index(b"\n")
    return b"ok %d border 0 corrected%s" % (side, b" %d" % corrected * SIZE_OF[side, side].blocks)


def with_wrong_codewords():
    """Grids, what they say, and how many codewords of each block are corrected: each one and two codewords of side 10,
    and some three, each four of side 12, and the first ones of 52 and 104, as many as are corrected, and one more."""
    yield grid(10, [0, 0, *WORDS[2:]]), b"123456", 2
    yield grid(10, [0, 0, 0, *WORDS[3:]]), b"\\no 6 block 0", None
    for place, change in itertools.product(range(8), range(1, 256)):
        yield grid(10, changed(WORDS, [place], change)), b"123456", 1
    for one, other in itertools.permutations(range(8), 2):
        yield grid(10, changed(changed(WORDS, [one], 1), [other])), b"123456", 2
    words = codewords(SIZE_OF[12, 12], [66, 129, 70, 220, 115])
    for right, side, count in ((WORDS, 10, 3), (words, 12, 4)):
        for some in itertools.combinations(range(len(right)), count):
            yield grid(side, changed(right, some)), b"\\no 6 block 0", None
    for side, blocks, limit in ((52, 2, 21), (104, 6, 28)):
        data, most = SIZE_OF[side, side].data, [*range(blocks * limit)]
        words = codewords(SIZE_OF[side, side], [207] * data)
        yield grid(side, changed(words, most)), b"7" * 2 * data, limit
        for block in (0, blocks - 1):
            yield grid(side, changed(words, [*most, len(most) + block])), b"\\no 6 block %d" % block, None


def with_wrong_modules():
    """The same of grids with each two modules of side 10 turned over, of one colour, with nothing but a border, and
    with another fixed square."""
    for some in itertools.combinations(range(100), 2):
        yield drawn(changed(modules_of(SIZE_OF[10, 10], WORDS), some, 1)), b"123456", None
    for side, *counts in ((10, 27, 9), (52, 300, 100), (104, 1200, 400)):
        for module, count in enumerate(counts):
            yield drawn([module] * side * side), b"\\no 5 border %d" % count, None
    zeros = modules_of(SIZE_OF[12, 12], [0] * 12)
    for some in (zeros, changed(zeros, [117, 118, 129, 130], 1),
                 *([kind == BORDER_DARK for kind, _, _ in PLACES[size.named]] for size in SQUARES)):
        yield drawn(some), b"\\no 7 reserved 1", None


def messages():
    """Messages, spelled, and their grids in ASCII and in the shorter form: large and small ones in turns."""
    for said, digits in MESSAGES.items():
        yield said, [drawn(square_of(bytes.fromhex(one))) for one in both(digits)]
    for size in SQUARES:
        yield "A" * size.data, [drawn(square_of([66] * size.data))] * 2
        yield "A" * (size.data + 1), [normal("A" * (size.data + 1))] * 2
    for count, words in ((408, [207] * 204), (409, [207] * 204 + [56]), (1632, [207] * 816)):
        yield "7" * count, [drawn(square_of(words))] * 2
    yield "7" * 1633, [TOO_LONG] * 2
    ties = (0, 2), (1, 2), (247, 2), (247, 3), (810, 3), (0, 3), (246, 3), (246, 4), (809, 4)
    many = (200, 90), (200, 3), (200, 0), (200, 40), (200, 409), (200, 60), (128, 1), *(
        (255, count) for count in (202, 249, 250, 499, 500, 813, 814))
    long = [r"\x%02X" % byte * count for byte, count in many] + ["A" * one + r"\xC8" * more for one, more in ties]
    long += [r"\xFF" * one + r"\F" + r"\xFF" * more for one, more in ((0, 199), (100, 99), (199, 0), (100, 100))]
    for said in long:
        yield said, [normal(said), normal(said, 1)]


@needs.program
class Codewords(Case):
    def answers(self, words, given, wanted, alone=True):
        """Puts lines or grids to the program, all at once, and each alone."""
        is_line, are_grids = words.startswith("write"), words.startswith(("write", "normal"))
        for some in (slice(None), *(slice(at, at + 1) for at in range(len(given) * alone))):
            done = ran(words.split(), b"".join(text + (b"\n" if is_line else b"\n\n") for text in given[some]))
            got, asked = done.output.split(b"\n\n" if are_grids else b"\n")[:-1], wanted[some]
            unlike = [pair for pair in zip(got, asked) if pair[0] != pair[1]]
            self.row(f"{words} of {len(asked)}", (unlike[:2], done.status, done.errors, len(got)),
                     ([], int(any(b"\\no " in it for it in asked)), b"", len(asked)))

    def test_wrong_codewords_and_modules(self):
        for rows in (with_wrong_codewords(), with_wrong_modules()):
            grids, said, corrected = zip(*rows)
            self.answers("read", grids, said, alone=False)
            made = [line if line.startswith(b"\\no ") else normal(line.decode()) for line in said]
            self.answers("normal", grids, made, alone=False)
            known = [at for at, line in enumerate(said) if line.startswith(b"\\no ") or corrected[at] is not None]
            self.answers("check", [grids[at] for at in known], [
                said[at] if corrected[at] is None else checked(grids[at], corrected[at]) for at in known], alone=False)

    def test_each_encodation(self):
        grids = [drawn(square_of(bytes.fromhex(digits))) for digits in CODEWORDS]
        said = [both(one)[0] for one in CODEWORDS.values()]
        refused = [line.encode() if line.startswith("\\no ") else None for line in said]
        self.answers("read", grids, [line.encode() for line in said])
        self.answers("check", grids, [line or checked(text) for text, line in zip(grids, refused)])
        for profile, flag in enumerate(FLAGS):
            self.answers(f"normal{flag}", grids, [no or normal(line, profile) for no, line in zip(refused, said)])

    def test_messages(self):
        lines, grids = zip(*messages())
        for profile, flag in enumerate(FLAGS):
            self.answers(f"write{flag}", [line.encode() for line in lines], [each[profile] for each in grids])
            kept = [at for at, each in enumerate(grids) if each[profile] != TOO_LONG]
            given = [grids[at][profile] for at in kept]
            self.answers("read", given, [lines[at].encode() for at in kept])
            self.answers("check", given, list(map(checked, given)))
            for other, flag_of_other in enumerate(FLAGS):
                self.answers(f"normal{flag_of_other}", given, [grids[at][other] for at in kept])
