"""Puts the marks of other encoders to the program, which reads or refuses each by name. Those that libdmtx made in
ASCII are normal grids, so `write` has to give exactly these. Then the library is tried on data codewords at random, in
both extents: it has to answer what the plain reader of tests/library/contents.py says. Nothing is proved here."""
import random
import re

from tests import corpus
from tests.library.contents import USUAL, WIDE, Content, Refusal, said_by, symbol_of
from tests.library.library import module
from tests.library.model import DIGITS, SIZE_OF, SIZES, codewords, modules_of
from tests.library.vectors import laid, shown_dealings
from tests.support import commands, needs, places
from tests.support.case import Case

LISTS = 20_000
MOST_SIDE = 104  # of the symbols that the program writes
EXTENTS = {"usual": USUAL, "wide": WIDE}
ANY_LIMIT = 65535


def checked(mark):
    """What `check` has to answer to a mark, none of which is damaged."""
    return mark.more.get("usual", f"ok {mark.rows} border 0 corrected" + " 0" * SIZE_OF[mark.rows, mark.columns].blocks)


def normal(mark):
    """What `normal` has to answer to a mark, by the model of tests/library."""
    size, modules = symbol_of(mark.content[0])
    if "usual" in mark.more or size.rows > MOST_SIDE:
        return mark.more.get("usual", "\\no 14 too-long")
    rows = bytes(modules).translate(DIGITS).decode()
    return "\n".join(rows[at:at + size.columns] for at in range(0, len(rows), size.columns))


def read(modules, named, extent):
    """What a symbol says, and its identifier; or the fault: code, value and place."""
    rows, columns = named
    ecc200, given = module(), bytes(modules)
    try:
        got = ecc200.read([given[at:at + columns] for at in range(0, rows * columns, columns)], ANY_LIMIT, extent)
    except ecc200.Refused as why:
        return why.code.value, why.value, why.place
    return Content(got.items, tuple((number, place) for place, number in got.marks), got.head), got.symbology


def wanted_of(words, extent):
    try:
        content, identifier = said_by(words, extent)
    except Refusal as why:
        return why.args
    return content, f"]d{identifier}"


def group(values):
    return list(sum(value << 18 - 6 * at for at, value in enumerate(values)).to_bytes(3, "big"))


def some_words(chance, left):
    """Some codewords that mean something together, or nothing at all, where so many are left."""
    kind = chance.randrange(13)
    if kind == 0:
        return [chance.choice([230, 239, 238])] + [word for _ in range(chance.randrange(4))
                                                   for word in pair(chance)] + [254] * chance.randrange(2)
    if kind == 1:
        return [231] + [chance.randrange(256) for _ in range(chance.randrange(6) + 1)]
    if kind <= 5:
        groups = [[chance.choice([31, 0, 1, 32, 63, 30, chance.randrange(64)]) for _ in range(4)]
                  for _ in range(chance.randrange(4))]
        return [240] + [word for values in groups for word in group(values)]
    if kind == 6:
        return [chance.choice([129, 232, 233, 234, 235, 236, 237, 241, 254, 124, 0, 242])]
    if kind == 7 and left < 8:
        return [chance.choice([124, 240, 254, 66, 129, 31, 235]) for _ in range(left)]
    if kind == 8:
        return [chance.randrange(256) for _ in range(chance.randrange(4))]
    if kind == 9:
        return [241, chance.choice([chance.randrange(1, 128), 127, 128, 191, 192, 207, chance.randrange(256)]),
                *(chance.choice([1, 63, 129, 254, chance.randrange(1, 255)]) for _ in range(2))]
    return [chance.randrange(1, 230) for _ in range(chance.randrange(1, 5))]


def pair(chance):
    values = [chance.choice([0, 1, 2, 30, 27, chance.randrange(40)]) for _ in range(3)]
    return list((1600 * values[0] + 40 * values[1] + values[2] + 1).to_bytes(2, "big"))


def some_front(chance):
    """A macro, behind empty runs or none, a head, or something like it."""
    kind = chance.randrange(4)
    if kind < 2:
        return [word for _ in range(chance.randrange(3) * kind)
                for word in (chance.choice([230, 239, 238]), 254)] + [chance.choice([236, 237])]
    part = [chance.choice([chance.randrange(256), 28, 241]), chance.randrange(256), chance.randrange(1, 255)]
    return [234] if kind == 2 else [233, *part]


def some_list(chance, count):
    """As many data codewords, some of them with a macro or a head in front."""
    words = some_front(chance) if chance.randrange(4) == 0 else []
    while len(words) < count:
        words += some_words(chance, count - len(words))
    return words[:count]


def lists(count):
    """Codewords at random, in symbols of all sizes, most of them small."""
    chance = random.Random(240)
    wrong, contents, messages = [], 0, 0
    for _ in range(count):
        size = SIZES[min(chance.randrange(len(SIZES)) for _ in range(4))]
        words = some_list(chance, size.data)
        modules = modules_of(size, codewords(size, words))
        for extent, number in EXTENTS.items():
            given, wanted = read(modules, size.named, number), wanted_of(words, number)
            if extent == "wide" and isinstance(given[0], Content):
                is_content = given[0].marks or given[0].head
                contents, messages = contents + bool(is_content), messages + (not is_content)
            if given != wanted:
                wrong.append(f"{words} in the {extent} extent: {given}, and not {wanted}")
    yield f"{count} lists of codewords", "\n".join(wrong[:5]) or None
    is_mixed = min(contents, messages) > count / 20 and contents + messages < count
    yield "some of them are read, and some refused", None if is_mixed else f"{contents} contents, {messages} messages"


@needs.program
class Marks(Case):
    def answered(self, word, given, status):
        done = commands.run([places.PROGRAM, word], given.encode())
        self.row("the status", done.status, status)
        return done.output.decode()

    def compared(self, marks, got, wanted):
        self.assertEqual((len(got), len(wanted)), (len(marks), len(marks)), "answers and expected ones")
        self.rows(zip([mark.name for mark in marks], got, wanted))

    def as_told(self, word, wanted_of, between="\n"):
        """Compares the answers to all marks. Some marks are refused, so the status is 1."""
        marks = corpus.marks("squares")
        answers = self.answered(word, corpus.grids(marks), 1).rstrip("\n").split(between)
        self.compared(marks, answers, list(map(wanted_of, marks)))

    def test_each_is_read_or_refused_by_name(self):
        self.as_told("read", lambda mark: mark.usual)

    def test_each_is_checked(self):
        self.as_told("check", checked)

    def test_each_is_normalised(self):
        self.as_told("normal", normal, "\n\n")

    def test_those_in_edifact_and_with_macros_are_left_out(self):
        marks = corpus.marks("wide")
        answers = self.answered("read", corpus.grids(marks), 1).splitlines()
        told = [re.fullmatch(r"\\no 8 left-out (236|237|240) \d+", answer) is not None for answer in answers]
        self.compared(marks, told, [True] * len(marks))

    def test_those_that_are_damaged_are_read_or_refused(self):
        marks = [mark for mark in corpus.marks("damaged") if mark.rows == mark.columns <= 104 and not mark.doubtful]
        self.compared(marks, self.answered("read", corpus.grids(marks), 1).splitlines(), [mark.said for mark in marks])

    def test_those_of_libdmtx_in_ascii_are_written_as_they_are(self):
        chosen = [mark for mark in corpus.marks("squares") if mark.encoder.startswith("dmtxwrite -e a ")]
        grids = self.answered("write", "".join(f"{mark.said}\n" for mark in chosen), 0)
        self.compared(chosen, grids.rstrip("\n").split("\n\n"), [mark.text.rstrip("\n") for mark in chosen])


@needs.library
class Lists(Case):
    def test_codewords_at_random(self):
        self.all_sound(lists(LISTS))

    def test_an_inspection_shows_the_dealing(self):
        for words, dealing, mended, corrected in shown_dealings():
            modules = bytes(laid(words))
            got = module().inspect([modules[at:at + 144] for at in range(0, 144 * 144, 144)])
            left = tuple(0 if it is None else 62 - 2 * it for it in corrected)
            self.row(f"dealing {dealing}, {corrected}", (got.dealing, [*got.held], [*got.mended], got.corrected,
                     got.erased, got.left), (dealing, words, mended, corrected, (0,) * 10, left))
