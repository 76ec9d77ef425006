"""Texts: written and read back in all charsets that a mark names, by zxing-cpp too; letters of other encoders; the
parts of a structured append; the smallest symbol, also of GS1 data."""
import copy
import itertools
import math
import os
import pickle
import random
import re

from tests import corpus
from tests.python.common import PYTHON, TOP, PackageCase, run
from tests.support import needs, places

import ecc200
from ecc200 import Code, Extent, Form, Profile, Shape, charsets, core, gs1

BWIPP, ZXING = "/usr/share/libpostscriptbarcode/barcode.ps", "/usr/share/java/core.jar"
LATIN_1, UTF_8 = "iso-8859-1", "utf-8"
# The register of ECI assignments, as far as it names charsets: other names for each than the package's own.
REGISTER = {0: "cp437", 1: "latin-1", 2: "437", 3: "l1", 4: "latin2", 5: "latin3", 6: "latin4", 7: "cyrillic",
            8: "arabic", 9: "greek", 10: "hebrew", 11: "latin5", 12: "latin6", 13: "iso-8859-11", 15: "latin7",
            16: "latin8", 17: "latin9", 18: "latin10", 20: "sjis", 21: "cp1250", 22: "cp1251", 23: "cp1252",
            24: "cp1256", 25: "utf-16-be", 26: "u8", 27: "ascii", 28: "big5-tw", 29: "euc-cn", 30: "ks_x-1001",
            31: "cp936", 32: "gb18030-2000", 33: "utf-16-le", 34: "utf-32-be", 35: "utf-32-le", 170: "646"}
# Those that zxing-cpp 1.4.0 knows by their numbers, and texts for which its tables of some have other letters.
OF_ZXING = {number for number in REGISTER if number <= 30 or number == 170}
BIG_5 = 28
UNLIKE = {"Prix : 12,50 €": {9, 30}, "价格 ¥12.50": {BIG_5}, "뷁똠방각하": {30}}
# Texts with the charsets that are asked for, and the bytes and marks that they become.
WRITTEN = [("", None, b"", ()), ("ABC\x1d\0", None, b"ABC\x1d\0", ()), ("caf\u00e9", None, b"caf\xe9", ()),
    ("caf\u00e9", "latin-1", b"caf\xe9", ()), ("caf\u00e9", UTF_8, b"caf\xc3\xa9", ()),
    ("caf\u00e9", "cp437", b"caf\x82", ((0, 2),)), ("caf\u00e9", "ascii", UnicodeEncodeError, None),
    ("20 \u00b0C", None, b"20 \xb0C", ((0, 3),)), ("20 \u00b0C", LATIN_1, b"20 \xb0C", ((0, 3),)),
    ("20 \u00b0C", UTF_8, b"20 \xc2\xb0C", ()), ("\u00c3\u00a9", None, b"\xc3\xa9", ((0, 3),)),
    ("\u00c3\u00a9", UTF_8, b"\xc3\x83\xc2\xa9", ()), ("\u00ef\u00bb\u00bfA", None, b"\xef\xbb\xbfA", ((0, 3),)),
    ("\u00efx \u00b0", None, b"\xefx \xb0", ((0, 3),)), ("\u00c1\u00f3", None, b"\xc1\xf3", ((0, 3),)),
    ("\u00c1\u00f3", UTF_8, b"\xc3\x81\xc3\xb3", ()), ("\u00e4\u00f3\u00fc", None, b"\xe4\xf3\xfc", ((0, 3),)),
    ("\u00f4\u00f3\u00fc\u00fc", None, b"\xf4\xf3\xfc\xfc", ((0, 3),)), ("\u00e4\u00fd", None, b"\xe4\xfd", ()),
    # (words that readers don't take for Shift JIS, though most can be that; and of which they do: three letters, or
    # two katakana and no others, or controls, or many signs)
    *((word, None, word.encode(LATIN_1), ()) for word in ("garçon", "São Paulo", "Schwarz-Weiß negativ", "élève",
      "Größe", "ÄÖ ÄÖ Caféx", "Ö. öa öa öa", "£ abcdefghi", "10÷2", "é \x81")),
    *((word, None, word.encode(LATIN_1), ((0, 3),)) for word in ("ÄÖÜ", "éaéaéa", "ÄÖ Caféx", "é\x81", "£ abcdefg",
      "× 2", "5 µm")), ("\u00ff", None, b"\xff", ()), ("\u0100", None, b"\xc0", ((0, 6),)),
    ("\u20ac", None, b"\xa4", ((0, 17),)), ("\u20ac", UTF_8, b"\xe2\x82\xac", ()),
    # (the charset of the smallest square; of equal ones UTF-8, or else the least assignment)
    ("Łódź", None, b"\xa3\xf3d\xbc", ((0, 4),)), ("กทม.", None, b"\xa1\xb7\xc1.", ((0, 13),)),
    ("日本", None, b"\x93\xfa\x96{", ((0, 20),)), ("서울", None, b"\xbc\xad\xbf\xef", ((0, 30),)),
    ("你好吗", None, b"\xc4\xe3\xba\xc3\xc2\xf0", ((0, 29),)), ("與你嗎", None, b"\xbbP\xa7A\xb6\xdc", ((0, 28),)),
    # (no charset in which zxing-cpp, a browser or Python has another letter, or none)
    *((text, None, text.encode(), ((0, 26),)) for text in ("α €", "א\u200e", "日−", "ก\x80", "ğ 日", "뷁")),
    ("\u20ac", "latin-1", UnicodeEncodeError, None), ("\u20ac", "cp1252", b"\x80", ((0, 23),)),
    ("\u041f", "cyrillic", b"\xbf", ((0, 7),)), ("\u041f", "koi8-r", b"\xf0", ()),
    ("A", "utf-16-le", b"A\0", ((0, 33),)), ("A\u00a5", "sjis", UnicodeEncodeError, None),
    ("A\u3164", "euc-kr", UnicodeEncodeError, None),
    ("A", "cp1251", b"A", ()), ("A", "none", LookupError, None), ("\ud800", None, UnicodeEncodeError, None)]
# Texts with the charsets that are asked for, and the bytes that they become for readers that know no marks.
UNMARKED = [("20 \u00b0C", None, b"20 \xb0C"), ("20 \u00b0C", LATIN_1, b"20 \xb0C"),
    ("\u00c3\u00a9", None, b"\xc3\x83\xc2\xa9"), ("\u041f", None, b"\xd0\x9f"), ("\u041f", "cp1251", b"\xcf"),
    ("\u20ac", LATIN_1, UnicodeEncodeError)]


def outcome(call, *given):
    """What a call gives, or the kind of what it raises."""
    try:
        return call(*given)
    except (LookupError, UnicodeError) as why:
        return type(why)


def said_by_zxing(symbols, folder):
    """The texts that zxing-cpp reads in pictures of symbols, in order; None for what it doesn't read."""
    names = [f"{number:04}.png" for number in range(len(symbols))]
    for name, symbol in zip(names, symbols):
        symbol.save(os.path.join(folder, name), dpi=150)
    told = run(["ZXingReader", "-format", "DataMatrix", *names], cwd=folder)[1]
    said = dict(re.findall(r'^File: +(\S+)\nText: +"(.*)"$', told, re.MULTILINE))
    return [said.get(name) for name in names]


# How texts are written, each of which another charset may make smallest.
ASKED = [{}, {"shape": Shape.ANY}, {"form": Form.ASCII}, {"head": (1, 2, 3, 4)}, {"size": (12, 36)}, {"gs1": True}]


def area(text, **given):
    """The modules of a symbol, or more than any has where none is written."""
    try:
        return len(b"".join(ecc200.write(text, **{"form": Form.SMALLEST, **given})))
    except ecc200.Refused:
        return math.inf


def printed(marks):
    """Of each mark with a letter its encoder and options, its reading, and what it has to say."""
    for mark in marks:
        text = mark.more.get("text")
        wanted = text and corpus.characters(text)
        yield f"{mark.encoder}, {text}", ecc200.read(mark.lines), (*mark.content[1:], mark.more["identifier"], wanted)


def part(number, count, data, file=(1, 2), marks=()):
    return ecc200.read(ecc200.write(data, marks=marks, head=(number, count, *file)))


def unjoined(readings):
    """The numbers of what is wrong with the parts that can't be joined, and in which words."""
    try:
        return ecc200.join(readings)
    except ecc200.Unjoined as why:
        return why.missing, why.doubled, why.strange, str(why)


def some_elements(chance):
    """GS1 data at random: with few digits in front the smallest codewords begin with a run sooner."""
    values = ["".join(chance.choice("ABCDEFGHIJKLMNOPQRSTUVWXYZ0123") for _ in range(chance.randrange(1, 11)))
              for _ in range(chance.randrange(1, 4))]
    return [gs1.Element(chance.choice(["10", "21", "240", "90", "91", "400"]), value) for value in values]


class Texts(PackageCase):
    def test_written(self):
        """Which bytes and marks a text becomes, and that it is written as these."""
        for text, charset, data, marks in WRITTEN:
            name = f"{text!r} in {charset}"
            self.row(name, outcome(charsets.content_of, text, charset), data if marks is None else (data, marks))
            if marks is None:
                for call in (ecc200.write, ecc200.encode):
                    self.row(f"{call.__name__}, {name}", outcome(lambda: call(text, charset=charset)), data)
                continue
            for call in (ecc200.write, ecc200.encode):
                got = ecc200.read(call(text, charset=charset))
                self.row(f"{call.__name__}, {name}", (got.data, got.marks), (data, marks))
            got = ecc200.read(ecc200.write(text, charset=charset, marks=[(0, 899)]))
            plain = text.encode() if charset is None and marks[:1] not in ((), ((0, 3),)) else data
            self.row(f"with marks that are given, {name}", (got.data, got.marks), (plain, ((0, 899),)))
        got = ecc200.read(ecc200.write("\u20ac\x1d1", gs1=True))
        self.row("a mark of a text behind FNC1", (got.items, got.marks, got.symbology, got.text),
                 ((256, 0xA4, 256, 49), ((1, 17),), "]d5", "\u20ac\x1d1"))
        self.row("marks by an iterator", ecc200.read(ecc200.write("\u20ac", marks=iter([(3, 7)]))).marks, ((3, 7),))

    def test_unmarked(self):
        for text, charset, data in UNMARKED:
            got = outcome(lambda: ecc200.read(ecc200.encode(text, charset=charset, extent=Extent.USUAL), None,
                                              Extent.USUAL).data)
            self.row(f"{text!r} in {charset}", got, data)

    def test_read(self):
        for name, charset, *spelled in corpus.rows("charsets"):
            items, marks, _ = corpus.content_of(name)
            text = corpus.characters(spelled[0]) if spelled else None
            for kind in (tuple, list, *([] if 256 in items else [bytes, bytearray, memoryview])):
                given = kind(bytes(items)) if kind is memoryview else kind(items)
                self.row(f"{name}, {kind.__name__}", charsets.text_of(given, marks), (text, charset))
            reading = ecc200.read(ecc200.write(items, marks=marks))
            self.row(f"a reading of {name}", (reading.text, reading.charset), (text, charset))
        for charset, text in ((LATIN_1, "\u00c3\u00a9"), ("cp437", "\u251c\u2310"), ("ascii", None),
                              ("utf-16be", "\uc3a9")):
            self.row(f"in {charset}", charsets.text_of(b"\xc3\xa9", [(0, 26)], charset), (text, charset))
        named = charsets.text_of([256, 65, 256, 0x82], [], "cp437")
        self.row("FNC1 in a charset that is named", named.text, "A\x1d\u00e9")
        self.raises("a charset that isn't there", LookupError, "none", lambda: charsets.text_of(b"A", [], "none"))

    def test_register(self):
        for number, name in REGISTER.items():
            text = "A" * 4
            told = charsets.text_of(text.encode(name), [(0, number)])
            self.row(f"the mark {number}", (told.text, "".encode(told.charset)), (text, b""))
            wanted = {0: 2, 1: 3, 170: 27}.get(number, number)
            for each in (name, told.charset):
                self.row(f"the number of {each}", charsets.assignment(each), wanted)
        for number in {*range(1000), 999_999} - {*REGISTER}:
            wanted = None, "binary" if number == 899 else f"ECI {number}"
            self.row(f"the mark {number}", charsets.text_of(b"A", [(0, number)]), wanted)
        for name in ("koi8-r", "cp1253", "utf-16", "utf-8-sig", "cp932"):
            self.row(f"the number of {name}", charsets.assignment(name), None)
        self.raises("the number of no charset", LookupError, "none", lambda: charsets.assignment("none"))

    def test_scripts(self):
        """Each text of ten scripts is read as it was written, in every charset that has it, by zxing-cpp too."""
        self.row("texts and scripts", (len(corpus.texts()), len({script for script, _ in corpus.texts()})), (200, 10))
        symbols, wanted = [], []
        for script, text in corpus.texts():
            symbol = ecc200.encode(text)
            reading = ecc200.decode(symbol)[0]
            own = {(0, 3)} if all(letter < "\u0100" for letter in text) else {(0, 26), *((0, it) for it in core._ALIKE)}
            self.row(f"{text!r}", (reading.text, set(reading.marks) - own), (text, set()))
            self.row(f"in its normal grid, {text!r}", ecc200.read(ecc200.normal(symbol)).text, text)
            symbols, wanted = [*symbols, symbol], [*wanted, text]
            for number, charset in REGISTER.items():
                if outcome(text.encode, charset) == UnicodeEncodeError or text.encode(charset).decode(charset) != text:
                    continue
                made = ecc200.encode(text, charset=charset)
                self.row(f"{text!r} in {charset}", ecc200.read(made).text, text)
                if number in OF_ZXING - UNLIKE.get(text, set()) and (number != BIG_5 or script == "Chinese"):
                    symbols, wanted = [*symbols, made], [*wanted, text]
        if self.has("ZXingReader", "texts that zxing-cpp reads"):
            for text, got in zip(wanted, said_by_zxing(symbols, self.room)):
                self.row(f"zxing-cpp, {text!r}", got, text)

    @needs.programs("ZXingReader")
    def test_alike(self):
        """zxing-cpp reads each character of each charset in which text that ISO/IEC 8859-1 hasn't is written."""
        letters = "".join(map(chr, (*range(32, 127), *range(160, 0xD800), *range(0xE000, 0x10000))))
        symbols, wanted = [], []
        for number, charset in ((it, charsets.charset_of(it)) for it in sorted(core._ALIKE)):
            there = letters.encode(charset, "ignore").decode(charset, "ignore")
            of_it = "".join(letter for letter in sorted({*there}) if core._has_alike(letter, number))
            self.holds(f"characters of ECI {number}", len(of_it) > 140, f"{len(of_it)}")
            for text in (of_it[at:at + 500] for at in range(0, len(of_it), 500)):
                data = core.encoded(text, charset)
                symbols, wanted = [*symbols, ecc200.encode(data, marks=[(0, number)])], [*wanted, (number, text)]
        for (number, text), got in zip(wanted, said_by_zxing(symbols, self.room)):
            self.row(f"ECI {number}, {text[-9:]!r}", got, text)

    def test_in_charsets(self):
        """A text is in the charset whose symbol is smallest, of equal ones in UTF-8; none is larger than zint's."""
        beyond = [text for _, text in corpus.texts() if any(letter > "\u00ff" for letter in text)]
        for text, given in itertools.product(beyond, ASKED):
            ways = [number for number in (26, *sorted(core._ALIKE)) if number == 26 or
                    all(core._has_alike(letter, number) for letter in text)]
            areas = [area(text.encode(charsets.charset_of(it)), marks=[("gs1" in given, it)], **given) for it in ways]
            if min(areas) == math.inf:
                self.row(f"{text!r}, {given}", area(text, **given), math.inf)
                continue
            got = ecc200.read(ecc200.write(text, **{"form": Form.SMALLEST, **given}))
            self.row(f"{text!r}, {given}", (got.marks, got.rows * got.columns),
                     ((("gs1" in given, ways[areas.index(min(areas))]),), min(areas)))
        if self.has("zint", "texts that zint writes"):
            path = os.path.join(self.room, "text")
            for text in beyond:
                places.wrote(text, path)
                rows = run(["zint", "-b", "71", "--square", "--dump", "-i", path])[1].splitlines()
                side = ecc200.encode(text).side
                self.holds(f"no larger than zint's, {text!r}", side <= len(rows) > 9, f"{side} and {len(rows)}")

    def test_guessed(self):
        """Texts of two letters of Latin-1, and longer ones at random, are read as they were written, by zxing-cpp too,
        and marked are those that it takes for UTF-8 or Shift JIS without a mark."""
        chance = random.Random(3)
        letters = [chr(code) for code in range(0xA0, 0x100)]
        some = [*letters, *map("".join, chance.sample([*itertools.product(letters, letters)], 300)),
                *("".join(chance.choice([*letters, *"abc 12"] * 2 + [*"abcdefgh "] * chance.randrange(9)) for _ in
                          range(chance.randrange(2, 12))) for _ in range(300)), *(text for text, charset, _, marks in
                                                                                  WRITTEN if not charset and not
                                                                                  text.isascii() and text < "\u0100")]
        symbols = list(map(ecc200.encode, some))
        for text, symbol in zip(some, symbols):
            self.row(f"{text!r}", ecc200.read(symbol).text, text)
        marked = sum(bool(ecc200.read(symbol).marks) for symbol in symbols)
        self.holds("some are marked, and some are not", 1 / 9 < marked / len(some) < 8 / 9, f"{marked} of {len(some)}")
        if self.has("ZXingReader", "Latin-1 that zxing-cpp reads"):
            bare = [ecc200.encode(text.encode(LATIN_1)) for text in some]
            both = (said_by_zxing(each, self.room) for each in (symbols, bare))
            for text, symbol, got, guess in zip(some, symbols, *both):
                self.row(f"zxing-cpp, {text!r}", got, text)
                self.row(f"is it marked, {text!r}", bool(ecc200.read(symbol).marks), guess != text)

    def test_pictured(self):
        self.needs_search("texts in pictures")
        path = os.path.join(self.room, "text.png")
        for script, text in dict(corpus.texts()).items():
            ecc200.encode(text, quiet=4).save(path)
            found, written = ecc200.find(path)[0].answer, ecc200.read(ecc200.encode(text))
            self.row(f"{script} in a picture", (found.text, found.charset, found.marks, found.head),
                     (text, written.charset, written.marks, None))
            self.row(f"{script} in one that is decoded", [reading.text for reading in ecc200.decode(path)], [text])

    def test_others(self):
        """What other encoders print is read as it was meant."""
        letters = corpus.marks("contents")
        names = [name for name, *_ in printed(letters)]
        self.row("letters", (len(names), {name.split()[0] for name in names}), (56, {"zint", "bwipp", "zxing"}))
        for name, reading, wanted in printed(letters):
            self.row(name, (reading.marks, reading.head, reading.symbology, reading.text), wanted)
            smallest = ecc200.encode(reading.items, marks=reading.marks, head=reading.head)
            again = ecc200.read(smallest)
            self.row(name, (again.items, again.marks, again.head), (reading.items, reading.marks, reading.head))
            self.holds(f"no smaller than that, {name}", smallest.side <= reading.rows, f"{smallest.side}")

    def test_made_anew(self):
        """So is what the encoders print that are installed here."""
        what = "letters of others, made anew"
        has_programs = [self.has(program, what) for program in ("zint", "gs", "java", "pngtopnm")]
        if all([*has_programs, self.is_there(BWIPP, what), self.is_there(ZXING, what)]):
            status, records, errors = run([PYTHON, "-m", "tests.corpus.make", "contents"], cwd=TOP)
            self.row("tests.corpus.make letters", (status, len(records.splitlines())), (0, 56))
            for name, reading, wanted in printed(map(corpus.mark_of, records.splitlines())):
                self.row(f"{name}, {errors}", (reading.marks, reading.head, reading.symbology, reading.text), wanted)

    def test_joined(self):
        """Parts in any order are put together; what is missing, doubled or of another file is named."""
        first, second, third = (part(number, 3, data) for number, data in enumerate((b"AB", b"", b"C\xe9"), 1))
        for order in itertools.permutations((first, second, third, part(1, 3, b"AB"))):
            got = ecc200.join(iter(order))
            self.row("parts in any order", (got.data, got.items, got.gs1, got.marks, got.parts, got.text, got.charset),
                     (b"ABC\xe9", (65, 66, 67, 233), False, (), (first, second, third), "ABC\u00e9", LATIN_1))
        other, more = part(1, 3, b"AB", (2, 1)), part(1, 4, b"AB")
        alone, programming = ecc200.read(ecc200.write(b"AB")), ecc200.read(ecc200.write(b"AB", head="programming"))
        twice, marked = part(1, 3, b"AC"), part(1, 3, b"AB", marks=[(0, 3)])
        file = "the file 1 2 of 3 parts"
        for given, wanted in (([first], ((2, 3), (), (), f"missing of {file}: part 2, 3")),
            ([third, third], ((1, 2), (), (), f"missing of {file}: part 1, 2")),
            ([first, second, twice, third], ((), (1,), (), "with two contents: part 1")),
            ([first, second, marked, third], ((), (1,), (), "with two contents: part 1")),
            ([third, other, first, second, more, alone, programming],
             ((), (), (1, 4, 5, 6), f"no part of {file}: reading 2, 5, 6, 7")),
            ([alone, first, twice], ((2, 3), (1,), (0,), f"missing of {file}: part 2, 3; with two contents: part 1; "
                                     f"no part of {file}: reading 1")),
            ([], ((), (), (), "there is no part of a structured append")),
            ([alone, programming], ((), (), (0, 1), "there is no part of a structured append")),
        ):
            self.row(f"what is wrong: {wanted[3]}", unjoined(given), wanted)
        try:
            ecc200.join([first])
        except ecc200.Unjoined as why:
            for name, again in (("pickled", pickle.loads(pickle.dumps(why))), ("copied", copy.copy(why))):
                self.row(name, (type(again), str(again), vars(again)), (type(why), str(why), vars(why)))
            self.row("a ValueError", isinstance(why, ValueError), True)

    def test_continued(self):
        """A charset holds to the next mark, in later parts too, and letters may be cut; FNC1 in front is GS1's."""
        data = "\u041f\u65e5\u672c".encode("utf-8")
        got = ecc200.join([part(1, 3, data[:1], marks=[(0, 26)]), part(2, 3, data[1:4]),
                           part(3, 3, data[4:] + b"\xcf", marks=[(4, 22)])])
        self.row("letters that are cut", (got.text, got.charset, got.marks, got.data),
                 ("\u041f\u65e5\u672c\u041f", "utf-8, windows-1251", ((0, 26), (8, 22)), data + b"\xcf"))
        got = ecc200.join([part(1, 2, [256, *b"10A"]), part(2, 2, [256, *b"21B"])])
        self.row("GS1 data", (got.gs1, got.data, got.items[0], gs1.text(gs1.split(got.data))),
                 (True, b"10A\x1d21B", 256, "(10)A(21)B"))
        binary = ecc200.join([part(1, 2, b"A", marks=[(0, 899)]), part(2, 2, b"B")])
        self.row("no text", (binary.text, binary.charset, binary.data), (None, "binary", b"AB"))
        letters = {}
        for _, reading, _ in printed(corpus.marks("contents")):
            if isinstance(reading.head, tuple):
                letters.setdefault(reading.head[1:], []).append(reading)
        self.row("parts of zint", {file: ecc200.join(reversed(parts)).text for file, parts in letters.items()},
                 {(3, 12, 34): "Осторожно, хрупкое: 日本 7", (2, 254, 1): "日本", (2, 1, 1): "010952123454321310ABC42"})

    def test_smallest(self):
        capitals, signs = b"ABCDEFGHIJKLMNOPQRSTUVWXY", b"-./-./-./-./-./-./-."
        for given, side in (({}, 18), ({"form": Form.SMALLEST}, 18), ({"form": Form.ASCII}, 22),
                            ({"profile": Profile.ASCII}, 22), ({"profile": Profile.SHORTER}, 22),
                            ({"profile": Profile.ASCII, "form": Form.SMALLEST}, 18)):
            self.row(f"letters, {given}", ecc200.encode(capitals, **given).side, side)
            self.row(f"as they are read, {given}", ecc200.read(ecc200.encode(capitals, **given)).data, capitals)
        for given, side in (({}, 18), ({"extent": Extent.WIDE}, 18), ({"extent": Extent.USUAL}, 20)):
            symbol = ecc200.encode(signs, **given)
            self.row(f"signs, {given}", (symbol.side, ecc200.read(symbol).data), (side, signs))
        basic = ecc200.encode(signs, extent=Extent.USUAL)
        self.row("for basic readers", ecc200.read(basic, extent=Extent.USUAL).data, signs)
        self.row("by its place", ecc200.encode(b"\x80" * 3, False, Profile.SHORTER).side, 12)
        for given, size in (({"shape": Shape.ANY}, (18, 18)), ({"shape": Shape.RECTANGLE}, (12, 36)),
                            ({"size": (16, 36)}, (16, 36))):
            self.row(f"letters, {given}", ecc200.encode(capitals, **given).size, size)
        reading = ecc200.read(ecc200.encode(b"AB", marks=[(1, 26)], head=(2, 5, 1, 254)))
        self.row("both", (reading.items, reading.marks, reading.head), ((65, 66), ((1, 26),), (2, 5, 1, 254)))
        self.row("programming", ecc200.read(ecc200.encode(b"AB", head="programming")).head, "programming")
        for more, code in (({"extent": Extent.USUAL, "marks": [(0, 26)]}, Code.TOO_LONG), ({"form": 3}, Code.PROFILE),
                           ({"profile": 2}, Code.PROFILE), ({"extent": 2}, Code.EXTENT),
                           ({"marks": [(3, 1)]}, Code.MARK), ({"head": (1, 1, 1, 1)}, Code.HEAD)):
            self.raises(f"refused: {more}", ecc200.Refused, code.name, lambda more=more: ecc200.encode(b"AB", **more))

    def test_elements(self):
        """GS1 symbols begin with FNC1, not with a run that says it, in each shape and extent, also behind a head."""
        chance, smaller = random.Random(7), 0
        for _ in range(300):
            data = gs1.message(some_elements(chance))
            for shape, extent in itertools.product(Shape, Extent):
                symbol = ecc200.encode(data, gs1=True, shape=shape, extent=extent)
                reading = ecc200.read(symbol, extent=extent)
                self.row(f"{data}, {shape.name}, {extent.name}", (reading.symbology, reading.data, reading.gs1),
                         ("]d2", data, True))
                smaller += symbol.size != ecc200.encode(data, gs1=True, shape=shape, form=Form.ASCII).size
            reading = ecc200.read(ecc200.encode(data, gs1=True, head=(1, 2, 3, 4), marks=[(1, 26)]))
            self.row(f"{data}, behind a head", (reading.symbology, reading.data, reading.marks, reading.head),
                     ("]d5", data, ((1, 26),), (1, 2, 3, 4)))
        self.holds("many are smaller than in ASCII", smaller > 600, f"{smaller} of 2400")
        for rest, length in itertools.product(itertools.product((49, 65, 97, 31, 225, 256), repeat=4), range(1, 5)):
            items = [256, *rest[:length]]
            self.row(f"{items}", ecc200.read(ecc200.encode(items)).symbology, "]d2")

    def is_there(self, path, what):
        """Whether a file of another package is installed; if it isn't, what it is needed for is left out."""
        return os.path.isfile(path) or self.leave_out(f"{what} ({path} isn't installed)")
