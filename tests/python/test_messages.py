"""The command ecc200: text, ECI, structured append, reader programming and forms, in each subcommand."""
import json
import random
import re

from tests import corpus
from tests.library import model
from tests.python.common import PackageCase, ecc, outcome, run, saved
from tests.python.test_surface import text
from tests.support import needs

import ecc200
from ecc200 import Extent, Form, explaining
from ecc200.spelling import Misspelled, of_part, of_spelling, shown, spelled

FORMS = {(): Form.SMALLEST, ("--form", "smallest"): Form.SMALLEST, ("--form", "ascii"): Form.ASCII,
         ("--form", "shorter"): Form.SHORTER}


def grids(output):
    return [record.split() for record in output.split("\n\n") if record]


def escapes(*words, given=b""):
    """What the symbols say, spelled, that `ecc200 write` makes of these words."""
    return ecc("read --escapes", given=ecc("write", *words, given=given)[1])[1]


def some_letter(chance):
    """Items, marks and a head by chance, of characters that are encoded in each encodation."""
    kinds = (range(48, 58), range(65, 91), range(97, 123), range(32, 95), range(256), (256, 65, 48, 29, 200))
    items = [chance.choice(chance.choice(kinds)) for _ in range(chance.randrange(4))]
    items += chance.choices(chance.choice(kinds), k=chance.choice((0, 1, 3, 8, 30)))
    items = [*b"[)>\x1e05\x1d", *items, *b"\x1e\x04"] if chance.random() < 0.1 else items
    numbers = [chance.choice((3, 26, 899, chance.randrange(16383), chance.randrange(1000000)))
               for _ in range(chance.choice((0, 0, 1, 3)))]
    of = chance.randint(2, 16)
    part = chance.randint(1, of), of, chance.randint(1, 254), chance.randint(1, 254)
    return items, sorted((chance.randint(0, len(items)), number) for number in numbers), chance.choice(
        (None, "programming", part))


def dealt_anew(rows):
    """A 144 by 144 with its check codewords dealt into blocks from the first one."""
    data, checks, places = 1558, 620, ecc200.places(144)
    words = list(ecc200.inspect(rows).mended)
    words[data:] = [words[data + number - number % 10 + (number + 2) % 10] for number in range(checks)]
    return [bytes(words[place.codeword] >> 8 - place.bit & 1 if place.kind == ecc200.Kind.BIT else module
                  for place, module in zip(*pair)) for pair in zip(places, rows)]


class Messages(PackageCase):
    def test_vectors(self):
        """All marks of zint are read, told in JSON, normalised, checked, explained and written again."""
        records = corpus.marks("sizes")
        file = saved(self.room, "sizes.txt", corpus.grids(records))
        lines = [mark.said for mark in records]
        self.row("there are 99", len(records), 99)
        status, output, errors = ecc("read --escapes", file)
        self.row("read --escapes", (status, errors, output.splitlines()), (0, "", lines))
        status, output, errors = ecc("read --json", file)
        told = [json.loads(line) for line in output.splitlines()]
        self.row("read --json", (status, errors, [one["message"] for one in told]), (0, "", lines))
        for mark, one in zip(records, told):
            name, reading = mark.name, ecc200.read(mark.lines)
            head = list(reading.head) if isinstance(reading.head, tuple) else reading.head
            self.row(f"JSON of {name}", (one["marks"], one["head"]), ([*map(list, reading.marks)], head))
            self.row(f"its text in JSON, {name}", (one["identifier"], one["charset"], one["dealing"], one["text"]),
                     (reading.symbology, reading.charset, 0, reading.text))
            self.row(f"its size in JSON, {name}", (one["rows"], one["columns"]), (mark.rows, mark.columns))
        normals = [outcome(ecc200.normal, mark.lines) for mark in records]
        kept = [rows for rows in normals if isinstance(rows, list)]
        status, output, errors = ecc("normal", file)
        self.row("normal", (status, errors.count("longer than"), output),
                 (1, len(normals) - len(kept), "".join(text(rows) if isinstance(rows, list) else "\\no\n\n"
                                                       for rows in normals)))
        self.row("normal grids are read", ecc("read --escapes", given=output)[1].splitlines(),
                 [line if isinstance(rows, list) else "\\no" for line, rows in zip(lines, normals)])
        status, output, errors = ecc("write --escapes", given="\n".join(lines))
        self.row("write --escapes", (status, errors), (0, ""))
        self.row("what is written is read", ecc("read --escapes", given=output)[1].splitlines(), lines)
        status, output, errors = ecc("write --escapes --form ascii", given="\n".join(lines))
        self.row("the normal form is the normal grid", output, "".join(map(text, kept)))
        self.row("check", [line.split(",")[0] for line in ecc("check", file)[1].splitlines()],
                 [f"{mark.rows}x{mark.columns}" for mark in records])
        status, output, errors = ecc("explain", file)
        identifiers = re.findall("^Its symbology identifier is (.*)$", output, re.M)
        self.row("explain", (status, errors, identifiers), (0, "", [one["identifier"] for one in told]))
        strange = [said for said in lines if re.match(r"\\[EAP]", said)]
        status, output, errors = ecc("read --usual --escapes", file)
        self.row("--usual refuses ECI and heads", (status, [said for said in output.splitlines() if said in strange],
                                                   errors.count("leave out --usual") >= len(strange) > 15),
                 (1, [], True))

    def test_texts(self):
        """Texts are read as they were written, in each form, and no form is smaller than the usual one."""
        some, areas = [each for _, each in corpus.texts()], {}
        self.row("there are 200", len(some), 200)
        for words in (*FORMS, ("--shape", "any"), ("--basic",), ("--charset", "utf-8"), ("--eci", "26")):
            status, output, errors = ecc("write", *words, given="\n".join(some) + "\n")
            self.row(f"write {words}", (status, errors), (0, ""))
            areas[words] = [len(rows) * len(rows[0]) for rows in grids(output)]
            for more in ((), ("--usual",)) if words == ("--basic",) else ((),):
                self.says(f"read {more} of {words}", ecc("read", *more, given=output),
                          output="".join(one.replace("\\", "\\\\") + "\n" for one in some))
            told = [json.loads(line) for line in ecc("read --json", given=output)[1].splitlines()]
            self.row(f"JSON of {words}", [one["text"] for one in told], some)
        for words, kept in areas.items():
            if words != ("--shape", "any") and words != ("--basic",) and words != ("--charset", "utf-8"):
                self.holds(f"the smallest beside {words}", all(map(int.__le__, areas[()], kept)))
        self.holds("the smallest of all shapes", all(map(int.__le__, areas["--shape", "any"], areas[()]))
                   and areas["--shape", "any"] != areas[()])

    @needs.programs("ZXingReader")
    def test_texts_by_others(self):
        """zxing-cpp reads texts as they were written, and heads, and GS1 data behind an ECI."""
        some = [each for _, each in corpus.texts()]
        ecc("write -o text.png --module 5", given="\n".join(some), folder=self.room)
        for number, one in enumerate(some, 1):
            _, output, _ = run(["ZXingReader", "-format", "DataMatrix", f"text-{number:03}.png"], cwd=self.room)
            found = re.search(r'^Text: +"(.*)"$', output, re.M)
            self.row(f"text {number}", found and found[1], one)
        for words, told in [
            (("--append", "2/5:001002", "Gr\u00f6\u00dfe"), "Structured Append: symbol 2 of 5 (parity/id: '258')"),
            (("--programming", "SETUP"), "Reader Initialisation/Programming"),
            (("--eci", "26", "--gs1", "(10)A"), "Content:    GS1"),
        ]:
            ecc("write -o head.png --module 5", *words, folder=self.room)
            output = run(["ZXingReader", "-format", "DataMatrix", "head.png"], cwd=self.room)[1]
            self.holds(f"{words} by zxing-cpp", told in output.splitlines(), output)

    def test_charsets(self):
        for words, wanted in [
            (("caf\u00e9",), r"caf\xE9"), (("\u00c3\u00a9",), r"\E{3}\xC3\xA9"), (("20 \u00b0C",), r"\E{3}20 \xB0C"),
            (("\u65e5",), r"\E{26}\xE6\x97\xA5"), (("--charset", "utf-8", "\u65e5"), r"\xE6\x97\xA5"),
            (("--charset", "shift_jis", "\u65e5"), r"\E{20}\x93\xFA"), (("--charset", "koi8-r", "\u0416"), r"\xF6"),
            (("--charset", "iso-8859-1", "caf\u00e9"), r"caf\xE9"),
            (("--eci", "26", "\u00e9"), r"\E{26}\xC3\xA9"), (("--eci", "3", "\u00e9"), r"\E{3}\xE9"),
            (("--eci", "22", "\u0416"), r"\E{22}\xC6"), (("--eci", "200", "ABC"), r"\E{200}ABC"),
            (("--eci", "200", "--charset", "utf-8", "\u00e9"), r"\E{200}\xC3\xA9"),
            (("--eci", "9", "--hex", "D9A4"), r"\E{9}\xD9\xA4"), (("--eci", "0", ""), r"\E{0}"),
            (("--eci", "999999", "A"), r"\E{999999}A"),
            (("--eci", "26", "--gs1", "(10)A"), r"\F\E{26}10A"), (("--eci", "3", "--escapes", r"\FA"), r"\F\E{3}A"),
            (("--escapes", r"\E{9}\xD9\E{26}" + "\u00e9"), r"\E{9}\xD9\E{26}\xC3\xA9"),
            (("--escapes", r"A\E{3}\E{4}"), r"A\E{3}\E{4}"), (("--eci", "7", "--escapes", r"\E{3}A"), r"\E{7}\E{3}A"),
            (("--basic", "\u65e5"), r"\xE6\x97\xA5"), (("--basic", "\u00c3\u00a9"), r"\xC3\x83\xC2\xA9"),
            (("--basic", "20 \u00b0C"), r"20 \xB0C"), (("--basic", "--charset", "cp437", "\u00e9"), r"\x82"),
            (("--programming", "SETUP"), r"\PSETUP"), (("--append", "2/5", "A"), r"\A{2/5:001001}A"),
            (("--append", "1/2", "\u00e9"), r"\A{1/2:001001}\E{3}\xE9"),
            (("--append", "1/2", "\u65e5"), r"\A{1/2:001001}\E{26}\xE6\x97\xA5"),
            # (the charset whose symbol is smallest, as it is asked for)
            (("Αθήνα",), r"\E{9}\xC1\xE8\xDE\xED\xE1"), (("Iğdır",), r"\E{26}I\xC4\x9Fd\xC4\xB1r"),
            (("--size", "24x24", "Αθήνα"), r"\E{26}\xCE\x91\xCE\xB8\xCE\xAE\xCE\xBD\xCE\xB1"),
            (("--append", "1/2", "Αθήνα"), r"\A{1/2:001001}\E{26}\xCE\x91\xCE\xB8\xCE\xAE\xCE\xBD\xCE\xB1"),
            (("--form", "ascii", "Iğdır"), r"\E{5}I\xBBd\xB9r"),
            (("大阪 緑茶",), r"\E{26}\xE5\xA4\xA7\xE9\x98\xAA \xE7\xB7\x91\xE8\x8C\xB6"),
            (("--shape", "any", "大阪 緑茶"), r"\E{20}\x91\xE5\x8D\xE3 \x97\xCE\x92\x83"),
            (("--append", "16/16:254001", "--hex", "E9"), r"\A{16/16:254001}\xE9"),
        ]:
            self.row(f"write {words}", escapes(*words), wanted + "\n")
        self.row("--bytes --eci", escapes("--bytes", "-", "--eci", "3", given=b"\xff\n"), "\\E{3}\\xFF\\x0A\n")
        for words, part in [(("--eci", "200", "\u00e9"), "the charset ascii has no '\u00e9'"),
                    (("--eci", "3", "\u65e5"), "the charset iso-8859-1 has no '\u65e5'"),
                    (("--eci", "20", "A\u00a5"), "the charset shift_jis has no '\u00a5'"),
                    *((("--charset", "shift_jis", "A\u00a5", *words), "the charset shift_jis has no '\u00a5'")
                      for words in ((), ("--escapes",))),
                    *((("--basic", *words), "--basic is for know neither ECI") for words in (
                        ("--eci", "3", "A"), ("--form", "ascii", "--programming", "A"), ("--escapes", r"\E{3}A"))),
                    (("--programming", "--escapes", r"\PA"), "it begins with a head"),
                    (("--escapes", r"A\PB"), "followed by 'P'"), (("--escapes", r"\E{1000000}A"), "followed by 'E'"),
                    (("--escapes", r"\A{6/5}A"), "a part of 2 to 16 is wanted")]:
            self.says(f"write {words}", ecc("write", *words), 1, "", [part])
        for words, part in [(("--eci", "1000000", "A"), "from 0 to 999999"), (("--eci", "-1", "A"), "from 0 to 999999"),
                            (("--append", "2", "A"), "a part of 2 to 16 is wanted"),
                            (("--append", "1/2", "--programming", "A"), "not allowed with"),
                            (("--form", "none", "A"), "there is no none"),
                            (("--form", "ascii", "--shorter"), "not allowed")]:
            self.says(f"usage: write {words}", ecc("write", *words), 2, "", [part])

    def test_read_charsets(self):
        """Text is read by the charsets that marks name, or by that of the command line, and else spelled."""
        for items, marks, words, wanted in [
            (b"\xcf\xf0", [(0, 22)], (), "\u041f\u0440"), (b"\xe9\xd9\xa4", [(0, 3), (1, 26)], (), "\u00e9\u0664"),
            (b"\xe9\n\xd9\xa4", [(0, 3), (1, 26)], (), r"\E{3}\xE9\E{26}\x0A\xD9\xA4"),
            (b"A\\\xe9\xd9\xa4", [(0, 3), (3, 26)], (), "A\\\\\u00e9\u0664"),
            (b"ABC", [(0, 200)], (), r"\E{200}ABC"), (b"\xff", [(0, 899)], (), r"\E{899}\xFF"),
            (b"\xe9", [(0, 26)], (), r"\E{26}\xE9"), (b"\xe9", [(0, 26)], ("--charset", "latin-1"), "\u00e9"),
            (b"A\x85", [(0, 3)], (), r"A\x85"), ([65, 256, 66], [(0, 26)], (), r"\E{26}A\FB"),
            (b"\x00A\x00\n", [(0, 25)], (), r"A\x00\x0A"), (b"1\xa0kg\xad", [], (), "1\u00a0kg\u00ad"),
            ("\u0645\u06cc\u200c\u062e \U0001f468\u200d\U0001f469".encode(), [(0, 26)], (),
             "\u0645\u06cc\u200c\u062e \U0001f468\u200d\U0001f469"),
            ("\u200fA\u202eB\u2028".encode(), [(0, 26)], (), "\u200fA" + r"\xE2\x80\xAEB\xE2\x80\xA8"),
            (b"\xff\xfea\0\x01\0", [], ("--charset", "utf-16"), r"\xFF\xFEa\x00\x01\x00"),
            (b"m\x1b\x9fKA", [], ("--charset", "iso2022_jp_2004"), r"m\x1B\x9FKA"),
        ]:
            grid = text(ecc200.write(items, marks=marks))
            self.says(f"read {words} of {items!r}, {marks}", ecc("read", *words, given=grid), output=wanted + "\n")
        told = json.loads(ecc("read --json", given=text(ecc200.write(b"\xe9", marks=[(0, 26)])))[1])
        self.row("JSON of what is no text", (told["text"], told["charset"], told["hex"], told["message"]),
                 (None, "utf-8", "e9", r"\E{26}\xE9"))

    def test_forms(self):
        for message in (b"123456", b"Mitsubadoor", b"ABC.DEF-GHI/JKL+MNO*123", b"\xff" * 30,
                        b"[)>\x1e05\x1dAB\x1dCD\x1e\x04"):
            for words, form in FORMS.items():
                self.says(f"write {words} {message!r}", ecc("write", *words, "--hex", message.hex()),
                          output=text(ecc200.write(message, form=form)))
            basic = ecc("write --basic --hex", message.hex())[1]
            self.row(f"basic {message!r}", basic, text(ecc200.write(message, form=Form.SMALLEST, extent=Extent.USUAL)))
            self.row(f"read --usual, {message!r}", ecc("read --usual --hex", given=basic)[1], message.hex() + "\n")
        self.row("--shorter", ecc("write --shorter --hex", "80" * 9), ecc("write --form shorter --hex", "80" * 9))
        largest = max(ecc200.sizes(), key=lambda size: size.data_codewords)
        for message in [b"7" * 3116, b"A" * 2335, b"\xff" * 1556]:
            longer = message + message[:1]
            self.says(f"{len(message)} of {message[:1]}", ecc("write --bytes -", given=message)[:1] + ("", ""))
            self.says(f"{len(longer)} of {message[:1]}", ecc("write --bytes -", given=longer), 1, "",
                      ["3116 digits, 2335 capitals, or 1556 bytes of any kind"])
        self.row("the largest size", largest.data_codewords, 1558)

    def test_heads(self):
        """Parts of what several symbols say, and reader programming, are written, and told by each subcommand."""
        self.says("parts that follow one another", ecc("read", given=ecc("write --append 2/4:001002 one two three")[1]),
                  output="\\A{2/4:001002}one\n\\A{3/4:001002}two\n\\A{4/4:001002}three\n")
        self.says("more messages than parts", ecc("write --append 4/4 one two"), 1,
                  text(ecc200.write(b"one", head=(4, 4, 1, 1), form=Form.SMALLEST)),
                  ["message 2: it would be part 5, and there are 4"])
        part = saved(self.room, "part", text(ecc200.write(b"0109521234543213", True, head=(2, 4, 1, 2))))
        setup = saved(self.room, "setup", text(ecc200.write(b"A\xe9", head="programming")))
        self.says("read", ecc("read --no-filename", part, setup),
                  output="\\A{2/4:001002}(01)09521234543213\n\\PA\u00e9\n")
        self.says("read --escapes", ecc("read --escapes --no-filename", part, setup),
                  output="\\A{2/4:001002}\\F0109521234543213\n\\PA\\xE9\n")
        self.says("read --hex", ecc("read --hex --no-filename", part, setup), 0,
                  "30313039353231323334353433323133\n" "41e9\n",
                  ["part, symbol 1: it is part 2 of 4 of the file 001002 (structured append)\n",
                   "setup, symbol 1: it is an instruction to the reader (reader programming)\n"])
        first, second = (json.loads(line) for line in ecc("read --json", part, setup)[1].splitlines())
        self.row("read --json", (first["head"], first["identifier"], first["elements"][0]["title"], second["head"]),
                 ([2, 4, 1, 2], "]d2", "GTIN", "programming"))
        whole = saved(self.room, "whole", text(ecc200.write(b"A\xe9")))
        self.row("a whole message in JSON", json.loads(ecc("read --json", whole)[1])["head"], None)
        got = ecc("compare", whole, setup)
        self.row("compare", (got[0], got[1].splitlines()[1:]),
                 (1, [f"{setup}: \\PA\u00e9 (12x12, 0 codewords corrected)",
                      "different: the first is a whole message, and the second an instruction to the reader (reader "
                      "programming)"]))
        self.says("normal", ecc("normal", part), output=text(ecc200.write(b"0109521234543213", True, head=(2, 4, 1,
                                                                                                           2))))
        got = ecc("explain", part)
        for words in ("1    233  ASCII       structured append", "2     29              part 2 of 4",
                      "3      1              the first number of their file, 1",
                      "It is part 2 of 4 of the file 001002 (structured append)\nIts symbology identifier is ]d2\n"):
            self.holds(f"explain: {words}", got[0] == 0 and words in got[1], str(got))
        got = ecc("explain", setup)
        self.holds("explain reader programming", "1    234  ASCII       reader programming" in got[1]
                   and "It is an instruction to the reader" in got[1], str(got))

    def test_joined(self):
        """Parts are put together, wherever they are found; what is missing, twice there or of another file is said."""
        some = "20 \u00b0C, ", "\u65e5\u672c\u8a9e, ", "caf\u00e9"
        for number, grid in enumerate(grids(ecc("write --append 1/3:001002", *some)[1]), 1):
            saved(self.room, str(number), text(grid))
        whole = "".join(some) + "\n"
        self.says("parts in order", ecc("join 1 2 3", folder=self.room), output=whole)
        self.says("in another order, one twice", ecc("join 3 1 2 1", folder=self.room), output=whole)
        self.says("--escapes", ecc("join --escapes 1 2 3", folder=self.room),
                  output=r"\E{3}20 \xB0C, \E{20}\x93\xFA\x96{\x8C\xEA, \E{3}caf\xE9" + "\n")
        told = json.loads(ecc("join --json 3 1 2", folder=self.room)[1])
        self.row("--json", (told["text"], told["parts"], told["strange"], told["marks"]),
                 ("".join(some), [{"file": str(number), "symbol": 1, "part": number} for number in (1, 2, 3)], [],
                  [[0, 3], [7, 20], [15, 3]]))
        self.says("one is missing", ecc("join 1 3", folder=self.room), 1, "",
                  ["ecc200: part 2 of 3 of the file 001002 is missing\n"])
        told = json.loads(ecc("join --json 3", folder=self.room)[1])
        self.row("missing in JSON", (told["missing"], told["doubled"], told["strange"], "2 of 3" in told["refused"]),
                 ([1, 2], [], [], True))
        saved(self.room, "other 2", ecc("write --append 2/3:001002 other")[1])
        self.says("two contents", ecc("join 1 2 3", "other 2", folder=self.room), 1, "",
                  ["part 2 of 3 of the file 001002 is there more than once", ": 2, symbol 1; other 2, symbol 1\n"])
        saved(self.room, "other file", ecc("write --append 2/3:009009 other")[1])
        got = ecc("join 1 2 3", "other 2", "other file", folder=self.room)
        self.says("two contents beside another file", got, 1, "", [": 2, symbol 1; other 2, symbol 1\n", "file 009009"])
        self.row("two in JSON", json.loads(ecc("join --json 1 2 3", "other 2", folder=self.room)[1])["doubled"], [2])
        saved(self.room, "none", ecc("write none")[1])
        got = ecc("join 1", "other file", "none", "2", "3", folder=self.room)
        self.says("parts of another file, and no parts", got, 1, whole,
                  ["other file, symbol 1: it is part 2 of 3 of the file 009009",
                   "none, symbol 1: it is a whole message"])
        told = json.loads(ecc("join --json 1 none 2 3", folder=self.room)[1])
        self.row("the same in JSON", (told["text"], told["strange"]), ("".join(some), [{"file": "none", "symbol": 1}]))
        self.says("no part", ecc("join none", folder=self.room), 1, "",
                  ["none, symbol 1: it is a whole message", "there is no part of a structured append"])
        self.says("nothing", ecc("join"), 1, "", ["there is no part of a structured append"])
        self.says("--charset", ecc("join --charset cp437 1 3", "other 2", folder=self.room),
                  output="20 \u2591C, othercaf\u0398\n")
        self.says("no such charset", ecc("join --charset x 1", folder=self.room), 2, "", ["no charset 'x'"])
        lost = saved(self.room, "lost", text([bytes(10)] * 10))
        self.says("one unread", ecc("join", lost, "1", "2", "3", folder=self.room), 1, whole, ["lost, symbol 1: 27 of"])
        self.says("--usual", ecc("join --usual 1 2 3", folder=self.room), 1, "", ["leave out --usual"])
        elements = ecc("write --append 1/2 --gs1", "(10)A")[1] + ecc("write --append 2/2 B")[1]
        self.says("GS1 data", ecc("join", given=elements), output="(10)AB\n")
        self.says("--hex", ecc("join --hex", given=elements), output="31304142\n")
        if self.wanted_module("PIL.Image", "Pillow", "parts in a picture") and self.has_sampler("parts in a picture"):
            ecc("write --append 1/3:001002 --sheet 100x60 -o sheet.png", *some, folder=self.room)
            self.row("parts in a picture", ecc("join --most 3 sheet.png", folder=self.room)[1], whole)

    def test_compared(self):
        """What is the same, and what differs in items, marks, bytes and identifiers; what can't be compared."""
        def kept(name, items, **more):
            return saved(self.room, name, text(ecc200.write(items, **more)))
        plain, marked = kept("plain", b"\xe9"), kept("marked", b"\xe9", marks=[(0, 3)])
        coded, other = kept("coded", "\u00e9".encode(), marks=[(0, 26)]), kept("other", b"\xe8")
        three, letter = kept("three", b"\x80" * 3), kept("letter", b"A")
        for pair, status, end in [
            ((plain, plain), 0, "the same"), ((three, kept("shorter", b"\x80" * 3, profile=1)), 0, "the same"),
            ((plain, marked), 1, "different: their ECI marks differ, which say how the bytes are meant"),
            ((plain, coded), 1, "different: they say the same text in other bytes, iso-8859-1 and utf-8"),
            ((plain, other), 1, "different: they differ from item 1 on"),
            ((three, kept("four", b"\x80" * 4)), 1, "different: they differ from item 4 on"),
            ((kept("gs", [256, 65, 0x1D, 66]), kept("fnc1", [256, 65, 256, 66])), 1, "has the byte 0x1D"),
            ((letter, kept("elements", b"A", gs1=True)), 1, "and the other isn't"),
        ]:
            got = ecc("compare", *pair)
            self.holds(f"{pair}", got[0] == status and got[1].endswith(f"{end}\n") and not got[2], str(got))
        lost = saved(self.room, "lost", text([bytes(10)] * 10))
        for name, pair, part in [("one isn't read", (plain, lost), "27 of the 36"),
                                 ("one isn't there", (plain, lost + "x"), "No such file"),
                                 ("two in one", (plain, saved(self.room, "two", text(ecc200.write(b"A")) * 2)),
                                  "there are 2"),
                                 ("none in one", (saved(self.room, "empty", ""), plain), "there are no grids")]:
            got = ecc("compare", *pair)
            self.holds(name, got[0] >= 2 and part in got[2], str(got))
        self.holds("texts are shown", f"{coded}: \u00e9 (" in ecc("compare", plain, coded)[1])
        size = model.SIZE_OF[10, 10]
        modules = model.modules_of(size, model.codewords(size, (236, 232, 66)))  # a macro, and FNC1 as second codeword
        framed = saved(self.room, "a macro", text(bytes(modules[k:k + 10]) for k in range(0, 100, 10)))
        got = ecc("compare", kept("in ASCII", [*b"[)>\x1e05\x1d", 256, *b"A\x1e\x04"]), framed)
        self.row("symbology identifiers", (got[0], got[1].splitlines()[2:], got[2]),
                 (0, ["their symbology identifiers differ, ]d1 and ]d3, which scanners tell beside what is said",
                      "the same"], ""))

    def test_explained(self):
        for items, marks, parts in [
            (b"A", [(0, 26)], ["1    241  ASCII       an ECI", "2     27  ECI         ECI 26, utf-8",
                               "It says A\nIts charset is utf-8\nIts symbology identifier is ]d4\n"]),
            (b"A", [(0, 200)], ["2    128  ECI         ECI 200, with the next codeword",
                                "3     74  ECI         ECI 200, with the codeword before",
                                "It says \\E{200}A\nIts charset is ECI 200\n"]),
            (b"A", [(0, 16383)], ["2    192  ECI         ECI 16383, with the next two codewords",
                                  "3      1  ECI         ECI 16383, with the codewords beside it",
                                  "4      1  ECI         ECI 16383, with the two codewords before"]),
            (b"\xe9", [], ["It says \u00e9\nIts charset is iso-8859-1\nIts symbology identifier is ]d1\n"]),
            (b"A", [], ["It says A\nIts symbology identifier is ]d1\n"]),
        ]:
            got = ecc("explain", given=text(ecc200.write(items, marks=marks)))
            self.holds(f"explain {items!r}, {marks}", got[0] == 0 and not got[2] and all(part in got[1] for part in
                                                                                         parts), str(got))
        for message, name in [(b"ABC.DEF-GHI/JKL+MNO*123", "EDIFACT"), (b"\xff" * 30, "Base 256"),
                              (b"ABCDEFGHIJKL" * 5, "C40"), (b"abcdefghijkl" * 5, "Text")]:
            words = json.loads(ecc("explain --json", given=text(ecc200.write(message, form=Form.SMALLEST)))[1])
            self.holds(f"{name} is named", name in {word["encodation"] for word in words["codewords"]}, str(words))
        words = json.loads(ecc("explain --json", given=text(ecc200.write(b"A", size=(12, 12))))[1])["codewords"]
        self.row("pads stand in ASCII", [word["encodation"] for word in words], ["ASCII"] * 5 + [""] * 7)
        told = json.loads(ecc("explain --json", given=text(ecc200.write(b"A", marks=[(0, 26)])))[1])
        self.row("explain --json", (told["identifier"], told["marks"], told["head"], told["dealing"]),
                 ("]d4", [[0, 26]], None, 0))

    def test_letters(self):
        """Letters by chance are spelled, written in each form, read and explained as they are."""
        chance = random.Random(16022)
        for number in range(150):
            items, marks, head = some_letter(chance)
            self.row(f"spelled {number}", of_spelling(spelled(items, marks, head), "ascii"), (items, marks, head))
            for form in Form:
                reading = explaining.explain(ecc200.write(items, marks=marks, head=head, form=form)).reading
                self.row(f"letter {number}, {form.name}", reading and (list(reading.items), list(reading.marks),
                                                                       reading.head), (items, marks, head))

    def test_dealings(self):
        """A 144 by 144 whose check codewords are dealt as libdmtx deals them is read, and is told to be that."""
        rows = ecc200.write(b"Mitsubadoor", size=(144, 144))
        other = text(dealt_anew(rows))
        words = "check codewords dealt into blocks from the first one, as libdmtx deals them"
        self.says("read", ecc("read", given=other), output="Mitsubadoor\n")
        self.row("its JSON", json.loads(ecc("read --json", given=other)[1])["dealing"], 1)
        self.holds("check", ecc("check", given=other)[1].endswith(f" (at most 31), {words}\n"))
        self.holds("check of the usual one", words not in ecc("check", given=text(rows))[1])
        got = ecc("explain", given=other)
        self.holds("explain", got[0] == 0 and f"It has its {words}\n" in got[1], got[1][-300:])
        blocks = re.compile(r" a check codeword of block (\d+)")
        self.row("blocks of check codewords", blocks.findall(got[1])[:3], ["1", "2", "3"])
        self.row("of the usual one", blocks.findall(ecc("explain", given=text(rows))[1])[:3], ["9", "10", "1"])

    def test_spellings(self):
        for items, marks, head, wanted in [(b"AB", [(1, 26)], None, r"A\E{26}B"),
                    (b"AB", [(0, 3), (1, 26), (1, 9), (2, 0)], None, r"\E{3}A\E{26}\E{9}B\E{0}"),
                    (b"", [(0, 3)], "programming", r"\P\E{3}"), ([256, 92], [], (2, 5, 1, 254), r"\A{2/5:001254}\F\\")]:
            self.row(f"spelled {wanted}", spelled(items, marks, head), wanted)
            self.row(f"spelled and back {wanted}", of_spelling(wanted, "ascii"), (list(items), marks, head))
        everything = [*range(256), 256]
        self.row("spelled and back", of_spelling(spelled(everything), "latin-1"), (everything, [], None))
        for wrong in ("\\", "\\q", "\\x1", "\\xg0"):
            self.raises(f"{wrong}", Misspelled, "backslash", lambda wrong=wrong: of_spelling(wrong, "latin-1"))
        self.row("shown without a mark", [shown(b"A\\"), shown(b"\xe9"), shown("\u00e9".encode()),
                                          shown(b"\xe9", (), "cp1252"), shown([256, 233])],
                 ["A\\\\", "\u00e9", "\u00e9", "\u00e9", "\\F\\xE9"])
        self.row("shown", [shown(b"A\\\xe9", [(0, 3)]), shown(b"\xe9", [(0, 200)]), shown([256, 65], [(1, 3)])],
                 ["A\\\\\u00e9", r"\E{200}\xE9", r"\F\E{3}A"])
        self.row("parts", [of_part("2/5"), of_part("16/16:254001")], [(2, 5, 1, 1), (16, 16, 254, 1)])
        for wrong in ("0/5", "6/5", "1/1", "1/17", "2/5:000001", "2/5:001255", "2/5:1001", "2", "a/b", "2/5:",
                      "02/005"):
            self.raises(f"no part, {wrong}", Misspelled, "", lambda wrong=wrong: of_part(wrong))
