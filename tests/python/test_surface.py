"""The command ecc200: what it prints, its statuses, and its refusals in words."""
import json
import os

from tests import corpus
from tests.python.common import PYTHON, SAMPLER, VERSION, WORDS, PackageCase, ecc, environment, marks, run
from tests.support import places

import ecc200
from ecc200 import advice


def text(rows):
    return "".join("".join(map(str, row)) + "\n" for row in rows) + "\n"


def smallest(message, gs1=False):
    """The grid of the smallest symbol of a message, as `ecc200 write` writes it."""
    return text(ecc200.write(message, gs1, form=ecc200.Form.SMALLEST))


def edifact():
    """A symbol of zint in EDIFACT, which the usual extent leaves out."""
    for lines in marks():
        try:
            ecc200.read(lines, extent=ecc200.Extent.USUAL)
        except ecc200.Refused as why:
            if why.value == 240:
                return "\n".join(lines) + "\n"
    raise LookupError("no mark has EDIFACT")


def hurt(codewords, rows=None):
    """A symbol, of side 10 if there is none, with this many wrong codewords."""
    rows = [bytearray(row) for row in rows or ecc200.write(b"123456")]
    places = ecc200.places(len(rows), len(rows[0]))
    for word in range(codewords):
        row, column = next((y, x) for y, line in enumerate(places) for x, place in enumerate(line)
                           if place[:2] == (ecc200.Kind.BIT, word))
        rows[row][column] ^= 1
    return rows


def turned(rows):
    return [bytes(column) for column in zip(*rows)][::-1]


def otherwise(rows):
    """Ways in which a grid may stand, each with its name, that grid, and words by which it is named."""
    left, over, margin = turned(rows), turned(turned(rows)), bytes(len(rows[0]) + 3)
    return [("left", left, "is turned to the left by a quarter"), ("over", over, "is upside down"),
            ("right", turned(over), "is turned to the right by a quarter"),
            ("mirrored", [row[::-1] for row in rows], "is mirrored"),
            ("inverted", [bytes(1 - module for module in row) for row in rows], "is light on dark"),
            ("twice as large", [bytes(module for module in row for _ in "ab") for row in rows for _ in "ab"],
             "has 2 by 2 characters"),
            ("a margin", [margin, *(b"\0" + row + b"\0\0" for row in rows), margin], "has a light margin")]


class Surface(PackageCase):
    def test_usage(self):
        status, output, _ = ecc("--help")
        commands = ("read", "write", "join", "check", "normal", "compare", "explain", "sizes")
        self.holds("--help", status == 0 and all(command in output for command in commands), output)
        self.says("--version", ecc("--version"), output=f"ecc200 {VERSION}\n")
        for command in commands:
            status, output, _ = ecc(command, "--help")
            self.holds(f"{command} --help", status == 0 and "Status: 0" in output, output)
        for words in ((), ("quite",), ("read", "--border", "x"), ("read", "--border", "70000"),
                      ("write", "--gs1", "--hex", "A"), ("compare", "a"), ("compare", "--doubtful", "a", "b", "c"),
                      ("write", "--size", "9x9", "A"), ("write", "--size", "8", "A"),
                      ("write", "--shape", "round", "A"), ("write", "--size", "8x18", "--shape", "any", "A"),
                      ("sizes", "--shape", "round"), ("write", "--quiet-zone", "-1", "A")):
            status, _, errors = ecc(*words)
            self.holds(f"the words {words}", status == 2 and "usage: ecc200" in errors, f"{status}, {errors}")

    def test_forked(self):
        """What the nursery forks answers as a Python does that is started for it."""
        good = smallest(b"123456")
        for words, given in (("read", good), ("read --json", good + "1x\n"), ("normal", good), ("write --hex", "0f\nx"),
                             ("read none.txt", ""), ("raed", ""), ("compare a", ""), ("--help", ""), ("--version", "")):
            own = run([*WORDS, *words.split()], given.encode(), env=environment(), cwd=self.room)
            self.row(f"the words {words}", ecc(words, given=given, folder=self.room), own)

    def test_reading(self):
        good, other = text(ecc200.write(b"123456")), text(ecc200.write(b"A b\\"))
        self.says("read", ecc("read", given=good), output="123456\n")
        self.says("read two", ecc("read", given=good + "\n\n" + other), output="123456\nA b\\\\\n")
        self.says("read nothing", ecc("read"), output="")
        self.says("--hex", ecc("read --hex", given=other), output="4120625c\n")
        self.says("Latin-1", ecc("read", given=text(ecc200.write(b"caf\xe9"))), output="caf\u00e9\n")
        self.says("UTF-8", ecc("read", given=text(ecc200.write("\u20ac".encode()))), output="\u20ac\n")
        narrow = run([*WORDS, "read"], text(ecc200.write("\u20ac".encode())).encode(),
                     env={**environment(), "PYTHONIOENCODING": "ascii"})
        self.says("an output that hasn't the character", narrow, output="\\u20ac\n")
        self.says("a stated charset", ecc("read --charset cp437", given=text(ecc200.write(b"\x82"))), output="\u00e9\n")
        self.says("no such charset", ecc("read --charset x", given=good), status=2, errors=["no charset 'x'"])
        self.says("control characters", ecc("read", given=text(ecc200.write(b"A\n\x1b"))), output="A\\x0A\\x1B\n")
        self.says("--escapes", ecc("read --escapes", given=text(ecc200.write([256, 65, 256, 233]))),
                  output="\\FA\\F\\xE9\n")
        element = text(ecc200.write(b"0109521234543213", gs1=True))
        self.says("GS1", ecc("read", given=element), output="(01)09521234543213\n")
        self.says("faulty GS1", ecc("read", given=text(ecc200.write(b"0109521234543214", gs1=True))),
                  output="\\F0109521234543214\n", errors=["check digit is 4"])
        unknown = text(ecc200.write(b"4327A", gs1=True))
        self.says("unknown GS1", ecc("read", given=unknown), output="\\F4327A\n", errors=["(4327) isn't"])
        self.says("unknown GS1 passes", ecc("read --unknown", given=unknown), output="(4327)A\n")
        status, output, _ = ecc("read --json", given=element + text([bytes(10)] * 10))
        first, second = map(json.loads, output.splitlines())
        self.row("--json", (status, first["elements"][0]["title"], first["rows"], first["columns"], first["symbol"]),
                 (1, "GTIN", 16, 16, 1))
        self.row("--json of damage", (first["corrected"], first["erased"], first["left"]), ([0], [0], [12]))
        self.row("--json of a refusal", (second["symbol"], second["code"], second["value"], "text" in second),
                 (2, "BORDER", 27, False))
        self.says("check", ecc("check", given=good),
                  output="10x10, 0 border modules wrong, codewords corrected in each block: 0 (at most 2)\n")
        self.row("check --json", json.loads(ecc("check --json", given=good)[1])["corrected"], [0])
        self.says("normal", ecc("normal", given=good + other), output=good + other)
        self.says("normal --shorter", ecc("normal --shorter", given=text(ecc200.write(b"\x80" * 3))),
                  output=text(ecc200.write(b"\x80" * 3, profile=1)))
        squares = corpus.marks("squares")
        status, output, _ = ecc("read --escapes --usual", given=corpus.grids(squares))
        self.row("--usual", output.splitlines(), ["\\no" if "usual" in mark.more else mark.said for mark in squares])
        self.says("a file that isn't there", ecc("read none.txt"), status=2, errors=["none.txt: No such file"])

    def test_in_words(self):
        grid, oblong = edifact(), ecc200.write(b"Rectangle1", size=(8, 32))
        self.says("EDIFACT", ecc("read", given=grid)[:2] + ("",))
        self.says("EDIFACT, --usual", ecc("read --usual", given=grid), 1, "\\no\n", ["EDIFACT", "leave out --usual"])
        good = text(ecc200.write(b"123456"))
        for name, given, parts in [("CR", good.replace("\n", "\r\n"), ["CR and LF", "tr -d"]),
            ("other characters", "10x0\n", ["the character 'x'"]),
            ("a ragged grid", "10\n1\n", ["from 1 to 2 characters"]),
            ("no size", "10\n10\n10\n", ["no symbol has 3 rows of 2 modules", "'ecc200 sizes' lists"]),
            ("a square of 11", ("1" * 11 + "\n") * 11, ["no symbol has 11 rows of 11 modules"]),
            ("a large side", ("1" * 146 + "\n") * 146, ["no symbol has 146 rows of 146 modules"]),
            ("a wrong border", text([*ecc200.write(b"123456")[:-1], bytes(10)]),
             ["10 of the 36", "--border auto accepts them"]),
            ("a wrong border of a damaged symbol", text([*hurt(2)[:-1], bytes(10)]),
             ["10 of the 36", "--border 10 accepts them, though some block has no correction left"]),
            ("damage", text(hurt(5)),
             ["block 1 of its 1", "2 wrong codewords", "scan it again, from nearer, in even light and flat"]),
            ("no size of a rectangle", text([bytes(32)] * 10),
             ["no symbol has 10 rows of 32 modules", "'ecc200 sizes'"]),
            ("a rectangle that lies", text([bytes(8)] * 32), ["no symbol has 32 rows of 8 modules"]),
            ("a wrong border of a rectangle", text([*oblong[:-1], bytes(32)]),
             ["32 of the 88", "of its border", "--border auto accepts them"]),
            ("damage of a rectangle", text(hurt(8, oblong)),
             ["block 1 of its 1 has more than 5 wrong codewords", "--doubtful"]),
            ("a ragged rectangle", text([*oblong[:-1], oblong[-1][:-1]]),
             ["from 31 to 32 characters; a grid has as many in each"]),
        ]:
            self.says(name, ecc("read", given=given), 1, "\\no\n", ["symbol 1: ", *parts])
        told = json.loads(ecc("read --json", given=text([bytes(32)] * 10))[1])
        self.row("no size in JSON", (told["code"], told["value"], told["place"]), ("SIZE", 10, 32))
        lost = ecc("read", given=text([bytes(10)] * 10))
        self.holds("no other border would help", lost[0] == 1 and "27 of the 36" in lost[2] and "--border" not in
                   lost[2], str(lost))
        for word, part in [(241, "an ECI"), (233, "structured append"), (234, "reader programming"), (236, "macro 05"),
                           (237, "macro 06"), (240, "EDIFACT")]:
            said = advice.in_words(ecc200.Refused(8, word, 3), [], ecc200.Extent.USUAL)
            self.holds(f"word {word}, --usual", part in said and "codeword 3" in said and "leave out --usual" in said)
        for word in (233, 234, 236, 237):
            said = advice.in_words(ecc200.Refused(8, word, 3), [])
            self.holds(f"codeword {word}", "codeword 3 begins" in said and "only stands in front" in said)
        for code in (7, 9, 10, 11, 12, 13):
            self.holds(f"code {code} in words", "codeword 4: a codeword that no encoder writes"
                       in advice.in_words(ecc200.Refused(code, 0, 4), [bytes(10)] * 10))
        self.says("too long", ecc("write", "7" * (2 * ecc200.sizes()[-1].data_codewords + 1)), 1, "",
                  ["longer than any symbol"])
        self.says("damage within the limit", ecc("read", given=text(hurt(2))), output="123456\n")
        self.says("--border", ecc("read --border 9", given=text([*ecc200.write(b"123456")[:-1], bytes(10)])), 1,
                  "\\no\n", ["10 of the 36"])
        for limit in ("10", "auto"):
            self.says(f"--border {limit} is enough",
                      ecc("read --border", limit, given=text([*ecc200.write(b"123456")[:-1], bytes(10)])),
                      output="123456\n")
        frayed = text([*hurt(1)[:-1], bytes(10)])
        checked = "10x10, 10 border modules wrong, codewords corrected in each block: 1 (at most 2)\n"
        for command, output in (("read", "123456\n"), ("normal", good), ("check", checked)):
            self.says(f"{command} --border auto", ecc(command, "--border", "auto", given=frayed), output=output)
        self.holds("explain --border auto", "It says 123456" in ecc("explain --border auto", given=frayed)[1])
        self.says("--border auto, and no correction left",
                  ecc("read --border auto", given=text([*hurt(2)[:-1], bytes(10)])), 1, "\\no\n", ["10 of the 36"])

    def test_otherwise(self):
        """Grids that stand otherwise are named, and read with --any-way."""
        for message, more in ((b"123456", {}), (b"Mitsubadoor" * 9, {}), (b"Rect", {"size": (8, 18)}),
                              *((b"Mitsubadoor", {"size": size}) for size in ((12, 36), (26, 64), (144, 144)))):
            rows = ecc200.write(message, **more)
            wide, sides = bytes(2 * len(rows[0]) + 2), (len(rows), len(rows[0]))
            for name, grid, part in [*otherwise(rows),
                ("wide", [bytes(module for module in row for _ in "abc") for row in rows], "has 3 by 1 characters"),
                ("high", [row for row in rows for _ in "abc"], "has 1 by 3 characters"),
                ("mirrored and turned", turned([row[::-1] for row in rows]), "is mirrored and is turned"),
                ("large, with a margin, mirrored",
                 [wide] + [b"\0" + bytes(module for module in row[::-1] for _ in "ab") + b"\0" for row in rows
                           for _ in "ab"],
                 "has 2 by 2 characters or pixels for each module and has a light margin and is mirrored"),
            ]:
                self.says(f"{name}, {sides}", ecc("read", given=text(grid)), 1, "\\no\n", [part, "--any-way"])
                self.says(f"{name}, {sides}", ecc("read --any-way", given=text(grid)), output=message.decode() + "\n")
        self.says("nothing helps", ecc("read --any-way", given=text([bytes(10)] * 10)), 1, "\\no\n", ["27 of the 36"])

    def test_writing(self):
        self.says("write", ecc("write 123456"), output=smallest(b"123456"))
        self.says("write lines", ecc("write", given="123456\n0\nA\n"),
                  output=smallest(b"123456") + smallest(b"0") + smallest(b"A"))
        self.says("write GS1", ecc("write --gs1", "(01)09521234543213(10)A(21)B"),
                  output=smallest(b"010952123454321310A\x1d21B", gs1=True))
        self.says("faulty", ecc("write --gs1", "(01)09521234543214"), 1, "", ["message 1: (01) GTIN: its check digit"])
        self.says("write unknown GS1", ecc("write --gs1 --unknown", "(4327)A"), output=smallest(b"4327A", gs1=True))
        self.says("write --hex", ecc("write --hex 00ff"), output=smallest(b"\0\xff"))
        self.says("write wrong --hex", ecc("write --hex 0f0"), 1, "", ["hexadecimal"])
        self.says("write --escapes", ecc("write --escapes", "\\FA\\x80\\\\"), output=smallest([256, 65, 128, 92]))
        self.says("write wrong --escapes", ecc("write --escapes", "\\q"), 1, "", ["'q'"])
        self.says("shorter", ecc("write --shorter --hex", "80" * 3), output=text(ecc200.write(b"\x80" * 3, profile=1)))
        self.says("write bytes", ecc("write --bytes -", given=b"\xff\n"), output=smallest(b"\xff\n"))
        self.says("both", ecc("write --bytes", os.devnull, "A"), 2, "", ["--bytes", "'A' would be another"])
        self.says("one is refused", ecc("write --hex 41 x 42"), 1, smallest(b"A") + smallest(b"B"), ["message 2"])
        for name, words, part in [("no width", ("--module", "x"), "--module x"),
                                  ("half a dot", ("--module", "1.5"), "whole number"),
                                  ("no kind", ("-o", "a.gif"), ".png, .svg"),
                                  ("no sheet", ("--sheet", "A4"), "--sheet A4"),
                                  ("a small sheet", ("--sheet", "30x20"), "doesn't fit"),
                                  ("no resolution", ("--dpi", "0"), "--dpi"),
                                  ("too many dots", ("--module", "1000mm", "--dpi", "100000"), "too large")]:
            self.says(name, ecc("write A -o a.png", *words, folder=self.room), 2, "", [part])

    def test_files(self):
        """Pictures that are written are as large as was asked for, and are read again."""
        sizes = {("--module", "8"): 14 * 8, ("--module", "0.5mm"): 14 * 6, ("--module", "1mm", "--dpi", "254"): 14 * 10,
                 ("--module", "3", "--quiet-zone", "5"): 20 * 3}
        pillow = self.wanted_module("PIL.Image", "Pillow", "pictures that the command writes and reads")
        for words, side in sizes.items():
            path = os.path.join(self.room, "label.png")
            self.says(f"-o label.png {' '.join(words)}", ecc("write 123456 -o", path, *words), output="")
            if pillow:
                self.row(f"its size, {words}", pillow.Image.open(path).size, (side, side))
                self.says(f"read label.png {' '.join(words)}", ecc("read", path), output="123456\n")
        without = {**environment(), "ECC200_SAMPLE_LIBRARY": os.path.join(self.room, "none.so")}
        for scale, size in ((1, None), (2, None), (7, None), (1, (8, 18)), (2, (8, 120)), (5, (26, 48)),
                            (3, (144, 144))):
            path, name = os.path.join(self.room, f"small{scale}.png"), f"{scale} dots a module, {size}"
            words, message = (["--size", "{}x{}".format(*size)], "Rect") if size else ([], "Mitsubadoor")
            self.says(name, ecc("write", message, "-o", path, "--module", str(scale), "--quiet-zone", str(scale % 3),
                                *words), output="")
            if pillow:
                self.says(f"{name}, read", ecc("read", path), output=f"{message}\n")
                self.says(f"{name}, read without it", run([*WORDS, "read", path], env=without), output=f"{message}\n")
            if pillow and size:
                told = json.loads(run([*WORDS, "read", "--json", path], env=without)[1])
                self.row(f"{name}, its size", (told["rows"], told["columns"]), size)
        if pillow:
            path = os.path.join(self.room, "blank.png")
            pillow.Image.new("L", (90, 90), 255).save(path)
            self.says("a blank picture", ecc("read", path), 1, "",
                      ["no Data Matrix symbol was found in its 90 by 90" if os.path.isfile(SAMPLER)
                       else "nothing in the picture is dark"])
            picture = pillow.Image.open(os.path.join(self.room, "small7.png")).convert("L")
            picture.resize((picture.width * 3 // 2, picture.height * 3 // 2)).save(path)
            got = run([*WORDS, "read", path], env=without)
            self.holds("pixels that aren't whole modules, without the sampler",
                       got[0] == 1 and "ecc200_sample isn't installed" in got[2], str(got))
        for kind, start in (("svg", b"<svg "), ("pdf", b"%PDF-"), ("txt", b"1010")):
            path = os.path.join(self.room, f"label.{kind}")
            self.says(f"-o label.{kind}", ecc("write 123456 -o", path), output="")
            self.row(f"label.{kind}", places.read(path)[:len(start)], start)
        lines = "".join(f"line {number}\n" for number in range(12))
        self.says("numbered files", ecc("write -o", os.path.join(self.room, "many.png"), given=lines), output="")
        names = [os.path.join(self.room, f"many-{number:02}.png") for number in range(1, 13)]
        if pillow:
            self.says("numbered files are read", ecc("read", *names),
                      output="".join(map("{}:{}".format, names, lines.splitlines(True))))
        self.says("a sheet", ecc("write --sheet -o", os.path.join(self.room, "sheet.pdf"), given=lines), output="")
        self.says("a sheet", ecc("write --sheet 100x50 -o sheet.png", given=lines, folder=self.room), output="")
        self.row("its name", sorted(name for name in os.listdir(self.room) if name.startswith("sheet")),
                 ["sheet.pdf", "sheet.png"])
        if pillow and self.has("zint", "a mark of zint from a PNG"):
            path = os.path.join(self.room, "zint.png")
            run(["zint", "-b", "71", "--square", "--gs1", "-d", "[01]09521234543213[17]251231[10]ABC123", "-o", path])
            self.says("zint's GS1 from a PNG", ecc("read", path), output="(01)09521234543213(17)251231(10)ABC123\n")
            self.says("normal of it, drawn", ecc("normal", path, "-o", os.path.join(self.room, "again.png")), output="")
            self.says("the two say the same", ecc("compare", path, os.path.join(self.room, "again.png")), errors=None)
        if pillow and self.has("zint", "what zint writes and isn't read with --usual"):
            for words, part, said in [(["--eci=3", "-d", "A"], "an ECI", "A"),
                                      (["--structapp=1,2", "-d", "A"], "structured append", "\\A{1/2:001001}A"),
                                      (["--init", "-d", "A"], "reader programming", "\\PA"),
                                      (["-d", "[)>\x1e05\x1dA\x1e\x04"], "a macro 05", "[)>\\x1E05\\x1DA\\x1E\\x04"),
                                      (["-d", "[)>\x1e06\x1dA\x1e\x04"], "a macro 06", "[)>\\x1E06\\x1DA\\x1E\\x04"),
                                      (["-d", "A.B-C/D*E"], "EDIFACT", "A.B-C/D*E")]:
                path = os.path.join(self.room, "other.png")
                run(["zint", "-b", "71", "--square", "-o", path, *words])
                self.says(f"zint's {part}", ecc("read", path), output=said + "\n")
                self.says(f"zint's {part}, --usual", ecc("read --usual", path), 1, "", [part])
        places.wrote(b"\x89PNG\r\n\x1a\nrubbish", self.room, "broken.png")
        self.says("a broken picture", ecc("read", os.path.join(self.room, "broken.png")), 2, "",
                  ["broken.png", "Pillow" if run([PYTHON, "-c", "import PIL"])[0] else "can't be opened"])
        self.says("a folder that isn't there", ecc("write A -o", os.path.join(self.room, "none", "a.png")), 2, "",
                  ["there is no folder"])

    def test_named_alike(self):
        """The sampler's program and the command have the same names for the same things, in options and in JSON."""
        self.needs_search("one name for one thing")
        path, rows = os.path.join(self.room, "alike.png"), [bytearray(row) for row in hurt(1)]
        rows[0][1] ^= 1  # a module of the border
        ecc200.Symbol(rows, quiet=4).save(path)
        program = os.path.join(os.path.dirname(SAMPLER), "dm_sample")
        first = json.loads(run([program, "--json", "--time", "2000", path])[1])
        for option in ("--time", "--milliseconds"):
            second = json.loads(ecc("read --json", option, "2000", path)[1])
            for name in ("file", "rows", "columns", "inverted", "mirrored", "message", "corrected", "erased", "left",
                         "border_faults"):
                self.row(f"{name}, with {option}", second[name], first[name])
        self.row("what is compared", (first["message"], first["corrected"], first["border_faults"]), ("123456", [1], 1))
