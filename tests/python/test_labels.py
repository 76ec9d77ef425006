"""What the command puts out: captions, names of files, standard output, a terminal; sizes that a picture can't have."""
import os
import re
import subprocess

from tests.python.common import SAMPLER, WORDS, PackageCase, at_terminal, ecc, environment, run
from tests.python.test_batches import shell, symbols
from tests.python.test_drawings import laid, pixels
from tests.support import places, work

import ecc200
from ecc200 import drawing, font

GS1 = "(01)09521234543213(17)251231(10)ABC123"
BLOCKS = {"\u2588": (0, 0), "\u2580": (0, 1), "\u2584": (1, 0), " ": (1, 1)}


def of_blocks(lines, quiet):
    """The grid that half blocks show: light where a block is drawn."""
    halves = [[BLOCKS[letter][half] for letter in line] for line in lines for half in (0, 1)]
    return "".join("".join(map(str, row[quiet:len(row) - quiet])) + "\n"
                   for row in halves[quiet:len(halves) - quiet]) + "\n"


def lines_of(name):
    return run(["pdftotext", "-layout", name, "-"])[1].split()


class Labels(PackageCase):
    def test_captions(self):
        """The text below a symbol: GS1 data with its brackets, and other text with the letters that were given."""
        here = self.made("captions")
        for kind in ("svg", "pdf", "png"):
            for shape in ("rectangle", "square"):
                got = self.ecc("write --shape", shape, "--gs1", GS1, "--caption", "-o", f"gs1.{kind}")
                self.says(f"GS1 in {kind}, {shape}", got, output="")
                if kind == "svg":
                    lines = re.findall(">([^<]+)</text>", places.text_of(here, "gs1.svg"))
                    self.row(f"lines of elements, {shape}", lines, ["(01)09521234543213", "(17)251231(10)ABC123"])
            self.says(f"text in {kind}", self.ecc("write --caption -o", f"text.{kind}", "a<b & \"c\" (d\\"), output="")
        drawn = open(os.path.join(here, "text.svg")).read()
        self.row("letters of XML", re.findall(">([^<]+)</text>", drawn), ['a&lt;b &amp; "c" (d\\'])
        if self.has("pdftotext", "captions of PDF"):
            self.row("in PDF", lines_of(os.path.join(here, "gs1.pdf")), ["(01)09521234543213", "(17)251231(10)ABC123"])
            self.row("letters of PDF", lines_of(os.path.join(here, "text.pdf")), ["a<b", "&", '"c"', "(d\\"])
        if self.wanted_module("PIL.Image", "Pillow", "labels with captions that are read") and os.path.isfile(SAMPLER):
            self.says("a label is read", self.ecc("read gs1.png"), output=GS1 + "\n")
            self.says("a label of text is read", self.ecc("read text.png"), output='a<b & "c" (d\\\\\n')
        self.says("a letter that a PNG hasn't", self.ecc("write", "\u65e5", "--caption", "-o", "a.png"),
                  errors=["symbol 1", "'\u65e5'", ".svg"])
        for letters in ("Gr\u00f6\u00dfe 5 \u20ac", "\u00c5ngstr\u00f6m na\u00efve fa\u00e7ade \u0160koda", "e\u0301"):
            self.says(f"letters that a PNG has, {letters}", self.ecc("write --caption -o a.png", letters), output="")
        self.says("none in a PDF", self.ecc("write", "\u65e5", "--caption", "-o", "a.pdf"), errors=["'\u65e5'"])
        self.says("a letter that an SVG has", self.ecc("write", "\u65e5", "--caption", "-o", "a.svg"), output="")
        self.says("a grid has none", self.ecc("write A --caption -o a.txt"), 2, "", ["--caption"])
        grid = ecc("write --gs1", GS1)[1]
        self.says("normal with a caption", self.ecc("normal --caption -o normal.svg", given=grid), output="")
        self.row("is the same label", *(places.text_of(here, f"{it}.svg") for it in ("normal", "gs1")))

    def test_letters_of_dots(self):
        """Letters in a PNG: an L is a stroke down and one to the right. None is in the quiet zone or cut off."""
        rows = ecc200.write(b"L")
        dots, quiet = 4, 2
        page = drawing.alone(rows, dots * 25.4 / 300, quiet, ["L"], 2 * 25.4 / 300)
        width, height, found, _ = pixels(drawing.png(page, 300))
        side = (len(rows) + 2 * quiet) * dots
        below = [bytes(1 - pixel for pixel in row) for row in found[side:]]
        self.row("an L", [row.strip(b"\0") for row in below if any(row)], [b"\1\1"] * 12 + [b"\1" * 10] * 2)
        for plain, accented in ("e", "\u00e9"), ("U", "\u00dc"), ("c", "\u0107"):
            rows_of = [[sum(column >> row & 1 for column in font.glyph(letter)) for row in range(font.HEIGHT)]
                       for letter in (plain, accented)]
            top = next(row for row, count in enumerate(rows_of[0]) if count)
            self.row(f"{accented} is {plain} below its accent", rows_of[1][top:], rows_of[0][top:])
            self.holds(f"the accent of {accented} stands above",
                       sum(rows_of[1][:top]) >= 2 and (plain == "U" or not rows_of[1][top - 1]))
        self.row("an i loses its dot", sum(font.glyph("\u00ee")[2] >> row & 1 for row in (2, 3)), 0)
        self.row("the symbol", found[:side], pixels(drawing.png(drawing.alone(rows, dots * 25.4 / 300, quiet), 300))[2])
        self.row("as wide as without", width, side)
        for caption, quiet in (["W" * 50], 0), (["(10)" + "W" * 16], 5):
            width, height, found, _ = pixels(drawing.png(drawing.alone(rows, dots * 25.4 / 300, quiet, caption), 300))
            lines = [place for place, row in enumerate(found) if 0 in row]
            symbol = (len(rows) + 2 * quiet) * dots
            self.holds(f"room for {caption}", lines[-1] < height and any(line > symbol for line in lines)
                       and (quiet or symbol not in lines), str(lines))
        self.row("long text is wrapped", drawing.wrapped(("aaaa ", "bb ", "c" * 9), 8), ["aaaa bb", "cccccccc", "c"])
        self.row("nothing is lost", "".join(drawing.wrapped(("x" * 53, ), 20)), "x" * 53)

    def test_captions_on_sheets(self):
        """Each symbol on a sheet has its caption below it, and nothing overlaps."""
        here = self.made("sheets")
        messages = [f"SN-{number:04}" for number in range(40)]
        self.says("a sheet", self.ecc("write --sheet --caption -o sheet.pdf", given="\n".join(messages)), output="")
        if self.has("pdftotext", "captions of sheets"):
            self.row("all captions", sorted(lines_of(os.path.join(here, "sheet.pdf"))), messages)
        rows = [ecc200.write(message.encode()) for message in messages]
        for caption in (lambda message: [message], lambda message: [message * 4]):
            for page in drawing.sheets(rows, 0.5, 2, captions=[caption(message) for message in messages]):
                self.row("nothing overlaps", laid(page), (True, True))
        if self.wanted_module("PIL.Image", "Pillow", "sheets with captions that are read") and os.path.isfile(SAMPLER):
            self.ecc("write --sheet 100x60 --caption -o sheet.png", given="\n".join(messages[:12]))
            status, output, _ = self.ecc("read --all --time 20000 sheet.png")
            self.row("a sheet with captions is read", (status, sorted(output.split())), (0, messages[:12]))
            first = self.ecc("read --time 20000 sheet.png")
            self.holds("by default the first alone", first[0] == 3 and first[1].strip() in messages
                       and first[1].count("\n") == 1, str(first))
            self.row("--most 3", self.ecc("read --most 3 --time 20000 sheet.png")[1].count("\n"), 3)
            got = self.ecc("compare --time 5000 sheet.png sheet.png")
            self.holds("compare doesn't choose one", got[0] >= 2 and "there must be one symbol" in got[2], str(got))

    def test_names(self):
        here = self.made("names")
        got = self.ecc("write -o", "lot-{}.svg", "--", "A/1", "../etc", "A:1", "A 1", "caf\u00e9", "", "x" * 300, "-rf")
        self.says("names from messages", got, output="")
        self.row("they are safe, and each has its own", sorted(os.listdir(here)),
                 sorted(["lot-A_1.svg", "lot-etc.svg", "lot-A_1-3.svg", "lot-A_1-4.svg", "lot-caf\u00e9.svg",
                         "lot-empty.svg", f"lot-{'x' * 150}.svg", "lot-rf.svg"]))
        self.says("grids in files of their own", self.ecc("write -o", "{}.txt", "A", "B"), output="")
        self.row("one grid each", [places.text_of(here, f"{it}.txt") for it in "AB"], [symbols(b"A"), symbols(b"B")])
        self.says("GS1", self.ecc("write --gs1 -o", "{}.svg", GS1), output="")
        self.holds("its name", os.path.isfile(os.path.join(here, "01_09521234543213_17_251231_10_ABC123.svg")),
                   str(os.listdir(here)))
        os.mkdir(os.path.join(here, "in the way.svg"))
        got = self.ecc("write -o", "{} the way.svg", "on", "in", "by")
        self.says("a file that can't be written", got, 2, "", ["ecc200: in the way.svg: Is a directory"])
        self.row("the others are", [name for name in sorted(os.listdir(here)) if "way" in name],
                 ["by the way.svg", "in the way.svg", "on the way.svg"])
        self.says("a sheet", self.ecc("write -o", "{}.pdf", "--sheet", "--", "A"), 2, "", ["a sheet has several"])
        self.says("an end in capitals", self.ecc("write -o LABEL.PNG A"), output="")
        self.row("is a PNG", open(os.path.join(here, "LABEL.PNG"), "rb").read(4), b"\x89PNG")
        self.says("a name without an end", self.ecc("write -o label --format pdf A"), output="")
        self.row("is what was asked for", open(os.path.join(here, "label"), "rb").read(5), b"%PDF-")
        self.says("--sheet without -o", self.ecc("write --sheet -- A"), 2, "", ["-o FILE"])

    def test_output(self):
        here = self.made("output")

        def out(*words):
            done = subprocess.run([*WORDS, "write", *words], stdout=subprocess.PIPE, stderr=subprocess.PIPE,
                                  env=environment(), cwd=here, timeout=60)
            return done.returncode, done.stdout
        for kind in ("png", "svg", "pdf"):
            self.ecc("write A -o", f"a.{kind}")
            data = places.read(here, f"a.{kind}")
            self.row(kind, [out("A", "--format", kind), out("A", "-o", "-", "--format", kind)], [(0, data)] * 2)
        self.row("-o -", out("A", "-o", "-"), (0, symbols(b"A").encode()))
        self.row("no file of that name", os.path.exists(os.path.join(here, "-")), False)
        status, pages = out("A", "B", "C", "--format", "pdf")
        self.row("a page for each symbol", (status, pages.count(b"/Type /Page ")), (0, 3))
        self.says("two pictures in one stream", ecc("write A B --format png"), 2, "", ["2 pictures"])
        status, shown, _ = ecc("write A --format blocks --caption --quiet-zone 1")
        self.row("half blocks into a pipe", (of_blocks(shown.split("\n")[:6], 1), shown.split("\n")[6:]),
                 (symbols(b"A"), ["A", "", ""]))
        narrow = run([*WORDS, "write", "A", "--format", "blocks"], env={**environment(), "PYTHONIOENCODING": "latin-1"})
        self.says("a charset without blocks", narrow, 2, "", ["no half blocks"])

    def test_terminal(self):
        """A symbol on a terminal, as the terminal's user sees it; a terminal that is too narrow is told of."""
        for words, width in ((["A"], 80), (["7" * 100], 20)):
            _, seen, _, errors = at_terminal("stdout", ["write", *words], columns=width)
            lines = seen.decode().replace("\r\n", "\n").split("\n")
            bare = [re.sub("\x1b\\[[0-9;]*m", "", line) for line in lines if line]
            self.row(f"on a terminal, {width}", of_blocks(bare, 2), symbols(words[0].encode()))
            self.holds("white on black, and then as before",
                       all(re.fullmatch("\x1b\\[97;40m[^\x1b]*\x1b\\[0m", line) for line in lines if line), repr(lines))
            self.row("too narrow", b"20 columns" in errors, width == 20)

    def test_no_picture_on_a_terminal(self):
        status, _, _, errors = at_terminal("stdout", ["write", "A", "--format", "png"])
        self.holds("a picture isn't put onto a terminal", status == 2 and b"-o" in errors, f"{status}, {errors}")

    def test_sizes(self):
        """A module that a PNG can't have is said in dots; what can't be drawn is refused."""
        self.made("sizes")
        for words, said in [(("--module", "0.3mm", "--dpi", "203"), "2 dots, 0.25 mm"),
                            (("--module", "0.1mm", "--dpi", "100"), "1 dot, 0.254 mm"), ((), ""),
                            (("--dpi", "72"), "1 dot, 0.353 mm"), (("--module", "2", "--dpi", "203"), ""),
                            (("--module", "0.25mm", "--dpi", "203"), "")]:
            self.says(f"PNG {words}", self.ecc("write A -o a.png", *words), output="", errors=[said] if said else None)
            self.says(f"an SVG, {words}", self.ecc("write A -o a.svg", *words), output="")
        for name, more in (("quiet", {"quiet": -3}), ("module", {"module": -1}), ("module 0", {"module": 0.0}),
                           ("module nan", {"module": float("nan")})):
            self.raises(f"encode, {name}", ValueError, "unlike", lambda more=more: ecc200.encode(b"A", **more))
            self.raises(f"a page, {name}", ValueError, "unlike",
                        lambda more=more: drawing.alone(ecc200.write(b"A"), **{"module": 1.0, "quiet": 1, **more}))
            self.raises(f"a sheet, {name}", ValueError, "unlike",
                        lambda more=more: drawing.sheets([ecc200.write(b"A")], **{"module": 1.0, "quiet": 1, **more}))
        self.raises("a resolution", ValueError, "unlike -1", lambda: ecc200.encode(b"A").png(dpi=-1))
        self.raises("too many dots", ValueError, "too large", lambda: ecc200.encode(b"A", module=1000).png(dpi=100000))

    def test_first_symbols(self):
        """Many pictures of one symbol each take a time far below the second that a search for all takes."""
        here = self.made("first", "the time of many pictures")
        self.ecc("write -o label.png", given="\n".join(f"number {count}" for count in range(100)))
        pieces = {}
        for words in ((), ("--all", )):
            with work.measured() as took:
                status, read, _ = shell(" ".join(["$E read -r --no-filename", *words]), here)
            pieces[words] = took.pieces
            self.row(f"{words}", (status, read.split("\n")[:2], read.count("\n")), (0, ["number 0", "number 1"], 100))
        self.holds("the first alone takes less", pieces[()] < pieces[("--all", )], str(pieces))
