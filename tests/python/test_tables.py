"""Tables in, tables out: labels by the rows of a CSV file, and what symbols say as CSV."""
import csv
import io
import os

from tests.python.common import WORDS, PackageCase, ecc, environment, run
from tests.python.test_batches import saved, shell, symbols
from tests.python.test_surface import hurt, smallest, text
from tests.support import work

import ecc200
from ecc200 import gs1, tables

LOTS = """GTIN;lot;expiry;serial;copies;text;size;file name
09521234543213;ABC;251231;1;2;first;;a
09521234543214;X;;;;;;b
09521234543213;Y;;3;;two;24x24;../c.png
;;;; ;;;
09521234543213;Z;;4;0;;;d
09521234543213;Z;;4;x;;rectangle;d
09521234543213;Z;;5;;;9x9;e
;;;;;;;f
09521234543213;Z;;6;;;;g;h
"""
FAULTS = ["row 2: (01) GTIN: its check digit", "row 5: 'x' is no number of copies", "row 6: '9x9' is no size",
          "row 7: it has no value", "row 8: it has 9 fields, and there are 8 headings"]


def parsed(output):
    return list(csv.reader(io.StringIO(output, newline=""), strict=True))


class Tables(PackageCase):
    def test_by_rows(self):
        """Rows are labels by their headings: each wrong one is named, and the others are written."""
        here = self.made("rows")
        saved(here, "lots.csv", LOTS)
        got = self.ecc("write --csv lots.csv -o", "{}.svg")
        self.says("files by a column", got, 1, "", [f"ecc200: lots.csv: {fault}" for fault in FAULTS])
        self.row("lines of errors, and files", (got[2].count("\n"), sorted(os.listdir(here))),
                 (len(FAULTS), ["a-1.svg", "a-2.svg", "c.svg", "lots.csv"]))
        drawn = open(os.path.join(here, "a-1.svg"), encoding="utf-8").read()
        self.holds("the text stands below", ">first<" in drawn and "(01)" not in drawn, drawn[-300:])
        got = self.ecc("write --csv lots.csv -o b.svg --column", "file name=-")
        self.row("files by number", sorted(name for name in os.listdir(here) if name.startswith("b")),
                 ["b-1-1.svg", "b-1-2.svg", "b-3.svg"])
        self.says("names without a place", self.ecc("write --csv lots.csv -o b.svg"), 2, "", ["it names files", "{}"])
        grids = self.ecc("write --csv lots.csv --column text=- --column", "file name=-")[1]
        first = smallest(b"010952123454321310ABC\x1d1725123121" + b"1", gs1=True)
        other = text(ecc200.write(b"010952123454321310Y\x1d213", True, size=(24, 24), form=ecc200.Form.SMALLEST))
        self.row("as grids", grids, 2 * first + other)
        for separator in (",", "\t"):
            given = "message{0}qty\r\n\"a{0}\"\"b\"\"\r\nc\"{0}2\r\n\r\n caf\u00e9 {0}\r\n".format(separator)
            wanted = symbols(f"a{separator}\"b\"\r\nc".encode()) * 2 + symbols(b" caf\xe9 ")
            for data in (given.encode(), given.encode("utf-8-sig"), given.encode("utf-16")):
                self.says(f"separated by {separator!r}", ecc("write --csv -", given=data), output=wanted)
        got = ecc("write --csv - --gs1", given="message\n(10)A\nA\n")
        self.says("--gs1", got, 1, smallest(b"10A", gs1=True), ["row 2: an identifier in brackets"])
        got = ecc("write --csv -", given="message,kind\nA,b\n41,HEX\n\\x42,escapes\n\\x42,text\n(10)A,gs1\n")
        self.says("kinds", got, 1, symbols(b"A", b"B", b"\\x42") + smallest(b"10A", gs1=True),
                  ["row 1: 'b' is no kind of a message"])
        self.says("a size of a row", ecc("write --csv -", given="message,size\n123456,10x10\n1234567,10x10\n"), 1,
                  symbols(b"123456"), ["row 2: the message is longer than a symbol of 10x10 holds"])
        self.says("text like GS1 data", ecc("write --csv -", given="message\n(10)A\n"), 0, symbols(b"(10)A"),
                  ["row 1 reads like GS1 data"])
        self.says("an apostrophe of a spreadsheet", ecc("write --csv -", given="message\n'=1+1\n'a\n"), 0,
                  symbols(b"=1+1", b"'a"), ["an apostrophe in front", "'=1+1"])
        if self.wanted_module("PIL.Image", "Pillow", "a sheet of rows") and self.has_sampler("a sheet of rows"):
            self.ecc("write --csv lots.csv --column", "file name=-", "--sheet", "-o", "sheet.png")
            self.row("a sheet", self.ecc("read --all sheet.png")[1].splitlines(),
                     ["(01)09521234543213(10)ABC(17)251231(21)1"] * 2 + ["(01)09521234543213(10)Y(21)3"])

    def test_headings(self):
        """What a heading may be, and what isn't known is asked about."""
        for heading, wanted in [("GTIN", "01"), (" (01) ", "01"), ("Best-Before", "15"), ("best_before", "15"),
                                ("7003", "7003"), ("Serial Number", "21"), ("Batch/Lot", "10"), ("Qty", "copies"),
                                ("File name", "file"), ("text below", "text"), ("not read", "-"), ("4327", None),
                                ("colour", None), ("", None)]:
            self.row(f"the heading {heading!r}", tables.known_as(heading), wanted)
        known = {meaning for meaning in tables._known().values() if meaning.isdigit()}
        self.row("identifiers that the table has", known - gs1.identifiers().keys(), set())
        for name, given, words, parts in [("not known", "message,colour\nA,red\n", (),
             ["the heading 'colour' isn't known", "--column 'colour=message'"]),
            ("no message", "text\nA\n", (), ["none of its columns is the message"]),
            ("two of one", "lot,batch\nA,B\n", (), ["two of its columns are 10"]),
            ("message and elements", "message,lot\nA,B\n", (), ["identifiers of GS1 make the message"]),
            ("an answer to nothing", "message\nA\n", ("--column", "lot=10"), ["has no such heading"]),
            ("an answer that is none", "message\nA\n", ("--column", "message=red"),
             ["a heading and what its column is"]), ("a quotation mark that isn't closed", "message\n\"A\nB\n", (),
             ["line 3: a quotation mark is never closed"]),
            ("nothing", "", (), ["it is empty"]), ("blank", " \n,\n", (), ["it is empty"]),
            ("not UTF-8", b"message\n\xe9\n", (), ["isn't UTF-8", "iconv"]),
            ("a text below a grid", "message,text\nA,B\n", (), ["a grid has none"]),
            ("a message beside", "message\nA\n", ("B", ), ["--csv", "'B' would be another"]),
        ]:
            self.says(name, ecc("write", *words, "--csv", "-", given=given), 2, "", parts)
        answered = ecc("write --csv - --column", "Art. no.=01", "--column", "colour=-",
                       given="Art. no.,colour\n09521234543213,red\n")
        self.says("answered", answered, output=smallest(b"0109521234543213", gs1=True))
        self.says("without an end", ecc("write --csv /dev/zero"), 2, "", ["more than 256 MiB"])

    def test_told(self):
        """What symbols say is a table, whatever they say."""
        here = self.made("told")
        formula, lines = symbols(b"=1+1", b"-5", b"+a", b"@b"), symbols(b"a,\"b\"\nc")
        marked = text(ecc200.write(b"0109521234543213" + b"10A;B\x1d21=7", gs1=True))
        part = text(ecc200.write(b"1", head=(1, 2, 3, 4)))
        given = lines + formula + marked + text(hurt(5)) + symbols(b"\x80\xff\n") + part
        saved(here, "=a.txt", given)
        status, output, errors = self.ecc("read --csv --elements 01,Serial =a.txt none.txt")
        self.holds("rows end with CRLF", output.endswith("\r\n") and output.isascii() and "\x1b" not in output, output)
        head, *rows = parsed(output)
        self.row("headings", head, ["picture", "number", "message", "kind", "01", "Serial", "symbology", "size",
                                    "corrected", "border", "corners", "not read"])
        self.row("messages", [row[2] for row in rows],
                 ["a,\"b\"\nc", "'=1+1", "'-5", "'+a", "'@b", "(01)09521234543213(10)A;B(21)=7", "", "\\x80\\xFF\\x0A",
                  "\\A{1/2:003004}1", ""])
        self.row("their kinds", [row[3] for row in rows], ["text"] * 5 + ["gs1", "", "escapes", "escapes", ""])
        self.row("elements", [row[4:6] for row in rows if row[4]], [["09521234543213", "'=7"]])
        self.row("a symbol", rows[0], ["'=a.txt", "1", "a,\"b\"\nc", "text", "", "", "]d1", "14x14", "0", "0", "", ""])
        self.holds("what isn't read", rows[6][:2] == ["'=a.txt", "7"] and "scan it again" in rows[6][-1]
                   and rows[-1][:2] == ["none.txt", ""] and "No such file" in rows[-1][-1], str(rows))
        self.holds("errors", status == 2 and "apostrophe in front" in errors and errors.count("\n") == 3, errors)
        marked = ecc("read --csv --bom", given=symbols("\u20ac".encode()))
        self.row("a mark in front", parsed(marked[1])[0][0], "\ufeffpicture")
        narrow = run([*WORDS, "read", "--csv"], symbols("\u20ac".encode()).encode(), env={**environment(),
                                                                                         "PYTHONIOENCODING": "latin-1"})
        self.holds("UTF-8 whatever the locale", "\u20ac" in marked[1] and "\u20ac" in narrow[1], narrow[1])
        back = ecc("write --csv -", given=ecc("read --csv", given=given)[1])
        self.row("written again", back[1], given.replace(text(hurt(5)), ""))
        for words in (("--elements", "01"), ("--bom", )):
            self.says(f"{words} alone", ecc("read", *words), 2, "", ["it needs --csv"])
        self.says("no identifiers", ecc("read --csv --elements 01,colour"), 2, "", ["unlike 'colour'"])
        self.needs_search("corners in a table")
        self.ecc("write --sheet 100x60 -o sheet.png", given="A\nB\nC\n")
        rows = parsed(self.ecc("read --csv --all sheet.png")[1])
        self.row("in reading order", [row[1:3] for row in rows[1:]], [["1", "A"], ["2", "B"], ["3", "C"]])
        self.holds("corners", rows[1][8].startswith("(") and rows[1][8].count(",") == 4, str(rows[1]))
        rows = parsed(self.ecc("read --csv sheet.png")[1])
        self.holds("that there are more", len(rows) == 3 and "more symbols" in rows[2][-1], str(rows))

    def test_quick(self):
        """Five hundred rows with text take less than about a second of a processor, as PNG."""
        here = self.made("quick")
        rows = "".join(f"09521234543213,L,{it},label {it}\n" for it in range(500))
        saved(here, "many.csv", "gtin,lot,serial,text\n" + rows)
        with work.measured() as took:
            self.says("many rows", shell("$E write --csv many.csv -o label.png", here), output="")
        self.holds("the work", took.pieces < 10, str(took))
        self.row("files", len(os.listdir(here)), 501)
