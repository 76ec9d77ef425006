"""Symbols that say more than a message, in pictures: ECI marks, parts of several (structured append) and reader
programming. What each says, and its symbol, is that of tests/library/contents.py."""
import json
import os
import sys

from tests.library.content_cases import printed
from tests.library.contents import Content, content_words, said_by, symbol_of
from tests.library.model import FNC1, ONE
from tests.sampler.common import Searches
from tests.sampler.pictures import grid_of, pgm, pixels_of, record, run, spelling, turned
from tests.sampler.sizes import tilted
from tests.support import package

PROGRAMMING = "programming"
GREEK = Content(tuple("Ωmega".encode()), ((26, 0), ))
FIRST, LAST = (Content(items, (), head) for items, head in (((65, 66), (1, 2, 7, 254)), ((67, 68), (2, 2, 7, 254))))
CONTENTS = [
    GREEK, Content(tuple(b"mixed"), ((9, 0), (26, 2), (999_999, 2), (3, 5))), Content((), ((200, 0), )),
    Content((FNC1, *b"01", FNC1, *b"LOT7"), ((26, 3), )), FIRST, LAST,
    Content((FNC1, *b"0112345"), (), (3, 16, 1, 254)), Content(tuple(b"tail\\\x80"), ((20_000, 4), ), (16, 16, 254, 1)),
    Content(tuple(b"123456"), (), PROGRAMMING), Content(tuple(b"set"), ((4, 1), ), PROGRAMMING)]
# Sizes that hold each of these, and no record has.
OTHER_SIZES = [(16, 48), (8, 64), (120, 120)]

FINDS = """
import json, sys
import ecc200
data = sys.stdin.buffer.read()
wide, high = map(int, data.split(b"\\n")[2].split())
found = ecc200.find(memoryview(data[-wide * high:]).cast("B", (high, wide)))
print(json.dumps([[it.answer.items, it.answer.marks, it.answer.head, it.answer.symbology] for it in found]))
"""


def grid(content, named=None):
    """The rows of a content's symbol: its normal grid, or the one of this size."""
    size, modules = symbol_of(content) if named is None else symbol_of(content, 0, ONE, named)
    return [modules[at:at + size.columns] for at in range(0, size.rows * size.columns, size.columns)]


def spelled(content):
    """A content as the command spells it."""
    return spelling().spelled(content.items, [(place, number) for number, place in content.marks], content.head)


def identifier(content):
    return f"]d{said_by(content_words(content))[1]}"


def wanted(content, symbology):
    """What is told of a symbol that says this."""
    told = {"message": spelled(content), "identifier": symbology}
    if content.head:
        told["head"] = content.head if content.head == PROGRAMMING else list(content.head)
    if content.marks:
        told["marks"] = [[place, number] for number, place in content.marks]
    return told


def parts():
    """A picture of three symbols side by side, which say two parts of one file and a programming."""
    contents = [FIRST, LAST, CONTENTS[-1]]
    high = max(len(pixels_of(grid(content))) for content in contents)
    pictures = [pixels_of(grid(content)) for content in contents]
    padded = [picture + [[230] * len(picture[0])] * (high - len(picture)) for picture in pictures]
    return contents, [[level for picture in padded for level in picture[row]] for row in range(high)]


def in_a_line(content):
    """A content as searched.c prints it."""
    head = {None: "none", PROGRAMMING: PROGRAMMING}.get(content.head)
    head = head or "part {} of {}, file {} {}".format(*content.head)
    marks = "".join(f" {number}@{place}" for number, place in content.marks)
    return f"{head};{marks}; {bytes(content.items).decode()}"


class Contents:
    def test_contents(self):
        """Each content is read as it was written, however its symbol lies, and with damage up to the limit."""
        for at, content in enumerate(CONTENTS):
            modules = grid(content)
            spoilt = [row[:] for row in modules]
            spoilt[len(spoilt) // 2][4] ^= 1
            plain = pixels_of(modules, 3 + at % 3)
            ways = {"upright": plain, "turned": turned(plain), "mirrored": [row[::-1] for row in plain],
                    "light on dark": [[255 - level for level in row] for row in plain], "spoilt": pixels_of(spoilt),
                    "tilted": tilted(pixels_of(modules, 5), 0.4 + at)}
            ways |= {f"{rows} by {columns}": pixels_of(grid(content, (rows, columns)), 3)
                     for rows, columns in OTHER_SIZES}
            for way, picture in ways.items():
                told = [{name: said[name] for name in ("message", "identifier", "head", "marks") if name in said}
                        for said in self.told(picture, "--all")]
                self.row(f"{content}, {way}", told, [wanted(content, identifier(content))])

    def test_marks(self):
        """Symbols of another encoder in all sizes beyond the squares to 104, and with marks and heads, drawn."""
        count = 0
        for at, (number, (rows, columns), content, modules) in enumerate(printed("sizes")):
            lines = [modules[row * columns:(row + 1) * columns] for row in range(rows)]
            said = self.first(pixels_of(lines, 3 + at % 3))
            told_of_it = {name: said.get(name) for name in ("rows", "columns", "message", "head", "marks", "grid")}
            all_of_it = {"rows": rows, "columns": columns, "head": None, "marks": None, **wanted(content, None),
                         "grid": ["".join(map(str, line)) for line in lines]}
            del all_of_it["identifier"]
            self.row(f"mark {number}, {rows} by {columns}", told_of_it, all_of_it)
            count += bool(content.head or content.marks)
        self.row("some say more than a message", count > 5, True)

    def test_contents_are_no_records(self):
        """What says more than a message isn't handed on to dm_tool: it is named, and what stands beside it is."""
        reasons = {GREEK: "has an ECI", FIRST: "is one part of several (structured append)",
                   CONTENTS[-2]: "programs the reader", CONTENTS[-1]: "programs the reader"}
        square = grid_of("SQUARE")
        for content, why in reasons.items():
            modules = grid(content)
            named = (f"dm_sample: -: the symbol of {len(modules)} by {len(modules)} modules at 12.0,12.0 {why}, which "
                     "dm_tool doesn't read: --json has it\n")
            done = run([self.sampler, "--corners"], pgm(pixels_of(modules)))
            self.row(f"{content} is no record", (done.returncode, done.stdout, done.stderr.decode()), (1, b"", named))
            above, below = pixels_of(modules), pixels_of(square)
            wide = max(len(above[0]), len(below[0]))
            done = run([self.sampler, "--all"], pgm([row + [230] * (wide - len(row)) for row in above + below]))
            self.row(f"{content} above a message", (done.returncode, done.stdout.decode(), done.stderr.decode()),
                     (1, record(square), named))

    def test_contents_in_c(self):
        """The library tells a caller in C of heads and marks."""
        contents, rows = parts()
        found, ended = Searches(self).of(rows, 8)
        self.row("contents in C", (found, ended), (list(map(in_a_line, contents)), "whole"))

    def test_contents_in_python(self):
        """Python's `find` gives them."""
        contents, rows = parts()
        env = {**os.environ, **package.settings(), "ECC200_SAMPLE_LIBRARY": f"{self.plain}/libecc200_sample.so"}
        done = run([sys.executable, "-c", FINDS], pgm(rows), env=env)
        self.row("Python finds them", done.stderr.decode(), "")
        contents_of = [[list(content.items), [[place, number] for number, place in content.marks],
                       wanted(content, None).get("head"), identifier(content)] for content in contents]
        self.row("contents in Python", json.loads(done.stdout or b"[]"), contents_of)
