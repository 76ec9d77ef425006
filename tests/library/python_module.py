"""Tests the Python module: the requests of cases.py, and what only Python has: defaults, wrong types, numbers of any
size, grids of many kinds, pictures, and which library is loaded. The argument is the path of core.py; ECC200_LIBRARY is
the library, OTHER_LIBRARY one with another interface, VERSION the version of the library, REQUESTS a file with the
requests, each on a line before the answer that is wanted. It is a process of its own, since the module loads its
library as it is imported, and prints the tests as JSON: the name of each, and what is wrong or null."""
import array
import ctypes
import importlib.util
import json
import os
import pathlib
import shutil
import subprocess
import sys
import tempfile

from tests.library.answers import Answers
from tests.library.cases import (FNC1, LARGEST, MOST_DATA, NO_SIZES, REFUSED, TEN, TWELVE, WIDENED, Symbol, grid_of,
                                 hurt, with_bad_border)
from tests.library.interface import TEXTS, Interface
from tests.library.contents import symbol_of
from tests.library.model import ONE, PLACES, SIZES

MODULE = os.path.abspath(sys.argv[1])


def module(path=MODULE):
    """The module over the library that the environment names."""
    spec = importlib.util.spec_from_file_location("ecc200", path)
    made = importlib.util.module_from_spec(spec)
    spec.loader.exec_module(made)
    return made


ecc200 = module()
INTERFACE = Interface(os.environ["VERSION"])


def rows(grid):
    columns = grid.named[1]
    return [bytes(grid[at:at + columns]) for at in range(0, len(grid), columns)]


def said_by(call):
    """What a call raises, in a form that can be compared, or what it returns."""
    try:
        return call()
    except ecc200.Refused as why:
        return "refused", why.code.name, why.value, why.place
    except Exception as why:  # what else is raised is compared too
        return type(why).__name__


def refused(code, value=0, place=0):
    return "refused", code, value, place


WORKED = [bytes(int(digit) for digit in row) for row in
          ("1010101010 1100101101 1100000100 1100011101 1100001000 "
           "1000001111 1110110000 1111011001 1001110100 1111111111").split()]
FLAT = Symbol([module for row in WORKED for module in row], TEN)
LIGHT = [bytes(10)] * 10


def requests():
    answers = Answers(ecc200)
    with open(os.environ["REQUESTS"], encoding="ascii") as file:
        lines = file.read().split("\n")
    for request, wanted in zip(lines[::2], lines[1::2]):
        got = answers.to(request)
        if got is not None:
            yield request[:80], got, wanted


def names():
    public = {"ABI", "Code", "Extent", "FNC1", "Form", "Found", "Head", "Inspection", "Kind", "MOST_ITEMS", "Mark",
              "Place", "Profile", "Reading", "Refused", "SamplerMissing", "Shape", "Size", "decode", "find", "inspect",
              "normal", "places", "read", "sizes", "usual_limit", "write"}
    yield "public names", public - set(ecc200.__all__), set()
    yield "names that are there", [name for name in ecc200.__all__ if not hasattr(ecc200, name)], []
    yield "numbers", (ecc200.ABI, ecc200.FNC1, ecc200.MOST_ITEMS), (INTERFACE.abi, FNC1,
                                                                    INTERFACE.constants["MOST_ITEMS"])
    for kind, wanted in ((ecc200.Code, {name: code for name, code in INTERFACE.codes.items() if code}),
                         (ecc200.Profile, {"ASCII": 0, "SHORTER": 1}),
                         (ecc200.Form, {"ASCII": 0, "SHORTER": 1, "SMALLEST": 2}),
                         (ecc200.Shape, {"SQUARE": 0, "RECTANGLE": 1, "EXTENDED": 2, "ANY": 3}),
                         (ecc200.Extent, INTERFACE.extent_names),
                         (ecc200.Kind,
                          {"BIT": 1, "BORDER_LIGHT": 2, "BORDER_DARK": 3, "FIXED_LIGHT": 4, "FIXED_DARK": 5})):
        yield f"numbers of {kind.__name__}", {it.name: int(it) for it in kind}, wanted
    for kind, wanted in ((ecc200.Reading, "data gs1 items corrected border_faults rows columns erased left corners "
                          "marks head symbology dealing"),
                         (ecc200.Inspection, "held mended corrected border_faults erased left dealing designators"),
                         (ecc200.Place, "kind codeword bit"),
                         (ecc200.Size, "rows columns region_rows region_columns regions_down regions_across "
                          "mapping_rows mapping_columns data_codewords check_codewords blocks limit extension")):
        yield f"members of {kind.__name__}", " ".join(kind._fields), wanted


def layout():
    structs = {"fault": "_Fault", "head": "_Head", "mark": "_Mark", "scan": "_Scan", "reading": "_ReadingOut",
               "how": "_How", "symbol": "_SymbolOut", "inspection": "_InspectionOut", "place": "_PlaceOut",
               "place_table": "_PlacesOut", "size": "_SizeOut", "size_table": "_SizesOut"}
    yield "structs", set(structs), set(INTERFACE.layout)
    for name, struct in structs.items():
        kind, (size, members) = getattr(ecc200, struct), INTERFACE.layout[name]
        yield f"the size of {struct}", ctypes.sizeof(kind), size
        got = {member: (getattr(kind, member).offset, getattr(kind, member).size) for member, *_ in kind._fields_}
        yield f"the members of {struct}", got, members


def exceptions():
    """A refusal is a ValueError, and by itself has no numbers; the requests ask for its words."""
    for code in filter(None, INTERFACE.codes.values()):
        why = ecc200.Refused(code)
        got = isinstance(why, ValueError), int(why.code), why.value, why.place
        yield f"code {code} by itself", got, (True, code, 0, 0)
    for code in (0, 1, 2, 25, -1):
        yield f"no code {code}", said_by(lambda: ecc200.Refused(code)), "ValueError"


def texts():
    """Bytes and whether FNC1 stands in front, out of items, and the other way round."""
    for items, data, gs1 in TEXTS:
        got = ecc200.read(ecc200.write(items))
        yield f"the text of {items}", (got.data, got.gs1, got.items), (data, bool(gs1), tuple(items))
        yield f"types for {items}", [type(part) for part in got], [bytes, bool, tuple, tuple, int, int, int, tuple,
                                                                   tuple, type(None), tuple, type(None), str, int]
    for data, items in ((b"", [FNC1]), (b"A", [FNC1, 65]), (b"A\x1dB\x1d", [FNC1, 65, FNC1, 66, FNC1]),
                        (b"\x1d", [FNC1, FNC1])):
        wanted = ecc200.write(items)
        for given in (data, bytearray(data), list(data), tuple(data), iter(list(data)), memoryview(data)):
            yield f"GS1 {data} as {type(given).__name__}", ecc200.write(given, gs1=True), wanted
        yield f"GS1 {data} by its place", ecc200.write(data, True), wanted
        yield f"GS1 {data} with FNC1", ecc200.write([FNC1 if byte == 29 else byte for byte in data], gs1=True), wanted
        yield f"not GS1 {data}", ecc200.read(ecc200.write(data)).items, tuple(data)
    for given in (bytearray(b"AB"), [65, 66], (65, 66), iter([65, 66]), memoryview(b"AB"), range(65, 67),
                  array.array("B", b"AB")):
        yield f"a message as {type(given).__name__}", ecc200.write(given), ecc200.write(b"AB")


# What is written beside a message that is or isn't marks or a head, with what is read of it or how it is refused.
BESIDE = [
    *((f"marks of {name}", {"marks": given}, ((1, 26), (2, 999_999)), None)
      for name, given in (("tuples", ((1, 26), (2, 999_999))), ("lists", [[1, 26], [2, 999_999]]),
                          ("an iterator", iter([(1, 26), (2, 999_999)])))),
    ("no marks", {"marks": []}, (), None), ("no head", {"head": None}, (), None),
    ("a head", {"head": "programming"}, (), "programming"), ("a part", {"head": (2, 5, 1, 254)}, (), (2, 5, 1, 254)),
    ("a list of a part", {"head": [16, 16, 254, 1], "marks": [(0, 3)]}, ((0, 3),), (16, 16, 254, 1)),
    *((f"the mark {mark}", {"marks": [(0, 1), mark]}, refused("MARK", 0, 1), None)
      for mark in ((0, -1), (-1, 26), (0, 1_000_000), (3, 26), (0, 10 ** 20), (10 ** 20, 26), (0, 2 ** 32),
                   (2 ** 32, 1), (2 ** 32 - 1, 1), (0, -2 ** 32))),
    *((f"the marks {marks}", {"marks": marks}, "TypeError", None)
      for marks in (26, [26], [(0,)], [(0, 26, 1)], [(0, "26")], [(0, 2.5)], "ab", [None], {0: 26})),
    *((f"the head {head}", {"head": head}, refused("HEAD"), None)
      for head in ((0, 2, 1, 1), (3, 2, 1, 1), (1, 1, 1, 1), (1, 17, 1, 1), (1, 2, 0, 1), (1, 2, 1, 255),
                   (1, 2, 256, 1), (1, 2, 1, 257), (-1, 2, 1, 1), (65537, 2, 1, 1), (1, 65538, 1, 1), (1, 2, -255, 1),
                   (10 ** 20,) * 4)),
    *((f"the head {head!r}", {"head": head}, "TypeError", None)
      for head in ("program", "", (), (1, 2), (1, 2, 1), (1, 2, 1, 1, 1), 5, (1, 2, "1", 1), True, "part", "abcd")),
    *((f"the form {form}", {"form": form}, refused("PROFILE", form), None) for form in (3, -1, 65535, 65536, 65538)),
    *((f"the extent {extent}", {"form": 2, "extent": extent}, refused("EXTENT", extent), None)
      for extent in (2, -1, 65535, 65536, 65537)),
    ("a form of a text", {"form": "smallest"}, "TypeError", None),
    ("an extent of a text", {"form": 2, "extent": "wide"}, "TypeError", None),
    ("marks for the usual extent", {"form": 2, "extent": 1, "marks": [(0, 26)]}, refused("TOO_LONG"), None),
    ("a head for the usual extent", {"form": 2, "extent": 1, "head": "programming"}, refused("TOO_LONG"), None),
    ("the smallest", {"form": 2, "marks": [(1, 26)], "head": (1, 2, 3, 4)}, ((1, 26),), (1, 2, 3, 4)),
]


def letters():
    """Marks and heads as they are given and as they are read; the smallest symbol."""
    for name, given, marks, head in BESIDE:
        for message in (b"AB", [65, 66], bytearray(b"AB")):
            given = {**given, "marks": list(given["marks"])} if name == "marks of an iterator" else given
            got = said_by(lambda: ecc200.read(ecc200.write(message, **given)))
            wanted = (b"AB", marks, head) if isinstance(got, ecc200.Reading) else marks
            yield name, (got.data, got.marks, got.head) if isinstance(got, ecc200.Reading) else got, wanted
    yield "marks of an iterator, once", ecc200.read(ecc200.write(b"AB", marks=iter([(1, 26)]))).marks, ((1, 26),)
    got = ecc200.read(ecc200.write(b"A\x1dB", gs1=True, marks=[(0, 3), (1, 4), (4, 5)]))
    yield "marks of a GS1 message", (got.items, got.marks), ((FNC1, 65, FNC1, 66), ((0, 3), (1, 4), (4, 5)))
    for given, wanted in (({}, "]d1"), ({"gs1": True}, "]d2"), ({"marks": [(0, 3)]}, "]d4"),
                          ({"gs1": True, "marks": [(1, 3)]}, "]d5"), ({"gs1": True, "head": (1, 2, 1, 1)}, "]d2")):
        yield f"the identifier of {given}", ecc200.read(ecc200.write(b"A", **given)).symbology, wanted
    one, other = rows(grid_of(TEN, 230, 10, 121)), rows(grid_of(TEN, 232))
    yield "identifiers", [ecc200.read(grid).symbology for grid in (one, other)], ["]d1", "]d2"]
    yield "their normal grids", ecc200.normal(one), ecc200.normal(other)
    both = [ecc200.write(b"ABC", marks=[(place, 26)]) for place in (1, 2)]
    yield "other places", ecc200.normal(both[0]) == ecc200.normal(both[1]), False
    refusal = said_by(lambda: ecc200.read(both[0], extent=ecc200.Extent.USUAL))
    yield "the usual extent", refusal, refused("LEFT_OUT", 241, 2)
    capitals = b"ABCDEFGHIJKLMNOPQRSTUVWXY"
    small = ecc200.write(capitals, form=ecc200.Form.SMALLEST)
    yield "the smallest square", (len(small), ecc200.read(small).data), (18, capitals)
    yield "not the smallest", len(ecc200.write(capitals)), 22
    any_shape = ecc200.write(capitals, form=ecc200.Form.SMALLEST, shape=ecc200.Shape.ANY)
    yield "the smallest of all", (len(any_shape), len(any_shape[0])), (18, 18)
    signs = b"-./-./-./-./-./-./-."
    for extent, side in ((ecc200.Extent.USUAL, 20), (ecc200.Extent.WIDE, 18)):
        made = ecc200.write(signs, form=ecc200.Form.SMALLEST, extent=extent)
        yield f"the smallest for {extent.name}", (len(made), ecc200.read(made, extent=extent).data), (side, signs)
    yield "for whom it isn't said", len(ecc200.write(signs, form=ecc200.Form.SMALLEST)), 18
    yield "a form before a profile", ecc200.write(b"\x80" * 3, profile=1, form=0), ecc200.write(b"\x80" * 3)
    yield "a profile's form", ecc200.write(b"\x80" * 3, form=ecc200.Form.SHORTER), ecc200.write(b"\x80" * 3, profile=1)


def defaults():
    """What holds if nothing is said: the usual limit, ASCII, the wide extent, no FNC1, the smallest square."""
    for size in SIZES:
        flat, usual = Symbol(symbol_of(b"A" * size.data, 0, ONE, size.named)[1], size.named), sum(size.named) // 8
        for call in (ecc200.read, ecc200.normal):
            at, past = (said_by(lambda: call(rows(with_bad_border(flat, wrong)))) for wrong in (usual, usual + 1))
            yield f"the usual limit of {call.__name__} at {size.named}", at[0] == "refused", False
            yield f"past the usual limit of {call.__name__} at {size.named}", past, refused("BORDER", usual + 1)
    long, short = (Symbol(made[1], made[0].named) for made in (symbol_of(b"\x80" * 3, 0), symbol_of(b"\x80" * 3, 1)))
    yield "write", ecc200.write(b"\x80" * 3), rows(long)
    yield "write, shorter", ecc200.write(b"\x80" * 3, profile=ecc200.Profile.SHORTER), rows(short)
    yield "write, shorter by place", ecc200.write(b"\x80" * 3, False, ecc200.Profile.SHORTER), rows(short)
    yield "normal", ecc200.normal(rows(short)), rows(long)
    yield "normal, shorter", ecc200.normal(rows(long), profile=ecc200.Profile.SHORTER), rows(short)
    yield "normal, shorter by place", ecc200.normal(rows(long), 0, ecc200.Profile.SHORTER), rows(short)
    for data, code, value, place, items in WIDENED:
        grid = rows(grid_of(TWELVE, *data))
        refusal = refused(ecc200.Code(code).name, value, place)
        yield f"wide {value}", ecc200.read(grid).data, items
        yield f"wide {value} by place", ecc200.read(grid, 0, ecc200.Extent.WIDE).data, items
        yield f"usual {value}", said_by(lambda: ecc200.read(grid, extent=ecc200.Extent.USUAL)), refusal
        yield f"wide normal of {value}", ecc200.normal(grid), ecc200.write(items)
        yield f"usual normal of {value}", said_by(lambda: ecc200.normal(grid, extent=ecc200.Extent.USUAL)), refusal


def limits():
    bad = rows(with_bad_border(FLAT, 3))
    for call in (ecc200.read, ecc200.normal):
        for limit in (0, 2, 3, 4, 65535, 65536, 65537, 10 ** 20):
            got = said_by(lambda: call(bad, limit))
            yield f"{call.__name__} with the limit {limit}", got != refused("BORDER", 3), limit >= 3
            yield f"{call.__name__} with border_limit={limit}", said_by(lambda: call(bad, border_limit=limit)), got
        yield f"{call.__name__} with the limit 0", said_by(lambda: call(rows(with_bad_border(FLAT, 1)),
                                                                        0)), refused("BORDER", 1)
        for limit in (-1, -(10 ** 20)):
            yield f"{call.__name__} with the limit {limit}", said_by(lambda: call(WORKED, limit)), "ValueError"
    yield "border faults", ecc200.read(bad, 3).border_faults, 3
    yield "border faults that are inspected", ecc200.inspect(bad).border_faults, 3
    yield "limits of squares", [ecc200.usual_limit(side) for side in range(200)], [side // 4 for side in range(200)]


# The same grid in other forms, and what isn't a grid with how it's refused.
FORMS = {
    "lists": [list(row) for row in WORKED], "tuples": tuple(tuple(row) for row in WORKED),
    "bytearrays": [bytearray(row) for row in WORKED], "truth": [[bool(module) for module in row] for row in WORKED],
    "255": [bytes(255 * module for module in row) for row in WORKED],
    **{f"{dark}": [[dark * module for module in row] for row in WORKED] for dark in (2, 256, -1)},
    "1 and 255": [[module * (1 + 254 * (i % 2)) for i, module in enumerate(row)] for row in WORKED],
}
NO_GRIDS = [
    ("a shorter row", [b"\1\0", b"\1"], refused("SHAPE")),
    ("a longer row", [*WORKED[:-1], WORKED[-1] + b"\1"], refused("SHAPE")),
    ("rows of other lengths and as many modules", [b"\1" * 9, b"\1" * 11, *WORKED[2:]], refused("SHAPE")),
    ("two wrong rows", [WORKED[0] + b"\1", WORKED[1][:-1], *WORKED[2:]], refused("SHAPE")),
    *((name, given, refused("SHAPE")) for name, given in (
        ("rows of text, some too short", ["1" * 10, "1" * 9] * 5), ("a line too short", "11\n1\n"),
        ("99 bytes", bytes(99)), ("three bytes", bytes(3)), ("flat bytes of a rectangle", bytes(12 * 26)))),
    ("a row too many", [*WORKED, WORKED[-1]], refused("SIZE", 11, 10)),
    ("a row too few", WORKED[1:], refused("SIZE", 9, 10)), ("no rows", [], refused("SIZE", 0, 0)),
    *((f"nothing as {type(given).__name__}", given, refused("SIZE", 0, 0)) for given in (b"", "")),
    ("an empty row", [b""], refused("SIZE", 1, 0)),
    *((f"a row of {count}", [bytes(count)], refused("SIZE", 1, count)) for count in (65_535, 65_536)),
    ("one column", [b"\1"] * 65_536, refused("SIZE", 65_536, 1)),
    ("a short text", ["1" * 10] * 9, refused("SIZE", 9, 10)),
    ("an oblong view", memoryview(bytes(200)).cast("B", (10, 20)), refused("SIZE", 10, 20)),
    ("flat bytes of side 11", bytes(121), refused("SIZE", 11, 11)),
    ("rows of another size", [bytes(18)] * 10, refused("SIZE", 10, 18)), ("one module", [b"\1"], refused("SIZE", 1, 1)),
    ("a rectangle that lies down", [bytes(8)] * 18, refused("SIZE", 18, 8)),
    *((f"side {side}", [bytes(side)] * side, refused("SIZE", side, side)) for side in (11, LARGEST.rows + 1)),
    *((f"{count} rows", [b""] * count, refused("SIZE", count, 0)) for count in (65_536, 70_000)),
    *((name, given, "TypeError") for name, given in (
        ("None", None), ("a number", 7), ("a row that is a number", [1]), ("modules that are nothing", [None]))),
]


def grids():
    """Rows of any kind; anything but 0 is dark; rows of other lengths have no shape."""
    wanted = ecc200.read(WORKED)
    for name, given in FORMS.items():
        yield f"a grid of {name}", ecc200.read(given), wanted
        yield f"the normal grid of {name}", ecc200.normal(given), WORKED
        yield f"the inspection of {name}", ecc200.inspect(given), ecc200.inspect(WORKED)
    for name, given, refusal in NO_GRIDS:
        for call in (ecc200.read, ecc200.normal, ecc200.inspect):
            yield f"{call.__name__} of {name}", said_by(lambda: call(given)), refusal


def doubts():
    """Doubtful modules in rows, which have to be as many and as long as the symbol's."""
    oblong = Symbol(symbol_of(b"0123456789", 0, ONE, (8, 32))[1], (8, 32))
    bad, marks = rows(hurt(oblong, 0, 11)), [bytes([1]) * 32] * 8
    yield "all are doubtful", said_by(lambda: ecc200.read(bad, doubtful=marks)), refused("BLOCK", 0, 0)
    for call in (ecc200.read, ecc200.normal, ecc200.inspect):
        for name, given in (("rows of another number", [bytes(16)] * 16), ("columns and rows", [bytes(8)] * 32),
                            ("a row less", [bytes(32)] * 7), ("a column less", [bytes(31)] * 8), ("no rows", []),
                            ("no bytes", b""), ("too few bytes", bytes(255)), ("too many bytes", bytes(257))):
            got = said_by(lambda: call(rows(oblong), doubtful=given))
            yield f"{call.__name__} with {name} doubtful", got, refused("DOUBT")
        for name, given in (("rows", [bytes(32)] * 8), ("bytes", bytes(256)), ("text", ["0" * 32] * 8), ("none", None)):
            yield f"{call.__name__} with {name}", call(rows(oblong), doubtful=given), call(rows(oblong))


# What calls are given: numbers that the library can't be given, or what is no number; of a refusal its code, value and
# place, or its code and place where the number may be told as it is or as the largest.
NUMBERS = {
    ecc200.write: [
        ([-1], {}, ("ITEM", 0)), ([65, 65536], {}, ("ITEM", 1)), ([65, 257, -1], {}, ("ITEM", 257, 1)),
        ([65535], {}, ("ITEM", 65535, 0)), ([65, 66, 10 ** 20], {}, ("ITEM", 2)),
        ([55] * 70_000 + [300], {}, ("ITEM", 300, 65535)), ([55] * 70_000 + [-1], {}, ("ITEM", 65535)),
        ([65, 300], {"gs1": True}, ("ITEM", 300, 2)), ([65, -300], {"gs1": True}, ("ITEM", 2)),
        *((given, {}, "TypeError") for given in (["A"], [65.5], None, [None], 65)),
        *((b"A", {"profile": number}, ("PROFILE", number, 0)) for number in (2, 65535)),
        *((b"A", {"profile": number}, ("PROFILE", 0)) for number in (-1, 65536, 65537, -65535)),
        *((b"A", {"shape": number}, ("CHOICE", number, 0)) for number in (4, -1, 65536, 1 << 40)),
        *((b"A", how, "TypeError") for how in ({"profile": "ascii"}, {"shape": "any"}, {"size": "8x32"},
                                               {"size": (8,)}, {"size": (8, 18, 1)}, {"size": (8, 32), "shape": 0})),
        (b"A" * (MOST_DATA + 1), {}, ("TOO_LONG", 0, 0)),
        (b"\xff" * (MOST_DATA - 2), {"profile": 1}, ("TOO_LONG", 0, 0)),
        *((b"A", {"size": named}, ("SIZE", *named))
          for named in (*NO_SIZES, (-8, 18), (8, -18), (8, 34), (65_544, 18), (1 << 40, 1 << 40)))],
    ecc200.normal: [(WORKED, {"profile": 2}, ("PROFILE", 2, 0)),
                    *((WORKED, {"profile": number}, ("PROFILE", 0)) for number in (-1, -65536, 65536))],
    ecc200.places: [*((number, {}, ("SIZE", number, number)) for number in (-65526, -1, 0, 65546, 10 ** 20)),
                    *((high, {"columns": wide}, ("SIZE", high, wide)) for high, wide in ((8, 65554), (-8, 18))),
                    ("ten", {}, "TypeError")],
    ecc200.usual_limit: [("ten", {}, "TypeError")], ecc200.read: [(WORKED, {"border_limit": "2"}, "TypeError")],
}


def numbers():
    for call, given, how, wanted in ((call, *row) for call, some in NUMBERS.items() for row in some):
        got = said_by(lambda: call(given, **how))
        if isinstance(wanted, tuple) and isinstance(got, tuple):
            got = got[1::2] if len(wanted) == 2 else got[1:]
        yield f"{call.__name__}, {str(given)[-40:]}, {how}", got, wanted
    yield "256 is FNC1", ecc200.write([256]), ecc200.write([FNC1])
    yield "a list for a size", ecc200.write(b"A", size=[8, 18]), ecc200.write(b"A", size=(8, 18))
    got = ecc200.read(ecc200.write(b"10A\x1d21B", gs1=True, size=(8, 32))).items
    yield "GS1 data in a size", got, (FNC1, *b"10A", FNC1, *b"21B")
    yield "a text", ecc200.write("A"), ecc200.write(b"A")
    yield "the longest", len(ecc200.write(b"7" * 2 * MOST_DATA)), LARGEST.rows
    for extent in (2, -1, 65535, 65536, 65537, -65535, -65536):
        for call in (ecc200.read, ecc200.normal):
            got = said_by(lambda: call(WORKED, extent=extent))
            got = got[1::2] if isinstance(got, tuple) else got
            yield f"{call.__name__} with the extent {extent}", got, ("EXTENT", 0)


def results():
    """Types and forms of what is returned."""
    for size in SIZES:
        grid = ecc200.write(b"A" * size.data, size=size.named)
        got = isinstance(grid, list), {type(row) for row in grid}, {len(row) for row in grid}, len(grid)
        yield f"rows of {size.named}", got, (True, {bytes}, {size.columns}, size.rows)
        places = ecc200.places(*size.named)
        yield f"places of {size.named}", [tuple(at) for row in places for at in row], PLACES[size.named]
        yield f"their rows of {size.named}", [len(row) for row in places], [size.columns] * size.rows
        each = [at for row in places for at in row]
        types = {type(at) for at in each} | {type(at.kind) for at in each}
        yield f"their types of {size.named}", types, {ecc200.Place, ecc200.Kind}
    first, _ = ecc200.write(b"123456"), ecc200.write(b"7" * 1000)
    yield "an answer stays as it was", first, WORKED
    seen = ecc200.inspect(WORKED)
    words = bytes([142, 164, 186, 114, 25, 5, 88, 102])
    yield "an inspection", tuple(seen), (words, words, (0,), 0, (0,), (5,), 0, ())
    yield "its types", [type(part) for part in seen], [bytes, bytes, tuple, int, tuple, tuple, int, tuple]
    yield "beyond correction", ecc200.inspect(rows(hurt(FLAT, 0, 5))).corrected, (None,)
    yield "corrected", ecc200.read(rows(hurt(FLAT, 0, 2))).corrected, (2,)
    yield "sizes", [tuple(size) for size in ecc200.sizes()], [tuple(size) for size in SIZES]
    types = {type(size) for size in ecc200.sizes()} | {type(number) for size in ecc200.sizes() for number in size}
    yield "their types", types, {ecc200.Size, int}
    for data, code, value, place in REFUSED:
        got = said_by(lambda: ecc200.read(rows(grid_of(TWELVE, *data))))
        yield f"refused {data}", got, refused(ecc200.Code(code).name, value, place)


class Array:
    """What has the array interface and no buffer."""

    def __init__(self, data, shape, typestr="|u1"):
        self.__array_interface__ = {"version": 3, "shape": shape, "typestr": typestr, "data": data}


def pictures():
    """Which arrays are pictures, and what is said of others, and where the sampler isn't installed."""
    shades = bytes(range(0, 240, 40))
    for name, given, wanted in [
        ("a view of bytes", memoryview(shades).cast("B", (2, 3)), (shades, 3, 2)),
        ("a view of booleans", memoryview(bytes([0, 1, 1, 1, 0, 0])).cast("?", (2, 3)), (b"\0\xff\xff\xff\0\0", 3, 2)),
        ("steps", memoryview(shades).cast("B", (2, 3))[::2], (shades[:3], 3, 1)),
        ("an array interface", Array(shades, (2, 3)), (shades, 3, 2)),
        ("an array interface of booleans", Array(b"\0\1", (1, 2), "|b1"), (b"\0\xff", 2, 1)),
        ("longs", memoryview((ctypes.c_uint * 6)(*shades)).cast("B").cast("I", (2, 3)), (shades, 3, 2)),
        *((name, given, "TypeError") for name, given in (
            ("characters", memoryview(shades).cast("c", (2, 3))), ("one dimension", memoryview(shades)),
            ("five colours", memoryview(bytes(30)).cast("B", (2, 3, 5))),
            ("colours of characters", memoryview(bytes(18)).cast("c", (2, 3, 3))),
            ("four dimensions", memoryview(shades).cast("B", (1, 1, 2, 3))),
            ("rows", [shades]), ("a text", "0101"), ("None", None))),
    ]:
        yield f"luminances of {name}", said_by(lambda: ecc200.luminance(given)), wanted
    os.environ["ECC200_SAMPLE_LIBRARY"] = "/nonexistent/libecc200_sample.so"
    yield "no sampler", ecc200.has_sampler(), False
    yield "SamplerMissing is an ImportError", issubclass(ecc200.SamplerMissing, ImportError), True
    blank = Array(bytes(100), (10, 10))
    for call in (ecc200.find, ecc200.decode):
        yield f"{call.__name__} without the sampler", said_by(lambda: call(blank)), "SamplerMissing"
    try:
        ecc200.find(blank)
    except ImportError as why:
        yield "the sampler's path and variable", [word in str(why)
                                                  for word in ("/nonexistent/", "ECC200_SAMPLE_LIBRARY")], [True, True]
    yield "a grid without the sampler", [reading.data for reading in ecc200.decode(WORKED)], [b"123456"]
    yield "no grid without the sampler", ecc200.decode(LIGHT), []


def told_in(folder, program, **environment):
    """What a program says, or the last line of its errors, that finds the module in a folder, as users copy it."""
    shutil.copy(MODULE, os.path.join(folder, "ecc200.py"))
    clean = {name: value for name, value in os.environ.items() if name != "ECC200_LIBRARY"}
    done = subprocess.run([sys.executable, "-B", "-c", program], env={**clean, "PYTHONPATH": folder, **environment},
                          capture_output=True, text=True, cwd="/", check=False)
    return done.stdout.strip() or done.stderr.strip().split("\n")[-1]


def loading():
    """Which library is loaded: the one that is named, else the one beside the module, and none of another interface."""
    own, other = os.environ["ECC200_LIBRARY"], os.environ["OTHER_LIBRARY"]
    wrong = f"has version 2 of the interface, but this module needs version {INTERFACE.abi}"
    asked = "import ecc200; print(len(ecc200.write(b'123456')), ecc200._library._name)"
    with tempfile.TemporaryDirectory() as folder:
        loads = lambda **environment: told_in(folder, asked, **environment)
        yield "the library that is named", loads(ECC200_LIBRARY=own), f"10 {own}"
        yield "another interface", loads(ECC200_LIBRARY=other), f"ImportError: {other} {wrong}"
        raised = loads(ECC200_LIBRARY="/nonexistent/libecc200.so").split(":")[0]
        yield "no library", raised in ("ImportError", "OSError"), True
        os.symlink(other, os.path.join(folder, "libecc200.so"))
        yield "the library beside the module", wrong in loads(), True
        yield "the library that is named, and another beside the module", loads(ECC200_LIBRARY=own), f"10 {own}"


# What is looked for where the system is called nt, and what is said if nothing is found.
UNDER_WINDOWS = """
import ctypes, os
asked = []


def opened(path):
    asked.append(path)
    raise FileNotFoundError(f"Could not find module '{path}' (or one of its dependencies).")


ctypes.CDLL, os.name = opened, "nt"
try:
    import ecc200
except ImportError as why:
    print(asked, str(why).split(" (")[0])
"""


def loading_under_windows():
    """Under Windows the library beside the module is looked for, and then that which the system finds."""
    with tempfile.TemporaryDirectory() as folder:
        beside = os.path.join(folder, "ecc200.dll")
        for is_there, said in ((False, "the library ecc200 isn't installed, or set ECC200_LIBRARY to its path"),
                               (True, f"{beside} is there, but can't be loaded: Could not find module '{beside}'")):
            if is_there:
                pathlib.Path(beside).touch()
            yield f"a library, {is_there}", told_in(folder, UNDER_WINDOWS), f"{[beside, 'ecc200.dll']} {said}"


def tried():
    """Each test's name, and what is wrong or None."""
    for part in (names, layout, requests, exceptions, texts, letters, defaults, limits, grids, doubts, numbers, results,
                 pictures, loading, loading_under_windows):
        try:
            for name, got, wanted in part():
                wrong = None if got == wanted else f"{str(got)[:300]}, and not {str(wanted)[:300]}"
                yield f"{part.__name__}, {name}", wrong
        except Exception as why:  # whatever a wrong module does is a failure
            yield part.__name__, f"{type(why).__name__}: {why}"


if __name__ == "__main__":
    print(json.dumps([*tried()]))
