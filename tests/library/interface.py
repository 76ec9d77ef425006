"""The interface of the library, written from its manual: the numbers, names and layout of library/ecc200.h; and all
requests that its callers are asked, each with the answer that is wanted."""
import functools

from tests.library import content_cases, small_cases, vectors
from tests.library.cases import (MOST_CODEWORDS, MOST_DATA, MOST_MODULES, SMALLEST, choices, conveniences,
                                 faults, limits, messages, modules, numbers, sizes, wide, words)
from tests.library.contents import USUAL, WIDE
from tests.library.model import ANY, BIT, EXTENDED, FNC1, NO_MODULE, ONE, RECTANGLE, SIZES, SQUARE

CONSTANTS = {
    "MOST_ROWS": 144, "MOST_COLUMNS": 144, "MOST_MODULES": MOST_MODULES, "MOST_ITEMS": 2 * MOST_DATA + 7,
    "MOST_MARKS": MOST_DATA // 2, "MOST_CODEWORDS": MOST_CODEWORDS, "MOST_BLOCKS": max(size.blocks for size in SIZES),
    "SIZE_COUNT": len(SIZES), "FNC1": 256, "BEYOND": 255, "STACK": 49152,
}
EXTENTS, PROFILES, FORMS = {"WIDE": WIDE, "USUAL": USUAL}, {"ASCII": 0, "SHORTER": 1}, {"SMALLEST": SMALLEST}
SHAPES = {"SQUARE": SQUARE, "RECTANGLE": RECTANGLE, "EXTENDED": EXTENDED, "ANY": ANY, "ONE": ONE}
CODES = {
    "OK": 0, "SHAPE": 3, "SIZE": 4, "BORDER": 5, "BLOCK": 6, "RESERVED": 7, "LEFT_OUT": 8, "UPPER_SHIFT": 9,
    "TRIPLET": 10, "VALUE": 11, "LENGTH": 12, "UNFINISHED": 13, "TOO_LONG": 14, "ITEM": 15, "PROFILE": 16, "EXTENT": 17,
    "CHOICE": 18, "DOUBT": 19, "DESIGNATOR": 20, "APPEND": 21, "MARK": 22, "HEAD": 23, "LIMIT": 24,
}
HEAD_KINDS = {"NO_HEAD": 0, "PART": 1, "PROGRAMMING": 2}
LIMITS = {"USUAL_LIMIT": 0, "SURE_LIMIT": 1, "ANY_LIMIT": 2, "GIVEN_LIMIT": 3}
KINDS = {"NO_MODULE": NO_MODULE, "BIT": BIT, "BORDER_LIGHT": 2, "BORDER_DARK": 3, "FIXED_LIGHT": 4, "FIXED_DARK": 5}
BLOCKS, ITEMS, MARKS = CONSTANTS["MOST_BLOCKS"], CONSTANTS["MOST_ITEMS"], CONSTANTS["MOST_MARKS"]


def laid(*members, whole=1):
    """A struct: how many bytes it has, a multiple of `whole`, and where its members stand, one behind another."""
    at, places = 0, {}
    for name, length in members:
        places[name] = at, length
        at += length
    return at + -at % whole, places


LAYOUT = {
    "fault": laid(("code", 2), ("value", 2), ("place", 2)),
    "head": laid(("kind", 2), ("part", 2), ("parts", 2), ("file", 2)), "mark": laid(("number", 4), ("place", 4)),
    "scan": laid(("rows", 2), ("columns", 2), ("limit", 2), ("border_limit", 2), ("extent", 2)),
    "reading": laid(("fault", 6), ("rows", 2), ("columns", 2), ("border_faults", 2), ("block_count", 2),
                    ("item_count", 2), ("mark_count", 2), ("identifier", 2), ("dealing", 2), ("head", 8),
                    ("corrected", BLOCKS), ("erased", BLOCKS), ("left", BLOCKS), ("marks", 8 * MARKS),
                    ("items", 2 * ITEMS), whole=4),
    "how": laid(("form", 2), ("shape", 2), ("rows", 2), ("columns", 2), ("extent", 2), ("head", 8)),
    "symbol": laid(("fault", 6), ("rows", 2), ("columns", 2), ("modules", MOST_MODULES)),
    "inspection": laid(("fault", 6), ("rows", 2), ("columns", 2), ("border_faults", 2), ("block_count", 2),
                       ("codeword_count", 2), ("dealing", 2), ("designator_count", 2),
                       ("designators", 8 * MARKS), ("corrected", BLOCKS), ("erased", BLOCKS), ("left", BLOCKS),
                       ("held", MOST_CODEWORDS), ("mended", MOST_CODEWORDS), whole=4),
    "place": laid(("codeword", 2), ("bit", 1), ("kind", 1)),
    "place_table": laid(("fault", 6), ("rows", 2), ("columns", 2), ("places", 4 * MOST_MODULES)),
    "size": laid(*((name, 2) for name in ("rows", "columns", "region_rows", "region_columns", "regions_down",
                                          "regions_across", "mapping_rows", "mapping_columns", "data_codewords",
                                          "check_codewords", "blocks", "limit", "extension"))),
    "size_table": laid(("sizes", 26 * len(SIZES))),
}


class Interface:
    """The interface, and the library's own version."""
    abi = 1
    codes, constants, layout, extent_names = CODES, CONSTANTS, LAYOUT, EXTENTS

    def __init__(self, version):
        self.version = version

    def listed(self):
        """The names of all that answers.c prints, for it to include."""
        names = (f"NAMED({word.partition('=')[0]})" for word in self.shown_constants().split())
        members = (f"LAID({name}, {it})" if it else f"SIZED({name})" for name, (_, places) in LAYOUT.items()
                   for it in (None, *places))
        return f"#define CONSTANTS {', '.join(names)}\n#define LAYOUT {', '.join(members)}\n"

    def shown_constants(self):
        every = {"ABI": self.abi, **CONSTANTS, **EXTENTS, **PROFILES, **FORMS, **SHAPES, **CODES, **HEAD_KINDS,
                 **LIMITS, **KINDS}
        return "".join(f"{name}={value} " for name, value in every.items())

    @staticmethod
    def shown_layout():
        return "".join(f"{name}={size} "
                       + "".join(f"{name}.{member}={at}+{length} " for member, (at, length) in members.items())
                       for name, (size, members) in LAYOUT.items())

    @functools.cache
    def calls(self):
        """Requests that every caller answers."""
        return list(self.new_calls())

    @staticmethod
    def new_calls():
        for requests in (faults, wide, messages, choices, sizes, modules, limits):
            yield from requests()
        yield from words(set(CODES.values()))
        for requests in (*content_cases.ALL, *small_cases.ALL, *vectors.ALL):
            yield from requests()
        yield "compatible", "1"

    def of_the_header(self):
        """Requests for the header alone."""
        yield "constants", self.shown_constants()
        yield "layout", self.shown_layout()
        yield "version", f"{self.version} {self.version}"
        for request, wanted in words(set(CODES.values())):
            yield f"code_{request}", wanted
        yield from conveniences()

    def of_rust(self):
        """Requests for ecc200.rs, whose profiles, extents, limits, forms, shapes and heads are types without others."""
        written = [{**PROFILES, **FORMS}, SHAPES]
        kinds = {"read": [EXTENTS], "normal": [EXTENTS, PROFILES], "write": written, "write_bytes": written,
                 "smallest": [EXTENTS, SHAPES]}
        for request, wanted in self.calls():
            name, *given = request.split()
            is_said = all(int(word) in kind.values() for word, kind in zip(given, kinds.get(name, [])))
            is_said &= name not in ("read", "normal") or int(given[-5].partition(":")[0]) in LIMITS.values()
            if is_said and (name not in ("write", "write_bytes") or is_written(*given[:6])):
                yield request, wanted
        names = ["FNC1", *EXTENTS, *PROFILES, *CODES]
        every = {**CONSTANTS, **EXTENTS, **PROFILES, **CODES}
        yield "constants", "".join(f"{name}={every[name]} " for name in names)
        yield "version", self.version
        for items, said, gs1 in TEXTS:
            yield f"text {numbers(items)}", f"{len(said)} gs1 {gs1} bytes {numbers(said)}"


def is_written(form, shape, rows, columns, extent, head):
    """Whether types without other values can say these: an extent with SMALLEST alone, a head's numbers with a part."""
    kind, *others = map(int, head.split(":"))
    extents = EXTENTS.values() if int(form) == SMALLEST else [WIDE]
    return int(extent) in extents and (kind == HEAD_KINDS["PART"] or kind in HEAD_KINDS.values() and not any(others))


# Items, their bytes, and whether FNC1 stands in front.
TEXTS = [([], b"", 0), ([FNC1], b"", 1), ([65], b"A", 0), ([FNC1, 65, 66], b"AB", 1), ([65, FNC1, 66], b"A\x1dB", 0),
         ([65, 66, FNC1], b"AB\x1d", 0), ([FNC1, FNC1, 29, 30, FNC1], b"\x1d\x1d\x1e\x1d", 1),
         ([0, 29, 30, 128, 255], b"\x00\x1d\x1e\x80\xff", 0)]
