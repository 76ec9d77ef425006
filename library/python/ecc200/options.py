"""The subcommands of the command ecc200: what each is for, and what its command line may have."""
from __future__ import annotations

import argparse
import re
from typing import Callable, Dict, NamedTuple, Optional, Tuple

from . import core
from .core import BorderLimit, Extent, Form, Head, Profile, Shape
from .labels import KINDS
from .spelling import Misspelled, of_part

__all__ = ["SUBCOMMANDS", "Subcommand"]

_ALL = 1000  # symbols of a picture
_PICTURES = "Symbols in pictures may stand anywhere, turned, mirrored or light on dark. "
_NO_SAMPLER = "Only upright symbols with a whole number of pixels a module are read: "


def _number(least: int, most: int) -> Callable[[str], int]:
    """What takes a whole number of these from the command line."""
    def number(text: str) -> int:
        if not re.fullmatch("[0-9]{1,9}", text) or not least <= int(text) <= most:
            raise argparse.ArgumentTypeError(f"a whole number from {least} to {most} is wanted, unlike {text!r}")
        return int(text)
    return number


def _border_limit(text: str) -> BorderLimit:
    """A border limit of the command line."""
    try:
        return "auto" if text == "auto" else _number(0, 65535)(text)
    except argparse.ArgumentTypeError as why:
        raise argparse.ArgumentTypeError(f"auto, or {why}") from None


def _resolution(text: str) -> float:
    """A resolution of the command line."""
    if not re.fullmatch(r"[0-9]+(\.[0-9]+)?", text) or not 1 <= float(text) <= 100000:
        raise argparse.ArgumentTypeError("a number from 1 to 100000 of dots an inch is wanted, as 300, unlike "
                                         f"{text!r}")
    return float(text)


def _part(text: str) -> Head:
    """A part of a structured append of the command line."""
    try:
        return of_part(text)
    except Misspelled as why:
        raise argparse.ArgumentTypeError(str(why)) from None


def _size(text: str) -> str:
    """A size of the command line."""
    found = re.fullmatch("([0-9]{1,9})x([0-9]{1,9})", text)
    if not found:
        raise argparse.ArgumentTypeError(f"rows and columns are wanted, as 8x32, unlike {text!r}")
    rows, columns = int(found[1]), int(found[2])
    if (rows, columns) not in core._sizes_by_dimensions():
        raise argparse.ArgumentTypeError(f"no symbol has {rows} rows and {columns} columns; 'ecc200 sizes' lists those "
                                         "that there are")
    return f"{rows}x{columns}"


def _column(text: str) -> Tuple[str, str]:
    """What a column is, of the command line."""
    from . import tables  # (its modules would take a part of each start)
    heading, _, what = text.rpartition("=")
    known = tables.known_as(what)
    if not heading.strip() or known is None:
        raise argparse.ArgumentTypeError("a heading and what its column is are wanted, as 'Art. no.=01', unlike "
                                         f"{text!r}")
    return heading.strip(), known


def _identifiers(text: str) -> Dict[str, str]:
    """Identifiers of GS1 by the names that the command line has for them."""
    from . import tables
    names = {name.strip(): tables.known_as(name) or "" for name in text.split(",")}
    wrong = [name for name, identifier in names.items() if not identifier.isdigit()]
    if wrong:
        raise argparse.ArgumentTypeError(f"identifiers of GS1 are wanted, as 01,lot,expiry, unlike {wrong[0]!r}")
    return names


def _takes(parser: argparse.ArgumentParser) -> argparse._ArgumentGroup:
    """Files, and what is known of their damage. Returns the options of several files."""
    parser.add_argument("files", nargs="*", metavar="FILE")
    parser.add_argument("--doubtful", metavar="FILE",
                        help="its grids, one for each symbol that is read and of as many rows and columns, have 1 "
                        "where a module may be wrong, as under a blot: twice as many codewords are restored where that "
                        "is known")
    several = parser.add_argument_group("several files")
    several.add_argument("-r", "--recursive", action="store_true",
                         help="read the pictures and grids in folders, and in those below them; without FILE in the "
                         "folder where it runs")
    several.add_argument("--jobs", type=_number(1, 256), default=1, metavar="N",
                         help="search N pictures at a time, and print what they say in order (1)")
    return several


def _takes_named(parser: argparse.ArgumentParser) -> None:
    """The same, and how the answers of files are told apart."""
    several = _takes(parser)
    several.add_argument("-H", "--with-filename", dest="filename", action="store_true", default=None,
                         help="print the file's name and a colon before each answer, as for several files and with -r")
    several.add_argument("--no-filename", dest="filename", action="store_false", help="never print it")


def _reads(parser: argparse.ArgumentParser, most: Optional[int] = None) -> None:
    """What is read, and how; and at most how many symbols of a picture, if nothing else is asked for; None is the
    first."""
    parser.add_argument("--usual", dest="extent", action="store_const", const=Extent.USUAL, default=Extent.WIDE,
                        help="read ASCII, C40, Text, X12 and Base 256 only, and refuse EDIFACT, macros and shifts that "
                        "wait")
    parser.add_argument("--basic", dest="extent", action="store_const", const=Extent.USUAL,
                        help=argparse.SUPPRESS)  # its old name
    parser.add_argument("--border", type=_border_limit, metavar="N",
                        help="accept N border modules of the wrong colour (an eighth of the rows and columns "
                        "together); auto: any number, if each block then has a correction left")
    parser.add_argument("--any-way", action="store_true",
                        help="also read grids that are turned, mirrored, light on dark, have a margin or several "
                        "characters a module")
    parser.add_argument("--upright", dest="any_way", action="store_true", help=argparse.SUPPRESS)  # its old name
    fault = core.sampler_fault()
    looks = parser.add_argument_group("pictures that are read",
                                      _PICTURES if fault is None else f"{_NO_SAMPLER}{fault}.")
    many = looks.add_mutually_exclusive_group()
    many.add_argument("--most", type=_number(1, _ALL), default=most, metavar="N",
                      help="look for at most N symbols on each page of a picture "
                      + ("(the first that is found, and a word where there are more; 1 takes less time, and asks for "
                         "no other)" if most is None else f"({most})"))
    many.add_argument("--all", dest="most", action="store_const", const=_ALL,
                      help="look for all symbols on each page")
    looks.add_argument("--time", dest="milliseconds", type=_number(1, 3600000), metavar="MS",
                       help="look for about so many milliseconds on each page; without it the work is limited, the "
                       "same on every machine, which is up to a second where nothing is found")
    looks.add_argument("--unread", action="store_true",
                       help="also list what is found and not read, the likeliest first, each with the reason and its "
                       "place; without it that is done for the likeliest alone, where nothing is read")
    looks.add_argument("--milliseconds", type=_number(1, 3600000), help=argparse.SUPPRESS)  # its old name
    limit = max(size.limit for size in core.sizes())
    looks.add_argument("--margin", type=_number(0, limit), default=0, metavar="N",
                       help="refuse symbols whose blocks have fewer than N corrections left (0)")


def _forms(parser: argparse.ArgumentParser) -> None:
    """The encodations of what is written, and which of them its readers know."""
    forms = parser.add_mutually_exclusive_group()
    forms.add_argument("--form", choices=[form.name.lower() for form in Form], default="smallest",
                       help="how characters become codewords: smallest, so that no symbol that says it is smaller (the "
                       "usual); ascii, the normal form; shorter, the second normal form, one segment of Base 256 where "
                       "that is shorter")
    forms.add_argument("--shorter", dest="form", action="store_const", const="shorter",
                       help=argparse.SUPPRESS)  # its old name
    parser.add_argument("--basic", dest="extent", action="store_const", const=Extent.USUAL, default=Extent.WIDE,
                        help="for readers that know neither EDIFACT nor macros: symbols without these, and without "
                        "what --eci, --append and --programming write")


def _profile(parser: argparse.ArgumentParser) -> None:
    parser.add_argument("--shorter", dest="profile", action="store_const", const=Profile.SHORTER, default=Profile.ASCII,
                        help="the second normal form: one segment of Base 256 where that is shorter")


def _shapes(parser: argparse._ActionsContainer, use: str) -> None:
    parser.add_argument("--shape", choices=[shape.name.lower() for shape in Shape], help=use)


def _sized(parser: argparse.ArgumentParser) -> None:
    """Which size a symbol has."""
    chosen = parser.add_mutually_exclusive_group()
    chosen.add_argument("--size", type=_size, choices=[f"{size.rows}x{size.columns}" for size in core.sizes()],
                        metavar="ROWSxCOLUMNS", help="symbols of this size, as 8x32; 'ecc200 sizes' lists all")
    _shapes(chosen, "the smallest symbol of this shape, by its number of modules: square (the usual), rectangle, "
            "extended (all rectangles, those of ISO/IEC 21471 too), any")


def _draws(parser: argparse.ArgumentParser) -> None:
    """Where a symbol goes, and how large."""
    draws = parser.add_argument_group("symbols that are written", "Without -o and --format symbols go to standard "
                                      "output: as grids, or, where that is a terminal, as half blocks, white on black.")
    draws.add_argument("-o", "--output", metavar="FILE",
                       help="write a picture, by the name's end: .png, .svg, .pdf; or .txt, grids; - is standard "
                       "output. Several symbols go into files with the numbers of their messages: label-1.png, "
                       "label-2.png, ..; {} in the name stands for the message, with _ for what "
                       "is no letter, digit, -, _ or inner dot")
    draws.add_argument("--format", choices=KINDS,
                       help="what is written, whatever the name's end; blocks: half blocks, as on a terminal")
    draws.add_argument("--module", default="0.5mm", metavar="SIZE",
                       help="the side of a module: as 0.5mm, or as 8, in dots of the resolution (0.5mm); in a .png it "
                       "is a whole number of dots")
    draws.add_argument("--dpi", type=_resolution, default=300.0, metavar="N",
                       help="the resolution, in dots an inch (300)")
    draws.add_argument("--quiet-zone", type=_number(0, 100), metavar="N",
                       help="its width in modules; the standard wants at least 1 (2; on sheets 4, so that readers tell "
                       "symbols apart)")
    draws.add_argument("--caption", action="store_true",
                       help="what the symbol says as text below it, GS1 data with its identifiers in brackets")
    draws.add_argument("--sheet", nargs="?", const="210x297", metavar="WIDTHxHEIGHT",
                       help="put all symbols onto sheets of this size in millimetres (210x297, A4)")


def _shows(parser: argparse.ArgumentParser) -> argparse._MutuallyExclusiveGroup:
    """How what is said is printed. Returns the options of which one is chosen."""
    form = parser.add_mutually_exclusive_group()
    _json(form)
    form.add_argument("--hex", action="store_true",
                      help="the message's bytes in hexadecimal, FNC1 in front left out, others as 1d")
    form.add_argument("--escapes", action="store_true",
                      help="the message as dm_tool spells it, with \\F, \\xHH and \\\\; ECI 26 is \\E{26}: what "
                      "write --escapes takes")
    form.add_argument("--raw", action="store_true",
                      help="the message's bytes as they are, with nothing behind them: what write --raw takes")
    parser.add_argument("--charset", metavar="NAME",
                        help="the charset of all bytes (that of their ECI; without one utf-8, or iso-8859-1 where they "
                        "aren't that)")
    parser.add_argument("--unknown", action="store_true", help="let identifiers of GS1 pass that aren't in the table")
    return form


def _json(parser: argparse._ActionsContainer, what: str = "symbol") -> None:
    parser.add_argument("--json", action="store_true",
                        help=f"a line of JSON for each {what}, in ASCII whatever the locale")

# ---- The subcommands


def _writing(one: argparse.ArgumentParser) -> None:
    one.add_argument("messages", nargs="*", metavar="MESSAGE")
    form = one.add_mutually_exclusive_group()
    form.add_argument("--gs1", action="store_true",
                      help="messages are element strings, as (01)09521234543213(17)251231(10)ABC or "
                      "[01]09521234543213[17]251231[10]ABC, which are checked")
    form.add_argument("--hex", action="store_true", help="messages are bytes in hexadecimal")
    form.add_argument("--escapes", action="store_true",
                      help="messages are spelled with \\F, \\xHH and \\\\, as dm_tool has it, and \\E{26} for ECI "
                      "26: what read --escapes prints")
    form.add_argument("--raw", action="store_true",
                      help="all of standard input, or each MESSAGE, is a message as it stands, of any bytes and with "
                      "its line ends: what read --raw prints")
    form.add_argument("--bytes", metavar="FILE", help="the bytes of a file are the message")
    rows = one.add_argument_group("rows of a table")
    rows.add_argument("--csv", metavar="FILE",
                      help="messages are the rows of a CSV file, whose headings say what the columns are: message, and "
                      "perhaps its kind (text, gs1, escapes, hex); or what GS1 data has, by its identifier or its "
                      "name, as 01, gtin, lot, expiry, serial; text, below the symbol; copies; size, as 8x32; file, "
                      "its name for {} of -o")
    rows.add_argument("--column", type=_column, action="append", default=[], metavar="HEADING=WHAT",
                      help="what the column of a heading is, as 'Art. no.=01'; - leaves it out")
    one.add_argument("--charset", metavar="NAME",
                     help="the charset in which text becomes bytes, with its ECI in front (iso-8859-1 without one, and "
                     "for text that it hasn't the charset whose symbol is smallest)")
    one.add_argument("--eci", type=_number(0, 999999), metavar="N",
                     help="put ECI N in front, which says how the bytes are meant: text is written in its charset, as "
                     "utf-8 for 26")
    one.add_argument("--unknown", action="store_true", help="let identifiers of GS1 pass that aren't in the table")
    one.add_argument("--blank", action="store_true",
                     help="make symbols of blank lines of standard input too, which are named else")
    heads = one.add_mutually_exclusive_group()
    heads.add_argument("--append", dest="head", type=_part, metavar="PART/OF[:FILE]",
                       help="a part of what several symbols say together (structured append): as 2/5, or as "
                       "2/5:001002 with two numbers from 001 to 254 that all parts have in common (001001); of several "
                       "messages the first is this part, and the next ones are those that follow")
    heads.add_argument("--programming", dest="head", action="store_const", const="programming",
                       help="the message is an instruction to the reader that scans it (reader programming)")
    _forms(one)
    _sized(one)
    _draws(one)


def _reading(one: argparse.ArgumentParser) -> None:
    _takes_named(one)
    _shows(one).add_argument("--csv", action="store_true",
                             help="a table as CSV, in UTF-8: a row for each symbol, with its picture, its number there "
                             "in reading order, its message, symbology identifier, size, corrections, wrong border "
                             "modules and corners, and why it isn't read")
    one.add_argument("--elements", type=_identifiers, default={}, metavar="NAMES",
                     help="with --csv, what of GS1 data has columns of its own, as 01,lot,expiry,serial")
    one.add_argument("--bom", action="store_true", help="with --csv, begin with a byte order mark, as Excel wants it")
    one.add_argument("--quality", action="store_true",
                     help="below each message how good the print is, as the picture shows it: contrast, modulation, "
                     "unused error correction, nonuniformity, growth and damage, with the grades of ISO/IEC 15415, "
                     "uncalibrated, and the weakest place")
    _reads(one)


def _joining(one: argparse.ArgumentParser) -> None:
    _takes(one)
    one.set_defaults(filename=None)
    _shows(one)
    _reads(one, 64)


def _checking(one: argparse.ArgumentParser) -> None:
    _takes_named(one)
    _json(one)
    _reads(one)


def _normalising(one: argparse.ArgumentParser) -> None:
    _takes_named(one)
    _profile(one)
    _reads(one)
    _draws(one)


def _comparing(one: argparse.ArgumentParser) -> None:
    one.add_argument("files", nargs=2, metavar="FILE")
    one.set_defaults(recursive=False, doubtful=None, jobs=1, filename=None)
    _reads(one, 64)


def _sizing(one: argparse.ArgumentParser) -> None:
    _shapes(one, "those of one shape alone (any)")
    _json(one, "size")


class Subcommand(NamedTuple):
    """A subcommand: its name, which is that of its function too; the module that has this; what it is for, briefly and
    at length; and what adds its options to a parser."""
    name: str
    module: str
    brief: str
    description: str
    add_options: Callable[[argparse.ArgumentParser], None]


SUBCOMMANDS = (
    Subcommand("read", "reporting", "what symbols say",
               "Prints what the symbols of grids and pictures say, each on a line: of a picture the first symbol that "
               "is found, and with --all all of them. A backslash is printed as \\\\, FNC1 as \\F, and each byte of a "
               "control character, and of what isn't text, as \\xHH, but in JSON text is as it is. GS1 data that keeps "
               "its rules is printed with its identifiers in brackets. In front of a part of what several symbols say "
               "stands \\A{2/5:001002}, which says that it is part 2 of 5 of the file 001002, and in front of an "
               "instruction to the reader \\P.",
               _reading),
    Subcommand("join", "parts", "what several symbols say together",
               "Prints what the parts of a structured append say together, in whichever order they are found: on each "
               "page of a picture up to 64. What is missing, what is there with two contents, and what is no part of "
               "the first one's file is named on standard error.",
               _joining),
    Subcommand("check", "reporting", "how much of symbols is wrong",
               "Prints for each symbol its rows and columns, how much of its border is wrong, and how many "
               "codewords were corrected.",
               _checking),
    Subcommand("normal", "reporting", "normal grids of what symbols say",
               "Writes the normal grid of what each symbol says, which is a square. Two symbols say the same exactly "
               "if their normal grids are equal.",
               _normalising),
    Subcommand("compare", "reporting", "whether two symbols say the same",
               "Compares what two symbols say, item by item. Status 0: the same; 1: different; 2 or more: a fault.",
               _comparing),
    Subcommand("explain", "reporting", "what each codeword means",
               "Prints each codeword of a symbol: its place, its value, the encodation in which it stands, and "
               "what it means; then what the symbol says, and its symbology identifier.",
               _checking),
    Subcommand("write", "writing", "symbols of messages",
               "Writes a symbol of each message, or of each line of standard input, if none is given: the smallest "
               "square, or with --shape or --size another symbol. Text that ISO 8859-1 has is written in that, and "
               "other text in the charset whose symbol is smallest, behind its ECI, so that it is read as it was "
               "written. A line is UTF-8, and ends with LF or with CR and LF. Neither a line end behind a message, "
               "also one of the command line, nor a byte order mark in front of the first is part of it.",
               _writing),
    Subcommand("sizes", "reporting", "the sizes that there are",
               "Prints the table of sizes, by rising number of modules: rows and columns; regions, without their "
               "borders; data and check codewords; blocks, and how many wrong codewords can be corrected in each; "
               "how many digits, other characters of ASCII, or bytes of any kind are sure to fit; and which standard "
               "has it.",
               _sizing),
)
