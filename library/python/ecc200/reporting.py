"""The subcommands that read: read, check, normal, compare, explain; and sizes."""
from __future__ import annotations

import argparse
import sys
from typing import TYPE_CHECKING, Any, Dict, Iterator, List, NamedTuple, Optional, Tuple, Union

from . import core, explaining, gs1
from .advice import ANEW, bytes_in, in_words, righted, sizes_of, why_not_written
from .core import FNC1, Code, Head, Reading, Refused, Rows, Shape, Unsure, text_of, usual_limit
from .joining import Joined
from .labels import Label, Output, printed
from .progress import Progress
from .quality import in_lines, rounded
from .sources import Search, Source, Trouble, doubts, known_charset, sources, why_not
from .spelling import headed, is_plain, plain, shown, spelled
from .terminal import say

if TYPE_CHECKING:
    from . import tables

__all__ = ["Answer", "answers", "check", "compare", "complain", "explain", "json_line", "line_of", "message_told",
           "normal", "put_raw", "read", "sizes"]

_NO = "\\no"  # stands for what a grid of a text says that isn't read, as dm_tool has it
_EARLY = 3  # the status where a search ended early
_OTHERS = "Other codes, as QR codes, aren't read"
_NO_GS1 = "isn't: no FNC1 stands in front, which write --gs1 puts there"
_OTHER_DEALING = "check codewords dealt into blocks from the first one, as libdmtx deals them"


class Answer(NamedTuple):
    """What a symbol says, or why it isn't read, in words, with the refusal if the library refused; the grid; how it was
    changed to be read; which of its modules are doubtful, if that is said; and how many border modules may be wrong, if
    it isn't the usual number."""
    source: Source
    reading: Optional[Reading]
    rows: Rows
    fault: str = ""
    refused: Optional[Refused] = None
    how: str = ""
    doubtful: Optional[Rows] = None
    border: Optional[int] = None

    @property
    def size(self) -> str:
        """Rows and columns, as --size takes them."""
        return f"{len(self.rows)}x{len(self.rows[0])}"


def _refusal(source: Source, rows: Rows, why: Refused, given: argparse.Namespace, doubtful: Optional[Rows]) -> Answer:
    hint = None if source.found or doubtful is not None else righted(rows, given.border, given.extent)
    if hint is not None and given.any_way:
        return Answer(source, hint.reading, hint.rows, how=hint.how)
    if isinstance(why, Unsure):
        return Answer(source, None, rows, _unsure(why, given.margin), why, doubtful=doubtful)
    fault = in_words(why, rows, given.extent, doubtful)
    if source.found and why.code in (Code.BORDER, Code.BLOCK) and not given.unread:
        beside = f"Beside it is {source.other}, which isn't one" if source.other else _OTHERS
        fault = f"what looks most like a symbol isn't read: {fault}. {beside}"
    if hint is not None:
        fault = f"it {hint.how}; --any-way reads it so" + ("" if Code.SIZE >= why.code else f" (as it stands, {fault})")
    return Answer(source, None, rows, "; ".join(filter(None, (fault, source.fault))), why, doubtful=doubtful)


def _unsure(why: Unsure, margin: int) -> str:
    """What a symbol may say, and why that isn't sure."""
    left = (f"fewer than {margin} corrections" if margin
            else "no correction, while its border is damaged or modules are doubtful")
    return f"it may say {_line(why.reading)}, but its blocks leave {left}: {ANEW}"


def _answer(source: Source, given: argparse.Namespace, doubtful: Optional[Rows]) -> Answer:
    """What a grid says; or a symbol of a picture as it was read there, unless something else is asked for."""
    if source.rows is None:
        return Answer(source, None, [], source.fault)
    rows, border, found = source.rows, given.border, source.found
    if found is not None:
        if isinstance(found.answer, Unsure) and doubtful is None:
            return _refusal(source, rows, found.answer, given, found.doubtful)
        doubtful = found.doubtful if doubtful is None else doubtful
        border = found.border_limit if isinstance(found.answer, Reading) and border is None else border
    try:
        reading = core.read(rows, border, given.extent, doubtful)
        if border == "auto":
            border = max(usual_limit(*reading.size), reading.border_faults)
        return Answer(source, reading, rows, doubtful=doubtful, border=border)
    except Refused as why:
        return _refusal(source, rows, why, given, doubtful)


def _told(source: Source, given: argparse.Namespace, doubtful: Optional[Rows]) -> Answer:
    """The same, or that there is too little memory for it."""
    try:
        return _answer(source, given, doubtful)
    except MemoryError as why:
        return Answer(source._replace(number=0, rows=None), None, [], why_not(why))


def _check_doubts(given: argparse.Namespace, names: List[str]) -> None:
    """That grids of doubtful modules can be told from those that are read, and stand as they do."""
    if given.doubtful == "-" and "-" in (names or ["-"]):
        raise Trouble("--doubtful -: standard input has the grids that are read, and can't have others")
    if given.doubtful is not None and given.any_way:
        raise Trouble("--doubtful: the grids have to stand upright, and don't go with --any-way")


def answers(given: argparse.Namespace, names: List[str]) -> Iterator[Answer]:
    """An answer for each grid and each symbol of a picture, and for each file that can't be read."""
    _check_doubts(given, names)
    progress, marks = Progress("symbols read"), doubts(given.doubtful)
    try:
        search = Search(given.most, given.milliseconds, given.margin, given.unread, getattr(given, "quality", False))
        for source in sources(names, given.recursive, search, given.jobs):
            doubtful = next(marks, None) if source.number else None
            if given.doubtful is not None and source.number and doubtful is None:
                raise Trouble(f"--doubtful {given.doubtful}: it has no grid for symbol {source.number} of "
                              f"{source.file}")
            yield _told(source, given, doubtful)
            progress.step()
    finally:
        progress.end()
    if given.doubtful is not None and next(marks, None) is not None:
        raise Trouble(f"--doubtful {given.doubtful}: it has more grids than there are symbols")


def _is_named(given: argparse.Namespace) -> bool:
    """Whether answers are told apart by the names of files."""
    return bool(len(given.files) > 1 or given.recursive if given.filename is None else given.filename)


def _print(answer: Answer, text: str, given: argparse.Namespace) -> None:
    """Prints a line, behind the name of its file if there are several."""
    print(f"{plain(answer.source.file)}:{text}" if _is_named(given) else text, flush=True)


def complain(answer: Answer, given: argparse.Namespace) -> int:
    """Says on standard error what is wrong with a symbol, as why it isn't read. Returns the status that this makes."""
    source = answer.source
    file = "" if source.file == "-" and not _is_named(given) else source.file
    where = ", ".join(filter(None, (file, f"symbol {source.number}" if source.number else "", _place(source, given))))
    sys.stdout.flush()
    say(f"{where or 'standard input'}: {answer.fault}")
    return _status(source)


def _status(source: Source) -> int:
    """The status that something makes which isn't read."""
    if source.is_end or source.rows is None and not source.is_complete:
        return _EARLY
    return 1 if source.number else 2


def _place(source: Source, given: argparse.Namespace) -> str:
    """Where the middle of a symbol is in its picture, if all that aren't read are listed."""
    if source.found is None or not given.unread:
        return ""
    x, y = (sum(values) / 4 for values in zip(*source.found.corners))
    return f"at {x:.0f}, {y:.0f}"


def _elements(says: Union[Reading, Joined], unknown: bool) -> Union[List[gs1.Element], str, None]:
    """The elements of a GS1 message, or what is wrong with it, or None if it isn't one."""
    if not says.gs1:
        return None
    try:
        return gs1.split(says.data, unknown)
    except gs1.Faulty as why:
        return str(why)


def _only_looks_gs1(says: Union[Reading, Joined]) -> bool:
    """Whether what is said reads like GS1 data, and isn't marked as such."""
    return not says.gs1 and says.data[:1] in (b"(", b"[") and gs1.resembles(says.text or "")


def _about(answer: Answer) -> Dict[str, Any]:
    """What JSON has of each symbol, read or not, of a file that can't be read, and of a search that ended early."""
    source, found = answer.source, answer.source.found
    if source.is_end:
        return {"file": source.file, "complete": False, "ended": answer.fault}
    if not source.number:
        return {"file": source.file, "error": answer.fault}
    told: Dict[str, Any] = {"file": source.file, "symbol": source.number}
    if found is not None:
        corners = [[round(value, 2) for value in corner] for corner in found.corners]
        told.update(page=found.page, corners=corners, inverted=found.inverted, mirrored=found.mirrored)
    if found is not None or not source.is_complete:
        told["complete"] = source.is_complete
    if answer.how:
        told["righted"] = answer.how
    if answer.reading is None:
        told["refused"] = answer.fault
        if answer.refused is not None:
            code, value, place = answer.refused.code, answer.refused.value, answer.refused.place
            told["code"] = code.name
            told.update({"block": place + 1} if code == Code.BLOCK else {"value": value, "place": place})
    else:
        reading = answer.reading
        told.update(rows=reading.rows, columns=reading.columns, border_faults=reading.border_faults,
                    corrected=list(reading.corrected), erased=list(reading.erased), left=list(reading.left),
                    dealing=reading.dealing, identifier=reading.symbology, head=reading.head, marks=reading.marks)
        if found is not None:
            told["border_limit"] = found.border_limit if answer.border is None else answer.border
            if answer.doubtful is not None:
                told["doubtful"] = ["".join(map(str, row)) for row in answer.doubtful]
    return told


def json_line(told: Dict[str, Any]) -> str:
    """A line of JSON, in ASCII: other characters are \\u and four digits, whatever the locale."""
    import json  # (which would take a part of each start)
    return json.dumps(told)


def message_told(says: Union[Reading, Joined], head: Head, given: argparse.Namespace) -> Dict[str, Any]:
    """What JSON has of what is said."""
    text, charset = text_of(says.items, says.marks, given.charset)
    told: Dict[str, Any] = {"message": spelled(says.items, says.marks, head), "text": text, "charset": charset,
                            "hex": says.data.hex(), "items": list(says.items), "gs1": says.gs1}
    elements = _elements(says, given.unknown)
    if isinstance(elements, str):
        told["gs1_fault"] = elements
    elif elements is not None:
        table = gs1.identifiers()
        told["elements"] = [{"identifier": identifier, "value": value,
                             "title": table[identifier].title if identifier in table else None}
                            for identifier, value in elements]
    return told


def _read_json(answer: Answer, given: argparse.Namespace) -> str:
    told = {} if answer.reading is None else message_told(answer.reading, answer.reading.head, given)
    if answer.source.found is not None and answer.source.found.quality is not None:
        told["quality"] = rounded(answer.source.found.quality)
    return json_line({**_about(answer), **told})


def _print_quality(answer: Answer, given: argparse.Namespace) -> None:
    """Prints how good the print of a symbol is, below its message."""
    found = answer.source.found
    if found is None or found.quality is None:
        complain(answer._replace(fault="it is a grid, and no picture whose print can be measured"), given)
        return
    for line in in_lines(found.quality):
        print(f"    {line}", flush=True)


def line_of(says: Union[Reading, Joined], given: argparse.Namespace) -> str:
    """What is said, as the command line asks for it, without a head."""
    if given.hex:
        return says.data.hex()
    if given.escapes:
        return spelled(says.items, says.marks)
    elements = _elements(says, given.unknown)
    if isinstance(elements, list):
        return gs1.text(elements)
    line = shown(says.items, says.marks, given.charset)
    return f"\\x28{line[1:]}" if line.startswith("(") and _only_looks_gs1(says) else line


def put_raw(says: Union[Reading, Joined, None]) -> None:
    """Writes the bytes of what is said, and nothing else."""
    sys.stdout.flush()
    sys.stdout.buffer.write(b"" if says is None else says.data)
    sys.stdout.buffer.flush()


def _line(reading: Reading) -> str:
    """What a symbol says, as a line; in front, behind a backslash, what it is a part of, or that it programs the
    reader."""
    return spelled((), (), reading.head) + shown(reading.items, reading.marks)


def _tell_head(answer: Answer, given: argparse.Namespace) -> None:
    """Says that a symbol says no whole message, where its line doesn't."""
    if answer.reading is not None and answer.reading.head is not None:
        complain(answer._replace(fault=f"it is {headed(answer.reading.head)}"), given)


def _text(answer: Answer, reading: Reading, given: argparse.Namespace) -> str:
    if given.hex:
        _tell_head(answer, given)
    elements = None if given.hex or given.escapes else _elements(reading, given.unknown)
    if isinstance(elements, str):
        complain(answer._replace(fault=f"marked as GS1 data, but {elements}"), given)
    elif not (given.hex or given.escapes) and _only_looks_gs1(reading):
        complain(answer._replace(fault=f"it reads like GS1 data, and {_NO_GS1}"), given)
    return ("" if given.hex else spelled((), (), reading.head)) + line_of(reading, given)


def _sheet(given: argparse.Namespace) -> Optional[tables.Sheet]:
    """The table that is asked for, if one is."""
    if not given.csv:
        if given.elements or given.bom:
            raise Trouble(f"{'--elements' if given.elements else '--bom'}: it needs --csv")
        return None
    from . import tables  # (its modules would take a part of each start)
    return tables.Sheet(given.elements, given.bom)


def _add(sheet: tables.Sheet, answer: Answer, given: argparse.Namespace) -> None:
    """Adds an answer to a table: of text the text itself, of GS1 data its element string, and else how it is
    spelled."""
    reading = answer.reading
    if reading is None:
        sheet.add(answer.source, None, ("", ""), {}, answer.fault)
        return
    _text(answer, reading, given)  # (which says what is wrong with GS1 data)
    elements, text = _elements(reading, given.unknown), text_of(reading.items, reading.marks, given.charset).text
    kind, message = "escapes", spelled(reading.items, reading.marks, reading.head)
    if isinstance(elements, list) and reading.head is None and not reading.marks:
        kind, message = "gs1", gs1.text(elements)
    elif not reading.gs1 and reading.head is None and text is not None and is_plain(text):
        kind, message = "text", text
    by_identifier = dict(elements) if isinstance(elements, list) else {}
    sheet.add(answer.source, reading, (message, kind), by_identifier, "")


def read(given: argparse.Namespace) -> int:
    """Prints what symbols say."""
    if given.quality and (given.csv or given.raw):
        raise Trouble(f"--quality: it doesn't go with {'--csv' if given.csv else '--raw'}; --json has it too")
    status, sheet = 0, _sheet(given)
    if given.charset:
        known_charset(given.charset)
    for answer in answers(given, given.files):
        if answer.reading is None:
            status = max(status, complain(answer, given))
        if sheet is not None:
            _add(sheet, answer, given)
        elif given.json:
            print(_read_json(answer, given), flush=True)
        elif given.raw:
            put_raw(answer.reading)
            _tell_head(answer, given)
        elif answer.reading is not None:
            _print(answer, _text(answer, answer.reading, given), given)
            if given.quality:
                _print_quality(answer, given)
        elif answer.source.is_text:
            _print(answer, _NO, given)
    if sheet is not None:
        sheet.end()
    return status


def check(given: argparse.Namespace) -> int:
    """Prints how much of symbols is wrong."""
    status = 0
    for answer in answers(given, given.files):
        if answer.reading is None:
            status = max(status, complain(answer, given))
        if given.json:
            print(json_line(_about(answer)), flush=True)
        elif answer.reading is not None:
            _print(answer, _checked(answer, answer.reading), given)
        elif answer.source.is_text:
            _print(answer, _NO, given)
    return status


def _checked(answer: Answer, reading: Reading) -> str:
    """How much of a symbol is wrong."""
    corrected, erased, left = (", ".join(map(str, counts)) for counts in (reading.corrected, reading.erased,
                                                                          reading.left))
    most = core._size_of(*reading.size).limit
    more = f" (at most {most})" if answer.doubtful is None else f", erased: {erased}, check codewords left: {left}"
    dealt = f", {_OTHER_DEALING}" if reading.dealing else ""
    kind = ", GS1 data" if reading.gs1 else f", reads like GS1 data and {_NO_GS1}" if _only_looks_gs1(reading) else ""
    return (f"{answer.size}, {reading.border_faults} border modules wrong, codewords corrected in each block: "
            f"{corrected}{more}{dealt}{kind}")


def _parts(reading: Reading) -> Tuple[str, ...]:
    """What a symbol says, as it is printed, in parts between which a line may end."""
    elements = _elements(reading, True)
    if isinstance(elements, list):
        return tuple(gs1.text([element]) for element in elements)
    return printed(shown(reading.items, reading.marks))


def normal(given: argparse.Namespace) -> int:
    """Writes the normal grids of what symbols say."""
    status, count, labels, output = 0, 0, [], Output(given)  # type: int, int, List[Label], Output
    for answer in answers(given, given.files):
        count += not answer.source.is_end
        if answer.reading is not None:
            try:
                rows = core.normal(answer.rows, answer.border, given.profile, given.extent, answer.doubtful)
                labels.append(Label(count, _parts(answer.reading), rows))
                continue
            except Refused as why:
                answer = answer._replace(fault=why_not_written(why))
        status = max(status, complain(answer, given))
        if answer.source.is_text and output.is_of_grids:
            labels.append(Label(count, (), []))
    output.put(labels, count)
    return max(status, output.status)


def _only(given: argparse.Namespace, name: str) -> Tuple[Answer, int]:
    """The one symbol of a file, and the status that a search makes which ended early."""
    found = list(answers(given, [name]))
    ends = [answer for answer in found if answer.source.is_end]
    found = [answer for answer in found if not answer.source.is_end]
    if len(found) != 1:
        raise Trouble(f"{name}: to compare there must be one symbol, and there are {len(found) or 'none'}")
    if found[0].reading is None:
        raise Trouble(f"{name}: {found[0].fault}")
    for end in ends:
        complain(end._replace(fault=f"{end.fault}; --most 1 takes the first that is found"), given)
    return found[0], _EARLY if ends else 0


def _said(reading: Reading) -> Tuple[object, ...]:
    """All that a symbol says."""
    return reading.head, reading.items, reading.marks


def _difference(first: Reading, second: Reading) -> str:
    """Where what two symbols say differs."""
    if first.head != second.head:
        return f"the first is {headed(first.head)}, and the second {headed(second.head)}"
    if first.items == second.items:
        return "their ECI marks differ, which say how the bytes are meant"
    a, b = ([0x1D if item == FNC1 else item for item in reading.items] for reading in (first, second))
    if a == b and first.gs1 == second.gs1:
        return "they differ in their separators alone: where one has FNC1, the other has the byte 0x1D"
    if first.gs1 != second.gs1 and first.data == second.data:
        return "one is marked as GS1 data by FNC1 in front, and the other isn't"
    if first.text is not None and first.text == second.text:
        return f"they say the same text in other bytes, {first.charset} and {second.charset}"
    place = next((place for place, (x, y) in enumerate(zip(first.items, second.items)) if x != y),
                 min(len(first.items), len(second.items)))
    return f"they differ from item {place + 1} on"


def compare(given: argparse.Namespace) -> int:
    """Says whether two symbols say the same."""
    (first, early), (second, other) = (_only(given, name) for name in given.files)
    assert first.reading is not None and second.reading is not None
    same = _said(first.reading) == _said(second.reading)
    for name, answer in zip(given.files, (first, second)):
        assert answer.reading is not None
        print(f"{plain(name)}: {_line(answer.reading)} ({answer.size}, {sum(answer.reading.corrected)} codewords "
              "corrected)")
    identifiers = [first.reading.symbology, second.reading.symbology]
    if same and len(set(identifiers)) > 1:
        print(f"their symbology identifiers differ, {' and '.join(identifiers)}, which scanners tell beside what is "
              "said")
    print("the same" if same else f"different: {_difference(first.reading, second.reading)}")
    return max(early, other, 0 if same else 1)


def _table(explanation: explaining.Explanation) -> Iterator[str]:
    yield f"{'place':>5}  {'value':>5}  {'encodation':10}  meaning"
    for place, value, held, encodation, meaning in explanation.codewords:
        wrong = f" (corrected; the symbol has {held})" if held != value else ""
        yield f"{place:5}  {value:5}  {encodation:10}  {meaning}{wrong}".rstrip()


def explain(given: argparse.Namespace) -> int:
    """Prints what each codeword of symbols means."""
    status = 0
    for answer in answers(given, given.files):
        if answer.reading is None:
            status = max(status, complain(answer, given))
        try:
            explanation = explaining.explain(answer.rows, answer.border, given.extent, answer.doubtful)
        except Refused:
            if given.json:
                print(json_line(_about(answer)), flush=True)
            continue
        if given.json:
            words = [codeword._asdict() for codeword in explanation.codewords]
            print(json_line({**_about(answer), "codewords": words}), flush=True)
            continue
        if _is_named(given):
            print(f"{plain(answer.source.file)}, symbol {answer.source.number}:")
        print("\n".join(_table(explanation)), flush=True)
        if answer.reading is not None:
            print("\n".join(_below(answer.reading)), end="\n\n", flush=True)
    return status


def _below(reading: Reading) -> Iterator[str]:
    """What stands below the codewords of a symbol."""
    yield f"It says {_line(reading)}"
    if reading.marks or not reading.data.isascii():
        yield f"Its charset is {reading.charset}"
    if reading.head is not None:
        yield f"It is {headed(reading.head)}"
    yield f"Its symbology identifier is {reading.symbology}"
    if reading.dealing:
        yield f"It has its {_OTHER_DEALING}"


def sizes(given: argparse.Namespace) -> int:
    """Prints the table of sizes."""
    if not given.json:
        print(f"{'size':7}  {'regions':>12}  {'data':>5}  {'check':>5}  {'blocks':>6}  {'limit':>5}  {'digits':>6}  "
              f"{'letters':>7}  {'bytes':>5}  standard")
    for size in sizes_of(Shape[(given.shape or "any").upper()]):
        standard, data = "ISO/IEC 21471" if size.extension else "ISO/IEC 16022", size.data_codewords
        named = f"{size.rows}x{size.columns}"
        if given.json:
            shape = Shape.SQUARE if size.rows == size.columns else Shape.EXTENDED if size.extension else Shape.RECTANGLE
            print(json_line({"size": named, "shape": shape.name.lower(), **size._asdict(), "digits": 2 * data,
                             "letters": data, "bytes": bytes_in(size), "standard": standard}), flush=True)
            continue
        regions = f"{size.regions_down * size.regions_across} of {size.region_rows}x{size.region_columns}"
        print(f"{named:7}  {regions:>12}  {data:5}  {size.check_codewords:5}  "
              f"{size.blocks:6}  {size.limit:5}  {2 * data:6}  {data:7}  {bytes_in(size):5}  {standard}", flush=True)
    return 0
