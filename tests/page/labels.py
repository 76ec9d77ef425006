"""Labels: many symbols on stock sizes, measured in the PDF that is saved and in the one that is printed; CSV with one
column a field; and files of many symbols in one archive."""
import base64
import io
import json
import re
import struct
import xml.etree.ElementTree
import zipfile
import zlib

from tests.page.judge import name_of, written_in
from tests.page.paper import POINT, paper_is, printed
from tests.page.pictures import opened
from tests.page.stage import (begin_saving, choose, do, drawn_rows, expect, find, give, grid, is_seen, on, push, put,
                              run, saved, shown, soon, spelled, task, text_of, texts_of, unfold, usable, value_of,
                              wait_for, write, written)


def pages_of(pdf):
    """Of each page its millimetres, and of each symbol on it where it stands and the grid of its rectangles: as
    [left, top, module, rows], in the order in which they are drawn; and its texts."""
    text = pdf.decode("latin-1")
    places = [int(at) for at in re.findall(r"^(\d{10}) 00000 n $", text, re.M)]
    expect("the table of the PDF", [text[at:].split(" ", 1)[0] for at in places],
           [str(k + 1) for k in range(len(places))])
    table = int(re.search(r"startxref\n(\d+)\n", text)[1])
    expect("where the table stands", text[table : table + 5], "xref\n")
    found, letters = [], letters_in(text)
    boxes = re.findall(r"/MediaBox \[0 0 ([\d.]+) ([\d.]+)\].*?/Contents (\d+) 0 R", text)
    for width, height, content in boxes:
        whole = rf"(?s)\n{content} 0 obj\n<< /Length (\d+) >>\nstream\n(.*?)endstream"
        length, stream = re.search(whole, text).groups()
        expect("the length of a page's content", len(stream), int(length))
        scale = float(stream.split()[0]) * POINT
        size = [float(width) * POINT, float(height) * POINT]
        symbols = [drawn_rows(part, size[1], scale) for part in stream.split("\nf\n")[:-1]]
        found.append(([round(side, 2) for side in size], symbols, texts_in(stream, letters)))
    return found


def letters_in(text):
    """The letters of each font of a PDF, by its name on pages, and by their codes."""
    fonts = {}
    for name, number in set(re.findall(r"/(F\d+) (\d+) 0 R", text)):
        told = re.search(rf"\n{number} 0 obj\n<< /Type /Font .*?/ToUnicode (\d+) 0 R", text)[1]
        stream = re.search(rf"(?s)\n{told} 0 obj\n.*?stream\n(.*?)endstream", text)[1]
        pairs = re.findall(r"<(\w\w)> <(\w+)>\nendbfchar", stream)
        fonts[name] = {int(code, 16): bytes.fromhex(letter).decode("utf-16-be") for code, letter in pairs}
    return fonts


def texts_in(stream, letters):
    """The whole text below each symbol that has one."""
    texts = []
    for part in stream.split("\nf\n")[1:]:
        font, shown = None, ""
        for name, codes in re.findall(r"/(F\d+) \S+ Tf|<(\w+)> Tj", part):
            font = name or font
            shown += "".join(letters[font][code] for code in bytes.fromhex(codes))
        texts += [shown] if shown else []
    return texts


SIZES, WIDTH, LINE = (2.4, 2.1, 1.8, 1.5), 1233 / 2048, 1.25


def centred(label, text, module, has_text):
    """Where a symbol has to stand on a label at this place."""
    x, y, width, height = label
    across, down, below = text.index("\n") + 4, text.count("\n") + 5, 3 if has_text else 0
    return [round(x + (width - across * module) / 2 + 2 * module, 2),
            round(y + (height - down * module - below) / 2 + 2 * module, 2)]


def labels_of(columns, rows, width, height, across, page=(210, 297)):
    left, top = (page[0] - (columns - 1) * across - width) / 2, (page[1] - rows * height) / 2
    return [(left + k % columns * across, top + k // columns * height, width, height) for k in range(columns * rows)]


STOCK = {"a4-2x4": labels_of(2, 4, 99.1, 67.7, 101.6), "a4-2x7": labels_of(2, 7, 99.1, 38.1, 101.6),
         "a4-3x7": labels_of(3, 7, 63.5, 38.1, 66.04), "a4-3x8": labels_of(3, 8, 70, 37, 70),
         "a4-5x13": labels_of(5, 13, 38.1, 21.2, 40.6), "25x25": [(0, 0, 25, 25)], "38x25": [(0, 0, 38, 25)],
         "50x30": [(0, 0, 50, 30)], "100x50": [(0, 0, 100, 50)], "own": [(0, 0, 60, 40)]}


def begin(stock="none", millimetres="0.4", lines_as="messages"):
    """Unfolds the list, with these labels."""
    write("123456")
    unfold("sheet")
    paper_is("a4", millimetres)
    for field, chosen in (("stock", stock), ("lines-as", lines_as)):
        choose(field, chosen)


def in_pdf():
    """The pages of a PDF of the list, as pages_of has them, their grids, and their texts."""
    pages = pages_of(saved("symbols.pdf", "many-pdf"))
    return pages, [rows for _, some, _ in pages for *_, rows in some], [each for *_, some in pages for each in some]


def archived(ending):
    """The files of an archive of the list, by their names, but for the list that it holds."""
    with zipfile.ZipFile(io.BytesIO(saved(f"symbols-{ending}.zip", f"many-{ending}"))) as archive:
        *names, last = archive.namelist()
        expect(f"an archive of {ending}", (archive.testzip(), len(set(names)), last), (None, len(names), "labels.json"))
        return {name: archive.read(name) for name in names}


RECTANGLES = ["one", "Rectangle 2", "3333333333", "rectangle"]


def on_labels():
    """On each stock size each symbol, rectangles too, stands in its label's middle, as large and as written."""
    begin()
    for name, labels, shape in (*((name, labels, "square") for name, labels in STOCK.items()),
                                ("50x30", STOCK["50x30"], "rectangle")):
        choose("shape", shape)
        choose("stock", name)
        messages = RECTANGLES if shape == "rectangle" else [f"label {k}" for k in range(len(labels) + 2)]
        put("messages", "\n".join(messages))
        pages, grids, texts = in_pdf()
        page = [210, 297] if len(labels) > 1 else list(labels[0][2:])
        expect(f"{name}: pages", [size for size, _, _ in pages], [page] * -(-len(messages) // len(labels)))
        symbols = [symbol for _, some, _ in pages for symbol in some]
        wanted = [written_in(each, shape) if shape == "rectangle" else written(each) for each in messages]
        expect(f"{name}: symbols", grids, wanted)
        expect(f"{name}: modules", {round(module, 3) for _, _, module, _ in symbols}, {0.4})
        places = [centred(labels[k % len(labels)], text, 0.4, True) for k, text in enumerate(wanted)]
        expect(f"{name}: places", [[round(x, 2), round(y, 2)] for x, y, _, _ in symbols], places)
        expect(f"{name}: texts", texts, messages)
        said = (text_of("sheet-hint"), is_seen("own-size"))
        expect(f"{name}: what is said", said, (f"{len(messages)} symbols are in the PDF.", name == "own"))


def labels_printed():
    """What the browser prints has the same millimetres."""
    run("globalThis.printed = 0; window.print = () => { printed++; }")
    begin("none", "0.5")
    push("label-text")
    for name, per_page, page in (("a4-3x7", 21, [210, 297]), ("50x30", 1, [50, 30]), ("own", 1, [60, 40])):
        choose("stock", name)
        put("messages", "\n".join(["123456"] * (per_page + 1)))
        push("print-sheet")
        boxes, widths = printed()
        expect(f"{name}: printed pages", [[round(side) for side in box] for box in boxes], [page] * 2)
        across = 5 if per_page == 1 else 2 * 66.04 + 5  # from the first symbol's left to the last one's right
        off = [round(abs(width - wanted), 2) for width, wanted in zip(widths, (across, 5))]
        expect(f"{name}: printed millimetres", (len(widths), [each for each in off if each > 0.1]), (2, []))
        place = run("return ['x', 'y'].map((it) => document.querySelector('#paper svg svg').getAttribute(it))")
        x, y = centred(STOCK[name][0], written("123456"), 0.5, False)
        expect(f"{name}: its place on the page", [round(float(length) + 1, 2) for length in place], [x, y])
        run("dispatchEvent(new Event('afterprint'))")
    push("label-text")
    for name, value, message, why in (("a4-5x13", "1", "123456789012345678901234567890",
                                       "Message 1 takes 22 × 22 mm and 2.25 mm of text, and a label is "
                                       "38.1 × 21.2 mm. Take narrower modules or larger labels."),
                                      ("25x25", "2", "123456",
                                       "Message 1 takes 28 × 28 mm and 3 mm of text, and a label is 25 × 25 mm. "
                                       "Take narrower modules or larger labels.")):
        choose("stock", name)
        paper_is("a4", value)
        put("messages", message)
        push("print-sheet")
        expect(f"what doesn't fit {name}", (run("return printed"), text_of("sheet-hint")), (3, why))
    choose("stock", "own")
    put("label-width", "2")
    push("many-pdf")
    expect("no size of a label", text_of("sheet-hint"), "A label has 5 to 300 mm on each side.")


CSV = {
    "headings of GS1": ('(01);(17);10\n09506000134352;271231;AB-42\n09506000134352;;"x;""(1)"""\n',
                        ["\\F010950600013435217271231" + "10AB-42", "\\F0109506000134352" + '10x;"(1)"'],
                        ["(01)09506000134352(17)271231(10)AB-42", '(01)09506000134352(10)x;"\\(1)"']),
    "a column of messages": ('text,Message\nfirst,123\n"a, b","4""5"\n\n', ["123", '4"5'], ["first", "a, b"]),
    "identifiers with texts and copies": (
        "01,17,10,text,qty\n09506000134352,271231,AB-42,first,2\n09506000134352,,C,second,\n09506000134352,,D,none,0\n",
        ["\\F010950600013435217271231" + "10AB-42"] * 2 + ["\\F0109506000134352" + "10C"], ["first", "first", "second"],
    ),
    "a message with copies": ("Quantity\tMESSAGE\r\n3\tA1\r\n1\tB2", ["A1"] * 3 + ["B2"], ["A1"] * 3 + ["B2"]),
    "names of identifiers": (
        'sep=;\n"GTIN";"Expiry date";"Lot, or batch";Batch/Lot;Serial number;Caption\n'
        '09506000134352;271231;;AB-42;S1;"a; b"\n', ["\\F010950600013435217271231" + "10AB-42\\F21S1"], ["a; b"],
    ),
    "names with separators": ('"Lot; or batch",Batch/Lot\n,AB-42\n', ["\\F10AB-42"], ["(10)AB-42"]),
    "what a spreadsheet keeps from being a formula": ("message,text\n'=1+1,'@x\n''-2,\n", ["=1+1", "'-2"], ["@x"]),
    "line ends within a field": ('message,text\r\n"A\r\nB",x\r\n"C\nD",y\r\n', ["A\\x0D\\x0AB", "C\\x0AD"], ["x", "y"]),
    "an empty column": ("message,\nA1,\nB2,", ["A1", "B2"], ["A1", "B2"]),
}


PLACES = """
    return [...document.querySelectorAll('#paper > svg')].map((page) => [page.getAttribute('viewBox'),
        [...page.querySelectorAll('svg')].map((it) => [+it.getAttribute('x'), +it.getAttribute('y')])]);"""


def one_after_another():
    """On paper, one after another, print and PDF have the same symbols at the same places, within the margins; and
    there may be more than a thousand."""
    run("window.print = () => {}")
    begin("none", "1")
    lines = [f"label {k}" + "0" * (k % 7 * 12) for k in range(150)]
    put("messages", "\n".join(lines))
    pages, _, texts = in_pdf()
    push("print-sheet")
    there = run(PLACES)
    run("dispatchEvent(new Event('afterprint'))")
    expect("pages", [(box, len(places)) for box, places in there],
           [("0 0 210 297", len(symbols)) for _, symbols, _ in pages])
    apart = [abs(x + 2 - left) + abs(y + 2 - top) for (_, places), (_, symbols, _) in zip(there, pages) for (x, y),
             (left, top, *_) in zip(places, symbols)]
    expect("places", max(apart) < 0.01, True)
    expect("texts", texts, lines)
    inside = [15 <= x and x + module * rows.index("\n") < 195 and 15 <= y < 282 for _, symbols, _ in pages for x, y,
              module, rows in symbols]
    expect("within the margins", (len(pages) > 1, len(inside), all(inside)), (True, 150, True))
    paper_is("a4", "0.5")
    choose("stock", "25x25")
    put("messages", "\n".join(str(k) for k in range(1200)))
    body = saved("symbols.pdf", "many-pdf")
    expect("1,200 labels", (body.count(b"/Type /Page "), text_of("sheet-hint")),
           (1200, "1,200 symbols are in the PDF."))


def by_columns():
    """A file of CSV with one column a field, and what is wrong in one."""
    begin("50x30")
    for name, (text, lines, texts) in CSV.items():
        give("lines", "fields.csv", text.encode())
        wait_for(lambda: value_of("messages").strip() == text.replace("\r", "").strip())
        push("kind-typed" if name.startswith("line ends") else "kind-message")
        if name.startswith("names"):  # of which one isn't known
            push("columns-taken")
        expect(f"{name}: taken as CSV", value_of("lines-as"), "csv")
        expect(f"{name}: symbols and texts", in_pdf()[1:], ([written(line) for line in lines], texts))
    push("kind-message")
    for text, why in (("(01)\n123", "Message 1: It isn’t right as GS1 data: (01) GTIN, too short: 14 digits are due."),
                      ("(01),(98)\n09506000134352,", "1 symbol is in the PDF."),
                      ("message\n", "Enter headings, and below them a row for each message."),
                      ("message\ncaf\u00e9", "Message 1: column 4 is \u00e9, which has no spelling of its own"),
                      ("message,qty\nA,two", "Message 1: two is no number of copies."),
                      ("message,qty\nA,0", "Each row has 0 copies."),
                      ("message,qty\nA,9999\nB,2", "10,001 labels, and a list takes no more than 10,000."),
                      ("message,text\nA,1\n,2", "Message 2: its row has no message."),
                      ("message,qty\nA,1\nB,0", "1 symbol is in the PDF. 1 row wants 0 copies.")):
        put("messages", text)
        saved("symbols.pdf", "many-pdf") if "in the PDF" in why else push("many-pdf")
        expect(f"{text!r} is said", text_of("sheet-hint"), why)


def files():
    """The files that were saved and aren't taken."""
    return sorted(file.name for file in on.downloads.iterdir())


def drawn_in(where):
    """The grids of the drawings in an element, by their paths of runs of dark modules."""
    paths = run("return [...document.querySelectorAll(`${arguments[0]} svg:not(:has(svg))`)].map((svg) => "
                "[svg.getAttribute('viewBox'), svg.querySelectorAll('path')[1].getAttribute('d')])", where)
    grids = []
    for box, path in paths:
        rows = [["0"] * (int(box.split()[2]) - 4) for _ in range(int(float(box.split()[3])) - 4)]
        for column, row, length in (map(int, run_of) for run_of in re.findall(r"M(\d+) (\d+)h(\d+)", path)):
            rows[row][column : column + length] = "1" * length
        grids.append("\n".join("".join(row) for row in rows))
    return grids


SAY_FIRST = "Say first what the columns are, and then “Use these columns”."
MAY_BE = "The first row may have headings or data."
ASKED = [
    # (a name, a text, what is asked, what is chosen: the first row, and the columns; the messages and texts)
    ("no headings", "PART-0001\nPART-0002\nPART-0003", f"{MAY_BE} It isn’t known what PART-0001 may be.", "data", {},
     ["PART-0001", "PART-0002", "PART-0003"], []),
    ("a heading that isn't known", "part\nA1\nB2", f"{MAY_BE} It isn’t known what part may be.", "headings", {},
     ["A1", "B2"], []),
    ("one beside those that are", "01,hue\n09506000134352,A", f"{MAY_BE} It isn’t known what hue may be.", "headings",
     {}, ["\\F0109506000134352"], []),
    ("two of a kind", "message,message,text\nA,B,C", "It isn’t known what message may be.", None, {}, ["A"], ["C"]),
    ("a message beside identifiers", "(01),message\n09506000134352,A", "It isn’t known what message may be.", None,
     {1: "text"}, ["\\F0109506000134352"], ["A"]),
    ("fields without a heading", "message\nA,B\nC", "It isn’t known what column 2 may be.", None, {1: "text"},
     ["A", "C"], ["B"]),
    ("numbers that may be identifiers or data", "10\n20\n30", MAY_BE, "data", {}, ["10", "20", "30"], []),
    ("which are identifiers", "10\n20\n30", MAY_BE, "headings", {}, ["\\F1020", "\\F1030"], []),
    ("the second column is the message", "place,part,howmany\nleft,A1,2",
     f"{MAY_BE} It isn’t known what place, part, howmany may be.", "headings", {0: "text", 1: "message", 2: "copies"},
     ["A1", "A1"], ["left", "left"]),
]
CHOOSE = "choose(document.querySelectorAll('#columns-are select')[given[0]], given[1])"


def answer(first, columns):
    """Says what the first row is, if that is asked, and what columns are."""
    if first:
        push(f"first-{first}")
    for column, role in columns.items():
        do(CHOOSE, column, role)
    push("columns-taken")


def asked_about_columns():
    """What a heading leaves open is asked, and before it is answered nothing is given."""
    begin("50x30", lines_as="csv")
    run("globalThis.printed = 0; window.print = () => { printed++; }")
    begin_saving()
    for name, text, question, first, columns, messages, texts in ASKED:
        put("messages", "message\nanother list")
        put("messages", text)
        expect(f"{name}: is asked", (is_seen("columns"), text_of("columns-question").split(" Known headings")[0]),
               (True, question))
        expect(f"{name}: whether the first row is", is_seen("first-row"), first is not None)
        for button in ("many-pdf", "many-png", "many-svg", "print-sheet"):
            push(button)
            expect(f"{name}: {button} before", (text_of("sheet-hint"), files(), run("return printed")),
                   (SAY_FIRST, [], 0))
        answer(first, columns)
        _, grids, below = in_pdf()
        expect(f"{name}: symbols", (grids, texts and below), ([written(message) for message in messages], texts))
    put("messages", "part,place\nA1,left")
    push("first-headings")
    for column, role, why in ((0, "left out", "One column has to be the message."), (0, "message", ""),
                              (1, "message", "One column has to be the message."), (1, "text", "")):
        do(CHOOSE, column, role)
        if is_seen("columns-taken"):
            push("columns-taken")
        elif why:
            push("many-pdf")
        if why:
            expect(f"column {column} as {role}", (text_of("sheet-hint"), files()), (why, []))
    put("messages", "part,place\nA1,left\nB2,right")
    expect("the answer stays while the headings do", in_pdf()[2], ["left", "right"])


def labels_shown():
    """The first labels are shown as they will be, and the others in turn; what was said of a list goes with it."""
    begin("none", "0.5")
    shown_now = lambda: (text_of("labels-shown"), drawn_in("#labels-are"))
    lines = [f"label {k}" for k in range(1, 9)]
    put("messages", "\n".join(lines))
    for first in (0, 3, 6):
        some = lines[first:first + 3]
        soon(f"labels from {first + 1} on", shown_now,
             (f"{first + 1} to {first + len(some)} of 8", [written(line) for line in some]))
        told = texts_of("#labels-are :is(title, code)")
        expect("their texts, and what they say", told, [line for line in some for _ in range(2)])
        expect("what can be leafed to", (usable("labels-back"), usable("labels-on")), (first > 0, first < 6))
        push("labels-on")
    push("labels-back")
    soon("and back", lambda: text_of("labels-shown"), "4 to 6 of 8")
    for name, change in (("a line is added", lambda: put("messages", "\n".join([*lines, "one more"]))),
                         ("the lines become CSV", lambda: choose("lines-as", "csv")),
                         ("they become messages again", lambda: choose("lines-as", "messages")),
                         ("the text goes", lambda: push("label-text")), ("it comes back", lambda: push("label-text")),
                         ("labels are chosen", lambda: choose("stock", "50x30")),
                         ("none are", lambda: choose("stock", "none"))):
        saved("symbols.pdf", "many-pdf") if name != "they become messages again" else None
        change()
        expect(f"what was given, when {name}", text_of("sheet-hint"), "")
    put("messages", "one\ncaf\u00e9\n(01)123")
    unspelled = "column 4 is \u00e9, which has no spelling of its own"
    soon("lines that aren't taken", shown_now, (f"1 to 3 of 3. Message 2: {unspelled}", [written("one")]))
    told = texts_of("#labels-are p")
    expect("what is told of each", told,
           ["1: one", f"2: {unspelled}", "3: It isn’t right as GS1 data: (01) GTIN, too short: 14 digits are due."])
    on_one_label()
    put("messages", "one")
    saved("symbols.pdf", lambda: do("at('many-pdf').click(); put('messages', 'two')"))
    expect("what is given when the list has changed", text_of("sheet-hint"), "")
    put("messages", "")
    soon("no labels without a list", lambda: is_seen("labels"), False)


WIDE = "a text that is wider than its label, and is smaller there, in lines"
# Of each label that is shown its size, where its symbol stands, and the lines of its text.
LABELS = """
    return [...document.querySelectorAll(`${arguments[0]} svg:has(> svg)`)].map((label) => {
        const symbol = label.querySelector('svg'), text = label.querySelector('title');
        return [label.getAttribute('viewBox'), +symbol.getAttribute('x'), +symbol.getAttribute('y'),
            text?.textContent.split('\\n') ?? []];
    });"""


def on_one_label():
    """On a chosen label a symbol and its text are shown as they will be on paper, or why they don't fit."""
    messages = ["one", WIDE]
    paper_is("a4", "0.4")
    choose("stock", "38x25")
    put("messages", "\n".join(messages))
    grids = [written(message) for message in messages]
    soon("symbols on labels", lambda: drawn_in("#labels-are"), grids)
    pages, *_ = in_pdf()
    labels = run(LABELS, "#labels-are")
    places = [[x - 0.8, y - 0.8] for _, symbols, _ in pages for x, y, *_ in symbols]
    expect("where they stand", [(box, [round(x, 1), round(y, 1)]) for box, x, y, _ in labels],
           [("0 0 38 25", [round(x, 1), round(y, 1)]) for x, y in places])
    expect("what they say below", ["".join(lines) for *_, lines in labels], messages)
    expect("what is too wide has lines", [len(lines) for *_, lines in labels], [1, 2])
    run("window.print = () => {}")
    push("print-sheet")
    expect("on paper", run(LABELS, "#paper"), labels)
    run("dispatchEvent(new Event('afterprint'))")
    paper_is("a4", "1")
    choose("stock", "25x25")
    length = grids[1].index("\n") + 4
    why = f"Message 2 takes {length} × {length} mm and "
    soon("what doesn't fit", lambda: [it.startswith(why) for it in texts_of("#labels-are p")], [False, True])
    paper_is("a4", "0.5")
    choose("stock", "none")


def shown_pages():
    """The SVG of each label that is shown."""
    return run("return [...document.querySelectorAll('#labels-are figure > svg')].map((it) => "
               "new XMLSerializer().serializeToString(it))")


SECURED = "\x1e06\x1dPSN-2026-000121\x1d1T5\x1e\x04"
SAVED = [
    # (a name, how lines are, the list, what is chosen, the texts below)
    ("numbers that begin alike", "messages", "SN-2026-000121\nSN-2026-000122", "25x25",
     ["SN-2026-000121", "SN-2026-000122"]),
    ("elements, each whole", "messages", "(01)09506000134352(17)271231(10)AB-42", "25x25",
     ["(01)09506000134352(17)271231(10)AB-42"]),
    ("controls of ISO 15434, and NUL", "csv", f"message,text\n{SECURED},\nA\0B,\nC,a\0b\n", "50x30", ["a\\x00b"]),
    ("controls that are below as they are", "csv", f"message\n{SECURED}\nA\0B\n", "50x30",
     ["\\x1E06\\x1DPSN-2026-000121\\x1D1T5\\x1E\\x04", "A\\x00B"]),
    ("markup", "messages", "<b>&amp;\"'</b> ]]>", "50x30", ["<b>&amp;\"'</b> ]]>"]),
    ("letters of many kinds", "messages", "Größe → 5 µm\nЖук №5\nαβγ ≥ 1 €", "none",
     ["Größe → 5 µm", "Жук №5", "αβγ ≥ 1 €"]),
    ("letters that the page's font hasn't", "messages", "شماره 12\nמספר\nk\u0301\u0325", "50x30",
     ["شماره 12", "מספר", "\u1e31\u0325"]),
    ("rows that are wanted more than once", "csv", "message,qty\nA1,3\nB2,0\nC3,1\n", "38x25",
     ["A1", "A1", "A1", "C3"]),
    ("copies as large as they are", "csv", "message,qty\nA1,2\nB2,1\n", "none", ["A1", "A1", "B2"]),
]


DOTS = 600 / 25.4  # of a millimetre


def from_first(runs, right=1.0, down=-1.0):
    """Runs: left end, lower edge and length, as numbers of dots to the right and down from the first of them."""
    numbers = [[float(x) * right, float(y) * down, float(length) * right] for x, y, length in runs]
    return [[round(x - numbers[0][0]), round(y - numbers[0][1]), round(length)] for x, y, length in numbers]


def dots_of_pdf():
    """The dots of each line that the browser's fonts have drawn, in the PDF that was saved last."""
    text = (on.folder / "symbols.pdf").read_text("latin-1")
    runs = [re.findall(r"(-?\d+) (-?\d+) (\d+) 1 re", line) for line in text.split("\n") if line.endswith(" f*")]
    return [from_first(line) for line in runs]


def dots_of_svg(drawing):
    """The same of a drawing, in one line."""
    runs = re.findall(r"M(-?[\d.]+) (-?[\d.]+)h([\d.]+)v-", drawing)
    return [from_first(runs, DOTS, DOTS)] if runs else []


def saved_as_shown():
    """What is saved of labels is what is shown, in each format, drawings as XML, and as many as rows want."""
    begin()
    push("kind-typed", "profile-2")
    for name, kind, text, stock, texts in SAVED:
        take(kind, text, stock)
        wait_for(lambda: is_seen("labels") and shown_pages())
        pdf, symbols, below = in_pdf()
        said = f"{len(pdf) if stock != 'none' else sum(len(some) for _, some, _ in pdf)} symbols are in the "
        said = said.replace("1 symbols are", "1 symbol is")
        expect(f"{name}: what is said", text_of("sheet-hint").startswith(said), True)
        expect(f"{name}: texts in the PDF", below, texts)
        drawings, pictures = (list(archived(ending).values()) for ending in ("svg", "png"))
        expect(f"{name}: as many labels", [len(drawings), len(pictures)], [len(symbols)] * 2)
        whole = [body.decode() for body in drawings]
        for body in whole:
            xml.etree.ElementTree.fromstring(body)
        there = {it.strip() for it in whole}
        soon(f"{name}: drawings are those that are shown", lambda: there <= set(shown_pages()), True)
        if name.startswith("elements"):
            (*_, lines), = run(LABELS, "#labels-are")
            expect("elements in lines", lines, ["(01)09506000134352", "(17)271231(10)AB-42"])
        expect(f"{name}: dots", dots_of_pdf(), [dots for body in whole for dots in dots_of_svg(body)])
        for drawing, picture in zip(whole, pictures):
            across, down = re.search(r'^<svg [^>]*width="([\d.]+)mm" height="([\d.]+)mm"', drawing).groups()
            pixels = [int.from_bytes(picture[at : at + 4], "big") for at in (16, 20)]
            expect(f"{name}: pixels", pixels, [round(float(length) * 25) for length in (across, down)])
    not_whole()


NOT_WHOLE = [
    ("a text without room", "csv", f"message,text\nA1,{'0' * 400}\n", "25x25",
     "Message 1 takes 5.6 × 5.6 mm and 30 mm"),
    ("a letter that can't be drawn", "messages", "plain\n\U000F0000", "50x30",
     "Message 2: the text below has the invisible character U+F0000, which can’t be drawn. "),
    ("a quotation mark that none ends", "csv", 'message\nA1\n"B2\nC3\nD4\n', "50x30",
     "Line 3: a quotation mark begins a field there and none ends it."),
    ("a row without a message", "csv", "message,text\nA1,x\n,y\n", "50x30", "Message 2: its row has no message."),
]


def take(kind, text, stock):
    """Takes a list, on these labels."""
    choose("stock", stock)
    choose("lines-as", kind)
    put("messages", text)


def not_whole():
    """What can't be shown whole, and rows that aren't labels, are named, and nothing is saved."""
    for name, kind, text, stock, why in NOT_WHOLE:
        take(kind, text, stock)
        for button in ("many-pdf", "many-png", "many-svg"):
            push(button)
            expect(f"{name}: {button}", (text_of("sheet-hint")[:len(why)], files()), (why, []))
    take("messages", "", "none")
    put("messages", "gtin\tlot\n1\tA\n2\tB")
    expect("a table that is pasted", (value_of("lines-as"), text_of("sheet-hint")),
           ("csv", "A table was pasted, and so the lines are taken as one."))
    push("tab-make")
    write("(01)09506000134353")
    body = saved("symbol-16.svg", "save-svg")
    expect("a wrong GS1 symbol is saved with a word", (body[:4], text_of("toast")),
           (b"<svg", "symbol-16.svg is saved. It isn’t right as GS1 data: (01) GTIN, the check digit 3 should be 2."))
    write("123456")


def serial_numbers():
    """Serial numbers are added to the list, and each line is had in copies."""
    begin("50x30")
    unfold("serial")
    put("messages", "first")
    for name, value in (("before", "SN-"), ("behind", "/A"), ("first", "0998"), ("count", "3")):
        put(f"serial-{name}", value)
    push("serial-add")
    lines = lambda: value_of("messages").split("\n")
    expect("numbers that are added", (lines(), text_of("sheet-hint")),
           (["first", "SN-0998/A", "SN-0999/A", "SN-1000/A"], "3 lines are added."))
    push("serial-add")
    expect("the next ones", lines()[4:], ["SN-1001/A", "SN-1002/A", "SN-1003/A"])
    put("copies", "2")
    expect("copies of each", (in_pdf()[1], text_of("sheet-hint")),
           ([written(line) for line in lines() for _ in range(2)], "14 symbols are in the PDF."))
    for name, value, why in (("serial-first", "12a", "The first number has 1 to 30 digits."), ("serial-first", "9", ""),
                             ("serial-count", "10001", "From 1 to 10,000 can be added."),
                             ("serial-count", "0", "From 1 to 10,000 can be added."),
                             ("serial-count", "10000", "10,007 lines, and no more than 10,000 are taken.")):
        put(name, value)
        before = lines()
        if why:
            push("serial-add")
            expect(f"{name} {value}", (text_of("sheet-hint"), lines()), (why, before))
    put("serial-count", "2")
    choose("lines-as", "csv")
    push("serial-add")
    why = "Serial numbers are added to lines that are messages, and not to CSV."
    expect("in CSV", text_of("sheet-hint"), why)


def opened_again():
    """A list that was saved, by itself or in a file of labels, gives the same labels again."""
    begin()
    lists = [("messages", "one\n(01)09506000134352\nthree", {}, "a4-3x7", "0.4"),
             ("csv", "place,part\nleft,A1\nright,B2", {0: "text", 1: "message"}, "own", "0.3")]
    for kind, text, columns, stock, millimetres in lists:
        take(kind, text, stock)
        paper_is("a4", millimetres)
        put("label-width", "44.5")
        push("profile-1")
        if columns:
            answer("headings", columns)
        pdf = saved("symbols.pdf", "many-pdf")
        files = {"labels.json": saved("labels.json", "save-list"), "symbols.pdf": pdf,
                 "symbols-svg.zip": saved("symbols-svg.zip", "many-svg")}
        for name, body in files.items():
            take("messages", "another list", "none")
            paper_is("letter", "1")
            put("label-width", "60")
            push("profile-0")
            give("lines", f"again-{name}", body)
            soon(f"{kind} in {name}", lambda: text_of("sheet-hint"), f"The labels of again-{name}.")
            now = [value_of(it) for it in ("lines-as", "messages", "stock", "millimetres", "paper-size", "label-width")]
            expect(f"{kind} in {name}: what is chosen", (now, find("profile-1").is_selected()),
                   ([kind, text, stock, millimetres, "a4", "44.5"], True))
            expect(f"{kind} in {name}: the labels", pages_of(saved("symbols.pdf", "many-pdf")), pages_of(pdf))
    write("a PDF of one", size="rectangle")
    one = saved("symbol-12x26.pdf", "save-pdf")
    rows = grid()
    give("lines", "again.pdf", one)
    soon("a PDF of one symbol", lambda: (shown()["says"], task(), grid()), ("a PDF of one", "read", rows))
    write("123456")
    unfold("sheet")
    put("messages", "stays")
    for name, body in (("none.pdf", b"%PDF-1.4\n"), ("none.zip", b"PK\x03\x04" + bytes(40))):
        give("lines", name, body)
        soon(f"{name} is no list", lambda: text_of("sheet-hint"), f"{name} holds no labels of this page.")
    expect("what is no list changes nothing", value_of("messages"), "stays")
    odd = {"labels": 1, "messages": "odd", "columns": 7, "size": "9x9", "choices": {"stock": "none such", "copies": -1}}
    give("lines", "odd.json", json.dumps(odd).encode())
    soon("a list with choices that there aren't", lambda: (text_of("sheet-hint"), value_of("stock"), value_of("shape")),
         ("The labels of odd.json.", "own", "square"))


def in_archives():
    """Many symbols in one archive, each as it would be saved alone; one symbol, and many without labels, as PDF."""
    begin()
    for shape, messages in (("square", ["one", "two", "Mitsubadoor and more"]), ("rectangle", RECTANGLES)):
        choose("shape", shape)
        paper_is("a4", "0.4")
        put("messages", "\n".join(messages))
        grids = [written_in(message, shape) for message in messages]
        # (each text has room in one line, with the largest letters that have)
        below = [next(LINE * size for size in SIZES if len(message) * WIDTH * size <= 20) for message in messages]
        sizes = [[(text.index("\n") + 4) * 0.4, (text.count("\n") + 5) * 0.4] for text in grids]
        for ending in ("svg", "png"):
            files = archived(ending)
            expect(f"names of {ending}", [*files],
                   [f"{k + 1:03}-symbol-{name_of(text)}.{ending}" for k, text in enumerate(grids)])
            expect(f"{ending}: what is said", text_of("sheet-hint"), f"{len(grids)} symbols are in the archive.")
            for message, text, (_, high), more, body in zip(messages, grids, sizes, below, files.values()):
                is_as_it_is(f"{ending} of {message}", ending, body, (high, more, message))
                push("tab-read")
                opened(f"label.{ending}", body)
                expect(f"{ending} of {message}, opened again", (grid(), shown()["says"]), (text, message))
                push("tab-make")
        paper_is("label", "0.4")
        pages, got, _ = in_pdf()
        expect("a PDF of many", [[width, round(height, 1)] for (width, height), _, _ in pages],
               [[20, round(high + more, 1)] for (_, high), more in zip(sizes, below)])
        expect("its symbols", got, grids)
        push("label-text")
        pages, *_ = in_pdf()
        expect("without texts", [(size, texts) for size, _, texts in pages],
               [([round(side, 2) for side in size], []) for size in sizes])
        push("label-text")
    for shape, line, name, size in (("square", "123456", "10", [5.6, 5.6]), ("rectangle", "Label", "8x18", [8.8, 4.8])):
        write(line, size=shape)
        ((got, [(x, y, module, rows)], texts),) = pages_of(saved(f"symbol-{name}.pdf", "save-pdf"))
        expect(f"a PDF of one, {name}", (got, round(x, 3), round(y, 3), round(module, 3), rows, texts),
               (size, 0.8, 0.8, 0.4, written_in(line, shape), []))


def is_as_it_is(name, ending, body, drawn_there):
    """Whether a file has a symbol of this height and, below it, its text of this height, as large as they are said to
    be, in millimetres or dots."""
    high, more, message = drawn_there
    if ending == "svg":
        height = f'width="20mm" height="{round(high + more, 3):g}mm"'
        expect(name, (height in body.decode(), f">{message}</title>" in body.decode()), (True, True))
        return
    at = body.index(b"pHYs") + 4
    pixels, (each, check) = struct.unpack(">II", body[16:24]), struct.unpack(">I5xI", body[at : at + 13])
    expect(name, (pixels, each, zlib.crc32(body[at - 4 : at + 9])), ((500, round(25 * (high + more))), 25000, check))
    expect(f"{name}: its text", inked_below(body, round(25 * high)), True)


def inked_below(body, row):
    """Whether a picture has something dark below a row of its pixels, as the browser opens it."""
    return on.page.execute_async_script("""const [picture, row, done] = arguments, image = new Image();
           image.src = "data:image/png;base64," + picture;
           image.decode().then(() => {
               const { naturalWidth: width, naturalHeight: height } = image;
               const pen = Object.assign(document.createElement("canvas"), { width, height }).getContext("2d");
               pen.drawImage(image, 0, 0);
               const { data } = pen.getImageData(0, row, width, height - row);
               done(data.some((value, k) => k % 4 === 0 && value < 128));
           });""", base64.b64encode(body).decode(), row)


CODINGS = {"utf-8": "", "utf-8-sig": "", "utf-16": " It is UTF-16.",
           "cp1252": " It isn’t UTF-8, and is read as Windows-1252."}


def other_letters():
    """Text is taken as it is written, in a file too, which may have another encoding: that is said. Below a symbol in a
    PDF stand the letters that are shown."""
    begin("50x30")
    push("kind-typed")
    message, text = "Größe 5 µm", "Maß – 5 €"
    for coding, note in CODINGS.items():
        put("messages", "")
        give("lines", "other.csv", f"message;text\n{message};{text}\n".encode(coding))
        soon(f"a file in {coding}", lambda: (value_of("messages"), text_of("sheet-hint")),
             (f"message;text\n{message};{text}", f"The lines of other.csv.{note}"))
        expect(f"its symbol and text, in {coding}", in_pdf()[1:],
               ([written(spelled(message.encode("iso-8859-1")))], [text]))
    choose("lines-as", "messages")
    put("messages", "plain\na → b\n→")
    expect("letters that are in no font of a printer", (in_pdf()[2], text_of("sheet-hint")),
           (["plain", "a → b", "→"], "3 symbols are in the PDF."))


PARTS = [on_labels, labels_printed, saved_as_shown, one_after_another, by_columns, asked_about_columns, labels_shown,
         serial_numbers, opened_again, in_archives, other_letters]
