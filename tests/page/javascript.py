"""The module for programs in JavaScript, used in Node.js as such would use it: what it reads and writes against the
program, and what it throws."""
import json
import re
import subprocess

from tests import corpus
from tests.page.judge import SMALLEST, content_of, line_of_text, written_in
from tests.page.stage import expect, flat, on, written
from tests.support import places

USES, TYPES = places.path("tests", "page", "uses.mjs"), places.path("web", "module", "ecc200.d.mts")
TOO_LONG, NO_SIZE, BORDER, BLOCK, ITEM, MARK, HEAD = 14, 4, 5, 6, 15, 22, 23  # codes of refusals
FORM, SHAPE = 16, 18
PART = {"part": 2, "parts": 3, "file": [9, 254]}
# Bytes that charsets of Windows and GBK have and haven't, and a private character of GB 18030.
IN_CHARSETS = [(number, charset, [65, byte]) for number,
               charset in ((21, "cp1250"), (22, "cp1251"), (23, "cp1252"), (24, "cp1256")) for byte in range(128, 256)]
IN_CHARSETS += [(number, charset, [0xaa, 0xa1]) for number, charset in ((31, "gbk"), (32, "gb18030"))]
# Texts of which each is marked by another rule, or isn't, and one for each charset of those that take few bytes.
WORDS = ["garçon", "São Paulo", "Schwarz-Weiß negativ", "élève", "ÄÖÜ", "éaéaéa", "ÄÖ Caféx", "ÄÖ ÄÖ Caféx", "5 µm",
         "10÷2", "£ abcdefg", "£ abcdefghi", "é\x81", "é \x81", "Ã©", "Łódź", "กทม.", "日本", "서울", "你好吗",
         "與你嗎", "α €", "א\u200e", "日−", "ก\x80", "ğ 日", "뷁"]
WANTED = "An identifier in brackets, such as (01), is wanted."
GS1 = [256, *b"10AB", 256, *b"21C"]


def symbol(line, profile=0):
    """A symbol as the program writes it, and as the module has it."""
    rows = written(line, profile).split("\n")
    return {"rows": len(rows), "columns": len(rows[0]), "modules": "".join(rows)}


def said(text, items=None, is_gs1=False, data=None, corrected=0):
    items = list(text.encode()) if items is None else items
    return {"text": text, "items": items, "isGs1": is_gs1, "bytes": items if data is None else data,
            "corrected": [corrected]}


def elements(pairs):
    """Elements as the module has them."""
    return [{"identifier": identifier, "value": value} for identifier, value in pairs]


def read_as(text, charset):
    """What is read of a text that was written with a mark."""
    return {**content_of(line_of_text(text)), "text": text, "charset": charset, "symbology": "]d4"}


def text_in(charset, items):
    """What bytes say in a charset, or None."""
    try:
        return bytes(items).decode(charset)
    except UnicodeDecodeError:
        return None


def texts():
    """The texts above, and those in ten scripts."""
    return [*WORDS, *(text for _, text in corpus.texts())]


def got_of(content):
    """What a content says, as the corpus has it."""
    spelled = content["text"] and re.sub(r"[\0-\x1f\x7f-\x9f]", lambda it: f"\\x{ord(it[0]):02X}", content["text"])
    return {name: content[name] for name in ("items", "marks", "head")}, content["symbology"], spelled


def near(came):
    """With places in a picture to the pixel."""
    if isinstance(came, float):
        return round(came)
    if isinstance(came, list):
        return [near(each) for each in came]
    return {name: near(each) for name, each in came.items()} if isinstance(came, dict) else came


def uses():
    given = json.dumps([[number, items] for number, _, items in IN_CHARSETS])
    rows = corpus.rows("charsets")
    words = ["node", USES, on.module, given, json.dumps(texts()), json.dumps([content_of(line) for line, *_ in rows])]
    done = subprocess.run(words, stdout=subprocess.PIPE, timeout=300, check=True)
    answers = {answer.pop("name"): answer for answer in map(json.loads, done.stdout.splitlines())}
    came = lambda name: answers[name].get("came", answers[name])
    with open(TYPES, encoding="utf-8") as types:
        declared = re.findall(r"^export (?:class|function|const) (\w+)", types.read(), re.M)
    for name, wanted in {
        "exports": sorted(declared), "text": symbol("Gr\\xF6\\xDFe"), "bytes": symbol("Gr\\xC3\\xB6\\xC3\\x9Fe"),
        "gs1": said("10AB\x1d21C", GS1, True, [*b"10AB", 29, *b"21C"]),
        "elements": [elements(each) for each in ([("01", "09521234543213"), ("17", "251231"), ("10", "ABC123")],
                                                 [("10", "A(B)"), ("21", "C")], [("10", "A(01)B")])],
        "no elements": [None] * 4, "elements in a picture": [elements([("10", "AB")])],
        "elements of parts": elements([("10", "AB")]),
        "faulty elements": [["RangeError", why] for why in (
            "(01) GTIN: the check digit 4 should be 3", "(01) GTIN: too short: 14 digits are due",
            "Column 1 begins (05), which is no identifier of GS1’s table.", WANTED,
            "(17) USE BY OR EXPIRY: 31 is no day of that month", WANTED)],
        "not UTF-8": said("\xffA", [255, 65]), "text of another script": read_as("Größe 日本", "utf-8"),
        "Latin-1 that may be UTF-8": read_as("Ã©", "iso-8859-1"),
        "marks": {**content_of("\\E{7}\\xBF\\xE0\\E{999999}A"), "text": None, "charset": "iso-8859-5, ECI 999999",
                  "symbology": "]d4"},
        "programming": {**content_of("A", "programming"), "text": "A", "charset": "utf-8", "symbology": "]d1"},
        "part": {**content_of("two ", PART), "text": "two ", "charset": "utf-8", "symbology": "]d1"},
        "joined": {**content_of("\\E{26}one two three"), "text": "one two three", "charset": "utf-8"},
        "a torn border": ["torn at its left side", 9, True],
        "content in a picture": [
            {**content_of("two ", PART), "text": "two ", "charset": "utf-8", "symbology": "]d1"},
            {**content_of("\\E{26}\\xE6\\x97\\xA5\\xE6\\x9C\\xAC"), "text": "日本", "charset": "utf-8",
             "symbology": "]d4"}],
        "shorter": symbol("\\xE9" * 20, 1), "corrected": said("corrected", corrected=1), "doubtful": [1],
        "normal": symbol("normal"), "normal of a blot": symbol("a blot on it"),
        "picture": [["one", {"x": 10, "y": 10}], ["two", {"x": 80, "y": 10}]], "one of two": [1, False],
        "inverted": [["dark", True]], "transparent": ["on white"], "luminance": ["grey"], "unread": [0, 22, BLOCK],
        "quality": {"contrast": 1, "modulation": 1, "axial": 0, "grid": 0, "unused": [1], "growth": [0, 0],
                    "border": [0] * 4, "quiet": [0] * 4, "readable": [8] * 4,
                    "weakest": "nothing is weak", "modulations": 8, "unasked": None,
                    "grades": dict.fromkeys(("contrast", "modulation", "unused", "axial", "grid"), "A")},
    }.items():
        expect(name, near(came(name)), wanted)
    expect("shapes", [[came(name)["rows"], came(name)["columns"]] for name in ("rectangle", "a size")],
           [[8, 18], [16, 48]])
    expect("sizes", [came("sizes")[0], came("sizes")[1]["rows"], came("sizes")[1]["data"]], [48, 10, 3])
    smallest = written_in("HELLO WORLD AND ALL THAT IS THERE", "square", SMALLEST)
    expect("smallest", came("smallest")["modules"], flat(smallest))
    expect("every size", came("every size"), [[mark.name, content_of(mark.said)] for mark in corpus.marks("sizes")])
    for mark, got in zip(corpus.marks("damaged"), came("damaged"), strict=True):
        found = [] if mark.refusal else [list(mark.content[0]), mark.damage[0], *map(list, mark.damage[1:])]
        expect(mark.name, got, found or list(mark.refusal))
    expect("texts", (len(came("texts")), [text for text, read in came("texts") if text != read]), (200, []))
    expect("bytes in charsets", came("bytes in charsets"),
           [[number, items, text_in(charset, items)] for number, charset, items in IN_CHARSETS])
    for text, got in zip(texts(), came("contents of texts")):
        expect(f"the content of {text}", got, content_of(line_of_text(text)))
    for (line, charset, *text), got in zip(rows, came("charsets of contents")):
        expect(f"the charset of {line}", got, [corpus.characters(text[0]) if text else None, charset])
    expect("charsets of contents", len(came("charsets of contents")), len(rows))
    others = corpus.marks("contents")
    for mark, got in zip(others, came("contents of others")):
        wanted = content_of(mark.said), mark.more["identifier"], mark.more.get("text")
        expect(f"content of another, {mark.encoder}", got_of(got), wanted)
    expect("contents of others", len(came("contents of others")), len(others))
    content_in = lambda it: [it["items"], it["marks"], it["head"]]
    for one, other in came("written anew"):
        expect(f"written anew, {one['text']}", content_in(other), content_in(one))
    expect("joined in one charset", came("joined in one charset"), [2, "日本"])
    for name, code in (("too long", TOO_LONG), ("too small a size", TOO_LONG), ("no size", NO_SIZE),
                       ("normal of a blot that isn't told", BLOCK), ("a torn border as usual", BORDER),
                       ("a wrong mark", MARK), ("a wrong head", HEAD), ("a wrong item", ITEM),
                       ("no such form", FORM), ("no such form of a normal symbol", FORM), ("no such shape", SHAPE),
                       ("rows that no size has", TOO_LONG)):
        expect(name, [answers[name].get(each) for each in ("thrown", "isRefused", "code")], ["Refused", True, code])
    nearest = [re.sub(r"there is no option (\w+): the nearest is (\w+), of .*", r"\1 \2", message) for _,
               message in came("options that there aren't")]
    expect("options that there aren't", ([kind for kind, _ in came("options that there aren't")], nearest),
           (["TypeError"] * 5, ["gs gs1", "shap shape", "limits limit", "doubtfull doubtful", "margins margin"]))
    for name, kind in (("of no pixels", "RangeError"), ("of other pixels", "TypeError"),
                       ("joined but one", "RangeError"), ("joined with another", "RangeError"),
                       ("joined with a message", "RangeError"), ("joined of none", "RangeError"),
                       ("elements that are no text", "TypeError")):
        expect(name, answers[name].get("thrown"), kind)
