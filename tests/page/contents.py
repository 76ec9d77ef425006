"""What symbols say beside items, in the page: text of every script, in the smallest symbol, in several symbols that are
put together as they are read, by the charsets that ECIs name; and any border that is sure."""
import json
import re

from tests import corpus
from tests.library.model import SIZE_OF, codewords, modules_of, padded
from tests.page.conduct import go, linked
from tests.page.history import fields
from tests.page.judge import (SMALLEST, asked_to_read, asked_to_write, in_lines, judged, content_of, line_of_text,
                              words_of, written_in)
from tests.page.labels import archived, pages_of
from tests.page.photographs import FOUND, camera_on
from tests.page.pictures import opened, png, scene
from tests.page.stage import (COLLECT, choose, expect, fill, fold, give, grid, head, press, push, put, reload, run,
                              saved, settle, shown, soon, table_saved, text_of, texts_of, turned, unfold, unseen,
                              usable, value_of, written)
from tests.support import package


def type_in(text, kind="typed", form=SMALLEST):
    push("tab-make", f"kind-{kind}", f"profile-{form}")
    put("message", text)


# ---- The smallest symbol

SHORTENED = [
    # a line, and the shape of its symbol
    ("HELLO WORLD AND ALL THAT IS THERE", "square"), ("hello world and all that is there", "square"),
    ("https://example.com/a/long/path?of=it", "any"), ("ABC-123.DEF-456.GHI", "rectangle"),
    ("\\xE9\\xE8\\xEA\\xEB\\xEC\\xED\\xEE\\xEF" * 3, "extended"), ("123456", "square"),
]


def the_smallest():
    """What is written at first is the smallest symbol that says it, and the page says in place of which; other forms
    are chosen and linked as such."""
    reload()
    expect("chosen at first", run("return document.getElementById('profile-2').checked"), True)
    unfold("form")
    for line, shape in SHORTENED:
        choose("shape", shape)
        type_in(line, "message")
        plain, shorter, smallest = judged([asked_to_write(line, shape, form) for form in (0, 1, SMALLEST)])
        expect(f"{line[:20]}", grid(), in_lines(smallest))
        sides = [text_of(f"side-{form}") for form in (0, 1, SMALLEST)]
        expect(f"{line[:20]}: of each form", sides, [words_of(it) for it in (plain, shorter, smallest)])
        saved_by = f" in place of {words_of(plain)}" if words_of(plain) != words_of(smallest) else ""
        expect(f"{line[:20]}: what it saves", text_of("side-now"), words_of(smallest) + saved_by)
        expect(f"{line[:20]}: as it is read", shown()["state"], "Read")
    choose("shape", "square")
    type_in("A" * 2000, "message")
    (alone,) = judged([asked_to_write("A" * 2000, "square", SMALLEST)])
    expect("where no other form fits", text_of("side-now"), words_of(alone))
    linked()
    expect("in the link", fields()["profile"], "smallest")
    for form, name in ((0, None), (1, "shorter")):
        push(f"profile-{form}")
        linked()
        expect(f"form {form} in the link", fields().get("profile"), name)
    run(f"location.hash = '#make&message={'A' * 30}&profile=toString'")
    linked()
    settle()
    expect("an earlier link has ASCII", grid(), written("A" * 30))


def gs1_in_the_smallest():
    """A GS1 symbol in the smallest form begins with the codeword of FNC1, as GS1 asks."""
    for text in ("(01)09506000134352(17)271231(10)AB-42", "(21)ABCDEFGHIJKLMN", "(10)ABC", "(91)HELLO-WORLD"):
        type_in(text)
        (answer,) = judged([asked_to_read(grid())])
        seen = shown()
        expect(text, (answer["symbology"], seen["says"], seen["state"]), ("]d2", text, "Read, as GS1 data"))


# ---- Text

READ = "const { items, marks, head } = mitsubadoor.mark.seen.answer; return { items, marks, head }"


def texts_of_all_scripts():
    """Texts in ten scripts are written as Python writes them, and are read as what was typed."""
    all_texts = corpus.texts()
    expect("how many", len(all_texts), 200)
    lines = [line_of_text(text) for _, text in all_texts]
    grids = [in_lines(it) for it in judged([asked_to_write(line, "square", SMALLEST) for line in lines])]
    run(COLLECT)
    with unseen():
        for (script, text), line, wanted in zip(all_texts, lines, grids):
            type_in(text, "text")
            expect(f"{script}: {text}", grid(), wanted)
            expect(f"{script}: {text} as it is read", (shown()["says"], run(READ)), (text, content_of(line)))
        push("tab-read")
        for (script, text), wanted in list(zip(all_texts, grids))[::7]:
            put("grid", wanted)
            push("copy-message")
            expect(f"{script}: {text} in a grid", shown()["says"], text)
    expect("as they are copied", run("return copied"), [text for _, text in all_texts[::7]])


def charsets():
    """Bytes behind an ECI are named and shown as text in its charset; what is none, or has controls, as spelled."""
    marked = [row for row in corpus.rows("charsets") if "\\E" in row[0] and "\\F" not in row[0]]
    with unseen():
        for line, charset, *spelled in marked:
            type_in(line, "message")
            text = spelled[0] if spelled and "\\x" not in spelled[0] else None
            seen = shown()
            expect(line, (seen["says"], seen["charset"]), (text or line, text and charset))
            content = content_of(line)
            numbers = [it["number"] for it in content["marks"]]
            if text and content["marks"][0]["place"] == 0 and len(numbers) == 1:
                told = f"It is text in {charset.upper()}, as ECI {numbers[0]} says."
                expect(f"{line}: what is said", told in seen["why"], True)
        expect("how many", len(marked), 57)
        type_in("A\\E{7}\\xBF\\E{9}\\xD9\\E{26}", "message")
        expect("said of several", "as ECIs say." in shown()["why"], True)


# ---- Several symbols

MESSAGE = "Größe und Maße: 12 × 34 × 56 mm, \u2264 7 kg, \u65e5\u672c\u8a9e"
LATIN = "Größe 5 µm, Stück für Stück"
JAPANESE = "ｱ 取扱説明書と部品番号、ｶﾀｶﾅ"
CARD = """
    const text = (id) => document.getElementById(id).textContent, card = document.getElementById("gathered");
    return card.hidden ? null : { title: text("gathered-title"), whole: text("whole"),
        parts: [...document.querySelectorAll("#gathered-are li")].map((it) => it.textContent) };"""


def parts_of(text, count_of_them, kind="text"):
    """The grids of the parts of a message, as the page shows them, and what is read of each."""
    type_in(text, kind)
    choose("parts", str(count_of_them))
    grids, contents = [], []
    for k in range(count_of_them):
        expect(f"part {k + 1} is named", text_of("part-shown"), f"Part {k + 1} of {count_of_them}")
        grids.append(grid())
        contents.append(run(READ))
        expect(f"part {k + 1} as it is read", shown()["state"], f"Read, as part {k + 1} of {count_of_them}")
        push("part-on")
    expect("after the last", (usable("part-on"), usable("part-back")), (False, True))
    return grids, contents


def made_in_parts():
    """A message in several symbols: each has its head and its mark, no character is cut, and all together say it; the
    link keeps how many there are and which is shown."""
    charset_of = package.imported().charsets.charset_of
    for text, many in ((MESSAGE, 2), (MESSAGE, 16), (LATIN, 3), (JAPANESE, 4), ("plain ASCII of some length", 4)):
        grids, contents = parts_of(text, many)
        heads = [it["head"] for it in contents]
        file = heads[0]["file"]
        expect("heads", heads, [{"part": k + 1, "parts": many, "file": file} for k in range(many)])
        expect("numbers of the file", all(1 <= number <= 254 for number in file), True)
        charset = lambda it: charset_of(it["marks"][0]["number"]) if it["marks"] else "ascii"
        expect(f"{text[:8]} in {many}", "".join(bytes(it["items"]).decode(charset(it)) for it in contents), text)
        lengths = [len(it["items"]) for it in contents]
        expect("about equal parts", max(lengths) - min(lengths) <= 3, True)
        expect("as the library reads them", [it["head"] for it in judged([asked_to_read(it) for it in grids])], heads)
    type_in(MESSAGE, "text")
    choose("parts", "3")
    push("part-on")
    linked()
    expect("in the link", (fields()["parts"], fields()["part"]), ("3", "2"))
    shown_part = grid()
    side = len(shown_part.split("\n"))
    expect("the name of its file", saved(f"symbol-{side}-2-of-3.svg", "save-svg")[:4], b"<svg")
    push("print")
    printed = run("dispatchEvent(new Event('beforeprint')); return document.getElementById('paper').textContent")
    expect("on paper", f"Part 2 of 3. {side} × {side} modules of" in printed, True)
    reload()
    expect("after a reload", (text_of("part-shown"), grid()), ("Part 2 of 3", shown_part))
    for fragment in ("parts=17", "parts=x", "parts=0", "parts=3&part=9"):
        go(f"#make&message=abcdef&as=typed&{fragment}")
        wanted = "Part 3 of 3" if "part=9" in fragment else ""
        got = text_of("part-shown") if run("return !document.getElementById('part-steps').hidden") else ""
        expect(fragment, got, wanted)
    choose("parts", "1")
    type_in("(21)ABCDEFGHIJ(10)KLMNOPQRSTUV", "typed")
    choose("parts", "2")
    wrong = "It isn\u2019t right" in shown()["state"] or "element" in shown()["why"]
    hidden = run("return document.getElementById('elements').hidden")
    wanted = "Read, as part 1 of 2", False, True
    expect("a part of GS1 data has no elements", (shown()["state"], wrong, hidden), wanted)
    choose("parts", "1")
    spelled_heads()
    offered_in_parts()


def spelled_heads():
    """A head in front of what is spelled, and one that there isn't; so many symbols are made of it as it says."""
    choose("parts", "3")
    for line, said, state in (("\\A{2/5:007209}AB", {"part": 2, "parts": 5, "file": [7, 209]}, "Read, as part 2 of 5"),
                              ("\\P\\E{26}AB", "programming", "Read, as reader programming")):
        type_in(line, "message")
        marks = [{"place": 0, "number": 26}] if "E{" in line else []
        expect(line, (shown()["state"], run(READ)), (state, {"items": [65, 66], "marks": marks, "head": said}))
    choose("parts", "1")
    for line in ("\\A{6/5:001001}A", "\\A{1/17:001001}A", "\\A{1/2:000001}A", "\\A{1/2:001255}A"):
        type_in(line, "message")
        begin = "A part is one of 2 to 16, and its file has two numbers from 1 to 254."
        expect(line, (shown()["state"], text_of("message-hint").startswith(begin)), ("Nothing is read", True))
    type_in("A\\P", "message")
    expect("not behind something", text_of("message-hint").startswith("Column 2 is a backslash that"), True)


def offered_in_parts():
    """What is too long for one symbol is offered in several, until it fits."""
    choose("shape", "rectangle")
    type_in("Too long for any rectangle of the first standard, and by far: " * 4, "text")
    expect("too long", shown()["state"], "Nothing is read")
    for _ in range(4):
        offers = [words for words in texts_of("#message-hint button") if "symbols" in words]
        if not offers:
            break
        press("#message-hint button", offers[0])
    many = int(value_of("parts"))
    expect("it fits in several", (many > 1, shown()["state"]), (True, f"Read, as part 1 of {many}"))
    choose("parts", "2")
    hint = text_of("message-hint")
    expect("which part doesn't fit", hint.startswith("Part 1 of 2: No rectangle up to 16 × 48 modules"), True)
    choose("parts", "1")
    choose("shape", "square")


def labels_in_parts():
    """Each line of a list makes a label for each part, with its number; a list that is saved keeps how many."""
    type_in("123456")
    choose("parts", "2")
    unfold("sheet")
    put("messages", "Größe 5 µm\nA second line of text")
    choose("stock", "50x30")
    pages = pages_of(saved("symbols.pdf", "many-pdf"))
    texts_below = [below for _, _, below in pages]
    wanted = [[f"{line} ({k}/2)"] for line in ("Größe 5 µm", "A second line of text") for k in (1, 2)]
    expect("texts below", texts_below, wanted)
    answers = judged([asked_to_read(rows) for _, ((*_, rows),), _ in pages])
    expect("their heads", [it["head"]["part"] for it in answers], [1, 2, 1, 2])
    saved("labels.json", "save-list")
    wanted = [f"00{line}-{part}-of-2-symbol" for line in (1, 2) for part in (1, 2)]
    expect("names in the archive", [name.rpartition("-")[0] for name in archived("svg")], wanted)
    for parts in ("1", "4"):
        choose("parts", parts)
        put("messages", "")
        give("lines", "labels.json")
        soon(f"opened again, after {parts}", lambda: value_of("parts"), "2")
        settle()


def read_in_parts():
    """Parts are put together as they are read, in any order; what is missing is said; another file is another one."""
    grids, _ = parts_of(MESSAGE, 3)
    others, _ = parts_of(MESSAGE + "!", 3)
    choose("parts", "1")
    push("tab-read")
    run(COLLECT)
    put("grid", grids[2])
    first = run(CARD)
    expect("the last one alone", (first["title"], first["parts"][:2], first["whole"]),
           ("A message in 3 symbols: 1 of them read", ["not read yet"] * 2, ""))
    expect("nothing whole is copied", usable("copy-whole"), False)
    put("grid", others[0])
    expect("another file", run(CARD)["title"], "A message in 3 symbols: 1 of them read")
    expect("what is missing", "Not read yet: parts 2, 3." in shown()["why"], True)
    put("grid", grids[1])
    card = run(CARD)
    expect("two of three", (card["title"], card["whole"]), ("A message in 3 symbols: 2 of them read", ""))
    expect("one is missing", "Not read yet: part 1." in shown()["why"], True)
    put("grid", written("123456"))
    expect("none for a symbol that is no part", run(CARD), None)
    put("grid", grids[0])
    card = run(CARD)
    expect("all", (card["title"], card["whole"]), ("A message in 3 symbols: all are read", MESSAGE))
    expect("all parts", "".join(card["parts"]), MESSAGE)
    push("copy-whole")
    expect("the whole is copied", run("return copied"), [MESSAGE])
    push("forget-parts")
    expect("forgotten", run(CARD)["title"], "A message in 3 symbols: 1 of them read")
    push("tab-make")
    expect("only where symbols are read", run(CARD), None)
    found_in_parts(grids)
    other_content(grids, others)


def found_in_parts(grids):
    """Parts in one picture are put together, and named in the list; what is saved of it has their heads and marks."""
    push("tab-read")
    opened("parts.png", scene(400, 150, [(text.split("\n"), (20 + 130 * k, 20)) for k, text in enumerate(grids)]))
    card = run(CARD)
    expect("parts in a picture", (card["title"], card["whole"]), ("A message in 3 symbols: all are read", MESSAGE))
    remarks = texts_of("#found-are small")
    expect("all in the verdict", "All parts are read." in shown()["why"], True)
    named = sorted(re.search(r"part \d of 3", it)[0] for it in remarks)
    expect("named in the list", named, [f"part {k} of 3" for k in (1, 2, 3)])
    listed = sorted(json.loads(saved("found.json", "found-json"))["symbols"], key=lambda it: it["head"])
    file = judged([asked_to_read(grids[0])])[0]["head"]["file"]
    expect("heads in JSON", [it["head"] for it in listed], [[k, 3, *file] for k in (1, 2, 3)])
    said = [(it["marks"], it["charset"], it["identifier"]) for it in listed]
    expect("marks in JSON", said, [([[0, 26]], "utf-8", "]d4")] * 3)
    table = table_saved()[1:]
    expect("parts in CSV", sorted(row[2].rsplit("; ", 1)[-1] for row in table), [f"part {k} of 3" for k in (1, 2, 3)])
    push("found-copy")
    copied = [line.split("\t") for line in run("return copied.at(-1)").splitlines()]
    expect("parts in what is copied", sorted(copied), sorted([row[1], row[2].rsplit("; ", 1)[-1]] for row in table))


def parts_by_camera():
    """Parts that a camera sees at once, and after one another, are put together, those with the same text too."""
    grids, contents = parts_of("once " * 4, 4)
    expect("all with one text", len({str(it["items"]) for it in contents}), 1)
    choose("parts", "1")
    push("tab-read")
    camera_on(grids)
    run("globalThis.shown = [0, 1]")
    for title in ("2 of them read", "all are read"):
        soon(title, lambda: (run(CARD) or {}).get("title"), f"A message in 4 symbols: {title}")
        run("globalThis.pictures = [...pictures.slice(2), ...pictures.slice(0, 2)]")
    expect("the whole", run(CARD)["whole"], "once " * 4)
    expect("each is listed", len(texts_of(FOUND)), 4)
    run("document.getElementById('camera-off').click(); clearInterval(painter); delete navigator.mediaDevices")


def other_content(grids, others):
    """A part with the numbers of a file that is known, and another content, begins another file."""
    push("tab-read")
    head = judged([asked_to_read(grids[0])])[0]["head"]
    for text in grids:
        put("grid", text)
    put("grid", written_in("other", "square", 0, head))
    expect("another content", run(CARD)["title"], "A message in 3 symbols: 1 of them read")


def programs_the_reader():
    """What programs the reader is no message, and has no green verdict."""
    push("tab-read")
    put("grid", written_in("CONFIG 1", "square", 0, "programming"))
    seen = shown()
    kind = run("return document.getElementById('verdict').className")
    expect("reader programming", (seen["state"], seen["says"], kind),
           ("Read, as reader programming", "CONFIG 1", "card verdict other"))
    expect("said so", seen["why"].startswith("It is an instruction to the reader that scans it"), True)


# ---- Codewords and the lesson

TOLD = "return mitsubadoor.mark.seen.told.map(({ brief }) => brief)"


def told_of_marks():
    """Designators and heads in the codewords and in the lesson."""
    for line, said, briefs in (("\\E{26}\\xC3\\xA9", None, ["ECI", "26", "+128", "\\xC3", "+128"]),
                               ("A\\E{200}B", None, ["A", "ECI", "200", "\u21b2", "B"]),
                               ("\\E{20000}B", None, ["ECI", "20000", "\u21b2", "\u21b2", "B"]),
                               ("AB", {"part": 2, "parts": 5, "file": [7, 9]}, ["SA", "2/5", "#7", "#9", "A", "B"]),
                               ("AB", "programming", ["RP", "A", "B"])):
        push("tab-read")
        put("grid", written_in(line, "square", 0, said))
        expect(f"{line} {said}", run(TOLD)[: len(briefs)], briefs)
    push("tab-read")
    put("grid", written_in("AB\\E{7}\\xBF", "square", 0, {"part": 2, "parts": 5, "file": [7, 9]}))
    push("tab-learn")
    unfold("lesson")
    while usable("step-back"):
        push("step-back")
    said = text_of("step")
    expect("the lesson's message", texts_of("#step .chip"), ["65A", "66B", "ECI 7iso-8859-5", "191\\xBF"])
    expect("its head", "part 2 of 5" in said and "the numbers 7 and 9" in said, True)
    push("step-on")
    expect("its codewords", "An ECI is 241 and its designator" in text_of("step"), True)


# ---- Compared


def contents_compared():
    """Two symbols are compared by all that they say; where their texts are the same and their bytes aren't, or their
    symbology identifiers differ, that is said."""
    push("tab-read")
    unfold("comparison")
    alike = "Their normal grids differ, though both are the same text, with other bytes or ECIs:"
    part, one = {"part": 1, "parts": 2, "file": [1, 1]}, written_in("Rectangle", "8x32")
    differ, same = "No, they say different things.", "Yes, they say the same."
    plain = "Their modules differ, but both have this one normal grid"
    for name, a, b, wanted in (
        ("Latin-1 and UTF-8", "\u00e9", written_in("\\E{26}\\xC3\\xA9", "square"), [differ, alike]),
        ("a mark and none", "abc", written_in("\\E{26}abc", "square"), [differ, alike]),
        ("a part and a message", "abc", written_in("abc", "square", 0, part), [differ, "Their normal grids differ:"]),
        ("in two sizes", written_in("\\E{26}abc", "16"), written_in("\\E{26}abc", "8x32"), [same, plain + ":"]),
        ("as text", "\u65e5", written_in("\\E{26}\\xE6\\x97\\xA5", "square"),
         [same, "Both have this one normal grid:"]),
        ("a square and a rectangle", written_in("Rectangle", "square"), one, [same, plain + ":"]),
        ("a rectangle on its side", turned(written_in("Rectangle", "16x48"), 1, True, True), one, [same, plain + ":"]),
        ("two rectangles", written_in("Rectangles", "8x32"), one, [differ, "Their normal grids differ:"]),
    ):
        fill("a", a)
        fill("b", b)
        expect(name, head(), wanted)
    said = run("return document.querySelector('#slot-b svg').getAttribute('aria-label')")
    expect("what is said of a symbol", said, "Symbol B, of 8 × 32 modules")
    fill("a", written_in("\\F", "square"))
    size = SIZE_OF[12, 12]
    modules = "".join(map(str, modules_of(size, codewords(size, padded([230, 10, 121, 254], size.data)))))
    fill("b", "\n".join(modules[k : k + 12] for k in range(0, 144, 12)))
    settle()
    expect("identifiers", head(), [same, f"{plain}, though their symbology identifiers are ]d2 and ]d1:"])


# ---- Borders

def torn(text, many):
    """A grid of which so many modules of the solid column on the left are light."""
    return "\n".join("0" + row[1:] if k < many else row for k, row in enumerate(text.split("\n")))


def any_border():
    """A grid with more wrong border modules than usual is read where each block keeps a correction unused, and not
    where it doesn't; by the button, in the link, in a comparison, and undone."""
    line = "A border that is torn at its left side"
    text = written(line)
    usual = (2 * len(text.split("\n"))) // 8
    push("tab-read")
    for way in range(2):
        put("grid", "\n".join(row[::-1] if way else row for row in torn(text, usual + 3).split("\n")))
        seen = shown()
        wanted = "Read", line, f"{usual + 3} wrong, {usual + 3}"
        expect("a torn border", (seen["state"], seen["says"], seen["meters"][-1]), wanted)
        said = f"have the wrong colour. Usually {usual} may; more are taken here, since each block keeps a correction"
        expect("is said in the verdict", said in seen["why"], True)
        expect("is said", text_of("border-hint").startswith("Any number is accepted, if each block keeps"), True)
        expect("the way it stands", "mirrored" in text_of("grid-hint"), bool(way))
    linked()
    expect("in the link", fields()["grid-border"], "auto")
    reload()
    expect("after a reload", shown()["says"], line)
    push("usual")
    expect("as usual it is refused", shown()["state"], "Refused")
    push("any-border")
    expect("and read by the button", (shown()["state"], usable("any-border")), ("Read", False))
    push("tab-learn", "to-limit")
    expect("not where no correction is left", shown()["state"], "Refused")
    push("undo")
    expect("undone", shown()["state"], "Read")
    push("tab-read")
    put("grid", text)
    expect("a whole one after it", (shown()["state"], shown()["meters"][-1]), ("Read", f"0 wrong, {usual}"))
    unfold("comparison")
    fill("a", torn(text, usual + 3))
    fill("b", line)
    settle()
    expect("compared", head()[0], "Yes, they say the same.")
    fold("comparison")
    opened("torn.png", png(torn(text, usual + 3).split("\n"), 1, 2))
    expect("a picture that is a grid", (shown()["state"], shown()["says"]), ("Read", line))


PARTS = [the_smallest, gs1_in_the_smallest, texts_of_all_scripts, charsets, made_in_parts, labels_in_parts,
         read_in_parts, parts_by_camera, programs_the_reader, told_of_marks, contents_compared, any_border]
