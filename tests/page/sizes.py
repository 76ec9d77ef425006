"""Symbols of every size in the page: made in a size that is read as text and from pictures, damaged, with
modules that the reader is told to be doubtful, linked, compared, and measured on labels. The page's library judges,
without the page; the marks that another encoder made in every size stand beside it."""
import math
import random
import re

from tests import corpus
from tests.page.conduct import go, linked
from tests.page.history import fields
from tests.page.judge import (SHAPES, asked_to_read, asked_to_write, content_of, in_lines, judged, name_of, table,
                              words_of, written_in)
from tests.page.pictures import opened, png, scene
from tests.page.stage import (WAYS, Keys, agree, attribute, cells, changed, choose, click, coloured, drag, drawn,
                              expect, flat, grid, is_seen, push, put, reload, run, send, settle, shown, text_of,
                              texts_of, turned, unfold, unseen, usable, value_of, write, written)


def agree_with_judge(name, line=None):
    """Compares what is shown with what the library says of the grid and the doubtful modules that the page has; where
    it is read, as this line."""
    doubtful = run("const { doubtful } = mitsubadoor.mark; return doubtful ? [...doubtful].join('') : ''")
    (answer,) = judged([asked_to_read(grid(), doubtful)])
    seen = shown()
    if "fault" in answer:
        expect(name, (seen["state"], seen["says"]), ("Refused", "no message"))
        return answer
    size = table()[name_of(grid())]
    checks = size["check"] // size["blocks"]
    told_of = lambda erased, left: f"{erased} doubtful; {left} of {checks} checks left" if erased else size["limit"]
    blocks = [f"{wrong} wrong, {told_of(erased, left)}" for wrong, erased,
              left in zip(answer["corrected"], answer["erased"], answer["left"])]
    expect(f"{name}: meters", seen["meters"][:-1], blocks)
    expect(f"{name}: border", seen["meters"][-1].split(" ")[0], str(answer["border"]))
    if line is not None:
        is_that = answer["items"] == content_of(line)["items"]
        expect(name, (seen["state"] in ("Read", "Read, as GS1 data"), is_that), (is_that, is_that))
    return answer


def kinds(what):
    """How many codewords have cells of a kind, data and check codewords alike."""
    return sum(kind in (what, f"check {what}") for *_, kind in cells())


# ---- Made


def new_sizes():
    """The sizes that the program doesn't write: rectangles, and squares above 104."""
    return [name for name, size in table().items() if size["rows"] != size["columns"] or size["rows"] > 104]


def digits(count_of_them):
    return "".join(str(k * k % 10) for k in range(count_of_them))


def in_each_size(names, line_of, judge):
    """Symbols of some sizes, as drawn and said; damage at the limit, past it and across, by the buttons."""
    unfold("form")
    for name in names:
        size = table()[name]
        rows, columns, limit, data, blocks = (size[it] for it in ("rows", "columns", "limit", "data", "blocks"))
        line, checks, at_limit = line_of(size), size["check"] // blocks, [f"{limit} wrong, {limit}"] * blocks
        clean, is_new = written_in(line, name), name in new_sizes()
        write(line, size=name if is_new else "square")
        expect(f"{name} as it is written", grid(), clean if is_new else written(line))
        expect(f"{name} by its pixels", (drawn(columns, rows, 0.5), coloured()), (clean, []))
        facts = [words_of(size), str(data), str(size["check"]), str(limit)]
        expect(f"{name}: facts", (texts_of("#facts dd"), sum("check" in kind for *_, kind in cells())),
               ([*facts, "]d1"], size["check"]))
        length = lambda modules: f"{round((modules + 4) * 0.5, 2):g}"
        said = f"{length(columns)} × {length(rows)} mm with 2 modules of quiet zone"
        expect(f"{name}: what it prints", text_of("print-size").startswith(said), True)
        expect(f"{name}: sides", text_of("side-now"), words_of(size))
        push("tab-learn", "to-limit")
        expect(f"{name} at the limit", (shown()["meters"][:-1], kinds("corrected")), (at_limit, limit * blocks))
        judge(f"{name} at the limit, as it is read", line)
        if max(rows, columns) <= 72:  # in larger ones a module is too small to have a corner without a cross
            expect(f"{name} damaged, by its pixels", drawn(columns, rows), grid())
        push("one-more")
        judge(f"{name} past the limit")
        if shown()["state"] == "Refused":  # one block is beyond, and the others at the limit
            beyond = shown()["meters"].index(f"more than {limit} wrong, {limit}")
            count_of = len(range(beyond, data, blocks)) + checks
            expect(f"{name} coloured", (kinds("beyond"), kinds("corrected")), (count_of, limit * (blocks - 1)))
        push("undo")
        expect(f"{name}, one more undone", shown()["meters"][:-1], at_limit)
        push("undo-all", "scratch")
        judge(f"{name} scratched")
        identifier = [] if shown()["state"] == "Refused" else ["]d1"]  # (a scratch may be more than can be corrected)
        expect(f"{name}, facts", texts_of("#facts dd"), [*facts, *identifier])
        push("undo-all")
        expect(f"{name} undone", (grid(), coloured()), (clean, []))


def each_is_made():
    """Each size that the program doesn't write."""
    in_each_size(new_sizes(), lambda size: digits(2 * size["data"] - 1), agree_with_judge)


def sizes():
    """Each size that the program writes, which judges it."""
    letters = lambda size: "".join(random.choice("ABCDEFGHIJKLMNOPQRSTUVWXYZ") for _ in range(size["data"]))
    in_each_size([name for name in table() if name not in new_sizes()], letters, lambda name, *_: agree(name))


def sizes_by_shape():
    """The smallest size of each shape, and one size, for messages of many lengths by both profiles; what fits none."""
    unfold("form")
    letters = "".join(f"\\x{byte:02X}" for byte in range(128, 256))
    lines = ["", "12", "123456", "A" * 9, "Ab1" * 5, "\\F0109506000134352", letters[:80], "9" * 130, "Z" * 48]
    lines.append(letters * 7)
    with unseen():
        for size in (*SHAPES, "8x18", "16x48", "24", "8x144", "26x64"):
            for profile in (0, 1):
                symbols = judged([asked_to_write(line, size, form) for line in lines for form in (0, 1)])
                for k, line in enumerate(lines):
                    both = symbols[2 * k : 2 * k + 2]
                    write(line, profile, size)
                    told = [words_of(it) if "text" in it else "doesn’t fit" for it in both]
                    name = f"{line[:12]!r} in {size} under profile {profile}"
                    if "text" in both[profile]:
                        expect(name, grid(), in_lines(both[profile]))
                        expect(f"{name}: sides", [text_of("side-0"), text_of("side-1")], told)
                    else:
                        expect(f"{name}: refused", (shown()["state"], refusal_in(size)), ("Nothing is read", True))
    expect("one size is listed only where it is chosen", is_seen("size"), True)
    choose("shape", "any")
    expect("and else isn't", is_seen("size"), False)
    names = run("return [...document.querySelectorAll('#size option')].map((it) => it.value)")
    expect("all sizes are listed", sorted(names), sorted(table()))


def refusal_in(size):
    """Whether it is said that a size, or no size of a shape, holds the message."""
    most = {"square": "square up to 144 × 144 modules", "rectangle": "rectangle up to 16 × 48 modules",
            "extended": "rectangle up to 26 × 64 modules", "any": "size"}
    begin = f"No {most[size]} holds" if size in most else f"{words_of(table()[size])} modules don’t hold"
    said = text_of("message-hint")
    return said.startswith(f"{begin} this message in this form. It is ") and " too long." in said


# ---- Read


ANSWERED = """
    const { answer, told } = mitsubadoor.mark.seen, { items, marks, head } = answer;
    const isUntold = ({ text }) => text.startsWith("nothing that is read");
    return { content: { items, marks, head }, told: told.flatMap((it) => it.items),
             marks: told.flatMap(({ mark }) => mark ?? []), untold: told.filter(isUntold).length };"""


@unseen()
def marks_of_every_size():
    """The marks that zint made, each as text: they are read as what was printed, with their ECIs and heads, and their
    codewords stand for that."""
    push("tab-read")
    contents = 0
    marks = corpus.marks("sizes")
    for mark in marks:
        name, text, wanted = mark.name, "\n".join(mark.lines), content_of(mark.said)
        put("grid", text)
        expect(f"{name}: as it stands", (grid(), shown()["side"]), (text, mark.rows))
        items, numbers = wanted["items"], [it["number"] for it in wanted["marks"]]
        said = {"content": wanted, "told": items, "marks": numbers, "untold": 0}
        expect(name, (shown()["state"].split(",")[0], run(ANSWERED)), ("Read", said))
        contents += bool(numbers or wanted["head"])
    sizes = {name_of("\n".join(mark.lines)) for mark in marks}
    expect("every new size is among them", sorted(set(new_sizes()) - sizes), [])
    expect("some have more than items", contents, 18)


@unseen()
def in_all_ways():
    """Rectangles that stand in each of the sixteen ways, as text and as pictures."""
    push("tab-read")
    for name, line in (("8x32", "Rectangle"), ("12x26", "123456"), ("26x40", "A little more of it")):
        text = written_in(line, name)
        for way, how in WAYS.items():
            put("grid", turned(text, *way))
            said = f"The grid is {how}: found by trying, and shown upright." if how else "Read as it stands."
            expect(f"{name} {how}", (text_of("grid-hint"), grid(), shown()["says"]), (said, text, line))
        for scale, around, (way, how) in zip([2, 3, 4, 6] * 4, [0, 1, 2, 3] * 4, WAYS.items()):
            _, mirrored, inverted = way
            rows = turned(text, *way[:2], False).split("\n")
            light, dark = (40, 210) if inverted else (230, 20)
            said = opened(f"{name}.png", png(rows, scale, around, light, dark))
            expect(f"a picture of {name} {how}, {scale} pixels", (said, grid(), shown()["says"]),
                         (f"{name}.png: {words_of(table()[name])}. "
                          + (f"The symbol is {how}, and shown upright." if how else "Read as it stands."), text, line))
    text = written_in("Rectangle", "8x32")
    beyond = "".join("0" if module == "1" and k % 32 and k < 224 else module for k, module in enumerate(flat(text)))
    lines = "\n".join(beyond[k : k + 32] for k in range(0, 256, 32))
    put("grid", turned(lines, 1, False, False))
    expect("one that can't be read lies on its side", (text_of("grid-hint"), grid()),
                 ("It can’t be read as it stands, nor turned, mirrored or inverted. It is shown upright, as if it were "
                  "turned a quarter to the right.", lines))


MIRROR, INVERSE = "mirrored left to right", "inverted, light for dark"
AT_AN_ANGLE = [
    # (a size, a message, the degrees, how it stands besides, the greys of the ground and of what is dark, and specks)
    ("12x36", "At an angle", 8, "", 235, 20, 0), ("16x48", "A longer one at an angle", -20, "", 235, 20, 0),
    ("8x32", "Rectangle", 5, "", 235, 20, 0), ("16x36", "Mirrored", 12, MIRROR, 235, 20, 0),
    ("12x26", "Inverted", -7, INVERSE, 20, 235, 0), ("26x48", "Both", 100, f"{INVERSE}, and {MIRROR}", 20, 235, 0),
    ("16", "Turned about", 25, "", 220, 40, 0), ("16", "Turned about", 25, INVERSE, 60, 220, 0),
    ("16", "Turned about", 25, MIRROR, 220, 40, 0), ("16", "Turned about", 25, "", 220, 40, 19),
]


def at_an_angle():
    """Symbols in pictures that stand at an angle, some of them mirrored or inverted, or with dark specks."""
    push("tab-read")
    for name, line, degrees, how, *greys in AT_AN_ANGLE:
        text, side = written_in(line, name), "left" if degrees < 0 else "right"
        rows, turn = turned(text, 0, MIRROR in how, False).split("\n"), math.radians(degrees)
        across, down = 9 * len(rows[0]), 9 * len(rows)
        length = round(math.hypot(across, down)) + 80
        placed = [(rows, ((length - across) / 2, (length - down) / 2))]
        said = opened(f"{name}.png", scene(length, length, placed, (math.cos(turn), math.sin(turn)), 9, *greys))
        stands = ", and ".join(filter(None, [how, f"turned by {abs(degrees)}° to the {side}"]))
        expect(f"{name} at {degrees} degrees, {greys}", (shown()["state"], shown()["says"], grid(), said), (
            "Read", line, text, f"{name}.png: {words_of(table()[name])}. The symbol is {stands}, and shown upright."))


# ---- Linked and compared


def rectangles_are_linked():
    """Reload and links keep the size that is chosen, a rectangle that was read, damage and doubtful modules; a square
    that was read is linked as ever, whatever its first modules are."""
    push("tab-read")
    text = written_in("Rectangle", "8x32")
    put("grid", text)
    write("123456", size="12x36")
    push("tab-learn", "brush-turn")
    click(40, 41, side=36, rows=12)
    push("brush-doubt")
    click(41, 60, side=36, rows=12)
    push("brush-turn", "learn-read")
    click(45, side=32, rows=8)
    linked()
    kept = """
        const text = (list) => list && [...list].join(""), { panes } = mitsubadoor;
        const state = ({ modules, rows, columns, doubtful, original, limit }) =>
            [text(modules), rows, columns, text(doubtful), text(original), limit];
        return Object.values(panes).map(state);"""
    before, had = run(kept), fields()
    expect("the link", (had["size"], had["grid"].startswith("8.32."), "doubtful" in had), ("12x36", True, True))
    reload()
    expect("after a reload", (run(kept), shown()["says"]), (before, "Rectangle"))
    expect("its size is chosen", (value_of("shape"), value_of("size")), ("one", "12x36"))
    push("undo")
    expect("and its damage undone", grid(), text)
    for name in ("rectangle", "extended", "any", "square"):
        write("123456", size=name)
        linked()
        expect(f"{name} in the link", fields().get("size", "square"), name)
        reload()
        expect(f"{name} after a reload", grid(), written_in("123456", name))
    for first in ("110100", "111101"):
        odd = first + written("123456").replace("\n", "")[6:]
        push("tab-read")
        put("grid", "\n".join(odd[k : k + 10] for k in range(0, 100, 10)))
        linked()
        reload()
        expect(f"a square that begins {first}", flat(value_of("grid")), odd)
    no_sizes = ("read&grid=8.19.AAAA", "read&grid=0.0.", "read&grid=8.18.A", "read&grid=145.145.AA")
    for fragment in (*no_sizes, "make&size=9x9", "make&size=one", "make&size=toString"):
        go(f"#{fragment}")
        kinds = run("return [document.getElementById('shape').value, document.getElementById('grid').value]")
        expect(fragment, kinds, ["square", ""])


# ---- Doubtful modules


def doubts():
    """Which modules the reader is told to be doubtful."""
    return run("""const { doubtful } = mitsubadoor.mark;
           return doubtful ? [...doubtful.keys()].filter((k) => doubtful[k]) : []""")


def doubted():
    """Modules are marked as doubtful by clicks, drags, keys and the button; each is a step; what is read, what is
    corrected, and what each block has left is what the library says."""
    line = "Mitsubadoor"
    write(line, size="16x48")
    clean = grid()
    push("tab-learn", "brush-doubt")
    click(100, side=48, rows=16)
    expect("a click", (doubts(), grid()), ([100], clean))
    agree_with_judge("a click, as it is read", line)
    drag(150, 154, side=48, rows=16)
    expect("a drag", doubts(), [100, 150, 151, 152, 153, 154])
    agree_with_judge("a drag, as it is read", line)
    expect("what is marked is in the legend", "doubtful" in text_of("legend"), True)
    drag(151, 153, side=48, rows=16)
    expect("a drag from a doubtful one takes doubt away", doubts(), [100, 150, 154])
    push("undo")
    expect("undone", doubts(), [100, 150, 151, 152, 153, 154])
    drag(149, 151, side=48, rows=16)
    expect("a drag over doubtful ones leaves them so", doubts(), [100, 149, 150, 151, 152, 153, 154])
    push("undo", "undo", "undo", "undo")
    expect("all undone", (doubts(), grid()), ([], clean))
    push("redo")
    expect("done again", doubts(), [100])
    push("undo-all")
    expect("undo everything", doubts(), [])
    push("brush-turn")
    size = table()["16x48"]
    for _ in range(size["limit"]):
        push("one-more")
    agree_with_judge("at the limit", line)
    push("tell")
    answer = agree_with_judge("told of all that was turned over", line)
    expect("each doubtful codeword takes one check codeword", (answer["corrected"], answer["erased"], answer["left"]),
           ([0], [size["limit"]], [size["check"] - size["limit"]]))
    expect("the cells say so", kinds("corrected erased"), size["limit"])
    expect("what is told", doubts(), changed(clean, grid()))
    for step in range(size["check"]):
        push("one-more", "tell")
        answer = agree_with_judge(f"{step} more, and told")
        if "fault" in answer:
            break
    expect("until all checks are spent", len(doubts()) > size["check"], True)
    beyond = f"{size['check'] + 1} codewords are doubtful, and the {size['check']} check codewords replace no more than"
    expect("and then it is said", shown()["why"].startswith(beyond), True)
    push("undo", "undo", "undo")
    begin = f"{size['check'] - 1} codewords are doubtful, and of the others some are wrong."
    expect("beside so many doubtful ones none may be wrong", shown()["why"].startswith(begin), True)
    agree_with_judge("beside so many doubtful ones")
    doubted_by_keys()
    doubted_when_read()


def doubted_by_keys():
    write("123456")
    push("tab-learn", "brush-doubt")
    run("document.getElementById('symbol').focus()")
    for key in (Keys.ARROW_RIGHT, Keys.ARROW_DOWN, Keys.SPACE):
        send(key)
    cursor = run("return [mitsubadoor.mark.cursor, mitsubadoor.mark.doubtful?.[mitsubadoor.mark.cursor] ?? 0]")
    expect("by keys", (cursor[1], "doubtful" in text_of("spoken")), (1, True))
    send(Keys.SPACE)
    expect("and back", run("return mitsubadoor.mark.doubtful"), None)
    push("brush-turn")


def doubted_when_read():
    """A symbol that was opened, of which all checks are spent: no green verdict."""
    line, name = "123456", "10"
    push("tab-read")
    put("grid", written(line))
    push("tab-learn", "brush-doubt")
    first_bits = run("const { kind, bit } = mitsubadoor.mark.seen.map;"
                     "return [...kind.keys()].filter((k) => kind[k] === 1 && bit[k] === 1)")
    for cell in first_bits[: table()[name]["check"]]:
        click(cell, side=10)
    agree_with_judge("all checks spent", None)
    expect("no green verdict",
           (shown()["state"], attribute("verdict", "class"), "No check codeword is left" in shown()["why"]),
           ("Read, but nothing shows that it is right", "card verdict other", True))
    push("undo")
    expect("one left", shown()["state"], "Read")
    push("brush-turn", "undo-all", "tab-make")


def damaged_at_random():
    """Symbols of all sizes, modules turned over and others marked at random, as shown and as the library answers."""
    chance = random.Random(5)
    cases = []
    push("tab-read")
    for _ in range(60):
        name = chance.choice(list(table()))
        cases.append((name, digits(chance.randrange(1, 2 * table()[name]["data"]))))
    for (name, line), symbol in zip(cases, judged([asked_to_write(line, name) for name, line in cases])):
        size, modules = table()[name], list(symbol["text"])
        doubtful = ["0"] * len(modules)
        turns = chance.randrange(0, 2 * size["limit"] * size["blocks"] // 3 + 2)
        for k in chance.sample(range(len(modules)), min(turns, len(modules))):
            modules[k] = "10"[int(modules[k])]
            if chance.random() < 0.6:
                doubtful[k] = "1"
        text = in_lines({**symbol, "text": "".join(modules)})
        put("grid", text)
        if grid() != text:
            continue  # it stands in another way
        run("""const it = mitsubadoor.mark;
               it.doubtful = arguments[0].includes("1") ? Uint8Array.from(arguments[0], Number) : null;""",
            "".join(doubtful))
        push("usual")  # looks anew
        run("document.getElementById('border-limit').dispatchEvent(new Event('blur'))")
        settle()
        agree_with_judge(f"{name} at random", None)


# ---- Told


def lessons():
    """The lesson's numbers for a rectangle, and for the square whose blocks have two lengths."""
    push("tab-learn")
    unfold("lesson")
    for name, line in (("8x32", "Rectangle"), ("144", digits(3000)), ("26x48", "A message in 26 rows")):
        write(line, size=name)
        push("tab-learn")
        size = table()[name]
        while usable("step-back"):
            push("step-back")
        push("step-on", "step-on")
        counts = [int(it) for it in re.findall(r"(\d+) data codewords?", text_of("step"))]
        dealt = [len(range(b, size["data"], size["blocks"])) for b in range(size["blocks"])]
        expect(f"{name}: data codewords of the blocks", counts, dealt)
        push("step-on")
        sums = texts_of("#step .sums")
        expect(f"{name}: sums", sums, [" ".join(["0"] * (size["check"] // size["blocks"]))] * size["blocks"])
        push("step-on")
        box = run("return document.getElementById('path').getAttribute('viewBox')")
        expect(f"{name}: the path", box, f"-2 -2 {size['columns'] + 4} {size['rows'] + 4}")
        push("step-on")
        regions = size["down"] * size["across"]
        expect(f"{name}: regions", f"This size has {regions} regions" in text_of("step"), regions > 1)


PARTS = [each_is_made, sizes, sizes_by_shape, marks_of_every_size, in_all_ways, at_an_angle, rectangles_are_linked,
         doubted, damaged_at_random, lessons]
