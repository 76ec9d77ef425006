"""What stands in pictures: symbols as the sampler read them, all of them, in reading order, and what isn't read."""
import json
import random

from tests.page.conduct import linked
from tests.page.pictures import LIKEST, QR, laid, opened, png, scene
from tests.page.stage import (COLLECT, Keys, acting, click, expect, fill, find, give, grid, head, is_seen, metrics, on,
                              press, processor_time, push, put, reload, run, saved, settle, shown, soon, table_saved,
                              take_time, task, text_of, texts_of, unfold, usable, usual_metrics, value_of, wait_for,
                              written)

MOST_TIME, OPENING = 3000, 1500  # milliseconds for a picture, and for what is done before and after its search
LIMIT = 27  # of wrong border modules of a side of 22, if each block leaves a correction unused; usually it is 5


def spoilt_border(rows, wrong):
    """The rows of a symbol with so many wrong modules on its top row and right column."""
    cells, side = [list(row) for row in rows], len(rows)
    places = [(0, c) for c in range(side)] + [(r, side - 1) for r in range(1, side)]
    for r, c in random.Random(wrong).sample(places, wrong):
        cells[r][c] = "10"[int(cells[r][c])]
    return ["".join(row) for row in cells]


def torn(rows, count_of_rows):
    """The rows of a symbol of which the upper right corner is light."""
    side = len(rows)
    return [row[: side - max(0, count_of_rows - r)] + "0" * max(0, count_of_rows - r) for r, row in enumerate(rows)]


def marks():
    """The limit and the doubtful modules of what is read."""
    return run("const { limit, doubtful } = mitsubadoor.mark; return [limit, doubtful ? doubtful.join('') : null]")


def handed_on():
    """What is read in a picture is shown as the sampler read it: at its border limit, with its doubtful modules, and
    with what was corrected; and a link keeps that."""
    push("tab-read")
    message = "A border that is damaged"
    rows = written(message).split("\n")
    for wrong in (8, 12):
        # (with a speck beside it, so that the picture as a whole is no grid)
        speckled = [row + f"00000{int(not k)}" for k, row in enumerate(spoilt_border(rows, wrong))]
        said = opened("border.png", png(speckled, 6, 2, 220, 40))
        expect(f"{wrong} wrong border modules", (shown()["state"], shown()["says"], marks()),
               ("Read", message, [LIMIT, None]))
        expect("are told", (shown()["why"].startswith(f"{wrong} modules of the border have the wrong colour"), said),
               (True, "border.png: 22 × 22. Read as it stands."))
        expect("the limit that is shown", value_of("border-limit"), str(LIMIT))
    linked()
    reload()
    expect("after a reload", (shown()["state"], shown()["says"], marks()), ("Read", message, [LIMIT, None]))
    opened("whole.png", png(rows, 6, 2, 220, 40))
    expect("the limit of one that has none of its own", marks(), [None, None])
    message = "A corner that was torn off, with a good part of what stood there, in a larger symbol."
    rows = written(message).split("\n")
    opened("torn.png", png(torn(rows, 20), 6, 3, 220, 40))
    limit, doubtful = marks()
    expect("a torn corner", (shown()["state"], shown()["says"], "1" in (doubtful or "")), ("Read", message, True))
    expect("is told", "doubtful codewords were replaced" in shown()["why"], True)
    expect("which modules are doubtful", (len(doubtful), doubtful[len(rows) - 1]), (len(rows) ** 2, "1"))
    push("tab-learn")
    click(0, side=len(rows))
    expect("damage to it", usable("undo-all"), True)
    push("undo-all")
    expect("undoing everything leaves them", (marks(), usable("undo-all")), ([limit, doubtful], False))


# ---- All of them


def beyond(rows):
    """The rows of a symbol with a whole border, of which one half is inverted."""
    side = len(rows)
    return [row if r in (0, side - 1) or r > side // 2 else
            row[0] + row[1:-1].translate(str.maketrans("01", "10")) + row[-1] for r, row in enumerate(rows)]


LISTED = """
    return [...document.querySelectorAll("#found-are button")].map((it) =>
        [it.firstChild.textContent, it.lastChild.textContent, it.getAttribute("aria-pressed")]);"""
OUTLINED = """
    return [...document.querySelectorAll("#outlines polygon")].map((it) =>
        [it.getAttribute("class"), it.getAttribute("points").split(" ").map((at) => at.split(",").map(Number))]);"""


IN_SIGHT = """
    const list = document.getElementById('found-are').getBoundingClientRect();
    const { top, bottom } = document.querySelector('#found-are [aria-pressed=true]').getBoundingClientRect();
    return top >= list.top - 1 && bottom <= list.bottom + 1;"""


def all_symbols():
    """Every symbol of a picture is outlined on it and listed in reading order, also where the picture is turned; one of
    them is at hand; what isn't read is listed with its reason."""
    push("tab-read")
    messages = [*(f"symbol {k}" for k in range(1, 5)), "five, 5", 'six "6"']
    places = [(40 + 130 * (k % 3) + 9 * (k % 2), 30 + 120 * (k // 3) + 11 * (k % 2)) for k in range(6)]
    grids = [written(message).split("\n") for message in messages]
    for name, turn in (("upright", (1.0, 0.0)), ("turned", (0.9848, -0.1736))):
        opened(f"{name}.png", scene(430, 290, list(zip(grids, places)), turn))
        soon(f"{name}: what is said", lambda: text_of("picture-hint"), f"{name}.png: 6 symbols.")
        listed = run(LISTED)
        expect(f"{name}: what is listed", [says for says, _, _ in listed], messages)
        expect("how many", (text_of("found-title"), text_of("found-hint")), ("6 symbols are read", ""))
        expect("one is at hand", [says for says, _, is_chosen in listed if is_chosen == "true"], [shown()["says"]])
        far = [abs(one - other) for (_, points), (left, top), rows in zip(run(OUTLINED), places, grids) for corner,
               wanted in zip(points, corners_of(left, top, 4 * len(rows), turn)) for one, other in zip(corner, wanted)]
        expect(f"{name}: outlines", (len(far), [each for each in far if each > 2]), (48, []))
        view = run("const { width, height } = document.getElementById('view'); return [width, height]")
        expect("the picture", (is_seen("scene"), view), (True, [430, 290]))
        metrics(1200, 757)
        run("scrollTo(0, 0)")
        last = run("return document.getElementById('says').getBoundingClientRect().bottom")
        expect(f"the message on the first screen, {last}", last <= 757, True)
        usual_metrics()
    for k in (3, 0):
        press("#found-are button", k)
        expect(f"number {k + 1} is chosen", (shown()["says"], grid(), run(LISTED)[k][2]),
               (messages[k], written(messages[k]), "true"))
    run("document.querySelectorAll('#outlines polygon')[4].dispatchEvent(new MouseEvent('click', { bubbles: true }))")
    settle()
    expect("number 5, on the picture", (shown()["says"], len(run(LISTED))), (messages[4], 6))
    expect("is in sight in the list", run(IN_SIGHT), True)
    run("document.querySelectorAll('#found-are button')[2].focus({ preventScroll: true })")
    acting().send_keys(Keys.ENTER, Keys.TAB, Keys.ENTER).perform()
    settle()
    expect("by keys, one after the other", (shown()["says"], run(IN_SIGHT)), (messages[3], True))
    given_away(messages)
    put("grid", written("typed"))
    expect("what is typed takes the place of the picture", (shown()["says"], is_seen("scene"), is_seen("found")),
           ("typed", False, False))


def corners_of(left, top, length, turn):
    """The corners of a square in a picture of 430 by 290 pixels that is turned."""
    cosine, sine = turn
    for x, y in ((left, top), (left + length, top), (left + length, top + length), (left, top + length)):
        across, down = x - 215, y - 145
        yield across * cosine - down * sine + 215, down * cosine + across * sine + 145


def given_away(messages):
    """All messages are copied, and the list is saved."""
    run(COLLECT)
    push("found-copy")
    soon("what is copied", lambda: (run("return copied"), text_of("toast")),
         (["".join(f"{message}\n" for message in messages)], f"Copied: {len(messages)} messages"))
    table = saved("found.csv", "found-csv").decode()
    expect("the CSV's mark, and ends of lines", (table[0], table.count("\r\n"), table.count("\n")),
           ("\ufeff", len(messages) + 1, len(messages) + 1))
    rows = table_saved()
    expect("the CSV", (rows[0], [row[1] for row in rows[1:]]), (["number", "message", "modules", "not read"], messages))
    told = json.loads(saved("found.json", "found-json"))
    expect("the JSON", (told["complete"], [each["text"] for each in told["symbols"]],
                              {each["read"] for each in told["symbols"]}), (True, messages, {True}))
    expect("its items", [each["items"] for each in told["symbols"]], [list(each.encode()) for each in messages])


LABELLED = "#labels-are p"


def found_in_tables():
    """The list that is saved as CSV has no formulas, and gives the messages as they were."""
    push("tab-read")
    messages = ["=1+1", "-5 pieces", "'@x", "plain, and more"]
    places = [(30 + 110 * k, 40) for k in range(4)]
    opened("formulas.png", scene(470, 130, [(written(it).split("\n"), place) for it, place in zip(messages, places)]))
    soon("what is listed", lambda: len(run(LISTED)), 4)
    expect("cells", [row[1] for row in table_saved()][1:], ["'=1+1", "'-5 pieces", "''@x", "plain, and more"])
    push("tab-make")
    unfold("sheet")
    give("lines", "found.csv")
    soon("its messages", lambda: [it.split(": ", 1)[1] for it in texts_of(LABELLED)], messages[:3])


def compared_in_pictures():
    """Of several symbols in a picture it is asked which one is compared; and a difference of FNC1 is said."""
    push("tab-read")
    unfold("comparison")
    messages = [f"label {k}" for k in range(6)]
    places = [(30 + 90 * (k % 3), 40 + 90 * (k // 3)) for k in range(6)]
    picture = on.folder / "six.png"
    picture.write_bytes(scene(320, 200, [(written(it).split("\n"), place) for it, place in zip(messages, places)]))
    fill("b", messages[4])
    find("picture-A").send_keys(str(picture))
    soon("six symbols", head, ["No answer", "Symbol A isn’t chosen yet: there are 6 in its picture."])
    asked = lambda: texts_of("#reads-A button")
    expect("which one is asked", asked(), messages)
    for k, answer in ((4, "Yes, they say the same."), (0, "No, they say different things.")):
        find("picture-A").send_keys(str(picture))
        wait_for(asked)
        press("#reads-A button", k)
        soon(f"number {k + 1} is chosen", lambda: (head()[0], f": {messages[k]}" in text_of("reads-A")), (answer, True))
    likeness = lambda: (head()[0], head()[1].removeprefix("Their normal grids differ").rstrip(":"))
    differ, is_gs1 = "No, they say different things.", "and so is GS1 data"
    for one, other, words in (
        ("(01)09521234543213(10)ABC", written("(01)09521234543213(10)ABC"),
         f", though they look alike: symbol A begins with FNC1, {is_gs1}; symbol B is plain text"),
        (written("010952123454321310ABC"), "(01)09521234543213(10)ABC",
         f", though only FNC1 is the difference: symbol B begins with FNC1, {is_gs1}; symbol A is plain text"),
        ("(10)A", "(10)B", ""),
    ):
        fill("a", one)
        fill("b", other)
        soon(f"{one[:30]} and {other[:30]}", likeness, (differ, words))


def list_opened_again():
    """A list that was saved as JSON gives the same list again: what was read, as it was read, and what wasn't."""
    push("tab-read")
    grids = [written("whole").split("\n"), spoilt_border(written("A border that is damaged").split("\n"), 8),
             beyond(written("damaged beyond what can be corrected").split("\n"))]
    opened("three.png", scene(380, 190, list(zip(grids, ((30, 40), (130, 40), (250, 40))))))
    soon("what is listed", lambda: len(run(LISTED)), 3)
    before, told = run(LISTED), saved("found.json", "found-json")
    saved("found.csv", "found-csv")
    expect("the grids in it", [each["modules"] for each in json.loads(told)["symbols"]], grids)
    put("grid", written("meanwhile"))
    push("tab-make")
    give("saved", "again.json", told)
    soon("the list again", lambda: text_of("picture-hint"), "The list of again.json.")
    settle()
    expect("what is listed again", [row[:2] for row in run(LISTED)], [row[:2] for row in before])
    expect("the first is at hand", (shown()["says"], is_seen("scene")), ("whole", False))
    press("#found-are button", 1)
    expect("one at its own limit", (shown()["says"], marks()), ("A border that is damaged", [LIMIT, None]))
    give("saved", "odd.json", told.replace(b'"1', b'"none', 1))
    soon("a list with what is no grid", task, "make")
    push("tab-read")
    give("saved", "found.csv")
    soon("a list in CSV", lambda: (task(), text_of("sheet-hint")), ("make", "The lines of found.csv."))
    soon("what it gives, without questions", lambda: (is_seen("columns"), texts_of(LABELLED)),
         (False, [f"{k}: {says}" for k, says in enumerate(("whole", "A border that is damaged"), 1)]))


def unread():
    """Of two symbols one is damaged beyond correction: it is outlined and listed with the reason, and can be shown."""
    push("tab-read")
    rows, spoilt = written("whole").split("\n"), beyond(written("damaged beyond what can be corrected").split("\n"))
    opened("one.png", scene(330, 190, [(rows, (30, 40)), (spoilt, (150, 40))]))
    soon("what is said of both", lambda: text_of("found-hint"), "1 is seen and not read.")
    listed = run(LISTED)
    why = "More than 12 codewords are wrong. The 24 check codewords correct no more than that, and nothing is guessed."
    expect("what is listed", [says for says, _, _ in listed], ["whole", f"Not read. {why}"])
    expect("what is outlined", [name for name, _ in run(OUTLINED)], ["chosen", "unread"])
    press("#found-are button", 1)
    expect("the one that isn't read", (shown()["state"], grid()), ("Refused", "\n".join(spoilt)))
    opened("alone.png", scene(230, 190, [(spoilt, (50, 40))], (0.9848, 0.1736)))
    none = f"No symbol that can be read was found in the picture.{LIKEST}"
    expect("alone", (text_of("picture-hint"), shown()["state"], [name for name, _ in run(OUTLINED)][:1],
                           [says for says, _, _ in run(LISTED)], usable("found-copy")),
                 (f"alone.png: {none}", "Nothing is read", ["unread"], [f"Not read. {why}"], False))


def beside_other_codes():
    """Beside a QR code a symbol is read, and the code is called one; no part of it is listed as a symbol."""
    push("tab-read")
    code, rows = [f"{int(row, 16):024b}"[:21] for row in QR.split()], written("beside it").split("\n")
    told = "There is a QR code too, which isn’t a Data Matrix symbol."
    for name, turn in (("upright", (1.0, 0.0)), ("turned", (0.9848, 0.1736))):
        opened(f"{name}.png", scene(330, 190, [(rows, (40, 40)), (code, (170, 40))], turn))
        soon(f"{name}: what is said", lambda: text_of("found-hint"), told)
        expect(f"{name}: what is listed", [says for says, _, _ in run(LISTED)], ["beside it"])
    opened("alone.png", scene(330, 190, [(rows, (40, 40))]))
    expect("without one", is_seen("found"), False)


def large():
    """In a picture of more pixels than are looked at, outlines stand around its symbols; after it another worker
    begins, so that its memory is given back. A worker waits for each picture."""
    push("tab-read")
    expect("a worker for the first picture", run("return Boolean(mitsubadoor.desks.pictures.worker)"), True)
    run("globalThis.former = mitsubadoor.desks.pictures.worker")
    # a third colour, so that it is no grid
    lines = [bytes([225] * k + [130] + [225] * (4399 - k)) for k in range(7)]
    rows = written("in a large picture").split("\n")
    opened("large.png", laid([lines[y % 7] for y in range(3900)], rows, 40, 1200, 900))
    expect("a large picture", (shown()["state"], shown()["says"]), ("Read", "in a large picture"))
    ((_, (corner, *_)),) = run(OUTLINED)
    expect("its outline", [at for at, wanted in zip(corner, (1200, 900)) if abs(at - wanted) > 3], [])
    another = "const { worker } = mitsubadoor.desks.pictures; return worker !== null && worker !== globalThis.former"
    soon("another worker waits", lambda: run(another), True)
    opened("next.png", png(written("the next one").split("\n"), 5, 2))
    expect("the next picture", (shown()["state"], shown()["says"]), ("Read", "the next one"))


LONGER = """
    globalThis.asked = [];
    const desk = mitsubadoor.desks.pictures, ask = desk.ask.bind(desk);
    desk.ask = (kind, given, ...more) => {
        asked.push(given?.time ?? null);
        return ask(kind, given ? { ...given, time: Infinity } : given, ...more);
    };"""


def in_time():
    """What a picture may take is kept, for its first symbol and all others together; if that was too little, it is said
    that there may be more, and more time can be taken, for all symbols at once."""
    push("tab-read")
    rows = [f"00{row}00" for row in written("in noise").split("\n")]
    margin, side, scale = ["0" * len(rows[0])] * 2, 2800, 12
    at = (side - scale * len(rows[0])) // 2
    body = laid([random.randbytes(side) for _ in range(side)], [*margin, *rows, *margin], scale, at, at, 235, 20)
    take_time(MOST_TIME)
    before = processor_time()
    opened("noise.png", body)
    took = processor_time() - before
    more = "There may be more: the time for a picture was over."
    expect("a symbol in noise", text_of("found-hint").endswith(more), True)
    expect(f"{took:.0f} ms, the opening included", took < MOST_TIME + OPENING, True)
    soon("more time is offered", lambda: is_seen("look-longer"), True)
    run(LONGER)
    push("look-longer")
    soon("it is taken", lambda: (run("return asked[0]"), shown()["says"]), (30000, "in noise"))
    run("delete mitsubadoor.desks.pictures.ask")
    put("grid", "")
    expect("it isn't offered for a grid", is_seen("look-longer"), False)


PARTS = [handed_on, all_symbols, found_in_tables, compared_in_pictures, list_opened_again, unread,
         beside_other_codes, in_time, large]
