"""Damage: by clicks, drags, a finger, keys and buttons, and at random."""
import random
import re

from tests.page.judge import how_in, in_lines, judged
from tests.page.stage import (LOOKED, QUIET, By, Keys, acting, after_each, agree, as_program, attribute, box, cells,
                              changed, click, coloured, drag, drawn, expect, find, focused, grid, is_seen, learn,
                              metrics, offset, on, pointed, push, put, run, send, settle, shown, soon, task, text_of,
                              texts_of, to_top, told, usable, usual_metrics, value_at, wait_for, write, written)


def small_symbol():
    find("message").send_keys(Keys.CONTROL, "a", Keys.NULL, "123456")
    settle()
    clean = written("123456")
    expect("123456 by its pixels", drawn(10), clean)
    expect("123456 in the page", grid(), clean)
    expect("facts", texts_of("#facts dd, #facts dt"),
           ["modules", "10 × 10", "data codewords", "3", "check codewords", "5", "wrong codewords can be corrected",
            "2", "symbology identifier", "]d1"])
    expect("clean", [shown()[it] for it in ("state", "says", "why")], ["Read", "123456", ""])
    click(11)  # bit 1 of codeword 2
    agree("one module")
    expect("one module said", shown()["why"],
           "1 wrong codeword was corrected. Damage within the limits never changes the message.")
    expect("one module by its pixels", drawn(10), grid())
    expect("the module that was clicked", changed(clean, grid()), [11])
    expect("its cross", run("return document.querySelectorAll('#symbol .turned').length"), 1)
    click(16)  # codeword 4
    agree("two codewords")
    expect("two codewords said", (shown()["why"].split(".")[0], shown()["meters"]),
           ("2 wrong codewords were corrected", ["2 wrong, 2", "0 wrong, 2"]))
    click(24)  # codeword 5
    agree("three codewords")
    expect("three codewords said", (shown()["state"], shown()["why"], shown()["meters"][0]),
           ("Refused",
            "More than 2 codewords are wrong. The 5 check codewords correct no more than that, and nothing is guessed.",
            "more than 2 wrong, 2"))
    expect("beyond correction by its pixels", drawn(10), grid())
    click(24)
    agree("two codewords again")
    for left in ([11, 16, 24], [11, 16], [11], []):
        push("undo")
        expect(f"undone to {left}", changed(clean, grid()), left)
        agree(f"undone to {left}")
    expect("nothing left to undo", usable("undo"), False)


def border():
    write("123456")
    click(0, 2, 4)
    agree("border")
    expect("border coloured", coloured(), ["#ffdf9e", "turned"])
    click(1)
    expect("border coloured, dark and light", coloured(), ["#ffdf9e", "#a65f00", "turned"])
    push("undo")
    expect("border said", shown()["why"], "3 modules of the border have the wrong colour, and 2 may. The message may "
           "still be readable: accept more under “Details”.")
    put("border-limit", "3")
    expect("border borne", [shown()[it] for it in ("state", "says", "why")], ["Read", "123456",
           "3 modules of the border have the wrong colour. Damage within the limits never changes the message."])
    expect("the meter of what is borne", shown()["meters"], ["0 wrong, 2", "3 wrong, 3"])
    push("usual")
    agree("border as usual")
    push("undo-all")
    expect("all undone", grid(), written("123456"))
    agree("all undone")
    put("border-limit", "10")
    write("0" * 60)
    expect("another size has its own limit", shown()["meters"][-1], "0 wrong, 5")
    write("A" * 280)  # side 64, of 16 regions
    clean, cells_of_borders = grid(), (1, 31, 64 * 33 - 1, 64 * 33 + 16, 64 * 63)
    for cell in cells_of_borders:
        click(cell, side=64)
    agree("border between regions")
    expect("its count", (changed(clean, grid()), shown()["meters"][-1]), (list(cells_of_borders), "5 wrong, 16"))


def fixed_square():
    """In some sizes four modules at the lower right hold no codeword and aren't looked at."""
    write("0" * 10)  # side 12
    clean = grid()
    for cell in (12 * 10 + 10, 12 * 9 + 9, 12 * 9 + 10, 12 * 10 + 9):
        click(cell, side=12)
    agree("fixed square")
    expect("fixed square isn't looked at", (len(changed(clean, grid())), shown()["why"]),
           (4, "Nothing had to be corrected."))
    expect("fixed square isn't coloured", coloured(), ["turned"])
    acting().move_to_element_with_offset(find("symbol"), *offset(12 * 9 + 10, 12)).perform()
    expect("fixed square told", "fixed square in the corner" in text_of("about"), True)


def turned_to_another():
    """Makes 123456, with four of the six codewords in which 923456 differs taken from that."""
    write("923456")
    other, values = grid(), [held for held, _, _ in cells()]
    write("123456")
    differing = [w for w, (cell, value) in enumerate(zip(cells(), values)) if cell[0] != value][:4]
    places = [(x, y) for w, (_, bits) in enumerate(pointed()) if w in differing for _, x, y in bits]
    click(*[10 * y + x for x, y in places if grid().split("\n")[y][x] != other.split("\n")[y][x]])


def another_message():
    """Four of the six codewords in which two symbols differ, taken from the second: it is read, which is said."""
    turned_to_another()
    agree("another message")
    expect("another message said", (shown()["state"], shown()["says"], shown()["why"].split(",")[0]),
           ("Read as another message", "923456", "The damage is beyond the limit"))
    push("undo-all")
    expect("another message undone", (shown()["state"], shown()["says"]), ("Read", "123456"))


def dragged():
    write("123456")
    learn()
    drag(33, 66, 44)
    expect("a drag leaves none out, and turns each once", changed(written("123456"), grid()), [33, 44, 55, 66])
    agree("drag")
    push("undo")
    expect("a drag is one step", grid(), written("123456"))


def touched():
    """A tap turns one module over. A swipe over the symbol scrolls the page, and a pinch zooms, and both turn none
    over. On a busy machine a finger may seem to rest, which is no tap and no swipe: then it is tried again."""
    write("123456")
    learn()
    metrics(390, 844, mobile=True)
    on.page.execute_cdp_cmd("Emulation.setTouchEmulationEnabled", {"enabled": True, "maxTouchPoints": 2})
    run("document.getElementById('symbol').scrollIntoView({ block: 'center' })")

    def at(cell):
        place = box("symbol")
        return {"x": place["left"] + (cell % 10 + QUIET + 0.5) * place["width"] / 14,
                "y": place["top"] + (cell // 10 + QUIET + 0.5) * place["width"] / 14}
    turned_over = lambda: changed(written("123456"), grid())

    def finger(kind, *points):
        on.page.execute_cdp_cmd("Input.dispatchTouchEvent", {"type": kind, "touchPoints": list(points)})

    def touch(*cells):
        first, *others = map(at, cells)
        finger("touchStart", first)
        for place in others:
            finger("touchMove", place)
        finger("touchEnd")

    def pinch():
        middle = at(44)
        fingers = lambda apart: [{**middle, "x": middle["x"] + side * apart, "id": side} for side in (-1, 1)]
        finger("touchStart", *fingers(20))
        for apart in range(28, 100, 8):
            finger("touchMove", *fingers(apart))
        finger("touchEnd")
    tried_until(lambda: touch(33), turned_over)
    settle()
    expect("a tap", turned_over(), [33])
    agree("tap")
    push("undo-all")
    before = run("return scrollY")
    tried_until(lambda: touch(83, 73, 63, 53, 43, 33, 23, 13), lambda: run("return scrollY") > before + 20)
    settle()
    expect("a swipe scrolls and turns nothing over", (turned_over(), run("return scrollY") > before + 20), ([], True))
    zoomed = lambda: run("return visualViewport.scale") > 1.5
    to_top()
    tried_until(pinch, zoomed)
    settle()
    expect("a pinch zooms and turns nothing over", (zoomed(), turned_over()), (True, []))
    on.page.execute_cdp_cmd("Emulation.setPageScaleFactor", {"pageScaleFactor": 1})
    push("tab-make")
    tried_until(lambda: touch(33), turned_over, seconds=1)
    expect("elsewhere a tap does nothing", turned_over(), [])
    on.page.execute_cdp_cmd("Emulation.setTouchEmulationEnabled", {"enabled": False})
    usual_metrics()
    to_top()


def tried_until(act, what, seconds=10):
    """Does it until something is so, up to three times."""
    for _ in range(3):
        act()
        if wait_for(what, seconds=seconds):
            break


def by_keys():
    write("123456")
    learn()
    find("tab-learn").send_keys(Keys.TAB)
    for _ in range(12):
        if focused() == "symbol":
            break
        on.page.switch_to.active_element.send_keys(Keys.TAB)
    expect("symbol by Tab", focused(), "symbol")
    send(Keys.HOME, Keys.PAGE_UP, Keys.ARROW_DOWN, Keys.ARROW_RIGHT, Keys.SPACE)
    expect("a key turns over", changed(written("123456"), grid()), [11])
    soon("what is spoken", lambda: text_of("spoken"), "Row 2, column 2: light, codeword 2, bit 1, wrong")
    soon("codeword at the cursor", lambda: text_of("about"),
         "Codeword 2 of 8: data. It is 36, 00100100, and is corrected to 164, 10100100. It stands for the digits 34.")
    send(Keys.HOME, Keys.ARROW_LEFT, Keys.ENTER)
    expect("the cursor goes round to the right", changed(written("123456"), grid()), [11, 19])
    send(Keys.PAGE_UP, Keys.ARROW_UP, Keys.ENTER)
    expect("the cursor goes round to the bottom", changed(written("123456"), grid()), [11, 19, 99])
    send(Keys.CONTROL, "z", "z", Keys.NULL)
    expect("undone by keys", changed(written("123456"), grid()), [11])
    send(Keys.ESCAPE)
    expect("left by Escape", focused() == "symbol", False)
    find("words").send_keys(Keys.HOME, Keys.ARROW_RIGHT, Keys.ARROW_RIGHT)
    expect("codewords by keys", (text_of("about"), attribute("words", "aria-activedescendant")),
           ("Codeword 3 of 8: data. It is 186, 10111010. It stands for the digits 56.", "word-2"))
    for key, tab in ((Keys.ARROW_LEFT, "make"), (Keys.ARROW_LEFT, "read"), (Keys.ARROW_LEFT, "learn"),
                     (Keys.ARROW_RIGHT, "read")):
        run("document.getElementById(arguments[0]).focus()", f"tab-{task()}")
        send(key)
        panes = [is_seen(f"pane-{each}") for each in ("read", "make", "learn")]
        expect(f"{tab} by keys", (task(), panes), (tab, [tab == each for each in ("read", "make", "learn")]))


def codewords():
    """Values, bits and where they stand, in a small symbol and one of two blocks; what is corrected to what."""
    write("123456")
    learn()
    expect("codewords", [held for held, _, _ in cells()], [142, 164, 186, 114, 25, 5, 88, 102])
    acting().move_to_element_with_offset(find("symbol"), *offset(11, 10)).perform()
    expect("a module pointed at", (text_of("about"), len(on.page.find_elements(By.CSS_SELECTOR, "#symbol .bits text"))),
           ("Codeword 2 of 8: data. It is 164, 10100100. It stands for the digits 34.", 8))
    for side, message in ((10, "123456"), (26, "A" * 40), (52, "".join(chr(48 + k % 43) for k in range(200)))):
        write(message)
        clean, values = grid(), [held for held, _, _ in cells()]
        expected = ([ord(c) + 1 for c in message] if not message.isdigit()
                    else [130 + int(message[k : k + 2]) for k in range(0, len(message), 2)])
        if side != 52:
            expect(f"side {side}: data codewords", values[: len(expected)], expected)
        expect(f"side {side}: bits make values", [value_at(bits, clean) for _, bits in pointed()], values)
        push("to-limit")
        about = [re.match(r"Codeword (\d+) of (\d+): (data|check)(?:, block (\d))?. It is (\d+), ([01]{8})"
                          r"(?:, and is corrected to (\d+), ([01]{8}))?\.", text).groups() for text, _ in pointed()]
        expect(f"side {side}: corrected to", [int(it[6] or it[4]) for it in about], values)
        expect(f"side {side}: in bits", [(int(it[5], 2), int(it[7] or it[5], 2)) for it in about],
               [(int(it[4]), int(it[6] or it[4])) for it in about])
        expect(f"side {side}: as held", [int(it[4]) for it in about], [value_at(bits, grid()) for _, bits in pointed()])
        expect(f"side {side}: coloured", [("corrected" in kind, held) for held, _, kind in cells()],
               [(it[6] is not None, int(it[4])) for it in about])
        if side != 52:  # the cells of so many codewords have no room for it
            expect(f"side {side}: corrected to, in the cells", [mended for _, mended, _ in cells()], values)
        expect(f"side {side}: blocks", [it[3] for it in about],
               [str(1 + w % 2) if side == 52 else None for w in range(len(about))])
    push("one-more")
    beyond = [w % 2 for w, (_, _, kind) in enumerate(cells()) if "beyond" in kind]
    agree("side 52, past the limit")
    expect("side 52: the block that is beyond", (len(beyond), len(set(beyond))),
           (144, 1) if shown()["state"] == "Refused" else (0, 0))


def blocks():
    """A module of one codeword is turned over: the block that the meters name is the one that the program names."""
    write("".join(chr(65 + k % 26) for k in range(800)))
    words = [0, 1, 4, 5, 6, 815, 816, 821, 1151]
    for w, (_, bits) in zip(words, pointed(words)):
        _, x, y = bits[w % 8]
        click(104 * y + x, side=104)
        agree(f"codeword {w + 1} of six blocks")
        expect(f"block of codeword {w + 1}",
               [b for b, line in enumerate(shown()["meters"][:-1]) if line.startswith("1 ")], [w % 6])
        push("undo")


def spoilt_at_random(chance, k, symbol):
    """The grid of a symbol of which modules are turned over: as many as can be corrected, more, or none."""
    modules = list(symbol["text"])
    for _ in range(int(chance.random() * symbol["rows"] * (0.9 if k % 20 else 1.5))):
        at = chance.randrange(len(modules))
        modules[at] = "10"[int(modules[at])]
    return in_lines({**symbol, "text": "".join(modules)})


def much_damage():
    """Grids that are turned over at random and pasted, as they are shown and as the program answers."""
    chance, contents = random.Random(1), []
    for k in range(650):
        most, length = chance.choice((128, 256)), chance.randint(*((1, 60) if k % 20 else (200, 700)))
        items = [256 if chance.random() < 0.02 else chance.randrange(most) for _ in range(length)]
        contents.append({"items": items, "marks": [], "head": None})
    symbols = judged([{"content": it, "how": how_in("square", k % 2)} for k, it in enumerate(contents)])
    grids = [spoilt_at_random(chance, k, it) for k, it in enumerate(symbols) if it.get("rows", 144) <= 104][:600]
    push("tab-read")
    seen, answers = after_each("grid", grids, LOOKED), told(grids)
    odd = [(text, ours, theirs) for text, (shown_there, *_), theirs in zip(grids, seen, answers)
           if (ours := as_program(shown_there)) != theirs]
    expect(f"{len(grids)} damaged grids", (odd[:1], len(grids)), ([], 600))
    expect("what their codewords stand for", [stands for _, stands, _ in seen if stands is not None],
           [read for read, _ in answers if not read.startswith("refused")])
    reads = sum(not read.startswith("refused") for read, _ in answers)
    expect("some are read and some refused", 100 < reads < 500, True)
