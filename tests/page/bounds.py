"""What is too much is said and not let in; what takes too long isn't drawn; what is dropped is taken, or said so."""
import base64

from tests.page.pictures import chunks, opened, png
from tests.page.stage import (Keys, area_of, attribute, expect, find, give, grid, head, is_seen, on, processor_time,
                              push, put, run, settle, shown, soon, take_time, text_of, unfold, value_of, wait_for,
                              write, written)

SOON, MOST_TIME = 6, 2500  # seconds of a processor that the page may take, and milliseconds for a drawing
MANY_LINES = "#\n" * 130000


def seconds_of(act):
    begun = processor_time()
    act()
    settle()
    run("return document.body.getBoundingClientRect().height")
    return (processor_time() - begun) / 1000


def much_is_refused():
    """130,000 lines, pasted by keys or put there otherwise, are said and not laid out."""
    write("123456")
    put(area_of("a"), "123456")
    unfold("sheet", "comparison", "as-text")
    copy = "navigator.clipboard.writeText(arguments[0]).then(() => arguments[1](''), arguments[1])"
    expect("copied", on.page.execute_async_script(copy, MANY_LINES), "")
    for name, tab, area, said in (("slot-a", "tab-read", area_of("a"), lambda: text_of("slot-a")),
                                  ("messages", "tab-make", find("messages"), lambda: text_of("sheet-hint")),
                                  ("message", "tab-make", find("message"), lambda: text_of("message-hint"))):
        push(tab)
        before = area.get_attribute("value")
        taken = seconds_of(lambda: area.send_keys(Keys.CONTROL, "v", Keys.NULL))
        lines = f"{MANY_LINES.count(chr(10)) + 1:,} lines, and no more than 10,000"
        much = lines if name == "messages" else f"{260000 + len(before):,} characters, and no more than 25,000"
        wanted = f"Nothing was taken: {much} are taken."
        expect(f"130,000 lines pasted in {name}", (area.get_attribute("value"), wanted in said(), taken < SOON),
               (before, True, True))
    push("tab-read", "example-c40")
    before = value_of("grid")
    taken = seconds_of(lambda: find("grid").send_keys(Keys.CONTROL, "a", Keys.NULL, Keys.CONTROL, "v", Keys.NULL))
    expect("130,000 lines pasted in the grid",
           (value_of("grid"), "Nothing was taken: 260,000 characters" in text_of("grid-hint"), taken < SOON),
           (before, True, True))
    for name, area in (("a slot", area_of("b")), ("the grid", find("grid"))):
        taken = seconds_of(lambda: put(area, MANY_LINES))
        expect(f"130,000 lines put in {name}", (area.get_attribute("value"), taken < SOON), ("", True))
    expect("the grid has no verdict, and is marked", ([shown()[it] for it in ("state", "says")],
                                                      attribute("grid", "aria-invalid")),
           (["Nothing is read", ""], "true"))
    push("example-c40")
    expect("a grid again", shown()["state"], "Read")
    expect("the slot says so", (head(), "260,000 characters" in text_of("slot-b")),
           (["No answer", "Symbol B can’t be taken."], True))
    taken = seconds_of(lambda: drop("#slot-a", text="\n" * 1500))
    expect("1,501 lines dropped on a slot",
           ("1,501 lines, and no more than 1,000 are taken." in text_of("slot-a"), taken < SOON), (True, True))


# ---- Drawings


NAMESPACES = 'xmlns="http://www.w3.org/2000/svg" xmlns:xlink="http://www.w3.org/1999/xlink"'


def svg_of(text, inner=None, size=None, more=""):
    """A drawing of a grid, a rectangle for each dark module; or of what is given."""
    rows = text.split("\n")
    all_of = len(rows) + 4
    inner = inner or "".join(f'<rect x="{c}" y="{r}" width="1" height="1"/>' for r, row in enumerate(rows) for c,
                             module in enumerate(row) if module == "1")
    size = f'width="{all_of * 8}" height="{all_of * 8}"' if size is None else size
    return (f'<svg {NAMESPACES} viewBox="-2 -2 {all_of} {all_of}" {size} shape-rendering="crispEdges">{more}'
            f'<path fill="#fff" d="M-2-2h{all_of}v{all_of}h-{all_of}z"/>{inner}</svg>').encode()


def nested(depth, kind="use"):
    """Drawings within drawings: each holds the one before it ten times."""
    uses = {"use": '<use href="#d{k}"/>', "xlink": '<use xlink:href="#d{k}"/>',
            "pattern": '<rect width="9" height="9" fill="url(#d{k})"/>'}[kind] * 10
    around = ("pattern", ' width="1" height="1"') if kind == "pattern" else ("g", "")
    layers = "".join(f'<{around[0]} id="d{k + 1}"{around[1]}>{uses.format(k=k)}</{around[0]}>' for k in range(depth))
    return f'<defs><rect id="d0" width="1" height="1"/>{layers}</defs>' + (
        f'<rect width="9" height="9" fill="url(#d{depth})"/>' if kind == "pattern" else f'<use href="#d{depth}"/>'
    )


# Of two elements with one name the first, which has much to draw, is used.
FIRST_OF_A_NAME = nested(4) + '<use href="#d4"/>' * 20 + '<g id="d4"/>'
USE_OF_TEXT = '<use href="#t"/>'


def drawings():
    """Drawings whose elements are many, as often as they are used, are refused by that; others are read."""
    push("tab-read")
    small, large = written("123456"), written("0" * 1632)
    dots = "".join(f'<use href="#m" x="{c}" y="{r}"/>' for r, row in enumerate(large.split("\n")) for c,
                   module in enumerate(row) if module == "1")
    paths = {"rectangles": (svg_of(small), small), "the largest": (svg_of(large), large),
             "used modules": (svg_of(large, f'<defs><rect id="m" width="1" height="1"/></defs>{dots}'), large),
             "huge": (svg_of(small, size='width="90000" height="90000"'), small),
             "tiny": (svg_of(small, size='width="14" height="14"'), small),
             "without a size": (svg_of(small, size=" "), small),
             "nested thrice": (svg_of(small, more=f'<g visibility="hidden">{nested(3)}</g>'), small)}
    for name, (body, text) in paths.items():
        taken, side = seconds_of(lambda: opened("drawing.svg", body)), text.index("\n")
        expect(f"a drawing of {name}",
               (text_of("picture-hint").startswith(f"drawing.svg: {side} × {side}."), grid(), taken < 3 * SOON),
               (True, text, True))
        expect("how large it is drawn", run("return document.getElementById('outlines').dataset.width <= 2800"), True)
    many = "The drawing has more than 60,000 elements, as often as they are used."
    chain = ("<defs>" + "".join(f'<g id="d{k}"><use href="#d{k + 1}"/></g>' for k in range(9000))
             + '</defs><use href="#d0"/>')
    for name, inner, why in (
        ("100,000 uses", nested(5), many), ("many uses of the first of a name", FIRST_OF_A_NAME, many),
        ("nested uses", nested(9), many), ("nested uses by xlink", nested(40, "xlink"), many),
        ("nested patterns", nested(9, "pattern"), many), ("itself", '<g id="a"><use href="#a"/></g>', many),
        ("a chain", chain, many), ("layers", '<g opacity=".5"><path d="M0 0h1v1z"/></g>' * 400, many),
        ("texts", f'<defs><text id="t">{"word " * 1000}</text></defs>{USE_OF_TEXT * 20}', many),
        ("a filter", "<filter id='f'/>",
         "The drawing has an element ‘filter’, which isn’t drawn here. Save it as PNG, and open that."),
        ("a picture", '<image href="data:image/svg+xml,%3Csvg/%3E"/>',
         "The drawing has an element ‘image’, which isn’t drawn here. Save it as PNG, and open that."),
        ("styles", "<style>path { filter: blur(9px) }</style>",
         "The drawing has styles that aren’t drawn here. Save it as PNG, and open that."),
        ("no end", "<g>", "The file can’t be opened as a picture."),
    ):
        taken = seconds_of(lambda: opened("drawing.svg", svg_of(small, inner)))
        expect(f"a drawing of {name}", (text_of("picture-hint"), shown()["state"], taken < SOON),
               (f"drawing.svg: {why}", "Nothing is read", True))
    take_time(MOST_TIME)
    taken = seconds_of(lambda: opened("drawing.svg", svg_of(small, '<circle r="99"/>' * 20000)))
    take_time()
    told = text_of("picture-hint").removeprefix("drawing.svg: ")
    # (a machine that draws them in time sees nothing but the last one)
    whys = ("The drawing takes too long to draw. Save it as PNG, and open that.", "The picture has only one colour.")
    expect("a drawing of large shapes", (told if told not in whys else "", shown()["state"], taken < 2 * SOON),
           ("", "Nothing is read", True))
    # (as UTF-8 two names in Shift_JIS are the same one, of which the second has little to draw)
    declared, body = b'<?xml version="1.0" encoding="Shift_JIS"?>', svg_of(small, FIRST_OF_A_NAME)
    hidden = declared + body.replace(b'<g id="d4"/>', b'<g id="\x84\x41"/>').replace(b"d4", b"\x83\x41")
    expect("names in another encoding", opened("drawing.svg", hidden), f"drawing.svg: {many}")
    expect("entities", opened("drawing.svg", b'<!DOCTYPE svg [<!ENTITY a "a">]>' + svg_of(small)),
           "drawing.svg: The drawing declares entities, which aren’t read here.")
    expect("many bytes", opened("drawing.svg", svg_of(small) + b" " * 4000000),
           "drawing.svg: The drawing has more than 4 million bytes.")
    give("picture-A", "drawing.svg", svg_of(small, nested(9)))
    soon("a slot says so too", lambda: many in text_of("slot-a"), True)


# ---- What is dropped


def drop(where, files=(), text=None):
    """Drops files, each with a name, a kind and a body, or a text."""
    run("""const [where, files, text] = arguments, data = new DataTransfer();
           const bytes = (body) => Uint8Array.from(atob(body), (c) => c.charCodeAt(0));
           for (const [name, type, body] of files) data.items.add(new File([bytes(body)], name, { type }));
           if (text !== null) data.setData('text/plain', text);
           const how = { dataTransfer: data, bubbles: true, cancelable: true };
           document.querySelector(where).dispatchEvent(new DragEvent('drop', how))""",
        where, [(name, kind, base64.b64encode(body).decode()) for name, kind, body in files], text)


def many_files():
    """Of many pictures in a slot one is read, and it is said that the others aren't; files of text are read as what
    they hold; others are named."""
    write("123456")
    picture = png(written("the first").split("\n"), 3, 2)
    some = [("notes.txt", "text/plain", b"notes")] + [(f"mark{k}.png", "image/png", picture) for k in range(200)]
    drop("body", some[:21])
    soon("20 pictures", lambda: (text_of("picture-hint"), shown()["says"]),
         ("20 pictures are looked at. notes.txt isn’t looked at.", "the first"))
    settle()
    drop("#slot-a", some)
    note = "It is one of 200 pictures. notes.txt isn’t looked at."
    soon("the first of 200 pictures in a slot", lambda: (note in text_of("slot-a"), "the first" in text_of("slot-a")),
         (True, True))
    settle()
    drop("#slot-a", [("mark.txt", "text/plain", b"by a file\r\n")])
    drop("#slot-b", [("grid.txt", "", (written("by a file") + "\n").encode())])
    soon("files of text in the slots", head, ["Yes, they say the same.", "Both have this one normal grid:"])
    drop("#slot-a", [("mark.zip", "application/zip", b"PK")])
    soon("neither a picture nor a text",
         lambda: (head(), "mark.zip is neither a picture nor a text." in text_of("slot-a")),
         (["No answer", "Symbol A isn’t there."], True))
    drop("#slot-a", [("long.txt", "text/plain", b"1" * 110000)])
    soon("a long file of text",
         lambda: "long.txt has 110,000 bytes, which are too many for a message or a grid." in text_of("slot-a"), True)
    drop("body", [("grid.txt", "text/plain", written("a grid in a file").encode())])
    soon("a grid in a file", lambda: (is_seen("pane-read"), shown()["says"]), (True, "a grid in a file"))
    push("kind-typed")
    drop("body", [("western.txt", "text/plain", "Größe".encode("cp1252"))])
    soon("a message that isn't UTF-8", lambda: (shown()["says"], text_of("toast")),
         ("Größe", "western.txt: It isn’t UTF-8, and is read as Windows-1252."))
    drop("body", [("message.txt", "text/plain", b"a message in a file\n")])
    soon("a message in a file", lambda: (is_seen("pane-make"), shown()["says"]), (True, "a message in a file"))
    for name, why in (("mark.doc", "mark.doc is neither a picture nor a text."),
                      ("mark.zip", "mark.zip holds no labels of this page.")):
        drop("body", [(name, "application/octet-stream", b"PK")])
        soon(f"{name}, above", lambda: text_of("picture-hint"), why)


SLOW = """
    const { arrayBuffer } = Blob.prototype;
    globalThis.gates = [];
    Blob.prototype.arrayBuffer = async function () {
        await new Promise((open) => gates.push(open));
        return arrayBuffer.call(this);
    };
    globalThis.usual = () => { Blob.prototype.arrayBuffer = arrayBuffer; };"""


def dropped_on_the_sheet():
    """Text and files go where they are dropped; a file still being read doesn't displace what is entered."""
    write("123456")
    lines = lambda: value_of("messages")
    run("document.getElementById('messages').value = ''")
    drop("#messages", text="one\ntwo")
    expect("text dropped on the sheet's messages", lines(), "one\ntwo")
    drop("#messages", [("lines.txt", "text/plain", b"three\nfour\nfive\n")])
    soon("a file dropped there", lambda: (lines(), text_of("sheet-hint")),
         ("three\nfour\nfive", "The lines of lines.txt."))
    expect("the message stays", (shown()["says"], value_of("message")), ("123456", "123456"))
    drop("#messages", [("long.txt", "text/plain", b"1" * 9000000)])
    soon("a long file there", lambda: (lines(), text_of("sheet-hint")),
         ("three\nfour\nfive", "long.txt has 9,000,000 bytes, which are too many for a sheet."))
    (on.folder / "more.csv").write_text("six\nseven\n")
    find("lines").send_keys(str(on.folder / "more.csv"))
    soon("a file that is opened", lines, "six\nseven")
    run(SLOW)
    for where, field in (("body", "message"), ("#messages", "messages")):
        drop(where, [("slow.txt", "text/plain", b"slow")])
        wait_for(lambda: run("return gates.length"))
        put(field, "meanwhile")
        run("gates.pop()()")
        soon(f"a file that is read while the {field} is typed", lambda: (text_of("toast"), value_of(field)),
             ("slow.txt was given up, since something else was entered meanwhile.", "meanwhile"))
        run("document.getElementById('toast').textContent = ''")
    run("usual()")


# ---- Low contrast


def low_contrast():
    """A symbol whose greys differ little is read; what isn't is said by that, and only one colour is called so."""
    push("tab-read")
    rows = written("faint").split("\n")
    for light, dark in ((200, 180), (130, 124), (255, 251)):
        expect(f"greys {dark} and {light}", (opened("faint.png", png(rows, 6, 2, light, dark)), shown()["says"]),
               ("faint.png: 12 × 12. Read as it stands.", "faint"))
    expect("greys 200 and 201", opened("faint.png", png(rows, 6, 2, 201, 200)),
           "faint.png: All of the picture is about equally bright: its greys differ by 1 of 255.")
    expect("one colour", opened("one.png", png(rows, 6, 2, 200, 200)), "one.png: The picture has only one colour.")
    square = chunks(60, 60,
                    (b"\0" + bytes([200]) * 60) * 20
                    + (b"\0" + bytes([200]) * 20 + bytes([190]) * 20 + bytes([200]) * 20) * 20
                    + (b"\0" + bytes([200]) * 60) * 20)
    expect("a faint square", opened("square.png", square),
                 "square.png: No symbol that can be read was found in the picture. "
                 "Its contrast is low: its greys differ by 10 of 255.")


PARTS = [much_is_refused, drawings, many_files, dropped_on_the_sheet, low_contrast]
