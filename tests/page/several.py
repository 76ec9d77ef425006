"""Several pictures at once, in order and in one list; pictures of many pixels; and what isn't read there, by name."""
import base64
import json

from tests.page.conduct import linked
from tests.page.photographs import camera_on
from tests.page.pictures import chunks, laid, opened, png, scene
from tests.page.sights import LISTED, OUTLINED, beyond
from tests.page.stage import (expect, find, give, on, press, push, run, saved, settle, shown, soon, table_saved,
                              text_of, texts_of, written)
from tests.page.bounds import drop

ALL = "#found-are li"
VIEW = "const it = document.getElementById('view'); return [it.width, it.height]"


def in_order():
    """Pictures that are opened at once are all looked at, in their order; each failure is named once, and what is at
    hand is shown on its own picture."""
    push("tab-read")
    first, second, third, other = (written(it).split("\n") for it in ("first", "second", "third", "not to be read"))
    files = [("two.png", scene(220, 110, [(first, (20, 30)), (second, (120, 30))])), ("none.png", scene(120, 110, [])),
             ("broken.png", b"\x89PNG\r\n\x1a\n"),
             ("one.png", scene(300, 140, [(third, (20, 30)), (beyond(other), (120, 20))]))]
    for name, body in files:
        (on.folder / name).write_bytes(body)
    find("picture").send_keys("\n".join(str(on.folder / name) for name, _ in files))
    soon("all are looked at", lambda: text_of("picture-hint"), "4 pictures are looked at.")
    settle()
    listed = texts_of(ALL)
    expect("how many", len(listed), 6)
    starts = ["first", "second", "none.png: The picture has only", "broken.png: The file is cut off", "third",
              "Not read."]
    expect("in order", [line.startswith(start) for line, start in zip(listed, starts)], [True] * 6)
    names = [line.endswith(name) for line, name in zip(listed, ("two.png", "two.png", "", "", "one.png", "one.png"))]
    expect("each with its picture", names, [True] * 6)
    expect("the first is at hand", (shown()["says"], run(VIEW), len(run(OUTLINED))), ("first", [220, 110], 2))
    press("#found-are button", 2)
    soon("a symbol of another picture", lambda: (shown()["says"], run(VIEW), len(run(OUTLINED))),
         ("third", [300, 140], 2))
    expect("the CSV", [",".join(row[:3]) for row in table_saved()[:4]],
           ["picture,number,message", "two.png,1,first", "two.png,2,second", "one.png,3,third"])
    told = json.loads(saved("found.json", "found-json"))
    expect("the JSON", [it["picture"] for it in told["symbols"]], ["two.png", "two.png", "one.png", "one.png"])
    give("saved", "found.json")
    soon("the list opened again", lambda: [it[0] for it in run(LISTED)][:3], ["first", "second", "third"])
    none = [name for name, _ in files[1:3]]
    find("picture").send_keys("\n".join(str(on.folder / name) for name in none))
    soon("nothing in any", lambda: (shown()["state"], shown()["why"].split(". ")[0]),
         ("Nothing is read", "Nothing was read in 2 pictures"))
    expect("no symbol is left", run("return mitsubadoor.panes.read.modules"), None)
    expect("each is named", [line.split(":")[0] for line in texts_of(ALL)], none)


def beside_others():
    """A PDF, and what is no picture, is named as not read, with what to do."""
    push("tab-read")
    drop("body", [("mark.png", "image/png", png(written("beside").split("\n"), 3, 2)),
                  ("sheet.pdf", "application/pdf", b"%PDF-1.4\n"), ("notes.txt", "text/plain", b"notes")])
    pdf = "sheet.pdf is a PDF, which isn’t read here: save its pages as pictures, or take pictures of the screen."
    soon("beside a picture", lambda: (shown()["says"], text_of("picture-hint")),
         ("beside", f"mark.png: 14 × 14. Read as it stands. {pdf} notes.txt isn’t looked at."))
    drop("body", [("sheet.pdf", "application/pdf", b"%PDF-1.4\n")])
    soon("a PDF alone", lambda: text_of("picture-hint"), pdf)


def of_many_pixels():
    """A picture of 48 million pixels is read where it is outlined; one of 400 million is named undecoded."""
    push("tab-read")
    opened("phone.png", laid([b"\xe1" * 8000] * 6000, written("of a phone").split("\n"), 24, 4000, 3000))
    soon("48 million pixels", lambda: shown()["says"], "of a phone")
    corners = run("const { width, height } = document.getElementById('outlines').dataset; return [+width, +height]")
    expect("its size", [round(it / 100) for it in corners], [80, 60])
    linked()
    kept = json.loads(run("return localStorage.getItem('mitsubadoor found')"))
    expect("where it stands", [round(it / 50) for it in kept["symbols"][0]["corners"][0]], [80, 60])
    huge = bytearray(chunks(10, 10, (b"\0" + b"\xff" * 10) * 10))
    huge[16:24] = (20000).to_bytes(4, "big") * 2
    said = "huge.png: The picture has more than 200 million pixels: save it smaller, and open that."
    expect("400 million", (opened("huge.png", bytes(huge)), shown()["state"]), (said, "Nothing is read"))


# A JPEG of a symbol in a red field on a blue ground, with green on the right; or its dark modules alone.
IN_COLOURS = """
    const [rows, width, height, kind] = arguments;
    const canvas = Object.assign(document.createElement("canvas"), { width, height }), pen = canvas.getContext("2d");
    const fill = (colour, ...box) => { pen.fillStyle = colour; pen.fillRect(...box); };
    if (kind === "image/jpeg") {
        fill("#2040c0", 0, 0, width, height);
        fill("#20b040", 1100, 0, width, height);
        fill("#ffd0c0", 100, 100, 600, 600);
    }
    rows.forEach((row, r) => [...row].forEach((module, c) => {
        if (module === "1") fill("#000", 200 + 20 * c, 200 + 20 * r, 20, 20);
    }));
    return canvas.toDataURL(kind, 0.95).split(",")[1];"""
SEEN = """
    const view = document.getElementById("view"), { width, height } = view;
    const canvas = Object.assign(document.createElement("canvas"), { width, height });
    const pen = canvas.getContext("2d", { willReadFrequently: true });
    pen.drawImage(view, 0, 0);
    const at = (x, y) => [...pen.getImageData(x * width, y * height, 1, 1).data].slice(0, 3);
    return [width > height, ...arguments[0].map(([x, y]) => at(x, y))];"""
TURNED = b"Exif\0\0MM\0*\0\0\0\x08\0\x01\x01\x12\0\x03\0\0\0\x01\0\x06\0\0\0\0\0\0"  # a quarter to the right


def as_it_is_stored():
    """A large JPEG, of which the browser gives what is stored, is read and shown in its colours; and so is one that is
    to be turned, upright. What is transparent is white."""
    push("tab-read")
    rows = written("in colours").split("\n")
    body, *clear = (base64.b64decode(run(IN_COLOURS, rows, 1400, 1000, f"image/{kind}"))
                    for kind in ("jpeg", "png", "webp"))
    turned = body[:2] + b"\xff\xe1" + (len(TURNED) + 2).to_bytes(2, "big") + TURNED + body[2:]
    spots = [(0.03, 0.9), (0.95, 0.5), (0.1, 0.15)]  # on the ground, on the right, and in the field
    for name, file, places, stands in (
        ("as it is", body, spots, "Read as it stands."),
        ("turned", turned, [(1 - y, x) for x, y in spots],
         "The symbol is turned a quarter to the right, and shown upright."),
    ):
        said = opened("stored.jpg", file)
        expect(f"{name}: what is read", (shown()["says"], said.partition(". ")[2]), ("in colours", stands))
        is_wide, *colours = run(SEEN, places)
        far = [abs(one - other) for colour, wanted in zip(colours, [(32, 64, 192), (32, 176, 64), (255, 208, 192)])
               for one, other in zip(colour, wanted)]
        expect(f"{name}: its colours", (is_wide, [each for each in far if each > 12]), (name == "as it is", []))
    for name, file in zip(("clear.png", "clear.webp"), clear):
        opened(name, file)
        ground, *_ = run(SEEN, [(0.95, 0.95)])[1:]
        expect(f"{name}, on nothing", (shown()["says"], min(ground) > 250), ("in colours", True))


def seen_by_camera():
    """A symbol that a camera sees and can't read is named, with the reason."""
    push("tab-read")
    camera_on(["\n".join(beyond(written("damaged beyond what can be corrected").split("\n")))])
    hold = "Hold symbols before the camera. What is read is listed, until you stop it."
    soon("nothing is seen", lambda: text_of("picture-hint"), hold)
    run("globalThis.shown = [0]")
    soon("what is seen", lambda: text_of("picture-hint").split(". ")[0], "A symbol is seen, and isn’t read")
    run("document.getElementById('camera-off').click(); clearInterval(painter); delete navigator.mediaDevices")


PARTS = [in_order, beside_others, of_many_pixels, as_it_is_stored, seen_by_camera]
