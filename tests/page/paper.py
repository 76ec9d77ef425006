"""What comes out on paper: the size of what is printed, as the PDF has it, and what isn't printed."""
import base64
import re
import zlib

from tests.page.stage import attribute, choose, expect, on, push, put, run, text_of, write, written

POINT = 25.4 / 72  # millimetres


def printed():
    """Prints to a PDF as the browser does: millimetres of each page, and of its dark modules from left to right."""
    body = base64.b64decode(on.page.execute_cdp_cmd("Page.printToPDF", {"preferCSSPageSize": True})["data"])
    boxes = [[round(float(x) * POINT, 1) for x in box.split()[2:]] for box in re.findall(rb"/MediaBox\s*\[([^\]]*)\]",
                                                                                         body)]
    streams = [zlib.decompress(stream) for stream in re.findall(rb"/FlateDecode.*?stream\r?\n(.*?)\r?\nendstream", body,
                                                                re.S)]
    return boxes, [width for width in map(dark_width, (text.decode("latin-1") for text in streams if b" cm\n" in text))
                   if width]


def dark_width(content):
    """The millimetres from the left to the right of what a page's content fills with black, or 0."""
    scale, shift, ink, saved, path, reached = 1.0, 0.0, None, [], [], []
    for line in content.split("\n"):
        *numbers, word = line.split() or [""]
        values = [float(number) for number in numbers if re.fullmatch(r"-?[\d.]+", number)]
        if word == "q":
            saved.append((scale, shift))
        elif word == "Q":
            scale, shift = saved.pop()
        elif word == "cm":
            scale, shift = scale * values[0], shift + scale * values[4]
        elif word in ("m", "l", "re"):
            path += [shift + scale * x for x in ([values[0], values[0] + values[2]] if word == "re" else values[:1])]
        elif word in ("f", "f*", "n"):
            reached += path if word != "n" and ink == [0, 0, 0] else []
            path = []
        if word == "rg":
            ink = values[-3:]
    return round((max(reached) - min(reached)) * POINT, 2) if reached else 0


def paper_is(name, millimetres):
    choose("paper-size", name)
    put("millimetres", millimetres)


def asked():
    """How often printing has been asked for."""
    return run("return globalThis.printed")


def printed_at_its_size():
    """On sheets and on labels each symbol has the size that is said, or it isn't printed, and that is said."""
    run("globalThis.printed = 0; window.print = () => { printed++; }")
    write("123456")
    for name, millimetres, page in (("a4", "0.5", [210, 297]), ("a4", "12.8", [210, 297]),
                                    ("letter", "13.2", [215.9, 279.4]), ("label", "0.5", [7, 7]),
                                    ("label", "20", [280, 280])):
        paper_is(name, millimetres)
        before = asked()
        push("print")
        boxes, widths = printed()
        expect(f"{millimetres} mm on {name}",
                     (asked() - before,
                      [[round(side) if side > 7.5 and side != 215.9 and side != 279.4 else side for side in box]
                       for box in boxes], widths), (1, [page], [round(10 * float(millimetres), 2)]))
        length = f"{round(14 * float(millimetres), 2):g}"
        expect(f"{millimetres} mm on {name}: it is said", text_of("print-size"),
               f"{length} × {length} mm with 2 modules of quiet zone")
    for name, millimetres, room in (("a4", "20", "A4 has room for 180 mm"), ("a4", "12.9", "A4 has room for 180 mm"),
                                    ("letter", "13.3", "Letter has room for 185.9 mm")):
        paper_is(name, millimetres)
        before = asked()
        push("print")
        expect(f"{millimetres} mm on {name} isn't printed",
               (asked() - before, room in text_of("print-size"), "bad" in attribute("print-size", "class"),
                room in text_of("toast")), (0, True, True, True))
        boxes, widths = printed()
        expect(f"{millimetres} mm on {name}, by the browser's own command",
               (len(boxes), widths, room in text_of("paper")), (1, [], True))


def text_on_paper():
    """A long text is cut where the page ends, and that is said; GS1 data that is wrong is said on paper too."""
    for text, millimetres, is_cut in (("0" * 1632, "1.6", True), ("0" * 1632, "0.5", False), ("A" * 816, "1.6", False)):
        write(text)
        paper_is("a4", millimetres)
        boxes, _ = printed()
        shown = re.match(r"([A0]+)(?:… and ([\d,]+) characters? more)?", text_of("paper"))
        expect(f"{len(text)} characters and {millimetres} mm",
               (len(boxes), len(shown[1]) + int((shown[2] or "0").replace(",", "")), shown[2] is not None),
               (1, len(text), is_cut))
    paper_is("a4", "0.5")
    write("(01)09506000134353")
    printed()
    expect("a wrong check digit on paper",
           "It isn’t right as GS1 data: (01) GTIN, the check digit 3 should be 2." in text_of("paper"), True)
    write("(01)09506000134352")
    printed()
    expect("a right one", "isn’t right" in text_of("paper"), False)


def sheets():
    run("globalThis.printed = 0; window.print = () => { printed++; }; document.getElementById('sheet').open = true")
    write("123456")
    for name, millimetres, text, why in (
        ("a4", "0.5", "12\n(01)0950600013435(21)0ABC", "Message 2: (01) GTIN takes 14 digits, and has 13."),
        ("a4", "0.5", "(01)09506000134353",
         "Message 1: It isn’t right as GS1 data: (01) GTIN, the check digit 3 should be 2."),
        ("a4", "0.5", "fine\ncaf\u00e9", "Message 2: column 4 is \u00e9, which has no spelling of its own"),
        ("a4", "0.5", "12\n(05)123", "Message 2: column 1 begins (05), which is no identifier of GS1’s table"),
        ("a4", "12", "12\n0123456789", "Message 2 makes a symbol that is 192 mm wide: "
         "A4 has room for 180 mm within its margins. Take narrower modules, or a label."),
    ):
        paper_is(name, millimetres)
        put("messages", text)
        push("print-sheet")
        expect(f"a sheet with {text[-20:]!r}", (asked(), text_of("sheet-hint")), (0, why))
    paper_is("label", "1")
    put("messages", "12\n0123456789\n7")
    push("label-text", "print-sheet")
    boxes, widths = printed()
    expect("labels, each on a page of its own", (asked(), [[round(side) for side in box] for box in boxes], widths),
           (1, [[16, 16]] * 3, [10, 12, 10]))
    run("dispatchEvent(new Event('afterprint'))")
    push("label-text")
    paper_is("a4", "0.5")
    bytes_of = "\\xE9\\xE8\\xEA\\xE9\\xE8\\xEA"
    put("messages", bytes_of)
    for profile, words in ((0, "1 symbol is on the sheet."),
                           (1, "1 symbol is on the sheet, stored as bytes where that is smaller.")):
        push(f"profile-{profile}", "print-sheet")
        side = written(bytes_of, profile).index("\n")
        expect(f"a sheet under profile {profile}",
               (run("return document.querySelector('#paper svg svg').getAttribute('viewBox')"), text_of("sheet-hint")),
               (f"-2 -2 {side + 4} {side + 4}", words))
        run("dispatchEvent(new Event('afterprint'))")


PARTS = [printed_at_its_size, text_on_paper, sheets]
