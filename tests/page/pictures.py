"""Pictures that are opened and saved."""
import random
import shutil
import struct
import subprocess
import zlib

from tests.page.stage import (WAYS, Keys, agree, expect, find, give, grid, is_seen, on, push, put, run, saved, settle,
                              shown, soon, text_of, turned, unfold, usable, value_of, wait_for, write, written)


def png(rows, scale, around, light=255, dark=0, speck=0):
    """A grey picture of a grid, perhaps with a speck of so many pixels in a corner, so that it is no grid alone."""
    across, down = (scale * (length + 2 * around) for length in (len(rows[0]), len(rows)))
    blank = bytes([light]) * across
    lines = [bytes([dark]) * speck + blank[speck:]] * speck + [blank] * (down - speck)
    return laid(lines, rows, scale, around * scale, around * scale, light, dark)


def noise(side, scale):
    """A picture of so many random modules on each side, in which there is no symbol."""
    return png(["".join(random.choice("01") for _ in range(side)) for _ in range(side)], scale, 2)


def laid(lines, rows, scale, left, top, light=225, dark=30):
    """The picture of a grid on a ground, whose greys are given line by line."""
    for r, row in enumerate(rows):
        part = b"".join(bytes([dark if module == "1" else light]) * scale for module in row)
        for y in range(top + scale * r, top + scale * (r + 1)):
            lines[y] = lines[y][:left] + part + lines[y][left + len(part):]
    return chunks(len(lines[0]), len(lines), b"".join(b"\0" + line for line in lines))


def scene(width, height, placed, turn=(1.0, 0.0), scale=4, light=225, dark=30, specks=0):
    """The picture of grids whose upper left corners are at these places, all of it turned by an angle of this cosine
    and sine about its middle; of every so many pixels one is a dark speck, if a number is given."""
    cosine, sine = turn
    lines = []
    for y in range(height):
        line = bytearray(b"\0" + bytes([light]) * width)
        for x in range(width):
            across, down = x - width / 2, y - height / 2
            u, v = across * cosine + down * sine + width / 2, down * cosine - across * sine + height / 2
            if specks and (7 * x + 13 * y) % specks == 0:
                line[1 + x] = dark
            for rows, (left, top) in placed:
                c, r = int((u - left) // scale), int((v - top) // scale)
                if 0 <= r < len(rows) and 0 <= c < len(rows[0]) and rows[r][c] == "1":
                    line[1 + x] = dark
        lines.append(bytes(line))
    return chunks(width, height, b"".join(lines))


def chunks(width, height, lines):
    """The file of a grey picture, of lines with a zero in front of each."""
    chunk = lambda kind, body: struct.pack(">I", len(body)) + kind + body + struct.pack(">I", zlib.crc32(kind + body))
    return (b"\x89PNG\r\n\x1a\n" + chunk(b"IHDR", struct.pack(">IIBBBBB", width, height, 8, 0, 0, 0, 0))
            + chunk(b"IDAT", zlib.compress(lines, 1)) + chunk(b"IEND", b""))


def opened(name, body):
    """Opens a picture, and returns what the page says about it."""
    run("document.getElementById('picture-hint').textContent = ''")
    give("picture", name, body)
    wait_for(lambda: text_of("picture-hint"))
    settle()
    return text_of("picture-hint")


# What follows where something looks like a symbol and isn't read.
LIKEST = " What looks most like one is outlined, and listed with the reason."


def pictures():
    push("tab-read")
    short, long = written("Mitsubadoor"), written("Pictures of larger symbols are opened too. " * 4)
    for name, text, scale, around, light, dark, stand in [("a.png", short, 1, 0, 255, 0, (0, False, False)),
                                                          ("b.png", short, 3, 2, 255, 0, (0, False, False)),
                                                          ("c.png", short, 8, 4, 200, 90, (1, False, False)),
                                                          ("d.png", short, 5, 1, 255, 0, (2, True, False)),
                                                          ("e.png", short, 4, 3, 255, 0, (3, False, True)),
                                                          ("f.png", long, 1, 2, 255, 0, (0, False, False)),
                                                          ("g.png", long, 4, 2, 255, 0, (1, True, True)),
                                                          ("h.png", long, 2, 0, 255, 0, (2, False, False))]:
        quarters, mirrored, inverted = stand
        grey = (dark, light) if inverted else (light, dark)
        said = opened(name, png(turned(text, quarters, mirrored, False).split("\n"), scale, around, *grey))
        expect(f"picture {name}", grid(), text)
        agree(f"picture {name}")
        how = WAYS[stand]
        side = text.index("\n")
        expect(f"picture {name}: said", said, f"{name}: {side} × {side}. "
               + (f"The symbol is {how}, and shown upright." if how else "Read as it stands."))
    rows = written("123456").split("\n")
    spoilt = [rows[0], *(row[0] + row[1:9].translate(str.maketrans("01", "10")) + row[9] for row in rows[1:5]),
              *rows[5:]]
    said = opened("i.png", png(spoilt, 8, 3))
    expect("a symbol that isn't read is shown as it stands", (said, shown()["state"]),
                 ("i.png: 10 × 10. It can’t be read as it stands, nor turned, mirrored or inverted. It is shown as it "
                  "stands.", "Refused"))
    before = grid()
    no_symbol = "No symbol that can be read was found in the picture."
    give("picture-A", "beside.png", noise(23, 5))
    soon("a picture without a symbol in a slot", lambda: no_symbol in text_of("slot-a"), True)
    expect("what is said of a picture stays, whatever is looked at in a slot", text_of("picture-hint"), said)
    whole = png(rows, 8, 3)
    for name, body, why in (
        ("noise.png", noise(23, 5), no_symbol), ("square.png", png(["1" * 10] * 10, 8, 3), no_symbol),
        ("white.png", png(["0" * 10] * 10, 2, 2), "The picture has only one colour."),
        ("text.png", b"no picture", "The file can’t be opened as a picture."),
        ("half.png", whole[: len(whole) // 2], "The file is cut off: the end of the picture is missing."),
    ):
        expect(f"{name} is no symbol", opened(name, body).split(LIKEST)[0], f"{name}: {why}")
        expect(f"{name}: no verdict of the one before", (shown()["state"], shown()["says"], usable("save-png")),
               ("Nothing is read", "", False))
        expect(f"{name}: nor that one", is_seen("scene"), body[:4] == whole[:4] and name != "half.png")
    expect("no symbol of another picture is left", (grid(), before != ""), ("", True))


def printed():
    """How good the print is stands beside what is read in a picture that isn't only a grid, and beside nothing else."""
    push("tab-read")
    rows = written("Mitsubadoor").split("\n")
    table = lambda: run("return [...document.querySelectorAll('#print-quality tbody tr')]"
                        ".map((row) => [...row.cells].map((cell) => cell.textContent))")
    for name, light, dark, grade, contrast in (("a.png", 255, 0, "A", "100 %"), ("b.png", 200, 90, "C", "43 %"),
                                               ("c.png", 150, 120, "F", "12 %")):
        opened(name, png(rows, 8, 6, light, dark, 5))
        told = table()
        expect(f"{name}: contrast", told[0], [grade, "contrast", contrast])
        expect(f"{name}: the rest", [cells[0] for cells in told[1:]], [*"AAAA", *"––––"])
        expect(f"{name}: damage", [cells[2] for cells in told[6:8]], ["none", "none"])
    opened("torn.png", png(["0" + row[1:] if 3 <= k < 6 else row for k, row in enumerate(rows)], 8, 6, speck=5))
    expect("a torn border", [cells[2] for cells in table()[6:]],
           [f"{round(300 / len(rows))} % on the left", "none", "the left border, rows 4 to 6"])
    opened("grid.png", png(rows, 8, 6))
    is_hidden = lambda: run("return document.getElementById('print-quality').hidden")
    expect("of a grid there is no print", (is_hidden(), table()), (True, []))
    push("tab-make")
    expect("nor of what is made", is_hidden(), True)


# A QR code of version 1, which says `A QR code`: of each row its modules as a number, as zint draws it.
QR = """FED3F8 821208 BABAE8 BA8AE8 BA4AE8 82DA08 FEABF8 00A800 57D768 1C59D8 638738 3912C8 7EE968 00AD40 FECDB0 82A480
BA0670 BAF198 BA6988 82C7C0 FE38D0"""


def other_codes():
    """A QR code is called one, and nothing else is."""
    push("tab-read")
    code = "\n".join(f"{int(row, 16):024b}"[:21] for row in QR.split())
    told = "No symbol that can be read was found in the picture."
    for name, scale, around, light, dark, quarters in (("as zint draws it", 4, 4, 255, 0, 0),
                                                       ("small and grey", 2, 2, 200, 90, 1),
                                                       ("large and upside down", 17, 1, 255, 0, 2)):
        said = opened("qr.png", png(turned(code, quarters, False, False).split("\n"), scale, around, light, dark))
        expect(f"a QR code {name}", said, f"qr.png: {told} It shows a QR code, which isn’t a Data Matrix symbol.")
    without = code.split("\n")
    for row in range(7):  # without the pattern in the first corner
        without[row] = "0" * 7 + without[row][7:]
    expect("what has two of its patterns", opened("two.png", png(without, 4, 4)).split(LIKEST)[0], f"two.png: {told}")
    grey = chunks(700, 700, b"".join(b"\0" + random.randbytes(700) for _ in range(700)))
    expect("noise", opened("noise.png", grey).split(LIKEST)[0], f"noise.png: {told}")


def saved_and_opened():
    write("123456")
    put("millimetres", "0.4")
    expect("size in print", text_of("print-size"), "5.6 × 5.6 mm with 2 modules of quiet zone")
    drawing, body = saved("symbol-10.svg", "save-svg"), saved("symbol-10.png", "save-png")
    begin = b'<svg xmlns="http://www.w3.org/2000/svg" width="5.6mm" height="5.6mm" viewBox="-2 -2 14 14"'
    expect("SVG", (drawing[:len(begin)], drawing[-7:], body[-8:-4]), (begin, b"</svg>\n", b"IEND"))
    at = body.index(b"pHYs") + 4
    width, across, down, unit = (*struct.unpack(">I", body[16:20]), *struct.unpack(">IIB", body[at : at + 9]))
    expect("PNG: pixels a metre", (across, down, unit, zlib.crc32(body[at - 4 : at + 9])),
           (25000, 25000, 1, struct.unpack(">I", body[at + 9 : at + 13])[0]))
    expect("PNG: millimetres", round(1000 * width / across, 3), 5.6)
    push("tab-read")
    write("other")
    for name, file in (("again.svg", drawing), ("again.png", body)):
        expect(f"{name} opened again", (opened(name, file), grid()),
               (f"{name}: 10 × 10. Read as it stands.", written("123456")))
    if shutil.which("dmtxread"):
        out = subprocess.run(["dmtxread", "-n", str(on.folder / "again.png")], stdout=subprocess.PIPE, timeout=300,
                             check=False).stdout.decode()
        expect("PNG by dmtxread", out.strip(), "123456")
    else:
        print("left out: the saved picture read by another reader, since dmtxread isn't installed")
    put("millimetres", "0.5")
    write("Mitsubadoor")
    find("copy").click()
    soon("copied", lambda: text_of("toast"), "Copied: the symbol, a line for each row")
    push("tab-read")
    unfold("as-text")
    find("grid").send_keys(Keys.CONTROL, "a", Keys.NULL, Keys.DELETE)
    find("grid").send_keys(Keys.CONTROL, "v", Keys.NULL)
    soon("what was copied", lambda: value_of("grid").strip("\n"), written("Mitsubadoor"))
    push("tab-make")
    find("message").send_keys(Keys.CONTROL, "a", Keys.NULL)
    find("message").send_keys(Keys.CONTROL, "v", Keys.NULL)
    soon("a grid that is pasted as a message", lambda: (is_seen("pane-read"), shown()["says"]), (True, "Mitsubadoor"))
