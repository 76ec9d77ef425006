"""Messages, profiles, grids as text, marks of other encoders, and two symbols compared."""
from tests import corpus
from tests.page.pictures import png
from tests.page.stage import (LOOKED, WAYS, By, Keys, after_each, agree, as_program, attribute, expect, fill, find,
                              grid, head, is_wide, on, press, push, put, run, settle, shown, text_of, texts_of, told,
                              turned, unfold, value_of, write, written)


def spellings():
    for text in ["A\\\\B", "\\F011234567890123110ABC\\F17251231", "\\x80\\FA", "\\x8f", " ", "", "~" * 50, "0" * 1632,
                 "0" * 1631, "A\\", "A\\xg1", "AB\\q", "A\\x4", "12\\f", "\\x", "caf\u00e9", "100 \u20ac", "tab\t",
                 "0" * 3117, "\\xFF" * 780]:
        write(text)
        line, words = written(text), text_of("message-hint")
        name = f"spelling {text[:12]!r}"
        if line.startswith("\\no 15 escape "):
            expect(name, words.split(" ")[:2], ["Column", line.split(" ")[3]])
            expect(f"{name} is marked", attribute("message", "aria-invalid"), "true")
        elif line.startswith("\\no 14"):
            expect(name, words.startswith("No square up to 144 × 144 modules holds this message"), True)
        else:
            expect(name, grid(), line)
            agree(f"{name} read")
            expect(f"{name} isn't marked", attribute("message", "aria-invalid"), None)
    for text, spelt in (("caf\u00e9", {"as Latin-1": "caf\\xE9", "as UTF-8": "caf\\xC3\\xA9"}),
                        ("100 \u20ac", {"as UTF-8": "100 \\xE2\\x82\\xAC"}), ("a\nb", {"as bytes": "a\\x0Ab"})):
        for way, wanted in spelt.items():
            write(text)
            offered = sorted(["Take it as text", *(f"Spell it {each}" for each in spelt)])
            expect(f"ways to spell {text!r}", sorted(texts_of("#message-hint button")), offered)
            press("#message-hint button", f"Spell it {way}")
            expect(f"{text!r} {way}", value_of("message"), wanted)
    write("A" * 10)
    find("message").send_keys(Keys.ENTER)
    expect("Enter is no line break", value_of("message"), "A" * 10)


def profiles():
    """Both normal forms, against the program's."""
    letters = "".join(f"\\x{byte:02X}" for byte in range(128, 256))
    for text in ("123456", "\\xE9\\xE8", "\\xE9\\xE8\\xEA", letters, letters * 2, letters[: 4 * 122] * 2 + letters[:24],
                 "\\F" + letters, "A" * 30 + letters[:200], "", letters * 13):
        sides = []
        for profile in (0, 1):
            write(text, profile)
            line = written(text, profile)
            fits = not line.startswith("\\no ")
            sides.append(f"{line.index(chr(10))} × {line.index(chr(10))}" if fits else "doesn’t fit")
            if fits:
                expect(f"profile {profile} of {text[:24]}", grid(), line)
                agree(f"profile {profile} of {text[:24]} read")
                push("to-limit")
                agree(f"profile {profile} of {text[:24]} at the limit")
            else:
                expect(f"profile {profile} of {text[:24]}", text_of("message-hint").startswith("No square up to"), True)
        expect(f"sides told for {text[:24]}", [text_of("side-0"), text_of("side-1")], sides)


def pasted():
    push("tab-read", "example-c40")
    expect("C40", [shown()[it] for it in ("state", "says")], ["Read", "Every answer is proved."])
    push("example-turned")
    expect("turned and inverted", (text_of("grid-hint"), shown()["says"]),
                 ("The grid is inverted, light for dark, and turned a quarter to the right: found by trying, and shown "
                  "upright.", "Every answer is proved."))
    push("example-edifact")
    expect("EDIFACT", (shown()["state"], shown()["says"]), ("Read", "GOODS"))
    briefs = run("return mitsubadoor.mark.seen.told.map((it) => it.brief)")
    expect("codewords of EDIFACT", briefs, ["EDI", "GOOD", "↲", "↲", "S"])
    for text, why in [("10\n1x0", "Row 1 has a character other than #, X, . and space."),
                      ("10\n12", "Row 2 has a character other than 0 and 1."),
                      ("111\n11", "Not a rectangle: row 1 has 3 modules, and row 2 has 2 modules."),
                      ("1\n0\n1", "There are 3 rows of 1 module, and no size has these, upright or on its side."),
                      ("11\n11", "There are 2 rows of 2 modules, and no size has these, upright or on its side."),
                      ("1" * 145, "More than 144 rows or 144 columns, and no symbol has as many."),
                      ("1\n" * 145, "More than 144 rows or 144 columns, and no symbol has as many.")]:
        put("grid", text)
        expect(f"grid refused: {why}", (text_of("grid-hint"), attribute("grid", "aria-invalid")), (why, "true"))
    clean = written("Mitsubadoor")
    spoilt = clean[:30] + "10"[int(clean[30])] + clean[31:]
    for name, text in {
        "as it is": spoilt, "with CR": spoilt.replace("\n", "\r\n"), "with blank lines around": f"\n\n{spoilt}\n\n",
        "#.": spoilt.translate(str.maketrans("10", "#.")), "X.": spoilt.translate(str.maketrans("10", "X.")),
        "# and space, cut off at the right and indented": "\n".join(
            "   " + row.rstrip() for row in spoilt.translate(str.maketrans("10", "# ")).split("\n")
        ),
    }.items():
        put("grid", "")
        write("other")
        push("tab-read")
        put("grid", text)
        expect(f"pasted {name}", grid(), spoilt)
        agree(f"pasted {name}")
        expect(f"pasted {name}: said", text_of("grid-hint"), "Read as it stands.")
    expect("a wrong module that wasn't turned here has a dot",
           [len(on.page.find_elements(By.CSS_SELECTOR, f"#symbol .{it}")) for it in ("wrong", "turned")], [1, 0])
    push("to-limit")
    agree("pasted, to the limit")
    expect("pasted, to the limit: meters", shown()["meters"][0],
           "7 wrong, 7" if len(clean.split("\n")) == 18 else "6 wrong, 6")
    push("undo")
    expect("pasted, undone", grid(), spoilt)
    for way, how in WAYS.items():
        put("grid", turned(spoilt, *way))
        expect(f"stands {how or 'upright'}", (text_of("grid-hint"), grid()),
               (f"The grid is {how}: found by trying, and shown upright." if how else "Read as it stands.", spoilt))
    put("grid", "\n".join(["1" * 10] * 10))
    agree("all dark")
    expect("all dark: said", text_of("grid-hint"),
           "It can’t be read as it stands, nor turned, mirrored or inverted. It is shown as it stands.")


def other_encoders():
    """The marks of other encoders: what is shown, and what each of their codewords stands for."""
    grids = [mark.text for mark in (*corpus.marks("squares"), *corpus.marks("shifts"))]
    push("tab-read")
    for answer, (seen, stands, is_whole) in zip(told(grids), after_each("grid", grids, LOOKED)):
        if not is_wide(answer):
            name, refusal = f"mark of another encoder, {answer[0][:20]}", answer[0].startswith("refused")
            expect(name, as_program(seen), answer)
            expect(f"{name}: its codewords", (stands, is_whole or refusal), (None if refusal else answer[0], True))
    marks = corpus.marks("wide")  # in EDIFACT and with macros, which the program leaves out
    expect("how many", len(marks), 109)
    for mark, (seen, stands, _) in zip(marks, after_each("grid", [mark.text for mark in marks], LOOKED)):
        expect(f"wide mark {mark.said[:20]}", (seen["state"].split(",")[0], as_program(seen)[0], stands),
               ("Read", mark.said, mark.said))


def compared():
    push("tab-read")
    unfold("comparison")
    expect("same", head(), ["Yes, they say the same.", "Their modules differ, but both have this one normal grid:"])
    expect("one normal grid", len(find("same").find_elements(By.TAG_NAME, "svg")), 1)
    take = lambda slot: press(f"#slot-{slot} button")
    write("another")
    take("a")
    expect("different", (head(), len(find("same").find_elements(By.TAG_NAME, "svg"))),
           (["No, they say different things.", "Their normal grids differ:"], 2))
    no_answer, same, one = "No answer", "Yes, they say the same.", "Both have this one normal grid:"
    for name, text, wanted, said in (
        ("no grid", "1" * 10 + "\n" + "0" * 9, [no_answer, "Symbol B isn’t a grid."], ""),
        ("a message", "another", [same, one], ""),
        ("no message", "(05)12", [no_answer, "Symbol B can’t be taken."], "Column 1 begins (05), which is no"),
        ("turned", turned(written("another"), 1, False, True), [same],
         "inverted, light for dark, and turned a quarter to the right"),
        ("one letter", turned(written("Another"), 1, False, True), ["No, they say different things."], ""),
    ):
        fill("b", text)
        expect(name, (head()[:len(wanted)], said in text_of("slot-b")), (wanted, True))
    for slot in "ab":
        fill(slot, "Größe \\F")
    expect("as it is typed", (head()[0], "Größe \\F" in text_of("slot-a")), ("Yes, they say the same.", True))
    take("a")
    take("b")
    expect("alike", head(), ["Yes, they say the same.", "Both have this one normal grid:"])
    message = "".join(f"\\x{128 + k % 128:02X}" for k in range(60))
    write(message, 1)
    take("a")
    write(message, 0)
    push("to-limit")
    take("b")
    expect("two profiles", head(),
           ["Yes, they say the same.", "Their modules differ, but both have this one normal grid:"])
    write("".join(f"\\x{128 + k % 128:02X}" for k in range(800)), 1)
    take("a")
    push("to-limit")
    take("b")
    expect("too long for ASCII", head()[0], "Yes, they say the same.")
    push("one-more")
    take("b")
    if shown()["state"] == "Refused":
        expect("refused", head(), ["No answer", "Symbol B isn’t read."])
    picture = on.folder / "compared.png"
    picture.write_bytes(png(written("another").split("\n"), 4, 2))
    fill("a", "another")
    find("picture-B").send_keys(str(picture))
    settle()
    expect("a picture", head(), ["Yes, they say the same.", "Both have this one normal grid:"])
    push("tab-read")
    expect("large enough to see", find("slot-b").find_element(By.TAG_NAME, "svg").rect["width"] >= 200, True)
