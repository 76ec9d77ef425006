"""The lesson, step by step, and the page's words and looks."""
import re

from tests.page.conduct import verdict
from tests.page.stage import (By, Keys, acting, attribute, cells, click, do, expect, find, focused, grid, learn, media,
                              metrics, pointed, press, push, put, run, text_of, texts_of, unfold, usable, usual_metrics,
                              value_of, write, written)


def lesson():
    write("A" * 10 + "123")
    learn()
    unfold("lesson")
    step = lambda: find("step").get_attribute("textContent")
    chips = lambda: run("return [...document.querySelectorAll('#step .chip')].map((it) => it.firstChild.textContent)")
    values = [held for held, _, _ in cells()]
    expect("the message", (text_of("step-count"), chips()),
           ("Step 1 of 6: The message", [str(ord(c)) for c in "A" * 10 + "123"]))
    push("step-on")
    expect("codewords", ("12 data codewords" in step(), chips()), (True, [str(value) for value in values[:12]]))
    push("step-on")
    expect("blocks", ("are one block" in step(), chips()), (True, [str(value) for value in values[:12]]))
    push("step-on")
    sums = lambda: run("return document.querySelector('#step .sums').textContent")
    expect("check codewords", (chips(), sums()), ([str(value) for value in values[12:]], " ".join(["0"] * 12)))
    push("to-limit")
    expect("damage shows in the sums", sums().split().count("0") < 12, True)
    push("undo", "step-on")
    do("put('walk', at('walk').max)")
    path = run("return document.querySelector('#path .way').getAttribute('d')")
    points = [(int(float(x)), int(float(y))) for x, y in re.findall(r"[ML]([\d.]+) ([\d.]+)", path)]
    last_bits = [next((x, y) for number, x, y in bits if number == "8") for _, bits in pointed()]
    expect("the path of the placement", points, last_bits)
    push("step-on")
    expect("the border", "16 × 16 modules" in step(), True)
    expect("the last step", (usable("step-on"), usable("step-back")), (False, True))


def slider():
    """The slider of the lesson follows the mouse as long as it is held."""
    write("A" * 10 + "123")
    learn()
    unfold("lesson")
    while text_of("step-count") != "Step 5 of 6: Places":
        push("step-on" if usable("step-on") else "step-back")
    slide, width = find("walk"), find("walk").rect["width"]
    run("""globalThis.walked = [];
           const one = (where) => document.querySelector(where);
           const now = () => [+one('#walk').value, one('#step output').textContent,
               one('#walk-words').textContent.split(',')[0], one('#path .way').getAttribute('d').split('L').length];
           one('#step').addEventListener('input', () => walked.push(now()));""")
    chain = acting().move_to_element_with_offset(slide, 8 - width / 2, 0).click_and_hold()
    for share in (0.3, 0.6, 0.99):
        chain.move_to_element_with_offset(slide, (share - 0.5) * width, 0).pause(0.1)
    chain.release().perform()
    walked = run("return walked")
    last = [24, "24 of 24", "Codeword 24", 24]
    expect("the slider goes on while it is held", (len(walked) >= 3, walked[-1]), (True, last))
    odd = [it for it in walked if it[1:] != [f"{it[0]} of 24", f"Codeword {it[0]}", it[0]]]
    expect("what it shows goes along", odd, [])
    slide.send_keys(Keys.ARROW_LEFT)
    expect("by keys", run("return walked.at(-1)"), [23, "23 of 24", "Codeword 23", 23])


def words_and_looks():
    write("C:\\new")
    expect("a way to double the backslash", texts_of("#message-hint button")[0], "Spell it with the backslash doubled")
    press("#message-hint button")
    expect("the backslash is doubled", (value_of("message"), verdict()[1], focused()),
           ("C:\\\\new", "C:\\new", "message"))
    write("\\A{1/2}")
    press("#message-hint button")
    expect("so is one that begins no head", value_of("message"), "\\\\A{1/2}")
    for text, name in (("a\u200bb", "the invisible character U+200B"), ("a\u00a0b", "the invisible character U+00A0"),
                       ("a\x01b", "the control character U+0001"), ("a\u20acb", "\u20ac"), ("a\tb", "a tab")):
        write(text)
        expect(f"{text!r} is named",
               text_of("message-hint").startswith(f"Column 2 is {name}, which has no spelling of its own."), True)
    for text, more in (("A" * 1559, "1 character"), ("0" * 3124, "8 characters"), ("A" * 1642, "84 characters")):
        write(text)
        expect(f"{len(text)} of {text[0]} are too long", f"It is {more} too long." in text_of("message-hint"), True)
    write("123456")
    for name, bad, good in (("millimetres", "0", "0.5"), ("millimetres", "99", "0.5"), ("border-limit", "-1", "2"),
                            ("border-limit", "70000", "2")):
        put(name, bad)
        marked = attribute(name, "aria-invalid")
        put(name, good)
        expect(f"{bad} in {name} is marked", (marked, attribute(name, "aria-invalid")), ("true", None))
    push("usual")
    legend = lambda: [it.text for it in find("legend").find_elements(By.TAG_NAME, "li")]
    expect("no legend without need", legend(), [])
    click(33)
    expect("a legend for what there is", legend(), ["turned over", "corrected, or border of the wrong colour"])
    told = run("""return [...document.querySelectorAll('[role=meter]')]
               .map((it) => [it.ariaLabel, it.ariaValueNow, it.ariaValueMax])""")
    expect("meters have roles", told, [["Codewords", "1", "2"], ["Border", "0", "2"]])
    expect("what is said of pictures is spoken",
           [attribute(it, "aria-live") for it in ("picture-hint", "grid-hint", "verdict", "same")], ["polite"] * 4)
    click(55)
    damaged = grid()
    push("undo-all")
    expect("everything is undone", grid(), written("123456"))
    push("undo")
    expect("that can be undone too, in one step", grid(), damaged)
    push("undo", "undo")
    expect("back at the beginning", (grid(), usable("undo")), (written("123456"), False))
    push("redo", "redo", "redo")
    expect("redone", (grid(), usable("redo")), (written("123456"), False))
    run("document.getElementById('undo').focus()")
    push("undo", "undo", "undo")
    expect("focus stays", focused(), "undo")
    metrics(1280, 900)
    expect("the symbol on the first screen",
           run("scrollTo(0, 0); return document.getElementById('easel').getBoundingClientRect().bottom <= 900"), True)
    usual_metrics()
    media(forced_colors="active")
    looks = run("""return ['tab-learn', 'tab-read'].map((id) => getComputedStyle(document.getElementById(id)))
            .map((style) => style.textDecorationLine + style.borderBottomColor)""")
    expect("forced colours tell the tabs apart", looks[0] != looks[1], True)
    media(forced_colors="none")


PARTS = [lesson, slider, words_and_looks]
