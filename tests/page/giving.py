"""What is taken away and what is brought: saved, copied, printed, dropped and pasted."""
import base64

from tests.page.bounds import drop
from tests.page.conduct import verdict
from tests.page.paper import printed
from tests.page.pictures import png
from tests.page.stage import (COLLECT, By, Keys, area_of, attribute, click, expect, find, grid, is_seen, on, push, put,
                              run, saved, settle, soon, text_of, unfold, value_of, wait_for, write, written)


def gives_what_it_says():
    write("123456")
    clean = saved("symbol-10.svg", "save-svg")
    expect("no choice without damage", is_seen("which"), False)
    click(33, 44)
    expect("the undamaged one by default", saved("symbol-10.svg", "save-svg"), clean)
    run(COLLECT)
    push("copy")
    expect("copied undamaged", (run("return copied.pop()").strip(), wait_for(lambda: text_of("toast"))),
           (written("123456"), "Copied: the symbol, a line for each row"))
    push("which-damaged")
    damaged = saved("symbol-10-damaged.svg", "save-svg")
    expect("the damaged one by its own choice", (damaged[-7:], damaged != clean), (b"</svg>\n", True))
    push("copy")
    expect("copied damaged", (run("return copied.pop()").strip(), text_of("toast")),
           (grid(), "Copied: the damaged symbol, a line for each row"))
    run("navigator.clipboard.writeText = async () => { throw new Error('no'); }; document.execCommand = () => false")
    push("copy")
    expect("not copied", (wait_for(lambda: "doesn’t let" in text_of("toast")), "Copied" in text_of("toast")),
           (True, False))
    run("delete navigator.clipboard.writeText; delete document.execCommand")
    push("undo-all")
    expect("undamaged again", (is_seen("which"), attribute("which-undamaged", "checked")), (False, "true"))
    push("tab-read", "example-c40")
    click(100, side=22)
    expect("a grid is given as it was opened", text_of("which-first"), "take the symbol as it was opened")


# ---- Print

def print_():
    run("globalThis.printed = 0; window.print = () => { printed++; }")
    write("123456")
    put("millimetres", "1")
    push("print")
    expect("printing is asked for", run("return printed"), 1)
    expect("one page", len(printed()[0]), 1)
    text, (width, seen) = text_of("paper"), run("""const svg = document.querySelector('#paper svg');
           return [svg.getAttribute('width'), svg.innerHTML]""")
    expect("at its size with its text", (width, "123456" in text, "10 × 10 modules of 1 mm" in text),
           ("14mm", True, True))
    on.page.execute_cdp_cmd("Emulation.setEmulatedMedia", {"media": "print"})
    seen_now = run("""const isSeen = (it) => it.checkVisibility() && it.tagName !== 'SCRIPT';
           return [...document.body.children].filter(isSeen).map((it) => it.id)""")
    expect("nothing else is printed", seen_now, ["paper"])
    expect("in millimetres",
           round(run("return document.querySelector('#paper svg').getBoundingClientRect().width") / 96 * 25.4, 1), 14.0)
    on.page.execute_cdp_cmd("Emulation.setEmulatedMedia", {"media": ""})
    click(33)
    printed()
    expect("the undamaged one is printed", run("return document.querySelector('#paper svg').innerHTML"), seen)
    push("undo-all")
    unfold("sheet")
    put("messages", "first\n(01)09506000134352\n\nthird\n")
    push("print-sheet")
    sheet = run("""const both = (it) => [it.getAttribute('width'), it.nextElementSibling.textContent];
           return [...document.querySelectorAll('#paper > svg > svg')].map(both)""")
    expect("a sheet", sheet, [["16", "first"], ["20", "(01)09506000134352"], ["16", "third"]])
    expect("printing of the sheet is asked for", (run("return printed"), text_of("sheet-hint")),
           (2, "3 symbols are on the sheet."))


def dropped():
    """Text can be dropped into the message, and pictures anywhere."""
    write("123456")
    for name, target, text, wanted in (("text", "#facts", "dropped", "dropped"),
                                       ("text into the message", "#message", "now ", "now dropped"),
                                       ("a grid", "#facts", written("a grid"), "a grid")):
        run("const m = document.getElementById('message'); m.focus(); m.setSelectionRange(0, 0)")
        drop(target, text=text)
        settle()
        expect(f"dropped: {name}", (is_seen("pane-read"), verdict()), (name == "a grid", ("Read", wanted)))
    drop("body", [("dropped.png", "image/png", png(written("a picture").split("\n"), 3, 2))])
    soon("a picture is dropped", verdict, ("Read", "a picture"))


COPY_PICTURE = """const [body, done] = arguments, bytes = Uint8Array.from(atob(body), (c) => c.charCodeAt(0));
    const item = new ClipboardItem({ 'image/png': new Blob([bytes], { type: 'image/png' }) });
    navigator.clipboard.write([item]).then(() => done(''), (why) => done(why.message));"""


def pasted_pictures():
    """A picture on the clipboard is pasted: in the message, in no field, and in a slot of the comparison."""

    def copy(message):
        expect(f"{message} on the clipboard", on.page.execute_async_script(COPY_PICTURE,
               base64.b64encode(png(written(message).split("\n"), 3, 2)).decode()), "")
    paste = (Keys.CONTROL, "v", Keys.NULL)
    write("123456")
    copy("pasted")
    find("message").send_keys(*paste)
    soon("a picture pasted in the message", lambda: (verdict(), is_seen("pane-read")), (("Read", "pasted"), True))
    settle()
    expect("the message stays", value_of("message"), "123456")
    copy("pasted again")
    run("document.activeElement.blur()")
    on.page.find_element(By.TAG_NAME, "body").send_keys(*paste)
    soon("a picture pasted in no field", verdict, ("Read", "pasted again"))
    settle()
    copy("pasted below")
    unfold("comparison")
    area_of("b").send_keys(*paste)
    soon("a picture pasted in a slot", lambda: "pasted below" in text_of("slot-b"), True)
    settle()
    expect("it isn't taken above", verdict(), ("Read", "pasted again"))
    push("tab-make")
    expect("the message has its symbol", verdict(), ("Read", "123456"))


PARTS = [gives_what_it_says, print_, dropped, pasted_pictures]
