"""Work is kept in the browser's storage: lists, settings, what was read, and parts survive a reload and another visit,
until they are forgotten; and no message stands in the address, but for a link that was copied."""
from tests.page.conduct import linked
from tests.page.contents import parts_of
from tests.page.labels import answer, pages_of
from tests.page.photographs import FOUND
from tests.page.pictures import opened, scene
from tests.page.stage import (COLLECT, address, choose, expect, find, grid, is_seen, on, press, push, put, reload, run,
                              saved, shown, soon, started, text_of, texts_of, unfold, value_of, visit, wait_for, write,
                              written)

FIELDS = ["message", "lines-as", "messages", "stock", "millimetres", "paper-size", "label-width", "copies", "shape"]
KEPT = "return Object.keys(localStorage).map((name) => localStorage.getItem(name)).join(' ')"


def state():
    return list(map(value_of, FIELDS)), [find(f"profile-{k}").is_selected() for k in range(3)]


def work_survives():
    """A list with its columns, how labels look, a message, and what was read of a picture, by reload and anew."""
    write("kept as it is", 1, "rectangle")
    unfold("sheet")
    choose("lines-as", "csv")
    put("messages", "place,part\nleft,A1\nright,B2")
    answer("headings", {0: "text", 1: "message"})
    choose("stock", "own")
    for name, value in (("label-width", "44.5"), ("millimetres", "0.4"), ("copies", "2")):
        put(name, value)
        run("document.getElementById(arguments[0]).dispatchEvent(new Event('change', { bubbles: true }))", name)
    push("label-text")
    pdf = pages_of(saved("symbols.pdf", "many-pdf"))
    messages = ["first", "second", "third"]
    push("tab-read")
    opened("three.png",
           scene(360, 130, [(written(it).split("\n"), (30 + 110 * k, 40)) for k, it in enumerate(messages)]))
    soon("what is listed", lambda: len(texts_of(FOUND)), 3)
    press("#found-are button", 1)
    linked()
    listed, at_hand, before = texts_of(FOUND), grid(), state()
    for name, go in (("a reload", reload), ("another visit", lambda: visit(is_new=False))):
        go()
        expect(f"{name}: what was read", (is_seen("pane-read"), shown()["says"], grid()), (True, "second", at_hand))
        soon(f"{name}: the list of it", lambda: texts_of(FOUND), listed)
        pressed = "return [...document.querySelectorAll('#found-are button')].map((it) => it.ariaPressed)"
        expect(f"{name}: which is at hand", run(pressed), ["false", "true", "false"])
        expect(f"{name}: settings and lists", state(), before)
        push("tab-make")
        unfold("sheet")
        expect(f"{name}: the labels", pages_of(saved("symbols.pdf", "many-pdf")), pdf)
        push("tab-read")
        linked()


def parts_survive():
    """Parts that were read are still there after a reload."""
    grids, _ = parts_of("one and two and three", 3, "typed")
    choose("parts", "1")
    push("tab-read")
    for k in (0, 2):
        put("grid", grids[k])
    linked()
    title = text_of("gathered-title")
    expect("parts that are read", title, "A message in 3 symbols: 2 of them read")
    reload()
    expect("after a reload", text_of("gathered-title"), title)
    put("grid", grids[1])
    expect("the last one makes the message", text_of("whole"), "one and two and three")


def address_is_bare():
    """No message stands in the address until a link is copied, and then until something changes."""
    fragment = lambda: address().partition("#")[2]
    write("a secret")
    linked()
    expect("a message", fragment(), "make")
    push("tab-read", "example-c40")
    linked()
    expect("a grid", fragment(), "read")
    push("tab-learn", "to-limit")
    linked()
    expect("damage", fragment(), "learn")
    push("tab-make")
    run(COLLECT)
    push("copy-link")
    soon("a link that is copied", lambda: "message=a+secret" in str(run("return copied")), True)
    expect("it stands in the address", [address()], run("return copied"))
    put("message", "another")
    linked()
    expect("until something changes", fragment(), "make")
    run("delete navigator.clipboard.writeText; location.hash = '#make&message=followed'")
    linked()
    expect("a link that is followed", (shown()["says"], fragment()), ("followed", "make"))


def forgotten():
    """Forget leaves nothing: in the page, in the browser's storage, by reload, and by the history."""
    write("a secret")
    unfold("sheet")
    put("messages", "another secret")
    push("tab-read", "example-c40")
    linked()
    expect("it is kept", "another secret" in run(KEPT), True)
    run("globalThis.isOld = true; document.getElementById('forget').click()")
    wait_for(lambda: not run("return 'isOld' in globalThis"))
    started()
    gone = lambda: (value_of("message"), value_of("messages"), value_of("grid"), "secret" in run(KEPT))
    expect("after Forget", gone(), ("Hello", "", "", False))
    reload()
    expect("after a reload", gone(), ("Hello", "", "", False))
    on.page.back()
    linked()
    expect("by the history", gone(), ("Hello", "", "", False))


PARTS = [work_survives, parts_survive, address_is_bare, forgotten]
