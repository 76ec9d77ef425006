"""What is shown first, by what one wants to do; one main button; plain words; and what keys and fields take."""
from tests.page.conduct import linked
from tests.page.paper import paper_is
from tests.page.pictures import opened, scene
from tests.page.stage import (Keys, expect, find, focused, grid, is_seen, on, push, put, reload, run, saved, settle,
                              shown, soon, started, text_of, unfold, value_of, visit, write, written)

SEEN = "return [...document.querySelectorAll(arguments[0])].filter((it) => it.checkVisibility()).map((it) => it.id)"


def jobs():
    """On a first visit it is asked what is to be done, and each answer leads there; afterwards that is shown."""
    for job, pane, more in (("start-read", "pane-read", "drop-here"), ("start-make", "pane-make", "message"),
                            ("start-compare", "pane-read", "slot-a"), ("start-learn", "pane-learn", "to-limit")):
        visit()
        expect(f"before {job}", (is_seen("start"), run(SEEN, ".bench, details.card")), (True, []))
        find(job).click()
        settle()
        expect(f"after {job}", [is_seen(it) for it in ("start", pane, more)], [False, True, True])
    put("message", "mine")
    linked()
    on.page.back()
    soon("Back to the question", lambda: is_seen("start"), True)
    visit()
    push("start-make")
    put("message", "kept")
    linked()
    first = run("return mitsubadoor.linkKept()")
    reload()
    expect("after a reload", (is_seen("start"), shown()["says"], "kept" in first), (False, "kept", True))


def example():
    """Where nothing is read yet there is a place to drop pictures, and an example to try."""
    visit()
    push("start-read")
    push("example-picture")
    soon("the example", lambda: (shown()["says"], text_of("found-title")),
         ("Every answer is proved.", "2 symbols are read"))
    expect("no example any more", is_seen("example-picture"), False)
    opened("none.png", scene(120, 110, []))
    gone = "return [mitsubadoor.panes.read.modules, document.getElementById('grid').value]"
    why = (shown()["state"], shown()["says"], run(gone))
    expect("a picture that fails leaves no symbol of another", why, ("Nothing is read", "", [None, ""]))
    expect("what to do is said once", f"{text_of('picture-hint')} {shown()['why']}".count("Take it from nearer"), 1)


def made():
    """What is made has no reader's verdict, and no bytes, until damage is tried; one button is the main one."""
    push("tab-make", "kind-typed")
    put("message", "Größe: 5 µm")
    state = lambda: (run("return document.getElementById('state').textContent"), shown()["why"])
    expect("what is made", state(), ("Made", "It is text in ISO-8859-1."))
    put("message", "plain")
    expect("plain text", state(), ("Made", ""))
    main = "return [...document.querySelectorAll('.main')].filter((it) => it.checkVisibility() && " \
        "getComputedStyle(it).fontWeight > 600).map((it) => it.textContent)"
    expect("one main button", run(main), ["Save PNG"])
    push("tab-learn")
    expect("where damage is tried", state(), ("Read", "Nothing had to be corrected."))
    push("tab-make")
    put("message", "ABCDEFGHIJKLMNOPQRSTUVWXYZ")
    push("profile-2", "tab-learn")
    unfold("lesson")
    push("step-on")
    expect("C40 is explained", "C40 begins with 230" in text_of("step"), True)


def small_things():
    """A comma in lengths; Enter in the message; Home and End on tabs; where Tab stops; boxes large enough; and no dead
    controls where scripts are switched off."""
    write("123456")
    paper_is("a4", "0,3")
    expect("a comma", text_of("print-size").split(" with")[0], "4.2 × 4.2 mm")
    paper_is("a4", "0.5")
    find("message").send_keys("7", Keys.ENTER)
    expect("Enter leads to what comes next", (focused(), value_of("message")), ("save-png", "1234567"))
    push("kind-typed")
    find("message").send_keys(Keys.SHIFT, Keys.ENTER, Keys.NULL, "8")
    settle()
    expect("Shift Enter is a line break", value_of("message"), "1234567\n8")
    write("123456")
    find("tab-make").send_keys(Keys.END)
    settle()
    expect("End", focused(), "tab-learn")
    find("tab-learn").send_keys(Keys.HOME)
    settle()
    expect("Home", (focused(), is_seen("pane-read")), ("tab-read", True))
    put("grid", "")
    expect("nothing to scroll is no stop", run("return document.getElementById('says').tabIndex"), -1)
    push("tab-make")
    sides = run("return [...document.querySelectorAll('input[type=checkbox], input[type=radio]')].filter((it) => "
                "it.checkVisibility()).map((it) => it.getBoundingClientRect().width)")
    expect("boxes", (len(sides) > 0, min(sides, default=0) >= 20), (True, True))
    on.page.execute_cdp_cmd("Emulation.setScriptExecutionDisabled", {"value": True})
    address = on.page.current_url.partition("#")[0]
    on.page.get("about:blank")
    on.page.get(address)
    tree = on.page.execute_cdp_cmd("Accessibility.getFullAXTree", {})["nodes"]
    roles = [node["role"]["value"] for node in tree if not node.get("ignored")]
    on.page.execute_cdp_cmd("Emulation.setScriptExecutionDisabled", {"value": False})
    dead = [role for role in roles if role in ("button", "tab", "textbox", "checkbox", "radio", "combobox")]
    expect("without scripts", ("main" in roles, dead), (True, []))
    on.page.get("about:blank")
    on.page.get(f"{address}#make")
    started()


def chosen_for_png():
    """A PNG has the quiet zone, the size and the text that are chosen, and what is said of it is so."""
    write("123456")
    for name, value in (("quiet", "4"), ("pixels", "7"), ("millimetres", "0.5")):
        put(name, value)
    body = saved("symbol-10.png", "save-png")
    size = [int.from_bytes(body[at : at + 4], "big") for at in (16, 20)]
    expect("its pixels", (size, text_of("print-size"), text_of("png-size")),
           ([126, 126], "9 × 9 mm with 4 modules of quiet zone", "PNG: 126 × 126 pixels"))
    opened("again.png", body)
    expect("what is read of it", (shown()["says"], grid()), ("123456", written("123456")))
    push("tab-make")
    push("text-below")
    drawing = saved("symbol-10.svg", "save-svg").decode()
    expect("with its text", ("<title>123456</title>" in drawing, 'width="20mm"' in drawing), (True, True))
    push("text-below")
    for name, value in (("quiet", "2"), ("pixels", "")):
        put(name, value)


PARTS = [jobs, example, made, small_things, chosen_for_png]
