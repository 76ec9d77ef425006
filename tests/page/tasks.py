"""The three tasks, each with its link: what is shown first, what each begins with, links of earlier pages, text as it
stands, what GS1 data looks like, and that only where one learns a symbol is damaged."""
from tests.page.conduct import go, linked, verdict
from tests.page.history import fields
from tests.page.judge import line_of_text, written_in
from tests.page.stage import (COLLECT, Keys, acting, address, agree, box, changed, choose, click, expect, find, grid,
                              is_seen, learn, offset, on, press, push, put, reload, run, send, shown, soon, spelled,
                              task, text_of, texts_of, unfold, usable, value_of, visit, write, written)

ELEMENTS = "(01)09506000134352(17)271231(10)AB-42"
LINE = "\\F010950600013435217271231" + "10AB-42"
TEXT = "Gr\u00f6\u00dfe: 5 \u00b5m"


def seen_panes():
    return [name for name in ("read", "make", "learn") if is_seen(f"pane-{name}")]


def tasks_are_linked():
    """A task has a link, which from elsewhere opens the page at it, and within the page keeps what is entered."""
    visit("#make")
    first = (task(), value_of("message"), verdict(), on.page.title)
    wanted = ("make", "Hello", ("Read", "Hello"), "Read, make and understand Data Matrix codes: Mitsubadoor")
    expect("what is shown first", first, wanted)
    for name in ("read", "make", "learn"):
        visit(f"#{name}")
        says = ("Nothing is entered yet", "") if name == "read" else ("Read", "Hello")
        expect(f"#{name} from elsewhere", (seen_panes(), verdict()), ([name], says))
        linked()
        go("#make")
        expect(f"the message after #{name} has the height of a line", 30 < find("message").rect["height"] < 60, True)
        put("message", f"at {name}")
        go(f"#{name}")
        expect(f"#{name} within the page", (seen_panes(), value_of("message")), ([name], f"at {name}"))
        expect(f"#{name} is what the address says",
               (address().partition("#")[2].split("&")[0], fields().get("message")), (name, f"at {name}"))
        selected = run("return [...document.querySelectorAll('[role=tab]')].map((it) => it.ariaSelected)")
        expect(f"#{name}: its tab", selected, [str(each == name).lower() for each in ("read", "make", "learn")])


def earlier_links():
    """Links of earlier pages lead to what they were about: damage is where one learns."""
    write("earlier")
    push("tab-read", "example-c40")
    linked()
    letters = fields()["grid"]
    for fragment, name, says, turned in (
        ("message=old", "make", "old", []), ("message=old&damage=5", "learn", "old", [5]),
        ("message=old&border=3", "learn", "old", []),
        (f"message=old&grid={letters}&pane=read", "read", "Every answer is proved.", []),
        (f"message=old&grid={letters}&grid-damage=3.4&pane=read", "learn", "Every answer is proved.", [3, 8]),
        (f"message=old&damage=5&grid={letters}&pane=read", "read", "Every answer is proved.", []),
    ):
        go(f"#{fragment}")
        damage = run("const { modules, original } = mitsubadoor.mark;"
                     "return [...modules.keys()].filter((k) => modules[k] !== original[k])")
        expect(fragment.replace(letters, "..."), (seen_panes(), shown()["says"], damage), ([name], says, turned))
    for side in (105, 145, 999):
        go(f"#read&grid={side}{'A' * -(-side * side // 6)}")
        expect(f"a grid of side {side}", (value_of("grid"), verdict()), ("", ("Nothing is entered yet", "")))


def text_and_gs1():
    """Text is taken as it stands; GS1 data has its identifiers in brackets, and FNC1 stands only where codewords are
    shown. What is copied is what a person would type."""
    push("profile-0")
    run(COLLECT)
    press("#pane-make [data-message]", "Text")
    line = spelled(TEXT.encode("iso-8859-1"))
    expect("text", (grid(), find("kind-typed").is_selected()), (written(line), True))
    agree("text, as it is read")
    expect("text is said", (shown()["says"], shown()["why"]), (TEXT, "It is text in ISO-8859-1."))
    push("copy-message")
    linked()
    expect("text in the link", (fields()["message"], fields()["as"]), (TEXT, "typed"))
    reload()
    expect("text after a reload", (grid(), find("kind-typed").is_selected()), (written(line), True))
    push("kind-text")
    linked()
    expect("text alone in the link", (fields()["message"], fields()["as"]), (TEXT, "text"))
    put("message", "a\\b (01) \\F\n2")
    expect("nothing is spelled in text", (shown()["says"], text_of("message-hint")), ("a\\\\b (01) \\\\F\\x0A2", ""))
    for text in ("\ufeff\u00e9", "\u00e9\n", "e\u0301", "\u00a0", "\u00c3\u00a0"):
        put("message", text)
        line = line_of_text(text)
        expect(f"{text!r} isn't all to be seen", (shown()["says"], grid()), (line, written_in(line, "square")))
    for text, told in (("\u00e9\\(01)", "ISO-8859-1"), ("\u20ac\\(01)", "ISO-8859-15, as ECI 17 says")):
        put("message", text)
        said = f"It is text in {told}." in shown()["why"]
        wanted = text, True, written_in(line_of_text(text), "square")
        expect(f"a backslash in {text}", (shown()["says"], said, grid()), wanted)
    put("message", "~" * 25001)
    expect("too much text", (verdict(), "25,001 characters" in text_of("message-hint")),
           (("Nothing is read", ""), True))
    run(COLLECT)
    press("#pane-make [data-message]", "GS1")
    agree("GS1 data, as it is read")
    expect("GS1 data", (grid(), shown()["says"], find("kind-typed").is_selected()), (written(LINE), ELEMENTS, True))
    push("copy-message", "print")
    for name in ("read", "make", "learn"):
        push(f"tab-{name}")
        unfold("details", "sheet", "comparison", "lesson")
        said = run("return document.body.innerText")
        words = text_of("words") + text_of("about") + text_of("step")
        expect(f"{name}: FNC1 by its spelling only in codewords", said.count("\\F") <= words.count("\\F"), True)
    expect("what is copied", run("return copied"), [ELEMENTS])
    push("tab-make")
    write("caf\u00e9")
    press("#message-hint button", "Take it as text")
    expect("taken as text", (grid(), shown()["state"]), (written("caf\\xE9"), "Read"))
    run("delete navigator.clipboard.writeText")
    for line in ("\\F01095060001343521" + "0AB\\F", "\\F0512", "\\F10A\\F\\F21B", "\\F10A\\x1D21B", "\\F10A(B)",
                 "\\F10\\\\(", "\\F", "\\FAB\\x1D", "A\\FB", "\\F9112\\F", "\\F91\\x80", "(01)5\\F"):
        write(line if not line.startswith("(") else "\\x28" + line[1:])
        agree(f"{line} as it is shown")


TYPED = [
    # (what is typed, what the hint says, its line, what is read)
    ("Gr\u00f6\u00dfe", "", "Gr\\xF6\\xDFe", "Gr\u00f6\u00dfe"), ("C:\\new", "", "C:\\\\new", "C:\\new"),
    ("\\F01 \\x41", "A backslash is one here, and spells nothing. Take it as spelled", "\\\\F01 \\\\x41",
     "\\F01 \\x41"),
    ("a (b) [c]", "", "a (b) [c]", "a (b) [c]"), ("\u20ac 5", "", "\\E{17}\\xA4 5", "\u20ac 5"),
    ("\u00c3\u00a9", "", "\\E{3}\\xC3\\xA9", "\u00c3\u00a9"),
    ("(21)A\\(b", "Taken as GS1 data. Take it as text", "\\F21A(b", "(21)A\\(b"),
]


def typed():
    """What is typed is text as it stands, or GS1 data, and nothing is spelled in it; what is read is shown as text, and
    so copied; what else it may be meant as is offered."""
    push("tab-make", "profile-0", "kind-typed")
    run(COLLECT)
    for text, hint, line, says in TYPED:
        put("message", text)
        wanted = hint, written_in(line, "square"), says
        expect(f"{text!r}", (text_of("message-hint"), grid(), shown()["says"]), wanted)
        push("copy-message")
    expect("what is copied", run("return copied"), [says for _, _, _, says in TYPED])
    put("message", "\\F01 \\x41")
    press("#message-hint button")
    expect("taken as spelled", (find("kind-message").is_selected(), grid()), (True, written("\\F01 A")))
    push("kind-typed")
    for text, why in (("(note) of 5", "Column 1 opens a bracket that holds no identifier, such as (01)."),
                      ("(05)123", "Column 1 begins (05), which is no identifier of GS1’s table.")):
        put("message", text)
        hint = text_of("message-hint")
        expect(f"{text!r} is no GS1 data", (hint.startswith(why), hint.endswith("Take it as text"), verdict()),
               (True, True, ("Nothing is read", "")))
        press("#message-hint button", -1)
        expect(f"{text!r} as text", (find("kind-text").is_selected(), shown()["says"]), (True, text))
        push("kind-typed")
    unfold("sheet")
    put("messages", "message,text\nGr\u00f6\u00dfe 5,Gr\u00f6\u00dfe\n\u00b5m,")
    choose("lines-as", "csv")
    soon("text in CSV", lambda: texts_of("#labels-are code"), ["Gr\u00f6\u00dfe 5", "\u00b5m"])


def damaged_only_where_one_learns():
    write("123456")
    clean = written("123456")
    for name in ("make", "read"):
        push(f"tab-{name}")
        if name == "read":
            put("grid", clean)
        acting().move_to_element_with_offset(find("symbol"), *offset(33, 10)).click().perform()
        run("document.querySelector('.skip').click()")
        send(Keys.SPACE)
        expect(f"{name}: a click and a key", (grid(), usable("undo"), find("symbol").get_attribute("role")),
               (clean, False, "img"))
        expect(f"{name}: no buttons for damage", is_seen("to-limit"), False)
    learn()
    where = lambda: [run("return mitsubadoor.store.pane"), find("learn-read").is_selected()]
    expect("what is learnt about", where(), ["read", True])
    click(33)
    linked()
    reload()
    expect("after a reload", (where(), changed(clean, grid())), (["read", True], [33]))
    push("learn-write")
    expect("the other symbol", (where(), grid()), (["write", False], clean))
    click(44)
    for name, module in (("learn-read", 33), ("learn-write", 44)):
        push(name)
        expect(f"{name} keeps its damage", changed(clean, grid()), [module])
    expect("damage is above the symbol", box("to-limit")["top"] < box("easel")["top"], True)


PARTS = [tasks_are_linked, earlier_links, text_and_gs1, typed, damaged_only_where_one_learns]
