"""How the page conducts itself: no verdict outlives its input, nothing freezes, phones, GS1, links."""
from tests.page.damage import turned_to_another
from tests.page.pictures import chunks, noise, opened, png
from tests.page.stage import (ACTS, agree, attribute, box, changed, click, expect, fetched, find, fits_across, give,
                              grid, is_seen, metrics, on, pointed, processor_time, push, put, run, settle, shown, soon,
                              started, text_of, unfold, usable, usual_metrics, value_of, visit, wait_for, write,
                              written)

NOTHING = ("Nothing is read", "")
GIVING = ("copy", "save-svg", "save-png", "print")


def verdict():
    return shown()["state"], shown()["says"]


# ---- Never a stale verdict

def never_stale():
    for text in ("caf\u00e9", "C:\\new", "\\x4", "~" * 2000, "\u00e9" * 30000):
        write("123456")
        put("message", text)
        name = f"{text[:8]!r} leaves no verdict"
        expect(name, (verdict(), [usable(it) for it in GIVING]), (NOTHING, [False] * 4))
        expect(f"{name}, and dims the symbol",
               float(run("return getComputedStyle(document.getElementById('easel')).opacity")) < 0.5, True)
        before = grid()
        click(33)
        push("to-limit", "copy")
        expect(f"{name}: nothing is damaged", grid(), before)
    write("123456")
    expect("taken again", (verdict(), [usable(it) for it in GIVING]), (("Read", "123456"), [True] * 4))
    push("tab-read", "example-c40")
    put("grid", "")
    expect("no grid, no verdict", verdict(), ("Nothing is entered yet", ""))
    write("123456")
    run("mitsubadoor.desks.quick.worker.postMessage = () => { throw new Error('broken off'); }")
    put("message", "654321")
    expect("a worker that throws", (verdict(), "broken off" in shown()["why"], usable("save-svg")),
           (NOTHING, True, False))
    run("mitsubadoor.desks.quick.end({ stopped: true })")
    write("123456")
    expect("after a new worker", verdict(), ("Read", "123456"))


def each_pane_keeps_its_state():
    turned_to_another()
    damaged = grid()
    expect("another message", shown()["state"], "Read as another message")
    push("tab-read", "example-c40", "to-limit")
    second = grid()
    push("tab-make")
    expect("back at the message", (shown()["state"], grid(), usable("undo")),
           ("Read as another message", damaged, True))
    push("tab-read")
    expect("back at the grid", (shown()["state"], shown()["says"], grid(), usable("undo")),
           ("Read", "Every answer is proved.", second, True))
    push("undo", "tab-make", "undo-all")
    expect("undone in each", verdict(), ("Read", "123456"))


def a_picture_does_not_win():
    """A picture is looked at only when a gate is opened; what is entered meanwhile stays."""
    push("tab-read")
    begin = "const { pictures } = mitsubadoor.desks; (pictures.ready ?? pictures.start()).then(() => arguments[0]())"
    on.page.execute_async_script(begin)  # its worker has the library before there are gates
    run("""const { pictures } = mitsubadoor.desks, ask = pictures.ask;
           globalThis.gates = [];
           pictures.ask = async function (...rest) {
               await new Promise((open) => gates.push(open));
               return ask.apply(this, rest);
           };""")
    file = on.folder / "late.png"
    file.write_bytes(png(written("late").split("\n"), 4, 2))

    def meanwhile(script, verdict_then):
        find("picture").send_keys(str(file))
        wait_for(lambda: run("return gates.length"))
        run(ACTS + script)
        soon(f"meanwhile {verdict_then[1]}", verdict, verdict_then)
        run("gates.pop()()")
        settle()
    meanwhile("document.getElementById('example-c40').click()", ("Read", "Every answer is proved."))
    expect("a late picture", (verdict(), "given up" in text_of("picture-hint")),
           (("Read", "Every answer is proved."), True))
    meanwhile("at('tab-make').click(); put('message', 'meanwhile')", ("Read", "meanwhile"))
    expect("a late picture doesn't change the message", verdict(), ("Read", "meanwhile"))
    push("tab-read")
    expect("it is in its own pane", (verdict(), is_seen("scene")), (("Read", "late"), True))
    find("picture").send_keys(str(file))
    soon("the picture before goes, if that takes long", lambda: is_seen("scene"), False)
    expect("and how far it is", text_of("picture-hint"), "Looking at late.png…")
    run("gates.pop()()")
    settle()
    expect("until it is read again", (verdict(), is_seen("scene")), (("Read", "late"), True))


def names_follow():
    write("123456")
    unfold("details")
    label = lambda w: find(f"word-{w}").get_attribute("aria-label")
    expect("name of a codeword", label(1), "data codeword 2: 164, the digits 34")
    pointed([1])
    click(11)
    expect("name of a damaged codeword", label(1), "data codeword 2: 36, corrected to 164, the digits 34")
    push("undo")
    expect("name of a mended codeword", label(1), "data codeword 2: 164, the digits 34")
    write("654321")
    expect("name of another codeword", label(1), "data codeword 2: 173, the digits 43")


# ---- Nothing freezes

HELD_UP = 4000  # milliseconds, on a busy machine
# Has what the worker of pictures says come a minute late, as if it were long at work, however fast the machine is.
LATE = """
    const { worker } = mitsubadoor.desks.pictures, { onmessage } = worker;
    worker.onmessage = (event) => setTimeout(() => onmessage(event), 60000);"""


def nothing_freezes():
    write("123456")
    for name, text in (("message", "\u00e9" * 1000000), ("grid", "1" * 1000000)):
        push("tab-make" if name == "message" else "tab-read")
        begun = processor_time()
        put(name, text)
        taken = processor_time() - begun
        expect(f"a megabyte in the {name} is bounded",
               (verdict(), "1,000,000 characters" in text_of(f"{name}-hint"), taken < 2000), (NOTHING, True, True))
        put(name, "" if name == "grid" else "123456")
    expect("a large picture", opened("huge.png", chunks(6400, 6400, (b"\0" + b"\xff" * 6400) * 6400)),
           "huge.png: The picture has only one colour.")
    run("""globalThis.longest = 0;
           const lengths = (list) => list.getEntries().map((task) => task.duration);
           globalThis.watch = new PerformanceObserver((list) => { longest = Math.max(longest, ...lengths(list)); });
           watch.observe({ type: 'longtask' })""")
    run(LATE)
    give("picture", "noise.png", noise(700, 9))
    soon("what runs shows that it runs", lambda: is_seen("busy"), True)
    run(f"{ACTS} at('tab-make').click(); put('message', 'meanwhile')")
    soon("one can go on meanwhile", verdict, ("Read", "meanwhile"))
    expect("it still runs", is_seen("busy"), True)
    run("document.getElementById('stop').click()")
    soon("it doesn't run any more", lambda: is_seen("busy"), False)
    expect("the page was never held up", run("watch.disconnect(); return longest") < HELD_UP, True)
    push("tab-read")
    expect("stopped", (verdict(), "stopped" in text_of("picture-hint")), (NOTHING, True))
    expect("after that pictures are opened", opened("next.png", png(written("next").split("\n"), 4, 2)).split(":")[0],
           "next.png")
    expect("and read", verdict(), ("Read", "next"))


# ---- Phones

def phones():
    """Of each task the symbol, what is done and what is read are seen together, from the top of the page."""
    push("tab-read", "example-c40")
    write("Hello")
    metrics(390, 844, True)
    for task, acts in (("read", ["camera", "copy-message"]), ("make", ["message", "save-png"]),
                       ("learn", ["to-limit"])):
        push(f"tab-{task}")
        run("scrollTo(0, 0)")
        ends = run("""return arguments[0].map((id) => document.getElementById(id).getBoundingClientRect())
            .map(({ top, bottom, height }) => [Math.round(top), Math.round(bottom), height > 0])""",
            ["verdict", "easel", *acts])
        out = [end for end in ends if end[0] < 0 or end[1] > 844 or not end[2]]
        expect(f"{task}: symbol, act and verdict together on a phone", out, [])
    write("\\F010123456789012810AB-42")
    before = find("symbol").rect["width"]
    push("zoom-in", "zoom-in")
    expect("a symbol can be larger", (find("symbol").rect["width"] > 2.5 * before, fits_across()), (True, True))
    push("zoom-out", "zoom-out")
    for width, height in ((320, 640), (640, 450)):
        metrics(width, height, width == 320)
        run("document.querySelector('.bench').scrollIntoView(); scrollBy(0, 60)")
        is_fixed = run("return getComputedStyle(document.getElementById('verdict')).position === 'sticky'")
        expect(f"{width} by {height}", (fits_across(), is_fixed and box("verdict")["height"] >= height / 3),
               (True, False))
    usual_metrics()
    run("scrollTo(0, 0)")


# ---- GS1

def rows():
    return run("""const text = (it) => it.innerText.replace(/\\s+/g, ' ').trim();
           return [...document.querySelectorAll('#elements tbody tr')].map((row) => [...row.children].map(text))""")


def gs1():
    fine = "09506000134352"
    for text, line in ((f"(01){fine}(10)AB-42", f"\\F01{fine}10AB-42"),
                       (f"(10)AB-42(01){fine}", f"\\F10AB-42\\F01{fine}"), ("(10)A\\x28B)\\x25", "\\F10A(B)%"),
                       ("(21)1(10)2(17)271231(37)5", "\\F211\\F102\\F1727123137" + "5"), ("\\x2801)5", "(01)5"),
                       ("a(5)", "a(5)")):
        write(text)
        expect(f"{text} as a symbol", grid(), written(line))
        agree(f"{text} read")
    write(f"(01){fine}(17)280200(10)AB-42(3103)001250")
    expect("table", rows(),
           [["(01)", "GTIN", f"{fine} the check digit is right"],
            ["(17)", "USE BY OR EXPIRY", "280200 the end of February 2028"], ["(10)", "BATCH/LOT", "AB-42"],
            ["(3103)", "NET WEIGHT (kg)", "001250 1.250"]])
    expect("right", (shown()["state"], attribute("verdict", "class")), ("Read, as GS1 data", "card verdict good"))
    for text, note in (("(3922)1099", "10.99"), ("(3903)5", "0.005"), ("(3912)978150", "1.50"), ("(3930)978150", ""),
                       ("(3941)0125", "12.5"), ("(3695)123456", "1.23456")):
        write(text)
        value = text.partition(")")[2]
        expect(f"decimals of {text}", rows()[0][2], f"{value} {note}".strip())
    write("(414)9506000134352")
    expect("a check digit over an even number of digits", (rows()[0][2], shown()["state"]),
           ("9506000134352 the check digit is right", "Read, as GS1 data"))
    for text, fault in (("(01)09506000134353", "wrong: the check digit 3 should be 2"),
                        ("(17)271301", "wrong: 13 is no month"), ("(17)270230", "wrong: 30 is no day of that month"),
                        ("(01)0950600013435", "wrong: too short: 14 digits are due"),
                        ("(17)27AB01", "wrong: it has something other than digits"),
                        ("(11)271201(10)" + "A" * 21, "wrong: too long by 1 character"), ("\\F0512", "wrong: unknown"),
                        ("\\F", "wrong: empty"), ("(8010)ab", "wrong: it has a character that isn’t allowed here")):
        write(text)
        said = " ".join(cell for row in rows() for cell in row)
        expect(f"{text[:20]} is wrong",
               (fault.split(": ", 1)[1] in said, shown()["state"], attribute("verdict", "class")),
               (True, "Read, but it isn’t right as GS1 data", "card verdict other"))
    write("123456")
    expect("no table without GS1", is_seen("elements"), False)
    push("tab-read")
    put("grid", written(f"\\F01{fine}"))
    expect("a table of what is read", rows()[0][:2], ["(01)", "GTIN"])


# ---- The link

def linked():
    """Waits until the address says what is entered, or what is entered is what it says."""
    wait_for(lambda: run("return mitsubadoor.isLinked()"))
    settle()


def go(fragment):
    run("location.hash = arguments[0]", fragment)
    linked()


def links():
    write("A & b=\\F #", 1)
    push("to-limit")
    damaged = grid()
    push("tab-read", "example-c40", "scratch")
    second = grid()
    linked()
    address = on.page.current_url
    for name, come in (("reload", on.page.refresh), ("Back", lambda: (on.page.get("about:blank"), on.page.back())),
                       ("bookmark", lambda: visit(address, False))):
        come()
        started()
        expect(f"{name}: the grid", (is_seen("pane-read"), grid()), (True, second))
        push("tab-make")
        expect(f"{name}: the message", (value_of("message"), find("profile-1").is_selected(), grid()),
               ("A & b=\\F #", True, damaged))
        agree(f"{name}: what is read")
        push("undo")
        expect(f"{name}: the damage can be undone", grid(), written("A & b=\\F #", 1))
        push("redo", "tab-read")
        expect(f"{name}: nothing is fetched", fetched(), [])
        linked()
    push("tab-make")
    write("one")
    linked()
    push("tab-read")
    linked()
    on.page.back()
    soon("Back within the page", lambda: (is_seen("pane-make"), verdict()), (True, ("Read", "one")))
    linked()
    go("#message=another&damage=5")
    expect("another link in the same page", (verdict()[1], changed(written("another"), grid())), ("another", [5]))
    for bad in ("#message=x&damage=zzzz.zzzz.1", "#grid=10&pane=read", "#grid=999AAAA&message=x",
                "#border=99999&message=x&grid-border=x"):
        go(bad)
        expect(f"{bad} is no fault", is_seen("broken"), False)


PARTS = [never_stale, each_pane_keeps_its_state, a_picture_does_not_win, names_follow, nothing_freezes, phones, gs1,
         links]
