"""What the parts of the page's test have in common: the program, the page in its browser, and what was compared."""
import contextlib
import csv
import io
import pathlib
import re
import subprocess
import tempfile
import time

from tests.support import package

DEBIANS = "/usr/bin/python3"
try:
    from selenium import webdriver
    from selenium.webdriver.chrome.service import Service
    from selenium.webdriver.common.action_chains import ActionChains
    from selenium.webdriver.common.by import By
    from selenium.webdriver.common.keys import Keys
    from selenium.webdriver.remote.file_detector import UselessFileDetector
    from selenium.webdriver.remote.remote_connection import RemoteConnection
    from selenium.webdriver.webkitgtk.service import Service as WebKitService
except ImportError:
    webdriver = ActionChains = By = Keys = RemoteConnection = Service = UselessFileDetector = WebKitService = None

QUIET = 2
WIDTH, HEIGHT = 1240, 1500  # of the window
LEFT_OUT = {"structured append": 233, "reader programming": 234, "macro 05": 236, "macro 06": 237}

# What the page shows, as plain text: the verdict (of a symbol that is made as of one that is read), the meters and the
# facts. Elements are told from a text that looks like some by their identifiers, which have a colour.
SHOWN = """
    const text = (id) => document.getElementById(id).textContent, one = (where) => document.querySelector(where);
    const meters = [...document.querySelectorAll("#meters .count")].map((it) => it.textContent);
    return { state: text("state").replace(/^Made/, "Read"), says: text("says"), why: text("why"),
             areElements: one("#says i")?.textContent.startsWith("(") ?? false,
             charset: one("#says").dataset.text ?? null,
             side: parseInt(one("#facts dd")?.textContent),
             meters: meters.map((it) => it.replace(/ (can be corrected|accepted)$/, "")) };"""

# The same of a grid; what its codewords stand for, if it is read; and whether each has its own.
LOOKED = f"""
    const shown = () => {{ {SHOWN} }}, {{ mark, idle, spelled }} = mitsubadoor;
    if (mark.limit === "auto") {{ at("usual").click(); await idle(); }} // which the program hasn't
    const {{ answer, told, size }} = mark.seen;
    return [shown(), answer.fault ? null : spelled(told.flatMap((it) => it.items)), told?.length === size?.data];"""


class On:
    """What the tests run on; `beside` is the folder of what stands beside the page where it is served."""

    program = page = module = folder = downloads = shots = part = None
    beside = pathlib.Path(__file__).resolve().parents[2] / "web" / "installed"


on = On()


class Failed(Exception):
    """The first failure, if the run stops there."""


class Count:
    """What was compared: rows, each a name, what came, and what is wanted."""

    stops = False

    def __init__(self):
        self.rows = []

    def expect(self, name, got, wanted):
        if self.stops and got != wanted:
            raise Failed(name)
        self.rows.append((name, got, wanted))

    def expect_soon(self, name, what, wanted):
        """As `expect`, of what takes its time, and may be otherwise a little later, as what a camera sees."""
        came = []
        wait_for(lambda: came.append(what()) or came[-1] == wanted)
        self.expect(name, came[-1], wanted)


count = Count()
expect, soon = count.expect, count.expect_soon


# ---- The program


def ran(task, text, *more):
    words = [on.program, *task.split(), *more]
    done = subprocess.run(words, input=text.encode(), stdout=subprocess.PIPE, timeout=300, check=False)
    return done.stdout.decode()


def written(message, profile=0):
    return ran("write --shorter" if profile else "write", message + "\n").rstrip("\n")


def refused(line):
    """A refusal's code, and the numbers that the page tells along with it."""
    words = line.split()
    return " ".join([words[1], *([words[3]] if words[1] in ("5", "6") else words[3:])])


def is_wide(answer):
    """Whether the program leaves a grid out that the page may read: the page reads the wide extent, with EDIFACT,
    macros, ECI and heads."""
    return re.match(r"refused 8 (23[3467]|24[01]) \d+$", answer[0]) is not None


def told(grids, *more):
    """What the program's `read` and `check` answer to grids: message and counts, or why not. `more`: the limit."""
    text = "\n".join(grid.rstrip("\n") + "\n" for grid in grids)
    reads, checks = (ran(task, text, *more).splitlines() for task in ("read", "check"))
    answer = lambda read, check: (f"refused {refused(check)}",) * 2 if check.startswith("\\no ") else (read, check)
    return [answer(read, check) for read, check in zip(reads, checks)]


# ---- Element strings


def spelled(items):
    """Items as the program spells them."""
    plain = lambda item: 32 <= item <= 126 and item != 92
    special = {92: "\\\\", 256: "\\F"}
    return "".join(chr(item) if plain(item) else special.get(item) or f"\\x{item:02X}" for item in items)


def line_of(text):
    """The program's line for what the page shows as an element string, whatever its values are."""
    elements, table = re.findall(r"\((\d+)\)((?:\\.|[^(\\])*)", text), package.imported().gs1.identifiers()
    assert "".join(f"({identifier}){value}" for identifier, value in elements) == text, text
    plain = lambda value: re.sub(r"\\(.)", lambda found: "(" if found[1] == "(" else found[0], value)
    ends = ["" if table[identifier].fixed else "\\F" for identifier, _ in elements[:-1]] + [""]
    return "\\F" + "".join(identifier + plain(value) + end for (identifier, value), end in zip(elements, ends))


# ---- The page


def as_program(shown):
    """What the page shows, in the program's words: message and counts, or the refusal. Its parts have to agree."""
    bounds = [line.split(" wrong, ") for line in shown["meters"]]
    beyond = [b for b, line in enumerate(shown["meters"][:-1]) if line.startswith("more than ")]
    if shown["state"] != "Refused":
        assert not beyond, shown
        read = "" if shown["says"] == "the empty message" else shown["says"]
        corrected = " ".join(count for count, _ in bounds[:-1])
        charset = shown["charset"]
        read = line_of(read) if shown["areElements"] else spelled(read.encode(charset)) if charset else read
        return read, f"ok {shown['side']} border {bounds[-1][0]} corrected {corrected}"
    assert shown["says"] == "no message", shown
    why = shown["why"]
    for code, pattern in REFUSALS:
        found = re.match(pattern, why)
        if not found:
            continue
        parts = [part for part in found.groups() if part is not None]
        if code == 5:
            assert parts[0] == bounds[-1][0] and int(parts[0]) > int(parts[1]) and parts[1] == bounds[-1][1], shown
            parts = parts[:1]
        if code == 6:
            parts = [str(int(parts[0]) - 1 if parts else 0)]
            assert int(parts[0]) == beyond[0], shown
        if code == 8:
            parts = [str(LEFT_OUT[parts[1]]), parts[0]]
        return (f"refused {' '.join([str(code), *parts])}",) * 2
    return why, why


REFUSALS = [
    (5, r"(\d+) modules? of the border ha(?:s|ve) the wrong colour, and (\d+) may"),
    (6, r"More than \d+ codewords are wrong(?: in block (\d+) of \d+)?\. (?:Its|The) \d+ check "
        r"codewords correct no more"),
    (7, r"The value of data codeword (\d+), 0 or 242 to 255, is one that the standard reserves\."),
    (8, r"Data codeword (\d+) begins (structured append|reader programming|macro 05|macro 06), which is read only"),
    (9, r"No character follows the Upper Shift that data codeword (\d+), or the pair that begins there, holds\."),
    (10, r"A pair of C40, Text or X12 codewords doesn’t stand for three values: data codeword (\d+)"),
    (11, r"A value in a pair of C40 or Text has no meaning: data codeword (\d+)"),
    (12, r"The length of the Base 256 segment at data codeword (\d+) is missing"),
    (13, r"The run or the symbol ends before the character that is due after the Upper Shift that data codeword "
         r"(\d+), or"),
]


def find(name):
    return on.page.find_element(By.ID, name)


def performance():
    """What the browser counts of the page, by its names."""
    on.page.execute_cdp_cmd("Performance.enable", {})
    return {it["name"]: it["value"] for it in on.page.execute_cdp_cmd("Performance.getMetrics", {})["metrics"]}


def processor_time():
    """Milliseconds of a processor that the page has taken, whatever else the machine does."""
    return 1000 * performance()["ProcessTime"]


def address():
    """The page's address, of which the driver may hear a little later."""
    return run("return location.href")


def text_of(name):
    return run("return document.getElementById(arguments[0]).textContent", name).strip()


def attribute(name, which):
    return find(name).get_attribute(which)


def value_of(name):
    return attribute(name, "value")


def is_seen(name):
    return find(name).is_displayed()


def run(script, *arguments):
    return on.page.execute_script(script, *arguments)


def box(name):
    """Where an element stands in the window."""
    return run("return document.getElementById(arguments[0]).getBoundingClientRect().toJSON()", name)


def fits_across():
    return run("return document.documentElement.scrollWidth <= innerWidth")


def texts_of(where):
    """The texts of all elements that a selector names."""
    return run("return [...document.querySelectorAll(arguments[0])].map((it) => it.textContent)", where)


def press(where, which=0):
    """Clicks one of the elements that a selector names, by its number, from the end if negative, or by its text."""
    do("const all = [...document.querySelectorAll(given[0])];"
       "(all.find((it) => it.textContent === given[1]) ?? all.at(given[1])).click()", where, which)


def focused():
    """Which element has the focus."""
    return run("return document.activeElement.id")


def send(*some):
    """Sends keys to the element that has the focus."""
    on.page.switch_to.active_element.send_keys(*some)
    settle()


def give(field, name, body=None):
    """Chooses a file of this name in a field, of this body if one is given; and returns where it lies."""
    file = on.folder / name
    if body is not None:
        file.write_bytes(body)
    find(field).send_keys(str(file))
    return file


def begin_saving():
    """Has what is saved from here on come into an empty folder."""
    on.downloads = pathlib.Path(tempfile.mkdtemp(dir=on.folder))
    on.page.execute_cdp_cmd("Browser.setDownloadBehavior", {"behavior": "allow", "downloadPath": str(on.downloads)})


def saved(name, act):
    """The file that a button or an act saves, once it has stopped growing. It comes into an empty folder, and so isn't
    one of before; then it can be given."""
    begin_saving()
    file, sizes = on.downloads / name, [0]
    act() if callable(act) else push(act)

    def is_whole():
        sizes.append(file.stat().st_size if file.exists() else 0)
        return 0 < sizes[-1] == sizes[-2]

    return file.rename(on.folder / name).read_bytes() if wait_for(is_whole) else b""


def table_saved():
    """The rows of the CSV of what was found, as it is saved."""
    return list(csv.reader(io.StringIO(saved("found.csv", "found-csv").decode("utf-8-sig"))))


def shown():
    return run(SHOWN)


def fetched():
    """What the page has fetched from elsewhere."""
    return run("""return performance.getEntriesByType('resource').map((it) => it.name)
               .filter((it) => !/^(data|blob):/.test(it))""")


def take_time(milliseconds=None):
    """Lets each picture take so many milliseconds by the clock; or, whatever else the machine does, the usual work."""
    run("mitsubadoor.limits.time = arguments[0] ?? Infinity", milliseconds)


# Has what is copied collected, in place of the clipboard.
COLLECT = "globalThis.copied = []; navigator.clipboard.writeText = async (text) => { copied.push(text); }"


def settle():
    """Waits until the page's workers have answered all that they were asked."""
    on.page.execute_async_script("mitsubadoor.idle().then(() => arguments[0]())")


# For scripts of tests: an element by its name or a selector, a value that is put into a field as typing does or chosen
# in a list, and a tap at a share of the symbol's width and height.
ACTS = """
    const at = (it) => (it instanceof Node ? it : document.getElementById(it) ?? document.querySelector(it));
    const giving = (kind) => (it, value) => {
        at(it).value = value;
        at(it).dispatchEvent(new Event(kind, { bubbles: true }));
    };
    const put = giving("input"), choose = giving("change");
    const tap = (across, down) => {
        const box = at("symbol").getBoundingClientRect();
        const place = { clientX: box.left + across * box.width, clientY: box.top + down * box.height };
        at("symbol").dispatchEvent(new PointerEvent("click", { pointerType: "touch", bubbles: true, ...place }));
    };"""


def do(script, *arguments):
    """Does things in the page, which are `given` these, and waits until all is done."""
    why = on.page.execute_async_script(f"""{ACTS} const given = [...arguments], done = given.pop();
        const {{ idle }} = mitsubadoor;
        (async () => {{ {script}; await idle(); }})().then(() => done(), (why) => done(String(why)));""", *arguments)
    if why:
        raise RuntimeError(why)


def put(where, text):
    """Gives a field a value as typing does, but all at once."""
    do("put(...given)", where, text)


def after_each(name, texts, script):
    """What a script gives after each of these texts, which are put into a field one after the other."""
    with unseen():
        return on.page.execute_async_script(f"""{ACTS} const [name, texts, done] = arguments, told = [];
            const tell = async () => {{ {script} }};
            (async () => {{
                for (const text of texts) {{ put(name, text); await mitsubadoor.idle(); told.push(await tell()); }}
                done(told);
            }})();""", name, texts)


def push(*names):
    do("for (const name of given) { at(name).click(); await idle(); }", *names)


def choose(name, value):
    """Chooses one of a list, as a person does."""
    do("choose(...given)", name, value)


def started():
    if not wait_for(lambda: run("return 'mitsubadoor' in globalThis")):
        expect("the page starts", text_of("broken"), "")
    take_time()
    settle()


def reload():
    on.page.refresh()
    started()


def visit(where="", is_new=True):
    """Opens the page, or another address, with an empty storage, as for who comes for the first time, or with what is
    kept. In WebKit the page empties it."""
    address, has_tools = on.page.current_url.partition("#")[0], hasattr(on.page, "execute_cdp_cmd")
    if is_new and not has_tools:
        run("if ('mitsubadoor' in globalThis) localStorage.clear()")
    on.page.get("about:blank")  # else an address that differs in its fragment alone loads nothing
    if is_new and has_tools:
        on.page.execute_cdp_cmd("Storage.clearDataForOrigin", {"origin": "file://", "storageTypes": "local_storage"})
    on.page.get(where if ":" in where else address + where)
    started()


def area_of(slot):
    """Where text is entered on one side of the comparison."""
    return find(f"slot-{slot}").find_element(By.TAG_NAME, "textarea")


def fill(slot, text):
    """Enters a text on one side of the comparison."""
    put(area_of(slot), text)


def head():
    """What the comparison says: its head, and the words below."""
    return texts_of("#same strong, #same p")


def write(message, profile=0, size="square"):
    """Writes a message in the smallest size of a shape, or in one size, which is named by rows and columns."""
    shape = "one" if size[0].isdigit() else size
    do("""const [profile, shape, size, message] = given;
        for (const name of ["tab-make", "kind-message", `profile-${profile}`]) { at(name).click(); await idle(); }
        if (at("shape").value !== shape) { choose("shape", shape); await idle(); }
        if (shape === "one") { choose("size", size); await idle(); }
        put("message", message);""", profile, shape, size, message)


def task():
    return run("return mitsubadoor.store.task")


def learn():
    """Opens the task in which symbols are damaged, with the symbol that is at hand."""
    if task() != "learn":
        push("tab-learn")


def unfold(*names):
    do("for (const name of given) at(name).open = true", *names)


def fold(*names):
    do("for (const name of given) at(name).open = false", *names)


def usable(name):
    return find(name).get_attribute("aria-disabled") != "true"


def grid():
    return run("return mitsubadoor.gridText(mitsubadoor.mark)").rstrip("\n")


def agree(name):
    expect(name, as_program(shown()), told([grid()])[0])


def flat(text):
    return text.replace("\n", "")


def changed(before, after):
    return [k for k, (a, b) in enumerate(zip(flat(before), flat(after))) if a != b]


def turned(text, quarters, mirrored, inverted):
    """A grid mirrored left to right, then turned clockwise by quarters, and inverted."""
    rows = text.rstrip("\n").split("\n")
    if mirrored:
        rows = [row[::-1] for row in rows]
    for _ in range(quarters):
        rows = ["".join(column)[::-1] for column in zip(*rows)]
    return "\n".join(rows).translate(str.maketrans("01", "10") if inverted else {})


QUARTERS = ["", "turned a quarter to the right", "turned upside down", "turned a quarter to the left"]
# The sixteen ways in which a grid may stand, as `turned` takes them, and how the page says so.
WAYS = {(quarters, mirrored, inverted): ", and ".join(filter(None, [inverted and "inverted, light for dark", mirrored
        and "mirrored left to right", QUARTERS[quarters]]))
        for inverted in (False, True) for mirrored in (False, True) for quarters in range(4)}


def offset(cell, columns, rows=None):
    """Where a module of a square of this side, or of a rectangle, lies from the middle of the symbol, in pixels."""
    scale = find("symbol").rect["width"] / (columns + 2 * QUIET)
    middle = lambda length: length / 2 + QUIET
    across, down = cell % columns - middle(columns), cell // columns - middle(rows or columns)
    return [round((at + QUIET + 0.5) * scale) for at in (across, down)]


def metrics(width, height, mobile=False, scale=1):
    """Makes the window of this size, or a phone's."""
    how = {"width": width, "height": height, "deviceScaleFactor": scale, "mobile": mobile}
    on.page.execute_cdp_cmd("Emulation.setDeviceMetricsOverride", how)
    wait_for(lambda: run("return [innerWidth, innerHeight]") == [width, height])


def usual_metrics():
    on.page.execute_cdp_cmd("Emulation.clearDeviceMetricsOverride", {})
    wait_for(lambda: run("return innerWidth") == WIDTH)


def media(**features):
    """Emulates media features, such as prefers_color_scheme="dark"."""
    named = {name.replace("_", "-"): value for name, value in features.items()}
    each = [{"name": name, "value": value} for name, value in named.items()]
    on.page.execute_cdp_cmd("Emulation.setEmulatedMedia", {"features": each})
    wait_for(lambda: run("""return Object.entries(arguments[0])
        .every(([name, value]) => matchMedia(`(${name}: ${value})`).matches)""", named))


@contextlib.contextmanager
def unseen(style="display: none"):
    """Meanwhile nothing is laid out or painted, or, if it is only "visibility: hidden", painted: that takes most of the
    time where only texts are compared."""
    run("document.documentElement.style = arguments[0]", style)
    try:
        yield
    finally:
        run("document.documentElement.style = ''")


def to_top():
    """Scrolls to the top of the page, where it stays: what a swipe has set going has come to rest."""
    on.page.execute_async_script("""
        const [done] = arguments;
        let frames = 0;
        const look = () => {
            if (scrollY) { scrollTo(0, 0); frames = 0; } else frames++;
            if (frames > 10) done(); else requestAnimationFrame(look);
        };
        look();""")


def acting():
    return ActionChains(on.page, duration=0)


def click(*cells, side=10, rows=None):
    learn()
    for cell in cells:
        acting().move_to_element_with_offset(find("symbol"), *offset(cell, side, rows)).click().perform()
        settle()


def drag(*cells, side=10, rows=None):
    """Drags the mouse from one module over others."""
    first, *others = [offset(cell, side, rows) for cell in cells]
    chain = acting().move_to_element_with_offset(find("symbol"), *first).click_and_hold()
    for place in others:
        chain.move_to_element_with_offset(find("symbol"), *place)
    chain.release().perform()
    settle()


# Seconds that a thing may take to come, on however busy a machine; and where bugs are planted.
LONGEST, LONGEST_OF_BUGS = 60, 20


def wait_for(what, seconds=None):
    """Waits until something is so, and returns it; what it is at the end, if it doesn't come."""
    end = time.monotonic() + (seconds or (LONGEST_OF_BUGS if count.stops else LONGEST))
    while time.monotonic() < end:
        got = what()
        if got:
            return got
        time.sleep(0.05)
    return what()


def drawn(columns, rows=None, share=0.12):
    """The grid of a square of this side, or of a rectangle, according to the pixels of the screen, taken at a corner of
    each module, away from crosses and numbers, or at another share of it; also checks the quiet zone."""
    picture = find("symbol").screenshot_as_base64
    text = on.page.execute_async_script("""
        const [picture, columns, rows, quiet, share, done] = arguments, image = new Image();
        const across = columns + 2 * quiet, down = rows + 2 * quiet;
        image.src = "data:image/png;base64," + picture;
        image.decode().then(() => {
            const { naturalWidth: width, naturalHeight: height } = image;
            const pen = Object.assign(document.createElement("canvas"), { width, height }).getContext("2d");
            pen.drawImage(image, 0, 0);
            const { data } = pen.getImageData(0, 0, width, height), rows = [];
            const at = (line, length, all) => Math.min(length - 1, Math.floor(((line + share) * length) / all));
            for (let r = 0; r < down; r++) {
                let row = "";
                for (let c = 0; c < across; c++) {
                    const p = 4 * (at(r, height, down) * width + at(c, width, across));
                    row += data[p] + data[p + 1] + data[p + 2] < 384 ? 1 : 0;
                }
                rows.push(row);
            }
            done(rows.join("\\n"));
        });""", picture, columns, rows or columns, QUIET, share)
    lines = text.split("\n")
    around = lines[:QUIET] + lines[-QUIET:] + [line[:QUIET] + line[-QUIET:] for line in lines]
    assert "1" not in "".join(around), "a quiet zone that isn't"
    return "\n".join(line[QUIET:-QUIET] for line in lines[QUIET:-QUIET])


def drawn_rows(content, height, scale):
    """Where a symbol stands that is drawn in a PDF as rectangles, and its grid: [left, top, module, rows], in
    millimetres from the upper left corner of a page of this height."""
    numbers = [[float(number) * scale for number in line.split()[:4]] for line in content.split("\n")
               if line.endswith(" re")]
    module, left, right = numbers[0][3], min(x for x, *_ in numbers), max(x + width for x, _, width, _ in numbers)
    top = height - max(y + tall for _, y, _, tall in numbers)
    columns, down = round((right - left) / module), round((height - top - min(y for _, y, *_ in numbers)) / module)
    rows = [["0"] * columns for _ in range(down)]
    for x, y, width, tall in numbers:
        assert abs(tall - module) < 0.001, content
        row, column, length = (round(it / module) for it in (height - y - tall - top, x - left, width))
        rows[row][column : column + length] = "1" * length
    return [left, top, module, "\n".join("".join(row) for row in rows)]


def coloured():
    """The colours in the symbol other than dark and light, and what is marked: turned over, or wrong from the start."""
    return run("""
        const fills = [...document.querySelectorAll("#symbol > path")].map((path) => path.getAttribute("fill"))
            .filter((fill) => !["none", "#14181f", "url(#hatch)"].includes(fill));
        return [...fills, ...["turned", "wrong"].filter((it) => document.querySelector(`#symbol .${it}`))];""")


def cells():
    """What each codeword's cell shows: its value, what it is corrected to, and its colour."""
    unfold("details")
    got = run("""return [...document.querySelectorAll('#words > b')]
        .map((b) => [b.firstChild.textContent, (b.querySelector('small') || b).textContent, b.className])""")
    return [(int(held), int(below[1:]) if below.startswith("→") else int(held), kind) for held, below, kind in got]


def pointed(words=None):
    """Points at these codewords, or at all: what is told of each, and the numbers in the symbol with their places."""
    unfold("details")
    return run("""
        const [words] = arguments, cells = [...document.querySelectorAll("#words > b")];
        const number = (bit, name) => Math.floor(bit.getAttribute(name));
        return cells.filter((_, w) => !words || words.includes(w)).map((cell) => {
            cell.dispatchEvent(new PointerEvent("pointerover", { bubbles: true }));
            const bits = [...document.querySelectorAll("#symbol .bits text")];
            return [document.getElementById("about").textContent,
                bits.map((bit) => [bit.textContent, number(bit, "x"), number(bit, "y")])];
        });""", words)


def value_at(bits, text):
    """The value of the modules that are numbered from 1, the highest, to 8."""
    rows = text.split("\n")
    assert sorted(number for number, _, _ in bits) == [str(k) for k in range(1, 9)], bits
    return sum(int(rows[y][x]) << (8 - int(number)) for number, x, y in bits)
