"""What the page reads of pictures and how soon it answers, beside native dm_sample in the same run, for docs/PAGE.md:
pictures of bench/photographs, by seeds of their own; and some as phones and cameras take them, which are made
here. Each takes the usual work, so that what is read doesn't depend on what else the machine does. Times are in
milliseconds: of a processor, of all that the browser's processes and dm_sample take until the first answer is on the
screen, and of that what its worker takes, in which pictures are opened and searched; and by the clock."""
import collections
import json
import pathlib
import random
import resource
import statistics
import subprocess
import time

from tests.page import browser
from tests.page.conduct import linked
from tests.page.everyone import begun_with
from tests.page.parts import load
from tests.page.photographs import made
from tests.page.stage import DEBIANS, Keys, find, on, push, put, run, settle, texts_of, wait_for, written
from tests.support import places

PAGE = places.path("web", "out", "mitsubadoor.html")
SAMPLER = places.path("sampler", "out", "dm_sample")
SEED, SHARE = "page", 24
PHONES, LENGTHS = 180, (3, 8, 16, 30, 60, 110, 190, 5)  # pictures, and letters of their messages
STARTS, KEYS = 12, 30
SIDES = {16: 12, 52: 200, 104: 810}  # of a symbol, and how many letters make one
# Seconds after which nothing is drawn of an answer any more, and after which what was entered is kept and linked too.
DRAWN, CALM = 0.1, 0.5

# Has files brought into the page, where choosing one of them is an act of the page alone.
BRING = """
    document.body.append(Object.assign(document.createElement("input"), { type: "file", id: "brought" }));
    const desk = mitsubadoor.desks.pictures, ask = desk.ask.bind(desk);
    desk.ask = async (kind, given, lane, how) => {
        if (kind === "rest") await new Promise((go) => { watched.go = go; });
        const tell = (progress) => { watched.open ??= performance.now(); how?.tell?.(progress); };
        return ask(kind, given, lane, { ...how, tell });
    };"""
# Chooses a file, and tells when the picture was open, and when the frame came in which something is said of it. Until
# it may go on, no other symbols are looked for.
CHOOSE = """
    const [done] = arguments, at = (id) => document.getElementById(id), list = new DataTransfer();
    globalThis.watched = { open: null, go: () => {} };
    const begun = performance.now(), since = (time) => (time ?? begun) - begun;
    const tell = () => done([since(watched.open), since(performance.now())]);
    const watch = new MutationObserver(() => {
        if (at("picture-hint").textContent.endsWith("…")) return;
        watch.disconnect();
        requestAnimationFrame(() => setTimeout(tell, 0));
    });
    watch.observe(at("picture-hint"), { childList: true });
    list.items.add(at("brought").files[0]);
    at("picture").files = list.files;
    at("picture").dispatchEvent(new Event("change"));"""
SAID = "#found-are button:not(.unread) code"
# The same for a key, and for the start of the page.
WATCH_KEYS = """
    globalThis.keyed = [];
    let begun = 0;
    document.getElementById('message').addEventListener('keydown', () => { begun = performance.now(); }, true);
    new MutationObserver(() => requestAnimationFrame(() => setTimeout(() => {
        if (begun) keyed.push(performance.now() - begun);
        begun = 0;
    }, 0))).observe(document.getElementById('says'), { childList: true, characterData: true, subtree: true });"""
WATCH_START = """
    const look = () => {
        if ('mitsubadoor' in globalThis) globalThis.startedAt = performance.now(); else setTimeout(look, 0);
    };
    look();"""


def median(times):
    return round(statistics.median(times))


# ---- The sets


def phone_set():
    """Pictures of 0.3 to 12 megapixels: a label on a table, turned, with a symbol of side 10 to 52, text and bars."""
    folder, chance = on.folder / "phone", random.Random("phones")
    folder.mkdir()
    letters = lambda count: "".join(chance.choice("ABCDEFGHIJKLMNOPQRSTUVWXYZ0123456789") for _ in range(count))
    texts = [letters(LENGTHS[k % len(LENGTHS)]) for k in range(PHONES)]
    (folder / "lines.json").write_text(json.dumps([written(text).split("\n") for text in texts]))
    subprocess.run([DEBIANS, places.path("tests", "page", "phones.py"), folder], check=True)
    return folder, [{"file": f"phone-{k:03d}.jpg", "messages": [text]} for k, text in enumerate(texts)]


# ---- One picture

def spent():
    """The nanoseconds that each thread of the browser's processes, but the driver, has taken, and its name."""
    leaders, threads = {service.process.pid for service in browser.started}, {}
    for process in pathlib.Path("/proc").glob("[0-9]*"):
        try:
            leader = int((process / "stat").read_text().rpartition(")")[2].split()[3])
            if leader in leaders and int(process.name) not in leaders:
                for thread in process.glob("task/[0-9]*"):
                    taken = int((thread / "schedstat").read_text().split()[0])
                    threads[thread.name] = taken, (thread / "comm").read_text()
        except OSError:
            pass  # it has ended meanwhile
    return threads


def by_page(file):
    """What the page says stands in a picture; when its first answer was on the screen, by the clock and of a processor,
    and of that what the worker took; when the picture was open."""
    find("brought").send_keys(str(file))
    linked()
    time.sleep(CALM)
    before = spent()
    opened, first = on.page.execute_async_script(CHOOSE)
    time.sleep(DRAWN)
    taken = [(used - before.get(thread, (0,))[0], name) for thread, (used, name) in spent().items()]
    all_of, worker = (sum(used for used, name in taken if name.startswith(begin)) / 1e6 for begin in ("", "Dedicated"))
    run("watched.go()")
    settle()
    said = texts_of(SAID)
    if not said and run("return document.getElementById('state').textContent") == "Read":
        said = [run("return document.getElementById('says').textContent")]
    return said, first, all_of, worker, opened


def natively(file, *more):
    """What dm_sample says stands in a picture, and how long it took, by the clock and of a processor."""
    spent_by = lambda: sum(resource.getrusage(resource.RUSAGE_CHILDREN)[:2])
    words, begun, before = [SAMPLER, "--json", *more, str(file)], time.perf_counter(), spent_by()
    done = subprocess.run(words, stdout=subprocess.PIPE, stderr=subprocess.DEVNULL, check=False).stdout
    taken = 1000 * (time.perf_counter() - begun), 1000 * (spent_by() - before)
    return [json.loads(line)["message"] for line in done.decode().splitlines()], *taken


def right_and_wrong(said, messages):
    right = (collections.Counter(said) & collections.Counter(messages)).total()
    return right, len(said) - right


def of_set(name, folder, pictures):
    """Counts and times of a set, by the page and natively, one after the other for each picture."""
    page, native, opening, times = [0, 0], [0, 0], [], {"of a processor": [], "of the worker": [], "by the clock": []}
    for picture in pictures:
        file = folder / picture["file"]
        said, first, taken, worker, opened = by_page(file)
        all_of, *_ = natively(file, "--all")
        _, alone, beside = natively(file)
        for counts, told in ((page, said), (native, all_of)):
            for k, number in enumerate(right_and_wrong(told, picture["messages"])):
                counts[k] += number
        if right_and_wrong(said, picture["messages"])[0] < right_and_wrong(all_of, picture["messages"])[0]:
            print(f"  only natively: {picture['file']}", flush=True)
        opening.append(opened)
        for both, pair in zip(times.values(), ((taken, beside), (worker, beside), (first, alone))):
            both.append(pair)
    symbols = sum(len(picture["messages"]) for picture in pictures)
    print(f"{name}: {len(pictures)} pictures, {symbols} symbols; read (wrong) by the page {page[0]} ({page[1]}), "
          f"natively {native[0]} ({native[1]}); open after {median(opening)}", flush=True)
    for what, pairs in times.items():
        (ours, theirs), ratio = zip(*pairs), statistics.median(one / other for one, other in pairs)
        print(f"  to the first answer, {what}: at the median {median(ours)}, on average "
              f"{round(statistics.mean(ours))}; natively {median(theirs)}, {round(statistics.mean(theirs))}; ratio "
              f"{statistics.median(ours) / statistics.median(theirs):.2f}, of each picture's {ratio:.2f}", flush=True)


# ---- Starts and keys

def starts():
    on.page.execute_cdp_cmd("Page.enable", {})
    painted, ready = [], []
    with begun_with(WATCH_START):
        for _ in range(STARTS):
            load(PAGE)
            wait_for(lambda: run("return globalThis.startedAt"))
            painted.append(run("return performance.getEntriesByName('first-contentful-paint')[0]?.startTime ?? 0"))
            ready.append(run("return startedAt"))
    print(f"start: first paint {median(painted)}, takes input {median(ready)}; at best {round(min(painted))}, "
          f"{round(min(ready))}", flush=True)


def keys():
    load(PAGE)
    push("tab-make")
    run(WATCH_KEYS)
    for side, count in SIDES.items():
        put("message", "A" * count)
        shown = run("return document.querySelector('#facts dd').textContent")
        run("keyed.length = 0")
        area = find("message")
        for k in range(KEYS):
            area.send_keys(Keys.END, "B" if k % 2 == 0 else Keys.BACKSPACE)
            settle()
        times = run("return keyed")
        print(f"a key at side {side} ({shown}): {median(times)}, at best {round(min(times))}, of {len(times)}",
              flush=True)


def measured():
    starts()
    keys()
    load(PAGE)
    push("tab-read")
    run(BRING)
    kinds = {"photographs": [], "hard ones": ["--hard"]}
    sets = {name: made(name, SHARE, "--seed", SEED, *kind) for name, kind in kinds.items()}
    for name, (folder, pictures) in (*sets.items(), ("of phones and cameras", phone_set())):
        of_set(name, folder, pictures)
