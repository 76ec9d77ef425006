"""Photographs: the share of bench/photographs that the page reads, and that dmtxread reads; and the camera."""
import base64
import json
import pathlib
import shutil
import subprocess

from tests.page.bounds import drop
from tests.page.pictures import noise, opened, png
from tests.page.stage import (DEBIANS, attribute, expect, is_seen, on, push, put, run, settle, shown, soon, text_of,
                              texts_of, unseen, wait_for, written)

MAKER = pathlib.Path(__file__).resolve().parents[2] / "bench" / "photographs"
SHARE = 17  # of each kind every so many: they have different sizes
BESIDE = 1000  # milliseconds that dmtxread may take for one


def made(name, share, *more):
    """Of each kind of picture every so many, in a folder of this name, and what they say; none without their maker."""
    folder = on.folder / name
    if not (folder / "index.json").exists():
        if not MAKER.exists():
            print("left out: photographs, since bench/photographs isn't there")
            return folder, []
        if subprocess.run([DEBIANS, "-c", "import cv2, numpy"], stderr=subprocess.DEVNULL, check=False).returncode:
            print("left out: photographs; not installed: python3-opencv or python3-numpy")
            return folder, []
        subprocess.run([DEBIANS, MAKER, "--program", on.program, "--share", str(share), *more, folder], check=True,
                       timeout=1800)
    return folder, json.loads((folder / "index.json").read_text())


@unseen()
def photographs():
    folder, pictures = made("photographs", SHARE)
    push("tab-read")
    read = 0
    for picture in pictures:
        file = folder / picture["file"]
        said = opened(file.name, file.read_bytes())
        is_read = shown()["state"] == "Read"
        expect(f"{file.name} isn't misread", is_read and shown()["says"] not in picture["messages"], False)
        read += is_read
        if is_read and not said.startswith(f"{file.name}: "):
            expect(f"{file.name}: what is said", said, file.name)
    if pictures:
        expect(f"{read} of {len(pictures)} photographs read, at least nine of ten", 10 * read >= 9 * len(pictures),
               True)
        expect("at least as many as dmtxread", dmtxread_misses(folder, pictures, len(pictures) - read), True)
        print(f"photographs: {read} of {len(pictures)} read")


def dmtxread_misses(folder, pictures, least):
    """Whether dmtxread misses so many of the pictures: each miss takes it a second, so no more are looked for."""
    missed = 0
    if not shutil.which("dmtxread"):
        print("left out: photographs beside dmtxread, which isn't installed")
        return True
    for picture in pictures:
        if missed >= least:
            break
        words = ["dmtxread", "-N1", f"-m{BESIDE}", str(folder / picture["file"])]
        said = subprocess.run(words, stdout=subprocess.PIPE, stderr=subprocess.DEVNULL, check=False).stdout
        missed += said.decode("latin-1") not in picture["messages"]
    return missed >= least


# A camera, perhaps with a light, before which pictures can be held: those of `shown`. Each stream waits until it is
# allowed.
CAMERA = """
    const [bodies, hasLight] = arguments;
    Object.assign(globalThis, { shown: [], lit: [], streams: [], allowed: [] });
    const canvas = Object.assign(document.createElement('canvas'), { width: 640, height: 480 });
    const pen = canvas.getContext('2d');
    const imageOf = (body) => Object.assign(new Image(), { src: 'data:image/png;base64,' + body });
    globalThis.pictures = bodies.map(imageOf);
    globalThis.painter = setInterval(() => {
        pen.fillStyle = '#bbb';
        pen.fillRect(0, 0, 640, 480);
        for (const k of globalThis.shown) pen.drawImage(pictures[k], 20 + 310 * k, 60);
    }, 50);
    const allow = () => {
        const stream = canvas.captureStream(20);
        globalThis.track = stream.getVideoTracks()[0];
        track.getCapabilities = () => ({ torch: hasLight });
        track.applyConstraints = async ({ advanced: [{ torch }] }) => { lit.push(torch); };
        streams.push(stream);
        return stream;
    };
    const getUserMedia = () => new Promise((then) => allowed.push(() => then(allow())));
    Object.defineProperty(navigator, 'mediaDevices', { configurable: true, value: { getUserMedia } });
    document.getElementById('camera').hidden = false;"""
ALLOW = "for (const each of allowed.splice(0)) each()"
FOUND = "#found-are :is(code, span)"


def camera_on(grids=(), has_light=False):
    """Switches a camera on, before which the pictures of these grids can be held."""
    run(CAMERA, [base64.b64encode(png(text.split("\n"), 12, 3)).decode() for text in grids], has_light)
    run(f"document.getElementById('camera').click(); {ALLOW}")


def camera():
    """A camera that shows a symbol after a while, and then another beside it: it looks on, outlines what it sees and
    lists each once; the light, where the device has one."""
    push("tab-read", "example-c40")
    messages = ["by the camera", "and one more"]
    grids = [written(message) for message in messages]
    asked = lambda: run("return mitsubadoor.desks.pictures.count")
    before = asked()
    camera_on(grids, True)
    wait_for(lambda: asked() > before + 1)
    expect("the camera looks on", (is_seen("viewfinder"), shown()["says"]), (True, "Every answer is proved."))
    for k, message in enumerate(messages):
        run("globalThis.shown = arguments[0]", list(range(k + 1)))
        soon(f"the camera reads {message!r}", lambda: (shown()["state"], shown()["says"]), ("Read", message))
        soon("what is listed", lambda: texts_of(FOUND), messages[: k + 1])
        outlines = "return document.querySelectorAll('#in-camera polygon').length"
        soon("what is outlined", lambda: run(outlines), k + 1)
    before = asked()
    wait_for(lambda: asked() > before + 2)
    expect("each is listed once", texts_of(FOUND), messages)
    expect("the camera is on all the time", (is_seen("viewfinder"), run("return track.readyState")), (True, "live"))
    for name, lit, is_pressed in (("the light is on", [True], "true"), ("and off", [True, False], "false")):
        run("document.getElementById('torch').click()")  # (while the camera goes on the page is never idle)
        soon(name, lambda: (run("return lit"), attribute("torch", "aria-pressed")), (lit, is_pressed))
    run("document.getElementById('camera-off').click()")
    settle()
    expect("the list stays when it is off", (texts_of(FOUND), run("return track.readyState")), (messages, "ended"))
    run("clearInterval(painter)")
    camera_on(grids)
    wait_for(lambda: is_seen("viewfinder"))
    expect("without a light", is_seen("torch"), False)
    expect("the camera begins another list", texts_of(FOUND), [])
    run("document.getElementById('camera-off').click(); clearInterval(painter); delete navigator.mediaDevices")


def camera_ends():
    """The camera is off after Stop, however often it was asked for, when the other pane is opened, the page is out of
    sight, or something else is entered; what is entered stays."""
    push("tab-read", "example-c40")
    run(CAMERA, [], False)
    tracks = lambda: run("return streams.flatMap((stream) => stream.getTracks().map((track) => track.readyState))")
    allow = lambda: run(ALLOW)

    def on_again():
        run("streams.length = 0; document.getElementById('camera').click()")
        allow()
        wait_for(lambda: is_seen("viewfinder"))
        expect("the camera is on", tracks(), ["live"])
    run("const button = document.getElementById('camera'); button.click(); button.click()")
    allow()
    wait_for(lambda: is_seen("viewfinder"))
    run("document.getElementById('camera-off').click()")
    said = lambda: text_of("picture-hint")
    seen = (set(tracks()), is_seen("viewfinder"), said())
    expect("asked for twice and stopped", seen, ({"ended"}, False, "The camera is off."))
    on_again()
    push("tab-make")
    expect("behind the other pane", tracks(), ["ended"])
    push("tab-read")
    why = "The camera is off, since another task was opened."
    expect("behind the other pane, said", (said(), shown()["says"]), (why, "Every answer is proved."))
    on_again()
    put("grid", written("typed"))
    why = "The camera is off, since something else was entered."
    expect("a grid that was typed", (tracks(), said(), shown()["says"]), (["ended"], why, "typed"))
    on_again()
    run("""Object.defineProperty(document, 'hidden', { configurable: true, value: true });
           document.dispatchEvent(new Event('visibilitychange'));
           delete document.hidden;""")
    expect("out of sight", (tracks(), said()), (["ended"], "The camera is off, since the page was out of sight."))
    run("streams.length = 0; document.getElementById('camera').click()")
    push("tab-make")
    expect("allowed before the other pane was opened, or not at all", tracks(), [])
    allow()
    soon("allowed after that", tracks, ["ended"])
    beside_pictures(allow)
    run("clearInterval(painter); delete navigator.mediaDevices")


def beside_pictures(allow):
    """A picture that waits for another is looked at, though the camera is on by then."""
    push("tab-read")
    asked = lambda: run("return mitsubadoor.desks.pictures.count")
    drop("body", [("noise.png", "image/png", noise(53, 9))])
    drop("body", [("waiting.png", "image/png", png(written("in its turn").split("\n"), 5, 2))])
    before = asked()
    run("document.getElementById('camera').click()")
    allow()
    wait_for(lambda: asked() > before)
    soon("a picture that waits", lambda: text_of("picture-hint"), "waiting.png: 16 × 16. Read as it stands.")
    run("document.getElementById('camera-off').click()")
    settle()


PARTS = [camera, camera_ends, photographs]
