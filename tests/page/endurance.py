"""What goes on for long: 2,000 acts leave nothing behind, and a page that is out of sight does nothing."""
import time

from tests.page.bounds import drop
from tests.page.photographs import camera_on
from tests.page.pictures import noise
from tests.page.stage import (ACTS, expect, is_seen, learn, on, performance, push, run, settle, soon, unfold, unseen,
                              wait_for, write, written)

MANY, BEFORE = 2000, 200  # the first ones fill what is kept of each size of symbol
GROWTH = {"Nodes": 100, "JSEventListeners": 10, "JSHeapUsedSize": 1 << 20}

DONE = ACTS + """
    const [count, grid, done] = arguments;
    const point = (k) => at(`word-${k % 8}`)?.dispatchEvent(new PointerEvent("pointerover", { bubbles: true }));
    const push = (id) => () => at(id).click();
    const acts = [push("tab-make"), (k) => put("message", "A".repeat(k % 40)), push("profile-1"), push("profile-0"),
        () => put("message", "caf\\u00e9"), push("tab-read"), () => put("grid", grid), () => put("grid", "12"),
        push("tab-learn"), push("learn-write"), (k) => tap(0.3 + (k % 7) / 20, 0.4), push("one-more"), point,
        push("to-limit"), push("scratch"), push("undo"), push("undo"), push("redo"), push("step-on"), push("undo-all"),
        push("zoom-in"), push("zoom-out"), (k) => put("border-limit", String(k % 9)), push("usual"), push("step-back")];
    (async () => {
        for (let k = 0; k < count; k++) {
            acts[k % acts.length](k);
            await mitsubadoor.idle();
        }
        done();
    })();"""
TAPS = ACTS + """
    const [count, done] = arguments, { mark, idle } = mitsubadoor;
    for (let k = 0; k < count; k++) tap(0.4, 0.4);
    idle().then(() => done(mark.past.length));"""
MOST_ACTS = 500


def measured():
    """What the page holds, after all that it doesn't need has been given up."""
    write("123456")
    push("tab-make")
    on.page.execute_cdp_cmd("HeapProfiler.collectGarbage", {})
    return {name: value for name, value in performance().items() if name in GROWTH}


@unseen("visibility: hidden")
def without_growth():
    learn()
    unfold("lesson", "details")
    acts = lambda some: on.page.execute_async_script(DONE, some, written("Mitsubadoor"))
    acts(BEFORE)
    before = measured()
    acts(MANY)
    after = measured()
    grown = {name: after[name] - before[name] for name, most in GROWTH.items() if after[name] - before[name] > most}
    expect(f"what has grown in {MANY} acts", grown, {})
    said = [entry["message"] for entry in on.page.get_log("browser")]
    expect("console", [message for message in said if "Throttling navigation" not in message], [])
    learn()
    expect("how many acts can be undone", on.page.execute_async_script(TAPS, MOST_ACTS + 200), MOST_ACTS)


WATCH = """
    globalThis.calls = [];
    globalThis.kept = {};
    for (const name of ["setTimeout", "setInterval", "requestAnimationFrame"]) {
        kept[name] = globalThis[name];
        globalThis[name] = (...given) => { calls.push(name); return kept[name].call(globalThis, ...given); };
    }
    kept.post = Worker.prototype.postMessage;
    Worker.prototype.postMessage = function (...given) {
        calls.push("postMessage");
        return kept.post.apply(this, given);
    };
    globalThis.again = () => {
        for (const [name, value] of Object.entries(kept)) if (name !== "post") globalThis[name] = value;
        Worker.prototype.postMessage = kept.post;
    };"""
WATCHED = 1.5  # seconds


def done_meanwhile():
    """What the page does in a while in which nothing is asked of it; what is kept a little later may come first."""
    run(WATCH)
    time.sleep(WATCHED)  # (a script that waits in the page would set a timer by itself, in some drivers)
    return run("again(); return calls")


def begin_camera():
    asked = lambda: run("return mitsubadoor.desks.pictures.count")
    before = asked()
    camera_on()
    wait_for(lambda: is_seen("viewfinder") and asked() > before)
    run("clearInterval(painter)")


def out_of_sight():
    """Nothing runs on behind another tab of the browser, but a picture that is being looked at, until that is done."""
    push("tab-read", "example-c40")
    begin_picture = lambda: drop("body", [("noise.png", "image/png", noise(40, 6))])
    for name, begin in (("the camera", begin_camera), ("a picture", begin_picture)):
        begin()
        run("""Object.defineProperty(document, 'hidden', { configurable: true, value: true });
               document.dispatchEvent(new Event('visibilitychange'));""")
        settle()
        soon(f"{name}: what is done out of sight", done_meanwhile, [])
        moving = run("return document.getAnimations().filter((it) => it.playState === 'running').length")
        expect(f"{name}: what moves", moving, 0)
        run("delete document.hidden")
    tracks = run("return streams.flatMap((stream) => stream.getTracks().map((track) => track.readyState))")
    expect("the camera is off", tracks, ["ended"])
    run("delete navigator.mediaDevices")
    write("123456")
    expect("it goes on afterwards", run("return mitsubadoor.mark.stage"), "valid")


PARTS = [without_growth, out_of_sight]
