"""Takes pictures of the page for docs/PAGE.md; or measures it, beside dm_sample, which `make sampler` leaves.

    python3 -m tests.page --pictures FOLDER
    python3 -m tests.page --measure"""
import argparse
import base64
import pathlib
import time

from tests.page import browser
from tests.page.measures import measured
from tests.page.parts import load
from tests.page.stage import By, acting, agree, cells, click, find, learn, on, push, run, unfold, wait_for, write
from tests.support import places


def in_pictures():
    """Pictures of three states, for docs/PAGE.md."""
    width = 1200

    def shoot(name, element):
        top, height = run("const b = arguments[0].getBoundingClientRect(); return [b.top + scrollY, b.height]", element)
        begin = 0 if element.get_attribute("class") == "bench" else top - 16
        clip = {"x": 0, "y": begin, "width": width, "height": top + height + 16 - begin, "scale": 1}
        taken = on.page.execute_cdp_cmd("Page.captureScreenshot", {"captureBeyondViewport": True, "clip": clip})
        (on.shots / name).write_bytes(base64.b64decode(taken["data"]))
    on.page.set_window_size(width, 1500)
    time.sleep(0.5)
    on.page.refresh()
    wait_for(lambda: run("return 'mitsubadoor' in globalThis"))
    bench = on.page.find_element(By.CLASS_NAME, "bench")
    push("tab-read")
    unfold("comparison")
    shoot("page-compare.png", on.page.find_element(By.CLASS_NAME, "compare"))
    write("\\F010123456789012810AB-42")
    push("to-limit")
    click(4, 90, side=18)
    learn()
    agree("the first picture")
    damaged = [w for w, (_, _, kind) in enumerate(cells()) if kind == "corrected"]
    acting().move_to_element(find(f"word-{damaged[1]}")).perform()
    shoot("page-read.png", bench)
    write("Bearing 7731-22-B of batch 0042 was looked at and found to be good; it is to be fitted by 2027, greased with"
          " what the drawing names, and kept dry and below forty degrees until then, in the box in which it came.")
    push("tab-learn", "to-limit", "one-more")
    agree("the second picture")
    acting().move_to_element(find("state")).perform()
    shoot("page-refused.png", bench)


def main():
    options = argparse.ArgumentParser(prog="python3 -m tests.page", description=__doc__.split("\n\n", maxsplit=1)[0])
    what = options.add_mutually_exclusive_group(required=True)
    what.add_argument("--pictures", metavar="FOLDER", type=pathlib.Path)
    what.add_argument("--measure", action="store_true")
    given = options.parse_args()
    with browser.ready():
        if given.measure:
            measured()
            return
        on.shots = given.pictures
        on.shots.mkdir(parents=True, exist_ok=True)
        load(places.path("web", "out", "mitsubadoor.html"))
        in_pictures()


if __name__ == "__main__":
    main()
