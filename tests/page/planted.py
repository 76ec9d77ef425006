"""Plants bugs in the page's modules or in what stands beside the page: with each, the test has to fail."""
import contextlib
import random
import sys

from tests.bugs import bugs_of
from tests.page import browser, crew
from tests.page.javascript import uses
from tests.page.parts import PARTS, fault_of
from tests.page.stage import Failed, count, expect, on
from tests.support import places

sys.path.insert(0, places.path("web"))
import pack

__all__ = ["AT_ONCE", "bugs", "found_by", "ready", "sources"]
AT_ONCE = crew.BROWSERS
BESIDE = ("mitsubadoor.webmanifest", "offline.js")


def bugs():
    return bugs_of("page")


def sources(_=None):
    """The texts in which bugs are planted."""
    return {**pack.sources(), **{name: places.text_of("web", "installed", name) for name in BESIDE}}


def laid(spoilt):
    """Packs the page and the module for programs anew, with what keeps the page beside them; gives the page's file."""
    code = [(pack.HERE / "out" / name).read_bytes() for name in ("lowered.wasm", "sampler.wasm")]
    page, on.module, on.beside = (on.folder / name for name in ("spoilt.html", "spoilt.mjs", "beside"))
    page.write_text(pack.packed(*code, spoilt), encoding="utf-8")
    on.module.write_text(pack.packed_module(*code, spoilt), encoding="utf-8")
    on.beside.mkdir(exist_ok=True)
    for name in BESIDE:
        (on.beside / name).write_text(spoilt[name], encoding="utf-8")
    return page


def try_parts(file, first):
    """Runs the parts over a page, each over one that is loaded anew, until one fails."""
    browser.have()
    on.page.get_log("browser")  # what is of the bug before
    for part in sorted([*PARTS, uses], key=lambda part: part.__name__ != first):
        random.seed(1)
        on.part = part.__name__
        if fault := fault_of(part, file):  # a part that can't go on has failed
            expect(f"{part.__name__}, which broke off with {type(fault).__name__}", str(fault), "no fault")
    expect("console", [entry["message"] for entry in on.page.get_log("browser")], [])


@contextlib.contextmanager
def ready():
    """Brings the page up to date, and has browsers at work."""
    if problem := browser.lacking():
        sys.exit(problem)
    with crew.at_work() as pool:
        on.pool = pool
        yield


def found_by(bug, _):
    """What fails first, of all parts, over a page with a bug."""
    return on.pool.apply(found, (bug,))


def found(bug):
    """The same, in a process that leads a browser."""
    count.stops = True
    try:
        try_parts(laid(bug.planted(sources())), bug.where)
    except Failed as what:
        return f"{on.part}: {what}"
    return None
