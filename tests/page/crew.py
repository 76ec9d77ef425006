"""Browsers side by side, each led by a process of its own, among which the parts of the page's test are shared out."""
import contextlib
import multiprocessing
import multiprocessing.util
import os
import pathlib
import random
import signal
import sys
import tempfile
import threading
import traceback

from tests.page import browser
from tests.page.parts import PARTS, fault_of
from tests.page.stage import count, expect, on
from tests.support import places

BROWSERS = min(4, os.cpu_count() or 1)
TO_END = 60  # seconds, in which the processes have to end by themselves


def begin(folder):
    """Prepares a process, with which its browser ends."""
    signal.signal(signal.SIGINT, signal.SIG_IGN)  # which ends the process that waits for this one
    signal.signal(signal.SIGTERM, lambda *_: sys.exit())
    multiprocessing.util.Finalize(None, browser.end, exitpriority=1)
    on.program, on.folder = places.PROGRAM, pathlib.Path(tempfile.mkdtemp(dir=folder))
    tempfile.tempdir = str(on.folder)  # with which all that this process leaves is gone


@contextlib.contextmanager
def at_work():
    """Gives a pool of processes, which end with all that they have begun."""
    context = multiprocessing.get_context("fork")
    with tempfile.TemporaryDirectory(ignore_cleanup_errors=True) as folder:
        with context.Pool(BROWSERS, begin, (folder,)) as pool:
            yield pool
            # (without a signal, which a process may miss that is about to wait; what hangs or fails is ended by one)
            pool.close()
            ending = threading.Thread(target=pool.join, daemon=True)
            ending.start()
            ending.join(TO_END)


def rows_of(name, page):
    """What a part compares in the page, and why it couldn't go on. A lost browser has it run once more in another."""
    part = next(each for each in PARTS if each.__name__ == name)
    for _ in range(2):
        browser.have()
        random.seed(1)
        on.part, count.rows = name, []
        fault = fault_of(part, page)
        if not fault or not browser.is_lost():
            break
        print(f"the browser was lost in {name}, and is started again: {browser.first_line(fault)}", flush=True)
    if not browser.is_lost():
        expect("console", [entry["message"] for entry in on.page.get_log("browser")], [])
    return count.rows, fault and "".join(traceback.format_exception(fault))
