"""Plants wrong callers in a copy of the callers: the tests of the language that is concerned have to fail. Those of
conduct stand in bugs.txt; those of numbers, names, words and members are made by exchanged.py. A wrong struct of the
proved crate is built into another library, and the tests in C have to fail over it."""
import os
import shutil
import sys
from contextlib import nullcontext as ready

from tests.bugs import bugs_of
from tests.library import exchanged
from tests.library.callers import Callers, copied
from tests.library.library import interface
from tests.support.commands import said
from tests.support.places import BUILT, LIBRARY, TOP, text_of, wrote
from tools import crates

__all__ = ["AT_ONCE", "bugs", "found_by", "ready", "sources"]
AT_ONCE = 3
LANGUAGES = {"ecc200.h": [Callers.in_c, Callers.in_cpp], "ecc200.rs": [Callers.in_rust],
             "python/ecc200/core.py": [Callers.in_python]}
# The crate that has the structs and all that the exports do.
CALLS = "ecc200_calls"
SOURCES = os.path.join("crates", CALLS)


def bugs():
    return [*exchanged.wrong_callers(), *bugs_of("library")]


def sources(bug):
    return {bug.where: text_of(bug.where if bug.where.startswith(SOURCES) else os.path.join("library", bug.where))}


def first_failure(tests):
    return next((f"{name}: {why}" for name, why in tests if why), None)


def add_sources(top):
    """What tools/callers compares with the interface: the sources of these crates, where they aren't there."""
    for crate in ("dm_layout", "dm_words", CALLS):
        source = os.path.join("crates", crate, "src")
        if not os.path.exists(os.path.join(top, source)):
            shutil.copytree(os.path.join(TOP, source), os.path.join(top, source))


def over_crate(top, callers):
    """A spoilt crate is proved, and the exports built over it: C's tests and the comparison of structs have to fail."""
    add_sources(top)
    differing = said([sys.executable, os.path.join(TOP, "tools", "callers"), "--check", "--top", top])[1]
    callers.built, callers.archive = os.path.join(top, "built"), os.path.join(top, "built", "libecc200.a")
    os.mkdir(callers.built)
    kit, spoilt_crate = f"{crates.kit()}/toolchain", os.path.join(top, SOURCES)
    here = lambda word: word.replace(crates.folder(CALLS), spoilt_crate)
    shutil.rmtree(here(crates.rlib_of(CALLS)), ignore_errors=True)
    os.makedirs(os.path.dirname(here(crates.rlib_of(CALLS))), exist_ok=True)
    proved = [*crates.command("build", CALLS), "--incremental", "out/incremental", "-o", here(crates.rlib_of(CALLS))]
    exports = [*map(here, crates.command("build", "ecc200")), "--toolchain", kit, "-o", callers.archive]
    about = os.path.join(callers.built, "about.o")
    compiled = ["cc", "-std=c11", f"-I{callers.library}", "-c", callers.source("about.c"), "-o", about]
    archived = [f"{kit}/bin/llvm-ar", "r", callers.archive, about]
    for step, folder in ((proved, spoilt_crate), (exports, crates.folder("ecc200")), (compiled, top), (archived, top)):
        status, output = said(step, cwd=folder)
        if status:
            print(f"not proved: {output[-300:]}", flush=True)
            return [None]
    return [differing if f"{SOURCES}/src" in differing else None, first_failure(callers.in_c())]


def found_by(bug, folder):
    """What fails first over a caller with a bug, by tests of its languages, or over the crate, by both of them."""
    is_of_crate = bug.where.startswith(SOURCES)
    copy, own = (os.path.join(folder, name) for name in ("library", "work"))
    os.mkdir(own)
    copied(LIBRARY, copy)
    if is_of_crate:
        shutil.copytree(os.path.join(TOP, SOURCES), os.path.join(folder, SOURCES), symlinks=True)
    wrote(bug.planted(sources(bug))[bug.where], folder if is_of_crate else copy, bug.where)
    callers = Callers(copy, BUILT, own, interface())
    if is_of_crate:
        found = over_crate(folder, callers)
        return found[-1] if all(found) else None
    return next(filter(None, (first_failure(tests(callers)) for tests in LANGUAGES[bug.where])), None)
