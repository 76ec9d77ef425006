"""What the tests of the library share: its interface, the Python module, C files over it, the worked symbol."""
import functools
import importlib.util
import os
import re
from unittest import mock

from tests.library.callers import WARNINGS
from tests.library.interface import Interface
from tests.library.systems import HERE as THIS
from tests.support import commands, places
from tests.support.places import LIBRARY

EXAMPLES = os.path.join(LIBRARY, "examples")


@functools.cache
def interface():
    """The interface of the header, and the version that is released."""
    return Interface(places.text_of("packaging", "version").strip())


@functools.cache
def module():
    """The Python module, the file core.py by itself, over the shared library."""
    spec = importlib.util.spec_from_file_location("ecc200_of_library", places.MODULE)
    made = importlib.util.module_from_spec(spec)
    with mock.patch.dict(os.environ, ECC200_LIBRARY=places.SHARED):
        spec.loader.exec_module(made)
    return made


def compiled(source, folder, *flags, system=THIS):
    """Compiles a C file over the static library, and gives the program, or None and what the compiler says."""
    made = os.path.join(folder, os.path.basename(source).removesuffix(".c") + system.ending)
    words = [system.cc, "-std=c11", "-O2", *WARNINGS, f"-I{LIBRARY}", *system.flags, *flags, source, system.archive]
    status, output = commands.said([*words, "-o", made])
    return (made, None) if status == 0 else (None, output[-2000:])


@functools.cache
def lacking_rust(system=THIS):
    """Says why there is no Rust compiler of the version that library/ecc200.rs names; nothing if there is one."""
    compiler, reason = system.rustc()
    if reason:
        return reason
    least = re.search(r"Rust (1\.\d+) or later", places.text_of("library", "ecc200.rs"))[1]
    told = re.match(r"rustc (1\.\d+)", commands.said([compiler[0], "--version"])[1])[1]
    return "" if int(told[2:]) >= int(least[2:]) else f"rustc is {told}, older than {least}"
