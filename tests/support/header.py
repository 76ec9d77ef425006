"""What library/ecc200.h says, as tools/callers reads it and writes it into the callers."""
import functools
import importlib.machinery
import importlib.util

from tests.support import places


@functools.cache
def callers():
    loader = importlib.machinery.SourceFileLoader("callers", places.path("tools", "callers"))
    module = importlib.util.module_from_spec(importlib.util.spec_from_loader("callers", loader))
    loader.exec_module(module)
    return module


@functools.cache
def interface():
    return callers().interface_of(places.text_of("library", "ecc200.h"))
