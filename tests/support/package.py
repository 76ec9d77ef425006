"""The Python package ecc200 as it is installed, over the library that is tested."""
import functools
import importlib
import os
import shutil
import sys
import tempfile
from unittest import mock

from tests.support import needs, places


@functools.cache
def room():
    """A folder of this process with a copy of the package, in which Python may leave its bytecode."""
    made = tempfile.TemporaryDirectory(prefix="package-")
    left = shutil.ignore_patterns("out", "__pycache__")
    shutil.copytree(places.PACKAGE, os.path.join(made.name, "tree"), ignore=left)
    return made


def tree():
    return os.path.join(room().name, "tree")


def settings():
    """Gives the environment variables by which another Python finds the package and its library."""
    return {"PYTHONPATH": tree(), "ECC200_LIBRARY": places.SHARED}


@functools.cache
def imported():
    """Gives the package, imported here over the library, which is built first where it isn't."""
    needs.have_library()
    sys.path.insert(0, tree())
    with mock.patch.dict(os.environ, ECC200_LIBRARY=places.SHARED):
        module = importlib.import_module("ecc200")
    if not module.__file__.startswith(tree() + os.sep):
        raise ImportError(f"ecc200 was imported before, from {module.__file__}")
    return module
