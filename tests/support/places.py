"""Where things lie. ECC200_FOLDER names another folder with the libraries, which are then taken as they are."""
import os

TOP = os.path.dirname(os.path.dirname(os.path.dirname(os.path.abspath(__file__))))
OTHER_LIBRARY = os.environ.get("ECC200_FOLDER")


def path(*parts):
    """Gives a path below the top of the repository, unless it begins elsewhere."""
    return os.path.join(TOP, *parts)


PROGRAM = path("crates", "dm_tool", "out", "dm_tool")
LIBRARY = path("library")
PACKAGE = path("library", "python")
# The core of the package, which is also used as one file by itself.
MODULE = os.path.join(PACKAGE, "ecc200", "core.py")
BUILT = os.path.abspath(OTHER_LIBRARY) if OTHER_LIBRARY else path("library", "out")
ARCHIVE = os.path.join(BUILT, "libecc200.a")
SHARED = os.path.join(BUILT, "libecc200.so")


def text_of(*parts):
    with open(path(*parts), encoding="utf-8") as file:
        return file.read()


def read(*parts):
    with open(path(*parts), "rb") as file:
        return file.read()


def wrote(content, *parts):
    """Writes a file, and gives its path."""
    with open(path(*parts), "wb") as file:
        file.write(content.encode() if isinstance(content, str) else content)
    return path(*parts)
