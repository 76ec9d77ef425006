"""The wheel: built, installed without network, and used in clean environments; what mypy says of the package."""
import os
import pwd
import shutil
import zipfile

from tests import corpus
from tests.python.common import PACKAGE, PYTHON, SAMPLER, SHARED, TOP, VERSION, PackageCase, clean, libraries, run
from tests.support import places
from tests.support.glibc import many_linux, needed_packages

import ecc200

GS1 = "(01)09521234543213(17)251231(10)ABC123"
USED = """
import ecc200, ecc200.core, sys
assert ecc200.read(ecc200.write(b'123456')).data == b'123456'
assert ecc200.gs1.parse('(01)09521234543213')
needless = ('subprocess', 'numpy', 'PIL', 'ctypes.util')
assert not [name for name in sys.modules if name in needless], 'modules that need not be loaded'
print(ecc200.core._library._name)
"""

# What a program does with the package, for the checker of types.
PROGRAM = """
import pathlib
from typing import List, Optional, Union


def texts(path: str) -> List[str]:
    said: List[Optional[str]] = [reading.text for reading in decode(path) + decode(pathlib.Path(path)) + decode(b"")]
    with open(path, "rb") as file:
        said += [reading.text for reading in decode(file)]
    return [text for text in said if text is not None]


def first(symbol: Symbol) -> Optional[Reading]:
    try:
        reading: Reading = read(symbol)
        corners: Optional[Corners] = reading.corners
        print(reading.side, corners, inspect(symbol).held, normal(symbol), [found.page for found in find("a.png")])
        rows, columns = reading.size
        marks: List[bytes] = [bytes(columns)] * rows
        left: int = min(read(symbol, doubtful=marks).left + inspect(symbol, marks).erased)
        print(left, usual_limit(rows, columns), places(rows, columns)[0][0].kind, symbol.size, symbol.columns)
        return reading
    except Refused as why:
        print(why.code, why.value, why.place)
        return None


symbol: Symbol = encode("A", charset="ascii", profile=Profile.SHORTER)
symbol.save("a.png", dpi=600)
first(symbol)
first(encode(b"A", size=(8, 32)))
square: List[Size] = [size for size in sizes() if size.rows == size.columns and not size.extension]
grids: List[Rows] = [write(b"A", shape=Shape.RECTANGLE), write(b"A", size=(square[0].side, square[0].side))]
elements: List[gs1.Element] = gs1.parse("(10)A")
head: Head = (1, 2, 3, 4)
marks: List[Mark] = [(0, 26)]
parts: List[Reading] = [read(encode("A", marks=marks, head=head, extent=Extent.WIDE)),
                        read(write(b"B", head=(2, 2, 3, 4), form=Form.SMALLEST))]
try:
    whole: Joined = join(parts)
    print(whole.text, whole.charset, whole.marks, parts[0].symbology, parts[0].head, parts[0].charset)
except Unjoined as why:
    numbers: int = sum(why.missing + why.doubled + why.strange)
told: charsets.Text = charsets.text_of(parts[0].items, parts[0].marks, "cp1252")
data, own = charsets.content_of("A")
assigned: Optional[int] = charsets.assignment("utf-8")
readings: Findings[Reading] = decode("a.png", most=9)
ended: End = max(readings.ended, find("a.png").ended)
answers: Findings[Union[Reading, Refused]] = decode("a.png", unread=True)
print(readings.complete, ended is End.WHOLE, [answer.reading for answer in answers if isinstance(answer, Unsure)])
"""


def built(folder):
    """The wheel, built from a copy of what is needed, so that nothing of this tree changes."""
    copy = os.path.join(folder, "tree")
    for part in ("library/python", "packaging/version"):
        source, target = os.path.join(TOP, part), os.path.join(copy, part)
        os.makedirs(os.path.dirname(target), exist_ok=True)
        if os.path.isdir(source):
            shutil.copytree(source, target, symlinks=True, ignore=shutil.ignore_patterns("out", "__pycache__"))
        else:
            shutil.copy(source, target)
    status, output, errors = run([os.path.join(copy, "library", "python", "build")],
                                 env=clean(HOME=folder, **libraries()))
    return os.path.join(copy, "library", "python", output.strip()) if status == 0 else None, output + errors


class Packaged(PackageCase):
    def test_typed(self):
        """What mypy says, strictly, of the package and of a program that uses it."""
        if self.wanted_module("mypy", "python3-mypy", "types"):
            path = places.wrote(f"from ecc200 import {', '.join(ecc200.__all__)}\n{PROGRAM}", self.room, "program.py")
            words = [PYTHON, "-m", "mypy", "--cache-dir", os.devnull, "ecc200", path]
            status, output, errors = run(words, cwd=PACKAGE)
            told = [line.startswith(path) for line in output.splitlines()[:-1]]  # the last one counts them
            for name, whose in (("", False), (" of a program", True)):
                self.holds(f"mypy --strict{name}", whose not in told and status == bool(told), output + errors)
            self.row("names of the core that aren't exported", set(ecc200.core.__all__) - set(ecc200.__all__), set())

    def contents(self, wheel):
        with zipfile.ZipFile(wheel) as archive:
            names = archive.namelist()
            for name in ("ecc200/core.py", "ecc200/py.typed", "ecc200/data/gs1_identifiers.txt", "ecc200/command.py"):
                self.holds(f"the wheel has {name}", name in names, str(names))
            self.row("its library", archive.read("ecc200/libecc200.so"), places.read(SHARED))
            self.row("its core is that of the sources", archive.read("ecc200/core.py"), places.read(places.MODULE))
            described = archive.read(f"ecc200-{VERSION}.dist-info/METADATA").decode()
        for line in (f"Version: {VERSION}", "License: MIT OR Apache-2.0"):
            self.holds(f"the wheel says {line}", line + "\n" in described, described)
        if os.path.isfile(SAMPLER) and self.has("readelf", "what the sampler needs"):
            owners = needed_packages([SAMPLER])
            self.row("packages that the wheel needs and doesn't name", [it for it in owners if it not in described], [])
            self.holds("they are known", "libecc200.so" in run(["readelf", "-d", SAMPLER])[1])
        if self.has("readelf", "what the wheel needs of glibc"):
            wanted, foreign = many_linux([it for it in (SHARED, SAMPLER) if os.path.isfile(it)], "x86_64")
            self.row("what its libraries need beside glibc", foreign, set())
            self.row("its name", os.path.basename(wheel), f"ecc200-{VERSION}-py3-none-{wanted}.whl")

    def installed(self, folder, wheel):
        """An environment without the system's packages, into which the wheel is installed without network."""
        place = os.path.join(folder, "venv")
        pip, more = [os.path.join(place, "bin", "pip")], []
        if run([PYTHON, "-m", "pip", "--python", PYTHON, "--version"], env=clean(HOME=folder))[0] == 0:
            # (the system's pip works on another environment just as well, and needn't be installed there first)
            pip, more = [PYTHON, "-m", "pip", "--python", os.path.join(place, "bin", "python3")], ["--without-pip"]
        status, output, errors = run([PYTHON, "-m", "venv", *more, place], env=clean(HOME=folder))
        if status:
            self.leave_out("the installed wheel (python3-venv isn't installed)")
            return
        alone = ["unshare", "-n"] if os.geteuid() == 0 and self.has("unshare", "installing with no network") else []
        status, output, errors = run([*alone, *pip, "install", "--no-index", "--no-cache-dir", wheel],
                                     env=clean(HOME=folder))
        self.holds("pip install without network", status == 0, output + errors)
        command, python = os.path.join(place, "bin", "ecc200"), os.path.join(place, "bin", "python3")
        self.used("in a clean environment", [], command, python, place)
        self.used("with nothing on the path", ["env", "-i"], command, python, place)
        if os.geteuid() == 0:
            for folders in (folder, os.path.dirname(wheel)):
                os.chmod(folders, 0o755)
            nobody = pwd.getpwnam("nobody")
            switch = ["setpriv", f"--reuid={nobody.pw_uid}", f"--regid={nobody.pw_gid}", "--clear-groups"]
            if self.has("setpriv", "another user"):
                self.used("as another user", switch, command, python, place)
        else:
            self.leave_out("another user (these tests don't run as root)")

    def used(self, name, before, command, python, place):
        """The module and the command do their work, by the library that the wheel carries."""
        env = {"PATH": os.path.join(place, "none")} if before[:1] != ["setpriv"] else clean()
        words = [shutil.which(before[0]), *before[1:]] if before else []
        status, output, errors = run([*words, python, "-c", USED], env=env, cwd="/")
        self.holds(f"the module {name}", status == 0 and output.strip().startswith(place), output + errors)
        status, output, errors = run([*words, command, "--version"], env=env, cwd="/")
        self.row(f"the command's version {name}", (status, output, errors), (0, f"ecc200 {VERSION}\n", ""))
        status, grid, errors = run([*words, command, "write", "--gs1", GS1], env=env, cwd="/")
        self.holds(f"the command writes {name}", status == 0 and len(grid.split()) == 20, errors)
        status, output, errors = run([*words, command, "read"], grid.encode(), env=env, cwd="/")
        self.row(f"the command reads {name}", (status, output, errors), (0, GS1 + "\n", ""))
        given = corpus.grids(corpus.marks("squares")).encode()
        status, output, errors = run([*words, command, "read", "--escapes"], given, env=env, cwd="/")
        self.row(f"marks of others {name}", (status, len(output.splitlines())), (0, 147))

    def test_from_system(self):
        """One file, and a library where the system keeps its own: found without ECC200_LIBRARY and a compiler."""
        place = os.path.join(self.room, "one")
        os.makedirs(place)
        shutil.copy(places.MODULE, os.path.join(place, "ecc200.py"))
        library = os.path.join(self.room, "lib")
        os.makedirs(library)
        shutil.copy(SHARED, os.path.join(library, f"libecc200.so.{ecc200.ABI}"))
        words = [PYTHON, "-c", "import ecc200; print(ecc200.read(ecc200.write(b'A')).data)"]
        env = {"PATH": os.path.join(self.room, "none"), "LD_LIBRARY_PATH": library, "PYTHONDONTWRITEBYTECODE": "1"}
        self.row("the module alone, with the system's library", run(words, env=env, cwd=place), (0, "b'A'\n", ""))
        shutil.copy(SHARED, os.path.join(place, "libecc200.so"))
        env.pop("LD_LIBRARY_PATH")
        self.row("the module alone, with a library beside it", run(words, env=env, cwd=place), (0, "b'A'\n", ""))

    def test_wheel(self):
        """The wheel, where what builds it is installed: what it has, and what it gives where it is installed."""
        if not all([self.wanted_module("setuptools", "python3-setuptools", "the wheel"),
                    self.wanted_module("wheel.bdist_wheel", "python3-wheel", "the wheel")]):
            return
        made, said = built(self.room)
        self.holds("library/python/build", made is not None, said)
        if made is not None:
            self.contents(made)
            self.installed(self.room, made)
