"""What the tests of what is installed and packed share: what is installed here, and how what is installed is used."""
import glob
import hashlib
import os
import re
import shutil
import sys

from tests.sampler.pictures import pgm, pixels_of
from tests.support import commands, needs, places
from tests.support.case import Rows
from tests.support.commands import said as run
from tests.support.places import read, wrote  # noqa: F401, which others import from here

sys.path.insert(0, places.path("packaging"))
import package
sys.path.remove(places.path("packaging"))

TOP = places.TOP
VERSION, ABI = package.version(), package.abi()
PARTS = places.path("tests", "packages")
PROJECT = os.path.join(PARTS, "project")
# What is packed here is unpacked once, so that xz needn't try hard: for `make dist`, and for dpkg-deb.
QUICKLY = {"PRESET": "0", "DPKG_DEB_COMPRESSOR_LEVEL": "0"}
SAID = f"{VERSION} Mitsubadoor 1\n"
GRID = ("1010101010 1100101101 1100000100 1100011101 1100001000 "
        "1000001111 1110110000 1111011001 1001110100 1111111111").replace(" ", "\n") + "\n\n"


def picture():
    """The symbol of 123456 as a picture in the simplest of file formats."""
    return pgm(pixels_of([list(map(int, row)) for row in GRID.split()], 8, 2, 0, 255))


def bare_path(folder):
    """A path with what a Makefile and its scripts need, and nothing that compiles or proves."""
    path = os.path.join(folder, "bare")
    os.makedirs(path)
    for name in ("make", "sh", "python3", "env", "echo", "printf", "git"):
        if found := shutil.which(name, path="/usr/bin:/bin"):
            os.symlink(found, os.path.join(path, name))
    return path


def bytecode(folder):
    """What Python has written below a folder beside modules, but not into what is built."""
    found = [os.path.relpath(it, folder) for it in glob.glob(f"{glob.escape(folder)}/**/__pycache__/*", recursive=True)]
    return sorted(it for it in found if "out" not in it.split(os.sep))


def broken_links(folder):
    broken = []
    for path in glob.glob(f"{glob.escape(folder)}/**/*.md", recursive=True):
        text = read(path).decode()
        for target in re.findall(r"\]\(([^()\s]+)\)", text) + re.findall(r'<img src="([^"]+)"', text):
            name = target.partition("#")[0]
            if "://" not in target and not os.path.exists(os.path.join(os.path.dirname(path), name)):
                broken.append(f"{os.path.relpath(path, folder)}: {target}")
    return broken


def check_sums(folder):
    """The files whose checksum isn't the one that SHA256SUMS has."""
    sums = [line.split("  ", 1) for line in read(folder, "SHA256SUMS").decode().splitlines()]
    return [name for wanted, name in sums if hashlib.sha256(read(folder, name)).hexdigest() != wanted]


@needs.program
@needs.library
class Packed(Rows):
    """The cases of what is packed or installed, over a program and a library that are built."""

    @classmethod
    def setUpClass(cls):
        for target in ("build", "library"):
            if problem := needs.made(target):
                raise AssertionError(problem)
        folder = cls.folder_of_class()
        os.chmod(folder, 0o755)
        cls.path = bare_path(folder)

    def room(self):
        """Gives a folder that others can read."""
        made = self.folder()
        os.chmod(made, 0o755)
        return made

    def works(self, name, words, **more):
        status, output = run(words, **more)
        self.holds(name, status == 0, f"status {status}: {output[-2000:]}")

    def has_all(self, programs, what):
        return all([self.has(it, what) for it in programs])

    def has_sampler(self, what):
        needed = b"#include <stdio.h>\n#include <png.h>\n#include <jpeglib.h>\n"
        return run(["cc", "-fsyntax-only", "-x", "c", "-"], given=needed)[0] == 0 or self.leave_out(
            f"{what} (libpng-dev or libjpeg-dev isn't installed)")

    def shows_its_options(self, prefix):
        """The long options that the help of each installed program names are those in its manual page."""
        for path in sorted(glob.glob(os.path.join(glob.escape(prefix), "share", "man", "man1", "*.1"))):
            page, name = read(path).decode(), os.path.basename(path).removesuffix(".1")
            calls = [[], *([word] for word in re.findall(r"^\.It Cm (\w+)$", page, re.M))]
            told = "".join(run([os.path.join(prefix, "bin", name), *words, "--help"],
                               env=commands.environment(COLUMNS="200"))[1] for words in calls)
            synopsis = page.partition(".Sh DESCRIPTION")[0]
            lines = re.findall(r"^\.(?:Op|Fl) .*", synopsis, re.M) + re.findall(r"^\.It .*", page, re.M)
            shown = {f"-{option}" for line in lines for option in re.findall(r"(?<= )-[a-z][a-z0-9-]*", line)}
            self.row(f"the options of {name}", set(re.findall(r"(?<![\w-])--[a-z][a-z0-9-]*", told)), shown)

    def is_found_by_pkg_config(self, what, folder, libraries):
        """A program is compiled by its words over the library in a folder, and runs over it."""
        env = {"PATH": os.environ["PATH"], "PKG_CONFIG_LIBDIR": os.path.join(libraries, "pkgconfig")}
        if self.has("pkg-config", f"{what}, as pkg-config finds it"):
            made = os.path.join(folder, "by_pkg_config")
            self.works(f"{what}, compiled by its words", [
                "sh", "-c", 'eval exec cc -std=c11 -Wall -Wextra -Werror "$1" -o "$2" $(pkg-config --cflags --libs '
                'ecc200)', "", os.path.join(PROJECT, "main.c"), made], env=env)
            self.row(f"run over {what}", run([made], env={"LD_LIBRARY_PATH": libraries}), (0, SAID))
            self.row(f"version of {what}", run(["pkg-config", "--modversion", "ecc200"], env=env), (0, f"{VERSION}\n"))

    def is_found_by_cmake(self, what, folder, prefix):
        """The small project finds the library, and doesn't take it for another major or a later minor version."""
        if not self.has("cmake", f"{what}, as CMake finds it"):
            return
        built, major = os.path.join(folder, f"cmake of {what}".replace(" ", "_")), int(VERSION.partition(".")[0])
        has_its_sampler = os.path.exists(os.path.join(prefix, "include", "ecc200_sample.h"))
        configured = ["cmake", "-S", PROJECT, "-B", built, f"-DWITH_SAMPLER={has_its_sampler}",
                      f"-DCMAKE_PREFIX_PATH={prefix}"]
        self.works(f"{what}, found by CMake", configured)
        self.works(f"{what}, built by CMake", ["cmake", "--build", built])
        for kind, said in (("shared", SAID), ("static", SAID), ("sampler", f"{package.sample_abi()} 0 0\n")):
            if kind != "sampler" or has_its_sampler:
                self.row(f"{what}, by CMake, {kind}", run([os.path.join(built, f"with_{kind}")], env={}), (0, said))
        for asked in (f"{major + 1}.0", f"{major}.99", f"{major - 1}.0"):
            status, output = run([*configured[:4], f"{built}_{asked}", *configured[5:], f"-DWANTED={asked}"])
            self.holds(f"{what}, asked by CMake for {asked}", status and "ecc200" in output, f"{status}: {output}")
