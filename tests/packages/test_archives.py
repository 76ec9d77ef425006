"""The archives: the sources are the repository's; what is prebuilt works wherever it is unpacked."""
import glob
import os
import shutil
import tarfile

from tests.packages.common import (ABI, GRID, QUICKLY, TOP, VERSION, Packed, broken_links, bytecode, check_sums,
                                   picture, read, run, wrote)
from tests.support import commands, needs
from tests.support.glibc import needed_packages

OUT = os.path.join(TOP, "out", "dist")
SOURCES, PREBUILT = f"mitsubadoor-{VERSION}", f"mitsubadoor-{VERSION}-x86_64-linux-gnu"


class Archives(Packed):
    @classmethod
    def setUpClass(cls):
        super().setUpClass()
        cls.made, cls.folder_here = None, cls.folder_of_class()
        os.chmod(cls.folder_here, 0o755)

    def setUp(self):
        super().setUp()
        if not self.has_sampler("archives") or not self.has_all(needs.PAGE, "archives"):
            self.skipTest("archives")
        kind = type(self)
        self.sources, self.prebuilt = (os.path.join(self.folder_here, it) for it in (SOURCES, PREBUILT))
        if not kind.made:
            kind.made = run(["make", "-C", TOP, "dist"], env=commands.environment(**QUICKLY))
            self.row("make dist", kind.made[0], 0)
            for name in (SOURCES, PREBUILT):
                with tarfile.open(os.path.join(OUT, f"{name}.tar.xz")) as file:
                    file.extractall(self.folder_here)
            kind.bytecode = bytecode(self.prebuilt)

    def at(self, *path):
        return os.path.join(self.prebuilt, *path)

    def test_the_sources(self):
        self.row("the checksums of the archives", check_sums(OUT), [])
        status, listed = run(["git", "-C", TOP, "ls-files"])
        if status == 0:
            there = {os.path.relpath(os.path.join(at, name), self.sources) for at, _, names in os.walk(self.sources)
                     for name in names}
            here = {it for it in listed.splitlines() if os.path.lexists(os.path.join(TOP, it))}
            self.row("the sources", there ^ here, set())
        status, output = run(["env", "-i", f"PATH={self.path}", "make", "-C", self.sources, "help"])
        self.holds("make help", status == 0 and "make build" in output and "Proving" not in output, output)

    def test_what_is_prebuilt(self):
        self.row("its checksums", check_sums(self.prebuilt), [])
        self.row("bytecode in it", self.bytecode, [])
        self.row("links in its documents that lead to nothing", broken_links(self.prebuilt), [])
        told = read(self.at("README.md")).decode()
        self.holds("links in its README", told.count("](") > 9, f"there are {told.count('](')}")
        if self.has_all(("readelf", "dpkg-query"), "what the prebuilt files need"):
            libraries = glob.glob(f"{glob.escape(self.prebuilt)}/lib/*.so")
            needed = needed_packages([self.at("bin", "dm_sample"), *libraries])
            self.row("packages that its README doesn't name", [it for it in needed if it not in told], [])
            self.holds("packages that are needed", "libjpeg62-turbo" in needed, f"{needed}")
        self.row("the page, and the module for JavaScript", {"mitsubadoor.html", "mitsubadoor.webmanifest",
                                                             "offline.js", "ecc200.mjs", "ecc200.d.mts"}
                 - set(os.listdir(self.at("share", "ecc200"))), set())

    def test_its_programs_wherever_they_lie(self):
        image = wrote(picture(), self.folder_here, "picture.pgm")
        for words, said in ((["dm_tool", "write"], GRID), (["ecc200", "read", image], "123456\n"),
                            (["dm_sample", image], GRID)):
            done = run(["env", "-i", self.at("bin", words[0]), *words[1:]], given=b"123456\n", cwd="/")
            self.row(f"the prebuilt {words[0]}", done, (0, said))
        self.shows_its_options(self.prebuilt)

    def test_its_library(self):
        self.is_found_by_pkg_config("the prebuilt library", self.folder_here, self.at("lib"))
        env = {"PATH": os.environ["PATH"], "PKG_CONFIG_LIBDIR": self.at("lib", "pkgconfig")}
        for name in ("ecc200", "ecc200_sample") if self.has("pkg-config", "where the prebuilt libraries lie") else ():
            found = run(["pkg-config", "--variable=libdir", name], env=env)[1].strip()
            self.row(f"where {name} lies", os.path.realpath(found), os.path.realpath(self.at("lib")))
        self.is_found_by_cmake("the prebuilt library", self.folder_here, self.prebuilt)

    def test_its_modules(self):
        env = commands.environment(PYTHONPATH=self.at("share", "ecc200", "python"), LD_LIBRARY_PATH=self.at("lib"),
                                   ECC200_LIBRARY=self.at("lib", f"libecc200.so.{ABI}"), PATH=self.path)
        asked = ["/usr/bin/python3", "-c", "import ecc200; print(ecc200.read(ecc200.write(b'123456')).data)"]
        self.row("for Python", run(asked, env=env, cwd="/"), (0, "b'123456'\n"))
        if node := shutil.which("node"):
            asked = [node, "--input-type=module", "-e", "import { read, readGrid, write } from "
                     f"'{self.at('share', 'ecc200', 'ecc200.mjs')}'; console.log(readGrid(write('123456')).text)"]
            self.row("for JavaScript", run(asked, env={}, cwd="/"), (0, "123456\n"))
