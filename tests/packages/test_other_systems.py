"""What is packed for other systems: Debian packages, wheels and an archive for Windows, of libraries built for each."""
import glob
import os
import shutil
import zipfile

from tests.library.conduct import shown
from tests.library.systems import Emulated, lacking, targets
from tests.packages.common import QUICKLY, TOP, VERSION, Packed, broken_links, check_sums, package, read, run
from tests.support import commands
from tests.support.glibc import many_linux

# Packages that are the same for each processor.
FOR_ALL = {"ecc200", "python3-ecc200"}


def code_of(target, library, made):
    """The code of a shared library, which stays when it is stripped."""
    run([target.tool("objcopy"), "-O", "binary", "--only-section=.text", library, made])
    return read(made)


class OtherSystems(Packed):
    def targets(self, what, suits=lambda target: True):
        """The targets for which programs are compiled and run here; for others what is left out is told."""
        for target in filter(suits, targets.TARGETS.values()):
            if reason := lacking(target):
                self.leave_out(f"{what} for {target.triple} ({reason})")
            else:
                yield target, self.room()

    def make(self, target, what):
        words = ["make", "-C", TOP, what, f"TARGET={target.triple}"]
        self.works(f"make {what} for {target.triple}", words, env=commands.environment(**QUICKLY))

    def test_wheels(self):
        """Each carries the libraries that are built for it, and its name says on which systems they run."""
        for target, folder in self.targets("wheels") if self.has("readelf", "what wheels need of glibc") else ():
            self.make(target, "sampler")
            self.make(target, "wheel")
            found = glob.glob(os.path.join(TOP, "library", "python", "out", target.triple, "*.whl"))
            self.row(f"how many for {target.triple}", len(found), 1)
            with zipfile.ZipFile(found[0]) as archive:
                archive.extractall(folder)
            names = [f"{name}.dll" if target.is_windows else f"lib{name}.so" for name in ("ecc200", "ecc200_sample")]
            own = os.path.join(folder, "ecc200")
            carried = sorted(it for it in os.listdir(own) if it.endswith((".so", ".dll")))
            self.row(f"the libraries for {target.triple}", carried, names)
            for name, part in zip(names, ("library", "sampler")):
                built = read(TOP, part, "out", target.triple, name)
                self.holds(f"{name} for {target.triple} is the one that is built", read(own, name) == built)
            if target.is_windows:
                points = read(glob.glob(f"{glob.escape(folder)}/*.dist-info/entry_points.txt")[0])
                self.holds("its command", b"ecc200 = ecc200.command:main" in points)
                platform = "win_amd64"
            else:
                platform, foreign = many_linux([os.path.join(own, name) for name in names], target.tools.split("-")[0])
                self.row(f"what is needed beside glibc for {target.triple}", foreign, set())
            self.row(target.triple, os.path.basename(found[0]), f"ecc200-{VERSION}-py3-none-{platform}.whl")

    def test_debian_packages(self):
        """Each is for its processor, is clean, and has the library that is built for it."""
        what = "Debian packages"
        if not self.has_all(("dpkg-buildpackage", "dh", "dh_python3"), f"{what} for other systems"):
            return
        for target, folder in self.targets(what, lambda target: target.debian):
            self.make(target, "deb")
            out, root = os.path.join(TOP, "out", "deb", target.triple), os.path.join(folder, "root")
            files = sorted(glob.glob(os.path.join(out, "*.deb")))
            has_finder = os.path.isfile(os.path.join(TOP, "sampler", "out", target.triple, "dm_sample"))
            wanted = {it for it in package.debian_packages() if it != "dm-tool" and (has_finder or it != "dm-sample")}
            self.row(f"the packages for {target.triple}", {os.path.basename(it).split("_")[0] for it in files}, wanted)
            for file in files:
                name = os.path.basename(file)
                architecture = "all" if name.split("_")[0] in FOR_ALL else target.debian
                self.row(f"{name}", run(["dpkg-deb", "--field", file, "Architecture"]), (0, f"{architecture}\n"))
                self.works(f"unpacking {name}", ["dpkg-deb", "--extract", file, root])
            for name, part in (("ecc200", "library"), ("ecc200_sample", "sampler")):
                placed = glob.glob(f"{glob.escape(root)}/usr/lib/*/lib{name}.so.*")
                self.holds(f"where lib{name} lies", len(placed) == 1 and target.tools in placed[0], f"{placed}")
                built = os.path.join(TOP, part, "out", target.triple, f"lib{name}.so")
                code = [code_of(target, path, os.path.join(folder, "code")) for path in (built, placed[0])]
                self.holds(f"lib{name} is the one that is built", code[0] and code[0] == code[1])
            self.there((path, os.path.isfile(os.path.join(root, "usr", path)))
                       for path in ("include/ecc200.h", "lib/python3/dist-packages/ecc200/core.py"))
            if self.has("lintian", "what lintian finds"):
                words = ["lintian", "--allow-root", "--fail-on", "error,warning"]
                self.works(f"lintian for {target.triple}", [*words, *glob.glob(os.path.join(out, "*.changes"))])

    def test_the_archive_for_windows(self):
        """Its checksums, and its example, compiled with what it has and run over each of its libraries."""
        for target, folder in self.targets("the archive", lambda target: target.is_windows):
            self.make(target, "dist")
            name = f"mitsubadoor-{VERSION}-{target.triple}"
            with zipfile.ZipFile(os.path.join(TOP, "out", "dist", f"{name}.zip")) as archive:
                archive.extractall(folder)
            unpacked, system = os.path.join(folder, name), Emulated(target, folder)
            self.addCleanup(system.end)
            self.row("its checksums", check_sums(unpacked), [])
            self.row("links in its documents that lead to nothing", broken_links(unpacked), [])
            shutil.copy(os.path.join(unpacked, "bin", "ecc200.dll"), folder)
            for kind, library in (("shared", "libecc200.dll.a"), ("static", "libecc200.a")):
                made = os.path.join(folder, f"{kind}.exe")
                self.works(f"its example with the {kind} library", [
                    system.cc, "-std=c11", f"-I{unpacked}/include", os.path.join(unpacked, "examples", "example.c"),
                    os.path.join(unpacked, "lib", library), "-o", made])
                self.row(f"what it shows with the {kind} library", system.said([made]), (0, shown()))
