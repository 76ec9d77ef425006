"""What targets of the Makefile want is named before they begin, each tool with its Debian package."""
import os
import re

from tests.packages.common import bare_path, package, run
from tests.support import needs
from tests.support.case import Case
from tests.support.places import TOP

SAMPLER = ["cc gcc", "png.h libpng-dev", "jpeglib.h libjpeg-dev"]
FONT = "DejaVuSansMono.ttf fonts-dejavu-core"  # which is found without a path
PAGE = ["wasm-opt binaryen", "clang clang", "wasm-ld lld", "wasm32-wasi/libc.a wasi-libc", "esbuild esbuild", FONT]
WANTED = {"sampler": SAMPLER, "page": PAGE, "wheel": ["setuptools python3-setuptools", "wheel python3-wheel"],
          "deb": [*SAMPLER, "dpkg-buildpackage dpkg-dev", "dh debhelper", "dh_python3 dh-python"],
          "dist": [*SAMPLER, *PAGE]}
LINE = re.compile(r"^make (\w+): (\S+) isn't installed \(Debian package (\S+)\)$", re.M)


class Needs(Case):
    def setUp(self):
        self.path = bare_path(self.folder())

    def made(self, target, **more):
        """The status of `make TARGET` on a bare machine, what it names as missing, and all that it says."""
        settings = {"PATH": self.path, "PYTHON": "no-python", **more}
        status, output = run(["env", "-i", *(f"{name}={value}" for name, value in settings.items()),
                              "make", "-C", TOP, target])
        return status, [(it[1], f"{it[2]} {it[3]}") for it in LINE.finditer(output)], output

    def test_each_is_named_before_anything_is_begun(self):
        for target, wanted in WANTED.items():
            status, named, output = self.made(target)
            missing = [(target, it) for it in wanted if it != FONT or not os.path.exists(needs.FONT)]
            self.row(f"make {target}", (status != 0, named), (True, missing))
            begun = [it for it in ("proving", "Proving", "build:", "rt)") if it in output]
            self.row(f"make {target} begins nothing", begun, [])

    def test_for_another_system(self):
        """A compiler for it is wanted, and nothing for this one."""
        tools = WANTED["deb"][len(SAMPLER):]
        for target, triple, wanted in [
                ("deb", "aarch64-unknown-linux-gnu", ["aarch64-linux-gnu-gcc gcc-aarch64-linux-gnu", *tools]),
                ("dist", "x86_64-w64-windows-gnu", ["x86_64-w64-mingw32-gcc gcc-mingw-w64-x86-64"]),
                ("sampler", "riscv64-unknown-linux-gnu", ["riscv64-linux-gnu-gcc gcc-riscv64-linux-gnu"])]:
            status, named, _ = self.made(target, TARGET=triple)
            self.row(f"make {target} TARGET={triple}", (status != 0, named), (True, [(target, it) for it in wanted]))

    def test_each_is_found_by_itself(self):
        """A compiler without headers, and tools of Debian one by one."""
        self.row("no headers", [it for _, it in self.made("sampler", CC="/bin/false")[1]], SAMPLER[1:])
        for name in ("dpkg-buildpackage", "dh", "dh_python3"):
            os.symlink("/bin/true", os.path.join(self.path, name))
            self.row(f"{name} is there", [it for _, it in self.made("deb")[1] if it.startswith(f"{name} ")], [])

    def test_python_itself(self):
        os.remove(os.path.join(self.path, "python3"))
        self.row("make", "make: python3 isn't installed: apt install python3\n" in self.made("all")[2], True)

    def test_all_are_named_with_what_installs_them(self):
        status, named, output = self.made("all")
        wanted = ["cc gcc", "ar binutils", "stdio.h libc6-dev", *SAMPLER[1:], "PIL python3-pil"]
        self.row("make", (status != 0, named), (True, [("all", it) for it in wanted]))
        self.row("what installs them", f"    apt install {' '.join(it.split()[1] for it in wanted)}\n" in output, True)

    def test_the_documents_name_them(self):
        told = package.text("README.md") + package.text("CONTRIBUTING.md")
        packages = {it.split()[1] for wanted in WANTED.values() for it in wanted}
        self.row("packages that neither names", sorted(it for it in packages if it not in told), [])
