"""The library as it was built: backtraces, names, processors, compilers' warnings, versions, and manual pages."""
import ctypes
import glob
import os
import re

from tests.packages.common import ABI, PARTS, PROJECT, SAID, TOP, VERSION, Packed, package, run
from tests.support import commands
from tests.support.places import ARCHIVE, BUILT, LIBRARY, SHARED

MAIN = os.path.join(PROJECT, "main.c")


class Built(Packed):
    def test_a_debugger_passes_through_its_calls(self):
        made = os.path.join(self.room(), "for_debugger")
        self.works("a program for the debugger", ["cc", "-g", f"-I{LIBRARY}", MAIN, ARCHIVE, "-o", made])
        for call in ("ecc200_read", "ecc200_write_bytes") if self.has("gdb", "backtraces through its calls") else ():
            # the depth at which a call stands after so many instructions differs; each time main must be at its end
            steps = [word for count in (1, 40, 300, 700, 1000)
                     for word in ("-ex", f"stepi {count}", "-ex", "backtrace", "-ex", "echo ==\\n")]
            words = ["gdb", "-q", "-nx", "-batch", "-ex", f"break {call}", "-ex", "run", *steps, made]
            told = run(words, env=commands.environment(DEBUGINFOD_URLS=""))[1].split("==\n")
            lost = [it for it in told[:5] if not re.search(rf"#\d+ .*\b{call} .*\n#\d+ .*\bmain ", it)]
            self.holds(f"backtraces in {call}", len(told) == 6 and not lost, f"{lost or told}")

    def test_how_the_shared_library_is_linked(self):
        if self.has("readelf", "how the shared library is linked"):
            dynamic, notes = (run(["readelf", option, SHARED])[1] for option in ("-d", "-n"))
            self.holds("bound at once", "BIND_NOW" in dynamic, dynamic)
            self.holds("its name has the interface's number", f"[libecc200.so.{ABI}]" in dynamic, dynamic)
            self.holds("the processor is noted", re.search(r"ISA needed:.*x86-64-v2", notes), notes)

    def test_what_a_library_exports_that_is_linked_with_the_archive(self):
        other = os.path.join(self.room(), "other.so")
        if self.has("nm", "what a library exports that is linked with the archive"):
            whole = ["-Wl,--whole-archive", ARCHIVE, "-Wl,--no-whole-archive"]
            words = ["cc", "-shared", "-fPIC", "-x", "c", "-o", other, "-", "-x", "none", *whole]
            self.works("a library with the archive in it", words, given=b"int its_own;\n")
            names = [line.split()[-1] for line in run(["nm", "-D", "--defined-only", other])[1].splitlines()]
            self.row("what it exports", [it for it in names if "ecc200" in it or it == "its_own"], ["its_own"])

    def test_processors(self):
        """On a processor below x86-64-v2 the loader refuses, in words; on one of that level all runs."""
        folder, env = self.room(), {"LD_LIBRARY_PATH": BUILT, "PATH": os.environ["PATH"]}
        linked = {"shared": [f"-L{BUILT}", "-lecc200"], "static": [ARCHIVE]}
        for kind, with_it in linked.items() if self.has("qemu-x86_64", "processors of other levels") else ():
            made = os.path.join(folder, kind)
            self.works(f"a program with the {kind} library", ["cc", "-O2", f"-I{LIBRARY}", MAIN, *with_it, "-o", made])
            self.row(f"{kind}, on one of the level", run(["qemu-x86_64", "-cpu", "Nehalem", made], env=env), (0, SAID))
            status, output = run(["qemu-x86_64", "-cpu", "core2duo", made], env=env)
            self.holds(f"{kind}, on one below it", status == 127 and "ISA level" in output, f"{status}: {output}")

    def test_warnings(self):
        """What the header defines, and enumerations as arguments, without a warning."""
        careful = ["-Wall", "-Wextra", "-Wpedantic", "-Wconversion", "-Wsign-conversion", "-Werror", f"-I{LIBRARY}",
                   "-fsyntax-only"]
        in_cpp = ["-std=c++17", "-Wold-style-cast", "-x", "c++"]
        for compiler, more in {"gcc": ["-std=c11"], "clang": ["-std=c11"], "g++": [*in_cpp, "-Wuseless-cast"],
                               "clang++": in_cpp}.items():
            if self.has(compiler, f"the header by {compiler}"):
                self.works(f"the header by {compiler}", [compiler, *careful, *more, os.path.join(PARTS, "careful.c")])

    def test_versions(self):
        raw = ctypes.CDLL(SHARED)
        raw.ecc200_version.restype = raw.ecc200_code_words.restype = ctypes.c_char_p
        header = re.search(r'#define ECC200_VERSION "(.*)"', package.text("library", "ecc200.h"))[1]
        self.rows([("the library's version", raw.ecc200_version().decode(), VERSION),
                   ("the header's version", header, VERSION),
                   ("a code's words", raw.ecc200_code_words(4).decode(), "no size has these rows and columns"),
                   ("no code's words", raw.ecc200_code_words(60000).decode(), "not a code of this library")])
        self.there([("CHANGELOG.md", f"\n## {VERSION}\n" in package.text("CHANGELOG.md")),
                    ("docs/LIBRARY.md", VERSION in package.text("docs", "LIBRARY.md")),
                    ("a version by Semantic Versioning", re.fullmatch(r"\d+\.\d+\.\d+", VERSION))])

    def test_manuals(self):
        exports = re.findall(r"^(?:uint16_t|void|const char \*) ?(ecc200_\w+)\(", package.text("library", "ecc200.h"),
                             re.M)
        placed = {os.path.basename(part.place) for part in package.parts() if "/man/" in part.place}
        shown = package.text("packaging", "man", "ecc200.3")
        self.there((f"the manual of {name}", f"{name}.3" in placed and re.search(rf"^\.F[no] {name}\b", shown, re.M))
                   for name in exports)
        self.holds("why dm_tool refuses --help", ".Fl -help" in package.text("packaging", "man", "dm_tool.1"))
        pages = sorted(glob.glob(os.path.join(TOP, "packaging", "man", "*.[1-9]")))
        for page in pages if self.has("mandoc", "the form of the manual pages") else ():
            self.works(f"the form of {os.path.basename(page)}", ["mandoc", "-T", "lint", "-W", "warning", page])
