"""The systems on which the library is tested: this one, and those of tools/targets.py, each by its emulator."""
import os
import re
import shutil
import sys

from tests.support import commands, needs, places

sys.path.insert(0, places.path("tools"))
import targets  # noqa: F401, which others import from here
sys.path.remove(places.path("tools"))


class System:
    """This system: its compilers, the folder with the library, and how programs are run that are made of both."""
    cc, cxx, ar, nm = "cc", "c++", "ar", "nm"
    built, shared = places.BUILT, places.SHARED
    flags, ending, is_windows = [], "", False
    python = sys.executable

    @property
    def archive(self):
        return os.path.join(self.built, "libecc200.a")

    def said(self, words, **how):
        """Gives the status and the output of a program with its arguments."""
        return commands.said(words, **how)

    def beside(self, folder, *folders):
        """Puts the shared libraries of folders where programs in a folder find them, and gives their environment."""
        for path in (os.path.join(at, name) for at in folders for name in os.listdir(at)):
            if path.endswith(".dll"):
                shutil.copy(path, folder)
            elif path.endswith(".so"):
                name = re.search(r"soname: \[(.*)\]", commands.said(["readelf", "-d", path])[1])[1]
                shutil.copy(path, os.path.join(folder, name))
        return commands.environment() if self.is_windows else commands.environment(LD_LIBRARY_PATH=folder)

    def rustc(self):
        """Gives the words by which a Rust compiler is called, and why there is none, if there is none."""
        return ["rustc"], needs.lacking("rustc")


HERE = System()
TOOLS = ("gcc", "g++", "ar", "nm", "objdump")


class Emulated(System):
    """Another system. What Wine takes for a Windows is kept in a folder."""

    def __init__(self, target, folder):
        self.target, self.folder = target, folder
        self.cc, self.cxx, self.ar, self.nm, self.objdump = (target.tool(name) for name in TOOLS)
        self.built = os.path.join(places.LIBRARY, "out", target.triple)
        self.shared = os.path.join(self.built, target.files[1])
        self.is_windows = target.is_windows
        # (otherwise a program would need the compiler's own libraries beside it)
        self.flags = ["-static"] if target.is_windows else ["-static-libgcc", "-static-libstdc++"]
        if target.is_windows:
            self.ending = ".exe"
            self.said(["wineboot", "--init"])

    def said(self, words, **how):
        env = how.pop("env", None) or commands.environment()
        status, output = commands.said([*self.target.emulator, *words], env={**env, **self.variables()}, **how)
        return status, output.replace("\r\n", "\n")

    def variables(self):
        """What the emulator is told in the environment."""
        return {"WINEPREFIX": os.path.join(self.folder, "wine"), "WINEDEBUG": "-all"} if self.is_windows else {}

    def end(self):
        if self.is_windows:
            commands.said(["wineserver", "-k"], env=commands.environment(**self.variables()))

    def rustc(self):
        """The compiler on the path, or Debian's, if it has Rust's library for this system."""
        for compiler in filter(shutil.which, ("rustc", "/usr/bin/rustc")):
            asked = commands.said([compiler, "--print", "target-libdir", "--target", self.target.rust])
            if os.path.isdir(asked[1].strip()):
                return [compiler, "--target", self.target.rust, "-C", f"linker={self.cc}"], ""
        package = f"libstd-rust-web-dev:{self.target.debian}"
        by = f"Debian package {package}" if self.target.debian else f"rustup target add {self.target.rust}"
        return [], f"Rust's library for {self.target.rust} isn't installed ({by})"


def lacking(target):
    """Says what isn't installed to compile for a target, and to run that; nothing if all is."""
    return ", ".join(filter(None, [target.lacking(), needs.lacking(target.runner)]))
