#!/usr/bin/env python3
"""The systems that the library is built for besides the one it is proved for, x86-64 under Linux: how each is compiled
for, and how a program for it is run here. All that differs from target to target stands in this list.

    tools/targets.py SCRIPT TRIPLE

prints the C compiler of a target, or says in the name of a script which Debian package has it."""
import os
import platform
import shutil
import sys
from typing import Dict, List, NamedTuple


class Target(NamedTuple):
    """A system with 64-bit addresses and the lowest byte first."""
    triple: str
    tools: str  # how the names of GNU's tools for it begin
    package: str  # the Debian package of its C compiler
    flags: List[str]  # what clang is told beside the triple
    runner: str  # the program that runs its programs here
    loader: str  # where its programs look for what loads them, if they do
    debian: str  # Debian's name for it, if it has one
    rust: str  # Rust's name for it

    @property
    def is_windows(self):
        return "windows" in self.triple

    @property
    def files(self) -> List[str]:
        """The files of the library: the static one, then the shared one and what is linked in its place."""
        return ["libecc200.a", *(["ecc200.dll", "libecc200.dll.a"] if self.is_windows else ["libecc200.so"])]

    @property
    def emulator(self) -> List[str]:
        """The words before a program that run it here: over the system's own libraries for the target, if they are
        installed, and otherwise over those of the compiler."""
        is_bare = self.loader and not os.path.exists(self.loader)
        return [self.runner, *(["-L", f"/usr/{self.tools}"] if is_bare else [])]

    def tool(self, name):
        """The name of one of GNU's tools, such as gcc or nm."""
        return f"{self.tools}-{name}"

    def lacking(self):
        """Says which compiler isn't installed; nothing if it is."""
        compiler = self.tool("gcc")
        return "" if shutil.which(compiler) else f"{compiler} isn't installed (Debian package {self.package})"


TARGETS: Dict[str, Target] = {it.triple: it for it in [
    Target("aarch64-unknown-linux-gnu", "aarch64-linux-gnu", "gcc-aarch64-linux-gnu", [],
           "qemu-aarch64", "/lib/ld-linux-aarch64.so.1", "arm64", "aarch64-unknown-linux-gnu"),
    Target("riscv64-unknown-linux-gnu", "riscv64-linux-gnu", "gcc-riscv64-linux-gnu",
           ["-march=rv64gc", "-mabi=lp64d"], "qemu-riscv64", "/lib/ld-linux-riscv64-lp64d.so.1", "riscv64",
           "riscv64gc-unknown-linux-gnu"),
    Target("x86_64-w64-windows-gnu", "x86_64-w64-mingw32", "gcc-mingw-w64-x86-64", [], "wine", "", "",
           "x86_64-pc-windows-gnu"),
]}


def files_of(target):
    """The files of the library for a target, or for this system if it is None."""
    return target.files if target else ["libecc200.a", "libecc200.so"]


def here():
    """The triple of this system, whether or not there is a library for it."""
    return f"{platform.machine()}-unknown-{sys.platform}-gnu"


def named(triple, script):
    """The target with this triple and a compiler; ends the script in words if there is none."""
    if triple not in TARGETS:
        sys.exit(f"{script}: no such target: {triple}; there are {', '.join(TARGETS)}")
    if reason := TARGETS[triple].lacking():
        sys.exit(f"{script}: {reason}")
    return TARGETS[triple]


def main():
    print(named(sys.argv[2], sys.argv[1]).tool("gcc"))


if __name__ == "__main__":
    main()
