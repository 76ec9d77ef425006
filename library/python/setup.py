"""The version of packaging/version, and a wheel that carries the shared libraries that are built, for the system that
they are for: library/python/build calls this."""
import os
import re
import sys

import setuptools
from setuptools.command.build_py import build_py
from wheel.bdist_wheel import bdist_wheel

HERE = os.path.dirname(os.path.abspath(__file__))
TOP = os.path.join(HERE, "..", "..")
LIBRARIES = {"ECC200_LIBRARY": "library/out/libecc200.so", "ECC200_SAMPLE_LIBRARY": "sampler/out/libecc200_sample.so"}
# The processors of ELF's files by their numbers, as the names of wheels have them.
PROCESSORS = {62: "x86_64", 183: "aarch64", 243: "riscv64"}
# The oldest glibc of a wheel for many systems, by the second number of its version.
OLDEST = 17
# What pip makes the command of under Windows; elsewhere it is a script.
COMMAND = {"console_scripts": ["ecc200 = ecc200.command:main"]}


def built():
    """The shared libraries that go into the wheel, and how they are called there: the sampler's only if it is built."""
    found = {os.environ.get(name) or os.path.join(TOP, path): os.path.basename(path)
             for name, path in LIBRARIES.items()}
    return {path: f"{name[3:-3]}.dll" if path.endswith(".dll") else name for path, name in found.items()
            if name == "libecc200.so" or os.path.isfile(path)}


def platform():
    """The system of the libraries: Windows, or Linux with a processor and the glibc that they ask for at least."""
    if any(path.endswith(".dll") for path in built()):
        return "win_amd64"
    asked, processors = [OLDEST], set()
    for path in built():
        with open(path, "rb") as file:
            library = file.read()
        asked += map(int, re.findall(rb"\bGLIBC_2\.(\d+)", library))
        processors.add(PROCESSORS[int.from_bytes(library[18:20], "little")])
    if len(processors) != 1:
        sys.exit(f"the libraries are for unlike processors: {', '.join(sorted(processors))}")
    return f"manylinux_2_{max(asked)}_{processors.pop()}"


class WithLibraries(build_py):
    def run(self):
        super().run()
        for path, name in built().items():
            self.copy_file(path, os.path.join(self.build_lib, "ecc200", name))


class ForOneSystem(bdist_wheel):
    """The libraries are for one kind of machine, and any Python."""

    def finalize_options(self):
        super().finalize_options()
        self.root_is_pure = False

    def get_tag(self):
        return "py3", "none", platform()


class Binary(setuptools.Distribution):
    """Not pure Python, so that the package goes where such packages go."""

    def has_ext_modules(self):
        return True


with open(os.path.join(TOP, "packaging", "version"), encoding="ascii") as file:
    is_windows = platform() == "win_amd64"
    setuptools.setup(version=file.read().strip(), distclass=Binary,
                     cmdclass={"build_py": WithLibraries, "bdist_wheel": ForOneSystem},
                     options={"build": {"build_base": "out/build"}},  # build is the name of a script here
                     entry_points=COMMAND if is_windows else {}, scripts=[] if is_windows else ["bin/ecc200"])
