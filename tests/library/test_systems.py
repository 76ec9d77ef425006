"""The library on this system and on others, each of these by its emulator: the requests of cases.py by each of its
callers, hostile arguments, threads, the stack, names, and the examples, in Python on ARM where Debian's can be had."""
import functools
import os
import unittest

from tests.library import conduct, shuffled
from tests.library.callers import HERE as SOURCES, SANITISED, WARNINGS, Callers, has_sanitisers
from tests.library.library import EXAMPLES, compiled, interface, lacking_rust
from tests.library.systems import HERE, Emulated, lacking, targets
from tests.support import commands, needs, places
from tests.support.case import Case

# The most bytes of stack that a call takes, and how many calls threads.c measures.
STACK, MEASURED = 49_152, 17


class OnSystem:
    rounds, rounds_of_threads = 300, 8  # fewer than where nothing is emulated, which takes ten to fifty times as long

    def callers(self):
        return Callers(places.LIBRARY, self.system.built, self.folder(), interface(), self.system)

    def program(self, source, *flags):
        """A C file of these tests, compiled over the static library."""
        made, problem = compiled(os.path.join(SOURCES, source), self.folder(), *flags, system=self.system)
        self.sound(f"{source} is compiled", problem)
        return made

    def example(self, language, words, is_shared=False):
        """That an example that these words compile prints what each does, with the libraries beside it or without."""
        folder = self.folder()
        made = os.path.join(folder, f"example{self.system.ending}")
        status, told = commands.said([*words, "-o", made])
        env = self.system.beside(folder, self.system.built) if is_shared else None
        got = (status, told) if status else self.system.said([made], env=env)
        self.row(f"the example in {language}", got, (0, conduct.shown()))

    def example_in_python(self):
        env = commands.environment(PYTHONPATH=places.PACKAGE, ECC200_LIBRARY=self.system.shared)
        got = commands.said([self.system.python, os.path.join(EXAMPLES, "example.py")], env=env)
        self.row("the example in Python", got, (0, conduct.shown()))

    def test_c(self):
        self.all_sound(self.callers().in_c_with("C", "-O2"))

    def test_the_example_in_c(self):
        words = [self.system.cc, "-std=c11", "-O2", *WARNINGS, f"-I{places.LIBRARY}", f"{EXAMPLES}/example.c"]
        self.example("C", [*words, *self.system.flags, self.system.archive])
        linked = "libecc200.dll.a" if self.system.is_windows else "libecc200.so"
        self.example("C with the shared library", [*words, os.path.join(self.system.built, linked)], is_shared=True)

    def test_the_example_in_cpp(self):
        self.skip_for(needs.lacking(self.system.cxx))
        self.example("C++", [self.system.cxx, "-std=c++17", "-O2", *WARNINGS, *self.system.flags,
                             f"-I{places.LIBRARY}", os.path.join(EXAMPLES, "example.cpp"), self.system.archive])

    def test_the_example_in_rust(self):
        self.skip_for(lacking_rust(self.system))
        self.example("Rust", [*self.system.rustc()[0], "--edition", "2021", "-O", "-D", "warnings", "-L",
                              f"native={self.system.built}", "-l", "static=ecc200",
                              os.path.join(EXAMPLES, "example.rs")])

    def random_calls(self, *flags):
        program = self.program("hostile.c", *flags)
        for extent in (0, 1) if program else ():
            status, told = self.system.said([program, str(self.rounds), str(extent)])
            self.row(f"{self.rounds} rounds in extent {extent}", (status, told[-2000:] * (status != 0)), (0, ""))

    def test_random_calls(self):
        self.random_calls()

    def test_eight_threads_with_small_stacks_and_the_stack_of_each_call(self):
        if program := self.program("threads.c", "-pthread"):
            status, told = self.system.said([program, "128", str(self.rounds_of_threads)])
            self.row("eight threads with stacks of 128 KiB", (status, told[-2000:] * (status != 0)), (0, ""))
            taken = [line.rsplit(" ", 1) for line in told.splitlines()] if status == 0 else []
            self.row("calls that are measured", len(taken), MEASURED)
            for name, count in taken:
                self.sound(f"the stack of {name}", None if 0 < int(count) < STACK else f"{count} bytes")

    def test_names_and_data(self):
        self.skip_for(needs.lacking(self.system.nm))
        self.all_sound(conduct.names(self.system))
        self.all_sound(conduct.unwound(self.system))


@needs.library
class Here(OnSystem, Case):
    """This system, with the sanitisers too, and by the callers in C++, Rust and Python."""
    system, rounds, rounds_of_threads = HERE, 20_000, 300

    def test_c_with_the_sanitisers(self):
        self.skip_for(not has_sanitisers(self.folder()) and "cc has no sanitisers")
        self.all_sound(self.callers().in_c_with_sanitisers())

    @needs.programs("c++")
    def test_cpp(self):
        self.all_sound(self.callers().in_cpp())

    def test_rust(self):
        self.skip_for(lacking_rust())
        self.all_sound(self.callers().in_rust())

    def test_python(self):
        self.all_sound(self.callers().in_python())

    def test_the_example_in_python(self):
        self.example_in_python()

    def test_random_calls_with_the_sanitisers(self):
        self.skip_for(not has_sanitisers(self.folder()) and "cc has no sanitisers")
        self.random_calls("-g", *SANITISED)

    def test_what_is_refused_for_its_counts_is_not_looked_at(self):
        self.row("refusals of what can't be read", commands.said([self.program("unseen.c")]), (0, ""))


@functools.cache
def made(triple):
    """Builds the library for a target, and says what is wrong, if anything is."""
    status, told = commands.said([places.path("library", "build"), "--target", triple], timeout=7200)
    return None if status == 0 else f"library/build --target {triple}: status {status}: {told[-2000:]}"


def target(triple):
    """Marks a class whose cases run on this target; it is left out where something isn't installed."""
    def marked(kind):
        kind.target = targets.TARGETS[triple]
        reason = "another library is taken" if places.OTHER_LIBRARY else lacking(kind.target)
        return unittest.skip(reason)(kind) if reason else needs.library(kind)
    return marked


class OnTarget(OnSystem):
    @classmethod
    def setUpClass(cls):
        super().setUpClass()
        if problem := made(cls.target.triple):
            raise AssertionError(problem)
        cls.system = Emulated(cls.target, cls.folder_of_class())
        cls.addClassCleanup(cls.system.end)

    @needs.toolchain
    def test_the_shuffle(self):
        self.assertIsNone(shuffled.wrong(self.system, self.folder()))


# What runs it, by which Python calls itself as well; what it compiles is kept, since each start needs that.
ARM_COMMAND = """#!/bin/sh
export PYTHONHOME=/usr PYTHONDONTWRITEBYTECODE= PYTHONPYCACHEPREFIX='{root}/compiled'
exec qemu-aarch64 -0 "$0" -L '{root}' '{root}/usr/bin/python3' "$@"
"""


def arm_python(folder):
    """Unpacks Debian's Python for arm64 and all that it stands on, and gives the path of a command that runs it by an
    emulator, or None and why it can't be had. Nothing outside the folder changes."""
    root, made = os.path.join(folder, "root"), os.path.join(folder, "python3")
    status, said = needs.debian(root, ["python3"], "--variant=extract", "--architectures=arm64", "--skip=check/qemu")
    if status:
        return None, said.strip().splitlines()[-1:]
    places.wrote(ARM_COMMAND.format(root=root), made)
    os.chmod(made, 0o755)
    return made, None


@target("aarch64-unknown-linux-gnu")
class AArch64(OnTarget, Case):
    """64-bit ARM, under Linux."""

    def test_python(self):
        self.skip_for(needs.lacking("mmdebstrap", "qemu-aarch64") or os.geteuid() and "root alone can unpack Debian")
        self.system.python, problem = arm_python(self.folder())
        self.skip_for(problem and f"Python for arm64 can't be had ({problem})")
        self.all_sound(self.callers().in_python())
        self.example_in_python()


@target("riscv64-unknown-linux-gnu")
class RiscV64(OnTarget, Case):
    """64-bit RISC-V, under Linux."""


@target("x86_64-w64-windows-gnu")
class Windows(OnTarget, Case):
    """x86-64, under Windows."""
