"""What is said where the toolchain isn't installed and nothing is built, in one line; and the first look's program."""
import os
import shutil
import subprocess
import unittest

from tests.support import commands, needs, places
from tests.support.case import Case

PATH = "/usr/bin:/bin"
LINE = "isn't built, and the toolchain that would prove it (rt) isn't on the path"


def copied(kind):
    """A copy of the sources for a class, with nothing that is built."""
    left = shutil.ignore_patterns(".git", "out", "__pycache__", "must-fail")
    return shutil.copytree(places.TOP, os.path.join(kind.folder_of_class(), "sources"), symlinks=True, ignore=left)


@unittest.skipIf(shutil.which("rt", path=PATH), "the toolchain stands where programs of the system do")
class ToolchainAbsent(Case):
    @classmethod
    def setUpClass(cls):
        cls.sources = copied(cls)

    def test_each_target_says_what_is_not_built(self):
        for target, what in (("build", "the program"), ("dist", "the program"), ("library", "the library"),
                             ("compiled", "the library"), ("page", "the library")):
            done = commands.run(["make", "-C", self.sources, target], env=commands.environment(PATH=PATH))
            said = [line for line in done.errors.decode().splitlines() if not line.startswith("make")]
            self.assertNotEqual(done.status, 0)
            self.row(target, [line.partition(": ")[2] for line in said], [f"{what} {LINE}"])

    def test_a_first_look_says_it_too(self):
        done = commands.run(["make", "-C", self.sources, "try"], env=commands.environment(PATH=PATH))
        self.assertIn(LINE.replace("prove", "compile"), done.errors.decode())


@needs.toolchain
class FirstLook(Case):
    """The program of demo/, where it isn't built."""

    @classmethod
    def setUpClass(cls):
        cls.words = os.path.join(copied(cls), "demo", "dm_tool")

    def test_input_that_comes_late_is_answered(self):
        with subprocess.Popen(["sh", "-c", "sleep 3; echo 123456"], stdout=subprocess.PIPE) as late:
            done = commands.run([self.words, "write"], stdin=late.stdout)
        self.assertEqual((done.status, done.output.split(b"\n")[:2]), (0, [b"1010101010", b"1100101101"]))

    def test_help_says_how_it_is_called(self):
        done = commands.run([self.words, "--help"])
        self.assertEqual((done.status, done.errors), (0, b""))
        self.assertRegex(done.output, rb"\Ausage: dm_tool read\|check .*\n\Z")
